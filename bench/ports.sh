#!/usr/bin/env bash
# Measures how many frames a second a capture port reads and writes: it copies a capture of a million records of 64 octets,
# frame by frame. tcpdump copies the same capture, and the last line is the ratio of the two rates. Root on Debian installs
# tcpdump if it is missing.
set -eu
cd -- "$(dirname -- "$0")/.."

frames=1000000
folder=$(mktemp -d)
trap 'rm -rf -- "$folder"' EXIT
chmod 755 -- "$folder"
. bench/tools.sh

# A record of second 0 with 64 octets, doubled until they are a million or more.
printf '\0\0\0\0\0\0\0\0\100\0\0\0\100\0\0\0' >"$folder/records"
printf '\377\377\377\377\377\377\2\0\0\0\0\1\10\0%050d' 0 >>"$folder/records"
size=80
while [ "$size" -lt $((frames * 80)) ]; do
    cat -- "$folder/records" "$folder/records" >"$folder/twice"
    mv -- "$folder/twice" "$folder/records"
    size=$((size * 2))
done
printf '\324\303\262\241\2\0\4\0\0\0\0\0\0\0\0\0\377\377\0\0\1\0\0\0' >"$folder/in.pcap"
head -c $((frames * 80)) -- "$folder/records" >>"$folder/in.pcap"
rm -- "$folder/records"

# Runs a command three times, prints the best rate and leaves it in $rate.
measure() {
    name=$1
    shift
    best=
    for _ in 1 2 3; do
        TIMEFORMAT=%R
        seconds=$({ time "$@" >"$folder/log" 2>&1; } 2>&1)
        best=$(printf '%s %s\n' "${best:-$seconds}" "$seconds" | awk '{ print ($1 < $2) ? $1 : $2 }')
    done
    rate=$(awk -v frames="$frames" -v seconds="$best" 'BEGIN { printf "%.0f", frames / (seconds > 0 ? seconds : 0.001) }')
    echo "$name: $rate frames per second ($best s)"
}

build_copy "$folder/in.pcap" "$folder/out.pcap"
print_machine
measure pb_port "$copy" "$folder/in.pcap" "$folder/out.pcap"
cmp -- "$folder/in.pcap" "$folder/out.pcap"
ours=$rate
if install_tool tcpdump; then
    measure tcpdump tcpdump -Z "$(id -un)" -r "$folder/in.pcap" -w "$folder/theirs.pcap"
    awk -v ours="$ours" -v theirs="$rate" 'BEGIN { printf "ratio: %.2f of tcpdump\n", ours / theirs }'
else
    echo "note: tcpdump is not installed: no ratio" >&2
fi
