#!/usr/bin/env bash
# Compares the frames of a capture that a capture port wrote, as tcpdump prints them, with the frames that the port read.
# Root on Debian installs tcpdump if it is missing. The gate does not run this script.
set -eu
cd -- "$(dirname -- "$0")/.."

folder=$(mktemp -d)
trap 'rm -rf -- "$folder"' EXIT
chmod 755 -- "$folder"
. bench/tools.sh

# Three frames, in hexadecimal digits: a broadcast, one with an S-tag, and one of 60 octets.
cat >"$folder/wanted" <<'FRAMES'
ffffffffffff02000000010108004142
02000000010202000000020188a8606408004344
020000000102020000000201080000000000000000000000000000000000000000000000000000000000000000000000000000000000000000000000
FRAMES

# Octets from hexadecimal digits.
octets() {
    printf "$(printf '%s' "$1" | sed 's/../\\x&/g')"
}

# A big-endian capture; the port writes little-endian.
octets a1b2c3d40002000400000000000000000000ffff00000001 >>"$folder/in.pcap"
while read -r frame; do
    len=$(printf '%08x' $((${#frame} / 2)))
    octets "0000000100000000$len$len$frame" >>"$folder/in.pcap"
done <"$folder/wanted"

build_copy "$folder/in.pcap" "$folder/out.pcap"
if ! install_tool tcpdump; then
    echo "error: tcpdump is not installed" >&2
    echo "hint: install it as root: apt-get install tcpdump" >&2
    exit 1
fi
# tcpdump prints a line of text for each frame, and then lines with its octets.
tcpdump -r "$folder/out.pcap" -t -xx 2>/dev/null \
    | awk '/^\t0x/ { line = $0; sub(/^[^:]*:/, "", line); gsub(/[ \t]/, "", line); frame = frame line; next }
           { if (frame) print frame; frame = "" }
           END { if (frame) print frame }' >"$folder/shown"
diff -- "$folder/wanted" "$folder/shown"
echo "the frames are the same"
