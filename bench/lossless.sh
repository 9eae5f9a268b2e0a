#!/usr/bin/env bash
# Counts the frames that are missing after a run between captures with queues of the default length: 200,000 broadcasts
# of 64 octets cross one bridge, and then a line of four. A lossless run misses none; for comparison each runs with
# `lossless = false` too. The exit status is 1 if a lossless run misses one.
set -eu
cd -- "$(dirname -- "$0")/.."

frames=200000
. bench/tools.sh
folder=$(mktemp -d)
trap 'rm -rf -- "$folder"' EXIT

# Prints a plan of $1 bridges in a line, between captures at the first and the last. $2 is the value of `lossless`.
plan() {
    local b port
    printf '[network]\nlossless = %s\n[[service]]\nname = "lan"\nvid = 100\n' "$2"
    for b in $(seq "$1"); do
        printf '[[bridge]]\nname = "B%d"\naddress = "02-00-00-00-00-0%d"\n' "$b" "$b"
    done
    for b in $(seq 2 "$1"); do
        printf '[[link]]\nname = "L%d"\na = "B%d"\na_port = 1\nb = "B%d"\nb_port = 2\n' "$b" "$((b - 1))" "$b"
    done
    for port in 3 4; do
        if [ "$port" = 3 ]; then b=1 read=all; else b=$1 read=none; fi
        printf '[[port]]\nname = "C%d"\nbridge = "B%d"\nport = %d\n' "$port" "$b" "$port"
        printf 'service = "lan"\nkind = "capture"\n'
        printf 'read = "%s/%s.pcap"\nwrite = "%s/C%d.pcap"\n' "$folder" "$read" "$folder" "$port"
    done
}

# Writes a capture without a frame, and one with all broadcasts.
captures() {
    perl -e 'print pack("H*", "d4c3b2a1020004000000000000000000ffff000001000000")' >"$folder/none.pcap"
    cp -- "$folder/none.pcap" "$folder/all.pcap"
    perl -e 'my $record = "00000000000000004000000040000000ffffffffffff0200000001010800" . "0" x 100;
        print pack("H*", $record) for 1 .. shift' "$frames" >>"$folder/all.pcap"
}

find_program
print_machine
captures
status=0
for bridges in 1 4; do
    for lossless in true false; do
        plan "$bridges" "$lossless" >"$folder/plan.toml"
        "$program" run "$folder/plan.toml" >"$folder/out" 2>"$folder/errors"
        left=$(sed -n 's/^port C4 entered 0 left \([0-9]*\) .*/\1/p' "$folder/out")
        echo "bridges $bridges, lossless $lossless: $((frames - left)) of $frames frames missing"
        if [ "$lossless" = true ] && [ "$left" != "$frames" ]; then
            status=1
        fi
    done
done
exit "$status"
