#!/usr/bin/env bash
# Measures how many seconds `survive` takes. The metro ring of six bridges with two more (examples/access.toml): each link,
# bridge and two links. 32 bridges with 64 links: each link, and each two links too, with one service that has a port at each
# bridge, and with the most services and ports that a plan may have, 64 and 128. Then the seconds of processor time for each two
# links of a ring of 24 bridges.
#
#     bench/survive.sh [PROGRAM]     the program is ./pbnet, or PROGRAM
set -eu
cd -- "$(dirname -- "$0")/.."

. bench/tools.sh
if [ "$#" = 0 ]; then
    find_program
else
    program=$1
fi
folder=$(mktemp -d)
trap 'rm -rf -- "$folder"' EXIT

# Prints a ring of 32 bridges with RSTP and a chord from each bridge to the fifth after it, with $1 services and $2 customer
# ports at each bridge.
plan() {
    awk -v services="$1" -v ports="$2" 'BEGIN {
        print "[network]\nspanning = \"rstp\""
        for (b = 1; b <= 32; b++) printf "[[bridge]]\nname = \"B%d\"\naddress = \"02-00-00-00-00-%02x\"\n", b, b
        for (b = 1; b <= 32; b++) {
            printf "[[link]]\nname = \"ring%d\"\na = \"B%d\"\na_port = 1\nb = \"B%d\"\nb_port = 2\n", b, b, b % 32 + 1
            printf "[[link]]\nname = \"chord%d\"\na = \"B%d\"\na_port = 3\nb = \"B%d\"\nb_port = 4\n", b, b, (b + 4) % 32 + 1
        }
        for (s = 1; s <= services; s++) printf "[[service]]\nname = \"S%d\"\nvid = %d\n", s, s
        for (c = 0; c < 32 * ports; c++) {
            printf "[[port]]\nname = \"C%d\"\nbridge = \"B%d\"\nport = %d\n", c + 1, c % 32 + 1, 5 + int(c / 32)
            printf "service = \"S%d\"\n", c % services + 1
        }
    }'
}

# Prints a ring of 24 bridges with RSTP and a customer port at each.
ring() {
    awk 'BEGIN {
        print "[network]\nspanning = \"rstp\"\n[[service]]\nname = \"S1\"\nvid = 1"
        for (b = 1; b <= 24; b++) {
            printf "[[bridge]]\nname = \"B%d\"\naddress = \"02-00-00-00-00-%02x\"\n", b, b
            printf "[[link]]\nname = \"ring%d\"\na = \"B%d\"\na_port = 1\nb = \"B%d\"\nb_port = 2\n", b, b, b % 24 + 1
            printf "[[port]]\nname = \"C%d\"\nbridge = \"B%d\"\nport = 3\nservice = \"S1\"\n", b, b
        }
    }'
}

# Runs `survive` $2 times, and prints the best time and the last line of the report.
measure() {
    local name=$1 runs=$2 best='' seconds
    shift 2
    for _ in $(seq "$runs"); do
        TIMEFORMAT=%R
        seconds=$({ time "$program" survive "$@" >"$folder/report" || [ "$?" = 4 ]; } 2>&1)
        best=$(printf '%s %s\n' "${best:-$seconds}" "$seconds" | awk '{ print ($1 < $2) ? $1 : $2 }')
    done
    printf '%s: %s s at best of %s: %s\n' "$name" "$best" "$runs" "$(tail -n 1 "$folder/report")"
}

print_machine
plan 1 1 >"$folder/one.toml"
plan 64 4 >"$folder/all.toml"
measure "the metro ring of six with two more" 5 examples/access.toml --bridges --pairs
measure "32 bridges, 64 links" 5 "$folder/one.toml"
measure "32 bridges, 64 links, 64 services, 128 ports" 5 "$folder/all.toml"
measure "32 bridges, 64 links, each two links too" 1 "$folder/one.toml" --pairs
measure "32 bridges, 64 links, 64 services, 128 ports, each two links too" 1 "$folder/all.toml" --pairs
ring >"$folder/ring.toml"
TIMEFORMAT='%U %S'
{ time "$program" survive "$folder/ring.toml" --pairs >"$folder/report" || [ "$?" = 4 ]; } 2>&1 \
    | awk '{ printf "ring of 24 bridges, each two links too: %.2f s of processor time", $1 + $2 }'
printf ': %s\n' "$(tail -n 1 "$folder/report")"
