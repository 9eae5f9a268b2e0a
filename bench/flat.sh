#!/usr/bin/env bash
# Measures how many lines a second `flat` processes: 200,000 frames of 64 octets between 256 stations at three ports, half of
# them broadcast; and the same with 4,096 stations, which fill the learning table. If rustc is installed, a plain program
# with the same output, bench/flat_yardstick.rs, runs in turn with it, and the outputs are compared.
#
#     ROUNDS=N       the rounds, 31 by default; the best time and the median are printed
#     YARDSTICK=FILE the source of another program to compare with
#     PBNET=FILE     another program to measure
set -eu
cd -- "$(dirname -- "$0")/.."

lines=200000
rounds=${ROUNDS:-31}
yardstick=${YARDSTICK:-bench/flat_yardstick.rs}
. bench/tools.sh
folder=$(mktemp -d)
trap 'rm -rf -- "$folder"' EXIT

# Writes the frames between $1 stations. Each station sends one frame at first. The generator of Park and Miller gives the
# same frames each time.
frames() {
    awk -v lines="$lines" -v stations="$1" '
        function next_number() { x = (x * 16807) % 2147483647; return x }
        BEGIN {
            x = 1
            for (n = 0; n < lines; n++) {
                from = n < stations ? n : next_number() % stations
                to = next_number() % stations
                payload = ""
                while (length(payload) < 100) payload = payload sprintf("%08x", next_number())
                target = next_number() % 2 ? "ffffffffffff" : sprintf("02000000%04x", to)
                printf "in %d %s02000000%04x0800%s\n", 1 + from % 3, target, from, substr(payload, 1, 100)
            }
        }' >"$folder/$1.in"
}

# Runs a command once on the frames between $2 stations, and keeps the seconds.
run() {
    name=$1
    stations=$2
    shift 2
    TIMEFORMAT=%R
    { time "$@" <"$folder/$stations.in" >"$folder/$name.$stations.out"; } 2>>"$folder/$name.$stations.seconds"
}

# Prints the least and the median of the kept seconds.
times() {
    sort -n "$folder/$1.$2.seconds" | awk '{ s[NR] = $1 } END { print s[1], s[int((NR + 1) / 2)] }'
}

# Prints the rates of a program with $2 stations.
print_rates() {
    times "$1" "$2" | awk -v name="$1" -v stations="$2" -v lines="$lines" '{
        printf "%s, %d stations: %.0f lines per second at best (%s s), %.0f by the median (%s s)\n", name, stations, lines / $1, $1, lines / $2, $2
    }'
}

# Prints the ratio of the rates of two programs, or of one program with more and with fewer stations.
compare() {
    { times "$2" "$3"; times "$4" "$5"; } | awk -v name="$1" '
        NR == 1 { best = $1; middle = $2 }
        END { printf "%s: %.2f by the best, %.2f by the medians\n", name, $1 / best, $2 / middle }'
}

# The program is timed without the launcher, which checks the sources at each start.
program=${PBNET-}
[ -n "$program" ] || find_program
print_machine
echo "program: $program"
export GLIBC_TUNABLES=${GLIBC_TUNABLES-glibc.malloc.hugetlb=1}
has_yardstick=
if command -v rustc >/dev/null 2>&1; then
    rustc -O --edition 2021 -o "$folder/yardstick" "$yardstick"
    has_yardstick=1
else
    echo "note: rustc is not on PATH: pbnet is measured alone" >&2
fi
frames 256
frames 4096
for _ in $(seq "$rounds"); do
    for stations in 256 4096; do
        run pbnet "$stations" "$program" flat 3
        [ -z "$has_yardstick" ] || run yardstick "$stations" "$folder/yardstick" 3
    done
done
for stations in 256 4096; do
    print_rates pbnet "$stations"
    if [ -n "$has_yardstick" ]; then
        print_rates yardstick "$stations"
        cmp "$folder/pbnet.$stations.out" "$folder/yardstick.$stations.out" && echo "the outputs are the same"
        compare "pbnet to the yardstick, $stations stations" pbnet "$stations" yardstick "$stations"
    fi
done
compare "pbnet with 4096 stations to 256" pbnet 4096 pbnet 256
