#!/usr/bin/env bash
# Measures how many lines a second `step` processes: a script of 200,000 lines, with broadcasts over lines of 4, 8 and 32
# bridges, since the cost of an event must not grow with them; and how many `flat` processes: as many frames at three
# ports.
set -eu
cd -- "$(dirname -- "$0")/.."

lines=200000
. bench/tools.sh
folder=$(mktemp -d)
trap 'rm -rf -- "$folder"' EXIT

# Prints a plan of $1 bridges in a line, with a customer port at each.
plan() {
    printf '[[service]]\nname = "lan"\nvid = 100\n'
    for b in $(seq "$1"); do
        printf '[[bridge]]\nname = "B%d"\naddress = "02-00-00-00-00-%02x"\n' "$b" "$b"
        printf '[[port]]\nname = "C%d"\nbridge = "B%d"\nport = 3\nservice = "lan"\n' "$b" "$b"
    done
    for l in $(seq $(($1 - 1))); do
        printf '[[link]]\nname = "L%d"\na = "B%d"\na_port = 1\nb = "B%d"\nb_port = 2\n' "$l" "$l" "$((l + 1))"
    done
}

# Prints the script for $1 bridges: broadcasts of 64 octets enter at C1, cross all bridges and leave each other customer
# port.
script() {
    awk -v lines="$lines" -v bridges="$1" 'BEGIN {
        payload = sprintf("%0100d", 0)
        frame = "ffffffffffff0200000001010800" payload
        round = "poll C1 " frame "\nfeed C1\nreceive B1 3\n"
        count = 3
        for (b = 1; b < bridges; b++) {
            round = round "transmit B" b " 1\ntake L" b " ab\nput L" b " ab\nreceive B" b + 1 " 2\n"
            round = round "transmit B" b + 1 " 3\ndeliver C" b + 1 "\n"
            count += 6
        }
        for (n = 0; n + count <= lines; n += count) printf "%s", round
        for (; n < lines; n++) print "feed C1"
    }'
}

# Writes as many lines for `flat`, all with the same broadcast.
frames() {
    awk -v lines="$lines" 'BEGIN {
        frame = "ffffffffffff0200000001010800" sprintf("%0100d", 0)
        for (n = 0; n < lines; n++) print "in 1 " frame
    }' >"$folder/frames"
}

# Runs a command on a file three times, and prints the best rate.
measure() {
    name=$1
    input=$2
    shift 2
    best=
    for _ in 1 2 3; do
        TIMEFORMAT=%R
        seconds=$({ time "$@" <"$input" >"$folder/$name.out"; } 2>&1)
        best=$(printf '%s %s\n' "${best:-$seconds}" "$seconds" | awk '{ print ($1 < $2) ? $1 : $2 }')
    done
    awk -v name="$name" -v lines="$lines" -v seconds="$best" 'BEGIN {
        rate = lines / (seconds > 0 ? seconds : 0.001)
        printf "%s: %.0f lines per second (%s s)\n", name, rate, seconds
    }'
}

find_program
print_machine
export GLIBC_TUNABLES=${GLIBC_TUNABLES-glibc.malloc.hugetlb=1}
for bridges in 4 8 32; do
    plan "$bridges" >"$folder/$bridges.toml"
    script "$bridges" >"$folder/$bridges.steps"
    measure "step, $bridges bridges" "$folder/$bridges.steps" "$program" step "$folder/$bridges.toml"
    grep '^forest' "$folder/step, $bridges bridges.out"
done
frames
measure flat "$folder/frames" "$program" flat 3
