#!/usr/bin/env bash
# Runs lossless networks under load from every port: lines, stars, ladders and rings in which one port is Discarding.
# Each customer port has a capture of 200,000 broadcasts of 64 octets, or of as many as the argument says. A run ends
# after 60 seconds at the latest. Prints whether each ended drained, and how many frames are missing. The exit status
# is 1 if one did not end drained or misses a frame.
set -eu
cd -- "$(dirname -- "$0")/.."

frames=${1:-200000}
. bench/tools.sh
folder=$(mktemp -d)
trap 'rm -rf -- "$folder"' EXIT

# Prints the network and bridges 1 to $1, each with a customer port.
bridges() {
    local b
    printf '[network]\nlossless = true\n[[service]]\nname = "lan"\nvid = 100\n'
    for b in $(seq "$1"); do
        printf '[[bridge]]\nname = "B%d"\naddress = "02-00-00-00-00-%02x"\n' "$b" "$b"
        printf '[[port]]\nname = "C%d"\nbridge = "B%d"\nport = 16\nservice = "lan"\nkind = "capture"\n' "$b" "$b"
        printf 'read = "%s/all.pcap"\nwrite = "%s/C%d.pcap"\n' "$folder" "$folder" "$b"
    done
}

# Prints a link from port $2 of bridge $1 to port $4 of bridge $3. $5 is the state of its first port, if it is not
# Forwarding.
link() {
    printf '[[link]]\nname = "L%d-%d"\na = "B%d"\na_port = %d\nb = "B%d"\nb_port = %d\n' "$1" "$3" "$1" "$2" "$3" "$4"
    if [ $# -gt 4 ]; then
        printf 'a_state = "%s"\n' "$5"
    fi
}

line() {
    local b
    bridges "$1"
    for b in $(seq 2 "$1"); do
        link "$((b - 1))" 1 "$b" 2
    done
}

star() {
    local b
    bridges "$1"
    for b in $(seq 2 "$1"); do
        link 1 "$((b - 1))" "$b" 1
    done
}

# Prints a ring of $1 bridges.
ring() {
    line "$1"
    link "$1" 1 1 2 discarding
}

# Prints two lines of $1 bridges, with a link between the bridges of each rung. Only the first rung is Forwarding.
ladder() {
    local b state
    bridges "$((2 * $1))"
    for b in $(seq 2 "$1"); do
        link "$((b - 1))" 1 "$b" 2
        link "$(($1 + b - 1))" 1 "$(($1 + b))" 2
    done
    link 1 3 "$(($1 + 1))" 3
    for b in $(seq 2 "$1"); do
        link "$b" 3 "$(($1 + b))" 3 discarding
    done
}

# Writes a capture with all broadcasts.
capture() {
    perl -e 'print pack("H*", "d4c3b2a1020004000000000000000000ffff000001000000");
        my $record = "00000000000000004000000040000000ffffffffffff0200000001010800" . "0" x 100;
        print pack("H*", $record) for 1 .. shift' "$frames" >"$folder/all.pcap"
}

# Runs the network $1 of size $2, and prints how it ended.
run_one() {
    local ports end missing
    "$1" "$2" >"$folder/plan.toml"
    "$program" run --seconds 60 "$folder/plan.toml" >"$folder/out" 2>"$folder/errors" || true
    ports=$(grep -c '^\[\[port\]\]' "$folder/plan.toml")
    end=$(head -n 1 "$folder/out")
    missing=$(awk -v frames="$frames" -v ports="$ports" '
        $1 == "port" { entered += $4; left += $6 } END { print frames * ports * (ports - 1) - left }' "$folder/out")
    echo "$1 of $2, $ports ports: $end, $missing frames missing"
    if [ "$end" != "ended drained" ] || [ "$missing" != 0 ]; then
        status=1
    fi
}

find_program
print_machine
capture
status=0
run_one line 4
run_one line 8
run_one star 5
run_one star 9
run_one ladder 3
run_one ring 4
run_one ring 8
exit "$status"
