#!/usr/bin/env bash
# Measures how many frames a second `run` delivers: 20,000 broadcasts of 64 octets cross a line of four bridges, with a
# worker for each place. First between memory ports, whose frames are in the plan file, then between captures, and then
# between sockets with a load client, if python3 is installed. Each is measured three times.
set -eu
cd -- "$(dirname -- "$0")/.."

frames=20000
. bench/tools.sh
folder=$(mktemp -d)
trap 'rm -rf -- "$folder"' EXIT

# Prints a plan of four bridges in a line. The function $1 prints further keys of each customer port.
plan() {
    printf '[network]\nring = 4096\nsteps = 1000000\nturns = 1000000000\n[[service]]\nname = "lan"\nvid = 100\n'
    for b in 1 2 3 4; do
        printf '[[bridge]]\nname = "B%d"\naddress = "02-00-00-00-00-0%d"\nqueue = 4096\n' "$b" "$b"
        printf '[[port]]\nname = "C%d"\nbridge = "B%d"\nport = 3\nservice = "lan"\nqueue = 4096\n' "$b" "$b"
        "$1" "$b"
    done
    for l in 1 2 3; do
        printf '[[link]]\nname = "L%d"\na = "B%d"\na_port = 1\nb = "B%d"\nb_port = 2\n' "$l" "$l" "$((l + 1))"
    done
}

# Prints the broadcasts in hexadecimal digits, one a line. Each has its number.
broadcasts() {
    awk -v frames="$frames" 'BEGIN {
        for (n = 0; n < frames; n++) printf "ffffffffffff0200000001010800%0100x\n", n
    }'
}

memory_keys() {
    if [ "$1" = 1 ]; then
        printf 'in = [\n'
        broadcasts | sed 's/.*/"&",/'
        printf ']\n'
    fi
}

capture_keys() {
    if [ "$1" = 1 ]; then read=all; else read=none; fi
    printf 'kind = "capture"\nread = "%s/%s.pcap"\nwrite = "%s/C%d.pcap"\n' "$folder" "$read" "$folder" "$1"
}

socket_keys() {
    printf 'kind = "socket"\npath = "%s/C%d.sock"\n' "$folder" "$1"
}

# Octets from hexadecimal digits.
octets() {
    if command -v xxd >/dev/null 2>&1; then xxd -r -p; else perl -ne 'chomp; print pack("H*", $_)'; fi
}

# Writes a capture without a frame, and one with all broadcasts.
captures() {
    printf '\324\303\262\241\002\000\004\000\000\000\000\000\000\000\000\000\377\377\000\000\001\000\000\000' >"$folder/none.pcap"
    cp -- "$folder/none.pcap" "$folder/all.pcap"
    broadcasts | sed 's/^/00000000000000004000000040000000/' | octets >>"$folder/all.pcap"
}

# The load client: sends the broadcasts to C1, and reads all sockets until they end.
client() {
    python3 - "$folder" "$frames" <<'CLIENT'
import socket
import sys
import threading

folder, frames = sys.argv[1], int(sys.argv[2])
head = bytes.fromhex("ffffffffffff0200000001010800")
load = b"".join(b"\x00\x40" + head + n.to_bytes(50, "big") for n in range(frames))
listeners = []
for c in range(1, 5):
    listener = socket.socket(socket.AF_UNIX, socket.SOCK_STREAM)
    listener.bind(f"{folder}/C{c}.sock")
    listener.listen(1)
    listeners.append(listener)
print("listening", flush=True)


def serve(listener, octets):
    stream, _ = listener.accept()
    sender = threading.Thread(target=lambda: (stream.sendall(octets), stream.shutdown(socket.SHUT_WR)))
    sender.start()
    while stream.recv(1 << 20):
        pass
    sender.join()


threads = [threading.Thread(target=serve, args=(l, load if c == 0 else b"")) for c, l in enumerate(listeners)]
for thread in threads:
    thread.start()
for thread in threads:
    thread.join()
CLIENT
}

# Prints the seconds that a command takes. Its standard error goes to a file.
seconds_of() {
    TIMEFORMAT=%R
    { time "$@" >"$folder/out" 2>"$folder/errors"; } 2>&1
}

# Runs a plan, and prints how many frames a second were delivered. The time to read the plan file, as `check` takes it, is
# subtracted.
measure() {
    reading=$(seconds_of "$program" check "$folder/$1.toml")
    if [ "$1" = sockets ]; then
        rm -f -- "$folder"/*.sock
        client >"$folder/client" &
        until grep -q listening "$folder/client" 2>/dev/null; do sleep 0.05; done
    fi
    seconds=$(seconds_of "$program" run "$folder/$1.toml")
    wait
    awk -v name="$1" -v seconds="$seconds" -v reading="$reading" -v cores="$(nproc)" '
        NR == 1 { ended = $2 }
        $1 == "port" { left += $6 }
        END {
            spent = seconds - reading
            printf "%s: %d frames delivered, %.0f a second on %d cores (ended %s, %s s, of which %s s read the plan)\n",
                name, left, left / (spent > 0.001 ? spent : 0.001), cores, ended, seconds, reading
        }' "$folder/out"
    cat -- "$folder/errors"
}

find_program
print_machine
plan memory_keys >"$folder/memory.toml"
plan capture_keys >"$folder/captures.toml"
plan socket_keys >"$folder/sockets.toml"
captures
for run in 1 2 3; do
    measure memory
    measure captures
    if command -v python3 >/dev/null 2>&1; then
        measure sockets
    fi
done
