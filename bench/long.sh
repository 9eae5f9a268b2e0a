#!/usr/bin/env bash
# Measures whether memory grows with the number of frames. One million broadcasts of 64 octets and then ten million pass
# `run`, as one bridge between two captures, and `flat 3`, as lines. Prints the frames that left or the lines, the seconds, and
# the most resident memory. The captures need a gigabyte each way.
set -eu
cd -- "$(dirname -- "$0")/.."

if ! command -v python3 >/dev/null 2>&1; then
    echo "error: python3 is not on PATH" >&2
    exit 1
fi
. bench/tools.sh
find_program
print_machine
folder=$(mktemp -d)
trap 'rm -rf -- "$folder"' EXIT

plan() {
    printf '[network]\nring = 4096\n[[service]]\nname = "lan"\nvid = 100\n'
    printf '[[bridge]]\nname = "B1"\naddress = "02-00-00-00-00-01"\nqueue = 4096\n'
    for c in 1 2; do
        if [ "$c" = 1 ]; then read=all; else read=none; fi
        printf '[[port]]\nname = "C%d"\nbridge = "B1"\nport = %d\nservice = "lan"\nqueue = 4096\nkind = "capture"\n' "$c" "$c"
        printf 'read = "%s/%s.pcap"\nwrite = "%s/C%d.pcap"\n' "$folder" "$read" "$folder" "$c"
    done
}

plan >"$folder/plan.toml"
for millions in 1 10; do
    python3 - "$folder" "$millions" "$program" <<'PYTHON'
import re, subprocess, sys, threading, time

folder, millions, program = sys.argv[1], int(sys.argv[2]), sys.argv[3]
head = bytes.fromhex("d4c3b2a1020004000000000000000000ffff000001000000")
record = bytes.fromhex("00000000000000004000000040000000" "ffffffffffff0200000001010800") + bytes(50)
open(f"{folder}/none.pcap", "wb").write(head)
with open(f"{folder}/all.pcap", "wb") as file:
    file.write(head)
    for _ in range(1000 * millions):
        file.write(record * 1000)


def watch(process):
    """Returns the most resident memory of a process in KiB, after its end. (The figure that the system gives for an ended
    process includes this program's own memory from before the start.)"""
    most = 0
    while process.poll() is None:
        with open(f"/proc/{process.pid}/status") as file:
            found = re.search(r"VmHWM:\s+(\d+)", file.read())
        most = max(most, int(found[1]) if found else 0)
        time.sleep(0.02)
    return most


def feed(pipe, text, times):
    with pipe:
        for _ in range(times):
            pipe.write(text)


def show(name, count, what, seconds, most):
    print(f"{name}, {millions},000,000 frames: {count:,} {what} in {seconds:.1f} s, {count / seconds:,.0f} a second, "
          f"{most / 1024:.1f} MiB resident at most", flush=True)


began = time.monotonic()
ran = subprocess.Popen([program, "run", f"{folder}/plan.toml"], stdout=subprocess.PIPE, text=True)
most = watch(ran)
seconds = time.monotonic() - began
lines = ran.stdout.read().splitlines()
left = next(int(it.split()[5]) for it in lines if it.startswith("port C2 "))
show(f"run, {lines[0]}", left, "left", seconds, most)

text = b"in 1 ffffffffffff0200000001010800" + b"00" * 50 + b"\n"
began = time.monotonic()
ran = subprocess.Popen([program, "flat", "3"], stdin=subprocess.PIPE, stdout=subprocess.DEVNULL)
threading.Thread(target=feed, args=(ran.stdin, text * 1000, 1000 * millions), daemon=True).start()
most = watch(ran)
show("flat", 1_000_000 * millions, "lines", time.monotonic() - began, most)
PYTHON
done
