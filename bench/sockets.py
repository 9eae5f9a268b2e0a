#!/usr/bin/env python3
"""Sends three million broadcasts of 64 octets from a peer of one socket port to a peer of another, over one bridge,
and checks what comes: each octet in order, `ended drained` and the counts of the report, and the exit status of a
strict run. Prints the seconds and the rate. The exit status is 1 if something is missing or differs.

    bench/sockets.py [--frames N]

The program is ./pbnet, or that of the variable PBNET.
"""

import argparse
import os
import pathlib
import socket
import subprocess
import sys
import tempfile
import threading
import time

TOP = pathlib.Path(__file__).resolve().parent.parent
PROGRAM = os.path.abspath(os.environ.get("PBNET") or TOP / "pbnet")
# The launcher starts the program alone.
PLAIN = {**os.environ, "PBNET_PLAIN": "1"}
PLAN = """\
[network]
lossless = true
turns = 1000000000

[[bridge]]
name = "B1"
address = "02-00-00-00-00-01"

[[service]]
name = "lan"
vid = 100

[[port]]
name = "C1"
bridge = "B1"
port = 1
service = "lan"
kind = "socket"
path = "C1.sock"

[[port]]
name = "C2"
bridge = "B1"
port = 2
service = "lan"
kind = "socket"
path = "C2.sock"
"""
# So many frames differ from each other, and then they begin again.
BLOCK = 10_000


def frame(number):
    """Returns a broadcast of 64 octets with a number, after its length."""
    octets = bytes.fromhex("ffffffffffff0200000001010800") + number.to_bytes(4, "big") + bytes(46)
    return len(octets).to_bytes(2, "big") + octets


def listen(path):
    listening = socket.socket(socket.AF_UNIX, socket.SOCK_STREAM)
    listening.bind(str(path))
    listening.listen(1)
    listening.settimeout(60)
    return listening


def send(stream, block, frames):
    """Sends the frames of the block again and again, and ends the direction."""
    with stream:
        for _ in range(frames // BLOCK):
            stream.sendall(block)
        stream.sendall(block[: len(block) // BLOCK * (frames % BLOCK)])
        stream.shutdown(socket.SHUT_WR)
        stream.recv(1)


def take(stream, block):
    """Returns the number of octets that come, up to the first that differs."""
    twice, count = block + block, 0
    stream.shutdown(socket.SHUT_WR)
    with stream:
        while part := stream.recv(len(block)):
            at = count % len(block)
            if part != twice[at : at + len(part)]:
                return count
            count += len(part)
    return count


def main():
    reader = argparse.ArgumentParser(description=__doc__.splitlines()[0])
    reader.add_argument("--frames", type=int, default=3_000_000)
    frames = reader.parse_args().frames
    block = b"".join(frame(number) for number in range(BLOCK))
    with tempfile.TemporaryDirectory() as made:
        folder = pathlib.Path(made)
        (folder / "plan.toml").write_text(PLAN, encoding="utf-8")
        doors = [listen(folder / name) for name in ("C1.sock", "C2.sock")]
        command = [PROGRAM, "run", "--strict", "plan.toml"]
        pipe = subprocess.PIPE
        ran = subprocess.Popen(command, cwd=folder, env=PLAIN, stdout=pipe, stderr=pipe, text=True)
        near, far = [door.accept()[0] for door in doors]
        began = time.monotonic()
        threading.Thread(target=send, args=(near, block, frames), daemon=True).start()
        octets = take(far, block)
        seconds = time.monotonic() - began
        report, errors = ran.communicate(timeout=60)
    wanted = ["ended drained", f"port C1 entered {frames} left 0 filtered 0",
              f"port C2 entered 0 left {frames} filtered 0", "forest yes"]
    came = octets // (len(block) // BLOCK)
    print(f"{came:,} of {frames:,} frames in {seconds:.1f} s, {came / seconds:,.0f} a second")
    print(report, end="")
    if (octets, report.splitlines(), errors, ran.returncode) == (len(block) // BLOCK * frames, wanted, "", 0):
        return 0
    print(f"error: the run differs: {octets} octets, status {ran.returncode}, errors '{errors}'", file=sys.stderr)
    return 1


if __name__ == "__main__":
    sys.exit(main())
