#!/usr/bin/env python3
"""Runs a line between two ports that stay, one with `listen` and one with `path`. Its hosts leave in turn, by close and by
reset, each time within a frame, and come back. All frames that a host sent have to arrive at the other, whole and in order, and
standard error has to count them. The exit status is 0 if they did each time.

    interop/comeback.py [--turns N] [--frames N]
"""

import argparse
import os
import queue
import socket
import struct
import subprocess
import sys
import threading
import time

from common import PROGRAM, Folder, need_program, wait_for

# The launcher starts the program alone.
PLAIN = {**os.environ, "PBNET_PLAIN": "1"}

PLAN = """
[network]
lossless = true

[[bridge]]
name = "West"
address = "02-00-00-00-00-01"

[[service]]
name = "wire"
vid = 100

[[port]]
name = "left"
bridge = "West"
port = 1
service = "wire"
kind = "socket"
listen = "left.sock"
stay = true

[[port]]
name = "right"
bridge = "West"
port = 2
service = "wire"
kind = "socket"
path = "right.sock"
stay = true
"""

ADDRESSES = {"left": b"\x02\0\0\0\0\x0a", "right": b"\x02\0\0\0\0\x0b"}
OTHER = {"left": "right", "right": "left"}


class Lines:
    """The lines of standard error, as they come."""

    def __init__(self, stream):
        self.lines = queue.SimpleQueue()
        threading.Thread(target=self.read, args=(stream,), daemon=True).start()

    def read(self, stream):
        for line in stream:
            self.lines.put(line.decode().rstrip("\n"))

    def next(self):
        """Returns the next line, or None if none comes in ten seconds."""
        try:
            return self.lines.get(timeout=10)
        except queue.Empty:
            return None


def frame(side, turn, number):
    """Returns a frame of a host, with its length before it."""
    octets = ADDRESSES[OTHER[side]] + ADDRESSES[side] + b"\x88\xb5" + struct.pack(">II", turn, number)
    octets += bytes(37 * number % 1400)
    return struct.pack(">H", len(octets)) + octets


def take(stream, count):
    """Returns so many octets of a stream."""
    octets = b""
    while len(octets) < count:
        part = stream.recv(count - len(octets))
        if not part:
            return octets
        octets += part
    return octets


def peek(stream, count):
    """Returns so many octets of a stream once they are there, and leaves them."""
    until = time.monotonic() + 10
    octets = b""
    while len(octets) < count and time.monotonic() < until:
        octets = stream.recv(count, socket.MSG_PEEK)
        time.sleep(0.001)
    return octets


def arrive(stream, side, turn, count):
    """Checks that the frames of a host arrive, in order, and nothing else."""
    wanted = b"".join(frame(side, turn, number) for number in range(count))
    return take(stream, len(wanted)) == wanted


class Hosts:
    """The two hosts: one connects to its port, and the port of the other connects to it."""

    def __init__(self, folder):
        self.folder = folder
        self.streams = {}
        self.listener = socket.socket(socket.AF_UNIX, socket.SOCK_STREAM)
        self.listener.bind(str(folder / "right.sock"))
        self.listener.listen()
        self.listener.settimeout(10)

    def come(self, side):
        if side == "right":
            stream, _ = self.listener.accept()
        else:
            stream = socket.socket(socket.AF_UNIX, socket.SOCK_STREAM)
            stream.connect(str(self.folder / "left.sock"))
        stream.settimeout(10)
        self.streams[side] = stream

    def visit(self, side, turn, count, resets):
        """Has a host send frames, receive as many, and leave within a frame. Returns whether all frames arrived."""
        here, there = self.streams[side], self.streams[OTHER[side]]
        here.sendall(b"".join(frame(side, turn, number) for number in range(count)))
        is_whole = arrive(there, side, turn, count)
        there.sendall(b"".join(frame(OTHER[side], turn, number) for number in range(count)))
        # What is not read when a host closes its socket makes the close a reset.
        is_whole &= arrive(here, OTHER[side], turn, count - resets)
        if resets:
            last = frame(OTHER[side], turn, count - 1)
            is_whole &= peek(here, len(last)) == last
        here.sendall(frame(side, turn, count)[:-1])
        here.close()
        return is_whole


def come_back(folder, turns, count):
    """Returns how often a host came back, all frames had arrived, and the lines were right."""
    (folder.path / "plan.toml").write_text(PLAN, encoding="utf-8")
    hosts = Hosts(folder.path)
    run = folder.start(PROGRAM, "run", "plan.toml", "--control", "run.sock", env=PLAIN, stderr=subprocess.PIPE)
    lines = Lines(run.stderr)
    wait_for(folder.path / "left.sock")
    hosts.come("right")
    is_right = lines.next() == "port right: peer connected"
    hosts.come("left")
    is_right &= lines.next() == "port left: peer connected"
    frames = {"left": 0, "right": 0}
    good = 0
    for turn in range(turns):
        side, resets = ("left", "right")[turn % 2], turn // 2 % 2
        is_good = hosts.visit(side, turn, count, resets)
        frames = {name: frames[name] + count for name in frames}
        is_good &= lines.next() == f"port {side}: peer left: {frames[side]} frames in, {frames[side]} out, 1 dropped"
        frames[side] = 0
        hosts.come(side)
        is_good &= lines.next() == f"port {side}: peer connected"
        good += is_good
    stop = [PROGRAM, "control", "run.sock", "stop"]
    subprocess.run(stop, cwd=folder.path, env=PLAIN, check=False, stdout=subprocess.DEVNULL)
    is_right &= run.wait(10) == 0
    return good if is_right else 0


def main():
    words = argparse.ArgumentParser(description=__doc__, formatter_class=argparse.RawDescriptionHelpFormatter)
    words.add_argument("--turns", type=int, default=20, help="times that a host leaves and comes back (default 20)")
    words.add_argument("--frames", type=int, default=50, help="frames in each direction between two (default 50)")
    given = words.parse_args()
    need_program()
    with Folder() as folder:
        good = come_back(folder, given.turns, given.frames)
    print(f"{good} of {given.turns}")
    return 0 if good == given.turns else 1


if __name__ == "__main__":
    sys.exit(main())
