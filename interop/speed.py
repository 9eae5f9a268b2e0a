#!/usr/bin/env python3
"""Measures how many frames a second pass `pbnet run` over sockets, two plain hubs and a VDE switch, in turn.

A sender sends broadcasts to one port, and one or four receivers are at other ports. At most a window of frames is on its
way to the slowest receiver, and no queue overflows. No row fails by its rate, but each frame must arrive.
"""

import argparse
import os
import socket
import statistics
import subprocess
import threading
import time

import captures
import common
from streams import Listener

# Both hubs are interop/hub.c: the first writes each frame by itself, the second all frames of a read at once.
PROGRAMS = ("pbnet run", "hub, each", "hub, all", "VDE")

# A VDE switch loses frames if more than some dozens wait for a plug.
WINDOW = {"pbnet run": 1024, "hub, each": 1024, "hub, all": 1024, "VDE": 32}


def plan(receivers):
    text = '[network]\nring = 1024\n[[bridge]]\nname = "B"\naddress = "02-00-00-00-00-01"\nqueue = 4096\n'
    text += '[[service]]\nname = "s"\nvid = 100\n'
    for place in range(receivers + 1):
        text += f'[[port]]\nname = "p{place}"\nbridge = "B"\nport = {place + 1}\nservice = "s"\nqueue = 4096\n'
        text += captures.socket_port(f"{place}.sock") + "\n"
    return text


def start_listening(folder, words, paths):
    """Starts a program that connects to the driver's sockets, and returns their streams."""
    listeners = [Listener(folder.path / path) for path in paths]
    folder.start(*words)
    return [listener.accept() for listener in listeners]


def start_vde(folder, receivers):
    folder.start("vde_switch", "-s", folder.path / "switch", "-x", stdin=subprocess.PIPE)
    common.wait_for(folder.path / "switch" / "ctl")
    streams = []
    for _ in range(receivers + 1):
        here, there = socket.socketpair()
        folder.start("vde_plug", folder.path / "switch", stdin=there, stdout=there)
        there.close()
        streams.append(here)
    time.sleep(0.5)
    return streams


def start(folder, name, receivers):
    if name == "VDE":
        return start_vde(folder, receivers)
    paths = [f"{place}.sock" for place in range(receivers + 1)]
    if name != "pbnet run":
        common.output("gcc", "-O2", "-o", folder.path / "hub", common.TOP / "interop" / "hub.c")
        return start_listening(folder, ["./hub", name.split()[-1], *paths], paths)
    (folder.path / "plan.toml").write_text(plan(receivers))
    return start_listening(folder, [common.PROGRAM, "run", "plan.toml"], paths)


class Receiver:
    """Counts the octets of a stream, in a thread."""

    def __init__(self, stream, want, moved):
        self.stream, self.want, self.count, self.moved = stream, want, 0, moved
        self.thread = threading.Thread(target=self.receive, daemon=True)
        self.thread.start()

    def receive(self):
        self.stream.settimeout(20)
        room = bytearray(1 << 20)
        try:
            while self.count < self.want and (came := self.stream.recv_into(room)):
                self.count += came
                self.moved.set()
        except (socket.timeout, OSError):
            pass
        self.moved.set()


def measure(name, octets, receivers, frames):
    """Returns the frames a second, and whether all arrived."""
    wire = octets.to_bytes(2, "big") + captures.frame(octets)
    with common.Folder() as folder:
        streams = start(folder, name, receivers)
        moved = threading.Event()
        ends = [Receiver(stream, frames * len(wire), moved) for stream in streams[1:]]
        batch = WINDOW[name] // 4
        burst, window = wire * batch, WINDOW[name] * len(wire)
        since, given = time.monotonic(), 0
        while given < frames * len(wire) and all(end.thread.is_alive() or end.count == end.want for end in ends):
            if given - min(end.count for end in ends) > window - len(burst):
                moved.wait(1)
                moved.clear()
                continue
            streams[0].sendall(burst)
            given += len(burst)
        for end in ends:
            end.thread.join()
        seconds = time.monotonic() - since
        for stream in streams:
            stream.shutdown(socket.SHUT_WR)
        if name != "VDE":
            folder.started[-1].wait(120)
        for stream in streams:
            stream.close()
    return frames / seconds, all(end.count == end.want for end in ends)


def rates(octets, receivers, frames, rounds):
    """Returns the rates of all programs, which run in turn, and whether every frame arrived."""
    found, whole = {name: [] for name in PROGRAMS}, {name: True for name in PROGRAMS}
    for _ in range(rounds):
        for name in PROGRAMS:
            rate, is_whole = measure(name, octets, receivers, frames)
            found[name].append(rate)
            whole[name] &= is_whole
    return found, whole


def cell(values):
    return f"{statistics.median(values) / 1000:.0f} ({min(values) / 1000:.0f} to {max(values) / 1000:.0f})"


def processor():
    """Returns the model of the processor."""
    with open("/proc/cpuinfo", encoding="utf-8") as it:
        return next((line.split(": ", 1)[1].strip() for line in it if line.startswith("model name")), "unknown processor")


def main():
    parser = argparse.ArgumentParser(description=__doc__.split("\n")[0])
    parser.add_argument("--frames", type=int, default=131072, metavar="N", help="the frames of a run [default: 131072]")
    parser.add_argument("--rounds", type=int, default=3, metavar="N", help="the rounds of each row [default: 3]")
    given = parser.parse_args()
    arrived = common.Table("Every frame arrives")
    load = f"{processor()}, {os.cpu_count()} processors, load {os.getloadavg()[0]:.1f}, {time.strftime('%F', time.gmtime())}."
    print(f"Thousand frames a second: the median of {given.rounds} rounds, the least and the most. {load}\n", flush=True)
    heads = ["Octets", "Receivers", *PROGRAMS, *(f"pbnet to {name}" for name in PROGRAMS[1:])]
    print("| " + " | ".join(heads) + " |\n|" + "---:|" * len(heads))
    for octets in (64, 1500):
        for receivers in (1, 4):
            found, whole = rates(octets, receivers, given.frames, given.rounds)
            middle = {name: statistics.median(found[name]) for name in PROGRAMS}
            ratios = [f"{middle['pbnet run'] / middle[name]:.2f}" for name in PROGRAMS[1:]]
            print(
                "| "
                + " | ".join([str(octets), str(receivers), *(cell(found[name]) for name in PROGRAMS), *ratios])
                + " |",
                flush=True,
            )
            here, there = whole["pbnet run"], all(whole[name] for name in PROGRAMS[1:])
            arrived.row(f"{octets} octets, {receivers} receivers", here, there)
    print()
    common.finish(arrived)


if __name__ == "__main__":
    main()
