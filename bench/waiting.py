#!/usr/bin/env python3
"""Measures how fast `run` is where people wait, beside other programs in turn: from capture to capture over one bridge beside
`tcpdump -r IN -w OUT`, over sockets with one receiver beside the plain hubs of interop/hub.c, and through lines of bridges
between captures. No frame may be missing: the exit status is 1 if one is.

    bench/waiting.py [--rounds N] [--frames N] [captures] [sockets] [lines]

The program is ./pbnet, or that of the variable PBNET.
"""

import argparse
import os
import pathlib
import shutil
import statistics
import subprocess
import sys
import tempfile
import time

TOP = pathlib.Path(__file__).resolve().parent.parent
sys.path[:0] = [str(TOP / "interop"), str(TOP / "bench")]

import common  # noqa: E402
import idle  # noqa: E402
import speed  # noqa: E402

LINES = (1, 2, 4, 8, 16, 32)
HEADER = bytes.fromhex("d4c3b2a1020004000000000000000000ffff000001000000")
RECORD = bytes.fromhex("00000000000000004000000040000000ffffffffffff0200000001010800") + bytes(50)


def write_plan(folder, bridges):
    """Writes the plan of a line of bridges without losses, between a capture at each end."""
    kinds = ('kind = "capture"\nread = "in.pcap"\nwrite = "near.pcap"', 'kind = "capture"\nread = "none.pcap"\nwrite = "far.pcap"')
    text = idle.line_of(bridges)
    for name, kind in zip(("first", "last"), kinds):
        text = text.replace(f'kind = "socket"\nlisten = "{name}.sock"', kind)
    (folder / "line.toml").write_text("[network]\nlossless = true\nturns = 1000000000\n" + text)


def seconds_of(folder, *words):
    """Returns the seconds that a command takes."""
    since = time.monotonic()
    subprocess.run(words, cwd=folder, env=idle.PLAIN, stdout=subprocess.DEVNULL, stderr=subprocess.DEVNULL, check=True)
    return time.monotonic() - since


def is_whole(folder, frames):
    return (folder / "far.pcap").stat().st_size == len(HEADER) + frames * len(RECORD)


def median(values):
    return statistics.median(values)


def measure_captures(folder, frames, rounds):
    """Prints the rates of `run` and of tcpdump, and the ratio of the medians."""
    write_plan(folder, 1)
    user = subprocess.run(["id", "-un"], capture_output=True, text=True, check=True).stdout.strip()
    ours, theirs, whole = [], [], True
    for _ in range(rounds):
        ours.append(seconds_of(folder, common.PROGRAM, "run", "line.toml"))
        whole &= is_whole(folder, frames)
        theirs.append(seconds_of(folder, "tcpdump", "-Z", user, "-r", "in.pcap", "-w", "out.pcap"))
    rates = [frames / median(seconds) / 1000 for seconds in (ours, theirs)]
    print(f"captures: {rates[0]:.0f} thousand frames a second, tcpdump {rates[1]:.0f}: {rates[0] / rates[1]:.2f}", flush=True)
    return whole


def measure_sockets(frames, rounds):
    """Prints the rates of `run` and of both hubs, at 64 and 1,500 octets."""
    whole = True
    for octets in (64, 1500):
        rates = {name: [] for name in ("pbnet run", "hub, each", "hub, all")}
        for _ in range(rounds):
            for name, found in rates.items():
                rate, is_all = speed.measure(name, octets, 1, frames)
                found.append(rate / 1000)
                whole &= is_all
        ours, each, every = (median(found) for found in rates.values())
        print(f"sockets, {octets} octets: {ours:.0f} thousand frames a second, {ours / each:.2f} of the hub that writes "
              f"each ({each:.0f}), {ours / every:.2f} of the one that batches ({every:.0f})", flush=True)
    return whole


def measure_lines(folder, frames, rounds):
    """Prints the rate through each line of bridges."""
    whole, rates = True, []
    for bridges in LINES:
        write_plan(folder, bridges)
        seconds = []
        for _ in range(rounds):
            seconds.append(seconds_of(folder, common.PROGRAM, "run", "line.toml"))
            whole &= is_whole(folder, frames)
        rates.append(f"{frames / median(seconds) / 1000:.0f}")
    print(f"lines of {', '.join(map(str, LINES))} bridges: {', '.join(rates)} thousand frames a second", flush=True)
    return whole


def main():
    reader = argparse.ArgumentParser(description=__doc__.split("\n", maxsplit=1)[0])
    reader.add_argument("--rounds", type=int, default=5)
    reader.add_argument("--frames", type=int, default=131072)
    reader.add_argument("rows", nargs="*", metavar="ROW", default=["captures", "sockets", "lines"])
    given = reader.parse_args()
    print(f"{speed.processor()}, {os.cpu_count()} processors, load {os.getloadavg()[0]:.1f}, {time.strftime('%F', time.gmtime())}")
    whole = True
    with tempfile.TemporaryDirectory() as made:
        folder = pathlib.Path(made)
        (folder / "none.pcap").write_bytes(HEADER)
        (folder / "in.pcap").write_bytes(HEADER + RECORD * given.frames)
        if "captures" in given.rows and shutil.which("tcpdump"):
            whole &= measure_captures(folder, given.frames, given.rounds)
        if "sockets" in given.rows:
            whole &= measure_sockets(given.frames, given.rounds)
        if "lines" in given.rows:
            whole &= measure_lines(folder, given.frames, given.rounds)
    if not whole:
        print("error: frames are missing", file=sys.stderr)
    return 0 if whole else 1


if __name__ == "__main__":
    sys.exit(main())
