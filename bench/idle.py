#!/usr/bin/env python3
"""Measures what a run costs while nothing happens, and how long a frame takes through a line of bridges when it meets sleeping
workers: the share of one processor that 288 workers use with a tick of a second, and the median delay through lines of bridges
with 5 milliseconds between two frames, beside that through a plain hub (interop/hub.c, if gcc is installed).

    bench/idle.py [--seconds N] [--frames N] [--rounds N]

The program is ./pbnet, or that of the variable PBNET.
"""

import argparse
import os
import pathlib
import shutil
import socket
import statistics
import subprocess
import tempfile
import threading
import time

TOP = pathlib.Path(__file__).resolve().parent.parent
PROGRAM = os.path.abspath(os.environ.get("PBNET") or TOP / "pbnet")
# The launcher starts the program alone.
PLAIN = {**os.environ, "PBNET_PLAIN": "1"}


def table(section, **keys):
    """Returns a table of a plan file."""
    lines = [f"{key} = {value}" if isinstance(value, int) else f'{key} = "{value}"' for key, value in keys.items()]
    return "\n".join([f"[[{section}]]", *lines, ""])


def bridge(number):
    return table("bridge", name=f"B{number}", address=f"02-00-00-00-00-{number:02x}")


def line_of(bridges):
    """Returns the plan of a line of bridges with a socket port at each end."""
    parts = [bridge(n) for n in range(1, bridges + 1)]
    parts += [table("link", name=f"L{n}", a=f"B{n}", a_port=2, b=f"B{n + 1}", b_port=1) for n in range(1, bridges)]
    parts += [table("service", name="wire", vid=100)]
    for name, at, port in (("first", 1, 3), ("last", bridges, 4)):
        parts.append(table("port", name=name, bridge=f"B{at}", port=port, service="wire", kind="socket", listen=f"{name}.sock"))
    return "\n".join(parts)


def quiet_network():
    """Returns the plan of 32 bridges in a ring of double links, with 4 ports at each bridge: 288 workers. One port waits for a peer,
    so that the run goes on."""
    parts = ["[network]\nspanning = \"rstp\"\ntick_ms = 1000\n"]
    parts += [bridge(n) for n in range(1, 33)]
    for n in range(1, 33):
        for k in (0, 1):
            parts.append(table("link", name=f"L{n}-{k}", a=f"B{n}", a_port=1 + k, b=f"B{n % 32 + 1}", b_port=3 + k))
    parts += [table("service", name="wire", vid=100)]
    for n in range(1, 33):
        for k in range(4):
            port = {"name": f"C{n}-{k}", "bridge": f"B{n}", "port": 5 + k, "service": "wire"}
            is_last = (n, k) == (32, 3)
            parts.append(table("port", **port, kind="socket", listen="last.sock") if is_last else
                         table("port", **port, kind="memory").rstrip() + "\nin = []\n")
    return "\n".join(parts)


def processor_time(process):
    """Returns the seconds of processor time that a running process has used."""
    fields = pathlib.Path(f"/proc/{process.pid}/stat").read_text(encoding="utf-8").rsplit(")", 1)[1].split()
    return (int(fields[11]) + int(fields[12])) / os.sysconf("SC_CLK_TCK")


def share_when_idle(folder, seconds):
    """Returns the share of one processor that a quiet run uses once all its workers are there."""
    (folder / "quiet.toml").write_text(quiet_network(), encoding="utf-8")
    run = subprocess.Popen([PROGRAM, "run", "quiet.toml", "--seconds", str(seconds + 4)], cwd=folder, env=PLAIN,
                           stdout=subprocess.DEVNULL, stderr=subprocess.DEVNULL)
    time.sleep(2)
    before = processor_time(run)
    time.sleep(seconds)
    used = processor_time(run) - before
    run.kill()
    run.wait()
    return used / seconds


def connect(path):
    for _ in range(1000):
        stream = socket.socket(socket.AF_UNIX, socket.SOCK_STREAM)
        try:
            stream.connect(str(path))
            return stream
        except (FileNotFoundError, ConnectionRefusedError):
            stream.close()
            time.sleep(0.01)
    raise SystemExit(f"error: nobody listens at {path}")


def receive(stream, frames, arrived):
    """Notes when each frame has arrived. A frame has 60 octets, after its length in two."""
    kept = b""
    while len(arrived) < frames:
        part = stream.recv(65536)
        if not part:
            return
        kept += part
        while len(kept) >= 62:
            arrived.append(time.perf_counter())
            kept = kept[62:]


def median_delay(first, last, frames):
    """Returns the median delay of frames from one stream to another, in microseconds, with 5 milliseconds between two frames."""
    arrived, sent = [], []
    reader = threading.Thread(target=receive, args=(last, frames, arrived), daemon=True)
    reader.start()
    frame = (60).to_bytes(2, "big") + bytes.fromhex("ffffffffffff0200000001010800") + bytes(46)
    time.sleep(0.2)
    for _ in range(frames):
        sent.append(time.perf_counter())
        first.sendall(frame)
        time.sleep(0.005)
    reader.join(5)
    if len(arrived) != frames:
        raise SystemExit(f"error: {len(arrived)} of {frames} frames arrived")
    return 1e6 * statistics.median(b - a for a, b in zip(sent, arrived))


def delay_through(folder, bridges, frames):
    """Returns the median delay through a line of bridges, in microseconds."""
    (folder / "line.toml").write_text(line_of(bridges), encoding="utf-8")
    run = subprocess.Popen([PROGRAM, "run", "line.toml", "--seconds", "60"], cwd=folder, env=PLAIN,
                           stdout=subprocess.DEVNULL, stderr=subprocess.DEVNULL)
    try:
        return median_delay(connect(folder / "first.sock"), connect(folder / "last.sock"), frames)
    finally:
        run.kill()
        run.wait()
        for name in ("first.sock", "last.sock"):
            (folder / name).unlink(missing_ok=True)


def delay_through_hub(folder, frames):
    """Returns the median delay through a plain hub, in microseconds."""
    names = ["a.sock", "b.sock"]
    doors = [socket.socket(socket.AF_UNIX, socket.SOCK_STREAM) for _ in names]
    for door, name in zip(doors, names):
        door.bind(str(folder / name))
        door.listen(1)
    hub = subprocess.Popen([folder / "hub", "each", *names], cwd=folder)
    try:
        first, last = (door.accept()[0] for door in doors)
        return median_delay(first, last, frames)
    finally:
        hub.kill()
        hub.wait()
        for name in names:
            (folder / name).unlink()


def has_hub(folder):
    """Builds the hub. Returns whether it could."""
    if not shutil.which("gcc"):
        return False
    subprocess.run(["gcc", "-O2", "-o", folder / "hub", TOP / "interop" / "hub.c"], check=True)
    return True


def main():
    words = argparse.ArgumentParser(description=__doc__, formatter_class=argparse.RawDescriptionHelpFormatter)
    words.add_argument("--seconds", type=int, default=10, help="the length of the quiet run (default 10)")
    words.add_argument("--frames", type=int, default=400, help="the frames through each line (default 400)")
    words.add_argument("--rounds", type=int, default=3, help="the rounds of all delays (default 3)")
    given = words.parse_args()
    with tempfile.TemporaryDirectory(prefix="bench-") as name:
        folder = pathlib.Path(name)
        print(f"288 workers with nothing to do: {100 * share_when_idle(folder, given.seconds):.1f} % of one processor", flush=True)
        is_hub_there = has_hub(folder)
        for _ in range(given.rounds):
            if is_hub_there:
                print(f"median delay through a plain hub: {delay_through_hub(folder, given.frames):.0f} microseconds", flush=True)
            for bridges in (1, 4, 16, 32):
                delay = delay_through(folder, bridges, given.frames)
                print(f"median delay through {bridges} bridges: {delay:.0f} microseconds", flush=True)


if __name__ == "__main__":
    main()
