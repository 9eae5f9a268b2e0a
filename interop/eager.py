#!/usr/bin/env python3
"""Starts runs with a socket port and a control socket, to each of which clients try to connect from the moment when its name
appears, and counts those that are hung up on while the run goes on. Then several runs begin at once with one stale control
socket: one of them may have it. The exit status is 0 if nobody was hung up on and each time one run had the socket.

    interop/eager.py [--runs N] [--starts N]
"""

import argparse
import os
import socket
import stat
import subprocess
import sys
import threading
import time

from common import PROGRAM, Folder, need_program

# The launcher starts the program alone.
PLAIN = {**os.environ, "PBNET_PLAIN": "1"}

PLAN = """
[[bridge]]
name = "West"
address = "02-00-00-00-00-01"

[[service]]
name = "wire"
vid = 100

[[port]]
name = "west"
bridge = "West"
port = 1
service = "wire"
kind = "socket"
listen = "west.sock"

[[port]]
name = "east"
bridge = "West"
port = 2
service = "wire"
kind = "socket"
listen = "east.sock"
"""


def connect(path, until):
    """Returns a connection to the path, tried until this moment, or None."""
    while time.monotonic() < until:
        stream = socket.socket(socket.AF_UNIX, socket.SOCK_STREAM)
        try:
            stream.connect(str(path))
            return stream
        except (FileNotFoundError, ConnectionRefusedError, BlockingIOError):
            stream.close()
    return None


def is_cut_off(stream):
    """Tells whether the other side hangs up within 0.2 seconds."""
    stream.settimeout(0.2)
    try:
        return stream.recv(1) == b""
    except socket.timeout:
        return False
    except ConnectionResetError:
        return True


def ask(folder, name, found):
    found[name] = connect(folder.path / name, time.monotonic() + 10)


def begin(folder, found):
    """Runs the plan once with clients for each of its sockets. Returns how many connected, how many were cut off, and how many
    sockets others may use."""
    names = ["west.sock", "east.sock", "run.sock"]
    clients = [threading.Thread(target=ask, args=(folder, name, found)) for name in names]
    for client in clients:
        client.start()
    run = folder.start(PROGRAM, "run", "plan.toml", "--control", "run.sock", "--seconds", "20", env=PLAIN)
    for client in clients:
        client.join()
    streams = [found[name] for name in names if found[name]]
    cut = sum(is_cut_off(stream) for stream in streams)
    there = [path for path in folder.path.iterdir() if path.suffix == ".sock"]
    loose = sum(stat.S_IMODE(path.stat().st_mode) != 0o600 for path in there)
    run.kill()
    run.wait()
    for stream in streams:
        stream.close()
    for path in there:
        path.unlink()
    return len(streams), cut, loose


def contend(folder, starts):
    """Starts runs at once with one stale control socket. Returns how many of them go on."""
    stale = socket.socket(socket.AF_UNIX, socket.SOCK_STREAM)
    stale.bind(str(folder.path / "run.sock"))
    stale.close()
    for number in range(starts):
        text = PLAN.replace("west.sock", f"west{number}.sock").replace("east.sock", f"east{number}.sock")
        (folder.path / f"plan{number}.toml").write_text(text, encoding="utf-8")
    runs = [
        folder.start(PROGRAM, "run", f"plan{number}.toml", "--control", "run.sock", "--seconds", "20",
                     env=PLAIN, stderr=subprocess.PIPE)
        for number in range(starts)
    ]
    time.sleep(1)
    going = [run for run in runs if run.poll() is None]
    for run in going:
        run.kill()
    for run in runs:
        run.wait()
        run.stderr.close()
    for path in folder.path.glob("*.sock"):
        path.unlink()
    return len(going)


def main():
    words = argparse.ArgumentParser(description=__doc__, formatter_class=argparse.RawDescriptionHelpFormatter)
    words.add_argument("--runs", type=int, default=50, help="runs with three clients each (default 50)")
    words.add_argument("--starts", type=int, default=20, help="times that six runs begin at once (default 20)")
    given = words.parse_args()
    need_program()
    connected = cut = loose = 0
    with Folder() as folder:
        (folder.path / "plan.toml").write_text(PLAN, encoding="utf-8")
        for _ in range(given.runs):
            more = begin(folder, {})
            connected, cut, loose = connected + more[0], cut + more[1], loose + more[2]
        print(f"{connected} of {3 * given.runs} clients connected, {cut} were cut off, {loose} sockets had another mode than 600")
        winners = [contend(folder, 6) for _ in range(given.starts)]
        print(f"{winners.count(1)} of {given.starts} times one of six runs had the stale control socket")
        left = [path.name for path in folder.path.iterdir() if path.name.startswith(".")]
        print(f"{len(left)} folders left over")
    return 0 if (connected, cut, loose, len(left)) == (3 * given.runs, 0, 0, 0) and winners.count(1) == given.starts else 1


if __name__ == "__main__":
    sys.exit(main())
