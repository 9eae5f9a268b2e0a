#!/usr/bin/env python3
"""Stops a run of a ring under a rapid spanning tree for a while (SIGSTOP, SIGCONT), as a debugger, a laptop's lid or a busy
machine does, while two hosts at opposite bridges send each other numbered frames. After each pause the ports have the roles of
before, no host gets a frame twice or its own, and if a frame is missing, standard error has a line for the loss. The exit
status is 0 if this is so each time.

    interop/pauses.py [--seconds S..] [--tick-ms MS..]
"""

import argparse
import os
import signal
import subprocess
import sys
import threading
import time
from collections import Counter

from common import PROGRAM, Folder, need_program, wait_for
from streams import Peer

# The launcher starts the program alone.
PLAIN = {**os.environ, "PBNET_PLAIN": "1"}
SIZE = 6
# Seconds between frames, before and after a pause, and without a frame at the end.
PERIOD, STEADY, REST = 0.005, 1.5, 1.0


def plan(tick_ms):
    """Returns the plan of a ring with a host at the first bridge and one at the bridge opposite."""
    text = f'[network]\nspanning = "rstp"\nprompt = true\nqueues = "class"\ntick_ms = {tick_ms}\n'
    text += '[[service]]\nname = "s"\nvid = 100\n'
    for number in range(1, SIZE + 1):
        text += f'[[bridge]]\nname = "B{number}"\naddress = "02-00-00-00-01-{number:02x}"\nqueue = 4096\n'
        after = number % SIZE + 1
        text += f'[[link]]\nname = "L{number}"\na = "B{number}"\na_port = 1\nb = "B{after}"\nb_port = 2\n'
    for name, bridge in (("near", 1), ("far", 1 + SIZE // 2)):
        text += f'[[port]]\nname = "{name}"\nbridge = "B{bridge}"\nport = 3\nservice = "s"\n'
        text += f'kind = "socket"\nlisten = "{name}.sock"\nqueue = 4096\n'
    return text


class Host:
    """A host that sends numbered broadcasts until it is told to stop, and counts the frames that it gets."""

    def __init__(self, path, number):
        self.peer, self.number = Peer.to(path), number
        # Each thread has a socket object of its own, with its own timeout.
        self.incoming = Peer(self.peer.stream.dup())
        self.source = bytes([2, 0, 0, 0, 0, number])
        self.sent, self.got, self.is_over = 0, Counter(), threading.Event()
        self.threads = [threading.Thread(target=work, daemon=True) for work in (self.send, self.receive)]

    def start(self):
        for thread in self.threads:
            thread.start()

    def send(self):
        while not self.is_over.is_set():
            self.peer.send(b"\xff" * 6 + self.source + b"\x08\x00" + self.sent.to_bytes(46, "big"))
            self.sent += 1
            time.sleep(PERIOD)

    def receive(self):
        while True:
            frame = self.incoming.receive(REST)
            if frame is not None:
                self.got[(frame[6:12], int.from_bytes(frame[14:60], "big"))] += 1
            elif self.is_over.is_set():
                return

    def join(self):
        for thread in self.threads:
            thread.join()


def roles(control):
    """Returns the lines of the control socket's `tree`."""
    words = [PROGRAM, "control", str(control), "tree"]
    return subprocess.run(words, stdout=subprocess.PIPE, text=True, env=PLAIN, check=False).stdout


def wait_for_roles(control):
    """Returns the roles once they have not changed for a second."""
    last, since = roles(control), time.monotonic()
    for _ in range(600):
        time.sleep(0.1)
        now = roles(control)
        if now != last or "port" not in now:
            last, since = now, time.monotonic()
        elif time.monotonic() - since > 1:
            return now
    raise SystemExit("error: the roles change for a minute")


def complaints(before, after, hosts, errors):
    """Returns what is wrong after a pause."""
    wrong = [] if before == after else [f"roles changed:\n{before}became\n{after}"]
    for host, other in (hosts, hosts[::-1]):
        twice = sum(count - 1 for count in host.got.values())
        own = sum(1 for source, _ in host.got if source == host.source)
        missing = other.sent - sum(1 for source, _ in host.got if source == other.source)
        if twice or own:
            wrong.append(f"host {host.number}: {twice} frames twice, {own} of its own")
        if missing and not errors:
            wrong.append(f"host {host.number}: {missing} frames missing, and no line says so")
    return wrong


def pause(tick_ms, seconds):
    """Runs the ring and stops it once for these seconds. Returns the figures and what is wrong."""
    with Folder() as folder:
        (folder.path / "ring.toml").write_text(plan(tick_ms))
        with open(folder.path / "errors", "w", encoding="utf-8") as errors:
            run = folder.start(PROGRAM, "run", "--control", "control", "ring.toml", env=PLAIN, stderr=errors)
            for name in ("control", "near.sock", "far.sock"):
                wait_for(folder.path / name)
            before = wait_for_roles(folder.path / "control")
            hosts = [Host(folder.path / "near.sock", 1), Host(folder.path / "far.sock", 2)]
            for host in hosts:
                host.start()
            time.sleep(STEADY)
            run.send_signal(signal.SIGSTOP)
            time.sleep(seconds)
            run.send_signal(signal.SIGCONT)
            time.sleep(STEADY)
            for host in hosts:
                host.is_over.set()
            for host in hosts:
                host.join()
            after = roles(folder.path / "control")
            subprocess.run([PROGRAM, "control", str(folder.path / "control"), "stop"], env=PLAIN, check=False,
                           stdout=subprocess.DEVNULL)
            run.wait(20)
        told = (folder.path / "errors").read_text()
    sent, got = sum(host.sent for host in hosts), sum(len(host.got) for host in hosts)
    losses = "".join(line for line in told.splitlines(True) if "not queued" in line or "not written" in line)
    return f"{sent} frames sent, {got} arrived", complaints(before, after, hosts, losses)


def main():
    parser = argparse.ArgumentParser(description=__doc__.split("\n\n", maxsplit=1)[0])
    parser.add_argument("--seconds", type=float, nargs="+", default=[0.5, 3, 30], metavar="S", help="the pauses")
    parser.add_argument("--tick-ms", type=int, nargs="+", default=[10, 100], metavar="MS", help="the clocks")
    options = parser.parse_args()
    need_program()
    wrong = 0
    for tick_ms in options.tick_ms:
        for seconds in options.seconds:
            figures, why = pause(tick_ms, seconds)
            wrong += bool(why)
            print(f"tick_ms {tick_ms}, {seconds} s: {figures}" + "".join(f"\n  {line}" for line in why), flush=True)
    print(f"{len(options.tick_ms) * len(options.seconds)} pauses, {wrong} wrong")
    return 1 if wrong else 0


if __name__ == "__main__":
    sys.exit(main())
