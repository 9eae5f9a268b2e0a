#!/usr/bin/env python3
"""Compares rings of pbnet with rings of Open vSwitch: outages after a link fails, port roles, and a flood.

usage: interop/rings.py [--trials N] [--seconds N] [--sizes N,N..] [rings] [flood] [events]

Two customers at opposite bridges of a ring send each other a frame every 5 ms. The first link of their path, at the
root, is disabled at both ends. All rings run side by side, with one trial at a time. RINGS_PLAIN=1 omits the key
`prompt` from every plan, for a program that lacks it. The flood is run with both values of the key `queues`. The part
`events` has repairs, second failures and flaps too, in rings whose addresses rise or fall from the root. It runs only
if it is named.
"""

import argparse
import bisect
import collections
import contextlib
import random
import re
import select
import statistics
import sys
import threading
import time

import common
import rings_events
from rings_bridges import ROLES, WITHOUT_KEY, End, Ours, Theirs

SIZES, PLAIN_SIZES = (4, 6, 12, 16, 20), (4, 6)
# Seconds between frames, of a ring before its first failure, from a repair to the next failure, for which frames must
# arrive after a failure, and for which a trial waits for that.
PERIOD, AGE, REST, CLEAN, PATIENCE = 0.005, 61, 61, 1.0, 90
PROMPT, PLAIN, OTHER = "`prompt` left out" if WITHOUT_KEY else "`prompt = true`", "`prompt = false`", "Open vSwitch"


def trial(ring):
    """Disables the link while frames cross the ring. Returns the longer outage of the two customers."""
    mark = random.randbytes(4)
    ends = [End(ring.peers[0], 1, 2, mark), End(ring.peers[1], 2, 1, mark)]
    streams = {end.peer.stream: end for end in ends}
    sent, failed, due = [], None, time.monotonic()
    fails_at = due + random.uniform(1, 3)
    while True:
        now = time.monotonic()
        if now >= due:
            for end in ends:
                end.send(len(sent))
            sent.append(now)
            due = max(due + PERIOD, now)
        if failed is None and now >= fails_at:
            failed, first = time.monotonic(), len(sent) - 1
            ring.order("down")
        for stream in select.select(list(streams), [], [], max(0, due - time.monotonic()))[0]:
            streams[stream].receive()
        if failed and now > failed + CLEAN and len(sent) % 20 == 0:
            last = bisect.bisect(sent, now - 0.2)
            recent = range(max(first + 1, bisect.bisect(sent, now - CLEAN)), last)
            if now > failed + PATIENCE or all(number in end.arrived for end in ends for number in recent):
                break
    assert ring.obeyed(), "a port was not disabled"
    return max((end.outage(failed, first, last) for end in ends), key=lambda one: one[0] or PATIENCE)


def counted(roles):
    """Returns a text of the ports in each role, and of the Alternate port. The failed link is on the path if that is the
    far port 1."""
    counts = collections.Counter(roles.values())
    places = [f", at B{n} port {port}" for (n, port), role in roles.items() if role == "Alternate"]
    return ", ".join(f"{counts[role]} {role}" for role in ROLES if counts[role]) + "".join(places)


def cell(outages):
    found = [1000 * again for again, _ in outages if again is not None]
    return f"{statistics.median(found):.0f}, {max(found):.0f}, {max(lost for _, lost in outages)}" if found else "none"


def ring_rows(trials):
    """Prints the outages. Returns the table of what must be alike."""
    table = common.Table("Rings beside Open vSwitch: port roles, and trials in which frames arrive again")
    with contextlib.ExitStack() as stack:
        rings = {}
        for size in SIZES:
            rings[PROMPT, size] = Ours(stack, size, True)
            if size in PLAIN_SIZES and not WITHOUT_KEY:
                rings[PLAIN, size] = Ours(stack, size, False)
            rings[OTHER, size] = Theirs(stack, size)
        time.sleep(AGE)
        whole = {key: ring.roles() for key, ring in rings.items()}
        starts, found = dict.fromkeys(rings, 0), {key: [] for key in rings}
        for number in range(trials):
            for key, ring in rings.items():
                time.sleep(max(0, starts[key] - time.monotonic()))
                print(f"note: trial {number + 1}: {key[1]} bridges, {key[0]}", file=sys.stderr, flush=True)
                found[key].append(trial(ring))
                if number < trials - 1:
                    ring.order("up")
                    assert ring.obeyed(), "a port was not enabled"
                    starts[key] = time.monotonic() + REST
        time.sleep(3)
        failed = {key: ring.roles() for key, ring in rings.items()}
    print(f"Milliseconds until frames arrive again: median and worst of {trials} trials; most frames lost one way.\n")
    print(f"| Bridges | {PROMPT} | {PLAIN} | {OTHER} |\n|---:|---:|---:|---:|")
    for size in SIZES:
        cells = [cell(found[name, size]) if (name, size) in rings else "" for name in (PROMPT, PLAIN, OTHER)]
        print(f"| {size} | {' | '.join(cells)} |")
    print()
    for name, size in rings:
        if name != OTHER:
            title, keys = f"{size} bridges, {name}", ((name, size), (OTHER, size))
            table.row(f"{title}: whole; failed", *(f"{counted(whole[key])}; {counted(failed[key])}" for key in keys))
            limit = PATIENCE if name != PROMPT or WITHOUT_KEY else 1
            again = ", ".join(str(sum((one[0] or PATIENCE) < limit for one in found[key])) for key in keys)
            table.row(f"{title}: frames within {limit} s, here and there", again, f"{trials}, {trials}")
    return table


def changes(ring, seconds):
    """Returns how many times a port of the ring has another role or state than 50 ms before."""
    trees, end = [ring.ask("tree")], time.monotonic() + seconds
    while time.monotonic() < end:
        time.sleep(0.05)
        trees.append(ring.ask("tree"))
    return sum(len(set(tree) - set(before)) for before, tree in zip(trees, trees[1:]))


def discard_from(stream):
    with contextlib.suppress(OSError):
        while stream.recv(1 << 20):
            pass


def flood_from(stream, octet, is_over):
    burst = (b"\0\x40" + b"\xff" * 6 + b"\2\0\0\0\1%c\x88\xb5" % octet + bytes(50)) * 64
    with contextlib.suppress(OSError):
        while not is_over.is_set():
            stream.sendall(burst)


@contextlib.contextmanager
def flood(peers):
    """Has these customers send broadcasts as fast as their bridges take them, and take what comes."""
    is_over = threading.Event()
    for octet, peer in enumerate(peers):
        threading.Thread(target=discard_from, args=(peer.stream,), daemon=True).start()
        threading.Thread(target=flood_from, args=(peer.stream, octet, is_over), daemon=True).start()
    yield
    is_over.set()


def lost(ring, kind):
    """Stops the ring, and returns how many BPDUs or copies were not queued."""
    return sum(map(int, re.findall(rf"(\d+) {kind} not queued", ring.stop())))


def flood_row(seconds, bridges, queue, queues):
    """Prints the changes before and in the flood, BPDUs not queued, and frames that entered."""
    with contextlib.ExitStack() as stack:
        customers = [(f"c{place}", name[1:]) for place, name in enumerate(bridges.split(", "))]
        ring = Ours(stack, 4, True, customers, f'queues = "{queues}"\n', queue)
        time.sleep(10)
        calm = changes(ring, seconds)
        with flood(ring.peers):
            busy = changes(ring, seconds)
        entered = sum(int(line.split()[3]) for line in ring.ask("counts") if line.startswith("port"))
        bpdus = lost(ring, "BPDUs")
    print(f"| {bridges} | {queue} | `\"{queues}\"` | {calm} | {busy} | {bpdus} | {entered:,} |", flush=True)


def priority_row(queue, queues, count=1000):
    """Prints how many frames of priority 7 arrive, sent 5 ms apart beside two floods of priority 0 on the same way."""
    with contextlib.ExitStack() as stack:
        customers = [("flood1", 1), ("flood2", 1), ("far", 3), ("urgent", 1, 7)]
        ring = Ours(stack, 4, True, customers, f'queues = "{queues}"\n', queue)
        *floods, far, urgent = ring.peers
        time.sleep(10)
        came, mark = [], b"\2\0\0\0\7\7\x88\xb6"

        def take():
            while len(came) < count and (frame := far.receive(10)) is not None:
                came.extend([frame] if frame[6:14] == mark else [])

        receiver = threading.Thread(target=take)
        receiver.start()
        threading.Thread(target=discard_from, args=(urgent.stream,), daemon=True).start()
        with flood(floods):
            time.sleep(1)
            for _ in range(count):
                urgent.send(b"\xff" * 6 + mark + bytes(50))
                time.sleep(PERIOD)
            time.sleep(1)
        receiver.join()
        ring.stop()
    print(f"| {queue} | `\"{queues}\"` | {len(came):,} of {count:,} |", flush=True)


def floods(seconds):
    print(f"Three customers flood a ring of four for {seconds} seconds, {PROMPT}.\n")
    print("| Customers at | `queue` | `queues` | Changes before | During the flood | BPDUs lost | Frames entered |")
    print("|---|---:|---" + "|---:" * 4 + "|")
    for bridges in ("B1, B2, B3", "B1, B1, B1"):
        for queue, queues in ((64, "port"), (1024, "port"), (64, "class")):
            flood_row(seconds, bridges, queue, queues)
    print("\nFrames of priority 7 beside a flood of priority 0.\n")
    print("| `queue` | `queues` | Frames that arrive |\n|---:|---|---:|")
    for queues in ("port", "class"):
        priority_row(64, queues)
    print()


def main():
    text, usage, notes = re.fullmatch(r"(.*?)\n\nusage: (.*?)\n\n(.*)", __doc__, re.S).groups()
    parser = argparse.ArgumentParser(usage=usage, description=text, epilog=notes)
    parser.add_argument("--trials", type=int, default=5, metavar="N", help="the trials of each ring [default: 5]")
    parser.add_argument("--seconds", type=int, default=12, metavar="N", help="the seconds of a flood [default: 12]")
    sizes = lambda text: [int(size) for size in text.split(",")]
    helps = "the sizes of rings for `events` [default: 6,12,20]", "rings, flood, events [default: rings flood]"
    parser.add_argument("--sizes", type=sizes, default=rings_events.SIZES, metavar="N,N..", help=helps[0])
    parser.add_argument("parts", nargs="*", default=["rings", "flood"], metavar="PART", help=helps[1])
    given = parser.parse_args()
    for part in given.parts:
        if part not in ("rings", "flood", "events"):
            parser.error(f"unknown part '{part}'")
    if "events" in given.parts:
        rings_events.print_table(given.trials, given.sizes, PROMPT, OTHER)
    if "flood" in given.parts:
        floods(given.seconds)
    common.finish(*([ring_rows(given.trials)] if "rings" in given.parts else []))


if __name__ == "__main__":
    main()
