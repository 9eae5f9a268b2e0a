#!/usr/bin/env python3
"""Measures how long rings of prompt bridges take to heal, with the second implementation: no program runs.

usage: interop/healing.py [--trials N] [--seed N] [--hold N] [--addresses ORDER] [--explain] [BRIDGES..]

A ring is up for 60 seconds. Then links of it fail and are repaired. Each trial begins with another link, and the
second one is random. Bridges tick at times of their own, once a second, and every BPDU arrives at once. A row has two
groups of cells: for bridges that leave a running tcWhile alone (IEEE 802.1D-2004 17.21.7, newTcWhile), and for
bridges that start it anew. A group has the number of events after which the ring did not heal at once, the most
seconds until all bridges were joined, as far as the links allow, the most seconds until they had converged, the most
BPDUs that waited for a hold count at once, and the number of events after which a ring that had not converged waited
for anything else. `over N` is a time past the next event. --hold sets the transmit hold count. --explain prints what
waits in the worst trial of each row."""
import argparse
import random
import re
import sys

import second_tree
from second_network import Network
from second_plan import read_plan
from second_tree import DESIGNATED, FORWARDING, ROOT, Tree

# Seconds that a ring is up before its first failure, for which it is watched after the last event, and after which a ring
# that has converged is watched no longer.
UP, WATCHED, CALM = 60, 60, 4
# Parts of a second: the bridges tick at these.
PARTS = 20


def address_of(n, size, order):
    """Returns the last octet of a bridge's address. Bridge 1 is the root. From there addresses rise around the ring, fall
    until the bridge opposite, or rise in both directions."""
    half = size // 2 + 1
    if order == "both":
        return 2 * n - 1 if n <= half else 2 * (size - n) + 2
    return half + 2 - n if order == "fall" and 2 <= n <= half else n


def ring_plan(size, order):
    """Returns the plan of a ring, with addresses in an order."""
    text = '[network]\nspanning = "rstp"\nprompt = true\nqueues = "class"\n'
    for n in range(1, size + 1):
        text += f'[[bridge]]\nname = "B{n}"\naddress = "02-00-00-00-00-{address_of(n, size, order):02x}"\n'
        text += f'[[link]]\nname = "L{n}"\na = "B{n}"\na_port = 1\nb = "B{n % size + 1}"\nb_port = 2\n'
    return read_plan(text.encode())


class Ring:
    """A ring of bridges and its clock, which counts parts of a second."""

    def __init__(self, size, order, dice):
        self.net, self.size, self.now = Network(ring_plan(size, order)), size, 0
        self.phases = [dice.randrange(PARTS) for _ in range(size)]
        self.down = set()
        for _ in range(UP * PARTS + dice.randrange(PARTS)):
            self.go_on()

    def go_on(self):
        """A part of a second passes."""
        self.now += 1
        for bridge, phase in zip(self.net.by_number, self.phases):
            if self.now % PARTS == phase:
                bridge.tick()
                self.drain()

    def drain(self):
        """Every BPDU arrives. All that were sent at the same time take the same time to the next bridge."""
        moved = True
        while moved:
            moved = False
            for act in (lambda bridge, number: bridge.transmit(number), lambda bridge, number: bridge.receive(number)):
                for bridge in self.net.by_number:
                    for number in bridge.ports:
                        while act(bridge, number) != "idle":
                            moved = True
                for lane in self.net.lanes.values():
                    while lane.take() != "idle":
                        lane.put()

    def set(self, link, up):
        """Enables or disables both ends of a link."""
        self.down ^= {link}
        row = self.net.plan.links[link]
        for end in (row["end_a"], row["end_b"]):
            self.net.by_number[end.bridge].admin(end.port, up)
        self.drain()

    def ends(self, link):
        row = self.net.plan.links[link]
        return [self.net.by_number[end.bridge].tree.ports[end.port] for end in (row["end_a"], row["end_b"])]

    def is_joined(self):
        """Whether the active links are a tree, or a forest with a tree for each part of the ring."""
        active = sum(all(end.state == FORWARDING for end in self.ends(link)) for link in range(self.size))
        return active == self.size - max(1, len(self.down))

    def waiting(self):
        """The ends whose BPDU waits for the hold count: bridge and port."""
        ports = [(bridge, port) for bridge in self.net.by_number for port in bridge.tree.ports.values()]
        return [f"{bridge.row['name']}:{port.number}" for bridge, port in ports if port.due and port.up]

    def blocked(self):
        """The links whose Designated end does not forward though the other end is a Root port, with what both have."""
        found = []
        for link in range(self.size):
            for one, two in (self.ends(link), self.ends(link)[::-1]):
                if one.up and two.up and one.role == DESIGNATED and one.state != FORWARDING and two.role == ROOT:
                    found.append(f"L{link + 1} (Designated sent {one.sent}, Root sent {two.sent})")
        return found


DOWN, UP_AGAIN = [("one", False)], [("one", True)]
FLAP = [(1, [("one", number % 2 == 1)]) for number in range(20)]
# What happens to a ring: seconds after the event before, and the links that are disabled or enabled then. Every event of
# a flap is measured, and of the others the last one.
KINDS = {
    "first failure": [(0, DOWN)],
    "repair 3 s after a failure": [(0, DOWN), (3, UP_AGAIN)],
    "failure of the same link 6 s after its repair": [(0, DOWN), (30, UP_AGAIN), (6, DOWN)],
    "failure of another link 6 s after a repair": [(0, DOWN), (30, UP_AGAIN), (6, [("two", False)])],
    "two failures at once": [(0, [("one", False), ("two", False)])],
    "a second failure 1 s after the first": [(0, DOWN), (1, [("two", False)])],
    "two repairs at once": [(0, [("one", False), ("two", False)]), (30, [("one", True), ("two", True)])],
    "flap, a second down and a second up, 10 times": FLAP,
    "failure of another link 6 s after a flap": FLAP + [(6, [("two", False)])],
}


class Watch:
    """What is seen of a ring after an event: since when it has been joined and has converged, and the most BPDUs that
    waited at once."""

    def __init__(self, ring, seconds):
        self.joined = self.converged = None
        self.waiting, self.idle, self.story = 0, False, []
        self.look(ring, 0)
        for part in range(1, int(seconds * PARTS) + 1):
            ring.go_on()
            self.look(ring, part)
            if seconds == WATCHED and self.converged is not None and part - self.converged > CALM * PARTS:
                break

    def look(self, ring, part):
        waiting, blocked = ring.waiting(), ring.blocked()
        self.waiting = max(self.waiting, len(waiting))
        is_joined, has_converged = ring.is_joined(), ring.net.have_converged()
        self.joined = (part if self.joined is None else self.joined) if is_joined else None
        self.converged = (part if self.converged is None else self.converged) if has_converged else None
        self.idle |= not has_converged and not waiting
        if not has_converged:
            line = f"joined {is_joined}; wait for the hold count: {' '.join(waiting)}; blocked: {', '.join(blocked)}"
            if not self.story or self.story[-1][1] != line:
                self.story.append((part / PARTS, line))


def trial(size, order, kind, number, dice):
    """Returns what is seen after each measured event, with the seconds for which it was watched."""
    ring = Ring(size, order, dice)
    one = number % size
    links = {"one": one, "two": (one + dice.randrange(1, size)) % size}
    events, seen = KINDS[kind], []
    for number, (_, settings) in enumerate(events):
        for name, up in settings:
            ring.set(links[name], up)
        is_last = number == len(events) - 1
        seconds = WATCHED if is_last else events[number + 1][0]
        watch = Watch(ring, seconds)
        if is_last or events is FLAP:
            names = " and ".join(f"L{link + 1}" for link in links.values())
            text = f"{size} bridges, {names}, phases {ring.phases}, event {number + 1}"
            seen.append((watch, seconds, text))
    return seen


def shown(parts, seconds):
    return f"over {seconds:g}" if parts is None else f"{parts / PARTS:.2f}"


def worst(seen, read):
    """Returns the worst event, by what `read` reads of its watch."""
    return max(seen, key=lambda it: (read(it[0]) is None, read(it[0]) or 0))


def cells(size, kind, given):
    """Returns the cells of a row under one rule, and the worst event."""
    seen = []
    for number in range(given.trials):
        seen += trial(size, given.addresses, kind, number, random.Random(f"{given.seed}/{size}/{number}"))
    joined, converged = worst(seen, lambda it: it.joined), worst(seen, lambda it: it.converged)
    late = sum(it[0].joined != 0 for it in seen)
    return [
        f"{late} of {len(seen)}",
        shown(joined[0].joined, joined[1]),
        shown(converged[0].converged, converged[1]),
        str(max(it[0].waiting for it in seen)),
        str(sum(it[0].idle for it in seen)),
    ], joined if joined[0].joined != 0 else converged


def explain(row, text, watch):
    print(f"\n{row}: {text}", file=sys.stderr)
    for seconds, line in watch.story[:40]:
        print(f"  {seconds:5.2f} s: {line}", file=sys.stderr)


def main():
    text, usage, notes = re.fullmatch(r"(.*?)\n\nusage: (.*?)\n\n(.*)", __doc__, re.S).groups()
    parser = argparse.ArgumentParser(usage=usage, description=text, epilog=notes)
    parser.add_argument("--trials", type=int, default=20, metavar="N", help="the trials of each row [default: 20]")
    parser.add_argument("--seed", default="1", metavar="N", help="the seed of the trials [default: 1]")
    parser.add_argument("--hold", type=int, default=6, metavar="N", help="the transmit hold count [default: 6]")
    orders = ["rise", "fall", "both"]
    parser.add_argument("--addresses", choices=orders, default="rise", help="the order around the ring [default: rise]")
    parser.add_argument("--explain", action="store_true", help="print what waits in the worst trial of each row")
    sizes = [6, 12, 20]
    parser.add_argument("sizes", nargs="*", type=int, default=sizes, metavar="BRIDGES", help="[default: 6 12 20]")
    given = parser.parse_args()
    second_tree.HOLD_COUNT = given.hold
    rules = {"left alone": Tree.is_reporting, "started anew": lambda tree, port: False}
    groups = [f" {rule}: not at once | joined | converged | waiting | else |" for rule in rules]
    print("| Bridges | What happens |" + "".join(groups))
    print("|---:|---|" + "---:|" * 10)
    for size in given.sizes:
        for kind in KINDS:
            row = [str(size), kind]
            for rule, is_reporting in rules.items():
                Tree.is_reporting = is_reporting
                found, (watch, _, words) = cells(size, kind, given)
                row += found
                if given.explain:
                    explain(f"{kind}, {rule}", words, watch)
            print(f"| {' | '.join(row)} |", flush=True)


if __name__ == "__main__":
    main()
