"""Repairs, second failures and flaps of rings, for rings.py: outages of pbnet beside those of Open vSwitch."""

import bisect
import contextlib
import random
import select
import statistics
import sys
import time

from rings_bridges import End, Ours, Theirs

SIZES = (6, 12, 20)
# Seconds between frames, of a ring before its first event, from a sequence to the next one, and after the last event of
# a sequence. Frames sent within the last tenth of a second of an event's time may still be on their way.
PERIOD, AGE, REST, AFTER, WAY = 0.005, 61, 61, 8, 0.1
FLAP_ROW = "a second down and a second up, 10 times"
FLAP = [(1, [("up" if number % 2 else "down", 1)], FLAP_ROW) for number in range(20)]
# Sequences: seconds since the event before, the links that are disabled or enabled, and the row of the event. One
# without a row only brings the ring back.
SEQUENCES = [
    [
        (1, [("down", 1)], "first failure"),
        (3, [("up", 1)], "repair 3 s after a failure"),
        (6, [("down", 1)], "failure 6 s after a repair"),
        (AFTER, [("up", 1)], None),
    ],
    [(1, [("down", 1), ("down", 2)], "two failures at once"), (AFTER, [("up", 1), ("up", 2)], "two repairs at once")],
    FLAP + [(6, [("down", 1)], "failure 6 s after a flap"), (AFTER, [("up", 1)], None)],
]


class Session:
    """Frames between the two customers of a ring while the events of a sequence happen."""

    def __init__(self, ring, sequence):
        mark = random.randbytes(4)
        self.ring, self.ends = ring, [End(ring.peers[0], 1, 2, mark), End(ring.peers[1], 2, 1, mark)]
        self.sent, self.happened = [], []
        self.due = time.monotonic()
        for seconds, settings, _ in sequence:
            self.go_on(seconds + random.uniform(0, 0.3))
            self.happened.append(time.monotonic())
            for word, link in settings:
                ring.order(word, link)
        self.go_on(AFTER)
        self.receive_until(time.monotonic() + 1)
        assert ring.obeyed(sum(len(settings) for _, settings, _ in sequence)), "a port was not set"

    def go_on(self, seconds):
        """Sends a frame each way every 5 ms for some seconds, and receives what comes."""
        until = time.monotonic() + seconds
        while time.monotonic() < until:
            now = time.monotonic()
            if now >= self.due:
                for end in self.ends:
                    end.send(len(self.sent))
                self.sent.append(now)
                self.due = max(self.due + PERIOD, now)
            self.receive(min(self.due, until))

    def receive(self, until):
        """Receives what comes until a time, at most once from each customer."""
        streams = {end.peer.stream: end for end in self.ends}
        for stream in select.select(list(streams), [], [], max(0, until - time.monotonic()))[0]:
            streams[stream].receive()

    def receive_until(self, until):
        while time.monotonic() < until:
            self.receive(until)

    def outages(self):
        """Returns, for each event, the seconds until a frame arrives after the first loss, the later of both ways, or
        None if none does before the next event, and the most frames lost one way."""
        found = []
        for begin, end in zip(self.happened, self.happened[1:] + [self.due]):
            first, last = max(0, bisect.bisect(self.sent, begin) - 1), bisect.bisect(self.sent, end - WAY)
            ways = [self.outage(it.arrived, begin, first, last) for it in self.ends]
            times = [again for again, _ in ways]
            found.append((None if None in times else max(times), max(lost for _, lost in ways)))
        return found

    def outage(self, arrived, begin, first, last):
        """Returns the outage one way, of the frames with these numbers."""
        lost = [number for number in range(first, last) if number not in arrived]
        if not lost:
            return 0, 0
        later = [arrived[number] for number in range(lost[0], last) if number in arrived]
        return (min(later) - begin if later else None), len(lost)


def cell(outages):
    """Returns the median and worst milliseconds until frames arrive again, and the most frames lost one way."""
    found = sorted(float("inf") if again is None else 1000 * again for again, _ in outages)
    shown = ["over" if it == float("inf") else f"{it:.0f}" for it in (statistics.median_low(found), found[-1])]
    return ", ".join([*shown, str(max(lost for _, lost in outages))])


def start(stack, sizes, prompt, other):
    """Returns the rings, by their number of bridges, whether addresses fall, and the column."""
    rings = {}
    for size in sizes:
        for falling in (False, True):
            rings[size, falling, prompt] = Ours(stack, size, True, more='queues = "class"\n', falling=falling)
            rings[size, falling, other] = Theirs(stack, size, falling)
    return rings


def measure(rings, trials):
    """Returns the outages, by ring and row."""
    found, starts = {}, dict.fromkeys(rings, time.monotonic() + AGE)
    for number in range(trials):
        for sequence in SEQUENCES:
            for key, ring in rings.items():
                time.sleep(max(0, starts[key] - time.monotonic()))
                print(f"note: trial {number + 1}: {key[0]} bridges, {key[2]}", file=sys.stderr, flush=True)
                outages = Session(ring, sequence).outages()
                for (_, _, row), outage in zip(sequence, outages):
                    if row:
                        found.setdefault(row, {}).setdefault(key, []).append(outage)
                starts[key] = time.monotonic() + REST
    return found


def print_table(trials, sizes, prompt, other):
    """Prints the outages of all rings."""
    with contextlib.ExitStack() as stack:
        found = measure(start(stack, sizes, prompt, other), trials)
    print("Milliseconds until frames arrive again: median and worst; most frames lost one way. Every event of a flap counts,")
    print(f"and `over` is past the next event. Addresses rise or fall from the root. Trials: {trials}.\n")
    print(f"| Bridges | Addresses | What happens | {prompt} | {other} |\n|---:|---|---|---:|---:|")
    for size in sizes:
        for falling in (False, True):
            for row, outages in found.items():
                cells = [cell(outages[size, falling, name]) for name in (prompt, other)]
                print(f"| {size} | {'fall' if falling else 'rise'} | {row} | {' | '.join(cells)} |", flush=True)
    print()
