#!/usr/bin/env python3
"""Compares `check`, `step` and `flat` with the second implementation, on random plans and scripts.

    interop/differences.py [--seed TEXT] [--cases N] [--kind KIND] [--case KIND/NUMBER]

Runs N cases of each kind, or of one kind. A case depends only on the seed, its kind and its number. A case that differs
is kept in a folder, whose path is printed, with the output of both programs. The first one of each kind is reduced to
fewer lines. The exit status is 0 if the program ran, at least one case was compared, and no case differs.
"""

import argparse
import collections
import pathlib
import random
import re
import sys
import tempfile
import time

import common
import generate
import generate_files
import second_network

KINDS = ("step", "check", "flat")

WORDS = (
    "relayed",
    "sent",
    "delivered",
    "idle",
    "heard",
    "taken",
    "put",
    "lost",
    "set",
    "ticked",
    "polled",
    "fed",
    "out",
    "ok",
)


# A written case that random ones seldom reach: a Learning port learns from a frame that it filters, and disabling a port
# flushes its stations.

HAND_PLAN = """
[[bridge]]
name = "A"
address = "02-00-00-00-00-01"
[[bridge]]
name = "B"
address = "02-00-00-00-00-02"
[[link]]
name = "L"
a = "A"
a_port = 1
b = "B"
b_port = 1
b_state = "learning"
[[service]]
name = "s"
vid = 1
[[port]]
name = "x"
bridge = "A"
port = 2
service = "s"
[[port]]
name = "c"
bridge = "B"
port = 2
service = "s"
[[port]]
name = "d"
bridge = "B"
port = 3
service = "s"
"""

HAND_SCRIPT = """\
poll x ffffffffffff0200000000aa88b5
feed x
receive A 2
transmit A 1
take L ab
put L ab
receive B 1
poll c 0200000000aa0200000000bb88b5
feed c
receive B 2
admin B 1 down
poll c 0200000000aa0200000000bb88b5
feed c
receive B 2
admin B 1 up
"""


class Case:
    """A command with its input, for both programs."""

    def __init__(self, kind, plan=None, script=None, ports=None):
        self.kind, self.plan, self.script, self.ports = kind, plan, script, ports

    def here(self, folder):
        if self.kind == "flat":
            return common.run("flat", self.ports, given=self.script)
        path = folder / "plan.toml"
        path.write_bytes(self.plan)
        return common.run(self.kind, path, given=self.script or b"")

    def there(self):
        if self.kind == "flat":
            return second_network.flat(self.ports, self.script)
        if self.kind == "check":
            return second_network.check(self.plan)
        return second_network.step(self.plan, self.script)

    def differs(self, folder):
        return self.here(folder) != self.there()

    def with_script(self, lines):
        return Case(self.kind, self.plan, b"\n".join(lines) + b"\n", self.ports)


def make(seed, kind, number):
    chance = random.Random(f"{seed}/{kind}/{number}")
    if kind == "flat":
        ports = chance.randint(2, 16) if number else 3
        lines = generate.flat_lines(chance, ports) if number else generate.many_stations(chance)
        return Case(kind, script=lines.encode(), ports=ports)
    if kind == "check":
        return Case(kind, plan=generate_files.plan_file(chance))
    if number == 0:
        return Case(kind, plan=HAND_PLAN.encode(), script=HAND_SCRIPT.encode())
    plan = generate.step_plan(chance)
    return Case(kind, plan=generate.toml(plan).encode(), script=generate.script(chance, plan).encode())


def smaller(case, folder, seconds=45):
    """Returns the case with fewer lines that still differs, after at most some seconds of search."""
    if case.script is None:
        return case
    lines, end = case.script.split(b"\n"), time.monotonic() + seconds
    size = len(lines) // 2
    while size:
        start = 0
        while start < len(lines) and time.monotonic() < end:
            fewer = lines[:start] + lines[start + size :]
            if case.with_script(fewer).differs(folder):
                lines = fewer
            else:
                start += size
        size //= 2
    return case.with_script(lines)


def first_difference(here, there):
    if here[1] != there[1]:
        return f"exit status {here[1]}, expected {there[1]}: {here[0][-80:]!r}, expected {there[0][-80:]!r}"
    for number, (one, two) in enumerate(zip(here[0].split("\n"), there[0].split("\n")), 1):
        if one != two:
            return f"line {number} of the output is {one!r}, expected {two!r}"
    return "one output is longer"


def keep(case, name, here, there):
    folder = pathlib.Path(tempfile.mkdtemp(prefix=f"difference-{name}-"))
    (folder / "here").write_text(f"{here[0]}exit status {here[1]}\n", encoding="utf-8")
    (folder / "there").write_text(f"{there[0]}exit status {there[1]}\n", encoding="utf-8")
    if case.plan is not None:
        (folder / "plan.toml").write_bytes(case.plan)
    if case.script is not None:
        (folder / "script").write_bytes(case.script)
    return folder


def kind_of(line):
    """Returns the kind as which a line of output is counted."""
    words = line.split(" ")
    if words[0] in ("filtered", "forest", "settled", "plan:", "fault:"):
        at = 2 if words[0] == "filtered" and words[1].isdigit() else 1
        return words[0] + " " + words[min(at, len(words) - 1)]
    if " full " in line:
        return "relayed with a full queue"
    if words[0] == "line" and words[-1] == "bad":
        return "line bad"
    if line == "no such":
        return line
    return words[0] if words[0] in WORDS else None


def compare(seed, kind, numbers, folder, seen):
    """Returns the numbers of the cases that differ, and how many lines were compared."""
    differing, lines = [], 0
    for number in numbers:
        case = make(seed, kind, number)
        here, there = case.here(folder), case.there()
        lines += there[0].count("\n")
        seen.update(filter(None, map(kind_of, there[0].split("\n"))))
        if here != there:
            report(case, f"{kind}/{number}", folder, (here, there), is_first=not differing)
            differing.append(number)
        if len(differing) == 5:
            print(f"note: five cases of {kind} differ: the remaining ones are skipped", file=sys.stderr)
            break
    return differing, lines


def report(case, name, folder, outputs, is_first):
    """Prints what differs in a case, and keeps the case. The first one is reduced, if it differs a second time."""
    differs = "differs once" if case.here(folder) != outputs[0] else "differs"
    if is_first and case.differs(folder):
        case = smaller(case, folder)
        outputs = case.here(folder), case.there()
    kept = keep(case, name.replace("/", "-"), *outputs)
    print(f"error: case {name} {differs}: {first_difference(*outputs)}", file=sys.stderr)
    print(f"hint: the case and both outputs are in {kept}", file=sys.stderr, flush=True)


def counts_text(seen):
    lines = ["Lines of the outputs, by kind:", "", "| Line | Times | Line | Times |", "|---|---:|---|---:|"]
    rows = sorted(seen.items()) + [("", "")] * (len(seen) % 2)
    half = len(rows) // 2
    for (one, first), (two, second) in zip(rows[:half], rows[half:]):
        lines.append(f"| `{one}` | {first} | {f'`{two}`' if two else ''} | {second} |")
    return "\n".join(lines) + "\n"


def arguments():
    parser = argparse.ArgumentParser(description=__doc__.split("\n")[0])
    parser.add_argument("--seed", default=str(int(time.time())))
    parser.add_argument("--cases", type=int, default=2200, metavar="N", help="the cases of each kind [default: 2200]")
    parser.add_argument("--kind", choices=KINDS, help="only this kind")
    parser.add_argument("--case", metavar="KIND/NUMBER", help="only this case, as in step/17")
    given = parser.parse_args()
    if given.case and not re.fullmatch(rf"({'|'.join(KINDS)})/\d+", given.case):
        parser.error(f"argument --case: '{given.case}' is not KIND/NUMBER with a KIND of {', '.join(KINDS)}")
    if given.cases < 1:
        parser.error(f"argument --cases: {given.cases} is less than 1")
    return given


def cases_of(given):
    """Returns the numbers of the cases, by kind."""
    if given.case:
        kind, number = given.case.split("/")
        return {kind: [int(number)]}
    return {kind: range(given.cases) for kind in KINDS if given.kind in (kind, None)}


def main():
    given = arguments()
    common.need_program()
    print(f"seed {given.seed}", flush=True)
    table = common.Table("The second implementation")
    seen = collections.Counter()
    with common.Folder() as folder:
        for kind, numbers in cases_of(given).items():
            differing, lines = compare(given.seed, kind, numbers, folder.path, seen)
            name = f"`{kind}`: {len(numbers)} cases, {lines} lines of output"
            table.row(name, "0 differ", f"{len(differing)} differ")
    print(counts_text(seen))
    common.finish(table)


if __name__ == "__main__":
    main()
