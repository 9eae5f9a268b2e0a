"""mutated and odd plan files: no crash, a documented status, and a refused plan names a place and writes nothing"""
import os
import re
import threading
import time

import common
import generate_files

from hostile_parts.attack import PROGRAM, misfit
from hostile_parts.mutations import mutate, mutate_lines

COMMANDS = [["check"], ["check", "--all"], ["check", "--strict", "--settle"], ["survive"], ["survive", "--bridges"],
            ["tree"], ["draw", "-o", "picture"], ["draw", "--format", "dot"], ["diff", "whole.toml"], ["step"]]
PLACE = re.compile(rb"(?s)(error: )?[^:]*plan\.toml:[1-9]\d*:[1-9]\d*: .+")
# Seconds of processor time that a command may take.
MOST = 10
MILLION = b"n" * 1_000_000
BRIDGE = b'[[bridge]]\nname = "B1"\naddress = "02-00-00-00-00-01"\n'


def wrong_refusal(ended, before, after):
    """Returns what is wrong with the end of a command on a plan, or None."""
    why = misfit(ended, MOST)
    if why or ended.status != 1:
        return why
    if not PLACE.match(ended.err):
        return "the plan is refused, and standard error names no place"
    return None if before == after else f"the plan is refused, and files changed: {sorted(after.items())}"


def try_plan(part, kind, number, plan, words):
    with part.room(kind, number) as room:
        room.write("plan.toml", plan)
        room.write("whole.toml", BRIDGE)
        before = room.names()
        ended = room.run(PROGRAM, *words, "plan.toml")
        is_many = "--all" in words and "unknown keys" in str(number)
        weakness = "many errors" if is_many else None
        part.judge(kind, wrong_refusal(ended, before, room.names()), room, ended, weakness)


def bases():
    """Returns the plans of the examples, and some that `init` prints."""
    folder = common.TOP / "examples"
    plans = [it.read_bytes() for it in sorted([*folder.glob("*.toml"), *folder.glob("broken/*.toml")])]
    for words in (["--ring", "4"], ["--line", "5"], ["--star", "4"], ["--dual-homed", "2"], ["--services", "3"]):
        plans.append(common.run("init", *words)[0].encode())
    return plans


def mutated(part):
    plans = bases()
    for number in range(part.times(900)):
        chance = part.chance("mutated", number)
        plan = chance.choice(plans) if chance.random() < 0.7 else generate_files.plan_file(chance)
        plan = chance.choice([mutate, mutate_lines])(chance, plan)
        try_plan(part, "plans, mutated", number, plan, chance.choice(COMMANDS))
    for number in range(part.times(60)):
        chance = part.chance("run", number)
        plan = chance.choice([mutate, mutate_lines])(chance, chance.choice(plans))
        try_plan(part, "plans, mutated, to run", number, plan, ["run", "--seconds", "1", "--linger", "0"])


def nested(depth):
    """Returns texts that nest values, keys and tables."""
    yield b"a = " + b"[" * depth
    yield b"a = " + b"[" * depth + b"]" * depth
    yield b"a = " + b"{a = " * depth + b"1" + b"}" * depth
    yield b"a." * depth + b"a = 1"
    yield b"[" + b"a." * depth + b"a]"
    yield b"".join(b"[" + b"a." * place + b"a]\n" for place in range(min(depth, 300)))
    yield b"[[" + b"bridge." * depth + b"bridge]]"


def odd_plans():
    """Returns plans that nobody writes, by what is odd about them."""
    found = {f"nested {depth} deep, {place}": text
             for depth in (90, 1000, 200_000) for place, text in enumerate(nested(depth))}
    found["empty"] = b""
    found["a name of a million letters"] = b'[[bridge]]\nname = "' + MILLION + b'"\naddress = "02-00-00-00-00-01"\n'
    found["a key of a million letters"] = BRIDGE + MILLION + b" = 1\n"
    found["a million letters on a line"] = BRIDGE + b"# " + MILLION + b"\nx = 1\n"
    found["a number of a million digits"] = b"[network]\nageing = " + b"9" * 1_000_000
    found["a million lines"] = b"\n" * 1_000_000 + BRIDGE
    found["a hundred thousand unknown keys"] = b"".join(b"k%d = 1\n" % it for it in range(100_000))
    found["a hundred thousand bridges"] = b"[[bridge]]\n" * 100_000
    found["frames of a million digits"] = BRIDGE + b'[[service]]\nname = "s"\nvid = 1\n[[port]]\nname = "p"\n' \
        b'bridge = "B1"\nport = 1\nservice = "s"\nin = ["' + b"0" * 1_000_000 + b'"]\n'
    found["invalid UTF-8"] = BRIDGE + b"# \xff\xfe\n"
    found["half a character"] = BRIDGE + b"# \xe2\x82"
    found["a surrogate"] = BRIDGE + b"# \xed\xa0\x80\n"
    found["UTF-16"] = BRIDGE.decode().encode("utf-16")
    found["a byte order mark"] = b"\xef\xbb\xbf" + BRIDGE
    found["zeros"] = b"\0" * 100_000
    found["the program itself"] = open(PROGRAM, "rb").read()
    return found


# Paths that are no plan files, and the statuses that they may have.
PATHS = {"/dev/zero": [3], "/dev/null": [0, 4], ".": [3], "missing": [3], "loop": [3], "plan.toml/x": [3], "": [3]}
PATHS |= {"n" * 5000: [3], "a\nb": [3], "\x1b[31m": [3]}


def paths(part):
    for path, statuses in PATHS.items():
        for words in COMMANDS + [["run", "--seconds", "1"]]:
            with part.room("paths") as room:
                room.write("plan.toml", BRIDGE)
                room.write("whole.toml", BRIDGE)
                os.symlink("loop", room.path / "loop")
                before = room.names()
                ended = room.run(PROGRAM, *words, path)
                why = wrong_refusal(ended, before, room.names())
                if not why and ended.status not in statuses:
                    why = f"exit status {ended.status} for {path[:40]!r}"
                if not why and ended.status == 3 and not ended.err:
                    why = "standard error does not give the cause"
                is_raw = not why and path != "" and any(it < 32 for it in ended.err.rstrip(b"\n"))
                why = "standard error has a control character of the path" if is_raw else why
                part.judge("plans, odd paths", why, room, ended)


def pipes(part):
    """Gives a plan by a named pipe whose writer comes late, or comes and writes nothing."""
    for words in COMMANDS:
        for plan in (BRIDGE, b"", BRIDGE + b"x = 1\n"):
            with part.room("pipe") as room:
                os.mkfifo(room.path / "plan.toml")
                room.write("whole.toml", BRIDGE)
                writer = threading.Thread(target=write_late, args=(room, plan), daemon=True)
                before = room.names()
                writer.start()
                ended = room.run(PROGRAM, *words, "plan.toml")
                why = wrong_refusal(ended, before, room.names())
                if not why and (ended.status == 1) != plan.endswith(b"x = 1\n"):
                    why = f"exit status {ended.status}"
                part.judge("plans, from a pipe", why, room, ended)


def write_late(room, plan):
    time.sleep(0.1)
    with open(room.path / "plan.toml", "wb") as file:
        file.write(plan)


def attack(part):
    mutated(part)
    for name, plan in odd_plans().items():
        for words in COMMANDS if part.share == 1 else COMMANDS[:2]:
            try_plan(part, "plans, odd", name, plan, words)
    paths(part)
    pipes(part)
