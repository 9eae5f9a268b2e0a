"""Commands whose requests for memory are refused, one by one or all from one on, and what they may print."""
import json
import os
import subprocess
import sys

import common

from hostile_parts.attack import PLAIN, PROGRAM, crash

# What a command prints if an allocation failed: while a plan was read, and otherwise.
LACKS = ("plan: 11 memory\nfault: memory", "fault: memory")
# The titles of the tables, which have no place for a fault.
TITLES = ("down,name,other,converged,ticks,forest,accepted", "kind,name,direction,entered,left,filtered,taken,lost")
SOURCE = common.TOP / "scripts" / "refuse.c"


def build(part):
    """Builds the library that refuses requests. Returns its path."""
    path = part.base / "refuse.so"
    words = ["cc", "-O2", "-shared", "-fPIC", "-o", str(path), str(SOURCE)]
    try:
        subprocess.run(words, check=True)
    except (OSError, subprocess.CalledProcessError) as error:
        sys.exit(f"error: cannot build {SOURCE}: {error}")
    return path


def fill(room, files):
    for name, data in files.items():
        room.write(name, data)


def refusing(library, first, last):
    """Returns the environment of a command whose requests from one number to another are refused."""
    numbers = {"REFUSE_FROM": str(first), "REFUSE_TO": str(last)}
    return {**PLAIN, "LD_PRELOAD": str(library), "REFUSED": "refused", **numbers}


def whole(library):
    """Returns the environment of a command that gets all memory that it asks for."""
    return refusing(library, 4_000_000_000, 4_000_000_000)


def errors_in(text):
    """Returns the errors of a plan that a document names."""
    try:
        return json.loads(text)["plan_fault"]["errors"]
    except (ValueError, KeyError, TypeError):
        return []


def is_faulty(text, errors):
    """Checks whether a document says that an allocation failed, and claims nothing else but some of these errors."""
    try:
        document = json.loads(text)
    except ValueError:
        return False
    if not isinstance(document, dict) or document.get("fault") != "memory":
        return False
    claims = {"command", "version", "plan", "old_plan", "fault", "warnings", "losses", "drops", "paths"}
    rest = {key: value for key, value in document.items() if key not in claims and value != []}
    refused = rest.pop("plan_fault", {"fault": "memory", "rule": 11})
    is_known = all(it in errors for it in refused.get("errors", []))
    return not rest and is_known and (refused["fault"], refused["rule"]) == ("memory", 11)


def is_memory(ended, there):
    """Checks whether a command claims nothing but that an allocation failed, in a file that it writes perhaps, and errors
    of the plan that it names with all memory too."""
    text, words = ended.out.decode("utf-8", "replace").strip(), [*map(os.fsencode, ended.words)]
    is_table = b"csv" in b" ".join(words) and text in ("", *TITLES)
    is_unwritten = b"-o" in words and text == "fault: write"
    return ended.status == 3 and (text in LACKS or is_table or is_unwritten or is_faulty(text, errors_in(there.out)))


def wrong_verdict(_, ended, there):
    """The output and the status are those with all memory, or name the fault. Standard error has no other lines."""
    is_same = (ended.status, ended.out) == (there.status, there.out)
    if not (is_same or is_memory(ended, there)):
        return f"another verdict: exit status {ended.status}, and {there.status} with all memory"
    more = set(ended.complaints().splitlines()) - set(there.complaints().splitlines())
    odd = [it for it in more if "memory" not in it]
    return f"standard error has a line more: {odd[0][:200]!r}" if odd else None


def wrong_answer(_, ended, there):
    """The first line that differs from the whole output names memory, or comes from a source that was not learnt."""
    if ended.out == there.out or is_memory(ended, there):
        return None if ended.status in (there.status, 3) else f"exit status {ended.status}, expected {there.status}"
    is_fault = ended.status == 3 and '"fault": "memory"' in ended.out.decode("utf-8", "replace")
    here, wanted = ([it.strip(' ",') for it in ended.lines()] for ended in (ended, there))
    for one, two in zip(here, wanted):
        if one != two:
            is_flooded = one.startswith(("relayed", "out")) and two.startswith(("relayed", "out"))
            is_end = one == "]" and is_fault
            return None if "memory" in one or is_flooded or is_end else f"{one!r} in place of {two!r}"
    return None if "memory" in (here or [""])[-1] else "the output ends early and does not say why"


def numbers_of(part, kind, total, most):
    """Returns the numbers of the requests to refuse: all, or each n-th from a random one on."""
    step = max(1, -(-total // most))
    return range(1 + part.chance(kind).randrange(step), total + 1, step)


def sweep(part, kind, words, check, setting):
    """Refuses the requests of a command, each by itself and every third with all that follow."""
    library, files, given, most = setting
    with part.room(kind) as room:
        fill(room, files)
        room.own = room.names()
        there = room.run(PROGRAM, *words, given=given, env=whole(library))
        check(room, there, there)
        total = requests_of(room, library, words, given)
        tries = [(number, last) for place, number in enumerate(numbers_of(part, kind, total, most))
                 for last in (number, 4_000_000_000)[: 1 + (place % 3 == 0)]]
        for first, last in tries:
            if room.is_kept:
                break
            try_one(part, kind, words, (room, library, given, there, check), (first, last))
        singles = sum(first == last for first, last in tries)
        part.note(f"memory, {kind}", f"{singles} of {total} requests")


def try_one(part, kind, words, setting, numbers):
    """Runs a command in a room with some requests refused."""
    room, library, given, there, check = setting
    room.clear()
    env = refusing(library, *numbers)
    ended = room.run(PROGRAM, *words, given=given, env=env)
    why = crash(ended) or check(room, ended, there)
    names = [f"{name}={env[name]}" for name in ("LD_PRELOAD", "REFUSED", "REFUSE_FROM", "REFUSE_TO")]
    ended.words = ["env", *names, *map(os.fspath, ended.words)]
    if why:
        room.write("given", given)
    part.judge(f"memory, {kind}", why, room, ended)


def requests_of(room, library, words, given):
    """Returns how many requests a command has, by halving the distance between one it has and one it has not."""
    low, high = 0, 1
    while is_asked(room, library, words, given, high):
        low, high = high, high * 2
    while low + 1 < high:
        middle = (low + high) // 2
        low, high = (middle, high) if is_asked(room, library, words, given, middle) else (low, middle)
    return low


def is_asked(room, library, words, given, number):
    """Checks whether a command has a request of this number."""
    (room.path / "refused").unlink(missing_ok=True)
    room.run(PROGRAM, *words, given=given, env=refusing(library, number, number))
    return bool(room.read("refused"))
