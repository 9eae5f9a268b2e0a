"""random and mutated lines, and arguments, against a second implementation"""
import re

import common
import generate
import second_network
from second_plan import read_plan

from hostile_parts.attack import PROGRAM, misfit
from hostile_parts.mutations import mutate

REASON = r"(malformed|long|s-tagged|not-member|not-forwarding|untagged|worn|memory|reserved-([1-9]|10|14))"
FLAT = re.compile(rf"out ([1-9]|1[0-6]) ([0-9a-f]{{2}})+|filtered ([1-9]|1[0-6]) {REASON}|line [1-9]\d*: bad")
STEP = re.compile(
    rf"polled [\w-]+ \d+|fed|set|put|ticked|heard|idle|no such|line [1-9]\d*: bad|(delivered|sent) ([0-9a-f]{{2}})*"
    rf"|relayed( \d+)*( (full|memory) \d+)*|filtered {REASON}|(taken|lost) \d+"
    r"|port [\w-]+ entered \d+ left \d+ filtered \d+|link [\w-]+ ab taken \d+ lost \d+ ba taken \d+ lost \d+"
    r"|forest (yes|no)|loop [\w-]+|settled (yes|no)"
)
FINDING = re.compile(rb"line [1-9]\d*: (wanted .*, got .*|bad|no such)", re.DOTALL)
FAULTS = re.compile(r"fault: (read|write|memory|steps)")
EXAMPLES = ["two-bridges", "metro", "e-line", "e-lan", "parallel", "losses", "settling", "failover"]
# Seconds that an attack may take.
MOST = 10


def undocumented(ended, allowed):
    """Returns the first line of output that the documentation does not have, or None."""
    lines = ended.lines()
    for number, line in enumerate(lines, 1):
        is_fault = number == len(lines) and FAULTS.fullmatch(line)
        if not allowed.fullmatch(line) and not is_fault:
            return f"line {number} of the output is of no documented form: {line[:200]!r}"
    return None


def difference(ended, there):
    """Returns what differs from the second implementation, or None."""
    if (ended.out, ended.status) == (there[0].encode(), there[1]):
        return None
    lines = zip(ended.lines(), there[0].splitlines())
    first = next((number for number, (one, two) in enumerate(lines, 1) if one != two), "none")
    return f"status {ended.status}, expected {there[1]}; the first line that differs is {first}"


def try_flat(part, kind, number, given, ports):
    with part.room(kind, number) as room:
        room.write("given", given)
        ended = room.run(PROGRAM, "flat", str(ports), given=given)
        why = misfit(ended, MOST) or undocumented(ended, FLAT)
        why = why or difference(ended, second_network.flat(ports, given))
        part.judge(kind, why, room, ended)


def long_lines(chance):
    """Returns lines around the greatest length of a line, and far longer ones."""
    parts = []
    for _ in range(chance.randrange(1, 5)):
        length = chance.choice([139_990, 139_998, 140_000, 140_001, 140_002, 300_000, 1_000_000])
        parts.append(b"in 1 " + bytes([chance.choice(b"0afx\0")]) * (length - 5))
        parts.append(generate.frame(chance).join(["in 2 ", ""]).encode())
    return b"\n".join(parts) + chance.choice([b"", b"\n"])


def flats(part):
    for number in range(part.times(500)):
        chance = part.chance("flat", number)
        ports = chance.randint(2, 16)
        given = mutate(chance, generate.flat_lines(chance, ports).encode())
        try_flat(part, "flat, mutated", number, given, ports)
    for number in range(part.times(300)):
        chance = part.chance("noise", number)
        given = chance.randbytes(chance.choice([1, 10, 1000, 20000]))
        if chance.random() < 0.5:
            given = bytes(chance.choice(b"in 1203\n\n\r\0afF-+") for _ in range(1000))
        try_flat(part, "flat, noise", number, given, 3)
    for number in range(part.times(30)):
        try_flat(part, "flat, long lines", number, long_lines(part.chance("long", number)), 3)
    try_flat(part, "flat, long lines", 0, b"in 1 " + b"00" * 20_000_000, 3)


def step_case(chance):
    """Returns a plan and a script for it."""
    if chance.random() < 0.3:
        name = chance.choice(EXAMPLES)
        read = (common.TOP / "examples" / f"{name}.toml", common.TOP / "examples" / f"{name}.steps")
        return tuple(it.read_bytes() for it in read)
    plan = generate.step_plan(chance)
    return generate.toml(plan).encode(), generate.script(chance, plan).encode()


def steps(part):
    for number in range(part.times(300)):
        chance = part.chance("step", number)
        plan, script = step_case(chance)
        script = mutate(chance, script) if chance.random() < 0.9 else chance.randbytes(3000)
        with part.room("step", number) as room:
            room.write("plan.toml", plan)
            room.write("given", script)
            ended = room.run(PROGRAM, "step", "plan.toml", given=script)
            why = misfit(ended, MOST) or undocumented(ended, STEP)
            part.judge("step, mutated", why or difference(ended, second_network.step(plan, script)), room, ended)


def with_expectations(plan, script):
    """Returns a script with the answers that are expected of each line."""
    network, lines = second_network.Network(read_plan(plan)), []
    for number, line in enumerate(second_network.lines_of(script), 1):
        answer = network.answer_line(number, line)
        lines += [line, b"expect " + answer.encode()] if not answer.startswith("line ") else []
    return b"\n".join(lines) + b"\n"


def tests(part):
    """Tries `step --test`: without a mutation nothing is found, and with one what is found is of a documented form."""
    for number in range(part.times(100)):
        chance = part.chance("test", number)
        name = chance.choice(EXAMPLES)
        plan, script = ((common.TOP / "examples" / f"{name}.{it}").read_bytes() for it in ("toml", "steps"))
        given = with_expectations(plan, script)
        is_whole = number % 5 == 0
        given = given if is_whole else mutate(chance, given)
        with part.room("test", number) as room:
            room.write("plan.toml", plan)
            room.write("given", given)
            ended = room.run(PROGRAM, "step", "--test", "plan.toml", given=given)
            findings = [it for it in ended.err.split(b"\nline ") if it]
            why = misfit(ended, MOST) or undocumented(ended, STEP)
            if not why and (ended.status == 4) != bool(findings):
                why = f"exit status {ended.status} with {len(findings)} findings"
            if not why and is_whole and "no such" not in given.decode() and ended.status != 0:
                why = f"exit status {ended.status} without a wrong expectation"
            if not why and findings and not FINDING.match(ended.err):
                why = "standard error has no finding of a documented form"
            part.judge("step --test, mutated", why, room, ended)


COMMANDS = ["flat", "show", "init", "check", "tree", "trace", "survive", "diff", "draw", "report", "step", "run"]
COMMANDS.append("control")
OPTIONS = ["--strict", "--all", "--settle", "--ticks", "--format", "json", "csv", "svg", "dot", "--down", "L1", "B1:1"]
OPTIONS += ["--service", "lan", "--pairs", "--bridges", "--from", "C1", "--accept", "plan.toml", "-o", "picture", "--"]
OPTIONS += ["--seconds", "1", "--linger", "0", "--test", "--to", "--diff", "--ctag", "5:7", "--length", "14", "--then"]
OPTIONS += ["", "-", "--ring", "--line", "99999999999999999999", "é", "a\nb", "--help", "-h", "-V", "x" * 100_000]
OPTIONS += ["plan.toml", "plan.toml", "plan.toml", "ffffffffffff02000000010108004142", "--x=y", "--format=json"]
OPTIONS += ["-1", "3"]
PLAN = '[[bridge]]\nname = "B1"\naddress = "02-00-00-00-00-01"\n[[service]]\nname = "lan"\nvid = 100\n'
PLAN += '[[port]]\nname = "C1"\nbridge = "B1"\nport = 3\nservice = "lan"\n'


def arguments(part):
    for number in range(part.times(1500)):
        chance = part.chance("arguments", number)
        words = [chance.choice(COMMANDS), *(chance.choice(OPTIONS) for _ in range(chance.randrange(6)))]
        words = [it.encode() for it in words]
        if chance.random() < 0.2:
            words[chance.randrange(len(words))] = b"\xff\xfe" + chance.randbytes(5).replace(b"\0", b"")
        with part.room("arguments", number) as room:
            room.write("plan.toml", PLAN)
            ended = room.run(PROGRAM.encode(), *words)
            is_text = not any(it in b" ".join(words) for it in (b"json", b"csv", b"-h", b"help"))
            why = misfit(ended) if is_text and words[0] != b"flat" else None
            if not why and ended.status not in range(5):
                why = f"exit status {ended.status}"
            if not why and room.read("plan.toml").decode() != PLAN:
                why = "the plan file was changed"
            part.judge("arguments, random", why, room, ended)


def attack(part):
    flats(part)
    steps(part)
    tests(part)
    arguments(part)
