"""allocations refused one by one, and all from one on: no command gives a wrong verdict, and no run loses in silence"""
import subprocess

import common

from hostile_parts import frames, memory_runs, refusals
from hostile_parts.attack import PROGRAM
from hostile_parts.memory_runs import RUNS, run_plan, wrong_run
from hostile_parts.refusals import fill, wrong_answer, wrong_verdict

__all__ = ["RUNS", "fill", "run_plan", "wrong_run", "wrong_verdict"]

BROADCAST = "ffffffffffff02000000010108004142"
EXAMPLES = common.TOP / "examples"
ACCESS, VIDEO = EXAMPLES / "access.toml", EXAMPLES / "access-video.toml"
ERRORS, WARNINGS = (EXAMPLES / "broken" / f"{it}.toml" for it in ("errors", "warnings"))
JSON = ["--format", "json"]
FAILURES = ["--bridges", "--pairs"]
# The commands that print a verdict.
VERDICTS = {
    "--version": ["--version"], "--help": ["--help"], "help": ["help"], "help plan": ["help", "plan"],
    "help survive": ["help", "survive"], "show": ["show"], "init": ["init", "--ring", "3"],
    "init --dual-homed": ["init", "--dual-homed", "3", "--services", "4"],
    "check": ["check", "plan.toml"], "check --all": ["check", "--all", ERRORS],
    "check --strict": ["check", "--strict", WARNINGS], "check --settle": ["check", "--settle", "ring.toml"],
    "check --format json": ["check", *JSON, "plan.toml"],
    "check --all --format json": ["check", "--all", *JSON, ERRORS],
    "check --strict --format json": ["check", "--strict", *JSON, WARNINGS],
    "tree": ["tree", "ring.toml"], "tree --down": ["tree", "--down", "L1", "ring.toml"],
    "tree --format json": ["tree", *JSON, "ring.toml"],
    "draw": ["draw", "ring.toml"], "draw --format dot": ["draw", "--format", "dot", "plan.toml"],
    "draw --service": ["draw", "--service", "red", "--down", "B2", "ring.toml"],
    "draw --service --format dot": ["draw", "--service", "red", "--format", "dot", "ring.toml"],
    "trace": ["trace", "plan.toml", "C1", BROADCAST], "trace --settle": ["trace", "--settle", "ring.toml", "C1"],
    "trace --format json": ["trace", *JSON, "plan.toml", "C1", BROADCAST, "--then", "C2", BROADCAST],
    "trace --settle --format json": ["trace", "--settle", *JSON, "ring.toml", "C1"],
    "trace --format svg": ["trace", "--format", "svg", "plan.toml", "C1", BROADCAST, "--then", "C2", BROADCAST],
    "trace --settle --format svg": ["trace", "--settle", "--format", "svg", "ring.toml", "C1"],
    "survive": ["survive", "ring.toml"], "survive --format json": ["survive", *JSON, "ring.toml"],
    "survive --format csv": ["survive", "--format", "csv", "ring.toml"],
    "survive --bridges": ["survive", "--bridges", ACCESS],
    "survive --bridges --pairs": ["survive", *FAILURES, "ring.toml"],
    "survive --bridges --pairs --format json": ["survive", *FAILURES, *JSON, "ring.toml"],
    "survive --bridges --pairs --format csv": ["survive", *FAILURES, "--format", "csv", "ring.toml"],
    "survive --strict": ["survive", "--strict", EXAMPLES / "accept.toml"],
    "survive --from": ["survive", "--from", "video-south", ACCESS],
    "survive --print-accept": ["survive", "--print-accept", ACCESS],
    "diff": ["diff", ACCESS, VIDEO], "diff --format json": ["diff", *JSON, ACCESS, VIDEO],
    "diff --bridges --pairs": ["diff", *FAILURES, "plan.toml", "ring.toml"],
    "diff --bridges --pairs --format json": ["diff", *FAILURES, *JSON, "plan.toml", "ring.toml"],
    "report": ["report", "plan.toml"], "report --bridges --pairs": ["report", *FAILURES, "ring.toml"],
    "report --diff": ["report", "--diff", "plan.toml", "ring.toml"],
}
# Commands that print no report: an argument or a plan is wrong, or the picture goes to a file.
OTHERS = {
    "wrong arguments": ["survive", "--ring", "4"], "a number out of range": ["flat", "99"], "no plan": ["check"],
    "a name that the plan lacks": ["tree", "--down", "rng1", "ring.toml"],
    "a service that the plan lacks": ["survive", "--service", "x", "ring.toml"],
    "a plan that is refused": ["check", EXAMPLES / "broken" / "misspelt.toml"], "a missing plan": ["tree", "none"],
    "draw -o": ["draw", "ring.toml", "-o", "picture"], "report -o": ["report", "plan.toml", "-o", "picture"],
}
ANSWERS = {"flat": ["flat", "3"], "step": ["step", EXAMPLES / "e-lan.toml"],
           "step --format json": ["step", *JSON, EXAMPLES / "e-lan.toml"],
           "step --format csv": ["step", "--format", "csv", EXAMPLES / "e-lan.toml"],
           "step --test": ["step", "--test", "plan.toml"]}


def plans():
    """Returns the files of the attacks."""
    ring = subprocess.run([PROGRAM, "init", "--ring", "4"], stdout=subprocess.PIPE, check=True).stdout
    capture = frames.captures.pcap([frames.captures.frame(60 + it) for it in range(20)])
    return {"plan.toml": (EXAMPLES / "two-bridges.toml").read_bytes(), "ring.toml": ring, "run.toml": run_plan(),
            "in": capture}


def wrong_picture(room, ended, there):
    """A picture is whole, or was not written."""
    why, picture = wrong_verdict(room, ended, there), room.read("picture")
    room.there = room.there or picture
    return why or (None if picture == (b"" if ended.status == 3 else room.there) else "the picture is another")


def attack(part):
    library, files = refusals.build(part), plans()
    given = {kind: (EXAMPLES / "e-lan.steps").read_bytes() for kind in ANSWERS}
    given |= {"flat": (EXAMPLES / "learning.txt").read_bytes(), "step --test": (EXAMPLES / "tagged.test").read_bytes()}
    for rows, check in ((VERDICTS, wrong_verdict), (OTHERS, wrong_verdict), (ANSWERS, wrong_answer)):
        for kind, words in rows.items():
            setting = (library, files, given.get(kind, b""), part.times(200))
            refusals.sweep(part, kind, words, wrong_picture if kind.endswith(" -o") else check, setting)
    memory_runs.attack(part, library, files)
    library.unlink()
