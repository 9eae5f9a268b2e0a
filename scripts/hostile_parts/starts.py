"""six runs that start at once at one stale control path: one has it, and each other says so"""
import re
import socket
import stat
import time

from hostile_parts import frames
from hostile_parts.attack import PROGRAM
from hostile_parts.control import ask

STARTS = 6
LOST = re.compile(rb"error: cannot create control socket control: [^\n]+\n")


def plan(number):
    text = frames.BRIDGES + frames.LINK + frames.SERVICES
    return text + frames.port("near", "B1", 1, "red", f'kind = "socket"\nlisten = "near{number}.sock"')


def wait_for_one(runs):
    """Waits until all runs but one have ended, and a while longer."""
    end = time.monotonic() + 20
    while sum(run.poll() is None for run in runs) > 1 and time.monotonic() < end:
        time.sleep(0.02)
    time.sleep(0.2)


def wrong_starts(room, runs):
    """Returns what is wrong with six runs, or None."""
    going = [number for number, run in enumerate(runs) if run.poll() is None]
    if len(going) != 1:
        return f"{len(going)} of {STARTS} runs have the control socket"
    for number, run in enumerate(runs):
        out, err = room.read(f"run{number}.out"), room.read(f"run{number}.err")
        if number not in going and (run.returncode, out) != (3, b"fault: path\n"):
            return f"run {number}: exit status {run.returncode}, and the output is {out!r}"
        if number not in going and not LOST.fullmatch(err):
            return f"run {number}: standard error is {err!r}"
    answer = ask(room.path / "control", b"counts\n")
    if not answer.endswith(b"ok\n"):
        return f"the run that has the control socket answers {answer[-40:]!r}"
    answer = ask(room.path / "control", b"stop\n")
    status = room.end(runs[going[0]], name=f"run{going[0]}").status
    left = [it.name for it in room.path.iterdir() if stat.S_ISSOCK(it.lstat().st_mode)]
    return None if (answer, status, left) == (b"ok\n", 0, []) else f"stop: {answer!r}, {status}, sockets {left}"


def attack(part):
    for number in range(part.times(60)):
        with part.room("starts", number) as room:
            for each in range(STARTS):
                room.write(f"plan{each}.toml", plan(each))
            if number % 3:
                stale = socket.socket(socket.AF_UNIX, socket.SOCK_STREAM)
                stale.bind(str(room.path / "control"))
                stale.close()
            runs = [room.start(PROGRAM, "run", "--control", "control", f"plan{each}.toml", name=f"run{each}")
                    for each in range(STARTS)]
            wait_for_one(runs)
            kind = "starts, six at a stale path" if number % 3 else "starts, six at a free path"
            part.judge(kind, wrong_starts(room, runs), room)
