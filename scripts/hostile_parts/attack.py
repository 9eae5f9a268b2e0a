"""What the parts of scripts/hostile share: rooms for attacks, how a command ends, and the tally of a part."""
import os
import pathlib
import random
import re
import resource
import shlex
import shutil
import signal
import subprocess
import tempfile
import time
from collections import Counter
from dataclasses import dataclass

import common

PROGRAM = common.PROGRAM
# The launcher starts the program alone.
PLAIN = {**os.environ, "PBNET_PLAIN": "1"}
REFUSED = re.compile(r"plan: \d+ .+")
FAULT = re.compile(r"fault: (path|read|write|memory|spawn|steps|port \S+ [1-6])")
# What the output of an attack is cut to in a report.
SHOWN = 600
# Seconds after which a command is ended that has not ended by itself, also on a busy machine.
LIMIT = 60


@dataclass
class Ended:
    """How a command ended. The status is None if it ran for longer than it may, and negative after a signal."""

    words: list
    status: int | None
    out: bytes
    err: bytes
    # The processor time that it took.
    seconds: float

    def lines(self):
        return self.out.decode("utf-8", "replace").splitlines()

    def complaints(self):
        return self.err.decode("utf-8", "replace")


def crash(ended, most=10):
    """Returns what is wrong with an end that no documented status has, or None."""
    if ended.status is None:
        return f"it is not over after {LIMIT} s"
    if ended.status < 0:
        return f"it ended by {signal.Signals(-ended.status).name}"
    if ended.status > 4:
        return f"exit status {ended.status}"
    if b"panicked" in ended.err:
        return "it panicked"
    return f"it took {ended.seconds:.1f} s of processor time" if ended.seconds > most else None


def misfit(ended, most=10):
    """Returns what is wrong with an end, by its status and the last line of its text, or None."""
    why = crash(ended, most)
    if why:
        return why
    lines = ended.lines()
    last = lines[-1] if lines else ""
    if ended.status == 1 and not (len(lines) == 1 and REFUSED.fullmatch(last)):
        return f"exit status 1, and the output is {last[:SHOWN]!r}"
    if ended.status == 3 and not FAULT.fullmatch(last):
        return f"exit status 3, and the last line is {last[:SHOWN]!r}"
    if ended.status == 2 and not ended.err and not last.startswith("no such "):
        return "exit status 2, and standard error is empty"
    if ended.status in (0, 4) and (FAULT.fullmatch(last) or REFUSED.fullmatch(last)):
        return f"exit status {ended.status}, and the last line is {last[:SHOWN]!r}"
    return None


def processor_time():
    """Returns the seconds of processor time of all children that have ended."""
    used = resource.getrusage(resource.RUSAGE_CHILDREN)
    return used.ru_utime + used.ru_stime


class Room:
    """A folder for one attack, with its files and the processes that it started. It remains if something is wrong."""

    def __init__(self, base, name):
        self.path, self.is_kept, self.started = base / name, False, []
        # The files that it begins with, and the outputs of a command that nobody attacks.
        self.own, self.there = {}, None

    def __enter__(self):
        self.path.mkdir()
        return self

    def write(self, name, data):
        path = self.path / name
        path.write_bytes(data.encode() if isinstance(data, str) else data)
        return path

    def names(self):
        """Returns the names and sizes of all files."""
        return {str(it.relative_to(self.path)): it.lstat().st_size for it in self.path.rglob("*") if not it.is_dir()}

    def clear(self):
        """Removes all files but those that it begins with."""
        for name in set(self.names()) - set(self.own):
            (self.path / name).unlink()

    def run(self, *words, given=b"", seconds=LIMIT, **how):
        """Runs a command to its end, with these octets as standard input."""
        words = [os.fspath(it) if isinstance(it, os.PathLike) else it for it in words]
        how = {"stdout": subprocess.PIPE, "stderr": subprocess.PIPE, "cwd": self.path, "env": PLAIN, **how}
        if "stdin" not in how:
            how["input"] = given
        begun = processor_time()
        try:
            done = subprocess.run(words, timeout=seconds, check=False, **how)
            status, out, err = done.returncode, done.stdout, done.stderr
        except subprocess.TimeoutExpired as late:
            status, out, err = None, late.stdout, late.stderr
        return Ended(words, status, out or b"", err or b"", processor_time() - begun)

    def start(self, *words, name="run", **how):
        """Starts a command with what it prints in the files NAME.out and NAME.err."""
        with open(self.path / f"{name}.out", "wb") as out, open(self.path / f"{name}.err", "wb") as err:
            how = {"stdin": subprocess.DEVNULL, "stdout": out, "stderr": err, "cwd": self.path, "env": PLAIN, **how}
            process = subprocess.Popen(list(map(os.fspath, words)), **how)
        self.started.append(process)
        return process

    def end(self, process, seconds=LIMIT, name="run"):
        """Waits for a command to end. Returns its end, with the seconds that passed."""
        begun = time.monotonic()
        try:
            status = process.wait(seconds)
        except subprocess.TimeoutExpired:
            status = None
            process.kill()
            process.wait()
        took = time.monotonic() - begun
        return Ended(process.args, status, self.read(f"{name}.out"), self.read(f"{name}.err"), took)

    def read(self, name):
        path = self.path / name
        return path.read_bytes() if path.is_file() else b""

    def __exit__(self, *_):
        for process in self.started:
            if process.poll() is None:
                process.kill()
            process.wait()
        if not self.is_kept:
            shutil.rmtree(self.path, ignore_errors=True)


class Part:
    """The attacks of a part: how many there were of each kind, how many found something, and what is known of it."""

    def __init__(self, name, seed, share, weaknesses):
        self.name, self.seed, self.share, self.weaknesses = name, seed, share, weaknesses
        self.base = pathlib.Path(tempfile.mkdtemp(prefix=f"hostile-{name}-"))
        self.counts, self.wrong, self.known, self.notes = Counter(), Counter(), Counter(), {}
        self.seen = Counter()

    def chance(self, *names):
        """Returns the random numbers of an attack, which depend on the seed and its names alone."""
        return random.Random("/".join(map(str, (self.seed, self.name, *names))))

    def times(self, count):
        """Returns how many attacks to make in place of this many."""
        return max(1, round(count * self.share))

    def room(self, kind, number=0):
        return Room(self.base, re.sub(r"\W+", "-", f"{kind}-{number}-{sum(self.counts.values())}"))

    def note(self, kind, text):
        """Has the table show a figure of this kind."""
        self.notes[kind] = text

    def judge(self, kind, why, room=None, ended=None, weakness=None):
        """Counts an attack. If something is wrong with it, keeps its room and prints how to repeat it, unless the
        list of known weaknesses has it."""
        self.counts[kind] += 1
        if why is None:
            return
        is_known = weakness in self.weaknesses
        if is_known:
            self.known[kind] += 1
            self.seen[weakness] += 1
            return
        self.wrong[kind] += 1
        print(f"wrong: {self.name}: {kind}: {why}", flush=True)
        if ended and self.wrong[kind] <= 3:
            shown = (ended.out[-SHOWN:] + ended.err[-SHOWN:]).decode("utf-8", "replace")
            print("".join(f"    {line[:SHOWN]}\n" for line in shown.splitlines()), end="")
        if room:
            room.is_kept = True
            print(f"    files: {room.path}")
        print(f"    repeat: {self.repeat(room, ended)}", flush=True)

    def repeat(self, room, ended):
        """Returns a command that repeats an attack."""
        if not (room and ended):
            return f"scripts/hostile {self.name} --seed {self.seed}"
        line = f"cd {shlex.quote(str(room.path))} && {shlex.join(map(os.fsdecode, ended.words))}"
        if (room.path / "given").exists():
            line += " < given"
        (room.path / "repeat").write_text(f"{line}\n# {self.name}, seed {self.seed}\n", errors="surrogateescape")
        (room.path / "out").write_bytes(ended.out)
        (room.path / "err").write_bytes(ended.err)
        return line[:SHOWN]

    def close(self):
        """Removes the folder of the part if no room of it is kept."""
        try:
            self.base.rmdir()
        except OSError:
            pass
