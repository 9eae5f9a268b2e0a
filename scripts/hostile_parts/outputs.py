"""closed descriptors, closed and full pipes, and named pipes whose readers are late, slow or none"""
import fcntl
import itertools
import os
import re
import shutil
import socket
import subprocess
import threading
import time

import common

from hostile_parts import frames, memory
from hostile_parts.attack import PLAIN, PROGRAM, crash
from hostile_parts.control import ask
from hostile_parts.limits import OLD, capture, replay, ring
from hostile_parts.signals import launcher_of

CLOSED = ["<&-", ">&-", "2>&-"]
# Seconds within which `--seconds 2` ends, and `stop`. One that is late is tried once more: the machine may be busy.
AFTER_TWO, AFTER_STOP, GIVEN_UP = 4, 2, 10


class Listener:
    """A peer that takes all that comes."""

    def __init__(self, path):
        self.listening, self.got = socket.socket(socket.AF_UNIX, socket.SOCK_STREAM), b""
        self.listening.bind(str(path))
        self.listening.listen(1)
        self.listening.settimeout(20)
        self.thread = threading.Thread(target=self.take, daemon=True)
        self.thread.start()

    def take(self):
        try:
            stream, _ = self.listening.accept()
            stream.shutdown(socket.SHUT_WR)
            while part := stream.recv(65536):
                self.got += part
        except OSError:
            pass

    def join(self):
        self.thread.join(20)
        self.listening.close()


def closed_runs(part):
    """Closes descriptors of runs with captures and a peer: what these get is the frames alone."""
    peer_table = frames.port("P", "B1", 7, "red", 'kind = "socket"\npath = "peer"')
    ways = [it for count in range(4) for it in itertools.combinations(CLOSED, count)]
    for which in ways:
        for more in ("", " --strict --progress --format json", " --control control")[: part.times(3)]:
            with part.room("closed") as room:
                room.write("plan.toml", replay(["R2.out", "R3.out"]) + peer_table)
                room.write("in", capture(300))
                peer = Listener(room.path / "peer")
                words = f'exec "$0" run{more} --seconds 20 plan.toml {" ".join(which)}'
                ended = room.run("sh", "-c", words, PROGRAM)
                peer.join()
                why = crash(ended) or wrong_copies(room, peer.got)
                if not why and ended.status not in ((0, 3) if ">&-" in which else (0,)):
                    why = f"exit status {ended.status}"
                part.judge("outputs, closed descriptors, run", why, room, ended)


def wrong_copies(room, octets):
    """Returns what is wrong with the written captures and with what a peer got, or None."""
    wanted = frames.reads(room.read("in"))[0]
    for name in ("R2.out", "R3.out"):
        if frames.written(room.read(name)) != (wanted, 0):
            return f"{name} has not the frames that entered, and them alone"
    return None if octets == frames.stream_of(wanted) else "the peer got other octets than the frames"


def closed(part):
    """Closes descriptors of the other commands: the status is the same, or 3, and files are as they were."""
    ways = [it for count in range(1, 4) for it in itertools.combinations(CLOSED, count)]
    files = {"plan.toml": (memory.EXAMPLES / "two-bridges.toml").read_bytes(), "ring.toml": ring(4)}
    for kind, words in memory.VERDICTS.items():
        with part.room("closed") as room:
            memory.fill(room, files)
            whole = room.run(PROGRAM, *words)
        for which in part.chance("closed", kind).sample(ways, part.times(len(ways))):
            with part.room("closed") as room:
                memory.fill(room, files)
                ended = room.run("sh", "-c", f'exec "$0" "$@" {" ".join(which)}', PROGRAM, *map(str, words))
                part.judge("outputs, closed descriptors", wrong_closed(room, ended, whole, which, files), room, ended)


def wrong_closed(room, ended, whole, which, files):
    """Returns what is wrong with a command whose descriptors are closed, by its end with all of them."""
    if why := crash(ended):
        return why
    if ended.status not in (whole.status, 3):
        return f"exit status {ended.status}, expected {whole.status}"
    if ">&-" not in which and ended.out != whole.out:
        return "another output"
    return None if files == {name: room.read(name) for name in room.names()} else "files changed"


def closed_pipes(part):
    """Has commands print to a pipe that nobody reads any more."""
    rows = {**memory.VERDICTS, **memory.RUNS, "flat": ["flat", "3"]}
    for kind, words in rows.items():
        with part.room("pipe") as room:
            memory.fill(room, {"plan.toml": ring(4), "ring.toml": ring(4), "run.toml": memory.run_plan(),
                               "in": capture(20)})
            reading, writing = os.pipe()
            os.close(reading)
            ended = room.run(PROGRAM, *words, given=b"hop\n" * 9, stdout=writing)
            os.close(writing)
            why = crash(ended) or (None if ended.status == 3 else f"{kind}: exit status {ended.status}")
            part.judge("outputs, closed pipe", why, room, ended)


def full_pipe():
    """Returns both ends of a pipe that takes nothing more."""
    reading, writing = os.pipe()
    fcntl.fcntl(writing, fcntl.F_SETFL, os.O_NONBLOCK)
    try:
        while os.write(writing, b"x" * 4096):
            pass
    except BlockingIOError:
        fcntl.fcntl(writing, fcntl.F_SETFL, 0)
    return reading, writing


def tap(path):
    """Returns the table of a tap of the link."""
    return f'[[tap]]\nlink = "L1"\ndirection = "ab"\nwrite = "{path}"\n'


def endless(more):
    """Returns a plan that never drains, with these tables and a record in R3.out."""
    return replay(["R3.out"]) + frames.port("L", "B1", 9, "red", 'kind = "socket"\nlisten = "l.sock"') + more


RECORD = frames.port("P", "B2", 5, "red", 'kind = "record"\nwrite = "R2.out"')


def late(room, program, words, how, end, prepare):
    """Runs a plan until it ends by --seconds, by `stop` or by a signal of the launcher. Returns how long the end took, or
    None if none came."""
    with prepare(room):
        begun = time.monotonic()
        more = ["--seconds", "2"] if end == "--seconds 2" else []
        env = {key: value for key, value in PLAIN.items() if key != "PBNET_PLAIN"}
        process = room.start(program, *words, *more, "--control", "control", "plan.toml", env=env, **how)
        if not more:
            common.wait_for(room.path / "control")
            time.sleep(1.5)
            begun = time.monotonic()
        if end == "stop":
            threading.Thread(target=ask, args=(room.path / "control", b"stop\n"), daemon=True).start()
        if end == "SIGTERM":
            process.terminate()
        try:
            process.wait(GIVEN_UP)
            return time.monotonic() - begun
        except subprocess.TimeoutExpired:
            return None


class Reader:
    """Opens a named pipe as a reader that takes nothing."""

    def __init__(self, room, is_there):
        os.mkfifo(room.path / "R2.out")
        self.file = os.open(room.path / "R2.out", os.O_RDONLY | os.O_NONBLOCK) if is_there else None

    def __enter__(self):
        return self

    def take(self, count):
        """Takes some octets, if there are any."""
        try:
            os.read(self.file, count)
        except BlockingIOError:
            pass

    def __exit__(self, *_):
        if self.file is not None:
            os.close(self.file)


class Stuck:
    """Standard error is a full pipe that nobody reads."""

    def __init__(self, how):
        self.ends = full_pipe()
        how["stderr"] = self.ends[1]

    def __enter__(self):
        return self

    def __exit__(self, *_):
        for end in self.ends:
            os.close(end)


def timely(part, kind, launcher, words, tables, prepare):
    """Has runs end by --seconds, by `stop` and by a signal."""
    for end, program in (("--seconds 2", PROGRAM), ("stop", PROGRAM), ("SIGTERM", launcher)):
        most, took = (AFTER_TWO if end == "--seconds 2" else AFTER_STOP), None
        for _ in range(2):
            with part.room("timely") as room:
                room.write("plan.toml", endless(tables))
                room.write("in", capture(5000))
                how = {}
                took = late(room, program, words, how, end, lambda room: prepare(room, how))
            if took is not None and took <= most:
                break
        is_late = took is None or took > most
        why = f"{end}: " + (f"no end in {GIVEN_UP} s" if took is None else f"{took:.1f} s") if is_late else None
        part.judge(kind, why)
        part.note(kind, why or "")


def no_null(part):
    """Closes descriptors where there is no null device: nothing is opened, or it was not needed."""
    if subprocess.run(["unshare", "--mount", "true"], check=False, stderr=subprocess.DEVNULL).returncode:
        part.note("outputs, no null device", "skipped: no right to mount")
        return
    for which in (["<&-"], [">&-"], ["2>&-"], CLOSED):
        with part.room("null") as room:
            room.write("plan.toml", replay(["R2.out", "R3.out"]))
            room.write("in", capture(30))
            room.write("R2.out", OLD)
            words = f'mount -t tmpfs none /dev && exec "$0" run --control control --seconds 5 plan.toml {" ".join(which)}'
            ended = room.run("unshare", "--mount", "sh", "-c", words, PROGRAM)
            is_kept = room.read("R2.out") == OLD and not (room.path / "R3.out").exists()
            why = crash(ended) or (None if ended.status == 3 and is_kept else f"exit status {ended.status}")
            part.judge("outputs, no null device", why, room, ended)


LATE = {
    "a pipe without a reader": (["run"], RECORD, lambda room, _: Reader(room, False)),
    "a pipe whose reader stalls": (["run"], RECORD, lambda room, _: Reader(room, True)),
    "a tap without a reader": (["run"], tap("R2.out"), lambda room, _: Reader(room, False)),
    "a tap whose reader stalls": (["run"], tap("R2.out"), lambda room, _: Reader(room, True)),
    "standard error full": (["run", "--progress"], RECORD, lambda _, how: Stuck(how)),
}


class Drain:
    """Reads a named pipe from some seconds on, with a pause after each part."""

    def __init__(self, path, delay, pause):
        self.path, self.delay, self.pause, self.got = path, delay, pause, b""
        self.thread = threading.Thread(target=self.take, daemon=True)
        self.thread.start()

    def take(self):
        time.sleep(self.delay)
        with open(self.path, "rb", buffering=0) as file:
            while part := file.read(16_384):
                self.got += part
                time.sleep(self.pause)

    def join(self):
        self.thread.join(20)
        return self.got


# Seconds before the reader comes, and after each part that it reads.
READERS = {"a late reader": (0.5, 0), "a slow reader": (0, 0.003), "a late and slow reader": (1.5, 0.003)}
# The table that writes a pipe, and the one that writes the same to a file.
WRITERS = {"a port": (RECORD, ""), "a tap": (tap("R2.out"), tap("R3.out"))}
# What standard error may have: that the run waits, and that B2 has no port for the frames of a tapped link.
NOTES = re.compile(rb"(port P|tap of link L1): waiting until its pipe is read\n|bridge B2 port 16: \d+ frames dropped: no-port\n")


def reads(part):
    """Has runs that drain at once write pipes whose readers are late or slow: they get what a file gets."""
    for (reader, (delay, pause)), (writer, tables) in itertools.product(READERS.items(), WRITERS.items()):
        for count in (0, 1, 6000)[: part.times(3)]:
            with part.room("reads") as room:
                room.write("plan.toml", replay([] if tables[1] else ["R3.out"]) + "".join(tables))
                room.write("in", capture(count))
                os.mkfifo(room.path / "R2.out")
                drain = Drain(room.path / "R2.out", delay, pause)
                ended = room.run(PROGRAM, "run", "--strict", "plan.toml")
                got, wanted = drain.join(), room.read("R3.out") if count else b""
                why = crash(ended) or (None if ended.status == 0 else f"exit status {ended.status}")
                if not why and got != wanted:
                    why = f"the reader got {len(got)} octets, and the file {len(wanted)}"
                if not why and NOTES.sub(b"", ended.err):
                    why = "standard error has more than a note"
                part.judge(f"outputs, {reader} of {writer}", why, room, ended)


IN_TRANSIT = re.compile(rb"frames in transit: (\d+)\n")
COUNTS = re.compile(r"port (\w+) entered (\d+) left (\d+) filtered 0")


def in_transit(part):
    """Stops runs whose only output takes nothing, or some octets: what entered has left or is reported in transit."""
    for number in range(part.times(12)):
        chance = part.chance("transit", number)
        with part.room("transit", number) as room:
            room.write("plan.toml", "[network]\nlossless = true\n" + replay(["R2.out"]).split("\n", 2)[2])
            room.write("in", capture(5000))
            with Reader(room, True) as reader:
                run = room.start(PROGRAM, "run", "--strict", "--linger", "0", "--control", "control", "plan.toml")
                common.wait_for(room.path / "control")
                for _ in range(chance.randrange(4)):
                    time.sleep(0.1)
                    reader.take(chance.choice([1, 1000, 60_000]))
                time.sleep(chance.random() / 2)
                answer = ask(room.path / "control", b"stop\n")
                ended = room.end(run)
            counts = {found[1]: found for found in map(COUNTS.fullmatch, ended.lines()) if found}
            moving = int((IN_TRANSIT.findall(ended.err) or [0])[0])
            entered, left = int(counts["C1"][2]), int(counts["R2"][3])
            why = crash(ended, 60) or (None if answer == b"ok\n" and ended.status == 4 else f"{answer!r}, {ended.status}")
            why = why or (None if entered == left + moving else f"{entered} entered, {left} left, {moving} in transit")
            part.judge("outputs, in transit at the end", why, room, ended)


def attack(part):
    in_transit(part)
    closed_runs(part)
    closed(part)
    closed_pipes(part)
    no_null(part)
    reads(part)
    launcher = launcher_of(part)
    for kind, (words, tables, prepare) in LATE.items():
        timely(part, f"outputs, {kind}", launcher, words, tables, prepare)
    shutil.rmtree(part.base / "installed")
