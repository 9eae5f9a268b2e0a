"""Runs whose requests for memory are refused: between captures, with taps, a clock, sockets, datagrams and clients."""
import os
import socket
import subprocess
import threading
import time

import common

from hostile_parts import frames, refusals
from hostile_parts.attack import PROGRAM, crash
from hostile_parts.udp_hosts import Host

JSON, CSV = ["--format", "json"], ["--format", "csv"]
STRICT = ["run", "--strict"]
RUNS = {"run --strict": [*STRICT, "run.toml"], "run --strict --format json": [*STRICT, *JSON, "run.toml"],
        "run --strict --format csv": [*STRICT, *CSV, "run.toml"]}
# Runs that need not be strict: what did not leave is reported.
TOLD = {"run, memory ports": ["run", "memory.toml"], "run, memory ports, json": ["run", *JSON, "memory.toml"],
        "run, memory ports, csv": ["run", *CSV, "memory.toml"], "run, captures": ["run", "run.toml"],
        "run, taps": ["run", "taps.toml"]}
CLOCK = {"run --strict, a clock": [*STRICT, "clock.toml"],
         "run --strict --settle, a clock": [*STRICT, "--settle", "settle.toml"]}
PEERED = ["run", "--control", "control", "--seconds", "5", "peers.toml"]
TAP = '[[tap]]\nlink = "L1"\nwrite = "tap.out"\n'
ASKED = "counts -- tree -- drops -- stations B1 -- help -- down L1 -- up L1".split()
BROADCASTS = [frames.captures.frame(60 + it, kind=bytes([8, it])) for it in range(8)]


def run_plan(more=""):
    """Returns a plan whose broadcasts of one capture leave to two others."""
    text = frames.BRIDGES + frames.LINK + frames.SERVICES
    text += frames.port("C1", "B1", 1, "red", 'kind = "replay"\nread = "in"')
    for number, bridge in ((2, "B1"), (3, "B2")):
        text += frames.port(f"R{number}", bridge, number, "red", f'kind = "record"\nwrite = "R{number}.out"')
    return text + more


def memory_plan():
    """Returns a plan whose frames enter by lists, at both bridges."""
    listed = 'in = ["' + '", "'.join(it.hex() for it in BROADCASTS) + '"]'
    text = frames.BRIDGES + frames.LINK + frames.SERVICES
    for number, bridge in ((1, "B1"), (2, "B1"), (3, "B2")):
        text += frames.port(f"C{number}", bridge, number, "red", listed if number != 2 else "")
    return text


def clock_plan(hold):
    """Returns the plan of a ring of three bridges with a clock."""
    text = f'[network]\nspanning = "rstp"\nprompt = true\nqueues = "class"\ntick_ms = 2\n{hold}'
    text += '[[service]]\nname = "red"\nvid = 100\n'
    listed = 'in = ["' + '", "'.join(it.hex() for it in BROADCASTS) + '"]'
    for it in (1, 2, 3):
        text += f'[[bridge]]\nname = "B{it}"\naddress = "02-00-00-00-00-0{it}"\n'
        text += f'[[link]]\nname = "L{it}"\na = "B{it}"\na_port = 1\nb = "B{it % 3 + 1}"\nb_port = 2\n'
        text += frames.port(f"C{it}", f"B{it}", 3, "red", listed if it == 1 else "")
    return text


def wrong_run(room, ended, _):
    """A strict run with status 0 has carried every frame, and no written frame is another one."""
    wanted = frames.reads(room.read("in"))[0]
    for name in ("R2.out", "R3.out"):
        left = frames.written(room.read(name))
        if left is None or left[1]:
            return f"{name} is no row of whole records"
        why = frames.strangers(left[0], wanted)
        if why or (ended.status == 0 and left[0] != wanted):
            return f"{name}: {why or 'frames are missing, and the exit status is 0'}"
    if ended.status not in (0, 3, 4):
        return f"exit status {ended.status}"
    return None if ended.status == 0 or is_told(ended) else "nothing names memory"


def is_told(ended):
    """Checks whether a run names memory. A table has no line for its end: then standard error has frames in transit."""
    is_cut = b"frames in transit" in ended.err and ended.out.startswith(b"kind,")
    return b"memory" in ended.out + ended.err or b"spawn" in ended.out or is_cut or refusals.is_memory(ended, ended)


def outputs(room):
    return {it: room.read(it) for it in ("R2.out", "R3.out", "tap.out")}


def wrong_told(room, ended, there):
    """A run writes and prints what it does with all memory, or names memory. What it writes are whole records."""
    written = outputs(room)
    room.there = room.there or written
    for name, octets in written.items():
        left = frames.written(octets)
        if left is None or left[1]:
            return f"{name} is no row of whole records"
    if (ended.status, ended.out) == (there.status, there.out) and written == room.there:
        return None
    if ended.status not in (0, 3):
        return f"exit status {ended.status}"
    return None if is_told(ended) else "other frames left, and nothing names memory"


def wrong_clock(_, ended, there):
    """A strict run with status 0 has delivered at each port what it delivers with all memory."""
    ports, wanted = ([it for it in ended.lines() if it.startswith("port")] for ended in (ended, there))
    if ended.status not in (0, 3, 4):
        return f"exit status {ended.status}"
    return "frames are missing, and the exit status is 0" if ended.status == 0 and ports != wanted else None


class Peers:
    """The peers of a run: a listener, a caller, and two hosts with datagrams. Each sends its frames, and keeps all that
    comes."""

    NAMES = ("near", "far", "left", "right")

    def __init__(self, room):
        self.room, self.got, self.is_over = room, {it: [] for it in self.NAMES}, threading.Event()
        self.far = socket.socket(socket.AF_UNIX, socket.SOCK_STREAM)
        self.far.bind(str(room.path / "far.sock"))
        self.far.listen(1)
        self.far.settimeout(0.02)
        self.hosts = {"left": Host(socket.AF_INET, 5), "right": Host(socket.AF_INET6, None)}
        self.threads = [threading.Thread(target=it, daemon=True) for it in
                        (self.accept, self.call, lambda: self.talk("left"), lambda: self.talk("right"))]

    def plan(self):
        text = frames.BRIDGES + frames.LINK + frames.SERVICES
        text += frames.port("near", "B1", 1, "red", 'kind = "socket"\nlisten = "near.sock"')
        text += frames.port("far", "B2", 1, "red", 'kind = "socket"\npath = "far.sock"\nframing = 4')
        text += frames.port("left", "B1", 2, "blue", self.hosts["left"].keys())
        return text + frames.port("right", "B2", 2, "blue", self.hosts["right"].keys())

    def accept(self):
        while not self.is_over.is_set():
            try:
                stream, _ = self.far.accept()
                return self.stream("far", stream, 4)
            except OSError:
                pass

    def call(self):
        while not self.is_over.is_set():
            stream = socket.socket(socket.AF_UNIX, socket.SOCK_STREAM)
            try:
                stream.connect(str(self.room.path / "near.sock"))
                return self.stream("near", stream, 2)
            except OSError:
                stream.close()
                time.sleep(0.003)

    def stream(self, name, stream, size):
        octets = b""
        with stream:
            stream.settimeout(0.05)
            try:
                stream.sendall(frames.stream_of(BROADCASTS, size))
                while not self.is_over.is_set():
                    try:
                        part = stream.recv(65536)
                    except TimeoutError:
                        continue
                    if not part:
                        return
                    octets += part
                    self.got[name] = frames.streams(octets, size)[0]
            except OSError:
                pass

    def talk(self, name):
        host = self.hosts[name]
        while not self.is_over.is_set() and not host.is_bound():
            time.sleep(0.003)
        for it in BROADCASTS:
            host.send(host.head + it)
        while not self.is_over.is_set():
            self.got[name] += host.receive(0.02)

    def has_all(self):
        return all(len(it) >= len(BROADCASTS) for it in self.got.values())

    def close(self):
        self.is_over.set()
        for it in self.threads:
            it.join(10)
        self.far.close()
        for it in self.hosts.values():
            it.close()


def stop(room, run, peers, seconds):
    """Ends a run once its peers have all frames, or no more come for so long."""
    count, since = 0, time.monotonic()
    while run.poll() is None and not peers.has_all() and time.monotonic() - since < seconds:
        came = sum(map(len, peers.got.values()))
        count, since = came, (time.monotonic() if came != count else since)
        time.sleep(0.002)
    for _ in range(30):
        if run.poll() is not None:
            return
        subprocess.run([PROGRAM, "control", "control", "counts", "--", "stop"], cwd=room.path, check=False, timeout=30,
                       stdout=subprocess.DEVNULL, stderr=subprocess.DEVNULL)
        try:
            return run.wait(0.1)
        except subprocess.TimeoutExpired:
            pass


def try_peers(room, env, seconds):
    """Runs a network with its peers. Returns its end and what the peers got."""
    for it in ("far.sock", "near.sock", "control"):
        (room.path / it).unlink(missing_ok=True)
    peers = Peers(room)
    room.write("peers.toml", peers.plan())
    try:
        run = room.start(PROGRAM, *PEERED, env=env)
        for it in peers.threads:
            it.start()
        stop(room, run, peers, seconds)
        ended = room.end(run, 30)
    finally:
        peers.close()
    return ended, peers.got


def wrong_peers(ended, got):
    """Each peer has the frames of the other one, or the run names memory."""
    if ended.status not in (0, 3):
        return f"exit status {ended.status}"
    for name, came in got.items():
        why = frames.strangers(came, BROADCASTS)
        if why:
            return f"peer {name}: {why}"
        if came != BROADCASTS and not is_told(ended):
            return f"peer {name} got {len(came)} of {len(BROADCASTS)} frames, and nothing names memory"
    return None


def peered(part, library, most):
    """Refuses the requests of a run with peers and a control socket."""
    kind = "memory, run, sockets, udp and clients"
    with part.room("peers") as room:
        ended, got = try_peers(room, refusals.whole(library), 10)
        part.judge(kind, crash(ended) or wrong_peers(ended, got), room, ended)
        total = 500
        while is_asked(room, library, total):
            total *= 2
        for place, number in enumerate(refusals.numbers_of(part, kind, total, most)):
            for last in (number, 4_000_000_000)[: 1 + (place % 4 == 0)]:
                env = refusals.refusing(library, number, last)
                for seconds in (0.3, 3):
                    ended, got = try_peers(room, env, seconds)
                    why = crash(ended, 60) or wrong_peers(ended, got)
                    if not why:
                        break
                ended.words = ["env", f"LD_PRELOAD={library}", "REFUSED=refused", f"REFUSE_FROM={number}",
                               f"REFUSE_TO={last}", *map(os.fspath, ended.words)]
                part.judge(kind, why, room, ended)
                if room.is_kept:
                    return
        part.note(kind, f"every {-(-total // most)}th of at most {total} requests")


def is_asked(room, library, number):
    (room.path / "refused").unlink(missing_ok=True)
    try_peers(room, refusals.refusing(library, number, number), 0.3)
    return bool(room.read("refused"))


def wait_for_ports(path):
    """Waits until both bridges of a run say the state of their port to the other: each answer has all lines from then on."""
    for _ in range(100):
        ended = subprocess.run([PROGRAM, "control", path, "tree"], capture_output=True, check=False, timeout=30)
        if ended.stdout.count(b"\n") == 3:
            return
        time.sleep(0.05)


def client(part, library, most):
    """Refuses the requests of `control`, beside a run that has all memory."""
    with part.room("client") as room:
        room.write("plan.toml", frames.BRIDGES + frames.LINK + frames.SERVICES
                   + frames.port("near", "B1", 1, "red", 'kind = "socket"\nlisten = "near.sock"'))
        run = room.start(PROGRAM, "run", "--control", "control", "plan.toml")
        common.wait_for(room.path / "control")
        path = room.path / "control"
        wait_for_ports(path)

        def check(room, ended, there):
            """Judges the answers, and enables the link again: a client may end between `down` and `up`."""
            room.run(PROGRAM, "control", path, "up", "L1")
            return refusals.wrong_answer(room, ended, there)

        for kind, words, given in (("control", ["control", path, *ASKED], b""),
                                   ("control, standard input", ["control", path, "-"], b"counts\nhelp\ntree\n"),
                                   ("control, a wrong command", ["control", path, "cuonts"], b"")):
            refusals.sweep(part, kind, words, check, (library, {}, given, most))
        ended = room.run(PROGRAM, "control", path, "stop")
        why = None if (ended.out, run.wait(20)) == (b"ok\n", 0) else f"stop: {ended.out!r}"
        part.judge("memory, the run of these clients", why, room, ended)


def attack(part, library, files):
    files = {**files, "memory.toml": memory_plan(), "taps.toml": run_plan(TAP),
             "clock.toml": clock_plan("hold = 60\n"), "settle.toml": clock_plan("")}
    for rows, check, most in ((RUNS, wrong_run, 200), (TOLD, wrong_told, 150), (CLOCK, wrong_clock, 60)):
        for kind, words in rows.items():
            refusals.sweep(part, kind, words, check, (library, files, b"", part.times(most)))
    client(part, library, part.times(100))
    peered(part, library, part.times(150))
