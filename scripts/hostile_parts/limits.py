"""few descriptors, little address space, small files and a full disk"""
import functools
import re
import socket
import struct
import subprocess
import time

from hostile_parts import frames, memory
from hostile_parts.attack import PROGRAM, crash, misfit

LIMITED = 'ulimit "$1" "$2" || exit 9; shift 2; exec "$0" "$@"'
IGNORING = "trap '' XFSZ; " + LIMITED
FULL = 'mkdir full kept && mount -t tmpfs -o size=64k none full && "$0" "$@"; status=$?; cp full/* kept/; exit $status'
NOT_WRITTEN = re.compile(r"port (\S+): (\d+) frames not written")
OLD = b"what was here"
# Kilobytes of address space.
SPACES = [3000, 4000, 5000, 6000, 8000, 12_000, 20_000, 50_000, 200_000]


def replay(outputs, bridge="B2"):
    """Returns a plan that replays a capture to these files."""
    text = "[network]\nring = 4096\n" + frames.BRIDGES + frames.LINK + frames.SERVICES
    text += frames.port("C1", "B1", 1, "red", 'kind = "replay"\nread = "in"')
    for number, path in enumerate(outputs, 2):
        text += frames.port(f"R{number}", bridge, number, "red", f'kind = "record"\nwrite = "{path}"')
    return text


def ring(count):
    """Returns the plan of a ring of so many bridges."""
    return subprocess.run([PROGRAM, "init", "--ring", str(count)], stdout=subprocess.PIPE, check=True).stdout


@functools.cache
def capture(count=400, size=300):
    """Returns the octets of a capture. (They are joined once: `pcap` copies all octets at each frame.)"""
    made = [frames.captures.frame(size + it % 500) for it in range(min(count, 500))]
    rows = (made[it % 500] for it in range(count))
    records = (struct.pack("<IIII", it, 0, len(row), len(row)) + row for it, row in enumerate(rows))
    return frames.captures.pcap([]) + b"".join(records)


def is_not_loaded(ended):
    """Checks whether the system could not load the program."""
    return ended.status == 127 and b"shared librar" in ended.err


def spaces(part):
    """Gives commands little address space."""
    files = {"plan.toml": (memory.EXAMPLES / "two-bridges.toml").read_bytes(), "ring.toml": ring(5),
             "run.toml": memory.run_plan(), "in": capture(20)}
    rows = {**memory.VERDICTS, **memory.RUNS}
    for kind, words in rows.items():
        with part.room("space") as room:
            memory.fill(room, files)
            whole = room.run(PROGRAM, *words)
        for number in range(part.times(20)):
            size = part.chance("space", kind, number).choice(SPACES)
            with part.room("space", number) as room:
                memory.fill(room, files)
                ended = room.run("sh", "-c", LIMITED, PROGRAM, "-v", str(size), *map(str, words))
                if is_not_loaded(ended):
                    continue
                why = crash(ended)
                if not why and kind in memory.RUNS:
                    why = memory.wrong_run(room, ended, whole)
                elif not why:
                    why = memory.wrong_verdict(room, ended, whole)
                part.judge("limits, address space", why, room, ended)


def wrong_opening(room, ended, before):
    """After `fault: path` no file is changed, and what the run created is gone."""
    why = misfit(ended)
    if why or ended.status == 0:
        return why
    if ended.status == 3 and ended.lines()[-1:] == ["fault: path"]:
        after = room.names()
        changed = sorted(name for name in {*before, *after} if before.get(name) != after.get(name))
        if changed or room.read("R2.out") != OLD:
            return f"the run could not open all, and {changed} changed"
        return None if ended.err else "standard error does not say which path"
    return None


def descriptors(part):
    """Gives runs few descriptors, beside a capture that was there."""
    for most in range(3, 24):
        for words in (["run", "--seconds", "1", "plan.toml"],
                      ["run", "--seconds", "1", "--control", "control", "plan.toml"], ["survive", "plan.toml"]):
            with part.room("descriptors", most) as room:
                sockets = "".join(frames.port(f"L{it}", "B1", it + 4, "blue", f'kind = "socket"\nlisten = "l{it}"')
                                  for it in range(4))
                room.write("plan.toml", replay(["R2.out", "R3.out", "R4.out"]) + sockets)
                room.write("in", capture(20))
                room.write("R2.out", OLD)
                before = room.names()
                ended = room.run("sh", "-c", LIMITED, PROGRAM, "-n", str(most), *words)
                if is_not_loaded(ended):
                    continue
                part.judge("limits, descriptors", wrong_opening(room, ended, before), room, ended)


def cut_captures(room, ended, names, folder="."):
    """A written capture is a row of whole records with all frames, or standard error counts those that are missing."""
    wanted = frames.reads(room.read("in"))[0]
    missing = {name: int(count) for name, count in NOT_WRITTEN.findall(ended.complaints())}
    for number, name in enumerate(names, 2):
        left = frames.written(room.read(f"{folder}/{name}"))
        if left is None:
            return f"{name} does not begin as a capture"
        if left[0] != wanted[: len(left[0])]:
            return f"{name} has other frames"
        reported = missing.get(f"R{number}", 0)
        reason = rf"error: port R{number}: write \S+: (File too large|No space left)"
        if reported and not re.search(reason, ended.complaints()):
            return f"{name}: standard error does not have the system's reason"
        if len(left[0]) + reported != len(wanted):
            return f"{name}: {len(left[0])} of {len(wanted)} frames, and {reported} reported missing"
    lost = any(missing.values())
    return None if ended.status == (4 if lost else 0) else f"exit status {ended.status}"


def sizes(part):
    """Limits the size of files, with the signal of the system and without it."""
    for number in range(part.times(40)):
        chance = part.chance("sizes", number)
        blocks, is_ignored = chance.randrange(0, 300), number % 2 == 1
        with part.room("sizes", number) as room:
            room.write("plan.toml", replay(["R2.out", "R3.out"]))
            room.write("in", capture())
            script = IGNORING if is_ignored else LIMITED
            ended = room.run("sh", "-c", script, PROGRAM, "-f", str(blocks), "run", "--strict", "plan.toml")
            why = crash(ended) or cut_captures(room, ended, ["R2.out", "R3.out"])
            kind = "limits, file size, signal ignored" if is_ignored else "limits, file size"
            part.judge(kind, why, room, ended, "file size" if ended.status == -25 else None)


def headers(part):
    """Limits files so that a capture without frames has no header: a strict run has status 4."""
    for count in (0, 1):
        with part.room("headers") as room:
            room.write("plan.toml", replay(["R2.out", "R3.out"]))
            room.write("in", capture(count))
            ended = room.run("sh", "-c", IGNORING, PROGRAM, "-f", "0", "run", "--strict", "plan.toml")
            is_named = "error: port R2: write R2.out: File too large" in ended.complaints()
            why = crash(ended) or (None if ended.status == 4 and is_named else f"exit status {ended.status}")
            part.judge("limits, no header of a capture", why, room, ended)


def accepting(part):
    """Has a client take the last descriptor while a peer comes to a port: once it leaves, the port has its peer."""
    for most in range(8, 40):
        with part.room("accepting", most) as room:
            text = frames.BRIDGES + frames.SERVICES + frames.port("C", "B1", 2, "red", f'in = ["{"ff" * 20}"]')
            room.write("plan.toml", text + frames.port("L", "B1", 1, "red", 'kind = "socket"\nlisten = "l.sock"'))
            run = room.start("sh", "-c", LIMITED, PROGRAM, "-n", str(most), "run", "--control", "control", "plan.toml")
            if not wait_open(room, run):
                continue
            why, is_short = wrong_accept(room)
            run.kill()
            ended = room.end(run)
            if is_short or why:
                part.judge("limits, no descriptor for a peer", why, room, ended)


def wait_open(room, run):
    """Waits until a run listens for its peer. Returns whether it does."""
    while run.poll() is None and not (room.path / "l.sock").exists():
        time.sleep(0.005)
    return run.poll() is None


def wrong_accept(room):
    """Returns what is wrong with a peer that comes beside a client, and whether the descriptors did not suffice."""
    client, peer = (socket.socket(socket.AF_UNIX, socket.SOCK_STREAM) for _ in range(2))
    with client, peer:
        client.settimeout(5)
        peer.settimeout(5)
        client.connect(str(room.path / "control"))
        client.sendall(b"counts\n")
        try:
            client.recv(4096)
        except OSError:
            return None, False
        peer.connect(str(room.path / "l.sock"))
        peer.settimeout(0.5)
        try:
            if peer.recv(64) == b"\0\x14" + b"\xff" * 20:
                return None, False
        except TimeoutError:
            pass
        is_short = b"port L: cannot accept a peer: no descriptor" in room.read("run.err")
        client.close()
        peer.settimeout(10)
        try:
            came = peer.recv(64)
        except OSError:
            came = b""
    if came != b"\0\x14" + b"\xff" * 20:
        return "the peer got no frame after a descriptor was free", is_short
    return None if is_short else "standard error does not say that no descriptor is free", is_short


def full(part):
    """Writes captures and pictures to a disk of 64 kB."""
    if subprocess.run(["unshare", "--mount", "true"], check=False, stderr=subprocess.DEVNULL).returncode:
        part.note("limits, full disk", "skipped: no right to mount")
        return
    for number in range(part.times(20)):
        with part.room("full", number) as room:
            room.write("plan.toml", replay(["full/R2.out", "full/R3.out"]))
            room.write("in", capture(part.chance("full", number).choice([20, 100, 200, 2000])))
            ended = room.run("unshare", "--mount", "sh", "-c", FULL, PROGRAM, "run", "--strict", "plan.toml")
            why = crash(ended) or cut_captures(room, ended, ["R2.out", "R3.out"], "kept")
            part.judge("limits, full disk", why, room, ended)
    with part.room("full") as room:
        room.write("plan.toml", ring(32))
        words = ["draw", "plan.toml", "-o", "full/picture"]
        ended = room.run("unshare", "--mount", "sh", "-c", FULL.replace("64k", "4k"), PROGRAM, *words)
        is_told = (ended.status, ended.out) == (3, b"fault: write\n")
        why = crash(ended) or (None if is_told else f"exit status {ended.status}")
        part.judge("limits, full disk", why, room, ended)


def full_device(part):
    """Has commands print to a device that is always full."""
    for kind, words in {**memory.VERDICTS, **memory.RUNS}.items():
        with part.room("device") as room:
            memory.fill(room, {"plan.toml": ring(4), "ring.toml": ring(4), "run.toml": memory.run_plan(),
                               "in": capture(20)})
            with open("/dev/full", "wb") as device:
                ended = room.run(PROGRAM, *words, stdout=device)
            why = crash(ended) or (None if ended.status == 3 else f"{kind}: exit status {ended.status}")
            part.judge("limits, standard output full", why, room, ended)


def attack(part):
    spaces(part)
    descriptors(part)
    accepting(part)
    sizes(part)
    headers(part)
    full(part)
    full_device(part)
