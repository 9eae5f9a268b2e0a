"""mutated lines, crowds and half lines at the control socket, while a run carries frames"""
import re
import socket
import threading
import time

import common
from captures import frame
from streams import Peer

from hostile_parts import frames
from hostile_parts.attack import PROGRAM, misfit
from hostile_parts.mutations import mutate

LINE = re.compile(rb"port \S+ entered \d+ left \d+|bridge \S+ refused \d+ ticks \d+|port \S+ \d+( \w+)? \w+"
                  rb"|bridge \S+ port \d+ [\w-]+ \d+|[a-z][\w ,.:;'()-]*")
ENDS = (b"ok", b"no such", b"bad")
# Lines with the ends of their answers.
KNOWN = {b"counts": b"ok", b"tree": b"ok", b"drops": b"ok", b"help": b"ok", b"down L1": b"ok", b"up L1": b"ok",
         b"down B2": b"ok", b"up B2": b"ok", b"down B1 15": b"ok", b"up B1 15": b"ok", b"down L9": b"no such",
         b"up nobody": b"no such", b"down B1 1": b"no such", b"count": b"bad", b"": b"bad", b" ": b"bad",
         b"counts ": b"bad", b"counts\r": b"bad", b"COUNTS": b"bad", b"down": b"bad", b"down  L1": b"bad",
         b"counts counts": b"bad", b"\0": b"bad", b"x" * 256: b"bad", b"counts" + b" " * 300: b"bad"}
MEGABYTE = b"x" * 1_000_000


def plan():
    text = frames.BRIDGES + frames.LINK + frames.SERVICES
    for number, name in ((1, "near"), (2, "far")):
        text += frames.port(name, "B1", number, "red", f'kind = "socket"\nlisten = "{name}.sock"')
    return text


def carry(near, far, batch, window=64):
    """Sends frames to one host while the other receives. Returns those that arrive, without what others send."""
    free, came, wanted = threading.Semaphore(window), [], set(batch)

    def send_all():
        for it in batch:
            if not free.acquire(timeout=30):
                return
            near.send(it)

    sender = threading.Thread(target=send_all, daemon=True)
    sender.start()
    while len(came) < len(batch) and (got := far.receive(30)) is not None:
        if got in wanted:
            came.append(got)
            free.release()
    sender.join(60)
    return came


class Load:
    """Frames that cross a run until they are to stop. All of them have to arrive, in order."""

    def __init__(self, folder):
        self.near, self.far = Peer.to(folder / "near.sock"), Peer.to(folder / "far.sock")
        self.is_over, self.sent, self.lost = threading.Event(), 0, 0
        self.thread = threading.Thread(target=self.work, daemon=True)
        self.thread.start()

    def work(self):
        while not self.is_over.is_set():
            batch = [frame(60 + it % 1000, kind=self.sent.to_bytes(4, "big")) for it in range(300)]
            came = carry(self.near, self.far, batch)
            self.sent, self.lost = self.sent + len(batch), self.lost + (came != batch)

    def stop(self):
        self.is_over.set()
        self.thread.join(60)
        for it in (self.near, self.far):
            it.close()


def connect(path, seconds=30):
    stream = socket.socket(socket.AF_UNIX, socket.SOCK_STREAM)
    stream.settimeout(seconds)
    stream.connect(str(path))
    return stream


def ask(path, octets):
    """Sends octets, shuts the sending side, and returns all that comes."""
    with connect(path) as stream:
        sender = threading.Thread(target=send, args=(stream, octets), daemon=True)
        sender.start()
        got = b""
        try:
            while part := stream.recv(65536):
                got += part
        except OSError as error:
            return got + f"{type(error).__name__}\n".encode()
        sender.join(10)
        return got


def send(stream, octets):
    try:
        stream.sendall(octets)
        stream.shutdown(socket.SHUT_WR)
    except OSError:
        pass


def wrong_answers(octets, got):
    """Returns what is wrong with the answers to some lines, or None."""
    lines = octets.split(b"\n")[:-1]
    if got and not got.endswith(b"\n"):
        return f"the last answer ends with {got[-40:]!r}"
    answers = got.split(b"\n")[:-1]
    ends = [it for it in answers if it in ENDS]
    odd = [it for it in answers if it not in ENDS and not LINE.fullmatch(it)]
    if odd:
        return f"an answer of no documented form: {odd[0][:80]!r}"
    if len(ends) != len(lines):
        return f"{len(lines)} lines have {len(ends)} answers"
    for line, end in zip(lines, ends):
        wanted = KNOWN.get(line, b"bad" if len(line) > 256 else None)
        if wanted and end != wanted:
            return f"the answer to {line[:40]!r} ends with {end!r}, expected {wanted!r}"
    return None


def without_stop(octets):
    return octets.replace(b"stop", b"step")


def lines(part, path, judge):
    for number in range(part.times(400)):
        chance = part.chance("lines", number)
        octets = b"".join(chance.choice(list(KNOWN)) + b"\n" for _ in range(chance.choice([1, 5, 40])))
        octets = without_stop(octets if number % 3 == 0 else mutate(chance, octets))
        judge("control, mutated lines", wrong_answers(octets, ask(path, octets)))


def crowd(part, path, judge):
    """Connects many clients at once, each of which has an answer."""
    for number in range(part.times(20)):
        found = []
        clients = [threading.Thread(target=lambda: found.append(wrong_answers(b"counts\n", ask(path, b"counts\n"))))
                   for _ in range(50)]
        for it in clients:
            it.start()
        for it in clients:
            it.join(60)
        why = next(filter(None, found), None) or (f"{len(found)} of 50 clients" if len(found) < 50 else None)
        judge("control, crowds of 50", why and f"crowd {number}: {why}")


def leave(part, path, judge):
    """Connects clients that leave at once, within a line or without their answer."""
    for number in range(part.times(600)):
        chance = part.chance("leave", number)
        octets = chance.choice([b"", b"cou", b"counts", b"counts\n", b"counts\n" * 400, MEGABYTE[:5000], b"\n" * 999])
        stream = connect(path)
        threading.Thread(target=send, args=(stream, octets), daemon=True).start() if octets else None
        time.sleep(chance.choice([0, 0, 0.001]))
        stream.close()
        judge("control, clients that leave", None)
    judge("control, after them", wrong_answers(b"counts\n", ask(path, b"counts\n")))


def halves(part, path, judge):
    """Sends a line in pieces, a megabyte without an end, and asks without reading."""
    for number in range(part.times(20)):
        with connect(path) as stream:
            for piece in (b"c", b"oun", b"ts", b"\nhe", b"lp\n"):
                stream.sendall(piece)
                time.sleep(0.002)
            stream.shutdown(socket.SHUT_WR)
            got = b"".join(iter(lambda: stream.recv(4096), b""))
        judge("control, half lines", wrong_answers(b"counts\nhelp\n", got))
        for octets in (MEGABYTE, MEGABYTE + b"\ncounts\n", b"counts\n" + MEGABYTE):
            judge("control, a megabyte without LF", wrong_answers(octets, ask(path, octets)))
        stream = connect(path)
        threading.Thread(target=send, args=(stream, b"counts\n" * 20_000), daemon=True).start()
        time.sleep(0.2)
        stream.close()
        judge("control, answers not read", wrong_answers(b"help\n", ask(path, b"help\n")))


def attack(part):
    with part.room("control") as room:
        room.write("plan.toml", plan())
        run = room.start(PROGRAM, "run", "--control", "control", "plan.toml")
        for name in ("control", "near.sock", "far.sock"):
            common.wait_for(room.path / name)
        load, path = Load(room.path), room.path / "control"

        def judge(kind, why):
            if run.poll() is not None:
                raise SystemExit(f"error: the run ended with status {run.returncode}: {kind}")
            part.judge(kind, why, room)

        for attack_with in (lines, crowd, leave, halves):
            attack_with(part, path, judge)
        load.stop()
        why = f"{load.lost} batches of 300 frames did not arrive in order" if load.lost else None
        part.judge("control, frames meanwhile", why, room)
        part.note("control, frames meanwhile", f"{load.sent} frames")
        answer = ask(path, b"stop\n")
        ended = room.end(run)
        # (a run whose peers have left may have drained before it reads the line)
        is_well = answer == b"ok\n" or "ended drained" in ended.lines()
        why = misfit(ended, most=30) or (None if is_well else f"stop: {answer!r}")
        why = why or (None if f"port far entered 0 left {load.sent} filtered 0" in ended.lines() else "the report")
        part.judge("control, the end", why, room, ended)
