"""evil peers at socket ports, beside hosts whose frames go on"""
import os
import socket
import threading
import time

import common

from hostile_parts import frames
from hostile_parts.attack import PROGRAM, misfit
from hostile_parts.control import Load, ask

EVIL = ["evil1", "evil2", "evil3"]
# The hosts whose lengths have four octets.
FOUR = ["evil2", "evil3"]
SECONDS = 2.5


def plan():
    """Returns a plan with two good hosts, an evil one beside them in their service, and two in another."""
    text = frames.BRIDGES + frames.LINK + frames.SERVICES
    for number, (name, service) in enumerate((("near", "red"), ("far", "red"), ("evil1", "red"), ("evil2", "blue"),
                                              ("evil3", "blue")), 1):
        stay = "stay = true" if name in EVIL else ""
        stay += "\nframing = 4" if name in FOUR else ""
        text += frames.port(name, "B1", number, service, f'kind = "socket"\nlisten = "{name}.sock"\n{stay}')
    return text


def trickle(stream, _):
    """Announces 65,535 octets and sends one after the other, slowly."""
    stream.sendall(b"\xff\xff")
    for _ in range(10):
        stream.sendall(b"\xff")
        time.sleep(SECONDS / 10)


def shut_sending(stream, _):
    stream.shutdown(socket.SHUT_WR)
    time.sleep(SECONDS)


def shut_receiving(stream, _):
    stream.shutdown(socket.SHUT_RD)
    stream.sendall(frames.stream_of([b"\xff" * 6 + b"\2\0\0\0\0\7\x08\0"] * 50))
    time.sleep(SECONDS)


def reset(stream, _):
    """Leaves with octets that it has not read, which resets the stream."""
    time.sleep(SECONDS / 2)


def zeros(stream, _):
    stream.sendall(bytes(65_536))
    time.sleep(SECONDS)


def never_read(_, __):
    time.sleep(SECONDS)


def noise(stream, chance):
    for _ in range(30):
        stream.sendall(chance.randbytes(chance.choice([1, 100, 9000])))


def come_and_go(stream, chance):
    """Comes and goes many times, within a frame."""
    path = stream.getpeername()
    stream.close()
    for _ in range(100):
        again = connect(path)
        again.sendall(chance.randbytes(3))
        again.close()


def huge(stream, chance):
    """Announces more octets than a frame has, or half a length, and comes again with each."""
    path = stream.getpeername()
    stream.close()
    for octets in (b"\xff" * 4, b"\0\1\0\0", b"\x7f\xff\xff\xff", b"\0\0\1", b"\0\1", b"\0\0\xff\xff" + bytes(65_535)):
        for more in (b"", chance.randbytes(3000)):
            again = connect(path)
            again.sendall(octets + more)
            again.close()


def connect(path):
    stream = socket.socket(socket.AF_UNIX, socket.SOCK_STREAM)
    stream.settimeout(10)
    stream.connect(path if isinstance(path, str) else os.fspath(path))
    return stream


WAYS = [trickle, shut_sending, shut_receiving, reset, zeros, never_read, noise, come_and_go, huge]


def behave(way, path, chance):
    """Connects and does one of the ways, whatever the run does."""
    stream = connect(path)
    try:
        way(stream, chance)
    except OSError:
        pass
    finally:
        stream.close()


def try_peers(part, number):
    chance = part.chance("peers", number)
    ways = [WAYS[number % len(WAYS)], *chance.choices(WAYS, k=2)]
    with part.room("peers", number) as room:
        room.write("plan.toml", plan())
        run = room.start(PROGRAM, "run", "--control", "control", "plan.toml")
        for name in ("control", "near.sock", "far.sock", *(f"{it}.sock" for it in EVIL)):
            common.wait_for(room.path / name)
        load = Load(room.path)
        evil = [threading.Thread(target=behave, args=(way, room.path / f"{name}.sock", chance), daemon=True)
                for way, name in zip(ways, EVIL)]
        for it in evil:
            it.start()
        for it in evil:
            it.join(60)
        load.stop()
        answer = ask(room.path / "control", b"stop\n")
        ended = room.end(run)
        why = misfit(ended, most=60)
        if not why and load.lost:
            why = f"{load.lost} batches of 300 frames did not arrive in order beside {[it.__name__ for it in ways]}"
        if not why and (answer != b"ok\n" or ended.lines()[:1] != ["ended stopped"]):
            why = f"stop: {answer!r}"
        part.judge(f"peers, {ways[0].__name__.replace('_', ' ')}", why, room, ended)
        return load.sent


def attack(part):
    sent = sum(try_peers(part, number) for number in range(part.times(36)))
    part.note(f"peers, {WAYS[0].__name__}", f"{sent} frames beside them")
