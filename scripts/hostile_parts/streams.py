"""mutated streams of sockets: what leaves a run is what entered its service, and faults are named"""
import socket
import threading

import common

from hostile_parts import frames
from hostile_parts.attack import PROGRAM, misfit
from hostile_parts.captures import LINES, wrong_faults
from hostile_parts.mutations import mutate

PORTS = {"red": ["near", "far"], "blue": ["left", "right"]}
# The octets of the length before each frame, by the host.
SIZES = {"near": 2, "far": 4, "left": 4, "right": 2}


def plan(is_lossless):
    text = f"[network]\nlossless = {str(is_lossless).lower()}\n" + frames.BRIDGES + frames.LINK + frames.SERVICES
    for number, (service, names) in enumerate(PORTS.items(), 1):
        for bridge, name in zip(("B1", "B2"), names):
            keys = f'kind = "socket"\nlisten = "{name}.sock"\nframing = {SIZES[name]}'
            text += frames.port(name, bridge, number, service, keys)
    return text


class Host:
    """A host that sends some octets in pieces, shuts its sending side, and keeps all that comes."""

    def __init__(self, path, octets, chance):
        self.octets, self.got, self.chance = octets, b"", chance
        self.stream = socket.socket(socket.AF_UNIX, socket.SOCK_STREAM)
        self.stream.connect(str(path))
        self.threads = [threading.Thread(target=it, daemon=True) for it in (self.send, self.receive)]

    def send(self):
        at = 0
        try:
            while at < len(self.octets):
                size = self.chance.choice([1, 2, 7, 100, 100_000])
                self.stream.sendall(self.octets[at : at + size])
                at += size
            self.stream.shutdown(socket.SHUT_WR)
        except OSError:
            pass

    def receive(self):
        try:
            while part := self.stream.recv(65536):
                self.got += part
        except OSError:
            pass

    def start(self):
        for it in self.threads:
            it.start()

    def join(self):
        for it in self.threads:
            it.join(20)
        self.stream.close()


def given(chance, size):
    """Returns a stream with lengths of so many octets: whole, mutated, noise, or with an odd length at its end."""
    octets = frames.stream_of(frames.some_frames(chance, chance.choice([0, 1, 10, 60])), size)
    roll = chance.random()
    if roll < 0.25:
        return octets
    if roll < 0.35:
        return chance.randbytes(chance.choice([1, 2, 3, 500, 5000]))
    if roll < 0.45:
        return octets + bytes(size) * chance.choice([1, 100])
    if roll < 0.55:
        length = chance.choice([1, 13, 1993, 2000, 65_534, 65_535, 65_536, 2**24, 2**31, 2**32 - 1])
        octets += (length % 2 ** (8 * size)).to_bytes(size, "big")[: chance.choice([size, size, size, size - 1])]
        return octets + bytes(chance.choice([0, 0, 1, 65_535, 65_536]))
    return mutate(chance, octets)


def wrong_streams(hosts, ended, is_lossless):
    """Returns what is wrong with the frames that the hosts got, by those that they sent, or None."""
    counts = {found[1]: tuple(map(int, found.groups()[1:])) for found in map(LINES.fullmatch, ended.lines()) if found}
    for names in PORTS.values():
        for name, other in (names, names[::-1]):
            sent, _ = frames.streams(hosts[other].octets, SIZES[other])
            got, fault = frames.streams(hosts[name].got, SIZES[name])
            if fault:
                return f"host {name} got a part of a frame"
            why = frames.strangers(got, sent, is_lossless)
            if why:
                return f"host {name}: {why}"
            if counts[name][1] != len(got) or counts[other][0] != len(sent):
                return f"host {name}: {len(got)} of {len(sent)} frames came, and the report says {counts}"
    return None


def try_streams(part, kind, number, octets, is_lossless):
    chance = part.chance(kind, number, "pieces")
    with part.room("streams", number) as room:
        room.write("plan.toml", plan(is_lossless))
        run = room.start(PROGRAM, "run", "--seconds", "120", "--linger", "5000", "plan.toml")
        names = [it for pair in PORTS.values() for it in pair]
        for name in names:
            common.wait_for(room.path / f"{name}.sock")
        hosts = {}
        for name, sent in zip(names, octets):
            room.write(f"{name}.sent", sent)
            hosts[name] = Host(room.path / f"{name}.sock", sent, chance)
        for host in hosts.values():
            host.start()
        ended = room.end(run, 130)
        for host in hosts.values():
            host.join()
        why = misfit(ended, most=110)
        why = why or wrong_faults(ended, {name: frames.streams(hosts[name].octets, SIZES[name])[1] for name in names})
        part.judge(kind, why or wrong_streams(hosts, ended, is_lossless), room, ended)


def attack(part):
    for number in range(part.times(300)):
        chance = part.chance("streams", number)
        octets = [given(chance, size) for size in SIZES.values()]
        try_streams(part, "streams, mutated", number, octets, is_lossless=number % 2 == 0)
