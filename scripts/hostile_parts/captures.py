"""mutated captures: what leaves a run is what entered its service, and faults are named"""
import re
import socket
import struct
import threading

import captures

from hostile_parts import frames
from hostile_parts.attack import PROGRAM, misfit
from hostile_parts.mutations import mutate

INPUTS = {"red": "C1", "blue": "C2"}
# The ports whose captures a run writes, by service.
OUTPUTS = {"red": ["C1", "R1", "S1"], "blue": ["C2", "R2"]}
LINES = re.compile(r"port (\S+) entered (\d+) left (\d+) filtered (\d+)")


def plan():
    text = frames.BRIDGES + frames.LINK + frames.SERVICES
    for number, (service, name) in enumerate(INPUTS.items(), 1):
        both = f'kind = "capture"\nread = "{name}.in"\nwrite = "{name}.out"'
        text += frames.port(name, "B1", number, service, both)
        text += frames.port(f"R{number}", "B2", number, service, f'kind = "record"\nwrite = "R{number}.out"')
    return text + frames.port("S1", "B1", 3, "red", 'kind = "record"\nwrite = "S1.out"')


def wrong_outputs(room, entered, ended):
    """Returns what is wrong with the written captures, by the frames that entered, or None."""
    counts = {found[1]: tuple(map(int, found.groups()[1:])) for found in map(LINES.fullmatch, ended.lines()) if found}
    for service, names in OUTPUTS.items():
        for name in names:
            read = frames.written(room.read(f"{name}.out"))
            if read is None or read[1]:
                return f"the capture of {name} is no row of whole records"
            came = entered[service] if name != INPUTS[service] else []
            why = frames.strangers(read[0], came, is_lossless=True)
            if why:
                return f"port {name}: {why}"
            if counts.get(name, (0, -1))[1] != len(read[0]):
                return f"port {name}: the report says {counts.get(name)}, and {len(read[0])} frames left"
    for service, name in INPUTS.items():
        if counts[name][0] != len(entered[service]):
            return f"port {name}: {counts[name][0]} frames entered, and its capture has {len(entered[service])}"
    return None


def wrong_faults(ended, faults):
    """Returns what is wrong with the lines of faults, or None."""
    wanted = [f"fault: port {name} {number}" for name, number in faults.items() if number]
    found = [line for line in ended.lines() if line.startswith("fault:")]
    if found != wanted:
        return f"the faults are {found}, expected {wanted}"
    if ended.status != (3 if wanted else 0):
        return f"exit status {ended.status}"
    lacking = [name for name, number in faults.items() if number and f"port {name}" not in ended.complaints()]
    return f"standard error does not name port {lacking[0]}" if lacking else None


def one(chance):
    """Returns the octets of a capture, in any of the forms that a run reads."""
    made = frames.some_frames(chance, chance.choice([0, 1, 5, 40]))
    magic = chance.choice([captures.MICRO, captures.NANO])
    return captures.pcap(made, order=chance.choice("<>"), magic=magic, seconds=chance.randrange(2**31))


def resize(chance, octets):
    """Gives a record another number of octets that were captured, or that it had."""
    if len(octets) < frames.HEADER + frames.RECORD:
        return octets
    at = frames.HEADER + chance.choice([8, 12])
    number = chance.choice([0, 1, 13, 262_144, 262_145, 2**31, 2**32 - 1, len(octets), chance.randrange(3000)])
    return octets[:at] + struct.pack(chance.choice("<>") + "I", number) + octets[at + 4 :]


def given(chance):
    octets = one(chance)
    roll = chance.random()
    if roll < 0.15:
        return octets
    if roll < 0.35:
        return resize(chance, octets)
    if roll < 0.4:
        return chance.randbytes(chance.choice([0, 3, 24, 400]))
    # (the header itself is only four in a hundred octets)
    head = frames.HEADER if roll < 0.8 else 0
    return octets[:head] + mutate(chance, octets[head:])


def mutated(part):
    for number in range(part.times(900)):
        chance = part.chance("captures", number)
        with part.room("captures", number) as room:
            room.write("plan.toml", plan())
            read = {}
            for service, name in INPUTS.items():
                read[service] = frames.reads(room.write(f"{name}.in", given(chance)).read_bytes())
            ended = room.run(PROGRAM, "run", "plan.toml")
            why = misfit(ended)
            why = why or wrong_faults(ended, {INPUTS[service]: fault for service, (_, fault) in read.items()})
            why = why or wrong_outputs(room, {service: found for service, (found, _) in read.items()}, ended)
            part.judge("captures, mutated", why, room, ended)


def from_pipe(part):
    """Gives one capture by standard input, a pipe."""
    for number in range(part.times(200)):
        chance = part.chance("pipe", number)
        octets = given(chance)
        with part.room("pipe", number) as room:
            room.write("plan.toml", plan().replace('"C1.in"', '"-"'))
            room.write("given", octets)
            other = frames.reads(room.write("C2.in", one(chance)).read_bytes())
            found, fault = frames.reads(octets)
            ended = room.run("sh", "-c", 'cat given | "$0" run plan.toml', PROGRAM)
            why = misfit(ended) or wrong_faults(ended, {"C1": fault, "C2": other[1]})
            why = why or wrong_outputs(room, {"red": found, "blue": other[0]}, ended)
            part.judge("captures, by a pipe", why, room, ended)


def from_inside(part):
    """Gives one capture by standard input that is a file from a later octet on, or a socket."""
    for number in range(part.times(100)):
        chance = part.chance("inside", number)
        octets, before = given(chance), chance.randbytes(chance.choice([1, 24, 4096, 70_000]))
        with part.room("inside", number) as room:
            room.write("plan.toml", plan().replace('"C1.in"', '"-"'))
            room.write("given", octets if number % 2 else before + octets)
            other = frames.reads(room.write("C2.in", one(chance)).read_bytes())
            found, fault = frames.reads(octets)
            if number % 2:
                here, there = socket.socketpair()
                sender = threading.Thread(target=send, args=(there, octets), daemon=True)
                sender.start()
                ended = room.run(PROGRAM, "run", "plan.toml", stdin=here)
                here.close()
                sender.join(20)
                there.close()
            else:
                with open(room.path / "given", "rb") as file:
                    file.seek(len(before))
                    ended = room.run(PROGRAM, "run", "plan.toml", stdin=file)
            why = misfit(ended) or wrong_faults(ended, {"C1": fault, "C2": other[1]})
            why = why or wrong_outputs(room, {"red": found, "blue": other[0]}, ended)
            part.judge("captures, by a socket" if number % 2 else "captures, from a later octet", why, room, ended)


def send(stream, octets):
    try:
        stream.sendall(octets)
        stream.shutdown(socket.SHUT_WR)
    except OSError:
        pass


def attack(part):
    mutated(part)
    from_inside(part)
    from_pipe(part)
