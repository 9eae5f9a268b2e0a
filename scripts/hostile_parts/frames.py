"""Plans of runs, captures, and the frames that may leave a port."""
import struct
from collections import Counter

import captures
import second_network

BRIDGES = "".join(f'[[bridge]]\nname = "B{it}"\naddress = "02-00-00-00-00-0{it}"\nqueue = 4096\n' for it in (1, 2))
LINK = '[[link]]\nname = "L1"\na = "B1"\na_port = 15\nb = "B2"\nb_port = 16\n'
SERVICES = '[[service]]\nname = "red"\nvid = 100\n[[service]]\nname = "blue"\nvid = 200\n'
HEADER, RECORD, LARGEST = 24, 16, 262_144
GROUP = bytes.fromhex("ffffffffffff")


def port(name, bridge, number, service, more):
    """Returns the table of a port."""
    text = f'[[port]]\nname = "{name}"\nbridge = "{bridge}"\nport = {number}\nservice = "{service}"\nqueue = 4096\n'
    return text + more + "\n"


def reads(octets):
    """Returns the frames of a capture, and the number of its fault, or None."""
    if len(octets) < HEADER:
        return [], 4
    order = {b"\xa1\xb2\xc3\xd4": ">", b"\xa1\xb2\x3c\x4d": ">", b"\xd4\xc3\xb2\xa1": "<",
             b"\x4d\x3c\xb2\xa1": "<"}.get(octets[:4])
    if order is None:
        return [], 1
    if struct.unpack_from(order + "HH", octets, 4) != (2, 4):
        return [], 2
    if struct.unpack_from(order + "I", octets, 20)[0] != 1:
        return [], 3
    frames, at = [], HEADER
    while at + RECORD <= len(octets):
        held, whole = struct.unpack_from(order + "II", octets, at + 8)
        if held > LARGEST:
            return frames, 5
        if at + RECORD + held > len(octets):
            return frames, 4
        if held >= whole:
            frames.append(octets[at + RECORD : at + RECORD + held])
        at += RECORD + held
    return frames, None if at == len(octets) else 4


def stream_of(frames, size=2):
    """Returns the octets of a stream of frames, each after its length in so many octets."""
    return b"".join(len(it).to_bytes(size, "big") + it for it in frames)


def streams(octets, size=2):
    """Returns the frames of a stream, and the number of its fault, or None. A length of more than 65,535 is one."""
    frames, at = [], 0
    while at + size <= len(octets):
        length = int.from_bytes(octets[at : at + size], "big")
        if length > 65_535:
            return frames, 5
        if at + size + length > len(octets):
            return frames, 4
        frames.append(octets[at + size : at + size + length])
        at += size + length
    return frames, None if at == len(octets) else 4


def written(octets):
    """Returns the frames of a written capture and how many octets after the last whole record there are, or None if
    the octets do not begin as a capture."""
    if not octets:
        return [], 0
    if len(octets) < HEADER or octets[:HEADER] != captures.pcap([])[:16] + octets[16:20] + b"\1\0\0\0":
        return None
    frames, at = [], HEADER
    while at + RECORD <= len(octets):
        held, whole = struct.unpack_from("<II", octets, at + 8)
        if held != whole or at + RECORD + held > len(octets):
            break
        frames.append(octets[at + RECORD : at + RECORD + held])
        at += RECORD + held
    return frames, len(octets) - at


def strangers(left, entered, is_lossless=False):
    """Returns what is wrong with the frames that left a port, by those that entered the other ports of its service:
    one that did not enter, or more of one than entered. Of a lossless network all broadcasts leave, too."""
    may = Counter(second_network.bare(it) for it in entered if second_network.refusal(it) is None)
    more = Counter(left) - may
    if more:
        frame, count = next(iter(more.items()))
        return f"a frame left {count} times more than it entered: {frame.hex()[:80]}"
    if is_lossless:
        lacking = Counter({it: n for it, n in may.items() if it[0] & 1}) - Counter(left)
        if lacking:
            return f"{lacking.total()} broadcasts are missing: {next(iter(lacking)).hex()[:80]}"
    return None


def some_frames(chance, count):
    """Returns frames: broadcasts, frames of stations, and some that no bridge carries."""
    made = []
    for number in range(count):
        target = chance.choice([GROUP, GROUP, bytes([2, 0, 0, 0, 1, chance.randrange(4)]), b"\1\x80\xc2\0\0\3"])
        kind = chance.choice([b"\x08\0"] * 6 + [b"\x88\xa8\x60\0\x08\0", b"\x88\xa8\0\x64\x08\0"])
        frame = target + bytes([2, 0, 0, 0, 1, chance.randrange(4)]) + kind + number.to_bytes(4, "big")
        made.append(frame + bytes(chance.choice([0, 0, 40, 500, 1970, 1980])))
    return made
