"""Capture files in the format of libpcap, and plans of `pbnet run` that read and write them."""

import struct

MICRO, NANO = 0xA1B2C3D4, 0xA1B23C4D


def pcap(frames, order="<", magic=MICRO, link=1, version=(2, 4), seconds=0):
    """Returns the octets of a capture."""
    octets = struct.pack(order + "IHHiIII", magic, *version, 0, 0, 262144, link)
    for place, frame in enumerate(frames):
        octets += struct.pack(order + "IIII", seconds + place, 0, len(frame), len(frame)) + frame
    return octets


def frames_of(octets):
    """Returns the frames of a little-endian capture."""
    frames, at = [], 24
    while at < len(octets):
        length = struct.unpack_from("<I", octets, at + 8)[0]
        frames.append(octets[at + 16 : at + 16 + length])
        at += 16 + length
    return frames


def frame(length, to=b"\xff" * 6, source=b"\x02\0\0\0\0\1", kind=b"\x88\xb5"):
    """Returns a frame of this many octets, with different data octets."""
    data = bytes((place * 7 + length) % 256 for place in range(max(0, length - 14)))
    return (to + source + kind + data)[:length]


LENGTHS = range(14, 1993)

WIRE = """
[network]
ring = 4096

[[bridge]]
name = "bridge"
address = "02-00-00-00-00-01"
queue = 4096

[[service]]
name = "line"
vid = 100

[[port]]
name = "near"
bridge = "bridge"
port = 1
service = "line"
queue = 4096
{near}

[[port]]
name = "far"
bridge = "bridge"
port = 2
service = "line"
queue = 4096
{far}
"""


def capture_port(read, write):
    return f'kind = "capture"\nread = "{read}"\nwrite = "{write}"'


def memory_port(frames=()):
    return 'kind = "memory"\nin = [' + ", ".join(f'"{frame.hex()}"' for frame in frames) + "]"


def socket_port(path):
    return f'kind = "socket"\npath = "{path}"'
