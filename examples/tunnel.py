#!/usr/bin/env python3
"""The peers of tunnel.toml: sends frames in datagrams once the run has bound its sockets, one of them in another VXLAN
network, and prints those that come, as peer.py does.
"""

import socket
import sys
import time

from peer import FRAMES

# The port of each peer, the port of the run at its other end, and the octets before each frame.
ENDS = {
    "west": (47890, 47891, bytes.fromhex("0800000000000500")),
    "east": (47892, 47893, b""),
}
OTHER = bytes.fromhex("0800000000000600")


def is_bound(port):
    """A socket of this host is bound to the port."""
    with open("/proc/net/udp") as lines:
        return any(line.split()[1].endswith(f":{port:04X}") for line in lines)


def main():
    sockets, shown = {}, {}
    for name, (near, _, _) in ENDS.items():
        sockets[name] = socket.socket(socket.AF_INET, socket.SOCK_DGRAM)
        sockets[name].bind(("127.0.0.1", near))
        sockets[name].settimeout(10)
    print("listening", flush=True)
    while not all(is_bound(far) for _, far, _ in ENDS.values()):
        time.sleep(0.01)
    for name, (_, far, front) in ENDS.items():
        fronts = [OTHER, front, front] if front else [front]
        for head, frame in zip(fronts, [FRAMES[name][0]] * (len(fronts) - len(FRAMES[name])) + FRAMES[name]):
            sockets[name].sendto(head + bytes.fromhex(frame), ("127.0.0.1", far))
    for name, other in (("west", "east"), ("east", "west")):
        front = ENDS[name][2]
        shown[name] = []
        for _ in FRAMES[other]:
            octets = sockets[name].recv(65536)
            if octets.startswith(front):
                shown[name].append(octets[len(front):].hex())
    for name, frames in sorted(shown.items()):
        for frame in frames:
            print(f"{name} got {frame}")
    return 0


if __name__ == "__main__":
    sys.exit(main())
