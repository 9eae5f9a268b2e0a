#!/usr/bin/env python3
"""The peers of sockets.toml: listens at two Unix sockets, sends frames, and prints those that come.

A frame goes over a stream behind its length in two octets, the higher one first.
"""

import os
import socket
import sys
import threading

FRAMES = {
    "west": [
        "ffffffffffff0200000000010806000108000604000102000000000100000000000000000000c0000202",
        "02000000000202000000000108004500001500000000401100000a0000010a00000258",
    ],
    "east": [
        "02000000000102000000000208004500001500000000401100000a0000020a00000159",
    ],
}


def send(stream, frames):
    for frame in frames:
        octets = bytes.fromhex(frame)
        stream.sendall(len(octets).to_bytes(2, "big") + octets)
    stream.shutdown(socket.SHUT_WR)


def receive(stream):
    octets = b""
    while part := stream.recv(65536):
        octets += part
    frames = []
    while octets:
        end = 2 + int.from_bytes(octets[:2], "big")
        frames.append(octets[2:end].hex())
        octets = octets[end:]
    return frames


def serve(name, listener, shown):
    stream, _ = listener.accept()
    send(stream, FRAMES[name])
    shown[name] = receive(stream)


def main():
    listeners, shown = {}, {}
    for name in FRAMES:
        path = f"out/{name}.sock"
        if os.path.exists(path):
            os.remove(path)
        listeners[name] = socket.socket(socket.AF_UNIX, socket.SOCK_STREAM)
        listeners[name].bind(path)
        listeners[name].listen(1)
    print("listening", flush=True)
    threads = [threading.Thread(target=serve, args=(name, listener, shown)) for name, listener in listeners.items()]
    for thread in threads:
        thread.start()
    for thread in threads:
        thread.join()
    for name, frames in sorted(shown.items()):
        for frame in frames:
            print(f"{name} got {frame}")
    return 0


if __name__ == "__main__":
    sys.exit(main())
