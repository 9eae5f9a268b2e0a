#!/usr/bin/env python3
"""The peers of ring-under-load.toml: sends frames at both sockets as fast as they are taken, and drives the run by its
control socket. Prints what it asked for and what was answered, and whether frames came out before and after each failure.

A frame goes over a stream behind its length in two octets, the higher one first.
"""

import os
import socket
import sys
import threading
import time

CONTROL = "out/ring.control"
PORTS = {"north": 1, "south": 2}


def frame_of(number):
    """Returns a broadcast of one of the two stations, behind its length."""
    octets = bytes.fromhex(f"ffffffffffff02000000000{number}0800") + bytes(50)
    return len(octets).to_bytes(2, "big") + octets


def send(stream, number):
    """Sends frames until the run is over."""
    frame = frame_of(number)
    try:
        while True:
            stream.sendall(frame)
            time.sleep(0.0005)
    except OSError:
        pass


def receive(stream):
    """Takes frames until the run is over."""
    try:
        while stream.recv(65536):
            pass
    except OSError:
        pass


def ask(line):
    """Returns the lines of the answer."""
    with socket.socket(socket.AF_UNIX) as peer:
        peer.connect(CONTROL)
        peer.sendall(line.encode() + b"\n")
        peer.shutdown(socket.SHUT_WR)
        return b"".join(iter(lambda: peer.recv(4096), b"")).decode().splitlines()


def counts():
    """Returns how many frames have left, and how often the clock of B1 has ticked."""
    words = [line.split() for line in ask("counts")[:-1]]
    left = sum(int(it[5]) for it in words if it[0] == "port")
    return left, next(int(it[5]) for it in words if it[:2] == ["bridge", "B1"])


def wait_for(ticks):
    """Waits until the clock of B1 has ticked so often."""
    while counts()[1] < ticks:
        time.sleep(0.02)


def flows(name):
    """Tells whether frames leave."""
    before = counts()[0]
    for _ in range(500):
        if counts()[0] > before:
            print(f"{name}: frames leave", flush=True)
            return
        time.sleep(0.02)
    print(f"{name}: no frame leaves", flush=True)


def drive():
    """Sets a link down and up again, and stops the run."""
    while not os.path.exists(CONTROL):
        time.sleep(0.02)
    wait_for(80)
    flows("at first")
    wait_for(160)
    flows("ring2 is down")
    wait_for(260)
    flows("ring2 is up")
    for line in ("down B5 2", "down B6 1", "down B5 3", "hop"):
        print(f"{line}: {ask(line)[-1]}", flush=True)
    wait_for(counts()[1] + 60)
    print(*[line for line in ask("tree") if line.startswith(("port B5 2 ", "port B6 1 "))], sep="\n", flush=True)
    flows("ring5 is down")
    for line in ("up B5 2", "up B6 1"):
        print(f"{line}: {ask(line)[-1]}", flush=True)
    wait_for(counts()[1] + 60)
    flows("ring5 is up")
    print(f"stop: {ask('stop')[-1]}", flush=True)


def main():
    listeners = {}
    for name in PORTS:
        path = f"out/{name}.sock"
        if os.path.exists(path):
            os.remove(path)
        listeners[name] = socket.socket(socket.AF_UNIX, socket.SOCK_STREAM)
        listeners[name].bind(path)
        listeners[name].listen(1)
    print("listening", flush=True)
    threads = []
    for name, number in PORTS.items():
        stream, _ = listeners[name].accept()
        threads += [threading.Thread(target=send, args=(stream, number)), threading.Thread(target=receive, args=(stream,))]
    for thread in threads:
        thread.start()
    drive()
    for thread in threads:
        thread.join()
    return 0


if __name__ == "__main__":
    sys.exit(main())
