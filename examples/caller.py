#!/usr/bin/env python3
"""The peers of listener.toml: connects to the socket that the run makes, listens at another, sends frames by both, and prints
those that come, as peer.py does.
"""

import os
import socket
import sys
import threading
import time

from peer import FRAMES, receive, send

CALLED = "out/west.sock"
LISTENED = "out/east.sock"


def is_made(path):
    """Only its owner may connect to the socket."""
    return os.path.exists(path) and os.stat(path).st_mode & 0o777 == 0o600


def call():
    """Connects once the run has made its socket. It hangs up on a peer that came too early."""
    while True:
        if is_made(CALLED):
            with socket.socket(socket.AF_UNIX) as stream:
                stream.connect(CALLED)
                send(stream, FRAMES["west"])
                frames = receive(stream)
                if frames:
                    return frames
        time.sleep(0.01)


def serve(listener):
    stream, _ = listener.accept()
    with stream:
        send(stream, FRAMES["east"])
        return receive(stream)


def main():
    for path in (CALLED, LISTENED):
        if os.path.exists(path):
            os.remove(path)
    listener = socket.socket(socket.AF_UNIX, socket.SOCK_STREAM)
    listener.bind(LISTENED)
    listener.listen(1)
    print("listening", flush=True)
    shown = {}
    threads = [
        threading.Thread(target=lambda: shown.update(west=call())),
        threading.Thread(target=lambda: shown.update(east=serve(listener))),
    ]
    for thread in threads:
        thread.start()
    for thread in threads:
        thread.join()
    for name, frames in sorted(shown.items()):
        for frame in frames:
            print(f"{name} got {frame}")
    return 0


if __name__ == "__main__":
    sys.exit(main())
