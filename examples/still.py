#!/usr/bin/env python3
"""A peer that never shuts its sending side: listens at the Unix socket of its first argument, sends no frame, and takes all that
comes until the run is over.
"""

import socket
import sys


def main():
    listener = socket.socket(socket.AF_UNIX)
    listener.bind(sys.argv[1])
    listener.listen()
    print("listening", flush=True)
    stream, _ = listener.accept()
    while stream.recv(4096):
        pass
    return 0


if __name__ == "__main__":
    sys.exit(main())
