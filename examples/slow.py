#!/usr/bin/env python3
"""A peer that is slower than a run: listens at the Unix socket of its first word, sends no frame, takes nothing for as many seconds
as its second word says, and then prints how many octets come.
"""

import socket
import sys
import time


def main():
    listener = socket.socket(socket.AF_UNIX)
    listener.bind(sys.argv[1])
    listener.listen()
    print("listening", flush=True)
    stream, _ = listener.accept()
    stream.shutdown(socket.SHUT_WR)
    time.sleep(float(sys.argv[2]))
    count = 0
    while part := stream.recv(65536):
        count += len(part)
    print(count)
    return 0


if __name__ == "__main__":
    sys.exit(main())
