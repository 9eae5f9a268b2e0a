"""Streams of frames over Unix sockets. Each frame follows its length in two octets, the higher one first."""

import socket
import threading


class Peer:
    """A driver's end of such a stream."""

    def __init__(self, stream):
        self.stream, self.kept = stream, b""

    @classmethod
    def to(cls, path):
        stream = socket.socket(socket.AF_UNIX, socket.SOCK_STREAM)
        stream.connect(str(path))
        return cls(stream)

    def send(self, frame):
        self.stream.settimeout(60)
        self.stream.sendall(len(frame).to_bytes(2, "big") + frame)

    def shut(self):
        """Ends the sending direction."""
        self.stream.shutdown(socket.SHUT_WR)

    def receive(self, wait=2.0):
        """Returns the next frame, or None if the stream ends or no frame comes within these seconds."""
        self.stream.settimeout(wait)
        try:
            while len(self.kept) < 2 or len(self.kept) < 2 + int.from_bytes(self.kept[:2], "big"):
                part = self.stream.recv(65536)
                if not part:
                    return None
                self.kept += part
        except (socket.timeout, ConnectionResetError):
            return None
        end = 2 + int.from_bytes(self.kept[:2], "big")
        frame, self.kept = self.kept[2:end], self.kept[end:]
        return frame

    def receive_many(self, count, wait=20.0):
        """Returns this many frames, or fewer if no frame comes within these seconds."""
        frames = []
        while len(frames) < count and (frame := self.receive(wait)) is not None:
            frames.append(frame)
        return frames

    def close(self):
        self.stream.close()


class Listener:
    """A socket to which the other side connects."""

    def __init__(self, path):
        self.listening = socket.socket(socket.AF_UNIX, socket.SOCK_STREAM)
        self.listening.bind(str(path))
        self.listening.listen(1)

    def accept(self, wait=120.0):
        self.listening.settimeout(wait)
        stream, _ = self.listening.accept()
        self.listening.close()
        return stream


def exchange(near, far, frames, window=64):
    """Sends frames to one peer while the other receives. Returns the received frames, in order.

    At most a window of frames is on its way, and no queue of another program overflows.
    """
    room, came = threading.Semaphore(window), []

    def send():
        for frame in frames:
            if not room.acquire(timeout=30):
                return
            near.send(frame)

    sender = threading.Thread(target=send)
    sender.start()
    while len(came) < len(frames) and (frame := far.receive(20)) is not None:
        came.append(frame)
        room.release()
    sender.join()
    return came
