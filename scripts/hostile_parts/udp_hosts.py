"""Hosts at udp ports."""
import random
import re
import socket

LOOPBACK = {socket.AF_INET: "127.0.0.1", socket.AF_INET6: "::1"}


def free_port(family):
    """Returns a UDP port of the loopback address that nobody has, of those that the system gives nobody."""
    while True:
        number = random.randrange(20_000, 32_000)
        with socket.socket(family, socket.SOCK_DGRAM) as probe:
            try:
                probe.bind((LOOPBACK[family], number))
                return number
            except OSError:
                pass


class Host:
    """A host at a udp port: it sends and receives datagrams of the network `vni`, or frames alone."""

    def __init__(self, family, vni):
        self.family, self.vni = family, vni
        self.head = b"" if vni is None else b"\x08\0\0\0" + vni.to_bytes(3, "big") + b"\0"
        self.socket, self.own = None, free_port(family)
        self.come()
        self.port, self.odd = free_port(family), []

    def come(self):
        self.socket = socket.socket(self.family, socket.SOCK_DGRAM)
        self.socket.setsockopt(socket.SOL_SOCKET, socket.SO_RCVBUF, 4_000_000)
        self.socket.bind((LOOPBACK[self.family], self.own))

    def leave(self):
        self.socket.close()

    def address(self, number):
        return f"[::1]:{number}" if self.family == socket.AF_INET6 else f"127.0.0.1:{number}"

    def keys(self):
        """Returns the keys of the port at which the host is."""
        remote = self.address(self.own)
        more = 'encap = "none"' if self.vni is None else f"vni = {self.vni}"
        return f'kind = "udp"\nlocal = "{self.address(self.port)}"\nremote = "{remote}"\n{more}'

    def is_bound(self):
        """Checks whether a socket has the address of the port."""
        table = "/proc/net/udp6" if self.family == socket.AF_INET6 else "/proc/net/udp"
        with open(table, encoding="ascii") as lines:
            return any(re.match(rf"\s*\d+: [0-9A-F]+:{self.port:04X} ", line) for line in lines)

    def send(self, octets, by=None):
        try:
            (by or self.socket).sendto(octets, (LOOPBACK[self.family], self.port))
        except OSError:
            pass

    def receive(self, seconds):
        """Returns the frames that come within these seconds, up to the first pause."""
        found = []
        self.socket.settimeout(seconds)
        try:
            while octets := self.socket.recv(65_536):
                if octets.startswith(self.head):
                    found.append(octets[len(self.head) :])
                else:
                    self.odd.append(octets)
                self.socket.settimeout(0)
        except OSError:
            pass
        return found

    def close(self):
        self.socket.close()
