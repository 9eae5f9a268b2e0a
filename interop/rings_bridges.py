"""Rings of `pbnet run` and of Open vSwitch for rings.py, and the customers at two of their bridges."""

import os
import re
import time

import common
import openvswitch
from streams import Peer

WITHOUT_KEY = bool(os.environ.get("RINGS_PLAIN"))
ROLES = ("Root", "Designated", "Alternate", "Backup", "Disabled")


def address_of(n, size, falling):
    """Returns the last octet of a bridge's address. The root is bridge 1. If they fall, the bridges from the root to the
    one opposite have ever lower addresses, and each would be a better root than the bridges before it."""
    return size // 2 + 3 - n if falling and 2 <= n <= size // 2 + 1 else n


def plan(size, customers, prompt, more="", queue=64, falling=False):
    """Returns the plan of a ring: port 1 of each bridge leads to port 2 of the next. Customers are (name, bridge number,
    priority)."""
    text = '[[service]]\nname = "s"\nvid = 100\n[network]\nspanning = "rstp"\ntick_ms = 1000\n'
    text += more + ("" if WITHOUT_KEY else f"prompt = {str(prompt).lower()}\n")
    for n in range(1, size + 1):
        text += f'[[bridge]]\nname = "B{n}"\nqueue = {queue}\n'
        text += f'address = "02-00-00-00-00-{address_of(n, size, falling):02x}"\n'
        text += f'[[link]]\nname = "L{n}"\na = "B{n}"\na_port = 1\nb = "B{n % size + 1}"\nb_port = 2\n'
    for place, (name, n, *pcp) in enumerate(customers):
        text += f'[[port]]\nname = "{name}"\nbridge = "B{n}"\nport = {3 + place}\nservice = "s"\npcp = {[*pcp, 0][0]}\n'
        text += f'kind = "socket"\nlisten = "{name}.sock"\n'
    return text


class Ours:
    """A ring of `pbnet run` with its control socket."""

    def __init__(self, stack, size, prompt, customers=None, more="", queue=64, falling=False):
        self.size = size
        folder = stack.enter_context(common.Folder())
        customers = customers or [("near", 1), ("far", size // 2 + 1)]
        path = folder.path / "plan.toml"
        path.write_text(plan(size, customers, prompt, more, queue, falling))
        checked = common.run("check", path)
        assert checked[1] != 1, f"{common.PROGRAM} refuses the plan: {checked[0]}"
        self.process = folder.start(common.PROGRAM, "run", "--control", "control", path, stdout=-1, stderr=-1)
        common.wait_for(folder.path / f"{customers[-1][0]}.sock")
        self.peers = [Peer.to(folder.path / f"{name}.sock") for name, *_ in customers]
        # A signal ends the run only after the control socket's client has disconnected.
        self.control = stack.enter_context(Peer.to(folder.path / "control").stream)
        self.responses = stack.enter_context(self.control.makefile("r", encoding="ascii"))

    def ask(self, command):
        """Returns the lines of a response before its `ok`."""
        self.control.sendall(f"{command}\n".encode())
        lines = []
        while (line := self.responses.readline()) not in ("ok\n", ""):
            lines.append(line)
        return lines

    def order(self, word, link=1):
        """Disables or enables a link by `down` or `up`. The responses are read later."""
        self.control.sendall(f"{word} B{link} 1\n{word} B{link % self.size + 1} 2\n".encode())

    def obeyed(self, orders=1):
        return [self.responses.readline() for _ in range(2 * orders)] == ["ok\n"] * 2 * orders

    def roles(self):
        """Returns the role of each port of the ring, by the numbers of the bridge and of the port."""
        lines = [line.split() for line in self.ask("tree")]
        return {(int(words[1][1:]), int(words[2])): words[3].capitalize() for words in lines}

    def stop(self):
        """Ends the run, and returns its loss report."""
        self.ask("stop")
        self.responses.close()
        self.control.close()
        return self.process.communicate(timeout=60)[1].decode()


class Theirs:
    """A ring of Open vSwitch with its control socket. A link is a Unix socket between two dummy interfaces."""

    def __init__(self, stack, size, falling=False):
        self.size = size
        folder = stack.enter_context(common.Folder())
        self.switch = openvswitch.Switch(folder)
        for n in range(1, size + 1):
            self.switch.bridge(f"ring{n}", f"02:00:00:00:00:{address_of(n, size, falling):02x}")
            self.switch.vsctl("set", "bridge", f"ring{n}", "rstp_enable=true", "other_config:rstp-priority=32768")
        for n in range(1, size + 1):
            path = folder.path / f"link{n}"
            self.ring_port(n, "a", 1, f"pstream=punix:{path}")
            common.wait_for(path)
            self.ring_port(n % size + 1, "b", 2, f"stream=unix:{path}")
        off = "other_config:rstp-enable=false"
        self.peers = [Peer.to(self.switch.port(f"ring{n}", f"c{n}", off)) for n in (1, size // 2 + 1)]
        self.control = Peer.to(next(self.switch.path.glob("ovs-vswitchd.*.ctl"))).stream

    def ring_port(self, n, side, number, option):
        words = ["add-port", f"ring{n}", f"{side}{n}", "--", "set", "interface", f"{side}{n}", "type=dummy"]
        words += [f"options:{option}", "--", "set", "port", f"{side}{n}", f"other_config:rstp-port-num={number}"]
        self.switch.vsctl(*words, "other_config:rstp-path-cost=20000", "other_config:rstp-port-auto-edge=false")

    def order(self, word, link=1):
        for name in (f"a{link}", f"b{link % self.size + 1}"):
            text = '{"id": 0, "method": "netdev-dummy/set-admin-state", "params": ["%s", "%s"]}' % (name, word)
            self.control.sendall(text.encode())

    def obeyed(self, orders=1):
        text = ""
        while text.count('"id"') < 2 * orders:
            text += self.control.recv(4096).decode()
        return text.count('"OK') == 2 * orders

    def roles(self):
        text = self.switch.tool("ovs-appctl", "rstp/show")
        found = re.findall(rf"^ +([ab])(\d+) +({'|'.join(ROLES)}) ", text, re.M)
        return {(int(n), "ab".index(side) + 1): role for side, n, role in found}


class End:
    """A customer in a trial. It sends numbered frames, and keeps the arrival times of the other's frames."""

    def __init__(self, peer, octet, other, mark):
        self.peer, self.arrived, self.kept = peer, {}, b""
        self.sent = b"\2\0\0\0\1%c\2\0\0\0\1%c\x88\xb5" % (other, octet) + mark
        self.awaited = b"\2\0\0\0\1%c\2\0\0\0\1%c\x88\xb5" % (octet, other) + mark

    def send(self, number):
        self.peer.send(self.sent + number.to_bytes(4, "big") + bytes(42))

    def receive(self):
        self.kept += self.peer.stream.recv(65536)
        now = time.monotonic()
        while len(self.kept) >= 66:
            frame, self.kept = self.kept[2:66], self.kept[66:]
            if frame.startswith(self.awaited):
                self.arrived.setdefault(int.from_bytes(frame[18:22], "big"), now)

    def outage(self, failed, first, last):
        """Returns the seconds from the failure to the first arrival after the first loss, or None, and the number of lost
        frames from `first`, the last one sent before the failure, to `last`."""
        lost = [number for number in range(first, last) if number not in self.arrived]
        start = lost[0] if lost else first
        again = min((at for number, at in self.arrived.items() if number > start), default=None)
        return again and again - failed, len(lost)
