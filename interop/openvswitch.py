#!/usr/bin/env python3
"""Compares pbnet with Open vSwitch: a chain over sockets, 802.1ad ports, and the rapid spanning tree.

Open vSwitch runs in userspace with its dummy datapath. Its ports are Unix sockets, and it needs no kernel module.
"""

import os
import time

import captures
import common
from streams import Listener, Peer, exchange

SCHEMA = "/usr/share/openvswitch/vswitch.ovsschema"


class Switch:
    """A separate Open vSwitch in a folder."""

    def __init__(self, folder):
        self.folder, self.path = folder, folder.path / "ovs"
        self.path.mkdir()
        self.environment = dict(os.environ)
        for name in ("OVS_RUNDIR", "OVS_LOGDIR", "OVS_DBDIR", "OVS_SYSCONFDIR"):
            self.environment[name] = str(self.path)
        self.database = f"unix:{self.path}/db.sock"
        self.tool("ovsdb-tool", "create", self.path / "conf.db", SCHEMA)
        self.start("ovsdb-server", self.path / "conf.db", f"--remote=p{self.database}", "--log-file")
        common.wait_for(self.path / "db.sock")
        self.vsctl("--no-wait", "init")
        self.start(
            "ovs-vswitchd", "--enable-dummy=override", "--disable-system", "--log-file", "--pidfile", self.database
        )
        self.vsctl("set", "Open_vSwitch", ".", "other_config:vlan-limit=2")

    def start(self, *words):
        self.folder.start(*words, env=self.environment)

    def tool(self, *words):
        return common.output(*words, env=self.environment)

    def vsctl(self, *words):
        return self.tool("ovs-vsctl", f"--db={self.database}", "--timeout=20", *words)

    def bridge(self, name, address):
        words = ["add-br", name, "--", "set", "bridge", name, "datapath_type=dummy", "fail-mode=standalone"]
        self.vsctl(*words, f"other-config:hwaddr={address}")

    def port(self, bridge, name, *settings):
        """Adds a port, and returns the path to which its peer connects."""
        path = self.folder.path / f"{name}.sock"
        words = [
            "add-port",
            bridge,
            name,
            "--",
            "set",
            "interface",
            name,
            "type=dummy",
            f"options:pstream=punix:{path}",
        ]
        self.vsctl(*words, "mtu_request=2000", *(["--", "set", "port", name, *settings] if settings else []))
        common.wait_for(path)
        return path

    def service_port(self, bridge, name, vid):
        return self.port(bridge, name, "vlan_mode=dot1q-tunnel", f"tag={vid}", "other-config:qinq-ethtype=802.1ad")


# The chain


def chain_rows(table, folder):
    """A driver, `pbnet run`, Open vSwitch and another driver, in a chain."""
    switch = Switch(folder)
    switch.bridge("chain", "02:00:00:00:00:0a")
    path, far = switch.port("chain", "to-pbnet"), Peer.to(switch.port("chain", "to-driver"))
    listener = Listener(folder.path / "near.sock")
    plan = captures.WIRE.format(near=captures.socket_port("near.sock"), far=captures.socket_port(path.name))
    (folder.path / "plan.toml").write_text(plan)
    running = folder.start(common.PROGRAM, "run", "plan.toml", stdout=-1)
    near = Peer(listener.accept())
    there = [captures.frame(length) for length in captures.LENGTHS]
    back = [captures.frame(length, to=b"\2\0\0\0\0\1", source=b"\2\0\0\0\0\2") for length in captures.LENGTHS]
    for name, one, two, frames in (("out by Open vSwitch", near, far, there), ("in by Open vSwitch", far, near, back)):
        came = exchange(one, two, frames, window=16)
        table.row(
            f"lengths 14 to 1,992, {name}: frames, and those alike",
            f"{len(frames)}, {len(frames)}",
            f"{len(came)}, {sum(map(frames.__contains__, came))}",
        )
        table.row(f"lengths 14 to 1,992, {name}: in order", True, came == frames)
    near.shut()
    switch.vsctl("del-port", "chain", "to-pbnet")
    report = running.communicate(timeout=120)[0].decode()
    near_line = [line for line in report.split("\n") if line.startswith("port near")]
    table.row("the report of `run`", f"port near entered {len(there)} left {len(back)} filtered 0", "".join(near_line))


# Tags

SERVICES = """
[[bridge]]
name = "A"
address = "02-00-00-00-00-01"
[[bridge]]
name = "B"
address = "02-00-00-00-00-02"
[[link]]
name = "L"
a = "A"
a_port = 1
b = "B"
b_port = 1
[[service]]
name = "red"
vid = 100
[[service]]
name = "blue"
vid = 200
[[port]]
name = "red-a"
bridge = "A"
port = 2
service = "red"
[[port]]
name = "blue-a"
bridge = "A"
port = 3
service = "blue"
[[port]]
name = "red-b"
bridge = "B"
port = 2
service = "red"
[[port]]
name = "blue-b"
bridge = "B"
port = 3
service = "blue"
"""

TO, FROM = "ffffffffffff", "020000000001"


def ours_on_link(frames):
    """Returns what crosses the link, or the drop reason, for each frame that enters at red-a."""
    lines = (
        "poll red-a {}|feed red-a|receive A 2|transmit A 1|take L ab|put L ab|receive B 1|transmit B 2|deliver red-b"
    )
    lines = (lines + "|transmit B 3|").replace("|", "\n")
    script = "".join(lines.format(frame) for frame in frames)
    with common.Folder() as folder:
        (folder.path / "plan.toml").write_text(SERVICES)
        lines = common.run("step", folder.path / "plan.toml", given=script.encode())[0].split("\n")
    rows = [lines[10 * place : 10 * place + 10] for place in range(len(frames))]
    return [
        (row[3][5:] if row[3].startswith("sent ") else row[2], row[8].replace("delivered ", ""), row[9]) for row in rows
    ]


class Services:
    """The same services at two bridges of Open vSwitch, with a driver as the link between them."""

    def __init__(self, folder):
        self.switch, self.peers = Switch(folder), {}
        for side, octet in (("a", "01"), ("b", "02")):
            self.switch.bridge(side, f"02:00:00:00:00:{octet}")
            self.peers["link-" + side] = Peer.to(self.switch.port(side, "link-" + side, "vlan_mode=trunk"))
            for name, vid in (("red", 100), ("blue", 200)):
                self.peers[f"{name}-{side}"] = Peer.to(self.switch.service_port(side, f"{name}-{side}", vid))
        time.sleep(0.5)

    def forward_bpdus(self, word):
        for side in "ab":
            self.switch.vsctl("set", "bridge", side, f"other-config:forward-bpdu={word}")
        time.sleep(0.5)

    def on_link(self, frame):
        """Returns what crosses the link, what leaves the far port of the service, and what leaves the other service."""
        self.peers["red-a"].send(bytes.fromhex(frame))
        wire = self.peers["link-a"].receive(0.6)
        if wire is None:
            return "nothing", "idle", "idle"
        self.peers["link-b"].send(wire)
        left = self.peers["red-b"].receive(0.6)
        other = self.peers["blue-b"].receive(0.1)
        return wire.hex(), left.hex() if left else "idle", other.hex() if other else "idle"


TWICE = "Open vSwitch tags every frame; pbnet refuses a customer's own S-tag"
PRIORITY = "Open vSwitch keeps the customer's tag after its own; pbnet takes the priority of a priority S-tag and removes the tag"

TAGS = [
    ("untagged", TO + FROM + "88b50102", None),
    ("customer tag, VID 5", TO + FROM + "8100600588b50102", None),
    ("customer priority tag", TO + FROM + "8100a00088b50102", None),
    ("two customer tags", TO + FROM + "810000058100000688b50102", None),
    ("tag of type 9100", TO + FROM + "9100006488b50102", None),
    ("length and LLC", TO + FROM + "0003424203", None),
    ("to a group", "01005e000001" + FROM + "080045", None),
    ("to an unknown station", "020000000009" + FROM + "080045", None),
    ("14 octets", TO + FROM + "88b5", None),
    ("1,992 octets", TO + FROM + "88b5" + "5a" * 1978, None),
    ("S-tag of another service", TO + FROM + "88a800c888b50102", TWICE),
    ("S-tag of its own service", TO + FROM + "88a8006488b50102", TWICE),
    ("priority S-tag, priority 5", TO + FROM + "88a8a00088b50102", PRIORITY),
    ("priority S-tag, drop eligible", TO + FROM + "88a8b00088b50102", PRIORITY),
    ("priority S-tag, then an S-tag", TO + FROM + "88a8a00088a800c888b5", TWICE),
    (
        "a truncated S-tag",
        TO + FROM + "88a8006488",
        "Open vSwitch drops it without a report; pbnet filters it as `s-tagged`",
    ),
]


def shown(seen):
    """Returns a short text of what crossed the link and what left."""
    wire, left, other = seen
    if not set(wire) <= set("0123456789abcdef"):
        return wire
    text = f"{wire[24:60]}{'...' if len(wire) > 60 else ''} ({len(wire) // 2})"
    text += " leaves as it came" if left == wire[:24] + wire[32:] else f" leaves as {left}"
    return text + ("" if other == "idle" else ", and in the other service")


def tag_rows(table, folder):
    services = Services(folder)
    ours = ours_on_link([frame for _, frame, _ in TAGS])
    for (name, frame, reason), here in zip(TAGS, ours):
        there = services.on_link(frame)
        if (here == there) == (reason is None):
            table.row(name, shown(here), shown(there), reason)
        else:
            table.row(name, here, there, reason)


RESERVED = [f"0180c20000{octet:02x}" for octet in range(16)]
CARRIED = (0, 11, 12, 13, 15)
SWITCH = "`forward-bpdu` is one switch for all sixteen; pbnet follows the standard's list for provider bridges"


def reserved_rows(table, folder):
    """The addresses -00 to -0F: all carried, none carried, or those of the standard's list."""
    services = Services(folder)
    ours = ours_on_link([to + FROM + "88b50102" for to in RESERVED])
    for word in ("true", "false"):
        services.forward_bpdus(word)
        for octet, (to, here) in enumerate(zip(RESERVED, ours)):
            there = services.on_link(to + FROM + "88b50102")
            is_carried = word == "true"
            reason = None
            if (octet in CARRIED) != is_carried:
                reason = SWITCH
            here_word = "carried, " + shown(here) if octet in CARRIED else here[0]
            there_word = "carried, " + shown(there) if there[0] != "nothing" else "nothing"
            if octet not in CARRIED and not is_carried:
                here_word = "nothing" if here[0].startswith("filtered") else here[0]
            table.row(f"-{octet:02X}, `forward-bpdu={word}`", here_word, there_word, reason)


# The spanning tree

ADDRESS = (
    "Open vSwitch uses the port's address as the source, and the destination of customer bridges; pbnet uses the bridge's"
)

MACHINES = "Open vSwitch runs its state machines in turn, and sends a BPDU before the agreement; pbnet does all in one call"


def ours_settling():
    """Returns the BPDUs of the example `settling`: B1's proposal, B2's agreement, and B1's next one."""
    plan, script = (common.TOP / "examples" / f"settling.{end}" for end in ("toml", "steps"))
    lines = common.run("step", plan, given=script.read_bytes())[0].split("\n")
    return [bytes.fromhex(line[5:]) for line in lines if line.startswith("sent 0180c2000008")]


def to_customers(frame):
    """Returns the BPDU with the destination of customer bridges."""
    return bytes.fromhex("0180c2000000") + frame[6:]


def tree_switch(folder, address):
    switch = Switch(folder)
    switch.bridge("tree", address)
    settings = {"path-cost": 20000, "port-num": 1, "port-priority": 128, "port-auto-edge": "false"}
    path = switch.port("tree", "lone", *(f"other_config:rstp-{key}={value}" for key, value in settings.items()))
    peer = Peer.to(path)
    time.sleep(0.5)
    switch.vsctl("set", "bridge", "tree", "rstp_enable=true", "other_config:rstp-priority=32768")
    return switch, peer


def state(switch):
    text = switch.vsctl("get", "port", "lone", "rstp_status")
    status = dict(part.strip(" {}\n").split("=") for part in text.split(",") if "=" in part)
    return f"{status.get('rstp_port_role')} {status.get('rstp_port_state')}"


def bpdu_row(table, name, here, there):
    there = there or b""
    table.row(name + ", from the length field on", here[12:].hex(), there[12:].hex())
    table.row(name + ", addresses", here[:12].hex(), there[:12].hex(), ADDRESS)


def root_rows(table, folder):
    """Open vSwitch instead of B1, the root."""
    proposal, answer, after = ours_settling()
    switch, peer = tree_switch(folder, "02:00:00:00:00:01")
    bpdu_row(table, "B1 proposes", proposal, peer.receive(10))
    table.row("and waits", "Designated Discarding", state(switch))
    peer.send(to_customers(answer))
    there = peer.receive(10)
    while there and there[12:] == proposal[12:]:
        there = peer.receive(10)
    bpdu_row(table, "B1 has received B2's agreement", after, there)
    table.row("and forwards", "Designated Forwarding", state(switch))


def other_rows(table, folder):
    """Open vSwitch instead of B2, whose root is B1."""
    proposal, answer, _ = ours_settling()
    switch, peer = tree_switch(folder, "02:00:00:00:00:02")
    peer.receive(10)
    peer.send(to_customers(proposal))
    came = [peer.receive(10)]
    while came[-1] and not came[-1][21] & 0x40:
        came.append(peer.receive(10))
    bpdu_row(table, "B2 agrees to B1's proposal", answer, came[-1])
    before = sum(frame is not None and frame[21] & 0x0C == 0x08 for frame in came[:-1])
    table.row("BPDUs of the Root port before that", 0, before, MACHINES)
    table.row("and forwards", "Root Forwarding", state(switch))


def main():
    parts = [
        ("chained with `pbnet run`", chain_rows),
        ("S-tags, by `dot1q-tunnel` with `qinq-ethtype=802.1ad`", tag_rows),
        ("reserved addresses", reserved_rows),
        ("spanning tree, instead of the root", root_rows),
        ("spanning tree, instead of the other bridge", other_rows),
    ]
    name = "Open vSwitch " + common.version("ovs-vswitchd", "--version").split()[-1]
    tables = []
    for title, rows in parts:
        tables.append(common.Table(f"{name}: {title}"))
        with common.Folder() as folder:
            rows(tables[-1], folder)
    common.finish(*tables)


if __name__ == "__main__":
    main()
