"""Parts of hosts.py: Linux bridges with STP and Open vSwitch bridges with RSTP that two services join, and the VXLAN
interface of Open vSwitch itself."""

import json
import os
import time

import common
import sandbox
from hosts_network import ONE, TWO, Pings, answered, network
from sandbox import Wire, shell

SCHEMA = "/usr/share/openvswitch/vswitch.ovsschema"
# Two services, each with a port for either customer: those of the first are 1 and 3, those of the second 2 and 4.
JOINED = [(1, 1, "red"), (2, 2, "red"), (3, 1, "blue"), (4, 2, "blue")]
BROADCAST = b"\xff" * 6 + bytes((2, 0, 0, 0, 5, 0)) + b"\x88\xb5" + bytes(46)


def frames(run):
    """Returns how many frames have entered at all customer ports."""
    lines = [line.split() for line in run.control("counts").splitlines()]
    return sum(int(line[3]) for line in lines if line[0] == "port")


def storm_rows(rows, part, run, one, two):
    """Sends broadcasts from one bridge, and counts what the other receives and what crosses the network meanwhile."""
    near, far = Wire(one, "br0"), Wire(two, "br0")
    far.empty()
    before = frames(run)
    for _ in range(10):
        near.send(BROADCAST)
        time.sleep(0.1)
    came, end = 0, time.monotonic() + 2
    while time.monotonic() < end:
        came += far.receive(0.2) == BROADCAST
    count = frames(run) - before
    rows.row(part, "10 broadcasts, copies received", came, came == 10)
    rows.row(part, "frames that entered meanwhile, BPDUs too: at most 60", count, count <= 60)
    near.close()
    far.close()


def fail_rows(rows, part, run, one, two, cases):
    """Disables an interface of a bridge under pings, and enables it again. A case has the bridge, the interface and the
    most seconds without an answer. Pings the other way let bridges learn the new path."""
    for name, namespace, interface, limit in cases:
        pings = Pings(run.folder, one, TWO, 100 * (limit + 3))
        back = Pings(run.folder, two, ONE, 10 * (limit + 3), 0.1)
        time.sleep(1)
        shell("ip", "link", "set", interface, "down", namespace=namespace)
        pings.end()
        back.end()
        shell("ip", "link", "set", interface, "up", namespace=namespace)
        rows.row(part, f"{name}: at most {limit} s", f"{pings.gap() / 1000:.2f} s", pings.gap() < 1000 * limit)
        rows.row(part, f"{name}: pings twice", pings.twice, pings.twice == 0)
        answered(one, TWO, 60)
        time.sleep(limit)


def linux_bridge(number):
    """Adds a Linux bridge with STP, with the shortest times, at its ports of both services. Returns its namespace."""
    name = f"b{number}"
    sandbox.add_namespace(name)
    times = f"forward_delay 200 hello_time 100 max_age 600 priority {4096 * number}"
    shell(*f"ip link add br0 type bridge stp_state 1 {times}".split(), namespace=name)
    for port in (number, number + 2):
        sandbox.add_vxlan(f"vx{port}", port, name)
        shell("ip", "link", "set", f"vx{port}", "master", "br0", namespace=name)
    shell("ip", "addr", "add", f"10.1.0.{number}/24", "dev", "br0", namespace=name)
    shell("ip", "link", "set", "br0", "up", namespace=name)
    return name


def linux_states(names):
    """Returns the state of each port of the bridges."""
    return {
        link["ifname"]: link["state"]
        for name in names
        for link in json.loads(shell("bridge", "-j", "link", "show", namespace=name))
    }


def wait_for_tree(states, seconds):
    """Waits until one port blocks and all others forward. Returns the states."""
    end = time.monotonic() + seconds
    while sorted(found := states().values()) != ["blocking"] + 3 * ["forwarding"] and time.monotonic() < end:
        time.sleep(0.2)
    return sorted(found)


def stp(rows, quick):
    """two Linux bridges with STP, joined by two services: one port blocks, no storm, failures"""
    with network(rows, JOINED) as (run,):
        names = [linux_bridge(1), linux_bridge(2)]
        try:
            found = wait_for_tree(lambda: linux_states(names), 40)
            rows.row("stp", "port states", ", ".join(found), found == ["blocking"] + 3 * ["forwarding"])
            answered(names[0], TWO, 30)
            storm_rows(rows, "stp", run, *names)
            cases = [("the other bridge's Root port fails", "b2", "vx2", 12)]
            if not quick:
                cases += [("the root's port fails, seen by max age", "b1", "vx1", 20)]
            fail_rows(rows, "stp", run, *names, cases)
        finally:
            sandbox.remove(*names)


class Switch:
    """A userspace Open vSwitch in a namespace of its own, whose bridge br0 has an address."""

    def __init__(self, folder, name, number):
        self.name, self.path = name, folder.path / f"ovs-{name}"
        self.path.mkdir()
        keys = ("OVS_RUNDIR", "OVS_LOGDIR", "OVS_DBDIR", "OVS_SYSCONFDIR")
        self.environment = {**os.environ, **{key: str(self.path) for key in keys}}
        self.database = f"unix:{self.path}/db.sock"
        sandbox.add_namespace(name)
        common.output("ovsdb-tool", "create", self.path / "conf.db", SCHEMA)
        self.start(folder, "ovsdb-server", self.path / "conf.db", f"--remote=p{self.database}", "--pidfile")
        common.wait_for(self.path / "db.sock")
        self.vsctl("--no-wait", "init")
        self.start(folder, "ovs-vswitchd", "--disable-system", "--pidfile", self.database)
        common.wait_for(self.path / "ovs-vswitchd.pid")
        self.add_bridge("br0", f"02:00:00:00:06:{number:02x}")
        shell("ip", "addr", "add", f"10.1.0.{number}/24", "dev", "br0", namespace=name)
        shell("ip", "link", "set", "br0", "up", namespace=name)

    def start(self, folder, *words):
        folder.start("ip", "netns", "exec", self.name, *words, env=self.environment)

    def vsctl(self, *words):
        return common.output("ovs-vsctl", f"--db={self.database}", "--timeout=20", *words, env=self.environment)

    def add_bridge(self, name, address):
        words = ["add-br", name, "--", "set", "bridge", name, "datapath_type=netdev", "fail-mode=standalone"]
        self.vsctl(*words, f"other-config:hwaddr={address}")

    def states(self):
        """Returns the state of each VXLAN interface in the tree, in the words of Linux."""
        found = {}
        for name in self.vsctl("list-ports", "br0").split():
            state = self.vsctl("get", "port", name, "rstp_status:rstp_port_state").strip().strip('"').lower()
            found[name] = "blocking" if state == "discarding" else state
        return found


def joined_switch(folder, number):
    """Starts Open vSwitch with RSTP at its ports of both services."""
    switch = Switch(folder, f"o{number}", number)
    switch.vsctl("set", "bridge", "br0", "rstp_enable=true", f"other_config:rstp-priority={4096 * number}")
    for port in (number, number + 2):
        sandbox.add_vxlan(f"vx{port}", port, switch.name)
        switch.vsctl("add-port", "br0", f"vx{port}")
    return switch


def rstp(rows, quick):
    """two Open vSwitch bridges with RSTP, joined by two services: one port blocks, no storm, failures"""
    sandbox.need("ovs-vsctl")
    with network(rows, JOINED) as (run,):
        one, two = (joined_switch(run.folder, number) for number in (1, 2))
        try:
            found = wait_for_tree(lambda: {**one.states(), **two.states()}, 60)
            rows.row("rstp", "port states", ", ".join(found), found == ["blocking"] + 3 * ["forwarding"])
            answered(one.name, TWO, 30)
            storm_rows(rows, "rstp", run, one.name, two.name)
            cases = [("the other bridge's Root port fails", "o2", "vx2", 3)]
            if not quick:
                cases += [("the root's port fails, seen by three hellos", "o1", "vx1", 10)]
            fail_rows(rows, "rstp", run, one.name, two.name, cases)
        finally:
            sandbox.remove(one.name, two.name)


def vtep(rows, _):
    """Open vSwitch's own VXLAN interface in its userspace datapath"""
    sandbox.need("ovs-vsctl")
    ports = [(1, 1, "lan"), (5, 2, "lan", "10.9.3.1", "10.9.3.2")]
    shell(*"ip netns add o5-outside".split())
    shell(*f"ip link add v5 mtu 2100 netns {sandbox.CORE} type veth peer name v5 mtu 2100 netns o5-outside".split())
    shell(*"ip addr add 10.9.3.1/24 dev v5".split(), namespace=sandbox.CORE)
    shell(*"ip link set v5 up".split(), namespace=sandbox.CORE)
    shell(*"ethtool -K v5 tx off".split(), namespace=sandbox.CORE)
    with network(rows, ports, hosts=(1,)) as (run, one):
        switch = Switch(run.folder, "o5", 5)
        try:
            shell(*"ip link set v5 netns o5".split(), namespace="o5-outside")
            shell(*"ip link set v5 up".split(), namespace="o5")
            switch.add_bridge("phy", "02:00:00:00:06:f5")
            switch.vsctl("add-port", "phy", "v5")
            shell(*"ip addr add 10.9.3.2/24 dev phy".split(), namespace="o5")
            shell(*"ip link set phy up".split(), namespace="o5")
            words = "options:local_ip=10.9.3.2 options:remote_ip=10.9.3.1 options:dst_port=4805 options:key=5".split()
            switch.vsctl("add-port", "br0", "vx5", "--", "set", "interface", "vx5", "type=vxlan", *words)
            pings = answered("o5", ONE, 30) is not None and Pings(run.folder, "o5", ONE, 100).end()
            came = f"{len(pings.answers) if pings else 0} of 100"
            rows.row("vtep", "pings answered", came, came == "100 of 100")
        finally:
            sandbox.remove("o5", "o5-outside")


PARTS = (stp, rstp, vtep)
