"""A network of its own for a script: namespaces, hosts with VXLAN interfaces, and raw frames.

The script runs again in new namespaces of the network, of mounts and of processes. What it creates there, its files
below /run too, ends with it, even after SIGKILL. Without root a user namespace is added.
"""

import contextlib
import ctypes
import os
import pathlib
import select
import signal
import socket
import struct
import subprocess
import sys
import time

import common

# The namespace of pbnet, and the two ends of the pair of interfaces between it and the hosts' side.
CORE, PROVIDER, CUSTOMER = "pb", "10.9.0.1", "10.9.0.2"
PACKAGES = {
    "busybox": "busybox-static",
    "cpio": "cpio",
    "ethtool": "ethtool",
    "ip": "iproute2",
    "iperf3": "iperf3",
    "ovs-vsctl": "openvswitch-switch",
    "ping": "iputils-ping",
    "qemu-system-x86_64": "qemu-system-x86",
    "tcpdump": "tcpdump",
    "vde_plug": "vdeplug",
    "vde_switch": "vde-switch",
}
MARK = "PBNET_SANDBOX"


def need(*programs):
    """Ends with an error that names the Debian package of each program that is missing."""
    lacking = [name for name in programs if subprocess.run(["which", name], stdout=subprocess.DEVNULL).returncode]
    if lacking:
        sys.exit(f"error: {', '.join(lacking)}: try apt-get install {' '.join(PACKAGES[name] for name in lacking)}")


def die_with_parent():
    """Lets the kernel end this process when its parent ends (PR_SET_PDEATHSIG)."""
    ctypes.CDLL(None).prctl(1, signal.SIGKILL)


def enter():
    """Runs the script again in namespaces of its own, and prepares these. Returns only there.

    The outer process ends with the inner one's status. A signal, and its own end, end all inner processes.
    """
    if os.environ.get(MARK) != "1":
        words = ["unshare", "--net", "--mount", "--pid", "--fork", "--kill-child", "--mount-proc"]
        words += [] if os.geteuid() == 0 else ["--map-root-user"]
        inner = subprocess.Popen(
            [*words, sys.executable, *sys.argv], env={**os.environ, MARK: "1"}, preexec_fn=die_with_parent
        )
        for number in (signal.SIGINT, signal.SIGTERM, signal.SIGHUP):
            signal.signal(number, lambda *_: inner.kill())
        status = inner.wait()
        sys.exit(status if status >= 0 else 128 - status)
    shell("mount", "-t", "tmpfs", "sandbox", "/run")
    os.mkdir("/run/netns")
    os.environ["TMPDIR"] = "/run"
    shell("ip", "link", "set", "lo", "up")


def shell(*words, namespace=None):
    """Runs a command, in a namespace if one is named. Returns its output. Raises RuntimeError if it fails."""
    prefix = ["ip", "netns", "exec", namespace] if namespace else []
    done = subprocess.run([*prefix, *map(str, words)], stdout=subprocess.PIPE, stderr=subprocess.STDOUT, check=False)
    text = done.stdout.decode("utf-8", "replace")
    if done.returncode:
        raise RuntimeError(f"{' '.join(map(str, words))}: {text.strip()}")
    return text


def add_namespace(name):
    """Adds a namespace without IPv6, whose neighbour discovery would add frames."""
    shell("ip", "netns", "add", name)
    shell("sysctl", "-qw", "net.ipv6.conf.all.disable_ipv6=1", "net.ipv6.conf.default.disable_ipv6=1", namespace=name)
    shell("ip", "link", "set", "lo", "up", namespace=name)


def add_core():
    """Adds the namespace in which pbnet runs, and the pair of interfaces to it.

    `tx off`: between two namespaces of one machine nobody computes checksums unless the interface has to.
    """
    add_namespace(CORE)
    shell(*"ip link add pb0 mtu 2100 type veth peer name pb1 mtu 2100 netns".split(), CORE)
    shell(*f"ip addr add {CUSTOMER}/24 dev pb0".split())
    shell(*"ip link set pb0 up".split())
    shell(*"ethtool -K pb0 tx off".split())
    shell(*f"ip addr add {PROVIDER}/24 dev pb1".split(), namespace=CORE)
    shell(*"ip link set pb1 up".split(), namespace=CORE)


def add_vxlan(name, number, namespace, vni=None, local=CUSTOMER):
    """Adds a VXLAN interface to the customer port of this number."""
    words = f"ip link add {name} address 02:00:00:00:07:{number:02x} type vxlan id {number if vni is None else vni}"
    shell(*words.split(), "local", local, "remote", PROVIDER, "dstport", 4800 + number)
    shell("ip", "link", "set", name, "netns", namespace)
    shell("ip", "link", "set", name, "up", namespace=namespace)


def add_host(number, address=None, **more):
    """Adds the namespace and interface of a host at the customer port of this number. Returns its name."""
    name = f"h{number}"
    add_namespace(name)
    add_vxlan(f"vx{number}", number, name, **more)
    shell("ip", "addr", "add", address or f"10.1.0.{number}/24", "dev", f"vx{number}", namespace=name)
    return name


def remove(*namespaces):
    """Removes namespaces. Their VXLAN interfaces go first: else the kernel removes them at a later time."""
    for name in namespaces:
        for line in shell(*"ip -o link show type vxlan".split(), namespace=name).splitlines():
            shell("ip", "link", "del", line.split()[1].split("@")[0].rstrip(":"), namespace=name)
        shell("ip", "netns", "del", name)


def udp_port(name, bridge, number, service, local=PROVIDER, remote=CUSTOMER):
    """Returns the table of a customer port for VXLAN. Its VNI is its number, and its local port two more."""
    return (
        f'[[port]]\nname = "{name}"\nbridge = "{bridge}"\nport = {number + 2}\nservice = "{service}"\nqueue = 1024\n'
        f'kind = "udp"\nlocal = "{local}:{4800 + number}"\nremote = "{remote}:{4800 + number}"\nvni = {number}\n'
    )


@contextlib.contextmanager
def inside(namespace):
    """Lets this thread create sockets in a namespace."""
    here = os.open("/proc/thread-self/ns/net", os.O_RDONLY)
    there = os.open(f"/run/netns/{namespace}", os.O_RDONLY)
    setns = ctypes.CDLL(None, use_errno=True).setns
    try:
        if setns(there, 0):
            raise OSError(ctypes.get_errno(), f"cannot enter {namespace}")
        yield
    finally:
        setns(here, 0)
        os.close(here)
        os.close(there)


class Wire:
    """An interface's raw frames, with their C-tags."""

    AUXILIARY, HAS_TAG, OUTGOING = 8, 0x10, 4

    def __init__(self, namespace, interface):
        with inside(namespace):
            self.socket = socket.socket(socket.AF_PACKET, socket.SOCK_RAW, socket.htons(3))
        self.socket.setsockopt(socket.SOL_SOCKET, socket.SO_RCVBUF, 1 << 22)
        self.socket.setsockopt(263, self.AUXILIARY, 1)
        self.socket.bind((interface, 3))

    def send(self, frame):
        self.socket.send(frame)

    def receive(self, seconds=1.0):
        """Returns the next frame that enters, or None if none does within these seconds."""
        end = time.monotonic() + seconds
        while select.select([self.socket], [], [], max(0, end - time.monotonic()))[0]:
            frame, extra, _, sender = self.socket.recvmsg(65536, 256)
            if sender[2] == self.OUTGOING:
                continue
            for _, kind, data in extra:
                status, _, _, _, _, tag, tag_type = struct.unpack_from("=IIIHHHH", data)
                if kind == self.AUXILIARY and status & self.HAS_TAG:
                    frame = frame[:12] + struct.pack("!HH", tag_type or 0x8100, tag) + frame[12:]
            return frame
        return None

    def receive_until(self, wanted, seconds=1.0):
        """Returns whether this frame enters within these seconds."""
        end = time.monotonic() + seconds
        while (left := end - time.monotonic()) > 0:
            if self.receive(left) == wanted:
                return True
        return False

    def empty(self):
        while self.receive(0) is not None:
            pass

    def close(self):
        self.socket.close()


class Run:
    """`pbnet run` of a plan in the namespace CORE, with its control socket."""

    def __init__(self, folder, plan):
        self.path = pathlib.Path(folder.path) / "control"
        (folder.path / "plan.toml").write_text(plan)
        words = ["run", "--allow-network", "--control", self.path, "plan.toml"]
        self.process = folder.start(
            "ip", "netns", "exec", CORE, common.PROGRAM, *words, stdout=subprocess.PIPE, stderr=subprocess.PIPE
        )
        while not self.path.exists():
            if self.process.poll() is not None:
                raise RuntimeError(f"pbnet run: {b' '.join(self.process.communicate()).decode()}")
            time.sleep(0.05)

    def control(self, *words):
        """Returns the answer of the control socket."""
        return common.run("control", self.path, *words)[0]

    def stop(self):
        """Ends the run. Returns its report, and what it printed on standard error."""
        self.control("stop")
        return [text.decode("utf-8", "replace") for text in self.process.communicate(timeout=60)]
