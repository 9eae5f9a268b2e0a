#!/usr/bin/env python3
"""Runs each block of docs/ATTACH.md as it is, in namespaces of its own, and checks what it does.

usage: interop/attach.py [--keep FILE] [SECTION..]

A section is a heading of the page, or the beginning of one. The first two are always run. A block whose fence names a
machine runs there. The script adds what the page takes as given: a running Open vSwitch, two other machines, and what
two virtual machines boot, Debian's cloud kernel with busybox, in out/attach. --keep appends what the blocks print to
FILE.

Each section prints a line `ok NAME` or `FAILED NAME: WHY`. The last line is `N passed, M failed`, and the exit status
is 0 if M is 0. The program is ./pbnet, or that of the variable PBNET.
"""

import argparse
import os
import pathlib
import re
import shutil
import subprocess
import sys
import time

import common
import linux
import sandbox

PAGE = common.TOP / "docs" / "ATTACH.md"
KEPT = common.TOP / "out" / "attach"
SCHEMA = "/usr/share/openvswitch/vswitch.ovsschema"
FIRST = 2
LIMIT = 120
MODULES = "virtio_ring virtio virtio_pci_modern_dev virtio_pci_legacy_dev virtio_pci failover net_failover virtio_net"
BOOT = "console=ttyS0 quiet panic=-1 no_timer_check"
INIT = """#!/bin/busybox sh
/bin/busybox mkdir -p /proc /sys
/bin/busybox mount -t proc none /proc
/bin/busybox mount -t sysfs none /sys
for module in /modules/*.ko; do /bin/busybox insmod $module; done
/bin/busybox ip addr add {address}/24 dev eth0
/bin/busybox ip link set eth0 up
/bin/busybox ping -c 60 {peer}
/bin/busybox poweroff -f
"""


def sections():
    """Returns the title of each section of the page with its blocks: pairs of a machine's name, or "", and the text."""
    found = []
    for part in PAGE.read_text(encoding="utf-8").split("\n## ")[1:]:
        blocks = re.findall(r"(?ms)^```(\w*)\n(.*?)^```$", part)
        found.append((part.split("\n", 1)[0], blocks))
    return found


# What the page takes as given


def initrd(folder, modules, address, peer):
    """Makes the file system of a guest that pings its peer."""
    root = folder / f"root-{address}"
    shutil.rmtree(root, ignore_errors=True)
    for name in ("bin", "modules", "proc", "sys", "dev"):
        (root / name).mkdir(parents=True)
    shutil.copy("/bin/busybox", root / "bin" / "busybox")
    for place, module in enumerate(modules):
        shutil.copy(module, root / "modules" / f"{place}-{module.name}")
    (root / "init").write_text(INIT.format(address=address, peer=peer))
    (root / "init").chmod(0o755)
    names = "\n".join(str(path.relative_to(root)) for path in sorted(root.rglob("*")))
    packed = subprocess.run(
        ["cpio", "-o", "-H", "newc", "--quiet"], input=names.encode(), cwd=root, stdout=subprocess.PIPE, check=True
    )
    (folder / f"{address}.initrd").write_bytes(packed.stdout)


def fetch_guests():
    """Gets the guests' kernel. The namespaces have no way to the packages."""
    if not (KEPT / "kernel").exists():
        KEPT.mkdir(parents=True, exist_ok=True)
        linux.kernel(KEPT)


def guests(_):
    """Returns the variables GUEST1 and GUEST2: two guests that ping each other."""
    image = next((KEPT / "kernel" / "boot").glob("vmlinuz-*"))
    drivers = next((KEPT / "kernel" / "lib" / "modules").iterdir()) / "kernel"
    paths = [next(drivers.rglob(f"{name}.ko")) for name in MODULES.split()]
    folder = pathlib.Path("/run/guests")
    folder.mkdir()
    for one, two in ((1, 2), (2, 1)):
        initrd(folder, paths, f"10.1.0.{one}", f"10.1.0.{two}")
        (folder / f"{one}.conf").write_text(
            f'[machine]\nkernel = "{image}"\ninitrd = "{folder}/10.1.0.{one}.initrd"\nappend = "{BOOT}"\n'
        )
    return {f"GUEST{n}": f"-accel tcg -no-reboot -readconfig {folder}/{n}.conf" for n in (1, 2)}


def other_machines(_):
    """Adds two machines and a network between them and this one."""
    sandbox.shell(*"ip link add wan up type bridge".split())
    sandbox.shell(*"ip addr add 192.0.2.1/24 dev wan".split())
    for name, last in (("paris", 2), ("rome", 3)):
        sandbox.add_namespace(name)
        sandbox.shell(*f"ip link add {name} up master wan type veth peer name eth0 netns {name}".split())
        sandbox.shell(*f"ip addr add 192.0.2.{last}/24 dev eth0".split(), namespace=name)
        sandbox.shell(*"ip link set eth0 up".split(), namespace=name)
    return {}


def open_vswitch(folder):
    """Starts Open vSwitch where its tools look for it."""
    os.makedirs("/run/openvswitch")
    sandbox.shell("ovsdb-tool", "create", "/run/conf.db", SCHEMA)
    log = {"env": {**os.environ, "OVS_LOGDIR": "/run", "OVS_DBDIR": "/run"}}
    folder.start("ovsdb-server", "/run/conf.db", "--remote=punix:/run/openvswitch/db.sock", "--pidfile", **log)
    common.wait_for("/run/openvswitch/db.sock")
    sandbox.shell("ovs-vsctl", "--no-wait", "init")
    folder.start("ovs-vswitchd", "--disable-system", "--pidfile", **log)
    common.wait_for("/run/openvswitch/ovs-vswitchd.pid")
    return {}


# What must come of a section, besides that each command succeeds


def ring_fault(text, _):
    received = [int(count) for count in re.findall(r"500 packets transmitted, (\d+) received", text)]
    if not received or received[0] < 450:
        return f"of 500 pings {received} were answered while a link failed"
    return None if text.count(" forwarding") >= 3 else "no tree was printed"


def monitor_fault(text, folder):
    seen = (folder / "out" / "monitor.txt").read_text().count("10.1.0.1 > 10.1.0.2: ICMP echo request")
    return None if seen >= 15 and "ended drained" in text else f"{seen} echo requests left the second network"


def guests_fault(_, folder):
    end, told = time.monotonic() + 2 * LIMIT, ""
    while time.monotonic() < end:
        told = (folder / "out" / "guest1.txt").read_text(errors="replace")
        if told.count("bytes from 10.1.0.2") >= 5:
            return None
        time.sleep(0.5)
    return f"the guest received no answers: {told[-300:]!r}"


def switch_fault(text, folder):
    """Plugs a driver to the VDE switch, and asks a guest for its hardware address."""
    asked = bytes.fromhex("ffffffffffff0200000002010806000108000604000102000000020100000000000000000000" + "0a010001")
    with subprocess.Popen(
        ["vde_plug", f"vde://{folder}/out/switch"], stdin=subprocess.PIPE, stdout=subprocess.PIPE
    ) as plug:
        for _ in range(10):
            plug.stdin.write(len(asked).to_bytes(2, "big") + asked)
            plug.stdin.flush()
            time.sleep(0.2)
        plug.terminate()
        answers = plug.stdout.read()
    wanted = bytes.fromhex("0200000002010200000001010806")
    return None if wanted in answers else "the VDE switch has no answer of the first guest"


def machines_fault(text, folder):
    fault = guests_fault(text, folder) or switch_fault(text, folder)
    common.output(common.PROGRAM, "control", "out/machines.control", "stop", cwd=folder)
    return fault


# For each section that needs more: what is given, and what must come of it.
MORE = {
    "VXLAN on one machine": (None, ring_fault),
    "Open vSwitch": (open_vswitch, None),
    "tcpdump": (None, monitor_fault),
    "Another machine": (other_machines, None),
    "QEMU and VDE": (guests, machines_fault),
}


class Page:
    """The folder in which the blocks run, as a reader's clone, and the file with what they print."""

    def __init__(self, folder, keep):
        self.folder, self.keep, self.environment, self.count = folder, keep, dict(os.environ), 0
        (folder.path / "examples").symlink_to(common.TOP / "examples")
        (folder.path / "pbnet").symlink_to(common.PROGRAM)

    def run(self, machine, block):
        """Runs a block. Returns what it prints, and why it fails, or None."""
        words = [*(["ip", "netns", "exec", machine] if machine else []), "bash", "-e", "-o", "pipefail", "-c", block]
        self.count += 1
        log = self.folder.path / f"log-{self.count}"
        with log.open("a") as file:
            process = self.folder.start(*words, stdout=file, stderr=subprocess.STDOUT, env=self.environment)
            try:
                status = process.wait(LIMIT)
            except subprocess.TimeoutExpired:
                status = f"none within {LIMIT} seconds"
        text = log.read_text(errors="replace")
        if self.keep:
            with open(self.keep, "a", encoding="utf-8") as file:
                file.write(f"$ {block}{text}\n")
        return text, None if status == 0 else f"status {status} of `{block.splitlines()[0]} ..`: {text[-400:].strip()}"

    def fault(self, title, blocks):
        """Returns why a section fails, or None."""
        given, wanted = MORE.get(title, (None, None))
        if given:
            self.environment.update(given(self.folder))
        printed = ""
        for machine, block in blocks:
            text, why = self.run(machine, block)
            printed += text
            if why:
                return why
        return wanted(printed, self.folder.path) if wanted else None


def arguments():
    reader = argparse.ArgumentParser(description=__doc__.split("\n", 1)[0])
    reader.add_argument("--keep", metavar="FILE")
    reader.add_argument("section", nargs="*")
    chosen = reader.parse_args()
    unknown = [it for it in chosen.section if not any(title.startswith(it) for title, _ in sections())]
    if unknown:
        reader.error(f"no section begins with {unknown[0]}")
    return chosen


def main():
    chosen = arguments()
    titles = [title for title, blocks in sections() if blocks]
    wanted = [it for it in titles if not chosen.section or it.startswith(tuple(chosen.section))]
    sandbox.need("ip", "ethtool", "ping", "tcpdump")
    if "Open vSwitch" in wanted:
        sandbox.need("ovs-vsctl")
    if "QEMU and VDE" in wanted:
        sandbox.need("qemu-system-x86_64", "vde_switch", "vde_plug", "cpio", "busybox")
        fetch_guests()
    sandbox.enter()
    passed = failed = 0
    with common.Folder() as folder:
        page = Page(folder, chosen.keep)
        for place, (title, blocks) in enumerate(sections()):
            if not blocks or (place >= FIRST and title not in wanted):
                continue
            why = page.fault(title, blocks)
            passed, failed = passed + (why is None), failed + (why is not None)
            print(f"ok {title}" if why is None else f"FAILED {title}: {why}", flush=True)
    print(f"{passed} passed, {failed} failed")
    sys.exit(1 if failed else 0)


if __name__ == "__main__":
    main()
