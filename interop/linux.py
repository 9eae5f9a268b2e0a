#!/usr/bin/env python3
"""The Linux kernel's 802.1ad bridge beside `pbnet step`, in a virtual machine under software emulation.

The machine runs the kernel of Debian's cloud image. Its file system has a small program, busybox and iproute2. All rows
run in one boot.
"""

import os
import re
import shutil
import subprocess

import common

MODULES = "net/llc/llc net/802/stp net/bridge/bridge net/802/garp net/802/mrp net/8021q/8021q drivers/net/veth".split()

INIT = """#!/bin/busybox sh
/bin/busybox mkdir -p /proc /sys
/bin/busybox mount -t proc none /proc
/bin/busybox mount -t sysfs none /sys
for module in /modules/*.ko; do /bin/busybox insmod $module; done
/bin/ip link add br0 type bridge vlan_filtering 1 vlan_protocol 802.1ad vlan_default_pvid 0 mcast_snooping 0 \\
    ageing_time 1000
/bin/ip link set br0 mtu 2000
for name in c1 c2 c3 t1; do
    /bin/ip link add $name mtu 2000 type veth peer name out-$name mtu 2000
    /bin/ip link set $name master br0
done
for name in c1 c2; do /bin/bridge vlan add dev $name vid 100 pvid untagged; done
/bin/bridge vlan add dev c3 vid 200 pvid untagged
/bin/bridge vlan add dev t1 vid 100
/bin/bridge vlan add dev t1 vid 200
for name in c1 c2 c3 t1; do /bin/ip link set $name up; /bin/ip link set out-$name up; done
/bin/ip link set br0 up
/bin/busybox sleep 1
/bin/bridge vlan show
/bin/busybox echo begin
/frames </script
/bin/busybox echo end
/bin/busybox poweroff -f
"""

PLAN = """
[network]
ageing = 10
[[bridge]]
name = "A"
address = "02-00-00-00-00-aa"
[[bridge]]
name = "B"
address = "02-00-00-00-00-bb"
[[link]]
name = "L"
a = "A"
a_port = 1
b = "B"
b_port = 1
[[service]]
name = "red"
vid = 100
[[service]]
name = "blue"
vid = 200
[[service]]
name = "green"
vid = 300
"""

# The customer ports of the plan: c1, c2 and c3 at A, and those at B whose frames enter A over the link, which is t1.
CUSTOMERS = [("c1", "A", 2, "red"), ("c2", "A", 3, "red"), ("c3", "A", 4, "blue")]
CUSTOMERS += [("b100", "B", 2, "red"), ("b200", "B", 3, "blue"), ("b300", "B", 4, "green")]
AT = {"c1": 2, "c2": 3, "c3": 4, "t1": 1}

TO, ONE, TWO = "ffffffffffff", "020000000001", "020000000002"

TAKES = "Linux takes a customer's S-tag as its own if the port is a member; pbnet refuses it"
ELIGIBLE = "Linux keeps the drop eligibility of a priority S-tag; in pbnet it is 0"
GROUP = "Linux drops a frame whose source is a group; pbnet carries it, and does not learn the source"
BELOW = "Linux carries any tag after a priority S-tag; pbnet refuses an S-tag there"


class Row:
    """A frame that enters at a port after some seconds, and the reason of a listed difference."""

    def __init__(self, name, port, frame, reason=None, seconds=0):
        self.name, self.port, self.frame, self.reason, self.seconds = name, port, frame, reason, seconds


def worked_rows():
    """Returns frames of each kind at customer ports and at the link. Each has another source, which no bridge knows."""
    kinds = [
        ("untagged", "c1", "88b50102", None),
        ("customer tag, VID 5", "c1", "8100600588b50102", None),
        ("customer priority tag", "c1", "8100a00088b50102", None),
        ("tag of type 9100", "c1", "9100006488b5", None),
        ("length and LLC", "c1", "0003424203", None),
        ("no data", "c1", "88b5", None),
        ("1,496 octets", "c1", "88b5" + "5a" * 1482, None),
        ("1,992 octets", "c1", "88b5" + "5a" * 1978, None),
        ("priority S-tag, priority 5", "c1", "88a8a00088b50102", None),
        ("priority S-tag, priority 7, then a customer tag", "c1", "88a8e0008100600588b50102", None),
        ("priority S-tag, drop eligible", "c1", "88a8b00088b50102", ELIGIBLE),
        ("S-tag of its own service", "c1", "88a8006488b50102", TAKES),
        ("S-tag of another service", "c1", "88a800c888b50102", None),
        ("priority S-tag, then an S-tag", "c1", "88a8a00088a800c888b50102", BELOW),
        ("in the other service", "c3", "88b50102", None),
        ("by the link, VID 100", "t1", "88a8006488b50102", None),
        ("by the link, VID 100, priority 6", "t1", "88a8c06488b50102", None),
        ("by the link, VID 200", "t1", "88a800c888b50102", None),
        ("by the link, VID 100, then a customer tag", "t1", "88a800648100600588b50102", None),
        ("by the link, VID 300, which no port has", "t1", "88a8012c88b50102", None),
    ]
    return [
        Row(name, port, f"{TO}0200000001{place:02x}{rest}", reason)
        for place, (name, port, rest, reason) in enumerate(kinds)
    ]


def reserved_rows():
    return [Row(f"to -{octet:02X}", "c1", f"0180c20000{octet:02x}02000000020088b50102") for octet in range(16)]


def learning_rows():
    """Returns frames of stations that bridges learn for each VID, that move, and that age out after ten seconds."""
    return [
        Row("to an unknown station", "c1", TWO + ONE + "88b501"),
        Row("its reply from c2, to a known station", "c2", ONE + TWO + "88b502"),
        Row("to the known station", "c1", TWO + ONE + "88b503"),
        Row("to the same address in the other service, by the link", "t1", TWO + "02000000000388a800c888b50404"),
        Row("to a station at the port of entry", "c2", TWO + "02000000000488b505"),
        Row("from the station after it has moved to the link", "t1", TO + TWO + "88a8006488b50606"),
        Row("to the moved station", "c1", TWO + ONE + "88b507"),
        Row("from a group address", "c1", TO + "03000000000588b508", GROUP),
        Row("to the moved station, after six seconds", "c1", TWO + ONE + "88b509", seconds=6),
        Row("to the moved station, after fourteen seconds", "c1", TWO + ONE + "88b50a", seconds=8),
        Row("to a group", "c2", "01005e000001" + TWO + "080045"),
    ]


# pbnet


def our_plan():
    plan = PLAN
    for name, bridge, port, service in CUSTOMERS:
        plan += f'[[port]]\nname = "{name}"\nbridge = "{bridge}"\nport = {port}\nservice = "{service}"\n'
    return plan


def our_lines(row):
    """Returns the script lines that bring a frame to a port of A and send what leaves A."""
    if row.port == "t1":
        vid, priority = int(row.frame[28:32], 16) & 4095, int(row.frame[28], 16) >> 1
        bare = row.frame[:24] + (f"88a8{priority << 1:x}000" if priority else "") + row.frame[32:]
        port = {100: 2, 200: 3, 300: 4}[vid]
        enters = [
            f"poll b{vid} {bare}",
            f"feed b{vid}",
            f"receive B {port}",
            "transmit B 1",
            "take L ba",
            "put L ba",
            "receive A 1",
        ]
    else:
        enters = [f"poll {row.port} {row.frame}", f"feed {row.port}", f"receive A {AT[row.port]}"]
    return (
        ["tick A"] * row.seconds
        + enters
        + [f"transmit A {port}" for port in AT.values()]
        + ["take L ab", "put L ab", "receive B 1"]
    )


def ours(rows):
    """Returns for each row the frames that leave each port of A."""
    script = [line for row in rows for line in our_lines(row)]
    with common.Folder() as folder:
        (folder.path / "plan.toml").write_text(our_plan())
        lines = common.run("step", folder.path / "plan.toml", given="\n".join(script).encode())[0].split("\n")
    frames, start = [], 0
    for row in rows:
        count = len(our_lines(row))
        answers = lines[start : start + count][-7:-3]
        frames.append({port: answer[5:] for port, answer in zip(AT, answers) if answer.startswith("sent ")})
        start += count
    return frames


# Linux


def kernel(folder):
    """Unpacks Debian's newest cloud kernel. Returns its image, its modules in order of loading, and its release."""
    names = re.findall(
        r"linux-image-[0-9.-]+-cloud-amd64", common.output("apt-cache", "depends", "linux-image-cloud-amd64")
    )
    common.output("apt-get", "download", "-q", names[0], cwd=folder)
    package = next(folder.glob("linux-image-*.deb"))
    common.output("dpkg-deb", "-x", package, folder / "kernel")
    found = next((folder / "kernel" / "lib" / "modules").iterdir())
    return (
        next((folder / "kernel" / "boot").glob("vmlinuz-*")),
        [found / "kernel" / f"{name}.ko" for name in MODULES],
        found.name,
    )


def copy_with_libraries(program, root):
    """Copies a program and its libraries, each to its path."""
    wanted = [program] + re.findall(r"(/[^ ]+) \(0x", common.output("ldd", program))
    for path in wanted:
        target = root / path.lstrip("/")
        target.parent.mkdir(parents=True, exist_ok=True)
        shutil.copy(os.path.realpath(path), target)


def file_system(folder, modules, script):
    root = folder / "root"
    for name in ("bin", "modules", "proc", "sys", "dev"):
        (root / name).mkdir(parents=True)
    shutil.copy("/bin/busybox", root / "bin" / "busybox")
    for name in ("ip", "bridge"):
        copy_with_libraries(os.path.realpath(shutil.which(name, path="/sbin:/bin:/usr/sbin:/usr/bin")), root)
        (root / "bin" / name).unlink(missing_ok=True)
        shutil.copy(os.path.realpath(shutil.which(name, path="/sbin:/bin:/usr/sbin:/usr/bin")), root / "bin" / name)
    for place, module in enumerate(modules):
        shutil.copy(module, root / "modules" / f"{place}-{module.name}")
    common.output("gcc", "-O1", "-static", "-o", root / "frames", common.TOP / "interop" / "frames.c")
    (root / "script").write_text(script)
    (root / "init").write_text(INIT)
    (root / "init").chmod(0o755)
    names = "\n".join(str(path.relative_to(root)) for path in sorted(root.rglob("*")))
    packed = subprocess.run(
        ["cpio", "-o", "-H", "newc", "--quiet"], input=names.encode(), cwd=root, stdout=subprocess.PIPE, check=True
    )
    (folder / "initrd").write_bytes(packed.stdout)
    return folder / "initrd"


def their_script(rows):
    lines = [f"at out-{name}" for name in AT] + ["wait 2000"]
    for place, row in enumerate(rows):
        lines += [f"wait {1000 * row.seconds}"] * bool(row.seconds)
        lines += [f"say row {place}", f"send out-{row.port} {row.frame}", "wait 250"]
    return "\n".join(lines) + "\n"


def boot(folder, rows):
    """Returns what the machine prints on its console, and the release of its kernel."""
    image, modules, release = kernel(folder)
    initrd = file_system(folder, modules, their_script(rows))
    words = ["qemu-system-x86_64", "-m", "256", "-nographic", "-no-reboot", "-kernel", image, "-initrd", initrd]
    words += ["-append", "console=ttyS0 quiet panic=-1 ipv6.disable=1 rdinit=/init"]
    return common.output(*words, stdin=subprocess.DEVNULL, timeout=900), release


def theirs(console, rows):
    frames = [{} for _ in rows]
    place = None
    for line in console.replace("\r", "").split("\n"):
        words = line.split(" ")
        if words[0] == "row" and len(words) == 2:
            place = int(words[1])
        elif place is not None and words[0].startswith("out-") and len(words) == 2:
            port = words[0][4:]
            frames[place][port] = (frames[place][port] + " and " if port in frames[place] else "") + words[1]
    return frames


# Tables


def shown(frames):
    """Returns a short text of what leaves each port, from the type field on."""
    parts = []
    for port, frame in sorted(frames.items()):
        rest = frame[24:]
        parts.append(f"{port} {rest[:24]}{'...' if len(rest) > 24 else ''} ({len(frame) // 2})")
    return ", ".join(parts) or "nothing"


def main():
    groups = [
        ("worked rows", worked_rows()),
        ("reserved addresses", reserved_rows()),
        ("learning, moving, ageing", learning_rows()),
    ]
    rows = [row for _, group in groups for row in group]
    with common.Folder() as folder:
        console, release = boot(folder.path, rows)
    if "begin" not in console or "end" not in console:
        print(console)
        raise SystemExit("error: the virtual machine did not finish; its console is above")
    here, there = ours(rows), theirs(console, rows)
    tables = []
    for title, group in groups:
        tables.append(common.Table(f"Linux {release}: {title}"))
        for row in group:
            place = rows.index(row)
            is_alike = here[place] == there[place]
            texts = (shown(here[place]), shown(there[place]))
            if not is_alike and texts[0] == texts[1]:
                texts = (str(here[place]), str(there[place]))
            tables[-1].row(f"{row.port}: {row.name}", *texts, row.reason)
    common.finish(*tables)


if __name__ == "__main__":
    main()
