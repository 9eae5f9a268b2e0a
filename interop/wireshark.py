#!/usr/bin/env python3
"""Compares pbnet with Wireshark's programs: they read its captures, tags and BPDUs, and it reads their captures."""

import json
import shutil
import sys

import captures
import common
import generate
import random
import second_network
from second_plan import read_plan
from second_tree import Message

TREE_FIELDS = (
    "stp.protocol stp.version stp.type stp.flags.tc stp.flags.proposal stp.flags.port_role stp.flags.learning "
    "stp.flags.forwarding stp.flags.agreement stp.flags.tcack stp.root.prio stp.root.ext stp.root.hw stp.root.cost "
    "stp.bridge.prio stp.bridge.ext stp.bridge.hw stp.port stp.msg_age stp.max_age stp.hello stp.forward "
    "stp.version_1_length"
).split()


# The programs of Wireshark


def tshark(path, *words):
    return common.output("tshark", "-n", "-r", path, *words)


def decoded(path, fields):
    """Returns a list of texts for each frame, by fields."""
    words = [word for name in fields for word in ("-e", name)]
    text = tshark(path, "-T", "fields", "-E", "occurrence=a", *words)
    return [line.split("\t") for line in text.split("\n") if "\t" in line]


def raw_frames(path):
    """Returns the octets of each frame as tshark reads them."""
    text = tshark(path, "-T", "jsonraw")
    start = text.index("[")
    packets = json.JSONDecoder().raw_decode(text[start:])[0]
    return [bytes.fromhex(packet["_source"]["layers"]["frame_raw"][0]) for packet in packets]


def info(path):
    """Returns what capinfos prints: type, encapsulation and number of packets."""
    text = common.output("capinfos", "-M", "-t", "-E", "-c", path)
    values = dict(line.split(":", 1) for line in text.splitlines() if ":" in line)
    return ", ".join(values.get(key, "?").strip() for key in ("File type", "File encapsulation", "Number of packets"))


def malformed(path):
    """Returns how many frames tshark marks as malformed."""
    numbers = tshark(path, "-Y", "_ws.malformed", "-T", "fields", "-e", "frame.number").split("\n")
    return sum(line.isdigit() for line in numbers)


# pbnet


def run_wire(folder, near, far):
    """Runs a bridge with two ports of one service. Returns its report."""
    (folder / "plan.toml").write_text(captures.WIRE.format(near=near, far=far))
    return common.run("run", "plan.toml", cwd=folder)


def through(folder, read):
    """Returns the report of a run that carries a capture from one port to another, its status, and the frames that leave."""
    (folder / "none.pcap").write_bytes(captures.pcap([]))
    near, far = captures.capture_port(read, "near.pcap"), captures.capture_port("none.pcap", "far.pcap")
    text, status = run_wire(folder, near, far)
    return text, status, captures.frames_of((folder / "far.pcap").read_bytes())


def sent(plan, script):
    """Returns what the ports send in `step`, in order."""
    return [bytes.fromhex(line[5:]) for line in plan_output(plan, script) if line.startswith("sent ")]


def plan_output(plan, script):
    with common.Folder() as folder:
        (folder.path / "plan.toml").write_text(plan)
        return common.run("step", folder.path / "plan.toml", given=script.encode())[0].split("\n")


# Rows


def example_rows(table, folder):
    """The captures that the examples write and read."""
    shutil.copytree(common.TOP / "examples", folder / "examples")
    (folder / "out").mkdir()
    for name in ("record", "captures"):
        common.run("run", f"examples/{name}.toml", cwd=folder)
    for path in sorted((folder / "out").glob("*.pcap")) + sorted((folder / "examples" / "captures").glob("*.pcap")):
        octets = path.read_bytes()
        if not octets:
            continue
        frames = captures.frames_of(octets)
        name = f"`{path.parent.name}/{path.name}`"
        table.row(f"{name}, capinfos", f"pcap, ether, {len(frames)}", info(path))
        table.row(
            f"{name}, octets of {len(frames)} frames", frames == captures.frames_of(octets), raw_frames(path) == frames
        )


def length_rows(table, folder):
    """Every length of a frame: written by pbnet and read by tshark, written by editcap and read by pbnet."""
    frames = [captures.frame(length) for length in captures.LENGTHS]
    (folder / "none.pcap").write_bytes(captures.pcap([]))
    far = captures.capture_port("none.pcap", "lengths.pcap")
    report, _ = run_wire(folder, captures.memory_port(frames), far)
    table.row(
        "frames of 14 to 1,992 octets, in the report",
        f"left {len(frames)}",
        report.split("port far entered 0 ")[1].split(" filtered")[0],
    )
    table.row("frames of 14 to 1,992 octets, by tshark", digest(frames), digest(raw_frames(folder / "lengths.pcap")))
    common.output("editcap", "-F", "pcap", "lengths.pcap", "theirs.pcap", cwd=folder)
    _, status, left = through(folder, "theirs.pcap")
    table.row(
        "the same written by editcap, through `run`", f"{digest(frames)}, exit 0", f"{digest(left)}, exit {status}"
    )


def digest(frames):
    """Returns a short text of frames."""
    total = sum(sum(frame) * (place + 1) for place, frame in enumerate(frames)) % 999983
    return f"{len(frames)} frames, {sum(map(len, frames))} octets, sum {total}"


TAGGED = """
[[bridge]]
name = "A"
address = "02-00-00-00-00-01"
[[bridge]]
name = "B"
address = "02-00-00-00-00-02"
[[link]]
name = "L"
a = "A"
a_port = 1
b = "B"
b_port = 1
"""


def tag_plan(vids):
    plan = TAGGED
    for place, vid in enumerate(vids):
        plan += f'[[service]]\nname = "s{vid}"\nvid = {vid}\n'
        plan += f'[[port]]\nname = "c{vid}"\nbridge = "A"\nport = {place + 2}\nservice = "s{vid}"\n'
    return plan


def tag_rows(table, folder):
    """Each priority in services of several VIDs: the tag that crosses a link, as tshark reads it."""
    vids, script, want = [1, 2, 100, 1365, 2730, 4093, 4094], [], []
    for place, vid in enumerate(vids):
        for priority in range(8):
            tag = f"88a8{priority << 1:x}000" if priority else ""
            script += [f"poll c{vid} ffffffffffff020000000001{tag}88b5{priority:02x}{vid:04x}", f"feed c{vid}"]
            script += [f"receive A {place + 2}", "transmit A 1", "take L ab"] + ["put L ab"]
            want.append([str(priority), "0", str(vid), "0x88b5", f"{priority:02x}{vid:04x}"])
    frames = sent(tag_plan(vids), "\n".join(script) + "\n")
    (folder / "tags.pcap").write_bytes(captures.pcap(frames))
    fields = ["ieee8021ad.priority", "ieee8021ad.dei", "ieee8021ad.id", "ieee8021ah.etype", "data.data"]
    got = decoded(folder / "tags.pcap", fields)
    for place, (one, two) in enumerate(zip(want, got)):
        if place % 8 in (0, 5):
            table.row(f"VID {one[2]}, priority {one[0]}: PCP, DEI, VID, type, data", " ".join(one), " ".join(two))
    table.row("8 priorities in 7 services: those alike", len(want), sum(one == two for one, two in zip(want, got)))
    types = {row[0] for row in decoded(folder / "tags.pcap", ["eth.type", "frame.number"])}
    table.row("type of the tag", "0x88a8", " ".join(sorted(types)))
    table.row("malformed marks", 0, malformed(folder / "tags.pcap"))


def messages_of(plan, script):
    """Returns the BPDUs that the second implementation sends, with their sources."""
    network, messages = second_network.Network(read_plan(plan.encode())), []
    for bridge in network.bridges.values():
        keep = bridge.octets

        def octets(wire, keep=keep, source=bridge.address):
            if isinstance(wire, Message):
                messages.append((wire, source))
            return keep(wire)

        bridge.octets = octets
    for number, line in enumerate(script.rstrip("\n").split("\n"), 1):
        network.answer_line(number, line.encode())
    return messages


def identifier(number):
    """Returns priority, extension and address of a bridge's identifier, as tshark prints them."""
    address = ":".join(f"{octet:02x}" for octet in number.to_bytes(8, "big")[2:])
    return [str((number >> 48) & 0xF000), str((number >> 48) & 0xFFF), address]


def message_fields(message):
    flags = [message.change, message.proposal, message.role, message.learning, message.forwarding, message.agreement, 0]
    times = [message.age, message.max_age, message.hello, message.delay]
    row = ["0x0000", "2", "0x02"] + [str(int(flag)) for flag in flags] + identifier(message.root) + [str(message.cost)]
    row += identifier(message.bridge) + [f"0x{message.port:04x}"]
    return row + [f"{time / 256:g}" for time in times] + ["0"]


def same_number(text):
    """Returns the texts with hexadecimal numbers in decimal: some versions of tshark print roles as 0x03."""
    return [str(int(cell, 16)) if cell.startswith("0x") else cell for cell in text]


def tree_rows(table, folder):
    """BPDUs of the examples and of random plans, field by field."""
    plans = {
        name: ((common.TOP / f"examples/{name}.toml").read_text(), (common.TOP / f"examples/{name}.steps").read_text())
        for name in ("settling", "failover")
    }
    for number in range(200):
        chance = random.Random(f"wireshark/{number}")
        plan = generate.step_plan(chance)
        if plan["network"].get("spanning") == "rstp" and len(plan["link"]) > 2 and "steps" not in plan["network"]:
            plans[f"random plan {number}"] = generate.toml(plan), generate.script(chance, plan)
        if len(plans) == 22:
            break
    seen = set()
    count = [0, 0, 0]
    for name, (plan, script) in plans.items():
        frames = [frame for frame in sent(plan, script) if frame[:6] == second_network.PROVIDER]
        messages = messages_of(plan, script)
        path = folder / "tree.pcap"
        path.write_bytes(captures.pcap(frames))
        rows = [same_number(row) for row in decoded(path, TREE_FIELDS)]
        want = [same_number(message_fields(message)) for message, _ in messages]
        count[0], count[1] = count[0] + len(frames), count[1] + malformed(path)
        count[2] += sum(one != two for one, two in zip(rows, want)) + abs(len(rows) - len(want))
        seen.update((row[5], row[3], row[4], row[6], row[7], row[8]) for row in rows)
        if rows != want:
            print(f"error: {name}: {[(a, b) for a, b in zip(rows, want) if a != b][:2]}", file=sys.stderr)
    table.row(
        f"{count[0]} BPDUs of {len(plans)} scripts, {len(TREE_FIELDS)} fields each: those that differ", 0, count[2]
    )
    table.row("malformed marks", 0, count[1])
    roles = sorted({row[0] for row in seen})
    table.row("roles met: 1 alternate or backup, 2 root, 3 designated", "1 2 3", " ".join(roles))
    table.row("kinds of flags met, at least 8", True, len(seen) >= 8)


def other_rows(table, folder):
    """Captures of other forms: read, skipped or refused, by the number of the fault."""
    frames = [captures.frame(length) for length in (60, 100, 61, 1514)]
    (folder / "high.pcap").write_bytes(captures.pcap(frames, order=">"))
    (folder / "low.pcap").write_bytes(captures.pcap(frames))
    table.row("higher octet first, by capinfos", info(folder / "low.pcap"), info(folder / "high.pcap"))
    table.row(
        "higher octet first, by `run` and tshark",
        digest(through(folder, "high.pcap")[2]),
        digest(raw_frames(folder / "high.pcap")),
    )
    common.output("editcap", "-F", "pcap", "-s", "61", "low.pcap", "snapped.pcap", cwd=folder)
    whole = [frame for frame in frames if len(frame) <= 61]
    table.row(
        "snapped at 61 by editcap: whole frames pass, cut ones are skipped",
        digest(whole),
        digest(through(folder, "snapped.pcap")[2]),
    )
    for name, words, fault in FORMS:
        source = "other.pcapng" if "-F pcap`" in name else "low.pcap"
        common.output("editcap", "-F", "pcapng", "low.pcap", "other.pcapng", cwd=folder)
        common.output("editcap", *words, source, "form.pcap", cwd=folder)
        text, status, left = through(folder, "form.pcap")
        faults = [line for line in text.split("\n") if line.startswith("fault")] or ["no fault"]
        want = f"{fault}, exit 3, 0 frames" if fault != "no fault" else f"{fault}, exit 0, {len(frames)} frames"
        table.row(f"{name}, written by editcap", want, f"{faults[0]}, exit {status}, {len(left)} frames")


# Forms of captures that editcap writes, and the expected fault.
FORMS = [
    ("times in nanoseconds", ["-F", "nsecpcap"], "no fault"),
    ("pcapng", ["-F", "pcapng"], "fault: port near 1"),
    ("pcapng, and then `editcap -F pcap`", ["-F", "pcap"], "no fault"),
    ("link type of 802.11", ["-F", "pcap", "-T", "ieee-802-11"], "fault: port near 3"),
]


def main():
    tables = [
        common.Table(f"Wireshark {common.version('tshark', '--version').split()[2]}: {title}")
        for title in ("captures of the examples", "lengths", "S-tags on a link", "BPDUs", "captures of other forms")
    ]
    for table, rows in zip(tables, (example_rows, length_rows, tag_rows, tree_rows, other_rows)):
        with common.Folder() as folder:
            rows(table, folder.path)
    common.finish(*tables)


if __name__ == "__main__":
    main()
