#!/usr/bin/env python3
"""Hosts, bridges and switches of Linux at `pbnet run`, over VXLAN, in network namespaces of their own.

usage: interop/hosts.py [--quick] [--keep FILE] [PART..]

{parts}

--quick sends fewer and shorter. Each check is a row of the table at the end; the last line is `N passed, M failed`, and
the exit status is 0 if M is 0. Rates and times are printed. A time fails at the limit that its row names, a rate of UDP
if less than half arrives. --keep appends the reports of the runs to FILE. The program is ./pbnet, or that of the
variable PBNET.
"""

import argparse
import hashlib
import json
import os
import re
import socket
import statistics
import subprocess
import threading
import time

import common
import hosts_bridges
import sandbox
from hosts_network import ONE, TWO, Pings, Rows, answered, network, pair
from sandbox import Wire, shell

# Parts


def ping(rows, quick):
    """400 pings between two hosts, with their times"""
    count = 100 if quick else 400
    for size, name in ((1, "one bridge"), (3, "a ring of three")):
        with pair(rows, size) as (run, one, _):
            pings = Pings(run.folder, one, TWO, count).end()
            times = pings.microseconds() or [0]
            came = f"{len(pings.answers)} of {count}, median {statistics.median(times):.0f} us, " \
                f"99 of 100 within {times[len(times) * 99 // 100 - 1]:.0f} us"
            rows.row("ping", f"{name}, each 10 ms", came, len(pings.answers) == count and not pings.twice)


def receive_file(listener, result):
    stream, _ = listener.accept()
    digest, size = hashlib.sha256(), 0
    with stream:
        while part := stream.recv(1 << 20):
            digest.update(part)
            size += len(part)
    result.append((size, digest.hexdigest()))


def file(rows, quick):
    """a file of 50 MB over TCP, with its checksum"""
    data = os.urandom(5_000_000 if quick else 50_000_000)
    with pair(rows) as (_, one, two):
        with sandbox.inside(two):
            listener = socket.create_server((TWO, 5000))
        result = []
        taker = threading.Thread(target=receive_file, args=(listener, result), daemon=True)
        taker.start()
        with sandbox.inside(one):
            stream = socket.create_connection((TWO, 5000), timeout=60)
        begin = time.monotonic()
        with stream:
            stream.sendall(data)
        taker.join(120)
        seconds = time.monotonic() - begin
        wanted = [(len(data), hashlib.sha256(data).hexdigest())]
        came = f"{result[0][0] if result else 0:,} octets in {seconds:.1f} s"
        rows.row("file", f"{len(data):,} octets with their SHA-256", came, result == wanted)


def iperf(folder, one, two, *words):
    """Returns the result of iperf3 from one host to another."""
    server = folder.start("ip", "netns", "exec", two, "iperf3", "-s", "-1")
    time.sleep(0.3)
    text = common.output("ip", "netns", "exec", one, "iperf3", "-c", TWO, "-J", *words)
    server.wait(10)
    return json.loads(text)["end"]


def dropped():
    """Returns how many datagrams the kernel has dropped since their socket's buffer was full."""
    lines = shell("cat", "/proc/net/snmp", namespace=sandbox.CORE).splitlines()
    names, counts = (line.split() for line in lines if line.startswith("Udp:"))
    return int(counts[names.index("RcvbufErrors")])


def rate(rows, quick):
    """TCP and UDP by iperf3"""
    seconds = 2 if quick else 5
    for size, name in ((1, "one bridge"), (3, "a ring of three")):
        with pair(rows, size) as (run, one, two):
            for words, way in (([], "there"), (["-R"], "back")):
                before = dropped()
                end = iperf(run.folder, one, two, "-t", seconds, *words)
                again = end["sum_sent"].get("retransmits", 0)
                came = f"{end['sum_received']['bits_per_second'] / 1e6:.0f} Mbit/s, {again} retransmissions, " \
                    f"{dropped() - before} dropped by the kernel"
                rows.row("rate", f"TCP, {name}, {way}", came, end["sum_received"]["bytes"] > 1_000_000)
            before = dropped()
            end = iperf(run.folder, one, two, "-u", "-b", "100M", "-l", "1400", "-t", seconds)["sum"]
            came = f"{end['lost_packets']} of {end['packets']} lost, jitter {1000 * end['jitter_ms']:.0f} us, " \
                f"{dropped() - before} dropped by the kernel"
            rows.row("rate", f"UDP at 100 Mbit/s, {name}", came, end["lost_percent"] < 50)


def tagged_frames():
    """Returns frames of hosts with their names. Each has another source."""
    to, tag = b"\xff" * 6, bytes.fromhex("8100a005")
    kinds = [
        ("untagged, 60 octets", b"", 60),
        ("C-tag, 64 octets", tag, 64),
        ("C-tag, 1,518 octets", tag, 1518),
        ("two C-tags, 1,522 octets", tag + bytes.fromhex("81000006"), 1522),
        ("untagged, 1,992 octets", b"", 1992),
        ("C-tag, 1,992 octets", tag, 1992),
    ]
    for place, (name, tags, length) in enumerate(kinds):
        head = to + bytes((2, 0, 0, 0, 1, place)) + tags + b"\x88\xb5"
        yield name, head + bytes(n % 251 for n in range(length - len(head)))


def tagged(rows, _):
    """C-tagged and long frames, octet for octet"""
    with pair(rows) as (_, one, two):
        for host, name in ((one, "vx1"), (two, "vx2")):
            shell("ip", "link", "set", name, "mtu", "2000", namespace=host)
        near, far = Wire(one, "vx1"), Wire(two, "vx2")
        for name, frame in tagged_frames():
            near.send(frame)
            came = far.receive_until(frame)
            rows.row("tagged", name, "the same" if came else "does not arrive", came)
        for name, length, kind in (("S-tag", 100, "88a80005"), ("1,993 octets", 1993, "88b5")):
            frame = b"\xff" * 6 + bytes((2, 0, 0, 0, 2, 0)) + bytes.fromhex(kind)
            frame += bytes(length - len(frame))
            near.send(frame)
            came = far.receive_until(frame, 0.5)
            rows.row("tagged", f"{name}: refused", "arrives" if came else "does not arrive", not came)
        near.close()
        far.close()


LLDP_DATA = bytes.fromhex("88cc020704020000000301040305763178060200780000")
LACP_DATA = bytes.fromhex("880901010114") + bytes(104)


def reserved(rows, _):
    """LLDP on its three addresses, LACP, PAUSE and all sixteen reserved addresses, as `show` says"""
    rules = dict(line.split() for line in common.run("show")[0].splitlines())
    named = {0: "BPDUs", 1: "PAUSE", 2: "LACP", 3: "802.1X", 7: "E-LMI", 8: "provider BPDUs", 13: "provider MVRP"}
    cases = [(f"LLDP to -{octet:02X}", octet, LLDP_DATA) for octet in (0, 3, 14)] + [("LACP to -02", 2, LACP_DATA)]
    cases += [(f"-{octet:02X} {named.get(octet, '')}".strip(), octet, b"\x88\xb5") for octet in range(16)]
    with pair(rows) as (_, one, two):
        near, far = Wire(one, "vx1"), Wire(two, "vx2")
        for place, (name, octet, data) in enumerate(cases):
            frame = bytes((1, 0x80, 0xC2, 0, 0, octet, 2, 0, 0, 0, 3, place)) + data
            frame += bytes(max(0, 60 - len(frame)))
            near.send(frame)
            rule = rules[f"01-80-C2-00-00-{octet:02X}"]
            came = far.receive_until(frame, 0.5)
            rows.row("reserved", f"{name}: {rule}", "crosses" if came else "does not cross", came == (rule == "carry"))
        near.close()
        far.close()


def strangers(rows, _):
    """datagrams of another VNI and from another address are dropped"""
    shell(*"ip addr add 10.9.0.3/24 dev pb0".split())
    with network(rows, [(1, 1, "lan"), (2, 1, "lan")], 1, hosts=(1,)) as (run, one):
        cases = [("its own VNI and address", {}, 5), ("another VNI", {"vni": 9}, 0)]
        cases += [("another address", {"local": "10.9.0.3"}, 0)]
        for name, more, wanted in cases:
            two = sandbox.add_host(2, **more)
            near, far = Wire(one, "vx1"), Wire(two, "vx2")
            before = entered(run, "p2")
            for place in range(5):
                far.send(b"\xff" * 6 + bytes((2, 0, 0, 0, 4, place)) + b"\x88\xb5" + bytes(46))
            time.sleep(0.5)
            count = entered(run, "p2") - before
            rows.row("strangers", f"5 frames by {name}", f"{count} entered", count == wanted)
            near.close()
            far.close()
            sandbox.remove(two)
    shell(*"ip addr del 10.9.0.3/24 dev pb0".split())


def entered(run, port):
    """Returns the frames that entered at a port, as the control socket says."""
    found = re.search(rf"port {port} entered (\d+)", run.control("counts"))
    return int(found[1]) if found else -1


def comeback(rows, _):
    """a host that leaves and comes back, the second time with another address"""
    with pair(rows) as (run, one, two):
        for name, address in (("the same address", None), ("another address", "02:00:00:00:07:ff")):
            sandbox.remove(two)
            pings = Pings(run.folder, one, TWO, 50).end()
            rows.row("comeback", "pings while it is away", f"{len(pings.answers)} of 50 answered", not pings.answers)
            sandbox.add_host(2)
            if address:
                shell("ip", "link", "set", "vx2", "address", address, namespace=two)
            seconds = answered(two, ONE, 30)
            came = "does not come back" if seconds is None else f"is answered after {seconds:.2f} s"
            rows.row("comeback", f"back with {name}", came, seconds is not None)
            pings = Pings(run.folder, one, TWO, 50).end()
            rows.row("comeback", "pings to it", f"{len(pings.answers)} of 50 answered", len(pings.answers) == 50)


def failure(rows, quick):
    """a link of a ring with `prompt = true` fails and is repaired, under pings each 10 ms: at most two are lost"""
    trials, lost, gaps = (2 if quick else 5), [], []
    with pair(rows) as (run, one, _):
        # BPDUs of the start count for the ports' hold counts, which fall by one a tick.
        time.sleep(15)
        for _ in range(trials):
            pings = Pings(run.folder, one, TWO, 200)
            time.sleep(0.7)
            run.control("down", "L1")
            pings.end()
            run.control("up", "L1")
            lost.append(pings.lost())
            gaps.append(pings.gap())
            time.sleep(3)
        came = f"lost {', '.join(map(str, lost))}; longest gaps {', '.join(f'{gap:.0f}' for gap in gaps)} ms"
        rows.row("failure", f"link L1 is disabled, {trials} trials", came, max(lost) <= 2)
        pings = Pings(run.folder, one, TWO, 200)
        time.sleep(0.5)
        run.control("down", "L2")
        time.sleep(0.5)
        run.control("up", "L2")
        pings.end()
        rows.row("failure", "a blocked link is disabled and enabled", f"lost {pings.lost()}", pings.lost() <= 2)


PARTS = (ping, file, rate, tagged, reserved, strangers, comeback, failure, *hosts_bridges.PARTS)


def arguments():
    names = [part.__name__ for part in PARTS]
    text = __doc__.format(parts="\n".join(f"    {part.__name__:11} {part.__doc__}" for part in PARTS))
    reader = argparse.ArgumentParser(description=text, formatter_class=argparse.RawDescriptionHelpFormatter)
    reader.add_argument("--quick", action="store_true")
    reader.add_argument("--keep", metavar="FILE")
    reader.add_argument("part", nargs="*", choices=[*names, []])
    return reader.parse_args()


def main():
    chosen = arguments()
    sandbox.need("ip", "ethtool", "ping", "iperf3")
    sandbox.enter()
    common.need_program()
    sandbox.add_core()
    rows = Rows(chosen.keep)
    for part in PARTS:
        if not chosen.part or part.__name__ in chosen.part:
            try:
                part(rows, chosen.quick)
            except (RuntimeError, OSError, LookupError, ValueError, subprocess.SubprocessError) as error:
                rows.row(part.__name__, "the part ends", repr(error), False)
    rows.finish()


if __name__ == "__main__":
    main()
