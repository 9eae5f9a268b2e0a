"""evil datagrams, floods and absent peers at udp ports, and addresses that need --allow-network"""
import re
import socket
import subprocess
import threading
import time
from collections import Counter

import common
import second_network

from hostile_parts import frames
from hostile_parts.attack import PROGRAM, crash, misfit
from hostile_parts.control import Load, ask
from hostile_parts.limits import OLD
from hostile_parts.udp_hosts import Host, free_port

VNI = 5
FLAG, NETWORK = b"\x08\0\0\0", VNI.to_bytes(3, "big") + b"\0"
FILTERED = re.compile(r"bridge B1 port 1: (\d+) frames dropped: (?!no-port)(\S+)")
DROPPED = re.compile(r"port (\S+): (\d+) datagrams dropped: ([\w-]+)")
ENTERED = re.compile(r"port (\S+) entered (\d+) left (\d+) filtered (\d+)")
# The most octets of a datagram over IPv4.
MOST = 65_507
FAMILIES = (socket.AF_INET, socket.AF_INET6)


def plan(near, far):
    """Returns a plan with a host at each bridge, and two hosts of another service at sockets."""
    text = frames.BRIDGES + frames.LINK + frames.SERVICES
    text += frames.port("near", "B1", 1, "red", near.keys()) + frames.port("far", "B2", 1, "red", far.keys())
    for number, name in ((2, "one"), (3, "two")):
        text += frames.port(name, "B1", number, "blue", f'kind = "socket"\nlisten = "{name}.sock"')
    return text


def evil(chance):
    """Returns the octets of a datagram that is wrong, odd or long, or noise."""
    made = frames.some_frames(chance, 1)[0]
    head = FLAG + NETWORK
    return chance.choice([
        lambda: chance.randbytes(chance.randrange(22)), lambda: b"", lambda: head[: chance.randrange(9)],
        lambda: head + made[: chance.randrange(16)], lambda: head + made, lambda: made,
        lambda: chance.choice([b"\0\0\0\0", b"\xf7\xff\xff\xff"]) + NETWORK + made,
        lambda: b"\xff\xff\xff\xff" + NETWORK[:3] + b"\xff" + made,
        lambda: FLAG + chance.choice([4, 6, 0, 2**24 - 1, VNI << 8]).to_bytes(3, "big") + b"\0" + made,
        lambda: head + made[:14] + bytes(chance.choice([1978, 1979, 1982, 1983, 9000, MOST - 22])),
        lambda: chance.randbytes(chance.choice([30, 300, 3000])),
    ])()


def fate(host, is_from_address, is_from_port, octets):
    """Returns the frame of a datagram, or the reason for which it is dropped."""
    if not is_from_address or (host.vni is None and not is_from_port):
        return "other-sender"
    if host.vni is None:
        return octets if len(octets) >= 14 else "short-frame"
    if len(octets) < 8:
        return "short-header"
    if not octets[0] & 8:
        return "unset-flag"
    return octets[8:] if octets[4:7] == NETWORK[:3] else "other-network"


class Sender:
    """Sends datagrams to a port from the address of its host, from another port of it, and from another address."""

    def __init__(self, host, chance):
        self.host, self.chance, self.entered, self.dropped = host, chance, [], {}
        self.others = [(socket.socket(host.family, socket.SOCK_DGRAM), True)]
        if host.family == socket.AF_INET:
            self.others.append((socket.socket(socket.AF_INET, socket.SOCK_DGRAM), False))
            self.others[-1][0].bind(("127.0.0.2", 0))

    def send(self, octets, is_own):
        by, is_from_address = (None, True) if is_own else self.chance.choice(self.others)
        self.host.send(octets, by)
        found = fate(self.host, is_from_address, is_own, octets)
        if isinstance(found, bytes):
            self.entered.append(found)
        else:
            self.dropped[found] = self.dropped.get(found, 0) + 1

    def close(self):
        for it, _ in self.others:
            it.close()


def wait_bound(hosts, run):
    """Waits until a run has bound its udp ports. Returns whether it has."""
    end = time.monotonic() + 20
    while run.poll() is None and time.monotonic() < end:
        if all(it.is_bound() for it in hosts):
            return True
        time.sleep(0.002)
    return False


def mark(sender, other, number, came):
    """Sends a broadcast, and waits until the other host has it. Returns whether it has."""
    marker = frames.captures.frame(64, kind=b"\x88\xb6") + number.to_bytes(4, "big")
    sender.send(sender.host.head + marker, True)
    end = time.monotonic() + 10
    while time.monotonic() < end:
        came += other.receive(0.1)
        if marker in came[-8:]:
            return True
    return False


def throw(chance, sender, other, came):
    """Throws evil datagrams, with a marker after a few of them. Returns what is wrong, or None."""
    waiting = 0
    for number in range(40):
        octets = evil(chance)
        octets = octets if sender.host.vni is not None or chance.random() < 0.3 else octets[8:]
        waiting += 1 + len(octets) // 1000
        sender.send(octets, chance.random() < 0.7)
        # (the system drops what a socket has no space for)
        if waiting > 12 or number == 39:
            waiting = 0
            if not mark(sender, other, number, came):
                return f"a marker did not arrive within 10 s after datagram {number}"
    return None


def wrong_thrown(ended, sender, other, came):
    """Returns what is wrong with the frames that left and with the report, or None."""
    why = frames.strangers(came, sender.entered, is_lossless=True)
    if why or other.odd:
        return why or f"a datagram left that is none: {other.odd[0][:40].hex()}"
    counts = {found[1]: tuple(map(int, found.groups()[1:])) for found in map(ENTERED.fullmatch, ended.lines()) if found}
    if counts["near"][0] != len(sender.entered) or counts["far"][1] != len(came):
        return f"{len(sender.entered)} frames entered and {len(came)} left, and the report says {counts}"
    named = {reason: int(count) for name, count, reason in DROPPED.findall(ended.complaints()) if name == "near"}
    if named != sender.dropped:
        return f"dropped were {sender.dropped}, and standard error has {named}"
    filtered = Counter(it.split("-")[0] if "reserved" in it else it
                       for it in map(second_network.refusal, sender.entered) if it)
    named = Counter({reason: int(count) for count, reason in FILTERED.findall(ended.complaints())})
    return None if named == filtered else f"filtered were {filtered}, and standard error has {named}"


def mutated(part):
    for number in range(part.times(120)):
        chance = part.chance("datagrams", number)
        family = FAMILIES[number % 2]
        near, far = Host(family, VNI if number % 4 < 3 else None), Host(chance.choice(FAMILIES), chance.choice([None, 9]))
        sender, came = Sender(near, chance), []
        with part.room("datagrams", number) as room:
            room.write("plan.toml", plan(near, far))
            run = room.start(PROGRAM, "run", "--control", "control", "plan.toml")
            is_bound = wait_bound((near, far), run)
            common.wait_for(room.path / "control")
            why = throw(chance, sender, far, came) if is_bound else "the ports are not bound"
            answer = ask(room.path / "control", b"stop\n")
            came += far.receive(0.05)
            ended = room.end(run)
            why = misfit(ended, most=30) or why or wrong_thrown(ended, sender, far, came)
            why = why or (None if answer == b"ok\n" and ended.status == 0 else f"stop: {answer!r}, {ended.status}")
            kind = f"datagrams, mutated, {'IPv4' if family == socket.AF_INET else 'IPv6'}"
            part.judge(kind, why, room, ended)
        for it in (near, far, sender):
            it.close()


def blast(host, is_over, by):
    """Sends datagrams as fast as it can: wrong ones, and long ones."""
    for octets in (it for _ in iter(is_over.is_set, True) for it in (b"", b"\0" * 8, FLAG * 2 + b"x" * 60_000)):
        host.send(octets, by)


def try_flood(part, number):
    """Floods two ports while hosts of another service exchange frames, and stops the run meanwhile."""
    near, far = Host(socket.AF_INET, VNI), Host(socket.AF_INET6, None)
    evil_one = socket.socket(socket.AF_INET, socket.SOCK_DGRAM)
    evil_one.bind(("127.0.0.2", 0))
    is_over = threading.Event()
    floods = [threading.Thread(target=blast, args=(host, is_over, by), daemon=True)
              for host, by in ((near, evil_one), (near, None), (far, None))]
    with part.room("flood", number) as room:
        text = plan(near, far).replace("one.sock", "near.sock").replace("two.sock", "far.sock")
        room.write("plan.toml", text)
        run = room.start(PROGRAM, "run", "--control", "control", "plan.toml")
        for it in ("control", "near.sock", "far.sock"):
            common.wait_for(room.path / it)
        load = Load(room.path)
        for it in floods:
            it.start()
        time.sleep(1)
        load.stop()
        begun = time.monotonic()
        answer = ask(room.path / "control", b"stop\n")
        ended = room.end(run)
        took = time.monotonic() - begun
        is_over.set()
        why = crash(ended, 60)
        if not why and load.lost:
            why = f"{load.lost} batches of 300 frames did not arrive in order beside a flood"
        if not why and (answer != b"ok\n" or ended.status != 0 or took > 10):
            why = f"stop: {answer!r}, exit status {ended.status}, after {took:.1f} s"
        part.judge("datagrams, a flood while the run stops", why, room, ended)
        for it in floods:
            it.join(10)
    for it in (near, far, evil_one):
        it.close()
    return load.sent


def try_gone(part, number):
    """Has a host leave (its system answers that nobody is there), and come again: its frames go on."""
    near, far = Host(FAMILIES[number % 2], VNI), Host(FAMILIES[number % 2], None)
    sender, came = Sender(near, part.chance("gone", number)), []
    with part.room("gone", number) as room:
        room.write("plan.toml", plan(near, far))
        run = room.start(PROGRAM, "run", "--control", "control", "plan.toml")
        why = None if wait_bound((near, far), run) else "the ports are not bound"
        common.wait_for(room.path / "control")
        far.leave()
        for it in range(20):
            sender.send(near.head + frames.captures.frame(100 + it), True)
        time.sleep(0.1)
        far.come()
        for it in range(20):
            is_there = mark(sender, far, it, came)
            why = why or (None if is_there else f"frame {it} did not arrive after the host came again")
        answer = ask(room.path / "control", b"stop\n")
        ended = room.end(run)
        why = misfit(ended, most=30) or why or (None if (answer, ended.status) == (b"ok\n", 0) else f"stop: {answer!r}")
        part.judge("datagrams, a host that leaves and comes", why, room, ended)
    for it in (near, far, sender):
        it.close()


# Addresses to bind, and whether they are those of this host alone.
ADDRESSES = {"127.0.0.1": True, "127.0.0.2": True, "127.255.255.254": True, "[::1]": True, "0.0.0.0": False,
             "[::]": False, "192.0.2.1": False, "[2001:db8::1]": False, "[::ffff:127.0.0.1]": False, "224.0.0.1": False,
             "255.255.255.255": False, "128.0.0.1": False, "126.0.0.1": False}


def exposed(part):
    """Binds addresses with and without --allow-network, beside a capture that is to stay."""
    for address, is_loopback in ADDRESSES.items():
        for more in ([], ["--allow-network"]):
            family = socket.AF_INET6 if "[" in address else socket.AF_INET
            remote = "[::1]:9" if family == socket.AF_INET6 else "127.0.0.1:9"
            local = f"{address}:{free_port(family)}"
            keys = f'kind = "udp"\nlocal = "{local}"\nremote = "{remote}"\nvni = 1'
            with part.room("exposed") as room:
                text = frames.BRIDGES + frames.SERVICES + frames.port("N", "B1", 1, "red", keys)
                for name in ("old", "new"):
                    text += frames.port(name, "B2", 5 + (name == "new"), "red", f'kind = "record"\nwrite = "{name}.out"')
                room.write("plan.toml", text)
                room.write("old.out", OLD)
                ended = room.run(PROGRAM, "run", *more, "--control", "control", "--seconds", "1", "plan.toml")
                why = misfit(ended) or wrong_binding(room, ended, local, is_loopback or bool(more))
                part.judge("datagrams, addresses to bind", why, room, ended)


def wrong_binding(room, ended, local, is_allowed):
    """A run whose address is refused changes nothing, and says why."""
    names = sorted(it.name for it in room.path.iterdir())
    if ended.status == 0:
        return None if is_allowed and names == ["new.out", "old.out", "plan.toml"] else f"it is bound, with {names}"
    if (ended.status, ended.lines()[-1:]) != (3, ["fault: path"]) or names != ["old.out", "plan.toml"]:
        return f"exit status {ended.status}, and the files are {names}"
    if room.read("old.out") != OLD:
        return "a capture changed"
    words = "" if is_allowed else "not a loopback address: --allow-network allows it\n"
    return None if ended.complaints().startswith(f"error: port N: bind {local}: {words}") else "another reason"


def unreachable(part):
    """Sends to hosts that no interface reaches: each frame is reported, and the run goes on."""
    if subprocess.run(["unshare", "--net", "true"], check=False, stderr=subprocess.DEVNULL).returncode:
        part.note("datagrams, no interface", "skipped: no right to a namespace")
        return
    for family in FAMILIES:
        for form in ("text", "json"):
            host = Host(family, VNI)
            with part.room("unreachable") as room:
                listed = ", ".join(f'"{frames.captures.frame(60 + it).hex()}"' for it in range(7))
                room.write("plan.toml", frames.BRIDGES + frames.SERVICES + frames.port("N", "B1", 1, "red", host.keys())
                           + frames.port("C", "B1", 2, "red", f"in = [{listed}]"))
                words = ["unshare", "--net", PROGRAM, "run", "--seconds", "1", "--format", form, "plan.toml"]
                ended = room.run(*words)
                # (an address of IPv6 can't be bound either)
                is_bound = ended.status == 0 and re.search(r"port N: 7 frames not sent: ", ended.complaints())
                is_refused = ended.status == 3 and "error: port N: bind " in ended.complaints()
                why = crash(ended) or (None if is_bound or is_refused else f"exit status {ended.status}")
                part.judge("datagrams, no interface", why, room, ended)
            host.close()


def attack(part):
    mutated(part)
    sent = sum(try_flood(part, number) for number in range(part.times(10)))
    part.note("datagrams, a flood while the run stops", f"{sent} frames beside them")
    for number in range(part.times(20)):
        try_gone(part, number)
    exposed(part)
    unreachable(part)
