"""The networks of hosts.py, their pings, and the table of what was checked."""

import contextlib
import re
import subprocess
import sys
import time

import common
import sandbox

RING = """[network]
spanning = "rstp"
prompt = true
queues = "class"
tick_ms = 1000
"""
ONE, TWO = "10.1.0.1", "10.1.0.2"


def plan(ports, size=3):
    """Returns the plan of a ring of bridges. Ports are (number, bridge, service, and addresses if they are others)."""
    text = RING if size > 1 else ""
    for n in range(1, size + 1):
        text += f'[[bridge]]\nname = "B{n}"\naddress = "02-00-00-00-00-{n:02x}"\nqueue = 1024\n'
        if size > 1:
            text += f'[[link]]\nname = "L{n}"\na = "B{n}"\na_port = 1\nb = "B{n % size + 1}"\nb_port = 2\n'
    for place, service in enumerate(dict.fromkeys(service for _, _, service, *_ in ports)):
        text += f'[[service]]\nname = "{service}"\nvid = {100 + place}\n'
    return text + "".join(
        sandbox.udp_port(f"p{number}", f"B{bridge}", number, service, *more) for number, bridge, service, *more in ports
    )


class Rows:
    """The rows of the table: what was checked, what came, and whether that is right."""

    def __init__(self, keep):
        self.rows, self.keep = [], keep

    def row(self, part, name, came, is_right):
        self.rows.append((part, name, str(came), is_right))
        print(f"{'ok' if is_right else 'FAILED'} {part}: {name}: {came}", flush=True)

    def note(self, text):
        if self.keep:
            with open(self.keep, "a", encoding="utf-8") as file:
                file.write(text + "\n")

    def finish(self):
        failed = sum(not right for *_, right in self.rows)
        print("\n| Part | Check | Result | |\n|---|---|---|---|")
        for part, name, came, right in self.rows:
            print(f"| {part} | {name} | {came} | {'ok' if right else 'FAILED'} |")
        print(f"\n{len(self.rows) - failed} passed, {failed} failed")
        sys.exit(1 if failed or not self.rows else 0)


@contextlib.contextmanager
def network(rows, ports, size=3, hosts=()):
    """Runs the plan with hosts at some of its ports. Gives the run and the hosts' names, and removes them."""
    names = [sandbox.add_host(number) for number in hosts]
    try:
        with common.Folder() as folder:
            run = sandbox.Run(folder, plan(ports, size))
            run.folder = folder
            if hosts[1:]:
                answered(names[0], f"10.1.0.{hosts[1]}", 60)
            try:
                yield (run, *names)
            finally:
                rows.note("\n".join(run.stop()))
    finally:
        sandbox.remove(*names)


def pair(rows, size=3):
    """Runs a network with a host at each of two ports of one service."""
    return network(rows, [(1, 1, "lan"), (2, 2 if size > 1 else 1, "lan")], size, hosts=(1, 2))


def answered(namespace, address, seconds):
    """Waits until a ping is answered. Returns the seconds until then, or None."""
    begin = time.monotonic()
    while time.monotonic() < begin + seconds:
        words = ["ip", "netns", "exec", namespace, "ping", "-q", "-c", "1", "-W", "0.2", address]
        if subprocess.run(words, stdout=subprocess.DEVNULL, stderr=subprocess.DEVNULL).returncode == 0:
            return time.monotonic() - begin
    return None


class Pings:
    """Pings at a fixed distance, in the background, with the moment of each answer."""

    def __init__(self, folder, namespace, address, count, distance=0.01):
        self.count, self.distance = count, distance
        words = ["ping", "-D", "-n", "-i", distance, "-c", count, "-W", "2", address]
        self.process = folder.start("ip", "netns", "exec", namespace, *words, stdout=subprocess.PIPE)

    def end(self):
        """Waits for the last answer."""
        text = self.process.communicate()[0].decode()
        found = re.findall(r"\[([\d.]+)\] .*icmp_seq=(\d+) .*time=([\d.]+) ms( \(DUP!\))?", text)
        self.answers = [(float(at), int(number), float(ms)) for at, number, ms, twice in found if not twice]
        self.twice = sum(bool(twice) for *_, twice in found)
        return self

    def lost(self):
        return self.count - len(self.answers)

    def gap(self):
        """Returns the most milliseconds between two answers, or from the last one to the end, less the distance."""
        moments = [at for at, _, _ in self.answers]
        last = self.answers[-1][1] if self.answers else 0
        gaps = [two - one - self.distance for one, two in zip(moments, moments[1:])]
        return 1000 * max([*gaps, self.distance * (self.count - last), 0])

    def microseconds(self):
        return sorted(1000 * ms for *_, ms in self.answers)
