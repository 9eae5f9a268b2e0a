#!/usr/bin/env python3
"""Compares what `pbnet diff` prints of random pairs of plans with a second implementation: the bridges of second_network.py,
and the rules of docs/COMMANDS.md written anew.

usage: interop/diff.py [--program FILE] [--pairs N] [--seed N]

The second plan is the first one with random changes, and its tables in another order. A third of the pairs give the states of
ports. What differs is printed with both plans, with exit status 1."""
import argparse
import copy
import itertools
import random
import subprocess
import sys
import tempfile

import common
from second_network import EndsEarly, Network
from random_plans import STATES, Draft
from second_plan import read_plan
from second_tree import FORWARDING

KEYS = ("spanning", "prompt", "queues", "ageing", "ring", "steps")
MOST_ROUNDS, STANDING = 200, 60


# The differences of the plans


def fields(kind, row, plan, names):
    """The fields of a row with their texts. `names` has the services in the order in which they are listed."""
    if kind == "bridge":
        return {"address": row["address"], "priority": row["priority"], "queue": row["queue"]}
    if kind == "service":
        return {"vid": row["vid"]}
    if kind == "port":
        return {key: row[key] for key in ("bridge", "port", "service", "pcp", "queue")}
    told = {}
    for side in "ab":
        listed = row["end_" + side].services
        has = None if listed is None else {plan.services[n]["name"] for n in listed}
        told[side] = row[side]
        for key in ("port", "cost", "priority", "state"):
            told[f"{side}_{key}"] = row[f"{side}_{key}"]
        told[side + "_services"] = "all" if has is None else " ".join(["[", *(n for n in names if n in has), "]"])
    for key in ("lost_ab", "lost_ba"):
        told[key] = " ".join(["[", *map(str, row[key]), "]"])
    return told


def network_fields(plan):
    spanning = "rstp" if plan.rstp else "fixed"
    prompt, queues = "true" if plan.prompt else "false", "class" if plan.by_class else "port"
    return dict(zip(KEYS, [spanning, prompt, queues, plan.ageing, plan.ring, plan.steps]))


def parts(plan, names):
    """The fields of each part, by what its lines begin with."""
    told = {"network": network_fields(plan)}
    for kind, rows in (("bridge", plan.bridges), ("link", plan.links), ("service", plan.services), ("port", plan.ports)):
        for row in rows:
            told[f"{kind} {row['name']}"] = fields(kind, row, plan, names)
    return told


def part_lines(old, new):
    names = [s["name"] for s in old.services]
    names += [s["name"] for s in new.services if s["name"] not in names]
    was, now = parts(old, names), parts(new, names)
    lines = []
    for title, keys in was.items():
        if title not in now:
            lines.append(f"{title}: removed")
            continue
        for key, value in keys.items():
            if str(value) != str(now[title][key]):
                lines.append(f"{title}: {key}: {value} -> {now[title][key]}")
    return lines + [f"{title}: added" for title in now if title not in was]


# The networks


class Driven:
    """A plan's network with nothing down, or under a failure, which is the set of names that fail: (kind, name)."""

    def __init__(self, plan, net, failure=frozenset()):
        self.plan, self.net = plan, net
        self.converged = self.converge() if not failure else None
        self.out = {name for kind, name in failure if kind == "bridge"}
        for link in plan.links:
            if self.is_hit(link, failure):
                for end in (link["end_a"], link["end_b"]):
                    net.by_number[end.bridge].admin(end.port, False)
        if failure:
            self.converged = self.converge()

    def after(self, failure):
        """The network that was up for 60 ticks, under a failure."""
        if not failure:
            return self
        if not hasattr(self, "stood"):
            self.stood = Driven.__new__(Driven)
            self.stood.plan, self.stood.net = self.plan, copy.deepcopy(self.net)
            for _ in range(STANDING if self.plan.rstp else 0):
                self.stood.round()
        return Driven(self.plan, copy.deepcopy(self.stood.net), failure)

    def is_hit(self, link, failure):
        return ("link", link["name"]) in failure or any(("bridge", link[side]) in failure for side in "ab")

    def converge(self):
        """Whether the bridges converge: they have converged after two rounds in a row."""
        if not self.plan.rstp:
            return True
        before = False
        for ticks in range(MOST_ROUNDS):
            self.round()
            now = self.net.have_converged()
            if before and now:
                self.ticks = ticks + 1
                return True
            before = now
        return False

    def round(self):
        """Each bridge ticks, and all that is due then is done."""
        for bridge in self.net.by_number:
            bridge.tick()
        moved = True
        while moved:
            moved = False
            for bridge in self.net.by_number:
                for number in sorted(bridge.ports):
                    moved |= bridge.receive(number) != "idle"
                    moved |= bridge.transmit(number) != "idle"
            for lane in self.net.lanes.values():
                moved |= lane.take() != "idle"
                moved |= lane.put() != "idle"

    def view(self, service):
        """Whether the active links of a service are a forest, and a value by port: those that reach each other share it."""
        index = next(n for n, row in enumerate(self.plan.services) if row["name"] == service)
        vid = self.plan.services[index]["vid"]
        top = list(range(len(self.plan.bridges)))

        def find(b):
            while top[b] != b:
                b = top[b]
            return b

        is_forest = True
        for link in self.plan.links:
            ends = [self.net.by_number[e.bridge].ports[e.port] for e in (link["end_a"], link["end_b"])]
            if all(end.state == FORWARDING and vid in end.vids for end in ends):
                a, b = find(link["end_a"].bridge), find(link["end_b"].bridge)
                is_forest = is_forest and a != b
                top[a] = b
        groups = {}
        for row in self.plan.ports:
            if row["of"] == index:
                alone = row["bridge"] in self.out
                groups[row["name"]] = ("port", row["name"]) if alone else find(row["at"])
        return is_forest, groups

    def ends(self):
        """Role and state of both ends of each link, by its name."""
        told = {}
        for link in self.plan.links:
            words = []
            for side in "ab":
                end = link["end_" + side]
                bridge = self.net.by_number[end.bridge]
                state = STATES[bridge.ports[end.port].state]
                words.append(f"{side} {bridge.tree.ports[end.port].role} {state}" if self.plan.rstp else f"{side} {state}")
            told[link["name"]] = ", ".join(words)
        return told


def failures(plan, bridges, pairs):
    links = [link["name"] for link in plan.links]
    told = [frozenset([("link", name)]) for name in links]
    told += [frozenset([("bridge", row["name"])]) for row in plan.bridges] if bridges else []
    told += [frozenset(("link", name) for name in two) for two in itertools.combinations(links, 2)] if pairs else []
    return told


def has(plan, part):
    rows = plan.links if part[0] == "link" else plan.bridges
    return any(row["name"] == part[1] for row in rows)


def failure_text(plan, failure):
    rows = [row["name"] for row in plan.links]
    names = sorted((name for _, name in failure), key=lambda name: rows.index(name) if name in rows else 0)
    kind = next(iter(failure), ("nothing",))[0]
    if not failure:
        return "nothing down"
    return f"{kind}s {' '.join(names)} down" if len(names) == 2 else f"{kind} {names[0]} down"


def parted(was, now, order):
    """The groups of ports that share a value of `was` and not of `now`, as texts."""
    told = []
    for value in dict.fromkeys(was[name] for name in order):
        group = [name for name in order if was[name] == value]
        pieces = dict.fromkeys(now[name] for name in group)
        if len(pieces) > 1:
            told.append(" |".join("".join(f" {n}" for n in group if now[n] == piece) for piece in pieces))
    return told


def most_ticks(networks):
    """The most ticks until bridges converged after a failure of the plan, or `none`."""
    ticks = [network.ticks for network in networks if network.plan.rstp and network.converged]
    return max(ticks, default="none")


def begin(plan):
    """Drives a plan's network to convergence."""
    return Driven(plan, Network(plan))


def report(old, new, bridges, pairs, service, conclude=begin):
    """What is to be printed, and the exit status. `conclude` returns what is known of a plan's network."""
    cases = [(old, f) for f in failures(old, bridges, pairs)]
    cases += [(new, f) for f in failures(new, bridges, pairs) if not all(has(old, part) for part in f)]
    cases = [(old, frozenset())] + cases
    calms, driven = [conclude(plan) for plan in (old, new)], []
    for plan, failure in cases:
        text = failure_text(plan, failure)
        both = [calm.after(frozenset(part for part in failure if has(calm.plan, part))) for calm in calms]
        driven.append((text, both))
    here = {row["name"] for row in new.services}
    services = [s["name"] for s in old.services if s["name"] in here and service in (None, s["name"])]
    lines = part_lines(old, new)
    better, worse = set(), set()
    for name in services:
        for number, (text, (was, now)) in enumerate(driven):
            (old_forest, old_groups), (new_forest, new_groups) = was.view(name), now.view(name)
            order = [port for port in old_groups if port in new_groups]
            head = f"service {name}: {text}: "
            lost, won = parted(old_groups, new_groups, order), parted(new_groups, old_groups, order)
            lines += [f"{head}no longer reach each other:{group}" for group in lost]
            lines += [f"{head}now reach each other:{group}" for group in won]
            worse |= {number} if lost or (old_forest and not new_forest) else set()
            better |= {number} if won or (new_forest and not old_forest) else set()
            if old_forest != new_forest:
                lines.append(head + ("no longer" if new_forest else "now") + " forms a forwarding loop")
    was, now = (network.ends() for network in driven[0][1])
    for name, ends in was.items():
        if name in now and now[name] != ends:
            lines.append(f"link {name} with nothing down: {ends} -> {now[name]}")
    for number, (text, (was, now)) in enumerate(driven):
        if was.converged != now.converged:
            (better if now.converged else worse).add(number)
            lines.append(f"{text}: bridges {'now' if now.converged else 'no longer'} converge")
    most = [most_ticks(both[side] for _, both in driven if both[side] is not calm) for side, calm in enumerate(calms)]
    if most[0] != most[1]:
        lines.append(f"most ticks to convergence: {most[0]} -> {most[1]}")
    word = {(True, True): "better and worse", (True, False): "better", (False, True): "worse"}
    verdict = word.get((0 in better, 0 in worse), "no change")
    count = len(driven) - 1
    counts = [f"{len(numbers - {0})} of {count} failures" for numbers in (better, worse)]
    last = f"better: {counts[0]}; worse: {counts[1]}; with nothing down: {verdict}"
    return lines, last, 4 if worse else 0


def compare(program, dice, folder):
    """What differs, or None."""
    first = Draft(dice, 6, 8)
    second = first.changed()
    bridges, pairs = dice.random() < 0.3, dice.random() < 0.2
    service = dice.choice(first.service)["name"] if dice.random() < 0.2 else None
    paths = []
    for name, draft in (("old", first), ("new", second)):
        paths.append(f"{folder}/{name}.toml")
        with open(paths[-1], "w", encoding="ascii") as file:
            file.write(draft.text())
    words = ["diff", *paths] + ["--bridges"] * bridges + ["--pairs"] * pairs + (["--service", service] if service else [])
    old, new = (read_plan(draft.text().encode()) for draft in (first, second))
    lines, last, status = report(old, new, bridges, pairs, service)
    done = subprocess.run([program, *words], stdout=subprocess.PIPE, stderr=subprocess.PIPE, check=False)
    said = done.stdout.decode().splitlines()
    want = lines + [last] if lines else ["no difference"]
    if said == want and done.returncode == status:
        return None
    shown = [f"words {words[3:]}", f"status {done.returncode}, to be {status}", "--- printed", *said, "--- to be printed", *want]
    return "\n".join(shown + ["--- old", first.text(), "--- new", second.text()])


def main():
    options = argparse.ArgumentParser(description="Compares `pbnet diff` with a second implementation.")
    options.add_argument("--program", default=common.PROGRAM)
    options.add_argument("--pairs", type=int, default=300)
    options.add_argument("--seed", type=int, default=1)
    options = options.parse_args()
    failed = 0
    with tempfile.TemporaryDirectory() as folder:
        for number in range(options.pairs):
            try:
                differs = compare(options.program, random.Random(f"{options.seed} {number}"), folder)
            except EndsEarly as error:
                differs = f"the second implementation: {error}"
            if differs:
                failed += 1
                print(f"pair {number} differs:\n{differs}\n")
    print(f"{options.pairs - failed} of {options.pairs} pairs of plans are alike")
    sys.exit(1 if failed else 0)


if __name__ == "__main__":
    main()
