#!/usr/bin/env python3
"""Runs generated lines of bridges whose services have a site at each end, so that each frame has one place to go, and checks
that the report accounts for every frame: those that entered are those that left, were dropped by a bridge with a reason, were
refused by a full queue, were lost on a link, or are in transit at the end of a run that stops early. A strict run has status 0 if and only if nothing was dropped between bridges,
refused, or dropped while the tree changed. The exit status is 0 if each run adds up.

    interop/balance.py [--runs N] [--seed N]
"""

import argparse
import json
import os
import random
import subprocess
import sys
from collections import Counter

from common import PROGRAM, Folder, need_program

# The launcher starts the program alone.
PLAIN = {**os.environ, "PBNET_PLAIN": "1"}
# The reasons for which a frame is lost between bridges.
BETWEEN = {"not-member", "untagged", "malformed", "worn", "long"}
# The reasons for which a frame is lost while the tree changes.
LATE = {"not-forwarding", "no-port"}
# What became of frames, in the order of `sums`.
NAMES = ("entered", "left", "dropped", "refused", "lost", "in transit")


def frames(rng, port):
    """Returns frames of a customer port: broadcasts, and some to a reserved address or with a tag of the provider."""
    made = []
    for number in range(rng.randrange(1, 30)):
        target = rng.choice(["ffffffffffff"] * 6 + ["0180c2000003", "01005e000001"])
        kind = rng.choice(["0800"] * 8 + ["88a80064"])
        made.append(f"{target}0200000000{port:02x}{kind}{number:08x}")
    return made


def plan_of(rng):
    """Returns the text of a plan: a line of bridges, and services with a site at both ends."""
    bridges, services = rng.randrange(2, 7), rng.randrange(1, 4)
    spanning = rng.choice(["fixed", "fixed", "rstp"])
    lines = ["[network]", f'spanning = "{spanning}"', f"lossless = {rng.choice(['true', 'false'])}"]
    if spanning == "rstp":
        lines += ['queues = "class"', f"tick_every = {rng.randrange(20, 60)}", f"hold = {rng.choice([0, 40])}"]
    if rng.random() < 0.3:
        lines += [f"turns = {rng.randrange(1, 400)}"]
    for number in range(1, bridges + 1):
        lines += ["[[bridge]]", f'name = "B{number}"', f'address = "02-00-00-00-01-{number:02x}"']
        lines += [f"queue = {rng.choice([2, 8, 64])}"]
    for number in range(1, services + 1):
        lines += ["[[service]]", f'name = "S{number}"', f"vid = {100 + number}"]
    for number in range(1, bridges):
        lines += ["[[link]]", f'name = "L{number}"', f'a = "B{number}"', "a_port = 15"]
        lines += [f'b = "B{number + 1}"', "b_port = 16"]
        if rng.random() < 0.2:
            listed = rng.sample(range(1, services + 1), rng.randrange(0, services + 1))
            lines += [f"{rng.choice('ab')}_services = {json.dumps([f'S{s}' for s in sorted(listed)])}"]
        if rng.random() < 0.2:
            lines += [f"lost_ab = {sorted(rng.sample(range(40), 5))}"] if spanning == "fixed" else []
    for number in range(1, services + 1):
        for side, bridge in enumerate((1, bridges)):
            lines += ["[[port]]", f'name = "P{number}-{side}"', f'bridge = "B{bridge}"', f"port = {number}"]
            lines += [f'service = "S{number}"', f"in = {json.dumps(frames(rng, 2 * number + side))}"]
    return "\n".join(lines) + "\n"


def sums(document):
    """Returns how many frames entered, left, were dropped, refused and lost, and how many are in transit."""
    entered = sum(port["entered"] for port in document["ports"])
    left = sum(port["left"] for port in document["ports"])
    dropped = sum(drop["count"] for drop in document["drops"])
    refused = sum(loss["count"] for loss in document["losses"] if loss["what"] == "copies not queued")
    lost = sum(link["ab_lost"] + link["ba_lost"] for link in document["links"])
    return entered, left, dropped, refused, lost, document.get("in_transit", 0)


def is_between(drop):
    """Checks whether the port of a drop leads to another bridge."""
    return drop["bridge_port"] >= 15


def check(document, status, text):
    """Returns what is wrong with a run: its sum, or its status."""
    entered, left, dropped, refused, lost, in_transit = sums(document)
    if document.get("ended") not in ("drained", "limit"):
        return f"it ended {document.get('ended')}"
    if entered != left + dropped + refused + lost + in_transit:
        return f"{entered} frames entered, {left} left, {dropped} dropped, {refused} refused, {lost} lost, {in_transit} in transit"
    if in_transit and document["ended"] == "drained":
        return f"it drained, and {in_transit} frames are in transit"
    if document["ended"] == "limit":
        return None if status == 4 else f"it reached its limit, and the status of a strict run is {status}"
    certain = any(is_between(drop) and drop["reason"] in BETWEEN for drop in document["drops"]) or document["losses"]
    possible = certain or any(drop["reason"] in LATE for drop in document["drops"])
    if status == 0 and certain or status == 4 and not possible:
        return f"the status of a strict run is {status}"
    if status == 0 and "rstp" in text and any(drop["reason"] in LATE for drop in document["drops"]):
        if not is_cut(text):
            return "a frame is missing at a port of its tree, and the status of a strict run is 0"
    return None


def is_cut(text):
    """Checks whether an end of a link leaves services out, so that frames may go nowhere in a tree that stays."""
    return "_services" in text


def run_one(folder, text):
    """Runs a plan strictly. Returns its document and its exit status."""
    path = folder.path / "net.toml"
    path.write_text(text)
    words = [PROGRAM, "run", "--strict", "--format", "json", str(path)]
    done = subprocess.run(words, stdout=subprocess.PIPE, stderr=subprocess.PIPE, env=PLAIN, check=False)
    return json.loads(done.stdout), done.returncode


def main():
    parser = argparse.ArgumentParser(description=__doc__.split("\n\n", maxsplit=1)[0])
    parser.add_argument("--runs", type=int, default=500, metavar="N", help="the number of runs [default: 500]")
    parser.add_argument("--seed", type=int, default=1, metavar="N", help="the seed of the first plan [default: 1]")
    options = parser.parse_args()
    need_program()
    wrong, total, statuses = 0, Counter(), Counter()
    with Folder() as folder:
        for seed in range(options.seed, options.seed + options.runs):
            text = plan_of(random.Random(seed))
            document, status = run_one(folder, text)
            why = check(document, status, text)
            if why:
                wrong += 1
                print(f"plan {seed}: {why}", file=sys.stderr)
            total.update(dict(zip(NAMES, sums(document))))
            statuses[status] += 1
    told = ", ".join(f"{total[name]} {name}" for name in NAMES)
    print(f"{options.runs} runs: {told}; strict status 0: {statuses[0]}, 4: {statuses[4]}; {wrong} wrong")
    return 1 if wrong else 0


if __name__ == "__main__":
    sys.exit(main())
