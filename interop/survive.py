#!/usr/bin/env python3
"""Compares what `survive`, `tree` and `diff` print of random plans with the closed form of the spanning tree.

usage: interop/survive.py [--program FILE] [--plans N] [--seed N] [--jobs N] [--second] [FILE..]

The closed form is closed_form.py, written from the standard alone. The plans have costs, priorities, parallel links,
links from a bridge to itself, lists of services by end, and both values of `prompt`, `queues` and `spanning`. Each
link, bridge and pair of links fails. A third has links, bridges and ports down from the start, by --down, and half of
them are analysed with --own. The second plan of `diff` is the first one with random changes. With FILEs these plans
are compared instead, by `survive` and `tree`, with nothing down from the start.

A conclusion may not differ if the program says that the bridges converged, and at most one failure in a hundred may
not converge. Ticks are not compared, and of a Designated port on standby the role alone. With --second the bridges of
second_network.py take the place of the program.

A report that differs is printed with its plan, and the exit status is 1. A plan depends only on the seed and its
number."""
import argparse
import collections
import multiprocessing
import pathlib
import random
import re
import subprocess
import sys
import tempfile
import tomllib

import common
import diff
from closed_form import Tree
from conclusions import STAYED, Case, Concluded, Survival, diff_lines, hide_states, tree_lines, without_ticks
from random_plans import Draft
from second_network import Network
from second_plan import read_plan


def down_names(dice, plan):
    """Returns one to three names of links, bridges and ports, or none."""
    if not plan.links or dice.random() < 0.66:
        return []
    names = []
    for link in dice.sample(plan.links, min(len(plan.links), dice.choice([1, 1, 2, 3]))):
        side = dice.choice("ab")
        names.append(dice.choice([link["name"], link[side], f"{link[side]}:{link[side + '_port']}"]))
    return list(dict.fromkeys(names))


def accepted(dice, case, options):
    """Returns acceptances: none, some, or those of every failure that disconnects a service."""
    share = dice.choice([0, 0, 0.1, 0.5, 1])
    found = []
    for failure in case.failures(["--bridges", "--pairs"]):
        if dice.random() < (share if share < 1 and dice.random() < 0.9 else 0.02):
            only = dice.choice([None, dice.choice(case.plan.services)["name"]])
            found.append((failure, only))
    if share == 1:
        survival = Survival(case, options, [])
        survival.report()
        found += [(failure, None) for failure, split in survival.disconnected.items() if split]
    return [one for number, one in enumerate(found) if one[0] not in [other[0] for other in found[:number]]]


def accept_tables(accepts):
    """Returns the tables of the plan file for acceptances."""
    text = ""
    for (kind, *names), only in accepts:
        value = f'["{names[0]}", "{names[1]}"]' if kind == "links" else f'"{names[0]}"'
        text += f"[[accept]]\n{kind} = {value}\n" + (f'service = "{only}"\n' if only else "")
    return text


def accepts_of(text, case):
    """Returns the acceptances of a plan file."""
    order, found = [row["name"] for row in case.plan.links], []
    for table in tomllib.loads(text).get("accept", []):
        kind = next(key for key in ("link", "bridge", "links") if key in table)
        names = sorted(table[kind], key=order.index) if kind == "links" else [table[kind]]
        found.append(((kind, *names), table.get("service")))
    return found


class Difference(Exception):
    """What a command printed, and what was expected."""

    def __init__(self, words, printed, wanted, *texts):
        lines = [" ".join(words), "--- printed", *printed, "--- expected", *wanted]
        for text in texts:
            lines += ["--- plan", text]
        super().__init__("\n".join(lines))


class Comparison:
    """Comparisons of the program with the closed form. `seen` counts what was compared."""

    def __init__(self, program, folder):
        self.program, self.folder, self.seen = program, pathlib.Path(folder), collections.Counter()

    def run(self, *words):
        done = subprocess.run([self.program, *words], stdout=subprocess.PIPE, stderr=subprocess.PIPE, check=False)
        return done.stdout.decode("utf-8", "replace").splitlines(), done.returncode

    def file(self, name, text):
        path = self.folder / f"{name}.toml"
        path.write_text(text, encoding="utf-8")
        return str(path)

    def survive(self, case, text, options):
        """Compares the report of `survive`."""
        words = ["survive", *options] + [word for name in case.downs for word in ("--down", name)]
        printed, status = self.run(*words, self.file("plan", text))
        if any(re.match(r"nothing .*down: not converged", line) for line in printed):
            self.seen["plans that do not converge"] += 1
            return
        survival = Survival(case, options, printed)
        wanted, code = survival.report()
        stayed = sum(1 for line in printed if STAYED.search(line))
        self.seen["failures"] += len(case.failures(options)) - stayed
        self.seen["failures under which bridges do not converge"] += stayed
        self.check(words, (without_ticks(printed), status), (without_ticks(wanted), code), text)

    def tree(self, case, text):
        """Compares the tree, but for the depths of services."""
        words = ["tree"] + [word for name in case.downs for word in ("--down", name)]
        printed, status = self.run(*words, self.file("plan", text))
        printed = [line for line in printed if not re.match(r"service \S+ bridge ", line)]
        wanted = tree_lines(case)
        if printed[:1] and STAYED.match(printed[0]):
            return
        self.seen["trees"] += 1
        self.check(words, (without_ticks(hide_states(printed, wanted)), status), (wanted, 0), text)

    def diff(self, dice, draft):
        """Compares what `diff` prints of the plan and a change of it, if all bridges converge."""
        texts = [draft.text(), draft.changed().text()]
        plans = [read_plan(text.encode()) for text in texts]
        bridges, pairs = dice.random() < 0.5, dice.random() < 0.3
        words = ["diff"] + ["--bridges"] * bridges + ["--pairs"] * pairs
        printed, status = self.run(*words, *map(self.file, ("plan", "new"), texts))
        lines, last, code = diff.report(*plans, bridges, pairs, None, Concluded)
        wanted = diff_lines(lines + [last], plans[0].rstp)
        try:
            self.check(words, (diff_lines(printed, plans[0].rstp), status), (wanted, code), *texts)
            self.seen["pairs of plans"] += 1
        except Difference:
            if all(map(self.is_whole, texts)):
                raise

    def is_whole(self, text):
        """Returns whether `survive` says that all bridges converge."""
        printed, _ = self.run("survive", "--bridges", "--pairs", "--all-failures", self.file("new", text))
        return not any(STAYED.search(line) for line in printed)

    def check(self, words, printed, wanted, *texts):
        if printed != wanted:
            found, expected = ([*lines, f"exit status {status}"] for lines, status in (printed, wanted))
            raise Difference(words, found, expected, *texts)


def richer(dice, draft):
    """Returns the plan with more links and ports and fewer lists of services, most often, so that more are healthy."""
    for _ in range(dice.choice([0, 2, 4, 6])):
        draft.add_link()
    for row in draft.link if dice.random() < 0.6 else []:
        for side in "ab":
            row.pop(side + "_services", None)
    for _ in range(20 if dice.random() < 0.8 else 0):
        if any(sum(port["service"] == row["name"] for port in draft.port) < 2 for row in draft.service):
            draft.add_port()
    return draft


def compare_program(program, seed, number):
    """Compares the program on a random plan."""
    dice = random.Random(f"{seed}/{number}")
    draft = richer(dice, Draft(dice, 8, 8))
    text = draft.text()
    plan = read_plan(text.encode())
    with tempfile.TemporaryDirectory() as folder:
        comparison = Comparison(program, folder)
        case = Case(plan, down_names(dice, plan))
        shares = {"--bridges": 0.9, "--pairs": 0.9, "--all-failures": 0.8, "--own": 0.5}
        options = [name for name, share in shares.items() if dice.random() < share]
        case.accepts = accepted(dice, case, options)
        comparison.survive(case, text + accept_tables(case.accepts), options)
        comparison.tree(case, text)
        comparison.diff(dice, draft)
        return comparison.seen


def compare_second(_, seed, number, changes=4):
    """Compares the second implementation on a random plan, after each of some random settings of ends of links."""
    dice = random.Random(f"{seed}/{number}")
    draft = Draft(dice, 8, 13)
    draft.network["spanning"] = "rstp"
    for row in draft.link:
        row.pop("b_state", None)
    plan = read_plan(draft.text().encode())
    driven, disabled, seen = diff.Driven(plan, Network(plan)), set(), collections.Counter()
    ends = [(end.bridge, end.port) for link in plan.links for end in (link["end_a"], link["end_b"])]
    for _ in range(changes):
        converged = driven.converged
        seen["trees" if converged else "trees that do not converge"] += 1
        if converged:
            check_second(driven, Tree(plan, disabled), draft.text())
        for bridge, port in dice.sample(ends, min(len(ends), dice.choice([1, 1, 2, 4]))):
            is_up = (bridge, port) in disabled
            driven.net.by_number[bridge].admin(port, is_up)
            disabled ^= {(bridge, port)}
        driven.converged = driven.converge()
    return seen


def check_second(driven, tree, text):
    """Compares root vectors, roles, active links and groups."""
    bridges, found, wanted = driven.net.by_number, [], []
    for at, bridge in enumerate(bridges):
        found.append(f"{bridge.row['name']} {bridge.tree.root}")
        wanted.append(f"{bridge.row['name']} {tree.vectors[at]}")
    for number, (a, b) in enumerate(tree.links):
        one, two = (bridges[end.at].tree.ports[end.port] for end in (a, b))
        name = tree.plan.links[number]["name"]
        found.append(f"{name} {one.role} {two.role} {one.state == two.state == diff.FORWARDING}")
        wanted.append(f"{name} {tree.role(a, b)} {tree.role(b, a)} {tree.is_active(number)}")
    for index, row in enumerate(tree.plan.services):
        is_forest, groups = driven.view(row["name"])
        shared = [[name for name in groups if groups[name] == value] for value in dict.fromkeys(groups.values())]
        found.append(f"{row['name']} {is_forest} {shared}")
        wanted.append(f"{row['name']} {tree.view(index)}".replace("(", "").replace(",", "", 1).replace(")", ""))
    if found != wanted:
        raise Difference(["the second implementation"], found, wanted, text)


def try_plan(job):
    """Returns what was compared of a plan, and what differs."""
    compare, *words = job
    try:
        return compare(*words), None
    except Difference as difference:
        return {}, str(difference)


def compare_files(program, files):
    """Compares plans of the user. Returns how many differ."""
    wrong = 0
    for name in files:
        text = pathlib.Path(name).read_text(encoding="utf-8")
        with tempfile.TemporaryDirectory() as folder:
            case, comparison = Case(read_plan(text.encode())), Comparison(program, folder)
            case.accepts = accepts_of(text, case)
            try:
                comparison.survive(case, text, ["--bridges", "--pairs", "--all-failures"])
                comparison.tree(case, text)
            except Difference as difference:
                wrong += 1
                print(f"error: {name} differs: {difference}", file=sys.stderr)
    print(f"{len(files) - wrong} of {len(files)} plans are alike")
    return wrong


def main():
    text, usage, notes = re.fullmatch(r"(.*?)\n\nusage: (.*?)\n\n(.*)", __doc__, re.S).groups()
    parser = argparse.ArgumentParser(usage=usage, description=text, epilog=notes)
    parser.add_argument("--program", default=common.PROGRAM, metavar="FILE", help="the program [default: ./pbnet]")
    parser.add_argument("--plans", type=int, default=2000, metavar="N", help="the number of plans [default: 2000]")
    parser.add_argument("--seed", default="1", metavar="N", help="the seed of the plans [default: 1]")
    parser.add_argument("--jobs", type=int, default=4, metavar="N", help="the number of processes [default: 4]")
    parser.add_argument("--second", action="store_true", help="compare the second implementation, not the program")
    parser.add_argument("files", nargs="*", metavar="FILE", help="plans to compare in place of random ones")
    given = parser.parse_args()
    if given.files:
        return 1 if compare_files(given.program, given.files) else 0
    compare = compare_second if given.second else compare_program
    jobs = [(compare, given.program, given.seed, number) for number in range(given.plans)]
    wrong, seen = 0, collections.Counter()
    with multiprocessing.Pool(given.jobs) as pool:
        for number, (counts, difference) in enumerate(pool.imap(try_plan, jobs, 4)):
            seen.update(counts)
            if difference:
                wrong += 1
                print(f"error: plan {number} differs: {difference}", file=sys.stderr, flush=True)
    print(f"compared {', '.join(f'{number} {what}' for what, number in sorted(seen.items()) if number)}")
    print(f"{given.plans - wrong} of {given.plans} plans are alike")
    stayed = sum(number for what, number in seen.items() if "not converge" in what)
    if 100 * stayed > sum(seen.values()):
        print(f"error: bridges did not converge {stayed} times", file=sys.stderr)
        return 1
    return 1 if wrong or not seen["trees"] else 0


if __name__ == "__main__":
    sys.exit(main())
