"""What `survive`, `tree` and `diff` are to print of a plan, by the closed form of closed_form.py."""

import itertools
import re

from closed_form import DESIGNATED, Tree

TICKS = re.compile(r"\bticks \d+")
STAYED = re.compile(r"not converged ticks")
MOST_TICKS = "most ticks to convergence: "


class Case:
    """A plan, what is down from the start, as --down names it, and the failures that are accepted: each with the only
    service that it may disconnect, or None."""

    def __init__(self, plan, downs=(), accepts=()):
        self.plan, self.downs, self.accepts = plan, list(downs), list(accepts)
        self.bridges = {row["name"]: index for index, row in enumerate(plan.bridges)}

    def ends_of(self, name):
        """Returns the ends that a name disables."""
        if ":" in name:
            bridge, port = name.split(":")
            return {(self.bridges[bridge], int(port))}
        hit = [link for link in self.plan.links if name in (link["name"], link["a"], link["b"])]
        return {(end.bridge, end.port) for link in hit for end in (link["end_a"], link["end_b"])}

    def tree(self, failed=()):
        """Returns the spanning tree with these links and bridges down too."""
        return Tree(self.plan, set().union(*map(self.ends_of, [*self.downs, *failed])))

    def views(self, failed=()):
        """Returns, for each service, whether its active links are a forest, and the groups of its ports."""
        tree = self.tree(failed)
        out = {self.bridges[name] for name in [*self.downs, *failed] if name in self.bridges}
        return {row["name"]: tree.view(index, out) for index, row in enumerate(self.plan.services)}

    def is_accepted(self, failure, service):
        return any(named == failure and only in (None, service) for named, only in self.accepts)

    def failures(self, options):
        """Returns the kind and the names of each failure."""
        links = [row["name"] for row in self.plan.links]
        found = [("link", name) for name in links]
        found += [("bridge", name) for name in self.bridges] if "--bridges" in options else []
        return found + [("links", *two) for two in itertools.combinations(links, 2) if "--pairs" in options]


def counted(number, noun):
    """Returns a number and a noun, which has an `s` unless the number is 1."""
    return f"{number} {noun}{'' if number == 1 else 's'}"


def groups_line(service, groups):
    return f"  service {service}:" + " |".join("".join(f" {name}" for name in group) for group in groups)


def unhealthy(name, view):
    """Returns the reasons why a service is not healthy."""
    is_forest, groups = view
    reasons = ["is disconnected"] if len(groups) > 1 else []
    reasons += [] if is_forest else ["has a forwarding loop"]
    reasons += ["has fewer than two ports"] if sum(map(len, groups)) < 2 else []
    return [f"service {name} {reason}" for reason in reasons]


def blocks_of(printed):
    """Returns the lines of each failure that the report has, by its first words."""
    found, block = {}, []
    for line in printed:
        head = re.match(r"(?:accepted )?((?:links?|bridge) .* down): ", line)
        if head:
            block = found[head[1]] = []
        if head or line.startswith("  "):
            block.append(line)
    return found


def verdict(kinds, is_accepted):
    """Returns the last line if no failure of these kinds does harm, given whether one is accepted."""
    what = {
        (False, False): "one link",
        (True, False): "one link or bridge",
        (False, True): "two links",
        (True, True): "two links or one bridge",
    }
    survives = f"survives the failure of any {what['bridge' in kinds, 'links' in kinds]}"
    return survives + (", but for accepted disconnections" if is_accepted else "")


class Survival:
    """What `survive` is to print of a case, with some of the options --bridges, --pairs, --own and --all-failures."""

    def __init__(self, case, options, printed):
        self.case, self.options = case, options
        self.own, self.all = "--own" in options, "--all-failures" in options
        self.rest = "converged ticks N" if case.plan.rstp else "states given"
        self.base = case.views()
        self.printed = blocks_of(printed)
        self.harms = {"disconnect a service": 0, "form a forwarding loop": 0, "do not converge": 0}
        self.spared = self.accepted = 0
        self.disconnected = {}

    def head(self, what, views):
        return f"{what} down: {self.rest} forest {'yes' if all(view[0] for view in views.values()) else 'no'}"

    def first(self):
        """Returns the lines with nothing else down, and the line on health."""
        downs = self.case.downs
        nothing = "nothing else" if downs else "nothing"
        lines = [" ".join(["down:", *downs])] if downs else []
        lines.append(self.head(nothing, self.base))
        for name, (is_forest, groups) in self.base.items():
            lines += [] if is_forest else [f"  loop {name}"]
            lines.append(groups_line(name, groups))
        reasons = [unhealthy(name, view) for name, view in self.base.items()]
        lines += itertools.chain(*reasons)
        sick = sum(map(bool, reasons))
        if not sick:
            return lines + [f"healthy with {nothing} down"], None
        health = f"not healthy with {nothing} down: {counted(sick, 'service')}"
        return lines + [health], health

    def is_split(self, failure, old, new):
        """Returns whether a group of ports that count is in several groups. Those of a failed bridge count with
        --own."""
        at = {row["name"]: row["bridge"] for row in self.case.plan.ports}
        judged = {name for name in old if self.own or failure[0] != "bridge" or at[name] != failure[1]}
        return sum(1 for group in new if judged.intersection(group)) > 1

    def block(self, failure):
        """Returns the lines of a failure, and counts what it does. If the program says that the bridges did not
        converge, the lines are its own."""
        what = " ".join(failure)
        said = self.printed.get(f"{what} down", [])
        if said and STAYED.search(said[0]):
            split = [line.split()[1].rstrip(":") for line in said if line.startswith("  service ")]
            self.count(failure, split, said[0].endswith("forest no"), True)
            return said
        views = self.case.views(failure[1:])
        split = [s for s, view in views.items() if any(self.is_split(failure, it, view[1]) for it in self.base[s][1])]
        loops = [s for s, view in views.items() if not view[0]]
        is_accepted = self.count(failure, split, bool(loops), False)
        if not split and not loops and not self.all:
            return []
        lines = ["accepted " * is_accepted + self.head(what, views)]
        for name, (_, groups) in views.items():
            lines += [f"  loop {name}"] if name in loops else []
            lines += [groups_line(name, groups)] if name in split else []
        return lines

    def count(self, failure, split, loops, stays):
        """Counts what a failure does. Returns whether it disconnects services, which is accepted, and does nothing else."""
        self.disconnected[failure] = split
        harmed = [service for service in split if not self.case.is_accepted(failure, service)]
        for what, does in zip(self.harms, (bool(harmed), loops, stays)):
            self.harms[what] += does
        is_accepted = bool(split) and not harmed and not loops and not stays
        self.spared += not split
        self.accepted += is_accepted
        return is_accepted

    def needless(self):
        """Returns the lines on acceptances of failures that were not tried, or that disconnect nothing accepted."""
        lines = []
        for named, only in self.case.accepts:
            text = " ".join([*named, *(["service", only] if only else [])])
            split = self.disconnected.get(named)
            if split is None:
                lines.append(f"untried acceptance: {text}")
            elif not (only in split if only else split):
                lines.append(f"stale acceptance: {text}")
        return lines

    def totals(self, failures, sick):
        """Returns the lines after the failures."""
        every, kinds = len(failures), [kind for kind, *_ in failures]
        numbers = [(kinds.count(kind), noun) for kind, noun in (("bridge", "bridge"), ("links", "pair"))]
        texts = [counted(number, noun) for number, noun in numbers if number]
        lines = [", ".join([f"checked {counted(kinds.count('link'), 'link')}", *texts])]
        lines += [f"{self.spared} of {every} failures disconnect nothing"] if self.spared else []
        is_timed = self.case.plan.rstp and failures and not self.harms["do not converge"]
        lines += ["converges within N ticks"] if is_timed else []
        lines += [f"{self.accepted} of {every} failures are accepted"] if self.accepted else []
        lines += [f"{number} of {every} failures {what}" for what, number in self.harms.items() if number]
        lines += self.needless()
        if sick:
            return lines + [sick]
        return lines + ([] if any(self.harms.values()) else [verdict(kinds, self.accepted > 0)])

    def report(self):
        """Returns the lines and the exit status."""
        lines, sick = self.first()
        failures = self.case.failures(self.options)
        for failure in failures:
            lines += self.block(failure)
        lines += self.totals(failures, sick)
        return lines, 4 if sick or any(self.harms.values()) else 0


def without_ticks(lines):
    return [TICKS.sub("ticks N", re.sub(r"within \d+ ticks?", "within N ticks", line)) for line in lines]


def tree_lines(case):
    """Returns what `tree` is to print, up to the forest. The state of a Designated port on standby is `-`."""
    tree, plan = case.tree(), case.plan
    ends = {}
    for number, link in enumerate(tree.links):
        for near, far in (link, link[::-1]):
            ends[near.at, near.port] = (number, near, far)
    names = [row["name"] for row in plan.bridges]
    lines = ["converged ticks N"] if plan.rstp else []
    for at, name in enumerate(names):
        root, cost, _, _, port_id = tree.vectors[at]
        port = f" port {port_id % 256}" if port_id else ""
        more = f" root {names[tree.ids.index(root)]} cost {cost}{port}" if plan.rstp else ""
        lines.append(f"bridge {name}{more}")
        lines += [port_line(tree, names, *ends[key]) for key in sorted(ends) if key[0] == at]
    loops = [name for name, (is_forest, _) in case.views().items() if not is_forest]
    return lines + ["forest no" if loops else "forest yes"] + [f"loop {name}" for name in sorted(loops)]


def state_of(tree, number, near, far):
    """Returns the state of an end, or `-` if it is Designated and not in the tree: it forwards after a while."""
    if not tree.plan.rstp:
        link = tree.plan.links[number]
        end = link["end_a"] if (link["end_a"].bridge, link["end_a"].port) == (near.at, near.port) else link["end_b"]
        return end.state if tree.is_enabled(near) else "discarding"
    if tree.is_active(number):
        return "forwarding"
    return "-" if tree.role(near, far) == DESIGNATED else "discarding"


def port_line(tree, names, number, near, far):
    start = f"port {names[near.at]} {near.port} link {tree.plan.links[number]['name']}"
    state = state_of(tree, number, near, far)
    if not tree.plan.rstp:
        return f"{start} {state}"
    role = tree.role(near, far)
    known = far if role in ("root", "alternate", "backup") else near
    return f"{start} {role} {state} cost {near.cost} from {names[known.at]}"


def hide_states(printed, wanted):
    """Replaces the states that are not wanted in what `tree` printed."""
    lines = []
    for line, want in itertools.zip_longest(printed, wanted, fillvalue=""):
        words, wants = line.split(" "), want.split(" ")
        if len(words) == len(wants) > 6 and wants[6] == "-":
            words[6] = "-"
        lines.append(" ".join(words))
    return lines[: len(printed)]


class Concluded:
    """A plan's network with nothing down, or under a failure, for diff.report."""

    converged, ticks = True, 0

    def __init__(self, plan, failure=()):
        self.plan, self.case = plan, Case(plan)
        self.failed = [name for _, name in failure]
        self.views = self.case.views(self.failed)

    def after(self, failure):
        return Concluded(self.plan, failure) if failure else self

    def view(self, service):
        is_forest, groups = self.views[service]
        of = {name: place for place, group in enumerate(groups) for name in group}
        return is_forest, {row["name"]: of[row["name"]] for row in self.plan.ports if row["name"] in of}

    def ends(self):
        """Returns the role of both ends of each link, or the states that the plan gives."""
        tree, found = self.case.tree(self.failed), {}
        for number, (a, b) in enumerate(tree.links):
            if self.plan.rstp:
                text = f"a {tree.role(a, b)}, b {tree.role(b, a)}"
            else:
                text = f"a {state_of(tree, number, a, b)}, b {state_of(tree, number, b, a)}"
            found[self.plan.links[number]["name"]] = text
        return found


def diff_lines(lines, is_rstp):
    """Returns the lines of `diff` without ticks and without states that bridges chose."""
    kept = []
    for line in lines:
        head = re.match(r"link \S+ with nothing down: ", line)
        if head and is_rstp:
            was, now = re.sub(r" (discarding|learning|forwarding)", "", line[head.end() :]).split(" -> ")
            kept += [f"{head[0]}{was} -> {now}"] if was != now else []
        elif not line.startswith(MOST_TICKS):
            kept.append(line)
    return kept if len(kept) > 1 else ["no difference"]
