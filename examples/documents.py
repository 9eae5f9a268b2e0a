#!/usr/bin/env python3
"""Compares documents of reports with the reports.

usage: examples/documents.py COMMAND REPORT DOCUMENT
       examples/documents.py COMMAND REPORT --write

Reads a report of check, run, step, trace, tree, survive or diff with rules of its own, and compares what it says with a
document: JSON, or CSV where the file's name ends in .csv. JSON begins with the command, the version and the plan file;
what comes after them is compared. A report of check on a plan that is refused is what it prints, and then what standard
error says. Prints what differs, with exit status 1. With --write it prints that part of the JSON instead."""
import csv
import json
import re
import sys

NAME = r"[\w-]+"
YES = {"yes": True, "no": False}


def number(word):
    return int(word)


def yes(word):
    return YES[word]


def words(text):
    return text.split()


def numbers(text):
    return [int(word) for word in text.split()]


def groups(text):
    return [group.split() for group in text.split("|")] if text.strip() else []


# How a group of an expression is read, by its name; a group of any other name is text.
READ = {
    **dict.fromkeys(
        "bridges links services ports line column rule entered left filtered ab_taken ab_lost ba_taken ba_lost ticks number others events "
        "in_transit dropped refused lost vid priority cost root_port depth part_nothing failures_tried most_ticks part_a_service form_a_loop "
        "do_not_converge are_accepted unhealthy_services checked_links checked_bridges checked_pairs better worse old_most_ticks "
        "new_most_ticks".split(),
        number,
    ),
    "forest": yes,
    "settled": yes,
    "groups": groups,
    **dict.fromkeys("left_at goes_round_over from_ports no_room downs".split(), words),
    "relayed_to": numbers,
}
# Groups whose key differs from their name.
KEYS = {"from_ports": "from", "port_number": "port", "downs": "down"}
READ |= {"port_number": number, "code": number, "bridge_port": number, "count": number}

PLAN = rf"ok bridges (?P<bridges>\d+) links (?P<links>\d+) services (?P<services>\d+) ports (?P<ports>\d+)"
FOREST = r"forest (?P<forest>yes|no)"
LOOP = rf"loop (?P<service>{NAME})"
PLAN_FAULT = r"plan: (?P<rule>\d+) (?P<fault>\S+)(?: (?P<name>.*))?"
FAULT = r"fault: (?P<fault>.*)"
SETTLED = r"settled (?P<settled>yes|no)"
CONVERGED_AFTER = r"(?P<convergence>converged|not converged) ticks (?P<ticks>\d+)"
PORT = rf"port (?P<name>{NAME}) entered (?P<entered>\d+) left (?P<left>\d+) filtered (?P<filtered>\d+)"
LINK = rf"link (?P<name>{NAME}) ab taken (?P<ab_taken>\d+) lost (?P<ab_lost>\d+) ba taken (?P<ba_taken>\d+) lost (?P<ba_lost>\d+)"
CONVERGENCE = r"(?:(?P<convergence>converged|not converged) ticks (?P<ticks>\d+)|states given) forest (?P<forest>yes|no)"
ONE_DOWN = rf"(?P<down>link|bridge) (?P<name>{NAME})(?: service (?P<service>{NAME}))?"
TWO_DOWN = rf"(?P<down>links) (?P<name>{NAME}) (?P<other>{NAME})(?: service (?P<service>{NAME}))?"

ENDS = [("plan_fault", PLAN_FAULT, {}), ("", FAULT, {})]
FORESTS = [("", FOREST, {}), ("loops", LOOP, {})]
HOP = rf"(?P<indent> *)(?P<bridge>{NAME}) (?P<port_number>\d+) from (?P<from>{NAME}), (?:untagged|(?P<service>[\w -]+) vid (?P<vid>\d+) priority (?P<priority>\d+)(?:, tag (?P<tag_taken_off>[0-9a-f]+) removed)?)(?:, (?P<source>source [\w ]+|table full))?(?:, (?P<way>known|flooded))?: "
PART = rf"(?P<part>bridge|link|service|port) (?P<name>{NAME})"
SERVICE = rf"service (?P<service>{NAME}): "
CHANGE = r"better and worse|better|worse|no change"
# What may have changed with nothing down, and under each failure.
CHANGES = [
    ("reach", SERVICE, r"now reach each other:(?P<groups>.*)", {"reach": True}),
    ("reach", SERVICE, r"no longer reach each other:(?P<groups>.*)", {"reach": False}),
    ("loop_changes", SERVICE, r"now forms a forwarding loop", {"loop": True}),
    ("loop_changes", SERVICE, r"no longer forms a forwarding loop", {"loop": False}),
    ("convergence", "", r"bridges now converge", {"converges": True}),
    ("convergence", "", r"bridges no longer converge", {"converges": False}),
]
# For each command the lines: in which list they stand, how they look, and what they say besides.
LINES = {
    "check": [
        ("counts", PLAN, {}), *FORESTS, ("warnings", r"warning: file:(?:(?P<line>\d+):)? (?P<message>.*)", {}), *ENDS,
        ("hint", r"hint: (?P<hint>.*)", {}), ("excerpt", r"    .*", {}),
        ("errors", r"(?P<file>.+?):(?P<line>\d+):(?P<column>\d+): (?P<message>.*)", {}), ("errors", r"(?P<file>.+?): (?P<message>.*)", {}),
    ],
    "run": [
        ("", rf"ended (?P<ended>\w+)", {}), ("ports", PORT, {}), ("links", LINK, {}), *FORESTS, ("", SETTLED, {}),
        ("port_faults", rf"fault: port (?P<port>{NAME}) (?P<code>\d+)", {}),
        ("losses", rf"port (?P<port>{NAME}): (?P<count>\d+) (?P<what>frames not written)", {}),
        ("losses", rf"port (?P<port>{NAME}): (?P<count>\d+) (?P<what>frames not sent): (?P<why>.*)", {}),
        ("losses", rf"tap of link (?P<link>{NAME}): (?P<count>\d+) (?P<what>frames not written)", {}),
        ("losses", rf"bridge (?P<bridge>{NAME}) port (?P<bridge_port>\d+): (?P<count>\d+) (?P<what>(?:copies|BPDUs) not queued): (?P<cause>full|memory)", {}),
        ("losses", rf"bridge (?P<bridge>{NAME}): (?P<count>\d+) (?P<what>sources not learnt): (?P<cause>full|memory)", {}),
        ("losses", r"(?P<what>bridges not converged)", {}),
        ("drops", rf"port (?P<port>{NAME}): (?P<count>\d+) datagrams dropped: (?P<reason>[a-z-]+)", {}),
        ("drops", rf"port (?P<port>{NAME}): (?P<count>\d+) (?P<what>receives failed): (?P<why>.*)", {}),
        ("drops", rf"bridge (?P<bridge>{NAME}) port (?P<bridge_port>\d+): (?P<count>\d+) frames dropped: (?P<reason>[a-z-]+)", {}),
        ("", r"frames in transit: (?P<in_transit>\d+)", {}),
        ("paths", rf"error: port (?P<port>{NAME}): (?:cannot )?(?P<use>read|write|connect|listen|bind) (?P<path>.*?): (?P<why>.*)", {}),
        ("paths", rf"error: tap of link (?P<link>{NAME}): (?P<use>write) (?P<path>.*?): (?P<why>.*)", {}),
        ("paths", r"error: cannot create control socket (?P<path>.*?): (?P<why>.*)", {"use": "control"}),
        ("warnings", r"warning: (?P<message>.*)", {}), *ENDS,
    ],
    "step": [("ports", PORT, {}), ("links", LINK, {}), *FORESTS, ("", SETTLED, {}), *ENDS, ("answers", r"(?P<answer>.*)", {})],
    "tree": [
        ("", CONVERGED_AFTER, {}),
        ("bridges", rf"bridge (?P<name>{NAME})(?: root (?P<root>{NAME}) cost (?P<cost>\d+)(?: port (?P<root_port>\d+))?)?", {}),
        ("ports", rf"port (?P<bridge>{NAME}) (?P<port_number>\d+) link (?P<link>{NAME})(?: (?P<role>\w+))? (?P<state>\w+)(?: cost (?P<cost>\d+) from (?P<from>{NAME}))?", {}),
        ("branches", rf"service (?P<service>{NAME}) bridge (?P<bridge>{NAME}) up (?P<up>{NAME}) depth (?P<depth>\d+)", {}),
        *FORESTS, *ENDS,
    ],
    "survive": [
        ("", r"down:(?P<downs>(?: \S+)+)", {}),
        ("nothing_down", rf"nothing (?:else )?down: {CONVERGENCE}", {}),
        *[("failures", rf"{lead}{what} down: {CONVERGENCE}", besides)
            for lead, besides in (("", {}), ("accepted ", {"accepted": True}))
            for what in (rf"(?P<down>link|bridge) (?P<name>{NAME})", rf"(?P<down>links) (?P<name>{NAME}) (?P<other>{NAME})")],
        ("loops", rf"  loop (?P<name>{NAME})", {}),
        ("services", rf"  service (?P<name>{NAME}):(?P<groups>.*)", {}),
        ("cut_off", rf"  (?P<port>{NAME}) cut off from:(?P<from_ports>.*)", {}),
        ("unhealthy", rf"service (?P<service>{NAME}) is disconnected", {"fault": "disconnected"}),
        ("unhealthy", rf"service (?P<service>{NAME}) has a forwarding loop", {"fault": "loop"}),
        ("unhealthy", rf"service (?P<service>{NAME}) has fewer than two ports", {"fault": "too few ports"}),
        ("unhealthy", r"bridges do not converge", {"fault": "not converged"}),
        ("", r"healthy with nothing (?:else )?down", {"healthy": True}),
        ("", r"not healthy with nothing (?:else )?down: (?:no service|(?P<unhealthy_services>\d+) services?)(?:, bridges do not converge)?",
            {"healthy": False, "survives": False}),
        ("", r"checked (?P<checked_links>\d+) links?(?:, (?P<checked_bridges>\d+) bridges?)?(?:, (?P<checked_pairs>\d+) pairs?)?", {}),
        ("", r"(?P<part_nothing>\d+) of (?P<failures_tried>\d+) failures disconnect nothing", {}),
        ("", r"converges within (?P<most_ticks>\d+) ticks?", {}),
        ("", r"(?P<are_accepted>\d+) of (?P<failures_tried>\d+) failures are accepted", {}),
        ("", r"(?P<part_a_service>\d+) of (?P<failures_tried>\d+) failures disconnect a service", {"survives": False}),
        ("", r"(?P<form_a_loop>\d+) of (?P<failures_tried>\d+) failures form a forwarding loop", {"survives": False}),
        ("", r"(?P<do_not_converge>\d+) of (?P<failures_tried>\d+) failures do not converge", {"survives": False}),
        ("acceptances", r"(?P<state>stale|untried) acceptance: (?P<accepts>.*)", {}),
        ("", r"survives the failure of (?P<tried>.+)", {"survives": True}),
        ("no_such", rf"no such service (?P<service>.*)", {}), ("no_such", rf"no such port (?P<port>.*)", {}), *ENDS,
    ],
    "diff": [
        *[(home, rf"{lead}nothing down: {words}", {"down": "nothing", **besides}) for home, lead, words, besides in CHANGES],
        *[(home, rf"{lead}(?P<down>link|bridge) (?P<name>{NAME}) down: {words}", besides) for home, lead, words, besides in CHANGES],
        *[(home, rf"{lead}(?P<down>links) (?P<name>{NAME}) (?P<other>{NAME}) down: {words}", besides) for home, lead, words, besides in CHANGES],
        ("failures", rf"(?P<down>link|bridge) (?P<name>{NAME}) down: (?P<change>{CHANGE})", {}),
        ("failures", rf"(?P<down>links) (?P<name>{NAME}) (?P<other>{NAME}) down: (?P<change>{CHANGE})", {}),
        ("ends", rf"link (?P<link>{NAME}) with nothing down: a (?P<old_a>[\w ]+), b (?P<old_b>[\w ]+) -> a (?P<new_a>[\w ]+), b (?P<new_b>[\w ]+)", {}),
        ("parts", rf"{PART}: (?P<change>added|removed)", {}),
        ("fields", rf"{PART}: (?P<key>\w+): (?P<old>.*) -> (?P<new>.*)", {}),
        ("network", r"network: (?P<key>\w+): (?P<old>.*) -> (?P<new>.*)", {}),
        ("", r"most ticks to convergence: (?:none|(?P<old_most_ticks>\d+)) -> (?:none|(?P<new_most_ticks>\d+))", {}),
        ("", r"better: (?P<better>\d+) of (?P<failures_tried>\d+) failures; worse: (?P<worse>\d+) of \d+ failures; with nothing down: (?P<nothing_down_change>.*)", {}),
        ("", r"no difference", {"differs": False}),
        ("no_such", rf"no such service (?P<service>.*)", {}), *ENDS,
    ],
    "trace": [
        ("", CONVERGED_AFTER, {}),
        ("frames", rf"in (?P<frame>[0-9a-f]+): polled (?P<port>{NAME}) (?P<number>\d+)", {}),
        ("hops", HOP + r"relayed(?P<relayed_to>(?: \d+)*)(?P<no_room>(?: (?:full|memory) \d+)*)", {"event": "received", "outcome": "relayed"}),
        ("hops", HOP + r"dropped: (?P<reason>.*)", {"event": "received", "outcome": "dropped"}),
        ("hops", rf"(?P<indent> *)(?P<bridge>{NAME}) (?P<port_number>\d+) to (?P<to>{NAME})(?:, tag (?P<tag>removed|[0-9a-f]+(?P<put_on> added)?))?", {"event": "sent"}),
        ("hops", rf"(?P<indent> *)(?P<link>{NAME}) (?P<direction>ab|ba): (?P<event>taken|lost) (?P<number>\d+)", {}),
        ("hops", rf"(?P<indent> *)(?P<port>{NAME}): delivered (?P<frame>[0-9a-f]+)", {"event": "delivered"}),
        ("", r"other events (?P<others>\d+)", {}),
        ("", r"loops over(?P<goes_round_over>.*); ended after (?P<events>\d+) events", {}),
        ("", r"(?:delivered at(?P<left_at>.*)|not delivered); dropped (?P<dropped>\d+); refused (?P<refused>\d+); lost (?P<lost>\d+)", {}), *ENDS,
    ],
}
# The lists of each document, and how their lines stand there.
LISTS = {
    "check": {"counts": "one", "loops": "values", "warnings": "objects", "plan_fault": "one"},
    "run": {"ports": "objects", "links": "objects", "loops": "values", "port_faults": "objects", "losses": "objects", "drops": "objects", "paths": "objects",
            "warnings": "objects", "plan_fault": "one"},
    "step": {"answers": "values", "ports": "objects", "links": "objects", "loops": "values", "plan_fault": "one"},
    "trace": {"frames": "objects", "plan_fault": "one"},
    "tree": {"bridges": "objects", "loops": "values", "branches": "objects", "plan_fault": "one"},
    "survive": {"nothing_down": "one", "failures": "objects", "acceptances": "objects", "no_such": "one", "plan_fault": "one"},
    "diff": {"parts": "objects", "fields": "objects", "network": "objects", "reach": "objects", "loop_changes": "objects",
             "ends": "objects", "convergence": "objects", "failures": "objects", "no_such": "one", "plan_fault": "one"},
}
# The lists inside objects that have the value of each line alone.
PLAIN = {"survive": ["loops"]}
INNER = {
    "check": {"plan_fault": ["errors"]},
    "trace": {"frames": ["hops"]},
    "tree": {"bridges": ["ports"]},
    "survive": {"nothing_down": ["loops", "services", "unhealthy"], "failures": ["loops", "services", "cut_off"]},
}
SOURCES = {"source is a group address": "group", "table full": "table full"}


def said(match, besides):
    """Returns what a line says."""
    row = {KEYS.get(key, key): READ.get(key, str)(text) for key, text in match.groupdict().items() if text is not None}
    if "indent" in row:
        row["depth"] = len(row.pop("indent")) // 2
    if "convergence" in row:
        row["converged"] = row.pop("convergence") == "converged"
    if "source" in row:
        row["source"] = SOURCES.get(row["source"], row["source"].removeprefix("source "))
    if row.pop("put_on", None):
        row |= {"tag": row["tag"].removesuffix(" added"), "put_on": True}
    if match.re.pattern.startswith(HOP) and "vid" not in row:
        row["untagged"] = True
    if match.string.startswith("not delivered"):
        row["left_at"] = []
    return row | besides


def rows_of(command, text):
    """Returns the list and the words of each line."""
    for line in text.splitlines():
        for home, pattern, besides in LINES[command]:
            match = re.fullmatch(pattern, line)
            if match:
                yield home, said(match, besides)
                break
        else:
            yield "other", {"line": line}


def document_of(command, text):
    lists, inner = LISTS[command], INNER.get(command, {})
    document = {home: [] for home, kind in lists.items() if kind != "one"}
    owner = {}
    for home, row in rows_of(command, text):
        kind = lists.get(home)
        if not home:
            document |= row
        elif kind == "values" or home == "other":
            document.setdefault(home, []).append(next(iter(row.values())))
        elif home == "hint":
            owner["errors"][-1] |= row
        elif home == "excerpt":
            continue
        elif kind is None:
            owner[home].append(next(iter(row.values())) if home in PLAIN.get(command, []) else row)
        else:
            owner = {key: row.setdefault(key, []) for key in inner.get(home, [])}
            if kind == "one":
                document[home] = row
            else:
                document[home].append(row)
    return document


def table_of(command, text):
    def cell(value):
        return {True: "yes", False: "no"}.get(value, value) if isinstance(value, bool) else str(value)

    document = document_of(command, text)
    if command == "survive":
        titles = ["down", "name", "other", "converged", "ticks", "forest", "accepted"]
        return [titles] + [[cell(row.get(key, "")) for key in titles] for row in document["failures"]]
    table = [["kind", "name", "direction", "entered", "left", "filtered", "taken", "lost"]]
    for it in document["ports"]:
        table.append(["port", it["name"], "", cell(it["entered"]), cell(it["left"]), cell(it["filtered"]), "", ""])
    for it in document["links"]:
        for way in ("ab", "ba"):
            table.append(["link", it["name"], way, "", "", "", cell(it[f"{way}_taken"]), cell(it[f"{way}_lost"])])
    return table


def main():
    if len(sys.argv) != 4:
        sys.exit(__doc__)
    command, report, document = sys.argv[1:]
    with open(report, encoding="utf-8", newline="\n") as file:
        text = file.read()
    if document == "--write":
        print(json.dumps(document_of(command, text), indent=2, sort_keys=True))
        return 0
    with open(document, encoding="utf-8", newline="") as file:
        if document.endswith(".csv"):
            given, wanted = list(csv.reader(file)), table_of(command, text)
        else:
            given, wanted = json.load(file), document_of(command, text)
            head = [given.pop(key, None) for key in ("command", "version", "plan")]
            if head[0] != command or not all(head):
                print(f"documents: {document} begins with {head}", file=sys.stderr)
                return 1
            given.pop("old_plan", None)
    if given == wanted:
        return 0
    print(f"documents: {document} does not say what {report} says:\n{given}\n{wanted}", file=sys.stderr)
    return 1


if __name__ == "__main__":
    sys.exit(main())
