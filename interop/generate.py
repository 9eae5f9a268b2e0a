"""Random plans, scripts and lines for differences.py. Each case depends only on its random.Random."""

import second_network
from second_plan import read_plan

NAMES = ["a", "B", "core-1", "core_2", "Z9", "edge", "x" * 32, "0", "-", "_", "north", "South"]
BROADCAST = "ffffffffffff"
STATIONS = [f"02000000{place:02x}01" for place in range(6)]
GROUPS = [BROADCAST, "01005e000001", "333300000001", "0180c2000010", "0180c2000000", "0180c200000d", "0180c2000008"]


# Plans


def name(chance, taken):
    while True:
        made = chance.choice(NAMES) if chance.random() < 0.3 else f"n{chance.randrange(1000)}"
        if made not in taken:
            taken.append(made)
            return made


def address(chance, place):
    octets = [chance.choice([0, 2, 0x52, 0xFE]), chance.randrange(256), 0, 0, chance.randrange(3), place]
    shown = "-".join(f"{octet:02x}" for octet in octets)
    return shown.upper() if chance.random() < 0.5 else shown


def sometimes(chance, share, table, key, make):
    if chance.random() < share:
        table[key] = make()


def network_table(chance):
    table = {}
    sometimes(chance, 0.6, table, "spanning", lambda: chance.choice(["rstp", "rstp", "fixed"]))
    sometimes(chance, 0.4, table, "ageing", lambda: chance.choice([10, 11, 12, 30, 1000000]))
    sometimes(chance, 0.4, table, "ring", lambda: chance.choice([1, 2, 3, 4096]))
    sometimes(chance, 0.1, table, "steps", lambda: chance.choice([1, 5, 30, 80, 1000000]))
    sometimes(chance, 0.1, table, "turns", lambda: chance.choice([1, 1000000000]))
    sometimes(chance, 0.1, table, "tick_every", lambda: chance.choice([0, 7]))
    sometimes(chance, 0.05, table, "tick_ms", lambda: chance.choice([0, 5, 60000]))
    sometimes(chance, 0.03, table, "hold", lambda: chance.choice([0, 1, 1000000]))
    sometimes(chance, 0.7, table, "queues", lambda: chance.choice(["port", "class", "class"]))
    sometimes(chance, 0.6 if table.get("spanning") == "rstp" else 0.02, table, "prompt", lambda: chance.random() < 0.7)
    sometimes(chance, 0.2, table, "lossless", lambda: chance.choice([True, False, "auto"]))
    return table


def bridge_tables(chance, count):
    taken, tables = [], []
    for place in range(count):
        table = {"name": name(chance, taken), "address": address(chance, place)}
        sometimes(chance, 0.2, table, "priority", lambda: 4096 * chance.randrange(16))
        sometimes(chance, 0.3, table, "queue", lambda: chance.choice([1, 2, 3, 8]))
        tables.append(table)
    return tables


def free_port(chance, free, bridge):
    return free[bridge].pop(chance.randrange(len(free[bridge])))


def link_ends(chance, count):
    """Returns the ends of a tree or of most of one, and some further links."""
    ends = [(chance.randrange(place), place) for place in range(1, count) if chance.random() < 0.95]
    for _ in range(chance.choice([0, 0, 1, 1, 2, 4])):
        ends.append((chance.randrange(count), chance.randrange(count)))
    chance.shuffle(ends)
    return ends


def link_side(chance, table, side, services):
    sometimes(chance, 0.2, table, side + "_cost", lambda: chance.choice([1, 10, 19999, 20001, 200000000]))
    sometimes(chance, 0.2, table, side + "_priority", lambda: 16 * chance.randrange(16))
    sometimes(chance, 0.15, table, side + "_state", lambda: chance.choice(["discarding", "learning", "forwarding"]))
    sometimes(
        chance, 0.15, table, side + "_services", lambda: chance.sample(services, chance.randint(0, len(services)))
    )


def both_ends(chance, table, services):
    """Sometimes gives a link a key for both ends. An end seldom has its own key beside it, which `check` refuses."""
    sometimes(chance, 0.15, table, "cost", lambda: chance.choice([1, 19999, 200000000]))
    sometimes(chance, 0.1, table, "services", lambda: chance.sample(services, chance.randint(0, len(services))))
    for key in ("cost", "services"):
        if key in table and chance.random() < 0.9:
            remove_own(table, key)


def remove_own(table, key):
    for side in "ab":
        table.pop(f"{side}_{key}", None)


def losses(chance):
    return sorted(chance.sample(range(40), chance.randint(0, 8)))


def link_tables(chance, bridges, services, free):
    taken, tables = [], []
    for a, b in link_ends(chance, len(bridges)):
        table = {"name": name(chance, taken)}
        for side, bridge in (("a", a), ("b", b)):
            table[side] = bridges[bridge]["name"]
            table[side + "_port"] = free_port(chance, free, bridge)
            link_side(chance, table, side, services)
        both_ends(chance, table, services)
        sometimes(chance, 0.2, table, "lost_ab", lambda: losses(chance))
        sometimes(chance, 0.2, table, "lost_ba", lambda: losses(chance))
        tables.append(table)
    return tables


def service_tables(chance):
    taken, vids = [], chance.sample([1, 2, 100, 200, 4094, chance.randint(3, 99)], chance.randint(1, 3))
    return [{"name": name(chance, taken), "vid": vid} for vid in vids]


def port_tables(chance, bridges, services, free):
    taken, tables = [], []
    for bridge, row in enumerate(bridges):
        for _ in range(chance.choice([0, 1, 1, 2, 3])):
            if not free[bridge]:
                continue
            table = {"name": name(chance, taken), "bridge": row["name"], "port": free_port(chance, free, bridge)}
            table["service"] = chance.choice(services)
            sometimes(chance, 0.3, table, "pcp", lambda: chance.randrange(8))
            sometimes(chance, 0.1, table, "queue", lambda: chance.choice([1, 4096]))
            sometimes(chance, 0.1, table, "kind", lambda: "memory")
            sometimes(chance, 0.1, table, "in", lambda: [frame(chance) for _ in range(chance.randrange(3))])
            tables.append(table)
    return tables


def plan(chance):
    count = chance.choice([1, 2, 2, 3, 3, 4, 5, 6])
    free = [list(range(1, 17)) for _ in range(count)]
    bridges, services = bridge_tables(chance, count), service_tables(chance)
    listed = [row["name"] for row in services]
    links = link_tables(chance, bridges, listed, free)
    ports = port_tables(chance, bridges, listed, free)
    return {"network": network_table(chance), "bridge": bridges, "link": links, "service": services, "port": ports}


def step_plan(chance):
    """Returns a plan that `step` accepts: at most one clock, `hold` only with a clock, `prompt` only with rstp, and the
    keys of ends not beside those for both."""
    document = plan(chance)
    network = document["network"]
    if network.get("tick_every"):
        network.pop("tick_ms", None)
    if not network.get("tick_every") and not network.get("tick_ms"):
        network.pop("hold", None)
    if network.get("spanning") != "rstp":
        network.pop("prompt", None)
    for table in document["link"]:
        for key in ("cost", "services"):
            if key in table:
                remove_own(table, key)
    return document


# TOML


def value_text(value):
    if isinstance(value, bool):
        return "true" if value else "false"
    if isinstance(value, str):
        return '"' + value.replace("\\", "\\\\").replace('"', '\\"') + '"'
    if isinstance(value, list):
        return "[" + ", ".join(map(value_text, value)) + "]"
    if isinstance(value, dict):
        return "{" + ", ".join(f"{key_text(key)} = {value_text(item)}" for key, item in value.items()) + "}"
    return str(value)


def key_text(key):
    return key if key and key.replace("_", "").replace("-", "").isalnum() and key.isascii() else value_text(key)


def table_text(head, table):
    return [head] + [f"{key_text(key)} = {value_text(value)}" for key, value in table.items()] + [""]


def toml(document):
    """Returns the text of a document, with table headers if possible."""
    top, below = [], []
    for key, value in document.items():
        if isinstance(value, dict):
            below += table_text(f"[{key_text(key)}]", value)
        elif isinstance(value, list) and value and all(isinstance(item, dict) for item in value):
            for item in value:
                below += table_text(f"[[{key_text(key)}]]", item)
        else:
            top.append(f"{key_text(key)} = {value_text(value)}")
    return "\n".join(top + below) + "\n"


# Frames


def frame(chance):
    """Returns the digits of a frame, or of an invalid one."""
    if chance.random() < 0.05:
        return "".join(chance.choice("0123456789abcdef") for _ in range(2 * chance.randint(1, 20)))
    to = chance.choice(STATIONS) if chance.random() < 0.5 else chance.choice(GROUPS)
    if chance.random() < 0.08:
        to = f"0180c20000{chance.randrange(256) if chance.random() < 0.2 else chance.randrange(16):02x}"
    source = chance.choice(STATIONS) if chance.random() < 0.95 else chance.choice(GROUPS)
    body = "".join(chance.choice(TAGS)(chance) for _ in range(chance.choice([0, 0, 0, 1, 1, 2])))
    body += chance.choice(["0800", "0806", "88cc", "0003424203", "88a8", "8100", "86dd"])
    digits = to + source + body + "".join(f"{chance.randrange(256):02x}" for _ in range(chance.choice([0, 0, 1, 2, 5])))
    return lengthened(chance, digits)


def tag(kind, vids):
    def make(chance):
        return f"{kind}{chance.randrange(16):x}{chance.choice(vids):03x}"

    return make


TAGS = [tag("88a8", [0]), tag("88a8", [0]), tag("88a8", [1, 100, 4095]), tag("8100", [0, 5]), tag("9100", [7])]


def lengthened(chance, digits):
    if chance.random() < 0.03:
        most = chance.choice([1991, 1992, 1993, 1995, 1996, 1997, 2100])
        digits = digits.ljust(2 * most, "0")[: 2 * most]
    elif chance.random() < 0.05:
        digits = digits[: 2 * chance.randint(1, 18)]
    return digits.upper() if chance.random() < 0.05 else digits


# Step scripts


def enabled(network):
    """Returns the events that are not idle."""
    lines = []
    for name, customer in network.customers.items():
        lines += [f"feed {name}"] * (customer.hand is not None)
        lines += [f"deliver {name}"] * bool(customer.local.outbox)
    for name, bridge in network.bridges.items():
        for number, port in bridge.ports.items():
            lines += [f"receive {name} {number}"] * bool(port.inbox)
            lines += [f"transmit {name} {number}"] * bool(port.queue)
    for (name, way), lane in network.lanes.items():
        lines += [f"put {name} {way}"] * (lane.hand is not None)
        lines += [f"take {name} {way}"] * (lane.hand is None and bool(lane.near.outbox))
    return lines


def any_event(chance, network):
    """Returns an event of any kind, which may be idle or have an unknown name."""
    bridges, customers, links = list(network.bridges), list(network.customers), [name for name, _ in network.lanes]
    if chance.random() < 0.1:
        bridges = customers = links = ["nobody"]
    word = chance.choice(["feed", "deliver", "receive", "transmit", "take", "put", "admin", "tick", "poll"])
    if word in ("feed", "deliver", "poll"):
        text = f"{word} {chance.choice(customers or ['none'])}"
        return text + " " + frame(chance) if word == "poll" else text
    if word in ("take", "put"):
        return f"{word} {chance.choice(links or ['none'])} {chance.choice(['ab', 'ba'])}"
    bridge = chance.choice(bridges)
    if word == "tick":
        return f"tick {bridge}"
    ports = list(network.bridges[bridge].ports) if bridge in network.bridges else []
    port = chance.choice(ports) if ports and chance.random() < 0.9 else chance.choice([1, 5, 16, 17, 100, 999])
    return f"{word} {bridge} {port}" + (f" {chance.choice(['up', 'down'])}" if word == "admin" else "")


BAD = [
    "",
    " ",
    "hop",
    "poll",
    "tick",
    "tick ",
    "feed  x",
    "receive a 0",
    "receive a 01",
    "receive a 1000",
    "take a",
    "x y",
    "put a AB",
    "admin a 1",
    "admin a 1 on",
    "deliver a b",
    "poll a 0",
    "poll a 0g",
    "poll a ",
    "tick a\r",
    " tick a",
    "tick é",
    "tick " + "n" * 33,
    "transmit a -1",
    "TICK a",
    "poll a 00 ",
    "tick a b",
    "receive a +1",
]


def settle_down(chance, network):
    """Yields random lines until nothing is enabled, at most 400."""
    for _ in range(400):
        lines = enabled(network)
        if not lines:
            return
        yield chance.choice(lines)


def flood(chance, network):
    """Yields frames that enter at one customer port, for queues that get full."""
    row = chance.choice(list(network.customers.values())).row
    for _ in range(chance.randint(2, 8)):
        yield from (f"poll {row['name']} {frame(chance)}", f"feed {row['name']}", f"receive {row['bridge']} {row['port']}")


def burst(chance, network):
    """Yields a few lines that belong together."""
    roll = chance.random()
    if roll < 0.3 and network.plan.rstp:
        yield from (f"tick {name}" for name in network.bridges)
        yield from settle_down(chance, network)
    elif roll < 0.34:
        yield from (f"tick {name}" for _ in range(chance.choice([1, 9, 10, 31])) for name in network.bridges)
    elif roll < 0.6 and network.customers:
        name = chance.choice(list(network.customers))
        yield from (f"poll {name} {frame(chance)}", f"feed {name}")
    elif roll < 0.64:
        yield chance.choice(BAD)
    elif roll < 0.74:
        yield any_event(chance, network)
    elif roll < 0.77:
        yield from settle_down(chance, network)
    elif roll < 0.82 and network.customers:
        yield from flood(chance, network)
    else:
        for _ in range(chance.randint(1, 12)):
            yield chance.choice(enabled(network) or ["hop"])


def script(chance, document):
    """Returns a script for a plan. The second implementation chooses lines that do something."""
    network = second_network.Network(read_plan(toml(document).encode()))
    lines, most = [], chance.choice([20, 100, 300, 1000])
    while len(lines) < most:
        for line in burst(chance, network):
            lines.append(line)
            try:
                network.answer_line(len(lines), line.encode())
            except second_network.EndsEarly:
                return "\n".join(lines + [any_event(chance, network)]) + "\n"
    return "\n".join(lines) + chance.choice(["\n", "\n", ""])


# Lines of flat


BAD_FLAT = [
    "",
    "in",
    "in 1",
    "in 0 00",
    "in 01 00",
    "in 17 00",
    "in 999 00",
    "in 1000 00",
    "in 1  00",
    "in 1 0",
    "in 1 0g",
    "in 1 00 ",
    " in 1 00",
    "out 1 00",
    "in 1 00\r",
    "IN 1 00",
    "in -1 00",
    "in é 00",
    "in 1 ",
]


def flat_lines(chance, ports):
    lines = []
    for _ in range(chance.choice([5, 100, 400])):
        if chance.random() < 0.05:
            lines.append(chance.choice(BAD_FLAT))
        else:
            lines.append(f"in {chance.randint(1, min(16, ports + chance.choice([0, 0, 0, 1])))} {frame(chance)}")
    if chance.random() < 0.02:
        lines.append("in 1 " + "0" * chance.choice([139994, 139995, 139996, 140000, 300000]))
        lines.append(f"in 2 {frame(chance)}")
    return "\n".join(lines) + chance.choice(["\n", ""])


def many_stations(chance):
    """Returns frames of more stations than a bridge learns, and frames to some of them."""
    lines = [f"in {1 + place % 3} ffffffffffff{0x020000000000 + place:012x}0800" for place in range(4200)]
    for _ in range(600):
        to, source = chance.randrange(4200), chance.randrange(4200)
        lines.append(f"in {chance.randint(1, 3)} {0x020000000000 + to:012x}{0x020000000000 + source:012x}0800")
    return "\n".join(lines) + "\n"
