"""A second implementation of plan files, written from docs/PLAN_FILE.md alone.

read_plan(octets) returns a Plan, or raises Fault with the text that `check` prints after `plan: `.
"""

import ipaddress
import re
import tomllib
from dataclasses import dataclass, field

NAME = re.compile(r"[A-Za-z0-9_-]{1,32}\Z")
ADDRESS = re.compile(r"[0-9A-Fa-f]{2}(-[0-9A-Fa-f]{2}){5}\Z")
HEX = re.compile(r"([0-9A-Fa-f]{2})*\Z")
STATES = ("discarding", "learning", "forwarding")
SOCKET = re.compile(r"(?:\[([^%\]]*)(%[0-9]+)?\]|([0-9.]+)):([0-9]+)\Z")
KINDS = ("memory", "capture", "record", "replay", "socket", "udp")
MOST = {"bridge": 32, "link": 64, "service": 64, "event": 128, "tap": 128, "port": 128}
# The value if the file sets no limit.
UNLIMITED = 2**64 - 1


class Fault(Exception):
    """The first error of a file."""


@dataclass
class End:
    bridge: int
    port: int
    cost: int
    priority: int
    state: str
    services: list | None


@dataclass
class Plan:
    rstp: bool = False
    prompt: bool = False
    by_class: bool = False
    ageing: int = 300
    ring: int = 64
    steps: int = UNLIMITED
    bridges: list = field(default_factory=list)
    links: list = field(default_factory=list)
    services: list = field(default_factory=list)
    ports: list = field(default_factory=list)


# A kind of value is two tests: whether the value has the key's type, and whether the key allows it.


def is_number(value):
    return isinstance(value, int) and not isinstance(value, bool)


def is_text(value):
    return isinstance(value, str)


def is_truth(value):
    return isinstance(value, bool)


def number(least, most, step=1):
    return is_number, lambda value: least <= value <= most and value % step == 0


def word(words):
    return is_text, lambda value: value in words


def text(pattern=None):
    return is_text, lambda value: pattern is None or bool(pattern.match(value))


def is_station(value):
    return bool(ADDRESS.match(value)) and int(value[:2], 16) % 2 == 0


def family_of(value):
    """Returns 4 or 6 for a socket address with a port other than 0, and None for other texts."""
    parts = SOCKET.match(value)
    if not parts or not 0 < int(parts[4]) < 2**16 or int((parts[2] or "%0")[1:]) >= 2**32:
        return None
    try:
        return (ipaddress.IPv4Address(parts[3]) if parts[3] else ipaddress.IPv6Address(parts[1])).version
    except ValueError:
        return None


def items(is_item, is_list):
    return lambda value: isinstance(value, list) and all(map(is_item, value)), is_list


def does_rise(value):
    return all(0 <= item for item in value) and all(a < b for a, b in zip(value, value[1:]))


def are_names(value):
    return all(NAME.match(item) for item in value) and len(set(value)) == len(value)


def are_frames(value):
    return all(HEX.match(item) for item in value)


LOSSES = items(is_number, does_rise)
SERVICES = items(is_text, are_names)
FLAG_OR_AUTO = lambda value: is_truth(value) or is_text(value), lambda value: value in (True, False, "auto")
NONE = object()

KEYS = {
    "network": [
        ("spanning", word(("fixed", "rstp")), "fixed"),
        ("ageing", number(10, 1000000), 300),
        ("ring", number(1, 4096), 64),
        ("steps", number(1, 1000000), UNLIMITED),
        ("turns", number(1, 1000000000), UNLIMITED),
        ("tick_every", number(0, 1000000), 0),
        ("tick_ms", number(0, 60000), 0),
        ("hold", number(0, 1000000), 0),
        ("prompt", (is_truth, lambda _: True), False),
        ("queues", word(("port", "class")), "port"),
        ("lossless", FLAG_OR_AUTO, "auto"),
    ],
    "bridge": [
        ("name", text(NAME), NONE),
        ("address", (is_text, is_station), NONE),
        ("priority", number(0, 61440, 4096), 32768),
        ("queue", number(1, 4096), 64),
    ],
    "link": [
        ("name", text(NAME), NONE),
        ("a", text(NAME), NONE),
        ("a_port", number(1, 16), NONE),
        ("b", text(NAME), NONE),
        ("b_port", number(1, 16), NONE),
        ("a_cost", number(1, 200000000), 20000),
        ("b_cost", number(1, 200000000), 20000),
        ("a_priority", number(0, 240, 16), 128),
        ("b_priority", number(0, 240, 16), 128),
        ("a_state", word(STATES), "forwarding"),
        ("b_state", word(STATES), "forwarding"),
        ("a_services", SERVICES, None),
        ("b_services", SERVICES, None),
        ("lost_ab", LOSSES, []),
        ("lost_ba", LOSSES, []),
        ("cost", number(1, 200000000), None),
        ("services", SERVICES, None),
    ],
    "service": [("name", text(NAME), NONE), ("vid", number(1, 4094), NONE)],
    "event": [
        ("at", number(0, 2**32 - 1), NONE),
        ("bridge", text(NAME), NONE),
        ("port", number(1, 16), NONE),
        ("up", (is_truth, lambda _: True), NONE),
    ],
    "tap": [
        ("link", text(NAME), NONE),
        ("write", text(), NONE),
        ("direction", word(("ab", "ba", "both")), "both"),
        ("stamp", word(("ticks", "time")), "ticks"),
    ],
    "port": [
        ("name", text(NAME), NONE),
        ("bridge", text(NAME), NONE),
        ("port", number(1, 16), NONE),
        ("service", text(NAME), NONE),
        ("pcp", number(0, 7), 0),
        ("queue", number(1, 4096), 64),
        ("kind", word(KINDS), "memory"),
    ],
}
READ = [("read", text(), NONE), ("replay", word(("times",)), None), ("speed", number(1, 1000), None)]
WRITTEN = [("write", text(), NONE), ("stamp", word(("ticks", "time")), "ticks")]
STREAM = [("stay", (is_truth, lambda _: True), False), ("framing", (is_number, lambda value: value in (2, 4)), 2)]
SOCKET_ADDRESS = is_text, lambda value: family_of(value) is not None
BARE = [
    ("local", SOCKET_ADDRESS, NONE),
    ("remote", SOCKET_ADDRESS, NONE),
    ("encap", word(("vxlan", "none")), "vxlan"),
]
OF_KIND = {
    "memory": [("in", items(is_text, are_frames), [])],
    "capture": [*READ, *WRITTEN],
    "record": WRITTEN,
    "replay": READ,
    "socket": [("path", text(), NONE), *STREAM],
    "listening": [("listen", text(), NONE), *STREAM],
    "udp": [*BARE, ("vni", number(0, 2**24 - 1), NONE)],
    "bare": BARE,
}


def read_key(table, place, key, kind, default):
    """Returns the value of a key. Its errors come in the order missing, kind, range."""
    if key not in table:
        if default is NONE:
            raise Fault(f"3 missing {place}.{key}")
        return default
    is_kind, is_allowed = kind
    if not is_kind(table[key]):
        raise Fault(f"4 kind {place}.{key}")
    if not is_allowed(table[key]):
        raise Fault(f"5 range {place}.{key}")
    return table[key]


def form_of(kind, table):
    """Returns the kind of a customer port, or the form of it that has other keys."""
    if kind == "socket" and "listen" in table:
        return "listening"
    if kind == "udp" and table.get("encap") == "none":
        return "bare"
    return kind


def read_table(table, place, array):
    """Returns the values of a table's keys, if it has no unknown ones."""
    values = {}
    for key, kind, default in KEYS[array]:
        values[key] = read_key(table, place, key, kind, default)
    if array == "port":
        for key, kind, default in OF_KIND[form_of(values["kind"], table)]:
            values[key] = read_key(table, place, key, kind, default)
    unknown = sorted((key for key in table if key not in values), key=str.encode)
    if unknown:
        raise Fault(f"6 unknown {place}.{unknown[0]}")
    return values


def check_network(row):
    """Checks that bridges tick by turns or by time, that frames are held only if bridges tick, and `prompt` only with rstp."""
    if row["tick_every"] and row["tick_ms"]:
        raise Fault("5 range network.tick_ms")
    if row["hold"] and not (row["tick_every"] or row["tick_ms"]):
        raise Fault("5 range network.hold")
    if row["prompt"] and row["spanning"] != "rstp":
        raise Fault("5 range network.prompt")


def tables_of(document, array):
    found = document.get(array, [])
    if not isinstance(found, list) or not all(isinstance(table, dict) for table in found):
        raise Fault(f"4 kind {array}")
    if len(found) > MOST[array]:
        raise Fault("10 too-many")
    return found


def index_of(rows, name):
    for index, row in enumerate(rows):
        if row["name"] == name:
            return index
    raise Fault(f"8 no-such {name}")


def refuse_twice(rows, new, key, show=str):
    if any(row[key] == new[key] for row in rows):
        raise Fault(f"7 twice {show(new[key])}")


def read_bridges(document):
    rows = []
    for place, table in enumerate(tables_of(document, "bridge")):
        row = read_table(table, f"bridge[{place}]", "bridge")
        row["address"] = row["address"].upper()
        refuse_twice(rows, row, "name")
        refuse_twice(rows, row, "address")
        rows.append(row)
    return rows


def service_names(document):
    """Returns the names in the file's service tables, which are checked after links."""
    found = document.get("service", [])
    found = found if isinstance(found, list) else []
    return [table.get("name") for table in found if isinstance(table, dict)]


def use(used, bridge, port):
    if (bridge, port) in used:
        raise Fault("9 link-end")
    used.add((bridge, port))


def share(table, row, place):
    """Gives both ends the values of the keys for both. Neither end may have its own key beside one."""
    for key in ("cost", "services"):
        for side in "ab" if key in table else "":
            if f"{side}_{key}" in table:
                raise Fault(f"5 range link[{place}].{side}_{key}")
            row[f"{side}_{key}"] = row[key]


def read_links(document, bridges, used):
    rows = []
    names = service_names(document)
    for place, table in enumerate(tables_of(document, "link")):
        row = read_table(table, f"link[{place}]", "link")
        refuse_twice(rows, row, "name")
        share(table, row, place)
        ends = [index_of(bridges, row["a"]), index_of(bridges, row["b"])]
        for side in "ab":
            for name in row[side + "_services"] or []:
                if name not in names:
                    raise Fault(f"8 no-such {name}")
        for side, bridge in zip("ab", ends):
            use(used, bridge, row[side + "_port"])
            row["end_" + side] = End(
                bridge,
                row[side + "_port"],
                row[side + "_cost"],
                row[side + "_priority"],
                row[side + "_state"],
                row[side + "_services"],
            )
        rows.append(row)
    return rows


def read_services(document):
    rows = []
    for place, table in enumerate(tables_of(document, "service")):
        row = read_table(table, f"service[{place}]", "service")
        refuse_twice(rows, row, "name")
        refuse_twice(rows, row, "vid")
        rows.append(row)
    return rows


def check_events(document, bridges, used):
    """Checks that events enable and disable ports with links. Only such ports are in use so far."""
    for place, table in enumerate(tables_of(document, "event")):
        row = read_table(table, f"event[{place}]", "event")
        if (index_of(bridges, row["bridge"]), row["port"]) not in used:
            raise Fault(f"5 range event[{place}].port")


def check_taps(document, links, has_time):
    """Checks that taps record links that are there, and have the time of day only with a clock that shows it."""
    for place, table in enumerate(tables_of(document, "tap")):
        row = read_table(table, f"tap[{place}]", "tap")
        index_of(links, row["link"])
        if row["stamp"] == "time" and not has_time:
            raise Fault(f"5 range tap[{place}].stamp")


def read_ports(document, plan, used, has_time):
    rows = []
    for place, table in enumerate(tables_of(document, "port")):
        row = read_table(table, f"port[{place}]", "port")
        refuse_twice(rows, row, "name")
        row["at"] = index_of(plan.bridges, row["bridge"])
        row["of"] = index_of(plan.services, row["service"])
        use(used, row["at"], row["port"])
        if row.get("replay") and not has_time:
            raise Fault(f"5 range port[{place}].replay")
        if row.get("speed") and not row.get("replay"):
            raise Fault(f"5 range port[{place}].speed")
        if row.get("stamp") == "time" and not has_time:
            raise Fault(f"5 range port[{place}].stamp")
        if row["kind"] == "udp" and family_of(row["local"]) != family_of(row["remote"]):
            raise Fault(f"5 range port[{place}].remote")
        rows.append(row)
    return rows


def read_document(octets):
    try:
        read = octets.decode("utf-8")
    except UnicodeDecodeError:
        raise Fault("1 utf8") from None
    try:
        return tomllib.loads(read)
    except (tomllib.TOMLDecodeError, RecursionError):
        raise Fault("2 toml") from None


def has_wide_number(value):
    """Returns whether the document has a whole number outside signed 64 bits."""
    if isinstance(value, dict):
        return any(map(has_wide_number, value.values()))
    if isinstance(value, list):
        return any(map(has_wide_number, value))
    return is_number(value) and not -(2**63) <= value < 2**63


def read_plan(octets):
    document = read_document(octets)
    if has_wide_number(document):
        raise Fault("2 toml")
    # (only `survive` checks these tables)
    document.pop("accept", None)
    unknown = sorted((key for key in document if key not in KEYS), key=str.encode)
    if unknown:
        raise Fault(f"6 unknown {unknown[0]}")
    network = document.get("network", {})
    if not isinstance(network, dict):
        raise Fault("4 kind network")
    row = read_table(network, "network", "network")
    check_network(row)
    plan = Plan(
        row["spanning"] == "rstp", row["prompt"], row["queues"] == "class", row["ageing"], row["ring"], row["steps"]
    )
    used = set()
    plan.bridges = read_bridges(document)
    plan.links = read_links(document, plan.bridges, used)
    plan.services = read_services(document)
    check_events(document, plan.bridges, used)
    check_taps(document, plan.links, row["tick_ms"] > 0)
    plan.ports = read_ports(document, plan, used, row["tick_ms"] > 0)
    for link in plan.links:
        for end in (link["end_a"], link["end_b"]):
            if end.services is not None:
                end.services = [index_of(plan.services, name) for name in end.services]
    return plan
