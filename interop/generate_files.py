"""Random plan files for the `check` cases of differences.py. Each depends only on its random.Random."""

import generate

WRONG = [
    0,
    -1,
    1,
    5,
    9,
    16,
    17,
    65,
    240,
    241,
    4095,
    4097,
    61440,
    65536,
    200000001,
    2**63 - 1,
    2**63,
    -(2**63) - 1,
    True,
    1.0,
    "",
    "x",
    "a b",
    "é",
    "n" * 33,
    "rstp",
    "learning",
    "socket",
    "capture",
    "record",
    "replay",
    "time",
    2**32 - 1,
    2**32,
    False,
    "02-00-00-00-00-01",
    "01-00-00-00-00-01",
    "02-00-00-00-00-0g",
    "0200.0000.0001",
    [],
    [1],
    [0, 1],
    [1, 1],
    [2, 1],
    [-1],
    ["x"],
    ["0"],
    ["00", "zz"],
    ["a", "a"],
    [True],
    {},
    {"x": 1},
    [[]],
    "abc",
    "00",
    2,
    3,
    4,
    2**24 - 1,
    2**24,
    "udp",
    "none",
    "vxlan",
    "127.0.0.1:1",
    "127.0.0.1:0",
    "[::1]:1",
]
NEW_KEYS = ["zz", "aa", "Name", "in", "read", "write", "path", "start", "a b", "é", "queue", "priority", "state"]
NEW_KEYS += ["listen", "stamp", "stay", "replay", "speed", "kind", "at", "up"]
NEW_KEYS += ["framing", "local", "remote", "encap", "vni"]
PATHS = {"capture": ["read", "write"], "record": ["write"], "replay": ["read"], "socket": ["path"], "listen": ["listen"]}
PATHS["udp"] = []
V4 = ["127.0.0.1:4789", "0.0.0.0:1", "255.255.255.255:65535", "10.0.0.1:00080"]
V6 = ["[::1]:4790", "[::]:1", "[fe80::AbCd%7]:65535", "[1:2:3:4:5:6:7::]:9", "[::ffff:1.2.3.4]:5"]
NEAR = ["127.0.0.1:0", "127.0.0.1:65536", "127.0.0.01:1", "127.0.0.1", "[::1]:0", "[::1]", "::1:1", "[1::2::3]:1"]
NEAR += ["[fe80::1%4294967296]:1", "[::12345]:1", "[127.0.0.1]:1", "127.0.0.1:+1", " 127.0.0.1:1", "localhost:1", ""]


def some_table(chance, document):
    array = chance.choice([key for key in document if document[key]] or ["network"])
    value = document[array]
    return value if isinstance(value, dict) else chance.choice(value)


def take_key(chance, document):
    table = some_table(chance, document)
    if isinstance(table, dict) and table:
        del table[chance.choice(list(table))]


def put_wrong(chance, document):
    table = some_table(chance, document)
    if isinstance(table, dict):
        keys = list(table) + [key for rows in second_keys().values() for key in rows]
        table[chance.choice(list(table) or keys) if chance.random() < 0.7 else chance.choice(keys)] = chance.choice(
            WRONG
        )


def second_keys():
    return {
        "network": ["ring", "steps"],
        "link": ["a_services", "lost_ab", "b_state", "a_cost", "cost", "services"],
        "bridge": ["queue", "priority"],
    }


def put_key(chance, document):
    table = some_table(chance, document) if chance.random() < 0.8 else document
    if isinstance(table, dict):
        for _ in range(chance.choice([1, 1, 2])):
            table[chance.choice(NEW_KEYS)] = chance.choice(WRONG)


def copy_value(chance, document):
    """Copies a value of one table to another of its array: a name, address or port occurs twice."""
    rows = document[chance.choice([key for key in ("bridge", "link", "service", "port") if document.get(key)])]
    if isinstance(rows, list) and len(rows) > 1 and all(isinstance(row, dict) for row in rows):
        one, two = chance.sample(rows, 2)
        key = chance.choice(list(one) or ["name"])
        if key in one:
            two[key] = one[key]


def swap_end(chance, document):
    for rows in (document.get("link"), document.get("port")):
        if isinstance(rows, list) and rows and isinstance(rows[0], dict):
            row = chance.choice(rows)
            row[chance.choice(["a_port", "b_port", "port", "bridge", "service", "a", "b"])] = chance.choice(
                [1, 2, 3, "nobody"]
            )


def put_top(chance, document):
    document[chance.choice(["network", "bridge", "link", "service", "event", "tap", "port"])] = chance.choice(WRONG)


def too_many(chance, document):
    arrays = [("bridge", 32), ("link", 64), ("service", 64), ("event", 128), ("tap", 128), ("port", 128)]
    array, most = chance.choice(arrays)
    rows = document.get(array)
    if isinstance(rows, list) and rows and isinstance(rows[0], dict):
        document[array] = (rows * 129)[: most + chance.choice([0, 1])]


def put_services(chance, document):
    """Adds lists of services, which may have unknown names."""
    rows = document.get("link")
    if isinstance(rows, list) and rows and isinstance(rows[0], dict):
        names = [row.get("name") for row in document.get("service", []) if isinstance(row, dict)] + ["nobody"]
        names = [name for name in names if isinstance(name, str)]
        chance.choice(rows)[chance.choice(["a_services", "b_services", "services"])] = chance.sample(
            names, chance.randint(1, len(names))
        )


CHANGES = [take_key, put_wrong, put_wrong, put_key, copy_value, copy_value, swap_end, put_top, too_many, put_services]


def change_octets(chance, octets):
    """Damages the text itself."""
    place = chance.randrange(len(octets))
    roll = chance.random()
    if roll < 0.4:
        return octets[:place] + bytes([chance.choice([0x80, 0xFF, 0xC3, 0xE9])]) + octets[place:]
    if roll < 0.7:
        return octets[:place] + chance.choice([b"=", b"[", b'"', b"]]", b"\0", b"a = ", b"\r"]) + octets[place:]
    return octets[:place]


def put_kinds(chance, document):
    """Makes some ports captures, in both directions or in one, sockets, or ports over datagrams."""
    for table in document["port"]:
        kind = chance.choice(["memory"] * 6 + ["capture", "record", "replay", "socket", "listen", "udp", "udp"])
        if kind == "memory":
            continue
        table.pop("in", None)
        table["kind"] = "socket" if kind == "listen" else kind
        for key in PATHS[kind]:
            table[key] = chance.choice(["", "a", "a/b.pcap", "-"])
        if "read" in PATHS[kind] and chance.random() < 0.3:
            table["replay"] = "times"
            generate.sometimes(chance, 0.5, table, "speed", lambda: chance.choice([1, 2, 10, 1000]))
        if "write" in PATHS[kind]:
            generate.sometimes(chance, 0.5, table, "stamp", lambda: chance.choice(["ticks", "time"]))
        if table["kind"] == "socket":
            generate.sometimes(chance, 0.3, table, "stay", lambda: chance.random() < 0.7)
            generate.sometimes(chance, 0.3, table, "framing", lambda: chance.choice([2, 2, 4, 4, 4, 3]))
        if kind == "udp":
            put_addresses(chance, table)


def put_addresses(chance, table):
    """Adds the keys of a port over datagrams, sometimes with addresses of two families or with none."""
    same = chance.choice([V4, V6])
    table["local"] = chance.choice(same if chance.random() < 0.95 else NEAR)
    table["remote"] = chance.choice(same if chance.random() < 0.95 else chance.choice([V4, V6, NEAR, NEAR]))
    generate.sometimes(chance, 0.5, table, "encap", lambda: chance.choice(["vxlan", "none"]))
    if table.get("encap") != "none":
        table["vni"] = chance.choice([0, 5, 2**16, 2**24 - 1])


def put_events(chance, document):
    """Adds events at ends of links, and sometimes at any port."""
    ends = [(table[side], table[side + "_port"]) for table in document["link"] for side in "ab"]
    if not ends or chance.random() < 0.7:
        return
    document["event"] = []
    for _ in range(chance.choice([1, 2, 5])):
        bridge, port = chance.choice(ends)
        port = chance.randint(1, 16) if chance.random() < 0.05 else port
        at = chance.choice([0, 1, 80, 2**32 - 1])
        document["event"].append({"at": at, "bridge": bridge, "port": port, "up": chance.random() < 0.5})


def put_taps(chance, document):
    """Adds taps of links, and sometimes of one that isn't there."""
    names = [table["name"] for table in document["link"]]
    if not names or chance.random() < 0.7:
        return
    document["tap"] = []
    for _ in range(chance.choice([1, 2, 5])):
        name = "nobody" if chance.random() < 0.05 else chance.choice(names)
        table = {"link": name, "write": chance.choice(["", "a", "a/b.pcap", "-"])}
        generate.sometimes(chance, 0.5, table, "direction", lambda: chance.choice(["ab", "ba", "both"]))
        generate.sometimes(chance, 0.5, table, "stamp", lambda: chance.choice(["ticks", "time"]))
        document["tap"].append(table)


def plan_file(chance):
    """Returns a plan file, valid or with some errors."""
    document = generate.plan(chance)
    put_kinds(chance, document)
    put_events(chance, document)
    put_taps(chance, document)
    for _ in range(chance.choice([0, 1, 1, 1, 2])):
        try:
            chance.choice(CHANGES)(chance, document)
        except (IndexError, TypeError, AttributeError):
            continue
    octets = generate.toml(document).encode()
    return change_octets(chance, octets) if chance.random() < 0.1 else octets
