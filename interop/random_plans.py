"""Random plans as tables of keys, and changes of them, for diff.py and survive.py."""

import copy
import itertools

STATES = ["discarding", "learning", "forwarding"]
COSTS = [1, 200, 2000, 20000, 20000, 200000, 200000000]


class Draft:
    """A random plan as tables of keys."""

    def __init__(self, dice, most_bridges, most_links):
        self.dice = dice
        self.network = {"spanning": dice.choice(["fixed", "rstp", "rstp"])}
        if self.network["spanning"] == "rstp" and dice.random() < 0.7:
            self.network["prompt"] = True
        if dice.random() < 0.4:
            self.network["queues"] = dice.choice(["port", "class"])
        self.bridge, self.link, self.service, self.port = [], [], [], []
        self.named = itertools.count(1)
        for _ in range(dice.randint(2, most_bridges)):
            self.add_bridge()
        for _ in range(dice.choice([1, 1, 2, 3])):
            self.add_service()
        for _ in range(dice.randint(1, most_links)):
            self.add_link()
        for _ in range(dice.randint(1, 8)):
            self.add_port()

    def free(self, bridge, row=None):
        """A free local port of a bridge, or None. A link that is being added has no second end yet."""
        used = {(t[s], t[s + "_port"]) for t in self.link for s in "ab"} | {(t["bridge"], t["port"]) for t in self.port}
        used |= {(row["a"], row.get("a_port"))} if row else set()
        ports = [n for n in range(1, 17) if (bridge, n) not in used]
        return self.dice.choice(ports) if ports else None

    def add_bridge(self):
        number = next(self.named)
        row = {"name": f"B{number}", "address": f"02-00-00-00-{self.dice.randrange(256):02X}-{number:02X}"}
        if self.dice.random() < 0.3:
            row["priority"] = 4096 * self.dice.randint(0, 15)
        self.bridge.append(row)

    def add_service(self):
        number = next(self.named)
        self.service.append({"name": f"S{number}", "vid": 100 + number})

    def two_bridges(self):
        """The bridges of a new link: two of them, those of another link, or one twice."""
        names, kind = [row["name"] for row in self.bridge], self.dice.random()
        if kind < 0.05 or len(names) == 1:
            return [self.dice.choice(names)] * 2
        if kind < 0.2 and self.link:
            near = self.dice.choice(self.link)
            return [near["b"], near["a"]]
        return self.dice.sample(names, 2)

    def add_link(self):
        row = {"name": f"L{next(self.named)}"}
        for side, bridge in zip("ab", self.two_bridges()):
            row[side] = bridge
            row[side + "_port"] = self.free(bridge, row)
        if None in row.values():
            return
        for side in "ab":
            if self.dice.random() < 0.3:
                row[side + "_cost"] = self.dice.choice(COSTS)
            if self.dice.random() < 0.2:
                row[side + "_priority"] = 16 * self.dice.randint(0, 15)
        if self.dice.random() < 0.3:
            self.alter_services(row)
        if self.network["spanning"] == "fixed" and self.dice.random() < 0.3:
            row["b_state"] = self.dice.choice(STATES)
        self.link.append(row)

    def alter_services(self, row):
        names = [s["name"] for s in self.service]
        row[self.dice.choice("ab") + "_services"] = self.dice.sample(names, self.dice.randint(0, len(names)))

    def add_port(self):
        bridge = self.dice.choice(self.bridge)["name"]
        port = self.free(bridge)
        if port and self.service:
            service = self.dice.choice(self.service)["name"]
            self.port.append({"name": f"C{next(self.named)}", "bridge": bridge, "port": port, "service": service})

    def remove(self, rows):
        if rows:
            rows.remove(self.dice.choice(rows))

    def remove_bridge(self):
        if len(self.bridge) > 1:
            gone = self.dice.choice(self.bridge)
            self.bridge.remove(gone)
            self.link = [t for t in self.link if gone["name"] not in (t["a"], t["b"])]
            self.port = [t for t in self.port if t["bridge"] != gone["name"]]

    def rename_bridge(self):
        row = self.dice.choice(self.bridge)
        was, row["name"] = row["name"], f"B{next(self.named)}"
        for table in self.link:
            for side in "ab":
                if table[side] == was:
                    table[side] = row["name"]
        for table in self.port:
            if table["bridge"] == was:
                table["bridge"] = row["name"]

    def remove_service(self):
        if len(self.service) > 1:
            gone = self.dice.choice(self.service)
            self.service.remove(gone)
            self.port = [t for t in self.port if t["service"] != gone["name"]]
            for table in self.link:
                for side in "ab":
                    listed = table.get(side + "_services")
                    if listed and gone["name"] in listed:
                        listed.remove(gone["name"])

    def move_port(self):
        if self.port:
            row = self.dice.choice(self.port)
            bridge = self.dice.choice(self.bridge)["name"]
            port = self.free(bridge)
            if port:
                row["bridge"], row["port"] = bridge, port

    def alter_link(self):
        if self.link:
            row = self.dice.choice(self.link)
            if self.network["spanning"] == "fixed" and self.dice.random() < 0.5:
                row[self.dice.choice("ab") + "_state"] = self.dice.choice(STATES)
            elif self.dice.random() < 0.3:
                row[self.dice.choice("ab") + "_cost"] = self.dice.randint(1, 50000)
            else:
                self.alter_services(row)

    def alter_queues(self):
        self.network["queues"] = self.dice.choice(["port", "class"])

    def alter_port(self):
        if self.port:
            self.dice.choice(self.port)["service"] = self.dice.choice(self.service)["name"]

    def change(self):
        changes = [self.add_link, self.add_link, self.alter_link, self.alter_link, self.add_port, self.add_bridge]
        changes += [self.move_port, self.alter_port, self.rename_bridge, self.remove_bridge, self.remove_service]
        changes += [self.add_service, lambda: self.remove(self.link), lambda: self.remove(self.port), self.alter_queues]
        self.dice.choice(changes)()

    def changed(self):
        """A copy with other parts and another order."""
        dice, self.dice = self.dice, None
        other = copy.deepcopy(self)
        self.dice = other.dice = dice
        other.named = itertools.count(50)
        for _ in range(dice.choice([0, 1, 1, 2, 3])):
            other.change()
        if dice.random() < 0.5:
            for rows in (other.bridge, other.link, other.service, other.port):
                dice.shuffle(rows)
        return other

    def text(self):
        """The plan file."""
        lines = ["[network]"] + [f"{key} = {value_text(value)}" for key, value in self.network.items()]
        for name in ("bridge", "link", "service", "port"):
            for row in getattr(self, name):
                lines += [f"[[{name}]]"] + [f"{key} = {value_text(value)}" for key, value in row.items()]
        return "\n".join(lines) + "\n"


def value_text(value):
    if isinstance(value, bool):
        return "true" if value else "false"
    if isinstance(value, list):
        return "[" + ", ".join(map(value_text, value)) + "]"
    return f'"{value}"' if isinstance(value, str) else str(value)
