"""The spanning tree of a plan with some ends of links disabled, as a function of these two alone, and the groups of
customer ports that it connects: after IEEE 802.1D-2004 clauses 17.5 to 17.7 and IEEE 802.1Q clause 8.8.

A plan is that of second_plan.py, and an end of a link is (bridge, port), by the bridge's index. No bridge runs here."""

from dataclasses import dataclass

DISABLED, ROOT, DESIGNATED, ALTERNATE, BACKUP = "disabled", "root", "designated", "alternate", "backup"


@dataclass(frozen=True)
class End:
    """An end of a link, seen from its own bridge."""

    at: int
    port: int
    id: int
    cost: int


class Tree:
    """The spanning tree, or the states that the plan gives."""

    def __init__(self, plan, disabled):
        self.plan, self.disabled = plan, disabled
        self.ids = [row["priority"] * 2**48 + int(row["address"].replace("-", ""), 16) for row in plan.bridges]
        self.links = [tuple(self.end(link["end_" + side]) for side in "ab") for link in plan.links]
        self.vectors = self.root_vectors()

    def end(self, end):
        return End(end.bridge, end.port, end.priority * 256 + end.port, end.cost)

    def is_enabled(self, end):
        return (end.at, end.port) not in self.disabled

    def root_vectors(self):
        """Returns the root priority vector of each bridge: root, root path cost, designated bridge, designated port,
        own port. Each bridge starts as its own root, and takes the best path as often as there are bridges."""
        own = [(it, 0, it, 0, 0) for it in self.ids]
        ways = [it for a, b in self.links if self.is_enabled(a) and self.is_enabled(b) for it in ((a, b), (b, a))]
        vectors = own
        for _ in own:
            best = list(own)
            for near, far in ways:
                root, cost = vectors[far.at][:2]
                if near.at != far.at:
                    best[near.at] = min(best[near.at], (root, cost + near.cost, self.ids[far.at], far.id, near.id))
            vectors = best
        return vectors

    def offer(self, end):
        """Returns the designated priority vector of an end: root, root path cost, bridge, port."""
        return *self.vectors[end.at][:2], self.ids[end.at], end.id

    def role(self, near, far):
        if not self.is_enabled(near):
            return DISABLED
        if self.vectors[near.at][4] == near.id:
            return ROOT
        if not self.is_enabled(far) or self.offer(near) < self.offer(far):
            return DESIGNATED
        return BACKUP if near.at == far.at else ALTERNATE

    def is_active(self, number):
        """Returns whether both ends of a link are Forwarding: both are enabled, and one is a Root port, or the plan
        gives these states."""
        ends = self.links[number]
        if not all(map(self.is_enabled, ends)):
            return False
        if self.plan.rstp:
            return any(self.vectors[end.at][4] == end.id for end in ends)
        return all(self.plan.links[number]["end_" + side].state == "forwarding" for side in "ab")

    def view(self, service, out=()):
        """Returns whether the active links of a service are a forest, and the names of its customer ports, by group.
        Each port of a bridge of `out` is a group of its own. The service is an index."""
        top = list(range(len(self.ids)))

        def find(one):
            while top[one] != one:
                one = top[one]
            return one

        is_forest = True
        for number, link in enumerate(self.plan.links):
            lists = [link["end_" + side].services for side in "ab"]
            if self.is_active(number) and all(it is None or service in it for it in lists):
                a, b = (find(end.at) for end in self.links[number])
                is_forest, top[a] = is_forest and a != b, b
        groups = {}
        for row in self.plan.ports:
            if row["of"] == service:
                alone = row["at"] in out
                groups.setdefault(row["name"] if alone else find(row["at"]), []).append(row["name"])
        return is_forest, list(groups.values())
