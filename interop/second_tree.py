"""A second implementation of the rapid spanning tree, written from docs/SPANNING_TREE.md alone."""

from dataclasses import dataclass

DISCARDING, LEARNING, FORWARDING = 0, 1, 2
DISABLED, ROOT, DESIGNATED, ALTERNATE, BACKUP = "disabled", "root", "designated", "alternate", "backup"
ROLE_BITS = {ALTERNATE: 1, BACKUP: 1, ROOT: 2, DESIGNATED: 3}
HIGHEST_COST = 4294967295
HELLO, MAX_AGE, FORWARD_DELAY = 2 * 256, 20 * 256, 15 * 256
HOLD_COUNT = 6


@dataclass(frozen=True)
class Message:
    """The contents of a BPDU. The role is that of its flags: 1 alternate or backup, 2 root, 3 designated."""

    root: int
    cost: int
    bridge: int
    port: int
    age: int
    max_age: int
    hello: int
    delay: int
    role: int
    change: bool = False
    proposal: bool = False
    learning: bool = False
    forwarding: bool = False
    agreement: bool = False

    def vector(self):
        return self.root, self.cost, self.bridge, self.port

    def octets(self, source):
        """Returns the frame, from its destination address on."""
        flags = self.change | self.proposal << 1 | self.role << 2 | self.learning << 4
        flags |= self.forwarding << 5 | self.agreement << 6
        octets = bytes.fromhex("0180c2000008") + source + bytes.fromhex("002742420300000202")
        octets += bytes([flags]) + self.root.to_bytes(8, "big") + self.cost.to_bytes(4, "big")
        octets += self.bridge.to_bytes(8, "big") + self.port.to_bytes(2, "big")
        for time in (self.age, self.max_age, self.hello, self.delay):
            octets += time.to_bytes(2, "big")
        return octets + b"\0"


class TreePort:
    def __init__(self, number, cost, priority):
        self.number, self.cost, self.id = number, cost, priority * 256 + number
        self.up, self.info, self.left = True, None, 0
        self.role, self.state, self.wait = DESIGNATED, DISCARDING, 15
        self.agreed = self.agree = False
        self.changing = self.sent = 0
        self.due = True


class Change:
    """The changes of a call, by port: new states, ports to flush, and BPDUs to send."""

    def __init__(self):
        self.states, self.flushed, self.messages = {}, set(), []


class Tree:
    def __init__(self, priority, address, ends, prompt=False):
        self.id = priority * 2**48 + address
        self.prompt = prompt
        self.ports = {number: TreePort(number, cost, at) for number, cost, at in sorted(ends)}
        self.hello = 2
        self.root = self.root_vector()

    # Vectors

    def way(self, port):
        info = port.info
        return info.root, min(info.cost + port.cost, HIGHEST_COST), info.bridge, info.port, port.id

    def root_vector(self):
        ways = [self.way(port) for port in self.ports.values() if port.up and port.info and port.info.bridge != self.id]
        return min(ways + [(self.id, 0, self.id, 0, 0)])

    def root_port(self):
        return next((port for port in self.ports.values() if port.role == ROOT), None)

    def designated(self, port):
        return self.root[0], self.root[1], self.id, port.id

    def role_of(self, port):
        if not port.up:
            return DISABLED
        if port.info and port.info.bridge != self.id and self.way(port) == self.root:
            return ROOT
        if not port.info or self.designated(port) < port.info.vector():
            return DESIGNATED
        return BACKUP if port.info.bridge == self.id else ALTERNATE

    def new_wait(self):
        port = self.root_port()
        return max(1, port.info.delay // 256) if port and port.info else 15

    # Calls

    def hear(self, number, message):
        before = self.before()
        port = self.ports[number]
        if not port.up:
            return Change()
        stored = message.role == 3 and self.store(port, message)
        if message.role in (1, 2) and message.agreement and port.role == DESIGNATED and message.root == self.root[0]:
            port.agreed = True
        return self.settle(before, port, message, stored)

    def store(self, port, message):
        info = port.info
        if info and not message.vector() < info.vector():
            if (message.bridge, message.port) != (info.bridge, info.port):
                return False
        if message.age + 256 > message.max_age:
            port.info = None
            return False
        port.info, port.left = message, 3 * message.hello // 256
        return True

    def tick(self):
        before = self.before()
        wait = self.new_wait()
        for port in self.ports.values():
            port.sent, port.changing = max(0, port.sent - 1), max(0, port.changing - 1)
            if port.info:
                port.left -= 1
                if port.left == 0:
                    port.info = None
        for port in self.ports.values():
            if port.role == DESIGNATED and port.state != FORWARDING:
                port.wait -= 1
                if port.wait <= 0:
                    port.state += 1
                    port.wait = wait
        self.send_hello()
        return self.settle(before)

    def send_hello(self):
        if self.hello > 0:
            self.hello -= 1
        if self.hello > 0:
            return
        self.hello = 2
        for port in self.ports.values():
            if port.role == DESIGNATED or port.role == ROOT and port.changing:
                port.due = True

    def admin(self, number, up):
        port = self.ports[number]
        if port.up == up:
            return Change()
        before = self.before()
        port.up, port.info = up, None
        if not up:
            port.agreed = port.agree = port.due = False
            port.wait = port.changing = 0
        return self.settle(before)

    # After each call: roles, states, topology changes and BPDUs

    def before(self):
        offer = self.root[:2], self.times()
        return self.root, offer, {number: (port.role, port.state) for number, port in self.ports.items()}

    def settle(self, before, heard_at=None, message=None, stored=False):
        old_root, old_offer, old = before
        change = Change()
        self.find_roles(old_root)
        wait = self.new_wait()
        self.move_states(old, wait)
        if stored and message.proposal and heard_at.role != DESIGNATED:
            self.agree_to_proposal(heard_at, wait)
        self.report_changes(old, heard_at, message, change)
        for number, port in self.ports.items():
            if port.state != old[number][1]:
                change.states[number] = port.state
        if self.prompt and (self.root[:2], self.times()) != old_offer:
            for number, port in self.ports.items():
                if port.role == DESIGNATED and old[number][0] == DESIGNATED:
                    port.due = True
        self.send(change)
        return change

    def find_roles(self, old_root):
        self.root = self.root_vector()
        for port in self.ports.values():
            port.role = self.role_of(port)
        if self.root != old_root:
            for port in self.ports.values():
                port.agreed = port.agree = False
        for port in self.ports.values():
            if port.role == DESIGNATED and port.info:
                port.info, port.due = None, True

    def hold_back(self, port, wait):
        port.state, port.wait, port.due = DISCARDING, wait, True

    def move_states(self, old, wait):
        for number, port in self.ports.items():
            if port.role == ROOT:
                port.state = FORWARDING
            elif port.role != DESIGNATED:
                port.state = DISCARDING
            elif old[number][0] != DESIGNATED:
                self.hold_back(port, wait)
        for port in self.ports.values():
            if port.role == DESIGNATED and port.agreed:
                port.state = FORWARDING

    def agree_to_proposal(self, heard_at, wait):
        if heard_at.role == ROOT:
            for port in self.ports.values():
                if port.role == DESIGNATED and not port.agreed and port.state != DISCARDING:
                    self.hold_back(port, wait)
        heard_at.agree = heard_at.due = True

    def report_changes(self, old, heard_at, message, change):
        for number, port in self.ports.items():
            if port.state == FORWARDING and old[number][1] != FORWARDING:
                self.change_topology(change, port, None)
            if port.state == DISCARDING and old[number][1] != DISCARDING:
                change.flushed.add(number)
        if message and message.change and heard_at.role in (ROOT, DESIGNATED):
            self.change_topology(change, heard_at, heard_at)

    def change_topology(self, change, kept, silent):
        for number, port in self.ports.items():
            if port is not kept:
                change.flushed.add(number)
            if port is not silent and port.role in (ROOT, DESIGNATED) and not self.is_reporting(port):
                port.changing, port.due = 3, True

    def is_reporting(self, port):
        """Whether the port reports a topology change already. A prompt bridge leaves its time alone then."""
        return self.prompt and port.changing > 0

    def send(self, change):
        for number, port in self.ports.items():
            if port.up and port.due and port.sent < HOLD_COUNT:
                port.sent, port.due = port.sent + 1, False
                change.messages.append((number, self.message(port)))

    def times(self):
        port = self.root_port()
        if not port:
            return 0, MAX_AGE, HELLO, FORWARD_DELAY
        info = port.info
        return min(info.age + 256, 65535), info.max_age, info.hello, info.delay

    def message(self, port):
        return Message(
            *self.designated(port),
            *self.times(),
            role=ROLE_BITS[port.role],
            change=port.changing > 0,
            proposal=port.role == DESIGNATED and port.state != FORWARDING,
            learning=port.state != DISCARDING,
            forwarding=port.state == FORWARDING,
            agreement=port.agree,
        )


def are_settled(trees, links):
    """Returns whether each port has the role that follows from the vectors, only Root and Designated ports do more than
    discard, and each link with both ends enabled has one Designated end, whose vector the other end stores."""
    for tree in trees:
        for port in tree.ports.values():
            if port.role != tree.role_of(port) or port.role not in (ROOT, DESIGNATED) and port.state != DISCARDING:
                return False
    return all(is_settled_link(*ends) for ends in places_of(trees, links))


def places_of(trees, links):
    """Returns, for each link, the bridge and the port of both ends."""
    return [[(trees[bridge], trees[bridge].ports[number]) for bridge, number in link] for link in links]


def is_settled_link(one, two):
    if not (one[1].up and two[1].up):
        return True
    leading = [place for place in (one, two) if place[1].role == DESIGNATED]
    if len(leading) != 1:
        return False
    tree, port = leading[0]
    info = (two if tree is one[0] and port is one[1] else one)[1].info
    return info is not None and info.vector() == tree.designated(port)


def have_converged(trees, links):
    """Returns whether the bridges are settled, an end that is enabled alone is Designated, and both ends of each
    enabled link with a Root port are Forwarding."""
    return are_settled(trees, links) and all(is_converged_link(a, b) for (_, a), (_, b) in places_of(trees, links))


def is_converged_link(one, two):
    enabled = [port for port in (one, two) if port.up]
    if len(enabled) < 2:
        return all(port.role == DESIGNATED for port in enabled)
    return ROOT not in (one.role, two.role) or one.state == two.state == FORWARDING
