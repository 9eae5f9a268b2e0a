"""A second implementation of a network of provider bridges, written from the pages of docs/ alone.

It is slow and plain: a queue is a list, a learning table is a dictionary, and nothing is proved.
"""

import re

from second_plan import Fault, read_plan
from second_tree import DISCARDING, FORWARDING, LEARNING, Message, Tree, are_settled, have_converged

STATES = {"discarding": DISCARDING, "learning": LEARNING, "forwarding": FORWARDING}
PROVIDER = bytes.fromhex("0180c2000008")
NAME = re.compile(rb"[A-Za-z0-9_-]{1,32}\Z")
PORT = re.compile(rb"[1-9][0-9]{0,2}\Z")
HEX = re.compile(rb"([0-9A-Fa-f]{2})+\Z")
LONGEST_LINE = 140000
MOST_STATIONS = 4096
FLAT_STEPS = 1000000

# The traffic class of each priority for eight classes (IEEE 802.1Q): that of 1 is below that of 0.
CLASSES = (1, 0, 2, 3, 4, 5, 6, 7)

# The class of a bridge's own BPDUs if they have a place of their own, above all traffic classes.
OWN = 8


class EndsEarly(Exception):
    """A line `fault:` ends the command."""


# Frames


def is_group(address):
    return address[0] & 1 == 1


def has_priority_tag(octets):
    return len(octets) >= 18 and octets[12:14] == b"\x88\xa8" and int.from_bytes(octets[14:16], "big") & 4095 == 0


def refusal(octets):
    """Returns why a customer port refuses a frame, or None."""
    tagged = has_priority_tag(octets)
    if len(octets) < 14:
        return "malformed"
    if len(octets) > (1996 if tagged else 1992):
        return "long"
    if octets[:5] == PROVIDER[:5] and octets[5] in (*range(1, 11), 14):
        return f"reserved-{octets[5]}"
    if bare(octets)[12:14] == b"\x88\xa8":
        return "s-tagged"
    return None


def bare(octets):
    return octets[:12] + octets[16:] if has_priority_tag(octets) else octets


def with_tag(octets, priority, vid):
    return octets[:12] + b"\x88\xa8" + (priority << 13 | vid).to_bytes(2, "big") + octets[12:]


class Stations:
    """The learning table: the port of each station, by VID."""

    def __init__(self, ageing=None):
        self.ageing, self.ticks, self.known = ageing, 0, {}

    def learn(self, vid, address, port):
        if is_group(address):
            return
        if (vid, address) in self.known or len(self.known) < MOST_STATIONS:
            self.known[vid, address] = (port, self.ticks)

    def find(self, vid, address):
        return self.known.get((vid, address), (None, 0))[0]

    def tick(self):
        self.ticks += 1
        for key, (_, since) in list(self.known.items()):
            if self.ageing is not None and self.ticks - since >= self.ageing:
                del self.known[key]

    def flush(self, flushed):
        for key, (port, _) in list(self.known.items()):
            if port in flushed:
                del self.known[key]


# Places


class Place:
    def __init__(self, limit):
        self.limit, self.steps = limit, 0

    def step(self):
        if self.steps == self.limit:
            raise EndsEarly("fault: steps")
        self.steps += 1


class LocalPort:
    def __init__(self, link=None, side=None, vids=None, customer=None):
        self.link, self.side, self.vids, self.customer = link, side, vids, customer
        self.start = self.state = FORWARDING
        self.inbox, self.outbox, self.queue = [], [], []


class Bridge(Place):
    def __init__(self, plan, row):
        super().__init__(plan.steps)
        self.row, self.ring, self.tree, self.prompt = row, plan.ring, None, plan.prompt
        self.by_class = plan.by_class
        self.address = bytes.fromhex(row["address"].replace("-", ""))
        self.stations = Stations(plan.ageing)
        self.ports = {}

    def add_tree(self):
        ends = [(n, p.end.cost, p.end.priority) for n, p in self.ports.items() if p.link is not None]
        self.tree = Tree(self.row["priority"], int.from_bytes(self.address, "big"), ends, self.prompt)
        for port in self.ports.values():
            if port.link is not None:
                port.state = DISCARDING

    def receive(self, number):
        port = self.ports[number]
        if not port.inbox:
            return "idle"
        self.step()
        octets = port.inbox.pop(0)
        if port.customer is not None:
            return self.from_customer(number, port, octets)
        return self.from_bridge(number, port, octets)

    def from_customer(self, number, port, octets):
        reason = refusal(octets)
        if reason:
            port.customer.filtered += 1
            return f"filtered {reason}"
        priority = octets[14] >> 5 if has_priority_tag(octets) else port.customer.row["pcp"]
        return self.relay(number, bare(octets), priority, port.customer.vid)

    def from_bridge(self, number, port, octets):
        if isinstance(octets, Message):
            if self.tree:
                self.follow(self.tree.hear(number, octets))
            return "heard"
        priority, vid = octets[14] >> 5, int.from_bytes(octets[14:16], "big") & 4095
        frame = octets[:12] + octets[16:]
        if vid not in port.vids:
            return "filtered not-member"
        if port.state != FORWARDING:
            if port.state == LEARNING:
                self.stations.learn(vid, frame[6:12], number)
            return "filtered not-forwarding"
        return self.relay(number, frame, priority, vid)

    def relay(self, number, frame, priority, vid):
        self.stations.learn(vid, frame[6:12], number)
        chosen = [n for n, p in sorted(self.ports.items()) if n != number and p.state == FORWARDING and vid in p.vids]
        if not is_group(frame[:6]):
            known = self.stations.find(vid, frame[:6])
            if known is not None:
                chosen = [n for n in chosen if n == known]
        full = [n for n in chosen if self.is_full(n, CLASSES[priority])]
        put = [n for n in chosen if n not in full]
        for n in put:
            wire = frame if self.ports[n].customer is not None else with_tag(frame, priority, vid)
            self.ports[n].queue.append((CLASSES[priority], wire))
        return " ".join(["relayed", *map(str, put)] + [f"full {n}" for n in full])

    def is_full(self, number, traffic_class):
        waiting = [one for one, _ in self.ports[number].queue]
        counted = waiting.count(traffic_class) if self.by_class else len(waiting)
        return counted >= self.row["queue"]

    def transmit(self, number):
        port = self.ports[number]
        if not port.queue or len(port.outbox) >= self.ring:
            return "idle"
        self.step()
        highest = max(traffic_class for traffic_class, _ in port.queue)
        index = next(place for place, (traffic_class, _) in enumerate(port.queue) if traffic_class == highest)
        wire = port.queue.pop(index)[1]
        port.outbox.append(wire)
        return "sent " + self.octets(wire).hex()

    def octets(self, wire):
        return wire.octets(self.address) if isinstance(wire, Message) else wire

    def tick(self):
        self.step()
        self.stations.tick()
        if self.tree:
            self.follow(self.tree.tick())
        return "ticked"

    def admin(self, number, up):
        self.step()
        port = self.ports[number]
        if self.tree:
            self.follow(self.tree.admin(number, up))
        else:
            port.state = port.start if up else DISCARDING
            if not up:
                self.stations.flush({number})
        return "set"

    def follow(self, change):
        for number, state in change.states.items():
            self.ports[number].state = state
        self.stations.flush(change.flushed)
        for number, message in change.messages:
            self.send(number, message)

    def send(self, number, message):
        """Queues an own BPDU: in class 7 if there is room, or in a place of its own, from which it pushes an older one."""
        port = self.ports[number]
        if self.by_class:
            port.queue = [waiting for waiting in port.queue if waiting[0] != OWN] + [(OWN, message)]
        elif not self.is_full(number, 7):
            port.queue.append((7, message))


class Lane(Place):
    def __init__(self, plan, near, far, losses):
        super().__init__(plan.steps)
        self.near, self.far, self.losses, self.ring = near, far, set(losses), plan.ring
        self.hand, self.taken, self.lost = None, 0, 0

    def take(self):
        if self.hand is not None or not self.near.outbox:
            return "idle"
        self.step()
        wire, number = self.near.outbox.pop(0), self.taken
        self.taken += 1
        if number in self.losses:
            self.lost += 1
            return f"lost {number}"
        self.hand = wire
        return f"taken {number}"

    def put(self):
        if self.hand is None or len(self.far.inbox) >= self.ring:
            return "idle"
        self.step()
        self.far.inbox.append(self.hand)
        self.hand = None
        return "put"


class Customer(Place):
    def __init__(self, plan, row, vid):
        super().__init__(plan.steps)
        self.row, self.vid, self.ring, self.hand = row, vid, plan.ring, None
        self.entered = self.left = self.filtered = 0

    def poll(self, octets):
        if self.hand is not None:
            return "idle"
        self.step()
        self.hand = octets
        self.entered += 1
        return f"polled {self.row['name']} {self.entered - 1}"

    def feed(self):
        if self.hand is None or len(self.local.inbox) >= self.ring:
            return "idle"
        self.step()
        self.local.inbox.append(self.hand)
        self.hand = None
        return "fed"

    def deliver(self):
        if not self.local.outbox:
            return "idle"
        self.step()
        self.left += 1
        return "delivered " + self.local.outbox.pop(0).hex()


# Networks


def has_loop(count, edges):
    """Returns whether edges between the numbers below count have a loop."""
    above = list(range(count))

    def top(one):
        while above[one] != one:
            one = above[one]
        return one

    for one, two in edges:
        one, two = top(one), top(two)
        if one == two:
            return True
        above[one] = two
    return False


class Network:
    def __init__(self, plan):
        self.plan = plan
        self.vids = [row["vid"] for row in plan.services]
        self.bridges = {row["name"]: Bridge(plan, row) for row in plan.bridges}
        self.by_number = list(self.bridges.values())
        self.lanes, self.customers = {}, {}
        for link in plan.links:
            self.add_link(link)
        for row in plan.ports:
            self.add_customer(row)
        if plan.rstp:
            for bridge in self.by_number:
                bridge.add_tree()

    def add_end(self, end, link, side):
        listed = range(len(self.vids)) if end.services is None else end.services
        port = LocalPort(link=link, side=side, vids={self.vids[index] for index in listed})
        port.end, port.start, port.state = end, STATES[end.state], STATES[end.state]
        self.by_number[end.bridge].ports[end.port] = port
        return port

    def add_link(self, link):
        a = self.add_end(link["end_a"], link["name"], "a")
        b = self.add_end(link["end_b"], link["name"], "b")
        self.lanes[link["name"], "ab"] = Lane(self.plan, a, b, link["lost_ab"])
        self.lanes[link["name"], "ba"] = Lane(self.plan, b, a, link["lost_ba"])

    def add_customer(self, row):
        customer = Customer(self.plan, row, self.vids[row["of"]])
        customer.local = LocalPort(vids={customer.vid}, customer=customer)
        self.by_number[row["at"]].ports[row["port"]] = customer.local
        self.customers[row["name"]] = customer

    # The report

    def loops(self):
        named = []
        for row in self.plan.services:
            edges = []
            for link in self.plan.links:
                ends = [link["end_a"], link["end_b"]]
                ports = [self.by_number[end.bridge].ports[end.port] for end in ends]
                if all(port.state == FORWARDING and row["vid"] in port.vids for port in ports):
                    edges.append((ends[0].bridge, ends[1].bridge))
            if has_loop(len(self.by_number), edges):
                named.append(row["name"])
        return sorted(named)

    def forest_lines(self):
        loops = self.loops()
        return ["forest no"] + [f"loop {name}" for name in loops] if loops else ["forest yes"]

    def report(self):
        lines = []
        for name, port in sorted(self.customers.items()):
            lines.append(f"port {name} entered {port.entered} left {port.left} filtered {port.filtered}")
        for name in sorted(link["name"] for link in self.plan.links):
            ab, ba = self.lanes[name, "ab"], self.lanes[name, "ba"]
            lines.append(f"link {name} ab taken {ab.taken} lost {ab.lost} ba taken {ba.taken} lost {ba.lost}")
        lines += self.forest_lines()
        if self.plan.rstp:
            lines.append("settled yes" if self.are_settled() else "settled no")
        return lines

    def trees_and_links(self):
        ends = [((x["end_a"].bridge, x["end_a"].port), (x["end_b"].bridge, x["end_b"].port)) for x in self.plan.links]
        return [bridge.tree for bridge in self.by_number], ends

    def are_settled(self):
        return are_settled(*self.trees_and_links())

    def have_converged(self):
        return have_converged(*self.trees_and_links())

    # Lines of a script

    def at_bridge(self, name, number, do, customers=True):
        bridge = self.bridges.get(name)
        port = bridge and bridge.ports.get(number)
        if not port or not customers and port.customer is not None:
            return "no such"
        return do(bridge)

    def at_customer(self, name, do):
        customer = self.customers.get(name)
        return do(customer) if customer else "no such"

    def at_lane(self, name, way, do):
        lane = self.lanes.get((name, way))
        return do(lane) if lane else "no such"

    def answer(self, words):
        """Returns the output of a line by its words, or None if it is not a valid line."""
        shape = [words[0]] + [len(words)]
        name = words[1].decode("ascii") if len(words) > 1 and NAME.match(words[1]) else None
        if name is None:
            return None
        if shape == [b"poll", 3] and HEX.match(words[2]):
            return self.at_customer(name, lambda port: port.poll(bytes.fromhex(words[2].decode())))
        if shape == [b"feed", 2]:
            return self.at_customer(name, Customer.feed)
        if shape == [b"deliver", 2]:
            return self.at_customer(name, Customer.deliver)
        if shape == [b"tick", 2]:
            return self.bridges[name].tick() if name in self.bridges else "no such"
        if shape in ([b"take", 3], [b"put", 3]) and words[2] in (b"ab", b"ba"):
            return self.at_lane(name, words[2].decode(), Lane.take if words[0] == b"take" else Lane.put)
        return self.answer_at_port(name, words, shape)

    def answer_at_port(self, name, words, shape):
        if len(words) < 3 or not PORT.match(words[2]):
            return None
        number = int(words[2])
        if shape == [b"receive", 3]:
            return self.at_bridge(name, number, lambda bridge: bridge.receive(number))
        if shape == [b"transmit", 3]:
            return self.at_bridge(name, number, lambda bridge: bridge.transmit(number))
        if shape == [b"admin", 4] and words[3] in (b"up", b"down"):
            up = words[3] == b"up"
            return self.at_bridge(name, number, lambda bridge: bridge.admin(number, up), customers=False)
        return None

    def answer_line(self, number, line):
        answer = self.answer(line.split(b" ")) if len(line) <= LONGEST_LINE else None
        return f"line {number}: bad" if answer is None else answer


def lines_of(octets):
    lines = octets.split(b"\n")
    return lines[:-1] if lines[-1] == b"" else lines


# The commands: each returns its output and its exit status


def check(plan_octets):
    try:
        plan = read_plan(plan_octets)
    except Fault as fault:
        return f"plan: {fault}\n", 1
    counts = f"ok bridges {len(plan.bridges)} links {len(plan.links)} "
    counts += f"services {len(plan.services)} ports {len(plan.ports)}"
    return "\n".join([counts] + Network(plan).forest_lines()) + "\n", 0


def step(plan_octets, script):
    try:
        network = Network(read_plan(plan_octets))
    except Fault as fault:
        return f"plan: {fault}\n", 1
    answers = []
    try:
        for number, line in enumerate(lines_of(script), 1):
            answers.append(network.answer_line(number, line))
    except EndsEarly as early:
        return "\n".join(answers + [str(early)]) + "\n", 3
    return "\n".join(answers + network.report()) + "\n", 0


class Switch:
    """The one bridge of `flat`."""

    def __init__(self, ports):
        self.ports, self.stations, self.steps = ports, Stations(), 0

    def answer(self, number, line):
        if line == b"":
            return []
        words = line.split(b" ")
        is_frame = len(words) == 3 and words[0] == b"in" and PORT.match(words[1]) and HEX.match(words[2])
        if len(line) > LONGEST_LINE or not is_frame or int(words[1]) > self.ports:
            return [f"line {number}: bad"]
        return self.enter(int(words[1]), bytes.fromhex(words[2].decode()))

    def enter(self, port, octets):
        reason = refusal(octets)
        chosen = [] if reason else self.choose(port, bare(octets))
        if self.steps + 1 + len(chosen) > FLAT_STEPS:
            raise EndsEarly("fault: steps")
        self.steps += 1 + len(chosen)
        if reason:
            return [f"filtered {port} {reason}"]
        return [f"out {other} {bare(octets).hex()}" for other in chosen]

    def choose(self, port, frame):
        self.stations.learn(1, frame[6:12], port)
        chosen = [other for other in range(1, self.ports + 1) if other != port]
        known = None if is_group(frame[:6]) else self.stations.find(1, frame[:6])
        return chosen if known is None else [other for other in chosen if other == known]


def flat(ports, script):
    switch, answers, status = Switch(ports), [], 0
    try:
        for number, line in enumerate(lines_of(script), 1):
            answers += switch.answer(number, line)
    except EndsEarly as early:
        answers.append(str(early))
        status = 3
    return "".join(answer + "\n" for answer in answers), status
