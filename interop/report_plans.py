"""The largest plan that a page is measured with."""

import random

HEAD = '[network]\nspanning = "rstp"\n'
BRIDGE = '[[bridge]]\nname = "B{0}"\naddress = "02-00-00-00-00-{0:02X}"\n'
LINK = '[[link]]\nname = "L{0}"\na = "B{1}"\na_port = {2}\nb = "B{3}"\nb_port = {4}\n'
SERVICE = '[[service]]\nname = "S{0}"\nvid = {1}\n'
PORT = '[[port]]\nname = "C{0}"\nbridge = "B{1}"\nport = {2}\nservice = "S{3}"\n'


def links_of(draw):
    """Returns the bridges that 64 links join: a tree of 32 bridges, and 33 links more."""
    ends = [(draw.randrange(max(0, far - 3), far), far) for far in range(1, 32)]
    while len(ends) < 64:
        pair = tuple(draw.sample(range(32), 2))
        if all(sum(bridge in end for end in ends) < 11 for bridge in pair):
            ends.append(pair)
    return ends


def largest():
    """Returns a plan of 32 bridges with RSTP, 64 links, 64 services and 128 customer ports."""
    draw = random.Random(1)
    used = [0] * 32

    def port(bridge):
        used[bridge] += 1
        return used[bridge]

    text = HEAD + "".join(BRIDGE.format(it) for it in range(1, 33))
    for number, (a, b) in enumerate(links_of(draw), 1):
        text += LINK.format(number, a + 1, port(a), b + 1, port(b))
    text += "".join(SERVICE.format(it + 1, 100 + it) for it in range(64))
    for number in range(128):
        text += PORT.format(number + 1, number % 32 + 1, port(number % 32), number % 64 + 1)
    return text
