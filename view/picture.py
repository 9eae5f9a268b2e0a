"""Reads the picture that `pbnet draw` prints: where each bridge, link and customer port is, and what it is."""

import re
import subprocess
from xml.etree import ElementTree

SVG = "{http://www.w3.org/2000/svg}"
NAME = r"([A-Za-z0-9_-]{1,32})"
TITLES = {
    "bridge": re.compile(rf"bridge {NAME}, address ([0-9A-F-]+), priority (\d+)"),
    "link": re.compile(rf"link {NAME}: {NAME} port (\d+) (\w+), {NAME} port (\d+) (\w+)(?:, (loses .*))?"),
    "port": re.compile(rf"port {NAME}: {NAME} port (\d+), service {NAME}, VID (\d+)"),
    "service": re.compile(rf"service {NAME}, VID (\d+)"),
}
SHIFT = re.compile(r"translate\((-?[\d.]+) (-?[\d.]+)\)")
# A link is one curve from its end a to its end b, or a curve, a vertical line and a curve.
CURVE = re.compile(r"M(-?[\d.]+) (-?[\d.]+)C[-\d. CV]* (-?[\d.]+) (-?[\d.]+)")
# The colour of a service, and the pattern that tells services of one colour apart.
COLOURS = re.compile(r"c\d+ d\d+")


class Unreadable(Exception):
    """A picture of another form than this module knows."""


def draw(program, plan):
    """Returns the exit status of `pbnet draw` and what it prints. Its standard error is that of this process."""
    how = {"stdin": subprocess.DEVNULL, "stdout": subprocess.PIPE, "encoding": "utf-8", "errors": "replace"}
    done = subprocess.run([program, "draw", "--", plan], **how)
    return done.returncode, done.stdout


def read_picture(text):
    """Returns the sizes, bridges, links, customer ports and services of a picture. Raises Unreadable."""
    try:
        root = ElementTree.fromstring(text)
        groups = [(it.get("class", "").split(), it) for it in root.iter(f"{SVG}g") if it.get("class")]
        ends = [it for classes, it in groups if classes[0] == "ends"]
        links = [it for classes, it in groups if classes[0] == "link"]
        return {
            "width": float(root.get("width")),
            "height": float(root.get("height")),
            "bridges": [read_bridge(it) for classes, it in groups if classes[0] == "bridge"],
            "links": [read_link(it, end) for it, end in zip(links, ends, strict=True)],
            "ports": [read_port(it) for classes, it in groups if classes[0] == "port"],
            "services": [read_service(it) for classes, it in groups if classes[0] == "service"],
        }
    except (ElementTree.ParseError, AttributeError, TypeError, ValueError) as error:
        raise Unreadable(str(error)) from error


def title_of(group, kind):
    """Returns the parts of the title of a group. Raises ValueError if it has another form."""
    title = group.findtext(f"{SVG}title", "")
    found = TITLES[kind].fullmatch(title)
    if not found:
        raise ValueError(f"the title {title!r} is not that of a {kind}")
    return found.groups()


def place_of(group):
    """Returns the place to which a group is moved."""
    return [float(it) for it in SHIFT.fullmatch(group.get("transform")).groups()]


def colour_of(group):
    """Returns the names of the colour and of the pattern of a group."""
    return COLOURS.search(group.get("class"))[0]


def read_bridge(group):
    """Returns a bridge and its box."""
    name, address, priority = title_of(group, "bridge")
    box = group.find(f"{SVG}rect")
    size = [float(box.get("width")), float(box.get("height"))]
    return {"name": name, "address": address, "priority": int(priority), "at": place_of(group), "size": size}


def read_link(group, ends):
    """Returns a link with its curve and the places of its ends and of its name."""
    name, a, a_port, a_state, b, b_port, b_state, losses = title_of(group, "link")
    curve = group.find(f"{SVG}path").get("d")
    points = [float(it) for it in CURVE.fullmatch(curve).groups()]
    numbers = [[float(it.get("x")), float(it.get("y"))] for it in ends.findall(f"{SVG}text")]
    label = ends.find(f"{SVG}g")
    sides = zip((a, b), (a_port, b_port), (a_state, b_state), (points[:2], points[2:]), numbers, strict=True)
    return {
        "name": name,
        "curve": curve,
        "losses": losses or "",
        "label": {"at": place_of(label), "width": float(label.find(f"{SVG}rect").get("width"))},
        "ends": [
            {"bridge": bridge, "port": int(port), "state": state, "at": at, "number": number}
            for bridge, port, state, at, number in sides
        ],
    }


def read_port(group):
    """Returns a customer port and its line in the box of its bridge."""
    name, bridge, port, service, vid = title_of(group, "port")
    where = {"at": place_of(group), "colour": colour_of(group)}
    return {"name": name, "bridge": bridge, "port": int(port), "service": service, "vid": int(vid), **where}


def read_service(group):
    """Returns a service and its place in the legend."""
    name, vid = title_of(group, "service")
    return {"name": name, "vid": int(vid), "at": place_of(group), "colour": colour_of(group)}
