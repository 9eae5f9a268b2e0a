#!/usr/bin/env bash
# Draws all plans of examples/, and the largest plan that there may be, with the proved program, and looks with python3
# whether each picture is well-formed XML and has each bridge, link, customer port and service of its plan once, by name.
# The pictures stay in out/pictures, to be looked at; where rsvg-convert (Debian: librsvg2-bin) is there, as PNG too.
# The gate does not run this.
set -eu
cd -- "$(dirname -- "$0")/.."

pbnet=${PBNET:-./pbnet}
pictures=out/pictures
rm -rf "$pictures"
mkdir -p "$pictures"

# A plan of 32 bridges that decide the states, 64 links, 64 services and 128 customer ports.
python3 - >"$pictures/largest.toml" <<'PLAN'
import random

draw = random.Random(1)
used = [0] * 32
ends = [(draw.randrange(max(0, far - 3), far), far) for far in range(1, 32)]
while len(ends) < 64:
    pair = draw.sample(range(32), 2)
    if all(sum(bridge in end for end in ends) < 11 for bridge in pair):
        ends.append(tuple(pair))


def port(bridge):
    used[bridge] += 1
    return used[bridge]


print('network = { spanning = "rstp" }')
for bridge in range(32):
    print(f'[[bridge]]\nname = "B{bridge + 1}"\naddress = "02-00-00-00-00-{bridge + 1:02X}"')
for number, (a, b) in enumerate(ends, 1):
    print(f'[[link]]\nname = "L{number}"\na = "B{a + 1}"\na_port = {port(a)}\nb = "B{b + 1}"\nb_port = {port(b)}')
    if number % 7 == 1:
        print("lost_ab = [1, 2]")
for service in range(64):
    print(f'[[service]]\nname = "S{service + 1}"\nvid = {100 + service}')
for number in range(128):
    bridge = number % 32
    print(f'[[port]]\nname = "C{number + 1}"\nbridge = "B{bridge + 1}"\nport = {port(bridge)}\nservice = "S{number % 64 + 1}"')
PLAN

for plan in examples/*.toml "$pictures/largest.toml"; do
    name=$(basename -- "$plan" .toml)
    "$pbnet" draw "$plan" >"$pictures/$name.svg"
    "$pbnet" draw "$plan" --format dot >"$pictures/$name.dot"
    python3 - "$plan" "$pictures/$name.svg" <<'LOOK'
import sys
import tomllib
import xml.etree.ElementTree as xml

with open(sys.argv[1], "rb") as file:
    plan = tomllib.load(file)
titles = [one.text for one in xml.parse(sys.argv[2]).iter("{http://www.w3.org/2000/svg}title")]
status = 0
for kind, mark in (("bridge", ","), ("link", ":"), ("port", ":"), ("service", ",")):
    for part in plan.get(kind, []):
        times = sum(title.startswith(f"{kind} {part['name']}{mark}") for title in titles)
        if times != 1:
            print(f"{sys.argv[2]}: {kind} {part['name']} stands there {times} times", file=sys.stderr)
            status = 1
sys.exit(status)
LOOK
    if command -v dot >/dev/null 2>&1; then
        dot -Tsvg "$pictures/$name.dot" >/dev/null
    fi
    if command -v rsvg-convert >/dev/null 2>&1; then
        rsvg-convert "$pictures/$name.svg" -o "$pictures/$name.png"
    fi
done
echo "the pictures have all parts of their plans"
