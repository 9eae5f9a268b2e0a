"""networks whose machines recur: what is printed early is what all ticks lead to"""
import re

from hostile_parts.attack import PROGRAM, misfit

# A number of a frame that no link carries: a link that loses frames by the plan has every tick performed.
NEVER = "lost_ab = [1000000000]\n"
# The most links of a plan.
MOST_LINKS = 64
# What pictures say of a link that loses frames, and what of an SVG picture its links' labels do not move.
LOSES = re.compile(rb" \(loses\)|, loses \d+ to [\w-]+ and \d+ to [\w-]+")
ATTRIBUTES = re.compile(rb' (?:id|class|data-[a-z]+)="[^"]*"|<title>[^<]*')


def choose_links(chance, count):
    """Returns the ends of links that join so many bridges: a line, a ring, a tree, or any."""
    shape = chance.choice(["line", "ring", "tree", "any"])
    pairs = [(chance.randrange(it) if shape == "tree" else it - 1, it) for it in range(1, count)]
    pairs += [(count - 1, 0)] if shape == "ring" and count > 2 else []
    if shape == "any":
        pairs += [(chance.randrange(count), chance.randrange(count)) for _ in range(chance.randrange(1, 2 * count))]
    return pairs


def network(chance, more):
    """Returns the plan of a network whose bridges converge late, or never."""
    count = chance.choice([2, 3, 4, 6, 9, 24, 32])
    prompt = chance.choice(["true", "false"])
    text = f'[network]\nspanning = "rstp"\nprompt = {prompt}\nqueues = "{chance.choice(["class", "port"])}"\n'
    queue, used = chance.choice([1, 1, 2, 64]), [0] * count
    for it in range(count):
        text += f'[[bridge]]\nname = "B{it}"\naddress = "02-00-00-00-00-{it:02x}"\nqueue = {queue}\n'
        text += f"priority = {4096 * chance.randrange(3)}\n" if count < 20 else ""
    for number, (one, two) in enumerate(choose_links(chance, count)[:MOST_LINKS]):
        if max(used[one], used[two]) > 12:
            continue
        used[one] += 1
        ends = f'a = "B{one}"\na_port = {used[one]}\n'
        used[two] += 1
        ends += f'b = "B{two}"\nb_port = {used[two]}\n'
        costs = f"a_cost = {chance.choice([1, 1, 20_000, 200_000_000])}\nb_cost = {chance.choice([1, 20_000])}\n"
        text += f'[[link]]\nname = "L{number}"\n{ends}{costs}{more if number == 0 else ""}'
    text += '[[service]]\nname = "s"\nvid = 7\n'
    for it in range(min(count, 3)):
        text += f'[[port]]\nname = "C{it}"\nbridge = "B{it}"\nport = 16\nservice = "s"\n'
    return text


def commands(chance):
    """Returns the arguments of a command that lets bridges converge."""
    most = ["--ticks", str(chance.choice([1, 2, 30, 45, 60, 100, 200, 201, 500, 1500]))]
    down = chance.choice([[], [], ["--down", "L0"], ["--down", "B1"], ["--down", "B0:1"]])
    return chance.choice([
        ["tree", *most, *down], ["tree", "--format", "json", *most, *down], ["draw", *most, *down],
        ["draw", "--format", "dot", *most], ["check", "--settle", *most], ["survive", *most],
        ["survive", "--format", "csv", "--bridges", *most], ["trace", "--settle", *most, *down], ["diff", *most],
    ])


def try_network(part, number):
    """Runs a command on a network, and on the same one with a link that loses a frame which it never carries."""
    with part.room("ticks", number) as room:
        for name, more in (("early", ""), ("late", NEVER)):
            (room.path / name).mkdir()
            room.write(f"{name}/plan.toml", network(part.chance("ticks", number), more))
            room.write(f"{name}/old.toml", network(part.chance("old", number), more))
        words = commands(part.chance("words", number))
        words += {"trace": ["plan.toml", "C0"], "diff": ["old.toml", "plan.toml"]}.get(words[0], ["plan.toml"])
        early, late = (room.run(PROGRAM, *words, cwd=room.path / name) for name in ("early", "late"))
        early.words = ["sh", "-c", 'cd early && exec "$0" "$@"', PROGRAM, *words]
        why = misfit(early) or misfit(late, most=60)
        if not why and (early.status, early.out) != (late.status, late.out):
            here, there = shown(words, early.out), shown(words, late.out)
            why = None if here == there else f"the output of {words} is another if all ticks are performed"
        part.judge(f"ticks, {words[0]}", why, room, early)


def shown(words, octets):
    """Returns what an output shows of the network: of a picture not what labels of lost frames move."""
    octets = LOSES.sub(b"", octets) if words[0] == "draw" else octets
    return b"".join(ATTRIBUTES.findall(octets)) if octets.startswith(b"<svg") else octets


def attack(part):
    for number in range(part.times(400)):
        try_network(part, number)
