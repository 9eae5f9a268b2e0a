"""Mutations of octets and of texts, each by the numbers of its random.Random."""

ODD = bytes([0, 9, 10, 13, 32, 34, 35, 48, 61, 91, 93, 123, 127, 128, 192, 255])


def flip(chance, octets):
    place = chance.randrange(len(octets))
    return octets[:place] + bytes([octets[place] ^ 1 << chance.randrange(8)]) + octets[place + 1 :]


def put_odd(chance, octets):
    place = chance.randrange(len(octets))
    return octets[:place] + bytes([chance.choice(ODD)]) + octets[place + chance.randrange(2) :]


def span(chance, octets):
    """Returns the ends of a random part, mostly a short one."""
    start = chance.randrange(len(octets))
    return start, min(len(octets), start + chance.choice([1, 2, 4, 16, 64, 1000]))


def drop(chance, octets):
    start, end = span(chance, octets)
    return octets[:start] + octets[end:]


def repeat(chance, octets):
    start, end = span(chance, octets)
    return octets[:end] + octets[start:end] * chance.choice([1, 1, 2, 20]) + octets[end:]


def move(chance, octets):
    start, end = span(chance, octets)
    rest = octets[:start] + octets[end:]
    place = chance.randrange(len(rest) + 1)
    return rest[:place] + octets[start:end] + rest[place:]


def put_noise(chance, octets):
    place = chance.randrange(len(octets) + 1)
    return octets[:place] + chance.randbytes(chance.choice([1, 3, 20, 300])) + octets[place:]


def cut(chance, octets):
    return octets[: chance.randrange(len(octets))]


CHANGES = [flip, flip, put_odd, put_odd, drop, repeat, move, put_noise, cut]


def mutate(chance, octets):
    """Returns the octets with one to five mutations."""
    for _ in range(chance.choice([1, 1, 1, 2, 5])):
        if octets:
            octets = chance.choice(CHANGES)(chance, octets)
    return octets


def swap_lines(chance, lines):
    one, two = chance.randrange(len(lines)), chance.randrange(len(lines))
    lines[one], lines[two] = lines[two], lines[one]


def swap_keys(chance, lines):
    """Swaps the keys of two lines, and leaves their values."""
    pairs = [place for place, line in enumerate(lines) if b" = " in line]
    if len(pairs) > 1:
        one, two = chance.sample(pairs, 2)
        keys = [lines[it].split(b" = ", 1)[0] for it in (one, two)]
        values = [lines[it].split(b" = ", 1)[1] for it in (one, two)]
        lines[one], lines[two] = keys[1] + b" = " + values[0], keys[0] + b" = " + values[1]


def drop_line(chance, lines):
    del lines[chance.randrange(len(lines))]


def repeat_line(chance, lines):
    lines.insert(chance.randrange(len(lines)), chance.choice(lines))


HUGE = [b"9223372036854775807", b"9223372036854775808", b"-9223372036854775809", b"1e400", b"-0", b"0x7fffffff", b"nan"]
HUGE += [b"9" * 5000, b"1." + b"0" * 400, b"4294967296", b"65536", b"-1", b"1979-05-27T07:32:00Z", b"0b1", b"1_0"]
TEXTS = [b'"' + b"n" * 33 + b'"', b'""', b'"\\u0000"', b'"\\ud800"', b"'\xff'", b'"""a\nb"""', b'"a\\nb"', b'"../x"']


def put_value(chance, lines):
    """Gives a key a huge number, an odd text or a value of another type."""
    pairs = [place for place, line in enumerate(lines) if b" = " in line]
    if pairs:
        place = chance.choice(pairs)
        value = chance.choice([*HUGE, *TEXTS, b"[]", b"{}", b"[[]]", b"true", b"[" * 300, b"{a = 1}"])
        lines[place] = lines[place].split(b" = ", 1)[0] + b" = " + value


LINE_CHANGES = [swap_lines, swap_keys, swap_keys, drop_line, repeat_line, put_value, put_value]


def mutate_lines(chance, octets):
    """Returns a text with one to four lines changed."""
    lines = octets.split(b"\n")
    for _ in range(chance.choice([1, 1, 2, 4])):
        if lines:
            chance.choice(LINE_CHANGES)(chance, lines)
    return b"\n".join(lines)
