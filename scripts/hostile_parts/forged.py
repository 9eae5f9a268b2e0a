"""keys, names, paths and arguments with control characters: no output has a line or a sign of theirs"""
import json

from hostile_parts import frames
from hostile_parts.attack import PROGRAM, crash
from hostile_parts.lines import PLAN
from hostile_parts.plans import BRIDGE

# Texts that would print another line, colours, or the end of a text of JSON.
TEXTS = ["\nfault: memory", "x\nplan: 1 utf8\n", "\r\nok", "\x1b[31mred", "\x07", "\x7f", "\u0085", "\u009b1m", "\t\b"]
TEXTS += ['"}\n{"a": "', "\\n\n", "\nforest yes\nfault: read\n"]
COMMANDS = [["check"], ["check", "--all"], ["tree"], ["step"], ["draw"], ["survive"], ["run", "--seconds", "1"]]
COMMANDS += [["trace"], ["report"]]
FORMED = ["check", "tree", "step", "survive", "run", "trace"]
SERVICE = '[[service]]\nname = "red"\nvid = 100\n'


def quoted(text):
    """Returns a text as a key or a value of TOML."""
    return '"' + "".join(f"\\u{ord(it):04x}" if ord(it) < 160 and not it.isalnum() else it for it in text) + '"'


def plans(text):
    """Returns plans that have a text as a key, a name or a path, by what it is."""
    key, base = quoted(text), BRIDGE.decode() + SERVICE
    port = '[[port]]\nname = "C1"\nbridge = "B1"\nport = 3\nservice = "red"\n'
    link = '[[link]]\nname = "L1"\na = "B1"\na_port = 1\nb = "B1"\nb_port = 2\n'
    return {
        "a key at the top": f"{key} = 1\n{base}", "a key of a table": f"[network]\n{key} = 1\n{base}",
        "a table": f"[{key}]\na = 1\n{base}", "an array of tables": f"{base}[[{key}]]\na = 1\n",
        "a key of a port": base + port + f"{key} = 1\n", "a name": f"{base}[[service]]\nname = {key}\nvid = 7\n",
        "a bridge of a link": base + link.replace('b = "B1"', f"b = {key}"),
        "a service of a link": base + link + f"services = [{key}]\n",
        "a service of a port": base + port.replace('"red"', key), "an address": base.replace('"02-00-00-00-00-01"', key),
        "a link of an acceptance": base + link + f"[[accept]]\nlink = {key}\n",
        "a link of a tap": base + link + f'[[tap]]\nlink = {key}\nwrite = "t.out"\n',
        "a path to read": base + port + f'kind = "replay"\nread = {key}\n',
        "a path to write": base + port + f'kind = "record"\nwrite = {quoted("none/" + text)}\n',
        "a path of a socket": base + port + f'kind = "socket"\npath = {key}\n',
        "an address to bind": base + port + f'kind = "udp"\nlocal = {key}\nremote = "127.0.0.1:9"\nvni = 1\n',
        "a frame": base + port + f"in = [{key}]\n", "not TOML": f"{base}x = {text}\n",
    }


def arguments(text):
    """Returns commands that have a text as an argument."""
    return [["tree", "--down", text, "plan.toml"], ["draw", "--service", text, "plan.toml"],
            ["draw", "plan.toml", "-o", f"no/{text}"],
            ["survive", "--service", text, "plan.toml"], ["survive", "--from", text, "plan.toml"],
            ["survive", "--accept", text, "plan.toml"], ["survive", "--accept", "accept.toml", "plan.toml"],
            ["report", "--diff", text, "plan.toml"], ["report", text], ["report", "plan.toml", "-o", f"no/{text}"],
            ["diff", text, "plan.toml"], ["diff", "--service", text, "plan.toml", "plan.toml"],
            ["trace", "plan.toml", text], ["trace", "plan.toml", "C1", text], ["trace", "plan.toml", "C1", "--to", text],
            ["check", text], ["run", text], ["run", "--control", f"no/{text}", "--seconds", "1", "plan.toml"],
            ["control", text, "counts"], ["control", "none", text], [text], ["flat", text], ["init", "--ring", text],
            ["check", "--format", text, "plan.toml"], [f"--{text}"]]


def wrong_text(ended):
    """Returns what is wrong with what a command printed, or None."""
    why = crash(ended)
    if why:
        return why
    for octets in (ended.out, ended.err):
        raw = [it for it in octets.decode("utf-8", "replace") if it != "\n" and (ord(it) < 32 or 127 <= ord(it) < 160)]
        if raw and not octets.startswith(b"kind,"):
            return f"a control character is printed: {raw[0]!r}"
    lines = ended.lines() + ended.complaints().splitlines()
    faults = [it for it in lines if it.startswith(("fault:", "plan:"))]
    if len(faults) > (ended.status in (1, 3)) or (ended.status == 1 and len(ended.lines()) > 1 and ended.out[:1] != b"{"):
        return f"there are lines {faults}"
    known = ("ok", "red", "forest yes", "{\"a\"")
    odd = [it for it in lines if it in known and ended.status in (1, 2, 3)]
    return f"a line of a forged text is printed: {odd[0]!r}" if odd else None


def wrong_document(ended):
    """Returns what is wrong with a document, or None."""
    why = wrong_text(ended)
    if why or ended.status == 2:
        return why
    try:
        document = json.loads(ended.out)
    except ValueError as error:
        return f"the output is no document: {error}"
    return None if isinstance(document, dict) and "command" in document else "the output is another document"


def files(part):
    for number, text in enumerate(TEXTS):
        for kind, plan in plans(text).items():
            chance = part.chance(kind, number)
            for words in chance.sample(COMMANDS, 3) + [["run", "--seconds", "1"]]:
                is_formed = words[0] in FORMED and chance.random() < 0.5
                words = words + (["--format", "json"] if is_formed else [])
                with part.room("files", number) as room:
                    room.write("plan.toml", plan)
                    ended = room.run(PROGRAM, *words, "plan.toml", *(["C1"] if words[0] == "trace" else []))
                    part.judge(f"forged, {kind}", (wrong_document if is_formed else wrong_text)(ended), room, ended)


def words(part):
    for number, text in enumerate(TEXTS):
        for given in arguments(text):
            with part.room("words", number) as room:
                room.write("plan.toml", PLAN)
                room.write("accept.toml", f"[[accept]]\nlink = {quoted(text)}\n{quoted(text)} = 1\n")
                ended = room.run(PROGRAM, *given)
                weakness = "arguments are printed raw" if ended.status == 2 else None
                part.judge("forged, arguments", wrong_text(ended), room, ended, weakness)


def run_paths(part):
    """Writes to standard output by a path, beside a report there: that file has two uses."""
    for path in ("/dev/stdout", "/dev/fd/1", "/proc/self/fd/1", "out"):
        for words in ([], ["--strict"], ["--format", "json"]):
            with part.room("stdout") as room:
                text = frames.BRIDGES + frames.SERVICES + frames.port("C", "B1", 1, "red", f'in = ["{"ff" * 20}"]')
                room.write("plan.toml", text + frames.port("R", "B1", 2, "red", f'kind = "record"\nwrite = "{path}"'))
                with open(room.path / "out", "wb") as out:
                    ended = room.run(PROGRAM, "run", *words, "plan.toml", stdout=out)
                ended.out = room.read("out")
                is_refused = ended.status == 3 and b"fault" in ended.out and b"\xa1\xb2" not in ended.out
                is_refused = is_refused and b"error: port R: write " in ended.err
                why = crash(ended) or (None if is_refused else f"exit status {ended.status} for {path}")
                part.judge("forged, standard output as a capture", why, room, ended)


def attack(part):
    files(part)
    words(part)
    run_paths(part)
