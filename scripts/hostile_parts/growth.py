"""plans that grow: their time and memory, with generous limits"""
import os
import threading
import time

from hostile_parts.attack import PLAIN, PROGRAM
from hostile_parts.limits import LIMITED, ring
from hostile_parts.plans import BRIDGE

# Seconds of processor time, and megabytes, over which a command is wrong.
MOST_SECONDS, MOST_MEGABYTES = 60, 4096
# Seconds after which a command is ended, also on a busy machine.
PATIENCE = 300
# Kilobytes of address space, so that no command takes the memory of others.
SPACE = str((MOST_MEGABYTES + 512) * 1024)
TWO = '[[service]]\nname = "s1"\nvid = 1\n' + "".join(
    f'[[bridge]]\nname = "B{it}"\naddress = "02-00-00-00-00-{it:02x}"\n' for it in (1, 2))
LINK = '[[link]]\nname = "L1"\na = "B1"\na_port = 1\nb = "B2"\nb_port = 1\n'


def line(count, lost=""):
    """Returns the plan of a line of bridges with the root at its end. With a list of lost frames no tick is left out."""
    text = '[network]\nspanning = "rstp"\nprompt = true\nqueues = "class"\ntick_ms = 10\n'
    for it in range(1, count + 1):
        text += f'[[bridge]]\nname = "B{it}"\naddress = "02-00-00-00-00-{it:02x}"\n'
    for it in range(1, count):
        text += f'[[link]]\nname = "L{it}"\na = "B{it}"\na_port = 1\nb = "B{it + 1}"\nb_port = 2\n'
        text += lost if it == 1 else ""
    return text.encode()


def services(octets):
    """Returns a plan whose link lists services in so many octets, each another one."""
    names = ", ".join(f'"s{it}"' for it in range(octets // 10))
    return f"{TWO}{LINK}a_services = [{names}]\n".encode()


def cases(share):
    """Returns the commands by name, each with its plan, its standard input, and its weakness or its fault."""
    size, most, script = max(1, round(64 * share)), round(1_000_000 * share), b"tick B1\n" * round(1_000_000 * share)
    found = {
        f"a_services of {5 * share:g} MB": (["check"], services(round(5_000_000 * share)), b"", None),
        f"a comment of {size} MB": (["check"], BRIDGE + b"#" * (size * 1024 * 1024 - 200), b"", None),
        "a file of 64 MB and an octet": (
            ["check"], BRIDGE + b"#" * (64 * 1024 * 1024 - len(BRIDGE) + 1), b"", "fault: read"),
        "a file of 64 MB": (["check"], BRIDGE + b"#" * (64 * 1024 * 1024 - len(BRIDGE)), b"", None),
        "survive --pairs, a ring of 16": (["survive", "--pairs"], ring(16), b"", None),
        f"step, {most} ticks": (["step"], ring(8), script, None),
        f"check --all, {round(100_000 * share)} unknown keys": (
            ["check", "--all"], BRIDGE + b"".join(b"k%d = 1\n" % it for it in range(round(100_000 * share))), b"",
            "many errors"),
    }
    for words in (["tree"], ["draw"], ["check", "--settle"], ["survive"]):
        found[f"{' '.join(words)} --ticks {most}, a line of 32"] = ([*words, "--ticks", str(most)], line(32), b"", None)
    late = max(100, round(1500 * share))
    for words in (["tree"], ["draw"], ["check", "--settle"]):
        found[f"{' '.join(words)}, all of {late} ticks"] = (
            [*words, "--ticks", str(late)], line(32, "lost_ab = [1000000000]\n"), b"", None)
    return found


def measure(room, words, given):
    """Runs a command within the address space. Returns its status (None: too late), seconds and megabytes."""
    room.write("given", given)
    with open(room.path / "given", "rb") as file:
        limited = ["sh", "-c", LIMITED, PROGRAM, "-v", SPACE]
        process = room.start(*limited, *words, "plan.toml", stdin=file, env=PLAIN)
    is_late = threading.Event()

    def end():
        is_late.set()
        process.kill()

    timer = threading.Timer(PATIENCE, end)
    timer.start()
    begun = time.monotonic()
    _, status, used = os.wait4(process.pid, 0)
    timer.cancel()
    process.returncode = os.waitstatus_to_exitcode(status)
    if is_late.is_set():
        return None, time.monotonic() - begun, used.ru_maxrss / 1024
    return process.returncode, used.ru_utime + used.ru_stime, used.ru_maxrss / 1024


def attack(part):
    for kind, (words, plan, given, weakness) in cases(part.share).items():
        with part.room("growth") as room:
            room.write("plan.toml", plan)
            status, seconds, megabytes = measure(room, words, given)
            why, is_read = None, weakness == "fault: read"
            if is_read and (status, room.read("run.out")) != (3, b"fault: read\n"):
                why = f"exit status {status}"
            elif status is None or (status == 3 and not is_read) or seconds > MOST_SECONDS or megabytes > MOST_MEGABYTES:
                why = f"{seconds:.0f} s, {megabytes:.0f} MB"
            elif status not in range(5):
                why, weakness = f"exit status {status}", None
            part.judge(f"growth, {kind}", why, room, weakness=weakness)
            over = f"not over after {seconds:.0f} s" if status is None else f"{seconds:.1f} s"
            part.note(f"growth, {kind}", f"{over}, {megabytes:.0f} MB, status {status}")
