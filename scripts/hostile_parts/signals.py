"""signals at random moments, by the launcher and directly: what is written opens as whole records"""
import os
import shutil
import signal
import stat
import threading
import time

import common
from captures import frame
from streams import Peer

from hostile_parts import frames
from hostile_parts.attack import PROGRAM, LIMIT
from hostile_parts.limits import NOT_WRITTEN

NUMBERS = [signal.SIGTERM, signal.SIGINT, signal.SIGHUP]


def plan():
    text = frames.BRIDGES + frames.LINK + frames.SERVICES
    text += frames.port("near", "B1", 1, "red", 'kind = "socket"\nlisten = "near.sock"')
    for number, bridge in ((2, "B1"), (3, "B2")):
        text += frames.port(f"R{number}", bridge, number, "red", f'kind = "record"\nwrite = "R{number}.out"')
    return text


def launcher_of(part):
    """Returns a copy of the launcher that runs the program as an installed one."""
    for folder in ("bin", "lib/pbnet", "tmp"):
        (part.base / "installed" / folder).mkdir(parents=True, exist_ok=True)
    os.symlink(PROGRAM, part.base / "installed/lib/pbnet/pbnet")
    return shutil.copy(common.TOP / "pbnet", part.base / "installed/bin/pbnet")


def load(path, is_over):
    """Sends frames to a port, once its socket is there, until the run or the attack is over."""
    while not is_over.is_set():
        try:
            peer = Peer.to(path)
            for number in range(10**9):
                peer.send(frame(60 + 13 * number % 1400, kind=number.to_bytes(4, "big")))
        except OSError:
            time.sleep(0.005)


def wrong_captures(room, err):
    """Returns what is wrong with the captures that exist: each is a row of whole records or named, and its frames are
    the first of those that entered."""
    named = {name for name, _ in NOT_WRITTEN.findall(err.decode("utf-8", "replace"))}
    for number in (2, 3):
        left = frames.written(room.read(f"R{number}.out"))
        if left is None or left[1]:
            if f"R{number}" not in named:
                return f"R{number}.out is cut off within a record, and standard error does not name it"
        for place, it in enumerate(left[0] if left else []):
            if it != frame(60 + 13 * place % 1400, kind=place.to_bytes(4, "big")):
                return f"frame {place} of R{number}.out is not the one that entered"
    return None


def wrong_end(room, ended, is_by_launcher):
    """Returns what is wrong with the end of a run by a signal, or None."""
    if ended.status is None:
        return f"it is not over {LIMIT} s later"
    why = wrong_captures(room, ended.err)
    if why or not is_by_launcher:
        return why
    left = [it.name for it in room.path.iterdir() if stat.S_ISSOCK(it.lstat().st_mode)]
    if left:
        return f"the sockets {left} are left"
    is_early = ended.status < 0 or ended.status > 128
    lines = ended.lines()
    if is_early and lines or not is_early and (ended.status, lines[:1]) != (0, ["ended stopped"]):
        return f"exit status {ended.status}, and the output begins with {lines[:1]}"
    return None


def try_signal(part, number, launcher):
    chance = part.chance("signals", number)
    is_by_launcher, which = number % 2 == 0, chance.choice(NUMBERS)
    with part.room("signals", number) as room:
        room.write("plan.toml", plan())
        env = {**os.environ, "TMPDIR": str(part.base / "installed/tmp")}
        env.pop("PBNET_PLAIN", None)
        words = [launcher if is_by_launcher else PROGRAM, "run", *chance.choice([[], ["--control", "control"]])]
        is_over = threading.Event()
        run = room.start(*words, "plan.toml", env=env, start_new_session=True)
        sender = threading.Thread(target=load, args=(room.path / "near.sock", is_over), daemon=True)
        sender.start()
        time.sleep(chance.choice([0.01, 0.1, 0.3, 0.6, 1]) * chance.random() * 2)
        run.send_signal(which)
        ended = room.end(run)
        is_over.set()
        sender.join(20)
        why = wrong_end(room, ended, is_by_launcher)
        weakness = None if is_by_launcher else "a signal to the program itself"
        kind = f"signals, {'by the launcher' if is_by_launcher else 'directly'}, {which.name}"
        part.judge(kind, why, room, ended, weakness)


def attack(part):
    launcher = launcher_of(part)
    for number in range(part.times(120)):
        try_signal(part, number, launcher)
    part.judge("signals, temporary files", None if not os.listdir(part.base / "installed/tmp") else "some are left")
    shutil.rmtree(part.base / "installed")
