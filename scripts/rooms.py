"""Rooms for tests of runs: a temporary folder each, with plans and the processes that it started."""
import os
import shutil
import signal
import stat
import subprocess
import tempfile
import time

# How many seconds a test waits for what is to come.
PATIENCE = 10
HEAD = """\
[[bridge]]
name = "B1"
address = "02-00-00-00-00-01"
queue = 4096
[[service]]
name = "red"
vid = 100
"""
PORT = '[[port]]\nname = "C{0}"\nbridge = "B1"\nport = {0}\nservice = "red"\nqueue = 4096\n'
BROADCAST = "ffffffffffff02000000010108004142"
DRAINS = HEAD + PORT.format(1) + f'in = ["{BROADCAST}"]\n' + PORT.format(2)


class Wrong(Exception):
    """What a test found."""


class Skipped(Exception):
    """Why a test can't run on this machine."""


def wait_for(what, is_so):
    """Waits until something is so."""
    end = time.monotonic() + PATIENCE
    while not is_so():
        if time.monotonic() > end:
            raise Wrong(f"{what}: not within {PATIENCE} seconds")
        time.sleep(0.01)


def want(what, found, wanted):
    if found != wanted:
        raise Wrong(f"{what} is {found!r}, not {wanted!r}")


class Room:
    """A temporary folder for one test, with plans, temporary files of the launcher, and what runs print."""

    def __init__(self, launcher):
        self.launcher, self.path = launcher, tempfile.mkdtemp(prefix="pbnet-signals-")
        self.plan, self.port, self.spare = (f"{self.path}/{it}" for it in ("plan.toml", "port.sock", "tmp"))
        os.mkdir(self.spare)
        # (the second variable marks all processes of the test)
        self.env = {**os.environ, "TMPDIR": self.spare, "PBNET_ROOM": self.path}
        self.env.pop("PBNET_PLAIN", None)
        self.kept = set()

    def write(self, name, text):
        with open(f"{self.path}/{name}", "w", encoding="utf-8") as file:
            file.write(text)
        return f"{self.path}/{name}"

    def read(self, name):
        with open(f"{self.path}/{name}", encoding="utf-8", errors="replace") as file:
            return file.read()

    def write_endless(self, name="plan.toml", listen=None):
        """Writes a plan that never drains: its port waits for a peer."""
        text = HEAD + PORT.format(1) + f'kind = "socket"\nlisten = "{listen or self.port}"\n'
        return self.write(name, text)

    def start(self, *arguments, before=(), name="run", **more):
        """Starts the launcher in a session of its own, with what it prints in the files NAME.out and NAME.err."""
        words = [*before, self.launcher, "run", *arguments]
        with open(f"{self.path}/{name}.out", "wb") as out, open(f"{self.path}/{name}.err", "wb") as err:
            how = {"stdin": subprocess.DEVNULL, "stdout": out, "stderr": err, "env": self.env, "cwd": self.path}
            return subprocess.Popen(words, start_new_session=True, **{**how, **more})

    def processes(self):
        """Returns the arguments of all processes of the test that are left, by their numbers."""
        found = {}
        for it in filter(str.isdigit, os.listdir("/proc")):
            try:
                with open(f"/proc/{it}/environ", "rb") as environ, open(f"/proc/{it}/cmdline", "rb") as line:
                    if f"PBNET_ROOM={self.path}".encode() in environ.read().split(b"\0"):
                        found[int(it)] = line.read().decode("utf-8", "replace").split("\0")[:-1]
            except OSError:
                pass
        return found

    def programs(self):
        """Returns the numbers of the processes that run the program itself."""
        return [pid for pid, words in self.processes().items() if words[1:2] == ["run"]]

    def left(self):
        """Returns the sockets and temporary files that are left."""
        names = [it.path for it in os.scandir(self.path) if stat.S_ISSOCK(it.stat().st_mode)]
        return [it for it in names if it not in self.kept] + [f"{self.spare}/{it}" for it in os.listdir(self.spare)]

    def said(self):
        """Returns what the runs of the test printed, for people."""
        names = sorted(it for it in os.listdir(self.path) if it.endswith((".out", ".err")))
        return "".join(f"    {it}: {line}\n" for it in names for line in self.read(it).splitlines()[-20:])

    def remove(self):
        for pid in self.processes():
            try:
                os.kill(pid, signal.SIGKILL)
            except ProcessLookupError:
                pass
        shutil.rmtree(self.path, ignore_errors=True)


def ended(process):
    """Returns the exit status of a launcher: that of the signal, below 0, if a signal ended it."""
    try:
        return process.wait(PATIENCE)
    except subprocess.TimeoutExpired:
        raise Wrong(f"the run has not ended {PATIENCE} seconds later") from None


def want_stopped(room, process, status=0, name="run"):
    """The run was stopped, and its report was printed."""
    found, report = ended(process), room.read(name + ".out").splitlines()
    want("the exit status", found, status)
    want("the report", [*report[:1], *report[-1:]], ["ended stopped", "forest yes"])


def wait_open(room):
    wait_for("the socket of the port", lambda: os.path.exists(room.port))
