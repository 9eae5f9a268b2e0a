"""Shared by the tests of the live view: plans, the view as a browser sees it, and what has to be left of it."""

import http.client
import json
import os
import re
import shutil
import subprocess
import sys

ROOT = os.path.dirname(os.path.dirname(os.path.realpath(__file__)))
sys.path.insert(0, f"{ROOT}/scripts")
from rooms import DRAINS, Room, Wrong, ended, wait_for, want

__all__ = ["DRAINS", "Room", "Wrong", "ended", "wait_for", "want"]
VIEW = f"{ROOT}/pbnet-view"
# The absolute path of the program: ./pbnet, or that of the variable PBNET, which is a path or a name on PATH.
NAMED = os.environ.get("PBNET") or f"{ROOT}/pbnet"
os.environ["PBNET"] = PROGRAM = os.path.abspath(shutil.which(NAMED) or NAMED)
NAMES = ["North", "East", "South", "West"]
HEAD = """\
[network]
spanning = "rstp"
prompt = true
queues = "class"
tick_ms = 20
[[service]]
name = "red"
vid = 100
"""
BRIDGE = '[[bridge]]\nname = "{0}"\naddress = "02-00-00-00-00-0{1}"\n'
LINK = '[[link]]\nname = "ring{0}"\na = "{1}"\na_port = 1\nb = "{2}"\nb_port = 2\n'
PORT = """\
[[port]]
name = "at-{0}"
bridge = "{0}"
port = 3
service = "red"
kind = "socket"
listen = "{1}/{0}.sock"
stay = true
"""
FIXED = """\
[[bridge]]
name = "North"
address = "02-00-00-00-00-01"
[[bridge]]
name = "East"
address = "02-00-00-00-00-02"
[[link]]
name = "North"
a = "North"
a_port = 1
b = "East"
b_port = 2
b_state = "discarding"
[[service]]
name = "red"
vid = 100
"""
BROADCAST = bytes.fromhex("ffffffffffff02000000000108004142")
# A program in the place of pbnet whose run knows the command `drops`, with lines that a page must not take for HTML.
STAND_IN = """\
#!/usr/bin/env python3
import os, socket, sys
if sys.argv[1] == "draw":
    os.execv({0!r}, [{0!r}, *sys.argv[1:]])
drops = "bridge North port 3 not-member 17\\nbridge <img src=x onerror=alert(1)> 5\\n"
answers = {{"tree": "", "counts": "", "drops": drops}}
with socket.socket(socket.AF_UNIX) as listener:
    listener.bind(sys.argv[3])
    listener.listen()
    while True:
        peer, _ = listener.accept()
        lines = peer.makefile().read().splitlines()
        peer.sendall("".join(answers.get(it, "") + "ok\\n" for it in lines).encode())
        peer.close()
        if "stop" in lines and {1}:
            print("ended stopped")
            sys.exit(0)
"""


def ring(room):
    """Writes the plan of a ring that goes on until it is stopped."""
    bridges = "".join(BRIDGE.format(name, number) for number, name in enumerate(NAMES, 1))
    pairs = zip(NAMES, NAMES[1:] + NAMES[:1], strict=True)
    links = "".join(LINK.format(number, *pair) for number, pair in enumerate(pairs, 1))
    ports = "".join(PORT.format(name, room.path) for name in ("North", "South"))
    return room.write("plan.toml", HEAD + bridges + links + ports)


class View:
    """The view of a run, as a browser of this machine sees it."""

    def __init__(self, room, plan, **more):
        with open(f"{room.path}/run.out", "wb") as out, open(f"{room.path}/run.err", "wb") as err:
            how = {"stdin": subprocess.DEVNULL, "stdout": out, "stderr": err, "cwd": room.path, "env": room.env}
            self.process = subprocess.Popen([VIEW, plan], start_new_session=True, **{**how, **more})
        wait_for("the address of the page", lambda: "?token=" in room.read("run.err"))
        self.port, self.token = re.search(r"http://127\.0\.0\.1:(\d+)/\?token=(\S+)", room.read("run.err")).groups()
        self.host = f"127.0.0.1:{self.port}"
        self.address = f"http://{self.host}/?token={self.token}"

    def request(self, method, path, body=None, **headers):
        """Returns the status, the headers and the text of a response. A header that is None is not sent."""
        link = http.client.HTTPConnection("127.0.0.1", int(self.port), timeout=10)
        link.putrequest(method, path, skip_host=True, skip_accept_encoding=True)
        data = b"" if body is None else json.dumps(body).encode()
        origin = f"http://{self.host}" if method == "POST" else None
        fixed = {"Host": self.host, "Origin": origin, "X-Token": self.token, "Content-Length": str(len(data))}
        for name, value in {**fixed, **{it.replace("_", "-"): headers[it] for it in headers}}.items():
            if value is not None:
                link.putheader(name, value)
        link.endheaders(data)
        response = link.getresponse()
        text = response.read().decode()
        link.close()
        return response.status, response.headers, text

    def get(self, path):
        """Returns the document at a path."""
        status, _, text = self.request("GET", path)
        want(f"the status of {path}", status, 200)
        return json.loads(text)

    def post(self, path, body):
        """Returns the status and the document that a request of the page brings."""
        status, _, text = self.request("POST", path, body)
        return status, json.loads(text)

    def settle(self):
        """Waits until each port has the state of its role."""
        wait_for("the tree", lambda: self.ends("role").get("root") == 3 and self.ends("state").get("forwarding") == 7)

    def ends(self, key):
        """Returns how many ends of links have each role, or each state."""
        found = [end[key] for ends in self.get("/state")["links"].values() for end in ends]
        return {it: found.count(it) for it in found}


def want_gone(room, view, status, last="settled yes"):
    """Checks that the view ended with a status, after a report with this last line, and that nothing is left of it."""
    found, report = ended(view.process), room.read("run.out").splitlines()
    want("the exit status", found, status)
    want("the report", report[:1] + report[-1:], ["ended stopped", last] if last else [])
    want("the processes that are left", room.processes(), {})
    want("the files that are left", room.left(), [])


def want_end(room, arguments, status, *texts, output=None):
    """Checks that the view ends with this status, and prints these texts and no traceback. `output` is a file for its
    standard output."""
    with open(output or f"{room.path}/run.out", "wb") as out, open(f"{room.path}/run.err", "wb") as err:
        how = {"stdin": subprocess.DEVNULL, "stdout": out, "stderr": err, "cwd": room.path, "env": room.env}
        done = subprocess.run([VIEW, *arguments], timeout=20, check=False, **how)
    printed = room.read("run.err") + ("" if output else room.read("run.out"))
    want("the exit status", done.returncode, status)
    want("the texts that are missing", [it for it in texts if it not in printed], [])
    want("an exception", [it for it in ("Traceback", "Exception") if it in printed], [])
    want("the files that are left", room.left(), [])


def stand_in(room, stops):
    """Writes a program in the place of pbnet, and its plan."""
    room.env["PBNET"] = room.write("stand-in", STAND_IN.format(PROGRAM, stops))
    os.chmod(room.env["PBNET"], 0o755)
    return ring(room)
