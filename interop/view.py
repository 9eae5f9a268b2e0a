#!/usr/bin/env python3
"""Tests the live view: ./pbnet-view and its page.

usage: interop/view.py [--short] [--pictures FOLDER] [WORD..]

Starts the view on a ring with RSTP and on other plans, sends requests to it, and compares what it answers, its exit
status, and which processes, sockets and temporary folders are left. Then headless Chromium opens the page, if it is
installed; --short leaves this part and the slower tests out. --pictures keeps the pictures of the page. With WORDs only
those tests run whose names have one of them.

Each test prints a line `ok NAME`, `FAILED NAME: WHY` with what was printed below it, or `skipped: WHY`. The last line
is `N passed, M failed`, and the exit status is 0 if M is 0 and N is not. The view runs ./pbnet, or the program that the
variable PBNET names."""

import argparse
import fcntl
import functools
import http.client
import os
import pty
import re
import signal
import socket
import subprocess
import sys
import termios
import time
from concurrent.futures import ThreadPoolExecutor

sys.dont_write_bytecode = True
import view_browser
from chromium import BrowserError
from view_room import BROADCAST, DRAINS, FIXED, NAMES, PORT, Room, View, Wrong
from view_room import ended, ring, stand_in, wait_for, want, want_end, want_gone

# The tests: each has its name in its first line.


def try_page(room, view):
    """the page has a strict policy and nothing of the plan"""
    status, headers, text = view.request("GET", f"/?token={view.token}", X_Token=None)
    policy = headers["Content-Security-Policy"]
    nonce = re.search(r"script-src 'nonce-([\w-]+)'", policy)[1]
    want("the status", status, 200)
    want("the start of the policy", policy.startswith("default-src 'none'; "), True)
    want("unsafe sources", re.findall(r"unsafe|\*|https?:", policy), [])
    want("the scripts", re.findall(r"<script([^>]*)>", text), [f' nonce="{nonce}"'])
    want("addresses in the page", re.findall(r"(?:src|href)=\"([^\"]*)", text), ["data:,"])
    want("names of the plan", [it for it in (*NAMES, "ring1", "plan.toml", view.token) if it in text], [])
    want("a new nonce", nonce in view.request("GET", f"/?token={view.token}")[1]["Content-Security-Policy"], False)


def try_token(room, view):
    """a wrong token is refused"""
    for token in ("", "x", view.token[:-1], view.token + "x", "\u00e4"):
        for path in ("/picture", "/state", "/counts", f"/state?token={view.token}"):
            want(f"GET {path}", view.request("GET", path, X_Token=token)[0], 403)
        for path in ("/link", "/stop"):
            want(f"POST {path}", view.request("POST", path, {"link": "ring1", "up": False}, X_Token=token)[0], 403)
    for query in ("", "?token=", "?token=x", f"?token={view.token}x", "?token=%ff"):
        want(f"GET /{query}", view.request("GET", f"/{query}")[0], 403)


def try_host(room, view):
    """a wrong host is refused"""
    for host in (None, "", "pbnet.example", f"pbnet.example:{view.port}", "127.0.0.1", f"127.0.0.2:{view.port}"):
        want(f"the host {host}", view.request("GET", "/state", Host=host)[0], 403)
        want(f"the page for {host}", view.request("GET", f"/?token={view.token}", Host=host)[0], 403)
    want("the host localhost", view.request("GET", "/state", Host=f"localhost:{view.port}")[0], 200)


def try_origin(room, view):
    """a wrong origin is refused"""
    others = ("null", "http://pbnet.example", "http://127.0.0.1")
    for origin in (*others, f"https://{view.host}", f"http://localhost:{view.port}"):
        want(f"GET from {origin}", view.request("GET", "/state", Origin=origin)[0], 403)
        want(f"POST from {origin}", view.request("POST", "/stop", {}, Origin=origin)[0], 403)
    want("POST without origin", view.request("POST", "/stop", {}, Origin=None)[0], 403)


def try_paths(room, view):
    """other paths and methods are refused"""
    files = ("/page.html", "/view/page.js", "/../README.md", "/%2e%2e/README.md", "//etc/passwd", "/favicon.ico")
    for path in (*files, "/state/", "//[", "http://127.0.0.1/state", "/link", "/stop"):
        want(f"GET {path}", view.request("GET", path)[0], 404)
    want("POST /state", view.request("POST", "/state", {})[0], 404)
    for method in ("PUT", "DELETE", "OPTIONS", "HEAD", "TRACE"):
        want(method, view.request(method, "/state")[0], 501)


def try_bodies(room, view):
    """requests of another form are refused, and change nothing"""
    objects = ({}, {"link": "ring1"}, {"link": ["ring1"], "up": False}, {"link": "ring1", "up": 0})
    for body in ([], 1, *objects, {"link": "x" * 2000}):
        want(f"the body {str(body)[:40]}", view.post("/link", body)[0], 400)
    for name in ("ring9", "North", "ring1\nstop", "<script>"):
        want(f"the link {name!r}", view.post("/link", {"link": name, "up": False})[0], 404)
    want("no length", view.request("POST", "/link", Content_Length=None)[0], 400)
    want("a wrong length", view.request("POST", "/link", Content_Length="-1")[0], 400)
    want("the disabled ends", view.ends("role").get("disabled"), None)


def try_place(room, view):
    """it listens at 127.0.0.1 alone, and its control socket is in a private folder"""
    with open("/proc/net/tcp", encoding="utf-8") as four, open("/proc/net/tcp6", encoding="utf-8") as six:
        places = [it.split()[1:4] for it in four.readlines()[1:] + six.readlines()[1:]]
    mine = [place for place, _, state in places if state == "0A" and place.endswith(f":{int(view.port):04X}")]
    want("where it listens", mine, [f"0100007F:{int(view.port):04X}"])
    folder = next(it.path for it in os.scandir(room.spare) if it.name.startswith("pbnet-view."))
    want("the mode of the folder", oct(os.stat(folder).st_mode & 0o777), "0o700")


def try_state(room, view):
    """the state has roles, states, rates and counts"""
    state = view.get("/state")
    want("the keys", sorted(state), ["bridges", "changes", "drops", "links", "ports", "result", "seconds"])
    want("the bridges", sorted(state["bridges"]), sorted(NAMES))
    want("the root", state["links"]["ring1"][0], {"role": "designated", "state": "forwarding", "disabled": False})
    picture = view.get("/picture")
    want("the plan", picture["plan"], room.plan)
    want("the ends", [(it["bridge"], it["port"]) for it in picture["links"][0]["ends"]], [("North", 1), ("East", 2)])
    with socket.socket(socket.AF_UNIX) as north, socket.socket(socket.AF_UNIX) as south:
        north.connect(f"{room.path}/North.sock")
        south.connect(f"{room.path}/South.sock")
        north.sendall((len(BROADCAST).to_bytes(2, "big") + BROADCAST) * 40)
        wait_for("the frames", lambda: view.get("/state")["ports"]["at-South"]["left"] == 40)
        ports = view.get("/state")["ports"]
    want("the port at which they entered", ports["at-North"]["entered"], 40)
    want("rates", [ports["at-North"]["rates"][0] > 0, ports["at-South"]["rates"][1] > 0], [True, True])
    counts = [re.sub(r"ticks \d+", "ticks N", it) for it in view.get("/counts")["lines"]]
    want("a line of the counts", "bridge East refused 0 ticks N" in counts and counts[-1] == "ok", True)


def try_failure(room, view):
    """a link is disabled, and the failure is shown within a second"""
    begin = time.monotonic()
    want("the answer", view.post("/link", {"link": "ring1", "up": False}), (200, {"verdicts": ["ok", "ok"]}))
    wait_for("both ends", lambda: all(it["disabled"] for it in view.get("/state")["links"]["ring1"]))
    wait_for("the new tree", lambda: view.ends("role") == {"disabled": 2, "root": 3, "designated": 3})
    want("a second", time.monotonic() - begin < 1, True)
    texts = [it["text"] for it in view.get("/state")["changes"]]
    want("who did it", "ring1: disabled by this page" in texts, True)
    want("the change", "ring1: North port 1 designated forwarding → disabled discarding" in texts, True)
    number = max(it["number"] for it in view.get("/state")["changes"])
    want("changes after the last", view.get(f"/state?after={number}")["changes"], [])
    want("the answer", view.post("/link", {"link": "ring1", "up": True})[0], 200)
    view.settle()


def try_stop(room, view):
    """stop ends everything"""
    want("the answer", view.post("/stop", {}), (200, {"verdicts": ["ok"]}))
    wait_for("the result", lambda: view.get("/state")["result"] is not None)
    result = view.get("/state")["result"]
    want("the result", (result["line"], result["status"]), ("ended stopped", 0))
    want_gone(room, view, 0)


SHARED = [try_page, try_token, try_host, try_origin, try_paths, try_bodies, try_place, try_state, try_failure, try_stop]


def try_signal(room, number):
    """Sends a signal to the view, and checks that the run stops: the tests of this function are named by `name_of`."""
    view = View(room, ring(room))
    view.settle()
    view.process.send_signal(number)
    want_gone(room, view, 0)


def try_terminal(room):
    """Ctrl-C on a terminal stops the run, and its report is printed"""
    master, slave = pty.openpty()
    # (the terminal is the controlling one of the new session)
    own = {"stdin": slave, "preexec_fn": lambda: fcntl.ioctl(0, termios.TIOCSCTTY, 0)}
    view = View(room, ring(room), **own)
    os.close(slave)
    view.settle()
    os.write(master, b"\x03")
    want_gone(room, view, 0)
    os.close(master)


def try_early(room):
    """Ctrl-C at once stops the run"""
    view = View(room, room.write("plan.toml", FIXED + PORT.format("North", room.path)))
    view.process.send_signal(signal.SIGINT)
    want_gone(room, view, 0, "forest yes")


def try_killed(room):
    """a view that is killed leaves no process"""
    view = View(room, ring(room))
    view.settle()
    view.process.kill()
    ended(view.process)
    wait_for("the end of the run", lambda: not room.processes())


def try_second(room):
    """a second Ctrl-C ends a run that does not stop"""
    view = View(room, stand_in(room, False))
    wait_for("the run", lambda: view.get("/state")["drops"])
    view.process.send_signal(signal.SIGINT)
    time.sleep(1)
    want("the exit status", view.process.poll(), None)
    view.process.send_signal(signal.SIGINT)
    want_gone(room, view, 128 + signal.SIGKILL, None)


def try_drops(room):
    """the lines of the command drops are passed on"""
    view = View(room, stand_in(room, True))
    lines = ["bridge North port 3 not-member 17", "bridge <img src=x onerror=alert(1)> 5"]
    wait_for("the drops", lambda: view.get("/state")["drops"] == lines)
    view.process.send_signal(signal.SIGTERM)
    want_gone(room, view, 0, "ended stopped")


def try_states(room):
    """a plan that gives the states, with a link that has the name of a bridge"""
    view = View(room, room.write("plan.toml", FIXED + PORT.format("North", room.path)))
    wait_for("the states", lambda: view.get("/state")["links"]["North"][1]["state"] == "discarding")

    def disabled():
        """Returns which ends of the link are disabled."""
        return [it["disabled"] for it in view.get("/state")["links"]["North"]]

    want("the disabled ends", disabled(), [False, False])
    for is_up in (False, True):
        want("the answer", view.post("/link", {"link": "North", "up": is_up}), (200, {"verdicts": ["ok", "ok"]}))
        wait_for("the ends", lambda wanted=not is_up: disabled() == [wanted, wanted])
    view.process.send_signal(signal.SIGHUP)
    want_gone(room, view, 0, "forest yes")


def try_refused(room):
    """a plan with faults ends with pbnet's message and status"""
    plan = room.write("plan.toml", '[[bridge]]\nname = "<script>"\naddress = "02-00-00-00-00-01"\n')
    want_end(room, [plan], 1, "plan: 5 range bridge[0].name", "plan.toml:2:8: ")


def try_missing(room):
    """a missing file, and a missing program, end with a message and a hint"""
    want_end(room, ["no.toml"], 3, "fault: path", "error: cannot open no.toml", "hint: 'pbnet init")
    room.env["PBNET"] = f"{room.path}/nowhere"
    want_end(room, ["no.toml"], 1, f"error: cannot run {room.path}/nowhere", "hint: install pbnet again")


def try_taken(room):
    """a port in use ends with a message and a hint, and nothing runs"""
    with socket.create_server(("127.0.0.1", 0)) as taken:
        port = taken.getsockname()[1]
        texts = (f"error: cannot listen at 127.0.0.1:{port}: ", "hint: choose another port")
        want_end(room, ["--port", str(port), ring(room)], 2, *texts)


def try_arguments(room):
    """wrong arguments have status 2"""
    ports = [["--port", it, "x"] for it in ("0", "70000", "x", "-1", "")]
    for arguments in ([], *ports, ["--port"], ["a", "b"], ["-x", "a"]):
        want_end(room, arguments, 2, "error: ", "For more information, try 'pbnet-view --help'.")
    want_end(room, ["--help"], 0, "Usage: pbnet-view [OPTIONS] <FILE>")


def try_brief(room):
    """a run that ends at once: its status, and why"""
    brief = room.write("brief.toml", DRAINS)
    want_end(room, [brief], 0, "ended drained", "the run ended with status 0 before", "hint: ")
    lost = room.write("lost.toml", DRAINS + 'kind = "replay"\nread = "no.pcap"\n')
    want_end(room, [lost], 3, "fault: path", "error: port C2: read no.pcap", "ended with status 3 before")
    want_end(room, [brief], 3, "error: cannot write the report: No space left", output="/dev/full")


ALONE = [
    try_brief, try_refused, try_missing, try_taken, try_arguments, try_terminal, try_early,
    *(functools.partial(try_signal, number=it) for it in (signal.SIGINT, signal.SIGTERM, signal.SIGHUP)),
    try_killed, try_second, try_drops, try_states,
]
SHORT = [try_refused, try_missing, try_taken, try_killed]


def name_of(test):
    """Returns the name of a test."""
    if isinstance(test, functools.partial):
        return f"{test.keywords['number'].name} stops the run, and its report is printed"
    return test.__doc__.splitlines()[0]


def fault_of(room, test, *values):
    """Runs a test. Returns None, or what it found, with what was printed below it."""
    try:
        test(*values)
        return None
    except (Wrong, BrowserError, OSError, http.client.HTTPException, subprocess.TimeoutExpired) as error:
        return f"{error}\n{room.said()}".rstrip("\n")


def alone(test):
    """Runs a test in a room of its own, and returns its fault."""
    room = Room(None)
    try:
        return fault_of(room, test, room)
    finally:
        room.remove()


class Results:
    """Runs tests and counts them."""

    def __init__(self, words):
        self.words, self.passed, self.failed = words, 0, 0

    def wants(self, name):
        """Returns whether the test of this name is to run."""
        return not self.words or any(it in name for it in self.words)

    def add(self, name, room, test, *values):
        """Runs a test, and prints whether it passed."""
        self.put(name, fault_of(room, test, *values))

    def put(self, name, fault):
        """Prints whether a test passed. `fault` is None if it did."""
        self.passed += fault is None
        self.failed += fault is not None
        print(f"ok {name}" if fault is None else f"FAILED {name}: {fault}", flush=True)


def run_shared(results):
    """Runs the tests of one view."""
    room = Room(None)
    try:
        view = View(room, ring(room))
        view.settle()
        for test in SHARED:
            if results.wants(name_of(test)) or test is try_stop:
                results.add(name_of(test), room, test, room, view)
    except Wrong as error:
        results.put("the view starts", f"{error}\n{room.said()}".rstrip("\n"))
    finally:
        room.remove()


def run_alone(results, tests):
    """Runs tests that have a view of their own each, four at a time."""
    chosen = [it for it in tests if results.wants(name_of(it))]
    with ThreadPoolExecutor(4) as pool:
        for test, fault in zip(chosen, pool.map(alone, chosen), strict=True):
            results.put(name_of(test), fault)


def main():
    """Runs the tests that the arguments name, and returns the exit status."""
    parser = argparse.ArgumentParser(description=__doc__, formatter_class=argparse.RawDescriptionHelpFormatter)
    parser.add_argument("--short", action="store_true")
    parser.add_argument("--pictures", metavar="FOLDER")
    parser.add_argument("words", metavar="WORD", nargs="*")
    given = parser.parse_args()
    results = Results(given.words)
    run_shared(results)
    run_alone(results, SHORT if given.short else ALONE)
    if not given.short:
        view_browser.run(results, given.pictures)
    print(f"{results.passed} passed, {results.failed} failed")
    return 0 if results.passed and not results.failed else 1


if __name__ == "__main__":
    sys.exit(main())
