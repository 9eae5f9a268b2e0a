"""Watches a run by its control socket: states, rates, drops and changes."""

import collections
import threading
import time

from view import control

# The seconds over which frames are counted for a rate, and the changes that are kept.
RATE_SECONDS = 1.0
KEPT_CHANGES = 500


class Rates:
    """Counts frames a second from samples of counters."""

    def __init__(self):
        self.samples = collections.deque()

    def add(self, moment, counters):
        """Adds a sample. Drops those that are older than needed."""
        self.samples.append((moment, counters))
        while len(self.samples) > 2 and self.samples[1][0] <= moment - RATE_SECONDS:
            self.samples.popleft()

    def of(self, name):
        """Returns the rates of the two counters of a port, a second."""
        (first, before), (last, after) = self.samples[0], self.samples[-1]
        if last <= first or name not in before or name not in after:
            return 0, 0
        return tuple(round((new - old) / (last - first)) for old, new in zip(before[name], after[name], strict=True))


class Watch:
    """What is known of a run, for all threads."""

    def __init__(self, picture, path):
        self.picture, self.path = picture, path
        self.started = time.time()
        # One command at a time uses the socket; the other lock guards what follows.
        self.socket_lock, self.lock = threading.Lock(), threading.Lock()
        self.tree, self.ports, self.bridges, self.rates = {}, {}, {}, Rates()
        # (None: the run has no command `drops`)
        self.drops, self.asks_drops = None, True
        self.changes, self.number = collections.deque(maxlen=KEPT_CHANGES), 0
        # The links that this page has disabled, for plans that give the states.
        self.disabled = set()
        self.result = None
        self.links_of = {
            (end["bridge"], end["port"]): link["name"] for link in picture["links"] for end in link["ends"]
        }

    def note(self, kind, text):
        """Adds a line to the changes."""
        with self.lock:
            self.number += 1
            self.changes.append({"number": self.number, "time": time.time(), "kind": kind, "text": text})

    def ask(self, *commands):
        """Returns the answers of the run. Raises OSError if it does not answer."""
        with self.socket_lock:
            return control.ask(self.path, commands)

    def sample(self):
        """Asks the run for its tree and its counters. Raises OSError if it does not answer."""
        commands = ["tree", "counts", "drops"] if self.asks_drops else ["tree", "counts"]
        answers = self.ask(*commands)
        moment = time.monotonic()
        tree = control.read_tree(answers[0])
        for line in self.changes_to(tree):
            self.note("tree", line)
        with self.lock:
            self.tree = tree
            self.ports, self.bridges = control.read_counts(answers[1])
            self.rates.add(moment, self.ports)
            if self.asks_drops:
                self.asks_drops = answers[2][-1] == "ok"
                self.drops = answers[2][:-1] if self.asks_drops else None

    def changes_to(self, tree):
        """Returns a line for each port whose role or state differs in this tree."""
        lines = []
        for place, after in tree.items():
            before = self.tree.get(place)
            if before is not None and before != after:
                words = [" ".join(filter(None, it)) for it in (before, after)]
                bridge, port = place
                lines.append(f"{self.links_of.get(place, '?')}: {bridge} port {port} {words[0]} → {words[1]}")
        return lines

    def is_disabled(self, link, end):
        """Returns whether an end of a link is disabled, as far as this can be known."""
        role, state = self.tree.get((end["bridge"], end["port"]), (None, None))
        if role is not None or state is None:
            return role == "disabled"
        # A plan with given states: only a disabled port has another state than the plan's.
        return state == "discarding" and (end["state"] != "discarding" or link["name"] in self.disabled)

    def set_link(self, name, is_up):
        """Enables or disables both ends of a link. Returns the verdicts of the run. Raises KeyError, OSError."""
        link = next((it for it in self.picture["links"] if it["name"] == name), None)
        if link is None:
            raise KeyError(name)
        word = "up" if is_up else "down"
        # (by its ends: a bridge may have the name of the link)
        answers = self.ask(*(f"{word} {end['bridge']} {end['port']}" for end in link["ends"]))
        verdicts = [it[-1] for it in answers]
        if verdicts == ["ok", "ok"]:
            with self.lock:
                (self.disabled.discard if is_up else self.disabled.add)(name)
            self.note("command", f"{name}: {'enabled' if is_up else 'disabled'} by this page")
        return verdicts

    def stop(self):
        """Asks the run to stop. Raises OSError if it does not answer."""
        self.ask("stop")
        self.note("command", "stop: the run ends")

    def finish(self, output, status):
        """Notes how the run ended."""
        line = ", ".join(it for it in output if it.startswith(("ended ", "fault: ", "plan: "))) or "no report"
        self.note("command", f"{line}, exit status {status}")
        with self.lock:
            self.result = {"line": line, "status": status, "report": output}

    def state(self, after):
        """Returns what the page shows, with the changes after this number."""
        with self.lock:
            ends = {
                link["name"]: [self.end_of(link, end) for end in link["ends"]] for link in self.picture["links"]
            }
            ports = {
                name: {"entered": entered, "left": left, "rates": self.rates.of(name) if not self.result else (0, 0)}
                for name, (entered, left) in self.ports.items()
            }
            bridges = {name: {"refused": refused, "ticks": ticks} for name, (refused, ticks) in self.bridges.items()}
            changes = [it for it in self.changes if it["number"] > after]
            return {
                "seconds": time.time() - self.started,
                "links": ends,
                "ports": ports,
                "bridges": bridges,
                "drops": self.drops,
                "changes": changes,
                "result": self.result,
            }

    def end_of(self, link, end):
        """Returns the role and state of an end of a link. Both are None before its bridge has begun."""
        role, state = self.tree.get((end["bridge"], end["port"]), (None, None))
        return {"role": role, "state": state, "disabled": self.is_disabled(link, end)}
