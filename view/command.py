"""The command `pbnet-view`: its arguments, and a run from its start to its end."""

import argparse
import os
import shutil
import signal
import sys
import threading
import time

from view.picture import Unreadable, draw, read_picture
from view.running import Run
from view.server import ADDRESS, Server
from view.watch import Watch

HELP = """\
Run a network and show it live on a page of this machine

Usage: pbnet-view [OPTIONS] <FILE>

Arguments:
  <FILE>  Plan file

Options:
      --port <N>  Port of 127.0.0.1 at which the page is served [default: a free one] [range: 1-65535]
  -h, --help      Print help

It starts `pbnet run` and prints the address of the page. Ctrl-C stops the run. The exit status is that of the run.
"""
# The seconds between two samples, and between two tries at the start.
SAMPLE, TRY = 0.25, 0.05
# The seconds in which an open page has to learn how the run ended, and in which further ones may.
FAREWELL, MORE = 1.5, 0.5


def say(*lines):
    """Prints lines on standard error, if that is still open."""
    try:
        print(*lines, sep="\n", file=sys.stderr, flush=True)
    except OSError:
        pass


class Failed(Exception):
    """Why the command ends before its run: an exit status, a message and a hint."""

    def __init__(self, status, message, hint=""):
        super().__init__(message)
        self.status, self.message, self.hint = status, message, hint


class Arguments(argparse.ArgumentParser):
    """Refuses arguments as pbnet does."""

    def error(self, message):
        """Raises Failed with this message."""
        raise Failed(2, f"{message}\n\nFor more information, try 'pbnet-view --help'.")


def port_number(text):
    """Returns the port of an argument. Raises ArgumentTypeError."""
    if text.isascii() and text.isdecimal() and 1 <= int(text) <= 65535:
        return int(text)
    raise argparse.ArgumentTypeError(f"{text!r} is not a number from 1 to 65535")


def read_arguments(arguments):
    """Returns the arguments, or None if they ask for help. Raises Failed."""
    parser = Arguments(prog="pbnet-view", add_help=False, allow_abbrev=False)
    parser.add_argument("plan", metavar="FILE", nargs="?")
    parser.add_argument("--port", type=port_number, default=0)
    parser.add_argument("-h", "--help", action="store_true")
    given = parser.parse_args(arguments)
    if not given.help and given.plan is None:
        parser.error("the argument FILE is missing")
    return None if given.help else given


def find_program(beside):
    """Returns the path of pbnet: the one of the variable PBNET, or else the one beside this command. Raises Failed."""
    named = os.environ.get("PBNET") or beside
    path = os.path.abspath(shutil.which(named) or named)
    if not os.access(path, os.X_OK) or os.path.isdir(path):
        raise Failed(1, f"cannot run {path}", "install pbnet again, or name the program by the variable PBNET")
    return path


def draw_plan(program, plan):
    """Returns the picture of a plan. Raises Failed, after pbnet's own message, if it has none."""
    status, output = draw(program, plan)
    if status:
        sys.stdout.write(output)
        sys.stdout.flush()
        raise Failed(status, "", "'pbnet init --ring 6 > my.toml' writes a starter plan" if status == 3 else "")
    try:
        return read_picture(output)
    except Unreadable as error:
        hint = "use the pbnet that was installed with this pbnet-view"
        raise Failed(1, f"cannot read what '{program} draw' prints: {error}", hint) from error


def listen(port):
    """Returns a server at this port. Raises Failed if it is in use."""
    try:
        return Server(port)
    except OSError as error:
        hint = "choose another port by --port N, or leave out --port for a free one"
        raise Failed(2, f"cannot listen at {ADDRESS}:{port}: {error.strerror}", hint) from error


class Session:
    """A run with its page, until the run has ended."""

    def __init__(self, program, plan, picture, server):
        self.server, self.run, self.signals, self.is_asked = server, None, 0, False
        self.wake = server.wake = threading.Event()
        self.watch = server.watch = Watch({**picture, "plan": plan}, None)
        for number in (signal.SIGINT, signal.SIGTERM, signal.SIGHUP):
            if signal.getsignal(number) != signal.SIG_IGN:
                signal.signal(number, self.on_signal)
        self.run = Run(program, plan, lambda line: self.watch.note("message", line), self.wake.set)
        self.watch.path = self.run.socket

    def on_signal(self, *_):
        """Makes `follow` stop the run at the first signal, and ends it at once at the second."""
        # (no lock is taken here: the interrupted code may hold it)
        self.signals += 1
        if self.signals > 1 and self.run:
            self.run.kill()

    def follow(self):
        """Watches the run to its end, and returns its exit status."""
        threading.Thread(target=self.server.serve_forever, args=(0.1,), daemon=True).start()
        say(f"pbnet-view: {self.server.address()}", "pbnet-view: Ctrl-C stops the run")
        while self.run.is_running():
            self.wake.wait(SAMPLE if self.look() else TRY)
            self.wake.clear()
        status = self.run.status()
        self.watch.finish(self.run.output, status)
        if self.run.failure and not status:
            say(f"error: cannot write the report: {self.run.failure.strerror}")
            status = 3
        self.report(status)
        if self.server.is_watched() and self.server.farewell.wait(FAREWELL):
            time.sleep(MORE)
        return status

    def look(self):
        """Takes a sample, and stops the run after a signal. Returns whether the run answers."""
        try:
            if self.signals and not self.is_asked:
                self.watch.stop()
                self.is_asked = True
            self.watch.sample()
            return True
        except OSError:
            return False

    def report(self, status):
        """Prints how the run ended if no page has shown it."""
        if self.server.asked is None and not self.signals:
            say(f"pbnet-view: the run ended with status {status} before its page was opened")
            if not status:
                say('hint: a run with a port of kind = "socket" and stay = true goes on until it is stopped')

    def clean_up(self):
        """Leaves no process and no file."""
        if self.run.is_running():
            self.run.kill()
        self.server.server_close()
        self.run.clean_up()


def open_streams():
    """Opens /dev/null in the place of standard streams that are closed."""
    for number in range(3):
        try:
            os.fstat(number)
        except OSError:
            # (this is the lowest number that is free)
            os.open(os.devnull, os.O_RDWR)
    sys.stdout = sys.stdout or open(1, "w", encoding="utf-8", closefd=False)
    sys.stderr = sys.stderr or open(2, "w", encoding="utf-8", closefd=False)


def show(program, given):
    """Runs the network with its page, and returns the exit status. Raises Failed."""
    picture = draw_plan(program, given.plan)
    server = listen(given.port)
    try:
        session = Session(program, given.plan, picture, server)
    except OSError as error:
        raise Failed(1, f"cannot start {program}: {error.strerror}") from error
    try:
        return session.follow()
    finally:
        session.clean_up()


def main(arguments, beside):
    """Runs the command with these arguments, and returns its exit status. `beside` is the path of pbnet."""
    open_streams()
    try:
        given = read_arguments(arguments)
        if given is None:
            sys.stdout.write(HELP)
            return 0
        return show(find_program(beside), given)
    except Failed as error:
        for word, text in (("error", error.message), ("hint", error.hint)):
            if text:
                say(f"{word}: {text}")
        return error.status
    except KeyboardInterrupt:
        return 128 + signal.SIGINT
