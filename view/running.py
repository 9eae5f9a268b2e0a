"""Runs the program with a control socket of its own."""

import os
import shutil
import signal
import subprocess
import tempfile
import threading

# The path of a Unix socket has at most 107 octets.
LONGEST_FOLDER = 90


def private_folder():
    """Creates a folder that only this user may enter, with a path that is short enough for a socket in it."""
    folder = tempfile.mkdtemp(prefix="pbnet-view.")
    if len(os.fsencode(folder)) > LONGEST_FOLDER:
        os.rmdir(folder)
        folder = tempfile.mkdtemp(prefix="pbnet-view.", dir="/tmp")
    return folder


class Run:
    """A run of `pbnet run`. What it prints is printed here too, and is kept."""

    def __init__(self, program, plan, on_message, on_end):
        """Starts the run. Calls `on_message` with each line of its standard error, and `on_end` when an output ends."""
        self.folder = private_folder()
        self.socket = os.path.join(self.folder, "control")
        # What the run prints, and why that cannot be printed here.
        self.output, self.failure, self.on_end = [], None, on_end
        words = [program, "run", "--control", self.socket, "--", plan]
        # (the run stops as at a signal if this process is killed)
        guard = shutil.which("setpriv")
        words = [guard, "--pdeathsig", "TERM", *words] if guard else words
        pipes = {"stdout": subprocess.PIPE, "stderr": subprocess.PIPE}
        try:
            # (in a session of its own, Ctrl-C reaches this process alone, which stops the run)
            self.process = subprocess.Popen(words, start_new_session=True, **pipes)
        except OSError:
            self.clean_up()
            raise
        self.outputs = [open(number, "wb", buffering=0, closefd=False) for number in (1, 2)]
        sources, keeps = (self.process.stdout, self.process.stderr), (self.output.append, on_message)
        threads = zip(sources, self.outputs, keeps, strict=True)
        self.readers = [threading.Thread(target=self.pass_on, args=it, daemon=True) for it in threads]
        for reader in self.readers:
            reader.start()

    def pass_on(self, source, target, keep):
        """Prints and keeps each line of an output of the run."""
        for line in source:
            keep(line.decode("utf-8", "replace").rstrip("\n"))
            try:
                target.write(line)
            except OSError as error:
                self.failure = error if target is self.outputs[0] else self.failure
        self.on_end()

    def is_running(self):
        """Returns whether the program has not ended yet."""
        return self.process.poll() is None

    def status(self):
        """Waits for the end, and returns the exit status as a shell does: 128 and its number after a signal."""
        code = self.process.wait()
        for reader in self.readers:
            reader.join(2)
        return 128 - code if code < 0 else code

    def kill(self):
        """Ends all processes of the run at once."""
        try:
            os.killpg(self.process.pid, signal.SIGKILL)
        except ProcessLookupError:
            pass

    def clean_up(self):
        """Removes the folder of the control socket."""
        shutil.rmtree(self.folder, ignore_errors=True)
