"""Shared by the scripts of interop/: the program, tables of rows, and temporary folders."""

import os
import pathlib
import shutil
import subprocess
import sys
import tempfile
import time

TOP = pathlib.Path(__file__).resolve().parent.parent
# The absolute path of the program: ./pbnet, or that of the variable PBNET, which is a path or a name on PATH.
NAMED = os.environ.get("PBNET") or str(TOP / "pbnet")
PROGRAM = os.path.abspath(shutil.which(NAMED) or NAMED)


def run(*words, given=b"", cwd=TOP):
    """Returns what pbnet prints, and its exit status."""
    done = subprocess.run(
        [PROGRAM, *map(str, words)], input=given, stdout=subprocess.PIPE, stderr=subprocess.DEVNULL, cwd=cwd
    )
    return done.stdout.decode("utf-8", "replace"), done.returncode


def need_program():
    """Ends with an error if pbnet cannot be run: if `show` fails or prints nothing."""
    try:
        done = subprocess.run([PROGRAM, "show"], stdout=subprocess.PIPE, stderr=subprocess.PIPE, cwd=TOP, check=False)
    except OSError as error:
        sys.exit(f"error: cannot run {PROGRAM}: {error.strerror}")
    if done.returncode or not done.stdout:
        output = done.stderr.decode("utf-8", "replace").strip() or "no output"
        sys.exit(f"error: cannot run {PROGRAM}: `show` ended with status {done.returncode}: {output}")


def output(*words, **more):
    """Returns what another program prints."""
    done = subprocess.run(list(map(str, words)), stdout=subprocess.PIPE, stderr=subprocess.PIPE, check=False, **more)
    return done.stdout.decode("utf-8", "replace") + done.stderr.decode("utf-8", "replace")


def version(*words):
    """Returns the first line of another program's version."""
    return output(*words).strip().splitlines()[0]


def package_version(name):
    return output("dpkg-query", "-W", "-f", "${Version}", name).strip()


def wait_for(path):
    """Waits at most 20 seconds until a path exists."""
    for _ in range(400):
        if pathlib.Path(path).exists():
            return
        time.sleep(0.05)
    raise SystemExit(f"error: {path} did not appear within 20 seconds")


class Folder:
    """A temporary folder and the processes that were started in it. Both end with the block."""

    def __enter__(self):
        self.path = pathlib.Path(tempfile.mkdtemp(prefix="interop-"))
        self.started = []
        return self

    def start(self, *words, **more):
        more = {"stdout": subprocess.DEVNULL, "stderr": subprocess.DEVNULL, "stdin": subprocess.DEVNULL, **more}
        process = subprocess.Popen(list(map(str, words)), cwd=self.path, **more)
        self.started.append(process)
        return process

    def __exit__(self, *_):
        for process in reversed(self.started):
            if process.poll() is None:
                process.terminate()
        for process in self.started:
            try:
                process.wait(5)
            except subprocess.TimeoutExpired:
                process.kill()
                process.wait()
        shutil.rmtree(self.path, ignore_errors=True)


class Table:
    """Rows that compare pbnet with another program. A row that differs fails, unless it is a listed difference."""

    def __init__(self, title):
        self.title, self.rows, self.failed = title, [], 0

    def row(self, name, here, there, reason=None):
        """Adds a row. With a reason it is a listed difference, and fails if both are alike."""
        here, there = str(here), str(there)
        if reason is None:
            verdict = "alike" if here == there else "DIFFERS"
        else:
            verdict = "known: " + reason if here != there else "ALIKE, and listed as different"
        self.failed += verdict[0].isupper()
        self.rows.append((name, here, there, verdict))

    def text(self):
        lines = [f"### {self.title}", "", "| Case | pbnet | Other | Result |", "|---|---|---|---|"]
        for row in self.rows:
            lines.append("| " + " | ".join(cell.replace("|", "\\|").replace("\n", " ") for cell in row) + " |")
        return "\n".join(lines) + "\n"


def finish(*tables):
    """Prints the tables, and ends with status 0 if no row fails."""
    failed = 0
    for table in tables:
        print(table.text(), flush=True)
        failed += table.failed
    if failed:
        print(f"error: {failed} row{'s' if failed > 1 else ''} failed", file=sys.stderr)
    sys.exit(1 if failed else 0)
