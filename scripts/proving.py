"""What the scripts share that prove crates: the toolchain's own Python, the crates of the tree, and how each is proved.

A crate is proved as the toolchain's gate does it, over the bare statements of the libraries below it, from nothing.
That takes less than half the time of `rt check`, which checks over the proofs of those libraries."""
import collections
import contextlib
import functools
import hashlib
import importlib.machinery
import importlib.util
import json
import os
import re
import shutil
import signal
import subprocess
import sys
import tempfile
import threading
import time
import types
from concurrent.futures import FIRST_COMPLETED, ThreadPoolExecutor, wait

ROOT = os.path.dirname(os.path.dirname(os.path.realpath(__file__)))
# What the scripts take of the toolchain's script rt, and of rtlib.py beside it.
OF_RT = "Crate checked edits_of free handles_of in_lanes must_fail need processors read_edit".split()
OF_RTLIB = "Crate KIT RATTLE crates_below files_of guarded lock text_of".split()
# The checker's lines that tell how far it is, and that of a proved crate.
PROGRESS = re.compile(r"checked (\S+), (\d+) of (\d+)$")
PROGRESS_LINES = re.compile(r"(?m)^checked (\S+), \d+ of \d+$")
PROVED = re.compile(r"(?m)^logic=proved .*\bfunctions=(\d+)")
# Where a library has the texts of proofs.
PROOFS = "lang/antt/proofs/"
# Its lines that say nothing of why a crate is not proved.
QUIET = re.compile(r"(checked \S+, \d|statements \w+: |logic /|by-macro: |(fn|enum|struct|impl|trait|type|const) \S+: proved$)")


class NoKit(Exception):
    """There is no toolchain on the path, or one that lacks what these scripts take of it."""


@functools.lru_cache(maxsize=None)
def toolchain():
    """Loads the toolchain's script rt as a module, and rtlib.py with it."""
    found = shutil.which("rt")
    if not found:
        raise NoKit("the command rt of the Rattle toolchain is not on the PATH")
    sys.dont_write_bytecode = True
    loader = importlib.machinery.SourceFileLoader("rt_script", os.path.realpath(found))
    rt = importlib.util.module_from_spec(importlib.util.spec_from_loader("rt_script", loader))
    try:
        loader.exec_module(rt)
        lacks = [it for it in OF_RT if not hasattr(rt, it)] + [it for it in OF_RTLIB if not hasattr(rt.rtlib, it)]
    except Exception as error:
        raise NoKit(f"the toolchain's script rt cannot be loaded: {error}")
    if lacks:
        raise NoKit(f"the toolchain's script rt lacks {', '.join(lacks)}")
    # (a stamp covers all crates below, so each is worked out once)
    rt.Crate.stamp = functools.lru_cache(maxsize=None)(rt.rtlib.Crate.stamp)
    return rt


def is_refused(told):
    """Returns whether the prover refused a mutant or came to its limit at it, by what the toolchain's `must_fail` returned first: a truth value, or a word of its own."""
    rt = toolchain()
    return told is True or told in (getattr(rt, "REFUSED", True), getattr(rt, "AT_LIMIT", True))


def crates_of(root):
    """Returns the tree's crates by name, lowest first. Each is read as the gate reads it: over the statements of those below it."""
    rt = toolchain()
    rt.Crate.allowed = rt.handles_of(root)
    rt.Crate.cuts_libraries = True
    rt.rtlib.Crate = rt.Crate
    found = sorted(rt.rtlib.crates_below(root), key=lambda it: len(it.below()))
    return {it.name: it for it in found}


def with_below(crates, names):
    """Returns these crates and all below them, each after those that it uses."""
    for name in names:
        if name not in crates:
            sys.exit(f"error: crates.txt has no crate {name}")
    wanted = {below.name for name in names for below in [*crates[name].below(), crates[name]]}
    return [it for it in crates.values() if it.name in wanted]


def lines_of(crate):
    """Returns how many lines the crate has in src/, specs/ and proofs/."""
    return sum(toolchain().rtlib.text_of(it).count("\n") for it in toolchain().rtlib.files_of(crate.folder))


def without(words, *flags):
    """Returns the words without these flags and the value of each."""
    for flag in flags:
        at = words.index(flag)
        words = [*words[:at], *words[at + 2 :]]
    return words


Ran = collections.namedtuple("Ran", "status said user sys wall")


def run(words, folder, room, hear=None, began=None):
    """Runs a command of the toolchain to its end, with its temporary files in the room, and returns what it said and took. It hands each line to hear, and its process to began."""
    how = {"cwd": folder, "stdin": subprocess.DEVNULL, "stdout": subprocess.PIPE, "stderr": subprocess.STDOUT}
    how.update(text=True, errors="replace", env={**os.environ, "TMPDIR": room})
    start, said = time.time(), []
    started = subprocess.Popen([*toolchain().rtlib.guarded(), *words], **how)
    if began:
        began(started.pid)
    for line in started.stdout:
        said.append(line)
        if hear:
            hear(line)
    started.stdout.close()
    _, status, used = os.wait4(started.pid, 0)
    started.returncode = -os.WTERMSIG(status) if os.WIFSIGNALED(status) else os.WEXITSTATUS(status)
    return Ran(started.returncode, "".join(said), used.ru_utime, used.ru_stime, time.time() - start)


def spent_by(pid):
    """Returns the seconds of processor time that a process has taken, 0 where it has ended."""
    try:
        with open(f"/proc/{pid}/stat", encoding="utf-8") as it:
            fields = it.read().rsplit(")", 1)[1].split()
    except OSError:
        return 0.0
    return (int(fields[11]) + int(fields[12])) / os.sysconf("SC_CLK_TCK")


def kept_in(crate, name):
    """Returns the path of a file beside the crate's library that tells what it was made from. rt removes it when it builds the library anew."""
    return f"{os.path.dirname(crate.rlib)}/{name}"


def result_of(crate):
    """Returns the path of what a proof of the crate leaves, and of the file that tells what this was made from."""
    if crate.makes_rlib():
        return crate.rlib, kept_in(crate, "proved")
    return f"{crate.folder}/out/{crate.name}", f"{crate.folder}/out/{crate.name}.proved"


def sum_of(path):
    """Returns a sum of a file, or of all in a folder."""
    found = hashlib.sha256()
    files = [f"{at}/{it}" for at, _, names in os.walk(path) for it in names] if os.path.isdir(path) else [path]
    for file in sorted(files):
        with open(file, "rb") as it:
            found.update(repr((os.path.relpath(file, path), hashlib.sha256(it.read()).digest())).encode())
    return found.hexdigest()


def sources_of(crate):
    """Returns a sum of all that a proof of the crate is made from but the libraries below: rt's stamp has the sources of those too."""
    rtlib = toolchain().rtlib
    found = hashlib.sha256(repr((crate.said, crate.has_c, [it.name for it in crate.deps], rtlib.text_of(f"{rtlib.KIT}/WHAT"))).encode())
    for file in rtlib.files_of(crate.folder):
        found.update(repr((os.path.relpath(file, crate.folder), rtlib.text_of(file))).encode())
    return found.hexdigest()


def kept_proofs(crates):
    """Returns, by name, the sum of what each crate's kept proof left: a proof of its sources as they are, over the kept libraries below. The crates come lowest first."""
    kept = {}
    for crate in crates:
        found = kept_sum(crate, kept)
        if found:
            kept[crate.name] = found
    return kept


def kept_sum(crate, kept):
    """Returns the sum of what the crate's kept proof left, where it is one of the sources as they are, over these libraries below."""
    result, proved = result_of(crate)
    said = (toolchain().rtlib.text_of(proved) or "").split("\n")
    if not os.path.exists(result) or said[2:-1] != sums_below(crate, kept) or said[0] != sources_of(crate):
        return None
    if crate.makes_rlib() and toolchain().rtlib.text_of(kept_in(crate, "stamp")) != crate.stamp():
        # (below it proofs have changed, and nothing that is stated)
        write(kept_in(crate, "stamp"), crate.stamp())
    return said[1]


def states_alike(crate, before, after):
    """Returns whether two libraries of a crate state the same: they differ in texts of proofs alone, which no other crate of the tree names."""
    for file in {*files_in(before), *files_in(after)}:
        old, new = octets_of(f"{before}/{file}"), octets_of(f"{after}/{file}")
        if file == "format":
            # (its line `sum` covers the texts of proofs)
            old, new = (re.sub(rb"(?m)^sum \w+$", b"", it) for it in (old, new))
        if file == f"{PROOFS}Lib.antt" and {*old.splitlines()} <= {*new.splitlines()}:
            continue
        if old != new and not (file.startswith(PROOFS) and is_own(crate, file[len(PROOFS) : -len(".antt")])):
            return False
    return True


def octets_of(file):
    """Returns what a file holds, or nothing where there is none."""
    if not os.path.isfile(file):
        return b""
    with open(file, "rb") as it:
        return it.read()


def files_in(folder):
    """Returns the paths of all files below a folder, from there on."""
    return [os.path.relpath(f"{at}/{it}", folder) for at, _, names in os.walk(folder) for it in names]


def is_own(crate, module):
    """Returns whether no other crate of the tree names this module of the crate's proofs. (Nor does any name the list of all, Lib.)"""
    if module == "Lib":
        return False
    ways = [f"{crate.name}{way}proofs{way}{module.replace('/', way)}" for way in (".", "::")]
    tree = os.path.dirname(crate.folder)
    others = (f"{tree}/{it}" for it in os.listdir(tree) if it != os.path.basename(crate.folder))
    return not any(way in (toolchain().rtlib.text_of(file) or "") for it in others for file in toolchain().rtlib.files_of(it) for way in ways)


def sums_below(crate, kept):
    """Returns what the crate's proof rests on, a line each: statements fit only the very libraries that they were made over."""
    return [f"{it.name} {kept.get(it.name)}" for it in crate.below()]


def keep_proof(crate, stamp, kept):
    """Writes beside the crate's result what it was made from: its sources with all below, a sum of its own, and those of the libraries below."""
    own = sum_of(result_of(crate)[0])
    if crate.makes_rlib():
        # As rt's own stamp, by which rt check and rt lib in a crate above take this library as built, and prove over its
        # statements: tried with pb_svlan over pb_frame and pb_reserved, also with pb_reserved built by rt between them. Where rt
        # itself has built a lower library anew and a higher one kept its stamp, as after an edit that was taken back, rt stops
        # with `unusable-built-library`; this script then mends that.
        write(kept_in(crate, "stamp"), stamp)
    write(result_of(crate)[1], "\n".join([sources_of(crate), own, *sums_below(crate, kept), ""]))
    kept[crate.name] = own


def write(file, text):
    with open(file, "w", encoding="utf-8") as it:
        it.write(text)


class Proof:
    """One crate that is to be proved, and how far that is."""

    def __init__(self, crate, before):
        self.crate, self.name = crate, crate.name
        self.lines = lines_of(crate)
        self.functions = before.get("functions")
        self.seconds = before.get("user", 0) + before.get("sys", 0)
        self.memory = toolchain().need(crate)
        self.done, self.jobs, self.began, self.ended = 0, 0, None, None
        # What the checker took between two of its lines, by processor time, and what it had taken at the last one.
        self.took, self.spent, self.pid = [], 0.0, None
        self.was_proved = self.is_kept = False
        self.ran = Ran(0, "", 0.0, 0.0, 0.0)

    def hear(self, line):
        """Takes the number of functions proved so far from a line of the checker, and how long the one that it names took, where there is one job."""
        found = PROGRESS.match(line)
        if found:
            self.done, self.functions = int(found[2]), int(found[3])
            spent = spent_by(self.pid)
            self.took.append((spent - self.spent, found[1]))
            self.spent = spent

    def begins(self, pid):
        """Takes the process of the command that begins."""
        self.pid, self.spent = pid, 0.0

    def step(self, words, room, hear=None):
        """Runs one command of the proof, and returns whether it did well."""
        ran = run([toolchain().rtlib.RATTLE, *words], self.crate.folder, room, hear, self.begins)
        self.ran = Ran(ran.status, ran.said, self.ran.user + ran.user, self.ran.sys + ran.sys, self.ran.wall + ran.wall)
        return ran.status == 0

    def prove(self, jobs, room, kept):
        """Proves the crate from nothing, builds its library or its program, and returns whether both did well."""
        crate, self.jobs, self.began = self.crate, jobs, time.time()
        if kept_sum(crate, kept):
            # (what was proved below since the queue was made states what it stated)
            kept[crate.name], self.is_kept = kept_sum(crate, kept), True
            return True
        room = tempfile.mkdtemp(prefix=f"{self.name}-", dir=room)
        result, proved = result_of(crate)
        self.was_proved = os.path.exists(proved)
        with contextlib.suppress(FileNotFoundError):
            os.remove(proved)
        stamp = crate.stamp()
        words = crate.words(["--jobs", str(jobs)], keeps=False)
        whole = ["check", *words, "--progress", *["--statements"] * crate.makes_rlib(), "-o", f"{room}/checked"]
        well = self.step(whole, room, self.hear)
        if self.ran.status == -signal.SIGKILL and jobs > 1 and not IS_STOPPED.is_set():
            # most likely for memory
            well = self.step([*whole[:1], *crate.words(["--jobs", "1"], keeps=False), *whole[1 + len(words) :]], room, self.hear)
        found = PROVED.search(self.ran.said)
        self.functions = int(found[1]) if found else self.functions
        words = [*without(words, "--logic-built", "--jobs"), "--crate-checked", f"{room}/checked"]
        well = well and (self.library(words, result, room) if crate.makes_rlib() else self.program(words, result, room))
        shutil.rmtree(room, ignore_errors=True)
        type(crate).stamp.cache_clear()
        if well and stamp != crate.stamp():
            self.ran = self.ran._replace(said="its files changed meanwhile: run this again\n")
            well = False
        if well:
            keep_proof(crate, stamp, kept)
        self.ended = time.time()
        return well

    def library(self, words, result, room):
        """Builds the library that those above are proved over. One that states the same and was there stays, so that those above need no new proof."""
        made = f"{room}/made/{os.path.basename(result)}"
        os.makedirs(os.path.dirname(made))
        if not self.step(["build", *words, "-o", made], room):
            return False
        if not (self.was_proved and states_alike(self.crate, result, made)):
            shutil.rmtree(os.path.dirname(result), ignore_errors=True)
            os.makedirs(os.path.dirname(result))
            shutil.move(made, result)
        return True

    def program(self, words, result, room):
        """Compiles the proved program by LLVM and links it, as the gate does."""
        crate, rt = self.crate, toolchain()
        os.makedirs(os.path.dirname(result), exist_ok=True)
        made = f"{room}/{crate.name}"
        words = ["build", *words, "--toolchain", f"{rt.rtlib.KIT}/toolchain", "--backend", "llvm", "-o", f"{made}.o"]
        if not self.step(words, room):
            return False
        with tempfile.TemporaryFile("w+", errors="replace") as crate.out:
            # (the link's own path stands below the crate's folder)
            status = crate.link(f"{made}.o", os.path.relpath(made, crate.folder))
            crate.out.seek(0)
            self.ran = self.ran._replace(status=status, said=crate.out.read() if status else self.ran.said)
        if not status:
            os.replace(shutil.copy(made, f"{result}.new"), result)
        return status == 0

    def row(self):
        """Returns what the proof took, as it is kept for the next run."""
        return {"functions": self.functions or 0, "user": self.ran.user, "sys": self.ran.sys, "wall": self.ran.wall, "jobs": self.jobs, "lines": self.lines}


class Failed(Exception):
    """A crate is not proved."""


class Queue:
    """Proves crates side by side, each once all below it are proved.

    A crate that has the longest chain of work behind it gets as many jobs as there are processors, four at most, and
    any other gets one: the chain decides when all has ended, and a run cannot be given more jobs once it has begun. The
    copies of a run with four jobs wait for one another so often that they keep two and a half processors busy. So
    there are half as many jobs again as processors, and no more crates at once than processors; a leaf that nobody
    waits for never holds what the chain needs next. Simulated over the measured times of the program's 19 crates
    this takes 808 s on four processors, and rt's own rule, which shares out the idle processors, 938 s; at no more jobs
    than processors the best rule took 917 s."""

    def __init__(self, proofs, kept, processors, room, told, most=4):
        self.left, self.kept, self.room, self.told = list(proofs), kept, room, told
        self.processors, self.jobs, self.most = processors, processors * 3 // 2, most
        # (some checks take a fifth more than need says)
        self.memory = 0.85 * toolchain().free()
        self.running = {}
        self.behind = self.chains()

    def chains(self):
        """Returns how much work stands between the beginning of each crate and the end of the last above it: in seconds where they are known."""
        known = [it for it in self.left if it.seconds]
        a_line = sum(it.seconds for it in known) / sum(it.lines for it in known) if known else 0.03
        behind = {it.name: 0.0 for it in self.left}
        for it in reversed(self.left):
            behind[it.name] += 5 + (it.seconds or a_line * it.lines)
            for below in it.crate.below():
                behind[below.name] = max(behind.get(below.name, 0.0), behind[it.name])
        return behind

    def next(self):
        """Returns the crate to begin now and its jobs, or None where none can begin."""
        ready = [it for it in self.left if all(below.name in self.kept for below in it.crate.below())]
        ready.sort(key=lambda it: -self.behind[it.name])
        idle = self.jobs - sum(it.jobs for it in self.running.values())
        if not ready or idle <= 0 or len(self.running) >= self.processors:
            return None
        longest = max(self.behind[it.name] for it in [*self.left, *self.running.values()])
        used = sum(self.needs(it, it.jobs) for it in self.running.values())
        for it in ready:
            jobs = min(self.most, self.processors, idle) if self.behind[it.name] == longest else 1
            while jobs > 1 and used + self.needs(it, jobs) > self.memory:
                jobs -= 1
            if not self.running or used + self.needs(it, jobs) <= self.memory:
                return it, jobs
        return None

    def needs(self, proof, jobs):
        """Returns the memory that the proof takes with so many jobs. The copies of a run share most of theirs: pb_rstp, of which
        rt's need says 4.7 GB, took 2.2 GB with four jobs, and 1.9 GB with one."""
        return proof.memory * (0.6 + 0.1 * jobs)

    def run(self):
        """Proves all, and stops at the first that is not proved."""
        pool = ThreadPoolExecutor(self.processors)
        try:
            while self.left or self.running:
                self.begin(pool)
                for it in wait(self.running, timeout=1, return_when=FIRST_COMPLETED).done:
                    proof = self.running.pop(it)
                    self.told.ended(proof, it.result())
                    if not it.result():
                        raise Failed(proof.name)
                self.told.show(self.running.values())
        except BaseException:
            stop_children()
            raise
        finally:
            pool.shutdown()
            self.told.close()

    def begin(self, pool):
        """Begins each crate that can begin."""
        found = self.next()
        while found:
            proof, jobs = found
            self.left.remove(proof)
            proof.jobs = jobs
            self.told.begins(proof)
            self.running[pool.submit(proof.prove, jobs, self.room, self.kept)] = proof
            found = self.next()


class Told:
    """Tells on standard error how far the proof is: on a terminal one line that is written again and again, elsewhere a line at each beginning and end."""

    def __init__(self, proofs):
        self.proofs, self.began, self.is_terminal = proofs, time.time(), sys.stderr.isatty()

    def line(self, text):
        """Writes a line of its own, in the place of the one that is written again and again."""
        print(("\r\x1b[K" if self.is_terminal else "") + text, file=sys.stderr, flush=True)

    def begins(self, proof):
        if not self.is_terminal:
            self.line(f"proving {proof.name}")

    def ended(self, proof, well):
        if not well:
            self.line(f"{proof.name} NOT PROVED:")
            kept = [it for it in proof.ran.said.splitlines() if it.strip() and not QUIET.match(it)]
            print(*kept[-60:], sep="\n", file=sys.stderr, flush=True)
        elif proof.is_kept and not self.is_terminal:
            self.line(f"{proof.name}: its proof is cached")
        elif not self.is_terminal:
            self.line(f"{proof.name} proved: {proof.functions or 0:,} functions, {proof.ran.wall:.0f} s")

    def close(self):
        """Takes the terminal's line away."""
        if self.is_terminal:
            print("\r\x1b[K", end="", file=sys.stderr, flush=True)

    def show(self, running):
        """Writes the terminal's line again."""
        if not self.is_terminal:
            return
        done = sum(it.functions or 0 if it.ended else it.done for it in self.proofs)
        known = all(it.functions for it in self.proofs)
        of = f"{done:,} of {sum(it.functions or 0 for it in self.proofs):,} functions" if known else f"{done:,} functions so far"
        each = ", ".join(f"{it.name} {it.done}/{it.functions or '?'}" for it in sorted(running, key=lambda it: it.began or 0))
        text = f"proving {each}; {of}, {(time.time() - self.began) / 60:.0f} min"
        wide = shutil.get_terminal_size().columns - 1
        print(f"\r\x1b[K{text[:wide]}", end="", file=sys.stderr, flush=True)


IS_STOPPED = threading.Event()


def stop_children():
    """Ends what this process started of the toolchain, with the copies that these made of themselves: all are in the group of rt's guard."""
    IS_STOPPED.set()
    group = re.search(r"setpgid\(0, (\d+)\)", " ".join(toolchain().rtlib.guarded()))
    with contextlib.suppress(OSError):
        os.killpg(int(group[1]), signal.SIGKILL)


def prepare():
    """Has the signals that end a process do so by an exception, so that temporary folders are removed, and starts what ends the commands whenever this process ends. Only the main thread may."""
    def end(number, _):
        stop_children()
        print(f"\nstopped by signal {number}", file=sys.stderr, flush=True)
        sys.exit(128 + number)

    toolchain().rtlib.guarded()
    for it in (signal.SIGINT, signal.SIGTERM, signal.SIGHUP):
        signal.signal(it, end)


def figures(root):
    """Returns what was measured of each crate, by name: in the last run here, or else in one whose figures the repository holds."""
    found = {}
    for file in (f"{root}/scripts/proofs.json", f"{root}/out/proofs.json"):
        with contextlib.suppress(OSError, ValueError):
            with open(file, encoding="utf-8") as it:
                found.update(json.load(it))
    return found


def prove(root, names, processors=None, before=None, most=4):
    """Proves these crates and all below them where no proof of theirs is kept, each with so many jobs at most, and says first what is to be said before.
    Returns the proofs that were made."""
    rt = toolchain()
    crates = with_below(crates_of(root), names)
    if len(kept_proofs(crates)) == len(crates):
        return []
    # One run at a time in a tree, and no rt in these crates meanwhile.
    held = rt.rtlib.lock([types.SimpleNamespace(folder=root), *crates])
    rt.Crate.stamp.cache_clear()
    kept, measured = kept_proofs(crates), figures(root)
    proofs = [Proof(it, measured.get(it.name, {})) for it in crates if it.name not in kept]
    if before and proofs:
        print(before, file=sys.stderr, flush=True)
    prepare()
    try:
        with tempfile.TemporaryDirectory(prefix="prove-") as room:
            Queue(proofs, kept, processors or rt.processors(), room, Told(proofs), most).run()
    finally:
        os.makedirs(f"{root}/out", exist_ok=True)
        measured.update({it.name: it.row() for it in proofs if it.ended and it.name in kept})
        write(f"{root}/out/proofs.json", json.dumps(measured, indent=1, sort_keys=True) + "\n")
        for it in held:
            os.close(it)
    return proofs


def words_of_tests(crate, made, jobs=1):
    """Returns the words that prove the crate's tests and compile them into an object file, as the gate does."""
    words = ["build", *crate.words(["--jobs", str(jobs)], tests=True, keeps=False), "--toolchain", f"{toolchain().rtlib.KIT}/toolchain"]
    return [*words, "--backend", "llvm", "--empty-contracts", "-o", made]


def prove_tests(root, names, processors=None):
    """Proves the tests of these crates, and leaves the program that runs them as out/tests of each. One that was made so of the same sources is kept."""
    crates = crates_of(root)
    below = with_below(crates, [it.name for name in names for it in crates[name].below()])
    prove(root, [it.name for it in below], processors)
    prepare()
    toolchain().Crate.stamp.cache_clear()
    kept = kept_proofs(below)
    for crate in (crates[it] for it in names):
        made, key = f"{crate.folder}/out/tests", "\n".join([crate.stamp(), *sums_below(crate, kept), ""])
        if os.path.exists(made) and toolchain().rtlib.text_of(f"{made}.proved") == key:
            continue
        said = prove_tests_of(crate, processors or toolchain().processors())
        if said:
            print(f"error: the tests of {crate.name} are NOT PROVED:", *[it for it in said.splitlines() if not QUIET.match(it)][-60:], sep="\n", file=sys.stderr)
            raise Failed(crate.name)
        write(f"{made}.proved", key)
        print(f"note: the tests of {crate.name} are proved", file=sys.stderr, flush=True)


def prove_tests_of(crate, processors):
    """Does so for one crate. Returns what was said where that failed, and else nothing."""
    made = f"{crate.folder}/out/tests"
    os.makedirs(f"{crate.folder}/out", exist_ok=True)
    with tempfile.TemporaryDirectory(prefix="tests-") as room:
        ran = run([toolchain().rtlib.RATTLE, *words_of_tests(crate, f"{made}.o", min(4, processors))], crate.folder, room)
    if ran.status:
        return ran.said
    with tempfile.TemporaryFile("w+", errors="replace") as crate.out:
        # (the link's own paths stand below the crate's folder)
        status = crate.link(os.path.relpath(f"{made}.o", crate.folder), os.path.relpath(made, crate.folder))
        crate.out.seek(0)
        return crate.out.read() if status else ""
