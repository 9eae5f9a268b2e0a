"""The measurements of bench/proof.sh."""
import bisect
import collections
import datetime
import os
import re
import shutil
import subprocess
import sys
import tempfile
import threading
import time

sys.dont_write_bytecode = True
ROOT = os.path.dirname(os.path.dirname(os.path.realpath(__file__)))
sys.path.insert(0, f"{ROOT}/scripts")
import proving

PARTS = ("--proof", "--tests", "--edits", "--slowest")
MEMBER = re.compile(r"Rattle-(\w+)-(proofs|specs)\.(.*)\.oantt$")
SHOWN = 20
# The parts of a function's proof that are files of proofs/. The checker writes any other part.
OWN_PARTS = ("Proof", "Answers", "Invariants")


def table(head, rows):
    """Prints a table. Each column but the first is aligned to the right."""
    print(f"| {' | '.join(head)} |")
    print(f"| --- |{' ---: |' * (len(head) - 1)}")
    for row in rows:
        print(f"| {' | '.join(str(it) for it in row)} |")
    print(flush=True)


def seconds(number):
    return f"{number:,.0f}" if number >= 100 else f"{number:.1f}"


class Clock:
    """Samples the processor time of a process and of its forks, and gives the processor time at any moment."""

    def __init__(self, number):
        self.number, self.moments, self.used, self.is_over = number, [], [], threading.Event()
        self.thread = threading.Thread(target=self.sample)
        self.thread.start()

    def sample(self):
        while not self.is_over.wait(0.02):
            self.used.append(self.now())
            self.moments.append(time.time())

    def end(self):
        self.is_over.set()
        self.thread.join()

    def now(self):
        """Returns the seconds of the process, of its copies, and of those that have ended."""
        total, left = 0, [self.number]
        while left:
            it = left.pop()
            try:
                with open(f"/proc/{it}/stat", encoding="utf-8", errors="replace") as file:
                    total += sum(map(int, file.read().rpartition(")")[2].split()[11:15]))
                with open(f"/proc/{it}/task/{it}/children", encoding="utf-8") as file:
                    left += file.read().split()
            except OSError:
                continue
        return max(total / os.sysconf("SC_CLK_TCK"), self.used[-1] if self.used else 0)

    def at(self, moment):
        """Returns the processor time at a moment, interpolated between two samples."""
        after = bisect.bisect_left(self.moments, moment)
        if after == 0 or after == len(self.moments):
            return self.used[min(after, len(self.used) - 1)] if self.used else 0
        begin, end = self.moments[after - 1 : after + 1]
        share = (moment - begin) / (end - begin)
        return self.used[after - 1] + share * (self.used[after] - self.used[after - 1])


def saved(folder):
    """Returns each file that the checker saved in the folder, with its time, in order of time."""
    found = []
    for at, _, names in os.walk(folder):
        found += [(os.stat(f"{at}/{it}").st_mtime_ns, it) for it in names]
    return [(moment / 1e9, name) for moment, name in sorted(found)]


def part_of(name, functions, crate):
    """Returns the function or file to which a saved module belongs, and which part of its proof it is."""
    found = MEMBER.match(name)
    if not found:
        return "", "start, facades, end"
    module = found[3][: -len(".decls")] if found[3].endswith(".decls") else found[3]
    if found[2] == "specs" and module.startswith("contracts."):
        return owner_of(module[len("contracts.") :], functions, "contract")
    if found[2] == "specs":
        return f"specs.{module}", "types" if module.startswith("declared") else "definitions"
    if os.path.isfile(f"{crate.folder}/proofs/{module.replace('.', '/')}.antt"):
        owner, part = owner_of(module, functions, "lemmas")
        return (owner, part) if part in OWN_PARTS else (module, "lemmas")
    return owner_of(module, functions, "other")


def owner_of(module, functions, part):
    """Returns the function to which a module belongs and the rest of the name, or the module and `part` if it belongs to none."""
    words = module.split(".")
    for end in range(len(words), 0, -1):
        if ".".join(words[:end]) in functions:
            rest = ".".join(words[end:])
            return ".".join(words[:end]), part if part == "contract" else rest or "other"
    return module, part


def profile(crate):
    """Checks a crate at one job, and returns the processor seconds of each module: those between its save and the save
    before it."""
    rtlib = proving.toolchain().rtlib
    with tempfile.TemporaryDirectory(prefix="profile-") as room:
        os.mkdir(f"{room}/kept")
        words = [rtlib.RATTLE, "check", *crate.words(["--jobs", "1"], keeps=False), "--progress", "--incremental", f"{room}/kept"]
        clocks = []
        ran = proving.run(words, crate.folder, room, began=lambda it: clocks.append(Clock(it)))
        clocks[0].end()
        if ran.status:
            sys.exit(f"error: {crate.name} is not proved:\n{ran.said[-2000:]}")
        names = proving.PROGRESS_LINES.findall(ran.said)
        functions = {it.partition("::")[2].replace("::", ".") for it in names}
        took, before = collections.Counter(), 0.0
        for moment, name in saved(f"{room}/kept"):
            now = clocks[0].at(moment)
            owner, part = part_of(name, functions, crate)
            took[crate.name, owner, part] += now - before
            before = now
        took[crate.name, "", "start, facades, end"] += ran.user + ran.sys - before
    batches = len(re.findall("(?m)^so far:", ran.said))
    return took, len(functions), batches


def print_slowest(tree, names):
    """Prints the slowest parts, functions and modules."""
    crates = proving.crates_of(tree)
    wanted = [it for it in proving.with_below(crates, names or ["pbnet"]) if not names or it.name in names]
    proving.prove(tree, [below.name for it in wanted for below in it.below()])
    tasks = {(it.name, "edits"): ([], proving.lines_of(it), proving.toolchain().need(it), lambda given, jobs, it=it: profile(it)) for it in wanted}
    took, functions, batches = collections.Counter(), 0, 0
    for more, count, copies in proving.toolchain().in_lanes(tasks).values():
        took, functions, batches = took + more, functions + count, batches + copies
    whole = sum(took.values())
    print(f"## The slowest of {', '.join(it.name for it in wanted)}\n")
    print(f"A check at one job took {seconds(whole)} s of processor time for {functions:,} functions. The time of a module is the time from the save before it to its own save.")
    print(f"The checker worked in {batches} batches. Each loads the modules that it needs.\n" if batches else "")
    parts, owners, of = collections.Counter(), collections.Counter(), collections.defaultdict(list)
    for (name, owner, part), it in took.items():
        parts[part] += it
        if owner:
            owners[name, owner] += it
            of[name, owner].append((it, part))
    print("By the part of a function's proof (`Answers`, `Invariants` and some `Proof` are files of proofs/; the checker writes the others):\n")
    table(["part", "CPU s", "of all"], [(part, seconds(it), f"{100 * it / whole:.0f} %") for part, it in parts.most_common(SHOWN)])
    print("By function, or file of lemmas or definitions:\n")
    rows = []
    for (name, owner), it in owners.most_common(SHOWN):
        most = sorted(of[name, owner], reverse=True)[:5]
        rows.append((f"{name} {owner}", seconds(it), ", ".join(f"{part} {seconds(each)}" for each, part in most if each >= 0.05)))
    table(["function", "CPU s", "most of it"], rows)
    rows = [(f"{name} {owner}", part, seconds(it)) for (name, owner, part), it in took.most_common(2 * SHOWN) if owner]
    print("By module:\n")
    table(["of", "part", "CPU s"], rows)


def print_machine():
    """Prints the machine, the date and the versions."""
    with open("/proc/cpuinfo", encoding="utf-8") as it:
        model = re.search(r"(?m)^model name\s*: (.*)$", it.read())
    memory = os.sysconf("SC_PAGE_SIZE") * os.sysconf("SC_PHYS_PAGES") / 1e9
    with open(f"{proving.toolchain().KIT}/KIT-ID", encoding="utf-8") as it:
        kit = it.read().strip()
    state = subprocess.run(["git", "-C", ROOT, "log", "-1", "--format=%h"], stdout=subprocess.PIPE, text=True).stdout.strip()
    load = os.getloadavg()[0]
    print(f"- {proving.toolchain().processors()} processors, {model[1] if model else 'of an unknown model'}, {memory:.0f} GB")
    print(f"- {datetime.date.today()}, commit {state}, load at the start {load:.1f}")
    print(f"- {kit}\n", flush=True)


def proved_anew(room, names):
    """Proves the crates in a fresh clone. Returns the figures of each crate by name, and the seconds of wall time."""
    tree = f"{room}/clone"
    subprocess.run(["git", "clone", "--quiet", ROOT, tree], check=True)
    began = time.time()
    ran = subprocess.run([f"{tree}/scripts/prove", "--table", f"{room}/table", *(names or proving.crates_of(tree))])
    if ran.returncode:
        sys.exit(ran.returncode)
    with open(f"{room}/table", encoding="utf-8") as it:
        rows = [line.rstrip("\n").split("\t") for line in it]
    return {it[0]: [int(it[1]), *map(float, it[2:5]), *map(int, it[5:])] for it in rows}, time.time() - began


def prove_tests(crate, room):
    """Proves and compiles the crate's tests as the gate does, and returns the run."""
    words = [proving.toolchain().rtlib.RATTLE, *proving.words_of_tests(crate, f"{room}/{crate.name}_tests.o")]
    return proving.run(words, crate.folder, room)


def try_edits(crate, room):
    """Tries the crate's mutants as the gate does, in a separate process, and returns the run."""
    tree = os.path.dirname(os.path.dirname(crate.folder))
    return proving.run([sys.executable, os.path.realpath(__file__), "--try-edits", tree, crate.name], tree, room)


def try_edits_here(root, name):
    """Tries a crate's mutants in turn: a single one from nothing, several on copies of one check of the crate."""
    proving.prepare()
    rt, crate = proving.toolchain(), proving.crates_of(root)[name]
    edits, jobs = rt.edits_of(crate)[0], ["--jobs", "1"]
    results = []
    with tempfile.TemporaryDirectory() as room:
        if len(edits) > 1:
            os.mkdir(f"{room}/seed")
            rt.checked(crate, {}, jobs, f"{room}/seed")
        for number, edit in enumerate(edits):
            kept = shutil.copytree(f"{room}/seed", f"{room}/{number}") if len(edits) > 1 else None
            results.append(rt.must_fail(crate, edit, jobs, kept))
    print(*[text for _, text in results], sep="\n")
    return 0 if all(proving.is_refused(it) for it, _ in results) else 1


def measured(tree, names, room, what, call):
    """Measures each crate with one job, and as many crates at once as processors and memory allow. Returns the runs by name."""
    rt, crates = proving.toolchain(), proving.crates_of(tree)
    wanted = [it for it in crates.values() if (it.name in names or not names) and what(it)]
    proving.prove(tree, [below.name for it in wanted for below in it.below()])
    tasks = {(it.name, "edits"): ([], proving.lines_of(it), rt.need(it), lambda given, jobs, it=it: call(it, room)) for it in wanted}
    found = {key[0]: it for key, it in rt.in_lanes(tasks).items()}
    for name, ran in found.items():
        if ran.status:
            print(f"error: {name}: status {ran.status}: {ran.said[-600:]}", file=sys.stderr)
    return found


def print_crates(tree, parts, names, room):
    """Prints the table of the crates."""
    rt = proving.toolchain()
    proofs, wall = proved_anew(room, names) if "--proof" in parts else ({}, 0)
    count = lambda it: len(rt.edits_of(it)[0])
    tests = measured(tree, names, room, lambda it: it.has_tests(), prove_tests) if "--tests" in parts else {}
    edits = measured(tree, names, room, count, try_edits) if "--edits" in parts else {}
    rows = []
    for name, it in proving.crates_of(tree).items():
        if name in proofs or name in tests or name in edits:
            rows.append(row_of(it, proofs.get(name), tests.get(name), edits.get(name), count(it)))
    head = ["crate", "functions", "lines", "proof CPU s", "wall s", "jobs", "tests CPU s", "wall s", "mutants", "CPU s", "wall s"]
    total = [sum(row[at] or 0 for row in rows) for at in range(1, len(head))]
    table(head, [[shown(it) for it in row] for row in [*rows, ["all", *total[:4], "", *total[5:]]]])
    if proofs:
        print(f"The proof from nothing took {wall / 60:.1f} minutes of wall time.\n")
    print("Proofs are those of `scripts/prove` in a fresh clone. Tests and mutants run as in `rt ci`, one job for each crate. Crates run side by side, which makes their wall times longer.\n", flush=True)


def row_of(crate, proof, tests, edits, count):
    """Returns a crate's row. Cells that were not measured are empty."""
    functions, user, system, wall, jobs, _ = proof or [None] * 6
    cpu = user + system if proof else None
    of = lambda ran: (ran.user + ran.sys, ran.wall) if ran else (None, None)
    return [crate.name, functions, proving.lines_of(crate), cpu, wall, jobs, *of(tests), count if edits else None, *of(edits)]


def shown(cell):
    """Returns a cell's text."""
    return "" if cell is None else seconds(cell) if isinstance(cell, float) else f"{cell:,}" if isinstance(cell, int) else cell


def main(words):
    if words[:1] == ["--try-edits"]:
        return try_edits_here(*words[1:])
    parts = [it for it in words if it in PARTS] or PARTS
    names = [it for it in words if it not in PARTS]
    unknown = [it for it in names if it.startswith("-")]
    if unknown:
        print(f"error: unexpected argument '{unknown[0]}'", file=sys.stderr)
        print(f"usage: bench/proof.sh [{'] ['.join(PARTS)}] [CRATE..]", file=sys.stderr)
        return 2
    try:
        proving.prepare()
        print_machine()
        with tempfile.TemporaryDirectory(prefix="bench-proof-") as room:
            # (measuring proofs, which comes first, makes the clone)
            tree = f"{room}/clone" if "--proof" in parts else ROOT
            if {*parts} - {"--slowest"}:
                print_crates(tree, parts, names, room)
            if "--slowest" in parts:
                print_slowest(tree, names)
    except proving.NoKit as why:
        sys.exit(f"error: {why}")
    except proving.Failed:
        return 1
    return 0


if __name__ == "__main__":
    sys.exit(main(sys.argv[1:]))
