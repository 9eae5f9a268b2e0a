#!/usr/bin/env python3
"""Tests the page of `pbnet report`: its text, and what headless Chromium makes of it.

usage: interop/report.py [--short] [--pictures FOLDER] [WORD..]

Compares the rows of the page with what `survive`, `tree`, `draw` and `diff` print. Then headless Chromium opens the
page, if it is installed: it chooses each failure and compares the picture with that of `draw --down`, clicks, and looks
at the page with scripts and without, at 1,280 and 390 pixels, light and dark. It also measures the page of 32 bridges
with 64 links and all pairs; --short leaves that out. --pictures keeps pictures of the pages. With WORDs only those tests
run whose names have one of them.

Each test prints a line `ok NAME`, `FAILED NAME: WHY` or `skipped: WHY`. The last line is `N passed, M failed`, and the
exit status is 0 if M is 0 and N is not. The program is ./pbnet, or that of the variable PBNET."""

import argparse
import html
import os
import pathlib
import re
import sys
import tempfile
import time
import tomllib

sys.dont_write_bytecode = True
import common
import report_browser
from report_plans import largest

EXAMPLES = common.TOP / "examples"
# The plans whose pages are compared: their states are given, computed, or both pairs and lists of services differ.
PLANS = ("access", "failover", "metro", "parallel", "two-bridges", "e-lan")
TABLE = re.compile(r'<section id="{0}"><h2>.*?<tbody>\n(.*?)</tbody></table></div></section>', re.S)


class Wrong(Exception):
    """What a test finds wrong."""


def want(what, found, wanted):
    """Fails the test unless both values are the same."""
    if found != wanted:
        raise Wrong(f"{what} is {found!r}, not {wanted!r}")


def page_of(folder, plan, *words):
    """Returns the path of the page on a plan file, made by `-o`."""
    file = folder / f"{pathlib.Path(plan).stem}{''.join(words).replace('/', '_')}.html"
    text, status = common.run("report", plan, "-o", file, *words)
    want(f"the status of report {plan}", (text, status), ("", 0))
    return file


def rows_of(page, table):
    """Returns the rows of a table of the page, as lists of texts."""
    body = re.search(TABLE.pattern.format(table), page, re.S)[1]
    return [[html.unescape(it) for it in re.findall("<td>(.*?)</td>", row, re.S)] for row in body.split("</tr>\n")[:-1]]


def rest_of(words):
    """Returns the cell of how the bridges converged, for the words of `survive`."""
    for pattern, cell in ((r"converged ticks (\d+)", r"\1 s"), (r"not converged ticks (\d+)", r"not in \1 s")):
        if re.fullmatch(pattern, words):
            return re.sub(pattern, cell, words)
    return words


def failures_of(plan):
    """Returns the rows of failures by `survive`: what is down, convergence, loops, and the disconnected services."""
    rows = []
    for line in common.run("survive", "--all-failures", "--bridges", "--pairs", plan)[0].splitlines():
        head = re.fullmatch(r"(?:accepted )?((?:nothing|links?|bridge) .*?down): (.*) forest (yes|no)", line)
        if head:
            rows.append([head[1], rest_of(head[2]), "", ""])
        elif line.startswith("  loop "):
            rows[-1][2] += " " + line.removeprefix("  loop ")
        elif line.startswith("  service ") and len(rows) > 1:
            rows[-1][3] += line.removeprefix("  service ") + "\n"
    return rows


def ports_of(plan):
    """Returns the rows of ports to other bridges by `tree`."""
    rows = []
    for line in common.run("tree", plan)[0].splitlines():
        words = line.split(" ")
        if words[0] == "port" and "cost" in words:
            rows.append([words[1], words[2], words[4], words[5], words[6], words[8], words[10]])
        elif words[0] == "port":
            rows.append([words[1], words[2], words[4], "", words[5]])
    return rows


def try_rows(folder, name):
    """Compares the rows of a page with what other commands print, and with the plan."""
    plan = EXAMPLES / f"{name}.toml"
    page = page_of(folder, plan, "--bridges", "--pairs").read_text()
    text = plan.read_text()
    told = tomllib.loads(text)
    want("the failures", rows_of(page, "failures"), failures_of(plan))
    want("the ports", rows_of(page, "tree"), ports_of(plan))
    sites = [[it["name"], it["service"], it["bridge"], str(it["port"])] for it in told.get("port", [])]
    want("the sites", rows_of(page, "sites"), sites)
    services = [[it["name"], str(it["vid"])] for it in told.get("service", [])]
    want("the services", [row[:2] for row in rows_of(page, "services")], services)
    source = re.search(r'<section id="plan"><h2>Plan</h2>\n<pre>(.*?)</pre>', page, re.S)[1]
    want("the plan", html.unescape(source), text)
    want("the picture", page.count(common.run("draw", plan)[0]), 1)
    try_alone(page)


def try_alone(page):
    """Checks that a page names no address and no other file."""
    text = re.sub(r"<pre>.*?</pre>", "", page, flags=re.S).replace("http://www.w3.org/2000/svg", "")
    want("addresses", re.findall(r"https?:|//[a-z]|\bsrc=|\bhref=|@import|url\(", text), [])
    want("policies", page.count("default-src 'none'; style-src 'unsafe-inline'; script-src 'unsafe-inline'"), 1)


def try_change(folder):
    """Compares the part of a page about a change with what `diff` and `draw` print."""
    old, new = EXAMPLES / "access.toml", EXAMPLES / "access-video.toml"
    page = page_of(folder, new, "--diff", str(old)).read_text()
    part = re.search(r'<section id="change">(.*?)</section>', page, re.S)[1]
    want("the old title", html.unescape(re.search('<b id="old-title">(.*?)</b>', part)[1]), str(old))
    said = html.unescape(re.search(r"<pre>(.*?)</pre>", part, re.S)[1])
    want("what diff says", said, common.run("diff", old, new)[0])
    want("the old picture", part.count(common.run("draw", old)[0]), 1)
    after = page.replace(part, "")
    want("the new picture", after.count(common.run("draw", new)[0]), 1)
    want("a change without --diff", page_of(folder, new).read_text().count('id="change"'), 0)
    try_alone(page)


def try_refusals(folder):
    """Checks the status and the text for plans that are refused, and that no plan file is overwritten."""
    wrong, right = folder / "wrong.toml", folder / "right.toml"
    wrong.write_text("x = 1\n")
    right.write_text((EXAMPLES / "metro.toml").read_text())
    kept = right.read_text()
    for words in ([wrong], [right, "--diff", wrong], [wrong, "--diff", wrong]):
        text, status = common.run("report", *words, "-o", folder / "none.html")
        want("the status", status, 1)
        want("the line", re.fullmatch(r"plan: \d+ unknown x\n", text) is not None, True)
        want("a page", (folder / "none.html").exists(), False)
    want("a lacking plan", common.run("report", right, "--diff", folder / "none.toml"), ("fault: path\n", 3))
    copy = folder / "copy.toml"
    copy.write_text(kept)
    for words in ([right, "-o", right], [copy, "--diff", right, "-o", right]):
        want("the status", common.run("report", *words), ("", 2))
        want("the plan", right.read_text(), kept)


def try_largest(folder):
    """Measures the page of 32 bridges with 64 links and all pairs: 15 seconds, 2 MB."""
    plan = folder / "largest.toml"
    plan.write_text(largest())
    begin = time.monotonic()
    file = page_of(folder, plan, "--bridges", "--pairs")
    passed = time.monotonic() - begin
    print(f"  32 bridges, 64 links, all pairs: {passed:.1f} s, {file.stat().st_size:,} octets", flush=True)
    want("its rows", len(rows_of(file.read_text(), "failures")), 1 + 64 + 32 + 64 * 63 // 2)
    want("less than 2 MB", file.stat().st_size < 2_000_000, True)
    want("less than 15 s", passed < 15, True)


class Results:
    """Runs tests and counts them."""

    def __init__(self, words):
        self.words, self.passed, self.failed = words, 0, 0

    def add(self, name, test, *values):
        """Runs a test if it is wanted, and prints whether it passed."""
        if self.words and not any(it in name for it in self.words):
            return
        try:
            test(*values)
        except (Wrong, report_browser.Wrong, report_browser.BrowserError) as error:
            self.failed += 1
            print(f"FAILED {name}: {error}", flush=True)
        else:
            self.passed += 1
            print(f"ok {name}", flush=True)


def run(results, given, folder):
    """Runs the tests."""
    for name in PLANS:
        results.add(f"the rows of {name}.toml", try_rows, folder, name)
    results.add("what diff says, with the old picture", try_change, folder)
    results.add("refused plans, and no plan overwritten", try_refusals, folder)
    if not given.short:
        results.add("32 bridges with 64 links", try_largest, folder)
    pages = {name: page_of(folder, EXAMPLES / f"{name}.toml", "--bridges", "--pairs") for name in PLANS}
    change = page_of(folder, EXAMPLES / "access-video.toml", "--diff", str(EXAMPLES / "access.toml"))
    big = None if given.short else folder / "largest--bridges--pairs.html"
    report_browser.run(results, pages, change, big, given.pictures)


def main():
    """Runs the tests that the arguments name, and returns the exit status."""
    parser = argparse.ArgumentParser(description=__doc__, formatter_class=argparse.RawDescriptionHelpFormatter)
    parser.add_argument("--short", action="store_true")
    parser.add_argument("--pictures", metavar="FOLDER")
    parser.add_argument("words", metavar="WORD", nargs="*")
    given = parser.parse_args()
    common.need_program()
    if given.pictures:
        os.makedirs(given.pictures, exist_ok=True)
    results = Results(given.words)
    with tempfile.TemporaryDirectory(prefix="interop-report-") as folder:
        run(results, given, pathlib.Path(folder))
    print(f"{results.passed} passed, {results.failed} failed")
    return 0 if results.passed and not results.failed else 1


if __name__ == "__main__":
    sys.exit(main())
