"""Tests the page of `pbnet report` in headless Chromium."""

import json
import re
import time

import common
from chromium import BrowserError, Chromium, find_chromium

__all__ = ["BrowserError", "Wrong", "run"]
SIZES = ((1280, 900), (390, 844))
SCHEMES = ("light", "dark")
ROWS = "[...document.querySelectorAll('#failures tbody tr')]"
# The states of links, bridges and ends in a picture.
STATES = """((picture) => {
    const links = {}, bridges = {}, ends = {};
    picture.querySelectorAll("g.link").forEach((it) => { links[it.dataset.link] = it.dataset.state; });
    picture.querySelectorAll("g.bridge").forEach((it) => {
        bridges[it.dataset.bridge] = [it.dataset.role, it.dataset.state];
    });
    picture.querySelectorAll("g.ends path[data-port]").forEach((it) => {
        const sign = it.getAttribute("d").replace(/^M\\d+ \\d+/, "");
        ends[`${it.dataset.bridge}:${it.dataset.port}`] = [it.dataset.state, it.getAttribute("class"), sign];
    });
    return JSON.stringify([links, bridges, ends]);
})(%s)"""
SHOWN = STATES % "document.querySelector('#picture svg')"
OLD = STATES % "document.querySelector('#old-picture').shadowRoot.querySelector('svg')"
# The light of a colour of the page, from 0 to 255.
LIGHT = """(() => {{
    const it = getComputedStyle({0}).{1}.match(/[\\d.]+/g).map(Number);
    return (it[0] + it[1] + it[2]) / 3;
}})()"""
# The middle of the line of a link in the window.
MIDDLE = """(() => {{
    const path = document.getElementById("link-{0}").querySelector("path");
    path.scrollIntoView({{ block: "center", inline: "center" }});
    const at = path.getPointAtLength(path.getTotalLength() * {1}).matrixTransform(path.getScreenCTM());
    return [at.x, at.y];
}})()"""
CHOSEN = "document.querySelector('#failures tr[aria-current=true]').cells[0].textContent"


class Wrong(Exception):
    """What a test finds wrong."""


def want(what, found, wanted):
    """Fails the test unless both values are the same."""
    if found != wanted:
        raise Wrong(f"{what} is {found!r}, not {wanted!r}")


def states_of(svg):
    """Returns the states of links, bridges and ends in a picture of `draw`."""
    link = re.compile(r'data-link="([^"]*)" data-a="[^"]*" data-b="[^"]*" data-state="(\w+)"><title>')
    bridge = re.compile(r'<g id="bridge-[^>]* data-bridge="([^"]*)" data-role="(\w+)" data-state="(\w+)"')
    data = r'data-bridge="([^"]*)" data-port="(\d+)" data-state="(\w+)"'
    end = re.compile(rf'<path class="(\w+)" {data} d="M\d+ \d+([^"]*)"')
    return [
        dict(link.findall(svg)),
        {it[0]: [it[1], it[2]] for it in bridge.findall(svg)},
        {f"{it[1]}:{it[2]}": [it[3], it[0], it[4]] for it in end.findall(svg)},
    ]


def open_page(browser, file, scripts=True):
    """Opens a page, with scripts or without."""
    browser.ask("Emulation.setScriptExecutionDisabled", value=not scripts)
    browser.errors.clear()
    browser.open(file.as_uri())
    loaded = f"location.href === {file.as_uri()!r} && document.readyState === 'complete'"
    want("the page is loaded", browser.wait(loaded) is not None, True)


def names_down(words):
    """Returns the names of what is down, by the first cell of a row."""
    return [] if words == "nothing down" else words.split(" ")[1:-1]


def facing(svg):
    """Returns the end that is opposite each end of a link."""
    ends = re.findall(r'data-link="[^"]*" data-a="([^"]*)" data-b="([^"]*)"', svg)
    return {**dict(ends), **{b: a for a, b in ends}}


def want_states(browser, what, plan, names):
    """Compares the shown picture with that of `draw --down` for these names.

    The page fails a network that has converged, and `draw` a network that begins. So with two names a port opposite a
    discarding one may be forwarding in one of them alone. With one name the plans of these tests show no such port.
    """
    downs = [it for name in names for it in ("--down", name)]
    svg = common.run("draw", *downs, plan)[0]
    found, wanted, opposite = json.loads(browser.value(SHOWN)), states_of(svg), facing(svg)
    for kind, here, there in zip(("links", "bridges", "ends"), found, wanted, strict=True):
        differ = {it: (here.get(it), there.get(it)) for it in {*here, *there} if here.get(it) != there.get(it)}
        for end in [*differ] if kind == "ends" else []:
            others = [ends.get(opposite.get(end), [""])[0] for ends in (here, there)]
            if len(names) > 1 and others == ["discarding", "discarding"]:
                del differ[end]
        want(f"{kind} of {what} that differ from draw", differ, {})


def try_failures(browser, file, plan):
    """Chooses each failure, and compares the picture with that of `draw`."""
    browser.look(*SIZES[0], "light")
    open_page(browser, file)
    for place, words in enumerate(browser.value(f"{ROWS}.map((it) => it.cells[0].textContent)")):
        browser.value(f"{ROWS}[{place}].click()")
        want("the chosen row", browser.value(CHOSEN), words)
        want_states(browser, words, plan, names_down(words))
    want("what the console reports", browser.errors, [])


def click(browser, link, keys=0):
    """Clicks a link in the picture with the mouse, at the first place at which nothing covers it."""
    for share in (0.5, 0.4, 0.6, 0.3, 0.7):
        x, y = browser.value(MIDDLE.format(link, share))
        over = browser.value(f"document.elementFromPoint({x}, {y})?.closest('g.link, g.ends')?.dataset.link")
        if over == link:
            break
    for kind in ("mousePressed", "mouseReleased"):
        browser.ask("Input.dispatchMouseEvent", type=kind, x=x, y=y, button="left", clickCount=1, modifiers=keys)


def try_click(browser, file, plan, folder):
    """Clicks links with the mouse: the states then are shown, and who is disconnected."""
    browser.look(*SIZES[0], "light")
    open_page(browser, file)
    links = browser.value("[...document.querySelectorAll('#picture g.link')].map((it) => it.dataset.link)")
    for link in links:
        click(browser, link)
        want("the chosen failure", browser.value(CHOSEN), f"link {link} down")
        want_states(browser, f"link {link}", plan, [link])
        said = browser.value("document.getElementById('state').textContent")
        want("what is said", said.startswith(f"Link {link} down."), True)
        parted = browser.value("document.querySelector('#failures tr[aria-current=true]').cells[3].textContent").strip()
        want("who is disconnected", said.endswith(parted or "No service is disconnected."), True)
    if folder:
        browser.screenshot(f"{folder}/report-link.png")
    click(browser, links[-1])
    want("a second click", browser.value(CHOSEN), "nothing down")
    click(browser, links[0])
    click(browser, links[1], 8)
    want("a click with Shift", browser.value(CHOSEN), f"links {links[0]} {links[1]} down")
    want_states(browser, "both", plan, links[:2])
    want("what the console reports", browser.errors, [])


def try_keys(browser, file):
    """Goes through the table by keys, and finds rows by a name."""
    browser.look(*SIZES[0], "light")
    open_page(browser, file)
    harmful = browser.value(f"{ROWS}.filter((it) => !it.hidden).length")
    browser.value("document.querySelector('#failures input[type=checkbox]').click()")
    shown = browser.value(f"{ROWS}.filter((it) => !it.hidden).length")
    want("rows that do no harm", 1 < harmful < shown, True)
    browser.value(f"{ROWS}[0].focus()")
    for kind in ("keyDown", "keyUp"):
        browser.ask("Input.dispatchKeyEvent", type=kind, key="ArrowDown", code="ArrowDown", windowsVirtualKeyCode=40)
    want("the chosen row", browser.value(CHOSEN), browser.value(f"{ROWS}[1].cells[0].textContent"))
    name = browser.value("document.querySelector('#picture g.bridge').dataset.bridge")
    browser.value("document.querySelector('input[type=search]').value = %r" % f"bridge {name} ")
    browser.value("document.querySelector('input[type=search]').dispatchEvent(new Event('input'))")
    shown = browser.value(f"{ROWS}.filter((it) => !it.hidden).map((it) => it.cells[0].textContent)")
    want("the rows found", shown, ["nothing down", f"bridge {name} down"])
    want("what the console reports", browser.errors, [])


def try_looks(browser, name, file, folder):
    """Checks the page in each size and scheme, with scripts and without."""
    for scripts in (True, False):
        for width, height in SIZES:
            for scheme in SCHEMES:
                browser.look(width, height, scheme)
                open_page(browser, file, scripts)
                want_look(browser, width, scheme)
                tools = browser.value("document.querySelectorAll('button, input').length")
                want("tools", tools > 0, scripts)
                hidden = browser.value(f"{ROWS}.filter((it) => it.hidden).length")
                want("hidden rows without scripts", 0 if scripts else hidden, 0)
                want("what the console reports", browser.errors, [])
                if folder:
                    browser.screenshot(f"{folder}/report-{name}-{width}-{scheme}{'' if scripts else '-plain'}.png")
    browser.ask("Emulation.setScriptExecutionDisabled", value=False)


def want_look(browser, width, scheme):
    """Checks the width and the colours of the page."""
    want(f"the width at {width}", browser.value("document.documentElement.scrollWidth") <= width, True)
    ground = browser.value(LIGHT.format("document.body", "backgroundColor"))
    want(f"the ground of {scheme}", ground > 200 if scheme == "light" else ground < 50, True)
    for element in ("td", "h1", "#state", "#plan pre"):
        text = browser.value(LIGHT.format(f"document.querySelector('{element}')", "color"))
        want(f"the contrast of {element} in {scheme}", abs(ground - text) > 150, True)
    ink = browser.value(LIGHT.format("document.querySelector('#picture g.bridge text:not(.root)')", "fill"))
    want(f"the contrast of the picture in {scheme}", abs(ground - ink) > 150, True)
    size = browser.value("document.querySelector('#picture g.bridge text:not(.root)').getBoundingClientRect().height")
    want("the height of a name in the picture", size >= 9, True)


def try_change(browser, file, folder):
    """Checks that a page about a change has both pictures, and that a choice leaves the old one."""
    old, new = common.TOP / "examples/access.toml", common.TOP / "examples/access-video.toml"
    browser.look(*SIZES[0], "light")
    open_page(browser, file)
    want("the old picture", json.loads(browser.value(OLD)), states_of(common.run("draw", old)[0]))
    link = browser.value("document.querySelector('#picture g.link').dataset.link")
    click(browser, link)
    want_states(browser, f"link {link}", new, [link])
    want("the old picture", json.loads(browser.value(OLD)), states_of(common.run("draw", old)[0]))
    double = "[...document.querySelectorAll('[id]')].map((it) => it.id).filter((it, k, all) => all.indexOf(it) !== k)"
    want("identifiers that are there twice", browser.value(double), [])
    try_looks(browser, "change", file, folder)


def try_largest(browser, file, folder):
    """Measures how long the page of 32 bridges takes to open, and a choice."""
    browser.look(*SIZES[0], "light")
    begin = time.monotonic()
    open_page(browser, file)
    opened = time.monotonic() - begin
    clicks = f"const at = performance.now(); {ROWS}.slice(-50).forEach((it) => it.click());"
    chosen = browser.value(f"(() => {{ {clicks} return (performance.now() - at) / 50; }})()")
    print(f"  the page of 32 bridges opens in {opened:.1f} s, and shows a failure in {chosen:.0f} ms", flush=True)
    want("opens within 5 s", opened < 5, True)
    want("shows a failure within 0.2 s", chosen < 200, True)
    plan = file.parent / "largest.toml"
    for words in browser.value(f"{ROWS}.filter((it, k) => k % 150 === 0).map((it) => it.cells[0].textContent)"):
        browser.value(f"{ROWS}.find((it) => it.cells[0].textContent === {words!r}).click()")
        want_states(browser, words, plan, names_down(words))
    want("what the console reports", browser.errors, [])
    if folder:
        browser.screenshot(f"{folder}/report-largest.png")


def run(results, pages, change, big, folder):
    """Runs the tests that need a browser, if it is installed."""
    path = find_chromium()
    if path is None:
        print("skipped: chromium is not installed", flush=True)
        return
    with Chromium(path) as browser:
        for name, file in pages.items():
            plan = common.TOP / f"examples/{name}.toml"
            results.add(f"Chromium shows each failure of {name}.toml as draw does", try_failures, browser, file, plan)
        plan = common.TOP / "examples/access.toml"
        results.add("a click on a link shows its failure", try_click, browser, pages["access"], plan, folder)
        results.add("keys and names", try_keys, browser, pages["access"])
        for name in ("access", "failover"):
            looks = f"{name}.toml at 1,280 and 390 pixels, light and dark, with scripts and without"
            results.add(looks, try_looks, browser, name, pages[name], folder)
        results.add("a change, with both pictures", try_change, browser, change, folder)
        if big is not None:
            results.add("Chromium shows 32 bridges", try_largest, browser, big, folder)
