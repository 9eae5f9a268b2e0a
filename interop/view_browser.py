"""Tests the page of the live view in headless Chromium."""

import os
import signal

from chromium import Chromium, find_chromium
from view_room import FIXED, NAMES, PORT, Room, View, ring, stand_in, want, want_gone

SIZES = ((1280, 900), (390, 844))
SCHEMES = ("light", "dark")
# The light of a colour of the page, from 0 to 255.
LIGHT = """(() => {{
    const it = getComputedStyle({0}).{1}.match(/[\\d.]+/g).map(Number);
    return (it[0] + it[1] + it[2]) / 3;
}})()"""
IS_SHOWN = "document.querySelectorAll('#picture .active').length === 3"
# The middle of the name of a link in the window.
MIDDLE = """(() => {{
    const name = [...document.querySelectorAll("#picture .label text")].find((it) => it.textContent === "{0}");
    name.scrollIntoView({{ block: "center" }});
    const box = name.getBoundingClientRect();
    return [box.x + box.width / 2, box.y + box.height / 2];
}})()"""
FOREIGN = """(() => {
    const script = document.createElement("script");
    script.textContent = "window.isRun = true";
    document.body.append(script);
    return window.isRun === true;
})()"""
# The name of a file that no page may take for HTML.
EVIL = "<img src=x onerror=alert(1)>.toml"


def click(browser, name):
    """Clicks the name of a link in the picture with the mouse."""
    x, y = browser.value(MIDDLE.format(name))
    for kind in ("mousePressed", "mouseReleased"):
        browser.ask("Input.dispatchMouseEvent", type=kind, x=x, y=y, button="left", clickCount=1)


def try_looks(browser, folder):
    """Checks the page in each size and scheme, and keeps its pictures."""
    for width, height in SIZES:
        for scheme in SCHEMES:
            browser.look(width, height, scheme)
            want("the shown tree", browser.wait(IS_SHOWN) is not None, True)
            want("the width of the page", browser.value("document.documentElement.scrollWidth") <= width, True)
            ground = browser.value(LIGHT.format("document.body", "backgroundColor"))
            text = browser.value(LIGHT.format("document.querySelector('td')", "color"))
            want(f"the ground of {scheme}", ground > 200 if scheme == "light" else ground < 50, True)
            want("the contrast of the text", abs(ground - text) > 150, True)
            size = browser.value("document.querySelector('#picture .label text').getBoundingClientRect().height")
            want("the height of a name in the picture", size >= 9, True)
            if folder:
                browser.screenshot(f"{folder}/view-{width}-{scheme}.png")


def try_click(browser, view, folder):
    """Checks that a click on a link disables it, that this shows within a second, and that a key enables it."""
    browser.look(*SIZES[0], "light")
    click(browser, "ring1")
    cut = "document.querySelector('#picture .link.cut title')?.textContent.startsWith('link ring1: ')"
    want("a failure within a second", browser.wait(cut, 1) is not None, True)
    healed = "document.querySelectorAll('#picture .active').length === 3"
    want("the new tree within a second", browser.wait(healed, 1) is not None, True)
    change = browser.value("document.querySelector('#changes .command').textContent")
    want("the change", change.endswith("ring1: disabled by this page"), True)
    if folder:
        browser.screenshot(f"{folder}/view-failure.png")
    browser.value("document.querySelector('#picture .link.cut').focus()")
    for kind in ("keyDown", "keyUp"):
        browser.ask("Input.dispatchKeyEvent", type=kind, key="Enter", code="Enter", windowsVirtualKeyCode=13)
    want("enabled again", browser.wait(f"!({cut}) && {IS_SHOWN}", 5) is not None, True)
    view.settle()


def try_end(browser, room, view, folder):
    """Checks that two clicks stop the run, and that the page says how it ended."""
    browser.value("document.querySelector('#counts').click()")
    answered = "document.querySelector('#answer').textContent.endsWith('ok')"
    want("the counts", browser.wait(answered, 5) is not None, True)
    browser.value("document.querySelector('#stop').click()")
    want("the question", browser.value("document.querySelector('#stop').textContent"), "Stop the run?")
    browser.value("document.querySelector('#stop').click()")
    ended = "document.querySelector('#status').textContent === 'ended stopped, exit status 0'"
    want("the end", browser.wait(ended, 5) is not None, True)
    report = browser.value("document.querySelector('#report').textContent")
    want("the report", report.startswith("ended stopped\nport"), True)
    if folder:
        browser.screenshot(f"{folder}/view-ended.png")
    want_gone(room, view, 0)


def try_names(browser, room):
    """Checks that the name of a file is never read as HTML, and that no other script runs."""
    view = View(room, room.write(EVIL, FIXED + PORT.format("North", room.path)))
    browser.open(view.address)
    shown = f"document.querySelector('#plan')?.textContent.endsWith({EVIL!r})"
    want("the name", browser.wait(shown, 10) is not None, True)
    want("elements of the name", browser.value("document.querySelectorAll('img').length"), 0)
    want("what the page reports", browser.errors, [])
    want("a foreign script", browser.value(FOREIGN), False)
    view.process.send_signal(signal.SIGTERM)
    want_gone(room, view, 0, "forest yes")
    browser.errors.clear()


def try_drops(browser, room, folder):
    """Checks that the lines of `drops` are shown as text."""
    view = View(room, stand_in(room, True))
    browser.open(view.address)
    rows = "[...document.querySelectorAll('#reasons tr')].map((it) => it.innerText.replace('\\t', '|'))"
    want("the lines", browser.wait(f"{rows}.length === 2", 10) is not None, True)
    want("the lines", browser.value(rows), ["North port 3 not-member|17", "<img src=x onerror=alert(1)>|5"])
    want("what the page reports", browser.errors, [])
    if folder:
        browser.screenshot(f"{folder}/view-drops.png")
    view.process.send_signal(signal.SIGTERM)
    want_gone(room, view, 0, "ended stopped")


def try_token(browser, view):
    """Checks that the page without its token shows nothing but why."""
    browser.open(f"http://{view.host}/?token=x")
    want("why", browser.wait("document.body?.textContent.includes('the token is wrong')", 5) is not None, True)
    browser.errors.clear()


def try_network(browser, view):
    """Opens the page, and checks that it shows the network."""
    browser.look(*SIZES[0], "light")
    browser.open(view.address)
    want("the tree", browser.wait(IS_SHOWN, 10) is not None, True)
    names = "[...document.querySelectorAll('#picture .bridge text')].map((it) => it.textContent)"
    want("the bridges", browser.value(names), [f"★ {NAMES[0]}", *NAMES[1:]])
    want("discarding ends", browser.value("document.querySelectorAll('#picture .mark.discarding').length"), 1)
    want("the rows", browser.value("document.querySelectorAll('#links tr, #ports tr, #bridges tr').length"), 10)


def run(results, folder):
    """Runs the tests that need a browser, if it is installed."""
    path = find_chromium()
    if path is None:
        print("skipped: chromium is not installed", flush=True)
        return
    rooms = [Room(None) for _ in range(3)]
    if folder:
        os.makedirs(folder, exist_ok=True)
    try:
        with Chromium(path) as browser:
            run_in(browser, results, rooms, folder)
    finally:
        for room in rooms:
            room.remove()


def run_in(browser, results, rooms, folder):
    """Runs the tests in this browser."""
    first, second, third = rooms
    view = View(first, ring(first))
    view.settle()
    tests = [
        ("Chromium refuses a wrong token", first, try_token, view),
        ("Chromium shows the network", first, try_network, view),
        ("Chromium shows it at 1,280 and 390 pixels, light and dark", first, try_looks, folder),
        ("a click disables a link, shown within a second, and a key enables it", first, try_click, view, folder),
        ("two clicks stop the run, and the page says how it ended", first, try_end, first, view, folder),
        ("the console has no error", first, lambda _: want("what the page reports", browser.errors, [])),
        ("a file name is no HTML, and no other script runs", second, try_names, second),
        ("the lines of drops are no HTML", third, try_drops, third, folder),
    ]
    for name, room, test, *values in tests:
        results.add(name, room, test, browser, *values)
