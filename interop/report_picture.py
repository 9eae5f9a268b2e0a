#!/usr/bin/env python3
"""Draws a page of `pbnet report` as headless Chromium shows it, as SVG.

usage: interop/report_picture.py FILE PICTURE [LINK]

FILE is the page and PICTURE the SVG to write. With LINK the page shows the failure of this link. Chromium and mutool
(mupdf-tools) have to be installed. docs/report.svg is the page of `report --bridges examples/access.toml` with link
ring6 down."""

import base64
import pathlib
import re
import subprocess
import sys
import tempfile

sys.dont_write_bytecode = True
import chromium

WIDTH, HEIGHT = 1280, 800
# The height of the paper. What does not fit on a shorter one would be on a second page.
PAPER = 3000
INCH = 96
# The page without margins, and without the sections that the picture does not reach.
STYLE = "@page { margin: 0 } section:not(#network):not(#failures) { display: none }"
DRESS = f"document.head.insertAdjacentHTML('beforeend', '<style>{STYLE}</style>')"


def print_page(browser, file, link):
    """Returns the first page of what the browser prints of a file, as PDF, in the colours of the screen."""
    browser.look(WIDTH, HEIGHT, "light")
    browser.open(pathlib.Path(file).resolve().as_uri())
    browser.wait("document.readyState === 'complete' && document.getElementById('picture') !== null")
    browser.ask("Emulation.setEmulatedMedia", media="screen",
                features=[{"name": "prefers-color-scheme", "value": "light"}])
    browser.value(DRESS)
    if link:
        row = f"[...document.querySelectorAll('#failures tbody tr')].find((it) => it.cells[0].textContent === {link!r})"
        browser.value(f"{row}.click()")
    printed = browser.ask("Page.printToPDF", printBackground=True, paperWidth=WIDTH / INCH, paperHeight=PAPER / INCH,
                          marginTop=0, marginBottom=0, marginLeft=0, marginRight=0, pageRanges="1",
                          generateTaggedPDF=False)
    return base64.b64decode(printed["data"])


def brief(picture):
    """Returns the upper part of an SVG, with points of one decimal, and with fonts by the names that browsers know."""
    picture = re.sub(r'height="[^"]*" viewBox="0 0 (\S+) [^"]*"',
                     lambda size: f'height="{float(size[1]) * HEIGHT / WIDTH:g}pt" viewBox="0 0 {size[1]} '
                                  f'{float(size[1]) * HEIGHT / WIDTH:g}"', picture, count=1)
    picture = re.sub(r' (d|x)="[^"]*"', lambda points: re.sub(
        r"-?\d*\.\d{2,}", lambda number: f"{float(number[0]):.1f}".removesuffix(".0"), points[0]), picture)
    picture = picture.replace('"DejaVuSansMono"', '"DejaVu Sans Mono, Menlo, monospace"')
    return picture.replace('"DejaVuSans"', '"DejaVu Sans, Verdana, sans-serif"')


def main(file, picture, link=None):
    """Draws the page."""
    path = chromium.find_chromium()
    if path is None:
        sys.exit("chromium is not installed")
    with chromium.Chromium(path) as browser, tempfile.TemporaryDirectory() as folder:
        printed = pathlib.Path(folder) / "page.pdf"
        printed.write_bytes(print_page(browser, file, link and f"link {link} down"))
        drawn = pathlib.Path(folder) / "page.svg"
        subprocess.run(["mutool", "convert", "-O", "text=text", "-o", drawn, printed], check=True)
        drawn = drawn.with_name("page1.svg")
        pathlib.Path(picture).write_text(brief(drawn.read_text()))


if __name__ == "__main__":
    if not 3 <= len(sys.argv) <= 4:
        sys.exit(__doc__)
    main(*sys.argv[1:])
