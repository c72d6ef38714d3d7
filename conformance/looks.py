#!/usr/bin/env python3
"""Shows pages of invoices to a real browser: Debian's chromium, without a window.

    python3 conformance/looks.py PROGRAM [FOLDER]

Writes the pages that `view` makes of the examples and of an invoice of 20,000 lines to FOLDER (out/looks), and beside each a picture at
three widths, one in the dark and, unless it has many lines, a PDF, for a person to look at. Says where the browser reads other elements than those that stand in
the page, so where it mends something, where a page asks for another file, and where a picture or PDF isn't made; then its status is 1.
Where there is no browser it says so and does nothing.
"""
import pathlib
import re
import shutil
import struct
import subprocess
import sys
import tempfile

HERE = pathlib.Path(__file__).resolve().parent.parent
WIDTHS = {"phone": 390, "tablet": 820, "wide": 1280}
DARK = "--blink-settings=preferredColorScheme=0"
LINES = 20000
LINE = re.compile(rb"  <cac:InvoiceLine>.*?</cac:InvoiceLine>\n", re.S)


def browser():
    """The path of a browser, if there is one."""
    return next(filter(None, map(shutil.which, ("chromium", "chromium-browser", "google-chrome"))), None)


def large():
    """The example invoice with many lines."""
    text = (HERE / "examples" / "invoice-ubl.xml").read_bytes()
    line = LINE.search(text)
    return text[: line.start()] + line.group() * LINES + text[line.end():]


def call(chromium, *words):
    with tempfile.TemporaryDirectory() as home:
        return subprocess.run([chromium, "--headless", "--no-sandbox", "--disable-gpu", "--no-first-run", "--disable-extensions",
                               f"--user-data-dir={home}", *words], capture_output=True, timeout=300, check=False)


def tags(page):
    """The tags of a page in their order, without what stands in them."""
    return re.findall(r"</?[a-z0-9]+", re.sub(r"<style>.*?</style>", "<style></style>", page, flags=re.S))


def width_of(picture):
    """The width that the head of a PNG says."""
    head = picture.read_bytes()[:24] if picture.is_file() else b""
    return struct.unpack(">I", head[16:20])[0] if head[:8] == b"\x89PNG\r\n\x1a\n" else None


def read_as_written(chromium, page):
    shown = call(chromium, "--dump-dom", page.as_uri()).stdout.decode()
    return tags(shown) == tags(page.read_text(encoding="utf-8"))


def asks_for_nothing(page):
    """Whether nothing but data stands where an address may."""
    text = page.read_text(encoding="utf-8")
    addresses = re.findall(r'(?:href|src|action|poster|srcset)="([^"]*)"', text)
    return all(one.startswith("data:") for one in addresses) and "url(" not in text and "@import" not in text


def pictures(chromium, page, has_print):
    """What wasn't made of a page."""
    for name, width in WIDTHS.items():
        for kind, dark in ((name, []), (name + "-dark", [DARK])):
            if dark and name != "phone":
                continue
            to = page.with_name(f"{page.stem}-{kind}.png")
            call(chromium, f"--screenshot={to}", f"--window-size={width},2000", "--hide-scrollbars", *dark, page.as_uri())
            if width_of(to) != width:
                yield to.name
    if not has_print:
        return
    to = page.with_suffix(".pdf")
    call(chromium, f"--print-to-pdf={to}", "--no-pdf-header-footer", page.as_uri())
    if not to.is_file() or to.read_bytes()[:5] != b"%PDF-":
        yield to.name


def main():
    program, folder = sys.argv[1], pathlib.Path(sys.argv[2] if len(sys.argv) > 2 else HERE / "out" / "looks").resolve()
    chromium = browser()
    if chromium is None:
        print("looks: there is no browser here, so no page was looked at")
        return 0
    folder.mkdir(parents=True, exist_ok=True)
    (folder / "large.xml").write_bytes(large())
    invoices = [*(HERE / "examples" / f"{name}.xml" for name in ("invoice-ubl", "invoice-ubl-cent", "credit-note-cii")), folder / "large.xml"]
    wrong = 0
    for invoice in invoices:
        page = folder / f"{invoice.stem}.html"
        with page.open("wb") as out:
            subprocess.run([program, "view", str(invoice)], stdout=out, check=True)
        faults = [] if read_as_written(chromium, page) else ["the browser reads other elements"]
        faults += [] if asks_for_nothing(page) else ["it asks for another file"]
        faults += [f"{name} isn't made" for name in pictures(chromium, page, invoice.parent != folder)]
        wrong += bool(faults)
        print(f"{page.name}: {'; '.join(faults) or 'read as it is written, pictures and PDF made'}")
    return int(wrong > 0)


if __name__ == "__main__":
    sys.exit(main())
