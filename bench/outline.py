#!/usr/bin/env python3
"""Times `einv outline FILE > /dev/null` beside `xmllint --noout FILE`, over documents that are made here.

    python3 bench/outline.py [PROGRAM] [RUNS]

PROGRAM is crates/einv/out/einv if it isn't given, RUNS 5. Prints two tables: documents of 1, 4 and 16 MB, rich in elements, in
attributes or in text, with both times, and the times that xmllint takes of outline's, the median of the runs with the quartiles, each
run beside the mean of the two of outline around it; and one hostile document of each kind, with its time, how many times that is the
time of a document rich in elements of its size, the most memory that einv held, and what it answers. Each time is the least of the
runs, in seconds of a processor, start-up included. Where xmllint (libxml2-utils) is missing its columns are left out with a word.
"""
import pathlib
import shutil
import sys
import tempfile

import measuring

HOME = pathlib.Path(__file__).resolve().parent.parent
MEGABYTE = 1_000_000


def filled(front, piece, back, size):
    """A document of nearly that many bytes: a front, pieces with `#` for their numbers, and a back."""
    parts, length, number = [front], len(front) + len(back), 0
    while True:
        part = piece.replace("#", str(number))
        length += len(part.encode())
        if length > size:
            return "".join([*parts, back]).encode()
        parts.append(part)
        number += 1


def elements(size):
    # Five nodes in 98 bytes: some 800,000 at 16 MB, within the limit of einv.
    return filled("<list>", "<invoiceLine><invoicedQuantity>12</invoicedQuantity><priceAmount>10.00</priceAmount></invoiceLine>", "</list>", size)


def attributes(size):
    # Seven nodes in some 130 bytes.
    item = '<item a="1" b="two" c="three &amp; more" p:d="4" id="number #" note="some longer value, which is longer than the others"/>'
    return filled('<list xmlns:p="urn:p">', item, "</list>", size)


def texts(size):
    line = "A text that goes on and on, with an umlaut ü, a &lt; now and then, and an end. " * 12
    return filled("<book>", "<p>" + line + "</p>\n", "</book>", size)


def whole(front, piece, back, size):
    return (front + piece * ((size - len(front) - len(back)) // len(piece)) + back).encode()


# The greatest document has 67,108,864 bytes.
GREATEST = 67_108_864
HOSTILE = {
    "deep": lambda: whole("", "<a>", "", GREATEST),
    "100 deep, side by side": lambda: ("<r>" + ("<a>" * 99 + "</a>" * 99) * 10_000 + "</r>").encode(),
    "wide: 4,000,000 nodes": lambda: whole("<r>", "<e/>", "</r>", 3 + 4 * 3_999_998 + 4),
    "64 attributes an element": lambda: filled("<r>", "<e " + " ".join(f'a{n}=""' for n in range(64)) + "/>", "</r>", 8 * MEGABYTE),
    "64 declarations an element, 99 deep": lambda: (
        "".join(f"<e{d} " + " ".join(f'xmlns:p{d}x{n}="u{n}"' for n in range(64)) + ">" for d in range(99))
        + '<p0x0:x p98x63:y="1"/>' * 100_000
        + "".join(f"</e{d}>" for d in reversed(range(99)))
    ).encode(),
    "64 declarations an element, 97 deep, around 300,000": lambda: (
        "".join(f"<e{d} " + " ".join(f'xmlns:p{d}x{n}="u{n}"' for n in range(64)) + ">" for d in range(97))
        + "<p0x0:x/>" * 300_000
        + "".join(f"</e{d}>" for d in reversed(range(97)))
    ).encode(),
    "the same prefix declared at each element": lambda: whole("<r>", '<p:e xmlns:p="u"/>', "</r>", 8 * MEGABYTE),
    "the default namespace declared at each element": lambda: whole("<r>", '<e xmlns="u"/>', "</r>", 8 * MEGABYTE),
    "a namespace name of 262,000 bytes, 9,990 names": lambda: (
        '<r xmlns="' + "U" * 262_000 + '">' + "".join(f"<n{n}/>" for n in range(9_990)) + "</r>"
    ).encode(),
    "a namespace name of 262,000 bytes, 100,000 elements": lambda: (
        '<r xmlns="' + "U" * 262_000 + '">' + "<e/>" * 100_000 + "</r>"
    ).encode(),
    "64 attributes an element, 9,000 names": lambda: (
        "<r>"
        + "".join("<e " + " ".join(f'a{64 * t + n}=""' for n in range(64)) + "/>" for t in range(140)) * 90
        + "</r>"
    ).encode(),
    "10,000 names": lambda: ("<r>" + "".join(f"<n{n}/>" for n in range(9_999)) * 50 + "</r>").encode(),
    "a huge comment": lambda: whole("<a><!--", "- ", "--></a>", GREATEST),
    "a huge comment that doesn't end": lambda: whole("<a><!--", "-", "", GREATEST),
    "a huge CDATA section": lambda: whole("<a><![CDATA[", "]] ", "]]></a>", GREATEST),
    "a huge CDATA section that doesn't end": lambda: whole("<a><![CDATA[", "]", "", GREATEST),
    "a huge instruction": lambda: whole("<a><?p ", "? ", "?></a>", GREATEST),
    "a tag without an end": lambda: whole("<a x='", ">", "", GREATEST),
    "a text of ]": lambda: whole("<a>", "]", "</a>", GREATEST),
    "a text of CR": lambda: whole("<a>", "\r", "</a>", GREATEST),
    "references alone": lambda: whole("<a>", "&#x10FFFF;", "</a>", GREATEST),
    "texts of one byte and comments": lambda: whole("<a>", "x<!---->", "</a>", GREATEST),
    "tags of 262,144 bytes": lambda: whole("<r>", "<a" + " " * 262_140 + "/>", "</r>", GREATEST),
}


def main():
    program = sys.argv[1] if len(sys.argv) > 1 else str(HOME / "crates/einv/out/einv")
    runs = int(sys.argv[2]) if len(sys.argv) > 2 else 5
    other = shutil.which("xmllint")
    if other is None:
        print("xmllint isn't there (libxml2-utils): its column is left out\n")
    with tempfile.TemporaryDirectory() as folder:
        path = pathlib.Path(folder) / "document.xml"
        print("| Document | MB | einv outline | xmllint --noout | xmllint / outline |")
        print("|---|---|---|---|---|")
        for name, make in (("elements", elements), ("attributes", attributes), ("texts", texts)):
            for megabytes in (1, 4, 16):
                path.write_bytes(make(megabytes * MEGABYTE))
                beside = [[other, "--noout", str(path)]] if other else []
                mine, theirs = measuring.beside([program, "outline", str(path)], beside, runs)
                right = "%.3f | %.2f (%.2f to %.2f)" % theirs[0] if theirs else "- | -"
                print(f"| {name} | {megabytes} | {mine:.3f} | {right} |", flush=True)
        print("\n| Hostile document | MB | einv outline | by honest | peak, MB | answer |")
        print("|---|---|---|---|---|---|")
        for name, make in HOSTILE.items():
            content = make()
            path.write_bytes(elements(len(content)))
            words = [program, "outline", str(path)]
            [(honest, _, _)] = measuring.in_turns([words], runs)
            path.write_bytes(content)
            [(mine, held, said)] = measuring.in_turns([words], runs)
            answer = said.replace(str(path) + ": ", "").removeprefix("einv: ") or "Done"
            shown = f"{len(content) / MEGABYTE:.1f} | {mine:.3f} | {mine / honest:.2f} | {held:.1f}"
            print(f"| {name} | {shown} | {answer} |")


if __name__ == "__main__":
    main()
