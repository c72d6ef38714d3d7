#!/usr/bin/env python3
"""Times `matches`: hostile patterns over long texts, and a rule with `matches` over many lines beside Saxon-HE.

    python3 bench/matches.py [PROGRAM] [RUNS]

PROGRAM is crates/einv/out/einv if it isn't given, RUNS 3. Prints two tables. Patterns: `einv query` of `matches(/t, PATTERN)` over texts
of 25,000, 50,000 and 100,000 characters, less what `query` takes to read the same document. Lines: `einv check` by one rule of two
assertions with `matches` over UBL invoices of 1,000 to 20,000 lines, made as bench/invoices.py makes them, beside Saxon-HE (libsaxonhe-java)
running the same rules as XSLT; of both times that over an empty document is taken away. Each time is the best of the runs, wall clock,
output to a pipe.
"""
import os
import pathlib
import shutil
import sys
import tempfile

import invoices
import rules

PATTERNS = [
    ("(a*)*b", "a", "a"),
    ("(a|aa)+$", "a", "ab"),
    (".*.*.*=.*", "x", "x"),
    ("^(a?){1000}(a){999}$", "a", "a"),
    ("(a|b|ab){499}c", "ab", "ab"),
    ("^[0-9]{1,6}$", "1", "1"),
]
SIZES = [25_000, 50_000, 100_000]
FILE = (
    '<schema xmlns="http://purl.oclc.org/dsdl/schematron" queryBinding="xslt2">'
    '<ns prefix="cac" uri="urn:oasis:names:specification:ubl:schema:xsd:CommonAggregateComponents-2"/>'
    '<ns prefix="cbc" uri="urn:oasis:names:specification:ubl:schema:xsd:CommonBasicComponents-2"/>'
    "<pattern><rule context=\"cac:InvoiceLine\">"
    "<assert test=\"matches(cbc:ID, '^[1-9][0-9]{0,5}$')\" id=\"M-1\">The line has a number.</assert>"
    "<assert test=\"matches(cac:Item/cbc:Name, '^\\S+( \\S+)*$')\" id=\"M-2\">The name is trimmed.</assert></rule></pattern></schema>"
)


def text(piece, size, end):
    return (piece * size)[:size - len(end)] + end


def hostile(program, folder, runs):
    print("| Pattern | text | " + " | ".join("%s characters, s" % f"{size:,}" for size in SIZES) + " | ns a character | answer |")
    print("|---|---|" + "---|" * (len(SIZES) + 2))
    path = folder / "text.xml"
    for pattern, piece, end in PATTERNS:
        times = []
        for size in SIZES:
            path.write_text("<t>%s</t>" % text(piece, size, end))
            bare, _ = rules.best([program, "query", "count(/t)", path], runs)
            taken, done = rules.best([program, "query", "matches(/t, '%s')" % pattern, path], runs)
            times.append(max(0.0, taken - bare))
        said = (done.stdout.splitlines() or [done.stderr.strip()])[-1]
        figures = " | ".join("%.3f" % seconds for seconds in times)
        print("| `%s` | `%s..%s` | %s | %.0f | %s |" % (pattern.replace("|", "\\|"), piece, end, figures, times[-1] / SIZES[-1] * 1e9, said))


def judging(program, folder, runs):
    other = shutil.which("java") is not None and os.path.exists(rules.cases.SAXON)
    if not other:
        print("Saxon-HE isn't there (libsaxonhe-java): its columns are left out\n")
    file, sheet, empty, path = (folder / name for name in ("rules.sch", "rules.xsl", "empty.xml", "invoice.xml"))
    file.write_text(FILE, encoding="utf-8")
    sheet.write_text(rules.cases.stylesheet(file), encoding="utf-8")
    empty.write_text("<e/>")

    def mine(document):
        return rules.best([program, "check", "--rules", file, document], runs)

    def theirs(document):
        return rules.best(["java", "-cp", rules.cases.SAXON, "net.sf.saxon.Transform", "-s:%s" % document, "-xsl:%s" % sheet], runs)

    start, their_start = mine(empty)[0], theirs(empty)[0] if other else None
    print("| Lines | MB | einv check, s | of that outline, s | Saxon-HE, s | ratio | answer |\n|---|---|---|---|---|---|---|")
    for lines in (1_000, 5_000, 20_000):
        path.write_text(invoices.invoice(lines))
        taken, done = mine(path)
        outline, _ = rules.best([program, "outline", path], runs)
        right = "- | -"
        if other:
            their_time = theirs(path)[0] - their_start
            right = "%.3f | %.2f" % (their_time, (taken - start) / max(their_time, 0.001))
        last = (done.stdout.splitlines() or [done.stderr.strip()])[-1]
        print("| %d | %.2f | %.3f | %.3f | %s | %s |" % (lines, path.stat().st_size / 1e6, taken - start, outline, right, last))


def main():
    program = sys.argv[1] if len(sys.argv) > 1 else str(invoices.HOME / "crates/einv/out/einv")
    runs = int(sys.argv[2]) if len(sys.argv) > 2 else 3
    with tempfile.TemporaryDirectory() as name:
        folder = pathlib.Path(name)
        hostile(program, folder, runs)
        print()
        judging(program, folder, runs)


if __name__ == "__main__":
    main()
