#!/usr/bin/env python3
"""Times `einv check`: how long rule files take to compile, and the rules of rules/ over invoices beside Saxon-HE.

    python3 bench/rules.py [PROGRAM] [RUNS]

PROGRAM is crates/einv/out/einv if it isn't given, RUNS 3. Prints two tables. Compiling: rule files of 250 to 4,000 rules with three
assertions each, over an empty document. Judging: rules/en16931-ubl.sch over UBL invoices of 10 to 20,000 lines, made as
bench/invoices.py makes them, beside Saxon-HE (libsaxonhe-java) running the same rules as XSLT, as rules/cases.py writes them; of both
times that over an empty document is taken away. Each time is the best of the runs, wall clock, output to a pipe.
"""
import os
import pathlib
import shutil
import subprocess
import sys
import tempfile
import time

import invoices

sys.path.insert(0, str(invoices.HOME / "rules"))
import cases

RULES = invoices.HOME / "rules" / "en16931-ubl.sch"
RULE = (
    '<rule context="a:b{n}[@c]"><let name="x" value="sum(a:c{n}/@d)"/>'
    '<assert test="$x = count(a:c{n}) * 2" id="A-{n}">The sum is <value-of select="$x"/>.</assert>'
    '<assert test="not(a:d) or a:d castable as xs:date" id="B-{n}" flag="warning">No date</assert>'
    '<report test="a:e = (\'x\', \'y\', \'z\')" id="C-{n}"><name/> is known.</report></rule>'
)


def rule_file(rules):
    inside = "".join(RULE.replace("{n}", str(n)) for n in range(rules))
    return (
        '<schema xmlns="http://purl.oclc.org/dsdl/schematron" queryBinding="xslt2"><ns prefix="a" uri="urn:a"/>'
        '<ns prefix="xs" uri="http://www.w3.org/2001/XMLSchema"/><pattern>%s</pattern></schema>' % inside
    )


def best(words, runs):
    taken = []
    for _ in range(runs):
        begun = time.perf_counter()
        done = subprocess.run(words, stdin=subprocess.DEVNULL, capture_output=True, text=True)
        taken.append(time.perf_counter() - begun)
    return min(taken), done


def compiling(program, folder, runs):
    print("| Rules | assertions | MB | einv check, s | answer |\n|---|---|---|---|---|")
    document, path = folder / "empty.xml", folder / "rules.sch"
    document.write_text("<e/>")
    for rules in (250, 500, 1_000, 2_000, 4_000):
        path.write_text(rule_file(rules))
        taken, done = best([program, "check", "--rules", path, document], runs)
        said = done.stderr.strip() or done.stdout.strip()
        print("| %d | %d | %.2f | %.3f | %s |" % (rules, 3 * rules, path.stat().st_size / 1e6, taken, said))


def judging(program, folder, runs):
    other = shutil.which("java") is not None and os.path.exists(cases.SAXON)
    if not other:
        print("Saxon-HE isn't there (libsaxonhe-java): its columns are left out\n")
    sheet, empty, path = folder / "rules.xsl", folder / "empty.xml", folder / "invoice.xml"
    sheet.write_text(cases.stylesheet(RULES), encoding="utf-8")
    empty.write_text("<e/>")

    def mine(document):
        return best([program, "check", "--rules", RULES, document], runs)

    def theirs(document):
        return best(["java", "-cp", cases.SAXON, "net.sf.saxon.Transform", "-s:%s" % document, "-xsl:%s" % sheet], runs)

    start, their_start = mine(empty)[0], theirs(empty)[0] if other else None
    print("| Lines | MB | einv check, s | Saxon-HE, s | ratio | answer |\n|---|---|---|---|---|---|")
    print("| none | 0.00 | %.3f | %s | | starts, taken away below |" % (start, "%.3f" % their_start if other else "-"))
    for lines in (10, 1_000, 20_000):
        path.write_text(invoices.invoice(lines))
        taken, done = mine(path)
        right = "- | -"
        if other:
            their_time = theirs(path)[0] - their_start
            right = "%.3f | %.2f" % (their_time, (taken - start) / max(their_time, 0.001))
        last = (done.stdout.splitlines() or [done.stderr.strip()])[-1]
        print("| %d | %.2f | %.3f | %s | %s |" % (lines, path.stat().st_size / 1e6, taken - start, right, last))


def main():
    program = sys.argv[1] if len(sys.argv) > 1 else str(invoices.HOME / "crates/einv/out/einv")
    runs = int(sys.argv[2]) if len(sys.argv) > 2 else 3
    with tempfile.TemporaryDirectory() as name:
        folder = pathlib.Path(name)
        compiling(program, folder, runs)
        print()
        judging(program, folder, runs)


if __name__ == "__main__":
    main()
