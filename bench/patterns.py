#!/usr/bin/env python3
"""Times `einv check` finding the nodes that match a pattern, over invoices made for it.

    python3 bench/patterns.py [PROGRAM] [LINES ..]

PROGRAM is crates/einv/out/einv if it isn't given. Each pattern is the context of a rule with one assertion, which holds. Judges by a
file that has this rule once and by one that has it eleven times, each time in a pattern of its own, over as many LINES of five nodes
each as given (20,000 and 180,000), and prints a tenth of the difference, 0 where it is within the noise: the best of three runs each,
wall clock.
"""
import pathlib
import re
import subprocess
import sys
import tempfile
import time
from xml.sax.saxutils import quoteattr

HOME = pathlib.Path(__file__).resolve().parent.parent
PATTERNS = ["a:InvoiceLine/a:Item", "/i:Invoice", "*", "a:Price[b:PriceAmount < 0]"]
LINE = "<a:InvoiceLine><a:Item/><a:Price><b:PriceAmount>-1</b:PriceAmount></a:Price></a:InvoiceLine>"


def invoice(lines):
    return '<Invoice xmlns="urn:i" xmlns:a="urn:a" xmlns:b="urn:b">' + LINE * lines + "</Invoice>"


def rule_file(pattern, asked, times):
    rule = "<pattern><rule context=%s>%s</rule></pattern>" % (quoteattr(pattern), asked)
    return (
        '<schema xmlns="http://purl.oclc.org/dsdl/schematron" queryBinding="xslt2"><ns prefix="i" uri="urn:i"/>'
        '<ns prefix="a" uri="urn:a"/><ns prefix="b" uri="urn:b"/>%s</schema>' % (rule * times)
    )


def judged(program, folder, rules, document):
    """The least seconds of three runs, and how many reports the last one told."""
    path, taken = folder / "rules.sch", []
    path.write_text(rules)
    for _ in range(3):
        begun = time.perf_counter()
        done = subprocess.run([program, "check", "--rules", path, document], capture_output=True, text=True, check=True)
        taken.append(time.perf_counter() - begun)
    return min(taken), int(re.search(r"reported (\d+)", done.stdout.splitlines()[-1]).group(1))


def main():
    program = sys.argv[1] if len(sys.argv) > 1 else str(HOME / "crates/einv/out/einv")
    sizes = [int(word) for word in sys.argv[2:]] or [20_000, 180_000]
    holds, tells = '<assert test="true()">-</assert>', '<report test="true()">-</report>'
    print("| Pattern | nodes | marked | seconds |")
    print("|---|---|---|---|")
    with tempfile.TemporaryDirectory() as name:
        folder = pathlib.Path(name)
        for lines in sizes:
            (folder / f"{lines}.xml").write_text(invoice(lines))
        for pattern in PATTERNS:
            for lines in sizes:
                document = folder / f"{lines}.xml"
                once, _ = judged(program, folder, rule_file(pattern, holds, 1), document)
                often, _ = judged(program, folder, rule_file(pattern, holds, 11), document)
                _, marked = judged(program, folder, rule_file(pattern, tells, 1), document)
                print(f"| `{pattern}` | {5 * lines + 2:,} | {marked} | {max(0.0, often - once) / 10:.3f} |", flush=True)


main()
