#!/usr/bin/env python3
"""Times `einv validate` beside `einv check` with the same rules, over invoices that are made here.

    python3 bench/validation.py [PROGRAM] [RUNS]

PROGRAM is crates/einv/out/einv if it isn't given, RUNS 3. Prints two tables: invoices of 10 to 20,000 lines in UBL of which the sums alone
are wrong, with the times of check, validate and validate --svrl, and the ratio of the first two; and the same with four things wrong in
each line (a quantity, a unit, a name, an element), with the time for each line of the report. Each time is the best of the runs, in
seconds of a processor, start-up included, output to a file.
"""
import os
import pathlib
import subprocess
import sys
import tempfile

import invoices

RULES = invoices.HOME / "rules" / "en16931-ubl.sch"


def best(words, runs, out):
    """The least time, and the last line that was written."""
    taken = []
    for _ in range(runs):
        with open(out, "wb") as file:
            child = subprocess.Popen(words, stdin=subprocess.DEVNULL, stdout=file, stderr=subprocess.STDOUT)
            used = os.wait4(child.pid, 0)[2]
        taken.append(used.ru_utime + used.ru_stime)
    return min(taken), pathlib.Path(out).read_text(encoding="utf-8").rstrip("\n").split("\n")


def wrong(lines):
    """An invoice of so many lines, in each of which four things are wrong."""
    text = invoices.invoice(lines)
    front, behind = text.split("<cac:InvoiceLine>", 1)
    behind = behind.replace(' unitCode="HUR">2<', ">two<").replace("<cbc:Name>Drawing, by the hour</cbc:Name>", "<cbc:Nmae>Drawing</cbc:Nmae>")
    return front + "<cac:InvoiceLine>" + behind


def right_ones(program, folder, runs):
    print("| Lines | MB | check | validate | ratio | validate --svrl | answer |\n|---|---|---|---|---|---|---|")
    for lines in (10, 1_000, 20_000):
        path = folder / "invoice.xml"
        path.write_text(invoices.invoice(lines))
        check, _ = best([program, "check", "--rules", RULES, path], runs, folder / "out")
        plain, told = best([program, "validate", path], runs, folder / "out")
        svrl, _ = best([program, "validate", "--svrl", path], runs, folder / "out")
        size = path.stat().st_size / 1e6
        print("| %d | %.2f | %.3f | %.3f | %.2f | %.3f | %s |" % (lines, size, check, plain, plain / check, svrl, told[-1]))


def wrong_ones(program, folder, runs):
    print("| Lines | MB | validate | lines told | microseconds a line told | answer |\n|---|---|---|---|---|---|")
    for lines in (10, 1_000, 10_000, 20_000):
        path = folder / "invoice.xml"
        path.write_text(wrong(lines))
        taken, told = best([program, "validate", path], runs, folder / "out")
        size = path.stat().st_size / 1e6
        print("| %d | %.2f | %.3f | %d | %.1f | %s |" % (lines, size, taken, len(told), 1e6 * taken / len(told), told[-1]))


def main():
    program = sys.argv[1] if len(sys.argv) > 1 else str(invoices.HOME / "crates/einv/out/einv")
    runs = int(sys.argv[2]) if len(sys.argv) > 2 else 3
    with tempfile.TemporaryDirectory() as name:
        right_ones(program, pathlib.Path(name), runs)
        print()
        wrong_ones(program, pathlib.Path(name), runs)


if __name__ == "__main__":
    main()
