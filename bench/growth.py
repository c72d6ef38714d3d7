#!/usr/bin/env python3
"""Every command on invoices of 1 to 64 MB: processor time beside `outline` of the same file, memory, and instructions.

    python3 bench/growth.py [PROGRAM] [RUNS]

PROGRAM is crates/einv/out/einv if it isn't given, RUNS 5; of the second table a document of 10 MB or more is run once. The invoices are
those of bench/invoices.py in UBL. Prints three tables: `outline`, `show`, `convert`, and `xmllint --noout` where that is installed
(libxml2-utils), with the times that each takes of `outline`, the median and the quartiles of the runs, each between two of `outline`; the
seconds and the memory of each command; and the instructions of each over 1,000 lines, where valgrind is installed. Seconds are those of a
processor in both modes, the least of the runs, start-up included.
"""
import pathlib
import shutil
import sys
import tempfile

import invoices
import measuring

HOME = invoices.HOME
# The last is the greatest of whole thousands of lines within 67,108,864 bytes.
LINES = (2_050, 20_000, 32_900, 137_000)
COMMANDS = {
    "outline": ["outline"],
    "show": ["show"],
    "convert to ubl": ["convert", "--to", "ubl"],
    "convert to cii": ["convert", "--to", "cii"],
    "totals": ["totals"],
    "check": ["check", "--rules", str(HOME / "rules" / "en16931-ubl.sch")],
    "validate": ["validate"],
    "query": ["query", "count(//*[@*]) + count(distinct-values(//text()))"],
}


def write(path, lines):
    path.write_text(invoices.invoice(lines))
    return path.stat().st_size / 1e6


def beside_outline(program, path, runs):
    other = shutil.which("xmllint")
    print("| UBL, lines | MB | outline | show | convert to ubl | xmllint --noout | show / outline | convert / outline | xmllint / outline |")
    print("|---|---|---|---|---|---|---|---|---|")
    for lines in LINES:
        size = write(path, lines)
        first, *commands = [[program, *COMMANDS[name], str(path)] for name in ("outline", "show", "convert to ubl")]
        alone, taken = measuring.beside(first, commands + ([[other, "--noout", str(path)]] if other else []), runs)
        seconds = " | ".join("%.3f" % it[0] for it in taken) + ("" if other else " | -")
        ratios = " | ".join("%.2f (%.2f to %.2f)" % it[1:] for it in taken) + ("" if other else " | -")
        print("| %s | %.1f | %.3f | %s | %s |" % (f"{lines:,}", size, alone, seconds, ratios), flush=True)


def each_command(program, path, runs):
    print("\n| UBL, lines | MB | %s |" % " | ".join(f"{name}, s | MB" for name in COMMANDS))
    print("|---|---|%s" % ("---|---|" * len(COMMANDS)))
    for lines in LINES:
        size = write(path, lines)
        commands = [[program, *words, str(path)] for words in COMMANDS.values()]
        taken = measuring.in_turns(commands, runs if size < 10 else 1)
        for name, (_, _, said) in zip(COMMANDS, taken):
            if said:
                print("%d lines, %s: %s" % (lines, name, said.replace(str(path), "FILE")), file=sys.stderr)
        print("| %s | %.1f | %s |" % (f"{lines:,}", size, " | ".join("%.2f | %.0f" % (seconds, held) for seconds, held, _ in taken)))


def counted(program, path):
    write(path, 1_000)
    counts = {name: measuring.instructions([program, *words, str(path)]) for name, words in COMMANDS.items()}
    if None in counts.values():
        print("\nvalgrind isn't there: no instructions are counted")
        return
    print("\n| Millions of instructions, 1,000 lines | %s |" % " | ".join(COMMANDS))
    print("|---|%s" % ("---|" * len(COMMANDS)))
    print("| UBL | %s |" % " | ".join("%.1f" % (count / 1e6) for count in counts.values()))


def main():
    program = sys.argv[1] if len(sys.argv) > 1 else str(HOME / "crates/einv/out/einv")
    runs = int(sys.argv[2]) if len(sys.argv) > 2 else 5
    with tempfile.TemporaryDirectory() as folder:
        path = pathlib.Path(folder) / "invoice.xml"
        beside_outline(program, path, runs)
        each_command(program, path, runs)
        counted(program, path)


if __name__ == "__main__":
    main()
