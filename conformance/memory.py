#!/usr/bin/env python3
"""Refuses each allocation of a job in turn, one job of each command, and looks at how `einv` ends.

    python3 conformance/memory.py PROGRAM

Builds refuse_memory.c (gcc, glibc) in a temporary folder and loads it before the C library. Where an allocation is refused the job has
to end with status 8 and nothing on standard error, with nothing on standard output, or for `query` a front of the answer; or, where the program did without, with the whole answer. Prints a line for each job: how many allocations it
makes, and how many of them were refused. Isn't part of the gate: it takes a minute or two.
"""
import os
import pathlib
import subprocess
import sys
import tempfile

HERE = pathlib.Path(__file__).resolve().parent
EXAMPLES = HERE.parent / "examples"
JOBS = [
    "outline first.xml",
    "show invoice-ubl.xml",
    "show invoice-cii.xml",
    "convert --to cii invoice-ubl.xml",
    "convert --to ubl invoice-cii.xml",
    "check --phase #ALL --rules rules-ubl.sch invoice-ubl.xml",
    "check --svrl --rules rules-cii.sch invoice-cii.xml",
    "query //cac:InvoiceLine/cac:Item/cbc:Name invoice-ubl.xml",
    "query distinct-values(//cbc:ID) invoice-ubl.xml",
    "extract 1 credit-note-ubl.xml",
]
MEMORY = 8
# What is written while memory is wanted.
IN_PIECES = "query",


def run(program, words, shim, more):
    env = dict(os.environ, LD_PRELOAD=str(shim), **more)
    return subprocess.run([program] + words, cwd=EXAMPLES, env=env, stdin=subprocess.DEVNULL, capture_output=True, timeout=60)


def fault(words, whole, done):
    """What is wrong with how a job ended, if anything is."""
    if done.returncode == whole.returncode:
        return None if (done.stdout, done.stderr) == (whole.stdout, whole.stderr) else "ended as ever, with another answer"
    if done.returncode != MEMORY:
        return "status %d" % done.returncode
    if done.stderr:
        return "said something: %r" % done.stderr[:80]
    if words[0] not in IN_PIECES and done.stdout:
        return "wrote %d bytes" % len(done.stdout)
    return None if whole.stdout.startswith(done.stdout) else "wrote no front of the answer"


def refuse_each(program, words, shim, count_at):
    """How many allocations the job makes, at how many of them it ended for want of memory, and what went wrong."""
    whole = run(program, words, shim, {"COUNT": str(count_at)})
    count, ended, faults = int(count_at.read_text()), 0, []
    for number in range(1, count + 1):
        for more in {"REFUSE": str(number)}, {"REFUSE": str(number), "REFUSE_ALL": "1"}:
            done = run(program, words, shim, more)
            found = fault(words, whole, done)
            ended += done.returncode == MEMORY and "REFUSE_ALL" not in more
            if found:
                faults.append("allocation %d%s: %s" % (number, " and all behind" if "REFUSE_ALL" in more else "", found))
    return count, ended, faults


def main():
    if len(sys.argv) != 2:
        sys.exit(__doc__)
    program, wrong = str(pathlib.Path(sys.argv[1]).resolve()), 0
    with tempfile.TemporaryDirectory() as folder:
        shim, count_at = pathlib.Path(folder, "refuse.so"), pathlib.Path(folder, "count")
        subprocess.run(["gcc", "-O2", "-shared", "-fPIC", "-o", shim, HERE / "refuse_memory.c"], check=True)
        print("| Job | allocations | ended for want of memory |\n|---|---|---|")
        for job in JOBS:
            count, ended, faults = refuse_each(program, job.split(), shim, count_at)
            print("| `%s` | %d | %d |" % (job, count, ended), flush=True)
            for found in faults[:5]:
                print("    " + found)
            wrong += len(faults)
    sys.exit(1 if wrong else 0)


main()
