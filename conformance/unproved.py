#!/usr/bin/env python3
"""Runs one job twice by `./einv --unproved` and compares what it answers with what the page beside the example has.

    python3 conformance/unproved.py

The words are those of a user who has just cloned the repository: from a folder of his own, with a file in it. The first call builds
the sources without proofs, and the second one takes what the first has built. Ends with 1 where the status, the output or what is
told on standard error is another, or where the second call has built anew.
"""
import pathlib
import shutil
import subprocess
import sys
import tempfile

HOME = pathlib.Path(__file__).resolve().parent.parent
BUILT = HOME / "out" / "unproved" / "einv"
TOLD = "einv: not yet proved: the same sources, built without proofs, answer here; ./einv --prove proves them\n"


def answer(folder, words):
    done = subprocess.run([HOME / "einv", "--unproved", *words], cwd=folder, stdin=subprocess.DEVNULL, capture_output=True, text=True)
    return done.returncode, done.stdout, done.stderr


def main():
    found = []
    with tempfile.TemporaryDirectory() as name:
        folder = pathlib.Path(name)
        shutil.copy(HOME / "examples" / "invoice-cii.xml", folder / "invoice.xml")
        wanted = 0, (HOME / "examples" / "invoice-cii.txt").read_text(encoding="utf-8"), TOLD
        for call in "first", "second":
            found.append(BUILT.stat().st_mtime_ns if BUILT.exists() else None)
            status = answer(folder, ["show", "invoice.xml"])
            if status != wanted:
                print("einv --unproved, %s call: status %d\n%s%s" % (call, *status))
                sys.exit(1)
    if not BUILT.exists() or BUILT.stat().st_mtime_ns != found[1]:
        print("einv --unproved: the second call didn't take what the first had built")
        sys.exit(1)
    print("einv --unproved answers as the proved program does, and builds once")


main()
