#!/usr/bin/env python3
"""Times `einv check` over rule files in several files.

    python3 bench/libraries.py [PROGRAM] [RUNS]

PROGRAM is crates/einv/out/einv if it isn't given, RUNS 3. Prints two tables. Joined: a rule file that takes in 63 parts of 60 KB each
by `include`, beside one file that has all of their rules, over an empty document: what the files of the first cost beyond those of
the second. Hostile: small files that ask for very much, each with its answer and the most memory that was held. Each time is the best
of the runs, wall clock, output to a file.
"""
import os
import pathlib
import subprocess
import sys
import tempfile
import time

import rules

SCHEMATRON = ' xmlns="http://purl.oclc.org/dsdl/schematron"'
HEAD = "<schema%s queryBinding=\"xslt2\">" % SCHEMATRON
NAMESPACES = '<ns prefix="a" uri="urn:a"/><ns prefix="xs" uri="http://www.w3.org/2001/XMLSchema"/>'
PARTS = 63
PART_BYTES = 60_000


def including(*names):
    return "".join('<include href="%s"/>' % name for name in names)


def extending(*names):
    return "".join('<extends href="%s"/>' % name for name in names)


def rules_of(part, most):
    """Rules of a part, up to so many bytes, each with a text that says at length what it is for: all parts keep to the limits on
    rules and assertions."""
    said = "<p>%s</p></rule>" % ("It is for something, and this says at some length for what, where it was found and who asked for it. " * 3)
    made, size = [], 0
    while size < most:
        made.append(rules.RULE.replace("{n}", "%d-%d" % (part, len(made))).replace("</rule>", said))
        size += len(made[-1])
    return "".join(made)


def write(folder, files):
    for name, content in files.items():
        (folder / name).write_text(content)


def run(words, folder):
    """Seconds, megabytes held at most, and the answer."""
    with tempfile.TemporaryFile() as out:
        begun = time.perf_counter()
        program = subprocess.Popen(words, cwd=folder, stdin=subprocess.DEVNULL, stdout=out, stderr=out)
        _, status, used = os.wait4(program.pid, 0)
        taken = time.perf_counter() - begun
        out.seek(0)
        said = out.read().decode(errors="replace").strip()[-60:]
    return taken, used.ru_maxrss / 1024, said or "status %d" % os.waitstatus_to_exitcode(status)


def best(words, folder, runs):
    return min(run(words, folder) for _ in range(runs))


def joined(program, runs):
    bodies = [rules_of(part, PART_BYTES) for part in range(PARTS)]
    parts = {"%d.sch" % part: "<pattern%s>%s</pattern>" % (SCHEMATRON, body) for part, body in enumerate(bodies)}
    several = dict(parts, **{"r.sch": HEAD + NAMESPACES + including(*parts) + "</schema>"})
    one = {"r.sch": HEAD + NAMESPACES + "".join("<pattern>%s</pattern>" % body for body in bodies) + "</schema>"}
    print("| Rule file | files | MB | einv check, s | answer |\n|---|---|---|---|---|")
    for title, files in (("one file", one), ("64 files", several)):
        with tempfile.TemporaryDirectory() as name:
            folder = pathlib.Path(name)
            write(folder, dict(files, **{"d.xml": "<e/>"}))
            taken, _, said = best([program, "check", "--rules", "r.sch", "d.xml"], folder, runs)
        size = sum(len(content) for content in files.values()) / 1e6
        print("| %s | %d | %.2f | %.3f | %s |" % (title, len(files), size, taken, said))


def doubling(depth, element, inside, put):
    """Files of which each asks twice for the next, the last with what is to be inside."""
    files = {"r.sch": HEAD + put("0.sch", "0.sch") + "</schema>"}
    for k in range(depth):
        asked = "%d.sch" % (k + 1)
        files["%d.sch" % k] = "<%s%s>%s</%s>" % (element, SCHEMATRON, put(asked, asked), element)
    files["%d.sch" % depth] = "<%s%s>%s</%s>" % (element, SCHEMATRON, inside, element)
    return files


def hostile():
    empty = "<pattern%s/>" % SCHEMATRON
    rule = '<rule%s context="a">' % SCHEMATRON
    yield "62 files, each asking twice for the next", doubling(61, "schema", "", including)
    yield "22 files, each asking twice for what is in the next, which is nothing", doubling(21, "schema", "", extending)
    yield "62 files, each asking twice for what is in the next, which is nothing", doubling(61, "schema", "", extending)
    yield "62 files, each asking twice for what is in the next, which is a space", doubling(61, "schema", " ", extending)
    yield "a part with a text of 4 MB, 4,000 times", {
        "r.sch": HEAD + including("p.sch") * 4_000 + "</schema>",
        "p.sch": "<pattern%s><p>%s</p></pattern>" % (SCHEMATRON, "x" * 4_000_000),
    }
    yield "a text of 4 MB that goes on 100 times", {
        "r.sch": HEAD + extending("p.sch") * 100 + "</schema>",
        "p.sch": "<schema%s>%s</schema>" % (SCHEMATRON, "x" * 4_000_000),
    }
    yield "130,000 times an empty part", {"r.sch": HEAD + including("p.sch") * 130_000 + "</schema>", "p.sch": empty}
    yield "an include around 1,000,000 elements", {
        "r.sch": HEAD + '<include href="p.sch">%s</include></schema>' % ("<p/>" * 1_000_000),
        "p.sch": empty,
    }
    yield "63 parts of 400,000 elements", dict(
        {"%d.sch" % k: "<pattern%s><title>%s</title></pattern>" % (SCHEMATRON, "<x/>" * 400_000) for k in range(63)},
        **{"r.sch": HEAD + including(*("%d.sch" % k for k in range(63))) + "</schema>"},
    )
    yield "a part of 60,000 rules, 60 times", {
        "r.sch": HEAD + including("p.sch") * 60 + "</schema>",
        "p.sch": "<pattern%s>%s</pattern>" % (SCHEMATRON, '<rule context="a"/>' * 60_000),
    }
    yield "a chain of 64 files", dict(
        {"%d.sch" % k: '<pattern%s>%s</pattern>' % (SCHEMATRON, extending("%d.sch" % (k + 1))) for k in range(62)},
        **{"62.sch": "<pattern%s>%s</rule></pattern>" % (SCHEMATRON, rule), "r.sch": HEAD + including("0.sch") + "</schema>"},
    )


def hostiles(program):
    print("| Rule file | KB | einv check, s | peak, MB | answer |\n|---|---|---|---|---|")
    for title, files in hostile():
        with tempfile.TemporaryDirectory() as name:
            folder = pathlib.Path(name)
            write(folder, dict(files, **{"d.xml": "<e/>"}))
            taken, held, said = run([program, "check", "--rules", "r.sch", "d.xml"], folder)
        size = sum(len(content) for content in files.values()) / 1e3
        print("| %s | %.0f | %.3f | %.0f | %s |" % (title, size, taken, held, said))


def main():
    program = os.path.abspath(sys.argv[1] if len(sys.argv) > 1 else rules.invoices.HOME / "crates/einv/out/einv")
    runs = int(sys.argv[2]) if len(sys.argv) > 2 else 3
    joined(program, runs)
    print()
    hostiles(program)


if __name__ == "__main__":
    main()
