#!/usr/bin/env python3
"""Times `einv query EXPR FILE` beside Saxon-HE, over invoices that are made as bench/invoices.py makes them.

    python3 bench/queries.py [PROGRAM] [RUNS]

PROGRAM is crates/einv/out/einv if it isn't given, RUNS 3. Saxon-HE is that of Debian's package libsaxonhe-java, run as a query
processor; its start is taken away by a run of the same expression over an empty document. Where it is missing, its columns are left
out. Prints for each expression and each invoice of 100, 1,000, 10,000 and 20,000 lines both times and their ratio. Each time is the
best of the runs, wall clock, output to a pipe.
"""
import os
import pathlib
import shutil
import subprocess
import sys
import tempfile
import time

import invoices

SAXON = "/usr/share/java/Saxon-HE.jar"
NAMESPACES = "".join(
    'declare namespace %s = "urn:oasis:names:specification:ubl:schema:xsd:%s";' % pair
    for pair in (("cac", "CommonAggregateComponents-2"), ("cbc", "CommonBasicComponents-2"))
)
EXPRESSIONS = [
    "count(//cac:InvoiceLine[cbc:LineExtensionAmount > 100])",
    "sum(//cbc:LineExtensionAmount)",
    "string(//cac:InvoiceLine[17]/cac:Item/cbc:Name)",
    "count(for $l in //cac:InvoiceLine return $l/cbc:InvoicedQuantity * $l/cac:Price/cbc:PriceAmount)",
    "count(distinct-values(//cbc:ID))",
    "every $l in //cac:InvoiceLine satisfies $l/cbc:ID != ''",
]


def best(words, runs):
    taken = []
    for _ in range(runs):
        begun = time.perf_counter()
        done = subprocess.run(words, stdin=subprocess.DEVNULL, stdout=subprocess.PIPE, stderr=subprocess.PIPE)
        taken.append(time.perf_counter() - begun)
    return min(taken), done.stdout.decode(errors="replace").strip(), done.stderr.decode(errors="replace").strip()


def saxon(expression, path):
    return ["java", "-cp", SAXON, "net.sf.saxon.Query", "-s:" + str(path), "-qs:" + NAMESPACES + expression, "!omit-xml-declaration=yes"]


def main():
    program = sys.argv[1] if len(sys.argv) > 1 else str(invoices.HOME / "crates/einv/out/einv")
    runs = int(sys.argv[2]) if len(sys.argv) > 2 else 3
    other = shutil.which("java") is not None and os.path.exists(SAXON)
    if not other:
        print("Saxon-HE isn't there (libsaxonhe-java): its columns are left out\n")
    with tempfile.TemporaryDirectory() as folder:
        empty, path = pathlib.Path(folder) / "empty.xml", pathlib.Path(folder) / "invoice.xml"
        empty.write_text("<e/>")
        print("| Expression | lines | einv query | Saxon-HE | its start | ratio | answer |")
        print("|---|---|---|---|---|---|---|")
        for expression in EXPRESSIONS:
            start = best(saxon(expression, empty), runs)[0] if other else None
            for lines in (100, 1_000, 10_000, 20_000):
                path.write_text(invoices.invoice(lines))
                mine, answer, said = best([program, "query", expression, str(path)], runs)
                right = "- | - | -"
                if other:
                    theirs, their_answer, _ = best(saxon(expression, path), runs)
                    right = "%.3f | %.3f | %.2f" % (theirs - start, start, mine / max(theirs - start, 0.001))
                    if their_answer.strip('"') != answer.strip('"'):
                        answer += " (Saxon: %s)" % their_answer[:40]
                print("| `%s` | %d | %.3f | %s | %s |" % (expression, lines, mine, right, answer or said))


main()
