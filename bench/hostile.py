#!/usr/bin/env python3
"""Every command on hostile documents, invoices, expressions and files of extension terms: how long each takes and how much memory it holds.

    python3 bench/hostile.py [PROGRAM] [WORD]

PROGRAM is crates/einv/out/einv if it isn't given; with WORD only the rows whose names have it are run. The documents are those of
bench/outline.py, the invoices those of bench/invoices.py. One run of each command, seconds of a processor, start-up included, output to
/dev/null. Prints for each document the seconds of each command; the most of the times that one of them takes of what it takes over an
honest invoice of the same size; and the most memory that one of them held, beside 12 times the document's bytes and 40 MB. Commands that
take less than 0.05 seconds are left out of the third. Expressions have a row each, beside the same over an honest invoice.
"""
import pathlib
import sys
import tempfile

import invoices
import measuring
import outline

HOME = invoices.HOME
RULES = str(HOME / "rules" / "en16931-ubl.sch")
COMMANDS = {
    "outline": ["outline"],
    "show": ["show"],
    "convert to cii": ["convert", "--to", "cii"],
    "convert to ubl": ["convert", "--to", "ubl"],
    "check": ["check", "--rules", RULES],
    "validate": ["validate"],
    "query": ["query", "count(//*[@*]) + count(distinct-values(//text()))"],
    "extract": ["extract", "1"],
}
EXPRESSIONS = {
    "//a//b": ["query", "count(//a//b)"],
    "//a[.//b]": ["query", "count(//a[.//b])"],
    "//a/descendant::b": ["query", "count(//a/descendant::b)"],
}
SHORT = 0.05


def nested():
    """97 elements in one another around 400,000."""
    return "<a>" * 97 + "<b/>" * 400_000 + "</a>" * 97


def extension_terms():
    """A file of all terms that a user may add, each in a line."""
    return "\n".join(
        '[[term]]\nnumber = %d\nplace = "line"\ntype = "I"\nubl = "%s"\ncn = "%s"\ncii = "%s"\n'
        % (n, *["cac:Item/cac:Further%d/cbc:ID" % n] * 2, "ram:SpecifiedTradeProduct/ram:Further%d/ram:ID" % n)
        for n in range(1, 100)
    )


def with_extension_terms(lines):
    """An invoice of so many lines, each with all of those terms."""
    terms = "".join("<cac:Further%d><cbc:ID>x%d</cbc:ID></cac:Further%d>" % (n, n, n) for n in range(1, 100))
    return invoices.invoice(lines).replace("</cac:Item>", terms + "</cac:Item>")


def honest(size):
    """An invoice of about that many bytes."""
    return invoices.invoice(max(1, min(137_000, size // len(invoices.line(1)))))


def taken_of(program, commands, path):
    return [measuring.once([program, *words, str(path)])[:2] for words in commands.values()]


def row(program, commands, content, folder):
    """The figures of a document's row."""
    path, other = folder / "document.xml", folder / "honest.xml"
    path.write_bytes(content if isinstance(content, bytes) else content.encode())
    size = path.stat().st_size
    other.write_text(honest(size))
    mine, theirs = taken_of(program, commands, path), taken_of(program, commands, other)
    ratios = [seconds / max(beside, 0.001) for (seconds, _), (beside, _) in zip(mine, theirs) if seconds >= SHORT]
    figures = " | ".join("%.3f" % seconds for seconds, _ in mine)
    held = max(held for _, held in mine)
    return "%.1f | %s | %s | %.1f | %.0f" % (size / 1e6, figures, "%.1f" % max(ratios) if ratios else "-", held, 12 * size / 1e6 + 40)


def table(program, commands, rows, folder, asked):
    wanted = {name: make for name, make in rows.items() if asked in name}
    if wanted:
        print("\n| Document | MB | %s | by honest | peak, MB | allowed |" % " | ".join(commands))
        print("|---|---|%s---|---|---|" % ("---|" * len(commands)))
    for name, make in wanted.items():
        print("| %s | %s |" % (name, row(program, commands, make(), folder)), flush=True)


def expressions(program, folder, asked):
    """A row for each expression over the nested elements, beside the same over an honest invoice of the same size."""
    wanted = {name: words for name, words in EXPRESSIONS.items() if asked in name}
    if not wanted:
        return
    path, other = folder / "nested.xml", folder / "honest.xml"
    path.write_text(nested())
    size = path.stat().st_size
    other.write_text(honest(size))
    print("\n| Over 97 elements in one another around 400,000 | MB | s | honest, s | by honest | peak, MB | allowed |")
    print("|---|---|---|---|---|---|---|")
    for name, words in wanted.items():
        seconds, held = measuring.once([program, *words, str(path)])[:2]
        beside = measuring.once([program, *words, str(other)])[0]
        figures = (name, size / 1e6, seconds, beside, seconds / max(beside, 0.001), held, 12 * size / 1e6 + 40)
        print("| `%s` | %.1f | %.3f | %.3f | %.1f | %.1f | %.0f |" % figures, flush=True)


def main():
    program = sys.argv[1] if len(sys.argv) > 1 else str(HOME / "crates/einv/out/einv")
    asked = sys.argv[2] if len(sys.argv) > 2 else ""
    with tempfile.TemporaryDirectory() as name:
        folder = pathlib.Path(name)
        table(program, COMMANDS, {**outline.HOSTILE, **invoices.HOSTILE}, folder, asked)
        expressions(program, folder, asked)
        terms = folder / "terms.toml"
        terms.write_text(extension_terms())
        given = ["--extension", str(terms)]
        extended = {name: [*COMMANDS[name], *given] for name in ("show", "convert to cii", "convert to ubl", "validate")}
        rows = {
            "99 extension terms, an invoice of one line": lambda: invoices.invoice(1),
            "99 extension terms, an invoice without them": lambda: invoices.invoice(10_000),
            "99 extension terms in each of 2,000 lines": lambda: with_extension_terms(2_000),
        }
        table(program, extended, rows, folder, asked)


if __name__ == "__main__":
    main()
