#!/usr/bin/env python3
"""Compares the tables of docs/ that are made of what stands elsewhere with it.

    python3 conformance/pages.py            prints each page whose table differs, and ends with 1 where one does
    python3 conformance/pages.py --write    writes the tables anew

The table of crates in docs/ARCHITECTURE.md has what each root file says first, by the layers of crates.txt;
docs/DEFINITIONS.md has what each module of each `specs/` says first; the table of business rules in docs/STANDARDS.md has
where each assertion of rules/ stands. And each crate of crates.txt stands on those alone that its files name: what the
clauses of a crate below cite is found without it.
"""
import pathlib
import re
import sys
import xml.etree.ElementTree as tree

ROOT = pathlib.Path(__file__).resolve().parent.parent
BEGIN, END = "<!-- the crates' own first lines -->\n", "<!-- end -->\n"
RULES = "<!-- the assertions of rules/ -->\n"
SCHEMATRON = "{http://purl.oclc.org/dsdl/schematron}"
HEAD = """# Definitions

Each module of each crate's `specs/`, with what it says first. A definition stands in the lowest crate that can state
it, one module a subject; where a module only says what private functions do, no public contract cites it. Made by
`python3 conformance/pages.py --write`.
"""


def layers():
    """The layers of crates.txt from the bottom up, each with its crates."""
    found = []
    for line in (ROOT / "crates.txt").read_text(encoding="utf-8").splitlines()[1:]:
        if line.startswith("# "):
            found.append((line[2:], []))
        elif ":" in line:
            found[-1][1].append(line.split(":")[0].split()[0])
    return found


def first_words(path, mark):
    """The first paragraph of the comments at a file's head."""
    words = []
    for line in path.read_text(encoding="utf-8").splitlines():
        if not line.startswith(mark) or not line.removeprefix(mark).strip():
            break
        words.append(line.removeprefix(mark).strip())
    return " ".join(words).replace("|", "\\|")


def root_file(crate):
    folder = ROOT / "crates" / crate / "src"
    return folder / "lib.rt" if (folder / "lib.rt").exists() else folder / "main.rt"


def crates():
    rows = ["| Crate | Is |", "|---|---|"]
    for _, names in layers():
        rows += ["| %s | %s |" % (name, first_words(root_file(name), "//!")) for name in names]
    return "\n".join(rows) + "\n"


def definitions():
    page = [HEAD]
    for layer, names in layers():
        rows = []
        for name in names:
            modules = sorted((ROOT / "crates" / name / "specs").glob("*.antt"))
            said = [(path.stem, first_words(path, "--")) for path in modules if path.stem[0].isupper() and path.stem != "Lib"]
            rows += ["| %s | `%s` | %s |" % (name, stem, words) for stem, words in said]
        if rows:
            page.append("## %s\n\n| Crate | Module | Says |\n|---|---|---|\n%s\n" % (layer[0].upper() + layer[1:], "\n".join(rows)))
    return "\n".join(page)


def with_table(name, begin, table):
    """A page of docs/ with the table between the mark and the next end."""
    page = (ROOT / "docs" / name).read_text(encoding="utf-8")
    return re.sub(re.escape(begin) + ".*?" + re.escape(END), lambda _: begin + "\n" + table + "\n" + END, page, flags=re.S)


def put(text, given):
    """A text of an abstract pattern with the parameters put in, the longest names first."""
    for name in sorted(given, key=len, reverse=True):
        text = text.replace("$" + name, given[name])
    return " ".join(text.split())


def assertions(syntax):
    """Of each assertion its identifier, with the pattern and the context in which it stands and its severity."""
    root = tree.parse(ROOT / "rules" / ("en16931-%s.sch" % syntax)).getroot()
    patterns = root.findall(SCHEMATRON + "pattern")
    by_name = {pattern.get("id"): pattern for pattern in patterns}
    found = {}
    for pattern in patterns:
        if pattern.get("abstract") == "true":
            continue
        given = {it.get("name"): it.get("value") for it in pattern.findall(SCHEMATRON + "param")}
        for rule in by_name[pattern.get("is-a", pattern.get("id"))].findall(SCHEMATRON + "rule"):
            for it in rule.findall(SCHEMATRON + "assert"):
                where = "%s: `%s`" % (pattern.get("id"), put(rule.get("context"), given).replace("|", "\\|"))
                found[put(it.get("id"), given)] = (where, it.get("flag"))
    return found


def rules():
    ubl, cii = assertions("ubl"), assertions("cii")
    rows = ["| Rule | Severity | Pattern and context in rules/en16931-ubl.sch | in rules/en16931-cii.sch |", "|---|---|---|---|"]
    rows += ["| %s | %s | %s | %s |" % (name, ubl[name][1], ubl[name][0], cii[name][0]) for name in sorted(ubl)]
    return "\n".join(rows) + "\n"


def unnamed():
    """The crates that a crate of crates.txt stands on and none of its files names."""
    lists = [line.split(":") for line in (ROOT / "crates.txt").read_text(encoding="utf-8").splitlines() if ":" in line and line[0] != "#"]
    lists = [(name.split()[0], below) for name, below in lists]
    own, found = {name for name, _ in lists}, []
    for name, below in lists:
        files = [path for path in (ROOT / "crates" / name).rglob("*") if path.suffix in (".rt", ".antt") and "out" not in path.parts]
        text = "\n".join(path.read_text(encoding="utf-8") for path in files)
        found += [(name, it) for it in below.split() if it in own and not re.search(r"\b%s::|\buse %s;|Rattle\.%s\." % (it, it, it), text)]
    return found


def main():
    fine = True
    for name, below in unnamed():
        print("crates.txt: no file of %s names %s" % (name, below))
        fine = False
    pages = {
        "ARCHITECTURE.md": with_table("ARCHITECTURE.md", BEGIN, crates()),
        "DEFINITIONS.md": definitions(),
        "STANDARDS.md": with_table("STANDARDS.md", RULES, rules()),
    }
    for name, text in pages.items():
        path = ROOT / "docs" / name
        if "--write" in sys.argv[1:]:
            path.write_text(text, encoding="utf-8")
        elif not path.exists() or path.read_text(encoding="utf-8") != text:
            print("docs/%s differs from what it is made of: python3 conformance/pages.py --write" % name)
            fine = False
    sys.exit(0 if fine else 1)


if __name__ == "__main__":
    main()
