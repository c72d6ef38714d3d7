#!/usr/bin/env python3
"""The style sheet of pages: makes crates/page_tables/src/style.rt from crates/page_tables/view.css.

    python3 conformance/page_style.py            writes the source
    python3 conformance/page_style.py --check    writes nothing; ends with 1 where the source isn't what it would write

The style sheet stands in the source as it is, byte by byte, as one raw text. It ends in a line feed and has at most 4,096 bytes.
"""
import os, sys

ROOT = os.path.dirname(os.path.dirname(os.path.abspath(__file__)))
FOLDER = f"{ROOT}/crates/page_tables"
HEAD = """// Made by conformance/page_style.py.

/// The style sheet of pages: view.css, which ends in a line feed.
pub const STYLE: &str ="""
MOST = 4096
WIDTH = 100


def source():
    """What the source is to hold."""
    with open(f"{FOLDER}/view.css", encoding="utf-8", newline="") as it:
        text = it.read()
    if "\r" in text or '"#' in text or "</" in text or not text.endswith("\n") or MOST < len(text.encode()):
        raise SystemExit('page_style: view.css has a CR, "#, </ or too many bytes, or ends in no line feed')
    first = text.split("\n", 1)[0]
    behind = " " if len(HEAD.split("\n")[-1]) + 4 + len(first) <= WIDTH else "\n    "
    return f'{HEAD}{behind}r#"{text}"#;\n'


def main():
    check = sys.argv[1:] == ["--check"]
    if sys.argv[1:] and not check:
        raise SystemExit(__doc__)
    path = f"{FOLDER}/src/style.rt"
    wanted = source()
    if not check:
        with open(path, "w", newline="") as it:
            it.write(wanted)
        return 0
    with open(path, newline="") as it:
        same = it.read() == wanted
    print("page_style: the style sheet is that of view.css" if same else "page_style: run python3 conformance/page_style.py")
    return 0 if same else 1


if __name__ == "__main__":
    sys.exit(main())
