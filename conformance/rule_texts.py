#!/usr/bin/env python3
"""The built-in rules: makes the sources of crates/rule_texts from the files in rules/.

    python3 conformance/rule_texts.py            writes crates/rule_texts/src/{ubl,cii,codes,version}.rt
    python3 conformance/rule_texts.py --check    writes nothing; ends with 1 where a source isn't what it would write

Each file stands in its source as it is, byte by byte, as one raw text. The version names the edition of the standard
and the first eight digits of each file's SHA-256.
"""
import hashlib, os, sys

ROOT = os.path.dirname(os.path.dirname(os.path.abspath(__file__)))
FILES = (
    ("ubl", "UBL_RULES", "en16931-ubl.sch"),
    ("cii", "CII_RULES", "en16931-cii.sch"),
    ("codes", "CODE_LISTS", "codes.toml"),
)
EDITION = "EN 16931-1:2017"
NOTE = "// Made by conformance/rule_texts.py.\n\n"
WIDTH = 100


def constant(head, text):
    """A constant of a text, laid out as rt fmt has it: the text begins on a line of its own where its first line is long."""
    first = text.split("\n", 1)[0]
    behind = " " if len(head) + 1 + len(first) <= WIDTH else "\n    "
    return f"{head}{behind}{text}\n"


def raw(text):
    if '"#' in text:
        raise SystemExit('rule_texts: a text has "#')
    return f'r#"{text}"#;'


def sources():
    """What each source is to hold."""
    sums = []
    for module, name, file in FILES:
        with open(f"{ROOT}/rules/{file}", encoding="ascii", newline="") as it:
            text = it.read()
        if "\r" in text:
            raise SystemExit(f"rule_texts: rules/{file} has a CR")
        sums.append(f"{file} {hashlib.sha256(text.encode()).hexdigest()[:8]}")
        head = f"/// The text of rules/{file}.\npub(crate) const {name}: &str ="
        comment, line = head.split("\n")
        yield module, f"{NOTE}{comment}\n{constant(line, raw(text))}"
    comment = "/// Which rules are built in: the edition of the standard, and of each file its name and the first digits of its SHA-256.\n"
    version = f'"rules of {EDITION}: {", ".join(sums)}";'
    yield "version", f"{NOTE}{comment}{constant('pub const RULES_VERSION: &str =', version)}"


def main():
    check = sys.argv[1:] == ["--check"]
    if sys.argv[1:] and not check:
        raise SystemExit(__doc__)
    differing = 0
    for module, wanted in sources():
        path = f"crates/rule_texts/src/{module}.rt"
        if check:
            with open(f"{ROOT}/{path}", newline="") as it:
                if it.read() != wanted:
                    differing += 1
                    print(f"rule_texts: {path} isn't what rules/ say; run python3 conformance/rule_texts.py")
        else:
            with open(f"{ROOT}/{path}", "w", newline="") as it:
                it.write(wanted)
    if check and not differing:
        print("rule_texts: the built-in texts are those of rules/")
    return 1 if differing else 0


if __name__ == "__main__":
    sys.exit(main())
