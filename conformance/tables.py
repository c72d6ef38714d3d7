#!/usr/bin/env python3
"""Compares the tables of docs/BINDINGS.md with those that the code lists (crates/ubl_binding, crates/cii_binding).

    python3 conformance/tables.py            says where they differ, status 1 if they do
    python3 conformance/tables.py --write    writes the document's tables anew
    python3 conformance/tables.py --rows     prints the code's rows, one a line

The code's tables are read as text: the listings in `table_items!`, the abbreviations that are macros of their own, and the conditions.
"""
import pathlib
import re
import sys

HOME = pathlib.Path(__file__).resolve().parent.parent
DOCUMENT = HOME / "docs" / "BINDINGS.md"
TABLES = [
    ("UBL invoice", "ubl_binding", "tables.rt", "invoice"),
    ("UBL credit note", "ubl_binding", "tables.rt", "credit_note"),
    ("CII", "cii_binding", "table.rt", "cii"),
]
PREFIXES = {
    "UblInvoice": "ubl", "UblCreditNote": "cn", "UblAggregate": "cac", "UblBasic": "cbc",
    "CiiInvoice": "rsm", "CiiAggregate": "ram", "CiiUnqualified": "udt", "CiiQualified": "qdt",
}
GROUPS = {
    "InvoiceNote": "BG-1", "PrecedingInvoice": "BG-3", "SellerIdentifier": "P-29", "SellerSchemedIdentifier": "P-29S",
    "CreditTransfer": "BG-17", "DocumentAllowance": "BG-20", "DocumentCharge": "BG-21", "VatBreakdown": "BG-23",
    "SupportingDocument": "BG-24", "InvoiceLine": "BG-25", "LineAllowance": "BG-27", "LineCharge": "BG-28",
    "ItemClassification": "P-158", "ItemAttribute": "BG-32",
}
TOKEN = re.compile(r'"[^"]*"|[A-Za-z_]\w*|\d+|\S')


def tokens(text):
    return TOKEN.findall(re.sub(r"//[^\n]*", "", text))


def closing(words, at):
    """The place of the bracket that closes the one at a place."""
    pairs = {"{": "}", "(": ")", "[": "]"}
    depth = 0
    for k in range(at, len(words)):
        if words[k] in pairs:
            depth += 1
        elif words[k] in pairs.values():
            depth -= 1
            if depth == 0:
                return k
    raise SystemExit("a bracket isn't closed")


class Source:
    """What a crate lists: its conditions, abbreviations, sections and makers."""

    def __init__(self, crate, file):
        folder = HOME / "crates" / crate / "src"
        conditions = (folder / "conditions.rt").read_text()
        listing = (folder / file).read_text()
        self.conditions = dict(self.read_conditions(conditions))
        self.abbreviations = dict(self.read_abbreviations(listing))
        self.sections = {}
        for name, spaces, body in re.findall(
            r"const (\w+): &\[TableItem\] = table_items!\(\{(\w+ \w+)\}(.*?)\n\);", listing, re.S
        ):
            self.sections[name] = (spaces.split(), tokens(body))
        self.makers = {}
        for name, body in re.findall(r"pub fn (\w+)\(alloc.*?\n\{(.*?)\n\}", listing, re.S):
            self.makers[name] = re.findall(r"\b[A-Z_]{3,}\b", body)

    @staticmethod
    def read_conditions(text):
        paths = {"scheme!": "ID/@schemeID"}
        for name, body in re.findall(r"const (\w+): &\[Tag\] = &\[(.*?)\];", text, re.S):
            paths[name] = "/".join(re.findall(r'local: "(\w+)"', body))
        for name, macro, body in re.findall(r"const (\w+): Condition =\s*(\w+!)\((.*?)\);", text, re.S):
            place = paths[macro] if macro in paths else paths[body.split(",")[0].strip()]
            words = " or ".join(re.findall(r'"([^"]*)"', body))
            if "Absent" in body or "Present" in body:
                yield name, "[%s %s]" % (place, "absent" if "Absent" in body else "present")
            else:
                yield name, "[%s %s %s]" % (place, "not" if "NoneOf" in body else "=", words)

    @staticmethod
    def read_abbreviations(text):
        for name, body in re.findall(r"macro_rules! (\w+) \{(.*?)\n\}", text, re.S):
            words = tokens(body)
            start = words.index("(", words.index("done") + 1)
            start = words.index("(", start)
            end = closing(words, start)
            variables = [words[k + 1] for k in range(start, end) if words[k] == "$"]
            inside = words[words.index("done", end) + 1:]
            stop = next(k for k in range(len(inside)) if inside[k:k + 3] == ["$", "(", "$"])
            yield name, (variables, inside[:stop])

    def items(self, maker):
        for name in self.makers[maker]:
            spaces, words = self.sections[name]
            yield from self.listed(spaces, words)

    def listed(self, spaces, words):
        """The items of a listing: ("open", name, always, group, conditions), ("value", attribute, cell), ("close",)."""
        at = 0
        while at < len(words):
            if words[at] == "end":
                yield ("close",)
                at += 2
                continue
            if words[at + 1] == "!":
                end = closing(words, at + 2)
                variables, body = self.abbreviations[words[at]]
                values = dict(zip(variables, words[at + 3:end]))
                yield from self.listed(spaces, self.substituted(body, values))
                at = end + 2
                continue
            begins = words[at] == "begin"
            at += begins
            always = words[at] == "+"
            at += always
            space = None
            if words[at + 1] == ":":
                space = words[at]
                at += 2
            name = words[at]
            at += 1
            group, conditions = None, []
            while words[at] in ("for", "if"):
                if words[at] == "for":
                    group = GROUPS[words[at + 1]]
                else:
                    conditions.append(self.conditions[words[at + 1]])
                at += 2
            leaf = words[at] == "="
            prefix = PREFIXES[space or spaces[leaf]]
            yield ("open", prefix + ":" + name, always, group, "".join(conditions))
            if leaf:
                end = words.index(";", at)
                for part in self.split(words[at + 1:end]):
                    if part[0] == "@":
                        yield ("value", part[1], part[3:])
                    else:
                        yield ("value", None, part)
                yield ("close",)
                at = end + 1
            elif words[at] == "{":
                end = closing(words, at)
                yield from self.listed(spaces, words[at + 1:end])
                yield ("close",)
                at = end + 1
            else:
                at += 1

    @staticmethod
    def substituted(body, values):
        out, at = [], 0
        while at < len(body):
            if body[at] == "$":
                out.append(values[body[at + 1]])
                at += 2
            else:
                out.append(body[at])
                at += 1
        return out

    @staticmethod
    def split(words):
        parts, depth = [[]], 0
        for word in words:
            depth += (word == "(") - (word == ")")
            if word == "," and depth == 0:
                parts.append([])
            else:
                parts[-1].append(word)
        return parts


NOTES = {
    "Bt": "", "Part": "", "Constant": "", "Indicator": "",
    "PlainDate": "YYYYMMDD", "SpreadPlainDate": "YYYYMMDD, in each of them", "Spread": "in each of them",
    "SpreadDueDateTypeCode": "as 5, 29 or 72, in each of them",
    "Agreeing": "may be repeated", "AgreeingUnwritten": "may be repeated; read, not written",
    "CodedNote": "`#BT-21#BT-22`, or BT-22 alone", "Filled": "`NA` where only BT-14 stands",
    "Iban": "an IBAN", "OtherAccount": "any other account", "Unschemed": "without a scheme", "Schemed": "with a scheme",
    "AlwaysSchemed": "", "VatTotal": "in the currency of the invoice (BT-5)",
    "AccountingVatTotal": "in the accounting currency (BT-6)",
}


def rows(source, maker):
    """The rows: elements as (name, number, always, group, conditions), attribute, cell."""
    out, path, number = [], [], 0
    for item in source.items(maker):
        if item[0] == "open":
            number += 1
            path = path + [(item[1], number) + item[2:]]
        elif item[0] == "close":
            path = path[:-1]
        else:
            out.append((path, item[1], item[2]))
    if path:
        raise SystemExit("%s: an element doesn't end" % maker)
    return out


def label(cell):
    kind = cell[0]
    if kind in ("Constant", "Indicator"):
        return None
    return "BT-%s" % cell[2] + ("-%s" % cell[4] if kind == "Part" else "")


def place(path, attribute):
    steps = [name.split(":")[1] + conditions for name, _, _, _, conditions in path[1:]]
    if steps[0] == "SupplyChainTradeTransaction":
        steps = steps[1:]
    return "/".join(steps + (["@" + attribute] if attribute else []))


def places(found):
    """By term, its places with their notes; by group, the element of an occurrence; the constants."""
    terms, groups, constants = {}, {}, []
    for path, attribute, cell in found:
        term = label(cell)
        note = NOTES[cell[0]]
        if term is None:
            constants.append((place(path, attribute), cell[2].strip('"')))
        else:
            text = "`%s`" % place(path, attribute) + (" (%s)" % note if note else "")
            terms.setdefault(term, []).append(text)
            if cell[0] == "CodedNote":
                terms.setdefault("BT-21", []).append(text)
        for k, step in enumerate(path):
            if step[3]:
                groups[step[3]] = "`%s`" % place(path[:k + 1], None)
    return terms, groups, constants


def by_term(document, tables):
    numbers = []
    for number in re.findall(r"^\| ((?:BT)-[\d-]+) \|", document.split("## Groups")[0], re.M):
        if number not in numbers:
            numbers.append(number)
    unknown = {t for terms, _, _ in tables for t in terms} - set(numbers)
    if unknown:
        raise SystemExit("terms that the document doesn't have: %s" % sorted(unknown))
    yield "| Term | UBL invoice | UBL credit note | CII |"
    yield "|---|---|---|---|"
    for number in numbers:
        cells = ["<br>".join(terms.get(number, ["-"])) for terms, _, _ in tables]
        if cells[1] == cells[0]:
            cells[1] = "the same"
        yield "| %s | %s |" % (number, " | ".join(cells))


def by_group(document, tables):
    yield "| Group | UBL invoice | UBL credit note | CII |"
    yield "|---|---|---|---|"
    for group in GROUPS.values():
        cells = [groups.get(group, "-") for _, groups, _ in tables]
        if cells[1] == cells[0]:
            cells[1] = "the same"
        yield "| %s | %s |" % (group, " | ".join(cells))


def by_constant(document, tables):
    yield "| Syntax | Place | Text |"
    yield "|---|---|---|"
    shared = [c for c in tables[0][2] if c in tables[1][2]]
    lists = [("UBL", shared)] + [
        (TABLES[k][0], [c for c in tables[k][2] if k == 2 or c not in shared]) for k in range(3)
    ]
    for syntax, constants in lists:
        for where, text in constants:
            yield "| %s | `%s` | `%s` |" % (syntax, where, text)


PARTS = [("terms", by_term), ("groups", by_group), ("constants", by_constant)]


def main():
    sources = {crate: Source(crate, file) for _, crate, file, _ in TABLES}
    found = [rows(sources[crate], maker) for _, crate, _, maker in TABLES]
    if "--rows" in sys.argv:
        for (name, _, _, _), table in zip(TABLES, found):
            for path, attribute, cell in table:
                print(name, path, attribute, " ".join(cell))
        return 0
    document = DOCUMENT.read_text()
    tables = [places(table) for table in found]
    status = 0
    for name, part in PARTS:
        begin, end = "<!-- table: %s -->\n" % name, "<!-- end -->\n"
        front, rest = document.split(begin)
        old, back = rest.split(end, 1)
        new = "\n" + "\n".join(part(document, tables)) + "\n\n"
        if "--write" in sys.argv:
            document = front + begin + new + end + back
        elif old != new:
            status = 1
            old_lines, new_lines = old.split("\n"), new.split("\n")
            for line in [l for l in old_lines if l not in new_lines]:
                print("the document alone: " + line)
            for line in [l for l in new_lines if l not in old_lines]:
                print("the code alone: " + line)
            if sorted(old_lines) == sorted(new_lines):
                print("the lines of the table of %s stand in another order" % name)
    if "--write" in sys.argv:
        DOCUMENT.write_text(document)
    elif status == 0:
        print("%d rows of %d tables agree with the document" % (sum(len(t) for t in found), len(found)))
    return status


if __name__ == "__main__":
    sys.exit(main())
