#!/usr/bin/env python3
"""Times `einv show`, `einv totals` and `einv convert` beside `einv outline` of the same file, over invoices that are made here.

    python3 bench/invoices.py [PROGRAM] [RUNS]

PROGRAM is crates/einv/out/einv if it isn't given, RUNS 5. Prints four tables: invoices of 100, 1,000, 10,000 and 20,000 lines in UBL and in
CII (each made from the UBL one by `einv convert`), with the times of outline, show, and convert to either syntax, and the ratios to
outline; the same invoices with the times of convert and of `convert --whole`, where nothing is lost; invoices with as many VAT breakdowns as lines, with the times of show and totals; and hostile invoices, with what einv answers. Each time is the least of the runs, in which the commands of a row take turns, in seconds
of a processor, start-up included.
"""
import pathlib
import re
import subprocess
import sys
import tempfile

import measuring

HOME = pathlib.Path(__file__).resolve().parent.parent


def compact(text):
    """Without comments, the declaration and white space between tags."""
    text = re.sub(r"<\?.*?\?>|<!--.*?-->", "", text, flags=re.S)
    return re.sub(r">\s+<", "><", text).strip()


MODEL = compact((HOME / "examples" / "invoice-ubl.xml").read_text())
FRONT, LINE = MODEL.split("<cac:InvoiceLine>")[0], MODEL.split("<cac:InvoiceLine>")[1]
BACK = "</Invoice>"


def line(number):
    return "<cac:InvoiceLine>" + LINE.replace("<cbc:ID>1</cbc:ID>", "<cbc:ID>%d</cbc:ID>" % number, 1)


def invoice(lines):
    return FRONT + "".join(line(number) for number in range(1, lines + 1)) + BACK


SUBTOTAL = re.search(r"<cac:TaxSubtotal>.*?</cac:TaxSubtotal>", FRONT, re.S)[0]


def rated(piece, number):
    """The piece with a VAT rate of its own."""
    return re.sub(r"<cbc:Percent>.*?</cbc:Percent>", "<cbc:Percent>%d.%03d</cbc:Percent>" % divmod(number, 1000), piece, count=1)


def many_breakdowns(lines):
    """An invoice of so many lines, each of a VAT category of its own, which has a breakdown."""
    breakdowns = "".join(rated(SUBTOTAL, number) for number in range(1, lines + 1))
    return FRONT.replace(SUBTOTAL, breakdowns, 1) + "".join(rated(line(number), number) for number in range(1, lines + 1)) + BACK


def behind(mark, piece):
    """The model with the piece behind the first place of the mark."""
    front, back = MODEL.split(mark, 1)
    return front + mark + piece + back


CHARGE = (
    "<cac:AllowanceCharge><cbc:ChargeIndicator>true</cbc:ChargeIndicator>"
    '<cbc:Amount currencyID="EUR">1</cbc:Amount></cac:AllowanceCharge>'
)
MEANS = "<ram:SpecifiedTradeSettlementPaymentMeans><ram:TypeCode>30</ram:TypeCode></ram:SpecifiedTradeSettlementPaymentMeans>"


def many_means(number, remittance):
    """An invoice in CII with so many payment means and a remittance text of so many bytes, which UBL shows at each of them."""
    settlement = "<ram:ApplicableHeaderTradeSettlement>"
    front, back = compact((HOME / "examples" / "invoice-cii.xml").read_text()).split(settlement, 1)
    currency = re.search(r"<ram:InvoiceCurrencyCode>.*?</ram:InvoiceCurrencyCode>", back)[0]
    reference = "<ram:PaymentReference>%s</ram:PaymentReference>" % ("remit " * (remittance // 6)).strip()
    return front + settlement + reference + back.replace(currency, currency + MEANS * number, 1)


HOSTILE = {
    "970,000 unknown children of the root": lambda: behind("<cbc:BuyerReference>Office 4</cbc:BuyerReference>", "<u/>" * 970_000),
    "100,000 picks of one term": lambda: behind("<cbc:BuyerReference>Office 4</cbc:BuyerReference>", "<cbc:BuyerReference>x</cbc:BuyerReference>" * 100_000),
    "120,000 charges inside one line": lambda: behind('<cbc:LineExtensionAmount currencyID="EUR">180.00</cbc:LineExtensionAmount>', CHARGE * 120_000),
    "120,000 notes": lambda: behind("<cbc:InvoiceTypeCode>380</cbc:InvoiceTypeCode>", "<cbc:Note>a note</cbc:Note>" * 120_000),
    "150,000 notes": lambda: behind("<cbc:InvoiceTypeCode>380</cbc:InvoiceTypeCode>", "<cbc:Note>a note, longer</cbc:Note>" * 150_000),
    "a note of 8 MB": lambda: behind("<cbc:Note>", "a note " * 1_150_000),
    "20,000 payment means beside a remittance text of 500 KB": lambda: many_means(20_000, 500_000),
    "200,000 parties": lambda: behind("</cac:AccountingCustomerParty>", "<cac:AccountingCustomerParty><cac:Party/></cac:AccountingCustomerParty>" * 200_000),
}


def main():
    program = sys.argv[1] if len(sys.argv) > 1 else str(HOME / "crates/einv/out/einv")
    runs = int(sys.argv[2]) if len(sys.argv) > 2 else 5
    with tempfile.TemporaryDirectory() as folder:
        path = pathlib.Path(folder) / "invoice.xml"
        print("| Invoice | lines | MB | outline | show | convert to ubl | convert to cii | show / outline | to ubl / show | to cii / show |")
        print("|---|---|---|---|---|---|---|---|---|---|")
        for syntax in ("UBL", "CII"):
            for lines in (100, 1_000, 10_000, 20_000):
                path.write_text(invoice(lines))
                if syntax == "CII":
                    other = subprocess.run([program, "convert", "--to", "cii", str(path)], stdout=subprocess.PIPE, check=False).stdout
                    if not other:
                        print("| CII | %d | the invoice isn't converted within the limits |" % lines)
                        continue
                    path.write_bytes(other)
                commands = (["outline"], ["show"], ["convert", "--to", "ubl"], ["convert", "--to", "cii"])
                taken = measuring.in_turns([[program, *words, str(path)] for words in commands], runs)
                for words, (_, _, said) in zip(commands, taken):
                    if said:
                        print("%s %d %s: %s" % (syntax, lines, " ".join(words), said.replace(str(path), "FILE")), file=sys.stderr)
                times = [seconds for seconds, _, _ in taken]
                outline, show, ubl, cii = times
                figures = " | ".join("%.3f" % seconds for seconds in times)
                ratios = " | ".join("%.2f" % ratio for ratio in (show / outline, ubl / show, cii / show))
                print("| %s | %d | %.2f | %s | %s |" % (syntax, lines, path.stat().st_size / 1e6, figures, ratios))
        print("\n| UBL, lines | MB | convert --to cii | convert --whole --to cii | whole / convert |")
        print("|---|---|---|---|---|")
        for lines in (1_000, 10_000, 20_000):
            path.write_text(invoice(lines))
            commands = (["convert", "--to", "cii"], ["convert", "--whole", "--to", "cii"])
            (plain, _, said), (whole, _, told) = measuring.in_turns([[program, *words, str(path)] for words in commands], runs)
            if said or told:
                print("%d lines: %s" % (lines, (said + told).replace(str(path), "FILE")), file=sys.stderr)
            print("| %d | %.2f | %.3f | %.3f | %.2f |" % (lines, path.stat().st_size / 1e6, plain, whole, whole / plain))
        print("\n| Lines and breakdowns | MB | show | totals | totals / show |")
        print("|---|---|---|---|---|")
        for lines in (1_000, 10_000, 20_000):
            path.write_text(many_breakdowns(lines))
            (show, _, said), (totals, _, told) = measuring.in_turns([[program, word, str(path)] for word in ("show", "totals")], runs)
            if said or told:
                print("%d breakdowns: %s %s" % (lines, said, told), file=sys.stderr)
            print("| %d | %.2f | %.3f | %.3f | %.2f |" % (lines, path.stat().st_size / 1e6, show, totals, totals / show))
        print("\n| Hostile invoice | MB | outline | show | answer of show |")
        print("|---|---|---|---|---|")
        for name, make in HOSTILE.items():
            path.write_text(make())
            (outline, _, _), (show, _, said) = measuring.in_turns([[program, word, str(path)] for word in ("outline", "show")], 1)
            answer = said.replace(str(path) + ": ", "") or "Done"
            print("| %s | %.1f | %.3f | %.3f | %s |" % (name, path.stat().st_size / 1e6, outline, show, answer))


if __name__ == "__main__":
    main()
