#!/usr/bin/env python3
"""Tries en16931-ubl.sch and en16931-cii.sch: of each rule an invoice that meets it, and the same one changed in one
place.

    python3 rules/cases.py PROGRAM                the cases, judged by `PROGRAM check --rules FILE DOCUMENT`
                                                  and `PROGRAM totals DOCUMENT`
    python3 rules/cases.py --saxon                the same, judged by Saxon-HE (libsaxonhe-java)
    python3 rules/cases.py .. --random N [SEED]   N invoices made at random instead
    python3 rules/cases.py .. --keep FOLDER       the documents stay in FOLDER
    python3 rules/cases.py --same                 only whether the two files say the same, and README.md all of it

Each invoice is written as a UBL invoice, as a UBL credit note and in CII. A case passes where in each of them exactly
the identifiers are found that are due, as often as they are due. Of an invoice at random it isn't known what is due: in
all three the same identifiers have to be found, with the same messages, and in one that wasn't spoilt none. Ends with 1
where anything differs.
"""
import collections
import copy
import decimal
import pathlib
import random
import re
import shutil
import subprocess
import sys
import tempfile
import xml.etree.ElementTree as tree
from xml.sax.saxutils import escape, quoteattr

HERE = pathlib.Path(__file__).resolve().parent
RULES = {"ubl": HERE / "en16931-ubl.sch", "cii": HERE / "en16931-cii.sch"}
EXAMPLES = {
    "ubl": ("invoice-ubl.xml", "invoice-cii-in-ubl.xml", "credit-note-ubl.xml", "credit-note-cii-in-ubl.xml"),
    "cii": ("invoice-cii.xml", "invoice-ubl-in-cii.xml", "credit-note-cii.xml", "credit-note-ubl-in-cii.xml"),
}
SAXON = "/usr/share/java/Saxon-HE.jar"
SCHEMATRON = "{http://purl.oclc.org/dsdl/schematron}"


# ---- Invoices: a dictionary of terms, and of lists of such dictionaries for groups that may be repeated


def line(number, quantity, price, amount, category="S", rate="19"):
    terms = {"BT-126": number, "BT-129": quantity, "BT-130": "C62", "BT-131": amount, "BT-146": price}
    return terms | {"BT-151": category, "BT-153": "Item " + number} | ({} if rate is None else {"BT-152": rate})


def allowance(amount="10.00", category="S", rate="19"):
    return {"BT-92": amount, "BT-95": category, "BT-97": "Loyalty"} | ({} if rate is None else {"BT-96": rate})


def charge(amount="20.00", category="S", rate="19"):
    return {"BT-99": amount, "BT-102": category, "BT-104": "Freight"} | ({} if rate is None else {"BT-103": rate})


BASE = {
    "BT-1": "2026-0117",
    "BT-2": "2026-03-02",
    "BT-3": "380",
    "BT-5": "EUR",
    "BT-9": "2026-04-01",
    "BT-24": "urn:cen.eu:en16931:2017",
    "BT-27": "Atelier Nord GmbH",
    "BT-30": "HRB 4711",
    "BT-31": "DE123456789",
    "BT-34": "billing@atelier.example",
    "BT-34-1": "EM",
    "BT-35": "Lindenstraße 9",
    "BT-37": "Köln",
    "BT-40": "DE",
    "BT-44": "Papiers du Rhône",
    "BT-49": "0010",
    "BT-49-1": "0088",
    "BT-52": "Lyon",
    "BT-55": "FR",
    "BT-81": "58",
    "BG-17": [{"BT-84": "DE02120300000000202051", "BT-85": "Atelier"}],
    "BG-25": [line("1", "2", "90.00", "180.00"), line("2", "1", "50.00", "50.00")],
}
TAXED = "S", "L", "M"
REASONS = {"E": "Exempt", "AE": "Reverse charge", "K": "Intra-community supply", "G": "Export", "O": "Not subject"}


def edited(invoice, edits):
    """The invoice with other values at these places, such as BG-25/1/BT-131; None takes the place away."""
    invoice = copy.deepcopy(invoice)
    for place, value in edits.items():
        *outer, last = place.split("/")
        at = invoice
        for step in outer:
            at = at[int(step) - 1] if step.isdigit() else at[step]
        if isinstance(at, list):
            at[int(last) - 1 : int(last)] = [] if value is None else [copy.deepcopy(value)]
        elif value is None:
            at.pop(last, None)
        else:
            at[last] = copy.deepcopy(value)
    return invoice


def money(number):
    return str(number.quantize(decimal.Decimal("0.01"), decimal.ROUND_HALF_UP))


def totalled(invoice):
    """The invoice with its totals and VAT breakdowns; rates of one value share one."""
    number = decimal.Decimal
    shares, sums = {}, {"BT-106": number()}
    for sign, total, group, amount, category, rate in (
        (1, "BT-106", "BG-25", "BT-131", "BT-151", "BT-152"),
        (-1, "BT-107", "BG-20", "BT-92", "BT-95", "BT-96"),
        (1, "BT-108", "BG-21", "BT-99", "BT-102", "BT-103"),
    ):
        for one in invoice.get(group, []):
            sums[total] = sums.get(total, 0) + number(one[amount])
            key = one[category], number(one[rate]) if rate in one else None
            base, written = shares.get(key, (0, one.get(rate)))
            shares[key] = base + sign * number(one[amount]), written
    net = sums["BT-106"] - sums.get("BT-107", 0) + sums.get("BT-108", 0)
    taxes = {key: number(money(base * (key[1] or 0) / 100)) for key, (base, _) in shares.items()}
    breakdowns = []
    for key, (base, rate) in shares.items():
        one = {"BT-116": money(base), "BT-117": money(taxes[key]), "BT-118": key[0]}
        one |= {"BT-119": rate, "BT-120": REASONS.get(key[0])}
        breakdowns.append({term: value for term, value in one.items() if value is not None})
    tax = sum(taxes.values(), number())
    left = net + tax - number(invoice.get("BT-113", 0)) + number(invoice.get("BT-114", 0))
    totals = {"BT-109": net, "BT-110": tax, "BT-112": net + tax, "BT-115": left} | sums
    return edited(invoice, {term: money(value) for term, value in totals.items()} | {"BG-23": breakdowns})


# ---- Writing: where each term stands. An element is written where a value stands in it. `*` has an element for each
# occurrence of a group, `?` one also where there is none, and `!` always. A word in quotes is written beside values.

UBL = """
cbc:CustomizationID BT-24
cbc:ID BT-1
cbc:IssueDate BT-2
cbc:DueDate BT-9
cbc:InvoiceTypeCode BT-3
cbc:TaxPointDate BT-7
cbc:DocumentCurrencyCode BT-5
cbc:TaxCurrencyCode BT-6
cac:InvoicePeriod
  cbc:StartDate BT-73
  cbc:EndDate BT-74
  cbc:DescriptionCode BT-8
cac:BillingReference *BG-3
  cac:InvoiceDocumentReference
    cbc:ID BT-25
    cbc:IssueDate BT-26
cac:AdditionalDocumentReference *BG-24
  cbc:ID BT-122
  cbc:DocumentDescription BT-123
  cac:Attachment
    cbc:EmbeddedDocumentBinaryObject BT-125 @mimeCode BT-125-1
cac:AccountingSupplierParty
  cac:Party
    cbc:EndpointID BT-34 @schemeID BT-34-1
    cac:PartyIdentification
      cbc:ID BT-29
    cac:PartyIdentification
      cbc:ID BT-90 @schemeID 'SEPA'
    cac:PostalAddress
      cbc:StreetName BT-35
      cbc:CityName BT-37
      cac:Country
        cbc:IdentificationCode BT-40
    cac:PartyTaxScheme
      cbc:CompanyID BT-31
      cac:TaxScheme
        cbc:ID 'VAT'
    cac:PartyTaxScheme
      cbc:CompanyID BT-32
      cac:TaxScheme
        cbc:ID 'TAX'
    cac:PartyLegalEntity
      cbc:RegistrationName BT-27
      cbc:CompanyID BT-30
cac:AccountingCustomerParty
  cac:Party
    cbc:EndpointID BT-49 @schemeID BT-49-1
    cac:PostalAddress
      cbc:CityName BT-52
      cac:Country
        cbc:IdentificationCode BT-55
    cac:PartyTaxScheme
      cbc:CompanyID BT-48
      cac:TaxScheme
        cbc:ID 'VAT'
    cac:PartyLegalEntity
      cbc:RegistrationName BT-44
      cbc:CompanyID BT-47
cac:PayeeParty
  cac:PartyIdentification
    cbc:ID BT-60
  cac:PartyName
    cbc:Name BT-59
  cac:PartyLegalEntity
    cbc:CompanyID BT-61
cac:TaxRepresentativeParty
  cac:PartyName
    cbc:Name BT-62
  cac:PostalAddress
    cbc:CityName BT-66
    cac:Country
      cbc:IdentificationCode BT-69
  cac:PartyTaxScheme
    cbc:CompanyID BT-63
    cac:TaxScheme
      cbc:ID 'VAT'
cac:Delivery
  cbc:ActualDeliveryDate BT-72
  cac:DeliveryLocation
    cac:Address
      cbc:CityName BT-77
      cac:Country
        cbc:IdentificationCode BT-80
cac:PaymentMeans ?BG-17
  cbc:PaymentMeansCode BT-81
  cbc:PaymentDueDate BT-9
  cac:CardAccount
    cbc:PrimaryAccountNumberID BT-87
    cbc:NetworkID 'NA'
    cbc:HolderName BT-88
  cac:PayeeFinancialAccount
    cbc:ID BT-84
    cbc:Name BT-85
cac:PaymentTerms
  cbc:Note BT-20
cac:AllowanceCharge *BG-20
  cbc:ChargeIndicator 'false'
  cbc:AllowanceChargeReasonCode BT-98
  cbc:AllowanceChargeReason BT-97
  cbc:MultiplierFactorNumeric BT-94
  cbc:Amount BT-92 @currencyID 'EUR'
  cbc:BaseAmount BT-93 @currencyID 'EUR'
  cac:TaxCategory
    cbc:ID BT-95
    cbc:Percent BT-96
    cac:TaxScheme
      cbc:ID 'VAT'
cac:AllowanceCharge *BG-21
  cbc:ChargeIndicator 'true'
  cbc:AllowanceChargeReasonCode BT-105
  cbc:AllowanceChargeReason BT-104
  cbc:MultiplierFactorNumeric BT-101
  cbc:Amount BT-99 @currencyID 'EUR'
  cbc:BaseAmount BT-100 @currencyID 'EUR'
  cac:TaxCategory
    cbc:ID BT-102
    cbc:Percent BT-103
    cac:TaxScheme
      cbc:ID 'VAT'
cac:TaxTotal
  cbc:TaxAmount BT-110 @currencyID 'EUR'
  cac:TaxSubtotal *BG-23
    cbc:TaxableAmount BT-116 @currencyID 'EUR'
    cbc:TaxAmount BT-117 @currencyID 'EUR'
    cac:TaxCategory
      cbc:ID BT-118
      cbc:Percent BT-119
      cbc:TaxExemptionReasonCode BT-121
      cbc:TaxExemptionReason BT-120
      cac:TaxScheme
        cbc:ID 'VAT'
cac:TaxTotal
  cbc:TaxAmount BT-111 @currencyID 'SEK'
cac:LegalMonetaryTotal
  cbc:LineExtensionAmount BT-106 @currencyID 'EUR'
  cbc:TaxExclusiveAmount BT-109 @currencyID 'EUR'
  cbc:TaxInclusiveAmount BT-112 @currencyID 'EUR'
  cbc:AllowanceTotalAmount BT-107 @currencyID 'EUR'
  cbc:ChargeTotalAmount BT-108 @currencyID 'EUR'
  cbc:PrepaidAmount BT-113 @currencyID 'EUR'
  cbc:PayableRoundingAmount BT-114 @currencyID 'EUR'
  cbc:PayableAmount BT-115 @currencyID 'EUR'
cac:InvoiceLine *BG-25
  cbc:ID BT-126
  cbc:InvoicedQuantity BT-129 @unitCode BT-130
  cbc:LineExtensionAmount BT-131 @currencyID 'EUR'
  cac:InvoicePeriod
    cbc:StartDate BT-134
    cbc:EndDate BT-135
  cac:AllowanceCharge *BG-27
    cbc:ChargeIndicator 'false'
    cbc:AllowanceChargeReasonCode BT-140
    cbc:AllowanceChargeReason BT-139
    cbc:MultiplierFactorNumeric BT-138
    cbc:Amount BT-136 @currencyID 'EUR'
    cbc:BaseAmount BT-137 @currencyID 'EUR'
  cac:AllowanceCharge *BG-28
    cbc:ChargeIndicator 'true'
    cbc:AllowanceChargeReasonCode BT-145
    cbc:AllowanceChargeReason BT-144
    cbc:MultiplierFactorNumeric BT-143
    cbc:Amount BT-141 @currencyID 'EUR'
    cbc:BaseAmount BT-142 @currencyID 'EUR'
  cac:Item
    cbc:Name BT-153
    cac:StandardItemIdentification
      cbc:ID BT-157 @schemeID BT-157-1
    cac:OriginCountry
      cbc:IdentificationCode BT-159
    cac:CommodityClassification *P-158
      cbc:ItemClassificationCode BT-158 @listID BT-158-1
    cac:ClassifiedTaxCategory
      cbc:ID BT-151
      cbc:Percent BT-152
      cac:TaxScheme
        cbc:ID 'VAT'
    cac:AdditionalItemProperty *BG-32
      cbc:Name BT-160
      cbc:Value BT-161
  cac:Price
    cbc:PriceAmount BT-146 @currencyID 'EUR'
    cac:AllowanceCharge
      cbc:ChargeIndicator 'false'
      cbc:Amount BT-147 @currencyID 'EUR'
      cbc:BaseAmount BT-148 @currencyID 'EUR'
"""
CII = """
rsm:ExchangedDocumentContext
  ram:GuidelineSpecifiedDocumentContextParameter
    ram:ID BT-24
rsm:ExchangedDocument
  ram:ID BT-1
  ram:TypeCode BT-3
  ram:IssueDateTime
    udt:DateTimeString BT-2 @format '102'
rsm:SupplyChainTradeTransaction
  ram:IncludedSupplyChainTradeLineItem *BG-25
    ram:AssociatedDocumentLineDocument
      ram:LineID BT-126
    ram:SpecifiedTradeProduct
      ram:GlobalID BT-157 @schemeID BT-157-1
      ram:Name BT-153
      ram:ApplicableProductCharacteristic *BG-32
        ram:Description BT-160
        ram:Value BT-161
      ram:DesignatedProductClassification *P-158
        ram:ClassCode BT-158 @listID BT-158-1
      ram:OriginTradeCountry
        ram:ID BT-159
    ram:SpecifiedLineTradeAgreement
      ram:GrossPriceProductTradePrice
        ram:ChargeAmount BT-148
        ram:AppliedTradeAllowanceCharge
          ram:ChargeIndicator
            udt:Indicator 'false'
          ram:ActualAmount BT-147
      ram:NetPriceProductTradePrice
        ram:ChargeAmount BT-146
    ram:SpecifiedLineTradeDelivery
      ram:BilledQuantity BT-129 @unitCode BT-130
    ram:SpecifiedLineTradeSettlement
      ram:ApplicableTradeTax
        ram:TypeCode 'VAT'
        ram:CategoryCode BT-151
        ram:RateApplicablePercent BT-152
      ram:BillingSpecifiedPeriod
        ram:StartDateTime
          udt:DateTimeString BT-134 @format '102'
        ram:EndDateTime
          udt:DateTimeString BT-135 @format '102'
      ram:SpecifiedTradeAllowanceCharge *BG-27
        ram:ChargeIndicator
          udt:Indicator 'false'
        ram:CalculationPercent BT-138
        ram:BasisAmount BT-137
        ram:ActualAmount BT-136
        ram:ReasonCode BT-140
        ram:Reason BT-139
      ram:SpecifiedTradeAllowanceCharge *BG-28
        ram:ChargeIndicator
          udt:Indicator 'true'
        ram:CalculationPercent BT-143
        ram:BasisAmount BT-142
        ram:ActualAmount BT-141
        ram:ReasonCode BT-145
        ram:Reason BT-144
      ram:SpecifiedTradeSettlementLineMonetarySummation
        ram:LineTotalAmount BT-131
  ram:ApplicableHeaderTradeAgreement
    ram:SellerTradeParty
      ram:ID BT-29
      ram:Name BT-27
      ram:SpecifiedLegalOrganization
        ram:ID BT-30
      ram:PostalTradeAddress
        ram:LineOne BT-35
        ram:CityName BT-37
        ram:CountryID BT-40
      ram:URIUniversalCommunication
        ram:URIID BT-34 @schemeID BT-34-1
      ram:SpecifiedTaxRegistration
        ram:ID BT-31 @schemeID 'VA'
      ram:SpecifiedTaxRegistration
        ram:ID BT-32 @schemeID 'FC'
    ram:BuyerTradeParty
      ram:Name BT-44
      ram:SpecifiedLegalOrganization
        ram:ID BT-47
      ram:PostalTradeAddress
        ram:CityName BT-52
        ram:CountryID BT-55
      ram:URIUniversalCommunication
        ram:URIID BT-49 @schemeID BT-49-1
      ram:SpecifiedTaxRegistration
        ram:ID BT-48 @schemeID 'VA'
    ram:SellerTaxRepresentativeTradeParty
      ram:Name BT-62
      ram:PostalTradeAddress
        ram:CityName BT-66
        ram:CountryID BT-69
      ram:SpecifiedTaxRegistration
        ram:ID BT-63 @schemeID 'VA'
    ram:AdditionalReferencedDocument *BG-24
      ram:IssuerAssignedID BT-122
      ram:TypeCode '916'
      ram:Name BT-123
      ram:AttachmentBinaryObject BT-125 @mimeCode BT-125-1
  ram:ApplicableHeaderTradeDelivery !
    ram:ShipToTradeParty
      ram:PostalTradeAddress
        ram:CityName BT-77
        ram:CountryID BT-80
    ram:ActualDeliverySupplyChainEvent
      ram:OccurrenceDateTime
        udt:DateTimeString BT-72 @format '102'
  ram:ApplicableHeaderTradeSettlement
    ram:CreditorReferenceID BT-90
    ram:TaxCurrencyCode BT-6
    ram:InvoiceCurrencyCode BT-5
    ram:PayeeTradeParty
      ram:ID BT-60
      ram:Name BT-59
      ram:SpecifiedLegalOrganization
        ram:ID BT-61
    ram:SpecifiedTradeSettlementPaymentMeans ?BG-17
      ram:TypeCode BT-81
      ram:ApplicableTradeSettlementFinancialCard
        ram:ID BT-87
        ram:CardholderName BT-88
      ram:PayeePartyCreditorFinancialAccount
        ram:IBANID BT-84
        ram:AccountName BT-85
    ram:ApplicableTradeTax *BG-23
      ram:CalculatedAmount BT-117
      ram:TypeCode 'VAT'
      ram:ExemptionReason BT-120
      ram:BasisAmount BT-116
      ram:CategoryCode BT-118
      ram:ExemptionReasonCode BT-121
      ram:TaxPointDate
        udt:DateString BT-7 @format '102'
      ram:DueDateTypeCode BT-8
      ram:RateApplicablePercent BT-119
    ram:BillingSpecifiedPeriod
      ram:StartDateTime
        udt:DateTimeString BT-73 @format '102'
      ram:EndDateTime
        udt:DateTimeString BT-74 @format '102'
    ram:SpecifiedTradeAllowanceCharge *BG-20
      ram:ChargeIndicator
        udt:Indicator 'false'
      ram:CalculationPercent BT-94
      ram:BasisAmount BT-93
      ram:ActualAmount BT-92
      ram:ReasonCode BT-98
      ram:Reason BT-97
      ram:CategoryTradeTax
        ram:TypeCode 'VAT'
        ram:CategoryCode BT-95
        ram:RateApplicablePercent BT-96
    ram:SpecifiedTradeAllowanceCharge *BG-21
      ram:ChargeIndicator
        udt:Indicator 'true'
      ram:CalculationPercent BT-101
      ram:BasisAmount BT-100
      ram:ActualAmount BT-99
      ram:ReasonCode BT-105
      ram:Reason BT-104
      ram:CategoryTradeTax
        ram:TypeCode 'VAT'
        ram:CategoryCode BT-102
        ram:RateApplicablePercent BT-103
    ram:SpecifiedTradePaymentTerms
      ram:Description BT-20
      ram:DueDateDateTime
        udt:DateTimeString BT-9 @format '102'
    ram:SpecifiedTradeSettlementHeaderMonetarySummation
      ram:LineTotalAmount BT-106
      ram:ChargeTotalAmount BT-108
      ram:AllowanceTotalAmount BT-107
      ram:TaxBasisTotalAmount BT-109
      ram:TaxTotalAmount BT-110 @currencyID 'EUR'
      ram:TaxTotalAmount BT-111 @currencyID 'SEK'
      ram:RoundingAmount BT-114
      ram:GrandTotalAmount BT-112
      ram:TotalPrepaidAmount BT-113
      ram:DuePayableAmount BT-115
    ram:InvoiceReferencedDocument *BG-3
      ram:IssuerAssignedID BT-25
      ram:FormattedIssueDateTime
        qdt:DateTimeString BT-26 @format '102'
"""
NAMESPACES = {
    "ubl": "urn:oasis:names:specification:ubl:schema:xsd:Invoice-2",
    "cn": "urn:oasis:names:specification:ubl:schema:xsd:CreditNote-2",
    "cac": "urn:oasis:names:specification:ubl:schema:xsd:CommonAggregateComponents-2",
    "cbc": "urn:oasis:names:specification:ubl:schema:xsd:CommonBasicComponents-2",
    "rsm": "urn:un:unece:uncefact:data:standard:CrossIndustryInvoice:100",
    "ram": "urn:un:unece:uncefact:data:standard:ReusableAggregateBusinessInformationEntity:100",
    "udt": "urn:un:unece:uncefact:data:standard:UnqualifiedDataType:100",
    "qdt": "urn:un:unece:uncefact:data:standard:QualifiedDataType:100",
}
for bound, uri in NAMESPACES.items():
    tree.register_namespace(bound, uri)
POINTS = {"3": "5", "35": "29", "432": "72"}


def rows_of(text):
    """The rows of a table, each with those inside it: [depth, name, words, rows]."""
    outer = [[-1, "", [], []]]
    for row in text.strip().split("\n"):
        depth = (len(row) - len(row.lstrip())) // 2
        name, *words = row.split()
        del outer[depth + 1 :]
        outer.append([depth, name, words, []])
        outer[depth][3].append(outer[-1])
    return outer[0][3]


def named(name):
    bound, local = name.split(":")
    return tree.Element("{%s}%s" % (NAMESPACES[bound], local))


def is_constant(row):
    """No value of the invoice stands in it."""
    return all(word.startswith(("'", "@")) for word in row[2]) and all(is_constant(one) for one in row[3])


def written(rows, groups, is_cii, into):
    """Writes rows into an element; whether a value was written. `groups` are those around, the inmost first."""

    def value_of(word):
        if word.startswith("'"):
            return word.strip("'")
        value = next((group[word] for group in groups if word in group), None)
        if value is None or not is_cii:
            return value
        return POINTS.get(value, value) if word == "BT-8" else value

    found = False
    for row in rows:
        _, name, words, inside = row
        if words and words[0][0] in "*?":
            some = next((group[words[0][1:]] for group in groups if words[0][1:] in group), [])
            occurrences = some or ([{}] if words[0][0] == "?" else [])
        else:
            occurrences = [None]
        for one in occurrences:
            element = named(name)
            if inside:
                has = written(inside, groups if one is None else [one, *groups], is_cii, element)
                if has or words == ["!"] or is_constant(row):
                    into.append(element)
                found |= has
                continue
            text = value_of(words[0])
            if text is None:
                continue
            if is_cii and name in ("udt:DateTimeString", "udt:DateString", "qdt:DateTimeString"):
                text = text.replace("-", "")
            element.text = text
            for mark, word in zip(words[1::2], words[2::2]):
                if value_of(word) is not None:
                    element.set(mark.lstrip("@"), value_of(word))
            into.append(element)
            found |= not words[0].startswith("'")
    return found


def document(root, table, is_cii=False):
    rows = rows_of(table)

    def write(invoice):
        element = named(root)
        written(rows, [invoice], is_cii, element)
        return tree.tostring(element, encoding="unicode") + "\n"

    return write


AS_CREDIT = {
    "InvoiceLine *": "CreditNoteLine *",
    "InvoicedQuantity": "CreditedQuantity",
    "InvoiceTypeCode": "CreditNoteTypeCode",
    "cbc:DueDate BT-9\n": "",
}


def credit_table():
    text = UBL
    for words, others in AS_CREDIT.items():
        text = text.replace(words, others)
    return text


written_credit = document("cn:CreditNote", credit_table())


def credit_note(invoice):
    return written_credit(invoice | {"BT-3": "381"} if invoice.get("BT-3") == "380" else invoice)


# Of each form that an invoice is written in the rule file that it is judged by, and how it is written.
FORMS = {
    "invoice": ("ubl", document("ubl:Invoice", UBL.replace("  cbc:PaymentDueDate BT-9\n", ""))),
    "credit": ("ubl", credit_note),
    "cii": ("cii", document("rsm:CrossIndustryInvoice", CII, is_cii=True)),
}


# ---- Cases: what is tried, an invoice that meets the rule, and the edits after which exactly these identifiers are due

PERIOD = {"BT-73": "2026-02-01", "BT-74": "2026-02-28"}
REPRESENTATIVE = {"BT-62": "Fisc SA", "BT-63": "FR12345678901", "BT-66": "Lyon", "BT-69": "FR"}
LINE_ALLOWANCE = {"BT-136": "5.00", "BT-137": "50.00", "BT-138": "10", "BT-139": "Scratched"}
LINE_CHARGE = {"BT-141": "5.00", "BT-142": "50.00", "BT-143": "10", "BT-144": "Express"}
LOCAL = {"BT-31": None, "BT-32": "12/345/678"}
NOBODY = {"BT-31": None, "BT-32": None}


def of(edits=()):
    """The base invoice with these edits, and its totals."""
    return totalled(edited(BASE, dict(edits)))


def without(*terms):
    return {term: None for term in terms}


def integrity():
    plain = of()
    for rule, place in (
        ("BR-01", "BT-24"),
        ("BR-02", "BT-1"),
        ("BR-03", "BT-2"),
        ("BR-04", "BT-3"),
        ("BR-05", "BT-5"),
        ("BR-06", "BT-27"),
        ("BR-07", "BT-44"),
        ("BR-09", "BT-40"),
        ("BR-11", "BT-55"),
        ("BR-12", "BT-106"),
        ("BR-13", "BT-109"),
        ("BR-14", "BT-112"),
        ("BR-15", "BT-115"),
        ("BR-21", "BG-25/1/BT-126"),
        ("BR-23", "BG-25/2/BT-130"),
        ("BR-25", "BG-25/2/BT-153"),
        ("BR-26", "BG-25/2/BT-146"),
    ):
        yield rule + ": missing", plain, {place: None}, rule
        yield rule + ": blank", plain, {place: " \n "}, rule
    yield "BR-08", plain, without("BT-35", "BT-37", "BT-40"), "BR-08"
    yield "BR-10", plain, without("BT-52", "BT-55"), "BR-10"
    yield "BR-12: no number", plain, {"BT-106": "230,00"}, "BR-12 BR-DEC-09"
    yield "BR-16", plain, {"BG-25": []}, "BR-16 BR-CO-10 BR-CO-13 BR-S-08"
    yield "BR-17", of({"BT-59": "Factor AG", "BT-60": "77"}), {"BT-59": None}, "BR-17"
    represented = of(REPRESENTATIVE)
    yield "BR-18", represented, {"BT-62": None}, "BR-18"
    yield "BR-19", represented, without("BT-66", "BT-69"), "BR-19"
    yield "BR-20", represented, {"BT-69": None}, "BR-20"
    yield "BR-56", represented, {"BT-63": None}, "BR-56"
    yield "BR-22", plain, {"BG-25/1/BT-129": None}, "BR-22 BR-23"
    yield "BR-22: no number", plain, {"BG-25/1/BT-129": "two"}, "BR-22"
    yield "BR-24", plain, {"BG-25/1/BT-131": None}, "BR-24 BR-CO-10 BR-CO-13 BR-S-08"
    yield "BR-27", of({"BG-25/2/BT-146": "0.00"}), {"BG-25/2/BT-146": "-0.0001"}, "BR-27"
    yield "BR-28", of({"BG-25/2/BT-147": "1.00", "BG-25/2/BT-148": "51.00"}), {"BG-25/2/BT-148": "-51.00"}, "BR-28"
    yield "BR-29", of(PERIOD), {"BT-74": "2026-01-31"}, "BR-29"
    yield "BR-29: one day", of({"BT-73": "2026-02-28", "BT-74": "2026-02-28"}), {"BT-73": "2026-03-01"}, "BR-29"
    dated = of({"BG-25/1/BT-134": "2026-02-01", "BG-25/1/BT-135": "2026-02-28"})
    yield "BR-30", dated, {"BG-25/1/BT-134": "2027-02-01"}, "BR-30"
    reduced = of({"BG-20": [allowance()]})
    coded = edited(reduced, {"BG-20/1/BT-97": None, "BG-20/1/BT-98": "95"})
    yield "BR-31", reduced, {"BG-20/1/BT-92": None}, "BR-31 BR-CO-11 BR-S-08"
    yield "BR-32", reduced, {"BG-20/1/BT-95": None}, "BR-32 BR-S-08"
    yield "BR-33, BR-CO-21", reduced, {"BG-20/1/BT-97": None}, "BR-33 BR-CO-21"
    yield "BR-33, BR-CO-21: a code", coded, {"BG-20/1/BT-98": " "}, "BR-33 BR-CO-21"
    charged = of({"BG-21": [charge()]})
    coded = edited(charged, {"BG-21/1/BT-104": None, "BG-21/1/BT-105": "FC"})
    yield "BR-36", charged, {"BG-21/1/BT-99": None}, "BR-36 BR-CO-12 BR-S-08"
    yield "BR-37", charged, {"BG-21/1/BT-102": None}, "BR-37 BR-S-08"
    yield "BR-38, BR-CO-22", charged, {"BG-21/1/BT-104": None}, "BR-38 BR-CO-22"
    yield "BR-38, BR-CO-22: a code", coded, {"BG-21/1/BT-105": None}, "BR-38 BR-CO-22"
    inner = of({"BG-25/1/BG-27": [LINE_ALLOWANCE], "BG-25/1/BG-28": [LINE_CHARGE]})
    yield "BR-41", inner, {"BG-25/1/BG-27/1/BT-136": None}, "BR-41"
    yield "BR-42, BR-CO-23", inner, {"BG-25/1/BG-27/1/BT-139": None}, "BR-42 BR-CO-23"
    yield "BR-43", inner, {"BG-25/1/BG-28/1/BT-141": None}, "BR-43"
    yield "BR-44, BR-CO-24", inner, {"BG-25/1/BG-28/1/BT-144": None}, "BR-44 BR-CO-24"
    yield "BR-45", plain, {"BG-23/1/BT-116": None}, "BR-45"
    yield "BR-46", plain, {"BG-23/1/BT-117": None}, "BR-46 BR-CO-14"
    yield "BR-47", plain, {"BG-23/1/BT-118": None}, "BR-47 BR-S-01"
    yield "BR-48", plain, {"BG-23/1/BT-119": None}, "BR-48"
    yield "BR-49", plain, {"BT-81": None}, "BR-49"
    yield "BR-50", of({"BT-81": "42"}), {"BG-17/1/BT-84": None}, "BR-50"
    two = of({"BT-81": "42", "BG-17/2": {"BT-84": "DE1", "BT-85": "Nord"}})
    yield "BR-50: the second", two, {"BG-17/2/BT-84": None}, "BR-50"
    card = of({"BT-81": "48", "BG-17": None, "BT-87": "XXXXXXXXXXXX1234", "BT-88": "A. Nord"})
    yield "BR-51", card, {"BT-87": "4012345612345678"}, "BR-51"
    yield "BR-51: seven first", edited(card, {"BT-87": "4012 34XX XXXX 1234"}), {"BT-87": "4012 345X XXXX 1234"}, "BR-51"
    yield "BR-51: five last", edited(card, {"BT-87": "1234"}), {"BT-87": "401234******12345"}, "BR-51"
    yield "BR-51: digits inside", edited(card, {"BT-87": "401234-1234"}), {"BT-87": "4012XX1XX1234"}, "BR-51"
    yield "BR-52", of({"BG-24": [{"BT-122": "Time sheet", "BT-123": "Hours"}]}), {"BG-24/1/BT-122": None}, "BR-52"
    yield "BR-53", of({"BT-6": "SEK", "BT-111": "497.31"}), {"BT-111": None}, "BR-53"
    yield "BR-53: the same currency", of({"BT-6": "EUR"}), {"BT-6": "SEK"}, "BR-53"
    attribute = of({"BG-25/2/BG-32": [{"BT-160": "Colour", "BT-161": "Blue"}]})
    yield "BR-54", attribute, {"BG-25/2/BG-32/1/BT-161": None}, "BR-54"
    yield "BR-54: no name", attribute, {"BG-25/2/BG-32/1/BT-160": None}, "BR-54"
    yield "BR-55", of({"BG-3": [{"BT-25": "2026-0099", "BT-26": "2026-01-02"}]}), {"BG-3/1/BT-25": None}, "BR-55"
    yield "BR-57", of({"BT-77": "Lyon", "BT-80": "FR"}), {"BT-80": None}, "BR-57"
    yield "BR-61: SEPA", plain, {"BG-17": None}, "BR-61"
    yield "BR-61: credit transfer", of({"BT-81": "30"}), {"BG-17": None}, "BR-61"
    yield "BR-61: cheque", of({"BT-81": "20", "BG-17": None}), {"BT-81": "58"}, "BR-61"
    yield "BR-62", plain, {"BT-34-1": None}, "BR-62"
    yield "BR-63", plain, {"BT-49-1": None}, "BR-63"
    standard = of({"BG-25/1/BT-157": "4012345000009", "BG-25/1/BT-157-1": "0160"})
    yield "BR-64", standard, {"BG-25/1/BT-157-1": None}, "BR-64"
    classified = of({"BG-25/1/P-158": [{"BT-158": "8471", "BT-158-1": "HS"}]})
    yield "BR-65", classified, {"BG-25/1/P-158/1/BT-158-1": None}, "BR-65"


def conditions():
    plain = of()
    yield "BR-CO-03", of({"BT-8": "35"}), {"BT-7": "2026-03-01"}, "BR-CO-03"
    yield "BR-CO-03: the other way", of({"BT-7": "2026-03-01"}), {"BT-8": "432"}, "BR-CO-03"
    yield "BR-CO-04", plain, {"BG-25/1/BT-151": None}, "BR-CO-04 BR-S-08"
    yield "BR-CO-09: seller", of({"BT-31": "EL123456789"}), {"BT-31": "123456789"}, "BR-CO-09"
    yield "BR-CO-09: buyer", of({"BT-48": "XI123456789"}), {"BT-48": "fr12345678901"}, "BR-CO-09"
    yield "BR-CO-09: representative", of(REPRESENTATIVE), {"BT-63": "XX12345678901"}, "BR-CO-09"
    yield "BR-CO-10", plain, {"BT-106": "230.01"}, "BR-CO-10"
    reduced = of({"BG-20": [allowance(), allowance("1.50")], "BG-21": [charge(), charge("0.25")]})
    yield "BR-CO-11", reduced, {"BT-107": "11.51"}, "BR-CO-11 BR-CO-13"
    yield "BR-CO-11: missing", reduced, {"BT-107": None}, "BR-CO-11 BR-CO-13"
    yield "BR-CO-12", reduced, {"BT-108": "20.24"}, "BR-CO-12 BR-CO-13"
    yield "BR-CO-12: without charges", plain, {"BT-108": "0.01"}, "BR-CO-12 BR-CO-13"
    yield "BR-CO-13", reduced, {"BT-109": "238.74"}, "BR-CO-13 BR-CO-15"
    yield "BR-CO-14", plain, {"BT-110": "43.71"}, "BR-CO-14 BR-CO-15"
    yield "BR-CO-14: missing", plain, {"BT-110": None}, "BR-CO-14 BR-CO-15"
    yield "BR-CO-15", plain, {"BT-112": "273.71"}, "BR-CO-15 BR-CO-16"
    paid = of({"BT-113": "73.72", "BT-114": "0.02"})
    yield "BR-CO-16", paid, {"BT-115": "199.99"}, "BR-CO-16"
    yield "BR-CO-16: paid", paid, {"BT-113": "73.71"}, "BR-CO-16"
    yield "BR-CO-16: rounding", paid, {"BT-114": None}, "BR-CO-16"
    near = "BR-CO-14 BR-CO-17-exact BR-S-09-exact"
    yield "BR-CO-17-exact", plain, {"BG-23/1/BT-117": "43.71"}, near
    yield "BR-CO-17: just below 1", plain, {"BG-23/1/BT-117": "44.69"}, near
    yield "BR-CO-17: 1", plain, {"BG-23/1/BT-117": "44.70"}, "BR-CO-14 BR-CO-17 BR-S-09"
    yield "BR-CO-17: 1 less", plain, {"BG-23/1/BT-117": "42.70"}, "BR-CO-14 BR-CO-17 BR-S-09"
    # 0.50 at 19 % is 0.095: 0.09 and 0.10 are its two roundings.
    half = of({"BG-25": [line("1", "1", "0.50", "0.50")]})
    yield "BR-CO-17: half a cent", half, {"BG-23/1/BT-117": "0.08"}, near
    yield "BR-CO-17: half a cent, down", half, {"BG-23/1/BT-117": "0.09"}, "BR-CO-14"
    negative = of({"BG-25": [line("1", "-1", "0.50", "-0.50")]})
    yield "BR-CO-17: half a cent less", negative, {"BG-23/1/BT-117": "-0.11"}, near
    yield "BR-CO-17: half a cent less, up", negative, {"BG-23/1/BT-117": "-0.09"}, "BR-CO-14"
    yield "BR-CO-18", plain, {"BG-23": []}, "BR-CO-14 BR-CO-18 BR-S-01"
    yield "BR-CO-19", of({"BT-73": "2026-02-01"}), {"BT-73": " "}, "BR-CO-19"
    yield "BR-CO-20", of({"BG-25/2/BT-135": "2026-02-01"}), {"BG-25/2/BT-135": " "}, "BR-CO-20"
    yield "BR-CO-25", plain, {"BT-9": None}, "BR-CO-25"
    yield "BR-CO-25: terms", of({"BT-9": None, "BT-20": "At once"}), {"BT-20": " "}, "BR-CO-25"
    nothing = of({"BT-9": None, "BT-113": "273.70"})
    yield "BR-CO-25: nothing due", nothing, {"BT-115": "0.01"}, "BR-CO-16 BR-CO-25"
    yield "BR-CO-26", of(LOCAL), {"BT-30": None}, "BR-CO-26"
    yield "BR-CO-26: an identifier", of(LOCAL | {"BT-30": None, "BT-29": "77"}), {"BT-29": None}, "BR-CO-26"
    yield "BR-CO-26: a creditor's", of(LOCAL | {"BT-90": "DE98ZZZ0"}), {"BT-30": None}, "BR-CO-26"


def decimals():
    full = of(
        {
            "BT-6": "SEK",
            "BT-111": "499.55",
            "BT-113": "5.00",
            "BT-114": "0.40",
            "BG-20": [allowance() | {"BT-93": "100.00", "BT-94": "10"}],
            "BG-21": [charge() | {"BT-100": "200.00", "BT-101": "10"}],
            "BG-25/1/BG-27": [LINE_ALLOWANCE],
            "BG-25/1/BG-28": [LINE_CHARGE],
        }
    )
    of_place = dict(places(full))
    for number, place in (
        (1, "BG-20/1/BT-92"),
        (2, "BG-20/1/BT-93"),
        (5, "BG-21/1/BT-99"),
        (6, "BG-21/1/BT-100"),
        (9, "BT-106"),
        (10, "BT-107"),
        (11, "BT-108"),
        (12, "BT-109"),
        (13, "BT-110"),
        (14, "BT-112"),
        (15, "BT-111"),
        (16, "BT-113"),
        (17, "BT-114"),
        (18, "BT-115"),
        (19, "BG-23/1/BT-116"),
        (20, "BG-23/1/BT-117"),
        (23, "BG-25/2/BT-131"),
        (24, "BG-25/1/BG-27/1/BT-136"),
        (25, "BG-25/1/BG-27/1/BT-137"),
        (27, "BG-25/1/BG-28/1/BT-141"),
        (28, "BG-25/1/BG-28/1/BT-142"),
    ):
        yield "BR-DEC-%02d" % number, full, {place: of_place[place] + "0"}, "BR-DEC-%02d" % number
    yield "BR-DEC-02: no number", full, {"BG-20/1/BT-93": "100,00"}, "BR-DEC-02"
    yield "BR-DEC-25: an exponent", full, {"BG-25/1/BG-27/1/BT-137": "5e1"}, "BR-DEC-25"
    spaced = edited(full, {"BG-25/1/BG-28/1/BT-142": " 50.00 "})
    yield "BR-DEC-28: white space", spaced, {"BG-25/1/BG-28/1/BT-142": " 50.001 "}, "BR-DEC-28"


# Of each VAT category the word in its rules, its rate here, a rate that it must not have, and who has to be identified.
CATEGORIES = {
    "S": ("S", "19", "0", ("BT-31",)),
    "Z": ("Z", "0", "19", ("BT-31",)),
    "E": ("E", "0", "19", ("BT-31",)),
    "AE": ("AE", "0", "19", ("BT-31", "BT-48")),
    "K": ("IC", "0", "19", ("BT-31", "BT-48")),
    "G": ("G", "0", "19", ("BT-31",)),
    "O": ("O", None, "0", ()),
    "L": ("AF", "7", "-7", ("BT-31",)),
    "M": ("AG", "4", "-4", ("BT-31",)),
}


def category(code):
    """The cases of a VAT category."""
    word, rate, wrong, wanted = CATEGORIES[code]
    taxed, free = code in TAXED, code == "O"

    def due(*numbers, also=""):
        return " ".join(["BR-%s-%02d" % (word, number) for number in numbers] + also.split())

    # Its lines alone; and an allowance or a charge of it beside a line of the split payment (B) inside Italy, which asks
    # for nobody to be identified. What is standard rated doesn't stand beside that, so its line is zero rated (Z), which
    # asks for the same as it does. Category O doesn't stand beside others.
    common = ({"BT-48": "FR12345678901"} if "BT-48" in wanted else {}) | (NOBODY if free else {})
    common |= {"BT-72": "2026-02-27", "BT-80": "FR"} if code == "K" else {}
    lines = [line("1", "2", "90.00", "180.00", code, rate), line("2", "1", "50.00", "50.00", code, rate)]
    others = lines if free else [line("1", "2", "90.00", "180.00", "Z" if code == "S" else "B", "0")]
    beside = "BR-Z-02" if code == "S" else ""
    invoice = of(common | {"BG-25": lines})
    outer = common if code in ("S", "O") else common | {"BT-40": "IT", "BT-55": "IT"}
    reduced = of(outer | {"BG-25": others, "BG-20": [allowance(category=code, rate=rate)]})
    charged = of(outer | {"BG-25": others, "BG-21": [charge(category=code, rate=rate)]})

    coded = "BR-47 BR-48" if free else "BR-47"
    place = "BG-23/1/BT-118" if free else "BG-23/2/BT-118"
    yield due(1), invoice, {"BG-23/1/BT-118": None}, due(1, also=coded)
    yield due(1) + ": allowance", reduced, {place: None}, due(1, also=coded)
    yield due(1) + ": charge", charged, {place: None}, due(1, also=coded)
    if not taxed:
        yield due(1) + ": twice", invoice, {"BG-23/2": invoice["BG-23"][0]}, due(1, 11) if free else due(1)

    for number, good in ((2, invoice), (3, reduced), (4, charged)):
        if free:
            for person in {"BT-31": "DE1"}, {"BT-48": "FR1"}, REPRESENTATIVE:
                yield "%s: %s" % (due(number), min(person)), good, person, due(*sorted({2, number}))
            continue
        unknown = due(number, also=beside if number != 2 else "")
        for term in wanted:
            yield "%s: %s" % (due(number), term), good, {term: None}, unknown
        nobody = {term: None for term in REPRESENTATIVE}
        if code in ("K", "G"):
            # The tax registration identifier (BT-32) isn't enough.
            yield due(number) + ": BT-63", edited(good, LOCAL | REPRESENTATIVE), nobody, unknown
        else:
            yield due(number) + ": BT-32", edited(good, LOCAL), {"BT-32": None}, unknown
            yield due(number) + ": BT-63", edited(good, NOBODY | REPRESENTATIVE), nobody, unknown
        if code == "AE":
            yield due(number) + ": BT-47", edited(good, {"BT-48": None, "BT-47": "5"}), {"BT-47": None}, due(number)

    also = (8,) if taxed else ()
    yield due(5), invoice, {"BG-25/1/BT-152": wrong}, due(5, *also)
    yield due(6), reduced, {"BG-20/1/BT-96": wrong}, due(6, *also)
    yield due(7), charged, {"BG-21/1/BT-103": wrong}, due(7, *also)
    if not free:
        yield due(5) + ": missing", invoice, {"BG-25/1/BT-152": None}, due(5, *also)
    if code in ("L", "M"):
        untaxed = of({"BG-25": [line("1", "1", "9.00", "9.00", code, "0")]})
        yield due(5) + ": rate 0", untaxed, {"BG-25/1/BT-152": "-0.1"}, due(5, 8)
    # A cent more of base doesn't change the tax, and 1 more by less than 1.
    exact = "BR-%s-08-exact" % word
    one_more = "BR-CO-17-exact BR-%s-09-exact" % word if taxed else ""
    yield exact, invoice, {"BG-23/1/BT-116": "230.01"}, exact
    yield exact + ": just below 1", invoice, {"BG-23/1/BT-116": "230.99"}, "%s %s" % (exact, one_more)
    yield due(8), invoice, {"BG-23/1/BT-116": "231.00"}, due(8, also=one_more)
    yield due(8) + ": 1 less", invoice, {"BG-23/1/BT-116": "229.00"}, due(8, also=one_more)
    yield exact + ": allowance", reduced, {"BG-20/1/BT-92": "10.01"}, exact + " BR-CO-11"
    yield exact + ": charge", charged, {"BG-21/1/BT-99": "19.99"}, exact + " BR-CO-12"
    tax = decimal.Decimal(invoice["BG-23"][0]["BT-117"])
    cent, whole = str(tax + decimal.Decimal("0.01")), str(tax + 1)
    if taxed:
        nearly = "BR-%s-09-exact BR-CO-17-exact BR-CO-14" % word
        yield "BR-%s-09-exact" % word, invoice, {"BG-23/1/BT-117": cent}, nearly
        yield due(9), invoice, {"BG-23/1/BT-117": whole}, due(9, also="BR-CO-14 BR-CO-17")
    else:
        rated = "BR-CO-14" if free else "BR-CO-14 BR-CO-17"
        yield due(9) + ": a cent", invoice, {"BG-23/1/BT-117": cent}, due(9, also=rated if free else rated + "-exact")
        yield due(9), invoice, {"BG-23/1/BT-117": whole}, due(9, also=rated)
    if taxed or code == "Z":
        yield due(10), invoice, {"BG-23/1/BT-120": "A reason"}, due(10)
        yield due(10) + ": a code", invoice, {"BG-23/1/BT-121": "VATEX-EU-O"}, due(10)
    else:
        yield due(10), invoice, {"BG-23/1/BT-120": None}, due(10)
        exempt = edited(invoice, {"BG-23/1/BT-120": None, "BG-23/1/BT-121": "VATEX-EU-O"})
        yield due(10) + ": a code", exempt, {"BG-23/1/BT-121": None}, due(10)
    if code == "K":
        yield due(11), invoice, {"BT-72": None}, due(11)
        yield due(11) + ": period", edited(invoice, {"BT-72": None} | PERIOD), without(*PERIOD), due(11)
        yield due(12), invoice, {"BT-80": None}, due(12)
    if free:
        zero = {"BT-116": "0.00", "BT-117": "0.00", "BT-118": "B", "BT-119": "0"}
        inside = {"BT-40": "IT", "BT-55": "IT"}
        yield due(11), invoice, {"BG-23/2": zero}, due(11)
        more = {"BG-25": lines + [line("3", "1", "0.00", "0.00", "O", None)]}
        more |= {"BG-20": [allowance("0.00", "O", None)], "BG-21": [charge("0.00", "O", None)]}
        yield due(12), of(NOBODY | inside | more), {"BG-25/3/BT-151": "B"}, due(12)
        yield due(13), of(NOBODY | inside | more), {"BG-20/1/BT-95": "B"}, due(13)
        yield due(14), of(NOBODY | inside | more), {"BG-21/1/BT-102": "B"}, due(14)


def split_payment():
    """Category B, of which no rule asks for more."""
    lines = [line("1", "2", "90.00", "180.00", "B", "22"), line("2", "1", "50.00", "50.00", "B", "22")]
    italian = {"BT-31": "IT12345670017", "BT-40": "IT", "BT-55": "IT"}
    invoice = of(italian | {"BG-25": lines})
    yield "BR-B-01: buyer", invoice, {"BT-55": "FR"}, "BR-B-01"
    yield "BR-B-01: seller", invoice, {"BT-40": "SM"}, "BR-B-01"
    reduced = of(italian | {"BG-25": [line("1", "1", "9.00", "9.00", "Z", "0")], "BG-20": [allowance("1.00", "B", "22")]})
    yield "BR-B-01: allowance", reduced, {"BT-55": "FR"}, "BR-B-01"
    charged = of(italian | {"BG-25": [line("1", "1", "9.00", "9.00", "Z", "0")], "BG-21": [charge("1.00", "B", "22")]})
    yield "BR-B-01: charge", charged, {"BT-55": "FR"}, "BR-B-01"
    mixed = of(italian | {"BG-25": lines + [line("3", "1", "0.00", "0.00", "Z", "0")]})
    yield "BR-B-02", mixed, {"BG-25/3/BT-151": "S", "BG-25/3/BT-152": "22", "BG-23/2/BT-118": "S", "BG-23/2/BT-119": "22"}, "BR-B-02"
    for name, group, make, term in (("allowance", "BG-20", allowance, "BT-95"), ("charge", "BG-21", charge, "BT-102")):
        beside = of(italian | {"BG-25": lines, group: [make("0.00", "Z", "0")]})
        rate = {"BT-95": "BT-96", "BT-102": "BT-103"}[term]
        edits = {"%s/1/%s" % (group, term): "S", "%s/1/%s" % (group, rate): "22"}
        yield "BR-B-02: " + name, beside, edits | {"BG-23/2/BT-118": "S", "BG-23/2/BT-119": "22"}, "BR-B-02"


def code_lists():
    plain = of()
    yield "BR-CL-04", plain, {"BT-5": "EUX"}, "BR-CL-04"
    yield "BR-CL-04: small letters", plain, {"BT-5": "eur"}, "BR-CL-04"
    yield "BR-CL-05", of({"BT-6": "EUR"}), {"BT-6": "XEU", "BT-111": "5.00"}, "BR-CL-05 BR-53 BR-CO-14 BR-CO-15"
    yield "BR-CL-06", of({"BT-8": "432"}), {"BT-8": "4"}, "BR-CL-06"
    yield "BR-CL-14: seller", plain, {"BT-40": "UK"}, "BR-CL-14"
    yield "BR-CL-14: buyer", of({"BT-55": "XK"}), {"BT-55": "fr"}, "BR-CL-14"
    yield "BR-CL-14: representative", of(REPRESENTATIVE), {"BT-69": "EL"}, "BR-CL-14"
    yield "BR-CL-14: deliver to", of({"BT-77": "Lyon", "BT-80": "FR"}), {"BT-80": "FRA"}, "BR-CL-14"
    yield "BR-CL-15", of({"BG-25/2/BT-159": "JP"}), {"BG-25/2/BT-159": "JA"}, "BR-CL-15"
    reduced = of({"BG-20": [allowance()], "BG-21": [charge()]})
    yield "BR-CL-17: allowance", reduced, {"BG-20/1/BT-95": "s"}, "BR-CL-17 BR-S-08"
    yield "BR-CL-17: charge", reduced, {"BG-21/1/BT-102": "VAT"}, "BR-CL-17 BR-S-08"
    yield "BR-CL-17: breakdown", plain, {"BG-23/1/BT-118": "H"}, "BR-CL-17 BR-S-01"
    yield "BR-CL-18", plain, {"BG-25/2/BT-151": "IC"}, "BR-CL-18 BR-S-08"
    attached = of({"BG-24": [{"BT-122": "Hours", "BT-125": "JVBERg==", "BT-125-1": "application/pdf"}]})
    yield "BR-CL-24", attached, {"BG-24/1/BT-125-1": "text/html"}, "BR-CL-24"
    yield "BR-CL-24: none", attached, {"BG-24/1/BT-125-1": None}, "BR-CL-24"


def rates():
    """Rates that are written in two ways are one."""
    lines = [line("1", "1", "80", "80"), line("2", "1", "40", "40", rate="7.0"), line("3", "1", "5", "5", rate="7")]
    yield "BR-S-08: two rates", of({"BG-25": lines}), {"BG-25/2/BT-152": "19"}, "BR-S-08 BR-S-08"


def all_cases():
    """Names, invoices, and the identifiers that are due; each invoice once."""
    seen = set()
    parts = [integrity(), conditions(), decimals(), code_lists()]
    parts += [*(category(code) for code in CATEGORIES), split_payment(), rates()]
    for name, good, bad, ids in (case for part in parts for case in part):
        for what, invoice, due in (("met", good, ""), ("not met", edited(good, bad), ids)):
            if repr(invoice) not in seen:
                seen.add(repr(invoice))
                yield "%s, %s" % (name, what), invoice, collections.Counter(due.split())


def spellings():
    """What no invoice says: name, form, invoice, a text of its document, what it becomes, and what is due then."""
    plain = of()
    both = of({"BG-20": [allowance()], "BG-21": [charge()]})
    day = of({"BT-73": "2026-02-28", "BT-74": "2026-02-28"})
    accounted, same_currency = of({"BT-6": "SEK", "BT-111": "5.00"}), of({"BT-6": "EUR", "BT-111": "5.00"})
    reference = "<cac:AdditionalDocumentReference>%s</cac:AdditionalDocumentReference>"
    reference %= "<cbc:DocumentTypeCode>%s</cbc:DocumentTypeCode>"
    payee = "<cac:PayeeParty><cac:PartyIdentification><cbc:ID%s>5</cbc:ID></cac:PartyIdentification></cac:PayeeParty>"
    period, party, means = "<cac:InvoicePeriod>", "<cac:AccountingSupplierParty>", "<cac:PaymentMeans>"
    for form in "invoice", "credit":
        yield "indicators 0 and 1", form, both, ">true<", ">1<", ""
        yield "indicators in white space", form, both, ">true<", "> true\n<", ""
        yield "indicators that say nothing", form, both, ">false<", "><", ""
        yield "categories in white space", form, plain, "<cbc:ID>S</cbc:ID>", "<cbc:ID>\n S </cbc:ID>", ""
        yield "BR-17: a creditor's", form, plain, means, payee % " schemeID='SEPA'" + means, ""
        yield "BR-17: an identifier", form, plain, means, payee % "" + means, "BR-17"
        yield "BR-29: time zones", form, day, "-28</cbc:StartDate>", "-28Z</cbc:StartDate>", ""
        yield "BR-52: an object", form, plain, party, reference % "130" + party, ""
        yield "BR-52: a project", form, plain, party, reference % "50" + party, "BR-52" if form == "invoice" else ""
        yield "BR-52: another type", form, plain, party, reference % "916" + party, "BR-52"
        yield "BR-62: no address", form, plain, ">billing@atelier.example<", "><", ""
        yield "BR-CO-14: two totals", form, same_currency, '"SEK">5.00', '"EUR">5.00', "BR-CO-14 BR-CO-15"
        yield "BR-CO-19: a code", form, of({"BT-8": "35"}), period, "<cac:InvoicePeriod/>" + period, "BR-CO-19"
        yield "BR-DEC-13: no currency", form, accounted, 'currencyID="SEK">5.00', ">0.000", "BR-53 BR-DEC-13"
        cards, mandates = "<cac:CardAccount/>" * 2, "<cac:PaymentMandate/>" * 2
        yield "BR-66", form, plain, means, means + cards, "BR-66"
        yield "BR-66: one", form, plain, means, means + cards[: len(cards) // 2], ""
        yield "BR-67", form, plain, means, means + mandates, "BR-67"
        yield "BR-67: one", form, plain, means, means + mandates[: len(mandates) // 2], ""
    row = "<cac:CreditNoteLine><cbc:ID>3</cbc:ID></cac:CreditNoteLine>"
    yield "a line of the other root", "invoice", plain, "</ubl:Invoice>", row + "</ubl:Invoice>", ""
    yield "BR-S-08: rates with a point", "invoice", plain, ">19<", ">19.0<", ""
    seller, paid = of(LOCAL | {"BT-30": None, "BT-29": "77"}), of({"BT-60": "77"})
    plain_id, with_scheme = "<ram:ID>77</ram:ID>", "<ram:GlobalID schemeID='0088'>77</ram:GlobalID>"
    supported = of({"BG-24": [{"BT-122": "A", "BT-123": "B"}]})
    missing, other = "A</ram:IssuerAssignedID><ram:TypeCode>916", "</ram:IssuerAssignedID><ram:TypeCode>130"
    delivered = "<ram:SpecifiedLineTradeDelivery>"
    shipped = delivered + "<ram:ShipToTradeParty><ram:PostalTradeAddress/></ram:ShipToTradeParty>"
    means, terms = "<ram:SpecifiedTradeSettlementPaymentMeans>", "<ram:SpecifiedTradePaymentTerms>"
    card, mandate = "<ram:ApplicableTradeSettlementFinancialCard/>", "<ram:DirectDebitMandateID>5</ram:DirectDebitMandateID>"
    for times, word in (1, ": one"), (2, ""):
        yield "BR-66" + word, "cii", plain, means, means + times * card, "BR-66" if times > 1 else ""
        yield "BR-67" + word, "cii", plain, terms, terms + times * mandate, "BR-67" if times > 1 else ""
    yield "indicators 0 and 1", "cii", both, ">true<", "> 1 <", ""
    yield "indicators that say nothing", "cii", both, ">false<", "><", ""
    yield "categories in white space", "cii", plain, "Code>S<", "Code>\n S <", ""
    yield "BR-17: a scheme", "cii", paid, plain_id, with_scheme, "BR-17"
    yield "BR-50, BR-61: no IBAN", "cii", plain, "ram:IBANID", "ram:ProprietaryID", ""
    yield "BR-52: missing", "cii", supported, "<ram:IssuerAssignedID>A</ram:IssuerAssignedID>", "", "BR-52"
    yield "BR-52: another type", "cii", supported, missing, other, ""
    yield "BR-57: a line's", "cii", plain, delivered, shipped, ""
    yield "BR-CO-14: two totals", "cii", same_currency, '"SEK">5.00', '"EUR">5.00', "BR-CO-14 BR-CO-15"
    yield "BR-CO-26: a scheme", "cii", seller, plain_id, with_scheme, ""
    yield "BR-DEC-13: no currency", "cii", accounted, 'currencyID="SEK">5.00', ">0.000", "BR-53 BR-DEC-13"


# ---- Invoices at random


def sound(chance):
    """An invoice in which nothing is to be found."""

    def maybe(share):
        return chance.random() < share

    def cents(most):
        return money(decimal.Decimal(chance.randrange(1, most)) / 100)

    others = [code for code in CATEGORIES if code != "O"]
    codes = ["O"] if maybe(0.1) else chance.sample(others, chance.choice((1, 1, 2, 3)))
    taxes = {code: [CATEGORIES[code][1]] for code in codes}
    taxes |= {code: chance.sample(("19", "7", "5.5", "7.00"), 2) for code in codes if code in TAXED}

    def one(make, *words):
        code = chance.choice(codes)
        return make(*words, cents(100_000), code, chance.choice(taxes[code]))

    invoice = copy.deepcopy(BASE)
    count = chance.choice((1, 1, 2, 5))
    invoice["BG-25"] = [one(line, str(number + 1), cents(1000), cents(5000)) for number in range(count)]
    for group, make in (("BG-20", allowance), ("BG-21", charge)):
        if maybe(0.4):
            invoice[group] = [one(make) for _ in range(chance.choice((1, 2)))]
    for terms in invoice["BG-25"]:
        for share, more in (
            (0.2, {"BG-27": [LINE_ALLOWANCE, LINE_ALLOWANCE]}),
            (0.2, {"BG-28": [LINE_CHARGE]}),
            (0.2, {"BT-134": "2026-01-01", "BT-135": "2026-01-31"}),
            (0.2, {"BT-157": "4012345000009", "BT-157-1": "0160", "P-158": [{"BT-158": "8471", "BT-158-1": "HS"}]}),
            (0.2, {"BG-32": [{"BT-160": "Colour", "BT-161": "Blue"}, {"BT-160": "Size", "BT-161": "Large"}]}),
            (0.2, {"BT-147": "1.00", "BT-148": "1000.00"}),
        ):
            if maybe(share):
                terms |= copy.deepcopy(more)
    if codes == ["O"]:
        del invoice["BT-31"]
    else:
        invoice |= REPRESENTATIVE if maybe(0.3) else {}
        invoice |= {"BT-48": "FR12345678901"} if maybe(0.3) or set(codes) & {"AE", "K"} else {}
    if maybe(0.3) or "K" in codes:
        invoice |= {"BT-72": "2026-02-27", "BT-77": "Lyon", "BT-80": "FR"}
    invoice |= chance.choice((PERIOD, {"BT-8": "3"}, {"BT-8": "35"}, {"BT-8": "432"}, {}, {}))
    for share, more in (
        (0.3, {"BT-59": "Factor AG", "BT-60": "77", "BT-61": "HRB 2"}),
        (0.3, {"BT-6": "SEK", "BT-111": cents(100_000)}),
        (0.3, {"BT-113": cents(1000), "BT-114": cents(100)}),
        (0.3, {"BG-3": [{"BT-25": "2026-0099", "BT-26": "2026-01-01"}, {"BT-25": "2026-0100", "BT-26": "2026-01-01"}]}),
        (0.3, {"BG-24": [{"BT-122": "Time sheet", "BT-123": "Hours"}]}),
    ):
        if maybe(share):
            invoice |= copy.deepcopy(more)
    # A card stands at each account, and there may be one.
    card = {"BT-81": "48", "BT-87": "XXXX1234", "BT-88": "A. Nord"}
    accounts = {"BG-17": [{"BT-84": "DE1", "BT-85": "Nord"}, {"BT-84": "DE2", "BT-85": "Nord"}]}
    invoice |= copy.deepcopy(chance.choice((card, accounts, {}, {}, {})))
    return totalled(invoice)


def places(at, before=""):
    """The places of all values and groups, with what stands there."""
    for key, value in at.items() if isinstance(at, dict) else enumerate(at, 1):
        yield "%s%s" % (before, key), value
        if not isinstance(value, str):
            yield from places(value, "%s%s/" % (before, key))


OTHERS = None, None, None, " ", "abc", "0", "-1.00", "1.234", "19", "S", "E", "O", "Z", "2026-01-15", "58", "EUR", "SEK"


def spoilt(invoice, chance):
    """The invoice with one place taken away, doubled, or of another value."""
    place, value = chance.choice(list(places(invoice)))
    if isinstance(value, str):
        # A credit note in UBL writes its due date in the payment means, also where there are none otherwise.
        return edited(invoice, {place: chance.choice(OTHERS[3:] if place == "BT-81" else OTHERS)})
    if isinstance(value, dict) and chance.random() < 0.5:
        *outer, _ = place.split("/")
        return edited(invoice, {"%s/%d" % ("/".join(outer), 1_000): value})
    return edited(invoice, {place: None})


# ---- Rule files: what they come to


def replaced(text, params):
    """The text with parameters put in: `$` and the longest name behind it, once from left to right."""
    return re.sub(r"\$([A-Za-z_][\w.\-]*)", lambda found: params.get(found.group(1), found.group(0)), text)


def inside(element, tag):
    return element.findall(SCHEMATRON + tag)


def lets_of(element, params):
    return [(replaced(one.get("name"), params), replaced(one.get("value"), params)) for one in inside(element, "let")]


def message(element, params):
    """The parts of a message: ("text", words), ("select", expression), ("name", "")."""
    parts = [("text", element.text or "")]
    for one in element:
        if one.tag == SCHEMATRON + "value-of":
            parts.append(("select", replaced(one.get("select"), params)))
        elif one.tag == SCHEMATRON + "name":
            parts.append(("name", ""))
        else:
            parts += message(one, params)
        parts.append(("text", one.tail or ""))
    return parts


def put(rule, params, kept):
    """The lets and assertions of a rule, with those of the rules that it extends."""
    lets, assertions = lets_of(rule, params), []
    for one in rule:
        if one.tag in (SCHEMATRON + "assert", SCHEMATRON + "report"):
            given = {name: replaced(value, params) for name, value in one.attrib.items()}
            assertions.append((one.tag.removeprefix(SCHEMATRON), given, message(one, params)))
        elif one.tag == SCHEMATRON + "extends":
            more = put(kept[one.get("rule")], params, kept)
            lets, assertions = lets + more[0], assertions + more[1]
    return lets, assertions


def read_rules(path):
    """Namespaces, lets of the schema, and patterns: (id, lets, rules), where a rule is (context, lets, assertions)."""
    root = tree.parse(path).getroot()
    spaces = {one.get("prefix"): one.get("uri") for one in inside(root, "ns")}
    patterns = inside(root, "pattern")
    whole = {one.get("id"): one for one in patterns if one.get("abstract") == "true"}
    kept = {rule.get("id"): rule for one in patterns for rule in inside(one, "rule") if rule.get("abstract") == "true"}
    result = []
    for one in patterns:
        if one.get("abstract") == "true":
            continue
        body = whole[one.get("is-a")] if one.get("is-a") else one
        params = {param.get("name"): param.get("value") for param in inside(one, "param")}
        own = [rule for rule in inside(body, "rule") if rule.get("abstract") != "true"]
        rules = [(replaced(rule.get("context"), params), *put(rule, params, kept)) for rule in own]
        result.append((one.get("id"), lets_of(body, params), rules))
    return spaces, lets_of(root, {}), result


def said(path):
    """What a file says beside contexts and lets: of each assertion its attributes and its message, in order."""
    return [
        (pattern, kind, given, [(sort, " ".join(text.split())) for sort, text in words])
        for pattern, _, rules in read_rules(path)[2]
        for _, _, assertions in rules
        for kind, given, words in assertions
    ]


def identifiers():
    return [given["id"] for _, _, given, _ in said(RULES["ubl"])]


def same():
    """Whether both files have the same assertions in the same order, and README.md names each; prints what differs."""
    first, second = said(RULES["ubl"]), said(RULES["cii"])
    for one, other in zip(first, second):
        if one != other:
            print("differ: %s\n    and: %s" % (one, other))
    names = identifiers()
    twice = [name for name, times in collections.Counter(names).items() if times > 1]
    page = (HERE / "README.md").read_text(encoding="utf-8").split("## Left out")[0]
    rows = [row for row in page.split("\n") if row.startswith("| BR-")]
    named_there = {name for row in rows for name in re.findall(r"BR-[A-Z0-9-]*[0-9](?:-exact)?", row.split("|")[1])}
    missing, surplus = sorted(set(names) - named_there), sorted(named_there - set(names))
    for words, some in (("twice", twice), ("not in README.md", missing), ("in README.md alone", surplus)):
        if some:
            print("%s: %s" % (words, " ".join(some)))
    fine = first == second and not twice and not missing and not surplus
    words = ", the same ones" if first == second else ""
    print("the files have %d and %d assertions%s" % (len(first), len(second), words))
    return fine


# ---- Judging. A judge is given a folder, in which `ubl` and `cii` have documents, and gives of each syntax and name
# the pairs of identifier and message that were found. A test in error has the identifier `error-in-..`.


def stylesheet(path):
    """A rule file in XSLT 3.0: each pattern is a mode, in which the first rule has the highest priority."""
    spaces, outer, patterns = read_rules(path)
    out = ['<xsl:stylesheet version="3.0" xmlns:xsl="http://www.w3.org/1999/XSL/Transform"']
    out += [" xmlns:%s=%s" % (prefix, quoteattr(uri)) for prefix, uri in spaces.items()]
    out.append('><xsl:output method="text"/>')
    out += ["<xsl:variable name=%s select=%s/>" % (quoteattr(name), quoteattr(value)) for name, value in outer]
    out.append('<xsl:template match="/">')
    out += ['<xsl:apply-templates select="/" mode="p%d"/>' % number for number in range(len(patterns))]
    out.append("</xsl:template>")
    for number, (_, lets, rules) in enumerate(patterns):
        out.append('<xsl:mode name="p%d" on-no-match="shallow-skip"/>' % number)
        for place, (context, own, assertions) in enumerate(rules):
            rank = len(rules) - place
            out.append('<xsl:template match=%s mode="p%d" priority="%d">' % (quoteattr(context), number, rank))
            for name, value in lets:
                # Those of a pattern are evaluated at the document.
                of_document = '<xsl:for-each select="/"><xsl:sequence select=%s/></xsl:for-each>' % quoteattr(value)
                out.append('<xsl:variable name=%s as="item()*">%s</xsl:variable>' % (quoteattr(name), of_document))
            out += ["<xsl:variable name=%s select=%s/>" % (quoteattr(name), quoteattr(value)) for name, value in own]
            out += [tried(kind, given, words) for kind, given, words in assertions]
            out.append('<xsl:apply-templates select="@* | node()" mode="p%d"/></xsl:template>' % number)
    return "".join(out) + "</xsl:stylesheet>"


def tried(kind, given, words):
    """An assertion in XSLT: a line where it tells something."""
    parts = {
        "text": "<xsl:text>%s</xsl:text>",
        "select": '<xsl:value-of select="%s"/>',
        "name": '%s<xsl:value-of select="local-name()"/>',
    }
    body = "".join(parts[sort] % escape(text, {'"': "&quot;"}) for sort, text in words)
    told = '<xsl:text>%s </xsl:text><xsl:variable name="said">%s</xsl:variable>' % (given["id"], body)
    told += '<xsl:value-of select="normalize-space($said)"/><xsl:text>&#10;</xsl:text>'
    test = given["test"] if kind == "report" else "not(%s)" % given["test"]
    caught = "<xsl:catch><xsl:text>error-in-%s &#10;</xsl:text></xsl:catch>" % given["id"]
    return "<xsl:try><xsl:if test=%s>%s</xsl:if>%s</xsl:try>" % (quoteattr(test), told, caught)


def by_saxon(folder):
    """One process for each rule file."""
    found = {}
    for syntax, rules in RULES.items():
        source, target, sheet = folder / syntax, folder / (syntax + "-found"), folder / (syntax + ".xsl")
        target.mkdir(exist_ok=True)
        sheet.write_text(stylesheet(rules), encoding="utf-8")
        words = ["java", "-Xmx512m", "-XX:TieredStopAtLevel=1", "-cp", SAXON, "net.sf.saxon.Transform"]
        words += ["-s:%s" % source, "-o:%s" % target, "-xsl:%s" % sheet]
        done = subprocess.run(words, capture_output=True, text=True)
        if done.returncode or done.stderr:
            sys.exit("Saxon: " + done.stderr[:5000])
        for path in target.iterdir():
            lines = path.read_text(encoding="utf-8").splitlines()
            found[syntax, path.stem] = [tuple(told.split(" ", 1)) for told in lines]
    return found


def by_program(program):
    """One process for each document; its line of counts and its status are looked at too."""

    def pairs(lines):
        for told in lines:
            word, rest = told.split(" ", 1)
            code, rest = rest.split(" ", 1) if word == "error" else ("", rest)
            name, place = rest.split(" ", 1)
            yield ("error-in-" + name if code else name), (code or place.split(' "', 1)[-1].removesuffix('"'))

    def judge(folder):
        found = {}
        for syntax, rules in RULES.items():
            for path in sorted((folder / syntax).iterdir()):
                done = subprocess.run([program, "check", "--rules", rules, path], capture_output=True, text=True)
                *lines, last = done.stdout.splitlines() or [""]
                sorts = collections.Counter(told.split(" ", 1)[0] for told in lines)
                numbers = sorts["failed"], sorts["reported"], sorts["error"], sorts["warning"] + sorts["information"]
                counts = "failed %d, reported %d, errors %d, minor %d" % numbers
                status = 1 if sorts["failed"] or sorts["error"] else 0
                if (done.returncode, done.stderr, last) == (status, "", counts):
                    found[syntax, path.stem] = list(pairs(lines))
                else:
                    found[syntax, path.stem] = [("status-%d" % done.returncode, "%s%s" % (done.stderr, last))]
        return found

    return judge


def judged(documents, judge, folder):
    """What was found in each of these documents, which are pairs of syntax and text."""
    for syntax in RULES:
        shutil.rmtree(folder / syntax, ignore_errors=True)
        (folder / syntax).mkdir()
    for number, (syntax, text) in enumerate(documents):
        (folder / syntax / ("%05d.xml" % number)).write_text(text, encoding="utf-8")
    found = judge(folder)
    return [found[syntax, "%05d" % number] for number, (syntax, _) in enumerate(documents)]


def listed(counter):
    return " ".join(sorted(counter.elements())) or "none"


def names_in(pairs):
    return collections.Counter(name for name, _ in pairs)


def try_cases(judge, folder):
    """Documents with their names and what is due: the cases in each form, spellings in one, and the examples."""
    documents = []
    for name, invoice, due in all_cases():
        for form, (syntax, write) in FORMS.items():
            documents.append(("%s (%s)" % (name, form), syntax, write(invoice), due))
    cases = len(documents)
    for name, form, invoice, old, new, due in spellings():
        syntax, write = FORMS[form]
        text = write(invoice)
        if old not in text:
            sys.exit("%s: not there: %s" % (name, old))
        documents.append(("%s (%s)" % (name, form), syntax, text.replace(old, new), collections.Counter(due.split())))
    for syntax, names in EXAMPLES.items():
        texts = [(HERE.parent / "examples" / name).read_text(encoding="utf-8") for name in names]
        documents += [("examples/" + name, syntax, text, collections.Counter()) for name, text in zip(names, texts)]
    wrong = 0
    for (name, _, _, due), pairs in zip(documents, judged([one[1:3] for one in documents], judge, folder)):
        if names_in(pairs) != due:
            wrong += 1
            print("%s: due %s; found %s" % (name, listed(due), listed(names_in(pairs))))
    due_somewhere = {name for _, _, _, due in documents for name in due}
    never = [name for name in identifiers() if name not in due_somewhere]
    if never:
        print("due in no case: %s" % " ".join(never))
    others = len(documents) - cases
    print("%d cases: %d of rules, %d of spellings and examples; %d wrong" % (len(documents), cases, others, wrong))
    return not wrong and not never


# Of each total that `totals` compares the rules that say the same of it.
TOTALS = {
    "BT-106": ("BR-CO-10",),
    "BT-107": ("BR-CO-11",),
    "BT-108": ("BR-CO-12",),
    "BT-109": ("BR-CO-13",),
    "BT-110": ("BR-CO-14",),
    "BT-112": ("BR-CO-15",),
    "BT-115": ("BR-CO-16",),
    "BT-117": ("BR-CO-17", "BR-CO-17-exact", "BR-O-09"),
}


def comparable(name, due):
    """The totals of which `totals` and the rules have to say the same, in a case where these identifiers are due."""
    terms = set(TOTALS)
    # The rule adds up the lines, the command takes BT-106.
    terms -= {"BT-109"} if due["BR-CO-10"] else set()
    # The rule takes either neighbour of half a cent; without a rate it isn't judged, and the command takes 0.
    terms -= {"BT-117"} if due["BR-48"] or "half a cent" in name else set()
    return terms


def try_totals(program, folder):
    """Whether `PROGRAM totals` and the rules BR-CO-10 to BR-CO-17 agree on the cases that it reads."""
    compared, wrong = 0, 0
    for name, invoice, due in all_cases():
        for form, (_, write) in FORMS.items():
            path = folder / "totals.xml"
            path.write_text(write(invoice), encoding="utf-8")
            done = subprocess.run([program, "totals", path], capture_output=True, text=True)
            if done.returncode not in (0, 1):
                continue
            compared += 1
            lines = [told.split(" stated ")[0].split(" ")[-1] for told in done.stdout.splitlines()[:-1]]
            terms = comparable(name, due)
            found = collections.Counter(term for term in lines if term in terms)
            wanted = collections.Counter({term: sum(due[rule] for rule in TOTALS[term]) for term in terms})
            if found != +wanted:
                wrong += 1
                print("%s (%s): totals tells %s; rules %s" % (name, form, listed(found), listed(+wanted)))
    print("%d documents compared with totals; %d wrong" % (compared, wrong))
    return compared > 0 and not wrong


def try_random(judge, folder, times, seed):
    chance = random.Random(seed)
    invoices = []
    for _ in range(times):
        spoils = chance.choice((0, 1, 1, 2, 3))
        invoice = sound(chance)
        for _ in range(spoils):
            invoice = spoilt(invoice, chance)
        invoices.append((spoils, invoice))
    documents = [(syntax, write(invoice)) for _, invoice in invoices for syntax, write in FORMS.values()]
    results = judged(documents, judge, folder)
    wrong, seen, clean = 0, set(), 0
    for number, (spoils, _) in enumerate(invoices):
        found = results[number * len(FORMS) : (number + 1) * len(FORMS)]
        first = collections.Counter(found[0])
        seen |= set(names_in(found[0]))
        clean += not first
        if any(collections.Counter(pairs) != first for pairs in found) or first and not spoils:
            wrong += 1
            told = ["%s: %s" % (form, listed(names_in(pairs))) for form, pairs in zip(FORMS, found)]
            print("invoice %d: %s" % (number, "; ".join(told)))
    words = "%d invoices (seed %d): %d without findings, %d identifiers found, %d wrong"
    print(words % (times, seed, clean, len(seen), wrong))
    return not wrong


def main():
    words = sys.argv[1:]
    if not words or words[0] in ("-h", "--help"):
        sys.exit(__doc__)
    fine = same()
    if words[0] != "--same":
        judge = by_saxon if words[0] == "--saxon" else by_program(words[0])
        with tempfile.TemporaryDirectory() as made:
            folder = pathlib.Path(words[words.index("--keep") + 1] if "--keep" in words else made)
            folder.mkdir(exist_ok=True)
            if "--random" in words:
                numbers = [int(word) for word in words[words.index("--random") + 1 :][:2] if word.isdigit()]
                times, seed = numbers + [100, 1][len(numbers) :]
                fine &= try_random(judge, folder, times, seed)
            else:
                fine &= try_cases(judge, folder)
                if words[0] != "--saxon":
                    fine &= try_totals(words[0], folder)
    sys.exit(0 if fine else 1)


if __name__ == "__main__":
    main()
