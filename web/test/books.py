"""Workbooks (.xlsx) for the tests: made of their parts, so that each can be odd, and read again."""

import csv
import io
import re
import zipfile
from xml.etree import ElementTree
from xml.sax.saxutils import escape, quoteattr

MAIN = "http://schemas.openxmlformats.org/spreadsheetml/2006/main"
LINKS = "http://schemas.openxmlformats.org/officeDocument/2006/relationships"
PACKAGE = "http://schemas.openxmlformats.org/package/2006/relationships"


def place(row, at):
    return f"{chr(65 + at)}{row}"


def cell(row, at, value):
    """A text as an inline text; a pair as a number with the style of that number; other XML as it is."""
    if isinstance(value, tuple):
        return f'<c r="{place(row, at)}" s="{value[1]}"><v>{value[0]}</v></c>'
    if value.startswith("<c"):
        return value.replace("<c", f'<c r="{place(row, at)}"', 1)
    return f'<c r="{place(row, at)}" t="inlineStr"><is><t>{escape(value)}</t></is></c>' if value else ""


def sheet(rows, hidden=()):
    lines = []
    for n, row in enumerate(rows, 1):
        cells = "".join(cell(n, at, value) for at, value in enumerate(row))
        lines.append(f"<row r='{n}' hidden='{int(n in hidden)}'>{cells}</row>" if cells else "")
    return f"<worksheet xmlns='{MAIN}'><sheetData>{''.join(lines)}</sheetData></worksheet>"


def link(name, kind, target):
    return f"<Relationship Id='{name}' Type='{LINKS}/{kind}' Target='{target}'/>"


def links(*all_of_them):
    return f"<Relationships xmlns='{PACKAGE}'>{''.join(all_of_them)}</Relationships>"


def styles(formats):
    own = "".join(f"<numFmt numFmtId='{170 + n}' formatCode={quoteattr(one)}/>" for n, one in enumerate(formats))
    cells = "".join(f"<xf numFmtId='{170 + n}'/>" for n, _ in enumerate(formats))
    return f"<styleSheet xmlns='{MAIN}'><numFmts>{own}</numFmts><cellXfs><xf numFmtId='0'/>{cells}</cellXfs></styleSheet>"


def book(sheets, formats=(), shared=(), more=None, pressed=True):
    """The bytes of a workbook: sheets by name, the patterns of its styles 1, 2 and so on, its shared texts, and other parts over these."""
    entries = "".join(f"<sheet name={quoteattr(name)} sheetId='{n + 1}' r:id='s{n}'/>" for n, name in enumerate(sheets))
    own = [link(f"s{n}", "worksheet", f"worksheets/s{n}.xml") for n, _ in enumerate(sheets)]
    parts = {
        "_rels/.rels": links(link("r1", "officeDocument", "xl/workbook.xml")),
        "xl/workbook.xml": f"<workbook xmlns='{MAIN}' xmlns:r='{LINKS}'><sheets>{entries}</sheets></workbook>",
        "xl/_rels/workbook.xml.rels": links(*own, link("t", "styles", "styles.xml"), link("u", "sharedStrings", "/xl/sharedStrings.xml")),
        "xl/styles.xml": styles(formats),
        "xl/sharedStrings.xml": f"<sst xmlns='{MAIN}'>{''.join(shared)}</sst>",
    }
    parts |= {f"xl/worksheets/s{n}.xml": one if isinstance(one, str) else sheet(one) for n, one in enumerate(sheets.values())}
    return archive(parts | (more or {}), pressed)


def archive(parts, pressed=True):
    data = io.BytesIO()
    with zipfile.ZipFile(data, "w", zipfile.ZIP_DEFLATED if pressed else zipfile.ZIP_STORED) as file:
        for name, text in parts.items():
            file.writestr(name, text)
    return data.getvalue()


def rows(path):
    """The rows of a workbook that the page has made."""
    with zipfile.ZipFile(path) as file:
        assert file.testzip() is None
        root = ElementTree.fromstring(file.read("xl/worksheets/sheet1.xml"))
    found = []
    for line in root.iter(f"{{{MAIN}}}row"):
        fields = []
        for one in line.iter(f"{{{MAIN}}}c"):
            at = ord(re.match("[A-Z]", one.get("r"))[0]) - 65
            assert one.get("t") == "inlineStr", one.attrib
            fields += [""] * (at - len(fields)) + ["".join(text.text or "" for text in one.iter(f"{{{MAIN}}}t"))]
        found.append(fields)
    width = max(len(fields) for fields in found)
    return [fields + [""] * (width - len(fields)) for fields in found]


def text(path):
    """The same as text with commas."""
    out = io.StringIO()
    csv.writer(out, lineterminator="\n").writerows(rows(path))
    return out.getvalue()
