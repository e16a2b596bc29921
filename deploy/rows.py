"""CSV files as the portal reads them, or as its page writes them in German: UTF-8, commas or semicolons, a header. Rows are counted from 1, without
the header.

A spreadsheet takes a cell that begins with one of `= + - @`, their full-width forms, a tab or a carriage return as a formula, which can send
other cells to a stranger. Such a cell is written with `'` in front, and so is one that begins with `'` before these. Spreadsheets begin a new
cell at each `,`, `;` or tab, as they are set, so `'` is written there as well. `read` takes each of these `'` away again, so it gives the text
that was written.
"""
import csv
import io
import re

FORMS = {
    "key": re.compile(r"[A-Za-z0-9._-]{1,16}"),
    "name": re.compile(r"[^\x00-\x1f\x7f]{1,160}"),
    "code": re.compile(r"[A-Za-z0-9-]{8,40}"),
    "capacity": re.compile(r"[0-9]{1,7}"),
}


SIGN = r"[=+\-@\t\r＝＋－＠]"
FORMULA, WRITTEN = re.compile(f"'*{SIGN}"), re.compile(f"'+{SIGN}")
# Quotes may go where a cell begins within another one.
INNER, WRITTEN_INNER = re.compile(f"([;,\t])(?=[\"']*{SIGN})"), re.compile(f"([;,\t])'(?=[\"']*{SIGN})")


class Fault(Exception):
    """A fault of a file or of one of its rows."""


def fits(form, text):
    """Whether a text has the portal's form of a key, a name, a code or a capacity."""
    if not FORMS[form].fullmatch(text):
        return False
    if form == "capacity":
        return 1 <= int(text) <= 200
    return len(text.encode(errors="surrogatepass")) <= 160 and not re.search("[\ud800-\udfff]", text)


def as_text(cell):
    """A cell as it is written, so that a spreadsheet takes it as text."""
    cell = INNER.sub(r"\1'", cell)
    return f"'{cell}" if FORMULA.match(cell) else cell


def meant(cell):
    """What a cell was before `as_text`."""
    cell = WRITTEN_INNER.sub(r"\1", cell)
    return cell[1:] if WRITTEN.match(cell) else cell


def is_formula(text):
    """Whether a spreadsheet would take a cell, or a part of it, as a formula, or `read` would take a `'` away from it."""
    return as_text(text) != text


def written(rows):
    """The text of a CSV file with these rows, which a spreadsheet takes as text."""
    text = io.StringIO(newline="")
    csv.writer(text, lineterminator="\n").writerows(map(as_text, row) for row in rows)
    return text.getvalue()


def separator(text):
    """A semicolon, where the header has more of these: so the page writes files in German. Otherwise a comma."""
    header = text.partition("\n")[0]
    return ";" if header.count(";") > header.count(",") else ","


def read(path):
    """The names of the columns, and the rows as lists of fields."""
    try:
        with open(path, "rb") as file:
            text = file.read().decode("utf-8-sig")
        records = [one for one in csv.reader(io.StringIO(text, newline=""), strict=True, delimiter=separator(text)) if one]
    except OSError as fault:
        raise Fault(f"{path} cannot be read: {fault.strerror}") from None
    except UnicodeDecodeError:
        raise Fault(f"{path} is not UTF-8") from None
    except csv.Error as fault:
        raise Fault(f"{path} is no CSV file: {fault}") from None
    if not records:
        raise Fault(f"{path} has no header")
    header, *rows = records
    for row, fields in enumerate(rows, 1):
        if len(fields) != len(header):
            raise Fault(f"row {row}: {len(fields)} fields, not {len(header)}")
    return header, [[meant(cell) for cell in row] for row in rows]
