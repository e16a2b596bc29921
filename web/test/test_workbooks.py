"""Workbooks (.xlsx): each cell as a person sees it, titles above the header, several sheets, odd archives; and those that the page
makes, as LibreOffice and openpyxl read them, where they are installed."""

import base64
import importlib.util
import shutil
import subprocess

import books
from case import ADA, BEN, CLEO, NOETHER, OFFICE, PageCase
from filecase import FileCase

READ = """
    const [data, done] = arguments;
    import('/workbook.js').then(({ readWorkbook }) => readWorkbook(Uint8Array.from(atob(data), (sign) => sign.charCodeAt(0)))).then(done,
    (fault) => done(`${fault}`));
"""
FORMATS = ["00000000", "0", "dd.mm.yyyy", "dd.mm.yyyy hh:mm", "00-00000", '"M"0000', "#,##0", "0.00", "General", "0%", "hh:mm"]


class Reading(FileCase):
    def read(self, data):
        return self.browser.driver.execute_async_script(READ, base64.b64encode(data).decode())

    def cells(self, *row, **more):
        """What a row of cells is read as."""
        return self.read(books.book({"S": [list(row)]}, **more))["sheets"][0]["rows"][0]["fields"]

    def fault(self, data):
        return self.read(data)["fault"]

    def test_cells_are_what_a_person_sees(self):
        shared = [
            "<si><t>Zoë &amp; Co</t></si>", "<si><r><t>rich </t></r><r><t>text</t></r><rPh><t>spoken</t></rPh></si>",
            "<si><t>a_x000D_b</t></si>"
        ]
        row = [
            "inline", "<c t='s'><v>0</v></c>", "<c t='s'><v>1</v></c>", "<c t='s'><v>2</v></c>", "<c><v>0.30000000000000004</v></c>",
            "<c><v>12345678901</v></c>", "<c t='b'><v>1</v></c>", "<c t='str'><f>A1</f><v>kept</v></c>", "<c><f>1+1</f><v>2</v></c>",
            "<c><f>1+1</f></c>", "<c t='e'><v>#N/A</v></c>", "<c t='d'><v>2026-11-30T00:00:00</v></c>"
        ]
        self.assertEqual(
            self.cells(*row, shared=shared),
            ["inline", "Zoë & Co", "rich text", "a\rb", "0.3", "12345678901", "TRUE", "kept", "2", "=1+1", "#N/A", "2026-11-30"])
        numbers = [(123456, 1), (3, 2), (46356, 3), (46356.75, 4), (1234567, 5), (42, 6), (1234, 7), (2, 8), (7, 9), (0.5, 10), (0.5, 11)]
        shown = ["00123456", "3", "2026-11-30", "2026-11-30 18:00", "12-34567", "M0042", "1234", "2", "7", "50%", "12:00"]
        self.assertEqual(self.cells(*numbers, formats=FORMATS), shown)
        self.assertEqual(self.cells(*numbers, formats=FORMATS, pressed=False), shown)

    def test_rows_and_sheets(self):
        hidden = books.sheet([["a", "b"], [], ["c"]], hidden=(3,))
        found = self.read(books.book({"Empty": [], "Two": hidden, "Three": [["x"]]}))["sheets"]
        self.assertEqual([(one["name"], [[row["row"], *row["fields"]] for row in one["rows"]], one["hidden"]) for one in found],
                         [("Two", [[1, "a", "b"], [3, "c"]], [3]), ("Three", [[1, "x"]], [])])
        far = books.book({
            "S": f"<worksheet xmlns='{books.MAIN}'><sheetData><row r='5'><c r='C5'><v>1</v></c><c r='AB5' "
                 "s='0'/></row><row><c><v>2</v></c></row></sheetData></worksheet>"
        })
        self.assertEqual([[row["row"], *row["fields"]] for row in self.read(far)["sheets"][0]["rows"]], [[5, "", "", "1"], [6, "2"]])
        state = books.book(
            {"Shown": [["a"]]},
            more={
                "xl/workbook.xml": f"<workbook xmlns='{books.MAIN}' xmlns:r='{books.LINKS}'><workbookPr date1904='1'/><sheets><sheet "
                                   "name='S' r:id='s0'/></sheets></workbook>"
            })
        self.assertEqual(self.read(state)["sheets"][0]["name"], "S")

    def test_odd_archives(self):
        """What could fill the memory, define entities or is no workbook is told in one word each, for a sentence."""
        good = books.book({"S": [["id", "name"], ["a", "Ann"]]})
        self.assertEqual(self.fault(books.book({"S": f"<!DOCTYPE x [<!ENTITY a 'aaaa'>]><worksheet xmlns='{books.MAIN}'/>"})), "damaged")
        self.assertEqual(self.fault(books.book({"S": "<worksheet><sheetData>"})), "damaged")
        self.assertEqual(self.fault(books.book({"S": [["a"]]}, more={"xl/sharedStrings.xml": " " * 60_000_000})), "huge")
        cells = "<c><v>1</v></c>" * 400
        self.assertEqual(
            self.fault(
                books.book({"S": f"<worksheet xmlns='{books.MAIN}'><sheetData>{f'<row>{cells}</row>' * 1100}</sheetData></worksheet>"})),
            "huge")
        self.assertEqual(
            self.fault(
                books.book({"S": f"<worksheet xmlns='{books.MAIN}'><sheetData><row><c r='ZZZ1'><v>1</v></c></row></sheetData></worksheet>"
                            })), "huge")
        self.assertEqual(self.fault(books.book({"S": []})), "empty")
        self.assertEqual(self.fault(books.archive({"a.txt": "x"})), "archive")
        self.assertEqual(self.fault(good[:-30]), "damaged")
        self.assertEqual(self.fault(good[200:]), "damaged")
        lies = bytearray(good)
        at = lies.rindex(b"PK\x01\x02")
        lies[at + 8] |= 1
        self.assertEqual(self.fault(bytes(lies).replace(b"PK\x01\x02\x14\x03\x14\x00\x00", b"PK\x01\x02\x14\x03\x14\x00\x01")), "locked")
        self.assertIn("sheets", self.read(good))
        # Chromium shows a fault of XML with a style, which the page's policy forbids, and says so
        self.assertTrue(all("inline style" in entry["message"] for entry in self.browser.driver.get_log("browser")))


class Workbooks(FileCase):
    def test_an_export_with_titles_and_a_total(self):
        """A workbook with notes on its first sheet: the sheet with the table is taken, the header is found under the titles, zeros stay,
        and the total is left out."""
        rows = [["Teilnehmerliste Modul 4711"], [], ["Nr.", "Matrikelnr.", "Nachname", "Vorname", "E-Mail"],
                *[[(n, 0), (123456 + n, 1), f"Roe{'abc'[n]}", "Ann", f"a{n}@example.edu"] for n in range(3)], ["", "Summe", (3, 0)]]
        self.choose_file("Students", self.write("s.xlsx", books.book({"Hinweise": [["Bitte Blatt 2"]], "Liste": rows}, formats=FORMATS)))
        self.sees("Sheet Liste is read, one of 2.", "Skipped above the header: row 1 Teilnehmerliste Modul 4711.",
                  "Looks like a total or a note, not like a row of its own: row 7.")
        self.assertEqual(self.rows()[1:], [[f"{n + 4}", f"0012345{6 + n}", f"Ann Roe{'abc'[n]}", "none yet"] for n in range(3)])
        self.browser.press("Leave this row out")
        self.assertEqual(self.states(), {"4": "New", "5": "New", "6": "New", "7": "Left out"})
        self.makes_codes()
        self.send()
        self.browser.says("Students: 3 added, 0 already there.")
        self.assertEqual([row[0] for row in books.rows(self.codes_file("students", 3))], ["id", "00123456", "00123457", "00123458"])

    def test_sheet_and_header_are_chosen(self):
        sheets = {"One": [["id", "name"], ["a", "Ann"]], "Two": [["Wer"], ["id", "name"], ["b", "Bea"], ["c", "Cyr"]]}
        self.choose_file("Students", self.write("s.xlsx", books.book(sheets)))
        self.browser.wait(lambda: self.rows() == [["2", "a", "Ann", "none yet"]], "the first sheet")
        self.browser.unfold(".read")
        self.browser.choose("Sheet", "Two (4 rows)")
        self.browser.wait(lambda: [row[1] for row in self.rows()] == ["b", "c"], "the second sheet")
        self.browser.unfold(".read")
        self.browser.choose("Header row", "There is no header row")
        self.sees("Choose the column for: ID, Name.")
        self.browser.choose("Column for ID", "1 – Wer")
        self.browser.choose("Column for Name", "2 – name")
        self.browser.wait(lambda: [row[1] for row in self.rows()][-2:] == ["b", "c"], "all rows")

    def test_codes_are_read_back(self):
        """The workbook that the page saves is opened again, and changes nothing."""
        self.choose_file("Lecturers", self.write("l.csv", "id,name,capacity,email\n007,Ann Roe,2,ann@example.edu\n012,=Sim,1,\n"))
        self.makes_codes()
        self.send()
        self.browser.says("Lecturers: 2 added")
        path = self.codes_file("lecturers", 2)
        self.codes += [row[2] for row in books.rows(path)[1:]]
        self.choose_file("Lecturers", path)
        self.sees("New: 0. Already in the portal: 2.")
        self.send()
        self.browser.says("Lecturers: 0 added, 2 already there.")


class Lecturers(PageCase):
    def test_an_order_in_a_workbook(self):
        """A lecturer's applicants as a workbook, and the same one, sorted otherwise, as a ranking."""
        self.door.load_rolls()
        self.door.move("choosing")
        for code in (ADA, BEN, CLEO):
            self.door.do(code, "PUT", "/choices", {"projects": ["rings"]})
        self.door.move("ranking")
        self.open(NOETHER, "Ranking")
        self.browser.press("Applicants as Excel file")
        header, *rows = books.rows(self.downloaded("applicants.xlsx"))
        self.assertEqual((header, [row[0] for row in rows]), (["id", "name", "projects"], ["ada", "ben", "cleo"]))
        path = self.write("order.xlsx", books.book({"S": [header, rows[2], rows[0], rows[1]]}))
        self.browser.driver.find_element("css selector", "input[type=file]").send_keys(str(path))
        self.assertIn("3 of 3 applicants found.", self.browser.find("dialog", "Is this your order?").text)
        self.confirm()
        self.browser.wait(lambda: self.browser.entries("Your ranking") == ["cleo", "ada", "ben"], "the order")


class Judged(FileCase):
    """The files that the page hands out, as other programs read them."""

    def setUp(self):
        super().setUp()
        self.door.load_rolls()
        self.door.move("choosing")
        self.door.do(ADA, "PUT", "/choices", {"projects": ["rings"]})
        self.door.move("ranking")
        self.door.do(OFFICE, "POST", "/ranking/fill", {})
        self.door.move("published")
        self.browser.press("Refresh")
        self.browser.in_phase("Results")
        self.browser.press("Download Excel file")
        self.result = self.downloaded("allocation.xlsx")
        self.expected = [
            line.split(",") for line in self.door.do(OFFICE, "GET", "/allocation.csv").replace('"Cruz, Cleo"', "Cruz; Cleo").splitlines()
        ]

    def same(self, rows):
        self.assertEqual([[(text or "").replace("Cruz, Cleo", "Cruz; Cleo") for text in row] for row in rows], self.expected)

    def test_the_result(self):
        self.same(books.rows(self.result))
        if importlib.util.find_spec("openpyxl"):
            import openpyxl
            sheet = openpyxl.load_workbook(self.result).active
            self.same([[one.value for one in row] for row in sheet.rows])
            self.assertEqual({one.data_type for row in sheet.rows for one in row if one.value}, {"s"})
            self.assertEqual(sheet["A2"].number_format, "@")
        if shutil.which("soffice"):
            words = [
                "soffice", f"-env:UserInstallation=file://{self.door.path}/office", "--headless", "--convert-to",
                "csv:Text - txt - csv (StarCalc):59,34,76", "--outdir", self.door.path, self.result
            ]
            subprocess.run(words, check=True, stdout=subprocess.DEVNULL, stderr=subprocess.DEVNULL)
            self.same([line.split(";") for line in (self.door.path / "allocation.csv").read_text().splitlines()])

    def test_a_lecturers_result(self):
        self.browser.sign_out()
        self.sign_in(NOETHER, "Results")
        self.browser.press("Results as Excel file")
        self.assertEqual([row[0] for row in books.rows(self.downloaded("result.xlsx"))], ["student", "ada"])
