"""Roll files: what the page shows of one before it is sent, and files of spreadsheets."""

from selenium.webdriver.common.keys import Keys

import books
from case import YEAR
from filecase import CODE, FileCase, MARK


class Preview(FileCase):
    def test_nothing_is_sent_before_send(self):
        rows = "".join(f"s{n},Person {n},k4mz-pq7w-9x{n}d\n" for n in range(2, 7))
        path = self.write("s.csv", f"id,name,code\n{rows}")
        self.choose_file("Students", path)
        self.sees("Students: s.csv", "The file has 5 rows.", "New: 5. Already in the portal: 0.",
                  "rows can’t be changed or removed here afterwards")
        self.assertEqual(self.rows(), [[str(n), f"s{n}", f"Person {n}", "k4…"] for n in range(2, 7)])
        self.assertEqual(self.focused(), "Students: \u2068s.csv\u2069")
        self.assertEqual(self.count("students"), 0)
        self.browser.press("Cancel")
        self.assertFalse(self.browser.has("button", "Send"))
        self.assertEqual(self.focused(), "students-file")
        self.assertEqual(self.count("students"), 0)
        self.choose_file("Students", path)
        self.send()
        self.browser.says("Students: 5 added, 0 already there.")
        self.assertEqual(self.count("students"), 5)
        self.choose_file("Students", self.write("s.csv", f"id,name,code\n{rows}s7,Person 7,k4mz-pq7w-9x7d\n"))
        self.sees("New: 1. Already in the portal: 5.")

    def test_file_is_dropped(self):
        script = """
            const files = new DataTransfer();
            files.items.add(new File([arguments[0]], 'l.csv'));
            const drop = new DragEvent('drop', { dataTransfer: files, bubbles: true, cancelable: true });
            document.querySelector('#lecturers-file').dispatchEvent(drop);
            return drop.defaultPrevented
        """
        self.assertTrue(self.browser.driver.execute_script(script, (YEAR / "lecturers.csv").read_text()))
        self.sees("The file has 3 rows.")
        self.assertEqual(self.count("lecturers"), 0)
        self.send()
        self.browser.says("Lecturers: 3 added, 0 already there.")

    def test_what_looks_wrong(self):
        self.send_file("Lecturers", YEAR / "lecturers.csv")
        self.browser.says("Lecturers: 3 added")
        self.choose_file("Projects", self.write("p.csv",
                                                "id,lecturer,title,capacity\na,bell,Tides,1\nb,bell,tides,1\nc,lovelace,Looms,1\n"))
        self.sees("say of each of these that it is right, or leave the rows out",
                  "Another project of the lecturer has the same title: rows 2, 3.")
        self.sees("Row 4, Lecturer “lovelace”: no lecturer, or more than one, is known by this name.")
        self.assertFalse(self.sendable())
        self.browser.press("These 2 rows are right")
        self.assertFalse(self.sendable())
        self.browser.press("Leave this row out")
        self.assertTrue(self.sendable())
        self.choose_file("Students",
                         self.write("s.csv", "id,name,code\nann,Ann Roe,k4mz-pq7w-9xyd\nbea,Bea,secret-of-bea\ncyr,Ann Roe,short-12\n"))
        self.browser.find("dialog", "Close this file?")  # what was decided in it would be lost
        self.browser.press("Close")
        self.sees("Code is easy to guess: rows 3, 4.",
                  "The same name is here or in the portal under another ID. Is it the same person twice? rows 2, 4.")
        self.choose_file("Lecturers", self.write("l.csv", "id,name,code,capacity\nbell,Jocelyn Bell Burnell,lecturer-bell-1,2\n"))
        self.sees("Seems to differ from what the portal has under the same ID. If so, the portal refuses the file: row 2.")

    def test_errors_name_the_row_and_the_field(self):
        self.choose_file(
            "Students",
            self.write("s.csv", "ID;Name;Code\n\nann;Ann;k4mz-pq7w-9xyd\nb b;Bea;x\nann;Anna;k4mz-pq7w-9xya\ncyr;;k4mz-pq7w-9xyd\n"))
        self.sees("This file can’t be sent yet.", "Row 4, ID “b b”: use 1 to 16 letters", "Row 4, Code: use 8 to 40 letters",
                  "Row 5, ID “ann”: row 3 has the same ID with different details.", "Row 6, Name: this cell is empty.",
                  "Row 6, Code: row 3 has the same code.")
        self.assertFalse(self.sendable())
        self.choose_file("Lecturers", self.write("l.csv", "id,name,code,capacity\nl,Lee,k4mz-pq7w-9xyd,many\n"))
        self.sees("Row 2, Students at most “many”: write a whole number from 1 to 200, without words.")
        rows = "".join(f"s{n},Name {n},\n" for n in range(2001))
        self.choose_file("Students", self.write("full.csv", f"id,name,code\n{rows}"))
        self.sees("Row 2002, ID “s2000”: too many rows from here on.")
        self.assertFalse(self.browser.has("button", "Make codes and save them"))

    def test_too_large(self):
        self.choose_file("Students", self.write("large.csv", "id,name,code\n" + "x" * 1_048_576))
        self.browser.warns("too large")


class Spreadsheets(FileCase):
    """The same two students in the forms that spreadsheets give to a file."""

    ROWS = [["2", "ann", "Ann", "k4…"], ["3", "zoe", "Zoë; Müller, €", "m7…"]]
    TEXT = 'id{0}name{0}code\nann{0}Ann{0}k4mz-pq7w-9xyd\nzoe{0}"Zoë; Müller, €"{0}m7mz-pq7w-9xyd\n'

    def test_forms(self):
        forms = {
            "commas": self.TEXT.format(",").encode(),
            "a mark": self.TEXT.format(",").encode("utf-8-sig"),
            "sep": ("sep=;\r\n" + self.TEXT.format(";").replace("\n", "\r\n")).encode(),
            "tabs in UTF-16": self.TEXT.format("\t").encode("utf-16"),
            "semicolons in Windows-1252": self.TEXT.format(";").encode("windows-1252"),
            "any case": self.TEXT.format(",").replace("id,name,code", "ID,Name,CODE").encode(),
        }
        for form, data in forms.items():
            self.choose_file("Students", self.write("form.csv", data))
            self.browser.wait(lambda: self.rows() == self.ROWS, form)
            self.assertFalse(self.browser.has("combobox", "Column for ID"), form)
            self.browser.press("Cancel")
        self.choose_file("Students", self.write("form.csv", forms["semicolons in Windows-1252"]))
        self.sees("This file is in Windows-1252 and separated by semicolons. That’s fine: it is converted when you send it.")
        self.send()
        self.browser.says("Students: 2 added, 0 already there.")
        self.browser.sign_out()
        self.sign_in("m7mz-pq7w-9xyd", "Setup")
        self.assertIn("Zoë; Müller, €", self.browser.page_text())

    def test_other_order_and_blank_rows(self):
        self.choose_file("Students", self.write("order.csv", "Code;ID;Name\n;;\nk4mz-pq7w-9xyd; ann ;Ann\n"))
        self.browser.wait(lambda: self.rows() == [["3", "ann", "Ann", "k4…"]], "the row")
        self.send()
        self.browser.says("Students: 1 added, 0 already there.")
        self.assertEqual(self.door.do("k4mz-pq7w-9xyd", "GET", "/me")["key"], "ann")

    def test_columns_are_chosen(self):
        """Columns that the page does not know are chosen by the person, and what is not chosen is not sent."""
        self.choose_file("Lecturers", self.write("l.csv", "Zeichen,Wer,Wie viele,Raum\nlee,Ann Lee,3,12\n"))
        self.sees("1 row has no ID. Each row needs one that no other row has: such as l07.",
                  "Choose the column for: ID, Name, Students at most.", "Won’t be sent: Zeichen, Wer, Wie viele, Raum")
        self.assertFalse(self.browser.has("button", "Send"))
        for column, name in (("ID", "Zeichen – lee"), ("Name", "Wer – Ann Lee"), ("Students at most", "Wie viele – 3")):
            self.browser.choose(f"Column for {column}", name)
        self.sees("Won’t be sent: Raum")
        self.assertNotIn("has no ID", self.text())
        self.assertEqual(self.rows(), [["2", "lee", "Ann Lee", "none yet", "3"]])
        self.makes_codes()
        self.send()
        self.browser.says("Lecturers: 1 added, 0 already there.")
        saved = books.text(self.codes_file("lecturers", 1))
        self.codes += CODE.findall(saved)
        self.assertRegex(saved, f"^id,name,code,capacity\nlee,Ann Lee,{CODE.pattern},3\n$")

    def test_formulas(self):
        """A name that a spreadsheet takes for a formula is doubted; the file with the codes has it as a text, and is read as it was."""
        name = '=HYPERLINK("http://example.edu","Open")'
        quoted = name.replace('"', '""')
        self.choose_file("Students", self.write("s.csv", f'id,name\nann,"{quoted}"\nbea,"\'=Bea"\ncyr,Cyr\n'))
        self.sees("Name or title begins with =, +, - or @. A spreadsheet may take it for a formula: rows 2, 3.")
        self.makes_codes()
        self.send()
        self.browser.says("Students: 3 added")
        saved = self.codes_file("students", 3)
        codes = CODE.findall(books.text(saved))
        self.codes += codes
        self.assertEqual([row[1] for row in books.rows(saved)[1:]], [name, "=Bea", "Cyr"])
        self.browser.press("Save it as CSV")
        self.assertIn(f'ann,"\'{quoted}",', self.downloaded(saved.with_suffix(".csv").name).read_text())
        self.assertEqual([self.door.do(code, "GET", "/me")["name"] for code in codes], [name, "=Bea", "Cyr"])
        self.choose_file("Students", saved)
        self.browser.wait(lambda: [row[2] for row in self.rows()] == [name, "=Bea", "Cyr"], "the names")
        self.send()
        self.browser.says("Students: 0 added, 3 already there.")

    def test_template(self):
        """Each roll's columns are explained, and a file with their names alone can be kept, filled in and sent."""
        self.browser.script("document.querySelectorAll('.rolls details').forEach((fold) => { fold.open = true; })")
        self.sees("How many students the lecturer takes in total: 1 to 200.", "How many students can have the project: 1 to 200.",
                  "The ID of the lecturer, as in the lecturers file.")
        for roll, header in (("lecturers", "id,name,code,capacity,email"), ("projects", "id,lecturer,title,capacity,description,link"),
                             ("students", "id,name,code,email")):
            self.browser.press(f"Download a template for {roll}")
            self.assertEqual(self.downloaded(f"{roll}.csv").read_text(), f"{MARK}{header}\n")
        path = self.downloads / "lecturers.csv"
        path.write_text(path.read_text() + "lee,Ann Lee,k4mz-pq7w-9xyd,3,lee@example.edu\n")
        self.send_file("Lecturers", path)
        self.browser.says("Lecturers: 1 added, 0 already there.")

    def test_file_field(self):
        """The field's button speaks the page's language, is wide enough for its text, and is reached and pressed by keyboard."""
        for language, names in (("Deutsch", ("Datei der Lehrenden wählen", "Datei der Projekte wählen", "Datei der Studierenden wählen")),
                                ("English", ("Choose lecturers file", "Choose projects file", "Choose students file"))):
            self.browser.choose("Sprache" if language == "English" else "Language", language)
            for width in (1280, 390):
                self.browser.resize(width, 844)
                for name in names:
                    self.browser.wait(lambda: self.file_field(name), name)
                    label = self.browser.script(
                        "[...document.querySelectorAll('label.button')].find((e) => e.textContent === arguments[0])", name)
                    self.assertTrue(
                        self.browser.script(
                            "arguments[0].scrollWidth <= arguments[0].clientWidth && arguments[0].getBoundingClientRect().right <= "
                            "innerWidth",
                            label), name)
        self.browser.script("document.querySelector('#lecturers-file').focus()")
        self.browser.keys(Keys.TAB)
        self.browser.keys(Keys.SHIFT + Keys.TAB)
        outline = self.browser.script("getComputedStyle(document.querySelector('#lecturers-file + label')).outlineWidth")
        self.assertEqual(outline, "3px")

    def test_extra_columns(self):
        """All columns are there, and more: the page takes those that it knows, and another one can be chosen."""
        self.choose_file("Students", self.write("s.csv", "group,id,name,code,short\n1,ann,Ann Roe,k4mz-pq7w-9xyd,Annie\n"))
        self.sees("Won’t be sent: group, short")
        self.assertTrue(self.sendable())
        self.browser.unfold(".read")
        self.browser.choose("Column for Name", "short – Annie")
        self.browser.wait(lambda: self.rows() == [["2", "ann", "Annie", "k4…"]], "the other column")

    def test_file_of_another_roll(self):
        """It cannot be sent where it does not belong: the page offers to use it where it does, and nothing is lost on the way."""
        wrong = [("Students", "lecturers"), ("Lecturers", "students"), ("Projects", "lecturers"), ("Students", "projects"),
                 ("Lecturers", "projects")]
        for where, roll in wrong:
            self.choose_file(where, YEAR / f"{roll}.csv")
            name = roll.capitalize()
            self.sees(f"This looks like the “{name}” file, not the “{where}” file. Nothing was sent.",
                      f"Its columns are those of the “{name}” file.")
            self.assertFalse(self.browser.has("button", "Send"), where)
            self.assertFalse(self.browser.has("combobox", "Column for ID"), where)
            self.browser.press("Cancel")
        self.choose_file("Students", YEAR / "lecturers.csv")
        self.sees("This looks like the “Lecturers” file")
        described = self.browser.script("document.getElementById(document.activeElement.getAttribute('aria-describedby')).textContent")
        self.assertIn("This looks like the “Lecturers” file, not the “Students” file.", described)
        self.browser.press("Use it as the “Lecturers” file")
        self.sees("Lecturers: lecturers.csv", "The file has 3 rows.")
        self.assertEqual(self.focused(), "Lecturers: \u2068lecturers.csv\u2069")
        self.send()
        self.browser.says("Lecturers: 3 added, 0 already there.")
        self.assertEqual([self.count(roll) for roll in ("lecturers", "students")], [3, 0])
        self.send_file("Students", YEAR / "students.csv")
        self.browser.says("Students: 5 added, 0 already there.")
        self.assertNotIn("This looks like", self.text())

    def test_people_of_another_roll(self):
        """A file whose header says nothing is known by the people in it."""
        self.send_file("Lecturers", YEAR / "lecturers.csv")
        self.browser.says("Lecturers: 3 added")
        self.choose_file("Students", self.write("l.csv", (YEAR / "lecturers.csv").read_text().replace("capacity", "room")))
        self.sees("This looks like the “Lecturers” file", "3 of its 3 rows are already in the portal under “Lecturers”.")
        self.assertFalse(self.browser.has("button", "Send"))

    def test_column_that_is_only_mapped(self):
        """Another name of a column does not make it the file of another roll."""
        self.choose_file("Lecturers", self.write("l.csv", "id,name,rooms\nlee,Ann Lee,3\n"))
        self.sees("Choose the column for: Students at most.")
        self.assertNotIn("This looks like", self.text())
        self.browser.choose("Column for Students at most", "rooms – 3")
        self.browser.wait(lambda: self.rows() == [["2", "lee", "Ann Lee", "none yet", "3"]], "the row")
        self.assertNotIn("This looks like", self.text())

    def test_each_send_is_confirmed(self):
        """The question names what is added; the button that sends nothing is the blue one, and has the focus."""
        self.choose_file("Students", YEAR / "students.csv")
        said = self.answer("Send", "Add 5 students?", "Not now")
        self.assertIn("You can’t remove or change them later.", said)
        self.assertEqual(self.count("students"), 0)
        self.browser.press("Send")
        self.browser.find("dialog", "Add 5 students?")
        self.assertEqual(self.focused(), "Not now")
        self.assertEqual(self.browser.find("button", "Not now").get_attribute("class"), "main")
        self.assertEqual(self.browser.script("getComputedStyle(document.querySelector('dialog .risk')).fontWeight"), "600")
        self.browser.keys(Keys.ESCAPE)
        self.assertEqual(self.count("students"), 0)
        self.answer("Send", "Add 5 students?", "Add 5 students")
        self.browser.says("Students: 5 added, 0 already there.")
        self.choose_file("Students",
                         self.write("s.csv", (YEAR / "students.csv").read_text() + "ann,Ann,k4mz-pq7w-9xyd\nann,Ann,k4mz-pq7w-9xyd\n"))
        self.assertIn("Already in the portal: 5.", self.answer("Send", "Add 1 student?", "Not now"))
        self.choose_file("Students", YEAR / "students.csv")
        said = self.answer("Send", "Send 5 students again?", "Send again")
        self.assertIn("they are all in the portal already", said)
        self.browser.says("Students: 0 added, 5 already there.")

    def test_other_files(self):
        """Each kind of file that is no table gets a sentence of its own, with how to export."""
        kinds = {
            "old.xls": (b"\xd0\xcf\x11\xe0\xa1\xb1\x1a\xe1" + bytes(600), "a workbook of the older kind (.xls)"),
            "locked.xlsx": (b"\xd0\xcf\x11\xe0\xa1\xb1\x1a\xe1" + bytes(504) + "EncryptedPackage".encode("utf-16-le"),
                            "This workbook has a password."),
            "sheet.ods": (books.archive({
                "mimetype": "x",
                "content.xml": "<x/>"
            }), "an OpenDocument file"),
            "sheet.numbers": (books.archive({"Index/Document.iwa": "x"}), "In Numbers, choose “File”, “Export To”, “Excel”."),
            "sheet.xlsb": (books.archive({"xl/workbook.bin": "x"}), "(.xlsb)"),
            "all.zip": (books.archive({"a.csv": "id,name"}), "unpack it"),
            "broken.xlsx": (b"PK\x03\x04" + bytes(range(256)), "This workbook is damaged"),
            "list.pdf": (b"%PDF-1.7\n", "This is a PDF"),
            "picture.csv": (b"\x89PNG\r\n\x1a\n\x00\x00\x00\rIHDR", "This is a picture"),
            "list.rtf": (b"{\\rtf1 x}", "This is a text document."),
            "export.xls": (b"<html><table><tr><td>id</td></tr></table></html>\n<!-- -->\n", "This is a web page (HTML)"),
            "noise.csv": (bytes(range(1, 9)) * 9, "no table that this page can read"),
            "empty.csv": (b"id,name\n\n", "This file has no rows below its header."),
        }
        for name, (data, said) in kinds.items():
            self.choose_file("Students", self.write(name, data))
            self.browser.warns(f"{name}: ")
            self.browser.warns(said)
        self.assertFalse(self.browser.has("button", "Send"))
