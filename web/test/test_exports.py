"""Files as examinations offices have them: exports with other columns, names in place of IDs, wrong files, and what stays as it was
sent."""

import json

import books
from case import OFFICE, YEAR
from filecase import CODE, FileCase, MARK

LECTURERS = ("Kürzel;Nachname;Vorname;Max;E-Mail\nbell;Bell Burnell;Jocelyn;2;bell@example.edu\n"
             "noether;Noether;Emmy;2;noether@example.edu\nturing;Turing;Alan;1;turing@example.edu\n")
PROJECTS = "Nr.;Titel;Betreuer;Plätze\np1;Pulsars;Prof. Dr. Bell Burnell;2\np2;Rings;Noether, Emmy;2\np3;Machines;a. turing;1\n"


class Exports(FileCase):
    def makes_and_sends(self, roll, count):
        self.makes_codes()
        self.send()
        self.browser.says(f"{roll.capitalize()}: {count} added, 0 already there.")
        saved = books.text(self.codes_file(roll, count))
        self.codes += CODE.findall(saved)
        return saved

    def shown(self, roll):
        """The rows of a table of what is in the portal, opened."""
        table = f"document.querySelector('table[aria-label={roll}]')"
        if self.browser.script(table) is None:
            self.browser.driver.execute_script(
                "[...document.querySelectorAll('summary')].find((e) => e.textContent.includes(arguments[0])).click()", roll.lower())
        self.browser.wait(lambda: self.browser.script(table), "the table")
        return self.browser.script(f"[...{table}.querySelectorAll('tbody tr')].map((row) => [...row.cells].map((cell) => cell.innerText))")

    def test_an_office_with_two_exports(self):
        """The year is set up from the exports as they are: names in two columns, addresses, lecturers by name, which are shown and
        agreed to."""
        self.choose_file("Lecturers", self.write("lehrende.csv", LECTURERS.encode("windows-1252")))
        self.sees("Lecturers: lehrende.csv", "The file has 3 rows.")
        self.assertEqual(self.rows()[0], ["2", "bell", "Jocelyn Bell Burnell", "none yet", "2"])
        saved = self.makes_and_sends("lecturers", 3)
        self.assertRegex(saved, f"^id,name,code,capacity,email\nbell,Jocelyn Bell Burnell,{CODE.pattern},2,bell@example.edu\n")
        self.choose_file("Projects", self.write("projekte.csv", PROJECTS))
        self.sees("3 lecturers stand in this file by name. Check that these are meant:",
                  "Prof. Dr. Bell Burnell → Jocelyn Bell Burnell (bell)", "Noether, Emmy → Emmy Noether (noether)",
                  "a. turing → Alan Turing (turing)")
        self.assertFalse(self.sendable())
        self.browser.press("Use these IDs")
        self.assertEqual([row[2] for row in self.rows()], ["bell", "noether", "turing"])
        self.send()
        self.browser.says("Projects: 3 added, 0 already there.")
        students = "".join(f"{7000 + n};Name {n};Vorname {n};s{n}@example.edu;5\n" for n in range(200))
        self.choose_file("Students", self.write("studierende.csv", f"Matrikelnummer;Nachname;Vorname;E-Mail;Semester\n{students}"))
        self.sees("Won’t be sent: Semester", "The file has 200 rows.")
        saved = self.makes_and_sends("students", 200)
        self.assertRegex(saved.splitlines()[1], f"^7000,Vorname 0 Name 0,{CODE.pattern},s0@example.edu$")
        slips = self.printed()
        self.assertEqual(len(slips), 200)
        self.assertIn("Vorname 7 Name 77007", slips[7])
        self.assertEqual(self.door.do(CODE.findall(saved)[3], "GET", "/me")["name"], "Vorname 3 Name 3")
        self.assertEqual([row[1:] for row in self.shown("Lecturers")], [["2", "1", "2"], ["2", "1", "2"], ["1", "1", "1"]])

    def test_an_id_is_wanted(self):
        """Once, before all else, with the number of rows; not row by row."""
        rows = "".join(f";Name {n};V{n}\n" for n in range(40))
        self.choose_file("Students", self.write("s.csv", f"Student ID;Surname;First name\n{rows}7;Roe;Ann\n"))
        self.sees("40 rows have no ID. Each row needs one that no other row has: such as the student number.")
        self.assertFalse(self.browser.script("document.querySelector('.checks')"))
        self.assertEqual(self.states()["2"], "Wrong")
        self.assertFalse(self.sendable())
        self.browser.press("Cancel")
        self.choose_file("Lecturers", self.write("l.csv", f"Surname;First name;Max\n{'Roe;Ann;2' * 1}\nSim;Bea;1\n"))
        self.sees("2 rows have no ID. Each row needs one that no other row has: such as l07.", "Choose the column for: ID.")

    def test_the_wrong_export(self):
        """The export of another roll is known by its columns, and can be used where it belongs."""
        self.choose_file("Lecturers", self.write("s.csv", "Matrikelnummer;Nachname;Vorname;Semester\n7;Roe;Ann;3\n"))
        self.sees("This looks like the “Students” file, not the “Lecturers” file. Nothing was sent.",
                  "It has a column “Matrikelnummer”, as “Students” files have.")
        self.assertFalse(self.browser.has("button", "Send"))
        self.browser.press("Use it as the “Students” file")
        self.browser.wait(lambda: self.rows() == [["2", "7", "Ann Roe", "none yet"]], "the row")
        self.browser.press("Cancel")
        self.choose_file("Students", self.write("p.csv", PROJECTS))
        self.sees("This looks like the “Projects” file", "Its columns are those of the “Projects” file.")
        self.browser.press("Cancel")
        self.choose_file("Students", self.write("l.csv", LECTURERS))
        self.sees("This looks like the “Lecturers” file")

    def test_a_name_of_two_lecturers(self):
        """Nobody is taken for another one: where two can be meant, or nobody, the row is a fault."""
        self.send_file("Lecturers", self.write("l.csv",
                                               "id,name,code,capacity\nl1,Ann Roe,k4mz-pq7w-9xya,1\nl2,Bea Roe,k4mz-qq7w-9xyb,1\n"))
        self.browser.says("Lecturers: 2 added")
        self.choose_file("Projects",
                         self.write("p.csv", "id,Supervisor,title,capacity\np,Prof. Roe,Tides,1\nq,Ann Roe,Kites,1\nr,Cyr Sim,Bells,1\n"))
        self.sees("1 lecturer stands in this file by name.", "These names fit more than one lecturer, or none that is known.",
                  "Row 2, Lecturer “Prof. Roe”: no lecturer, or more than one, is known by this name.",
                  "Row 4, Lecturer “Cyr Sim”: no lecturer, or more than one, is known by this name.")
        self.assertNotIn("Row 3,", self.text())
        self.browser.press("Use these IDs")
        self.assertFalse(self.sendable())
        self.assertEqual([row[2] for row in self.rows()], ["Prof. Roe", "Cyr Sim", "l1"])
        options = self.browser.script("[...document.querySelectorAll('optgroup[label=\"Can be meant\"] option')].map((e) => e.textContent)")
        self.assertEqual(options, ["Ann Roe (l1)", "Bea Roe (l2)"])
        self.browser.choose("Prof. Roe", "Bea Roe (l2)")
        self.browser.press("Use the chosen lecturers")
        self.browser.wait(lambda: [row[2] for row in self.rows()] == ["Cyr Sim", "l2", "l1"], "the chosen lecturer")
        self.browser.press("Leave this row out")
        self.send()
        self.browser.says("Projects: 2 added, 0 already there.")


class AsItWasSent(Exports):
    """What the page shows of those who are there is what was sent and accepted."""

    def setUp(self):
        super().setUp()
        for roll in ("lecturers", "projects", "students"):
            self.send_file(roll.capitalize(), YEAR / f"{roll}.csv")
            self.browser.says("added, 0 already there.")

    # the same tests are not run twice
    test_an_office_with_two_exports = test_an_id_is_wanted = test_the_wrong_export = test_a_name_of_two_lecturers = None

    def changed(self):
        """The lecturers without codes, two of them with other capacities and one with another name, and a new one."""
        return self.write(
            "changed.csv",
            "id,name,capacity,email\nbell,Jocelyn Bell,9,bell@example.edu\nnoether,Emmy Noether,9,\nturing,Alan "
            "Turing,1,turing@example.edu\nlovelace,Ada Lovelace,3,\n"
        )

    def takes(self):
        return {row[0].split("\n")[-1]: row[1] for row in self.shown("Lecturers")}

    def test_what_was_not_sent_changes_nothing(self):
        """Rows that are there are left out of a file without codes: where they differ it is said, and the page shows what was sent."""
        self.assertEqual(self.takes(), {"bell": "2", "noether": "2", "turing": "1"})
        self.choose_file("Lecturers", self.changed())
        self.sees("Differs from what was sent before, and is NOT changed: rows 2, 3. Ask the administrator to correct it.",
                  "3 people are already in the portal and keep their codes.")
        self.assertNotIn("the portal refuses the file", self.text())
        saved = self.makes_and_sends("lecturers", 1)
        self.assertRegex(saved, f"^id,name,code,capacity\nlovelace,Ada Lovelace,{CODE.pattern},3\n$")
        self.assertEqual(self.takes(), {"bell": "2", "lovelace": "3", "noether": "2", "turing": "1"})
        names = json.loads(self.browser.script("localStorage.getItem('portal-names')"))["lecturers"]
        self.assertEqual({key: (one["capacity"], one.get("email", ""))
                          for key, one in names}, {
                              "bell": ("2", "bell@example.edu"),
                              "noether": ("2", ""),
                              "turing": ("1", "turing@example.edu"),
                              "lovelace": ("3", "")
                          })
        self.door.move("choosing")
        self.browser.press("Refresh")
        self.browser.in_phase("Choosing")
        # bell has two projects of one place, noether three and takes two, turing one; lovelace has none
        places = sum(
            min(int(takes), sum(one["capacity"] for one in self.door.do(OFFICE, "GET", "/catalogue")["projects"] if one["lecturer"] == key))
            for key, takes in {
                "bell": 2,
                "noether": 2,
                "turing": 1
            }.items())
        facts = self.browser.script("[...document.querySelectorAll('.fact')].map((e) => e.textContent)")
        self.assertTrue(any(fact.startswith(f"Places: {places} for 5 students") for fact in facts), facts)

    def test_the_portal_refuses(self):
        """A row with a code is sent: where it differs the warning says what the portal does, and it does it."""
        text = (YEAR / "lecturers.csv").read_text().replace("Alan Turing", "Alan M. Turing")
        self.choose_file("Lecturers", self.write("l.csv", text))
        self.sees("Seems to differ from what the portal has under the same ID. If so, the portal refuses the file: row 4.")
        self.assertNotIn("NOT changed", self.text())
        self.send()
        self.browser.warns("Row 4 differs from what the portal has")

    def test_reading_asks_where_the_file_differs(self):
        """What is only read is taken for the portal's where somebody says that the administrator has corrected it."""
        self.choose_file("Lecturers", self.changed())
        said = self.answer("Read names only", "Has the administrator corrected this?", "Keep what was sent")
        self.assertIn("as far as this browser knows: rows 2, 3.", said)
        self.browser.says("Read 4 names and 2 email addresses. Nothing was sent.")
        self.assertEqual(self.takes(), {"bell": "2", "noether": "2", "turing": "1"})
        self.choose_file("Lecturers", self.changed())
        self.answer("Read names only", "Has the administrator corrected this?", "Corrected: use the file")
        self.browser.says("Read 4 names")
        self.assertEqual(self.takes(), {"bell": "9", "noether": "9", "turing": "1"})


class German(FileCase):
    def test_files_open_in_columns(self):
        """In German a file for spreadsheets has semicolons; the page reads it back, and sends what it always sends."""
        self.browser.choose("Language", "Deutsch")
        self.browser.wait(lambda: self.file_field("Datei der Studierenden"), "the page in German")
        self.choose_file("Datei der Studierenden", self.write("s.csv", 'id,name,email\nann,"Roe; Ann, Dr.",ann@example.edu\nbea,Bea,\n'))
        self.browser.press("Codes machen und speichern")
        self.browser.press("Die Datei ist da")
        self.browser.press("Senden")
        self.confirm()
        self.browser.says("Studierende: 2 hinzugefügt")
        self.browser.press("Als CSV speichern")
        path = self.downloaded(self.codes_file("students", 2).with_suffix(".csv").name)
        codes = CODE.findall(path.read_text())
        self.codes += codes
        self.assertEqual(path.read_text(),
                         f'{MARK}id;name;code;email\nann;"Roe; Ann, Dr.";{codes[0]};ann@example.edu\nbea;Bea;{codes[1]};\n')
        self.choose_file("Datei der Studierenden", path)
        self.sees("Schon im Portal: 2.")
        self.browser.press("Senden")
        self.confirm()
        self.browser.says("Studierende: 0 hinzugefügt, 2 schon vorhanden.")
        self.assertEqual(self.door.do(codes[0], "GET", "/me")["name"], "Roe; Ann, Dr.")
