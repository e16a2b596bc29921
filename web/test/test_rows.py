"""All rows of an office's file: they are looked through, mended and left out; IDs are made; who is there is known."""

import time

from selenium.webdriver.common.keys import Keys

from case import OFFICE, YEAR
from filecase import FileCase


class Rows(FileCase):
    """All rows can be looked through; a cell is mended where it stands, rows are left out and taken back."""

    def value(self, name, text):
        """Writes in a cell, slowly; the rows stay where they are as long as somebody writes."""
        field = self.browser.find("textbox", name)
        field.send_keys(Keys.CONTROL + "a")
        for sign in text:
            time.sleep(0.3)
            field.send_keys(sign)
        self.assertEqual(field.get_attribute("value"), text)
        field.send_keys(Keys.TAB)

    def shown(self):
        return self.browser.script("[...document.querySelectorAll('.row-states button')].map((e) => e.textContent)")

    def test_rows_are_mended_and_left_out(self):
        rows = "".join(f"p{n},bell,Title {n},{'ca. 2' if n in (30, 40) else '2'}\n" for n in range(60))
        self.send_file("Lecturers", YEAR / "lecturers.csv")
        self.browser.says("Lecturers: 3 added")
        self.choose_file("Projects", self.write("p.csv", f"id,lecturer,title,capacity\n{rows}"))
        self.sees("Row 32, Places “ca. 2”: write a whole number from 1 to 200, without words.", "Row 42, Places “ca. 2”")
        self.assertEqual(self.shown(), ["All: 60", "Wrong: 2", "New: 58"])
        self.assertEqual([row[0] for row in self.rows()], ["32", "42", *map(str, range(2, 12))])
        self.assertFalse(self.sendable())
        self.value("Places, row 32", "3")
        self.browser.wait(lambda: self.shown() == ["All: 60", "Wrong: 1", "New: 59"], "the row to be right")
        self.browser.press("Leave out row 42")
        self.browser.wait(lambda: self.shown() == ["All: 60", "New: 59", "Left out: 1"], "the row to be left out")
        self.assertTrue(self.sendable())
        self.browser.press("Left out: 1")
        self.assertEqual(self.states(), {"42": "Left out"})
        self.browser.press("Take back row 42")
        self.browser.wait(lambda: self.shown() == ["All: 60", "Wrong: 1", "New: 59"], "the row to be back")
        self.value("Places, row 42", "4")
        self.browser.wait(lambda: self.shown() == ["All: 60", "New: 60"], "all rows to be right")
        self.browser.find("searchbox", "Search rows").send_keys("p55")
        self.browser.wait(lambda: [row[0] for row in self.rows()] == ["57"], "the row that is searched for")
        self.browser.press("Change row 57")
        self.value("Title, row 57", "Tides")
        self.browser.press("Done with row 57")
        self.browser.wait(lambda: self.rows() == [["57", "p55", "bell", "Tides", "2"]], "the title")
        self.browser.find("searchbox", "Search rows").clear()
        self.send()
        self.browser.says("Projects: 60 added, 0 already there.")
        found = {one["id"]: one for one in self.door.do(OFFICE, "GET", "/catalogue")["projects"]}
        self.assertEqual([found["p30"]["capacity"], found["p40"]["capacity"], found["p55"]["title"]], [3, 4, "Tides"])

    def test_all_of_a_kind_are_left_out_by_one_question(self):
        rows = "".join(f"s{n},Name {n},{n if n > 280 else 1}@example.edu\n" for n in range(300))
        self.choose_file("Students", self.write("s.csv", f"id,name,email\n{rows}"))
        self.sees("The same email address is here or in the portal under another ID.", "and 271 more.")
        self.browser.press("Leave these 281 rows out")
        self.browser.find("dialog", "Leave 281 rows out?")
        self.confirm()
        self.browser.wait(lambda: self.shown() == ["All: 300", "New: 19", "Left out: 281"], "the rows to be left out")

    def test_ids_that_have_lost_their_zeros(self):
        """The same people as before, in a file whose IDs have lost their zeros: nothing is sent, and one press puts the zeros back."""
        people = [(f"000{12345 + n}", f"Name {n}", f"k4mz-pq7w-9x{n}d") for n in range(4)]
        self.door.do(OFFICE, "POST", "/rolls/students", ("id,name,code\n" + "".join(",".join(one) + "\n" for one in people)).encode())
        self.browser.press("Refresh")
        self.browser.says("Up to date.")
        self.choose_file("Students", self.write("s.csv", "id;name\n" + "".join(f"{int(key)};{name}\n" for key, name, _ in people)))
        self.sees("IDs have not 8 digits, as others have. Zeros in front may be lost: rows 2, 3, 4, 5.")
        self.assertFalse(self.browser.has("button", "Make codes and save them"))
        self.browser.press("Put zeros in front, up to 8 digits")
        self.sees("New: 0. Already in the portal: 4.")

    def test_letters_of_another_encoding(self):
        """Umlauts of DOS, of the Mac and of UTF-8 that was read wrong: nothing is sent before they are corrected or said to be right."""
        text = "Matrikelnummer;Nachname;Vorname\n1234567;Müller;Zoe\n1234568;Jäger;Otto\n1234569;Ames;Ada\n"
        for encoded in (text.encode("cp850"), text.encode("mac_roman"), text.encode().decode("cp1252").encode()):
            self.choose_file("Students", self.write("s.csv", encoded))
            self.sees("Letters look misread. Export the file as “CSV UTF-8” and open that, or correct them below: rows 2, 3.")
            self.assertEqual(self.states(), {"2": "Doubtful", "3": "Doubtful", "4": "New"})
            self.assertFalse(self.browser.has("button", "Make codes and save them"))
        for row, name in (("2", "Zoe Müller"), ("3", "Otto Jäger")):
            self.browser.press(f"Change row {row}")
            self.value(f"Name, row {row}", name)
            self.browser.press(f"Done with row {row}")
        self.browser.wait(lambda: self.states() == {"2": "New", "3": "New", "4": "New"}, "the names to be right")
        self.browser.find("button", "Make codes and save them")

    def test_ids_are_made(self):
        """On request, where there is no column for them; the longer file gets the same ones."""
        self.send_file("Lecturers", YEAR / "lecturers.csv")
        self.browser.says("Lecturers: 3 added")
        text = "Thema;Betreuer;Plätze\nTides;bell;1\nKites;noether;2\n"
        self.choose_file("Projects", self.write("p.csv", text))
        self.sees("2 rows have no ID.", "P001, P002 and so on.")
        self.browser.press("Make IDs")
        self.browser.wait(lambda: [row[1] for row in self.rows()] == ["P001", "P002"], "the IDs")
        self.send()
        self.browser.says("Projects: 2 added")
        self.choose_file("Projects", self.write("p.csv", text.replace("Tides", "Bells;turing;1\nTides")))
        self.browser.press("Make IDs")
        self.browser.wait(lambda: self.states() == {"2": "New", "3": "Already there", "4": "Already there"}, "the same IDs")
        self.choose_file("Lecturers", self.write("l.csv", "Name;Max\nDr. Alan Turing;1\nProf. Ada Müller;2\n"))
        self.browser.press("Make IDs")
        self.browser.wait(lambda: {row[1] for row in self.rows()} == {"turing", "mueller"}, "the IDs of lecturers")
