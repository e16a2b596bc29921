"""A year by clicks from two exports as they come: a German workbook with titles, a total and a hidden row; Excel's CSV without zeros."""

import sys

import books
from case import NOETHER, OFFICE, TOP
from filecase import FileCase

sys.path.append(str(TOP / "deploy"))
import descriptions  # noqa: E402

LECTURERS = "id,name,code,capacity\nbell,Jocelyn Bell Burnell,lecturer-bell-1,2\nnoether,Emmy Noether,lecturer-noether-1,2\n"
PROJECTS = [
    ["Abschlussarbeiten 2026/27"],
    ["Stand: 12.05.2026, Fachbereich Mathematik"],
    [],
    ["Thema", "Betreuer/in", "Plätze", "Beschreibung", "Link"],
    ["Pulsare in alten Durchmusterungen", "Prof. Dr. Bell Burnell", ("1", 1), "Sie lesen alte Daten.", "https://example.edu/p"],
    ["Ringe und ihre Ideale", "Noether, Emmy", ("1", 1), "", ""],
    ["Kometen", "Bell Burnell", ("1", 1), "=mc²: eine Formel\nin zwei Zeilen", "www.example.edu"],
    ["Zurückgezogenes Thema", "Noether", ("1", 1), "", ""],
    ["Gruppen", "E. Noether", ("1", 1), "", ""],
    ["Summe", "", ("5", 1), "", ""],
]
HIDDEN = 8
# Excel has taken the zeros from those of Ames, Bode and Cruz, whose IDs have seven digits.
STUDENTS = "Matrikelnummer;Nachname;Vorname;E-Mail\r\n" + "".join(f"{row}\r\n" for row in (
    "12345;Ames;Ada;ada@example.edu", "12346;Bode;Ben;ben@example.edu", "12347;Cruz;Cleo;", "1234568;Dahl;Dora;dora@example.edu",
    "1234569;Eke;Emil;emil@example.edu", "1234570;Müller;Zoë;", "1234571;Gross;Gil;"))
KEYS = ["0012345", "0012346", "0012347", "1234568", "1234569", "1234570", "1234571"]

LISTS = {"0012345": "P001 P002", "0012346": "P001", "1234568": "P002 P005", "1234569": "P002", "0012347": "P001"}


class Clerk(FileCase):
    def test_year(self):
        self.send_file("Lecturers", self.write("l.csv", LECTURERS))
        self.browser.says("Lecturers: 2 added")
        self.projects()
        self.students()
        self.take("Open choosing", "Open choosing now?", "Choosing")
        for key, projects in LISTS.items():
            self.choose(key, projects.split())
        self.sign_in(OFFICE, "Choosing")
        self.sees("With a list: 5 of 7 students")
        self.take("Open ranking", "Open ranking now?", "Ranking")
        self.ranks()
        self.sign_in(OFFICE, "Ranking")
        self.take("Publish results", "Publish the results now?", "Results")
        self.result()
        self.second_round()

    def projects(self):
        """The header is found under the titles; the total and the hidden row are left out, IDs made, and names agreed to."""
        sheet = books.sheet(PROJECTS, hidden=(HIDDEN, ))
        book = books.book({"Hinweise": [["Bitte nicht ändern"]], "Themen": sheet}, formats=["0"])
        self.choose_file("Projects", self.write("themen.xlsx", book))
        self.sees("Skipped above the header", "5 rows have no ID.")
        self.browser.press("Make IDs")
        self.sees("Looks like a total or a note, not like a row of its own: row 10.",
                  "Hidden or filtered out in the spreadsheet, but it would be sent: row 8.")
        self.assertFalse(self.sendable())
        while self.browser.find_all("button", "Leave this row out"):
            self.browser.find_all("button", "Leave this row out")[0].click()
        self.sees("4 lecturers stand in this file by name.", "Jocelyn Bell Burnell (bell)", "Emmy Noether (noether)")
        self.browser.press("Use these IDs")
        self.sees("2 projects have a description or a link.", "A link does not begin with https://")
        self.browser.press("Save descriptions")
        self.send()
        self.browser.says("Projects: 4 added, 0 already there.")
        found = descriptions.described(self.downloaded("descriptions.csv"))
        self.assertEqual([(key, one[1:]) for key, one in found.items()], [
            ("P001", ("Pulsare in alten Durchmusterungen", "bell", "Sie lesen alte Daten.", "https://example.edu/p")),
            ("P003", ("Kometen", "bell", "=mc²: eine Formel\nin zwei Zeilen", "")),
        ])
        there = self.door.do(OFFICE, "GET", "/catalogue")["projects"]
        self.assertEqual([(one["id"], one["title"], one["lecturer"]) for one in there], [
            ("P001", "Pulsare in alten Durchmusterungen", "bell"), ("P002", "Ringe und ihre Ideale", "noether"),
            ("P003", "Kometen", "bell"), ("P005", "Gruppen", "noether")])

    def students(self):
        """The zeros come back by one press; the file of codes is there before anything is sent."""
        self.choose_file("Students", self.write("studierende.csv", STUDENTS.encode("windows-1252")))
        self.sees("IDs have not 7 digits, as others have. Zeros in front may be lost: rows 2, 3, 4.")
        self.assertFalse(self.browser.has("button", "Send") and self.sendable())
        self.browser.press("Put zeros in front, up to 7 digits")
        self.makes_codes()
        self.assertEqual(self.count("students"), 0)
        rows = books.rows(self.codes_file("students", 7))
        self.assertEqual([row[0] for row in rows[1:]], KEYS)
        self.codes_of = {row[0]: row[2] for row in rows[1:]}
        self.codes += self.codes_of.values()
        self.send()
        self.browser.says("Students: 7 added, 0 already there.")

    def take(self, button, question, phase):
        self.answer(button, question)
        self.browser.in_phase(phase)
        if phase != "Results":
            self.browser.sign_out()

    def choose(self, key, projects):
        self.sign_in(self.codes_of[key], "Choosing")
        for project in projects:
            self.browser.press(f"Add *, {project}")
        self.browser.press("Save list")
        self.browser.says("Saved")
        self.browser.sign_out()

    def ranks(self):
        """One lecturer ranks in Excel, which takes the zeros and is given ranks; the other one by one."""
        self.sign_in("lecturer-bell-1", "Ranking")
        self.browser.press("Download applicants")
        head, *rows = self.downloaded("applicants.csv").read_text(encoding="utf-8-sig").splitlines()
        self.assertEqual([row.split(",")[0] for row in rows], ["0012345", "0012346", "0012347"])
        changed = "".join(f"{int(row.split(',')[0])};{row.split(',')[1]};{rank}\r\n" for row, rank in zip(rows, (3, 1, 2)))
        self.browser.unfold("details:has(textarea)")
        path = self.write("applicants.csv", f"id;name;Rang\r\n{changed}".encode("windows-1252"))
        self.browser.driver.find_element("css selector", "input[type=file]").send_keys(str(path))
        said = self.browser.find("dialog", "Is this your order?").text.replace("\u2068", "").replace("\u2069", "")
        self.assertIn("3 of 3 applicants found. Ordered by: column “Rang”, smallest number first.", said)
        self.confirm()
        self.browser.wait(lambda: self.browser.entries("Your ranking") == ["0012346", "0012347", "0012345"], "the order")
        self.browser.press("Save ranking")
        self.browser.says("Saved")
        self.browser.sign_out()
        self.sign_in(NOETHER, "Ranking")
        for key in ("1234568", "1234569", "0012345"):
            self.browser.press(f"Add *, {key}")
        self.browser.press("Save ranking")
        self.browser.says("Saved")
        self.browser.sign_out()

    def result(self):
        """Ben has P001 and Dora P002; Ada, Cleo and Emil had a list and no place, Zoë and Gil no list."""
        self.sees("With a project: 2 of 7 students", "Without a list: 2. With a list, but without a place: 3.")
        self.browser.press("Download Excel file")
        rows = books.rows(self.downloaded("allocation.xlsx"))
        self.assertEqual([[row[0], row[2]] for row in rows[1:]],
                         [["0012345", ""], ["0012346", "P001"], ["0012347", ""], ["1234568", "P002"], ["1234569", ""], ["1234570", ""],
                          ["1234571", ""]])
        self.sees("When you are done", "Has a student dropped out, or does a lecturer leave?", "ask the administrator to close the year")

    def second_round(self):
        self.answer("Open second round", "Open the second round now?")
        self.browser.in_phase("Choosing")
        self.browser.sign_out()
        for key, project in (("0012345", "P003"), ("1234570", "P005")):
            self.choose(key, [project])
        self.sign_in(OFFICE, "Choosing")
        self.take("Open ranking", "Open ranking now?", "Ranking")
        for code in ("lecturer-bell-1", NOETHER):
            self.sign_in(code, "Ranking")
            self.browser.press("Save ranking")  # one applicant each
            self.browser.says("Saved. Your ranking has 1 student.")
            self.browser.sign_out()
        self.sign_in(OFFICE, "Ranking")
        self.take("Publish results", "Publish the results now?", "Results")
        self.sees("With a project: 4 of 7 students", "The second round is published. There are no further steps.", "When you are done")
        self.browser.sign_out()
        self.sign_in(self.codes_of["0012345"], "Results")
        self.sees("Your project is Kometen, with Jocelyn Bell Burnell.")
