"""A second clerk with the longer file: the portal is asked who of it is there, by files that it has to refuse. Nothing changes by that."""

import json
import random
import shutil
import sqlite3
import tempfile

import books
from case import OFFICE
from filecase import FileCase

TABLES = "SELECT name FROM sqlite_master WHERE type = 'table' ORDER BY name"


class Comparing(FileCase):
    """Of lecturers without a project, as of students with a list, the portal tells the office nothing but how many there are."""

    def world(self):
        """All rows of all tables, from a copy of the database and its log."""
        with tempfile.TemporaryDirectory() as folder:
            for file in self.door.path.glob("year.db*"):
                shutil.copy(file, folder)
            link = sqlite3.connect(f"{folder}/year.db")
            rows = {name: sorted(map(repr, link.execute(f'SELECT * FROM "{name}"'))) for (name, ) in link.execute(TABLES).fetchall()}
            link.close()
            return rows

    def rolls_sent(self):
        """The replies to the files that the browser has sent so far."""
        replies = []
        for entry in self.browser.driver.get_log("performance"):
            message = json.loads(entry["message"])["message"]
            if message["method"] == "Network.requestWillBeSent":
                self.requested.append(message["params"]["request"]["url"])
            if message["method"] == "Network.responseReceived" and "/rolls/" in message["params"]["response"]["url"]:
                replies.append(message["params"]["response"]["status"])
        return replies

    def enter(self, keys, roll="lecturers"):
        """These people are sent by another browser."""
        more = ",3" if roll == "lecturers" else ""
        rows = "".join(f"{key},Name of {key},kept-{roll}-{at:04d}{more}\n" for at, key in enumerate(keys))
        head = "id,name,code" + (",capacity" if more else "")
        self.door.do(OFFICE, "POST", f"/rolls/{roll}", f"{head}\n{rows}".encode())
        self.browser.press("Refresh")
        self.browser.says("Up to date.")

    def compare(self, there, keys, roll="lecturers"):
        """Compares a file of these keys, and answers what the page says of it."""
        more = ";3" if roll == "lecturers" else ""
        text = "id;name" + (";capacity" if more else "") + "\n" + "".join(f"{key};Name of {key}{more}\n" for key in keys)
        before = self.world()
        self.rolls_sent()
        self.choose_file(roll.capitalize(), self.write("longer.csv", text))
        self.browser.press("Compare with the portal")
        fresh = len(set(keys) - set(there))
        self.sees(f"New: {fresh}. Already in the portal: {len(set(keys) & set(there))}.")
        self.assertEqual(self.world(), before)
        replies = self.rolls_sent()
        self.assertGreater(len(replies), 0)
        self.assertEqual(set(replies), {409})
        self.browser.press("Cancel")

    def test_no_file_changes_anything(self):
        """Nobody of the file is there, all are, the first, the last, one alone; IDs that differ by case, and those that lost zeros."""
        there = [f"s{n:03d}" for n in range(60)] + ["0007", "A.b-c_d", "zz"]
        self.enter(there)
        rest = [f"t{n:03d}" for n in range(40)]
        for keys in (rest, there, ["s000", *rest], [*rest, "s059"], ["s000"], ["t000"], ["7", "0007", "a.B-C_D", "A.b-c_d", "S001"]):
            with self.subTest(keys=keys[:2], count=len(keys)):
                self.compare(there, keys)

    def test_any_mixture(self):
        """Files and portals by chance."""
        chance = random.Random(7)
        there = [f"k{n}" for n in range(80) if chance.random() < 0.5]
        self.enter(there)
        for _ in range(3):
            keys = chance.sample([f"k{n}" for n in range(80)], chance.randint(1, 80))
            self.compare(there, keys)

    def test_how_far_it_is_and_cancelling(self):
        """It tells how far it is; after Cancel nothing more is asked, and nothing was added."""
        there = [f"s{n:03d}" for n in range(120)]
        self.enter(there)
        before = self.world()
        text = "id;name;capacity\n" + "".join(f"s{n:03d};Name {n};3\n" for n in range(140))
        self.choose_file("Lecturers", self.write("longer.csv", text))
        self.browser.slow(100)
        try:
            self.browser.press("Compare with the portal")
            self.browser.says("Compared ")
            self.browser.press("Cancel")
            self.browser.wait(lambda: not self.browser.has("button", "Send"), "the file to be closed")
            self.browser.wait(lambda: not self.rolls_sent() and not self.rolls_sent(), "no more requests")
        finally:
            self.browser.slow(0)
        self.assertEqual(self.world(), before)
        self.assertEqual(self.count("lecturers"), 120)

    def test_one_press_and_the_new_ones(self):
        """280 of 283 are there: after one press the other three get codes, and they alone are added."""
        there = [f"s{n:03d}" for n in range(280)]
        self.enter(there)
        keys = [*there, "late-1", "late-2", "late-3"]
        text = "id;name;capacity\n" + "".join(f"{key};Name of {key};3\n" for key in keys)
        self.choose_file("Lecturers", self.write("longer.csv", text))
        self.browser.press("Compare with the portal")
        self.browser.wait(lambda: "New: 3. Already in the portal: 280." in self.text(), "who is new", wait=300)
        self.makes_codes()
        self.send()
        self.browser.says("Lecturers: 3 added, 0 already there.")
        self.assertEqual(self.count("lecturers"), 283)
        self.codes += [row[2] for row in books.rows(self.codes_file("lecturers", 3))[1:]]
