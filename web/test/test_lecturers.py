"""Lecturers of a department of 200 students, on a desk and on a phone: rankings of many applicants, drafts, filled rankings, results,
the second round."""

import json

from case import OFFICE
from largecase import LargeCase

WAITING = ("[...document.querySelectorAll('ul[aria-label=Applicants] li:not([hidden])')].map((e) => "
           "e.querySelector('.chosen').textContent.split(' ')[0])")
FILLED = "This ranking is in ID order. If you did not make it, the office filled it in"


class LecturerCase(LargeCase):
    def applicants(self, key):
        """What the portal itself tells: who chose a project of a lecturer, by key, with the name and the projects."""
        found = {}
        for project in self.ask(key, "/applicants")["projects"]:
            for one in project["applicants"]:
                found.setdefault(one["key"], (one["name"], []))[1].append(project["id"])
        return dict(sorted(found.items()))

    def saved(self, key):
        return self.ask(key, "/ranking")["students"]


class Rankings(LecturerCase):
    def setUp(self):
        super().setUp()
        self.load("ranking")
        self.key = "l01"
        self.people = self.applicants(self.key)

    def open_as(self, key):
        self.open(self.large.codes[key], "Ranking")

    def waiting(self):
        return self.browser.script(WAITING)

    def test_search_and_sort(self):
        """Applicants are found by name, without accents too, shown for one project, and sorted by name and by project."""
        self.open_as(self.key)
        keys = list(self.people)
        self.assertGreater(len(keys), 40)
        for width, _ in self.sizes():
            self.assertEqual(self.waiting(), keys)
            field = self.browser.find("searchbox", "Search applicants")
            field.send_keys("muller")
            self.assertEqual(self.waiting(), [key for key in keys if "Müller" in self.people[key][0]])
            found = self.waiting()[0]
            for key in self.waiting():
                self.browser.press(f"Add {self.people[key][0]}, {key}")
            self.assertEqual(self.browser.focused().accessible_name, "Search applicants")  # those who are left are to be searched
            self.assertEqual(self.browser.entries("Your ranking")[0], found)
            self.browser.press("Discard changes")
            field.clear()
            field.send_keys("nobody has this name")
            self.sees("No applicant matches.")
            field.clear()
            field.send_keys(" ")
            self.browser.choose("Sort by", "Name")
            surnames = [self.people[key][0] for key in self.waiting()]
            latin = [name for name in surnames if name[0].isascii()]
            self.assertEqual([name[0] for name in latin], sorted(name[0] for name in latin))
            self.browser.choose("Sort by", "Project")
            titles = [self.title(self.people[key][1][0]) for key in self.waiting()]
            self.assertEqual(titles, sorted(titles))
            project = self.people[keys[0]][1][0]
            self.browser.choose("Show applicants for", self.title(project))
            self.assertEqual(sorted(self.waiting()), [key for key in keys if project in self.people[key][1]])
            self.browser.choose("Show applicants for", "All your projects")
            self.browser.choose("Sort by", "ID")
            self.assertLessEqual(self.browser.script("document.documentElement.scrollWidth"), width)

    def test_rest(self):
        """The rest is added in the order of the IDs and saved at once; the page then shows what was added; this browser knows that it
        saved it."""
        self.open_as(self.key)
        keys = list(self.people)
        for _ in self.sizes():
            self.assertFalse(self.browser.find("button", "Save ranking").is_enabled())
            self.browser.press(f"Add {self.people[keys[3]][0]}, {keys[3]}")
            self.browser.press("Add the rest in ID order")
            self.assertEqual(self.browser.entries("Your ranking"), [keys[3], *keys[:3], *keys[4:]])
            shown = ("((r) => r.top >= 0 && r.bottom <= "
                     "document.querySelector('.dock').getBoundingClientRect().top)(document.querySelector(`ol "
                     "li[data-key='${arguments[0]}']`).getBoundingClientRect())")
            self.browser.wait(lambda: self.browser.script(shown, keys[0]), "the first of the rest in view")
            self.browser.press("Undo")
            self.browser.press("Undo")
            self.assertEqual(self.browser.entries("Your ranking"), [])
        self.browser.press("Add the rest in ID order and save")
        self.browser.says(f"Saved. Your ranking has {len(keys)} students.")
        self.assertEqual(self.saved(self.key), keys)
        self.browser.sign_out()
        self.sign_in(self.large.codes[self.key], "Ranking")
        self.assertNotIn(FILLED, self.text())

    def test_order(self):
        """An order is pasted, one ID a line, or opened as the sorted file of the applicants. What is no applicant is named. It stands
        first."""
        self.open_as(self.key)
        keys = list(self.people)
        tops = [
            self.browser.find("button", name).rect["y"]
            for name in ("Applicants as Excel file", "Open a file", f"Add {self.people[keys[0]][0]}, {keys[0]}")
        ]
        self.assertEqual(tops, sorted(tops))
        self.browser.press("Download applicants")
        head, *rows = self.downloaded("applicants.csv").read_text(encoding="utf-8-sig").splitlines()
        self.assertEqual(head, "id,name,projects")
        self.assertEqual([row.split(",")[0] for row in rows], keys)
        self.browser.unfold("details:has(textarea)")
        field = self.browser.find("textbox", "IDs or names, best first")
        others = [f"s99{n}" for n in range(10, 22)]
        field.send_keys(f"{keys[5]}\n\n {keys[2]} \n{keys[5]}\n" + "\n".join(others))
        said = self.order()
        for part in (f"2 of {len(keys)} applicants found.", f"Not in it, and so without a position: {len(keys) - 2}.",
                     f"More than once in it; the first time counts: {self.people[keys[5]][0]} ({keys[5]}).",
                     "Not understood: " + ", ".join(others[:10]) + " and 2 more."):
            self.assertIn(part, said)
        self.browser.says("Your ranking now has 2 students, in this order. Nothing is saved yet.")
        self.assertEqual(self.browser.entries("Your ranking"), [keys[5], keys[2]])
        field.clear()
        field.send_keys("nothing\nof\nthis")
        self.browser.press("Use this order")
        self.browser.warns("No applicant was found in it. Your ranking is as it was.")
        self.assertEqual(self.browser.entries("Your ranking"), [keys[5], keys[2]])
        sorted_file = self.write("sorted.csv",
                                 "\ufeffname;id;projects\r\n" + "".join(f"{self.people[key][0]};{key};\r\n" for key in keys[::-1]))
        self.browser.driver.find_element("css selector", "input[type=file]").send_keys(str(sorted_file))
        self.assertIn(f"{len(keys)} of {len(keys)} applicants found.", self.order(press=False))
        self.browser.says(f"Your ranking now has {len(keys)} students, in this order.")
        self.browser.press("Save ranking")
        self.browser.says("Saved")
        self.assertEqual(self.saved(self.key), keys[::-1])

    def order(self, answer="Use this order", press=True):
        """What was understood of an order, which is taken or not."""
        if press:
            self.browser.press("Use this order")
        said = self.plain(self.browser.find("dialog", "Is this your order?").text)
        self.browser.driver.execute_script(
            "[...document.querySelectorAll('dialog button')].find((e) => e.textContent === arguments[0]).click()", answer)
        return said

    def open_order(self, text):
        self.browser.driver.find_element("css selector", "input[type=file]").send_keys(str(self.write("order.csv", text)))

    def test_order_by_ranks(self):
        """A column of ranks decides; who shares a rank is put in order first, and what is not clear is asked."""
        self.open_as(self.key)
        keys = list(self.people)
        rows = [f"{self.people[key][0]};{key};{len(keys) - max(at, 1)}\n" for at, key in enumerate(keys)]
        self.open_order("name;id;Rang\n" + "".join(rows))
        dialog = self.browser.find("dialog", "Is this your order?")
        self.assertIn("Ordered by: column “Rang”, smallest number first.", self.plain(dialog.text))
        self.assertIn(f"2 share the number {len(keys) - 1}. Who comes first?", dialog.text)
        self.browser.press(f"Move {self.people[keys[1]][0]}, {keys[1]} up")
        self.order(press=False)
        self.browser.wait(lambda: self.browser.entries("Your ranking") == [*keys[:1:-1], keys[1], keys[0]], "the order by ranks")
        self.open_order("id;name\n" + "".join(f"{key};{self.people[key][0]}\n" for key in keys))
        self.assertIn("This is exactly the order in which the portal gave you the applicants: by ID.", self.order("Go back", press=False))
        self.assertEqual(self.browser.entries("Your ranking")[0], keys[-1])
        self.open_order("id;ECTS\n" + "".join(f"{key};{30 * (at % 5)}\n" for at, key in enumerate(keys)))
        self.browser.find("dialog", "What decides the order?")
        self.browser.driver.execute_script(
            "[...document.querySelectorAll('dialog button')].find((e) => e.textContent.includes('largest')).click()")
        self.assertIn("numbers are shared. Those who share one stand as in your rows", self.order("Go back", press=False))

    def test_a_ranking_is_searched(self):
        """In a long ranking a search shows who is meant, with the positions; and what was refused goes with the next change."""
        self.open_as(self.key)
        keys = list(self.people)
        self.browser.unfold("details:has(textarea)")
        self.browser.find("textbox", "IDs or names, best first").send_keys("nobody at all")
        self.browser.press("Use this order")
        self.browser.warns("No applicant was found in it.")
        self.browser.press("Add the rest in ID order")
        self.browser.wait(lambda: self.browser.text("alert") == "", "the refusal to go")
        field = self.browser.find("searchbox", "Search your ranking")
        field.send_keys("mueller")
        shown = "[...document.querySelectorAll('.own .ordered > li:not([hidden])')].map((e) => e.dataset.key)"
        wanted = [key for key in keys if "Müller" in self.people[key][0]]
        self.assertEqual(self.browser.script(shown), wanted)
        place = self.browser.find("spinbutton", f"Position of {self.people[wanted[-1]][0]}, {wanted[-1]}")
        self.assertEqual(place.get_attribute("value"), f"{keys.index(wanted[-1]) + 1}")
        place.click()
        place.send_keys("1\n")  # it takes the place of the number that stood there
        self.browser.wait(lambda: self.browser.entries("Your ranking")[0] == wanted[-1], "the first position")
        self.browser.resize(800, 900)
        self.browser.driver.execute_script("document.querySelector('.own').scrollIntoView()")
        bottom, top = self.browser.script(
            "[document.querySelector('.columns > .whole').getBoundingClientRect().bottom, "
            "document.querySelector('.own').getBoundingClientRect().top]"
        )
        self.assertLessEqual(bottom, top)  # in a narrow window the applicants do not lie over the ranking

    def test_one_applicant(self):
        """Whoever has one applicant saves the ranking by one press: there is nothing to put in order."""
        key = next(one["id"] for one in self.large.lecturers if len(self.applicants(one["id"])) == 1)
        self.open_as(key)
        self.sees("You have one applicant. Save this ranking, and you’re done.", "Not saved yet")
        for name in ("Applicants", "Search applicants", "Last resort"):
            self.assertNotIn(name, self.text())
        self.browser.press("Save ranking")
        self.browser.says("Saved. Your ranking has 1 student.")
        self.assertEqual(self.saved(key), list(self.applicants(key)))

    def test_answers(self):
        """How it is decided and who sees what is told when it is asked for."""
        self.open_as(self.key)
        self.browser.driver.find_element("css selector", ".decided > summary").click()
        self.browser.wait(lambda: "Who sees what?" in self.text(), "the answers")
        self.sees("the portal shows a ranking to the code of its lecturer alone", "whoever keeps the file of codes could sign in as",
                  "This favours low IDs", "If the list has every project that the student would take, waiting for the second round gains")

    def test_order_as_people_write_it(self):
        """IDs in another case with ranks and names beside them, or names alone; what would leave the ranking is asked first."""
        many = max(self.large.lecturers, key=lambda one: len(self.applicants(one["id"])))["id"]
        people = self.applicants(many)
        keys = sorted(people)
        names = [name for name, _ in people.values()]
        alone = [key for key in keys if names.count(people[key][0]) == 1]
        self.assertGreater(len(keys), 60)
        self.open_as(many)
        self.browser.unfold("details:has(textarea)")
        self.paste("\n".join(f"{at + 1}. {key.upper()} {people[key][0]}" for at, key in enumerate(keys[::-1])))
        self.browser.wait(lambda: self.browser.entries("Your ranking") == keys[::-1], "the order that was pasted")
        self.paste("\n".join(people[key][0] for key in alone[:3]) + "\nnobody at all", "Go back")
        self.assertEqual(self.browser.entries("Your ranking"), keys[::-1])
        self.paste("\n".join(people[key][0] for key in alone[:3]) + "\nnobody at all")
        self.browser.says("Your ranking now has 3 students, in this order.")
        self.assertEqual(self.browser.entries("Your ranking"), alone[:3])
        self.browser.press("Undo")
        self.assertEqual(self.browser.entries("Your ranking"), keys[::-1])
        self.browser.press("Save ranking")
        self.browser.says("Saved")
        self.assertEqual(self.saved(many), keys[::-1])

    def paste(self, text, answer=None):
        field = self.browser.find("textbox", "IDs or names, best first")
        self.browser.driver.execute_script("arguments[0].value = arguments[1]", field, text)
        said = self.order(answer or "Use this order")
        if answer:
            for part in ("of your ranking aren’t in this order, and would leave it.", "Not understood: nobody at all."):
                self.assertIn(part, said)

    def test_drafts_and_late(self):
        """A ranking that is not whole survives a reload; one that was not saved before the results came stays to read."""
        self.open_as(self.key)
        keys = list(self.people)
        for key in keys[3:5]:
            self.browser.press(f"Add {self.people[key][0]}, {key}")
        self.reload("Ranking")
        self.browser.says("Your unsaved changes are still here.")
        self.assertEqual(self.browser.entries("Your ranking"), keys[3:5])
        self.browser.press("Add the rest in ID order")
        self.door.do(OFFICE, "POST", "/ranking/fill", {})
        self.door.move("published")
        self.browser.press("Save ranking")
        self.browser.warns("What you changed after it stays on this page, to read and copy.")
        self.browser.in_phase("Results")
        for _ in self.sizes():
            self.assertEqual(self.parts(), ["Your students", "Your ranking", "Not saved in time", "Your projects"])
            shown = self.browser.script(
                "[...document.querySelectorAll(\"ol[aria-label='Not saved in time'] .titled\")].map((e) => "
                "e.querySelector('bdi').textContent)"
            )
            self.assertEqual(shown, [self.people[key][0] for key in [*keys[3:5], *keys[:3], *keys[5:]]])
            self.sees(f"{FILLED}.")

    def test_filled(self):
        """A ranking that the office filled in is told from one that this browser saved."""
        self.door.do(OFFICE, "POST", "/ranking/fill", {})
        self.open_as(self.key)
        for _ in self.sizes():
            self.sees(f"{FILLED}; you can still change it.")
        first, second = list(self.people)[:2]
        self.browser.press(f"Move {self.people[second][0]}, {second} up")
        self.browser.press("Save ranking")
        self.browser.says("Saved")
        self.assertNotIn(FILLED, self.text())
        self.browser.press(f"Move {self.people[first][0]}, {first} up")
        self.browser.press("Save ranking")
        self.browser.says("Saved")
        self.browser.open(self.door.address)
        self.browser.in_phase("Ranking")
        self.assertEqual(self.saved(self.key), list(self.people))
        self.assertNotIn(FILLED, self.text())

    def test_layout(self):
        """No button is cut, in German too; what somebody chose stands beside the word; on a phone an entry has its arrows beside its
        name."""
        self.open_as(self.key)
        self.browser.choose("Language", "Deutsch")
        self.browser.find("button", "Abmelden")
        self.browser.wait(lambda: self.browser.script("document.querySelector('.chosen') !== null"), "the applicants")
        for _ in self.sizes():
            cut = ("[...document.querySelectorAll('button')].filter((e) => e.offsetParent && e.scrollWidth > e.clientWidth).map((e) => "
                   "e.textContent)")
            self.assertEqual(self.browser.script(cut), [])
        first = list(self.people)[0]
        line = ("new Set([...document.querySelector('.chosen').querySelectorAll('span, bdi:first-of-type')].map((e) => "
                "Math.round(e.getClientRects()[0].top))).size")
        self.assertEqual(self.browser.script(line), 1)
        self.browser.press(f"Hinzufügen: {self.people[first][0]}, {first}")
        parts = ("((e) => ['.handle', '.titled', '.up', '.down', '.remove'].map((name) => "
                 "e.querySelector(name).getBoundingClientRect()))(document.querySelector('ol.ordered > li'))")
        handle, titled, up, down, remove = self.browser.script(parts)
        self.assertGreaterEqual(handle["width"], 24)
        for button in (up, down, remove):
            self.assertGreaterEqual(button["left"], titled["right"])
            self.assertTrue(min(button["width"], button["height"]) >= 24)
        self.assertLessEqual(self.browser.script("document.querySelector('ol.ordered > li').offsetHeight"), 84)


class Phases(LecturerCase):
    def describe(self):
        projects = [{
            **one, "description": f"<b>About</b> {one['title']}.",
            "link": "https://example.org/more"
        } for one in self.large.projects if one["id"] != "p061"]
        (self.door.notice / "projects.json").write_text(json.dumps({"projects": projects}))

    def test_checking_descriptions(self):
        """While projects are entered lecturers read what students will read of theirs; afterwards it is folded."""
        self.load("setup")
        self.describe()
        self.open(self.large.codes["l01"], "Setup")
        for _ in self.sizes():
            own = [one for one in self.large.projects if one["lecturer"] == "l01"]
            self.assertEqual([one["id"] for one in own], ["p001", "p031", "p061"])
            for one in own[:2]:
                self.sees(one["title"], f"<b>About</b> {one['title']}.")
            self.sees("Students see no description of this project.")
        self.browser.sign_out()
        self.door.move("choosing")
        self.sign_in(self.large.codes["l01"], "Choosing")
        self.assertEqual(self.browser.script("[...document.querySelectorAll('.project details')].map((e) => e.open)"), [False, False])

    def test_results(self):
        """The own students stand on top. Why another applicant is not among them is told, and who has what is marked."""
        self.load("published")
        placed = {one["id"]: [student["key"] for student in one["students"]] for one in self.ask("l01", "/result")["projects"]}
        ranking = self.saved("l01")
        self.open(self.large.codes["l01"], "Results")
        for _ in self.sizes():
            self.assertEqual(self.parts(), ["Your students", "Your ranking", "Your projects"])
            self.sees(
                "For each of your projects that they chose, they got a project they prefer, or all its places (or all yours) went to "
                "students ranked above them."
            )
            marks = self.browser.script(
                "[...document.querySelectorAll(\"ol[aria-label='Your ranking'] > li\")].map((e) => e.querySelector('.mark')?.textContent "
                "?? '')"
            )
            has = {key: self.title(project) for project, keys in placed.items() for key in keys}
            self.assertEqual([self.plain(mark) for mark in marks], [f"Has {has[key]}" if key in has else "" for key in ranking])

    def test_second_round(self):
        """A lecturer without an open project is told so in each phase; one with an open project ranks the applicants of this round."""
        self.load("published")
        self.large.play(self.door.do, OFFICE, "choosing", 2, ("published", 1))
        open_ = {one["lecturer"] for one in self.door.do(OFFICE, "GET", "/catalogue")["projects"]}
        full = next(one["id"] for one in self.large.lecturers if one["id"] not in open_)
        for phase in ("Choosing", "Ranking"):
            self.open(self.large.codes[full], phase)
            for _ in self.sizes():
                self.sees("None of your projects is open in this round, so you don’t need to do anything.",
                          "Next: the office publishes the results of this round.")
                for part in ("Next: you rank", "Put all your applicants"):
                    self.assertNotIn(part, self.text())
            self.browser.sign_out()
            if phase == "Choosing":
                self.large.play(self.door.do, OFFICE, "ranking", 2, ("choosing", 2))
        self.sign_in(self.large.codes[min(open_)], "Ranking")
        self.sees("Put all your applicants of this round in one ranking", f"0 of {len(self.applicants(min(open_)))} ranked")
