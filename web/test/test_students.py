"""Students of a department of 200, on a desk and on a phone: a list that was saved too late, results that explain themselves."""

from case import OFFICE
from studentcase import StudentCase

TAKEN, FULL = "No place for you", "All its places went to students ranked above you."
FULL_SECOND = "All places left in it went to students ranked above you."
WHY = "“No place for you” means: all the project’s places, or all its lecturer’s, went to students ranked above you."
WHY_SECOND = "“No place for you” means: all places left in the project, or left with its lecturer, went to students ranked above you."


class Results(StudentCase):
    def of_each_kind(self, keys):
        """A student for each kind of result: what the portal itself answers of the own project and list."""
        found = {}
        for key in keys:
            own, listed = self.ask(key, "/result")["project"], self.ask(key, "/choices")["projects"]
            kind = "no list" if not listed else "none" if own is None else min(listed.index(own), 2)
            found.setdefault(kind, (key, own, listed))
        return found

    def marks(self, own, listed, why):
        """Each entry says what became of it: those above the own project, or all where there is none, went to others. Those of the
        lecturer who has taken this student were full; of the others either of two things stands once for all."""
        above = len(listed) if own is None else listed.index(own)
        owners = {one["id"]: one["lecturer"] for one in self.large.projects}
        full = [key for key in listed[:above] if own is not None and owners[key] == owners[own]]
        self.assertEqual(self.text().count(why), 1 if above > len(full) else 0)
        for at, (key, entry) in enumerate(zip(listed, self.entries("Your list"), strict=True)):
            self.assertIn(self.title(key), entry)
            self.assertEqual(TAKEN in entry, at < above and key not in full)
            self.assertEqual((FULL_SECOND if why == WHY_SECOND else FULL) in entry, key in full)
            self.assertEqual("Your project" in entry, key == own)

    def shown(self, *parts):
        """The result stands on top, the list under it, and the catalogue is folded."""
        self.assertEqual(self.parts(), list(parts))
        self.assertFalse(self.browser.script("document.querySelector('details:has(.catalogue)').open"))
        self.assertLess(self.browser.script("document.querySelector('.result').getBoundingClientRect().top"), 500)

    def test_first_round(self):
        self.load("published")
        kinds = self.of_each_kind([one["id"] for one in self.large.students])
        self.assertEqual(set(kinds), {0, 1, 2, "none", "no list"})
        for kind, (key, own, listed) in kinds.items():
            self.open(self.large.codes[key], "Results")
            for _ in self.sizes():
                if kind in (1, 2):
                    self.browser.driver.execute_script("document.querySelector('.why').open = true")
                self.sees(*self.said(kind, listed.index(own) if own else 0))
                self.assertEqual("no other list would have got you a choice above your result" in self.text(), kind in (1, 2))
                self.assertNotIn("either", self.text())
                self.shown("Your result", "Your list", "Projects")
                self.marks(own, listed, WHY)
            for project in listed[:listed.index(own)] if own else listed:
                self.assertTrue(self.is_taken(key, project), f"{key}, {project}")
            self.browser.sign_out()

    def is_taken(self, student, project):
        """All places of a project, or all of its lecturer, went to students whom the lecturer ranks above this one, by the portal's own
        numbers."""
        capacity = {one["id"]: int(one["capacity"]) for one in self.large.projects + self.large.lecturers}
        lecturer = next(one["lecturer"] for one in self.large.projects if one["id"] == project)
        above = self.ask(lecturer, "/ranking")["students"]
        above = above[:above.index(student)]
        placed = {one["id"]: [has["key"] for has in one["students"]] for one in self.ask(lecturer, "/result")["projects"]}
        groups = ((project, placed[project]), (lecturer, [key for keys in placed.values() for key in keys]))
        return any(len(keys) == capacity[of] and set(keys) <= set(above) for of, keys in groups)

    def said(self, kind, above):
        return {
            0: ["It was your first choice. Only you can see this."],
            1: [
                "It was your 2nd choice.",
                "Your 1st choice had no place for you: all its places, or all its lecturer’s places, went to students ranked above you."
            ],
            2: [f"It was your {above + 1}", f"Your first {above} choices had no place for you."],
            "none": [
                "You didn’t get a project this time.",
                "For each project on your list, all its places, or all its lecturer’s places, went to students ranked above you.",
                "no other list would have got you one of these projects"
            ],
            "no list": ["because you saved no list, or an empty one"],
        }[kind]

    def test_second_round(self):
        """Who has a project keeps it, and in this tab its list; the others read of the places that were left."""
        self.load("published")
        kinds = self.of_each_kind([one["id"] for one in self.large.students])
        key, own, listed = kinds[1]
        self.open(self.large.codes[key], "Results")
        self.large.play(self.door.do, OFFICE, "choosing", 2, ("published", 1))
        self.browser.open(self.door.address)
        self.browser.in_phase("Choosing")
        for _ in self.sizes():
            self.sees("You got this project in the first round. The second round doesn’t change that.", "It was your 2nd choice.",
                      "You already have a project")
            self.assertEqual(self.parts(), ["Your result", "Your list of the first round"])
            self.assertEqual([TAKEN in entry or FULL in entry for entry in self.entries("Your list of the first round")],
                             [True] + [False] * (len(listed) - 1))
        self.browser.sign_out()
        self.sign_in(self.large.codes[key], "Choosing")  # another tab has not seen the list, and the portal does not tell it again
        self.assertEqual(self.parts(), ["Your result"])
        self.assertNotIn("choice.", self.text())  # and so no number of a choice, which would be a guess
        self.sees(f"Your project is {self.title(own)}")
        self.browser.sign_out()
        self.sign_in(self.large.codes[kinds["none"][0]], "Choosing")
        self.assertEqual(self.browser.script("document.querySelector('.first-list')"), None)
        places = [one["capacity"] for one in self.ask(kinds["none"][0], "/catalogue")["projects"]]
        self.sees(f"At most {sum(places)} places are left, in {len(places)} projects.")
        for _ in self.sizes():
            self.browser.find("button", "Places left")
            self.assertEqual(
                self.browser.script(
                    "[...document.querySelectorAll('thead th')].filter((e) => e.scrollWidth > e.clientWidth).map((e) => e.textContent)"),
                [])
        self.assertNotIn("Waiting for a second round", self.text())
        self.browser.sign_out()
        self.large.play(self.door.do, OFFICE, "published", 2, ("choosing", 2))
        left = [one for one, pair in self.large.lists.items() if self.ask(one, "/choices")["projects"]]
        again = self.of_each_kind([*left, kinds["none"][0]])
        for kind, part in ((0, "It was your first choice."),
                           (1, "Your 1st choice in this round had no place for you: all places left in it, or left with its lecturer,"),
                           ("none", "You didn’t get a project in the second round.")):
            key, own, listed = again[kind]
            self.sign_in(self.large.codes[key], "Results")
            for _ in self.sizes():
                if kind == 1:
                    self.browser.driver.execute_script("document.querySelector('.why').open = true")
                self.sees(part)
                self.shown("Your result", "Your list", "Projects")
                self.marks(own, listed, WHY_SECOND)
            self.browser.sign_out()


class Remembering(Results):
    test_first_round = test_second_round = None  # the same tests are not run twice

    def test_the_first_list_in_the_second_round(self):
        """Who has no project sees in this tab the first list, each project with its reason: the one of the two, where the page can know
        it."""
        self.load("published")
        left = {
            one["id"]: self.ask(one["id"], "/choices")["projects"]
            for one in self.large.students if self.ask(one["id"], "/result")["project"] is None
        }
        owners = {one["id"]: one["lecturer"] for one in self.large.projects}
        key = max(left, key=lambda one: len(left[one]))
        self.open(self.large.codes[key], "Results")
        self.large.play(self.door.do, OFFICE, "choosing", 2, ("published", 1))
        self.browser.open(self.door.address)
        self.browser.in_phase("Choosing")
        taking = {one["lecturer"] for one in self.ask(key, "/catalogue")["projects"]}
        self.browser.unfold(".first-list")
        for _ in self.sizes():
            entries = self.entries("Your list of the first round")
            self.assertEqual(len(entries), len(left[key]))
            for project, entry in zip(left[key], entries):
                self.assertIn(self.title(project), entry)
                self.assertIn(FULL if owners[project] in taking else TAKEN, entry)
            self.assertEqual(self.text().count(WHY), 0 if all(owners[one] in taking for one in left[key]) else 1)

    def test_receipt_of_the_result(self):
        """After publication the receipt has the result as well."""
        self.load("published")
        key, own, listed = self.of_each_kind([one["id"] for one in self.large.students])[1]
        self.open(self.large.codes[key], "Results")
        self.browser.driver.execute_script("window.print = () => { window.seen = document.querySelector('.printed').innerText; }")
        self.browser.press("Print receipt")
        paper = self.plain(self.browser.script("window.seen"))
        owners = {one["id"]: one["lecturer"] for one in self.large.projects}
        why = FULL if owners[listed[0]] == owners[own] else WHY
        for part in (f"Your project is {self.title(own)}, with ", why, "Last saved version on localhost", *(self.title(one)
                                                                                                            for one in listed)):
            self.assertIn(part, paper)
