"""The second round: the office opens it, who has no project chooses again, and pages that are older than it."""

from case import ADA, BELL, BEN, CLEO, DORA, EMIL, NOETHER, OFFICE, PageCase, TURING, YEAR

LISTS = {ADA: ["pulsars", "rings"], BEN: ["pulsars", "comets"], CLEO: ["rings", "patterns"], DORA: ["patterns", "groups"]}


class Rounds(PageCase):
    def setUp(self):
        super().setUp()
        self.door.load_rolls()
        self.door.move("choosing")

    def first_round(self, lists=LISTS):
        """The first round of the example: Emil has no project, and Comets alone has a place with a lecturer who takes one more."""
        for code, keys in lists.items():
            self.door.do(code, "PUT", "/choices", {"projects": keys})
        self.door.move("ranking")
        if lists is LISTS:
            self.door.do(BELL, "PUT", "/ranking", {"students": ["ben", "ada"]})
        self.door.do(OFFICE, "POST", "/ranking/fill", {})
        self.door.move("published")

    def open_second(self):
        self.assertEqual(self.door.do(OFFICE, "POST", "/phase", {"phase": "choosing", "round": 2}), {"phase": "choosing", "round": 2})

    def text(self):
        return self.browser.page_text().replace("\u2068", "").replace("\u2069", "")

    def sees(self, *parts):
        for part in parts:
            self.assertIn(part, self.text())

    def test_second_round(self):
        """Everybody’s page in each phase, the office’s steps by clicks."""
        self.first_round()
        self.open(OFFICE, "Results")
        self.assertNotIn("Round 2", self.text())
        self.read_lecturers()
        self.answer("Open second round", "Open the second round now?", "Not now")
        self.assertNotIn("round", self.door.do(OFFICE, "GET", "/status"))
        self.answer("Open second round", "Open the second round now?")
        self.browser.says("The portal is now at “Choosing” of the second round.")
        self.browser.in_phase("Choosing")
        self.sees("Round 2", "With a list: 0 of 1 student", "With a project: 4 of 5 students", "Emil Eke (emil)")
        # Bell takes two and has one, and Comets has a place
        self.assertIn("Places: 1 for 1 student", self.browser.script("[...document.querySelectorAll('.fact')].map((e) => e.textContent)"))
        self.assertEqual(self.steps(), ["Choosing", "Ranking", "Results"])
        self.browser.sign_out()
        self.student_without_a_project()
        self.student_with_a_project("Choosing")
        self.lecturers_in_choosing()
        self.sign_in(OFFICE, "Choosing")
        self.sees("With a list: 1 of 1 student")
        self.answer("Open ranking", "Open ranking now?")
        self.browser.says("The portal is now at “Ranking” of the second round.")
        self.sees("Rankings done: 0 of 1 lecturer", "2 other lecturers have no applicants.", "Jocelyn Bell (bell)")
        self.browser.sign_out()
        self.student_with_a_project("Ranking")
        self.lecturers_in_ranking()
        self.sign_in(OFFICE, "Ranking")
        self.answer("Publish results", "Publish the results now?")
        self.browser.says("The portal is now at “Results” of the second round.")
        self.sees("With a project: 5 of 5 students", "There are no further steps.")
        self.assertFalse(self.browser.has("button", "Open second round"))
        self.browser.sign_out()
        self.results()

    def read_lecturers(self):
        """How many students each lecturer takes is known to the page from the file alone."""
        self.choose_file("Lecturer or student file", YEAR / "lecturers.csv")
        self.browser.press("Read names only")
        self.browser.wait(lambda: self.browser.find("button", "Open second round").is_enabled(), "a second round that can be opened")

    def steps(self):
        return self.browser.script("[...document.querySelectorAll('[aria-label=Stages] li')].map((entry) => entry.textContent)")

    def student_without_a_project(self):
        self.sign_in(EMIL, "Choosing")
        self.sees("Round 2", "You didn’t get a project in the first round. Add those you want now",
                  "At most 1 place is left, in 1 project.")
        self.browser.unfold(".decided, .decided details")
        self.sees("No project from your first list has a place left for you.")
        self.assertNotIn("You didn’t get a project this time", self.text())
        self.assertEqual(self.browser.entries("Your list"), [])
        self.sees("1 project")
        self.assertFalse(self.browser.has("button", "Add *, rings"))
        self.browser.press("Add *, comets")
        self.browser.press("Save list")
        self.browser.says("Saved. Your list has 1 project.")
        self.assertEqual(self.door.do(EMIL, "GET", "/choices"), {"projects": ["comets"]})
        self.browser.sign_out()

    def student_with_a_project(self, phase):
        self.sign_in(ADA, phase)
        self.sees("Round 2", "Your project is Rings and their ideals, with Emmy Noether.",
                  "You already have a project from the first round")
        for name in ("Save list", "Add *, comets"):
            self.assertFalse(self.browser.has("button", name))
        self.browser.sign_out()

    def lecturers_in_choosing(self):
        self.sign_in(BELL, "Choosing")
        self.sees("Round 2", "Students without a project are choosing again", "Your students", "Ben Bode",
                  "1 place left after the first round.", "Not open in this round", "Pulsars in old sky surveys",
                  "You take up to 2 students in total, across all your projects. You have 1 from the first round.")
        self.browser.sign_out()

    def lecturers_in_ranking(self):
        self.sign_in(BELL, "Ranking")
        self.sees("Round 2", "You have one applicant.", "1 of 1 ranked", "Ben Bode")
        self.browser.press("Save ranking")
        self.browser.says("Saved. Your ranking has 1 student.")
        self.assertEqual(self.door.do(BELL, "GET", "/ranking"), {"students": ["emil"]})
        self.browser.sign_out()
        self.sign_in(NOETHER, "Ranking")
        self.sees("None of your projects is open in this round, so you don’t need to do anything.", "Ada Ames", "Rings and their ideals",
                  "Groups of small order")
        self.assertFalse(self.browser.has("button", "Save ranking"))
        self.browser.sign_out()

    def results(self):
        for code, part in ((EMIL, "Your project is Comets, seen twice, with Jocelyn Bell."),
                           (ADA, "Your project is Rings and their ideals, with Emmy Noether."), (BELL, "Emil Eke"), (TURING, "Dora Dahl")):
            self.sign_in(code, "Results")
            self.sees("Round 2", part)
            self.browser.sign_out()
        self.sign_in(BELL, "Results")
        self.sees("Ben Bode", "Emil Eke")

    def test_page_of_the_first_round(self):
        """Who has a project meanwhile, and sends a list from a page of the first round, is told; the page is that of the second then."""
        self.open(ADA, "Choosing")
        self.browser.press("Add *, comets")
        self.first_round()
        self.open_second()
        self.browser.press("Save list")
        self.browser.warns("You already have a project from the first round, so you can’t save another list.")
        self.browser.in_phase("Choosing")
        self.sees("Round 2", "Your project is Rings and their ideals, with Emmy Noether.")
        self.assertFalse(self.browser.has("button", "Save list"))
        self.assertEqual(self.door.do(ADA, "GET", "/choices"), {"projects": []})
        self.browser.sign_out()

    def test_project_that_is_full(self):
        """A list from a page of the first round, with a project that has no place left, is refused and named; another is taken."""
        self.open(EMIL, "Choosing")
        for key in ("rings", "comets"):
            self.browser.press(f"Add *, {key}")
        self.first_round()
        self.open_second()
        self.browser.press("Save list")
        self.browser.warns("Not saved. Rings and their ideals: this project isn’t available in this round.")
        self.browser.press("Remove *, rings")
        self.browser.press("Save list")
        self.browser.says("Saved")
        self.assertEqual(self.door.do(EMIL, "GET", "/choices"), {"projects": ["comets"]})

    def test_opened_meanwhile(self):
        """Another browser of the office opens the second round first, or goes on in it: the page says where the year is."""
        self.first_round()
        self.open(OFFICE, "Results")
        self.read_lecturers()
        self.browser.press("Open second round")
        self.browser.find("dialog", "Open the second round now?")
        self.open_second()
        self.door.move("ranking")
        self.confirm()
        self.browser.warns("The portal has moved on to “Ranking” of the second round.")
        self.browser.in_phase("Ranking")
        self.browser.sign_out()

    def test_nobody_is_left(self):
        """Where everybody has a project the second round is not offered."""
        keys = dict(zip((ADA, BEN, CLEO, DORA, EMIL), ("pulsars", "comets", "rings", "groups", "patterns")))
        self.first_round({code: [key] for code, key in keys.items()})
        self.open(OFFICE, "Results")
        self.assertFalse(self.browser.find("button", "Open second round").is_enabled())
        self.sees("Every student has a project, so no second round is needed.")
