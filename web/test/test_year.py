"""A whole year in the browser: once by clicks, once by keyboard alone."""

from selenium.webdriver.common.keys import Keys

from case import ADA, BELL, BEN, CLEO, DORA, EMIL, NOETHER, OFFICE, PageCase, TURING, YEAR

CHOICES = {ADA: ["pulsars", "rings"], BEN: ["pulsars", "comets"], CLEO: ["rings", "patterns"], DORA: ["patterns", "groups"]}
RANKINGS = {BELL: ["ben", "ada"], NOETHER: ["cleo", "ada", "dora"], TURING: ["dora", "cleo"]}
RESULT = {ADA: "Rings and their ideals", BEN: "Pulsars in old sky surveys", CLEO: "Rings and their ideals", DORA: "Patterns on shells"}


class YearByClicks(PageCase):
    def test_year(self):
        self.open(OFFICE, "Setup")
        self.rolls()
        self.answer("Open choosing", "Open choosing now?", "Not now")
        self.assertEqual(self.browser.phase(), "Setup")
        self.assertIn("can’t undo this", self.answer("Open choosing", "Open choosing now?"))
        self.browser.in_phase("Choosing")
        self.browser.says("Choosing")
        self.browser.sign_out()
        for code, keys in CHOICES.items():
            self.choose(code, keys)
        self.office_in_choosing()
        for code, keys in RANKINGS.items():
            self.rank(code, keys)
        self.publish()
        self.results()

    def rolls(self):
        for field, count in (("Lecturers", 3), ("Projects", 5), ("Students", 5)):
            self.send_file(field, YEAR / f"{field.lower()}.csv")
            self.browser.says(f"{field}: {count} added, 0 already there")
        self.send_file("Students", YEAR / "students.csv")
        self.browser.says("Students: 0 added, 5 already there")

    def choose(self, code, keys):
        self.sign_in(code, "Choosing")
        save = self.browser.find("button", "Save list")
        self.assertFalse(save.is_enabled())
        for key in reversed(keys):
            self.browser.press(f"Add *, {key}")
        self.assertEqual(self.browser.entries("Your list"), keys[::-1])
        self.browser.press(f"Move *, {keys[0]} up")
        self.browser.announced("is now number 1 of 2")
        self.assertEqual(self.browser.entries("Your list"), keys)
        self.assertTrue(save.is_enabled())
        save.click()
        self.browser.says("Saved")
        self.assertFalse(save.is_enabled())
        self.assertEqual(self.door.do(code, "GET", "/choices"), {"projects": keys})
        self.browser.sign_out()

    def office_in_choosing(self):
        self.sign_in(OFFICE, "Choosing")
        self.assertIn("With a list: 4 of 5 students", self.browser.page_text())
        self.browser.press("Copy names")
        self.browser.says("Copied 1 name")
        self.assertEqual(self.browser.driver.execute_async_script("navigator.clipboard.readText().then(arguments[0])"), "Emil Eke (emil)")
        self.assertIn("1 student has no list and can’t save one after this.", self.answer("Open ranking", "Open ranking now?"))
        self.browser.in_phase("Ranking")
        self.assertIn("Rankings done: 0 of 3 lecturers", self.browser.page_text())
        self.browser.sign_out()

    def rank(self, code, keys):
        self.sign_in(code, "Ranking")
        self.browser.find("list", "Applicants")
        save = self.browser.find("button", "Save ranking")
        for key in sorted(keys):
            self.assertFalse(save.is_enabled())
            self.browser.press(f"Add *, {key}")
        for place, key in enumerate(keys):
            while self.browser.entries("Your ranking").index(key) > place:
                self.browser.press(f"Move *, {key} up")
        save.click()
        self.browser.says("Saved")
        self.assertEqual(self.door.do(code, "GET", "/ranking"), {"students": keys})
        self.browser.sign_out()

    def publish(self):
        self.sign_in(OFFICE, "Ranking")
        self.assertIn("Rankings done: 3 of 3 lecturers", self.browser.page_text())
        self.assertFalse(self.browser.find("button", "Fill missing rankings").is_enabled())
        self.answer("Publish results", "Publish the results now?")
        self.browser.in_phase("Results")
        text = self.browser.page_text()
        self.assertIn("With a project: 4 of 5 students", text)
        self.assertIn("Emil Eke (emil)", text)
        self.assertTrue(self.browser.find("button", "Open second round").is_enabled())
        self.assertIn("1 place for 1 student.", text)
        self.office_table()
        self.browser.press("Download CSV")
        self.assertEqual(self.downloaded("allocation.csv").read_text(), "\ufeff" + self.door.do(OFFICE, "GET", "/allocation.csv"))
        self.print_report()
        self.browser.sign_out()

    def office_table(self):
        column = ("[...document.querySelectorAll('table[aria-label=\"Results\"] tbody tr')].filter((r) => !r.hidden).map((r) => "
                  "r.cells[arguments[0]].querySelector('.key, em').textContent)")
        for name, sorted_by_title in (("Project", ["groups", "patterns", "pulsars",
                                                   "rings"]), ("Student", ["ada", "ben", "cleo", "dora", "emil"])):
            at = 1 if name == "Project" else 0
            self.browser.press(name)
            rising = self.browser.script(column, at)
            self.browser.press(name)
            self.assertEqual(self.browser.script(column, at), rising[::-1])
            self.assertTrue(set(rising) <= {*sorted_by_title, "No project: no list"})
        self.browser.find("searchbox", "Search results").send_keys("noether")
        self.assertEqual(sorted(self.browser.script(column, 0)), ["ada", "cleo"])

    def print_report(self):
        self.browser.script(
            "(window.print = () => { window.seen = [...document.querySelectorAll('.printed')].map((e) => e.textContent); })")
        self.browser.press("Print report")
        (printed,) = self.browser.script("window.seen")
        for part in ("Results", "With a project: 4 of 5 students", "Ada Ames", "Emil Eke", "Rings and their ideals", "Emmy Noether",
                     "2 of 2 places"):
            self.assertIn(part, printed)

    def results(self):
        for code, title in RESULT.items():
            self.sign_in(code, "Results")
            self.assertIn(f"Your project is {title}, with", self.browser.page_text().replace("\u2068", "").replace("\u2069", ""))
            self.browser.sign_out()
        self.sign_in(EMIL, "Results")
        self.assertIn("You didn’t get a project, because you saved no list, or an empty one.", self.browser.page_text())
        self.browser.sign_out()
        self.sign_in(NOETHER, "Results")
        text = self.browser.page_text()
        self.assertIn("Ada Ames", text)
        self.assertIn("Cruz, Cleo", text)


class YearByKeyboard(PageCase):
    """Nothing is clicked: Tab, Enter, Space, the arrow keys and letters alone."""

    def test_year(self):
        self.door.load_rolls()
        self.open()
        self.by_keys(OFFICE, "Setup")
        self.step("Open choosing")
        self.browser.in_phase("Choosing")
        self.leave()
        for code, keys in CHOICES.items():
            self.choose(code, keys)
        self.by_keys(OFFICE, "Choosing")
        self.step("Open ranking")
        self.browser.in_phase("Ranking")
        self.leave()
        self.rank(BELL, RANKINGS[BELL])
        self.rank(NOETHER, RANKINGS[NOETHER])
        self.by_keys(OFFICE, "Ranking")
        self.step("Fill missing rankings")
        self.browser.says("Filled for Alan Turing (turing)")
        self.step("Publish results")
        self.browser.in_phase("Results")
        self.browser.tab_to("searchbox", "Search results")
        self.browser.keys(*"dora")
        self.browser.wait(lambda: "1 of 5 students" in self.browser.page_text(), "one row")
        self.leave()
        self.by_keys(DORA, "Results")
        self.assertIn("Your project is", self.browser.page_text())

    def by_keys(self, code, phase):
        """The field has the focus when the page comes, so that the code can be typed at once."""
        self.browser.find("textbox", "Your code")
        self.browser.keys(code, Keys.ENTER)
        self.browser.in_phase(phase)

    def leave(self):
        self.browser.driver.execute_script("document.activeElement.blur()")
        self.browser.key_press("Sign out")

    def step(self, name):
        self.browser.key_press(name)
        self.browser.find("button", "Not now")
        self.browser.keys(Keys.ESCAPE)
        self.assertFalse(self.browser.has("button", "Not now"))
        self.browser.key_press(name)
        self.browser.find("button", "Not now")
        self.browser.key_press(name, Keys.SPACE, back=True)

    def choose(self, code, keys):
        self.by_keys(code, "Choosing")
        self.browser.tab_to("searchbox", "Search projects")
        for key in reversed(keys):
            self.browser.key_press(f"Add *, {key}", back=key != keys[-1] and key < keys[-1])
        self.browser.key_press(f"Move *, {keys[0]} up", Keys.SPACE)
        self.browser.announced("is now number 1 of 2")
        self.assertEqual(self.browser.focused(), self.browser.find("button", f"Move *, {keys[0]} up"))
        self.browser.keys(Keys.ARROW_DOWN)
        self.assertEqual(self.browser.entries("Your list"), keys[::-1])
        self.browser.keys(Keys.HOME)
        self.assertEqual(self.browser.entries("Your list"), keys)
        self.browser.key_press("Save list")
        self.browser.says("Saved")
        self.assertEqual(self.door.do(code, "GET", "/choices"), {"projects": keys})
        self.leave()

    def rank(self, code, keys):
        self.by_keys(code, "Ranking")
        for key in sorted(keys):
            self.browser.key_press(f"Add *, {key}")
        for place, key in enumerate(keys):
            while self.browser.entries("Your ranking").index(key) > place:
                self.browser.driver.execute_script("document.activeElement.blur()")
                self.browser.key_press(f"Move *, {key} up")
        self.browser.key_press("Save ranking")
        self.browser.says("Saved")
        self.assertEqual(self.door.do(code, "GET", "/ranking"), {"students": keys})
        self.leave()
