"""The office's figures, its tables of people and projects, addresses, and what is printed."""

from case import ADA, BELL, BEN, OFFICE
from officecase import LISTS, NAMES, OfficeCase


class Data(OfficeCase):
    """The lecturers, projects and students as they stand, by the names that this browser knows."""

    def opened(self, fold):
        """The rows of a table, which is opened."""
        self.browser.wait(
            lambda: self.browser.script("[...document.querySelectorAll('summary')].filter((e) => e.textContent === arguments[0]).length",
                                        fold) == 1, fold)
        self.browser.script("[...document.querySelectorAll('summary')].find((e) => e.textContent === arguments[0]).click()", fold)
        return self.rows(fold.split(" ", 1)[1].capitalize())

    def rows(self, table):
        script = (f"[...document.querySelectorAll('table[aria-label=\"{table}\"] tbody tr:not([hidden])')].map((row) => "
                  "[...row.cells].map((cell) => cell.innerText))")
        return self.browser.wait(lambda: self.browser.script(script), table)

    def test_tables(self):
        for width in (1280, 390):
            self.browser.resize(width, 844)
            if width == 1280:
                self.open(OFFICE, "Setup")
                self.send_rolls()
                self.door.move("choosing")
                self.door.do(ADA, "PUT", "/choices", {"projects": ["rings"]})
            self.browser.open(self.door.address)
            self.browser.in_phase("Choosing")
            self.assertEqual(
                self.opened("3 lecturers"),
                [["Jocelyn Bell\nbell", "2", "2", "2"], ["Emmy Noether\nnoether", "2", "2", "3"], ["Alan Turing\nturing", "1", "1", "1"]])
            projects = self.opened("5 projects")
            self.assertEqual(len(projects), 5)
            self.assertIn("Pulsars in old sky surveys", projects[0][0] + projects[1][0] + projects[2][0] + projects[3][0] + projects[4][0])
            self.assertEqual(self.opened("5 students"),
                             [["Ada Ames\nada", "Saved"], *([f"{name.split(' (')[0]}\n{name.split('(')[1][:-1]}", "None"]
                                                            for name in NAMES[1:])])
            field = self.browser.find("searchbox", "Search students")
            field.send_keys("cruz")
            self.browser.wait(lambda: self.rows("Students") == [["Cruz, Cleo\ncleo", "None"]], "one row")
            self.assertIn("1 of 5 rows", self.text())
            field.send_keys(" nobody")
            self.browser.wait(lambda: "Nothing matches." in self.text(), "no row")
            self.assertLessEqual(self.browser.script("document.documentElement.scrollWidth"), width)
            self.assertEqual(self.browser.script("document.querySelector('table[aria-label=Students] tbody tr > :first-child').scope"),
                             "row")

    def test_who_is_not_known_is_told(self):
        """A browser that sent no file knows only whom the portal tells of."""
        self.door.load_rolls()
        self.door.move("choosing")
        self.door.do(ADA, "PUT", "/choices", {"projects": ["rings"]})
        self.open(OFFICE, "Choosing")
        self.assertEqual(self.opened("5 students"), [["ben", "None"], ["cleo", "None"], ["dora", "None"], ["emil", "None"]])
        self.sees("1 more student is in the portal. This browser doesn’t know who: it didn’t send their file.")

    def test_places_stand_above_the_results(self):
        self.door.load_rolls()
        self.door.move("choosing")
        self.first_round()
        self.open(OFFICE, "Results")
        self.sees("Places taken: 4 in 5 projects")
        places, table = self.browser.script(
            "[document.querySelector('.usage').getBoundingClientRect().top, "
            "document.querySelector('table[aria-label=Results]').getBoundingClientRect().top]"
        )
        self.assertLess(0, places)
        self.assertLess(places, table)


class Emails(OfficeCase):
    def test_addresses_are_copied_and_forgotten(self):
        """`Read names only` keeps a column `email`; the addresses of those who are missing are copied, and forgotten with the names."""
        self.door.load_rolls()
        self.door.move("choosing")
        self.door.do(ADA, "PUT", "/choices", {"projects": ["rings"]})
        self.open(OFFICE, "Choosing")
        self.assertFalse(self.browser.has("button", "Copy email addresses"))
        self.choose_file(
            "Students",
            self.write(
                "s.csv",
                "id,name,Email\nada,Ada Ames,ada@example.edu\nben,Ben Bode,ben@example.edu\ncleo,Cleo,\ndora,Dora Dahl,dora@example.edu\n"))
        self.assertNotIn("Won’t be sent", self.text())
        self.browser.press("Read names only")
        self.browser.says("Read 4 names and 3 email addresses. Nothing was sent.")
        self.sees("This browser stores 4 names and 3 email addresses")
        self.browser.press("Copy email addresses")
        self.browser.says("Copied 2 email addresses, 2 unknown. Use “Bcc”.")
        copied = self.browser.driver.execute_async_script("navigator.clipboard.readText().then(arguments[0])")
        self.assertEqual(copied, "ben@example.edu\ndora@example.edu")
        self.browser.press("Forget names")
        self.browser.says("Names forgotten.")
        self.assertNotIn("example.edu", self.browser.script("JSON.stringify(localStorage)"))
        self.assertFalse(self.browser.has("button", "Copy email addresses"))

    def test_addresses_of_a_file_that_is_sent(self):
        self.open(OFFICE, "Setup")
        self.choose_file("Students", self.write("s.csv", "id,name,code,email\nann,Ann,k4mz-pq7w-9xyd,ann@example.edu\n"))
        self.sees("this browser stores the names and email addresses, but never the codes. The addresses aren’t sent.")
        self.browser.press("Send")
        self.confirm()
        self.browser.says("Students: 1 added")
        self.sees("This browser stores 1 name and 1 email address")


class Bars(OfficeCase):
    BARS = """[...document.querySelectorAll('.measure')].map((e) => [e.querySelector('p').textContent,
        Math.round(100 * e.querySelector('.filled').getBoundingClientRect().width
            / (e.querySelector('.bar').getBoundingClientRect().width - 2))])"""

    def test_bars_count_what_the_text_counts(self):
        self.door.load_rolls()
        self.door.move("choosing")
        for code, keys in LISTS.items():
            self.door.do(code, "PUT", "/choices", {"projects": keys})
        self.door.move("ranking")
        self.door.do(BELL, "PUT", "/ranking", {"students": ["ben", "ada"]})
        self.open(OFFICE, "Ranking")
        self.assertEqual(self.browser.script(self.BARS), [["With a list: 4 of 5 students", 80]])
        self.sees("Rankings missing: 2",
                  "Of at most 3 lecturers: those with a project in this round.")  # this browser has not opened the ranking

    def test_bars_in_forced_colours(self):
        """A bar is seen where a person has chosen the colours: its filled part differs from the empty one."""
        self.door.load_rolls()
        self.door.move("choosing")
        self.door.do(BEN, "PUT", "/choices", {"projects": ["comets"]})
        self.open(OFFICE, "Choosing")
        self.browser.cdp("Emulation.setEmulatedMedia", features=[{"name": "forced-colors", "value": "active"}])
        self.assertTrue(self.browser.script("matchMedia('(forced-colors: active)').matches"))
        ground, filled, edge = self.browser.script("""[getComputedStyle(document.querySelector('.bar')).backgroundColor,
            getComputedStyle(document.querySelector('.filled')).backgroundColor,
            getComputedStyle(document.querySelector('.bar')).borderTopColor]"""
                                                   )
        self.assertNotEqual(ground, filled)
        self.assertNotEqual(ground, edge)


class Printing(OfficeCase):
    def test_report_has_names_titles_and_bars(self):
        self.open(OFFICE, "Setup")
        self.send_rolls()
        self.door.move("choosing")
        self.first_round()
        self.browser.open(self.door.address)
        self.browser.in_phase("Results")
        self.browser.cdp("Emulation.setEmulatedMedia", media="print")
        for part in ("With a project: 4 of 5 students", "Emil Eke (emil)", "Ada Ames", "Comets, seen twice", "Emmy Noether",
                     "0 of 1 place"):
            self.assertIn(part, self.text())
        for part in ("Open second round", "Forget names", "Choose a lecturer or student file", "Refresh"):
            self.assertNotIn(part, self.text())
        self.browser.cdp("Emulation.setEmulatedMedia", media="screen")
        self.browser.find("searchbox", "Search results").send_keys("ada")
        self.browser.driver.execute_script("window.print = () => {}")
        self.browser.press("Print report")
        self.browser.cdp("Emulation.setEmulatedMedia", media="print")
        text = self.text()
        for part in ("Results", "Ada Ames", "Emil Eke", "No project", "Pulsars in old sky surveys", "Comets, seen twice", "Jocelyn Bell",
                     "1 of 1 place", "0 of 1 place"):
            self.assertIn(part, text)
        self.assertNotIn("Download CSV", text)
        bars = ("[...document.querySelectorAll('.paper .filled')].map((e) => [e.getBoundingClientRect().width > 0, "
                "getComputedStyle(e).printColorAdjust, getComputedStyle(e).backgroundColor])")
        seen = self.browser.script(bars)
        self.assertEqual(len(seen), 5)
        self.assertTrue(all(adjust == "exact" and colour != "rgb(255, 255, 255)" for _, adjust, colour in seen), seen)
        self.assertEqual([is_filled for is_filled, _, _ in seen], [False, False, True, True, True])
        self.browser.driver.execute_script("dispatchEvent(new Event('afterprint'))")
        self.browser.cdp("Emulation.setEmulatedMedia", media="screen")
        self.assertIn("Download CSV", self.text())
