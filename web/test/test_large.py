"""The largest department: 300 lecturers, 1,000 projects, 2,000 students; how long the page takes after a press is told. And the year of
a clerk in a department of 200 students, who takes the wrong file each time."""

import csv
import datetime

import books
from case import OFFICE, PageCase
from large import Large as Department


class Large(PageCase):
    def setUp(self):
        super().setUp()
        self.longest = 0  # milliseconds, from a press to the next picture
        lecturers = "".join(f"l{n:03},Lecturer {n},code-of-lect-{n:03},20\n" for n in range(300))
        projects = "".join(f"p{n:04},l{n % 300:03},Project {n} on matter {n % 7},3\n" for n in range(1000))
        students = "".join(f"s{n:04},Student {n},code-of-stud-{n:04}\n" for n in range(2000))
        self.door.do(OFFICE, "POST", "/rolls/lecturers", f"id,name,code,capacity\n{lecturers}".encode())
        self.door.do(OFFICE, "POST", "/rolls/projects", f"id,lecturer,title,capacity\n{projects}".encode())
        self.students = self.write("students.csv", f"id,name,code\n{students}")

    def test_large_department(self):
        self.open(OFFICE, "Setup")
        self.send_file("Students", self.students)
        self.browser.says("Students: 2,000 added, 0 already there", wait=90)
        self.timed("[...document.querySelectorAll('summary')].find((e) => e.textContent === '2,000 students')", "e.click()")
        self.timed("document.querySelector('input[type=search]')", "e.value = 'student 1999'; e.dispatchEvent(new Event('input'))")
        self.assertIn("1 of 2,000 rows", self.browser.page_text())
        self.answer("Open choosing", "Open choosing now?")
        self.browser.in_phase("Choosing", wait=120)
        self.browser.press("Copy names")
        self.browser.says("Copied 2,000 names")
        self.browser.sign_out()
        for n in range(300):
            self.door.do(f"code-of-stud-{n:04}", "PUT", "/choices", {"projects": ["p0000", f"p{n + 1:04}"]})
        self.student()
        self.door.move("ranking")
        self.lecturer()
        self.door.do(OFFICE, "POST", "/ranking/fill", {})
        self.door.move("published")
        self.sign_in(OFFICE, "Results")
        self.timed("document.querySelector('input[type=search]')", "e.value = 'student 1999'; e.dispatchEvent(new Event('input'))")
        self.assertIn("1 of 2,000 students", self.browser.page_text())
        self.timed("[...document.querySelectorAll('.sort')].at(1)", "e.click()")
        print(f"with 2,000 students, the page took {self.longest:.0f} ms at most from a press to the next picture", flush=True)

    def student(self):
        self.sign_in("code-of-stud-1999", "Choosing")
        self.assertIn("1,000 projects", self.browser.page_text())
        for text in ("m", "matter 3", "nothing", ""):
            self.timed("document.querySelector('input[type=search]')", f"e.value = '{text}'; e.dispatchEvent(new Event('input'))")
        self.browser.find("searchbox", "Search projects").send_keys("project 999 lecturer 99")
        self.browser.wait(lambda: "1 of 1,000 projects" in self.browser.page_text(), "one project")
        self.timed(self.named("Add", "p0999"), "e.click()")
        for n in range(19):
            self.browser.driver.execute_script(f"{self.named('Add', f'p{n:04}')}.click()")
        self.assertIn("20 projects. Your list is full.", self.browser.page_text())
        self.browser.driver.execute_script(f"{self.named('Add', 'p0500')}.click()")
        self.assertEqual(len(self.browser.entries("Your list")), 20)
        self.timed(self.named("Move", "p0018 up"), "e.click()")
        self.browser.press("Save list")
        self.browser.says("Your list has 20 projects")
        self.browser.sign_out()

    def lecturer(self):
        self.sign_in("code-of-lect-000", "Ranking")
        self.browser.press("Add the rest in ID order")
        self.assertEqual(len(self.browser.entries("Your ranking")), 301)
        self.timed(self.named("Move", "s0150 up"), "e.click()")
        self.browser.press("Save ranking")
        self.browser.says("Your ranking has 301 students")
        self.browser.sign_out()

    def named(self, verb, key):
        """The button of one of many rows, in the browser."""
        return f"document.querySelector('[aria-label^=\"{verb} \"][aria-label$=\", {key}\"]')"

    def timed(self, element, act):
        script = (f"const done = arguments[0]; const e = {element}; const begun = performance.now(); {act}; requestAnimationFrame(() => "
                  "setTimeout(() => done(performance.now() - begun)))")
        self.longest = max(self.longest, self.browser.driver.execute_async_script(script))


class DepartmentCase(PageCase):
    """The department of examples/large.py, whose files lie in a folder."""

    SIZES = ((1280, 900), (390, 844))

    def setUp(self):
        super().setUp()
        self.department = Department()
        self.files = self.door.path / "files"
        self.files.mkdir()
        self.department.write(self.files)
        self.codes += self.department.codes.values()

    def text(self):
        return self.browser.page_text().replace("\u2068", "").replace("\u2069", "")

    def sees(self, part):
        """What is told stands on the page at both sizes, in no more than its width."""
        for width, height in self.SIZES[::-1]:
            self.browser.resize(width, height)
            self.browser.wait(lambda: part in self.text(), part)
            self.assertLessEqual(self.browser.script("document.documentElement.scrollWidth"), width)


class Office(DepartmentCase):
    ROWS = """[...document.querySelectorAll(`table[aria-label="${arguments[0]}"] tbody tr:not([hidden])`)]
    .map((row) => row.cells[0].querySelector('bdi').textContent)"""

    def read_names(self, field, roll):
        self.choose_file(field, self.files / f"{roll}.csv")
        self.browser.press("Read names only")
        self.browser.says("Nothing was sent.")

    def shown(self, table, count):
        """The names in the rows of a table, once there are as many as that."""
        return self.browser.wait(lambda: (lambda rows: len(rows) == count and rows)(self.browser.script(self.ROWS, table)),
                                 f"{count} {table}")

    def test_tables(self):
        """Lecturers, projects and students as they stand are searched by names in any script, with or without accents."""
        self.door.load_large("setup")
        self.open(OFFICE, "Setup")
        for field in ("Lecturers", "Students"):
            self.read_names(field, field.lower())
        for roll, people, what in (("Lecturers", self.department.lecturers, "name"), ("Projects", self.department.projects, "title"),
                                   ("Students", self.department.students, "name")):
            name = f"{len(people)} {roll.lower()}"
            self.browser.script("[...document.querySelectorAll('summary')].find((e) => e.textContent === arguments[0]).click()", name)
            self.assertEqual(set(self.shown(roll, len(people))), {one[what] for one in people})
            self.sees(f"{len(people)} rows")
        field = self.browser.find("searchbox", "Search students")
        names = [one["name"] for one in self.department.students]
        from_right = [name for name in names if "א" <= name[0] <= "ي"]
        self.assertGreater(len(from_right), 3)
        for word, found in (("muller", [name for name in names if name.endswith("Müller")]), *((name.split()[-1], [name])
                                                                                               for name in from_right)):
            field.clear()
            field.send_keys(word)
            self.assertEqual(sorted(self.shown("Students", len(found))), sorted(found))
        field.clear()
        field.send_keys("nobody is called so")
        self.sees("Nothing matches. Try fewer words, or clear the search.")

    def test_places_of_the_second_round(self):
        """They are counted by what lecturers take, which the page asks for; where nothing is left the round cannot be opened."""
        self.door.load_large("published")
        self.open(OFFICE, "Results")
        self.sees("0 to 103 places for 90 students. This browser doesn’t know how many students 30 lecturers take.")
        self.assertFalse(self.browser.find("button", "Open second round").is_enabled())
        self.choose_file("Open lecturers file", self.files / "lecturers.csv")
        self.browser.says("Read 30 names. Nothing was sent.")
        self.sees("7 places for 90 students: at least 83 will get no project.")
        self.assertTrue(self.browser.find("button", "Open second round").is_enabled())
        self.assertEqual(self.browser.script("document.activeElement.textContent"), "Open second round")
        self.department.lecturers[-4:] = [{**one, "capacity": taken} for one, taken in zip(self.department.lecturers[-4:], (2, 2, 1, 1))]
        self.department.write(self.files)
        self.choose_file("Lecturer or student file", self.files / "lecturers.csv")
        self.answer("Read names only", "Has the administrator corrected this?", "Corrected: use the file")
        self.browser.says("Read 30 names. Nothing was sent.")
        self.sees("0 places for 90 students: there is nothing left to choose.")
        self.assertFalse(self.browser.find("button", "Open second round").is_enabled())

    def test_results(self):
        """The places stand above the rows of 200 students, in a fold."""
        self.door.load_large("published")
        self.open(OFFICE, "Results")
        self.assertEqual(len(self.shown("Results", 200)), 200)
        self.browser.script(
            "[...document.querySelectorAll('summary')].find((e) => e.textContent === 'Places taken: 110 in 80 projects').click()")
        for width, height in self.SIZES:
            self.browser.resize(width, height)
            self.assertEqual(self.browser.script("document.querySelectorAll('.usage li').length"), 80)
            self.assertTrue(
                self.browser.script(
                    "document.querySelector('.usage').getBoundingClientRect().bottom <= "
                    "document.querySelector('table[aria-label=Results]').getBoundingClientRect().top"
                ))
            self.assertLessEqual(self.browser.script("document.documentElement.scrollWidth"), width)


class ClerksYear(DepartmentCase):
    """Both rounds of examples/large.py from an empty portal on, by somebody who sees the page for the first time. Nothing is lost on the
    way."""

    def test_year(self):
        students = self.without_codes()
        self.open(OFFICE, "Setup")
        self.wrong_file("Students", "Lecturers", "30 lecturers")
        self.wrong_file("Lecturers", "Students", "200 students", makes_codes=True)
        self.take_codes(students)
        self.wrong_file("Students", "Projects", "80 projects")
        self.assertEqual(self.status("lecturers", "projects", "students"), [30, 80, 200])
        self.step("Open choosing", "117 places for 200 students: at least 83 will get no project.", "Choosing")
        self.department.save_lists(self.door.do, OFFICE, 1)
        self.refresh()
        self.step("Open ranking", "12 students have no list and can’t save one after this.", "Ranking", "Without a list (12)")
        self.rank(leave=("l05", "l17"))
        self.step("Publish results", "You can’t undo this.", "Results")
        self.assertEqual(self.status("assigned"), [110])
        self.step("Open second round", "7 places for 90 students: at least 83 will get no project.", "Choosing")
        self.department.save_lists(self.door.do, OFFICE, 2)
        self.refresh()
        self.step("Open ranking", "30 students have no list and can’t save one after this.", "Ranking", "Without a list (30)")
        self.rank()
        self.step("Publish results", "You can’t undo this.", "Results")
        self.sees("The second round is published. There are no further steps.")
        self.assertEqual(self.status("lecturers", "projects", "students"), [30, 80, 200])
        self.assertEqual(self.status("assigned"), [117])

    def without_codes(self):
        """The students' file has no codes: the page makes them."""
        rows = [(one["id"], one["name"]) for one in self.department.students]
        with open(self.files / "students.csv", "w", encoding="utf-8", newline="") as file:
            csv.writer(file).writerows([("id", "name"), *rows])
        return rows

    def take_codes(self, students):
        """The file with the codes has everybody; each student goes on with the code from it."""
        head, *rows = books.rows(self.downloaded(f"students-{len(students)}-codes-{datetime.date.today()}.xlsx"))
        self.department.students = [dict(zip(head, row)) for row in rows]
        self.assertEqual([(one["id"], one["name"]) for one in self.department.students], students)
        self.codes += self.department.codes.values()

    def status(self, *names):
        status = self.door.do(OFFICE, "GET", "/status")
        return [status[name] for name in names]

    def refresh(self):
        self.browser.press("Refresh")
        self.browser.says("Up to date.")

    def wrong_file(self, where, roll, what, makes_codes=False):
        """A file is dropped where it does not belong. The page says what it is, and it is used as that."""
        before = self.status("lecturers", "projects", "students")
        self.choose_file(where, self.files / f"{roll.lower()}.csv")
        self.sees(f"This looks like the “{roll}” file, not the “{where}” file. Nothing was sent.")
        self.assertFalse(self.browser.has("button", "Send"))
        self.assertEqual(self.status("lecturers", "projects", "students"), before)
        self.browser.press(f"Use it as the “{roll}” file")
        if makes_codes:
            self.browser.press("These 4 rows are right")  # two pairs of students are called alike but for an accent
            self.browser.press("Make codes and save them")
            self.browser.press("The file is there")
        said = self.answer("Send", f"Add {what}?", f"Add {what}")
        self.assertIn("You can’t remove or change them later.", said)
        self.browser.says(f"{roll}: {what.split()[0]} added, 0 already there.", wait=60)

    def step(self, name, risk, phase, told=None):
        """Takes a step. What some would regret is told on the page, perhaps shorter, and is the bold line of the question; the blue
        button does nothing."""
        self.sees(told or risk)
        self.browser.press(name)
        self.browser.wait(lambda: self.browser.script("document.querySelector('dialog .risk')?.textContent.includes(arguments[0])", risk),
                          risk)
        self.assertEqual(self.browser.script("[...document.querySelectorAll('dialog button.main')].map((e) => e.textContent)"), ["Not now"])
        self.browser.press(name)
        self.browser.in_phase(phase, wait=60)

    def rank(self, leave=()):
        """Lecturers rank; nothing can be published before all have, and those who do not reply are filled in at last."""
        if leave:
            self.sees("You can’t publish yet: 30 rankings are missing.")
            self.assertFalse(self.browser.find("button", "Publish results").is_enabled())
        self.department.save_rankings(self.door.do, OFFICE, leave)
        self.refresh()
        if leave:
            self.sees("You can’t publish yet: 2 rankings are missing.")
            self.answer("Fill missing rankings", "Fill the missing rankings now?")
            self.browser.says("Filled for ")
        self.assertTrue(self.browser.find("button", "Publish results").is_enabled())
