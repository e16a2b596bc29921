"""What students and lecturers are told: results, titles in both rounds, descriptions, the department, another language; and ways through
the page."""

import json

from selenium.webdriver.common.keys import Keys

from case import ADA, BELL, BEN, CLEO, DORA, EMIL, NOETHER, OFFICE, PageCase, TURING

DESCRIBED = {
    "projects": [
        {
            "id": "pulsars",
            "title": "Pulsars in old sky surveys",
            "lecturer": "bell",
            "lecturer_name": "Jocelyn Bell",
            "description": "Plates from 1950.\n<b>Bring</b> patience.",
            "link": "https://example.org/pulsars"
        },
        {
            "id": "rings",
            "title": "Rings and their ideals",
            "lecturer": "noether",
            "lecturer_name": "Emmy Noether",
            "description": "",
            "link": "http://example.org/rings"
        },
        {
            "id": "patterns",
            "title": "Patterns on shells",
            "lecturer": "turing",
            "lecturer_name": "Alan Turing",
            "description": "Why they have stripes.",
            "link": ""
        },
    ]
}
DEPARTMENT = {
    "name": "Department of <b>Mathematics</b>",
    "contact": "office@example.org",
    "privacy": "https://example.org/privacy",
    "accessibility": "javascript:alert(1)",
    "languages": ["en", "de"]
}


class PeopleCase(PageCase):
    def setUp(self):
        super().setUp()
        self.door.load_rolls()

    def beside(self, name, value):
        (self.door.notice / name).write_text(json.dumps(value))

    def text(self):
        return self.browser.page_text().replace("\u2068", "").replace("\u2069", "")

    def sees(self, *parts):
        for part in parts:
            self.assertIn(part, self.text())

    def first_round(self, **lists):
        """Ada and Ben want Pulsars, which Ben gets; Ada has no other on her list, Cleo gets her second choice, Emil has no list."""
        self.door.move("choosing")
        wanted = {ADA: ["pulsars"], BEN: ["pulsars", "comets"], CLEO: ["patterns", "rings"], DORA: ["patterns"]}
        for code, keys in wanted.items():
            self.door.do(code, "PUT", "/choices", {"projects": keys})
        self.door.move("ranking")
        self.door.do(BELL, "PUT", "/ranking", {"students": ["ben", "ada"]})
        self.door.do(TURING, "PUT", "/ranking", {"students": ["dora", "cleo"]})
        self.door.do(OFFICE, "POST", "/ranking/fill", {})

    def open_second(self):
        self.door.do(OFFICE, "POST", "/phase", {"phase": "choosing", "round": 2})


class Results(PeopleCase):
    def test_own_results(self):
        """The place on the own list, and why there is no project: no list, or no place on it. Lecturers see and take along who has what."""
        self.first_round()
        self.open(TURING, "Ranking")
        self.sees("You take up to 1 student in total, across all your projects.")
        self.browser.sign_out()
        self.door.move("published")
        for code, parts in ((BEN,
                             ["Your project is Pulsars in old sky surveys, with Jocelyn Bell.", "first choice. Only you can see this."]),
                            (CLEO, ["Your project is Rings and their ideals, with Emmy Noether.", "It was your 2nd choice."]), (ADA, [
                                "You didn’t get a project this time.",
                                "all its places, or all its lecturer’s places, went to students ranked above you"
                            ]), (EMIL, ["You didn’t get a project, because you saved no list, or an empty one."])):
            self.sign_in(code, "Results")
            self.sees(*parts)
            self.browser.sign_out()
        self.sign_in(BELL, "Results")
        self.browser.press("Copy results")
        self.browser.says("Copied 1 row.")
        self.assertEqual(self.browser.driver.execute_async_script("navigator.clipboard.readText().then(arguments[0])"),
                         "ben\tBen Bode\tpulsars\tPulsars in old sky surveys")
        self.browser.press("Download results")
        self.assertEqual(
            self.downloaded("result.csv").read_bytes().decode(),
            "\ufeffstudent,name,project,title\nben,Ben Bode,pulsars,Pulsars in old sky surveys\n")

    def test_who_withdraws(self):
        """Whoever saves an empty list is told so, and in the end is not said to have saved none; to the office both are the same."""
        self.door.move("choosing")
        self.door.do(ADA, "PUT", "/choices", {"projects": ["rings"]})
        self.open(ADA, "Choosing")
        self.browser.press("Remove from your list: *, rings")
        self.browser.press("Save list")
        self.browser.says("Saved. An empty list gets you no project.")
        self.browser.sign_out()
        self.sign_in(ADA, "Choosing")
        self.sees("No projects saved yet")
        self.browser.sign_out()
        self.sign_in(OFFICE, "Choosing")
        self.sees("Without a list (5)", "Whoever has saved an empty list, to withdraw, stands here too.")
        self.browser.sign_out()
        self.door.move("ranking")
        self.door.move("published")
        self.sign_in(ADA, "Results")
        self.sees("You didn’t get a project, because you saved no list, or an empty one.", "You saved no list, or an empty one.")

    def test_titles_from_what_this_browser_saw(self):
        """Without projects.json a browser that saw the first round knows the titles of the second; what is said is said by the phase and
        the person."""
        self.door.move("choosing")
        self.door.do(BEN, "PUT", "/choices", {"projects": ["pulsars"]})
        self.open(BEN, "Choosing")
        self.browser.sign_out()
        self.door.move("ranking")
        self.sign_in(NOETHER, "Ranking")
        self.sees("You have no applicants. You don’t need to do anything.")
        self.assertNotIn("Put all your applicants", self.text())
        self.browser.sign_out()
        self.door.do(OFFICE, "POST", "/ranking/fill", {})
        self.door.move("published")
        self.open_second()
        self.sign_in(BEN, "Choosing")
        self.sees("Your project is Pulsars in old sky surveys, with Jocelyn Bell.")
        self.browser.sign_out()
        self.sign_in(BELL, "Choosing")
        self.assertIn("Pulsars in old sky surveys", self.browser.find("region", "Your students").text)

    def test_titles_from_the_file(self):
        """A browser that has never seen the first round takes titles and names from projects.json."""
        self.first_round()
        self.door.move("published")
        self.open_second()
        self.beside("projects.json", DESCRIBED)
        self.open(CLEO, "Choosing")
        self.sees("Your project is Rings and their ideals, with Emmy Noether.")
        self.browser.sign_out()
        self.sign_in(TURING, "Choosing")
        self.assertIn("Patterns on shells", self.browser.find("region", "Your projects").text)


class Describing(PeopleCase):
    def test_descriptions(self):
        """A row opens its description, as plain text with a link by https, and the search finds what stands there."""
        self.beside("projects.json", DESCRIBED)
        self.open(ADA, "Setup")
        self.assertNotIn("Plates from 1950.", self.text())
        opener = self.browser.find("button", "Pulsars in old sky surveys")
        self.assertEqual(opener.get_attribute("aria-expanded"), "false")
        opener.click()
        self.sees("Plates from 1950.\n<b>Bring</b> patience.")
        self.assertEqual(opener.get_attribute("aria-expanded"), "true")
        self.assertEqual(
            self.browser.find("link", "More about this project (new tab)").get_attribute("href"), "https://example.org/pulsars")
        self.assertFalse(self.browser.has("button", "Rings and their ideals"))  # nothing is said of it but a link that is none by https
        self.browser.find("searchbox", "Search projects").send_keys("stripes")
        self.browser.wait(lambda: "1 of 5 projects" in self.text(), "one project")
        self.sees("Patterns on shells")
        self.assertNotIn("Plates from 1950.", self.text())
        self.browser.press("Patterns on shells")
        self.sees("Why they have stripes.")
        self.browser.press("Patterns on shells")
        self.assertNotIn("Why they have stripes.", self.text())

    def test_department_and_language(self):
        """The department's name and links stand on each page; the language is kept, and what is not saved too."""
        self.beside("department.json", DEPARTMENT)
        self.door.move("choosing")
        self.open()
        self.browser.find("textbox", "Your code")
        self.sees("Department of <b>Mathematics</b>")
        self.assertEqual(self.browser.driver.title, "Project choice – Department of <b>Mathematics</b>")
        self.assertEqual(self.browser.find("link", "Contact").get_attribute("href"), "mailto:office@example.org")
        self.assertEqual(self.browser.find("link", "Privacy").get_attribute("href"), "https://example.org/privacy")
        self.assertFalse(self.browser.has("link", "Accessibility"))
        self.sign_in(ADA, "Choosing")
        self.browser.press("Add *, rings")
        self.browser.choose("Language", "Deutsch")
        self.browser.find("button", "Abmelden")
        self.browser.wait(lambda: "Setzen Sie die Projekte" in self.text(), "the page in German")
        self.assertEqual(self.browser.entries("Ihre Liste"), ["rings"])
        self.browser.press("Liste speichern")
        self.browser.says("Gespeichert.")
        self.assertEqual(self.browser.script("document.documentElement.lang"), "de")
        self.browser.open(self.door.address)
        self.browser.find("button", "Wählen: *, comets").click()
        self.browser.find("button", "Liste speichern").click()
        self.browser.says("Gespeichert. Ihre Liste hat 2 Projekte.")
        self.browser.choose("Sprache", "English")
        self.browser.find("button", "Sign out")
        self.assertEqual(self.door.do(ADA, "GET", "/choices"), {"projects": ["rings", "comets"]})


class Ways(PeopleCase):
    def test_by_keyboard(self):
        """The first Tab leads to the own list; sections have names; a question says what it means; how it is decided is told until a
        list is saved."""
        self.door.move("choosing")
        self.open()
        self.browser.sign_in("student–ada—1 ")  # as a letter or a spreadsheet writes it
        self.browser.in_phase("Choosing")
        decided = ("they go to the students whom the lecturer ranks higher", "Lecturers rank without seeing your order",
                   "It makes no difference when you save.")
        self.sees(*decided)
        self.browser.unfold(".decided details")
        self.sees("To the office’s own code the portal shows no list",
                  "If your list has every project that you would take, waiting for the second round gains nothing",
                  "no group of friends can agree on lists", "the office made your code", "That favours low IDs")
        for name in ("Stages", "Projects", "Your list"):
            self.browser.find("region", name)
        self.browser.keys(Keys.TAB)
        self.assertEqual(self.browser.focused().text, "Skip to your list")
        self.browser.keys(Keys.ENTER)
        self.assertEqual(self.browser.focused().accessible_name, "Your list")
        self.browser.press("Add *, rings")
        self.browser.press("Sign out")
        dialog = self.browser.find("dialog", "Leave without saving?")
        described = self.browser.script("document.getElementById(arguments[0].getAttribute('aria-describedby')).innerText", dialog)
        self.assertEqual(described, "Your unsaved changes will be lost.")
        self.browser.press("Leave")
        self.sign_in(BEN, "Choosing")
        self.sees(*decided)
        self.browser.press("Add *, comets")
        self.browser.press("Save list")
        self.browser.says("Saved")
        self.assertNotIn("It makes no difference", self.text())
        self.browser.driver.find_element("css selector", "summary").click()
        self.sees(*decided)
        self.browser.sign_out()
        self.sign_in(BEN, "Choosing")
        self.assertNotIn("It makes no difference", self.text())
        self.browser.sign_out()
        self.door.move("ranking")
        self.sign_in(BELL, "Ranking")
        self.browser.keys(Keys.TAB)
        self.assertEqual(self.browser.focused().text, "Skip to your ranking")
        self.browser.keys(Keys.TAB)
        self.assertEqual(self.browser.focused().text, "Skip to “Save ranking”")

    def test_tables_on_phones(self):
        """On a phone the lecturer stands under the title, and no word is broken; on a desk the title has the most room."""
        self.beside("projects.json", DESCRIBED)
        self.door.move("choosing")
        self.open(ADA, "Choosing")
        widths = "[...document.querySelectorAll('table[aria-label=Projects] thead th')].map((e) => e.offsetWidth)"
        self.browser.resize(1280)
        title, *others = self.browser.script(widths)
        self.assertGreater(title, max(others) * 1.3)
        self.assertFalse(
            self.browser.script("[...document.querySelectorAll('table[aria-label=Projects] .under')].some((e) => e.offsetParent)"))
        self.browser.resize(390)
        self.browser.press("Pulsars in old sky surveys")
        self.assertFalse(
            self.browser.script("[...document.querySelectorAll('table[aria-label=Projects] td.beside')].some((e) => e.offsetWidth > 0)"))
        self.assertTrue(
            self.browser.script(
                "[...document.querySelectorAll('table[aria-label=Projects] .under')].every((e) => e.offsetParent && e.innerText)"))
        # each word stands on one line
        broken = """[...document.querySelectorAll('table[aria-label=Projects] bdi')].filter((e) => e.offsetParent)
        .flatMap((e) => [...e.firstChild.data.matchAll(/\\S+/g)].filter((m) => {
          const range = document.createRange(); range.setStart(e.firstChild, m.index); range.setEnd(e.firstChild, m.index + m[0].length);
          return new Set([...range.getClientRects()].map((r) => r.top)).size > 1;
        }).map((m) => m[0]))"""
        self.assertEqual(self.browser.script(broken), [])
        self.assertLessEqual(self.browser.script("document.documentElement.scrollWidth"), 390)
