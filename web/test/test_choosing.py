"""Students of a department of 200 who choose, on a desk and on a phone: the catalogue, and drafts."""

import json
import signal

from selenium.webdriver.common.action_chains import ActionChains
from selenium.webdriver.common.keys import Keys

from case import OFFICE
from largecase import PHONE
from studentcase import StudentCase

ROWS = "[...document.querySelectorAll('.catalogue tbody tr:not([hidden], .description)')]"


class Choosing(StudentCase):
    def setUp(self):
        super().setUp()
        self.load("choosing")
        self.key, self.other = (one["id"] for one in self.large.students[:2])

    def add(self, *projects):
        self.click(*(f"Add {self.name(project)}" for project in projects))

    def saved(self):
        return self.ask(self.key, "/choices")["projects"]

    def open_as(self, key):
        self.open(self.large.codes[key], "Choosing")

    def test_twenty_by_clicks(self):
        """In a low window a person clicks where the next button is seen. No click lands on a message."""
        self.browser.resize(900, 600)
        self.open_as(self.key)
        wanted = [f"p{n:03}" for n in range(1, 21)]
        for at, project in enumerate(wanted):
            button = self.browser.find("button", f"Add {self.name(project)}")
            middle = "((r) => [r.left + r.width / 2, r.top + r.height / 2])(arguments[0].getBoundingClientRect())"
            free = "document.querySelector('.dock').getBoundingClientRect().top"
            while self.browser.script(middle, button)[1] > self.browser.script(free) - 2:
                self.browser.driver.execute_script("scrollBy(0, 200)")
            x, y = self.browser.script(middle, button)
            self.assertTrue(
                self.browser.script("arguments[0].contains(document.elementFromPoint(arguments[1], arguments[2]))", button, x, y))
            mouse = ActionChains(self.browser.driver)
            mouse.w3c_actions.pointer_action.move_to_location(int(x), int(y)).click()
            mouse.perform()
            self.assertEqual(self.browser.entries("Your list"), wanted[:at + 1])
            self.browser.announced(f"{self.title(project)} is now number {at + 1} of {at + 1}.")
            self.assertEqual(self.browser.text("status"), "")
        self.browser.press("Save list")
        self.browser.says("Saved. Your list has 20 projects.")

    def test_drafts(self):
        """What is not saved survives a reload, is each caller's own, and is forgotten on signing out."""
        self.open_as(self.key)
        self.add("p003", "p001")
        self.reload("Choosing")
        self.browser.says("Your unsaved changes are still here.")
        self.assertEqual((self.browser.entries("Your list"), self.saved()), (["p003", "p001"], []))
        self.browser.press("Save list")
        self.browser.says("Saved")
        self.assertEqual(self.saved(), ["p003", "p001"])
        self.add("p005")
        self.browser.press("Sign out")
        self.browser.press("Leave")
        self.assertEqual(self.browser.script("Object.keys(sessionStorage).filter((name) => name.includes('draft'))"), [])
        self.sign_in(self.large.codes[self.other], "Choosing")
        self.assertEqual(self.browser.entries("Your list"), [])
        self.browser.sign_out()
        self.sign_in(self.large.codes[self.key], "Choosing")
        self.assertEqual(self.browser.entries("Your list"), ["p003", "p001"])

    def test_draft_and_another_tab(self):
        """A draft was begun on another list than the one that is saved now: the person is asked."""
        self.open_as(self.key)
        self.add("p003")
        self.door.do(self.large.codes[self.key], "PUT", "/choices", {"projects": ["p009"]})
        self.reload("Choosing")
        self.browser.press("Save list")
        dialog = self.browser.find("dialog", "Which list do you want to keep?")
        self.assertIn(self.title("p009"), dialog.text)
        self.browser.press("Save this page’s version")
        self.browser.says("Saved")
        self.assertEqual(self.saved(), ["p003"])

    def test_saved_too_late(self):
        """The list that was not saved in time stays on the page, to read and copy, next to what was saved."""
        self.open_as(self.key)
        self.add("p003", "p001")
        self.browser.press("Save list")
        self.browser.says("Saved")
        self.add("p008")
        self.click(f"Move {self.name('p008')} up")
        self.door.move("ranking")
        self.browser.press("Save list")
        self.browser.warns("Your last saved list counts. What you changed after it stays on this page, to read and copy.")
        self.browser.in_phase("Ranking")
        for _ in self.sizes():
            self.assertEqual(self.parts(), ["Your list", "Not saved in time", "Projects"])
            for part, keys in (("Not saved in time", ["p003", "p008", "p001"]), ("Your list", ["p003", "p001"])):
                self.assertEqual([entry.split("\n")[0] for entry in self.entries(part)], [self.title(key) for key in keys])
        self.browser.press("Copy this")
        self.browser.says("Copied 3 rows.")
        copied = self.browser.driver.execute_async_script("navigator.clipboard.readText().then(arguments[0])")
        self.assertEqual(copied.split("\n")[1], f"p008\t{self.title('p008')}")
        self.browser.press("Remove this")
        self.browser.open(self.door.address)
        self.browser.in_phase("Ranking")
        self.assertEqual(self.parts(), ["Your list", "Projects"])

    def test_what_is_saved(self):
        """Nothing is said to be saved before it is; while it is being saved it cannot be saved again; then the time is told."""
        self.open_as(self.key)
        for _ in self.sizes():
            self.sees("No projects saved yet")
        self.add("p001")
        self.assertEqual(self.browser.driver.find_element("css selector", ".state").text, "Unsaved changes")
        self.door.portal.send_signal(signal.SIGSTOP)
        try:
            self.browser.press("Save list")
            self.browser.wait(lambda: "Saving…" in self.text(), "Saving…")
            self.assertEqual(self.browser.find("button", "Save list").get_attribute("aria-disabled"), "true")
        finally:
            self.door.portal.send_signal(signal.SIGCONT)
        self.browser.says("Saved. Your list has 1 project.")
        state = self.browser.script("document.querySelector('.state').textContent")
        self.assertRegex(state, r"^Saved at \d\d:\d\d$")
        self.saving_time(state)
        self.browser.unfold(".decided, .decided details")
        self.sees(
            "Whichever projects you list, list them in your honest order: no other order of them, and no shorter list of some of them, "
            "gives you one that you like better.",
            "A list has room for 20; if you like more, no rule says which 20 to list.",
            "If your list has every project that you would take, waiting for the second round gains nothing")

    def saving_time(self, state):
        """It survives a reload and stands on the receipt; of a list that was saved elsewhere it is not said."""
        self.reload("Choosing")
        self.assertEqual(self.browser.script("document.querySelector('.state').textContent"), state)
        self.assertIn(state, self.receipt())
        self.door.do(self.large.codes[self.key], "PUT", "/choices", {"projects": ["p002"]})
        self.reload("Choosing")
        self.assertEqual(self.browser.script("document.querySelector('.state').textContent"), "All changes saved")
        self.assertNotIn("Saved at", self.receipt())

    def receipt(self):
        self.browser.driver.execute_script("window.print = () => { window.seen = document.querySelector('.printed').innerText; }")
        self.browser.press("Print receipt")
        return self.browser.script("window.seen")

    def test_names_and_skips(self):
        """Everything is called by title and key. From the catalogue a link leads to the list, and one to what saves it."""
        self.open_as(self.key)
        name = self.name("p002")
        self.add("p001", "p002")
        for said in (f"Move {name} up", f"Move {name} down", f"Remove {name}"):
            self.browser.find("button", said)
        self.browser.find("spinbutton", f"Position of {name}")
        for count, (width, _) in enumerate(self.sizes(), 3):
            self.browser.driver.execute_script("arguments[0].focus()", self.browser.find("button", f"Add {self.name(f'p{count + 37:03}')}"))
            self.browser.keys(Keys.ENTER)
            for text in ("Skip to your list", "Skip to “Save list”"):
                self.browser.keys(Keys.TAB)
                self.assertEqual(self.browser.focused().text, text)
                box = self.browser.script("document.activeElement.getBoundingClientRect()")
                self.assertTrue(box["left"] >= 0 and box["right"] <= width and box["top"] >= 0)
            self.browser.keys(Keys.ENTER)
            self.assertEqual(self.browser.focused().text, "Save list")
            self.browser.keys(Keys.ENTER)
            self.browser.says(f"Saved. Your list has {count} projects.")


class Catalogue(StudentCase):
    def setUp(self):
        super().setUp()
        self.load("choosing")
        self.names = {one["id"]: one["name"] for one in self.large.lecturers}
        described = [{**one, "lecturer_name": self.names[one["lecturer"]]} for one in self.large.descriptions]
        described[0]["title"] = self.large.projects[0]["title"]
        (self.door.notice / "projects.json").write_text(json.dumps({"projects": described}))

    def keys(self):
        self.browser.wait(lambda: self.browser.script(f"{ROWS}.length") > 0 or "Nothing matches" in self.text(), "rows")
        return self.browser.script(f"{ROWS}.map((e) => e.querySelector('.key').textContent)")

    def test_sorting_and_filters(self):
        self.open(self.large.students[0]["code"], "Choosing")
        projects = {one["id"]: one for one in self.large.projects}
        for _ in self.sizes():
            self.browser.open(self.door.address)
            self.browser.in_phase("Choosing")
            self.assertEqual(len(self.keys()), 80)
            self.browser.press("Title")
            titles = [projects[key]["title"] for key in self.keys()]
            self.assertEqual(titles, sorted(titles))
            self.browser.press("Places")
            self.browser.press("Places")
            places = [projects[key]["capacity"] for key in self.keys()]
            self.assertEqual(places, sorted(places, reverse=True))
            self.browser.press("Lecturer")
            lecturers = [projects[key]["lecturer"] for key in self.keys()]
            self.assertEqual(len([at for at in range(79) if lecturers[at] != lecturers[at + 1]]), 29)  # those of each stand together
            self.browser.choose("Lecturer", self.names["l02"])
            self.assertEqual(sorted(self.keys()), [key for key in projects if projects[key]["lecturer"] == "l02"])
            self.browser.choose("Lecturer", "All lecturers")
            self.browser.choose("Places", "3 or more places")
            self.assertEqual(sorted(self.keys()), [key for key in projects if projects[key]["capacity"] >= 3])
            self.browser.choose("Places", "Places: any")
            self.click(f"Add {projects['p007']['title']}, p007")
            self.browser.click("checkbox", "Not on my list")
            self.assertEqual(sorted(self.keys()), [key for key in projects if key != "p007"])
            self.browser.find("searchbox", "Search projects").send_keys("no such words")
            self.browser.wait(lambda: "Nothing matches." in self.text(), "a sentence")
            self.assertEqual(self.keys(), [])
            self.click(f"Remove {projects['p007']['title']}, p007")

    def test_rows(self):
        """Each row is called by its title, and takes at most 72 pixels on a phone until it is opened."""
        self.open(self.large.students[0]["code"], "Choosing")
        for width, _ in self.sizes():
            self.assertEqual(len(self.keys()), 80)
            first = self.large.projects[0]
            self.assertEqual(
                len(
                    self.browser.find_all(
                        "rowheader", f"{first['title']} 3 places · Amélie Müller · p001" if width == 390 else f"{first['title']} p001")), 1)
            if width == 390:
                self.assertLessEqual(max(self.browser.script(f"{ROWS}.map((e) => e.offsetHeight)")), 72)
            opener = self.browser.click("button", first["title"])
            self.assertEqual(opener.get_attribute("aria-expanded"), "true")
            self.sees("The first three weeks are for reading")
            self.browser.click("button", first["title"])
            self.assertNotIn("The first three weeks are for reading", self.text())
            self.assertLessEqual(self.browser.script("document.documentElement.scrollWidth"), width)

    def test_long_title(self):
        """A title of 160 letters is cut on a phone, and whole where it is opened."""
        title = " ".join(["An exceedingly long title"] * 6)[:160]
        self.door.do(OFFICE, "POST", "/rolls/projects", f"id,lecturer,title,capacity\nzlong,l01,{title},2\n".encode())
        self.browser.resize(*PHONE)
        self.open(self.large.students[0]["code"], "Choosing")
        height = f"{ROWS}.find((e) => e.querySelector('.key').textContent === 'zlong').offsetHeight"
        self.assertLessEqual(self.browser.script(height), 72)
        self.browser.press(title)
        self.assertGreater(self.browser.script(height), 100)

    def test_odd_file(self):
        """What is no project in projects.json is done without."""
        odd = [
            None, 7, "p001", [], {}, {
                "id": 3
            }, {
                "id": "p001",
                "title": 5,
                "description": [1],
                "link": 9,
                "lecturer_name": None
            }, {
                "id": "p002",
                "description": "Good.",
                "link": "https://example.org"
            }
        ]
        for content in ({"projects": odd}, {"projects": [None]}, {"projects": 5}, [None], None, 7, "text"):
            (self.door.notice / "projects.json").write_text(json.dumps(content))
            self.open(self.large.students[0]["code"], "Choosing")
            self.assertEqual(len(self.keys()), 80)
            self.browser.sign_out()
        (self.door.notice / "projects.json").write_text(json.dumps({"projects": odd}))
        self.open(self.large.students[0]["code"], "Choosing")
        self.browser.press(self.large.projects[1]["title"])
        self.sees("Good.", "More about this project (new tab)")
