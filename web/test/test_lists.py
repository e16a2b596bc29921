"""The own list and the own ranking: what saves them stays in view, two tabs, undo, places by number, dragging at the edge, receipts,
messages."""

import time

from selenium.webdriver.common.action_chains import ActionChains
from selenium.webdriver.common.keys import Keys

from case import OFFICE, PageCase

ADA, BEN, BELL = "student-ada-0001", "student-ben-0001", "lecturer-bell-01"
LECTURERS = f"id,name,code,capacity\nbell,Jocelyn Bell,{BELL},3\nmoe,Max Moe,lecturer-moe-001,9\n"
PROJECTS = "id,lecturer,title,capacity\n" + "".join(f"p{n:02},{'bell' if n < 2 else 'moe'},Project number {n},2\n" for n in range(30))
STUDENTS = f"id,name,code\nada,Ada Ames,{ADA}\nben,Ben Bode,{BEN}\n" + "".join(f"s{n:02},Student {n},student-number-{n:02}\n"
                                                                               for n in range(60))
KEYS = [f"p{n:02}" for n in range(30)]


def named(key):
    """What a project or a student is called: by title or name, and by key."""
    return f"Project number {int(key[1:])}, {key}" if key.startswith("p") else f"Student {int(key[1:])}, {key}"


# An element is seen: it is within the window, and what is seen at its middle is itself.
SEEN = ("((e) => { const r = e.getBoundingClientRect(); return r.top >= 0 && r.bottom <= innerHeight && "
        "e.contains(document.elementFromPoint(r.left + r.width / 2, r.top + r.height / 2)); })(arguments[0])")
# What scrolls within the page; there is nothing of that kind.
SCROLLS = ("[...document.querySelectorAll('body *')].filter((e) => ['auto', 'scroll'].includes(getComputedStyle(e).overflowY) && "
           "e.scrollHeight > e.clientHeight + 1).map((e) => e.className || e.tagName)")


class ListCase(PageCase):
    def setUp(self):
        super().setUp()
        self.codes += [ADA, BEN, BELL]
        for roll, text in (("lecturers", LECTURERS), ("projects", PROJECTS), ("students", STUDENTS)):
            self.door.do(OFFICE, "POST", f"/rolls/{roll}", text.encode())
        self.door.move("choosing")

    def click(self, *names):
        """Presses buttons wherever on the page they are, without scrolling there."""
        for name in names:
            self.browser.driver.execute_script("arguments[0].click()", self.browser.find("button", name))

    def saved(self, code=ADA):
        return self.door.do(code, "GET", "/choices")["projects"]

    def add(self, *keys):
        self.click(*(f"Add {named(key)}" for key in keys))

    def is_seen(self, element):
        return self.browser.script(SEEN, element)

    def entries(self):
        return self.browser.entries("Your list")

    def place(self, key, number):
        field = self.browser.click("spinbutton", f"Position of {named(key)}")
        field.send_keys(Keys.CONTROL, "a")
        field.send_keys(str(number), Keys.ENTER)


class Saving(ListCase):
    def test_save_row_stays_in_view(self):
        """From one entry on a phone and from twenty on a desk the button, the count and the state are seen, and the page alone scrolls."""
        self.open(ADA, "Choosing")
        self.browser.resize(390, 700)
        self.add("p00")
        self.assertTrue(self.is_seen(self.browser.find("button", "Save list")))
        self.assertIn("Unsaved changes", self.browser.page_text())
        self.browser.press("Show list")
        self.browser.wait(lambda: self.is_seen(self.browser.find("button", f"Remove {named('p00')}")), "the list")
        self.browser.resize(1280, 900)
        self.add(*KEYS[1:20])
        self.assertEqual(self.entries(), KEYS[:20])
        for place in (0, 300, 10_000):
            self.browser.driver.execute_script("scrollTo(0, arguments[0])", place)
            self.assertTrue(self.is_seen(self.browser.find("button", "Save list")))
            if place == 300:  # the heads of the columns stay, too
                self.browser.driver.execute_script("document.querySelector('tbody tr:nth-child(4)').scrollIntoView({ block: 'center' })")
                self.assertTrue(self.is_seen(self.browser.driver.find_element("css selector", "th")))
        self.assertEqual(self.browser.script(SCROLLS), [])
        self.browser.press("Save list")
        self.browser.says("Saved. Your list has 20 projects.")
        self.assertIn("Saved at", self.browser.script("document.querySelector('.state').textContent"))

    def test_messages(self):
        """What a change does is told to screen readers alone; what was done goes by itself; a refusal stays until it is closed."""
        self.open(ADA, "Choosing")
        self.browser.resize(1280, 500)
        self.add(*KEYS[:12])
        keys = KEYS[:12]
        for key in KEYS[3:8]:
            at = keys.index(key)
            keys[at:at + 2] = keys[at + 1], key
            self.browser.press(f"Move {named(key)} down")
            self.browser.announced(f"Project number {int(key[1:])} is now number {at + 2} of 12.")
            self.assertEqual(self.browser.text("status"), "")
            self.assertTrue(self.browser.wait(lambda: self.is_seen(self.browser.focused()), "what is being done"))
        self.browser.press("Save list")
        self.browser.says("Saved. Your list has 12 projects.")
        time.sleep(6)
        self.assertEqual(self.browser.text("status"), "")
        self.browser.press(f"Move {named('p08')} down")
        self.door.move("ranking")
        self.browser.press("Save list")
        self.browser.warns("The portal has moved on to “Ranking”. Your last action was not carried out. Your last saved list counts.")
        time.sleep(6)
        self.browser.warns("Your last saved list counts.")
        self.browser.press("Close message")
        self.assertEqual(self.browser.text("alert"), "")

    def test_two_tabs(self):
        """What another tab saved meanwhile is shown beside what is on this page, and one of the two is kept."""
        self.open(ADA, "Choosing")
        self.add("p00", "p01")
        self.door.do(ADA, "PUT", "/choices", {"projects": ["p05", "p06"]})
        self.browser.press("Save list")
        dialog = self.browser.find("dialog", "Which list do you want to keep?")
        for part in ("A different version was saved in another tab or on another device", "Project number 0", "Project number 1",
                     "Project number 5", "Project number 6"):
            self.assertIn(part, dialog.text)
        self.browser.press("Cancel")
        self.assertEqual((self.entries(), self.saved()), (["p00", "p01"], ["p05", "p06"]))
        self.browser.press("Save list")
        self.browser.press("Use the other version")
        self.browser.says("Now showing the version saved elsewhere.")
        self.assertEqual((self.entries(), self.saved()), (["p05", "p06"], ["p05", "p06"]))
        self.add("p07")
        self.door.do(ADA, "PUT", "/choices", {"projects": []})
        self.browser.press("Save list")
        self.browser.press("Save this page’s version")
        self.browser.says("Saved. Your list has 3 projects.")
        self.assertEqual(self.saved(), ["p05", "p06", "p07"])
        self.add("p08")
        self.door.do(ADA, "PUT", "/choices", {"projects": ["p05", "p06", "p07", "p08"]})
        self.browser.press("Save list")  # the same list twice is no question
        self.browser.says("Saved. Your list has 4 projects.")


class Ordering(ListCase):
    def test_changes_are_taken_back(self):
        self.door.do(ADA, "PUT", "/choices", {"projects": ["p00", "p01", "p02"]})
        self.open(ADA, "Choosing")
        self.assertEqual(self.browser.find("button", "Undo").get_attribute("aria-disabled"), "true")
        self.click(f"Remove {named('p01')}", f"Add {named('p09')}", f"Move {named('p02')} up")
        self.assertEqual(self.entries(), ["p02", "p00", "p09"])
        for keys in (["p00", "p02", "p09"], ["p00", "p02"], ["p00", "p01", "p02"]):
            self.click("Undo")
            self.browser.announced("Last change undone.")
            self.assertEqual(self.entries(), keys)
        self.assertEqual(self.browser.find("button", "Undo").get_attribute("aria-disabled"), "true")
        self.click(f"Add {named('p09')}", f"Remove {named('p00')}", "Discard changes")
        self.browser.says("Changes discarded.")
        self.assertEqual(self.entries(), ["p00", "p01", "p02"])
        self.assertFalse(self.browser.find("button", "Save list").is_enabled())
        self.click("Undo")
        self.assertEqual(self.entries(), ["p01", "p02", "p09"])
        self.receipt()

    def receipt(self):
        """What is printed is what is saved, not what is on the page, with titles, lecturers and whose it is."""
        self.browser.driver.execute_script("window.print = () => { window.seen = document.querySelector('.printed').innerText; }")
        self.click("Print receipt")
        paper = self.browser.script("window.seen").replace("\u2068", "").replace("\u2069", "")
        for part in ("Ada Ames (ada)", "Your list", "Project number 0", "Jocelyn Bell · p00", "Project number 2", "Max Moe · p02",
                     "Last saved version on localhost"):
            self.assertIn(part, paper)
        self.assertLess(paper.index("Project number 0"), paper.index("Project number 1"))
        self.assertNotIn("Project number 9", paper)

    def test_places_by_number(self):
        self.open(ADA, "Choosing")
        self.add(*KEYS[:6])
        self.place("p05", 1)
        self.browser.announced("Project number 5 is now number 1 of 6.")
        self.assertEqual(self.entries(), ["p05", *KEYS[:5]])
        self.place("p05", 99)
        self.assertEqual(self.entries(), KEYS[:6])
        self.place("p02", 4)
        self.assertEqual(self.entries(), ["p00", "p01", "p03", "p02", "p04", "p05"])
        self.place("p02", 0)
        self.assertEqual(self.browser.find("spinbutton", f"Position of {named('p02')}").get_attribute("value"), "4")
        self.browser.keys(Keys.ARROW_UP)
        self.assertEqual(self.entries(), KEYS[:6])

    def test_keys_after_a_click_scroll(self):
        """Keys move an entry that has the focus by keyboard, or with Alt: after a click they scroll, as everywhere."""
        self.door.do(ADA, "PUT", "/choices", {"projects": KEYS[:6]})
        self.open(ADA, "Choosing")
        self.browser.press(f"Move {named('p02')} up")
        order = ["p00", "p02", "p01", "p03", "p04", "p05"]
        for key in (Keys.END, Keys.HOME, Keys.ARROW_DOWN, Keys.ARROW_UP):
            self.browser.keys(key)
            self.assertEqual(self.entries(), order)
        self.with_alt(Keys.END)
        self.assertEqual(self.entries(), ["p00", "p01", "p03", "p04", "p05", "p02"])
        self.browser.press("Undo")
        self.browser.press(f"Move {named('p02')} up")
        self.browser.keys(Keys.TAB, Keys.HOME)
        self.assertEqual(self.entries(), ["p02", "p00", "p01", "p03", "p04", "p05"])
        self.browser.keys(Keys.ARROW_DOWN)
        self.assertEqual(self.entries(), ["p00", "p02", "p01", "p03", "p04", "p05"])

    def with_alt(self, key):
        ActionChains(self.browser.driver).key_down(Keys.ALT).send_keys(key).key_up(Keys.ALT).perform()

    def test_undo_brings_the_row_back(self):
        """After a project was put on the list or taken off it, taking that back brings its row of the catalogue into sight."""
        self.open(ADA, "Choosing")
        row = ("((r) => r.top >= 0 && r.bottom <= "
               "document.querySelector('.dock').getBoundingClientRect().top)([...document.querySelectorAll('.catalogue tbody "
               "tr')].find((r) => r.innerText.includes(arguments[0])).getBoundingClientRect())")
        for width, height in ((1280, 900), (390, 844)):
            self.browser.resize(width, height)
            for name in (f"Add {named('p01')}", f"Remove from your list: {named('p01')}"):
                self.click(name)
                self.browser.driver.execute_script("scrollTo(0, document.documentElement.scrollHeight)")
                self.browser.wait(lambda: not self.browser.script(row, "p01"), "the row out of sight")
                self.browser.press("Undo")
                self.browser.wait(lambda: self.browser.script(row, "p01"), "the row in sight")
                if name.startswith("Add"):
                    self.click(name)
            self.click(f"Remove from your list: {named('p01')}")

    def test_rows_of_the_catalogue(self):
        """A project on the list tells its place, and moves along; its button takes it off again, and keeps the focus."""
        self.open(ADA, "Choosing")
        self.add("p03", "p04")
        self.assertFalse(self.browser.has("button", f"Add {named('p03')}"))
        row = ("[...document.querySelectorAll('table[aria-label=Projects] tbody tr')].find((r) => "
               "r.innerText.includes(arguments[0])).innerText")
        self.assertIn("Choice 1", self.browser.script(row, "p03"))
        self.click(f"Move {named('p04')} up")
        self.assertIn("Choice 2", self.browser.script(row, "p03"))
        self.assertIn("Choice 1", self.browser.script(row, "p04"))
        self.click(f"Remove {named('p03')}")
        self.assertTrue(self.browser.has("button", f"Add {named('p03')}"))
        self.assertNotIn("Choice", self.browser.script(row, "p03"))
        self.browser.press(f"Remove from your list: {named('p04')}")
        self.browser.announced("Nothing is left.")
        self.assertEqual((self.entries(), self.browser.focused().accessible_name), ([], f"Add {named('p04')}"))
        self.add(*KEYS[:20])
        self.browser.press(f"Add {named('p20')}")
        self.browser.says("List full: remove a project first.")
        self.assertEqual(self.entries(), KEYS[:20])

    def test_dragging_scrolls_at_the_edge(self):
        self.door.do(ADA, "PUT", "/choices", {"projects": KEYS[:20]})
        self.open(ADA, "Choosing")
        self.browser.resize(390, 700)
        self.browser.press("Show list")
        handle = self.browser.driver.find_element("css selector", "ol[aria-label='Your list'] li:first-child .handle")
        self.browser.driver.execute_script("arguments[0].scrollIntoView({ block: 'center' })", handle)
        before = self.browser.script("scrollY")
        edge = self.browser.script(
            "document.querySelector('.dock').getBoundingClientRect().top - arguments[0].getBoundingClientRect().top - 30", handle)
        mouse = ActionChains(self.browser.driver).click_and_hold(handle).move_by_offset(0, int(edge / 2)).move_by_offset(0, int(edge / 2))
        mouse.perform()
        self.browser.wait(lambda: self.entries()[-1] == "p00", "the first entry at the end")
        self.assertGreater(self.browser.script("scrollY"), before + 100)
        ActionChains(self.browser.driver).release().perform()
        self.browser.announced("Project number 0 is now number 20 of 20.")
        self.click("Undo")  # one dragging is one change
        self.assertEqual(self.entries(), KEYS[:20])


class Rankings(ListCase):
    def test_sixty_applicants(self):
        """Places by number, the filter by project, titles beside each applicant, who stands there once; and what is taken along."""
        for n in range(60):
            self.door.do(f"student-number-{n:02}", "PUT", "/choices", {"projects": ["p00"] if n < 58 else ["p01", "p00"]})
        self.door.do(BEN, "PUT", "/choices", {"projects": ["p01"]})
        self.door.move("ranking")
        self.open(BELL, "Ranking")
        text = self.browser.page_text()
        for part in ("You take up to 3 students in total, across all your projects.", "Chosen by 60 students.", "Chosen by 3 students."):
            self.assertIn(part, text)
        for name in ("Ben Bode", "Student 58"):
            self.assertEqual(text.count(f"{name}\n"), 1)
        entry = "[...document.querySelectorAll('ul[aria-label=Applicants] li')].find((e) => e.innerText.includes(arguments[0])).innerText"
        self.assertIn("Project number 0", self.browser.script(entry, "s58"))
        self.assertIn("Project number 1", self.browser.script(entry, "s58"))
        self.filter()
        self.take_along()
        self.click("Add the rest in ID order")
        self.place("s59", 1)
        self.browser.announced("Student 59 is now number 1 of 61.")
        self.browser.press("Save ranking")
        self.browser.says("Saved. Your ranking has 61 students.")
        self.assertEqual(self.door.do(BELL, "GET", "/ranking")["students"][:3], ["s59", "ben", "s00"])
        self.meanwhile()

    def filter(self):
        self.browser.choose("Show applicants for", "Project number 1")
        shown = ("[...document.querySelectorAll('ul[aria-label=Applicants] li')].filter((e) => !e.hidden).map((e) => "
                 "e.querySelector('.key').textContent.split(' ')[0])")
        self.assertEqual(self.browser.script(shown), ["ben", "s58", "s59"])
        self.browser.choose("Show applicants for", "All your projects")
        self.assertEqual(len(self.browser.script(shown)), 61)

    def take_along(self):
        self.browser.driver.execute_script(
            "window.print = () => { window.seen = [...document.querySelectorAll('.printed tbody tr')].map((r) => [...r.cells].map((c) => "
            "c.textContent)); }"
        )
        self.click("Print applicants")
        rows = self.browser.script("window.seen")
        self.assertEqual(len(rows), 61)
        self.assertIn(["s58", "Student 58", "Project number 0; Project number 1"], rows)
        self.click("Copy applicants")
        self.browser.says("Copied 61 rows.")
        copied = self.browser.driver.execute_async_script("navigator.clipboard.readText().then(arguments[0])")
        self.assertEqual(copied.split("\n")[0], "ben\tBen Bode\tProject number 1")
        self.click("Download applicants")
        lines = self.downloaded("applicants.csv").read_bytes().decode("utf-8").split("\n")
        self.assertEqual(lines[:2], ["\ufeffid,name,projects", "ben,Ben Bode,Project number 1"])

    def meanwhile(self):
        """The office fills while the lecturer is at it: the question shows both rankings."""
        self.click(f"Move {named('s59')} down")
        order = self.door.do(BELL, "GET", "/ranking")["students"]
        self.door.do(BELL, "PUT", "/ranking", {"students": sorted(order)})
        self.browser.press("Save ranking")
        self.browser.find("dialog", "Which ranking do you want to keep?")
        self.browser.press("Save this page’s version")
        self.browser.says("Saved. Your ranking has 61 students.")
        self.assertEqual(self.door.do(BELL, "GET", "/ranking")["students"][:3], ["ben", "s59", "s00"])
