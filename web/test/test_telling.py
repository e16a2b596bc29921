"""What the frame tells: the year's stages and their ends, languages, the department and its notice."""

import datetime
import json

from selenium.webdriver.common.keys import Keys

from case import ADA, BELL, OFFICE, PageCase

SIZES = ((1280, 900), (900, 600), (390, 844))


class Telling(PageCase):
    """What the department tells: until when a stage lasts, and notices."""

    def setUp(self):
        super().setUp()
        self.door.load_rolls()

    def until(self, **ends):
        (self.door.notice / "department.json").write_text(
            json.dumps({
                "name": "Mathematics",
                "until": {stage.replace("_", "-"): end.isoformat(timespec="minutes")
                          for stage, end in ends.items()}
            }))

    def text(self):
        return self.browser.page_text()

    def test_deadlines(self):
        """Everybody reads until when the stage lasts, in the own zone and language; once it is over that is told, and who can still
        save."""
        now = datetime.datetime.now(datetime.timezone.utc).replace(second=0, microsecond=0)
        end = now + datetime.timedelta(days=3, hours=2)
        self.until(choosing=end, ranking=now - datetime.timedelta(hours=1))
        self.door.move("choosing")
        for hours, zone in ((0, "UTC"), (9, "Asia/Tokyo")):
            self.browser.cdp("Emulation.setTimezoneOverride", timezoneId=zone)
            there = end + datetime.timedelta(hours=hours)
            said = f"Choosing closes on {there:%A} {there.day} {there:%B} at {there:%H:%M}{' GMT+9' if hours else ''} (in 3 days)."
            for code in (ADA, BELL, OFFICE):
                self.open(code, "Choosing")
                for width, height in SIZES:
                    self.browser.resize(width, height)
                    self.assertIn(said, self.text())
                    self.assertLessEqual(self.browser.script("document.documentElement.scrollWidth"), width)
                self.browser.sign_out()
        self.door.do(ADA, "PUT", "/choices", {"projects": ["rings"]})
        self.door.move("ranking")
        for code in (ADA, BELL, OFFICE):
            self.sign_in(code, "Ranking")
            self.assertIn("Ranking should be closed by now." if code == OFFICE else "The time announced for “Ranking” has passed.",
                          self.text())
            self.assertNotIn("closes on", self.text())
            self.browser.sign_out()
        self.until(ranking=end)
        self.browser.choose("Language", "Deutsch")
        self.browser.find("textbox", "Ihr Code")
        self.browser.open(self.door.address)
        self.browser.find("textbox", "Ihr Code").send_keys(BELL, Keys.ENTER)
        self.browser.wait(lambda: "„Rangfolgen“ endet am" in self.text() and "(in 3 Tagen)" in self.text(), "the end in German")
        self.browser.choose("Sprache", "English")

    def test_what_is_not_saved_near_the_end(self):
        """The dock warns of it in the last half hour, and after the time that was announced, when saving still works."""
        now = datetime.datetime.now(datetime.timezone.utc).replace(second=0, microsecond=0)
        self.until(choosing=now + datetime.timedelta(minutes=20))
        self.door.move("choosing")
        state = "document.querySelector('.state').textContent"
        self.open(ADA, "Choosing")
        self.browser.press("Add *, rings")
        self.assertRegex(self.browser.script(state), r"^Unsaved changes – Choosing closes in \d+ minutes$")
        for width, height in SIZES:
            self.browser.resize(width, height)
            self.assertTrue(
                self.browser.script("(({ scrollWidth, clientWidth }) => scrollWidth <= clientWidth)(document.querySelector('.state'))"))
        self.browser.press("Save list")
        self.browser.says("Saved")
        self.until(choosing=now - datetime.timedelta(minutes=1))
        self.browser.open(self.door.address)
        self.browser.in_phase("Choosing")
        self.assertIn("The announced time has passed; saving works until the office closes choosing.", self.text())
        self.assertRegex(self.browser.script(state), "^Saved at")
        self.browser.press("Add *, comets")
        self.assertEqual(self.browser.script(state), "Unsaved changes – the announced time has passed")

    def test_notices(self):
        """The notice of a stage stands in that stage alone, in the place of the general one."""
        (self.door.notice / "notice.txt").write_text("Questions? Room 12.")
        (self.door.notice / "notice-choosing.txt").write_text("Choose until 12 May, noon.")
        (self.door.notice / "notice-choosing-2.txt").write_text("The second round is short.")
        self.open()
        self.browser.wait(lambda: "Questions? Room 12." in self.text(), "the general notice")
        for phase, name, notice in (("setup", "Setup", "Questions? Room 12."), ("choosing", "Choosing", "Choose until 12 May, noon."),
                                    ("ranking", "Ranking", "Questions? Room 12.")):
            if phase != "setup":
                self.door.move(phase)
            self.sign_in(ADA, name)
            self.notice(notice)
            self.browser.sign_out()
            self.notice("Questions? Room 12.")
        self.door.move("published")
        self.door.do(OFFICE, "POST", "/phase", {"phase": "choosing", "round": 2})
        self.sign_in(ADA, "Choosing")
        self.notice("The second round is short.")

    def test_each_language(self):
        """A notice and a name of the department for each language; where one has none, that of all."""
        (self.door.notice / "notice.txt").write_text("Questions? Room 12.")
        (self.door.notice / "notice.de.txt").write_text("Fragen? Raum 12.")
        (self.door.notice / "notice-choosing.txt").write_text("Until noon.")
        (self.door.notice / "department.json").write_text(json.dumps({"name": {"en": "Mathematics", "de": "Mathematik"}}))
        self.open()
        self.notice("Questions? Room 12.")
        self.assertEqual(self.browser.driver.title, "Project choice – Mathematics")
        self.browser.choose("Language", "Deutsch")
        self.browser.find("textbox", "Ihr Code")
        self.notice("Fragen? Raum 12.")
        self.assertEqual(self.browser.driver.title, "Projektwahl – Mathematik")
        self.assertIn("Mathematik", self.text())
        self.door.move("choosing")
        self.browser.find("textbox", "Ihr Code").send_keys(ADA, Keys.ENTER)
        self.browser.in_phase("Wahl")
        self.notice("Until noon.")
        self.assertEqual(self.browser.driver.title, "Wahl – Projektwahl – Mathematik")
        self.assertIn("Student/in", self.browser.script("document.querySelector('header').textContent"))
        (self.door.notice / "notice-choosing.de.txt").write_text("Bis mittags.")
        self.browser.open(self.door.address)
        self.notice("Bis mittags.")
        self.browser.choose("Sprache", "English")
        self.browser.in_phase("Choosing")
        self.assertEqual(self.browser.driver.title, "Choosing – Project choice – Mathematics")

    def test_printing_and_forced_colours(self):
        """A page that is printed has nothing to press; in the system’s own colours a sign tells the stage."""
        self.door.move("choosing")
        for code in (ADA, BELL, OFFICE):
            self.open(code, "Choosing")
            if code == ADA:
                self.browser.press("Add *, rings")
            self.browser.cdp("Emulation.setEmulatedMedia", media="print")
            pressed = ("[...document.querySelectorAll('button, .button, select, input:not(.place)')].filter((e) => e.offsetParent && "
                       "!e.matches('.opener, .sort')).map((e) => e.outerHTML)")
            self.assertEqual(self.browser.script(pressed), [])
            self.browser.cdp("Emulation.setEmulatedMedia", media="", features=[{"name": "forced-colors", "value": "active"}])
            self.assertIn("●", self.browser.script("getComputedStyle(document.querySelector('.year [aria-current]'), '::before').content"))
            current, past = self.browser.script(
                "['[aria-current]', '.past'].map((one) => getComputedStyle(document.querySelector(`.year ${one}`)).borderTopColor)")
            self.assertNotEqual(current, past)
            self.browser.cdp("Emulation.setEmulatedMedia", media="", features=[{"name": "forced-colors", "value": "none"}])
            self.browser.press("Sign out")
            if code == ADA:
                self.browser.press("Leave")

    def notice(self, text):
        self.browser.wait(lambda: self.browser.script("document.querySelector('.notice').innerText") == text, f"the notice {text}")

    def test_broken_files(self):
        """A file of the department that has not its form is done without."""
        self.door.move("choosing")
        broken = ([None], {
            "projects": [None]
        }, {
            "projects": [7, "rings", [], {
                "id": 3
            }, {
                "id": "rings",
                "title": 4,
                "description": {},
                "link": 5
            }]
        }, {
            "projects": "none"
        }, 12)
        for projects in broken:
            (self.door.notice / "projects.json").write_text(json.dumps(projects))
            (self.door.notice / "department.json").write_text(json.dumps(projects))
            for code in (ADA, BELL, OFFICE):
                self.open(code, "Choosing")
                self.assertNotIn("Something went wrong", self.text())
                if code == ADA:
                    self.assertIn("Rings and their ideals", self.text())
                self.browser.sign_out()
