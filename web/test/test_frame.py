"""The frame around each page: signing in and out, messages, deadlines, notices, and broken files of a department."""

import datetime
import json
import signal
import time
from pathlib import Path

from selenium.webdriver.common.keys import Keys

from case import ADA, BELL, BEN, OFFICE, PageCase

SIZES = ((1280, 900), (900, 600), (390, 844))


class Loading(PageCase):
    """What is seen while the page is loaded, and where a part of it does not come."""

    def setUp(self):
        super().setUp()
        self.door.load_rolls()
        self.door.move("choosing")

    def without(self, name):
        """The file is not served; what is answered serves it again. The browser writes of it in its console."""
        path = self.door.path / "site" / name
        path.unlink()

        def again():
            path.symlink_to(self.WEB / name)
            self.look_past_404()
        return again

    WEB = Path(__file__).resolve().parent.parent

    def look_past_404(self):
        told = [entry["message"] for entry in self.browser.driver.get_log("browser")]
        self.assertTrue(all("404" in one or "Failed to fetch dynamically imported module" in one for one in told), told)

    def test_a_part_of_the_page_does_not_come(self):
        """The page is never white: it has a heading and says that it loads, then what to do."""
        for name in ("dom.js", "main.js"):
            again = self.without(name)
            self.browser.open(self.door.address)
            self.assertIn("Project choice · Projektwahl", self.browser.page_text())
            self.assertIn("Loading …", self.browser.page_text())
            self.browser.wait(lambda: "If this stays, a part of the page did not come." in self.browser.page_text(), "what to do")
            again()
        again = self.without("words-en.js")  # another language is spoken
        self.browser.open(self.door.address)
        self.browser.find("textbox", "Ihr Code")
        also = self.without("words-de.js")
        self.browser.open(self.door.address)
        self.browser.wait(lambda: "If this stays, a part of the page did not come." in self.browser.page_text(), "what to do")
        again()
        also()
        self.sign_in_anew(ADA)

    def sign_in_anew(self, code):
        self.browser.open(self.door.address)
        self.sign_in(code, "Choosing")

    def test_the_page_of_a_role_does_not_come(self):
        for code, name in ((ADA, "list.js"), (OFFICE, "words-en-office.js")):
            again = self.without(name)
            self.open()
            self.browser.sign_in(code)
            self.browser.warns("No reply from the portal.")
            again()
            self.browser.press("Try again")
            self.browser.in_phase("Choosing")
            self.browser.sign_out()

    def test_each_role_loads_its_own(self):
        """Files and texts of the office are loaded for the office alone."""
        for code, own, others in ((ADA, "student.js", "lecturer.js"), (BELL, "lecturer.js", "student.js")):
            self.requested = []
            self.open(code, "Choosing")
            self.look_at_requests()
            names = {address.rsplit("/", 1)[1] for address in self.requested}
            self.assertIn(own, names)
            self.assertEqual([name for name in names if name == others or "office" in name or "roll" in name], [])
            self.browser.sign_out()
        self.sign_in(OFFICE, "Choosing")
        self.look_at_requests()
        self.assertTrue(any(address.endswith("/words-en-office.js") for address in self.requested))


class Messages(PageCase):
    """Nothing that is told covers what is pressed next."""

    def setUp(self):
        super().setUp()
        self.large = self.door.load_large("choosing")
        self.codes += self.large.codes.values()

    def test_the_bar_is_one_line(self):
        """Moves within a list are told to screen readers alone, outcomes in the line of the bar, until they go."""
        for (width, height), student in zip(SIZES, self.large.students):
            self.browser.resize(width, height)
            self.open(student["code"], "Choosing")
            self.one_line()
            self.browser.press("Add *, p001")
            self.browser.announced("is now number 1 of 1")
            self.assertEqual(self.browser.text("status"), "")
            self.browser.press("Save list")
            self.browser.says("Saved. Your list has 1 project.")
            self.one_line()
            self.browser.wait(lambda: self.browser.text("status") == "", "the message to go")
            self.browser.sign_out()

    def test_a_refusal_stays_while_it_is_saved(self):
        """What was refused while a save runs is neither wiped by its moment nor by its end."""
        lecturer = self.large.lecturers[0]
        self.door.load_large("ranking")
        self.open(lecturer["code"], "Ranking")
        self.browser.press("Add the rest in ID order")
        self.browser.unfold("details:has(textarea)")
        keys = self.browser.entries("Your ranking")
        field = self.browser.find("textbox", "IDs or names, best first")
        self.assertGreater(len(keys), 0)
        self.browser.driver.execute_script("arguments[0].value = arguments[1]", field, "nobody at all")
        self.door.portal.send_signal(signal.SIGSTOP)
        try:
            self.browser.driver.execute_script("document.querySelector('.save-row .main').click()")
            self.browser.press("Use this order")
            self.browser.warns("No applicant was found in it.")
            self.browser.says("One moment…")
            self.browser.warns("No applicant was found in it.")
        finally:
            self.door.portal.send_signal(signal.SIGCONT)
        self.browser.says("Saved. Your ranking has")
        self.browser.warns("No applicant was found in it.")
        time.sleep(6)
        self.browser.warns("No applicant was found in it.")
        self.browser.press("Close message")
        self.assertEqual(self.browser.text("alert"), "")

    def one_line(self):
        """The bar is as high as its buttons, and on a phone one line of text more."""
        height = self.browser.script("document.querySelector('.dock').offsetHeight")
        self.assertLess(height, 80, self.browser.script("document.querySelector('.dock').innerText"))

    def test_a_message_changes_nothing_of_the_bar(self):
        """The dock is as high with a message as without, on the page of each role."""
        lecturer = self.large.lecturers[0]["code"]
        self.door.load_large("ranking")
        for code in (OFFICE, lecturer):
            self.open(code, "Ranking")
            for width, height in SIZES:
                self.browser.resize(width, height)
                before = self.browser.script("document.querySelector('.dock').offsetHeight")
                self.browser.press("Copy names" if code == OFFICE else "Copy applicants")
                self.browser.says("Copied")
                self.assertEqual(self.browser.script("document.querySelector('.dock').offsetHeight"), before)
            self.browser.sign_out()

    UNDER = """
    const [e, dock] = [document.activeElement, document.querySelector('.dock')];
    const isUnder = !dock.contains(e) && e !== document.body && e.getBoundingClientRect().bottom > dock.getBoundingClientRect().top + 1;
    return isUnder ? e.outerHTML.slice(0, 80) : null;
    """

    def test_the_focus_is_never_under_the_bar(self):
        """By the Tab key down the page, and with an alert in the bar too."""
        student = self.large.students[3]["code"]
        for code in (student, OFFICE):
            self.open(code, "Choosing")
            for width, height in SIZES:
                self.browser.resize(width, height)
                self.down_by_tab(40)
            self.browser.sign_out()
        self.sign_in(student, "Choosing")
        self.browser.press("Add *, p001")
        self.door.move("ranking")
        self.browser.press("Save list")
        self.browser.warns("The portal has moved on to")
        self.down_by_tab(20)

    def down_by_tab(self, count):
        for _ in range(count):
            self.browser.keys(Keys.TAB)
            self.assertIsNone(self.browser.driver.execute_script(self.UNDER))

    def test_one_moment_is_said_once(self):
        """While a page is loaded slowly, once and in no colour of success."""
        self.open()
        self.browser.driver.execute_script("""
            const real = window.fetch;
            window.fetch = async (path, how) => {
              if (path === '/catalogue') await new Promise((go) => { window.go = go; });
              return real(path, how);
            };
        """)
        self.browser.sign_in(self.large.students[4]["code"])
        self.browser.wait(lambda: self.browser.script("typeof window.go") == "function", "the request")
        time.sleep(1.5)
        self.assertEqual(self.browser.page_text().count("One moment…"), 1)
        self.browser.driver.execute_script("window.go()")
        self.browser.in_phase("Choosing")


class Questions(PageCase):
    def test_before_the_announced_end(self):
        """Whoever goes on before the announced time is told so first; and of rankings that were filled in here, and of students without
        a list."""
        end = datetime.datetime.now(datetime.timezone.utc).replace(second=0, microsecond=0) + datetime.timedelta(days=9, hours=2)
        (self.door.notice / "department.json").write_text(
            json.dumps({
                "name": "Mathematics",
                "until": {
                    "choosing": end.isoformat(),
                    "ranking": end.isoformat()
                }
            }))
        self.browser.cdp("Emulation.setTimezoneOverride", timezoneId="UTC")
        self.door.load_rolls()
        self.door.move("choosing")
        self.door.do(BEN, "PUT", "/choices", {"projects": ["comets"]})
        self.open(OFFICE, "Choosing")
        said = f"closes on {end:%A} {end.day} {end:%B} at {end:%H:%M}. That is in 9 days."
        self.assertIn("1 of 5 students", self.browser.page_text())
        self.assertIn("Without a list (4)", self.browser.page_text())
        self.assertTrue(self.asked("Open ranking").startswith(f"Everybody was told that “Choosing” {said}"))
        self.browser.in_phase("Ranking")
        self.asked("Fill missing rankings")
        self.browser.says("Filled for")
        text = self.asked("Publish results", "Not now")
        self.assertTrue(text.startswith(f"Everybody was told that “Ranking” {said}"), text)
        for part in ("1 ranking was filled in by ID order from this browser", "Jocelyn Bell (bell)",
                     "4 students have no list, and so get no project.",
                     "This page can’t know of rankings that were filled in from another browser.", "You can’t undo this."):
            self.assertIn(part, text)

    def asked(self, button, answer=None):
        """What a question says under its title, which is answered."""
        self.browser.press(button)
        text = self.browser.wait(lambda: self.browser.script("document.querySelector('dialog [id$=-text]').innerText"), "a question")
        self.browser.press(answer or button)
        return text.replace("\u2068", "").replace("\u2069", "")

    def test_verbs_and_risk(self):
        """The buttons are verbs; with a risk, which is the bold line, the safe one is blue and has the focus."""
        self.door.load_rolls()
        self.door.move("choosing")
        self.open(ADA, "Choosing")
        self.browser.press("Add *, rings")
        for width, height in SIZES:
            self.browser.resize(width, height)
            self.browser.press("Sign out")
            dialog = self.browser.find("dialog", "Leave without saving?")
            self.assertEqual([one.text for one in dialog.find_elements("css selector", "button")], ["Leave", "Keep editing"])
            self.assertEqual(dialog.find_element("css selector", ".risk").text, "Your unsaved changes will be lost.")
            self.assertGreaterEqual(int(dialog.find_element("css selector", ".risk").value_of_css_property("font-weight")), 600)
            self.assertEqual(dialog.find_element("css selector", "button.main").text, "Keep editing")
            self.assertEqual(self.browser.focused().text, "Keep editing")
            self.browser.keys(Keys.ESCAPE)
            self.assertEqual(self.browser.entries("Your list"), ["rings"])
