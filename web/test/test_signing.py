"""Signing in, and signing out: by hand, after idle minutes, in all tabs, and by leaving the page."""

import time

from case import ADA, BEN, OFFICE, PageCase

IDLE = 30 * 60_000  # milliseconds
GENERATED = "k7mp-2xqa-9vre-h4td"


class SigningIn(PageCase):
    def setUp(self):
        super().setUp()
        self.door.do(OFFICE, "POST", "/rolls/students", f"id,name,code\nada,Ada Ames,{GENERATED}\n".encode())
        self.codes.append(GENERATED)

    def test_the_field(self):
        """Password managers may keep the code, and a person can look at what is typed."""
        self.open()
        field = self.browser.find("textbox", "Your code")
        self.assertEqual((field.get_attribute("type"), field.get_attribute("autocomplete")), ("password", "current-password"))
        self.browser.click("checkbox", "Show code")
        self.assertEqual(field.get_attribute("type"), "text")
        self.browser.click("checkbox", "Show code")
        self.assertEqual(field.get_attribute("type"), "password")

    def test_a_code_by_chance_as_people_type_it(self):
        self.open()
        for typed in (GENERATED, GENERATED.upper(), GENERATED.replace("-", " "), GENERATED.replace("-", "").upper(),
                      f" {GENERATED.replace('-', '–')} "):
            self.browser.sign_in(typed)
            self.browser.in_phase("Setup")
            self.browser.sign_out()
        self.assertNotIn('"status":403', self.door.log(), "a refused code counts against the whole campus")
        self.browser.sign_in(GENERATED[:-1] + "e")
        self.browser.warns("We don’t know this code")

    def test_a_code_of_another_kind_as_it_is(self):
        """The office chose its code itself: capital and small letters differ."""
        self.open()
        self.browser.sign_in(OFFICE.upper())
        self.browser.warns("We don’t know this code")
        self.sign_in(OFFICE, "Setup")


class SigningOut(PageCase):
    def setUp(self):
        super().setUp()
        self.door.load_rolls()
        self.door.move("choosing")

    def in_new_tab(self, code):
        self.browser.driver.switch_to.new_window("tab")
        self.open(code, "Choosing")

    def test_every_tab(self):
        """Who signs out is signed out in each tab; what was not saved in another one is kept there for the same person."""
        self.open(ADA, "Choosing")
        first = self.browser.driver.current_window_handle
        self.browser.press("Add *, rings")
        self.browser.press("Sign out")
        self.browser.find("dialog", "Leave without saving?")
        self.in_new_tab(ADA)
        self.browser.sign_out()
        self.browser.driver.switch_to.window(first)
        self.browser.find("textbox", "Your code")
        self.browser.says("you signed out in another tab")
        self.browser.says("What you hadn’t saved here is kept in this tab")
        self.assertFalse(self.browser.has("dialog", "Leave without saving?"))
        self.browser.driver.refresh()
        self.browser.find("textbox", "Your code")
        self.sign_in(BEN, "Choosing")
        self.assertEqual(self.browser.entries("Your list"), [])
        self.browser.sign_out()
        self.sign_in(ADA, "Choosing")
        self.assertEqual(self.browser.entries("Your list"), ["rings"])
        self.browser.press("Sign out")
        self.browser.press("Leave")  # who signs out here leaves nothing
        self.browser.find("textbox", "Your code")
        self.assertEqual(self.browser.script("sessionStorage.length"), 0)

    def test_after_idle_minutes(self):
        """After 30 idle minutes the page signs out, and who signs in next sees nothing of it."""
        self.open(ADA, "Choosing")
        self.browser.press("Add *, rings")
        self.idle_for(IDLE - 60_000)
        self.assertEqual(self.browser.phase(), "Choosing")
        self.idle_for(IDLE + 1_000)
        self.browser.find("textbox", "Your code")
        self.browser.says("you did nothing for 30 minutes")
        self.sign_in(BEN, "Choosing")
        self.assertEqual(self.browser.entries("Your list"), [])
        self.browser.sign_out()
        self.sign_in(ADA, "Choosing")
        self.assertEqual(self.browser.entries("Your list"), ["rings"])  # what Ada did not save is hers, whoever was here meanwhile

    def test_the_draft_after_idle_minutes(self):
        self.open(ADA, "Choosing")
        self.browser.press("Add *, rings")
        self.idle_for(IDLE + 1_000)
        self.browser.find("textbox", "Your code")
        self.sign_in(ADA, "Choosing")
        self.assertEqual(self.browser.entries("Your list"), ["rings"])
        self.assertEqual(self.door.do(ADA, "GET", "/choices"), {"projects": []})

    def test_a_page_that_is_loaded_again_later(self):
        self.open(ADA, "Choosing")
        self.browser.driver.execute_script("sessionStorage.setItem('portal-active', Date.now() - arguments[0])", IDLE + 1_000)
        self.browser.driver.refresh()
        self.browser.find("textbox", "Your code")
        self.browser.says("you did nothing for 30 minutes")

    def test_back_to_the_page(self):
        """Who left the page for another address is signed out when the browser goes back; what was not saved stays."""
        self.open(ADA, "Choosing")
        self.browser.press("Add *, rings")
        self.browser.driver.get("about:blank")
        self.browser.driver.back()
        self.browser.find("textbox", "Your code")
        self.browser.says("you left this page")
        self.sign_in(ADA, "Choosing")
        self.assertEqual(self.browser.entries("Your list"), ["rings"])

    def test_a_tab_that_was_elsewhere(self):
        """Who signs out in one tab is signed out in another one that was at another address then."""
        self.open(ADA, "Choosing")
        page, first = self.browser.driver.current_url, self.browser.driver.current_window_handle
        self.browser.driver.get("about:blank")
        self.in_new_tab(ADA)
        self.browser.sign_out()
        self.browser.driver.switch_to.window(first)
        self.browser.driver.get(page)
        self.browser.find("textbox", "Your code")
        self.browser.says("signed out in another tab")

    def test_away_for_long(self):
        """A page that comes back within seconds goes on; one that was away for longer asks for the code."""
        self.open(ADA, "Choosing")
        page = self.browser.driver.current_url
        self.browser.driver.refresh()
        self.browser.in_phase("Choosing")
        self.browser.driver.get("about:blank")
        time.sleep(17)
        self.browser.driver.get(page)
        self.browser.find("textbox", "Your code")
        self.browser.says("you left this page")

    def idle_for(self, milliseconds):
        """The last sign of life lies so far back when the page is looked at."""
        self.browser.driver.execute_script(
            "sessionStorage.setItem('portal-active', Date.now() - arguments[0]); dispatchEvent(new Event('focus'))", milliseconds)


    def test_it_is_asked_before(self):
        """Two minutes before, the page asks whether anybody is there: who stays goes on, who does not answer is signed out."""
        self.open(ADA, "Choosing")
        self.browser.press("Add *, rings")
        self.idle_for(IDLE - 125_000)
        self.assertFalse(self.browser.has("dialog", "Are you still there?"))
        self.idle_for(IDLE - 115_000)
        self.assertIn("you’ll be signed out in two minutes", self.browser.find("dialog", "Are you still there?").text)
        self.assertGreater(self.idle(), IDLE - 120_000)  # that the question has the focus is no sign of life
        self.browser.press("Stay signed in")
        self.browser.wait(lambda: self.idle() < 60_000, "a sign of life")
        self.assertEqual(self.browser.entries("Your list"), ["rings"])
        self.idle_for(IDLE - 115_000)
        self.browser.find("dialog", "Are you still there?")
        self.idle_for(IDLE + 1_000)
        self.browser.find("textbox", "Your code")
        self.assertFalse(self.browser.has("dialog", "Are you still there?"))

    def test_reading_counts(self):
        """What tells that somebody reads is a sign of life: the focus, which a screen reader moves, the pointer, a key, and scrolling."""
        self.open(ADA, "Choosing")
        for sign in ("focusin", "pointermove", "keydown", "scroll", "wheel", "pointerdown", "touchmove"):
            self.browser.driver.execute_script(
                "sessionStorage.setItem('portal-active', Date.now() - 600000); document.body.dispatchEvent(new Event(arguments[0], { "
                "bubbles: true }))",
                sign)
            self.assertLess(self.idle(), 60_000, sign)

    def idle(self):
        return self.browser.script("Date.now() - Number(sessionStorage.getItem('portal-active'))")
