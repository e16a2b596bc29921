"""What a trial with many entries found: equal titles, what has vanished, a save whose reply was lost, ways between list and projects."""

import json

from selenium.webdriver.common.keys import Keys

from case import ADA, OFFICE, PageCase

LECTURERS = "id,name,code,capacity\nbell,Jocelyn Bell,lecturer-bell-1,20\nnoether,Emmy Noether,lecturer-noether-1,20\n"
TITLES = {n: "Tides" if n in (3, 9) else f"Title {n}" for n in range(1, 17)}
# Each request is answered by the portal, and the replies to saves get lost on the way back.
LOST = """
    const real = window.fetch;
    window.fetch = async (path, how) => {
        const reply = await real(path, how);
        if (how?.method === 'PUT') throw new TypeError('lost');
        return reply;
    };
"""


class Lists(PageCase):
    def setUp(self):
        super().setUp()
        rows = "".join(f"p{n:02d},{'bell' if n % 2 else 'noether'},{title},2\n" for n, title in TITLES.items())
        for roll, text in (("lecturers", LECTURERS), ("projects", f"id,lecturer,title,capacity\n{rows}"),
                           ("students", f"id,name,code\nada,Ada Ames,{ADA}\n")):
            self.door.do(OFFICE, "POST", f"/rolls/{roll}", text.encode())
        self.door.move("choosing")
        self.keys = [f"p{n:02d}" for n in range(1, 15)]
        self.door.do(ADA, "PUT", "/choices", {"projects": self.keys})
        self.open(ADA, "Choosing")

    def shown(self, key):
        """What is seen of an entry of the list."""
        script = "document.querySelector(`ol[aria-label='Your list'] > li[data-key='${arguments[0]}'] .titled`).innerText"
        return self.browser.script(script, key).replace("\u2068", "").replace("\u2069", "")

    def test_equal_titles_are_told_apart(self):
        """In a long list, where the others stand by their titles alone, equal ones have their lecturer and ID."""
        self.assertEqual(self.shown("p01").split("\n"), ["Title 1"])
        for key in ("p03", "p09"):
            self.assertIn("Tides", self.shown(key))
            self.assertIn(key, self.shown(key))
            self.assertIn("Jocelyn Bell", self.shown(key))

    def test_what_has_vanished_is_told(self):
        draft = json.dumps({"base": self.keys, "keys": ["p02", "p99", "p01"]})
        self.browser.driver.execute_script("sessionStorage.setItem('portal-draft student ada 1', arguments[0])", draft)
        self.browser.driver.refresh()
        self.browser.in_phase("Choosing")
        self.browser.warns("Not here any more, and so left out of your unsaved changes: p99.")
        self.assertEqual(self.browser.entries("Your list"), ["p02", "p01"])

    def test_a_save_whose_reply_was_lost(self):
        """The page says that it does not know, and looks by itself."""
        self.browser.press("Move *, p02 up")
        self.browser.driver.execute_script(LOST)
        self.browser.press("Save list")
        self.browser.warns("we don’t know whether this is saved")
        self.browser.says("Saved. Your list has 14 projects.")
        self.assertEqual(self.browser.text("alert"), "")
        self.assertEqual(self.door.do(ADA, "GET", "/choices")["projects"][:2], ["p02", "p01"])
        self.assertFalse(self.browser.find("button", "Save list").is_enabled())

    def test_the_way_back_on_a_phone(self):
        """The first button of the dock leads to the list, and from there back to the projects."""
        self.browser.resize(360, 740)
        self.browser.press("Show list")
        seen = "(({ top, bottom }) => top < innerHeight && bottom > 0)(document.querySelector(arguments[0]).getBoundingClientRect())"
        self.browser.wait(lambda: self.browser.script(seen, ".ordered"), "the list in sight")
        self.browser.press("Show projects")
        self.browser.wait(lambda: self.browser.script(seen, ".catalogue"), "the projects in sight")
        self.browser.find("button", "Show list")

    def test_from_any_entry_few_keys_lead_to_saving(self):
        self.browser.press("Move *, p02 up")
        for key in ("p02", "p08"):
            first = f"ol[aria-label='Your list'] > li[data-key='{key}'] :is(input, button)"
            self.browser.driver.execute_script("document.querySelector(arguments[0]).focus()", first)
            stops = 0
            while self.browser.focused().text != "Go to “Save list”":
                self.browser.keys(Keys.TAB)
                stops += 1
                self.assertLessEqual(stops, 4, key)
            self.browser.keys(Keys.ENTER)
            self.assertEqual(self.browser.focused().text, "Save list")
