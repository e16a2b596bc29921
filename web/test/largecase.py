"""What tests of students and lecturers in the department of examples/large.py share: it is seen on a desk and on a phone."""

from selenium.common.exceptions import NoAlertPresentException

from case import PageCase

DESK, PHONE = (1280, 900), (390, 844)
# The parts of the page from top to bottom, by their headings.
PARTS = "[...document.querySelectorAll('section[aria-labelledby] > h2')].map((e) => e.textContent)"


class LargeCase(PageCase):
    def load(self, phase, round_=1):
        self.large = self.door.load_large(phase, round_)
        self.codes += self.large.codes.values()

    def sizes(self):
        for size in (DESK, PHONE):
            self.browser.resize(*size)
            yield size

    def reload(self, phase):
        """Loads the page anew. The browser asks first, where a person has clicked before."""
        self.browser.driver.refresh()
        try:
            self.browser.driver.switch_to.alert.accept()
        except NoAlertPresentException:
            pass
        self.browser.in_phase(phase)

    def ask(self, key, path):
        """What the portal itself tells somebody."""
        return self.door.do(self.large.codes[key], "GET", path)

    def title(self, key):
        return next(one["title"] for one in self.large.projects if one["id"] == key)

    def text(self):
        return self.plain(self.browser.page_text())

    def plain(self, text):
        """Without the signs that set names apart."""
        return text.replace("\u2068", "").replace("\u2069", "")

    def sees(self, *parts):
        for part in parts:
            self.assertIn(part, self.text())

    def parts(self):
        return self.browser.script(PARTS)
