"""What the tests of the office's files share: the page of the office, and what it shows of a file."""

import datetime
import re

from case import OFFICE, PageCase

CODE = re.compile("[a-km-np-z2-9]{4}(?:-[a-km-np-z2-9]{4}){3}")
MARK = "\ufeff"


class FileCase(PageCase):
    def setUp(self):
        super().setUp()
        self.open(OFFICE, "Setup")

    def text(self):
        return self.browser.page_text().replace("\u2068", "").replace("\u2069", "")

    def sees(self, *parts):
        for part in parts:
            self.browser.wait(lambda: part in self.text(), part)

    def send(self):
        self.browser.press("Send")
        self.confirm()

    def rows(self):
        """The first rows as the page shows them: their numbers, and what stands in the columns that are sent."""
        return self.browser.script("""[...document.querySelectorAll('.in-hand tbody tr')].map((row) => [...row.cells]
            .filter((cell) => cell.matches('th, [data-column]:not([data-column=email])'))
            .map((cell) => cell.querySelector('input')?.value ?? cell.textContent))"""
                                   )

    def states(self):
        """What will happen to the rows that are shown, by their numbers."""
        return dict(
            self.browser.script(
                "[...document.querySelectorAll('.in-hand tbody tr')].map((row) => [row.cells[0].textContent, "
                "row.cells[1].firstChild.textContent])"
            ))

    def makes_codes(self):
        """Makes codes, and says that the file of them is there."""
        self.browser.press("Make codes and save them")
        self.browser.says("Made ")
        self.browser.press("The file is there")

    def count(self, roll):
        return self.door.do(OFFICE, "GET", "/status")[roll]

    def sendable(self):
        return self.browser.find("button", "Send").is_enabled()

    def printed(self, name="Print slips"):
        self.browser.driver.execute_script(
            "window.print = () => { window.seen = [...document.querySelectorAll('.printed li')].map((slip) => slip.textContent); }")
        self.browser.press(name)
        return self.browser.script("window.seen")

    def codes_file(self, roll, count):
        """The file with new codes, which has their number and the day in its name."""
        return self.downloaded(f"{roll}-{count}-codes-{datetime.date.today()}.xlsx")

    def focused(self):
        return self.browser.script("document.activeElement.textContent || document.activeElement.id")
