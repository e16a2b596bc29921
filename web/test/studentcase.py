"""What the tests of the student's page share."""

from largecase import LargeCase

ENTRIES = "[...document.querySelectorAll(`ol[aria-label='${arguments[0]}'] > li`)].map((e) => e.innerText)"


class StudentCase(LargeCase):
    def entries(self, name):
        return [self.plain(entry) for entry in self.browser.script(ENTRIES, name)]

    def click(self, *names):
        for name in names:
            self.browser.driver.execute_script("arguments[0].click()", self.browser.find("button", name))

    def name(self, project):
        """What a project is called: by its title and key."""
        return f"{self.title(project)}, {project}"
