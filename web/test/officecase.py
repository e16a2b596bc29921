"""What the tests of the office's page share: a department with lists, and what the page shows."""

from case import ADA, BELL, BEN, CLEO, DORA, OFFICE, PageCase, YEAR

LISTS = {ADA: ["pulsars", "rings"], BEN: ["pulsars", "comets"], CLEO: ["rings", "patterns"], DORA: ["patterns", "groups"]}
NAMES = ("Ada Ames (ada)", "Ben Bode (ben)", "Cruz, Cleo (cleo)", "Dora Dahl (dora)", "Emil Eke (emil)")


class OfficeCase(PageCase):
    def text(self):
        return self.browser.page_text().replace("\u2068", "").replace("\u2069", "")

    def sees(self, *parts):
        for part in parts:
            self.assertIn(part, self.text())

    def send_rolls(self, *names):
        for name in names or ("Lecturers", "Projects", "Students"):
            self.send_file(name, YEAR / f"{name.lower()}.csv")
            self.browser.says(f"{name}: ")

    def copied(self):
        self.browser.press("Copy names")
        self.browser.says("Copied")
        return self.browser.driver.execute_async_script("navigator.clipboard.readText().then(arguments[0])").splitlines()

    def is_main(self, name):
        return "main" in self.browser.find("button", name).get_attribute("class").split()

    def first_round(self):
        for code, keys in LISTS.items():
            self.door.do(code, "PUT", "/choices", {"projects": keys})
        self.door.move("ranking")
        self.door.do(BELL, "PUT", "/ranking", {"students": ["ben", "ada"]})
        self.door.do(OFFICE, "POST", "/ranking/fill", {})
        self.door.move("published")
