"""The office's page: names in place of keys, what is missing, the next step, who and what is in the portal, and what is printed."""

from case import BELL, BEN, OFFICE
from officecase import NAMES, OfficeCase


class Names(OfficeCase):
    def test_names_stay_after_a_reload(self):
        """Names of a roll that was sent are kept, codes are not; `Forget names` forgets them."""
        self.open(OFFICE, "Setup")
        self.sees("This browser stores no names.")
        self.send_rolls()
        self.answer("Open choosing", "Open choosing now?")
        self.browser.in_phase("Choosing")
        self.browser.open(self.door.address)
        self.browser.in_phase("Choosing")
        self.sees("This browser stores 8 names", "It stores no codes", *NAMES)
        self.assertEqual(self.copied(), list(NAMES))
        self.browser.press("Forget names")
        self.browser.says("Names forgotten.")
        self.sees("This browser stores no names.", "The portal shows only IDs here.")
        self.assertEqual(self.copied(), ["ada", "ben", "cleo", "dora", "emil"])
        self.assertNotIn("Ada", self.browser.script("JSON.stringify(localStorage)"))
        self.assertFalse(self.browser.has("button", "Forget names"))

    def test_names_are_read_from_a_file(self):
        """A file is opened just to read the names: nothing is sent, and no one is taken to be on the roll for that."""
        self.door.load_rolls()
        self.door.move("choosing")
        self.open(OFFICE, "Choosing")
        self.assertEqual(self.copied(), ["ada", "ben", "cleo", "dora", "emil"])
        self.choose_file("Students", self.write("s.csv", "Name;ID\nAda Ames;ada\nNew, Nora;nora\nCruz, Cleo;cleo\n"))
        self.browser.press("Read names only")
        self.browser.says("Read 3 names. Nothing was sent.")
        self.assertEqual(self.copied(), ["Ada Ames (ada)", "ben", "Cruz, Cleo (cleo)", "dora", "emil"])
        self.assertEqual(self.door.do(OFFICE, "GET", "/status")["students"], 5)
        self.choose_file("Students", self.write("s.csv", "id,name\nnora,\"New, Nora\"\n"))
        self.browser.find("button", "Make codes and save them")
        self.sees("New: 1. Already in the portal: 0.")

    def test_names_of_the_result(self):
        """Once it is published the names come of the portal, in a browser that has seen no roll."""
        self.door.load_rolls()
        self.door.move("choosing")
        self.first_round()
        self.open(OFFICE, "Results")
        self.sees("Emil Eke (emil)", "This browser stores no names.")
        self.assertEqual(self.copied(), ["Emil Eke (emil)"])

    def test_names_of_an_earlier_year(self):
        """A year that nobody is in yet knows nobody: the names of the year before are forgotten."""
        self.open(OFFICE, "Setup")
        self.send_rolls()
        self.sees("This browser stores 8 names")
        self.door.new_year()
        self.browser.open(self.door.address)
        self.browser.in_phase("Setup")
        self.sees("This browser stores no names.")

    def test_second_round(self):
        """Titles and lecturers' names are there where the catalogue has them no more, from what this browser saw in the first round."""
        self.open(OFFICE, "Setup")
        self.send_rolls()
        self.door.move("choosing")
        self.first_round()
        self.door.do(OFFICE, "POST", "/phase", {"phase": "choosing", "round": 2})
        for phase in ("Choosing", "Ranking", "Results"):
            self.browser.open(self.door.address)
            self.browser.in_phase(phase)
            self.sees("Rings and their ideals", "Groups of small order", "Patterns on shells", "Emmy Noether", "Alan Turing",
                      "Emil Eke (emil)" if phase != "Ranking" else "Emil Eke")
            lecturers = "[...document.querySelectorAll('table[aria-label=\"Results\"] td:nth-child(3) bdi')].map((e) => e.textContent)"
            self.assertEqual(sorted(self.browser.script(lecturers)), ["Alan Turing", "Emmy Noether", "Emmy Noether", "Jocelyn Bell"])
            titles = "[...document.querySelectorAll('.usage bdi')].map((e) => e.textContent)"
            self.assertEqual(sorted(self.browser.script(titles)), [
                "Comets, seen twice", "Groups of small order", "Patterns on shells", "Pulsars in old sky surveys", "Rings and their ideals"
            ])
            if phase != "Results":
                self.door.move({"Choosing": "ranking", "Ranking": "published"}[phase])


class NextStep(OfficeCase):
    def test_fresh_setup(self):
        """What is to be done are three files, in no warning's colour; the step waits for them."""
        self.open(OFFICE, "Setup")
        self.sees("0 in the portal", "Add projects first, so that students have something to choose.")
        self.assertNotIn("Check people and projects", self.text())
        self.assertEqual(self.browser.script("document.querySelectorAll('.fault, [role=alert]:not(:empty)').length"), 0)
        self.assertFalse(self.browser.find("button", "Open choosing").is_enabled())
        self.send_rolls("Lecturers")
        self.sees("3 in the portal", "Check people and projects")
        self.send_rolls("Projects")
        self.sees("Add students first.")
        self.assertFalse(self.browser.find("button", "Open choosing").is_enabled())
        self.send_rolls("Students")
        self.assertTrue(self.is_main("Open choosing"))

    def test_too_few_places(self):
        """The risk is the bold line of the question, and the button that does nothing is the blue one."""
        self.open(OFFICE, "Setup")
        self.send_rolls("Lecturers")
        self.send_file("Projects", self.write("p.csv", "id,lecturer,title,capacity\nrings,noether,Rings and their ideals,3\n"))
        self.browser.says("Projects: 1 added")
        self.send_rolls("Students")
        self.assertTrue(self.is_main("Open choosing"))
        risk, others = "2 places for 5 students: at least 3 will get no project.", ("2 lecturers have no project: Jocelyn Bell (bell), "
                                                                                    "Alan Turing (turing).")
        self.sees(risk, others)
        self.browser.press("Open choosing")
        said = self.browser.find("dialog", "Open choosing now?").text.replace("\u2068", "").replace("\u2069", "")
        for part in (risk, others, "You can’t undo this."):
            self.assertIn(part, said)
        self.assertEqual(self.browser.script("document.querySelector('dialog .risk').textContent"), risk)
        self.assertEqual(
            self.browser.script(
                "[...document.querySelectorAll('dialog button')].map((e) => [e.textContent, e.className, e === document.activeElement])"),
            [["Open choosing", "", False], ["Not now", "main", True]])
        self.browser.press("Not now")
        self.assertEqual(self.browser.phase(), "Setup")
        self.assertEqual(self.browser.script("document.activeElement.textContent"), "Open choosing")

    def test_nothing_is_missing(self):
        self.door.load_rolls()
        self.open(OFFICE, "Setup")
        self.assertTrue(self.is_main("Open choosing"))
        self.assertNotIn("no project", self.text())
        self.assertNotIn("places for", self.text())

    def test_publish_with_rankings_missing(self):
        """What the portal would refuse cannot be pressed: the reason stands beside it, and the names once, in a list of their own. To
        fill rankings stands last."""
        self.door.load_rolls()
        self.door.move("choosing")
        self.open(OFFICE, "Choosing")
        self.sees("No student has a list, so this round would give nobody a project.")
        self.door.do(BEN, "PUT", "/choices", {"projects": ["comets"]})
        self.browser.press("Refresh")
        self.browser.says("Up to date.")
        self.sees("Without a list (4)")
        self.assertFalse(self.is_main("Open ranking"))  # not all lists are there, and no time that was announced is over
        self.door.move("ranking")
        self.browser.press("Refresh")
        self.browser.in_phase("Ranking")
        said = self.browser.script("[...document.querySelector('.step').querySelectorAll('p')].map((e) => e.textContent)")
        self.assertEqual(said[0], "You can’t publish yet: 1 ranking is missing.")
        self.assertEqual(self.text().count("Jocelyn Bell (bell)"), 1)
        self.assertEqual(self.copied(), ["Jocelyn Bell (bell)"])
        publish = self.browser.find("button", "Publish results")
        self.assertFalse(publish.is_enabled())
        described = self.browser.script(
            "arguments[0].getAttribute('aria-describedby').split(' ').map((id) => document.getElementById(id).textContent)", publish)
        self.assertEqual(described[0], "You can’t publish yet: 1 ranking is missing.")
        beside = self.browser.script(
            "[arguments[0].getBoundingClientRect(), document.querySelector('.reason').getBoundingClientRect()].map(({ top, bottom }) => "
            "(top + bottom) / 2)",
            publish)
        self.assertLess(abs(beside[0] - beside[1]), 10)
        self.assertEqual(self.browser.script("[...document.querySelectorAll('.step button')].map((e) => e.textContent)"),
                         ["Publish results", "Fill missing rankings"])
        self.door.do(BELL, "PUT", "/ranking", {"students": ["ben"]})
        self.browser.press("Refresh")
        self.browser.says("Up to date.")
        self.assertTrue(self.is_main("Publish results"))
        self.assertFalse(self.browser.find("button", "Fill missing rankings").is_enabled())

    def test_second_round_without_places(self):
        """A second round in which nobody could choose is not offered to be pressed."""
        self.door.do(OFFICE, "POST", "/rolls/lecturers", b"id,name,code,capacity\nl,Lee,code-of-lee-1,1\n")
        self.door.do(OFFICE, "POST", "/rolls/projects", b"id,lecturer,title,capacity\np,l,Tides,1\n")
        self.door.do(OFFICE, "POST", "/rolls/students", b"id,name,code\na,Ann,code-of-ann-1\nb,Bea,code-of-bea-1\n")
        self.door.move("choosing")
        for code in ("code-of-ann-1", "code-of-bea-1"):
            self.door.do(code, "PUT", "/choices", {"projects": ["p"]})
        self.door.move("ranking")
        self.door.do(OFFICE, "POST", "/ranking/fill", {})
        self.door.move("published")
        self.open(OFFICE, "Results")
        self.sees("0 places for 1 student: there is nothing left to choose.")
        self.assertFalse(self.browser.find("button", "Open second round").is_enabled())


    def test_second_round_of_full_lecturers(self):
        """Projects have places, but their lecturers have none: the page knows it once it knows what the lecturers take."""
        lecturers = "id,name,code,capacity\nl,Lee,code-of-lee-1,1\nm,Moe,code-of-moe-1,2\n"
        self.door.do(OFFICE, "POST", "/rolls/lecturers", lecturers.encode())
        self.door.do(OFFICE, "POST", "/rolls/projects", b"id,lecturer,title,capacity\np,l,Tides,3\nq,m,Kites,2\n")
        self.door.do(OFFICE, "POST", "/rolls/students",
                     b"id,name,code\na,Ann,code-of-ann-1\nb,Bea,code-of-bea-1\nc,Cyr,code-of-cyr-1\nd,Dan,code-of-dan-1\n")
        self.door.move("choosing")
        for name, projects in (("ann", ["p"]), ("bea", ["p"]), ("cyr", ["q"]), ("dan", ["q"])):
            self.door.do(f"code-of-{name}-1", "PUT", "/choices", {"projects": projects})
        self.door.move("ranking")
        self.door.do(OFFICE, "POST", "/ranking/fill", {})
        self.door.move("published")
        self.open(OFFICE, "Results")
        self.sees("0 to 2 places for 1 student. This browser doesn’t know how many students 1 lecturer takes")
        self.assertFalse(self.browser.find("button", "Open second round").is_enabled())
        self.choose_file("Open lecturers file", self.write("l.csv", lecturers))
        self.browser.says("Read 2 names. Nothing was sent.")
        self.sees("0 places for 1 student: there is nothing left to choose.")
        self.assertFalse(self.browser.find("button", "Open second round").is_enabled())

    def test_questions_in_the_second_round(self):
        self.open(OFFICE, "Setup")
        self.send_rolls()
        self.door.move("choosing")
        self.first_round()
        self.browser.open(self.door.address)
        self.browser.in_phase("Results")
        self.sees("1 place for 1 student.")
        said = self.answer("Open second round", "Open the second round now?")
        self.assertIn("You can’t undo this.", said)
        self.browser.in_phase("Choosing")
