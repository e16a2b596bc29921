"""What the page does where the portal refuses, is gone, or has gone on meanwhile."""

import time

from case import ADA, BELL, BEN, CLEO, NOETHER, OFFICE, PageCase, TURING, YEAR


class SigningIn(PageCase):
    def test_codes_and_notice(self):
        self.door.load_rolls()
        (self.door.notice / "notice.txt").write_text("Choose until 12 May, noon.\n<b>Late lists</b> do not count.\n")
        self.open()
        self.browser.wait(lambda: "Choose until 12 May, noon.\n<b>Late lists</b> do not count." in self.browser.page_text(), "the notice")
        self.browser.sign_in("no")
        self.browser.warns("Enter your whole code")
        self.browser.sign_in("nobody-has-this")
        self.browser.warns("We don’t know this code")
        self.assertEqual(self.browser.script("document.querySelector('#code').getAttribute('aria-invalid')"), "true")
        self.sign_in(ADA, "Setup")
        self.browser.find("table", "Projects")
        self.browser.open(self.door.address)  # the code is kept while the tab is open
        self.browser.in_phase("Setup")
        self.assertEqual(self.browser.script("Object.keys(sessionStorage).sort()"), ["portal-active", "portal-code", "portal-entered"])
        self.browser.sign_out()
        self.browser.says("You’re signed out")
        self.assertEqual(self.browser.script("sessionStorage.length"), 0)
        self.browser.open(self.door.address)
        self.browser.find("textbox", "Your code")


class Rolls(PageCase):
    """What the portal alone can know of a roll: a file that looks right is sent and refused. test_files.py has what the page sees in a
    file."""

    def test_refused_rolls(self):
        self.open(OFFICE, "Setup")
        self.choose_file("Projects", YEAR / "projects.csv")
        self.browser.wait(lambda: "the portal has no lecturers yet. Add them first." in self.browser.page_text(),
                          "that lecturers come first")
        self.assertFalse(self.browser.find("button", "Send").is_enabled())
        self.browser.press("Cancel")
        self.send_file("Lecturers", YEAR / "lecturers.csv")
        self.browser.says("3 added, 0 already there")
        other = (YEAR / "lecturers.csv").read_text().replace("Alan Turing", "Alan M. Turing")
        self.refused("Lecturers", self.write("other.csv", other), "Row 4 differs", "turing, Alan M. Turing, 1")
        self.refused("Students", self.write("taken.csv", "id,name,code\n\nada,Ada Ames,k4mz-pq7w-9xyd\nben,Ben,lecturer-bell-1\n"),
                     "Row 4 differs", "ben, Ben")
        self.send_file("Students", YEAR / "students.csv")
        self.browser.says("Students: 5 added, 0 already there")

    def refused(self, field, path, text, line):
        self.send_file(field, path)
        self.assertIn(line, self.browser.warns(text))

    def test_too_many_rows_for_the_roll(self):
        """Each file is within the limit, both together are not: the portal refuses the second one."""
        rows = [f"l{n},Name {n},{n:04}-{n * 7919 % 100003:05}-code,1\n" for n in range(301)]
        self.door.do(OFFICE, "POST", "/rolls/lecturers", ("id,name,code,capacity\n" + "".join(rows[:299])).encode())
        self.open(OFFICE, "Setup")
        self.send_file("Lecturers", self.write("more.csv", "id,name,code,capacity\n" + "".join(rows[299:])))
        self.browser.warns("too many rows")
        self.assertEqual(self.door.do(OFFICE, "GET", "/status")["lecturers"], 299)


class Meanwhile(PageCase):
    """Somebody else goes on in the year while a page is open."""

    def test_phase_has_moved(self):
        self.door.load_rolls()
        self.door.move("choosing")
        self.open(ADA, "Choosing")
        self.browser.press("Add *, rings")
        self.door.move("ranking")
        self.browser.press("Save list")
        self.browser.warns("The portal has moved on to")
        self.browser.in_phase("Ranking")
        self.assertEqual(self.door.do(ADA, "GET", "/choices"), {"projects": []})
        self.browser.sign_out()
        self.sign_in(OFFICE, "Ranking")
        self.door.move("published")
        self.browser.press("Publish results")  # the office in another browser has done it
        self.browser.warns("The portal has moved on to")
        self.browser.in_phase("Results")

    def test_move_meanwhile(self):
        """The phase moves while the question is asked: the move is refused, and the page says so."""
        self.door.load_rolls()
        self.open(OFFICE, "Setup")
        self.browser.press("Open choosing")
        self.browser.find("dialog", "Open choosing now?")
        self.door.move("choosing")
        self.door.move("ranking")
        self.browser.press("Open choosing")
        self.browser.warns("The portal has moved on to")
        self.browser.in_phase("Ranking")
        self.assertFalse(self.browser.find("button", "Fill missing rankings").is_enabled())

    def test_ranking_and_rolls_meanwhile(self):
        self.door.load_rolls()
        self.door.move("choosing")
        self.door.do(BEN, "PUT", "/choices", {"projects": ["comets"]})
        self.open(OFFICE, "Choosing")
        self.door.move("ranking")
        self.send_file("Students", YEAR / "students.csv")
        self.browser.warns("The portal has moved on to")
        self.browser.in_phase("Ranking")
        self.assertFalse(self.browser.find("button", "Publish results").is_enabled())
        self.assertIn("You can’t publish yet: 1 ranking is missing.", self.browser.page_text())
        self.browser.sign_out()
        self.sign_in(BELL, "Ranking")
        self.door.do(OFFICE, "POST", "/ranking/fill", {})
        self.door.move("published")
        self.browser.press("Save ranking")
        self.browser.warns("The portal has moved on to")
        self.browser.in_phase("Results")

    def test_list_is_refused(self):
        """The portal refuses a list where something else than what the page shows comes to it."""
        self.door.load_rolls()
        self.door.move("choosing")
        self.open(ADA, "Choosing")
        for key in ("rings", "comets"):
            self.browser.press(f"Add *, {key}")
        self.change_body('{"projects":["rings","rings"]}')
        self.browser.press("Save list")
        self.browser.warns("Not saved. Comets, seen twice: this is on the list twice.")
        self.change_body('{"projects":["nothing"]}')
        self.browser.press("Save list")
        self.browser.warns("Not saved. Rings and their ideals: this project isn’t available in this round")
        self.assertEqual(self.browser.entries("Your list"), ["rings", "comets"])
        self.browser.press("Save list")
        self.browser.says("Saved")

    def change_body(self, body):
        """The next PUT is sent with this body."""
        self.browser.driver.execute_script("""
            const [real, body] = [window.fetch, arguments[0]];
            window.fetch = (path, how) => {
              if (how?.method !== 'PUT') return real(path, how);
              window.fetch = real;
              return real(path, { ...how, body });
            };
        """, body)


class Leaving(PageCase):
    def test_changes_are_kept_or_given_up(self):
        self.door.load_rolls()
        self.door.move("choosing")
        self.open(CLEO, "Choosing")
        self.browser.press("Add *, rings")
        self.answer("Sign out", "Leave without saving?", "Keep editing")
        self.assertEqual(self.browser.entries("Your list"), ["rings"])
        self.assertTrue(self.asks_before_leaving())
        self.browser.press("Remove *, rings")
        self.browser.announced("Nothing is left")
        self.assertFalse(self.asks_before_leaving())
        self.browser.sign_out()

    def asks_before_leaving(self):
        event = "const event = new Event('beforeunload', { cancelable: true }); dispatchEvent(event); return event.defaultPrevented"
        return self.browser.driver.execute_script(event)

    def test_dragging(self):
        self.door.load_rolls()
        self.door.move("choosing")
        self.open(CLEO, "Choosing")
        for key in ("rings", "comets", "groups"):
            self.browser.press(f"Add *, {key}")
        last = self.browser.driver.find_element("css selector", "ol[aria-label='Your list'] li:last-child .handle")
        first = self.browser.driver.find_element("css selector", "ol[aria-label='Your list'] li:first-child .handle")
        self.browser.drag(last, 0, first.location["y"] - last.location["y"] - 20)
        self.assertEqual(self.browser.entries("Your list"), ["groups", "rings", "comets"])
        self.browser.announced("is now number 1 of 3")


class Gone(PageCase):
    """The portal is stopped and started."""

    def test_portal_comes_back(self):
        self.door.load_rolls()
        self.door.move("choosing")
        self.open(ADA, "Choosing")
        self.browser.press("Add *, pulsars")
        self.door.stop_portal()
        self.browser.press("Save list")
        time.sleep(1)
        self.door.start_portal()
        self.browser.says("Saved")
        self.assertEqual(self.door.do(ADA, "GET", "/choices"), {"projects": ["pulsars"]})

    def test_portal_stays_away(self):
        self.door.load_rolls()
        self.door.move("choosing")
        self.door.do(ADA, "PUT", "/choices", {"projects": ["rings"]})
        self.door.move("ranking")
        self.open(NOETHER, "Ranking")
        self.door.stop_portal()
        begun = time.monotonic()
        self.browser.press("Save ranking")
        self.browser.says("One moment")
        self.browser.warns("No reply from the portal. What you entered is still here.")
        self.assertLess(time.monotonic() - begun, 15)
        self.assertEqual(self.browser.entries("Your ranking"), ["ada"])
        self.door.start_portal()
        self.browser.press("Try again")
        self.browser.says("Saved")
        self.assertEqual(self.door.do(NOETHER, "GET", "/ranking"), {"students": ["ada"]})

    def test_post_is_not_repeated(self):
        self.door.load_rolls()
        self.open(OFFICE, "Setup")
        self.browser.driver.execute_script("""
            const real = window.fetch;
            window.sent = 0;
            const isLost = (how) => how?.method === 'POST' && window.sent++ === 0;
            window.fetch = (path, how) => isLost(how) ? Promise.reject(new TypeError('lost')) : real(path, how);
        """)
        self.send_file("Lecturers", YEAR / "lecturers.csv")
        self.browser.warns("we don’t know if the file arrived")
        self.browser.press("Send again")
        self.browser.says("Lecturers: 0 added, 3 already there")
        self.browser.driver.execute_script("window.sent = 0")
        self.answer("Open choosing", "Open choosing now?")
        self.browser.warns("we don’t know if this worked")
        self.assertEqual(self.browser.script("window.sent"), 1)
        self.browser.press("Check progress")
        self.browser.in_phase("Setup")
