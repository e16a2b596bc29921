"""New codes: their file comes first, nothing of them gets lost, and slips."""

import base64
import datetime
import re

import books
from case import ADA, BEN, CLEO, OFFICE, YEAR
from filecase import CODE, FileCase, MARK


class Codes(FileCase):
    def make(self, text='id,name\nann,Ann\nbea,"Roe, Bea"\n'):
        self.choose_file("Students", self.write("s.csv", text))
        self.makes_codes()

    def saved(self, count=2):
        text = books.text(self.codes_file("students", count))
        self.codes += CODE.findall(text)
        return text

    def test_the_file_comes_before_anything_is_sent(self):
        """The codes are saved, and somebody says that the file is there, before rows can be sent. Slips come afterwards."""
        self.choose_file("Students", self.write("s.csv", 'id,name\nann,Ann\nbea,"Roe, Bea"\n'))
        self.sees("2 new people have no code to sign in with.")
        self.assertFalse(self.sendable())
        self.assertFalse(self.browser.has("button", "Print slips"))
        self.browser.press("Make codes and save them")
        self.browser.says("Made 2 codes, and saved them in a file. Nothing is sent yet.")
        made = self.saved()
        codes = CODE.findall(made)
        self.assertEqual(made, f'id,name,code\nann,Ann,{codes[0]}\nbea,"Roe, Bea",{codes[1]}\n')
        self.assertNotEqual(*codes)
        self.sees("Only then can you send.", "until you sign out or close it")
        self.assertFalse(self.sendable())
        self.assertFalse(self.browser.has("button", "Print slips"))
        self.assertEqual(self.focused(), "The file is there")
        self.browser.press("The file is there")
        self.assertEqual(self.focused(), "Send")
        self.assertEqual(self.count("students"), 0)
        self.send()
        self.browser.says("Students: 2 added, 0 already there.")
        slips = self.printed()
        self.assertEqual(len(slips), 2)
        for slip, name, code in zip(slips, ("Ann", "Roe, Bea"), codes):
            for part in (name, "Student", code, self.door.address):
                self.assertIn(part, slip)
        self.codes_file("students", 2).unlink()
        self.browser.press("Save the file again")
        self.assertEqual(self.saved(), made)
        self.browser.press("Save it as CSV")
        self.assertEqual(self.downloaded(f"students-2-codes-{datetime.date.today()}.csv").read_text(), MARK + made)
        self.browser.sign_out()
        self.assertIsNone(self.browser.script("sessionStorage.getItem('portal-draft office codes')"))
        self.sign_in(codes[1], "Setup")
        self.assertIn("Roe, Bea", self.browser.page_text())

    def test_nobody_who_is_there_gets_a_code(self):
        self.send_file("Students", YEAR / "students.csv")
        self.browser.says("Students: 5 added")
        self.browser.driver.execute_script("localStorage.clear()")
        self.browser.open(self.door.address)
        self.browser.in_phase("Setup")
        self.make("id,name\nada,Ada Ames\nben,Ben Bode\nann,Ann\n")
        self.sees("New: 1. Already in the portal: 2.", "2 people are already in the portal and keep their codes.")
        self.send()
        self.browser.says("Students: 1 added, 0 already there.")
        self.assertRegex(self.saved(1), f"^id,name,code\nann,Ann,{CODE.pattern}\n$")
        self.assertEqual(self.door.do(ADA, "GET", "/me")["key"], "ada")
        self.choose_file("Students", self.write("s.csv", "id,name\nada,Ada Ames\n"))
        self.sees("New: 0. Already in the portal: 1.")
        self.assertFalse(self.browser.has("button", "Make codes and save them"))
        self.assertFalse(self.sendable())

    def test_the_portal_tells_who_is_there(self):
        """In choosing the portal tells nothing of those who have a list: by one press it is asked who of the file is there, and nobody
        is added."""
        self.door.load_rolls()
        self.door.move("choosing")
        for code in (ADA, BEN, CLEO):
            self.door.do(code, "PUT", "/choices", {"projects": ["rings"]})
        self.browser.press("Refresh")
        self.browser.in_phase("Choosing")
        self.choose_file("Students",
                         self.write("s.csv", "id,name\nann,Ann\nada,Ada Ames\nben,Ben Bode\nbea,Bea\ncleo,Cleo\nemil,Emil\ncyr,Cyr\n"))
        self.sees("New: 6. Already in the portal: 1.", "this browser doesn’t know everybody in the portal.",
                  "The portal has 5 students, and this browser knows 2 of them.")
        self.assertFalse(self.browser.has("button", "Make codes and save them"))
        self.browser.driver.execute_script("""
            const real = window.fetch;
            window.sent = [];
            window.fetch = (path, how) => { if (how?.method === 'POST') window.sent.push(how.body); return real(path, how); };
        """)
        self.browser.press("Compare with the portal")
        self.browser.says("Compared: 3 rows are new, 4 already in the portal.")
        self.assertEqual(self.count("students"), 5)
        self.assertNotIn("Ames", "".join(self.browser.script("window.sent")))
        self.assertEqual(self.states(), {
            "2": "New",
            "5": "New",
            "8": "New",
            "3": "Already there",
            "4": "Already there",
            "6": "Already there",
            "7": "Already there"
        })
        self.makes_codes()
        self.send()
        self.browser.says("Students: 3 added, 0 already there.")
        self.assertRegex(self.saved(3), f"^id,name,code\nann,Ann,{CODE.pattern}\nbea,Bea,{CODE.pattern}\ncyr,Cyr,{CODE.pattern}\n$")

    def test_somebody_came_meanwhile(self):
        """Codes were made for somebody who is there by now: the portal is asked again, and a new file is saved."""
        self.make("id,name\nann,Ann\nbea,Bea\n")
        self.saved(2)
        self.door.do(OFFICE, "POST", "/rolls/students", b"id,name,code\nann,Ann,k4mz-pq7w-9xyd\n")
        self.send()
        self.browser.warns("Row 2 differs from what the portal has under the same ID")
        self.browser.press("Compare with the portal")
        self.browser.says("Compared: 1 row is new, 1 already in the portal.")
        self.assertFalse(self.sendable())
        self.browser.press("The file is there")
        self.send()
        self.browser.says("Students: 1 added, 0 already there.")
        self.assertRegex(self.saved(1), f"^id,name,code\nbea,Bea,{CODE.pattern}\n$")

    def test_the_tab_keeps_codes_that_may_have_been_sent(self):
        """After a lost reply, cancelling, a reload and an idle sign-out the codes are there, and nothing untrue is said; signing out
        forgets them."""
        self.make()
        self.browser.driver.execute_script("""
            const real = window.fetch;
            window.fetch = async (path, how) => {
                const reply = await real(path, how);
                if (how?.method === 'POST') throw new TypeError('lost');
                return reply;
            };
        """)
        self.send()
        self.browser.warns("we don’t know if the rows arrived")
        saved = self.saved()
        said = self.answer("Cancel", "Close this file without knowing whether it arrived?", "Close")
        self.assertIn("the rows may be in the portal, and their codes valid", said)
        maybe = "Students: 2 rows with new codes that may have been sent; no reply came."
        self.sees(maybe)
        self.browser.driver.refresh()
        self.browser.in_phase("Setup")
        self.sees(maybe)
        self.browser.driver.execute_script(
            "sessionStorage.setItem('portal-active', Date.now() - 31 * 60000); dispatchEvent(new Event('focus'))")
        self.browser.find("textbox", "Your code")
        self.assertNotIn("may have been sent", self.text())
        self.sign_in(OFFICE, "Setup")
        self.sees(maybe)
        said = self.answer("Sign out", "Leave without saving?", "Keep editing")
        self.assertIn("Then these codes are valid, and this tab forgets them", said)
        self.browser.press("Go on with these rows")
        self.assertFalse(self.sendable())
        self.browser.press("The file is there")
        self.answer("Send", "Send 2 students again?", "Send again")
        self.browser.says("Students: 0 added, 2 already there.")
        self.assertEqual(self.saved(), saved)
        self.browser.driver.refresh()
        self.browser.in_phase("Setup")
        self.browser.unfold(".kept-codes details")
        self.sees("Students: 2 rows, sent.")
        self.answer("Forget these codes here", "Forget these codes in this tab?")
        self.assertNotIn("Codes that this tab keeps", self.text())
        self.assertIsNone(self.browser.script("sessionStorage.getItem('portal-draft codes')"))

    def test_some_have_codes(self):
        self.make("id,name,code\nann,Ann,k4mz-pq7w-9xyd\nbea,Bea,\n")
        self.send()
        self.browser.says("Students: 2 added, 0 already there.")
        self.assertRegex(self.saved(1), f"^id,name,code\nann,Ann,k4mz-pq7w-9xyd\nbea,Bea,{CODE.pattern}\n$")

    def test_unsent_codes_are_never_given_up_unasked(self):
        """Another file, Cancel, a step of the year, signing out and leaving ask first; No leaves the codes as they are."""
        self.door.load_rolls()
        self.browser.press("Refresh")
        self.browser.says("Up to date.")
        self.make()
        question = "Discard the new codes?"
        self.choose_file("Lecturers", YEAR / "lecturers.csv")
        self.assertIn("2 new codes have not been sent yet and will be lost. Delete the file", self.browser.find("dialog", question).text)
        self.browser.press("Keep codes")
        self.answer("Cancel", question, "Keep codes")
        self.answer("Open choosing", question, "Keep codes")
        self.assertEqual(self.browser.phase(), "Setup")
        self.answer("Sign out", "Leave without saving?", "Keep editing")
        event = "const event = new Event('beforeunload', { cancelable: true }); dispatchEvent(event); return event.defaultPrevented"
        self.assertTrue(self.browser.driver.execute_script(event))
        self.door.move("choosing")
        self.answer("Refresh", question, "Keep codes")
        self.send()
        self.browser.says("Students: 2 added, 0 already there.")
        self.saved()
        self.assertFalse(self.browser.driver.execute_script(event))
        self.make("id,name\ncyr,Cyr\n")
        self.answer("Cancel", question, "Discard codes")
        self.assertFalse(self.browser.has("button", "Send"))
        self.assertEqual(self.count("students"), 7)

    def test_lost_reply(self):
        """Where no answer comes the same codes are sent again."""
        self.make()
        self.browser.driver.execute_script("""
            const real = window.fetch;
            window.sent = [];
            window.fetch = async (path, how) => {
                if (how?.method !== 'POST') return real(path, how);
                window.sent.push(how.body);
                const reply = await real(path, how);
                if (window.sent.length === 1) throw new TypeError('lost');
                return reply;
            };
        """)
        self.send()
        self.browser.warns("we don’t know if the rows arrived. If they did, their codes are valid: keep the file")
        self.sees("so they may be in the portal, and their codes valid.")
        self.browser.press("Send again")
        self.browser.says("Students: 0 added, 2 already there.")
        first, second = self.browser.script("window.sent")
        self.assertEqual(first, second)
        self.assertEqual(self.saved(), first)


    def test_a_download_that_is_blocked(self):
        """Where the browser saved no file nothing can be sent before a person says otherwise, and the file can be had again."""
        self.browser.cdp("Browser.setDownloadBehavior", behavior="deny")
        self.choose_file("Students", self.write("s.csv", "id,name\nann,Ann\n"))
        self.browser.press("Make codes and save them")
        self.sees("Look now whether the file is among your downloads. Only then can you send.")
        self.assertEqual(list(self.downloads.iterdir()), [])
        self.assertFalse(self.sendable())
        self.browser.cdp("Browser.setDownloadBehavior", behavior="allow", downloadPath=str(self.downloads))
        self.browser.press("Save the file again")
        self.assertRegex(self.saved(1), f"^id,name,code\nann,Ann,{CODE.pattern}\n$")
        self.browser.press("The file is there")
        self.send()
        self.browser.says("Students: 1 added")


class Tabs(FileCase):
    """Who signs out in another tab loses nothing here unasked."""

    def sign_out_elsewhere(self):
        first = self.browser.driver.current_window_handle
        self.browser.driver.switch_to.new_window("tab")
        self.open(OFFICE, "Setup")
        self.browser.sign_out()
        self.browser.driver.switch_to.window(first)

    def test_codes_stay_in_their_tab(self):
        self.choose_file("Students", self.write("s.csv", "id,name\nann,Ann\n"))
        self.makes_codes()
        self.sign_out_elsewhere()
        self.browser.find("textbox", "Your code")
        self.browser.says("What you hadn’t saved here is kept in this tab")
        self.sign_in(OFFICE, "Setup")
        self.sees("Students: 1 row with new codes, not sent.")
        self.browser.press("Go on with these rows")
        self.browser.press("The file is there")
        self.send()
        self.browser.says("Students: 1 added, 0 already there.")
        self.codes += CODE.findall(books.text(self.codes_file("students", 1)))
        self.browser.sign_out()
        self.assertIsNone(self.browser.script("sessionStorage.getItem('portal-draft office codes')"))

    def test_work_on_a_file_is_asked_about(self):
        text = "id,name,code\nann,Ann,k4mz-pq7w-9xyd\nb b,Bea,k4mz-pq7w-9xye\n"
        self.choose_file("Students", self.write("s.csv", text))
        self.browser.press("Leave out row 3")
        self.sign_out_elsewhere()
        self.assertIn("What you have corrected, left out or decided in it will be lost.",
                      self.browser.find("dialog", "You signed out in another tab. Sign out here too?").text)
        self.browser.press("Stay signed in")
        self.sees("Left out: 1")
        self.answer("Sign out", "Leave without saving?", "Keep editing")
        self.answer("Cancel", "Close this file?", "Not now")
        self.send()
        self.browser.says("Students: 1 added")


class Slips(FileCase):
    def test_slips_of_a_file_that_is_not_sent(self):
        """In every phase, for students and lecturers, also with columns that the portal does not want."""
        text = (YEAR / "lecturers.csv").read_text().replace("capacity\n", "capacity,email\n").replace(",2\n", ",2,x@example.edu\n").replace(
            ",1\n", ",1,y@example.edu\n")
        lecturers = self.write("lecturers.csv", text)
        self.choose_file("Lecturers", lecturers)
        self.slips("Lecturer", "Jocelyn Bellbell", "lecturer-bell-1", 3)
        self.assertEqual(self.count("lecturers"), 0)
        self.browser.press("Cancel")
        self.door.load_rolls()
        for phase in ("choosing", "ranking", "published"):
            self.door.move(phase)
        self.browser.press("Refresh")
        self.browser.in_phase("Results")
        self.choose_file("Lecturer or student file", lecturers)
        self.sees("Lecturers: lecturers.csv", "The file has 3 rows.")
        self.slips("Lecturer", "Jocelyn Bell", "lecturer-bell-1", 3)
        self.assertFalse(self.browser.has("button", "Send"))
        self.choose_file("Lecturer or student file", YEAR / "students.csv")
        self.sees("Students: students.csv")
        self.slips("Student", "Cruz, Cleo", "student-cleo-1", 5)
        self.browser.press("Read names only")
        self.browser.says("Read 5 names. Nothing was sent.")

    def slips(self, role, name, code, count):
        slips = self.printed()
        self.assertEqual(len(slips), count)
        slip = next(slip for slip in slips if name in slip)
        for part in (role, code, self.door.address):
            self.assertIn(part, slip)

    def test_eight_slips_a_page(self):
        rows = "".join(f"s{n},A student with a name of some length {n},k4mz-pq7w-9x{n:02}\n" for n in range(17))
        self.choose_file("Students", self.write("s.csv", f"id,name,code\n{rows}"))
        self.browser.driver.execute_script("window.print = () => {}")
        self.browser.press("Print slips")
        pdf = base64.b64decode(self.browser.cdp("Page.printToPDF", paperWidth=8.27, paperHeight=11.69)["data"])
        self.assertEqual(len(re.findall(rb"/Type\s*/Page\b", pdf)), 3)
