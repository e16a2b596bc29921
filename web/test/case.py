"""What every test of the page has: a door, a browser, and at the end a look at what the browser and the door have written."""

import json
import os
import re
import unittest

from browser import Browser
from door import OFFICE, TOP, Door, DoorWithoutCaddy

YEAR = TOP / "examples/year"
ADA, BEN, CLEO, DORA, EMIL = (f"student-{name}-1" for name in ("ada", "ben", "cleo", "dora", "emil"))
BELL, NOETHER, TURING = (f"lecturer-{name}-1" for name in ("bell", "noether", "turing"))
CODES = (OFFICE, ADA, BEN, CLEO, DORA, EMIL, BELL, NOETHER, TURING)

# What the browser itself writes of a reply that is a refusal. Nothing else may stand in the console.
OF_A_STATUS = re.compile(r"Failed to load resource: the server responded with a status of (403|409|413|422|400|503)")


class PageCase(unittest.TestCase):
    kind_of_door = DoorWithoutCaddy if os.environ.get("PORTAL_STAND_IN") else Door

    def setUp(self):
        self.door = self.kind_of_door()
        self.addCleanup(self.door.stop)
        self.downloads = self.door.path / "downloads"
        self.downloads.mkdir()
        self.browser = Browser(self.downloads)
        self.addCleanup(self.browser.quit)
        self.browser.cdp("Browser.grantPermissions", permissions=["clipboardReadWrite", "clipboardSanitizedWrite"])
        self.requested = []
        self.codes = list(CODES)

    def tearDown(self):
        """No request to anywhere else, no message in the console, the code in no address, no title, no log and no lasting store."""
        self.look_at_requests()
        for address in self.requested:
            self.assertTrue(address.startswith((self.door.address, "blob:", "data:")), address)
        seen = "\n".join(self.requested + self.browser.seen + [self.door.log()])
        for code in self.codes:
            self.assertNotIn(code, seen)
        kept = self.browser.script("JSON.stringify({ ...localStorage })")
        for code in self.codes:
            self.assertNotIn(code, kept)
        self.assertEqual(self.browser.script("document.cookie"), "")

    def look_at_requests(self):
        for entry in self.browser.driver.get_log("performance"):
            message = json.loads(entry["message"])["message"]
            if message["method"] == "Network.requestWillBeSent":
                self.requested.append(message["params"]["request"]["url"])
        told = [entry["message"] for entry in self.browser.driver.get_log("browser") if not OF_A_STATUS.search(entry["message"])]
        self.assertEqual(told, [])

    def open(self, code=None, phase=None):
        """The page, signed in with a code."""
        self.browser.open(self.door.address)
        if code is not None:
            self.browser.sign_in(code)
            self.browser.in_phase(phase)

    def sign_in(self, code, phase):
        self.browser.sign_in(code)
        self.browser.in_phase(phase)

    def choose_file(self, name, path):
        self.browser.wait(lambda: self.file_field(name), f"the file field {name}").send_keys(str(path))

    def file_field(self, name):
        fields = self.browser.driver.find_elements("css selector", "input[type=file]")
        return next((field for field in fields if name.lower() in field.accessible_name.lower()), None)

    def send_file(self, name, path):
        """Opens a roll file, sends what the page shows of it, and says that this is meant."""
        self.choose_file(name, path)
        self.browser.press("Send")
        self.confirm()

    def confirm(self):
        """Does what is asked: the first button of a question."""
        self.browser.wait(lambda: self.browser.driver.find_element("css selector", "dialog .buttons button"), "a question").click()

    def write(self, name, data):
        path = self.door.path / name
        path.write_bytes(data if isinstance(data, bytes) else data.encode())
        return path

    def answer(self, button, question, answer=None):
        """Presses a button, and answers its question: by the button of the same name, if no other is told."""
        self.browser.press(button)
        dialog = self.browser.find("dialog", question)
        said = dialog.text
        self.browser.press(answer or button)
        return said

    def downloaded(self, name):
        """The file of that name, once it is whole: until then the browser keeps an empty one in its place."""
        path = self.downloads / name
        self.browser.wait(lambda: path.stat().st_size, f"the file {name}")
        return path
