"""Names and titles of any kind stand on the page as they are; and how the page looks in each width."""

import json

from selenium.webdriver.common.keys import Keys

from case import ADA, BELL, EMIL, NOETHER, OFFICE, PageCase

STRANGE = {
    "html": "<img src=x onerror=alert(1)>&amp;<b>\"bold\"</b>",
    "quotes": "\"It's\" `${1}` 'so' \\n",
    "hebrew": "פרויקט על כוכבים, 2026 (שני)",
    "arabic": "مشروع عن النجوم",
    "long": "x" * 160,
    "letters": "é" * 80,
    "script": "</script><script>window.hacked = 1</script>",
}


def quoted(text):
    return '"' + text.replace('"', '""') + '"'


class Texts(PageCase):
    def setUp(self):
        super().setUp()
        lecturers = "".join(f"l-{key},{quoted(text)},code-of-l-{key},1\n" for key, text in STRANGE.items())
        projects = "".join(f"p-{key},l-{key},{quoted(text)},1\n" for key, text in STRANGE.items())
        students = "".join(f"s-{key},{quoted(text)},code-of-s-{key}\n" for key, text in STRANGE.items())
        self.door.do(OFFICE, "POST", "/rolls/lecturers", f"id,name,code,capacity\n{lecturers}".encode())
        self.door.do(OFFICE, "POST", "/rolls/projects", f"id,lecturer,title,capacity\n{projects}".encode())
        self.door.do(OFFICE, "POST", "/rolls/students", f"id,name,code\n{students}".encode())
        self.codes += [f"code-of-{role}-{key}" for role in "ls" for key in STRANGE]
        self.door.move("choosing")

    def test_strange_texts(self):
        self.open("code-of-s-html", "Choosing")
        self.assertEqual(self.given("table[aria-label=Projects] .titled > .title"), [STRANGE[key] for key in sorted(STRANGE)])
        self.assertEqual(self.given("table[aria-label=Projects] td:nth-child(2) bdi"), [STRANGE[key] for key in sorted(STRANGE)])
        for key in STRANGE:
            self.browser.press(f"Add *, p-{key}")
            self.browser.announced(STRANGE[key])
        self.assertEqual(self.given("ol[aria-label='Your list'] bdi"), list(STRANGE.values()))
        self.fits()
        self.browser.press("Save list")
        self.browser.says("Saved")
        self.browser.sign_out()
        self.door.move("ranking")
        self.sign_in("code-of-l-script", "Ranking")
        self.assertIn(STRANGE["html"], self.given("ol[aria-label='Your ranking'] bdi"))
        self.fits()
        self.browser.sign_out()
        self.sign_in(OFFICE, "Ranking")
        self.assertIn(STRANGE["hebrew"], self.browser.page_text())
        self.key_behind_the_name()
        self.answer("Fill missing rankings", "Fill the missing rankings now?")
        self.browser.says("Filled for")
        self.answer("Publish results", "Publish the results now?")
        self.browser.in_phase("Results")
        self.assertEqual(self.given("table[aria-label='Results'] tbody tr > :first-child bdi"), [STRANGE[key] for key in sorted(STRANGE)])
        self.fits()
        self.assertEqual(self.browser.script("document.querySelectorAll('img, b, body script').length"), 0)
        self.assertIsNone(self.browser.script("window.hacked"))

    def key_behind_the_name(self):
        """A name from right to left does not turn what stands behind it."""
        name, key = self.browser.driver.execute_script("""
            const entry = [...document.querySelectorAll('.names li')].find((e) => e.textContent.includes('(l-hebrew)'));
            const left = (part) => {
              const texts = document.createTreeWalker(entry, NodeFilter.SHOW_TEXT);
              while (!texts.nextNode().data.includes(part));
              const [range, text] = [document.createRange(), texts.currentNode];
              range.setStart(text, text.data.indexOf(part));
              range.setEnd(text, text.data.indexOf(part) + part.length);
              return range.getBoundingClientRect().left;
            };
            return [left(arguments[0]), left('(l-hebrew)')];
        """, STRANGE["hebrew"].split(" ")[0])
        self.assertLess(name, key)

    def given(self, selector):
        return self.browser.script("[...document.querySelectorAll(arguments[0])].map((e) => e.textContent)", selector)

    def fits(self):
        """Nothing stands out at the side, and what is pressed is large enough, in a narrow and in a wide window."""
        for width in (360, 1280):
            self.browser.resize(width)
            self.assertLessEqual(self.browser.script("document.documentElement.scrollWidth"), width)
            small = ("[...document.querySelectorAll('button, .button, input:not([type=file])')].filter((e) => e.offsetParent).filter((e) "
                     "=> { const r = e.getBoundingClientRect(); return r.width < 24 || r.height < 24; }).map((e) => [e.outerHTML, "
                     "e.offsetWidth, e.offsetHeight])")
            self.assertEqual(self.browser.script(small), [], f"in a window of {width}")


class German(PageCase):
    """German words are longer: no button is cut, and nothing stands out at the side."""

    CUT = ("[...document.querySelectorAll('button, .button, select, .state, .count')].filter((e) => e.offsetParent && e.scrollWidth > "
           "e.clientWidth + 1).map((e) => e.outerHTML)")

    def test_buttons_are_whole(self):
        large = self.door.load_large("ranking")
        self.codes += large.codes.values()
        self.open()
        self.browser.choose("Language", "Deutsch")
        self.browser.find("textbox", "Ihr Code")
        lecturer = max(large.lecturers, key=lambda one: len(self.door.do(one["code"], "GET", "/applicants")["projects"]))
        for step in ("Rangfolgen", "Wahl"):
            if step == "Wahl":
                large = self.door.load_large("choosing")
            for code in (large.students[0]["code"], lecturer["code"], OFFICE):
                self.browser.find("textbox", "Ihr Code").send_keys(code, Keys.ENTER)
                self.browser.in_phase(step)
                if step == "Wahl" and code == large.students[0]["code"]:
                    self.browser.press("Wählen: *, p001")
                for width in (1280, 390):
                    self.browser.resize(width)
                    self.assertEqual(self.browser.script(self.CUT), [], f"{code} in {step} at {width}")
                    self.assertLessEqual(self.browser.script("document.documentElement.scrollWidth"), width)
                self.browser.press("Abmelden")
                if self.browser.has("button", "Verlassen"):
                    self.browser.press("Verlassen")

    def test_stages_are_whole(self):
        """On a phone all stages stand in one line, and no name of one is broken, at the year's end, too."""
        self.door.load_rolls()
        self.door.move("choosing")
        self.open()
        self.browser.choose("Language", "Deutsch")
        self.browser.find("textbox", "Ihr Code").send_keys(EMIL, Keys.ENTER)
        for phase, name in (("", "Wahl"), ("ranking", "Rangfolgen"), ("published", "Ergebnisse")):
            if phase != "":
                self.door.move(phase)
                self.browser.open(self.door.address)
            self.browser.in_phase(name)
            for width in (320, 360, 390):
                self.browser.resize(width)
                lines = self.browser.script("""[...document.querySelectorAll('.year li')].map((stage) => {
                    const range = document.createRange();
                    range.selectNodeContents(stage);
                    return [...new Set([...range.getClientRects()].map(({ top }) => Math.round(top)))];
                })""")
                self.assertEqual(len(lines), 4)
                self.assertEqual(len({top for tops in lines for top in tops}), 1, f"{name} at {width}: {lines}")


class Looks(PageCase):
    """Every text that is seen has its contrast, in light and in dark; what can have the focus has a name; no id stands twice."""

    CONTRAST = """
    const luminance = ([r, g, b]) => [r, g, b].map((c) => c / 255).map((c) => c <= 0.04045 ? c / 12.92 : ((c + 0.055) / 1.055) ** 2.4)
    .reduce((sum, c, i) => sum + c * [0.2126, 0.7152, 0.0722][i], 0);
    const colour = (text) => text.match(/[\\d.]+/g).map(Number);
    const ground = (e) => { for (; e; e = e.parentElement) { const c = colour(getComputedStyle(e).backgroundColor); if (c.length < 4 ||
    c[3] > 0) return c; } return [255, 255, 255]; };
    return [...document.querySelectorAll('body *')].filter((e) => e.offsetParent && [...e.childNodes].some((n) => n.nodeType === 3 &&
    n.data.trim())).map((e) => {
      const [a, b] = [luminance(colour(getComputedStyle(e).color)), luminance(ground(e))].sort((x, y) => y - x);
      return [e.textContent.slice(0, 30), (a + 0.05) / (b + 0.05)];
    }).filter(([, ratio]) => ratio < 4.5)
    """

    # Sections without a name, and questions that are described by nothing.
    UNTOLD = """
    const said = (e, by) => (e.getAttribute(by) ?? '').split(' ').map((id) => document.getElementById(id)?.innerText ?? '')
    .join('').trim() || (by === 'aria-labelledby' && e.getAttribute('aria-label'));
    return [...document.querySelectorAll('section')].filter((e) => !said(e, 'aria-labelledby')).map((e) => e.innerText.slice(0, 30))
      .concat([...document.querySelectorAll('dialog')].filter((e) => !said(e, 'aria-describedby') || !said(e, 'aria-labelledby'))
      .map((e) => e.innerText))
    """

    def test_every_page(self):
        self.door.load_rolls()
        (self.door.notice / "projects.json").write_text(
            json.dumps({
                "projects": [{
                    "id": "rings",
                    "title": "Rings",
                    "lecturer": "noether",
                    "lecturer_name": "Emmy Noether",
                    "description": "Of integers.",
                    "link": "https://example.org"
                }]
            }))
        (self.door.notice / "department.json").write_text(
            json.dumps({
                "name": "Mathematics",
                "contact": "office@example.org",
                "privacy": "https://example.org/privacy"
            }))
        self.open(OFFICE, "Setup")
        self.choose_file("Students", self.write("bad.csv", "id,name,code,group\n,Ann,student-ann-1,1\n"))
        self.browser.wait(lambda: "1 row has no ID." in self.browser.page_text(), "the fault")
        self.look()
        self.door.move("choosing")
        self.browser.sign_out()
        self.look()
        self.browser.sign_in("nobody-has-this")
        self.browser.warns("We don’t know")
        self.look()
        self.sign_in(ADA, "Choosing")
        self.browser.press("Add *, rings")
        self.look()
        self.browser.press("Rings and their ideals")
        self.look()
        self.door.do(ADA, "PUT", "/choices", {"projects": ["comets"]})
        self.browser.press("Save list")
        self.browser.find("dialog", "Which list do you want to keep?")
        self.look()
        self.browser.press("Save this page’s version")
        self.browser.says("Saved")
        self.browser.sign_out()
        self.door.move("ranking")
        self.sign_in(NOETHER, "Ranking")
        self.look()
        self.browser.sign_out()  # the page has made the ranking of the one applicant by itself: nothing would be lost
        self.sign_in(OFFICE, "Ranking")
        self.bars_in_forced_colours()
        self.browser.press("Fill missing rankings")
        self.browser.find("button", "Not now")
        self.look()
        self.browser.press("Fill missing rankings")
        self.browser.says("Filled")
        self.door.move("published")
        for code in (ADA, NOETHER, OFFICE):
            self.browser.sign_out()
            self.sign_in(code, "Results")
            self.look()
        self.browser.press("Open second round")
        self.browser.find("button", "Not now")
        self.look()
        self.browser.press("Open second round")
        self.browser.in_phase("Choosing")
        self.look()
        for code in (ADA, EMIL, BELL):
            self.browser.sign_out()
            self.sign_in(code, "Choosing")
            self.look()

    def bars_in_forced_colours(self):
        """Where a person has the system’s own few colours, the filled part of a bar still differs from the rest of it."""
        self.browser.cdp("Emulation.setEmulatedMedia", features=[{"name": "forced-colors", "value": "active"}])
        colour = "getComputedStyle(document.querySelector(arguments[0])).backgroundColor"
        self.assertNotEqual(self.browser.script(colour, ".filled"), self.browser.script(colour, ".bar"))

    def look(self):
        for scheme in ("light", "dark"):
            self.browser.prefer(scheme)
            self.assertEqual(self.browser.driver.execute_script(self.CONTRAST), [])
        nodes = self.browser.cdp("Accessibility.getFullAXTree")["nodes"]
        nameless = [
            node["role"]["value"] for node in nodes
            if not node["ignored"] and self.is_focusable(node) and not node.get("name", {}).get("value")
        ]
        self.assertEqual([role for role in nameless if role not in ("main", "RootWebArea", "generic")], [])
        self.assertEqual(self.browser.driver.execute_script(self.UNTOLD), [])
        doubled = "[...document.querySelectorAll('[id]')].map((e) => e.id).filter((id, at, all) => all.indexOf(id) !== at)"
        self.assertEqual(self.browser.script(doubled), [])

    def is_focusable(self, node):
        return any(one["name"] == "focusable" and one["value"].get("value") for one in node.get("properties", []))
