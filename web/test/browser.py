"""Headless Chromium, used as a person uses it: things are found by their role and their accessible name."""

import time

from selenium import webdriver
from selenium.webdriver.chrome.options import Options
from selenium.webdriver.chrome.service import Service
from selenium.webdriver.common.action_chains import ActionChains
from selenium.webdriver.common.by import By
from selenium.webdriver.common.keys import Keys
from selenium.webdriver.support.select import Select

WAIT = 60
# The menu is shut, and has something of this name.
IN_MENU = """document.querySelector('.menu')?.offsetParent && !document.querySelector('.rest').matches(':popover-open')
    && [...document.querySelectorAll('.rest button, .rest label > span')].some((e) => e.textContent === arguments[0])"""


class Browser:
    def __init__(self, downloads, width=1280, height=900):
        options = Options()
        options.binary_location = "/usr/bin/chromium"
        for word in ("--headless=new", "--no-sandbox", "--disable-dev-shm-usage", "--ignore-certificate-errors", "--disable-gpu",
                     f"--window-size={width},{height}", "--disable-background-networking", "--disable-component-update", "--no-first-run",
                     "--lang=en"):
            options.add_argument(word)
        options.add_experimental_option("prefs", {"download.default_directory": str(downloads), "intl.accept_languages": "en"})
        options.set_capability("goog:loggingPrefs", {"browser": "ALL", "performance": "ALL"})
        options.set_capability("unhandledPromptBehavior", "ignore")
        self.driver = webdriver.Chrome(service=Service("/usr/bin/chromedriver"), options=options)
        self.number = 0
        self.seen = []  # the addresses and titles of the page while somebody was signed in
        self.resize(width, height)
        self.script("window")  # the browser answers

    def quit(self):
        self.driver.quit()

    def cdp(self, command, **arguments):
        return self.driver.execute_cdp_cmd(command, arguments)

    def script(self, text, *arguments):
        return self.driver.execute_script(f"return {text}", *arguments)

    def resize(self, width, height=900, scale=1):
        self.cdp("Emulation.setDeviceMetricsOverride", width=width, height=height, deviceScaleFactor=scale, mobile=False)
        self.wait(lambda: self.script("window.innerWidth") == width, f"a window {width} wide")

    def slow(self, milliseconds):
        """Each request takes so long at least."""
        self.cdp("Network.emulateNetworkConditions", offline=False, latency=milliseconds, downloadThroughput=-1, uploadThroughput=-1)

    def prefer(self, scheme):
        self.cdp("Emulation.setEmulatedMedia", features=[{"name": "prefers-color-scheme", "value": scheme}])

    def open(self, address):
        self.driver.get(address)

    def whole(self, name):
        """The name that begins and ends like this one, where that has a star for what is between: "Add *, rings"."""
        if "*" not in name:
            return name
        before, after = name.split("*")
        labels = self.script("[...document.querySelectorAll('[aria-label]')].map((e) => e.getAttribute('aria-label'))")
        return next((label for label in labels if label.startswith(before) and label.endswith(after)), name)

    def find_all(self, role, name):
        """All elements with this role and accessible name, as the browser tells them to a screen reader."""
        name = self.whole(name)
        root = self.cdp("DOM.getDocument", depth=0)["root"]["nodeId"]
        nodes = self.cdp("Accessibility.queryAXTree", nodeId=root, role=role, accessibleName=name)["nodes"]
        backend = [node["backendDOMNodeId"] for node in nodes if not node["ignored"]]
        ids = self.cdp("DOM.pushNodesByBackendIdsToFrontend", backendNodeIds=backend)["nodeIds"] if backend else []
        self.number += 1
        for node in ids:
            self.cdp("DOM.setAttributeValue", nodeId=node, name="data-found", value=str(self.number))
        return self.driver.find_elements(By.CSS_SELECTOR, f'[data-found="{self.number}"]')

    def find(self, role, name, wait=WAIT):
        """The one element with this role and name; it is waited for. What a narrow page has in its menu is found there."""
        end = time.monotonic() + wait
        while True:
            try:
                found = self.find_all(role, name)
                if not found and self.script(IN_MENU, name):
                    self.script("document.querySelector('.menu').click()")
                    found = self.find_all(role, name)
            except Exception:  # the page is just being put together anew
                found = []
            if len(found) == 1:
                return found[0]
            if time.monotonic() > end:
                raise AssertionError(f"{len(found)} of role {role} with the name {name!r}")
            time.sleep(0.05)

    def has(self, role, name):
        return len(self.find_all(role, name)) > 0

    def press(self, name):
        self.click("button", name)

    def click(self, role, name):
        """Clicks an element, which is brought out from under the dock first."""
        element = self.find(role, name)
        self.driver.execute_script("arguments[0].scrollIntoView({ block: 'nearest' })", element)
        element.click()
        return element

    def choose(self, name, option):
        """Chooses in a field with options."""
        Select(self.find("combobox", name)).select_by_visible_text(option)

    def wait(self, what, said, wait=WAIT):
        """Waits until what() is true."""
        end = time.monotonic() + wait
        while True:
            try:
                value = what()
            except Exception:
                value = False
            if value:
                return value
            if time.monotonic() > end:
                raise AssertionError(f"waited for: {said}")
            time.sleep(0.05)

    def text(self, role):
        """What the page's status or alert says."""
        return "".join(self.script("[...document.querySelectorAll(`[role=${arguments[0]}]`)].map((e) => e.innerText)",
                                   role)).replace("\u2068", "").replace("\u2069", "")

    def says(self, part, role="status", wait=WAIT):
        try:
            self.wait(lambda: part in self.text(role), part, wait)
        except AssertionError:
            raise AssertionError(
                f"the {role} says {self.text(role)!r}, not {part!r}; the other says "
                f"{self.text('alert' if role == 'status' else 'status')!r}"
            ) from None
        return self.text(role)

    def warns(self, part, wait=WAIT):
        return self.says(part, "alert", wait)

    def unfold(self, selector):
        """Opens folds wherever they are."""
        self.driver.execute_script("for (const fold of document.querySelectorAll(arguments[0])) fold.open = true", selector)

    def phase(self):
        return self.script("document.querySelector('.year [aria-current=step]')?.textContent")

    def in_phase(self, name, wait=WAIT):
        self.wait(lambda: self.phase() == name, f"phase {name}", wait)
        self.wait(lambda: "One moment" not in self.page_text(), "the page", wait)
        self.seen += [self.driver.current_url, self.driver.title]

    def page_text(self):
        return self.script("document.body.innerText")

    def sign_in(self, code):
        field = self.find("textbox", "Your code")
        field.clear()
        field.send_keys(code)
        self.press("Sign in")

    def sign_out(self):
        self.press("Sign out")
        self.find("textbox", "Your code")

    def entries(self, name):
        """The keys of an ordered list."""
        return self.script("[...document.querySelectorAll(`ol[aria-label=\"${arguments[0]}\"] > li`)].map((e) => e.dataset.key)", name)

    def announced(self, part, wait=WAIT):
        """Waits until this is told to screen readers alone."""
        self.wait(lambda: part in self.spoken(), f"{part!r} to be told to screen readers", wait)

    def spoken(self):
        return self.script("document.querySelector('.spoken')?.textContent ?? ''").replace("\u2068", "").replace("\u2069", "")

    # by keyboard alone

    def keys(self, *keys):
        for key in keys:
            ActionChains(self.driver).send_keys(key).perform()

    def focused(self):
        return self.script("document.activeElement")

    def tab_to(self, role, name, back=False, most=80):
        """Goes on by the Tab key until the element has the focus."""
        aim = self.find(role, name)
        for _ in range(most):
            if self.script("document.activeElement === arguments[0]", aim):
                assert self.script("arguments[0].matches(':focus-visible')", aim), f"the focus at {name} is not seen"
                return aim
            if back:
                ActionChains(self.driver).key_down(Keys.SHIFT).send_keys(Keys.TAB).key_up(Keys.SHIFT).perform()
            else:
                ActionChains(self.driver).send_keys(Keys.TAB).perform()
        raise AssertionError(f"{name} is not reached by the Tab key")

    def key_press(self, name, key=Keys.ENTER, **how):
        self.tab_to("button", name, **how)
        self.keys(key)

    def drag(self, element, dx, dy):
        ActionChains(self.driver).click_and_hold(element).move_by_offset(dx, dy // 2).move_by_offset(0, dy - dy // 2).release().perform()
