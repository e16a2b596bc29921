"""Plays the year of examples/year, and takes a picture of each page on the way. Each has less than 100,000 bytes."""

import base64
import sys
from pathlib import Path

from browser import Browser
from case import ADA, BELL, BEN, CLEO, DORA, EMIL, NOETHER, OFFICE
from door import Door

LARGEST = 100_000
SCALE = 0.7
# An export with a title, names in place of IDs, a place in words and a total.
EXPORT = """Abschlussarbeiten 2026/27;;;
Nr.;Titel;Betreuer/in;Plätze
P11;Waves in shallow water;Noether, Emmy;2
P12;Trees with few leaves;A. Turing;ca. 2
P13;Light curves by hand;Prof. Bell;1
;;Summe;5
"""


def main(folder):
    door = Door()
    browser = Browser(door.path, 1000)
    try:
        play(door, browser, Path(folder))
    finally:
        browser.quit()
        door.stop()


def play(door, browser, folder):
    folder.mkdir(parents=True, exist_ok=True)
    browser.open(door.address)
    browser.find("textbox", "Your code")
    take(browser, folder / "sign-in.png")
    door.load_rolls()
    sign_in(browser, OFFICE, "Setup")
    take(browser, folder / "office-setup.png")
    (door.path / "export.csv").write_text(EXPORT)
    browser.driver.find_element("css selector", "#projects-file").send_keys(str(door.path / "export.csv"))
    browser.find("button", "Use these IDs")
    take(browser, folder / "office-file.png", 1000)
    browser.press("Cancel")
    door.move("choosing")
    door.do(BEN, "PUT", "/choices", {"projects": ["pulsars", "comets"]})
    door.do(CLEO, "PUT", "/choices", {"projects": ["rings", "patterns"]})
    sign_in(browser, ADA, "Choosing")
    for key in ("pulsars", "rings", "patterns"):
        browser.press(f"Add *, {key}")
    take(browser, folder / "student-choosing.png")
    browser.press("Save list")
    browser.says("Saved")
    sign_in(browser, OFFICE, "Choosing")
    take(browser, folder / "office-choosing.png")
    door.do(DORA, "PUT", "/choices", {"projects": ["patterns", "groups"]})
    door.move("ranking")
    door.do(BELL, "PUT", "/ranking", {"students": ["ben", "ada"]})
    sign_in(browser, NOETHER, "Ranking")
    for key in ("cleo", "ada"):
        browser.press(f"Add *, {key}")
    take(browser, folder / "lecturer-ranking.png")
    browser.press("Sign out")
    browser.press("Leave")
    door.do(OFFICE, "POST", "/ranking/fill", {})
    door.move("published")
    for code, name in ((ADA, "student"), (NOETHER, "lecturer"), (OFFICE, "office")):
        sign_in(browser, code, "Results")
        take(browser, folder / f"{name}-published.png")
    door.do(OFFICE, "POST", "/phase", {"phase": "choosing", "round": 2})
    sign_in(browser, EMIL, "Choosing")
    browser.press("Add *, comets")
    take(browser, folder / "student-second.png")


def sign_in(browser, code, phase):
    if browser.has("button", "Sign out"):
        browser.sign_out()
    browser.sign_in(code)
    browser.in_phase(phase)


def take(browser, path, most=1200):
    """The whole page, as far as it goes down."""
    height = browser.script("Math.min(arguments[0], document.documentElement.scrollHeight)", most)
    browser.resize(1000, height, SCALE)
    data = base64.b64decode(browser.cdp("Page.captureScreenshot", format="png", optimizeForSpeed=False)["data"])
    browser.resize(1000)
    path.write_bytes(data)
    print(f"{path.name} {len(data)}")
    assert len(data) < LARGEST, f"{path} has {len(data)} bytes"


main(sys.argv[1])
