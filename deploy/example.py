"""Plays the year of examples/year up to a phase, over a new portal."""
import json
import urllib.request
from pathlib import Path

import descriptions

FILES = Path(__file__).resolve().parent.parent / "examples/year"
OFFICE = "office-of-2026"
CODES = {
    OFFICE: "the office",
    "lecturer-bell-1": "lecturer, Jocelyn Bell",
    "lecturer-noether-1": "lecturer, Emmy Noether",
    "student-ada-1": "student, Ada Ames",
    "student-emil-1": "student, Emil Eke",
}
# The calls from each phase to the next. Some people have not done their part yet, so that there is something to try.
STEPS = {
    "setup": [],
    "choosing": [
        (OFFICE, "POST", "/phase", {"phase": "choosing"}),
        ("student-ada-1", "PUT", "/choices", {"projects": ["pulsars", "rings"]}),
        ("student-ben-1", "PUT", "/choices", {"projects": ["pulsars", "comets"]}),
    ],
    "ranking": [
        ("student-cleo-1", "PUT", "/choices", {"projects": ["rings", "patterns"]}),
        ("student-dora-1", "PUT", "/choices", {"projects": ["patterns", "groups"]}),
        (OFFICE, "POST", "/phase", {"phase": "ranking"}),
        ("lecturer-noether-1", "PUT", "/ranking", {"students": ["cleo", "ada", "dora"]}),
    ],
    "published": [
        ("lecturer-bell-1", "PUT", "/ranking", {"students": ["ben", "ada"]}),
        (OFFICE, "POST", "/ranking/fill", {}),
        (OFFICE, "POST", "/phase", {"phase": "published"}),
    ],
    "choosing-2": [(OFFICE, "POST", "/phase", {"phase": "choosing", "round": 2})],
    "ranking-2": [
        ("student-emil-1", "PUT", "/choices", {"projects": ["comets"]}),
        (OFFICE, "POST", "/phase", {"phase": "ranking"}),
    ],
    "published-2": [
        ("lecturer-bell-1", "PUT", "/ranking", {"students": ["emil"]}),
        (OFFICE, "POST", "/phase", {"phase": "published"}),
    ],
}


def ask(port, code, method, path, body=None):
    """Returns the portal's reply, and raises an exception if it refuses."""
    request = urllib.request.Request(f"http://127.0.0.1:{port}{path}", body, {"Portal-Code": code, "Connection": "close"}, method=method)
    with urllib.request.urlopen(request) as reply:
        return json.load(reply)


def play(port, phase, folder):
    """Plays the year up to a phase, and writes projects.json and department.json to a folder."""
    for roll in ("lecturers", "projects", "students"):
        ask(port, OFFICE, "POST", f"/rolls/{roll}", (FILES / f"{roll}.csv").read_bytes())
    projects = {one["id"]: (one["title"], one["lecturer"], one["lecturer_name"]) for one in ask(port, OFFICE, "GET", "/catalogue")["projects"]}
    found = descriptions.described(FILES / "descriptions.csv")
    (folder / "projects.json").write_bytes(descriptions.page_file(found, projects))
    (folder / "department.json").write_bytes((FILES / "department.json").read_bytes())
    for step, calls in STEPS.items():
        for code, method, path, body in calls:
            ask(port, code, method, path, json.dumps(body).encode())
        if step == phase:
            return
