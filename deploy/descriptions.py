"""The descriptions of the projects: a CSV file of the office is compared with the year and becomes projects.json."""
import json
import re
import sqlite3

from rows import Fault, read

HEADER = ["id", "title", "lecturer", "description", "link"]
LONGEST = 4000
LINK = re.compile(r'https://[\w.-]+(:\d+)?([/?#][^\s"<>\\]*)?')
CONTROL = re.compile(r"[\x00-\x08\x0b-\x1f\x7f]")


def described(path):
    """Reads a file of descriptions: its rows by the project's key."""
    header, rows = read(path)
    if header != HEADER:
        raise Fault(f"the header is not {','.join(HEADER)}")
    found = {}
    for row, (key, title, lecturer, description, link) in enumerate(rows, 1):
        description = description.replace("\r\n", "\n")
        if key in found:
            raise Fault(f"row {row}: {key} is described twice")
        if len(description) > LONGEST:
            raise Fault(f"row {row}: the description has {len(description)} characters, more than {LONGEST}")
        if CONTROL.search(description):
            raise Fault(f"row {row}: the description is no plain text")
        if link and not LINK.fullmatch(link):
            raise Fault(f"row {row}: the link is no https address")
        found[key] = row, title, lecturer, description, link
    return found


def projects_of(year):
    """Each project of a year: its title, its lecturer and the lecturer's name, by its key. No list and no ranking is read."""
    link = sqlite3.connect(year)
    try:
        return {key: (title, lecturer, name) for key, title, lecturer, name in link.execute(
            "SELECT project.key, title, lecturer, name FROM project JOIN lecturer ON lecturer.key = project.lecturer")}
    finally:
        link.close()


def page_file(found, projects):
    """The bytes of projects.json: each project of the year, with its description where it has one."""
    for key, (row, title, lecturer, *_) in found.items():
        if key not in projects:
            raise Fault(f"row {row}: the year has no project {key}")
        if title != projects[key][0]:
            raise Fault(f"row {row}: the title of {key} is {projects[key][0]}")
        if lecturer != projects[key][1]:
            raise Fault(f"row {row}: the lecturer of {key} is {projects[key][1]}")
    listed = []
    for key, (title, lecturer, name) in sorted(projects.items()):
        *_, description, link = found.get(key, ("", ""))
        listed.append({"id": key, "title": title, "lecturer": lecturer, "lecturer_name": name, "description": description, "link": link})
    return json.dumps({"projects": listed}, ensure_ascii=False, separators=(",", ":")).encode()
