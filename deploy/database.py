"""What the tools ask and change in a database, or ask of a file of the office: `python3 database.py WHAT FILE`. More arguments come as a list on the
standard input, and the answer goes to the output, both in JSON. apart.py runs it without root's rights."""
import contextlib
import json
import sqlite3
import sys

from descriptions import described, projects_of
from instances import instance
from persons import person
from rows import Fault

SOMEBODY = "SELECT 1 FROM (SELECT code FROM lecturer UNION SELECT code FROM student UNION SELECT office FROM portal) WHERE code = ?"
PLACED = "(SELECT assigned AS project FROM student UNION ALL SELECT project FROM assigned2)"
RESULT = {
    "project": f"SELECT count(*) FROM {PLACED} WHERE project = ?",
    "lecturer": f"SELECT count(*) FROM {PLACED} AS placed JOIN project ON project.key = placed.project WHERE project.lecturer = ?",
}
OWN_PLACES = """SELECT lecturer.key, lecturer.capacity, sum(own.capacity) FROM project JOIN lecturer ON lecturer.key = project.lecturer
    JOIN project AS own ON own.lecturer = lecturer.key WHERE project.key = ?"""


def place(kind, key, field):
    """The table and the column of a value, and the column and the value that select its row."""
    if field != "code":
        return kind, field, "key", key
    return ("portal", "office", "id", 1) if kind == "office" else (kind, "code", "key", key)


def value_of(link, kind, key, field):
    """A value of somebody or something in an open database, or None where there is no such row."""
    table, column, where, row = place(kind, key, field)
    found = link.execute(f"SELECT {column} FROM {table} WHERE {where} = ?", (row,)).fetchone()
    return found and found[0]


def has_code(year):
    """Whether a database has views, triggers or virtual tables. The portal makes none, and to read or write them may take endless work."""
    with contextlib.closing(sqlite3.connect(year)) as link:
        try:
            return link.execute("SELECT count(*) FROM sqlite_master WHERE rootpage = 0 OR type NOT IN ('table', 'index')").fetchone()[0] > 0
        except sqlite3.DatabaseError:
            # What SQLite cannot read is told by the portal in its own words.
            return False


def settle(year):
    """Moves the contents of the write-ahead log into the database, which then stands alone."""
    with contextlib.closing(sqlite3.connect(year)) as link:
        # Reading comes first: it opens the log.
        link.execute("SELECT count(*) FROM sqlite_master").fetchone()
        link.execute("PRAGMA wal_checkpoint(TRUNCATE)").fetchone()


def codes(year, people):
    """The codes of people, each named by a kind and a key."""
    with contextlib.closing(sqlite3.connect(year)) as link:
        return [value_of(link, kind, key, "code") for kind, key in people]


def change(year, kind, key, field, value):
    """Changes one value in one transaction. Returns the one before, and why nothing was changed."""
    table, column, where, row = place(kind, key, field)
    with contextlib.closing(sqlite3.connect(year)) as link, link:
        before = value_of(link, kind, key, field)
        if before is None:
            return None, f"there is no {kind} {key}"
        if field == "code" and link.execute(SOMEBODY, (value,)).fetchone():
            return before, "somebody has this code"
        if before == value:
            return before, f"the {field} of {kind} {key} is this already"
        if field == "capacity" and (placed := link.execute(RESULT[kind], (key,)).fetchone()[0]) > value:
            return before, f"the published result gives {kind} {key} more: {placed}"
        link.execute(f"UPDATE {table} SET {column} = ? WHERE {where} = ?", (value, row))
    return before, None


def own_places(year, project):
    """A project's lecturer, that one's capacity, and the places of all own projects."""
    with contextlib.closing(sqlite3.connect(year)) as link:
        return link.execute(OWN_PLACES, (project,)).fetchone()


if __name__ == "__main__":
    actions = {one.__name__: one for one in (has_code, settle, codes, change, own_places, projects_of, described, person, instance)}
    what, year = sys.argv[1:]
    try:
        print(json.dumps(actions[what](year, *json.load(sys.stdin))))
    except sqlite3.Error as fault:
        print(fault)
        sys.exit(1)
    except Fault as fault:
        print(fault)
        sys.exit(2)
