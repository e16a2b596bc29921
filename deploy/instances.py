"""A published round of a year as an instance file (FORMATS.md) for `portal check`: keys, capacities, lists, rankings and the result, no names and no
codes."""
import contextlib
import sqlite3

PHASES = {1: "SELECT phase FROM portal", 2: "SELECT phase FROM second"}
TABLES = {1: ("choice", "ranking", "(SELECT key AS student, assigned AS project FROM student WHERE assigned IS NOT NULL)"),
          2: ("choice2", "ranking2", "assigned2")}
PUBLISHED = 3


def listed(link, table, owner, entry):
    """The entries of each owner, best first."""
    found = {}
    for one, other in link.execute(f"SELECT {owner}, {entry} FROM {table} ORDER BY {owner}, place"):
        found.setdefault(one, []).append(other)
    return found


def in_play(link, number):
    """Who takes part, with the room that is left: lecturers, projects with their lecturers, and students."""
    lecturers = dict(link.execute("SELECT key, capacity FROM lecturer"))
    projects = {key: (lecturer, capacity) for key, lecturer, capacity in link.execute("SELECT key, lecturer, capacity FROM project")}
    students = dict(link.execute("SELECT key, assigned FROM student"))
    if number == 1:
        return lecturers, projects, list(students)
    for project in filter(None, students.values()):
        lecturer, capacity = projects[project]
        projects[project] = lecturer, capacity - 1
        lecturers[lecturer] -= 1
    left = {key: room for key, room in lecturers.items() if room > 0}
    return left, {key: one for key, one in projects.items() if one[1] > 0 and one[0] in left}, [key for key, one in students.items() if one is None]


def instance(year, number):
    """The rows of the file; none where the round is not published."""
    with contextlib.closing(sqlite3.connect(year)) as link:
        if link.execute(PHASES[number]).fetchone()[0] != PUBLISHED:
            return []
        choice, ranking, placed = TABLES[number]
        lecturers, projects, students = in_play(link, number)
        lists, rankings = listed(link, choice, "student", "project"), listed(link, ranking, "lecturer", "student")
        return [["kind", "key", "value", "list"],
                *(["L", key, str(room), " ".join(rankings.get(key, []))] for key, room in sorted(lecturers.items())),
                *(["P", key, str(room), lecturer] for key, (lecturer, room) in sorted(projects.items())),
                *(["S", key, "", " ".join(lists.get(key, []))] for key in sorted(students)),
                *(["M", student, project, ""] for student, project in link.execute(f"SELECT student, project FROM {placed} ORDER BY student"))]
