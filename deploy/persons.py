"""What a year holds of one person, in lines for whoever asks what is stored: the row, and of both rounds lists, rankings and results. No code is
told, and of another person no place in a ranking but in the lecturer's own."""
import contextlib
import sqlite3

# The tables of each round: lists, rankings, who has one, and who has which project.
ROUNDS = {
    "first round": {"choice": "choice", "ranking": "ranking", "ranked": "SELECT key AS lecturer FROM lecturer WHERE ranked = 1",
                    "placed": "SELECT key AS student, assigned AS project FROM student WHERE assigned IS NOT NULL"},
    "second round": {"choice": "choice2", "ranking": "ranking2", "ranked": "SELECT lecturer FROM ranked2",
                     "placed": "SELECT student, project FROM assigned2"},
}
OFFERED = "project.key, title, lecturer.key, name FROM project JOIN lecturer ON lecturer.key = project.lecturer"
CHOSEN = f"SELECT {OFFERED} JOIN {{choice}} AS chosen ON chosen.project = project.key WHERE student = ? ORDER BY place"
GIVEN = f"SELECT {OFFERED} JOIN ({{placed}}) AS placed ON placed.project = project.key WHERE student = ?"
STANDS = """SELECT lecturer.key, name, place, (SELECT count(*) FROM {ranking} AS own WHERE own.lecturer = lecturer.key)
    FROM {ranking} AS ranked JOIN lecturer ON lecturer.key = ranked.lecturer WHERE student = ? ORDER BY lecturer.key"""
RANKED = "SELECT student.key, name FROM {ranking} AS ranked JOIN student ON student.key = ranked.student WHERE lecturer = ? ORDER BY place"
HAS_RANKED = "SELECT 1 FROM ({ranked}) WHERE lecturer = ?"
TAKES = """SELECT student.key, name, project.key, title FROM ({placed}) AS placed JOIN student ON student.key = placed.student
    JOIN project ON project.key = placed.project WHERE lecturer = ? ORDER BY student.key"""


def titled(key, title, lecturer, name):
    """A project in words."""
    return f"{key} ({title}), offered by {lecturer} ({name})"


def numbered(rows, none):
    return [f"    {place}. {row}" for place, row in enumerate(rows, 1)] or [f"    {none}"]


def of_student(ask, key):
    """What a round has of a student."""
    given = [titled(*row) for row in ask(GIVEN, key)]
    stands = [f"    {lecturer} ({name}): position {place} of {count}" for lecturer, name, place, count in ask(STANDS, key)]
    return ["  the list, best first:", *numbered((titled(*row) for row in ask(CHOSEN, key)), "it is empty"),
            "  in rankings:", *(stands or ["    in none"]), f"  result: {given[0] if given else 'no project in this round'}"]


def of_lecturer(ask, key):
    """What a round has of a lecturer."""
    none = "it has nobody" if ask(HAS_RANKED, key) else "none is stored"
    takes = [f"    {student} ({name}) with {project} ({title})" for student, name, project, title in ask(TAKES, key)]
    return ["  the ranking, best first:", *numbered((f"{student} ({name})" for student, name in ask(RANKED, key)), none),
            "  result:", *(takes or ["    no students in this round"])]


def row_of(link, kind, key):
    """The lines of a person's own row, and of a lecturer's projects; none where there is no such row."""
    columns = "name" if kind == "student" else "name, capacity"
    row = link.execute(f"SELECT {columns} FROM {kind} WHERE key = ?", (key,)).fetchone()
    if row is None:
        return []
    own = link.execute("SELECT key, title, capacity FROM project WHERE lecturer = ? ORDER BY key", (key,)) if kind == "lecturer" else []
    return [f"{kind} {key}", f"name: {row[0]}", *(f"takes at most: {capacity}" for capacity in row[1:]),
            *(f"project: {project} ({title}), places: {places}" for project, title, places in own)]


def person(year, kind, key):
    """All that is stored of a student or a lecturer but the code, in lines; none where the key is nobody's."""
    with contextlib.closing(sqlite3.connect(year)) as link:
        lines = row_of(link, kind, key)
        if not lines:
            return []
        has_second = link.execute("SELECT phase FROM second").fetchone()[0] > 0
        for name, tables in ROUNDS.items():
            if name == "first round" or has_second:
                def ask(query, who, tables=tables):
                    return link.execute(query.format(**tables), (who,)).fetchall()
                lines += [name, *(of_student if kind == "student" else of_lecturer)(ask, key)]
    return lines
