"""What `check` and `solve` tell of an instance file, written plainly from docs/RULES.md and docs/FORMATS.md."""
import csv
import io

from asking import LIMITS
from streams import DIGITS, KEY
from year import best

MOST = {"L": LIMITS["lecturers"], "P": LIMITS["projects"], "S": LIMITS["students"], "M": LIMITS["students"]}


class Refused(Exception):
    """A file that is refused: the line that is printed."""


def refuse(word, row=None, column=None):
    raise Refused("refused " + word + (f" row {row}" if row else "") + (f" column {column}" if column else ""))


def is_text(field):
    try:
        return field.decode("utf-8") is not None
    except UnicodeDecodeError:
        return False


def bad_column(kind, value, listed):
    """The leftmost field that has not its form; 0 where each has it."""
    if kind not in (b"L", b"P", b"S", b"M"):
        return 1
    if kind in (b"L", b"P") and not DIGITS.match(value) or kind == b"S" and value:
        return 3
    return 4 if kind == b"M" and listed else 0


def read(data):
    """The rows of the file, each with its number, kind, key, value and list."""
    if len(data) > LIMITS["file_bytes"]:
        refuse("too_large")
    text = data.removeprefix(b"\xef\xbb\xbf").decode("latin-1")
    records = [[field.encode("latin-1") for field in one] for one in csv.reader(io.StringIO(text, newline="")) if one]
    if not records:
        refuse("no_header")
    if records[0] != [b"kind", b"key", b"value", b"list"]:
        refuse("bad_header")
    for row, fields in enumerate(records[1:], 1):
        if row > sum(MOST.values()):
            refuse("too_many_rows")
        if len(fields) != 4:
            refuse("field_count", row)
        if not all(map(is_text, fields)):
            refuse("not_text", row)
        kind, key, value, listed = fields
        if bad_column(kind, value, listed):
            refuse("bad_field", row, bad_column(kind, value, listed))
        yield row, kind.decode(), key, value, listed if kind == b"P" else listed.split(b" ") if listed else []


def first(word, rows):
    """Refuses for the least of these rows, if there is one."""
    found = min(rows, default=None)
    if found:
        refuse(word, found)


class Instance:
    """The lecturers, projects and students of a file, by key, and its pairs."""

    def __init__(self, rows):
        of = {kind: [one for one in rows if one[1] == kind] for kind in "LPSM"}
        self.look(of)
        self.lecturers = {key: int(value) for _, _, key, value, _ in of["L"]}
        self.rankings = {key: listed for _, _, key, _, listed in of["L"]}
        self.projects = {key: (lecturer, int(value)) for _, _, key, value, lecturer in of["P"]}
        self.choices = {key: listed for _, _, key, _, listed in of["S"]}
        self.look_at_lists(of)
        self.pairs = {}
        self.look_at_pairs(of["M"])

    @staticmethod
    def look(of):
        """The faults of single rows, in the order in which they are told."""
        if any(len(of[kind]) > most for kind, most in MOST.items() if kind != "M"):
            refuse("too_many")
        own = of["L"] + of["P"] + of["S"]
        first("bad_key", [row for row, _, key, _, _ in own if not KEY.match(key)])
        keys, twice = set(), []
        for row, kind, key, _, _ in own:
            twice += [row] if (kind, key) in keys else []
            keys.add((kind, key))
        first("key_twice", twice)
        first("bad_capacity", [row for row, _, _, value, _ in of["L"] + of["P"] if not LIMITS["smallest_capacity"] <= int(value) <= LIMITS["largest_capacity"]])
        first("no_such_lecturer", [row for row, _, _, _, lecturer in of["P"] if ("L", lecturer) not in keys])
        first("no_such_project", [row for row, _, _, _, listed in of["S"] if any(("P", key) not in keys for key in listed)])
        first("repeat_in_list", [row for row, _, _, _, listed in of["S"] + of["L"] if len(set(listed)) < len(listed)])
        first("list_too_long", [row for row, _, _, _, listed in of["S"] if len(listed) > LIMITS["list"]])

    def applicants(self, lecturer):
        return {key for key, listed in self.choices.items() if any(self.projects[project][0] == lecturer for project in listed)}

    def look_at_lists(self, of):
        first("not_applicant", [row for row, _, key, _, listed in of["L"] if not set(listed) <= self.applicants(key)])
        first("applicant_missing", [row for row, _, key, _, listed in of["L"] if not self.applicants(key) <= set(listed)])

    def look_at_pairs(self, rows):
        """The faults of the matching, in the order in which they are told."""
        first("pair_no_student", [row for row, _, key, _, _ in rows if key not in self.choices])
        first("pair_no_project", [row for row, _, _, project, _ in rows if project not in self.projects])
        first("pair_not_acceptable", [row for row, _, key, project, _ in rows if project not in self.choices[key]])
        over = {"project_over": [], "lecturer_over": [], "student_twice": []}
        for row, _, key, project, _ in rows:
            if key in self.pairs:
                over["student_twice"].append(row)
            self.pairs[key] = project
            if len(self.at(project)) > self.projects[project][1]:
                over["project_over"].append(row)
            lecturer = self.projects[project][0]
            if len(self.of(lecturer)) > self.lecturers[lecturer]:
                over["lecturer_over"].append(row)
        for word in ("student_twice", "project_over", "lecturer_over"):
            first(word, over[word])

    def at(self, project):
        return [student for student, own in self.pairs.items() if own == project]

    def of(self, lecturer):
        return [student for student, own in self.pairs.items() if self.projects[own][0] == lecturer]

    def letter(self, student, project):
        """By which case this pair blocks the matching; None where it does not."""
        lecturer, room = self.projects[project]
        place = self.rankings[lecturer].index
        is_after = lambda others: any(place(other) > place(student) for other in others)  # noqa: E731
        if len(self.at(project)) == room:
            return "c" if is_after(self.at(project)) else None
        if len(self.of(lecturer)) < self.lecturers[lecturer]:
            return "a"
        return "b" if student in self.of(lecturer) or is_after(self.of(lecturer)) else None

    def blocks(self):
        """The pairs that block the matching, by student and then by project, each with its letter."""
        for student in sorted(self.choices):
            listed = self.choices[student]
            wanted = listed[:listed.index(self.pairs[student])] if student in self.pairs else listed
            for project in sorted(wanted):
                letter = self.letter(student, project)
                if letter:
                    yield f"block {student.decode()} {project.decode()} {letter}"


def told(command, data):
    """What the command prints of these bytes, and its status."""
    try:
        instance = Instance(list(read(data)))
    except Refused as why:
        return f"{why}\n".encode(), 2
    if command == "check":
        blocks = list(instance.blocks())
        return "\n".join([*blocks, f"blocking {len(blocks)}\n"]).encode(), 1 if blocks else 0
    found = best(instance.projects, instance.lecturers, instance.choices, instance.rankings)
    lines = [f"assign {key.decode()} {found[key].decode()}" if key in found else f"none {key.decode()}" for key in sorted(instance.choices)]
    return "\n".join([*lines, f"assigned {len(found)} unassigned {len(lines) - len(found)}\n"]).encode(), 0
