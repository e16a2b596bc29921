"""A year of the portal, of one round or of two, written plainly from docs/RULES.md and docs/FORMATS.md: what each call does to the world, what
is answered, and the rows of the tables that the world stands in."""
import collections

from asking import CONSTANTS, LIMITS, PHASES
from streams import MOST, call_of
from talk import Talk, read_call, refusal_bytes, reply_bytes, status_of

Round = collections.namedtuple("Round", "choices rankings result")


class Refused(Exception):
    """A call that is refused: the status, and what the body has beside the word."""

    def __init__(self, status, word, **more):
        super().__init__(word)
        self.status, self.body = status, {"error": word, **more}


def best(projects, lecturers, choices, rankings):
    """The students' best matching. A project has its lecturer and its places, a lecturer the places."""
    place = {key: {student: at for at, student in enumerate(listed)} for key, listed in rankings.items()}
    left = {student: list(listed) for student, listed in choices.items()}
    at, own = {key: [] for key in projects}, {}
    for key, (lecturer, _) in projects.items():
        own.setdefault(lecturer, []).append(key)
    found, free = {}, list(left)
    while free:
        student = free.pop()
        if not left[student]:
            continue
        project = found[student] = left[student].pop(0)
        lecturer, room = projects[project]
        at[project].append(student)
        crowd = at[project]
        if len(crowd) <= room:
            crowd, room = [one for key in own[lecturer] for one in at[key]], lecturers[lecturer]
        if len(crowd) > room:
            worst = max(crowd, key=lambda one: place[lecturer][one])
            at[found.pop(worst)].remove(worst)
            free.append(worst)
    return found


class Year:
    """The world, in plain dictionaries by key. Choices, rankings and result are those of the current round; in the second one `first` has those
    of the first, in the first one nothing."""

    def __init__(self, office):
        self.office, self.round, self.phase = office, 1, 0
        self.lecturers, self.projects, self.students = {}, {}, {}
        self.choices, self.rankings, self.result = {}, {}, {}
        self.first = Round({}, {}, {})

    # who is who

    def caller(self, code):
        """The role and the key of a code."""
        if code == self.office:
            return "office", ""
        for role, people in (("lecturer", self.lecturers), ("student", self.students)):
            for key, row in people.items():
                if row[1] == code:
                    return role, key
        raise Refused(403, "no_caller")

    def offers(self, lecturer):
        return sorted(key for key, row in self.projects.items() if row[0] == lecturer)

    def choosers(self, project):
        return sorted(key for key, listed in self.choices.items() if project in listed)

    def applicants(self, lecturer):
        return sorted({student for project in self.offers(lecturer) for student in self.choosers(project)})

    def still_to_rank(self):
        return [key for key in sorted(self.lecturers) if key not in self.rankings and self.applicants(key)]

    def people(self, students):
        return [{"key": key, "name": self.students[key][0]} for key in sorted(students)]

    # who and what takes part in the round

    def left(self):
        """The students whom no earlier round gave a project, by key."""
        return [key for key in sorted(self.students) if key not in self.first.result]

    def rooms(self):
        """How many students each lecturer can still take."""
        taken = collections.Counter(self.projects[project][0] for project in self.first.result.values())
        return {key: row[2] - taken[key] for key, row in self.lecturers.items()}

    def offered(self):
        """The projects with room whose lecturers have room: lecturer, title and the places that are left."""
        taken, rooms = collections.Counter(self.first.result.values()), self.rooms()
        found = {key: (lecturer, title, capacity - taken[key]) for key, (lecturer, title, capacity) in self.projects.items()}
        return {key: row for key, row in found.items() if row[2] > 0 and rooms[row[0]] > 0}

    def shown(self):
        """The projects of the results that are shown, by student."""
        return {**self.first.result, **self.result}

    def told_round(self):
        return {"round": 2} if self.round == 2 else {}

    # the calls

    def answer(self, code, call, given):
        """What a call of a code with what it was given is answered: a body for JSON, or a text."""
        role, key = self.caller(code)
        said = CONSTANTS["calls"][call]
        if role not in said["who"].split():
            raise Refused(403, "not_yours")
        if PHASES[self.phase] not in said["first" if self.round == 1 else "second"].split():
            raise Refused(409, "wrong_phase")
        return self.calls()[call](role, key, given)

    def calls(self):
        return {
            "Me": self.me,
            "Catalogue": self.catalogue,
            "ShowChoices": lambda role, key, given: {"projects": self.choices.get(key, [])},
            "SetChoices": self.set_choices,
            "Applicants": self.show_applicants,
            "ShowRanking": lambda role, key, given: {"students": self.rankings.get(key)},
            "SetRanking": self.set_ranking,
            "Result": self.show_result,
            "AddLecturers": lambda role, key, given: self.add("lecturers", given),
            "AddProjects": lambda role, key, given: self.add("projects", given),
            "AddStudents": lambda role, key, given: self.add("students", given),
            "Move": self.move,
            "FillRankings": self.fill,
            "Status": self.status,
            "Allocation": self.allocation,
            "AllocationCsv": self.allocation_csv,
            "Report": self.report,
        }

    def me(self, role, key, given):
        told = {"phase": PHASES[self.phase], "role": role} | self.told_round()
        if role == "lecturer":
            told |= {"key": key, "name": self.lecturers[key][0], "capacity": self.lecturers[key][2]}
        if role == "student":
            told |= {"key": key, "name": self.students[key][0]}
        return told

    def catalogue(self, role, key, given):
        return {"projects": [{"id": id, "title": title, "lecturer": lecturer, "lecturer_name": self.lecturers[lecturer][0], "capacity": capacity}
                             for id, (lecturer, title, capacity) in sorted(self.offered().items())]}

    def set_choices(self, role, key, given):
        if key in self.first.result:
            raise Refused(409, "already_placed")
        offered = self.offered()
        for at, project in enumerate(given, 1):
            fault = "too_long" if at == LIMITS["list"] + 1 else "unknown_project" if project not in offered else "repeated" if project in given[:at - 1] else None
            if fault:
                raise Refused(422, "bad_list", at=at, fault=fault)
        self.choices[key] = list(given)
        return {"projects": list(given)}

    def show_applicants(self, role, key, given):
        return {"projects": [{"id": id, "applicants": self.people(self.choosers(id))} for id in self.offers(key)]}

    def set_ranking(self, role, key, given):
        there = self.applicants(key)
        for at, student in enumerate(given, 1):
            fault = "not_an_applicant" if student not in there else "repeated" if student in given[:at - 1] else None
            if fault:
                raise Refused(422, "bad_list", at=at, fault=fault)
        if len(given) < len(there):
            raise Refused(422, "bad_list", at=0, fault="missing")
        self.rankings[key] = list(given)
        return {"students": list(given)}

    def show_result(self, role, key, given):
        shown = self.shown()
        if role == "student":
            return {"project": shown.get(key)}
        return {"projects": [{"id": id, "students": self.people([one for one in shown if shown[one] == id])} for id in self.offers(key)]}

    def add(self, kind, given):
        """Takes a roll, whole or not at all."""
        there = dict(getattr(self, kind))
        codes = {self.office, *(row[1] for people in (self.lecturers, self.students) for row in people.values())}
        same = 0
        for number, (key, *row) in enumerate(given, 1):
            row = tuple(row)
            if key in there and there[key] == row:
                same += 1
                continue
            if key in there or kind != "projects" and row[1] in codes:
                raise Refused(409, "roll_conflict", row=number)
            if kind == "projects" and row[0] not in self.lecturers:
                raise Refused(422, "bad_row", row=number)
            if len(there) == MOST[kind]:
                raise Refused(422, "roll_full")
            there[key] = row
            codes.add(row[1])
        setattr(self, kind, there)
        return {"added": len(given) - same, "same": same}

    def move(self, role, key, given):
        """To the next phase of the round, or to the current one; from published of the first round also to choosing of the second."""
        to, *named = given
        to, named = PHASES.index(to), int(named[0]) if named else self.round
        if (self.round, self.phase, named, to) == (1, 3, 2, 1):
            self.open_second()
        elif named != self.round or to not in (self.phase, self.phase + 1):
            raise Refused(409, "wrong_phase")
        if to == 3 and self.phase == 2:
            self.publish()
        self.phase = to
        return {"phase": PHASES[to]} | self.told_round()

    def open_second(self):
        self.first = Round(self.choices, self.rankings, self.result)
        self.round, self.choices, self.rankings, self.result = 2, {}, {}, {}

    def publish(self):
        if self.still_to_rank():
            raise Refused(409, "still_to_rank", lecturers=self.still_to_rank())
        offered = {id: (lecturer, places) for id, (lecturer, title, places) in self.offered().items()}
        self.result = best(offered, self.rooms(), self.choices, self.rankings)

    def fill(self, role, key, given):
        filled = self.still_to_rank()
        self.rankings |= {lecturer: self.applicants(lecturer) for lecturer in filled}
        return {"filled": filled}

    def has_result(self):
        return self.round == 2 or self.phase == 3

    def status(self, role, key, given):
        told = {"phase": PHASES[self.phase], "lecturers": len(self.lecturers), "projects": len(self.projects), "students": len(self.students),
                "still_to_rank": self.still_to_rank() if self.phase == 2 else [],
                "without_list": [one for one in self.left() if not self.choices.get(one)]}
        if self.has_result():
            shown = self.shown()
            told |= {"assigned": len(shown), "unassigned": [one for one in sorted(self.students) if one not in shown]}
        return told | self.told_round()

    def allocation(self, role, key, given):
        return {"pairs": [{"student": student, "project": project} for student, project in sorted(self.shown().items())]}

    def allocation_csv(self, role, key, given):
        out, shown = "student,name,project,title,lecturer\n", self.shown()
        for student, (name, _) in sorted(self.students.items()):
            project = shown.get(student)
            placed = [project, self.projects[project][1], self.projects[project][0]] if project else ["", "", ""]
            out += ",".join(quoted(field) for field in [student, name, *placed]) + "\n"
        return "text/csv; charset=utf-8", out

    def report(self, role="", key="", given=None):
        out, shown = "", self.shown()
        for student in sorted(self.students):
            project = shown.get(student)
            out += f"{student:<16}  " + (f"{project:<16}  {self.projects[project][0]}\n" if project else "(none)\n")
        out += "\n"
        for project, (_, _, capacity) in sorted(self.projects.items()):
            out += f"{project:<16}{list(shown.values()).count(project):>4} of {capacity:>4}\n"
        return "text/plain; charset=utf-8", out + f"\nassigned {len(shown)} of {len(self.students)}\n"

    def told(self):
        """What the command `report` prints."""
        status = self.status("", "", None)
        numbers = [("round", 2)] if self.round == 2 else []
        numbers += [("lecturers", status["lecturers"]), ("projects", status["projects"]), ("students", status["students"]),
                    ("without list", len(status["without_list"])), ("still to rank", len(status["still_to_rank"]))]
        if self.has_result():
            numbers.append(("assigned", status["assigned"]))
        out = f"{'phase':<16}{status['phase']}\n" + "".join(f"{label:<16}{number:>6}\n" for label, number in numbers)
        return out + ("\n" + self.report()[1] if self.has_result() else "")

    def state(self):
        """What `files.state` has to find of a file that holds this year."""
        return (self.told().encode(), 0), self.rows()

    def rows(self):
        """The rows of the eleven tables, as `files.rows` gives them."""
        now, none = Round(self.choices, self.rankings, self.result), Round({}, {}, {})
        first, second = (now, none) if self.round == 1 else (self.first, now)
        found = {
            "portal": [(1, 2, self.phase if self.round == 1 else 3, self.office)],
            "lecturer": [(key, *row, int(key in first.rankings)) for key, row in self.lecturers.items()],
            "project": [(key, *row) for key, row in self.projects.items()],
            "student": [(key, *row, first.result.get(key)) for key, row in self.students.items()],
            "choice": entries(first.choices),
            "ranking": entries(first.rankings),
            "second": [(1, self.phase if self.round == 2 else 0)],
            "choice2": entries(second.choices),
            "ranked2": [(key,) for key in second.rankings],
            "ranking2": entries(second.rankings),
            "assigned2": list(second.result.items()),
        }
        return {name: sorted(those, key=repr) for name, those in found.items()}

    # requests and replies

    def reply(self, asked, close=False):
        """The bytes that a request is answered with; it is a dictionary as `streams.frame` gives it."""
        head_only, said = asked["method"] == b"HEAD", call_of(asked)
        if said.startswith("!"):
            return refusal_bytes(said, head_only, close)
        code, call, given = read_call(said)
        try:
            return reply_bytes(200, self.answer(code, call, given), head_only, close)
        except Refused as refused:
            return reply_bytes(refused.status, refused.body, head_only, close)

    def talk(self, data):
        """The requests of a connection are played in turn: the bytes of each reply."""
        return Talk(self).hear(data, True)

    def replies(self, data):
        """The bytes that a connection is answered with, and the statuses."""
        told = list(self.talk(data))
        return b"".join(told), list(map(status_of, told))


def entries(lists):
    """The rows of a table of lists: owner, place and entry."""
    return [(owner, at, one) for owner, listed in lists.items() for at, one in enumerate(listed, 1)]


def quoted(field):
    return '"' + field.replace('"', '""') + '"' if any(byte in field for byte in ',"\r\n') else field
