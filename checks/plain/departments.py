"""Random years of small departments, in one round or in two: requests that are made from the world as it stands, legal ones and others."""
from asking import FILL, LIMITS, OFFICE, PHASES, SECOND, chosen, moved, ranked, request, roll, texts

OWN = {
    "office": [b"/me", b"/catalogue", b"/status", b"/allocation", b"/allocation.csv", b"/report"],
    "lecturer": [b"/me", b"/catalogue", b"/applicants", b"/ranking", b"/result"],
    "student": [b"/me", b"/catalogue", b"/choices", b"/result"],
}
ROUNDS = [b"", b"", b',"round":1', b',"round":3', b',"round":2.0', b',"round":true', SECOND, SECOND, SECOND]


class Department:
    """Who there will be, and what they may ask in a year."""

    def __init__(self, chance, year):
        self.chance, self.year = chance, year
        lecturers, projects, students = chance.randint(1, 5), chance.randint(1, 9), chance.randint(1, 18)
        self.rolls = {
            b"lecturers": [b"L%d,Lecturer %d,lect-code-%d,%d" % (n, n, n, chance.choice([1, 2, 3, 5, 9])) for n in range(lecturers)],
            b"projects": [b"P%d,L%d,Title %d,%d" % (n, chance.randrange(lecturers), n, chance.choice([1, 1, 1, 2, 4])) for n in range(projects)],
            b"students": [b'S%d,"Student, %d",stud-code-%d' % (n, n, n) for n in range(students)],
        }
        self.takes_part = chance.choice([0.3, 0.6, 1])  # how many hand in a list in the first round
        self.favourites = chance.choice([1, 3, 9])  # among how many projects they choose

    # what is asked

    def people(self):
        """Each role and code of the year as it stands."""
        found = [("office", OFFICE)]
        for role, rows in (("lecturer", self.year.lecturers), ("student", self.year.students)):
            found += [(role, row[1].encode()) for row in rows.values()]
        return found

    def shown(self):
        """All that anybody may be shown."""
        return [request(b"GET", path, code) for role, code in self.people() for path in OWN[role]]

    # what may be amiss

    def spoiled(self, keys, known):
        """A list of keys with something amiss, or with nothing."""
        keys = list(keys)
        for _ in range(self.chance.choice([0, 1, 1, 2])):
            what = self.chance.choice(["unknown", "known", "twice", "fewer", "long"])
            at = self.chance.randint(0, len(keys))
            if what == "unknown":
                keys.insert(at, self.chance.choice(["P99", "S99", "", "a b"]))
            elif what == "known" and known:
                keys.insert(at, self.chance.choice(known))
            elif what == "twice" and keys:
                keys.insert(at, self.chance.choice(keys))
            elif what == "fewer" and keys:
                keys.pop()
            elif what == "long" and known and self.chance.random() < 0.3:
                keys += self.chance.choices(known, k=LIMITS["list"] + 1)
        return keys

    def odd(self):
        """A request that is likely refused: at another time, by somebody else, or with something amiss."""
        chance, year = self.chance, self.year
        role, code = chance.choice(self.people() + [("nobody", b"nobody-code")])
        what = chance.choice(["move", "roll", "fill", "list", "ranking", "look"])
        if what == "move":
            later = [phase for phase in PHASES if PHASES.index(phase) != year.phase + 1]  # the next step comes in its time
            return moved(chance.choice(later).encode(), chance.choice(ROUNDS[:-3] if year.phase == 3 and year.round == 1 else ROUNDS))
        if what == "roll":
            kind = chance.choice(list(self.rolls))
            rows = self.rolls[kind] + [chance.choice([b"L0,Other,lect-code-0,1", b"P99,L99,None,1", b"S0,Ann,office-code-0", b"x"])]
            return roll(kind, chance.sample(rows, chance.randint(1, len(rows))))
        if what == "fill":
            return FILL
        if what == "list":
            code = chance.choice([code.decode(), *(row[1] for row in year.students.values())])
            return chosen(code.encode(), texts(self.spoiled(self.wish(), sorted(year.projects))))
        if what == "ranking":
            key, code = chance.choice([("L0", code.decode()), *((key, row[1]) for key, row in year.lecturers.items())])
            return ranked(code.encode(), texts(self.spoiled(self.order(key), sorted(year.students))))
        return request(chance.choice([b"GET", b"HEAD"]), chance.choice(chance.choice(list(OWN.values()))), code)

    def wish(self):
        """Some projects of the round, in some order."""
        offered = sorted(self.year.offered())[:self.favourites if self.year.round == 1 else None]
        return self.chance.sample(offered, self.chance.randint(0, min(len(offered), LIMITS["list"])))

    def order(self, lecturer):
        """The lecturer's applicants, in some order."""
        students = self.year.applicants(lecturer)
        self.chance.shuffle(students)
        return students

    # a year

    def requests(self, second):
        """The requests of a year in turn; each is made from the world that is there by then. `second`: whether there is a second round."""
        for one in self.steps(second):
            while self.chance.random() < 0.3:
                yield self.odd()
            yield one

    def steps(self, second):
        yield from self.enrol(self.chance.random() < 0.7)
        yield moved(b"choosing")
        yield from self.enrol(True)
        yield from self.round(self.takes_part)
        if second:
            yield moved(b"choosing", SECOND)
            yield from self.round(0.9)

    def enrol(self, whole):
        for kind, rows in self.rolls.items():
            yield roll(kind, rows if whole else rows[:self.chance.randint(1, len(rows))])

    def round(self, takes_part):
        chance, year = self.chance, self.year
        for student in year.left():
            if chance.random() < takes_part:
                yield chosen(year.students[student][1].encode(), texts(self.wish()))
        yield from chance.sample(self.shown(), min(20, len(self.shown())))
        yield moved(b"ranking")
        for lecturer in sorted(year.lecturers):
            if chance.random() < 0.8:
                yield ranked(year.lecturers[lecturer][1].encode(), texts(self.order(lecturer)))
        yield from chance.sample(self.shown(), min(10, len(self.shown())))
        yield moved(b"published")
        if year.phase == 2:
            yield FILL
            yield moved(b"published")
        yield from self.shown()
