"""The requests of a department at the limits in two rounds: those of the first, which leaves a quarter of the students without a project, and
those of the second, which are timed, each kind with the milliseconds that one of them may take, or None."""
from asking import FILL, LIMITS, OFFICE, SECOND, chosen, moved, ranked, request, roll, texts

LECTURERS, PROJECTS, CHOICES, FEW = LIMITS["lecturers"], LIMITS["projects"], LIMITS["list"], 40
# the projects that the last students all list, those that the others list, and those that nobody lists in the first round
CROWDED, LISTED, EMPTY = [*range(2, CHOICES + 1), 0], range(CHOICES + 1, 898), range(900, PROJECTS)
PLACES = 3
STUDENT, STAFF, PUBLICATION = 2, 60, 300


def own(kind, number):
    return b"%s-code-%04d" % (kind, number)


def left(students):
    """The numbers of the students whom the first round leaves: all lecturers order them by key, and the places of the crowded projects are those
    before them."""
    return range(students - students // 4, students)


def walk(number, shift, among, many):
    """So many distinct projects, for a number that is no multiple of their count, which is prime."""
    return [among[(number * 7 + shift + place * (2 * (number % 13) + 1)) % len(among)] for place in range(many)]


def listed(number, projects):
    return chosen(own(b"stud", number), texts(f"P{project:04}" for project in projects))


def first_round(students):
    """Everything up to the first result; the first two lecturers have one project each, and the others share the rest."""
    owners = [0, 1, *(2 + k % (LECTURERS - 2) for k in range(PROJECTS - 2))]
    crowd = left(students).start - PLACES * len(CROWDED)
    yield roll(b"lecturers", [b"L%04d,Lecturer %d,%s,20" % (k, k, own(b"lect", k)) for k in range(LECTURERS)])
    yield roll(b"projects", [b"P%04d,L%04d,Title %d,%d" % (k, owner, k, PLACES) for k, owner in enumerate(owners)])
    yield roll(b"students", [b"S%04d,Student %d,%s" % (k, k, own(b"stud", k)) for k in range(students)])
    yield moved(b"choosing")
    yield from (listed(k, walk(k, 3, LISTED, CHOICES) if k < crowd else CROWDED) for k in range(students))
    yield moved(b"ranking")
    yield FILL
    yield moved(b"published")


def second_list(number, shift, few):
    """A list over the projects that were empty: the last of them for everybody, the one before it for a few."""
    among = EMPTY[:97]
    return listed(number, walk(number, shift, among, CHOICES - 2) + [EMPTY[98] if few else EMPTY[97], EMPTY[99]])


def shown(phase, who, codes, paths, bound):
    """What is asked for in a phase: each path once by each code."""
    for path in paths:
        yield f"{phase}: GET {path.decode()} by {who}", bound, [request(b"GET", path, code) for code in codes]


def by_office(phase):
    """The first time after a change, and then again."""
    for path in (b"/status", b"/allocation", b"/allocation.csv"):
        yield from shown(phase, "the office, first", [OFFICE], [path], STAFF)
        yield from shown(phase, "the office", [OFFICE] * 10, [path], STAFF)


def by_students(phase, students):
    yield from shown(phase, "a student left", [own(b"stud", k) for k in left(students)[:40]], [b"/me", b"/choices", b"/catalogue", b"/result"], STUDENT)
    yield from shown(phase, "a student with a project", [own(b"stud", k) for k in range(40)], [b"/me", b"/choices", b"/result"], STUDENT)


def owner(project):
    return own(b"lect", 2 + (project - 2) % (LECTURERS - 2))


def by_lecturers(phase, students, paths):
    """By twenty lecturers, and what has applicants in it by the two with a few and with all of them."""
    yield from shown(phase, "a lecturer", [own(b"lect", k) for k in range(20)], [b"/me", b"/result", *paths], STAFF)
    for project, many in ((EMPTY[98], FEW), (EMPTY[99], len(left(students)))):
        yield from shown(phase, f"a lecturer with {many}", [owner(project)] * 5, paths, STAFF)


def choosing(students):
    """The opening, lists and what is shown."""
    them = left(students)
    yield "the opening", None, [moved(b"choosing", SECOND)]
    yield "PUT /choices, a first list", STUDENT, [second_list(k, 0, k in them[:FEW]) for k in them]
    yield "PUT /choices in place of another", STUDENT, [second_list(k, 50, k in them[:FEW]) for k in them[:100]]
    yield from by_students("choosing", students)
    yield from by_lecturers("choosing", students, [])
    yield from by_office("choosing")


def ranking(students):
    them = left(students)
    yield "the move to ranking", None, [moved(b"ranking")]
    yield from by_students("ranking", students)
    yield from by_lecturers("ranking", students, [b"/applicants", b"/ranking"])
    for project, those in ((EMPTY[98], them[:FEW]), (EMPTY[99], them)):
        yield f"PUT /ranking, {len(those)} students", STAFF, [ranked(owner(project), texts(f"S{k:04}" for k in reversed(those)))]
    yield from by_office("ranking")
    yield "the fill", None, [FILL]
    yield "the publication", PUBLICATION, [moved(b"published")]


def published(students):
    yield from by_students("published", students)
    yield from by_lecturers("published", students, [b"/applicants", b"/ranking"])
    yield from by_office("published")
