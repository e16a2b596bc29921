"""Whether the rows of the eleven tables stand for a good world, and for which, judged plainly by docs/FORMATS.md and docs/RULES.md."""
from asking import LIMITS
from instances import told
from streams import CODE, KEY, MOST, is_name
from year import Round, Year


class Damaged(Exception):
    """Why the rows stand for no good world."""


def need(is_so, why):
    if not is_so:
        raise Damaged(why)


def is_key(text):
    return KEY.match(text.encode()) is not None


def is_code(text):
    return CODE.match(text.encode()) is not None


def lists_of(rows):
    """The lists whose rows these are: places 1 to n, without a gap."""
    found = {}
    for owner, place, entry in sorted(rows):
        found.setdefault(owner, []).append(entry)
        need(place == len(found[owner]), "a place is missing")
    return found


def rolls_of(rows):
    """A year that has these rolls and nothing else, in published."""
    need(len(rows["portal"]) == 1, "no row of the office")
    _, _, phase, office = rows["portal"][0]
    year = Year(office)
    need(phase in (0, 1, 2, 3), "no phase")
    year.phase = phase
    year.lecturers = {key: (name, code, capacity) for key, name, code, capacity, _ in rows["lecturer"]}
    year.projects = {key: (lecturer, title, capacity) for key, lecturer, title, capacity in rows["project"]}
    year.students = {key: (name, code) for key, name, code, _ in rows["student"]}
    people = [*year.lecturers.items(), *year.students.items()]
    need(all(is_key(key) and is_name(row[0].encode()) and is_code(row[1]) for key, row in people), "a person's form")
    need(all(is_key(key) and is_name(row[1].encode()) and row[0] in year.lecturers for key, row in year.projects.items()), "a project's form")
    need(all(LIMITS["smallest_capacity"] <= row[2] <= LIMITS["largest_capacity"] for row in [*year.lecturers.values(), *year.projects.values()]), "a capacity")
    codes = [office, *(row[1] for _, row in people)]
    need(is_code(office) and len(set(codes)) == len(codes), "a code")
    need(all(len(getattr(year, kind)) <= most for kind, most in MOST.items()), "a roll is too long")
    return year


def look_at_round(year):
    """Looks at lists, rankings and result of the current round."""
    offered, left = year.offered(), year.left()
    for student, listed in year.choices.items():
        need(student in left and year.phase > 0, "a list of somebody who makes none, or before choosing")
        need(len(listed) <= LIMITS["list"] and len(set(listed)) == len(listed) and set(listed) <= set(offered), "a list")
    for lecturer, ranking in year.rankings.items():
        need(lecturer in year.lecturers and year.phase > 1, "a ranking before its time")
        need(sorted(ranking) == year.applicants(lecturer), "a ranking")
    if year.phase < 3:
        return need(not year.result, "a result before its time")
    need(not year.still_to_rank(), "somebody is still to rank")
    need(is_stable(year, offered, left), "the result is no stable matching")


def is_stable(year, offered, left):
    """Whether the result is a stable matching of the round's instance; `portal check` is asked, as plain as the rest."""
    lines = ["kind,key,value,list"]
    lines += [f"L,{key},{room},{' '.join(year.rankings.get(key, []))}" for key, room in year.rooms().items() if room > 0]
    lines += [f"P,{key},{places},{lecturer}" for key, (lecturer, _, places) in offered.items()]
    lines += [f"S,{key},,{' '.join(year.choices.get(key, []))}" for key in left]
    lines += [f"M,{student},{project}," for student, project in year.result.items()]
    return told("check", "\n".join(lines).encode()) == (b"blocking 0\n", 0)


def year_of(rows):
    """The year that the rows stand for; a `Damaged` where there is none."""
    year = rolls_of(rows)
    ranked = {row[0] for row in rows["lecturer"] if row[4] == 1}
    listed = lists_of(rows["ranking"])
    need(set(listed) <= ranked, "a ranking that is not there")
    year.choices, year.rankings = lists_of(rows["choice"]), {key: listed.get(key, []) for key in ranked}
    year.result = {key: assigned for key, _, _, assigned in rows["student"] if assigned is not None}
    look_at_round(year)
    need(len(rows["second"]) == 1 and rows["second"][0][1] in (0, 1, 2, 3), "no row of the second round")
    phase, ranked, listed = rows["second"][0][1], {row[0] for row in rows["ranked2"]}, lists_of(rows["ranking2"])
    if phase == 0:
        need(not any(rows[name] for name in ("choice2", "ranked2", "ranking2", "assigned2")), "rows of no second round")
        return year
    need(year.phase == 3, "a second round before the first is published")
    need(set(listed) <= ranked, "a ranking that is not there")
    year.first, year.round, year.phase = Round(year.choices, year.rankings, year.result), 2, phase
    year.choices, year.rankings = lists_of(rows["choice2"]), {key: listed.get(key, []) for key in ranked}
    year.result = dict(rows["assigned2"])
    look_at_round(year)
    return year
