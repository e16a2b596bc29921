#!/usr/bin/env python3
"""A department of 200 students, 80 projects and 30 lecturers, the same each time. In its first round 26 lecturers become full, and 7 places
are left for 90 students; many projects of full lecturers still have room.

    examples/large.py FOLDER     writes lecturers.csv, projects.csv, students.csv and descriptions.csv

As a module: `Large().play(do, office, phase, round)` plays a year up to a phase. `office` is the office's code. `do(code, method, path, body)`
asks the portal: it answers the reply's JSON, and raises an exception for a refusal; it sends a body of bytes as it is, any other one as JSON."""
import csv
import io
import random
import sys
from pathlib import Path

STUDENTS, PROJECTS, LECTURERS = 200, 80, 30
# The last lecturers are those whom few students choose. Together they take 13 students, and all others 104.
UNPOPULAR, TAKEN_THERE, TAKEN = 4, 13, 104
WITHOUT_LIST = 12
# Each phase with its round, in their order.
STEPS = [(phase, 1) for phase in ("setup", "choosing", "ranking", "published")] + [(phase, 2) for phase in ("choosing", "ranking", "published")]

FIRST = """Ada Aisha Ákos Alejandra Amélie Andrzej Ángel Anneliese Ayşe Beatriz Björn Brigitte Chidi Chloë Ciarán Dagný Dmitri Đorđe Eleni Émile
Fatima François Gülşen Hannah Håkon Inês Iris Jürgen José Jonas Kofi Krzysztof Laila Lucía Łukasz Mai Márton Mehmet Mia Miriam Naïma Nguyên
Niamh Nils Noor Olena Øyvind Paula Pelle Priya Quentin Rahel René Rosa Sakura Siân Sofia Søren Tamar Tomáš Uwe Vera Wei Yusuf Zoë Žofia""".split()
LAST = """Müller Müller Müller Smith Smith Garcia García Nguyen Nguyễn Okafor Østergaard Åberg Çelik Díaz Đukić Ferreira Fröhlich González Haddad
Ivanova Jóhannsdóttir Kaya Kowalska Kovács Lefèvre Li Lindqvist Meier Meyer Mbeki Novák Novák O’Brien Papadopoulou Petrović Quispe Rossi
Sánchez Schäfer Šimek Tanaka Takahashi Ümit Vogel Wójcik Xu Yılmaz Zhang Zimmermann-Okonkwo""".split()
RIGHT_TO_LEFT = ["נועה כהן", "יואב לוי", "תמר בן־דוד", "שירה מזרחי", "شيماء الحسن", "يوسف حداد", "زهرا احمدی", "أمل منصور"]
METHODS = ["Modelling", "Bounds on", "Simulating", "Measuring", "A survey of", "Learning", "Verifying", "Visualising", "Teaching", "Compressing", "Estimating",
           "Mapping", "Searching"]
MATTERS = ["tides in narrow bays", "graph neural networks", "bird song", "prime gaps", "traffic at crossings", "old sky surveys", "protein folds",
           "sparse matrices", "radio noise", "rental bicycles", "glacier images", "voting rules", "hash tables", "crystal growth", "city heat",
           "random walks", "wind farms", "sorting networks", "speech in crowds", "plane curves", "library loans", "quantum walks"]
DESCRIPTION = "You work on {matter}, alone or in a pair. You need some patience and a first course in statistics.\n\nThe first three weeks are for reading; ask me for the list."
# Letters and digits that look like no other ones.
SIGNS = "abcdefghjkmnpqrstuvwxyz23456789"
HEADERS = {
    "lecturers": ("id", "name", "code", "capacity"),
    "projects": ("id", "lecturer", "title", "capacity"),
    "students": ("id", "name", "code"),
    "descriptions": ("id", "title", "lecturer", "description", "link"),
}


class Large:
    """The department's rows by file, and the student's lists of the first round by the student's key."""

    def __init__(self):
        self.chance = random.Random(77)
        names = self.names()
        takes = self.takes()
        self.lecturers = [{"id": f"l{n + 1:02}", "name": names.pop(), "code": self.code(), "capacity": take} for n, take in enumerate(takes)]
        self.projects = self.made_projects()
        keys = sorted(self.chance.sample(range(2310100, 2310999), STUDENTS))
        self.students = [{"id": f"s{key}", "name": names.pop(), "code": self.code()} for key in keys]
        self.lists = self.made_lists()
        titles = {one["id"]: one["title"] for one in self.projects}
        self.descriptions = [{"id": one["id"], "title": titles[one["id"]], "lecturer": one["lecturer"],
                              "description": DESCRIPTION.format(matter=self.matters[one["id"]]), "link": ""} for one in self.projects if one["id"] < "p061"]

    def names(self):
        """Different names, some of them with the same surname."""
        found = dict.fromkeys(RIGHT_TO_LEFT)
        while len(found) < LECTURERS + STUDENTS:
            found[f"{self.chance.choice(FIRST)} {self.chance.choice(LAST)}"] = None
        return self.shuffled(found)

    def code(self):
        return "-".join("".join(self.chance.choices(SIGNS, k=4)) for _ in range(4))

    def shuffled(self, all_):
        return self.chance.sample(list(all_), len(all_))

    def takes(self):
        """How many students each lecturer takes."""
        def parts(whole, count):
            each = [whole // count] * count
            for at in range(whole % count):
                each[at] += 1
            return self.shuffled(each)
        return parts(TAKEN, LECTURERS - UNPOPULAR) + parts(TAKEN_THERE, UNPOPULAR)

    def made_projects(self):
        """Each lecturer has two or three projects, with more places than the lecturer takes students."""
        pairs = self.chance.sample([(method, matter) for method in METHODS for matter in MATTERS], PROJECTS)
        rows, self.matters = [], {}
        for n, (method, matter) in enumerate(pairs):
            key, lecturer = f"p{n + 1:03}", self.lecturers[n % LECTURERS]
            self.matters[key] = matter
            rows.append({"id": key, "lecturer": lecturer["id"], "title": f"{method} {matter}", "capacity": self.chance.choice((2, 3, 3))})
        return rows

    def made_lists(self):
        """Lists of 3 to 20 projects. Six students choose a project of the last lecturers, and get it."""
        popular = [one["id"] for one in self.projects if int(one["lecturer"][1:]) <= LECTURERS - UNPOPULAR]
        others = [one["id"] for one in self.projects if one["id"] not in popular]
        keys = [one["id"] for one in self.students]
        without = set(self.chance.sample(keys, WITHOUT_LIST))
        lists = {key: self.chance.sample(popular, self.chance.choice((3, 4, 5, 6, 8, 12, 20))) for key in keys if key not in without}
        for key, project in zip(self.chance.sample(list(lists), 6), others):
            lists[key] = [project, *lists[key][:19]]
        return lists

    def text(self, file):
        """One of the files, by its name without `.csv`."""
        lines = io.StringIO()
        writer = csv.DictWriter(lines, HEADERS[file], lineterminator="\n")
        writer.writeheader()
        writer.writerows(getattr(self, file))
        return lines.getvalue()

    def write(self, folder):
        for file in HEADERS:
            (Path(folder) / f"{file}.csv").write_text(self.text(file), encoding="utf-8")

    @property
    def codes(self):
        """The code of each person, by key."""
        return {one["id"]: one["code"] for one in self.lecturers + self.students}

    def play(self, do, office, phase, round_=1, after=None):
        """Plays a new portal up to a phase; or, where `after` is a phase and a round that the portal has reached, from there on."""
        begin = 0 if after is None else STEPS.index(after) + 1
        for step in STEPS[begin:STEPS.index((phase, round_)) + 1]:
            self.enter(do, office, *step)

    def enter(self, do, office, phase, round_):
        """What people do in the phase before, then the step to this one."""
        if phase == "setup":
            for roll in ("lecturers", "projects", "students"):
                do(office, "POST", f"/rolls/{roll}", self.text(roll).encode())
            return
        if phase == "ranking":
            self.save_lists(do, office, round_)
        if phase == "published":
            self.save_rankings(do, office)
        do(office, "POST", "/phase", {"phase": phase, "round": 2} if (phase, round_) == ("choosing", 2) else {"phase": phase})

    def save_lists(self, do, office, round_):
        """In the second round two students of three without a project choose again, from what is left."""
        lists = self.lists
        if round_ == 2:
            left = [one["id"] for one in do(office, "GET", "/catalogue")["projects"]]
            again = do(office, "GET", "/status")["unassigned"]
            lists = {key: random.Random(key).sample(left, min(3, len(left))) for at, key in enumerate(again) if at % 3 < 2}
        for key, list_ in lists.items():
            do(self.codes[key], "PUT", "/choices", {"projects": list_})

    def save_rankings(self, do, office, leave=()):
        """All lecturers who are still to rank do, but those whose keys are in `leave`."""
        for key in do(office, "GET", "/status")["still_to_rank"]:
            if key in leave:
                continue
            chosen = do(self.codes[key], "GET", "/applicants")["projects"]
            applicants = sorted({one["key"] for project in chosen for one in project["applicants"]})
            do(self.codes[key], "PUT", "/ranking", {"students": random.Random(key).sample(applicants, len(applicants))})


if __name__ == "__main__":
    if len(sys.argv) != 2:
        sys.exit("usage: large.py FOLDER")
    Path(sys.argv[1]).mkdir(parents=True, exist_ok=True)
    Large().write(sys.argv[1])
