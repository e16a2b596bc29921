#!/usr/bin/env python3
"""Writes an instance file at the limits: 2,000 students with 20 projects each, 1,000 projects, 300 lecturers
and 2,000 pairs, so 5,300 records. The same file each time. Usage: limits.py > limits.csv"""
import json
import random
from pathlib import Path

LIMITS = json.loads((Path(__file__).resolve().parents[1] / "checks/constants.json").read_text())["limits"]
STUDENTS, PROJECTS, LECTURERS, CHOICES = (LIMITS[name] for name in ("students", "projects", "lecturers", "list"))


def main():
    chance = random.Random(20)
    owner = [p if p < LECTURERS else chance.randrange(LECTURERS) for p in range(PROJECTS)]
    choices = [chance.sample(range(PROJECTS), CHOICES) for _ in range(STUDENTS)]
    applicants = [set() for _ in range(LECTURERS)]
    for student, list_ in enumerate(choices):
        for project in list_:
            applicants[owner[project]].add(student)
    capacity = [chance.randint(1, 4) for _ in range(PROJECTS)]
    limit = [chance.randint(6, 12) for _ in range(LECTURERS)]
    at, with_ = [0] * PROJECTS, [0] * LECTURERS
    pairs = []
    for student, list_ in enumerate(choices):
        for project in list_:
            if at[project] < capacity[project] and with_[owner[project]] < limit[owner[project]]:
                at[project] += 1
                with_[owner[project]] += 1
                pairs.append((student, project))
                break
    lines = ["kind,key,value,list"]
    for lecturer in range(LECTURERS):
        ranking = sorted(applicants[lecturer])
        chance.shuffle(ranking)
        lines.append(f"L,L{lecturer:03},{limit[lecturer]}," + " ".join(f"S{s:04}" for s in ranking))
    for project in range(PROJECTS):
        lines.append(f"P,P{project:03},{capacity[project]},L{owner[project]:03}")
    for student, list_ in enumerate(choices):
        lines.append(f"S,S{student:04},," + " ".join(f"P{p:03}" for p in list_))
    for student, project in pairs:
        lines.append(f"M,S{student:04},P{project:03},")
    print("\n".join(lines))


main()
