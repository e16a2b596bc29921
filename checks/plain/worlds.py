"""The small world of the documents and a wider one: the requests of their years, what `report` prints of the small one, and an instance file."""
from asking import OFFICE, SECOND, chosen, moved, ranked, request, roll
from year import Year

LECTURERS = b"id,name,code,capacity\nL1,Lee,lee-code-01,2\nL2,Moe,moe-code-02,1\n"
PROJECTS = b"id,lecturer,title,capacity\nP1,L1,Tides,1\nP2,L1,Kites,1\nP3,L2,Bells,1\n"
STUDENTS = b'id,name,code\nS1,Ann,ann-code-1\nS2,"Roe, Bea",bea-code-2\nS3,Cyr,cyr-code-3\n'

# the requests of a small year, up to each phase and in it, and of its second round
YEAR = {
    "setup": [
        request(b"POST", b"/rolls/lecturers", OFFICE, LECTURERS),
        request(b"POST", b"/rolls/projects", OFFICE, PROJECTS),
        request(b"POST", b"/rolls/students", OFFICE, STUDENTS),
    ],
    "choosing": [moved(b"choosing"), chosen(b"ann-code-1", b'"P1","P2"'), chosen(b"bea-code-2", b'"P1","P3"')],
    "ranking": [moved(b"ranking"), ranked(b"lee-code-01", b'"S2","S1"'), ranked(b"moe-code-02", b'"S2"')],
    "published": [moved(b"published")],
    "second choosing": [moved(b"choosing", SECOND), chosen(b"cyr-code-3", b'"P3"')],
    "second ranking": [moved(b"ranking"), ranked(b"moe-code-02", b'"S3"')],
    "second published": [moved(b"published")],
}


def wide(listed):
    """The lists of some students of the wider department."""
    return [chosen(b"stud-code-%d" % number, keys) for number, keys in listed.items()]


# A wider department, whose first round leaves places at P3, P4 and P5 to S4 and those after. P2 has a place left too, and its lecturer has none.
# Of the second round's students S6 and S9 get nothing: Moe takes two more students alone, and P5 has one place left.
WIDE = {
    "setup": [
        roll(b"lecturers", [b"L1,Lee,lee-code-01,2", b"L2,Moe,moe-code-02,3", b"L3,Poe,poe-code-03,5"]),
        roll(b"projects", [b"P1,L1,Tides,1", b"P2,L1,Kites,2", b"P3,L2,Bells,2", b"P4,L2,Waves,2", b"P5,L3,Rings,2"]),
        roll(b"students", [b"S%d,Name %d,stud-code-%d" % (n, n, n) for n in range(1, 10)]),
    ],
    "choosing": [moved(b"choosing"), *wide({1: b'"P1"', 2: b'"P2"', 3: b'"P3"', 7: b'"P5"'})],
    "ranking": [moved(b"ranking"), ranked(b"lee-code-01", b'"S1","S2"'), ranked(b"moe-code-02", b'"S3"'), ranked(b"poe-code-03", b'"S7"')],
    "published": [moved(b"published")],
    "second choosing": [moved(b"choosing", SECOND), *wide({4: b'"P3","P4"', 5: b'"P3","P4"', 6: b'"P4"', 8: b'"P5"', 9: b'"P5"'})],
    "second ranking": [moved(b"ranking"), ranked(b"moe-code-02", b'"S4","S5","S6"'), ranked(b"poe-code-03", b'"S8","S9"')],
    "second published": [moved(b"published")],
}

# what the command `report` prints of the small year once it is published: the state, and the result behind it
REPORT = (b"phase           published\nlecturers            2\nprojects             3\nstudents             3\nwithout list         1\n"
          b"still to rank        0\nassigned             2\n\n")
RESULT = (b"S1                P2                L1\nS2                P1                L1\nS3                (none)\n\n"
          b"P1                 1 of    1\nP2                 1 of    1\nP3                 0 of    1\n\nassigned 2 of 3\n")
# and at the end of its second round
SECOND_REPORT = (b"phase           published\nround                2\nlecturers            2\nprojects             3\nstudents             3\n"
                 b"without list         0\nstill to rank        0\nassigned             3\n\n")
SECOND_RESULT = (b"S1                P2                L1\nS2                P1                L1\nS3                P3                L2\n\n"
                 b"P1                 1 of    1\nP2                 1 of    1\nP3                 1 of    1\n\nassigned 3 of 3\n")


def year_until(phase, year=YEAR):
    """The requests of the small year, or another, as far as this phase, with what is done in it; `second choosing` is one of the second round."""
    names = list(year)
    return [one for name in names[:names.index(phase) + 1] for one in year[name]]


def played(phase):
    """The plain model after the small year as far as this phase."""
    year = Year(OFFICE.decode())
    year.replies(b"".join(year_until(phase)))
    return year


# an instance file of seven students
SEVEN = b"""kind,key,value,list
L,L1,3,S7 S4 S1 S3 S2 S5 S6
L,L2,2,S3 S2 S6 S7 S5
L,L3,2,S1 S7
P,P1,2,L1
P,P2,1,L1
P,P3,1,L1
P,P4,1,L2
P,P5,1,L2
P,P6,1,L2
P,P7,1,L3
P,P8,1,L3
S,S1,,P1 P7
S,S2,,P1 P2 P3 P4 P5 P6
S,S3,,P2 P1 P4
S,S4,,P2
S,S5,,P1 P2 P3 P4
S,S6,,P2 P3 P4 P5 P6
S,S7,,P5 P3 P8
"""
