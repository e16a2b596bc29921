"""What test/over runs on a booted server: with the older package, a department in each stage of a year, with a backup and with what each shows;
then, in a second boot, the newer package over it, and each year to its end."""
import contextlib
import csv
import io
import json
import os
import re
import shutil
import sqlite3
import tempfile
import time
from pathlib import Path

from within import PATIENCE, ask, end, health, holds, run, waits_for

KEPT, NEW = "/root/years.json", "/root/new"
ETC, STATE, BACKUPS, PAPERS = "/etc/portal", "/var/lib/portal", "/var/backups/portal", "/usr/share/doc/portal"
PEOPLE = {"bell": "Jocelyn Bell", "noether": "Emmy Noether", "turing": "Alan Turing", "ada": "Ada Ames", "ben": "Ben Bode", "cleo": "Cruz, Cleo",
          "dora": "Dörte \"Dora\" Dahl", "emil": "Emil Eke", "finn": "-Finn Foss"}
LIMITS = {"bell": 2, "noether": 2, "turing": 1}
STUDENTS = [key for key in PEOPLE if key not in LIMITS]
PROJECTS = {"pulsars": ("bell", "Pulsars in old sky surveys", 1), "comets": ("bell", "Comets, seen twice", 1), "rings": ("noether", "Rings", 2),
            "groups": ("noether", "Groups of small order", 1), "patterns": ("turing", "Patterns on shells", 1)}
# The results of both rounds. Bell has room for one more after the first, for Comets; all others are full.
FIRST = {"ada": "rings", "ben": "pulsars", "cleo": "rings", "dora": "patterns", "emil": None, "finn": None}
BOTH = FIRST | {"finn": "comets"}
SEEN = {"office": ["/me", "/catalogue", "/status", "/allocation", "/allocation.csv", "/report"],
        "lecturer": ["/me", "/applicants", "/ranking", "/result"], "student": ["/me", "/choices", "/result"]}


def table(*rows):
    """Rows as CSV."""
    text = io.StringIO()
    csv.writer(text, lineterminator="\n").writerows(rows)
    return text.getvalue()


def code(key):
    return f"the-code-of-{key}"


def roll(kind, end=None):
    rows = {"lecturers": [["id", "name", "code", "capacity"], *([key, PEOPLE[key], code(key), limit] for key, limit in LIMITS.items())],
            "projects": [["id", "lecturer", "title", "capacity"], *([key, *words] for key, words in PROJECTS.items())],
            "students": [["id", "name", "code"], *([key, PEOPLE[key], code(key)] for key in STUDENTS)]}[kind]
    return "office", "POST", f"/rolls/{kind}", table(*rows[:end]).encode()


def chosen(who, *projects):
    return who, "PUT", "/choices", {"projects": list(projects)}


def ranked(who, *students):
    return who, "PUT", "/ranking", {"students": list(students)}


# The stages of a year: what people do first, what is left (after the upgrade, in the department that is in this stage), and the move that ends it.
STAGES = {
    "setup": ([roll("lecturers"), roll("projects", -1), roll("students")], [roll("projects")], {"phase": "choosing"}),
    "choosing": ([chosen("ada", "rings"), chosen("ben", "pulsars", "comets"), chosen("emil", "pulsars")],
                 [chosen("ada", "pulsars", "rings"), chosen("cleo", "rings", "patterns"), chosen("dora", "patterns", "groups")],
                 {"phase": "ranking"}),
    "ranking": ([ranked("noether", "cleo", "ada", "dora"), ranked("bell", "emil", "ada", "ben")],
                [ranked("bell", "ben", "ada", "emil"), ("office", "POST", "/ranking/fill", {})], {"phase": "published"}),
    "published": ([], [], {"phase": "choosing", "round": 2}),
    "choosing-2": ([chosen("emil", "comets")], [chosen("finn", "comets")], {"phase": "ranking"}),
    "ranking-2": ([ranked("bell", "emil", "finn")], [ranked("bell", "finn", "emil")], {"phase": "published"}),
    "published-2": ([], [], None),
}
# The departments: the stage of each, and whether it has a port that everybody can take, as earlier versions gave it
NAMES = {"art": ("setup", False), "biology": ("choosing", True), "chem": ("ranking", True), "drama": ("published", True),
         "english": ("choosing-2", True), "a-department-with-a-long-name-32": ("ranking-2", True), "geo": ("published-2", True)}


def call(year, who, method, path, body=None):
    """The status and the body of a reply to somebody of a department."""
    return ask(year["codes"][who], method, path, body, f"{year['name']}.localhost")


def refused(year, calls):
    """Makes calls, and returns those that get another reply than they should, with it."""
    wrong = []
    for who, method, path, body in calls:
        status, told = call(year, who, method, path, body)
        if status != 200 or method == "PUT" and json.loads(told) != body:
            wrong.append((who, method, path, status, told))
    return wrong


def move(year, words):
    return refused(year, [("office", "POST", "/phase", words)])


def port_of(name):
    return re.search("^PORT=([0-9]+)$", Path(f"{ETC}/{name}.conf").read_text(), re.M)[1]


def settings(name):
    """The files of a department in /etc/portal, with their modes."""
    paths = [f"{ETC}/{name}.{kind}" for kind in ("conf", "office", "schedule")] + [f"{ETC}/sites/{name}.caddy"]
    paths += [f"{ETC}/{name}/{file}" for file in sorted(os.listdir(f"{ETC}/{name}"))]
    return {path: [oct(os.stat(path).st_mode), Path(path).read_text()] for path in paths if os.path.exists(path)}


def process(name):
    return run(f"systemctl show --property=MainPID --value portal@{name}")[1].strip()


def copied(path, folder):
    """Copies a database that nobody writes, with its log."""
    for part in ("", "-wal"):
        if os.path.exists(path + part):
            shutil.copy(path + part, f"{folder}/year.db{part}")
    return f"{folder}/year.db"


def report(path):
    """What the portal tells of a copy of a database: its status, and its result."""
    with tempfile.TemporaryDirectory() as folder:
        return list(run(f"portal report {copied(path, folder)}"))


def tables(path):
    """All tables of a copy of a database."""
    with tempfile.TemporaryDirectory() as folder, contextlib.closing(sqlite3.connect(copied(path, folder))) as link:
        return list(link.iterdump())


def seen(year):
    """What a department shows: the replies to everybody, its tables, and the portal's report."""
    roles = {who: "office" if who == "office" else "lecturer" if who in LIMITS else "student" for who in year["codes"]}
    replies = [[who, path, *call(year, who, "GET", path)] for who, role in roles.items() for path in SEEN[role]]
    path = f"{STATE}/{year['name']}/year.db"
    return {"replies": replies, "tables": tables(path), "report": report(path)}


def results(year):
    return {key: json.loads(call(year, key, "GET", "/result")[1])["project"] for key in STUDENTS}


def guard_lines(words):
    """The lines on the guards in the RUNNING.md of the package that is installed, where it has any and their programs are there."""
    found = re.findall(f"^    ((?:{words}) .*)$", Path(f"{PAPERS}/RUNNING.md").read_text(), re.M)
    return [line for line in found if "guard" in line or "fail2ban" in line] if shutil.which("fail2ban-client") else []


# The older package

def made(name, port, stage=None, is_open=False):
    """Makes a department, unless its name is too long; returns its year. A port that everybody can take is written to its files where portal-new
    gives none of these any more."""
    ways = [f"portal-new {name} {port} {name}.localhost", f"portal-new {name} {name}.localhost"]
    for way in ways if is_open else reversed(ways):
        status, told = run(way)
        if status == 0:
            break
    else:
        return None
    if is_open:
        own = port_of(name)
        run(f"sed -i 's/^PORT={own}$/PORT={port}/' {ETC}/{name}.conf; sed -i 's/portal {own} /portal {port} /' {ETC}/sites/{name}.caddy")
    office = re.search("^The office's code: (.*)$", told, re.M)[1]
    return {"name": name, "stage": stage, "codes": {"office": office, **{key: code(key) for key in PEOPLE}}}


def described(name, path):
    """Describes two projects on the page, and gives the department a name and a notice."""
    rows = [[key, PROJECTS[key][1], PROJECTS[key][0], f"More of {key}.", ""] for key in ("rings", "groups")]
    Path(path).write_text(table(["id", "title", "lecturer", "description", "link"], *rows))
    Path(f"{ETC}/{name}/notice.txt").write_text("Rings are open to all.\n")
    shutil.copy(f"{PAPERS}/examples/department.json", f"{ETC}/{name}")
    return run(f"portal-describe {name} {path}")


def played(year):
    """Plays a year up to the work that its stage begins with."""
    wrong = []
    for stage, (first, rest, words) in STAGES.items():
        wrong += refused(year, first)
        if stage == year["stage"]:
            break
        wrong += refused(year, rest) + move(year, words)
    holds(f"{year['name']}: the year is in the stage {year['stage']}", not wrong, wrong)


def prepared(years):
    """What an administrator has done in some departments: descriptions, another number of backups, a move at a time, and a new code."""
    told = described("chem", "/root/chem.csv")
    holds("chem: descriptions, a name and a notice", told[0] == 0, told)
    run(f"sed -i 's/^KEEP=30$/KEEP=3/' {ETC}/geo.conf; cp {PAPERS}/examples/department.json {ETC}/biology")
    if shutil.which("portal-schedule"):
        later = time.strftime("%Y-%m-%d %H:%M", time.localtime(time.time() + 10**7))
        told = run(f"portal-schedule biology ranking '{later}'")
        holds("biology: a move at a time", told[0] == 0, told)
        years["biology"]["set"] = list(run("portal-schedule biology"))
    years["drama"]["lost"] = years["drama"]["codes"]["ada"]
    told = run("portal-correct drama student ada code --new")
    years["drama"]["codes"]["ada"] = re.search("^The new code: (.*)$", told[1], re.M)[1]
    holds("drama: a new code for a student", told[0] == 0, told)


def before():
    """All that is done with the older package. An eighth department is made, but never served."""
    years = [made(name, 8081 + at, *rest) or made(name[:29], 8081 + at, *rest) for at, (name, rest) in enumerate(NAMES.items())]
    holds("portal-new makes each department", all([*years, made("idle", 8090)]), years)
    years = {year["name"]: year for year in years}
    Path("/etc/hosts").write_text(f"127.0.0.1 localhost {' '.join(f'{name}.localhost' for name in (*years, 'idle', 'fresh'))}\n")
    Path("/etc/caddy/Caddyfile").write_text("import /etc/portal/Caddyfile\n")
    units = " ".join(f"portal@{name} portal-backup@{name}.timer" for name in years)
    told = run(f"systemctl enable --now {units} && caddy validate --config /etc/caddy/Caddyfile && systemctl restart caddy")
    holds("they are served", told[0] == 0, told)
    for name, year in years.items():
        played(year)
        told = run(f"portal-backup {name}")
        holds(f"{name}: a backup", told[0] == 0, told)
        year["backup"] = told[1].strip()
    prepared(years)
    lines = guard_lines("systemctl|cp|printf")
    for line in lines:
        told = run(line)
        holds(line, told[0] == 0, told)
    for name, year in years.items():
        year.update(seen=seen(year), settings=settings(name))
    Path(KEPT).write_text(json.dumps({"years": years, "idle": settings("idle"), "guarded": bool(lines)}))


# The newer package over it

def installed(names):
    """Installs the newer package while the portals are on, and returns what it prints."""
    old = {name: process(name) for name in names}
    status, said = run(f"cd {NEW} && DEBIAN_FRONTEND=noninteractive apt-get install -y ./*.deb < /dev/null")
    version = run(f"dpkg-deb --field {NEW}/*.deb Version")[1].strip()
    holds(f"apt-get installs {version}", status == 0, said[-600:])
    holds("portal --version is this one", run("portal --version") == (0, f"portal {version}\n"), run("portal --version"))
    holds("each file of the package is in its place", run("dpkg --verify portal") == (0, ""), run("dpkg --verify portal"))
    new = {name: process(name) for name in names}
    files = {os.readlink(f"/proc/{one}/exe") for one in new.values()}
    is_new = not set(old.values()) & set(new.values()) and files == {"/usr/bin/portal"}
    holds("each department's portal goes on with the new program", is_new, (old, new, files))
    told = run(f"systemctl is-active {' '.join(f'portal-backup@{name}.timer' for name in names)}")
    holds("and the timer of its backups goes on", told == (0, "active\n" * len(names)), told)
    return said


def same(year):
    """A year is as it was, and so are its settings."""
    name, now, old = year["name"], seen(year), year["seen"]
    for part in old:
        holds(f"{name}: its {part} as before", now[part] == old[part], [pair for pair in zip(old[part], now[part]) if pair[0] != pair[1]][:2])
    holds(f"{name}: its settings as before", settings(name) == year["settings"], settings(name))
    told = report(f"{year['backup']}/year.db")
    holds(f"{name}: the new program opens the old backup", told == old["report"], told)


def owned(names):
    """Each department's portal has a user of its own, who alone has the year."""
    users = {name: os.stat(f"{STATE}/{name}").st_uid for name in names}
    files = {(name, os.stat(f"{STATE}/{name}/{file}").st_uid) for name in names for file in os.listdir(f"{STATE}/{name}")}
    modes = {os.stat(path).st_mode & 0o77 for name in names for path in (f"{STATE}/{name}", f"{STATE}/{name}/year.db")}
    holds("each portal has a user of its own", len(set(users.values())) == len(users) and min(users.values()) >= 61184, users)
    holds("who owns all files beside the year", files and all(users[name] == user for name, user in files), files)
    holds("and nobody else reads them", modes == {0}, modes)


def moved(years, said, idle):
    """The lines that the installation prints give each department with a port of 1024 or above another one."""
    old = {name: port_of(name) for name in (*years, "idle")}
    is_open = {name: port for name, port in old.items() if int(port) >= 1024}
    told = dict(re.findall("^The portal of (\\S+) listens on the port ([0-9]+),", said, re.M))
    holds("the installation names the departments with a port that everybody can take", told and told == is_open, (told, is_open))
    lines = re.findall("^  ((?:sed|caddy) .*)$", said, re.M)
    holds("with two lines for each, and one that restarts all", len(lines) == 2 * len(is_open) + 1, lines)
    for line in lines:
        told = run(line)
        holds(line, told[0] == 0, told)
    started = run("systemctl show --property=ActiveEnterTimestamp --value --timestamp=unix caddy")[1].strip()
    holds("Caddy has the new settings", int(started[1:]) >= int(os.stat(f"{ETC}/Caddyfile").st_ctime), started)
    new = {name: port_of(name) for name in old}
    ports = set(map(int, new.values()))
    holds("each department has a port of its own below 1024", len(ports) == len(new) and ports < {*range(801, 900)}, new)
    for name, port in old.items():
        text = json.dumps(years[name]["settings"] if name in years else idle)
        wanted = json.loads(text.replace(f"PORT={port}\\n", f"PORT={new[name]}\\n").replace(f"import portal {port} ", f"import portal {new[name]} "))
        holds(f"{name}: all other settings as before", settings(name) == wanted, settings(name))
    for name in years:
        told = health(name)
        holds(f"{name}: portal-health says that all is well", told[0] == 0 and told[1].startswith("OK: answers in"), told)


def guarded(years):
    """The guards go on, with the new rules, once the three files are copied again as RUNNING.md says."""
    told = run("systemctl is-active portal-guard fail2ban")
    holds("both guards are on", told == (0, "active\nactive\n"), told)
    own = run("nft list set inet portal own")[1]
    wanted = {f"{os.stat(f'{STATE}/{name}').st_uid} . {port_of(name)}" for name in years}
    holds("each portal alone may answer at its port", wanted <= set(re.findall("[0-9]+ \\. [0-9]+", own)), own)
    lines = guard_lines("cp|systemctl restart")
    for line in lines:
        told = run(line)
        holds(line, told[0] == 0, told)

    def counted():
        found = re.search(r"Total failed:\s+(\d+)", run("fail2ban-client status portal")[1])
        return int(found[1]) if found else -1
    holds("fail2ban is on again", len(lines) == 4 and waits_for(lambda: counted() >= 0, PATIENCE), lines)
    begun = counted()
    told = [ask(who, "GET", "/me", None, "art.localhost", "127.0.0.9")[0] for _ in range(3) for who in (None, "nobodys-code")]
    came = waits_for(lambda: counted() >= begun + 3, PATIENCE)
    holds("it counts refused codes, and no requests without a code", told == [403] * 6 and came and counted() == begun + 3, (told, begun, counted()))


def added():
    """A department that was never served, and a new one, are served; a new one's name has at most 29 characters."""
    told = run("systemctl enable --now portal@idle portal-backup@idle.timer && systemctl start portal-backup@idle"), health("idle")
    holds("idle: served at last, with a backup", told[0][0] == 0 and told[1][0] == 0, told)
    holds("a name of 30 characters is refused", run(f"portal-new {'a' * 30} long.localhost")[0] == 2)
    status, text = run("portal-new fresh fresh.localhost && systemctl enable --now portal@fresh")
    told = run("caddy validate --config /etc/caddy/Caddyfile && systemctl restart caddy")
    office = re.search("^The office's code: (.*)$", text, re.M)
    holds("fresh: a new department", (status, told[0]) == (0, 0) and office and ask(office[1], "GET", "/me", None, "fresh.localhost")[0] == 200, text)


def finished(year):
    """A year goes on to its end."""
    name, stages = year["name"], list(STAGES)
    for stage in stages[stages.index(year["stage"]):]:
        first, rest, words = STAGES[stage]
        wrong = refused(year, rest if stage == year["stage"] else first + rest)
        holds(f"{name}: the work of the stage {stage}", not wrong, wrong)
        if stage in ("published", "choosing-2", "ranking-2"):
            holds(f"{name}: the result of the first round", results(year) == FIRST, results(year))
        if words:
            wrong = move(year, words)
            holds(f"{name}: the move to {words['phase']}", not wrong, wrong)
    holds(f"{name}: the result of both rounds", results(year) == BOTH, results(year))
    titles = {key: words[1] for key, words in PROJECTS.items()} | year.get("titles", {})
    placed = [[key, PEOPLE[key], *([own, titles[own], PROJECTS[own][0]] if (own := BOTH[key]) else [""] * 3)] for key in STUDENTS]
    told = call(year, "office", "GET", "/allocation.csv")
    holds(f"{name}: its sheet", told == (200, table(["student", "name", "project", "title", "lecturer"], *placed)), told)
    wanted = {"assigned": 5, "lecturers": 3, "phase": "published", "projects": 5, "round": 2, "still_to_rank": [], "students": 6,
              "unassigned": ["emil"], "without_list": []}
    told = call(year, "office", "GET", "/status")
    holds(f"{name}: its status", told[0] == 200 and json.loads(told[1]) == wanted, told)
    told = call(year, "ada", *chosen("ada", "comets")[1:])
    holds(f"{name}: no list is taken any more", told == (409, '{"error":"wrong_phase"}'), told)
    told = run(f"portal-backup {name}"), health(name)
    holds(f"{name}: another backup, and all is well", told[0][0] == 0 and told[1][0] == 0, told)


def letters(year):
    """The letters of the students, and descriptions."""
    Path("/root/students.csv").write_bytes(roll("students")[3])
    told = run("portal-letters /root/students.csv --page https://art.localhost --until noon 2> /dev/null")
    with open("/root/students-mail.csv") as file:
        rows = list(csv.DictReader(file))
    right = [row["code"] for row in rows] == [code(key) for key in STUDENTS] and rows[-1]["name"] == "'-Finn Foss"
    holds("art: portal-letters", told == (0, "/root/students-slips.html\n/root/students-mail.csv\n") and right, (told, rows))
    told = described("art", "/root/art.csv")
    holds("art: portal-describe", told[0] == 0 and "More of rings." in call(year, "ada", "GET", "/projects.json")[1], told)


def scheduled(year):
    """The move that was set before is still set; another time is set in its place, and comes."""
    name, office = year["name"], f"{ETC}/{year['name']}.office"
    if "set" in year:
        told = list(run(f"portal-schedule {name}"))
        holds(f"{name}: the move is still set", told == year["set"] and run(f"systemctl is-active portal-schedule@{name}.timer")[0] == 0, told)
    if not os.path.exists(office):
        Path(office).write_text(f"{year['codes']['office']}\n")
    wrong = refused(year, STAGES["choosing"][1])
    holds(f"{name}: the work of the stage choosing", not wrong, wrong)
    at = (int(time.time()) + 90) // 60 * 60
    told = run(f"portal-schedule {name} ranking '{time.strftime('%Y-%m-%d %H:%M', time.localtime(at))}'")
    holds(f"{name}: another time", told[0] == 0, told)
    came = waits_for(lambda: '"phase":"ranking"' in call(year, "office", "GET", "/me")[1], PATIENCE)
    holds(f"{name}: the move comes", came and time.time() >= at, run(f"journalctl -u portal-schedule@{name}"))
    wrong = refused(year, STAGES["ranking"][0])
    holds(f"{name}: some rankings", not wrong, wrong)
    year["stage"] = "ranking"


def recoded(year):
    """What was written for the page before is shown, and a lecturer who lost the code gets another one."""
    shown = [call(year, "ada", "GET", path)[1] for path in ("/projects.json", "/notice.txt", "/department.json")]
    is_shown = all(map(str.__contains__, shown, ("More of rings.", "Rings are", "Department of Examples")))
    holds("chem: the page has the descriptions, the notice and the name", is_shown, shown)
    told = run("portal-correct chem lecturer bell code --new")
    year["codes"]["bell"] = re.search("^The new code: (.*)$", told[1], re.M)[1]
    holds("chem: a new code for a lecturer", told[0] == 0 and '"name":"Jocelyn Bell"' in call(year, "bell", "GET", "/me")[1], told)
    told = ask(code("bell"), "GET", "/me", None, "chem.localhost")
    holds("chem: the old code is nobody's", told == (403, '{"error":"no_caller"}'), told)


def restored(year):
    """The old backup is restored after the year has gone on. The code that was replaced before the upgrade is valid again, and replaced by the line
    that is printed."""
    wrong = move(year, STAGES["published"][2]) + refused(year, STAGES["choosing-2"][0])
    told = run(f"portal-restore drama {year['backup']}")
    lines = re.findall("^  (portal-correct .*)$", told[1], re.M)
    holds("drama: portal-restore of the old backup", not wrong and told[0] == 0, (wrong, told))
    holds("drama: it prints whose replaced code is valid again", lines == ["portal-correct drama student ada code --new"], told)
    now = tables(f"{STATE}/drama/year.db")
    old = [line.replace(year["codes"]["ada"], year["lost"]) for line in year["seen"]["tables"]]
    holds("drama: the year of the backup", now == old, [pair for pair in zip(old, now) if pair[0] != pair[1]][:2])
    year["codes"]["ada"] = re.search("^The new code: (.*)$", run(lines[0])[1], re.M)[1]
    told = call(year, "ada", "GET", "/me")[0], ask(year["lost"], "GET", "/me", None, "drama.localhost")[0]
    holds("drama: the lost code is nobody's again", told == (200, 403), told)


def backed_up(year):
    """A backup by the unit of the nights, and its restoring, lose what came after it and no more."""
    name = year["name"]
    before = call(year, "office", "GET", "/status")
    told = run(f"systemctl start portal-backup@{name} && ls -d {BACKUPS}/{name}/*Z | tail -n 1")
    holds(f"{name}: the unit of the backups", told[0] == 0 and told[1].strip() != year["backup"], (told, run(f"journalctl -u portal-backup@{name}")))
    wrong = refused(year, STAGES["choosing-2"][1])
    told = run(f"portal-restore {name} {told[1]}")
    holds(f"{name}: portal-restore of a new backup", not wrong and told[0] == 0 and call(year, "office", "GET", "/status") == before, (wrong, told))


def killed(year):
    """A portal that is killed comes again, and the unit of its backups goes on."""
    name = year["name"]
    told = run(f"systemctl kill --signal=KILL portal@{name}"), health(name)
    holds(f"{name}: a portal that was killed comes again", told[1][0] == 0 and " 1 restarts today" in told[1][1], told)
    told = run(f"systemctl start portal-backup@{name}")
    holds(f"{name}: the unit of the backups", told[0] == 0, run(f"journalctl -u portal-backup@{name}"))


def retitled(year):
    """A title is corrected after the year's end; the older backups are kept as the setting says."""
    year["titles"] = {"comets": "Comets, seen thrice"}
    told = run("portal-correct geo project comets title 'Comets, seen thrice' && portal-backup geo && portal-backup geo")
    kept = [name for name in os.listdir(f"{BACKUPS}/geo") if name.endswith("Z")]
    holds("geo: portal-correct, and three backups are kept", told[0] == 0 and len(kept) == 3 and not os.path.exists(year["backup"]), (told, kept))


TOOLS = {"setup": letters, "choosing": scheduled, "ranking": recoded, "published": restored, "choosing-2": backed_up, "ranking-2": killed,
         "published-2": retitled}


def after():
    """All that is done with the newer package."""
    kept = json.loads(Path(KEPT).read_text())
    years = kept["years"]
    holds("the departments are served after a boot", all(call(year, "office", "GET", "/me")[0] == 200 for year in years.values()))
    said = installed(years)
    for year in years.values():
        same(year)
    owned(years)
    moved(years, said, kept["idle"])
    if kept["guarded"]:
        guarded(years)
    added()
    for year in years.values():
        TOOLS[year["stage"]](year)
        finished(year)


try:
    if os.path.exists(KEPT):
        after()
    else:
        before()
except Exception as fault:
    holds("the trial comes to its end", False, repr(fault))
end()
