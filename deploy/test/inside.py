"""What test/server runs on a server that has only Debian and the package: the lines of RUNNING.md, and a year with the package's own files."""
import json
import os
import re
import time

from within import ask, end, health, holds, run

EXAMPLES = "/usr/share/doc/portal/examples"
STATE, YEAR = "/var/lib/portal/chem", "/var/lib/portal/chem/year.db"


def from_nothing():
    """The lines of RUNNING.md; returns the office's code."""
    office, start = None, time.monotonic()
    with open("/root/lines") as file:
        for line in file:
            told = run(line)
            if line.startswith("portal-health"):
                told = health("chem")
            holds(line.strip(), told[0] == 0, told)
            if found := re.search("^The office's code: (.*)$", told[1], re.M):
                office = found[1]
    holds(f"portal-health says that all is well, {time.monotonic() - start:.0f} s after the first of these lines", told[1].startswith("OK: answers in"), told)
    return office


def owned():
    """systemd has given the folder, which root made, to the portal's own user."""
    folder, year = os.stat(STATE), os.stat(YEAR)
    holds("systemd has moved the folder", os.path.realpath(STATE) == "/var/lib/private/portal/chem", os.path.realpath(STATE))
    holds("it and the file have a dynamic user", 61184 <= folder.st_uid == year.st_uid <= 65519, (folder.st_uid, year.st_uid))
    holds("nobody else reads them", folder.st_mode & 0o77 == year.st_mode & 0o77 == 0, (oct(folder.st_mode), oct(year.st_mode)))
    process = run("systemctl show --property=MainPID --value portal@chem")[1].strip()
    holds("the portal runs as that user", os.stat(f"/proc/{process}").st_uid == year.st_uid, process)


def first_round(office):
    """The example year, of the package's own files."""
    for roll in ("lecturers", "projects", "students"):
        with open(f"{EXAMPLES}/{roll}.csv", "rb") as file:
            told = ask(office, "POST", f"/rolls/{roll}", file.read())
        holds(f"the roll of {roll}", told[0] == 200, told)
    holds("the page", "<title>" in ask(None, "GET", "/")[1])
    described(office)
    calls = [(office, "POST", "/phase", {"phase": "choosing"})]
    calls += [(f"student-{name}-1", "PUT", "/choices", {"projects": wish}) for name, wish in (
        ("ada", ["pulsars", "rings"]), ("ben", ["pulsars", "comets"]), ("cleo", ["rings", "patterns"]), ("dora", ["patterns", "groups"]))]
    calls += [(office, "POST", "/phase", {"phase": "ranking"}), ("lecturer-bell-1", "PUT", "/ranking", {"students": ["ben", "ada"]}),
              ("lecturer-noether-1", "PUT", "/ranking", {"students": ["cleo", "ada", "dora"]}), (office, "POST", "/ranking/fill", {}),
              (office, "POST", "/phase", {"phase": "published"})]
    for code, method, path, body in calls:
        told = ask(code, method, path, body)
        holds(f"{method} {path} by {re.sub('^[a-z0-9]{4}(-[a-z0-9]{4}){3}$', 'the office', code)}", told[0] == 200, told)
    results = {name: json.loads(ask(f"student-{name}-1", "GET", "/result")[1])["project"] for name in ("ada", "ben", "emil")}
    holds("the result is that of the example", results == {"ada": "rings", "ben": "pulsars", "emil": None}, results)


def described(office):
    told = run(f"portal-describe chem {EXAMPLES}/descriptions.csv && cp {EXAMPLES}/department.json /etc/portal/chem")
    holds("portal-describe", told == (0, "described: 5 of 5 projects\n"), told)
    told = ask("student-ada-1", "GET", "/projects.json")
    holds("the reverse proxy reads the descriptions", told[0] == 200 and "Radio surveys" in told[1], told)
    holds("and gives them to callers only", ask(None, "GET", "/projects.json") == (403, '{"error":"no_caller"}'))
    told = run("setpriv --reuid=nobody --regid=nogroup --clear-groups cat /etc/portal/chem/projects.json")
    holds("nobody else on the server reads them", told[0] == 1 and "Permission denied" in told[1], told)
    holds("the department", "Department of Examples" in ask(None, "GET", "/department.json")[1])


def tools(office):
    told = run(f"cp {EXAMPLES}/students.csv /root && portal-letters /root/students.csv --page https://localhost --until 'noon'")
    holds("portal-letters", told == (0, "/root/students-slips.html\n/root/students-mail.csv\n"), told)
    told = run("portal-correct chem student ada code --new")
    code = re.search("^The new code: (.*)$", told[1], re.M)
    holds("portal-correct", told[0] == 0 and code, told)
    holds("the new code is Ada's", '"name":"Ada Ames"' in ask(code[1], "GET", "/me")[1])
    holds("the old code is nobody's", ask("student-ada-1", "GET", "/me") == (403, '{"error":"no_caller"}'))
    holds("the file is still the portal's", os.stat(YEAR).st_uid == os.stat(STATE).st_uid != 0)
    told = run("systemctl start portal-backup@chem && ls -d /var/backups/portal/chem/*Z | tail -n 1")
    holds("the unit of the backup, with all its limits", told[0] == 0 and ask(office, "GET", "/me")[0] == 200, told + run("journalctl -u portal-backup@chem"))
    told = run("portal-correct chem student ada name 'Ada Byron' && portal-restore chem " + told[1])
    holds("portal-restore", told[0] == 0 and '"name":"Ada Ames"' in ask(code[1], "GET", "/me")[1], told)


def asked():
    """What is stored of somebody, and the lines of RUNNING.md that tell whom another allocation would wrong."""
    told = run("portal-person chem student ada")
    wanted = ["student ada", "name: Ada Ames", "    1. pulsars (Pulsars in old sky surveys), offered by bell (Jocelyn Bell)",
              "  result: rings (Rings and their ideals), offered by noether (Emmy Noether)"]
    holds("portal-person", told[0] == 0 and set(wanted) <= set(told[1].splitlines()) and "student-ada-1" not in told[1], told)
    with open("/usr/share/doc/portal/RUNNING.md") as file:
        section = re.search("^## When somebody objects\n(.*?)^## ", file.read(), re.M | re.S)[1]
    lines = re.findall("^    (.*)$", section, re.M)
    told = run("cd /root; set -e\n" + "\n".join(lines))
    holds("whom a swap would wrong, by the lines of RUNNING.md", told == (0, "blocking 0\nblock ben pulsars c\nblocking 1\n") and len(lines) == 6, told)


def ended(office):
    """Another department is ended, with the folder that systemd has made of its year, and the first one goes on."""
    private, units = "/var/lib/private/portal/maths", "portal@maths portal-backup@maths.timer"
    told = run(f"portal-new maths maths.localhost && systemctl enable --now {units} && portal-backup maths")
    holds("another department is there, in a folder of systemd's", told[0] == 0 and os.path.exists(f"{private}/year.db"), told)
    told = run("echo no | portal-end maths")
    holds("portal-end deletes nothing before the name is typed", told[0] == 2 and run(f"systemctl is-active {units}")[1] == "active\nactive\n", told)
    told = run("echo maths | portal-end maths && caddy validate --config /etc/caddy/Caddyfile && systemctl restart caddy")
    left = run("find /etc /var/lib /var/backups -xdev -name '*maths*' -not -path '/var/lib/systemd/timers/*'")
    holds("then nothing of it is left", told[0] == 0 and left == (0, ""), (told, left))
    states = run(f"systemctl is-active {units}; systemctl is-enabled {units}")[1].split()
    holds("and its units are off for good", states[:2] == ["inactive"] * 2 and "enabled" not in states, states)
    holds("while the first one goes on", ask(office, "GET", "/me")[0] == 200 and os.path.exists(YEAR))


def watched():
    run("systemctl kill --signal=KILL portal@chem")
    told = health("chem")
    holds("a portal that was killed is started again, and portal-health tells", told[0] == 0 and " 1 restarts today" in told[1], told)
    run("systemctl stop portal@chem")
    told = run("portal-health chem")
    holds("a portal that is stopped is told", told[0] == 2 and told[1].startswith("CRITICAL: does not answer"), told)
    run("systemctl start portal@chem")


def package(office):
    """The package is installed again, and purged: the years stay."""
    before = ask(office, "GET", "/allocation.csv")
    told = run("dpkg --install /root/portal_*.deb")
    holds("the package is installed again", told[0] == 0 and ask(office, "GET", "/allocation.csv") == before and before[0] == 200, told)
    told = run("apt-get --purge -y remove portal")
    kept = [YEAR, "/etc/portal/chem.conf", "/etc/portal/sites/chem.caddy", "/etc/portal/chem/projects.json"]
    holds("the package is purged, and the year and its settings stay", told[0] == 0 and all(map(os.path.exists, kept)), told)
    holds("so do the backups", len(os.listdir("/var/backups/portal/chem")) >= 4 and not os.path.exists("/usr/bin/portal"))
    told = run("dpkg --install /root/portal_*.deb && systemctl restart caddy portal@chem")
    holds("after another installation the year goes on", told[0] == 0 and ask(office, "GET", "/allocation.csv") == before, told)


try:
    office = from_nothing()
    owned()
    first_round(office)
    tools(office)
    asked()
    ended(office)
    watched()
    package(office)
except Exception as fault:
    holds("the trial comes to its end", False, repr(fault))
end()
