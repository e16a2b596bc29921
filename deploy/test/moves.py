"""What test/server runs on a booted server for portal-schedule: moves at a time, one that is refused, and, in a second boot, one whose time came while the
machine was off."""
import http.client
import json
import os
import re
import time

from within import end, holds, run, waits_for

EXAMPLES = "/usr/share/doc/portal/examples"
KEPT = "/root/moves.json"


def ask(year, code, method, path, body=None):
    """The status and the body of a portal's reply. One that is being started is waited for."""
    end = time.monotonic() + 60
    while True:
        link = http.client.HTTPConnection("127.0.0.1", year["port"], timeout=60)
        try:
            data = body if isinstance(body, (bytes, type(None))) else json.dumps(body).encode()
            link.request(method, path, data, {"Portal-Code": code, "Connection": "close"})
            reply = link.getresponse()
            return reply.status, json.loads(reply.read())
        except ConnectionError:
            if time.monotonic() > end:
                raise
            time.sleep(0.2)
        finally:
            link.close()


def phase(year):
    return ask(year, year["office"], "GET", "/me")[1]["phase"]


def minute(ahead):
    """The first full minute that is at least so many seconds ahead."""
    return (int(time.time()) + ahead + 59) // 60 * 60


def schedule(name, at):
    return run(f"portal-schedule phys {name} '{time.strftime('%Y-%m-%d %H:%M', time.localtime(at))}'")


def year_of_physics():
    """A department in choosing, of the example's files."""
    told = run("portal-new phys phys.example.edu && systemctl enable --now portal@phys")[1]
    with open("/etc/portal/phys.conf") as file:
        year = {"office": re.search("^The office's code: (.*)$", told, re.M)[1], "port": int(re.search("^PORT=([0-9]+)$", file.read(), re.M)[1])}
    for roll in ("lecturers", "projects", "students"):
        with open(f"{EXAMPLES}/{roll}.csv", "rb") as file:
            ask(year, year["office"], "POST", f"/rolls/{roll}", file.read())
    ask(year, year["office"], "POST", "/phase", {"phase": "choosing"})
    for name in ("ada", "ben"):
        ask(year, f"student-{name}-1", "PUT", "/choices", {"projects": ["pulsars"]})
    run(f"cp {EXAMPLES}/department.json /etc/portal/phys")
    return year


def moved(year):
    """Two moves at a time: the first is made, and the second is refused, because a lecturer is still to rank."""
    first = minute(8)
    told = schedule("ranking", first), schedule("published", first + 60)
    holds("two moves are set", all(status == 0 for status, _ in told), told)
    with open("/etc/portal/phys/department.json") as file:
        until = json.load(file)["until"]
    ends = [time.strftime("%Y-%m-%dT%H:%M", time.localtime(at)) for at in (first, first + 60)]
    holds("the page has both times", [until["choosing"][:16], until["ranking"][:16]] == ends, until)
    told = run("systemctl list-timers --no-pager portal-schedule@phys.timer")
    holds("systemd waits for the first", "portal-schedule@phys.service" in told[1], told)
    holds("before the time nothing is moved", phase(year) == "choosing" or time.time() >= first)
    came = waits_for(lambda: phase(year) == "ranking", first - time.time() + 30)
    holds("at the time the year is moved", came and 0 <= time.time() - first < 15, time.time() - first)
    holds("the journal has it", waits_for(lambda: "moved: ranking" in run("journalctl --output=cat -u portal-schedule@phys")[1], 10))
    said = "the move to published is refused: still_to_rank bell"
    came = waits_for(lambda: said in run("journalctl --output=cat -u portal-schedule@phys")[1], first + 60 - time.time() + 30)
    holds("a refusal is in the journal, with the lecturer's key", came, run("journalctl --output=cat -u portal-schedule@phys"))
    told = run("portal-health phys")
    holds("portal-health warns of it", told[0] == 1 and "was refused: still_to_rank bell" in told[1], told)
    holds("the year stays", phase(year) == "ranking")


def set_for_later(year):
    """A move whose time comes while the machine is off; returns the time."""
    ask(year, year["office"], "POST", "/ranking/fill", {})
    at = minute(15)
    told = schedule("published", at)
    holds("a new time is set", told[0] == 0 and time.time() < at, told)
    return at


def after_off(year):
    """The machine was off at the time, and is on again."""
    holds("the machine was off at the time", year["off"] < year["at"] < time.time(), year)
    came = waits_for(lambda: phase(year) == "published", 60)
    holds("a machine that was off moves the year when it is on again", came, run("journalctl -u portal-schedule@phys"))
    holds("nothing is set any more", waits_for(lambda: run("portal-schedule phys") == (0, "nothing is set\n"), 10), run("portal-schedule phys"))


try:
    if os.path.exists(KEPT):
        with open(KEPT) as file:
            after_off(json.load(file))
    else:
        year = year_of_physics()
        moved(year)
        year["at"] = set_for_later(year)
        with open(KEPT, "w") as file:
            json.dump(year, file)
except Exception as fault:
    holds("the moves come to their end", False, repr(fault))
end()
