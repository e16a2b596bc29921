"""The portal's routes as a plain program, by Flask or by http.server, over sqlite3 with its default durability and the same six tables,
whose foreign keys sqlite3 tests where it is told to, as here; PLAIN_FOREIGN_KEYS=OFF leaves these rules out. It looks at callers, roles and
phases, and at little else. Usage: flask_portal.py DB PORT flask, gunicorn for Flask under gunicorn, or http for http.server; makes the file."""
import csv
import io
import json
import os
import sqlite3
import sys

sys.path.insert(0, os.path.join(os.path.dirname(os.path.dirname(os.path.dirname(os.path.abspath(__file__)))), "checks", "plain"))
from asking import CONSTANTS, LIMITS, OFFICE, PHASES  # noqa: E402
from tables import FIRST  # noqa: E402
from year import best  # noqa: E402


FOREIGN_KEYS = os.environ.get("PLAIN_FOREIGN_KEYS", "ON")


class Refused(Exception):
    """A status, and the word that goes with it."""


def caller_of(db, code):
    if db.execute("SELECT 1 FROM portal WHERE office = ?", (code,)).fetchone():
        return "office", None
    for role in ("lecturer", "student"):
        row = db.execute(f"SELECT key, name FROM {role} WHERE code = ?", (code,)).fetchone()
        if row:
            return role, row
    raise Refused(403, "no_caller")


def me(db, role, who, body):
    told = {"phase": PHASES[phase_of(db)], "role": role}
    if who:
        told |= {"key": who[0], "name": who[1]}
    if role == "lecturer":
        told["capacity"], = db.execute("SELECT capacity FROM lecturer WHERE key = ?", who[:1]).fetchone()
    return told


def catalogue(db, role, who, body):
    rows = db.execute("SELECT p.capacity, p.key, p.lecturer, l.name, p.title FROM project p JOIN lecturer l ON l.key = p.lecturer ORDER BY p.key")
    return {"projects": [dict(zip(("capacity", "id", "lecturer", "lecturer_name", "title"), row)) for row in rows]}


def listed(db, table, owner, item, key):
    return [found for found, in db.execute(f"SELECT {item} FROM {table} WHERE {owner} = ? ORDER BY place", (key,))]


def put_list(db, table, owner, key, items):
    db.execute(f"DELETE FROM {table} WHERE {owner} = ?", (key,))
    db.executemany(f"INSERT INTO {table} VALUES (?, ?, ?)", [(key, place, item) for place, item in enumerate(items, 1)])


def show_choices(db, role, who, body):
    return {"projects": listed(db, "choice", "student", "project", who[0])}


def put_choices(db, role, who, body):
    projects = json.loads(body)["projects"]
    known = {key for key, in db.execute("SELECT key FROM project")}
    if len(projects) > LIMITS["list"] or len(set(projects)) < len(projects) or not known.issuperset(projects):
        raise Refused(422, "bad_list")
    put_list(db, "choice", "student", who[0], projects)
    return {"projects": projects}


def applicants_of(db, project):
    rows = db.execute("SELECT s.key, s.name FROM choice c JOIN student s ON s.key = c.student WHERE c.project = ? ORDER BY s.key", (project,))
    return [{"key": key, "name": name} for key, name in rows]


def own_projects(db, lecturer):
    return [key for key, in db.execute("SELECT key FROM project WHERE lecturer = ? ORDER BY key", (lecturer,))]


def applicants(db, role, who, body):
    return {"projects": [{"id": key, "applicants": applicants_of(db, key)} for key in own_projects(db, who[0])]}


def show_ranking(db, role, who, body):
    ranked, = db.execute("SELECT ranked FROM lecturer WHERE key = ?", who[:1]).fetchone()
    return {"students": listed(db, "ranking", "lecturer", "student", who[0]) if ranked else None}


def put_ranking(db, role, who, body):
    students = json.loads(body)["students"]
    there = {one["key"] for key in own_projects(db, who[0]) for one in applicants_of(db, key)}
    if sorted(students) != sorted(there):
        raise Refused(422, "bad_list")
    put_list(db, "ranking", "lecturer", who[0], students)
    db.execute("UPDATE lecturer SET ranked = 1 WHERE key = ?", who[:1])
    return {"students": students}


def result(db, role, who, body):
    if role == "student":
        return {"project": db.execute("SELECT assigned FROM student WHERE key = ?", who[:1]).fetchone()[0]}
    found = []
    for project in own_projects(db, who[0]):
        rows = db.execute("SELECT key, name FROM student WHERE assigned = ? ORDER BY key", (project,))
        found.append({"id": project, "students": [{"key": key, "name": name} for key, name in rows]})
    return {"projects": found}


def roll(table, ends):
    """Adds the rows of a roll; those that are there and the same are counted."""
    def add(db, role, who, body):
        there, added, same = {row[0]: row for row in db.execute(f"SELECT * FROM {table}")}, [], 0
        for fields in list(csv.reader(io.StringIO(body.decode("utf-8"))))[1:]:
            row = tuple([*fields[:-1], int(fields[-1])] if table != "student" else fields)
            if row[0] not in there:
                added.append(row + ends)
            elif there[row[0]][:len(row)] == row:
                same += 1
            else:
                raise Refused(409, "roll_conflict")
        marks = ",".join("?" * len(added[0])) if added else ""
        db.executemany(f"INSERT INTO {table} VALUES ({marks})", added) if added else None
        return {"added": len(added), "same": same}
    return add


def still_to_rank(db):
    rows = db.execute("SELECT key FROM lecturer l WHERE ranked = 0 AND EXISTS (SELECT 1 FROM choice c"
                      " JOIN project p ON p.key = c.project WHERE p.lecturer = l.key) ORDER BY key")
    return [key for key, in rows]


def lists_of(db, table, owner, item):
    found = {}
    for key, one in db.execute(f"SELECT {owner}, {item} FROM {table} ORDER BY {owner}, place"):
        found.setdefault(key, []).append(one)
    return found


def move(db, role, who, body):
    to = PHASES.index(json.loads(body)["phase"])
    if to == 3:
        if still_to_rank(db):
            raise Refused(409, "still_to_rank")
        projects = {key: (lecturer, capacity) for key, lecturer, capacity in db.execute("SELECT key, lecturer, capacity FROM project")}
        lists, rankings = lists_of(db, "choice", "student", "project"), lists_of(db, "ranking", "lecturer", "student")
        found = best(projects, dict(db.execute("SELECT key, capacity FROM lecturer")), lists, rankings)
        db.executemany("UPDATE student SET assigned = ? WHERE key = ?", [(project, student) for student, project in found.items()])
    db.execute("UPDATE portal SET phase = ?", (to,))
    return {"phase": PHASES[to]}


def fill(db, role, who, body):
    filled = still_to_rank(db)
    for lecturer in filled:
        put_list(db, "ranking", "lecturer", lecturer, sorted({one["key"] for key in own_projects(db, lecturer) for one in applicants_of(db, key)}))
        db.execute("UPDATE lecturer SET ranked = 1 WHERE key = ?", (lecturer,))
    return {"filled": filled}


def status(db, role, who, body):
    told = {"phase": PHASES[phase_of(db)]}
    told |= {name + "s": db.execute(f"SELECT count(*) FROM {name}").fetchone()[0] for name in ("lecturer", "project", "student")}
    told["without_list"] = [key for key, in db.execute("SELECT key FROM student WHERE key NOT IN (SELECT student FROM choice) ORDER BY key")]
    told["still_to_rank"] = still_to_rank(db) if told["phase"] == "ranking" else []
    told["unassigned"] = [key for key, in db.execute("SELECT key FROM student WHERE assigned IS NULL ORDER BY key")]
    return told


def allocation_csv(db, role, who, body):
    out = io.StringIO()
    writer = csv.writer(out, lineterminator="\n")
    writer.writerow(["student", "name", "project", "title", "lecturer"])
    writer.writerows(db.execute("SELECT s.key, s.name, p.key, p.title, p.lecturer FROM student s LEFT JOIN project p ON p.key = s.assigned ORDER BY s.key"))
    return out.getvalue()


ACTS = {
    "Me": me, "Catalogue": catalogue, "ShowChoices": show_choices, "SetChoices": put_choices, "Applicants": applicants, "ShowRanking": show_ranking,
    "SetRanking": put_ranking, "Result": result, "AddLecturers": roll("lecturer", (0,)), "AddProjects": roll("project", ()),
    "AddStudents": roll("student", (None,)), "Move": move, "FillRankings": fill, "Status": status, "AllocationCsv": allocation_csv,
}


def rules(call):
    """Who may make a call, in which phases of the first round, and what it does."""
    return CONSTANTS["calls"][call]["who"].split(), list(map(PHASES.index, CONSTANTS["calls"][call]["first"].split())), ACTS[call]


ROUTES = {(method, path): rules(call) for path, calls in CONSTANTS["routes"].items() for method, call in calls.items() if call in ACTS}


def phase_of(db):
    return db.execute("SELECT phase FROM portal").fetchone()[0]


def answer(path, method, route, code, body):
    """The status and the text of the answer to a request, in one transaction."""
    db = sqlite3.connect(path)
    db.execute(f"PRAGMA foreign_keys = {FOREIGN_KEYS}")
    try:
        if (method, route) not in ROUTES:
            raise Refused(404, "no_route")
        roles, phases, act = ROUTES[method, route]
        role, who = caller_of(db, code)
        if role not in roles:
            raise Refused(403, "not_yours")
        if phase_of(db) not in phases:
            raise Refused(409, "wrong_phase")
        told = act(db, role, who, body)
        db.commit()
        return 200, told if isinstance(told, str) else json.dumps(told)
    except Refused as refused:
        return refused.args[0], json.dumps({"error": refused.args[1]})
    finally:
        db.close()


def flask_app(path):
    import logging

    import flask
    app = flask.Flask("portal")
    logging.getLogger("werkzeug").disabled = True

    @app.route("/<path:route>", methods=["GET", "PUT", "POST"])
    def asked(route):
        request = flask.request
        status, text = answer(path, request.method, "/" + route, request.headers.get("Portal-Code", ""), request.get_data())
        return flask.Response(text, status, mimetype="application/json")
    return app


def serve_flask(path, port):
    flask_app(path).run(port=port)


def serve_gunicorn(path, port):
    from gunicorn.app.base import BaseApplication

    class Served(BaseApplication):
        def load_config(self):
            for name, value in (("bind", f"127.0.0.1:{port}"), ("worker_class", "gthread"), ("threads", 2), ("keepalive", 60)):
                self.cfg.set(name, value)

        def load(self):
            return flask_app(path)
    Served().run()


def serve_plain(path, port):
    from http.server import BaseHTTPRequestHandler, ThreadingHTTPServer

    class Handler(BaseHTTPRequestHandler):
        protocol_version = "HTTP/1.1"
        disable_nagle_algorithm = True

        def asked(self):
            body = self.rfile.read(int(self.headers.get("Content-Length", "0")))
            status, text = answer(path, self.command, self.path, self.headers.get("Portal-Code", ""), body)
            data = text.encode()
            self.send_response(status)
            self.send_header("Content-Length", str(len(data)))
            self.end_headers()
            self.wfile.write(data)

        do_GET = do_PUT = do_POST = asked

        def log_message(self, *words):
            pass
    ThreadingHTTPServer(("127.0.0.1", port), Handler).serve_forever()


def main():
    path, port = sys.argv[1], int(sys.argv[2])
    db = sqlite3.connect(path)
    db.executescript(FIRST)
    db.execute("INSERT INTO portal VALUES (1, 1, 0, ?)", (OFFICE.decode(),))
    db.commit()
    db.close()
    {"flask": serve_flask, "gunicorn": serve_gunicorn, "http": serve_plain}[sys.argv[3]](path, port)


main()
