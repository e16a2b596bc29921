"""The portal over a file, and the door in front of it: what each test of the page begins with."""

import atexit
import json
import os
import shutil
import socket
import subprocess
import sys
import tempfile
import time
import urllib.error
import urllib.request
from pathlib import Path

WEB = Path(__file__).resolve().parent.parent
TOP = WEB.parent
OFFICE = "office-of-2026"

sys.path += [str(TOP / "examples"), str(TOP / "deploy"), str(TOP / "checks/plain")]
from large import Large, STEPS  # noqa: E402
from ports import free_port  # noqa: E402
from standin import StandIn  # noqa: E402

# The databases of the large department, by the step to which each was played: once for all tests of a run.
PLAYED = Path(tempfile.mkdtemp(prefix="portal-played-"))
atexit.register(shutil.rmtree, PLAYED, ignore_errors=True)

# One department at the door of deploy/Caddyfile, with a certificate of its own.
SITE = """https://localhost:{port} {{
    bind 127.0.0.1
    tls {folder}/cert.pem {folder}/key.pem
    import portal {portal_port} {folder}/site {folder}/notice
}}
"""
CERTIFICATE = ("openssl req -x509 -newkey ec -pkeyopt ec_paramgen_curve:prime256v1 -nodes -days 2 -subj /CN=localhost -keyout key.pem -out "
               "cert.pem")


def program():
    """The program to test, or None where it is not built."""
    path = Path(os.environ.get("PORTAL_PROGRAM") or TOP / "crates/portal/out/portal")
    return path.resolve() if path.is_file() else None


def wait_for(port, process):
    for _ in range(1200):
        if process.poll() is not None:
            raise RuntimeError(f"{process.args[0]} has ended, with status {process.returncode}")
        with socket.socket() as client:
            if client.connect_ex(("127.0.0.1", port)) == 0:
                return
        time.sleep(0.05)
    raise RuntimeError(f"nothing listens on port {port}")


class Door:
    """One portal and one door. `site` has links to the files of web/ that are served, `notice` the notice where a test puts one."""

    def __init__(self):
        self.folder = tempfile.TemporaryDirectory(prefix="portal-page-")
        self.path = Path(self.folder.name)
        self.portal_port, self.port = free_port(), free_port()
        self.notice = self.path / "notice"
        site = self.path / "site"
        for folder in (site, self.notice):
            folder.mkdir()
        for file in WEB.iterdir():
            if file.suffix in (".html", ".css", ".js", ".svg"):
                (site / file.name).symlink_to(file)
        self.make_year()
        self.start_portal()
        self.start_door()

    def make_year(self):
        subprocess.run([program(), "init", self.path / "year.db"], input=f"{OFFICE}\n", text=True, check=True, stdout=subprocess.DEVNULL)

    def new_year(self, folder=None):
        """The portal of another year takes the place of this one, at the same address: a new one, or the one whose database is in a
        folder."""
        self.stop_portal()
        for file in self.path.glob("year.db*"):
            file.unlink()
        if folder is None:
            self.make_year()
        else:
            for file in folder.iterdir():
                shutil.copy(file, self.path)
        self.start_portal()

    def start_portal(self):
        words = [program(), "serve", self.path / "year.db", "--port", str(self.portal_port), "--connections", "100000"]
        self.portal = subprocess.Popen(words, stdout=subprocess.DEVNULL)
        wait_for(self.portal_port, self.portal)

    def stop_portal(self):
        self.portal.kill()
        self.portal.wait()

    def start_door(self):
        self.address = f"https://localhost:{self.port}"
        subprocess.run(CERTIFICATE.split(), cwd=self.path, check=True, stderr=subprocess.DEVNULL)
        sites = self.path / "localhost.caddy"
        sites.write_text(SITE.format(port=self.port, portal_port=self.portal_port, folder=self.path))
        own = {"PORTAL_SITES": str(sites), "PORTAL_HTTP_PORT": str(free_port()), "HOME": str(self.path)}
        own |= {"XDG_DATA_HOME": str(self.path / "data"), "XDG_CONFIG_HOME": str(self.path / "config")}
        words = ["caddy", "run", "--config", TOP / "deploy/Caddyfile", "--adapter", "caddyfile"]
        with open(self.path / "door.log", "w") as log:
            self.door = subprocess.Popen(words, stdout=log, stderr=log, env={**os.environ, **own})
        wait_for(self.port, self.door)

    def stop_door(self):
        self.door.terminate()
        self.door.wait()

    def stop(self):
        self.stop_portal()
        self.stop_door()
        self.folder.cleanup()

    def ask(self, code, method, path, body=None):
        """Asks the portal itself, past the door: status and text."""
        data = None if body is None else body if isinstance(body, bytes) else json.dumps(body).encode()
        request = urllib.request.Request(f"http://127.0.0.1:{self.portal_port}{path}",
                                         data, {
                                             "Portal-Code": code,
                                             "Connection": "close"
                                         },
                                         method=method)
        try:
            with urllib.request.urlopen(request, timeout=30) as reply:
                return reply.status, reply.read().decode()
        except urllib.error.HTTPError as refusal:
            return refusal.code, refusal.read().decode()

    def do(self, code, method, path, body=None):
        """Asks, and is sure that it was done."""
        status, text = self.ask(code, method, path, body)
        assert status == 200, f"{method} {path}: {status} {text}"
        return json.loads(text) if text.startswith("{") else text

    def load_rolls(self, folder=TOP / "examples/year"):
        for roll in ("lecturers", "projects", "students"):
            self.do(OFFICE, "POST", f"/rolls/{roll}", (folder / f"{roll}.csv").read_bytes())

    def load_large(self, phase="setup", round_=1):
        """The department of examples/large.py, played up to a phase. Answers who is in it."""
        large, aim = Large(), STEPS.index((phase, round_))
        folders = [PLAYED / f"{phase_}-{turn}" for phase_, turn in STEPS[:aim + 1]]
        found = next((at for at in range(aim, -1, -1) if folders[at].is_dir()), None)
        if found is not None:
            self.new_year(folders[found])
        for at in range(0 if found is None else found + 1, aim + 1):
            large.enter(self.do, OFFICE, *STEPS[at])
            self.stop_portal()
            part = PLAYED / f"part-{os.getpid()}"
            part.mkdir()
            for file in self.path.glob("year.db*"):
                shutil.copy(file, part)
            try:
                part.rename(folders[at])
            except OSError:  # another process was quicker
                shutil.rmtree(part)
            self.start_portal()
        return large

    def move(self, phase):
        self.do(OFFICE, "POST", "/phase", {"phase": phase})

    def log(self):
        return (self.path / "door.log").read_text()


class DoorWithoutCaddy(Door):
    """The stand-in that deploy/local takes where there is no Caddy."""

    def start_door(self):
        self.address = f"http://localhost:{self.port}"
        self.door = StandIn(self.port, self.portal_port, self.path / "site", self.notice)

    def stop_door(self):
        self.door.shutdown()
        self.door.server_close()

    def log(self):
        return ""
