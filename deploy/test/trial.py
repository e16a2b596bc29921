"""What the checks share: the program, counting, a portal that is stopped and started, the reverse proxy before it, and requests."""
import contextlib
import http.client
import json
import os
import re
import socket
import ssl
import subprocess
import sys
import tempfile
import time

TOP = os.path.dirname(os.path.dirname(os.path.dirname(os.path.abspath(__file__))))
DEPLOY = os.path.join(TOP, "deploy")
sys.path.append(os.path.join(TOP, "checks", "plain"))
from ports import free_port  # noqa: E402, F401
with open(os.path.join(TOP, "checks", "constants.json"), encoding="utf-8") as file:
    CONSTANTS = json.load(file)
LIMITS = CONSTANTS["limits"]
OFFICE = "office-code-0"
LECTURERS = b"id,name,code,capacity\nL1,Lee,lee-code-01,2\nL2,Moe,moe-code-02,1\n"
PROJECTS = b"id,lecturer,title,capacity\nP1,L1,Tides,1\nP2,L1,Kites,1\nP3,L2,Bells,1\n"
STUDENTS = b'id,name,code\nS1,Ann,ann-code-1\nS2,"Roe, Bea",bea-code-2\nS3,Cyr,cyr-code-3\n'

PROGRAM = os.environ.get("PORTAL_PROGRAM") or os.path.join(TOP, "crates", "portal", "out", "portal")
if not os.access(PROGRAM, os.X_OK):
    sys.exit(f"the program is not built: there is no {PROGRAM}; ./portal builds it")


def low_port():
    """One of the ports of departments that nobody listens on. Only root can."""
    first, last = LIMITS["smallest_server_port"], LIMITS["largest_server_port"]
    for port in range(first, last + 1):
        with contextlib.suppress(OSError), socket.socket() as free:
            free.bind(("127.0.0.1", port))
            return port
    raise RuntimeError(f"none of the ports {first} to {last} is free")


class Checks:
    """Counts what holds and what does not, each told in a line."""

    def __init__(self):
        self.passed = self.failed = 0

    def holds(self, what, true, seen=""):
        if true:
            self.passed += 1
            print(f"ok      {what}", flush=True)
        else:
            self.failed += 1
            print(f"FAILED  {what}{': ' if seen != '' else ''}{str(seen)[:400]}", flush=True)
        return true

    def end(self):
        print(f"{self.passed} passed, {self.failed} failed")
        sys.exit(1 if self.failed else 0)


def until(true, seconds, step=0.02):
    """Waits until something is true, at most so long; whether it came."""
    end = time.monotonic() + seconds
    while not true():
        if time.monotonic() > end:
            return False
        time.sleep(step)
    return True


class Served:
    """A portal over a file, at one port, that can be stopped and started."""

    def __init__(self, path, port=None):
        self.path, self.port, self.process = path, port or free_port(), None

    def start(self):
        self.process = subprocess.Popen([PROGRAM, "serve", self.path, "--port", str(self.port), "--connections", "1000000"],
                                        stdout=subprocess.PIPE)
        line = self.process.stdout.readline()
        if line != b"listening 127.0.0.1:%d\n" % self.port:
            raise RuntimeError(line)
        return self

    def stop(self):
        if self.process:
            self.process.kill()
            self.process.wait()
            self.process.stdout.close()
            self.process = None

    def __enter__(self):
        return self.start()

    def __exit__(self, *fault):
        self.stop()


class Queue:
    """The queue of deploy/queue before a portal's port."""

    def __init__(self, port, folder):
        self.port, self.folder = port, folder

    def __enter__(self):
        self.process = subprocess.Popen(["haproxy", "-db", "-q", "-f", os.path.join(DEPLOY, "queue", "queue.cfg")],
                                        env=dict(os.environ, RUNTIME_DIRECTORY=self.folder, PORT=str(self.port)), stderr=subprocess.PIPE)
        if not until(lambda: os.path.exists(f"{self.folder}/{self.port}"), 20):
            raise RuntimeError(self.process.stderr.read())
        return self

    def __exit__(self, *fault):
        self.process.terminate()
        self.process.wait()
        self.process.stderr.close()


class Proxy:
    """The reverse proxy of deploy/Caddyfile and its queue before a portal's port, with TLS on one port of localhost and without on another."""

    def __init__(self, portal, page=None):
        self.folder = tempfile.TemporaryDirectory()
        self.portal, self.page = portal, page or os.path.join(TOP, "web")
        self.tls, self.plain = free_port(), free_port()
        self.log = os.path.join(self.folder.name, "log")

    def __enter__(self):
        folder = self.folder.name
        subprocess.run(["openssl", "req", "-x509", "-newkey", "ec", "-pkeyopt", "ec_paramgen_curve:P-256", "-nodes", "-days", "2",
                        "-subj", "/CN=localhost", "-addext", "subjectAltName=DNS:localhost",
                        "-keyout", f"{folder}/key.pem", "-out", f"{folder}/cert.pem"], check=True, stderr=subprocess.DEVNULL)
        way = f'bind 127.0.0.1\n\timport portal {self.portal} "{self.page}" "{folder}"\n'
        with open(f"{folder}/site.caddy", "w") as site:
            site.write(f"https://localhost:{self.tls} {{\n\ttls {folder}/cert.pem {folder}/key.pem\n\t{way}}}\n")
            site.write(f"http://127.0.0.1:{self.plain} {{\n\t{way}}}\n")
        self.queue = Queue(self.portal, folder).__enter__()
        self.process = subprocess.Popen(["caddy", "run", "--adapter", "caddyfile", "--config", os.path.join(DEPLOY, "Caddyfile")],
                                        stderr=open(self.log, "wb"), env=proxy_settings(folder))
        if not until(lambda: b"serving initial configuration" in self.told(), 20):
            raise RuntimeError(self.told())
        return self

    def __exit__(self, *fault):
        self.process.terminate()
        self.process.wait()
        self.queue.__exit__()
        self.folder.cleanup()

    def put(self, path, data):
        """Puts a file in the department's folder."""
        with open(self.folder.name + path, "wb") as file:
            file.write(data)

    def told(self):
        with open(self.log, "rb") as log:
            return log.read()

    def memory(self):
        """The memory that the reverse proxy has, in MB."""
        with open(f"/proc/{self.process.pid}/status") as file:
            return int(re.search(r"^VmRSS:\s+(\d+) kB$", file.read(), re.M)[1]) // 1000

    def ask(self, method, path, code=None, body=None, lines=(), tls=False, timeout=30):
        """The status, the lines and the body of a reply through the reverse proxy."""
        if tls:
            trusted = ssl.create_default_context(cafile=f"{self.folder.name}/cert.pem")
            link = http.client.HTTPSConnection("localhost", self.tls, timeout=timeout, context=trusted)
        else:
            link = http.client.HTTPConnection("127.0.0.1", self.plain, timeout=timeout)
        try:
            link.putrequest(method, path, skip_accept_encoding=True)
            for name, value in ([("Portal-Code", code)] if code else []) + list(lines):
                link.putheader(name, value)
            if body is not None:
                link.putheader("Content-Length", str(len(body)))
            link.endheaders()
            # What a refusal leaves unread may not be taken any more; the reply is there all the same.
            try:
                if body:
                    link.send(body)
            except (BrokenPipeError, ConnectionResetError):
                pass
            reply = link.getresponse()
            return reply.status, reply.headers, reply.read()
        finally:
            link.close()


def proxy_settings(folder):
    """The surroundings of a Caddy whose sites, queues and own files are in a folder."""
    return dict(os.environ, PORTAL_SITES=f"{folder}/*.caddy", PORTAL_HTTP_PORT=str(free_port()), XDG_DATA_HOME=folder,
                XDG_CONFIG_HOME=folder, PORTAL_QUEUE=f"unix/{folder}/", PORTAL_AT_ONCE="0")


def head(method, path, code=None, lines=(), length=None):
    """The bytes of a request's head."""
    own = [f"{method} {path} HTTP/1.1", "Host: 127.0.0.1", "Connection: close"]
    own += [f"Portal-Code: {code}"] if code else []
    own += [f"Content-Length: {length}"] if length is not None else []
    return "\r\n".join([*own, *lines, "", ""]).encode()


def exchange(port, data, timeout=120):
    """What comes back of these bytes on a connection of their own, until it ends."""
    with socket.create_connection(("127.0.0.1", port), timeout) as link:
        link.sendall(data)
        link.shutdown(socket.SHUT_WR)
        got = b""
        while part := link.recv(65536):
            got += part
        return got


def parted(reply):
    """The status, the lines (names in lower case) and the body of a reply's bytes."""
    top, _, body = reply.partition(b"\r\n\r\n")
    first, *lines = top.decode().split("\r\n")
    return int(first.split()[1]), {line.split(":")[0].lower(): line.split(":", 1)[1].strip() for line in lines}, body


def direct(port, method, path, code=None, body=None):
    """The status, the lines and the body of a reply of the portal itself."""
    return parted(exchange(port, head(method, path, code, length=None if body is None else len(body)) + (body or b"")))


def made(path):
    """Makes an empty file."""
    subprocess.run([PROGRAM, "init", path], input=OFFICE.encode(), stdout=subprocess.DEVNULL, check=True)


def small_year(path, lecturers=LECTURERS, projects=PROJECTS, students=STUDENTS):
    """Makes a file with these rolls, in choosing; where none are told, with the small world of the documents."""
    made(path)
    with Served(path) as served:
        for kind, roll in (("lecturers", lecturers), ("projects", projects), ("students", students)):
            assert direct(served.port, "POST", f"/rolls/{kind}", OFFICE, roll)[0] == 200
        assert direct(served.port, "POST", "/phase", OFFICE, b'{"phase":"choosing"}')[0] == 200
