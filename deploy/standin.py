"""Serves a portal and its page on this machine alone where there is no Caddy: for trying, not for a server.

The portal's routes, the paths of other files and the lines of each reply are those of deploy/Caddyfile, which is read for them. The portal is asked one
request at a time.
"""
import contextlib
import http.client
import os
import re
import sys
import threading
from http.server import BaseHTTPRequestHandler, ThreadingHTTPServer
from pathlib import Path
from urllib.parse import unquote

PROXY = (Path(__file__).resolve().parent / "Caddyfile").read_text(encoding="utf-8")


def found(pattern):
    """What stands at the one place of the Caddyfile that is like this."""
    place, = re.findall(pattern, PROXY, re.M | re.S)
    return place


ROUTES = found(r"@portal path (.*?)$").split()
USUAL = re.compile(found(r"@odd not path_regexp (.*?)$"))
PUBLIC = re.compile(found(r"@public path_regexp (.*?)$"))
SAFE = dict(re.findall(r'^\t\t([A-Z][\w-]+) "?([^"{]+?)"?$', found(r"^\(safe\) \{$(.*?)^\}$"), re.M))
KINDS = {".html": "text/html; charset=utf-8", ".css": "text/css; charset=utf-8", ".js": "text/javascript; charset=utf-8", ".svg": "image/svg+xml",
         ".json": "application/json", ".txt": "text/plain; charset=utf-8"}
CODE, READING = "Portal-Code", ("GET", "HEAD")


class Request(BaseHTTPRequestHandler):
    def answer(self):
        path = unquote(self.path.partition("?")[0])
        length = self.headers.get("Content-Length", "")
        body = self.rfile.read(int(length)) if length.isdecimal() else b""
        if not USUAL.fullmatch(path):
            self.reply(*refusal(404, "no_route"))
        elif path in ROUTES:
            self.reply(*self.asked(self.command, path, [CODE, "Content-Length", "Transfer-Encoding"], body))
        elif PUBLIC.fullmatch(path):
            self.serve_optional(path, "no-cache")
        elif path == "/projects.json":
            self.serve_to_callers(path)
        else:
            self.serve_page("/index.html" if path == "/" else path)

    do_GET = do_HEAD = do_PUT = do_POST = do_DELETE = answer

    def asked(self, method, path, names, body=b""):
        """The portal's reply, its status, lines and body, to a request with these lines of the browser's."""
        link = http.client.HTTPConnection("127.0.0.1", self.server.inner, timeout=60)
        with self.server.turn:
            try:
                link.putrequest(method, path, skip_accept_encoding=True)
                for name in names:
                    for value in self.headers.get_all(name, []):
                        link.putheader(name, value)
                link.putheader("Connection", "close")
                link.endheaders()
                with contextlib.suppress(ConnectionError):  # the portal leaves unread what is too long
                    link.send(body)
                reply = link.getresponse()
                return reply.status, [line for line in reply.getheaders() if line[0].lower() != "connection"], reply.read()
            except (OSError, http.client.HTTPException):
                return refusal(503, "unavailable")
            finally:
                link.close()

    def serve_to_callers(self, path):
        """Serves a file of the department to whom the portal knows."""
        told = self.asked("GET", "/me", [CODE])
        if told[0] == 200:
            self.serve_optional(path, "no-store")
        else:
            self.reply(*told)

    def serve_optional(self, path, cache):
        """Serves a file of the department, or an empty reply if it is missing."""
        file = file_in(self.server.beside, path)
        if file or self.command not in READING:
            self.serve(file, cache)
        else:
            self.reply(204, [], b"", cache)

    def serve_page(self, path):
        file = file_in(self.server.web, path)
        if file:
            self.serve(file, "no-cache")
        else:
            self.reply(*refusal(404, "no_route"))

    def serve(self, file, cache):
        if self.command in READING:
            data = Path(file).read_bytes()
            kind = KINDS.get(os.path.splitext(file)[1], "application/octet-stream")
            self.reply(200, [("Content-Type", kind), ("Content-Length", str(len(data)))], data, cache)
        else:
            status, lines, body = refusal(405, "bad_method")
            self.reply(status, [*lines, ("Allow", ", ".join(READING))], body, cache)

    def reply(self, status, lines, body, cache="no-store"):
        self.send_response_only(status)
        for name, value in [*lines, *SAFE.items(), ("Cache-Control", cache)]:
            self.send_header(name, value)
        self.end_headers()
        if self.command != "HEAD":
            self.wfile.write(body)

    def log_message(self, *words):
        """Nothing is logged."""


def file_in(folder, path):
    """The file of a folder at a path, or None where there is none."""
    file = f"{folder}{os.path.normpath('/' + path)}"
    return file if os.path.isfile(file) else None


def refusal(status, word):
    """A refusal in the portal's form: its status, lines and body."""
    body = f'{{"error":"{word}"}}'.encode()
    return status, [("Content-Type", "application/json"), ("Content-Length", str(len(body)))], body


class StandIn(ThreadingHTTPServer):
    """Serves at a port the page of the folder `web`, the portal at the port `inner`, and the department's files of the folder `beside`."""

    def __init__(self, port, inner, web, beside):
        self.inner, self.web, self.beside, self.turn = inner, web, beside, threading.Lock()
        super().__init__(("127.0.0.1", port), Request)
        threading.Thread(target=self.serve_forever, daemon=True).start()

    def handle_error(self, request, address):
        """A browser that has gone away is no fault."""
        if not isinstance(sys.exc_info()[1], ConnectionError):
            super().handle_error(request, address)
