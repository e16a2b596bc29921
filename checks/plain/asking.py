"""What the scripts share that ask the built program: the program and its processes, the bytes of requests and replies, and connections."""
import json
import os
import socket
import subprocess

from ports import free_port

TOP = os.path.dirname(os.path.dirname(os.path.dirname(os.path.abspath(__file__))))
with open(os.path.join(TOP, "checks", "constants.json"), encoding="utf-8") as _file:
    CONSTANTS = json.load(_file)
LIMITS, PHASES = CONSTANTS["limits"], tuple(CONSTANTS["phases"])
HEADERS = {kind.encode(): ",".join(columns).encode() for kind, columns in CONSTANTS["rolls"].items()}
OFFICE = b"office-code-0"
SECOND = b',"round":2'  # what a move says more that opens the second round
JSON = b"application/json"

# the program


def built():
    """The path of the built program, which `./portal` builds first where it has to; or the one that PORTAL_PROGRAM names."""
    given = os.environ.get("PORTAL_PROGRAM")
    if given:
        return os.path.abspath(given)
    subprocess.run([os.path.join(TOP, "portal"), "--help"], stdout=subprocess.DEVNULL, check=True)
    return os.path.join(TOP, "crates", "portal", "out", "portal")


def ran(program, *words, stdin=b"", before=None, timeout=None):
    """What the program prints, and its status; `before` is done in its process first."""
    done = subprocess.run([program, *words], input=stdin, stdout=subprocess.PIPE, preexec_fn=before, timeout=timeout)
    return done.stdout, done.returncode


def serving(program, path, connections=100000, before=None):
    """A process that serves a file, once it listens, and its port; `before` is done in it first."""
    port = free_port()
    words = [program, "serve", path, "--port", str(port), "--connections", str(connections)]
    server = subprocess.Popen(words, stdout=subprocess.PIPE, stderr=subprocess.STDOUT, preexec_fn=before)
    line = server.stdout.readline()
    assert line == b"listening 127.0.0.1:%d\n" % port, line
    return server, port


def heard(client, seconds=90):
    """All that a server sends until it ends the connection, and how it ends it; a silence of so many seconds is an end too."""
    told = b""
    try:
        client.settimeout(seconds)
        while piece := client.recv(65536):
            told += piece
        return told, "ended"
    except OSError as error:
        return told, type(error).__name__


def exchanged(port, text, seconds=90):
    """What is answered on a connection of its own whose caller sends this and nothing more, and how the connection ends."""
    with socket.create_connection(("127.0.0.1", port)) as client:
        client.sendall(text)
        client.shutdown(socket.SHUT_WR)
        return heard(client, seconds)

# requests


def request(method, path, code, body=b""):
    """The bytes of a request."""
    return b"%s %s HTTP/1.1\r\nHost: h\r\nPortal-Code: %s\r\nContent-Length: %d\r\n\r\n%s" % (method, path, code, len(body), body)


FILL = request(b"POST", b"/ranking/fill", OFFICE, b"{}")


def roll(kind, rows):
    """The office sends a roll with these rows."""
    return request(b"POST", b"/rolls/" + kind, OFFICE, b"\n".join([HEADERS[kind], *rows, b""]))


def moved(phase, named=b""):
    """A move of the office to a phase, and of a round where one is named, as in `,"round":2`."""
    return request(b"POST", b"/phase", OFFICE, b'{"phase":"%s"%s}' % (phase, named))


def texts(keys):
    """Keys as they stand in an array, as in `"P1","P2"`."""
    return ",".join(f'"{key}"' for key in keys).encode()


def chosen(code, keys):
    """A student puts a list of projects; the keys are a text, as in `"P1","P2"`."""
    return request(b"PUT", b"/choices", code, b'{"projects":[%s]}' % keys)


def ranked(code, keys):
    """A lecturer puts a ranking of students."""
    return request(b"PUT", b"/ranking", code, b'{"students":[%s]}' % keys)

# replies


def reply(status, body, kind=JSON, more=b""):
    """The bytes of a reply with this status and phrase, as in `200 OK`, and perhaps more lines."""
    return b"HTTP/1.1 %s\r\ncontent-type: %s\r\ncontent-length: %d\r\n%s\r\n%s" % (status, kind, len(body), more, body)


CLOSE = b"connection: close\r\n"
TOO_LARGE = reply(b"413 Content Too Large", b'{"error":"too_large"}', more=CLOSE)
UNAVAILABLE, UNAVAILABLE_AND_CLOSED = (reply(b"503 Service Unavailable", b'{"error":"unavailable"}', more=more) for more in (b"", CLOSE))


def first_reply(data):
    """The status and the body of the reply at the front of these bytes, and what stands behind it; None where it is not whole."""
    head, cut, rest = data.partition(b"\r\n\r\n")
    lines = head.split(b"\r\n")
    length = [int(line.split(b":")[1]) for line in lines if line.startswith(b"content-length:")]
    if not cut or not length or len(rest) < length[0]:
        return None
    return int(lines[0].split()[1]), rest[:length[0]], rest[length[0]:]


def replies(data):
    """The replies that these bytes are, each with its status and its body; an error where the last one is not whole."""
    found = []
    while data:
        one = first_reply(data)
        if one is None:
            raise ValueError(data)
        status, body, data = one
        found.append((status, body))
    return found
