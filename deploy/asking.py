"""Requests of root's tools to a department's portal. Somebody may have broken into it, so a reply is awaited and read within limits."""
import contextlib
import http.client
import signal

LARGEST_REPLY = 1 << 16


class NoAnswer(Exception):
    """Why a portal has not answered."""


@contextlib.contextmanager
def within(seconds):
    """Ends the block where it takes longer."""
    def late(*_):
        raise NoAnswer(f"its reply takes more than {seconds} seconds")
    signal.signal(signal.SIGALRM, late)
    signal.alarm(seconds)
    try:
        yield
    finally:
        signal.alarm(0)


def ask(port, method, path, code=None, body=None, seconds=30):
    """The status and the bytes of a portal's reply."""
    link = http.client.HTTPConnection("127.0.0.1", port)
    try:
        with within(seconds):
            link.request(method, path, body, {"Connection": "close"} | ({"Portal-Code": code} if code else {}))
            reply = link.getresponse()
            told = reply.read(LARGEST_REPLY + 1)
    except (OSError, http.client.HTTPException) as fault:
        raise NoAnswer(fault) from None
    finally:
        link.close()
    if len(told) > LARGEST_REPLY:
        raise NoAnswer(f"its reply has more than {LARGEST_REPLY} bytes")
    return reply.status, told
