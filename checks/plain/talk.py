"""A connection as docs/FORMATS.md has it: which bytes are answered when, by a year that answers each request, and the bytes of a reply."""
import json

from asking import CONSTANTS, LIMITS
from streams import frame

PHRASES = {int(status): phrase for status, phrase in CONSTANTS["statuses"].items()}


class Talk:
    """A connection, whose bytes may come in pieces."""

    def __init__(self, year):
        self.year, self.data, self.count, self.is_over = year, b"", 0, False

    def hear(self, piece, ended=False):
        """Plays the requests that are whole by now; `ended` says whether nothing comes after the piece. The bytes of each reply."""
        self.data += piece
        while not self.is_over:
            found = frame(self.data, ended)
            if found[0] == "Need":
                return
            self.is_over = found[0] != "Request"
            if found[0] == "Bad":
                (status, word), head_only = found[1:]
                yield reply_bytes(status, {"error": word}, head_only, True)
            if found[0] == "Request":
                yield self.answer(*found[1:])

    def answer(self, asked, used):
        self.data, self.count = self.data[used:], self.count + 1
        self.is_over = asked["close"] or self.count == LIMITS["requests"]
        return self.year.reply(asked, self.is_over)


def status_of(reply):
    return int(reply.split()[1])


def text_of(digits):
    return bytes.fromhex(digits).decode("utf-8")


def read_call(said):
    """The code, the call and what it was given, of the words of `streams.call_of`."""
    code, _, words = said.partition(" ")
    call, *given = words.split(",")
    if call.startswith("Move "):
        call, *given = call.split()
    elif call.startswith("Add"):
        given = [read_row(row) for row in given]
    else:
        given = [text_of(digits) for digits in given]
    return text_of_code(code), call, given


def text_of_code(digits):
    return bytes.fromhex(digits).decode("latin-1")


def read_row(row):
    fields, _, capacity = row.partition(" ")
    return [text_of(digits) for digits in fields.split("/")] + ([int(capacity)] if capacity else [])


def refusal_bytes(said, head_only, close):
    """The reply to a refusal of `streams.call_of`: `! STATUS WORD [ALLOW] ROW`."""
    words, _, rest = said[2:].partition(" [")
    status, word = words.split()
    allow, _, row = rest.partition("]")
    body = {"error": word} | ({"row": int(row)} if row else {})
    return reply_bytes(int(status), body, head_only, close, allow)


def reply_bytes(status, body, head_only, close, allow=""):
    kind, text = body if isinstance(body, tuple) else ("application/json", json.dumps(body, sort_keys=True, separators=(",", ":"), ensure_ascii=False))
    data = text.encode("utf-8")
    head = f"HTTP/1.1 {status} {PHRASES[status]}\r\ncontent-type: {kind}\r\ncontent-length: {len(data)}\r\n"
    head += (f"allow: {allow}\r\n" if status == 405 else "") + ("connection: close\r\n" if close else "") + "\r\n"
    return head.encode() + (b"" if head_only else data)
