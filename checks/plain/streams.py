"""The reading of a stream of requests, written plainly from docs/FORMATS.md: what stands at the front of the bytes that have come, and what
call a request asks for. Like `httparse` and `csv` it takes lines that end in LF alone; like `serde_json` it limits nesting to 127, and numbers
to the range of doubles."""
import csv
import io
import json
import re

from asking import CONSTANTS, LIMITS, PHASES

HEAD, BODY, LINES = LIMITS["head_bytes"], LIMITS["body_bytes"], LIMITS["head_lines"]
MOST = {kind: LIMITS[kind] for kind in CONSTANTS["rolls"]}
TOKEN = rb"[A-Za-z0-9!#$%&'*+\-.^_`|~]"
METHOD = re.compile(TOKEN + rb"*")
TARGET = re.compile(rb"[\x21-\x7e\x80-\xff]*")
VALUE = re.compile(rb"[\t\x20-\x7e\x80-\xff]*")
KEY = re.compile(rb"[A-Za-z0-9._-]{1,%d}\Z" % LIMITS["longest_key"])
CODE = re.compile(rb"[A-Za-z0-9-]{%d,%d}\Z" % (LIMITS["shortest_code"], LIMITS["longest_code"]))
DIGITS = re.compile(rb"[0-9]{1,%d}\Z" % LIMITS["capacity_digits"])
LENGTH = re.compile(rb"[0-9]{1,%d}\Z" % LIMITS["length_digits"])
csv.field_size_limit(1 << 24)


class Stop(Exception):
    """Why there is no head: `partial` where one may still come, `error`, or `many` where there are too many lines."""


def line_end(data, at):
    """Where the line that ends at `at` is over."""
    if at == len(data):
        raise Stop("partial")
    if data[at] == 10:
        return at + 1
    if data[at] != 13:
        raise Stop("error")
    if at + 1 == len(data):
        raise Stop("partial")
    if data[at + 1] != 10:
        raise Stop("error")
    return at + 2


def word_of(data, form, at, after):
    """A word of one byte or more of this form, and the place after the byte that has to follow."""
    end = form.match(data, at).end()
    if end == len(data):
        raise Stop("partial")
    if end == at or data[end] != after:
        raise Stop("error")
    return data[at:end], end + 1


def head_of(data):
    """The head at the front: length, method, target, minor version, lines as pairs of a small name and a value."""
    at = 0
    while at == len(data) or data[at] in b"\r\n":
        at = line_end(data, at)
    method, at = word_of(data, METHOD, at, 32)
    target, at = word_of(data, TARGET, at, 32)
    try:
        target.decode("utf-8")
    except UnicodeDecodeError:
        raise Stop("error") from None
    for byte in b"HTTP/1.":
        if at == len(data):
            raise Stop("partial")
        if data[at] != byte:
            raise Stop("error")
        at += 1
    if at == len(data):
        raise Stop("partial")
    if data[at] not in b"01":
        raise Stop("error")
    minor = data[at] - 48
    at = line_end(data, at + 1)
    lines = []
    while True:
        if at == len(data):
            raise Stop("partial")
        if data[at] in b"\r\n":
            return line_end(data, at), method, target, minor, lines
        name, at = word_of(data, METHOD, at, 58)
        end = VALUE.match(data, at).end()
        value = data[at:end].strip(b" \t")
        at = line_end(data, end)
        if len(lines) == LINES:
            raise Stop("many")
        lines.append((name.lower(), value))


def is_overlong(data):
    """Whether two lines more than a head may have of header lines, each ended, stand after the leading empty ones and none of them is empty."""
    found = data.split(b"\n")[:-1]
    while found and found[0] in (b"", b"\r"):
        del found[0]
    return len(found) >= LINES + 2 and not any(line in (b"", b"\r") for line in found[:LINES + 2])


def fault_of(minor, lines):
    """The first fault that the lines have, or None, and the length of the body."""
    def values(name):
        return [value for found, value in lines if found == name]
    hosts, lengths = values(b"host"), values(b"content-length")
    if len(hosts) > 1 or minor == 1 and not hosts:
        return (400, "bad_host"), 0
    if values(b"transfer-encoding"):
        return (501, "coded_body"), 0
    if len(lengths) > 1 or lengths and not LENGTH.match(lengths[0]):
        return (400, "bad_length"), 0
    length = int(lengths[0]) if lengths else 0
    return ((413, "too_large") if length > BODY else None), length


def frame(data, ended):
    """What the bytes so far are: a word, and what goes with it."""
    try:
        length, method, target, minor, lines = head_of(data[:HEAD])
    except Stop as stop:
        bad = "Bad", (400, "bad_head"), False
        if stop.args[0] == "error" or len(data) >= HEAD or is_overlong(data):
            return bad
        if not ended:
            return ("Need",)
        return ("End",) if not data.strip(b"\r\n") else bad
    fault, size = fault_of(minor, lines)
    if fault:
        return "Bad", fault, method == b"HEAD"
    if len(data) - length < size:
        return ("Bad", (400, "bad_length"), method == b"HEAD") if ended else ("Need",)
    codes = [value for name, value in lines if name == b"portal-code"]
    parts = [part.strip(b" \t").lower() for name, value in lines if name == b"connection" for part in value.split(b",")]
    request = {
        "method": method,
        "path": target.split(b"?")[0],
        "code": codes[0] if len(codes) == 1 else b"",
        "close": minor == 0 or b"close" in parts,
        "body": data[length:length + size],
    }
    return "Request", request, length + size


# of each path the calls by their methods
ROUTES = {path.encode(): calls | ({"HEAD": calls["GET"]} if "GET" in calls else {}) for path, calls in CONSTANTS["routes"].items()}


class Members(list):
    """The members of an object, in pairs."""


def nesting(value):
    """How deep arrays and objects stand in one another; a text that is no Unicode is refused."""
    if isinstance(value, str):
        value.encode("utf-8")
        return 0
    if isinstance(value, Members):
        return 1 + max([max(nesting(name), nesting(given)) for name, given in value], default=0)
    if isinstance(value, list):
        return 1 + max([nesting(given) for given in value], default=0)
    return 0


def finite(text):
    number = float(text)
    if number in (float("inf"), float("-inf")):
        raise ValueError(text)
    return number


def refused(text):
    raise ValueError(text)


def whole(text):
    """A whole number. Of numbers nothing is asked but which round one names, and a round is named by these digits alone."""
    return int(text) if text in ("1", "2") else finite(text)


def members_of(body):
    """The members of an object; None where the body is none."""
    try:
        value = json.loads(body.decode("utf-8"), object_pairs_hook=Members, parse_constant=refused, parse_float=finite, parse_int=whole)
        if nesting(value) > 127 or not isinstance(value, Members):
            return None
    except (ValueError, RecursionError):
        return None
    return dict(value)


def move_of(members):
    """What is said of a move: its phase, and its round where one is named; None where the members are no move."""
    phase, named = members.get("phase"), [members["round"]] if "round" in members else []
    if set(members) - {"phase", "round"} or phase not in PHASES or any(type(one) is not int for one in named):
        return None
    return " ".join([phase, *map(str, named)])


def capacity(field):
    return DIGITS.match(field) and LIMITS["smallest_capacity"] <= int(field) <= LIMITS["largest_capacity"]


def is_name(field):
    return 1 <= len(field) <= LIMITS["longest_name"] and all(b >= 0x20 and b != 0x7F for b in field)


FORMS = {"id": KEY.match, "lecturer": KEY.match, "name": is_name, "title": is_name, "code": CODE.match, "capacity": capacity}
ROLLS = {ROUTES[f"/rolls/{kind}".encode()]["POST"]: (columns, MOST[kind], [FORMS[name] for name in columns]) for kind, columns in CONSTANTS["rolls"].items()}


def roll_of(kind, body):
    """A roll's rows, or the refusal of its first fault."""
    header, limit, columns = ROLLS[kind]
    text = body[3:] if body.startswith(b"\xef\xbb\xbf") else body
    records = [r for r in csv.reader(io.StringIO(text.decode("latin-1"), newline="")) if r]
    if not records or records[0] != header:
        return "! 400 bad_body []"
    out = kind
    for row, fields in enumerate(records[1:], 1):
        if row > limit:
            return "! 422 roll_full []"
        fields = [field.encode("latin-1") for field in fields]
        try:
            is_bad = len(fields) != len(header)
            for field in fields:
                field.decode("utf-8")
        except UnicodeDecodeError:
            is_bad = True
        if is_bad or not all(has_form(field) for has_form, field in zip(columns, fields)):
            return f"! 422 bad_row [] {row}"
        out += "," + "/".join(field.hex() for field in fields[:3]) + (f" {int(fields[3])}" if len(fields) == 4 else "")
    return out


def call_of(request):
    """The call that a request makes, after its code, or its refusal."""
    if request["path"] not in ROUTES:
        return "! 404 no_route []"
    calls, method = ROUTES[request["path"]], request["method"].decode()
    if method not in calls:
        return f"! 405 bad_method [{', '.join(sorted(calls))}]"
    call = calls[method]
    before, body = request["code"].hex() + " ", request["body"]
    if method in ("GET", "HEAD"):
        return before + call
    if call in ROLLS:
        said = roll_of(call, body)
        return said if said[0] == "!" else before + said
    bad, members = "! 400 bad_body []", members_of(body)
    if members is None:
        return bad
    if call == "FillRankings":
        return bad if members else before + call
    if call == "Move":
        return before + f"Move {move_of(members)}" if move_of(members) else bad
    name = {"SetChoices": "projects", "SetRanking": "students"}[call]
    value = members.get(name)
    if set(members) == {name} and type(value) is list and all(isinstance(text, str) for text in value):
        return before + call + "".join("," + text.encode("utf-8").hex() for text in value)
    return bad
