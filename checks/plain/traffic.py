"""Streams of requests, good ones and such with faults, at random and at each limit: what a hostile caller may send."""
from asking import HEADERS, LIMITS, PHASES
from streams import BODY, HEAD, LINES, MOST, ROUTES

OWN = [path for path, calls in ROUTES.items() if "GET" in calls]
CODES = [b"office-code-0", b"lee-code-01", b"moe-code-02", b"ann-code-1", b"bea-code-2", b"cyr-code-3"]
ODD_CODES = [b"", b"nobody-code", b"a b\tc", "é".encode(), b"\xff"]
LISTS = {b"/choices": b"projects", b"/ranking": b"students"}
ROLLS = {
    b"/rolls/lecturers": (HEADERS[b"lecturers"], [b"L1,Lee,lee-code-01,2", b'L2,"Roe, Bea",roe-code-02,200']),
    b"/rolls/projects": (HEADERS[b"projects"], [b"P1,L1,Tides,1", b'P2,L1,"a ""b"" c",0000012']),
    b"/rolls/students": (HEADERS[b"students"], [b"S1,Ann,ann-code-1", b'S2,"Roe,\nBea",bea-code-22', "S3,Łuk,luk-code-3".encode()]),
}
BAD_ROWS = [b"S1", b"a b,Ann,ann-code-1", b"S1,Ann,ann-code-1,0", b"S1,\xff,ann-code-1", b"L1,Lee,lee-code-01,201", b"P1,L1,,1", b"S1,\x7f,ann-code-1",
            b"S1,Ann,short", b"L1,Lee,lee-code-01,12345678", b",,", b"L1,Lee,lee-code-01,0", b"L1,Lee,lee-code-01,00000001", b"P1,L1,Tides,00000001", b'S1,"Ann,ann-code-1', b"S1,A\"nn,ann-code-1"]
TEXTS = [b'"P1"', b'"P2"', b'"S1"', b'""', b'"a b"', b'"\\u0041\\n"', b'"\\ud83d\\ude00"', '"Łuk"'.encode()]
ODD_ROUNDS = [b"0", b"3", b"-1", b"2.0", b"1e0", b"20e-1", b"02", b"true", b"null", b'"2"', b"[2]", b"18446744073709551618", b'2,"round":1']
ODD = [b'"\\ud800"', b'"\\ude00\\ud83d"', b"1", b"null", b'["P1"]', b'"\x01"', b'"\xff"', b'"\\x"', b'"P1', b"1e999", b"-", b"01", b"NaN", b'{"a":1}', b"True"]


def json_of(chance, path):
    """A body for a path whose body is JSON: most are good."""
    texts = [chance.choice(TEXTS if chance.random() < 0.97 else ODD) for _ in range(chance.choice([0, 1, 1, 2, 3, LIMITS["list"]]))]
    blank = chance.choice([b"", b"", b" ", b"\r\n\t "])
    listed = b"[" + (blank + b"," + blank).join(texts) + b"]"
    name = LISTS.get(path, b"phase")
    value = listed if path in LISTS else b'"' + chance.choice([*(phase.encode() for phase in PHASES), b"choosin\\u0067", b"Setup", b""]) + b'"'
    members = [] if path == b"/ranking/fill" else [b'"' + name + b'"' + blank + b":" + value]
    if path == b"/phase" and chance.random() < 0.3:
        members.insert(chance.randint(0, 1), b'"round"' + blank + b":" + chance.choice([b"1", b"2"] * 6 + ODD_ROUNDS))
    if chance.random() < 0.15:
        deep = chance.choice([3, 125, 126, 127, 128, 300])
        inner = chance.choice([b"[" * deep + b"]" * deep, b'{"a":' * deep + b"1" + b"}" * deep, b"1.5e3", b"1e999", b"-0", b"9" * chance.choice([20, 308, 309, 310]), b"tru", b'"\\udc00"'])
        members.insert(chance.randint(0, len(members)), b'"' + chance.choice([name, name, b"x", b"\\u0070hase"]) + b'":' + inner)
    if chance.random() < 0.05:
        members.append(chance.choice([b'"x":1', b"", b'"' + name + b'":[]', b'"' + name + b'":"setup"', b'"a\\ud800":1']))
    body = blank + b"{" + blank + b",".join(members) + blank + b"}" + blank
    if chance.random() < 0.05:
        body = chance.choice([b"", b"\xef\xbb\xbf" + body, body + b"x", listed, body[:-1], b"null", body.replace(b'"', b"'"), body + body])
    return body


def roll_of(chance, path):
    """A roll: most have good rows alone."""
    header, rows = ROLLS[path]
    count = chance.choice([0, 1, 2, 3, 8, 40])
    if chance.random() < 0.01:
        count = MOST[path.decode().removeprefix("/rolls/")] + chance.choice([0, 1])
    lines = [header] + [chance.choice(rows) for _ in range(count)]
    if chance.random() < 0.3:
        lines.insert(chance.randint(0, min(len(lines), 50)), chance.choice(BAD_ROWS + [b"", b"", header]))
    end = chance.choice([b"\n", b"\r\n", b"\n", b"\r"])
    return (b"\xef\xbb\xbf" if chance.random() < 0.2 else b"") + end.join(lines) + chance.choice([b"", end])


def any_case(chance, name):
    return bytes(chance.choice([b, b ^ 32]) if 65 <= b & 0xDF <= 90 else b for b in name) if chance.random() < 0.3 else name


def lengths_of(chance, size):
    """The values of the Content-Length lines for a body of this size."""
    said = str(size).encode()
    if chance.random() < 0.9:
        return [said] if size or chance.random() < 0.3 else []
    return chance.choice([[b"+" + said], [b"-" + said], [said, said], [b" " + said + b"\t"], [said.zfill(18)], [said.zfill(19)], [b"1" * 18], [b"1" * 19],
                          [b"%d" % BODY], [b"%d" % (BODY + 1)], [b""], [b"0x10"], [said + b" 1"], [said + b",", said], [b"\xd9\xa1"], [str(size + 1).encode()], [str(max(size - 1, 0)).encode()], []])


def request(chance):
    """A request, good or with some of what a hostile caller may send."""
    kind = chance.random()
    path = chance.choice(OWN if kind < 0.45 else [b"/choices", b"/ranking", b"/phase", b"/ranking/fill"] if kind < 0.75 else list(ROLLS))
    method = b"GET" if kind < 0.45 else b"PUT" if path in LISTS else b"POST"
    if chance.random() < 0.12:
        method = chance.choice([b"HEAD", b"HEAD", b"GET", b"PUT", b"POST", b"DELETE", b"get", b"Head", b"M-SEARCH", b"X" * 70, b"OPTIONS", b"a|~"])
    body = b""
    if method not in (b"GET", b"HEAD") or chance.random() < 0.1:
        body = roll_of(chance, path) if path in ROLLS else json_of(chance, path if path in LISTS or path in (b"/phase", b"/ranking/fill") else b"/choices")
    if chance.random() < 0.05:
        path = chance.choice([b"/", b"*", b"me", b"/me/", b"//me", b"/Me", b"/%6de", b"/m", b"/choices/x", "/é".encode(), b"/\xff", b"http://h/me", b"/rolls", b"/{x}", b"/me#a", b"/me;a"])
    target = path + (chance.choice([b"?", b"?a=b", b"?a?b", b"?\xc3\xa9", b"?\xc3"]) if chance.random() < 0.1 else b"")
    lines = [(b"Host", b"h")]
    if chance.random() < 0.05:
        lines = chance.choice([[], [(b"Host", b"h"), (b"hOST", b"h")], [(b"Host", b"")], [(b"Host", b"h")] * 3])
    if chance.random() < 0.7:
        lines += [(b"portal-code", chance.choice(CODES + ODD_CODES if chance.random() < 0.1 else CODES))] * chance.choice([1] * 12 + [2])
    lines += [(b"Content-Length", said) for said in lengths_of(chance, len(body))]
    if chance.random() < 0.1:
        lines.append((b"Connection", chance.choice([b"close", b"keep-alive", b"Keep-Alive, CLOSE", b"closed", b"a,\tclose \t,b", b"clo se", b",", b"", b'"close"', b"close;q=1", b"upgrade"])))
        lines += [(b"connection", chance.choice([b"x", b"Close"]))] * chance.choice([0, 0, 1])
    if chance.random() < 0.02:
        lines.append((b"Transfer-Encoding", chance.choice([b"chunked", b"", b"identity"])))
    if chance.random() < 0.05:
        lines.append((b"Expect", b"100-continue"))
    if chance.random() < 0.05:
        lines += [(b"x-%d" % n, b"y") for n in range(LINES + chance.choice([-1, 0, 1, 2, 3]) - len(lines))]
    chance.shuffle(lines)
    end = chance.choice([b"\r\n"] * 6 + [b"\n"])
    version = chance.choice([b"HTTP/1.1"] * 30 + [b"HTTP/1.0"] * 3 + [b"HTTP/1.2", b"HTTP/2.0", b"http/1.1", b"HTTP/1.", b"HTTP/1.11"][:chance.choice([0, 0, 5])])
    before = end * chance.choice([0] * 12 + [1, 2])
    head = [method + b" " + target + b" " + version]
    head += [any_case(chance, name) + b":" + chance.choice([b" ", b" ", b"", b"\t "]) + said + chance.choice([b"", b"", b" ", b"\t"]) for name, said in lines]
    if chance.random() < 0.03:
        head.append(chance.choice([b" folded", b"no colon", b"a b: c", b": x", b"x : y", b"x: \x01", b"x: \x7f", b"x: \r y", b"\xc3\xa9: x"]))
    text = before + end.join(head) + end + end
    if chance.random() < 0.04:
        text = filled(chance, before, head, end)
    return text + body


def filled(chance, before, head, end):
    """The head with one more line, which brings it near the greatest size."""
    size = HEAD + chance.choice([-2, -1, 0, 1, 6])
    filler = size - len(before + end.join(head) + end + end) - len(b"f:" + end)
    if chance.random() < 0.2:
        return end * (size // len(end)) + b"GET /me HTTP/1.1"
    return before + end.join([*head, b"f:" + b"z" * max(filler, 0)]) + end + end


def mutated(chance, text):
    text = bytearray(text)
    for _ in range(chance.choice([0] * 7 + [1, 2, 4])):
        at = chance.randint(0, len(text)) if chance.random() < 0.7 else chance.randint(0, min(len(text), 80))
        what = chance.choice([b"\r", b"\n", b" ", b"\t", b":", b"\x00", b"\x7f", b"\xff", b"\xc3\xa9", b"a", b",", b'"', b"0", b"\r\n\r\n", b""])
        text[at:at + chance.choice([0, 0, 1, 1, 5])] = what
    return bytes(text)


def stream_of(chance):
    kind = chance.random()
    if kind < 0.01:
        close = LIMITS["requests"] + chance.choice([-2, -1, 0, 44])
        one = [b"GET /me HTTP/1.1\r\nHost: h\r\n\r\n", b"HEAD /choices HTTP/1.1\nhost:h\n\n"]
        return b"".join(chance.choice(one) for _ in range(close)) + chance.choice([b"", b"GET /me HTTP/1.0\r\n\r\n", b"GET"])
    if kind < 0.02:
        size = BODY + chance.choice([-1, 0, 1])
        return b"PUT /choices HTTP/1.1\r\nHost: h\r\nContent-Length: %d\r\n\r\n" % size + b" " * chance.choice([size, size - 15, size - 16]) + b'{"projects":[]}' + request(chance)
    if kind < 0.04:
        return chance.choice([b"", b"\r\n", b"\n\r\n", b"\r", b"\r\r\n", b"\n" * (HEAD - 1), b"\n" * HEAD, b"\r\n" * (HEAD // 2 - 1) + b"\r", b"\r\n" * (HEAD // 2)]) + chance.choice([b"", request(chance)])
    if kind < 0.06:
        start = chance.choice([b"GET /me HTTP/1.1", b"\r\nGET /me HTTP/1.0"])
        return start + b"\r\n" + b"".join(b"x: %d\r\n" % n for n in range(LINES + chance.choice([-2, -1, 0, 1, 2, 8]))) + chance.choice([b"", b"\r\n", b"Host: h\r\n\r\n", b"\x01", b"y"])
    text = b"".join(request(chance) for _ in range(chance.choice([1, 1, 2, 3, 6])))
    text = mutated(chance, text)
    return text[:chance.randint(0, len(text))] if chance.random() < 0.12 else text


def post(path, body):
    return b"POST %s HTTP/1.1\r\nHost: h\r\nportal-code: office-code-0\r\nContent-Length: %d\r\n\r\n%s" % (path, len(body), body)


def at_limits():
    """Streams at each limit, and one beyond."""
    for path, (header, rows) in ROLLS.items():
        limit = MOST[path.decode().removeprefix("/rolls/")]
        for count in (limit, limit + 1):
            yield post(path, header + b"\n" + (rows[0] + b"\n") * count)
        yield post(path, header + b"\n" + (rows[0] + b"\n") * limit + b"x\n")
    for size in (BODY, BODY + 1):
        yield b"PUT /choices HTTP/1.1\r\nHost: h\r\nContent-Length: %d\r\n\r\n" % size + b" " * (size - 15) + b'{"projects":[]}'
    for count in (LIMITS["requests"] - 1, LIMITS["requests"], LIMITS["requests"] + 1):
        yield b"GET /me HTTP/1.1\r\nHost: h\r\n\r\n" * count
        yield b"GET /me HTTP/1.1\r\nHost: h\r\n\r\n" * (count - 1) + b"GET /me HTTP/1.0\r\nHost: h\r\n\r\n"
    for count in range(LINES - 1, LINES + 3):
        lines = b"GET /me HTTP/1.1\r\nHost: h\r\n" + b"x: y\r\n" * (count - 1)
        yield from (lines, lines + b"\r\n", lines + b"x", lines + b"\x01", b"\r\n\n" + lines + b"x: y\r")
    for size in (HEAD - 1, HEAD, HEAD + 1):
        head = b"GET /me HTTP/1.1\r\nHost: h\r\nf: "
        yield head + b"z" * (size - len(head) - 4) + b"\r\n\r\n"
        yield head + b"z" * (size - len(head))
        yield b"\n" * size
        yield b"\n" * (size - 29) + b"GET /me HTTP/1.1\r\nHost: h\r\n\r\n"
        yield b"GET /" + b"a" * (size - 5)
    for method in (b"HEAD", b"GET"):
        yield method + b" /me HTTP/1.1\r\nHost: h\r\nContent-Length: 5\r\n\r\nab"
    for deep in (126, 127, 128):
        yield post(b"/phase", b'{"phase":' + b"[" * (deep - 1) + b"]" * (deep - 1) + b',"phase":"setup"}')


def at_places():
    """A head with each byte at each kind of place."""
    whole = b"\r\nPUT /choices?a HTTP/1.1\r\nHost: h\r\nportal-code: ann-code-1\r\nContent-Length: 15\r\nConnection: a, b\r\n\r\n" + b'{"projects":[]}'
    for place in (b"\r\nP", b"UT", b" /", b"choices", b"?", b" HTTP", b"1.1", b".1", b"\r\nHost", b"ost", b": h", b" h", b"h\r", b"\r\nport", b"\nport",
                  b"15", b"5\r", b" a,", b", b", b"\r\n\r\n{", b"\n\r\n{", b"\r\n{", b"\n{", b'{"', b'"p', b"roj", b":[", b"]}"):
        at = whole.index(place)
        for byte in range(256):
            yield whole[:at] + bytes([byte]) + whole[at:]
            yield whole[:at] + bytes([byte]) + whole[at + 1:]


def cut(chance, text):
    """The text in pieces, some of them empty."""
    if len(text) < 300 and chance.random() < 0.3:
        return [text[at:at + 1] for at in range(len(text))] or [b""]
    places = sorted(chance.randint(0, len(text)) for _ in range(chance.choice([0, 0, 1, 2, 3, 8])))
    return [text[start:end] for start, end in zip([0, *places], [*places, len(text)])]
