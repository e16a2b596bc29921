"""What test/server runs on a bare Debian with python3, the toolchain and a copy of this tree: README's first command, until a browser has the whole page
and an allocation is published; and for who compiles, what is told meanwhile, and tests of README's command without the proofs."""
import json
import os
import pwd
import re
import signal
import subprocess
import sys
import time
import urllib.error
import urllib.request

ADDRESS = "http://127.0.0.1:8080"
counts = {True: 0, False: 0}
with open("README.md") as file:
    README = file.read()


def holds(what, true, seen=""):
    counts[bool(true)] += 1
    print(f"ok      {what}" if true else f"FAILED  {what}: {str(seen)[-600:]}", flush=True)


def command(begin):
    """The command of README that begins so."""
    return re.search(f"^    ({re.escape(begin)}[^#]*?) *(#.*)?$", README, re.M)[1]


def ask(path, code=None, method="GET", value=None):
    """The status, the kind and the text of a reply."""
    body = None if value is None else json.dumps(value).encode()
    request = urllib.request.Request(f"{ADDRESS}{path}", body, {"Portal-Code": code} if code else {}, method=method)
    try:
        with urllib.request.urlopen(request) as reply:
            return reply.status, reply.headers.get_content_type(), reply.read().decode()
    except urllib.error.HTTPError as refusal:
        return refusal.code, "", refusal.read().decode()


def page():
    """The page comes, and all that it names, each of its kind."""
    status, kind, text = ask("/")
    holds("the page", (status, kind) == (200, "text/html") and "<title>" in text, (status, kind))
    kinds = {".js": "text/javascript", ".css": "text/css", ".svg": "image/svg+xml"}
    named = re.findall(r'(?:href|src)="([^"]+)"', text)
    told = {name: ask(f"/{name.lstrip('/')}")[:2] for name in named}
    wrong = {name: one for name, one in told.items() if one != (200, kinds[os.path.splitext(name)[1]])}
    holds(f"and the {len(named)} files that it names", named and not wrong, wrong)


def year(codes):
    """A student saves a list, and the office publishes: what these see of it."""
    student, office = (next(code for code, role in codes.items() if word in role) for word in ("Emil", "office"))
    holds("a student signs in", '"name":"Emil Eke"' in ask("/me", student)[2], codes)
    told = ask("/choices", student, "PUT", {"projects": ["patterns"]})
    holds("and saves a list", told[0] == 200 and ask("/choices", student)[2] == '{"projects":["patterns"]}', told)
    holds("the office signs in", '"role":"office"' in ask("/me", office)[2])
    told = [ask(path, office, "POST", value)[0] for path, value in
            (("/phase", {"phase": "ranking"}), ("/ranking/fill", {}), ("/phase", {"phase": "published"}))]
    holds("and publishes", told == [200, 200, 200], told)
    told = ask("/result", student)
    holds("the student got the project that nobody else wanted", told[2] == '{"project":"patterns"}', told)


def tried(who, compiles):
    """README's first command."""
    first, said = command("deploy/local"), f"/tmp/said-{who}"
    start = time.monotonic()
    with open(said, "w") as errors:
        process = subprocess.Popen(["bash", "-c", f"exec {first}"], stdout=subprocess.PIPE, stderr=errors, text=True)
    lines = [process.stdout.readline() for _ in range(6)]
    seconds = time.monotonic() - start
    codes = dict(line.strip().split(maxsplit=1) for line in lines[1:] if line.strip())
    with open(said) as file:
        told = file.read()
    holds(f"{first}, by {who}: an address and five codes after {seconds:.0f} s", lines[0] == f"{ADDRESS}\n" and len(codes) == 5, told)
    holds("without Caddy, it says that this is for trying", len(re.findall("^deploy/local: .*not for a server$", told, re.M)) == 1, told)
    holds("it tells how long it compiles, if it does", bool(re.search(r"^portal: compiling, \d+:\d\d of some ", told, re.M)) == compiles, told)
    if len(codes) == 5:
        page()
        year(codes)
    process.send_signal(signal.SIGINT)
    holds("Ctrl-C ends it", process.wait() == 0)


def tests():
    """The tests of one crate, without the proofs."""
    words = f"{command('.ci/run --unproved')} spa_tests"
    start = time.monotonic()
    done = subprocess.run(["bash", "-c", words], stdout=subprocess.PIPE, stderr=subprocess.STDOUT, text=True)
    first, *_, last = done.stdout.splitlines()
    holds(f"{words} passes, after {time.monotonic() - start:.0f} s", done.returncode == 0 and re.match(r"[1-9]\d* passed, 0 failed", last), done.stdout)
    holds("its first and its last line say what was not proved", all("nothing is proved" in line for line in (first, last)), (first, last))


try:
    compiles = not os.path.exists("crates/portal/out/portal-unproved")
    tried(pwd.getpwuid(os.geteuid()).pw_name, compiles)
    if compiles:
        tests()
except Exception as fault:
    holds("the trial comes to its end", False, repr(fault))
print(f"{counts[True]} passed, {counts[False]} failed")
sys.exit(counts[False] > 0)
