"""What the trials within a booted root share: counting, commands, waiting, requests through the reverse proxy, and the end."""
import http.client
import json
import ssl
import subprocess
import time

# The certificate of Caddy's own authority, which it makes for hosts such as localhost
ROOT = "/var/lib/caddy/.local/share/caddy/pki/authorities/local/root.crt"
# The seconds for which a portal that is being started is waited for, many times what it takes, also where much else runs
PATIENCE = 900
counts = {True: 0, False: 0}


def holds(what, true, seen=""):
    counts[bool(true)] += 1
    print(f"ok      {what}" if true else f"FAILED  {what}: {str(seen)[:600]}", flush=True)


def run(line):
    done = subprocess.run(["bash", "-c", line], stdout=subprocess.PIPE, stderr=subprocess.STDOUT, text=True)
    return done.returncode, done.stdout


def waits_for(true, seconds, step=0.2):
    """Whether something becomes true within so many seconds."""
    end = time.monotonic() + seconds
    while not true():
        if time.monotonic() > end:
            return False
        time.sleep(step)
    return True


def ask(code, method, path, body=None, host="localhost", source="127.0.0.1"):
    """The status and the body of a reply through the reverse proxy, over TLS. A portal that is being started is waited for."""
    end = time.monotonic() + PATIENCE
    while True:
        trusted = ssl.create_default_context(cafile=ROOT)
        link = http.client.HTTPSConnection(host, timeout=PATIENCE, context=trusted, source_address=(source, 0))
        try:
            data = body if isinstance(body, (bytes, type(None))) else json.dumps(body).encode()
            link.request(method, path, data, {"Portal-Code": code} if code else {})
            reply = link.getresponse()
            told = reply.status, reply.read().decode()
        except (ConnectionError, ssl.SSLError) as fault:
            told = 503, str(fault)
        finally:
            link.close()
        if told[0] != 503 or time.monotonic() > end:
            return told
        time.sleep(0.2)


class Browser:
    """One connection to the reverse proxy, over TLS, from one of this machine's addresses."""

    def __init__(self, address, seconds=20):
        trusted = ssl.create_default_context(cafile=ROOT)
        self.link = http.client.HTTPSConnection("localhost", timeout=seconds, context=trusted, source_address=(address, 0))

    def status(self, path="/me", lines={"Portal-Code": "k7mp-2xqa-9vre-h4td"}):
        """The status of a reply, which is for a code that is nobody's where nothing else is said, or 0 where none comes."""
        try:
            self.link.request("GET", path, headers=lines)
            reply = self.link.getresponse()
            reply.read()
            return reply.status
        except OSError:
            self.link.close()
            return 0


def health(name):
    """What portal-health says, once the portal answers."""
    end = time.monotonic() + PATIENCE
    while (told := run(f"portal-health {name}"))[0] == 2 and time.monotonic() < end:
        time.sleep(0.5)
    return told


def end():
    """Tells what was counted, and turns the machine off."""
    print(f"{counts[True]} passed, {counts[False]} failed", flush=True)
    subprocess.run(["systemctl", "poweroff", "--no-block"])
