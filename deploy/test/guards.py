"""What test/server runs on a booted server for the guards around a portal: its port and its rights, an upgrade from a port that everybody can
take, the rules for the portals' ports, the limits of units, and fail2ban, by the lines of RUNNING.md."""
import contextlib
import fcntl
import os
import re
import socket
import struct
import subprocess
import time

from within import Browser, end, health, holds, run, waits_for

STATE, CONF = "/var/lib/portal/chem", "/etc/portal/chem.conf"
# The capability to listen below 1024; see capabilities(7).
NET_BIND_SERVICE = 1 << 10
CONNECT = "import socket; socket.create_connection(('127.0.0.1', {port}), 5)"
HOLD = "import socket, time; links = [socket.create_connection(('127.0.0.1', {port}), 5) for _ in range(2)]; time.sleep(60)"
LISTEN = "import socket; socket.create_server(('127.0.0.1', {port}))"
TAKE = "import socket; server = socket.create_server(('127.0.0.1', {port})); print('taken', flush=True); [server.accept() for _ in range(9)]"
GROWS = "#!/usr/bin/python3\nheld = []\nwhile True:\n    held.append(b'a' * 10**7)\n"
# The request that gives an interface an IPv6 address; see netdevice(7).
SIOCSIFADDR = 0x8916


def as_user(user, script, port):
    """The command for a script for a port that a user runs."""
    return ["setpriv", f"--reuid={user}", "--regid=nogroup", "--clear-groups", "python3", "-c", script.format(port=port)]


def tries(user, script, port):
    """What becomes of a script for a port that a user runs: nothing, or the name of a fault."""
    done = subprocess.run(as_user(user, script, port), stdout=subprocess.PIPE, stderr=subprocess.STDOUT, text=True)
    return "" if done.returncode == 0 else done.stdout.strip().splitlines()[-1].split(":")[0]


@contextlib.contextmanager
def held(port):
    """While the block runs, somebody with an account tries to hold the portal by silent connections."""
    process = subprocess.Popen(as_user("nobody", HOLD, port), stderr=subprocess.DEVNULL)
    time.sleep(2)
    yield
    process.kill()
    process.wait()


def own_port():
    with open(CONF) as file:
        return int(re.search("^PORT=([0-9]+)$", file.read(), re.M)[1])


def own_rights():
    """The portal listens below 1024 with the one capability for that, and nobody takes its port while it is stopped."""
    port = own_port()
    holds("the department has a port of 801 to 899", 801 <= port <= 899, port)
    holds("portal-health tells nothing of its port", "can take the port" not in health("chem")[1], health("chem"))
    process = run("systemctl show --property=MainPID --value portal@chem")[1].strip()
    with open(f"/proc/{process}/status") as file:
        status = dict(line.split(":\t", 1) for line in file.read().splitlines())
    rights = {name: int(status[name], 16) for name in ("CapEff", "CapPrm", "CapBnd", "CapAmb")}
    holds("the portal has the right to its port, and no other", set(rights.values()) == {NET_BIND_SERVICE}, rights)
    holds("it can get no other", status["NoNewPrivs"] == "1" and status["Uid"].split()[0] != "0", status)
    run("systemctl stop portal@chem")
    holds("nobody else takes its port while it is stopped", tries("nobody", LISTEN, port) == "PermissionError", tries("nobody", LISTEN, port))
    holds("though others are free", tries("nobody", LISTEN, 8081) == "", tries("nobody", LISTEN, 8081))
    run("systemctl start portal@chem")
    holds("it comes back", "answers in" in health("chem")[1], health("chem"))


def planted():
    """A link that the portal's own user makes leads no tool of root's to another file."""
    run("echo of root > /root/victim")
    before = os.stat("/root/victim")
    owner = os.stat(STATE).st_uid
    os.symlink("/root/victim", f"{STATE}/new.db")
    os.chown(f"{STATE}/new.db", owner, owner, follow_symlinks=False)
    told = run("portal-correct chem student ada name 'Ada Byron'")
    after = os.stat("/root/victim")
    same = (before.st_uid, before.st_mtime_ns, before.st_size) == (after.st_uid, after.st_mtime_ns, after.st_size)
    holds("portal-correct refuses a link beside the year", told[0] == 2 and "new.db is a link" in told[1] and same, told)
    os.remove(f"{STATE}/new.db")


def upgraded():
    """A department of an earlier version has a port that everybody can take: an upgrade tells the lines that give it another."""
    port = own_port()
    run(f"sed -i 's/^PORT={port}$/PORT=8081/' {CONF}; sed -i 's/portal {port} /portal 8081 /' /etc/portal/sites/chem.caddy; systemctl restart portal@chem caddy")
    told = health("chem")
    holds("portal-health warns of a port that everybody can take", told[0] == 1 and "everybody on this machine can take the port 8081" in told[1], told)
    status, said = run("dpkg --install /root/portal_*.deb")
    moves = re.findall("^  ((?:sed|caddy) .*)$", said, re.M)
    holds("an upgrade goes on with that port, and tells three lines", status == 0 and len(moves) == 3 and "answers in" in health("chem")[1], said)
    done = [run(line) for line in moves]
    told = health("chem")
    holds("with these lines the department has a better one", 801 <= own_port() <= 899 and all(not one[0] for one in done), done)
    holds("and portal-health is content with it", "answers in" in told[1] and "can take the port" not in told[1], told)
    holds("the reverse proxy has followed", waits_for(lambda: Browser("127.0.0.1").status() == 403, 60))


def guarded():
    """Before and after the lines of RUNNING.md: who connects to the portal's port."""
    port = own_port()
    holds("without portal-guard everybody connects to a portal", tries("nobody", CONNECT, port) == "", tries("nobody", CONNECT, port))
    with held(port):
        holds("and blocks it with two silent connections", Browser("127.0.0.1", 6).status() == 0)
    with open("/root/guards") as file:
        for line in file:
            told = run(line)
            holds(line.strip(), told[0] == 0, told)
    who = {user: tries(user, CONNECT, port) for user in ("nobody", "games", "caddy", "root")}
    holds("with it only root and the reverse proxy do", who == {"nobody": "ConnectionRefusedError", "games": "ConnectionRefusedError", "caddy": "", "root": ""}, who)
    with held(port):
        holds("nobody blocks it", Browser("127.0.0.1", 6).status() == 403)
    holds("everybody connects to the reverse proxy", tries("nobody", CONNECT, 443) == "", tries("nobody", CONNECT, 443))
    holds("callers are served", Browser("127.0.0.1").status() == 403 and "answers in" in health("chem")[1], health("chem"))
    run("systemctl enable --now nftables && systemctl restart nftables")
    told = waits_for(lambda: tries("nobody", CONNECT, port) == "ConnectionRefusedError", 20)
    holds("it goes on when nftables flushes all rules", told, run("nft list ruleset"))
    run("systemctl stop portal-guard")
    holds("it is switched off again", tries("nobody", CONNECT, port) == "" and "table inet portal" not in run("nft list ruleset")[1])
    run("systemctl start portal-guard")
    with socket.create_connection(("127.0.0.1", port)):
        holds("root connects", True)


def as_portal(user, *words):
    """The command for a program that a portal's user runs, with a portal's right to all ports below 1024."""
    rights = ["--inh-caps=+net_bind_service", "--ambient-caps=+net_bind_service"]
    return ["setpriv", f"--reuid={user}", f"--regid={user}", "--clear-groups", *rights, *words]


@contextlib.contextmanager
def taken(port, user):
    """While the block runs, a portal's user listens at a port."""
    process = subprocess.Popen(as_portal(user, "/usr/bin/python3", "-c", TAKE.format(port=port)), stdout=subprocess.PIPE)
    process.stdout.readline()
    yield
    process.kill()
    process.wait()


def own_ports():
    """A portal that somebody broke into reads no year of another department, and takes the port of one that is stopped: nobody reaches it there."""
    run("portal-new maths maths.example.edu && systemctl start portal@maths")
    with open("/etc/portal/maths.conf") as file:
        port, user = int(re.search("^PORT=([0-9]+)$", file.read(), re.M)[1]), os.stat(STATE).st_uid
    process = run("systemctl show --property=MainPID --value portal@maths")[1].strip()
    year = f"/proc/{process}/root/var/lib/private/portal/maths/year.db"
    told = run(" ".join(as_portal(user, "head", "-c", "1", year)))
    holds("two portals have two users", user != os.stat("/var/lib/portal/maths").st_uid, user)
    holds("so one reads no year of another", os.path.exists(year) and told[0] != 0 and "Permission denied" in told[1], told)
    holds("a new department's portal is reached", waits_for(lambda: tries("caddy", CONNECT, port) == "", 120), run("nft list ruleset"))
    run("systemctl stop portal@maths")
    with taken(port, user):
        told = {who: tries(who, CONNECT, port) for who in ("caddy", "root")}
        holds("another portal at its port is not", set(told.values()) == {"TimeoutError"}, (told, run("nft list ruleset")))
        holds("while the own one is", Browser("127.0.0.1").status() == 403)
    run("systemctl start portal@maths")
    holds("it is reached when it is back", waits_for(lambda: tries("caddy", CONNECT, port) == "", 120))
    run("systemctl restart portal-guard")
    holds("also after the guard has started again", tries("caddy", CONNECT, port) == "" and Browser("127.0.0.1").status() == 403, run("nft list ruleset"))
    run("systemctl stop portal@maths")


def flushed():
    """Somebody flushes all rules: portal-health tells."""
    run("systemctl start portal-guard")
    holds("portal-health is content with the guard", "portal-guard" not in health("chem")[1], health("chem"))
    run("nft flush ruleset")
    told = health("chem")
    holds("and warns where its rules are gone", told[0] == 1 and "the rules of portal-guard are gone" in told[1], told)
    run("systemctl restart portal-guard")
    holds("until it is started again", "portal-guard" not in health("chem")[1], health("chem"))


def backed_up():
    """The unit of the backups, with all its limits, looks at the copy as another user, and writes only beside the own ones."""
    told = run("systemctl start portal-backup@chem")
    holds("the unit takes a backup", told[0] == 0, run("journalctl -u portal-backup@chem"))
    asked = "--property=MemoryMax --property=TimeoutStartUSec --property=ReadWritePaths"
    told = run(f"systemctl show {asked} portal-backup@chem")[1]
    limits = "MemoryMax=1073741824" in told and "TimeoutStartUSec=30min" in told
    holds("with limits of memory, time and place", limits and "ReadWritePaths=/var/backups/portal/chem\n" in told, told)
    with open("/usr/local/bin/grows", "w") as file:
        file.write(GROWS)
    settings = "/run/systemd/system/portal-backup@chem.service.d"
    run(f"chmod 755 /usr/local/bin/grows; mkdir -p {settings}; printf '[Service]\\nEnvironment=PORTAL_PROGRAM=/usr/local/bin/grows\\n' > {settings}/grows.conf")
    told = run("systemctl daemon-reload; systemctl start portal-backup@chem"), run("journalctl --output=cat -u portal-backup@chem")[1]
    holds("it ends a program that takes ever more memory", told[0][0] != 0 and "it took more than 512 MB of memory" in told[1], told)
    run(f"rm -r {settings}; systemctl daemon-reload; systemctl reset-failed")
    told = run("systemctl show --property=LimitFSIZE portal@chem")[1]
    holds("and the portal with one of its file", told == "LimitFSIZE=268435456\n", told)


def banned():
    """A campus behind one address is let in after 900 refused codes; somebody who guesses on is locked out, and others are not."""
    def failed():
        told = re.search(r"Total failed:\s+(\d+)", run("fail2ban-client status portal")[1])
        return int(told[1]) if told else -1

    def locked_out():
        told = re.search(r"Banned IP list:\s*(.*)", run("fail2ban-client status portal")[1])
        return told[1].split() if told else None
    if not waits_for(lambda: failed() >= 0, 60):
        holds("fail2ban watches Caddy's log", False, run("systemctl status fail2ban; fail2ban-client status portal; journalctl -u fail2ban"))
        return
    campus, other = Browser("127.0.0.9"), Browser("127.0.0.10")
    begun = failed()
    made_up = '","status":403,"logger":"http.log.access","msg":"handled request","request":{"remote_ip":"127.0.0.77","status":403,'
    told = {other.status(path, {"User-Agent": made_up, "Portal-Code": made_up}) for path in ("/", "/nowhere", "/notice.txt") for _ in range(5)}
    holds("nobody is counted for what is not refused by 403, or for another address", told == {200, 204, 404}, told)
    told = {other.status(path, {}) for path in ("/me", "/projects.json") for _ in range(600)}
    time.sleep(3)
    holds("nor for 1,200 requests without a code, which another web page can have its visitors send", told == {403} and failed() == begun, (told, failed()))
    told = {campus.status() for _ in range(800)} | {campus.status(lines={"Portal-Code": "a-wrong-code", "User-Agent": "a" * 50000}) for _ in range(100)}
    holds("900 codes are refused", told == {403}, told)
    holds("fail2ban counts each", waits_for(lambda: failed() >= begun + 900, 180) and failed() == begun + 900, (begun, failed()))
    time.sleep(3)
    holds("and lets the campus in", locked_out() == [] and campus.status() == 403, locked_out())
    for _ in range(120):
        campus.status()
    holds("after 1,000 the address is locked out", waits_for(lambda: locked_out() == ["127.0.0.9"], 180), locked_out())
    holds("it gets no connection", waits_for(lambda: Browser("127.0.0.9").status() == 0, 20), Browser("127.0.0.9").status())
    holds("others do", other.status() == 403)
    run("fail2ban-client set portal unbanip 127.0.0.9")
    holds("it can be let in again", waits_for(lambda: Browser("127.0.0.9").status() == 403, 20))
    banned_network(locked_out)


def banned_network(locked_out):
    """Who has an IPv6 network has all its addresses, so they count together and are locked out together."""
    with open("/etc/hosts", "a") as file:
        file.write("::1 localhost\n")
    near, other = [f"fd00:1:2:3::{at}" for at in range(1, 4)], "fd00:1:2:4::1"
    with socket.socket(socket.AF_INET6, socket.SOCK_DGRAM) as link:
        for address in (*near, other):
            fcntl.ioctl(link, SIOCSIFADDR, socket.inet_pton(socket.AF_INET6, address) + struct.pack("Ii", 128, socket.if_nametoindex("lo")))
    first, second = Browser(near[0]), Browser(near[1])
    told = {one.status() for one in (first, second) for _ in range(520)}
    holds("a network of IPv6 guesses with two of its addresses", told <= {403, 0}, told)
    holds("it is locked out", waits_for(lambda: locked_out() == ["fd00:1:2:3::"], 180), locked_out())
    told = {address: Browser(address, 6).status() for address in near}
    holds("with all its addresses", set(told.values()) == {0}, (told, run("nft list ruleset")))
    holds("another network is not", Browser(other).status() == 403)
    run("fail2ban-client set portal unbanip fd00:1:2:3::")
    holds("it can be let in again as well", waits_for(lambda: Browser(near[2]).status() == 403, 20))


def removed():
    """The rule for the ports goes with the package, and comes with it."""
    run("cp /root/portal_*.deb /tmp && dpkg --remove portal")
    holds("the rule goes with the package", "table inet portal" not in run("nft list ruleset")[1], run("nft list ruleset"))
    run("dpkg --install /tmp/portal_*.deb && systemctl restart portal-guard portal@chem")
    holds("and comes with it", tries("nobody", CONNECT, own_port()) == "ConnectionRefusedError" and "answers in" in health("chem")[1], health("chem"))


try:
    own_rights()
    planted()
    upgraded()
    guarded()
    own_ports()
    flushed()
    backed_up()
    banned()
    removed()
except Exception as fault:
    holds("the trial comes to its end", False, repr(fault))
end()
