"""What test/server runs on a booted server for the limits that keep one caller, one account or one portal from what all others need: connections of an
address, the queue before a portal, the log that fail2ban counts, the rules of portal-guard, and what anybody writes to the journal."""
import contextlib
import fcntl
import os
import re
import socket
import struct
import subprocess
import time

from within import Browser, end, health, holds, run, waits_for

MOST = 250
RESTARTED = "5eb03494b6584870a536b337290809b3"
SIOCSIFADDR = 0x8916
OTHER_SITE = ":443 {{\n\t{log}\n\trespond other\n}}\n"
BROKEN = "import socket; server = socket.create_server(('127.0.0.1', {port})); print('taken', flush=True); import time; time.sleep(600)"


@contextlib.contextmanager
def connected(source, many, target="127.0.0.1"):
    """While the block runs, an address has so many connections to the reverse proxy, or as many as it gets; their number."""
    links = []
    for _ in range(many):
        link = socket.socket(socket.AF_INET6 if ":" in source else socket.AF_INET)
        link.settimeout(5)
        link.bind((source, 0))
        try:
            link.connect((target, 443))
            links.append(link)
        except OSError:
            link.close()
    yield len(links)
    for link in links:
        link.close()


def addresses():
    """An address has no more connections than the limit, others have theirs, and a campus as many as it needs."""
    with connected("127.0.0.50", MOST + 20) as got:
        holds(f"an address has {MOST} connections at once", got == MOST, got)
        holds("others are served meanwhile", Browser("127.0.0.51").status("/") == 200)
    with socket.socket(socket.AF_INET6, socket.SOCK_DGRAM) as link:
        for address in ("fd00:1:2:7::1", "fd00:1:2:7:8::2", "fd00:1:2:8::1"):
            fcntl.ioctl(link, SIOCSIFADDR, socket.inet_pton(socket.AF_INET6, address) + struct.pack("Ii", 128, socket.if_nametoindex("lo")))
    time.sleep(2)
    with connected("fd00:1:2:7::1", MOST - 10, "::1") as first, connected("fd00:1:2:7:8::2", 30, "::1") as second:
        holds("the addresses of an IPv6 network have them together", (first, second) == (MOST - 10, 10), (first, second))
        with connected("fd00:1:2:8::1", 5, "::1") as third:
            holds("and another network has its own", third == 5, third)
    with open("/etc/portal/campus.nft", "w") as file:
        file.write("add element inet portal campus4 { 127.0.0.48/30 }\nadd element inet portal campus6 { fd00:1:2::/48 }\n")
    told = run("systemctl restart portal-guard")
    with connected("127.0.0.50", MOST + 20) as got, connected("127.0.0.60", MOST + 20) as other:
        holds("a campus that a file names has as many as it needs, and others do not", (got, other) == (MOST + 20, MOST), (told, got, other))
    with open("/etc/portal/campus.nft", "w") as file:
        file.write("add element inet portal campus4 { nonsense, }\n")
    run("systemctl restart portal-guard")
    holds("portal-health warns of a guard that does not start", "rules of portal-guard are gone" in health("chem")[1], health("chem"))
    os.remove("/etc/portal/campus.nft")
    told = run("systemctl restart portal-guard")
    holds("and not once it does", told[0] == 0 and "rules of portal-guard" not in health("chem")[1], told)


def queued():
    """Requests reach a portal through its queue, which belongs to the reverse proxy and comes and goes with the portal."""
    told = run("systemctl is-active portal-queue@chem; stat --format='%U %a' /run/portal-queue; ls /run/portal-queue")[1].split()
    port = re.search("^PORT=([0-9]+)$", open("/etc/portal/chem.conf").read(), re.M)[1]
    holds("the queue's socket is the reverse proxy's alone", told[:3] == ["active", "caddy", "700"] and port in told[3:], told)
    run("systemctl stop portal-queue@chem")
    holds("without the queue nobody is served, which portal-health tells", Browser("127.0.0.1", 60).status() == 503 and "portal-queue@chem is not on" in health("chem")[1],
          health("chem"))
    run("systemctl restart portal@chem")
    holds("the portal brings it back", waits_for(lambda: Browser("127.0.0.1").status() == 403, 60), run("systemctl status portal-queue@chem"))
    run("systemctl kill --signal=KILL portal-queue@chem")
    holds("one that is killed comes back", waits_for(lambda: Browser("127.0.0.1").status() == 403, 60))
    told = run("systemctl show --property=MemoryMax --property=LogRateLimitIntervalUSec --property=Restart caddy")[1].split()
    holds("Caddy has a limit of memory, and none of its log", set(told) == {"MemoryMax=1073741824", "LogRateLimitIntervalUSec=0", "Restart=on-failure"}, told)


def lines_of_log():
    return int(run("journalctl --unit=caddy --output=cat | grep -c '\"handled request\"'")[1])


def unlogged():
    """What fail2ban does not count is not in the log, however often it is asked for, with a code and without."""
    begun, browser = lines_of_log(), Browser("127.0.0.61")
    made_up = {"Portal-Code": "k7mp-2xqa-9vre-h4td"}
    told = {browser.status(path, lines) for path in ("/", "/nowhere", "/style.css", "/notice.txt", "/" + "a" * 250) for lines in ({}, made_up) for _ in range(100)}
    told.add(browser.status("/me", made_up | {"Content-Length": "2000000"}))
    browser = Browser("127.0.0.61")
    told.add(browser.status("/me", made_up))
    holds("only the refused code is in the log", waits_for(lambda: lines_of_log() > begun, 20) and lines_of_log() == begun + 1 and told == {200, 204, 404, 413, 403},
          (told, lines_of_log() - begun))


def counted_everywhere():
    """A site of Caddy without a log hides refusals, which portal-health tells."""
    with open("/etc/caddy/Caddyfile") as file:
        kept = file.read()
    for log, is_told in (("", True), ("log", False)):
        with open("/etc/caddy/Caddyfile", "w") as file:
            file.write(kept + OTHER_SITE.format(log=log))
        run("systemctl restart caddy")
        told = health("chem")
        holds(f"another site with {log or 'no log'}: portal-health {'warns' if is_told else 'is content'}", ("a site of Caddy has no line" in told[1]) == is_told, told)
        begun = lines_of_log()
        waits_for(lambda: Browser("127.0.0.1").status("/") == 200, 20)
        status = Browser("127.0.0.62").status("/me", {"Portal-Code": "k7mp-2xqa-9vre-h4td", "Host": "localhost:443"})
        holds(f"a host with a port is {'not ' if is_told else ''}in the log", status == 403 and waits_for(lambda: lines_of_log() > begun, 3) != is_told, status)
    with open("/etc/caddy/Caddyfile", "w") as file:
        file.write(kept)
    run("systemctl restart caddy")
    waits_for(lambda: Browser("127.0.0.1").status("/") == 200, 20)


def link_local():
    """An address of the own link is counted by fail2ban, too."""
    line = ('{{"level":"info","ts":{ts},"logger":"http.log.access","msg":"handled request","request":{{"remote_ip":"{ip}","remote_port":"1","proto":"HTTP/1.1"}},'
            '"status":{status},"resp_headers":{{}}}}\n')
    with open("/root/lines.log", "w") as file:
        for ip, status in (("fe80::1:2%eth0", 403), ("fe80::1:2%va", 403), ("fe80::1:2%va", 200), ("192.0.2.7", 403), ("2001:db8:1:2::", 403), ("not%an", 403)):
            file.write(line.format(ts=time.time(), ip=ip, status=status))
    told = run("fail2ban-regex /root/lines.log /etc/fail2ban/filter.d/portal.conf")[1]
    holds("fail2ban counts addresses of all kinds", "4 matched, 2 missed" in told, told)


def guard_stays():
    """Whatever nftables.service does, the rules are there; where somebody removes one, portal-health tells."""
    for words in ("reload nftables", "restart nftables", "stop nftables; systemctl start portal-guard; systemctl start nftables", "reload-or-restart nftables"):
        run(f"systemctl enable nftables; systemctl start nftables; systemctl start portal-guard; systemctl {words}")
        told = waits_for(lambda: "rules of portal-guard" not in health("chem")[1] and run("nft list table inet portal")[0] == 0, 20)
        holds(f"after systemctl {words} the rules are there", told, run("nft list ruleset; systemctl status portal-guard"))
        holds("and callers are served", waits_for(lambda: Browser("127.0.0.1").status() == 403, 20))
    for words in ("flush table inet portal", "flush set inet portal own", "flush chain inet portal input", "flush chain inet portal output", "delete table inet portal"):
        run(f"nft '{words}'")
        told = run("portal-health chem")[1]
        holds(f"after nft {words}, portal-health warns", "rules of portal-guard are gone" in told or told.startswith("CRITICAL"), told)
        run("systemctl restart portal-guard")


def new_beside_broken():
    """A portal that somebody broke into and that listens on the next ports keeps no department from being made."""
    user = os.stat("/var/lib/portal/chem").st_uid
    have = {int(port) for name in os.listdir("/etc/portal") if name.endswith(".conf") for port in re.findall("^PORT=([0-9]+)$", open(f"/etc/portal/{name}").read(), re.M)}
    port = min({*range(801, 900)} - have)
    rights = ["--inh-caps=+net_bind_service", "--ambient-caps=+net_bind_service"]
    taken = subprocess.Popen(["setpriv", f"--reuid={user}", f"--regid={user}", "--clear-groups", *rights, "/usr/bin/python3", "-c", BROKEN.format(port=port)],
                             stdout=subprocess.PIPE)
    taken.stdout.readline()
    begin = time.monotonic()
    told = run("timeout 100 portal-new geo geo.localhost")
    print(f"        after {time.monotonic() - begin:.0f} s")
    is_other = re.search("^PORT=([0-9]+)$", open("/etc/portal/geo.conf").read(), re.M)[1] != str(port) if told[0] == 0 else False
    holds("portal-new takes another port than one that is held without an answer", is_other, told)
    taken.kill()
    taken.wait()


def forged():
    """Who has an account writes to the journal what looks like systemd's word: portal-health counts none of it."""
    def restarts():
        return int(re.search("([0-9]+) restarts today", health("chem")[1])[1])
    begun = restarts()
    script = ("import socket; link = socket.socket(socket.AF_UNIX, socket.SOCK_DGRAM); "
              f"[link.sendto(b'MESSAGE_ID={RESTARTED}\\nUNIT=portal@chem.service\\nPRIORITY=6\\nMESSAGE=' + b'a' * 9000 + b'\\n', '/run/systemd/journal/socket') for _ in range(40)]")
    told = run(f"setpriv --reuid=nobody --regid=nogroup --clear-groups python3 -c \"{script}\"")
    came = waits_for(lambda: int(run(f"journalctl --output=json MESSAGE_ID={RESTARTED} _UID=65534 | wc -l")[1]) >= 40, 20)
    holds("somebody's words are in the journal, and count as no restarts", told[0] == 0 and came and restarts() == begun, (told, came, begun, restarts()))
    run("systemctl kill --signal=KILL portal@chem")
    holds("systemd's do", waits_for(lambda: restarts() == begun + 1, 60), (begun, health("chem")))


try:
    with open("/etc/hosts", "a") as file:
        file.write("::1 localhost\n127.0.0.1 geo.localhost other.localhost\n")
    run("systemctl start portal-guard; systemctl stop fail2ban")
    waits_for(lambda: Browser("127.0.0.1").status() == 403, 300)
    addresses()
    queued()
    unlogged()
    counted_everywhere()
    link_local()
    guard_stays()
    new_beside_broken()
    forged()
except Exception as fault:
    holds("the trial comes to its end", False, repr(fault))
end()
