"""What trials in roots of their own share: a root with only Debian, a package on it, a booted systemd without a network that runs a trial there,
and what all trials tell together."""
import contextlib
import os
import re
import shutil
import subprocess
import sys

from trial import DEPLOY, PROGRAM, TOP

HERE = os.path.dirname(os.path.abspath(__file__))
TRIAL = """[Unit]
Description=The trial
After=multi-user.target
[Service]
Type=oneshot
ExecStart=/usr/bin/python3 -B /root/trial.py
StandardOutput=file:/root/told
StandardError=file:/root/told
[Install]
WantedBy=multi-user.target
"""


class LeftOut(Exception):
    """Why this machine cannot make such a server."""


def lines(heading, page=f"{TOP}/docs/RUNNING.md"):
    """The lines of a section of RUNNING.md for a server: the one that needs a network, and the others."""
    with open(page) as file:
        section = re.search(f"^## {heading}\n(.*?)^## ", file.read(), re.M | re.S)[1]
    found = [line.strip() for line in section.splitlines() if line.startswith("    ")]
    if len(found) > 10 or "apt-get" not in found[0]:
        sys.exit(f"FAILED  these are no ten lines: {found}\n0 passed, 1 failed")
    return found[0], found[1:]


def run(log, *words, seconds=600):
    with open(log, "ab") as out:
        return subprocess.run(["timeout", "--kill-after=10", str(seconds), *words], stdin=subprocess.DEVNULL, stdout=out, stderr=out).returncode == 0


def container(root, *words):
    return ["systemd-nspawn", "--quiet", f"--directory={root}", "--register=no", "--keep-unit", *words]


def entered(root, log, line):
    """Runs a line of a shell in the root, with this machine's network."""
    return run(log, *container(root, "--pipe", "--chdir=/root", "--setenv=DEBIAN_FRONTEND=noninteractive"), "bash", "-c", line)


def bare(root, log):
    """Makes a root with only Debian. Where the mirror or the rights are missing, the trial is left out."""
    if not (shutil.which("mmdebstrap") and shutil.which("systemd-nspawn")):
        run(log, "apt-get", "update")
        if not run(log, "apt-get", "install", "-y", "--no-install-recommends", "mmdebstrap", "systemd-container"):
            raise LeftOut("mmdebstrap and systemd-container cannot be installed")
    if not run(log, "mmdebstrap", "--variant=minbase", "--include=systemd-sysv,dbus", "bookworm", root):
        raise LeftOut("mmdebstrap makes no root")
    if not run(log, *container(root, "--pipe", "true")):
        raise LeftOut("systemd-nspawn cannot enter the root")
    with open(f"{root}/etc/hosts", "w") as file:
        file.write("127.0.0.1 localhost\n")


def packaged(log, folder):
    """Makes this tree's package in a folder, and returns its path, or None."""
    if not run(log, "env", f"PORTAL_PROGRAM={PROGRAM}", f"{DEPLOY}/package", folder):
        return None
    name, = [name for name in os.listdir(folder) if name.endswith(".deb")]
    return os.path.join(folder, name)


def installed(root, log, package):
    """Installs a package in the root, by the first line of RUNNING.md, and has each boot run a trial."""
    name = os.path.basename(package)
    shutil.copy(package, f"{root}/root/{name}")
    with open(f"{root}/etc/systemd/system/trial.service", "w") as file:
        file.write(TRIAL)
    os.symlink("../trial.service", f"{root}/etc/systemd/system/multi-user.target.wants/trial.service")
    return entered(root, log, lines("A server from nothing")[0].replace("portal_VERSION_amd64.deb", name))


def booted(root, log, trial, seconds=900):
    """Boots the root, which runs a trial, and returns what it has told."""
    shutil.copy(f"{HERE}/{trial}", f"{root}/root/trial.py")
    shutil.copy(f"{HERE}/within.py", f"{root}/root/within.py")
    with contextlib.suppress(FileNotFoundError):
        os.remove(f"{root}/root/told")
    run(log, *container(root, "--boot", "--private-network"), seconds=seconds)
    if not os.path.exists(f"{root}/root/told"):
        raise LeftOut("systemd cannot be booted in a container")
    with open(f"{root}/root/told") as file:
        return file.read()


def failed(log, what):
    """What is told where something fails before any trial: the end of the log."""
    with open(log, errors="replace") as file:
        return "".join(file.readlines()[-10:]) + f"FAILED  {what}\n0 passed, 1 failed\n"


def left_out(trials, *where):
    """What trials tell, and why one is left out."""
    told = []
    try:
        for text in trials(*where):
            told.append(text)
    except LeftOut as why:
        told.append(f"left out: {why}; nothing is shown of the trials that are missing here\n0 passed, 0 failed\n")
    return told


def end(told):
    """Prints what trials have told, adds up what they count, and ends with the status."""
    passed = failed = 0
    for text in told:
        *shown, last = text.splitlines() or [""]
        counted = re.fullmatch(r"(\d+) passed, (\d+) failed", last)
        print(*shown, *[] if counted else [last, "FAILED  a trial ended before its end"], sep="\n")
        passed, failed = passed + int(counted[1] if counted else 0), failed + int(counted[2] if counted else 1)
    print(f"{passed} passed, {failed} failed")
    sys.exit(failed > 0)
