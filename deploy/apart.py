"""What root's tools do with a database that the portal's user may have written, and with a file of the office: on a copy, as a user who is nobody
else, and with limits. SQLite does what the files beside a database say, and a database may ask for endless work."""
import contextlib
import json
import os
import subprocess
import sys
import tempfile
import time

from department import LARGEST_FILE, copied, copy
from rows import Fault

PROGRAM = os.environ.get("PORTAL_PROGRAM", "/usr/bin/portal")
DATABASE = os.path.join(os.path.dirname(os.path.realpath(__file__)), "database.py")
# Debian gives this number to no account, and systemd to no service: nobody else on the machine has it.
STRANGER = 65533
# The status with which database.py refuses a file
REFUSED = 2
SECONDS, MEGABYTES, LARGEST_ANSWER = 300, 512, 1 << 26


class Failed(OSError):
    """Why nothing is known of a database."""


@contextlib.contextmanager
def apart(path, copied=copied):
    """Copies a database with its log to a folder of the stranger's, within one that only root can change, and returns the copy's path."""
    with tempfile.TemporaryDirectory() as outer:
        os.chmod(outer, 0o711)
        folder = os.path.join(outer, "year")
        os.mkdir(folder)
        path = copied(path, folder)
        if os.geteuid() == 0:
            for one in (folder, *(os.path.join(folder, name) for name in os.listdir(folder))):
                os.chown(one, STRANGER, STRANGER)
        yield path


def table_apart(path):
    """Copies a file of the office so, and returns the copy's path."""
    def one(path, folder):
        to = os.path.join(folder, "table")
        copy(path, to)
        return to
    return apart(path, one)


def megabytes(process):
    """The memory that a process has, 0 for one that has ended."""
    with contextlib.suppress(OSError), open(f"/proc/{process.pid}/statm") as file:
        return int(file.read().split()[1]) * os.sysconf("SC_PAGE_SIZE") >> 20
    return 0


def watched(process):
    """Waits for a process to end, and ends it where it takes too long or too much memory."""
    end = time.monotonic() + SECONDS
    while process.poll() is None:
        if time.monotonic() > end:
            raise Failed(f"it took more than {SECONDS} seconds")
        if megabytes(process) > MEGABYTES:
            raise Failed(f"it took more than {MEGABYTES} MB of memory")
        time.sleep(0.01)


def run(*words, given=""):
    """Runs a program as the stranger, within the limits. Returns its status and its output."""
    stranger = ["setpriv", f"--reuid={STRANGER}", f"--regid={STRANGER}", "--clear-groups", "--no-new-privs"] if os.geteuid() == 0 else []
    limits = ["prlimit", "--core=0", f"--fsize={LARGEST_FILE}"]
    with tempfile.TemporaryFile() as asked, tempfile.TemporaryFile() as told:
        asked.write(given.encode())
        asked.seek(0)
        process = subprocess.Popen([*stranger, *limits, *words], stdin=asked, stdout=told, stderr=subprocess.DEVNULL, cwd="/",
                                   env={"PATH": os.defpath})
        try:
            watched(process)
        finally:
            process.kill()
            process.wait()
        told.seek(0)
        return process.returncode, told.read(LARGEST_ANSWER).decode(errors="replace")


def consult(year, what, *given):
    """What database.py answers of a copy. What it refuses is a fault of the file."""
    status, told = run(sys.executable, "-B", DATABASE, what, year, given=json.dumps(given))
    if status == REFUSED:
        raise Fault(told.strip())
    if status:
        raise Failed(told.strip() or f"status {status}")
    return json.loads(told)


def refusal(year):
    """Why a copy is no good year: the portal's message, or what it has that no year has. It is empty for a good one."""
    try:
        if consult(year, "has_code"):
            return "it has views, triggers or virtual tables"
        status, told = run(PROGRAM, "report", year)
    except Failed as why:
        return str(why)
    return status and (told.strip().splitlines() or [f"status {status}"])[-1]
