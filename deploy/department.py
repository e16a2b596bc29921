"""What the tools share: a department's folders, its portal, copies of its year, atomic writes, and refusals."""
import contextlib
import datetime
import errno
import fcntl
import grp
import os
import re
import shutil
import signal
import stat
import subprocess
import sys
import time

TOOL = os.path.basename(sys.argv[0])
# The seconds that a tool waits for another one
PATIENCE = 90
# The most bytes of a file of a portal's user that root copies: what the portal's unit lets it write
LARGEST_FILE = 1 << 28
# What the names of the files beside a database add to its own
BESIDE = ("-wal", "-shm", "-journal")
# The form of a time, as the name of a folder
STAMP = r"\d{4}-\d\d-\d\dT\d{6}\.\d+Z"


def plain(text):
    """A text in one line, with an escape in the place of each character that cannot be printed, such as those that steer a terminal."""
    return "".join(one if one.isprintable() else one.encode("unicode_escape").decode() for one in str(text))


def stop_with(status, text):
    """Ends the tool with one line."""
    print(f"{TOOL}: {plain(text)}", file=sys.stderr)
    sys.exit(status)


def refuse(text):
    stop_with(2, text)


def begin(doc, usage, fits):
    """Returns the arguments. `--help` prints the tool's documentation, and arguments that do not fit are refused.

    Files that the tool writes are private. A signal lets the tool clean up before it ends. An I/O error is one line."""
    given = sys.argv[1:]
    if given[:1] in (["--help"], ["-h"]):
        print(doc.strip())
        sys.exit(0)
    if not fits(given):
        print(f"usage: {usage}", file=sys.stderr)
        sys.exit(2)
    os.umask(0o077)
    sys.excepthook = print_fault
    on_signals(end)
    return given


def print_fault(kind, fault, trace):
    if issubclass(kind, OSError):
        print(f"{TOOL}: {plain(fault)}", file=sys.stderr)
    else:
        sys.__excepthook__(kind, fault, trace)


def on_signals(action):
    for number in (signal.SIGINT, signal.SIGTERM, signal.SIGHUP):
        signal.signal(number, action)


def end(number, _):
    sys.exit(128 + number)


@contextlib.contextmanager
def undisturbed():
    """Holds signals back while the block runs. One that arrives meanwhile ends the tool afterwards."""
    # Not SIG_IGN: child processes would inherit it.
    came = []
    on_signals(lambda number, _: came.append(number))
    yield
    on_signals(end)
    if came:
        end(came[0], None)


def synced(path):
    """Waits until a file or a folder is on the disk."""
    handle = os.open(path, os.O_RDONLY)
    try:
        os.fsync(handle)
    finally:
        os.close(handle)


def remove(path):
    """Removes a file if it is there; of a link, the link."""
    with contextlib.suppress(FileNotFoundError):
        os.remove(path)


def created(path):
    """Opens a new file to write, in the place of the one that was there. A link is not followed."""
    remove(path)
    return os.fdopen(os.open(path, os.O_WRONLY | os.O_CREAT | os.O_EXCL | os.O_NOFOLLOW, 0o600), "wb")


def opened(path):
    """Opens a file to read. A link is refused: whoever may write beside a file must not choose what root reads. So is what is no file."""
    try:
        handle = os.open(path, os.O_RDONLY | os.O_NOFOLLOW | os.O_NONBLOCK)
    except OSError as fault:
        if fault.errno != errno.ELOOP:
            raise
        refuse(f"{path} is a link")
    if not stat.S_ISREG(os.fstat(handle).st_mode):
        refuse(f"{path} is no file")
    return os.fdopen(handle, "rb")


def is_copied(status):
    """Whether something is a file that is no longer than any portal's."""
    return stat.S_ISREG(status.st_mode) and status.st_size <= LARGEST_FILE


def copy(path, to):
    """Copies a file to a new one, unless another program has it locked or it is longer than any portal's."""
    with opened(path) as file:
        if not is_copied(os.fstat(file.fileno())):
            stop_with(1, f"{path} has more than {LARGEST_FILE} bytes")
        try:
            fcntl.lockf(file, fcntl.LOCK_SH | fcntl.LOCK_NB)
        except BlockingIOError:
            stop_with(1, f"another program has {path}")
        with created(to) as new:
            shutil.copyfileobj(file, new)


def write(path, data, mode=0o600, group=None):
    """Writes a file atomically: whatever stops the tool, the old file is there, or the new one."""
    new = f"{path}.new"
    with created(new) as file:
        os.fchmod(file.fileno(), mode)
        if group:
            os.fchown(file.fileno(), -1, grp.getgrnam(group).gr_gid)
        file.write(data)
        file.flush()
        os.fsync(file.fileno())
    os.replace(new, path)
    synced(os.path.dirname(path) or ".")


def copied(year, folder):
    """Copies a database with its write-ahead log, and returns the copy's path. A journal of SQLite is left out: the portal writes none, and
    SQLite deletes a file that a journal names."""
    if not os.path.lexists(year):
        refuse(f"there is no {year}")
    for end in ("", "-wal"):
        if os.path.lexists(year + end):
            copy(year + end, os.path.join(folder, f"year.db{end}"))
    return os.path.join(folder, "year.db")


def remove_beside(year):
    """Removes the files that may have been left beside a database."""
    for end in BESIDE:
        remove(year + end)


def stamp():
    """The time, in that form."""
    return datetime.datetime.now(datetime.timezone.utc).strftime("%Y-%m-%dT%H%M%S.%f000Z")


class Department:
    """A department of this machine, by its name. The folder of its year has to be there, but for a tool that ends what is left of a department."""

    def __init__(self, name, has_year=True):
        if not re.fullmatch("[a-z0-9][a-z0-9-]{0,31}", name):
            refuse(f"{name} is no name of a department")
        self.unit = f"portal@{name}"
        self.state = os.path.join(os.environ.get("PORTAL_STATE", "/var/lib/portal"), name)
        self.backups = os.path.join(os.environ.get("PORTAL_BACKUPS", "/var/backups/portal"), name)
        self.folder = os.path.join(os.environ.get("PORTAL_ETC", "/etc/portal"), name)
        self.year = os.path.join(self.state, "year.db")
        self.own_files = {f"year.db{end}" for end in ("", *BESIDE)}
        if has_year and not os.path.isdir(self.state):
            refuse(f"there is no {self.state}")

    def do(self, word):
        """Has systemd start or stop the portal, and waits for it."""
        with undisturbed():
            done = subprocess.run(["systemctl", word, self.unit])
        if done.returncode:
            stop_with(1, f"{self.unit} does not {word}")

    def is_served(self):
        """Whether systemd has started the portal, or is about to: its state is "activating" then."""
        state = subprocess.run(["systemctl", "is-active", self.unit], stdout=subprocess.PIPE, text=True).stdout.strip()
        return state not in ("inactive", "failed", "unknown")

    def refuse_links(self):
        """Refuses a year in whose folder the portal's user has put links: programs that root runs would follow them."""
        for name in os.listdir(self.state):
            if os.path.islink(os.path.join(self.state, name)):
                refuse(f"{os.path.join(self.state, name)} is a link")

    def move_odd_aside(self):
        """Moves what no portal writes from the year's folder to a new one beside it: what is no file, has another name, or is too long."""
        odd = [one.name for one in os.scandir(self.state) if one.name not in self.own_files or not is_copied(one.stat(follow_symlinks=False))]
        if not odd:
            return
        aside = f"{os.path.realpath(self.state)}.{stamp()}.odd"
        os.mkdir(aside)
        for name in odd:
            os.rename(os.path.join(self.state, name), os.path.join(aside, name))
        print(f"{len(odd)} things that no portal writes were beside the year; they are in {aside}")

    @contextlib.contextmanager
    def locked(self):
        """Keeps other tools from the department while the block runs. What is locked is a folder that only root can open."""
        os.makedirs(self.backups, exist_ok=True)
        lock, end = os.open(self.backups, os.O_RDONLY), time.monotonic() + PATIENCE
        try:
            while True:
                try:
                    fcntl.flock(lock, fcntl.LOCK_EX | fcntl.LOCK_NB)
                    break
                except BlockingIOError:
                    if time.monotonic() > end:
                        stop_with(1, f"another tool has had {self.backups} locked for {PATIENCE} seconds")
                    time.sleep(0.1)
            yield
        finally:
            os.close(lock)

    @contextlib.contextmanager
    def stopped(self, look=refuse_links):
        """Stops the portal of a locked department while the block runs. A portal that ran is started again. `look` sees first what is in the
        year's folder."""
        is_served = self.is_served()
        try:
            if is_served:
                self.do("stop")
            # The portal's user has no process now, so what is seen stays as it is.
            look(self)
            yield
        finally:
            if is_served:
                self.do("start")

    def put(self, settled):
        """Replaces the year by a copy of a settled database, atomically."""
        new, owner = os.path.join(self.state, "new.db"), os.stat(self.state)
        try:
            remove_beside(new)
            copy(settled, new)
            os.chown(new, owner.st_uid, owner.st_gid, follow_symlinks=False)
            synced(new)
            os.replace(new, self.year)
            synced(self.state)
        finally:
            remove(new)

    def settle(self, settled):
        """Makes the year one file, a copy of itself that is settled. Its log, with the same in it, is removed after that."""
        self.put(settled)
        remove_beside(self.year)

    def copy_out(self):
        """Copies the year to a new folder of the backups, which does not count yet, and returns the folder. What killed runs have left there is
        removed."""
        if not os.path.isfile(self.year):
            refuse(f"there is no {self.year}")
        for name in os.listdir(self.backups):
            if re.fullmatch(f"{STAMP}\\.new", name):
                shutil.rmtree(os.path.join(self.backups, name))
        folder = os.path.join(self.backups, f"{stamp()}.new")
        os.mkdir(folder)
        try:
            copied(self.year, folder)
        except BaseException:
            shutil.rmtree(folder)
            raise
        return folder

    def named(self, folder, end=""):
        """Gives a new folder of the backups its final name, and returns its path."""
        for file in os.listdir(folder):
            synced(os.path.join(folder, file))
        path = folder.removesuffix(".new") + end
        os.rename(folder, path)
        synced(self.backups)
        return path

    def copies(self):
        """The names of the backups that count, the oldest first."""
        names = os.listdir(self.backups) if os.path.isdir(self.backups) else []
        return sorted(name for name in names if re.fullmatch(STAMP, name))

    def outdated(self, keep):
        """The names of the folders that go with a new backup: those beyond the newest `keep`, and what does not count but is older than these."""
        copies = self.copies()
        if len(copies) <= keep:
            return []
        return [name for name in os.listdir(self.backups) if re.fullmatch(f"{STAMP}(\\.broken|\\.replaced)?", name) and name < copies[-keep]]

    def setting(self, name, form):
        """A setting from the department's configuration file, or None without one of this form."""
        with contextlib.suppress(FileNotFoundError), open(f"{self.folder}.conf") as file:
            if found := re.findall(f"^{name}=({form})$", file.read(), re.M):
                return found[-1]
        return None
