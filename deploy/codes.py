"""Codes: a new one at random, and a note of those that were replaced, so that a restored backup cannot bring one back unseen."""
import contextlib
import datetime
import hashlib
import os
import re
import secrets

from apart import consult
from department import write

# 32 letters and digits, without those that look alike: five bits each, so 80 bits a code.
ALPHABET = "abcdefghijkmnpqrstuvwxyz23456789"
GROUPS, LENGTH = 4, 4
# A line of the notes: its time, whose the code was, and its digest.
NOTE = re.compile(r"^\S+ (office|lecturer|student) (\S+) ([0-9a-f]{64})$", re.M)


def new_code():
    """A code at random, as in k7mp-2xqa-9vre-h4td."""
    return "-".join("".join(secrets.choice(ALPHABET) for _ in range(LENGTH)) for _ in range(GROUPS))


def digest(code):
    return hashlib.sha256(code.encode()).hexdigest()


def notes(department):
    """The file beside the backups, which only root reads, with a line for each code that was replaced."""
    return os.path.join(department.backups, "replaced-codes")


def noted(department):
    """What was replaced so far: the text of the file."""
    with contextlib.suppress(FileNotFoundError), open(notes(department)) as file:
        return file.read()
    return ""


def note(department, kind, key, code):
    """Notes that a code of somebody is no longer valid."""
    time = datetime.datetime.now(datetime.timezone.utc).strftime("%Y-%m-%dT%H:%M:%SZ")
    os.makedirs(department.backups, exist_ok=True)
    write(notes(department), f"{noted(department)}{time} {kind} {key} {digest(code)}\n".encode())


def times_replaced(department, kind, key):
    """When codes of somebody were replaced."""
    return re.findall(rf"^(\S+) {kind} {re.escape(key)} [0-9a-f]{{64}}$", noted(department), re.M)


def revived(department, year):
    """Who has in a copy of a database a code that was replaced: the kind and the key of each."""
    replaced = NOTE.findall(noted(department))
    codes = consult(year, "codes", [(kind, key) for kind, key, _ in replaced])
    found = [(kind, key) for (kind, key, old), code in zip(replaced, codes) if code and digest(code) == old]
    return list(dict.fromkeys(found))
