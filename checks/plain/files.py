"""Files of a portal: making them by the program, changing and copying them, and reading their rows, by python's sqlite3."""
import contextlib
import os
import shutil
import sqlite3

from asking import OFFICE, TOP, ran, replies

ENDS = ("", "-wal", "-journal", "-shm")  # of the names of a file and of what SQLite keeps beside it


def made(program, path, requests=()):
    """Makes a file, in which these requests are answered, each by a 200."""
    assert ran(program, "init", path, stdin=OFFICE) == (b"made\n", 0)
    told, status = ran(program, "pipe", path, stdin=b"".join(requests))
    assert status == 0 and [one for one, _ in replies(told)] == [200] * len(requests), told


def made_in_version_1(path, name, journal="WAL"):
    """Makes a file of version 1 of what the last program of that version left in this phase, with its kind of journal or another."""
    with open(os.path.join(TOP, "checks", "version1", name + ".sql"), encoding="utf-8") as source:
        changed(path, f"PRAGMA journal_mode = {journal};\n" + source.read())


def changed(path, statements):
    """A file is changed, or made, with the checks off as far as that can be asked for."""
    with contextlib.closing(sqlite3.connect(path)) as connection:
        connection.execute("PRAGMA foreign_keys = OFF")
        connection.execute("PRAGMA ignore_check_constraints = ON")
        connection.executescript(statements)
        connection.commit()


def copied(path, copy):
    """Puts a copy of a file, with what stands beside it, in the place of another; in the place of nothing, where there is no file."""
    for end in ENDS:
        with contextlib.suppress(FileNotFoundError):
            os.remove(copy + end)
        if path and os.path.exists(path + end):
            shutil.copy(path + end, copy + end)


def rows(path):
    """All rows of the tables of a file, read from a copy, of which SQLite's checks have nothing to say."""
    copy = path + ".copy"
    copied(path, copy)
    with contextlib.closing(sqlite3.connect(copy)) as connection:
        assert connection.execute("PRAGMA integrity_check").fetchall() == [("ok",)]
        assert connection.execute("PRAGMA foreign_key_check").fetchall() == []
        there = [name for name, in connection.execute("SELECT name FROM sqlite_schema WHERE type = 'table'")]
        return {name: sorted(connection.execute(f"SELECT * FROM {name}").fetchall(), key=repr) for name in there}


def state(program, path):
    """What `report` prints of a file, with its status, and the file's rows; `Year.state` says what they have to be."""
    return ran(program, "report", path), rows(path)
