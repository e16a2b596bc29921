"""How tools that only tell something of a year get it: a good copy of it, or of a backup, as apart.py has them."""
import contextlib
import os

from apart import apart, refusal
from department import stop_with


@contextlib.contextmanager
def looked_at(department, backup=None):
    """Copies the year, for which the portal is stopped for a moment, or that of a backup's folder. One that the portal does not open ends the tool."""
    path = os.path.join(backup, "year.db") if backup else department.year
    with contextlib.ExitStack() as held:
        if backup:
            year = held.enter_context(apart(path))
        else:
            with department.locked(), department.stopped():
                year = held.enter_context(apart(path))
        if said := refusal(year):
            stop_with(1, f"the portal does not open {path}: {said}")
        yield year
