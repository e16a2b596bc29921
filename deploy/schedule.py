"""The moves of a department's year that are set for a time, in /etc/portal/NAME.schedule."""
import contextlib
import datetime
import json

LATEST_MINUTES = 10


def path(department):
    return f"{department.folder}.schedule"


def moves(department):
    """What is set, by the phase that the year moves to: the time, the round and, where the portal has refused the move, why."""
    with contextlib.suppress(FileNotFoundError), open(path(department)) as file:
        return json.load(file)
    return {}


def time_of(move):
    return datetime.datetime.fromisoformat(move["at"])


def shown(move):
    """A move's time by the clock of this machine."""
    return f"{time_of(move).astimezone():%Y-%m-%d %H:%M}"


def warnings(department):
    """The moves that have not come: those that the portal has refused, and those whose time is over by some minutes."""
    late = datetime.datetime.now(datetime.timezone.utc) - datetime.timedelta(minutes=LATEST_MINUTES)
    for phase, move in moves(department).items():
        if "refused" in move:
            yield f"the move to {phase} at {shown(move)} was refused: {move['refused']}"
        elif time_of(move) < late:
            yield f"the move to {phase} at {shown(move)} has not come"
