"""Counts what a script looks at, and tells each look that finds something else than it wants."""
import subprocess
import sys


class Looks:
    """So many looks that passed, and so many that failed."""

    def __init__(self, program):
        self.program, self.passed, self.failed = program, 0, 0

    def at(self, name, found, wanted=True):
        """Looks whether this is what is wanted."""
        good = found == wanted
        self.passed, self.failed = self.passed + good, self.failed + (not good)
        print(("ok      " if good else "WRONG   ") + name + ("" if good else f"\n        found  {found!r}\n        wanted {wanted!r}"), flush=True)

    def run(self, name, words, stdin, wanted, status):
        """Runs the program, looks at its output (where it is wanted) and its status, and answers the output."""
        run = subprocess.run([self.program, *words], input=stdin, stdout=subprocess.PIPE, stderr=subprocess.PIPE)
        found = run.stdout, run.returncode, run.stderr
        self.at(name, found, (found[0] if wanted is None else wanted, status, b""))
        return run.stdout

    def end(self):
        """Tells both numbers, and ends with status 1 where a look failed."""
        print(f"{self.passed} passed, {self.failed} failed")
        sys.exit(1 if self.failed else 0)
