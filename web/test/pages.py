"""Runs the tests of the page in the browser, several at a time, and ends with a line of counts for web/test/run."""

import io
import multiprocessing
import os
import sys
import unittest
from pathlib import Path

FOLDER = Path(__file__).resolve().parent
AT_A_TIME = max(1, os.cpu_count() - 1)


def names_of(suite):
    """The names of all tests, each as the loader takes it."""
    return [name for one in suite for name in (names_of(one) if isinstance(one, unittest.TestSuite) else [one.id()])]


def run(name):
    said = io.StringIO()
    result = unittest.TextTestRunner(stream=said).run(unittest.defaultTestLoader.loadTestsFromName(name))
    return name, result.wasSuccessful(), said.getvalue()


def main(names):
    loader = unittest.defaultTestLoader
    tests = names_of(loader.loadTestsFromNames(names) if names else loader.discover(str(FOLDER)))
    failed = 0
    # forked, so that what the tests share in a folder is made once and removed at the end
    with multiprocessing.get_context("fork").Pool(AT_A_TIME) as pool:
        for name, is_good, said in pool.imap_unordered(run, tests):
            print(f"ok {name}" if is_good else f"FAILED {name}\n{said}", flush=True)
            failed += not is_good
    print(f"pages {len(tests) - failed} {failed}")
    return 1 if failed or not tests else 0


if __name__ == "__main__":
    sys.exit(main(sys.argv[1:]))
