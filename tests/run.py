#!/usr/bin/env python3
"""Tries the programs: those that KAHN, KAHN_LIVE, KAHN_DRAW and KAHN_EXPLAIN name, or else those of this tree.

run.py [-k WORD] [--write] [--here] [PART ..]

    rows        kahn on the programs of tests/rows and examples/ (rows.py)
    crowd       the same by workers that all begin at once, if that program was built
    sessions    commands and what they print, tests/*/*.t (sessions.py)
    examples    the values of examples/ and of its library, by kahn_test (examples.py)
    pages       the commands of the README and of docs/; with --here in this tree, by its own programs
    notes       kahn_explain on tests/mistakes and tests/warnings (notes.py)
    growth      whether work grows no faster than texts and inputs (growth.py)
    worst       texts of the most bytes, against limits on time and memory (worst.py)
    NAME        the tests of tests/test_NAME.py, or sessions or a page by the path from the top (tests/release)

Without a part it tries rows, sessions, examples, pages, notes and every test_NAME.py. -k takes only what has the word in its name; --write puts
what the commands of sessions, and kahn_explain, give in place of what is wanted. The last line says how much passed and failed."""
import argparse
import concurrent.futures
import glob
import importlib
import os
import sys
import tempfile
import unittest

import common
import examples
import growth
import notes
import rows
import sessions
import worst

TESTS = sorted(os.path.basename(path)[5:-3] for path in glob.glob(f"{common.TOP}/tests/test_*.py"))


class Counting(unittest.TestResult):
    """Counts tests and their parts."""

    def __init__(self, tried):
        super().__init__()
        self.tried = tried

    def addSkip(self, test, reason):
        print(f"{test}: not tried, {reason}")

    def told(self, test, error):
        self.tried.fail(f"{test}: {self._exc_info_to_string(error, test).rstrip()[-1200:]}")

    addError = addFailure = told

    def addSuccess(self, test):
        self.tried.passed += 1

    def addSubTest(self, test, subtest, error):
        self.told(subtest, error) if error else self.addSuccess(subtest)


def try_module(name, only, tried):
    """The tests of a file."""
    loader = unittest.TestLoader()
    loader.testNamePatterns = [f"*{only}*"] if only else None
    loader.loadTestsFromModule(importlib.import_module(f"test_{name}")).run(Counting(tried))


def try_sessions(paths, work, programs, words, tried):
    """Sessions, several side by side."""
    def one(number, path):
        given = sessions.try_session(path, programs, f"{work}/{number}", words.only, tried)
        if words.write:
            sessions.rewrite(path, given)

    with concurrent.futures.ThreadPoolExecutor(os.cpu_count()) as pool:
        list(pool.map(one, range(len(paths)), paths))


def try_part(part, work, words, tried):
    """A part by its name."""
    programs = f"{work}/programs"
    os.mkdir(programs)
    for name in common.NAMES:
        os.symlink(common.program(name), f"{programs}/{name}")
    for name in common.SCRIPTS:
        os.symlink(f"{common.TOP}/{name}", f"{programs}/{name}")
    if part in TESTS:
        try_module(part, words.only, tried)
    elif part in ("rows", "crowd"):
        rows.try_rows(common.CROWD if part == "crowd" else f"{programs}/kahn", work, words.only, tried)
    elif part == "examples":
        examples.try_examples(programs, work, words.only, tried)
    elif part == "notes":
        notes.try_notes(f"{programs}/kahn_explain", words, tried)
    elif part == "worst":
        worst.try_worst({name: os.path.realpath(f"{programs}/{name}") for name in common.NAMES}, work, words.only, tried)
    elif part == "growth":
        growth.try_growth({name: os.path.realpath(f"{programs}/{name}") for name in common.NAMES}, work, words.only, tried)
    elif part == "pages" or part.endswith(".md"):
        folder = common.TOP if words.here else sessions.tree_of(programs, f"{work}/tree")
        sessions.try_pages(folder, sessions.pages() if part == "pages" else [part], words.only, tried)
    else:
        paths = sessions.sessions_in("tests/kahn*" if part == "sessions" else part)
        try_sessions(paths, work, programs, words, tried) if paths else tried.fail(f"there is no part {part}")


def main():
    words = argparse.ArgumentParser(usage=__doc__)
    words.add_argument("-k", dest="only", default="")
    words.add_argument("--write", action="store_true")
    words.add_argument("--here", action="store_true")
    words.add_argument("parts", nargs="*")
    words = words.parse_args()
    tried = common.Tried()
    for part in words.parts or ["rows", "sessions", "examples", "pages", "notes", *TESTS]:
        with tempfile.TemporaryDirectory() as work:
            os.chmod(work, 0o755)
            try_part(part, work, words, tried)
    return tried.finish()


if __name__ == "__main__":
    sys.exit(main())
