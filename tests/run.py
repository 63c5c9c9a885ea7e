"""Runs the suite: the built program as a process, and what the pages show of it.

Each module of `cases` has a subject and its cases. The last line counts, and the status is 0 if no case failed.
"""

from __future__ import annotations

import argparse
import importlib
import os
import pkgutil
import sys
import tempfile
import unittest
from collections.abc import Iterator, Sequence
from concurrent.futures import ThreadPoolExecutor
from fnmatch import fnmatchcase

import cases
from case import PROGRAM, Case, Check

# These subjects take longest, so they start first.
SLOW = ("all axes", "requests for memory that are refused", "the launcher", "pages", "checks of scripts")
# Most cases wait for processes, some for what others make.
JOBS = 2 * (os.cpu_count() or 1)


class Test(unittest.TestCase):
    """A case as unittest runs it."""

    def __init__(self, subject: str, case: Case | Check) -> None:
        super().__init__("judge")
        self.subject = subject
        self.case = case

    def judge(self) -> None:
        self.case.judge()

    def id(self) -> str:
        return f"{self.subject}: {self.case.name}"

    __str__ = id


class Record(unittest.TestResult):
    """What happened to one test, to be reported to another result."""

    def __init__(self) -> None:
        super().__init__()
        self.events: list[tuple[str, tuple]] = []

    def addSuccess(self, test: unittest.TestCase) -> None:
        self.events.append(("addSuccess", (test,)))

    def addFailure(self, test: unittest.TestCase, err: tuple) -> None:
        self.events.append(("addFailure", (test, err)))

    def addError(self, test: unittest.TestCase, err: tuple) -> None:
        self.events.append(("addError", (test, err)))

    def addSkip(self, test: unittest.TestCase, reason: str) -> None:
        self.events.append(("addSkip", (test, reason)))


def record(test: Test) -> Record:
    found = Record()
    test.run(found)
    return found


class ParallelSuite(unittest.TestSuite):
    """Runs its tests in threads, slow subjects first, and reports them in their order."""

    def __init__(self, tests: Sequence[Test], jobs: int) -> None:
        super().__init__(tests)
        self.jobs = jobs

    def run(self, result: unittest.TestResult, debug: bool = False) -> unittest.TestResult:
        tests = list(self)
        with ThreadPoolExecutor(self.jobs) as pool:
            # By number, since unittest takes tests of one class for equal.
            order = sorted(range(len(tests)), key=lambda number: tests[number].subject not in SLOW)
            records = {number: pool.submit(record, tests[number]) for number in order}
            try:
                for number, test in enumerate(tests):
                    found = records[number].result()
                    result.startTest(test)
                    for event, arguments in found.events:
                        getattr(result, event)(*arguments)
                    result.stopTest(test)
            except KeyboardInterrupt:
                pool.shutdown(cancel_futures=True)
                raise
        return result


def all_tests() -> Iterator[Test]:
    for module in pkgutil.iter_modules(cases.__path__):
        subject = importlib.import_module(f"cases.{module.name}")
        for case in subject.CASES:
            yield Test(subject.SUBJECT, case)


def is_selected(test: Test, patterns: Sequence[str]) -> bool:
    return not patterns or any(fnmatchcase(test.id(), pattern if "*" in pattern else f"*{pattern}*") for pattern in patterns)


def arguments() -> argparse.Namespace:
    parser = argparse.ArgumentParser(description=__doc__)
    text = "run the cases with this text, or this pattern with *, in 'SUBJECT: NAME'; may be repeated"
    parser.add_argument("-k", metavar="NAME", dest="patterns", action="append", default=[], help=text)
    parser.add_argument("-v", dest="verbosity", action="store_const", const=2, default=1, help="print each case and its result")
    parser.add_argument("-j", metavar="JOBS", dest="jobs", type=int, default=JOBS, help=f"cases at once; here {JOBS}")
    parser.add_argument("--list", action="store_true", help="print the names of the cases, and run none")
    return parser.parse_args()


def main() -> int:
    given = arguments()
    tests = [test for test in all_tests() if is_selected(test, given.patterns)]
    if given.list:
        print(*tests, sep="\n")
        return 0
    if not PROGRAM.exists():
        print("the program isn't built yet: ./build", file=sys.stderr)
        return 125
    with tempfile.TemporaryDirectory() as folder:
        tempfile.tempdir = folder
        result = unittest.TextTestRunner(verbosity=given.verbosity).run(ParallelSuite(tests, given.jobs))
    for test, reason in result.skipped:
        print(f"not tried, {reason}: {test}")
    failed = len(result.failures) + len(result.errors)
    print(f"{result.testsRun - failed - len(result.skipped)} passed, {failed} failed")
    return 1 if failed or not tests else 0


if __name__ == "__main__":
    sys.exit(main())
