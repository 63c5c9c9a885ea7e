"""The suite itself: each case is reported with its own result, and a failure is one."""

import unittest

from case import Check, need
from run import ParallelSuite, Test, is_selected

SUBJECT = "the suite"


def passes() -> None:
    pass


def fails() -> None:
    raise AssertionError("it fails")


TESTS = [
    Test("a subject", Check("a case that passes", passes)),
    Test("a subject", Check("a case that fails", fails)),
    Test("a subject", Check("a case that lacks a tool", lambda: need("a tool that nobody has"))),
    Test("a subject", Check("another case that passes", passes)),
]


def reports_each_case() -> None:
    result = unittest.TestResult()
    ParallelSuite(TESTS, 3).run(result)
    assert result.testsRun == 4
    assert [str(test) for test, _ in result.failures] == ["a subject: a case that fails"]
    assert [str(test) for test, _ in result.skipped] == ["a subject: a case that lacks a tool"]
    assert not result.errors


def selects_by_name() -> None:
    passing = [is_selected(test, ["case that passes"]) for test in TESTS]
    assert passing == [True, False, False, True]
    assert [is_selected(test, ["a subject: a case*"]) for test in TESTS] == [True, True, True, False]
    assert all(is_selected(test, []) for test in TESTS)


CASES = [
    Check("each case is reported with its own result", reports_each_case),
    Check("cases are selected by their names", selects_by_name),
]
