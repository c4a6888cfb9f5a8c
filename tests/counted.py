"""Runs the tests of one file. Each check with a name of its own (`subTest`) counts, and a test without any counts as one. What unittest lets
pass fails: a file or a test that checks nothing, one that is expected to fail, one of whose threads ended by an exception, one that reads a page
which READS of its file doesn't list; and, if AGE_TEST_ALL is set, what is left out for want of something that tests/optional doesn't list.

usage: python3 -m tests.counted FILE [RESULT]     as test_links; the last line is `N passed, M failed, K skipped`, and the status 0 if none
                                                  failed; RESULT gets the same as JSON, with the names of the tests
"""
import functools
import importlib
import json
import os
import pathlib
import re
import sys
import threading
import time
import unittest

from tests import case, pages

LISTED = [
    it
    for it in pathlib.Path(__file__).with_name("optional").read_text().splitlines()
    if it and not it.startswith("#")
]


def may_lack(reason):
    """Whether tests/optional has this reason to leave a check out, or all that the check needs and lacks."""
    lacks = reason.removeprefix("needs ").split(" and ")
    return all(it in LISTED for it in lacks) or any(
        it.endswith(":") and reason.startswith(it) for it in LISTED
    )


class Counted(unittest.TextTestResult):
    passed = checks = asserted = begun = 0

    def __init__(self, *words):
        super().__init__(*words)
        self.ran, self.left_out, self.seconds = [], [], {}

    def startTest(self, test):
        super().startTest(test)
        self.checks, Counted.asserted, self.begun = 0, 0, time.monotonic()
        threading.excepthook = lambda it: self.addError(test, it[:3])

    def stopTest(self, test):
        threading.excepthook = threading.__excepthook__
        name, reasons = test.id().rpartition(".")[2], [
            why for it, why in self.skipped if test in (it, getattr(it, "test_case", None))
        ]
        self.seconds[name] = round(time.monotonic() - self.begun, 1)
        if self.checks or Counted.asserted:
            self.ran.append(name)
        elif reasons and all(map(may_lack, reasons)):
            self.left_out.append(name)
        super().stopTest(test)

    def addSubTest(self, test, check, error):
        super().addSubTest(test, check, error)
        self.checks += 1
        self.passed += error is None

    def addSuccess(self, test):
        if not (self.checks or Counted.asserted):
            return self.addFailure(
                test, (AssertionError, AssertionError("no check was made"), None)
            )
        super().addSuccess(test)
        self.passed += self.checks == 0


def counting(check):
    """The same assertion, which is counted."""

    @functools.wraps(check)
    def counted(*words, **more):
        Counted.asserted += 1
        return check(*words, **more)

    return counted


def says(page, phrase):
    """Whether a page has a phrase. ("24 calls" isn't what "224 calls" says.)"""
    return re.search(
        rf"(?<![\w,.]){re.escape(phrase)}(?!\w)", " ".join((pages.TOP / page).read_text().split())
    )


def wrong_beside(result, module, read):
    """What no test says is wrong: pages that lack a phrase, or were read and aren't listed, what was left out without being listed, and that
    nothing was checked."""
    yield from (
        f"{page} doesn't say: {phrase}" for page, phrase in case.CLAIMED if not says(page, phrase)
    )
    yield from (
        f"{it} is read, and READS doesn't list it"
        for it in sorted(read)
        if not pages.is_listed(it, module)
    )
    if os.environ.get("AGE_TEST_ALL"):
        yield from (
            f"{test}: left out, and tests/optional doesn't list this: {why}"
            for test, why in result.skipped
            if not may_lack(why)
        )
    if not (result.testsRun or result.skipped):
        yield "no check was made"


def main(file, result_file=None):
    for name in (it for it in dir(unittest.TestCase) if it.startswith("assert")):
        setattr(unittest.TestCase, name, counting(getattr(unittest.TestCase, name)))
    [path] = pathlib.Path(__file__).parent.glob(f"*/{file}.py")
    read = pages.watched()
    module = importlib.import_module(f"tests.{path.parent.name}.{file}")
    result = unittest.TextTestRunner(sys.stdout, verbosity=2, resultclass=Counted).run(
        unittest.defaultTestLoader.loadTestsFromModule(module)
    )
    wrong = [*wrong_beside(result, module, read)]
    failed = len(wrong) + sum(
        map(
            len,
            (result.failures, result.errors, result.expectedFailures, result.unexpectedSuccesses),
        )
    )
    print(
        *wrong, f"{result.passed} passed, {failed} failed, {len(result.skipped)} skipped", sep="\n"
    )
    if result_file:
        told = {
            "passed": result.passed,
            "failed": failed,
            "skipped": len(result.skipped),
            "ran": result.ran,
            "left out": result.left_out,
            "seconds": result.seconds,
        }
        pathlib.Path(result_file).write_text(json.dumps(told))
    return failed != 0


if __name__ == "__main__":
    sys.exit(main(*sys.argv[1:]))
