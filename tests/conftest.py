"""For who has pytest, which runs these tests as they are: `pytest -n auto --dist loadfile tests`. What it doesn't do by itself: a test that
asserts nothing fails, and, if AGE_TEST_ALL is set, so does one that is left out for want of something that tests/optional doesn't list."""
import os
import unittest

import pytest

from tests.counted import may_lack


@pytest.hookimpl(hookwrapper=True)
def pytest_runtest_makereport(item, call):
    report = (yield).get_result()
    item.was_skipped = report.skipped
    if (
        report.skipped
        and os.environ.get("AGE_TEST_ALL")
        and not may_lack(report.longrepr[2].removeprefix("Skipped: "))
    ):
        report.outcome, report.longrepr = (
            "failed",
            f"left out, and tests/optional doesn't list this: {report.longrepr[2]}",
        )


@pytest.fixture(autouse=True)
def checks_something(request, monkeypatch):
    made = []
    for name in (it for it in dir(unittest.TestCase) if it.startswith("assert")):
        own = getattr(unittest.TestCase, name)
        monkeypatch.setattr(
            unittest.TestCase,
            name,
            lambda *words, own=own, **more: made.append(1) or own(*words, **more),
        )
    yield
    if not made and not getattr(request.node, "was_skipped", False):
        pytest.fail("no check was made")
