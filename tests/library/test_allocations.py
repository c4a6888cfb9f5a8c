"""Refuses each allocation in turn, alone, to the tests of crates that say what a refusal leaves, by a library that is loaded before the C
library's (tools/shim.c). Such a test passes if each call that takes memory gives what it gives undisturbed, or reports the refusal,
changes nothing, and gives it the next time. The tests are those that `rt ci` or `rt test` built last.

The engines are tried by test_memory, in the built program."""

from tests import process
from tests.case import Case, needs
from tools import shim
from tools.workspace import CRATES


@needs("cc")
class AllocationsTest(Case):
    """One test for each test of a crate that says what a refusal leaves."""

    def refuse(self, crate, test):
        """Refuses each of its allocations in turn."""
        program = CRATES / crate / "out" / f"{crate}_tests"
        if not program.is_file():
            self.skipTest(f"run rt test in crates/{crate}")
        turn, was_refused = 0, True
        while was_refused:
            turn += 1
            self.remove("count")
            env = shim.loaded(REFUSED=turn, COUNT=self.path("count"))
            run = process.run([program, f"tests::{test}"], env=env, capture_output=True, text=True)
            self.assertEqual(run.returncode, 0, (turn, run.stdout, run.stderr))
            was_refused = self.is_there("count")
        # (a test that takes no memory shows nothing)
        self.assertGreater(turn, 1)

    def test_parser_and_encoders(self):
        self.refuse("age_tests", "refusals::a_header")

    def test_scrypt(self):
        self.refuse("age_tests", "primitives::a_refusal_is_reported")

    def test_replay(self):
        self.refuse("age_tests", "refusals::a_replay")

    def test_drill(self):
        self.refuse("age_tests", "refusals::a_drill")

    def test_keys(self):
        self.refuse("age_tests", "refusals::a_key")
