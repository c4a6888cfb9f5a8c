"""Tries what the gate itself rests on: that what is gone, left out or published by another way is noticed. None of it needs the program."""
import contextlib
import io
import json
import os
import pathlib
import signal
import subprocess
import sys
import tempfile
import types
import unittest
import unittest.mock

from tests import counted, pages, process
from tests.case import SECONDS, Case
from tools.workspace import TOP, loaded

# A file of tests.
FILE = """
import threading, unittest
from tests.case import claim

class ItTest(unittest.TestCase):
    %s
"""
# What is in it, and how many of its checks pass, fail and are left out in the gate.
FILES = {
    "pass": (0, 1, 0),
    "def test_it(self): raise KeyError\n    def test_more(self): self.assertTrue(True)": (1, 1, 0),
    "def test_it(self):\n        for it in []: self.assertTrue(it)": (0, 1, 0),
    "def test_it(self): yield self.fail()": (0, 1, 0),
    "def test_it(self): self.assertIsNone(threading.Thread(target=self.fail).run())": (0, 1, 0),
    "def test_it(self):\n        it = threading.Thread(target=self.fail); it.start(); it.join(); self.assertTrue(it)": (
        1,
        1,
        0,
    ),
    "@unittest.expectedFailure\n    def test_it(self): self.assertTrue(True)": (0, 1, 0),
    "@unittest.expectedFailure\n    def test_it(self): self.fail()": (0, 1, 0),
    "@unittest.skip('needs go and mypy')\n    def test_it(self): pass": (0, 0, 1),
    "@unittest.skip('needs go and cc')\n    def test_it(self): pass": (0, 1, 1),
    "def test_it(self): self.assertTrue(open('README.md').close() is None)": (1, 1, 0),
    "def test_it(self): self.assertTrue(claim('docs/PAGE.md', '24 calls') is None)": (1, 1, 0),
}


class ChecksTest(unittest.TestCase):
    def test_counted(self):
        """What `tests.counted` says of files of tests: what checks nothing, what unittest wouldn't count, what a gate's machine mustn't lack,
        what reads a page that it doesn't list, and a page without a number that the tests have."""
        with tempfile.TemporaryDirectory() as made:
            room = pathlib.Path(made)
            (room / "docs").mkdir()
            (room / "docs/PAGE.md").write_text("in 224 calls")
            (room / "README.md").touch()
            (room / "tests/tooling").mkdir(parents=True)
            for name in ("__init__", "built", "case", "counted", "pages", "process"):
                (room / f"tests/{name}.py").write_text((TOP / f"tests/{name}.py").read_text())
            (room / "tests/optional").write_text((TOP / "tests/optional").read_text())
            for name in ("tools", "crates.txt", "crates"):
                (room / name).symlink_to(TOP / name)
            for number, (text, (passed, failed, skipped)) in enumerate(FILES.items()):
                (room / f"tests/tooling/test_it{number}.py").write_text(
                    FILE % text + "\nREADS = ['docs/*']\n"
                )
                words = [sys.executable, "-m", "tests.counted", f"test_it{number}", f"{made}/told"]
                run = process.run(
                    words, cwd=made, capture_output=True, text=True, env={"AGE_TEST_ALL": "1"}
                )
                with self.subTest(text):
                    self.assertEqual(
                        run.stdout.splitlines()[-1:],
                        [f"{passed} passed, {failed} failed, {skipped} skipped"],
                        run.stdout + run.stderr,
                    )
                    self.assertEqual(
                        (run.returncode != 0, json.loads((room / "told").read_text())["failed"]),
                        (failed != 0, failed),
                    )
        self.assertTrue(counted.may_lack("no file of 3 TiB can be made: File too large"))

    def test_see(self):
        """A check that doesn't hold fails its test, and the next ones are made."""

        class ItTest(Case):
            def test_it(self):
                for holds in (False, None, "", True):
                    self.see(repr(holds), holds)

        result = counted.Counted(unittest.runner._WritelnDecorator(io.StringIO()), False, 0)
        ItTest("test_it").run(result)
        self.assertEqual((len(result.failures), result.passed), (3, 1))

    def test_limits(self):
        """A process that doesn't end is killed with what it began; and no test starts one without that limit."""
        with tempfile.TemporaryDirectory() as made:
            with self.assertRaises(TimeoutError):
                process.run(
                    ["sh", "-c", "sleep 600 & echo $! >began; wait"],
                    cwd=made,
                    timeout=1,
                    capture_output=True,
                )
            self.assertFalse(
                pathlib.Path(
                    "/proc", pathlib.Path(made, "began").read_text().strip(), "cwd"
                ).exists()
            )
        others = [
            it
            for it in (TOP / "tests").glob("*/*.py")
            if f"{subprocess.__name__}.run(" in it.read_text()
        ]
        self.assertEqual(others, [])

    def test_pages(self):
        """If nothing but pages changed since the gate passed, the tests that read them are run, and else all."""
        with tempfile.TemporaryDirectory() as made:
            passed = {"others": "it", "pages": {"README.md": "a", "docs/SPEED.md": "b"}}
            with unittest.mock.patch.multiple(
                pages, place=lambda: pathlib.Path(made, "passed"), sums=lambda: passed
            ):
                self.assertIsNone(pages.changed(passed))
                pages.keep({**passed, "others": "changed meanwhile"})
                self.assertIsNone(pages.changed(passed))
                pages.keep(passed)
                self.assertIsNone(pages.changed(passed))
                now = {"README.md": "new", "docs/SPEED.md": "b"}
                self.assertIn("test_recipes", pages.changed({**passed, "pages": now}))
                self.assertNotIn("test_links", pages.changed({**passed, "pages": now}))
                self.assertIsNone(pages.changed({"others": "other", "pages": now}))
            with unittest.mock.patch.object(pages, "place", lambda: None):
                self.assertIsNone(pages.changed(passed))
        self.assertTrue(
            pages.is_page("docs/SPEED.md")
            and pages.is_page("docs/cut.svg")
            and not pages.is_page("docs/age_tool.1")
        )

    def check_told(
        self,
        proofs="print('rt: age_kdf proved\\n3 passed, 0 failed')",
        edits="print('2 passed, 0 failed')",
        first=None,
        promised=(),
        last=(),
    ):
        """The status of `check` and what it says, if its commands are these scripts, this came of the first file of tests, and these tests are
        promised."""
        check, files = loaded(TOP / "check"), sorted(
            it.stem for it in TOP.glob("tests/*/test_*.py")
        )
        well = {
            "passed": 1,
            "failed": 0,
            "skipped": 0,
            "ran": ["test_it"],
            "left out": [],
            "seconds": {},
        }
        with tempfile.TemporaryDirectory() as made:
            released = pathlib.Path(made, "last")
            released.write_text(json.dumps({"ran": dict(last), "seconds": {}}))
            told = {
                "PROOFS": (sys.executable, "-c", proofs),
                "EDITS": (sys.executable, "-c", f"import sys; told = sys.stdin.read(); {edits}"),
                "program": str,
                "library": str,
                "proved_object": str,
            }
            told |= {
                "run_file": lambda it, _: ("", first if first and it == files[0] else well),
                "RAN": pathlib.Path(made, "out", "ran"),
                "LAST": released,
            }
            told |= {
                "promises": lambda: [
                    types.SimpleNamespace(promise="it holds", test=it) for it in promised
                ]
            }
            with contextlib.redirect_stdout(io.StringIO()) as shown, unittest.mock.patch.dict(
                "os.environ"
            ), unittest.mock.patch.multiple(check, **told):
                return check.main([]), shown.getvalue().splitlines(), len(files)

    def test_check(self):
        """Whatever fails, ends early or has no count shows in the status of `check` and in its last line."""
        for what, of in (("proofs", 3), ("edits", 2)):
            for script, less, failed in (
                (f"print('{of} passed, 0 failed')", 0, 0),
                (f"print('{of} passed, 0 failed'); exit(1)", 0, 1),
                ("", of, 1),
                (f"print('{of - 1} passed, 1 failed'); exit(1)", 1, 1),
            ):
                with self.subTest(script, what=what):
                    status, shown, files = self.check_told(**{what: script})
                    self.assertEqual(
                        (status, shown[-1]),
                        (failed != 0, f"{5 + files - less} passed, {failed} failed"),
                    )
        kept = "print('rt: age_kdf is kept: an earlier run proved it\\nrt: age_io NOT PROVED\\n3 passed, 1 failed'); exit(1)"
        for script, told, failed in (
            ("print('rt: age_kdf proved\\n3 passed, 0 failed')", "age_kdf\\nend\\n", 0),
            (kept, "age_kdf\\nend\\n", 1),
            ("print('3 passed, 0 failed')", "end\\n", 0),
        ):
            with self.subTest(f"the edits hear: {told}", script=script):
                self.assertEqual(
                    self.check_told(
                        script, f"exit(1) if told != '{told}' else print('2 passed, 0 failed')"
                    )[1][-1],
                    f"{5 + files} passed, {failed} failed",
                )
        status, shown, files = self.check_told(first=loaded(TOP / "check").LOST)
        self.assertEqual((status, shown[-1]), (True, f"{4 + files} passed, 1 failed"))

    def test_vanished(self):
        """A test that is promised and neither ran nor was left out is named, and fails; a number that became smaller is shown, and doesn't."""
        first = sorted(it.stem for it in TOP.glob("tests/*/test_*.py"))[0]
        came = {
            "passed": 1,
            "failed": 0,
            "skipped": 1,
            "ran": ["test_one"],
            "left out": ["test_two"],
            "seconds": {},
        }
        for test, is_there in (
            (f"{first}.test_one", True),
            (f"{first}.test_two", True),
            (f"{first}.test_three", False),
            ("age_tests.gone", False),
            ("-", True),
        ):
            with self.subTest(test):
                status, shown, _ = self.check_told(first=came, promised=[test])
                self.assertEqual(
                    (
                        status,
                        f"checks/promises: it holds: {test} neither ran nor was left out" in shown,
                    ),
                    (not is_there, not is_there),
                )
        status, shown, _ = self.check_told(last={"crates": 3, "test_gone": 4}.items())
        self.assertEqual(
            (status, [it for it in shown if "last release" in it]),
            (False, ["test_gone: 0, and 4 before the last release"]),
        )

    def test_interrupt(self):
        """Whatever ends `check` early ends what it started."""
        # (what a shell runs in the background ignores the first of these signals; one that comes just before a read is seen after it, so
        # that the proofs go on saying something)
        words = """import signal, sys; from tools.workspace import TOP, loaded; check = loaded(TOP / "check")
signal.signal(signal.SIGINT, signal.default_int_handler)
check.PROOFS = check.EDITS = (sys.executable, "-c", '''import contextlib, os, time
for _ in range(600):
    with contextlib.suppress(OSError):
        print(os.getpid(), flush=True)
    time.sleep(0.1)''')
check.main([])"""
        for stop in (signal.SIGINT, signal.SIGTERM):
            with self.subTest(stop), process.Popen(
                [sys.executable, "-c", words],
                cwd=TOP,
                stdout=subprocess.PIPE,
                stderr=subprocess.DEVNULL,
                text=True,
            ) as run:
                proofs = pathlib.Path("/proc", run.stdout.readline().strip())
                self.assertTrue(proofs.exists())
                run.send_signal(stop)
                self.assertNotEqual(run.wait(SECONDS), 0)
                self.assertFalse(proofs.exists())

    def test_beside(self):
        """Edits hear which crates are proved, and take their libraries at once. If they hear no end, they end with `check`."""
        edits = loaded(TOP / "checks/edits")
        for heard, ends in (
            ("a\nb\nend\n", ["after"]),
            ("a\nb\n", ["it has ended"]),
            ("", ["it has ended"]),
        ):
            with self.subTest(heard), tempfile.TemporaryDirectory() as made, unittest.mock.patch(
                "sys.stdin", io.StringIO(heard)
            ):
                crates, ended = pathlib.Path(made, "crates"), []
                (crates / "a" / "out" / "rlib" / "a.rlib").mkdir(parents=True)
                (crates / "a" / "out" / "rlib" / "a.rlib" / "format").write_text("it")
                workspace = types.SimpleNamespace(library=lambda it: pathlib.Path(made, "copy", it))
                with unittest.mock.patch.object(edits, "CRATES", crates):
                    found = [
                        *edits.proved_beside(
                            workspace,
                            lambda: ended.append("it has ended"),
                            lambda: ended.append("after"),
                        )
                    ]
                self.assertEqual((found, ended), (["a", "b"] if heard else [], ends))
                self.assertEqual(
                    pathlib.Path(made, "copy", "a", "a.rlib", "format").exists(), bool(heard)
                )
