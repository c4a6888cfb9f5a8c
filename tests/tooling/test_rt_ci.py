"""Tries what tools/rt_ci.py replaces of the kit's `rt`, and says when the kit has changed."""
import types
import unittest

from tools import rt_ci

READS = []


class RtCiTest(unittest.TestCase):
    def test_kit(self):
        """The functions are those for which the script was written. If this fails: read what has changed in them, measure `./build` from nothing and
        after a change of one crate, by tools/rt_ci.py and by `rt ci` as it is, and write the new sums into KNOWN, or drop what saves nothing.
        """
        text = rt_ci.path().read_text()
        if "\nclass Kept:" not in text:
            self.skipTest("needs a kit that keeps what it proves")
        self.assertEqual(
            rt_ci.changed(text), [], f"the kit has changed; now the sums are {rt_ci.sums(text)}"
        )

    def test_other_kit(self):
        """With another kit nothing is replaced, and it says so."""
        self.assertEqual(rt_ci.changed("def in_lanes(tasks):\n    return {}\n"), [*rt_ci.KNOWN])

    def test_kept_first(self):
        """What an earlier run proved is taken before the rest is planned; what stands on a changed crate isn't, nor are tests that don't exist."""
        calls, plans = [], []
        crates = [
            types.SimpleNamespace(name=it, has_tests=lambda it=it: it in "bc") for it in "abcd"
        ]
        places = {"proof-a", "proof-b", "tests-b", "proof-d"}

        class Kept:
            def __init__(self, crates, anew=False):
                self.at, self.anew = "kept", anew

            def key(self, crate):
                return crate.name

            def place(self, crate, tests, key):
                return (
                    "/" if f"{'tests' if tests else 'proof'}-{key}" in places else "/no such folder"
                )

        def in_lanes(tasks):
            plans.append({key: waits for key, (waits, *_) in tasks.items()})
            given = {}
            for key, (*_, call) in tasks.items():
                given[key] = call(given, 4)
            return given

        def task(*key, waits=()):
            def call(given, jobs):
                calls.append((*key, jobs, *(given[it] for it in waits)))
                return key

            return key, ([*waits], 1, 1, call)

        rt = types.SimpleNamespace(Kept=Kept, in_lanes=in_lanes)
        rt_ci.kept_first(rt)
        below = {
            "a": [],
            "b": [("a", "proof")],
            "c": [("b", "proof")],
            "d": [("b", "proof"), ("c", "proof")],
        }
        tasks = dict(
            task(name, kind, waits=waits)
            for name, waits in below.items()
            for kind in ("proof", "tests")
        )
        tasks |= [task("a", "edits", 0, waits=[("a", "proof"), ("a", "tests")])]
        for anew in (False, True):
            calls.clear()
            rt.Kept(crates, anew)
            given = rt.in_lanes(tasks)
            self.assertEqual(
                (given.keys(), given["a", "tests"], bool(given["c", "tests"])),
                (tasks.keys(), True, True),
            )
            if not anew:
                taken = [
                    ("a", "proof", 1),
                    ("b", "proof", 1, ("a", "proof")),
                    ("b", "tests", 1, ("a", "proof")),
                ]
                self.assertEqual(calls[:3], taken)
        left = {
            ("c", "proof"): [],
            ("c", "tests"): [],
            ("d", "proof"): [("c", "proof")],
            ("a", "edits", 0): [],
        }
        self.assertEqual(plans[0], left)
        self.assertEqual(
            [*plans[1]], [it for it in tasks if it not in (("a", "tests"), ("d", "tests"))]
        )

    def test_at_once(self):
        """Both compilers begin at the first call, and each answers for itself."""
        began = []
        compile_by = rt_ci.at_once(
            lambda crate, backend, *words: began.append(backend) or backend, ["llvm", "rattle"]
        )
        self.assertEqual(
            [compile_by("age_tool", it, [], "out") for it in ("llvm", "rattle")], ["llvm", "rattle"]
        )
        self.assertEqual(sorted(began), ["llvm", "rattle"])
