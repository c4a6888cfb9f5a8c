"""Plants faults in a copy of the repository, at least one for each part of checks/documents, checks/trusted, checks/noted and checks/unused, and looks
whether that check names each of them. None of it needs the program."""
import os
import shutil
import sys
import tempfile
import pathlib
import unittest

from tests import process
from tools.workspace import TOP

READS = ["*"]
# Of each check: a file, an old text in it and a new one (both are appended to if there is no old one), and what the check has to say.
PLANTED = {
    "documents": (
        (
            "README.md",
            "`age_host_paths` first",
            "`age_nothing` first. [Here](docs/NOTHING.md)",
            "README.md: no docs/NOTHING.md",
        ),
        ("docs/TRUST.md", "`arrayvec`,", "", "docs/TRUST.md: arrayvec isn't among what is trusted"),
        (
            "README.md",
            "| encrypt 512 MiB | 1.05",
            "| encrypt 512 MiB | 0.45",
            "README.md: not what bench/speed-svg writes",
        ),
        ("HANDLES", "none", "Net", "HANDLES: something is allowed"),
        ("CONTRIBUTING.md", None, "\n`tests/nothing`\n", "CONTRIBUTING.md: no tests/nothing"),
        (
            "docs/DEFINITIONS.md",
            "`Payload.nonce_bytes`",
            "`Payload.nothing`",
            "docs/DEFINITIONS.md: no definition Payload.nothing",
        ),
        (
            "docs/PROVED.md",
            "| HMAC is RFC 2104's |",
            "| HMAC is RFC 2014's |",
            "docs/PROVED.md, docs/age_tool-faults.7",
        ),
        (
            "docs/PROVED.md",
            "`chunks_are_one`",
            "`chunks_are_none`",
            "docs/PROVED.md: no chunks_are_none",
        ),
        (
            "docs/LIBRARY.md",
            "```rust\n",
            "```rust\nlet nothing = 1;\n",
            "docs/LIBRARY.md: not in the examples: let nothing = 1;",
        ),
        (
            "docs/TOUR.md",
            "age_stream/src/opener.rt",
            "age_stream/src/closer.rt",
            "docs/TOUR.md: no file age_stream/src/closer.rt",
        ),
        (
            "docs/FAULTS.md",
            "| 17 | ChunkDamaged",
            "| 17 | ChunkHarmed",
            "docs/FAULTS.md: other faults",
        ),
        (
            "docs/FAULTS.md",
            None,
            "",
            "crates/age_cli_hints/src/faults.rt: stale; run checks/documents --write",
        ),
        (
            "docs/format-tests.tsv",
            None,
            "Heads\t1\tno_function\tno-such-edit\ttest_nothing\n",
            "docs/format-tests.tsv: no edit no-such-edit",
        ),
        ("docs/format-tests.tsv", None, "", "docs/format-tests.tsv: no test test_nothing"),
        ("docs/format-tests.tsv", None, "", "docs/format-tests.tsv: no function no_function"),
        ("docs/format-tests.tsv", None, "", "docs/FORMAT.md: no section Heads"),
        ("docs/crates.svg", ">age_kdf<", ">age_kdm<", "docs/crates.svg: age_kdm is no crate"),
        (
            "docs/cut.svg",
            ">in the nonce<",
            ">in the pinch<",
            "docs/cut.svg doesn't say: in the nonce",
        ),
        ("bindings/c/names.c", '"Trailing"', '"Appended"', "bindings/c/names.c: no 21 Trailing"),
        (
            "crates/age_cli_hints/src/sentences.rt",
            "17 =>",
            "18 =>",
            "docs/FAULTS.md: row 18 hasn't the hint of the code",
        ),
        (
            "crates/age_kdf/edits/all.edit",
            "old: ",
            "old: nothing of ",
            "an old text isn't in its file exactly once",
        ),
        (
            "checks/promises",
            "age_kdf lib::hmac |",
            "age_kdf lib::hmac3 |",
            "checks/promises: HMAC is RFC 2104's: no age_kdf lib::hmac3",
        ),
        ("checks/promises", "age_kdf/pads-swapped", "age_kdf/pads-kept", "no age_kdf/pads-kept"),
        (
            "tests/format/test_resume.py",
            "def test_resumed",
            "def test_resumes",
            "a resumption goes on only with its file and text: no test test_resume.test_resumed",
        ),
        (
            "tests/program/transcripts/drill.run",
            "case deliveries_in_the_clear",
            "case deliveries_not_sealed",
            "for all deliveries and restarts: no test test_transcripts.test_drill_deliveries_in_the_clear",
        ),
        (
            "crates/age_scrypt/edits/all.edit",
            "core uncounted-step",
            "edit uncounted-step",
            "age_scrypt/uncounted-step is listed, and not of the core",
        ),
        (
            "checks/promises",
            " romix-without-look-ups",
            "",
            "age_scrypt/romix-without-look-ups is of the core, and not listed",
        ),
    ),
    "trusted": (
        (
            "crates/age_kdf/specs/Derivation.antt",
            None,
            "\nabbrev pub idle : ℕ → ℕ\nidle n = n\n",
            "age_kdf/specs/Derivation: idle is reached by no public contract",
        ),
        (
            "crates/age_host_model/specs/Output.antt",
            "-- (in any order: no call gives a lock back)\n",
            "",
            "no comment says why the order doesn't matter",
        ),
    ),
    "noted": (
        (
            "crates/age_host/src/files.rt",
            None,
            "\nfn spoil() {\n    let _ = std::fs::remove_file(rt, name);\n}\n",
            "age_host/src/files.rt: fs::remove_file: it may not change files",
        ),
        (
            "crates/age_host_syscalls/src/sync_support.rt",
            "sync_whole",
            "sync_all_of_it",
            "checks/noted: age_host_syscalls/src/sync_support.rt doesn't call sync_whole",
        ),
        (
            "checks/noted",
            '"TryLockError"',
            '"TryLockError", "Gone"',
            "checks/noted: nothing imports Gone of files",
        ),
        ("checks/noted", '"faults"', '"flaws"', "checks/noted: nothing matches"),
    ),
    "unused": (
        (
            "crates/age_kdf/specs/Derivation.antt",
            None,
            "",
            "age_kdf/specs/Derivation.antt: nothing uses idle",
        ),
        (
            "crates/age_file_input/proofs/ReadLemmas.antt",
            None,
            "\nagain : (was : Supply) → Consumes was was []\nagain was = Consumes-nil was\n",
            "age_file_input/proofs/ReadLemmas.antt: again is Consumes-nil of age_io/proofs/SupplyLemmas.antt",
        ),
        ("crates.txt", "age_kdf: sha2", "age_kdf: sha2 hex", "crates.txt: age_kdf doesn't use hex"),
    ),
}


class PlantedTest(unittest.TestCase):
    @classmethod
    def setUpClass(cls):
        made = tempfile.TemporaryDirectory(prefix="age-planted-")
        cls.addClassCleanup(made.cleanup)
        cls.copy = pathlib.Path(made.name) / "copy"
        shutil.copytree(
            TOP,
            cls.copy,
            ignore=shutil.ignore_patterns("out", ".git", "__pycache__", "target"),
            symlinks=True,
        )
        for file, old, new, _ in (it for planted in PLANTED.values() for it in planted):
            path = cls.copy / file
            text = path.read_text() if path.exists() else ""
            assert old is None or old in text, f"{file}: no {old}"
            path.write_text(text + new if old is None else text.replace(old, new, 1))

    def test_each_is_named(self):
        for check, planted in PLANTED.items():
            env = {**os.environ, "PYTHONDONTWRITEBYTECODE": "1"}
            run = process.run(
                [sys.executable, f"checks/{check}"],
                cwd=self.copy,
                capture_output=True,
                text=True,
                env=env,
            )
            with self.subTest(check):
                self.assertEqual(run.returncode, 1, run.stderr)
            for file, _, new, said in planted:
                with self.subTest(said, check=check):
                    self.assertIn(said, run.stdout)

    def test_all_checks_run(self):
        """The gate runs each script of checks/ but those that take long, which a release runs."""
        gate = (TOP / ".ci" / "run").read_text() + (TOP / "check").read_text()
        for path in (it for it in (TOP / "checks").iterdir() if os.access(it, os.X_OK)):
            with self.subTest(path.name):
                self.assertTrue(
                    path.name in ("coverage", "kit", "mutants") or f"checks/{path.name}" in gate
                )
        for it in ("AGE_TEST_AS_ROOT=1", "AGE_TEST_ALL=1"):
            self.assertIn(it, gate)
