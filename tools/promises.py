"""What checks/promises says: its rows, the tests that they name, and the edits of the core."""
import collections
import re

from tools.workspace import CRATES, TOP

PAGE = TOP / "checks" / "promises"
# A promise, its crate, module and function, its clause, definition and edit, the test that shows it, and the heading above it.
Promise = collections.namedtuple(
    "Promise", "promise crate module name clause definition edit test subject"
)


def rows():
    return [it for it in PAGE.read_text().splitlines() if it and not it.startswith("# ")]


def promises():
    subject = ""
    for row in rows():
        subject = row[3:] if row.startswith("## ") else subject
        if " | " not in row:
            continue
        promise, function, *rest = row.split(" | ")
        crate, _, path = function.partition(" ")
        module, _, name = path.rpartition("::")
        yield Promise(promise, crate, module, name, *rest, subject)


def core():
    """The edits of the core that are listed, by their crates and names."""
    listed = (it.removeprefix("core ").split(": ") for it in rows() if it.startswith("core "))
    return {(crate, name) for crate, names in listed for name in names.split()}


def tests_of_crates():
    """The test functions of the crates, which `rt ci` runs, as CRATE.FUNCTION."""
    files = (
        (it.relative_to(CRATES).parts[0], it.read_text())
        for it in sorted(CRATES.glob("*/src/**/*.rt"))
    )
    return {
        f"{crate}.{name}"
        for crate, text in files
        for name in re.findall(r"#\[test\]\s*fn (\w+)", text)
    }


def tests_of_files():
    """The tests in tests/ whose names stand in their file, as FILE.FUNCTION, and the cases of the transcripts by the names of their tests."""
    for path in sorted(TOP.glob("tests/*/test_*.py")):
        yield from (
            f"{path.stem}.{name}" for name in re.findall(r"(?m)^ *def (test_\w+)", path.read_text())
        )
    for path in sorted(TOP.glob("tests/program/transcripts/*.run")):
        yield from (
            f"test_transcripts.test_{path.stem}_{name}"
            for name in re.findall(r"(?m)^case (\w+)$", path.read_text())
        )
