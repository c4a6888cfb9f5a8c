"""Which pages the tests read, so that a change of nothing but pages runs these tests alone (.ci/run). A file of tests lists them in READS, as
paths from the top or patterns of such; what it doesn't list, and reads, fails it (tests/counted.py). A doubt means the whole gate.

usage: python3 -m tests.pages sums          prints a checksum of all files but the pages, of the kit and of Python, and one of each page
       python3 -m tests.pages changed SUMS  prints the files of tests that read a page which has changed since the gate passed here, if
                                            nothing else has; the status is 1 if it has, or if it isn't known
       python3 -m tests.pages keep SUMS     notes that the gate passed with these sums, if they are still so
"""
import ast
import fnmatch
import hashlib
import json
import os
import pathlib
import shutil
import subprocess
import sys

TOP = pathlib.Path(__file__).resolve().parent.parent
# How many passes are kept, those of the last ones.
MOST = 20


def is_page(name):
    return name.endswith(".md") or fnmatch.fnmatchcase(name, "docs/*.svg")


def watched():
    """The pages that this process opens from now on."""
    read = set()

    def see(event, words):
        if (
            event == "open"
            and isinstance(words[0], (str, os.PathLike))
            and os.fspath(words[0]).endswith((".md", ".svg"))
        ):
            name = os.path.relpath(os.path.realpath(words[0]), TOP)
            if is_page(name) and not name.startswith(".."):
                read.add(name)

    sys.addaudithook(see)
    return read


def is_listed(page, module):
    return any(fnmatch.fnmatchcase(page, it) for it in getattr(module, "READS", ()))


def listed_in(file):
    """READS of a file of tests, which isn't loaded for that."""
    found = [
        it.value
        for it in ast.parse(file.read_text()).body
        if isinstance(it, ast.Assign) and getattr(it.targets[0], "id", None) == "READS"
    ]
    return ast.literal_eval(found[0]) if found else []


def readers(changed):
    """The files of tests that read one of these pages."""
    files = sorted(TOP.glob("tests/*/test_*.py"))
    return [
        it.stem
        for it in files
        if any(fnmatch.fnmatchcase(page, one) for one in listed_in(it) for page in changed)
    ]


def sum_of(path):
    held = os.readlink(path).encode() if path.is_symlink() else path.read_bytes()
    return hashlib.sha256(repr((path.lstat().st_mode, held)).encode()).hexdigest()


def sums():
    """A checksum of all that isn't a page, and those of the pages."""
    listed = subprocess.run(
        ["git", "ls-files", "-z", "--cached", "--others", "--exclude-standard"],
        cwd=TOP,
        stdout=subprocess.PIPE,
        check=True,
    ).stdout
    names = sorted(
        it
        for it in {os.fsdecode(it) for it in listed.split(b"\0")}
        if it and os.path.lexists(TOP / it)
    )
    kit = subprocess.run(["rt", "version"], capture_output=True, check=True).stdout.decode()
    others = [(it, sum_of(TOP / it)) for it in names if not is_page(it)]
    return {
        "others": hashlib.sha256(
            repr((kit, sys.version, os.uname().release, others)).encode()
        ).hexdigest(),
        "pages": {it: sum_of(TOP / it) for it in names if is_page(it)},
    }


def place():
    """Where passes are kept on this machine: beside what the kit keeps, or nowhere."""
    at = pathlib.Path(os.path.realpath(shutil.which("rt"))).parents[2] / "rattle-kept"
    return at / "passed" if os.access(at, os.W_OK) else None


def changed(told):
    """The files of tests to run; None if all have to."""
    kept = place() / told["others"] if place() else None
    if not kept or not kept.is_file():
        return None
    before, now = json.loads(kept.read_text()), told["pages"]
    pages = [it for it in {**before, **now} if before.get(it) != now.get(it)]
    return readers(pages) if pages else None


def keep(told):
    if place() and told == sums():
        place().mkdir(exist_ok=True)
        new = place() / f"new-{os.getpid()}"
        new.write_text(json.dumps(told["pages"]))
        os.replace(new, place() / told["others"])
        for it in sorted(place().iterdir(), key=lambda it: -it.stat().st_mtime)[MOST:]:
            it.unlink()


def main(what, file=None):
    told = json.loads(pathlib.Path(file).read_text()) if file else sums()
    if what == "sums":
        print(json.dumps(told))
    elif what == "keep":
        keep(told)
    else:
        found = changed(told)
        print(*found or ())
        return found is None
    return 0


if __name__ == "__main__":
    try:
        sys.exit(main(*sys.argv[1:]))
    except (OSError, ValueError, TypeError, KeyError, subprocess.CalledProcessError) as fault:
        sys.exit(f"tests.pages: {fault}")
