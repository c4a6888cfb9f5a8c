"""The program, its object and the C library that are tested. No test builds them: what isn't built, or is older than its sources, is left out with
the command to run."""
import functools
import os
import pathlib
import shlex
import shutil
import tempfile
import unittest

from tools import libraries
from tools.workspace import CRATES, LIBRARY, PROGRAM, TOP, with_used


# In the place of what builds: the program and the library that were built.
STUBS = {
    "bindings/build": f"""#!/bin/sh
mkdir -p bindings/out && cp {shlex.quote(str(LIBRARY))}/libage* bindings/out && cp include/agefile.h bindings/go
cp {shlex.quote(str(LIBRARY))}/libagefile.a bindings/go/libagefile_amd64.a
""",
    "release/static": f"""#!/bin/sh
for it in "$1" "$2" "$2.o"; do cp {shlex.quote(str(PROGRAM))} "$it"; done
""",
}


def copy_to_pack(to):
    """Makes a copy of this checkout that packs what was built, and builds nothing."""
    library()
    program()
    shutil.copytree(
        TOP,
        to,
        ignore=shutil.ignore_patterns(
            "out", ".git", "target", "__pycache__", "libagefile_*.a", "tests", "edits"
        ),
    )
    for name, script in STUBS.items():
        (to / name).write_text(script)


def see_fresh(made, command, crate, *more):
    """Leaves tests out if a file isn't there, or a source of what it is made of has changed since, by the time that nothing sets back."""
    kit = shutil.which("rt")
    sources = [
        *more,
        TOP / "crates.txt",
        TOP / "HANDLES",
        *([os.path.realpath(kit)] if kit else []),
    ]
    sources += [
        it
        for name in with_used(crate)
        for part in ("src", "specs", "proofs")
        for it in (CRATES / name / part).rglob("*")
    ]
    if not made.exists() or max(os.stat(it).st_ctime for it in sources) > made.stat().st_mtime:
        raise unittest.SkipTest(
            f"run {command}: {made.relative_to(TOP)} isn't there, or is older than its sources"
        )


def cache(name):
    """A folder for what a compiler keeps: beside the library, or among temporary files if that is another user's."""
    return (
        LIBRARY / name
        if os.access(LIBRARY, os.W_OK)
        else pathlib.Path(tempfile.gettempdir(), f"age-{name}-{os.getuid()}")
    )


@functools.cache
def program():
    """The program, unless it isn't built; AGE_TOOL names another."""
    if "AGE_TOOL" not in os.environ:
        see_fresh(PROGRAM, "./build", "age_tool")
    return PROGRAM


@functools.cache
def library():
    """The folder of the C library, unless it isn't built; AGE_C_DIR names another."""
    if "AGE_C_DIR" not in os.environ:
        parts = [it for at in (TOP / "bindings" / "c", TOP / "include") for it in at.glob("*.[ch]")]
        see_fresh(
            LIBRARY / "libagefile.so", "bindings/build", "age_c", TOP / "bindings" / "build", *parts
        )
    return LIBRARY


@functools.cache
def proved_object():
    """The object of the program, as a run left it that proved the same sources; AGE_OBJECT names another."""
    made = os.environ.get("AGE_OBJECT") or libraries.Made("age_tool").found()
    if not made:
        raise unittest.SkipTest(
            "run python3 -m tools.libraries age_tool: no run left the object of these sources"
        )
    return pathlib.Path(made)
