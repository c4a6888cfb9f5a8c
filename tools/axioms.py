"""The C functions whose contracts the program and the C library assume, as `rattle check --list-axioms` says which a verdict can rest on. It is
asked once for the same sources on a machine, which takes as long as their two proofs, and kept beside what was made of them.

usage: python3 -m tools.axioms     prints them as JSON, by the crate of the program and that of the library
"""
import collections
import contextlib
import json
import re
import subprocess
import sys
import tempfile

from tools.libraries import Unproved, Workspace, keep, kept, kit, processors, sum_of_sources
from tools.workspace import TOP, answer_help, copy_into, lines, with_used

REACHED = re.compile(r"(?m)^\s*(\w+(?:::\w+)+)\b.*\breached$")


def roots():
    """The program and the static library."""
    return [
        name
        for name, line in lines().items()
        if " staticlib" in line.partition(":")[0]
        or (TOP / "crates" / name / "src" / "main.rt").is_file()
    ]


def asked(crate, room):
    """Asks the checker, over the libraries that the crate uses: what it says."""
    *below, _ = with_used(crate)
    workspace = Workspace(room, below)
    collections.deque(workspace.prove(), maxlen=0)
    copy_into(workspace.top, [*below, crate])
    words = [
        kit() / "bin" / "rattle",
        "check",
        *workspace.words(crate, processors()),
        "--list-axioms",
    ]
    how = {
        "stdin": subprocess.DEVNULL,
        "stdout": subprocess.PIPE,
        "stderr": subprocess.STDOUT,
        "text": True,
        "errors": "replace",
    }
    run = subprocess.run(words, cwd=workspace.top / "crates" / crate, **how)
    if run.returncode:
        raise Unproved(f"{run.stdout}{crate} isn't proved\n")
    return run.stdout


def functions_of(crate):
    """The functions that a crate assumes."""
    name = f"{crate}-{sum_of_sources(crate)}"
    for found in kept("axioms", name):
        with contextlib.suppress(OSError):
            return json.loads(found.read_text())
    with tempfile.TemporaryDirectory(prefix="age-axioms-") as room:
        functions = sorted({*REACHED.findall(asked(crate, room))})
    keep("axioms", name, lambda to: to.write_text(json.dumps(functions)))
    return functions


def main():
    answer_help(__doc__)
    try:
        print(json.dumps({it: functions_of(it) for it in roots()}, indent=1))
    except Unproved as fault:
        sys.exit(str(fault))


if __name__ == "__main__":
    main()
