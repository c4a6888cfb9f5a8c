"""Threads with age files of their own: nothing that changes is shared by two objects. Python runs tests/python/threads.py, for some seconds, in
each Python from 3.9 on that this machine has (pyenv's, Debian's, this one), side by side. Go's threads are in bindings/go/writer_test.go,
which test_go runs under the race detector; C's are here, under the thread sanitizer."""
import ast
import os
import pathlib
import re
import subprocess
import sys

from tests import bindings, process
from tests.bindings import PYTHON
from tests.case import Case, needs
from tools.workspace import LIBRARY, TOP

SECONDS = 8


def pythons():
    """The interpreters, by their versions: each minor version once."""
    found = {}
    for it in [
        sys.executable,
        "/usr/bin/python3",
        *sorted(pathlib.Path.home().glob(".pyenv/versions/3.*/bin/python3")),
    ]:
        run = process.run(
            [it, "-c", "import sys, ctypes; print(sys.version_info[:2])"],
            capture_output=True,
            text=True,
        )
        if run.returncode == 0 and ast.literal_eval(run.stdout) >= (3, 9):
            found.setdefault(ast.literal_eval(run.stdout), it)
    return found


def shared_in(tree):
    """What a module or a class of it holds that changes, and globals that functions assign to."""
    makers = {
        "list",
        "dict",
        "set",
        "bytearray",
        "deque",
        "defaultdict",
        "Lock",
        "RLock",
        "local",
        "BytesIO",
    }
    for body in (tree.body, *(it.body for it in ast.walk(tree) if isinstance(it, ast.ClassDef))):
        for it in body:
            value, target = getattr(it, "value", None), ast.unparse(
                getattr(it, "target", None) or getattr(it, "targets", [it])[0]
            )
            made = (
                isinstance(value, ast.Call) and ast.unparse(value.func).rpartition(".")[2] in makers
            )
            empty = isinstance(value, ast.Dict) and not value.keys
            if (made or empty or isinstance(value, (ast.List, ast.Set))) and target not in (
                "_fields_",
                "__all__",
            ):
                yield target
    for it in ast.walk(tree):
        yield from it.names if isinstance(it, ast.Global) else ()
        yield from (
            ast.unparse(word)
            for word in getattr(it, "decorator_list", ())
            if "cache" in ast.unparse(word)
        )


class ThreadsOfTheirOwnTest(Case):
    def test_python(self):
        bindings.module()
        env = {**os.environ, "PYTHONDONTWRITEBYTECODE": "1"}
        runs = {}
        for version, it in pythons().items():
            words = [
                it,
                TOP / "tests" / "python" / "threads.py",
                PYTHON,
                LIBRARY / "libagefile.so",
                str(SECONDS),
            ]
            runs[version] = process.Popen(
                words, env=env, stdout=subprocess.PIPE, stderr=subprocess.STDOUT, text=True
            )
        for (major, minor), run in runs.items():
            said, _ = run.communicate(timeout=600)
            count = re.search(r"^(\d+) calls, 0 wrong\n\Z", said, re.M)
            self.see(
                f"threads of Python {major}.{minor}",
                run.returncode == 0 and count and int(count[1]) > 100,
                said[-2000:],
            )

    def test_nothing_is_shared(self):
        """No module and no class of agefile holds something that changes."""
        for file in sorted((PYTHON / "agefile").glob("*.py")):
            found = {*shared_in(ast.parse(file.read_text()))}
            self.see(f"what {file.name} shares", found == set(), found)

    @needs("cc")
    def test_c(self):
        made, words = self.path("threads"), [
            "-std=c11",
            "-g",
            "-O1",
            f"-I{TOP / 'include'}",
            "-pthread",
        ]
        source = [TOP / "bindings" / "c" / "tests" / "threads.c", LIBRARY / "libagefile.a"]
        if (
            process.run(
                ["cc", *words, "-fsanitize=thread", "-o", made, *source], capture_output=True
            ).returncode
            != 0
        ):
            self.skipTest("needs the sanitizers")
        # (a kernel may draw addresses that it can't do with, and a container may refuse to let it draw none)
        runs = [
            process.run(it, capture_output=True, text=True)
            for it in ([made], ["setarch", "-R", made])
        ]
        runs = [
            it
            for it in runs
            if it.returncode == 0 or "WARNING: ThreadSanitizer" in it.stderr or it.stdout
        ]
        if not runs:
            self.skipTest("needs the sanitizers")
        self.see(
            "threads in C",
            all(it.returncode == 0 for it in runs),
            [(it.stdout, it.stderr[-3000:]) for it in runs],
        )
