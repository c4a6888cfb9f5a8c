"""What the tests of the program agefile have in common: a release of it, with the program that is tested, and runs at a terminal."""
import fcntl
import os
import pathlib
import re
import select
import shutil
import subprocess
import tempfile
import termios
import time

from tests import built, process
from tests.bindings import PYTHON
from tests.case import SECONDS, Case

MODULE = PYTHON / "agefile"


# age_tool with a small work factor, which agefile never gives: as age's own tests have one.
LIGHTER = """#!/bin/sh
here=${0%/*}
[ "$1" != encrypt ] || { shift; exec "$here/proved" encrypt --log 2 "$@"; }
exec "$here/proved" "$@"
"""


def release(folder, is_lighter=False):
    """A release in a folder: bin and share, as an archive has them. The path of its agefile."""
    top = pathlib.Path(folder)
    (top / "bin").mkdir(parents=True)
    module = top / "share" / "age_tool" / "agefile"
    shutil.copytree(MODULE, module, ignore=shutil.ignore_patterns("__pycache__", "age_tool"))
    shutil.copy(built.program(), top / "bin" / ("proved" if is_lighter else "age_tool"))
    if is_lighter:
        (top / "bin" / "age_tool").write_text(LIGHTER)
    for it in (top / "bin").iterdir():
        it.chmod(0o755)
    runs = module / "program" / "run_age_tool.py"
    runs.write_text(runs.read_text().replace("(not a release)", "(of 0123456789)"))
    (module / "program" / "__main__.py").chmod(0o755)
    (module / "program" / "age_tool").symlink_to("../../../../bin/age_tool")
    (top / "bin" / "agefile").symlink_to("../share/age_tool/agefile/program/__main__.py")
    return top / "bin" / "agefile"


class Ended:
    """How a run at a terminal ended: its status, what it wrote to its streams, and what its terminal showed."""

    def __init__(self, run, out, error, shown):
        self.returncode, self.stdout, self.stderr, self.shown = run.returncode, out, error, shown


def at_terminal(words, answers, **more):
    """Runs a program that has a terminal, which isn't its standard streams. Each question, which ends with a colon, gets the next answer, an
    end of input after the last."""
    main, terminal = os.openpty()
    answers, shown, asked = [*answers], b"", b""
    with tempfile.TemporaryFile() as out, tempfile.TemporaryFile() as error:
        more = {"stdin": subprocess.DEVNULL, "stdout": out, "stderr": error} | more
        run = process.Popen(
            words,
            start_new_session=True,
            preexec_fn=lambda: fcntl.ioctl(terminal, termios.TIOCSCTTY, 0),
            pass_fds=[terminal],
            **more,
        )
        os.close(terminal)
        until = time.monotonic() + SECONDS
        while (
            run.poll() is None or select.select([main], [], [], 0)[0]
        ) and time.monotonic() < until:
            if not select.select([main], [], [], 0.05)[0]:
                continue
            try:
                piece = os.read(main, 4096)
            except OSError:
                break
            shown, asked = shown + piece, asked + piece
            if asked.rstrip().endswith(b":"):
                asked = b""
                os.write(main, answers.pop(0) if answers else b"\4")
        if run.poll() is None and time.monotonic() > until:
            run.kill()
        run.wait(SECONDS)
        os.close(main)
        for it in (out, error):
            it.seek(0)
        return Ended(run, out.read(), error.read(), shown)


class AgefileCase(Case):
    """A folder with a passphrase `pass`, a text `plain`, and its age file `age`."""

    is_lighter = False

    @classmethod
    def setUpClass(cls):
        made = tempfile.TemporaryDirectory(prefix="age-test-")
        cls.addClassCleanup(made.cleanup)
        os.chmod(made.name, 0o755)
        cls.agefile = release(f"{made.name}/release", cls.is_lighter)
        # (a recorded run writes no cache)
        cls.env = {
            **os.environ,
            "PYTHONDONTWRITEBYTECODE": "1",
            "AGEFILE_LIBRARY": str(built.library() / "libagefile.so"),
        }

    def setUp(self):
        super().setUp()
        self.write("pass", b"correct horse\n")
        self.plain = os.urandom(200_000)
        self.write("plain", self.plain)
        self.tool(*"encrypt --pass pass --log 4 plain age".split(), check=True)
        self.age = self.read("age")

    def run_agefile(self, *words, **more):
        """Runs agefile."""
        more = {
            "stdin": subprocess.DEVNULL,
            "capture_output": True,
            "timeout": SECONDS,
            "env": self.env,
        } | more
        if "input" in more:
            del more["stdin"]
        return process.run([self.agefile, *words], cwd=self.room, **more)

    def at_terminal(self, *words, answers=(), **more):
        return at_terminal(
            [self.agefile, *words], answers, cwd=self.room, **{"env": self.env} | more
        )

    def ends(self, name, run, status, said=b"", out=b""):
        """Counts whether a run ended like this; `said` is a text, or a form of it."""
        fits = said == run.stderr if isinstance(said, bytes) else said.fullmatch(run.stderr)
        self.see(
            name,
            (run.returncode, run.stdout) == (status, out) and fits,
            run.returncode,
            run.stderr,
            (run.stdout or b"")[-200:],
        )


def form(text):
    """A form of what is said."""
    return re.compile(text.encode(), re.DOTALL)
