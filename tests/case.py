"""What the tests have in common: a folder of their own, runs of the program in it, and checks that are counted one by one."""
import os
import pathlib
import re
import shutil
import subprocess
import tempfile
import threading
import unittest

from tests import built, process

SECONDS = 60
CLAIMED = []
# What is made has the modes that tests compare, whatever the mask of the one who runs them.
os.umask(0o022)


# Root has to ask for what mounts, attaches loop devices, lets a file system abort or changes settings: by this variable.
ASKED = "AGE_TEST_AS_ROOT"


def needs(*tools, root=False):
    """Leaves a test out if one of these programs isn't installed, or if it isn't root that runs it and has asked for it."""
    missing = [it for it in tools if not shutil.which(it)]
    if root and (os.geteuid() or not os.environ.get(ASKED)):
        missing.append(f"root and {ASKED}=1")
    return unittest.skipIf(missing, f"needs {' and '.join(missing)}")


def twice(one, other):
    """What is said of two names of one file, of which the first is the one to be written, if one is."""
    return (
        f"age_tool: same file named twice\nage_tool: {one} and {other} are the same file\n".encode()
    )


# The lines that are advice for people: they may change, and have tests of their own (tests/program/test_advice.py).
ADVICE = re.compile(
    rb"age_tool: (?:.* \(age_tool help \d+\)$|position saved in |resume reads only |no position was saved|- is a file |--max-log does nothing "
    rb"|to save the position elsewhere: |the passphrase in |work factor |OUT was moved: |none of them was given|only one of them )"
)


def without_advice(said):
    """What was said on standard error, and then the advice in it."""
    lines = said.splitlines(keepends=True)
    return b"".join(it for it in lines if not ADVICE.match(it)), b"".join(
        it for it in lines if ADVICE.match(it)
    )


def feed(data, size):
    """A pipe that gives these bytes, at most this many to each read, and the thread that fills it."""
    source, sink = os.pipe2(os.O_DIRECT | os.O_CLOEXEC)

    def fill():
        try:
            for at in range(0, len(data), size):
                os.write(sink, data[at : at + size])
        except BrokenPipeError:
            pass
        os.close(sink)

    thread = threading.Thread(target=fill)
    thread.start()
    return source, thread


def claim(page, phrase):
    """Notes what a page says of the tests of a file: a run of all of them fails if the page doesn't have this phrase (tests/counted.py)."""
    CLAIMED.append((page, phrase))


class Case(unittest.TestCase):
    """A test with a folder, `room`."""

    @property
    def program(self):
        return built.program()

    def setUp(self):
        made = tempfile.TemporaryDirectory(prefix="age-test-")
        self.addCleanup(made.cleanup)
        self.room = pathlib.Path(made.name).resolve()

    def see(self, name, holds, *found):
        """Counts a check, and goes on if it fails."""
        with self.subTest(name):
            self.assertTrue(holds, found)

    def leave_out(self, name, why):
        """Counts a check as left out."""
        with self.subTest(name):
            self.skipTest(why)

    def tool(self, *words, **more):
        """Runs the program. What it says on standard error is `stderr`, and the advice in it `advice`."""
        more = {
            "stdin": subprocess.DEVNULL,
            "stdout": subprocess.PIPE,
            "stderr": subprocess.PIPE,
            "timeout": SECONDS,
        } | more
        ended = process.run([self.program, *words], cwd=self.room, **more)
        if ended.stderr is not None:
            ended.stderr, ended.advice = without_advice(ended.stderr)
        return ended

    def path(self, name):
        return self.room / name

    def read(self, name):
        return self.path(name).read_bytes()

    def write(self, name, held, mode=0o644):
        self.remove(name)
        self.path(name).write_bytes(held)
        self.path(name).chmod(mode)

    def is_there(self, name):
        return os.path.lexists(self.path(name))

    def remove(self, *names):
        for name in names:
            if self.is_there(name):
                self.path(name).unlink()
