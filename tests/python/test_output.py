"""Tries how the Python module writes a file that gets its name once it is whole: locks, a name that is taken meanwhile, and what is left of runs
that are stopped, on a file system that has files without a name, and on one that hasn't."""
import contextlib
import errno
import fcntl
import io
import os
import signal
import stat
import subprocess
import sys
import time
import types
import unittest.mock

from tests import process
from tests.bindings import KEY, PYTHON, BindingsCase, agefile, plain_of, raised, setUpModule

LENGTH = 300_000
SALVAGE = ["salvage", "--pass", "pw"]
# A run that writes a piece, makes the file `begun`, and waits for the file `on`.
HELD = """
import os, time, agefile._salvage as salvage
put = salvage.put
def held(*words):
    put(*words)
    open("begun", "w").close()
    while not os.path.exists("on"):
        time.sleep(0.02)
salvage.put = held
"""
# A file system that has no files without a name.
NAMED = """
import errno, os
really = os.open
def named(path, how, *words, **more):
    if how & os.O_TMPFILE == os.O_TMPFILE:
        raise OSError(errno.EOPNOTSUPP, os.strerror(errno.EOPNOTSUPP), path)
    return really(path, how, *words, **more)
os.open = named
"""
RUNS = "import runpy\nrunpy.run_module('agefile', run_name='__main__')\n"


class OutputTest(BindingsCase):
    def setUp(self):
        super().setUp()
        self.text = plain_of(LENGTH)
        self.data = self.sealed(self.text)
        self.write("in.age", self.data)
        self.env = {**os.environ, "PYTHONPATH": str(PYTHON), "PYTHONDONTWRITEBYTECODE": "1"}

    def begin(self, *words):
        """Begins a run, whose standard input is a pipe."""
        run = process.Popen(
            words,
            cwd=self.room,
            env=self.env,
            stdin=subprocess.PIPE,
            stdout=subprocess.PIPE,
            stderr=subprocess.PIPE,
        )
        self.addCleanup(lambda: [it.close() for it in (run.stdin, run.stdout, run.stderr)])
        self.addCleanup(run.wait)
        self.addCleanup(run.kill)
        return run

    def wait_until(self, what):
        limit = time.monotonic() + 30
        while not what() and time.monotonic() < limit:
            time.sleep(0.01)
        self.assertTrue(what())

    def command(self, *words, program=RUNS, **more):
        return process.run(
            [sys.executable, "-c", program, *words],
            cwd=self.room,
            env=self.env,
            capture_output=True,
            **more,
        )

    def names(self):
        return sorted(it.name for it in self.room.iterdir())

    def test_locks_that_fail(self):
        """A file system without locks lets a run write; one whose locks fail doesn't, and the file keeps what it held."""
        for error, is_taken in (
            (errno.ENOLCK, True),
            (errno.ENOSYS, True),
            (errno.EOPNOTSUPP, True),
            (errno.EINVAL, True),
            (errno.EIO, False),
            (errno.EINTR, False),
        ):
            self.write("held", b"held")
            with self.subTest(errno.errorcode[error]), unittest.mock.patch(
                "fcntl.flock", side_effect=OSError(error, "no lock")
            ):
                if is_taken:
                    agefile._output.opened_alone(self.path("held"), False).close()
                else:
                    with self.assertRaises(OSError) as fault:
                        agefile._output.opened_alone(self.path("held"), False)
                    self.assertEqual(fault.exception.errno, error)
                self.assertEqual(self.read("held"), b"" if is_taken else b"held")

    def test_other_file_systems(self):
        """Files without links, as FAT has them; locks of what is open for writing alone, as NFS has; one owner of all files, as both have."""
        lock, path = fcntl.flock, str(self.path("out"))

        def refused(*words, **more):
            raise PermissionError(errno.EPERM, os.strerror(errno.EPERM))

        def of_nfs(file, how):
            if (
                how & fcntl.LOCK_EX
                and fcntl.fcntl(file, fcntl.F_GETFL) & os.O_ACCMODE == os.O_RDONLY
            ):
                raise OSError(errno.EBADF, os.strerror(errno.EBADF))
            return lock(file, how)

        def put(is_new):
            with agefile._output.replacing(path, is_new) as file:
                file.write(b"text")

        for what, changes in (
            ("no links", {"os.link": refused}),
            ("locks of NFS", {"fcntl.flock": of_nfs}),
            (
                "one owner",
                {"os.geteuid": lambda owner=os.geteuid(): owner + 1, "os.fchmod": refused},
            ),
        ):
            self.remove("out")
            with contextlib.ExitStack() as patched:
                for name, call in {
                    **changes,
                    "agefile._output._without_name": lambda folder: None,
                }.items():
                    patched.enter_context(unittest.mock.patch(name, call))
                put(True)
                self.see(
                    f"{what}: a new file",
                    self.read("out") == b"text" and not self.is_there("out.agefile-part"),
                    self.names(),
                )
                self.path("out").chmod(0o600)
                self.see(
                    f"{what}: a name that is taken",
                    raised(FileExistsError, put, True) and self.read("out") == b"text",
                )
                self.write("out", b"as it was", 0o600)
                put(False)
                self.see(
                    f"{what}: a file that is replaced",
                    self.read("out") == b"text" and not self.is_there("out.agefile-part"),
                    self.names(),
                )

    def test_one_file(self):
        """Disks are one if their numbers are, whatever their names; terminals aren't compared."""

        def of(kind, inode=1, number=1):
            return types.SimpleNamespace(
                st_mode=kind | 0o600, st_dev=7, st_ino=inode, st_rdev=number
            )

        for kind, same, links, numbers in (
            (stat.S_IFREG, True, False, True),
            (stat.S_IFIFO, True, False, True),
            (stat.S_IFCHR, False, False, False),
            (stat.S_IFSOCK, False, False, False),
            (stat.S_IFBLK, True, True, False),
        ):
            found = [
                agefile._output.is_one(of(kind), it)
                for it in (of(kind), of(kind, 2), of(kind, number=2))
            ]
            self.see(f"files of kind {kind:o}", found == [same, links, numbers], found)

    def test_replaced_meanwhile(self):
        """Who held the lock may have put another file in the place of the one that was opened."""
        self.write("out", b"text")
        self.write("other", b"other")
        file = os.open(self.path("out"), os.O_WRONLY)
        self.path("other").rename(self.path("out"))
        self.see(
            "a file that was replaced",
            raised(OSError, agefile._output.lock, file, self.path("out")),
        )
        self.remove("out")
        self.see(
            "a file that was removed", raised(OSError, agefile._output.lock, file, self.path("out"))
        )
        os.close(file)

    def test_salvage_mode(self):
        self.write("out", b"as it was, and longer")
        path, keys = self.path("out"), {"file_key": KEY}
        small = self.sealed(b"text")
        self.see(
            "a name that is taken",
            raised(FileExistsError, agefile.salvage, io.BytesIO(small), path, mode="xb", **keys),
        )
        self.see(
            "another mode",
            raised(ValueError, agefile.salvage, io.BytesIO(small), path, mode="w", **keys),
        )
        self.see("what is there stays", self.read("out") == b"as it was, and longer")
        self.see(
            "without a mode",
            agefile.salvage(io.BytesIO(small), path, **keys).is_whole
            and self.read("out") == b"text",
        )
        self.remove("out")
        self.see(
            "a new name",
            agefile.salvage(io.BytesIO(small), path, mode="xb", **keys).is_whole
            and self.read("out") == b"text",
        )

    def held(self, program, *more):
        """A run that has begun to write."""
        self.remove("begun", "on")
        run = self.begin(
            sys.executable, "-c", program + HELD + RUNS, *SALVAGE, *more, "in.age", "out"
        )
        self.wait_until(lambda: self.is_there("begun") or run.poll() is not None)
        return run

    def test_taken_by_another(self):
        """A run whose OUT is made by another program meanwhile."""
        for program in ("", NAMED):
            self.remove("out")
            run = self.held(program)
            before = self.names()
            self.write("out", b"another")
            self.write("on", b"")
            _, said = run.communicate()
            self.see(
                "a name that is taken",
                (run.returncode, said)
                == (1, b"agefile: 27 Write\nagefile: out exists; --overwrite replaces it\n"),
                run.returncode,
                said,
            )
            same = self.read("out") == b"another" and {*self.names()} == {*before, "on", "out"} - {
                "out.agefile-part"
            }
            self.see("what is left", same, self.names())

    def test_private(self):
        """What is to replace a file that others may not read is as private while it is written."""
        self.write("out", b"as it was", 0o600)
        run = self.held(NAMED, "--overwrite")
        modes = [stat.S_IMODE(it.stat().st_mode) for it in self.room.glob("out*")]
        self.write("on", b"")
        _, said = run.communicate()
        self.see("while it is written", modes == [0o600, 0o600], *map(oct, modes))
        self.see(
            "once it is",
            run.returncode == 0
            and self.read("out") == self.text
            and stat.S_IMODE(self.path("out").stat().st_mode) == 0o600,
            said,
        )

    def stopped(self, program, how):
        """Stops a run in the middle. Standard error of it."""
        run = self.held(program, *(["--overwrite"] if self.is_there("out") else []))
        run.send_signal(how)
        _, said = run.communicate()
        self.remove("begun")
        return said

    def has_nameless(self):
        try:
            os.close(os.open(self.room, os.O_WRONLY | os.O_TMPFILE))
            return True
        except OSError:
            return False

    def test_stopped_runs(self):
        """A run that is stopped leaves OUT, and no file; or, where each file has a name, and it is killed, one, which the next run takes."""
        for was_there in (False, True):
            self.remove("out")
            if was_there:
                self.write("out", b"as it was", 0o640)
            for what, program, left in (
                ("without a name", "", []),
                ("with a name", NAMED, ["out.agefile-part"]),
            ):
                if not program and not self.has_nameless():
                    self.leave_out(
                        f"a file {what}", "needs a file system with files without a name"
                    )
                    continue
                before = self.names()
                for how in (signal.SIGKILL, signal.SIGTERM, signal.SIGKILL):
                    said = self.stopped(program, how)
                    self.see(
                        f"{what}: what a run leaves that {how.name} ended",
                        self.names() == sorted([*before, *(left if how == signal.SIGKILL else [])]),
                        self.names(),
                        said,
                    )
                    self.see(f"{what}: OUT", not was_there or self.read("out") == b"as it was")
                words = [*SALVAGE, *(["--overwrite"] if was_there else []), "in.age", "out"]
                run = self.command(*words, program=program + RUNS)
                mode = stat.S_IMODE(self.path("out").stat().st_mode)
                self.see(
                    f"{what}: the next run",
                    run.returncode == 0 and self.read("out") == self.text,
                    run.stderr,
                )
                self.see(
                    f"{what}: nothing else is left",
                    self.names() == sorted({*before, "out"}),
                    self.names(),
                )
                self.see(f"{what}: the mode", not was_there or mode == 0o640, mode)
                self.remove("out")
                if was_there:
                    self.write("out", b"as it was", 0o640)

    def test_no_file_of_a_run(self):
        """What stands where a run would leave its file, and is none: links, a FIFO, one that another run writes."""
        words = [*SALVAGE, "in.age", "out"]
        self.write("victim", b"kept")
        part = self.path("out.agefile-part")
        for what, make in (
            ("a link", lambda: part.symlink_to("victim")),
            ("a hard link", lambda: os.link(self.path("victim"), part)),
            ("a FIFO", lambda: os.mkfifo(part)),
        ):
            make()
            run = self.command(*words, program=NAMED + RUNS, timeout=60)
            self.see(
                what,
                run.returncode == 1 and b"Traceback" not in run.stderr and not self.is_there("out"),
                run.stderr,
            )
            self.see(f"{what} stays", os.path.lexists(part) and self.read("victim") == b"kept")
            part.unlink()
        self.write("out.agefile-part", b"another run's")
        with open(part, "rb") as file:
            agefile._output.lock(file.fileno(), part)
            run = self.command(*words, program=NAMED + RUNS)
            self.see(
                "one that another run writes",
                run.returncode == 1 and run.stderr.endswith(b"another program holds its lock\n"),
                run.stderr,
            )
            self.see(
                "it stays",
                self.read("out.agefile-part") == b"another run's" and not self.is_there("out"),
            )
