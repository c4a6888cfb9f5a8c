"""Positions that --save puts into a file: where they point, after whatever happens to OUT and its disk, and whose they are."""
import errno
import os
import random
import subprocess

from tests.case import needs
from tests.program.case import (
    NOBODY,
    WRITE,
    Feeding,
    FilesCase,
    chunk_fault,
    unsaved,
    unsynced,
    unwritten,
)
from tests.case import feed
from tools import shim


class PositionTest(FilesCase):
    @needs("cc")
    def test_unsettled(self):
        """A position doesn't point beyond what OUT is known to hold: what was there at the last wait for the disk that went well."""
        failing = {"FSYNC": errno.EIO, "ONLY": "out"}
        self.expect(
            1,
            chunk_fault(2),
            "decrypt --pass pass --save saved cut out",
            "no wait went well",
            failing,
        )
        self.see("no wait went well: from the start", self.is_position("saved", 0))
        self.remove("saved")
        source, thread = feed(self.read("cut"), 4096)
        words = "decrypt --pass pass --save saved /dev/stdin out"
        self.expect(
            1, chunk_fault(2), words, "no wait went well, and IN is a pipe", failing, stdin=source
        )
        os.close(source)
        thread.join()
        self.see(
            "no wait went well, and IN is a pipe: from the start", self.is_position("saved", 0)
        )
        self.expect(
            1,
            chunk_fault(2),
            "decrypt --no-sync --pass pass --save saved cut out",
            "no wait is asked for",
            failing,
        )
        self.see("no wait is asked for: all that was written", self.is_position("saved", 2))
        self.write("plain", bytes(40 << 20))
        self.expect(0, b"", "encrypt --pass pass --log 4 plain age")
        said = unwritten("out", errno.EIO)
        self.expect(
            1,
            said,
            "decrypt --pass pass --save saved age out",
            "the second wait fails",
            failing | {"FROM": 2},
        )
        self.see("the second wait fails: what the first one saw", self.is_position("saved", 256))
        self.expect(
            0,
            b"",
            "resume --position saved --old out --pass pass age whole",
            "resumed after a wait that failed",
        )
        self.see(
            "resumed after a wait that failed: the text", self.read("whole") == bytes(40 << 20)
        )

    def test_failures_at_the_end(self):
        """Where a failure is told as OUT is ended, and once only, the position is where the disk was last waited for; and the run fails."""
        lost = {"CLOSE": errno.EIO, "ONLY": "out"}
        words = "decrypt --pass pass --save saved age out"
        said = unsynced("out", errno.EIO)
        self.expect(1, said, words, "a short OUT", lost)
        self.see("a short OUT: nothing was waited for", self.is_position("saved", 0))
        self.expect(1, chunk_fault(2), "decrypt --pass pass --save saved cut old", "a stop")
        held = self.read("saved")
        ended = self.tool(*words.split(), env=shim.loaded(**lost))
        self.see(
            "a short OUT, and a later position",
            (ended.returncode, ended.stderr) == (1, said),
            ended.stderr,
        )
        self.see(
            "a short OUT, and a later position: said",
            ended.advice.endswith(b"age_tool: no position was saved\n"),
            ended.advice,
        )
        again = "resume --position saved --old old --pass pass --save saved age out"
        self.expect(1, WRITE + said, again, "a resumed run", lost)
        self.see("a later position as it was", self.read("saved") == held)
        text = random.Random(2).randbytes(20 << 20)
        self.write("plain", text)
        self.expect(0, b"", "encrypt --pass pass --log 4 plain age")
        for name, failing in (
            ("the last wait", {"FSYNC": errno.EIO, "FROM": 2, "ONLY": "out"}),
            ("the close", lost),
        ):
            self.remove("saved", "whole")
            self.expect(1, said, words, f"{name} fails", failing)
            self.see(f"{name} fails: what was waited for", self.is_position("saved", 256))
            self.expect(
                0,
                b"",
                "resume --position saved --old out --pass pass age whole",
                f"{name} fails: resumed",
            )
            self.see(f"{name} fails: the text", self.read("whole") == text)
        self.remove("saved")
        self.expect(
            1, unwritten("out", errno.EIO), f"{words} --no-sync", "no wait is asked for", lost
        )
        self.see("no wait is asked for: nothing is certain", self.is_position("saved", 0))

    def test_no_earlier_position(self):
        """A position isn't replaced by one before it: by a resumed run whose OUT isn't known to be on the disk, or is a pipe."""
        self.expect(1, chunk_fault(2), "decrypt --pass pass --save saved cut out", "a stop")
        os.rename(self.path("out"), self.path("old"))
        held = self.read("saved")
        unsettled = chunk_fault(2) + b"age_tool: 27 Write\n"
        words = "resume --position saved --old old --pass pass --save saved cut"
        self.expect(
            1, unsettled, f"{words} out", "no wait went well", {"FSYNC": errno.EIO, "ONLY": "out"}
        )
        self.see("no wait went well: the position as it was", self.read("saved") == held)
        first = self.started(f"{words} /dev/stdout", stdout=subprocess.PIPE)
        first.stdout.read()
        self.ends("a pipe", first, 1, unsettled)
        self.see("a pipe: the position as it was", self.read("saved") == held)
        self.expect(1, chunk_fault(2), f"{words} out", "all went well")
        self.see("all went well: a position", self.is_position("saved", 2))

    def test_first_chunk(self):
        """A position at chunk 0 is put only where nothing has the name: it takes the place of nothing."""
        self.write("first", self.age[:400] + bytes([self.age[400] ^ 1]) + self.age[401:])
        words = "decrypt --pass pass --save saved first out"
        self.expect(1, chunk_fault(0), words, "nothing has the name")
        self.see(
            "nothing has the name: a position",
            self.is_position("saved", 0) and not self.is_there("out"),
        )
        first = self.read("saved")
        self.expect(
            1, chunk_fault(2), "decrypt --pass pass --save other cut old", "a stop at a later chunk"
        )
        for name, held in (
            ("a later position", self.read("other")),
            ("another file", b"somebody's file"),
            ("an empty file", b""),
        ):
            self.write("saved", held)
            ended = self.tool(*words.split())
            self.see(name, (ended.returncode, ended.stderr) == (1, chunk_fault(0)), ended.stderr)
            self.see(
                f"{name}: said",
                ended.advice.endswith(b"age_tool: no position was saved\n"),
                ended.advice,
            )
            self.see(
                f"{name}: as it was", self.read("saved") == held and not self.is_there("saved.new")
            )
        self.remove("saved")
        os.symlink("nothing", self.path("saved"))
        self.expect(1, chunk_fault(0), words, "a link to nothing")
        self.see(
            "a link to nothing: as it was",
            self.path("saved").is_symlink() and not self.is_there("nothing"),
        )
        self.remove("saved")
        self.write("saved", first)
        self.expect(
            1,
            chunk_fault(0),
            "resume --position saved --old none --pass pass --save saved first out",
            "a resumed run",
        )
        self.see("a resumed run: as it was", self.read("saved") == first)
        self.expect(
            1,
            chunk_fault(2),
            "resume --position saved --old none --pass pass --save saved cut out",
            "a later stop",
        )
        self.see("a later stop: a position", self.is_position("saved", 2))

    def test_pipe(self):
        """Of what a pipe took, the last 4 MiB may still be on their way: the position is before them, and not far before."""
        text = random.Random(1).randbytes(12 << 20)
        self.write("plain", text)
        self.expect(0, b"", "encrypt --pass pass --log 4 plain age")
        for mib in (3, 5, 11):
            self.write("cut", self.read("age")[: mib << 20])
            first = self.started(
                "decrypt --pass pass --save saved cut /dev/stdout", stdout=subprocess.PIPE
            )
            out = first.stdout.read()
            chunks = len(out) >> 16
            self.ends(f"{mib} MiB", first, 1, chunk_fault(chunks))
            index = int(self.read("saved").split()[1])
            self.see(
                f"{mib} MiB: before what is on its way",
                max(chunks - 3 * 64, -1) < index <= max(chunks - 64, 0),
                index,
                chunks,
            )
            self.write("old", out[: index << 16])
            self.expect(
                0,
                b"",
                "resume --position saved --old old --pass pass age whole",
                f"{mib} MiB: resumed",
            )
            self.see(f"{mib} MiB: the text", self.read("whole") == text)

    def test_harmed_output(self):
        """A position doesn't point beyond what OUT still holds if another program removes it or cuts it off while the run goes on."""
        for name, harm, chunks in (
            ("removed", os.remove, 0),
            ("cut off", lambda path: os.truncate(path, 70000), 1),
        ):
            feeding = Feeding(self)
            harm(self.path("out"))
            feeding.stops(f"OUT was {name}", chunk_fault(2))
            self.see(
                f"OUT was {name}: a position within it",
                any(self.is_position("saved", it) for it in range(chunks + 1)),
                self.read("saved"),
            )
        feeding = Feeding(self, "decrypt --no-sync --pass pass --save saved in out")
        os.truncate(self.path("out"), 131072 + 5)
        feeding.stops("OUT was made longer", chunk_fault(2))
        self.see("OUT was made longer: a position", self.is_position("saved", 2))
        with open(self.path("out"), "wb") as out:
            feeding = Feeding(self, "decrypt --pass pass --save saved in /dev/stdout", stdout=out)
            os.truncate(self.path("out"), 70000)
            feeding.stops("standard output's file was cut off", chunk_fault(2))
        self.see(
            "standard output's file was cut off: a position within it",
            self.is_position("saved", 1),
            self.read("saved"),
        )

    @needs("cc")
    def test_sick_disk(self):
        """An old position isn't written over where the disk is what fails."""
        for error in (
            errno.EIO,
            errno.EROFS,
            errno.ESTALE,
            errno.ENOSPC,
            errno.EDQUOT,
            errno.EBUSY,
            errno.EPERM,
        ):
            self.write("saved", b"an old position", 0o640)
            name = f"a rename fails with {errno.errorcode[error]}"
            said = chunk_fault(2) + unsaved("saved", error)
            self.expect(
                1, said, "decrypt --pass pass --save saved cut out", name, {"RENAME": error}
            )
            self.see(
                f"{name}: the old position",
                self.read("saved") == b"an old position"
                and self.mode("saved") == 0o640
                and not self.is_there("saved.new"),
            )
            self.remove("saved")
            self.expect(
                1,
                said,
                "decrypt --pass pass --save saved cut out",
                f"{name}, and so does a link",
                {"RENAME": error, "LINK": errno.EPERM},
            )
            self.see(
                f"{name}, and so does a link: nothing is left",
                not self.is_there("saved") and not self.is_there("saved.new"),
            )

    def test_modes(self):
        """A position is its owner's, whoever could read the one that it replaces."""
        for umask, mode in ((0o022, 0o600), (0o277, 0o400), (0, 0o600)):
            self.remove("saved", "out")
            self.expect(
                1,
                chunk_fault(2),
                "decrypt --pass pass --save saved cut out",
                f"umask {umask:o}",
                umask=umask,
            )
            self.see(
                f"umask {umask:o}: the position",
                self.mode("saved") == mode,
                oct(self.mode("saved")),
            )
            self.see(
                f"umask {umask:o}: OUT", self.mode("out") == 0o666 & ~umask, oct(self.mode("out"))
            )
        if os.geteuid() == 0:
            self.write("saved", b"an old position", 0o640)
            os.chown(self.path("saved"), -1, NOBODY)
            self.path("saved").chmod(0o4640)
            self.expect(
                1,
                chunk_fault(2),
                "decrypt --pass pass --save saved cut out",
                "a position of another group is replaced",
            )
            self.see(
                "a position of another group is replaced: its mode",
                self.is_position("saved", 2) and self.mode("saved") == 0o600,
            )
        for mode in (0o640, 0o666, 0o4755):
            self.write("saved", b"an old position", mode)
            self.expect(
                1,
                chunk_fault(2),
                "decrypt --pass pass --save saved cut out",
                f"a position of mode {mode:o} is replaced",
            )
            self.see(
                f"a position of mode {mode:o} is replaced: its mode",
                self.is_position("saved", 2) and self.mode("saved") == 0o600,
            )
        self.expect(
            1,
            chunk_fault(2),
            "resume --position saved --old out --pass pass --save ./saved cut again",
            "saved over the position",
        )
        self.see("saved over the position: it", self.is_position("saved", 2))
