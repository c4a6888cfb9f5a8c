"""Two runs with one OUT, or one file of --save, of which one is refused; and systems without locks."""
import errno

from tests.case import SECONDS, needs
from tests.program.case import (
    BLANKS,
    LOCKED,
    MADE,
    PLAIN,
    Feeding,
    FilesCase,
    chunk_fault,
    unsaved,
    unwritten,
)
from tools import shim


class LocksTest(FilesCase):
    def test_two_runs(self):
        """Of two runs into one OUT the second is refused, whatever becomes of the first, and neither spoils what the other writes."""
        for name, feed, status, faults in (
            ("a first run that fails", b"", 1, chunk_fault(2)),
            ("a first run that goes on", self.age[140000:], 0, b""),
        ):
            first = Feeding(self, "decrypt --pass pass in out")
            self.expect(
                1, unwritten("out", LOCKED), "decrypt --pass pass age out", f"{name}: a second run"
            )
            self.see(f"{name}: OUT is still the first one's", self.read("out") == PLAIN[:131072])
            first.input.write(feed)
            first.input.close()
            self.ends(name, first.run, status, faults)
            self.see(f"{name}: OUT", self.read("out") == (PLAIN[:131072] if status else PLAIN))
        self.write("wrong", b"another passphrase\n")
        lost = []
        for turn in range(20):
            self.remove("out")
            runs = [
                self.started(f"decrypt --pass {name} age out")
                for name in ("wrong", "wrong", "wrong", "pass")
            ]
            for one in runs:
                one.communicate(timeout=SECONDS)
            if runs[-1].returncode == 0 and not (
                self.is_there("out") and self.read("out") == PLAIN
            ):
                lost.append(turn)
        self.see("three wrong passphrases and the right one at once", not lost, lost)

    @needs("cc")
    def test_lost_to_another_run(self):
        """A new OUT that another run has locked before the one that made it isn't removed, and one that this run alone has is."""
        self.expect(
            1,
            unwritten("new", errno.ENOSPC),
            "decrypt --pass pass age new",
            "no room for the first byte",
            {"WRITE": errno.ENOSPC, "AT": 1},
        )
        self.see("no room for the first byte: nothing is left", not self.is_there("new"))
        self.expect(
            1,
            unwritten("new", LOCKED),
            "decrypt --pass pass age new",
            "another run was quicker",
            {"FLOCK": errno.EWOULDBLOCK},
        )
        self.see(
            "another run was quicker: OUT is there",
            self.is_there("new") and self.read("new") == b"",
        )

    @needs("cc")
    def test_no_locks(self):
        self.expect(
            0,
            b"",
            "decrypt --pass pass age out",
            "a file system without locks",
            {"FLOCK": errno.ENOLCK},
        )
        self.see("a file system without locks: OUT", self.read("out") == PLAIN)
        failing = {"FLOCK": errno.ENOLCK, "WRITE": errno.ENOSPC, "AT": 1}
        self.expect(
            1,
            unwritten("new", errno.ENOSPC),
            "decrypt --pass pass age new",
            "a new OUT without locks, and no room in it",
            failing,
        )
        self.see(
            "a new OUT without locks stays, as another run may have it",
            self.is_there("new") and self.read("new") == b"",
        )
        for error in (errno.EINVAL, errno.ENOSYS, errno.EOPNOTSUPP):
            self.expect(
                0,
                b"",
                "decrypt --pass pass age out",
                f"no locks: {errno.errorcode[error]}",
                {"FLOCK": error},
            )

    @needs("cc")
    def test_locks_that_fail(self):
        """Where a lock can't be had for another reason, another run may have OUT: it isn't written."""
        self.write("out", b"old text")
        for error in (errno.EIO, errno.EACCES, errno.EBADF):
            name = f"a lock fails: {errno.errorcode[error]}"
            self.expect(
                1, unwritten("out", error), "decrypt --pass pass age out", name, {"FLOCK": error}
            )
            self.see(f"{name}: OUT", self.read("out") == b"old text")

    @needs("cc")
    def test_lost_before_its_lock(self):
        """An OUT that another run removes before this one has its lock isn't written."""
        self.write("out", b"old text")
        self.expect(
            1,
            unwritten("out", errno.ENOENT),
            "decrypt --pass pass age out",
            "an OUT that goes before its lock",
            {"LOST": 1},
        )
        self.see("an OUT that goes before its lock: it is gone", not self.is_there("out"))


class PositionLocksTest(FilesCase):
    def test_two_saves(self):
        """Two runs don't save into one file."""
        self.write("saved", b"an old position")
        feeding = Feeding(self)
        self.expect(
            1,
            unsaved("saved", LOCKED),
            "decrypt --pass pass --save saved cut new",
            "a second run with the file of --save",
        )
        self.see(
            "a second run with the file of --save: nothing was begun",
            not self.is_there("new") and self.read("saved") == b"an old position",
        )
        feeding.stops("the first run with the file of --save", chunk_fault(2))
        self.see(
            "the first run with the file of --save: its position", self.is_position("saved", 2)
        )
        self.expect(
            1,
            chunk_fault(2),
            "decrypt --pass pass --save saved cut new",
            "a later run with the file of --save",
        )

    @needs("cc")
    def test_replaced_before_its_lock(self):
        """A file of `--save` that another run replaces just before this one locks it is that run's."""
        self.write("saved", b"an old position")
        self.write("another", b"that run's position")
        name = "the file of --save is replaced before it is locked"
        self.expect(
            1,
            unsaved("saved", LOCKED),
            "decrypt --pass pass --save saved cut new",
            name,
            {"REPLACED": 1},
        )
        self.see(
            f"{name}: nothing was begun",
            not self.is_there("new") and self.read("saved") == b"that run's position",
        )
        self.see(f"{name}: nothing is left beside it", not self.is_there("saved.new"))

    @needs("cc")
    def test_two_new_saves(self):
        """Of two runs that save into one file that isn't there yet, the second is refused; and a file that comes meanwhile stays."""
        for name, failing in (
            ("new positions", {}),
            ("new positions without links", {"LINK": errno.EPERM}),
        ):
            self.remove("saved", "new")
            feeding = Feeding(self, env=shim.loaded(**failing))
            self.expect(
                1,
                unsaved("saved", LOCKED),
                "decrypt --pass pass --save saved cut new",
                f"{name}: a second run",
                failing,
            )
            self.see(
                f"{name}: nothing was begun",
                not self.is_there("new") and self.read("saved.new") == BLANKS,
            )
            self.write("saved", b"somebody's file")
            feeding.stops(f"{name}: a file came meanwhile", chunk_fault(2) + unsaved("saved", MADE))
            self.see(
                f"{name}: it stays",
                self.read("saved") == b"somebody's file" and not self.is_there("saved.new"),
            )
            self.remove("saved")
            self.expect(
                1,
                chunk_fault(2),
                "decrypt --pass pass --save saved cut new",
                f"{name}: one that stops",
                failing,
            )
            self.see(
                f"{name}: a position",
                self.is_position("saved", 2) and not self.is_there("saved.new"),
            )
