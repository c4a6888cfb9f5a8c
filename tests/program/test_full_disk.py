"""A disk that is full, or on which no file can be made any more."""
import contextlib
import errno
import os

from tests.case import needs
from tests.program.case import PLAIN, WRITE, FilesCase, reason, unsaved, unwritten
from tools import shim


class FullDiskTest(FilesCase):
    @needs(root=True)
    def test_full(self):
        """A position has its room before OUT fills the disk."""
        self.path("small").mkdir()
        self.mount("-t", "tmpfs", "-o", "size=144k", "none", self.path("small"))
        said = unwritten("small/out", errno.ENOSPC)
        for name in ("a full file system", "a full file system, and an old position"):
            self.remove("small/out")
            self.expect(1, said, "decrypt --pass pass --save small/saved age small/out", name)
            self.see(
                f"{name}: a position",
                self.is_position("small/saved", 2) and not self.is_there("small/saved.new"),
            )
        words = "resume --position small/saved --old small/out --pass pass age whole"
        self.expect(0, b"", words, "resumed after a full file system")
        self.see("resumed after a full file system: the text", self.read("whole") == PLAIN)
        self.remove("small/saved")
        self.write_what_fits("small/filler")
        refused = unsaved("small/saved", errno.ENOSPC)
        self.expect(
            1,
            refused,
            "decrypt --pass pass --save small/saved age new",
            "a file system that is full at the beginning",
        )
        self.see(
            "a file system that is full at the beginning: nothing was begun",
            not self.is_there("new") and not self.is_there("small/saved"),
        )
        self.remove("small/filler", "small/out")
        self.expect(
            1,
            said,
            "decrypt --pass pass --save saved age small/out",
            "a full file system, and a position elsewhere",
        )
        self.see(
            "a full file system, and a position elsewhere: it",
            self.is_position("saved", 2) or self.is_position("saved", 1),
        )

    def write_what_fits(self, name):
        """Fills a file system."""
        with open(self.path(name), "wb", buffering=0) as filler, contextlib.suppress(OSError):
            while filler.write(bytes(4096)):
                pass

    @needs("mkfs.ext4", root=True)
    def test_no_inodes(self):
        """Where no file can be made any more, a position is refused before OUT is touched."""
        few = self.mount_ext4("few", 4, "-N", "16")
        (few / "saved").write_bytes(b"an old position")
        while os.statvfs(few).f_ffree:
            (few / f"file-{os.statvfs(few).f_ffree}").touch()
        self.expect(
            1,
            WRITE + reason("create few/out", errno.ENOSPC),
            "decrypt --pass pass age few/out",
            "no inode for OUT",
        )
        self.see("no inode for OUT: it isn't there", not self.is_there("few/out"))
        words = "decrypt --pass pass --save few/new cut out"
        self.expect(1, unsaved("few/new", errno.ENOSPC), words, "no inode for a position")
        self.see(
            "no inode for a position: nothing was begun",
            not self.is_there("out") and not self.is_there("few/new"),
        )
        self.expect(
            1,
            unsaved("few/saved", errno.ENOSPC),
            "decrypt --pass pass --save few/saved cut out",
            "no inode, and an old position",
        )
        self.see(
            "no inode, and an old position: it",
            (few / "saved").read_bytes() == b"an old position" and not self.is_there("out"),
        )


class FullDiskOfAPositionTest(FilesCase):
    @needs("cc")
    def test_full_disk(self):
        """Whichever call finds the disk full, no file of --save is harmed, and none is left beside it."""
        for held in (None, b"an old position"):
            for failing in (
                *(
                    {"WRITE": errno.ENOSPC, "AT": at, "EVERY": every}
                    for at in range(1, 6)
                    for every in (0, 2)
                ),
                *({"FSYNC": errno.ENOSPC, "ONLY": "f", "FROM": turn} for turn in range(1, 5)),
                {"FTRUNCATE": errno.ENOSPC},
                {"FSYNC": errno.ENOSPC, "ONLY": "d"},
                {"RENAME": errno.ENOSPC},
                {"LINK": errno.ENOSPC},
                {"RENAME": errno.ENOSPC, "LINK": errno.ENOSPC},
                {"CLOSE": errno.ENOSPC},
            ):
                self.remove("saved", "out")
                if held:
                    self.write("saved", held)
                ended = self.tool(
                    *"decrypt --pass pass --save saved cut out".split(), env=shim.loaded(**failing)
                )
                now = self.read("saved") if self.is_there("saved") else None
                is_whole = (
                    now == held
                    or self.is_position("saved", 0)
                    or self.is_position("saved", 1)
                    or self.is_position("saved", 2)
                )
                self.see(
                    f"{failing}, {held}: no harm",
                    ended.returncode == 1 and is_whole and not self.is_there("saved.new"),
                    now,
                    ended,
                )
                if now == held and self.is_there("out") and self.path("out").stat().st_size:
                    printed = (
                        b"to save the position elsewhere: " in ended.advice
                        or b"no position was saved" in ended.advice
                        or b"27 Write" in ended.stderr
                    )
                    self.see(f"{failing}, {held}: said", printed, ended)
        self.remove("out")
        ended = self.tool(
            *"decrypt --pass pass --save saved cut out".split(),
            env=shim.loaded(FSYNC=errno.ENOSPC, ONLY="f"),
        )
        self.see(
            "the room for a position is waited for before OUT is made",
            b"27 Write" in ended.stderr and not self.is_there("out"),
            ended,
        )
