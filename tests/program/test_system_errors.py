"""Calls of the system that fail: reads, writes, looks, and the opening of files. tools/shim.c and tools/fused.c let them fail."""
import errno
import itertools
import os
import pathlib
import random
import re

from tests import process
from tests.case import SECONDS, needs
from tests.program.case import (
    PLAIN,
    WRITE,
    FilesCase,
    as_nobody,
    chunk_fault,
    reason,
    unsaved,
    unsynced,
    unwritten,
)
from tools import shim


class SystemErrorsTest(FilesCase):
    def device(self, name, held):
        """A block device over a file until the test ends. The test is left out if there is none."""
        self.write(name, held + bytes(-len(held) % 4096))
        made = process.run(
            ["losetup", "--show", "-f", self.path(name)], capture_output=True, text=True
        ).stdout.strip()
        if not made:
            self.skipTest("no loop device can be had")
        self.addCleanup(process.run, ["losetup", "-d", made], check=True)
        return made

    @needs("cc")
    def test_failing_looks(self):
        """A file that can't be looked at is no fault of the command line: the run says 26 or 27 or goes on, and leaves no empty position."""
        self.expect(1, chunk_fault(2), "decrypt --pass pass --save position cut old")
        position = self.read("position")
        for words, more in (
            ("decrypt --no-clobber --pass pass --save new cut out", {"ON": 1}),
            ("decrypt --pass pass --save new cut out", {}),
            ("resume --position position --save position --old old --pass pass cut out", {}),
        ):
            for at in itertools.count(1):
                # (a temporary file that can't be looked at any more is left)
                self.remove("out", "new", "failed", *(it.name for it in self.room.glob("*.new")))
                self.write("position", position)
                ended = self.tool(
                    *words.split(),
                    env=shim.loaded(STATX=errno.EIO, AT=at, COUNT=self.path("failed"), **more),
                )
                if not self.is_there("failed"):
                    break
                is_right = re.match(
                    rb"age_tool: (17 ChunkDamaged chunk 2|26 Read|27 Write)\n", ended.stderr
                )
                is_empty = self.is_there("new") and self.read("new") == b""
                self.see(
                    f"{words}, look {at}",
                    ended.returncode == 1 and is_right and not is_empty,
                    ended,
                )
            self.see(f"{words}: looks", at > 20, at)

    @needs("cc", "pkg-config", "fusermount3", root=True)
    def test_broken_source(self):
        """The reads of IN fail for good from some time on: the position is there, and once IN can be read the run goes on from it."""
        text = random.Random(1).randbytes(4 << 20)
        self.write("plain", text)
        self.expect(0, b"", "encrypt --pass pass --log 4 plain age")
        self.fused("broken", READ=errno.EIO, FROM=3 << 20)
        self.write("broken-held/age", self.read("age"))
        salvage = b"; without another copy, agefile salvage saves what still opens\n"
        said = b"age_tool: 26 Read\n" + reason("read broken/age", errno.EIO)[:-1] + salvage
        self.expect(
            1, said, "decrypt --pass pass --save saved broken/age out", "a source that breaks"
        )
        chunks = self.path("out").stat().st_size >> 16
        self.see(
            "a source that breaks: a position",
            chunks > 40 and self.is_position("saved", chunks),
            chunks,
        )
        self.expect(
            0, b"", "resume --position saved --old out --pass pass age whole", "once it can be read"
        )
        self.see("once it can be read: the text", self.read("whole") == text)

    @needs("cc")
    def test_cuts(self):
        """An old OUT that can't be cut off has changed."""
        for name, text, most, said in (
            ("age", PLAIN, 65536, unwritten),
            ("short", b"some text", 9, unsynced),
        ):
            self.write("some", text)
            self.expect(0, b"", "encrypt --pass pass --log 4 some short")
            self.write("out", b"O" * 300000)
            words = f"decrypt --pass pass {name} out"
            self.expect(
                1,
                said("out", errno.EIO),
                words,
                f"a cut that fails, {name}",
                {"FTRUNCATE": errno.EIO},
            )
            held = self.read("out")
            begins = len(os.path.commonprefix([held, text]))
            is_mixed = 0 < begins <= most and held == text[:begins] + b"O" * (300000 - begins)
            self.see(f"a cut that fails, {name}: what was written", is_mixed, begins)
        self.expect(
            1,
            unsaved("saved", errno.EIO),
            "decrypt --pass pass --save saved age new",
            "a cut of a position fails",
            {"FTRUNCATE": errno.EIO},
        )
        self.see(
            "a cut of a position fails: nothing was begun",
            not any(map(self.is_there, ("new", "saved", "saved.new"))),
        )

    @needs("mkfs.ext4", "cc", root=True)
    def test_aborted(self):
        """A file system that became read-only as its disk failed, before what was written had reached it."""
        folder = self.mount_ext4("ext4", 64, options="loop,errors=remount-ro")
        device = process.run(
            ["findmnt", "-n", "-o", "SOURCE", folder], capture_output=True, text=True
        ).stdout.strip()
        trigger = pathlib.Path("/sys/fs/ext4") / pathlib.Path(device).name / "trigger_fs_error"
        if not trigger.exists():
            self.skipTest("the system can't let an ext4 abort")
        self.expect(
            1,
            unsynced("ext4/out", errno.EROFS),
            "decrypt --pass pass age ext4/out",
            "an ext4 that aborts",
            {"TRIGGER": trigger},
        )

    @needs("cc")
    def test_errors_of_writes(self):
        """A write that fails leaves the chunks before it, and no half position."""
        for error in (errno.EIO, errno.ENOSPC, errno.EDQUOT, errno.EFBIG):
            said = unsaved("saved", error)
            name = f"no room for a position: {errno.errorcode[error]}"
            self.expect(
                1, said, "decrypt --pass pass --save saved age new", name, {"WRITE": error, "AT": 1}
            )
            self.see(
                f"{name}: nothing was begun",
                not any(map(self.is_there, ("new", "saved", "saved.new"))),
            )
            for at in (1, 2, 3):
                self.remove("saved", "out")
                name = f"write {at} fails with {errno.errorcode[error]}"
                said = WRITE + unwritten("out", error) + reason("save the position to saved", error)
                self.expect(
                    1,
                    said,
                    "decrypt --pass pass --save saved age out",
                    name,
                    {"WRITE": error, "AT": at + 1},
                )
                held = self.read("out") if self.is_there("out") else None
                self.see(f"{name}: OUT", held == (PLAIN[: 65536 * (at - 1)] if at > 1 else None))
                self.see(
                    f"{name}: nothing is left of a position",
                    not self.is_there("saved") and not self.is_there("saved.new"),
                )

    @needs("cc")
    def test_interrupted(self):
        """Reads and writes that a signal interrupts are tried again."""
        for every in (2, 3, 5):
            self.remove("saved", "out")
            failing = {"EVERY": every}
            self.expect(
                0,
                b"",
                "decrypt --pass pass age out",
                f"every call number {every} is interrupted",
                failing,
            )
            self.see(f"every call number {every} is interrupted: OUT", self.read("out") == PLAIN)
            self.expect(
                1,
                chunk_fault(2),
                "decrypt --pass pass cut out",
                f"every call number {every} of a run that stops is interrupted",
                failing,
            )
            with open(self.path("age"), "rb") as age, open(self.path("out"), "wb") as out:
                self.expect(
                    0,
                    b"",
                    "decrypt --pass pass /dev/stdin /dev/stdout",
                    f"the streams, {every}",
                    failing,
                    stdin=age,
                    stdout=out,
                )
            self.see(
                f"every call number {every} is interrupted: standard output",
                self.read("out") == PLAIN,
            )

    def test_descriptors(self):
        """With too few descriptors a run stops, and what it left is right."""
        for most in range(3, 9):
            self.remove("saved", "out")
            words = (
                f'ulimit -n {most}; exec "{self.program}" decrypt --pass pass --save saved cut out'
            )
            ended = process.run(
                ["sh", "-c", words], cwd=self.room, capture_output=True, timeout=SECONDS
            )
            held = self.read("out") if self.is_there("out") else b""
            self.see(
                f"{most} descriptors",
                ended.returncode in (1, 127) and PLAIN.startswith(held),
                ended,
            )
            self.see(
                f"{most} descriptors: a position",
                self.is_position("saved", 2)
                or most < 6
                and (self.is_position("saved", 0) or not self.is_there("saved")),
                ended,
            )

    def test_refused(self):
        """What the system refuses is named."""
        self.write("secret", b"correct horse\n", 0o000)
        said = b"age_tool: 26 Read\n" + reason("open secret", errno.EACCES)
        self.expect(
            1,
            said,
            "decrypt --pass secret age new",
            "a passphrase that can't be read",
            **as_nobody(),
        )
        self.expect(
            1, said, "decrypt --pass pass secret new", "an input that can't be read", **as_nobody()
        )
