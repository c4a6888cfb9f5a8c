"""Waits for the disk (--no-sync waits for none): what is synced and when, what is said where that can't be done, and faults that only
the wait tells."""
import contextlib
import errno
import os
import pathlib
import subprocess

from tests import process
from tests.case import SECONDS, needs, without_advice
from tests.program.case import (
    OWN,
    PLAIN,
    FilesCase,
    as_nobody,
    chunk_fault,
    unsaved,
    unsynced,
    unwaited,
    unwritten,
    waits_for,
)


class SyncTest(FilesCase):
    def synced(self, words, name, **more):
        """Runs the program, and gives the paths that it waited for."""
        log = self.path("synced")
        log.unlink(missing_ok=True)
        log.touch()
        log.chmod(0o666)
        failing = {"SYNCED": log} | more.pop("failing", {})
        self.expect(more.pop("status", 0), more.pop("faults", b""), words, name, failing, **more)
        return [pathlib.Path(line).name for line in log.read_text().splitlines()]

    @needs("cc")
    def test_syncs(self):
        """Status 0 says that OUT has reached the disk, wherever that can be waited for."""
        here = self.room.name
        self.see(
            "a new OUT and its folder are synced",
            self.synced("decrypt --pass pass age new", "a new OUT") == ["new", here],
        )
        self.see(
            "an old OUT and its folder are synced",
            self.synced("decrypt --pass pass age new", "an old OUT") == ["new", here],
        )
        self.write("out", b"O" * 10)
        paths = self.synced(
            "decrypt --pass pass age out",
            "an OUT that goes at the last moment",
            failing={"GONE": 1},
        )
        self.see(
            "an OUT that goes at the last moment: the one that was made is synced",
            paths == ["out", here] and self.mode("out") == 0o644,
        )
        self.see(
            "nothing is synced",
            self.synced("decrypt --no-sync --pass pass age new", "no waiting") == [],
        )
        paths = self.synced(
            "decrypt --pass pass --save saved cut out",
            "a position",
            status=1,
            faults=chunk_fault(2),
        )
        self.see(
            "a position is synced",
            paths == ["saved.new", "out", "out", here, "saved.new", here],
            paths,
        )
        with open(self.path("new"), "wb") as new:
            self.see(
                "a stream is synced",
                self.synced("decrypt --pass pass age /dev/stdout", "a stream to a file", stdout=new)
                == ["new"],
            )
        words = "decrypt --pass pass short /dev/stdout"
        self.expect(0, b"", "encrypt --pass pass --log 4 pass short")
        self.see(
            "a pipe isn't", self.synced(words, "a stream to a pipe", stdout=subprocess.PIPE) == []
        )
        self.see(
            "a device isn't", self.synced("decrypt --pass pass age /dev/null", "a device") == []
        )

    @needs("cc")
    def test_syncs_that_fail(self):
        """A file system that can't sync is no fault, and one that fails is."""
        for error in (errno.EINVAL, errno.EOPNOTSUPP):
            self.remove("new", "saved")
            self.expect(
                0,
                unwaited("new"),
                "decrypt --pass pass age new",
                f"no fsync, {error}",
                {"FSYNC": error},
            )
            self.expect(
                0,
                b"",
                "decrypt --no-sync --pass pass age other",
                f"no fsync is wanted, {error}",
                {"FSYNC": error},
            )
            stopped = chunk_fault(2) + unwaited("out")
            self.expect(
                1,
                stopped,
                "decrypt --pass pass --save saved cut out",
                f"no fsync of a position, {error}",
                {"FSYNC": error},
            )
            self.see(
                f"no fsync, {error}: both",
                self.read("new") == PLAIN and self.is_position("saved", 2),
            )
        for error, only in (
            (errno.EIO, "f"),
            (errno.EIO, "d"),
            (errno.EROFS, "f"),
            (errno.EROFS, "d"),
        ):
            self.remove("new", "saved")
            failing = {"FSYNC": error, "ONLY": only}
            self.expect(
                1,
                unsynced("new", error),
                "decrypt --pass pass age new",
                f"a sync that fails, {only}",
                failing,
            )
            said = (
                unsaved("saved", os.strerror(error) + OWN * (error == errno.EROFS))
                if only == "f"
                else chunk_fault(2) + unsaved("saved", error)
            )
            self.expect(
                1,
                said,
                "decrypt --pass pass --save saved cut new",
                f"a position's sync that fails, {only}",
                failing,
            )
            self.see(
                f"a position's sync that fails, {only}: nothing beside it",
                not self.is_there("saved.new"),
            )

    @needs("cc")
    def test_syncs_meanwhile(self):
        """The disk is waited for while a large OUT is written, so that one that fails is seen soon."""
        self.large()
        here = self.room.name
        paths = self.synced("decrypt --pass pass age new", "a large OUT")
        self.see("a large OUT is synced meanwhile", paths == ["new", "new", "new", here], paths)
        paths = self.synced("decrypt --no-sync --pass pass age new", "a large OUT, no waiting")
        self.see("a large OUT, no waiting: nothing is synced", paths == [])
        failing = {"FSYNC": errno.ENOSPC, "ONLY": "f"}
        self.expect(
            1,
            unwritten("new", errno.ENOSPC),
            "decrypt --pass pass age new",
            "a disk that is full meanwhile",
            failing,
        )
        self.see("a disk that is full meanwhile: soon", self.path("new").stat().st_size == 16 << 20)
        with open(self.path("new"), "wb") as new:
            said = unwritten("/dev/stdout", errno.ENOSPC)
            self.expect(
                1,
                said,
                "decrypt --pass pass age /dev/stdout",
                "standard output, full meanwhile",
                failing,
                stdout=new,
            )

    @needs("mkfs.ext4", "sync", root=True)
    def test_errors_that_others_see(self):
        """The system reports a failed write to each descriptor that was open then, also if another program's sync has seen it first. (It is too short to be waited for before its end.)"""
        self.path("thin").mkdir()
        self.path("pool").mkdir()
        self.mount("-t", "tmpfs", "-o", "size=8M", "none", self.path("pool"))
        with open(self.path("pool/image"), "wb") as image:
            image.truncate(200 << 20)
        process.run(["mkfs.ext4", "-q", "-F", self.path("pool/image")], check=True)
        self.mount("-o", "loop", self.path("pool/image"), self.path("thin"))
        self.write("plain", os.urandom(14_000_000))
        self.expect(0, b"", "encrypt --pass pass --log 4 plain age", "a large file")
        age = self.read("age")
        with open(self.path("thin/out"), "wb") as out:
            run = self.started(
                "decrypt --pass pass /dev/stdin /dev/stdout", stdin=subprocess.PIPE, stdout=out
            )
        run.stdin.write(age[:-1000])
        run.stdin.flush()
        waits_for(lambda: self.path("thin/out").stat().st_size > 13_500_000)
        seen = process.run(["sync", self.path("thin/out")], capture_output=True).returncode
        process.run(["mount", "-o", "remount,size=300M", self.path("pool")], check=True)
        run.stdin.write(age[-1000:])
        run.stdin.close()
        run.stdin = None
        said = without_advice(run.communicate(timeout=SECONDS)[1])[0]
        what = "a failure that another program saw"
        if seen == 0:
            self.leave_out(what, "the disk didn't fail")
        else:
            self.see(
                what,
                (run.returncode, said[:18]) == (1, b"age_tool: 27 Write"),
                run.returncode,
                said,
            )

    @needs("cc", "pkg-config", "fusermount3", root=True)
    def test_errors_of_closing(self):
        """A file system that stores a file as it is closed says only then that it couldn't."""
        for error in (errno.EIO, errno.ENOSPC, errno.EDQUOT):
            at = f"at-{error}"
            self.fused(at, FLUSH=error)
            for words in ("encrypt --pass pass --log 4 plain", "decrypt --pass pass age"):
                self.expect(
                    1,
                    unsynced(f"{at}/out", error),
                    f"{words} {at}/out",
                    f"{words}, closing fails with {error}",
                )
                self.expect(
                    1,
                    unsynced(f"{at}/out", error),
                    f"{words} {at}/out",
                    f"{words}, closing an old OUT fails with {error}",
                )
                self.expect(
                    1,
                    unwritten(f"{at}/out", error),
                    f"{words} --no-sync {at}/out",
                    f"{words} --no-sync, closing fails with {error}",
                )
                with open(self.path(f"{at}-held/stream"), "wb"):
                    pass
                stream = os.open(self.path(f"{at}/stream"), os.O_WRONLY)
                said = unsynced("/dev/stdout", error)
                self.expect(
                    1,
                    said,
                    f"{words} /dev/stdout",
                    f"{words} to standard output, closing fails with {error}",
                    stdout=stream,
                )
                with contextlib.suppress(OSError):
                    os.close(stream)
            for held in (None, b"an old position"):
                if held:
                    self.write(f"{at}-held/saved", held)
                said = chunk_fault(2) + unsaved(f"{at}/saved", error)
                self.expect(
                    1,
                    said,
                    f"decrypt --pass pass --save {at}/saved cut out",
                    f"closing a position fails with {error}, {held}",
                )
                left = self.read(f"{at}-held/saved") if held else None
                self.see(
                    f"closing a position fails with {error}, {held}: kept",
                    left == held and not self.is_there(f"{at}-held/saved.new"),
                )

    @needs("cc")
    def test_name_of_an_option(self):
        """An OUT that has the name of an option is waited for as another is, while it is written and at its end."""
        self.write("plain", bytes(17 << 20))
        self.expect(0, b"", "encrypt --pass pass --log 4 plain age")
        waits = [
            self.synced(f"decrypt --pass pass -- age {name}", f"an OUT named {name}")
            for name in ("out", "--no-sync")
        ]
        self.see("an OUT named --no-sync is waited for", len(waits[0]) == len(waits[1]) > 1, waits)

    @needs("cc", "pkg-config", "fusermount3", root=True)
    def test_few_questions(self):
        """A file system far away isn't asked about OUT at each write."""
        self.write("calls", b"")
        self.fused("far", CALLS=self.path("calls"))
        self.write("plain", bytes(12 << 20))
        self.expect(0, b"", "encrypt --pass pass --log 4 plain age")
        for name in ("a new OUT", "an old OUT"):
            self.write("calls", b"")
            self.expect(0, b"", "decrypt --pass pass age far/out", f"{name} far away")
            calls = self.read("calls")
            self.see(
                f"{name} far away: few questions",
                calls.count(b"g") < 20 < calls.count(b"w"),
                calls.count(b"g"),
                calls.count(b"w"),
            )

    @needs("cc")
    def test_write_only(self):
        """Standard output may be a file that can only be written."""
        self.write("new", b"", 0o222)
        with open(self.path("new"), "wb") as new:
            words = "decrypt --pass pass age /dev/stdout"
            paths = self.synced(
                words, "a stream to a file that can't be read", stdout=new, **as_nobody()
            )
            self.see("a file that can't be read is synced", paths == ["new"], paths)
            self.expect(
                1,
                unsynced("/dev/stdout", errno.EIO),
                words,
                "its sync fails",
                {"FSYNC": errno.EIO},
                stdout=new,
                **as_nobody(),
            )

    @needs(root=True)
    def test_unopened(self):
        """Standard output may be a file that can't be opened once more: it has all of the text, and it isn't known to be on the disk."""
        self.write("plain", bytes(17 << 20))
        self.expect(0, b"", "encrypt --pass pass --log 4 plain age")
        self.write("new", b"", 0o600)
        with open(self.path("new"), "wb") as new:
            words = "decrypt --pass pass age /dev/stdout"
            self.expect(
                1,
                unsynced("/dev/stdout", errno.EACCES),
                words,
                "a stream to a file of another user's",
                stdout=new,
                **as_nobody(),
            )
        self.see("a stream to a file of another user's: whole", self.read("new") == bytes(17 << 20))

    def test_unreadable(self):
        """The name of a new OUT can't be synced in a folder that can't be read."""
        folder = self.path("folder")
        folder.mkdir()
        folder.chmod(0o333)
        self.expect(
            1,
            unsynced("folder/new", errno.EACCES),
            "decrypt --pass pass age folder/new",
            "a folder that can't be read",
            **as_nobody(),
        )
        self.expect(
            0,
            b"",
            "decrypt --no-sync --pass pass age folder/other",
            "a folder that can't be read, without waiting",
            **as_nobody(),
        )
        folder.chmod(0o777)
        self.see(
            "a folder that can't be read: whole all the same",
            self.read("folder/new") == PLAIN == self.read("folder/other"),
        )

    @needs(root=True)
    def test_other_users(self):
        """Standard output that the user of the program may not open by its path can't be synced."""
        self.write("out", b"", 0o600)
        with open(self.path("out"), "r+b") as out:
            said = unsynced("/dev/stdout", errno.EACCES)
            self.expect(
                1,
                said,
                "decrypt --pass pass age /dev/stdout",
                "standard output of another user's",
                stdout=out,
                **as_nobody(),
            )
        self.see("standard output of another user's: whole all the same", self.read("out") == PLAIN)
        self.write("out", b"", 0o600)
        with open(self.path("out"), "r+b") as out:
            words = "decrypt --no-sync --pass pass age /dev/stdout"
            self.expect(
                0,
                b"",
                words,
                "standard output of another user's, without waiting",
                stdout=out,
                **as_nobody(),
            )
        self.see(
            "standard output of another user's, without waiting: the bytes",
            self.read("out") == PLAIN,
        )
