"""The file of --save, and FILE.new beside it: what is there after each end, and what was there before and stays."""
import errno
import fcntl
import os
import re
import signal
import stat

from tests import process
from tests.case import SECONDS, needs
from tests.program.case import (
    BLANKS,
    IN_THE_WAY,
    LOCKED,
    NOBODY,
    NO_FILE,
    OWN,
    Feeding,
    FilesCase,
    as_nobody,
    beside,
    chunk_fault,
    unsaved,
    unwritten,
)


class PositionFileTest(FilesCase):
    def test_temporary_file(self):
        """There is one while a run goes on, which is its owner's, and none after it, however it ends."""
        feeding = Feeding(self)
        self.see(
            "while a run goes on",
            self.read("saved.new") == BLANKS and self.mode("saved.new") == 0o600,
        )
        feeding.input.write(self.age[140000:])
        feeding.input.close()
        self.ends("a run that ends well", feeding.run, 0, b"")
        self.see(
            "a run that ends well: what is left",
            self.names() == {"pass", "plain", "age", "cut", "in", "out"},
            self.names(),
        )
        feeding = Feeding(self)
        self.remove("saved.new")
        feeding.stops("it was removed meanwhile", chunk_fault(2))
        self.see("it was removed meanwhile: a position", self.is_position("saved", 2))
        self.remove("saved")
        feeding = Feeding(self)
        self.remove("saved.new")
        self.write("saved.new", b"somebody's file")
        feeding.stops("another took its place", chunk_fault(2) + unsaved("saved", IN_THE_WAY))
        self.see(
            "another took its place: it stays",
            self.read("saved.new") == b"somebody's file" and not self.is_there("saved"),
        )

    @needs("strace")
    def test_order_at_a_stop(self):
        """The fault's line comes before the position, whose disk may be slow, and blanks have kept room for that since OUT was opened."""
        words = "decrypt --pass pass --save saved cut out"
        process.run(
            ["strace", "-o", "log", "-e", "trace=openat,write,pwrite64,link", self.program]
            + words.split(),
            cwd=self.room,
            capture_output=True,
            timeout=SECONDS,
        )
        calls = (
            r"(?m)^(?:openat\(AT_FDCWD, |write\(2, |pwrite64\(\d+, |link\()"
            r'"(out|age_tool: 17| {32}|age-position|saved.new)'
        )
        found = re.findall(calls, self.read("log").decode(errors="replace"))
        wanted = ["saved.new", 32 * " ", "out", "age_tool: 17", "age-position", "saved.new"]
        self.see("the calls at a stop", found == wanted, found)

    def names(self):
        return set(os.listdir(self.room))

    def test_what_is_left(self):
        """What is in the folder after each end."""
        self.write("wrong", b"another passphrase\n")
        self.write("first", self.age[:400] + bytes([self.age[400] ^ 1]) + self.age[401:])
        self.expect(1, chunk_fault(2), "decrypt --pass pass --save position cut old", "a stop")
        self.expect(
            1, chunk_fault(0), "decrypt --pass pass --save start first nothing", "a stop at once"
        )
        self.path("folder").mkdir()
        before = self.names()
        resume = "resume --pass pass --position position --old old --save saved"
        for status, faults, words, more in (
            (0, b"", "decrypt --pass pass --save saved age out", {"out"}),
            (0, b"", f"{resume} age out", {"out"}),
            (
                0,
                b"",
                "resume --pass pass --position position --old old --save position age out",
                {"out"},
            ),
            (1, chunk_fault(2), "decrypt --pass pass --save saved cut out", {"out", "saved"}),
            (1, chunk_fault(2), f"{resume} cut out", {"out", "saved"}),
            (
                1,
                chunk_fault(2),
                "resume --pass pass --position position --old old --save position cut out",
                {"out"},
            ),
            (1, chunk_fault(0), "decrypt --pass pass --save saved first out", {"saved"}),
            (1, chunk_fault(0), "decrypt --pass pass --save position first out", set()),
            (1, b"age_tool: 13 WrongKey\n", "decrypt --pass wrong --save saved age out", set()),
            (1, b"age_tool: 13 WrongKey\n", "decrypt --pass wrong --save position age out", set()),
            (
                1,
                unwritten("folder", errno.EISDIR),
                "decrypt --pass pass --save saved age folder",
                set(),
            ),
            (1, unsaved("folder", NO_FILE), "decrypt --pass pass --save folder age out", set()),
            (2, beside("saved"), "decrypt --pass pass --save saved age saved.new", set()),
            (
                2,
                beside("saved"),
                "decrypt --no-clobber --pass pass --save saved age saved.new",
                set(),
            ),
            (
                2,
                beside("saved"),
                "decrypt --pass pass --save saved age ./folder/../saved.new",
                set(),
            ),
            (
                2,
                beside("saved"),
                "resume --pass pass --position start --old saved.new --save saved age out",
                set(),
            ),
        ):
            self.expect(status, faults, words)
            self.see(f"{words}: what is left", self.names() == before | more, self.names() ^ before)
            self.remove("out", "saved")

    def test_named_twice(self):
        """A file of the command that is where the temporary one would be is refused, and stays as it is; so does anybody's note there."""
        self.expect(1, chunk_fault(2), "decrypt --pass pass --save position cut old", "a stop")
        resume = "resume --pass pass --position position --old old"
        for name, of, words in (
            ("the passphrase", "pass", "decrypt --pass saved.new --save saved age out"),
            ("IN", "age", "decrypt --pass pass --save saved saved.new out"),
            ("OUT", "plain", "decrypt --pass pass --save saved age saved.new"),
            (
                "the position",
                "position",
                "resume --pass pass --position saved.new --old old --save saved cut out",
            ),
            (
                "the old output",
                "old",
                "resume --pass pass --position position --old saved.new --save saved cut out",
            ),
            (
                "the passphrase of a resumed run",
                "pass",
                "resume --pass saved.new --position position --old old --save saved cut out",
            ),
            ("IN of a resumed run", "cut", f"{resume} --save saved saved.new out"),
            ("OUT of a resumed run", "plain", f"{resume} --save saved cut saved.new"),
        ):
            for how, make in (
                ("it", lambda of, to: self.write("saved.new", self.read(of))),
                ("a second name", os.link),
                ("a link", os.symlink),
            ):
                self.remove("saved.new")
                make(self.path(of), self.path("saved.new"))
                held, now = self.read(of), self.path("saved.new").lstat()
                self.expect(2, beside("saved"), words, f"{name}, {how}")
                self.see(
                    f"{name}, {how}: it stays",
                    self.read("saved.new") == held and self.is_unchanged(now),
                    held,
                )
                self.see(
                    f"{name}, {how}: nothing was begun",
                    not self.is_there("saved") and not self.is_there("out"),
                )
            # What a killed run would leave is still that of the command.
            self.remove("saved.new")
            self.write("saved.new", BLANKS)
            now = self.path("saved.new").lstat()
            ended = self.tool(*words.split())
            # (of what is read it may be said first that it is no position, or no age file)
            self.see(
                f"{name}, blanks: refused",
                ended.returncode == 2 or (name[:3] != "OUT" and ended.returncode == 1),
                ended,
            )
            self.see(
                f"{name}, blanks: it stays",
                self.read("saved.new") == BLANKS and self.is_unchanged(now),
            )
        with open(self.path("saved.new"), "wb") as errors:
            self.expect(
                2, b"", "decrypt --pass pass --save saved age out", "standard error", stderr=errors
            )
        self.see("standard error: the message", self.read("saved.new") == beside("saved"))

    def is_unchanged(self, was):
        now = self.path("saved.new").lstat()
        return all(
            getattr(was, it) == getattr(now, it)
            for it in ("st_ino", "st_mode", "st_nlink", "st_size", "st_mtime_ns", "st_ctime_ns")
        )

    def stays(self, name, said=IN_THE_WAY, **more):
        """Counts whether a run is refused before it begins, and what is where its temporary file would be stays as it is."""
        path = self.path("saved.new")
        was, held = path.lstat(), path.read_bytes() if path.is_file() else None
        self.expect(
            1, unsaved("saved", said), "decrypt --pass pass --save saved cut new", name, **more
        )
        self.see(
            f"{name}: it stays",
            self.is_unchanged(was) and (held is None or path.read_bytes() == held),
        )
        self.see(
            f"{name}: nothing was begun", not self.is_there("saved") and not self.is_there("new")
        )

    def test_in_the_way(self):
        """What isn't known to be a file that a killed run left stays."""
        path = self.path("saved.new")
        for held in (
            b"",
            BLANKS[1:],
            BLANKS + b" ",
            BLANKS[1:] + b"\n",
            b"\0" * 256,
            b"age-position/v2 1 0 " + b"1" * 236,
            b"a note\n",
        ):
            self.write("saved.new", held)
            self.stays(f"a file of {held[-3:]}")
        self.write("other", BLANKS)
        for name, make in (("a second name", os.link), ("a link", os.symlink)):
            self.remove("saved.new")
            make(self.path("other"), path)
            self.stays(name)
        self.remove("saved.new")
        os.mkfifo(path)
        self.stays("a pipe")
        self.remove("saved.new")
        path.mkdir()
        self.stays("a folder")
        path.rmdir()
        self.write("saved.new", BLANKS)
        with open(path, "rb") as locked:
            fcntl.flock(locked, fcntl.LOCK_EX)
            self.stays("one that somebody has locked", LOCKED)
        self.expect(
            1,
            chunk_fault(2),
            "decrypt --pass pass --save saved cut out",
            "one that nobody has locked",
        )
        self.see(
            "one that nobody has locked: it is a position",
            self.is_position("saved", 2) and not self.is_there("saved.new"),
        )

    @needs("cc")
    def test_in_the_way_without_locks(self):
        """Where there are no locks, what a killed run left may be that of a run that goes on."""
        self.write("saved.new", BLANKS)
        self.stays("a file system without locks", failing={"FLOCK": errno.ENOLCK})

    @needs(root=True)
    def test_in_the_way_of_others(self):
        """Another user's file stays."""
        self.room.chmod(0o777)
        for mode in (0o600, 0o666):
            self.write("saved.new", BLANKS, mode)
            self.stays(f"a file of another user, {mode:o}", **as_nobody())
        self.remove("saved.new")
        os.mknod(self.path("saved.new"), 0o600 | stat.S_IFCHR, os.makedev(1, 3))
        self.stays("a device")

    def test_killed(self):
        """What a killed run left is used by the next one, and not that of a run that goes on."""
        inode = None
        for turn in range(3):
            feeding = Feeding(self)
            found = self.path("saved.new").stat().st_ino
            self.see(
                f"{turn} runs were killed: the temporary file",
                self.read("saved.new") == BLANKS and inode in (None, found),
            )
            inode = found
            self.expect(
                1,
                unsaved("saved", LOCKED),
                "decrypt --pass pass --save saved cut new",
                "a run meanwhile",
            )
            self.see(
                "a run meanwhile: nothing was begun",
                not self.is_there("new") and self.path("saved.new").stat().st_ino == inode,
            )
            feeding.run.kill()
            feeding.input.close()
            self.ends("a run that is killed", feeding.run, -signal.SIGKILL, b"")
        self.write("wrong", b"another passphrase\n")
        self.expect(
            1,
            b"age_tool: 13 WrongKey\n",
            "decrypt --pass wrong --save saved age new",
            "a run that ends before OUT",
        )
        self.see(
            "a run that ends before OUT: nothing is left",
            not self.is_there("saved.new") and not self.is_there("saved"),
        )
        feeding = Feeding(self)
        feeding.stops("a run that stops", chunk_fault(2))
        self.see(
            "a run that stops: its position",
            self.is_position("saved", 2) and not self.is_there("saved.new"),
        )

    @needs(root=True)
    def test_read_only(self):
        """A file system that can't be written is refused before OUT is touched."""
        self.path("still").mkdir()
        self.mount("-t", "tmpfs", "-o", "ro", "none", self.path("still"))
        said = unsaved("still/saved", os.strerror(errno.EROFS) + OWN)
        self.expect(
            1, said, "decrypt --pass pass --save still/saved cut new", "a read-only file system"
        )
        self.see("a read-only file system: nothing was begun", not self.is_there("new"))

    def test_closed_folders(self):
        """A folder in which no file can be made is refused before OUT is touched, and so is a file that isn't writable, or a name that is too long."""
        folder = self.path("folder")
        folder.mkdir()
        folder.chmod(0o555)
        self.addCleanup(folder.chmod, 0o755)
        said = unsaved("folder/saved", os.strerror(errno.EACCES) + OWN)
        words = ["decrypt", "--pass", "pass", "--save", "folder/saved", "cut", "new"]
        self.expect(1, said, words, "a folder without permission", **as_nobody())
        folder.chmod(0o755)
        (folder / "saved").write_bytes(b"an old position")
        for name, mode, of_folder in (
            ("an old position in a folder without permission", 0o666, 0o555),
            ("one that isn't writable", 0o444, 0o777),
        ):
            (folder / "saved").chmod(mode)
            folder.chmod(of_folder)
            self.expect(1, said, words, name, **as_nobody())
            self.see(
                f"{name}: it stays",
                (folder / "saved").read_bytes() == b"an old position"
                and os.listdir(folder) == ["saved"],
            )
        for length in (252, 255, 256):
            long = "s" * length
            said = unsaved(long, os.strerror(errno.ENAMETOOLONG) + OWN)
            self.expect(
                1, said, f"decrypt --pass pass --save {long} cut new", f"a name of {length} bytes"
            )
        self.see("nothing was begun", not self.is_there("new"))
        self.expect(
            1, chunk_fault(2), f"decrypt --pass pass --save {'s' * 251} cut new", "the longest name"
        )
        self.see("the longest name: a position", self.is_position("s" * 251, 2))

    def test_no_regular_files(self):
        """What isn't a regular file is refused before OUT is touched, and nobody waits for the reader of a pipe."""
        os.mkfifo(self.path("pipe"))
        self.path("folder").mkdir()
        os.symlink("/dev/null", self.path("nowhere"))
        for name in (
            "pipe",
            "folder",
            ".",
            "/dev/null",
            "/dev/full",
            "nowhere",
            "/dev/stdout",
            "/dev/stderr",
            "/dev/stdin",
            "/dev/fd/1",
        ):
            self.expect(
                1, unsaved(name, NO_FILE), f"decrypt --pass pass --save {name} cut new", name
            )
        self.see(
            "nothing was begun", not self.is_there("new") and not list(self.room.glob("*.new"))
        )

    @needs(root=True)
    def test_mounted(self):
        """Over a mount point nothing can be renamed: that is seen before OUT is touched if it is of another file system."""
        self.write("saved", b"under it")
        self.path("other").mkdir()
        self.mount("-t", "tmpfs", "none", self.path("other"))
        self.write("other/over", b"an old position")
        self.mount("--bind", self.path("other/over"), self.path("saved"))
        said = unsaved("saved", f"it is a mount point{OWN}")
        self.expect(
            1,
            said,
            "decrypt --pass pass --save saved cut new",
            "a mount point of another file system",
        )
        self.see(
            "a mount point of another file system: nothing was begun",
            not self.is_there("new") and not self.is_there("saved.new"),
        )
        self.write("over", b"an old position")
        self.write("there", b"under it")
        self.mount("--bind", self.path("over"), self.path("there"))
        self.expect(
            1,
            chunk_fault(2) + unsaved("there", errno.EBUSY),
            "decrypt --pass pass --save there cut out",
            "a mount point",
        )
        self.see(
            "a mount point: it stays",
            self.read("over") == b"an old position" and not self.is_there("there.new"),
        )

    @needs(root=True)
    def test_sticky_folder(self):
        """Another user's file in a folder where only owners may replace files is refused before OUT is touched."""
        folder = self.path("sticky")
        folder.mkdir()
        folder.chmod(0o1777)
        self.room.chmod(0o777)
        (folder / "saved").write_bytes(b"an old position")
        (folder / "saved").chmod(0o666)
        words = "decrypt --pass pass --save sticky/saved cut new"
        self.expect(
            1,
            unsaved("sticky/saved", f"only its owner may replace it{OWN}"),
            words,
            "another user's",
            **as_nobody(),
        )
        self.see(
            "another user's: nothing was begun",
            not self.is_there("new") and os.listdir(folder) == ["saved"],
        )
        os.chown(folder / "saved", NOBODY, NOBODY)
        self.expect(1, chunk_fault(2), words, "one's own", **as_nobody())
        self.see(
            "one's own: a position",
            self.is_position("sticky/saved", 2) and os.listdir(folder) == ["saved"],
        )
