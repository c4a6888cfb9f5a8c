"""Links as names: how many are followed, those of others in a sticky folder, and those that change while the program runs."""
import errno
import os
import pathlib

from tests.case import needs
from tests.program.case import (
    BLANKS,
    LOCKED,
    MADE,
    NOBODY,
    OWN,
    PLAIN,
    Feeding,
    FilesCase,
    beside,
    chunk_fault,
    unsaved,
    unwritten,
)

MOVED = "its folder has changed"


class LinksTest(FilesCase):
    def sticky_folder(self, setting):
        """A folder like /tmp, with this setting of the system on until the test ends. The test is left out if it can't be changed."""
        setting = pathlib.Path("/proc/sys/fs", setting)
        if not os.access(setting, os.W_OK):
            self.skipTest(f"a setting of the system can't be changed: {setting}")
        # It is only ever raised: a run that is killed leaves the system no weaker.
        if setting.read_text() == "0\n":
            self.addCleanup(setting.write_text, "0\n")
            setting.write_text("1\n")
        self.path("sticky").mkdir()
        self.path("sticky").chmod(0o1777)
        return self.path("sticky")

    @needs(root=True)
    def test_planted(self):
        """Where the system guards the files of others in a sticky folder, so does the program."""
        folder = self.sticky_folder("protected_regular")
        (folder / "out").touch()
        os.chown(folder / "out", NOBODY, NOBODY)
        (folder / "out").chmod(0o666)
        self.expect(
            1,
            unwritten("sticky/out", errno.EACCES),
            "decrypt --pass pass age sticky/out",
            "somebody else's file in a sticky folder",
        )
        self.see(
            "somebody else's file in a sticky folder: empty", (folder / "out").read_bytes() == b""
        )

    @needs(root=True)
    def test_sticky(self):
        """Where the system follows no link of somebody else's, neither does the program."""
        folder = self.sticky_folder("protected_symlinks")
        self.write("target", b"an old position")
        os.symlink(self.path("target"), folder / "saved")
        os.lchown(folder / "saved", NOBODY, NOBODY)
        said = unsaved("sticky/saved", os.strerror(errno.EACCES) + OWN)
        self.expect(
            1,
            said,
            "decrypt --pass pass --save sticky/saved cut new",
            "somebody else's link in a sticky folder",
        )
        self.expect(
            1,
            unwritten("sticky/saved", errno.EACCES),
            "decrypt --pass pass cut sticky/saved",
            "somebody else's link as OUT",
        )
        self.see(
            "somebody else's link: kept",
            self.read("target") == b"an old position" and not self.is_there("new"),
        )

    def test_links(self):
        """As many links are followed as the system follows."""
        self.write("link-0", b"")
        for n in range(1, 42):
            os.symlink(f"link-{n - 1}", self.path(f"link-{n}"))
        self.expect(0, b"", "decrypt --pass pass age link-40", "40 links")
        self.see("40 links: OUT", self.read("link-0") == PLAIN)
        self.expect(
            1, unwritten("link-41", errno.ELOOP), "decrypt --pass pass age link-41", "41 links"
        )


class PositionLinksTest(FilesCase):
    def test_changing_links(self):
        """A file of `--save` that changes while the run goes on costs no other file."""
        held, old = self.read("pass"), b"an old position"
        for first in (None, old):
            for leads_to in ("pass", "out", "plain", "nothing"):
                for name, make in (("a link", os.symlink), ("a second name", os.link)):
                    if (name, leads_to) == ("a second name", "nothing"):
                        continue
                    name = f"saved became {name} of {leads_to}, {first}"
                    self.remove("saved")
                    if first:
                        self.write("saved", first)
                    feeding = Feeding(self)
                    self.remove("saved")
                    make(self.path(leads_to), self.path("saved"))
                    now = self.path("saved").lstat()
                    feeding.stops(name, chunk_fault(2) + unsaved("saved", MADE))
                    self.see(
                        f"{name}: it stays",
                        self.path("saved").lstat().st_ino == now.st_ino
                        and not self.is_there("nothing"),
                    )
                    self.see(
                        f"{name}: kept",
                        self.read("pass") == held
                        and self.read("out") == PLAIN[:131072]
                        and self.read("plain") == PLAIN,
                    )
        self.remove("saved")
        os.symlink("target", self.path("saved"))
        feeding = Feeding(self)
        self.see(
            "saved is a link: the temporary file",
            self.read("target.new") == BLANKS and not self.is_there("saved.new"),
        )
        os.symlink("pass", self.path("target"))
        feeding.stops("the target became a link", chunk_fault(2) + unsaved("saved", MADE))
        self.see(
            "the target became a link: kept",
            self.path("target").is_symlink() and self.read("pass") == held,
        )
        self.remove("target")
        self.expect(
            1, chunk_fault(2), "decrypt --pass pass --save saved cut out", "saved is a link"
        )
        self.see(
            "saved is a link: a position",
            self.path("saved").is_symlink() and self.is_position("target", 2),
        )
        self.remove("saved", "target")
        feeding = Feeding(self)
        os.mkdir(self.path("saved"))
        feeding.stops("saved became a folder", chunk_fault(2) + unsaved("saved", MADE))
        self.path("saved").rmdir()
        for first in (None, old, b"another file"):
            if first:
                self.write("saved", old)
            feeding = Feeding(self)
            self.remove("saved")
            os.mkfifo(self.path("saved")) if first != b"another file" else self.write(
                "saved", first
            )
            feeding.stops(
                f"saved became a pipe or a file, {first}", chunk_fault(2) + unsaved("saved", MADE)
            )
            self.remove("saved")
        self.write("saved", old)
        feeding = Feeding(self)
        self.remove("saved")
        feeding.stops("saved was removed", chunk_fault(2))
        self.see("saved was removed: a position", self.is_position("saved", 2))
        os.mkdir(self.path("folder"))
        os.mkdir(self.path("other"))
        self.write("other/place", b"somebody's file")
        feeding = Feeding(self, "decrypt --pass pass --save folder/place in out")
        os.rename(self.path("folder"), self.path("moved"))
        os.symlink("other", self.path("folder"))
        feeding.stops("the folder became a link", chunk_fault(2) + unsaved("folder/place", MOVED))
        self.see("the folder became a link: kept", self.read("other/place") == b"somebody's file")

    @needs("cc")
    def test_links_at_the_last_moment(self):
        """The same, between two calls of the program."""
        self.write("saved", b"an old position")
        said = unsaved("saved", LOCKED)
        self.expect(
            1,
            said,
            "decrypt --pass pass --save saved cut new",
            "saved becomes a pipe as it is opened",
            {"PIPED": 1},
        )
        self.see(
            "saved becomes a pipe as it is opened: nothing was begun",
            not self.is_there("new") and not self.is_there("saved.new"),
        )
        self.remove("saved")
        self.path("folder").mkdir()
        self.path("other").mkdir()
        self.write("other/place", b"somebody's file")
        # As OUT's first bytes are written, and as the position's are.
        for held, turn in ((None, 2), (None, 4), (b"an old position", 2), (b"an old position", 4)):
            if held:
                self.write("folder/place", held)
            name = f"the folder becomes a link at the last moment, {held}, write {turn}"
            self.expect(
                1,
                chunk_fault(2) + unsaved("folder/place", MOVED),
                "decrypt --pass pass --save folder/place cut out",
                name,
                {"SWAP": turn},
            )
            self.see(
                f"{name}: kept",
                self.read("other/place") == b"somebody's file"
                and os.listdir(self.path("other")) == ["place"],
            )
            self.path("folder").unlink()
            os.rename(self.path("moved"), self.path("folder"))
            self.remove("folder/place.new")

    @needs("cc")
    def test_turned_link(self):
        """A file of `--save` that comes to lead to one that is open isn't prepared."""
        held = self.read("pass")
        for leads_to in ("pass", "cut"):
            name = f"saved comes to lead to {leads_to}"
            self.write("saved", b"an old position")
            self.expect(
                2,
                beside("saved"),
                "decrypt --pass pass --save saved cut new",
                name,
                {"TURNED": leads_to},
            )
            self.see(
                f"{name}: kept",
                self.read("pass") == held
                and self.read("cut") == self.age[:150000]
                and not self.is_there("new"),
            )
