"""What another program does to OUT while a run writes it: it is removed, moved, cut off or made longer."""
import errno
import os

from tests.case import SECONDS, needs
from tests.program.case import (
    PLAIN,
    Feeding,
    FilesCase,
    as_nobody,
    unsynced,
    unwaited,
    unwritten,
    waits_for,
)

LENGTH = "another program changed its length"
REMOVED = "it was removed meanwhile"


class ChangedOutTest(FilesCase):
    def test_lost_names(self):
        """An OUT that is removed while the run goes on isn't there at the end: that is no success."""
        feeding = Feeding(self, "decrypt --pass pass in out")
        self.remove("out")
        feeding.input.write(self.age[140000:])
        feeding.stops("OUT was removed", unsynced("out", REMOVED))

    def test_moved(self):
        """What was written is whole, but isn't where OUT's name leads: a line says so."""
        for name, other in (("another name", None), ("another file in its place", b"another's")):
            feeding = Feeding(self, "decrypt --pass pass in out")
            os.rename(self.path("out"), self.path("moved"))
            if other:
                self.write("out", other)
            feeding.input.write(self.age[140000:])
            feeding.input.close()
            said = feeding.run.communicate(timeout=SECONDS)[1]
            line = b"age_tool: OUT was moved: out is another file now, or gone\n"
            self.see(
                f"OUT has {name}",
                (feeding.run.returncode, said) == (0, line) and self.read("moved") == PLAIN,
                said,
            )
        self.write("old", b"")
        os.symlink("old", self.path("link"))
        ended = self.tool(*"decrypt --pass pass age link".split())
        self.see("a link isn't moved", (ended.returncode, ended.advice) == (0, b""), ended.advice)

    def test_other_lengths(self):
        """An OUT whose length another program changes isn't what was written."""
        feeding = Feeding(self, "decrypt --pass pass in out")
        os.truncate(self.path("out"), 300000)
        feeding.input.write(self.age[140000:])
        feeding.stops("OUT was made longer", unsynced("out", LENGTH))
        self.remove("out", "in")
        feeding = Feeding(self, "decrypt --pass pass in out")
        os.truncate(self.path("out"), 10)
        feeding.input.write(self.age[140000:])
        feeding.stops("OUT was cut off", unsynced("out", LENGTH))
        self.see("OUT was cut off: no hole", self.read("out") == PLAIN[:10] + PLAIN[131072:])
        self.remove("out", "in")

    def test_harm_seen_early(self):
        """What another program does to an OUT that was there is seen before all of it is written."""
        self.large()
        os.mkfifo(self.path("in"))
        self.write("out", b"O" * 300000)
        run = self.started("decrypt --pass pass in out")
        with open(self.path("in"), "wb", buffering=0) as pipe:
            pipe.write(self.age[:140000])
            waits_for(lambda: self.path("out").stat().st_size == 131072)
            self.remove("out")
            try:
                pipe.write(self.age[140000:])
            except BrokenPipeError:
                pass
        self.ends("an old OUT was removed", run, 1, unwritten("out", REMOVED))

    def test_made_up(self):
        """A file that the system makes up has no length of its own, and takes what is written to it."""
        self.write("name", b"renamed")
        self.expect(0, b"", "encrypt --pass pass --log 4 name short")
        self.expect(0, unwaited("/proc/self/comm"), "decrypt --pass pass short /proc/self/comm")
        self.expect(
            1,
            unwritten("/proc/self/limits", errno.EACCES),
            "decrypt --pass pass short /proc/self/limits",
            **as_nobody(),
        )

    @needs("cc")
    def test_gone_as_it_is_opened(self):
        """An OUT that goes as it is opened isn't left empty, nor a link to it."""
        self.write("wrong", b"another passphrase\n")
        self.write("out", b"old text")
        self.expect(
            1,
            b"age_tool: 13 WrongKey\n",
            "decrypt --pass wrong age out",
            "an OUT that goes",
            {"GONE": 1},
        )
        self.see("an OUT that goes: nothing is left", not self.is_there("out"))
        self.write("out", b"old text")
        self.path("link").symlink_to("out")
        self.expect(0, b"", "decrypt --pass pass age link", "an OUT behind a link", {"GONE": 1})
        self.see("an OUT behind a link", self.read("link") == PLAIN)
