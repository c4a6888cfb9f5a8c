"""OUT and the file of --save with --no-clobber."""
import os

from tests.program.case import PLAIN, FilesCase, chunk_fault, refused, unsaved


class NoClobberTest(FilesCase):
    def test_no_clobber(self):
        """With --no-clobber an output that is there isn't even opened, and one that was made is removed if nothing came into it."""
        os.mkfifo(self.path("fifo"))
        for words in (
            "encrypt --no-clobber --pass pass --log 4 plain",
            "decrypt --no-clobber --pass pass --save saved age",
        ):
            self.expect(1, refused("fifo"), f"{words} fifo")
            self.expect(1, refused("cut"), f"{words} cut")
        self.see("it is kept", self.read("cut") == self.age[:150000])
        self.see("nothing is saved", not self.is_there("saved"))
        self.write("wrong", b"another\n")
        self.expect(1, b"age_tool: 13 WrongKey\n", "decrypt --no-clobber --pass wrong age new")
        self.see("a new output is gone after a wrong passphrase", not self.is_there("new"))
        self.expect(1, chunk_fault(2), "decrypt --no-clobber --pass pass --save saved cut part")
        resume = "resume --no-clobber --position saved --old part --pass pass age"
        self.expect(1, refused("plain"), f"{resume} plain")
        self.expect(0, b"", f"{resume} whole")
        self.see("a new output is whole", self.read("whole") == PLAIN)

    def test_no_clobber_of_a_position(self):
        """With --no-clobber the file of --save is left alone if it holds something, another run's position too, and isn't waited for."""
        said = b"it exists, and --no-clobber was given"
        for name, held in (
            ("age", self.age),
            ("short", b"age-position/"),
            ("line", b"\n"),
            ("another", b"age-position/v2 1 ..\n"),
        ):
            self.write(name, held)
            ended = self.tool(*f"decrypt --no-clobber --pass pass --save {name} cut new".split())
            wanted = unsaved(name, said.decode())
            self.see(
                f"{name} isn't replaced",
                (ended.returncode, ended.stderr) == (1, wanted),
                ended.stderr,
            )
            self.see(
                f"{name} is kept, and OUT isn't made",
                self.read(name) == held
                and not self.is_there("new")
                and not self.is_there(f"{name}.new"),
            )
        self.write("empty", b"")
        for name in ("empty", "new-position"):
            self.expect(
                1, chunk_fault(2), f"decrypt --no-clobber --pass pass --save {name} cut {name}.part"
            )
            self.see(f"a position replaces {name}", self.is_position(name, 2))
        self.write("cut", self.age[:80000])
        self.expect(1, chunk_fault(1), "decrypt --no-clobber --pass pass --save saved cut part")
        self.write("cut", self.age[:150000])
        resume = (
            "resume --no-clobber --pass pass --position saved --save saved --old part cut again"
        )
        self.expect(1, chunk_fault(2), resume)
        self.see("the position of this command is replaced", self.is_position("saved", 2))
        self.expect(
            1,
            unsaved("empty", said.decode()),
            resume.replace("--save saved", "--save empty").replace("again", "third"),
        )
        self.remove("part")
        self.expect(1, chunk_fault(2), "decrypt --pass pass --save short cut part")
        self.see("without --no-clobber any file is replaced", self.is_position("short", 2))

    def test_left_empty(self):
        """An OUT that a killed run left empty is said to be one."""
        for name, held, more in (
            ("empty", b"", "; it is empty: a run that was killed may have left it"),
            ("full", b"text", ""),
        ):
            self.write(name, held)
            ended = self.tool("decrypt", "--no-clobber", "--pass", "pass", "age", name)
            self.see(
                f"an output that is {name}",
                (ended.stderr, ended.advice) == (refused(name, more), b""),
                ended.stderr,
            )
