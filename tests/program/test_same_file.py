"""Refuses to read and write one file by two names: pipes, streams, devices and terminals, which the command names or a shell
redirects."""
import errno
import os
import stat

from tests.case import twice
from tests.program.case import NO_FILE, PLAIN, FilesCase, ProgramCase, reason, unsaved


class SameFileTest(FilesCase):
    def test_pipes(self):
        """A pipe or a file that two names lead to is refused, and so is one to which progress goes."""
        reader, writer = os.pipe()
        for save, out in (("/dev/fd/1", "/dev/stdout"), ("/dev/stdout", "/proc/self/fd/1")):
            self.expect(
                2, twice(save, out), f"decrypt --pass pass --save {save} cut {out}", stdout=writer
            )
        os.close(writer)
        self.see("nothing came through the pipe", os.read(reader, 1) == b"")
        os.close(reader)
        os.mkfifo(self.path("fifo"))
        os.symlink("fifo", self.path("to-fifo"))
        self.expect(2, twice("to-fifo", "fifo"), "encrypt --pass pass fifo to-fifo")
        self.expect(2, twice("to-fifo", "fifo"), "decrypt --pass pass fifo to-fifo")
        keeps_open = os.open(self.path("fifo"), os.O_RDWR)
        self.expect(2, twice("to-fifo", "fifo"), "decrypt --pass pass --save to-fifo cut fifo")
        self.expect(2, twice("to-fifo", "fifo"), "decrypt --pass pass --save to-fifo fifo new")
        os.close(keeps_open)
        self.see("no output is left", not self.is_there("new"))

    def test_streams(self):
        """Progress and a position go to no file that is OUT or standard error."""
        progress = "decrypt --progress --pass pass age"
        sealing = "encrypt --progress --pass pass --log 4 plain errors"
        for words in (
            f"{progress} /dev/stderr",
            f"{progress} errors",
            f"{progress} to-errors",
            sealing,
        ):
            said = twice(words.split()[-1], "standard error")
            self.remove("errors", "to-errors")
            os.symlink("errors", self.path("to-errors"))
            with open(self.path("errors"), "wb") as errors:
                self.expect(2, said, words, stderr=errors)
            self.see(
                f"{words}: nothing but the message",
                self.read("errors") == said,
                self.read("errors")[:100],
            )
        reader, writer = os.pipe()
        self.expect(
            2,
            b"",
            f"{progress} /dev/stdout",
            "progress through the pipe of OUT",
            stdout=writer,
            stderr=writer,
        )
        os.close(writer)
        self.see(
            "nothing but the message through the pipe",
            os.read(reader, 1000) == twice("/dev/stdout", "standard error"),
        )
        os.close(reader)
        with open("/dev/null", "wb") as null:
            self.expect(
                0, b"", f"{progress} /dev/null", "progress to a character device", stderr=null
            )
        with open(self.path("errors"), "wb") as errors:
            self.expect(0, b"", f"{progress} new", "progress to another file", stderr=errors)
        self.see("progress to another file: OUT", self.read("new") == PLAIN)
        with open(self.path("errors"), "wb") as errors:
            self.expect(
                2,
                b"",
                "decrypt --pass pass --save errors cut new",
                "a position to standard error",
                stderr=errors,
            )
        self.see(
            "a position to standard error: the message",
            self.read("errors") == twice("errors", "standard error"),
        )
        self.remove("errors", "new")
        with open(self.path("mixed"), "wb") as mixed:
            said = twice("mixed", "/dev/stdout")
            self.expect(
                2,
                said,
                "decrypt --pass pass --save mixed cut /dev/stdout",
                "a position to standard output",
                stdout=mixed,
            )
        self.see("a position to standard output: the file is empty", self.read("mixed") == b"")
        reader, writer = os.pipe()
        name = f"/dev/fd/{writer}"
        self.expect(
            1,
            unsaved(name, NO_FILE),
            f"decrypt --pass pass --save {name} cut new",
            "a position to a descriptor",
            pass_fds=(writer,),
        )
        os.close(writer)
        self.see(
            "a position to a descriptor: nothing was begun",
            os.read(reader, 1000) == b"" and not self.is_there("new"),
        )
        os.close(reader)

    def test_terminal_beside_a_device(self):
        """The terminal, whichever that is, isn't taken for a device that is none: what is said is that there is no terminal here."""
        for major, minor in ((9, 128), (10, 183), (1, 11)):
            self.remove("device")
            try:
                os.mknod(self.path("device"), stat.S_IFCHR | 0o600, os.makedev(major, minor))
            except PermissionError:
                return self.leave_out("a character device", "none can be made")
            name = f"the terminal and device {major}:{minor}"
            said = b"age_tool: 26 Read\n" + reason("open /dev/tty", errno.ENXIO)
            self.expect(1, said, "decrypt --pass /dev/tty device new", name, start_new_session=True)
        self.remove("device")
        os.mknod(self.path("device"), stat.S_IFCHR | 0o600, os.makedev(4, 64))
        self.expect(
            2,
            twice("/dev/tty", "device"),
            "decrypt --pass /dev/tty device new",
            "the terminal and another",
            start_new_session=True,
        )


class RedirectedTest(ProgramCase):
    def test_over_what_is_read(self):
        with open(self.path("plain.age"), "ab") as age:
            ended = self.decrypt("plain.age", "/dev/stdout", stdout=age)
        self.ends("appended to what is read", ended, 2, b"", twice("/dev/stdout", "plain.age"))
        self.see(
            "appended to what is read: the age file is kept", self.read("plain.age") == self.age
        )
        with open(self.path("plain.age"), "rb") as age:
            ended = self.decrypt("/dev/stdin", "plain.age", stdin=age)
        self.ends("over standard input", ended, 2, b"", twice("plain.age", "/dev/stdin"))
        self.see("over standard input: the age file is kept", self.read("plain.age") == self.age)

    def test_shared_input(self):
        """A stream that is named twice is refused before a byte of it is read; a FIFO isn't waited for."""
        self.write("after-a-line", b"a line\n" + self.age)
        with open(self.path("after-a-line"), "rb", buffering=0) as age:
            age.readline()
            self.decrypt("/dev/stdin", "back", stdin=age)
        self.see("standard input from where it stands", self.read("back") == self.plain)
        self.write("stream", b"not eaten")
        with open(self.path("stream"), "rb", buffering=0) as stream:
            ended = self.tool(
                *"encrypt --log 2 --pass /dev/stdin /dev/fd/0 fresh".split(), stdin=stream
            )
            self.ends("a stream twice", ended, 2, b"", twice("/dev/stdin", "/dev/fd/0"))
            self.see("nothing of it is read", stream.read() == b"not eaten")
        os.mkfifo(self.path("fifo"))
        self.write("script", b"end\n")
        for words in (
            "encrypt --log 2 --pass fifo ./fifo fresh",
            "decrypt --pass fifo ./fifo fresh",
            "decrypt --shared fifo ./fifo fresh",
            "resume --position fifo --old plain --pass ./fifo plain.age fresh",
            "resume --position pass --old fifo --pass ./fifo plain.age fresh",
            "drill --pass fifo script ./fifo",
            "drill --clear fifo ./fifo",
        ):
            self.ends(
                f"a FIFO twice: {words}", self.tool(*words.split()), 2, b"", twice("fifo", "./fifo")
            )
        self.ends("devices without an end", self.encrypt("2 --random /dev/zero /dev/null fresh"), 0)
