"""Standard input, output and error: closed, shared with other programs, non-blocking, at a terminal, or not known without /proc."""
import os
import shutil
import stat
import subprocess
import time

from tests import process
from tests.case import SECONDS, needs, twice
from tests.program.case import PLAIN, FilesCase, ProgramCase, unwritten


class StandardStreamsTest(FilesCase):
    def test_not_waiting(self):
        """A pipe that another program has made non-blocking is waited for too."""
        reader, writer = os.pipe()
        os.set_blocking(reader, False)
        first = self.started("decrypt --pass pass /dev/stdin out", stdin=reader)
        for at in range(0, len(self.age), 70000):
            time.sleep(0.1)
            os.write(writer, self.age[at : at + 1000])
            with os.fdopen(os.dup(writer), "wb") as pipe:
                pipe.write(self.age[at + 1000 : at + 70000])
        os.close(writer)
        self.ends("standard input doesn't wait", first, 0, b"")
        os.close(reader)
        self.see("standard input doesn't wait: OUT", self.read("out") == PLAIN)
        reader, writer = os.pipe()
        os.set_blocking(writer, False)
        first = self.started("decrypt --pass pass age /dev/stdout", stdout=writer)
        os.close(writer)
        held = []
        while not held or held[-1]:
            time.sleep(0.02)
            held.append(os.read(reader, 20000))
        self.ends("standard output doesn't wait", first, 0, b"")
        os.close(reader)
        self.see("standard output doesn't wait: all of it", b"".join(held) == PLAIN)

    def test_closed(self):
        """If standard streams are closed, nothing that is meant for them goes to a file."""
        self.write("wrong", b"wrong\n")
        for streams in ("<&-", ">&-", "2>&-", "<&- >&-", "<&- 2>&-", ">&- 2>&-", "<&- >&- 2>&-"):
            self.remove("saved", "out")
            words = (
                f'"{self.program}" decrypt --progress --pass pass --save saved cut out {streams}'
            )
            ended = process.run(
                ["sh", "-c", words], cwd=self.room, stderr=subprocess.DEVNULL, timeout=SECONDS
            )
            self.see(
                f"closed: {streams}",
                ended.returncode == 1
                and self.read("out") == PLAIN[:131072]
                and self.is_position("saved", 2),
            )
            words = (
                f'"{self.program}" decrypt --progress --pass wrong --save saved age out {streams}'
            )
            held = self.read("saved"), self.read("out")
            ended = process.run(
                ["sh", "-c", words], cwd=self.room, stderr=subprocess.DEVNULL, timeout=SECONDS
            )
            self.see(
                f"closed: {streams}, with a position and an OUT that are there",
                ended.returncode == 1 and (self.read("saved"), self.read("out")) == held,
            )

    def test_offsets(self):
        """What goes to standard output goes where that stands, and cuts nothing off."""
        for name, mode, before, after in (
            ("appended", "ab", b"a log\n", b""),
            ("from where it stands", "r+b", b"a log\n", b"x" * 300000),
        ):
            self.write("log", before + after)
            with open(self.path("log"), mode) as log:
                log.seek(len(before))
                self.expect(
                    0,
                    b"",
                    "decrypt --pass pass age /dev/stdout",
                    f"standard output: {name}",
                    stdout=log,
                )
            self.see(
                f"standard output: {name}: the bytes",
                self.read("log") == before + PLAIN + after[len(PLAIN) :],
            )

    def in_chroot(self, words, **more):
        """Runs the program in a folder that is its own system, without /proc."""
        return process.run(
            ["chroot", self.path("root"), "/age_tool", *words.split()],
            stderr=subprocess.PIPE,
            timeout=SECONDS,
            **more,
        )

    @needs("ldd", "chroot", root=True)
    def test_without_proc(self):
        """If the system doesn't show where the standard streams lead, they are refused: what is read could be written over."""
        root = self.path("root")
        (root / "dev").mkdir(parents=True)
        for name, leads_to in (
            ("fd", "/proc/self/fd"),
            ("stdin", "fd/0"),
            ("stdout", "fd/1"),
            ("stderr", "fd/2"),
        ):
            os.symlink(leads_to, root / "dev" / name)
        shutil.copy(self.program, root / "age_tool")
        for word in process.run(
            ["ldd", self.program], capture_output=True, text=True
        ).stdout.split():
            if word.startswith("/"):
                (root / word[1:]).parent.mkdir(parents=True, exist_ok=True)
                shutil.copy(word, root / word[1:])
        for name in ("pass", "plain", "age"):
            shutil.copy(self.path(name), root / name)
        (root / "random").write_bytes(PLAIN[:48])
        with open(root / "plain", "rb") as plain:
            ended = self.in_chroot(
                "encrypt --log 4 --pass pass --random random /dev/stdin plain", stdin=plain
            )
        self.see(
            "standard input without /proc",
            ended.returncode == 1 and (root / "plain").read_bytes() == PLAIN,
            ended,
        )
        with open(root / "out", "wb") as out:
            ended = self.in_chroot("decrypt --pass pass age /dev/stdout", stdout=out)
        said = unwritten("/dev/stdout", "/proc doesn't show where it leads")
        self.see(
            "standard output without /proc",
            (ended.returncode, ended.stderr, (root / "out").read_bytes()) == (1, said, b""),
            ended,
        )
        ended = self.in_chroot("decrypt --pass pass age new")
        self.see(
            "files without /proc",
            ended.returncode == 0 and (root / "new").read_bytes() == PLAIN,
            ended,
        )
        for made in ("fake", b"\0" * 64), ("device", None):
            name, held = made
            (root / "dev" / "urandom").unlink(missing_ok=True)
            if held:
                (root / "dev" / "urandom").write_bytes(held)
            else:
                os.mknod(root / "dev" / "urandom", stat.S_IFCHR | 0o666, os.makedev(1, 9))
            ended = self.in_chroot("encrypt --log 4 --pass pass plain new")
            if held:
                self.see(
                    "random bytes from a file",
                    ended.returncode == 1 and b"age_tool: 26 Read\n" in ended.stderr,
                    ended,
                )
            elif ended.returncode != 0:
                self.leave_out(
                    "random bytes from a device", "devices aren't for use where this runs"
                )


class SharedStreamsTest(ProgramCase):
    def test_closed_streams(self):
        for name, redirection, words, fault, what in (
            ("output", ">&-", "inspect plain.age", "27 Write", "write standard output"),
            (
                "output by its name",
                ">&-",
                "decrypt --pass pass plain.age /dev/stdout",
                "27 Write",
                "write /dev/stdout",
            ),
            (
                "input by its name",
                "<&-",
                "decrypt --pass pass /dev/stdin fresh",
                "26 Read",
                "open /dev/stdin",
            ),
            ("input", "<&-", "", "26 Read", "read standard input"),
        ):
            said = f"age_tool: {fault}\nage_tool: can't {what}: Bad file descriptor\n".encode()
            self.ends(
                f"a closed standard {name}",
                self.redirected(redirection, *words.split()),
                1,
                b"",
                said,
            )
        self.see(
            "a closed standard output: the age file is kept", self.read("plain.age") == self.age
        )

    def test_shared_output(self):
        for stream in ("/dev/stdout", "/dev/fd/1", "/proc/self/fd/1"):
            with open(self.path("among"), "wb", buffering=0) as among:
                among.write(b"HEAD\n")
                self.decrypt("plain.age", stream, stdout=among)
                among.write(b"TAIL\n")
            self.see(
                f"among other output: {stream}",
                self.read("among") == b"HEAD\n" + self.plain + b"TAIL\n",
            )
        self.write("among", b"OLD\n")
        with open(self.path("among"), "ab") as among:
            self.decrypt("plain.age", "/dev/stdout", stdout=among)
        self.see("appended", self.read("among") == b"OLD\n" + self.plain)

    def test_one_write(self):
        """The line of a fault is one write, so that two runs don't mix their lines in one log."""
        reader, writer = os.pipe2(os.O_DIRECT | os.O_CLOEXEC)
        ended = self.decrypt("pass", "back", stderr=writer)
        os.close(writer)
        # A pipe in packet mode gives one write to each read.
        first = os.read(reader, 4096)
        os.close(reader)
        self.see(
            "a fault's line is one write",
            ended.returncode == 1 and first == b"age_tool: 1 NotAge line 1\n",
            first,
        )

    def test_output_at_a_terminal(self):
        self.write("short", b"a short text\n")
        for name in ("/dev/stdout", "/dev/tty"):
            ended = self.at_terminal(f"encrypt --pass pass --log 2 short {name}")
            self.ends(
                f"an age file to a terminal: {name}",
                ended,
                2,
                b"age_tool: the output is a terminal\n",
            )
        self.encrypt("2 short short.age")
        self.ends(
            "a text to a terminal",
            self.at_terminal("decrypt --pass pass short.age /dev/stdout"),
            0,
            b"a short text\n",
        )
        self.write("random", b"0\n")
        ended = self.at_terminal("encrypt --pass pass --log 2 --random random short /dev/tty")
        self.ends(
            "a terminal, after the files of secrets",
            ended,
            2,
            b"age_tool: bad random file\nage_tool: random: it holds 2 of 48 bytes\n",
        )

    def test_errors_to_the_output(self):
        self.write("cut.age", self.age[:100_000])
        for words in ("decrypt --pass pass cut.age", "encrypt --pass pass --log 2 plain"):
            self.write("o", b"an old text\n")
            # Opened to append, so that the redirection itself changes nothing.
            with open(self.path("o"), "ab") as errors:
                self.ends(
                    f"standard error to the output: {words}",
                    self.tool(*words.split(), "o", stderr=errors),
                    2,
                )
            self.see(
                f"the output holds the message alone: {words}",
                self.read("o") == b"an old text\n" + twice("o", "standard error"),
            )
        with open(self.path("o"), "wb") as both:
            self.ends(
                "both to one file",
                self.decrypt("cut.age", "/dev/stdout", stdout=both, stderr=both),
                2,
            )
        self.see(
            "both to one file: the message alone",
            self.read("o") == twice("/dev/stdout", "standard error"),
        )
        self.ends(
            "a device for both",
            self.decrypt("plain.age", "/dev/null", stderr=subprocess.DEVNULL),
            0,
        )
