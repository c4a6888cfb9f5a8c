"""Key files and recipients of agefile, as the program age writes and reads them; and salvage."""
import os
import re
import shutil
import signal
import subprocess
import time
import unittest

from tests import process
from tests.bindings import setUpModule  # noqa: F401
from tests.case import SECONDS
from tests.program.agefile import AgefileCase, form

HAS_KEYS = shutil.which("age-keygen") is not None


@unittest.skipIf(not HAS_KEYS, "needs age-keygen and age")
class KeysTest(AgefileCase):
    """Files for keys of age-keygen, as the program age writes and reads them."""

    def setUp(self):
        super().setUp()
        for name in ("key", "other"):
            process.run(["age-keygen", "-o", self.path(name)], check=True, capture_output=True)
        self.recipient = re.search(r"age1\w+", self.path("key").read_text())[0]
        process.run(
            ["age", "-r", self.recipient, "-o", self.path("for_key"), self.path("plain")],
            check=True,
        )

    def test_identities(self):
        data = self.read("for_key")
        for what, words, given in (
            ("a file", "--identity key for_key -", b""),
            ("a pipe", "--identity key - -", data),
            ("several", "--identity other --identity key for_key -", b""),
            ("the key from standard input", "--identity - for_key -", self.read("key")),
        ):
            self.ends(
                what, self.run_agefile("decrypt", *words.split(), input=given), 0, out=self.plain
            )
        with open(self.path("for_key"), "rb") as file:
            self.ends(
                "standard input that is a file",
                self.run_agefile("decrypt", "--identity", "key", "-", "-", stdin=file),
                0,
                out=self.plain,
            )
        with open(self.path("shifted"), "wb+", buffering=0) as file:
            file.write(b"before" + data)
            file.seek(6)
            self.ends(
                "a file from a place on",
                self.run_agefile("decrypt", "--identity", "key", "-", "-", stdin=file),
                0,
                out=self.plain,
            )
        self.ends("test", self.run_agefile(*"test --identity key -".split(), input=data), 0)
        self.ends("age's words", self.run_agefile("-d", "-i", "key", input=data), 0, out=self.plain)
        os.mkfifo(self.path("fifo"))
        run = process.Popen(
            [self.agefile, *"decrypt --identity key fifo new".split()], cwd=self.room, env=self.env
        )
        with open(self.path("fifo"), "wb") as fifo:
            fifo.write(data)
        self.see("a named pipe", (run.wait(SECONDS), self.read("new")) == (0, self.plain))

    def test_refused_identities(self):
        self.write("empty", b"")
        self.write("comment", b"# nothing\n")
        data = self.read("for_key")
        for name, words, status, said, given in (
            (
                "a wrong key",
                "--identity other for_key new",
                1,
                "agefile: 13 WrongKey\nagefile: for_key: no key of other opens it\n",
                b"",
            ),
            (
                "no key's",
                "--identity key age new",
                1,
                "agefile: 12 NoMatch\nagefile: age: it isn't encrypted to a recipient of age-keygen: .*",
                b"",
            ),
            (
                "empty",
                "--identity empty for_key new",
                1,
                "agefile: empty: identity has no key: .*",
                b"",
            ),
            (
                "a comment",
                "--identity comment for_key new",
                1,
                "agefile: comment: identity has no key: .*",
                b"",
            ),
            (
                "encrypted",
                "--identity age for_key new",
                1,
                "agefile: age is an encrypted key file: decrypt it first\n",
                b"",
            ),
            (
                "endless",
                "--identity /dev/zero for_key new",
                1,
                "agefile: /dev/zero has more than 16,777,216 bytes\n",
                b"",
            ),
            (
                "none",
                "--identity none for_key new",
                1,
                "agefile: 26 Read\nagefile: can't open none: No such file or directory\n",
                b"",
            ),
            (
                "a text",
                "--identity pass for_key new",
                1,
                "agefile: pass: not a key of age-keygen, .*",
                b"",
            ),
            (
                "no file",
                "--identity key none new",
                1,
                "agefile: 26 Read\nagefile: can't open none: No such file or directory\n",
                b"",
            ),
            (
                "a part of a header",
                "--identity key - new",
                1,
                "age_tool: 8 HeadCut line \\d+\nage_tool: .*",
                data[:70],
            ),
            ("nothing", "--identity key - new", 1, "age_tool: 8 HeadCut line 1\nage_tool: .*", b""),
            (
                "no age file",
                "--identity key plain new",
                1,
                "age_tool: 1 NotAge line 1\nage_tool: plain: .*",
                b"",
            ),
            (
                "a cut file",
                "--identity key - -",
                1,
                "age_tool: 17 ChunkDamaged chunk 1\nage_tool: .*",
                data[:100_000],
            ),
        ):
            out = self.plain[:65_536] if name == "a cut file" else b""
            self.ends(
                name,
                self.run_agefile("decrypt", *words.split(), input=given),
                status,
                form(said),
                out=out,
            )
        self.see("no file was made", not self.is_there("new"))

    def test_recipients(self):
        """A file for recipients, which age reads."""
        self.write("list", f"# mine\n{self.recipient}\n".encode())
        for what, words in (
            ("one", f"--recipient {self.recipient}"),
            ("a file", "--recipients-file list"),
            ("a key's own", "--identity key"),
        ):
            self.remove("new.age")
            self.ends(what, self.run_agefile("encrypt", *words.split(), "plain", "new.age"), 0)
            by_age = process.run(
                ["age", "-d", "-i", "key", "new.age"], cwd=self.room, capture_output=True
            )
            self.see(f"age reads it: {what}", by_age.stdout == self.plain, by_age)
        run = self.run_agefile("encrypt", "--recipient", self.recipient, "-", "-", input=self.plain)
        self.see(
            "standard streams",
            process.run(
                ["age", "-d", "-i", self.path("key")], input=run.stdout, capture_output=True
            ).stdout
            == self.plain,
            run,
        )
        self.ends(
            "age's words", self.run_agefile("-r", self.recipient, "-o", "new.age", "plain"), 0
        )

    def test_refused_recipients(self):
        """Nothing is left if it fails."""
        self.write(
            "wrong",
            f"{self.recipient[:-1]}{'p' if self.recipient.endswith('q') else 'q'}\n".encode(),
        )
        listed = {*os.listdir(self.room)}
        for words, status, said in (
            ("--recipients-file wrong plain new", 1, "agefile: wrong: recipient 1: .*"),
            ("--recipients-file pass plain new", 1, "agefile: pass: recipient 1: .*"),
            (
                f"--recipient {self.recipient} none new",
                1,
                "agefile: 26 Read\nagefile: can't open none: No such file or directory\n",
            ),
            (
                f"--recipient {self.recipient} . new",
                1,
                "agefile: 26 Read\nagefile: can't (open|read) .: Is a directory\n",
            ),
            (
                f"--recipient {self.recipient} /proc/self/mem new",
                1,
                "agefile: 26 Read\nagefile: can't read /proc/self/mem: Input/output error\n",
            ),
            (
                f"--recipient {self.recipient} plain none/new",
                1,
                "agefile: 27 Write\nagefile: can't write none/new: No such file or directory\n",
            ),
            (
                f"--recipient {self.recipient} plain /dev/full",
                1,
                "agefile: 27 Write\nagefile: can't write /dev/full: No space left on device\n",
            ),
            (
                f"--recipient {self.recipient} plain plain",
                2,
                "agefile: same file named twice\nagefile: plain and plain are the same file\n",
            ),
            (
                f"--recipient {self.recipient} plain pass",
                1,
                "agefile: 27 Write\nagefile: pass exists; .*",
            ),
        ):
            self.ends(words, self.run_agefile("encrypt", *words.split()), status, form(said))
        self.see("nothing is left", {*os.listdir(self.room)} == listed, os.listdir(self.room))
        ended = self.at_terminal("encrypt", "--recipient", self.recipient, "plain", "/dev/tty")
        self.ends(
            "a terminal", ended, 1, form("agefile: 27 Write\nagefile: /dev/tty is a terminal, .*")
        )

    def test_stopped_encryption(self):
        """A signal leaves nothing of a file for recipients, and an old one as it was."""
        for number in (signal.SIGINT, signal.SIGTERM, signal.SIGHUP):
            self.write("old", b"precious")
            run = process.Popen(
                [self.agefile, *f"encrypt --overwrite --recipient {self.recipient} - old".split()],
                cwd=self.room,
                env=self.env,
                stdin=subprocess.PIPE,
                stderr=subprocess.PIPE,
            )
            run.stdin.write(bytes(200_000))
            run.stdin.flush()
            time.sleep(1)
            run.send_signal(number)
            run.wait(SECONDS)
            self.see(
                f"signal {number}",
                (run.returncode, self.read("old")) == (-number, b"precious"),
                run.returncode,
                run.stderr.read(),
            )
            for it in (run.stdin, run.stderr):
                it.close()
        self.see(
            "nothing is left",
            not [it for it in os.listdir(self.room) if "part" in it],
            os.listdir(self.room),
        )

    def test_failing_input(self):
        """If IN breaks off by a fault of the system, that is what is told, and not the cut file that age_tool was given."""
        main, terminal = os.openpty()  # (its reader gets EIO once the other side has gone)
        import tty

        tty.setraw(terminal)
        os.set_blocking(terminal, False)
        run = process.Popen(
            [self.agefile, *"decrypt --identity key - new".split()],
            cwd=self.room,
            env=self.env,
            stdin=main,
            stderr=subprocess.PIPE,
        )
        data = self.read("for_key")[:100_000]
        until = time.monotonic() + SECONDS
        while data and time.monotonic() < until:
            try:
                data = data[os.write(terminal, data[:1000]) :]
            except BlockingIOError:
                time.sleep(0.01)
        time.sleep(1)
        os.close(terminal)
        said = run.communicate(timeout=SECONDS)[1]
        os.close(main)
        wanted = b"agefile: 26 Read\nagefile: can't read standard input: Input/output error; OUT may have a part of the plaintext\n"
        self.see(
            "the read error is told", (run.returncode, said) == (1, wanted), run.returncode, said
        )

    def test_signals_while_copying(self):
        """A signal that ends what copies IN ends age_tool, too, which tells no cut file."""
        for number in (signal.SIGINT, signal.SIGTERM, signal.SIGKILL):
            self.remove("new")
            run = process.Popen(
                [self.agefile, *"decrypt --identity key - new".split()],
                cwd=self.room,
                env=self.env,
                stdin=subprocess.PIPE,
                stderr=subprocess.PIPE,
            )
            run.stdin.write(self.read("for_key")[:100_000])
            run.stdin.flush()
            until = time.monotonic() + SECONDS
            while (
                not (self.is_there("new") and len(self.read("new")) >= 65_536)
                and time.monotonic() < until
            ):
                time.sleep(0.01)
            run.send_signal(number)
            said = run.stderr.read()  # until age_tool has ended, too
            wanted = (
                b"" if number == signal.SIGKILL else f"agefile: stopped by {number.name}\n".encode()
            )
            self.see(
                f"signal {number}",
                (run.wait(SECONDS), said) == (-number, wanted),
                run.returncode,
                said,
            )
            run.stdin.close()
            run.stderr.close()

    def test_a_reader_that_stops(self):
        """What copies IN doesn't wait for more of it once age_tool has ended."""
        data = bytearray(self.read("for_key")[:70_000])
        data[1000] ^= 1
        run = process.Popen(
            [self.agefile, *"decrypt --identity key - new".split()],
            cwd=self.room,
            env=self.env,
            stdin=subprocess.PIPE,
            stderr=subprocess.PIPE,
        )
        for piece in (
            data[:60_000],
            data[60_000:],
        ):  # (the fault comes after the last of what there is)
            run.stdin.write(piece)
            run.stdin.flush()
            time.sleep(0.5)
        status, said = run.wait(SECONDS), run.stderr.read()
        self.see(
            "the fault is told",
            status == 1 and said.startswith(b"age_tool: 17 ChunkDamaged chunk "),
            said,
        )
        run.stdin.close()
        run.stderr.close()

    def test_salvage(self):
        """What opens of a damaged file gets OUT's name once it is whole, on the disk; if that fails, nothing is left."""
        data = bytearray(self.read("for_key"))
        data[-1] ^= 1
        self.write("damaged", data)
        run = self.run_agefile(*"salvage --identity key damaged saved".split())
        self.ends(
            "salvage",
            run,
            1,
            form(
                "agefile: lost: from byte 196608 to before byte 200000\nagefile: the last chunk .*"
            ),
        )
        self.see(
            "what opens", self.read("saved") == self.plain[:196_608] + bytes(200_000 - 196_608)
        )
        self.ends(
            "it exists",
            self.run_agefile(*"salvage --identity key damaged saved".split()),
            1,
            form("agefile: 27 Write\nagefile: saved exists; .*"),
        )
        self.ends(
            "a whole file",
            self.run_agefile(*"salvage --pass pass age -".split()),
            0,
            out=self.plain,
        )
        self.ends(
            "typed", self.at_terminal(*"salvage age new".split(), answers=[b"correct horse\n"]), 0
        )
        self.write("first", data[:1000])
        self.ends(
            "nothing opens",
            self.run_agefile(*"salvage --identity key first none".split()),
            1,
            b"agefile: no chunk of first opens: none is as it was\n",
        )
        self.write("log", b"precious\n")
        for words, status in (
            ("--pass pass age - >>log", 0),
            ("--pass pass age /dev/stdout >>log", 0),
            ("--pass pass age - >>age", 2),
            ("--pass pass age age", 2),
            ("--pass pass age log 2>>log", 2),
        ):
            run = process.run(
                ["bash", "-c", f'"{self.agefile}" salvage {words}'],
                cwd=self.room,
                env=self.env,
                capture_output=True,
            )
            self.see(words, run.returncode == status, run)
        self.see(
            "what was appended",
            self.read("log").startswith(b"precious\n" + 2 * self.plain)
            and self.read("age") == self.age,
        )
        self.see("nothing is left", not self.is_there("none"))
