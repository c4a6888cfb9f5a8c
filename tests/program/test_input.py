"""What is read of IN and of the files beside it, in which order, and how far."""
import fcntl
import os
import re
import resource
import subprocess
import threading

from tests import process
from tests.case import SECONDS, needs
from tests.program.case import PLAIN, FilesCase, ProgramCase


class InputTest(FilesCase):
    def test_cut_off(self):
        """An input that becomes shorter while it is encrypted is named."""
        reader, writer = os.pipe()
        fcntl.fcntl(writer, fcntl.F_SETPIPE_SZ, 4096)
        run = self.started("encrypt --pass pass --log 4 plain /dev/stdout", stdout=writer)
        os.close(writer)
        with os.fdopen(reader, "rb") as pipe:
            pipe.read(1000)
            os.truncate(self.path("plain"), 10)
            pipe.read()
        self.ends(
            "an input that was cut off",
            run,
            0,
            b"age_tool: plain: it shrank while it was being read\n",
        )

    def test_inspected(self):
        """Of a regular file the system says how long it is, and no more is read than its header. A pipe is read to its end."""
        header = len(self.age) - 16 - len(PLAIN) - 16 * (len(PLAIN) // 65536 + 1)
        self.write("large", self.age)
        try:
            os.truncate(self.path("large"), 3 << 40)
        except OSError as error:
            self.leave_out("3 TiB", f"no file of 3 TiB can be made: {error}")
            return
        rest = (3 << 40) - header
        began = resource.getrusage(resource.RUSAGE_CHILDREN)
        told = self.tool("inspect", "large")
        ended = resource.getrusage(resource.RUSAGE_CHILDREN)
        took = ended.ru_utime + ended.ru_stime - began.ru_utime - began.ru_stime
        self.see("3 TiB: status", told.returncode == 0, told.stderr)
        self.see("3 TiB: the rest", b"\nrest %d\n" % rest in told.stdout, told.stdout)
        self.see("3 TiB: in a second of a processor", took < 1, took)
        with process.Popen(["cat", self.path("age")], stdout=subprocess.PIPE) as pipe:
            told = self.tool("inspect", "/dev/stdin", stdin=pipe.stdout)
        self.see(
            "a pipe",
            told.stdout == self.tool("inspect", "age").stdout
            and b"\nrest %d\n" % (len(self.age) - header) in told.stdout,
            told,
        )

    def test_shared(self):
        """No more than 65 bytes of a shared secret are read: a pipe that stays open isn't waited for."""
        os.mkfifo(self.path("secret"))

        def feed():
            with open(self.path("secret"), "wb") as secret:
                secret.write(bytes(65))
                secret.flush()
                done.wait(SECONDS)

        done = threading.Event()
        feeder = threading.Thread(target=feed)
        feeder.start()
        try:
            said = b"age_tool: bad shared file\nage_tool: secret: it holds more than 64 bytes\n"
            self.expect(2, said, "decrypt --shared secret age new", "65 bytes of a shared secret")
        finally:
            done.set()
            feeder.join()


class OrderTest(ProgramCase):
    @needs("strace")
    def test_order_of_opening(self):
        """What opens IN comes first, and OUT last, which exists here. No file is opened before it is its turn, or twice."""
        for name, held in (
            ("random", bytes(48)),
            ("secret", bytes(64)),
            ("script", b"end\n"),
            ("cut.age", self.age[:150_000]),
            ("out", b""),
        ):
            self.write(name, held)
        self.decrypt("--save", "position", "cut.age", "old")
        for words, names in (
            ("encrypt --pass pass --log 1 --random random plain out", "pass random plain out"),
            ("decrypt --pass pass --save saved plain.age out", "pass plain.age saved.new out"),
            (
                "resume --position position --old old --pass pass --save saved plain.age out",
                "pass position old plain.age saved.new out",
            ),
            (
                "decrypt --shared secret --save saved plain.age out",
                "secret plain.age saved.new out",
            ),
            (
                "resume --position position --old old --shared secret plain.age out",
                "secret position old plain.age out",
            ),
            ("drill --pass pass script plain.age", "pass script plain.age"),
            ("inspect plain.age", "plain.age"),
        ):
            process.run(
                ["strace", "-o", "log", "-e", "trace=open,openat", self.program, *words.split()],
                cwd=self.room,
                capture_output=True,
                timeout=SECONDS,
            )
            opened = [
                it.decode()
                for it in re.findall(rb'(?m)^open(?:at\(AT_FDCWD, |\()"([^/"]+)"', self.read("log"))
                if it != b"."
            ]
            self.see(words, opened == names.split(), opened)
