"""The lines of --progress, and what a terminal shows of a run that takes long."""
import os
import re
import subprocess
import time

from tests import process
from tests.program.case import FilesCase, ProgramCase
from tools import terminal


class ProgressTest(ProgramCase):
    def test_what_takes_long(self):
        """From 64 MiB on: a terminal shows that the disk is waited for, and a log nothing of it; an old output is copied first, which is said with
        --progress. No second line says that no position was saved."""
        self.path("zeros").write_bytes(b"")
        os.truncate(self.path("zeros"), (64 << 20) + 100_000)
        self.encrypt("1 --no-sync zeros long.age")
        ended = self.decrypt("long.age", "back")
        self.see(
            "in a log nothing is said of the wait",
            (ended.returncode, ended.stderr) == (0, b""),
            ended.stderr,
        )
        for size, said in ((64 << 20, b"age_tool: waiting for the disk\n"), ((64 << 20) - 1, b"")):
            os.truncate(self.path("zeros"), size)
            self.ends(
                f"at a terminal, {size} bytes",
                self.on_terminal("stderr", *"encrypt --pass pass --log 1 zeros new.age".split()),
                0,
                b"",
                said,
            )
        self.remove("new.age")
        age, copying = self.read("long.age"), b"age_tool: copying part (64.0 MiB) first\n"
        for chunks, option, said in (
            (1024, "--progress", copying),
            (1024, "--no-clobber", b""),
            (1023, "--progress", b""),
        ):
            self.write("cut.age", age[: 165 + chunks * 65_552 + 1])
            self.decrypt("--no-sync", "--save", "position", "cut.age", "part")
            ended = self.tool(
                *f"resume {option} --no-sync --position position --old part --pass pass long.age new".split()
            )
            self.remove("new")
            lines = b"".join(it for it in ended.stderr.splitlines(keepends=True) if b"%" not in it)
            self.see(
                f"an old output of {chunks} chunks, {option}",
                (ended.returncode, lines) == (0, said),
                ended.stderr,
            )
        ended = self.unsaved()
        self.see(
            "a position that can't be saved",
            ended.returncode == 1 and b"no position was saved" not in ended.advice,
            ended.advice,
        )

    def shows_all(self, name, ended):
        """Counts whether there was at most a line for each percent, up to the last one of a file of 4.7 MiB."""
        *lines, last, end = ended.stderr.split(b"\r")
        shown = re.fullmatch(rb"100% of 4\.7 MiB.{21}", last) and end == b"\n"
        self.see(
            name,
            ended.returncode == 0 and shown and 0 < len(lines) <= 100,
            ended.returncode,
            len(lines),
            last,
            end,
        )

    def test_progress(self):
        large = os.urandom(5_000_000)
        self.write("large", large)
        self.shows_all(
            "progress of five megabytes",
            self.on_terminal(
                "stderr", *"encrypt --pass pass --log 10 --progress large large.age".split()
            ),
        )
        self.shows_all(
            "progress of decrypting them",
            self.on_terminal("stderr", *"decrypt --pass pass --progress large.age back".split()),
        )
        self.write("cut.age", self.age[:150_000])
        ended = self.on_terminal("stderr", *"decrypt --pass pass --progress cut.age back".split())
        self.see(
            "the line is ended before a fault's",
            ended.returncode == 1 and b"\r\nage_tool: 17 ChunkDamaged chunk 2\n" in ended.stderr,
            ended.stderr,
        )
        *lines, last = self.decrypt("--progress", "large.age", "back").stderr.splitlines()
        self.see(
            "progress in a log",
            last == b"100%  4.7 of 4.7 MiB" and 0 < len(lines) <= 10,
            lines,
            last,
        )
        self.see("there and back", self.read("back") == large)
        self.ends(
            "progress on a closed standard error",
            self.redirected("2>&-", *"decrypt --progress --pass pass large.age back".split()),
            0,
        )
        self.see("progress on a closed standard error: the text", self.read("back") == large)

    def test_progress_of_a_pipe(self):
        with process.Popen(
            ["head", "-c", "134217728", "/dev/zero"], stdout=subprocess.PIPE
        ) as zeros:
            words = "encrypt --pass pass --log 10 --progress /dev/stdin /dev/null".split()
            ended = self.on_terminal("stderr", *words, stdin=zeros.stdout)
        shown = re.fullmatch(rb"  64\.0 MiB.{21}\r 128\.0 MiB.{21}\r\n", ended.stderr)
        self.see("progress of a pipe", ended.returncode == 0 and shown, ended.stderr)
        source, sink = os.pipe()
        words = "encrypt --pass pass --log 1 --progress /dev/stdin /dev/null".split()
        run = process.Popen(
            [self.program, *words], cwd=self.room, stdin=source, stderr=subprocess.PIPE
        )
        os.write(sink, bytes(3000))
        os.close(sink)
        os.close(source)
        self.see(
            "the end of a short pipe",
            run.communicate()[1] == b"   2.9 KiB\n" and run.returncode == 0,
        )

    def test_pace(self):
        """After a second a terminal shows how much comes in each."""
        self.write("five", os.urandom(5 << 20))
        self.encrypt("1 five five.age")
        age = self.read("five.age")
        os.mkfifo(self.path("fifo"))
        ours, theirs = os.openpty()
        run = process.Popen(
            [self.program, *"decrypt --pass pass --progress fifo /dev/null".split()],
            cwd=self.room,
            stderr=theirs,
        )
        os.close(theirs)
        with open(self.path("fifo"), "wb") as fifo:
            fifo.write(age[: 3 << 20])
            fifo.flush()
            time.sleep(1.2)
            fifo.write(age[3 << 20 :])
        *_, last, end = terminal.output(ours).replace(b"\r\n", b"\n").split(b"\r")
        run.wait()
        os.close(ours)
        shown = re.fullmatch(rb"   5\.0 MiB  \d+ [KM]iB/s +", last) and len(last) == 31
        self.see("the rate of a pipe", shown and end == b"\n", last, end)


class ShorterFileTest(FilesCase):
    def test_lengths(self):
        """A line of progress says no 100 % of less than was read."""
        for name in ("/proc/self/status", "/proc/cpuinfo"):
            ended = self.tool("encrypt", "--progress", "--pass", "pass", "--log", "4", name, "out")
            self.see(
                f"progress of {name}",
                ended.returncode == 0 and b"%" not in ended.stderr and b"KiB" in ended.stderr,
                ended,
            )
