"""Resumes from positions that the program saved, and from ones that Python makes."""
import os
import pathlib
import random
import subprocess

from tests import process
from tests.case import feed
from tests.format.case import (
    FILE_ID,
    KEY,
    LONG,
    POSITIONS,
    KnownFilesCase,
    file_of,
    letters,
    position,
)
from tests.standard import CHUNK

ZERO = " " + 43 * "A"


def read_by_now():
    """How many bytes this process and those that it waited for have read. (Of another's only root is told once it has ended.)"""
    return int(pathlib.Path("/proc/self/io").read_text().split()[1])


class ResumeTest(KnownFilesCase):
    def resume(self, saved, old=LONG[: 2 * CHUNK], room=-1):
        self.write("saved", saved)
        self.write("old", old)
        return self.confined(
            room, "resume", "--position", "saved", "--old", "old", "--file-key", KEY.hex()
        )

    def test_resumed(self):
        """A stop in the copy of the old text has no position, one after it the next."""
        file = file_of(LONG)
        self.write("in", file)
        for length in (131_072, 150_000, 200_000):
            self.ends(
                f"an old text of {length} bytes", self.resume(position(2), LONG[:length]), 0, LONG
            )
        self.ends(
            "an old text that is short by a byte",
            self.resume(position(2), LONG[:131_071]),
            25,
            LONG[:131_071],
        )
        for at in (0, 65_535, 65_536, 131_071, 131_072):
            old = LONG[:at] + bytes([LONG[at] ^ 1]) + LONG[at + 1 :]
            held = (0, LONG) if at == 131_072 else (31, old[:131_072])
            self.ends(
                f"an old text with another byte at {at}", self.resume(position(2), old), *held
            )
        self.ends("from the start", self.resume(position(0), b""), 0, LONG)
        for room, index in ((256, None), (131_071, None), (131_072, 2), (196_607, 2)):
            self.ends(
                f"room for {room}", self.resume(position(2), LONG, room), 27, LONG[:room], index
            )
        for length, chunk in (
            (92, 0),
            (93, 0),
            (65_643, 0),
            (65_644, 1),
            (131_195, 1),
            (131_196, 2),
        ):
            self.write("in", file[:length])
            ended = self.resume(position(2))
            self.ends(f"a file of {length} bytes", ended, 20, LONG[:131_072], 2)
            self.see(
                f"a file of {length} bytes: where it ends",
                ended.stderr.endswith(b" chunk %d\n" % chunk),
                ended.stderr,
            )
        self.write("in", file[:91] + b"x" + file[92:])
        self.ends("another file", self.resume(position(2)), 24, b"")

    def test_passes_over(self):
        """What comes before a position isn't read of a file that has places, and has any bytes; of a pipe it is read."""
        text = random.Random(1).randbytes(64 * CHUNK)
        for name, held in (("pass", b"p"), ("random", KEY + bytes(32)), ("text", text)):
            self.write(name, held)
        self.tool(*"encrypt --pass pass --log 1 --random random text sealed".split(), check=True)
        file = self.read("sealed")
        begin = len(file) - 64 * (CHUNK + 16)
        start = begin + 60 * (CHUNK + 16)
        self.decrypt(file[: start + 2 * CHUNK])
        saved, old = self.read("position"), text[: 61 * CHUNK]
        self.write("in", file)
        ended, of_file = self.counted(saved, old, "in")
        self.ends("a position far on", ended, 0, text)
        self.see("what comes before it isn't read", of_file - len(old) < 8 * CHUNK, of_file)
        with open(self.path("in"), "r+b") as sparse:
            sparse.truncate(begin)
            sparse.seek(start)
            sparse.write(file[start:])
        self.ends("a hole before it", self.counted(saved, old, "in")[0], 0, text)
        source, thread = feed(file, CHUNK)
        ended, of_pipe = self.counted(saved, old, "/dev/stdin", stdin=source)
        os.close(source)
        thread.join()
        self.ends("a pipe", ended, 0, text)
        self.see("a pipe is read from its start", of_pipe - of_file > 50 * CHUNK, of_pipe, of_file)

    def counted(self, saved, old, name, stdin=None):
        """A run that resumes, and how many bytes it read of all files."""
        self.write("saved", saved)
        self.write("old", old)
        self.remove("out", "position")
        words = (
            "resume",
            "--position",
            "saved",
            "--old",
            "old",
            "--file-key",
            KEY.hex(),
            "--save",
            "position",
            name,
            "out",
        )
        before = read_by_now()
        ended = process.run(
            [self.program, *words], cwd=self.room, stdin=stdin, stderr=subprocess.PIPE
        )
        return ended, read_by_now() - before

    def test_positions(self):
        self.write("in", file_of(LONG))
        self.ends("a position of Python", self.resume(position(2)), 0, LONG)
        chain, tag = POSITIONS[2]
        zero = 64 * "0"
        for name, forged in (
            ("another index", position(1, chain, tag)),
            ("another chain", position(2, chain=POSITIONS[1][0])),
            ("another tag", position(2, tag=tag[:-2] + "c9")),
            ("zeros", position(5, zero, zero)),
            ("zeros at 0", position(0, zero, zero)),
        ):
            self.ends(f"a position with {name}", self.resume(forged, LONG), 30, b"")
        for front in ("age-position/v2 0", "age-position/v2 3", "age-position/v2 281474976710655"):
            self.ends(
                f"a position of another file: {front}",
                self.resume(f"{front}{ZERO * 3}\n".encode()),
                24,
                b"",
            )
        for front, end in (
            ("age-position/v2 03", "\n"),
            ("age-position/v2 +3", "\n"),
            ("age-position/v2 ", "\n"),
            ("age-position/v2 281474976710656", "\n"),
            ("age-position/v2 18446744073709551616", "\n"),
            ("age-position/v2 3 ", "\n"),
            ("age-position/v1 3", "\n"),
            ("age-position/v2 3", ""),
            ("age-position/v2 3", "\n\n"),
            ("age-position/v2 3", "\r\n"),
            ("", ""),
        ):
            self.ends(
                f"no position: {front}", self.resume(f"{front}{ZERO * 3}{end}".encode()), 23, b""
            )
        self.ends(
            "low bits that no byte takes",
            self.resume(f"age-position/v2 3{ZERO * 3}"[:-1].encode() + b"B\n"),
            23,
            b"",
        )
        self.ends(
            "a position of one digest",
            self.resume(f"age-position/v1 2 {letters(FILE_ID)}\n".encode()),
            23,
            b"",
        )
