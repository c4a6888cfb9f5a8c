"""Makes each call of the system of seven commands fail, once and from then on, and looks at what is said and left: status 0 only with a complete
OUT; else the line of a fault, a beginning of OUT, and a position that `resume` completes. (strace makes a call fail.)"""
import collections
import hashlib
import itertools
import random
import re

from tests import process
from tests.case import Case, needs, without_advice
from tests.standard import (
    BLOCK,
    CHUNK,
    FAULTS,
    Position,
    chain_of,
    file_under,
    parts_of,
    position_in,
)

CALLS = "openat read pread64 write pwrite64 close fsync fdatasync ftruncate rename link unlink lseek fcntl flock statx newfstatat fstat readlink fchmod".split()
LINE = re.compile(rb"age_tool: (\d+) (\w+)(?: (?:chunk|line) \d+)?")
# The faults that a failing call may bring, and those of an age file that is truncated.
OF_CALLS, OF_CUTS = {26, 27, 28}, {17, 18, 20}


class Command:
    """Words, the files before, what OUT has to be in the end, and whether that can be reached."""

    def __init__(self, words, files, out, can_end=True):
        self.words, self.files, self.out, self.can_end = words.split(), files, out, can_end
        self.saved = self.words[self.words.index("--save") + 1] if "--save" in self.words else None


@needs("strace")
class FailingCallsTest(Case):
    def setUp(self):
        super().setUp()
        self.text, parts = random.Random(5).randbytes(200_000), random.Random(6).randbytes(48)
        self.file = file_under(b"p", 1, parts, self.text)
        front = self.file.index(b"\n--- ") + 49 + 16
        self.key, self.nonce, self.file_id, self.cut = (
            parts[:16],
            parts[32:],
            hashlib.sha256(self.file[:front]).digest(),
            self.file[: front + 2 * BLOCK + 100],
        )
        self.kept = {"pass": b"p\n", "random": parts}

    def position(self, index):
        return (
            Position(index, self.file_id, chain_of(parts_of(self.text)[:index]))
            .signed(self.key, self.nonce)
            .text()
        )

    def commands(self):
        whole, cut, decrypt = (
            {"in": self.file},
            {"in": self.cut},
            "decrypt --pass pass --save saved in out",
        )
        resume = "resume --position position --old old --pass pass --save %s in out"
        yield "encrypt", Command(
            "encrypt --pass pass --log 1 --random random in out", {"in": self.text}, self.file
        )
        yield "decrypt", Command(decrypt, whole, self.text)
        yield "decrypt over files", Command(
            decrypt, whole | {"out": b"old" * 100_000, "saved": self.position(1)}, self.text
        )
        yield "decrypt a truncated file", Command(decrypt, cut, self.text, can_end=False)
        yield "decrypt one unsynced", Command(
            f"decrypt --no-sync {decrypt[8:]}", cut, self.text, can_end=False
        )
        yield "resume", Command(
            resume % "saved",
            whole | {"position": self.position(2), "old": self.text[:140_000]},
            self.text,
        )
        yield "resume a truncated file", Command(
            resume % "position",
            cut | {"position": self.position(1), "old": self.text[:CHUNK]},
            self.text,
            can_end=False,
        )

    def traced(self, command, *options):
        """Runs a command under strace, over its files alone."""
        for it in self.room.iterdir():
            it.unlink()
        for name, held in (self.kept | command.files).items():
            self.write(name, held)
        return process.run(
            ["strace", *options, self.program, *command.words],
            cwd=self.room,
            capture_output=True,
            timeout=60,
        )

    def places(self, command):
        """The calls that a command makes once it opens its first file: each name with its number among those of that name."""
        self.traced(command, "-o", "log", "-e", f"trace={','.join(CALLS)}")
        counts, has_begun = collections.Counter(), False
        for line in self.read("log").decode(errors="replace").splitlines():
            name = line.partition("(")[0]
            has_begun |= '"pass"' in line
            if name in CALLS:
                counts[name] += 1
                if has_begun:
                    yield name, counts[name]

    def test_calls(self):
        for title, command in self.commands():
            wrong, count = [], 0
            for (name, number), more in itertools.product([*self.places(command)], ("", "+")):
                for error in ("EIO", "ENOSPC") if "write" in name else ("EIO",):
                    ended = self.traced(
                        command,
                        "-o",
                        "/dev/null",
                        "-e",
                        f"trace={name}",
                        "-e",
                        f"inject={name}:error={error}:when={number}{more}",
                    )
                    count += 1
                    wrong += [
                        (name, number, more, error, why, ended.stderr[:300])
                        for why in self.faults_of(command, ended)
                    ]
            print(f"{title}: {count} runs")
            self.see(f"{title}, {count} runs", count > 50 and not wrong, len(wrong), wrong[:5])

    def held(self, name):
        return self.read(name) if name and self.is_there(name) else None

    def faults_of(self, command, ended):
        """What is wrong with what a run said and left."""
        said, advice = without_advice(ended.stderr)
        found = [LINE.fullmatch(it) for it in said.splitlines()]
        numbers = [int(it[1]) for it in found if it and FAULTS[int(it[1]) - 1].encode() == it[2]]
        if ended.returncode == 0:
            if (
                not command.can_end
                or self.held("out") != command.out
                or self.held(command.saved) != command.files.get(command.saved)
                or numbers
            ):
                yield "0 without a complete OUT, or with a fault's line, or it changed the file of --save"
        elif ended.returncode != 1 or not numbers and said or len(numbers) > 2:
            yield f"the status is {ended.returncode}, with the faults {numbers}"
        else:
            yield from self.wrong_stop(command, numbers, advice)
        if left := [it.name for it in self.room.iterdir() if not self.is_known(it.name, command)]:
            yield f"{left} is left"

    def is_known(self, name, command):
        own = {"out", "log", command.saved} | {*self.kept} | {*command.files}
        return name in own or bool(
            re.fullmatch(rf"(?:{command.saved}|out2|resumed|rest)(?:\.new)?", name)
        )

    def wrong_stop(self, command, numbers, advice):
        """What is wrong with what a stop left. Without a line standard error itself failed."""
        before, out = command.files.get("out"), self.held("out")
        if numbers and not numbers[0] in OF_CALLS | (set() if command.can_end else OF_CUTS):
            yield f"the fault is {numbers[0]}"
        if out not in (None, b"", before) and not is_beginning(out, command.out, before):
            yield f"OUT is no beginning: {len(out)} bytes"
        saved = self.held(command.saved)
        if saved != command.files.get(command.saved):
            yield from self.wrong_position(saved, out or b"")
        elif (
            command.saved
            and numbers
            and out not in (None, b"", before)
            and len(numbers) < 2
            and b"position" not in advice
        ):
            yield "no position was saved, and nothing says so"

    def wrong_position(self, saved, out):
        """What is wrong with a position that was saved: it has to be one of this text, within OUT, from which `resume` completes it."""
        place = position_in(saved or b"")
        if place is None or saved != self.position(place.index) or len(out) < place.index * CHUNK:
            yield f"the position is {saved!r}, with {len(out)} bytes of OUT"
            return
        self.write("out2", out)
        self.write("rest", self.file)
        self.write("resumed", b"")
        self.write("position2", saved)
        ended = self.tool(
            *"resume --position position2 --old out2 --pass pass rest resumed".split()
        )
        if ended.returncode or self.read("resumed") != self.text:
            yield f"it can't be resumed from {place.index}: {ended.stderr!r}"
        self.remove("position2", "resumed", "rest", "out2")


def is_beginning(out, wanted, before):
    """Whether OUT holds a beginning of what it has to be, after which the rest of what it held may stand if that couldn't be cut off."""
    if wanted.startswith(out):
        return True
    return (
        bool(before)
        and len(out) == len(before)
        and any(wanted[:size] + before[size:] == out for size in (CHUNK, 2 * CHUNK, 3 * CHUNK))
    )
