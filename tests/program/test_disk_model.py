"""Compares the calls of the built program with the definitions that its contracts cite. It records what each run does to its files, also
if a call fails (tools/shim.c), and computes what that leaves by `age_host_model/specs/Disk.antt` itself (tools/definitions.py):

- the OUT that the definitions give is the real one, so they say rightly what calls do;
- after status 0 a power cut leaves OUT as it is;
- nothing but OUT, the file of --save and the temporary file beside that is touched, wherever it is (what becomes of a position is for
  tests/program/test_power_cut.py);
- OUT is locked before it is changed, and what was written is closed before status 0;
- a run that stops before there is a byte to write leaves OUT as it was, and makes none.

A run with --no-sync has to be one after which OUT may hold anything: so the test can fail. Each run is a test."""
import errno
import pathlib
import re
import tempfile
import unittest

from tests.program import test_power_cut as cuts
from tests.case import claim, needs
from tools import definitions, shim
from tools.workspace import CRATES

READS = ["docs/PROVED.md"]
AFTER_CALL = definitions.read(CRATES / "age_host_model/specs/Disk.antt")["after_call"]
ANYTHING = "anything"
NOTHING = ("None",)
# What a disk has of the paths and files that weren't named.
OTHERS = {
    "file": NOTHING,
    "before": (),
    "bytes": b"",
    "is_durable": True,
    "is_indeterminate": False,
}
# The calls that change what a file holds, or wait for it, may fail from one of their first turns on.
TURNS = range(1, 6)
# Of the calls that are recorded: those that take a file for a run alone, and those that may change what a file holds.
LOCKS = {"lock": "Locked", "unlockable": "Unlockable"}
CHANGES = ("Wrote", "Cut", "Indeterminate")
ERRORS = (errno.EIO, errno.ENOSPC, errno.EROFS)


def table(values, other):
    return lambda key: values.get(key, other)


class Disk:
    """A disk as the definitions have it, from a real folder on. Its functions are kept as tables of the paths and files that were named."""

    def __init__(self, top):
        files = {bytes(path): path for path in top.rglob("*") if path.is_file()}
        numbers = {path: it.stat().st_ino for path, it in files.items()}
        self.paths, self.files = set(files), set(numbers.values())
        held = {numbers[path]: it.read_bytes() for path, it in files.items()}
        self.disk = {
            "file": table({path: ("Some", numbers[path]) for path in files}, OTHERS["file"]),
            "bytes": table(held, OTHERS["bytes"]),
        } | {
            field: table({}, OTHERS[field])
            for field in ("before", "is_durable", "is_indeterminate")
        }

    def do(self, call):
        self.paths |= {it for it in call[1:3] if isinstance(it, bytes)}
        self.files |= {call[2] if call[0] == "Made" else call[1]} - self.paths
        disk = AFTER_CALL(call)(self.disk)
        for keys, fields in (
            (self.paths, ("file", "before")),
            (self.files, ("bytes", "is_durable", "is_indeterminate")),
        ):
            for field in fields:
                disk[field] = table({key: disk[field](key) for key in keys}, OTHERS[field])
        self.disk = disk

    def held(self, file):
        return bytes(self.disk["bytes"](file))

    def now(self):
        found = {path: self.disk["file"](path) for path in self.paths}
        return {path: self.held(it[1]) for path, it in found.items() if it != NOTHING}

    def leads(self, path, file):
        return self.disk["file"](path) == ("Some", file)

    def may_lead(self, path):
        """The files to which a power cut may let a path lead (`MayLead`)."""
        return {self.disk["file"](path), *self.disk["before"](path)}

    def leaves(self, path):
        """What a power cut may leave at a path (`MayLeave`): bytes, None if there may be no file, ANYTHING."""
        kept = self.disk["is_durable"]
        return {
            None if it == NOTHING else self.held(it[1]) if kept(it[1]) else ANYTHING
            for it in self.may_lead(path)
        }

    def is_answer(self, call, paths):
        """Whether it is what the definitions expect of a disk, for these paths (`IsAnswered`)."""
        return call[0] != "Made" or (
            self.disk["file"](call[1]) == NOTHING
            and all(("Some", call[2]) not in self.may_lead(it) for it in paths)
        )


def calls_of(record, disk):
    """The calls of a record as the definitions name them. The disk is the one at each of them."""
    made = None
    for name, words, held in record:
        if name == "make":
            made = int(words[0])
        elif name == "link":
            yield "Made", words[1].encode(), made
        elif name == "write":
            yield "Wrote", int(words[0]), int(words[1]), held
        elif name == "cut":
            yield "Cut", int(words[0]), int(words[1])
        elif name == "sync":
            yield "Synced", int(words[0])
        elif name in LOCKS:
            yield LOCKS[name], int(words[0])
        elif name == "broke":
            yield "Indeterminate", int(words[0])
        elif name == "close":
            yield "Closed", int(words[0])
        elif name == "unlink":
            yield "Removed", words[0].encode()
        else:
            folder = pathlib.Path(words[0]).resolve()
            yield from (
                ("SyncedNames", path)
                for path in sorted(disk.paths)
                if pathlib.Path(path.decode()).parent == folder
            )


def failures():
    """The variables by which one kind of call fails, from each of its first turns on."""
    for turn in TURNS:
        yield {"WRITE": errno.EIO, "AT": turn}
        yield {"WRITE": errno.ENOSPC, "AT": turn, "EVERY": 2}
        yield {"FSYNC": errno.EIO, "ONLY": "f", "FROM": turn}
    for error in ERRORS:
        yield {"FSYNC": error, "ONLY": "d"}
        yield {"RENAME": error}
        yield {"LINK": error}
    yield {"FTRUNCATE": errno.EIO}
    yield {"FLOCK": errno.EIO}


class Run:
    """A run, what was there before and after it, and the disk that its calls give."""

    def __init__(self, room, case, failing):
        self.case, self.failing = case, failing
        folder = room.laid_out({name: room.read(held) for name, held in case.before.items()})
        self.out = bytes(folder / "out")
        saved = case.word_after("--save")
        self.saved = {bytes(folder / saved), bytes(folder / f"{saved}.new")} if saved else set()
        self.before, self.disk = files_in(folder), Disk(folder)
        self.numbers = {path: self.disk.disk["file"](path)[1] for path in self.before}
        room.path("record").write_bytes(b"")
        self.ended = room.run(
            folder, case.words, shim.loaded(RECORD=room.path("record"), **failing)
        )
        self.after = files_in(folder)
        self.record = list(cuts.calls(room.path("record")))

    def calls_of_out(self):
        """The calls about OUT, and the names of those about other files than that of --save and the temporary one beside it."""
        out = {number for path, number in self.numbers.items() if path == self.out}
        own = {number for path, number in self.numbers.items() if path in self.saved}
        ours, strays = [], []
        for call in self.record:
            name, words, _ = call
            paths = {it.encode() for it in words if it.startswith("/")}
            numbers = {int(words[0])} if words[0].isdigit() else set()
            if name == "link":
                (out if paths == {self.out} else own if paths <= self.saved else set()).update(
                    numbers
                )
            if (
                name in ("sync-names", "make")
                or paths == {self.out}
                or (numbers <= out and not paths)
            ):
                ours.append(call)
            elif not (paths <= self.saved and numbers <= own):
                strays.append(name)
        return ours, strays

    def wrong(self):
        """What is wrong with it: a sentence for each kind."""
        return sorted({f"{fault} ({self.failing})" for fault in self.faults()})

    def faults(self):
        yield from self.faults_now()
        record, strays = self.calls_of_out()
        yield from (f"{name} touches another file" for name in strays)
        locked, open_to_write = set(), set()
        for call in calls_of(record, self.disk):
            if not self.disk.is_answer(call, [self.out]):
                yield "a call that the definitions don't expect"
            if call[0] in LOCKS.values():
                locked.add(call[1])
            if call[0] in CHANGES and call[1] not in locked:
                yield "OUT may have changed before it was locked"
            if call[0] in CHANGES:
                open_to_write.add(call[1])
            elif call[0] == "Closed":
                open_to_write.discard(call[1])
            self.disk.do(call)
            yield from self.faults_now()
        if self.ended.returncode == 0 and open_to_write:
            yield "status 0, and what was written wasn't closed"
        yield from self.faults_at_end()

    def faults_now(self):
        """What no moment may show."""
        if self.case.keeps_out() and self.disk.leaves(self.out) != {self.before.get(self.out)}:
            yield "OUT may not be as it was"

    def faults_at_end(self):
        if self.disk.now().get(self.out) != self.after.get(self.out):
            yield "the OUT of the definitions isn't the real one"
        may_be_lost = self.disk.leaves(self.out) != {self.after.get(self.out)}
        if self.ended.returncode == 0 and self.case.waits() and may_be_lost:
            yield "status 0, and OUT may be lost"
        if self.ended.returncode == 0 and not self.case.waits() and not may_be_lost:
            yield "OUT can't be lost, though nothing was waited for"


def files_in(folder):
    return {bytes(path): path.read_bytes() for path in folder.rglob("*") if path.is_file()}


@needs("cc")
class CallsTest(unittest.TestCase):
    """A test for each run, with and without calls that fail."""

    @classmethod
    def setUpClass(cls):
        made = tempfile.TemporaryDirectory(dir=cuts.MEMORY)
        cls.addClassCleanup(made.cleanup)
        cls.room = cuts.Room(pathlib.Path(made.name).resolve())
        cls.runs = cls.plain = cls.calls = 0

    @classmethod
    def tearDownClass(cls):
        claim(
            "docs/PROVED.md",
            f"records {cls.runs:,} runs that wait for the disk, {cls.runs - cls.plain:,} of them with a kind of call",
        )
        print(f"calls: {cls.calls}")

    def see(self, case):
        for failing in ({}, *failures()):
            run = Run(self.room, case, failing)
            self.assertEqual(run.wrong(), [], run.ended.stderr)
            type(self).runs += 1
            type(self).plain += not failing
            type(self).calls += len(run.record)

    def see_unwaited(self, case):
        self.assertEqual(Run(self.room, case, {}).wrong(), [])


for it in cuts.cases():
    test = "test_" + re.sub(r"\W+", "_", it.name)
    setattr(CallsTest, test, lambda self, case=it: self.see(case))
    if it.status == 0:
        setattr(
            CallsTest,
            f"{test}_no_sync",
            lambda self, case=it.without_waiting(): self.see_unwaited(case),
        )
