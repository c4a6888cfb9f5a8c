"""Cuts the power of the built program. It records what each run does to its files, by a library that is loaded before the C library's
(tools/shim.c), and lays out each state in which a disk may be after each of these calls: of a file what was there at its last fsync,
with any part of what was written or cut since; of a folder its names at its last fsync, with the first of the changes since, up to any
of them. On each state it tries what a user would do:

- after status 0 OUT is whole: it holds the plaintext, or is a file that decrypts to it;
- a position that is there is whole, and `resume` completes from it with the text that it was saved for; with another text, or with what
  the run has left of that text, it completes or reports a fault, and never gives a wrong text;
- a position, or another file of the user's, that was there before is still there, and one that a run has saved is there once it ended;
- a run that writes nothing, as with a wrong passphrase, leaves OUT as it was;
- an OUT of `encrypt` that isn't whole is never read as another text;
- a position that the temporary file beside it already holds is one from which `resume` completes;
- the same command does the same once more, unless that file holds anything but blanks: then it says so, and leaves all as it is.

A run with --no-sync passes if its states show each fault that a lost write can have: so the test can fail. Each run is a test.
"""
import hashlib
import itertools
import os
import pathlib
import random
import re
import shutil
import subprocess
import tempfile
import typing
import unittest

from tests import built, process
from tests.case import SECONDS, claim, needs
from tools import shim

READS = ["docs/PROVED.md"]
# Nothing has to reach a real disk.
MEMORY = "/dev/shm" if os.access("/dev/shm", os.W_OK) else None
BLOCK = 4096
# What the temporary file beside the file of --save holds until it gets a position.
BLANKS = b" " * 256
CHUNK = 65536
PLAIN = random.Random(1).randbytes(2 * CHUNK + 19000)
OTHER = random.Random(2).randbytes(3 * CHUNK)
# A fault, by its number and name.
FAULT = re.compile(rb"^age_tool: \d+ [A-Z]", re.M)
# So many wrong states of a run are printed.
SHOWN = 3

LOST_OUT = "status 0, and OUT isn't whole"
LOST_FILE = "a file of the user's isn't there"
LOST_POSITION = "the position that was saved isn't there"
TORN_POSITION = "a position isn't whole"
REFUSED = "resume doesn't complete from a position"
WRONG_TEXT = "resume gives a wrong text, or reports no fault"
WRONG_FILE = "OUT is read as another text"
CHANGED_OUT = "OUT isn't as it was"
UNREPEATED = "the same command does something else"


# ---- what a disk holds


class Write(typing.NamedTuple):
    """Bytes that were written to a file."""

    at: int
    held: bytes

    def change(self, held):
        held.extend(bytes(max(0, self.at - len(held))))
        held[self.at : self.at + len(self.held)] = self.held

    def first(self):
        """The first part of it, which doesn't end with a block."""
        return Write(self.at, self.held[: len(self.held) * 2 // 5])

    def blocks(self):
        """Its part in each block of the file."""
        ends = range(self.at - self.at % BLOCK + BLOCK, self.at + len(self.held) + BLOCK, BLOCK)
        return [
            Write(
                max(end - BLOCK, self.at), self.held[max(end - BLOCK - self.at, 0) : end - self.at]
            )
            for end in ends
        ]


class Cut(typing.NamedTuple):
    """A length that was given to a file."""

    length: int

    def change(self, held):
        del held[self.length :]
        held.extend(bytes(self.length - len(held)))

    def first(self):
        return self

    def blocks(self):
        return [self]


def changed(held, changes):
    held = bytearray(held)
    for change in changes:
        change.change(held)
    return bytes(held)


class Part(typing.NamedTuple):
    """What a file may hold, and its digest."""

    held: bytes
    digest: bytes

    @staticmethod
    def of(held):
        return Part(held, hashlib.sha256(held).digest())


class File:
    """A file: what it held at its last fsync, and what was done to it since."""

    def __init__(self, held=b""):
        self.held = held
        self.since = []
        self.parts = None

    def do(self, change):
        self.since.append(change)
        self.parts = None

    def now(self):
        return changed(self.held, self.since)

    def sync(self):
        self.held = self.now()
        self.since = []
        self.parts = None

    def choices(self):
        """Some of the ways in which a part of the changes may be on the disk: none, all, the first ones, the last of these in part, one
        alone, all others, every other block, and some blocks."""
        yield []
        for n, change in enumerate(self.since):
            yield self.since[: n + 1]
            yield [*self.since[:n], change.first()]
            yield [change]
            yield self.since[:n] + self.since[n + 1 :]
        blocks = [block for change in self.since for block in change.blocks()]
        yield blocks[::2]
        yield blocks[1::2]
        chance = random.Random(len(blocks))
        for _ in range(4):
            yield [block for block in blocks if chance.random() < 0.5]

    def on_disk(self):
        """What may be on the disk, each with the length that this gives and with the length that the file now has."""
        if self.parts is None:
            length = Cut(len(self.now()))
            held = [
                changed(self.held, choice + more)
                for choice in self.choices()
                for more in ([], [length])
            ]
            parts = map(Part.of, held)
            self.parts = list({part.digest: part for part in parts}.values())
        return self.parts


class Folder:
    """A folder: its names at its last fsync, and each change to them since, by which names got a file or none."""

    def __init__(self):
        self.names = {}
        self.since = []

    def now(self):
        return self.stage(len(self.since))

    def stage(self, count):
        """The names after this many of the changes."""
        names = dict(self.names)
        for change in self.since[:count]:
            names |= change
        return {name: file for name, file in names.items() if file}

    def sync(self):
        self.names = self.now()
        self.since = []

    def on_disk(self):
        return [self.stage(count) for count in range(len(self.since) + 1)]


class Disk:
    """The folder of a run and those in it. A method does what the call of this name did."""

    def __init__(self, top):
        self.top = top
        self.files = {}
        self.folders = {top: Folder()} | {it: Folder() for it in top.rglob("*") if it.is_dir()}
        for path in top.rglob("*"):
            if path.is_file():
                self.files[path.stat().st_ino] = self.folders[path.parent].names[path.name] = File(
                    path.read_bytes()
                )

    def place(self, path):
        path = pathlib.Path(path)
        return self.folders[path.parent.resolve()], path.name

    def do(self, name, words, held):
        if name == "write":
            return self.files[int(words[0])].do(Write(int(words[1]), held))
        getattr(self, name.replace("-", "_"))(
            *(int(word) if word.isdigit() else word for word in words)
        )

    def make(self, inode):
        self.files[inode] = File()

    def cut(self, inode, length):
        self.files[inode].do(Cut(length))

    def sync(self, inode):
        self.files[inode].sync()

    def lock(self, inode):
        """A power cut leaves what it would without it."""

    unlockable = lock

    def sync_names(self, path):
        self.folders[pathlib.Path(path).resolve()].sync()

    def link(self, inode, path):
        folder, name = self.place(path)
        folder.since.append({name: self.files[inode]})

    def unlink(self, path):
        folder, name = self.place(path)
        folder.since.append({name: None})

    def rename(self, path, to):
        (folder, name), (other, other_name) = self.place(path), self.place(to)
        change = {other_name: folder.now()[name]}
        if folder is other:
            folder.since.append({name: None} | change)
        else:
            other.since.append(change)
            folder.since.append({name: None})

    def named(self, stages):
        """The files that have these names, by their paths in the folder of the run."""
        pairs = zip(self.folders, stages)
        return {
            str((path / name).relative_to(self.top)): file
            for path, names in pairs
            for name, file in names.items()
        }

    def now(self):
        return {
            name: file.now()
            for name, file in self.named([it.now() for it in self.folders.values()]).items()
        }

    def states(self):
        """Each state in which the disk may be now: parts of files by their paths."""
        for stages in itertools.product(*(it.on_disk() for it in self.folders.values())):
            named = self.named(stages)
            files = list(dict.fromkeys(named.values()))
            for parts in itertools.product(*(file.on_disk() for file in files)):
                of_file = dict(zip(files, parts))
                yield {name: of_file[file] for name, file in named.items()}


def calls(record):
    """The calls in a record: name, arguments, what was written."""
    with open(record, "rb") as lines:
        for line in lines:
            name, *words = line.decode().rstrip("\n").split("\t")
            yield name, words, lines.read(int(words[2])) if name == "write" else b""


def held_in(top):
    return {
        str(path.relative_to(top)): path.read_bytes() for path in top.rglob("*") if path.is_file()
    }


# ---- what is run


class Case(typing.NamedTuple):
    """A run: its name, its words, the files that are there before, each like one of the room, and its status. It writes OUT to `out`."""

    name: str
    words: str
    before: dict
    status: int = 0

    def word_after(self, option):
        words = self.words.split()
        return words[words.index(option) + 1] if option in words else None

    def has_wrong_pass(self):
        return "../wrong" in self.words

    def keeps_out(self):
        """It stops before there is a byte to write."""
        return self.has_wrong_pass() or self.stops_at_once()

    def stops_at_once(self):
        """It stops at chunk 0, whose position replaces nothing."""
        return "../cut-0" in self.words

    def saved(self):
        """Where it saves a position."""
        name = self.word_after("--save")
        is_there = self.stops_at_once() and name in self.before
        return name if self.status == 1 and not self.has_wrong_pass() and not is_there else None

    def is_for(self, command):
        return self.words.startswith(command)

    def waits(self):
        return "--no-sync" not in self.words

    def can_be_repeated(self):
        """It doesn't replace what it reads."""
        return self.waits() and (
            self.saved() is None or self.saved() != self.word_after("--position")
        )

    def without_waiting(self):
        return self._replace(name=f"{self.name}, --no-sync", words=f"{self.words} --no-sync")

    def kept(self):
        """What was there before and has to stay: all but the temporary file that a killed run left."""
        return {name for name, held in self.before.items() if held != "blanks"}

    def temporary(self):
        """The temporary file beside that of --save."""
        name = self.word_after("--save")
        return f"{name}.new" if name else None

    def faults_without_waiting(self):
        """What a power cut does to such a run."""
        if self.status == 0:
            return {LOST_OUT}
        if self.saved() is None:
            return set()
        return {LOST_POSITION, TORN_POSITION} | (set() if self.keeps_out() else {REFUSED})


def cases():
    """The runs, to a new OUT and over an old one, with a position beside it and in another folder."""
    encrypt = "encrypt --pass ../pass --log 1 ../plain out"
    yield Case("encrypt", encrypt, {})
    yield Case("encrypt, over OUT", encrypt, {"out": "other.age"})
    stopped = {"position": "position", "old": "old"}
    for over, out in (("", {}), (", over OUT", {"out": "other"})):
        yield Case(f"decrypt{over}", "decrypt --pass ../pass ../age out", out)
        yield Case(f"decrypt{over}, wrong passphrase", "decrypt --pass ../wrong ../age out", out, 1)
        yield Case(
            f"resume{over}",
            "resume --position position --old old --pass ../pass ../age out",
            out | stopped,
        )
        words = "resume --position position --old old --pass ../wrong ../age out"
        yield Case(f"resume{over}, wrong passphrase", words, out | stopped, 1)
        for save in ("saved", "there/saved"):
            yield from saving_cases(f"--save {save}{over}", save, out, stopped)
            yield from saving_cases(
                f"--save {save} over one{over}",
                save,
                out | {save: "position", "old": "old"},
                stopped,
            )
            words = f"resume --position {save} --old old --save {save} --pass ../pass ../cut-2 out"
            yield Case(
                f"resume --save {save} over its own{over}, stopped",
                words,
                out | {save: "position", "old": "old"},
                1,
            )
    for save in ("saved", "there/saved"):
        words = f"decrypt --save {save} --pass ../pass ../cut-2 out"
        yield Case(
            f"decrypt --save {save} over one, over its OUT, stopped",
            words,
            {"out": "old", save: "position"},
            1,
        )
    words = "decrypt --save saved --pass ../pass ../cut-2 out"
    yield Case(
        "decrypt --save saved after a killed run, stopped", words, {"saved.new": "blanks"}, 1
    )
    yield Case(
        "decrypt --save saved over one after a killed run, stopped",
        words,
        {"saved": "position", "old": "old", "saved.new": "blanks"},
        1,
    )


def saving_cases(name, save, before, stopped):
    """The runs with --save, if these files are there before."""
    decrypt = f"decrypt --save {save}"
    yield Case(f"decrypt {name}", f"{decrypt} --pass ../pass ../age out", before)
    yield Case(
        f"decrypt {name}, wrong passphrase", f"{decrypt} --pass ../wrong ../age out", before, 1
    )
    yield Case(
        f"decrypt {name}, stopped at once", f"{decrypt} --pass ../pass ../cut-0 out", before, 1
    )
    yield Case(f"decrypt {name}, stopped", f"{decrypt} --pass ../pass ../cut-2 out", before, 1)
    resume = f"resume --position position --old old --save {save}"
    yield Case(f"resume {name}", f"{resume} --pass ../pass ../age out", before | stopped)
    yield Case(
        f"resume {name}, wrong passphrase",
        f"{resume} --pass ../wrong ../age out",
        before | stopped,
        1,
    )
    yield Case(
        f"resume {name}, stopped", f"{resume} --pass ../pass ../cut-2 out", before | stopped, 1
    )


class Room:
    """A folder with what the runs read, and the folder in which they run."""

    def __init__(self, folder):
        self.folder = folder
        self.texts = {}
        for name, held in {
            "pass": b"correct horse",
            "wrong": b"battery staple",
            "plain": PLAIN,
            "other": OTHER,
            "blanks": BLANKS,
        }.items():
            self.path(name).write_bytes(held)
        self.run(folder, "encrypt --pass pass --log 1 plain age")
        self.run(folder, "encrypt --pass pass --log 1 other other.age")
        age = self.read("age")
        for chunk in range(3):
            # It ends in that chunk.
            self.path(f"cut-{chunk}").write_bytes(age[: len(age) - len(PLAIN) + chunk * CHUNK])
        self.run(folder, "decrypt --pass pass --save position cut-1 old")

    def path(self, name):
        return self.folder / name

    def read(self, name):
        return self.path(name).read_bytes()

    def laid_out(self, files):
        """The folder of a run, with these files."""
        run = self.path("run")
        shutil.rmtree(run, ignore_errors=True)
        (run / "there").mkdir(parents=True)
        for name, held in files.items():
            (run / name).write_bytes(held)
        return run

    def run(self, folder, words, env=None):
        words = [built.program(), *words.split()]
        return process.run(
            words,
            cwd=folder,
            env=env,
            stdin=subprocess.DEVNULL,
            capture_output=True,
            timeout=SECONDS,
        )

    def recorded(self, folder, words):
        """How a run ends, and its calls."""
        self.path("record").write_bytes(b"")
        ended = self.run(folder, words, shim.loaded(RECORD=self.path("record")))
        # A power cut leaves what it would without a close.
        return ended, [it for it in calls(self.path("record")) if it[0] != "close"]

    def text(self, words, **files):
        """The text that a command gives where these files are: None if it reports a fault with a number."""
        files = {name: part for name, part in files.items() if part}
        key = (words, *(part.digest for part in files.values()), *files)
        if key not in self.texts:
            folder = self.laid_out({name: part.held for name, part in files.items()})
            ended = self.run(folder, f"{words} text --no-sync")
            self.texts[key] = (
                self.read("run/text") if ended.returncode == 0 else None if is_fault(ended) else b""
            )
        return self.texts[key]

    def decrypted(self, out):
        return self.text("decrypt --pass ../pass out", out=out)

    def resumed(self, position, old):
        return self.text(
            "resume --position position --old old --pass ../pass ../age", position=position, old=old
        )


def is_fault(ended):
    """It reports one: a second one says that no position could be saved."""
    return ended.returncode == 1 and len(FAULT.findall(ended.stderr)) == 1


# ---- what a user would do


class Trial:
    """A case, its calls, how it ended, what it left, and the states that were tried. A state is parts of files by their paths."""

    def __init__(self, room, case):
        self.room = room
        self.case = case
        self.seen = set()
        self.before = {name: room.read(held) for name, held in case.before.items()}
        folder = room.laid_out(self.before)
        self.disk, whole = Disk(folder), Disk(folder)
        self.ended, self.calls = room.recorded(folder, case.words)
        self.after = held_in(folder)
        self.is_recorded = self.leads_to_what_is_left(whole)

    def leads_to_what_is_left(self, disk):
        """Whether the calls give what the run left."""
        try:
            for call in self.calls:
                disk.do(*call)
        except KeyError:
            return False
        return disk.now() == self.after

    def flaws(self):
        """What is wrong with the run itself."""
        if self.ended.returncode != self.case.status or (
            self.case.status == 1 and not is_fault(self.ended)
        ):
            return [f"it ends in {self.ended.returncode}: {self.ended.stderr!r}"]
        return (
            []
            if self.is_recorded
            else [
                "what it leaves isn't what its calls give: some aren't recorded, or are about other files"
            ]
        )

    def wrong(self):
        """What is wrong with the run, or with its states."""
        if flaws := self.flaws():
            return flaws
        found = itertools.islice(self.faults(), SHOWN)
        return [f"after {count} of {len(self.calls)} calls: {fault}" for count, fault in found]

    def missing(self):
        """What is wrong with the run, or the faults that its states should show, and don't."""
        if flaws := self.flaws():
            return flaws
        missing = self.case.faults_without_waiting()
        for _, fault in self.faults():
            missing.discard(fault)
            if not missing:
                break
        return [f"not found: {fault}" for fault in missing]

    def faults(self):
        """The faults of each state, with the number of calls that lead to it."""
        for count in range(len(self.calls) + 1):
            if count:
                self.disk.do(*self.calls[count - 1])
            is_over = count == len(self.calls)
            for state in self.new_states(is_over):
                for fault in self.faults_of(state, is_over):
                    yield count, fault

    def new_states(self, is_over):
        for state in self.disk.states():
            key = (is_over, *sorted((name, part.digest) for name, part in state.items()))
            if key not in self.seen:
                self.seen.add(key)
                yield state

    def faults_of(self, state, is_over):
        case = self.case
        held = {name: part.held for name, part in state.items()}
        if not case.kept() <= held.keys():
            yield LOST_FILE
        if case.keeps_out() and held.get("out") != self.before.get("out"):
            yield CHANGED_OUT
        if is_over and case.status == 0 and not self.is_whole(state.get("out")):
            yield LOST_OUT
        if is_over and case.saved() and held.get(case.saved()) != self.after[case.saved()]:
            yield LOST_POSITION
        if (
            case.is_for("encrypt")
            and held.get("out") != self.before.get("out")
            and self.room.decrypted(state["out"]) not in (PLAIN, None)
        ):
            yield WRONG_FILE
        for name in held:
            if name.endswith(("saved", "position")):
                yield from self.position_faults(state, name)
        made = held.get(case.temporary())
        if (
            made is not None
            and made == self.after.get(case.saved())
            and self.room.resumed(state[case.temporary()], state.get("out")) != PLAIN
        ):
            yield REFUSED
        if case.can_be_repeated() and not self.is_repeated(held):
            yield UNREPEATED

    def is_whole(self, out):
        """It holds the plaintext, or is a file that does."""
        if self.case.is_for("encrypt"):
            return out is not None and self.room.decrypted(out) == PLAIN
        return out is not None and out.held == PLAIN

    def position_faults(self, state, name):
        """What is wrong with a position: one that the run saved belongs to OUT, and one that was there before to `old`."""
        held = state[name].held
        is_old = held == self.before.get(name)
        if not is_old and held != self.after.get(name):
            yield TORN_POSITION
        texts = {old: self.room.resumed(state[name], state.get(old)) for old in ("old", "out")}
        if not set(texts.values()) <= {PLAIN, None}:
            yield WRONG_TEXT
        if texts["old" if is_old else "out"] is None and not (is_old and "old" not in state):
            yield REFUSED

    def is_repeated(self, held):
        """The same command ends as it did, and leaves what it left, once what may be somebody's is out of its way."""
        folder = self.room.laid_out(held)
        if held.get(self.case.temporary(), BLANKS) != BLANKS:
            ended = self.room.run(folder, f"{self.case.words} --no-sync")
            if (
                ended.returncode != 1
                or b"remove or rename it" not in ended.stderr
                or held_in(folder) != held
            ):
                return False
            (folder / self.case.temporary()).unlink()
        ended = self.room.run(folder, f"{self.case.words} --no-sync")
        left = held_in(folder)
        said, wanted = ended.stderr, self.ended.stderr
        if self.case.stops_at_once() and self.case.saved() in held:
            # The file is there by now, so none is saved: the fault is the same.
            said, wanted = said.splitlines()[0], wanted.splitlines()[0]
        if (ended.returncode, said) != (self.ended.returncode, wanted):
            return False
        if self.case.is_for("encrypt"):
            return self.is_whole(Part.of(left["out"]))
        return self.after.items() <= left.items()


@needs("cc")
class PowerCutTest(unittest.TestCase):
    """A test for each run, and one for each that waits for nothing."""

    @classmethod
    def setUpClass(cls):
        made = tempfile.TemporaryDirectory(dir=MEMORY)
        cls.addClassCleanup(made.cleanup)
        cls.room = Room(pathlib.Path(made.name).resolve())
        cls.runs = cls.states = cls.states_without_waiting = 0

    @classmethod
    def tearDownClass(cls):
        claim(
            "docs/PROVED.md",
            f"calls by which {cls.runs} runs of `encrypt`, `decrypt` and `resume` change files",
        )
        claim("docs/PROVED.md", f"It tries {cls.states:,} of the states")
        print(f"power cuts: {cls.states_without_waiting} states of runs with --no-sync")

    def see(self, case):
        """Tries a run in each state in which it may leave the disk."""
        trial = Trial(self.room, case)
        self.assertEqual(trial.wrong(), [])
        type(self).runs += 1
        type(self).states += len(trial.seen)

    def see_missing(self, case):
        """Tries a run that doesn't wait for the disk."""
        trial = Trial(self.room, case.without_waiting())
        self.assertEqual(trial.missing(), [])
        type(self).states_without_waiting += len(trial.seen)


for it in cases():
    test = "test_" + re.sub(r"\W+", "_", it.name)
    setattr(PowerCutTest, test, lambda self, case=it: self.see(case))
    if not it.has_wrong_pass():
        setattr(PowerCutTest, f"{test}_no_sync", lambda self, case=it: self.see_missing(case))
