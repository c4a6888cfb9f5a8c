"""Runs the built program on real files as the transcripts in tests/program/transcripts say, and compares its status, what it prints and what the
files then hold. What a transcript expects comes from outside, never from our own output. The case NAME of FILE.run is the test
`test_FILE_NAME`, and each of its lines that compares something is counted.

A transcript has cases, each of which starts in an empty folder. A line that begins with `#` is a comment, and ` \\` at the end of a line
joins the next one to it.

    case NAME                the lines below it, which are indented
    part NAME PARAMETER ..   lines for cases of all transcripts, with {PARAMETER} for what a `do` gives
    let NAME BYTES           a name for bytes in all transcripts

BYTES are "text" with Python's escapes, 0x00ff, a name of bytes, FILE (what it holds), FILE[3:5] (Python's slice), 7 * BYTES, or
BYTES + BYTES. The lines of a case, whose words are quoted as in a shell:

    do NAME WORD ..          the lines of a part
    write FILE BYTES         makes a file
    folder FILE              makes a folder
    soft FILE TARGET         makes a symbolic link
    hard FILE TARGET         makes a hard link
    remove FILE ..           removes files and folders
    clear                    removes all of them

    limit NUMBER             in the next run no file grows beyond this many bytes
    stdin FILE               the next run's standard input, which is empty otherwise
    pieces NUMBER BYTES      the same, by a pipe that gives at most this many bytes to each read
    stdout FILE              the next run's standard output
    stderr FILE              its standard error

    $ WORD ..                runs `age_tool WORD ..`
    | TEXT                   a line of its output, with Python's escapes; `| *` alone is any text but none
    ! TEXT                   a line of its standard error, without advice (tests/case.py); `! *` alone is any text but none
    ? NUMBER                 its status, if that isn't 0

    holds FILE BYTES         the file, or a slice of it, is these bytes
    begins FILE BYTES        it begins with them
    size FILE NUMBER         it has this many bytes
    leads FILE TARGET        it is still a symbolic link to this
    absent FILE ..           nothing has this name, not even a link
"""
import ast
import os
import pathlib
import re
import resource
import shlex
import shutil
import signal
import tempfile
import unittest

from tests.case import Case, feed

TERM = re.compile(
    r'(?:(\d+) \* )?(?:"((?:[^"\\]|\\.)*)"|0x([0-9a-f]+)|([\w./-]+)(?:\[(\d*):(\d*)\])?)'
)
# These take a word and BYTES, the others words alone.
WITH_BYTES = ("write", "pieces", "holds", "begins")


# The files in tests/program/transcripts.
FILES = ("commands", "drill", "machine", "parts", "program", "progress", "resumption", "shared")


class Transcripts:
    """What stands in some files: `let` and `part` by their names, and the cases of each file."""

    def __init__(self, paths):
        self.bytes, self.parts, self.cases = {}, {}, {}
        for path in paths:
            block = []
            for number, line in lines_of(path.read_text()):
                where = f"{path.name}:{number}"
                if line.startswith(" "):
                    block.append((where, line.strip()))
                else:
                    block = []
                    self.begin(path, where, block, *line.split(maxsplit=2))

    def begin(self, path, where, block, kind, name, rest=""):
        if kind == "case" and not rest and (path, name) not in self.cases:
            self.cases[path, name] = block
        elif kind == "part" and name not in self.parts:
            self.parts[name] = (rest.split(), block)
        elif kind == "let" and name not in self.bytes:
            self.bytes[name] = rest
        else:
            raise ValueError(f"{where}: {kind} {name}")

    def steps(self, block):
        """The lines of a block, each `do` replaced by the lines of its part."""
        for where, line in block:
            verb, _, rest = line.partition(" ")
            if verb == "do":
                yield from self.steps(self.filled(where, *shlex.split(rest)))
            else:
                yield where, verb, rest

    def filled(self, where, name, *words):
        """The lines of a part with these words."""
        parameters, block = self.parts[name]
        if len(words) != len(parameters):
            raise ValueError(f"{where}: {name} takes {len(parameters)} words")
        values = dict(zip(parameters, words))

        def put(text):
            return re.sub(r"\{(\w+)\}", lambda it: values.get(it[1], it[0]), text)

        for inner, line in block:
            # (a value stays one word of a `do`)
            yield f"{where}, {inner}", shlex.join(map(put, shlex.split(line))) if line.startswith(
                "do "
            ) else put(line)


def lines_of(text):
    """The lines that aren't comments, joined and numbered."""
    numbered = enumerate(text.splitlines(), 1)
    for number, line in numbered:
        while line.endswith(" \\"):
            line = line[:-1] + next(numbered)[1].strip()
        if line.strip() and not line.strip().startswith("#"):
            yield number, line


def unescaped(text):
    return ast.literal_eval(f'b"{text}"')


def joined(steps):
    """The steps, each run with the lines that say what is wanted of it."""
    actions = []
    for where, verb, rest in steps:
        if verb in ("|", "!", "?"):
            if not actions or actions[-1][1] != "$":
                raise ValueError(f"{where}: {verb} belongs to no run")
            actions[-1][3][verb].append(rest)
        else:
            actions.append((where, verb, rest, {"|": [], "!": [], "?": []}))
    return actions


class RunsTest(Case):
    """A test for each case of the transcripts."""

    def setUp(self):
        super().setUp()
        # What the next run is given.
        self.given = {}

    def contents(self, name):
        if self.path(name).is_file():
            return self.read(name)
        if name in TRANSCRIPTS.bytes:
            return self.value(TRANSCRIPTS.bytes[name])
        self.fail(f"no file {name}")

    def value(self, text):
        """The bytes that BYTES say."""
        data, at = b"", 0
        while term := TERM.match(text, at):
            count, quoted, digits, name, start, end = term.groups()
            if name is not None:
                piece = self.contents(name)[int(start or 0) : int(end) if end else None]
            else:
                piece = bytes.fromhex(digits) if digits else unescaped(quoted)
            data += piece * int(count or 1)
            at = term.end()
            if at == len(text):
                return data
            if not text.startswith(" + ", at):
                break
            at += len(" + ")
        raise ValueError(f"no bytes: {text}")

    def remove_all(self, names):
        for name in names:
            if self.path(name).is_dir() and not self.path(name).is_symlink():
                shutil.rmtree(self.path(name))
            else:
                self.path(name).unlink()

    def run_program(self, words, wanted):
        """Runs the program, and compares what it printed and its status."""
        given, self.given = self.given, {}
        limit = int(given.get("limit", ["-1"])[0])
        opened, thread = {}, None
        for stream, how in (
            ("stdin", os.O_RDONLY),
            ("stdout", os.O_WRONLY | os.O_CREAT),
            ("stderr", os.O_WRONLY | os.O_CREAT),
        ):
            if stream in given:
                opened[stream] = os.open(self.path(given[stream][0]), how, 0o600)
        if "pieces" in given:
            opened["stdin"], thread = feed(self.value(given["pieces"][1]), int(given["pieces"][0]))

        def confine():
            # Without the signal that would end the program, a write beyond the limit fails.
            signal.signal(signal.SIGXFSZ, signal.SIG_IGN)
            resource.setrlimit(resource.RLIMIT_FSIZE, (limit, limit))

        try:
            ended = self.tool(*words, preexec_fn=confine if limit >= 0 else None, **opened)
        finally:
            for stream in opened.values():
                os.close(stream)
            if thread:
                thread.join()
        self.compare_text("standard error", ended.stderr or b"", wanted["!"])
        self.compare_text("output", ended.stdout or b"", wanted["|"])
        self.assertEqual([str(ended.returncode)], wanted["?"] or ["0"], "status")

    def compare_text(self, what, seen, lines):
        if lines == ["*"]:
            self.assertTrue(seen, what)
        else:
            self.assertEqual(seen, b"".join(unescaped(line) + b"\n" for line in lines), what)

    def prepare(self, verb, words):
        """Makes or removes files, or keeps what the next run is given. False: the line does something else."""
        if verb == "write":
            self.path(words[0]).write_bytes(self.value(words[1]))
        elif verb == "folder":
            self.path(*words).mkdir()
        elif verb == "soft":
            self.path(words[0]).symlink_to(words[1])
        elif verb == "hard":
            os.link(self.path(words[1]), self.path(words[0]))
        elif verb == "remove":
            self.remove_all(words)
        elif verb == "clear":
            self.remove_all(os.listdir(self.room))
        elif verb in ("limit", "stdin", "pieces", "stdout", "stderr"):
            self.given[verb] = words
        else:
            return False
        return True

    def compare(self, verb, name, *words):
        """Compares what is there with what is wanted."""
        if verb == "holds":
            self.assertEqual(self.value(name), self.value(*words))
        elif verb == "begins":
            wanted = self.value(*words)
            self.assertEqual(self.contents(name)[: len(wanted)], wanted)
        elif verb == "size":
            self.assertEqual(len(self.contents(name)), int(*words))
        elif verb == "leads":
            self.assertEqual(os.readlink(self.path(name)), *words)
        elif verb == "absent":
            self.assertEqual([it for it in (name, *words) if self.is_there(it)], [])
        else:
            self.fail(f"no verb {verb}")

    def go_through(self, actions):
        """Goes through a case."""
        for where, verb, rest, wanted in actions:
            words = rest.split(maxsplit=1) if verb in WITH_BYTES else shlex.split(rest)
            if verb == "$":
                with self.subTest(f"{where}: {verb} {rest}"):
                    self.run_program(words, wanted)
            elif not self.prepare(verb, words):
                with self.subTest(f"{where}: {verb} {rest}"):
                    self.compare(verb, *words)
        self.assertEqual(self.given, {}, "what no run was given")


class LinesTest(unittest.TestCase):
    """What may stand in a transcript."""

    def transcript(self, text):
        """The cases of a transcript, with their lines joined."""
        with tempfile.TemporaryDirectory() as made:
            path = pathlib.Path(made, "it.run")
            path.write_text(text)
            told = Transcripts([path])
        return [joined(told.steps(block)) for block in told.cases.values()]

    def test_transcripts(self):
        """A case may not stand twice, and each line belongs to a run or compares something by itself."""
        self.assertEqual(
            len(self.transcript("case one\n    $ inspect\n    ? 1\ncase two\n    absent it\n")), 2
        )
        for text in (
            "case one\n    $ inspect\ncase one\n    $ inspect\n",
            "case one\n    ? 1\n",
            "case one\n    absent it\n    | text\n",
        ):
            with self.subTest(text), self.assertRaises(ValueError):
                self.transcript(text)

    def test_given_to_no_run(self):
        case = RunsTest("setUp")
        case.setUp()
        self.addCleanup(case.doCleanups)
        for line in ("limit 5", "stdin none", "stdout none"):
            case.given = {}
            with self.subTest(line), self.assertRaises(AssertionError):
                case.go_through(self.transcript(f"case one\n    {line}\n")[0])


PATHS = sorted(pathlib.Path(__file__).with_name("transcripts").glob("*.run"))
if tuple(it.stem for it in PATHS) != FILES:
    raise ValueError(f"other files than {FILES}: {PATHS}")
TRANSCRIPTS = Transcripts(PATHS)
for (path, name), block in TRANSCRIPTS.cases.items():
    setattr(
        RunsTest,
        f"test_{path.stem}_{name}",
        lambda case, block=block: case.go_through(joined(TRANSCRIPTS.steps(block))),
    )
