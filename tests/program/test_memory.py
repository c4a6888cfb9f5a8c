"""Refuses each allocation of the built program in turn, alone and with all later ones, by a library that is loaded before the C library's
(tools/shim.c), while it inspects, encrypts, decrypts, resumes and drills, and while it stops and saves its position. Each run has to end
with 28, and with no OUT or an empty one; or to give what an undisturbed run gives; or to report 28 after the fault at which it stopped,
and to save nothing. A drill has printed the lines before."""
import collections
import random
import typing

from tests.case import Case, needs
from tools import shim

# So many right answers, one after another, say that no allocation is left to refuse.
LAST = 8
MEMORY = b"age_tool: 28 Memory\n"


class Left(typing.NamedTuple):
    """What a run left: its status, what it printed, and what the files `out` and `saved` then hold."""

    status: int
    output: bytes
    faults: bytes
    out: bytes
    saved: bytes

    def kind(self, wanted):
        """What this is, if an undisturbed run leaves `wanted`: None for what it may not be."""
        if self == wanted:
            return "the right answer"
        if self == Left(1, self.output, MEMORY, b"", b"") and wanted.output.startswith(self.output):
            return "28 and no output"
        if wanted.saved != b"" and self == wanted._replace(
            faults=wanted.faults + MEMORY, saved=b""
        ):
            return "28 in place of a position"
        return None


@needs("cc")
class MemoryTest(Case):
    """A test for each command."""

    ENCRYPT = "encrypt --pass pass --log 4 --random random plain out"
    RESUME = "resume --position position --old old --pass pass"

    def setUp(self):
        super().setUp()
        self.write("pass", b"correct horse")
        self.write("plain", random.Random(1).randbytes(200_000))
        self.write("random", random.Random(2).randbytes(48))
        file = self.left(self.ENCRYPT.split()).out
        self.write("age", file)
        self.write("cut", file[:150_000])
        self.tool(*"decrypt --pass pass --save position cut old".split())
        self.write(
            "script", b"piece 0 65552\npiece 65552 70000\nrestart 1\npiece 65552 134512\nend\n"
        )

    def left(self, words, **more):
        self.remove("out", "saved")
        run = self.tool(*words, **more)
        return Left(
            run.returncode,
            run.stdout,
            run.stderr,
            *(self.read(it) if self.is_there(it) else b"" for it in ("out", "saved")),
        )

    def refuse(self, words):
        """Refuses each allocation of a run in turn, with `ON` all later ones too."""
        wanted = self.left(words.split())
        for name, more in (("each", {}), ("all after each", {"ON": 1})):
            with self.subTest(f"{words}: {name}"):
                found, turn, row = collections.Counter(), 0, 0
                while row < LAST:
                    turn += 1
                    seen = self.left(words.split(), env=shim.loaded(REFUSED=turn, **more))
                    kind = seen.kind(wanted)
                    self.assertIsNotNone(kind, (turn, seen.status, seen.faults, len(seen.out)))
                    found[kind] += 1
                    row = row + 1 if seen == wanted else 0

    def test_inspect(self):
        self.refuse("inspect age")

    def test_encrypt(self):
        self.refuse(self.ENCRYPT)

    def test_decrypt(self):
        self.refuse("decrypt --pass pass age out")

    def test_resume(self):
        self.refuse(f"{self.RESUME} age out")

    def test_drill(self):
        self.refuse("drill --pass pass script age")

    def test_decrypt_that_stops(self):
        self.refuse("decrypt --pass pass --save saved cut out")

    def test_resume_that_stops(self):
        self.refuse(f"{self.RESUME} --save saved cut out")

    def test_usage(self):
        self.refuse("decrypt age out")
        self.refuse("decrypt --pass")
