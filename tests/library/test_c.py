"""Tries the C library from C and Python: files of age_tool at the lengths that matter, files that are cut at every byte, damaged, swapped
and lengthened, wrong keys, misuse, refused memory, and 50,000 files that are damaged at random. The C programs also run under
the address sanitizer and valgrind. What is expected is what age_tool prints of the same file, or what was put in. The header's faults
are compared with docs/FAULTS.md. AGE_DAMAGED is how many files are damaged, and AGE_SEED the seed (1)."""
import os
import pathlib
import random
import re
import subprocess
import sys
import tempfile

from tests import process
from tests.bindings import (
    BLOCK,
    KEY,
    LENGTHS,
    BindingsCase,
    agefile,
    by_python,
    fault_in,
    flipped,
    plain_of,
    setUpModule,
)
from tests.case import needs
from tools.workspace import LIBRARY, TOP

READS = ["docs/FAULTS.md", "docs/LIBRARY.md"]
INCLUDE = f"-I{TOP / 'include'}"
FLAGS = ["-std=c11", "-g", "-O1", "-Wall", "-Wextra", INCLUDE]
SANITIZED = [*FLAGS, "-fsanitize=address,undefined", "-fno-sanitize-recover=all"]
STRICT = ["-std=c11", "-Wall", "-Wextra", "-Werror", INCLUDE]
VALGRIND = [
    "valgrind",
    "-q",
    "--error-exitcode=99",
    "--leak-check=full",
    "--max-stackframe=4000000",
]
SOURCES = TOP / "bindings" / "c"
# The programs in bindings/c/tests that say by their status whether all is right, with their words: for a run, and for one under valgrind.
CHECKS = {
    "work": ([], None),
    "places": ([], None),
    "header": ([], []),
    "wrapped": ([TOP / "bindings" / "tests" / "age" / "one.age"], None),
    "objects": ([], None),
    "given_up": ([], []),
    "lacking": ([], None),
    "undamaged": ([], []),
    "limit": ([], []),
    "derived": ([], None),
    "programs": ([], []),
}
# The C files over the proved calls, which the sanitizers see only if they compile them.
INNER = [SOURCES / f"{it}.c" for it in ("agefile", "once", "look")]
# Calls of a program that it has to see first.
WRAPPED = {"lacking": ["-Wl,--wrap=malloc,--wrap=realloc,--wrap=getrandom"]}
# In how many places a call may branch, or form an address, by a secret: whether a chunk's tag is right; whether the header's MAC is, and a
# stanza's tag; scrypt's look-ups; whether a secret is zero. `leak` has one of its own, by which the test is tried.
SECRETS = {
    "seal": (0, 0),
    "block": (1, 2),
    "key": (1, 1),
    "passphrase": (1, 4),
    "shared": (1, 3),
    "leak": (1, 1),
}

# Which faults are of which kind, in the order of the kinds' numbers.
KINDS = {
    "none": {0},
    "wrong key": {12, 13},
    "not whole": {*range(1, 11), *range(14, 23), 254},
    "work": {11},
    "memory": {28},
    "misuse": {253, 255},
    "system": {26, 252},
}

# What the Rust module says of faults, before the number and name.
MEANINGS = {
    "1 NotAge": "the file isn't an age file",
    "13 WrongKey": "the passphrase or key doesn't open the file",
    "17 ChunkDamaged": "the file is damaged or cut off",
    "21 Trailing": "something was appended to the file",
    "254 HeaderOrNonceCut": "the file ends in its header or just after it",
}
# What tests/damage.c has to find of a reader that is wrong on purpose.
FLAWS = {
    "ignores-end": "an end returns 0",
    "takes-cut": "an end returns 0",
    "refuses-end": "an end returns 0",
    "skips-block": "the text is",
    "any-order": "the text is",
    "writes-after": "a call that doesn't return 0",
    "forgets-fault": "a fault stays",
    "unchecked-header": "a header opens",
    "reads-past": "memory beside what was given was touched",
}


def as_reported(fault):
    """A cut header or nonce is 8 or 16 for age_tool, and 254 here; a header's fault has a line there."""
    number, place = fault
    return (254 if number in (8, 16) else number, place if number >= 17 else None)


def expected_cut(end, at):
    """What is wrong with a payload that ends after `end` bytes, of two chunks, the second of one byte."""
    chunk, rest = divmod(end, BLOCK)
    if end == at:
        return 0, None
    if rest == 0:
        return 20, chunk
    if rest < 16:
        return 18, chunk
    return (19 if rest == 16 and chunk else 17), chunk


class ProgramsCase(BindingsCase):
    """What programs in several languages print of files."""

    def by_c(self, data, size=65_536, word="pw", program=()):
        """The status, the fault and the text of a file by the C program, which reads this many bytes at a time."""
        words = [*(program or [LIBRARY / "decrypt"]), word, str(size)]
        run = process.run(words, cwd=self.room, input=data, capture_output=True)
        return (run.returncode, fault_in(run.stderr)), run.stdout

    def see_reports(self, what, program, prefix=None, texts=MEANINGS):
        """What a program prints of faults: as age_tool, or what it means first, after a prefix."""
        data = self.sealed(plain_of(131_072))
        for word, file, fault, place in (
            ("other", data, "13 WrongKey", ""),
            ("pw", flipped(data, len(data) - 1), "17 ChunkDamaged", "chunk 1"),
            ("pw", data[:-5], "17 ChunkDamaged", "chunk 1"),
            ("pw", data + b"0", "21 Trailing", ""),
            ("pw", data[:50], "254 HeaderOrNonceCut", ""),
            ("pw", b"x\n", "1 NotAge", ""),
        ):
            run = process.run([program, word], cwd=self.room, input=file, capture_output=True)
            said = run.stderr.decode().partition(": ")[2]
            line = (
                f"{fault} {place}".strip()
                if prefix is None
                else f"{prefix}{texts[fault]} ({fault}{place and ', ' + place})"
            )
            self.see(f"{what}: {fault}", (run.returncode, said) == (1, line + "\n"), run.stderr)

    def see_streams_that_fail(self, what, program):
        """A program doesn't end with 0 if it writes to a full disk, a byte or many, or reads a folder."""
        for length in (1, 200_000):
            self.write("whole", self.sealed(plain_of(length)))
            with open(self.path("whole"), "rb") as file, open("/dev/full", "wb") as full:
                run = process.run(
                    [program, "pw"], cwd=self.room, stdin=file, stdout=full, stderr=subprocess.PIPE
                )
            self.see(
                f"{what}: {length} bytes to a full disk",
                run.returncode in (1, 2) and run.stderr,
                run.returncode,
            )
        folder = os.open(self.room, os.O_RDONLY)
        run = process.run([program, "pw"], cwd=self.room, stdin=folder, capture_output=True)
        os.close(folder)
        self.see(
            f"{what}: a folder",
            run.returncode in (1, 2) and run.stderr and not run.stdout,
            run.returncode,
        )


class FilesTest(ProgramsCase):
    """What C and Python say of files."""

    def test_lengths(self):
        for length in LENGTHS:
            text = plain_of(length)
            data = self.sealed(text)
            for size in (1, 1_000, 65_536, 1 << 20) if length < 70_000 else (1_000, 65_552):
                self.see(
                    f"C: {length} bytes in pieces of {size}",
                    self.by_c(data, size) == ((0, (0, None)), text),
                )
            for size in (-1, 1_000, 65_536):
                self.see(
                    f"Python: {length} bytes in pieces of {size}",
                    by_python(data, size, passphrase="pw") == ((0, None), text),
                )
            self.see(
                f"Python: {length} bytes by the file key",
                by_python(data, file_key=KEY) == ((0, None), text),
            )

    def test_cuts(self):
        """Every cut of a file of two chunks, by one reader for each: the text is what the whole blocks hold."""
        text = plain_of(65_537)
        data = self.sealed(text)
        begin = len(data) - (BLOCK + 17)
        wrong = 0
        for end in range(len(data)):
            fault, got = by_python(data[:end], 65_536, file_key=KEY)
            want = (254, None) if end < begin else expected_cut(end - begin, len(data) - begin)
            wrong += (fault, got) != (want, text[:65_536] if end >= begin + BLOCK else b"")
        self.see(f"{wrong} of {len(data)} cuts", wrong == 0)
        for end in (
            0,
            21,
            22,
            60,
            begin - 16,
            begin - 1,
            begin,
            begin + 1,
            begin + 16,
            begin + BLOCK,
            begin + BLOCK + 1,
            begin + BLOCK + 16,
        ):
            self.see_same(data[:end], text, f"cut at {end}")

    def see_same(self, data, text, what, word="pw"):
        """C and Python say of a file what age_tool says, and write what it writes, which is a prefix of the text."""
        fault, left = self.judged(data, word)
        want = as_reported(fault)
        number, chunk = want
        got, out = self.by_c(data, 65_536, word)
        self.see(
            f"C: {what}: {got}, {len(out)} bytes, not {want}, {len(left)}",
            (got, out) == ((0 if number == 0 else 1, want), left),
        )
        got, out = by_python(data, 1_000, passphrase=word)
        self.see(f"Python: {what}", got == want and left.startswith(out), got)
        self.see(
            f"age_tool: {what}: no prefix", text.startswith(left) and (number != 0 or left == text)
        )

    def test_damage(self):
        text = plain_of(200_000)
        data = self.sealed(text)
        begin = data.index(b"\n--- ") + 5 + 43 + 1 + 16
        blocks = [data[at : at + BLOCK] for at in range(begin, len(data), BLOCK)]
        front = data[:begin]
        rnd = random.Random(7)
        for at in (3, 30, 60, 100, begin - 20, begin - 1):
            self.see_same(flipped(data, at), text, f"bit flipped at {at}")
        for number, block in enumerate(blocks):
            for at in (0, rnd.randrange(len(block)), len(block) - 1):
                self.see_same(
                    flipped(data, begin + number * BLOCK + at),
                    text,
                    f"bit flipped in block {number} at {at}",
                )
        for order in (
            [1, 0, 2, 3],
            [0, 2, 1, 3],
            [0, 1, 3, 2],
            [0, 1, 1, 2, 3],
            [0, 2, 3],
            [3],
            [],
        ):
            self.see_same(front + b"".join(blocks[it] for it in order), text, f"blocks {order}")
        for more in (b"\0", bytes(16), bytes(BLOCK), blocks[3]):
            self.see_same(data + more, text, f"{len(more)} bytes more")
        self.see_same(data, text, "another passphrase", "other")
        whole = self.sealed(plain_of(131_072))
        for more in (b"\0", bytes(16), bytes(BLOCK)):
            self.see_same(
                whole + more, plain_of(131_072), f"{len(more)} bytes after a full last chunk"
            )
        self.see("another file key", by_python(data, file_key=b"8" * 16)[0] == (14, None))

    def test_memory(self):
        """A longer file takes no more memory."""
        by_python = (
            f"import sys; sys.path.insert(0, {str(TOP / 'bindings' / 'python')!r}); import agefile\n"
            "file = agefile.open(sys.stdin.buffer, passphrase='pw')\nwhile file.read(65_536): pass"
        )
        for what, words in (
            ("C", [LIBRARY / "decrypt", "pw"]),
            ("Python", [sys.executable, "-B", "-c", by_python]),
        ):
            most = []
            for length in (65_537, 64 << 20):
                # (not by this script's memory, with which a child begins to count)
                self.path("in").write_bytes(b"")
                os.truncate(self.path("in"), length)
                self.tool("encrypt", "--pass", "pw", "--log", "1", "--no-sync", "in", "long")
                with open(self.path("long"), "rb") as file:
                    run = process.Popen(words, cwd=self.room, stdin=file, stdout=subprocess.DEVNULL)
                    _, status, used = os.wait4(run.pid, 0)
                    run.returncode = status
                self.see(f"{what}: {length} bytes: status {status}", status == 0)
                most.append(used.ru_maxrss)
            self.see(f"{what}: {most} KiB for 64 KiB and for 64 MiB", most[1] < most[0] + 1_024)


@needs("cc")
class CTest(ProgramsCase):
    """The C programs, under what looks for errors of memory, and what a C programmer reads."""

    @classmethod
    def setUpClass(cls):
        made = tempfile.TemporaryDirectory()
        cls.addClassCleanup(made.cleanup)
        sources = {it: SOURCES / "tests" / f"{it}.c" for it in (*CHECKS, "damage", "freed")} | {
            "decrypt": SOURCES / "decrypt.c"
        }
        cls.made = {}
        for kind, flags, inner in (("plain", FLAGS, []), ("sanitized", SANITIZED, INNER)):
            for name, source in sources.items():
                to = pathlib.Path(made.name) / f"{name}-{kind}"
                words = [
                    "cc",
                    *flags,
                    "-pthread",
                    *WRAPPED.get(name, []),
                    "-o",
                    to,
                    source,
                    *inner,
                    LIBRARY / "libagefile.a",
                ]
                # (the sanitizers aren't everywhere)
                if process.run(words, check=kind == "plain", capture_output=True).returncode == 0:
                    cls.made[kind, name] = to

    def made_by(self, kind, name):
        """A C program; the test is left out if it couldn't be made."""
        if (kind, name) not in self.made:
            self.skipTest("needs the sanitizers")
        return self.made[kind, name]

    def succeeds(self, what, words):
        """Counts whether a program ends with 0."""
        run = process.run(words, cwd=self.room, capture_output=True, text=True)
        self.see(what, run.returncode == 0, run.returncode, run.stdout[-500:], run.stderr[-2000:])

    def see_checks(self, kind):
        self.write("file", self.sealed(plain_of(70_000)))
        for name, (words, _) in CHECKS.items():
            self.succeeds(f"{name}, {kind}", [self.made_by(kind, name), *words])

    def see_decrypt(self, what, program):
        """Files that are whole, and that are damaged in their last byte."""
        for length in (0, 1, 65_537, 200_000):
            text = plain_of(length)
            data = self.sealed(text)
            self.see(
                f"{what}: {length} bytes",
                self.by_c(data, 1_000, program=program) == ((0, (0, None)), text),
            )
            self.see(
                f"{what}: {length} bytes, damaged",
                self.by_c(flipped(data, -1), 1_000, program=program)[0]
                == (1, (17, length // 65_536)),
            )

    def test_plain(self):
        self.see_checks("plain")
        self.see_streams_that_fail("decrypt", self.made["plain", "decrypt"])

    def test_sanitized(self):
        self.see_checks("sanitized")
        self.see_decrypt("decrypt, sanitized", [self.made_by("sanitized", "decrypt")])

    def test_freed(self):
        """The address sanitizer reports an object that is used after it was freed, whichever call does so."""
        made = self.made_by("sanitized", "freed")
        for how in ("no", "encode", "decode", "begin", "free"):
            run = process.run([made, how], capture_output=True, text=True)
            self.see(
                f"freed, and then: {how}",
                ("heap-use-after-free" in run.stderr) == (run.returncode != 0) == (how != "no"),
                run.stderr[-2000:],
            )

    @needs("valgrind")
    def test_valgrind(self):
        self.see_decrypt("decrypt under valgrind", [*VALGRIND, self.made["plain", "decrypt"]])
        self.write("file", self.sealed(plain_of(70_000)))
        for name, words in [
            *((name, words) for name, (_, words) in CHECKS.items() if words is not None),
            ("damage", ["150"]),
        ]:
            self.succeeds(f"{name} under valgrind", [*VALGRIND, self.made["plain", name], *words])

    def test_salvage(self):
        """bindings/c/salvage.c: two chunks of four are damaged, the end is cut, and another passphrase."""
        made = self.path("salvage")
        process.run(
            ["cc", *STRICT, "-O1", "-o", made, SOURCES / "salvage.c", LIBRARY / "libagefile.a"],
            check=True,
        )
        text = plain_of(200_000)
        data = bytearray(self.sealed(text))
        begin = len(data) - 200_000 - 4 * 16
        lost = "salvage: lost: from byte {} to before byte {}\n"
        bad = flipped(flipped(data, begin + 5), begin + 2 * BLOCK)
        long = plain_of(1_200_000)
        self.write("bare", b"pw")  # without a newline
        self.write("long", b"w" * 65_536 + b"\nmore")
        for what, word, given, want in (
            ("a whole file", "pw", data, (0, text, "")),
            (
                "two damaged chunks",
                "pw",
                bad,
                (
                    1,
                    bytes(65_536) + text[65_536:131_072] + bytes(65_536) + text[196_608:],
                    lost.format(0, 65_536) + lost.format(131_072, 196_608),
                ),
            ),
            (
                "a cut file",
                "pw",
                data[: begin + BLOCK + 116],
                (
                    1,
                    text[:65_536] + bytes(100),
                    lost.format(65_536, 65_636) + "salvage: the text may have been longer\n",
                ),
            ),
            (
                "a file that is longer than what a header may be",
                "bare",
                self.sealed(long),
                (0, long, ""),
            ),
            (
                "no chunk that opens",
                "pw",
                flipped(self.sealed(b"text"), -1),
                (1, b"", "salvage: no chunk opens\nsalvage: the text may have been longer\n"),
            ),
            ("another passphrase", "other", data, (1, b"", "salvage: 13 WrongKey\n")),
            ("a passphrase that is too long", "long", data, (1, b"", "salvage: 255 Misused\n")),
        ):
            run = process.run([made, word], cwd=self.room, input=given, capture_output=True)
            self.see(
                f"salvage.c: {what}",
                (run.returncode, run.stdout, run.stderr.decode()) == want,
                run.returncode,
                run.stderr,
            )
        self.see_streams_that_fail("salvage.c", made)

    @needs("valgrind")
    def test_secrets(self):
        """No branch and no address depends on a secret but what each call is known for: its answer, and scrypt's look-ups. Seen in this
        library, as this compiler made it, and not proved. valgrind's memcheck reports what depends on bytes that are marked as undefined.
        """
        made = self.path("secrets")
        words = [
            "cc",
            "-O1",
            *FLAGS,
            "-o",
            made,
            SOURCES / "tests" / "secrets.c",
            LIBRARY / "libagefile.a",
        ]
        run = process.run(words, capture_output=True, text=True)
        if run.returncode != 0 and "memcheck.h" in run.stderr:
            self.leave_out("secrets", "needs valgrind's memcheck.h")
            return
        self.see("the program", run.returncode == 0, run.stderr)
        for what, (least, most) in SECRETS.items():
            run = process.run(
                ["valgrind", "--error-limit=no", made, what], capture_output=True, text=True
            )
            found = re.search(r"ERROR SUMMARY: \d+ errors from (\d+) contexts", run.stderr)
            places = int(found[1]) if found else -1
            self.see(
                f"secrets in {what}: {places} places",
                run.returncode == 0 and least <= places <= most,
                run.stdout,
                run.stderr[-3000:],
            )

    def test_stack(self):
        self.write("file", self.sealed(plain_of(70_000)))
        made = self.path("stack")
        process.run(
            [
                "cc",
                *FLAGS,
                "-o",
                made,
                SOURCES / "tests" / "stack.c",
                LIBRARY / "libagefile.a",
                "-lpthread",
            ],
            check=True,
        )
        self.succeeds("stack", [made, "file"])

    @needs("c++")
    def test_header_in_cpp(self):
        for std in ("c++98", "c++11", "c++17"):
            words = [
                "c++",
                f"-std={std}",
                "-Wall",
                "-Wextra",
                "-Werror",
                "-fsyntax-only",
                "-x",
                "c++",
                TOP / "include" / "agefile.h",
            ]
            self.succeeds(f"the header in {std}", words)

    def damage(self, *words):
        """Damages files at random: how that ended, and how often each rule didn't hold."""
        program = self.made.get(("sanitized", "damage")) or self.made["plain", "damage"]
        run = process.run([program, *words], capture_output=True, text=True)
        return run, {
            rule: int(times)
            for times, rule in re.findall(r"^wrong (\d+) times: (.*)$", run.stdout, re.M)
        }

    def test_damaged(self):
        run, rules = self.damage(
            os.environ.get("AGE_DAMAGED") or "50000", os.environ.get("AGE_SEED") or "1"
        )
        print(run.stdout, end="")
        for rule, times in rules.items():
            self.see(f"damaged files: {rule}", times == 0, times)
        self.see(
            "damaged files: status",
            run.returncode == 0 and rules,
            run.returncode,
            run.stderr[-2000:],
        )

    def test_damaged_and_a_wrong_reader(self):
        """Readers that are wrong on purpose are found out."""
        for flaw, rule in FLAWS.items():
            run, rules = self.damage("2000", "1", flaw)
            broken = [it for it, times in rules.items() if times]
            found = any(it.startswith(rule) for it in broken) or rule in run.stdout and not rules
            self.see(
                f"damaged files: {flaw}",
                run.returncode == 1 and found,
                run.returncode,
                run.stdout,
                run.stderr[-2000:],
            )
        run, _ = self.damage("1", "1", "?")
        self.see(
            "the flaws",
            run.returncode == 2 and set(run.stderr.partition(" one of ")[2].split()) == set(FLAWS),
            run.stderr,
        )

    def test_reports(self):
        self.see_reports("C", LIBRARY / "decrypt")

    def test_names(self):
        """The header has the faults of docs/FAULTS.md, each has a name, a sentence and a kind, and a compiler warns of an answer that isn't looked at."""
        listed = {
            int(it[0]): it[1]
            for it in re.findall(
                r"^\| (\d+) \| (\w+) \|", (TOP / "docs" / "FAULTS.md").read_text(), re.M
            )
        }
        header = (TOP / "include" / "agefile.h").read_text()
        # (a cut header or nonce, 8 and 16 of age_tool, is 254 here, and 23 and up but 28 are of its files)
        returned = {
            number: name
            for number, name in listed.items()
            if (number < 23 or number == 28) and number not in (8, 16)
        }
        returned |= {
            26: "NoRandom",
            252: "NoProcessor",
            253: "NoRoom",
            254: "CutInHeader",
            255: "Misused",
        }
        wanted = {
            re.sub(r"(?<=[a-z])(?=[A-Z])", "_", name).upper(): number
            for number, name in returned.items()
        }
        defined = {
            name: int(number)
            for name, number in re.findall(r"^    AGEFILE_(\w+) = (\d+),?$", header, re.M)
        }
        self.see(
            "the faults of agefile.h",
            len(listed) == 31 and wanted == defined,
            wanted.items() ^ defined.items(),
        )
        named = {number: name for number, name in listed.items() if number < 23 or number == 28}
        named |= {
            0: "Ok",
            26: "NoRandom",
            252: "NoProcessor",
            253: "NoRoom",
            254: "HeaderOrNonceCut",
            255: "Misused",
        }
        old = {number: name for number, name in named.items() if number not in (0, 26, 252, 253)}
        self.see(
            "the faults of the Python module",
            {number: agefile.AgeError(number).name for number in old} == old,
        )
        words = ["cc", *STRICT, "-x", "c", "-", "-o", self.path("names")]
        program = (
            '#include "agefile.h"\n#include <stdio.h>\nint main(void) { for (int i = -1; i < 257; i++) '
            'printf("%d %s %d %s\\n", i, agefile_fault_name(i), agefile_fault_kind(i), agefile_fault_text(i)); }\n'
        )
        run = process.run(
            [*words, "-x", "none", LIBRARY / "libagefile.a"],
            input=program,
            capture_output=True,
            text=True,
        )
        self.see("the names of the faults", run.returncode == 0, run.stderr)
        if run.returncode == 0:
            printed = [
                it.split(" ", 3)
                for it in process.run(
                    [self.path("names")], capture_output=True, text=True
                ).stdout.splitlines()
            ]
            self.see(
                "the names of the faults",
                {int(it[0]): it[1] for it in printed if it[1] != "Unknown"} == named,
                printed,
            )
            kinds = {
                name: {int(it[0]) for it in printed if it[2] == str(kind) and it[1] != "Unknown"}
                for kind, name in enumerate(KINDS)
            }
            self.see("the kinds of the faults", kinds == KINDS, kinds)
            self.see(
                "a sentence of each",
                all(it[3] for it in printed)
                and len({it[3] for it in printed if it[1] != "Unknown"}) > 20,
                printed,
            )
        # What was forgotten once, and sealed one file's text into the next, can't be written: what an encoder holds isn't shown.
        forgotten = '#include "agefile.h"\n#include <string.h>\nvoid f(agefile_encoder *e, agefile_decoder *d) {{ {} }}\n'
        for what, line, status in (
            ("a field", "e->held = 0;", 1),
            ("a field of a decoder", "d->reader.state = 1;", 1),
            ("a copy", "agefile_encoder other = *e; (void)other;", 1),
            ("an object of the caller's", "memset(e, 0, sizeof *e);", 1),
            ("calls", "agefile_encoder_free(e), agefile_decoder_free(d);", 0),
        ):
            run = process.run(
                [*words[:-1], "/dev/null", "-c"],
                input=forgotten.format(line),
                capture_output=True,
                text=True,
            )
            self.see(
                f"a program that uses {what}",
                run.returncode == status and (status == 0 or "incomplete" in run.stderr),
                run.stderr,
            )
        ignored = '#include "agefile.h"\nvoid f(agefile_encoder *e, void *b, size_t *w) {{ {0}agefile_encode_end(e, b, 0, w){1}; }}\n'
        for what, how, status in (("ignored", ("", ""), 1), ("looked at", ("if (", ") {}"), 0)):
            run = process.run(
                [*words[:-1], "/dev/null", "-c"],
                input=ignored.format(*how),
                capture_output=True,
                text=True,
            )
            self.see(
                f"an answer that is {what}",
                run.returncode == status and (status == 0 or "agefile_encode_end" in run.stderr),
                run.stderr,
            )

    def test_sample(self):
        """The reader in the head of agefile.h, made a program, whose argument is the passphrase."""
        head = (TOP / "include" / "agefile.h").read_text()
        sample = "\n".join(line.removeprefix(" *") for line in head.split("\n *\n")[1].splitlines())
        begin = (
            "int main(int argc, char **argv) { const char *pass = argv[argc - 1]; size_t pass_len = strlen(pass), have, n; "
            "static char in[1 << 20], out[(1 << 20) + 65536];"
        )
        end = 'if (answer) fprintf(stderr, "%d %s\\n", answer, agefile_fault_name(answer));'
        program = (
            '#include "agefile.h"\n#include <stdio.h>\n#include <string.h>\n'
            + f"{begin}\n{sample}\n{end}\nreturn answer != 0; }}\n"
        )
        self.path("sample.c").write_text(program)
        words = ["cc", *STRICT, "-o", self.path("sample"), self.path("sample.c")]
        run = process.run([*words, LIBRARY / "libagefile.a"], capture_output=True, text=True)
        self.see("the sample in agefile.h", run.returncode == 0, run.stderr)
        if run.returncode == 0:
            for length in (*LENGTHS, 1_200_000):
                text = plain_of(length)
                run = process.run(
                    [self.path("sample"), "pw"], input=self.sealed(text), capture_output=True
                )
                self.see(
                    f"the sample in agefile.h: {length} bytes",
                    (run.returncode, run.stdout) == (0, text),
                    run.stderr,
                )
            run = process.run(
                [self.path("sample"), "pw"], input=self.sealed(text)[:-1], capture_output=True
            )
            is_cut = (run.returncode, run.stderr, run.stdout) == (
                1,
                b"17 ChunkDamaged\n",
                text[: 18 * 65_536],
            )
            self.see("the sample in agefile.h, a cut file", is_cut, run.stderr)

    def test_shared_library(self):
        """A C program that is linked with the shared library, which is found by the name that it was given."""
        made = self.path("decrypt-shared")
        words = [
            "cc",
            INCLUDE,
            "-o",
            made,
            SOURCES / "decrypt.c",
            f"-L{LIBRARY}",
            "-lagefile",
            f"-Wl,-rpath,{LIBRARY}",
        ]
        run = process.run(words, capture_output=True, text=True)
        self.see("linking with the shared library", run.returncode == 0, run.stderr)
        taken = process.run(
            ["nm", "-D", "--undefined-only", "-j", LIBRARY / "libagefile.so"],
            capture_output=True,
            text=True,
        ).stdout.split()
        allowed = {
            "malloc",
            "realloc",
            "free",
            "memcpy",
            "memmove",
            "memset",
            "explicit_bzero",
            "getrandom",
            "__errno_location",
        }
        self.see(
            f"the shared library calls {taken}, not {allowed}",
            {it.partition("@")[0] for it in taken} == allowed,
        )
        shown = process.run(
            ["nm", "-D", "--defined-only", "-j", LIBRARY / "libagefile.so"],
            capture_output=True,
            text=True,
        ).stdout.split()
        shown = [it.partition("@")[0] for it in shown if it != "AGEFILE_2"]
        promised = re.findall(r"(?m)^(\w+) [0-9.]+$", (SOURCES / "agefile.symbols").read_text())
        header = (TOP / "include" / "agefile.h").read_text()
        declared = re.findall(
            r"(?m)^(?:AGEFILE_MUST_CHECK )?[a-z_0-9 ]+[ *\n](agefile_\w+)\(", header
        )
        self.see(
            "the calls of the library, of its list and of agefile.h are the same",
            sorted(shown) == promised == sorted(declared),
            shown,
            declared,
        )
        words = [
            "cc",
            f"-I{self.room}",
            "-std=c11",
            "-Werror",
            "-fsyntax-only",
            SOURCES / "tests" / "abi.c",
        ]
        for what, old, new in (
            ("as it is", "", ""),
            ("a number", "AGEFILE_TRAILING = 21,", "AGEFILE_TRAILING = 23,"),
            (
                "a type",
                "agefile_encode_room(const agefile_encoder *it, size_t len)",
                "agefile_encode_room(const agefile_encoder *it, int len)",
            ),
            ("a size", "} agefile_stanza;", "    uint8_t more;\n} agefile_stanza;"),
            ("a name", "agefile_payload_at(", "agefile_payload_is_at("),
            ("a field", "    uint32_t kind;\n", "    uint16_t kind;\n"),
        ):
            self.assertIn(old, header)
            self.write("agefile.h", header.replace(old, new, 1).encode())
            ran = process.run(words, capture_output=True, text=True)
            self.see(
                f"what a program of 2.0.0 knows of agefile.h, {what}",
                (ran.returncode == 0) == (not old),
                ran.stderr,
            )
        sections = process.run(
            ["objdump", "-h", LIBRARY / "libagefile.so"], capture_output=True, text=True
        ).stdout.split()
        # (.data.rel.ro is for reading, once it is linked)
        self.see(
            "memory that calls in two threads could share",
            ".text" in sections and not {".data", ".bss", ".tdata", ".tbss"} & {*sections},
            sections,
        )
        symbols = process.run(
            ["objdump", "-T", LIBRARY / "libagefile.so"], capture_output=True, text=True
        ).stdout
        versions = [
            tuple(map(int, it.split("."))) for it in re.findall(r"\(GLIBC_([\d.]+)\)", symbols)
        ]
        said = re.search(r"glibc (\d+)\.(\d+)", (TOP / "docs" / "LIBRARY.md").read_text())
        self.see(
            f"the shared library needs of glibc {versions}",
            versions and max(versions) == tuple(map(int, said.groups())),
        )
        if run.returncode == 0:
            needed = process.run(["ldd", made], capture_output=True, text=True).stdout
            self.see(
                "the shared library isn't used",
                f"libagefile.so.2 => {LIBRARY}/libagefile.so.2" in needed,
                needed,
            )
            text = plain_of(70_000)
            self.see(
                "by the shared library",
                self.by_c(self.sealed(text), program=(made,)) == ((0, (0, None)), text),
            )

    @needs("age", "age-keygen")
    def test_x25519(self):
        """bindings/c/x25519.c, over libsodium: what it writes to a recipient of age-keygen age reads, and the other way round."""
        made = self.path("x25519")
        run = process.run(
            [
                "cc",
                *STRICT,
                "-O1",
                "-o",
                made,
                SOURCES / "x25519.c",
                LIBRARY / "libagefile.a",
                "-lsodium",
            ],
            capture_output=True,
            text=True,
        )
        if run.returncode != 0 and ("sodium.h" in run.stderr or "-lsodium" in run.stderr):
            return self.leave_out("x25519.c", "needs libsodium")
        self.see("x25519.c", run.returncode == 0, run.stderr)
        lines = (SOURCES / "x25519.c").read_text().count("\n")
        self.see(f"x25519.c has {lines} lines", lines <= 80)
        keys = []
        for name in ("own key", "other key"):
            process.run(["age-keygen", "-o", self.path(name)], check=True, capture_output=True)
            keys.append(re.findall(r"age1\w+|AGE-SECRET-KEY-1\w+", self.read(name).decode()))
        (recipient, identity), (_, stranger) = keys
        for length in LENGTHS:
            text = plain_of(length)
            self.write("in", text)
            file = process.run([made, recipient], input=text, capture_output=True).stdout
            back = process.run(
                ["age", "-d", "-i", self.path("own key")], input=file, capture_output=True
            )
            self.see(
                f"age reads {length} bytes of it",
                back.stdout == text and back.returncode == 0,
                back.stderr,
            )
            self.see(
                f"it reads {length} bytes of its own",
                process.run([made, identity], input=file, capture_output=True).stdout == text,
            )
            many = process.run(
                ["age", "-r", keys[1][0], "-r", recipient, "-o", "-"],
                input=text,
                capture_output=True,
            ).stdout
            self.see(
                f"it reads {length} bytes of age",
                process.run([made, identity], input=many, capture_output=True).stdout == text,
            )
            ended = process.run([made, stranger], input=file, capture_output=True)
            self.see(
                "another identity",
                (ended.returncode, ended.stdout) == (1, b"") and b" 13 WrongKey" in ended.stderr,
                ended.stderr,
            )
        for word in (
            recipient[:-1] + ("q" if recipient[-1] != "q" else "p"),
            recipient.upper(),
            identity[:-1],
            "",
            "age1",
        ):
            self.see(
                f"no key: {word}",
                process.run([made, word], input=b"", capture_output=True).returncode == 2,
            )
