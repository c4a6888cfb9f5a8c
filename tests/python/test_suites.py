"""Tests that others wrote for files, over agefile: classes of CPython's own suites, with their modules replaced (a suite is left out where
this Python hasn't it), and random calls, whose answers are compared with those of io.BufferedReader."""
import importlib
import io
import os
import random
import re
import types
import unittest
import unittest.mock
import warnings

from tests.bindings import agefile, setUpModule
from tests.case import Case

# How many random calls are compared.
CALLS = 4_000
# The names of their tests that don't hold here, and why.
LEFT_OUT = {
    "a file is one stream, and nothing follows it or is appended": r"multi_?stream|across_?streams|junk|zero_padded|append|pathlike|_modes|"
    "test_init$|with_filename|test_filename|openpathlike",
    "faults are AgeErrors, no EOFError or OSError": r"badfile|bad_data|incomplete|truncated|badgzipfile|bad_gzip|_trailer|with_extra|badargs",
    "data of formats of their own": r"nonewline|test_iterator$|test_read$|test_read_0|init_mode|init_bad|init_with_preset|filters",
    "their bytes are the same each time": r"test_write$|test_write_10|test_write_to_file|test_writelines|compresslevel$|correct_level",
    "flush seals no chunk; a closed file has its name yet": r"flush_flushes|openfile|fileobj|from_file",
    "levels, times and other attributes": r"metadata|mtime|issue112346|fileobj_mode|test_mode|getattr|on_closed|prepend|test_close$|test_fileno|limited",
    "a place before the beginning is refused, one beyond the end is kept; None is any length; a writer has no peek and no seek": r"prestart|past_start|postend|past_end|testreadlines?$|peek_bad_args|seek_write",
    "io.BufferedReader, closed or not, isn't writable; its seek takes no keyword": r"writable|seek_whence",
}


def opened(name=None, mode="r", _=None, fileobj=None, **more):
    """A file as their modules open it. (Tests look for fileno(), which agefile has not: what is below a file isn't its text.)"""
    more = {it: more[it] for it in ("encoding", "errors", "newline") if it in more}
    keys = {"work": 1} if isinstance(mode, str) and mode[:1] in "wx" else {}
    file = agefile.open(name if fileobj is None else fileobj, mode, passphrase="pw", **keys, **more)
    file.fileno = lambda: getattr(file, "_chunks", file)._file.fileno()
    return file


def sealed(text, *_, **__):
    return agefile.encrypt(bytes(text), passphrase="pw", work=1)


def decrypted(data):
    return agefile.decrypt(data, passphrase="pw")


def failures(suite, classes, attributes):
    """The tests of a suite's classes that fail over agefile, with the last line of what is said, and how many tests there are."""
    result = unittest.TestResult()
    for name in classes:
        made = type(name, (getattr(suite, name),), attributes)
        unittest.defaultTestLoader.loadTestsFromTestCase(made).run(result)
    return {
        it.id().split("tests.python.test_suites.")[1]: text.strip().splitlines()[-1]
        for it, text in result.failures + result.errors
    }, result.testsRun


def next_call(rnd, length):
    """A call on a file of so many bytes, by its name and its arguments."""
    size = rnd.choice(
        [0, 1, 7, 100, 4_096, 65_535, 65_536, 65_537, 131_072, 200_000, rnd.randrange(1, 300_000)]
    )
    return rnd.choice(
        [
            ("read", size),
            ("read", size),
            ("read", -1),
            ("readline", size),
            ("readline", -1),
            ("readlines", rnd.choice([1, 500, 100_000])),
            ("seek", rnd.randrange(length + 1)),
            ("seek", rnd.randrange(length + 1)),
            ("seek", -rnd.randrange(length + 1), io.SEEK_END),
            ("tell",),
            ("readinto", size),
            ("readinto1", size),
            ("read1", size),
            ("peek", size),
            ("__next__",),
        ]
    )


def answer(file, call, *words, count=None):
    """What a call returns. One that may return less than it was asked for is asked for so many bytes."""
    if count is not None:
        return file.read(count)
    if call in ("readinto", "readinto1"):
        room = bytearray(words[0])
        return bytes(room[: getattr(file, call)(room)])
    if call == "__next__":
        return next(file, b"")
    return getattr(file, call)(*words)


class SuitesTest(Case):
    def see_suite(self, name, file, classes, attributes, more):
        try:
            suite = importlib.import_module(f"test.test_{name}")
        except ImportError:
            self.skipTest("needs CPython's tests")
        self.addCleanup(os.chdir, os.getcwd())
        os.chdir(self.room)
        module = types.SimpleNamespace(
            open=opened,
            compress=sealed,
            decompress=decrypted,
            **{file: opened, "BadGzipFile": OSError},
        )
        replaced = {
            name: module,
            **{it: opened for it in (file,) if hasattr(suite, it)},
            **more(suite),
        }
        with warnings.catch_warnings(), unittest.mock.patch.multiple(suite, **replaced):
            warnings.simplefilter("ignore")
            found, count = failures(suite, classes, attributes(suite))
        left_out = re.compile("|".join(LEFT_OUT.values()), re.I)
        wrong = {it: why for it, why in found.items() if not left_out.search(it.split(" ")[0])}
        self.see(
            f"test_{name}: {count} tests",
            wrong == {} and count > len({it.split(" ")[0] for it in found}) + 25,
            wrong,
            found,
        )

    def test_bz2(self):
        def attributes(suite):
            base = suite.BaseTest
            return {
                "DATA": sealed(base.TEXT),
                "EMPTY_DATA": sealed(b""),
                "BIG_DATA": sealed(base.BIG_TEXT),
            }

        self.see_suite(
            "bz2",
            "BZ2File",
            ["BZ2FileTest", "OpenTest"],
            attributes,
            lambda _: {"ext_decompress": decrypted},
        )

    def test_gzip(self):
        self.see_suite("gzip", "GzipFile", ["TestGzip", "TestOpen"], lambda _: {}, lambda _: {})

    def test_lzma(self):
        self.see_suite(
            "lzma",
            "LZMAFile",
            ["FileTestCase", "OpenTestCase"],
            lambda _: {},
            lambda suite: {"COMPRESSED_XZ": sealed(suite.INPUT)},
        )

    def test_like_buffered_reader(self):
        """Random calls, and their answers by io.BufferedReader. (read1, readinto1 and peek may return less: what comes is compared.)"""
        seed = int(os.environ.get("AGE_SEED") or 1)
        rnd, count = random.Random(seed), 0
        while count < CALLS:
            size = rnd.choice([0, 1, 65_535, 65_536, 65_537, 131_072, 200_000, 327_680])
            text = b"".join(
                rnd.getrandbits(8 * it).to_bytes(it, "big").replace(b"\n", b"x") + b"\n"
                for it in rnd.choices([3, 50, 5_000, 70_000], k=40)
            )[:size]
            before = rnd.choice([b"", b"", b"other"])
            under = io.BytesIO(before + sealed(text))
            under.seek(len(before))
            file, other = agefile.open(under, passphrase="pw"), io.BufferedReader(io.BytesIO(text))
            for _ in range(60):
                call, place = next_call(rnd, len(text)), other.tell()
                got = answer(file, *call)
                want = answer(
                    other,
                    *call,
                    count=len(got) if call[0] in ("read1", "readinto1", "peek") else None,
                )
                if call[0] == "peek":
                    other.seek(place)
                if (
                    got == b""
                    and call[0] in ("read1", "readinto1", "peek")
                    and call[1]
                    and place < len(text)
                ):
                    want = "a byte at least"
                if (got, file.tell()) != (want, other.tell()):
                    self.see(
                        f"seed {seed}: {call} at {place} of {len(text)}",
                        False,
                        got[:50],
                        want[:50],
                        file.tell(),
                        other.tell(),
                    )
                    return
            count += 60
        self.see(f"{count} calls as io.BufferedReader answers them, seed {seed}", True)
