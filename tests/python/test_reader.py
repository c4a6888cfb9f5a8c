"""A reader of the Python module, as io's classes are."""
import copy
import io
import itertools
import os
import pickle
import tarfile
import warnings
import zlib

from tests.bindings import KEY, BindingsCase, agefile, by_python, plain_of, raised, setUpModule
from tests.python.files import WAYS
from tools.workspace import TOP

READS = ["docs/*"]


class ReaderTest(BindingsCase):
    def test_files(self):
        path, text = self.path("file.age"), plain_of(200_000)
        with agefile.open(path, "wb", passphrase="pw", work=1) as file:
            file.write(text)
        with agefile.open(path, passphrase="pw") as file:
            self.see(
                "seek ahead",
                file.read(10) == text[:10]
                and file.seek(150_000) == 150_000
                and file.read(10) == text[150_000:150_010],
            )
            self.see(
                "seek back",
                file.seek(5) == 5 and file.read(70_000) == text[5:70_005] and file.tell() == 70_005,
            )
            self.see(
                "seek to the end", file.seek(0, io.SEEK_END) == 200_000 and file.read(1) == b""
            )
        cut = path.read_bytes()[:-1]
        with agefile.open(io.BytesIO(cut), passphrase="pw") as file:
            got = file.read(3 * 65_536)
            try:
                file.read(1)
                self.see("the end of a cut file is reported as its end", False)
            except agefile.AgeError as fault:
                self.see(
                    "a cut file", (fault.number, fault.chunk, got) == (17, 3, text[: 3 * 65_536])
                )
        try:
            with agefile.open(path, "wb", passphrase="pw", work=1) as file:
                file.write(text)
                raise KeyError
        except KeyError:
            pass
        self.see(
            "a writer that an exception left is whole", self.judged(path.read_bytes())[0] == (20, 3)
        )
        kept = path.read_bytes()
        self.see(
            "an empty passphrase encrypts",
            raised(ValueError, agefile.open, path, "wb", passphrase="", work=1),
        )
        self.see("a bad passphrase changes the file", path.read_bytes() == kept)
        with agefile.open(path, "wt", passphrase="pw", work=1, encoding="utf-8") as file:
            file.write("zwei\nZeilen ü\n")
        with agefile.open(path, "rt", passphrase="pw", encoding="utf-8") as file:
            self.see("text", list(file) == ["zwei\n", "Zeilen ü\n"])
        for mode in ("|", ":"):
            with agefile.open(path, "wb", passphrase="pw", work=1) as file, tarfile.open(
                fileobj=file, mode="w|"
            ) as tar:
                for name in ("checks", "docs"):
                    tar.add(TOP / name, name)
            with agefile.open(path, "rb", passphrase="pw") as file, tarfile.open(
                fileobj=file, mode="r" + mode
            ) as tar:
                names = [
                    (it.name, zlib.crc32(tar.extractfile(it).read())) for it in tar if it.isfile()
                ]
            files = [
                it for top in ("checks", "docs") for it in (TOP / top).rglob("*") if it.is_file()
            ]
            want = [(str(it.relative_to(TOP)), zlib.crc32(it.read_bytes())) for it in files]
            self.see(f"a tar archive, r{mode}", sorted(names) == sorted(want) and len(want) > 5)

    def test_faults_of_files(self):
        """A file that can't seek, and whose third read or write fails."""
        text = plain_of(200_000)
        data = self.sealed(text)

        class Unsteady(io.RawIOBase):
            def __init__(self, data=b""):
                self.held, self.calls = io.BytesIO(data), 0

            def readable(self):
                return True

            def fails(self):
                self.calls += 1
                if self.calls == 3:
                    raise OSError("once")

            def readinto(self, room):
                self.fails()
                return self.held.readinto(room)

            def write(self, piece):
                self.fails()
                return self.held.write(piece)

        with agefile.open(Unsteady(data), file_key=KEY) as file:
            self.see("a failed read isn't reported", raised(OSError, file.read))
            self.see(
                "seek in what can't seek",
                raised(io.UnsupportedOperation, file.seek, 0) and not file.seekable(),
            )
        under = Unsteady()
        file = agefile.open(under, "wb", passphrase="pw", work=1)
        self.see(
            "a failed write isn't reported",
            raised(OSError, lambda: [file.write(text) for _ in range(3)]),
        )
        self.see(
            "a file with a block that is missing is written on", raised(OSError, file.write, text)
        )
        self.see(
            "a file with a block that is missing is closed as if it were whole",
            raised(OSError, file.close) and file.closed,
        )
        fault = pickle.loads(pickle.dumps(agefile.AgeError(17, 3)))
        parts = fault.number, fault.name, fault.chunk, str(fault).partition(" (")[2]
        self.see(
            "a fault that is pickled",
            parts == (17, "ChunkDamaged", 3, "17 ChunkDamaged chunk 3)"),
            parts,
        )
        self.see(
            "bytes with an encoding",
            raised(
                ValueError,
                lambda: agefile.open(io.BytesIO(data), "rb", file_key=KEY, encoding="utf-8"),
            ),
        )

    def test_copies(self):
        """Open files are neither copied nor pickled, and a forked child can't touch its parent's file."""
        text, path = plain_of(100_000), self.path("forked.age")
        data = self.sealed(text)
        out = agefile.open(path, "wb", passphrase="pw", work=1)
        for file in (out, agefile.open(io.BytesIO(data), file_key=KEY)):
            for call in (copy.copy, copy.deepcopy, pickle.dumps):
                self.see(
                    f"{call.__name__} of an {type(file).__name__}", raised(TypeError, call, file)
                )
        out.write(text[:70_000])
        with warnings.catch_warnings():
            warnings.simplefilter("ignore")  # a process with threads that is forked
            child = os.fork()
        if child == 0:
            refused = [
                raised(ValueError, call)
                for call in (lambda: out.write(b"child"), out.flush, out.close)
            ]
            out.__del__()
            os._exit(0 if refused == [True] * 3 else 1)
        self.see(
            "a forked child is refused", os.waitstatus_to_exitcode(os.waitpid(child, 0)[1]) == 0
        )
        child = os.fork()
        if child == 0:
            try:
                out.abandon()
                del out
            finally:
                os._exit(0)
        os.waitpid(child, 0)
        out.write(text[70_000:])
        out.close()
        self.see(
            "what the parent writes",
            by_python(path.read_bytes(), passphrase="pw") == ((0, None), text),
        )

    def test_closed(self):
        """What io's classes refuse once they are closed."""
        data = self.sealed(b"text")
        for mode in ("rb", "rt", "wb", "wt"):
            keys = {"file_key": KEY} if mode[0] == "r" else {"passphrase": "pw", "work": 1}
            file = agefile.open(io.BytesIO(data), mode, **keys)
            files = [file, *([file.buffer] if mode[1] == "t" else [])]
            file.close()
            file.close()
            for it in files:
                for name in (
                    "tell",
                    "flush",
                    "readable",
                    "seekable",
                    *(["read"] if mode[0] == "r" else ["writable"]),
                ):
                    self.see(
                        f"{name} of a closed {type(it).__name__}, {mode}",
                        raised(ValueError, getattr(it, name)),
                    )
        under = io.BytesIO(data)
        with agefile.open(under, file_key=KEY) as file:
            file.read()
        self.see("a file object that was passed in is left open", not under.closed)

    def test_before_damage(self):
        """What read1 returns before a fault: all chunks before the one that is damaged."""
        text = plain_of(300_000)
        data = bytearray(self.sealed(text))
        data[-50_000] ^= 1
        for size in (10_000, 50_000, 65_536, 1_000_000):
            got = b""
            with agefile.open(io.BytesIO(data), file_key=KEY) as file:
                try:
                    while piece := file.read1(size):
                        got += piece
                    self.see("a damaged chunk is read", False)
                except agefile.NotWhole as fault:
                    self.see(
                        f"before a damaged chunk, by {size}",
                        (fault.chunk, got) == (3, text[: 3 * 65_536]),
                        fault,
                        len(got),
                    )


class OddFilesTest(BindingsCase):
    """What is under a file may do anything: no end of a source, of a kind or another, is taken for the end of the text."""

    def test_ends_by_an_exception(self):
        """A source, or its seek, that raises StopIteration, as what passes on an iterator does at its end, or EOFError: to no loop over the text,
        whose last chunks are missing, is it the end."""
        text = b"".join(b"%d,line\n" % it for it in range(20_000))
        data = self.sealed(text)

        class Passing:
            def __init__(self, data):
                self.pieces, self.held = (
                    iter([data[at : at + 10_000] for at in range(0, len(data), 10_000)]),
                    b"",
                )

            def read(self, size):
                self.held = self.held or next(self.pieces)
                piece, self.held = self.held[:size], self.held[size:]
                return piece

        class Lost(io.BytesIO):
            kind = None

            def seek(self, *words):
                if self.kind is not None:
                    raise self.kind
                return super().seek(*words)

        for what, read in WAYS.items():
            for end in (len(data), 100_000):
                self.see(
                    f"{what} of an iterator",
                    raised(OSError, read, agefile.open(Passing(data[:end]), file_key=KEY)),
                )
            for kind in (StopIteration, EOFError):
                under = Lost(data)
                file = agefile.open(under, file_key=KEY)
                under.kind = kind
                self.see(
                    f"{what}, and a seek that raises {kind.__name__}", raised(OSError, read, file)
                )
            for call in (
                lambda it: agefile.open(it, file_key=KEY).size,
                lambda it: agefile.salvage(it, io.BytesIO(), file_key=KEY),
            ):
                under = Lost(data)
                under.kind = kind
                self.see("the size, or salvage, and such a seek", raised(OSError, call, under))

    def test_forgotten_results(self):
        """What overrides a call of a file that blocks and forgets its result: an exception, and no endless loop."""

        class Told(io.FileIO):
            calls = 0

            def told(self):
                self.calls += 1
                if self.calls > 100:
                    raise KeyboardInterrupt

            def write(self, piece):
                super().write(piece)
                self.told()

            def read(self, size):
                super().read(size)
                self.told()

            def readinto(self, room):
                super().readinto(room)
                self.told()

        with Told(self.path("out"), "wb") as out:
            self.see(
                "a write",
                raised(OSError, agefile.open, out, "wb", passphrase="pw", work=1),
                out.calls,
            )
        self.write("in", self.sealed(b"text"))
        with Told(self.path("in")) as under:
            self.see("a read", raised(OSError, agefile.open, under, file_key=KEY), under.calls)

    def test_encoding_of_the_locale(self):
        """An existing file isn't emptied for an encoding that io knows and codecs doesn't."""
        path, want = self.path("file.age"), b"text"
        path.write_bytes(agefile.encrypt(b"as it was", passphrase="pw", work=1))
        try:
            with agefile.open(path, "wt", passphrase="pw", work=1, encoding="locale") as file:
                file.write("text")
        except LookupError:  # Python 3.9 hasn't it
            want = b"as it was"
        self.see(
            "what the file has", by_python(path.read_bytes(), passphrase="pw") == ((0, None), want)
        )

    def test_a_shorter_file(self):
        """A file whose size was asked, and in whose place one with the same key is put that is shorter: to no read is its end the end."""
        text = b"".join(b"%d,line\n" % it for it in range(60_000))
        data, ends = self.sealed(text), [
            self.sealed(text[: 5 * 65_536 + more]) for more in (100, 0)
        ]
        for (what, read), shorter in itertools.product(WAYS.items(), ends):
            under = io.BytesIO(data)
            file = agefile.open(under, file_key=KEY)
            self.see(f"its size, before {what}", file.size == len(text))
            under.seek(0)
            under.truncate()
            under.write(shorter)
            self.see(f"{what} of a file that became shorter", raised(agefile.Truncated, read, file))
