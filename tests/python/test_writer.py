"""A writer of the Python module: what it seals, what it writes to, and files that nobody closes."""
import contextlib
import gc
import io
import os
import random
import threading
import time
import warnings

from tests.bindings import LENGTHS, BindingsCase, agefile, by_python, plain_of, raised, setUpModule
from tests.python.files import Halting


class WriterTest(BindingsCase):
    def test_seals(self):
        """age_tool reads what is written, and no two files have one random byte in common."""
        for length in LENGTHS:
            text, made = plain_of(length), []
            for size in (length or 1, 70_000, 9_000):
                file = io.BytesIO()
                with agefile.open(file, "wb", passphrase="pw", work=1) as writer:
                    for at in range(0, length, size):
                        writer.write(text[at : at + size])
                made.append(file.getvalue())
                self.see(
                    f"age_tool reads {length} bytes in pieces of {size}",
                    self.judged(made[-1]) == ((0, None), text),
                )
            self.see(
                f"files of {length} bytes",
                len({it[-16:] for it in made}) == len({it[30:60] for it in made}) == 3,
            )

    def test_forgotten_writers(self):
        """A writer that was never closed, perhaps after an exception, leaves a file that isn't whole, and a warning."""

        class Sink(io.BytesIO):
            flushed = 0

            def flush(self):
                self.flushed += 1

        def forgets(mode, text, out):
            agefile.open(out, mode, passphrase="pw", work=1).write(text)
            raise KeyError

        for mode, text in (
            ("wb", b"half"),
            ("wt", "half"),
            ("wb", bytes(100_000)),
            ("wt", "a" * 100_000),
        ):
            out = Sink()
            with warnings.catch_warnings(record=True) as found:
                warnings.simplefilter("always")
                raised(KeyError, forgets, mode, text, out)
                gc.collect()
            fault, got = by_python(out.getvalue(), passphrase="pw")
            self.see(
                f"a forgotten writer, {mode}, {len(text)}",
                fault[0] == 20 and len(got) < len(text),
                fault,
            )
            self.see(
                f"its warning, {mode}", [it.category for it in found] == [ResourceWarning], found
            )
            self.see(f"what the collector does to the file below, {mode}", out.flushed == 0)
        out = Sink()
        file = agefile.open(out, "wt", passphrase="pw", work=1)
        file.write("text")
        under = file.buffer
        with warnings.catch_warnings(record=True) as found:
            warnings.simplefilter("always")
            del file
            gc.collect()
        under.close()
        self.see(
            "text that was never written, and a writer that is closed",
            by_python(out.getvalue(), passphrase="pw") == ((20, 0), b""),
        )
        for mode, text in (("wb", b"text"), ("wt", "text")):
            out = Sink()
            file = agefile.open(out, mode, passphrase="pw", work=1)
            file.write(text)
            under = file.detach() if mode == "wt" else file
            with warnings.catch_warnings(record=True) as found:
                warnings.simplefilter("always")
                del file
                gc.collect()
                under.close()
            self.see(
                f"a writer that is closed, {mode}",
                by_python(out.getvalue(), passphrase="pw") == ((0, None), b"text") and not found,
                found,
            )
        with warnings.catch_warnings(record=True) as found:
            warnings.simplefilter("always")
            path = self.path("text.age")
            path.write_bytes(self.sealed(b"text"))
            self.see(
                "a forgotten reader", agefile.open(path, "rt", passphrase="pw").read() == "text"
            )
            gc.collect()

    def test_sinks(self):
        """What a file object that is written to has to have: write, and nothing else."""

        class Plain:
            held = b""

            def write(self, piece):
                self.held += piece[:1_000]
                return min(len(piece), 1_000)

        for left in (False, True):
            out = Plain()
            file = agefile.open(out, "wb", passphrase="pw", work=1)
            file.write(b"text")
            file.flush()
            (file.abandon if left else file.close)()
            self.see(
                "a sink without flush",
                by_python(out.held, passphrase="pw")
                == (((20, 0), b"") if left else ((0, None), b"text")),
            )
        text = plain_of(3_000_000)
        source, sink = os.pipe()
        os.set_blocking(sink, False)
        found = []
        with open(source, "rb") as under, open(sink, "wb", buffering=0) as out:
            reader = threading.Thread(target=lambda: (time.sleep(0.1), found.append(under.read())))
            reader.start()
            with agefile.open(out, "wb", passphrase="pw", work=1) as file:
                file.write(text)
            out.close()
            reader.join()
        self.see(
            "a pipe that takes no more at times",
            by_python(found[0], passphrase="pw") == ((0, None), text),
        )
        out = Halting(b"")
        out.write = lambda piece: None
        self.see(
            "a sink that takes nothing",
            raised(BlockingIOError, agefile.open, out, "wb", passphrase="pw", work=1),
        )

    def test_kept_pieces(self):
        """A sink may keep what it is given, as a list of parts and another thread do."""

        class Parts:
            def __init__(self):
                self.parts = []

            def write(self, piece):
                self.parts.append(piece)
                return len(piece)

        text, out = plain_of(300_000), Parts()
        with agefile.open(out, "wb", passphrase="pw", work=1) as file:
            for at in range(0, 300_000, 7_000):
                file.write(text[at : at + 7_000])
        self.see(
            "a sink that keeps its parts",
            by_python(b"".join(out.parts), passphrase="pw") == ((0, None), text),
        )
        self.see("what a sink is given", {type(it) for it in out.parts} == {bytes})

    def test_short_writes(self):
        """Writes of any length, of any kind of bytes, are one text."""
        rnd, out, text = random.Random(9), io.BytesIO(), b""
        with agefile.open(out, "wb", passphrase="pw", work=1) as file:
            for turn in range(400):
                piece = rnd.randbytes(rnd.choice((0, 1, 100, 16_383, 16_384, 16_385, 70_000)))
                piece = piece[len(piece) % 4 :] if turn % 4 == 3 else piece
                file.write(
                    (bytes, bytearray, memoryview, lambda it: memoryview(it).cast("I"))[turn % 4](
                        piece
                    )
                )
                text += piece
                if file.tell() != len(text):
                    break
            self.see("where a writer stands", file.tell() == len(text))
        self.see(
            "short and long writes", by_python(out.getvalue(), passphrase="pw") == ((0, None), text)
        )

    def test_second_close(self):
        """A file that isn't whole since its close() failed is reported by each later close() too."""

        class Full(io.BytesIO):
            full = False

            def write(self, piece):
                if self.full:
                    raise OSError(28, "No space left on device")
                return super().write(piece)

        for mode in ("wb", "wt"):
            out = Full()
            file = agefile.open(out, mode, passphrase="pw", work=1)
            file.write(b"text" if mode == "wb" else "text")
            out.full = True
            found = [raised(OSError, file.close) for _ in range(3)]
            self.see(
                f"close() of a file that isn't whole, {mode}",
                found == [True] * 3 and file.closed,
                found,
            )

    def test_what_finishes(self):
        """What the docstring says of writers that are closed after an exception."""

        def fails(out, wrap):
            with wrap(agefile.open(out, "wb", passphrase="pw", work=1)) as file:
                file.write("text" if isinstance(file, io.TextIOBase) else b"text")
                raise KeyError

        for what, wrap, is_whole in (
            ("with", lambda it: it, False),
            ("contextlib.closing", contextlib.closing, True),
            ("TextIOWrapper", io.TextIOWrapper, True),
            ("BufferedWriter", io.BufferedWriter, True),
        ):
            out = io.BytesIO()
            self.see(f"the exception of {what}", raised(KeyError, fails, out, wrap))
            fault, text = by_python(out.getvalue(), passphrase="pw")
            self.see(
                f"what {what} leaves",
                (fault, text) == (((0, None), b"text") if is_whole else ((20, 0), b"")),
                fault,
            )
