"""What the Python module reads from: sources that come slowly or in pieces, don't block, fail, lie, or can't seek."""
import contextlib
import gc
import gzip
import io
import mmap
import os
import random
import socket
import time
import types
import warnings

from tests.bindings import (
    BLOCK,
    KEY,
    BindingsCase,
    agefile,
    limited,
    plain_of,
    raised,
    setUpModule,
    slow,
)
from tests.python.files import WAYS, Halting, ModuleCase, Pieces, fault_of


@contextlib.contextmanager
def pipe(data, buffering=0):
    """A pipe that holds these bytes, and stays open."""
    source, sink = os.pipe()
    with open(source, "rb", buffering=buffering) as file, open(sink, "wb", buffering=0) as sender:
        sender.write(data)
        yield file


def buffered_pipe(data):
    return pipe(data, -1)


@contextlib.contextmanager
def paired(data):
    """The same as a socket's file."""
    one, two = socket.socketpair()
    with one, two, one.makefile("rb") as file:
        two.sendall(data)
        yield file


def by_pieces(data, size, buffering, word):
    """The fault and the text of a file that comes through such a pipe."""
    text = b""
    with slow(data, size, buffering) as under:
        try:
            file = agefile.open(under, passphrase=word)
            while got := file.read(4_096):
                text += got
            return None if got == b"" else "waits", text
        except agefile.AgeError as fault:
            return fault.number, text


class SourcesTest(ModuleCase):
    def test_early_answers(self):
        """A header that is there is answered, though its sender sends nothing more and doesn't close."""
        data = self.sealed(b"text")
        for what, opened in (
            ("a pipe", pipe),
            ("a buffered pipe", buffered_pipe),
            ("a socket", paired),
        ):
            for word, number in (("other", 13), ("pw", None)):
                with opened(data[:-3]) as file, limited(20):
                    fault = fault_of(agefile.open, file, passphrase=word)
                    self.see(
                        f"{what}, {word}",
                        getattr(fault, "number", None) == number and (number or fault is None),
                        fault,
                    )
        with pipe(b"no age file\n") as file, limited(20):
            fault = fault_of(agefile.open, file, passphrase="pw")
            self.see("a pipe that isn't an age file", getattr(fault, "number", None) == 1, fault)

    def test_slow_headers(self):
        """A long header that comes in small pieces is tried a few times, and answered at its end."""
        line = b"-> x " + b"a" * 57 + b"\n" + b"A" * 64 + b"\n\n"
        data = self.sealed(b"")
        version, rest = data.split(b"\n", 1)
        long = version + b"\n" + line * (600_000 // len(line)) + rest
        begun = time.process_time()
        fault = fault_of(agefile.open, Pieces(long, 10), file_key=KEY)
        took = time.process_time() - begun
        self.see(
            "a long header", isinstance(fault, agefile.AgeError) and fault.number != 254, fault
        )
        self.see(f"{len(long)} bytes, ten at a time, take {took:.1f} s", took < 10)

    def test_unlike_files(self):
        """Sources that can seek but have no `seekable`, or whose seek returns nothing, that overstate their length, and that lie."""
        text = random.Random(9).randbytes(200_000)
        data = self.sealed(text)

        class Bare:
            """A file with nothing but what it has to have."""

            def __init__(self, more=0):
                self.held, self.more = io.BytesIO(data), more

            def read(self, size):
                return self.held.read(size)

            def seek(self, offset, whence=0):
                self.held.seek(offset + self.more * (whence == 2), whence)

            def tell(self):
                return self.held.tell()

        data = self.sealed(text[:131_072])
        for more in (1, 16, 17, BLOCK, -1, -17, -BLOCK):
            file = agefile.open(Bare(more), file_key=KEY)
            fault = fault_of(lambda: file.size)
            self.see(
                f"a file of whole chunks that says it is {more} bytes longer",
                fault is not None if more > 0 else fault or file.size == 131_072,
                fault,
            )
            self.see(f"its text, {more}", file.seek(0) == 0 and file.read() == text[:131_072])
        data = self.sealed(text)
        with mmap.mmap(-1, len(data)) as mapped:
            mapped[:] = data
            for what, under in (
                ("a file with read, seek and tell", Bare()),
                ("an mmap", mapped),
                ("one that says it is a byte longer", Bare(1)),
                ("one that says it is 16 bytes longer", Bare(16)),
            ):
                self.see(f"{what}: salvage", self.saved(under) == (text, [], True, False))
                under.seek(0)
                with agefile.open(under, file_key=KEY) as file:
                    self.see(
                        what,
                        file.size == 200_000
                        and file.seek(-10, 2) == 199_990
                        and file.read() == text[-10:]
                        and file.seek(0) == 0
                        and file.read() == text,
                    )

        class Lies(io.BytesIO):
            read1 = None

            def read(self, size):
                return super().read(size + 1)

        packed = gzip.compress(data)
        for cut in (5, len(packed) // 2, len(packed) - 9):
            for any_way in (lambda it: it, lambda it: io.BufferedReader(it, 100)):
                source = any_way(gzip.GzipFile(fileobj=io.BytesIO(packed[:cut])))
                fault = fault_of(lambda: agefile.open(source, file_key=KEY).read())
                self.see(
                    f"a source that is cut off itself at {cut}",
                    isinstance(fault, OSError) and "was cut off" in str(fault),
                    repr(fault),
                )

        class Awaited(io.BytesIO):
            read1 = None

            async def read(self, size):
                return b""

        class Overfull(io.BytesIO):
            def readinto(self, room):
                return super().readinto(room) + 1

        self.see(
            "a read of too many bytes",
            isinstance(fault_of(agefile.open, Lies(data), file_key=KEY), OSError),
        )
        fault = fault_of(agefile.open, Awaited(data), file_key=KEY)
        self.see(
            "a read that returns no bytes",
            isinstance(fault, TypeError) and "coroutine" in str(fault),
            fault,
        )
        long = self.sealed(bytes(200_000))
        fault = fault_of(lambda: agefile.open(Overfull(long), file_key=KEY).read())
        self.see(
            "a readinto of too many bytes", isinstance(fault, (OSError, agefile.NotWhole)), fault
        )

    def test_requests(self):
        """A long read asks its source for many blocks at once, and a short one for one."""

        class Asked(io.BytesIO):
            def readinto(self, room):
                asked.append(len(room))
                return super().readinto(room)

        text = random.Random(9).randbytes(6_000_000)
        under = Asked(self.sealed(text))
        for size in (10, 5_000_000, -1):
            for into in (False, True):
                asked = []
                with agefile.open(under, file_key=KEY) as file:
                    asked.clear()
                    file.seek(70_000)
                    got = bytearray(size if size > 0 else 6_000_000) if into else b""
                    got = got[: file.readinto(got)] if into else file.read(size)
                    self.see(
                        f"a read of {size}, into {into}",
                        got == text[70_000:][: size if size > 0 else None],
                    )
                    self.see(
                        f"{len(asked)} requests for {size}, into {into}",
                        len(asked) <= (2 if size == 10 else 8),
                        asked,
                    )
                under.seek(0)

    def test_shrinking_files(self):
        """A file that is cut while it is read: what is gone is a fault and no end, here and in a reader without random access."""
        text = random.Random(8).randbytes(300_000)
        data = self.sealed(text)
        begin = len(data) - 300_000 - 5 * 16
        for end in (
            0,
            100,
            begin + 30_000,
            begin + BLOCK,
            begin + BLOCK + 5,
            begin + 3 * BLOCK + 100,
            len(data) - 1,
        ):
            for is_measured in (True, False):
                under = io.BytesIO(data)
                with agefile.open(under, file_key=KEY) as file:
                    self.see("its size", not is_measured or file.size == 300_000)
                    begun = file.read(10)
                    under.truncate(end)
                    got, fault = begun, None
                    try:
                        while piece := file.read1(50_000):
                            got += piece
                    except agefile.AgeError as it:
                        fault = it
                self.see(
                    f"a file is cut to {end} while it is read",
                    fault is not None and text.startswith(got),
                    len(got),
                    fault,
                )


class FailingSourcesTest(BindingsCase):
    def test_waiting(self):
        """A source that doesn't block: what isn't there yet is neither the end nor a fault."""
        text = plain_of(70_000)
        data = self.sealed(text)
        for what, sent, fault, word in (
            ("whole", data, None, "pw"),
            ("cut", data[:-1], 17, "pw"),
            ("no passphrase of it", data, 13, "other"),
        ):
            for size in (100, 7_000, 60_000):
                for buffering in (0, -1):
                    wanted = fault, text[:65_536] if fault == 17 else b"" if fault else text
                    name = f"a pipe that doesn't block, {what}, pieces of {size}, buffering {buffering}"
                    self.see(name, by_pieces(sent, size, buffering, word) == wanted)
        under = Halting(data, 10)
        file = agefile.open(under, file_key=KEY)
        under.left, under.stops = 50, 1
        self.see(
            "no bytes yet, and nothing to wait for",
            raised(BlockingIOError, file.read, 10) and raised(OSError, file.read, 10),
        )
        self.see("a seek after that", file.seek(0) == 0 and file.read() == text)
        self.see(
            "a header of which there are no bytes yet",
            raised(BlockingIOError, agefile.open, Halting(data, stops=1), file_key=KEY),
        )

    def test_slow_sources(self):
        """Whatever reads from a source that doesn't block gets the whole text, or the fault at its end."""
        text = b"".join(b"%d,line\n" % it for it in range(20_000))
        data = self.sealed(text)
        for what, read in WAYS.items():
            for buffering in (0, -1):
                with slow(data, 30_000, buffering) as under:
                    self.see(
                        f"{what} of a slow source, buffering {buffering}",
                        read(agefile.open(under, file_key=KEY)) == text,
                    )
            with slow(data[:-1], 60_000) as under:
                self.see(
                    f"{what} of a slow source that is cut",
                    raised(agefile.NotWhole, read, agefile.open(under, file_key=KEY)),
                )
        begun = time.process_time()
        with slow(data, len(data) // 4, pause=0.4) as under:
            self.see("a source that pauses", agefile.open(under, file_key=KEY).read() == text)
        took = time.process_time() - begun
        self.see("what waits takes no time of a processor", took < 0.3, took)

    def test_failing_sources(self):
        """After a source failed, or a read was interrupted, nothing is read until a seek: bytes may be lost."""
        text = b"".join(b"%d,line\n" % it for it in range(20_000))
        data = self.sealed(text)
        for kind in (OSError, KeyboardInterrupt, InterruptedError, KeyError, None):
            for what, read in WAYS.items():
                for after in (0, 1, 3, 6):
                    under = Halting(data)
                    file = agefile.open(under, file_key=KEY)
                    under.left, under.stops, under.stop = after, 1, kind and kind("once")
                    found = [raised((kind or BlockingIOError, OSError), read, file)]
                    found += [
                        raised(OSError, call)
                        for call in (lambda: file.read(1), file.readline, file.read1, file.peek)
                        if not file.closed
                    ]
                    self.see(
                        f"{what} of a source that fails once with {kind}",
                        found and all(found),
                        found,
                    )
                    if not file.closed:
                        self.see(
                            f"{what} again, after a seek", file.seek(0) == 0 and read(file) == text
                        )
        under = Halting(data)
        with agefile.open(under, file_key=KEY) as file:
            begin = file.read(100)
            under.left, under.stops, under.stop = 2, 2, OSError("twice")
            self.see(
                "a failed read, and a failed seek",
                raised(OSError, file.read, 200_000) and raised(OSError, file.seek, 0, 2),
            )
            self.see(
                "a read after both",
                raised(OSError, file.read, 1)
                and file.seek(100) == 100
                and begin + file.read() == text,
            )
        for whence, offset, place in (
            (io.SEEK_END, 0, len(text)),
            (io.SEEK_END, -7, len(text) - 7),
            (io.SEEK_SET, 150_000, 150_000),
        ):
            under = Halting(data)
            with agefile.open(under, file_key=KEY) as file:
                under.left, under.stops, under.stop = 4, 1, OSError("once")
                self.see("a failed read", raised(OSError, file.read))
                self.see(
                    f"a seek by {offset} from {whence} after it",
                    file.seek(offset, whence) == place and file.read() == text[place:],
                )

    def test_odd_sources(self):
        """A coroutine that a read gives isn't left to warn of itself; no folder stays open; and what has a `seek` and no `tell` is a pipe."""

        class Awaited:
            async def read(self, size):
                return b""

        with warnings.catch_warnings(record=True) as caught:
            warnings.simplefilter("always")
            self.see(
                "a coroutine",
                raised(TypeError, agefile.open, Awaited(), file_key=KEY)
                and gc.collect() >= 0
                and not caught,
                caught,
            )
        data, before = self.sealed(b"text"), os.listdir("/proc/self/fd")
        with open(self.path("in"), "rb") as file:
            agefile._output.reach_disk(file, self.path("in"))
        self.see("descriptors that stay open", len(os.listdir("/proc/self/fd")) == len(before))
        one, other = (
            types.SimpleNamespace(read=io.BytesIO(data).read, seek=lambda *_: 0) for _ in range(2)
        )
        self.see("no `tell`", agefile.open(one, file_key=KEY).read() == b"text")
        file = agefile.open(other, file_key=KEY)
        self.see(
            "the size of what can't seek",
            raised(io.UnsupportedOperation, lambda: file.size)
            and raised(io.UnsupportedOperation, file.seek, 0),
        )
