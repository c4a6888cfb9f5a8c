"""seek() of a reader: any place, beyond the end, beside what is damaged, and by zipfile."""
import io
import random
import threading
import zipfile

from tests.bindings import (
    BLOCK,
    CHUNK,
    KEY,
    BindingsCase,
    agefile,
    flipped,
    limited,
    plain_of,
    raised,
    setUpModule,
)
from tests.python.files import Halting, ModuleCase, Pieces, fault_of


class Counted(io.BytesIO):
    """A file that counts what is read of it."""

    count = 0

    def readinto(self, room):
        n = super().readinto(room)
        self.count += n
        return n


def begin_of(data, length):
    """Where the payload of a file begins."""
    return len(data) - length - 16 * max(1, -(-length // 65_536))


class PlacesTest(ModuleCase):
    def test_reopened(self):
        """A reader of the same file over another file object needs no key, and refuses another file."""
        text = random.Random(4).randbytes(200_000)
        data = self.sealed(text)
        first = agefile.open(io.BytesIO(data), passphrase="pw")
        first.seek(70_000)
        with first.reopen(io.BytesIO(data)) as file, file.reopen(Pieces(data, 7_000)) as again:
            self.see(
                "a reopened file",
                type(file) is type(first)
                and (file.tell(), file.read()) == (0, text) == (again.tell(), again.read()),
            )
        self.see("the file that it was reopened from", first.read() == text[70_000:])
        for other in (agefile.encrypt(b"", passphrase="pw", work=1), b"", data[:100]):
            self.see(
                "another file",
                isinstance(fault_of(first.reopen, io.BytesIO(other)), agefile.WrongKey),
            )
        second = first.reopen(io.BytesIO(data))
        first.close()
        self.see("a closed file", isinstance(fault_of(first.reopen, io.BytesIO(data)), ValueError))
        self.see("one that was reopened from it", second.read() == text)

    def test_damage_at_a_place(self):
        """What is damaged is refused where it is, each time, and the rest can be read, also if the end is."""
        text = random.Random(6).randbytes(200_000)
        data = self.sealed(text)
        begin = len(data) - 200_000 - 4 * 16
        with agefile.open(io.BytesIO(flipped(data, begin + BLOCK + 100)), file_key=KEY) as file:
            for place, wrong in (
                (0, False),
                (70_000, True),
                (140_000, False),
                (65_536, True),
                (65_530, True),
                (199_990, False),
                (100_000, True),
            ):
                file.seek(place)
                fault = got = None
                try:
                    got = file.read(10)
                except agefile.NotWhole as it:
                    fault = (it.number, it.chunk)
                self.see(
                    f"damage, at {place}",
                    (got, fault)
                    == ((None, (17, 1)) if wrong else (text[place : place + 10], None)),
                    got,
                    fault,
                )
            file.seek(CHUNK)
            self.see(
                "a fault that is asked for again",
                [type(fault_of(file.read, 1)) for _ in range(2)] == [agefile.NotWhole] * 2,
            )
        for end in [
            *range(begin, len(data), 4_099),
            len(data) - 1,
            begin + BLOCK,
            begin + 2 * BLOCK,
            begin + 3 * BLOCK + 16,
        ]:
            file, whole = (
                agefile.open(io.BytesIO(data[:end]), file_key=KEY),
                (end - begin) // BLOCK * CHUNK,
            )
            kinds = [
                type(fault_of(it))
                for it in (
                    lambda: file.size,
                    lambda: file.seek(0, 2),
                    lambda: file.seek(-100_000, 2),
                )
            ]
            self.see(
                f"the size of a file cut at {end}",
                {*kinds} <= {agefile.NotWhole, agefile.Truncated},
                kinds,
            )
            self.see(
                f"what comes before the cut at {end}",
                file.tell() == 0 and file.read(whole) == text[:whole],
            )
            self.see(
                f"what comes then, at {end}", isinstance(fault_of(file.read, 1), agefile.NotWhole)
            )
        for what, more in (("a byte", b"0"), ("a block", data[begin : begin + BLOCK])):
            for size in (200_000, 131_072):
                file = agefile.open(io.BytesIO(self.sealed(text[:size]) + more), file_key=KEY)
                fault, whole = fault_of(lambda: file.size), size // CHUNK * CHUNK
                self.see(
                    f"{what} after the end of {size}",
                    isinstance(fault, agefile.NotWhole) and file.read(whole) == text[:whole],
                    fault,
                )
                fault = fault_of(file.read, 1)
                self.see(
                    f"{what} after the end of {size}, read",
                    isinstance(fault, agefile.NotWhole),
                    fault,
                )

    def test_zip_members(self):
        """zipfile reads members of an archive, and little else of the file."""
        held = {f"{it}.bin": random.Random(it).randbytes(100_000) for it in range(30)}
        archive = io.BytesIO()
        with zipfile.ZipFile(archive, "w") as out:
            for name, text in held.items():
                out.writestr(name, text)
        under = Counted(self.sealed(archive.getvalue()))
        with agefile.open(under, file_key=KEY) as file, zipfile.ZipFile(file) as made:
            self.see(
                "members of a zip archive",
                all(made.read(name) == held[name] for name in ("7.bin", "29.bin", "0.bin")),
            )
        self.see(f"{under.count} bytes are read for three members", under.count < 15 * BLOCK)

    def test_shared_files(self):
        """Two readers of one file, and threads with one reader."""
        text = random.Random(7).randbytes(300_000)
        under = io.BytesIO(self.sealed(text))
        one = agefile.open(under, file_key=KEY)
        under.seek(0)
        two = agefile.open(under, file_key=KEY)
        wrong = 0
        for turn in range(60):
            file = (one, two)[turn % 2]
            place = turn * 37_123 % 300_000
            file.seek(place)
            wrong += file.read(20_000) != text[place : place + 20_000]
        self.see(f"{wrong} wrong reads of two readers of one file", wrong == 0)
        found, lock = [], threading.Lock()

        def reads(number):
            for turn in range(60):
                place = (turn * 41_233 + number * 7_001) % 300_000
                with lock:
                    one.seek(place)
                    got = one.read(5_000)
                found.append(got == text[place : place + 5_000])
                one.tell()

        threads = [threading.Thread(target=reads, args=(it,)) for it in range(4)]
        for it in threads:
            it.start()
        for it in threads:
            it.join()
        self.see("threads that seek in one file", found == [True] * 240)


class SeekTest(BindingsCase):
    def test_seeks(self):
        """A seek that fails leaves the file where it stood. Only one from the end reads anything."""
        text = plain_of(200_000)
        data = self.sealed(text)
        for kind, words in (
            (ValueError, (-1,)),
            (ValueError, (-200, 1)),
            (ValueError, (-200_001, 2)),
            (ValueError, (0, 3)),
            (ValueError, (0, -1)),
            (TypeError, (1.5,)),
            (BlockingIOError, (0, 2)),
            (OSError, (-5, 2)),
        ):
            under = Halting(data)
            file = agefile.open(under, file_key=KEY)
            begin = file.read(100)
            if kind in (BlockingIOError, OSError):
                under.left, under.stops, under.stop = (
                    1,
                    1,
                    OSError("once") if kind is OSError else None,
                )
            self.see(
                f"seek{words}: no {kind.__name__}, or at {file.tell()}",
                raised(kind, file.seek, *words) and file.tell() == 100,
            )
            rest = b""
            while piece := file.read(50_000):
                rest += piece
            self.see(f"what follows a failed seek{words}", begin + rest == text)
            self.see(
                f"a seek after a failed one, {words}",
                file.seek(70_000) == 70_000 and file.read(5) == text[70_000:70_005],
            )

    def test_beyond_the_end(self):
        """A place beyond the end is one where nothing is, as in io.BytesIO, wherever the end is in its chunk; in a file that was cut it is a fault."""
        for length in (0, 1, 65_536, 131_072, 200_000):
            text = plain_of(length)
            data = self.sealed(text)
            for more in (0, 1, 17, 53_138, 84_780, 1 << 30, (1 << 60) - length):
                for first in (False, True):
                    file = agefile.open(io.BytesIO(data), file_key=KEY)
                    found = [file.size] if first else []
                    found += [
                        file.seek(length + more),
                        file.read(10),
                        file.read(),
                        file.tell(),
                        file.seek(0),
                        file.read(),
                    ]
                    self.see(
                        f"{more} bytes beyond {length}",
                        found
                        == [length] * first + [length + more, b"", b"", length + more, 0, text],
                        found[:4],
                    )
        for end in (len(data) - 1, len(data) - 3_500, begin_of(data, 200_000) + 2 * 65_552):
            file = agefile.open(io.BytesIO(data[:end]), file_key=KEY)
            self.see(
                f"a file cut at {end}",
                file.seek(300_000) == 300_000 and raised(agefile.NotWhole, file.read, 1),
            )
            self.see(
                f"what comes before it, {end}",
                file.seek(70_000) == 70_000 and file.read(5) == text[70_000:70_005],
            )

    def test_impossible_lengths(self):
        """At which chunk a file is refused, if no payload has its length; and lines of no byte and of one."""
        data = self.sealed(plain_of(200_000))
        begin = len(data) - 200_000 - 4 * 16
        for end, want in (
            (begin + 65_552 + 5, (18, 1)),
            (begin + 3 * 65_552 + 16, (19, 3)),
            (begin + 15, (18, 0)),
        ):
            file = agefile.open(io.BytesIO(data[:end]), file_key=KEY)
            for call in (
                lambda: file.size,
                lambda: file.seek(0, 2),
                lambda: file.seek(-1, 2),
                file.read,
            ):
                fault = fault_of(call)
                self.see(
                    f"a file cut at {end}",
                    isinstance(fault, agefile.NotWhole) and (fault.number, fault.chunk) == want,
                    fault,
                )
        with limited(60), agefile.open(io.BytesIO(self.sealed(b"abc\nd")), file_key=KEY) as file:
            found = [file.readline(it) for it in (0, 1, 0, 2, 5, 1, 1)]
            self.see("short lines", found == [b"", b"a", b"", b"bc", b"\n", b"d", b""], found)
