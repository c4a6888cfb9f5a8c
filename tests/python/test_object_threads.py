"""Threads with one object of the Python module, and calls from within its calls."""
import io
import signal
import sys

from tests.bindings import KEY, BindingsCase, agefile, by_python, raised, setUpModule
from tests.python.files import Pieces, together


def two_writers(turn):
    """What is wrong after two threads, or four, wrote to one file and then closed it."""
    out = io.BytesIO()
    file = agefile.open(out, "wb", passphrase="pw", work=1)
    count = 2 + 2 * (turn % 2)

    def writes(number):
        for _ in range(20):
            file.write(bytes([number]) * 50_000)
            file.flush()

    faults = together([lambda number=number: writes(number) for number in range(count)]) + together(
        [file.close] * count
    )
    fault, text = by_python(out.getvalue(), passphrase="pw")
    pieces = [text[at : at + 50_000] for at in range(0, len(text), 50_000)]
    mixed = sum(len(set(it)) != 1 for it in pieces)
    wrong = [it for it in range(count) if text.count(it) != 1_000_000]
    return (
        ""
        if (faults, fault, mixed, wrong) == ([], (0, None), 0, [])
        else f"{faults} {fault}, {mixed} mixed pieces, {wrong}"
    )


def readers(data, source):
    """The numbers, of 24 bytes each, that four threads read from one file. (Some lie in two chunks.)"""
    found = []
    with agefile.open(source(data), file_key=KEY) as file:

        def reads():
            while piece := file.read(24):
                found.append(int.from_bytes(piece, "big"))
                file.tell()

        faults = together([reads] * 4)
    return faults or sorted(found)


class ObjectThreadsTest(BindingsCase):
    """They change places as often as Python lets them."""

    def setUp(self):
        super().setUp()
        self.addCleanup(sys.setswitchinterval, sys.getswitchinterval())
        sys.setswitchinterval(1e-6)

    def test_threads(self):
        """Each call is whole."""
        for turn in range(12):
            found = two_writers(turn)
            self.see(f"threads that write, {turn}", found == "", found)
        data = self.sealed(b"".join(number.to_bytes(24, "big") for number in range(15_000)))
        for source in (io.BytesIO, lambda it: Pieces(it, 30_000)):
            self.see(f"threads that read {source}", readers(data, source) == list(range(15_000)))

    def test_reentered(self):
        """A write from inside another one on the same file, as a signal's handler may make it, is refused, and the other one goes on."""

        class Under(io.BytesIO):
            inside = None

            def write(self, piece):
                if self.inside:
                    self.inside()
                return super().write(piece)

        under, found = Under(), []
        file = agefile.open(under, "wb", passphrase="pw", work=1)
        for size in (1, 100_000, 0, 16_384):
            under.inside = lambda size=size: found.append(raised(OSError, file.write, b"x" * size))
            file.write(b"y" * 65_537)
        under.inside = None
        file.close()
        self.see("a call from inside a write", found == [True] * 4, found)
        self.see(
            "what was written around such calls",
            by_python(under.getvalue(), passphrase="pw") == ((0, None), b"y" * 4 * 65_537),
        )
        under, refused, text = io.BytesIO(), [], 0
        file = agefile.open(under, "wb", passphrase="pw", work=1)
        kept = signal.signal(
            signal.SIGALRM, lambda *_: refused.append(raised(OSError, file.write, b"x"))
        )
        signal.setitimer(signal.ITIMER_REAL, 0.001, 0.001)
        while len(refused) < 30:
            text += file.write(b"z" * 10_000)
        signal.setitimer(signal.ITIMER_REAL, 0)
        signal.signal(signal.SIGALRM, kept)
        file.close()
        fault, got = by_python(under.getvalue(), passphrase="pw")
        want = (text, refused.count(False))
        self.see(
            "a handler of signals that writes",
            (fault, (got.count(b"z"), got.count(b"x"))) == ((0, None), want),
            fault,
            len(got),
        )
