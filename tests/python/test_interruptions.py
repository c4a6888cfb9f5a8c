"""Exceptions of signal handlers at each place of a call of the Python module."""
import io
import sys

from tests.bindings import (
    KEY,
    PYTHON,
    BindingsCase,
    agefile,
    by_python,
    plain_of,
    raised,
    setUpModule,
)
from tests.python.files import WAYS, Interruption, interrupt, interrupted_at


def interrupt_within(*names):
    """The same, unless one of these functions of agefile has just been called."""
    frame = sys._getframe(3)
    if frame.f_code.co_name not in names or frame.f_lineno != frame.f_code.co_firstlineno:
        raise Interruption


class InterruptionsTest(BindingsCase):
    def test_interrupted_writers(self):
        """An exception at each place where Python lets a signal's handler run, in each call of a writer, and then another call: the file is
        whole or refused by every reader, as that call says, and what it was opened on is closed."""
        text, path, package = (
            plain_of(100_000),
            self.path("interrupted.age"),
            str(PYTHON / "agefile"),
        )
        calls = {
            "write": lambda file: file.write(text[70_000:]),
            "close": lambda file: file.close(),
            "abandon": lambda file: file.abandon(),
        }
        for what, call in calls.items():
            for after in ("abandon", "close"):
                turn, wrong = 0, []
                while turn < 400:
                    file = agefile.open(path, "wb", passphrase="pw", work=1)
                    file.write(text[:70_000])
                    if not interrupted_at(turn, package, lambda: call(file)):
                        file.abandon()
                        break
                    under, was_open = file._file, not file.closed
                    says_whole = (
                        not raised((OSError, ValueError), getattr(file, after))
                        and after == "close"
                        and was_open
                    )
                    is_whole = by_python(path.read_bytes(), passphrase="pw") in [
                        ((0, None), it) for it in (text[:70_000], text)
                    ]
                    if (
                        says_whole
                        and not is_whole
                        or what != "close"
                        and is_whole != says_whole
                        or not under.closed
                    ):
                        wrong.append((turn, says_whole, is_whole, under.closed))
                    turn += 1
                self.see(
                    f"{after} after {what}: {turn} interruptions",
                    wrong == [] and turn > 3,
                    wrong[:5],
                )

    def test_interrupted_text(self):
        """In text mode an exception in a call doesn't lose what earlier ones wrote, or the file can't be finished."""
        kept, package = "a" * 5_000, str(PYTHON / "agefile")
        for what, call in {
            "write": lambda file: file.write("b" * 5_000),
            "flush": lambda file: file.flush(),
        }.items():
            turn, wrong = 0, []
            while turn < 400:
                out = io.BytesIO()
                file = agefile.open(out, "wt", passphrase="pw", work=1)
                file.write(kept)
                if not interrupted_at(turn, package, lambda: call(file)):
                    break
                says_whole = not raised(
                    (OSError, ValueError), lambda: (file.write("c"), file.close())
                )
                file.buffer.abandon()
                fault, got = by_python(out.getvalue(), passphrase="pw")
                if (
                    (fault == (0, None)) != says_whole
                    or says_whole
                    and not got.startswith(kept.encode())
                ):
                    wrong.append((turn, says_whole, fault, got[:3]))
                turn += 1
            file.close()
            self.see(f"{what}: {turn} interruptions", wrong == [] and turn > 3, wrong[:5])
        file = agefile.open(out := io.BytesIO(), "wt", passphrase="pw", work=1, encoding="ascii")
        file.write(kept)
        self.see(
            "what can't be written",
            raised(UnicodeError, file.write, "\u2013") and raised(TypeError, file.write, b"c"),
        )
        file.close()
        self.see(
            "a file after that",
            by_python(out.getvalue(), passphrase="pw") == ((0, None), kept.encode()),
        )

    def test_interrupted_anywhere(self):
        """An exception at each place where Python lets a signal's handler run, in each call that moves a file: a read without a seek is right or
        refused, and after a seek to a known place it is right. (Only one that comes before the first line of readinto() can't be known.)
        """
        text = plain_of(200_000)
        data = self.sealed(text)
        package = str(PYTHON / "agefile")
        calls = {
            "read": lambda file: file.read(100_000),
            "a short read": lambda file: file.read(10),
            "read to the end": lambda file: file.read(),
            "read1": lambda file: (file.seek(131_072), file.read1()),
            "readinto": lambda file: file.readinto(bytearray(70_000)),
            "readline": lambda file: file.readline(),
            "peek": lambda file: (file.seek(131_072), file.peek()),
            "seek on": lambda file: file.seek(150_000),
            "seek back": lambda file: file.seek(10),
            "seek to the end": lambda file: file.seek(0, 2),
            "size": lambda file: file.size,
        }
        for what, call in calls.items():
            turn, wrong = 0, []
            while turn < 400:
                file = agefile.open(io.BytesIO(data), file_key=KEY)
                file.read(70_005)
                if not interrupted_at(
                    turn,
                    package,
                    lambda: call(file),
                    lambda: interrupt_within("readinto", "readall"),
                ):
                    break
                at = file.tell()
                try:
                    got = file.read(3)
                    wrong += (
                        [(turn, "text", got)]
                        if got not in (text[70_005:70_008], text[at : at + 3])
                        else []
                    )
                except OSError:
                    pass
                for place in (66_000, 100, 131_000):
                    if (
                        file.seek(place) != place
                        or file.read(70_000) != text[place : place + 70_000]
                        or file.tell() != min(place + 70_000, 200_000)
                    ):
                        wrong.append((turn, "after a seek", place))
                turn += 1
            self.see(
                f"{what}: {turn} interruptions",
                wrong == [] and (turn > 1 or what in ("a short read", "readline")),
                wrong[:5],
            )

    def test_interrupted_reads(self):
        """After an exception of a signal's handler in a read, of a pipe too, each read is refused."""
        data = self.sealed(plain_of(200_000))

        class Slow(io.BytesIO):
            handler = None

            def readinto(self, room):
                if self.handler:
                    self.handler()
                return super().readinto(room)

        for can_seek in (False, True):
            for what, read in WAYS.items():
                under = Slow(data)
                under.seekable = lambda: can_seek
                file = agefile.open(under, file_key=KEY)
                under.handler = interrupt
                is_raised, under.handler = raised(Interruption, read, file), None
                refused = [
                    raised(OSError, call)
                    for call in (
                        lambda: file.read(1),
                        file.readline,
                        file.read1,
                        file.peek,
                        file.read,
                    )
                    if not file.closed
                ]
                self.see(f"{what}, can seek {can_seek}", is_raised and all(refused), refused)
                if can_seek and not file.closed:
                    self.see(
                        f"{what} after a seek",
                        file.seek(70_000) == 70_000 and file.read() == plain_of(200_000)[70_000:],
                    )
