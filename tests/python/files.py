"""What tests of the Python module have in common: files that it reads from, ways to read, and exceptions at any place of a call."""
import csv
import io
import os
import shutil
import sys
import threading

from tests import process
from tests.bindings import KEY, PYTHON, BindingsCase, agefile
from tools.workspace import TOP

AGE = TOP / "bindings" / "tests" / "age"
SECRET, RECIPIENT = bytes(range(0x40, 0x60)), bytes(range(0x60, 0x80))


def fault_of(call, *words, **more):
    """The exception of a call."""
    try:
        call(*words, **more)
    except Exception as fault:
        return fault
    return None


class Pieces(io.RawIOBase):
    """A file that gives at most this many bytes to each read."""

    def __init__(self, data, size):
        self.held, self.size = io.BytesIO(data), size

    def readable(self):
        return True

    def readinto(self, room):
        return self.held.readinto(memoryview(room)[: self.size])


class Halting(io.RawIOBase):
    """A file that can be sought in. After `left` more reads it stops as often as `stops` says: a read finds nothing yet, or fails."""

    def __init__(self, data, size=30_000, stops=0):
        self.held, self.size, self.left, self.stops, self.stop = (
            io.BytesIO(data),
            size,
            0,
            stops,
            None,
        )

    def readable(self):
        return True

    def seekable(self):
        return True

    def seek(self, *words):
        return self.held.seek(*words)

    def tell(self):
        return self.held.tell()

    def readinto(self, room):
        self.left -= 1
        if self.left < 0 and self.stops > 0:
            self.stops -= 1
            if self.stop is not None:
                raise self.stop
            return None
        return self.held.readinto(memoryview(room)[: self.size])


def loop(read):
    """What the calls return, up to what counts as the end."""
    found = []
    while piece := read():
        found.append(piece)
    return found


def readinto_loop(read, room):
    found = b""
    while count := read(room):
        found += room[:count]
    return found


def copied(file):
    out = io.BytesIO()
    shutil.copyfileobj(file, out)
    return out.getvalue()


def by_csv(file):
    with io.TextIOWrapper(file, newline="") as text:
        return b"".join(",".join(it).encode() + b"\n" for it in csv.reader(text))


# The ways to read a file to its end: each gives what it read.
WAYS = {
    "read": lambda file: file.read(),
    "read in pieces": lambda file: b"".join(loop(lambda: file.read(20_000))),
    "a large read": lambda file: file.read(1 << 30),
    "read1": lambda file: b"".join(loop(lambda: file.read1(9_000))),
    "readline": lambda file: b"".join(loop(file.readline)),
    "lines": lambda file: b"".join(file),
    "readlines": lambda file: b"".join(file.readlines()),
    "readinto": lambda file: readinto_loop(file.readinto, bytearray(9_000)),
    "readinto1": lambda file: readinto_loop(file.readinto1, bytearray(9_000)),
    "peek": lambda file: b"".join(loop(lambda: file.read(len(file.peek(5_000))))),
    "copyfileobj": copied,
    "text": lambda file: io.TextIOWrapper(file, newline="").read().encode(),
    "lines of text": lambda file: "".join(io.TextIOWrapper(file, newline="")).encode(),
    "csv": by_csv,
}


class Interruption(BaseException):
    """What a signal's handler raises."""


def interrupt():
    raise Interruption


def interrupted_at(turn, folder, call, handler=interrupt):
    """Makes a call, and runs a handler at the place of this number, of those in a folder's code where Python runs handlers: where a function
    begins, and where a call that it made returned. Whether there was such a place. (Where the outermost function has returned it is for
    the caller to know.)"""
    left, depth = turn, 0

    def profile(frame, event, _):
        nonlocal left, depth
        here = frame.f_code.co_filename.startswith(folder)
        depth += here * {"call": 1, "return": -1}.get(event, 0)
        if here and (
            event in ("call", "c_return", "c_exception") or event == "return" and depth > 0
        ):
            left -= 1
            if left == -1:
                sys.setprofile(None)
                handler()

    sys.setprofile(profile)
    try:
        call()
    except Interruption:
        pass
    finally:
        sys.setprofile(None)
    return left < 0


def together(calls):
    """Makes the calls in threads of their own, and returns what they raised."""
    faults = []

    def made(call):
        try:
            call()
        except Exception as fault:
            faults.append(repr(fault))

    threads = [threading.Thread(target=made, args=(call,)) for call in calls]
    for it in threads:
        it.start()
    for it in threads:
        it.join()
    return faults


class Kept(io.BytesIO):
    """Bytes that stay when they are closed."""

    def close(self):
        pass


class ModuleCase(BindingsCase):
    """Runs of the module as a program, and what it salvages."""

    def command(self, *words, given=None, env=os.environ, **more):
        more = {"env": {**env, "PYTHONPATH": str(PYTHON)}, **(more or {"input": given})}
        return process.run(
            [sys.executable, "-B", "-m", "agefile", *words],
            cwd=self.room,
            capture_output=True,
            **more,
        )

    def saved(self, data, **keys):
        """What is salvaged of a file, and what it says of it."""
        out = io.BytesIO()
        found = agefile.salvage(
            data if hasattr(data, "read") else io.BytesIO(data), out, **(keys or {"file_key": KEY})
        )
        return out.getvalue(), found.lost, found.ends, found.followed
