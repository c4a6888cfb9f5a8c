"""What tests of the C library and of the modules over it have in common: files of age_tool, and what each language says of them."""
import contextlib
import functools
import io
import os
import random
import signal
import sys
import threading
import time

from tests import built, process
from tests.case import Case
from tests.standard import BLOCK, CHUNK  # noqa: F401
from tools.workspace import TOP

LENGTHS = (0, 1, 65_535, 65_536, 65_537, 131_072, 200_000)
KEY = b"\7" * 16
RANDOM = KEY + bytes(range(32))
# The folder of the Python module.
PYTHON = TOP / "bindings" / "python"


@functools.cache
def module():
    """The Python module, over the library as it is now."""
    os.environ["AGEFILE_LIBRARY"] = str(built.library() / "libagefile.so")
    sys.path.insert(0, str(PYTHON))
    import agefile._keys, agefile._output

    return agefile


class Late:
    """The same for a file of tests, which is loaded before there has to be a library."""

    def __getattr__(self, name):
        return getattr(module(), name)


agefile = Late()


def setUpModule():
    """What a file of tests that imports it begins with."""
    module()


def python_with(module):
    """A Python that has this module: this one, or the system's."""
    found = f"import importlib.util; raise SystemExit(importlib.util.find_spec('{module}') is None)"
    return next(
        (
            it
            for it in (sys.executable, "/usr/bin/python3")
            if os.path.exists(it) and process.run([it, "-c", found]).returncode == 0
        ),
        None,
    )


def plain_of(length):
    return random.Random(length).randbytes(length)


def flipped(data, at, bits=1):
    held = bytearray(data)
    held[at] ^= bits
    return bytes(held)


def raised(kind, call, *words, **more):
    """Whether a call raises such an exception."""
    try:
        call(*words, **more)
    except kind:
        return True
    return False


def fault_in(line):
    """The number in a message, and the place: (0, None) if there is none."""
    words = line.decode().split()
    if not words:
        return 0, None
    return int(words[1]), int(words[-1]) if len(words) > 3 and words[-2] == "chunk" else None


def by_python(data, size=-1, **keys):
    """The fault and the text of a file by the Python module."""
    text = b""
    try:
        with module().open(io.BytesIO(data), "rb", **keys) as file:
            while piece := file.read(size):
                text += piece
    except module().AgeError as fault:
        return (fault.number, fault.chunk), text
    return (0, None), text


@contextlib.contextmanager
def limited(seconds):
    """Ends a call that would wait forever."""

    def ended(*_):
        raise TimeoutError(f"no answer in {seconds} s")

    kept = signal.signal(signal.SIGALRM, ended)
    signal.alarm(seconds)
    try:
        yield
    finally:
        signal.alarm(0)
        signal.signal(signal.SIGALRM, kept)


@contextlib.contextmanager
def slow(data, size=7_000, buffering=0, pause=0.002):
    """A pipe that doesn't block, to which another thread sends the data in pieces: a read often comes before them."""
    source, sink = os.pipe()
    os.set_blocking(source, False)

    def sends():
        with open(sink, "wb", buffering=0) as sender, contextlib.suppress(BrokenPipeError):
            for at in range(0, len(data), size):
                time.sleep(pause)
                sender.write(data[at : at + size])

    thread = threading.Thread(target=sends)
    thread.start()
    try:
        with limited(60), open(source, "rb", buffering=buffering) as file:
            yield file
    finally:
        thread.join()


class BindingsCase(Case):
    """A folder with two passphrases."""

    def setUp(self):
        super().setUp()
        self.write("pw", b"pw\n")
        self.write("other", b"other\n")
        self.write("random", RANDOM)

    def sealed(self, text):
        """The file of a text, whose file key is KEY."""
        self.write("in", text)
        self.tool(
            *"encrypt --pass pw --log 1 --no-sync --random random in sealed".split(), check=True
        )
        return self.read("sealed")

    def judged(self, data, word="pw"):
        """What age_tool says of a file, and the text that it left."""
        self.write("judged", data)
        self.remove("text")
        run = self.tool("decrypt", "--pass", word, "--no-sync", "judged", "text")
        return fault_in(run.stderr), self.read("text") if self.is_there("text") else b""
