"""The names of the Python module, its types and exceptions, what an argument may be, and where it finds the library."""
import doctest
import importlib
import io
import os
import pickle
import pydoc
import shutil
import sys

from tests import bindings, process
from tests.bindings import BLOCK, CHUNK, KEY, PYTHON, agefile, raised, setUpModule
from tests.case import needs
from tests.python.files import AGE, RECIPIENT, SECRET, ModuleCase, fault_of
from tools.workspace import LIBRARY

# A program that mypy has to accept.
USER = """
import mmap
import tarfile
import zipfile
from typing import BinaryIO

import agefile


def copied(source: BinaryIO, to: BinaryIO) -> None:
    while piece := source.read(65_536):
        to.write(piece)


def by_mode(name: str, mode: str) -> None:
    agefile.open(name, mode, passphrase="pw").close()


with agefile.open("a", "wb", passphrase="pw") as out, agefile.open("b", passphrase="pw") as file:
    copied(file, out)
with agefile.open("a", "wb", passphrase="pw") as out, zipfile.ZipFile(out, "w") as archive:
    archive.writestr("name", b"text")
with agefile.open("a", "wb", passphrase="pw") as out, tarfile.open(fileobj=out, mode="w|") as tar:
    tar.add("name")
with agefile.open("a", "wb", recipient=["age1"]) as out, agefile.open("a", identity="AGE-SECRET-KEY-1") as file:
    copied(file, out)
work: int | None = agefile.inspect("a").work
with agefile.open("a", passphrase="pw") as at, at.reopen(open("a", "rb")) as other:
    size: int = at.size + other.size
    with zipfile.ZipFile(at) as archive:
        archive.read("name")


def of_buffers(mapped: mmap.mmap, secret: bytearray, view: memoryview) -> bytes:
    made: bytes = agefile.encrypt(view, passphrase=secret)
    made += agefile.decrypt(mapped, passphrase=secret) + agefile.decrypt(secret, file_key=view) + agefile.decrypt(view, shared=(secret, view))
    agefile.salvage("a", "b", file_key=secret, mode="xb")
    with agefile.open("a", passphrase=view) as file, agefile.Decryptor(passphrase=secret) as text, agefile.Encryptor(passphrase=secret) as out:
        return made + file.read() + text.update(mapped) + out.update(view)
"""


class InterfaceTest(ModuleCase):
    def test_arguments(self):
        """What an argument may be. It is looked at before the file is."""
        none = self.path("none")
        keys = {"passphrase": "pw", "file_key": KEY, "shared": (SECRET, RECIPIENT)}
        for one in keys:
            for two in keys.keys() - {one}:
                for mode in ("rb", "wb") if "passphrase" in (one, two) else ("rb",):
                    words = {one: keys[one], two: keys[two]}
                    self.see(
                        f"{one} and {two}, {mode}",
                        raised(TypeError, agefile.open, none, mode, **words),
                    )
        for mode in ("rb", "wb"):
            self.see(f"no key, {mode}", raised(ValueError, agefile.open, none, mode))
            self.see(
                f"a number for a passphrase, {mode}",
                raised(TypeError, agefile.open, io.BytesIO(), mode, passphrase=4),
            )
        self.see("a file is made before the arguments are looked at", not none.exists())

    def test_ranges(self):
        """What is refused says what is allowed. The file stays as it is."""
        path = self.path("kept")
        path.write_bytes(b"kept")
        key = (AGE / "key.txt").read_text().split()[-1]
        for kind, allowed, words in (
            (ValueError, "1 to 65,536 bytes, not 0", {"passphrase": ""}),
            (ValueError, "not 65,537", {"passphrase": b"a" * 65_537}),
            (TypeError, "str or bytes, not int", {"passphrase": 4}),
            (TypeError, "bytes, not int", {"file_key": 16}),
            (TypeError, "bytes, not str", {"file_key": "0" * 16}),
            (ValueError, "16 bytes, not 15", {"file_key": bytes(15)}),
            (ValueError, "16 bytes, not 17", {"file_key": bytes(17)}),
            (TypeError, "a pair", {"shared": bytes(64)}),
            (TypeError, "a pair", {"shared": (SECRET,)}),
            (ValueError, "32 bytes, not 31", {"shared": (SECRET[:31], RECIPIENT)}),
            (ValueError, "32 bytes, not 33", {"shared": (SECRET, RECIPIENT + b"0")}),
            (TypeError, "bytes, not str", {"shared": ("a" * 32, RECIPIENT)}),
            (TypeError, "a str, several", {"identity": key.encode()}),
            (TypeError, "a str, several", {"identity": 5}),
            (TypeError, "not PosixPath", {"identity": AGE / "key.txt"}),
            (TypeError, "a str, not bytes", {"identity": [key.encode()]}),
            (ValueError, "AGE-SECRET-KEY-1", {"identity": []}),
            (ValueError, "AGE-SECRET-KEY-1", {"identity": "# a comment\n\n"}),
            (ValueError, "AGE-SECRET-KEY-1", {"identity": str(AGE / "key.txt")}),
        ):
            for mode in ("rb", "rt", "wb", "xb", "wt") if "passphrase" in words else ("rb", "rt"):
                for file in (path, self.path("none"), io.BytesIO()):
                    fault = fault_of(agefile.open, file, mode, **words)
                    self.see(
                        f"{words}, {mode}",
                        type(fault) is kind and allowed in str(fault),
                        repr(fault),
                    )
        for name in ("work", "max_work"):
            for kind, given in (
                (ValueError, 0),
                (ValueError, 23),
                (ValueError, -1),
                (ValueError, 2**32 + 1),
                (ValueError, 2**64 + 18),
                (TypeError, "18"),
                (TypeError, 18.0),
                (TypeError, None),
            ):
                for mode in ("rb", "wb"):
                    fault = fault_of(agefile.open, path, mode, passphrase="pw", **{name: given})
                    self.see(
                        f"{name} {given!r}, {mode}",
                        type(fault) is kind and "from 1 to 22" in str(fault) and name in str(fault),
                        repr(fault),
                    )
        for mode in ("rb", "wb"):
            for file in (5, None, object(), io.StringIO()):
                fault = fault_of(agefile.open, file, mode, passphrase="pw", work=1)
                self.see(
                    f"{file!r} for a file, {mode}",
                    type(fault) is TypeError and "binary" in str(fault),
                    repr(fault),
                )
        self.see("a mode", "rb, wb" in str(fault_of(agefile.open, path, "r+b", passphrase="pw")))
        self.see(
            "a refused call changes the file",
            path.read_bytes() == b"kept" and not self.path("none").exists(),
        )
        data = self.sealed(b"text")
        self.see(
            "the greatest work factor",
            agefile.open(io.BytesIO(data), passphrase="pw", max_work=22, work=22).read() == b"text",
        )
        self.see(
            "the word that it was read at any place by",
            raised(TypeError, agefile.open, io.BytesIO(data), passphrase="pw", random_access=True),
        )

    def test_names(self):
        """The version, and the names that a user sees."""
        told, build = self.tool("--version", check=True).stdout.decode().split(maxsplit=2)[1:]
        own = agefile._library.VERSION
        for version, is_fit in (
            (own, True),
            (own + 1, True),
            (own + 100, True),
            (own - 1, False),
            (own + 10_000, False),
            (0, False),
        ):
            self.see(f"a library of version {version}", agefile._library.fits(version) == is_fit)
        run = self.command("--version")
        self.see(
            "the version",
            agefile.__version__ == told and run.stdout == f"agefile {told} {build}".encode(),
            agefile.__version__,
            run.stdout,
        )
        for name in agefile.__all__:
            self.see(f"{name} is of another module", getattr(agefile, name).__module__ == "agefile")
        text = pydoc.plain(pydoc.render_doc(agefile.open))
        self.see("help", "Any" not in text and "passphrase: 'str | Buffer | None'" in text, text)

    def test_examples(self):
        """The examples in docstrings."""
        names = [
            f"agefile.{it.stem}"
            for it in (PYTHON / "agefile").glob("_[a-z]*.py")
            if it.stem != "_commands"
        ]
        found = [
            doctest.testmod(importlib.import_module(it), extraglobs={"agefile": bindings.module()})
            for it in ("agefile", *names)
        ]
        tried, failed = (sum(getattr(it, of) for it in found) for of in ("attempted", "failed"))
        self.see(f"{tried} lines of examples", failed == 0 and tried > 25, found)

    @needs("mypy")
    def test_types(self):
        program = PYTHON / "agefile" / "program"
        for words, folder, path in (
            (("--exclude", "/program/", "agefile"), PYTHON, ""),
            (("--no-namespace-packages", *program.glob("*.py")), program, PYTHON),
        ):
            run = process.run(
                ["mypy", "--strict", "--cache-dir", os.devnull, *words],
                cwd=folder,
                env={**os.environ, "MYPYPATH": str(path)},
                capture_output=True,
                text=True,
            )
            self.assertEqual(run.returncode, 0, run.stdout)

    def test_places(self):
        """The Python module finds the library next to it, and in the folders of a release. AGEFILE_LIBRARY goes first."""
        there = {**os.environ, "AGEFILE_LIBRARY": ""}
        for folder, library in (
            (".", "libagefile.so"),
            (".", "agefile/libagefile.so"),
            ("share/age_tool", "lib/libagefile.so.2"),
            ("bindings/python", "bindings/out/libagefile.so"),
        ):
            top = self.path(f"place-of-{library.replace('/', '-')}")
            for made in (top / folder / "agefile", top / library):
                made.parent.mkdir(parents=True, exist_ok=True)
            shutil.copytree(PYTHON / "agefile", top / folder / "agefile", dirs_exist_ok=True)
            shutil.copy(LIBRARY / "libagefile.so", top / library)
            words = [sys.executable, "-B", "-c", "import agefile; print(agefile._library.C._name)"]
            run = process.run(words, cwd=top / folder, env=there, capture_output=True, text=True)
            self.see(
                f"the library in {library}",
                run.stdout.strip() == str((top / library).resolve()),
                run.stdout,
                run.stderr[-300:],
            )
            run = process.run(
                words,
                cwd=top / folder,
                env={**there, "AGEFILE_LIBRARY": "/none.so"},
                capture_output=True,
                text=True,
            )
            self.see(
                f"AGEFILE_LIBRARY, beside {library}",
                run.returncode != 0 and "/none.so" in run.stderr,
                run.stderr[-300:],
            )

    def test_kinds(self):
        """Faults that a program asks for are classes."""
        data = self.sealed(bytes(70_000))
        payload = len(data) - BLOCK - (70_000 - CHUNK) - 16
        other, flipped = agefile.WrongKey, data[:-1] + bytes([data[-1] ^ 1])
        for what, given, keys, kind, number in (
            ("another passphrase", data, {"passphrase": "other"}, other, 13),
            ("another file key", data, {"file_key": bytes(16)}, other, 14),
            ("another kind of key", data, {"shared": (KEY * 2, KEY * 2)}, other, 12),
            ("a cut header", data[:50], {"file_key": KEY}, agefile.Truncated, 254),
            ("no payload", data[:payload], {"file_key": KEY}, agefile.Truncated, 20),
            ("a missing chunk", data[: payload + BLOCK], {"file_key": KEY}, agefile.Truncated, 20),
            ("a cut chunk", data[: payload + BLOCK + 9], {"file_key": KEY}, agefile.Truncated, 18),
            ("a changed byte", flipped, {"file_key": KEY}, agefile.NotWhole, 17),
            (
                "bytes after the end",
                self.sealed(bytes(CHUNK)) + b"0",
                {"file_key": KEY},
                agefile.NotWhole,
                21,
            ),
            (
                "a changed header",
                data.replace(b"\n-> scrypt", b"\n-> scrYpt"),
                {"passphrase": "pw"},
                other,
                12,
            ),
            ("no age file", b"x\n", {"passphrase": "pw"}, agefile.NotWhole, 1),
            (
                "a low limit",
                self.sealed(b"").replace(b" 1\n", b" 3\n", 1),
                {"passphrase": "pw", "max_work": 2},
                agefile.WorkTooHigh,
                11,
            ),
        ):
            fault = fault_of(lambda: agefile.open(io.BytesIO(given), **keys).read())
            self.see(what, type(fault) is kind and fault.number == number, fault)
        fault = pickle.loads(pickle.dumps(agefile._library.fault_of(17, 3)))
        self.see("a pickled fault", (type(fault), fault.args) == (agefile.NotWhole, (17, 3)), fault)
        self.see("a fault is an OSError", not issubclass(agefile.AgeError, OSError))
        kinds = {
            11: agefile.WorkTooHigh,
            12: other,
            13: other,
            28: agefile.OutOfMemory,
            **dict.fromkeys((8, 16, 18, 20, 254), agefile.Truncated),
        }
        for number in (*range(1, 8), *range(9, 23), 28, 254):
            kind = type(agefile._library.fault_of(number))
            self.see(
                f"the kind of fault {number}", kind is kinds.get(number, agefile.NotWhole), kind
            )
        self.see("a truncated file isn't whole", issubclass(agefile.Truncated, agefile.NotWhole))
        for fault, told in (
            (agefile.WrongKey(13), "the passphrase or key doesn't open the file (13 WrongKey)"),
            (agefile.Truncated(20, 2), "the file was cut (20 Truncated chunk 2)"),
        ):
            self.see(f"what is said of a fault: {fault}", str(fault) == told)
        # (those of docs/FAULTS.md that the library returns)
        for number in (*range(1, 8), *range(9, 16), *range(17, 23), 28, 252, 253, 254, 255):
            fault = agefile.AgeError(number)
            meaning, _, rest = str(fault).partition(" (")
            self.see(
                f"what is said of fault {number}: {fault}",
                "no call" not in meaning
                and rest == f"{number} {fault.name})"
                and fault.name != "Unknown",
            )

    @needs("mypy")
    def test_types_of_users(self):
        """A user's program is right for mypy, which takes a writer and a reader for binary files, also if only `bytes` are bytes for it."""
        self.path("user.py").write_text(USER)
        for more in ([], ["--disable-bytearray-promotion", "--disable-memoryview-promotion"]):
            words = ["mypy", "--strict", *more, "--cache-dir", os.devnull, "user.py"]
            run = process.run(
                words,
                cwd=self.room,
                env={**os.environ, "MYPYPATH": str(PYTHON)},
                capture_output=True,
                text=True,
            )
            if run.returncode == 2 and "unrecognized arguments" in run.stderr:
                self.leave_out(f"mypy with {more[0]}", "needs another mypy")
            else:
                self.see(f"a user's program, {more}", run.returncode == 0, run.stdout)

    def test_attributes(self):
        """What a file that is opened by its name says of itself."""
        path = self.path("named.age")
        with agefile.open(path, "wb", passphrase="pw", work=1) as file:
            self.see(
                "a writer's name",
                (file.name, file.mode) == (path, "wb")
                or (file.name, file.mode) == (str(path), "wb"),
                file.name,
            )
            file.write(b"text")
        with agefile.open(path, passphrase="pw") as file:
            self.see(
                "a reader's name",
                (str(file.name), file.mode, file.size) == (str(path), "rb", 4)
                and isinstance(file, io.BufferedReader),
            )
            self.see("a reader has no descriptor", raised(io.UnsupportedOperation, file.fileno))
