"""Reads and writes age files (https://c2sp.org/age), over a proved C library; this module is tested, not proved. The interface follows
gzip's:

    import agefile, tarfile, zipfile
    with agefile.open("backup.tar.age", passphrase="correct horse") as file:
        with tarfile.open(fileobj=file, mode="r|") as tar:
            tar.extractall("restored", filter="data")

    with agefile.open("photos.zip.age", passphrase="correct horse") as file:
        zipfile.ZipFile(file).extract("photos/1.jpg")  # reads this member, and little else

    with agefile.open("notes.age", "wb", recipient="age1..") as file:  # as age -r: several may be given
        file.write(b"text")

It needs libagefile.so, made by `bindings/build`: the file that the environment variable AGEFILE_LIBRARY names, else the one beside this
package, in its release or its checkout, else one that the loader finds. `python3 -m agefile` is the program agefile.

Reading: no byte is returned before its chunk (65,536 bytes of plaintext) has been authenticated, and the end of the file (b"") is reported
only after the last chunk has been. So a loop that reads to the end without an exception has seen the complete plaintext; one that stops
earlier may have seen the beginning of a truncated file. A file that can seek is read at any place, and only what is read is checked. If its
end is damaged, all before it can be read: only `size`, and a seek from the end, raise that fault at once.

What is wrong with a file raises AgeError, as one of its kinds: WrongKey, NotWhole (and of that Truncated, though most truncated files end
within a chunk, and can't be told from damaged ones), WorkTooHigh or OutOfMemory. A read() that runs into a damaged chunk returns nothing of
what comes before it; read1() returns all of that first. After a read that failed, or that an exception of a signal's handler ended, each one
is refused until a seek() to a place that you know. (One exception in 400 comes too early to be noticed: seek after each.) A read waits for bytes, even if the source doesn't block; BlockingIOError says that the
source returned None, and has no fileno() to wait for.

Writing: the file is complete once close() has returned. A `with` block that is left by an exception abandons it: every reader refuses it then.
So does one that is never closed. If close() fails, each later one does too. But contextlib.closing, and an io.TextIOWrapper or
io.BufferedWriter of your own over a writer, close it even after an exception: what was written until then becomes a complete file. After a
write that failed the file can't be finished. A forked child can't continue its parent's file.

Decryptor and Encryptor take bytes as they arrive, as in an asynchronous server, and need no file. A `with` block of theirs that ends without
finish() raises.

A file object that you pass in is left open. Threads may share a binary file; calls are serialized. Two files share nothing, so threads with
files of their own need no lock. close() overwrites the key that the library holds. Copies that Python made, of a passphrase or of plaintext,
stay in memory.
"""
from __future__ import annotations

import builtins
import codecs
import io
import os
from typing import Any, Iterable, Literal, Protocol, Union, overload

from ._arguments import Buffer, see_one, work_factor
from ._coders import Decoder, key_to_read
from ._inspection import Inspection, Stanza, inspect
from ._keys import identities_in
from ._library import AgeError, NotWhole, OutOfMemory, Truncated, WorkTooHigh, WrongKey
from ._memory import decrypt, encrypt
from ._push import Decryptor, Encryptor
from ._reader import AgeReader, Chunks
from ._salvage import Salvage, salvage
from ._writer import AgeWriter, TextWriter

__all__ = [
    "open",
    "encrypt",
    "decrypt",
    "inspect",
    "Inspection",
    "Stanza",
    "salvage",
    "Salvage",
    "identities_in",
    "AgeError",
    "WrongKey",
    "NotWhole",
    "Truncated",
    "WorkTooHigh",
    "OutOfMemory",
    "AgeReader",
    "AgeWriter",
    "Decryptor",
    "Encryptor",
]
__version__ = "2.0.0"
# release/build replaces it by the commit that it was made from, as in age_tool.
__build__ = "(not a release)"

for _it in __all__[1:]:
    globals()[_it].__module__ = __name__

Path = Union[str, bytes, "os.PathLike[str]", "os.PathLike[bytes]"]


class Source(Protocol):
    """A binary file object that is read."""

    def read(self, size: int, /) -> bytes | None:
        ...


class Sink(Protocol):
    """A binary file object that is written to."""

    def write(self, data: bytes, /) -> int | None:
        ...


# What io.TextIOWrapper leaves out where it can't seek, and needs when it reads.
_MARKS = {"utf-16": codecs.BOM_UTF16, "utf-32": codecs.BOM_UTF32}


def _opened(file: Any, mode: str) -> tuple[Any, bool]:
    """The file object, and whether it was opened here."""
    if isinstance(file, (str, bytes, os.PathLike)):
        return builtins.open(file, mode + "b", buffering=0), True
    if isinstance(file, io.TextIOBase):
        raise TypeError("a file that is open as text: open it in binary mode")
    if not hasattr(file, "read" if mode == "r" else "write"):
        raise TypeError(f"file is a path or a binary file object, not {type(file).__name__}")
    return file, False


@overload
def open(
    file: Path | Source,
    mode: Literal["r", "rb"] = "rb",
    *,
    passphrase: str | Buffer | None = None,
    file_key: Buffer | None = None,
    shared: tuple[Buffer, Buffer] | None = None,
    identity: str | Iterable[str] | None = None,
    max_work: int = 22,
) -> AgeReader:
    ...


@overload
def open(
    file: Path | Sink,
    mode: Literal["w", "x", "wb", "xb"],
    *,
    passphrase: str | Buffer | None = None,
    recipient: str | Iterable[str] | None = None,
    work: int = 18,
) -> AgeWriter:
    ...


@overload
def open(
    file: Path | Source,
    mode: Literal["rt"],
    *,
    passphrase: str | Buffer | None = None,
    file_key: Buffer | None = None,
    shared: tuple[Buffer, Buffer] | None = None,
    identity: str | Iterable[str] | None = None,
    max_work: int = 22,
    encoding: str | None = None,
    errors: str | None = None,
    newline: str | None = None,
) -> io.TextIOWrapper:
    ...


@overload
def open(
    file: Path | Sink,
    mode: Literal["wt", "xt"],
    *,
    passphrase: str | Buffer | None = None,
    recipient: str | Iterable[str] | None = None,
    work: int = 18,
    encoding: str | None = None,
    errors: str | None = None,
    newline: str | None = None,
) -> io.TextIOWrapper:
    ...


@overload
def open(
    file: Path | Source | Sink,
    mode: str,
    *,
    passphrase: str | Buffer | None = None,
    file_key: Buffer | None = None,
    shared: tuple[Buffer, Buffer] | None = None,
    identity: str | Iterable[str] | None = None,
    recipient: str | Iterable[str] | None = None,
    work: int = 18,
    max_work: int = 22,
    encoding: str | None = None,
    errors: str | None = None,
    newline: str | None = None,
) -> AgeReader | AgeWriter | io.TextIOWrapper:
    ...


def open(
    file: Path | Source | Sink,
    mode: str = "rb",
    *,
    passphrase: str | Buffer | None = None,
    file_key: Buffer | None = None,
    shared: tuple[Buffer, Buffer] | None = None,
    identity: str | Iterable[str] | None = None,
    recipient: str | Iterable[str] | None = None,
    work: int = 18,
    max_work: int = 22,
    encoding: str | None = None,
    errors: str | None = None,
    newline: str | None = None,
) -> AgeReader | AgeWriter | io.TextIOWrapper:
    """Opens an age file, which is a path or a binary file object: "rb" to read it, "wb" (or "xb", which refuses an existing file) to
    write it; "rt", "wt" and "xt" the same as text. A file object is left open.

    It is read by one of these keys: a passphrase (a str is encoded as UTF-8), or identity: a key of age-keygen ("AGE-SECRET-KEY-1.."),
    several, the text of a key file, or one that is open as text. What opens other kinds of keys gives the file_key of 16 bytes, or shared, a
    pair of an X25519 shared secret and the recipient that it was computed for, of 32 bytes each.

    It is written under a passphrase or for a recipient of age-keygen ("age1.."), several, the text of a file of them, or one that is
    open as text; whoever has the key of any of them can read it. Keys and recipients need the package cryptography.

    work is the work factor of a file that is written under a passphrase, from 1 to 22: its key takes 2^work KiB of memory. Work factors
    above max_work are refused: an untrusted file may demand 4 GiB.

    An argument that isn't allowed is a TypeError or a ValueError, and what is wrong with the file an AgeError.

    >>> import io
    >>> with agefile.open(out := io.BytesIO(), "wt", passphrase="pw", work=1, encoding="utf-8") as file:
    ...     print("a text", file=file)
    >>> out.seek(0)
    0
    >>> with agefile.open(out, "rt", passphrase="pw", encoding="utf-8") as file:
    ...     list(file)
    ['a text\\n']"""
    if mode not in ("r", "w", "x", "rb", "wb", "xb", "rt", "wt", "xt"):
        raise ValueError(f"mode is rb, wb, xb, rt, wt or xt, not {mode!r}")
    is_text, mark = mode.endswith("t"), b""
    if is_text:
        tried = io.TextIOWrapper(
            io.BytesIO(), encoding, errors, newline
        )  # which says what of these can't be
        mark = _MARKS.get(
            codecs.lookup(tried.encoding).name, b""
        )  # (that of "locale" has another name, which codecs knows)
    elif (encoding, errors, newline) != (None, None, None):
        raise ValueError("encoding, errors and newline are for text alone")
    if mode[0] == "r" and recipient is not None:
        raise ValueError("recipient is for writing alone")
    see_one(
        passphrase=passphrase,
        file_key=file_key,
        shared=shared,
        identity=identity,
        recipient=recipient,
    )
    work_factor("work", work)
    work_factor("max_work", max_work)
    # a file that can't be begun is left unchanged
    if mode[0] == "r":
        decoder = Decoder(key_to_read(passphrase, file_key, shared, identity, max_work))
    else:
        encryptor = Encryptor(passphrase=passphrase, recipient=recipient, work=work)
    under, owned = _opened(file, mode[0])
    try:
        if mode[0] == "r":
            reader = AgeReader(Chunks(under, owned, decoder))
            return io.TextIOWrapper(reader, encoding, errors, newline) if is_text else reader
        writer = AgeWriter(under, encryptor, owned)
        writer.write(mark)
        return TextWriter(writer, encoding, errors, newline) if is_text else writer
    except BaseException:
        if owned:
            under.close()
        raise
