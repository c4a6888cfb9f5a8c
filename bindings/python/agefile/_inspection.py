"""What an age file says about itself, before a key is asked for."""
from __future__ import annotations

import builtins
import os
from typing import Any, NamedTuple

from ._coders import Decoder, key_to_read, read_header
from ._library import CHUNK, MAC_MISMATCH, told_of
from ._source import can_seek, some


class Stanza(NamedTuple):
    """What a stanza's first line says: a file for a passphrase has one "scrypt", one for keys of age-keygen an "X25519" for each."""

    type: str
    arguments: list[str]


class Inspection(NamedTuple):
    """What a file says about itself. Only a key can show whether that is true."""

    stanzas: list[Stanza]
    work: int | None  # the work factor, if it is for a passphrase
    header_size: int  # in bytes


def inspect(file: Any) -> Inspection:
    """What the header of an age file (a path or a binary file object) says. A file object is left where it was, if it is seekable.
    A header that isn't well-formed is an AgeError, as it is for `open`.

    >>> import io
    >>> agefile.inspect(io.BytesIO(agefile.encrypt(b"text", passphrase="pw", work=1))).work
    1"""
    if isinstance(file, (str, bytes, os.PathLike)):
        with builtins.open(file, "rb", buffering=0) as under:
            return _inspected(under)
    place = file.tell() if can_seek(file) else None
    try:
        return _inspected(file)
    finally:
        if place is not None:
            file.seek(place)


def _inspected(file: Any) -> Inspection:
    """The same of a file object. A random file key opens nothing, but the library looks at the whole header before it says so."""
    decoder = Decoder(key_to_read(None, os.urandom(16), None, None, 22))
    answer, front = read_header(decoder, lambda: some(file, CHUNK))
    if answer != MAC_MISMATCH:
        raise decoder.fault(answer)
    size, work, stanzas = told_of(front)
    words = [args.decode().split(" ") for args, _ in stanzas]
    return Inspection([Stanza(it[0], it[1:]) for it in words], work or None, size)
