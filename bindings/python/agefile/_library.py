"""The C library, and the faults that it answers."""
from __future__ import annotations

import ctypes
import io
import os
import pathlib
from typing import Any

VERSION = 2_00_00  # major, minor and patch, as AGEFILE_VERSION
CHUNK = 65_536
BLOCK = 65_552
# What it answers, by the names of agefile.h.
NO_MATCH, WRONG_KEY, MAC_MISMATCH, TRUNCATED, TRAILING, NO_PROCESSOR, CUT_IN_HEADER = (
    12,
    13,
    14,
    20,
    21,
    252,
    254,
)
CUT = (8, 16, 18, TRUNCATED, CUT_IN_HEADER)  # of a file that can only have been cut
NOWHERE = (1 << 64) - 1  # the chunk of a fault that has none


class AgeError(Exception):
    """What is wrong with a file: its `number` and `name` in docs/FAULTS.md, and the number of the `chunk`, if it has one. 254 says that
    the file ends in its header or in the 16 bytes after it.

    It isn't an OSError, so that code that treats an OSError as "no" (zipfile.is_zipfile) can't mistake damage for it.

    >>> fault = NotWhole(17, 3)
    >>> fault.number, fault.name, fault.chunk
    (17, 'ChunkDamaged', 3)
    >>> print(fault)
    the file is damaged or was cut here, or something was appended (17 ChunkDamaged chunk 3)"""

    def __init__(self, number: int, chunk: int | None = None) -> None:
        super().__init__(number, chunk)
        self.number, self.chunk = number, chunk
        self.name: str = C.agefile_fault_name(number).decode()

    def __str__(self) -> str:
        chunk = "" if self.chunk is None else f" chunk {self.chunk}"
        return f"{C.agefile_fault_text(self.number).decode()} ({self.number} {self.name}{chunk})"


class WrongKey(AgeError):
    """The key isn't the file's: another passphrase or secret (13), another file key (14), or another kind of key (12). A header that was
    damaged where it says whom the file is for can't be told from that."""


class NotWhole(AgeError):
    """The file isn't as an age program left it: it was truncated, damaged, altered or forged, something was appended to it, or it never
    was a binary age file (1 to 10, 14 to 22 and 254)."""


class Truncated(NotWhole):
    """The file ends too early: in its header or nonce (254), before a chunk (20), or in the first bytes of one (18). Most truncated files
    end later in a chunk, which can't be told from damage: they are NotWhole (17)."""


class WorkTooHigh(AgeError):
    """The work factor is above max_work (11)."""


class OutOfMemory(AgeError, MemoryError):
    """There isn't enough memory (28): a work factor of N takes 2^N KiB."""


SYSTEM = 6  # the kind of what is no fault of a file
_KINDS: dict[int, type[AgeError]] = {1: WrongKey, 2: NotWhole, 3: WorkTooHigh, 4: OutOfMemory}


def fault_of(number: int, chunk: int | None = None) -> Exception:
    """The exception for an answer."""
    kind = C.agefile_fault_kind(number)
    if kind == SYSTEM:
        return OSError(C.agefile_fault_text(number).decode())
    return Truncated(number, chunk) if number in CUT else _KINDS.get(kind, AgeError)(number, chunk)


def again(fault: Exception) -> Exception:
    """A copy of it. (An exception that was raised keeps alive what its callers held.)"""
    return type(fault)(*fault.args)


class Key(ctypes.Structure):
    """agefile_key of agefile.h. The bytes that it points to have to stay."""

    _fields_ = [
        ("kind", ctypes.c_uint32),
        ("work", ctypes.c_uint32),
        *((it, ctypes.c_void_p) for it in ("at", "with", "to")),
        *((it, ctypes.c_size_t) for it in ("len", "with_len")),
    ]


class StanzaPlace(ctypes.Structure):
    """agefile_stanza of agefile.h."""

    _fields_ = [(it, ctypes.c_size_t) for it in ("args_at", "args_len", "body_at", "body_len")]


def _found() -> str:
    """The library's file: the one that AGEFILE_LIBRARY names, else the one beside this package or in it, else that of the release or of
    `bindings/build` in whose folders it is, else one that the loader finds."""
    package = pathlib.Path(__file__).resolve().parent
    places = [
        it / name
        for it in (package, package.parent)
        for name in ("libagefile.so", "libagefile.so.2")
    ]
    if package.parts[-3:-1] == ("share", "age_tool"):
        places.append(package.parents[2] / "lib" / "libagefile.so.2")
    if package.parts[-3:-1] == ("bindings", "python"):
        places.append(package.parents[1] / "out" / "libagefile.so")
    beside = next((str(it) for it in places if it.exists()), None)
    return os.environ.get("AGEFILE_LIBRARY") or beside or "libagefile.so.2"


def fits(version: int) -> bool:
    """Whether a library of this version does what the one that this module was made with did: a later 2.x does."""
    return VERSION <= version and version // 10_000 == VERSION // 10_000


def _library() -> ctypes.CDLL:
    name = _found()
    try:
        library = ctypes.CDLL(name)
    except OSError as fault:
        raise ImportError(
            f"no libagefile.so: make it by bindings/build, or let AGEFILE_LIBRARY name it ({fault})"
        ) from None
    # (before the other calls: an older library may lack some)
    if not fits(library.agefile_version()):
        raise ImportError(
            f"{name}: version {library.agefile_version()}, not {VERSION} or a later one that runs what it did"
        )
    number, long, size, it, text = (
        ctypes.c_int,
        ctypes.c_uint64,
        ctypes.c_size_t,
        ctypes.c_void_p,
        ctypes.c_char_p,
    )
    given, count, made = [it, size], ctypes.POINTER(size), ctypes.POINTER(it)
    functions: dict[str, list[Any]] = {
        "passphrase": [Key, it, size],
        "file_key": [Key, it],
        "wrapped": [Key, it, *given],
        "shared": [Key, it, it, it],
        "encrypt": [number, Key, *given, *given, count],
        "sealed_len": [size, Key, size],
        "encoder_new": [number, made, Key],
        "encode": [number, it, *given, *given, count],
        "encode_end": [number, it, *given, count],
        "encode_room": [size, it, size],
        "encode_end_room": [size, it],
        "encoder_free": [None, it],
        "decoder_new": [number, made, Key],
        "decoder_begin": [number, it, Key],
        "decode": [number, it, *given, *given, count],
        "decode_end": [number, it, *given, count],
        "decode_room": [size, it, size],
        "decode_end_room": [size, it],
        "decoder_free": [None, it],
        "payload_at": [long, it],
        "fault_chunk": [long, it],
        "size": [number, it, long, ctypes.POINTER(long)],
        "open_at": [number, it, long, *given, *given, count, ctypes.POINTER(number)],
        "header": [number, *given, count, count, ctypes.POINTER(ctypes.c_uint32)],
        "stanzas": [number, *given, ctypes.POINTER(StanzaPlace), size, count, *given, count],
        "fault_name": [text, number],
        "fault_text": [text, number],
        "fault_kind": [number, number],
    }
    for function, (result, *arguments) in functions.items():
        call = getattr(library, f"agefile_{function}")
        call.restype, call.argtypes = result, arguments
    if library.agefile_header(None, 0, size(), size(), ctypes.c_uint32()) == NO_PROCESSOR:
        raise ImportError(
            f"{name} needs a processor with x86-64-v2 (SSE4.2 and POPCNT), and this one hasn't that"
        )
    return library


C = _library()


def address(held: memoryview) -> int:
    """Where bytes that can be written to are. They have to stay there."""
    return ctypes.addressof(ctypes.c_char.from_buffer(held)) if len(held) else 0


def told_of(front: bytes) -> tuple[int, int, list[tuple[bytes, bytes]]]:
    """What the header says that these bytes begin with, which nobody has confirmed: its length, the work factor that it demands of a passphrase (0 if
    none opens it), and of each stanza the arguments, with a space between two of them, and the bytes of the body.
    """
    size, count, work = ctypes.c_size_t(), ctypes.c_size_t(), ctypes.c_uint32()
    if (answer := C.agefile_header(front, len(front), size, count, work)) != 0:
        raise fault_of(answer)
    places = (StanzaPlace * count.value)()
    bodies = made(size.value, C.agefile_stanzas, front, len(front), places, len(places), count)
    stanzas = [
        (
            front[it.args_at : it.args_at + it.args_len],
            bodies[it.body_at : it.body_at + it.body_len],
        )
        for it in places
    ]
    return size.value, work.value, stanzas


def made(room: int, call: Any, *words: Any) -> bytes:
    """What a call wrote, for which there is this much room, unless it answers a fault."""
    answer, held = written(room, call, *words)
    if answer != 0:
        raise fault_of(answer)
    return held


def written(room: int, call: Any, *words: Any) -> tuple[int, bytes]:
    """What a call answers and, without a copy, what it wrote, for which there is this much room."""
    held, count = io.BytesIO(bytes(room)), ctypes.c_size_t()
    with held.getbuffer() as view:
        answer: int = call(*words, address(view), room, count)
    held.truncate(count.value)
    return answer, held.getvalue()
