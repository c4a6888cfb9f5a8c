"""An encoder and a decoder of the C library, and the keys that they take."""
from __future__ import annotations

import ctypes
import os
import weakref
from typing import Any, Callable, Iterable, NamedTuple, NoReturn

from ._arguments import KEY, Buffer, key, pair, secret, see_one, work_factor
from ._keys import Pair, identities_of, pair_of
from ._library import (
    CHUNK,
    MAC_MISMATCH,
    NOWHERE,
    WRONG_KEY,
    C,
    Key,
    WrongKey,
    fault_of,
    made,
    written,
)


class Alone:
    """What can't be copied, pickled, or used by a forked child: two of them would encrypt with one key."""

    def __init__(self) -> None:
        self._pid = os.getpid()

    def _see_own(self) -> None:
        if self._pid != os.getpid():
            raise ValueError("the file belongs to the process that this one was forked from")

    def __reduce_ex__(self, _: Any) -> NoReturn:
        raise TypeError(f"cannot pickle or copy {type(self).__name__}")


class HeldKey(NamedTuple):
    """A key of the library, the bytes that it points to, and the identities that stand for it until a header's stanzas are known."""

    key: Key
    held: tuple[bytes, ...]
    identities: tuple[str, ...] = ()
    is_file_key: bool = False


def under_passphrase(passphrase: Any, work: int) -> HeldKey:
    """The key of a passphrase, and the work factor, or the greatest that is allowed."""
    word = secret(passphrase)
    made = C.agefile_passphrase(word, len(word))
    made.work = work
    return HeldKey(made, (word,))


def of_pair(pair: Pair, *identities: str) -> HeldKey:
    """The key of a shared secret and a recipient."""
    return HeldKey(C.agefile_shared(pair[0], None, pair[1]), pair, identities)


def random_pair() -> Pair:
    """One for which nobody could have made a stanza that it opens."""
    return os.urandom(32), os.urandom(32)


def key_to_read(
    passphrase: str | Buffer | None,
    file_key: Buffer | None,
    shared: tuple[Buffer, Buffer] | None,
    identity: str | Iterable[str] | None,
    max_work: int,
) -> HeldKey:
    """The one key that is given."""
    see_one(passphrase=passphrase, file_key=file_key, shared=shared, identity=identity)
    most = work_factor("max_work", max_work)
    if identity is not None:
        return of_pair(random_pair(), *identities_of(identity))
    if passphrase is not None:
        return under_passphrase(passphrase, most)
    if file_key is not None:
        held = key("file_key", file_key, KEY)
        return HeldKey(C.agefile_file_key(held), (held,), is_file_key=True)
    return of_pair(pair(shared))


def read_header(decoder: Decoder, read: Callable[[], bytes]) -> tuple[int, bytes]:
    """Gives a decoder what is read, b"" at the end, until it has opened the header or says why not: the answer, and all that was read."""
    front, answer = bytearray(), 0
    while answer == 0 and not decoder.payload_at:
        piece = read()
        front += piece
        answer, _ = decoder.decode(piece) if piece else decoder.end()
    return answer, bytes(front)


def shared_secret(identities: list[str], read: Callable[[], bytes]) -> tuple[int, Pair]:
    """The shared secret and the recipient of the stanza of a header, as it is read, that one of these keys opens; and the answer to that. If no key
    opens it, or it isn't well-formed, they are random."""
    decoder = Decoder(of_pair(random_pair(), *identities))
    return read_header(decoder, read)[0], decoder.pair


class Encoder:
    """agefile_encoder."""

    def __init__(self, key: HeldKey) -> None:
        self._it = ctypes.c_void_p()
        if (answer := C.agefile_encoder_new(self._it, key.key)) != 0:
            raise fault_of(answer)
        weakref.finalize(self, C.agefile_encoder_free, self._it).atexit = False

    def encode(self, text: bytes) -> bytes:
        return made(
            C.agefile_encode_room(self._it, len(text)), C.agefile_encode, self._it, text, len(text)
        )

    def end(self) -> bytes:
        return made(C.agefile_encode_end_room(self._it), C.agefile_encode_end, self._it)


class Decoder:
    """agefile_decoder. By identities it is begun with a random pair, with which the library says what is wrong with the header, or that it has
    stanzas that an identity may open: then it is begun again with the pair of the one that does, if there is one.
    """

    def __init__(self, key: HeldKey) -> None:
        self._it, self._key, self._front = ctypes.c_void_p(), key, bytearray()
        if (answer := C.agefile_decoder_new(self._it, key.key)) != 0:
            raise fault_of(answer)
        weakref.finalize(self, C.agefile_decoder_free, self._it).atexit = False

    @property
    def pair(self) -> Pair:
        """The secret and the recipient that it was begun with last."""
        secret, recipient = self._key.held
        return secret, recipient

    @property
    def payload_at(self) -> int:
        """Where the payload begins in the file, once the header is open; 0 before."""
        at: int = C.agefile_payload_at(self._it)
        return at

    def decode(self, file: bytes) -> tuple[int, bytes]:
        """What the library answers to more of the file, and the plaintext that it wrote."""
        if self._key.identities:
            self._front += file
        answer, text = self._decode(file)
        return self._begin_again() if self._is_refused(answer) else (answer, text)

    def end(self) -> tuple[int, bytes]:
        """The same at the end of the file."""
        answer, text = self._end()
        if self._is_refused(answer):
            answer, text = self._begin_again()
            if answer == 0:
                answer, more = self._end()
                text += more
        return answer, text

    def _decode(self, file: bytes) -> tuple[int, bytes]:
        return written(
            C.agefile_decode_room(self._it, len(file)), C.agefile_decode, self._it, file, len(file)
        )

    def _end(self) -> tuple[int, bytes]:
        return written(C.agefile_decode_end_room(self._it), C.agefile_decode_end, self._it)

    def _is_refused(self, answer: int) -> bool:
        """Whether the header is there, and has stanzas that an identity may open."""
        return answer == WRONG_KEY and len(self._key.identities) > 0

    def _begin_again(self) -> tuple[int, bytes]:
        """The same as before, by what an identity opens."""
        front, self._front = bytes(self._front), bytearray()
        self._key = of_pair(pair_of(self._key.identities, front) or random_pair())
        answer: int = C.agefile_decoder_begin(self._it, self._key.key)
        return (answer, b"") if answer != 0 else self._decode(front)

    def fault(self, answer: int) -> Exception:
        """The exception for what was answered last."""
        if answer == MAC_MISMATCH and self._key.is_file_key:
            return WrongKey(answer)
        chunk = C.agefile_fault_chunk(self._it)
        return fault_of(answer, None if chunk == NOWHERE else chunk)

    def open_at(self, chunk: int, block: int, have: int, out: int) -> tuple[int, int, bool]:
        """Opens a chunk by its block at an address, or what the file has of it, to one where there is room for a full chunk: the answer, how long
        its plaintext is, and whether it is the last. Threads may do so side by side."""
        count, is_last = ctypes.c_size_t(), ctypes.c_int()
        answer: int = C.agefile_open_at(self._it, chunk, block, have, out, CHUNK, count, is_last)
        return answer, count.value, is_last.value != 0

    def size(self, file: int) -> tuple[int, int]:
        """The answer, and how long the plaintext of a file of that length is, if it is complete."""
        size = ctypes.c_uint64()
        answer: int = C.agefile_size(self._it, file, size)
        return answer, size.value
