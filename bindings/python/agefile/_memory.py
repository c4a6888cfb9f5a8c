"""Age files in memory."""
from __future__ import annotations

import ctypes
import io
from concurrent.futures import ThreadPoolExecutor
from typing import Iterable

from ._arguments import Buffer, raw, whole_number
from ._coders import Decoder, key_to_read
from ._library import BLOCK, CHUNK, TRAILING, TRUNCATED, C, fault_of, made
from ._push import Decryptor
from ._reader import header_of
from ._recipients import key_to_write

WORKERS_MAX = 64
PART = 64  # chunks that a worker decrypts at a time: 4 MiB


def encrypt(
    text: Buffer,
    *,
    passphrase: str | Buffer | None = None,
    recipient: str | Iterable[str] | None = None,
    work: int = 18,
) -> bytes:
    """The age file of a plaintext in memory, under a passphrase or for recipients.

    >>> agefile.encrypt(b"text", passphrase="pw", work=1)[:21]
    b'age-encryption.org/v1'"""
    held, key = text if type(text) is bytes else raw("text", text), key_to_write(
        passphrase, recipient, work
    )
    return made(
        C.agefile_sealed_len(key.key, len(held)), C.agefile_encrypt, key.key, held, len(held)
    )


def decrypt(
    data: Buffer,
    *,
    passphrase: str | Buffer | None = None,
    file_key: Buffer | None = None,
    shared: tuple[Buffer, Buffer] | None = None,
    identity: str | Iterable[str] | None = None,
    max_work: int = 22,
    workers: int = 1,
) -> bytes:
    """The plaintext of an age file in memory: all of it, or an exception. Several workers, 1 to 64, are threads that decrypt parts of it.

    >>> data = agefile.encrypt(b"text", passphrase="pw", work=1)
    >>> agefile.decrypt(data, passphrase="pw", workers=4)
    b'text'
    >>> agefile.decrypt(data[:-1], passphrase="pw")
    Traceback (most recent call last):
        ...
    agefile.NotWhole: the file is damaged or was cut here, or something was appended (17 ChunkDamaged chunk 0)
    """
    count, held = whole_number("workers", workers, WORKERS_MAX), data if type(
        data
    ) is bytes else raw("data", data)
    if count > 1:
        decoder = Decoder(key_to_read(passphrase, file_key, shared, identity, max_work))
        header_of(io.BytesIO(held), decoder)
        answer, size = decoder.size(len(held))
        if answer == 0:
            return _by_workers(decoder, held, size, count)
    with Decryptor(
        passphrase=passphrase,
        file_key=file_key,
        shared=shared,
        identity=identity,
        max_work=max_work,
    ) as it:
        return it.update(held) + it.finish()


def _by_workers(decoder: Decoder, data: bytes, size: int, workers: int) -> bytes:
    """The plaintext of a file of which it has this length if it is whole: all of it, or the fault of the first chunk that has one."""
    begin, last = decoder.payload_at, max(0, size - 1) // CHUNK
    file, text = ctypes.cast(ctypes.c_char_p(data), ctypes.c_void_p).value or 0, io.BytesIO(
        bytes((last + 1) * CHUNK)
    )
    out = text.getbuffer()

    def opens(first: int) -> None:
        for number in range(first, min(first + PART, last + 1)):
            room = (ctypes.c_char * CHUNK).from_buffer(
                out, number * CHUNK
            )  # (which keeps it there)
            at = begin + number * BLOCK
            answer, _, is_last = decoder.open_at(
                number, file + at, min(BLOCK, len(data) - at), ctypes.addressof(room)
            )
            if answer != 0:
                raise fault_of(answer, number)
            if is_last != (number == last):
                raise fault_of(TRAILING) if is_last else fault_of(TRUNCATED, last + 1)

    pool = ThreadPoolExecutor(workers)
    try:
        for _ in pool.map(
            opens, range(0, last + 1, PART)
        ):  # in their order, so that the first fault is raised
            pass
    finally:  # (also if a signal's handler raises: the threads end with the part that they have)
        pool.shutdown(cancel_futures=True)
    out.release()
    text.truncate(size)
    return text.getvalue()
