"""What can be saved of a damaged or truncated age file: each chunk that still opens, at its place."""
from __future__ import annotations

import builtins
import os
from typing import Any, Callable, Iterable, Literal, NamedTuple

from ._arguments import Buffer
from ._coders import Decoder, key_to_read
from ._library import BLOCK, CHUNK, TRUNCATED, address
from ._output import is_one, opened_alone, reach_disk
from ._reader import Blocks, header_of
from ._source import put

TAG = 16


class Salvage(NamedTuple):
    """What was saved. Where a chunk didn't open, the plaintext has zeros."""

    size: int  # of the text that was written
    lost: list[tuple[int, int]]  # what is zeros in it: the first byte, and the byte after the last
    ends: bool  # whether the last chunk opened: else the text may have been longer
    followed: bool  # whether something was appended to the file, which is left out

    @property
    def is_whole(self) -> bool:
        return not self.lost and self.ends


class _Out:
    """What is written to, from the first plaintext on: zeros for what was lost, until then and after it."""

    def __init__(self, out: Any, is_new: bool) -> None:
        self._out, self._is_new, self._size = out, is_new, 0
        self._file = None if isinstance(out, (str, bytes, os.PathLike)) else out
        self._owned = self._file is None
        self._made = (
            out if self._owned and not os.path.exists(out) else None
        )  # a path that isn't on the disk yet

    def put(self, at: int, text: bytes) -> None:
        """Writes a plaintext at its place."""
        if self._file is None:
            self._file = opened_alone(self._out, self._is_new)
        self.zeros(at)
        self._write(text)

    def zeros(self, end: int) -> None:
        """Writes zeros up to a place."""
        while self._size < end:
            self._write(bytes(min(CHUNK, end - self._size)))

    def _write(self, text: bytes) -> None:
        self._size += len(text)
        put(self._file, text)

    def close(self) -> None:
        if self._owned and self._file is not None:
            with self._file:  # (which closes it, and lets go of its lock, whatever fails)
                self._file.flush()
                reach_disk(self._file, self._made)


def _read(blocks: Blocks, length: int, number: int, room: memoryview) -> tuple[int, bool]:
    """How many bytes the file has of a block, and whether they are in the room: one that can't be read is lost, if the file can seek."""
    have = max(0, min(BLOCK, length - number * BLOCK))
    try:
        return (
            blocks.read(number, room[:have] if blocks.can_seek else room),
            True,
        )  # (a file that ends sooner than it said ends there)
    except OSError:
        if not blocks.can_seek:
            raise
        return have, False


def _see_apart(file: Any, out: Any) -> None:
    """Refuses to overwrite the file that is read."""
    try:
        given = (
            os.stat(out) if isinstance(out, (str, bytes, os.PathLike)) else os.fstat(out.fileno())
        )
        one = is_one(given, os.fstat(file.fileno()))
    except (AttributeError, OSError):  # one has no descriptor, or there is no such file yet
        one = file is out
    if one:
        raise ValueError("file and out are one file")


def salvage(
    file: Any,
    out: Any,
    *,
    passphrase: str | Buffer | None = None,
    file_key: Buffer | None = None,
    shared: tuple[Buffer, Buffer] | None = None,
    identity: str | Iterable[str] | None = None,
    max_work: int = 22,
    progress: Callable[[int], None] | None = None,
    mode: Literal["wb", "xb"] = "wb",
) -> Salvage:
    """Writes each chunk of a damaged or truncated age file that still opens, at its place, to a path or a binary file object, and zeros
    for each chunk that doesn't. What is written is authentic: no tag is forged, and no chunk is in another one's place. The header must
    be complete. `out` isn't touched before a chunk has opened: a path is opened and locked then, in mode "xb" only if it doesn't exist by
    then. The file that is read is refused as `out`. `progress` is told the number of chunks after each.

    >>> import io
    >>> data = agefile.encrypt(bytes(100_000), passphrase="pw", work=1)
    >>> agefile.salvage(io.BytesIO(data[:-1]), io.BytesIO(), passphrase="pw")
    Salvage(size=99999, lost=[(65536, 99999)], ends=False, followed=False)"""
    if mode not in ("wb", "xb"):
        raise ValueError(f"mode is 'wb' or 'xb', not {mode!r}")
    decoder = Decoder(key_to_read(passphrase, file_key, shared, identity, max_work))
    under = (
        builtins.open(file, "rb", buffering=0)
        if isinstance(file, (str, bytes, os.PathLike))
        else file
    )
    to = _Out(out, mode == "xb")
    try:
        _see_apart(under, out)
        return _saved(
            Blocks(under, header_of(under, decoder)[1]), decoder, to, progress or (lambda _: None)
        )
    finally:
        try:
            to.close()
        finally:
            if under is not file:
                under.close()


def _saved(blocks: Blocks, decoder: Decoder, out: _Out, progress: Callable[[int], None]) -> Salvage:
    lost: list[tuple[int, int]] = []
    number, size, ends, have, opens = 0, 0, False, BLOCK, False
    block, text, length = (
        memoryview(bytearray(BLOCK)),
        memoryview(bytearray(CHUNK)),
        blocks.length() if blocks.can_seek else 0,
    )
    while have == BLOCK and not ends:
        have, is_there = _read(blocks, length, number, block)
        answer, count, is_last = (
            decoder.open_at(number, address(block), have, address(text))
            if is_there
            else (TRUNCATED, 0, False)
        )
        at = number * CHUNK
        if answer == 0:
            out.put(at, bytes(text[:count]))
            opens, size, ends = True, at + count, is_last
        elif have > TAG or have == BLOCK:
            size = at + have - TAG
            lost[-1:] = (
                [(lost[-1][0], size)] if lost and lost[-1][1] == at else [*lost[-1:], (at, size)]
            )
        number += 1
        progress(number)
    if not opens:
        return Salvage(0, [], False, False)
    out.zeros(size)
    return Salvage(
        size, lost, ends, ends and have == BLOCK and _read(blocks, length, number, block)[0] > 0
    )
