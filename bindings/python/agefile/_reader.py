"""The reader of an age file."""
from __future__ import annotations

import io
import threading
from typing import Any

from ._coders import Decoder, read_header
from ._library import (
    BLOCK,
    CHUNK,
    MAC_MISMATCH,
    TRAILING,
    TRUNCATED,
    AgeError,
    WrongKey,
    address,
    again,
    fault_of,
)
from ._source import can_seek, filled, read_by, some

MOST = 64  # blocks that are read at once, if a call asks for so many: 4 MiB
LOST = "a read of this file failed or was interrupted, so that bytes may be lost: seek to a place that you know, or open it again"


def header_of(file: Any, decoder: Decoder) -> tuple[bytes, bytes]:
    """Reads a file until a decoder has opened its header: that and the nonce, and what was read after them."""
    answer, front = read_header(decoder, lambda: some(file, CHUNK))
    if answer != 0:
        raise decoder.fault(answer)
    return front[: decoder.payload_at], front[decoder.payload_at :]


class Blocks:
    """The blocks of a file that stands after its header, and of which this much is read already: at any place if it can seek, else in their order."""

    def __init__(self, file: Any, rest: bytes) -> None:
        self.file, self.can_seek, self._rest = file, can_seek(file), rest
        self._begin = file.tell() - len(rest) if self.can_seek else 0  # of the payload

    def read(self, number: int, room: memoryview) -> int:
        """Reads blocks from that number on: how much the file has of what there is room for."""
        if self.can_seek:
            read_by(self.file.seek, self._begin + number * BLOCK)
            return filled(self.file, room)
        have = min(len(self._rest), len(room))
        room[:have] = self._rest[:have]
        self._rest = self._rest[have:]
        return filled(self.file, room, have)

    def length(self) -> int:
        """How long all of them are, of a file that can seek. (A gzip file is read to its end for that.)"""
        read_by(self.file.seek, 0, io.SEEK_END)
        length: int = self.file.tell() - self._begin
        return max(0, length)


class Chunks(io.RawIOBase):
    """The plaintext of an age file, by its chunks, each of which the library opens at its place. io.BufferedReader above it has the lines,
    peek() and the lock. After a read that failed or was interrupted each one is refused until a seek: io.BufferedReader has lost bytes
    then."""

    def __init__(self, file: Any, owned: bool, decoder: Decoder, header: bytes = b"") -> None:
        super().__init__()
        self._file, self._owned, self.decoder, self._lock = file, owned, decoder, threading.RLock()
        front = memoryview(bytearray(len(header)))
        if (
            bytes(front[: filled(file, front)]) != header
        ):  # a file that is opened once more has to have this one
            raise WrongKey(MAC_MISMATCH)
        self.header, rest = (header, b"") if header else header_of(file, decoder)
        self._blocks = Blocks(file, rest)
        self._block, self._text = memoryview(bytearray(BLOCK)), memoryview(bytearray(CHUNK))
        self._number, self._count = (
            -1,
            0,
        )  # of the chunk whose plaintext is held, and how long that is
        self._last = -1  # the number of the last chunk, once it was opened
        self._end = -1  # where the plaintext ends, once that is known
        self._place = 0
        self._fault: Exception | None = None  # of each read until a seek
        self._lost = OSError(LOST)

    # ---- chunks

    def _open(self, number: int, block: memoryview, out: memoryview) -> int:
        """Opens a chunk by its block, or what the file has of it: how long its plaintext is."""
        answer, count, is_last = self.decoder.open_at(
            number, address(block), len(block), address(out)
        )
        if answer != 0:
            raise fault_of(answer, number)
        if count < min(
            CHUNK, self._end - number * CHUNK
        ):  # a writer with the key put a shorter file in its place
            raise fault_of(TRUNCATED, number)
        if is_last:
            self._last = number
            self._end = self._end if len(block) == BLOCK else number * CHUNK + count
        return count

    def _hold(self, number: int, have: int) -> None:
        """Opens a chunk whose block was read, and keeps its plaintext."""
        self._number = -1
        self._count = self._open(number, self._block[:have], self._text)
        self._number = number

    def _open_into(self, room: memoryview, number: int, blocks: memoryview) -> int:
        """Opens chunks into room for them, up to one with a fault, which the next read meets."""
        count = self._open(number, blocks[:BLOCK], room)
        for at in range(BLOCK, len(blocks), BLOCK):
            try:
                count += self._open(number + at // BLOCK, blocks[at : at + BLOCK], room[count:])
            except AgeError:
                break
        self._place += count
        return count

    def _see_end(self) -> None:
        """Looks whether anything follows the last chunk, which is full."""
        if self._end >= 0:  # a writer with the key put a shorter file in its place
            raise fault_of(TRUNCATED, self._last + 1)
        if self._blocks.read(self._last + 1, self._block[:1]) > 0:
            raise fault_of(TRAILING)
        self._end = (self._last + 1) * CHUNK

    def _measure(self) -> None:
        """Finds the last chunk by the length of the file, and the length of the plaintext by that chunk, which proves it."""
        payload = self._blocks.length()
        answer, size = self.decoder.size(payload + len(self.header))
        if answer != 0:
            raise fault_of(answer, payload // BLOCK)
        last = (
            max(0, size - 1) // CHUNK
        )  # (a file may say that it is longer than it is, so that `size` proves nothing)
        self._hold(last, self._blocks.read(last, self._block))
        if self._last != last:
            raise fault_of(TRUNCATED, last + 1)
        if self._end < 0:
            self._see_end()

    def size(self) -> int:
        """The length of the plaintext, once the last chunk was opened."""
        with self._lock:
            self._see_open()
            if self._end < 0 and not self._blocks.can_seek:
                raise io.UnsupportedOperation("the size of a file that can't seek")
            if self._end < 0:
                self._measure()
            return self._end

    # ---- what io.BufferedReader calls

    def _see_open(self) -> None:
        if self.closed:
            raise ValueError("the file is closed")

    def readinto(self, room: Any, /) -> int:
        before, self._fault = (
            self._fault,
            self._lost,
        )  # until it returns: what comes between may be interrupted
        count: int = self._reading(before, self._read_some, room)
        self._fault = None
        return count

    def readall(self) -> bytes:
        before, self._fault = self._fault, self._lost
        text: bytes = self._reading(before, self._read_all)
        self._fault = None
        return text

    def _reading(self, before: Exception | None, call: Any, *words: Any) -> Any:
        """Makes a call that reads, unless there was a fault before. Its own fault is that of each one then."""
        with self._lock:
            self._see_open()
            self._fault = before or self._fault
            if before is not None:
                raise again(before)
            try:
                return call(*words)
            except AgeError as fault:
                self._fault = fault
                raise again(fault) from None

    def _read_all(self) -> bytes:
        text, room = io.BytesIO(), memoryview(bytearray(16 * CHUNK))
        while count := self._read_some(room):
            text.write(room[:count])
        return text.getvalue()

    def _read_some(self, given: Any) -> int:
        room = memoryview(given).cast("B")
        while len(room) > 0 and (self._end < 0 or self._place < self._end):
            number, at = divmod(self._place, CHUNK)
            if number == self._number and at < self._count:
                count = min(len(room), self._count - at)
                room[:count] = self._text[at : at + count]
                self._place += count
                return count
            if 0 <= self._last < number:
                self._see_end()
                continue
            most = (
                min(len(room) // CHUNK, MOST if self._blocks.can_seek else 1) if at == 0 else 0
            )  # chunks for which there is room
            blocks = memoryview(bytearray(most * BLOCK)) if most > 1 else self._block
            have = self._blocks.read(number, blocks)
            if have == 0 and number > 0 and self._blocks.can_seek and self._end < 0:
                self._measure()  # it may be beyond the end
            elif most > 0:
                return self._open_into(room, number, blocks[:have])
            else:
                self._hold(number, have)
        return 0

    def seek(self, offset: int, whence: int = io.SEEK_SET, /) -> int:
        with self._lock:
            if not self.seekable():
                raise io.UnsupportedOperation("seek")
            if whence not in (io.SEEK_SET, io.SEEK_CUR, io.SEEK_END):
                raise ValueError(f"bad whence {whence!r}")
            place = offset + (
                self.size()
                if whence == io.SEEK_END
                else self._place
                if whence == io.SEEK_CUR
                else 0
            )
            if place < 0:
                raise ValueError(f"negative place {place}")
            self._place, self._fault = place, None
            return place

    def tell(self) -> int:
        self._see_open()
        return self._place

    def seekable(self) -> bool:
        self._see_open()
        return self._blocks.can_seek

    def readable(self) -> bool:
        self._see_open()
        return True

    @property
    def name(self) -> Any:
        return self._file.name

    @property
    def mode(self) -> str:
        return "rb"

    def close(self) -> None:
        with self._lock:
            if self.closed:
                return
            try:
                super().close()
            finally:
                del self.decoder  # which overwrites the key, once no other reader has it
                if self._owned:
                    self._file.close()


class AgeReader(io.BufferedReader):
    """The plaintext of an age file: an io.BufferedReader that can seek if the file can.

    >>> import io
    >>> file = agefile.open(io.BytesIO(agefile.encrypt(b"one\\ntwo\\n", passphrase="pw", work=1)), passphrase="pw")
    >>> file.size, next(file), file.seek(-2, 2), file.read()
    (8, b'one\\n', 6, b'o\\n')"""

    def __init__(self, chunks: Chunks) -> None:
        super().__init__(chunks, CHUNK)
        self._chunks = chunks

    @property
    def size(self) -> int:
        """The length of the plaintext, which the last chunk proves: if it doesn't open, this raises the fault."""
        return self._chunks.size()

    def reopen(self, file: Any) -> AgeReader:
        """Another reader of the same age file, over another file object, for another thread, say. It needs no key, and no scrypt."""
        self._chunks._see_open()
        return AgeReader(Chunks(file, False, self._chunks.decoder, self._chunks.header))
