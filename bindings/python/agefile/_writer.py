"""The writer of an age file."""
from __future__ import annotations

import contextlib
import io
import threading
import warnings
from types import TracebackType
from typing import TYPE_CHECKING, Any, BinaryIO

from ._arguments import raw
from ._coders import Alone
from ._push import Encryptor
from ._source import put

if TYPE_CHECKING:

    class Buffered(Alone, io.BufferedIOBase, BinaryIO):  # type: ignore[misc]
        """So that what asks for a BinaryIO takes it."""

else:

    class Buffered(Alone, io.BufferedIOBase):
        pass


GATHERED = 16_384  # bytes of short writes that are encrypted together
PIECE = 1 << 20  # bytes that are encrypted at once
UNWHOLE = "a write or close() failed or was interrupted, or is going on: the file isn't whole, for all that is known"


class AgeWriter(Buffered):
    """An age file that is being written. It is complete once close() has returned; abandon() leaves one that every reader refuses, and so does
    an exception that leaves its `with`. The file object that is written to gets bytes, which it may keep. In a forked child every call is
    refused: the file is its parent's.

    >>> import io
    >>> with agefile.open(out := io.BytesIO(), "wb", passphrase="pw", work=1) as file:
    ...     file.write(b"text")
    4
    >>> agefile.decrypt(out.getvalue(), passphrase="pw")
    b'text'"""

    def __init__(self, file: Any, made: Encryptor, owned: bool = False) -> None:
        super().__init__()
        self._file, self._made, self._owned, self._lock = file, made, owned, threading.RLock()
        self._short, self._count = (
            bytearray(),
            0,
        )  # short writes that the encryptor hasn't got yet, and the bytes that were written
        self._is_spoiled = False  # whether part of the text is lost
        self._is_left = False  # whether close() of the base has nothing to pass on
        put(file, made.update(b""))
        self._is_begun = True

    def _see_open(self) -> None:
        self._see_own()
        if self.closed:
            raise ValueError("the file is closed")

    def _change(self) -> None:
        """Begins what changes the file: until it is done, or if an exception ends it, the file can't be finished."""
        if self._is_spoiled:
            raise OSError(UNWHOLE)
        self._is_spoiled = True

    def spoil(self) -> None:
        """Part of the text is lost: the file can't be finished."""
        self._is_spoiled = True

    def write(self, data: Any, /) -> int:
        held = data if type(data) is bytes else raw("data", data)
        with self._lock:
            self._see_open()
            self._change()
            if len(self._short) + len(held) < GATHERED:
                self._short += held
            else:
                self._pass_short()
                for at in range(0, len(held), PIECE):
                    put(self._file, self._made.update(held[at : at + PIECE]))
            self._count += len(held)
            self._is_spoiled = False
            return len(held)

    def _pass_short(self) -> None:
        put(self._file, self._made.update(bytes(self._short)))
        self._short.clear()

    def flush(self) -> None:
        """Passes on what is encrypted; a chunk that isn't full is kept."""
        if self._is_left and not self.closed:  # close() of the base calls it
            return
        with self._lock:
            self._see_open()
            self._pass_on()

    def _pass_on(self) -> None:
        if hasattr(self._file, "flush") and not getattr(self._file, "closed", False):
            self._file.flush()

    def close(self) -> None:
        """Encrypts the last chunk, so that the file is complete. If that fails, so does each later close()."""
        with self._lock:
            if self.closed:
                if self._is_spoiled:
                    raise OSError(UNWHOLE)
                return
            self._see_own()
            try:
                self._change()
                self._pass_short()
                put(self._file, self._made.finish())
                self._pass_on()
            finally:
                self._leave()
            self._is_spoiled = False

    def abandon(self) -> None:
        """Closes without the last chunk."""
        with self._lock:
            if not self.closed:
                self._leave()

    def _leave(self) -> None:
        """Forgets the key, and closes the file if `open` opened it."""
        self._made.close()
        self._is_left = True  # so that flush(), which close() of the base calls, does no more
        try:
            super().close()
        finally:
            if self._owned:
                self._file.close()

    def writable(self) -> bool:
        self._see_open()
        return True

    def readable(self) -> bool:
        self._see_open()
        return False

    seekable = readable

    def tell(self) -> int:
        self._see_open()
        return self._count

    @property
    def name(self) -> Any:
        """The name of the file that is written, if it has one."""
        return self._file.name

    @property
    def mode(self) -> str:
        return "wb"

    def __exit__(
        self,
        kind: type[BaseException] | None,
        value: BaseException | None,
        trace: TracebackType | None,
    ) -> None:
        if kind is None:
            self.close()
        else:
            self.abandon()

    def __del__(self) -> None:
        # A writer that was never closed, so perhaps after an exception, isn't finished.
        if hasattr(self, "_is_begun") and not self.closed:
            try:
                warnings.warn(
                    "an age file that was never closed isn't whole", ResourceWarning, source=self
                )
            finally:
                self.abandon()


class TextWriter(io.TextIOWrapper):
    """A text that is written. An exception that comes out of a write, or leaves its `with`, leaves a file that every reader refuses:
    io.TextIOWrapper loses then what it held, even from earlier writes, and its close() would complete the file.
    """

    def __init__(
        self, file: AgeWriter, encoding: str | None, errors: str | None, newline: str | None
    ) -> None:
        super().__init__(file, encoding, errors, newline)
        self._under = file

    def write(self, text: str, /) -> int:
        try:
            return super().write(text)
        except (TypeError, UnicodeError):  # of this text alone
            raise
        except BaseException:
            self._under.spoil()
            raise

    def flush(self) -> None:
        try:
            super().flush()
        except BaseException:
            self._under.spoil()
            raise

    def close(self) -> None:
        if not self._under.closed:
            try:
                self.flush()
            except BaseException:
                self._under.abandon()
                raise
            super().close()
        self._under.close()  # which says so each time if the file isn't whole

    def __exit__(
        self,
        kind: type[BaseException] | None,
        value: BaseException | None,
        trace: TracebackType | None,
    ) -> None:
        if kind is None:
            self.close()
        else:
            self._under.abandon()

    def __del__(self) -> None:
        # what was never closed isn't finished: io.TextIOWrapper would close it
        with contextlib.suppress(ValueError):  # it was detached, or never there
            if self.buffer is self._under:
                self._under.__del__()
