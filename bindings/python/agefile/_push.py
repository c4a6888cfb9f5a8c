"""What decrypts and encrypts bytes that a caller has, and reads and writes no file."""
from __future__ import annotations

import threading
from types import TracebackType
from typing import Any, Callable, Iterable, TypeVar

from ._arguments import Buffer, raw
from ._coders import Alone, Decoder, Encoder, key_to_read
from ._library import again
from ._recipients import key_to_write

Self = TypeVar("Self", bound="_Push")


class _Push(Alone):
    """What bytes are given to. A call that an exception ends, such as one of a signal's handler, isn't continued."""

    def __init__(self, coder: Any) -> None:
        super().__init__()
        self._coder, self._lock = coder, threading.RLock()
        self._fault: Exception = OSError(
            "a call failed, was interrupted, or is going on, so that bytes are lost"
        )  # of each call without a coder

    def _call(self, call: Callable[[Any], bytes], is_end: bool = False) -> bytes:
        try:
            with self._lock:
                self._see_own()
                coder, self._coder = self._coder, None
                if coder is None:
                    raise again(self._fault)
                made = call(coder)
                if is_end:
                    self._fault = ValueError("finish() was called")
                else:
                    self._coder = coder
                return made
        except BaseException:
            self._coder = None
            raise

    def close(self) -> None:
        """Overwrites the file key and what is held, also if finish() wasn't called. Each later call is refused."""
        with self._lock:
            self._coder, self._fault = None, ValueError("it is closed")

    def __enter__(self: Self) -> Self:
        return self

    def __exit__(
        self,
        kind: type[BaseException] | None,
        value: BaseException | None,
        trace: TracebackType | None,
    ) -> None:
        is_unfinished = self._coder is not None and kind is None
        self.close()
        if is_unfinished:
            raise ValueError(
                "the `with` block ended without finish(): what it gave may not be whole"
            )


class Decryptor(_Push):
    """Decrypts a file whose bytes come from a caller, such as those of an upload in an asynchronous server, where there is nothing to read:

        with agefile.Decryptor(passphrase="correct horse") as text:
            async for piece in request.stream():
                out.write(text.update(piece))
            out.write(text.finish())  # the text is whole only if this returned

    The key is one of those that `open` takes. The update() that completes the header takes the time of the passphrase: give it to
    asyncio.to_thread; `opened` says whether the header is open. The plaintext before a damaged chunk is returned before the fault,
    which each later call raises again. A `with` block that ends before finish(), close() or a fault raises.

    >>> data = agefile.encrypt(b"a text", passphrase="pw", work=1)
    >>> with agefile.Decryptor(passphrase="pw") as text:
    ...     print(text.update(data[:100]), text.update(data[100:]), text.finish())
    b'' b'' b'a text'"""

    def __init__(
        self,
        *,
        passphrase: str | Buffer | None = None,
        file_key: Buffer | None = None,
        shared: tuple[Buffer, Buffer] | None = None,
        identity: str | Iterable[str] | None = None,
        max_work: int = 22,
    ) -> None:
        super().__init__(Decoder(key_to_read(passphrase, file_key, shared, identity, max_work)))
        self.opened = False

    def update(self, data: Any, /) -> bytes:
        """The plaintext of the chunks that these bytes complete. b"" isn't the end."""
        held = data if type(data) is bytes else raw("data", data)
        return self._call(lambda it: self._told(it, it.decode(held), False))

    def finish(self) -> bytes:
        """The rest of the plaintext, which is complete now: there are no more bytes."""
        return self._call(lambda it: self._told(it, it.end(), True), True)

    def _told(self, decoder: Decoder, found: tuple[int, bytes], is_end: bool) -> bytes:
        """The text of a call, or what is wrong; after a text that isn't the last the decoder says again what is wrong."""
        answer, text = found
        self.opened = decoder.payload_at > 0
        if answer != 0 and (is_end or not text):
            self._fault = decoder.fault(answer)
            raise again(self._fault)
        return text


class Encryptor(_Push):
    """Encrypts a plaintext that comes in pieces, and returns the file in pieces:

        with agefile.Encryptor(passphrase="correct horse") as file:
            async for piece in pieces:
                await response.write(file.update(piece))
            await response.write(file.finish())  # without it every reader refuses the file

    The key is a passphrase or a recipient, as for `open`. In a forked child, and after a call that an exception ended, each call is
    refused. A `with` block that ends before finish(), close() or a call that failed raises.

    >>> with agefile.Encryptor(passphrase="pw", work=1) as file:
    ...     data = file.update(b"a text") + file.finish()
    >>> agefile.decrypt(data, passphrase="pw")
    b'a text'"""

    def __init__(
        self,
        *,
        passphrase: str | Buffer | None = None,
        recipient: str | Iterable[str] | None = None,
        work: int = 18,
    ) -> None:
        super().__init__(Encoder(key_to_write(passphrase, recipient, work)))

    def update(self, data: Any, /) -> bytes:
        """The bytes of the file that are complete. They may be none."""
        held = data if type(data) is bytes else raw("data", data)
        return self._call(lambda it: bytes(it.encode(held)))

    def finish(self) -> bytes:
        """The rest of the file, which completes it."""
        return self._call(lambda it: bytes(it.end()), True)
