"""Bytes from a file, or into one, that may not block: None isn't its end."""
from __future__ import annotations

import errno
import os
import select
from typing import Any


def wait(file: Any, event: int = select.POLLIN) -> None:
    """Waits until a file that doesn't block has bytes, or has reached its end (POLLIN), or takes bytes (POLLOUT)."""
    try:
        descriptor = file.fileno()
    except (AttributeError, OSError):  # io.UnsupportedOperation is an OSError
        raise BlockingIOError(
            errno.EAGAIN, "the file isn't ready, and has no descriptor to wait for"
        ) from None
    if os.get_blocking(
        descriptor
    ):  # so that None says nothing, and there is nothing to wait for: it would be called forever
        raise OSError(
            f"the file's {'read' if event == select.POLLIN else 'write'}() returned None, though its descriptor blocks"
        )
    poll = select.poll()
    poll.register(descriptor, event)
    poll.poll()


def read_by(call: Any, *words: Any) -> Any:
    """What a call of a source returns. A source that was truncated itself, such as a gzip file, raises EOFError, and one that passes on what an
    iterator gives may raise StopIteration. Our caller, a `for` among them, would take either for the end of the text.
    """
    try:
        return call(*words)
    except EOFError as fault:
        raise OSError(f"what the file is read from was cut off: {fault}") from fault
    except StopIteration as fault:
        raise OSError(
            "what the file is read from raised StopIteration: it has to return b'' at its end"
        ) from fault


def some(file: Any, most: int) -> bytes:
    """As many bytes as there are, at most this many. b"" is the end, and nothing else is."""
    read1 = getattr(file, "read1", None)
    piece = None if read1 is None else _checked(read_by(read1, most), most)
    if piece:
        return piece
    while (
        piece := _checked(read_by(file.read, most), most)
    ) is None:  # (if read1 finds none, read() says whether it is the end)
        wait(file)
    return piece


def _checked(piece: Any, most: int) -> bytes | None:
    """What a read returned, if that is allowed: None, or at most this many bytes."""
    if piece is None:
        return None
    try:
        held = piece if type(piece) is bytes else bytes(memoryview(piece))
    except TypeError:
        getattr(
            piece, "close", lambda: None
        )()  # a coroutine that nobody awaits would warn of itself
        raise TypeError(
            f"the file's read() has to return bytes, not {type(piece).__name__}"
        ) from None
    if len(held) > most:
        raise OSError(f"the file's read() returned {len(held)} bytes, and was asked for {most}")
    return held


def filled(file: Any, room: memoryview, have: int = 0) -> int:
    """Reads until the room is full, or the file ends; returns how many bytes there are then, `have` included."""
    while have < len(room) and (count := _some_into(file, room[have:])):
        have += count
    return have


def _some_into(file: Any, room: memoryview) -> int:
    """How many bytes were read into that room: 0 only at the end."""
    into = getattr(file, "readinto", None)
    if into is None:
        piece = some(file, len(room))
        room[: len(piece)] = piece
        return len(piece)
    while (count := read_by(into, room)) is None:
        wait(file)
    if not 0 <= count <= len(room):
        raise OSError(f"the file's readinto() returned {count}, and was given room for {len(room)}")
    return int(count)


def put(file: Any, out: bytes) -> None:
    """Writes all of these bytes."""
    while out:
        if (count := file.write(out)) is None:  # the file doesn't block, and took nothing
            wait(file, select.POLLOUT)
        elif 0 < count <= len(out):
            out = out[count:]
        else:
            raise OSError(f"the file's write() returned {count}, and was given {len(out)} bytes")


def can_seek(file: Any) -> bool:
    """Whether a file is seekable. Some that are, such as an mmap, have no `seekable`."""
    seekable = getattr(file, "seekable", None)
    return (
        bool(seekable())
        if seekable is not None
        else hasattr(file, "seek") and hasattr(file, "tell")
    )
