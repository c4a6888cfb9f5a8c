"""What the arguments may be. One that isn't allowed is a TypeError or a ValueError, before a file is looked at."""
from __future__ import annotations

import operator
from typing import TYPE_CHECKING, Any, Union

if TYPE_CHECKING:
    from _typeshed import ReadableBuffer

    Buffer = ReadableBuffer
else:
    Buffer = Union[bytes, bytearray, memoryview]

WORK_MAX = 22
PASSPHRASE_MAX = 65_536
KEY, SHARED = 16, 32


def see_one(**keys: Any) -> None:
    given = sum(it is not None for it in keys.values())
    if given != 1:
        raise (TypeError if given else ValueError)(f"give one of {', '.join(keys)}")


def whole_number(name: str, given: Any, most: int) -> int:
    try:
        number = operator.index(given)
    except TypeError:
        raise TypeError(f"{name} is an int from 1 to {most}, not {type(given).__name__}") from None
    if not 1 <= number <= most:
        raise ValueError(f"{name} is from 1 to {most}, not {number}")
    return number


def work_factor(name: str, given: Any) -> int:
    return whole_number(name, given, WORK_MAX)


def raw(name: str, given: Any, kind: str = "bytes") -> bytes:
    """Its bytes. (A number has none, though bytes() would make zeros from it.)"""
    try:
        return bytes(memoryview(given))
    except TypeError:
        raise TypeError(f"{name} is {kind}, not {type(given).__name__}") from None


def secret(passphrase: Any) -> bytes:
    """The bytes of a passphrase: those of a str are its UTF-8."""
    try:
        held = (
            passphrase.encode()
            if isinstance(passphrase, str)
            else raw("passphrase", passphrase, "a str or bytes")
        )
    except UnicodeEncodeError:  # which would hold the passphrase
        raise ValueError("passphrase has half of a surrogate pair, which no UTF-8 has") from None
    if not 1 <= len(held) <= PASSPHRASE_MAX:
        raise ValueError(f"passphrase has 1 to {PASSPHRASE_MAX:,} bytes, not {len(held):,}")
    return held


def key(name: str, given: Any, length: int) -> bytes:
    held = raw(name, given)
    if len(held) != length:
        raise ValueError(f"{name} has {length} bytes, not {len(held)}")
    return held


def pair(shared: Any) -> tuple[bytes, bytes]:
    if not isinstance(shared, (tuple, list)) or len(shared) != 2:
        raise TypeError(f"shared is a pair of a secret and a recipient, of {SHARED} bytes each")
    return key("the shared secret", shared[0], SHARED), key("the recipient", shared[1], SHARED)
