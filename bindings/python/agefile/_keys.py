"""The keys of age-keygen. This module is outside the proof: it decodes a key and finds the stanza of a header that it opens, by the package
cryptography. The proved library then opens the header by the shared secret of that stanza."""
from __future__ import annotations

import base64
import hmac
from collections.abc import Callable, Iterable
from typing import Tuple

from ._library import told_of

Pair = Tuple[bytes, bytes]  # a shared secret, and the recipient that it is for

NINE = bytes([9]) + bytes(31)  # the point whose X25519 with a secret is the recipient, or the share
LETTERS = "qpzry9x8gf2tvdw0s3jn54khce6mua7l"
KIND = b"X25519 "  # what the arguments of a stanza for a key begin with; the share follows


def bech32_decoded(text: str) -> tuple[str, bytes]:
    """The prefix, in lower case, and the bytes of a Bech32 text (BIP 173).

    >>> bech32_decoded("A12UEL5L")
    ('a', b'')"""
    if text.lower() != text and text.upper() != text:
        raise ValueError("a Bech32 text in upper and lower case")
    text = text.lower()
    prefix, _, data = text.rpartition("1")
    if (
        not prefix
        or len(data) < 6
        or len(text) > 90
        or any(not 33 <= ord(it) <= 126 for it in text)
        or set(data) - set(LETTERS)
    ):
        raise ValueError("not a Bech32 text")
    values = [LETTERS.index(it) for it in data]
    if (
        _checksum([*(ord(it) >> 5 for it in prefix), 0, *(ord(it) & 31 for it in prefix), *values])
        != 1
    ):
        raise ValueError("the checksum of a Bech32 text is wrong")
    return prefix, _joined(values[:-6])


def bech32_encoded(prefix: str, held: bytes) -> str:
    """The Bech32 text of a prefix in lower case and bytes."""
    number, left = int.from_bytes(held, "big") << -len(held) * 8 % 5, -(-len(held) * 8 // 5)
    values = [number >> 5 * it & 31 for it in reversed(range(left))]
    head = [*(ord(it) >> 5 for it in prefix), 0, *(ord(it) & 31 for it in prefix)]
    check = _checksum([*head, *values, *bytes(6)]) ^ 1
    values += [check >> 5 * it & 31 for it in reversed(range(6))]
    return f"{prefix}1{''.join(LETTERS[it] for it in values)}"


def _checksum(values: Iterable[int]) -> int:
    sum_ = 1
    for it in values:
        top, sum_ = sum_ >> 25, (sum_ & 0x1FFFFFF) << 5 ^ it
        for bit, term in enumerate((0x3B6A57B2, 0x26508E6D, 0x1EA119FA, 0x3D4233DD, 0x2A1462B3)):
            sum_ ^= term if top >> bit & 1 else 0
    return sum_


def _joined(values: list[int]) -> bytes:
    """The bytes of groups of 5 bits. Fewer than 5 zeros are left at the end."""
    number, bits = 0, 5 * len(values)
    for it in values:
        number = number << 5 | it
    left = bits % 8
    if left > 4 or number & ((1 << left) - 1):
        raise ValueError("a Bech32 text doesn't end with a whole byte")
    return (number >> left).to_bytes(bits // 8, "big")


def secret_of(identity: str) -> bytes:
    """The 32 bytes of a key that begins with AGE-SECRET-KEY-1."""
    if not identity.upper().startswith("AGE-SECRET-KEY-1"):
        raise ValueError("not a key of age-keygen, which begins with AGE-SECRET-KEY-1")
    prefix, secret = bech32_decoded(identity)
    if prefix != "age-secret-key-" or len(secret) != 32:
        raise ValueError("not a key of age-keygen: it has another length")
    return secret


def recipient_of(identity: str) -> str:
    """The recipient of a key that begins with AGE-SECRET-KEY-1."""
    return bech32_encoded("age", x25519_of(secret_of(identity))(NINE))


def identities_in(text: str) -> list[str]:
    """The keys in the text of a file of age-keygen: one to a line, among empty lines and comments. (To age, too, only LF ends a line: what
    splitlines takes for another end could hide a recipient in a comment.)

    >>> identities_in("# created: 2026-12-01\\nAGE-SECRET-KEY-1..\\n")
    ['AGE-SECRET-KEY-1..']"""
    lines = [it.strip() for it in text.split("\n")]
    return [it for it in lines if it and not it.startswith("#")]


def lines_of(name: str, given: str | Iterable[str]) -> list[str]:
    """The keys or recipients that are given: one, the text of a file of them, the lines of such a file that is open, or several of
    these."""
    if isinstance(given, (bytes, bytearray, memoryview)) or not isinstance(given, Iterable):
        raise TypeError(
            f"{name} is a str, several, or a file of them that is open as text, not {type(given).__name__}"
        )
    found: list[str] = []
    for it in [given] if isinstance(given, str) else given:
        if not isinstance(it, str):
            raise TypeError(f"{name} is a str, not {type(it).__name__}")
        found += identities_in(it)
    return found


def identities_of(given: str | Iterable[str]) -> list[str]:
    """The keys that are given."""
    found = lines_of("identity", given)
    if not found:
        raise ValueError("identity has no key: one begins with AGE-SECRET-KEY-1")
    for it in found:
        secret_of(it)
    return found


def x25519_of(secret: bytes) -> Callable[[bytes], bytes]:
    """X25519 of this secret and a point. Zeros if it is undefined for the point."""
    try:
        from cryptography.hazmat.primitives.asymmetric.x25519 import (
            X25519PrivateKey,
            X25519PublicKey,
        )
    except ImportError as fault:
        raise ImportError("keys of age-keygen need the package cryptography") from fault
    key = X25519PrivateKey.from_private_bytes(secret)  # (which takes longer than what follows)

    def exchanged(point: bytes) -> bytes:
        try:
            return key.exchange(X25519PublicKey.from_public_bytes(point))
        except ValueError:
            return bytes(32)

    return exchanged


def wrapping_key(secret: bytes, share: bytes, recipient: bytes) -> bytes:
    """The key under which an X25519 stanza holds the file key: 32 bytes of HKDF-SHA256 (RFC 5869)."""
    return hmac.digest(
        hmac.digest(share + recipient, secret, "sha256"),
        b"age-encryption.org/v1/X25519\1",
        "sha256",
    )


def pair_of(identities: Iterable[str], front: bytes) -> Pair | None:
    """The shared secret and the recipient of the first X25519 stanza that one of these keys opens, of the header that the bytes begin with. (Also
    of one whose secret is zero, which the library refuses.)"""
    found = [
        (base64.b64decode(args[len(KIND) :] + b"="), body)
        for args, body in told_of(front)[2]
        if args.startswith(KIND)
    ]
    for identity in identities:
        exchanged = x25519_of(secret_of(identity))
        recipient = exchanged(NINE)
        for share, body in found:
            secret = exchanged(share)
            if secret == bytes(32) or _opens(wrapping_key(secret, share, recipient), body):
                return secret, recipient
    return None


def _opens(key: bytes, body: bytes) -> bool:
    """Whether a key opens the body of a stanza."""
    from cryptography.exceptions import InvalidTag
    from cryptography.hazmat.primitives.ciphers.aead import ChaCha20Poly1305

    try:
        ChaCha20Poly1305(key).decrypt(bytes(12), body, None)
    except InvalidTag:
        return False
    return True
