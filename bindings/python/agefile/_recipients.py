"""Files for recipients, whose keys age-keygen makes. This module is outside the proof: it decodes the recipients and makes their stanzas
(https://c2sp.org/age), by the package cryptography. The proved library opens each stanza by its secret before any of them is written, so all
that is left to trust is which share and which secret X25519 gives."""
from __future__ import annotations

import base64
import os
from collections.abc import Iterable

from ._arguments import Buffer, see_one, work_factor
from ._coders import Decoder, Encoder, HeldKey, of_pair, under_passphrase
from ._keys import NINE, Pair, bech32_decoded, lines_of, wrapping_key, x25519_of
from ._library import C

LENGTH = 62  # of a recipient
STANZA = 98  # bytes of a stanza
STANZAS_MAX = (
    1 << 20
) - 70  # bytes of all stanzas: a header has at most 1 MiB, and 70 bytes beside them


def key_to_write(
    passphrase: str | Buffer | None, recipient: str | Iterable[str] | None, work: int
) -> HeldKey:
    """The one key that is given."""
    see_one(passphrase=passphrase, recipient=recipient)
    log = work_factor("work", work)
    return (
        under_passphrase(passphrase, log)
        if recipient is None
        else wrapped_for(points_of(recipient))
    )


def points_of(recipient: str | Iterable[str]) -> list[bytes]:
    """The 32 bytes of each recipient that is given. A fault says which one it is, and shows nothing of it, since it may be a secret key."""
    found = lines_of("recipient", recipient)
    if not found:
        raise ValueError("recipient has none: one begins with age1")
    points = []
    for number, it in enumerate(found, 1):
        try:
            prefix, point = bech32_decoded(it) if len(it) == LENGTH else ("", b"")
        except ValueError as fault:
            raise ValueError(f"recipient {number}: {fault}") from None
        if prefix != "age":
            raise ValueError(
                f"recipient {number}: not a recipient of age-keygen, which begins with age1 and has {LENGTH} characters"
            )
        points.append(point)
    return points


def base64_of(held: bytes) -> bytes:
    """The base64 of 32 bytes, without padding: less than a line of 64."""
    return base64.b64encode(held).rstrip(b"=")


def stanza_of(point: bytes, file_key: bytes) -> tuple[bytes, Pair]:
    """The stanza that gives a recipient the file key, and what opens it: the shared secret and the recipient."""
    exchanged = x25519_of(os.urandom(32))
    share, secret = exchanged(NINE), exchanged(point)
    if secret == bytes(32):
        raise ValueError("a recipient is a point of low order: everybody could read the file")
    from cryptography.hazmat.primitives.ciphers.aead import ChaCha20Poly1305

    body = ChaCha20Poly1305(wrapping_key(secret, share, point)).encrypt(bytes(12), file_key, None)
    return b"-> X25519 %b\n%b\n" % (base64_of(share), base64_of(body)), (secret, point)


def wrapped(file_key: bytes, stanzas: bytes) -> HeldKey:
    """A file key, and the stanzas that wrap it."""
    return HeldKey(C.agefile_wrapped(file_key, stanzas, len(stanzas)), (file_key, stanzas))


def wrapped_for(points: list[bytes]) -> HeldKey:
    """A new file key that is wrapped for these recipients. Nothing is returned unless the library opens each stanza."""
    if len(points) * STANZA > STANZAS_MAX:
        raise ValueError(
            f"{len(points):,} recipients are too many: a header has room for {STANZAS_MAX // STANZA:,}"
        )
    file_key = os.urandom(16)
    made = [stanza_of(it, file_key) for it in points]
    for stanza, pair in made:
        decoder = Decoder(of_pair(pair))
        answer, _ = decoder.decode(Encoder(wrapped(file_key, stanza)).encode(b""))
        if answer != 0 or not decoder.payload_at:
            raise decoder.fault(answer)
    return wrapped(file_key, b"".join(stanza for stanza, _ in made))
