#!/usr/bin/env python3
"""Decrypts an age file by its passphrase, with nothing but Python 3. Print it, and keep it.

usage: python3 restore.py IN OUT

It is slow (about a minute for 10 MB), takes work factors up to 20, and isn't proved;
tests/format/test_restore_script.py compares it with age_tool. If it ends without a message, OUT is the complete
plaintext. Otherwise OUT isn't made, and OUT.part holds the chunks before the damage or the cut. An
OUT or OUT.part that exists is refused.
The format is https://c2sp.org/age, the arithmetic RFC 8439.
"""
import base64
import getpass
import hashlib
import hmac
import os
import struct
import sys

M, CLAMP, PRIME = 0xFFFFFFFF, 0x0FFFFFFC0FFFFFFC0FFFFFFC0FFFFFFF, 2**130 - 5
# The words of the columns, then those of the diagonals.
ROUNDS = [(at, at + 4, at + 8, at + 12) for at in range(4)]
ROUNDS += [(at, 4 + (at + 1) % 4, 8 + (at + 2) % 4, 12 + (at + 3) % 4) for at in range(4)]
LABEL = b"age-encryption.org/v1/scrypt"


def block(key, counter, nonce):
    """64 bytes of the keystream of ChaCha20."""
    start = struct.unpack("<16I", b"expand 32-byte k" + key + struct.pack("<I", counter) + nonce)
    x = list(start)
    for _ in range(10):
        for a, b, c, d in ROUNDS:
            for to, by, other, turn in ((a, b, d, 16), (c, d, b, 12), (a, b, d, 8), (c, d, b, 7)):
                x[to] = x[to] + x[by] & M
                x[other] ^= x[to]
                x[other] = (x[other] << turn | x[other] >> 32 - turn) & M
    return struct.pack("<16I", *(a + b & M for a, b in zip(x, start)))


def opened(key, nonce, sealed):
    """The plaintext of a sealed piece (ChaCha20-Poly1305), or None if its tag is wrong."""
    text, tag = sealed[:-16], sealed[-16:]
    once = block(key, 0, nonce)
    r, s = (int.from_bytes(once[at : at + 16], "little") for at in (0, 16))
    total = 0
    data = text + bytes(-len(text) % 16) + struct.pack("<QQ", 0, len(text))
    for at in range(0, len(data), 16):
        total = (total + int.from_bytes(data[at : at + 16] + b"\1", "little")) * (r & CLAMP) % PRIME
    if not hmac.compare_digest(((total + s) % 2**128).to_bytes(16, "little"), tag):
        return None
    stream = b"".join(block(key, 1 + number, nonce) for number in range(-(-len(text) // 64)))
    return bytes(a ^ b for a, b in zip(text, stream))


def derived(key, salt, label):
    """HKDF-SHA-256, 32 bytes."""
    first = hmac.digest(salt or bytes(32), key, "sha256")
    return hmac.digest(first, label + b"\1", "sha256")


def unarmored(text):
    return base64.b64decode(text + b"=" * (-len(text) % 4))


def key_of(file, passphrase):
    """The key of the payload, which follows in the file."""
    head = [file.readline(1000) for _ in range(4)]
    lines = [it.rstrip(b"\n").split(b" ") for it in head]
    begins = lines[0][0], *lines[1][:2], lines[3][0]
    lengths = [len(it) for it in lines]
    if begins != (b"age-encryption.org/v1", b"->", b"scrypt", b"---") or lengths != [1, 4, 1, 2]:
        sys.exit("restore: not an age file for a passphrase")
    salt, log = unarmored(lines[1][2]), int(lines[1][3]) if lines[1][3].isdigit() else 0
    if not 0 < log < 21:
        sys.exit("restore: the work factor isn't from 1 to 20")
    more = {"n": 1 << log, "r": 8, "p": 1, "maxmem": 2**31 - 1, "dklen": 32}
    wrap = hashlib.scrypt(passphrase, salt=LABEL + salt, **more)
    key = opened(wrap, bytes(12), unarmored(lines[2][0]))
    if key is None:
        sys.exit("restore: that isn't the passphrase")
    mac = hmac.digest(derived(key, b"", b"header"), b"".join(head[:3]) + b"---", "sha256")
    if mac != unarmored(lines[3][1]):
        sys.exit("restore: the header was altered")
    return derived(key, file.read(16), b"payload")


def main(name, out):
    for it in (out, out + ".part"):
        if os.path.lexists(it):
            sys.exit(f"restore: {it} exists: move it away, or choose another OUT")
    passphrase = getpass.getpass("Passphrase: ").encode()
    with open(name, "rb") as file:
        restore(file, key_of(file, passphrase), out)


def restore(file, key, out):
    """Writes the plaintext of a payload."""
    with open(out + ".part", "xb") as part:
        number, piece = 0, file.read(65552)
        while True:
            ahead = file.read(65552)
            text = opened(key, number.to_bytes(11, "big") + bytes([not ahead]), piece)
            if text is None or (not text and number > 0):
                sys.exit(
                    f"restore: damaged or cut at chunk {number}: {out}.part holds what was before it"
                )
            part.write(text)
            if not ahead:
                break
            number, piece = number + 1, ahead
    os.rename(out + ".part", out)


if len(sys.argv) != 3:
    sys.exit(__doc__)
main(*sys.argv[1:])
