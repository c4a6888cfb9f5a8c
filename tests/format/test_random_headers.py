"""Random headers, well formed or not: what is reported of them, which key opens them, and which refusal comes first."""
import os
import unittest

from tests import standard
from tests.format.generated import Generated
from tests.standard import (
    ALPHABET,
    BLOCK,
    HEADER_MOST,
    Fault,
    Header,
    Stanza,
    header_in,
    header_text,
    key_of,
    mac_of,
)


class RandomHeadersTest(Generated):
    """Headers, well formed or not, and what is reported of them."""

    def argument(self):
        return bytes(self.random.choices(range(0x21, 0x7F), k=self.pick(1, 1, 2, 5, 30)))

    def stanza(self):
        arguments = [self.pick(b"x", b"scrypt", b"X25519", self.argument(), b"---", b"->")]
        arguments += [self.argument() for _ in range(self.pick(0, 0, 1, 2, 5))]
        return Stanza(
            tuple(arguments),
            self.random.randbytes(self.pick(0, 1, 2, 16, 31, 32, 47, 48, 49, 96, 100, 144)),
        )

    def header(self):
        return header_text(
            [self.stanza() for _ in range(self.pick(0, 1, 1, 1, 2, 3, 6))],
            self.random.randbytes(32),
        )

    def with_another_line(self, header):
        lines = header.split(b"\n")
        at, change = self.random.randrange(len(lines)), self.random.randrange(5)
        if change == 0:
            del lines[at]
        elif change == 1:
            lines.insert(at, lines[at])
        elif change == 2:
            lines[at] += self.pick(b" ", b"\r", b"=", b"A", b"==", b"B")
        elif change == 3:
            lines[at] = lines[at][:-1] + bytes([self.pick(*ALPHABET)]) * bool(lines[at])
        else:
            lines[at] = self.pick(
                standard.ARMOR,
                standard.ARMOR + b"\r",
                standard.VERSION,
                b"---",
                b"-->",
                b"->",
                b"-> ",
                b"--",
                b"---- " + b"A" * 43,
            )
        return b"\n".join(lines)

    def spoiled(self, header):
        at, how = self.random.randrange(len(header) + 1), self.random.random()
        if how < 0.3:
            return (
                header[:at]
                + bytes(
                    [
                        self.pick(
                            10, 13, 32, 45, 61, 0, 127, 255, 126, 33, 65, self.random.randrange(256)
                        )
                    ]
                )
                + header[at + 1 :]
            )
        if how < 0.45:
            return (
                header[:at]
                + self.pick(
                    b"\n",
                    b"\r",
                    b" ",
                    b"-",
                    b"=",
                    b"A",
                    b"--- ",
                    b"-> x\n\n",
                    b"\n\n",
                    b"A" * 64 + b"\n",
                )
                + header[at:]
            )
        if how < 0.6:
            return header[:at] + header[at + 1 :]
        if how < 0.75:
            return self.with_another_line(header)
        if how < 0.9:
            return header[:at]
        return header + self.random.randbytes(self.pick(1, 15, 16, 31, 32, 33, 100))

    def inspect(self, data, *words, **more):
        found = header_in(data)
        ended = self.run_confined(*words, **more)
        if isinstance(found, Header):
            self.compare(
                ended, 0, standard.report_of(found, len(data) - found.size), case=data[:300]
            )
        else:
            self.compare_fault(ended, found, case=data[:300])

    def test_headers(self):
        for _ in self.turns(1000):
            header = self.header()
            for _ in range(self.pick(0, 0, 1, 1, 1, 2)):
                header = self.spoiled(header)
            self.write("header", header)
            if self.is_rare(0.6):
                self.inspect(header, *self.pick([], ["inspect"]), input=header)
            else:
                self.inspect(header, "inspect", "header")

    def long_header(self):
        """One of about as many bytes as a header may have."""
        end, kind = b"--- " + b"A" * 43 + b"\n", self.random.randrange(4)
        if kind == 0:
            return b"%s\n-> %s\n\n%s" % (
                standard.VERSION,
                b"x" * self.pick(*range(1_048_499, 1_048_504), 1_048_550, 1_048_576),
                end,
            )
        if kind == 1:
            return (standard.VERSION + b"\n-> x\n" + (b"A" * 64 + b"\n") * 17_000)[
                : HEADER_MOST + self.random.randrange(-100, 100)
            ]
        if kind == 2:
            return (
                standard.VERSION
                + b"\n"
                + b"-> x\n\n" * self.random.randrange(174_740, 174_770)
                + end
            )
        body = header_text(
            [Stanza((b"x",), bytes(self.random.randrange(774_000, 774_500)))], bytes(32)
        )
        return body[: HEADER_MOST - 48] + b"\n" * self.random.randrange(1, 60)

    def test_long_headers(self):
        for _ in self.turns(12):
            header = self.long_header()
            self.inspect(header, input=header)

    def test_lengths(self):
        front = header_text([Stanza((b"x",), b"")], bytes(32))
        sizes = [0, 1, 15, 16, 17, 31, 32, 33, 34, BLOCK + 15, BLOCK + 16, BLOCK + 17]
        sizes += [
            16 + BLOCK * count + more
            for count in (1, 2, 3, 1000, 1 << 20, 1 << 27)
            for more in (-1, 0, 1, 15, 16, 17, 18)
        ]
        sizes += [self.random.randrange(2 ** self.random.randrange(1, 43)) for _ in self.turns(100)]
        for size in sizes:
            self.write("sparse", front)
            os.truncate(self.path("sparse"), len(front) + size)
            self.compare(
                self.run_confined("inspect", "sparse"),
                0,
                standard.report_of(header_in(front), size),
                case=size,
            )


@unittest.skipIf(standard.ChaCha20Poly1305 is None, "needs cryptography")
class RandomKeysTest(Generated):
    """Which key opens a header, and which refusal comes first."""

    def spoiled(self, stanza):
        arguments, body, how = list(stanza.arguments), stanza.body, self.random.randrange(9)
        if how == 0:
            body = body[:-1]
        elif how == 1:
            body += b"\0"
        elif how == 2:
            body = bytes([body[0] ^ 1]) + body[1:] if body else b""
        elif how == 3 and len(arguments) > 1:
            arguments.pop()
        elif how == 4:
            arguments.append(b"x")
        elif how == 5 and len(arguments) > 1:
            arguments[1] = arguments[1][:-1] + bytes([self.pick(*ALPHABET)])
        elif how == 6 and len(arguments) > 1:
            arguments[1] = standard.text_of(
                self.random.randbytes(self.pick(15, 17, 31, 33, 16, 32))
            )
        elif how == 7 and len(arguments) == 3:
            arguments[2] = self.pick(
                b"0", b"01", b"23", b"22", b"9" * 400, b"+1", b"1_", b"1x", b"-1", b"0x1", b"10"
            )
        elif how == 8:
            arguments[0] = self.pick(b"Scrypt", b"x", b"x25519", b"scrypt2")
        return Stanza(tuple(arguments), body)

    def stanza(self, kind, key, word, secret):
        """A stanza, mostly one that this kind of identity opens."""
        if kind == "scrypt":
            return standard.scrypt_stanza(
                word if self.is_rare(0.8) else b"other",
                self.pick(1, 2, 3, 4),
                self.random.randbytes(16),
                key,
            )
        if kind == "X25519":
            return standard.x25519_stanza(
                self.random.randbytes(32),
                secret if self.is_rare(0.7) else self.random.randbytes(64),
                key,
            )
        return Stanza(
            (self.pick(b"x", b"ssh-ed25519"), b"argument"),
            self.random.randbytes(self.pick(0, 32, 48)),
        )

    def identity(self, key, word, secret):
        """The option that opens a file, how, with what, and of which kind most stanzas are."""
        how = self.pick("pass", "pass", "key", "shared")
        if how == "pass":
            self.write("secret", word + self.pick(b"", b"\n"))
            return (
                ["--pass", "secret"],
                standard.by_passphrase,
                word,
                ("scrypt", "scrypt", "scrypt", "X25519", "x"),
            )
        if how == "key":
            key = key if self.is_rare(0.8) else self.random.randbytes(16)
            return (
                ["--file-key", self.pick(key.hex(), key.hex().upper())],
                standard.by_file_key,
                key,
                ("scrypt", "X25519", "x"),
            )
        secret = secret if self.is_rare(0.9) else bytes(32) + secret[32:]
        self.write("secret", secret)
        return (
            ["--shared", "secret"],
            standard.by_shared_secret,
            secret,
            ("X25519", "X25519", "X25519", "x", "scrypt"),
        )

    def test_keys(self):
        for _ in self.turns(600):
            key, word, secret = (
                self.random.randbytes(16),
                bytes(self.random.choices(range(33, 127), k=self.pick(1, 5, 20))),
                self.random.randbytes(64),
            )
            option, unlock, held, kinds = self.identity(key, word, secret)
            stanzas = [
                self.stanza(self.pick(*kinds), key, word, secret)
                for _ in range(self.pick(1, 1, 1, 2, 3))
            ]
            stanzas = [self.spoiled(it) if self.is_rare(0.3) else it for it in stanzas]
            self.open(stanzas, key, option, unlock, held)

    def open(self, stanzas, key, option, unlock, secret):
        """Decrypts a file of these stanzas, mostly complete."""
        mac, nonce, text = (
            mac_of(stanzas, key),
            self.random.randbytes(16),
            self.random.randbytes(self.pick(0, 1, 10, 100)),
        )
        mac = mac if self.is_rare(0.85) else bytes([mac[0] ^ 1]) + mac[1:]
        most, is_short, before = (
            self.pick(None, None, 1, 2, 3, 22),
            self.is_rare(0.1),
            self.pick(None, b"what OUT held"),
        )
        rest = (
            nonce[: self.random.randrange(16)]
            if is_short
            else nonce + standard.payload_of(standard.RealBox(key, nonce), text)
        )
        self.write("in", header_text(stanzas, mac) + rest)
        self.remove("out", "saved")
        if before:
            self.write("out", before)
        ended = self.run_confined(
            "decrypt",
            *option,
            *(["--max-log", str(most)] if most else []),
            "--save",
            "saved",
            "in",
            "out",
        )
        found = key_of(stanzas, mac, unlock, secret, most or 22)
        fault = Fault(found) if isinstance(found, int) else Fault(16) if is_short else None
        self.compare_fault(ended, fault, case=stanzas, out=before if fault else text, saved=None)
