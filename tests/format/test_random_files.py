"""Random files, most of them spoiled: what is decrypted, resumed and encrypted, beside the format as tests/standard.py says it."""
import unittest

from tests import standard
from tests.format.generated import GeneratedFiles
from tests.standard import ALPHABET, BLOCK, CHUNK, CHUNKS, Fault, header_text, mac_of


@unittest.skipIf(standard.ChaCha20Poly1305 is None, "needs cryptography")
class RandomFilesTest(GeneratedFiles):
    """What is decrypted of files that were spoiled, from their start and from a position."""

    def of_other_habits(self, text):
        """What a writer of other habits makes: a last chunk that is empty, or sealed as none; counts or flags that are wrong."""
        parts = standard.parts_of(text)
        last, how = len(parts) - 1, self.random.randrange(4)
        if how == 0:
            return b"".join(
                self.box.seal(at, False, it) for at, it in enumerate(parts)
            ) + self.box.seal(last + 1, True, b"")
        if how == 1:
            return b"".join(self.box.seal(at, False, it) for at, it in enumerate(parts))
        if how == 2:
            return b"".join(self.box.seal(at + 1, at == last, it) for at, it in enumerate(parts))
        return b"".join(self.box.seal(at, at in (0, last), it) for at, it in enumerate(parts))

    def spoiled(self, payload, text):
        how, blocks = self.random.random(), [
            payload[at : at + BLOCK] for at in range(0, len(payload), BLOCK)
        ]
        at, other = self.random.randrange(len(blocks)), self.random.randrange(len(blocks))
        if how < 0.12:
            return payload
        if how < 0.5:
            return payload[: self.near(len(payload))]
        if how < 0.65:
            bit = self.random.randrange(8 * len(payload))
            return (
                payload[: bit // 8]
                + bytes([payload[bit // 8] ^ 1 << bit % 8])
                + payload[bit // 8 + 1 :]
            )
        if how < 0.75:
            blocks[at], blocks[other] = blocks[other], blocks[at]
        elif how < 0.8:
            blocks.insert(at, blocks[at])
        elif how < 0.85:
            del blocks[at]
        elif how < 0.92:
            more = len(blocks)
            blocks.append(
                self.pick(
                    b"\0",
                    b"\n",
                    payload[-16:],
                    blocks[0],
                    self.box.seal(more, True, b""),
                    self.box.seal(more, True, b"more"),
                )
            )
        else:
            return self.of_other_habits(text)
        return b"".join(blocks)

    def test_decrypted(self):
        for _ in self.turns(450):
            text = self.plaintext()
            data = self.spoiled(self.make(text), text)
            found = standard.outcome(self.box, 0, data, True)
            room = (
                max(
                    300,
                    self.pick(
                        300,
                        CHUNK - 1,
                        CHUNK,
                        CHUNK + 1,
                        2 * CHUNK,
                        150_000,
                        len(found.text),
                        len(found.text) - 1,
                    ),
                )
                if self.is_rare(0.25)
                else None
            )
            before = self.prepare(data)
            words = "decrypt", *self.option(), "--save", "saved"
            piped = self.is_rare(0.2)
            ended = self.run_confined(
                *words,
                "/dev/stdin" if piped else "in",
                "out",
                room=room,
                **({"input": self.front + data} if piped else {}),
            )
            is_full = room is not None and room < len(found.text)
            written = found.text[:room] if is_full else found.text
            fault = Fault(27) if is_full else None if found.status == "done" else found.fault()
            saved = (
                self.position(min(len(written) // CHUNK, found.index), written).text()
                if fault
                else None
            )
            self.compare_fault(
                ended,
                fault,
                case=(len(text), len(data), room),
                out=written if written or not fault else before,
                saved=saved,
            )

    def moved(self, place, text):
        """Another position, an earlier output and a payload, of which something may be wrong; and the tag of the position may be right."""
        how, index, count = self.random.random(), place.index, len(standard.parts_of(text))
        if how < 0.25:
            return place._replace(
                index=self.pick(*{0, index + 1, max(index - 1, 0), CHUNKS - 1, 5} - {index})
            )
        if how < 0.5:
            part = self.pick("file_id", "chain", "tag")
            held = getattr(place, part)
            return place._replace(**{part: bytes([held[0] ^ 1]) + held[1:]})
        if how < 0.75:
            return place._replace(
                index=self.pick(index, index + 1, 3, 7), chain=self.random.randbytes(32)
            ).signed(self.key, self.nonce)
        return self.position(count + self.random.randrange(3), text + bytes((count + 3) * CHUNK))

    def text_of(self, place):
        """The text of a position, which may be none."""
        text = place.text()
        others = (
            text[:-1],
            text + b"\n",
            text.replace(b"v2", b"v1"),
            text.replace(b"v2 ", b"v2 0"),
            b"",
            text.replace(b" ", b"  ", 1),
            text * 3,
        )
        return self.pick(*others) if self.is_rare(0.05) else text

    def scene(self):
        """A position, an earlier output and a payload to resume with."""
        text = self.plaintext()
        payload = self.make(text)
        index = self.pick(
            self.random.randrange(len(standard.parts_of(text))), len(text) // CHUNK, 0
        )
        place, old = self.position(index, text), text[: index * CHUNK]
        old += self.pick(
            b"", b"", text[index * CHUNK :][:100], self.random.randbytes(5), bytes(70_000)
        )
        how = self.random.random()
        if how < 0.12 and old:
            at = self.random.randrange(len(old))
            old = old[:at] + bytes([old[at] ^ 4]) + old[at + 1 :]
        elif how < 0.2:
            old = old[: self.near(len(old))]
        elif how < 0.4:
            place, old = self.moved(place, text), self.pick(old, text + bytes(8 * CHUNK))
        elif how < 0.45:
            payload = self.make(text, self.key)
        elif how < 0.8:
            payload = self.spoiled(payload, text)
        return place, old, payload

    def resumed(self, text, old, data, room):
        """The fault, if one comes, what is written, and the position that is saved."""
        place = standard.position_in(text)
        if (
            place is None
            or place.file_id != self.file_id
            or place.signed(self.key, self.nonce) != place
        ):
            return (
                Fault(23 if place is None else 24 if place.file_id != self.file_id else 30),
                b"",
                None,
            )
        copied = old[: place.index * CHUNK]
        if room is not None and room < len(copied):
            return Fault(27), copied[:room], None
        if len(copied) < place.index * CHUNK:
            return Fault(25), copied, None
        if self.position(place.index, copied) != place:
            return Fault(31), copied, None
        if len(data) < place.index * BLOCK:
            return Fault(20, len(data) // BLOCK), copied, text
        found = standard.outcome(self.box, place.index, data[place.index * BLOCK :], True)
        written = copied + found.text
        if room is not None and room < len(written):
            written, fault = written[:room], Fault(27)
        elif found.status == "done":
            return None, written, None
        else:
            fault = found.fault()
        return (
            fault,
            written,
            self.position(min(len(written) // CHUNK, found.index), written).text(),
        )

    def test_resumed(self):
        for _ in self.turns(600):
            place, old, data = self.scene()
            text, room = (
                self.text_of(place),
                self.pick(300, CHUNK, 100_000, 2 * CHUNK, 180_000) if self.is_rare(0.2) else None,
            )
            before = self.prepare(data)
            self.write("position", text)
            self.write("old", old)
            words = (
                "resume",
                "--position",
                "position",
                "--old",
                "old",
                *self.option(),
                "--save",
                "saved",
                "in",
                "out",
            )
            fault, written, saved = self.resumed(text, old, data, room)
            held = written if written or not fault else before
            self.compare_fault(
                self.run_confined(*words, room=room),
                fault,
                case=(text, len(old), len(data), room),
                out=held,
                saved=saved,
            )

    def with_changes(self, text):
        """A position's text with a byte or two that are others, gone or more."""
        for _ in range(self.pick(1, 1, 2)):
            at, how = self.random.randrange(len(text)), self.random.random()
            if how < 0.5:
                text = (
                    text[:at]
                    + bytes([self.pick(self.pick(*ALPHABET), 10, 32, self.random.randrange(256))])
                    + text[at + 1 :]
                )
            elif how < 0.7:
                text = text[:at] + text[at + 1 :]
            elif how < 0.9:
                text = text[:at] + self.pick(b"0", b" ", b"\n", b"+", b"1", b"=") + text[at:]
            else:
                numbers = (
                    b"0",
                    b"281474976710655",
                    b"281474976710656",
                    b"18446744073709551616",
                    b"00",
                    b"02",
                    b"+2",
                    b"-1",
                    b"2" * 60,
                )
                text = text[:16] + self.pick(*numbers) + text[17:]
        return text

    def test_positions(self):
        plain = self.random.randbytes(200_000)
        self.write("in", self.front_of(plain))
        self.write("old", plain[: 2 * CHUNK])
        right = self.position(2, plain).text()
        for _ in self.turns(250):
            text = self.with_changes(right)
            place = standard.position_in(text)
            self.write("position", text)
            self.remove("out")
            ended = self.run_confined(
                "resume", "--position", "position", "--old", "old", "--pass", "pass", "in", "out"
            )
            fault = (
                Fault(23)
                if place is None
                else Fault(24)
                if place.file_id != self.file_id
                else Fault(30)
                if text != right
                else None
            )
            self.compare_fault(ended, fault, case=text, out=None if fault else plain)

    def test_encrypted(self):
        for _ in self.turns(120):
            words = (
                b"p",
                bytes(self.random.choices(range(1, 256), k=self.pick(1, 63, 64, 65, 1000))).replace(
                    b"\n", b"x"
                ),
                b"a\nb",
            )
            word, text, log, parts = (
                self.pick(*words),
                self.plaintext(),
                self.pick(1, 2, 3, 9, 10),
                self.random.randbytes(48),
            )
            for name, held in (
                ("word", word + self.pick(b"", b"\n")),
                ("plain", text),
                ("random", parts + self.pick(b"", b"more")),
            ):
                self.write(name, held)
            stanzas = [standard.scrypt_stanza(word, log, parts[16:32], parts[:16])]
            front = header_text(stanzas, mac_of(stanzas, parts[:16])) + parts[32:]
            file = front + standard.payload_of(standard.RealBox(parts[:16], parts[32:]), text)
            room, before = self.pick(
                None, None, None, 1, 150, 65_718, len(file) - 1, len(file), 100_000
            ), self.pick(None, b"old" * 100_000)
            self.remove("out")
            if before:
                self.write("out", before)
            words = (
                "encrypt",
                "--pass",
                "word",
                "--log",
                str(log),
                "--random",
                "random",
                self.pick("plain", "/dev/stdin"),
                "out",
            )
            is_full = room is not None and room < len(file)
            self.compare_fault(
                self.run_confined(*words, room=room, input=text),
                Fault(27) if is_full else None,
                case=(len(text), room),
                out=file[:room] if is_full else file,
            )
