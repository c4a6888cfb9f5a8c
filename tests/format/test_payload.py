"""Decrypts whole files, cut and changed at each byte and while each read fails in turn, and compares the files that the program writes,
beside those that Python makes (tests/standard.py)."""
import base64
import errno
import hashlib
import os

from tests.case import feed, needs
from tests.format.case import FRONT, KEY, LONG, NONCE, KnownFilesCase, file_of
from tests.standard import ALPHABET, CHUNK, file_under
from tools import shim

HELLO = FRONT + bytes.fromhex("f22dc02f3c1c77ef50d95ef304ddde21d8fb79e2f9")
# The SHA-256 of its file.
LONG_DIGEST = "60fca52f61ace8ad72c78c82dc1f0290aa96577739db2163e074bc737add2b6c"


class PayloadTest(KnownFilesCase):
    def test_any_pieces(self):
        for size in (1, 2, 7, 92, 1000):
            source, thread = feed(HELLO, size)
            self.remove("out")
            ended = self.tool("decrypt", "--file-key", KEY.hex(), "/dev/stdin", "out", stdin=source)
            thread.join()
            self.ends(f"in pieces of {size}", ended, 0, b"hello")

    def test_cut_at_each_byte(self):
        """The header has 76 bytes; what follows 92 is held as the last chunk."""
        for length in range(len(HELLO)):
            faults = ((76, 8, None), (92, 16, None), (93, 20, 0), (108, 18, 0), (113, 17, 0))
            _, fault, index = next(it for it in faults if length < it[0])
            self.ends(f"cut at {length}", self.decrypt(HELLO[:length]), fault, b"", index)

    def test_each_byte_changed(self):
        for at in range(len(FRONT), len(HELLO)):
            changed = HELLO[:at] + bytes([HELLO[at] ^ 1]) + HELLO[at + 1 :]
            self.ends(f"changed at {at}", self.decrypt(changed), 17, b"", 0)
        self.ends("another key", self.decrypt(HELLO, key=bytes(16 * [7])), 14, b"")

    def test_long(self):
        """The index of a position counts whole chunks that were wholly written."""
        file = file_of(LONG)
        self.see(
            "the file is that of the digest",
            len(file) == 200_156 and hashlib.sha256(file).hexdigest() == LONG_DIGEST,
        )
        self.ends("a file of four chunks", self.decrypt(file), 0, LONG)
        for room, index in (
            (0, 0),
            (65_535, 0),
            (65_536, 1),
            (131_071, 1),
            (131_072, 2),
            (150_000, 2),
        ):
            self.ends(
                f"room for {room}",
                self.decrypt(file, room=max(room, 256)),
                27,
                LONG[: max(room, 256)],
                index,
            )
        for length, fault, index in (
            (65_643, 17, 0),
            (65_644, 20, 1),
            (65_645, 18, 1),
            (131_196, 20, 2),
        ):
            self.ends(
                f"cut at {length}", self.decrypt(file[:length]), fault, LONG[: index * CHUNK], index
            )
        file = file_of(LONG[: 2 * CHUNK])
        self.ends("a full last chunk", self.decrypt(file), 0, LONG[: 2 * CHUNK])
        self.ends(
            "a byte after a full last chunk", self.decrypt(file + b"\0"), 21, LONG[: 2 * CHUNK], 1
        )

    def test_written(self):
        """A file is the one that Python makes of the same random bytes. The salts spell the whole alphabet."""
        self.write("pass", b"correct horse")
        for log, text in (
            (1, b""),
            (2, LONG[:1]),
            (3, LONG[: CHUNK - 1]),
            (4, LONG[:CHUNK]),
            (10, LONG[: CHUNK + 1]),
            (1, LONG),
        ):
            self.see_written(log, hashlib.shake_128(text).digest(48), text)
        for at in (0, 21, 42, 43):
            spelled = ALPHABET[at : at + 21] + b"A"
            file = self.see_written(1, KEY + base64.b64decode(spelled + b"==") + NONCE, b"hello")
            self.see(f"the letters from {at} on", file.split(b" ")[2] == spelled, file)

    def see_written(self, log, random, text):
        """Counts whether a text is encrypted as Python does it, and returns the file."""
        self.write("random", random)
        self.write("in", text)
        self.tool(*f"encrypt --pass pass --log {log} --random random in out".split(), check=True)
        file = self.read("out")
        self.see(
            f"{len(text)} bytes at {log}", file == file_under(b"correct horse", log, random, text)
        )
        return file

    @needs("cc")
    def test_each_read_fails(self):
        """Seventeen reads give bytes, and one more finds the end. There is a position from the fourteenth on, which ends the nonce."""
        for turn in range(1, 20):
            ended = self.reads_fail(
                turn,
                HELLO,
                "decrypt",
                "--file-key",
                KEY.hex(),
                "--save",
                "position",
                "/dev/stdin",
                "out",
            )
            if turn < 19:
                self.ends(f"read {turn} fails", ended, 26, b"", 0 if turn > 14 else None)
            else:
                self.ends("no read fails", ended, 0, b"hello")
        for turn in range(1, 20):
            ended = self.reads_fail(turn, HELLO, "inspect")
            holds = (ended.returncode, ended.stderr[:17]) == (
                (1, b"age_tool: 26 Read") if turn < 19 else (0, b"")
            )
            self.see(
                f"read {turn} of an inspection fails",
                holds and bool(ended.stdout) == (turn == 19),
                ended,
            )

    def reads_fail(self, turn, data, *words):
        """A run whose input comes in pieces of seven bytes, and whose read number `turn` fails, once."""
        source, thread = feed(data, 7)
        self.remove("out", "position")
        ended = self.tool(*words, stdin=source, env=shim.loaded(READ=errno.EIO, AT=turn))
        os.close(source)
        thread.join()
        return ended

    def test_length_of_the_plaintext(self):
        """Nonce and payload take 16 bytes and, for each chunk, its text and 16; no text has an empty last chunk but the empty one."""
        for rest, plain in (
            (0, "none"),
            (31, "none"),
            (32, 0),
            (33, 1),
            (65_568, 65_536),
            (65_569, "none"),
            (65_584, "none"),
            (65_585, 65_537),
            (131_120, 131_072),
            (131_136, "none"),
            (131_137, 131_073),
        ):
            self.write("in", FRONT[:76] + rest * b"\7")
            report = f"version age-encryption.org/v1\nheader 76\nstanza x 0 0\nrest {rest}\nplain {plain}\n"
            self.see(
                f"{rest} bytes after the header",
                self.tool("inspect", "in").stdout == report.encode(),
            )
