"""Tries docs/restore.py, which decrypts with Python alone, on what the program wrote, complete, truncated, changed and with another passphrase,
and on C2SP's test vectors for passphrases."""
import sys

from tests import process
from tests.case import Case
from tests.format.test_cctv import vectors
from tools.workspace import TOP

CHUNK = 65_536


class RestoreTest(Case):
    def restore(self, name, passphrase=b"correct horse\n"):
        """Without a terminal it reads the passphrase from standard input."""
        self.remove("out", "out.part")
        words = [sys.executable, TOP / "docs" / "restore.py", name, "out"]
        return process.run(
            words, cwd=self.room, input=passphrase, capture_output=True, start_new_session=True
        )

    def encrypt(self, text):
        self.write("pass", b"correct horse\n")
        self.write("text", text)
        self.tool("encrypt", "--log", "2", "--pass", "pass", "text", "age")
        return self.read("age")

    def test_whole(self):
        for length in (0, 1, CHUNK, CHUNK + 1, 2 * CHUNK):
            self.encrypt(bytes(length))
            ended = self.restore("age")
            self.see(
                f"{length} bytes",
                ended.returncode == 0 and self.read("out") == bytes(length),
                ended.stderr,
            )

    def test_refused(self):
        text = bytes(2 * CHUNK + 9)
        whole = self.encrypt(text)
        begin = len(whole) - len(text) - 3 * 16
        for name, file, left in (
            ("cut before a chunk", whole[: begin + CHUNK + 16], 0),
            ("cut in a chunk", whole[: begin + CHUNK + 99], 1),
            ("cut in the header", whole[:50], 0),
            ("appended", whole + b"x", 2),
            ("changed", whole[:-1] + bytes([whole[-1] ^ 1]), 2),
            ("another MAC", whole.replace(b"--- ", b"--- A", 1), 0),
            (
                "two chunks exchanged",
                whole[:begin]
                + whole[begin + CHUNK + 16 : -25]
                + whole[begin : begin + CHUNK + 16]
                + whole[-25:],
                0,
            ),
        ):
            self.write("bad", file)
            ended = self.restore("bad")
            said = ended.stderr.splitlines()[-1:]
            self.see(
                f"{name}: refused",
                ended.returncode == 1
                and not self.is_there("out")
                and said
                and said[0].startswith(b"restore: "),
                ended.stderr,
            )
            held = self.read("out.part") if self.is_there("out.part") else b""
            self.see(f"{name}: what is left", held == text[: left * CHUNK], len(held))
        for name, file in (
            ("no age file", b"hello\n" * 9),
            ("empty", b""),
            ("for a key", b"age-encryption.org/v1\n-> X25519 a\nb\n--- c\n"),
        ):
            self.write("bad", file)
            ended = self.restore("bad")
            self.see(
                f"{name}: refused",
                ended.returncode == 1 and b"not an age file for a passphrase" in ended.stderr,
                ended.stderr,
            )
        self.see(
            "another passphrase",
            self.restore("age", b"another\n").returncode == 1
            and not self.is_there("out")
            and not self.is_there("out.part"),
        )
        self.write("in.part", whole)
        for what, out in (("IN is OUT.part", "in"), ("IN is OUT", "in.part")):
            words = [sys.executable, TOP / "docs" / "restore.py", "in.part", out]
            ended = process.run(
                words,
                cwd=self.room,
                input=b"correct horse\n",
                capture_output=True,
                start_new_session=True,
            )
            self.see(
                what,
                ended.returncode == 1
                and self.read("in.part") == whole
                and b"exists" in ended.stderr,
                ended.stderr,
            )

    def test_vectors(self):
        """What others wrote is restored, and what isn't is told in a sentence. (It takes some headers that age refuses: their MAC is right.)"""
        for vector in (it for it in vectors() if it.passphrase is not None):
            self.write("age", vector.file)
            ended, has_to = (
                self.restore("age", vector.passphrase.encode() + b"\n"),
                vector.expected == "success" and not vector.is_armored,
            )
            said = ended.stderr.splitlines()[-1]
            self.see(
                f"{vector.name}: a sentence, or the text",
                said.startswith(b"restore: ")
                if ended.returncode
                else vector.text_is(self.read("out")),
                ended,
            )
            self.see(
                f"{vector.name}: restored",
                ended.returncode == 0
                if has_to
                else vector.expected != "no match" or ended.returncode == 1,
                ended,
            )
