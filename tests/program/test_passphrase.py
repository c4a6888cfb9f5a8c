"""Passphrases (--pass): which can't be typed, at a terminal, and what is left of one in memory."""
import os
import re

from tests.program.case import Feeding, FilesCase, ProgramCase
from tools import terminal

NO_TEXT = "bytes that are no UTF-8"


def heap(process):
    """What a process may write in its memory, but for its stack."""
    held = []
    with open(f"/proc/{process}/maps", encoding="utf-8") as maps, open(
        f"/proc/{process}/mem", "rb", buffering=0
    ) as memory:
        for first, end, may, name in re.findall(
            r"(?m)^(\w+)-(\w+) (\S+) \S+ \S+ \S+ *(.*)$", maps.read()
        ):
            if may.startswith("rw") and not name.startswith("[stack"):
                memory.seek(int(first, 16))
                held.append(memory.read(int(end, 16) - int(first, 16)))
    return b"".join(held)


class PassphraseTest(ProgramCase):
    def test_passphrases_that_can_not_be_typed(self):
        for held, what in (
            (b"correct horse\r\n", "a carriage return"),
            (b"\xef\xbb\xbfcorrect horse\n", "a byte order mark"),
            (b"correct horse\n\n", "a second newline"),
            (b"correct\nhorse\n", "a second line"),
            (b"correct\0horse", "a zero byte"),
            (b"correct\thorse\n", "a control character"),
            (b"correct\x7fhorse\n", "a control character"),
            (b"correct horse\n", None),
            (b"correct horse", None),
            ("gr\u00f6\u00dfer\n".encode(), None),
            (b"\xef\xbb\xbe", None),
            (b"a\xe9b\n", NO_TEXT),
            (b"\xef\xbb", NO_TEXT),
            (b"\xef\xbba\n", NO_TEXT),
            (b"horse\xf0\x9f\x90", NO_TEXT),
            ("horse \U0001f40e".encode(), None),
            (4_095 * b"x", None),
            (4_095 * b"x" + b"\n", None),
            (4_096 * b"x", "more than 4,095 bytes"),
            (2_048 * "\u00e4".encode(), "more than 4,095 bytes"),
        ):
            self.write("words", held)
            said = (
                f"age_tool: the passphrase in words has {what}, which can't be typed when age asks for it\n".encode()
                if what
                else b""
            )
            for option in (("--pass", "words"), ("--pass=words",)):
                ended = self.tool("encrypt", *option, "--log", "1", "plain", "words.age")
                self.see(
                    held,
                    (ended.returncode, ended.stderr, ended.advice) == (0, b"", said),
                    ended.stderr,
                    ended.advice,
                )
            ended = self.tool(*"encrypt --pass words --log 1 words words.age".split())
            self.see(
                f"{held} encrypts itself",
                (ended.returncode, ended.advice) == (0, said),
                ended.advice,
            )
            ended = self.tool(*"decrypt --pass words words.age back".split())
            self.see(f"{held} decrypts", (ended.returncode, ended.advice) == (0, b""), ended.advice)

    def test_passphrases_that_are_no_text(self):
        """What Python decodes as UTF-8 is text, and nothing else: each byte beyond ASCII, and bytes at the limits of what may follow."""
        pieces = [bytes([it]) for it in (0x80, 0xBF, 0xC3, 0xFF)]
        pieces += [
            bytes([first, second])
            for first in (0xC1, 0xC2, 0xDF)
            for second in (0x7E, 0x80, 0xBF, 0xC0)
        ]
        pieces += [
            bytes([first, second, 0x80]) for first in (0xE0, 0xED, 0xEF) for second in (0x9F, 0xA0)
        ]
        pieces += [
            bytes([first, second, 0xBF, 0x80])
            for first in (0xF0, 0xF1, 0xF4, 0xF5)
            for second in (0x8F, 0x90)
        ]
        for piece in pieces:
            try:
                (b"a" + piece + b"b").decode()
                wanted = b""
            except UnicodeDecodeError:
                wanted = f"age_tool: the passphrase in words has {NO_TEXT}, which can't be typed when age asks for it\n".encode()
            self.write("words", b"a" + piece + b"b")
            ended = self.tool(*"encrypt --no-sync --pass words --log 1 words words.age".split())
            self.see(piece, (ended.returncode, ended.advice) == (0, wanted), ended.advice)

    def test_hints_of_names(self):
        """A passphrase in the place of its file's name."""
        for option, of in (("--pass", "passphrase"), ("--shared", "shared secret")):
            ended = self.tool("decrypt", option, "correct horse", "plain.age", "back")
            said = f"age_tool: 26 Read\nage_tool: can't open correct horse: No such file or directory; {option} takes the name of a file that holds the {of}\n"
            self.ends(f"the words of {option}", ended, 1, b"", said.encode())
        said = b"age_tool: 26 Read\nage_tool: can't open none: No such file or directory\n"
        self.ends("no hint if another file is missing", self.decrypt("none", "back"), 1, b"", said)
        said = b"age_tool: bad file key\nage_tool: --file-key takes 32 hexadecimal digits\n"
        self.ends(
            "a bad file key",
            self.tool(*"decrypt --file-key 00 plain.age back".split()),
            2,
            b"",
            said,
        )

    def test_passphrase_at_a_terminal(self):
        """That it is waited for is said, and nothing else."""
        self.write("short", b"a short text\n")
        self.encrypt("2 short short.age")
        said = b"age_tool: reading the passphrase from the terminal, which shows it; Ctrl-D ends it\r\n"
        for name in ("/dev/tty", "/dev/stdin"):
            child, tty = terminal.start(
                [
                    "env",
                    "-C",
                    str(self.room),
                    str(self.program),
                    "decrypt",
                    "--pass",
                    name,
                    "short.age",
                    "back",
                ]
            )
            came = terminal.output(tty, said, 20)
            os.write(tty, b"correct horse\n\x04")
            terminal.output(tty)
            os.close(tty)
            status = os.waitstatus_to_exitcode(os.waitpid(child, 0)[1])
            self.see(
                f"a passphrase from {name}",
                (status, came) == (0, said) and self.read("back") == b"a short text\n",
                status,
                came,
            )
            self.remove("back")
        child, tty = terminal.start(
            [
                "env",
                "-C",
                str(self.room),
                str(self.program),
                *"encrypt --pass pass --log 1 /dev/tty typed.age".split(),
            ]
        )
        os.write(tty, b"a text\n\x04")
        came = terminal.output(tty)
        os.close(tty)
        status = os.waitstatus_to_exitcode(os.waitpid(child, 0)[1])
        self.see(
            "another file from a terminal",
            (status, b"passphrase" in came) == (0, False),
            status,
            came,
        )
        with open(self.path("pass"), "rb") as held:
            ended = self.tool(*"decrypt --pass /dev/stdin short.age back".split(), stdin=held)
        self.ends("a passphrase from a file", ended, 0)


class SecretTest(FilesCase):
    """A passphrase, and an age file, to whose header the program has come."""

    def test_passphrase(self):
        """Once its key is derived no piece of a passphrase is left in the heap. (What is freed loses its first bytes to the allocator.)"""
        for name, size in (("short", 400), ("long", 60_000)):
            secret = os.urandom(size // 2).hex().encode()
            pieces = [secret[at : at + 20] for at in range(0, size, 20)]
            self.write("pass", secret + b"\n")
            self.expect(0, b"", "encrypt --pass pass --log 4 plain age")
            self.age = self.read("age")
            self.remove("position", "old")
            self.write("cut", self.age[:150000])
            self.tool(*"decrypt --pass pass --save position cut old".split())
            resume = "resume --position position --old old --pass pass in out"
            for words in (
                "encrypt --pass pass --log 4 in out",
                "decrypt --pass pass in out",
                resume,
            ):
                feeding = Feeding(self, words)
                held = heap(feeding.run.pid)
                found = [at for at, piece in enumerate(pieces) if piece in held]
                seen = any(self.age[at : at + 64] in held for at in range(0, 139000, 1000))
                self.see(f"a {name} passphrase: {words}: the heap is read", seen, len(held))
                self.see(f"a {name} passphrase: {words}", not found, len(found), found[:5])
                feeding.input.write(self.age[140000:])
                feeding.input.close()
                self.ends(f"a {name} passphrase: {words}: the end", feeding.run, 0, b"")
