"""Passphrases of agefile: typed at a terminal, and from a file."""
import signal

from tests.bindings import setUpModule  # noqa: F401
from tests.program.agefile import AgefileCase, form


class PassphraseTest(AgefileCase):
    def test_typed(self):
        """A passphrase that is typed: twice to encrypt, and never shown."""
        secret = "pass\u00e9 wort"
        typed = secret.encode() + b"\n"
        ended = self.at_terminal(*"encrypt --log 2 plain new.age".split(), answers=[typed, typed])
        self.ends("encrypt", ended, 0)
        self.see(
            "two questions, and no passphrase",
            ended.shown.count(b":") == 2 and secret.encode() not in ended.shown,
            ended.shown,
        )
        self.write("file", secret.encode())
        self.ends(
            "age_tool reads it", self.tool(*"decrypt --pass file new.age new".split()), 0, out=b""
        )
        ended = self.at_terminal(*"decrypt new.age -".split(), answers=[typed])
        self.ends("decrypt", ended, 0, out=self.plain)
        self.see("one question", ended.shown.count(b":") == 1, ended.shown)
        for what, answers, said in (
            ("differ", [b"one\n", b"two\n"], "agefile: the passphrases differ\n"),
            ("none", [b"\n"], "agefile: a passphrase has 1 to 65,536 bytes, not 0\n"),
            ("a line feed", [b"one\ntwo\n", b"x\n"], "agefile: the passphrases differ\n"),
            ("closed", [b"\4"], "agefile: no passphrase was typed: .*"),
            (
                "a control character",
                [b"one\x16\1two\n"],
                "agefile: the passphrase has a control character, .*",
            ),
            ("no UTF-8", [b"caf\351\n", b"caf\351\n"], "agefile: what was typed isn't .*"),
        ):
            self.ends(
                what,
                self.at_terminal(*"encrypt --log 2 plain none".split(), answers=answers),
                1,
                form(said),
            )
        self.see("no file was made", not self.is_there("none"))
        said = form("age_tool: 13 WrongKey\nage_tool: age: the passphrase doesn't open it: .*")
        self.ends(
            "a wrong one", self.at_terminal("decrypt", "age", "none", answers=[b"wrong\n"]), 1, said
        )
        self.ends(
            "with a carriage return",
            self.at_terminal("decrypt", "age", "-", answers=[b"correct horse\r\n"]),
            0,
            out=self.plain,
        )
        ended = self.at_terminal("decrypt", "age", "pass", answers=[])
        self.see(
            "none is asked for if OUT is refused",
            ended.returncode == 1 and ended.shown == b"",
            ended.shown,
        )
        for name in ("none", "plain", "pass", "."):
            ended = self.at_terminal("decrypt", name, "new.txt", answers=[])
            self.see(
                f"none is asked for if {name} isn't under one",
                ended.returncode == 1 and ended.shown == b"" and b"age_tool: " in ended.stderr,
                vars(ended),
            )

    def test_interrupted_prompt(self):
        """Ctrl-C at the question ends agefile as by that signal."""
        ended = self.at_terminal("decrypt", "age", "new", answers=[b"\3"])
        self.see(
            "it ends by the signal",
            (ended.returncode, ended.stderr) == (-signal.SIGINT, b""),
            vars(ended),
        )

    def test_no_terminal(self):
        for given in (b"", b"correct horse\n"):
            said = (
                b"agefile: no passphrase was typed: name its file by --pass, or run at a terminal\n"
            )
            self.ends(
                "no terminal",
                self.run_agefile("decrypt", "age", "new", input=given, start_new_session=True),
                1,
                said,
            )

    def test_passphrase_files(self):
        """Those of --pass are read by age_tool's rules."""
        for name, held, status, said in (
            ("lf", b"correct horse\n\n", 1, "age_tool: 13 WrongKey.*"),
            ("crlf", b"correct horse\r\n", 1, "age_tool: 13 WrongKey.*"),
            ("empty", b"", 2, "age_tool: bad passphrase file.*"),
            ("/dev/zero", None, 2, "age_tool: bad passphrase file.*"),
        ):
            if held is not None:
                self.write(name, held)
            self.ends(
                name, self.run_agefile("decrypt", "--pass", name, "age", "new"), status, form(said)
            )
