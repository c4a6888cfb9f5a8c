"""Random command lines with several mistakes: which refusal comes first."""
import re
import unittest

from tests import standard
from tests.format.generated import GeneratedFiles
from tests.standard import Fault

GIVE_ONE = b"age_tool: give one of --pass, --file-key and --shared\n"


@unittest.skipIf(standard.ChaCha20Poly1305 is None, "needs cryptography")
class RandomArgumentsTest(GeneratedFiles):
    """Command lines with several mistakes: which refusal comes first, and that it changes no file."""

    def setUp(self):
        super().setUp()
        self.text = b"plaintext " * 4
        self.write("in", self.front_of(self.text))
        place = self.position(0, b"").text()
        files = {
            "empty": b"\n",
            "long": b"x" * 65_537,
            "random": bytes(48),
            "short": bytes(47),
            "position": place,
            "bad": b"x",
            "old": b"",
            "plain": self.text,
        }
        for name, held in (
            files
            | {
                "shared": bytes(64),
                "shared63": bytes(63),
                "script": b"end\n",
                "script1001": b"end\n" * 1001,
            }
        ).items():
            self.write(name, held)
        self.before = {it.name: it.read_bytes() for it in self.room.iterdir()}

    def secret_options(self, command):
        """Options that say what opens a file, and the refusals that they bring, in order: before any file is read, and as they are."""
        kinds = {"encrypt": [["pass"]], "drill": [["pass"], ["clear"], [], ["pass", "clear"]]}
        used = self.pick(
            *kinds.get(
                command,
                [["pass"]] * 6
                + [["file-key"]] * 2
                + [
                    ["shared"],
                    [],
                    ["pass", "file-key"],
                    ["file-key", "shared"],
                    ["pass", "file-key", "shared"],
                ],
            )
        )
        word, shared = self.pick("pass", "pass", "pass", "empty", "long", "absent"), self.pick(
            "shared", "shared63", "absent"
        )
        digits = self.pick(self.key.hex(), self.key.hex(), self.key.hex(), "0" * 31, "g" * 32, "")
        options = [
            [f"--{it}"]
            if it == "clear"
            else [f"--{it}", {"pass": word, "shared": shared, "file-key": digits}[it]]
            for it in used
        ]
        early, late = [], []
        if command != "encrypt" and len(used) != 1:
            early.append(
                (
                    2,
                    b"age_tool: give one of --clear and --pass\n"
                    if command == "drill"
                    else GIVE_ONE,
                )
            )
        if "file-key" in used and not re.fullmatch("[0-9a-fA-F]{32}", digits):
            early.append((2, b"age_tool: bad file key\n"))
        if "pass" in used and word != "pass":
            late.append(
                (1, Fault(26).line())
                if word == "absent"
                else (2, b"age_tool: bad passphrase file\n")
            )
        if "shared" in used and shared != "shared":
            late.append(
                (1, Fault(26).line()) if shared == "absent" else (2, b"age_tool: bad shared file\n")
            )
        return options, early, late, used

    def more_options(self, command, options, refusals):
        """Those of the command alone."""
        if command == "encrypt":
            name = self.pick("random", "random", "short", "absent")
            options += [["--random", name], ["--log", "1"]]
            refusals += (
                []
                if name == "random"
                else [
                    (1, Fault(26).line())
                    if name == "absent"
                    else (2, b"age_tool: bad random file\n")
                ]
            )
        if command == "resume":
            place, old = self.pick("position", "position", "bad", "absent"), self.pick(
                "old", "old", "absent2"
            )
            options += [["--position", place], ["--old", old]]
            refusals += (
                [] if place == "position" else [(1, Fault(26 if place == "absent" else 23).line())]
            )

    def command_line(self):
        """A command line, and what it is refused for first: a status and a line; None if it isn't."""
        command = self.pick("encrypt", "decrypt", "resume", "drill")
        options, early, late, used = self.secret_options(command)
        source, out = self.pick(
            *["plain" if command == "encrypt" else "in"] * 5, "absent3"
        ), self.pick(*["out"] * 6, "nofolder/out")
        saved = self.pick(None, None, "saved") if command in ("decrypt", "resume") else None
        if command != "drill" and self.is_rare(0.12):
            out = source
        elif saved and self.is_rare(0.2):
            saved = self.pick(source, out)
        if command != "drill" and len({source, out, saved} - {None}) < 2 + bool(saved):
            early.insert(0, (2, b"age_tool: same file named twice\n"))
        self.more_options(command, options, late)
        script = self.pick("script", "script", "script1001", "absent")
        if command == "drill" and script != "script":
            late.append(
                (1, Fault(26).line()) if script == "absent" else (2, b"age_tool: script too long\n")
            )
        late += [(1, Fault(26).line())] * (source == "absent3") + [(1, Fault(27).line())] * (
            command != "drill" and out == "nofolder/out"
        )
        late += [(1, Fault(12).line())] * (command in ("decrypt", "resume") and used == ["shared"])
        options += [["--save", saved]] if saved else []
        self.random.shuffle(options)
        options = [it if len(it) == 1 or self.is_rare(0.7) else ["=".join(it)] for it in options]
        words = [
            command,
            *sum(options, []),
            *([script, source] if command == "drill" else [source, out]),
        ]
        return words, next(iter(early + late), None)

    def test_words(self):
        for _ in self.turns(500):
            for it in self.room.iterdir():
                if it.name not in self.before:
                    it.unlink()
            words, refusal = self.command_line()
            ended = self.run_confined(*words)
            if refusal:
                self.compare(ended, *refusal[:1], line=refusal[1], case=words, **self.before)
                made = {it.name for it in self.room.iterdir()} - {*self.before}
                self.wrong += [(words, made)] if refusal[0] == 2 and made else []
            elif words[0] == "drill":
                self.compare(ended, 0, b"1 failed-20 0\n", case=words)
            elif words[0] == "encrypt":
                self.compare(ended, 0, case=words)
            else:
                self.compare(ended, 0, case=words, out=self.text)
