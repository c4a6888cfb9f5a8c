"""Help: of the commands, and of the faults."""
import re

from tests.program.case import ProgramCase
from tools.manual import faults, sentence
from tools.workspace import TOP

READS = ["docs/FAULTS.md"]


class HelpTest(ProgramCase):
    def test_usage(self):
        """The line says that a key has to be given, which the rules of the arguments can't say. A command's help fits a terminal."""
        key = "<--pass <FILE>|--file-key <HEX>|--shared <FILE>>"
        told = self.tool("--help").stdout
        self.see("the program's help", all(len(it) <= 80 for it in told.splitlines()))
        self.see(
            "docs/help.txt, which a checkout shows that isn't built, is that",
            (TOP / "docs/help.txt").read_bytes() == told,
        )
        for command, which in (
            ("encrypt", ""),
            ("inspect", ""),
            ("decrypt", key),
            ("resume", key),
            ("drill", "<--clear|--pass <FILE>>"),
        ):
            shown = self.tool(command, "--help").stdout.decode()
            with self.subTest(command):
                self.assertRegex(
                    shown, rf"(?m)^Usage: age_tool {command}(?: .*\n {{7}})?.*{re.escape(which)}"
                )
                self.assertFalse([it for it in shown.splitlines() if len(it) > 80])

    def test_help_of_faults(self):
        """`help N` prints the row of FAULTS."""
        for row in faults((TOP / "docs" / "FAULTS.md").read_text()):
            ended = self.tool("help", row["No."])
            said = " ".join(ended.stdout.decode().split())
            wanted = f"{row['No.']} {row['Name']} {sentence(row['What it means'])} OUT: {row['What is left in OUT']}. What to do: {row['What to do']}."
            wanted = (
                re.sub(r"\[([^]]*)\]\([^)]*\)", r"\1", wanted).replace("`", "").replace(r"\|", "|")
            )
            self.see(
                f"help {row['No.']}",
                (ended.returncode, ended.stderr, said) == (0, b"", wanted),
                ended.stderr,
                said,
            )
            self.see(f"help {row['Name']}", self.tool("help", row["Name"]).stdout == ended.stdout)
            self.see(
                f"help {row['No.']} fits a terminal",
                all(len(it) <= 80 for it in ended.stdout.splitlines()),
                ended.stdout,
            )
        for words in (
            "help 0",
            "help 32",
            "help 256",
            "help x",
            "help 17 18",
            "17",
            "help wrongkey",
            "help WrongKey 1",
            "WrongKey",
        ):
            self.see(words, self.tool(*words.split()).returncode == 2)
        self.see(
            "help of a command",
            self.tool("help", "drill").stdout == self.tool("drill", "--help").stdout,
        )
        with open("/dev/full", "wb") as full:
            self.ends(
                "help to a full disk",
                self.tool("help", "17", stdout=full),
                1,
                b"",
                b"age_tool: 27 Write\n",
            )
