"""Tries the completions of docs/completions in their shells: bash, and zsh and fish if they are installed."""
import os
import re

from tests import process
from tests.case import Case, needs
from tools import terminal
from tools.workspace import CRATES, TOP

FOLDER = TOP / "docs" / "completions"
# The folder may have any name.
UTF_8 = {**os.environ, "LC_ALL": "C.UTF-8"}
COMMANDS = "encrypt decrypt resume inspect drill"
OPTIONS = "--pass --file-key --shared --max-log --save"
IN_BASH = '. "./$1.bash"; COMP_WORDS=("$@"); COMP_CWORD=$(($# - 1)); "_$1"; printf "%s\\n" "${COMPREPLY[@]}"'


class CompletionsTest(Case):
    """What a shell offers for the words given, the last of which is being typed."""

    def offers(self, name, wanted, offered):
        """Counts whether all of these words are offered."""
        with self.subTest(name):
            self.assertLessEqual(set(wanted.split()), set(offered.split()))

    def in_bash(self, *words):
        return process.run(
            ["bash", "-c", IN_BASH, "bash", *words], cwd=FOLDER, capture_output=True, text=True
        ).stdout

    def in_fish(self, typed):
        words = ["fish", "--no-config", "-c", f"source age_tool.fish; complete -C '{typed}'"]
        lines = process.run(
            words, cwd=FOLDER, capture_output=True, text=True, env=UTF_8
        ).stdout.splitlines()
        return "\n".join(line.split("\t")[0] for line in lines)

    def in_zsh(self, typed):
        """It shows its completions at a terminal alone."""
        child, tty = terminal.start(
            ["env", "-C", str(FOLDER), "zsh", "-f", "-i"], {"TERM": "dumb", **UTF_8}
        )
        begin = "PS1='% '; fpath=(\"$PWD\" $fpath); autoload -Uz compinit; compinit -u -D; LISTMAX=1000; bindkey '^I' list-choices; echo rea''dy\n"
        os.write(tty, begin.encode())
        terminal.output(tty, b"ready\r\n", 10)
        os.write(tty, typed.encode() + b"\t")
        seen = terminal.output(tty, None, 2).decode(errors="replace")
        os.write(tty, b"\x15exit\n")
        terminal.output(tty, None, 2)
        os.close(tty)
        os.waitpid(child, 0)
        return re.sub(r"\x1b\[[0-9;?]*[a-zA-Z]", "", seen)

    def test_bash(self):
        self.offers("commands", COMMANDS, self.in_bash("age_tool", ""))
        self.offers("options", OPTIONS, self.in_bash("age_tool", "decrypt", "--"))
        self.offers("a prefix", "--position", self.in_bash("age_tool", "resume", "--po"))
        self.offers("a number", "18", self.in_bash("age_tool", "encrypt", "--log", "1"))
        self.offers(
            "files", "age_tool.fish", self.in_bash("age_tool", "decrypt", "--pass", "p", "age")
        )
        self.offers(
            "a number after =", "18", self.in_bash("age_tool", "encrypt", "--log", "=", "1")
        )
        self.offers(
            "each number after =", "1 22", self.in_bash("age_tool", "decrypt", "--max-log", "=")
        )
        self.offers(
            "files after =",
            "age_tool.fish",
            self.in_bash("age_tool", "decrypt", "--pass", "=", "age"),
        )
        self.see("no options after --", "--" not in self.in_bash("age_tool", "decrypt", "--", "--"))

    def test_words(self):
        """Commands and options are described in the words of the help."""
        said = (
            " ".join((CRATES / "age_cli_args" / "src" / "help.rt").read_text().split())
            + " Print help Print the version"
        )
        in_zsh = r"--[\w-]+=?\[((?:[^]']|'\\'')*)\]|^ {8}'(?:encrypt|decrypt|resume|inspect|drill):(.*)'$"
        for name, form in (("age_tool.fish", r'-d "(.*)"'), ("_age_tool", in_zsh)):
            words = ["".join(it) for it in re.findall(form, (FOLDER / name).read_text(), re.M)]
            unlike = [it for it in words if it.replace("'\\''", "'") not in said]
            self.see(name, len(words) > 15 and not unlike, len(words), unlike)

    def test_agefile(self):
        """Those of agefile, in bash; of the other shells that they have each option of its help."""
        self.offers(
            "commands", COMMANDS + " test restore salvage -d -e", self.in_bash("agefile", "")
        )
        self.offers(
            "options", OPTIONS + " --identity --overwrite", self.in_bash("agefile", "decrypt", "--")
        )
        self.offers(
            "of encrypt",
            "--recipient --recipients-file --identity",
            self.in_bash("agefile", "encrypt", "--"),
        )
        self.offers("a number", "18", self.in_bash("agefile", "encrypt", "--log", "1"))
        self.offers(
            "files", "agefile.fish", self.in_bash("agefile", "restore", "--identity", "k", "age")
        )
        options = set(
            re.findall(r"--([a-z-]+)", (TOP / "docs" / "completions" / "agefile.bash").read_text())
        )
        for name, form in (("agefile.fish", r"-l ([a-z-]+)"), ("_agefile", r"'\*?--([a-z-]+)=?\[")):
            found = set(re.findall(form, (FOLDER / name).read_text())) | {"help", "version"}
            missing = options - found - {"encrypt", "decrypt", "passphrase", "output"}
            self.see(name, not missing, missing)

    @needs("fish")
    def test_fish(self):
        self.offers("commands", COMMANDS, self.in_fish("age_tool "))
        self.offers("options", OPTIONS, self.in_fish("age_tool decrypt --"))
        self.offers("a number", "18", self.in_fish("age_tool encrypt --log "))
        self.offers("files", "age_tool.fish", self.in_fish("age_tool decrypt --pass p age"))
        self.offers(
            "a number after =", "--max-log=18", self.in_fish("age_tool decrypt --max-log=1")
        )
        self.see("no files after help", "age_tool.fish" not in self.in_fish("age_tool help "))

    @needs("zsh")
    def test_zsh(self):
        self.offers("commands", COMMANDS, self.in_zsh("age_tool "))
        self.offers("options", OPTIONS, self.in_zsh("age_tool decrypt --"))
        self.offers("a number", "18", self.in_zsh("age_tool encrypt --log "))
        self.offers("files", "age_tool.fish", self.in_zsh("age_tool inspect age"))
        self.offers("a number after =", "18", self.in_zsh("age_tool decrypt --max-log=1"))
        self.offers("files after =", "age_tool.fish", self.in_zsh("age_tool decrypt --pass=age"))
