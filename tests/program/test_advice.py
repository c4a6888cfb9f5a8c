"""What is said after a stop about the position, and where a terminal shows it. A shell takes each command that is shown."""
import re
import subprocess

from tests import process
from tests.case import without_advice
from tests.program.case import ProgramCase

# What is said after the command that goes on from a position.
ANEW = "age_tool: resume reads only the rest of IN; if IN is on a fast disk, decrypting again is quicker\n"


class AdviceTest(ProgramCase):
    def test_command_that_is_pasted(self):
        """A shell takes the command that is shown as it was meant, whatever the names are."""
        self.write("cut.age", self.age[:150_000])
        for name in (
            "a b",
            "$(touch RUN)",
            "`touch RUN`",
            ";touch RUN",
            "it's",
            'a"b',
            "back\\slash",
            "two\nlines",
            "\x1b[2J",
            "-p",
            "--no-sync",
            "~",
            "*",
            "=ls",
            "#",
            "gr\u00f6\u00dfe",
            "\u202eright",
            "zero\u200bwidth",
            "a&b|c>d",
            "!x",
            "$HOME",
            "{a,b}",
            "'",
            "\t",
        ):
            ended = self.decrypt(f"--save={name}", "--", "cut.age", f"{name}.part")
            command = (
                ended.advice.decode().rpartition("to go on from there: ")[2].removesuffix(ANEW)
            )
            is_command = command.startswith("age_tool resume --position ") and command.endswith(
                " --pass pass cut.age NEW\n"
            )
            self.see(
                f"a command for {name!r}", is_command and command[:-1].isprintable(), ended.advice
            )
            self.write("cut.age", self.age)
            for shell in ("bash", "dash") if name.isprintable() else ("bash",):
                given = f'age_tool() {{ "$0" "$@"; }}; {command.replace(" NEW", " whole")}'
                pasted = process.run(
                    [shell, "-c", given, self.program],
                    cwd=self.room,
                    capture_output=True,
                    env={"LC_ALL": "C"},
                )
                self.see(
                    f"the command for {name!r} in {shell}",
                    pasted.returncode == 0 and self.read("whole") == self.plain,
                    command,
                    pasted.stderr,
                )
                self.remove("whole")
            self.write("cut.age", self.age[:150_000])
        self.see("no name is run", not self.is_there("RUN"))
        for name, shown in (
            ("./a_b-c:d,e+f@g%h.9", "./a_b-c:d,e+f@g%h.9"),
            ("a b;c", "'a b;c'"),
            ("gr\u00f6\u00dfe", "'gr\u00f6\u00dfe'"),
            ("it's", r"'it'\''s'"),
            ("tab\t", r"$'tab\011'"),
        ):
            ended = self.decrypt("--save", name, "cut.age", "part")
            self.see(
                f"the form of {name!r}",
                f" --position {shown} --old part --pass pass cut.age NEW\n".encode()
                in ended.advice,
                ended.advice,
            )
        long = "./" * 600 + "position"
        ended = self.decrypt("--save", long, "cut.age", "part")
        said = f"age_tool: position saved in {long[:1000]}..; to go on from there: age_tool resume --position {long} --old part --pass pass cut.age NEW\n{ANEW}"
        self.see(
            "a long name is whole in the command",
            ended.advice.endswith(said.encode()),
            ended.advice,
        )

    def test_advice_on_positions(self):
        self.write("cut.age", self.age[:150_000])
        ended = self.decrypt("--save", "position", "cut.age", "part")
        command = (
            b"age_tool: position saved in position; to go on from there: age_tool resume --position position --old part %s NEW\n"
            + ANEW.encode()
        )
        said = command % b"--pass pass cut.age"
        self.see("a position was saved", ended.advice.endswith(said), ended.advice)
        for name in ("/dev/null", "/dev/zero"):
            ended = self.decrypt("--save", "position", "cut.age", name)
            said_of_device = f"age_tool: position saved in position, but resume needs the output, which went to {name}\n".encode()
            self.see(
                f"whose old output is nowhere: {name}",
                ended.advice.endswith(said_of_device),
                ended.advice,
            )
        ended = self.decrypt("--save", "position", "cut.age", "/dev/full")
        self.see(
            "what a full device took is no old text",
            b"--old /dev/full" not in ended.advice,
            ended.advice,
        )
        with open(self.path("cut.age"), "rb") as cut:
            ended = self.decrypt("--save=position", "/dev/stdin", "part", stdin=cut)
        self.see(
            "standard input has no name",
            ended.advice.endswith(command % b"--pass pass IN"),
            ended.advice,
        )
        with open(self.path("cut.age"), "rb") as cut:
            ended = self.decrypt("--save=position", "/dev/fd/0", "part", stdin=cut)
        self.see(
            "nor has a descriptor", ended.advice.endswith(command % b"--pass pass IN"), ended.advice
        )
        with open(self.path("pass"), "rb") as word:
            ended = self.tool(
                *"decrypt --pass /proc/self/fd/0 --save position cut.age part".split(), stdin=word
            )
        self.see(
            "the passphrase of a descriptor",
            ended.advice.endswith(command % b"--pass FILE cut.age"),
            ended.advice,
        )
        with open(self.path("copy"), "wb") as out:
            ended = self.decrypt("--save=position", "cut.age", "/dev/fd/1", stdout=out)
        self.see(
            "whose old output is that of a descriptor",
            ended.advice.endswith(said.replace(b"part", b"OLD")),
            ended.advice,
        )
        self.remove("position")
        ended = self.decrypt("--save=position", "cut.age", "/dev/stdout")
        self.see(
            "whose old output is elsewhere",
            ended.advice.endswith(said.replace(b"part", b"OLD")),
            ended.advice,
        )
        ended = self.decrypt("--save=position", "pass", "back")
        self.see(
            "none was", ended.advice.endswith(b"age_tool: no position was saved\n"), ended.advice
        )
        ended = self.decrypt("cut.age", "part")
        self.see("none was asked for", b"position" not in ended.advice, ended.advice)

    def test_position_that_is_printed(self):
        """One that can't be saved is printed as a command of a shell, which puts it into a file from which a run goes on."""
        self.write("cut.age", self.age[:150_000])
        self.decrypt("--save", "position", "cut.age", "part")
        wanted = self.read("position")
        ended = self.unsaved()
        command = re.search(
            rb"(?m)^age_tool: to save the position elsewhere: (.*) > FILE$", ended.advice
        )
        self.see(
            "it is printed, and no more is said",
            command and ended.advice.count(b"\n") == 2 and ended.advice.endswith(b"> FILE\n"),
            ended.advice,
        )
        for shell in ("bash", "dash"):
            process.run(
                [shell, "-c", f"{command[1].decode()} > printed"], cwd=self.room, check=True
            )
            self.see(
                f"by {shell} it is the position",
                self.read("printed") == wanted,
                self.read("printed"),
            )
        ended = self.tool(
            *"resume --position printed --old part --pass pass plain.age whole".split()
        )
        self.see(
            "a run goes on from it",
            ended.returncode == 0 and self.read("whole") == self.plain,
            ended.stderr,
        )

    def test_advice_at_a_terminal(self):
        said = b"age_tool: 26 Read\nage_tool: can't open none: No such file or directory\n"
        self.ends(
            "a reason at a terminal",
            self.on_terminal("stderr", *"decrypt --file-key none none back".split()),
            2,
            b"",
            b"age_tool: bad file key\nage_tool: --file-key takes 32 hexadecimal digits\n",
        )
        self.ends(
            "a missing file",
            self.on_terminal("stderr", *"decrypt --pass pass none back".split()),
            1,
            b"",
            said,
        )
        said = b"age_tool: reading a header from standard input; for help, age_tool --help\nage_tool: 8 HeadCut line 1\n"
        ended = self.on_terminal("stdin")
        self.ends(
            "no words at a terminal",
            subprocess.CompletedProcess(
                [], ended.returncode, ended.stdout, without_advice(ended.stderr)[0]
            ),
            1,
            b"",
            said,
        )
