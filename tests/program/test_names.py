"""Names of files in lines for people: none forges a line or commands a terminal, and none that looks like help ends in it."""
import os

from tests.program.case import ProgramCase


class NamesTest(ProgramCase):
    def test_names(self):
        """A name forges no line, and commands no terminal."""
        for what, name, shown in (
            (
                "a name of two lines",
                "none\nage_tool: 13 WrongKey\x1b[2J",
                r"none\nage_tool: 13 WrongKey\u{1b}[2J",
            ),
            ("a name that can be read", 'it\'s \\ "größer" 大', 'it\'s \\\\ "größer" 大'),
            ("an empty name", "", '""'),
        ):
            said = f"age_tool: 26 Read\nage_tool: can't open {shown}: No such file or directory\n".encode()
            self.ends(what, self.decrypt(name, "back"), 1, b"", said)
        for length, cut in ((1_000, b""), (1_001, b".."), (1_200, b"..")):
            said = (
                b"age_tool: 26 Read\nage_tool: can't open "
                + b"n" * 1_000
                + cut
                + b": File name too long\n"
            )
            self.ends(
                f"a name of {length:,} characters", self.decrypt("n" * length, "back"), 1, b"", said
            )
        said = b"age_tool: 26 Read\nage_tool: can't read /proc/self/mem: Input/output error\n"
        self.ends("a file that can't be read", self.encrypt("10 /proc/self/mem back"), 1, b"", said)

    def test_names_like_help(self):
        """A name that begins with -h is refused: a script that removes what was encrypted would lose it after the help, which ends with 0."""
        self.write("-holiday", b"all there is\n")
        for words in (
            "encrypt --pass pass -holiday out",
            "encrypt --pass pass plain -hout",
            "decrypt --pass -hx plain.age out",
            "-help",
            "inspect -hx",
        ):
            word = next(it for it in words.split() if it.startswith("-h"))
            more = ", and ./-holiday for the file of that name" if word == "-holiday" else ""
            said = f"age_tool: unexpected argument '{word}'\n\n  tip: write --help for help{more}\n"
            ended = self.tool(*words.split())
            self.see(
                words,
                (ended.returncode, ended.stdout, ended.stderr.decode()) == (2, b"", said)
                and not self.path("out").exists(),
                ended.stderr,
            )
        self.see(
            "with ./", self.tool(*"encrypt --pass pass ./-holiday out".split()).returncode == 0
        )
        self.see(
            "after --",
            self.tool(*"inspect -- -holiday".split()).stderr.startswith(b"age_tool: 1 NotAge"),
        )
        self.see(
            "help itself",
            self.tool("encrypt", "-h").stdout == self.tool("encrypt", "--help").stdout != b"",
        )

    def test_names_like_faults(self):
        """A line that begins with a name isn't one of a fault."""
        self.write("27 Write", b"")
        os.link(self.path("27 Write"), self.path("28 Memory"))
        for words, said in (
            (
                ("encrypt", "--pass", "27 Write", "plain", "back"),
                "bad passphrase file\nage_tool: ./27 Write: it is empty",
            ),
            (
                ("decrypt", "--shared", "27 Write", "plain.age", "back"),
                "bad shared file\nage_tool: ./27 Write: it holds 0 of 64 bytes",
            ),
            (
                ("encrypt", "--pass", "pass", "27 Write", "28 Memory"),
                "same file named twice\nage_tool: ./28 Memory and 27 Write are the same file",
            ),
            (
                (b"27 Write\xff",),
                "bad command line\nage_tool: ./27 Write\\xff: it isn't UTF-8, as a name must be",
            ),
        ):
            self.ends(words, self.tool(*words), 2, b"", f"age_tool: {said}\n".encode())
