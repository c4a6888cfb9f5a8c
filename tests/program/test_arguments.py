"""Arguments that are refused, and the advice that is given on them."""
import random
import re

from tests.program.case import ProgramCase
from tools.manual import faults
from tools.workspace import TOP

READS = ["docs/FAULTS.md"]


class ArgumentsTest(ProgramCase):
    def test_words(self):
        self.ends("encrypt", self.encrypted, 0)
        bad = b"age_tool: bad command line\nage_tool: "
        for words in ((b"\xff",), (b"inspect", b"\xff", b"\xfe")):
            self.ends(
                f"the first word that isn't UTF-8, of {len(words)}",
                self.tool(*words),
                2,
                b"",
                bad + b"\\xff: it isn't UTF-8, as a name must be\n",
            )
        for length, cut in ((1_000, b""), (1_001, b"..")):
            said = bad + 1_000 * rb"\xff" + cut + b": it isn't UTF-8, as a name must be\n"
            self.ends(
                f"a word of {length} bytes that aren't UTF-8",
                self.tool(length * b"\xff"),
                2,
                b"",
                said,
            )
        said = bad + 600 * rb"\xff" + 400 * b"n" + b"..: it isn't UTF-8, as a name must be\n"
        self.ends(
            "a word of bytes and letters", self.tool(600 * b"\xff" + 600 * b"n"), 2, b"", said
        )
        said = bad + rb"caf\xe9\u{1b}[2J\n: it isn't UTF-8, as a name must be" + b"\n"
        self.ends(
            "a name that isn't UTF-8", self.decrypt(b"caf\xe9\x1b[2J\n", "back"), 2, b"", said
        )

    def test_options_of_others(self):
        """A refused option of `age` or `gpg` gets a hint that is true, and no other tip."""
        for words, hint in (
            (
                "decrypt -i key.txt plain.age back",
                "for a key file: agefile decrypt --identity FILE IN OUT",
            ),
            (
                "decrypt --identity=key.txt plain.age back",
                "for a key file: agefile decrypt --identity FILE IN OUT",
            ),
            ("-d -o back plain.age", "age_tool decrypt --pass FILE IN OUT decrypts"),
            ("-c plain", "age_tool encrypt --pass FILE IN OUT encrypts"),
            ("encrypt -p -o back plain", "the passphrase is read from a file: --pass FILE"),
            ("encrypt --pass pass -o back plain", "OUT is the last word, without an option"),
            (
                "encrypt -r age1 plain back",
                "for a recipient: agefile encrypt --recipient KEY IN OUT",
            ),
            (
                "encrypt -R all plain back",
                "for recipients: agefile encrypt --recipients-file FILE IN OUT",
            ),
            ("encrypt --armor plain back", "age_tool doesn't do armor: leave it out"),
            ("encrypt -f plain back", "without --no-clobber an existing OUT is overwritten"),
            ("-v", "--progress shows how far a run is, and age_tool --version the version"),
            (
                "decrypt --pass pass plain.age cut.age back",
                "a command takes one IN and one OUT at a time",
            ),
            ("encrypt --log -1 plain back", "no such option: age_tool encrypt --help lists them"),
            ("decrypt --passs pass plain.age back", "a similar option exists: '--pass'"),
            (
                "decrypt -q --pass pass plain.age back",
                "leave it out: without --progress a run that succeeds says little",
            ),
            (
                "encrypt --overwrite plain back",
                "without --no-clobber an existing OUT is overwritten",
            ),
        ):
            ended = self.tool(*words.split())
            tips = re.findall(rb"(?m)^  tip: (.*)$", ended.stderr)
            usage = re.search(
                rb"\n\nUsage: age_tool .*\n(?: {7}.*\n)?\nFor more information, try '--help'\.\n$",
                ended.stderr,
            )
            self.see(
                words, (ended.returncode, tips) == (2, [hint.encode()]) and usage, ended.stderr
            )

    def test_options_of_other_commands(self):
        """An option that another command has says so, one that none has where they are listed, and a name that begins with a dash how to write it."""
        for name in ("-dash", "--log", "-a b", "-o"):
            self.write(name, b"")
        keys, listed = (
            "encrypt, decrypt, resume and drill",
            "no such option: age_tool {} --help lists them".format,
        )
        for words, hint in (
            ("decrypt --max-log 3 --random r plain.age back", "--random is an option of encrypt"),
            ("encrypt --max-log=9 plain back", "--max-log is an option of decrypt and resume"),
            ("inspect --pass pass plain.age", f"--pass is an option of {keys}"),
            ("--pass pass plain.age back", f"--pass is an option of {keys}"),
            ("drill --clear script plain --old part", "--old is an option of resume"),
            ("encrypt --clear plain back", "--clear is an option of drill"),
            ("encrypt --xyzzy plain back", listed("encrypt")),
            ("inspect -z plain.age", listed("inspect")),
            ("resume --xyzzy=1", listed("resume")),
            ("--xyzzy", "no such option: age_tool --help lists the commands"),
            ("decrypt --pass pass -none back", listed("decrypt")),
            ("decrypt --pass pass -dash back", "write ./-dash for the file of that name"),
            ("decrypt --pass -dash plain.age back", "write ./-dash for the file of that name"),
            ("inspect --log", "write ./--log for the file of that name"),
            ("inspect --log=3", "--log is an option of encrypt"),
            ("inspect -o", "write ./-o for the file of that name"),
            ("inspect -p", "the passphrase is read from a file: --pass FILE"),
        ):
            ended = self.tool(*words.split())
            self.see(
                words,
                (ended.returncode, re.findall(rb"(?m)^  tip: (.*)$", ended.stderr))
                == (2, [hint.encode()]),
                ended.stderr,
            )
        ended = self.tool("inspect", "-a b")
        self.see(
            "a name with a blank",
            b"  tip: write ./'-a b' for the file of that name\n" in ended.stderr,
            ended.stderr,
        )
        self.write("IN", self.age)
        ended = self.decrypt("IN", "-new")
        self.see(
            "a file that is to be made",
            b"--help lists them" in ended.stderr and not self.is_there("-new"),
            ended.stderr,
        )

    def test_commands_of_others(self):
        """A word in the place of the command gets a tip, or the list of the commands, which is that of `--help`."""
        listed = (
            self.tool("--help").stdout.decode().partition("\nCommands:\n")[2].partition("\n\n")[0]
        )
        *commands, last = re.findall(r"(?m)^  (\w+) ", listed)
        known = f"the commands are {', '.join(commands)} and {last}"
        last_fault = max(int(it["No."]) for it in faults((TOP / "docs" / "FAULTS.md").read_text()))
        for words, what, hint in (
            (
                "verify plain.age",
                "no such command: 'verify'",
                "age_tool decrypt --pass FILE IN /dev/null checks all of IN",
            ),
            (
                "test plain.age",
                "no such command: 'test'",
                "age_tool decrypt --pass FILE IN /dev/null checks all of IN",
            ),
            ("ls plain.age", "no such command: 'ls'", "age_tool inspect FILE shows its header"),
            ("keygen", "no such command: 'keygen'", "age_tool makes no keys; age-keygen does"),
            (
                "restore plain.age back",
                "no such command: 'restore'",
                "age_tool decrypt --pass FILE IN OUT decrypts",
            ),
            ("version", "no such command: 'version'", "the version is shown by age_tool --version"),
            ("plain.age", "no such command: 'plain.age'", known),
            ("help x", "no such command: 'x'", known),
            ("17", "no such command: '17'", known),
            ("--", "no command is given", known),
            ("-", "no such command: '-'", known),
            ("encrpt", "no such command: 'encrpt'", "a similar command exists: 'encrypt'"),
            ("help inspct", "no such command: 'inspct'", "a similar command exists: 'inspect'"),
            *(
                (f"help {it}", f"no such fault: '{it}'", f"the faults are 1 to {last_fault}")
                for it in (0, last_fault + 1, 99, 256, 300)
            ),
            ("help 17 18", "unexpected argument '18'", "help takes one command or fault"),
            ("help drill x", "unexpected argument 'x'", "help takes one command or fault"),
        ):
            ended = self.tool(*words.split())
            said = f"age_tool: {what}\n\n  tip: {hint}\n\nUsage: age_tool [COMMAND]\n\nFor more information, try '--help'.\n"
            self.see(words, (ended.returncode, ended.stderr.decode()) == (2, said), ended.stderr)

    def test_values_of_options(self):
        for words, what in (
            ("decrypt --pass", "a value is required for '--pass <FILE>' but none was supplied"),
            (
                "encrypt --pass pass --log= plain back",
                "a value is required for '--log <N>' but none was supplied",
            ),
            (
                "encrypt --pass pass --log 40 plain back",
                "invalid value '40' for '--log <N>': not a number from 1 to 22",
            ),
            ("decrypt --log=x --max-log 0 plain.age back", "unexpected argument '--log'"),
            (
                "decrypt --max-log 0 plain.age back",
                "invalid value '0' for '--max-log <N>': not a number from 1 to 22",
            ),
            (
                "decrypt --no-sync=x --pass pass plain.age back",
                "unexpected value 'x' for '--no-sync'",
            ),
            (
                "decrypt --pass pass --pass=pass plain.age back",
                "the argument '--pass <FILE>' cannot be used multiple times",
            ),
            (
                "encrypt --progress --pass pass --progress plain back",
                "the argument '--progress' cannot be used multiple times",
            ),
            ("decrypt --pass - plain.age back more", "unexpected argument 'more'"),
            ("inspect -- -x -y", "unexpected argument '-y'"),
        ):
            ended = self.tool(*words.split())
            first, _, rest = ended.stderr.decode().partition("\n")
            self.see(words, (ended.returncode, first) == (2, f"age_tool: {what}"), ended.stderr)
            self.see(
                f"the usage after {words}",
                ("\nUsage: " in rest) != what.startswith(("invalid value", "a value is")),
                ended.stderr,
            )

    def test_refusals_are_found(self):
        """The word that the parser refuses is found again, whatever the words are: no line says what is wrong without it."""
        chance = random.Random(7)
        words = [
            *"encrypt decrypt resume inspect drill help".split(),
            *"--pass --log --log=3 --max-log --save --position --old --clear --no-sync --progress=1 -x --xyzzy".split(),
            *"-- - a --log=40 --pass= --shared=s --file-key 22 0 --no-clobber".split(),
        ]
        found = re.compile(
            rb"age_tool: (?:no such (?:command|fault): '|unexpected (?:argument|value) '|invalid value '.*' for '--|a value is required for '--"
            rb"|the argument '--.*' cannot|these arguments are missing:\n  |no command is given)"
        )
        for _ in range(300):
            given = [chance.choice(words[:6]), *chance.choices(words, k=chance.randrange(8))]
            ended = self.tool(*given)
            is_refused = (
                ended.returncode == 2 and b"\nFor more information, try '--help'.\n" in ended.stderr
            )
            self.see(given, not is_refused or found.match(ended.stderr), ended.stderr)

    def test_missing_arguments(self):
        """All of them are named at once, also what opens a file, of which the command needs one of several."""
        key, way = (
            "one of --pass <FILE>, --file-key <HEX> and --shared <FILE>",
            "one of --clear and --pass <FILE>",
        )
        for words, missing in (
            ("decrypt plain.age", ["<OUT>", key]),
            ("decrypt", ["<IN>", "<OUT>", key]),
            ("decrypt plain.age -- --pass=x --file-key", None),
            ("decrypt -- --pass=x", ["<OUT>", key]),
            ("decrypt --pass pass plain.age", ["<OUT>"]),
            ("decrypt --shared=secret plain.age", ["<OUT>"]),
            ("decrypt --file-key 00", ["<IN>", "<OUT>"]),
            ("resume --old part plain.age", ["--position <FILE>", "<OUT>", key]),
            ("drill script", ["<IN>", way]),
            ("drill --clear script", ["<IN>"]),
            ("drill", ["<SCRIPT>", "<IN>", way]),
            ("encrypt plain", ["--pass <FILE>", "<OUT>"]),
        ):
            ended = self.tool(*words.split())
            said = (
                "age_tool: these arguments are missing:\n"
                + "".join(f"  {it}\n" for it in missing or ())
                + "\nUsage: age_tool "
            )
            self.see(
                words,
                ended.returncode == 2 and ended.stderr.decode().startswith(said) == bool(missing),
                ended.stderr,
            )

    def test_words_that_are_refused(self):
        """What the parser says of a word shows codes, as all other lines do."""
        name, shown = (
            "c\x1b]0;a\x07\r\u202e\u200b\nage_tool: 27 Write",
            rb"c\u{1b}]0;a\u{7}\r\u{202e}\u{200b}\nage_tool: 27 Write",
        )
        for words, begins in (
            (
                ("decrypt", "--pass", "pass", "plain.age", "back", name),
                b"age_tool: unexpected argument '%s'\n\n  tip: a command takes one IN and one OUT at a time\n\nUsage: ",
            ),
            ((name,), b"age_tool: no such command: '%s'\n\n  tip: the commands are "),
            (("encrypt", "--" + name), b"age_tool: unexpected argument '--%s'\n\n  tip: "),
            (
                ("encrypt", f"--log={name}"),
                b"age_tool: invalid value '%s' for '--log <N>': not a number from 1 to 22\n",
            ),
        ):
            ended = self.tool(*words)
            is_plain = all(it in b"\n" or 32 <= it < 127 for it in ended.stderr)
            self.see(
                words,
                ended.returncode == 2 and ended.stderr.startswith(begins % shown) and is_plain,
                ended.stderr,
            )

    def test_words_that_do_something_else(self):
        dash = b"age_tool: - is a file of that name: the standard streams are /dev/stdin and /dev/stdout\n"
        none = b"age_tool: --max-log does nothing without --pass\n"
        self.write("shared", bytes(64))
        for words, status, said in (
            ("decrypt --pass pass plain.age -", 0, dash),
            ("decrypt --pass pass plain.age ./-", 0, b""),
            ("encrypt --pass pass --log 1 - back", 0, dash),
            ("decrypt --shared shared --max-log 9 plain.age back", 1, none),
            ("decrypt --file-key=00 --max-log=9 plain.age back", 2, none),
            ("decrypt --pass pass --max-log 22 plain.age back", 0, b""),
        ):
            ended = self.tool(*words.split())
            self.see(
                words,
                (ended.returncode, said in ended.advice if said else ended.advice)
                == (status, True if said else b""),
                ended.advice,
            )
