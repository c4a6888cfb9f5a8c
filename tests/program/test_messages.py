"""What people read after a fault: of each number, in which circumstance, the file and the sentence, and that docs/FAULTS.md says to do the
same; what they read after words that are refused; and that runs which go well say nothing of it. (More of what the system answered is in
the transcripts and the tests of links, locks, disks and positions.)"""
import itertools
import os
import re
import resource
import subprocess

from tests import process
from tests.program.agefile import release
from tests.case import SECONDS, Case, without_advice
from tests.program.test_transcripts import Transcripts, unescaped
from tools.manual import faults
from tools.workspace import TOP

READS = ["docs/FAULTS.md"]
ZEROS = "A" * 43
VERSION, SCRYPT, END = "age-encryption.org/v1\n", f"-> scrypt {22 * 'A'} ", f"--- {ZEROS}\n"
NEEDS = "a passphrase with work factor N takes 2^N KiB of memory"
# Faults that no run has, each with its sentence and the reason.
UNMADE = (
    (
        22,
        "too long (more than 2^48 chunks): split the plaintext",
        "they have 2^64 bytes, and a file has fewer than 2^63",
    ),
    (
        28,
        f"out of memory: {NEEDS}",
        "without a passphrase a run takes less memory than the limit with which the others are made",
    ),
    (
        29,
        "read 2^63 times without ending: supply an input that ends",
        "at a million reads a second these take 292,000 years",
    ),
)
RETRY = "if you trust the file, retry with "
KEYS = "age_tool inspect shows its stanzas; a key file is for age -d -i, or for agefile decrypt --identity"
NO_LINE = "this may not be an age file: its first line has no newline"
LIMIT = ("work factor {0}: a passphrase takes {1} of memory; " + RETRY + "--max-log {0}").format
MEMORY = "out of memory: work factor {}: a passphrase takes {} of memory".format
OLD = "--old takes the output of the run that saved the position"
FORGED = "altered or forged: no age program writes such a header: don't trust the file"

# Each: the number, the file that is named and what it holds, the sentence, and the words if they aren't those of a decryption by `pass`.
ROWS = (
    (1, "no-age", b"not age\n", "not an age file: its first line isn't age-encryption.org/v1"),
    (
        2,
        "armored",
        b"-----BEGIN AGE ENCRYPTED FILE-----\n",
        "it is armored: remove the armor first: grep -v '^-----' IN | tr -d '\\r' | base64 -d > NEW",
    ),
    (3, "bad-line", VERSION + "nothing\n", "its header is damaged at line 2: fetch the file again"),
    (4, "bad-body", f"{VERSION}-> x\n=\n", "its header is damaged at line 3: fetch the file again"),
    (
        5,
        "bad-end",
        f"{VERSION}-> x\n\n---\n",
        "its header is damaged at line 4: fetch the file again",
    ),
    (6, "no-stanza", VERSION + END, "its header is damaged at line 2: fetch the file again"),
    (
        7,
        "long-header",
        f"{VERSION}-> {1_048_576 * 'a'}\n",
        "its header is too long: no age program writes a header this large, except for thousands of "
        "recipients: check where the file comes from",
    ),
    (7, "one-line", 1_048_577 * "a", NO_LINE),
    (
        8,
        "cut-header",
        lambda it: it.age[:100],
        "truncated in its header at line 3: fetch all of it",
    ),
    (8, "no-line", "not an age file", NO_LINE),
    (8, "empty", "", "it is empty: check where it comes from"),
    (9, "two-stanzas", f"{VERSION}{SCRYPT}10\n{ZEROS}\n-> x\n\n{END}", FORGED),
    (10, "bad-scrypt", f"{VERSION}{SCRYPT}010\n{ZEROS}\n{END}", FORGED),
    (
        11,
        "costly",
        f"{VERSION}{SCRYPT}19\n{ZEROS}\n{END}",
        LIMIT(19, "512.0 MiB"),
        "decrypt --pass pass --max-log 18 costly back",
    ),
    (
        11,
        "too-costly",
        f"{VERSION}{SCRYPT}23\n{ZEROS}\n{END}",
        "work factor above 22: no age_tool opens it",
    ),
    (12, "for-others", f"{VERSION}-> x\n\n{END}", f"it isn't encrypted with a passphrase: {KEYS}"),
    (
        12,
        "for-none",
        f"{VERSION}-> x\n\n{END}",
        f"it isn't encrypted to an X25519 recipient: {KEYS}",
        "decrypt --shared secret for-none back",
    ),
    (
        13,
        "plain.age",
        None,
        "the passphrase doesn't open it: check the passphrase, whose file may end with one newline, not two, and has no "
        "carriage return or BOM",
        "decrypt plain.age back --pass=wrong",
    ),
    (
        13,
        "x25519",
        None,
        "the shared secret doesn't open it: check the shared secret",
        "decrypt --shared other x25519 back",
    ),
    (
        14,
        "plain.age",
        None,
        "the key doesn't match its header: the header was altered, or --file-key belongs to another file",
        f"decrypt --file-key {32 * '0'} plain.age back",
    ),
    (
        15,
        "x25519",
        None,
        "bad X25519 stanza or shared secret: check the file of --shared; if it is right, fetch the age file again",
        "decrypt --shared zero x25519 back",
    ),
    (16, "no-nonce", lambda it: it.age[:160], "truncated after its header: fetch all of it"),
    (17, "damaged", lambda it: it.age[:150_000], "damaged or truncated at chunk 2: fetch it again"),
    (
        18,
        "ten-more",
        lambda it: it.age[: 166 + 65_552 + 10],
        "truncated at chunk 1: fetch the rest",
    ),
    (
        19,
        "tag-alone",
        lambda it: it.age[: 166 + 65_552 + 16],
        "truncated or altered at chunk 1: fetch it again; if this happens again, don't trust the file",
    ),
    (20, "one-chunk", lambda it: it.age[: 166 + 65_552], "truncated at chunk 1: fetch the rest"),
    (
        21,
        "appended",
        lambda it: it.full + b"x",
        "something was appended: OUT has the complete plaintext, but the file isn't as its writer left it",
    ),
    (
        23,
        "pass",
        None,
        "not a position: --position takes the file that --save wrote",
        "resume --position pass --old plain --pass pass plain.age back",
    ),
    (
        24,
        "full.age",
        None,
        "not the file of the position: IN must be the file that was being decrypted when the position was saved",
        "resume --position position --old part --pass pass full.age back",
    ),
    (
        25,
        "short-old",
        70_000 * "x",
        f"shorter than the position says: {OLD}",
        "resume --position position --old=short-old --pass pass plain.age back",
    ),
    (28, None, None, MEMORY(22, "4.0 GiB"), "encrypt --pass pass --log 22 plain back"),
    (28, None, None, MEMORY(19, "512.0 MiB"), "encrypt --pass pass --log 19 plain back"),
    (28, "twenty", f"{VERSION}{SCRYPT}20\n{ZEROS}\n{END}", MEMORY(20, "1.0 GiB")),
    (
        30,
        "flipped",
        lambda it: it.read("position").replace(b"v2 2 ", b"v2 1 "),
        "altered, or made with another key: use the position file exactly as --save wrote it",
        "resume --position=flipped --old part --pass pass plain.age back",
    ),
    (
        31,
        "altered",
        bytes(200_000),
        f"it doesn't match the position: {OLD}",
        "resume --position position --old altered --pass pass plain.age back",
    ),
)

# What the system answered. Each: the number, the words, and what is said.
SALVAGE = "without another copy, agefile salvage saves what still opens"
MISSING, FOLDER = "No such file or directory", "Is a directory"
MACHINE = (
    (
        26,
        "encrypt --pass none plain back",
        f"can't open none: {MISSING}; --pass takes the name of a file that holds the passphrase",
    ),
    (
        26,
        "decrypt --pass=none plain.age back",
        f"can't open none: {MISSING}; --pass takes the name of a file that holds the passphrase",
    ),
    (
        26,
        "decrypt --shared none plain.age back",
        f"can't open none: {MISSING}; --shared takes the name of a file that holds the shared secret",
    ),
    (26, "encrypt --pass pass none back", f"can't open none: {MISSING}"),
    (
        26,
        "encrypt --pass folder plain back",
        f"can't open folder: {FOLDER}; to encrypt a folder, pack it first, as by tar",
    ),
    (
        26,
        "encrypt --pass pass folder back",
        f"can't open folder: {FOLDER}; to encrypt a folder, pack it first, as by tar",
    ),
    (26, "decrypt --pass pass folder back", f"can't open folder: {FOLDER}"),
    (
        26,
        "resume --position none --old part --pass pass plain.age back",
        f"can't open none: {MISSING}",
    ),
    (26, "inspect plain/more", "can't open plain/more: Not a directory"),
    (26, "inspect loop", "can't open loop: Too many levels of symbolic links"),
    (26, "inspect /proc/self/mem", "can't read /proc/self/mem: Input/output error"),
    (
        26,
        "encrypt --pass pass --log 1 /proc/self/mem back",
        "can't read /proc/self/mem: Input/output error",
    ),
    (
        26,
        "decrypt --pass pass /proc/self/mem back",
        f"can't read /proc/self/mem: Input/output error; {SALVAGE}",
    ),
    (
        26,
        "decrypt --pass /proc/self/mem plain.age back",
        "can't read /proc/self/mem: Input/output error",
    ),
    (
        26,
        "resume --position position --old part --pass pass /proc/self/mem back",
        f"can't read /proc/self/mem: Input/output error; {SALVAGE}",
    ),
    (
        26,
        "resume --position position --old /proc/self/mem --pass pass plain.age back",
        "can't read /proc/self/mem: Input/output error",
    ),
    (27, "encrypt --pass pass --log 1 plain none/new", f"can't create none/new: {MISSING}"),
    (27, "decrypt --pass pass plain.age folder", f"can't write folder: {FOLDER}"),
    (
        27,
        "decrypt --pass pass plain.age /dev/full",
        "can't write /dev/full: No space left on device",
    ),
    (
        27,
        "decrypt --no-clobber --pass pass plain.age part",
        "part exists, and --no-clobber was given",
    ),
    (
        27,
        "decrypt --pass pass --save plain/saved plain.age back",
        "can't save the position to plain/saved: Not a directory\nage_tool: no position was saved",
    ),
    (
        27,
        "decrypt --no-clobber --pass pass plain.age empty",
        "empty exists, and --no-clobber was given; it is empty: a run that was killed may have left it",
    ),
)

# Words that are refused. Each: the words, and what is said.
NONE_GIVEN, TWO_GIVEN = (
    "none of them was given; --pass takes the name of a file that holds the passphrase",
    "only one of them can be given",
)
ONE_KEY, ONE_WAY = "give one of --pass, --file-key and --shared", "give one of --clear and --pass"
TWICE, KEY = "same file named twice", 32 * "0"
REFUSED = (
    ("decrypt plain.age back", ONE_KEY, NONE_GIVEN),
    ("resume --position position --old part plain.age back", ONE_KEY, NONE_GIVEN),
    (f"decrypt --pass pass --file-key {KEY} plain.age back", ONE_KEY, TWO_GIVEN),
    (f"decrypt --shared=secret --file-key {KEY} plain.age back", ONE_KEY, TWO_GIVEN),
    (f"decrypt --pass pass --file-key {KEY} --max-log 9 plain.age back", ONE_KEY, TWO_GIVEN),
    ("drill script plain.age", ONE_WAY, NONE_GIVEN),
    ("drill --clear --pass pass script plain.age", ONE_WAY, TWO_GIVEN),
    (
        "decrypt --file-key 00 plain.age back",
        "bad file key",
        "--file-key takes 32 hexadecimal digits",
    ),
    ("encrypt --pass empty plain back", "bad passphrase file", "empty: it is empty"),
    (
        "encrypt --pass newline plain back",
        "bad passphrase file",
        "newline: it holds nothing but a newline",
    ),
    (
        "encrypt --pass letters plain back",
        "bad passphrase file",
        "letters: it holds more than 65,536 bytes",
    ),
    ("decrypt --shared pass plain.age back", "bad shared file", "pass: it holds 14 of 64 bytes"),
    (
        "decrypt --shared plain plain.age back",
        "bad shared file",
        "plain: it holds more than 64 bytes",
    ),
    (
        "encrypt --pass pass --random wrong plain back",
        "bad random file",
        "wrong: it holds 12 of 48 bytes",
    ),
    (
        "drill --pass pass script plain.age",
        "bad script line 2",
        "script:2: no line of a script, or it reaches past the payload's end",
    ),
    (
        "drill --clear 1script plain",
        "bad script line 1",
        "./1script:1: no line of a script, or it reaches past the payload's end",
    ),
    (
        "drill --clear \uff11script plain",
        "bad script line 1",
        "./\uff11script:1: no line of a script, or it reaches past the payload's end",
    ),
    (
        "drill --clear long none",
        "script too long",
        "long: it has more than 1,000 lines or 1,048,576 bytes",
    ),
    (
        "drill --clear script huge",
        "payload too long",
        "huge: its payload has more than 16,777,216 bytes",
    ),
    ("encrypt --pass pass plain ./plain", TWICE, "./plain and plain are the same file"),
    ("encrypt --pass pass plain pass", TWICE, "--pass and OUT are the same file: pass"),
    ("encrypt plain pass --pass=pass", TWICE, "--pass and OUT are the same file: pass"),
    (
        "encrypt --no-sync --pass pass --random plain --progress full.age plain",
        TWICE,
        "--random and OUT are the same file: plain",
    ),
    (
        "decrypt --pass pass --save plain.age --no-clobber plain.age back",
        TWICE,
        "--save and IN are the same file: plain.age",
    ),
    (
        "resume --position=position --save=position --old part --pass pass plain.age position",
        TWICE,
        "--position and --save and OUT are the same file: position",
    ),
    (
        "resume --position position --old plain.age --shared pass -- plain.age back",
        TWICE,
        "--old and IN are the same file: plain.age",
    ),
    ("drill --clear fifo fifo", TWICE, "SCRIPT and IN are the same file: fifo"),
)


def within_memory():
    resource.setrlimit(resource.RLIMIT_AS, (500_000 << 10, 500_000 << 10))


class MessagesTest(Case):
    """A passphrase, a text and its age file, and the position of a stop in its third chunk."""

    refused = REFUSED

    def setUp(self):
        super().setUp()
        os.mkdir(self.path("folder"))
        os.symlink("loop", self.path("loop"))
        for name, held in (
            ("pass", b"correct horse\n"),
            ("wrong", b"wrong horse\n"),
            ("empty", b""),
            ("plain", os.urandom(200_000)),
            ("full", os.urandom(65_536)),
        ):
            self.write(name, held)
        for name in ("plain", "full"):
            self.tool(*f"encrypt --pass pass --log 10 {name} {name}.age".split())
        self.age, self.full = self.read("plain.age"), self.read("full.age")
        self.write("cut.age", self.age[:150_000])
        self.tool(*"decrypt --pass pass --save position cut.age part".split())
        texts = Transcripts([TOP / "tests" / "program" / "transcripts" / "shared.run"]).bytes
        header, secret, recipient = (
            b"".join(map(unescaped, re.findall(r'"((?:[^"\\]|\\.)*)"', texts[it])))
            for it in ("x25519_header", "secret", "recipient")
        )
        for name, held in (
            ("x25519", header + bytes(32)),
            ("secret", secret + recipient),
            ("other", recipient + recipient),
            ("zero", bytes(32) + recipient),
        ):
            self.write(name, held)

    def test_faults(self):
        page = (TOP / "docs" / "FAULTS.md").read_text().replace("`", "").replace(r"\|", "|")
        for number, name, held, sentence, *words in ROWS:
            if held is not None:
                self.write(
                    name,
                    held(self)
                    if callable(held)
                    else held
                    if isinstance(held, bytes)
                    else held.encode(),
                )
            [words] = words or [f"decrypt --pass pass {name} back"]
            ended = self.tool(*words.split(), preexec_fn=within_memory if number == 28 else None)
            said = f"age_tool: {name + ': ' if name else ''}{sentence} (age_tool help {number})\n".encode()
            self.see(
                f"{number} of {name}",
                ended.returncode == 1
                and re.fullmatch(rb"age_tool: %d [\w ]+\n" % number, ended.stderr),
                ended.stderr,
            )
            self.see(f"what is said of {number} of {name}", ended.advice == said, ended.advice)
            row = re.search(rf"^\| {number} \| .*$", page, re.M)[0]
            to_do = {11: RETRY, 28: NEEDS}.get(number) or sentence.partition(": ")[2]
            self.see(
                f"FAULTS says to do the same after {number} of {name}",
                to_do in row or "above 22" in sentence,
                to_do,
                row,
            )
        known = {int(row["No."]) for row in faults((TOP / "docs" / "FAULTS.md").read_text())}
        self.see("each fault", {it[0] for it in (*ROWS, *UNMADE, *MACHINE)} == known, known)
        for number, sentence, reason in UNMADE:
            row, said = (
                re.search(rf"^\| {number} \| .*$", page, re.M)[0],
                (TOP / "crates/age_cli_hints/src/sentences.rt").read_text(),
            )
            what, _, to_do = sentence.partition(": ")
            is_said = re.search(rf'"{re.escape(what)}",\s*"{re.escape(to_do)}"', said)
            self.see(f"FAULTS says to do the same after {number}", is_said and to_do in row, reason)

    def test_answers(self):
        for number, words, said in MACHINE:
            ended = self.tool(*words.split())
            said = f"age_tool: {number} {'Read' if number == 26 else 'Write'}\nage_tool: {said}\n".encode()
            self.see(
                words,
                (ended.returncode, ended.stderr + ended.advice) == (1, said),
                ended.stderr,
                ended.advice,
            )

    def test_refused(self):
        """No file changes."""
        for name, held in (
            ("newline", b"\n"),
            ("letters", 65_537 * b"x"),
            ("script", b"end\nstop\n"),
            ("long", 1_001 * b"end\n"),
            ("huge", bytes(16_777_217)),
        ):
            self.write(name, held)
        for name in ("1script", "\uff11script", " script"):
            self.write(name, b"end")
        os.mkfifo(self.path("fifo"))
        files = [it for it in self.room.iterdir() if it.is_file()]
        before = [it.read_bytes() for it in files]
        for words, line, said in self.refused:
            ended = self.tool(*words.split())
            said = f"age_tool: {line}\nage_tool: {said}\n".encode()
            self.see(
                words,
                (ended.returncode, ended.stderr + ended.advice) == (2, said),
                ended.stderr,
                ended.advice,
            )
        ended = self.tool("encrypt", "--no-sync", "--pass", "pass", "", "")
        said = self.tool("drill", "--clear", " script", "plain").stderr
        self.see(
            "a name that begins with a blank",
            said.splitlines()[1].startswith(b"age_tool: ./ script:1: no line of a script"),
            said,
        )
        self.see(
            "two empty names",
            ended.stderr
            == f'age_tool: {TWICE}\nage_tool: IN and OUT are the same file: ""\n'.encode(),
            ended.stderr,
        )
        self.see(
            "no file changes",
            [it.read_bytes() for it in files] == before and not self.is_there("back"),
        )

    def test_names_that_look_like_options(self):
        """After `--` a word is a name, whatever it looks like."""
        self.write("--pass=x", self.age)
        self.write("--max-log", bytes(64))
        for words, status, line, said in (
            (
                "decrypt --shared secret -- --pass=x back",
                1,
                "12 NoMatch",
                f"--pass=x: it isn't encrypted to an X25519 recipient: {KEYS} (age_tool help 12)",
            ),
            (
                "decrypt --pass pass -- --pass=x --pass=x",
                2,
                TWICE,
                "IN and OUT are the same file: --pass=x",
            ),
            ("decrypt --pass pass --save full -- plain.age --no-clobber", 0, "", ""),
            (
                "decrypt --shared other -- x25519 --max-log",
                1,
                "13 WrongKey",
                "x25519: the shared secret doesn't open it: check the shared secret (age_tool help 13)",
            ),
        ):
            ended = self.tool(*words.split())
            said = "".join(f"age_tool: {it}\n" for it in (line, said) if it).encode()
            self.see(
                words,
                (ended.returncode, ended.stderr + ended.advice) == (status, said),
                ended.stderr,
                ended.advice,
            )

    def test_standard_input(self):
        """It has no name."""
        for what, held, said in (
            ("nothing", b"", b"it is empty: check where it comes from"),
            ("no line", b"a", NO_LINE.encode()),
        ):
            ended = self.tool("inspect", stdin=None, input=held)
            self.see(
                f"{what} came",
                ended.advice == b"age_tool: standard input: " + said + b" (age_tool help 8)\n",
                ended.advice,
            )

    def test_nothing_to_say(self):
        self.write("odd", f"{VERSION}{SCRYPT}x\n{ZEROS}\n{END}".encode())
        for words in (
            "encrypt --pass pass --log 1 plain new.age",
            "decrypt --pass pass plain.age back",
            "decrypt --pass pass --save none plain.age back",
            "resume --position position --old part --pass pass plain.age back",
            "inspect x25519",
            "inspect odd",
            "help 17",
        ):
            ended = self.tool(*words.split())
            self.see(
                words,
                (ended.returncode, ended.stderr, ended.advice) == (0, b"", b""),
                ended.stderr,
                ended.advice,
            )


class ThroughAgefileTest(MessagesTest):
    """The same by agefile, whose age_tool says all that: with --overwrite, where age_tool replaces an OUT. Without a key it asks for a passphrase."""

    refused = [it for it in REFUSED if it[1] != ONE_KEY or it[2] != NONE_GIVEN]

    def setUp(self):
        super().setUp()
        self.agefile = release(self.room / "release")

    def tool(self, *words, **more):
        if not hasattr(self, "agefile"):
            return super().tool(*words, **more)
        if words[0] in (
            "encrypt",
            "decrypt",
            "resume",
        ) and "--no-clobber" not in itertools.takewhile("--".__ne__, words):
            words = (words[0], "--overwrite", *words[1:])
        more = {
            "stdin": subprocess.DEVNULL,
            "stdout": subprocess.PIPE,
            "stderr": subprocess.PIPE,
            "timeout": SECONDS,
        } | more
        ended = process.run([self.agefile, *words], cwd=self.room, **more)
        self.see(f"no descriptor is named: {words}", b"/dev/fd" not in ended.stderr, ended.stderr)
        ended.stderr, ended.advice = without_advice(ended.stderr)
        return ended
