"""The program agefile: its arguments, its streams, and the files that it writes."""
import os
import re
import shutil
import subprocess
import zipapp

from tests import process
from tests.bindings import setUpModule  # noqa: F401
from tests.case import SECONDS
from tests.program.agefile import MODULE, AgefileCase, form


class AgefileTest(AgefileCase):
    def test_commands(self):
        """What age_tool carries out, and the standard streams by the name -."""
        self.ends(
            "encrypt", self.run_agefile(*"encrypt --pass pass --log 2 plain new.age".split()), 0
        )
        self.ends("decrypt", self.run_agefile(*"decrypt --pass pass new.age new".split()), 0)
        self.see("what was encrypted and decrypted", self.read("new") == self.plain)
        self.ends(
            "decrypt to standard output",
            self.run_agefile(*"decrypt --pass pass age -".split()),
            0,
            out=self.plain,
        )
        self.ends(
            "decrypt standard input",
            self.run_agefile(*"decrypt --pass pass - -".split(), input=self.age),
            0,
            out=self.plain,
        )
        self.ends(
            "a passphrase from standard input",
            self.run_agefile(*"decrypt --pass - age -".split(), input=b"correct horse\n"),
            0,
            out=self.plain,
        )
        self.ends("test", self.run_agefile(*"test --pass pass age".split()), 0)
        self.ends(
            "test of a part",
            self.run_agefile(*"test --pass pass -".split(), input=self.age[:-1]),
            1,
            form("age_tool: 17 ChunkDamaged chunk 3\n.*"),
        )
        for words in ("inspect age", "inspect -", "help 17", "help ChunkDamaged"):
            by_tool = self.tool(*words.replace(" -", "").split(), stdin=None, input=self.age)
            self.ends(
                words, self.run_agefile(*words.split(), input=self.age), 0, out=by_tool.stdout
            )
        self.ends("resume", self.resumed(), 0)
        self.see("what was resumed", self.read("whole") == self.plain)
        for words in (
            "--help",
            "-h",
            "help",
            "--version",
            "decrypt --help",
            "encrypt -h",
            "restore --help",
            "salvage --help",
            "help test",
            "help drill",
        ):
            run = self.run_agefile(*words.split())
            self.see(words, run.returncode == 0 and run.stdout and not run.stderr, run)

    def resumed(self):
        self.write("cut", self.age[:150_000])
        self.ends(
            "decrypt --save",
            self.run_agefile(*"decrypt --pass pass --save position cut part".split()),
            1,
            form("age_tool: 17 ChunkDamaged chunk 2\n.*"),
        )
        return self.run_agefile(
            *"resume --pass pass --position position --old part age whole".split()
        )

    def test_existing_out(self):
        """A file that exists is refused, but not a device or a stream; age's words replace it, as age does."""
        for word in ("new", "empty"):
            self.write(word, b"" if word == "empty" else b"precious")
            more = (
                "; it is empty: a run that was killed may have left it" if word == "empty" else ""
            )
            said = f"agefile: 27 Write\nagefile: {word} exists; --overwrite replaces it{more}\n".encode()
            for words in (
                "encrypt --log 2 plain",
                "decrypt age",
                "resume --position none --old none age",
            ):
                command, *rest = words.split()
                self.ends(
                    f"{words} {word}",
                    self.run_agefile(command, "--pass", "pass", *rest, word),
                    1,
                    said,
                )
        os.symlink("nothing", self.path("link"))
        self.ends(
            "a link to nothing",
            self.run_agefile(*"decrypt --pass pass age link".split()),
            1,
            form("agefile: 27 Write\nagefile: link exists; .*"),
        )
        self.see(
            "they are as they were",
            (self.read("new"), self.read("empty"), self.is_there("nothing"))
            == (b"precious", b"", False),
        )
        self.ends(
            "--overwrite", self.run_agefile(*"decrypt --overwrite --pass pass age new".split()), 0
        )
        self.see("what was overwritten", self.read("new") == self.plain)
        self.ends("a device", self.run_agefile(*"decrypt --pass pass age /dev/null".split()), 0)
        self.ends(
            "/dev/stdout",
            self.run_agefile(*"decrypt --pass pass age /dev/stdout".split()),
            0,
            out=self.plain,
        )
        self.ends(
            "a folder",
            self.run_agefile("decrypt", "--pass", "pass", "age", "."),
            1,
            form("age_tool: 27 Write\nage_tool: can't write .: Is a directory\n"),
        )
        self.ends(
            "both",
            self.run_agefile(*"decrypt --overwrite --no-clobber --pass pass age new".split()),
            2,
            form("agefile: give one of .*"),
        )
        self.ends(
            "age's words without a key",
            self.at_terminal("-d", "-o", "empty", "age", answers=[b"correct horse\n"]),
            0,
        )
        self.see("age's words replace it", self.read("empty") == self.plain)

    def test_taken_meanwhile(self):
        """What comes to OUT's name after agefile has looked, age_tool refuses."""
        os.mkfifo(self.path("fifo"))
        run = process.Popen(
            [self.agefile, *"decrypt --pass fifo age new".split()],
            cwd=self.room,
            env=self.env,
            stderr=subprocess.PIPE,
        )
        with open(self.path("fifo"), "wb") as fifo:  # (age_tool has opened it by then)
            self.write("new", b"precious")
            fifo.write(b"correct horse\n")
        said = run.communicate(timeout=SECONDS)[1]
        wanted = b"age_tool: 27 Write\nage_tool: new exists, and --no-clobber was given\n"
        self.see(
            "it is refused",
            (run.returncode, said, self.read("new")) == (1, wanted, b"precious"),
            said,
        )

    def test_one_file(self):
        """No run writes to a file that it reads, or where its faults go; age_tool says so."""
        log = self.path("log")
        for words in (
            "encrypt --log 2 age - >>age",
            "encrypt --log 2 - age <age",
            "encrypt --log 2 /dev/fd/3 age 3<age",
            "encrypt --log 2 age age",
            "encrypt --log 2 age ./age",
            "encrypt --log 2 age pass",
            "encrypt --log 2 age hard",
            "decrypt age - >>age",
            "decrypt age - 1<>age",
            "decrypt --save age age new",
            "decrypt --overwrite age age",
            "encrypt --log 2 age new.age 2>new.age",
        ):
            self.remove("hard", "new.age")
            os.link(self.path("age"), self.path("hard"))
            command, rest = words.split(" ", 1)
            line = f'"{self.agefile}" {command} --pass pass {rest}'
            run = process.run(
                ["bash", "-c", line],
                cwd=self.room,
                env=self.env,
                capture_output=True,
                stdin=subprocess.DEVNULL,
            )
            self.see(
                words,
                run.returncode == 2
                and self.read("age") == self.age
                and self.read("pass") == b"correct horse\n",
                run,
            )
        log.write_bytes(b"precious\n")
        for out in ("-", "/dev/stdout", "/dev/fd/1"):
            with open(log, "ab") as appended:
                self.ends(
                    f"appended by {out}",
                    self.run_agefile(
                        "decrypt",
                        "--pass",
                        "pass",
                        "age",
                        out,
                        capture_output=False,
                        stdout=appended,
                        stderr=subprocess.PIPE,
                    ),
                    0,
                    out=None,
                )
        self.see("what was appended", log.read_bytes() == b"precious\n" + 3 * self.plain)
        log.write_bytes(b"precious\n")
        for out in ("/dev/fd/9", "/proc/self/fd/9"):
            line = f'exec 9>>log; "{self.agefile}" decrypt --pass pass age {out}'
            run = process.run(
                ["bash", "-c", line],
                cwd=self.room,
                env=self.env,
                capture_output=True,
                stdin=subprocess.DEVNULL,
            )
            self.ends(
                f"{out}, a file", run, 1, form(f"agefile: 27 Write\nagefile: {out} exists; .*")
            )
            self.ends(
                f"{out}, a pipe",
                process.run(
                    ["bash", "-c", f"({line.replace('>>log', '>&1')}) | cat"],
                    cwd=self.room,
                    env=self.env,
                    capture_output=True,
                    stdin=subprocess.DEVNULL,
                ),
                0,
                out=self.plain,
            )
        self.see("what is kept", log.read_bytes() == b"precious\n")

    def test_refused_words(self):
        """A bad command line: what is agefile's own, and what it leaves to age_tool."""
        for words, said in (
            ("", "agefile: no command was given\n.*Usage: .*"),
            ("decrypt --identity", "agefile: --identity takes a value: .*"),
            (
                "decrypt --pass pass --identity k age new",
                "agefile: give one of --pass, .*: --pass and --identity were given\n",
            ),
            (
                "encrypt --log 2 --recipient age1 plain new",
                "agefile: --log isn't for a file that is written for recipients: .*",
            ),
            ("decrypt --pass - - new", "agefile: standard input, `-`, is named twice\n"),
            ("restore age", "agefile: the words of restore are .*"),
            ("salvage --nothing age new", "agefile: the words of salvage are .*"),
            ("restore age /dev/null", "agefile: restore writes a regular file, .*"),
            ("decrypt --nothing age new", "age_tool: unexpected argument '--nothing'.*"),
            ("decrypt age", "age_tool: these arguments are missing:.*"),
            ("decrypt --pass pass --log 3 age new", "age_tool: unexpected argument '--log'.*"),
            ("decrypt --pass pass a b c", "age_tool: unexpected argument 'c'.*"),
            ("-a -p plain", "agefile: armor isn't supported: .*"),
            ("-j x", "agefile: plugins aren't supported\n"),
            ("plain", "agefile: missing recipients: .*"),
            ("-d -p age", "agefile: --passphrase can't be used with --decrypt\n"),
            ("-p -r age1 x", "agefile: --passphrase can't be combined with --recipient\n"),
            ("-i k x", "agefile: --identity needs --encrypt or --decrypt\n"),
            ("-d age more", "agefile: too many INPUT arguments: age more: .*"),
            ("-o", "agefile: flag needs an argument: -o\n"),
            ("-d \x1b[2J x", r"agefile: too many INPUT arguments: '\\x1b\[2J' x: .*"),
        ):
            self.ends(f"agefile {words}", self.run_agefile(*words.split()), 2, form(said))
        self.see("no file was made", not self.is_there("new"))

    def test_help(self):
        """Each command is marked by what carries it out, and two lines say what is proved."""
        said = self.run_agefile("--help").stdout.decode()
        *_, marked = re.split(
            r"^Commands, .*\n",
            said.partition("\n\nThe proved program is age_tool, which a checker proved")[0],
            flags=re.M,
        )
        found = {
            it.split()[0]: re.findall("proved program|tested module", it)
            for it in re.split(r"^  (?=\w)", marked, flags=re.M)[1:]
        }
        both, proved, tested = (
            ["proved program", "tested module"],
            ["proved program"],
            ["tested module"],
        )
        wanted = {
            **dict.fromkeys(
                ("decrypt", "test", "restore", "resume", "inspect", "drill", "help"), proved
            ),
            "encrypt": both,
            "salvage": tested,
            "proof": [],
        }
        self.see("the marks", found == wanted, found)
        for command in wanted.keys() - {"help"}:
            run = self.run_agefile(command, "--help")
            self.see(
                f"{command} is explained",
                run.returncode == 0
                and run.stdout.startswith((b"Usage: ", b"usage: "))
                or command in ("inspect", "drill"),
                run,
            )

    def test_pasted(self):
        """The command that is shown after a stop can be pasted, whether the passphrase has a file or was typed."""
        self.write("cut", self.age[:150_000])
        words = "decrypt --save position cut part".split()
        for what, run in (
            ("a file", lambda: self.run_agefile(*words, "--pass", "pass")),
            ("typed", lambda: self.at_terminal(*words, answers=[b"correct horse\n"])),
        ):
            ended = run()
            command = (
                ended.stderr.decode()
                .rpartition("to go on from there: ")[2]
                .partition("\n")[0]
                .replace(" NEW", " whole")
                .replace(" FILE ", " pass ")
            )
            self.see(
                f"{what}: the command",
                command.startswith("age_tool resume --position position --old part --pass pass "),
                ended.stderr,
            )
            self.write("cut", self.age)
            env = {**os.environ, "PATH": f"{self.agefile.parent}:{os.environ['PATH']}"}
            run = process.run(["bash", "-c", command], cwd=self.room, env=env, capture_output=True)
            self.see(
                f"{what}: pasted",
                run.returncode == 0 and self.read("whole") == self.plain,
                command,
                run,
            )
            self.write("cut", self.age[:150_000])
            self.remove("whole", "part", "position")

    def test_to_a_terminal(self):
        """No age file is shown at a terminal."""
        ended = self.at_terminal(*"encrypt --pass pass --log 2 plain /dev/tty".split())
        self.ends("encrypt", ended, 2, b"age_tool: the output is a terminal\n")
        ended = self.at_terminal(*"restore --pass pass age /dev/tty".split())
        self.ends(
            "restore", ended, 2, b"agefile: restore writes a regular file, which /dev/tty isn't\n"
        )
        self.write("words", b"some words\n")
        self.tool(*"encrypt --pass pass --log 2 words words.age".split(), check=True)
        ended = self.at_terminal(*"decrypt --pass pass words.age /dev/tty".split())
        self.see(
            "a text is", (ended.returncode, ended.shown) == (0, b"some words\r\n"), vars(ended)
        )

    def test_its_age_tool(self):
        """It is the one beside agefile, of the same version, and never that of PATH."""
        beside = self.agefile.parent / "age_tool"
        kept = beside.with_name("kept")
        path = self.path("path")
        path.mkdir()
        shutil.copy(beside, path / "age_tool")
        env = {**self.env, "PATH": f"{path}:{os.environ['PATH']}"}
        beside.rename(kept)
        try:
            said = "agefile: there is no program .*/bin/age_tool, which comes with agefile: .*\n"
            self.ends("none", self.run_agefile("inspect", "age", env=env), 1, form(said))
            for version in ("age_tool 1.2.9 (of 0123456789)", "age_tool 11.3.0", ""):
                beside.write_text(f"#!/bin/sh\necho '{version}'\n")
                beside.chmod(0o755)
                said = f"agefile: .*/bin/age_tool is version {re.escape(version[9:] or 'unknown')}, and this is agefile 2[.].*: .*\n"
                self.ends(
                    f"it is {version}",
                    self.run_agefile("inspect", "age", env=env),
                    1,
                    form(said.replace("is version 1.2.9", "is version '?1.2.9")),
                )
            beside.write_bytes(b"\0")
            self.ends(
                "it can't run",
                self.run_agefile("inspect", "age", env=env),
                1,
                form("agefile: can't run .*"),
            )
        finally:
            kept.replace(beside)

    def test_alone(self):
        """An archive of the program beside an age_tool is agefile without keys, which loads no module of the library."""
        alone = self.path("alone")
        alone.mkdir()
        shutil.copy(self.agefile.parent / "age_tool", alone)
        zipapp.create_archive(
            MODULE / "program",
            alone / "agefile",
            "/usr/bin/env python3",
            filter=lambda it: it.suffix == ".py",
        )
        (alone / "agefile").chmod(0o755)
        self.write("decrypt.py", b"raise SystemExit(9)")
        (alone / "getpass.py").write_text("raise SystemExit(9)")
        self.agefile, kept = alone / "agefile", self.agefile
        try:
            self.ends(
                "decrypt", self.run_agefile(*"decrypt --pass pass age -".split()), 0, out=self.plain
            )
            with open(self.path("age"), "rb") as age:
                self.ends(
                    "typed",
                    self.at_terminal("decrypt", "-", "-", answers=[b"correct horse\n"], stdin=age),
                    0,
                    out=self.plain,
                )
            self.ends("restore", self.run_agefile(*"restore --pass pass age new".split()), 0)
            said = form(
                "agefile: this needs the Python module agefile: pip install 'agefile\\[keys\\]', or .*"
            )
            self.ends(
                "keys",
                self.run_agefile(
                    *"decrypt --identity pass age -".split(), env={**os.environ, "PYTHONPATH": ""}
                ),
                1,
                said,
            )
        finally:
            self.agefile = kept
        env = {**self.env, "PYTHONPROFILEIMPORTTIME": "1"}
        loaded = self.run_agefile(*"decrypt --pass pass age new2".split(), env=env).stderr
        self.see(
            "no module of the library is loaded",
            b"agefile" not in loaded
            and b"command_line" in loaded
            and b" os\n" in loaded
            and b"ctypes" not in loaded,
            loaded[-500:],
        )

    def test_as_a_module(self):
        """python3 -m agefile is the same program."""
        env = {**self.env, "PYTHONPATH": str(self.agefile.parent.parent / "share" / "age_tool")}
        run = process.run(
            ["python3", "-m", "agefile", *"decrypt --pass pass age -".split()],
            cwd=self.room,
            env=env,
            capture_output=True,
        )
        self.ends("-m agefile", run, 0, out=self.plain)

    def test_closed_streams(self):
        """A standard stream that is closed is no other file."""
        for closed, words, status in (
            ("<&-", "decrypt --pass pass age new", 0),
            ("<&-", "decrypt --pass pass - none", 1),
            (">&-", "decrypt --pass pass age -", 1),
            ("2>&-", "decrypt --pass wrong age none", 1),
            ("<&- >&- 2>&-", "restore --pass pass age new2", 0),
        ):
            run = process.run(
                ["bash", "-c", f'"{self.agefile}" {words} {closed}'],
                cwd=self.room,
                env=self.env,
                capture_output=True,
            )
            self.see(
                f"{words} {closed}", run.returncode == status and not self.is_there("none"), run
            )
        self.see("what was decrypted", self.read("new") == self.read("new2") == self.plain)

    def test_names_in_lines(self):
        """What could control a terminal appears as a code, and no line names a descriptor of agefile's own."""
        name = "a\x1b[2J\nb"
        self.write(name, b"x")
        run = self.run_agefile("decrypt", "--pass", "pass", "age", name)
        self.ends(
            "a name", run, 1, form(r"agefile: 27 Write\nagefile: 'a\\x1b\[2J\\nb' exists; .*")
        )
        for held in (self.age[:150_000], self.age[:100], self.age[:-1], self.age + b"x", b"x"):
            self.write("odd", held)
            ended = self.at_terminal(
                "decrypt", "--save", "position", "odd", "part", answers=[b"correct horse\n"]
            )
            self.see(
                f"of {len(held)} bytes",
                ended.returncode == 1
                and b"/dev/fd" not in ended.stderr
                and b"age_tool help" in ended.stderr,
                ended.stderr,
            )
            self.remove("position", "part")
