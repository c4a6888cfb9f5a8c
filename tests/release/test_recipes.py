"""Runs the commands of docs/RECIPES.md, block after block, in a folder of their own, and compares what they print with the lines that say
what to expect; once more in the same folder; those that ask for a passphrase at a terminal; those of README; then it decrypts the file that
docs/FORMAT.md gives in hexadecimal."""
import importlib.util
import os
import re
import shutil
import sys
import urllib.parse

from tests import process
from tests.case import needs
from tests.program.agefile import at_terminal
from tests.release.recipes import AGE, PageCase, blocks
from tools import terminal
from tools.workspace import TOP

READS = ["README.md", "docs/RECIPES.md", "docs/FORMAT.md"]
# What a block may need that a machine can lack.
TOOLS = ("age", "age-keygen", "curl", "openssl", "par2", "python3", "rclone")


class RecipesTest(PageCase):
    """A test for each page."""

    def lacking(self, script):
        """Why a block can't run here, or nothing."""
        missing = [
            it
            for it in TOOLS
            if re.search(rf"(?m)(^|[ (|]){it}( |$)", script) and not shutil.which(it)
        ]
        if missing:
            return f"needs {' and '.join(missing)}"
        if re.search("agefile .*(--identity|--recipient|salvage)|agefile salvage", script):
            run = process.run(
                [sys.executable, "-c", "import agefile"],
                env=self.env,
                capture_output=True,
                text=True,
            )
            if "--recipient" in script and not importlib.util.find_spec("cryptography"):
                return "needs cryptography"
            return run.stderr.splitlines()[-1] if run.returncode else ""
        return ""

    def test_recipes(self):
        self.path("work/photos").mkdir()
        for number in (1, 2, 3):
            self.path(f"work/photos/{number}.jpg").write_bytes(os.urandom(2_500_000))
        shutil.copy(AGE / "key.txt", self.path("work/key.txt"))
        shutil.copy(AGE / "one.age", self.path("work/notes.age"))
        for title, script in blocks("bash"):
            if why := self.lacking(script):
                self.leave_out(title, why)
                continue
            with self.subTest(title):
                # (a URL has no blank)
                run = self.run_script(
                    script.replace(
                        "file://$PWD", f"file://{urllib.parse.quote(str(self.path('work')))}"
                    )
                )
                self.assertEqual(run.returncode, 0, run.stdout)
                self.assertLessEqual(
                    {line[2:] for line in script.splitlines() if line.startswith("# ")},
                    set(run.stdout.splitlines()),
                )
        self.run_again()

    def run_again(self):
        """Runs all of them again, where all files are there: none is lost or changed but the list of the backup's files, the one of an odd
        name, and the backups of the day. Each age file still opens."""
        anew = {"files", "caf\udce9.txt"}
        self.write("work/shared", b"another's")
        held = {
            it: it.read_bytes()
            for it in self.path("work").rglob("*")
            if it.is_file() and it.name not in anew
        }
        for title, script in blocks("bash"):
            if not self.lacking(script) and title != "Changing the passphrase":
                self.run_script(script)
        for path, text in held.items():
            is_made_anew = re.fullmatch(r"(photos|sealed)-....-..-..\.tar\.age", path.name)
            self.see(
                f"{path.name} is as it was",
                path.exists() and (is_made_anew or path.read_bytes() == text),
            )
        # (there are two if midnight came in between)
        today = self.run_script(
            'age_tool decrypt --pass passphrase.txt "$(ls photos-????-??-??.tar.age | tail -n 1)" /dev/null'
        )
        self.see("the backup of the day opens", today.returncode == 0, today.stdout)

    def test_overwriting(self):
        """Each command of the page that makes a new file refuses one that is there: agefile does, unless it is given --overwrite, and age_tool is
        given --no-clobber. None writes to a file that it doesn't make."""
        for title, script in [*blocks("bash"), *blocks("sh")]:
            for words in re.findall(
                r"(?:age_tool|agefile) (?:encrypt|decrypt|resume|restore|salvage) [^|&;]*",
                script.replace("\\\n", " "),
            ):
                *_, out = re.sub(r" \|.*| < .*|\).*$", "", words.splitlines()[0]).split()
                is_new = out not in ("/dev/null", "/dev/stdout", "-") and not out.endswith('.part"')
                is_kept = (
                    "--no-clobber" in words
                    or words.startswith("agefile ")
                    and "--overwrite" not in words
                )
                self.see(f"{title}: {words}", not is_new or is_kept, out)

    def make_archive(self, name):
        """An age file for the passphrase `to type`, whose text is returned."""
        self.write("work/passphrase.txt", b"to type\n")
        self.write("work/text", os.urandom(100_000))
        self.assertEqual(
            self.run_script(
                f"age_tool encrypt --pass passphrase.txt --log 10 text {name}"
            ).returncode,
            0,
        )
        return self.read("work/text")

    def test_typed_passphrase(self):
        """Typed at an interactive bash, as the page says: the passphrase is neither shown nor kept in the history."""
        text = self.make_archive("f.age")
        [typed] = [
            it
            for _, script in blocks("sh")
            for it in script.splitlines()
            if it.startswith("agefile decrypt")
        ]
        child, tty = terminal.start(
            ["env", "-C", str(self.path("work")), "bash", "--norc", "-i"],
            {"PATH": self.env["PATH"], "HISTFILE": "", "PS1": "$ "},
        )
        os.write(tty, typed.encode() + b"\n")
        seen = b""
        while not seen.endswith(b"passphrase: ") and (
            piece := terminal.output(tty, b"passphrase: ")
        ):
            seen += piece
        os.write(tty, b"to type\n")
        seen += terminal.output(tty, b"$ ")
        os.write(tty, b"history; exit\n")
        seen += terminal.output(tty)
        os.close(tty)
        os.waitpid(child, 0)
        self.see(
            "a passphrase that is typed opens the file",
            self.is_there("work/f") and self.read("work/f") == text,
            seen,
        )
        self.see("it isn't shown", b"to type" not in seen, seen)

    def restores_with(self, program):
        text = self.make_archive("photos.tar.age")
        [typed] = [
            it.split()
            for it in re.findall(r"`(age -d [^`]+)`", (TOP / "docs" / "RECIPES.md").read_text())
        ]
        # (with a pinentry rage wouldn't ask at the terminal)
        status = terminal.run(
            ["env", "-C", str(self.path("work")), program, *typed[1:]],
            "to type",
            {"PINENTRY_PROGRAM": ""},
        )
        self.see(
            f"restored with {program}",
            status == 0 and self.read(f"work/{typed[3]}") == text,
            status,
        )

    @needs("age")
    def test_age(self):
        self.restores_with("age")

    @needs("rage")
    def test_rage(self):
        self.restores_with("rage")

    def test_unit(self):
        """The commands of the unit of systemd, with their paths in a folder of our own."""
        text = self.make_archive("unused.age")
        [unit] = [script for _, script in blocks("ini")]
        words = " && ".join(
            re.findall(
                r"(?m)^ExecStart(?:Post)?=/(?:usr/local/)?bin/(.*)$", unit.replace("\\\n", "")
            )
        )
        self.path("work/photos.tar").write_bytes(text)
        for name, path in (
            ("${CREDENTIALS_DIRECTORY}/passphrase", "passphrase.txt"),
            ("${STATE_DIRECTORY}", "."),
            ("/srv/", ""),
        ):
            self.assertIn(name, words)
            words = words.replace(name, path)
        run = self.run_script(
            f"{words} && age_tool decrypt --pass passphrase.txt photos.tar.age back && cmp back photos.tar"
        )
        self.assertEqual(run.returncode, 0, run.stdout)

    def test_readme(self):
        """README's commands, with the passphrase typed: the last one finds that its file was truncated. They write into a new folder alone."""
        [section] = [
            it for it in (TOP / "README.md").read_text().split("\n## ") if it.startswith("Try it")
        ]
        commands = [it for it in section.splitlines() if it.startswith("    ")]
        said = "".join(
            f"{it.removeprefix('    # ')}\n" for it in commands if it.startswith("    # ")
        )
        [typed] = re.findall(r"type `([^`]+)`", section)
        env = {**self.env, "TMPDIR": str(self.path("work"))}
        run = at_terminal(
            ["bash", "-euo", "pipefail", "-c", "\n".join(commands)],
            [typed.encode() + b"\n"] * 4,
            cwd=self.path("bin"),
            env=env,
        )
        self.assertEqual((run.returncode, run.stderr.decode()), (1, said), run.shown)
        [made] = self.path("work").iterdir()
        text = (made / "notes.txt").read_bytes()
        self.assertEqual(
            ((made / "restored.txt").read_bytes(), (made / "part.txt").read_bytes()),
            (text, text[: 3 * 65_536]),
        )
        self.see(
            "only its owner can read the passphrase",
            (made / "passphrase.txt").stat().st_mode & 0o777 == 0o600,
        )

    def test_format(self):
        """The file in hexadecimal."""
        page = (TOP / "docs" / "FORMAT.md").read_text().split("\n## One file in hexadecimal", 1)[1]
        self.write(
            "worked.age", bytes.fromhex("".join(re.findall(r"(?m)^    ([0-9a-f]+)(?: .*)?$", page)))
        )
        self.write("worked.pass", b"passphrase")
        run = self.tool("decrypt", "--pass", "worked.pass", "worked.age", "worked")
        self.assertEqual((run.returncode, run.stderr), (0, b""))
        self.assertEqual(self.read("worked"), b"hello")
