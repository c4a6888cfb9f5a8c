"""Builds the Rust crates and the first program on the page of each language, runs their tests, and compares what their programs say of files
with what age_tool says."""
import os
import pathlib
import re
import shutil
import sys

from tests import built, process
from tests.bindings import LENGTHS, PYTHON, plain_of, setUpModule
from tests.case import needs
from tests.library.test_c import MEANINGS, STRICT, ProgramsCase
from tools.workspace import LIBRARY, TOP

READS = ["bindings/*.md"]


def sample_of(language, number=1, page="bindings/c/README.md"):
    """A program in a page."""
    return (TOP / page).read_text().split(f"```{language}\n")[number].split("\n```")[0] + "\n"


def first_example(page):
    """The first program on the page of a module."""
    return page.read_text().split("```rust\n")[1].split("\n```")[0] + "\n"


# What Rust says of faults, before the number and name: the library's texts.
RUST = {
    "1 NotAge": "the file doesn't begin as an age file does",
    "13 WrongKey": "the passphrase or key doesn't open the file",
    "17 ChunkDamaged": "the file is damaged or was cut here, or something was appended",
    "21 Trailing": "something was appended to the file",
    "254 HeaderOrNonceCut": "the file ends in its header or right after it, or isn't an age file",
}


class ModulesCase(ProgramsCase):
    """What tests of modules have in common."""

    def succeed(self, what, folder, env, *commands):
        """Counts for each command whether it succeeds; the test ends if one doesn't."""
        for words in commands:
            run = process.run(
                words, cwd=folder, env={**os.environ, **env}, capture_output=True, text=True
            )
            self.assertEqual(run.returncode, 0, (words, (run.stdout + run.stderr)[-2000:]))
            self.see(f"{what}: {' '.join(map(str, words))}", True)

    def see_example(self, what, program, prefix, texts=MEANINGS):
        """A program in another language: files of all lengths, whole and cut by a byte, and what it says, after a prefix: these texts."""
        for length in LENGTHS:
            text = plain_of(length)
            data = self.sealed(text)
            run = process.run([program, "pw"], cwd=self.room, input=data, capture_output=True)
            self.see(
                f"{what}: {length} bytes",
                (run.returncode, run.stdout) == (0, text),
                run.stderr[-300:],
            )
            run = process.run([program, "pw"], cwd=self.room, input=data[:-1], capture_output=True)
            is_cut = text.startswith(run.stdout) and len(run.stdout) <= length // 65_536 * 65_536
            self.see(f"{what}: {length} bytes, cut", run.returncode == 1 and is_cut)
        self.see_reports(what, program, prefix, texts)
        self.see_streams_that_fail(what, program)

    def see_sample(self, what, words, last):
        """The first program of a page, over a file that age made: the text and the last bytes of it, as the language writes them."""
        shutil.copy(TOP / "bindings" / "tests" / "age" / "passphrase.age", self.path("notes.age"))
        env = {**os.environ, "PYTHONPATH": str(PYTHON), "PYTHONDONTWRITEBYTECODE": "1"}
        run = process.run(words, cwd=self.room, env=env, capture_output=True)
        text = b"hello, passphrase\n"
        self.see(
            f"the sample in {what}",
            run.returncode == 0 and run.stdout in (text + last, last + text),
            run.stdout,
            run.stderr,
        )

    def see_copy(self, what, text=b"a text of mine"):
        """The file that a sample wrote."""
        self.write("horse", b"correct horse")
        run = self.tool("decrypt", "--pass", "horse", "--no-sync", "copy.age", "copy")
        self.see(
            f"the copy of the sample in {what}",
            run.returncode == 0 and self.read("copy") == text,
            run.stderr,
        )

    def see_cut_samples(self, what, words, said="the file is damaged or cut off:"):
        """A sample treats a file that was cut in a chunk as one that was cut before it."""
        data = self.path("notes.age").read_bytes()
        for end in (len(data) - 3, len(data) - 18 - 16):
            self.write("notes.age", data[:end])
            run = process.run(words, cwd=self.room, capture_output=True, text=True)
            self.see(
                f"the sample in {what}, cut",
                run.returncode == 1 and run.stderr.startswith(said),
                run.stderr,
            )


class LanguagesTest(ModulesCase):
    """The crates and samples in other languages. They take nothing from a registry."""

    @needs("cc")
    def test_c(self):
        """The program in bindings/c/README.md, which reads a text from standard input."""
        self.path("sample.c").write_text(sample_of("c"))
        comma = ["-Wcomma"] if shutil.which("clang") else []
        words = [
            "clang" if comma else "cc",
            *STRICT,
            *comma,
            "-o",
            self.path("sample-c"),
            self.path("sample.c"),
            LIBRARY / "libagefile.a",
        ]
        self.succeed("C", self.room, {}, words)
        shutil.copy(TOP / "bindings" / "tests" / "age" / "passphrase.age", self.path("notes.age"))
        text = plain_of(200_000)
        run = process.run([self.path("sample-c")], cwd=self.room, input=text, capture_output=True)
        self.see("the sample in C", (run.returncode, run.stdout) == (0, b"rase\n"), run.stderr)
        self.see_copy("C", text)
        # (from here on with little work)
        self.write("horse", b"correct horse")
        for length, place in (
            (131_072, 131_072),
            (131_072, 131_071),
            *((200_000, it) for it in (0, 70_000, 131_072, 199_999, 200_000)),
        ):
            text = plain_of(length)
            self.write("in", text)
            self.tool(*"encrypt --pass horse --log 1 --no-sync in notes.age".split(), check=True)
            self.path("sample.c").write_text(
                sample_of("c")
                .replace('horse", 13);', 'horse", 13);\n    key.work = 1;')
                .replace("from, 13,", f"from, {place},")
            )
            self.succeed("C", self.room, {}, words)
            run = process.run(
                [self.path("sample-c")], cwd=self.room, input=b"", capture_output=True
            )
            self.see(
                f"the sample in C from {place} of {length}",
                (run.returncode, run.stdout) == (0, text[place:]),
                run.stderr,
            )
            self.see_copy("C", b"")
        self.path("notes.age").write_bytes(self.read("notes.age")[:-1])
        run = process.run([self.path("sample-c")], cwd=self.room, input=b"", capture_output=True)
        self.see(
            "the sample in C, cut",
            (run.returncode, run.stderr) == (1, b"17 ChunkDamaged\n"),
            run.stderr,
        )

    def test_python(self):
        self.path("sample.py").write_text(sample_of("python", page="bindings/python/README.md"))
        self.see_sample("Python", [sys.executable, self.path("sample.py")], b"b'rase\\n'\n")
        self.see_copy("Python")

    @needs("cargo")
    def test_rust(self):
        """Builds the Rust crates and their example, and runs their tests, and the first program of their page."""
        to, sample, rust = (
            built.cache("target"),
            self.path("sample-rust"),
            TOP / "bindings" / "rust",
        )
        (sample / "src").mkdir(parents=True)
        (sample / "Cargo.toml").write_text(
            f'[package]\nname = "sample"\nversion = "0.0.0"\nedition = "2021"\n\n[dependencies]\nagefile = {{ path = "{rust}/agefile" }}\n'
        )
        (sample / "src" / "main.rs").write_text(first_example(rust / "README.md"))
        cargo = lambda *words: ["cargo", *words, "--offline", "--quiet", "--target-dir", to]
        commands = [
            cargo("build", "--release", "--examples"),
            cargo("test", "--release"),
            [*cargo("build", "--release"), "--manifest-path", sample / "Cargo.toml"],
        ]
        for tool, words in (
            ("cargo-clippy", [*cargo("clippy", "--all-targets"), "--", "-D", "warnings"]),
            ("cargo-fmt", ["cargo", "fmt", "--check"]),
        ):
            if shutil.which(tool):
                commands.append(words)
            else:
                self.leave_out(f"{tool} over the Rust crates", f"needs {tool}")
        self.succeed("Rust", rust, {"AGEFILE_DIR": str(LIBRARY)}, *commands)
        self.see_example("Rust", to / "release" / "examples" / "decrypt", "", RUST)
        self.see_sample("Rust", [to / "release" / "sample"], b"rase\n")
        self.see_copy("Rust")
        self.see_cut_samples("Rust", [to / "release" / "sample"], "the file isn't whole: ")

    def test_rust_names_all_calls(self):
        """The crate agefile-sys has each function of the header, with as many arguments, and the faults and kinds that it names have its numbers."""
        header = (TOP / "include" / "agefile.h").read_text()
        crate = (TOP / "bindings" / "rust" / "agefile-sys" / "src" / "lib.rs").read_text()
        count = lambda words: 0 if words.strip() in ("", "void") else words.count(",") + 1
        ours = {
            name: count(words)
            for name, words in re.findall(r"pub fn (agefile_\w+)\((.*?)\)", crate, re.S)
        }
        theirs = {
            name: count(words)
            for name, words in re.findall(
                r"^(?:AGEFILE_MUST_CHECK )?[\w ]+?[ *\n](agefile_\w+)\((.*?)\);",
                header,
                re.S | re.M,
            )
        }
        self.see(
            "the functions",
            len(ours) == 36 and ours == theirs,
            set(ours.items()) ^ set(theirs.items()),
        )
        kinds = re.search(r"AGEFILE_KIND_NONE.*?}", header, re.S)[0]
        numbers = {
            name: int(number)
            for name, number in re.findall(r"\b(AGEFILE_\w+)(?: =)? (\d+)", header)
        }
        numbers |= {
            name: number for number, name in enumerate(re.findall(r"AGEFILE_KIND_\w+", kinds))
        }
        named = {
            name: int(number.replace("_", ""))
            for name, number in re.findall(r"const (AGEFILE_\w+): \w+ = ([\d_]+);", crate)
        }
        self.see(
            "the numbers",
            len(named) > 10 and named.items() <= numbers.items(),
            named.items() - numbers.items(),
        )

    @needs("cargo")
    def test_rust_over_others(self):
        """Builds the programs over other crates, and runs the one over tokio, if a vendored folder has these: the one that CRATES names, or Debian's."""
        vendored = os.environ.get("CRATES") or "/usr/share/cargo/registry"
        config = [
            "--config",
            'source.crates-io.replace-with="vendored"',
            "--config",
            f'source.vendored.directory="{vendored}"',
        ]
        for name in ("tokio", "age"):
            if not [*pathlib.Path(vendored).glob(f"{name}-[0-9]*")] + [
                *pathlib.Path(vendored).glob(name)
            ]:
                self.leave_out(f"Rust over {name}", f"needs the crate {name}")
                continue
            folder = self.path("over") / name
            shutil.copytree(TOP / "bindings" / "rust" / "examples" / name, folder)
            words = (
                (folder / "Cargo.toml")
                .read_text()
                .replace("../../agefile", f"{TOP}/bindings/rust/agefile")
            )
            (folder / "Cargo.toml").write_text(words)
            to = ["--target-dir", built.cache("target")]
            self.succeed(
                f"Rust over {name}",
                folder,
                {"AGEFILE_DIR": str(LIBRARY)},
                ["cargo", *config, "build", "--release", "--offline", "--quiet", *to],
            )
            if name == "tokio":
                self.see_over_tokio(built.cache("target") / "release" / "over-tokio")

    def see_over_tokio(self, program):
        for length in LENGTHS:
            text = plain_of(length)
            run = process.run(
                [program, "decrypt", "pw"],
                cwd=self.room,
                input=self.sealed(text),
                capture_output=True,
            )
            self.see(
                f"tokio decrypts {length} bytes",
                (run.returncode, run.stdout) == (0, text),
                run.stderr,
            )
            run = process.run(
                [program, "encrypt", "pw"], cwd=self.room, input=text, capture_output=True
            )
            self.see(
                f"tokio encrypts {length} bytes",
                run.returncode == 0 and self.judged(run.stdout) == ((0, None), text),
                run.stderr,
            )
        run = process.run(
            [program, "decrypt", "pw"],
            cwd=self.room,
            input=self.sealed(text)[:-1],
            capture_output=True,
        )
        self.see(
            "tokio, cut",
            run.returncode == 1
            and text.startswith(run.stdout)
            and b"17 ChunkDamaged" in run.stderr,
            run.stderr,
        )

    @needs("cargo")
    def test_rust_without_the_library(self):
        """A build of the Rust crates says that the library isn't there, and the next one finds it once it is, and then stays fresh."""
        rust = self.path("bindings") / "rust"
        shutil.copytree(TOP / "bindings" / "rust", rust, ignore=shutil.ignore_patterns("target"))
        env = {name: value for name, value in os.environ.items() if name != "AGEFILE_DIR"}
        env |= {
            "PKG_CONFIG_PATH": "",
            "PKG_CONFIG_LIBDIR": str(self.path("none")),
            "CARGO_TERM_COLOR": "never",
        }
        build = lambda: process.run(
            ["cargo", "build", "--offline", "--examples", "-v"],
            cwd=rust,
            env=env,
            capture_output=True,
            text=True,
        )
        run = build()
        inside = f"{rust}/agefile-sys"
        words = f"warning: agefile-sys@2.0.0: libagefile isn't there ({inside}/lib/x86_64/libagefile.a, {inside}/../../out/libagefile.a, "
        self.see(
            "the library isn't there",
            run.returncode != 0 and words in run.stderr and "bindings/build" in run.stderr,
            run.stderr[-2000:],
        )
        (self.path("bindings") / "out").mkdir()
        shutil.copy(LIBRARY / "libagefile.a", self.path("bindings") / "out")
        run = build()
        self.see(
            "the library is there",
            run.returncode == 0 and "warning: " not in run.stderr,
            run.stderr[-2000:],
        )
        run = build()
        self.see(
            "nothing changed",
            run.returncode == 0 and "Fresh agefile-sys" in run.stderr and "Dirty" not in run.stderr,
            run.stderr[-2000:],
        )
        if shutil.which("pkg-config") is None:
            return self.leave_out("Rust with pkg-config", "needs pkg-config")
        shutil.move(self.path("bindings") / "out", self.path("a folder"))
        shutil.copy(LIBRARY / "libagefile.so", self.path("a folder"))
        named = str(self.path("a folder")).replace(" ", "\\ ")
        self.write(
            "a folder/agefile.pc",
            f"Name: agefile\nDescription: it\nVersion: 2.0.0\nLibs: -L{named} -lagefile\n".encode(),
        )
        env["PKG_CONFIG_PATH"] = str(self.path("a folder"))
        run = build()
        self.see(
            "pkg-config finds it in a folder with a space",
            run.returncode == 0 and "warning: " not in run.stderr,
            run.stderr[-2000:],
        )
