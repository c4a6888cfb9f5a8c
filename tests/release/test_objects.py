"""Tries what a release has for systems without the kit: the objects, of which `make` links and installs all, and the Debian packages of them."""
import hashlib
import json
import os
import re
import shutil
import subprocess
import sys
import tarfile

from tests import process
from tests.case import needs
from tests.release.packing import Packing, run
from tools.version import version
from tools.workspace import TOP

READS = ["*"]
PROCESSOR = os.uname().machine
# The compiler for another processor, and what stands for a program there: it calls what one calls of the kit's C.
OTHER, CC = "aarch64", "aarch64-linux-gnu-gcc"
PROGRAM = """
long rattle_arg(unsigned long, unsigned char *, unsigned long);
void rattle_set_errno(int), rattle_dealloc(void *);
int rattle_errno(void), puts(const char *);
struct tried { unsigned long ok; void *at; } rattle_alloc(unsigned long, unsigned long), rattle_realloc(void *, unsigned long, unsigned long, unsigned long);
int main(void) {
    unsigned char word[9];
    rattle_set_errno(rattle_errno());
    rattle_dealloc(rattle_realloc(rattle_alloc(1, 1).at, 1, 2, 1).at);
    return rattle_arg(1, word, 9) != -1;
}
"""


class ObjectsTest(Packing):
    """The objects of a release that was packed without Debian packages."""

    def unpacked(self, folder="out"):
        """The objects, unpacked anew."""
        [archive] = self.path(folder).glob("age_tool-*-objects.tar.gz")
        shutil.rmtree(self.path("objects"), ignore_errors=True)
        with tarfile.open(archive) as tar:
            tar.extractall(self.path("objects"))
        [top] = self.path("objects").iterdir()
        return top

    def make(self, top, *words):
        return run(
            "make",
            *words,
            cwd=top,
            env={
                it: held for it, held in os.environ.items() if it not in ("CC", "CFLAGS", "LDFLAGS")
            },
        )

    def build_of(self, name):
        return json.loads(self.read(name))

    @needs("make", "cc")
    def test_make(self):
        """`make && make install` gives program, library, header, pkg-config's file and manual pages, for any folder; and a proof that names the
        program that was linked."""
        self.assertEqual(self.pack("out").returncode, 0)
        top = self.unpacked()
        made = self.make(top)
        self.see("make", made.returncode == 0, made.stdout[-2000:])
        root = self.path("a root")
        made = self.make(
            top, "install", f"DESTDIR={root}", "PREFIX=/opt/age", "LIBDIR=/opt/age/lib/here"
        )
        self.see("make install", made.returncode == 0, made.stdout[-2000:])
        place = root / "opt/age"
        wanted = (
            "bin/age_tool",
            "bin/agefile",
            "include/agefile.h",
            "lib/here/libagefile.a",
            "lib/here/libagefile.so",
            "lib/here/libagefile.so.2",
            "lib/here/pkgconfig/agefile.pc",
            "lib/here/cmake/agefile/agefileConfig.cmake",
            "share/man/man1/age_tool.1",
            "share/man/man7/age_tool-faults.7",
            "share/agefile/proof.json",
        )
        self.see(
            "all is there",
            all((place / it).exists() for it in wanted),
            *(it for it in wanted if not (place / it).exists()),
        )
        told = (place / "lib/here/pkgconfig/agefile.pc").read_text()
        self.see(
            "pkg-config's file",
            f"\nVersion: {version()}\n" in told
            and "\nprefix=/opt/age\n" in told
            and "\nlibdir=/opt/age/lib/here\n" in told,
            told,
        )
        self.see(
            "CMake's",
            "/../../../../include"
            in (place / "lib/here/cmake/agefile/agefileConfig.cmake").read_text(),
        )
        ended = run(sys.executable, "-B", place / "bin/agefile", "proof", "status-0")
        self.see(
            "agefile proof knows the program",
            ended.returncode == 0
            and "linked of the proved object" in " ".join(ended.stdout.split()),
            ended.stdout[-500:],
        )
        env = {**os.environ, "PATH": f"{place / 'bin'}:{os.environ['PATH']}"}
        for what in (
            ("program", "front", "static") if not (place / "lib/libagefile.a").exists() else ()
        ):
            (place / "lib/libagefile.a").symlink_to(
                "here/libagefile.a"
            ) if what == "static" else None
            ended = run(top / "release/installed", version(), place, what, env=env)
            self.see(f"used: {what}", ended.returncode == 0, ended.stdout[-2000:])
        shown = run("nm", "-D", "--defined-only", place / "lib/here/libagefile.so.2").stdout
        listed = {
            it.split()[0]
            for it in (TOP / "bindings/c/agefile.symbols").read_text().splitlines()
            if not it.startswith("#")
        }
        self.see(
            "the shared library shows its calls alone",
            {*re.findall(r" T (\w+)", shown)} == listed,
            shown,
        )

    @needs("make", "cc")
    def test_runs(self):
        """The program that `make` links passes transcripts and C2SP's vectors, as the one that the kit links."""
        self.assertEqual(self.pack("out").returncode, 0)
        top = self.unpacked()
        self.assertEqual(self.make(top, "age_tool").returncode, 0)
        for name in ("test_transcripts", "test_cctv"):
            words = [sys.executable, "-m", "tests.counted", name]
            ran = process.run(
                words,
                cwd=TOP,
                env={**os.environ, "AGE_TOOL": str(top / "age_tool")},
                stdout=subprocess.PIPE,
                stderr=subprocess.STDOUT,
                text=True,
            )
            found = re.search(r"(\d+) passed, (\d+) failed", ran.stdout)
            self.see(f"{name}: {found and found[0]}", found and found[2] == "0", ran.stdout[-3000:])

    @needs("make", "cc")
    def test_changed(self):
        """Of an object that was changed nothing is linked, before or after another run; nor for a processor that has none."""
        self.assertEqual(self.pack("out").returncode, 0)
        top = self.unpacked()
        file = top / "objects" / PROCESSOR / "age_tool.o"
        held = file.read_bytes()
        for name, other in (
            ("a byte", held[:5000] + bytes([held[5000] ^ 1]) + held[5001:]),
            ("cut", held[:-1]),
            ("longer", held + b"\0"),
        ):
            file.write_bytes(other)
            made = self.make(top)
            self.see(
                f"{name}: refused",
                made.returncode == 2
                and "these objects are not the ones that were proved: nothing is linked"
                in made.stdout
                and not (top / "age_tool").exists()
                and not (top / "libagefile.a").exists(),
                made.stdout,
            )
        file.write_bytes(held)
        self.see("as it was", self.make(top).returncode == 0 and (top / "age_tool").exists())
        file.write_bytes(held[:-1])
        made = self.make(top, "install", f"DESTDIR={self.path('root')}")
        self.see(
            "changed before it was installed",
            made.returncode == 2 and not self.is_there("root"),
            made.stdout,
        )
        made = self.make(top, "PROCESSOR=riscv64")
        self.see(
            "another processor",
            made.returncode == 2 and "there are no objects for riscv64" in made.stdout,
            made.stdout,
        )
        archive = next(self.path("out").glob("age_tool-*-objects.tar.gz"))
        archive.write_bytes(archive.read_bytes()[:-1] + b"x")
        checked = run("sha256sum", "-c", "SHA256SUMS", cwd=self.path("out"))
        self.see(
            "a changed archive isn't what the release lists",
            checked.returncode == 1 and f"{archive.name}: FAILED" in checked.stdout,
            checked.stdout,
        )

    def test_proof(self):
        """proof.json names each file that was made, with its sum; of another processor what was packed of the same build stays."""
        self.assertEqual(self.pack("out").returncode, 0)
        top = self.unpacked()
        held, own = self.build_of("out/proof.json"), json.loads(
            (top / "share/agefile/proof.json").read_text()
        )
        files = held["files"][PROCESSOR]
        self.see(
            "the objects",
            files["age_tool.o, as it was proved"] != files[f"objects/{PROCESSOR}/age_tool.o"]
            and all(
                hashlib.sha256((top / it).read_bytes()).hexdigest() == sum
                for it, sum in files.items()
                if it.startswith("objects/")
            ),
            files,
        )
        [static] = self.path("out").glob("*-static")
        self.see(
            "the static program",
            files[static.name] == hashlib.sha256(static.read_bytes()).hexdigest(),
            files,
        )
        self.see(
            "what is the machine's isn't in the archive",
            own["files"][PROCESSOR] == {it: sum for it, sum in files.items() if it != static.name},
            own["files"],
        )
        self.see(
            "what it says",
            held["version"] == version()
            and len(held["promises"]) > 40
            and held["trusted"]["functions_of_c"]["age_tool"] == ["libc::close"],
        )
        words = ["release/proof", "--join", self.path("earlier"), self.path("out/proof.json")]
        for name, build, processors in (
            ("the same build", held["build"], {PROCESSOR, "other"}),
            ("another build", "0" * 10, {PROCESSOR}),
        ):
            self.write(
                "earlier",
                json.dumps(
                    {**held, "build": build, "files": {"other": {"bin/age_tool": "0"}}}
                ).encode(),
            )
            joined = json.loads(run(*words, cwd=self.top).stdout)
            self.see(
                name,
                {*joined["files"]} == processors and joined["promises"] == held["promises"],
                joined["files"],
            )

    @needs(CC, "make")
    def test_other_processor(self):
        """The archive has the objects of each processor for which this build was packed, and `make` takes those of its compiler; so do the
        packages. (What is linked for the other one only stands for the program and the library.)"""
        self.assertEqual(self.pack("out").returncode, 0)
        [archive] = self.path("out").glob("age_tool-*-objects.tar.gz")
        with tarfile.open(next(self.path("out").glob("*-linux.tar.gz"))) as tar:
            tar.extractall(self.path("release"))
        [release] = self.path("release").iterdir()
        declared = sorted(
            {
                it
                for it in re.findall(r"\b(age_c_\w+)\(", (TOP / "bindings/c/core.h").read_text())
                if it != "age_c_runs_here"
            }
        )
        self.write("program.c", PROGRAM.encode())
        self.write("library.c", "".join(f"void {it}(void) {{}}\n" for it in declared).encode())
        for name in ("program", "library"):
            process.run(
                [CC, "-fPIC", "-c", self.path(f"{name}.c"), "-o", self.path(f"{name}.o")],
                check=True,
            )
        process.run(["ar", "rcs", self.path("library.a"), self.path("library.o")], check=True)
        env = {
            **os.environ,
            "TARGET": f"{OTHER}-unknown-linux-gnu",
            "SOURCE_DATE_EPOCH": "1800000000",
        }
        for name, build, processors in (
            (
                "the same build",
                json.loads(self.read("out/proof.json"))["build"],
                {PROCESSOR, OTHER},
            ),
            ("another build", "0" * 10, {OTHER}),
        ):
            top = self.path(f"of {name}") / archive.name.removesuffix(".tar.gz")
            words = [
                "release/objects",
                release,
                self.path("program.o"),
                self.path("library.a"),
                top,
                archive,
                version(),
                build,
            ]
            self.assertEqual(run(*words, cwd=self.top, env=env).returncode, 0)
            self.see(
                name,
                {it.name for it in (top / "objects").iterdir()} == processors,
                *(top / "objects").iterdir(),
            )
        made = self.make(top, f"CC={CC}")
        heads = {
            it: run("readelf", "-h", top / it).stdout for it in ("age_tool", "libagefile.so.2")
        }
        self.see(
            "make for it",
            made.returncode == 0 and all("AArch64" in it for it in heads.values()),
            made.stdout,
            heads,
        )
        if not shutil.which("dh") or not shutil.which("dh_python3"):
            return self.leave_out("its packages", "needs dh and dh_python3")
        process.run(["make", "-s", "clean", f"CC={CC}"], cwd=top, check=True)
        process.run(
            ["tar", "-czf", self.path("objects.tar.gz"), "-C", top.parent, top.name], check=True
        )
        self.path("packages").mkdir()
        made = run(
            "release/debian",
            self.path("objects.tar.gz"),
            "debian",
            version(),
            self.path("packages"),
            build,
            cwd=self.top,
            env=env,
        )
        found = sorted(
            it.name.partition("_")[0] for it in self.path("packages").glob("*_arm64.deb")
        )
        self.see(
            "its packages",
            made.returncode == 0
            and found == ["age-tool", "libagefile-dev", "libagefile2", "python3-agefile"],
            made.stdout[-2000:],
            found,
        )
        needs_ = run(
            "dpkg-deb",
            "--field",
            next(self.path("packages").glob("age-tool_*_arm64.deb")),
            "Depends",
        ).stdout
        self.see("what they need", re.fullmatch(r"libc6 \(>= 2\.\d+\)\n", needs_), needs_)

    @needs("dh", "dh_python3", "dpkg-deb")
    def test_source_package(self):
        """A Debian makes the packages again of the source package, which has no fault that lintian calls an error; with them, agefile knows the
        program that was linked for the package."""
        made = self.pack("out", PACKAGES="yes")
        self.assertEqual(made.returncode, 0, made.stdout)
        self.assertEqual(self.pack("again", PACKAGES="yes").returncode, 0)
        self.see("twice the same", self.held("out") == self.held("again"))
        [described] = self.path("out").glob("age-tool_*.dsc")
        ended = run("dpkg-source", "-x", described, self.path("source"))
        self.see(
            "it is unpacked",
            ended.returncode == 0
            and self.path("source/objects").is_dir()
            and self.path("source/debian/rules").exists(),
            ended.stdout,
        )
        listed = {it.name for it in self.path("out").iterdir()}
        sums = self.path("out/SHA256SUMS").read_text()
        self.see(
            "all of it is listed",
            all(f"  {it}\n" in sums for it in listed if it.startswith("age-tool_")),
            sums,
        )
        self.see("its packages", len([it for it in listed if it.endswith(".deb")]) == 4, listed)
        for package in self.path("out").glob("*.deb"):
            process.run(["dpkg-deb", "-x", package, self.path("root")], check=True)
        ended = run(sys.executable, "-B", self.path("root/usr/bin/agefile"), "proof", "status-0")
        self.see(
            "agefile proof",
            ended.returncode == 0
            and "linked of the proved object" in " ".join(ended.stdout.split()),
            ended.stdout[-500:],
        )
        if shutil.which("lintian"):
            ended = run("lintian", "--no-cfg", "--profile", "debian", described)
            self.see("lintian", not re.search("(?m)^[EW]: ", ended.stdout), ended.stdout)
