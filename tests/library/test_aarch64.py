"""Tries the program and the C library for ARM, by qemu: the transcripts, C2SP's vectors and the headers that other tests have; files, and a
decryption that stopped, from either processor to the other; the C example; and that what the kit takes for the system's numbers and
layouts is so on ARM, too."""
import os
import pathlib
import re
import shutil
import subprocess
import sys
import tempfile

from tests import built, process
from tests.case import Case, needs
from tests.library import test_go
from tools.libraries import kit
from tools.workspace import TOP

TARGET, CC, ARM = (
    "aarch64-unknown-linux-gnu",
    "aarch64-linux-gnu-gcc",
    TOP / "bindings" / "out" / "aarch64",
)
# What makes it, at the first time in some minutes.
BUILD = f"TARGET={TARGET} sh -c 'bindings/build && release/static {ARM}/shared {ARM}/static {ARM}/age_tool.o'".replace(
    f"{TOP}/", ""
)
# (Debian's qemu-user has it under the one name, qemu-user-static under the other)
QEMU = (
    "qemu-aarch64"
    if shutil.which("qemu-aarch64") or not shutil.which("qemu-aarch64-static")
    else "qemu-aarch64-static"
)
C_OF = {
    "i16": "short",
    "i32": "int",
    "i64": "long",
    "u16": "unsigned short",
    "u32": "unsigned int",
    "u64": "unsigned long",
}
HEADERS = (
    "errno",
    "fcntl",
    "limits",
    "sched",
    "signal",
    "stdio",
    "sys/epoll",
    "sys/file",
    "sys/resource",
    "sys/stat",
    "sys/wait",
    "time",
    "unistd",
    "poll",
)

READS = ["bindings/go/README.md"]


def asserted_constants(text):
    """Assertions in C that constants of Rattle have the values of the C names, where C has the name."""
    for name, value in re.findall(r"(?m)^pub const (\w+): [iu]\w+ = ([^;]+);", text):
        value = re.sub(r"0o([0-7]+)", r"0\1", value)
        yield f'#ifdef {name}\n_Static_assert({name} == ({value}), "{name}");\n#endif'


def asserted_layouts(text):
    """Assertions in C that a struct of Rattle has its fields where C's has them."""
    for name, fields in re.findall(
        r"#\[repr\(C\)\]\n[^\n]*\npub struct (\w+) \{\n(.*?)\n\}", text, re.S
    ):
        found = re.findall(r"pub (\w+): ([^\n]+),", fields)
        # (one that is a name in C and no struct, or holds another kind of field)
        if name.endswith("_t") or not all(
            it in C_OF for _, it in found if "[" not in it and it != "statx_timestamp"
        ):
            continue
        yield f"struct own_{name} {{ {' '.join(member_of(field, it) for field, it in found)} }};"
        yield f'_Static_assert(sizeof(struct own_{name}) == sizeof(struct {name}), "{name}");'
        yield from (
            f'_Static_assert(offsetof(struct own_{name}, {field}) == offsetof(struct {name}, {field}), "{field}");'
            for field, _ in found
            if not field.startswith("__")
        )


def member_of(field, kind):
    if array := re.fullmatch(r"\[(\w+); (\d+)\]", kind):
        return f"{C_OF[array[1]]} {field}[{array[2]}];"
    return f"{C_OF.get(kind, 'struct own_' + kind)} {field};"


@needs(QEMU, CC)
class ArmTest(Case):
    """The program and the library that `release/static` and `bindings/build` make for ARM."""

    @classmethod
    def setUpClass(cls):
        made = tempfile.TemporaryDirectory(prefix="age-arm-")
        cls.addClassCleanup(made.cleanup)
        cls.made = pathlib.Path(made.name)
        for it, crate in (
            ("libagefile.a", "age_c"),
            ("libagefile-proved.a", "age_c"),
            ("static", "age_tool"),
            ("age_tool.o", "age_tool"),
        ):
            built.see_fresh(
                ARM / it, BUILD, crate, TOP / "bindings" / "build", TOP / "release" / "static"
            )
        for it in ("shared", "static"):
            shutil.copy(ARM / it, cls.made)
        # What stands for the program where a test wants one.
        (cls.made / "age_tool").write_text(f"#!/bin/sh\nexec {QEMU} '{cls.made}/static' \"$@\"\n")
        (cls.made / "age_tool").chmod(0o755)

    def arm(self, *words, **more):
        return process.run(
            [QEMU, self.made / "static", *words], cwd=self.room, capture_output=True, **more
        )

    def test_numbers(self):
        """The constants and structs of the kit's libc are those of C's headers for ARM."""
        sources = kit() / "rattle" / "libc" / "src"
        lines = [f"#include <{it}.h>" for it in HEADERS] + ["#include <stddef.h>"]
        constants = [*asserted_constants((sources / "lib.rt").read_text())]
        layouts = [*asserted_layouts((sources / "types.rt").read_text())]
        self.write(
            "numbers.c", "\n".join(["#define _GNU_SOURCE", *lines, *constants, *layouts]).encode()
        )
        ran = process.run(
            [CC, "-fsyntax-only", self.path("numbers.c")], capture_output=True, text=True
        )
        self.see(
            f"{len(constants)} constants, {len(layouts)} lines on structs",
            ran.returncode == 0,
            ran.stderr,
        )
        for name in (
            "O_CREAT",
            "O_CLOEXEC",
            "ENAMETOOLONG",
            "STATX_BASIC_STATS",
            "stx_mode",
            "stx_mnt_id",
        ):
            self.see(f"{name} is among them", any(f'"{name}"' in it for it in constants + layouts))
        # Those that differ on ARM, should the kit ever use them.
        used = [
            it
            for it in ("O_DIRECTORY", "O_NOFOLLOW", "O_DIRECT", "O_LARGEFILE")
            if re.search(rf"pub const {it}\b", (sources / "lib.rt").read_text())
        ]
        self.see("flags that differ between the processors aren't the kit's", not used, used)

    def test_forms(self):
        """Both programs and the library are for ARM, for pages of 64 KiB; the library needs old symbols alone."""
        for name in ("static", "shared"):
            head = process.run(
                ["readelf", "-hlW", self.made / name], capture_output=True, text=True
            ).stdout
            self.see(f"{name} is for ARM", "AArch64" in head)
            loads = [
                int(it.split()[-1], 16) for it in head.splitlines() if it.strip().startswith("LOAD")
            ]
            self.see(f"{name}: pages of 64 KiB", loads and min(loads) >= 65_536, loads)
            self.see(f"{name}: the loader", ("INTERP" in head) == (name == "shared"))
        for name, versions in (("libagefile.so.2", {"GLIBC_2.17", "GLIBC_2.25"}),):
            library = ARM / name
            loads = process.run(["readelf", "-lW", library], capture_output=True, text=True).stdout
            self.see(
                f"{name}: pages of 64 KiB",
                all(
                    int(it.split()[-1], 16) >= 65_536
                    for it in loads.splitlines()
                    if it.strip().startswith("LOAD")
                ),
                loads,
            )
            symbols = process.run(
                ["readelf", "--dyn-syms", "-W", library], capture_output=True, text=True
            ).stdout
            self.see(
                f"{name}: {versions}", {*re.findall(r"GLIBC_[0-9.]+", symbols)} == versions, symbols
            )

    def test_both_ways(self):
        """What one processor writes the other reads, and a decryption that stopped on one goes on on the other."""
        self.write("pass", b"correct horse\n")
        for length in (0, 1, 65_536, 200_000):
            self.write("plain", os.urandom(length))
            for one, other, name in (
                (self.tool, self.arm, "from x86-64"),
                (self.arm, self.tool, "from ARM"),
            ):
                self.remove("sealed", "back")
                wrote = one("encrypt", "--pass", "pass", "--log", "10", "plain", "sealed")
                read = other("decrypt", "--pass", "pass", "sealed", "back")
                self.see(
                    f"{name}: {length} bytes",
                    wrote.returncode == read.returncode == 0
                    and self.read("back") == self.read("plain"),
                    wrote,
                    read,
                )
        for one, other, name in (
            (self.tool, self.arm, "from x86-64"),
            (self.arm, self.tool, "from ARM"),
        ):
            self.write("cut", self.read("sealed")[:150_000])
            stopped = one("decrypt", "--pass", "pass", "--save", "position", "cut", "part")
            resumed = other(
                "resume",
                "--position",
                "position",
                "--old",
                "part",
                "--pass",
                "pass",
                "sealed",
                "whole",
            )
            self.see(
                f"{name}: it stops", stopped.returncode == 1 and self.is_there("position"), stopped
            )
            self.see(
                f"{name}: and goes on",
                resumed.returncode == 0 and self.read("whole") == self.read("plain"),
                resumed,
            )
            self.remove("cut", "part", "position", "whole")

    def test_c_example(self):
        """A program in C over the library, whose heap is that of the C library for ARM."""
        self.write("pass", b"correct horse\n")
        self.write("plain", os.urandom(3_000_000))
        self.assertEqual(
            self.tool("encrypt", "--pass", "pass", "--log", "10", "plain", "sealed").returncode, 0
        )
        words = [QEMU, "-L", "/usr/aarch64-linux-gnu", ARM / "decrypt", "pass"]
        with open(self.path("sealed"), "rb") as sealed:
            ran = process.run(words, cwd=self.room, stdin=sealed, capture_output=True)
        self.see(
            "the C example", ran.returncode == 0 and ran.stdout == self.read("plain"), ran.stderr
        )

    @needs("make")
    def test_objects(self):
        """What a release has for systems without the kit gives the program and the library for ARM."""
        for name in ("share/doc/age_tool/NOTICES", "share/agefile/proof.json"):
            self.path(f"release/{name}").parent.mkdir(parents=True)
            self.write(f"release/{name}", b'{"linked": {}}')
        parts = [
            self.path("release"),
            ARM / "age_tool.o",
            ARM / "libagefile-proved.a",
            self.path("objects"),
            "none",
            "2.0.0",
            "a build",
        ]
        process.run(
            [TOP / "release/objects", *parts], env={**os.environ, "TARGET": TARGET}, check=True
        )
        made = process.run(
            ["make", "-C", self.path("objects"), f"CC={CC}"], capture_output=True, text=True
        )
        self.see("make", made.returncode == 0, made.stdout, made.stderr)
        self.write("pass", b"correct horse\n")
        self.write("plain", os.urandom(200_000))
        self.assertEqual(
            self.tool("encrypt", "--pass", "pass", "--log", "10", "plain", "sealed").returncode, 0
        )
        words = [
            QEMU,
            "-L",
            "/usr/aarch64-linux-gnu",
            self.path("objects/age_tool"),
            "decrypt",
            "--pass",
            "pass",
            "sealed",
            "back",
        ]
        ran = process.run(words, cwd=self.room, capture_output=True)
        self.see(
            "the program",
            ran.returncode == 0 and self.read("back") == self.read("plain"),
            ran.stderr,
        )
        linked = process.run(
            [
                CC,
                "-I",
                TOP / "include",
                TOP / "bindings/c/decrypt.c",
                self.path("objects/libagefile.a"),
                "-o",
                self.path("decrypt"),
            ],
            capture_output=True,
            text=True,
        )
        with open(self.path("sealed"), "rb") as sealed:
            ran = process.run(
                [QEMU, "-L", "/usr/aarch64-linux-gnu", self.path("decrypt"), "pass"],
                cwd=self.room,
                stdin=sealed,
                capture_output=True,
            )
        self.see(
            "a program in C",
            ran.returncode == 0 and ran.stdout == self.read("plain"),
            linked.stderr,
            ran.stderr,
        )

    @needs("go")
    def test_go(self):
        """The Go module is built for ARM, with the library inside, and decrypts there."""
        module, user = self.path("go"), self.path("user")
        shutil.copytree(TOP / "bindings/go", module)
        shutil.copy(ARM / "libagefile.a", module / "libagefile_arm64.a")
        test_go.write_user(user, "../go")
        env = {
            **os.environ,
            "GOOS": "linux",
            "GOARCH": "arm64",
            "CGO_ENABLED": "1",
            "CC": CC,
            "GOPROXY": "off",
            "GOFLAGS": "-mod=mod",
            "GOTOOLCHAIN": "local",
        }
        built = process.run(
            ["go", "build", "-o", self.path("by-go"), "."],
            cwd=user,
            env=env,
            capture_output=True,
            text=True,
        )
        self.see("the Go module is built for ARM", built.returncode == 0, built.stderr)
        self.write("pass", b"correct horse\n")
        self.write("plain", os.urandom(200_000))
        self.assertEqual(
            self.tool("encrypt", "--pass", "pass", "--log", "10", "plain", "sealed").returncode, 0
        )
        with open(self.path("sealed"), "rb") as sealed:
            ran = process.run(
                [QEMU, "-L", "/usr/aarch64-linux-gnu", self.path("by-go"), "pass"],
                cwd=self.room,
                stdin=sealed,
                capture_output=True,
            )
        self.see(
            "and decrypts", ran.returncode == 0 and ran.stdout == self.read("plain"), ran.stderr
        )

    def test_suites(self):
        """Other files of tests, over the program for ARM."""
        for name in ("test_transcripts", "test_headers", "test_cctv"):
            env = {**os.environ, "AGE_TOOL": str(self.made / "age_tool")}
            ran = process.run(
                [sys.executable, "-m", "tests.counted", name],
                cwd=TOP,
                env=env,
                stdout=subprocess.PIPE,
                stderr=subprocess.STDOUT,
                text=True,
            )
            found = re.search(r"(\d+) passed, (\d+) failed", ran.stdout)
            self.see(f"{name}: {found and found[0]}", found and found[2] == "0", ran.stdout[-3000:])
            print(f"{name} on ARM: {found and found[0]}")
