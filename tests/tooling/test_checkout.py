"""Tries what the gate, the build and the library do in a checkout that was used before, and in a folder with a space in its name."""
import os
import shutil
import subprocess
import sys
import time

from tests import built, process
from tests.case import Case, needs
from tools import libraries, workspace
from tools.workspace import CRATES, TOP

READS = ["*"]
KEPT = TOP / "bindings" / "out" / "kept"
# What stands on the other crates isn't proved again for what `rt ci` refuses of a checkout.
CRATE = "age_kdf"


class CheckoutTest(Case):
    """A test for each thing that was left from before."""

    def refusals(self, folder):
        """What `rt ci` says of a checkout, with one crate of it."""
        top = self.path(f"of-refusals-{time.monotonic_ns()}")

        def left_out(at, names):
            is_of_crates = os.path.basename(at) == "crates" and os.path.dirname(at) == str(folder)
            return [
                it
                for it in names
                if it == ".git" or is_of_crates and it != CRATE or it == "out" and "/crates/" in at
            ]

        shutil.copytree(folder, top, symlinks=True, ignore=left_out)
        (top / ".git").mkdir()
        (top / "crates.txt").write_text(f"{workspace.lines()[CRATE]}\n")
        run = process.run(["rt", "ci"], cwd=top, capture_output=True, text=True)
        return run.stdout + run.stderr if run.returncode else ""

    def copy_of_sources(self, name):
        """A copy of this checkout, without what was built."""
        to = self.path(name)
        shutil.copytree(
            TOP,
            to,
            ignore=shutil.ignore_patterns("out", ".git", "target", "__pycache__", "libagefile*.a"),
        )
        (to / ".git").mkdir()
        return to

    @needs("cc")
    def test_used_checkout(self):
        """After `bindings/build` and all other tests the gate still begins."""
        built.library()
        said = self.refusals(TOP)
        self.see("rt ci takes a checkout that was built and used", not said, said)

    def test_not_built(self):
        """A checkout that isn't built says what the program is, and its version, at once. It builds for all else."""
        top = self.copy_of_sources("fresh")
        (top / "build").write_text("#!/bin/sh\necho building; exit 1\n")
        told = (TOP / "docs/help.txt").read_text()
        version = process.run(
            [workspace.program(), "--version"], capture_output=True, text=True
        ).stdout
        for word, wanted in (
            ("--help", told),
            ("-h", told),
            ("help", told),
            ("--version", version),
            ("-V", version),
            ("inspect", "building\n"),
        ):
            run = process.run(
                [top / "age_tool", word], capture_output=True, text=True, stdin=subprocess.DEVNULL
            )
            self.see(
                f"{word} in a checkout that isn't built",
                run.stdout == wanted and (wanted == "building\n") != ("isn't built" in run.stderr),
                run,
            )

    @needs("cc")
    def test_space(self):
        """The library that was proved here is taken in a folder with a space; a C program links it by what pkg-config says."""
        built.library()
        top = self.copy_of_sources("a b/shal low")
        if KEPT.exists():
            shutil.copytree(KEPT, top / "bindings/out/kept")
        for turn in ("once", "twice"):
            run = process.run([top / "bindings/build"], capture_output=True, text=True)
            self.see(f"bindings/build, {turn}", run.returncode == 0, run.stderr[-2000:])
            said = self.refusals(top)
            self.see(f"rt ci takes it, {turn}", not said, said)
        if not shutil.which("pkg-config"):
            return self.leave_out("pkg-config", "needs pkg-config")
        words = "eval cc -o user \\'bindings/c/decrypt.c\\' $(pkg-config --cflags --libs agefile)"
        run = process.run(
            ["sh", "-c", words],
            cwd=top,
            env={**os.environ, "PKG_CONFIG_PATH": str(top / "bindings/out/pkgconfig")},
            capture_output=True,
            text=True,
        )
        self.see("a program by pkg-config", run.returncode == 0, run.stderr)

    def test_another_clone(self):
        """Another checkout of the same sources takes the library that was proved here, also at another time; what differs in a byte doesn't,
        nor does another processor, and a damaged file isn't taken."""
        built.library()
        top = self.copy_of_sources("clone")

        def takes(**more):
            words = "from tools.libraries import Made; found = Made('age_c').found(); print('takes', found and found.name)"
            env = {**os.environ, "PYTHONPATH": str(top), "TARGET": "", **more}
            return process.run(
                [sys.executable, "-B", "-c", words],
                cwd=top,
                env=env,
                capture_output=True,
                text=True,
            ).stdout

        if KEPT.exists():
            shutil.copytree(KEPT, top / "bindings/out/kept")
        first = takes()
        if "takes None" in first:
            self.skipTest("run bindings/build: this user has kept no library")
        self.see("another checkout takes it", first.startswith("takes age_c-"), first)
        for name, byte in (
            ("crates/age_c/src/lib.rt", "\n"),
            ("crates/age_kdf/proofs/Lib.antt", "\n"),
            ("crates/age_io/specs/Lib.antt", " "),
        ):
            held = (top / name).read_bytes()
            (top / name).write_bytes(held + byte.encode())
            said = takes()
            self.see(f"{name}: one byte more", "takes None" in said, said)
            (top / name).write_bytes(held)
        (top / "crates/age_cli/src/lib.rt").write_text("")
        said = takes()
        self.see("what isn't below it doesn't count", said == first, said)
        said = takes(TARGET="wasm64-unknown-unknown")
        self.see("another processor", "takes None" in said, said)

    def test_what_is_kept(self):
        """A file is taken if its bytes are those of its name; those that weren't used for longest go; without a place for it for all checkouts
        it is kept in this one."""

        def made(number, at=self.room / "kept"):
            self.write("it", b"%d" % number)
            libraries.places = lambda: [at, self.room / "here"]
            libraries.sum_of_sources = lambda crate, top: number
            return libraries.Made("age_x")

        for name in ("places", "sum_of_sources"):
            self.addCleanup(setattr, libraries, name, getattr(libraries, name))
        for number in range(libraries.MOST + 2):
            it = made(number)
            self.see(f"{number} isn't kept yet", it.found() is None)
            kept = it.keep(self.path("it"))
            self.see(
                f"{number} is kept",
                it.found() == kept and kept.read_bytes() == b"%d" % number,
                kept,
            )
            os.utime(kept, (number, number))
        held = {it.read_bytes() for it in self.path("kept/made").iterdir()}
        self.see(
            "those used last stay",
            held == {b"%d" % it for it in range(2, libraries.MOST + 2)},
            held,
        )
        kept.write_bytes(b"other")
        self.see("a damaged one isn't taken", it.found() is None)
        self.see(
            "and is replaced",
            it.keep(self.path("it")) == kept
            and it.found() == kept
            and kept.read_bytes() == self.read("it"),
        )
        it = made(1, self.path("it"))
        self.see(
            "a place that is none: in the checkout",
            it.keep(self.path("it")).parent == self.path("here/made") and it.found(),
        )

    def test_variables(self):
        """`check` tests what it proved, and not what a variable names."""
        words = "import runpy, sys; runpy.run_path('check'); it = sys.modules['tools.workspace']; import os; print(it.PROGRAM, it.LIBRARY, os.getenv('TARGET'), sep='\\n')"
        env = {
            **os.environ,
            "AGE_TOOL": "/usr/bin/false",
            "AGE_C_DIR": "/nowhere",
            "TARGET": "another",
        }
        run = process.run(
            [sys.executable, "-B", "-c", words], cwd=TOP, env=env, capture_output=True, text=True
        )
        self.see(
            "check tests what it proved",
            run.stdout.splitlines()
            == [str(CRATES / "age_tool/out/age_tool"), str(TOP / "bindings/out"), "None"],
            run,
        )

    def test_stale_program(self):
        """`age_tool` builds again what was changed, also by a file that is older than the program, what is gone, and by another kit."""
        top = self.copy_of_sources("c d")
        (top / "build").write_text("#!/bin/sh\necho built\n")
        program = top / "crates/age_tool/out/age_tool"
        program.parent.mkdir()
        source, kit = top / "crates/age_kdf/src/lib.rt", self.path("rt")
        kit.touch(0o755)
        env = {**os.environ, "PATH": f"{self.room}:{os.environ['PATH']}"}

        def has_built(name, wanted):
            said = process.run([top / "age_tool"], capture_output=True, text=True, env=env)
            self.see(name, ("built" in said.stdout) == wanted, said)
            shutil.copy("/usr/bin/true", program)
            later = time.time() + 0.01
            os.utime(program, (later, later))
            time.sleep(0.02)

        has_built("no program", True)
        has_built("nothing changed", False)
        os.utime(source, (1, 1))
        has_built("a source of an older time", True)
        has_built("nothing changed since", False)
        next((top / "crates/age_kdf/proofs").rglob("*.antt")).unlink()
        has_built("a removed file", True)
        has_built("nothing is gone since", False)
        kit.write_text("another")
        has_built("another kit", True)
        env["PATH"] = os.environ["PATH"].replace(os.path.dirname(shutil.which("rt")), "")
        has_built("no kit", False)
