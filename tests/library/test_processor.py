"""Tries the libraries on processors that qemu emulates: where x86-64-v2 is missing each language says so, and none ends by SIGILL; where there
is that and nothing more, they decrypt."""
import os
import platform
import shutil
import sys
import unittest

from tests import built, process
from tests.library import test_go
from tests.bindings import PYTHON, BindingsCase, plain_of, setUpModule
from tests.case import needs
from tools.workspace import LIBRARY, TOP

READS = ["bindings/go/README.md"]
QEMU = next(filter(shutil.which, ("qemu-x86_64", "qemu-x86_64-static")), "qemu-x86_64")
# Those that lack all of it, or a part; and one that has it and no AVX.
OLD, NEW = ("kvm64", "core2duo", "Penryn"), "Nehalem"
NEEDED = b"a processor with x86-64-v2"
BY_PYTHON = "import sys, agefile, shutil\nshutil.copyfileobj(agefile.open(sys.stdin.buffer, passphrase='pw'), sys.stdout.buffer)\n"
# What Go says of a file that is to be written, and of a header.
GO_TEST = """package agefile

import (
	"bytes"
	"io"
	"testing"
)

func TestOldProcessor(t *testing.T) {
	if _, err := Encrypt(io.Discard, pw()); numberOf(err) != 252 {
		t.Error(err)
	}
	if _, err := Inspect(bytes.NewReader(nil)); numberOf(err) != 252 {
		t.Error(err)
	}
}
"""


@unittest.skipUnless(platform.machine() == "x86_64", "needs x86-64")
@needs(QEMU)
class ProcessorTest(BindingsCase):
    def setUp(self):
        super().setUp()
        self.text = plain_of(70_000)
        self.data = self.sealed(self.text)

    def on(self, processor, words, **more):
        return process.run(
            [QEMU, "-cpu", processor, *words],
            cwd=self.room,
            input=self.data,
            capture_output=True,
            **more,
        )

    def see_refused(self, what, words, status, needed=NEEDED, **more):
        for processor in OLD:
            run = self.on(processor, words, **more)
            self.see(
                f"{what} on {processor}",
                (run.returncode, run.stdout) == (status, b"") and needed in run.stderr,
                run.returncode,
                run.stderr[-500:],
            )
        run = self.on(NEW, words, **more)
        self.see(
            f"{what} on {NEW}",
            run.returncode == 0 and run.stdout == self.text,
            run.returncode,
            run.stderr[-500:],
        )

    @needs("cc")
    def test_c(self):
        for name, library in (
            ("static", [LIBRARY / "libagefile.a"]),
            ("shared", [LIBRARY / "libagefile.so", f"-Wl,-rpath,{LIBRARY}"]),
        ):
            made = self.path(name)
            words = [
                "cc",
                "-std=c11",
                "-O1",
                f"-I{TOP / 'include'}",
                "-o",
                made,
                TOP / "bindings" / "c" / "decrypt.c",
                *library,
            ]
            process.run(words, check=True)
            self.see_refused(f"C, {name}", [made, "pw"], 1, b"252 NoProcessor")

    def test_python(self):
        env = {**os.environ, "PYTHONPATH": str(PYTHON), "PYTHONDONTWRITEBYTECODE": "1"}
        self.see_refused("Python", [sys.executable, "-c", BY_PYTHON], 1, env=env)

    @needs("cargo")
    def test_rust(self):
        to = built.cache("target")
        words = [
            "cargo",
            "build",
            "--release",
            "--examples",
            "--offline",
            "--quiet",
            "--target-dir",
            to,
        ]
        process.run(
            words,
            cwd=TOP / "bindings" / "rust",
            env={**os.environ, "AGEFILE_DIR": str(LIBRARY)},
            check=True,
            capture_output=True,
        )
        self.see_refused(
            "Rust",
            [to / "release" / "examples" / "decrypt", "pw"],
            1,
            b"isn't made for this processor (252 NoProcessor)",
        )

    @needs("go")
    def test_go(self):
        module, user = self.path("go"), self.path("user")
        shutil.copytree(TOP / "bindings" / "go", module)
        shutil.copy(LIBRARY / "libagefile.a", module / "libagefile_amd64.a")
        env = {
            **os.environ,
            "GOCACHE": str(built.cache("gocache")),
            "GOPROXY": "off",
            "GOFLAGS": "-buildvcs=false",
        }
        (module / "processor_test.go").write_text(GO_TEST)
        test_go.write_user(user, "../go")
        for words, folder in (
            (["build", "-o", self.path("decrypt-go"), "."], user),
            (["test", "-c", "-o", self.path("tests-go"), "."], module),
        ):
            process.run(["go", *words], cwd=folder, env=env, check=True, capture_output=True)
        self.see_refused("Go", [self.path("decrypt-go"), "pw"], 1, b"(252 NoProcessor)")
        run = self.on(OLD[0], [self.path("tests-go"), "-test.run", "TestOldProcessor"])
        self.see("Go, what writes and what reads a header", run.returncode == 0, run.stdout)
