"""Builds and tests the Go modules: in their folder, vendored, over the library that pkg-config finds, as they are packed for a proxy, and, where
Debian's filippo.io/age is installed, what adapts the keys of that; and compares what the program in their README says of files with what
age_tool says."""
import os
import pathlib
import re
import shlex
import shutil
import subprocess
import tempfile
import unittest
import urllib.parse

from tests import built, process
from tests.bindings import setUpModule
from tests.case import needs
from tests.library.test_languages import ModulesCase
from tools.workspace import LIBRARY, TOP, go_module

READS = ["*"]
MODULE = TOP / "bindings" / "go"
# Where Debian's packages have their sources of Go, and what is needed of them: golang-filippo-age-dev and what that uses.
DEBIAN = pathlib.Path("/usr/share/gocode")
OF_AGE = (
    "filippo.io/age/agessh",
    "filippo.io/edwards25519",
    "golang.org/x/crypto/ssh",
    "golang.org/x/sys/cpu",
)
# What the module says of faults, before the number and name.
TEXTS = {
    "1 NotAge": "the file doesn't begin as an age file does",
    "13 WrongKey": "the passphrase or key doesn't open the file",
    "17 ChunkDamaged": "the file is damaged or was cut here, or something was appended",
    "21 Trailing": "something was appended to the file",
    "254 HeaderOrNonceCut": "the file ends in its header or right after it, or isn't an age file",
}


def sample():
    """The program in the README of the module."""
    return (MODULE / "README.md").read_text().split("```go\n")[1].split("```")[0]


def write_user(folder, module):
    """Makes a module that has the program in the README, and takes ours from a folder."""
    folder.mkdir()
    (folder / "main.go").write_text(sample())
    (folder / "go.mod").write_text(
        f"module user\n\ngo 1.19\n\nrequire {go_module()} v0.0.0\n\nreplace {go_module()} => {module}\n"
    )


@needs("go")
class GoTest(ModulesCase):
    """The Go modules. They take nothing from the network."""

    def setUp(self):
        super().setUp()
        self.env = {
            "GOCACHE": str(built.cache("gocache")),
            "GOPROXY": "off",
            "GOFLAGS": "-buildvcs=false",
            "GOTOOLCHAIN": "local",
        }

    def test_module(self):
        """Its own tests, under the race detector; and its program, from a vendored copy."""
        # (Go takes no folder whose name has a space from a go.mod)
        self.path("module").symlink_to(MODULE)
        user = self.path("user")
        write_user(user, "../module")
        commands = [
            ["go", "vet", "./..."],
            "go test -race -vet=off -count=1 .".split(),
            [
                "sh",
                "-c",
                f"cd {shlex.quote(str(user))} && go mod vendor && go build -mod=vendor -o decrypt .",
            ],
        ]
        if shutil.which("gofmt"):
            commands.append(["sh", "-c", 'test -z "$(gofmt -l .)"'])
        else:
            self.leave_out("Go with gofmt", "needs gofmt")
        self.succeed("Go", MODULE, self.env, *commands)
        self.see_example("Go", user / "decrypt", "agefile: ", TEXTS)

    @needs("pkg-config")
    def test_installed_library(self):
        """With -tags agefile_system the library is the one that pkg-config finds."""
        # (Go takes no folder whose name has a space from pkg-config, either)
        found = (LIBRARY / "pkgconfig" / "agefile.pc").read_text()
        plain = tempfile.TemporaryDirectory(prefix="age-go-", dir="/tmp")
        self.addCleanup(plain.cleanup)
        for name, folder in (
            ("library", LIBRARY),
            ("include", TOP / "include"),
            ("private", TOP / "bindings" / "c"),
        ):
            link = pathlib.Path(plain.name, name)
            link.symlink_to(folder)
            found = found.replace(str(folder).replace(" ", "\\ "), str(link))
        self.write("agefile.pc", found.encode())
        module = self.path("module")
        shutil.copytree(MODULE, module, ignore=shutil.ignore_patterns("*.a", "agefile.h"))
        env = {**self.env, "PKG_CONFIG_PATH": str(self.room), "LD_LIBRARY_PATH": str(LIBRARY)}
        self.succeed(
            "Go",
            module,
            env,
            "go test -tags agefile_system -run TestReader|TestWriter|TestFiles .".split(),
        )

    @unittest.skipUnless(
        all((DEBIAN / "src" / it).is_dir() for it in OF_AGE), "needs filippo.io/age"
    )
    def test_keys_of_age(self):
        """The module that adapts the keys of filippo.io/age, over Debian's copy of that. (Its own way to name modules needs no network.)"""
        module = self.path("gopath/src") / go_module()
        shutil.copytree(MODULE, module)
        shutil.copytree(TOP / "bindings" / "tests", module.parent / "tests")
        self.path("gopath/src/tests").mkdir()
        shutil.copy(TOP / "tests" / "cctv.tar.gz", self.path("gopath/src/tests"))
        env = {
            **self.env,
            "GO111MODULE": "off",
            "GOPATH": f"{self.path('gopath')}:{DEBIAN}",
            "GOFLAGS": "",
        }
        self.succeed(
            "Go", module / "agekeys", env, ["go", "vet", "."], "go test -count=1 .".split()
        )

    def test_path(self):
        """The module's path is go.mod's: nothing spells another one."""
        own = go_module()
        spelled = re.compile(r"[\w.]+\.\w+/agefile\b(?!-)")
        for file in [*MODULE.rglob("*.go"), *MODULE.rglob("go.mod"), MODULE / "README.md"]:
            others = {it for it in spelled.findall(file.read_text()) if it != own}
            self.see(f"{file.name} names {own} alone", not others, others)

    def test_fetched(self):
        """`go get` takes the packed module from a folder, in an environment that has no repository and no kit; and its program decrypts."""
        folder, home = self.path("proxy"), self.path("home")
        built.copy_to_pack(self.path("packed"))
        process.run(
            [self.path("packed") / "release" / "go", folder],
            cwd=self.path("packed"),
            check=True,
            stdout=subprocess.DEVNULL,
            env={**os.environ, "SOURCE_DATE_EPOCH": "1800000000"},
        )
        user = self.path("new")
        user.mkdir()
        (user / "main.go").write_text(sample())
        env = {
            "PATH": "/usr/local/go/bin:/usr/bin:/bin",
            "HOME": str(home),
            "GOPROXY": f"file://{urllib.parse.quote(str(folder))}/goproxy",
            "GONOSUMDB": go_module(),
            "GOFLAGS": "-modcacherw",
            "GOTOOLCHAIN": "local",
            "GOCACHE": self.env["GOCACHE"],
        }
        for words in ("go mod init new", f"go get {go_module()}", "go build -o decrypt ."):
            run = process.run(words.split(), cwd=user, env=env, capture_output=True, text=True)
            self.assertEqual(run.returncode, 0, (words, run.stderr))
        self.see_example("the fetched module", user / "decrypt", "agefile: ", TEXTS)
        found = process.run(
            ["go", "list", "-m", "-f", "{{.Dir}}", go_module()],
            cwd=user,
            env=env,
            capture_output=True,
            text=True,
        ).stdout.strip()
        self.see("it is the one of the proxy", found.startswith(str(home)), found)
