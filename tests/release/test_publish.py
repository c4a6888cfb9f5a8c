"""Tries what a release is published by: release/publish, with made-up answers in a copy of this checkout, and release/all, whose steps are stubs."""
import os
import re
import zipfile

from tests.case import needs
from tests.release.packing import Packing, run
from tools.version import version

READS = ["*"]
MAIL, ADDRESS = "someone@example.org", "https://example.org/age/kudebafon"
TERMS = "These are the owner's terms.\n"
# What says, until it is published, that it isn't; and what names no host.
OPEN = re.compile(
    r"no\s+license\s+has\s+been\s+chosen|no\s+license\s+yet|hasn't\s+named\s+an\s+address|Until\s+a\s+license\s+is\s+chosen|there\s+is\s+no\s+download"
    r"|its\s+owner's\s+to\s+give|not\s+published\s+yet|none\s+has\s+been\s+chosen|kudebafon\.example/agefile|GONOSUMDB=kudebafon\.example"
)


class PublishTest(Packing):
    """release/publish in a copy, with keys that were made for it."""

    def setUp(self):
        super().setUp()
        for name in ("key", "other"):
            self.assertEqual(
                run(
                    "ssh-keygen",
                    "-q",
                    "-t",
                    "ed25519",
                    "-N",
                    "",
                    "-C",
                    "a comment",
                    "-f",
                    self.path(name),
                ).returncode,
                0,
            )
        self.write("Zlib.txt", TERMS.encode())
        self.write("signers", f"{MAIL} {self.read('key.pub').decode()}".encode())

    def publish(self, *words, key="key", **more):
        """Runs release/publish: how it ended."""
        names = {
            f"GIT_{who}_{what}": held
            for who in ("AUTHOR", "COMMITTER")
            for what, held in (("NAME", "a"), ("EMAIL", "a@b"))
        }
        env = {
            **os.environ,
            **names,
            "PACKAGES": "no",
            "TARGETS": "x86_64-unknown-linux-gnu",
            **({"SIGN_BY": str(self.path(key))} if key else {}),
            **more,
        }
        return run("release/publish", *words, cwd=self.top, env=env)

    def state(self):
        return (
            run("git", "rev-parse", "HEAD", cwd=self.top).stdout,
            run("git", "tag", cwd=self.top).stdout,
            run("git", "status", "--porcelain", cwd=self.top).stdout,
        )

    def answers(self):
        return [self.path("Zlib.txt"), ADDRESS, self.path("signers"), self.path("out")]

    @needs("ssh-keygen")
    def test_answers(self):
        """What is missing is listed, and nothing is written: answers, a key, one that signs."""
        before = self.state()
        license_, address, signers, _ = self.answers()
        for name, words, key, wanted in (
            ("nothing", [], "", ["LICENSE", "ADDRESS", "SIGNERS", "SIGN_BY"]),
            ("a license alone", [license_], "key", ["ADDRESS", "SIGNERS"]),
            ("no key", [license_, address, signers], "", ["SIGN_BY"]),
            ("a key that isn't there", [license_, address, signers], "none", ["SIGN_BY"]),
            ("a key of somebody else", [license_, address, signers], "other", ["SIGN_BY"]),
            ("no such license", ["MIT.txt", address, signers], "key", ["LICENSE"]),
            ("no address", [license_, "example.org", signers], "key", ["ADDRESS"]),
            ("signers without one", [license_, address, license_], "key", ["SIGNERS"]),
        ):
            ended = self.publish(*words, key=key)
            named = re.findall(r"(?m)^release/publish: ([A-Z_]+): ", ended.stdout)
            self.see(
                name,
                ended.returncode == 1
                and named == wanted
                and "nothing was written" in ended.stdout
                and self.state() == before,
                ended.stdout,
            )

    @needs("ssh-keygen")
    def test_publish(self):
        """Each place has the answers, the tag and the sums are signed by who is named, and nothing happens twice; a run that stopped goes on."""
        ended = self.publish(*self.answers())
        self.assertEqual(ended.returncode, 0, ended.stdout)
        left = [
            f"{it.relative_to(self.top)}: {found[0]}"
            for it in sorted(self.top.rglob("*"))
            if it.is_file()
            and it.suffix != ".py"
            and ".git" not in it.parts
            and "out" not in it.parts
            and it.name not in ("publish", "notices", "CHANGELOG.md")
            and (found := OPEN.search(it.read_text(errors="replace")))
        ]
        self.see("nothing says that it isn't published", not left, *left)
        for name, text in (
            ("LICENSE", TERMS),
            ("SIGNERS", f"{MAIL} ssh-ed25519 "),
            ("README.md", "Under the license Zlib"),
            ("README.md", ADDRESS),
            ("SECURITY.md", MAIL),
            ("docs/PACKAGING.md", "The license is Zlib"),
            ("bindings/go/go.mod", "module example.org/age/kudebafon/agefile\n"),
            ("bindings/go/agekeys/go.mod", "module example.org/age/kudebafon/agefile/agekeys\n"),
            ("bindings/rust/agefile/Cargo.toml", '\nlicense = "Zlib"\n'),
            ("bindings/rust/agefile-sys/Cargo.toml", f'\nrepository = "{ADDRESS}"\n'),
            ("debian/copyright", "License: Zlib\n"),
            ("debian/copyright", f"Source: {ADDRESS}\n"),
            ("debian/control", f"<{MAIL}>\nHomepage: {ADDRESS}\n"),
            ("debian/changelog", f"<{MAIL}>"),
            ("CHANGELOG.md", f"## {version()}, 20"),
        ):
            self.see(f"{name}: {text}", text in (self.top / name).read_text())
        [wheel] = self.path("out").glob("*.whl")
        with zipfile.ZipFile(wheel) as held:
            told = held.read(
                next(it for it in held.namelist() if it.endswith("/METADATA"))
            ).decode()
        self.see(
            "the wheel",
            f"\nLicense: Zlib\nProject-URL: Source, {ADDRESS}\n" in told.partition("\n\n")[0],
            told[:600],
        )
        self.see(
            "its sums are signed",
            run(
                "sh",
                "-c",
                f"ssh-keygen -Y verify -f SIGNERS -I {MAIL} -n age_tool-release -s SHA256SUMS.sig <SHA256SUMS",
                cwd=self.path("out"),
            ).returncode
            == 0,
        )
        self.see(
            "its sums are right",
            run("sha256sum", "-c", "SHA256SUMS", cwd=self.path("out")).returncode == 0,
        )
        self.see(
            "the Go modules",
            any(self.path("out/goproxy/example.org/age/kudebafon/agefile/@v").glob("*.zip")),
            *self.path("out").iterdir(),
        )
        commit = run("git", "rev-parse", f"v{version()}^{{commit}}", cwd=self.top).stdout
        [alone] = self.path("out").glob("*-static")
        self.see(
            "it was built of the commit that has the tag",
            f"(of {commit[:10]})" in run(alone, "--version").stdout,
            commit,
        )
        trusts = ["-c", f"gpg.ssh.allowedSignersFile={self.path('signers')}"]
        self.see(
            "the tag is signed",
            run("git", *trusts, "verify-tag", f"v{version()}", cwd=self.top).returncode == 0,
        )
        self.write("signers", f"{MAIL} {self.read('other.pub').decode()}".encode())
        self.see(
            "and by nobody else",
            run("git", *trusts, "verify-tag", f"v{version()}", cwd=self.top).returncode != 0,
        )
        self.write("signers", f"{MAIL} {self.read('key.pub').decode()}".encode())
        after = self.state()
        ended = self.publish(*self.answers())
        self.see(
            "not twice",
            ended.returncode == 1
            and f"v{version()} is published: nothing was written" in ended.stdout
            and self.state() == after,
            ended.stdout,
        )
        self.git("tag", "-d", f"v{version()}")
        ended = self.publish(*self.answers())
        self.see(
            "a run that stopped before the tag goes on",
            ended.returncode == 0 and self.state() == after,
            ended.stdout,
            self.state(),
        )

    @needs("ssh-keygen")
    def test_refused(self):
        """Nothing is written if files aren't as committed, or if a page has no place for an answer any more."""
        with open(self.top / "README.md", "a") as page:
            page.write("more\n")
        ended = self.publish(*self.answers())
        self.see(
            "changed files",
            ended.returncode == 1
            and "aren't as committed" in ended.stdout
            and "README.md" in ended.stdout,
            ended.stdout,
        )
        self.git("checkout", "-q", "README.md")
        page = self.top / "SECURITY.md"
        page.write_text(page.read_text().replace("hasn't named an address", "has no address"))
        self.git("-c", "user.name=a", "-c", "user.email=a@b", "commit", "-qam", "another page")
        before = self.state()
        ended = self.publish(*self.answers())
        self.see(
            "a place is gone",
            ended.returncode == 1
            and "nothing was written" in ended.stdout
            and "SECURITY.md" in ended.stdout
            and self.state() == before,
            ended.stdout,
        )


class AllTest(Packing):
    """release/all, whose steps only say that they ran; one may fail."""

    def setUp(self):
        super().setUp()
        for name in (
            "checks/kit",
            "checks/edits",
            "checks/documents",
            "checks/coverage",
            "checks/mutants",
            "course/exercises",
            "release/interop",
            "release/reproducible",
            "release/without-the-kit",
        ):
            (self.top / name).parent.mkdir(exist_ok=True)
            (self.top / name).write_text(
                f'#!/bin/sh\necho "{name} ran: $* TARGET=$TARGET RELEASE=$RELEASE"\n[ "{name}" != "$FAILS" ]\n'
            )
            (self.top / name).chmod(0o755)
        (self.top / "tests/program").mkdir(parents=True, exist_ok=True)
        for name in ("tests", "tests/program"):
            (self.top / name / "__init__.py").write_text("")
        (self.top / "tests/program/test_agefile_restore.py").write_text(
            "import os, unittest\nclass It(unittest.TestCase):\n    def test_it(self):\n        print('restore ran:', os.environ['AGE_TEST_RESTORE'])\n"
        )
        self.git("add", "-A")
        self.git("-c", "user.name=a", "-c", "user.email=a@b", "commit", "-q", "-m", "stubs")

    def all(self, *words, **more):
        env = {
            **os.environ,
            "PACKAGES": "no",
            "FOLDER": str(self.path("out")),
            "TARGETS": "x86_64-unknown-linux-gnu",
            **more,
        }
        return run("release/all", *words, cwd=self.top, env=env)

    @needs("ssh-keygen")
    def test_all(self):
        """Each step runs, also after one that failed, which is named; the log has commit, kit, steps and sums, and is signed."""
        self.assertEqual(
            run("ssh-keygen", "-q", "-t", "ed25519", "-N", "", "-f", self.path("key")).returncode, 0
        )
        ended = self.all(SIGN_BY=str(self.path("key")), SUITES="bookworm jammy=MIRROR")
        self.see(
            "all pass",
            ended.returncode == 0 and re.search(r"\n\d+ passed, 0 failed\n$", ended.stdout),
            ended.stdout[-2000:],
        )
        log = self.path("out/release.log").read_text()
        commit, kit = (
            run("git", "rev-parse", "HEAD", cwd=self.top).stdout.strip(),
            run("rt", "version").stdout.strip(),
        )
        for text in (
            f"commit {commit}\n",
            f"kit {kit}\n",
            "checks/documents ran: --release ",
            "checks/mutants ran: go ",
            "course/exercises ran: ",
            "checks/kit ran: ",
            "restore ran: 1024,100\n",
            "release/reproducible ran: trixie ",
            f"release/without-the-kit ran: bookworm jammy=MIRROR TARGET=x86_64-unknown-linux-gnu RELEASE={self.path('out')}\n",
        ):
            self.see(f"the log has {text!r}", text in log, log[-3000:])
        self.see("the sums", self.path("out/SHA256SUMS").read_text() in log)
        self.see("it is signed", self.is_there("out/release.log.sig"))
        self.see(
            "it is none of the files",
            "release.log"
            not in self.path("out/SHA256SUMS").read_text()
            + self.path("out/age_tool.spdx.json").read_text(),
        )
        ended = self.all(FAILS="checks/edits")
        self.see(
            "one fails, and the others run",
            ended.returncode == 1
            and "checks/edits: status 1" in ended.stdout
            and ended.stdout.endswith(", 1 failed\n")
            and "release/without-the-kit ran" in self.path("out/release.log").read_text(),
            ended.stdout[-2000:],
        )
        ended = self.all("interop", "edits")
        self.see(
            "those that are named",
            ended.returncode == 0 and ended.stdout.endswith("2 passed, 0 failed\n"),
            ended.stdout,
        )
        ended = self.all("nothing")
        self.see(
            "what there isn't", ended.returncode != 0 and "nothing" in ended.stdout, ended.stdout
        )
        (self.top / "README.md").write_text("changed\n")
        ended = self.all()
        self.see(
            "changed files are refused",
            ended.returncode == 1 and "aren't as committed" in ended.stdout,
            ended.stdout,
        )
