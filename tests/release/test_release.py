"""Packs a release of what was built, and looks at what is in it: what is committed and nothing else, versions that rise, notices, and a
module that needs no library of the system."""
import importlib.util
import json
import os
import re
import shutil
import sys
import tarfile
import zipfile

from tests import process
from tests.case import needs
from tests.release.packing import Packing, run
from tools.workspace import LIBRARY, TOP

READS = ["*"]
EARLIER, LATER, DAY = 1_800_000_000, 1_800_000_100, "2027-01-15"
# Who signs.
SIGNER = "maintainers@users.noreply.kudebafon.example"


class ReleaseTest(Packing):
    """What a release holds, what is refused, and what its parts do."""

    def test_what_is_committed(self):
        """Files that git doesn't have stay out; changed ones are refused, or named; an archive without git gives the same bytes."""
        (self.top / "bindings/python/agefile/_draft.py").write_text("")
        (self.top / "docs/DRAFT.md").write_text("")
        made = self.pack("first")
        self.assertEqual(made.returncode, 0, made.stdout)
        [archive] = self.path("first").glob("*-linux.tar.gz")
        with tarfile.open(archive) as tar:
            names = tar.getnames()
        self.see("no draft is in the archive", not [it for it in names if "draft" in it.lower()])
        commit = run("git", "rev-parse", "HEAD", cwd=self.top).stdout[:10]
        [alone] = self.path("first").glob("*-static")
        said = run(alone, "--version").stdout
        self.see("the program names its commit", said == f"age_tool 2.0.0 (of {commit})\n", said)
        self.see("the notices are", f"{names[0]}/share/doc/age_tool/NOTICES" in names, names)
        ends = (
            "linux.tar.gz",
            "source.tar.gz",
            "-objects.tar.gz",
            ".whl",
            "agefile-2.0.0.pyz",
            "agefile-crates-2.0.0.tar.gz",
            "-static",
            "-static.o",
            "age_tool.spdx.json",
            "proof.json",
            "NOTICES",
            "SHA256SUMS",
        )
        self.see(
            "all files of a release",
            sorted(self.held("first"))
            == sorted(it for it in self.held("first") if it.endswith(ends))
            and len(self.held("first")) == len(ends),
            *self.held("first"),
        )
        self.see("its sums aren't signed", "SHA256SUMS.sig" not in self.held("first"))
        self.see(
            "its sums are right",
            run("sha256sum", "-c", "SHA256SUMS", cwd=self.path("first")).returncode == 0,
        )
        with tarfile.open(self.path("first/age_tool-2.0.0-source.tar.gz")) as tar:
            tar.extractall(self.room)
        listed = run("git", "ls-files", cwd=self.top).stdout.split("\n")[:-1]
        held = [
            str(it.relative_to(self.path("age_tool-2.0.0")))
            for it in self.path("age_tool-2.0.0").rglob("*")
            if it.is_file()
        ]
        self.see(
            "the sources are what is committed",
            sorted(held) == sorted(listed),
            set(held) ^ set(listed),
        )
        made = run(
            "release/build",
            self.path("second"),
            cwd=self.path("age_tool-2.0.0"),
            env={**os.environ, "PACKAGES": "no"},
        )
        self.see(
            "of the sources' archive",
            made.returncode == 0 and self.held("first") == self.held("second"),
            made.stdout,
        )
        with open(self.top / "README.md", "a") as readme:
            readme.write("changed\n")
        made = self.pack("third")
        self.see(
            "a changed file is refused",
            made.returncode == 1 and "README.md" in made.stdout and not self.held("third"),
            made.stdout,
        )
        made = self.pack("third", SOURCE_DATE_EPOCH=EARLIER)
        self.see(
            "unless a time is given, and then it is named",
            made.returncode == 0 and "README.md" in made.stdout,
            made.stdout,
        )

    @needs("dh", "dh_python3", "dpkg-deb")
    def test_license(self):
        """A license at the top is in each artifact that has room for it, and what says that none is chosen isn't."""
        (self.top / "LICENSE").write_text("These are the owner's terms.\n")
        self.git("add", "-A")
        self.assertEqual(self.pack("out", SOURCE_DATE_EPOCH=EARLIER, PACKAGES="yes").returncode, 0)
        held = {"NOTICES": self.read("out/NOTICES")}
        for package in self.path("out").glob("*.deb"):
            process.run(["dpkg-deb", "-x", package, self.path("root")], check=True)
        held |= {
            str(it): it.read_bytes() for it in self.path("root").glob("usr/share/doc/*/copyright")
        }
        for archive in self.path("out").glob("*.tar.gz"):
            with tarfile.open(archive) as tar:
                held |= {
                    it: tar.extractfile(it).read()
                    for it in tar.getnames()
                    if it.endswith(("/NOTICES", "2.0.0/LICENSE"))
                }
        with zipfile.ZipFile(next(self.path("out").glob("*.whl"))) as wheel:
            held |= {it: wheel.read(it) for it in wheel.namelist() if it.endswith("/NOTICES")}
        self.see(
            "the archives, the crates, the objects, the wheel and four packages",
            len(held) == 11,
            *held,
        )
        for name, text in held.items():
            self.see(
                name,
                b"These are the owner's terms.\n" in text and b"no license yet" not in text,
                text[:200],
            )

    def test_installed(self):
        """What `release/without-the-kit` does with an archive in a new system, and with the wheel, works below another folder, too."""
        self.assertEqual(self.pack("out").returncode, 0)
        [archive] = self.path("out").glob("*-linux.tar.gz")
        with tarfile.open(archive) as tar:
            tar.extractall(self.room)
        [top], [wheel], [alone] = (
            self.room.glob("age_tool-*-linux"),
            self.path("out").glob("*.whl"),
            self.path("out").glob("*-static"),
        )
        [front] = self.path("out").glob("*.pyz")
        env = {
            **os.environ,
            "PATH": f"{top}/bin:{os.environ['PATH']}",
            "PKG_CONFIG_PATH": f"{top}/lib/pkgconfig",
            "CMAKE_PREFIX_PATH": str(top),
            "LD_LIBRARY_PATH": f"{top}/lib",
            "MANPATH": f"{top}/share/man",
            "WHEEL": str(wheel),
            "STATIC": str(alone),
            "FRONT": str(front),
            "AGEFILE_LIBRARY": "",
        }
        for what, tool in (
            ("program", "age_tool"),
            ("alone", "age_tool"),
            ("front", "agefile"),
            ("front_alone", "python3"),
            ("manual", "man"),
            ("completion", "bash"),
            ("shared", "pkg-config"),
            ("static", "cc"),
            ("by_cmake", "cmake"),
            ("python", "python3"),
            ("wheel", "python3"),
        ):
            if not shutil.which(tool, path=env["PATH"]):
                self.leave_out(what, f"needs {tool}")
            elif what == "wheel" and not importlib.util.find_spec("ensurepip"):
                self.leave_out(what, "needs ensurepip")
            else:
                ended = run(self.top / "release/installed", "2.0.0", top, what, env=env)
                self.see(what, ended.returncode == 0, ended.stdout[-2000:])
        for words in (["1.2.0", top, "program"], ["2.0.0", top, "nothing"]):
            ended = run(self.top / "release/installed", *words, env=env)
            self.see(f"{words[::2]} fails", ended.returncode != 0, ended.stdout)

    def test_failed_pipe(self):
        """A program that fails in the middle of a pipe ends it."""
        self.path("bin").mkdir()
        for name in ("tar", "sed", "gzip"):
            self.write(
                f"bin/{name}",
                f'#!/bin/bash\n/bin/{name} "$@" | head -c 1000\nexit 1\n'.encode(),
                0o755,
            )
            made = self.pack(name, PATH=f"{self.path('bin')}:{os.environ['PATH']}")
            self.see(
                f"{name} fails",
                made.returncode != 0 and "SHA256SUMS" not in self.held(name),
                made.stdout,
            )
            self.remove(f"bin/{name}")

    @needs("dh", "dh_python3", "dpkg-deb")
    def test_packages(self):
        """A package that is unpacked over an earlier one is what Python runs, also where the module's files are as long as they were. Its
        version is a later one, and an earlier run's packages go."""
        place, packages = self.path("root/usr/lib/python3/dist-packages"), []
        program = (
            "import importlib as it, importlib.metadata, agefile._writer as module; held = it.metadata.distribution('agefile'); "
            "print(module.GATHERED, held.version, held.read_text('INSTALLER'), it.import_module('agefile').__build__)"
        )
        env = {
            **os.environ,
            "PYTHONPATH": str(place),
            "AGEFILE_LIBRARY": str(LIBRARY / "libagefile.so"),
            "PYTHONDONTWRITEBYTECODE": "",
        }
        writer = self.top / "bindings/python/agefile/_writer.py"
        # (changed sources are of no commit, but of a day)
        for epoch, number, build in (
            (EARLIER, "16_384", run("git", "rev-parse", "HEAD", cwd=self.top).stdout[:10]),
            (LATER, "16_383", DAY),
        ):
            writer.write_text(
                writer.read_text().replace("GATHERED = 16_384", f"GATHERED = {number}")
            )
            self.assertEqual(
                self.pack("out", SOURCE_DATE_EPOCH=epoch, PACKAGES="yes").returncode, 0
            )
            [package] = self.path("out").glob("python3-agefile_*.deb")
            packages.append(package.name.split("_")[1])
            process.run(["dpkg-deb", "-x", package, self.path("root")], check=True)
            ended = run(sys.executable, "-c", program, env=env)
            self.see(
                f"the module with {number}",
                ended.stdout.split()
                == [number.replace("_", ""), "2.0.0", "debian", "(of", f"{build})"],
                ended.stdout,
            )
        self.see(
            "the version rises",
            run("dpkg", "--compare-versions", packages[0], "lt", packages[1]).returncode == 0,
            packages,
        )
        for it in ("1.2.0-1", "1.2.0-202611292214"):
            self.see(
                f"from {it} too",
                run("dpkg", "--compare-versions", it, "lt", packages[0]).returncode == 0,
                packages,
            )
        self.see(
            "a distribution's own is later",
            run("dpkg", "--compare-versions", packages[1], "lt", "2.0.0-1").returncode == 0,
            packages,
        )
        for name, needs_library, is_for in (
            ("python3-agefile", ">=", "no"),
            ("libagefile-dev", "=", "same"),
            ("libagefile2", None, "same"),
            ("age-tool", None, "foreign"),
        ):
            [package] = self.path("out").glob(f"{name}_*.deb")
            told = run("dpkg-deb", "--field", package, "Depends", "Multi-Arch").stdout
            self.see(
                f"{name}: which library it takes",
                (needs_library is None) == ("libagefile2" not in told)
                and (needs_library is None or f"libagefile2 ({needs_library} 2.0.0-" in told)
                and ("" if is_for == "no" else f"Multi-Arch: {is_for}\n") in told,
                told,
            )
        [library_] = self.path("out").glob("libagefile2_*.deb")
        own = run("dpkg-deb", "--field", library_, "Version").stdout.strip()
        asked = {
            it
            for name in ("shlibs", "symbols")
            for it in re.findall(
                r" \(?(?:>= )?(\d[\w.~]*)\)?$", run("dpkg-deb", "-I", library_, name).stdout, re.M
            )
        }
        self.see(
            "what needs the library takes this one",
            asked
            and all(
                run("dpkg", "--compare-versions", own, "ge", it).returncode == 0 for it in asked
            ),
            own,
            asked,
        )
        self.see("the module was compiled", any((place / "agefile" / "__pycache__").iterdir()))
        documents = self.path("root/usr/share/doc/python3-agefile")
        self.see(
            "what the module names is there",
            all(
                (documents / it).exists()
                for it in (
                    "copyright",
                    "bindings/README.md",
                    "bindings/python/README.md",
                    "docs/FAULTS.md",
                )
            ),
        )
        if shutil.which("lintian"):
            for package in sorted(self.path("out").glob("*.deb")):
                ended = run("lintian", "--no-cfg", "--profile", "debian", package)
                found = [it for it in ended.stdout.splitlines() if it[:3] in ("E: ", "W: ")]
                self.see(f"lintian, {package.name}", not found, *found)

    def test_wheel(self):
        """Its version is one that an index takes, and its build tag rises. Its library has a soname of its own, and its text is true of it."""
        if not importlib.util.find_spec("ensurepip"):
            return self.leave_out("the wheel", "needs ensurepip")
        self.assertEqual(run(sys.executable, "-m", "venv", self.path("venv")).returncode, 0)
        pip, tags = [self.path("venv/bin/python"), "-m", "pip", "--disable-pip-version-check"], []
        for epoch in (EARLIER, LATER):
            self.assertEqual(self.pack("out", SOURCE_DATE_EPOCH=epoch).returncode, 0)
            [wheel] = self.path("out").glob("*.whl")
            ended = run(*pip, "install", "--no-index", "--force-reinstall", wheel)
            self.see(
                f"pip installs the one of {epoch}",
                "Successfully installed" in ended.stdout,
                ended.stdout,
            )
            self.see("its version", "Version: 2.0.0\n" in run(*pip, "show", "agefile").stdout)
            tags.append(wheel.name.split("-")[2])
        self.see("the build tag rises", tags == sorted(set(tags)) and len(tags) == 2, tags)
        [info] = self.path("venv").glob("lib/python3*/site-packages/agefile-*.dist-info")
        self.see("notices are inside", (info / "NOTICES").exists())
        self.see(
            "the build is in its metadata", f"Build: {tags[1]}\n" in (info / "WHEEL").read_text()
        )
        text = (info / "METADATA").read_text()
        self.see(
            "its text is the wheel's",
            "The library is inside" in text
            and "agefile[keys]" in text
            and "bindings/build" not in text,
            text,
        )
        inside = info.parent / "agefile/libagefile.so"
        self.see(
            "a soname of its own",
            b"libagefile.so.2" not in inside.read_bytes()
            and b"libagefile-python.so" in inside.read_bytes(),
        )
        self.see(
            "what it claims",
            "over a proved C library; this module is tested, not proved" in text,
            text[:500],
        )
        words = "import agefile; print(agefile.decrypt(agefile.encrypt(b'text', passphrase='pw', work=1), passphrase='pw'), agefile._library.C._name)"
        ended = run(
            self.path("venv/bin/python"),
            "-c",
            words,
            env={**os.environ, "AGEFILE_LIBRARY": ""},
            cwd=self.room,
        )
        self.see(
            "the module works by it", ended.stdout.split() == ["b'text'", str(inside)], ended.stdout
        )

    def installed(self, root):
        """What stands below a root, folders too."""
        return sorted(str(it.relative_to(root)) for it in root.rglob("*"))

    def unpacked(self, folder, epoch):
        """A release, unpacked: its install script."""
        self.assertEqual(self.pack(folder, SOURCE_DATE_EPOCH=epoch).returncode, 0)
        [archive] = self.path(folder).glob("*-linux.tar.gz")
        with tarfile.open(archive) as tar:
            tar.extractall(self.path(folder))
        return next(self.path(folder).glob("*-linux/share/age_tool/install"))

    def test_install(self):
        """A release is installed below a root, upgraded and removed: files that it hasn't brought stay, and folders that were there."""
        root, gone = self.path("a root"), self.top / "bindings/python/agefile/_gone.py"
        gone.write_text("")
        self.git("add", "-A")
        first = self.unpacked("one", EARLIER)
        gone.unlink()
        self.git("add", "-A")
        later = self.unpacked("two", LATER)
        env = {**os.environ, "DESTDIR": str(root), "PREFIX": "/opt/age"}
        place = root / "opt/age"
        (place / "share/man").mkdir(parents=True)
        (place / "share/man/mine").write_text("mine")
        umask = ["sh", "-c", 'umask 077; exec "$@"', ""]
        ended = run(*umask, first, env=env)
        whole = {str(it.relative_to(first.parents[2])) for it in first.parents[2].rglob("*")} | {
            "share/man/mine",
            "share/age_tool/LIST",
        }
        self.see(
            "installed", ended.returncode == 0 and {*self.installed(place)} == whole, ended.stdout
        )
        self.see(
            "for all to read",
            (place / "bin/age_tool").stat().st_mode & 0o777 == 0o755
            and (place / "include").stat().st_mode & 0o777 == 0o755,
        )
        (place / "share/age_tool/go/mine.go").write_text("mine")
        ended = run(later, env=env)
        kept = self.installed(place)
        self.see(
            "upgraded",
            ended.returncode == 0
            and "share/age_tool/agefile/_gone.py" not in kept
            and "share/age_tool/go/mine.go" in kept,
            ended.stdout,
        )
        self.see(
            "the later one",
            (place / "bin/age_tool").stat().st_mtime == LATER,
            (place / "bin/age_tool").stat().st_mtime,
        )
        ended = run(place / "share/age_tool/install", env=env)
        self.see(
            "it is installed already",
            ended.returncode == 2 and self.installed(place) == kept,
            ended.stdout,
        )
        ended = run(place / "share/age_tool/install", env={**env, "PREFIX": "/opt/other"})
        self.see(
            "an installed one installs nothing elsewhere",
            ended.returncode == 1 and not (root / "opt/other").exists(),
            ended.stdout,
        )
        ended = run(place / "share/age_tool/install", "--remove", env=env)
        left = [
            "share",
            "share/age_tool",
            "share/age_tool/go",
            "share/age_tool/go/mine.go",
            "share/man",
            "share/man/mine",
        ]
        self.see(
            "removed",
            ended.returncode == 0 and self.installed(place) == left,
            ended.stdout,
            *self.installed(place),
        )
        ended = run(first, "--remove", env=env)
        self.see(
            "nothing is installed",
            ended.returncode == 1 and self.installed(place) == left,
            ended.stdout,
        )
        limited, elsewhere = ["sh", "-c", 'ulimit -f 40; exec "$@"', ""], self.path(
            "another root/opt/age"
        )
        ended = run(*limited, first, env={**env, "DESTDIR": str(self.path("another root"))})
        begun = self.installed(elsewhere)
        half = [it for it in begun if it.endswith(".new")]
        self.see(
            "one that fails",
            ended.returncode == 1 and "share/age_tool/LIST" in begun and not half,
            ended.stdout,
            half,
        )
        ended = run(first, "--remove", env={**env, "DESTDIR": str(self.path("another root"))})
        self.see(
            "it is removed, too",
            ended.returncode == 0 and not self.installed(elsewhere),
            ended.stdout,
            *self.installed(elsewhere),
        )
        for words, status in ((["--help"], 0), (["--delete"], 2)):
            ended = run(first, *words, env=env)
            self.see(
                words[0],
                ended.returncode == status
                and "usage: " in ended.stdout
                and self.installed(place) == left,
                ended.stdout,
            )
        if not os.geteuid():
            self.path("closed").mkdir(mode=0o755)
            os.chmod(self.room, 0o711)
            ended = run(
                "setpriv",
                "--reuid=65534",
                "--regid=65534",
                "--clear-groups",
                first,
                env={**env, "DESTDIR": str(self.path("closed"))},
            )
            self.see(
                "a folder without permission",
                ended.returncode == 1 and not self.installed(self.path("closed")),
                ended.stdout,
            )

    @needs("ssh-keygen")
    def test_signature(self):
        """Sums are signed if a key is named; altered ones, and another's signature, are refused. What the release is made of is listed."""
        for name in ("key", "other"):
            self.assertEqual(
                run(
                    "ssh-keygen", "-q", "-t", "ed25519", "-N", "", "-f", self.path(name)
                ).returncode,
                0,
            )
        self.assertEqual(self.pack("out", SIGN_BY=self.path("key")).returncode, 0)
        sums, sign = self.path("out/SHA256SUMS"), self.path("out/SHA256SUMS.sig")
        self.write("out/signers", f"{SIGNER} {self.read('key.pub').decode()}".encode())
        [words] = re.findall(
            r"`(ssh-keygen -Y verify [^`]*)`", " ".join((TOP / "SECURITY.md").read_text().split())
        )

        def is_signed():
            return (
                run("sh", "-c", words.replace("NAME", SIGNER), cwd=self.path("out")).returncode == 0
            )

        self.see("signed", is_signed())
        listed = json.loads(self.read("out/age_tool.spdx.json"))
        files = {it["fileName"][2:]: it["checksums"][1]["checksumValue"] for it in listed["files"]}
        named = dict(reversed(line.split("  ")) for line in sums.read_text().splitlines())
        self.see(
            "each file is listed with its sum",
            files == {it: named[it] for it in named if it != "age_tool.spdx.json"},
            files,
            named,
        )
        packages = {it["name"] for it in listed["packages"]}
        kit = run("rt", "version").stdout.split()[0]
        self.see(
            "what it is made of",
            {
                "age_tool",
                kit,
                "glibc",
                "core",
                "std",
                "std_io",
                "std_alloc",
                "clap",
                "strsim",
                "sha2",
                "rand_chacha",
            }
            <= packages,
            packages,
        )
        sums.write_text(sums.read_text().replace("a", "b", 1))
        self.see("altered", not is_signed())
        sign.unlink()
        self.see("unsigned is refused", not is_signed())
        self.assertEqual(
            run(
                "ssh-keygen",
                "-Y",
                "sign",
                "-q",
                "-f",
                self.path("other"),
                "-n",
                "age_tool-release",
                sums,
            ).returncode,
            0,
        )
        self.see("by another key", sign.exists() and not is_signed())

    @needs("cargo")
    def test_rust(self):
        """The packed crates have the library inside, of each processor for which one build was packed: cargo builds and runs the first
        program of their page by a vendored folder alone, and by a path into it."""
        self.assertEqual(self.pack("out").returncode, 0)
        [archive] = self.path("out").glob("agefile-crates-2.0.0.tar.gz")
        with tarfile.open(archive) as tar:
            tar.extractall(self.path("user"))
        (self.path("user") / "src").mkdir()
        page = self.path("user/vendor/agefile/README.md").read_text()
        self.write("user/src/main.rs", page.split("```rust\n")[1].split("\n```")[0].encode())
        shutil.copy(
            TOP / "bindings" / "tests" / "age" / "passphrase.age", self.path("user/notes.age")
        )
        whole = b'[source.crates-io]\nreplace-with = "vendor"\n\n[source.vendor]\ndirectory = "vendor"\n'
        for name, config, depends in (
            ("a vendored folder", whole, '"2"'),
            ("a path", b"", '{ path = "vendor/agefile" }'),
        ):
            self.path("user/.cargo").mkdir(exist_ok=True)
            self.write("user/.cargo/config.toml", config)
            self.write(
                "user/Cargo.toml",
                f'[package]\nname = "user"\nversion = "0.0.0"\nedition = "2021"\n\n[dependencies]\nagefile = {depends}\n'.encode(),
            )
            self.remove("user/Cargo.lock")
            ended = run(
                "cargo", "run", "--offline", "--quiet", cwd=self.path("user"), env=self.alone()
            )
            self.see(
                f"the first program, by {name}",
                ended.returncode == 0 and ended.stdout == "hello, passphrase\nrase\n",
                ended.stdout[-2000:],
            )

    def alone(self):
        """What cargo and a linker need, and nothing of this repository or the kit."""
        system = run("rustc", "--print", "sysroot").stdout.strip()
        return {
            "PATH": f"{system}/bin:/usr/bin:/bin",
            "HOME": str(self.path("home")),
            "CARGO_HOME": str(self.path("home")),
        }

    def test_crates(self):
        """What was packed of the same build for another processor stays, and of another build it goes."""
        (self.path("share/age_tool") / "rust" / "agefile").mkdir(parents=True)
        (self.path("share/age_tool") / "rust" / "agefile-sys").mkdir()
        (self.path("share/doc") / "age_tool").mkdir(parents=True)
        for name in ("share/age_tool/rust/README.md", "share/doc/age_tool/NOTICES", "library"):
            self.write(name, name.encode())
        for number, (target, build, held) in enumerate(
            (
                ("x86_64", "one", {"x86_64"}),
                ("aarch64", "one", {"x86_64", "aarch64"}),
                ("aarch64", "two", {"aarch64"}),
            )
        ):
            words = [
                "release/crates",
                self.room,
                self.path("library"),
                self.path(f"made{number}"),
                self.path("earlier"),
                build,
            ]
            ended = run(
                *words, cwd=self.top, env={**os.environ, "TARGET": f"{target}-unknown-linux-gnu"}
            )
            made = {
                it.parent.name
                for it in self.path(f"made{number}").glob("vendor/agefile-sys/lib/*/libagefile.a")
            }
            self.see(
                f"{target} of build {build}",
                (ended.returncode, made) == (0, held),
                ended.stdout,
                made,
            )
            run("tar", "-czf", self.path("earlier"), "-C", self.path(f"made{number}"), "vendor")

    def test_help(self):
        """Each script says what it does, and does nothing else."""
        scripts = [
            it
            for folder in (".", "bench", "bindings", "checks", "release")
            for it in (TOP / folder).iterdir()
            if it.is_file() and os.access(it, os.X_OK)
        ]
        for script in sorted(scripts):
            ended = run(script, "--help", cwd=self.room)
            self.see(
                script.relative_to(TOP),
                ended.returncode == 0
                and "usage: " in ended.stdout.lower()
                and script.name in ended.stdout
                and "set -" not in ended.stdout,
                ended.stdout,
            )
