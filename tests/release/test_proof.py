"""Tries what a release says of its proofs: `agefile proof`, which reads a promise aloud and knows the program that was proved, and release/compare,
which names what got weaker between two of them. Nothing is built: the program is a stub, and the sources are read."""
import copy
import hashlib
import json
import re
import shutil
import subprocess
import sys
import types
import unittest.mock
import zipfile

from tests import process
from tests.case import Case
from tests.program.agefile import MODULE
from tools import axioms, proof, version
from tools.promises import promises
from tools.workspace import TOP

READS = ["bindings/c/*.md"]
BUILD = "0123456789"
STUB = f"#!/bin/sh\necho 'age_tool {version.version()} (of {BUILD})'\n"


def run(*words, **more):
    return process.run(words, stdout=subprocess.PIPE, stderr=subprocess.PIPE, text=True, **more)


def sources():
    """What the sources say, as a release has it."""
    return {
        "version": version.version(),
        "build": BUILD,
        "kit": "a-kit",
        "logic": "a-logic",
        "files": {},
        "linked": {},
    } | json.loads(json.dumps(proof.proof()))


class ReadTest(Case):
    """`agefile proof`, beside a stub of age_tool and what the sources say."""

    def setUp(self):
        super().setUp()
        self.held = sources()
        self.held["trusted"]["functions_of_c"] = {"age_tool": ["libc::close"], "age_c": []}
        self.held["files"] = {"x86_64": {"bin/age_tool": hashlib.sha256(STUB.encode()).hexdigest()}}

    def install(self, name, place="share/agefile/proof.json"):
        """A release in a folder: its agefile."""
        module = self.path(f"{name}/share/age_tool/agefile")
        shutil.copytree(MODULE, module, ignore=shutil.ignore_patterns("__pycache__", "age_tool"))
        runs = module / "program/run_age_tool.py"
        runs.write_text(runs.read_text().replace("(not a release)", f"(of {BUILD})"))
        self.path(f"{name}/bin").mkdir()
        self.write(f"{name}/bin/age_tool", STUB.encode(), 0o755)
        (module / "program/age_tool").symlink_to("../../../../bin/age_tool")
        self.path(f"{name}/{place}").parent.mkdir(exist_ok=True)
        self.keep(f"{name}/{place}")
        return module / "program/__main__.py"

    def keep(self, name, **other):
        self.write(name, json.dumps(self.held | other).encode())

    def read(self, agefile, *words):
        return run(sys.executable, "-B", agefile, "proof", *words, cwd=self.room)

    def test_status_0(self):
        """A promise is read aloud: its definition, those that this cites, what is trusted, and that the program is the one that was proved."""
        agefile = self.install("release")
        for words in (
            ["status-0"],
            ["status", "0"],
            ["status 0: OUT is complete, and on the disk"],
        ):
            ended = self.read(agefile, *words)
            self.see(
                f"proof {words}",
                ended.returncode == 0
                and ended.stdout.startswith("status 0: OUT is complete, and on the disk\n"),
                ended,
            )
        said = " ".join(ended.stdout.split())
        row = next(it for it in self.held["promises"] if it["name"].startswith("status-0"))
        named = [row["definition"], *row["cites"]]
        texts = [it["says"] for it in map(self.held["definitions"].get, named) if "says" in it]
        self.see(
            "each definition in words", len(texts) > 3 and all(it in said for it in texts), said
        )
        for what in (
            row["function"],
            row["sum"],
            row["sources"],
            f"{len(row['definitions'])} definitions",
            "a-kit, logic a-logic",
            "libc::close",
            "Disk.antt",
            "clap",
            *row["edits"],
        ):
            self.see(f"it names {what}", what in said, said)
        self.see(
            "the program's sum",
            f"has the sum that this proof names: {self.held['files']['x86_64']['bin/age_tool']} (bin/age_tool, for x86_64)."
            in said,
            said,
        )

    def test_all(self):
        """Without words all are listed. One that is unknown, and words with which several begin, are refused."""
        agefile = self.install("release")
        ended = self.read(agefile)
        listed = " ".join(ended.stdout.split())
        self.see(
            "all",
            ended.returncode == 0 and all(it["promise"] in listed for it in self.held["promises"]),
            ended,
        )
        for words, said in (
            (["status-9"], "no promise begins with status-9: agefile proof lists them\n"),
            (["a", "header"], "several promises begin with a header\n  a header is"),
        ):
            ended = self.read(agefile, *words)
            self.see(
                f"{words} is refused",
                ended.returncode == 2
                and ended.stderr.startswith(f"agefile: {said}")
                and not ended.stdout,
                ended,
            )
        for promise in self.held["promises"]:
            ended = self.read(agefile, promise["name"])
            self.see(
                promise["name"],
                ended.returncode == 0 and ended.stdout.startswith(f"{promise['promise']}\n"),
                ended,
            )

    def test_other_program(self):
        """A program that isn't the one that was proved, and what is said of another build, are named; so is a file that is gone or damaged."""
        agefile = self.install("release")
        self.write("release/bin/age_tool", (STUB + "#").encode(), 0o755)
        ended = self.read(agefile, "status-0")
        self.see(
            "a changed program",
            ended.returncode == 1
            and re.fullmatch(
                r"agefile: .*/bin/age_tool isn't a program of this proof: its sum is [0-9a-f]{64}\n",
                ended.stderr,
            ),
            ended,
        )
        self.keep(
            "release/share/agefile/proof.json",
            linked={"age_tool": hashlib.sha256((STUB + "#").encode()).hexdigest()},
        )
        ended = self.read(agefile)
        self.see(
            "one that was linked here",
            ended.returncode == 0
            and "linked of the proved object" in " ".join(ended.stdout.split()),
            ended,
        )
        self.keep("release/share/agefile/proof.json", build="9876543210")
        ended = self.read(agefile, "status-0")
        self.see(
            "another build",
            ended.returncode == 1
            and ended.stderr
            == f"agefile: proof.json is of build 9876543210, and this program (of {BUILD}): install both of one release\n",
            ended,
        )
        self.write("release/share/agefile/proof.json", b"{")
        ended = self.read(agefile)
        self.see(
            "damaged",
            ended.returncode == 1
            and ended.stderr.endswith("proof.json is damaged: install the release again\n"),
            ended,
        )
        self.remove("release/share/agefile/proof.json")
        ended = self.read(agefile)
        self.see("gone", ended.returncode == 1 and "agefile: there is no " in ended.stderr, ended)

    def test_places(self):
        """It stands beside the program, as in a wheel, or in an archive that Python runs."""
        agefile = self.install("wheel", "share/age_tool/agefile/program/proof.json")
        self.see("a wheel", self.read(agefile, "status-0").returncode == 0)
        self.write("age_tool", STUB.encode(), 0o755)
        with zipfile.ZipFile(self.path("agefile.pyz"), "w") as archive:
            for it in (*agefile.parent.glob("*.py"), agefile.parent / "proof.json"):
                archive.write(it, it.name)
        ended = self.read(self.path("agefile.pyz"), "status-0")
        self.see("an archive", ended.returncode == 0, ended)


# What the checker says of the C functions that a crate's libraries declare.
SAID = """fn x: proved
axioms libc: 2 reached of the 3 declared
  libc::close   reached
  libc::open
  libc::heap::rattle_alloc   reached
axioms std: none reached of the 1 declared
  std::process::c::abort
logic=proved functions=1 axioms=2
"""


class AxiomsTest(Case):
    """tools.axioms, by a checker that only says what one would."""

    def functions(self, said):
        """The functions that a crate assumes, and how often the checker was asked."""
        held = self.path("kept")
        patched = unittest.mock.patch.multiple(
            axioms,
            sum_of_sources=lambda crate: "sum",
            kept=lambda kind, name: [held] if held.exists() else [],
            keep=lambda kind, name, write: write(held),
        )
        answer = {"side_effect": said} if isinstance(said, Exception) else {"return_value": said}
        with patched, unittest.mock.patch.object(
            axioms, "asked", unittest.mock.Mock(**answer)
        ) as asked:
            return axioms.functions_of("a_crate"), asked.call_count

    def test_functions(self):
        """Those that are reached, once asked and then kept; nothing is said of a crate that isn't proved."""
        wanted = ["libc::close", "libc::heap::rattle_alloc"]
        self.see("asked", self.functions(SAID) == (wanted, 1))
        self.see("kept", self.functions(SAID) == (wanted, 0))
        self.path("kept").unlink()
        with self.assertRaises(axioms.Unproved):
            self.functions(axioms.Unproved("a_crate isn't proved"))
        self.see("nothing is kept of that", not self.path("kept").exists())
        self.see("the program and the library", len(axioms.roots()) == 2, axioms.roots())


class CompareTest(Case):
    """release/compare, of what the sources say and of what it would be if they were changed."""

    def compare(self, old, new):
        self.write("old.json", json.dumps(old).encode())
        self.write("new.json", json.dumps(new).encode())
        return run(TOP / "release/compare", self.path("old.json"), self.path("new.json"))

    def names(self, name, old, new, status, *said):
        """Counts whether the comparison ends so and says these lines."""
        ended = self.compare(old, new)
        lines = ended.stdout.splitlines()
        self.see(
            name,
            ended.returncode == status
            and all(any(re.search(it, line) for line in lines) for it in said),
            ended.stdout[-3000:],
            ended.stderr,
        )
        return lines

    def test_made_up(self):
        """A promise that went or was reworded, a clause, a part, a premise and an edit; of the same nothing is said."""
        held = sources()
        lines = self.names("the same", held, held, 0, "^50 promises before|promises before")
        self.see("nothing else is said", len(lines) == 1, *lines)

        def changed(change):
            new = copy.deepcopy(held)
            change(
                new,
                next(it for it in new["promises"] if it["promise"].startswith("what a run leaves")),
            )
            return new

        whole = next(it for it in held["promises"] if it["promise"].startswith("what a run leaves"))
        root, words = whole["definition"], re.escape(whole["promise"])
        part = [*held["definitions"][root]["parts"]][0]
        for name, change, status, said in (
            ("gone", lambda new, it: new["promises"].remove(it), 1, f"^went: {words}$"),
            (
                "reworded",
                lambda new, it: it.update(promise="in other words"),
                0,
                f"^reworded: {words}: now in other words$",
            ),
            (
                "moved",
                lambda new, it: it.update(function="elsewhere::run_words"),
                0,
                f"^moved: {words}: from .* to .* elsewhere::run_words$",
            ),
            (
                "a clause went",
                lambda new, it: it["clauses"].remove(it["clause"]),
                1,
                f"^weaker: {words}: .* has no clause {whole['clause']} any more$",
            ),
            (
                "a premise",
                lambda new, it: it["requires"].update(more="x ≡ 1"),
                1,
                f"^weaker: {words}: .* asks for more: more: x ≡ 1$",
            ),
            (
                "another premise",
                lambda new, it: it["requires"].update({[*it["requires"]][0]: "x ≡ 1"}),
                1,
                f"^weaker: {words}: .* asks for something else: ",
            ),
            (
                "it leads elsewhere",
                lambda new, it: it.update(leads=False),
                1,
                f"^weaker: {words}: the clause of .* doesn't lead to {re.escape(root)} any more$",
            ),
            (
                "a part",
                lambda new, it: new["definitions"][root]["parts"].pop(part),
                1,
                f"^weaker: {words}: {re.escape(root)} has no part {part} any more$",
            ),
            (
                "an edit",
                lambda new, it: it["edits"].clear(),
                1,
                f"^weaker: {words}: the edit {whole['edits'][0]} isn't tried any more$",
            ),
            (
                "an edit of the core",
                lambda new, it: new["edits"].clear(),
                0,
                f"^not refused: {re.escape(whole['edits'][0])}, an edit of the core$",
            ),
            (
                "a definition",
                lambda new, it: new["definitions"][root].update(sum="0"),
                0,
                rf"^changed: {re.escape(root)} \(\d+ promises rest on it\)$",
            ),
            (
                "more is trusted",
                lambda new, it: new["trusted"]["libraries"].append("regex"),
                0,
                "^trusted: the kit's library regex$",
            ),
            (
                "a promise more",
                lambda new, it: new["promises"].append(
                    {**it, "promise": "more", "clause": "other"}
                ),
                0,
                "^new: more$",
            ),
        ):
            self.names(name, held, changed(change), status, said)

    def test_sources(self):
        """A copy of the sources in which a clause is taken out, a definition is weakened and a function moved."""
        self.path("top").mkdir()
        for name in ("crates", "tools", "checks", "bindings/c", "release"):
            shutil.copytree(
                TOP / name,
                self.path(f"top/{name}"),
                ignore=shutil.ignore_patterns("out", "__pycache__", "edits"),
            )
        shutil.copy(TOP / "crates.txt", self.path("top"))
        held = sources()

        def said_by(change):
            whole = {it: it.read_bytes() for it in self.path("top").rglob("*") if it.is_file()}
            change()
            read = run(sys.executable, "-B", "-m", "tools.proof", cwd=self.path("top"), check=True)
            for it in (
                it for it in self.path("top").rglob("*") if it.is_file() and it not in whole
            ):
                it.unlink()
            for it, bytes_ in whole.items():
                if not it.exists() or it.read_bytes() != bytes_:
                    it.write_bytes(bytes_)
            return held | json.loads(read.stdout)

        def replace(file, old, new):
            text = file.read_text()
            assert text.count(old) >= 1, (file, old)
            file.write_text(text.replace(old, new, 1))

        run_words = next(it for it in promises() if it.promise.startswith("what a run leaves"))
        at = self.path("top") / proof.file_of(run_words).path.relative_to(TOP)
        clause = next(
            it
            for it in next(it for it in held["promises"] if it["promise"] == run_words.promise)[
                "clauses"
            ]
            if it != run_words.clause
        )
        head, own, rest = at.read_text().partition(f"pub fn {run_words.name}<")
        less = re.sub(rf"(?m)^ *ensures {clause} \{{.*\}}\n", "", rest, count=1)
        self.names(
            "a clause",
            held,
            said_by(lambda: at.write_text(head + own + less)),
            1,
            f"^weaker: what a run leaves .* has no clause {clause} any more$",
        )
        cited = next(it for it in held["promises"] if it["name"].startswith("status-0"))["cites"]
        key = next(it for it in cited if len(held["definitions"][it].get("parts", ())) > 1)
        part = [*held["definitions"][key]["parts"]][0]
        crate, _, chapter = key.partition(".")[0].partition(" ")
        spec = self.path(f"top/crates/{crate}/specs/{chapter}.antt")
        begin, own, rest = spec.read_text().partition(f"record {key.rpartition('.')[2]} ")
        less = re.sub(rf"(?m)^  pub {part} : .*\n(?: {{4}}.*\n)*", "", rest, count=1)
        self.names(
            "a part of a definition below",
            held,
            said_by(lambda: spec.write_text(begin + own + less)),
            0,
            rf"^changed: {key}: -{part} \(\d+ promises? rests? on it\)$",
        )
        inspection = next(it for it in promises() if it.promise == "a report is of what was read")
        source = self.path("top") / proof.file_of(inspection).path.relative_to(TOP)

        def move():
            source.rename(source.with_name("elsewhere.rt"))
            replace(
                self.path("top/checks/promises"),
                f"{inspection.crate} {inspection.module}::{inspection.name}",
                f"{inspection.crate} elsewhere::{inspection.name}",
            )

        self.names(
            "a function",
            held,
            said_by(move),
            0,
            f"^moved: a report is of what was read: from .* to {inspection.crate} elsewhere::{inspection.name}$",
            " 0 definitions changed or gone, 1 moved",
        )

    def test_words(self):
        """What is neither a file nor a commit is refused."""
        ended = run(TOP / "release/compare", "no-such-commit", "HEAD")
        self.see(
            "no commit",
            ended.returncode == 1
            and "no-such-commit is neither a file nor a commit" in ended.stderr,
            ended,
        )
        ended = run(TOP / "release/compare", "HEAD")
        self.see("one word", ended.returncode == 1 and "usage: " in ended.stderr, ended)
