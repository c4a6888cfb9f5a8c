"""Tries checks/kit by a kit that only says what a checker would: what it checks and in which order, what its page keeps, and what it does again."""
import os
import shutil

from tests import process
from tests.case import Case
from tools.workspace import TOP

RT = '#!/bin/sh\necho "rattle-kit-$(cat "${0%/*}/number") logic 0123456789abcdef"\n'
# It refuses the crate that the file `refused` names, and a logic that it can't write.
RATTLE = """#!/bin/sh
kit=${0%/bin/rattle}
echo "$PWD" "$@" >>"$kit/calls"
case "$*" in
    *" -o "*) for it; do made=$it; done; mkdir "$made" && echo "logic-built=written modules=3" ;;
    *"--crate-name $(cat "$kit/refused") "*) echo "logic=not-proved"; exit 1 ;;
    *) echo "some lines"; echo "logic=proved functions=1" ;;
esac
"""
# The kit's crates, and what each uses.
CRATES = {"core": "", "io": "core", "std": "core io", "sha2": "std", "unused": "std"}


class KitTest(Case):
    """A copy of the script and of what it reads, beside a kit."""

    def setUp(self):
        super().setUp()
        for name in ("checks", "tools"):
            shutil.copytree(
                TOP / name, self.path(f"top/{name}"), ignore=shutil.ignore_patterns("__pycache__")
            )
        self.path("top/docs").mkdir()
        self.path("top/crates.txt").write_text("ours: sha2\nother: ours\n")
        for name, uses in CRATES.items():
            self.path(f"kit/rlibs/{name}.rlib").mkdir(parents=True)
            self.path(f"kit/rlibs/{name}.rlib/format").write_text(
                "rattle rlib\n" + "".join(f"dep {it}\n" for it in uses.split())
            )
            self.path(f"kit/rattle/{name}").mkdir(parents=True)
        self.path("kit/bin").mkdir()
        for name, text in (("rt", RT), ("rattle", RATTLE)):
            self.write(f"kit/bin/{name}", text.encode(), 0o755)
        self.write("kit/bin/number", b"1")
        self.write("kit/refused", b"none")

    def check(self, *words):
        """Runs the script: how it ended, and which parts of the kit it had checked."""
        self.write("kit/calls", b"")
        env = {
            **os.environ,
            "PATH": f"{self.path('kit/bin')}:{os.environ['PATH']}",
            "TMPDIR": str(self.room),
        }
        ended = process.run(
            [self.path("top/checks/kit"), *words], env=env, capture_output=True, text=True
        )
        calls = self.path("kit/calls").read_text().splitlines()
        return ended, [
            "logic" if " -o " in it else it.split("--crate-name ")[1].split()[0] for it in calls
        ]

    def page(self):
        return self.path("top/docs/kit-check.txt").read_text()

    def test_all(self):
        """It checks the logic and what is used, the lowest first, and nothing of it twice; a refused crate is named, and tried again."""
        self.write("kit/refused", b"io")
        ended, checked = self.check()
        self.see("all that is used", checked == ["logic", "core", "io", "std", "sha2"], checked)
        self.see(
            "a crate was refused",
            ended.returncode == 1 and ended.stdout.endswith("4 passed, 1 failed\n"),
            ended,
        )
        self.see(
            "each over the logic of this run",
            "--logic-built" in self.path("kit/calls").read_text()
            and "/logic_built" in self.path("kit/calls").read_text(),
        )
        self.see(
            "what came of it",
            "kit: rattle-kit-1 logic 0123456789abcdef\n" in self.page()
            and "s: logic-built=written modules=3\n" in self.page()
            and "s: status 1: logic=not-proved\n" in self.page()
            and "s: logic=proved functions=1\n" in self.page(),
            self.page(),
        )
        self.write("kit/refused", b"none")
        ended, checked = self.check()
        self.see(
            "what wasn't proved, over a logic that is checked for it",
            (ended.returncode, checked) == (0, ["logic", "io"]),
            ended,
            checked,
        )
        ended, checked = self.check()
        self.see("nothing is left", (ended.returncode, checked) == (0, []), ended, checked)
        ended, checked = self.check("std")
        self.see(
            "what is named", (ended.returncode, checked) == (0, ["logic", "std"]), ended, checked
        )
        self.write("kit/bin/number", b"2")
        ended, checked = self.check("logic")
        self.see(
            "of another kit all goes",
            checked == ["logic"] and "rattle-kit-2 " in self.page() and "sha2" not in self.page(),
            self.page(),
        )

    def test_words(self):
        """Nothing is checked of what isn't used, or if only the list is asked for."""
        for words, status in ((["unused"], 1), (["--list"], 0), (["--help"], 0)):
            ended, checked = self.check(*words)
            self.see(
                words[0],
                (ended.returncode, checked) == (status, [])
                and not self.is_there("top/docs/kit-check.txt"),
                ended,
                checked,
            )
