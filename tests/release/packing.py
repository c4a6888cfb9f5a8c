"""What the tests of a release have in common: a copy of this checkout with a commit, in which release/build packs what was built."""
import os
import shlex
import subprocess

from tests import built, process
from tests.case import Case
from tools.workspace import PROGRAM


def stubs():
    """In the place of what builds, proves and asks the checker: the program and its object, which were built, and an answer."""
    made = shlex.quote(str(built.proved_object()))
    return {
        "release/static": f"""#!/bin/sh
for it in "$1" "$2" "$2.o"; do cp {shlex.quote(str(PROGRAM))} "$it"; done
cp {made} "$3" && chmod u+w "$3"
""",
        "tools/axioms.py": 'print(\'{"age_tool": ["libc::close"], "age_c": []}\')\n',
    }


def run(*words, **more):
    return process.run(
        words, stdout=subprocess.PIPE, stderr=subprocess.STDOUT, text=True, errors="replace", **more
    )


class Packing(Case):
    """A release by `release/build`, whose program and library aren't built again."""

    def setUp(self):
        super().setUp()
        self.top = self.path("a b")
        built.copy_to_pack(self.top)
        for name, script in stubs().items():
            (self.top / name).write_text(script)
        self.git("init", "-q")
        self.git("add", "-A")
        self.git(
            "-c",
            "user.name=a",
            "-c",
            "user.email=a@b",
            "commit",
            "-q",
            "-m",
            "all",
            "--date",
            "@1700000000 +0000",
        )

    def git(self, *words):
        env = {**os.environ, "GIT_COMMITTER_DATE": "@1700000000 +0000"}
        process.run(["git", *words], cwd=self.top, env=env, check=True, stdout=subprocess.DEVNULL)

    def pack(self, folder, **more):
        """Runs release/build in the folder that it is in; without Debian packages, unless PACKAGES is given."""
        env = {**os.environ, "PACKAGES": "no", **{it: str(held) for it, held in more.items()}}
        return run("release/build", self.path(folder), cwd=self.top, env=env)

    def held(self, folder):
        return {it.name: it.read_bytes() for it in self.path(folder).iterdir()}
