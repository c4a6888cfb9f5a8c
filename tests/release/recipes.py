"""The blocks of docs/RECIPES.md, and a folder to run them in."""
import os
import re
import subprocess

from tests import process
from tests.case import Case
from tests.program.agefile import release
from tools.workspace import LIBRARY, TOP

AGE = TOP / "bindings" / "tests" / "age"


def blocks(language):
    """The blocks of RECIPES in this language, each with its section."""
    for section in (TOP / "docs" / "RECIPES.md").read_text().split("\n## ")[1:]:
        for script in re.findall(rf"(?ms)^```{language}\n(.*?)^```$", section):
            yield section.splitlines()[0], script


class PageCase(Case):
    """A folder `work`, and one of programs, `bin`."""

    def setUp(self):
        super().setUp()
        release(self.room)
        self.path("work").mkdir()
        self.env = {
            **os.environ,
            "PATH": f"{self.path('bin')}:{os.environ['PATH']}",
            "PYTHONPATH": str(TOP / "bindings" / "python"),
            "PYTHONDONTWRITEBYTECODE": "1",
        }
        if (LIBRARY / "libagefile.so").exists():
            self.env["AGEFILE_LIBRARY"] = str(LIBRARY / "libagefile.so")

    def begin(self, script):
        """Begins to run commands in the folder `work`, in a group of processes of their own."""
        words = ["bash", "-euo", "pipefail", "-c", script]
        more = {
            "stdout": subprocess.PIPE,
            "stderr": subprocess.STDOUT,
            "text": True,
            "errors": "replace",
        }
        return process.Popen(
            words, cwd=self.path("work"), env=self.env, start_new_session=True, **more
        )

    def run_script(self, script):
        """Runs commands in the folder `work`."""
        run = self.begin(script)
        said = run.communicate()[0]
        return subprocess.CompletedProcess(run.args, run.returncode, said)
