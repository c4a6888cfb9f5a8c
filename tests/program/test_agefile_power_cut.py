"""Cuts the power of the commands of agefile that write OUT themselves, `encrypt` for recipients and `salvage`, as test_power_cut does to
age_tool: in each state of the disk after each of their calls OUT is as it was, or whole, and after status 0 it is whole. Without the waits for
the disk some state shows another OUT, so the test can fail."""
import os
import sys

from tests import process
from tests.program.agefile import AgefileCase
from tests.bindings import setUpModule  # noqa: F401
from tests.case import SECONDS, needs
from tests.program.test_power_cut import Disk, calls
from tests.python.test_output import NAMED
from tools import shim

KEY = "AGE-SECRET-KEY-1GFPYYSJZGFPYYSJZGFPYYSJZGFPYYSJZGFPYYSJZGFPYYSJZGFPQ4EGAEX"
RUNS = "import runpy, sys\nsys.argv[0:1] = []\nrunpy.run_path(sys.argv[0], run_name='__main__')\n"


@needs("cc")
class PowerCutTest(AgefileCase):
    def setUp(self):
        super().setUp()
        self.write("key", f"{KEY}\n".encode())
        self.write("plain", self.plain[:6000])
        self.remove("age")
        self.tool(*"encrypt --pass pass --log 1 --no-sync plain age".split(), check=True)

    def recorded(self, words, before, program):
        """The disk before a run, its calls, and the OUT that it left."""
        folder = self.path("run")
        folder.mkdir(exist_ok=True)
        for it in folder.iterdir():
            it.unlink()
        if before is not None:
            (folder / "out").write_bytes(before)
        disk = Disk(folder)
        self.write("record", b"")
        run = process.run(
            [sys.executable, "-c", program + RUNS, str(self.agefile), *words.split()],
            cwd=folder,
            env={**self.env, **shim.loaded(RECORD=self.path("record"))},
            capture_output=True,
            timeout=SECONDS,
        )
        self.see(
            f"{words}",
            run.returncode == 0 and os.listdir(folder) == ["out"],
            run,
            os.listdir(folder),
        )
        return (
            disk,
            [it for it in calls(self.path("record")) if it[0] != "close"],
            (folder / "out").read_bytes(),
        )

    def wrong(self, disk, made, before, after):
        """After how many calls a state has another OUT."""
        for count in range(len(made) + 1):
            if count:
                disk.do(*made[count - 1])
            allowed = [after] if count == len(made) else [before, after]
            for state in disk.states():
                if (state["out"].held if "out" in state else None) not in allowed:
                    return count
        return None

    def test_power_cuts(self):
        for program, kind in (("", "a file without a name"), (NAMED, "a file with a name")):
            for before in (None, b"as it was"):
                for command in (
                    "encrypt --identity ../key ../plain",
                    "salvage --pass ../pass ../age",
                ):
                    words = f"{command} {'--overwrite ' if before else ''}out"
                    name = f"{words}, by {kind}"
                    disk, made, after = self.recorded(words, before, program)
                    self.see(
                        f"{name}: its calls",
                        len(made) > 5 and {"write", "sync", "sync-names"} <= {it[0] for it in made},
                        [it[0] for it in made],
                    )
                    self.see(
                        name, self.wrong(disk, made, before, after) is None, [it[:2] for it in made]
                    )
                    disk, made, after = self.recorded(words, before, program)
                    unsynced = [it for it in made if it[0] != "sync"]
                    self.see(
                        f"{name}, without waiting for its bytes",
                        self.wrong(disk, unsynced, before, after) is not None,
                    )
                    disk, made, after = self.recorded(words, before, program)
                    unsynced = [it for it in made if it[0] != "sync-names"]
                    self.see(
                        f"{name}, without waiting for its name",
                        self.wrong(disk, unsynced, before, after) is not None,
                    )
