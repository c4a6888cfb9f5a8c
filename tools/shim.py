"""The library that is loaded before the C library's, and lets its calls fail or records them: tools/shim.c says how."""
import functools
import os
import pathlib
import subprocess
import tempfile

SOURCE = pathlib.Path(__file__).with_suffix(".c")
# Its folder goes when this ends. (LD_PRELOAD is split at blanks and colons, and TMPDIR may have some.)
PLACE = tempfile.gettempdir()
ROOM = tempfile.TemporaryDirectory(prefix="age-shim-", dir="/tmp" if {*" :"} & {*PLACE} else PLACE)


@functools.cache
def library():
    """Builds it, and returns its path."""
    made = pathlib.Path(ROOM.name) / "shim.so"
    os.chmod(ROOM.name, 0o755)
    subprocess.run(
        [
            "cc",
            "-O2",
            "-Wall",
            "-Wextra",
            "-Werror",
            "-shared",
            "-fPIC",
            "-o",
            made,
            SOURCE,
            "-ldl",
        ],
        check=True,
    )
    return made


def loaded(**variables):
    """The environment of a program that it is loaded into."""
    # (checks/coverage loads one into all)
    loads = " ".join(filter(None, (str(library()), os.environ.get("LD_PRELOAD"))))
    return {
        **os.environ,
        "LD_PRELOAD": loads,
        **{name: str(value) for name, value in variables.items()},
    }
