"""The kit, and what of it the program and the library use: its name, its logic, and its crates."""
import functools
import os
import pathlib
import shutil
import subprocess

from tools.workspace import crates, lines


@functools.cache
def folder():
    """The kit's folder, by the `rt` that is on the PATH."""
    return pathlib.Path(os.path.realpath(shutil.which("rt"))).parent.parent


def identity():
    """The kit's name, and the checksum of its logic, as `rt version` tells them."""
    name, _, logic = (
        subprocess.run(["rt", "version"], check=True, capture_output=True, text=True)
        .stdout.strip()
        .partition(" ")
    )
    return name, logic.removeprefix("logic ")


def uses(crate):
    """The crates of the kit that one of them names."""
    words = (
        it.split()
        for it in (folder() / "rlibs" / f"{crate}.rlib" / "format")
        .read_text(errors="replace")
        .splitlines()
    )
    return [it[1] for it in words if it[:1] == ["dep"]]


def with_used(*names, found=()):
    """These crates of the kit after those that they use, each once."""
    for it in names:
        if it not in found:
            found = (*with_used(*uses(it), found=found), it)
    return found


def used_here():
    """The kit's crates that the workspace uses, directly or through each other, the lowest first."""
    named = {it for line in lines().values() for it in line.partition(":")[2].split()} - {*crates()}
    return with_used("std", *sorted(named))
