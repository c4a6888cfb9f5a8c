"""OUT: whether it may be written, and how it gets its name."""
from __future__ import annotations

import errno
import os
import stat

from command_line import Request
from telling import Fault, Misuse, shown

# The names of standard streams. As OUT these are written from where they stand, and what another descriptor has open is written anew.
STANDARD = (
    "-",
    "/dev/stdin",
    "/dev/stdout",
    "/dev/stderr",
    *(f"{it}/{number}" for it in ("/dev/fd", "/proc/self/fd") for number in range(3)),
)


def found_at(name: str | int) -> os.stat_result | None:
    """What there is at a name, or what a descriptor has open."""
    try:
        return os.stat(name)
    except OSError:
        return None


def is_stream(name: str) -> bool:
    """Whether a name leads to what this process has open."""
    return name == "-" or name.startswith(("/dev/fd/", "/proc/self/fd/", "/dev/std"))


def is_file(name: str) -> bool:
    """Whether OUT is a regular file, or will be one: no stream, pipe or device."""
    found = found_at(name)
    return not is_stream(name) and (found is None or stat.S_ISREG(found.st_mode))


def is_replaced(out: str) -> bool:
    """Whether what is written to OUT takes the place of something, or would if it were there: not in a stream, a pipe or a device that keeps nothing."""
    found = found_at(out)
    return out not in STANDARD and (
        found is None or stat.S_ISREG(found.st_mode) or stat.S_ISBLK(found.st_mode)
    )


def is_one(out: os.stat_result, other: os.stat_result) -> bool:
    """Whether what is written to the first file changes the second."""
    if stat.S_ISBLK(out.st_mode) and stat.S_ISBLK(other.st_mode):
        return out.st_rdev == other.st_rdev
    return os.path.samestat(out, other) and (
        stat.S_ISREG(out.st_mode) or stat.S_ISFIFO(out.st_mode)
    )


def see_apart(asked: Request) -> None:
    """Refuses an OUT that is an input too, or where faults are told."""
    out = found_at(1 if asked.out == "-" else asked.out)
    read = asked.all(
        "--pass",
        "--shared",
        "--random",
        "--position",
        "--old",
        "--save",
        "--identity",
        "--recipients-file",
    )
    others = [
        (shown(it, "input"), found_at(0 if it == "-" else it)) for it in [*read, asked.source]
    ]
    for what, other in [*others, ("standard error", found_at(2))]:
        if out is not None and other is not None and is_one(out, other):
            raise Misuse(
                "same file named twice",
                f"{shown(asked.out, 'output')} and {what} are the same file",
            )


def see_free(asked: Request) -> None:
    """Refuses an existing OUT, before a passphrase is asked for. (What comes there later, age_tool refuses.)"""
    if not asked.has("--overwrite") and os.path.lexists(asked.out) and is_replaced(asked.out):
        see_apart(asked)
        found = found_at(asked.out)
        raise exists(
            asked.out,
            "; it is empty: a run that was killed may have left it"
            if found is not None and found.st_size == 0
            else "",
        )


def exists(out: str, more: str = "") -> Fault:
    """What is said of an OUT that is there."""
    return Fault("27 Write", f"{shown(out)} exists; --overwrite replaces it{more}")


def give_name(made: str, out: str, overwrites: bool) -> None:
    """Gives a whole file its name: that of an old one, with its permissions, only if that may be replaced."""
    old = found_at(out)
    if overwrites and old is not None:
        os.chmod(made, stat.S_IMODE(old.st_mode))
    try:
        if not overwrites:
            return os.link(made, out)
    except OSError:  # (some file systems have no links)
        if os.path.lexists(out):
            raise exists(out) from None
    os.replace(made, out)


def sync(folder: str) -> None:
    """Waits until a folder's names are on the disk, if its file system can."""
    number = os.open(folder, os.O_RDONLY | os.O_DIRECTORY)
    try:
        os.fsync(number)
    except OSError as fault:
        if fault.errno not in (errno.EINVAL, errno.ENOTSUP):
            raise
    finally:
        os.close(number)
