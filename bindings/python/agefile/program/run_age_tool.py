"""Runs the proved program, the age_tool that came with this one and never that of PATH, in place of this process."""
from __future__ import annotations

import os

from command_line import Request, for_tool
from out import is_replaced
from telling import Fault, shown

VERSION = "2.0.0"
# release/build replaces it by the commit that it was made from, as in age_tool.
BUILD = "(not a release)"
PLACE = os.path.dirname(os.path.realpath(__file__))
SECRET_AT = 10  # from which number on age_tool gets a descriptor of a secret: below are those that a shell may open


def age_tool() -> str:
    """The age_tool that came with this program: the one that stands, or is linked, beside it; in a checkout, that at its top."""
    folder = os.path.dirname(PLACE) if os.path.isfile(PLACE) else PLACE
    if folder.endswith("/bindings/python/agefile/program"):
        folder = folder.removesuffix("/bindings/python/agefile/program")
    found = os.path.realpath(f"{folder}/age_tool")
    if not os.access(found, os.X_OK):
        raise Fault(
            f"there is no program {shown(found)}, which comes with agefile: install the release again"
        )
    if BUILD.startswith("(of "):  # (a checkout's is built from its own sources)
        see_version(found)
    return found


def see_version(program: str) -> None:
    """Refuses an age_tool of another version."""
    source, sink = os.pipe()
    try:
        child = os.posix_spawn(
            program,
            [program, "--version"],
            os.environ,
            file_actions=[(os.POSIX_SPAWN_DUP2, sink, 1)],
        )
    except OSError as fault:
        raise Fault(f"can't run {shown(program)}: {fault.strerror}") from None
    finally:
        os.close(sink)
    with open(source, "rb", buffering=0) as file:
        said = file.read(256).decode(errors="replace").split()
    os.waitpid(child, 0)
    if said[:2] != ["age_tool", VERSION]:
        other = shown(" ".join(said[1:]) or "unknown")
        raise Fault(
            f"{shown(program)} is version {other}, and this is agefile {VERSION}: install both of one release"
        )


def become(words: list[str]) -> int:
    """Lets age_tool carry this out, in place of this process."""
    os.execv(age_tool(), ["age_tool", *words])


def words_of(asked: Request, key: list[str]) -> list[str]:
    """The words by which age_tool carries out a request with this key."""
    command, names, more = (
        asked.command,
        [for_tool(asked.source, "in"), for_tool(asked.out, "out")],
        [],
    )
    if command == "test":
        command = "decrypt"
    elif not asked.has("--overwrite", "--no-clobber") and is_replaced(asked.out):
        more = ["--no-clobber"]
    return [command, *key, *asked.words, *more, "--", *names]


def secret_file(secret: bytes) -> str:
    """A file with a secret that only this process and age_tool have, and that is never on a disk: its name for age_tool."""
    import fcntl

    made = os.memfd_create("agefile")
    os.write(made, secret)
    os.lseek(made, 0, os.SEEK_SET)
    return f"/dev/fd/{fcntl.fcntl(made, fcntl.F_DUPFD, SECRET_AT)}"
