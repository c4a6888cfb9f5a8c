"""What the program agefile does by the Python module: it finds the secret by which a key opens a header, encrypts for recipients, and salvages.
This code is tested, over the proved library; all else age_tool carries out."""
from __future__ import annotations

import contextlib
import errno
import os
import signal
import sys
from typing import Any, Iterator

from command_line import Request
from feed import Source
from keys import PASSPHRASE_MAX, passphrase_of
from out import exists, is_file, see_apart, see_free
from run_age_tool import PLACE
from telling import Fault, Progress, shown, tell, unreadable

if os.path.isdir(PLACE):  # (an archive of the program has no library beside it)
    sys.path.insert(1, os.path.dirname(os.path.dirname(PLACE)))
try:  # (all that is taken of the module, and not in its documentation, is named here)
    import agefile
    from agefile._coders import shared_secret as secret_of_header
    from agefile._keys import identities_of, recipient_of
    from agefile._library import BLOCK, CHUNK, NO_MATCH, WRONG_KEY
    from agefile._output import opened_alone, reach_disk, replacing
except ImportError as fault:
    raise Fault(
        f"this needs the Python module agefile: pip install 'agefile[keys]', or Debian's python3-agefile of the release ({fault})"
    ) from None

KEYS_MAX = 1 << 24  # bytes of a file of keys or of recipients, as for age


def by_library(asked: Request) -> int:
    """Carries out a request, and leaves nothing if a signal ends it: its status."""

    def ends(number: int, _: Any) -> None:
        raise KeyboardInterrupt(number)

    see_apart(asked)
    see_free(asked)
    for number in (signal.SIGTERM, signal.SIGHUP):
        if signal.getsignal(number) != signal.SIG_IGN:
            signal.signal(number, ends)
    try:
        return encrypt(asked) if asked.command == "encrypt" else salvage(asked)
    except FailedRead as fault:
        raise unreadable(shown(asked.source, "input"), fault) from None
    except agefile.AgeError as fault:
        chunk = "" if fault.chunk is None else f" chunk {fault.chunk}"
        raise Fault(
            f"{fault.number} {fault.name}{chunk}", f"{shown(asked.source, 'input')}: {fault}"
        ) from None


def encrypt(asked: Request) -> int:
    """Encrypts IN to OUT for recipients."""
    recipients = recipients_of(asked)
    with In(asked.source) as file, output(asked) as under, agefile.open(
        under, "wb", recipient=recipients
    ) as out:
        while piece := file.piece(1 << 20):
            out.write(piece)
    return 0


def salvage(asked: Request) -> int:
    """Writes what still opens of IN to OUT, and says what is lost."""
    key: dict[str, Any] = (
        {"identity": keys_of(asked)}
        if asked.has("--identity")
        else {"passphrase": passphrase_or_file(asked), "max_work": max_work_of(asked)}
    )
    progress = Progress()
    try:
        with In(asked.source) as file, output(asked) as out:
            found = agefile.salvage(file, out, progress=lambda it: progress.tell(it * BLOCK), **key)
            if found.size == 0 and not found.is_whole:
                raise Fault(
                    f"no chunk of {file.shown} opens: {shown(asked.out, 'output')} is as it was"
                )
    finally:
        progress.end()
    tell(*lost(found))
    return 0 if found.is_whole else 1


def lost(found: agefile.Salvage) -> Iterator[str]:
    """What is said of a file that was salvaged."""
    for first, after in found.lost:
        yield f"lost: from byte {first} to before byte {after}"
    if not found.ends and found.size and (not found.lost or found.lost[-1][1] < found.size):
        yield f"lost: from byte {found.size} on, if there was more"
    if not found.ends:
        yield "the last chunk is damaged or was cut off: the text may have been longer"
    if found.followed:
        yield "something was appended to the file, and is left out"


# ---- keys


def passphrase_or_file(asked: Request) -> bytes:
    """The passphrase in the file of --pass, or else one that is typed."""
    for name in asked.all("--pass"):
        return held_by(name, PASSPHRASE_MAX + 1).removesuffix(b"\n")
    return passphrase_of(asked)


def max_work_of(asked: Request) -> int:
    """The greatest work factor that is allowed."""
    given = (asked.all("--max-log") or ["22"])[-1]
    if given not in map(str, range(1, 23)):
        raise Fault(f"--max-log is from 1 to 22, not {shown(given)}")
    return int(given)


def held_by(name: str, most: int) -> bytes:
    """What a file holds. A longer one is refused, and not read to its end: it may have none, or was named by mistake."""
    try:
        with open(0 if name == "-" else name, "rb", closefd=name != "-") as file:
            held = file.read(most + 1)
    except OSError as fault:
        raise unreadable(shown(name), fault, "open") from None
    if len(held) > most:
        raise Fault(f"{shown(name)} has more than {most:,} bytes")
    return held


@contextlib.contextmanager
def lines_in(name: str) -> Iterator[list[str]]:
    """The keys or recipients in a file, whose name is told before what is wrong with them."""
    lines = agefile.identities_in(held_by(name, KEYS_MAX).decode("ascii", "replace"))
    if lines and lines[0].startswith(("age-encryption.org/", "-----BEGIN AGE ENCRYPTED FILE-----")):
        raise Fault(f"{shown(name)} is an encrypted key file: decrypt it first")
    try:
        yield lines
    except ValueError as fault:
        raise Fault(f"{shown(name)}: {fault}") from None


def keys_of(asked: Request) -> list[str]:
    """The keys in the files of --identity."""
    found = []
    for name in asked.all("--identity"):
        with lines_in(name) as lines:
            found += identities_of(lines)
    return found


def recipients_of(asked: Request) -> list[str]:
    """Those of --recipient, those in the files of --recipients-file, and those of the keys in the files of --identity."""
    found = asked.all("--recipient")
    if not all(map(agefile.identities_in, found)):  # as by a variable of the shell that isn't set
        raise Fault("--recipient is empty: one begins with age1")
    for name in asked.all("--recipients-file"):
        with lines_in(name) as lines:
            agefile.encrypt(b"", recipient=lines)  # (which says what is wrong with them)
            found += lines
    return found + [recipient_of(it) for it in keys_of(asked)]


def shared_secret(asked: Request, source: Source) -> bytes:
    """The shared secret of the stanza of IN that a key opens, and its recipient, as age_tool's --shared takes them. Of a header that isn't
    well-formed, or isn't complete, a random pair, with which age_tool says what is wrong."""
    answer, pair = secret_of_header(keys_of(asked), lambda: source.more(CHUNK))
    if answer == NO_MATCH:
        raise Fault(
            "12 NoMatch",
            f"{source.shown}: it isn't encrypted to a recipient of age-keygen: without --identity, agefile asks for a passphrase",
        )
    if answer == WRONG_KEY:
        raise Fault(
            "13 WrongKey",
            f"{source.shown}: no key of {' and '.join(map(shown, asked.all('--identity')))} opens it",
        )
    return b"".join(pair)


# ---- IN and OUT


class FailedRead(OSError):
    """A read of IN that failed."""


class In(Source):
    """IN, whose failures can be told from those of OUT."""

    def readinto(self, room: Any, /) -> Any:
        return self._tried(super().readinto, room)

    def read(self, most: int | None = -1, /) -> Any:
        return self._tried(super().read, most)

    def _tried(self, call: Any, word: Any) -> Any:
        try:
            return call(word)
        except OSError as fault:
            raise FailedRead(fault.errno, fault.strerror) from None


@contextlib.contextmanager
def output(asked: Request) -> Iterator[Any]:
    """What is written to, which has reached the disk at the end. A regular file gets its name then; if that fails, nothing is left of it."""
    try:
        if is_file(asked.out):
            with replacing(os.path.realpath(asked.out), not asked.has("--overwrite")) as out:
                yield out
            return
        with open(1, "wb", closefd=False) if asked.out == "-" else opened_alone(
            asked.out, False
        ) as out:
            if asked.command == "encrypt" and out.isatty():
                raise Fault(
                    "27 Write",
                    f"{shown(asked.out, 'output')} is a terminal, which an age file isn't for: name a file as OUT",
                )
            yield out
            out.flush()
            reach_disk(out)
    except FailedRead:
        raise
    except OSError as fault:
        if fault.errno == errno.EEXIST:
            raise exists(asked.out) from None
        raise Fault(
            "27 Write", f"can't write {shown(asked.out, 'output')}: {fault.strerror or fault}"
        ) from None
