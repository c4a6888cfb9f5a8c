"""`agefile restore`: a decryption that no signal loses. What it has so far is in the folder OUT.restore, until it is whole and gets OUT's name."""
from __future__ import annotations

import fcntl
import os
import re
import stat
import time

from command_line import Request
from feed import Fed, Source, end_as, feed
from keys import key_of
from out import found_at, give_name, is_file, see_apart, see_free, sync
from telling import Fault, Misuse, Progress, shown, tell, unreadable

LOCK_SECONDS = 10
# The faults that follow if IN is cut off, and those of a position that isn't for IN and its key.
CUT, UNFIT = (8, *range(16, 21)), (23, 24, 25, 30, 31)


def restore(asked: Request) -> int:
    """Decrypts IN to OUT by way of OUT.restore: the status."""
    if not is_file(asked.out):
        raise Misuse(f"restore writes a regular file, which {shown(asked.out)} isn't")
    see_apart(asked)
    source = Source(asked.source)
    try:
        room = Room(os.path.realpath(asked.out))
    except OSError as fault:
        raise Fault(
            "27 Write", f"can't write {shown(asked.out)}.restore: {fault.strerror}"
        ) from None
    if room.has_finished():
        return room.clear()
    try:
        see_free(asked)
        going_on = (
            ["resume", "--position", room.position, "--old", room.text]
            if room.keep()
            else ["decrypt"]
        )
        options = [
            *key_of(asked, source),
            *(it for it in asked.words if it not in ("--progress", "--no-clobber")),
        ]
    except BaseException:
        room.settle()
        raise
    words = [*going_on, *options, "--save", room.new_position, "--", "/dev/stdin", room.new_text]
    faults, progress = (
        os.memfd_create("faults"),
        Progress(source.size) if asked.has("--progress") else None,
    )
    fed = feed(words, source, faults, progress)
    if progress is not None:
        progress.end()
    told = os.pread(faults, 1 << 20, 0)
    if fed.status != 0:
        return stopped(room, fed, told, source.shown)
    os.write(2, told)
    give_name(room.new_text, room.out, asked.has("--overwrite"))
    return room.clear()


def stopped(room: Room, fed: Fed, told: bytes, source: str) -> int:
    """Tells why a restore stopped, and what is kept of it: the status."""
    number, lines = fault_in(told, room.has_new())
    is_kept = room.settle()
    if not (number in CUT and (fed.signal or fed.fault)):
        os.write(2, lines)
    if fed.fault is not None:
        tell(*map(str, unreadable(source, fed.fault).args))
    if fed.status < 0:
        tell(f"age_tool was killed by signal {-fed.status}")
    if number in UNFIT:
        return end_as(fed, f"{shown(room.folder)} is of another IN or key: remove it to begin anew")
    more = (
        [f"what was decrypted is kept in {shown(room.folder)}: the same command goes on from there"]
        if is_kept
        else []
    )
    return end_as(fed, *more)


def fault_in(told: bytes, is_short: bool) -> tuple[int, bytes]:
    """The number of the fault that age_tool told, or 0, and its lines; in short without those after the two of the fault, which say how age_tool
    could go on."""
    lines = told.splitlines(keepends=True)
    for at, line in enumerate(lines):
        if found := re.match(rb"age_tool: (\d+) \w", line):
            return int(found[1]), b"".join(lines[: at + 2] if is_short else lines)
    return 0, told


class Room:
    """The folder OUT.restore, which is locked while a run writes it: the text of the last stop and its position, and those of this run. A text may be
    longer than its position says."""

    def __init__(self, out: str) -> None:
        self.out, self.folder, until = out, f"{out}.restore", time.monotonic() + LOCK_SECONDS
        self.text, self.position, self.new_text, self.new_position = (
            f"{self.folder}/{it}" for it in ("text", "position", "new-text", "new-position")
        )
        while not self.is_locked():  # (that of a run that was killed ends soon)
            if time.monotonic() > until:
                raise Fault(f"another restore of {shown(self.out)} is running")
            time.sleep(0.1)

    def is_locked(self) -> bool:
        """Makes the folder, and locks it for as long as this run and its age_tool are there: whether that could be had."""
        try:
            os.mkdir(self.folder, 0o700)
            sync(os.path.dirname(self.out))
        except FileExistsError:
            pass
        number, found = os.open(self.folder, os.O_RDONLY | os.O_DIRECTORY | os.O_NOFOLLOW), None
        if os.fstat(number).st_uid != os.geteuid():
            raise Fault(f"{shown(self.folder)} is another user's")
        try:
            fcntl.flock(number, fcntl.LOCK_EX | fcntl.LOCK_NB)
            found = found_at(self.folder)
        except BlockingIOError:
            pass
        except OSError:  # of a file system without locks
            found = found_at(self.folder)
        if found is None or not os.path.samestat(
            found, os.fstat(number)
        ):  # another run has it, or removed it
            os.close(number)
            return False
        os.set_inheritable(number, True)
        return True

    def has_finished(self) -> bool:
        """Whether an earlier run gave OUT its name, and was killed then."""
        out, made = found_at(self.out), found_at(self.new_text)
        return out is not None and made is not None and os.path.samestat(out, made)

    def has_new(self) -> bool:
        """Whether a run saved its position, which it does once its text is on the disk."""
        found = found_at(self.new_position)
        return found is not None and found.st_size > 0

    def keep(self) -> bool:
        """Keeps what a run saved, or else the one before it, and nothing else: whether there is any."""
        if self.has_new():
            if (
                found_at(self.new_text) is not None
            ):  # (else a run was killed here, which had renamed it)
                os.replace(self.new_text, self.text)
                sync(self.folder)
            os.replace(self.new_position, self.position)
            sync(self.folder)
        kept = {self.text, self.position} if os.path.exists(self.position) else set()
        for it in os.scandir(self.folder):
            if it.path not in kept:
                os.unlink(it.path)
        return bool(kept)

    def settle(self) -> bool:
        """Does that at a run's end, without a folder if nothing is kept."""
        is_kept = self.keep()
        if not is_kept:
            os.rmdir(self.folder)
        return is_kept

    def clear(self) -> int:
        """Removes the folder, once OUT's name is on the disk: the status of a run that is through."""
        sync(os.path.dirname(self.out))
        for it in os.scandir(self.folder):
            os.unlink(it.path)
        os.rmdir(self.folder)
        return 0
