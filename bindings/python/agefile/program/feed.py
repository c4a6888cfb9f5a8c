"""Runs age_tool beside this process, which feeds it IN by a pipe."""
from __future__ import annotations

import io
import os
import select
import signal
import stat
import subprocess
from typing import NamedTuple

from run_age_tool import age_tool
from telling import Progress, shown, tell, unreadable

PIECE = 1 << 18
WAIT = 100  # milliseconds, after which a signal is seen at the latest
ENDING = {signal.SIGHUP, signal.SIGINT, signal.SIGQUIT, signal.SIGTERM}
PR_SET_PDEATHSIG = 1


class Source(io.FileIO):
    """IN, from its first byte on, and what was read of its header so far. A regular file stays where it is meanwhile."""

    def __init__(self, name: str) -> None:
        self.shown, self.front = shown(name, "input"), b""
        try:
            super().__init__(0 if name == "-" else name, closefd=name != "-")
        except OSError as fault:
            raise unreadable(self.shown, fault, "open") from None
        found = os.fstat(self.fileno())
        self.size, self.is_regular = found.st_size, stat.S_ISREG(found.st_mode)

    def more(self, most: int) -> bytes:
        """More of its header; nothing at its end."""
        piece = self.piece(most, self.tell() + len(self.front) if self.is_regular else None)
        self.front += piece
        return piece

    def piece(self, most: int, at: int | None = None) -> bytes:
        """At most so many bytes, from a place on if one is given; nothing at its end."""
        try:
            while (
                piece := self.read(most) if at is None else os.pread(self.fileno(), most, at)
            ) is None:  # it doesn't block
                select.select([self], [], [])
            return piece
        except OSError as fault:
            raise unreadable(self.shown, fault) from None


class Fed(NamedTuple):
    """How a run of age_tool ended that was fed: its status, the signal that stopped that, and the fault of reading IN."""

    status: int
    signal: signal.Signals | None
    fault: OSError | None


def feed(
    words: list[str], source: Source, faults: int | None = None, progress: Progress | None = None
) -> Fed:
    """Runs age_tool on IN, up to IN's end, a signal or its own end. If its faults go to a file, no signal reaches it, and it goes on to its own end
    also if IN is cut or this process ends; else it is killed then."""
    signals = {it for it in ENDING if signal.getsignal(it) != signal.SIG_IGN}
    signal.pthread_sigmask(signal.SIG_BLOCK, signals)  # (which age_tool inherits)
    with subprocess.Popen(
        ["age_tool", *words],
        0,
        age_tool(),
        subprocess.PIPE,
        faults,
        faults,
        end_with_parent if faults is None else None,
        close_fds=False,
        restore_signals=False,
    ) as child:
        assert child.stdin is not None
        fault = copy(source, child.stdin.fileno(), signals, progress)
        came = next(iter(signals & signal.sigpending()), None)
        if faults is None and (came or fault):
            child.kill()
    return Fed(child.returncode, came, fault)


def end_with_parent() -> None:
    """Lets this process end by signals, and when its parent does, as if killed: else it would take that for the end of its input."""
    import ctypes

    ctypes.CDLL(None).prctl(PR_SET_PDEATHSIG, signal.SIGKILL, 0, 0, 0)
    signal.pthread_sigmask(signal.SIG_UNBLOCK, ENDING)


def copy(
    source: Source, sink: int, signals: set[signal.Signals], progress: Progress | None
) -> OSError | None:
    """Copies IN into a pipe, up to IN's end, a signal, or the end of what reads the pipe: the fault of reading IN, if there is one."""
    left, count = memoryview(b"" if source.is_regular else source.front), 0
    to_read, to_write = select.poll(), select.poll()
    to_read.register(source, select.POLLIN)
    to_read.register(sink, 0)  # (which tells when nobody reads it any more)
    to_write.register(sink, select.POLLOUT)
    os.set_blocking(sink, False)
    while not signals & signal.sigpending():
        ready = dict((to_write if left else to_read).poll(WAIT))
        try:
            if left and ready:
                left = left[os.write(sink, left) :]
            elif sink in ready:
                break
            elif source.fileno() in ready and (piece := source.read(PIECE)) is not None:
                left, count = memoryview(piece), count + len(piece)
                if not piece:
                    break
        except BrokenPipeError:
            break
        except OSError as fault:
            return fault
        if progress is not None:
            progress.tell(count)
    return None


def end_as(fed: Fed, *more: str) -> int:
    """Ends by the signal that stopped a fed run, or as that did, after more lines: the status."""
    tell(*([f"stopped by {fed.signal.name}"] if fed.signal else []), *more)
    if fed.signal:
        signal.pthread_sigmask(signal.SIG_UNBLOCK, ENDING)
    return fed.status if fed.status >= 0 else 128 - fed.status


def run_beside(words: list[str], source: Source) -> int:
    """Lets age_tool read a pipe that was read up to the end of its header. If what copies it fails, that is told instead of what follows from it."""
    fed = feed([*words[:-2], "/dev/stdin", words[-1]], source)
    if fed.fault is not None:
        raise unreadable(source.shown, fed.fault, more="; OUT may have a part of the plaintext")
    return end_as(fed)
