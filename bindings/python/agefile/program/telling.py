"""What people are told: faults, names, how far a run is, and by which signal it ended."""
from __future__ import annotations

import os
import time


class Fault(Exception):
    """What is wrong, in the words of one or two lines."""

    status = 1


class Misuse(Fault):
    """What is wrong with the command line."""

    status = 2


def unreadable(name: str, fault: OSError, action: str = "read", more: str = "") -> Fault:
    """What is said of a file that can't be opened or read."""
    return Fault("26 Read", f"can't {action} {name}: {fault.strerror}{more}")


def shown(name: str, stream: str = "") -> str:
    """A file's name, in quotes if it could control a terminal, or if its ends can't be seen; of `-` that of the stream, if it is one."""
    if name == "-" and stream:
        return f"standard {stream}"
    return name if name and name.isprintable() and name == name.strip() else repr(name)


def write(number: int, text: str) -> None:
    """Writes a text to a standard stream."""
    held = text.encode(errors="backslashreplace")
    try:
        while held:
            held = held[os.write(number, held) :]
    except OSError as fault:
        raise Fault(f"standard {('output', 'error')[number - 1]}: {fault.strerror}") from None


def tell(*lines: str) -> None:
    """Writes lines to standard error, if there is one."""
    try:
        write(2, "".join(f"agefile: {it}\n" for it in lines))
    except Fault:
        pass


def end_by(number: int) -> int:
    """Ends as by this signal, so that a shell's loop ends too."""
    import signal

    signal.signal(number, signal.SIG_DFL)
    os.kill(os.getpid(), number)
    return 128 + number


class Progress:
    """A line at a terminal, once a second: how much of IN was read. Before anything else is written to the terminal, it has to `end`."""

    def __init__(self, size: int = 0) -> None:
        self.is_shown, self.last, self.of = os.isatty(2), 0.0, f" of {size >> 20}" if size else ""

    def tell(self, count: int) -> None:
        """Says that so many bytes were read."""
        if self.is_shown and time.monotonic() > self.last + 1:
            self.last = time.monotonic()
            write(2, f"\r{count >> 20}{self.of} MiB ")

    def end(self) -> None:
        """Takes the line away."""
        write(2, "\r\x1b[K" if self.last else "")
