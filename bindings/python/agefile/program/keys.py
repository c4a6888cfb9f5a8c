"""The key of a request: a passphrase that is typed, or what the keys of age-keygen give."""
from __future__ import annotations

import os
import stat

from command_line import OPENING, Request
from out import found_at, is_stream
from run_age_tool import secret_file
from telling import Fault

TYPE_CHECKING = False
if TYPE_CHECKING:
    from feed import Source

UNDER_PASSPHRASE = b"age-encryption.org/v1\n-> scrypt "
PASSPHRASE_MAX = 65_536  # bytes


def key_of(asked: Request, source: Source | None = None) -> list[str]:
    """The words that give age_tool a key that isn't its own option."""
    if asked.has("--identity") and source is not None:
        from by_library import shared_secret

        return ["--shared", secret_file(shared_secret(asked, source))]
    if asked.has(*OPENING):
        return []
    if asked.command != "encrypt" and is_for_others(asked.source):
        return ["--pass", secret_file(os.urandom(32).hex().encode())]
    return ["--pass", secret_file(passphrase_of(asked))]


def is_for_others(name: str) -> bool:
    """Whether a file is none that a passphrase opens, so that none has to be asked for: age_tool says what it is."""
    found = found_at(name)
    if is_stream(name) or found is not None and not stat.S_ISREG(found.st_mode):
        return found is not None and stat.S_ISDIR(found.st_mode)
    try:
        with open(name, "rb", buffering=0) as file:
            return not file.read(64).startswith(UNDER_PASSPHRASE)
    except OSError:
        return True


def passphrase_of(asked: Request) -> bytes:
    """The passphrase that is typed; of a new file twice, or, as by age, a new one if none is."""
    is_new = asked.command == "encrypt"
    may_make = is_new and asked.may_make
    given = typed("passphrase (none: a new one is made): " if may_make else "passphrase: ")
    if may_make and given == "":
        given = made_passphrase()
    elif is_new and any(ord(it) < 32 or it == "\x7f" for it in given):
        raise Fault(
            "the passphrase has a control character, which not every program can ask for: name its file by --pass"
        )
    elif is_new and given and typed("the same again: ") != given:
        raise Fault("the passphrases differ")
    held = given.encode()
    if not 1 <= len(held) <= PASSPHRASE_MAX:
        raise Fault(f"a passphrase has 1 to {PASSPHRASE_MAX:,} bytes, not {len(held):,}")
    return held


def typed(question: str) -> str:
    """What is typed at the terminal, which isn't shown. (Without one, getpass would warn, and read a line of standard input.)"""
    import getpass
    import warnings

    try:
        with warnings.catch_warnings():
            warnings.simplefilter("error", getpass.GetPassWarning)
            given = getpass.getpass(question)
        given.encode()
        return given
    except UnicodeError:  # which would show a byte of it
        raise Fault(
            "what was typed isn't in the terminal's encoding: name the passphrase's file by --pass"
        ) from None
    except (EOFError, OSError, getpass.GetPassWarning):
        raise Fault(
            "no passphrase was typed: name its file by --pass, or run at a terminal"
        ) from None


def made_passphrase() -> str:
    """A new passphrase, 32 letters and digits, which the terminal shows."""
    import base64

    letters = base64.b32encode(os.urandom(20)).decode().lower()
    made = "-".join(letters[it : it + 4] for it in range(0, 32, 4))
    try:
        with open("/dev/tty", "wb", buffering=0) as terminal:
            terminal.write(f"agefile: the new passphrase is {made}\n".encode())
    except OSError as fault:
        raise Fault(f"can't show the new passphrase at the terminal: {fault.strerror}") from None
    return made
