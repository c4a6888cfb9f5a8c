#!/usr/bin/env python3
"""agefile: a front of age_tool for people. It asks for a passphrase, takes `-` for a standard stream, key files and recipients, and the words
of age; what it makes of that, the proved program age_tool carries out in its place, by its own rules. Only `restore` stays beside it, and
feeds it. `encrypt` for recipients and `salvage` are the Python module's (by_library.py).

This folder, or an archive of it, is a program as Python runs them, with the modules in it: beside an age_tool it is agefile without keys."""
from __future__ import annotations

import os
import sys

if sys.path[0] != (
    here := os.path.dirname(os.path.realpath(__file__))
):  # (as in a Python that is told not to take this folder)
    sys.path.insert(0, here)

from command_line import COMMANDS, Request, request_of
from out import found_at, see_free
from run_age_tool import BUILD, VERSION, become, words_of
from telling import Fault, Misuse, end_by, shown, tell, write


def begin(words: list[str]) -> int:
    """Carries out what the words say."""
    first = words[0] if words else ""
    if not words or first in ("-h", "--help", "help", "-V", "--version") and len(words) == 1:
        return general(first)
    if first in COMMANDS:
        return carry_out(request_of(words))
    if first == "help" and words[1] in COMMANDS:
        from help import explain

        return explain(words[1])
    if first == "proof" or words == ["help", "proof"]:
        from proof import tell_proof

        return tell_proof(words[1:] if first == "proof" else ["--help"])
    if first in ("inspect", "drill", "help"):
        return become(["/dev/stdin" if it == "-" else it for it in words])
    from words_of_age import request_of_age

    return carry_out(request_of_age(words))


def general(word: str) -> int:
    """Tells of the program as a whole."""
    from help import HELP

    if not word:
        raise Misuse(f"no command was given\n\n{HELP}")
    write(1, f"agefile {VERSION} {BUILD}\n" if word in ("-V", "--version") else HELP)
    return 0


def carry_out(asked: Request) -> int:
    """Carries out a request, or lets age_tool do it."""
    if asked.is_refused:
        return become([asked.command, *asked.words, *asked.names])
    if asked.command == "restore":
        from restore import restore

        return restore(asked)
    if asked.command == "salvage" or asked.is_for_keys:
        from by_library import by_library

        return by_library(asked)
    if asked.command != "test" and not asked.has("--no-clobber"):  # (else age_tool says so)
        see_free(asked)
    from keys import key_of

    if not asked.has("--identity"):
        return become(words_of(asked, key_of(asked)))
    from feed import Source, run_beside

    source = Source(asked.source)
    words = words_of(asked, key_of(asked, source))
    return become(words) if source.is_regular else run_beside(words, source)


def hold_numbers() -> None:
    """Opens the standard streams that are closed, so that no file gets their number. Neither they nor age_tool, which doesn't inherit these,
    can use them."""
    for number, how in ((0, os.O_WRONLY), (1, os.O_RDONLY), (2, os.O_WRONLY)):
        if found_at(number) is None and (made := os.open(os.devnull, how)) != number:
            os.dup2(made, number, inheritable=False)
            os.close(made)


def main() -> int:
    """Runs the program: its status."""
    try:
        hold_numbers()
        return begin(sys.argv[1:])
    except (Fault, ValueError) as fault:
        tell(*map(str, fault.args))
        return getattr(fault, "status", 1)
    except OSError as fault:
        name = f"{shown(str(fault.filename))}: " if fault.filename is not None else ""
        tell(f"{name}{fault.strerror or fault}")
        return 1
    except KeyboardInterrupt as stop:
        return end_by(*stop.args or [2])


if __name__ == "__main__":
    sys.exit(main())
