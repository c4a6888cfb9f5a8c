"""The words of the program age: options come first, standard streams need no name, and an existing OUT is replaced."""
from __future__ import annotations

from command_line import Request, request_of
from help import HELP
from run_age_tool import VERSION
from telling import Misuse, shown, write

# The options by their letters; each also has its whole name.
LETTERS = {
    "e": "encrypt",
    "d": "decrypt",
    "p": "passphrase",
    "a": "armor",
    "h": "help",
    "o": "output",
    "r": "recipient",
    "R": "recipients-file",
    "i": "identity",
}
KNOWN = {**LETTERS, **{it: it for it in (*LETTERS.values(), "version")}, "j": "plugin"}
VALUED = ("output", "recipient", "recipients-file", "identity", "plugin")


def request_of_age(words: list[str]) -> Request:
    """What the words of age ask for."""
    found, names = options_in(words)
    if "version" in found:
        write(1, f"{VERSION}\n")
        raise SystemExit(0)
    see_age(found, names)
    command = "decrypt" if "decrypt" in found else "encrypt"
    keys = [
        word
        for it in ("recipient", "recipients-file", "identity")
        for value in found.get(it, [])
        for word in (f"--{it}", value)
    ]
    in_and_out = [names[0] if names else "-", found.get("output", ["-"])[-1]]
    return request_of([command, "--overwrite", *keys, "--", *in_and_out], may_make=True)


def options_in(words: list[str]) -> tuple[dict[str, list[str]], list[str]]:
    """The options, by their whole names, with their values; and the names."""
    found: dict[str, list[str]] = {}
    while words and words[0].startswith("-") and words[0] not in ("-", "--"):
        word, words = words[0], words[1:]
        name, has_value, value = word.lstrip("-").partition("=")
        option = KNOWN.get(name)
        if option == "help":
            write(2, HELP)
            raise SystemExit(0)
        if option is None:
            raise Misuse(f"flag provided but not defined: {shown('-' + name)}\n\n{HELP}")
        if option in VALUED and not has_value:
            if not words:
                raise Misuse(f"flag needs an argument: {shown('-' + name)}")
            value, words = words[0], words[1:]
        found.setdefault(option, []).append(value)
    return found, words[1:] if words[:1] == ["--"] else words


def see_age(found: dict[str, list[str]], names: list[str]) -> None:
    """Refuses what age refuses, and what is age's alone."""
    keys = [it for it in ("recipient", "recipients-file", "identity") if it in found]
    not_to_decrypt = [
        it for it in ("encrypt", "passphrase", "recipient", "recipients-file") if it in found
    ]
    for is_wrong, why in (
        ("armor" in found, "armor isn't supported: without -a the file is binary"),
        ("plugin" in found, "plugins aren't supported"),
        (
            len(names) > 1,
            f"too many INPUT arguments: {' '.join(map(shown, names))}: options come first",
        ),
        (
            "decrypt" in found and not_to_decrypt,
            f"--{''.join(not_to_decrypt[:1])} can't be used with --decrypt",
        ),
        (
            "identity" in found and not {"encrypt", "decrypt"} & {*found},
            "--identity needs --encrypt or --decrypt",
        ),
        (
            not keys and not {"decrypt", "passphrase"} & {*found},
            "missing recipients: give --recipient, --recipients-file or --passphrase",
        ),
        (
            keys and "passphrase" in found,
            f"--passphrase can't be combined with --{''.join(keys[:1])}",
        ),
    ):
        if is_wrong:
            raise Misuse(why)
