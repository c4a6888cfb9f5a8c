"""The command line: the commands, their options, and what was asked for. Words that age_tool refuses are left to it."""
from __future__ import annotations

from telling import Misuse

# What an option takes, and what it does, unless age_tool's help says so, which follows.
OPTIONS = {
    "--pass": ("FILE", "the file with the passphrase, which is asked for otherwise"),
    "--recipient": ("AGE1..", "a recipient of age-keygen; may be repeated"),
    "--recipients-file": ("FILE", "a file with one to a line; may be repeated"),
    "--identity": ("FILE", "a file of age-keygen: its keys open IN, or OUT is for them"),
    "--file-key": ("HEX", "the file key instead, 32 hexadecimal digits"),
    "--shared": ("FILE", "the shared secret of an X25519 stanza instead"),
    "--max-log": ("N", "refuse work factors above N, 1 to 22 (default: 22)"),
    "--overwrite": ("", "replace an OUT that exists, which is refused otherwise"),
    "--progress": ("", "show how much of IN has been read, at a terminal"),
    **dict.fromkeys(("--log", "--random", "--save", "--position", "--old"), ("FILE", "")),
    **dict.fromkeys(("--no-sync", "--no-clobber"), ("", "")),
}
KEYS, WRITING = ("--pass", "--identity", "--file-key", "--shared", "--max-log"), (
    "--overwrite",
    "--no-clobber",
    "--progress",
    "--no-sync",
)
COMMANDS = {
    "encrypt": (
        "--pass",
        "--recipient",
        "--recipients-file",
        "--identity",
        *WRITING,
        "--log",
        "--random",
    ),
    "decrypt": (*KEYS, *WRITING, "--save"),
    "resume": (*KEYS, *WRITING, "--save", "--position", "--old"),
    "test": (*KEYS, "--progress"),
    "restore": (*KEYS, *WRITING[:3]),
    "salvage": ("--pass", "--identity", "--max-log", *WRITING[:2]),
}
# What age_tool doesn't know.
OWN_COMMANDS, OWN_OPTIONS = ("test", "restore", "salvage"), (
    "--identity",
    "--recipient",
    "--recipients-file",
    "--overwrite",
)
# What says how IN opens, or for whom OUT is: one kind is given, or else a passphrase is asked for.
OPENING, FOR_KEYS = ("--pass", "--file-key", "--shared", "--identity"), (
    "--recipient",
    "--recipients-file",
    "--identity",
)


class Request:
    """What is asked for: a command, IN and OUT, and the options with their values."""

    def __init__(self, command: str, may_make: bool) -> None:
        self.command, self.may_make = command, may_make  # (a new passphrase, if none is typed)
        self.source = self.out = ""
        self.names: list[str] = []
        self.given: dict[str, list[str]] = {}
        self.words: list[str] = []  # the options as age_tool takes them
        self.is_refused = self.is_for_keys = False  # (by age_tool; whether OUT is for recipients)

    def take(self, option: str, value: str) -> None:
        """An option, with its value if it takes one."""
        self.given.setdefault(option, []).append(value)
        if option not in OWN_OPTIONS:
            value = for_tool(value, "in") if option == "--pass" else value
            self.words += [option, value] if OPTIONS[option][0] else [option]

    def has(self, *options: str) -> bool:
        """Whether one of these options was given."""
        return any(it in self.given for it in options)

    def all(self, *options: str) -> list[str]:
        """The values that were given to these options."""
        return [value for it in options for value in self.given.get(it, [])]


def for_tool(name: str, stream: str) -> str:
    """A name as age_tool takes it: `-` is a standard stream, "in" or "out"."""
    return f"/dev/std{stream}" if name == "-" else name


def request_of(words: list[str], may_make: bool = False) -> Request:
    """What a command and its words ask for."""
    asked, rest = Request(words[0], may_make), iter(words[1:])
    for word in rest:
        option, has_value, value = word.partition("=")
        is_known = option in COMMANDS[asked.command]
        if word == "--":
            asked.names += rest
        elif word == "-" or not word.startswith("-"):
            asked.names.append(word)
        elif is_known and OPTIONS[option][0]:
            if not has_value and (value := next(rest, "")) == "":
                raise Misuse(f"{option} takes a value: agefile {asked.command} --help")
            asked.take(option, value)
        elif is_known and not has_value:
            asked.take(option, "")
        elif word in ("-h", "--help"):
            from help import explain

            raise SystemExit(explain(asked.command))
        else:
            asked.is_refused = True
            asked.words.append(word)
    see_words(asked)
    return asked


def see_words(asked: Request) -> None:
    """Refuses what doesn't go together, unless age_tool does."""
    names = ["IN"] if asked.command == "test" else ["IN", "OUT"]
    asked.is_for_keys = asked.command == "encrypt" and asked.has(*FOR_KEYS)
    is_own = asked.command in OWN_COMMANDS or asked.is_for_keys
    keys = [it for it in OPENING if asked.has(it)]
    wrong = (
        [it for it in asked.words if it.startswith("--") and it != "--no-clobber"]
        if asked.is_for_keys
        else []
    )
    if wrong:
        raise Misuse(
            f"{wrong[0]} isn't for a file that is written for recipients: agefile encrypt --help"
        )
    if len(keys) > 1 and (is_own or "--identity" in keys):
        raise Misuse(
            f"give one of {', '.join(OPENING[:-1])} and {OPENING[-1]}: {' and '.join(keys)} were given"
        )
    if asked.has("--overwrite") and asked.has("--no-clobber"):
        raise Misuse("give one of --overwrite and --no-clobber")
    if [*asked.names, *asked.all("--identity", "--recipients-file", "--pass")].count("-") > 1 + (
        asked.names[1:2] == ["-"]
    ):
        raise Misuse("standard input, `-`, is named twice")
    asked.is_refused |= len(asked.names) != len(names)
    if asked.is_refused and is_own:
        raise Misuse(
            f"the words of {asked.command} are options and {' and '.join(names)}: agefile {asked.command} --help"
        )
    if not asked.is_refused:
        asked.source, asked.out = [*asked.names, "/dev/null"][:2]
