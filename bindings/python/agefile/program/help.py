"""What `agefile --help` and `agefile COMMAND --help` say."""
from __future__ import annotations

from command_line import COMMANDS, OPTIONS
from run_age_tool import become
from telling import write

HELP = """Encrypt and decrypt age files (age-encryption.org/v1).

Usage: agefile COMMAND [OPTIONS] IN OUT
       agefile [-e | -d] [-p] [-r AGE1..] [-R FILE] [-i FILE] [-o OUT] [IN]

Commands, and what carries them out:
  encrypt  Encrypt IN to OUT under a passphrase             proved program
           or, with --recipient, for keys of age-keygen     tested module
  decrypt  Decrypt IN to OUT                                proved program
  test     Decrypt IN and write nothing                     proved program
  restore  Decrypt IN to OUT so that no signal loses it:    proved program,
           the same command goes on where one stopped       fed by agefile
  resume   Continue a decryption that saved a position      proved program
  inspect  Show what the header of IN says                  proved program
  drill    Show how a reader reacts to altered pieces       proved program
  salvage  Write what still opens of a damaged IN           tested module
  help     Explain a command, or a fault: agefile help 17   proved program
  proof    Read aloud what is proved, and what it rests on

The proved program is age_tool, which a checker proved to write the complete
plaintext or say why not. The tested module is Python over a proved C library.

- is standard input or output. Without --pass or a key, agefile asks for the
passphrase. An existing OUT is refused unless --overwrite is given. Only status 0
means that OUT is complete. Status 1 is a fault; 2 is a bad command line.

Without a command it takes the words of age, whose files it reads and writes:
then names are optional, and an existing OUT is overwritten. Armor (-a), ssh
keys and plugins aren't supported.

`agefile COMMAND --help` explains a command.
"""
WORDS = {"resume": "--position FILE --old FILE [OPTIONS] IN OUT", "test": "[OPTIONS] IN"}
MORE = {
    "test": "It is agefile decrypt IN /dev/null.\n\n",
    "restore": """Decrypts IN to OUT, which exists only once it is complete and on the disk. A run
that ends early, as by Ctrl-C or when IN breaks off, keeps what it has in the
folder OUT.restore, and the same command goes on from there, also if IN is a
stream that begins anew. A run that is killed goes back to the last such stop.
While it goes on from one, the disk needs room for OUT twice.

""",
    "salvage": """Writes each chunk of IN that still opens at its place in OUT, with zeros for those
that don't, and says what is lost. The status is 0 only if nothing is.

""",
}


def explain(command: str) -> int:
    """Explains a command: what agefile adds to it, and what age_tool says of it."""
    options = [
        f"  {f'{it} {OPTIONS[it][0]}':<23} {OPTIONS[it][1]}\n"
        for it in COMMANDS[command]
        if OPTIONS[it][1]
    ]
    write(
        1,
        f"Usage: agefile {command} {WORDS.get(command, '[OPTIONS] IN OUT')}\n\n{MORE.get(command, '')}{''.join(options)}",
    )
    if command in ("restore", "salvage"):
        return 0
    command = "decrypt" if command == "test" else command
    write(1, f"\nand the options of age_tool {command}, which follow.\n\n")
    return become([command, "--help"])
