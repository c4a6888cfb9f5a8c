"""What tests of whole files have in common: files and positions that Python makes. The file key is the bytes 0 to 15, the payload nonce 100
to 115, and the one stanza, of type `x`, has an empty body."""
import functools
import resource
import signal

from tests.case import Case
from tests.standard import OwnCipher, RealBox, payload_of, text_of

KEY, NONCE = bytes(range(16)), bytes(range(100, 116))
# The header and the payload nonce.
FRONT = b"age-encryption.org/v1\n-> x\n\n--- 1mO1p2iHr1hXsC4oPA3JQsoy5EVuHeaNqF7FyjrAkCE\n" + NONCE
LONG = bytes(i % 251 for i in range(200_000))
# The id of all these files.
FILE_ID = "7753982837e300562bd5867c8e7a779f7ec1108a965a8e8d64ab9ae6503a3b72"
# The chain over no chunk, over one and over two of the long text, and the tag of the position there.
POSITIONS = (
    (64 * "0", "f0034a75f64bf49e9a20840c04d46964cdb08da96a3cc2327e5f0e036c5ba004"),
    (
        "bdd0f72365f97335804629358ce658ffb0e0e9fb468614d0676b084ac14aba16",
        "27a674a0590ca523e509cebd309c8909255550446cc0316f456805c95c7e78f1",
    ),
    (
        "67ffbfa5bd20cb4433f6be27adf40f34a9c8b17511c0b2d683e4c56b2409068e",
        "844343d0fa1066850edeeedda735ea757fba6c5cea36fb3f0c14f8e7e944b249",
    ),
)


def letters(digits):
    return text_of(bytes.fromhex(digits)).decode()


def position(index, chain=None, tag=None):
    """The text of the position after this many chunks of the long text, or of one with another chain or tag."""
    digits = FILE_ID, chain or POSITIONS[index][0], tag or POSITIONS[index][1]
    return f"age-position/v2 {index} {' '.join(map(letters, digits))}\n".encode()


@functools.cache
def file_of(text):
    """The file of a text."""
    return FRONT + payload_of(RealBox(KEY, NONCE, OwnCipher), text)


class KnownFilesCase(Case):
    """A run of `decrypt` or `resume`, its fault, what OUT holds, and the position that it saved."""

    def ends(self, name, ended, fault, text, index=None):
        """Counts whether a run ended with this fault, 0 for none, after this text, and saved the position after this many chunks."""
        number = int(ended.stderr.split()[1]) if ended.stderr else 0
        written = self.read("out") if self.is_there("out") else b""
        saved = self.read("position") if self.is_there("position") else None
        wanted = None if index is None else position(index)
        self.see(
            name,
            (number, written, saved) == (fault, text, wanted),
            number,
            len(written),
            saved,
            ended.stderr,
        )

    def confined(self, room, *words):
        """A run in which no file grows beyond this many bytes, unless that is negative."""

        def confine():
            # Without the signal that would end the program, a write beyond the limit fails.
            signal.signal(signal.SIGXFSZ, signal.SIG_IGN)
            resource.setrlimit(resource.RLIMIT_FSIZE, (room, room))

        self.remove("out", "position")
        return self.tool(
            *words, "--save", "position", "in", "out", preexec_fn=confine if room >= 0 else None
        )

    def decrypt(self, file, room=-1, key=KEY):
        self.write("in", file)
        return self.confined(room, "decrypt", "--file-key", key.hex())
