"""Reads headers that Python makes, by the C library and by the program."""
import base64
import ctypes
import random

from tests import bindings
from tests.bindings import BindingsCase, by_python, flipped
from tests.case import feed
from tests.standard import ALPHABET, header_text, text_of

MORE = 254
# What Python made for the passphrase `kudebafon` at work factor 1, around the body and the MAC.
FRONT, BODY, MAC = (
    b"age-encryption.org/v1\n-> scrypt EBESExQVFhcYGRobHB0eHw 1\n",
    bytes.fromhex("d73ddfff24c58945c3c156e253f4d9d80ba911a287ea65917623f8cc9a35446c"),
    bytes.fromhex("8f64560963e0bd7226b327cddfdd2080dc229f986df67c628fbbbe686c1682cb"),
)


def some_header(rnd):
    """Some stanzas, and their header."""
    letters = range(0x21, 0x7F)
    stanzas = [
        (
            [bytes(rnd.choices(letters, k=rnd.randint(1, 12))) for _ in range(rnd.randint(1, 4))],
            rnd.randbytes(rnd.randrange(150)),
        )
        for _ in range(rnd.randint(1, 4))
    ]
    return stanzas, header_text(stanzas, rnd.randbytes(32))


def read(front):
    """The length of the header that some bytes begin with, and its stanzas, by the C library; or its fault's number, and nothing."""
    library = bindings.module()._library
    size, count, work, written = (
        ctypes.c_size_t(),
        ctypes.c_size_t(),
        ctypes.c_uint32(),
        ctypes.c_size_t(),
    )
    most = ctypes.c_size_t(len(front))
    answer = library.C.agefile_header(
        front, most, ctypes.byref(size), ctypes.byref(count), ctypes.byref(work)
    )
    if answer != 0:
        return answer, None
    places, bodies = (library.StanzaPlace * count.value)(), ctypes.create_string_buffer(len(front))
    told = ctypes.byref(count), bodies, most, ctypes.byref(written)
    assert library.C.agefile_stanzas(front, most, places, ctypes.c_size_t(len(places)), *told) == 0
    return size.value, [
        stanza(front, bodies.raw[: written.value], it) for it in places[: count.value]
    ]


def stanza(front, bodies, place):
    """The arguments and the body of the stanza that stands there."""
    arguments = front[place.args_at : place.args_at + place.args_len]
    return arguments.split(b" "), bodies[place.body_at : place.body_at + place.body_len]


class HeadersTest(BindingsCase):
    """What the C library and the program tell of a header."""

    def test_round_trips(self):
        """A thousand headers of all shapes: what they say, whatever follows them; and that each is cut before its end."""
        rnd = random.Random(2024)
        wrong = []
        for turn in range(1_000):
            stanzas, header = some_header(rnd)
            cut = rnd.randrange(len(header))
            if read(header + b"x" * rnd.randrange(3)) != (len(header), stanzas) or read(
                header[:cut]
            ) != (MORE, None):
                wrong.append((turn, header))
        self.see(f"{len(wrong)} of 1,000", not wrong, wrong[:1])

    def test_pieces(self):
        """The program reports them however they are cut."""
        rnd = random.Random(39)
        for turn in range(100):
            stanzas, header = some_header(rnd)
            source, thread = feed(header, rnd.randint(1, 40))
            ended = self.tool("inspect", stdin=source)
            thread.join()
            said = [
                b"stanza %s %d %d" % (words[0], len(words) - 1, len(body))
                for words, body in stanzas
            ]
            wanted = [
                b"version age-encryption.org/v1",
                b"header %d" % len(header),
                *said,
                b"rest 0",
                b"plain none",
            ]
            self.see(f"header {turn}", ended.stdout.splitlines() == wanted, header, ended)

    def test_bodies(self):
        for length, size in ((0, 76), (47, 139), (48, 141), (49, 143), (96, 206)):
            body = random.Random(length).randbytes(length)
            self.see(
                f"{length} bytes",
                read(header_text([([b"x"], body)], bytes(32))) == (size, [([b"x"], body)]),
            )
        spelled = header_text([([b"x"], b"")], bytes(32)).replace(
            b"x\n\n", b"x\n" + ALPHABET + b"\n\n"
        )
        self.see("the alphabet", read(spelled) == (141, [([b"x"], base64.b64decode(ALPHABET))]))

    def test_arguments(self):
        """An argument is one or more of the bytes 21 to 7e."""
        for given in (b"x", b"!~", b"a b"):
            header = header_text([([given], b"")], bytes(32))
            self.see(f"{given}", read(header)[0] == len(header))
        for given in (b"", b"a  b", b"\x7f", b"\xc3\xa4", b"\t", b"\0"):
            self.see(
                f"{given} is refused", read(header_text([([given], b"")], bytes(32))) == (3, None)
            )

    def test_each_bit(self):
        """Each bit of a stanza's body is noticed by its tag, and each of the MAC by the key."""

        def number(body, mac):
            return by_python(
                FRONT + text_of(body) + b"\n--- " + text_of(mac) + b"\n" + bytes(32),
                passphrase="kudebafon",
            )[0][0]

        self.see("the key isn't found", number(BODY, MAC) == 17)
        for bit in range(256):
            at, mask = divmod(bit, 8)
            self.see(f"bit {bit} of the body", number(flipped(BODY, at, 1 << mask), MAC) == 13)
            self.see(f"bit {bit} of the MAC", number(BODY, flipped(MAC, at, 1 << mask)) == 14)
