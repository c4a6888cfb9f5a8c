"""encrypt(), decrypt() and inspect() of the Python module: bytes, shared secrets, changed bits, and refused memory."""
import io
import itertools
import os
import random
import sys

from tests import process
from tests.bindings import KEY, PYTHON, agefile, by_python, flipped, setUpModule
from tests.python.files import AGE, RECIPIENT, SECRET, ModuleCase, Pieces, fault_of

# a file for an X25519 recipient, its shared secret and recipient, and its text, as in tests/program/transcripts/shared.run
SHARED_HEADER = (
    b"age-encryption.org/v1\n-> X25519 AQIDBAUGBwgJCgsMDQ4PEBESExQVFhcYGRobHB0eHyA\n"
    b"jZAdkj7SfLxba9aaDaLOH15VqHxjezbflkA4yhWbOAQ\n--- bFHWTtINPd+NDhBKPJJS9Mjszxl4rvMbhTUfrtdiPco\n"
)
SHARED_EMPTY = (
    SHARED_HEADER + b"defghijklmnopqrs" + bytes.fromhex("c1ab8f53158f15b5b4a67f29cf8009b3")
)


def from_the_end(file):
    """The text of a file whose end is read first."""
    end = file.seek(-3, io.SEEK_END)
    last = file.read()
    file.seek(0)
    return file.read(end) + last


def pushed(data, **key):
    """The text of a file by a Decryptor."""
    with agefile.Decryptor(**key) as it:
        return it.update(data) + it.finish()


class InMemoryTest(ModuleCase):
    def test_shared(self):
        keys = {"shared": (SECRET, RECIPIENT)}
        self.see(
            "a shared secret doesn't open its file",
            by_python(SHARED_EMPTY, **keys) == ((0, None), b""),
        )
        for what, pair, number in (
            ("another secret", (SECRET[::-1], RECIPIENT), 13),
            ("another recipient", (SECRET, SECRET), 13),
            ("a zero secret", (bytes(32), RECIPIENT), 15),
        ):
            self.see(
                f"{what}: not {number}", by_python(SHARED_EMPTY, shared=pair)[0] == (number, None)
            )
        self.see(
            "a passphrase for a file of a recipient: not 12",
            by_python(SHARED_EMPTY, passphrase="pw")[0] == (12, None),
        )

    def test_refused_memory(self):
        """What can't be allocated is an AgeError and a MemoryError."""
        script = (
            "import agefile, io, resource\nresource.setrlimit(resource.RLIMIT_AS, (1 << 30, 1 << 30))\n"
            "try: agefile.open(io.BytesIO(), 'wb', passphrase='pw', work=22)\n"
            "except MemoryError as fault: print(isinstance(fault, agefile.AgeError), fault.number, fault)"
        )
        run = process.run(
            [sys.executable, "-B", "-c", script],
            env={**os.environ, "PYTHONPATH": str(PYTHON)},
            capture_output=True,
            text=True,
        )
        self.see(
            "refused memory",
            run.stdout == "True 28 there isn't enough memory (28 Memory)\n",
            run.stdout,
            run.stderr,
        )

    def test_changed_bits(self):
        """One changed bit, at each place of a file: the key isn't its own, or it isn't whole, or its work factor is too high."""
        text = b"ten bytes."
        data = self.sealed(text)
        work, mac = data.index(b" 1\n") + 1, data.index(b"\n--- ") + 1
        ways = {
            "read": lambda given, **key: agefile.open(io.BytesIO(given), **key).read(),
            "read from the end": lambda given, **key: from_the_end(
                agefile.open(io.BytesIO(given), **key)
            ),
            "decrypt": agefile.decrypt,
            "Decryptor": pushed,
        }

        def is_right(fault, place, by_key):
            if getattr(fault, "number", None) == 14:
                return isinstance(fault, agefile.WrongKey if by_key else agefile.NotWhole)
            of_header = place < (mac + 48 if by_key else mac)
            kinds = (
                agefile.NotWhole,
                *[agefile.WrongKey] * of_header,
                *[agefile.WorkTooHigh] * (place == work and not by_key),
            )
            return isinstance(fault, kinds)

        places = list(itertools.product(range(len(data)), range(8)))
        for key, (what, way) in itertools.product(
            ({"passphrase": "pw", "max_work": 4}, {"file_key": KEY}), ways.items()
        ):
            found = [
                (place, bit, fault_of(way, flipped(data, place, 1 << bit), **key))
                for place, bit in places
            ]
            wrong = [it for it in found if not is_right(it[2], it[0], "file_key" in key)]
            self.see(
                f"{len(found)} bits, {what} by {[*key]}",
                wrong == [] and len(found) == 1_528,
                wrong[:5],
            )
            self.see(f"none of them, {what} by {[*key]}", way(data, **key) == text)
        high = [
            bit
            for bit in range(8)
            if isinstance(
                fault_of(
                    agefile.decrypt, flipped(data, work, 1 << bit), passphrase="pw", max_work=4
                ),
                agefile.WorkTooHigh,
            )
        ]
        self.see("work factors 5 and 9, of 1", high == [2, 3], high)

    def test_in_memory(self):
        """encrypt and decrypt of bytes."""
        for length in (0, 1, 200_000):
            text = random.Random(length).randbytes(length)
            data = agefile.encrypt(text, passphrase="pw", work=1)
            self.see(f"encrypt, {length} bytes", self.judged(data) == ((0, None), text))
            self.see(
                f"decrypt, {length} bytes", agefile.decrypt(self.sealed(text), file_key=KEY) == text
            )
        self.see(
            "decrypt a damaged file",
            isinstance(
                fault_of(agefile.decrypt, flipped(data, -1), passphrase="pw"), agefile.NotWhole
            ),
        )

    def test_inspect(self):
        """What a file says of itself, as age_tool inspect says it; a file object stands where it stood."""
        more, bad = SHARED_EMPTY.replace(b"\n-> ", b"\n-> x ~!\n\n-> ", 1), self.sealed(
            b""
        ).replace(b" 1\n", b" 01\n", 1)
        works = (
            (self.sealed(b"text"), 1),
            ((AGE / "passphrase.age").read_bytes(), 18),
            (SHARED_EMPTY, None),
            (more, None),
            (bad, None),
        )
        for data, work in works:
            self.write("it.age", data)
            lines = [
                it.split(" ")
                for it in self.tool("inspect", "it.age", check=True).stdout.decode().splitlines()
            ]
            under = io.BytesIO(b"in front" + data)
            under.seek(8)
            for given in (self.path("it.age"), str(self.path("it.age")), under, Pieces(data, 10)):
                found = agefile.inspect(given)
                told = [["stanza", it.type, str(len(it.arguments))] for it in found.stanzas]
                self.see(
                    f"the stanzas of {given}",
                    told == [it[:3] for it in lines if it[0] == "stanza"],
                    found,
                    lines,
                )
                self.see(
                    f"the header of {given}",
                    ["header", str(found.header_size)] in lines and found.work == work,
                    found,
                    lines,
                )
            self.see("a file that is inspected stands where it stood", under.tell() == 8)
        self.see("arguments", agefile.inspect(io.BytesIO(more)).stanzas[0] == ("x", ["~!"]))
        for what, given, number in (
            ("no age file", b"x\n", 1),
            ("a cut header", data[:60], 254),
            ("two kinds", more.replace(b"-> x", b"-> scrypt"), 9),
            ("armor", b"-----BEGIN AGE ENCRYPTED FILE-----\n", 2),
        ):
            self.see(
                f"{what} is inspected",
                getattr(fault_of(agefile.inspect, io.BytesIO(given)), "number", None) == number,
            )
