"""Tries the keys of age-keygen in the Python module: files that it reads by them, and files that it writes for their recipients; typed
passphrases; and arguments of text."""
import importlib.util
import io
import os
import random
import re
import sys
import unittest.mock

from tests import process
from tests.bindings import PYTHON, agefile, flipped, setUpModule
from tests.case import needs
from tests.python.files import AGE, ModuleCase, Pieces, fault_of

HAS_CRYPTOGRAPHY = importlib.util.find_spec("cryptography") is not None
needs_cryptography = unittest.skipUnless(HAS_CRYPTOGRAPHY, "needs cryptography")

LOW_ORDER = (
    0,
    1,
    2**255 - 20,
    2**255 - 19,
    2**255 - 18,
    325606250916557431795983626356110631294008115727848805560023387167927233504,
    39382357235489614581723060781553021112529911719440698176882885853963445705823,
)


def bech32_of(prefix, held):
    """The Bech32 text of bytes, as BIP 173's reference makes it."""
    number, bits = int.from_bytes(held, "big") << -8 * len(held) % 5, -(-8 * len(held) // 5)
    values = [number >> 5 * it & 31 for it in reversed(range(bits))]
    before = [*(ord(it) >> 5 for it in prefix), 0, *(ord(it) & 31 for it in prefix)]
    check = agefile._keys._checksum([*before, *values, *[0] * 6]) ^ 1
    values += [check >> 5 * it & 31 for it in reversed(range(6))]
    return f"{prefix}1{''.join(agefile._keys.LETTERS[it] for it in values)}"


def made_keys(count):
    """Keys and their recipients, by age-keygen."""
    said = [
        process.run(["age-keygen"], capture_output=True, text=True, check=True).stdout.split()
        for _ in range(count)
    ]
    return [(it[-1], next(word for word in it if word.startswith("age1"))) for it in said]


class KeysTest(ModuleCase):
    """Reading by a key, and writing for recipients."""

    def test_bech32(self):
        """The test vectors of BIP 173."""
        valid = (
            "A12UEL5L",
            "a12uel5l",
            "an83characterlonghumanreadablepartthatcontainsthenumber1andtheexcludedcharactersbio1tt5tgs",
            "abcdef1qpzry9x8gf2tvdw0s3jn54khce6mua7lmqqqxw",
            "11qqqqqqqqqqqqqqqqqqqqqqqqqqqqqqqqqqqqqqqqqqqqqqqqqqqqqqqqqqqqqqqqqqqqqqqqqqqqqqqqqqc8247j",
            "split1checkupstagehandshakeupstreamerranterredcaperred2y9e3w",
            "?1ezyfcl",
        )
        invalid = (
            "\x201nwldj5",
            "\x7f1axkwrx",
            "\x801eym55h",
            "an84characterslonghumanreadablepartthatcontainsthenumber1andtheexcludedcharactersbio1569pvx",
            "pzry9x0s0muk",
            "1pzry9x0s0muk",
            "x1b4n0q5v",
            "li1dgmt3",
            "de1lg7wt\xff",
            "A1G7SGD8",
            "10a06t8",
            "1qzzfhee",
            "A12uEL5L",
        )
        for it in valid:
            self.see(f"Bech32: {it}", fault_of(agefile._keys.bech32_decoded, it) is None)
        for it in invalid:
            self.see(
                f"Bech32, invalid: {it!r}",
                isinstance(fault_of(agefile._keys.bech32_decoded, it), ValueError),
            )
        # (its bytes are BIP 173's list of all letters)
        held = bytes.fromhex("00443214c74254b635cf84653a56d7c675be77df")
        self.see(
            "the bytes of a Bech32 text", agefile._keys.bech32_decoded(valid[3]) == ("abcdef", held)
        )

    @needs_cryptography
    def test_identities(self):
        """Files of age for the keys of age-keygen."""
        key, other = (
            agefile._keys.identities_in((AGE / name).read_text())
            for name in ("key.txt", "other.txt")
        )
        public = [
            line.split()[-1]
            for line in (AGE / "key.txt").read_text().splitlines()
            if "public key" in line
        ][0]
        secret, nine = agefile._keys.secret_of(key[0]), bytes([9]) + bytes(31)
        exchanged = agefile._keys.x25519_of(secret)
        self.see(
            "the public key of a key",
            exchanged(nine) == agefile._keys.bech32_decoded(public)[1]
            and agefile._keys.recipient_of(key[0]) == public,
        )
        self.see("a point of low order", exchanged(bytes(32)) == bytes(32))
        for name, keys, want in (
            ("one.age", key, b"hello, recipient\n"),
            ("one.age", [*other, *key], b"hello, recipient\n"),
            ("two.age", key, b"hello, both\n"),
            ("two.age", other, b"hello, both\n"),
            ("other.age", other, b"hello, other\n"),
            ("one.age", other, 13),
            ("passphrase.age", key, 12),
            # (for a pair of numbers that anybody can guess, by tests/standard.py)
            ("anyone.age", key, 13),
        ):
            of_file = "# of age-keygen\n\n" + "\r\n".join(keys) + "\n"
            for given in (
                keys,
                iter(keys),
                of_file,
                io.StringIO(of_file),
                [of_file, *keys],
                *(keys if len(keys) == 1 else []),
            ):
                fault = got = None
                try:
                    with agefile.open(AGE / name, identity=given) as file:
                        got = file.read()
                except agefile.WrongKey as it:
                    fault = it.number
                self.see(f"{name} by a key", want in (got, fault), got, fault)
        with agefile.open(AGE / "passphrase.age", passphrase="correct horse") as file:
            self.see("a file of age for a passphrase", file.read() == b"hello, passphrase\n")
        with open(AGE / "key.txt", encoding="ascii") as file:
            self.see(
                "an open key file",
                agefile.open(AGE / "one.age", identity=file).read() == b"hello, recipient\n",
            )
        self.see(
            "the keys in a file",
            agefile.identities_in((AGE / "key.txt").read_text()) == key and len(key) == 1,
        )
        bad = ("age1xyz", public, key[0][:-1], "", key[0].lower().replace("1", "I"))
        for it in bad:
            self.see(
                f"a bad key: {it}",
                isinstance(fault_of(agefile.open, AGE / "one.age", identity=it), ValueError),
            )
        self.see(
            "a key and a passphrase",
            isinstance(
                fault_of(agefile.open, AGE / "one.age", identity=key[0], passphrase="pw"), TypeError
            ),
        )
        data = (AGE / "one.age").read_bytes()
        for what, given, number in (
            ("cut in its header", data[:90], 254),
            ("that isn't age's", b"x\n" + data, 1),
            ("damaged", flipped(data, -1), 17),
        ):
            fault = fault_of(lambda: agefile.open(io.BytesIO(given), identity=key[0]).read())
            self.see(f"a file {what}, by a key", getattr(fault, "number", None) == number, fault)

    @needs_cryptography
    @needs("age", "age-keygen")
    def test_many_recipients(self):
        """A header of 10,001 recipients is opened for the last of them, in time that is linear in its length."""
        keys = [
            process.run(["age-keygen"], capture_output=True, text=True, check=True).stdout
            for _ in range(2)
        ]
        one, other = (next(word for word in it.split() if word.startswith("age1")) for it in keys)
        self.path("many").write_text(f"{other}\n" * 10_000 + f"{one}\n")
        data = process.run(
            ["age", "-R", self.path("many")], input=b"text", capture_output=True, check=True
        ).stdout
        looked, real = [0], agefile._keys._opens

        def counted(key, body):
            looked[0] += 1
            return real(key, body)

        with unittest.mock.patch.object(agefile._keys, "_opens", counted):
            for pieces in (io.BytesIO(data), Pieces(data, 1_000)):
                self.see("the text", agefile.open(pieces, identity=keys[0]).read() == b"text")
        self.see(f"each stanza is tried once, {looked[0]}", looked[0] == 2 * 10_001)
        self.see(
            "its stanzas",
            [it.type for it in agefile.inspect(io.BytesIO(data)).stanzas] == ["X25519"] * 10_001,
        )

    def test_text_that_cannot_be(self):
        """An encoding or a newline that there is none of is noticed before the file is touched; a byte order mark is written and read."""
        for more, kind in (
            ({"encoding": "nonsense"}, LookupError),
            ({"newline": "zz"}, ValueError),
        ):
            for mode in ("wt", "xt", "rt"):
                self.write("kept.age", b"as it was")
                fault = fault_of(agefile.open, self.path("kept.age"), mode, passphrase="pw", **more)
                self.see(
                    f"{more}, {mode}",
                    isinstance(fault, kind) and self.read("kept.age") == b"as it was",
                    fault,
                )
        for encoding in ("utf-16", "UTF32", "utf-16-le", "utf-8-sig", "utf-8"):
            with agefile.open(
                self.path("text.age"), "wt", passphrase="pw", work=1, encoding=encoding
            ) as file:
                file.write("täxt\n")
            got = agefile.decrypt(self.read("text.age"), passphrase="pw")
            self.see(f"text in {encoding}", got == "täxt\n".encode(encoding), got)
            with agefile.open(
                self.path("text.age"), "rt", passphrase="pw", encoding=encoding
            ) as file:
                self.see(f"text in {encoding}, read", file.read() == "täxt\n")

    @needs("age", "age-keygen")
    def test_files_of_age(self):
        """What age makes for keys of its own."""
        keys = [
            process.run(["age-keygen"], capture_output=True, text=True, check=True).stdout
            for _ in range(3)
        ]
        recipients = [word for it in keys for word in it.split() if word.startswith("age1")]
        for length in (0, 1, 65_536, 200_000):
            text = random.Random(length).randbytes(length)
            for count in (1, 3):
                words = [part for it in recipients[-count:] for part in ("-r", it)]
                data = process.run(
                    ["age", *words], input=text, capture_output=True, check=True
                ).stdout
                with agefile.open(
                    io.BytesIO(data), identity=agefile._keys.identities_in(keys[-1])
                ) as file:
                    self.see(f"a file of age of {length} bytes for {count}", file.read() == text)

    def read_by_age(self, data, key):
        """What age says of a file for a key of its own."""
        self.write("key", key.encode())
        run = process.run(["age", "-d", "-i", self.path("key")], input=data, capture_output=True)
        return run.stdout if run.returncode == 0 else run.stderr

    @needs("age", "age-keygen")
    @needs_cryptography
    def test_recipients(self):
        """What is written for recipients, age and the module read by the key of each."""
        keys = made_keys(3)
        for length in (0, 1, 65_536, 200_000):
            text = random.Random(length).randbytes(length)
            for count in (1, 3):
                data = agefile.encrypt(text, recipient=[it for _, it in keys[:count]])
                stanza = rb"-> X25519 [\w+/]{43}\n[\w+/]{43}\n"
                self.see(
                    "the header",
                    re.match(
                        rb"age-encryption.org/v1\n(%b){%d}--- [\w+/]{43}\n" % (stanza, count), data
                    ),
                    data[:500],
                )
                for key, _ in keys[:count]:
                    self.see(
                        f"{length} bytes for {count}: age", self.read_by_age(data, key) == text
                    )
                    self.see(
                        f"{length} bytes for {count}", agefile.decrypt(data, identity=key) == text
                    )
                others = [key for key, _ in keys[count:]]
                self.see(
                    f"{length} bytes for {count}: another key",
                    not others
                    or isinstance(
                        fault_of(agefile.decrypt, data, identity=others), agefile.WrongKey
                    ),
                )
        one = keys[0][1]
        of_file = f"# of two\n\n{one}\r\n{keys[1][1].upper()}\n"
        path = self.path("made.age")
        for given in (
            one,
            [one],
            iter([one]),
            of_file,
            io.StringIO(of_file),
            [of_file, keys[2][1]],
        ):
            with agefile.open(path, "wb", recipient=given) as file:
                file.write(b"text")
            self.see(f"for {given!r}", self.read_by_age(path.read_bytes(), keys[0][0]) == b"text")
        with agefile.open(path, "wt", recipient=one) as file:
            file.write("text")
        with agefile.open(path, "rt", identity=keys[0][0]) as file:
            self.see("as text", file.read() == "text")
        data = [agefile.encrypt(b"text", recipient=[one, one]) for _ in range(2)]
        shares = [re.findall(rb"-> X25519 (.*)\n", it) for it in data]
        self.see(
            "each stanza has a share of its own",
            len({*shares[0], *shares[1]}) == 4 and data[0][-36:-20] != data[1][-36:-20],
            shares,
        )

    @needs_cryptography
    def test_refused_recipients(self):
        """A recipient that isn't one is refused before the file is touched, and isn't shown: it may be a secret key."""
        public = re.search(r"age1\w+", (AGE / "key.txt").read_text())[0]
        secret = (AGE / "key.txt").read_text().split()[-1]
        point = agefile._keys.bech32_decoded(public)[1]
        self.see("bech32_of", bech32_of("age", point) == public)
        bad = [
            secret,
            secret.lower(),
            public[:-1],
            f"{public}q",
            public[:-1] + "q",
            public[:8] + public[8:].upper(),
            public.replace("age1", "agf1"),
            "x",
            f"ssh-ed25519 {public}",
            bech32_of("age", point[:31]),
            bech32_of("age", point + b"0"),
            bech32_of("age1x", point)[:62],
            bech32_of("age1xy", point[:30] + b"0"),
            "age1" + "q" * 58,
            *(bech32_of("age", it.to_bytes(32, "little")) for it in LOW_ORDER),
        ]
        path = self.path("kept")
        path.write_bytes(b"kept")
        for it in bad:
            for given in (it, [public, it], io.StringIO(f"{public}\n{it}\n")):
                fault = fault_of(agefile.open, path, "wb", recipient=given)
                self.see(
                    f"{it} is taken",
                    type(fault) is ValueError and it[-20:] not in str(fault),
                    repr(fault),
                )
            self.see(
                f"the number of {it}",
                it in bad[-len(LOW_ORDER) :] or "recipient 2: " in str(fault),
                fault,
            )
        for what, given in (("nothing", []), ("an empty text", ""), ("comments", "# none\n\n")):
            fault = fault_of(agefile.open, path, "wb", recipient=given)
            self.see(what, type(fault) is ValueError and "age1" in str(fault), repr(fault))
        for given in (5, public.encode(), [public.encode()], AGE / "key.txt"):
            self.see(
                f"{given!r}", type(fault_of(agefile.open, path, "wb", recipient=given)) is TypeError
            )
        for mode, words, kind in (
            ("wb", {"recipient": public, "passphrase": "pw"}, TypeError),
            ("wb", {"recipient": public, "file_key": bytes(16)}, TypeError),
            ("rb", {"recipient": public}, ValueError),
            ("rb", {"recipient": public, "identity": secret}, ValueError),
            ("wb", {"identity": secret}, ValueError),
            ("wb", {}, ValueError),
            ("wb", {"recipient": public, "work": 23}, ValueError),
        ):
            self.see(
                f"{mode} {[*words]}", type(fault_of(agefile.open, path, mode, **words)) is kind
            )
        self.see(
            "encrypt by two",
            type(fault_of(agefile.encrypt, b"", recipient=public, passphrase="pw")) is TypeError,
        )
        self.see("encrypt by none", type(fault_of(agefile.encrypt, b"")) is ValueError)
        fault = fault_of(agefile.open, path, "wb", recipient=[public] * 10_700)
        self.see(
            "a header of more than 1 MiB",
            type(fault) is ValueError and "10,700" in str(fault),
            repr(fault),
        )
        self.see("a refused call changes the file", path.read_bytes() == b"kept")

    @needs_cryptography
    def test_read_back(self):
        """What the proved library doesn't read back isn't written, nor what can't be made."""
        public = re.search(r"age1\w+", (AGE / "key.txt").read_text())[0]
        made, path = agefile._recipients, self.path("kept")
        path.write_bytes(b"kept")
        cases = {"wrapping_key": lambda *_: bytes(32), "base64_of": lambda it: b"A" * 43}
        for name, wrong in cases.items():
            with unittest.mock.patch.object(made, name, wrong):
                fault = fault_of(agefile.open, path, "wb", recipient=public)
            self.see(
                f"another {name}",
                isinstance(fault, agefile.AgeError) and path.read_bytes() == b"kept",
                repr(fault),
            )
        program = "import sys, agefile; sys.modules['cryptography'] = sys.modules['cryptography.hazmat.primitives.asymmetric.x25519'] = None; agefile.open('kept', 'wb', recipient=sys.argv[1])"
        env = {**os.environ, "PYTHONPATH": str(PYTHON)}
        run = process.run(
            [sys.executable, "-B", "-c", program, public],
            cwd=self.room,
            env=env,
            capture_output=True,
            text=True,
        )
        said = run.stderr.splitlines()[-1]
        self.see(
            "without cryptography",
            said == "ImportError: keys of age-keygen need the package cryptography"
            and path.read_bytes() == b"kept",
            said,
        )
