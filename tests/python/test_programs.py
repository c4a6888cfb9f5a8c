"""The programs that users of the Python module write first, each run. Beside each are its lines, and those of the same in Go over age's own
library (filippo.io/age 1.1.1), which has nothing for those without a second number. (bindings/go and bindings/rust have them in Go and in Rust.)"""
import asyncio
import io
import re
import shutil
import zipfile

from tests.bindings import agefile, flipped, plain_of, setUpModule
from tests.python.files import AGE, ModuleCase
from tests.python.test_keys import needs_cryptography

KEY = {"passphrase": "correct horse"}
TO = {**KEY, "work": 1}  # (which isn't for files that are kept)


def encrypt(source, name):  # 3 | 10
    with agefile.open(name, "wb", **TO) as file:
        shutil.copyfileobj(source, file)


def decrypt(name, out):  # 3 | 8
    with agefile.open(name, **KEY) as file:
        shutil.copyfileobj(file, out)


def member(name, which):  # 3 | -
    with agefile.open(name, **KEY) as file:
        return zipfile.ZipFile(file).read(which)


def in_memory(text):  # 2 | 18, by the two for streams
    return agefile.decrypt(agefile.encrypt(text, **TO), **KEY)


def encrypt_for(recipients, source, name):  # 3 | 10
    with agefile.open(name, "wb", recipient=recipients) as file:
        shutil.copyfileobj(source, file)


def decrypt_by(key_file, name, out):  # 3 | 8
    with open(key_file) as key, agefile.open(name, identity=key) as file:
        shutil.copyfileobj(file, out)


def is_whole(name):  # 8 | 8, decrypted to io.Discard: any error may be that of the key
    try:
        with agefile.open(name, **KEY) as file:
            while file.read(1 << 20):
                pass
    except agefile.NotWhole:
        return False
    return True


async def decrypt_upload(pieces, out):  # 5 | -
    with agefile.Decryptor(max_work=18, **KEY) as text:
        async for piece in pieces:
            out.write(await asyncio.to_thread(text.update, piece))
        out.write(text.finish())


def resume(name, out):  # 4 | -
    with agefile.open(name, **KEY) as file, open(out, "ab") as text:
        file.seek(text.tell())
        shutil.copyfileobj(file, text)


def salvage(name, out):  # 2 | -
    return agefile.salvage(name, out, **KEY).lost


def kinds_of_keys(name):  # 2 | -
    return {it.type for it in agefile.inspect(name).stanzas}


class ProgramsTest(ModuleCase):
    def setUp(self):
        super().setUp()
        self.text, self.name = plain_of(200_000), self.path("file.age")
        self.write("horse", b"correct horse\n")

    def encrypted(self, text):
        """Makes a file of little work."""
        self.name.write_bytes(agefile.encrypt(text, **TO))

    def test_streams(self):
        encrypt(io.BytesIO(self.text), self.name)
        self.tool("decrypt", "--pass", "horse", "--no-sync", "file.age", "out", check=True)
        self.see("a stream that is encrypted", self.read("out") == self.text)
        decrypt(self.name, out := io.BytesIO())
        self.see("and decrypted", out.getvalue() == self.text)
        self.see("in memory", in_memory(self.text) == self.text)

    def test_a_member(self):
        with zipfile.ZipFile(made := io.BytesIO(), "w") as archive:
            archive.writestr("1.bin", self.text)
            archive.writestr("2.txt", "the text of 2")
        self.encrypted(made.getvalue())
        self.see("a member of an archive", member(self.name, "2.txt") == b"the text of 2")

    @needs_cryptography
    def test_keys(self):
        encrypt_for(
            re.search(r"age1\w+", (AGE / "key.txt").read_text())[0],
            io.BytesIO(self.text),
            self.name,
        )
        decrypt_by(AGE / "key.txt", self.name, out := io.BytesIO())
        self.see("for a recipient, by its key", out.getvalue() == self.text)
        self.see("what it is for", kinds_of_keys(self.name) == {"X25519"})

    def test_parts(self):
        self.encrypted(self.text)
        self.see(
            "a file that is whole, for a passphrase",
            is_whole(self.name) and kinds_of_keys(self.name) == {"scrypt"},
        )
        self.write("out", self.text[:70_000])
        resume(self.name, self.path("out"))
        self.see("an output that goes on where it stopped", self.read("out") == self.text)
        self.name.write_bytes(flipped(self.name.read_bytes(), -100_000))
        self.see("a damaged one", not is_whole(self.name))
        self.see(
            "what is saved of it", salvage(self.name, self.path("saved")) == [(65_536, 131_072)]
        )
        self.see(
            "at its place",
            self.read("saved") == self.text[:65_536] + bytes(65_536) + self.text[131_072:],
        )

    def test_an_upload(self):
        self.encrypted(self.text)

        async def pieces():
            for at in range(0, len(data), 30_000):
                yield data[at : at + 30_000]

        for data, is_cut in ((self.name.read_bytes(), False), (self.name.read_bytes()[:-1], True)):
            out, fault = io.BytesIO(), None
            try:
                asyncio.run(decrypt_upload(pieces(), out))
            except agefile.NotWhole as it:
                fault = it
            self.see(
                f"an upload that is cut: {is_cut}",
                (fault is not None) == is_cut
                and out.getvalue() == self.text[: 196_608 if is_cut else None],
                fault,
            )
