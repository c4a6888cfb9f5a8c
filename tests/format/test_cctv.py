"""Runs C2SP's test vectors for age files through the program, the Python module, the calls of agefile.h and the Rust crates. They stand in
tests/cctv.tar.gz, as in the folder age/testdata of https://github.com/C2SP/CCTV (0BSD), unless the variable CCTV names another folder.

A vector has lines `NAME: VALUE`, an empty line, and an age file. What an identity of this profile can open is opened by it. What needs
another one (a post-quantum key) is opened by its file key, if it is to be opened. Armor is outside of the profile, so it is refused."""
import ctypes
import hashlib
import importlib.util
import os
import pathlib
import tarfile
import zlib

from tests import bindings, built, process
from tests.case import Case, claim, needs
from tools.workspace import LIBRARY, TOP

READS = ["README.md"]
ARCHIVE = TOP / "tests" / "cctv.tar.gz"
SUM = "29e1ddb94bef5c2932d3b7c4f42577567fed220ce833edeb38458dd320269263"

# The faults that each outcome may have.
FAULTS = {
    "header failure": {*range(1, 12), 15, 254},
    "no match": {12, 13},
    "HMAC failure": {14},
    "payload failure": {*range(17, 23)},
    "armor failure": {1, 2, 3, 8},
}


# Decrypts by a passphrase or a file key, and says the fault's number, or 0.
RUST = """
use agefile::{Decryptor, Fault, FileKey, Identity, Passphrase};
use std::io::{self, Write};

fn main() {
    let words: Vec<String> = std::env::args().collect();
    let byte = |at: usize| words[2].get(2 * at..2 * at + 2).and_then(|it| u8::from_str_radix(it, 16).ok()).unwrap_or(0);
    let (word, file_key) = (Passphrase::new(&words[2]), FileKey::new(std::array::from_fn(byte)));
    let by: &dyn Identity = if words[1] == "word" { &word } else { &file_key };
    let done = Decryptor::new(&[by]).read(io::stdin()).and_then(|mut it| io::copy(&mut it, &mut io::stdout()));
    io::stdout().flush().unwrap();
    eprint!("{}", done.map_or_else(|it| Fault::of(&it).unwrap().number(), |_| 0));
}
"""


class Vector:
    """A vector: what is said of its file, and the file."""

    def __init__(self, name, held):
        head, _, body = held.partition(b"\n\n")
        self.said = {
            name: value
            for name, _, value in (line.decode().partition(": ") for line in head.splitlines())
        }
        self.name, self.expected = name, self.said["expect"]
        self.file = zlib.decompress(body) if "compressed" in self.said else body
        self.key = bytes.fromhex(self.said["file key"])
        self.is_armored = self.said.get("armored") == "yes"
        self.passphrase = self.said.get("passphrase")
        self.identity = self.said.get("identity", "")

    def text_is(self, text):
        """Whether this is the text, or its beginning that comes out before a fault."""
        return (
            "payload" not in self.said or hashlib.sha256(text).hexdigest() == self.said["payload"]
        )


class CKey(ctypes.Structure):
    """agefile_key of agefile.h."""

    _fields_ = [
        ("kind", ctypes.c_uint32),
        ("work", ctypes.c_uint32),
        *((it, ctypes.c_char_p) for it in ("at", "with", "to")),
        ("len", ctypes.c_size_t),
        ("with_len", ctypes.c_size_t),
    ]


class Decoding:
    """The library's calls, which give the answer and the text of a file."""

    def __init__(self, path):
        self.c = ctypes.CDLL(path)
        self.c.agefile_passphrase.restype = self.c.agefile_file_key.restype = CKey
        self.c.agefile_passphrase.argtypes = [ctypes.c_char_p, ctypes.c_size_t]

    def key_of(self, vector):
        # (a key points to the bytes, which therefore stay)
        self.word = vector.passphrase and vector.passphrase.encode()
        return (
            self.c.agefile_passphrase(self.word, len(self.word))
            if self.word
            else self.c.agefile_file_key(vector.key)
        )

    def in_pieces(self, vector, size):
        it, written, text = ctypes.c_void_p(), ctypes.c_size_t(), b""
        room = ctypes.create_string_buffer(size + 65_536)
        answer = self.c.agefile_decoder_new(ctypes.byref(it), self.key_of(vector))
        pieces = [vector.file[at : at + size] for at in range(0, len(vector.file), size)]
        for piece in [*pieces, None]:
            if answer == 0:
                words = [] if piece is None else [piece, ctypes.c_size_t(len(piece))]
                call = self.c.agefile_decode_end if piece is None else self.c.agefile_decode
                answer = call(it, *words, room, ctypes.c_size_t(len(room)), ctypes.byref(written))
                text += room[: written.value]
        self.c.agefile_decoder_free(it)
        return answer, text

    def at_once(self, vector):
        written, room = ctypes.c_size_t(), ctypes.create_string_buffer(len(vector.file))
        size = ctypes.c_size_t(len(vector.file))
        answer = self.c.agefile_decrypt(
            self.key_of(vector), vector.file, size, room, size, ctypes.byref(written)
        )
        return answer, room[: written.value]


def vectors():
    """The vectors, by their names."""
    if folder := os.environ.get("CCTV"):
        return [
            Vector(it.name, it.read_bytes())
            for it in sorted(pathlib.Path(folder).iterdir())
            if it.is_file()
        ]
    if hashlib.sha256(ARCHIVE.read_bytes()).hexdigest() != SUM:
        raise ValueError(f"{ARCHIVE} isn't what it was")
    with tarfile.open(ARCHIVE) as archive:
        return [Vector(it.name, archive.extractfile(it).read()) for it in archive]


class VectorsTest(Case):
    """A check for each vector and each way to open it."""

    calls = left_out = 0

    @classmethod
    def tearDownClass(cls):
        if not cls.left_out:
            claim("README.md", f"{cls.calls} calls")

    def setUp(self):
        super().setUp()
        self.vectors = vectors()

    def see(self, *words):
        super().see(*words)
        type(self).calls += 1

    def judge(self, vector, fault, text):
        """Whether the fault (0 if it was opened) and the text that came out are those of the vector."""
        if vector.is_armored:
            return fault in FAULTS["armor failure"] and not text
        if vector.expected == "success":
            return fault == 0 and vector.text_is(text)
        return fault in FAULTS[vector.expected] and (
            vector.expected != "payload failure" or vector.text_is(text)
        )

    def by_program(self, vector, *words):
        self.write("in", vector.file)
        self.remove("out")
        ended = self.tool("decrypt", *words, "in", "out")
        fault = int(ended.stderr.split()[1]) if ended.returncode == 1 else ended.returncode
        return fault, self.read("out") if self.is_there("out") else b""

    def test_program(self):
        for vector in self.vectors:
            if vector.passphrase is not None:
                self.write("pass", vector.passphrase.encode())
                self.see(
                    f"{vector.name} by its passphrase",
                    self.judge(vector, *self.by_program(vector, "--pass", "pass")),
                )
            elif (
                vector.expected in ("success", "payload failure", "HMAC failure")
                or vector.is_armored
            ):
                found = self.by_program(vector, "--file-key", vector.key.hex())
                self.see(
                    f"{vector.name} by its file key",
                    self.judge(vector, *found),
                    found[0],
                    len(found[1]),
                )

    def test_module(self):
        agefile = bindings.module()
        for vector in self.vectors:
            how = (
                {"passphrase": vector.passphrase}
                if vector.passphrase is not None
                else {"identity": vector.identity}
            )
            if "AGE-SECRET-KEY-PQ" in vector.identity and vector.expected not in (
                "success",
                "payload failure",
            ):
                continue
            if "AGE-SECRET-KEY-1" not in vector.identity and vector.passphrase is None:
                how = {"file_key": vector.key}
            if "identity" in how and not importlib.util.find_spec("cryptography"):
                type(self).left_out += 1
                self.leave_out(f"{vector.name} in Python", "needs cryptography")
                continue
            self.write("in", vector.file)
            fault, text = 0, b""
            try:
                with agefile.open(self.path("in"), **how) as file:
                    while piece := file.read1():
                        text += piece
            except agefile.AgeError as error:
                fault = error.number
            self.see(f"{vector.name} in Python", self.judge(vector, fault, text), fault, len(text))

    def test_c(self):
        """By a passphrase and by the file key: in one call, and in pieces."""
        bindings.module()
        c = Decoding(LIBRARY / "libagefile.so")
        for vector in self.vectors:
            if (
                vector.passphrase is None
                and vector.expected not in ("success", "payload failure", "HMAC failure")
                and not vector.is_armored
            ):
                continue
            # (README counts those of the program and the module)
            for size in (
                (97, 65_536) if vector.passphrase or len(vector.file) > 10_000 else (1, 97, 65_536)
            ):
                fault, text = c.in_pieces(vector, size)
                Case.see(
                    self,
                    f"{vector.name} in C, in pieces of {size}",
                    self.judge(vector, fault, text),
                    fault,
                    len(text),
                )
            fault, text = c.at_once(vector)
            whole = vector.expected == "success" and not vector.is_armored
            Case.see(
                self,
                f"{vector.name} in C, at once",
                fault
                in (
                    FAULTS["armor failure"]
                    if vector.is_armored
                    else FAULTS.get(vector.expected, {0})
                )
                and (vector.text_is(text) if whole else text == b""),
                fault,
                len(text),
            )

    @needs("cargo")
    def test_rust(self):
        """By a passphrase and by the file key."""
        bindings.module()
        self.path("src").mkdir()
        self.write("src/main.rs", RUST.encode())
        self.write(
            "Cargo.toml",
            f'[package]\nname = "cctv"\nversion = "0.0.0"\nedition = "2021"\n\n[dependencies]\n'
            f'agefile = {{ path = "{TOP}/bindings/rust/agefile" }}\n'.encode(),
        )
        words = [
            "cargo",
            "build",
            "--release",
            "--offline",
            "--quiet",
            "--target-dir",
            built.cache("target"),
        ]
        process.run(
            words, cwd=self.room, env={**os.environ, "AGEFILE_DIR": str(LIBRARY)}, check=True
        )
        for vector in self.vectors:
            if (
                vector.passphrase is None
                and vector.expected not in ("success", "payload failure", "HMAC failure")
                and not vector.is_armored
            ):
                continue
            by = (
                ["key", vector.key.hex()]
                if vector.passphrase is None
                else ["word", vector.passphrase]
            )
            ended = process.run(
                [built.cache("target") / "release" / "cctv", *by],
                input=vector.file,
                capture_output=True,
            )
            Case.see(
                self,
                f"{vector.name} in Rust",
                ended.returncode == 0 and self.judge(vector, int(ended.stderr), ended.stdout),
                ended.stderr,
            )
