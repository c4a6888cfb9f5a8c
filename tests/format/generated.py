"""Cases made at random, which are compared with the format as tests/standard.py says it. Of each run the status, standard output, the line of a
fault, and what OUT and the file of --save hold are compared to the byte. The seed is 1, or AGE_SEED, and
AGE_CASES how many times as many cases."""
import hashlib
import os
import random
import re
import resource
import signal

from tests import process, standard
from tests.case import Case
from tests.standard import BLOCK, CHUNK, Position, header_text, mac_of

SEED = int(os.environ.get("AGE_SEED") or 1)
MANY = float(os.environ.get("AGE_CASES") or 1)


class Generated(Case):
    """Cases made at random, each of which is one run of the program."""

    def setUp(self):
        super().setUp()
        self.random, self.wrong, self.count = random.Random(f"{SEED} {self.id()}"), [], 0
        self.addCleanup(self.tell)

    def tell(self):
        print(f"{self.id().rpartition('.')[2]}: {self.count} cases of the seed {SEED}")
        self.see(
            f"{self.count} cases of the seed {SEED}",
            self.count and not self.wrong,
            len(self.wrong),
            self.wrong[:3],
        )

    def turns(self, count):
        return range(max(1, int(count * MANY)))

    def pick(self, *values):
        return self.random.choice(values)

    def is_rare(self, share):
        return self.random.random() < share

    def run_confined(self, *words, room=None, **more):
        """A run in which no file grows beyond so many bytes."""

        def confine():
            signal.signal(signal.SIGXFSZ, signal.SIG_IGN)
            resource.setrlimit(resource.RLIMIT_FSIZE, (room, room))

        return process.run(
            [self.program, *words],
            cwd=self.room,
            capture_output=True,
            preexec_fn=confine if room is not None else None,
            **({"input": b""} | more),
        )

    def held(self, name):
        return self.read(name) if self.is_there(name) else None

    def compare(self, ended, status, printed=b"", line=b"", case=None, **files):
        """Compares a run with what it has to be; `files` are what each holds then, None if there is none."""
        self.count += 1
        said = [
            it
            for it in ended.stderr[len(line) :].splitlines()
            if not it.startswith(b"age_tool: ") or re.match(rb"age_tool: \d+ [A-Z]", it)
        ]
        held = {name: self.held(name) for name in files}
        if (ended.returncode, ended.stdout, ended.stderr[: len(line)], said, held) != (
            status,
            printed,
            line,
            [],
            files,
        ):
            sizes = {
                name: (held[name] == wanted, held[name] and len(held[name]), wanted and len(wanted))
                for name, wanted in files.items()
            }
            self.wrong.append(
                (
                    case,
                    ended.args[1:],
                    (ended.returncode, status),
                    ended.stdout[-200:],
                    printed[-200:],
                    ended.stderr[-300:],
                    line,
                    sizes,
                )
            )

    def compare_fault(self, ended, fault, **more):
        """The same of a run that ends with a fault, or, if it is None, with all done."""
        self.compare(ended, 1 if fault else 0, line=fault.line() if fault else b"", **more)


class GeneratedFiles(Generated):
    """The same with age files for the passphrase of `pass`."""

    def setUp(self):
        super().setUp()
        self.write("pass", b"p\n")

    def make(self, text, key=None):
        """An age file: its front, its nonce and its key, and its box; and its payload."""
        key, salt, self.nonce = (
            key or self.random.randbytes(16),
            self.random.randbytes(16),
            self.random.randbytes(16),
        )
        stanzas = [standard.scrypt_stanza(b"p", 1, salt, key)]
        self.key, self.front, self.box = (
            key,
            header_text(stanzas, mac_of(stanzas, key)) + self.nonce,
            standard.RealBox(key, self.nonce),
        )
        self.file_id = hashlib.sha256(self.front).digest()
        return standard.payload_of(self.box, text)

    def plaintext(self):
        sizes = (
            0,
            1,
            100,
            CHUNK - 1,
            CHUNK,
            CHUNK + 1,
            2 * CHUNK,
            2 * CHUNK + 7,
            3 * CHUNK,
            200_000,
        )
        return self.random.randbytes(self.pick(*sizes, self.random.randrange(1, 4 * CHUNK)))

    def near(self, size):
        """A length near one that matters."""
        places = [0, 1, 15, 16, 17, self.random.randrange(size + 1), size - 1, size]
        places += [
            BLOCK * self.random.randrange(size // BLOCK + 1) + more
            for more in (-1, 0, 1, 15, 16, 17)
        ]
        return max(0, min(size, self.pick(*places)))

    def option(self):
        return self.pick(["--pass", "pass"], ["--file-key", self.key.hex()])

    def position(self, index, text):
        """The position after so many chunks of a text."""
        return Position(
            index, self.file_id, standard.chain_of(standard.parts_of(text)[:index] if index else [])
        ).signed(self.key, self.nonce)

    def prepare(self, data):
        """Writes IN, and what OUT holds before, if it is there."""
        self.write("in", self.front + data)
        self.remove("out", "saved")
        before = self.pick(None, None, b"old" * 50)
        if before:
            self.write("out", before)
        return before

    def front_of(self, plain):
        payload = self.make(plain)
        return self.front + payload
