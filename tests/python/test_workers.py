"""Tries the decryption by several threads, in Python: the text at each length, the fault of the first chunk that has one, and what interrupts
it. Then that by Dask, one of whose workers is killed."""
import json
import os
import signal
import threading
import time
from unittest import mock

from tests import process
from tests.bindings import (
    BLOCK,
    KEY,
    LENGTHS,
    PYTHON,
    BindingsCase,
    agefile,
    flipped,
    limited,
    plain_of,
    python_with,
    raised,
    setUpModule,
)
from tests.python.files import fault_of
from tools.workspace import LIBRARY, TOP

READS = []
LENGTH = 9 * 65_536 + 1_000


class WorkersTest(BindingsCase):
    def test_in_memory(self):
        for length in (*LENGTHS, LENGTH):
            data = self.sealed(plain_of(length))
            for workers in (2, 3, 7, 64):
                self.see(
                    f"{length} bytes, {workers} workers",
                    agefile.decrypt(data, file_key=KEY, workers=workers) == plain_of(length),
                )
        self.see(
            "a bytearray, by a passphrase",
            agefile.decrypt(bytearray(data), passphrase="pw", workers=4) == plain_of(LENGTH),
        )
        self.see(
            "another passphrase",
            raised(agefile.WrongKey, agefile.decrypt, data, passphrase="other", workers=4),
        )
        for it, kind in ((0, ValueError), (65, ValueError), ("2", TypeError)):
            self.see(
                f"{it!r} workers", raised(kind, agefile.decrypt, data, file_key=KEY, workers=it)
            )
        for it in (None, 7, "text", [1, 2]):
            for workers in (1, 2):
                self.see(
                    f"{it!r} as data, {workers} workers",
                    raised(TypeError, agefile.decrypt, it, file_key=KEY, workers=workers),
                )

    def test_faults(self):
        """The fault of the first chunk that has one, whoever finds it."""
        data = self.sealed(plain_of(LENGTH))
        begin = len(data) - LENGTH - 10 * 16
        for chunks in ((0,), (8,), (3, 4), (7, 2), (6, 5, 1), (9,)):
            bad = data
            for it in chunks:
                bad = flipped(bad, begin + it * BLOCK + 5)
            for workers in (2, 5):
                fault = fault_of(agefile.decrypt, bad, file_key=KEY, workers=workers)
                self.see(
                    f"damage in {chunks}, {workers} workers",
                    (fault.number, fault.chunk) == (17, min(chunks)),
                    fault,
                )
        for what, given in (
            ("cut", data[:-5]),
            ("cut between chunks", data[: begin + 4 * BLOCK]),
            ("longer", data + b"x"),
        ):
            self.see(
                f"a file that is {what}",
                isinstance(
                    fault_of(agefile.decrypt, given, file_key=KEY, workers=4), agefile.AgeError
                ),
            )

    def test_an_interruption(self):
        """A signal's handler that raises while threads decrypt: none of them goes on."""
        data, begun, really = (
            self.sealed(bytes(600 * 65_536)),
            threading.active_count(),
            agefile._coders.Decoder.open_at,
        )
        opened = []

        def slowly(*words):
            opened.append(words[1])
            time.sleep(0.002)
            return really(*words)

        def interrupts(*_):
            raise KeyboardInterrupt

        kept, limit, found = signal.signal(signal.SIGALRM, interrupts), time.monotonic() + 60, []
        with mock.patch.object(agefile._coders.Decoder, "open_at", slowly):
            for seconds in (0.001, 0.01, 0.03, 0.1):
                signal.setitimer(signal.ITIMER_REAL, seconds)
                found.append(
                    raised(KeyboardInterrupt, agefile.decrypt, data, file_key=KEY, workers=4)
                )
                signal.setitimer(signal.ITIMER_REAL, 0)
                while threading.active_count() > begun and time.monotonic() < limit:
                    time.sleep(0.01)
                count = len(opened)
                opened.clear()
                self.see(
                    f"chunks that are opened: {count}",
                    threading.active_count() == begun and count < 600 + 1 - found[-1],
                    found,
                )
        signal.signal(signal.SIGALRM, kept)
        self.see("interruptions", any(found), found)

    def test_ends_that_move(self):
        """A full chunk that is the last of a shorter file, and one that isn't the last at the end: a fault, by any workers."""
        longer, shorter = self.sealed(plain_of(4 * 65_536)), self.sealed(plain_of(2 * 65_536))
        begin = len(longer) - 4 * BLOCK
        for what, data, number, chunk in (
            ("a last chunk in the middle", shorter + longer[begin + 2 * BLOCK :], 21, None),
            ("no last chunk", longer[: begin + 3 * BLOCK], 20, 3),
        ):
            for workers in (1, 2, 7):
                fault = fault_of(agefile.decrypt, data, file_key=KEY, workers=workers)
                self.see(
                    f"{what}, {workers} workers",
                    (fault.number, fault.chunk) == (number, chunk),
                    fault,
                )


class DaskTest(BindingsCase):
    """The program for several machines, docs/dask/restore.py, with a scheduler and two workers on loopback."""

    # What happens in the middle of a part: the first time its worker is killed; once there is another file, that takes the place of what is
    # read.
    WRITES = "            out.write(piece)\n"
    HAPPENS = (
        "            if out.tell() == (8 << 17) + (1 << 16) and not os.path.exists('died'):\n                open('died', 'w').close()\n"
        "                os.kill(os.getpid(), 9)\n            if os.path.exists('other.age'):\n                os.replace('other.age', NAME)\n"
    )

    def setUp(self):
        super().setUp()
        self.python = python_with("distributed")
        if self.python is None:
            self.skipTest("needs Dask")
        self.env = {
            **os.environ,
            "PYTHONPATH": str(PYTHON),
            "PYTHONDONTWRITEBYTECODE": "1",
            "AGEFILE_LIBRARY": str(LIBRARY / "libagefile.so"),
        }
        program = (
            (TOP / "docs" / "dask" / "restore.py")
            .read_text()
            .replace("1 << 30, 4 << 20", "1 << 17, 1 << 16")
            .replace(self.WRITES, self.WRITES + self.HAPPENS)
        )
        self.write("restore.py", program.encode())
        self.begin("scheduler", "--port", "0", "--scheduler-file", "scheduler.json")
        with limited(60):
            while not (
                self.is_there("scheduler.json") and self.read("scheduler.json").endswith(b"}")
            ):
                time.sleep(0.1)
        self.place = json.loads(self.read("scheduler.json"))["address"]
        self.workers = [
            self.begin("worker", self.place, "--no-nanny", "--nthreads", "1", "--name", str(it))
            for it in (1, 2)
        ]

    def begin(self, kind, *words):
        """Begins a process of Dask, which is ended after the test."""
        said = open(self.path(f"{kind}.log"), "ab")
        self.addCleanup(said.close)
        words = [
            self.python,
            "-m",
            f"distributed.cli.dask_{kind}",
            *words,
            "--host",
            "127.0.0.1",
            "--no-dashboard",
        ]
        run = process.Popen(words, cwd=self.room, env=self.env, stdout=said, stderr=said)
        self.addCleanup(run.wait)
        self.addCleanup(run.kill)
        return run

    def restored(self):
        words = [self.python, "restore.py", self.place]
        run = process.run(words, cwd=self.room, env=self.env, capture_output=True, timeout=120)
        return (
            run.returncode,
            run.stderr[-500:],
            self.read("photos.tar") if self.is_there("photos.tar") else None,
        )

    def test_a_lost_worker(self):
        text = plain_of(24 * (1 << 17) - 1_000)
        self.write("passphrase.txt", b"pw\n")
        self.write("in", text)
        self.path("backups").mkdir()
        for out in ("photos.tar.age", "backups/one.age", "backups/two.age", "another.age"):
            self.tool("encrypt", "--pass", "pw", "--log", "1", "--no-sync", "in", out, check=True)
        status, said, out = self.restored()
        self.see(
            "the text",
            status == 0 and out == text and not self.is_there("photos.tar.part"),
            status,
            said,
        )
        self.see(
            "a worker was lost",
            self.is_there("died")
            and sorted((it.poll() for it in self.workers), key=str) == [-9, None],
        )
        self.path("another.age").rename(self.path("other.age"))
        self.remove("photos.tar")
        status, said, out = self.restored()
        self.see(
            "a file that is replaced",
            status == 1 and b"photos.tar.age was replaced" in said and out is None,
            status,
            said,
        )
        self.remove("photos.tar.part")
        damaged = len(self.read("photos.tar.age")) - len(text) - 48 * 16 + 7 * BLOCK + 5
        for what, name, left in (
            ("a damaged backup", "backups/two.age", text),
            ("a damaged file", "photos.tar.age", None),
        ):
            self.remove("photos.tar")
            self.write(name, flipped(self.read(name), damaged))
            status, said, out = self.restored()
            self.see(
                what,
                status == 1 and b"(17 ChunkDamaged chunk 7)" in said and out == left,
                status,
                said,
            )
