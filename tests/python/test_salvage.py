"""salvage() of the Python module, and `python3 -m agefile salvage`."""
import errno
import io
import os
import random
import shutil
import sys
import unittest.mock
from unittest import mock

from tests import process
from tests.bindings import (
    BLOCK,
    CHUNK,
    KEY,
    PYTHON,
    BindingsCase,
    agefile,
    flipped,
    limited,
    plain_of,
    raised,
    setUpModule,
)
from tests.python.files import AGE, ModuleCase, Pieces, fault_of


def sealed(text):
    return agefile.encrypt(text, passphrase="pw", work=1)


class SalvageTest(ModuleCase):
    def test_salvage(self):
        """Each chunk that isn't damaged, at its place, zeros for the others, and what is lost. What is expected is made of the text."""
        for length in (0, 1, 65_536, 131_072, 300_000):
            text = random.Random(length).randbytes(length)
            data = self.sealed(text)
            chunks = max(1, -(-length // CHUNK))
            begin = len(data) - length - 16 * chunks
            self.see(f"a whole file of {length} bytes", self.saved(data) == (text, [], True, False))
            for seed in range(30):
                rnd = random.Random(seed)
                bad = sorted(rnd.sample(range(chunks), rnd.randrange(1, chunks + 1)))
                held, want, lost = bytearray(data), bytearray(text), []
                for it in bad:
                    end = min(len(data), begin + (it + 1) * BLOCK)
                    held[rnd.randrange(begin + it * BLOCK, end)] ^= 1
                    first, after = it * CHUNK, min((it + 1) * CHUNK, length)
                    want[first:after] = bytes(after - first)
                    if after > first:
                        lost[-1:] = (
                            [(lost[-1][0], after)]
                            if lost and lost[-1][1] == first
                            else [*lost[-1:], (first, after)]
                        )
                ends = chunks - 1 not in bad
                wanted = (
                    (bytes(want), lost, ends, False)
                    if len(bad) < chunks
                    else (b"", [], False, False)
                )
                for what, under in (
                    ("a file", io.BytesIO(held)),
                    ("a pipe", Pieces(bytes(held), 5_000)),
                ):
                    got = self.saved(under)
                    self.see(
                        f"{what} of {length} bytes, chunks {bad} damaged",
                        got == wanted,
                        got[1:],
                        wanted[1:],
                    )
        text = random.Random(3).randbytes(200_000)
        data = self.sealed(text)
        begin = len(data) - 200_000 - 4 * 16
        for end in (
            begin,
            begin + 1,
            begin + 16,
            begin + 17,
            begin + BLOCK - 1,
            begin + BLOCK,
            begin + BLOCK + 10,
            begin + 2 * BLOCK,
            len(data) - 1,
        ):
            whole, rest = divmod(end - begin, BLOCK)
            lost = [(whole * CHUNK, whole * CHUNK + rest - 16)] if whole and rest > 16 else []
            want = (
                text[: whole * CHUNK] + bytes(sum(after - first for first, after in lost))
                if whole
                else b""
            )
            got = self.saved(data[:end])
            self.see(
                f"a file that is cut at {end - begin}",
                got == (want, lost, False, False),
                got[1:],
                lost,
            )
        full = self.sealed(text[:131_072])
        for more in (b"0", full[-BLOCK:]):
            self.see(
                f"{len(more)} bytes after the end",
                self.saved(full + more) == (text[:131_072], [], True, True),
            )
        swapped = (
            data[:begin]
            + data[begin + BLOCK : begin + 2 * BLOCK]
            + data[begin : begin + BLOCK]
            + data[begin + 2 * BLOCK :]
        )
        self.see(
            "blocks that changed places",
            self.saved(swapped) == (bytes(131_072) + text[131_072:], [(0, 131_072)], True, False),
        )

        class Rotten(io.BytesIO):
            number = 1

            def readinto(self, room):
                if self.tell() <= begin + self.number * BLOCK + 777 < self.tell() + len(room):
                    raise OSError(5, "Input/output error")
                return super().readinto(room)

        altered = flipped(data, data.index(b"\n--- ") + 9)
        for given, keys, kind in (
            (data, {"file_key": bytes(16)}, agefile.WrongKey),
            (altered, {"passphrase": "pw"}, agefile.NotWhole),
        ):
            fault = fault_of(self.saved, given, **keys)
            self.see(
                f"a MAC that doesn't fit, {keys}",
                (type(fault), fault.number) == (kind, 14),
                repr(fault),
            )
        want, rotten = text[:CHUNK] + bytes(CHUNK) + text[2 * CHUNK :], Rotten(data)
        self.see(
            "a disk that can't be read at a place",
            self.saved(rotten) == (want, [(CHUNK, 2 * CHUNK)], True, False),
        )
        rotten.number = 3
        rotten.seek(0)
        got = self.saved(rotten)
        self.see(
            "one that can't be read at the end",
            got
            == (
                text[: 3 * CHUNK] + bytes(200_000 - 3 * CHUNK),
                [(3 * CHUNK, 200_000)],
                False,
                False,
            ),
            got[1:],
        )

    def test_salvage_into(self):
        """What is saved is never written over the file that is read, and a sink has to say how much it took."""
        path, linked = self.path("rotten.age"), self.path("linked.age")
        data = self.sealed(random.Random(4).randbytes(200_000))
        path.write_bytes(flipped(data, len(data) - 70_000))
        os.link(path, linked)
        for out in (path, linked, str(path)):
            refused = raised(ValueError, agefile.salvage, path, out, file_key=KEY)
            self.see(
                f"a file that is saved into itself, {type(out).__name__}",
                refused and path.stat().st_size == len(data),
            )
        held = path.read_bytes()
        with open(path, "rb") as file, open(linked, "r+b") as other, open(
            path, "ab", buffering=0
        ) as end, open(path, "r+b") as both:
            in_memory = io.BytesIO(held)
            for what, one, out in (
                ("two file objects", file, other),
                ("one that appends", file, end),
                ("one file object", both, both),
                ("a path and a file object", path, other),
                ("a file object and a descriptor's path", file, f"/dev/fd/{other.fileno()}"),
                ("one file object in memory", in_memory, in_memory),
            ):
                self.see(
                    f"what is saved into itself: {what}",
                    raised(ValueError, agefile.salvage, one, out, file_key=KEY),
                )
                self.see(f"it stays: {what}", path.read_bytes() == in_memory.getvalue() == held)
                file.seek(0), both.seek(0), in_memory.seek(0)

        class Sink:
            """Takes all, and says something else."""

            def __init__(self, said):
                self.said = said

            def write(self, _):
                return self.said

        for said, kind in (
            (None, BlockingIOError),
            (1 << 20, OSError),
            (0, OSError),
            (-1, OSError),
        ):
            with limited(20):
                self.see(
                    f"a sink that says {said}",
                    raised(kind, agefile.salvage, io.BytesIO(data), Sink(said), file_key=KEY),
                )

    def test_salvage_by_names(self):
        """All of a text is written before the wait for the disk; both files are closed then; and how far it is is told."""
        path, opened, reached, told, really = self.path("saved"), [], [], [], open
        self.write(
            "file", self.sealed(bytes(135_000))
        )  # (the end is shorter than what a file buffers)

        def opens(*words, **more):
            opened.append(really(*words, **more))
            return opened[-1]

        with mock.patch("builtins.open", opens), mock.patch.object(
            agefile._salvage,
            "reach_disk",
            lambda _, made: reached.append((made, path.stat().st_size)),
        ):
            agefile.salvage(self.path("file"), path, file_key=KEY, progress=told.append)
        self.see("the disk", reached == [(path, 135_000)], reached)
        self.see(
            "what was opened",
            [it.closed for it in opened] == [True, True] and told == [1, 2, 3],
            opened,
            told,
        )

    def test_salvage_command(self):
        """What `python3 -m agefile salvage` says, and when OUT stays as it was."""
        text = random.Random(3).randbytes(200_000)
        data = bytearray(self.sealed(text))
        self.write("whole.age", bytes(data))
        begin = len(data) - 200_000 - 4 * 16
        data[begin + 9] ^= 1
        data[begin + 2 * BLOCK + 9] ^= 1
        self.write("damaged.age", bytes(data))
        self.write("kept", b"kept")
        lost = b"agefile: lost: from byte 0 to before byte 65536\nagefile: lost: from byte 131072 to before byte 196608\n"
        want = bytes(CHUNK) + text[CHUNK : 2 * CHUNK] + bytes(CHUNK) + text[3 * CHUNK :]
        for words, status, said, out in (
            (("--pass", "pw", "whole.age", "out"), 0, b"", text),
            (("--pass", "pw", "damaged.age", "out"), 1, lost, want),
            (("--pass", "other", "damaged.age", "kept"), 1, None, b"kept"),
            (("--pass", "pw", "pw", "kept"), 1, None, b"kept"),
        ):
            run = self.command("salvage", "--overwrite", *words)
            self.see(
                f"salvage {' '.join(words)}",
                run.returncode == status
                and said in (None, run.stderr)
                and self.path(words[-1]).read_bytes() == out,
                run.returncode,
                run.stderr,
            )
        self.write("followed.age", self.sealed(text[:65_536]) + b"x")
        run = self.command("salvage", "--overwrite", "--pass", "pw", "followed.age", "out")
        self.see(
            "salvage of a file that something follows",
            run.returncode == 0
            and run.stderr == b"agefile: something was appended to the file, and is left out\n"
            and self.path("out").read_bytes() == text[:65_536],
            run.stderr,
        )
        run = self.command("salvage", "--pass", "pw", "damaged.age", "-")
        self.see(
            "salvage to standard output", (run.returncode, run.stdout) == (1, want), run.stderr
        )
        run = self.command(
            "salvage", "--overwrite", "--pass", "pw", "-", "out", given=bytes(data[: begin + 100])
        )
        self.see(
            "salvage from standard input, nothing opens",
            run.returncode == 1 and b"no chunk of standard input opens" in run.stderr,
            run.stderr,
        )
        run = self.command("salvage", "--pass", "pw", "damaged.age", "/dev/null")
        self.see(
            "salvage to what isn't a regular file",
            (run.returncode, run.stderr) == (1, lost),
            run.stderr,
        )
        key = shutil.copy(AGE / "key.txt", self.path("key.txt"))
        run = self.command("salvage", "--overwrite", "--identity", key, AGE / "one.age", "out")
        self.see(
            "salvage by a key",
            run.returncode == 0 and self.path("out").read_bytes() == b"hello, recipient\n",
            run.stderr,
        )


class CutFilesTest(BindingsCase):
    def test_what_was_cut_off(self):
        """What `python3 -m agefile salvage` says of files that end between two chunks, or in one, and of what was appended."""
        data = sealed(plain_of(200_000))
        begin = len(data) - 200_000 - 4 * 16
        env = {**os.environ, "PYTHONPATH": str(PYTHON), "PYTHONDONTWRITEBYTECODE": "1"}
        longer = (
            b"agefile: the last chunk is damaged or was cut off: the text may have been longer\n"
        )
        for end, said in (
            (
                begin + 2 * 65_552,
                b"agefile: lost: from byte 131072 on, if there was more\n" + longer,
            ),
            (
                begin + 2 * 65_552 + 116,
                b"agefile: lost: from byte 131072 to before byte 131172\n" + longer,
            ),
            (len(data), b""),
            (begin, b"agefile: no chunk of cut.age opens: out is as it was\n"),
        ):
            self.write("cut.age", data[:end])
            run = process.run(
                [
                    sys.executable,
                    "-m",
                    "agefile",
                    *"salvage --overwrite --pass pw cut.age out".split(),
                ],
                cwd=self.room,
                env=env,
                capture_output=True,
            )
            self.see(
                f"cut at {end}", (run.returncode, run.stderr) == (bool(said), said), run.stderr
            )
        self.write("longer.age", sealed(plain_of(131_072)) + b"more")
        run = process.run(
            [
                sys.executable,
                "-m",
                "agefile",
                *"salvage --overwrite --pass pw longer.age out".split(),
            ],
            cwd=self.room,
            env=env,
            capture_output=True,
        )
        self.see(
            "something that was appended",
            run.stderr == b"agefile: something was appended to the file, and is left out\n",
            run.stderr,
        )


class FailingSalvageTest(BindingsCase):
    def test_salvage_lets_go(self):
        """Of files that it opened, and of OUT's lock, when OUT can't be finished: the caller may try again while it holds the exception."""
        self.write("file", self.sealed(bytes(65_636)))
        path, before = self.path("out"), len(os.listdir("/proc/self/fd"))
        with unittest.mock.patch.object(
            agefile._salvage, "reach_disk", side_effect=OSError(errno.ENOSPC, "full")
        ):
            try:
                agefile.salvage(self.path("file"), path, file_key=KEY)
            except OSError as fault:
                self.see(
                    "what stays open",
                    fault.errno == errno.ENOSPC and len(os.listdir("/proc/self/fd")) == before,
                )
                with unittest.mock.patch.object(agefile._salvage, "reach_disk"):
                    self.see(
                        "another try",
                        agefile.salvage(self.path("file"), path, file_key=KEY).is_whole,
                    )
