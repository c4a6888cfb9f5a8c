"""Threads that each have age files of their own, in one process of any Python: what is read is compared with what was written, and files
that were written are read once more when all threads have ended. Signals interrupt calls of the main thread, another thread collects, and
children are forked meanwhile. The last line is `N calls, M wrong`, after what was wrong.

usage: threads.py MODULE_FOLDER LIBRARY SECONDS
"""
import contextlib
import gc
import importlib.util
import io
import os
import pathlib
import random
import signal
import sys
import threading
import time
import warnings

sys.path.insert(0, sys.argv[1])
os.environ["AGEFILE_LIBRARY"] = sys.argv[2]
import agefile

TEXT = random.Random(1).getrandbits(8 * 300_000).to_bytes(300_000, "big")
LINES = TEXT[:100_000].hex()
MOST = 400  # files that are kept to be read at the end
AGE = pathlib.Path(__file__).resolve().parents[2] / "bindings" / "tests" / "age"
KEYS = (AGE / "key.txt").read_text()
RECIPIENT = KEYS.split("public key: ")[1].split()[0]
HAS_CRYPTOGRAPHY = importlib.util.find_spec("cryptography") is not None

warnings.simplefilter("ignore", ResourceWarning)


class Interruption(BaseException):
    """What the signal's handler raises."""


def sealed(text):
    return agefile.encrypt(text, passphrase="pw", work=1)


WHOLE = sealed(TEXT)
KEY = {"passphrase": "pw"}
CUT = WHOLE[:-100_000]
kept = []


def reads(rnd):
    """Reads and seeks, from the beginning or at any place."""
    with agefile.open(io.BytesIO(WHOLE), **KEY) as file:
        for _ in range(6):
            place, size = rnd.randrange(len(TEXT)), rnd.randrange(150_000)
            file.seek(place)
            if file.read(size) != TEXT[place : place + size]:
                return "a read after a seek"
        with file.reopen(io.BytesIO(WHOLE)) as other:
            return "" if other.read() == TEXT else "a reader that was opened once more"


def decrypts(_):
    return "" if agefile.decrypt(WHOLE, **KEY) == TEXT else "decrypt"


def encrypts(_):
    data = sealed(TEXT)
    if len(kept) < MOST:
        kept.append(data)
    return "" if agefile.decrypt(data, passphrase="pw") == TEXT else "encrypt"


def writes(rnd):
    out, at = io.BytesIO(), 0
    with agefile.open(out, "wb", passphrase="pw", work=1) as file:
        while at < len(TEXT):
            size = rnd.choice((10, 5_000, 70_000))
            file.write(TEXT[at : at + size])
            at += size
    return "" if agefile.decrypt(out.getvalue(), passphrase="pw") == TEXT else "a writer"


def lines(_):
    out = io.BytesIO()
    with agefile.open(out, "wt", passphrase="pw", work=1) as file:
        for at in range(0, len(LINES), 997):
            file.write(LINES[at : at + 997] + "\n")
    out.seek(0)
    with agefile.open(out, "rt", passphrase="pw") as file:
        return "" if "".join(it.strip() for it in file) == LINES else "lines of text"


def salvages(_):
    out = io.BytesIO()
    found = agefile.salvage(io.BytesIO(CUT), out, **KEY)
    whole = len(CUT) // 65_552 * 65_536
    return "" if not found.ends and out.getvalue()[:whole] == TEXT[:whole] else "salvage"


def keys(_):
    """A file for a recipient, which needs `cryptography`."""
    if not HAS_CRYPTOGRAPHY:
        return ""
    return (
        ""
        if agefile.decrypt(agefile.encrypt(TEXT, recipient=RECIPIENT), identity=KEYS) == TEXT
        else "a file for a recipient"
    )


def forgets(rnd):
    """A reader and a writer that nobody closes."""
    file, size = agefile.open(io.BytesIO(WHOLE), **KEY), rnd.randrange(200_000)
    agefile.open(io.BytesIO(), "wb", passphrase="pw", work=1).write(TEXT)
    ring = [file]
    ring.append(ring)  # (so that only the collector finds them)
    return "" if file.read(size) == TEXT[:size] else "a reader that nobody closes"


def faults(_):
    try:
        agefile.decrypt(CUT, **KEY)
    except agefile.NotWhole as fault:
        return "" if fault.chunk == 3 else f"a cut file: {fault}"
    return "a cut file that is whole"


KINDS = [reads, decrypts, encrypts, writes, lines, salvages, keys, forgets, faults]


class Run:
    """What the threads did until a time, and what of it was wrong."""

    def __init__(self, seconds):
        self.until, self.calls, self.wrong = time.monotonic() + seconds, [], []

    def see(self, call, *words):
        """Makes a call that says what is wrong, "" if nothing is."""
        try:
            what = call(*words)
        except Exception as fault:
            what = f"{call.__name__}: {fault!r}"[:150]
        self.calls.append(1)
        if what:
            self.wrong.append(what)

    def work(self, number):
        rnd = random.Random(number)
        while time.monotonic() < self.until:
            self.see(rnd.choice(KINDS), rnd)

    def collect(self):
        while time.monotonic() < self.until:
            gc.collect()
            time.sleep(0.01)


def interrupted(rnd, armed):
    """A file of the main thread, whose calls a signal interrupts: none of its bytes is lost or read twice."""
    file, got = agefile.open(io.BytesIO(WHOLE), **KEY), 0
    while True:
        piece = None
        try:
            armed.append(1)
            piece = file.read(rnd.choice((100, 70_000)))
            armed.clear()
        except Interruption:
            if piece is not None:  # it came when the read had returned
                return ""
            file.seek(got)
            continue
        if piece != TEXT[got : got + len(piece)] or not piece and got < len(TEXT):
            return "an interrupted read"
        if not piece:
            return ""
        got += len(piece)


def forks():
    """A child goes on with a file of its own."""
    child = os.fork()
    if child == 0:
        status = 2
        with contextlib.suppress(BaseException):
            signal.setitimer(signal.ITIMER_REAL, 0)
            status = int(agefile.decrypt(sealed(TEXT), passphrase="pw") != TEXT)
        os._exit(status)
    return "" if os.waitpid(child, 0)[1] == 0 else "a forked child"


def judge(data):
    """A file that was written, once all threads have ended."""
    return (
        ""
        if agefile.decrypt(data, passphrase="pw") == TEXT
        else "a file that was written holds another text"
    )


def main():
    sys.setswitchinterval(1e-5)
    run, armed, rnd = Run(float(sys.argv[3])), [], random.Random(0)

    def interrupts(*_):
        if armed:
            armed.clear()
            raise Interruption

    signal.signal(signal.SIGALRM, interrupts)
    threads = [threading.Thread(target=run.work, args=(it,)) for it in range(1, 6)] + [
        threading.Thread(target=run.collect)
    ]
    for it in threads:
        it.start()
    signal.setitimer(signal.ITIMER_REAL, 0.003, 0.003)
    while time.monotonic() < run.until:
        with contextlib.suppress(Interruption):
            run.see(interrupted, rnd, armed)
            armed.clear()
            if rnd.random() < 0.05:
                run.see(forks)
    signal.setitimer(signal.ITIMER_REAL, 0)
    for it in threads:
        it.join()
    for data in kept:
        run.see(judge, data)
    for what in sorted(set(run.wrong)):
        print(run.wrong.count(what), what)
    print(f"{len(run.calls)} calls, {len(run.wrong)} wrong")


main()
