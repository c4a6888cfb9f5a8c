#!/usr/bin/env python3
"""Fuzzes the Python module by hypothesis (Debian: python3-hypothesis), for so many seconds each: files that are damaged, cut, exchanged and
lengthened, read in every way, and headers of any bytes. What has to come is told by comparing blocks with those that were written.

SEED (1) is where chance begins. Without hypothesis it ends with status 77. Needs the library that bindings/build makes, or that
AGEFILE_LIBRARY names.

usage: bindings/python/fuzz/fuzz.py [SECONDS]     (20)
"""
import io
import itertools
import os
import pathlib
import sys
import time

try:
    from hypothesis import HealthCheck, example, given, seed, settings
    from hypothesis import strategies as st
except ImportError:
    print("needs hypothesis", file=sys.stderr)
    sys.exit(77)

sys.path.insert(0, str(pathlib.Path(__file__).resolve().parent.parent))
import agefile

CHUNK, BLOCK = 65_536, 65_552
SIZES = (0, 1, 70, CHUNK, CHUNK + 1, 2 * CHUNK, 2 * CHUNK + 500)
TEXTS = [bytes((i * 131 ^ i >> 8) & 255 for i in range(n)) for n in SIZES]
FILES = [agefile.encrypt(it, passphrase="pw", work=1) for it in TEXTS]
FRONTS = [
    len(it) - len(text) - 16 * max(1, -(-len(text) // CHUNK)) for it, text in zip(FILES, TEXTS)
]
# So many cases are one turn, whose seed is the next number.
CASES = 40

CHANGE = st.one_of(
    st.tuples(st.just("flip"), st.integers(0, 1 << 18), st.integers(0, 7)),
    st.tuples(st.just("cut"), st.integers(0, 1 << 18), st.just(0)),
    st.tuples(st.just("edge"), st.integers(0, 3), st.integers(-20, 40)),
    st.tuples(st.just("more"), st.integers(1, 70_000), st.just(0)),
    st.tuples(st.just("less"), st.integers(0, 2), st.just(0)),
    st.tuples(st.just("swap"), st.just(0), st.just(0)),
)


def altered(which, changes):
    """A payload with these changes."""
    payload = bytearray(FILES[which][FRONTS[which] :])
    for kind, one, other in changes:
        if kind == "flip" and payload:
            payload[one % len(payload)] ^= 1 << other
        elif kind == "cut":
            del payload[one % (len(payload) + 1) :]
        elif kind == "edge":
            del payload[max(0, one * BLOCK + other) :]
        elif kind == "more":
            payload += bytes(one)
        elif kind == "less" and len(payload) >= (one + 1) * BLOCK:
            del payload[one * BLOCK : (one + 1) * BLOCK]
        elif kind == "swap" and len(payload) >= 2 * BLOCK:
            payload[: 2 * BLOCK] = payload[BLOCK : 2 * BLOCK] + payload[:BLOCK]
    return bytes(payload)


def own_block(which, index):
    """The block that was written there, and whether it is the last."""
    own = FILES[which][FRONTS[which] :]
    return own[index * BLOCK : (index + 1) * BLOCK], (index + 1) * BLOCK >= len(own) > index * BLOCK


def judged(which, payload):
    """How much text a payload has, and with which fault it ends (0 if it is complete)."""
    size, index = 0, 0
    while True:
        block = payload[index * BLOCK : (index + 1) * BLOCK]
        own, is_last = own_block(which, index)
        if len(block) < 16:
            return size, 18 if block else 20
        if len(block) == 16 and index:
            return size, 19
        if block != own or len(block) < BLOCK and not is_last:
            return size, 17
        size += len(block) - 16
        if is_last:
            return size, 21 if len(payload) > (index + 1) * BLOCK else 0
        index += 1


def read(file, kind, count, text, at):
    """One call of a reader: what it gave, and where it stands."""
    if kind == 0:
        return file.read(count), at
    if kind == 1:
        return file.read1(count), at
    if kind == 2:
        room = bytearray(count)
        return bytes(room[: file.readinto(room)]), at
    if kind == 3:
        return file.readline(count), at
    if kind == 4:
        seen = file.peek(count % 70_000)
        assert seen == text[at : at + len(seen)]
        return b"", at
    if kind == 5:
        return b"", file.seek(count)
    if kind == 6:
        return b"", file.seek(-(count % (at + 1)), io.SEEK_CUR)
    return file.read(), at


def reads(which, changes, calls):
    """No byte that isn't the text's, at its place; the fault of the payload, where all is read; the same by a Decryptor and by salvage."""
    payload = altered(which, changes)
    size, fault = judged(which, payload)
    text, data = TEXTS[which], FILES[which][: FRONTS[which]] + payload
    at = number = 0
    with agefile.open(io.BytesIO(data), passphrase="pw") as file:
        try:
            for kind, count in [*calls, (5, 0), (9, 0)]:
                got, at = read(file, kind, count, text, at)
                assert got == text[at : at + len(got)], (kind, at)
                at += len(got)
                assert file.tell() == at
        except agefile.AgeError as it:
            number = it.number
    # (a seek may have met a fault before the first)
    assert (number == 0) == (fault == 0) and (calls or number == fault), (number, fault)
    pushed(data, text, size, fault, [count for _, count in calls] or [1])
    saved(which, data, fault)


def pushed(data, text, size, fault, pieces):
    got, number, at = b"", 0, 0
    decryptor = agefile.Decryptor(passphrase="pw")
    try:
        for piece in itertools.cycle(pieces):
            if at >= len(data):
                break
            got, at = got + decryptor.update(data[at : at + piece + 99]), at + piece + 99
        got += decryptor.finish()
    except agefile.AgeError as it:
        number = it.number
    decryptor.close()
    assert number == fault and got == text[:size], (number, fault, len(got), size)


def saved(which, data, fault):
    out = io.BytesIO()
    it = agefile.salvage(io.BytesIO(data), out, passphrase="pw")
    held = out.getvalue()
    assert (fault == 0) == (it.is_whole and not it.followed) and it.size == len(held), (it, fault)
    lost = {number for begin, end in it.lost for number in range(begin // CHUNK, -(-end // CHUNK))}
    for number in {*range(-(-len(held) // CHUNK))} - lost:
        part = slice(number * CHUNK, (number + 1) * CHUNK)
        assert held[part] == TEXTS[which][part], number


LINE = st.one_of(
    st.sampled_from(
        [
            b"age-encryption.org/v1\n",
            b"-> x\n",
            b"\n",
            b"-> X25519 " + b"A" * 43 + b"\n",
            b"A" * 43 + b"\n",
            b"A" * 64 + b"\n",
            b"-> scrypt " + b"A" * 22 + b" 1\n",
            b"--- " + b"A" * 43 + b"\n",
        ]
    ),
    st.binary(max_size=70),
    st.binary(max_size=20).map(lambda it: b"-> " + it + b"\n"),
)


def headers(begins, lines):
    """Three ways to read a header find the same fault, if its grammar has one."""
    data, faults = (b"age-encryption.org/v1\n" if begins else b"") + b"".join(lines), []
    for call in (
        lambda: agefile.inspect(io.BytesIO(data)),
        lambda: agefile.open(io.BytesIO(data), file_key=bytes(16)),
        lambda: agefile.open(io.BytesIO(data), passphrase="x", max_work=2),
    ):
        try:
            call()
            faults.append(0)
        except agefile.AgeError as it:
            faults.append(it.number)
    assert faults[1] and faults[2] and (faults[0] == 0 or faults[0] == faults[1] == faults[2]), (
        data,
        faults,
    )


# Each test with what it is given, and its corpus.
TESTS = {
    headers: (
        (st.booleans(), st.lists(LINE, max_size=8)),
        [(True, [b"-> x\n", b"\n", b"--- " + b"A" * 43 + b"\n"])],
    ),
    reads: (
        (
            st.integers(0, len(SIZES) - 1),
            st.lists(CHANGE, max_size=3),
            st.lists(st.tuples(st.integers(0, 6), st.integers(0, 140_000)), max_size=8),
        ),
        [
            (6, [("edge", 1, 15)], []),
            (6, [("edge", 2, 16)], [(5, 2 * CHUNK - 1)]),
            (5, [("more", 1, 0)], [(1, 140_000), (1, 1)]),
            (4, [("swap", 0, 0)], [(4, 9)]),
        ],
    ),
}


def turn(test, number):
    """Tries the corpus of a test and so many cases."""
    drawn, corpus = TESTS[test]
    test = given(*drawn)(test)
    for it in corpus:
        test = example(*it)(test)
    how = settings(
        max_examples=CASES, deadline=None, database=None, suppress_health_check=list(HealthCheck)
    )
    how(seed(number)(test))()


def main():
    if {"-h", "--help"} & {*sys.argv[1:]}:
        sys.exit(print(__doc__.strip()))
    seconds, first = float(sys.argv[1] if sys.argv[1:] else 20), int(os.environ.get("SEED") or 1)
    for test in TESTS:
        end, turns = time.monotonic() + seconds, 0
        while not turns or time.monotonic() < end:
            turn(test, first + turns)
            turns += 1
        print(f"{test.__name__}: {turns * CASES} cases, nothing found", flush=True)


if __name__ == "__main__":
    main()
