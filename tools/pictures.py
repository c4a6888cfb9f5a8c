"""What docs/cut.svg and docs/resume.svg show, as data: tests make each cut and each fault, and compare what age_tool says and leaves. The
pictures are kept by hand; checks/documents looks whether they say what stands here, and whether docs/crates.svg has the crates."""
import re
import typing

from tools.workspace import TOP, lines

BLOCK, CHUNK, NONCE, TAG = 65_552, 65_536, 16, 16


class Cut(typing.NamedTuple):
    """A place where a file of three chunks ends, or has a byte too many: bytes after the header, the fault, and the chunks that OUT has."""

    where: str
    after: int
    fault: str
    left: int


# Of a file of two full chunks and a third of 18,928 bytes.
LAST = 18_928 + TAG
CUTS = [
    Cut("in the header", -1, "8 HeadCut line 4", 0),
    Cut("in the nonce", 9, "16 NonceCut", 0),
    Cut("just before a chunk", NONCE + BLOCK, "20 Truncated chunk 1", 1),
    Cut("in the first 15 bytes of a chunk", NONCE + BLOCK + 9, "18 ChunkCut chunk 1", 1),
    Cut(
        "later in a chunk, as nearly every cut does",
        NONCE + BLOCK + 40_000,
        "17 ChunkDamaged chunk 1",
        1,
    ),
    Cut(
        "after bytes that were appended", NONCE + 2 * BLOCK + LAST + 1, "17 ChunkDamaged chunk 2", 2
    ),
]
# What `resume` does, and the fault if that fails. The position is at chunk 2.
STEPS = [
    ("the position is read", 23),
    ("IN's header and nonce are read, and a key opens it; the position has to be of this file", 24),
    ("and unaltered, by its tag", 30),
    ("the chunks before the position are copied from the earlier output", 25),
    ("the copy has to be what the position was saved for", 31),
    ("the blocks before it are skipped in IN, unread if IN is a regular file", 20),
    ("each later chunk is opened, checked and written", 17),
]
FAULTS = {
    17: "ChunkDamaged",
    20: "Truncated",
    23: "BadPosition",
    24: "OtherFile",
    25: "ShortText",
    30: "PositionForged",
    31: "OldTextDiffers",
}


def words_of(name):
    """The texts of a picture."""
    return re.findall(r"<text [^>]*>([^<]*)</text>", (TOP / "docs" / name).read_text())


def differences():
    """What the pictures should say and don't."""
    for name, wanted in (
        ("cut.svg", [part for it in CUTS for part in (it.where, it.fault)]),
        (
            "resume.svg",
            [part for words, fault in STEPS for part in (words, f"{fault} {FAULTS[fault]}")],
        ),
    ):
        yield from (f"docs/{name} doesn't say: {it}" for it in wanted if it not in words_of(name))
    shown = {*re.findall(r"\bage_\w+", " ".join(words_of("crates.svg")))}
    yield from (
        f"docs/crates.svg: {it} is {'not there' if it in lines() else 'no crate'}"
        for it in sorted(shown ^ {*lines()})
    )
