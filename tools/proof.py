"""What the sources say of the promises: each with its clause, the definitions that this leads to, and what has to be trusted for it. A release
has it as proof.json (release/proof), and release/compare compares two of them.

usage: python3 -m tools.proof     prints it as JSON, of the sources alone
"""
import functools
import hashlib
import json
import re

from tools.promises import core, promises
from tools.sources import RECORD, VALUE, source, until_body
from tools.workspace import CRATES, TOP, answer_help, crates, lines, loaded, with_used

CLAUSE = re.compile(r"\b(requires|ensures)\*?\s*(\w*)\s*\{")
PART = re.compile(r"^ +(?:pub )?([^\s(){}]+) :(?: |$)")
# What is linked beside the proved code, and only tested.
C_SOURCES = ("agefile", "once", "look", "names", "processor", "heap")


def sum_of(text):
    """The first 32 digits of a text's SHA-256; white space counts once."""
    return hashlib.sha256(" ".join(text.split()).encode()).hexdigest()[:32]


@functools.cache
def reading():
    return loaded(TOP / "checks" / "trusted").Reading()


def slug(promise):
    """A promise's name for a command line."""
    return re.sub(r"[^a-z0-9]+", "-", promise.lower()).strip("-")


def clauses_of(head):
    """The clauses of a function's head: kind, name and text of each."""
    for found in CLAUSE.finditer(head):
        depth, end = 1, found.end()
        while depth and end < len(head):
            depth += {"{": 1, "}": -1}.get(head[end], 0)
            end += 1
        yield found[1], found[2], " ".join(head[found.end() : end - 1].split())


def file_of(promise):
    return source(CRATES / promise.crate / "src" / f"{promise.module.replace('::', '/')}.rt")


def contract_of(promise):
    """All clauses of the function that a promise is of."""
    text = file_of(promise).text
    found = re.search(rf'(?m)^ *pub (?:const )?(?:extern "C" )?fn {promise.name}\b', text)
    return [*clauses_of(until_body(text[found.start() :].splitlines(), 0))]


def definition_of(promise):
    """The definition that a promise names, by its module and name; of several in unlike crates that of its own crate."""
    chapter, _, name = promise.definition.partition(".")
    found = [
        (module, name)
        for module, it in reading().modules.items()
        if module.endswith(f".{chapter}") and ".specs." in module and name in it.definitions
    ]
    return sorted(found, key=lambda it: it[0].split(".")[1] != promise.crate)[:1]


def key_of(module, name):
    """A definition as pages name it, after its crate."""
    _, crate, _, *chapter = module.split(".")
    return f"{crate} {chapter[-1]}.{name}"


@functools.cache
def comments_of(path):
    """The comment above each definition of a file, and above each part of one, by the definition and the part."""
    said, above, owner = {}, [], None
    for line in path.read_text().splitlines():
        if line.lstrip().startswith("--"):
            above.append(line.strip(" -"))
            continue
        head, part = RECORD.match(line) or VALUE.match(line), PART.match(line)
        if head and not head[1]:
            owner = head[2]
            said.setdefault((owner, ""), " ".join(filter(None, above)))
        elif part and owner and above:
            said.setdefault((owner, part[1]), " ".join(filter(None, above)))
        above = []
    return said


def parts_of(text):
    """The parts of a record, or the cases of a type, by their names: the text of each."""
    parts, name = {}, None
    for line in text[1:] if text and RECORD.match(text[0]) else ():
        if found := PART.match(line):
            name = found[1]
        if name:
            parts[name] = f"{parts.get(name, '')}{line.strip()} "
    return parts


def described(module, name):
    """A definition: its sum, those of its parts, and what the comments above them say."""
    known = reading().modules[module]
    text = known.definitions[name]
    said = comments_of(known.path) if hasattr(known, "path") else {}
    parts = {
        part: {"sum": sum_of(it)} | ({"says": said[name, part]} if said.get((name, part)) else {})
        for part, it in parts_of(text).items()
    }
    return (
        {"sum": sum_of("\n".join(text))}
        | ({"says": said[name, ""]} if said.get((name, "")) else {})
        | ({"parts": parts} if parts else {})
    )


def text_of(module, name):
    return "\n".join(it.strip() for it in reading().modules[module].definitions[name])


def one_promise(promise):
    """What proof.json has of a promise, and the definitions that it leads to."""
    contract, root = contract_of(promise), definition_of(promise)
    clause = promise.clause if promise.clause != "-" else ""
    stated = [it for it in contract if it[0] == "ensures" and (not clause or it[1] == clause)]
    required = [it for it in contract if it[0] == "requires"]
    cited, asked = (
        {it for _, _, text in them for it in file_of(promise).cited_in(text)}
        for them in (stated, required)
    )
    # (the clause may say more than this promise, which is then a part of what it leads to)
    reached = reading().closure([*(root or cited), *asked])
    leads = not root or root[0] in reading().closure(cited)
    keys = sorted(key_of(*it) for it in reached)
    sums = sorted((key_of(*it).partition(" ")[2], sum_of(text_of(*it))) for it in reached)
    held = {
        "name": slug(promise.promise),
        "promise": promise.promise,
        "crate": promise.crate,
        "function": f"{promise.module}::{promise.name}",
        "clause": clause,
        "states": {name or str(place): text for place, (_, name, text) in enumerate(stated)},
        "requires": {name or str(place): text for place, (_, name, text) in enumerate(required)},
        "clauses": [name for kind, name, _ in contract if kind == "ensures" and name],
        "definition": key_of(*root[0]) if root else "",
        "reads": text_of(*root[0]) if root else "",
        "cites": sorted(
            {
                key_of(*it)
                for it in (reading().modules[root[0][0]].cites[root[0][1]] if root else cited)
                if it in reached
            }
        ),
        "leads": leads,
        "definitions": keys,
        "edits": [it for it in (promise.edit,) if it != "-"],
    }
    return held | {"sum": sum_of(json.dumps([held["states"], held["requires"], sums]))}, reached


def sources_of(crate):
    """The sum of all that a crate's proof reads of the crate itself."""
    files = sorted(
        it
        for part in ("src", "specs", "proofs")
        for it in (CRATES / crate / part).rglob("*")
        if it.is_file()
    )
    return sum_of(
        "".join(
            f"{it.relative_to(CRATES / crate)} {hashlib.sha256(it.read_bytes()).hexdigest()}\n"
            for it in files
        )
    )


def file_sum(path):
    return hashlib.sha256((TOP / path).read_bytes()).hexdigest()


def trusted():
    """What isn't proved and has to be as it is said: the kit's libraries, the calls that are noted by hand, the model of a disk, the C code."""
    kits = sorted(
        {it for line in lines().values() for it in line.partition(":")[2].split()} - {*crates()}
    )
    disks = [it.relative_to(TOP) for it in sorted(CRATES.glob("*/specs/Disk.antt"))]
    script = TOP / "checks" / "noted"
    noted = loaded(script) if script.is_file() else None
    place = noted and f"crates/{noted.NOTED}"
    calls = sorted({it for them in noted.CALLERS.values() for it in them.split()}) if noted else []
    files = [
        it
        for it in (*(f"bindings/c/{name}.c" for name in C_SOURCES), "release/kit.c")
        if (TOP / it).is_file()
    ]
    return {
        "libraries": kits,
        "noted": {"file": place, "sum": file_sum(place), "calls": calls}
        if noted and (TOP / place).is_file()
        else None,
        "disk": {str(it): file_sum(it) for it in disks},
        "c": {it: file_sum(it) for it in files},
    }


def proof():
    """All of it, of the sources."""
    reached, rows = set(), []
    for promise in promises():
        row, found = one_promise(promise)
        rows.append(row)
        reached |= found
    used = {it: with_used(it) for it in {row["crate"] for row in rows}}
    sums = {it: sources_of(it) for it in sorted({it for them in used.values() for it in them})}
    for row in rows:
        row["sources"] = sum_of("".join(sums[it] for it in used[row["crate"]]))
    cores = {}
    for crate, name in sorted(core()):
        cores.setdefault(crate, []).append(name)
    return {
        "promises": rows,
        "definitions": {
            key_of(*it): described(*it) for it in sorted(reached, key=lambda it: key_of(*it))
        },
        "sources": sums,
        "edits": cores,
        "trusted": trusted(),
    }


if __name__ == "__main__":
    answer_help(__doc__)
    print(json.dumps(proof(), indent=1, ensure_ascii=False))
