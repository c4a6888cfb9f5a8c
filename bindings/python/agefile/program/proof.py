"""What is proved of the program: reads a promise of proof.json aloud, which came with the release, with what it rests on, and says whether the
age_tool that came with this program is the one that was proved."""
from __future__ import annotations

import hashlib
import json
import os
import re
import textwrap
import zipfile
from typing import Any

from run_age_tool import BUILD, PLACE, age_tool
from telling import Fault, Misuse, shown, write


def held_proof(program: str) -> dict[str, Any]:
    """What proof.json holds: the one in this folder or archive, or else that of the folder to which the program was installed."""
    place = os.path.join(os.path.dirname(os.path.dirname(program)), "share/agefile/proof.json")
    try:
        if os.path.isfile(PLACE):
            with zipfile.ZipFile(PLACE) as archive:
                return json.loads(archive.read("proof.json"))  # type: ignore[no-any-return]
        place = own if os.path.exists(own := f"{PLACE}/proof.json") else place
        with open(place, encoding="utf-8") as file:
            return json.load(file)  # type: ignore[no-any-return]
    except (OSError, KeyError):
        raise Fault(f"there is no {shown(place)}, which comes with a release") from None
    except ValueError:
        raise Fault(f"{shown(place)} is damaged: install the release again") from None


def named(proof: dict[str, Any], words: list[str]) -> dict[str, Any]:
    """The promise that begins with these words."""
    name = re.sub(r"[^a-z0-9]+", "-", " ".join(words).lower()).strip("-")
    begin: list[dict[str, Any]] = [it for it in proof["promises"] if it["name"] == name] or [
        it for it in proof["promises"] if it["name"].startswith(name)
    ]
    if len(begin) != 1:
        several = "".join(f"\n  {it['promise']}" for it in begin)
        raise Misuse(
            f"{'several promises begin' if begin else 'no promise begins'} with {shown(' '.join(words))}{several or ': agefile proof lists them'}"
        )
    return begin[0]


def filled(text: str, indent: str = "") -> str:
    """A paragraph of lines that fit."""
    return (
        textwrap.fill(
            text, 79, initial_indent=indent, subsequent_indent=indent, break_on_hyphens=False
        )
        + "\n"
    )


def read_definition(proof: dict[str, Any], key: str) -> str:
    """What a definition says, and its parts."""
    it = proof["definitions"][key]
    said = [
        (key, it.get("says", "")),
        *((f"  {part}", held.get("says", "")) for part, held in it.get("parts", {}).items()),
    ]
    return "".join(
        filled(f"{name.strip()}: {text}", "    " if name.startswith("  ") else "  ")
        for name, text in said
        if text
    )


def stated(proof: dict[str, Any], promise: dict[str, Any]) -> str:
    """A promise read aloud: where it stands, and what its definition and those that this cites say."""
    clause = f"the clause {promise['clause']}" if promise["clause"] else "the contract"
    states = f", which states {promise['definition']}" if promise["definition"] else ""
    asks = "".join(
        filled(f"It is asked of a caller that {text}", "") for text in promise["requires"].values()
    )
    own = (
        read_definition(proof, promise["definition"])
        if promise["definition"]
        else "".join(filled(it, "  ") for it in promise["states"].values())
    )
    cited = "".join(read_definition(proof, it) for it in promise["cites"])
    return (
        filled(f"It is {clause} of {promise['function']} in {promise['crate']}{states}:")
        + own
        + asks
        + ("It cites:\n" + cited if cited else "")
    )


def rests_on(proof: dict[str, Any], promise: dict[str, Any]) -> str:
    """What has to be believed for it."""
    trusted = proof["trusted"]
    functions = sorted({it for them in trusted.get("functions_of_c", {}).values() for it in them})
    lines = [
        f"It rests on {len(promise['definitions'])} definitions (sum {promise['sum']}), proved of sources with the sum {promise['sources']}, by {proof['kit']}, logic {proof['logic']}.",
        f"Trusted: the kit, with {', '.join(trusted['libraries'])}; that {len(functions)} functions of C do what they are assumed to do: {', '.join(functions)};",
        f"that the calls which {trusted['noted']['file']} notes were made; that a disk is as {', '.join(trusted['disk'])} says; and {', '.join(trusted['c'])}.",
        *(f"The checker refuses this wrong code: {it}." for it in promise["edits"]),
    ]
    return "".join(map(filled, lines))


def is_proved(proof: dict[str, Any], program: str) -> tuple[bool, str]:
    """Whether a program is one that was made of the proved object, and what is said of that."""
    with open(program, "rb") as file:
        found = hashlib.sha256(file.read()).hexdigest()
    made = [
        (f"{name}, for {processor}", held)
        for processor, them in proof["files"].items()
        for name, held in them.items()
    ]
    made += [
        (f"{name}, linked of the proved object where it was installed from", held)
        for name, held in proof["linked"].items()
    ]
    names = [name for name, held in made if held == found]
    if BUILD != f"(of {proof['build']})":
        return (
            False,
            f"proof.json is of build {proof['build']}, and this program {BUILD}: install both of one release",
        )
    if not names:
        return False, f"{shown(program)} isn't a program of this proof: its sum is {found}"
    return True, f"{shown(program)} has the sum that this proof names: {found} ({names[0]})."


def tell_proof(words: list[str]) -> int:
    """Carries out `agefile proof`: the status is 0 if the program is the one that was proved."""
    if words in (["-h"], ["--help"]):
        write(
            1,
            "Usage: agefile proof [PROMISE]\n\nReads a promise aloud, with what it rests on, and says whether the age_tool that came with\nagefile is the one that was proved. PROMISE is how one begins, as status-0; without\nit, all are listed.\n",
        )
        return 0
    program = age_tool()
    proof = held_proof(program)
    if words:
        promise = named(proof, words)
        write(1, f"{promise['promise']}\n\n{stated(proof, promise)}\n{rests_on(proof, promise)}\n")
    else:
        write(1, "".join(filled(it["promise"], "  ") for it in proof["promises"]) + "\n")
    holds, said = is_proved(proof, program)
    if not holds:
        raise Fault(said)
    write(1, filled(said))
    return 0
