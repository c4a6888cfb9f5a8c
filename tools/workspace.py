"""The workspace: its crates and what each uses, copies of their sources, and where the program and the C library are.

usage: python3 -m tools.workspace CRATE     prints the crates of the workspace that it uses, each after those that it uses itself, and it
"""
import functools
import importlib.machinery
import importlib.util
import os
import pathlib
import shutil
import subprocess
import sys

TOP = pathlib.Path(__file__).resolve().parent.parent
CRATES = TOP / "crates"
# The program that is tested and measured.
PROGRAM = pathlib.Path(
    os.environ.get("AGE_TOOL") or CRATES / "age_tool" / "out" / "age_tool"
).resolve()
# The folder of the C library.
LIBRARY = pathlib.Path(os.environ.get("AGE_C_DIR") or TOP / "bindings" / "out").resolve()
# A crate's files that its proof, or a run of its program, reads.
READ = ("src", "specs", "proofs", "data", "args", "stdin", "stdout", "status")


@functools.cache
def lines():
    """The lines of crates.txt by their crates: what each uses."""
    held = [it.split("#")[0].strip() for it in (TOP / "crates.txt").read_text().splitlines()]
    return {it.split(":")[0].split()[0]: it for it in held if it}


def crates():
    """The crates, in the order of crates.txt."""
    return [*lines()]


def within(names):
    """Those of these libraries that are crates of the workspace."""
    return [it for it in names if it in lines()]


def uses(crate):
    """The crates of the workspace that it names."""
    return within(lines()[crate].partition(":")[2].split())


def with_used(*names, found=()):
    """These crates after those of the workspace that they use, each once."""
    for it in names:
        if it not in found:
            found = (*with_used(*uses(it), found=found), it)
    return found


def copy_into(room, names, more=""):
    """Brings a folder's copy of these crates up to date, without their edits. `more` are lines of crates.txt for others that are there."""
    for crate in names:
        to = room / "crates" / crate
        to.mkdir(parents=True, exist_ok=True)
        for part in (CRATES / crate / it for it in READ):
            shutil.rmtree(to / part.name, ignore_errors=True)
            if part.is_dir():
                shutil.copytree(part, to / part.name)
            elif part.is_file():
                shutil.copy(part, to)
    (room / "crates.txt").write_text("".join(f"{lines()[it]}\n" for it in names) + more)
    shutil.copy(TOP / "HANDLES", room)


@functools.cache
def program():
    """The program, which ./age_tool builds if it has to, unless AGE_TOOL names another."""
    if "AGE_TOOL" not in os.environ:
        with open(CRATES / "age_tool" / "stdin") as report:
            subprocess.run([TOP / "age_tool"], stdin=report, stdout=subprocess.DEVNULL, check=True)
    return PROGRAM


@functools.cache
def library():
    """The folder of the C library, which `bindings/build` brings up to date, unless AGE_C_DIR names another."""
    if "AGE_C_DIR" not in os.environ:
        subprocess.run([TOP / "bindings" / "build"], stdout=subprocess.DEVNULL, check=True)
    return LIBRARY


@functools.cache
def proved_object():
    """The object of the program, as a run left it that proved the same sources, or proved now."""
    words = [sys.executable, "-m", "tools.libraries", "age_tool"]
    return subprocess.run(
        words, cwd=TOP, stdout=subprocess.PIPE, text=True, check=True
    ).stdout.strip()


def go_module():
    """The path of the Go module."""
    return (TOP / "bindings" / "go" / "go.mod").read_text().split()[1]


def answer_help(head):
    """Prints the head of a script and ends, if that is what the words ask for."""
    if {"-h", "--help"} & {*sys.argv[1:]}:
        print(head.strip())
        sys.exit()


def loaded(path):
    """A script as a module."""
    sys.dont_write_bytecode = True
    loader = importlib.machinery.SourceFileLoader(path.name, str(path))
    module = importlib.util.module_from_spec(importlib.util.spec_from_loader(path.name, loader))
    loader.exec_module(module)
    return module


if __name__ == "__main__":
    print(*with_used(*sys.argv[1:]))
