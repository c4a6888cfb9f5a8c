"""The kit, used by its commands alone: the libraries of the workspace as `rt ci` proves them in a copy, and what `rattle` makes over these.

usage: python3 -m tools.libraries CRATE     prints the path of a static library, or of a program's object, for the processor that TARGET
                                            says: as a run on this machine made it of the same sources, or proved and compiled now
"""
import contextlib
import functools
import hashlib
import os
import pathlib
import re
import shutil
import signal
import subprocess
import sys
import tempfile
import time

from tools.workspace import CRATES, TOP, copy_into, lines, uses, with_used

# What a static library or an object is made for.
OWN_TARGET = "x86_64-unknown-linux-gnu"
TARGET = os.environ.get("TARGET") or OWN_TARGET
# What a proof reads of a crate.
PARTS = ("src", "specs", "proofs")
# What `rattle` says of code that it proves and that `rt ci` refuses: that a contract says nothing, in a line of its own, or in the last line that
# the code does what HANDLES doesn't allow, or what no contract tells.
BEYOND = re.compile(
    r"(?m)^warning: no call of `(?![^`]*::fn::)|^note: the search for empty contracts did not end"
    r"|^logic=proved .* (?:foreign|hides|partial|may-abort|may-wait|may-serve|bugs|main)="
)
# How many of the files that were made are kept, those used last.
MOST = 32
SAID = re.compile(r"rt: (\w+) (proved|is kept: .*)\n")


class Unproved(Exception):
    """A crate isn't proved: what was said of it."""


@functools.cache
def kit():
    """The folder of the kit."""
    return pathlib.Path(os.path.realpath(shutil.which("rt"))).parent.parent


@functools.cache
def note_older_kit():
    """Says once that this kit keeps nothing of what it proves, if that is so."""
    said = subprocess.run(["rt", "help"], capture_output=True, text=True)
    if "What a run passed is kept" not in said.stdout + said.stderr:
        name = (kit() / "KIT-ID").read_text().split()[0]
        print(
            f"note: {name} keeps nothing of what it proves: all is proved anew, which takes longer",
            file=sys.stderr,
            flush=True,
        )


@functools.cache
def sum_of_kit():
    """A sum of what names the kit, and of the sizes and times of what proves and compiles by it."""
    parts = [
        it
        for pattern in ("KIT-ID", "bin/*", "toolchain/bin/*", "logic_built/*", "rlibs/*/format")
        for it in sorted(kit().glob(pattern))
    ]
    known = [(str(it), it.stat().st_size, it.stat().st_mtime_ns) for it in parts]
    return sum_of((kit() / "KIT-ID").read_text(), known)


def sum_of(*what):
    return hashlib.sha256(repr(what).encode()).hexdigest()


def sum_of_file(path):
    return hashlib.sha256(path.read_bytes()).hexdigest()


def sum_of_sources(crate, top=TOP):
    """A sum of all that a proof of a crate reads in a workspace: its sources and those of the crates that it uses, what crates.txt and HANDLES say
    of them, and the kit."""
    of = with_used(crate)
    files = [
        it
        for name in of
        for part in PARTS
        for it in sorted((top / "crates" / name / part).rglob("*"))
        if it.is_file()
    ]
    held = [(str(it.relative_to(top)), sum_of_file(it)) for it in files]
    return sum_of(sum_of_kit(), [lines()[it] for it in of], (top / "HANDLES").read_text(), held)


def is_program(crate):
    return (CRATES / crate / "src" / "main.rt").is_file()


class Workspace:
    """A copy of some crates, without their edits, in which `rt ci` proves them and `rattle` checks and compiles what stands on them."""

    def __init__(self, room, names):
        self.top, self.names, self.run = pathlib.Path(room), names, None
        self.top.mkdir(exist_ok=True)
        copy_into(self.top, names)
        # (`rt ci` wants the top of a repository)
        (self.top / ".git").mkdir(exist_ok=True)

    def prove(self):
        """Proves all crates by `rt ci`, which takes what it kept of the same: each as soon as it is proved, and whether it was kept. Raises Unproved at
        the first that isn't proved."""
        if not self.names:
            return
        note_older_kit()
        how = {
            "stdin": subprocess.DEVNULL,
            "stdout": subprocess.PIPE,
            "stderr": subprocess.STDOUT,
            "text": True,
            "errors": "replace",
        }
        env = {**os.environ, "PYTHONPATH": str(TOP)}
        # In a session of its own, an interrupt at the terminal doesn't reach it: it would wait for its checks, which end with it.
        with subprocess.Popen(
            [sys.executable, "-m", "tools.rt_ci"],
            cwd=self.top,
            start_new_session=True,
            env=env,
            **how,
        ) as run:
            self.run, said = run, ""
            try:
                for line in run.stdout:
                    said = line if line.startswith("== ") else said + line
                    if found := SAID.fullmatch(line):
                        yield found[1], found[2] != "proved"
                    elif line.endswith(" NOT PROVED\n"):
                        raise Unproved(said.replace(str(self.top), str(TOP)))
            except BaseException:
                run.terminate()
                raise
        if run.returncode:
            raise Unproved(said.replace(str(self.top), str(TOP)))

    def library(self, crate):
        """The folder in which `rt ci` leaves a library."""
        return self.top / "crates" / crate / "out" / "rlib"

    def words(self, crate, jobs):
        """What `rattle` is told of a crate, whatever it is to do with it, once the libraries below it are proved."""
        listed = lines()[crate].partition(":")[2].split()
        words = ["--crate-name", crate, "src/main.rt" if is_program(crate) else "src/lib.rt"]
        for it in ["std", *(it for it in listed if it not in lines())]:
            words += ["--extern", f"{it}={kit()}/rlibs/{it}.rlib"]
        words += ["-L", f"dependency={kit()}/rlibs"]
        for it in uses(crate):
            words += ["--extern", f"{it}={self.library(it)}/{it}.rlib"]
        for it in with_used(crate)[:-1]:
            words += ["-L", f"dependency={self.library(it)}"]
        words += [
            "--antt-project",
            f"{kit()}/rattle/logic/antt-project.json",
            "--logic-built",
            f"{kit()}/logic_built",
        ]
        words += ["--jobs", str(jobs), "--links", f"{crate}="]
        return words + ["--crate-type", "staticlib"] * (
            lines()[crate].partition(":")[0].split()[1:2] == ["staticlib"]
        )

    def compile(self, crate, jobs):
        """Proves a program or a static library, and compiles it in the same run: the path of its object or library."""
        made = self.top / "crates" / crate / "out" / f"{crate}.{'o' if is_program(crate) else 'a'}"
        made.parent.mkdir(exist_ok=True)
        words = [kit() / "bin" / "rattle", "build", *self.words(crate, jobs), "--empty-contracts"]
        words += [
            "--toolchain",
            kit() / "toolchain",
            "--target",
            TARGET,
            "--backend",
            "llvm",
            "-o",
            made,
        ]
        run = subprocess.run(
            words,
            cwd=made.parent.parent,
            stdin=subprocess.DEVNULL,
            stdout=subprocess.PIPE,
            stderr=subprocess.STDOUT,
            text=True,
            errors="replace",
        )
        if (
            run.returncode
            or "\nlogic=proved " not in f"\n{run.stdout}"
            or BEYOND.search(run.stdout)
        ):
            raise Unproved(
                f"{run.stdout}{crate} NOT PROVED: rattle ended with status {run.returncode}\n"
            )
        return made


def places():
    """Where it is kept what runs made of proved sources: for all checkouts of this user, or else in this one."""
    cache = pathlib.Path(os.environ.get("XDG_CACHE_HOME") or os.path.expanduser("~/.cache"))
    return [
        *([cache / "age_tool"] if cache.is_absolute() else []),
        TOP / "bindings" / "out" / "kept",
    ]


def kept(kind, name):
    """The files of a kind that are kept and whose names begin so."""
    for place in places():
        with contextlib.suppress(OSError):
            yield from (place / kind).glob(f"{name}*")


def keep(kind, name, write):
    """Keeps a file, which `write` writes at a path, and removes those of its kind that weren't used for longest: its path, if there was a place."""
    for place in places():
        with contextlib.suppress(OSError):
            (place / kind).mkdir(parents=True, exist_ok=True)
            new = place / kind / f"new-{os.getpid()}-{name[-8:]}"
            write(new)
            return new.rename(place / kind / name)
    return None


class Made:
    """What was made of a crate by runs that proved it. The name of each file has the sum of all that it was made of, and that of its bytes."""

    def __init__(self, crate, top=TOP):
        self.name = f"{crate}-{sum_of(sum_of_sources(crate, top), TARGET)}-"

    def found(self):
        """The file, if an earlier run left it."""
        for it in kept("made", self.name):
            with contextlib.suppress(OSError):
                if sum_of_file(it) == it.name.removeprefix(self.name):
                    os.utime(it)
                    return it
        return None

    def keep(self, made):
        """Keeps a file: its path."""
        found = keep("made", self.name + sum_of_file(made), lambda to: shutil.copy(made, to))
        for it in (
            sorted(found.parent.iterdir(), key=lambda it: -it.stat().st_mtime)[MOST:]
            if found
            else ()
        ):
            it.unlink()
        return found


def processors():
    return int(os.environ.get("JOBS") or len(os.sched_getaffinity(0)))


def make(crate, tell=lambda crate, is_kept: None):
    """Takes what was made of a static library or of a program's object, or proves it, over what it uses, and compiles it: the path. Each crate is
    told as soon as it is proved."""
    if made := Made(crate).found():
        tell(crate, True)
        return made
    *below, _ = with_used(crate)
    with tempfile.TemporaryDirectory(prefix="age-library-") as room:
        workspace = Workspace(room, below)
        for it in workspace.prove():
            tell(*it)
        copy_into(workspace.top, [*below, crate])
        made = workspace.compile(crate, processors())
        tell(crate, False)
        return Made(crate, workspace.top).keep(made)


def main(crate):
    begun, of, done = time.monotonic(), len(with_used(crate)), []

    def tell(it, is_kept):
        done.append(it)
        how = "was proved before" if is_kept else "proved"
        taken = f"{(time.monotonic() - begun) / 60:.0f} min"
        print(
            f"[{of if it == crate else len(done)}/{of}] {it} {how}, {taken}",
            file=sys.stderr,
            flush=True,
        )

    for it in (signal.SIGTERM, signal.SIGHUP):
        signal.signal(it, lambda number, _: sys.exit(128 + number))
    try:
        print(make(crate, tell))
    except Unproved as fault:
        sys.exit(str(fault))


if __name__ == "__main__":
    main(*sys.argv[1:])
