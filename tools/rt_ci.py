"""`rt ci` in less time: the one place that replaces functions of the kit's, and only if their texts are those for which it was written. With
any other kit it is `rt ci` as it is, and says so.

Replaced are `in_lanes`, which gives a proof the processors that no other task waits for, but counts among these what is only taken from an
earlier run, and the tests of crates that have none: a crate that is proved alone then gets two of four. And `Crate.compile_by`, so that both
compilers of the program work at once.

usage: python3 -m tools.rt_ci     (in a workspace, as `rt ci`)
"""
import ast
import collections
import concurrent.futures
import hashlib
import os
import pathlib
import shutil
import sys

from tools.workspace import loaded

# What this rests on of rattle-kit-13f's `rt`, by sums of their texts: tests/tooling/test_rt_ci.py says how to renew them.
KNOWN = {
    "in_lanes": "028904d9e05eb37c",
    "ci_over": "eec2c30f62220685",
    "Kept": "3fe4e52efb76fedd",
    "Crate": "e4f0ede07d0b597a",
}


def path():
    return pathlib.Path(os.path.realpath(shutil.which("rt")))


def sums(text):
    """Sums of the texts of what this replaces and calls."""
    found = {
        it.name: ast.get_source_segment(text, it)
        for it in ast.parse(text).body
        if isinstance(it, (ast.FunctionDef, ast.ClassDef))
    }
    return {
        it: hashlib.sha256(found.get(it, "").encode()).hexdigest()[:16]
        for it in ("in_lanes", "ci_over", "Kept", "Crate")
    }


def changed(text):
    """The names of what isn't as it was."""
    return [name for name, sum in sums(text).items() if KNOWN.get(name) != sum]


def at_once(compile_by, backends):
    """What compiles the one program by a compiler, with all of them at work from the first call on."""
    begun, pool = {}, concurrent.futures.ThreadPoolExecutor()

    def compiled(crate, backend, *words):
        if not begun:
            begun.update({it: pool.submit(compile_by, crate, it, *words) for it in backends})
        return begun[backend].result()

    return compiled


def kept_first(rt):
    """Lets a run take what an earlier one proved before it plans the rest."""
    begun, in_lanes = [], rt.in_lanes

    class Kept(rt.Kept):
        def __init__(self, crates, *words):
            super().__init__(crates, *words)
            begun.append((self, {it.name: it for it in crates}))

    def is_kept(kept, crate, tests):
        return (
            kept.at and not kept.anew and os.path.isdir(kept.place(crate, tests, kept.key(crate)))
        )

    def planned(tasks):
        (kept, crates), done = begun[-1], {}
        for key, (waits, _, _, call) in tasks.items():
            crate, tests = crates[key[0]], key[1] == "tests"
            if tests and not crate.has_tests():
                done[key] = True
            elif (
                key[1] in ("proof", "tests")
                and all(map(done.get, waits))
                and is_kept(kept, crate, tests)
            ):
                done[key] = call(done, 1)

        def over_done(call):
            return lambda given, jobs: call(collections.ChainMap(given, done), jobs)

        left = {
            key: ([it for it in waits if it not in done], lines, needs, over_done(call))
            for key, (waits, lines, needs, call) in tasks.items()
            if key not in done
        }
        return {**done, **in_lanes(left)}

    rt.Kept, rt.in_lanes = Kept, planned


def main():
    rt = loaded(path())
    if others := changed(path().read_text()):
        print(
            f"note: this kit's rt isn't the one that tools/rt_ci.py knows ({', '.join(others)}): `rt ci` runs as it is, some minutes slower",
            flush=True,
        )
    else:
        rt.Crate.compile_by = at_once(rt.Crate.compile_by, rt.BACKENDS)
        kept_first(rt)
    return rt.main(["ci"])


if __name__ == "__main__":
    sys.exit(main())
