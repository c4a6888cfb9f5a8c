"""Fuzzes the C library, and the modules for Go and Python over it, from their corpus on and by a fixed seed, and plants flaws in the C files over
the proved calls, which the corpus alone has to find. AGE_FUZZED is how many seconds each of the fuzzers takes (6), and AGE_SEED the seed; tests/draw
fuzzes for hours."""
import os
import re
import shutil

from tests import built, process
from tests.case import Case, needs
from tools.workspace import LIBRARY, TOP

RUN = TOP / "bindings" / "c" / "fuzz" / "run"
SOURCES = TOP / "bindings" / "c"
# Which fuzzer finds what: a flaw, its file, and what is written in the place of what.
FLAWS = {
    "a decoder that was begun again has the stanzas of the header before": (
        "decoder",
        "agefile.c",
        "    age_c_decode_begin(&it->core);\n",
        "    it->core.open = 0;\n",
    ),
    "a place is sought in the file and not in the text": (
        "decoder",
        "look.c",
        "age_c_decode_seek(&it->core, place,",
        "age_c_decode_seek(&it->core, place + 1,",
    ),
    "an end forgets what is held": (
        "decoder",
        "agefile.c",
        "(int)age_c_decode_end(&it->core, out, room, written);\n",
        "(int)(it->core.block_held = 0, age_c_decode_end(&it->core, out, room, written));\n",
    ),
    "a chunk that is opened changes the decoder": (
        "decoder",
        "look.c",
        "age_c_open_at(&reader,",
        "age_c_open_at((core_reader *)&it->core.reader,",
    ),
    "a text that isn't whole is left": (
        "decoder",
        "once.c",
        "    else if (n) explicit_bzero(out, n);\n    agefile_decoder_free",
        "    agefile_decoder_free",
    ),
    "a fault is forgotten": (
        "header",
        "agefile.c",
        "    return it->fault ? it->fault :",
        "    return",
    ),
    "an encoder that was begun again writes the header before": (
        "encoder",
        "agefile.c",
        "    free(it->front), it->front = NULL, it->front_len = 0;\n",
        "    it->front_len = it->front ? it->front_len : 0;\n",
    ),
    "random bytes may be lacking": (
        "encoder",
        "agefile.c",
        "    return n == (ssize_t)len;\n",
        "    return n || len;\n",
    ),
}


@needs("clang")
class FuzzTest(Case):
    """The fuzzers, and what they find."""

    @classmethod
    def setUpClass(cls):
        built.library()

    def fuzz(self, *words, **env):
        """A run of the fuzzers; the test is left out if they can't be compiled."""
        seed = os.environ.get("AGE_SEED") or "1"
        run = process.run(
            [RUN, *words],
            cwd=self.room,
            env={**os.environ, "AGE_C_DIR": str(LIBRARY), "SEED": seed, **env},
            capture_output=True,
            text=True,
        )
        if run.returncode and (
            "openssl/" in run.stderr or "-lcrypto" in run.stderr or "libclang_rt" in run.stderr
        ):
            self.skipTest("needs libFuzzer and OpenSSL's headers")
        return run

    def test_fuzzed(self):
        run = self.fuzz(os.environ.get("AGE_FUZZED") or "6")
        print(run.stdout, end="")
        self.see("the fuzzers", run.returncode == 0, run.stdout[-2000:], run.stderr[-2000:])
        for what, least in (("number_of_executed_units", 100), ("library blocks entered", 500)):
            found = [int(it) for it in re.findall(rf"{what}: +(\d+)", run.stdout)]
            self.see(f"{what}: {found}", len(found) == 3 and min(found) >= least, run.stdout)

    def test_flaws(self):
        """Each flaw is found by the corpus."""
        for flaw, (by, name, old, new) in FLAWS.items():
            sources = self.path("sources")
            sources.mkdir(exist_ok=True)
            for it in ("agefile.c", "once.c", "look.c"):
                shutil.copy(SOURCES / it, sources / it)
            text = (sources / name).read_text()
            # (whatever the form of its lines)
            pattern = r"\s+".join(map(re.escape, old.split()))
            self.assertEqual(len(re.findall(pattern, text)), 1, flaw)
            (sources / name).write_text(re.sub(pattern, lambda _: new, text))
            run = self.fuzz("0", by, SOURCES=str(sources))
            self.see(
                f"fuzzed: {flaw}",
                run.returncode == 1 and ("not so: " in run.stdout or "ERROR: " in run.stdout),
                run.stdout[-1000:],
                run.stderr[-2000:],
            )


class ModulesFuzzTest(Case):
    """The fuzzers of the modules, which read damaged files in every way, and headers of any bytes."""

    @classmethod
    def setUpClass(cls):
        built.library()

    def fuzz(self, script, **env):
        env = {
            **os.environ,
            "SEED": os.environ.get("AGE_SEED") or "1",
            "AGEFILE_LIBRARY": str(LIBRARY / "libagefile.so"),
            **env,
        }
        words = [TOP / "bindings" / script, os.environ.get("AGE_FUZZED") or "10"]
        run = process.run(words, cwd=self.room, env=env, capture_output=True, text=True)
        print(run.stdout, end="")
        if run.returncode == 77:
            self.skipTest(run.stderr.strip())
        self.see(script, run.returncode == 0, run.stdout[-2000:], run.stderr[-2000:])
        return run.stdout

    @needs("go")
    def test_go(self):
        said = self.fuzz(
            "go/fuzz",
            GOCACHE=str(LIBRARY / "gocache"),
            GOPROXY="off",
            GOFLAGS="",
            GOTOOLCHAIN="local",
        )
        counts = [int(it) for it in re.findall(r"execs: (\d+)", said)]
        self.see(f"runs: {counts}", len(counts) == 2 and min(counts) > 100, said)

    def test_python(self):
        said = self.fuzz("python/fuzz/fuzz.py")
        self.see("both tests ran", said.count("nothing found") == 2, said)
