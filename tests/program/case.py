"""What tests of the program have in common: folders with age files, file systems and terminals to run it with, and what it says."""
import os
import resource
import shutil
import stat
import subprocess
import tempfile
import time

from tests import built, process
from tests.case import SECONDS, Case, without_advice
from tools import shim, terminal
from tools.workspace import TOP

WRITE = b"age_tool: 27 Write\n"
LOCKED = "another program holds its lock"
OWN = "; name a file in a folder of your own"
NO_FILE = f"it is no regular file{OWN}"
IN_THE_WAY = "the .new file beside it exists; remove or rename it"
NOBODY = 65534
PLAIN = bytes(range(1, 251)) * 800
MADE = "another program made it meanwhile"
BLANKS = b" " * 256
FUSED = TOP / "tools" / "fused.c"


def as_nobody():
    """What lets a run of root be one of somebody who may not do everything."""
    return {"user": NOBODY, "group": NOBODY, "extra_groups": []} if os.geteuid() == 0 else {}


def within_memory():
    resource.setrlimit(resource.RLIMIT_AS, (500_000 << 10, 500_000 << 10))


def chunk_fault(index):
    return b"age_tool: 17 ChunkDamaged chunk %d\n" % index


def reason(what, error):
    """What is said of what the system refused; `error` is its number, or a text that is the program's own."""
    return f"age_tool: can't {what}: {os.strerror(error) if isinstance(error, int) else error}\n".encode()


def unwritten(name, error):
    return WRITE + reason(f"write {name}", error)


def unsynced(name, error):
    return WRITE + reason(f"write {name} to disk", error)


def unwaited(name):
    """What is said of an OUT whose file system can't sync."""
    return (
        b"age_tool: %b: the file system can't sync it: it may not be on the disk yet\n"
        % name.encode()
    )


def refused(name, more=""):
    """What is said of an output that is there, and isn't to be replaced."""
    return WRITE + f"age_tool: {name} exists, and --no-clobber was given{more}\n".encode()


def unsaved(name, error):
    return WRITE + reason(f"save the position to {name}", error)


def beside(name):
    """What is said if the temporary file beside the file of --save would be another file of the command."""
    return f"age_tool: same file named twice\nage_tool: {name} or the .new file beside it is another file of this command too\n".encode()


def waits_for(holds):
    """Waits until something holds."""
    until = time.monotonic() + SECONDS
    while not holds() and time.monotonic() < until:
        time.sleep(0.01)


def opened(path, run):
    """A pipe to be written, once a run reads it."""
    until = time.monotonic() + SECONDS
    while time.monotonic() < until:
        try:
            pipe = os.open(path, os.O_WRONLY | os.O_NONBLOCK)
        except OSError:
            time.sleep(0.01)
            continue
        os.set_blocking(pipe, True)
        return os.fdopen(pipe, "wb")
    run.kill()
    raise TimeoutError(run.communicate()[1])


class FilesCase(Case):
    """A folder with a passphrase `pass`, a text `plain`, its age file `age` and that file without its end `cut`."""

    @classmethod
    def setUpClass(cls):
        # (a copy, since nobody can't run what is in a folder of root's)
        made = tempfile.TemporaryDirectory(prefix="age-test-")
        cls.addClassCleanup(made.cleanup)
        os.chmod(made.name, 0o755)
        cls.program = shutil.copy(built.program(), made.name)
        os.chmod(cls.program, 0o755)

    def setUp(self):
        super().setUp()
        self.room.chmod(0o755)
        self.write("pass", b"correct horse\n")
        self.write("plain", PLAIN)
        self.expect(0, b"", "encrypt --pass pass --log 4 plain age")
        self.age = self.read("age")
        self.write("cut", self.age[:150000])

    def mode(self, name):
        return stat.S_IMODE(self.path(name).lstat().st_mode)

    def is_position(self, name, index):
        return self.is_there(name) and self.read(name).startswith(b"age-position/v2 %d " % index)

    def mount(self, *words):
        """Mounts something at the last of these words until the test ends. The test is left out if that can't be done."""
        if process.run(["mount", *words], capture_output=True).returncode:
            self.skipTest("nothing can be mounted")
        self.addCleanup(process.run, ["umount", words[-1]], check=True)

    def expect(self, status, faults, words, name=None, failing=None, **more):
        """Runs the program, and counts whether it ends like this. `failing` are variables of tools/shim.c."""
        words = words.split() if isinstance(words, str) else words
        more = {
            "stdout": subprocess.DEVNULL,
            "env": shim.loaded(**failing) if failing else None,
        } | more
        with self.subTest(name or " ".join(map(str, words))):
            ended = self.tool(*words, **more)
            said = faults if ended.stderr is None else ended.stderr
            self.assertEqual((ended.returncode, said), (status, faults))

    def started(self, words, **more):
        """Starts the program, and goes on meanwhile."""
        more = {
            "stdin": subprocess.DEVNULL,
            "stdout": subprocess.DEVNULL,
            "stderr": subprocess.PIPE,
        } | more
        return process.Popen([self.program, *words.split()], cwd=self.room, **more)

    def deriving(self, words, held="held", **more):
        """A run that begins to derive its key, and what it waits for then: until that is closed (tools/shim.c)."""
        if not self.is_there(held):
            os.mkfifo(self.path(held))
        run = self.started(words, env=shim.loaded(HELD=self.path(held)), **more)
        return run, opened(self.path(held), run)

    def ends(self, name, started, status, faults):
        """Counts whether what was started ends like this."""
        said = started.communicate(timeout=SECONDS)[1]
        with self.subTest(name):
            self.assertEqual((started.returncode, without_advice(said)[0]), (status, faults))

    def large(self):
        """Makes the age file the one of 40 MiB of zeros."""
        self.write("plain", bytes(40 << 20))
        self.expect(0, b"", "encrypt --pass pass --log 4 plain age")
        self.age = self.read("age")

    def mount_ext4(self, name, mib, *words, options="loop"):
        """Mounts a new ext4 of this many MiB, and returns its folder."""
        self.write("image", b"")
        os.truncate(self.path("image"), mib << 20)
        self.path(name).mkdir()
        process.run(["mkfs.ext4", "-q", *words, self.path("image")], check=True)
        self.mount("-o", options, self.path("image"), self.path(name))
        return self.path(name)

    def fused(self, name, **variables):
        """A folder that is a file system of our own, whose calls fail or take time (tools/fused.c), until the test ends."""
        made = self.path("fused-program")
        flags = process.run(
            ["pkg-config", "--cflags", "--libs", "fuse3"], capture_output=True, text=True
        )
        if flags.returncode:
            self.skipTest("no libfuse can be had")
        process.run(
            ["cc", "-O2", "-Wall", "-Wextra", "-Werror", "-o", made, FUSED, *flags.stdout.split()],
            check=True,
        )
        self.path(f"{name}-held").mkdir()
        self.path(name).mkdir()
        env = {**os.environ, **{it: str(value) for it, value in variables.items()}}
        if process.run(
            [made, self.path(f"{name}-held"), self.path(name)], env=env, capture_output=True
        ).returncode:
            self.skipTest("nothing can be mounted by FUSE")
        self.addCleanup(process.run, ["fusermount3", "-u", self.path(name)], check=True)


class Feeding:
    """A decryption that waits for more of its input, with a chunk written and its position to be saved in `saved`."""

    def __init__(self, case, words="decrypt --pass pass --save saved in out", **more):
        self.case = case
        case.remove("in", *([] if "stdout" in more else ["out"]))
        os.mkfifo(case.path("in"))
        self.run = case.started(words, **more)
        self.input = opened(case.path("in"), self.run)
        self.input.write(case.age[:140000])
        self.input.flush()
        waits_for(lambda: case.is_there("out") and case.path("out").stat().st_size >= 131072)

    def stops(self, name, faults):
        """Cuts the input, and counts whether the run ends so."""
        self.input.close()
        self.case.ends(name, self.run, 1, faults)


class ProgramCase(Case):
    """A passphrase `pass`, a text `plain` and its age file `plain.age`."""

    def setUp(self):
        super().setUp()
        self.plain = os.urandom(200_000)
        self.write("pass", b"correct horse\n")
        self.write("plain", self.plain)
        self.encrypted = self.tool(*"encrypt --pass pass --log 10 plain plain.age".split())
        self.age = self.read("plain.age")

    def ends(self, name, ended, status, output=b"", faults=b""):
        """Counts whether a run ended like this."""
        with self.subTest(name):
            self.assertEqual(
                (ended.returncode, ended.stdout or b"", ended.stderr or b""),
                (status, output, faults),
            )

    def decrypt(self, *words, **more):
        return self.tool("decrypt", "--pass", "pass", *words, **more)

    def encrypt(self, words, **more):
        return self.tool(*f"encrypt --pass pass --log {words}".split(), **more)

    def redirected(self, redirection, *words):
        """Runs the program with a redirection of the shell's."""
        run = ["sh", "-c", f'exec "$0" "$@" {redirection}', self.program, *words]
        ended = process.run(run, cwd=self.room, stdin=subprocess.DEVNULL, capture_output=True)
        ended.stderr, ended.advice = without_advice(ended.stderr)
        return ended

    def on_terminal(self, stream, *words, **more):
        """Runs the program with standard input or error at a terminal, and gives what it says on standard error."""
        ours, theirs = os.openpty()
        if stream == "stdin":
            os.write(ours, b"\x04")  # the end
        ends = {
            "stdin": subprocess.DEVNULL,
            "stdout": subprocess.PIPE,
            "stderr": subprocess.PIPE,
            stream: theirs,
        } | more
        run = process.Popen([self.program, *words], cwd=self.room, **ends)
        os.close(theirs)
        said = terminal.output(ours).replace(b"\r\n", b"\n") if stream == "stderr" else b""
        output, faults = run.communicate()
        os.close(ours)
        return subprocess.CompletedProcess(words, run.returncode, output, faults or said)

    def at_terminal(self, words):
        """Runs the program with a terminal as its standard streams, and gives what came there as its output."""
        child, tty = terminal.start(
            ["env", "-C", str(self.room), str(self.program), *words.split()]
        )
        came = terminal.output(tty).replace(b"\r\n", b"\n")
        os.close(tty)
        return subprocess.CompletedProcess(
            words, os.waitstatus_to_exitcode(os.waitpid(child, 0)[1]), came
        )

    def unsaved(self):
        """A decryption that stops, and whose position can't be saved, since its file was made meanwhile."""
        self.remove("part", "taken")
        words = "decrypt --no-sync --pass pass --save taken /dev/stdin part"
        run = process.Popen(
            [self.program, *words.split()],
            cwd=self.room,
            stdin=subprocess.PIPE,
            stderr=subprocess.PIPE,
        )
        run.stdin.write(self.age[:150_000])
        run.stdin.flush()
        waits_for(lambda: self.is_there("part") and self.path("part").stat().st_size >= 131_072)
        self.write("taken", b"")
        ended = subprocess.CompletedProcess(words, 1, b"", run.communicate(timeout=SECONDS)[1])
        ended.returncode, (ended.stderr, ended.advice) = run.returncode, without_advice(
            ended.stderr
        )
        return ended
