"""Tries `agefile restore`: what ends it before it is through, what is kept then, and how the same command goes on. AGE_TEST_RESTORE=MIB,TIMES
says how large the file is that is interrupted at random places, and how often: a release is tried with 1024,100."""
import os
import random
import signal
import stat
import subprocess
import time

from tests import process
from tests.program.agefile import AgefileCase, form
from tests.bindings import setUpModule  # noqa: F401
from tests.case import SECONDS
from tools import shim

CHUNK, BLOCK = 65_536, 65_552
KEPT = (
    "agefile: what was decrypted is kept in .*/out.restore: the same command goes on from there\n"
)
KEPT_FILES = ["position", "text"]
COMMAND = ("restore", "--pass", "pass", "-", "out")


class RestoreTest(AgefileCase):
    """A text of 12 chunks, and its age file."""

    def setUp(self):
        super().setUp()
        self.plain = random.Random(1).randbytes(12 * CHUNK - 1000)
        self.write("plain", self.plain)
        self.remove("age")
        self.tool(
            *"encrypt --pass pass --log 1 --no-sync plain age".split(), check=True, timeout=300
        )
        self.age = self.read("age")

    def begin(self, *words, **more):
        """A restore that waits for its input."""
        more = {
            "stdin": subprocess.PIPE,
            "stderr": subprocess.PIPE,
            "cwd": self.room,
            "env": self.env,
        } | more
        return process.Popen([self.agefile, *(words or COMMAND)], **more)

    def feed(self, run, count):
        """Gives it so many bytes, and waits until its text has all chunks that are whole in these."""
        run.stdin.write(self.age[:count])
        run.stdin.flush()
        chunks = (count - (len(self.age) - len(self.plain) - 16 * 12)) // BLOCK
        path, until = self.path("out.restore/new-text"), time.monotonic() + SECONDS
        while (
            not (path.exists() and path.stat().st_size >= chunks * CHUNK)
            and time.monotonic() < until
        ):
            time.sleep(0.01)

    def end(self, run):
        """Waits for its end: what it said."""
        said = run.stderr.read()
        run.wait(SECONDS)
        run.stdin.close()
        run.stderr.close()
        return said

    def is_through(self, name, run):
        """Counts whether a run ended well, with OUT whole, and no parts."""
        self.ends(name, run, 0)
        self.see(
            f"{name}: OUT", self.read("out") == self.plain and not self.path("out.restore").exists()
        )

    def kept(self):
        folder = self.path("out.restore")
        return sorted(os.listdir(folder)) if folder.exists() else []

    def test_through(self):
        self.is_through("a file", self.run_agefile(*"restore --pass pass age out".split()))
        self.remove("out")
        self.is_through("a stream", self.run_agefile(*COMMAND, input=self.age))
        self.ends(
            "it exists",
            self.run_agefile(*COMMAND, input=self.age),
            1,
            form("agefile: 27 Write\nagefile: out exists; .*"),
        )
        self.path("out").chmod(0o600)
        os.symlink("out", self.path("link"))
        self.ends(
            "a link's file",
            self.run_agefile(*"restore --overwrite --pass pass age link".split()),
            0,
        )
        found = self.path("out").stat()
        self.see(
            "it is still private, and the link a link",
            stat.S_IMODE(found.st_mode) == 0o600 and self.path("link").is_symlink(),
            oct(found.st_mode),
        )
        self.see(
            "no parts are left",
            not [it for it in os.listdir(self.room) if "restore" in it],
            os.listdir(self.room),
        )

    def test_signals(self):
        """Each signal that ends a run leaves what it has, and the same command goes on; the run ends as by that signal."""
        fed = 0
        for number in (signal.SIGINT, signal.SIGTERM, signal.SIGHUP):
            run = self.begin()
            fed += 3 * BLOCK
            self.feed(run, fed + 10_000)
            run.send_signal(number)
            said = self.end(run)
            fits = form(f"agefile: stopped by {number.name}\n{KEPT}").fullmatch(said)
            self.see(
                f"{number.name}",
                run.returncode == -number and fits and self.kept() == KEPT_FILES,
                run.returncode,
                said,
                self.kept(),
            )
            self.see(f"OUT after {number.name}", not self.is_there("out"))
        self.is_through("the same command", self.run_agefile(*COMMAND, input=self.age))

    def test_group(self):
        """A signal for the whole group, as of a terminal, is kept from age_tool."""
        run = self.begin(start_new_session=True)
        self.feed(run, 4 * BLOCK)
        os.killpg(run.pid, signal.SIGINT)
        said = self.end(run)
        self.see(
            "it is kept",
            run.returncode == -signal.SIGINT and self.kept() == KEPT_FILES,
            run.returncode,
            said,
        )

    def test_killed(self):
        """A run that is killed leaves age_tool a cut input, which saves a position; the next run waits for that."""
        run = self.begin()
        self.feed(run, 6 * BLOCK)
        run.kill()
        run.wait(SECONDS)
        self.is_through("the same command", self.run_agefile(*COMMAND, input=self.age))
        self.end(run)

    def test_killed_between_names(self):
        """A run that was killed once the text had its name, and the position not yet, is gone on from."""
        self.run_agefile(*COMMAND, input=self.age[: 5 * BLOCK])
        os.rename(self.path("out.restore/position"), self.path("out.restore/new-position"))
        self.is_through("the same command", self.run_agefile(*COMMAND, input=self.age))

    def test_cut_sources(self):
        """A stream that breaks off is told, and the next one, from its beginning, goes on; one that is shorter changes nothing."""
        most = 0
        for count in (5 * BLOCK, 3 * BLOCK, 9 * BLOCK, 100, 0):
            run = self.run_agefile(*COMMAND, input=self.age[:count])
            self.ends(
                f"cut after {count}", run, 1, form(r"age_tool: \d+ \w.*\nage_tool: .*\n" + KEPT)
            )
            self.see(
                f"cut after {count}: no words of age_tool to go on",
                b"age_tool resume" not in run.stderr,
                run.stderr,
            )
            size = self.path("out.restore/text").stat().st_size
            self.see(
                f"cut after {count}: kept",
                self.kept() == KEPT_FILES and size >= most,
                self.kept(),
                size,
                most,
            )
            most = size
        self.is_through("whole", self.run_agefile(*"restore --pass pass age out".split()))

    def test_nothing_kept(self):
        """What ends before the first chunk, or by a wrong key, leaves nothing."""
        self.write("wrong", b"wrong")
        for what, words, given, said in (
            (
                "a wrong passphrase",
                "restore --pass wrong - out",
                self.age,
                "age_tool: 13 WrongKey\nage_tool: .*",
            ),
            (
                "a part of a header",
                "restore --pass pass - out",
                self.age[:50],
                "age_tool: 8 HeadCut line 2\nage_tool: .*",
            ),
            (
                "no age file",
                "restore --pass pass plain out",
                b"",
                "age_tool: 1 NotAge line 1\nage_tool: .*",
            ),
            (
                "no file",
                "restore --pass pass none out",
                b"",
                "agefile: 26 Read\nagefile: can't open none: .*",
            ),
            (
                "no passphrase",
                "restore --pass none age out",
                b"",
                "age_tool: 26 Read\nage_tool: can't open none: .*",
            ),
            (
                "no folder",
                "restore --pass pass age none/out",
                b"",
                "agefile: 27 Write\nagefile: can't write none/out.restore: .*",
            ),
            (
                "one file",
                "restore --overwrite --pass pass age age",
                b"",
                "agefile: same file named twice\nagefile: age and age are the same file\n",
            ),
        ):
            run = self.run_agefile(*words.split(), input=given)
            self.see(
                what, run.returncode in (1, 2) and form(said).fullmatch(run.stderr), run.stderr
            )
        self.see(
            "nothing is left",
            sorted(os.listdir(self.room)) == ["age", "pass", "plain", "wrong"],
            os.listdir(self.room),
        )

    def test_another_file(self):
        """Parts of another file, or that were altered, aren't used, and stay."""
        self.run_agefile(*COMMAND, input=self.age[: 5 * BLOCK])
        self.tool(*"encrypt --pass pass --log 1 --no-sync plain other".split(), check=True)
        unfit = "agefile: .*/out.restore is of another IN or key: remove it to begin anew\n"
        self.ends(
            "another file",
            self.run_agefile(*"restore --pass pass other out".split()),
            1,
            form("age_tool: 24 OtherFile\nage_tool: .*\n" + unfit),
        )
        self.path("out.restore/text").write_bytes(bytes(5 * CHUNK))
        self.ends(
            "another part",
            self.run_agefile(*"restore --pass pass age out".split()),
            1,
            form("age_tool: 31 OldTextDiffers\nage_tool: .*\n" + unfit),
        )
        self.path("out.restore/text").unlink()
        self.ends(
            "no text",
            self.run_agefile(*"restore --pass pass age out".split()),
            1,
            form("age_tool: 2[56] \\w+\nage_tool: .*\n.*"),
        )
        self.see("the position is still there", self.kept() == ["position"], self.kept())

    def test_two(self):
        """Of two at once the second is refused."""
        run = self.begin()
        self.feed(run, 2 * BLOCK)
        self.ends(
            "the second",
            self.run_agefile(*"restore --pass pass age out".split()),
            1,
            form("agefile: another restore of .*/out is running\n"),
        )
        run.stdin.write(self.age[2 * BLOCK :])
        run.stdin.close()
        self.see("the first", run.wait(300) == 0 and self.read("out") == self.plain)
        run.stderr.close()

    def test_full_disk(self):
        """A disk that fills up is told by age_tool, and the same command goes on once there is room."""
        line = f'ulimit -f 400; exec "{self.agefile}" restore --pass pass age out'
        run = process.run(["bash", "-c", line], cwd=self.room, env=self.env, capture_output=True)
        self.ends(
            "full",
            run,
            1,
            form(
                "age_tool: 27 Write\nage_tool: can't write .*/out.restore/new-text: File too large\n"
                + KEPT
            ),
        )
        self.is_through(
            "the same command", self.run_agefile(*"restore --pass pass age out".split())
        )

    def test_leftovers(self):
        """What a run left that was killed between two steps: a text without a position, a new text beside the old position, or all of it after OUT got
        its name."""
        self.run_agefile(*COMMAND, input=self.age[: 5 * BLOCK])
        folder = self.path("out.restore")
        for name in ("new-text", "new-position", "new-position.new", "x"):
            (folder / name).write_bytes(b"" if name == "new-position" else b"x")
        early = self.read("out.restore/position")
        self.run_agefile(*COMMAND, input=self.age[: 8 * BLOCK])
        self.see("they are gone", self.kept() == KEPT_FILES, self.kept())
        self.see("the position is a later one", self.read("out.restore/position") != early)
        self.write("out.restore/position", early)
        self.is_through(
            "with a text that is longer than its position says",
            self.run_agefile(*COMMAND, input=self.age),
        )
        folder.mkdir(mode=0o700)
        os.link(self.path("out"), folder / "new-text")
        (folder / "position").write_bytes(b"x")
        self.is_through("after OUT got its name", self.run_agefile(*COMMAND, input=self.age))
        folder.mkdir(mode=0o700)
        (folder / "new-text").write_bytes(b"x")
        self.ends(
            "OUT is another file",
            self.run_agefile(*COMMAND, input=self.age),
            1,
            form("agefile: 27 Write\nagefile: out exists; .*"),
        )
        self.see("what wasn't decrypted is gone", not folder.exists())

    def test_foreign_folder(self):
        """A folder of another user, or a link, is refused."""
        os.symlink(self.room, self.path("out.restore"))
        self.ends(
            "a link",
            self.run_agefile(*COMMAND, input=self.age),
            1,
            form("agefile: 27 Write\nagefile: can't write out.restore: .*"),
        )
        self.remove("out.restore")
        if os.geteuid() == 0:
            self.path("out.restore").mkdir()
            os.chown(self.path("out.restore"), 65534, 65534)
            self.ends(
                "another user's",
                self.run_agefile(*COMMAND, input=self.age),
                1,
                form("agefile: .*/out.restore is another user's\n"),
            )

    def test_typed(self):
        """The passphrase is asked for once OUT and the lock are seen to be free."""
        ended = self.at_terminal("restore", "age", "out", answers=[b"correct horse\n"])
        self.see("typed", ended.returncode == 0 and self.read("out") == self.plain, vars(ended))
        ended = self.at_terminal("restore", "age", "out2", answers=[b"\3"])
        self.see(
            "Ctrl-C at the question",
            ended.returncode == -signal.SIGINT and not self.path("out2.restore").exists(),
            vars(ended),
        )

    def test_syncs(self):
        """OUT's name is on the disk before the parts go: the folder is synced after OUT got its name."""
        self.write("synced", b"")
        run = self.run_agefile(
            *"restore --pass pass age out".split(),
            env={**self.env, **shim.loaded(SYNCED=self.path("synced"))},
        )
        synced = [os.path.basename(it) for it in self.read("synced").decode().split()]
        self.see(
            "synced",
            run.returncode == 0 and synced[-1] == self.room.name and "new-text" in synced,
            synced,
            run.stderr,
        )

    def test_random_interrupts(self):
        """Interrupts at random places of a run: each loses nothing that was there, and in the end OUT is whole."""
        mebibytes, times = map(int, os.environ.get("AGE_TEST_RESTORE", "1,8").split(","))
        with open(self.path("large"), "wb") as file:
            for seed in range(mebibytes):
                file.write(random.Random(seed).randbytes(1 << 20))
        self.tool(
            *"encrypt --pass pass --log 1 --no-sync large large.age".split(),
            check=True,
            timeout=3600,
        )
        words = ("restore", "--pass", "pass", "large.age", "out")
        begun = time.monotonic()
        self.ends("without interrupts", self.run_agefile(*words, timeout=3600), 0)
        length = time.monotonic() - begun
        self.remove("out")
        ends, wholes, chance = [], 0, random.Random(1)
        while len(ends) < times:
            run = self.begin(*words, stdin=subprocess.DEVNULL)
            time.sleep(
                chance.random() * length / 2
            )  # (so that most runs are stopped, and some get through)
            run.send_signal(chance.choice((signal.SIGINT, signal.SIGTERM, signal.SIGKILL)))
            said, status = run.stderr.read(), run.wait(3600)
            run.stderr.close()
            # (Python itself ends with 1 if an interrupt comes while it begins)
            ends.append(
                -signal.SIGINT if status == 1 and said.endswith(b"KeyboardInterrupt\n") else status
            )
            if self.is_there("out"):
                wholes += self.is_whole()
        self.see(
            "each ended by its signal, or well",
            {*ends} <= {-signal.SIGINT, -signal.SIGTERM, -signal.SIGKILL, 0},
            ends,
        )
        self.ends("the last", self.run_agefile(*words, timeout=3600), 0)
        self.see(
            f"OUT after {len(ends)} interrupts, {wholes + 1} times",
            self.is_whole() and not self.path("out.restore").exists(),
            ends,
        )

    def is_whole(self):
        """Whether OUT is the large text; it is removed."""
        same = process.run(["cmp", "large", "out"], cwd=self.room).returncode == 0
        self.see("OUT is whole", same)
        self.remove("out")
        return same
