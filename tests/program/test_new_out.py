"""When an OUT is made that isn't there: with the first byte, so that a run which stops before leaves nothing."""
import errno
import os
import signal

from tests.case import needs
from tests.program.case import (
    PLAIN,
    WRITE,
    FilesCase,
    as_nobody,
    chunk_fault,
    reason,
    refused,
    unwritten,
    within_memory,
)

ENCRYPT = "encrypt --pass pass --log 14 plain new"
DECRYPT = "decrypt --pass pass costly new"
HEADER = b"age-encryption.org/v1\n-> scrypt AAAAAAAAAAAAAAAAAAAAAA 22\n%s\n--- %s\n" % (
    b"A" * 43,
    b"A" * 43,
)


def hears_sigint():
    """What a shell starts in the background ignores SIGINT, and so does all that it starts."""
    signal.signal(signal.SIGINT, signal.SIG_DFL)


class NewOutTest(FilesCase):
    def setUp(self):
        super().setUp()
        self.write("wrong", b"another passphrase\n")
        self.expect(0, b"", "encrypt --pass pass --log 14 plain costly")
        os.mkfifo(self.path("held"))
        self.names = sorted(os.listdir(self.room))

    def left(self):
        """The files that came since."""
        return [it for it in sorted(os.listdir(self.room)) if it not in self.names]

    @needs("cc")
    def test_signals(self):
        """A run that is stopped while it derives its key leaves nothing, and the same command does its work then."""
        for words in (ENCRYPT, DECRYPT, f"{DECRYPT} --no-clobber"):
            for it in (signal.SIGINT, signal.SIGTERM, signal.SIGKILL):
                run, pause = self.deriving(words, preexec_fn=hears_sigint)
                self.see(f"{words}, {it.name}: nothing yet", not self.left(), self.left())
                run.send_signal(it)
                self.ends(f"{words}, {it.name}", run, -it, b"")
                pause.close()
                self.see(f"{words}, {it.name}: nothing is left", not self.left(), self.left())
            self.expect(0, b"", words, f"{words}, once more")
            self.remove("new")

    @needs("cc")
    def test_wrong_passphrase(self):
        """A wrong passphrase leaves nothing, at no time, also where there are no locks; nor does a file that is damaged at its beginning."""
        words = DECRYPT.replace("pass pass", "pass wrong")
        for held in (None, b"another's", b""):
            run, pause = self.deriving(words)
            self.see("nothing while it is tried", not self.left(), self.left())
            if held is not None:
                self.write("new", held)
            pause.close()
            self.ends("a wrong passphrase", run, 1, b"age_tool: 13 WrongKey\n")
            self.see(
                f"after it just what came: {held}",
                (self.read("new") if self.left() else None) == held,
            )
            self.remove("new")
        self.write("damaged", self.age[:400] + bytes([self.age[400] ^ 1]) + self.age[401:])
        self.names.append("damaged")
        self.expect(1, chunk_fault(0), "decrypt --pass pass damaged new")
        self.see("nothing after a damaged chunk", not self.left(), self.left())

    @needs("cc")
    def test_calls(self):
        """A wrong passphrase makes no call by which a file is made or removed, nor one that locks any, with and without --no-clobber."""
        for words in (DECRYPT, f"{DECRYPT} --no-clobber"):
            self.write("record", b"")
            self.expect(
                1,
                b"age_tool: 13 WrongKey\n",
                words.replace("pass pass", "pass wrong"),
                failing={"RECORD": self.path("record")},
            )
            self.see(f"{words}: no call", self.read("record") == b"", self.read("record"))

    def test_empty(self):
        """An empty plaintext gives an empty OUT."""
        self.write("empty", b"")
        self.expect(0, b"", "encrypt --pass pass --log 4 empty empty.age")
        for words in (
            "decrypt --pass pass",
            "decrypt --no-clobber --pass pass",
            "decrypt --no-sync --pass pass",
        ):
            self.expect(0, b"", f"{words} empty.age new")
            self.see(f"{words}: an empty OUT", self.is_there("new") and self.read("new") == b"")
            self.remove("new")
        self.write("old", b"old text")
        self.expect(0, b"", "decrypt --pass pass empty.age old")
        self.see("an OUT that was there is emptied", self.read("old") == b"")
        os.symlink("new", self.path("link"))
        self.expect(0, b"", "decrypt --pass pass empty.age link")
        self.see(
            "behind a link to nothing", self.path("link").is_symlink() and self.read("new") == b""
        )

    def test_no_place(self):
        """Where no file can be made, as far as that can be seen, is said before the key is derived, which would take too much memory."""
        self.write("header", HEADER)
        self.expect(
            1,
            b"age_tool: 28 Memory\n",
            "decrypt --pass pass header new",
            "a place for a file",
            preexec_fn=within_memory,
        )
        for name, error in (
            ("none/new", errno.ENOENT),
            ("new/", errno.EISDIR),
            ("plain/new", errno.ENOTDIR),
        ):
            for words in (
                f"decrypt --pass pass header {name}",
                f"decrypt --no-clobber --pass pass header {name}",
            ):
                said = self.tool(*words.split(), preexec_fn=within_memory)
                wanted = [WRITE + reason(f"{what} {name}", error) for what in ("create", "write")]
                self.see(words, said.returncode == 1 and said.stderr in wanted, said.stderr)
        self.write("old", b"old text")
        self.expect(
            1,
            refused("old"),
            "decrypt --no-clobber --pass pass header old",
            preexec_fn=within_memory,
        )
        self.see("old text", self.read("old") == b"old text")

    def test_no_permission(self):
        """Where the system lets no file be made it says so once there is a byte to write."""
        self.path("folder").mkdir()
        self.path("folder").chmod(0o555)
        said = WRITE + reason("create folder/new", errno.EACCES)
        for words in (
            "encrypt --pass pass --log 4 plain folder/new",
            "decrypt --pass pass age folder/new",
        ):
            self.expect(1, said, words, **as_nobody())
        self.path("folder").chmod(0o755)

    @needs("cc")
    def test_taken_meanwhile(self):
        """What comes to OUT's name while the key is derived is kept, and the run fails. (`encrypt` opens OUT after that.)"""
        for words in (f"{ENCRYPT} --no-clobber", DECRYPT, f"{DECRYPT} --no-clobber"):
            for held, more in (
                (b"another's", ""),
                (b"", "; it is empty: a run that was killed may have left it"),
            ):
                # (without --no-clobber another run has made it, and may still be at it)
                said = (
                    refused("new", more)
                    if "clobber" in words
                    else unwritten("new", os.strerror(errno.EEXIST))
                )
                run, pause = self.deriving(words)
                self.write("new", held)
                pause.close()
                self.ends(f"{words}: {held} came", run, 1, said)
                self.see(f"{words}: {held} is kept", self.read("new") == held)
                self.remove("new")
            run, pause = self.deriving(words)
            os.symlink("elsewhere", self.path("new"))
            pause.close()
            self.ends(
                f"{words}: a link came",
                run,
                1,
                refused("new") if "clobber" in words else unwritten("new", errno.EEXIST),
            )
            self.see(f"{words}: a link isn't followed", not self.is_there("elsewhere"))
            self.remove("new")

    @needs("cc")
    def test_turned_link(self):
        """A link to nothing that comes to lead elsewhere while the key is derived is followed nowhere, and nothing is left."""
        os.symlink("one", self.path("link"))
        run, pause = self.deriving("decrypt --pass pass costly link")
        self.remove("link")
        os.symlink("other", self.path("link"))
        pause.close()
        self.ends("a link that turned", run, 1, unwritten("link", errno.ENOENT))
        self.see("a link that turned: nothing is left", self.left() == ["link"], self.left())

    @needs("cc")
    def test_two_runs(self):
        """Of two runs into one new OUT the second to come to a byte is refused, and leaves the first one's."""
        runs = [self.deriving(DECRYPT, it) for it in ("held", "held-2")]
        for _, pause in runs:
            pause.close()
        ended = {(it.communicate(), it.returncode)[1] for it, _ in runs}
        self.see("one is refused", ended == {0, 1}, ended)
        self.see("OUT is complete", self.read("new") == PLAIN)

    def test_position(self):
        """A file of --save that is OUT by another name is refused before either is made; and one that becomes OUT isn't written over."""
        for save, out in (("new", "./new"), ("link", "new"), ("new", "link")):
            os.symlink("new", self.path("link"))
            ended = self.tool("decrypt", "--pass", "pass", "--save", save, "cut", out)
            self.see(
                f"--save {save}, {out}",
                ended.returncode == 2 and b"same file named twice" in ended.stderr,
                ended.stderr,
            )
            self.remove("link")
            self.see(f"--save {save}, {out}: nothing is left", not self.left(), self.left())


class StoppedEncryptionTest(FilesCase):
    @needs("cc")
    def test_ends_in_scrypt(self):
        """A run of encrypt that is killed, or refused memory, while it derives the key has made no OUT and changed none. An OUT that has to
        be new is refused before."""
        self.write("old", b"old text")
        for name in ("new", "old"):
            run, pause = self.deriving(f"encrypt --pass pass --log 14 plain {name}")
            self.see(f"{name}: not there yet", name == "old" or not self.is_there(name))
            run.terminate()
            self.ends(f"{name}: killed", run, -signal.SIGTERM, b"")
            pause.close()
        costly = "encrypt --pass pass --log 22 plain"
        self.expect(1, b"age_tool: 28 Memory\n", f"{costly} new", preexec_fn=within_memory)
        self.expect(1, b"age_tool: 28 Memory\n", f"{costly} old", preexec_fn=within_memory)
        self.expect(1, refused("old"), f"{costly} old --no-clobber", preexec_fn=within_memory)
        self.see(
            "none is made, and none is changed",
            not self.is_there("new") and self.read("old") == b"old text",
        )
