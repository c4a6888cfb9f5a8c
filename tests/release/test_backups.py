"""Backups by the commands of docs/RECIPES.md: twice at once, stopped, with a clock that is wrong, and of files that change."""
import os
import re
import shutil
import signal
import time

from tests.case import SECONDS
from tests.release.recipes import AGE, PageCase, blocks

READS = ["docs/RECIPES.md"]
# Programs that stand before those of the same name, in a run that a test stops or holds at one place.
HELD = {
    # What tar gives first, and then nothing more.
    "tar": """#!/bin/bash
if [ -n "${HOLD_TAR:-}" ] && [ "$1" = -c ]; then /bin/tar "$@" | head -c 1000000; exec sleep 1000; fi
exec /bin/tar "$@"
""",
    # Holds a decryption until the file `on` is there. Lets an encryption of `large` get no more than its beginning, or all of it, and then
    # holds it in the same way.
    "age_tool": """#!/bin/bash
real=$(readlink -f "$0.real")
# (with little work for each key, which is what takes these commands longest)
if [ "$1" = encrypt ]; then set -- encrypt --log 10 "${@:2}"; fi
if [ "$1" = decrypt ] && [ -n "${HOLD_READING:-}" ]; then touch reading; until [ -e on ]; do sleep 0.02; done; fi
if [ "$1" = encrypt ] && [ -n "${HOLD_LARGE:-}" ] && [[ $* = *photos/large* ]]; then
    words=("$@")
    for it in "${!words[@]}"; do [ "${words[it]}" != photos/large ] || words[it]=/dev/stdin; done
    if [ "$HOLD_LARGE" = read ]; then
        { cat photos/large; touch reading; until [ -e on ]; do sleep 0.02; done; } | "$real" "${words[@]}"
    else
        { head -c 1000000 photos/large; exec sleep 1000; } | "$real" "${words[@]}"
    fi
    exit
fi
exec "$real" "$@"
""",
    "date": """#!/bin/bash
exec /bin/date ${AT:+-d "$AT"} "$@"
""",
}


class BackupsTest(PageCase):
    """What happens to backups by the commands of the page: two runs at once, runs that are stopped, a clock that is wrong, files that change
    while they are encrypted or are replaced. No age file that is there afterwards, but for those whose name ends in `.part`, is cut.
    """

    def setUp(self):
        super().setUp()
        self.path("bin/age_tool").rename(self.path("bin/age_tool.real"))
        for name, script in HELD.items():
            self.write(f"bin/{name}", script.encode(), 0o755)
        self.path("work/photos").mkdir()
        for name, size in (("1.jpg", 100_000), ("2.jpg", 200_000), ("large", 3_000_000)):
            self.write(f"work/photos/{name}", os.urandom(size))
        self.write("work/passphrase.txt", b"correct horse\n")
        self.blocks = {title: script for title, script in blocks("bash")}

    def held_at(self, script, until, **held):
        """Begins to run commands that are held at a place, and waits until they are there, or have ended."""
        environment, self.env = self.env, {**self.env, **held}
        run = self.begin(script)
        self.env = environment
        limit = time.monotonic() + SECONDS
        while run.poll() is None and not until() and time.monotonic() < limit:
            time.sleep(0.02)
        return run

    def stop(self, run):
        """Stops a run, with all that it began."""
        os.killpg(run.pid, signal.SIGTERM)
        return run.communicate()[0]

    def has_begun(self, pattern):
        return lambda: any(it.stat().st_size > 70_000 for it in self.path("work").glob(pattern))

    def see_whole(self, name, pattern, count=None):
        """Checks that each of these age files opens, and how many there are."""
        found = sorted(it.relative_to(self.path("work")) for it in self.path("work").glob(pattern))
        cut = [
            it
            for it in found
            if self.run_script(
                f"age_tool decrypt --pass passphrase.txt '{it}' /dev/null"
            ).returncode
        ]
        self.see(f"{name}: no cut file", not cut, *map(str, cut))
        self.see(f"{name}: so many files", count in (None, len(found)), *map(str, found))

    def write_backup_script(self):
        self.assertEqual(
            self.run_script(self.blocks["A backup tonight"].split("bash backup.sh")[0]).returncode,
            0,
        )

    def test_two_backups(self):
        """The second begins while the first reads its file back."""
        self.write_backup_script()
        first = self.held_at("bash backup.sh", self.path("work/reading").exists, HOLD_READING="1")
        [made] = self.path("work").glob("*.part")
        inode = made.stat().st_ino
        second = self.held_at(
            "bash backup.sh",
            lambda: made.exists() and made.stat().st_ino != inode and self.has_begun("*.part")(),
            HOLD_TAR="1",
        )
        self.write("work/on", b"")
        said = first.communicate()[0]
        self.see("two backups: the first", first.returncode == 0, said)
        ended = second.poll()
        said = self.stop(second) if ended is None else second.communicate()[0]
        self.see(
            "two backups: the second ends and says so", ended and "no new backup" in said, said
        )
        self.see_whole("two backups", "photos-*.tar.age", 1)

    def test_stopped_backup(self):
        self.write_backup_script()
        self.stop(self.held_at("bash backup.sh", self.has_begun("*.part"), HOLD_TAR="1"))
        self.see_whole("a stopped backup", "photos-*.tar.age", 0)
        again = self.run_script("bash backup.sh")
        self.see("a stopped backup: the next run", again.returncode == 0, again.stdout)
        self.see_whole("a stopped backup: after the next run", "photos-*.tar.age", 1)
        self.see("a stopped backup: nothing is left", not [*self.path("work").glob("*.part")])

    def test_no_photos(self):
        """A folder that is empty, or a link to one: neither is a backup, and nothing is deleted."""
        self.write_backup_script()
        sealed = (
            self.blocks["A backup that its server can't read"]
            .split("> recipients)\n")[1]
            .split("bash sealed.sh")[0]
        )
        self.assertEqual(self.run_script(sealed).returncode, 0)
        self.write(
            "work/recipients", re.search(r"age1\w+", (AGE / "key.txt").read_text())[0].encode()
        )
        shutil.move(self.path("work/photos"), self.path("elsewhere"))
        for kind, make in (
            ("no folder", lambda it: None),
            ("an empty folder", os.mkdir),
            ("a link", lambda it: (it.rmdir(), it.symlink_to("../elsewhere"))),
        ):
            make(self.path("work/photos"))
            for script in ("backup.sh", "sealed.sh"):
                run = self.run_script(f"bash {script}")
                self.see(
                    f"{kind}, {script}: no backup",
                    run.returncode != 0 and f"{script}: no new backup" in run.stdout,
                    run.stdout,
                )
            self.see_whole(kind, "*.tar.age", 0)

    def test_checked_again(self):
        """The newest backup is checked, also where an earlier one has the short name and the shell goes on after a failure."""
        check = f"set +e\n{self.blocks['Checking a backup without restoring it']}"
        for night in (1, 2):
            encrypt = f"tar -c photos | age_tool encrypt --pass passphrase.txt /dev/stdin photos-2027-01-0{night}.tar.age"
            self.assertEqual(self.run_script(encrypt).returncode, 0)
            said = self.run_script(check).stdout
            self.see(f"night {night}: no fault", "age_tool: " not in said, said)
        with open(self.path("work/photos-2027-01-02.tar.age"), "r+b") as newest:
            newest.truncate(70_000)
        said = self.run_script(check).stdout
        self.see(
            "the newest was truncated", said.count("age_tool: 17 ChunkDamaged chunk 1\n") == 2, said
        )

    def test_clock(self):
        """One that is behind for two nights, and ahead for six: of the backups before the one that is made, by name, the last six are kept,
        and all after it. So the nights after them keep theirs."""
        self.write_backup_script()
        named = "photos-{}.tar.age".format
        there = {named(f"2027-01-0{day}") for day in range(1, 8)}
        for it in there:
            self.write(f"work/{it}", b"of another night")
        ahead = [f"2106-02-{day:02}" for day in range(7, 13)]
        right = [f"2027-01-{day:02}" for day in range(8, 12)]
        for today in ("1970-01-01", "1970-01-01", *ahead, *right):
            made = named(today)
            there = (
                {it for it in there if it > made}
                | {made}
                | {*sorted(it for it in there if it < made)[-6:]}
            )
            self.env["AT"] = today
            run = self.run_script("bash backup.sh")
            found = {it.name for it in self.path("work").glob("photos-*")}
            self.see(
                f"{today}: the backups that are kept",
                run.returncode == 0 and found == there,
                run.stdout,
                sorted(found),
            )
        self.see(
            "after all of these nights",
            found > {named(it) for it in (*ahead, *right)},
            sorted(found),
        )

    def see_encrypted(self, name):
        """Checks that each photo's age file holds it."""
        for photo in self.path("work/photos").iterdir():
            run = self.run_script(
                f"age_tool decrypt --pass passphrase.txt encrypted/{photo.name}.age /dev/stdout | cmp - photos/{photo.name}"
            )
            self.see(f"{name}: {photo.name}", run.returncode == 0, run.stdout)

    def test_stopped_in_parallel(self):
        script = self.blocks["Many files in parallel"]
        for turn in ("stopped once", "stopped twice"):
            self.stop(self.held_at(script, self.has_begun("encrypted/large*"), HOLD_LARGE="1"))
            self.see_whole(turn, "encrypted/*.age")
        run = self.run_script(script)
        self.see("after two stops the commands end well", run.returncode == 0, run.stdout)
        self.see_encrypted("after two stops")
        self.write("work/photos/1.jpg", b"another photo")
        self.see("a photo that changed", self.run_script(script).returncode == 0)
        self.see_encrypted("a photo that changed")

    def test_two_in_parallel(self):
        """The second run changes nothing of what the first one writes."""
        script = self.blocks["Many files in parallel"]
        first = self.held_at(script, self.has_begun("encrypted/large*"), HOLD_LARGE="1")
        second = self.run_script(script)
        self.see("two at once: the second fails", second.returncode != 0, second.stdout)
        self.stop(first)
        self.see_whole("two at once", "encrypted/*.age")
        self.assertEqual(self.run_script(script).returncode, 0)
        self.see_encrypted("two at once, and once more")

    def see_again(self, what):
        """Checks that the next run mends what the last one left, and the one after it does nothing."""
        script = self.blocks["Many files in parallel"]
        run = self.run_script(script)
        self.see(f"{what}: the next run", run.returncode == 0, run.stdout)
        self.see_encrypted(what)
        inodes = [it.stat().st_ino for it in sorted(self.path("work/encrypted").iterdir())]
        run = self.run_script(script)
        same = inodes == [it.stat().st_ino for it in sorted(self.path("work/encrypted").iterdir())]
        self.see(f"{what}: one more does nothing", run.returncode == 0 and same, run.stdout)

    def test_changed_while_encrypted(self):
        """A file that changes after it was read, and before its age file is finished."""
        photo = self.path("work/photos/large")
        run = self.held_at(
            self.blocks["Many files in parallel"],
            self.path("work/reading").exists,
            HOLD_LARGE="read",
        )
        with open(photo, "r+b") as file:
            file.write(b"A NEW LINE")
        self.write("work/on", b"")
        said = run.communicate()[0]
        self.see("changed while it was encrypted", run.returncode == 0, said)
        self.see_again("changed while it was encrypted")

    def test_replaced_by_older(self):
        """A file that comes with a time of its own, which is older than that of the age file of the one in whose place it is."""
        self.assertEqual(self.run_script(self.blocks["Many files in parallel"]).returncode, 0)
        self.assertEqual(
            self.run_script(
                "echo older > new && touch -d yesterday new && mv new photos/1.jpg"
            ).returncode,
            0,
        )
        self.see_again("replaced by an older one")
