"""Block devices as IN and OUT."""
import errno
import os
import pathlib
import random
import stat

from tests import process
from tests.case import needs, twice
from tests.program.case import NO_FILE, PLAIN, FilesCase, unsaved, unsynced


class DevicesTest(FilesCase):
    def device(self, name, held):
        """A block device over a file until the test ends. The test is left out if there is none."""
        self.write(name, held + bytes(-len(held) % 4096))
        made = process.run(
            ["losetup", "--show", "-f", self.path(name)], capture_output=True, text=True
        ).stdout.strip()
        if not made:
            self.skipTest("no loop device can be had")
        self.addCleanup(process.run, ["losetup", "-d", made], check=True)
        return made

    @needs("losetup", root=True)
    def test_devices(self):
        """A block device is known by its number."""
        age, other = self.device("age.img", self.age), self.device(
            "other.img", bytes(len(PLAIN) + 8192)
        )
        image = self.read("age.img")
        os.symlink(age, self.path("to-device"))
        number = os.stat(age).st_rdev
        os.mknod(self.path("node"), stat.S_IFBLK | 0o600, number)
        for to in ("to-device", "node"):
            self.expect(2, twice(to, age), ["decrypt", "--pass", "pass", age, to])
            self.expect(2, twice(to, age), ["encrypt", "--pass", "pass", "--log", "4", age, to])
            self.expect(2, twice(to, age), ["decrypt", "--pass", "pass", "--save", to, age, "new"])
        self.see(
            "the device that is read is kept",
            pathlib.Path(age).read_bytes() == image and not self.is_there("new"),
        )
        said = unsaved(other, NO_FILE)
        self.expect(
            1,
            said,
            ["decrypt", "--no-clobber", "--pass", "pass", "--save", other, "cut", "new"],
            "a device isn't replaced",
        )
        with open(other, "rb") as device:
            self.see(
                "a device isn't replaced: it",
                not any(device.read(4096)) and not self.is_there("new"),
            )
        self.expect(0, b"", ["decrypt", "--pass", "pass", "age", other], "OUT is a block device")
        with open(other, "rb") as device:
            self.see("OUT is a block device: its bytes", device.read(len(PLAIN)) == PLAIN)

    @needs("losetup", root=True)
    def test_resumed_from_a_device(self):
        """A block device is passed over up to the position, and read from there."""
        self.write("empty", b"")
        self.expect(0, b"", "encrypt --pass pass --log 4 empty nothing")
        front = len(self.read("nothing")) - 16
        # So many bytes that the file ends with a block of the device.
        text = random.Random(1).randbytes((128 << 12) - front - 16 * 8)
        self.write("plain", text)
        self.expect(0, b"", "encrypt --pass pass --log 4 plain age")
        self.write("cut", self.read("age")[: front + 5 * 65_552 + 100])
        self.tool(*"decrypt --pass pass --save saved cut part".split())
        self.see("a position", self.is_position("saved", 5))
        age = self.device("image", self.read("age"))
        self.expect(
            0,
            b"",
            ["resume", "--position", "saved", "--old", "part", "--pass", "pass", age, "whole"],
            "IN is a block device",
        )
        self.see("IN is a block device: the text", self.read("whole") == text)

    @needs("losetup", "cc", root=True)
    def test_devices_that_cannot_be_synced(self):
        """A block device is synced."""
        other = self.device("other.img", bytes(len(PLAIN) + 8192))
        failing = {"FSYNC": errno.EIO, "ONLY": "b"}
        self.expect(
            1,
            unsynced(other, errno.EIO),
            ["decrypt", "--pass", "pass", "age", other],
            "a device that can't be synced",
            failing,
        )
        with open(other, "wb") as device:
            said = unsynced("/dev/stdout", errno.EIO)
            self.expect(
                1,
                said,
                "decrypt --pass pass age /dev/stdout",
                "standard output is such a device",
                failing,
                stdout=device,
            )
        self.expect(
            0,
            b"",
            ["decrypt", "--no-sync", "--pass", "pass", "age", other],
            "without waiting",
            failing,
        )
