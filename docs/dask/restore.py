"""Restores photos.tar.age on several machines, and checks the folder of backups, by the workers of Dask: each opens a part of the file, and
another writes that part again if one is lost. They have the module agefile and the current folder in common.

usage: python3 restore.py ADDRESS_OF_THE_SCHEDULER
"""
import glob, os, sys
import agefile
from dask.distributed import Client

NAME, OUT, PART, PIECE = "photos.tar.age", "photos.tar", 1 << 30, 4 << 20


def opened(name, header=None):
    file = open(name, "rb")
    if header not in (None, agefile.inspect(file)):
        raise ValueError(f"{name} was replaced")
    with open("passphrase.txt", "rb") as word:
        return agefile.open(file, passphrase=word.read().removesuffix(b"\n"))


def restore(at, header):
    with opened(NAME, header) as file, open(OUT + ".part", "r+b") as out:
        file.seek(at)
        out.seek(at)
        while piece := file.read(min(PIECE, at + PART - file.tell())):
            out.write(piece)
        out.flush()
        os.fsync(out.fileno())


def check(name):
    with opened(name) as file:
        while file.read(PIECE):
            pass


if __name__ == "__main__":
    header = agefile.inspect(NAME)  # whose salt no other file has
    with Client(sys.argv[1]) as client:
        with opened(NAME, header) as text, open(OUT + ".part", "xb") as out:
            parts = range(0, out.truncate(text.size), PART)
        client.gather(client.map(restore, parts, header=header))
        os.rename(OUT + ".part", OUT)
        client.gather(client.map(check, glob.glob("backups/*.age")))
