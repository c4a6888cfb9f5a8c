import hashlib

from measure import least


def key(log):
    return hashlib.scrypt(
        b"pleaseletmein", salt=b"SodiumChloride", n=2**log, r=8, p=1, dklen=32, maxmem=2**30
    )


print("work factor 14", least(lambda: key(14), 10), sep="\t")
print("work factor 18", least(lambda: key(18), 3), sep="\t")
