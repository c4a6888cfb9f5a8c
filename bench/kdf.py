import hashlib
import hmac

from measure import least

SIZE = 1_048_576

message = bytes([7]) * SIZE
print("SHA-256 of 1 MiB", least(lambda: hashlib.sha256(message).digest(), 40), SIZE, sep="\t")
print("HMAC of 1 MiB", least(lambda: hmac.digest(b"key", message, "sha256"), 40), SIZE, sep="\t")
