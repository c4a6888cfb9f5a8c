from cryptography.hazmat.primitives.ciphers import Cipher, algorithms
from cryptography.hazmat.primitives.ciphers.aead import ChaCha20Poly1305
from cryptography.hazmat.primitives.poly1305 import Poly1305

from measure import least

SIZE = 65_536
KEY, NONCE = bytes([9]) * 32, bytes([5]) * 12

text = bytes([7]) * SIZE
room = bytearray(SIZE)
stream = Cipher(algorithms.ChaCha20(KEY, (1).to_bytes(4, "little") + NONCE), None)
box = ChaCha20Poly1305(KEY)
sealed = box.encrypt(NONCE, text, b"")
work = {
    "ChaCha20 over 64 KiB": lambda: stream.encryptor().update_into(text, room),
    "Poly1305 over 64 KiB": lambda: Poly1305.generate_tag(KEY, text),
    "sealing 64 KiB": lambda: box.encrypt(NONCE, text, b""),
    "opening 64 KiB": lambda: box.decrypt(NONCE, sealed, b""),
}
for label, call in work.items():
    print(label, least(call, 400), SIZE, sep="\t")
