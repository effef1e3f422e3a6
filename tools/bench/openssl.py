"""Times the AES-GCM of OpenSSL, by python's cryptography, on the same sixteen texts as the program bench."""
import time

from cryptography.hazmat.primitives.ciphers.aead import AESGCM


def text(seed):
    out, k = bytearray(), seed
    period = bytearray()
    for _ in range(256):
        period.append(k)
        k = (k * 5 + 31) % 256
    while len(out) < 1_048_576:
        out += period
    return bytes(out[:1_048_576])


cipher = AESGCM(bytes(range(16)))
total, micros = 0, 0
for seed in range(16):
    plain = text(seed)
    start = time.perf_counter_ns()
    sealed = cipher.encrypt(seed.to_bytes(12, "big"), plain, bytes([7]) * 20)
    micros += (time.perf_counter_ns() - start) // 1000
    out = int.from_bytes(bytes(reversed(sealed[-8:])), "big")
    total = (total * 31 + out) % 2**64
print(f"gcm {total:016x} {micros}")
