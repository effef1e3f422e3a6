"""AGS1 files as docs/FORMAT.md describes them, over the AES-GCM of python's cryptography.

Written from that document alone, for comparison with the tool: nothing here is shared with the library.
"""
from cryptography.exceptions import InvalidTag
from cryptography.hazmat.primitives.ciphers.aead import AESGCM

HEADER, NONCE, TAG = 8, 12, 16
FRAME = NONCE + TAG


class Refused(Exception):
    """A refusal with its code and position, as docs/ERRORS.md lists them."""

    def __init__(self, code, position=0):
        super().__init__(f"code {code}, position {position}")
        self.code, self.position = code, position


def counted(start):
    """The nonces from this one on: four fixed bytes, and a count in eight, most significant first, to its last value."""
    for count in range(int.from_bytes(start[4:], "big"), 1 << 64):
        yield start[:4] + count.to_bytes(8, "big")


def block_aad(prefix, block):
    return prefix + block.to_bytes(4, "little")


def seal(key, prefix, block_size, nonces, plaintext):
    """The closed file of a plaintext; each block takes the next nonce."""
    cipher = AESGCM(key)
    nonces = iter(nonces)
    parts = [b"AGS1", block_size.to_bytes(4, "little")]
    # an empty plaintext has one block, which is empty
    for block, place in enumerate(range(0, max(len(plaintext), 1), block_size)):
        nonce = next(nonces, None)
        if nonce is None:
            raise Refused(15, block)
        text = plaintext[place : place + block_size]
        parts += [nonce, cipher.encrypt(nonce, text, block_aad(prefix, block))]
    return b"".join(parts)


def measured(length, block_size):
    """The plaintext bytes and the blocks of a file of this length."""
    if length < HEADER:
        raise Refused(1)
    full, rest = divmod(length - HEADER, block_size + FRAME)
    if rest == 0:
        return full * block_size, full
    if rest < FRAME:
        raise Refused(2)
    return full * block_size + rest - FRAME, full + 1


def open_range(key, prefix, block_size, file, start=0, end=None):
    """The plaintext from start to end, or all of it."""
    size, _ = measured(len(file), block_size)
    end = size if end is None else end
    if start == end:
        return b""
    if start > end:
        raise Refused(5)
    if end > size:
        raise Refused(6)
    cipher = AESGCM(key)
    first, last = start // block_size, (end - 1) // block_size
    parts = []
    for block in range(first, last + 1):
        place = HEADER + block * (block_size + FRAME)
        sealed = file[place : place + block_size + FRAME]
        try:
            parts.append(cipher.decrypt(sealed[:NONCE], sealed[NONCE:], block_aad(prefix, block)))
        except InvalidTag:
            raise Refused(9, block) from None
    return b"".join(parts)[start - first * block_size : end - first * block_size]
