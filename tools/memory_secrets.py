"""The secrets of a provider as they may stand in a process's memory, for try_memory.py.

A secret is its bytes, those of a hash's words (which lie in memory the least byte first), the round keys of its
schedule, and their bit planes. Names are those of docs/FORMAT.md; the states of a hash those of FIPS 180-4.
"""
import hashlib
import struct
from typing import NamedTuple

from cryptography.hazmat.primitives.ciphers import Cipher, algorithms, modes
from key_model import hmac512

# The groups: what a user gave, what a key is derived by, what an attached provider has, what requests make of that, and
# what was written.
GIVEN, DERIVED, HELD, USED, DATA = "given", "derived", "held", "used", "data"
WIDTH = 16  # bytes of a secret that are looked for, from each of its bytes on


class Secret(NamedTuple):
    name: str
    group: str
    text: bytes
    forms: str = "words"  # also the words of a hash in it; or "digits": also hexadecimal; or "planes"


def swapped(text, size):
    """The bytes of each word of this size the other way round."""
    return b"".join(text[at:at + size][::-1] for at in range(0, len(text), size))


def forms_of(secret):
    if secret.forms == "words":
        return [secret.text, swapped(secret.text, 8), swapped(secret.text, 4)]
    return [secret.text] + [secret.text.hex().encode()] * (secret.forms == "digits")


def windows(secrets):
    """What is looked for: by how many bytes, the secret of each. Two in one place are the first of them."""
    found = {}
    for secret in secrets:
        width = 2 * WIDTH if secret.forms == "planes" else WIDTH
        of_width = found.setdefault(width, {})
        for text in forms_of(secret):
            for at in range(len(text) - width + 1):
                of_width.setdefault(text[at:at + width], secret)
    return found


# Hashes (FIPS 180-4): the state after a key's block, which a hasher keeps.

ROTATIONS = {32: ((2, 13, 22), (6, 11, 25), (7, 18, 3), (17, 19, 10)),
             64: ((28, 34, 39), (14, 18, 41), (1, 8, 7), (19, 61, 6))}
PRIMES = [n for n in range(2, 410) if all(n % d for d in range(2, n))]


def fraction(number, root, bits):
    """The first bits of the fraction of a root."""
    low, high = 0, number << bits
    while high - low > 1:
        middle = (low + high) // 2
        low, high = (middle, high) if middle ** root <= number << root * bits else (low, middle)
    return low & (1 << bits) - 1


CONSTANTS = {bits: [fraction(prime, 3, bits) for prime in PRIMES[:rounds]] for bits, rounds in ((32, 64), (64, 80))}


def state_after(block, bits):
    """The hash value after one block of SHA-256 (32) or SHA-512 (64), as bytes."""
    mask = (1 << bits) - 1

    def turned(word, by):
        return (word >> by | word << bits - by) & mask

    def mixed(word, by, shifts):
        last = word >> by[2] if shifts else turned(word, by[2])
        return turned(word, by[0]) ^ turned(word, by[1]) ^ last

    large0, large1, small0, small1 = ROTATIONS[bits]
    words = list(struct.unpack(">16" + {32: "I", 64: "Q"}[bits], block))
    for at in range(16, len(CONSTANTS[bits])):
        words.append((mixed(words[at - 2], small1, True) + words[at - 7] + mixed(words[at - 15], small0, True)
                      + words[at - 16]) & mask)
    start = [fraction(prime, 2, bits) for prime in PRIMES[:8]]
    a, b, c, d, e, f, g, h = start
    for word, constant in zip(words, CONSTANTS[bits]):
        first = h + mixed(e, large1, False) + (e & f ^ ~e & mask & g) + constant + word
        second = mixed(a, large0, False) + (a & b ^ a & c ^ b & c)
        a, b, c, d, e, f, g, h = (first + second) & mask, a, b, c, (d + first) & mask, e, f, g
    sums = [(old + new) & mask for old, new in zip(start, (a, b, c, d, e, f, g, h))]
    return b"".join(word.to_bytes(bits // 8, "big") for word in sums)


def hmac_secrets(name, group, key):
    """What a hasher of HMAC-SHA-512 has of its key: the padded key and the states after it (RFC 2104, 2)."""
    block = (hashlib.sha512(key).digest() if len(key) > 128 else key).ljust(128, b"\0")
    for pad in 0x36, 0x5C:
        padded = bytes(byte ^ pad for byte in block)
        # What pads a short key is no secret.
        yield Secret(f"{name}, padded", group, padded[:min(len(key), 128)])
        yield Secret(f"{name}, HMAC's state", group, state_after(padded, 64))


# AES (FIPS 197): the round keys, and their bit planes as crates/aes_planes has them.


def s_box():
    """SubBytes (5.1.1)."""
    box, p, q = [0x63] * 256, 1, 1
    while True:
        p ^= (p << 1 ^ (0x11B if p & 0x80 else 0)) & 0x1FF
        for by in 1, 2, 4:
            q ^= q << by & 0xFF
        q ^= 0x09 if q & 0x80 else 0
        box[p] = 0x63 ^ q ^ sum(1 << bit for bit in range(8) if sum(q >> (bit + by) % 8 & 1 for by in (4, 5, 6, 7)) & 1)
        if p == 1:
            return box


S_BOX = s_box()


def round_keys(key):
    """The expanded key (5.2), a round key after the other."""
    length, constant = len(key) // 4, 1
    words = [key[at:at + 4] for at in range(0, len(key), 4)]
    for at in range(length, 4 * (length + 7)):
        word = words[-1]
        if at % length == 0:
            word = bytes(S_BOX[byte] for byte in word[1:] + word[:1])
            word = bytes([word[0] ^ constant]) + word[1:]
            constant = constant << 1 ^ (0x11B if constant & 0x80 else 0)
        elif length == 8 and at % 8 == 4:
            word = bytes(S_BOX[byte] for byte in word)
        words.append(bytes(old ^ new for old, new in zip(words[-length], word)))
    text = b"".join(words)
    return [text[at:at + 16] for at in range(0, len(text), 16)]


def planes(block, constant=0):
    """The bit planes of eight blocks that are all this one, from bit 7 to bit 0."""
    return b"".join(bytes(0xFF * ((byte ^ constant) >> bit & 1) for byte in block) for bit in range(7, -1, -1))


def schedule_secrets(name, group, key, has_planes=False):
    first, *_, last = round_keys(key)
    yield Secret(f"{name}, first round key", group, first)
    yield Secret(f"{name}, last round key", group, last)
    if has_planes:
        yield Secret(f"{name}, planes of the first", group, planes(first), "planes")
        yield Secret(f"{name}, planes of the last", group, planes(last, 0x63), "planes")


# What there is of a provider (docs/FORMAT.md).


class Metadata:
    """What keys need of the last sector of an image."""

    def __init__(self, image):
        with open(image, "rb") as file:
            file.seek(-512, 2)
            meta = file.read()
        flags, cipher, bits = struct.unpack("<IHH", meta[20:28])
        self.iterations, = struct.unpack("<i", meta[43:47])
        self.key_bytes, self.is_xts, self.is_tagged = bits // 8, cipher == 22, bool(flags & 0x10)
        self.salt, self.slot = meta[47:111], meta[111:303]


class Derived:
    """The keys that a passphrase and key files make under some metadata."""

    def __init__(self, meta, key_files, passphrase):
        self.meta, self.passphrase = meta, passphrase
        self.iterates, self.stretched = [], b""
        if passphrase is not None:
            self.stretch()
        self.user_key = hmac512(b"", key_files + self.stretched)
        self.wrapping = hmac512(self.user_key, b"\1")
        self.check_key = hmac512(self.user_key, b"\0")

    def stretch(self):
        """PBKDF2 (RFC 8018, 5.2), with the few iterations that are used here."""
        iterate = self.meta.salt + b"\0\0\0\1"
        for _ in range(self.meta.iterations):
            iterate = hmac512(self.passphrase, iterate)
            self.iterates.append(iterate)
        total = 0
        for iterate in self.iterates:
            total ^= int.from_bytes(iterate, "big")
        self.stretched = total.to_bytes(64, "big") if self.iterates else self.meta.salt + self.passphrase

    def secrets(self, of=""):
        """All of these keys; `of` begins the names."""
        yield Secret(f"{of}PBKDF2's output", DERIVED, self.stretched)
        for iterate in self.iterates:
            yield Secret(f"{of}PBKDF2's iterates", DERIVED, iterate)
        yield Secret(f"{of}user key", DERIVED, self.user_key)
        yield Secret(f"{of}wrapping key", DERIVED, self.wrapping)
        yield Secret(f"{of}check key", DERIVED, self.check_key)
        if self.passphrase:
            yield from hmac_secrets(f"{of}passphrase", DERIVED, self.passphrase)
        yield from hmac_secrets(f"{of}user key", DERIVED, self.user_key)
        yield from hmac_secrets(f"{of}check key", DERIVED, self.check_key)
        yield from schedule_secrets(f"{of}wrapping key", DERIVED, self.wrapping[:self.meta.key_bytes])

    def master(self):
        """The master key in the slot."""
        opener = Cipher(algorithms.AES(self.wrapping[:self.meta.key_bytes]), modes.CBC(bytes(16))).decryptor()
        text = opener.update(self.meta.slot)
        assert text[128:] == hmac512(self.check_key, text[:128]), "the key doesn't open the slot"
        return text[:128]


def ring_secrets(meta, master, numbers):
    """The keys of an attached provider of version 7, and its range keys of these numbers."""
    iv_key, data_key = master[:64], master[64:]
    base = hmac512(data_key, b"\x10") if meta.is_tagged else data_key
    auth_key = hmac512(data_key, b"\x11")
    yield Secret("IV-Key", HELD, iv_key)
    yield Secret("Data-Key", HELD, data_key)
    yield Secret("range base", HELD, base)
    yield Secret("IV-Key, SHA-256's state", HELD, state_after(iv_key, 32))
    yield Secret("authentication key, SHA-256's state", HELD, state_after(auth_key, 32))
    for number in numbers:
        yield from range_secrets(meta, base, number)
    yield from hmac_secrets("range base", USED, base)
    yield Secret("authentication key", DERIVED, auth_key)
    yield from hmac_secrets("Data-Key", DERIVED, data_key)


def range_secrets(meta, base, number):
    key, size = hmac512(base, b"ekey" + struct.pack("<Q", number)), meta.key_bytes
    name = f"range key {number}"
    yield Secret(name, USED, key)
    yield from schedule_secrets(f"{name}, K1", USED, key[:size], has_planes=True)
    if meta.is_xts:
        yield from schedule_secrets(f"{name}, K2", USED, key[size:2 * size])


def check():
    """The hash states and the key expansion are those of the standards' examples, as far as hashlib and they say."""
    for bits, block, digest in (32, 64, hashlib.sha256), (64, 128, hashlib.sha512):
        text = b"abc\x80".ljust(block - 2, b"\0") + struct.pack(">H", 24)
        assert state_after(text, bits) == digest(b"abc").digest()
    key = bytes.fromhex("2b7e151628aed2a6abf7158809cf4f3c")  # FIPS 197, A.1
    assert round_keys(key)[-1].hex() == "d014f9a8c9ee2589e13f0cc8b6630ca6"
    key = bytes.fromhex("603deb1015ca71be2b73aef0857d77811f352c073b6108d72d9810a30914dff4")  # A.3
    assert round_keys(key)[-1].hex() == "fe4890d1e6188d0b046df344706c631e"


check()
