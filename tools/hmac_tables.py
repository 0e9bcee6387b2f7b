#!/usr/bin/env python3
"""The tables of the tests of hmac_kdf.

The codes of the keys and messages of RFC 4231, test cases 1 to 7, and the derived keys of the inputs of RFC 6070 with
SHA-512 in place of SHA-1, and of an empty password. The codes of four messages of one length under four keys of 32 bytes.
"""
import hashlib
import hmac
import platform

from test_tables import print_or_check, table

MADE_WITH = f"hmac and hashlib of Python {platform.python_version()}"

# Each key as the test names it, the key and the message.
MESSAGES = [
    ("&KEY_1", b"\x0b" * 20, b"Hi There"),
    ('b"Jefe"', b"Jefe", b"what do ya want for nothing?"),
    ("&KEY_3", b"\xaa" * 20, b"\xdd" * 50),
    ("&KEY_4", bytes(range(1, 26)), b"\xcd" * 50),
    ("&KEY_5", b"\x0c" * 20, b"Test With Truncation"),
    ("&KEY_6", b"\xaa" * 131, b"Test Using Larger Than Block-Size Key - Hash Key First"),
    ("&KEY_6", b"\xaa" * 131, b"This is a test using a larger than block-size key and a larger than block-size data. "
     b"The key needs to be hashed before being used by the HMAC algorithm."),
]

# Messages of one byte, as the test names them.
REPEATED = {b"\xdd" * 50: "&MESSAGE_3", b"\xcd" * 50: "&MESSAGE_4"}

KEYS = [
    (b"password", b"salt", 1),
    (b"password", b"salt", 2),
    (b"password", b"salt", 4096),
    (b"passwordPASSWORDpassword", b"saltSALTsaltSALTsaltSALTsaltSALTsalt", 4096),
    (b"pass\0word", b"sa\0lt", 4096),
    (b"", b"", 3),
]

# The lengths of four messages side by side: none, the two on whose sides the padding needs a second block, a block, and
# the most that a test gives.
LENGTHS = (0, 111, 112, 128, 464)


def rust(text):
    if text in REPEATED:
        return REPEATED[text]
    return 'b"' + text.decode().replace("\0", "\\0") + '"'


def mac_case(name, key, message):
    codes = ", ".join(f'code{bits}: "{hmac.digest(key, message, f"sha{bits}").hex()}"' for bits in (256, 384, 512))
    return f"MacCase {{ key: {name}, message: {rust(message)}, {codes} }}"


def kdf_case(password, salt, count):
    derived = hashlib.pbkdf2_hmac("sha512", password, salt, count).hex()
    return f'KdfCase {{ password: {rust(password)}, salt: {rust(salt)}, count: {count}, derived: "{derived}" }}'


def four_case(length):
    def codes(name):
        each = (hmac.digest(bytes(range(32 * j, 32 * j + 32)), bytes((7 * i + 64 * j) % 256 for i in range(length)), name)
                for j in range(4))
        return "[" + ", ".join(f'"{code.hex()}"' for code in each) + "]"
    return f"FourCase {{ length: {length}, codes384: {codes('sha384')}, codes512: {codes('sha512')} }}"


def main():
    print_or_check(__doc__, MADE_WITH, {
        ("known_answers/src/codes.rt", "MAC_CASES"): table(mac_case(*row) for row in MESSAGES),
        ("known_answers/src/codes.rt", "KDF_CASES"): table(kdf_case(*row) for row in KEYS),
        ("known_answers/src/codes.rt", "FOUR_CASES"): table(map(four_case, LENGTHS)),
    })


if __name__ == "__main__":
    main()
