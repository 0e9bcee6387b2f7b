#!/usr/bin/env python3
"""The tables of the tests of user_key and key_slots.

The key file is 0x00 to 0x3f, the salt 0x80 to 0xbf, and the master key 0x00 to 0x7f. A user key's row has how many key
files there are, their bytes, a passphrase or none, and the iterations; a slot's row has the bits of the data key, and the
user key in it is that of the key file and the passphrase `abc` with 1,000 iterations.
"""
from key_model import KEY_FILE, MADE_WITH, user_key, wrapped
from test_tables import print_or_check, table

KEYS = [
    (1, KEY_FILE, None, -1),
    (1, KEY_FILE, b"abc", 0),
    (1, KEY_FILE, b"abc", 1),
    (1, KEY_FILE, b"abc", 1000),
    (0, b"", b"abc", 2),
    (0, b"", b"", 2),
    (1, KEY_FILE, None, 5),
    (2, b"first\nsecond", b"a\0b", 3),
    (1, b"", None, 0),
]


def rust(bytes):
    text = bytes.decode().replace("\0", "\\0").replace("\n", "\\n")
    return f'b"{text}"'


def key_case(count, keyfiles, passphrase, iterations):
    files = "&KEY_FILE" if keyfiles == KEY_FILE else rust(keyfiles)
    given = "None" if passphrase is None else f"Some({rust(passphrase)})"
    key = user_key(keyfiles, passphrase, iterations).hex()
    return (f"KeyCase {{ keyfile_count: {count}, keyfiles: {files}, passphrase: {given}, "
            f'iterations: {iterations}, key: "{key}" }}')


def main():
    key = user_key(KEY_FILE, b"abc", 1000)
    slots = [f'SlotCase {{ keylen: {keylen}, slot: "{wrapped(key, keylen).hex()}" }}' for keylen in (128, 192, 256)]
    print_or_check(__doc__, MADE_WITH, {
        ("known_answers/src/user_keys.rt", "KEY_CASES"): table(key_case(*row) for row in KEYS),
        ("known_answers/src/slots.rt", "USER_KEY"): f"UserKey {{ bytes: {list(key)} }}",
        ("known_answers/src/slots.rt", "SLOT_CASES"): table(slots),
    })


if __name__ == "__main__":
    main()
