"""User keys, wrapped master keys and metadata sectors by geli(8) and g_eli.h, for the models of this folder.

What needs no cipher is in kit/vuthrel/metadata.py, whose tests have vectors of their own.
"""
import os
import platform
import sys

import cryptography
from cryptography.hazmat.primitives.ciphers import Cipher, algorithms, modes

sys.path.insert(0, os.path.join(os.path.dirname(os.path.realpath(__file__)), "..", "kit"))
from vuthrel.metadata import Metadata, hmac512
from vuthrel.metadata import user_key as user_key_with

MADE_WITH = f"hashlib and hmac of Python {platform.python_version()} and cryptography {cryptography.__version__}"

KEY_FILE = bytes(range(64))
SALT = bytes(range(0x80, 0xC0))
MASTER = bytes(range(128))


def user_key(keyfiles, passphrase, iterations):
    return user_key_with(keyfiles, passphrase, SALT, iterations)


def wrapped(key, keylen):
    """The bytes of a slot: the master key and its code, by AES-CBC."""
    plain = MASTER + hmac512(hmac512(key, b"\0"), MASTER)
    step = Cipher(algorithms.AES(hmac512(key, b"\1")[:keylen // 8]), modes.CBC(bytes(16))).encryptor()
    return step.update(plain) + step.finalize()


def sector(flags, ealgo, keylen, aalgo, provsize, sectorsize, keys, iterations, slots):
    """The sector of metadata of version 7."""
    return Metadata(7, flags, ealgo, keylen, aalgo, provsize, sectorsize, keys, iterations, SALT, slots).sector()
