"""Makes packets of OpenPGP for tests: keys, subpackets and signatures of versions 4 and 6 (RFC 9580, 4, 5.2, 5.5).

A key brings a function that makes the fields of its algorithm from a digest. So one test gives it arithmetic, and another one, which
needs none, integers that are made up."""

import hashlib

# Hash algorithms (9.5), and the size of a salt in front of each in version 6.
HASHES = {1: hashlib.md5, 2: hashlib.sha1, 3: lambda octets: hashlib.new("ripemd160", octets), 8: hashlib.sha256, 9: hashlib.sha384,
          10: hashlib.sha512, 11: hashlib.sha224, 12: hashlib.sha3_256, 14: hashlib.sha3_512}  # fmt: skip
SALTS = {8: 16, 9: 24, 10: 32, 11: 16, 12: 16, 14: 32}


def number(size, value):
    return value.to_bytes(size, "big")


def integer(octets):
    """A multiprecision integer (3.2)."""
    octets = octets.lstrip(b"\0")
    bits = 8 * len(octets) - 8 + octets[0].bit_length() if octets else 0
    return bits.to_bytes(2, "big") + octets


def packet(kind, body):
    """A packet whose length is spelled as short as it can be (4.2.1)."""
    n = len(body)
    if n < 192:
        return bytes([0xC0 | kind, n]) + body
    if n < 8384:
        return bytes([0xC0 | kind, (n - 192 >> 8) + 192, n - 192 & 255]) + body
    return bytes([0xC0 | kind, 255]) + number(4, n) + body


def subpacket(kind, octets, is_critical=False):
    """A subpacket of a signature (5.2.3.7)."""
    n, kind = len(octets) + 1, kind | is_critical << 7
    if n < 192:
        return bytes([n, kind]) + octets
    if n < 16320:
        return bytes([(n - 192 >> 8) + 192, n - 192 & 255, kind]) + octets
    return b"\xff" + number(4, n) + bytes([kind]) + octets


class Key:
    """A public key. make(digest, hash) gives the fields of its algorithm (5.2.3) in a signature over that digest."""

    def __init__(self, version, created, algorithm, material, make):
        self.version, self.created, self.algorithm, self.make = version, created, algorithm, make
        head = bytes([version]) + number(4, created) + bytes([algorithm])
        if version == 6:
            self.body = head + number(4, len(material)) + material
            self.octets = b"\x9b" + number(4, len(self.body)) + self.body
            self.fingerprint = hashlib.sha256(self.octets).digest()
            self.key_id = self.fingerprint[:8]
        else:
            self.body = head + material
            self.octets = b"\x99" + number(2, len(self.body)) + self.body
            self.fingerprint = hashlib.sha1(self.octets).digest()
            self.key_id = self.fingerprint[-8:]
        # The subpackets of a signature that names it.
        self.issuer_fingerprint = subpacket(33, bytes([version]) + self.fingerprint)
        self.issuer_key_id = subpacket(16, self.key_id)


def on_identity(kind, body):
    """What a certification hashes of a user ID (13) or an attribute (17) behind the key (5.2.4)."""
    return (b"\xb4" if kind == 13 else b"\xd1") + number(4, len(body)) + body


def signature(key, kind, subject, hashed, unhashed=b"", hash=8, version=None):
    """The body of a signature by the key over the subject, with these two areas of subpackets. Of a hash that isn't
    known the digest is zeros. The salt of version 6 depends on all else, so that the same call makes the same octets."""
    version = version or key.version
    width = 4 if version == 6 else 2
    front = bytes([version, kind, key.algorithm, hash]) + number(width, len(hashed)) + hashed
    salt = b""
    if version == 6:
        salt = hashlib.sha512(subject + front).digest()[: SALTS.get(hash, 16)]
    digest = bytes(32)
    if hash in HASHES:
        digest = HASHES[hash](salt + subject + front + bytes([version, 255]) + number(4, len(front))).digest()
    middle = number(width, len(unhashed)) + unhashed + digest[:2]
    if version == 6:
        middle += bytes([len(salt)]) + salt
    return front + middle + key.make(digest, hash)


def signature_3(key, kind, subject, created, hash=8):
    """The body of one of version 3 (5.2.2)."""
    behind = bytes([kind]) + number(4, created)
    digest = HASHES[hash](subject + behind).digest()
    return b"\3\5" + behind + key.key_id + bytes([key.algorithm, hash]) + digest[:2] + key.make(digest, hash)
