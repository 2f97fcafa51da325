"""Keys with arithmetic, by OpenSSL's libcrypto itself, and certificates of them, for tests that need what is signed today.

A key is one of openpgp_maker's. Ed25519 is made of a seed, so that it is the same in each run; RSA and ECDSA aren't."""

import ctypes
import ctypes.util
import hashlib

import model
from openpgp_maker import Key, integer, number, on_identity, packet, signature, subpacket

DAY = 86400
PRIMARY, SIGNATURE, USER_ID, SUBKEY = 6, 2, 13, 14
CERTIFIES, SIGNS = 1, 2  # key flags (5.2.3.29)
OF_ED25519, OF_P256 = bytes.fromhex("092B06010401DA470F01"), bytes.fromhex("082A8648CE3D030107")
NAMES = {8: b"SHA256", 9: b"SHA384", 10: b"SHA512", 11: b"SHA224", 2: b"SHA1"}
TYPE_ED25519 = 1087  # of libcrypto


class Crypto:
    """The calls of libcrypto that are made here."""

    def __init__(self):
        self.calls = ctypes.CDLL(ctypes.util.find_library("crypto"))
        for name in ("EVP_PKEY_new_raw_private_key", "EVP_MD_CTX_new", "EVP_PKEY_Q_keygen", "EVP_PKEY_CTX_new", "EVP_get_digestbyname"):
            getattr(self.calls, name).restype = ctypes.c_void_p
        self.calls.EVP_PKEY_new_raw_private_key.argtypes = [ctypes.c_int, ctypes.c_void_p, ctypes.c_char_p, ctypes.c_size_t]
        self.calls.EVP_get_digestbyname.argtypes = [ctypes.c_char_p]

    def done(self, status):
        if status != 1:
            raise ValueError("libcrypto refuses")

    def of_seed(self, seed):
        """A key of Ed25519, and its public half."""
        key = ctypes.c_void_p(self.calls.EVP_PKEY_new_raw_private_key(TYPE_ED25519, None, seed, 32))
        half, size = ctypes.create_string_buffer(32), ctypes.c_size_t(32)
        self.done(self.calls.EVP_PKEY_get_raw_public_key(key, half, ctypes.byref(size)))
        return key, half.raw

    def signed(self, key, octets):
        """What Ed25519 makes."""
        context, made, size = ctypes.c_void_p(self.calls.EVP_MD_CTX_new()), ctypes.create_string_buffer(64), ctypes.c_size_t(64)
        self.done(self.calls.EVP_DigestSignInit(context, None, None, None, key))
        self.done(self.calls.EVP_DigestSign(context, made, ctypes.byref(size), octets, ctypes.c_size_t(len(octets))))
        self.calls.EVP_MD_CTX_free(context)
        return made.raw

    def new(self, kind, of):
        """A key of RSA, of so many bits, or on a curve of this name."""
        made = self.calls.EVP_PKEY_Q_keygen(None, None, kind, ctypes.c_size_t(of) if isinstance(of, int) else ctypes.c_char_p(of))
        return ctypes.c_void_p(made)

    def integer_of(self, key, name):
        found = ctypes.c_void_p()
        self.done(self.calls.EVP_PKEY_get_bn_param(key, name, ctypes.byref(found)))
        room = ctypes.create_string_buffer(1024)
        size = self.calls.BN_bn2bin(found, room)
        return room.raw[:size]

    def octets_of(self, key, name):
        room, size = ctypes.create_string_buffer(1024), ctypes.c_size_t()
        self.done(self.calls.EVP_PKEY_get_octet_string_param(key, name, room, ctypes.c_size_t(1024), ctypes.byref(size)))
        return room.raw[: size.value]

    def signed_digest(self, key, digest, hash_name):
        """What RSA (PKCS 1) or ECDSA makes of a digest."""
        context = ctypes.c_void_p(self.calls.EVP_PKEY_CTX_new(key, None))
        made, size = ctypes.create_string_buffer(1024), ctypes.c_size_t(1024)
        self.done(self.calls.EVP_PKEY_sign_init(context))
        self.done(self.calls.EVP_PKEY_CTX_set_signature_md(context, ctypes.c_void_p(self.calls.EVP_get_digestbyname(hash_name))))
        self.done(self.calls.EVP_PKEY_sign(context, made, ctypes.byref(size), digest, ctypes.c_size_t(len(digest))))
        self.calls.EVP_PKEY_CTX_free(context)
        return made.raw[: size.value]


CRYPTO = Crypto()


def ed25519(name, created, version=4):
    """The key of this name: EdDSALegacy in version 4, Ed25519 in version 6."""
    key, half = CRYPTO.of_seed(hashlib.sha256(name.encode()).digest())
    if version == 6:
        return Key(6, created, 27, half, lambda digest, hash: CRYPTO.signed(key, digest))

    def make(digest, hash):
        made = CRYPTO.signed(key, digest)
        return integer(made[:32]) + integer(made[32:])

    return Key(4, created, 22, OF_ED25519 + integer(b"\x40" + half), make)


def rsa(bits, created):
    key = CRYPTO.new(b"RSA", bits)
    material = integer(CRYPTO.integer_of(key, b"n")) + integer(CRYPTO.integer_of(key, b"e"))
    return Key(4, created, 1, material, lambda digest, hash: integer(CRYPTO.signed_digest(key, digest, NAMES[hash])))


def ecdsa(created):
    """A key on the curve P-256."""
    key = CRYPTO.new(b"EC", b"P-256")

    def make(digest, hash):
        der = CRYPTO.signed_digest(key, digest, NAMES[hash])  # 30 size 02 size r 02 size s
        end = 4 + der[3]
        return integer(der[4:end]) + integer(der[end + 2 :])

    return Key(4, created, 19, OF_P256 + integer(CRYPTO.octets_of(key, b"pub")), make)


def said(key, made, *subpackets):
    """The hashed area of a signature by the key, made then."""
    return subpacket(2, number(4, made)) + key.issuer_fingerprint + b"".join(subpackets)


def flags(which):
    return subpacket(27, bytes([which]))


def over(key, document, made, *subpackets, kind=0, hash=8):
    """A packet: the key's signature over a document."""
    return packet(SIGNATURE, signature(key, kind, document, said(key, made, *subpackets), key.issuer_key_id, hash))


def direct(key, made, *subpackets, hash=8):
    """A packet: what the key says of itself."""
    return packet(SIGNATURE, signature(key, 0x1F, key.octets, said(key, made, *subpackets), key.issuer_key_id, hash))


def revocation(key, made, reason=2):
    """A packet: the key revokes itself; 2 says that it is compromised (5.2.3.31)."""
    return packet(SIGNATURE, signature(key, 0x20, key.octets, said(key, made, subpacket(29, bytes([reason]))), key.issuer_key_id))


def identity(key, text, made, *subpackets, kind=0x13, hash=8, by=None):
    """Packets: a user ID and its certification; by the key, if nobody else is named."""
    by = by or key
    body = signature(by, kind, key.octets + on_identity(USER_ID, text), said(by, made, *subpackets), by.issuer_key_id, hash)
    return packet(USER_ID, text) + packet(SIGNATURE, body)


def subkey(key, sub, made, *subpackets, is_backed=True, by=None):
    """Packets: a subkey that signs, and its binding."""
    both, by = key.octets + sub.octets, by or key
    back = subpacket(32, signature(sub, 0x19, both, said(sub, made), sub.issuer_key_id))
    hashed = said(by, made, flags(SIGNS), *subpackets, *([back] if is_backed else []))
    return packet(SUBKEY, sub.body) + packet(SIGNATURE, signature(by, 0x18, both, hashed, by.issuer_key_id))


def certificate(key, text, *more, made=None, front=b"", subpackets=(), signs=True):
    """The key with a user ID, as a program would make it; in front of that, on the key alone, and behind it what is given."""
    made = key.created if made is None else made
    its = (flags(CERTIFIES | SIGNS if signs else CERTIFIES), *subpackets)
    own = direct(key, made, *its) if key.version == 6 else b""
    return packet(PRIMARY, key.body) + front + own + identity(key, text, made, *its) + b"".join(more)


def message(document, *signatures, head=b"Hash: SHA256\n", end=b"\n"):
    """A message in the cleartext signature framework (7), with a document of lines and these packets in one block."""
    lines = [b"- " + line if line[:1] == b"-" or line[:5] == b"From " else line for line in document.split(b"\n")]
    text = b"-----BEGIN PGP SIGNED MESSAGE-----\n" + head + b"\n" + b"".join(line + b"\n" for line in lines)
    return (text + model.armor(b"".join(signatures), b"SIGNATURE")).replace(b"\n", end)
