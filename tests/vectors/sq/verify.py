#!/usr/bin/env python3
"""Verifies each signature of keyrings by the key that its hashed area names, and prints how many are good.

Usage: tests/vectors/sq/verify.py FILE... The octets that are hashed are those of tests/lib/model.py, which reads the standard apart
from the program; a key is framed by the version of the signature (RFC 9580, 5.2.4), whatever its own. The arithmetic is that of
Python's package cryptography.
"""

import collections
import hashlib
import os
import sys

sys.dont_write_bytecode = True
sys.path.insert(0, os.path.join(os.path.dirname(os.path.realpath(__file__)), "..", "..", "lib"))

import model  # noqa: E402
from cryptography.exceptions import InvalidSignature  # noqa: E402
from cryptography.hazmat.primitives import hashes  # noqa: E402
from cryptography.hazmat.primitives.asymmetric import ec, ed448, ed25519, padding, rsa  # noqa: E402
from cryptography.hazmat.primitives.asymmetric.utils import Prehashed, encode_dss_signature  # noqa: E402

HASHES = {8: hashes.SHA256(), 9: hashes.SHA384(), 10: hashes.SHA512(), 11: hashes.SHA224()}
CURVES = {"2A8648CE3D030107": ec.SECP256R1(), "2B81040022": ec.SECP384R1(), "2B81040023": ec.SECP521R1()}


def integers(octets):
    while octets:
        n = (model.number(octets[:2]) + 7) // 8
        yield octets[2 : 2 + n]
        octets = octets[2 + n :]


def material(body):
    """What a signature has behind its salt, or behind the left octets of its digest."""
    width = 2 if body[0] == 4 else 4
    at = 4
    for _ in range(2):
        at += width + model.number(body[at : at + width])
    at += 2
    return body[at + 1 + body[at] :] if body[0] == 6 else body[at:]


def verify(key, body, digest):
    """Raises InvalidSignature where the signature isn't the key's over this digest."""
    algorithm, of_key, of_signature = key[5], key[6:] if key[0] == 4 else key[10:], material(body)
    if body[2] != algorithm:
        raise InvalidSignature
    if algorithm == 27:
        ed25519.Ed25519PublicKey.from_public_bytes(of_key).verify(of_signature, digest)
    elif algorithm == 28:
        ed448.Ed448PublicKey.from_public_bytes(of_key).verify(of_signature, digest)
    elif algorithm == 22:
        (point,) = integers(of_key[1 + of_key[0] :])
        halves = b"".join(it.rjust(32, b"\0") for it in integers(of_signature))
        ed25519.Ed25519PublicKey.from_public_bytes(point[1:]).verify(halves, digest)
    elif algorithm == 1:
        n, e = (model.number(it) for it in integers(of_key))
        (signature,) = (it.rjust((n.bit_length() + 7) // 8, b"\0") for it in integers(of_signature))
        rsa.RSAPublicNumbers(e, n).public_key().verify(signature, digest, padding.PKCS1v15(), Prehashed(HASHES[body[3]]))
    elif algorithm == 19:
        (point,) = integers(of_key[1 + of_key[0] :])
        curve = CURVES[of_key[1 : 1 + of_key[0]].hex().upper()]
        signature = encode_dss_signature(*(model.number(it) for it in integers(of_signature)))
        ec.EllipticCurvePublicKey.from_encoded_point(curve, point).verify(signature, digest, ec.ECDSA(Prehashed(HASHES[body[3]])))
    else:
        raise ValueError(f"algorithm {algorithm}")


def framed(version, key):
    return b"\x99" + model.sized(2, key) if version == 4 else b"\x9b" + model.sized(4, key)


def found(body, place, primary, head, keys):
    it = model.Signature(body)
    octets = it.salt + framed(it.version, primary)
    if place in (14, "embedded"):
        octets += framed(it.version, head)
    elif place == 13:
        octets += b"\xb4" + model.sized(4, head)
    octets += it.front + bytes([it.version, 255]) + len(it.front).to_bytes(4, "big")
    digest = hashlib.new(model.HASHES[it.hash], octets).digest()
    issuer = next(octets for octet, _, octets in it.hashed if octet & 127 == 33)
    hashed = (primary, head) if place in (14, "embedded") else (primary,)
    across = " across versions" if any(key[0] != it.version for key in hashed) else ""
    if digest[:2] != it.left or issuer[1:] not in keys:
        return "other left octets" if digest[:2] != it.left else "no key"
    try:
        verify(keys[issuer[1:]], body, digest)
    except InvalidSignature:
        return "bad"
    return f"good{across}"


def signatures_of(packets, certificates):
    """Each signature: its body, where it is, the primary key and the body that it is on."""
    for parts in certificates:
        primary = packets[parts[0][0]][4]
        for k, (head, hangs) in enumerate(parts):
            kind, body = packets[head][2], packets[head][4]
            for signature in (packets[it][4] for it in hangs if packets[it][2] == 2):
                yield signature, kind if k else None, primary, body
                it = model.Signature(signature)
                for octets in (octets for octet, _, octets in (*it.hashed, *it.unhashed) if octet & 127 == 32):
                    yield octets, "embedded", primary, body


def main():
    rings, keys = {}, {}
    for path in sys.argv[1:]:
        with open(path, "rb") as it:
            octets = it.read()
        blocks = [(b"PUBLIC KEY BLOCK", octets)] if octets[0] >= 128 else model.dearmored(octets, model.USUAL)
        packets = model.framed(blocks, model.USUAL)
        keys.update((model.fingerprint(body), body) for *_, kind, _, body, _ in packets if kind in (6, 14))
        rings[os.path.basename(path)] = packets, model.compose(blocks, packets, model.USUAL)[1]
    for name, (packets, certificates) in rings.items():
        counts = collections.Counter(found(*it, keys) for it in signatures_of(packets, certificates))
        print(f"{name}: " + ", ".join(f"{n} {what}" for what, n in sorted(counts.items())))


main()
