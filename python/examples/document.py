#!/usr/bin/env python3
"""Verifies the detached signatures (RFC 9580, 10.4) of the file on standard input, by the keys of a keyring and the package
`cryptography`. Prints the number of each signature, its verdict, and the fingerprint or key ID that it names as its issuer's.

    python3 document.py KEYRING SIGNATURES < FILE

The signatures are by RSA, EdDSALegacy or Ed25519, with SHA-2. Each key of the keyring is believed: bindings, key flags, expiries
and revocations aren't looked at."""

import sys

from cryptography.exceptions import InvalidSignature
from cryptography.hazmat.primitives import hashes
from cryptography.hazmat.primitives.asymmetric import ed25519, padding, rsa, utils

import opgp

RSA, RSA_SIGN_ONLY, EDDSA_LEGACY, ED25519 = 1, 3, 22, 27
HASHES = {8: hashes.SHA256(), 9: hashes.SHA384(), 10: hashes.SHA512(), 11: hashes.SHA224()}
CURVE = bytes.fromhex("2B06010401DA470F01")  # Ed25519Legacy (9.2)


def verify(question: opgp.Question) -> opgp.Verdict:
    """Whether the signer's key made this signature over the digest (5.2.3.1, 5.2.3.3, 5.2.3.4)."""
    signature, signer = question
    if signature.algorithm != signer.algorithm or signature.hash not in HASHES:
        return opgp.Verdict.UNDECIDED
    try:
        if signature.algorithm in (RSA, RSA_SIGN_ONLY):
            modulus, exponent = (int.from_bytes(it, "big") for it in signer.material)
            by = rsa.RSAPublicNumbers(exponent, modulus).public_key()
            made = signature.made[0].rjust((by.key_size + 7) // 8, b"\0")
            by.verify(made, signature.digest, padding.PKCS1v15(), utils.Prehashed(HASHES[signature.hash]))
        elif signature.algorithm == ED25519:
            ed25519.Ed25519PublicKey.from_public_bytes(signer.material[0]).verify(signature.made[0], signature.digest)
        elif signature.algorithm == EDDSA_LEGACY and signer.material[0] == CURVE:
            made = b"".join(it.rjust(32, b"\0") for it in signature.made)
            ed25519.Ed25519PublicKey.from_public_bytes(signer.material[1][1:]).verify(made, signature.digest)
        else:
            return opgp.Verdict.UNDECIDED
    except InvalidSignature:
        return opgp.Verdict.BAD
    except (ValueError, IndexError):  # no key of this algorithm, or nothing that it makes
        return opgp.Verdict.UNDECIDED
    return opgp.Verdict.GOOD


def main() -> int:
    """Ends with 1 unless a signature is good."""
    good = 0
    try:
        with open(sys.argv[1], "rb") as keys, open(sys.argv[2], "rb") as signatures:
            keyring, document = opgp.read(keys.read()), opgp.document(signatures.read(), sys.stdin.buffer)
        for it, verdict in document.check(keyring, verify):
            good += verdict is opgp.Verdict.GOOD
            print(f"signature {it.row} : {it.why_not or verdict.name.lower()} issuer {it.issuer.hex().upper() or '-'}")
    except (ValueError, OSError) as why:  # a fault; or there is no such file
        print(why, file=sys.stderr)
        return 1
    return int(not good)


if __name__ == "__main__":
    sys.exit(main())
