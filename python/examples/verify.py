#!/usr/bin/env python3
"""Verifies the Ed25519 signatures (RFC 9580, 5.2.3.4) of the keyring on standard input by the package `cryptography`. Prints the
number of each row and its verdict.

    python3 verify.py < keyring.asc"""

import sys

from cryptography.exceptions import InvalidSignature
from cryptography.hazmat.primitives.asymmetric.ed25519 import Ed25519PublicKey

import opgp

ED25519 = 27


def verify(question: opgp.Question) -> opgp.Verdict:
    """Whether the signer's key made this signature over the digest, which is the message that Ed25519 signs."""
    signature, signer = question
    if (signature.algorithm, signer.algorithm) != (ED25519, ED25519):
        return opgp.Verdict.UNDECIDED
    try:
        Ed25519PublicKey.from_public_bytes(signer.material[0]).verify(signature.made[0], signature.digest)
    except InvalidSignature:
        return opgp.Verdict.BAD
    return opgp.Verdict.GOOD


def main() -> None:
    """Ends with the fault if the keyring is refused."""
    with opgp.read(sys.stdin.buffer.read()) as keyring:
        for signature, verdict in keyring.check(verify):
            print(f"row {signature.row} : {signature.why_not or verdict.name.lower()}")


if __name__ == "__main__":
    main()
