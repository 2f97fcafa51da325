#!/usr/bin/env python3
"""Says which detached signatures (RFC 9580, 10.4) of a file may be believed, now or at a time in seconds since 1970: by the rule of
docs/VALIDITY.md, which libopgp proves, the keys of a keyring, and the package `cryptography`.

    python3 judge.py KEYRING SIGNATURES FILE [--at T]

Prints the number of each signature, `believed` or why not, and the fingerprint or key ID that it names as its issuer's. Ends with 0 if
one is believed.

It verifies signatures by RSA, EdDSALegacy, Ed25519 and ECDSA, with SHA-2 and SHA-1: revocations count whatever they are made by. It
says which ones it can't verify. They count for nothing, so a revocation among them isn't heard. Without `cryptography` that is each
signature, and none is believed."""

import argparse
import collections
import re
import sys
import time

import opgp

try:
    from cryptography.exceptions import InvalidSignature, UnsupportedAlgorithm
    from cryptography.hazmat.primitives import hashes
    from cryptography.hazmat.primitives.asymmetric import ec, ed25519, padding, rsa, utils

    HASHES = {2: hashes.SHA1(), 8: hashes.SHA256(), 9: hashes.SHA384(), 10: hashes.SHA512(), 11: hashes.SHA224()}
    CURVES = {"2A8648CE3D030107": ec.SECP256R1(), "2B81040022": ec.SECP384R1(), "2B81040023": ec.SECP521R1()}
    is_there = True
except ImportError:
    is_there = False

RSA, RSA_SIGN_ONLY, ECDSA, EDDSA_LEGACY, ED25519 = 1, 3, 19, 22, 27
ED25519_LEGACY = "2B06010401DA470F01"  # a curve (9.2)

left_out: collections.Counter[str] = collections.Counter()


def number(octets: bytes) -> int:
    """A big-endian number."""
    return int.from_bytes(octets, "big")


def is_made(signature: opgp.Signature, signer: opgp.Key) -> bool:
    """Whether the key made this signature over the digest (5.2.3.1 to 5.2.3.4). Raises InvalidSignature where it didn't. False: its
    algorithm or curve isn't known here."""
    hashed, made, material = utils.Prehashed(HASHES[signature.hash]), signature.made, signer.material
    if signature.algorithm in (RSA, RSA_SIGN_ONLY):
        by = rsa.RSAPublicNumbers(number(material[1]), number(material[0])).public_key()
        by.verify(made[0].rjust((by.key_size + 7) // 8, b"\0"), signature.digest, padding.PKCS1v15(), hashed)
    elif signature.algorithm == ED25519:
        ed25519.Ed25519PublicKey.from_public_bytes(material[0]).verify(made[0], signature.digest)
    elif signature.algorithm == EDDSA_LEGACY and material[0].hex().upper() == ED25519_LEGACY:
        octets = b"".join(it.rjust(32, b"\0") for it in made)
        ed25519.Ed25519PublicKey.from_public_bytes(material[1][1:]).verify(octets, signature.digest)
    elif signature.algorithm == ECDSA and material[0].hex().upper() in CURVES:
        point = ec.EllipticCurvePublicKey.from_encoded_point(CURVES[material[0].hex().upper()], material[1])
        point.verify(utils.encode_dss_signature(number(made[0]), number(made[1])), signature.digest, ec.ECDSA(hashed))
    else:
        return False
    return True


def verify(question: opgp.Question) -> opgp.Verdict:
    """What arithmetic finds. What it can't verify is counted."""
    signature, signer = question
    if is_there and signature.algorithm == signer.algorithm and signature.hash in HASHES:
        try:
            if is_made(signature, signer):
                return opgp.Verdict.GOOD
        except InvalidSignature:
            return opgp.Verdict.BAD
        except (ValueError, IndexError, UnsupportedAlgorithm):  # no key of this algorithm, or nothing that it makes
            pass
    left_out[f"{signature.algorithm_name or signature.algorithm}, {signature.hash_name or signature.hash}"] += 1
    return opgp.Verdict.UNDECIDED


def seconds(word: str) -> int:
    """A time in seconds since 1970. Eight digits that may be a date are refused: who means one would be told of 1970."""
    if re.fullmatch("[0-9]{4}(?:0[1-9]|1[0-2])(?:0[1-9]|[12][0-9]|3[01])", word):
        raise argparse.ArgumentTypeError(f"{word} may be a date: write seconds since 1970, behind an @")
    return int(word.removeprefix("@"))


def main() -> int:
    """Ends with 1 unless a signature is believed."""
    words = argparse.ArgumentParser(description="Says which detached signatures of a file may be believed.")
    for name in ("KEYRING", "SIGNATURES", "FILE"):
        words.add_argument(name)
    words.add_argument("--at", metavar="T", type=seconds, default=int(time.time()), help="seconds since 1970; else now")
    told, believed = words.parse_args(), 0
    try:
        with open(told.KEYRING, "rb") as keys, open(told.SIGNATURES, "rb") as signatures, open(told.FILE, "rb") as file:
            keyring, document = opgp.read(keys.read()), opgp.document(signatures.read(), file)
        for it, verdict, why, _ in document.judge(keyring, verify, told.at):
            believed += why is None
            said = "believed" if why is None else (verdict is not opgp.Verdict.GOOD and it.why_not) or why.name.lower()
            print(f"signature {it.row} : {said} issuer {it.issuer.hex().upper() or '-'}")
    except (ValueError, OSError) as wrong:  # a fault; a time below 0; or there is no such file
        print(wrong, file=sys.stderr)
        return 1
    if not is_there:
        print("nothing is verified: the package cryptography is wanted", file=sys.stderr)
    for name, count in sorted(left_out.items()):
        print(f"not verified: {count} by {name}", file=sys.stderr)
    return int(not believed)


if __name__ == "__main__":
    sys.exit(main())
