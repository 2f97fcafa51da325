"""Keys with arithmetic, by Python's package cryptography, for what makes the vectors and compares with other programs."""

import hashlib
import os
import random
import sys

sys.dont_write_bytecode = True
HERE = os.path.dirname(os.path.realpath(__file__))
sys.path.insert(0, f"{HERE}/../../lib")

import model  # noqa: E402
import standing  # noqa: E402
from cryptography.exceptions import InvalidSignature  # noqa: E402
from cryptography.hazmat.primitives import hashes  # noqa: E402
from cryptography.hazmat.primitives.asymmetric import dsa, ec, ed25519, padding, rsa  # noqa: E402
from cryptography.hazmat.primitives.asymmetric.utils import Prehashed, decode_dss_signature, encode_dss_signature  # noqa: E402
from openpgp_maker import Key, integer, number, on_identity  # noqa: E402

OBJECTS = {2: hashes.SHA1(), 8: hashes.SHA256(), 9: hashes.SHA384(), 10: hashes.SHA512(), 11: hashes.SHA224()}
ED25519 = bytes.fromhex("092B06010401DA470F01")
P256, P384 = bytes.fromhex("2A8648CE3D030107"), bytes.fromhex("2B81040022")
CURVES = {P256: ec.SECP256R1(), P384: ec.SECP384R1()}


# Keys.


def prehashed(digest, hash):
    """What cryptography is told of a digest; of another hash than those of OBJECTS only its size."""
    others = {16: hashes.MD5(), 20: hashes.SHA1(), 32: hashes.SHA256(), 64: hashes.SHA512()}
    return Prehashed(OBJECTS.get(hash) or others[len(digest)])


def large(value):
    return integer(number((value.bit_length() + 7) // 8, value))


def point_of(private):
    return private.public_key().public_bytes_raw()


def ed25519_legacy(created, seed):
    """EdDSALegacy (5.5.5.5), the usual key of version 4."""
    private = ed25519.Ed25519PrivateKey.from_private_bytes(seed)

    def make(digest, _):
        made = private.sign(digest)
        return integer(made[:32]) + integer(made[32:])

    return Key(4, created, 22, ED25519 + integer(b"\x40" + point_of(private)), make)


def ed25519_native(version, created, seed):
    """Ed25519 (5.5.5.9)."""
    private = ed25519.Ed25519PrivateKey.from_private_bytes(seed)
    return Key(version, created, 27, point_of(private), lambda digest, _: private.sign(digest))


def prime(rng, bits):
    """A number of so many bits, of which the first two are set, that is a prime by all that is likely."""
    while True:
        n = rng.getrandbits(bits) | 3 << bits - 2 | 1
        if pow(2, n - 1, n) == 1 and all(pow(rng.randrange(2, n), n - 1, n) == 1 for _ in range(8)):
            return n


def rsa_key(created, bits, seed):
    """RSA (5.5.5.1), the same for the same seed."""
    rng, e = random.Random(seed), 65537
    p, q = prime(rng, bits // 2), prime(rng, bits // 2)
    d = pow(e, -1, (p - 1) * (q - 1))
    numbers = rsa.RSAPrivateNumbers(p, q, d, d % (p - 1), d % (q - 1), pow(q, -1, p), rsa.RSAPublicNumbers(e, p * q))
    private = numbers.private_key()

    def make(digest, hash):
        return integer(private.sign(digest, padding.PKCS1v15(), prehashed(digest, hash)))

    return Key(4, created, 1, large(p * q) + large(e), make)


def ecdsa_key(created, identifier, seed):
    """ECDSA (5.5.5.4); it signs the same for the same digest."""
    curve = CURVES[identifier]
    private = ec.derive_private_key(int.from_bytes(hashlib.sha256(seed).digest()[:20], "big"), curve)
    public = private.public_key().public_numbers()
    size = (curve.key_size + 7) // 8
    point = b"\4" + number(size, public.x) + number(size, public.y)

    def make(digest, hash):
        r, s = decode_dss_signature(private.sign(digest, ec.ECDSA(prehashed(digest, hash), deterministic_signing=True)))
        return large(r) + large(s)

    return Key(4, created, 19, bytes([len(identifier)]) + identifier + integer(point), make)


def dsa_key(created, bits):
    """DSA (5.5.5.2), another key each time."""
    private = dsa.generate_private_key(bits)
    public = private.public_key().public_numbers()
    them = public.parameter_numbers

    def make(digest, hash):
        r, s = decode_dss_signature(private.sign(digest, prehashed(digest, hash)))
        return large(r) + large(s)

    return Key(4, created, 17, b"".join(map(large, (them.p, them.q, them.g, public.y))), make)


# Verdicts.


def is_made_by(key, it, digest):
    """Whether the key of this body made the signature, or None where its algorithm isn't known here."""
    material, made = model.key_material(key), model.made_by(it)
    hash = Prehashed(OBJECTS[it.hash])
    try:
        if it.algorithm == 22 and key[6:16] == ED25519:
            public = ed25519.Ed25519PublicKey.from_public_bytes(material[1][1:])
            public.verify(b"".join(half.rjust(32, b"\0") for half in made), digest)
        elif it.algorithm == 27:
            ed25519.Ed25519PublicKey.from_public_bytes(material[0]).verify(made[0], digest)
        elif it.algorithm == 19:
            public = ec.EllipticCurvePublicKey.from_encoded_point(CURVES[material[0]], material[1])
            public.verify(encode_dss_signature(*map(model.number, made)), digest, ec.ECDSA(hash))
        elif it.algorithm == 17:
            p, q, g, y = map(model.number, material)
            public = dsa.DSAPublicNumbers(y, dsa.DSAParameterNumbers(p, q, g)).public_key()
            public.verify(encode_dss_signature(*map(model.number, made)), digest, hash)
        elif it.algorithm == 1:
            n, e = map(model.number, material)
            made = made[0].rjust((n.bit_length() + 7) // 8, b"\0")
            rsa.RSAPublicNumbers(e, n).public_key().verify(made, digest, padding.PKCS1v15(), hash)
        else:
            return None
    except InvalidSignature:
        return False
    return True


def digest(it, subject):
    octets = it.salt + subject + it.front + bytes([it.version, 255]) + number(4, len(it.front))
    return hashlib.new(model.HASHES[it.hash], octets).digest()


def verdict(it, subject, bodies):
    """What arithmetic finds of a signature over the subject, by the first key that it names."""
    if it.version not in (4, 6) or it.hash not in model.HASHES or (it.version == 6 and it.hash == 2):
        return standing.UNDECIDED
    found = digest(it, subject)
    if found[:2] != it.left:
        return standing.BAD
    key = model.signer_of(it, bodies)
    if key is None or key[0] != it.version or key[5] != it.algorithm:
        return standing.UNDECIDED
    return {True: standing.GOOD, False: standing.BAD, None: standing.UNDECIDED}[is_made_by(key, it, found)]


def verdicts(octets):
    """A verdict for each row of the keyring."""
    certificates = standing.read(octets)
    bodies = [part.body for certificate in certificates for part in certificate if part.key]
    found = []
    for certificate, part, it, is_embedded in standing.rows(certificates):
        primary, kinds = certificate[0], standing.PLACES[part.kind]
        keys = [primary.body] + [part.body] * (part.kind == standing.SUBKEY and it.kind != standing.REVOCATION)
        behind = on_identity(part.kind, part.body) if part.kind in (standing.USER_ID, standing.ATTRIBUTE) else b""
        if it.kind == standing.REVOCATION:
            behind = b""
        is_in_place = it.kind == standing.BACK if is_embedded else it.kind in kinds
        if not is_in_place or it.version not in (4, 6) or any(key[0] != it.version for key in keys):
            found.append(standing.UNDECIDED)
        else:
            found.append(verdict(it, b"".join(map(model.key_octets, keys)) + behind, bodies))
    return found


def verdict_of_document(body, text, octets):
    """The verdict on a signature over a text with line feeds alone, by a keyring."""
    it = model.kept_signature(body)
    if it.version not in (4, 6) or it.kind not in (0, 1):
        return standing.UNDECIDED
    text = text.replace(b"\n", b"\r\n") if it.kind == 1 else text
    bodies = [part.body for certificate in standing.read(octets) for part in certificate if part.key]
    return verdict(it, text, bodies)
