#!/usr/bin/env python3
"""Makes the signatures and tables of this folder anew, with other keys, and asks each program about each of them.

Usage: tests/vectors/documents/make.py ROOT FOLDER

It runs on Debian 12 as root, with its packages gnupg, gpgv, sq, sqv, sqop, rnp and gosop and Python's package cryptography. ROOT is
the folder of a Debian 13 with the same packages, rsop and rsopv, whose programs are run by chroot. FOLDER gets certificates,
signatures, documents.txt and line_ends.txt; the tables of README.md are printed. No secret key is kept.

The digest of each signature is worked out by tests/lib/model.py and hashlib. A signature stays only if it is good by the arithmetic of
cryptography over that digest, if a program of another family than its maker accepts it over its document, and if all that accept it
refuse it over the document with one octet more; or if it is one by gpg that leaves a NUL octet out, and only GnuPG accepts it."""

import ast
import hashlib
import os
import re
import shutil
import subprocess
import sys
import tempfile

sys.dont_write_bytecode = True
HERE = os.path.dirname(os.path.realpath(__file__))
sys.path.insert(0, f"{HERE}/../../lib")

import model  # noqa: E402
from cryptography.hazmat.primitives import hashes  # noqa: E402
from cryptography.hazmat.primitives.asymmetric import ec, ed448, ed25519, padding, rsa  # noqa: E402
from cryptography.hazmat.primitives.asymmetric.utils import Prehashed, encode_dss_signature  # noqa: E402

ROOT, FOLDER = os.path.realpath(sys.argv[1]), os.path.realpath(sys.argv[2])
WORK = tempfile.mkdtemp(dir=f"{ROOT}/tmp")
HASHES = {**model.HASHES, 12: "sha3_256", 14: "sha3_512"}
OBJECTS = {8: hashes.SHA256(), 9: hashes.SHA384(), 10: hashes.SHA512(), 11: hashes.SHA224()}
NAMES = {2: "SHA1", 8: "SHA256", 9: "SHA384", 10: "SHA512", 11: "SHA224", 12: "SHA3-256"}
# The documents, as documents.txt has them: octets, octets so many times, or a file.
DOCUMENTS = {
    "empty": 'b""',
    "open": 'b"one line without its last line end"',
    "lf": r'b"first\nsecond\n\nfourth\n"',
    "crlf": r'b"first\r\nsecond\r\n\r\nfourth\r\n"',
    "blanks": r'b"blanks  \ntabs\t\t\n \t\r\n  in front\nat the end \t"',
    "nul": r'b"\0one\0\0two\nthree\0\r\n\0"',
    "mixed": "mixed.bin",
    "long": 'b"x" * 5_000_000',
    "octets": "octets.bin",
    "nul_in_front": r'b"a\0\nb\n"',
}
OCTETS = "octets"  # no text: a carriage return stands alone in it
DROPPED = "nul_in_front"  # gpg drops the NUL
VERSION_4 = ("rsa", "ed25519", "p256", "sq_4")
VERSION_6 = ("sq_6", "rsop_6", "rsop_6_p256", "rsop_6_rsa", "gosop_6")
# Each program that signs: whether it is of Debian 13, its keys, and its hash algorithms if it may be told.
MAKERS = {
    "gpg-2.2.40": (False, VERSION_4, (8, 9, 10)),
    "gpg-2.4.7": (True, VERSION_4, (9, 10, 8)),
    "sq-0.27.0": (False, VERSION_4, ()),
    "sq-1.3.1": (True, (*VERSION_6, *VERSION_4), ()),
    "sqop-0.27.3": (False, VERSION_4, ()),
    "sqop-0.37.2": (True, ("rsop_6", "sq_6", "rsa", "rsop_6_p256", "rsop_6_rsa", "gosop_6", "ed25519"), ()),
    "rnp-0.16.3": (False, VERSION_4, (10, 8, 9)),
    "rnp-0.17.1": (True, VERSION_4, (8, 10, 9)),
    "gosop-0.0": (False, VERSION_4, ()),
    "gosop-1.1.0": (True, ("gosop_6", "rsop_6", "p256", "sq_6", "rsop_6_p256", "rsa", "rsop_6_rsa"), ()),
    "rsop-0.6.4": (True, ("rsop_6_p256", "rsop_6", "ed25519", "sq_6", "rsop_6_rsa", "p256", "rsa"), ()),
}
VERIFIERS = {
    "gpgv-2.2.40": False, "gpgv-2.4.7": True, "sqv-1.1.0": False, "sqv-1.3.0": True, "sqop-0.27.3": False, "sqop-0.37.2": True,
    "rnp-0.16.3": False, "rnp-0.17.1": True, "gosop-0.0": False, "gosop-1.1.0": True, "rsopv-0.6.4": True,
}  # fmt: skip
FAMILIES = {"gpg": "GnuPG", "gpgv": "GnuPG", "sq": "Sequoia", "sqv": "Sequoia", "sqop": "Sequoia", "rsop": "rpgp", "rsopv": "rpgp"}


# Runs.


def command(later, *words):
    inside = WORK[len(ROOT) :]
    at = ["chroot", ROOT, "env", "-C", inside, f"HOME={inside}"] if later else ["env", "-C", WORK, f"HOME={WORK}"]
    return [*at, f"GNUPGHOME={inside if later else WORK}/gnupg{13 if later else 12}", *words]


def tried(later, *words, given=b""):
    return subprocess.run(command(later, *words), input=given, capture_output=True, check=False, timeout=120)


def run(later, *words, given=b""):
    ended = tried(later, *words, given=given)
    if ended.returncode:
        raise SystemExit(f"{words}: {ended.returncode} {ended.stderr.decode()}")
    return ended.stdout


def kept(name, octets):
    os.makedirs(os.path.dirname(f"{FOLDER}/{name}"), exist_ok=True)
    with open(f"{FOLDER}/{name}", "wb") as it:
        it.write(octets)


def put(name, octets):
    with open(f"{WORK}/{name}", "wb") as it:
        it.write(octets)


def got(name):
    with open(f"{WORK}/{name}", "rb") as it:
        return it.read()


def gpg(later, *words):
    return run(later, "gpg", "--batch", "--quiet", "--yes", "--pinentry-mode", "loopback", "--passphrase", "", *words)


# Keys.


def keys():
    """Secret keys NAME.key and certificates NAME.pgp, all binary; and in FOLDER the certificates."""
    for home in ("gnupg12", "gnupg13"):
        os.mkdir(f"{WORK}/{home}", 0o700)
    for name, algorithm in (("rsa", "rsa2048"), ("ed25519", "ed25519"), ("p256", "nistp256")):
        gpg(False, "--quick-generate-key", f"{name} <{name}@example.org>", algorithm, "sign,cert", "never")
        put(f"{name}.key", gpg(False, "--export-secret-keys", f"{name}@example.org"))
    for version, profile in (("4", "rfc4880"), ("6", "rfc9580")):
        name = f"sq_{version}"
        words = ["sq", "--home", "none", "--key-store", "none", "--cert-store", "none", "--batch", "--quiet", "key", "generate"]
        words += ["--own-key", "--without-password", "--cannot-encrypt", "--cannot-authenticate", "--expiration", "never"]
        words += ["--profile", profile, "--userid", f"{name} <{name}@example.org>"]
        run(True, *words, "--output", f"{name}.key", "--rev-cert", f"{name}.rev")
    for name, program, profile in (("rsop_6", "rsop", "rfc9580"), ("rsop_6_p256", "rsop", "interop-testing-rfc9580-nistp"),
                                   ("rsop_6_rsa", "rsop", "interop-testing-rfc9580-rsa"), ("gosop_6", "gosop", "security")):  # fmt: skip
        put(f"{name}.key", run(True, program, "generate-key", f"--profile={profile}", f"{name} <{name}@example.org>"))
    for name in (*VERSION_4, *VERSION_6):
        secret = got(f"{name}.key")
        armored = secret if secret[:1] == b"-" else run(True, "sqop", "armor", given=secret)
        put(f"{name}.key", run(True, "sqop", "dearmor", given=armored))
        put(f"{name}.asc", armored)
        certificate = run(True, "sqop", "dearmor", given=run(True, "sqop", "extract-cert", given=armored))
        put(f"{name}.pgp", certificate)
        kept(f"certificates/{name}.pgp", certificate)
    for later in (False, True):
        for name in VERSION_4:
            gpg(later, "--import", f"{name}.key")


def keys_of(name):
    """The bodies of a certificate's keys by their fingerprints."""
    packets = model.framed([(b"PUBLIC KEY BLOCK", got(f"{name}.pgp"))], model.USUAL)
    return {model.fingerprint(it[4]): it[4] for it in packets if it[2] in (6, 14)}


# Signatures.


def sign(maker, signers, kind, algorithm, armored):
    """What the program writes: a signature of each signer over the file `document`."""
    program, later = maker.split("-")[0], MAKERS[maker][0]
    out = f"{WORK}/out"
    if os.path.exists(out):
        os.remove(out)
    if program == "gpg":
        words = [*(["--textmode"] if kind else []), *(["--armor"] if armored else []), "--digest-algo", NAMES[algorithm]]
        users = [word for it in signers for word in ("--local-user", f"{it}@example.org")]
        gpg(later, *words, *users, "--output", "out", "--detach-sign", "document")
    elif program == "rnp":
        words = ["rnp", "--keyfile", f"{signers[0]}.key", "--password", "", "--hash", NAMES[algorithm], "--output", "out"]
        run(later, *words, *(["--clearsign"] if kind else ["--detach", "--sign", *(["--armor"] if armored else [])]), "document")
    elif maker == "sq-0.27.0":
        words = ["sq", "sign", "--detached", *([] if armored else ["--binary"]), "--signer-key", f"{signers[0]}.key"]
        run(later, *words, "--output", "out", "document")
    elif program == "sq":
        words = [word for it in signers for word in ("--signer-file", f"{it}.key")] + ([] if armored else ["--binary"])
        mode = "text" if kind else "binary"
        run(later, "sq", "--home", "none", "sign", "--mode", mode, *words, "--signature-file", "out", "document")
    else:
        words = [f"--as={'text' if kind else 'binary'}", *([] if armored else ["--no-armor"])]
        return run(later, program, "sign", *words, *(f"{it}.asc" for it in signers), given=got("document"))
    octets = got("out")
    return octets[octets.rindex(b"-----BEGIN PGP SIGNATURE-----") :] if program == "rnp" and kind else octets


def jobs(maker):
    """What a program is to sign: the name of the file, the document, the type, the signers, the hash algorithm, and whether in armor."""
    later, signers, algorithms = MAKERS[maker]
    program = maker.split("-")[0]
    for d, document in enumerate(it for it in DOCUMENTS if it != DROPPED):
        for kind in (0, 1):
            if kind and (document == OCTETS or maker == "sq-0.27.0" or (program == "gpg" and document in ("long", "nul"))
                         or (program == "rnp" and document == "blanks")):  # fmt: skip
                continue
            algorithm = algorithms[(d + kind) % 3] if algorithms else 0
            armored = (d // 2 + kind + later) % 2 == 0 or (program == "rnp" and kind == 1)
            first = d + 2 * kind + later
            chosen = [signers[first % len(signers)]]
            if document == "mixed" and program != "rnp" and maker not in ("sq-0.27.0", "gosop-0.0"):
                chosen.append(signers[(first + 3) % len(signers)])
            yield f"{document}_{kind:02}", document, kind, chosen, algorithm, armored
    if program in ("gpg", "rnp"):
        yield "lf_00_sha224", "lf", 0, ["rsa"], 11, True
    if maker == "rnp-0.16.3":
        yield "lf_00_sha1", "lf", 0, ["ed25519"], 2, True
    if program == "rnp":
        yield "lf_00_sha3", "lf", 0, ["ed25519"], 12, True
    if program == "gpg":
        yield f"{DROPPED}_01", DROPPED, 1, ["ed25519"], 8, True


def packets_of(octets):
    """The signatures' bodies, and the octets of their packets."""
    blocks = [(b"SIGNATURE", octets)] if octets[0] >= 128 else model.dearmored(octets, model.USUAL)
    return [(body, blocks[block][1][at : at + n]) for block, at, kind, _, body, n in model.framed(blocks, model.USUAL) if kind == 2]


def canonical(document):
    assert not re.search(rb"\r(?!\n)", document)
    return re.sub(rb"\r?\n", b"\r\n", document)


def digest_of(it, document):
    """What a signature of version 4 or 6 hashes (RFC 9580, 5.2.4)."""
    text = canonical(document) if it.kind else document
    return hashlib.new(HASHES[it.hash], it.salt + text + it.front + bytes([it.version, 255]) + len(it.front).to_bytes(4, "big")).digest()


def arithmetic(key, it, digest):
    """Raises where the signature isn't the key's over this digest."""
    material, made = model.key_material(key), model.made_by(it)
    if it.algorithm == 22:
        ed25519.Ed25519PublicKey.from_public_bytes(material[1][1:]).verify(b"".join(half.rjust(32, b"\0") for half in made), digest)
    elif it.algorithm == 27:
        ed25519.Ed25519PublicKey.from_public_bytes(material[0]).verify(made[0], digest)
    elif it.algorithm == 28:
        ed448.Ed448PublicKey.from_public_bytes(material[0]).verify(made[0], digest)
    elif it.algorithm == 19:
        key = ec.EllipticCurvePublicKey.from_encoded_point(ec.SECP256R1(), material[1])
        key.verify(encode_dss_signature(*map(model.number, made)), digest, ec.ECDSA(Prehashed(OBJECTS[it.hash])))
    else:
        n, e = map(model.number, material)
        made = made[0].rjust((n.bit_length() + 7) // 8, b"\0")
        rsa.RSAPublicNumbers(e, n).public_key().verify(made, digest, padding.PKCS1v15(), Prehashed(OBJECTS[it.hash]))


def accepts(verifier, signer):
    """Whether a program accepts the file `signature` over the file `document`."""
    program, later = verifier.split("-")[0], VERIFIERS[verifier]
    ring = f"./{signer}.pgp"
    if program in ("gpgv", "sqv"):
        return tried(later, program, "--keyring", ring, "signature", "document").returncode == 0
    if program == "rnp":
        return tried(later, "rnp", "--keyfile", ring, "-v", "signature", "--source", "document").returncode == 0
    return tried(later, program, "verify", "signature", ring, given=got("document")).returncode == 0


def family(program):
    name = program.split("-")[0]
    return FAMILIES.get(name, name)


def vectors():
    """Makes all signatures, and asks who accepts which."""
    signers, rows, counts = {}, [], {maker: dict.fromkeys(["", *VERIFIERS], 0) for maker in MAKERS}
    refused = {verifier: [] for verifier in VERIFIERS}
    for maker in MAKERS:
        for name, document, kind, chosen, algorithm, armored in jobs(maker):
            octets = octets_of(document)
            put("document", octets)
            written = sign(maker, chosen, kind, algorithm, armored)
            path = f"{maker}/{name}.{'asc' if written[:1] == b'-' else 'sig'}"
            kept(path, written)
            found = packets_of(written)
            assert len(found) == len(chosen), path
            for place, (body, packet) in enumerate(found):
                it = model.Signature(body)
                signer = next(name for name in chosen if model.issuer_of(it) in keys_of(name))
                key = keys_of(signer)[model.issuer_of(it)]
                assert signers.setdefault(signer, model.issuer_of(it)) == model.issuer_of(it)
                assert it.kind == kind and algorithm in (0, it.hash)
                digest = digest_of(it, octets)
                put("signature", packet)
                accepted = [verifier for verifier in VERIFIERS if accepts(verifier, signer)]
                put("document", octets + b"!")
                assert not any(accepts(verifier, signer) for verifier in accepted), path
                put("document", octets)
                if document == DROPPED:
                    arithmetic(key, it, digest_of(it, b"a\nb\n"))
                    assert digest[:2] != it.left and {family(verifier) for verifier in accepted} == {"GnuPG"}
                else:
                    arithmetic(key, it, digest)
                    assert digest[:2] == it.left and any(family(verifier) != family(maker) for verifier in accepted), (path, accepted)
                word = "bad" if document == DROPPED else "signature"
                rows.append((word, path, place, signer, document, f"{kind:02}", it.hash, digest.hex().upper()))
                counts[maker][""] += 1
                for verifier in VERIFIERS:
                    counts[maker][verifier] += verifier in accepted
                    if verifier not in accepted:
                        refused[verifier].append((it.version, it.hash, path))
    return signers, rows, counts, refused


def octets_of(name):
    how = DOCUMENTS.get(name, name)
    if how.endswith(".bin"):
        with open(f"{HERE}/{how}", "rb") as it:
            return it.read()
    octets, _, times = how.partition(" * ")
    return ast.literal_eval(octets) * int(times or 1)


HEAD = """\
# Signatures that other programs made over documents; README.md says how. A line of a document has its name and its octets: a literal
# of Python, one so many times, or a file. One of a signer: its name, which is that of its certificate, and the fingerprint of the key
# that signs. One of a signature: its file, in the folder of the program that made it; its place among those of the file; its signer;
# its document; its type; its hash algorithm; and below it the digest of what it hashes (RFC 9580, 5.2.4). A bad one hashed another text.
"""


def tables(signers, rows, counts, refused):
    lines = [f"document {name} {how}" for name, how in DOCUMENTS.items()]
    lines += [f"signer {name} {octets.hex().upper()}" for name, octets in signers.items()]
    lines += [" ".join(map(str, row[:-1])) + f"\n  {row[-1]}" for row in rows]
    kept("documents.txt", (HEAD + "\n".join(lines) + "\n").encode())
    print("| Made by | signatures | " + " | ".join(VERIFIERS) + " |\n|---|" + "---|" * (len(VERIFIERS) + 1))
    for maker, row in counts.items():
        print(f"| {maker} | " + " | ".join(str(it) if it else "-" for it in row.values()) + " |")
    print("| Refused by | of version 6 | by SHA-1 or SHA3 | others |\n|---|---|---|---|")
    for verifier, them in refused.items():
        hashed = [f"{path} ({algorithm})" for version, algorithm, path in them if version == 4 and algorithm in (2, 12)]
        others = [path for version, algorithm, path in them if version == 4 and algorithm not in (2, 12)]
        print(f"| {verifier} | {sum(version == 6 for version, *_ in them)} | {', '.join(hashed)} | {', '.join(others)} |")


# Line ends.

ROWS = (b"a\nb\n", b"a\r\nb\r\n", b"a\nb", b"a \nb\t\n", b"a \r\nb", b"a\nb ", b"\n", b"", b"a\nb\n\n", b"a\0b\n", b"a\rb\r", b"a\rb\n",
        b"a\r\r\nb\n", b"a\n\rb\n", b"a\r", b"a\r \nb\n", b"a\r\n\nb\r\r")  # fmt: skip
# What a program may take for a document's text.
TEXTS = (
    lambda it: it,
    lambda it: re.sub(rb"\r?\n", b"\r\n", it),
    lambda it: re.sub(rb"\r\n|\r|\n", b"\r\n", it),
    lambda it: it.replace(b"\n", b"\r\n"),
    lambda it: b"\r\n".join(line.rstrip(b"\r") for line in it.split(b"\n")),
    lambda it: b"\r\n".join(line.rstrip(b" \t\r") for line in it.split(b"\n")),
    lambda it: re.sub(rb"[\r\n]*\n", b"\r\n", it),
    lambda it: re.sub(rb"\r?\n", b"\r\n", it) + b"\r\n",
    lambda it: re.sub(rb"\r?\n", b"\r\n", it.replace(b"\r", b"")),
)
GROUPS = {"gpgv, rnp": ("gpgv", "rnp"), "Sequoia, rpgp": ("sqv", "sqop", "rsopv"), "Go": ("gosop",)}


def integer(it):
    return it.bit_length().to_bytes(2, "big") + it.to_bytes((it.bit_length() + 7) // 8, "big")


def signed_text(text):
    """The packet of a signature of type 01 by the secret key of ed25519 that hashes these octets."""
    secret = model.framed([(b"PRIVATE KEY BLOCK", got("ed25519.key"))], model.USUAL)[0][4]
    (point, seed), _ = model.integers(secret[6 + 1 + secret[6] :][:35] + secret[6 + 1 + secret[6] + 36 :], 2)
    key = ed25519.Ed25519PrivateKey.from_private_bytes(seed.rjust(32, b"\0"))
    (public,) = keys_of("ed25519")
    area = b"\x05\x02" + model.number(secret[1:5]).to_bytes(4, "big") + b"\x16\x21\x04" + public
    front = b"\x04\x01\x16\x08" + model.sized(2, area)
    digest = hashlib.sha256(text + front + b"\x04\xff" + len(front).to_bytes(4, "big")).digest()
    made = key.sign(digest)
    halves = b"".join(integer(model.number(half)) for half in (made[:32], made[32:]))
    assert point[1:] == key.public_key().public_bytes_raw()
    body = front + b"\0\0" + digest[:2] + halves
    return b"\xc2" + (bytes([len(body)]) if len(body) < 192 else b"\xff" + len(body).to_bytes(4, "big")) + body


def escaped(octets):
    return '"' + repr(octets)[2:-1].replace("\\x00", "\\0") + '"'


def line_ends():
    lines = []
    for document in ROWS:
        put("document", document)
        hashed = {group: set() for group in GROUPS}
        for verifier in VERIFIERS:
            (group,) = (it for it in GROUPS if verifier.split("-")[0] in GROUPS[it])
            texts = dict.fromkeys(it(document) for it in TEXTS)
            for text in texts:
                put("signature", signed_text(text))
                if accepts(verifier, "ed25519"):
                    hashed[group].add((verifier, text))
        stray = re.search(rb"\r(?!\n)", document)
        shown = [escaped(document), f"stray {stray.start()}" if stray else escaped(canonical(document))]
        for group, found in hashed.items():
            texts = {text for _, text in found}
            assert len(texts) == 1 and len(found) == sum(it.split("-")[0] in GROUPS[group] for it in VERIFIERS), (document, found)
            shown.append(escaped(*texts))
        assert stray or len(set(shown[1:])) == 1
        lines.append(" | ".join(shown))
    head = """\
# What a signature of type 01 hashes of a document (RFC 9580, 5.2.1.2, 5.2.4): the document; its canonical text, or the place of the first
# carriage return that no line feed follows; and which text these programs hash: gpgv and rnp; those of Sequoia and rpgp; those of Go.
"""
    kept("line_ends.txt", (head + "\n".join(lines) + "\n").encode())


def main():
    for name in ("mixed.bin", "octets.bin"):
        kept(name, octets_of(name))
    keys()
    line_ends()
    tables(*vectors())


try:
    main()
finally:
    for it in (False, True):
        tried(it, "gpgconf", "--kill", "all")
    shutil.rmtree(WORK, ignore_errors=True)
