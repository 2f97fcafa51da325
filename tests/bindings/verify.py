#!/usr/bin/env python3
"""Tries opgp-verify --signature, which judges detached signatures over a document, and says what a run must write to the octet.

Usage: tests/bindings/verify.py [--program FILE --library FILE]

The program is built as `make verifier` builds it, unless one is named; so is libopgp.a, with which it is compiled for sanitizers too. It verifies what RFC 9580 and sq signed, and where gpg is
installed what that signs here: by keys of each algorithm that it makes, of types 00 and 01, over documents of many forms. Each
signature is then held against a document, a signature or a keyring that was changed. The digests that the lines show are worked out
with Python's hashlib, by tests/lib/model.py, which merges the keyrings too; and which good signature isn't to be believed, and why, by
tests/lib/standing.py: also of the 383 cases of tests/vectors/validity, at several times, and of keyrings that are made of their packets.
Signatures that nobody made, whose digest begins as they state, say what is undecided and why. Command lines, files that are refused or missing, full devices, memory that is refused and how much of it is taken are tried too.
How often libcrypto is asked is counted, and how long a key in many places takes is measured.
So are large keyrings, over which several threads go: what is written is the same with any number of them, also where some can't be
started.
What isn't here is said on standard error. The last line counts what was tried.
"""

import argparse
import contextlib
import functools
import glob
import hashlib
import os
import re
import resource
import shlex
import shutil
import subprocess
import sys
import tempfile
import time

sys.dont_write_bytecode = True
sys.path.insert(0, f"{sys.path[0]}/../lib")

import causes  # noqa: E402
import model  # noqa: E402
import openpgp_signers as signers  # noqa: E402
import standing  # noqa: E402
import standing_cases  # noqa: E402
from document_cases import TEXT, of_messages  # noqa: E402
from running import HERE, processor_seconds  # noqa: E402

SECONDS = 300  # for one run
USAGE = "\n\nUsage: opgp-verify [OPTIONS] --signature <SIG> --keyring <FILE>... [DOCUMENT]\n"
MORE = "\nFor more information, try '--help'.\n"
READ = 1795132800  # when the cases of tests/vectors/validity are read: 2026-11-20
DAY = 86400
OF_SQ = b"OpenPGP\r\nin two lines\n"  # what sq signed (tests/vectors/sq/make.sh)
MARKER = b"\xca\x03PGP"
# A critical subpacket of an unknown kind, a critical notation, one that isn't critical, and a critical one that is known.
SUBPACKETS = {"kind": b"\2\xe5x", "notation": b"\x0b\x94" + bytes(4) + b"\0\1\0\1ab", "usual": b"\2\x65x", "known": b"\2\x87\1"}
passed = failed = 0
PROGRAM = ROOM = None
AT = READ  # when documents are judged


def verdict(name, holds, why=""):
    global passed, failed
    passed, failed = passed + bool(holds), failed + (not holds)
    if not holds:
        print(f"tests/bindings/verify.py: {name}: FAILED {why}"[:2000], file=sys.stderr)


def left_out(what):
    print(f"tests/bindings/verify.py: left out, since it isn't here: {what}", file=sys.stderr)


def octets_of(path):
    with open(path, "rb") as it:
        return it.read()


def kept(name, octets):
    """A file of this name that has these octets."""
    with open(f"{ROOM}/{name}", "wb") as it:
        it.write(octets)
    return f"{ROOM}/{name}"


def run(*words, given=b"", started=None, **how):
    """The status, standard output, without the causes of reasons, and standard error."""
    status, out, err = run_whole(*words, given=given, started=started, **how)
    return status, causes.without(out), err


def run_whole(*words, given=b"", started=None, **how):
    ended = subprocess.run([started or PROGRAM, *words], input=given, capture_output=True, check=False, timeout=SECONDS, **how)
    return ended.returncode, ended.stdout.decode(), ended.stderr.decode()


# ---- Packets, and what a run must write of them


def packets_in(octets):
    blocks = model.dearmored(octets, model.USUAL) if b"" < octets[:1] < b"\x80" else [(None, octets)]
    return [(kind, body) for _, _, kind, _, body, _ in model.framed(blocks, model.USUAL)]


def bodies_in(octets):
    return [body for kind, body in packets_in(octets) if kind == 2]


def packet(body, kind=2):
    return bytes([0xC0 | kind, 255]) + model.sized(4, body)


def signature(version, kind, algorithm, number_of_hash, hashed=b"", unhashed=b""):
    """The body of a signature that nobody made."""
    wide = 4 if version == 6 else 2
    five = b"\0\3\5"
    material = {1: five, 17: 2 * five, 19: 2 * five, 22: 2 * five, 27: bytes(64), 28: bytes(114)}.get(algorithm, b"m")
    salt = model.sized(1, bytes({8: 16, 9: 24, 10: 32, 11: 16}[number_of_hash])) if version == 6 else b""
    areas = model.sized(wide, hashed) + model.sized(wide, unhashed)
    return bytes([version, kind, algorithm, number_of_hash]) + areas + b"\0\0" + salt + material


def issuer(key, *, by_id=False):
    """The subpacket that names a key: by its fingerprint, or by its ID."""
    if by_id:
        return b"\x09\x10" + model.key_id(key)
    return bytes([len(model.fingerprint(key)) + 2, 33, key[0]]) + model.fingerprint(key)


def digest_of(it, document):
    """The digest of what a signature hashes; no octets where it hashes nothing."""
    if it.version not in (4, 6) or it.kind > 1 or it.hash not in model.HASHES or (it.kind == 1 and re.search(rb"\r(?!\n)", document)):
        return b""
    shown = re.sub(rb"\r?\n", b"\r\n", document) if it.kind == 1 else document
    behind = it.front + bytes([it.version, 255]) + len(it.front).to_bytes(4, "big")
    return hashlib.new(model.HASHES[it.hash], it.salt + shown + behind).digest()


def place_of_left(body):
    """Where a signature states how its digest begins: behind the area that isn't hashed."""
    it, wide = model.Signature(body), 4 if body[0] == 6 else 2
    return len(it.front) + wide + model.number(body[len(it.front) : len(it.front) + wide])


def fitting(body, document):
    """The signature, which states of its digest what it is."""
    at, left = place_of_left(body), digest_of(model.Signature(body), document)[:2] or b"\0\0"
    return body[:at] + left + body[at + 2 :]


def with_unhashed(body, subpacket):
    """The signature with one more subpacket at the front of the area that isn't hashed."""
    at, wide = len(model.Signature(body).front), 4 if body[0] == 6 else 2
    size = model.number(body[at : at + wide]) + len(subpacket)
    return body[:at] + size.to_bytes(wide, "big") + subpacket + body[at + wide :]


def flipped(octets, at, bit=1):
    return octets[:at] + bytes([octets[at] ^ bit]) + octets[at + 1 :]


def counts_of(found):
    """The exit status and standard error of a run that finds this of its signatures."""
    unbelieved = sum(it.startswith("good unbelieved ") for it in found)
    good, bad, undecided = (sum(it.startswith(word) for it in found) for word in ("good", "bad", "undecided"))
    good -= unbelieved
    unhashed = len(found) - good - unbelieved - bad - undecided
    told = f"opgp-verify: {good} good, {unbelieved} unbelieved, {bad} bad, {undecided} undecided, {unhashed} not hashed\n"
    return int(bad > 0 or good == 0), told


@functools.cache
def merged(keyrings):
    """These keyrings as one, whose certificates of one key are one; and what arithmetic finds of its rows. The program itself is asked,
    which is enough where no critical subpacket is in question, and no revocation is misplaced."""
    octets = b"".join(packet(body, kind) for it in keyrings for kind, body in packets_in(it))
    status, octets, fault = model.answer("merge", octets, bare=True)
    if status:
        raise ValueError(fault)
    lines = run("--policy=any", kept("merged", octets))[1].splitlines()
    return octets, [it if it in (standing.GOOD, standing.BAD) else standing.UNDECIDED for it in (line.split()[-1] for line in lines)]


@functools.cache
def believed(keyrings, body, policy, at):
    """The verdict on a good signature, by the model."""
    why = standing.Keyring(*merged(keyrings), policy).believed(body, standing.GOOD, at)
    return f"good unbelieved {why}" if why else "good"


def wanted(octets, keyrings, document, found, policy="usual", at=None):
    """What a run must end with that finds this of each signature: a verdict, or why it isn't hashed. Of a good one more is said."""
    keys, lines, ends = [body for it in keyrings for kind, body in packets_in(it) if kind in (6, 14)], [], []
    for number, (body, said) in enumerate(zip(bodies_in(octets), found, strict=True)):
        it = model.kept_signature(body)
        said = believed(tuple(keyrings), body, policy, AT if at is None else at) if said == "good" else said
        digest, signer = digest_of(it, document)[:2].hex().upper(), model.signer_of(it, keys) if it.version in (4, 6) else None
        name = model.key_id(signer).hex().upper() if signer else "-"
        asked = f"asked type {it.kind:02X} hash {it.hash} signer {name} digest {digest} verdict {said}"
        lines.append(f"signature {number} : {asked if digest else f'none {said}'}\n")
        ends.append(said)
    status, told = counts_of(ends)
    return status, "".join(lines), told


def holds(name, octets, keyrings, document, found, *words):
    """Whether a run over these signatures, keyrings and document finds that of each signature, and writes no more."""
    given = [f"--keyring={kept(f'keyring{number}', it)}" for number, it in enumerate(keyrings)]
    ended = run("--signature", kept("signature", octets), *given, f"--at={AT}", *words, given=document)
    hoped = wanted(octets, keyrings, document, found, "any" if "any" in words else "usual")
    verdict(name, ended == hoped, (ended, hoped))


# ---- Signatures of others, which are in the repository


class Signed:
    """A document, its signatures with their types, and the keyring of their signers."""

    def __init__(self, name, document, octets, keyring):
        self.name, self.document, self.octets, self.keyring = name, document, octets, keyring
        self.kinds = [body[1] for body in bodies_in(octets)]


def examples():
    """Of both versions and types, by EdDSALegacy, Ed25519 and RSA."""
    a1, a2, a3 = (octets_of(f"{HERE}/examples/rfc9580-{it}.asc") for it in ("a1", "a2", "a3"))
    yield Signed("A.2", b"OpenPGP", a2, a1)
    message = octets_of(f"{HERE}/tests/vectors/standard/a7.asc")
    literal = next(body for kind, body in packets_in(message) if kind == 11)
    yield Signed("A.7", literal[6 + literal[1] :], b"".join(map(packet, bodies_in(message))), a3)
    for version in (4, 6):
        folder = f"{HERE}/tests/vectors/sq"
        suites = octets_of(f"{folder}/suites_{version}.gpg")
        yield Signed(f"sq's of version {version}", OF_SQ, octets_of(f"{folder}/signature_{version}.asc"), suites)
        bodies = bodies_in(octets_of(f"{folder}/signed_by_two_{version}.asc"))
        yield Signed(f"sq's two of version {version}", OF_SQ, b"".join(map(packet, bodies)), suites)


def one_of_sq():
    """One signature, which is to be believed."""
    return next(it for it in examples() if it.name == "sq's of version 4")


def of_others():
    """What RFC 9580 and sq signed is good, armored and not; and not where an octet of it was changed."""
    for it in examples():
        good, bad = ["good"] * len(it.kinds), ["bad"] * len(it.kinds)
        binary = b"".join(map(packet, bodies_in(it.octets)))
        between = MARKER.join([b"", *map(packet, bodies_in(binary)), b""])
        for octets in (it.octets, binary, model.armor(binary, b"SIGNATURE"), between, model.armor(between, b"SIGNATURE")):
            holds(it.name, octets, [it.keyring], it.document, good)
        holds(f"{it.name}, by any policy", binary, [it.keyring], it.document, good, "--policy", "any")
        holds(f"{it.name}, a good one required", binary, [it.keyring], it.document, good, "--require=good")
        for keyrings in ([octets_of(f"{HERE}/tests/vectors/algorithms/rsa_2048.gpg")], [b""]):
            holds(f"{it.name} without a signer", binary, keyrings, it.document, ["undecided absent"] * len(good))
        lines = it.document.replace(b"\r\n", b"\n")
        for document in (lines, lines.replace(b"\n", b"\r\n")):
            found = ["good" if kind == 1 or document == it.document else "bad" for kind in it.kinds]
            holds(f"{it.name} with other line ends", binary, [it.keyring], document, found)
        for at, octet in enumerate(it.document):
            if octet not in b"\r\n":
                holds(f"{it.name}, octet {at} changed", binary, [it.keyring], flipped(it.document, at), bad)
                holds(f"{it.name}, cut at {at}", binary, [it.keyring], it.document[:at], bad)
        document = flipped(it.document, 1)
        octets = b"".join(packet(fitting(body, document)) for body in bodies_in(binary))
        holds(f"{it.name} with left octets that fit another document", octets, [it.keyring], document, bad)
        stray = it.document[:2] + b"\r" + it.document[2:]
        found = ["line-ends" if kind == 1 else "bad" for kind in it.kinds]
        holds(f"{it.name} with a carriage return", binary, [it.keyring], stray, found)


def changed_signatures():
    """No signature with a bit changed is good, but in the area that isn't hashed and in the counts of bits."""
    for it in examples():
        body = bodies_in(it.octets)[0]
        keyring = kept("keyring", it.keyring)
        begin = place_of_left(body)
        free = {*range(len(model.Signature(body).front), begin)}
        material = len(body) - len(model.Signature(body).material)
        if body[2] in (1, 22):  # the counts of bits of integers, which may be off in version 4
            first = (model.number(body[material : material + 2]) + 7) // 8
            free |= {material, material + 1} | ({material + 2 + first, material + 3 + first} if body[2] == 22 else set())
        found = {"good": 0}
        for at in range(len(body)):
            path = kept("signature", packet(flipped(body, at, 1 << at % 8)))
            status, out, told = run("--signature", path, "--keyring", keyring, f"--at={AT}", given=it.document)
            is_good = " verdict good" in out
            fits = (at in free or not is_good) and status == int(not out.endswith(" good\n"))
            verdict(f"{it.name} with octet {at} changed", fits, (status, out, told))
            found["good"] += is_good
        verdict(f"{it.name} with octets changed", found["good"] <= len(free), found)


# ---- Signatures that nobody made


def several():
    """The verdict of each of several signatures is its own, in order; also with more packets between them."""
    key = octets_of(f"{HERE}/examples/rfc9580-a1.asc")
    good = bodies_in(octets_of(f"{HERE}/examples/rfc9580-a2.asc"))[0]
    nameless = good[:12] + b"\0\0" + good[24:]  # names no issuer, as its second area is empty
    old = b"\3\5\0\1\2\3\4" + b"IDENTITY" + b"\x11\x08\xab\xcd\0\1\1\0\1\1"
    bodies = {
        "good": good, "undecided critical": with_unhashed(good, SUBPACKETS["kind"]), "bad": flipped(good, len(good) - 1), "opaque": old,
        "undecided absent": nameless, "kind": signature(4, 0x10, 22, 8), "hash": signature(4, 0, 22, 1),
    }  # fmt: skip
    names = [*bodies]
    for turn in range(len(names)):
        order = names[turn:] + names[:turn]
        for between in (b"", MARKER):
            holds(f"several from {order[0]} on", between.join(packet(bodies[it]) for it in order), [key], b"OpenPGP", order)
        blocks = b"".join(model.armor(packet(bodies[it]), b"SIGNATURE") for it in order)
        holds(f"several blocks from {order[0]} on", blocks, [key], b"OpenPGP", order)
    for order in (names[:2], names[1::-1], ["good", "undecided absent", "opaque", "kind", "hash"], names[3:], [names[1]] * 3 + ["good"]):
        holds(f"several: {order}", b"".join(packet(bodies[it]) for it in order), [key], b"OpenPGP", order)
    for count in (1, 2, 63, 64):
        holds(f"{count} signatures", packet(good) * count, [key], b"OpenPGP", ["good"] * count)
    path, keyring = kept("signature", packet(good) * 65), kept("keyring", key)
    ended = run("--signature", path, "--keyring", keyring, given=b"OpenPGP")
    verdict("65 signatures", ended == (1, "", f"opgp-verify: '{path}': more than 64 signatures\n"), ended)


def critical():
    """A critical subpacket that isn't known, in the area that isn't hashed; gpg makes the others."""
    for it in examples():
        for what, subpacket in SUBPACKETS.items():
            bodies = [with_unhashed(body, subpacket) for body in bodies_in(it.octets)]
            found = ["undecided critical" if what in ("kind", "notation") else "good"] * len(bodies)
            for policy in ("usual", "any"):
                octets = b"".join(map(packet, bodies))
                holds(f"{it.name} with a subpacket, {what}", octets, [it.keyring], it.document, found, "--policy", policy)


def undecided():
    """Signatures that nobody made by keys of each algorithm, whose digests begin as they state; under each policy."""
    def key_in(name):
        octets = octets_of(name if name.startswith("/") else f"{HERE}/tests/vectors/algorithms/{name}.gpg")
        return octets, next(body for kind, body in packets_in(octets) if kind == 6)

    a1, a3 = f"{HERE}/examples/rfc9580-a1.asc", f"{HERE}/examples/rfc9580-a3.asc"
    for name, algorithm, number_of_hash, *found in (
        ("rsa_2048", 1, 8, "bad", "bad"), ("rsa_2048", 1, 2, "undecided weak-hash", "bad"), ("dsa_2048", 17, 9, "bad", "bad"),
        ("rsa_1024", 1, 8, "undecided small-key", "bad"), ("dsa_1024", 17, 8, "undecided small-key", "bad"),
        ("ecdsa_p256", 19, 10, "bad", "bad"), ("ecdsa_brainpool", 19, 11, "bad", "bad"), ("eddsa_legacy", 22, 8, "bad", "bad"),
        ("ecdsa_secp256k1", 19, 8, *["undecided curve"] * 2), (a1, 22, 2, "undecided weak-hash", "bad"), ("ed448", 28, 10, "bad", "bad"),
        (a3, 27, 8, "bad", "bad"), *[(it, 99, 8, *["undecided algorithm"] * 2) for it in ("rsa_2048", a1, a3)],
    ):  # fmt: skip
        keyring, key = key_in(name)
        for kind in (0, 1):
            for areas in ((issuer(key), b""), (b"", issuer(key, by_id=True))):
                for document in (b"", b"x" * 65535, b"x" * 65536, b"x" * 65535 + b"\r\n" + b"y" * 65534 + b"\r\n"):
                    octets = packet(fitting(signature(key[0], kind, algorithm, number_of_hash, *areas), document))
                    for policy, said in zip(("usual", "any"), found):
                        what = f"nobody's by {os.path.basename(name)}, {policy}"
                        holds(what, octets, [keyring], document, [said], "--policy", policy)
    for name, version, algorithm in ((a3, 4, 27), (a3, 4, 22), (a1, 6, 22), (a1, 6, 27)):  # a key ID is of no version
        keyring, key = key_in(name)
        body = fitting(signature(version, 0, algorithm, 8, b"", issuer(key, by_id=True)), b"text")
        holds(f"nobody's of version {version} by a key of the other", packet(body), [keyring], b"text", ["undecided version"])
    key = b"\4" + bytes(4) + b"\x63" + b"unknown"
    body = fitting(signature(4, 0, 0x63, 8, issuer(key)), b"text")
    holds("nobody's of an unknown algorithm", packet(body), [packet(key, 6)], b"text", ["undecided unknown"])
    key = b"\4" + bytes(4) + b"\1" + b"\0\0\0\1\1"
    body = fitting(signature(4, 0, 1, 8, issuer(key)), b"text")
    holds("nobody's by a key of modulus 0", packet(body), [packet(key, 6)], b"text", ["undecided key"])


# ---- Whether a key may be believed

DOCUMENT = b"document\n"  # what is signed in tests/vectors/validity
SIGNED, LATER = READ - 100 * DAY, READ - 50 * DAY  # when it was signed there, and when something changed
# What a line says of a signature that the model finds this of; of any other it says that it is good, and that it is why it isn't believed.
SAID = {None: "good", "bad": "bad", "undecided": "undecided [a-z-]+|kind|opaque|hash", "critical": "(?:undecided|good unbelieved) critical",
        "weak": "undecided (?:weak-hash|small-key)|good unbelieved weak"}  # fmt: skip


@functools.cache
def cases():
    return {it.stem: it for it in standing_cases.vectors()}


def rows_in(octets):
    """What each row of a keyring is: the bodies of its key and its part, the packet's, and its own, which may be embedded in that."""
    outer, found = None, []
    for certificate, part, it, is_embedded in standing.rows(standing.read(octets)):
        outer = outer if is_embedded else it.body
        found.append((certificate[0].body, part.kind, part.body, outer, it.body))
    return found


def known_of(*stems):
    """What arithmetic finds of the rows of these cases, wherever they are; where a signer isn't in one keyring, what it finds in another."""
    known = {}
    for it in map(cases().get, stems):
        for row, said in zip(rows_in(it.octets), it.verdicts, strict=True):
            known[row] = known.get(row, said) if said == standing.UNDECIDED else said
    return known


def certificates_in(octets):
    """The octets of each certificate."""
    found = []
    for kind, body in packets_in(octets):
        if kind == 6:
            found.append(b"")
        found[-1] += packet(body, kind)
    return found


def judges(name, stems, given, at=READ, policy="usual", documents=None):
    """Whether a run over these keyrings, of the packets of these cases, finds of the signatures of the first one what the model does; and
    what it finds."""
    documents, known = documents or cases()[stems[0]].documents, known_of(*stems)
    _, octets, _ = model.answer("merge", b"".join(given), bare=True)
    words = [f"--keyring={kept(f'keyring{number}', it)}" for number, it in enumerate(given)]
    path = kept("signature", b"".join(packet(body) for body, _ in documents))
    whole = run_whole("--signature", path, *words, f"--at={at}", "--policy", policy, given=DOCUMENT)
    ended = whole[0], causes.without(whole[1]), whole[2]
    keyring = standing.Keyring(octets, [known[it] for it in rows_in(octets)], policy)
    whys = [keyring.believed(body, own, at) for body, own in documents]
    found = re.findall(r"^signature \d+ : (?:none|.* verdict) (.*)$", ended[1], re.M)
    fits = len(found) == len(whys) == ended[1].count("\n")
    fits = fits and all(re.fullmatch(SAID.get(why, f"good unbelieved {why}"), it) for why, it in zip(whys, found))
    verdict(name, fits and (ended[0], ended[2]) == counts_of(found), (ended, whys))
    told = [line.partition(" unbelieved ")[2].partition(" ") for line in whole[1].splitlines()]
    of_keys = [causes.words_of(causes.of_document(keyring, body, at)) if why in causes.OF_KEYS and word else "" for (body, _), why, (word, _, _) in zip(documents, whys, told)]
    verdict(f"{name}: causes", [f"{blank}{behind}" for _, blank, behind in told] == of_keys, (whole, of_keys))
    return found


def of_cases():
    """Each case when it is to be read, and earlier, by either policy; and its certificates in keyrings of their own, also in the other order."""
    for stem, it in cases().items():
        if not it.documents:
            continue  # not a list of signatures
        judges(stem, [stem], [it.octets])
        judges(f"{stem}, any policy", [stem], [it.octets], policy="any")
        for at in (SIGNED - 1, SIGNED, (SIGNED + LATER) // 2):
            judges(f"{stem} at {at}", [stem], [it.octets], at)
        them = certificates_in(it.octets)
        if len(them) > 1:
            judges(f"{stem}, several keyrings", [stem], them)
            judges(f"{stem}, several keyrings in the other order", [stem], them[::-1])


# What a terminal is told of a key that isn't believed, by the case, and when it is read.
TOLD = {
    ("key_revoked", READ): "the primary key: it was revoked on DATE",
    ("key_shortened", READ): "the primary key: it had expired on DATE, before the signature was made: get a newer copy of the certificate",
    ("base", SIGNED - 1): "the signature: it was made on DATE, after the present time",
    ("base", READ): None,
}


def terminal_text(mine):
    """What was written to a terminal whose other end is closed."""
    told = b""
    with contextlib.suppress(OSError):  # there is nothing more
        while piece := os.read(mine, 4096):
            told += piece
    os.close(mine)
    return told


def on_a_terminal():
    """On a terminal a line says to people why a key isn't believed, and what to do."""
    for (stem, at), wanted in TOLD.items():
        it = cases()[stem]
        path = kept("signature", b"".join(packet(body) for body, _ in it.documents))
        words = ["--signature", path, f"--keyring={kept('keyring', it.octets)}", f"--at={at}"]
        mine, theirs = os.openpty()
        subprocess.run([PROGRAM, *words], input=DOCUMENT, stdout=subprocess.DEVNULL, stderr=theirs, check=False, timeout=SECONDS)
        os.close(theirs)
        told = terminal_text(mine)
        lines = re.sub(r"\d{4}-\d\d-\d\d", "DATE", told.decode()).splitlines()
        verdict(f"{stem} at {at} on a terminal", lines[1:] == ([f"opgp-verify: {wanted}"] if wanted else []), told)
        status, _, err = run(*words, given=DOCUMENT)
        verdict(f"{stem} at {at}, elsewhere", status == int(wanted is not None) and err.splitlines() == lines[:1], err)


def in_other_places():
    """A revocation counts in whatever copy of the certificate it is, and in whatever keyring; so does an expiry that was made shorter."""
    base = cases()["base"]
    for stem, said in (
        ("key_revoked", "revoked"), ("sub_revoked", "revoked"), ("key_compromised", "revoked"), ("key_retired_before", "revoked"),
        ("revocation_last", "revoked"), ("revocation_in_name", "revoked"), ("revocation_in_sub", "revoked"), ("key_shortened", "expired"),
    ):  # fmt: skip
        other = cases()[stem]
        first = judges(f"{stem} in another keyring", ["base", stem], [base.octets, other.octets])
        for given in ([other.octets, base.octets], [base.octets + other.octets], [other.octets + base.octets], [base.octets] * 3 + [other.octets]):
            found = judges(f"{stem} in another place", ["base", stem], given)
            verdict(f"{stem} in another place: {said}", found == first == [f"good unbelieved {said}"], found)
        verdict(f"{stem} isn't there", judges(f"{stem} isn't there", ["base", stem], [base.octets]) == ["good"])
    for stem, said in (("key_revoked", "good unbelieved revoked"), ("key_revoked_left", "good")):  # behind all; with left octets that don't fit
        body = next(body for kind, body in packets_in(cases()[stem].octets) if kind == 2 and body[1] == standing.REVOCATION)
        words = ["--signature", kept("signature", packet(base.documents[0][0])), "--keyring", kept("keyring", base.octets + packet(body))]
        ended = run(*words, f"--at={READ}", given=DOCUMENT)
        verdict(f"{stem}, behind all", ended[1].endswith(f" verdict {said}\n"), ended)
    them = certificates_in(cases()["revoker_key"].octets)
    for given in (them, them[::-1]):
        found = judges("a revoker in another keyring", ["revoker_key"], given)
        verdict("a revoker in another keyring: revoked", found == ["good unbelieved revoked"], found)
        found = judges("a revoker that isn't there", ["revoker_key"], given[:1])
        verdict("a revoker that isn't there: not revoked", found in (["good"], ["undecided absent"]), found)
    for stem, said in (
        ("twice_second_revoked", "revoked"), ("twice_first_revoked", "revoked"), ("twice_second_sub_revoked", "revoked"),
        ("twice_first_sub_revoked", "revoked"), ("twice_second_expired", "expired"), ("twice_first_expired", "expired"),
        ("sub_twice_first_revoked", "revoked"), ("sub_twice_second_revoked", "revoked"),
    ):  # fmt: skip
        found = judges(stem, [stem], [cases()[stem].octets])
        verdict(f"{stem}: {said}, since keyrings are merged", found == [f"good unbelieved {said}"], found)
    both = [judges("a key in two places", [stem], [cases()[stem].octets]) for stem in ("bound_in_second", "sub_of_other_revoked")]
    verdict("a key that stands in one of two places", both == [["good"], ["good"]], both)
    them = certificates_in(cases()["sub_of_other"].octets)
    revoked = next(it for it in certificates_in(cases()["revoker_revoked"].octets) if packets_in(it)[0] == packets_in(them[1])[0])
    whys = [judges("a key that stands in neither", ["sub_of_other", "revoker_revoked"], [*given, revoked]) for given in (them, them[::-1])]
    verdict("a key that stands in neither: what is so of the first", whys == [["good unbelieved unbound"], ["good unbelieved revoked"]], whys)


def moments():
    """A key that expires: before and behind the end of its last second; each way to say when."""
    for stem in ("key_expired_after", "sub_expired_after"):
        it = cases()[stem]
        days = [number for number in range(101) if judges(f"{stem} at day {number}", [stem], [it.octets], SIGNED + number * DAY) == ["good"]]
        end = SIGNED + (days[-1] + 1) * DAY
        verdict(f"{stem} goes from good to expired", days == [*range(len(days))] and 0 < len(days) < 101, days)
        for at, said in ((SIGNED - 1, "good unbelieved future"), (SIGNED, "good"), (end - 1, "good"), (end, "good unbelieved expired")):
            date = time.strftime("%Y-%m-%dT%H:%M:%SZ", time.gmtime(at))
            for given in (str(at), f"0{at}", f"@{at}", date, *[date[:10]] * (at % DAY == 0)):
                verdict(f"{stem} at {given}: {said}", judges(f"{stem} at {given}", [stem], [it.octets], at) == [said])
                words = ["--signature", f"{ROOM}/signature", "--keyring", f"{ROOM}/keyring0", "--at", given]
                verdict(f"{stem} at {given}, shown", run(*words, given=DOCUMENT)[1].endswith(f" verdict {said}\n"))
    base = cases()["base"]
    ended = [run(*words, given=DOCUMENT) for words in [[f"--signature={kept('signature', packet(base.documents[0][0]))}", f"--keyring={kept('keyring', base.octets)}", *at]
                                                         for at in ([], ["--at", str(int(time.time()))])]]
    verdict("the clock is read", ended[0] == ended[1], ended)


def of_one_key():
    """64 signatures by one key, and by several; what is good and believed counts, whatever else there is."""
    base, bad = cases()["base"].documents, [(flipped(body, len(body) - 1), standing.BAD) for body, _ in cases()["base"].documents]
    for count in (2, 63, 64):
        verdict(f"{count} by one key", judges(f"{count} by one key", ["base"], [cases()["base"].octets], documents=base * count) == ["good"] * count)
    mixed = judges("good and bad by one key", ["base"], [cases()["base"].octets], documents=(base + bad) * 32)
    verdict("good and bad by one key, in order", mixed == ["good", "bad"] * 32, mixed)
    stems = [stem for stem, it in cases().items() if it.documents][:40]
    many = [it for stem in stems for it in cases()[stem].documents][:64]
    judges("many by several keys", stems, [cases()[stem].octets for stem in stems], documents=many)
    other = cases()["key_revoked"]
    v6 = next(it for stem, it in cases().items() if stem.startswith("v6_") and it.expected == [None])
    stems = ["key_revoked", v6.stem]
    for documents, said in (
        (other.documents, ["good unbelieved revoked"]), (other.documents + v6.documents, ["good unbelieved revoked", "good"]),
        (v6.documents + other.documents, ["good", "good unbelieved revoked"]), (other.documents * 2 + bad, ["good unbelieved revoked"] * 2 + ["bad"]),
    ):  # fmt: skip
        found = judges(f"several: {said}", stems, [other.octets, v6.octets], documents=documents)
        verdict(f"several are {said}", found == said, found)


def crowd(count):
    """So many certificates of other keys, each with a signature that nobody made, whose digest begins as it states."""
    key = next(body for kind, body in packets_in(cases()["base"].octets) if kind == 6)
    for number in range(count):
        other = key[:1] + number.to_bytes(4, "big") + key[5:]
        body = signature(4, 0x1F, 22, 8, b"\5\2" + (number + 1).to_bytes(4, "big") + issuer(other))
        body = body[: -len(model.Signature(body).material)] + b"\1\0" + b"\x80" * 32 + b"\0\xfc" + b"\x08" * 32
        left = hashlib.sha256(model.asked_there(body, None, other, None)[1]).digest()[:2]
        at = place_of_left(body)
        yield packet(other, 6) + packet(body[:at] + left + body[at + 2 :])


def in_a_crowd():
    """In a large keyring only the signer's certificates are verified, and once, however many signatures and keyrings there are."""
    library = f"{ROOM}/verifications.so"
    made = subprocess.run(["cc", "-O1", "-shared", "-fPIC", "-o", library, f"{HERE}/tests/lib/verifications.c", "-ldl"], capture_output=True,
                          check=False)
    verdict("tests/lib/verifications.c", made.returncode == 0, made.stderr)
    path = kept("crowd", b"".join(crowd(3000)))
    ended, count = counted(library, ["--policy=any", "--jobs=1", path])
    verdict("a large keyring", ended[1].count(" verdict bad\n") == count == 3000, (count, ended[2]))
    debian = [it for it in DEBIAN if os.path.exists(it)][:1]
    for stem, said in (("base", "good"), ("revoker_key", "good unbelieved revoked")):
        it = cases()[stem]
        keyring, own = kept("keyring", it.octets), certificates_in(it.octets)
        name = issuer_in(it.documents[0][0])
        signer = next(key for key in own if name in [body[:1] + model.fingerprint(body) for kind, body in packets_in(key) if kind in (6, 14)])
        primary = packets_in(signer)[0][1]
        rows = sum(row[0] == primary and found != standing.UNDECIDED for row, found in known_of(stem).items())
        for signatures in (1, 64):  # equal ones are asked once
            words = ["--signature", kept("signature", packet(it.documents[0][0]) * signatures), f"--at={READ}"]
            for them in ([path, keyring], [keyring, path], [path, keyring, path, keyring], [*debian, keyring]):
                ended, count = counted(library, [*words, *(f"--keyring={it}" for it in them)])
                fits = ended[1].count(f" verdict {said}\n") == signatures and count == 1 + rows
                verdict(f"{stem}: {signatures} signatures, keyrings {them}", fits, (count, 1 + rows, ended[2]))
    once(library)


def once(library):
    """libcrypto is asked once about each signature: of equal ones, however often they are judged, and of those that differ about each."""
    born = int(time.time()) - 10 * DAY
    key = signers.ed25519("one", born)
    ring, rows = kept("ring", signers.certificate(key, b"One")), 1
    gpgv = f"{ROOM}/opgp-gpgv"
    if not os.path.exists(gpgv):
        os.symlink(PROGRAM, gpgv)
    soon = [signers.over(key, DOCUMENT, int(time.time()) + 3600 + number) for number in range(64)]
    past = [signers.over(key, DOCUMENT, born + DAY + number) for number in range(64)]
    other = [with_unhashed(body, SUBPACKETS["usual"]) for body in bodies_in(past[0])]
    weak = [with_unhashed(body, SUBPACKETS["kind"]) for body in bodies_in(past[0])]
    for title, octets, said, asked in (
        ("64 that differ", past, ["good"] * 64, 64), ("two of each", [it for it in past[:32] for _ in (0, 1)], ["good"] * 64, 32),
        ("one and another, in turn", past[:2] * 32, ["good"] * 64, 2), ("64 of the future", soon, ["good unbelieved future"] * 64, 64),
        # What differs isn't signed, and changes nothing, or all.
        ("one with another subpacket", [past[0], packet(other[0]), past[0]], ["good"] * 3, 1),
        ("one with a critical subpacket", [past[0], packet(weak[0]), past[0]], ["good", "undecided critical", "good"], 1),
    ):
        path = kept("signature", b"".join(octets))
        ended, count = counted(library, ["--signature", path, "--keyring", ring])
        found = re.findall(r" verdict (.*)\n", ended[1])
        verdict(f"once: {title}", found == said and count == asked + rows, (count, asked + rows, found, ended[2]))
        for words, good in (([], said.count("good")), (["--ignore-time-conflict"], len(said) - said.count("undecided critical"))):
            ended, count = counted(library, [*words, "--status-fd=1", "--keyring", ring, path, "-"], started=gpgv)
            verdict(f"once: {title}, by opgp-gpgv {words}", ended[1].count(" GOODSIG ") == good and count == asked + rows, (count, asked + rows, ended))
    # Where nothing binds a key to a certificate, that isn't looked at, but for the first place, which says why.
    keyring, octets = placed(50)
    ended, count = counted(library, ["--signature", kept("signature", octets), "--keyring", kept("ring", keyring), f"--at={READ}"])
    verdict("once: of 51 places the first and the last", ended[1].endswith(" verdict good\n") and count == 1 + 1 + 3, (ended, count))


# ---- Many places


def placed(places):
    """A keyring of so many strangers' certificates, each with a copy of one subkey that signs, which it doesn't bind; behind them the one that does.
    And a signature by that subkey."""
    born = READ - 100 * DAY
    primary, sub = signers.ed25519("primary", born), signers.ed25519("sub", born)
    strangers = (signers.certificate(signers.ed25519(f"stranger {number}", born), b"Stranger %d" % number) for number in range(places))
    ring = b"".join(it + packet(sub.body, 14) for it in strangers) + signers.certificate(primary, b"Signer", signers.subkey(primary, sub, born))
    return ring, signers.over(sub, DOCUMENT, born + DAY)


def spent(program, *words):
    """The end of a run over the document, and the processor seconds that it took: the least of three."""
    least = float("inf")
    for _ in range(3):
        before = processor_seconds()
        ended = subprocess.run([program, *words], input=DOCUMENT, capture_output=True, check=False, timeout=SECONDS)
        least = min(least, processor_seconds() - before)
    return ended, least


def in_many_places():
    """A key that is in many places, and many signatures by it: the time grows with their sum, and is little."""
    gpgv = f"{ROOM}/opgp-gpgv"
    if not os.path.exists(gpgv):
        os.symlink(PROGRAM, gpgv)
    for places, signatures, most in ((40, 64, 1), (2000, 1, 1), (2000, 64, 1.5)):
        ring, octets = placed(places)
        keyring, path = kept("keyring", ring), kept("signature", octets * signatures)
        ended, seconds = spent(PROGRAM, "--signature", path, "--keyring", keyring, f"--at={READ}")
        said = ended.stdout.decode().count(" verdict good\n")
        verdict(f"{places} places, {signatures} signatures", said == signatures and seconds < most, (ended.stderr, seconds))
        ended, seconds = spent(gpgv, "--ignore-time-conflict", "--status-fd=1", "--keyring", keyring, path, "-")
        named = ended.stdout.decode().count(" GOODSIG ") == ended.stdout.decode().count(" Signer\n") == signatures
        verdict(f"{places} places, {signatures} signatures, by opgp-gpgv", ended.returncode == 0 and named and seconds < most, (ended.stderr[-300:], seconds))


def issuer_in(body):
    """The fingerprint that a signature names first, behind its version."""
    return next(octets for octet, _, octets in model.Signature(body).hashed if octet & 127 == 33)


def counted(library, words, started=None):
    """The end of a run over the document, and what a preloaded library counts."""
    with tempfile.TemporaryFile() as told:
        os.dup2(told.fileno(), 9)
        ended = run(*words, given=DOCUMENT, env={**os.environ, "LD_PRELOAD": library}, pass_fds=(9,), started=started)
        os.close(9)
        told.seek(0)
        return ended, int(told.read() or 0)


# ---- Inputs


def keyrings():
    """Several keyrings are one."""
    first, second = (next(it for it in examples() if it.name == name) for name in ("sq's two of version 4", "A.2"))
    none = octets_of(f"{HERE}/tests/vectors/algorithms/dsa_2048.gpg")
    its = first.keyring
    for them in ([none, its], [its, none], [b"", none, b"", its, b""], [its, its], [none] * 9 + [its], [none] * 4 + [its] + [none] * 2):
        holds(f"{len(them)} keyrings", first.octets, them, first.document, ["good"] * 2)
    armored = model.armor(its)
    holds("an armored keyring and others", first.octets, [second.keyring, armored, none], first.document, ["good"] * 2)
    holds("keyrings of one signer alone", second.octets, [none, second.keyring], second.document, ["good"])


def streams():
    """Each input in turn is standard input; no two are."""
    it = one_of_sq()
    signatures, keyring, document = kept("signature", it.octets), kept("keyring", it.keyring), kept("document", it.document)
    good = wanted(it.octets, [it.keyring], it.document, ["good"], at=int(time.time()))
    for words, given in (
        (["--signature", signatures, "--keyring", keyring, document], b"no document"),
        (["--signature", signatures, "--keyring", keyring], it.document),
        (["--signature", signatures, "--keyring", keyring, "-"], it.document),
        (["--keyring", keyring, "-", "--signature", signatures], it.document),
        (["--signature", "-", "--keyring", keyring, document], it.octets),
        (["--signature=-", document, "--keyring", keyring], it.octets),
        (["--signature", signatures, "--keyring", "-", document], it.keyring),
        ([document, "--keyring=-", f"--signature={signatures}"], it.keyring),
        (["--signature", signatures, "--keyring", keyring, "--keyring", "-", "--", document], it.keyring),
        (["--signature", signatures, f"--keyring={keyring}", "--policy=any", "--require", "good", "--", "-"], it.document),
    ):
        ended = run(*words, given=given)
        verdict(f"inputs of {words}", ended == good, (ended, good))
    words = [PROGRAM, "--signature", signatures, "--keyring", keyring]
    with open(signatures, "rb") as source:
        ended = subprocess.run([*words, document], stdin=source, capture_output=True, check=False)
        verdict("standard input that isn't read", (ended.returncode, source.tell()) == (0, 0), ended)
    ended = subprocess.run(words, stdin=subprocess.DEVNULL, capture_output=True, check=False)
    none = wanted(it.octets, [it.keyring], b"", ["bad"])
    verdict("an empty standard input", (ended.returncode, ended.stdout.decode(), ended.stderr.decode()) == none, ended)
    where = kept("-", it.document)
    ended = run("--signature", signatures, "--keyring", keyring, "./-", given=b"", cwd=os.path.dirname(where))
    verdict("a document in a file of the name -", ended == good, ended)


def command_lines():
    """What is no command line for a document."""
    multiple = "error: standard input '-' cannot be used multiple times: it is the document if there is no other"
    wanting = "error: the following required arguments were not provided:\n  "
    twice = "error: the argument '--signature <SIG>' cannot be used multiple times"
    for words, said in (
        ("--signature x", f"{wanting}--keyring <FILE>"), ("--signature x y", f"{wanting}--keyring <FILE>"),
        ("--keyring x", f"{wanting}--signature <SIG>"), ("--keyring x --keyring y z --policy any", f"{wanting}--signature <SIG>"),
        ("--signature - --keyring x", multiple), ("--signature - --keyring x -", multiple), ("--signature - --keyring - x", multiple),
        ("--signature x --keyring -", multiple), ("--signature x --keyring y --keyring - -", multiple),
        ("--signature x --keyring - --keyring - y", multiple), ("--signature - --keyring - -", multiple),
        ("--signature /dev/stdin --keyring x", multiple), ("--signature x --keyring /dev/fd/0 /proc/self/fd/0", multiple),
        ("--signature x --keyring y -- - z", "error: unexpected argument 'z' found"), ("--signature x --signature", twice),
        ("--signature x --signature y --keyring z", twice), ("--signature x --keyring y a b", "error: unexpected argument 'b' found"),
        ("--keyring x --keyrings", "error: unexpected argument '--keyrings' found"),
        ("--signature x --keyring y --require good --require=good", twice.replace("signature <SIG>", "require <WHAT>")),
    ):
        ended = run(*words.split())
        verdict(f"words {words}", ended == (2, "", said + USAGE + MORE), ended)
    for words, name in (
        ("--signature", "signature <SIG>"), ("--signature=", "signature <SIG>"), ("--signature --keyring x", "signature <SIG>"),
        ("--keyring", "keyring <FILE>"), ("--keyring=", "keyring <FILE>"), ("--signature x --keyring", "keyring <FILE>"),
        ("--signature x --keyring y --keyring=", "keyring <FILE>"), ("--signature x --keyring -- y", "keyring <FILE>"),
    ):  # fmt: skip
        ended = run(*words.split())
        verdict(f"words {words}", ended == (2, "", f"error: a value is required for '--{name}' but none was supplied\n{MORE}"), ended)
    ended = run("--signature", "", "--keyring", "x")
    verdict("an empty name", ended == (2, "", f"error: a value is required for '--signature <SIG>' but none was supplied\n{MORE}"), ended)
    ended = run("--signature", "x", "--keyring", "y", "--policy", "some")
    said = f"error: invalid value 'some' for '--policy <POLICY>'\n  [possible values: usual, any, none]\n{MORE}"
    verdict("no such policy", ended == (2, "", said), ended)
    for value in ("0", "65", "00", "065", "+4", "-1", "4x", "x", "0x4", "1.5", " 4", "4 ", "18446744073709551617", "9" * 40):
        ended = run(f"--jobs={value}", "--signature", "x", "--keyring", "y")
        said = f"error: invalid value '{value}' for '--jobs <N>': {value} is not in 1..=64\n{MORE}"
        verdict(f"{value} jobs", ended == (2, "", said), ended)
    for value in ("1", "9", "10", "64", "01", "064"):
        ended = run("--jobs", value, "--signature", f"{ROOM}/none", "--keyring", "y")
        verdict(f"{value} jobs", ended == (3, "", f"opgp-verify: can't read '{ROOM}/none': No such file or directory\n"), ended)
    for value in (
        "now", "x", "1.5", "1e9", "0x10", "+1", " 1", "1 ", "1795132800s", "9" * 19, "9" * 40, "2026-", "2026-11", "2026-11-31", "2026-13-01", "2026-00-01",
        "2026-11-00", "2023-02-29", "2100-02-29", "2026-1-1", "2026-11-20 ", " 2026-11-20", "2026-11-20T", "2026-11-20T08:30", "2026-11-20T08:30:00",
        "2026-11-20T08:30Z", "2026-11-20 08:30:00Z", "2026-11-20T08:30:00z", "2026-11-20T24:00:00Z", "2026-11-20T08:60:00Z", "2026-11-20T23:59:60Z",
        "2026-11-20T8:30:00Z", "2026-11-20T08:30:00+01:00", "2026-11-20T08:30:00.5Z", "20261120T083000Z", "1969-12-31", "0000-01-01", "10000-01-01",
        "2026/11/20", "20-11-2026", "2026-11-20T08:30:00ZZ", "99999-01-01",
    ):  # fmt: skip
        ended = run("--at", value, "--signature", "x", "--keyring", "y")
        said = f"error: invalid value '{value}' for '--at <TIME>': {value} is no time: seconds since 1970 or a date, 2026-11-20T08:30:00Z\n{MORE}"
        verdict(f"at {value}", ended == (2, "", said), ended)
    for value in ("20261120", "19700101", "00000101", "99991231"):
        said = f"error: invalid value '{value}' for '--at <TIME>': {value} may be a date: write that with hyphens, and seconds since 1970 behind an @\n{MORE}"
        verdict(f"at {value}", run("--at", value, "--signature", "x", "--keyring", "y") == (2, "", said))
    for value in ("0", "1", "2026", "20261301", "20261132", "020261120", "@20261120", "@0", "1795132800", "9" * 18, "1970-01-01", "2024-02-29", "2026-11-20", "2026-11-20T08:30:00Z", "9999-12-31T23:59:59Z", "2106-02-07T06:28:16Z"):
        for words in (["--at", value], [f"--at={value}"]):
            ended = run(*words, "--signature", f"{ROOM}/none", "--keyring", "y")
            verdict(f"at {value}", ended == (3, "", f"opgp-verify: can't read '{ROOM}/none': No such file or directory\n"), ended)
    for words, said in (
        ("--at", "a value is required for '--at <TIME>' but none was supplied"), ("--at=", "a value is required for '--at <TIME>'"),
        ("--at -1", "a value is required for '--at <TIME>'"), ("--signature x --at --keyring y", "a value is required for '--at <TIME>'"),
        ("--at 1 --at 1", "the argument '--at <TIME>' cannot be used multiple times"), ("--at1", "unexpected argument '--at1' found"),
        ("--at 1", "the argument '--at <TIME>' cannot be used without '--signature <SIG>'"),
        ("--at 1 x", "the argument '--at <TIME>' cannot be used without '--signature <SIG>'"),
        ("--keyring x --at=2026-11-20", "the argument '--at <TIME>' cannot be used without '--signature <SIG>'"),
        ("--at 1 --signature x", "the following required arguments were not provided:\n  --keyring <FILE>"),
    ):  # fmt: skip
        ended = run(*words.split())
        verdict(f"words {words}", ended[:2] == (2, "") and f"error: {said}" in ended[2], ended)
    for words, said in (
        ("--jobs", "a value is required for '--jobs <N>' but none was supplied"), ("--jobs=", "a value is required for '--jobs <N>'"),
        ("--jobs -1", "a value is required for '--jobs <N>' but none was supplied"), ("--jobs --jobs", "a value is required for '--jobs"),
        ("--jobs 4 --jobs 4", "the argument '--jobs <N>' cannot be used multiple times"), ("--job 4", "unexpected argument '--job' found"),
        ("--jobs4", "unexpected argument '--jobs4' found"), ("-j 4", "unexpected argument '-j' found"),
        ("--hints", "a value is required for '--hints <WHEN>' but none was supplied"), ("--hints odd", "invalid value 'odd' for '--hints <WHEN>'"),
        ("--quiet --quiet", "the argument '--quiet' cannot be used multiple times"), ("--quiet=1", "unexpected argument '--quiet=1' found"),
    ):
        ended = run(*words.split())
        verdict(f"words {words}", ended[:2] == (2, "") and f"error: {said}" in ended[2], ended)
    status, out, told = run("--help")
    usage = USAGE.replace("Usage:", "      ").strip("\n")
    verdict("the help", (status, out) == (2, "") and "\nOf a keyring good is arithmetic: " in told and f"[FILE]\n{usage}\n" in told, told)
    verdict("the help of --signature", run("--signature", "x", "-h") == (2, "", told))
    shown = re.findall(r"^ +(?:-\w, )?--(\w+)(?: <\w+>)?  +\w", told, re.M)
    verdict("the options in the help", shown == ["signature", "cleartext", "output", "keyring", "state", "verdicts", "at", "policy", "require", "malformed", "hints", "quiet", "jobs", "version", "help"], shown)


def refused():
    """Files that aren't there, can't be read, or aren't signatures or keyrings; the first of them is told."""
    it = next(examples())
    names = {"signature": kept("signature", it.octets), "keyring": kept("keyring", it.keyring), "document": kept("document", it.document)}
    for which in names:
        other = f"{names[which]}/x"
        for path, why in ((f"{ROOM}/none", "No such file or directory"), (ROOM, "Is a directory"), (other, "Not a directory")):
            now = {**names, which: path}
            ended = run("--signature", now["signature"], "--keyring", now["keyring"], now["document"])
            verdict(f"a {which} that is none: {why}", ended == (3, "", f"opgp-verify: can't read '{path}': {why}\n"), ended)
    ended = run("--signature", names["signature"], "--keyring", names["keyring"], "--keyring", f"{ROOM}/none", f"{ROOM}/neither")
    verdict("a second keyring that is none", ended == (3, "", f"opgp-verify: can't read '{ROOM}/none': No such file or directory\n"), ended)
    binary = packet(bodies_in(it.octets)[0])
    faults = [
        (b"", "composition: NotASignature block 0 at 0 inner 0"), (it.document, "armor: NoBlock block 0 at 7 inner 0"),
        (it.keyring, "composition: BlockLabel block 0 at 0 inner 0"),
        (packet(it.document, 13), "composition: NotASignature block 0 at 0 inner 0"),
        (binary + packet(b"b\0\0\0\0\0", 11), f"composition: NotASignature block 0 at {len(binary)} inner 0"),
        (packet(b"\4\0\x16\x08\0\1"), "body: AreaShort block 0 at 0 inner 4"),
        (it.octets[:-9], "armor: EndLabel block 0 at 161 inner 0"),
    ]  # fmt: skip
    for octets, fault in faults:
        path = kept("other", octets)
        ended = run("--signature", path, "--keyring", names["keyring"], names["document"])
        verdict(f"no signature: {fault}", ended == (1, "", f"opgp-verify: '{path}': {fault}\n"), ended)
        ended = run("--signature", "-", "--keyring", f"{ROOM}/none", names["document"], given=octets)
        verdict(f"no signature on standard input: {fault}", ended == (1, "", f"opgp-verify: '-': {fault}\n"), ended)
    for end in range(len(binary)):
        status, out, told = run("--signature", kept("other", binary[:end]), "--keyring", names["keyring"], given=it.document)
        is_told = told.startswith(f"opgp-verify: '{ROOM}/other': ")
        verdict(f"a signature cut at {end}", (status, out) == (1, "") and is_told, (status, out, told))
    for octets, fault in ((it.octets, "composition: BlockLabel block 0 at 0 inner 0"), (it.document, "armor: NoBlock block 0 at 7 inner 0"),
                          (binary, "composition: NoPrimary block 0 at 0 inner 0"), (b"\xc6\1\3", "body: KeyVersion block 0 at 0 inner 0")):
        path = kept("other", octets)
        for them in ([path], [names["keyring"], path], [path, names["keyring"]]):
            ended = run("--signature", names["signature"], *(f"--keyring={it}" for it in them), names["document"])
            verdict(f"no keyring: {fault}", ended == (1, "", f"opgp-verify: '{path}': {fault}\n"), ended)


def devices():
    """A full or closed standard output; a closed standard input; a full or closed standard error, which changes nothing."""
    it = one_of_sq()
    signatures, keyring, document = kept("signature", it.octets), kept("keyring", it.keyring), kept("document", it.document)
    words = [PROGRAM, "--signature", signatures, "--keyring", keyring, f"--at={AT}"]
    with open("/dev/full", "wb") as full:
        ended = subprocess.run([*words, document], stdout=full, stderr=subprocess.PIPE, check=False)
        verdict("a full standard output", (ended.returncode, ended.stderr) == (3, b"opgp-verify: write failed\n"), ended)
        ended = subprocess.run([*words, document], stdout=subprocess.PIPE, stderr=full, check=False)
        verdict("a full standard error", ended.returncode == 0 and ended.stdout.endswith(b" good\n"), ended)
    shell = shlex.join(words)
    for ends, status, out, told in (
        (f"{document} >&-", 3, False, "write failed"), (f"{document} 2>&-", 0, True, ""), (f"{document} <&-", 0, True, " 1 good, 0 unbelieved, 0 bad, "),
        ("<&-", 3, False, "can't read '-': Bad file descriptor"), (f"{document} <&- >&- 2>&-", 3, False, ""),
    ):
        ended = subprocess.run(["sh", "-c", f"{shell} {ends}"], stdin=subprocess.DEVNULL, capture_output=True, check=False)
        fits = ended.returncode == status and ended.stdout.endswith(b" good\n") == out and told in ended.stderr.decode()
        verdict(f"standard streams {ends.replace(document, '')}", fits and bool(ended.stdout) == out, ended)
    for path, octets in ((signatures, it.octets), (keyring, it.keyring), (document, it.document)):
        verdict(f"{os.path.basename(path)} is as it was", octets_of(path) == octets)


# ---- Memory


def most_memory(*words):
    """The status of a run, and the most memory that it took, in KiB."""
    with subprocess.Popen([PROGRAM, *words], stdout=subprocess.DEVNULL, stderr=subprocess.DEVNULL, stdin=subprocess.DEVNULL) as it:
        _, status, used = os.wait4(it.pid, 0)
        it.returncode = os.waitstatus_to_exitcode(status)
        return it.returncode, used.ru_maxrss


def memory():
    """A document takes no memory, whatever its size."""
    it = next(examples())
    words = ["--signature", kept("signature", it.octets), "--keyring", kept("keyring", it.keyring)]
    path, told = kept("document", b""), []
    for size in (1, 128 << 20):
        os.truncate(path, size)
        told.append(most_memory(*words, path))
    os.truncate(path, 0)
    verdict("memory over a large document", told[1][0] == told[0][0] == 1 and told[1][1] <= told[0][1] + 1024, told)


def memory_wanting():
    """Where an allocation fails, the program says that memory ran out, and writes no line; or all is as ever."""
    library = f"{ROOM}/refuse.so"
    made = subprocess.run(["cc", "-O1", "-shared", "-fPIC", "-o", library, f"{HERE}/tests/lib/refuse.c"], capture_output=True, check=False)
    verdict("tests/lib/refuse.c", made.returncode == 0, made.stderr)
    it = next(it for it in examples() if it.name == "sq's two of version 4")
    bodies = bodies_in(it.octets)
    path = kept("signature", b"".join(map(packet, [*bodies, with_unhashed(bodies[0], SUBPACKETS["notation"])])))
    a1, found = f"{HERE}/examples/rfc9580-a1.asc", ["good", "good", "undecided critical"]
    words = ["--signature", path, "--keyring", a1, "--keyring", kept("keyring", it.keyring), f"--at={AT}", kept("document", it.document)]
    usual = run(*words)
    verdict("a run over a document", usual == wanted(octets_of(path), [octets_of(a1), it.keyring], it.document, found), usual)
    all_refused("a document", library, words, usual)
    # Also where somebody else revoked the key, and where a revocation is behind another part than it is over.
    for stem in ("revoker_key", "revocation_last"):
        octets = [cases()[stem].octets, b"".join(packet(body) for body, _ in cases()[stem].documents)]
        words = ["--signature", kept("signature", octets[1]), "--keyring", kept("keyring", octets[0]), f"--at={READ}", kept("document", DOCUMENT)]
        usual = run(*words)
        verdict(f"a run over {stem}", usual[0] == 1 and usual[1].endswith(" good unbelieved revoked\n"), usual)
        all_refused(stem, library, words, usual, 400)
    # Also of a keyring: without memory for its subpackets no signature with a critical one is good.
    packets = packets_in(octets_of(f"{HERE}/tests/vectors/algorithms/rsa_2048.gpg"))
    octets = b"".join(packet(with_unhashed(body, SUBPACKETS["kind"]) if kind == 2 else body, kind) for kind, body in packets)
    words = [kept("critical", octets)]
    usual = run(*words)
    verdict("a run over a keyring", usual[0] == 0 and usual[1].count(" undecided critical\n") == 2, usual)
    all_refused("a keyring", library, words, usual)
    # And where several threads take memory at once.
    words = ["--jobs=4", "--policy=any", kept("copies", copies(12)[0])]
    usual = run(*words)
    verdict("a run over copies of keyrings", usual[0] == 1 and len(usual[1].split(" verdict ")) > 256, usual[2])
    all_refused("copies of keyrings", library, words, usual, 100)


def all_refused(what, library, words, usual, near=300):
    """Fails each allocation near the begin and the end of a run in turn, and of those between, which are libcrypto's, some."""
    count = refusing(library, 0, words)[1]
    verdict(f"allocations over {what}", count > 100, count)
    for number in sorted({*range(1, near), *range(near, count, max(1, count // 200)), *range(max(1, count - near), count + 2)}):
        ended, _ = refusing(library, number, words)
        is_told = re.fullmatch("opgp-verify: (out of memory|can't read '.*': Cannot allocate memory)\n", ended[2])
        verdict(f"{what}, allocation {number} refused", ended == usual or (ended[:2] == (3, "") and is_told), ended)


def refusing(library, number, words):
    """The end of a run where the allocation of this number fails, and how many it makes."""
    with tempfile.TemporaryFile() as told:
        os.dup2(told.fileno(), 9)
        ended = run(*words, env={**os.environ, "LD_PRELOAD": library, "REFUSE": str(number)}, pass_fds=(9,))
        os.close(9)
        told.seek(0)
        return ended, int(told.read() or 0)


# ---- Threads

JOBS = (1, 2, 3, 4, 64)
DEBIAN = ("/usr/share/keyrings/debian-keyring.gpg", "/usr/share/keyrings/debian-keyring.pgp")


@functools.cache
def of_algorithms():
    """Certificates of each algorithm: the packets of each, and what is found of its rows by either policy."""
    with open(f"{HERE}/tests/vectors/algorithms/verdicts.txt", encoding="ascii") as it:
        told = [re.split(r" *\| *", line.strip()) for line in it if line[0] != "#"]
    return [(packets_in(octets_of(f"{HERE}/tests/vectors/algorithms/{name}.gpg")), [it.split(" ; ") for it in found]) for name, *found in told]


def copies(count):
    """A keyring that has those certificates so many times, what is found of its rows by either policy, and of how many rows a key is asked.
    The first signature in one of three copies was changed; in another it states of its digest what isn't so, and no key is asked."""
    octets, found, asked = b"", {"usual": [], "any": []}, 0
    for number in range(count):
        for packets, rows in of_algorithms():
            packets = [*packets]
            at = next(at for at, (kind, _) in enumerate(packets) if kind == 2)
            body = packets[at][1]
            packets[at] = 2, (body, flipped(body, len(body) - 1), flipped(body, place_of_left(body)))[number % 3]
            octets += b"".join(packet(body, kind) for kind, body in packets)
            for policy, (first, *others) in zip(found, rows):
                found[policy] += ["bad" if number % 3 == 2 or (number % 3 == 1 and first == "good") else first, *others]
            asked += len(rows[0]) - (number % 3 == 2)
    return octets, found, asked


def threads():
    """With any number of threads the same is written, octet for octet."""
    for count in (1, 5, 12, 30):
        octets, found, _ = copies(count)
        path = kept("copies", octets)
        for policy, wanted_rows in found.items():
            usual = run("--policy", policy, "--jobs=1", path)
            verdict(f"{count} copies, {policy}", re.findall(r" verdict (.*)\n", usual[1]) == wanted_rows, usual)
            for jobs in (*JOBS, None):
                ended = run("--policy", policy, *([f"--jobs={jobs}"] if jobs else []), path)
                verdict(f"{count} copies, {policy}, by {jobs or 'the usual'} jobs", ended == usual, (ended[0], ended[2]))
    for octets in (b"", packet(b"text", 13), octets_of(f"{HERE}/examples/rfc9580-a1.asc"), b"\xcd\1a", b"\xc6\1\3"):
        path = kept("other", octets)
        told = {run("--jobs", str(jobs), path) for jobs in JOBS}
        verdict(f"{octets[:20]} by any number of jobs", len(told) == 1, told)
    it = next(examples())
    good = bodies_in(it.octets)[0]
    them, found = (packet(good) + packet(flipped(good, len(good) - 1))) * 32, ["good", "bad"] * 32
    for jobs in JOBS:
        holds(f"64 signatures, {jobs} jobs", them, [it.keyring], it.document, found, "--jobs", str(jobs))


def debian_keyring():
    """Debian's keyring by any number of threads."""
    path = next(filter(os.path.exists, DEBIAN), None)
    if not path:
        left_out("Debian's keyring (debian-keyring)")
        return
    for policy, several_jobs in (("usual", (4,)), ("any", JOBS[1:])):
        usual = run("--policy", policy, "--jobs=1", path)
        verdict(f"Debian's keyring, {policy}", usual[0] in (0, 1) and usual[1].count(" good\n") > 10_000, usual[2])
        for jobs in several_jobs:
            ended = run("--policy", policy, f"--jobs={jobs}", path)
            verdict(f"Debian's keyring, {policy}, by {jobs} jobs", ended == usual, (ended[0], ended[2]))


def threads_refused():
    """How many threads are started; and where fewer can be, those that there are do the work."""
    library = f"{ROOM}/threads.so"
    made = subprocess.run(["cc", "-O1", "-shared", "-fPIC", "-o", library, f"{HERE}/tests/lib/threads.c", "-ldl"], capture_output=True,
                          check=False)
    verdict("tests/lib/threads.c", made.returncode == 0, made.stderr)
    here = len(os.sched_getaffinity(0))
    for count in (1, 6, 20):
        octets, _, asked = copies(count)
        most = max(1, asked // 64)
        path = kept("copies", octets)
        usual = run("--jobs=1", path)
        for jobs in (*JOBS, None):
            wanted_ones = min(jobs or min(here, 64), most) - 1
            for allowed in (64, 0, 2):
                ended, asked_for = threaded(library, allowed, [*([f"--jobs={jobs}"] if jobs else []), path])
                verdict(f"{count} copies, {jobs} jobs, {allowed} threads allowed", ended == usual and asked_for == min(wanted_ones, allowed + 1),
                        (ended[0], ended[2], asked_for, wanted_ones))
    ended, asked_for = threaded(library, 64, [path], preexec_fn=lambda: os.sched_setaffinity(0, [min(os.sched_getaffinity(0))]))
    verdict("threads on one processor", ended == usual and asked_for == 0, (ended[0], ended[2], asked_for))


def threaded(library, allowed, words, **how):
    """The end of a run that may start so many threads, and how many it asks for."""
    with tempfile.TemporaryFile() as told:
        os.dup2(told.fileno(), 9)
        ended = run(*words, env={**os.environ, "LD_PRELOAD": library, "THREADS": str(allowed)}, pass_fds=(9,), **how)
        os.close(9)
        told.seek(0)
        return ended, int(told.read() or 0)


def odd_keyrings():
    """What is refused with a second line, or nearly: secret keys in each shape, and armor behind packets, whole and cut."""
    public = octets_of(f"{HERE}/examples/rfc9580-a1.asc")
    secret = packet(next(body for kind, body in packets_in(public) if kind == 6) + bytes(40), 5)
    filled = b"\xca\x03PGP" + secret
    for octets in (model.armor(secret, b"PRIVATE KEY BLOCK"), public + model.armor(secret, b"PRIVATE KEY BLOCK"), secret, model.armor(filled), secret[:6] + public,
                   packet(b"a", 13) + public, packet(b"x", 60) + secret + public, model.armor(filled).replace(b"\n\n", b"\na: b\n\n"),
                   model.armor(b"\xca\x03PGP\xc5\0"), model.armor(b"\xc5\0"), b"-----BEGIN PGP ", b"\xc5", b"\x80-----BEGIN PGP "):  # fmt: skip
        yield octets
        yield octets[: len(octets) // 2]
        yield octets[:-1]


def by_sanitizers(archive):
    """No thread uses memory that another one does at the same time, or that isn't its own; and none is left behind."""
    octets, _, _ = copies(14)
    path = kept("copies", octets)
    judged = []
    for stem in ("base", "revoker_key", "revocation_last", "twice_second_revoked"):
        bodies = [body for body, _ in cases()[stem].documents]
        judged.append(["--signature", kept(f"signature.{stem}", b"".join(map(packet, bodies * 9))), "--keyring", kept(f"keyring.{stem}", cases()[stem].octets),
                       f"--at={READ}", kept("document", DOCUMENT)])
    found = of_messages()
    for those in (["good"], ["subkey", "version 6", "absent", "revoked", "type 00", "wrong type", "bad"]):
        message = signers.message(TEXT, *(found[it].octets for it in those))
        ring = kept(f"ring.{len(those)}", b"".join(dict.fromkeys(found[it].ring for it in those)))
        for octets in (message, message[:-30], message.replace(b"- -", b"-")):
            judged.append(["--cleartext", "--keyring", ring, kept(f"message.{len(judged)}", octets)])
    judged += [["--verdicts", kept(f"odd.{number}", it)] for number, it in enumerate(odd_keyrings())]
    for kind in ("thread", "address,undefined"):
        program = f"{ROOM}/opgp-verify.{kind}"
        sources = [f"{HERE}/c/opgp-verify.c", *glob.glob(f"{HERE}/c/verify-*.c")]
        words = ["cc", "-std=c11", "-O1", "-g", "-pthread", f"-fsanitize={kind}", "-fno-sanitize-recover=all", f"-I{HERE}/c", *sources, archive]
        made = subprocess.run([*words, "-lcrypto", "-o", program], capture_output=True, check=False)
        if made.returncode or subprocess.run([program, "-V"], capture_output=True, check=False).returncode:
            left_out(f"the sanitizer {kind}: {made.stderr.decode()[-200:]}")
            continue
        for policy in ("usual", "any"):
            for jobs in (1, 4, 64):
                words = ["--policy", policy, "--jobs", str(jobs), path]
                ended, usual = subprocess.run([program, *words], capture_output=True, text=True, check=False, timeout=SECONDS), run_whole(*words)
                verdict(f"sanitizer {kind}, {policy}, {jobs} jobs", (ended.returncode, ended.stdout, ended.stderr) == usual, ended.stderr)
        for words in judged:
            ended, usual = subprocess.run([program, *words], capture_output=True, text=True, check=False, timeout=SECONDS), run_whole(*words)
            verdict(f"sanitizer {kind}, {words}", (ended.returncode, ended.stdout, ended.stderr) == usual, ended.stderr)


def by_valgrind():
    """No run takes memory that isn't its own, or leaves some behind."""
    if not shutil.which("valgrind"):
        left_out("valgrind")
        return
    it = next(it for it in examples() if it.name == "sq's two of version 4")
    signatures, keyring, document = kept("signature", it.octets), kept("keyring", it.keyring), kept("document", it.document * 9000)
    other, many = f"{HERE}/examples/rfc9580-a1.asc", kept("many", it.octets * 33)
    words = ["valgrind", "-q", "--error-exitcode=9", "--leak-check=full", "--errors-for-leak-kinds=definite", PROGRAM]
    for given, status in (
        ([signatures, kept("text", it.document), keyring], 0), ([signatures, document, other], 1), ([many, document, other], 1),
        ([signatures, document, other, keyring, other], 1), ([other, document, other], 1), ([signatures, document, other, signatures], 1),
        ([signatures, ROOM, other], 3), ([signatures, "-", "-", "-"], 2),
    ):
        given = ["--signature", *given[:2], *(f"--keyring={it}" for it in given[2:]), f"--at={AT}"]
        ended = subprocess.run([*words, *given], capture_output=True, check=False, timeout=SECONDS)
        verdict(f"by valgrind: {given}", ended.returncode == status and b"==" not in ended.stderr, ended)


# ---- Signatures that gpg makes

DOCUMENTS = {
    "empty": b"", "no last line end": b"a line\nand another", "CR LF": b"one\r\ntwo\r\n\r\nthree", "one line": b"x" * 5_000_000,
    "NUL octets": b"\0some\0 zeros\nand \0\0more\n", "blanks": b"blanks  \nand tabs\t\t\n \nat line ends \t",
    "lines": b"".join(b"line %d of a longer text\n" % it for it in range(8000)),
}  # fmt: skip
ALGORITHMS = ("rsa2048", "ed25519", "nistp256", "dsa2048")


class Gpg:
    """A gpg with a home of its own."""

    def __init__(self):
        self.home, self.keys = f"{ROOM}/home", {}
        os.mkdir(self.home, 0o700)

    def run(self, *words, given=b""):
        usual = ["--homedir", self.home, "--batch", "--quiet", "--yes", "--no-tty", "--pinentry-mode", "loopback", "--passphrase", ""]
        return subprocess.run(["gpg", *usual, *words], input=given, capture_output=True, check=False, timeout=SECONDS)

    def make(self, name, algorithm, use="sign", signs_by=None):
        """Makes a key, or one with a subkey that signs, and keeps its keyring."""
        made = self.run("--quick-generate-key", f"{name} <{name}@example.org>", algorithm, use, "0")
        if signs_by and made.returncode == 0:
            listed = self.run("--with-colons", "--list-keys", f"{name}@example.org").stdout
            fingerprint = re.search(rb"^fpr:+(\w+):", listed, re.M)[1]
            made = self.run("--quick-add-key", fingerprint.decode(), signs_by, "sign", "0")
        if made.returncode:
            left_out(f"gpg's {algorithm} {signs_by or ''}: {made.stderr.decode(errors='replace').strip()}")
            return
        self.keys[name] = self.run("--export", f"{name}@example.org").stdout

    def sign(self, document, *names, words=()):
        users = [word for it in names for word in ("--local-user", f"{it}@example.org")]
        ended = self.run(*users, *words, "--output", "-", "--detach-sign", given=document)
        verdict(f"gpg signs by {names} {words}", ended.returncode == 0 and ended.stdout, ended.stderr)
        return ended.stdout

    def close(self):
        subprocess.run(["gpgconf", "--homedir", self.home, "--kill", "gpg-agent"], capture_output=True, check=False, timeout=SECONDS)


def fits_textmode(document):
    """Whether gpg signs all of a text: it cuts lines of more than 19,995 octets, and drops the NUL octets before a line end."""
    return max(map(len, document.split(b"\n"))) < 19_000 and not re.search(rb"\0\r?\n|\0\Z", document)


def changed(document):
    """The document with one octet changed, near its middle, which is no line end before or then; with one more if it has none."""
    at = next((it for it in range(len(document) // 2, len(document)) if document[it] > 0x20), None)
    return document + b"x" if at is None else flipped(document, at)


def of_gpg(gpg, name, document, kind, armored):
    """A signature that gpg makes over a document; and over others than that."""
    words = ["--textmode"] * kind + ["--armor"] * armored
    octets, keyring = gpg.sign(document, name, words=words), [gpg.keys[name]]
    what = f"gpg's by {name} of type 0{kind} over {len(document)} octets"
    body = bodies_in(octets)[0]
    verdict(f"{what}: its form", body[1] == kind and octets.startswith(b"-----BEGIN") == armored, octets[:200])
    holds(what, octets, keyring, document, ["good"])
    other = changed(document)
    holds(f"{what}, one changed", octets, keyring, other, ["bad"])
    holds(f"{what}, one changed, its left octets fit", packet(fitting(body, other)), keyring, other, ["bad"])
    holds(f"{what}, one octet of it changed", packet(flipped(body, len(body) - 2)), keyring, document, ["bad"])
    holds(f"{what}, other keyrings", octets, [it for its, it in gpg.keys.items() if its != name][:2], document, ["undecided absent"])
    at = len(document) // 2 + (document[len(document) // 2 : len(document) // 2 + 1] == b"\n")
    holds(f"{what}, a carriage return in it", octets, keyring, document[:at] + b"\rx" + document[at:], ["line-ends" if kind else "bad"])
    lines = document.replace(b"\r\n", b"\n")
    for ends in (b"\n", b"\r\n"):
        text = lines.replace(b"\n", ends)
        holds(f"{what}, its line ends {ends}", octets, keyring, text, ["good" if kind or text == document else "bad"])


def several_of_gpg(gpg):
    """Two signatures in one file, and their keyrings in two."""
    names = [it for it in ALGORITHMS if it in gpg.keys][:2]
    if len(names) < 2:
        left_out("two keys of gpg")
        return
    document, (one, two) = DOCUMENTS["lines"], (gpg.keys[it] for it in names)
    for armored in (False, True):
        octets = gpg.sign(document, *names, words=["--armor"] * armored)
        key = [body for kind, body in packets_in(one) if kind == 6]
        ids = [model.signer_of(model.Signature(body), key) for body in bodies_in(octets)]
        holds("gpg's two signatures, two keyrings", octets, [one, two], document, ["good", "good"])
        holds("gpg's two signatures, two keyrings in the other order", octets, [two, one], document, ["good", "good"])
        holds("gpg's two signatures, one keyring", octets, [one + two], document, ["good", "good"])
        holds("gpg's two signatures, one signer", octets, [one], document, ["good" if it else "undecided absent" for it in ids])
        holds("gpg's two signatures, no signer", octets, [b""], document, ["undecided absent"] * 2)
        holds("gpg's two signatures over another document", octets, [one, two], changed(document), ["bad", "bad"])
    first, second = (b"".join(map(packet, bodies_in(gpg.sign(it, names[0])))) for it in (document, b"another"))
    holds("gpg's two signatures, each over another document", first + second, [one], document, ["good", "bad"])
    holds("gpg's two signatures, the second good", second + first, [one], document, ["bad", "good"])
    mixed = first + packet(bodies_in(gpg.sign(document, names[1], words=["--textmode"]))[0])
    stray = document[:100] + b"\r" + document[100:]
    holds("gpg's two signatures of both types", mixed, [one, two], document, ["good", "good"])
    holds("gpg's two signatures of both types over CR LF", mixed, [one, two], document.replace(b"\n", b"\r\n"), ["bad", "good"])
    over = packet(bodies_in(gpg.sign(stray, names[0]))[0]) + mixed
    holds("gpg's signatures over a text that has no canonical form", over, [one, two], stray, ["good", "bad", "line-ends"])


def policies_of_gpg(gpg):
    """By SHA-1, by a small key, and with critical notations in the hashed area."""
    document = DOCUMENTS["no last line end"]
    if "rsa2048" in gpg.keys:
        for number, name in ((2, "SHA1"), (8, "SHA256"), (9, "SHA384"), (10, "SHA512"), (11, "SHA224")):
            octets = gpg.sign(document, "rsa2048", words=["--digest-algo", name, "--allow-weak-digest-algos"])
            verdict(f"gpg signs by {name}", bodies_in(octets)[0][3] == number)
            for policy in ("usual", "any"):
                found = "undecided weak-hash" if (number, policy) == (2, "usual") else "good"
                holds(f"gpg's by {name}, {policy}", octets, [gpg.keys["rsa2048"]], document, [found], "--policy", policy)
    gpg.make("small", "rsa1024")
    if "small" in gpg.keys:
        octets = gpg.sign(document, "small")
        for policy, found in (("usual", "undecided small-key"), ("any", "good")):
            holds(f"gpg's by RSA of 1024 bits, {policy}", octets, [gpg.keys["small"]], document, [found], "--policy", policy)
    for name in gpg.keys.keys() & {"rsa2048", "ed25519"}:
        for notation, found in (("!name@example.org=value", "undecided critical"), ("name@example.org=value", "good")):
            octets = gpg.sign(document, name, words=["--sig-notation", notation])
            for over, said in ((document, found), (changed(document), "bad")):
                for policy in ("usual", "any"):
                    what = f"gpg's by {name} with a notation {notation}"
                    holds(what, octets, [gpg.keys[name]], over, [said], "--policy", policy)


def others_of_gpg(gpg):
    """By a subkey, by other curves, and by a key that has expired."""
    document = DOCUMENTS["CR LF"]
    gpg.make("sub", "rsa2048", "cert", "ed25519")
    for name, found in (("nistp521", "good"), ("brainpoolP256r1", "good"), ("secp256k1", "undecided curve")):
        gpg.make(name, name)
        if name in gpg.keys:
            holds(f"gpg's by {name}", gpg.sign(document, name), [gpg.keys[name]], document, [found])
    if "sub" in gpg.keys:
        octets = gpg.sign(document, "sub")
        keys = [body for kind, body in packets_in(gpg.keys["sub"]) if kind in (6, 14)]
        verdict("gpg signs by a subkey", model.signer_of(model.Signature(bodies_in(octets)[0]), keys) == keys[1])
        holds("gpg's by a subkey", octets, [gpg.keys["sub"]], document, ["good"])
        bare = packet(keys[0], 6)
        holds("gpg's by a subkey that isn't there", octets, [bare], document, ["undecided absent"])
    then = ["--faked-system-time", "20200101T000000!"]
    made = gpg.run(*then, "--quick-generate-key", "old <old@example.org>", "ed25519", "sign", "1d")
    if made.returncode:
        left_out(f"gpg's key that has expired: {made.stderr.decode(errors='replace').strip()}")
    else:
        keyring = gpg.run("--export", "old@example.org").stdout
        holds("gpg's by a key that has expired", gpg.sign(document, "old", words=then), [keyring], document, ["good"])


def with_gpg():
    """What gpg signs is judged a day later."""
    global AT
    if not shutil.which("gpg"):
        left_out("gpg, and so all of its signatures")
        return
    AT = int(time.time()) + DAY
    gpg = Gpg()
    try:
        for name in ALGORITHMS:
            gpg.make(name, name)
        for name in [*gpg.keys]:
            for document in DOCUMENTS.values():
                for kind in (0, 1):
                    if kind == 0 or fits_textmode(document):
                        for armored in (False, True):
                            of_gpg(gpg, name, document, kind, armored)
        several_of_gpg(gpg)
        policies_of_gpg(gpg)
        others_of_gpg(gpg)
    finally:
        AT = READ
        gpg.close()


# ---- The program


def built():
    """opgp-verify, as `make verifier` builds it, and libopgp.a beside it; None where they can't be, which is told."""
    if subprocess.run(["cc", "-E", "-include", "openssl/core_names.h", "-x", "c", os.devnull], capture_output=True, check=False).returncode:
        left_out("libcrypto's headers, and so opgp-verify")
        return None, None
    words = ["make", "-C", HERE, f"{ROOM}/made/opgp-verify", f"made={ROOM}/made"]
    made = subprocess.run(words, capture_output=True, text=True, check=False)
    verdict("make opgp-verify", made.returncode == 0, made.stderr)
    return (f"{ROOM}/made/opgp-verify", f"{ROOM}/made/libopgp.a") if made.returncode == 0 else (None, None)


def main():
    global PROGRAM, ROOM
    words = argparse.ArgumentParser(prog="tests/bindings/verify.py", description=__doc__.split("\n\n", maxsplit=1)[0])
    words.add_argument("--program")
    words.add_argument("--library")
    words = words.parse_args()
    resource.setrlimit(resource.RLIMIT_CORE, (0, 0))
    with tempfile.TemporaryDirectory() as room:
        ROOM = room
        PROGRAM, archive = (os.path.abspath(words.program), words.library) if words.program else built()
        if PROGRAM:
            for part in (of_others, changed_signatures, several, critical, undecided, of_cases, on_a_terminal, in_other_places, moments, of_one_key, in_a_crowd, in_many_places,
                         keyrings, streams, command_lines, refused, devices, memory, memory_wanting, threads, debian_keyring, threads_refused,
                         by_valgrind, with_gpg):
                part()
        if archive:
            by_sanitizers(os.path.abspath(archive))
    print(f"{passed} passed, {failed} failed")
    return int(failed > 0)


if __name__ == "__main__":
    sys.exit(main())
