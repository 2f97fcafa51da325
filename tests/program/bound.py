#!/usr/bin/env python3
"""Runs `write --bound` over generated certificates with verdicts on their signatures, and compares what it writes with the rule, worked
out here in another way. By tests/lib/standing.py each part that stays then stands as before, and no part goes that is of use. With
--newest it stands as before at the time of --at.

Usage: tests/program/bound.py [--cases N] [--seed N] [--program FILE]

Files of verdicts are written as opgp-verify writes them. Those of another keyring are refused, and so are command lines on which
--bound and --verdicts aren't together. Some certificates are made by hand: a user ID that nobody certified, superseded certifications,
self-signatures that the rule of standing doesn't hear, several designated revokers, a stranger's subkey that made a revocation. The last
line counts the tests."""

import argparse
import os
import random
import subprocess
import sys
import tempfile

sys.dont_write_bytecode = True
sys.path.insert(0, f"{sys.path[0]}/../lib")

import model  # noqa: E402
import standing  # noqa: E402
import standing_cases  # noqa: E402
import verdict_files  # noqa: E402
from openpgp_maker import Key, number, on_identity, packet, signature, signature_3, subpacket  # noqa: E402
from running import built  # noqa: E402

parser = argparse.ArgumentParser(prog="tests/program/bound.py", description=__doc__.split("\n\n", maxsplit=1)[0])
parser.add_argument("--cases", type=int, default=1000)
parser.add_argument("--seed", type=int, default=1)
parser.add_argument("--program", help="the program that is run, in place of that of this repository")
told = parser.parse_args()
PROGRAM = told.program or built("tests/program/bound.py")
KEEP = ("--malformed", "keep")
NOT_THOSE = "opgp: the verdicts aren't those of this keyring\n"
SELF = (0x10, 0x11, 0x12, 0x13, 0x18, 0x1F)
REVOCATIONS = (0x20, 0x28, 0x30)
# Of these types a newer self-signature replaces others on the same part.
SORTS = ((0x1F,), (0x10, 0x11, 0x12, 0x13), (0x18,))
OPTIONS = ((), ("--own-signatures",), ("--no-attributes",), ("--own-signatures", "--no-attributes"))
MADE = 1700000000
# In the cases of tests/vectors/validity: early, when a document is signed, and when a case is read.
TIMES = (1720000000, 1786492800, 1795132800)
passed = failed = 0


def verdict(name, holds, why=""):
    global passed, failed
    passed, failed = passed + bool(holds), failed + (not holds)
    if not holds and failed <= 5:
        print(f"tests/program/bound.py: {name}: FAILED {why}", file=sys.stderr)


def run(*words, given=b""):
    ended = subprocess.run([PROGRAM, *words], input=given, capture_output=True, check=False, timeout=120)
    return ended.returncode, ended.stdout, ended.stderr.decode()


def file_of(octets, lines, verdicts, rng):
    """The file of a verifier that found these verdicts; and the verdicts that this says."""
    written, said = [], []
    for line, found in zip(lines, verdicts, strict=True):
        front, own = line.rsplit(b" ", 1)
        if b" : none " in line:
            if rng.random() < 0.5:
                written.append(line)
                said.append("undecided")
                continue
            front = line + b" verdict"
        found = "bad" if own == b"bad" else found
        written.append(front + b" " + found.encode())
        said.append(found)
    return verdict_files.file(octets, b"".join(line + b"\n" for line in written)), said


def names(it, body):
    """Whether a signature names the key of this body as its issuer; the first that it names decides."""
    if it.version == 3:
        return it.body[7:15] == model.key_id(body)
    for octet, _, octets in it.hashed:
        if octet & 127 == 33 and model.meaning(33, octets) == "typed":
            return octets == body[:1] + model.fingerprint(body)
    for octet, _, octets in (*it.hashed, *it.unhashed):
        if octet & 127 == 16 and len(octets) == 8:
            return octets == model.key_id(body)
    return False


def print_of(body):
    return body[:1] + model.fingerprint(body)


def is_genuine(it, found, place, primary, head, keys):
    """Whether a self-signature is good over what it follows, and made by the primary key."""
    signer = model.signer_of(it, keys)
    if found != "good" or signer is None or model.asked_there(it.body, place, primary, head)[0] is None:
        return False
    return print_of(signer) == print_of(primary)


def keys_in(packets):
    return [body for *_, kind, _, body, _ in packets if kind in (6, 14)]


def by_packet(packets, certificates, verdicts):
    """The rows of each signature packet, by its index: the signatures, its own before those that it embeds, each with its verdict."""
    verdicts, found = iter(verdicts), {}
    for parts in certificates:
        for n, (head, hangs) in enumerate(parts):
            for index in (it for it in hangs if packets[it][2] == 2):
                it = model.kept_signature(packets[index][4])
                rows = found[index] = [(it, next(verdicts))]
                if n and packets[head][2] == 14 and it.version in (4, 6) and it.kind == 0x18:
                    held = [octets for octet, _, octets in (*it.hashed, *it.unhashed) if octet & 127 == 32]
                    rows += [(model.kept_signature(octets), next(verdicts)) for octets in held]
    return found


def issuers_of(rows, keys):
    """The fingerprints of the keys that made good revocations."""
    signers = [model.signer_of(it, keys) for some in rows.values() for it, found in some if found == "good" and it.kind in REVOCATIONS]
    return {print_of(it) for it in signers if it is not None}


def judged(packets, parts, rows, keys):
    """The parts of a certificate, with what each packet is: (its index, it is a self-signature, it is a genuine one, it revokes a key)."""
    primary = packets[parts[0][0]][4]
    for n, (head, hangs) in enumerate(parts):
        place, body, found = packets[head][2] if n else None, packets[head][4], []
        for index in hangs:
            it, said = rows[index][0] if index in rows else (None, None)
            is_self = it is not None and it.version != 0 and it.kind in SELF and names(it, primary)
            found.append((index, is_self, is_self and is_genuine(it, said, place, primary, body, keys), it is not None and it.kind == 0x20))
        yield head, found


def bound(packets, certificates, rows):
    """What stays: certificates as they are given."""
    keys = keys_in(packets)
    issuers = issuers_of(rows, keys)
    for parts in certificates:
        (primary, own), *components = judged(packets, parts, rows, keys)
        found, moved = [], []
        for head, hangs in components:
            made_one = packets[head][2] == 14 and print_of(packets[head][4]) in issuers
            if made_one or any(genuine for _, _, genuine, _ in hangs):
                found.append((head, kept(hangs)))
            else:
                moved += [it for it, _, _, revokes in hangs if revokes]
        yield [(primary, kept(own) + moved), *found]


def kept(hangs):
    return [it for it, is_self, genuine, _ in hangs if genuine or not is_self]


def wanted(octets, verdicts, options):
    blocks = [(b"PUBLIC KEY BLOCK", octets)]
    packets = model.framed(blocks, model.USUAL)
    lead, certificates = model.compose(blocks, packets, model.USUAL)
    certificates = [*bound(packets, certificates, by_packet(packets, certificates, verdicts))]
    command = ("--own-signatures" in options, "--no-attributes" in options, [])
    return model.written(command, blocks, packets, lead, certificates, None, True)[1]


def replaced(parts, certificate, at):
    """The packets of a certificate that are older than the newest self-signature of their sort on their part that counts at a time. What
    names a revoker stays, and what doesn't state one time."""
    for (_, hangs), component in zip(parts, (certificate.primary, *certificate.components), strict=True):
        own = [it for it in component.said if it.is_genuine and it.by == certificate.fingerprint and len(it.times) == 1]
        for sort in SORTS:
            ones = [it for it in own if it.kind in sort]
            last = max((it.made for it in ones if it.is_good and it.lives(at) and not certificate.is_withdrawn(it, component)), default=0)
            yield from (hangs[it.spot[1]] for it in ones if it.made < last and not it.revokers)


def newest(octets, verdicts, at):
    """The keyring without what is replaced at a time, and the verdicts on its rows."""
    block = (b"PUBLIC KEY BLOCK", octets)
    packets = model.framed([block], model.USUAL)
    certificates = model.compose([block], packets, model.USUAL)[1]
    rows = by_packet(packets, certificates, verdicts)
    known = standing.Keyring(octets, standing_cases.honest(octets, verdicts)).certificates
    gone = {it for parts, certificate in zip(certificates, known, strict=True) for it in replaced(parts, certificate, at)}
    said = [found for parts in certificates for _, hangs in parts for it in hangs if it in rows and it not in gone for _, found in rows[it]]
    return b"".join(octets[it[1] : it[1] + it[5]] for n, it in enumerate(packets) if n not in gone), said


def stands_then(octets, verdicts, at):
    """Where a part stands otherwise at a time without what is replaced then; or nothing."""
    before, after = (standing.Keyring(*it) for it in ((octets, verdicts), newest(octets, verdicts, at)))
    for c in range(len(before.certificates)):
        if before.state(c, at) != after.state(c, at):
            return f"certificate {c} at {at}: {before.state(c, at)} {after.state(c, at)}"
    return ""


def stands_as_before(octets, verdicts, policy, times):
    """Where a part that stays stands otherwise than before, or one goes that is of use; or nothing. A revocation may state another reason,
    since those that move come before others."""
    block = (b"PUBLIC KEY BLOCK", octets)
    packets = model.framed([block], model.USUAL)
    certificates = model.compose([block], packets, model.USUAL)[1]
    rows = by_packet(packets, certificates, verdicts)
    left = [*bound(packets, certificates, rows)]
    said = [found for parts in left for _, hangs in parts for index in hangs if index in rows for _, found in rows[index]]
    before, after = standing.Keyring(octets, verdicts, policy), standing.Keyring(wanted(octets, verdicts, ()), said, policy)
    stays = {head for parts in left for head, _ in parts}
    for c, parts in enumerate(certificates):
        for at in times:
            old, new = ([state if isinstance(state, str) else state[:4] for state in of.state(c, at)] for of in (before, after))
            if [state for (head, _), state in zip(parts, old) if head in stays] != new:
                return f"certificate {c} at {at}: {old} {new}"
            if any(state == "fine" or state[0] is None for (head, _), state in zip(parts, old) if head not in stays):
                return f"certificate {c} at {at}: {old} {sorted(stays)}"
    return ""


class Room:
    """A folder with a file of verdicts."""

    def __init__(self, folder):
        self.file = f"{folder}/verdicts"

    def write(self, octets, verdicts, *words):
        with open(self.file, "wb") as it:
            it.write(verdicts)
        return run("write", *KEEP, "--out", "binary", "--bound", "--verdicts", self.file, *words, given=octets)


def checked(octets):
    status, lines, _ = run("check", *KEEP, given=octets)
    verdict("check", status == 0)
    return lines.splitlines()


def compare(room, given, verdicts, rng, title, times=TIMES):
    """The file of verdicts, and what was written by it: of the merged keyring."""
    octets, verdicts = standing_cases.once(given, verdicts)
    file, said = file_of(octets, checked(octets), verdicts, rng)
    for options in OPTIONS if rng.random() < 0.3 else ((),):
        ended = room.write(given, file, *options)
        verdict(title, ended == (0, wanted(octets, said, options), ""), f"{options} {said} {octets.hex()}\n{ended}")
    at = rng.choice(times)
    ended = room.write(given, file, "--newest", "--at", str(at))
    verdict(f"{title}, the newest at {at}", ended == (0, wanted(*newest(octets, said, at), ()), ""), f"{said} {octets.hex()}\n{ended}")
    why = stands_then(octets, said, at)
    verdict(f"{title}, the newest stand as before", not why, f"{why} {said} {octets.hex()}")
    return file


def generated(room):
    rng = random.Random(told.seed)
    other = None
    for n, case in enumerate(standing_cases.cases(told.seed, told.cases)):
        times = sorted({at for _, at in case.states})
        file = compare(room, case.octets, case.verdicts, rng, f"case {n}", times)
        compare(room, case.octets, ["good"] * len(case.verdicts), rng, f"case {n}, all good", times)
        for found in (case.verdicts, ["good"] * len(case.verdicts)):
            octets, found = standing_cases.once(case.octets, found)
            said = standing_cases.honest(octets, found)
            why = stands_as_before(octets, said, case.policy, [at for _, at in case.states])
            verdict(f"case {n} stands as before", not why, f"{why} {said} {octets.hex()}")
        if other is not None and other != file and n % 10 == 0:
            verdict(f"case {n} by another keyring's verdicts", room.write(case.octets, other) == (1, b"", NOT_THOSE))
        other = file
    for it in standing_cases.vectors():
        compare(room, it.octets, it.verdicts, rng, it.title)
        compare(room, it.octets * 2, it.verdicts * 2, rng, f"{it.title}, twice")
        why = stands_as_before(*standing_cases.once(it.octets, it.verdicts), "usual", TIMES)
        verdict(f"{it.title}: stands as before", not why, why)


def by_hand(room):
    """Certificates of which is said what stays: packets with True or False, and with the verdicts on their rows."""
    first, other, third = (Key(4, MADE, 27, number(32, n), lambda digest, hash: bytes(64)) for n in (1, 2, 5))
    subkeys = [Key(4, MADE, 27, number(32, n), lambda digest, hash: bytes(64)) for n in (3, 4)]

    def made(signer, kind, at, on=b"", more=b"", hash=8):
        area = subpacket(2, number(4, MADE + at)) + signer.issuer_fingerprint + more
        return packet(2, signature(signer, kind, first.octets + on, area, hash=hash))

    def certified(signer, kind, at, more=b"", hash=8):
        return made(signer, kind, at, on_identity(13, b"Alice"), more, hash)

    def names_revoker(at, revoker):
        return made(first, 0x1F, at, more=subpacket(12, b"\x80" + bytes([27]) + revoker.fingerprint))

    def on_other(signer, kind, subkey=None):
        """A signature on the other certificate's key, or on a subkey there."""
        area = subpacket(2, number(4, MADE + 1)) + signer.issuer_fingerprint
        return packet(2, signature(signer, kind, other.octets + (subkey.octets if subkey else b""), area))

    def states(area):
        """A certification with this area of subpackets."""
        return packet(2, signature(first, 0x13, first.octets + on_identity(13, b"Alice"), area))

    key, alice, trust = packet(6, first.body), packet(13, b"Alice"), packet(12, b"\1")
    picture = standing_cases.PICTURES[0]
    strange, bound_one = (packet(14, it.body) for it in subkeys)
    version_3 = packet(2, signature_3(first, 0x13, first.octets + on_identity(13, b"Alice"), MADE + 1))
    rows = {
        "a user ID that nobody certified": [(key, 1), (alice, 0), (trust, 0)],
        "a user ID that a stranger certified": [(key, 1), (alice, 0), (certified(other, 0x13, 1), 0, "good")],
        "a forged certification": [(key, 1), (alice, 0), (certified(first, 0x13, 1), 0, "bad")],
        "superseded certifications": [
            (key, 1), (alice, 1), (certified(first, 0x13, 3), 1, "good"), (certified(first, 0x13, 2), 1, "good"),
            (certified(first, 0x10, 3), 1, "good"), (certified(first, 0x13, 4), 0, "undecided"), (trust, 1)],
        "a revoked user ID": [(key, 1), (alice, 1), (certified(first, 0x30, 5), 1, "good"), (certified(first, 0x13, 1), 1, "good")],
        "a forged revocation": [(key, 1), (alice, 1), (certified(first, 0x30, 5), 1, "bad"), (certified(first, 0x13, 1), 1, "good")],
        "a stranger's subkey": [
            (key, 1), (strange, 0), (made(other, 0x18, 1, subkeys[0].octets), 0, "good"),
            (bound_one, 1), (made(first, 0x18, 1, subkeys[1].octets), 1, "good")],
        "direct key signatures": [
            (key, 1), (made(first, 0x1F, 1), 1, "good"), (made(first, 0x1F, 2), 1, "good"), (made(first, 0x1F, 3), 0, "bad"),
            (made(first, 0x20, 9), 1, "bad")],
        "an attribute": [
            (key, 1), (packet(17, picture), 1), (made(first, 0x13, 1, on_identity(17, picture)), 1, "good"),
            (made(other, 0x13, 2, on_identity(17, picture)), 1, "undecided")],
        "a certification on a subkey, and a binding on a user ID": [
            (key, 1), (bound_one, 0), (certified(first, 0x13, 1), 0, "good"), (alice, 0), (made(first, 0x18, 1, subkeys[1].octets), 0, "good")],
        "later ones that the rule of standing doesn't hear: expired, of the future, critical, by SHA-1": [
            (key, 1), (alice, 1), (certified(first, 0x13, 1), 1, "good"), (certified(first, 0x13, 2, subpacket(3, number(4, 1))), 1, "good"),
            (certified(first, 0x13, 2_000_000_000), 1, "good"), (certified(first, 0x13, 3, subpacket(100, b"", True)), 1, "good"),
            (certified(first, 0x13, 4, hash=2), 1, "good")],
        "one without a time, one with two, and a forged one": [
            (key, 1), (alice, 1), (states(first.issuer_fingerprint), 1, "good"), (states(first.issuer_fingerprint + subpacket(101, b"")), 0, "bad"),
            (certified(first, 0x13, 1, subpacket(2, number(4, MADE + 2))), 1, "good")],
        "one without a time alone": [(key, 1), (alice, 1), (states(first.issuer_fingerprint), 1, "good")],
        "one that names its issuer by the key ID alone": [(key, 1), (alice, 1), (states(first.issuer_key_id), 1, "good")],
        "one of version 3": [(key, 1), (alice, 0), (version_3, 0, "good")],
        "two designated revokers, each named by a signature of its own": [
            (key, 1), (names_revoker(1, other), 1, "good"), (names_revoker(2, third), 1, "good"), (made(other, 0x20, 5), 1, "good"),
            (packet(6, other.body), 1), (packet(6, third.body), 1)],
        "a designated revoker's subkey that nobody bound": [
            (key, 1), (names_revoker(1, subkeys[0]), 1, "good"), (made(subkeys[0], 0x20, 5), 1, "good"),
            (packet(6, other.body), 1), (strange, 1), (on_other(other, 0x18, subkeys[0]), 0, "bad"), (trust, 1),
            (on_other(third, 0x18, subkeys[0]), 1, "good"), (on_other(other, 0x20), 1, "bad"), (bound_one, 0)],
        "the same, of which the revocation is undecided": [
            (key, 1), (names_revoker(1, subkeys[0]), 1, "good"), (made(subkeys[0], 0x20, 5), 1, "undecided"),
            (packet(6, other.body), 1), (strange, 0), (on_other(other, 0x18, subkeys[0]), 0, "bad"), (trust, 0), (bound_one, 0)],
        "subkeys that nobody bound, and that revoked a user ID and a subkey": [
            (key, 1), (alice, 1), (certified(first, 0x13, 1), 1, "good"), (certified(subkeys[0], 0x30, 5), 1, "good"),
            (bound_one, 1), (made(subkeys[1], 0x28, 5, subkeys[1].octets), 1, "good"), (strange, 1)],
        "a subkey that nobody bound, and that certified": [(key, 1), (alice, 0), (certified(subkeys[0], 0x13, 1), 0, "good"), (strange, 0)],
    }  # fmt: skip
    for title, row in rows.items():
        octets = b"".join(it[0] for it in row)
        file, _ = file_of(octets, checked(octets), [it[2] for it in row if len(it) > 2], random.Random(1))
        ended = room.write(octets, file)
        verdict(title, ended == (0, b"".join(it[0] for it in row if it[1]), ""), f"{ended}")
    revocation, binding = made(first, 0x20, 5), made(first, 0x18, 1, subkeys[1].octets)
    octets = key + alice + revocation + bound_one + binding
    file, _ = file_of(octets, checked(octets), ["good", "good"], random.Random(1))
    ended = room.write(octets, file)
    verdict("a key revocation on a user ID that goes", ended == (0, key + revocation + bound_one + binding, ""), f"{ended}")


def newest_by_hand(room):
    """Certificates of which is said what stays of the newest at a time: packets with True or False, and with the verdicts on their rows."""
    first, other = (Key(4, MADE, 27, number(32, n), lambda digest, hash: bytes(64)) for n in (1, 2))
    subkey = Key(4, MADE, 27, number(32, 3), lambda digest, hash: bytes(64))
    alice = on_identity(13, b"Alice")

    def made(kind, at, on=b"", more=b"", hash=8):
        area = subpacket(2, number(4, MADE + at)) + first.issuer_fingerprint + more
        return packet(2, signature(first, kind, first.octets + on, area, hash=hash))

    key, name, trust = packet(6, first.body), packet(13, b"Alice"), packet(12, b"\1")
    revoker = subpacket(12, b"\x80" + bytes([27]) + other.fingerprint)
    bind = packet(14, subkey.body)
    rows = {
        "an older certification goes, with one of another type": [
            (key, 1), (name, 1), (made(0x10, 1, alice), 0, "good"), (made(0x13, 3, alice), 1, "good"), (trust, 1), (made(0x13, 2, alice), 0, "good")],
        "two of the newest": [(key, 1), (name, 1), (made(0x13, 3, alice), 1, "good"), (made(0x10, 3, alice), 1, "good"), (made(0x12, 2, alice), 0, "good")],
        "one that is newer than the time": [(key, 1), (name, 1), (made(0x13, 1, alice), 1, "good"), (made(0x13, 99, alice), 1, "good")],
        "one that has expired by then": [
            (key, 1), (name, 1), (made(0x13, 1, alice), 1, "good"), (made(0x13, 3, alice, subpacket(3, number(4, 2))), 1, "good")],
        "one by SHA-1, one that is critical": [
            (key, 1), (name, 1), (made(0x13, 1, alice), 1, "good"), (made(0x13, 3, alice, hash=2), 1, "good"),
            (made(0x13, 4, alice, subpacket(100, b"", True)), 1, "good")],
        "one that is revoked": [
            (key, 1), (name, 1), (made(0x13, 1, alice), 1, "good"), (made(0x13, 3, alice), 1, "good"), (made(0x30, 4, alice), 1, "good")],
        "one that names a revoker": [
            (key, 1), (made(0x1F, 1, more=revoker), 1, "good"), (made(0x1F, 2), 0, "good"), (made(0x1F, 3), 1, "good"), (name, 1),
            (made(0x13, 1, alice, revoker), 1, "good"), (made(0x13, 3, alice), 1, "good")],
        "one with two times": [
            (key, 1), (name, 1), (made(0x13, 1, alice, subpacket(2, number(4, MADE + 2))), 1, "good"), (made(0x13, 3, alice), 1, "good")],
        "one that is bad, and one that is undecided": [
            (key, 1), (name, 1), (made(0x13, 1, alice), 1, "good"), (made(0x13, 3, alice), 0, "bad"), (made(0x13, 4, alice), 0, "undecided")],
        "each part by itself, and each sort": [
            (key, 1), (made(0x1F, 1), 1, "good"), (name, 1), (made(0x13, 2, alice), 1, "good"), (bind, 1),
            (made(0x18, 1, subkey.octets), 0, "good"), (made(0x18, 2, subkey.octets), 1, "good")],
    }  # fmt: skip
    for title, row in rows.items():
        octets = b"".join(it[0] for it in row)
        file, _ = file_of(octets, checked(octets), [it[2] for it in row if len(it) > 2], random.Random(1))
        ended = room.write(octets, file, "--newest", "--at", str(MADE + 50))
        verdict(title, ended == (0, b"".join(it[0] for it in row if it[1]), ""), f"{ended}")
    octets = b"".join(it[0] for it in rows["two of the newest"])
    file, _ = file_of(octets, checked(octets), ["good"] * 3, random.Random(1))
    for at in ("2023-11-14T22:14:00Z", str(MADE + 40)):  # the same time
        ended = room.write(octets, file, "--newest", "--at", at)
        verdict(f"the newest at {at}", ended == (0, b"".join(it[0] for it in rows["two of the newest"] if it[1]), ""), f"{ended}")


def command_lines(room, octets):
    with open(room.file, "wb") as it:
        it.write(file_of(octets, checked(octets), ["good"] * len(checked(octets)), random.Random(1))[0])
    for words, line in (
        (("--bound",), "error: the argument '--bound' wants '--verdicts <FILE>'"),
        (("--verdicts", room.file), "error: the argument '--verdicts <FILE>' wants '--bound'"),
        (("--bound", "--verdicts", room.file, "--user-id", "0"), "error: the argument '--user-id <N>' cannot be used with '--bound'"),
        (("--newest",), "error: the argument '--newest' wants '--at <TIME>'"),
        (("--at", "0"), "error: the argument '--at <TIME>' wants '--newest'"),
        (("--newest", "--at", "0"), "error: the argument '--newest' wants '--bound'"),
        (("--bound", "--newest", "--at", "0"), "error: the argument '--bound' wants '--verdicts <FILE>'"),
        (("--bound", "--verdicts", room.file, "--newest"), "error: the argument '--newest' wants '--at <TIME>'"),
        (("--bound", "--verdicts", room.file, "--at", "0"), "error: the argument '--at <TIME>' wants '--newest'"),
        (("--bound", "--verdicts", room.file, "--newest", "--at", "now"), "error: invalid value 'now' for '--at <TIME>': a time is a number"),
        (("--bound", "--verdicts", "-"), "opgp: standard input is the keyring; the verdicts are in a file"),
        (("--bound", "--verdicts", "/dev/stdin"), "opgp: standard input is the keyring; the verdicts are in a file"),
    ):
        ended = run("write", *words, given=octets)
        verdict(f"{words}", ended[:2] == (2, b"") and ended[2].startswith(line), f"{ended}")
    for name in (f"{room.file}.none", os.path.dirname(room.file)):
        verdict(f"verdicts from {name}", run("write", "--bound", "--verdicts", name, given=octets)[:2] == (3, b""))
    verdict("a file that is too long", room.write(octets, b"x" * 2000, "--input", "1999")[:2] == (1, b""))
    verdict("an input that is no keyring", room.write(b"\x99", b"")[:2] == (1, b""))
    verdict("an empty keyring", room.write(b"", verdict_files.head(b"", 0), "--quiet") == (0, b"", ""))
    verdict("an empty keyring, and an empty file", room.write(b"", b"", "--quiet") == (1, b"", NOT_THOSE))
    verdict("no verdicts", room.write(octets, b"") == (1, b"", NOT_THOSE))
    file, _ = file_of(octets, checked(octets), ["good"] * len(checked(octets)), random.Random(1))
    for title, wrong in verdict_files.with_other_heads(octets, file[file.index(b"\n") + 1 :]):
        verdict(f"a file of verdicts with {title}", room.write(octets, wrong) == (1, b"", NOT_THOSE), f"{wrong}")


def main():
    with tempfile.TemporaryDirectory(prefix="opgp-bound-") as folder:
        room = Room(folder)
        by_hand(room)
        newest_by_hand(room)
        generated(room)
        command_lines(room, next(standing_cases.cases(1, 1)).octets)
    print(f"{passed} passed, {failed} failed")
    return failed != 0


sys.exit(main())
