#!/usr/bin/env python3
"""Compares tests/lib/standing.py with gpgv and sqv over keyrings and signatures made at random.

Usage: tests/vectors/validity/compare.py ROOT COUNT [--seed N] [--six] [--most N] [--examples N] [--keep FOLDER]

It runs where ask.py does. Each keyring is one of tests/lib/standing_cases.py, with keys that have arithmetic, and one of them signs a
document. It prints how often which answers were given. What the model believes and a program refuses is made as small as it can be by
leaving packets out, at most so many for each set of answers (--most), and shown by what is odd about it, so many examples of each kind.
--six makes version 6, of which sqv, sqop and rsopv of Debian 13 are asked. --keep writes each keyring, signature and answer into a
folder. All times are in steps of 100 days."""

import argparse
import collections
import hashlib
import os
import random
import sys

sys.dont_write_bytecode = True
HERE = os.path.dirname(os.path.realpath(__file__))
sys.path[:0] = [HERE, f"{HERE}/../../lib"]

import ask  # noqa: E402
import model  # noqa: E402
import signers  # noqa: E402
import standing  # noqa: E402
import standing_cases  # noqa: E402
from cases import DAY, DOCUMENT, NOW  # noqa: E402
from openpgp_maker import on_identity, packet  # noqa: E402

STEP = 100 * DAY
TIMES = tuple(NOW - (10 - n) * STEP for n in range(10)) + (NOW + STEP,)
FOUR = ("gpgv-2.2.40", "gpgv-2.4.7", "sqv-1.1.0", "sqv-1.3.0")
SIX = ("sqv-1.3.0", "sqop-0.37.2", "rsopv-0.6.4")


def new_key(rng, pool):
    """Makes keys with arithmetic, each of other numbers. RSA and DSA are slow to make, so there are a few of them."""
    used = set()

    def make_key(version, created):
        while True:
            drawn, n = rng.random(), rng.randrange(1, 60)
            if version == 6:
                name, make = ("native", n), lambda: signers.ed25519_native(6, created, bytes([n]) * 32)
            elif drawn < 0.85:
                name, make = ("legacy", n), lambda: signers.ed25519_legacy(created, bytes([n]) * 32)
            elif drawn < 0.93:
                bits = rng.choice((1024, 2048, 2048))
                name, make = ("rsa", bits, n % 3), lambda: pool.rsa(created, bits, n % 3)
            elif drawn < 0.97:
                name, make = ("ecdsa", n), lambda: signers.ecdsa_key(created, rng.choice((signers.P256, signers.P384)), bytes([n]))
            else:
                bits = rng.choice((1024, 2048))
                name, make = ("dsa", bits), lambda: pool.dsa(created, bits)
            if name not in used:
                used.add(name)
                return make()

    return make_key


class Pool:
    """RSA and DSA keys that are made once."""

    def __init__(self):
        self.made = {}

    def of(self, name, make):
        if name not in self.made:
            self.made[name] = make()
        return self.made[name]

    def again(self, key, created):
        return signers.Key(4, created, key.algorithm, key.body[6:], key.make)

    def rsa(self, created, bits, n):
        return self.again(self.of(("rsa", bits, n), lambda: signers.rsa_key(0, bits, f"{bits} {n}")), created)

    def dsa(self, created, bits):
        return self.again(self.of(("dsa", bits), lambda: signers.dsa_key(0, bits)), created)


def believed(octets, body):
    """What the model says of a document's signature."""
    ring = standing.Keyring(octets, signers.verdicts(octets))
    return ring.believed(body, signers.verdict_of_document(body, DOCUMENT, octets), NOW)


# What is shown.


def steps(time):
    return f"{(time - TIMES[0]) / STEP:g}" if time is not None else "-"


def told(it, keys):
    """A signature in a few words: its type, by whom, when, and what it says."""
    signer = model.signer_of(it, keys)
    by = f"key {keys.index(signer)}" if signer else "none"
    said = [f"{it.kind:02X} by {by} hash {it.hash}" if it.version in (4, 6) else f"version {it.version} {it.body[:3].hex()}"]
    for octet, _, octets, area in [(*sub, "") for sub in it.hashed] + [(*sub, " unhashed") for sub in it.unhashed]:
        kind = octet & 127
        value = {
            2: lambda: f"made {steps(model.number(octets))}",
            3: lambda: f"lasts {model.number(octets) / STEP:g}",
            9: lambda: f"key lasts {model.number(octets) / STEP:g}",
            12: lambda: f"revoker {octets.hex()[:12]}",
            16: lambda: "16",
            25: lambda: "main",
            27: lambda: f"flags {octets.hex() or '-'}",
            32: lambda: f"[{told(model.kept_signature(octets), keys)}]",
            33: lambda: "33",
        }.get(kind, lambda: f"{kind}:{octets.hex()[:12]}")
        fits = model.meaning(kind, octets) == "typed" or kind == 60
        said.append((value() if fits else f"unfit {kind}") + "!" * (octet >> 7) + area)
    return ", ".join(said)


def shown(octets, body):
    certificates, found = standing.read(octets), signers.verdicts(octets)
    keys = [part.body for certificate in certificates for part in certificate if part.key]
    verdicts, lines = iter(found), []
    for certificate in certificates:
        for part in certificate:
            if part.key:
                number, word = keys.index(part.body), "sub" if part.kind == standing.SUBKEY else "PUB"
                lines.append(f"  {word} key {number} alg {part.body[5]} created {steps(part.key.created)}")
            else:
                lines.append(f"  {'uid' if part.kind == 13 else 'uat'} {part.body[:12]}")
            for it in part.hangs:
                verdict = next(verdicts)
                if part.kind == standing.SUBKEY and it.version in (4, 6) and it.kind == 0x18:
                    verdict += "/" + "".join(next(verdicts)[0] for o, *_ in (*it.hashed, *it.unhashed) if o & 127 == 32)
                lines.append(f"    {verdict}: {told(it, keys)}")
    return "\n".join([*lines, f"  document: {told(model.kept_signature(body), keys)}; now {steps(NOW)}"])


# What is odd.


class Odd:
    """What is odd about a keyring and a signature, of which nothing can be left out: why a program may answer otherwise."""

    def __init__(self, octets, body):
        self.certificates = standing.read(octets)
        self.bodies = [part.body for certificate in self.certificates for part in certificate if part.key]
        self.rows = [(*row, verdict) for row, verdict in zip(standing.rows(self.certificates), signers.verdicts(octets))]
        self.document = model.kept_signature(body)
        self.all = [it for _, _, it, *_ in self.rows] + [self.document]

    def heads(self, *kinds):
        return [[part.body for part in certificate if part.kind in kinds] for certificate in self.certificates]

    def is_twice(self, *kinds):
        return any(len(set(it)) < len(it) for it in self.heads(*kinds))

    def own(self):
        """The signatures of primary keys over their own certificates that speak of keys, with their parts and times."""
        for certificate, part, it, is_embedded, verdict in self.rows:
            signer = model.signer_of(it, self.bodies)
            is_own = is_embedded or signer and model.fingerprint(signer) == certificate[0].key.fingerprint
            if is_own and verdict == standing.GOOD and it.kind not in (0x20, 0x28):
                yield certificate[0], part, it, model.created_of(it)

    def is_early(self):
        return any(made is not None and made < max(p.key.created for p in parts if p.key) for *parts, _, made in self.own())

    def is_short(self, it):
        """Whether the hash is shorter than what the issuer's algorithm asks for (5.2.3.2)."""
        key = model.signer_of(it, self.bodies)
        material = model.key_material(key) if key else []
        sizes = {19: lambda: len(material[1]) // 2, 17: lambda: len(material[1]), 22: lambda: 32, 27: lambda: 32}
        least = sizes.get(key[5], lambda: 0)() if key else 0
        return it.hash in model.HASHES and hashlib.new(model.HASHES[it.hash]).digest_size < least

    def has_unfit(self):
        return any(model.meaning(octet & 127, octets) == "unfit" for it in self.all for octet, _, octets in (*it.hashed, *it.unhashed))

    def displaced(self):
        """The types of signatures that are good over another part than the one they hang on."""
        for certificate, part, it, is_embedded, _ in self.rows:
            fits = [] if is_embedded else [other for other in certificate if it.kind in standing.PLACES[other.kind]]
            for other in fits:
                if other.body != part.body and it.version == certificate[0].key.version:
                    behind = on_identity(other.kind, other.body) if other.key is None else model.key_octets(other.body)
                    is_alone = other is certificate[0] or it.kind == standing.REVOCATION
                    subject = model.key_octets(certificate[0].body) + (b"" if is_alone else behind)
                    if signers.verdict(it, subject, self.bodies) == standing.GOOD:
                        yield f"{it.kind:02X}"

    def has_wrong_left(self):
        """Whether a bad one is good but for the octets in which its digest begins."""
        for certificate, part, it, is_embedded, verdict in self.rows:
            if verdict == standing.BAD and not is_embedded:
                keys = [certificate[0].body] + [part.body] * (part.kind == standing.SUBKEY and it.kind != 0x20)
                behind = on_identity(part.kind, part.body) if part.key is None and it.kind != 0x20 else b""
                it.left, left = signers.digest(it, b"".join(map(model.key_octets, keys)) + behind)[:2], it.left
                found = signers.verdict(it, b"".join(map(model.key_octets, keys)) + behind, self.bodies)
                it.left = left
                if found == standing.GOOD:
                    return True
        return False

    def names(self, it):
        """The key IDs of all issuers that a signature names."""
        said = [(octet & 127, octets) for octet, _, octets in (*it.hashed, *it.unhashed)]
        prints = {octets[1:9] if octets[:1] == b"\6" else octets[-8:] for kind, octets in said if kind == 33}
        return prints | {octets for kind, octets in said if kind == 16}

    def kind(self):
        """The first of these that it is."""
        said = [(part, it, made) for _, part, it, made in self.own()]
        subs = [body for it in self.heads(14) for body in set(it)]
        behind = [[part.kind for part in certificate] for certificate in self.certificates]
        displaced = sorted(set(self.displaced()))
        kinds = (
            ("the certificate is there twice", len({it for (it,) in self.heads(6)}) < len(self.certificates)),
            ("a subkey is there twice in a certificate", self.is_twice(14)),
            ("a user ID or attribute is there twice", self.is_twice(13, 17)),
            ("a key is in two certificates", len(set(subs)) < len(subs) or set(subs) & {it for (it,) in self.heads(6)}),
            ("a self-signature or back signature is older than its key", self.is_early()),
            ("an unfit subpacket", self.has_unfit()),
            ("a user ID's self-signature in version 6", any(it.version == 6 and it.kind in standing.CERTIFICATIONS for _, it, _ in said)),
            ("a self-signature has two creation times", any(made is None for _, _, made in said)),
            ("left octets that are wrong", self.has_wrong_left()),
            ("a self-signature by SHA-1", any(it.hash == 2 for _, it, _ in said)),
            ("a hash shorter than the key asks for", any(map(self.is_short, self.all))),
            ("a self-signature in the future", any(made and made > NOW for _, _, made in said)),
            ("a user ID behind a subkey", any(it in (13, 17) and 14 in kinds[:at] for kinds in behind for at, it in enumerate(kinds))),
            (f"displaced: type {' '.join(displaced)}", displaced),
            ("a signature of another version", any(it.version != c[0].key.version for c, _, it, *_ in self.rows)),
            ("a hash that isn't known", any(it.version in (4, 6) and it.hash not in model.HASHES for it in self.all)),
            ("a signature that names several issuers", any(len(self.names(it)) > 1 for it in self.all)),
            ("a signature that names no issuer", any(not self.names(it) for it in self.all)),
            ("an attribute's self-signature", any(part.kind == standing.ATTRIBUTE for part, _, _ in said)),
            ("several user IDs", len({part.body for part, it, _ in said if it.kind in standing.CERTIFICATIONS}) > 1),
            ("several embedded signatures", sum(row[3] for row in self.rows) > 1),
            ("a revocation key of class 00", any(sub[0] & 127 == 12 and sub[2] < b"\x80" for it in self.all for sub in it.hashed)),
        )
        return next((name for name, is_so in kinds if is_so), "other")


# What is compared.


def accepted(answer):
    return answer in ("GOODSIG/0", "yes")


def refusals(answers, programs):
    """Which programs refuse, and gpgv how."""
    return tuple(f"{it} {answer}" if "/" in answer else it for it, answer in zip(programs, answers) if not accepted(answer))


def is_refused_so(asker, octets, body, programs, wanted):
    """Whether the model believes, and these programs refuse, and no others. Those that are to refuse are asked first."""
    if believed(octets, body) is not None:
        return False
    names = {it.split()[0] for it in wanted}
    for some in ([it for it in programs if it in names], [it for it in programs if it not in names]):
        refused = refusals(asker.answers(octets, packet(2, body), DOCUMENT, some), some)
        if refused != tuple(it for it in wanted if it.split()[0] in some):
            return False
    return True


def smaller(asker, octets, body, programs, wanted):
    """The keyring without all packets that it can do without, so that the answers stay: certificates, then components, then packets."""
    parts = [(it[2], packet(it[2], it[4])) for it in model.framed([(b"", octets)], model.USUAL)]
    heads = ((6,), (6, 13, 14, 17), None)
    for level in heads * 2:
        at = len(parts)
        while at:
            at -= 1
            if level and parts[at][0] not in level:
                continue
            end = at + 1
            while level and end < len(parts) and parts[end][0] not in level:
                end += 1
            less = parts[:at] + parts[end:]
            if less and less[0][0] == 6 and is_refused_so(asker, b"".join(it for _, it in less), body, programs, wanted):
                parts = less
    return b"".join(it for _, it in parts)


def keep(folder, n, octets, body, why, answers):
    for name, it in (("ring", octets), ("sig", packet(2, body)), ("said", " ".join([why or "-", *answers]).encode())):
        with open(f"{folder}/{n}.{name}", "wb") as file:
            file.write(it)


def compare(words, asker, rng, pool):
    """Makes keyrings and signatures, asks, and prints the answers; and what is believed and refused."""
    programs, versions = (SIX, (6,)) if words.six else (FOUR, (4,))
    table, worse = collections.Counter(), []
    for n in range(words.count):
        ring = standing_cases.Ring(rng, new_key(rng, pool), TIMES, STEP, versions, (0, 0.01, 0.02, 0.05, 0.1, 0.2), True)
        octets, body = ring.octets()[0], ring.document(DOCUMENT)
        for _ in range(8):  # most of what is signed at random isn't believed
            if believed(octets, body) is not None and rng.random() < 0.9:
                body = ring.document(DOCUMENT)
        why = believed(octets, body)
        answers = asker.answers(octets, packet(2, body), DOCUMENT, programs)
        if words.keep:
            keep(words.keep, n, octets, body, why, answers)
        table[(why or "-", *answers)] += 1
        if why is None and not all(map(accepted, answers)):
            worse.append((octets, body, refusals(answers, programs)))
    print("\t".join(("model", *programs, "count")))
    for row, count in sorted(table.items(), key=lambda it: (it[0][0], -it[1])):
        print("\t".join((*row, str(count))))
    groups, counts = collections.defaultdict(list), collections.Counter(refused for *_, refused in worse)
    print(f"\n{sum(counts.values())} believed by the model and refused by a program")
    for octets, body, refused in worse:
        counts[refused] -= 1
        if counts[refused] < words.most:
            small = smaller(asker, octets, body, programs, refused)
            groups[Odd(small, body).kind(), refused].append((small, body))
    for (kind, refused), them in sorted(groups.items(), key=lambda it: (it[0][0], -len(it[1]))):
        print(f"\n{kind}: believed, and refused by {', '.join(refused)}: {len(them)}")
        for small, body in sorted(them, key=lambda it: len(it[0]))[: words.examples]:
            print(shown(small, body) + "\n")


def main():
    words = argparse.ArgumentParser()
    words.add_argument("root")
    words.add_argument("count", type=int)
    words.add_argument("--seed", default="1")
    words.add_argument("--six", action="store_true")
    words.add_argument("--most", type=int, default=20)
    words.add_argument("--examples", type=int, default=1)
    words.add_argument("--keep")
    words = words.parse_args()
    with ask.Asker(words.root) as asker:
        compare(words, asker, random.Random(words.seed), Pool())


if __name__ == "__main__":
    main()
