"""Keyrings for tests of standing, made by a generator of random numbers, with verdicts on their rows and questions about their keys.

cases(seed, count) needs no arithmetic: the fields that an algorithm would make are made up, and so are the verdicts. A Ring makes the
same kinds of keyrings of keys that are given to it, with signatures that verify if these keys have arithmetic. How odd it is is drawn for
each keyring: some are as a program would write them, in others hardly anything fits.

vectors() reads those of tests/vectors/validity, with the verdicts of arithmetic and what is to be answered."""

import base64
import collections
import os
import random
import re

import model
import standing
from openpgp_maker import Key, integer, number, on_identity, packet, signature, subpacket

# `questions` are (certificate, component, made, now), `states` (certificate, at), and `documents` (body, verdict, now).
Case = collections.namedtuple("Case", "octets verdicts policy questions states documents")
# A part of a certificate: its type, its body, and its key or None.
Part = collections.namedtuple("Part", "kind body key")

KEY, SUBKEY, USER_ID, ATTRIBUTE = standing.PRIMARY, standing.SUBKEY, standing.USER_ID, standing.ATTRIBUTE
# The types of signatures on each kind of part, the more the likelier.
TYPES = {
    KEY: (0x1F, 0x1F, 0x1F, 0x1F, 0x20),
    USER_ID: (0x13, 0x13, 0x13, 0x13, 0x10, 0x11, 0x12, 0x30),
    ATTRIBUTE: (0x13, 0x13, 0x13, 0x10, 0x30),
    SUBKEY: (0x18, 0x18, 0x18, 0x18, 0x18, 0x28),
}
ANY_TYPE = (0x00, 0x10, 0x11, 0x12, 0x13, 0x18, 0x18, 0x19, 0x1F, 0x1F, 0x20, 0x20, 0x20, 0x28, 0x28, 0x30, 0x40)
PARTS = (USER_ID, USER_ID, USER_ID, SUBKEY, SUBKEY, SUBKEY, ATTRIBUTE)
NAMES = (b"Alice <alice@example.org>", b"Bob <bob@example.org>", b"Carol <carol@example.org>", b"")
IMAGE = b"\x10\0\x01\x01" + bytes(12)  # in front of a picture (5.12.1)
PICTURES = (subpacket(1, IMAGE + b"\xff\xd8\xff\xd9"), subpacket(1, IMAGE + b"\xff\xd8\xff\xe0\xff\xd9"))
FLAGS = (0x03, 0x03, 0x03, 0x02, 0x02, 0x2E, 0x23, 0x01, 0x0C, 0x04, 0x08, 0x20, 0x00)
# Subpackets that say nothing here: preferences, features, a server, a notation, an unknown one.
NOISE = tuple(subpacket(kind, octets) for kind, octets in (
    (11, b"\x09\x07"), (21, b"\x0a\x08"), (22, b"\2"), (23, b"\x80"), (30, b"\x01"), (39, b"\x09\x02"), (24, b"hkps://example.org"),
    (20, bytes(4) + b"\0\5\0\1a@b.cv"), (60, b"x"), (4, b"\1"), (7, b"\1"), (28, b"alice@example.org")))  # fmt: skip
# Critical ones that nobody need understand; and that are understood.
CRITICAL = tuple(subpacket(kind, octets, True) for kind, octets in (
    (60, b"x"), (20, bytes(4) + b"\0\5\0\1a@b.cv"), (3, b"\0"), (27, b"\x02"), (25, b"\1\1"), (100, b""), (12, bytes(21)),
    (33, b"\4" + bytes(19)), (16, bytes(7)), (30, b"\1"), (11, b"\x09"), (32, b"\4")))  # fmt: skip


def once(octets, verdicts):
    """The keyring merged, and the verdict on each of its rows: that on the first one of the same signature in the same place before."""
    block = [(b"PUBLIC KEY BLOCK", octets)]
    packets = model.framed(block, model.USUAL)
    lead, certificates = model.compose(block, packets, model.USUAL)
    merged = model.written("merge", block, packets, lead, certificates, None, True)[1]
    return merged, carried(octets, verdicts, merged)


def carried(octets, verdicts, merged):
    """The verdicts on the rows of the merged keyring."""
    before, now = ([(c[0].body, part.kind, part.body, it.body, is_embedded) for c, part, it, is_embedded in standing.rows(standing.read(them))]
                   for them in (octets, merged))  # fmt: skip
    found = dict(reversed(list(zip(before, verdicts, strict=True))))
    return [found[it] for it in now]


class Ring:
    """Makes one keyring. new_key(version, created) gives a key; times are those of keys and signatures, a step apart. is_usual leaves out
    what programs refuse, but where it is odd: keys are the oldest of all, subkeys stand behind all else, key IDs are named too."""

    def __init__(self, rng, new_key, times, step, versions=(4, 6), oddness=(0, 0, 0.02, 0.05, 0.15, 0.4), is_usual=False):
        self.rng, self.new_key, self.times, self.step, self.versions = rng, new_key, times, step, versions
        self.is_usual = is_usual
        self.oddness = rng.choice(oddness)
        self.keys = []
        self.certificates = []
        for _ in range(rng.choice((1, 1, 1, 2, 3))):
            self.certificates.append(self.parts())

    def is_odd(self, more=1):
        return self.rng.random() < more * self.oddness

    def pick(self, those):
        return those[int(self.rng.random() * len(those))]

    # Keys and what is named.

    def created(self):
        return self.pick(self.times) if self.is_odd() else self.times[0 if self.is_usual else self.pick((0, 0, 0, 0, 1, 2))]

    def moment(self, is_late=False):
        """A time; mostly an early one for what is said of keys, and a late one for documents."""
        middle = 1 + len(self.times) // 2
        return self.pick(self.times if self.rng.random() < 0.3 else self.times[middle:] if is_late else self.times[:middle])

    def key(self, version):
        it = self.new_key(version, self.created())
        self.keys.append(it)
        return it

    def part(self, version):
        kind = self.pick(PARTS)
        if kind == SUBKEY:
            others = [it for it in self.keys if it.version == version] if self.is_odd() else []
            key = self.pick(others) if others else self.key(10 - version if self.is_odd(0.2) and not self.is_usual else version)
            return Part(kind, key.body, key)
        return Part(kind, self.pick(NAMES if kind == USER_ID else PICTURES), None)

    def parts(self):
        """The primary key and the components of a certificate, which may be those of an earlier one."""
        if self.certificates and self.is_odd(2):
            first, *rest = self.pick(self.certificates)
            return [first, *(it for it in rest if self.rng.random() < 0.7)]
        version = self.pick(self.versions)
        key = self.key(version)
        found = [Part(KEY, key.body, key)]
        for _ in range(self.pick((0, 1, 2, 2, 2, 3, 4))):
            found.append(self.pick(found[1:]) if len(found) > 1 and self.is_odd() else self.part(version))
        if self.is_usual and not self.is_odd():
            found[1:] = sorted(found[1:], key=lambda it: it.kind == SUBKEY)
        return found

    # Subpackets.

    def time(self, kind, value):
        return subpacket(kind, number(4, value & 0xFFFFFFFF))

    def span(self):
        return self.pick((0, 1, 2, 2, 3, 3, 4, 5, 6, 8)) * self.step

    def when(self, is_late):
        """The creation time of a signature, and what stands of it in the other area."""
        it = self.time(2, self.moment(is_late))
        if self.is_odd():
            other = self.time(2, self.moment(is_late))
            return self.pick(((b"", b""), (b"", it), (it + other, b""), (it + it, b""), (subpacket(2, b"\0") + it, b""), (it, other)))
        return it, b""

    def issuer(self, key):
        """How a signature names its issuer, in both areas."""
        name, number_ = key.issuer_fingerprint, key.issuer_key_id
        if self.is_odd():
            other = self.pick(self.keys)
            names = (b"", name, number_, other.issuer_fingerprint, other.issuer_key_id, subpacket(33, b"\4" + bytes(20)),
                     subpacket(33, key.fingerprint), subpacket(16, key.key_id[1:]))  # fmt: skip
            return self.pick(names) + self.pick(names), self.pick(names)
        if self.is_usual and key.version == 4:
            return self.pick(((name, number_), (name + number_, b"")))
        return self.pick(((name, b""), (name, number_), (name + number_, b""), (b"", number_), (number_, b"")))

    def flags(self):
        it = subpacket(27, bytes([self.pick(FLAGS[:7] if self.rng.random() < 0.7 else FLAGS)]))
        if self.is_odd():
            other = subpacket(27, self.pick((b"", b"\2", b"\3\0", b"\0\2", b"\1", b"\x0c\4")))
            return self.pick((b"", other, it + other, other + it))
        return it

    def revoker(self):
        key = self.pick(self.keys)
        designation = self.pick((0x80, 0xC0, 0x80, 0x80, 0x00)) if self.is_odd(2) else 0x80
        octets = bytes([designation, self.pick((key.algorithm, 1))]) + (key.fingerprint + bytes(20))[:20]
        return subpacket(12, octets[:-1] if self.is_odd(0.5) else octets)

    def areas(self, key, kind, inside=()):
        """The hashed and the unhashed area of a signature by the key."""
        rng = self.rng
        when, issuer = self.when(kind < 3), self.issuer(key)
        hashed, unhashed = [when[0], issuer[0]], [when[1], issuer[1]]
        if kind not in (0x19, 0x20, 0x28, 0x30, 0x00, 0x01):
            hashed.append(self.flags())
            for _ in range(self.pick((0, 0, 0, 1)) + self.is_odd()):
                hashed.append(self.time(9, self.span()))
        elif rng.random() < 0.3:
            hashed.append(subpacket(29, bytes([self.pick((0, 1, 2, 3, 32))])))
        if rng.random() < 0.1 or self.is_odd():
            hashed.append(self.time(3, self.span()))
        if self.is_odd(0.3):
            hashed.append(self.time(3, self.span()))
        if kind in (0x1F, 0x10, 0x13) and (rng.random() < 0.1 or self.is_odd()):
            hashed.append(self.revoker())
        for area in (hashed, unhashed):
            if rng.random() < 0.1:
                area.append(self.pick(NOISE))
            if self.is_odd(0.5):
                area.append(self.pick(CRITICAL))
            if self.is_odd(0.2):
                area.append(self.pick((subpacket(9, b"\0\1"), subpacket(3, b""), self.time(9, self.span()), self.flags(), self.revoker())))
        if kind in (0x10, 0x13) and rng.random() < 0.1:
            hashed.append(subpacket(25, b"\1"))
        for it in inside:
            (unhashed if rng.random() < 0.3 else hashed).append(subpacket(32, it))
        if rng.random() < 0.3:
            rng.shuffle(hashed)
            rng.shuffle(unhashed)
        return b"".join(hashed), b"".join(unhashed)

    # Signatures.

    def hash(self, version):
        if self.is_odd():
            return self.pick((2, 2, 2, 9, 11, 1, 3, 12, 14))
        return self.pick((8, 8, 8, 10)) if version == 6 or self.rng.random() < 0.95 else 2

    def made(self, key, kind, subject, areas, version):
        """The body of a signature, which may be of another version."""
        if self.is_odd(0.3):
            version = self.pick((4, 6, 3, 5))
        if version == 3:
            octets = key.make(bytes(32), 8) if key.algorithm in (1, 17) else integer(b"\1")
            algorithm = key.algorithm if key.algorithm in (1, 17) else 1
            return bytes([3, 5, kind]) + number(4, self.moment()) + key.key_id + bytes([algorithm, 8, 0, 0]) + octets
        if version == 5:
            return b"\5" + bytes([kind]) + bytes(100)
        return self.broken(signature(key, kind, subject, *areas, self.hash(version), version))

    def broken(self, body):
        """The body; or seldom with its last octet changed, or the one in front of what the key made."""
        if self.is_odd(0.5) or self.rng.random() < 0.02:
            at = self.pick((1, 1, 1 + len(model.Signature(body).material)))
            return body[:-at] + bytes([body[-at] ^ 1]) + body[len(body) - at + 1 :]
        return body

    def subject(self, certificate, part, kind):
        """What a signature of this type is made over. One that doesn't belong to its part is over another part where there is one."""
        primary = certificate[0].key.octets
        wanted = {0x18: (SUBKEY,), 0x19: (SUBKEY,), 0x28: (SUBKEY,)}.get(kind, (USER_ID, ATTRIBUTE))
        if kind in (0x1F, 0x20):
            return primary
        if part.kind not in wanted or self.is_odd(0.3):
            others = [it for it in certificate if it.kind in wanted]
            if not others:
                return primary
            part = self.pick(others)
        return primary + (part.key.octets if part.key else on_identity(part.kind, part.body))

    def backs(self, certificate, part, subject):
        """What is embedded in a binding."""
        if self.rng.random() < 0.1 or self.is_odd(0.5):
            return []
        found = []
        for _ in range(1 + (self.rng.random() < 0.06) + self.is_odd()):
            key = self.pick(self.keys) if self.is_odd() or part.key is None else part.key
            kind = self.pick(ANY_TYPE) if self.is_odd(0.5) else 0x19
            found.append(self.made(key, kind, subject, self.areas(key, kind), key.version))
        return found

    def on_part(self, certificate, part):
        """The body of a signature that hangs on a part."""
        primary = certificate[0].key
        kind = self.pick(ANY_TYPE) if self.is_odd() else self.pick(TYPES[part.kind])
        is_revocation = kind in (0x20, 0x28, 0x30)
        key = self.pick(self.keys) if self.is_odd() or (is_revocation and self.rng.random() < 0.3) else primary
        if is_revocation and self.rng.random() < 0.6:
            kind = self.pick(TYPES[part.kind][:2])  # fewer revoked keys
        subject = self.subject(certificate, part, kind)
        inside = self.backs(certificate, part, subject) if kind == 0x18 else []
        return self.made(key, kind, subject, self.areas(key, kind, inside), key.version)

    def document(self, text):
        """The body of a signature over a document, by one of the keys."""
        key = self.pick(self.keys)
        kind = self.pick((0x01, 0x01, 0x02, 0x13)) if self.is_odd(0.3) else 0x00
        text = text.replace(b"\n", b"\r\n") if kind == 0x01 else text
        return self.made(key, kind, text, self.areas(key, kind), key.version)

    # Packets.

    def packet(self, kind, body):
        """A packet in one of the forms that its length has (4.2)."""
        if kind < 16 and self.rng.random() < 0.1:
            size = self.pick([it for it in (0, 1, 2) if len(body) < 1 << (8 << it)])
            return bytes([0x80 | kind << 2 | size]) + number(1 << size, len(body)) + body
        if self.rng.random() < 0.03:
            return bytes([0xC0 | kind, 255]) + number(4, len(body)) + body
        return packet(kind, body)

    def octets(self):
        """The keyring, and how many rows it has."""
        found, rows = [], 0
        for certificate in self.certificates:
            for part in certificate:
                found.append(self.packet(part.kind, part.body))
                for _ in range(self.pick((0, 1, 2, 3, 4, 5, 6)) if self.is_odd(2) else self.pick((1, 1, 1, 1, 2, 2, 3))):
                    body = self.on_part(certificate, part)
                    found.append(self.packet(2, body))
                    rows += 1 + (part.kind == SUBKEY and body[1] == 0x18 and embedded(body))
                    if self.is_odd(0.3):
                        found.append(self.packet(self.pick((10, 12, 21)), b"PGP"))
        return b"".join(found), rows


def embedded(body):
    """How many signatures are embedded in a binding."""
    it = model.Signature(body)
    return sum(octet & 127 == 32 for octet, *_ in (*it.hashed, *it.unhashed))


# Without arithmetic.

STEP = 1000
TIMES = tuple(1_000_000_000 + STEP * n for n in range(8))
LAST = 0xFFFFFFFF
ALGORITHMS = (1, 17, 19, 22, 22, 27, 27, 28)
OIDS = {19: bytes.fromhex("082A8648CE3D030107"), 22: bytes.fromhex("092B06010401DA470F01")}
MADE = {1: 1, 17: 2, 19: 2, 22: 2}


def made_up(bits):
    return number(2, bits) + (1 << bits - 1).to_bytes((bits + 7) // 8, "big")


def new_key(rng):
    """Makes keys without arithmetic: each has other octets, and a few are weak."""

    def make_key(version, created):
        algorithm = ALGORITHMS[int(rng.random() * len(ALGORITHMS))]
        weak, some = rng.random() < 0.15, rng.getrandbits(62) | 1 << 62
        own = integer(number(8, some))
        if algorithm == 1:
            bits = rng.choice((1024, 2047)) if weak else rng.choice((2048, 3072))
            material = made_up(bits) + own
        elif algorithm == 17:
            p, q = rng.choice(((1024, 160), (2047, 224), (2048, 223))) if weak else (2048, rng.choice((224, 256)))
            material = made_up(p) + made_up(q) + integer(b"\2") + own
        elif algorithm == 19:
            size = rng.choice((49, 56)) if weak else rng.choice((57, 65, 97))
            material = OIDS[19] + integer(b"\4" + number(size - 1, some))
        elif algorithm == 22:
            material = OIDS[22] + integer(b"\x40" + number(32, some))
        else:
            material = number(32 if algorithm == 27 else 57, some)
        octets = bytes(64 if algorithm == 27 else 114) if algorithm in (27, 28) else made_up(9) * MADE[algorithm]
        return Key(version, created, algorithm, material, lambda digest, hash: octets)

    return make_key


def is_asked(certificate, part, it, is_embedded, keys):
    """Whether a verifier can say of a row that it is good: it is in its place, its hash is known, and a key of its version made it."""
    parts = [part] if part.kind == SUBKEY and it.kind != 0x20 else []
    is_in_place = it.kind == 0x19 if is_embedded else it.kind in standing.PLACES[part.kind]
    known = it.hash in model.HASHES and not (it.version == 6 and it.hash == 2)
    if it.version not in (4, 6) or not known or not is_in_place:
        return False
    signer = model.signer_of(it, keys)
    return all(other.key.version == it.version for other in (certificate[0], *parts)) and signer is not None and signer[0] == it.version


def verdicts(rng, count):
    """So many verdicts, mostly good ones."""
    doubt = rng.choice((0, 0.02, 0.1, 0.4))
    drawn = [rng.random() for _ in range(count)]
    return [standing.BAD if it < doubt / 2 else standing.UNDECIDED if it < doubt else standing.GOOD for it in drawn]


def honest(octets, found):
    """The verdicts, but that a row is undecided that isn't asked."""
    certificates = standing.read(octets)
    keys = [part.body for certificate in certificates for part in certificate if part.key]
    rows = standing.rows(certificates)
    return [verdict if is_asked(*row, keys) else standing.UNDECIDED for row, verdict in zip(rows, found)]


def asked_times(rng, times):
    """When something is made, and when it is read, mostly later."""
    made, now = (times[2 + int(rng.random() * (len(times) - 2))] + (-1, 0, 0, 0, 1)[int(rng.random() * 5)] for _ in range(2))
    return (made, now) if rng.random() < 0.05 else (min(made, now), max(made, now))


def case(rng, is_honest=False):
    """A keyring with verdicts and questions."""
    times = TIMES if rng.random() < 0.9 else (0, STEP, *TIMES[:2], LAST - STEP, LAST)
    ring = Ring(rng, new_key(rng), times, STEP if rng.random() < 0.97 else LAST // 8)
    octets, rows = ring.octets()
    found = verdicts(rng, rows)
    questions, states = [], []
    for c, certificate in enumerate(ring.certificates):
        for n, part in enumerate(certificate):
            for _ in range(2 if part.key else 0):
                questions.append((c, n - 1 if n else None, *asked_times(rng, times)))
        states.append((c, asked_times(rng, times)[1]))
    text = b"document\n"
    drawn = (standing.GOOD, standing.GOOD, standing.GOOD, standing.GOOD, standing.BAD, standing.UNDECIDED)
    documents = [(ring.document(text), rng.choice(drawn), asked_times(rng, times)[1]) for _ in range(2)]
    policy = rng.choice(("usual", "usual", "usual", "any"))
    return Case(octets, honest(octets, found) if is_honest else found, policy, questions, states, documents)


def cases(seed, count, is_honest=False):
    """So many keyrings, the same ones for the same seed."""
    rng = random.Random(seed)
    for _ in range(count):
        yield case(rng, is_honest)


# With arithmetic, written down.

Vector = collections.namedtuple("Vector", "stem title octets verdicts documents expected")
LETTERS = {"g": standing.GOOD, "b": standing.BAD, "u": standing.UNDECIDED}


def vectors():
    """The cases of tests/vectors/validity: `documents` are (body, verdict), and `expected` why each isn't to be believed, or None."""
    folder, packets, titles, found = f"{os.path.dirname(os.path.realpath(__file__))}/../vectors/validity", {}, {}, []
    with open(f"{folder}/cases.txt", encoding="utf-8") as it:
        for row in (re.split("  +", line.strip()) for line in it if line[0] != "#"):
            titles[row[0]] = row[-1], [None if word == "-" else word for word in row[1].split()]
    with open(f"{folder}/octets.txt", encoding="ascii") as it:
        for word, *rest in (line.split() for line in it if line[0] != "#"):
            if word == "packet":
                packets[rest[0]] = base64.b64decode(rest[1])
                continue
            stem, letters, *numbers = rest
            cut, (rows, own) = numbers.index("/"), ([LETTERS[it] for it in some if it != "-"] for some in letters.split("/"))
            octets = b"".join(packets[it] for it in numbers[:cut])
            bodies = [model.packet_of(packets[it], 0, 0, model.USUAL) for it in numbers[cut + 1 :]]
            documents = list(zip([body for kind, _, body, _ in bodies if kind == 2], own))
            found.append(Vector(stem, titles[stem][0], octets, rows, documents, titles[stem][1]))
    return found
