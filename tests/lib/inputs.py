"""Inputs for tests of the program, made by a generator of random numbers: packets, keyrings, signed literals and armored
texts, and what breaks them. input_of(rng) makes one of all of these; the same numbers make the same input."""

import base64
import hashlib
import re

import model

# The names of packet types (RFC 9580, 5).
PACKET_TYPES = {
    0: "Reserved", 1: "Public Key Encrypted Session Key", 2: "Signature", 3: "Symmetric Key Encrypted Session Key",
    4: "One-Pass Signature", 5: "Secret Key", 6: "Public Key", 7: "Secret Subkey", 8: "Compressed Data",
    9: "Symmetrically Encrypted Data", 10: "Marker", 11: "Literal Data", 12: "Trust", 13: "User ID", 14: "Public Subkey",
    17: "User Attribute", 18: "Symmetrically Encrypted and Integrity Protected Data", 21: "Padding",
}  # fmt: skip
SALTS = {8: 16, 9: 24, 10: 32, 11: 16, 12: 16, 14: 32}


# The octets of packets, made.


def number(size, value):
    return value.to_bytes(size, "big")


def some(rng, most):
    return rng.randbytes(rng.choice((0, 1, rng.randrange(most + 1))))


def integer(rng, strict):
    """A multiprecision integer; where it needn't be strict, or seldom, with a count of bits that may be off."""
    bits = rng.choice((0, 1, 7, 8, 9, 16, 17, 255, 256, rng.randrange(600)))
    octets = bytearray(rng.randbytes((bits + 7) // 8))
    if octets and rng.random() < (0.98 if strict else 0.7):
        top = (bits - 1) % 8
        octets[0] = (octets[0] | 1 << top) & (2 << top) - 1
    return number(2, bits) + bytes(octets)


def sized(rng, forbidden=0.05):
    """Octets behind a size octet that isn't 0 or 255, or seldom is."""
    if rng.random() < forbidden:
        return bytes([rng.choice((0, 255))])
    octets = rng.randbytes(rng.choice((1, 3, 8, 9, 10, rng.randrange(1, 255))))
    return bytes([len(octets)]) + octets


KEY_MATERIAL = {1: "ii", 2: "ii", 3: "ii", 16: "iii", 17: "iiii", 18: "sis", 19: "si", 22: "si"}
KEY_OCTETS = {25: 32, 26: 56, 27: 32, 28: 57}
SIGNATURE_MATERIAL = {1: "i", 3: "i", 17: "ii", 19: "ii", 22: "ii"}
SIGNATURE_OCTETS = {27: 64, 28: 114}


def material(rng, algorithm, fields, octets, strict):
    if algorithm in octets:
        return rng.randbytes(octets[algorithm])
    if algorithm not in fields:
        return some(rng, 40)
    return b"".join(integer(rng, strict) if it == "i" else sized(rng) for it in fields[algorithm])


def key(rng, version=None, algorithm=None):
    version = version or rng.choice((4, 4, 4, 6, 6, 6, rng.choice((4, 6, 2, 3, 5, rng.randrange(256)))))
    if algorithm is None:
        algorithm = rng.choice((1, 2, 3, 16, 17, 18, 19, 22, 25, 26, 27, 28, 27, 22, rng.randrange(256)))
    body = material(rng, algorithm, KEY_MATERIAL, KEY_OCTETS, version == 6)
    count = number(4, len(body)) if version == 6 else b""
    return bytes([version]) + rng.randbytes(4) + bytes([algorithm]) + count + body


def fingerprint(body):
    if body[:1] == b"\6":
        return hashlib.sha256(b"\x9b" + number(4, len(body)) + body).digest()
    return hashlib.sha1(b"\x99" + number(2, len(body) & 0xFFFF) + body).digest()


def key_id(body):
    return fingerprint(body)[:8] if body[:1] == b"\6" else fingerprint(body)[-8:]


def subpacket_length(rng, n):
    forms = [b"\xff" + number(4, n)]
    if n < 192:
        forms += [bytes([n])] * 8
    elif n < 16320:
        forms += [bytes([(n - 192 >> 8) + 192, n - 192 & 255])] * 3
    return rng.choice(forms)


def subpacket(rng, keys, depth, kind=None):
    if kind is None:
        kind = rng.choice((2, 3, 4, 5, 6, 7, 9, 11, 12, 16, 16, 20, 21, 27, 29, 30, 31, 32, 32, 33, 33, 35, 39, rng.randrange(128)))
    sizes = {2: 4, 3: 4, 4: 1, 5: 2, 7: 1, 9: 4, 12: 22, 16: 8, 25: 1}
    octets = rng.randbytes(sizes[kind]) if kind in sizes else some(rng, 12)
    named = rng.choice(keys) if keys and rng.random() < 0.8 else bytes([rng.choice((4, 6))])
    if kind == 6:
        octets += b"\0"
    elif kind == 16:
        octets = key_id(named)
    elif kind == 20:
        name, value = some(rng, 9), some(rng, 9)
        octets = rng.randbytes(4) + number(2, len(name)) + number(2, len(value)) + name + value
    elif kind == 32 and depth < 3:
        octets = signature(rng, keys, depth + 1, rng.choice((0x19, 0x19, 0x18)))
    elif kind in (33, 35):
        octets = rng.choice((named[:1], named[:1], named[:1], b"\4", b"\6", b"\5")) + fingerprint(named)
    elif kind == 39:
        octets += octets
    elif kind == 23 and len(octets) != 1:
        octets = b"\x80" + octets  # no-modify, which random flags seldom have
    if rng.random() < 0.1:
        octets = rng.choice((octets[:-1], octets + b"\0", b"", some(rng, 300)))
    if rng.random() < 0.005:
        octets = bytes(rng.choice((190, 191, 192, 8190, 8191, 8192, 16317, 16318, 16319)))
    return subpacket_length(rng, len(octets) + 1) + bytes([kind | rng.choice((0, 128))]) + octets


def area(rng, keys, depth, most=4):
    empty = rng.choice((b"\0", b"\xff\0\0\0\0")) if rng.random() < 0.002 else b""
    return b"".join(subpacket(rng, keys, depth) for _ in range(rng.randrange(most))) + empty


def signature(rng, keys=(), depth=0, kind=None, version=None, algorithm=None, hashed=None, first=b""):
    """A signature; its hashed area begins with these subpackets."""
    if version is None:
        version = rng.choice((4, 4, 4, 6, 6, 6, 3, rng.choice((2, 5, 0, rng.randrange(256)))))
        if keys and rng.random() < 0.7:
            version = keys[0][0]
    if kind is None:
        kind = rng.choice((0x00, 0x10, 0x13, 0x18, 0x18, 0x19, 0x1F, 0x20, 0x28, 0x30, rng.randrange(256)))
    if algorithm is None:
        algorithm = rng.choice((1, 3, 17, 19, 22, 27, 28, 22, 27, rng.randrange(256)))
    if hashed is None:
        hashed = rng.choice((2, 8, 8, 9, 10, 11, 12, 14, 1, rng.randrange(256)))
    body = material(rng, algorithm, SIGNATURE_MATERIAL, SIGNATURE_OCTETS, version == 6)
    if version == 3:
        algorithm = rng.choice((1, 3, 17))
        body = material(rng, algorithm, SIGNATURE_MATERIAL, {}, False)
        algorithm = rng.choice((algorithm, algorithm, algorithm, 2, 3, 22))
        fixed = rng.choice((5, 5, 5, 5, 4))
        return bytes([3, fixed, kind]) + rng.randbytes(12) + bytes([algorithm, hashed]) + b"\xab\xcd" + body
    if version not in (4, 6):
        return rng.choice((b"", bytes([version]) + some(rng, 60)))
    width = 2 if version == 4 else 4
    one, two = first + area(rng, keys, depth), area(rng, keys, depth, 3)
    fields = bytes([version, kind, algorithm, hashed]) + number(width, len(one)) + one + number(width, len(two)) + two
    salt = b""
    if version == 6:
        size = SALTS.get(hashed, rng.choice((0, 16, 32, 255)))
        if rng.random() < 0.01:
            size = rng.randrange(256)
        salt = bytes([size]) + rng.randbytes(size)
    return fields + rng.randbytes(2) + salt + body


def attribute(rng):
    return b"".join(
        subpacket_length(rng, len(octets) + 1) + rng.randbytes(1) + octets
        for octets in (some(rng, 250) for _ in range(rng.choice((0, 1, 1, 2))))
    )


def literal(rng):
    name = some(rng, 20)
    content = rng.randbytes(rng.choice((0, 1, rng.randrange(700), rng.randrange(5000), rng.randrange(5000))))
    return rng.choice((b"b", b"t", b"u", b"\0")) + bytes([len(name)]) + name + rng.randbytes(4) + content


def user_id(rng):
    return rng.choice((b"", b"Alice <alice@example.org>", some(rng, 200), b'a "b" \\ \x7f\xc3\xa4'))


BODIES = {2: signature, 6: key, 11: literal, 13: user_id, 14: key, 17: attribute}


def packet(rng, kind, body):
    """A packet in a form that its length has, and seldom in one that it may not have, or with its body broken."""
    if rng.random() < 0.02:
        body = broken(rng, body)
    n = len(body)
    old = [b for b in range(3) if n < 1 << (8 << b)]
    if kind < 16 and rng.random() < 0.25:
        form = rng.choice(old)
        return bytes([0x80 | kind << 2 | form]) + number(1 << form, n) + body
    head = bytes([0xC0 | kind & 63])
    if (kind in (9, 11, 18) and n >= 512 and rng.random() < 0.7) or rng.random() < 0.004:
        return head + in_pieces(rng, body)
    forms = [b"\xff" + number(4, n)]
    if n < 192:
        forms += [bytes([n])] * 6
    elif n < 8384:
        forms += [bytes([(n - 192 >> 8) + 192, n - 192 & 255])] * 3
    return head + rng.choice(forms) + body


def in_pieces(rng, body):
    at, out, least = 0, b"", rng.choice((9, 9, 9, 9, 8, 4))
    while len(body) - at >= 1 << least and (not out or rng.random() < 0.8):
        exponent = rng.randrange(least, (len(body) - at).bit_length())
        out += bytes([0xE0 + exponent]) + body[at : at + (1 << exponent)]
        at += 1 << exponent
        least = 0
    last = body[at:]
    forms = [b"\xff" + number(4, len(last))]
    if len(last) < 192:
        forms.append(bytes([len(last)]))
    return out + rng.choice(forms) + last


def filler(rng):
    return packet(rng, rng.choice((10, 12, 21, 40, 63, rng.randrange(40, 64))), rng.choice((b"PGP", some(rng, 30))))


def some_packet(rng, keys=()):
    kind = rng.choice((2, 2, 6, 11, 13, 14, 17, 40, rng.choice((1, 3, 4, 5, 7, 9, 10, 12, 18, 21, rng.randrange(64)))))
    if kind == 2:
        return packet(rng, 2, signature(rng, keys))
    return packet(rng, kind, BODIES[kind](rng) if kind in BODIES else some(rng, 600))


def with_its_digest(body, subject):
    """The signature, with the first octets of what its hash is over the subject where they stand."""
    it = model.Signature(body)
    if it.version not in (4, 6) or it.hash not in model.HASHES:
        return body
    octets = it.salt + subject + it.front + bytes([it.version, 255]) + number(4, len(it.front))
    width = 2 if it.version == 4 else 4
    at = len(it.front)
    at += width + int.from_bytes(body[at : at + width], "big")
    return body[:at] + hashlib.new(model.HASHES[it.hash], octets).digest()[:2] + body[at + 2 :]


def hangs(rng, keys, kinds, subject):
    """What hangs on a key, a user ID or an attribute; many signatures say rightly how their digest begins."""
    found = []
    for _ in range(rng.choice((0, 1, 1, 2, 3))):
        if rng.random() < 0.15:
            found.append(filler(rng))
            continue
        body = signature(rng, keys, 0, rng.choice(kinds))
        if rng.random() < 0.4:
            try:
                body = with_its_digest(body, subject)
            except model.Unfit:
                pass
        found.append(packet(rng, 2, body))
    return found


def certificate(rng):
    version = rng.choice((4, 4, 6, 6, None))
    keys = [key(rng, version)]
    subject = model.key_octets(keys[0])
    parts = [packet(rng, 6, keys[0])] + hangs(rng, keys, (0x1F, 0x20, 0x30, 0x10), subject)
    for _ in range(rng.choice((0, 1, 1, 2, 3))):
        kind = rng.choice((13, 13, 14, 14, 17))
        body = key(rng, version) if kind == 14 else BODIES[kind](rng)
        if kind == 14:
            keys.append(body)
            about = model.key_octets(body)
        else:
            about = (b"\xb4" if kind == 13 else b"\xd1") + number(4, len(body)) + body
        kinds = (0x18, 0x18, 0x28, 0x19) if kind == 14 else (0x10, 0x13, 0x30, 0x11, 0x12, 0x18)
        parts += [packet(rng, kind, body)] + hangs(rng, keys, kinds, subject + about)
    return parts


def another_of(rng, parts):
    """A certificate with the same primary key, and some of the same packets in any order and form."""
    for part in [parts[0], *rng.choices(parts, k=rng.randrange(2 * len(parts)))]:
        try:
            kind, _, body, _ = model.packet_of(part, 0, 0, model.USUAL)
            yield packet(rng, kind, body)
        except model.Refused:
            yield part


def keyring(rng):
    parts = [filler(rng) for _ in range(rng.choice((0, 0, 0, 1, 2)))]
    for _ in range(rng.choice((0, 1, 1, 1, 2, 3))):
        one = certificate(rng)
        parts += one
        if rng.random() < 0.15:
            parts += another_of(rng, one)
    if rng.random() < 0.05:
        parts.insert(rng.randrange(len(parts) + 1), some_packet(rng))
    return parts


def sound(make):
    """What is made, again and again until it has no fault below composition."""
    while model.answer("show", octets := make())[0]:
        pass
    return octets


def whole_range(rng):
    """A keyring with each algorithm, and with each type, hash, kind and want of a signature, in some order: what is seldom drawn."""
    version = rng.choice((4, 6))
    algorithms = rng.sample([*KEY_MATERIAL, *KEY_OCTETS], k=len(KEY_MATERIAL) + len(KEY_OCTETS))
    types = {6: (0x1F, 0x20), 13: (0x10, 0x11, 0x12, 0x13, 0x30), 17: (0x10, 0x13), 14: (0x18, 0x28)}
    fields = {"kind": sum(types.values(), ()), "hashed": tuple(model.HASHES), "algorithm": (*SIGNATURE_MATERIAL, *SIGNATURE_OCTETS)}
    kinds, parts = rng.sample([*model.KINDS], k=len(model.KINDS)), []
    # What a signature is that a question is asked of, or not: by these fields.
    wants = [{}, {"version": 3}, {"version": 5}, {"version": 10 - version}, {"kind": 0x40}, {"kind": 0x00}, {"kind": 0x19}, {"hashed": 1}]

    def signed(subject, place, keys):
        """Signatures on what is there, of which the first say rightly how their digest begins."""
        for n, want in enumerate([*({"kind": it} for it in types[place]), rng.choice(wants)]):
            drawn = {name: rng.choice(values) for name, values in fields.items()} | {"version": version} | want
            some = b"".join(subpacket(rng, keys, 1, kinds[(len(parts) + n + k) % len(kinds)]) for k in range(3))
            if place == 14 and want.get("kind") == 0x18:
                for it in wants:
                    inside = signature(rng, keys, 3, **({"kind": 0x19, "version": version, "hashed": 8} | it))
                    some += subpacket_length(rng, len(inside) + 1) + b"\x20" + inside

            def made():
                body = signature(rng, keys, 2, first=some, **drawn)
                try:
                    return packet(rng, 2, with_its_digest(body, subject) if n < 2 else body)
                except model.Unfit:
                    return packet(rng, 2, body)

            parts.append(sound(made))

    def placed(kind, body):
        parts.append(sound(lambda: packet(rng, kind, body)))

    def new_key(algorithm):
        return model.packet_of(sound(lambda: b"\xc6\xff" + sized_by_four(key(rng, version, algorithm))), 0, 0, model.USUAL)[2]

    for primary, other in zip(algorithms, algorithms[1:] + algorithms[:1]):
        keys = [new_key(primary), new_key(other)]
        subject = model.key_octets(keys[0])
        placed(6, keys[0])
        signed(subject, 6, keys)
        for kind in rng.sample((13, 17), k=1):
            body = sound_body(rng, kind)
            placed(kind, body)
            signed(subject + (b"\xb4" if kind == 13 else b"\xd1") + number(4, len(body)) + body, kind, keys)
        placed(14, keys[1])
        signed(subject + model.key_octets(keys[1]), 14, keys)
        placed(rng.choice((10, 12, 21)), b"PGP")
    return parts


def sized_by_four(octets):
    return number(4, len(octets)) + octets


def sound_body(rng, kind):
    """The body of a user ID or an attribute that has no fault."""
    return sound(lambda: bytes([0xC0 | kind, 255]) + sized_by_four(BODIES[kind](rng)))[6:]


def each_packet(rng):
    """A packet of each type that is neither critical and unknown nor compressed, in some order."""
    kinds = rng.sample((*range(1, 8), *range(9, 15), 17, 18, 21, 40, 63), k=18)
    return [sound(lambda: packet(rng, kind, BODIES[kind](rng) if kind in BODIES else some(rng, 600))) for kind in kinds]


def message(rng):
    k = rng.choice((1, 1, 2, 3))
    signatures = [packet(rng, 2, signature(rng, (), 0, rng.choice((0, 0, 0, 1)))) for _ in range(k)]
    fillers = [filler(rng)] if rng.random() < 0.1 else []
    return [packet(rng, 4, rng.randbytes(13)) for _ in range(k)] + fillers + [packet(rng, 11, literal(rng))] + signatures


def large(rng):
    """A literal, filler or key of many octets."""
    octets = rng.randbytes(rng.choice((65_529, 65_530, 70_000, 140_000)))
    kind = rng.choice((11, 40, 6, 6, 6))
    if kind == 6:
        counted = b"\6\0\0\0\0\xc8" + number(4, len(octets))
        body = rng.choice((counted, b"\4\0\0\0\0\xc8", b"\4\0\0\0\0\xc8")) + octets
    else:
        body = b"b\0\0\0\0\0" + octets
    return [packet(rng, kind, body)]


def packets(rng):
    made = rng.random()
    if made < 0.04:
        return whole_range(rng)
    if made < 0.06:
        return each_packet(rng)
    if made < 0.62:
        return keyring(rng)
    if made < 0.74:
        return message(rng)
    if made < 0.98:
        return [some_packet(rng) for _ in range(rng.choice((0, 1, 1, 2, 4)))]
    return large(rng)


# Armored texts, made.


LABELS = (b"PUBLIC KEY BLOCK",) * 12 + (b"MESSAGE",) * 4 + (b"PRIVATE KEY BLOCK", b"SIGNATURE", b"SIGNED MESSAGE")


def block(rng, octets):
    """The text in any of its forms, and seldom in none."""
    label = rng.choice(LABELS)
    letters = base64.b64encode(octets)
    if letters.endswith(b"=") and rng.random() < 0.05:  # bits of the last letter that aren't used
        at = letters.index(b"=") - 1
        letters = letters[:at] + rng.choice((b"B", b"x", b"/")) + letters[at + 1 :]
    width = rng.choice((64, 64, 76, 4, 5, 63, 1000)) if len(letters) < 3000 else 64
    lines = [b"-----BEGIN PGP " + label + b"-----"]
    lines += [rng.choice((b"Version: 1", b"Comment:", b"a:b:c", b"k:  v", b"Hash: SHA512"))] * rng.choice((0, 0, 0, 1, 2))
    lines.append(b"")
    for at in range(0, len(letters), width):
        lines.append(letters[at : at + width])
        if rng.random() < 0.01:
            lines.append(b"")
    if rng.random() < 0.4:
        lines.append(rng.choice((b"=AAAA", b"=zz!", b"=")))
        lines += [b"AAAA"] * (rng.random() < 0.03)
    lines.append(b"-----END PGP " + label + b"-----")
    return lines


def text(rng, parts):
    lines = []
    cuts = sorted(rng.randrange(len(parts) + 1) for _ in range(rng.choice((0, 0, 0, 1, 2))))
    for start, end in zip([0, *cuts], [*cuts, len(parts)]):
        lines += [rng.choice((b"Hello", b"", b"- -----BEGIN", b"-----END PGP MESSAGE-----"))] * rng.choice((0, 0, 0, 1))
        lines += block(rng, b"".join(parts[start:end]))
    lines += [b"Bye"] * rng.choice((0, 0, 1))
    end = rng.choice((b"\n", b"\n", b"\n", b"\r\n", b" \t\r\n"))
    return end.join(lines) + rng.choice((end, end, b""))


# What breaks them.


TOKENS = (
    b"-----BEGIN PGP ", b"-----BEGIN PGP PUBLIC KEY BLOCK-----\n", b"-----END PGP PUBLIC KEY BLOCK-----\n", b"\n", b"\r\n", b"\n\n",
    b"=", b"==", b"=AAAA\n", b"-", b":", b" ", b"\t", b"\0", b"\xff", b"\xff\xff\xff\xff", b"\xff\0\0\0\0", b"\xe9", b"\xcb\xe9",
    b"\xc6\x33\x04", b"\xc2\x0e\x04", b"\xcd\0", b"\xd6\0", b"\xe8\0", b"\x80", b"\xfe",
)  # fmt: skip
EDGES = (0, 1, 2, 4, 6, 127, 128, 191, 192, 193, 223, 224, 225, 233, 254, 255)


def place(rng, octets):
    """A range of the octets, mostly a short one."""
    start = rng.randrange(len(octets) + 1)
    return start, min(len(octets), start + rng.choice((0, 1, 2, 4, 16, rng.randrange(len(octets) + 1))))


def broken(rng, octets):
    """The octets with one thing changed."""
    start, end = place(rng, octets)
    way = rng.randrange(10)
    if way == 0 and octets:
        at = rng.randrange(len(octets))
        return octets[:at] + bytes([octets[at] ^ 1 << rng.randrange(8)]) + octets[at + 1 :]
    if way == 1 and octets:
        at = rng.randrange(min(len(octets), rng.choice((4, 16, len(octets)))))
        return octets[:at] + bytes([rng.choice(EDGES)]) + octets[at + 1 :]
    if way == 2:
        return octets[:start] + octets[end:]
    if way == 3:
        return octets[:start] + rng.randbytes(rng.choice((1, 2, 8))) + octets[start:]
    if way == 4:
        return octets[:end] + octets[start:]
    if way == 5:
        other = b"".join(packets(rng))
        here, there = place(rng, other)
        return octets[:start] + other[here:there] + octets[end:]
    if way == 6:
        return octets[:start]
    if way == 7:
        return octets[:start] + rng.choice(TOKENS) + octets[start:]
    if way == 8:
        return lengths_changed(rng, octets)
    return octets[start:] + octets[:start]


def lengths_changed(rng, octets):
    """One of the octets that look like a packet's header has another length behind it, or a length field in it."""
    heads = [it.start() for it in re.finditer(rb"[\x80-\xff]", octets[:4000])]
    if not heads:
        return octets
    at = rng.choice(heads) + 1
    by = rng.choice((-2, -1, 1, 2, 8))
    if rng.random() < 0.5 and at < len(octets):
        return octets[:at] + bytes([(octets[at] + by) & 255]) + octets[at + 1 :]
    return octets[:at] + rng.choice((b"\xff\xff\xff\xff\xff", b"\xff\0\0\0\1", b"\xc0\0", b"\xe1", b"\xe9", b"\0")) + octets[at:]


def lines_broken(rng, octets):
    lines = octets.split(b"\n")
    at = rng.randrange(len(lines))
    way = rng.randrange(6)
    if way == 0:
        del lines[at]
    elif way == 1:
        lines.insert(at, lines[at])
    elif way == 2:
        other = rng.randrange(len(lines))
        lines[at], lines[other] = lines[other], lines[at]
    elif way == 3:
        cut = rng.randrange(len(lines[at]) + 1)
        lines[at : at + 1] = [lines[at][:cut], lines[at][cut:]]
    elif way == 4:
        lines[at : at + 2] = [b"".join(lines[at : at + 2])]
    else:
        filled = b"A" * (rng.choice((8192, 8193, 8200)) - len(lines[at]))
        lines[at] += rng.choice((b"=", b"A", b"!", b" ", b"-----", b":", b"\t\r", filled))
    return b"\n".join(lines)


def input_of(rng):
    parts = packets(rng)
    if rng.random() < 0.35:
        at = rng.randrange(len(parts) + 1)
        octets = b"".join(parts)
        for _ in range(rng.choice((1, 1, 2, 4))):
            octets = broken(rng, octets)
        parts = [octets] if rng.random() < 0.8 else parts[:at] + [octets]
    if rng.random() < 0.5:
        return b"".join(parts)
    octets = text(rng, parts)
    for _ in range(rng.choice((0, 0, 0, 1, 2))):
        octets = rng.choice((lines_broken, lines_broken, broken))(rng, octets)
    return octets
