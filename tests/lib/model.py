"""What each command answers to an input, written from docs/FORMAT.md, tests/vectors and RFC 9580 alone and as plainly as it
goes: an answer to hold the program's against."""

import base64
import collections
import datetime
import hashlib
import os
import re

ALPHABET = b"ABCDEFGHIJKLMNOPQRSTUVWXYZabcdefghijklmnopqrstuvwxyz0123456789+/"
LABELS = (b"MESSAGE", b"PUBLIC KEY BLOCK", b"PRIVATE KEY BLOCK", b"SIGNATURE")
Limits = collections.namedtuple("Limits", "line body cert pieces outside malformed")
USUAL = Limits(8192, 1 << 24, 1 << 26, 1 << 20, "skip", "refuse")


class Refused(Exception):
    """An input is refused, with this line."""

    def __init__(self, layer, reason, block, at, inner):
        super().__init__(f"{layer}: {reason} block {block} at {at} inner {inner}\n".encode())


class Unfit(Exception):
    """A body has this fault."""

    def __init__(self, reason, inner):
        super().__init__(reason, inner)


def number(octets):
    return int.from_bytes(octets, "big")


def sized(size, octets):
    return len(octets).to_bytes(size, "big") + octets


# Armor.


class Letters:
    """The letters of a block, joined: octets of whole groups, and the letters of one that isn't whole."""

    def __init__(self):
        self.octets, self.group, self.padded = b"", b"", False

    def add(self, line):
        """Whether the letters, with this line behind them, can still become base64."""
        for letter in line:
            if self.padded or (letter != 61 and b"=" in self.group) or (letter == 61 and len(self.group) < 2):
                return False
            self.group += bytes([letter])
            if len(self.group) == 4:
                octets = base64.b64decode(self.group)
                if base64.b64encode(octets) != self.group:  # unused bits are set
                    return False
                self.padded = b"=" in self.group
                self.octets += octets
                self.group = b""
        return b"=" not in self.group


def begun(content):
    """The label of a begin line, or None."""
    label = content[15:-5]
    return label if content == b"-----BEGIN PGP " + label + b"-----" and label in LABELS else None


def behind_the_headers(content, checked, label, letters):
    """What a line behind a block's headers is: the next situation, or the reason why it is none."""
    if not content:
        return "checked" if checked else "data"
    if content.startswith(b"-"):
        if content != b"-----END PGP " + label + b"-----":
            return "EndLabel"
        return "Padding" if letters.group else "outside"
    if checked:
        return "AfterChecksum"
    if content.startswith(b"="):
        return "Padding" if letters.group else "checked"
    if any(it not in ALPHABET + b"=" for it in content):
        return "Letters"
    return "data" if letters.add(content) else "Padding"


def dearmored(text, limits):
    """The labels and octets of the blocks."""
    blocks, where, begin = [], "outside", 0
    label, letters = None, Letters()
    for line in text.split(b"\n"):
        if begin == len(text):
            break
        content = line.rstrip(b" \t\r")
        begins = line.startswith(b"-----BEGIN PGP ")
        reason = None
        if (where != "outside" or begins) and len(line) > limits.line:
            reason = "LineTooLong"
        elif where == "outside":
            if begins:
                label, letters, where = begun(content), Letters(), "headers"
                reason = None if label else "Label"
            elif limits.outside == "refuse":
                if line[: limits.line + 1].strip(b" \t\r"):
                    reason = "Outside"
                elif len(line) > limits.line:
                    reason = "LineTooLong"
        elif where == "headers":
            if not content:
                where = "data"
            elif content.find(b":") < 1:
                reason = "Header"
        else:
            where = behind_the_headers(content, where == "checked", label, letters)
            if where == "outside":
                blocks.append((label, letters.octets))
            elif where not in ("data", "checked"):
                reason = where
        if reason:
            raise Refused("armor", reason, len(blocks), begin, 0)
        begin += len(line) + 1
    if where != "outside":
        raise Refused("armor", "Unfinished", len(blocks), len(text), 0)
    if not blocks:
        raise Refused("armor", "NoBlock", 0, len(text), 0)
    return blocks


# Framing.


def length_of(octets):
    """The form, the length and how many octets spell it, of a length in the current format; None where they aren't there."""
    if not octets or (octets[0] >= 192 and octets[0] < 224 and len(octets) < 2) or (octets[0] == 255 and len(octets) < 5):
        return None
    first = octets[0]
    if first < 192:
        return "new1", first, 1
    if first < 224:
        return "new2", (first - 192) * 256 + octets[1] + 192, 2
    if first < 255:
        return "part", 1 << (first - 224), 1
    return "new5", number(octets[1:5]), 5


def old_length_of(octets, kind):
    size = 1 << kind
    return None if len(octets) < size else (f"old{size}", number(octets[:size]), size)


def packet_of(octets, block, at, limits):
    """The packet that begins the octets: its type, form and body, and how many octets spell it."""

    def refuse(reason, inner=0):
        raise Refused("framing", reason, block, at, inner)

    first = octets[0]
    new = first & 0x40
    kind = first & 0x3F if new else first >> 2 & 15
    if first < 128:
        refuse("NotAPacket")
    if kind == 0:
        refuse("TypeZero")
    if kind == 8:
        refuse("Compressed")
    if kind in (15, 16, 19, 20) or 22 <= kind < 40:
        refuse("UnknownCritical")
    if not new and first & 3 == 3:
        refuse("Indeterminate")
    body, here, pieces, forms = b"", 1, 0, []
    size = 0
    while not forms or forms[-1] == "part":
        found = length_of(octets[here : here + 5]) if new else old_length_of(octets[here : here + 4], first & 3)
        if not found:
            refuse("Truncated", here)
        form, n, spelled = found
        if form == "part" and kind not in (9, 11, 18):
            refuse("PartialKind", here)
        if form == "part" and not forms and n < 512:
            refuse("FirstPartial", here)
        if form == "part" and pieces == limits.pieces:
            refuse("TooManyPieces", here)
        size += n
        if size > limits.body:
            refuse("BodyTooLong", here)
        if len(octets) < here + spelled + n:
            refuse("Truncated", here)
        body += octets[here + spelled : here + spelled + n]
        here += spelled + n
        pieces += form == "part"
        forms.append(form)
    return kind, forms[0], body, here


def framed(blocks, limits):
    """The packets of all blocks: the block, the place, the type, the form, the body and the number of octets."""
    packets = []
    for block, (_, octets) in enumerate(blocks):
        at = 0
        while at < len(octets):
            kind, form, body, n = packet_of(octets[at:], block, at, limits)
            packets.append((block, at, kind, form, body, n))
            at += n
    return packets


# Bodies.


class Fields:
    """A body, field by field."""

    def __init__(self, body):
        self.body, self.at = body, 0

    def take(self, n, begin=None, reason="Short"):
        if len(self.body) - self.at < n:
            raise Unfit(reason, self.at if begin is None else begin)
        self.at += n
        return self.body[self.at - n : self.at]

    def integer(self, strict):
        begin = self.at
        bits = number(self.take(2))
        octets = self.take((bits + 7) // 8, begin)
        if strict and bits and octets[0] >> (bits - 1) % 8 != 1:
            raise Unfit("MpiBits", begin)

    def sized(self, reason):
        begin = self.at
        size = self.take(1)[0]
        if size in (0, 255):
            raise Unfit(reason, begin)
        self.take(size, begin)

    def area(self, width, signed):
        begin = self.at
        size = number(self.take(width))
        octets = self.take(size, begin, "AreaShort")
        return subpackets_of(octets, begin + width, signed)

    def end(self):
        if self.at < len(self.body):
            raise Unfit("Trailing", self.at)


def subpackets_of(octets, begin, signed):
    """The type octet, the length and the octets of each subpacket of an area."""
    found, at = [], 0
    while at < len(octets):
        first, here = octets[at], octets[at:]
        if first < 192:
            n, spelled = first, 1
        elif first < 255:
            n, spelled = (first - 192) * 256 + here[1] + 192 if len(here) > 1 else None, 2
        else:
            n, spelled = number(here[1:5]) if len(here) > 4 else None, 5
        if n is None or (n > 0 and len(here) < spelled + n):
            raise Unfit("SubShort", begin + at)
        if n == 0:
            raise Unfit("SubEmpty", begin + at)
        found.append((here[spelled], n, here[spelled + 1 : spelled + n]))
        at += spelled + n
    return found


def key_fields(body):
    it = Fields(body)
    version = it.take(1)[0]
    if version not in (4, 6):
        raise Unfit("KeyVersion", 0)
    if version == 4 and len(body) > 65535:
        raise Unfit("KeyTooLong", 0)
    it.take(4)
    algorithm = it.take(1)[0]
    if version == 6:
        begin = it.at
        if number(it.take(4)) != len(body) - 10:
            raise Unfit("Count", begin)
    strict = version == 6
    octets = {25: 32, 26: 56, 27: 32, 28: 57}
    integers = {1: 2, 2: 2, 3: 2, 16: 3, 17: 4}
    if algorithm in integers:
        for _ in range(integers[algorithm]):
            it.integer(strict)
    elif algorithm in (18, 19, 22):
        it.sized("OidSize")
        it.integer(strict)
        if algorithm == 18:
            it.sized("KdfSize")
    elif algorithm in octets:
        it.take(octets[algorithm])
    else:
        return version, algorithm
    it.end()
    return version, algorithm


def signature_material(it, algorithm, strict):
    integers = {1: 1, 3: 1, 17: 2, 19: 2, 22: 2}
    octets = {27: 64, 28: 114}
    if algorithm in integers:
        for _ in range(integers[algorithm]):
            it.integer(strict)
    elif algorithm in octets:
        it.take(octets[algorithm])
    else:
        it.at = len(it.body)
    it.end()


def three_fits(body):
    try:
        it = Fields(body)
        head = it.take(19)
        if head[1] != 5 or head[15] not in (1, 3, 17):
            return False
        signature_material(it, head[15], False)
    except Unfit:
        return False
    return True


class Signature:
    """A signature's body, read: its version is 0 where it is opaque."""

    def __init__(self, body):
        it = Fields(body)
        self.body, self.version = body, it.take(1)[0]
        self.hashed = self.unhashed = ()
        if self.version == 3 and three_fits(body):
            self.kind, self.algorithm, self.hash, self.left, self.material = body[2], body[15], body[16], body[17:19], body[19:]
            return
        if self.version not in (4, 6):
            self.version = self.kind = self.algorithm = self.hash = 0
            self.left, self.material = bytes(2), b""
            return
        width = 2 if self.version == 4 else 4
        self.kind, self.algorithm, self.hash = it.take(1)[0], it.take(1)[0], it.take(1)[0]
        self.hashed = it.area(width, True)
        self.front = body[: it.at]
        self.unhashed = it.area(width, True)
        self.left, self.salt = it.take(2), b""
        if self.version == 6:
            begin = it.at
            size = it.take(1)[0]
            if size != {8: 16, 9: 24, 10: 32, 11: 16, 12: 16, 14: 32}.get(self.hash, size):
                raise Unfit("SaltSize", begin)
            self.salt = it.take(size, begin)
        self.material = body[it.at :]
        signature_material(it, self.algorithm, self.version == 6)


def integers(octets, count):
    """So many integers at the front, without their counts of bits; and what follows them."""
    found = []
    for _ in range(count):
        size = (number(octets[:2]) + 7) // 8
        found.append(octets[2 : 2 + size])
        octets = octets[2 + size :]
    return found, octets


def key_material(body):
    """The fields of a key's material (5.5.5): integers without their counts of bits, curves and parameters without their sizes."""
    algorithm, material = body[5], body[10 if body[0] == 6 else 6 :]
    counts = {1: 2, 2: 2, 3: 2, 16: 3, 17: 4}
    if algorithm in counts:
        return integers(material, counts[algorithm])[0]
    if algorithm not in (18, 19, 22):
        return [material]
    curve, rest = material[1 : 1 + material[0]], material[1 + material[0] :]
    point, rest = integers(rest, 1)
    return [curve, *point, rest[1:]][: 3 if algorithm == 18 else 2]


# The curves of 9.2, and secp256k1 (SEC 2), by their object identifiers, and the algorithms of one curve: as gpg names them.
CURVES = {
    "1.2.840.10045.3.1.7": "nistp256", "1.3.132.0.34": "nistp384", "1.3.132.0.35": "nistp521", "1.3.132.0.10": "secp256k1",
    "1.3.36.3.3.2.8.1.1.7": "brainpoolP256r1", "1.3.36.3.3.2.8.1.1.11": "brainpoolP384r1", "1.3.36.3.3.2.8.1.1.13": "brainpoolP512r1",
    "1.3.6.1.4.1.11591.15.1": "ed25519", "1.3.6.1.4.1.3029.1.5.1": "cv25519",
}  # fmt: skip
OWN_CURVES = {25: "x25519", 26: "x448", 27: "ed25519", 28: "ed448"}


def identifier_octets(dotted):
    """An object identifier as DER has it, without its tag and its length."""
    first, second, *others = map(int, dotted.split("."))
    octets = b""
    for arc in (40 * first + second, *others):
        groups = [arc & 127]
        while arc := arc >> 7:
            groups.append(128 | arc & 127)
        octets += bytes(reversed(groups))
    return octets


def key_size(body):
    """How large a key is, as list --values has it."""
    algorithm, first = body[5], key_material(body)[0]
    if algorithm in (1, 2, 3, 16, 17):
        return str(number(first).bit_length())
    if algorithm in (18, 19, 22):
        return next((name for it, name in CURVES.items() if identifier_octets(it) == first), f"oid:{first.hex().upper()}")
    return OWN_CURVES.get(algorithm, "-")


def made_by(it):
    """What the algorithm of a signature made (5.2.3): integers without their counts of bits, or octets."""
    counts = {1: 1, 3: 1, 17: 2, 19: 2, 22: 2}
    if it.algorithm in counts and it.version:
        return integers(it.material, counts[it.algorithm])[0]
    return [it.material] if it.version else []


def kept_signature(body):
    """A signature packet's body, read; one that is malformed is opaque."""
    try:
        return Signature(body)
    except Unfit:
        it = Signature(b"\0")
        it.body = body
        return it


def literal_fields(body):
    """The format, the name, the date and the content."""
    it = Fields(body)
    octet = it.take(1)
    begin = it.at
    name = it.take(it.take(1)[0], begin)
    return octet, name, it.take(4), body[it.at:]


CHECKS = {
    2: Signature,
    6: key_fields,
    14: key_fields,
    11: literal_fields,
    17: lambda body: subpackets_of(body, 0, False),
}


def check_bodies(packets, limits):
    for block, at, kind, _, body, _ in packets:
        if kind == 2 and limits.malformed == "keep":
            continue
        try:
            CHECKS.get(kind, len)(body)
        except Unfit as fault:
            raise Refused("body", fault.args[0], block, at, fault.args[1]) from None


# What subpackets mean.


def signature_fits(octets):
    try:
        Signature(octets)
    except Unfit:
        return False
    return True


def kinds():
    """The form of each kind, as tests/vectors/subpackets.txt has it."""
    with open(f"{os.path.dirname(os.path.realpath(__file__))}/../vectors/subpackets.txt", encoding="ascii") as it:
        rows = [re.split("  +", line.strip()) for line in it if line[0].isdigit()]
    return {int(kind): row[1] for row in rows if len(row) == 2 for kind in row[0].split()}


FORMS = {
    "number": lambda it: len(it) == 4,
    "octet": lambda it: len(it) == 1,
    "two octets": lambda it: len(it) == 2,
    "ended text": lambda it: it[-1:] == b"\0",
    "octets": lambda it: True,
    "revoker": lambda it: len(it) == 22,
    "key ID": lambda it: len(it) == 8,
    "notation": lambda it: len(it) >= 8 and len(it) == 8 + number(it[4:6]) + number(it[6:8]),
    "code and text": lambda it: len(it) >= 1,
    "target": lambda it: len(it) >= 2,
    "signature": signature_fits,
    "fingerprint": lambda it: (it[:1], len(it)) in ((b"\4", 21), (b"\6", 33)),
    "pairs": lambda it: len(it) % 2 == 0,
}
KINDS = kinds()


def meaning(kind, octets):
    if kind not in KINDS:
        return "unknown"
    return "typed" if FORMS[KINDS[kind]](octets) else "unfit"


def quoted(octets):
    return '"' + "".join(chr(it) if 32 <= it < 127 and it not in b'"\\' else f"\\x{it:02X}" for it in octets) + '"'


def digits(octets):
    return octets.hex().upper() or "-"


def date(octets):
    """A time, in seconds since 1970, as a date in UTC."""
    return datetime.datetime.fromtimestamp(number(octets), datetime.timezone.utc).strftime("%Y-%m-%dT%H:%M:%SZ")


def flags(octets, names):
    return " ".join([digits(octets)] + [name for bit, name in names.items() if bit & (octets or b"\0")[0]])


def numbers(octets):
    return "".join(f" {it}" for it in octets)


KEY_FLAGS = {1: "certify", 2: "sign", 4: "encrypt-communications", 8: "encrypt-storage", 16: "split", 32: "authenticate",
             128: "group"}  # fmt: skip
# What a subpacket says, by its kind, as docs/OUTPUT.md has it.
VALUES = {
    2: lambda it: f"created {number(it)} {date(it)}",
    3: lambda it: f"expires {number(it)}",
    4: lambda it: f"exportable {it[0]}",
    5: lambda it: f"trust level {it[0]} amount {it[1]}",
    6: lambda it: f"regex {quoted(it[:-1])}",
    7: lambda it: f"revocable {it[0]}",
    9: lambda it: f"key-expires {number(it)}",
    11: lambda it: f"symmetric{numbers(it)}",
    12: lambda it: f"revocation-key class {it[0]} alg {it[1]} {digits(it[2:])}",
    16: lambda it: f"issuer {digits(it)}",
    20: lambda it: f"notation {number(it[:4])} {quoted(it[8:8 + number(it[4:6])])} {quoted(it[8 + number(it[4:6]):])}",
    21: lambda it: f"hash{numbers(it)}",
    22: lambda it: f"compression{numbers(it)}",
    23: lambda it: f"server-flags {flags(it, {128: 'no-modify'})}",
    24: lambda it: f"key-server {quoted(it)}",
    25: lambda it: f"primary-user-id {it[0]}",
    26: lambda it: f"policy {quoted(it)}",
    27: lambda it: f"key-flags {flags(it, KEY_FLAGS)}",
    28: lambda it: f"signers-user-id {quoted(it)}",
    29: lambda it: f"reason {it[0]} {quoted(it[1:])}",
    30: lambda it: f"features {flags(it, {1: 'seipd1', 8: 'seipd2'})}",
    31: lambda it: f"target alg {it[0]} hash {it[1]} {digits(it[2:])}",
    32: lambda it: listed(2, it),
    33: lambda it: f"issuer-fingerprint v{it[0]} {digits(it[1:])}",
    35: lambda it: f"recipient v{it[0]} {digits(it[1:])}",
    39: lambda it: f"aead{numbers(it)}",
}


def said(kind, octets):
    """What a subpacket says, or its octets where they say nothing, or where their kind has no line of its own."""
    return VALUES.get(kind, digits)(octets) if meaning(kind, octets) == "typed" else digits(octets)


# A subpacket's numbers and its fields of octets, by its form, as c/opgp.h has them.
PLAIN = {
    "number": lambda it: ([number(it)], []),
    "octet": lambda it: ([*it], []),
    "two octets": lambda it: ([*it], []),
    "ended text": lambda it: ([], [it[:-1]]),
    "revoker": lambda it: ([*it[:2]], [it[2:]]),
    "notation": lambda it: ([number(it[:4])], [it[8 : 8 + number(it[4:6])], it[8 + number(it[4:6]) :]]),
    "code and text": lambda it: ([it[0]], [it[1:]]),
    "target": lambda it: ([*it[:2]], [it[2:]]),
    "fingerprint": lambda it: ([it[0]], [it[1:]]),
}


def plain(kind, octets):
    """The number of a subpacket's form, the two numbers and the two fields of octets that its data says."""
    if meaning(kind, octets) != "typed":
        return 0, (0, 0), (b"", b"")
    form = KINDS[kind]
    said, fields = PLAIN.get(form, lambda it: ([], [it]))(octets)
    return [*FORMS].index(form) + 1, (*said, 0, 0)[:2], (*fields, b"", b"")[:2]


def names():
    """Each table's number, a number and its name, by the documents: registered numbers, layers, reasons, why a signature isn't hashed,
    and why it, or its key, isn't believed."""
    docs = f"{os.path.dirname(os.path.realpath(__file__))}/../../docs"
    with open(f"{docs}/NUMBERS.md", encoding="utf-8") as it:
        tables = [re.findall(r"^\| (\d+) \| ([^|]+?) \|", part, re.M) for part in it.read().split("\n## ")[1:]]
    with open(f"{docs}/FAULTS.md", encoding="utf-8") as it:
        reasons = sorted(re.findall(r"^### (\d+) `(\w+)`$", it.read(), re.M), key=lambda it: int(it[0]))
    tables += [[*enumerate(("input", "armor", "framing", "body", "composition", "text", "cleartext"))], reasons]
    tables += [[*enumerate(("opaque", "kind", "misplaced", "version", "hash", "line-ends"), 1)]]
    tables += [[*enumerate(("future", "revoked", "early", "unbound", "expired", "flags", "back"), 1)]]
    tables[-1] += enumerate(("type", "critical", "weak", "time", "lapsed", "issuer"), 8)
    return [(table, int(number), name) for table, rows in enumerate(tables) for number, name in rows]


# Keyrings.


def compose(blocks, packets, limits):
    """Certificates, each a list of parts, each a head and what hangs on it: indexes of packets. And the lead."""
    lead, certificates = [], []
    octets = 0
    for block, (label, _) in enumerate(blocks):
        if label != b"PUBLIC KEY BLOCK":
            raise Refused("composition", "BlockLabel", block, 0, 0)
        for index, (of, at, kind, _, _, n) in enumerate(packets):
            if of != block:
                continue

            def refuse(reason, at=at, block=block):
                raise Refused("composition", reason, block, at, 0)

            if kind in (1, 3, 4, 5, 7, 9, 11, 18):
                refuse("NotInKeyring")
            if kind in (2, 13, 14, 17) and not certificates:
                refuse("NoPrimary")
            octets = n if kind == 6 else octets + n
            if octets > limits.cert:
                refuse("CertTooLong")
            if kind == 6:
                certificates.append([(index, [])])
            elif kind in (13, 14, 17):
                certificates[-1].append((index, []))
            else:
                (certificates[-1][-1][1] if certificates else lead).append(index)
    return lead, certificates


def fingerprint(body):
    if body[0] == 6:
        return hashlib.sha256(b"\x9b" + sized(4, body)).digest()
    return hashlib.sha1(b"\x99" + sized(2, body)).digest()


def key_id(body):
    return fingerprint(body)[:8] if body[0] == 6 else fingerprint(body)[-8:]


def issuer_of(it):
    """The fingerprint or the key ID that a signature names, or no octets."""
    if it.version == 3:
        return it.body[7:15]
    prints = [octets[1:] for octet, _, octets in it.hashed if octet & 127 == 33 and meaning(33, octets) == "typed"]
    ids = [octets for octet, _, octets in (*it.hashed, *it.unhashed) if octet & 127 == 16 and len(octets) == 8]
    return (prints + ids + [b""])[0]


def created_of(it):
    """The one time at which a signature says it was made, or None where it says none or several."""
    times = [it.body[3:7]] if it.version == 3 else [octets for octet, _, octets in it.hashed if octet & 127 == 2 and len(octets) == 4]
    return number(times[0]) if len(times) == 1 else None


def stated(it):
    """What the line of a signature goes on with in list --values."""
    times = [it.body[3:7]] if it.version == 3 else [octets for octet, _, octets in it.hashed if octet & 127 == 2 and len(octets) == 4]
    created, day = (number(times[0]), date(times[0])) if times else ("-", "-")
    return f" left {it.left.hex().upper()} created {created} issuer {issuer_of(it).hex().upper() or '-'} {day}"


def listed(kind, body, values=False):
    if kind in (6, 14):
        names = f"{fingerprint(body).hex().upper()} {key_id(body).hex().upper()}"
        line = f"{'pub' if kind == 6 else 'sub'} v{body[0]} alg {body[5]} created {number(body[1:5])} {names}"
        return f"{line} {date(body[1:5])} size {key_size(body)}" if values else line
    if kind == 13:
        return f"uid {quoted(body)}"
    if kind == 17:
        return f"uat {len(subpackets_of(body, 0, False))}"
    if kind == 2:
        it = kept_signature(body)
        line = f"sig v{it.version} type {it.kind:02X} alg {it.algorithm} hash {it.hash}" if it.version else f"sig opaque {len(body)}"
        return line + stated(it) if values and it.version else line
    return f"pkt {kind} {len(body)}"


def shown(packets, values):
    for block, at, kind, form, body, _ in packets:
        yield f"block {block} at {at} type {kind} form {form} length {len(body)}"
        if values and kind in (2, 6, 13, 14, 17):
            yield f"  {listed(kind, body, values=kind != 2)}"
        if values and kind == 11:
            octet, name, time, content = literal_fields(body)
            yield f"  lit format {quoted(octet)} name {quoted(name)} date {number(time)} length {len(content)} {date(time)}"
        if kind == 2:
            it = kept_signature(body)
            for area, subpackets in (("hashed", it.hashed), ("unhashed", it.unhashed)):
                for octet, n, octets in subpackets:
                    line = f"  {area} kind {octet & 127} critical {octet >> 7} length {n} {meaning(octet & 127, octets)}"
                    yield f"{line} {said(octet & 127, octets)}" if values else line


# What is written.


def armor(octets, label=b"PUBLIC KEY BLOCK"):
    """The text in the form that the program writes."""
    letters = base64.b64encode(octets)
    rows = [letters[at : at + 64] + b"\n" for at in range(0, len(letters), 64)]
    return b"-----BEGIN PGP " + label + b"-----\n\n" + b"".join(rows) + b"-----END PGP " + label + b"-----\n"


def end_in_armor(octets, count, label=b"PUBLIC KEY BLOCK"):
    """How much of their armor says the first so many of these octets: a line is known at its end."""
    lines = -(-count // 48)
    letters = len(base64.b64encode(octets[: 48 * lines]))
    return len(b"-----BEGIN PGP " + label + b"-----\n\n") + letters + lines


def as_it_is(blocks, packet):
    block, at, *_, n = packet
    return blocks[block][1][at : at + n]


def in_normal_form(packet):
    _, _, kind, _, body, _ = packet
    n = len(body)
    length = b"\xff" + n.to_bytes(4, "big")
    if n < 192:
        length = bytes([n])
    elif n < 8384:
        length = (n - 192 + (192 << 8)).to_bytes(2, "big")
    return bytes([0xC0 + kind]) + length + body


def flat(certificates):
    return [index for parts in certificates for head, hangs in parts for index in (head, *hangs)]


def merged(packets, certificates):
    """A certificate for each primary key; of the packets of a place that have the same type and body the first one."""

    def named(index):
        return packets[index][2:5:2]

    keys = {}
    for parts in certificates:
        places = keys.setdefault(named(parts[0][0]), {})
        for head, hangs in parts:
            _, kept = places.setdefault(named(head), (head, {}))
            for index in hangs:
                kept.setdefault(named(index), index)
    return [[(head, [*kept.values()]) for head, kept in places.values()] for places in keys.values()]


def chosen(packets, certificates, own, bare, numbers):
    """What stays of each certificate: of its signatures those that name its primary key, no attribute, the user IDs of these numbers."""

    def stays(index, key):
        *_, kind, _, body, _ = packets[index]
        return not own or kind != 2 or issuer_of(kept_signature(body)) in (fingerprint(key), key_id(key))

    for parts in certificates:
        key, names, kept = packets[parts[0][0]][4], -1, []
        for head, hangs in parts:
            kind = packets[head][2]
            names += kind == 13
            if kind == 13 and numbers and names not in numbers or kind == 17 and bare:
                continue
            kept.append((head, [it for it in hangs if stays(it, key)]))
        yield kept


def written(command, blocks, packets, lead, certificates, nth, binary):
    """What write, normalise, split, nth (split --nth), join and merge (join --merge) write, in binary or in armor; and what write does
    of chosen parts: the command is then whether only own signatures stay, whether no attributes, and the numbers of user IDs, or none."""
    spelled = in_normal_form if command == "normalise" else lambda it: as_it_is(blocks, it)
    if isinstance(command, tuple):
        certificates = [*chosen(packets, certificates, *command)]
    if command == "merge":
        certificates = merged(packets, certificates)
    if command == "nth":
        certificates = certificates[nth : nth + 1]
        if not certificates:
            return 1, b"", b"opgp: no such certificate\n"
    alone = command in ("split", "nth")
    texts = [[it] for it in certificates] if alone else [certificates]
    texts = [(flat(it) if alone else lead + flat(it)) for it in texts]
    texts = [b"".join(spelled(packets[index]) for index in it) for it in texts]
    return 0, b"".join(it if binary else armor(it) for it in texts), b""


# Reports.


PLACES = {
    None: (0x1F, 0x20),
    13: (0x10, 0x11, 0x12, 0x13, 0x30),
    17: (0x10, 0x11, 0x12, 0x13, 0x30),
    14: (0x18, 0x28),
    "embedded": (0x19,),
    "literal": (0x00,),
}
HASHES = {2: "sha1", 8: "sha256", 9: "sha384", 10: "sha512", 11: "sha224"}


def key_octets(body):
    return b"\x99" + sized(2, body) if body[0] == 4 else b"\x9b" + sized(4, body)


def signer_of(signature, keys):
    """The body of the first key that the signature names."""
    for octet, _, octets in signature.hashed:
        if octet & 127 == 33 and meaning(33, octets) == "typed":
            return next((it for it in keys if it[:1] + fingerprint(it) == octets), None)
    for octet, _, octets in (*signature.hashed, *signature.unhashed):
        if octet & 127 == 16 and len(octets) == 8:
            return next((it for it in keys if key_id(it) == octets), None)
    return None


def asked(body, place, keys, behind):
    """A signature, and the octets that it hashes where these keys, and what stands behind them, are what it is about; or why
    it asks nothing."""
    try:
        it = Signature(body)
    except Unfit:
        return None, "opaque"
    if it.version not in (4, 6):
        return None, "opaque"
    if it.kind not in sum(PLACES.values(), ()) or (it.kind == 0x30 and place is None):
        return None, "kind"
    if it.kind not in PLACES[place]:
        return None, "misplaced"
    if any(key[0] != it.version for key in keys):
        return None, "version"
    if it.hash not in HASHES or (it.hash == 2 and it.version == 6):
        return None, "hash"
    subject = b"".join(key_octets(key) for key in keys) + behind
    return it, it.salt + subject + it.front + bytes([it.version, 255]) + len(it.front).to_bytes(4, "big")


def asked_there(body, place, primary, head):
    """The same, of a signature on the primary key or on the head of this body."""
    keys = [primary] + [head] * (place in (14, "embedded"))
    behind = (b"\xb4" if place == 13 else b"\xd1") + sized(4, head) if place in (13, 17) else b""
    return asked(body, place, keys, behind)


def found(body, place, primary, head, keys):
    """What a row says of the signature, the octets that it hashes, if it asks something, and the fingerprints of its certificate
    and its signer."""
    it, octets = asked_there(body, place, primary, head)
    certificate = fingerprint(primary).hex().upper()
    if it is None:
        return f"none {octets}", None, f"{certificate} -"
    digest = hashlib.new(HASHES[it.hash], octets).digest()[:2]
    signer = signer_of(it, keys)
    name, print_of_signer = (key_id(signer).hex().upper(), fingerprint(signer).hex().upper()) if signer else "--"
    verdict = "undecided" if digest == it.left else "bad"
    line = f"asked type {it.kind:02X} hash {it.hash} signer {name} digest {digest.hex().upper()} verdict {verdict}"
    return line, octets, f"{certificate} {print_of_signer}"


def reported(packets, certificates):
    """The rows: where each is, what is said of it, the octets that it hashes, its fingerprints, and the numbers of its packet and of
    the user ID that it is on."""
    keys = [body for *_, kind, _, body, _ in packets if kind in (6, 14)]
    rows = []
    for c, parts in enumerate(certificates):
        primary = packets[parts[0][0]][4]
        ids = 0
        for k, (head, hangs) in enumerate(parts):
            place = packets[head][2] if k else None
            body = packets[head][4]
            user_id = ids if place == 13 else "-"
            ids += place == 13
            for h, index in enumerate(hangs):
                if packets[index][2] != 2:
                    continue
                signature = packets[index][4]
                where = f"cert {c} part {k - 1 if k else '-'} hang {h} nested"
                stands = f"packet {index} user-id {user_id}"
                rows.append((f"{where} -", *found(signature, place, primary, body, keys), stands))
                it = kept_signature(signature)
                if place == 14 and it.version in (4, 6) and it.kind == 0x18:
                    inside = [octets for octet, _, octets in (*it.hashed, *it.unhashed) if octet & 127 == 32]
                    for e, octets in enumerate(inside):
                        rows.append((f"{where} {e}", *found(octets, "embedded", primary, body, keys), stands))
    return rows


def signed(blocks, packets):
    """The content and the bodies of the signatures of a signed literal."""
    ones, literal, signatures = 0, None, []
    for block, (label, _) in enumerate(blocks):
        if label != b"MESSAGE":
            raise Refused("composition", "BlockLabel", block, 0, 0)
        for at, kind, _, body, _ in (it[1:] for it in packets if it[0] == block):
            if kind in (10, 12, 21) or kind >= 40:
                continue
            if kind == 4 and literal is None:
                ones += 1
            elif kind == 11 and literal is None and ones:
                literal = body[6 + body[1] :]
            elif kind == 2 and literal is not None and len(signatures) < ones:
                signatures.append(body)
            else:
                raise Refused("composition", "NotASignedLiteral", block, at, 0)
    if literal is None or len(signatures) < ones:
        raise Refused("composition", "NotASignedLiteral", len(blocks) - 1, len(blocks[-1][1]), 0)
    return literal, signatures


def hashed(rows, n):
    if n >= len(rows) or rows[n] is None:
        return 1, b"", b"opgp: no such row\n"
    return 0, rows[n], b""


def all_hashed(rows):
    """The octets of each row that asks something, behind a line."""
    texts = [f"row {n} length {len(it)}\n".encode() + it for n, it in enumerate(rows) if it is not None]
    return 0, b"".join(texts), b""


def hashed_of_a_literal(literal, signatures):
    """Of each signature of a signed literal the octets that it hashes, or None."""
    for body in signatures:
        it, octets = asked(body, "literal", [], literal)
        yield octets if it else None


def answer(command, octets, row=0, limits=USUAL, bare=False):
    """The status, the standard output and the standard error. The commands are list, stated (list --values), show, values (show
    --values), check, prints (check --fingerprints), places (check --places), octets, all (octets --all), literal (octets --of literal), and those of written()."""
    wanted = b"MESSAGE" if command == "literal" else b"PUBLIC KEY BLOCK"
    try:
        binary = not octets or octets[0] >= 128
        blocks = [(wanted, octets)] if binary else dearmored(octets, limits)
        packets = framed(blocks, limits)
        check_bodies(packets, limits)
        if command == "literal":
            return hashed(list(hashed_of_a_literal(*signed(blocks, packets))), row)
        lead, certificates = compose(blocks, packets, limits) if command not in ("show", "values") else ([], [])
    except Refused as refused:
        return 1, b"", refused.args[0]
    if command not in ("list", "stated", "show", "values", "check", "prints", "places", "octets", "all"):
        return written(command, blocks, packets, lead, certificates, row, bare)
    if command in ("show", "values"):
        lines = shown(packets, command == "values")
    elif command in ("list", "stated"):
        lines = (listed(*it[2:5:2], command == "stated") for it in packets)
    else:
        rows = reported(packets, certificates)
        if command == "octets":
            return hashed([it[2] for it in rows], row)
        if command == "all":
            return all_hashed([it[2] for it in rows])
        ends = ({"prints": f" {prints}", "places": f" {stands}"}.get(command, "") for *_, prints, stands in rows)
        lines = (f"row {n} {where} : {line}{end}" for n, ((where, line, *_), end) in enumerate(zip(rows, ends)))
    return 0, "".join(f"{it}\n" for it in lines).encode(), b""
