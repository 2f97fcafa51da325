"""The fields of packets, for page.py: their sizes, and what they mean.

All is worked out of the library's rows. Where a row has no place for a field, the place follows from the sizes of the row's fields by
the layout of RFC 9580, and the octets there must be the row's: else that is a Misfit."""

from __future__ import annotations

import dataclasses
import datetime
import unicodedata
from typing import Any, Callable, Iterable, Iterator, NamedTuple, Optional, Sequence, Union

import opgp

SIGNATURE, PRIMARY, USER_ID, SUBKEY, ATTRIBUTE = 2, 6, 13, 14, 17
EMBEDDED = 32  # a kind of subpackets
READABLE = 1 << 31  # a flag of notations (5.2.3.24)
MOST_TEXT = 2000  # letters of a text that are shown
MOST_PARTS = 2000  # subpackets of what is split

# Registered numbers that the library has no names of (9.2, 9.3, 9.4, 9.6, 5.2.3.31).
CURVES = {
    "2B06010401DA470F01": "Ed25519Legacy",
    "2B060104019755010501": "Curve25519Legacy",
    "2A8648CE3D030107": "NIST P-256",
    "2B81040022": "NIST P-384",
    "2B81040023": "NIST P-521",
    "2B8104000A": "secp256k1",
    "2B2403030208010107": "brainpoolP256r1",
    "2B240303020801010B": "brainpoolP384r1",
    "2B240303020801010D": "brainpoolP512r1",
}
CIPHERS = {1: "IDEA", 2: "TripleDES", 3: "CAST5", 4: "Blowfish", 7: "AES-128", 8: "AES-192", 9: "AES-256", 10: "Twofish"}
COMPRESSIONS = {0: "none", 1: "ZIP", 2: "ZLIB", 3: "BZip2"}
MODES = {1: "EAX", 2: "OCB", 3: "GCM"}
REASONS = {0: "no reason", 1: "superseded", 2: "compromised", 3: "retired", 32: "the user ID isn't valid any more"}
FEATURES = {1: "SEIPD version 1", 8: "SEIPD version 2"}
SERVER_FLAGS = {128: "no modify"}

# The fields of a key's material (5.5.5) and of what a signature's algorithm made (5.2.3): an integer, sized octets, or plain ones.
INTEGER, SIZED, PLAIN = range(3)
_RSA, _POINT = ((INTEGER, "Modulus n"), (INTEGER, "Exponent e")), ((SIZED, "Curve"), (INTEGER, "Public point"))
MATERIAL = {
    1: _RSA,
    2: _RSA,
    3: _RSA,
    16: tuple((INTEGER, it) for it in ("Prime p", "Generator g", "Public value y")),
    17: tuple((INTEGER, it) for it in ("Prime p", "Group order q", "Generator g", "Public value y")),
    18: (*_POINT, (SIZED, "Key derivation parameters")),
    19: _POINT,
    22: _POINT,
}
_PAIR = ((INTEGER, "r"), (INTEGER, "s"))
MADE = {1: ((INTEGER, "Signature value"),), 3: ((INTEGER, "Signature value"),), 17: _PAIR, 19: _PAIR, 22: _PAIR}


# ---- Texts


def is_plain(letter: str, marks: int) -> bool:
    """Whether a letter of a stranger's text may be shown as it is. Controls, marks of direction, lone surrogates and blanks but
    the usual one may not, nor more than four combining marks in a row."""
    kind = unicodedata.category(letter)
    return letter == " " or (kind[0] not in "CZ" and (kind[0] != "M" or marks <= 4))


def text_of(octets: bytes) -> str:
    """A stranger's text. What can't be shown as it is stands between U+0001 and U+0002, as its number or octet."""
    found, marks, text = [], 0, octets.decode("utf-8", "surrogateescape")
    for letter in text[:MOST_TEXT]:
        marks = marks + 1 if unicodedata.category(letter)[0] == "M" else 0
        number = ord(letter)
        name = f"{number - 0xDC00:02X}" if 0xDC80 <= number <= 0xDCFF else f"U+{number:04X}"
        found.append(letter if is_plain(letter, marks) else f"\1{name}\2")
    rest = len(text) - MOST_TEXT
    return "".join(found) + (f"\1and {rest:,} more letters\2" if rest > 0 else "")


def date(seconds: int) -> str:
    """A time, as ISO 8601 writes it."""
    return (datetime.datetime(1970, 1, 1) + datetime.timedelta(seconds=seconds)).strftime("%Y-%m-%d %H:%M:%S UTC")


def duration(seconds: int) -> str:
    """How long so many seconds are: in the largest two units."""
    found, rest = [], seconds
    for name, size in (("year", 31536000), ("day", 86400), ("hour", 3600), ("minute", 60), ("second", 1)):
        count, rest = divmod(rest, size)
        if count:
            found.append(f"{count:,} {name}{'s' * (count > 1)}")
    return " ".join(found[:2]) or "0 seconds"


def digits(octets: bytes) -> str:
    """Upper-case hexadecimal in groups of four, as fingerprints are written."""
    return octets.hex(" ", -2).upper()


def named(name: Optional[str], number: int) -> str:
    """A registered number and its name."""
    return f"{name} ({number})" if name else f"unknown ({number})"


def those_set(flags: bytes, names: dict[int, str]) -> str:
    """The names of the flags that are set in the first octet, and the octets where a flag has no name."""
    known = [name for flag, name in names.items() if flags[:1] and flags[0] & flag]
    rest = flags[:1] and flags[0] & ~sum(names)
    return ", ".join(known + [f"others in {flags.hex().upper()}"] * bool(rest or any(flags[1:]))) or "none"


def counted(count: int, thing: str) -> str:
    return f"{count:,} {thing}{'s' * (count != 1)}"


# ---- Fields and their places


class Ref(NamedTuple):
    """The fields from one number to another of those of a node."""

    node: int
    begin: int
    end: int


@dataclasses.dataclass
class Field:
    """A field of some octets. The parts of one follow each other and are the whole of it."""

    name: str
    size: int
    said: str = ""
    """What its octets mean."""
    parts: Union[Sequence[Field], Ref] = ()
    tone: str = ""
    """c: critical; m: what is said are digits; o: closed at first; b: the place of a fault."""
    link: Optional[int] = None
    """The node that it is about."""


def size_of(fields: Iterable[Field]) -> int:
    """The octets of these fields."""
    return sum(it.size for it in fields)


class Misfit(Exception):
    """What a row says isn't what the octets have at the place that follows from the layout."""


class Cut:
    """Cuts the fields of some octets off their front."""

    def __init__(self, octets: bytes) -> None:
        self.octets, self.at = octets, 0
        self.fields: list[Field] = []

    def peek(self, size: int) -> bytes:
        """The octets that come next."""
        if len(self.octets) - self.at < size:
            raise Misfit
        return self.octets[self.at : self.at + size]

    def take(self, name: str, octets: bytes, said: str = "", **more: Any) -> None:
        """The next field, which has these octets."""
        if self.peek(len(octets)) != octets:
            raise Misfit
        self.at += len(octets)
        self.fields.append(Field(name, len(octets), said, **more))

    def integer(self, name: str, number: bytes) -> None:
        """An integer (3.2): a count of bits, and its octets. A row's has no zeros in front."""
        bits = int.from_bytes(self.peek(2), "big")
        octets = self.peek(2 + (bits + 7) // 8)
        if octets[2:].lstrip(b"\0") != number.lstrip(b"\0"):
            raise Misfit
        parts = [Field("Count of bits", 2, f"{bits:,}"), Field("Number", len(octets) - 2)]
        self.take(name, octets, counted(bits, "bit"), parts=parts, tone="o")

    def sized(self, name: str, octets: bytes, said: str, parts: Sequence[Field] = ()) -> None:
        """Octets behind an octet that counts them."""
        both = [Field("Size", 1, str(len(octets))), Field("Octets", len(octets), said, parts)]
        self.take(name, bytes([len(octets)]) + octets, said, parts=both, tone="o")

    def length(self, most: int) -> bytes:
        """The octets of a length (4.2.1, 5.2.3.7), of which one from 192 up to `most` begins two, and 255 begins five."""
        first = self.peek(1)[0]
        if most < first < 255:
            raise Misfit
        return self.peek(1 if first < 192 else 5 if first == 255 else 2)

    def ended(self) -> list[Field]:
        """The fields, which are all."""
        if self.at != len(self.octets):
            raise Misfit
        return self.fields


def counts(length: bytes) -> int:
    """What the octets of a length count."""
    if len(length) == 2:
        return (length[0] - 192 << 8) + length[1] + 192
    return length[0] if len(length) == 1 else int.from_bytes(length[1:], "big")


def framed(cut: Cut) -> int:
    """Cuts the header of a packet (4.2), and returns the size of its body. No packet of a keyring has partial lengths."""
    tag = cut.peek(1)[0]
    if not tag & 64 and tag & 3 == 3:
        raise Misfit
    form, kind = ("current", tag & 63) if tag & 64 else ("legacy", tag >> 2 & 15)
    cut.take("Type octet", bytes([tag]), f"type {kind}, {form} format")
    length = cut.length(223) if tag & 64 else cut.peek((1, 2, 4)[tag & 3])
    size = counts(length) if tag & 64 else int.from_bytes(length, "big")
    cut.take("Length of the body", length, f"{size:,}")
    return size


def size_of_header(octets: bytes) -> int:
    """How many octets the header has that these begin with."""
    cut = Cut(octets)
    framed(cut)
    return cut.at


def headers(octets: bytes, packets: Iterable[opgp.Packet]) -> list[list[Field]]:
    """The fields of each packet's header. The packets are all of these octets."""
    found, at = [], 0
    for it in packets:
        cut = Cut(octets[at : at + 6])
        size = framed(cut)
        at += cut.at + size
        if octets[at - size : at] != it.body:
            raise Misfit
        found.append(cut.fields)
    if at != len(octets):
        raise Misfit
    return found


# ---- Keys and attributes


def curve(octets: bytes) -> str:
    return CURVES.get(octets.hex().upper(), octets.hex().upper())


def derivation(octets: bytes) -> list[Field]:
    """The parameters of ECDH (11.5) behind their size."""
    if len(octets) != 3:
        return []
    cipher = named(CIPHERS.get(octets[2]), octets[2])
    return [Field("Reserved", 1, str(octets[0])), Field("Hash algorithm", 1, hash_name(octets[1])), Field("Cipher", 1, cipher)]


def take_fields(cut: Cut, layout: Sequence[tuple[int, str]], fields: Sequence[bytes]) -> None:
    """Cuts a row's fields, whose last ones may be empty and not be there."""
    for (form, name), octets in zip(layout, [*fields, *[b""] * len(layout)]):
        if form == INTEGER:
            cut.integer(name, octets)
        elif form == SIZED and name == "Curve":
            cut.sized(name, octets, curve(octets))
        elif form == SIZED:
            cut.sized(name, octets, "", derivation(octets))
        else:
            cut.take(name, octets)


def key_fields(key: opgp.Key, body: bytes) -> list[Field]:
    """The fields of a key's body (5.5.2)."""
    cut = Cut(body)
    cut.take("Version", bytes([key.version]), str(key.version))
    cut.take("Creation time", key.created.to_bytes(4, "big"), date(key.created))
    cut.take("Algorithm", bytes([key.algorithm]), named(key.algorithm_name, key.algorithm))
    if key.version == 6:
        cut.take("Length of the material", (len(body) - 10).to_bytes(4, "big"), f"{len(body) - 10:,}")
    take_fields(cut, MATERIAL.get(key.algorithm, ((PLAIN, "Public key"),)), key.material)
    return cut.ended()


def algorithm_of(key: opgp.Key) -> str:
    """A short name of a key's algorithm, with its size or curve."""
    name = (key.algorithm_name or f"algorithm {key.algorithm}").split(" (")[0].replace(" public key algorithm", "")
    layout = MATERIAL.get(key.algorithm, ())
    if key.material and layout and layout[0][0] == INTEGER:
        return f"{name} {int.from_bytes(key.material[0], 'big').bit_length()}"
    return f"{name} {curve(key.material[0])}" if key.material and key.algorithm in (18, 19) else name


def attribute_fields(body: bytes) -> list[Field]:
    """The subpackets of a user attribute (5.12)."""
    cut = Cut(body)
    while cut.at < len(body):
        if len(cut.fields) == MOST_PARTS:
            raise Misfit
        length = cut.length(254)
        size = counts(length)
        octets = cut.peek(len(length) + size)
        data = octets[len(length) + 1 :]
        name = "Image" if octets[len(length)] == 1 else "Attribute"
        parts = [Field("Length", len(length), f"{size:,}"), Field("Type", 1, str(octets[len(length)])), Field("Data", len(data), "", image(data))]
        cut.take(name, octets, counted(len(data), "octet"), parts=parts)
    return cut.ended()


def image(data: bytes) -> list[Field]:
    """The header and the octets of an image (5.12.1), if they are of version 1."""
    if len(data) < 16 or data[:3] != b"\x10\0\1":
        return []
    encoding = Field("Encoding", 1, "JPEG" if data[3] == 1 else str(data[3]))
    return [Field("Length of the header", 2, "16"), Field("Version", 1, "1"), encoding, Field("Reserved", 12), Field("Image", len(data) - 16)]


# ---- Signatures


# A signature of nothing, whose numbers are replaced by those that the library has names of.
BLANK = opgp.Signature(
    row=0,
    certificate=None,
    component=None,
    hang=0,
    nested=None,
    signer=None,
    why_not="opaque",
    version=4,
    kind=0,
    algorithm=0,
    hash=0,
    left=b"",
    is_bad=False,
    digest=b"",
    made=(),
    created=None,
    issuer=b"",
    subpackets=(),
)


def hash_name(number: int) -> str:
    return named(dataclasses.replace(BLANK, hash=number).hash_name, number)


def key_name(number: int) -> str:
    return named(dataclasses.replace(BLANK, algorithm=number).algorithm_name, number)


def listed(octets: bytes, names: dict[int, str]) -> str:
    return ", ".join(names.get(it, str(it)) for it in octets) or "none"


def after(begin: Optional[int], seconds: int, what: str) -> str:
    """When something expires, so long after it began."""
    if not seconds:
        return "never"
    text = f"{duration(seconds)} after {what}"
    return text if begin is None else f"{date(begin + seconds)}, {text}"


def of_octets(it: opgp.Subpacket) -> str:
    """What octets without a further form mean, by the kind of the subpacket."""
    octets = it.fields[0] or it.data
    if it.kind == 27:
        return those_set(octets, {flag.value: (flag.name or "").lower().replace("_", " ") for flag in opgp.KeyFlags})
    if it.kind == 21:
        return ", ".join(hash_name(number).split(" (")[0] for number in octets) or "none"
    if it.kind in (11, 22):
        return listed(octets, CIPHERS if it.kind == 11 else COMPRESSIONS)
    if it.kind in (23, 30):
        return those_set(octets, FEATURES if it.kind == 30 else SERVER_FLAGS)
    return text_of(octets)


Times = tuple[Optional[int], Optional[int]]
"""When a signature was made, and the key that it is about."""


def meaning(it: opgp.Subpacket, times: Times) -> str:
    """What a subpacket says, by its form."""
    made, born = times
    (one, other), (first, second) = it.numbers, it.fields
    if it.meaning != "typed":
        return "its data hasn't the form of its kind" if it.meaning == "unfit" else ""
    if it.form == 1:
        expiry = after(made, one, "the signature") if it.kind == 3 else after(born, one, "the key")
        return date(one) if it.kind == 2 else expiry
    said: dict[int, Callable[[], str]] = {
        2: lambda: "yes" if one else "no",
        3: lambda: f"level {one}, amount {other}",
        4: lambda: text_of(first),
        5: lambda: of_octets(it),
        6: lambda: f"class {one}, {key_name(other)}, {digits(first)}",
        7: lambda: digits(first),
        8: lambda: f"{text_of(first)} = {text_of(second) if one & READABLE else digits(second)}",
        9: lambda: named(REASONS.get(one), one) + (f": {text_of(first)}" if first else ""),
        10: lambda: f"{key_name(one)}, {hash_name(other)}, {first.hex().upper()}",
        12: lambda: digits(first),
        13: lambda: ", ".join(f"{CIPHERS.get(a, a)} with {MODES.get(b, b)}" for a, b in zip(it.data[::2], it.data[1::2])) or "none",
    }
    return said[it.form]() if it.form in said else ""


def data_parts(it: opgp.Subpacket) -> list[Field]:
    """The fields of a subpacket's data, by its form. Those that a form has one of aren't split."""
    (one, other), (first, second) = it.numbers, it.fields
    pieces: dict[int, Callable[[], list[tuple[str, bytes, str]]]] = {
        3: lambda: [("Level", bytes([one]), str(one)), ("Amount", bytes([other]), str(other))],
        6: lambda: [("Class", bytes([one]), str(one)), ("Key algorithm", bytes([other]), key_name(other)), ("Fingerprint", first, digits(first))],
        8: lambda: [
            ("Flags", one.to_bytes(4, "big"), "readable" if one & READABLE else ""),
            ("Length of the name", len(first).to_bytes(2, "big"), str(len(first))),
            ("Length of the value", len(second).to_bytes(2, "big"), str(len(second))),
            ("Name", first, text_of(first)),
            ("Value", second, text_of(second) if one & READABLE else ""),
        ],
        9: lambda: [("Code", bytes([one]), named(REASONS.get(one), one)), ("Text", first, text_of(first))],
        10: lambda: [("Key algorithm", bytes([one]), key_name(one)), ("Hash algorithm", bytes([other]), hash_name(other)), ("Digest", first, "")],
        12: lambda: [("Version of the key", bytes([one]), str(one)), ("Fingerprint", first, digits(first))],
    }
    cut = Cut(it.data)
    for name, octets, said in pieces.get(it.form, list)():
        cut.take(name, octets, said)
    return cut.fields and cut.ended()


class Split(NamedTuple):
    """The fields of a signature's body, how many of them it hashes, where its salt is, and the signatures that it embeds."""

    fields: list[Field]
    hashed: int
    salt: Optional[tuple[int, int]] = None
    embedded: Sequence[int] = ()


def subpacket(cut: Cut, it: opgp.Subpacket, times: Times, inner: Sequence[Field]) -> None:
    """Cuts a subpacket, whose data has inner fields if it is a signature."""
    length = cut.length(254)
    if counts(length) != 1 + len(it.data):
        raise Misfit
    octets = length + bytes([it.kind | it.is_critical << 7]) + it.data
    name = it.name or f"Unknown kind {it.kind}"
    kind = named(it.name, it.kind) + (", critical" if it.is_critical else "")
    said = meaning(it, times)
    parts = [Field("Length", len(length), f"{1 + len(it.data):,}"), Field("Kind", 1, kind)]
    parts += [Field("Data", len(it.data), said, inner or data_parts(it))] * bool(it.data)
    tone = "o" + "c" * it.is_critical + "m" * (it.form in (6, 7, 12)) + "b" * (it.meaning == "unfit")
    cut.take(name, octets, said, parts=parts, tone=tone)


def area(cut: Cut, name: str, width: int, those: Iterable[tuple[opgp.Subpacket, Sequence[Field]]], times: Times) -> Iterator[int]:
    """Cuts an area of subpackets behind the octets of its length. Yields where the data of each embedded signature is."""
    size = int.from_bytes(cut.peek(width), "big")
    octets = cut.peek(width + size)
    inside = Cut(octets)
    inside.take("Length of the area", octets[:width], f"{size:,}")
    for it, inner in those:
        subpacket(inside, it, times, inner)
        if it.kind == EMBEDDED:
            yield cut.at + inside.at - len(it.data)
    cut.take(name, octets, counted(len(inside.fields) - 1, "subpacket"), parts=inside.ended())


def split_3(it: opgp.Signature, body: bytes) -> Split:
    """The fields of a signature of version 3 (5.2.2)."""
    cut = Cut(body)
    cut.take("Version", b"\3", "3")
    cut.take("Length of what is hashed", b"\5", "5")
    cut.take("Type", bytes([it.kind]), type_of(it))
    cut.take("Creation time", (it.created or 0).to_bytes(4, "big"), date(it.created or 0))
    cut.take("Issuer's key ID", it.issuer, digits(it.issuer), tone="m")
    cut.take("Key algorithm", bytes([it.algorithm]), named(it.algorithm_name, it.algorithm))
    cut.take("Hash algorithm", bytes([it.hash]), named(it.hash_name, it.hash))
    cut.take("Left 16 bits", it.left, digits(it.left), tone="m")
    take_fields(cut, MADE.get(it.algorithm, ((PLAIN, "Signature value"),)), it.made)
    return Split(cut.ended(), 0)


def split(it: opgp.Signature, body: bytes, inner: Sequence[Sequence[Field]], born: Optional[int]) -> Split:
    """The fields of a signature's body (5.2.3). Those of what is embedded in it come in the order of its subpackets."""
    if it.version == 3:
        return split_3(it, body)
    if len(it.subpackets) > MOST_PARTS:
        raise Misfit
    rest, width, times = iter(inner), 4 if it.version == 6 else 2, (it.created, born)
    those = [(each, next(rest, ()) if each.kind == EMBEDDED else ()) for each in it.subpackets]
    cut, salt = Cut(body), None
    cut.take("Version", bytes([it.version]), str(it.version))
    cut.take("Type", bytes([it.kind]), type_of(it))
    cut.take("Key algorithm", bytes([it.algorithm]), named(it.algorithm_name, it.algorithm))
    cut.take("Hash algorithm", bytes([it.hash]), named(it.hash_name, it.hash))
    embedded = [*area(cut, "Hashed area", width, [each for each in those if each[0].is_hashed], times)]
    hashed = len(cut.fields)
    embedded += area(cut, "Unhashed area", width, [each for each in those if not each[0].is_hashed], times)
    cut.take("Left 16 bits", it.left, digits(it.left), tone="m")
    if it.version == 6:
        size = cut.peek(1)[0]
        salt = cut.at + 1, size
        cut.sized("Salt", cut.peek(1 + size)[1:], "")
    take_fields(cut, MADE.get(it.algorithm, ((PLAIN, "Signature value"),)), it.made)
    return Split(cut.ended(), hashed, salt, embedded)


def type_of(it: opgp.Signature) -> str:
    return f"{it.kind_name or 'unknown'} ({it.kind:02X})"


def short_type(it: opgp.Signature) -> str:
    """The name of a signature's type in small letters, without the word signature where that is plain, as `Subkey binding`."""
    if not it.version:
        return "Signature, not parsed"
    name = it.kind_name or f"Signature of type {it.kind:02X}"
    short = name.removesuffix(" Signature")
    name = short if short.split()[-1] in ("Binding", "Certification", "Confirmation", "Revocation") else name
    return name[0] + name[1:].lower()
