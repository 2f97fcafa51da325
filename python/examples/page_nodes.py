"""What the page of page.py shows, worked out of a keyring's rows: a node for each certificate, packet and embedded signature."""

from __future__ import annotations

import dataclasses
from typing import Iterator, NamedTuple, Optional, Sequence, Union

import opgp
from page_fields import (
    ATTRIBUTE,
    EMBEDDED,
    PRIMARY,
    SIGNATURE,
    SUBKEY,
    USER_ID,
    Cut,
    Field,
    Misfit,
    Ref,
    Split,
    algorithm_of,
    attribute_fields,
    counted,
    date,
    digits,
    headers,
    key_fields,
    meaning,
    short_type,
    size_of,
    split,
    text_of,
)

WHY_NOT = {
    "opaque": "its version isn't 4 or 6, or it is malformed",
    "kind": "no keyring has a place for a signature of this type",
    "misplaced": "its type doesn't belong where it is",
    "version": "a key that it is about has another version",
    "hash": "the library doesn't have its hash algorithm, or not for its version",
}
# What is hashed in front of the size of a body (5.2.4), and what the page calls that. A key of version 6 has 9B.
HASHED = {PRIMARY: (b"\x99", "Primary key"), SUBKEY: (b"\x99", "Subkey"), USER_ID: (b"\xb4", "User ID"), ATTRIBUTE: (b"\xd1", "User attribute")}

Place = tuple[Optional[int], Optional[int]]
"""A certificate, and a component of it; None for its primary key."""


# ---- Where the packets are


@dataclasses.dataclass
class Spot:
    """A packet, or a signature that one embeds: its row, and where it is."""

    node: int
    packet: opgp.Packet
    number: int
    """Its packet's, in the keyring."""
    body: bytes
    at: int
    """Where its body begins in the keyring's octets."""
    head: list[Field] = dataclasses.field(default_factory=list)
    """The fields of the packet's header."""
    fields: list[Field] = dataclasses.field(default_factory=list)
    """The fields of its body."""
    key: Optional[opgp.Key] = None
    signature: Optional[opgp.Signature] = None
    split: Split = Split([], 0)
    inside: list[Spot] = dataclasses.field(default_factory=list)
    """The signatures that it embeds."""

    @property
    def size(self) -> int:
        """The octets of its header and its body."""
        return size_of(self.head) + len(self.body)

    @property
    def begin(self) -> int:
        """Where its header begins."""
        return self.at - size_of(self.head)

    @property
    def place(self) -> Place:
        return self.packet.certificate, self.packet.component


class Rows:
    """The rows of a keyring, and where its packets are. Nodes are numbered in order: a certificate in front of its packets, and what a
    signature embeds behind it."""

    def __init__(self, keyring: opgp.Keyring) -> None:
        self.keyring, self.keys, packets = keyring, keyring.keys(), keyring.packets()
        self._key_at: dict[Place, opgp.Key] = {(it.certificate, it.component): it for it in self.keys}
        self._signatures: dict[tuple[Optional[int], Optional[int], int], list[opgp.Signature]] = {}
        for it in keyring.signatures():  # a packet's own, and then those that it embeds
            self._signatures.setdefault((it.certificate, it.component, it.hang), []).append(it)
        self.octets, heads = keyring.write(), [list[Field]()] * len(packets)
        try:
            heads = headers(self.octets, packets)
        except Misfit:  # the bodies alone
            self.octets = b"".join(it.body for it in packets)
        self.spots: list[Spot] = []
        self.heads: dict[Place, Spot] = {}
        """The primary key, and what begins each component."""
        self.certificates: list[int] = []
        """The nodes of the certificates."""
        self.names: dict[Optional[int], str] = {}
        """The first user ID of each certificate that has one."""
        at = nodes = 0
        for number, (packet, head) in enumerate(zip(packets, heads)):
            if packet.kind == PRIMARY:
                self.certificates.append(nodes)
                nodes += 1
            spot = Spot(nodes, packet, number, packet.body, at + size_of(head), head)
            self._read(spot)
            self.spots.append(spot)
            at += spot.size
            nodes += 1 + len(spot.inside)

    def _read(self, spot: Spot) -> None:
        """Finds the fields of a packet's body. If they don't fit, it is whole."""
        packet = spot.packet
        if packet.hang is None:
            self.heads[spot.place] = spot
        try:
            if packet.kind in (PRIMARY, SUBKEY):
                spot.key = self._key_at[spot.place]
                spot.fields = key_fields(spot.key, spot.body)
            elif packet.kind == ATTRIBUTE:
                spot.fields = attribute_fields(spot.body)
            elif packet.kind == USER_ID:
                text = text_of(spot.body)
                self.names.setdefault(packet.certificate, text)
                spot.fields = [Field("User ID", len(spot.body), text)]
            elif packet.kind == SIGNATURE and packet.hang is not None:
                self._read_signatures(spot, self._signatures[packet.certificate, packet.component, packet.hang])
        except Misfit:
            pass
        spot.fields = spot.fields or [Field("Body", len(spot.body))]

    def _read_signatures(self, spot: Spot, those: Sequence[opgp.Signature]) -> None:
        """Finds the fields of a signature, and of those that it embeds."""
        spot.signature = those[0]
        data = [it.data for it in those[0].subpackets if it.kind == EMBEDDED]
        inside = [Spot(spot.node + at, spot.packet, spot.number, octets, 0) for at, octets in enumerate(data[: len(those) - 1], 1)]
        for each, it in zip(inside, those[1:]):
            each.signature = it
            each.split = self._split(each, [])
            each.fields = each.split.fields or [Field("Body", len(each.body))]
        spot.split = self._split(spot, [it.fields for it in inside])
        spot.fields = spot.split.fields
        for each, begin in zip(inside, spot.split.embedded):
            each.at = spot.at + begin
            spot.inside.append(each)

    def _split(self, spot: Spot, inner: Sequence[Sequence[Field]]) -> Split:
        try:
            if spot.signature and spot.signature.version:
                return split(spot.signature, spot.body, inner, self.born(spot))
        except Misfit:
            pass
        return Split([], 0)

    def born(self, spot: Spot) -> Optional[int]:
        """When the key was made that a signature is about."""
        key = self._key_at.get(spot.place) or self._key_at.get((spot.packet.certificate, None))
        return key.created if key else None


# ---- What a signature hashes


class Hashed(NamedTuple):
    """What a signature hashes: which octets these are, or where, in order; their fields; and the digest."""

    pieces: list[Union[str, tuple[int, int]]]
    fields: list[Field]
    name: str
    digest: str
    left: str


def hashed_of(rows: Rows, spot: Spot, it: opgp.Signature) -> Optional[Hashed]:
    """What a signature hashes (5.2.4). It is whole if it isn't what its parts should be."""
    if it.why_not:
        return None
    octets = rows.keyring.octets(it.row)
    cut, pieces = Cut(octets), list[Union[str, tuple[int, int]]]()
    try:
        if spot.split.salt:
            begin, size = spot.split.salt
            pieces.append((spot.at + begin, size))
            cut.take("Salt", spot.body[begin : begin + size], "of this signature")
        for place in dict.fromkeys([(it.certificate, None), spot.place]):
            pieces += take_head(cut, rows.heads[place])
        pieces += take_end(cut, spot, it.version)
        fields = cut.ended()
    except Misfit:
        pieces, fields = [octets.hex()], [Field("Octets", len(octets))]
    return Hashed(pieces, fields, it.hash_name or str(it.hash), digits(it.digest), it.left.hex().upper())


def take_head(cut: Cut, spot: Spot) -> tuple[str, tuple[int, int]]:
    """Cuts the body of a key, a user ID or an attribute, and what is hashed in front of it. Returns this, and where that is."""
    first, name = HASHED[spot.packet.kind]
    first = b"\x9b" if spot.key and spot.key.version == 6 else first
    length = len(spot.body).to_bytes(2 if first == b"\x99" else 4, "big")
    skipped = int(bool(spot.head))  # the field of the packet's header
    body = Field("Body", len(spot.body), "", Ref(spot.node, skipped, skipped + len(spot.fields)), "o")
    parts = [Field("Prefix", 1, first.hex().upper()), Field("Length", len(length), f"{len(spot.body):,}"), body]
    cut.take(name, first + length + spot.body, f"packet {spot.number}, behind a prefix", parts=parts, link=spot.node)
    return (first + length).hex(), (spot.at, len(spot.body))


def take_end(cut: Cut, spot: Spot, version: int) -> tuple[tuple[int, int], str]:
    """Cuts what a signature hashes of itself, and the trailer. Returns where that is, and this."""
    size, skipped = size_of(spot.split.fields[: spot.split.hashed]), int(bool(spot.head))
    parts = Ref(spot.node, skipped, skipped + spot.split.hashed)
    cut.take("Signature", spot.body[:size], "itself, up to the end of its hashed area", parts=parts, tone="o")
    trailer = bytes([version, 255]) + size.to_bytes(4, "big")
    ends = [Field("Version", 1, str(version)), Field("Constant", 1, "FF"), Field("Length", 4, f"{size:,} octets of the signature")]
    cut.take("Trailer", trailer, "the size of that", parts=ends, tone="o")
    return (spot.at, size), trailer.hex()


# ---- Nodes


class Fact(NamedTuple):
    """A line above the octets: what it is about, what is said, its tone, and a node."""

    name: str
    said: str
    tone: str = ""
    """m: digits; b: bad; w: a warning."""
    link: Optional[int] = None


@dataclasses.dataclass
class Node:
    """A certificate, a packet or an embedded signature, as the page shows it."""

    kind: str
    """cert, key, uid, sig, other or fault."""
    anchor: str
    title: str
    place: str
    """A line of where it is."""
    at: int
    """Where its octets begin."""
    fields: list[Field]
    label: str = ""
    """What the tree shows."""
    aside: str = ""
    mark: str = ""
    """Of a signature: good, bad or none."""
    parent: Optional[int] = None
    facts: list[Fact] = dataclasses.field(default_factory=list)
    hashed: Optional[Hashed] = None


def key_facts(key: opgp.Key) -> list[Fact]:
    return [
        Fact("Algorithm", f"{algorithm_of(key)}, version {key.version}"),
        Fact("Created", date(key.created)),
        Fact("Fingerprint", digits(key.fingerprint), "m"),
        Fact("Key ID", digits(key.key_id), "m"),
    ]


def issuer_fact(rows: Rows, it: opgp.Signature) -> Fact:
    """Whom a signature names as its issuer."""
    if it.signer is None:
        return Fact("Issuer", f"{digits(it.issuer)}, not in this keyring", "m") if it.issuer else Fact("Issuer", "none is named")
    key = rows.keys[it.signer]
    link = rows.heads[key.certificate, key.component].node
    if key.certificate != it.certificate:
        return Fact("Issuer", rows.names.get(key.certificate) or digits(key.fingerprint), "", link)
    return Fact("Issuer", f"{'the primary key' if key.is_primary else 'a subkey'} of this certificate", "", link)


def digest_fact(it: opgp.Signature) -> Fact:
    """How the digest of what a signature hashes begins."""
    if it.why_not:
        return Fact("Not hashed", WHY_NOT.get(it.why_not, it.why_not), "w")
    if it.is_bad:
        return Fact("Digest", "doesn't begin with the left 16 bits that the signature states", "b")
    return Fact("Digest", "begins with the left 16 bits that the signature states")


def signature_facts(rows: Rows, spot: Spot, it: opgp.Signature) -> Iterator[Fact]:
    """What a signature says of itself, and how its digest begins."""
    if not it.version:
        yield Fact("Not parsed", WHY_NOT["opaque"], "b")
        return
    by = f"{it.algorithm_name or f'algorithm {it.algorithm}'} over {it.hash_name or f'hash {it.hash}'}"
    yield Fact("Form", f"version {it.version}, type {it.kind:02X}, {by}")
    if it.component is not None:
        head = rows.heads[spot.place]
        yield Fact("On", text_of(head.body) if head.packet.kind == USER_ID else f"{HASHED[head.packet.kind][1]}, packet {head.number}", "", head.node)
    yield Fact("Created", "no one time is stated" if it.created is None else date(it.created))
    yield issuer_fact(rows, it)
    for kind, name in ((3, "Expires"), (9, "Key expires"), (27, "Key flags"), (29, "Reason")):
        if last := it.last(kind):
            yield Fact(name, meaning(last, (it.created, rows.born(spot))))
    for each in it.subpackets:
        if each.is_critical and each.is_hashed and each.meaning != "typed":
            yield Fact("Critical", f"{each.name or f'unknown kind {each.kind}'}: a verifier must refuse the signature", "b")
    yield digest_fact(it)


def describe_signature(rows: Rows, node: Node, spot: Spot, it: opgp.Signature) -> None:
    """Says in a node what its signature is."""
    node.kind, node.label = "sig", short_type(it)
    node.title = it.kind_name or node.label
    node.aside = "" if it.created is None else date(it.created)[:10]
    node.mark = "none" if it.why_not else "bad" if it.is_bad else "good"
    node.facts, node.hashed = list(signature_facts(rows, spot, it)), hashed_of(rows, spot, it)


def packet_nodes(rows: Rows, spot: Spot) -> Iterator[Node]:
    """The nodes of a packet, and of the signatures that it embeds."""
    packet, key = spot.packet, spot.key
    name = packet.kind_name or f"Packet of type {packet.kind}"
    where = f"packet {spot.number} · type {packet.kind} · {counted(spot.size, 'octet')} at {spot.begin:,}"
    fields = [Field("Packet header", size_of(spot.head), "", spot.head, "o")] * bool(spot.head) + spot.fields
    node = Node("other", f"packet-{spot.number}", name, where, spot.begin, fields, label=name)
    if packet.certificate is not None:
        node.parent = rows.certificates[packet.certificate] if packet.hang is None else rows.heads[spot.place].node
    if key:
        node.kind, node.title = "key", "Primary key" if key.is_primary else "Subkey"
        node.label, node.aside, node.facts = node.title, algorithm_of(key), key_facts(key)
    elif packet.kind == USER_ID:
        text = text_of(spot.body)
        node.kind, node.label, node.facts = "uid", text or "Empty user ID", [Fact("User ID", text)]
    elif spot.signature:
        describe_signature(rows, node, spot, spot.signature)
    yield node
    for number, each in enumerate(spot.inside):
        where = f"embedded in packet {spot.number} · {counted(each.size, 'octet')} at {each.at:,}"
        inner = Node("sig", f"{node.anchor}-embedded-{number}", "", where, each.at, each.fields, parent=spot.node)
        if each.signature:
            describe_signature(rows, inner, each, each.signature)
        yield inner


def overview(rows: Rows, it: opgp.Signature) -> str:
    """The type of a signature, when it was made, and by whom, if that isn't a key of its certificate."""
    found = [short_type(it)] + ([] if it.created is None else [date(it.created)[:10]])
    if it.version and (it.signer is None or rows.keys[it.signer].certificate != it.certificate):
        found.append(f"by {issuer_fact(rows, it).said}" if it.issuer else "no issuer is named")
    return ", ".join(found)


def certificate_node(rows: Rows, number: int, spots: Sequence[Spot]) -> Node:
    """The node of a certificate, whose fields are its packets."""
    facts, fields, size, first = list[Fact](), list[Field](), sum(it.size for it in spots), spots[0]
    for it in spots:
        name, said = it.packet.kind_name or f"Type {it.packet.kind}", ""
        if it.key:
            said = algorithm_of(it.key)
            facts += key_facts(it.key) if it is first else [Fact("Subkey", f"{said}, {digits(it.key.fingerprint)}", "", it.node)]
        elif it.packet.kind == USER_ID:
            said = text_of(it.body)
            facts.append(Fact("User ID", said or "Empty user ID", "", it.node))
        elif it.signature:
            said = overview(rows, it.signature)
        fields.append(Field(name, it.size, said, link=it.node))
    name = rows.names.get(number) or "No user ID"
    where = f"certificate {number} · {counted(len(spots), 'packet')} · {counted(size, 'octet')} at {first.begin:,}"
    aside = digits(first.key.key_id) if first.key else ""
    return Node("cert", f"certificate-{number}", name, where, first.begin, fields, label=name, aside=aside, facts=facts)


def nodes_of(rows: Rows) -> Iterator[Node]:
    """All nodes, in the order of their numbers."""
    of_certificate: dict[Optional[int], list[Spot]] = {}
    for spot in rows.spots:
        of_certificate.setdefault(spot.packet.certificate, []).append(spot)
    for spot in rows.spots:
        if spot.packet.kind == PRIMARY and spot.packet.certificate is not None:
            yield certificate_node(rows, spot.packet.certificate, of_certificate[spot.packet.certificate])
        yield from packet_nodes(rows, spot)
