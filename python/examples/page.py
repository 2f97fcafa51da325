#!/usr/bin/env python3
"""Writes one HTML page of a keyring: its certificates and packets as a tree, each field of a packet beside its octets, and of each
signature what it hashes, with where each part of that comes from.

    python3 page.py KEYRING > page.html

Ends with 1 if the input is refused: the page then shows the fault, and its place in the input. Of an input with a secret key it shows no
octet. Ends with 2, and writes nothing, if the keyring has more packets than --packets allows, or there is no such file.

All is made of the library's rows (page_nodes.py, page_fields.py). The page loads nothing: page.css and page.js become part of it, and
its policy lets nothing else count. No signature is verified: a user ID is what the input says."""

from __future__ import annotations

import argparse
import base64
import hashlib
import html
import json
import os
import string
import sys
from typing import Any, Optional, Sequence

import opgp
from opgp.secret import SECRET_KEY, has_secret_key
from page_fields import Field, Misfit, Ref, counted, size_of_header, text_of
from page_nodes import Node, Rows, nodes_of

MOST = 5000  # packets
AROUND = 256  # octets of an input that are shown on each side of a fault
BEHIND_KEY = ("Trailing", "Count")  # reasons of a key's body, behind which the fields of a secret key may be

MARKS = {
    "good": "Its digest begins with the left 16 bits that it states",
    "bad": "Its digest doesn't begin with the left 16 bits that it states",
    "none": "The library doesn't hash it",
}
LAYERS = {
    "input": "it is too long",
    "armor": "the text isn't armor (6.2)",
    "framing": "the octets aren't packets (4.2)",
    "body": "the body of a packet isn't as its type wants it",
    "composition": "the packets aren't those of a keyring (10.1)",
}
REFUSED = {
    "InputTooLong": "it has more octets than are allowed",
    "Outside": "a line outside of armored blocks isn't blank",
    "NoBlock": "no line begins with -----BEGIN PGP",
    "Label": "this isn't a begin line",
    "Header": "a line in front of the blank line isn't a header with a colon",
    "Letters": "an octet isn't a base64 letter",
    "Padding": "the letters aren't the base64 of any octets: some may be lost",
    "AfterChecksum": "a line behind the checksum isn't blank",
    "EndLabel": "this isn't the end line of the block",
    "Unfinished": "the text ends within a block: it was cut",
    "LineTooLong": "the line has more octets than are allowed",
    "NotAPacket": "where a packet should begin, an octet is below 128",
    "TypeZero": "the type is 0, which is reserved",
    "Compressed": "compressed data isn't read",
    "UnknownCritical": "a reader must reject this type of packet",
    "Indeterminate": "the packet states no length",
    "Truncated": "the packet extends past the end of its block: it was cut",
    "PartialKind": "this type of packet may have no partial lengths",
    "FirstPartial": "the first partial length is below 512",
    "BodyTooLong": "the body has more octets than are allowed",
    "TooManyPieces": "the packet has more partial lengths than are allowed",
    "Short": "octets of a field are missing",
    "MpiBits": "the count of bits isn't that of the most significant bit",
    "KeyVersion": "the version of the key isn't 4 or 6",
    "KeyTooLong": "a key of version 4 has more octets than its fingerprint counts",
    "Count": "the length of the material isn't that of what follows",
    "OidSize": "the size of the curve's identifier is reserved",
    "KdfSize": "the size of the key derivation parameters is reserved",
    "Trailing": "octets follow the last field",
    "SubEmpty": "a subpacket has no type",
    "SubShort": "a subpacket extends past its area",
    "AreaShort": "an area of subpackets extends past the signature",
    "SaltSize": "the salt hasn't the size that the hash algorithm wants",
    "NoPrimary": "no primary key is in front of this packet",
    "NotInKeyring": "no keyring may have this packet",
    "CertTooLong": "the certificate has more octets than are allowed",
    "BlockLabel": "the block isn't labelled PUBLIC KEY BLOCK",
}


# ---- The page


class Table:
    """Texts, each of which the page has once: a node names them by number."""

    def __init__(self) -> None:
        self.numbers: dict[str, int] = {}

    def number(self, text: str) -> int:
        return self.numbers.setdefault(text, len(self.numbers))

    def fields(self, those: Sequence[Field]) -> list[Any]:
        return [self.field(it) for it in those]

    def field(self, it: Field) -> list[Any]:
        """The name, the size, what is said, the parts, the tone and the node that it is about, without what is missing at the end."""
        parts = list(it.parts) if isinstance(it.parts, Ref) else self.fields(it.parts)
        found = [self.number(it.name), it.size, self.number(it.said), parts, it.tone, it.link]
        while found[-1] in (None, "", [], self.number("")) and len(found) > 2:
            found.pop()
        return found

    def node(self, it: Node) -> dict[str, Any]:
        facts = [[self.number(each.name), self.number(each.said), each.tone, each.link] for each in it.facts]
        made = {"id": it.anchor, "kind": it.kind, "title": self.number(it.title), "place": it.place, "at": it.at, "up": it.parent}
        made |= {"facts": facts, "fields": self.fields(it.fields)}
        if it.hashed:
            made["hashed"] = {**it.hashed._asdict(), "fields": self.fields(it.hashed.fields)}
        return made


def safe(text: str) -> str:
    """A text in HTML. What stands for what can't be shown looks so."""
    return html.escape(text).replace("\1", '<span class="odd">').replace("\2", "</span>")


def tree(nodes: Sequence[Node]) -> str:
    """The items of the tree, each of which has those under it."""
    under: dict[Optional[int], list[int]] = {}
    for number, it in enumerate(nodes):
        under.setdefault(it.parent, []).append(number)
    few = sum(it.kind == "cert" for it in nodes) <= 3

    def item(number: int, level: int) -> str:
        it = nodes[number]
        inside = "".join(item(each, level + 1) for each in under.get(number, ()))
        opened = f' aria-expanded="{str(few or level > 1 or not number).lower()}"' if inside else ""
        told = f'role="img" aria-label="{MARKS[it.mark]}" title="{MARKS[it.mark]}"' if it.mark else ""
        mark = f'<span class="mark {it.mark}" {told}></span>' if it.mark else ""
        row = f'<div class="row"><bdi class="label">{safe(it.label)}</bdi><span class="aside">{safe(it.aside)}</span>{mark}</div>'
        group = f'<ul role="group">{inside}</ul>' if inside else ""
        return f'<li role="treeitem" class="{it.kind}" data-node="{number}" aria-level="{level}" tabindex="-1"{opened}>{row}{group}</li>'

    return "".join(item(number, 1) for number in under.get(None, ()))


def near(name: str) -> str:
    """A text that stands beside this file."""
    with open(os.path.join(os.path.dirname(os.path.realpath(__file__)), name), encoding="utf-8") as it:
        return it.read()


def hashed_by(text: str) -> str:
    """How a policy names a script or a style."""
    return f"'sha256-{base64.b64encode(hashlib.sha256(text.encode()).digest()).decode()}'"


def page(name: str, summary: str, body: str, nodes: Sequence[Node], octets: bytes, base: int = 0) -> str:
    """The page, whole. Its policy lets only its own style and script count."""
    table, style, script = Table(), near("page.css"), near("page.js")
    data: dict[str, Any] = {"nodes": [table.node(it) for it in nodes], "texts": list(table.numbers)}
    data |= {"octets": base64.b64encode(octets).decode(), "base": base}
    policy = f"default-src 'none'; style-src {hashed_by(style)}; script-src {hashed_by(script)}; base-uri 'none'; form-action 'none'"
    text = json.dumps(data, separators=(",", ":"), ensure_ascii=False).replace("<", "\\u003c")
    plain = html.escape(name.replace("\1", "").replace("\2", ""))
    told = {"policy": policy, "style": style, "script": script, "data": text, "title": plain, "name": safe(name)}
    return string.Template(near("page.html")).substitute(told, summary=safe(summary), body=body)


def keyring_page(name: str, keyring: opgp.Keyring) -> str:
    rows = Rows(keyring)
    nodes = list(nodes_of(rows))
    count = len(rows.certificates)
    told = [counted(count, "certificate"), counted(len(rows.spots), "packet"), counted(len(rows.octets), "octet"), "no signature is verified"]
    wanted = "Find a user ID or fingerprint"
    find = f'<input id="find" type="search" placeholder="{wanted}" aria-label="{wanted}">' * (count > 1)
    items = tree(nodes) or "<li>The keyring is empty.</li>"
    body = f'<nav aria-label="Packets">{find}<ul id="tree" role="tree" aria-label="Certificates and packets">{items}</ul></nav>'
    return page(name, " · ".join(told), f'{body}<article id="detail" tabindex="-1"></article>', nodes, rows.octets)


# ---- The page of a fault


def dearmored(text: bytes, block: int) -> bytes:
    """The octets of an armored block (6.2), in a text whose armor has no fault."""
    where, count, letters = "outside", -1, list[bytes]()
    for line in (it.rstrip(b" \t\r") for it in text.split(b"\n")):
        if where == "outside":
            if line.startswith(b"-----BEGIN PGP "):
                where, count, letters = "headers", count + 1, []
        elif where == "headers":
            where = "headers" if line else "data"
        elif line[:1] == b"-":
            if count == block:
                break
            where = "outside"
        elif line[:1] == b"=":
            where = "checksum"
        elif where == "data":
            letters.append(line)
    return base64.b64decode(b"".join(letters))


def place_of(fault: opgp.Fault, octets: bytes) -> int:
    """Where in a block's octets a fault is."""
    if fault.layer != "body":
        return fault.pos + fault.inner
    try:
        return fault.pos + size_of_header(octets[fault.pos : fault.pos + 6]) + fault.inner
    except Misfit:
        return fault.pos


def marked_octets(fault: opgp.Fault, octets: bytes) -> tuple[Node, bytes, int]:
    """The node of the octets around a fault, and these, and where they begin."""
    place = min(place_of(fault, octets), len(octets))
    packet = min(fault.pos, place)
    begin = max(0, place - AROUND) & ~15
    end = min(len(octets), place + (1 if fault.reason in BEHIND_KEY else AROUND))
    packet = max(packet, begin)
    fields = [Field("Octets in front", packet - begin)] * (packet > begin)
    fields += [Field("The packet, up to the fault", place - packet)] * (place > packet)
    fields += [Field(fault.reason, min(1, len(octets) - place), f"at {place:,}" + ", the end" * (place == len(octets)), tone="b")]
    fields += [Field("Octets behind", end - place - 1)] * (end > place + 1)
    where = f"octets {begin:,} to {end:,} of {len(octets):,}"
    return Node("fault", "fault", "", where, 0, fields), octets[begin:end], begin


def marked_text(text: bytes, at: int) -> str:
    """The lines of a text around the one that begins at this place, which is marked."""
    lines, number = text.split(b"\n"), text.count(b"\n", 0, at)
    first, found = max(0, number - 12), []
    for each, line in enumerate(lines[first : number + 7], first):
        said = safe(text_of(line.rstrip(b"\r")[:200])) or ("<i>the end</i>" if each == number else "")
        found.append(f'<li value="{each + 1}">' + (f"<mark>{said}</mark>" if each == number else f"<span>{said}</span>") + "</li>")
    return f'<ol class="text">{"".join(found)}</ol>'


def fault_page(name: str, octets: bytes, fault: opgp.Fault, is_secret: bool) -> str:
    """The page of a refused input. What may be of a secret key isn't shown."""
    is_text = fault.layer in ("input", "armor")
    begins = "" if fault.layer == "input" else ", where the line begins" if is_text else ", where the packet begins in its block"
    facts = [("Layer", f"{fault.layer}: {LAYERS.get(fault.layer, '')}"), ("Reason", f"{fault.reason}: {REFUSED.get(fault.reason, '')}")]
    facts += [("Block", str(fault.block)), ("At", f"{fault.pos:,}{begins}")]
    facts += [("Inner", f"{fault.inner:,}, in the {'body of the ' * (fault.layer == 'body')}packet")] * (not is_text)
    told = "".join(f"<dt>{key}</dt><dd>{safe(said)}</dd>" for key, said in facts)
    body = f'<article class="fault"><p class="place">This is no keyring:</p><h2>{safe(str(fault))}</h2><dl class="facts">{told}</dl>'
    summary = f"refused · {counted(len(octets), 'octet')}"
    if is_secret:
        return page(name, summary, f"{body}<h3>No octet of it is shown</h3><p>It has {safe(SECRET_KEY)}.</p></article>", [], b"")
    if is_text:
        return page(name, summary, f"{body}<h3>The text</h3>{marked_text(octets, fault.pos)}</article>", [], b"")
    is_armored = bool(octets) and octets[0] < 128
    node, around, base = marked_octets(fault, dearmored(octets, fault.block) if is_armored else octets)
    return page(name, summary, f'{body}<div id="octets"></div></article>', [node], around, base)


def tell(line: str, octets: bytes) -> bool:
    """Writes this line to standard error, unless it is empty, and behind it, on a terminal, that the input has a secret key, if it has one.
    Whether it has one."""
    is_secret = has_secret_key(octets)
    for it in [line] * bool(line) + [SECRET_KEY] * (is_secret and sys.stderr.isatty()):
        print(f"opgp: {it}", file=sys.stderr)
    return is_secret


def words() -> argparse.Namespace:
    """The words of the command line."""
    statuses = "Status 1: the input is refused, and the page shows the fault. Status 2: there are too many packets, or there is no such file."
    found = argparse.ArgumentParser(description="Writes one HTML page of a keyring.", epilog=statuses)
    found.add_argument("KEYRING")
    found.add_argument("--packets", metavar="N", type=int, default=MOST, help=f"the most packets that a page has: {MOST}, if it isn't said")
    found.add_argument("--malformed", choices=("refuse", "keep"), default="refuse", help="whether malformed signatures are kept as octets")
    return found.parse_args()


def main() -> int:
    """Ends with 1 if the input is refused, and with 2 if the keyring has too many packets."""
    told = words()
    try:
        with open(told.KEYRING, "rb") as file:
            octets = file.read()
    except OSError as why:
        print(why, file=sys.stderr)
        return 2
    name, status = text_of(os.fsencode(os.path.basename(told.KEYRING))), 0
    try:
        with opgp.read(octets, opgp.Limits(keep_malformed=told.malformed == "keep")) as keyring:
            if skipped := keyring.skipped():
                tell(f"{skipped} octets outside of armored blocks were skipped; read a binary file by itself", octets)
            if (count := len(keyring.packets())) > told.packets:
                print(f"the keyring has {count:,} packets, and a page at most {told.packets:,}: see --packets", file=sys.stderr)
                return 2
            made = keyring_page(name, keyring)
    except opgp.Fault as fault:
        print(fault, file=sys.stderr)
        made, status = fault_page(name, octets, fault, tell("", octets)), 1
    sys.stdout.buffer.write(made.encode())
    return status


if __name__ == "__main__":
    sys.exit(main())
