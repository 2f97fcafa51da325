"""Whether an input has a secret key, which nobody should pass on. No such input is a keyring, but it may be refused for another fault.
Sections are those of RFC 9580."""

from __future__ import annotations

import base64
import re
from typing import Iterator, Optional, Union

__all__ = ["SECRET_KEY", "has_secret_key"]

SECRET_KEY = "a secret key; don't pass it on (gpg --export writes the public key)"
"""What is told of one, in the words of the program `opgp`."""

_SECRET = (5, 7)  # types of packets (5.5.1.3, 5.5.1.4)
_OF_MESSAGES = (9, 11, 18)  # these may have partial lengths (4.2.1.4)
_REFUSED = {0, 8, 15, 16, 19, 20, *range(22, 40)}  # behind these nothing is sure
_LABEL = re.compile(rb"BEGIN [A-Z ]*PRIVATE KEY|\([0-9:]*(?:[a-z]+-)?private-key")  # of armor and PEM, and of gpg-agent's files
_BLOCK = re.compile(rb"-----BEGIN PGP [^\n]*\n(.*?)(?:-----END PGP [^\n]*\n?|\Z)", re.S)
_NO_LETTER = re.compile(rb"[^A-Za-z0-9+/]")

# The front of such a packet: its type and length, the version, a time since 1991, and the algorithm.
_FRONT = re.compile(
    rb"(?=(?:[\x94\x9c].|[\x95\x9d]..|[\x96\x9e]\0...|[\xc5\xc7](?:[\0-\xbf]|[\xc0-\xdf].|\xff\0...))"
    rb"(?P<version>\x03[\x28-\x7f].....|[\x04-\x06][\x28-\x7f]...)(?P<algorithm>[\x01-\x03\x10-\x13\x16\x19-\x1c]))",
    re.S,
)
# The fields of a public key behind it (5.5.5): integers, octets behind their number, or so many octets.
_FIELDS: dict[int, Union[str, int]] = {1: "ii", 2: "ii", 3: "ii", 16: "iii", 17: "iiii", 18: "oio", 19: "oi", 22: "oi"}
_FIELDS |= {25: 32, 26: 56, 27: 32, 28: 57}
_PROTECTIONS = {*range(14), 253, 254, 255}  # of the secret fields (3.7.2.1)


def has_secret_key(octets: bytes) -> bool:
    """Whether an input, armored or binary, has a secret key. A label says so, or the type of a packet, in a block of any label. Where
    packets or armor are broken, what looks like such a packet is one. One whose beginning is lost is missed."""
    return bool(_LABEL.search(octets.replace(b"\0", b""))) or any(map(_has_packet, _parts(octets)))


def _parts(octets: bytes) -> Iterator[bytes]:
    """What lies outside of armored blocks, and what these have. Of a text outside of them a begin line may be lost."""
    at, is_text = 0, octets[:1] < b"\x80"
    ends = [(it.start(), it[1], it.end()) for it in _BLOCK.finditer(octets)]
    for begin, data, end in (*ends, (len(octets), b"", 0)):
        yield octets[at:begin]
        if is_text:
            yield from _decoded(octets[at:begin])
        yield from _decoded(data)
        at = end


def _decoded(text: bytes) -> Iterator[bytes]:
    """The octets of a block's data, whatever is wrong with it. First those of all lines, then of each by itself. The others are for up to
    three lost letters."""
    lines = [it.strip() for it in text.split(b"\n")]
    data = [_NO_LETTER.sub(b"", it) for it in lines if it[:1] not in (b"-", b"=") and b":" not in it]
    letters = b"".join(data)
    yield _base64(letters)
    yield b"".join(map(_base64, data))
    yield from (_base64(letters[lost:]) for lost in range(1, 4))


def _base64(letters: bytes) -> bytes:
    return base64.b64decode(letters[: len(letters) & ~3])


def _has_packet(octets: bytes) -> bool:
    """Whether one of the packets from the front on is a secret key's. If they don't reach the end, something else may look like one."""
    at, is_found = 0, False
    while at < len(octets):
        if _FRONT.match(octets, at):
            return True
        kind, end = _packet_at(octets, at)
        if kind in _REFUSED or end > len(octets):
            return _looks_secret(octets)
        is_found, at = is_found or kind in _SECRET, end
    return is_found


def _packet_at(octets: bytes, at: int) -> tuple[int, int]:
    """The type of the packet at this place, 0 if none begins there, and where it ends (4.2); past all octets, if it isn't framed."""
    first, past = octets[at], len(octets) + 1
    if first < 128:
        return 0, past
    if not first & 64:
        size = 1 << (first & 3)
        found = octets[at + 1 : at + 1 + size]
        return first >> 2 & 15, at + 1 + size + int.from_bytes(found, "big") if len(found) == size < 8 else past
    kind, at = first & 63, at + 1
    while at < len(octets):
        size, length, is_last = _length_at(octets, at)
        at += size + length
        if is_last or kind not in _OF_MESSAGES:
            return kind, at if is_last else past
    return kind, past


def _length_at(octets: bytes, at: int) -> tuple[int, int, bool]:
    """How many octets the length at this place has, what it says (4.2.1), and whether it is the last one."""
    first = octets[at]
    if first < 192:
        return 1, first, True
    if first < 224:
        return 2, (first - 192 << 8) + int.from_bytes(octets[at + 1 : at + 2], "big") + 192, True
    return (1, 1 << (first & 31), False) if first < 255 else (5, int.from_bytes(octets[at + 1 : at + 5], "big"), True)


def _looks_secret(octets: bytes) -> bool:
    """Whether the front of such a packet is somewhere, framed or not, with a public key's fields and a protection of the secret ones."""
    for it in _FRONT.finditer(octets):
        end = _end_of_key(octets, it.end("algorithm") + 4 * (it["version"][0] > 4), _FIELDS[it["algorithm"][0]])
        if end is not None and octets[end : end + 1] and octets[end] in _PROTECTIONS:
            return True
    return False


def _end_of_key(octets: bytes, at: int, fields: Union[str, int]) -> Optional[int]:
    """Where these fields end; None: they aren't there."""
    if isinstance(fields, int):
        return at + fields
    for it in fields:
        size = int.from_bytes(octets[at : at + 2], "big") if it == "i" else int.from_bytes(octets[at : at + 1], "big")
        at += 2 if it == "i" else 1
        if not size or at >= len(octets) or (it == "i" and octets[at].bit_length() != (size - 1) % 8 + 1):
            return None
        at += (size + 7) // 8 if it == "i" else size
    return at
