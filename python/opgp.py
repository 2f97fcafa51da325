"""OpenPGP certificates and keyrings (RFC 9580), parsed by libopgp, whose reader is proved.

    import opgp

    with opgp.read(open("keyring.asc", "rb").read()) as keyring:
        for key in keyring.keys():
            print(key.fingerprint.hex().upper())

An input is armored or binary. It is parsed as the one keyring that its octets encode, or `Fault` says where and why it is
refused. This module reads no octet of it itself. It needs the shared library (`make install-library`). It looks for that at the
path in the environment's OPGP_LIBRARY, else as libopgp.so.3 where the system looks for libraries.

`document` hashes a document in a file for the detached signatures over it (10.4); a `Document` is given it in pieces.
`Document.judge` says which of them may be believed, by a verifier of yours and the library's proved rule.

Sizes and places are in octets, and count from 0. Sections are those of RFC 9580. Rows outlive their keyring. Any number of
threads may use a keyring, a reader or a document at once. Exceptions are

- Fault, a ValueError: the input is refused;
- ValueError: a limit or a time is out of its range, or what is used is closed or has ended; of a document also that it hasn't
  ended, or has more than 64 signatures;
- IndexError: there is no such row, key or certificate;
- TypeError: a value has a wrong type;
- MemoryError: memory ran out.
"""

from __future__ import annotations

import ctypes
import dataclasses
import enum
import functools
import importlib
import mmap
import operator
import os
import sys
import threading
from typing import Any, BinaryIO, Callable, Iterable, Iterator, NamedTuple, Optional, TypeVar, Union

__all__ = ["Cause", "Certificate", "Document", "Fault", "FoundBlock", "Judgement", "Key", "KeyFlags", "Keyring", "Lack", "Limits", "Packet", "Question"]
__all__ += ["Reader", "Signature", "State", "Subpacket", "UserIdFacts", "Verdict", "Why", "cleartext", "document", "find_blocks", "parts"]
__all__ += ["read", "user_id"]

_ABI = 3
_NONE = 2**64 - 1
_DONE, _REFUSED, _ROOM, _MEMORY, _LIMITS, _CLOSED, _NO_ROW, _ENDED, _MANY, _GOING = range(10)
_MOST_SIGNATURES = 64

# The library's tables of names.
_PACKET_TYPES, _KEY_ALGORITHMS, _HASH_ALGORITHMS, _SIGNATURE_TYPES, _SUBPACKET_KINDS, _LAYERS, _REASONS, _WHYS = range(8)

Octets = Union[bytes, bytearray, memoryview, mmap.mmap]
"""Octets in memory: these types, and all others that memoryview takes."""


# ---- The library's structs, field by field as opgp.h has them


class _Limits(ctypes.Structure):
    _fields_ = [(name, ctypes.c_uint64) for name in ("line", "body", "cert", "input", "pieces", "policies")]


class _Fault(ctypes.Structure):
    _fields_ = [(name, ctypes.c_uint64) for name in ("block", "pos", "inner")] + [
        ("layer", ctypes.c_uint8),
        ("reason", ctypes.c_uint8),
        ("reserved", ctypes.c_uint8 * 6),
    ]


class _Sizes(ctypes.Structure):
    _fields_ = [("rows", ctypes.c_uint64), ("bytes", ctypes.c_uint64)]


class _Span(ctypes.Structure):
    _fields_ = [("octets", ctypes.c_void_p), ("size", ctypes.c_size_t)]


class _Packet(ctypes.Structure):
    _fields_ = [(name, ctypes.c_uint64) for name in ("certificate", "component", "hang", "at", "size")] + [
        ("kind", ctypes.c_uint8),
        ("reserved", ctypes.c_uint8 * 7),
    ]


class _Key(ctypes.Structure):
    _fields_ = [
        ("certificate", ctypes.c_uint64),
        ("component", ctypes.c_uint64),
        ("at", ctypes.c_uint64),
        ("sizes", ctypes.c_uint64 * 4),
        ("created", ctypes.c_uint32),
        ("version", ctypes.c_uint8),
        ("algorithm", ctypes.c_uint8),
        ("print_size", ctypes.c_uint8),
        ("print", ctypes.c_uint8 * 32),
        ("key_id", ctypes.c_uint8 * 8),
        ("reserved", ctypes.c_uint8 * 9),
    ]


class _Job(ctypes.Structure):
    _fields_ = [(name, ctypes.c_uint64) for name in ("certificate", "component", "hang", "nested", "signer", "at")] + [
        ("sizes", ctypes.c_uint64 * 2),
        ("created", ctypes.c_uint32),
        ("why", ctypes.c_uint8),
        ("version", ctypes.c_uint8),
        ("kind", ctypes.c_uint8),
        ("algorithm", ctypes.c_uint8),
        ("hash", ctypes.c_uint8),
        ("left", ctypes.c_uint8 * 2),
        ("is_bad", ctypes.c_uint8),
        ("digest_size", ctypes.c_uint8),
        ("is_dated", ctypes.c_uint8),
        ("issuer_size", ctypes.c_uint8),
        ("digest", ctypes.c_uint8 * 64),
        ("reserved", ctypes.c_uint8),
    ]


class _Subpacket(ctypes.Structure):
    _fields_ = [(name, ctypes.c_uint64) for name in ("certificate", "component", "hang", "nested", "at", "size", "fields_at")] + [
        ("field_sizes", ctypes.c_uint64 * 2),
        ("numbers", ctypes.c_uint32 * 2),
        ("kind", ctypes.c_uint8),
        ("is_critical", ctypes.c_uint8),
        ("is_hashed", ctypes.c_uint8),
        ("meaning", ctypes.c_uint8),
        ("form", ctypes.c_uint8),
        ("reserved", ctypes.c_uint8 * 3),
    ]


class _Question(ctypes.Structure):
    _fields_ = [
        ("row", ctypes.c_size_t),
        ("job", ctypes.POINTER(_Job)),
        ("made", _Span * 2),
        ("signer", ctypes.POINTER(_Key)),
        ("key", _Span * 4),
    ]


class _Ring(ctypes.Structure):
    _fields_ = [("is_open", ctypes.c_bool), ("at", ctypes.c_void_p)]


class _Revocation(ctypes.Structure):
    _fields_ = [("row", ctypes.c_uint64), ("digest_size", ctypes.c_uint8), ("digest", ctypes.c_uint8 * 64), ("reserved", ctypes.c_uint8 * 7)]


class _Cause(ctypes.Structure):
    _fields_ = [(name, ctypes.c_uint64) for name in ("date", "component", "hang")] + [
        ("why", ctypes.c_uint8),
        ("is_primary", ctypes.c_uint8),
        ("is_now", ctypes.c_uint8),
        ("lack", ctypes.c_uint8),
        ("reserved", ctypes.c_uint8 * 4),
    ]


class _State(ctypes.Structure):
    _fields_ = [(name, ctypes.c_uint64) for name in ("certificate", "component", "end")] + [
        ("begin", ctypes.c_uint32),
        ("why", ctypes.c_uint8),
        ("is_key", ctypes.c_uint8),
        ("uses", ctypes.c_uint8),
        ("has_reason", ctypes.c_uint8),
        ("reason", ctypes.c_uint8),
        ("reserved", ctypes.c_uint8 * 7),
    ]


class _FoundBlock(ctypes.Structure):
    _fields_ = [(name, ctypes.c_uint64) for name in ("at", "size", "octets_at", "octets_size")]


class _UserIdFacts(ctypes.Structure):
    _fields_ = [(name, ctypes.c_uint64) for name in ("address_at", "address_size")] + [
        ("is_utf8", ctypes.c_uint32),
        ("has_address", ctypes.c_uint32),
    ]


class _Reader(ctypes.Structure):
    _fields_ = [("is_open", ctypes.c_bool), ("at", ctypes.c_void_p)]


class _Document(ctypes.Structure):
    _fields_ = [("is_open", ctypes.c_bool), ("at", ctypes.c_void_p)]


_Verifier = ctypes.CFUNCTYPE(ctypes.c_int, ctypes.c_void_p, ctypes.POINTER(_Question))
_Reporter = ctypes.CFUNCTYPE(ctypes.c_int, ctypes.c_void_p, ctypes.c_size_t, ctypes.POINTER(_Job), ctypes.c_int)


def _load() -> ctypes.CDLL:
    """The library, with the types of the calls that are made."""
    path = os.environ.get("OPGP_LIBRARY") or "libopgp.so.3"
    try:
        library = ctypes.CDLL(path)
        abi = library.opgp_abi()
    except (OSError, AttributeError) as why:
        raise ImportError(f"libopgp is wanted ({why}): OPGP_LIBRARY may name its path", name="opgp", path=path) from why
    if abi != _ABI:
        raise ImportError(f"{path} has version {abi} of libopgp's structs, and not {_ABI}", name="opgp", path=path)
    keyring, octets = ctypes.c_void_p, ctypes.POINTER(ctypes.c_uint8)
    status, size, number, pointer = ctypes.c_uint32, ctypes.c_size_t, ctypes.c_uint64, ctypes.POINTER
    table = {row: (pointer(pointer(row)), pointer(size)) for row in (_Packet, _Key, _Job, _Subpacket)}
    verdicts = ctypes.c_char_p, size, status  # and the policy
    for name, gives, *takes in (
        ("wrong_limit", ctypes.c_uint, pointer(_Limits)),
        ("open_mode", status, ctypes.c_char_p, size, status, pointer(_Limits), pointer(keyring), pointer(_Fault)),
        ("close", None, keyring),
        ("certificate_count", status, keyring, pointer(size)),
        ("packets", status, keyring, *table[_Packet]),
        ("packets_of", status, keyring, number, *table[_Packet]),
        ("keys", status, keyring, *table[_Key]),
        ("keys_of", status, keyring, number, *table[_Key]),
        ("jobs", status, keyring, *table[_Job]),
        ("jobs_of", status, keyring, number, *table[_Job]),
        ("subpackets_of", status, keyring, size, *table[_Subpacket]),
        ("data", _Span, keyring, pointer(_Subpacket)),
        ("subpacket_field", _Span, keyring, pointer(_Subpacket), ctypes.c_uint),
        ("body", _Span, keyring, pointer(_Packet)),
        ("key_field", _Span, keyring, pointer(_Key), ctypes.c_uint),
        ("job_field", _Span, keyring, pointer(_Job), ctypes.c_uint),
        ("issuer", _Span, keyring, pointer(_Job)),
        ("find_key", status, keyring, ctypes.c_char_p, size, size, pointer(size)),
        ("octets", status, keyring, number, pointer(octets), pointer(size)),
        ("write", status, keyring, ctypes.c_bool, pointer(octets), pointer(size)),
        ("normalise", status, keyring, pointer(keyring)),
        ("merge", status, keyring, pointer(keyring)),
        ("choose", status, keyring, ctypes.c_bool, ctypes.c_bool, pointer(number), size, pointer(keyring)),
        ("pick", status, keyring, ctypes.c_char_p, size, pointer(keyring)),
        ("certificate", status, keyring, number, pointer(keyring)),
        ("join", status, keyring, keyring, pointer(keyring)),
        ("reader_open", status, pointer(_Limits), pointer(_Reader)),
        ("reader_push", status, pointer(_Reader), ctypes.c_char_p, size),
        ("reader_end", status, pointer(_Reader), pointer(_Fault)),
        ("reader_clear", None, pointer(_Reader)),
        ("take", status, pointer(_Reader), pointer(keyring)),
        ("document_open", status, ctypes.c_char_p, size, status, pointer(_Limits), pointer(_Document), pointer(_Fault)),
        ("cleartext_open", status, ctypes.c_char_p, size, pointer(_Limits), octets, size, pointer(number), pointer(_Document), pointer(_Fault)),
        ("document_push", status, pointer(_Document), ctypes.c_char_p, size),
        ("document_end", status, pointer(_Document)),
        ("document_subpackets", status, pointer(_Document), pointer(_Subpacket), size, octets, size, pointer(_Sizes)),
        ("document_octets", status, pointer(_Document), number, status, octets, size, pointer(number)),
        ("document_clear", None, pointer(_Document)),
        ("signatures", status, pointer(_Document), keyring, *table[_Job], pointer(octets)),
        ("ring_open_mode", status, ctypes.c_char_p, size, status, pointer(_Limits), pointer(_Ring), pointer(_Fault)),
        ("ring_clear", None, pointer(_Ring)),
        ("ring_revocations", status, pointer(_Ring), pointer(_Revocation), size, pointer(number)),
        ("ring_standing", status, pointer(_Ring), *verdicts, *[number] * 4, octets),
        ("ring_cause", status, pointer(_Ring), *verdicts, *[number] * 4, pointer(_Cause)),
        ("ring_states", status, pointer(_Ring), *verdicts, number, pointer(_State), size, pointer(number)),
        ("document_standing", status, pointer(_Document), pointer(_Ring), *verdicts, *[number] * 4, octets),
        ("check", status, keyring, _Verifier, _Reporter, ctypes.c_void_p),
        ("read_verdicts", status, keyring, ctypes.c_char_p, size, pointer(octets), pointer(size)),
        ("skipped", status, keyring, pointer(number)),
        ("find_blocks", status, ctypes.c_char_p, size, pointer(_FoundBlock), size, octets, size, pointer(_Sizes)),
        ("user_id", None, ctypes.c_char_p, size, pointer(_UserIdFacts)),
        ("status_text", ctypes.c_char_p, status),
        ("name", status, status, ctypes.c_uint8, octets, size, pointer(number)),
    ):
        try:
            call = getattr(library, f"opgp_{name}")
        except AttributeError as why:
            raise ImportError(f"{path} is older than this module: it has no opgp_{name}", name="opgp", path=path) from why
        call.restype, call.argtypes = gives, takes
    return library


_library = _load()
_free = ctypes.CDLL(None).free
_free.restype, _free.argtypes = None, [ctypes.c_void_p]


class _Handle:
    """A keyring of the library. It is freed when nothing refers to it any more: no Keyring, no Certificate, and no call in any
    thread.

    What says whether a key may be believed takes a handle of another kind, which is for one call at a time. It holds the same
    keyring, and so the same rows: its packets, read by limits that refuse none of them. The first call that wants it makes it."""

    def __init__(self) -> None:
        self._as_parameter_, self._ring, self._lock = ctypes.c_void_p(), _Ring(), threading.Lock()
        self._is_merged = False
        self._merged: Optional[_Handle] = None

    def __del__(self, close: Any = _library.opgp_close, clear: Any = _library.opgp_ring_clear) -> None:
        close(self._as_parameter_)
        clear(self._ring)

    def by_ring(self, call: Callable[[Any], Any]) -> Any:
        """The status of a call that takes the other handle."""
        with self._lock:
            if not self._ring.is_open:
                octets, fault = _written(self), _Fault()
                status = _library.opgp_ring_open_mode(octets, len(octets), _MODES.index("binary"), _WIDEST, self._ring, fault)
                _raise_if_refused(status, fault)
            return call(self._ring)

    def merged(self) -> _Handle:
        """The merged keyring, which is this one if nothing has to be merged. The first call makes it."""
        with self._lock:
            if not self._is_merged and self._merged is None:
                made = _Handle()
                _raise_but_for_done(_library.opgp_merge(self, ctypes.byref(made._as_parameter_)))
                self._is_merged = _written(made) == _written(self)
                self._merged = None if self._is_merged else made
            return self._merged or self


class _Hashed:
    """A document of the library, with its signatures. It is freed when nothing refers to it any more: no Document, and no call in
    any thread."""

    def __init__(self) -> None:
        self._as_parameter_ = ctypes.pointer(_Document())

    def __del__(self, clear: Any = _library.opgp_document_clear) -> None:
        clear(self._as_parameter_)


def _number(number: int) -> Optional[int]:
    return None if number == _NONE else number


@functools.lru_cache(maxsize=None)
def _name(table: int, number: int) -> Optional[str]:
    """The name that this table of the library has for a number."""
    text, size = (ctypes.c_uint8 * 64)(), ctypes.c_uint64()
    status = _library.opgp_name(table, number, text, len(text), ctypes.byref(size))
    return bytes(text[: size.value]).decode("ascii") if status == _DONE else None


_INT = 2**31 - 1  # the most that an int counts


def _octets_at(at: int, size: int) -> bytes:
    """So many octets from this address on. string_at takes their number as an int, and of more it would give too few."""
    return ctypes.string_at(at, size) if size <= _INT else bytes((ctypes.c_uint8 * size).from_address(at))


def _octets(span: Any) -> bytes:
    return _octets_at(span.octets, span.size) if span.size else b""


def _given(call: Callable[[Any, Any], Any]) -> bytes:
    """The octets that this call makes, and frees here."""
    octets, size = ctypes.POINTER(ctypes.c_uint8)(), ctypes.c_size_t()
    _raise_but_for_done(call(ctypes.byref(octets), ctypes.byref(size)))
    try:
        return _octets_at(ctypes.addressof(octets.contents), size.value) if size.value else b""
    finally:
        _free(octets)


def _written(handle: _Handle, armor: bool = False) -> bytes:
    """The packets of this keyring, bare or in armor."""
    return _given(lambda octets, size: _library.opgp_write(handle, armor, octets, size))


def _filled(fields: Iterable[bytes]) -> tuple[bytes, ...]:
    """These fields without the empty ones at the end."""
    found = [*fields]
    while found and not found[-1]:
        found.pop()
    return tuple(found)


def _cut(at: int, *sizes: int) -> list[bytes]:
    """The fields of these sizes, which stand one behind the other from this address on."""
    found = []
    for size in sizes:
        found.append(_octets_at(at, size) if size else b"")
        at += size
    return found


# ---- What is read


class Limits(NamedTuple):
    """Limits and policies. `Limits()` are the library's usual ones. What reads within them raises ValueError for one out of its
    range."""

    line: int = 2**13
    """Octets of an armored line, without its line feed: 128 to 2**20."""
    body: int = 2**24
    """Octets of a packet's body: 512 to 2**32 - 1."""
    cert: int = 2**26
    """Octets of a certificate's packets, headers included: 512 to 2**40."""
    input: int = 2**40
    """Octets of the input: 0 to 2**62."""
    pieces: int = 2**20
    """Partial lengths of one packet (4.2.1.4): 1 to 2**24."""
    refuse_outside: bool = False
    """Refuse lines outside of armored blocks unless they are blank; else such lines are skipped."""
    keep_malformed: bool = False
    """Keep malformed signatures, octet for octet (5.2.5); else they refuse the input."""


class Fault(ValueError):
    """Why an input is refused: the one fault of the lowest layer that refuses it. docs/FAULTS.md says what each reason means.

    As a text it is the line of the program `opgp`, such as "armor: EndLabel block 0 at 112 inner 0".
    """

    layer: str
    """input, armor, framing, body or composition; of a document that is to be text also text, of a cleartext message cleartext."""
    reason: str
    """The reason's name."""
    number: int
    """The reason's number."""
    block: int
    """The armored block, from 0; 0 for binary input."""
    pos: int
    """Where the line begins in the text, or the packet in its block's octets."""
    inner: int
    """Where the header or field at fault begins within the packet, or within its body."""

    def __init__(self, layer: str, reason: str, number: int, block: int, pos: int, inner: int) -> None:
        super().__init__(layer, reason, number, block, pos, inner)
        self.layer, self.reason, self.number, self.block, self.pos, self.inner = layer, reason, number, block, pos, inner

    def __str__(self) -> str:
        return f"{self.layer}: {self.reason} block {self.block} at {self.pos} inner {self.inner}"


@dataclasses.dataclass(frozen=True)
class Packet:
    """A packet of the keyring, in its place."""

    certificate: Optional[int]
    """The number of its certificate; None for a filler before the first."""
    component: Optional[int]
    """The number of the component that it begins or is on; None for the primary key."""
    hang: Optional[int]
    """Its number among the signatures and fillers behind that; None: it is a key, a user ID or an attribute."""
    kind: int
    """Its type (5): 2 signature, 6 public key, 13 user ID, 14 public subkey, 17 user attribute."""
    body: bytes

    @property
    def kind_name(self) -> Optional[str]:
        """The standard's name of its type; None: it has none."""
        return _name(_PACKET_TYPES, self.kind)


@dataclasses.dataclass(frozen=True)
class Key:
    """A primary key or subkey (5.5)."""

    row: int
    """Its number among the keyring's keys."""
    certificate: int
    component: Optional[int]
    """The number of the component that it is; None for a primary key."""
    version: int
    """4 or 6."""
    algorithm: int
    """9.1."""
    created: int
    """Seconds since 1970."""
    fingerprint: bytes
    """5.5.4: 20 octets, or 32 of version 6."""
    key_id: bytes
    """5.5.4: 8 octets."""
    material: tuple[bytes, ...]
    """Its fields (5.5.5), without empty ones at the end. Integers are big-endian, without the count of their bits. A curve is an
    object identifier (9.2) without its length.

    - RSA: n, e; Elgamal: p, g, y; DSA: p, q, g, y;
    - ECDH: curve, point, parameters; ECDSA and EdDSALegacy: curve, point;
    - any other: one field."""

    @property
    def is_primary(self) -> bool:
        return self.component is None

    @property
    def algorithm_name(self) -> Optional[str]:
        """The standard's name of its algorithm; None: it has none."""
        return _name(_KEY_ALGORITHMS, self.algorithm)


class KeyFlags(enum.IntFlag):
    """What a key may be used for (5.2.3.29): the first octet of the flags."""

    CERTIFY = 0x01
    SIGN = 0x02
    ENCRYPT_COMMUNICATIONS = 0x04
    ENCRYPT_STORAGE = 0x08
    SPLIT = 0x10
    AUTHENTICATE = 0x20
    GROUP = 0x80


@dataclasses.dataclass(frozen=True)
class Subpacket:
    """A subpacket of a signature (5.2.3.7)."""

    kind: int
    """Its type without the critical bit, 0 to 127."""
    is_critical: bool
    is_hashed: bool
    """It is in the hashed area; the other area isn't signed."""
    meaning: str
    """typed: its data has the form of its kind; unfit: it hasn't; unknown: its kind is unknown."""
    data: bytes
    """Its data, behind the type octet."""
    form: int
    """The form of its data. opgp.h says what the numbers and fields of each form are:

    - 0: the data isn't typed;
    - 1: a number, such as a time;
    - 2: an octet;
    - 3: depth and amount;
    - 4: a regular expression;
    - 5: octets, such as algorithms, flags or a text;
    - 6: a revocation key;
    - 7: a key ID;
    - 8: a notation;
    - 9: a code and a text;
    - 10: a target;
    - 11: a signature;
    - 12: a version and a fingerprint;
    - 13: pairs of algorithms."""
    numbers: tuple[int, int]
    """The numbers in its data; 0 for one that the form doesn't have."""
    fields: tuple[bytes, bytes]
    """The fields of its data, such as a notation's name and value; empty for one that the form doesn't have."""

    @property
    def name(self) -> Optional[str]:
        """The standard's name of its kind; None: it has none."""
        return _name(_SUBPACKET_KINDS, self.kind)


@dataclasses.dataclass(frozen=True)
class Signature:
    """A signature (5.2), of a packet or embedded in one, or over a document, and the digest of what it hashes."""

    row: int
    """Its number among the keyring's signatures, which is that of `opgp check`; or among those over the document."""
    certificate: Optional[int]
    """The certificate that it is in; None: it is over a document."""
    component: Optional[int]
    """The component that it is on; None for the primary key, and over a document."""
    hang: int
    """Its number among the signatures and fillers behind that; over a document its row."""
    nested: Optional[int]
    """Its number among the signatures embedded in that packet; None: the packet's own."""
    signer: Optional[int]
    """The row of the key that it names as its issuer's; None: not in this keyring."""
    why_not: Optional[str]
    """None: it is hashed; else why not: opaque, kind, misplaced, version or hash. Over a document it is opaque, kind, hash or
    line-ends: it is over text (5.2.1.2), and a carriage return in the document isn't followed by a line feed."""
    version: int
    """3, 4 or 6; 0: not parsed."""
    kind: int
    """Its type (5.2.1)."""
    algorithm: int
    """9.1."""
    hash: int
    """9.5."""
    left: bytes
    """The left 16 bits of the signed hash value, as it states them (5.2.3)."""
    is_bad: bool
    """It is hashed, and its digest doesn't begin with them."""
    digest: bytes
    """The digest of what it hashes (5.2.4); empty: it isn't hashed."""
    made: tuple[bytes, ...]
    """What its algorithm made (5.2.3), without empty fields at the end: of RSA one integer; of DSA, ECDSA and EdDSALegacy r, s;
    of any other one field."""
    created: Optional[int]
    """When it was made, as it states, in seconds since 1970. In version 3 that is a field (5.2.2), else the one time in its
    hashed area (5.2.3.11). None: that has none, or several."""
    issuer: bytes
    """The fingerprint or key ID that it names as its issuer's (5.2.2, 5.2.3.12, 5.2.3.35), in this keyring or not; empty: it
    names none."""
    subpackets: tuple[Subpacket, ...]
    """Its subpackets, those of the hashed area first."""

    def last(self, kind: int) -> Optional[Subpacket]:
        """The last hashed subpacket of this kind whose data has its form: the one that counts (5.2.3.9); None: there is none."""
        found = [it for it in self.subpackets if it.kind == kind and it.is_hashed and it.meaning == "typed"]
        return found[-1] if found else None

    def _number(self, kind: int) -> Optional[int]:
        found = self.last(kind)
        return None if found is None else found.numbers[0]

    @property
    def kind_name(self) -> Optional[str]:
        """The standard's name of its type; None: it has none, or the signature isn't parsed."""
        return _name(_SIGNATURE_TYPES, self.kind) if self.version else None

    @property
    def algorithm_name(self) -> Optional[str]:
        """The standard's name of its public-key algorithm; None: it has none."""
        return _name(_KEY_ALGORITHMS, self.algorithm)

    @property
    def hash_name(self) -> Optional[str]:
        """The standard's name of its hash algorithm; None: it has none."""
        return _name(_HASH_ALGORITHMS, self.hash)

    @property
    def expires(self) -> Optional[int]:
        """How many seconds after its creation it expires (5.2.3.18); 0: never."""
        return self._number(3)

    @property
    def key_expires(self) -> Optional[int]:
        """How many seconds after its creation the key that it is about expires (5.2.3.13); 0: never."""
        return self._number(9)

    @property
    def key_flags(self) -> Optional[KeyFlags]:
        """What the key that it is about may be used for (5.2.3.29), by the first octet of the flags."""
        found = self.last(27)
        return None if found is None else KeyFlags(int.from_bytes(found.data[:1], "big"))


class Verdict(enum.Enum):
    """What a verifier finds."""

    UNDECIDED = 0
    GOOD = 1
    BAD = 2


class Question(NamedTuple):
    """A verifier's question: does what the signature's algorithm made fit its digest and this key?"""

    signature: Signature
    signer: Key
    """The issuer's key, whose version is the signature's."""


Verifier = Callable[[Question], Union[Verdict, bool]]


class Why(enum.Enum):
    """Why a key, or a signature over a document, isn't believed: the first reason. docs/VALIDITY.md has the rule."""

    FUTURE = 1
    """The signature was made after the present time."""
    REVOKED = 2
    """The key is revoked, or its primary key is (5.2.1.11, 5.2.1.12)."""
    EARLY = 3
    """The signature is older than the key, or than its primary key."""
    UNBOUND = 4
    """Nothing that counts binds the key to its certificate (5.2.1.8), or speaks for the primary key (10.1)."""
    EXPIRED = 5
    """The key has expired, or its primary key has (5.2.3.13)."""
    FLAGS = 6
    """The key isn't said to be one that signs (5.2.3.29)."""
    BACK = 7
    """A binding of the subkey has no good signature by the subkey that counts (5.2.1.9)."""
    TYPE = 8
    """The signature isn't one over a document (types 00 and 01, 5.2.1), or is of another version than 4 and 6."""
    CRITICAL = 9
    """Something critical in the signature isn't understood, or a hashed subpacket hasn't the form of its kind (5.2.3.7)."""
    WEAK = 10
    """The policy doesn't rely on the signature's hash algorithm, or on its key."""
    TIME = 11
    """The signature states no creation time in its hashed area, or several (5.2.3.11)."""
    LAPSED = 12
    """The signature has expired (5.2.3.18)."""
    ISSUER = 13
    """The signature names another key first."""
    NO_USE = 14
    """The key may be used for nothing: of `State` alone."""
    BAD = -1
    """The verdict on the signature is BAD."""
    UNDECIDED = -2
    """The verdict on the signature is UNDECIDED."""


_OF_KEYS = {Why.FUTURE, Why.REVOKED, Why.EARLY, Why.UNBOUND, Why.EXPIRED, Why.FLAGS, Why.BACK}


class Lack(enum.Enum):
    """What is lacking for a key that is unbound: of all that signatures lack which could speak for it, the first in this order."""

    NEWER = 1
    """One was made later."""
    LAPSED = 2
    """One has expired (5.2.3.18)."""
    WEAK = 3
    """The policy doesn't rely on one's hash algorithm, or on its key."""
    MALFORMED = 4
    """A hashed subpacket of one hasn't the form of its kind (5.2.3.7)."""
    UNDATED = 5
    """One states no creation time in its hashed area, or several (5.2.3.11)."""
    YOUNG = 6
    """One is older than its issuer's key."""
    CRITICAL = 7
    """Something critical in one isn't understood (5.2.3.7)."""


class Cause(NamedTuple):
    """What makes a key not believed."""

    why: Why
    """The first reason."""
    is_primary: bool
    """It holds of the primary key, else of the subkey."""
    is_now: bool
    """It holds at the present time, and didn't when the signature was made."""
    lack: Optional[Lack]
    """Where the key is unbound, what is lacking; None: no signature could speak for it."""
    date: Optional[int]
    """In seconds since 1970: when the signature of the future was made; when the revocation was; when the key was created that is younger
    than the signature; when it expired; until when the one that has lapsed counted; when the one was made that lacks something else."""
    component: Optional[int]
    """The component that the signature is on that says so; None: the primary key, or no signature does."""
    hang: Optional[int]
    """The number of that signature among the packets that follow it; None: no signature says so."""


class State(NamedTuple):
    """How a key, user ID or user attribute stands at a time. docs/VALIDITY.md has the rule."""

    certificate: int
    """The number of its certificate."""
    component: Optional[int]
    """The number of the component that it is; None for a primary key."""
    is_key: bool
    """Whether it is a key."""
    why: Optional[Why]
    """Why a key is of no use: REVOKED, EARLY, UNBOUND, EXPIRED or NO_USE, the first that applies; None if it is of use. Of a user ID or
    attribute: None if a certification counts that the primary key hasn't revoked; else REVOKED if it revoked one, whenever; else UNBOUND."""
    uses: KeyFlags
    """What all that is heard for a key lets it be used for (5.2.3.29): of CERTIFY, SIGN, ENCRYPT_COMMUNICATIONS and
    AUTHENTICATE. The third stands for both kinds of encryption."""
    begin: Optional[int]
    """Since when both a key and its primary key are there, in seconds since 1970."""
    end: Optional[int]
    """When a key expires, or its primary key does, in seconds since 1970; None: never."""
    reason: Optional[int]
    """The code of the reason that the first revocation of a key states (5.2.3.31)."""


class Judgement(NamedTuple):
    """Whether a signature over a document is believed."""

    signature: Signature
    verdict: Verdict
    """What `Document.check` says of it."""
    why: Optional[Why]
    """Why it isn't believed; None: it is."""
    cause: Optional[Cause] = None
    """What makes its signer's key not believed, if that is why."""


# ---- Rows of the library's tables


def _table(call: Any, kind: Any, *where: Any) -> tuple[Any, int]:
    """The rows that this call gives, and their number."""
    rows, count = ctypes.POINTER(kind)(), ctypes.c_size_t()
    _raise_but_for_done(call(*where, ctypes.byref(rows), ctypes.byref(count)))
    return rows, count.value


def _rows(name: str, kind: Any, handle: _Handle, certificate: Optional[int]) -> Iterator[tuple[int, Any]]:
    """The rows of the table of this name, or of one certificate in it, each behind its number in the table."""
    rows, count = _table(getattr(_library, f"opgp_{name}"), kind, handle)
    first = 0
    if certificate is not None:
        begin = ctypes.cast(rows, ctypes.c_void_p).value or 0
        rows, count = _table(getattr(_library, f"opgp_{name}_of"), kind, handle, certificate)
        first = ((ctypes.cast(rows, ctypes.c_void_p).value or 0) - begin) // ctypes.sizeof(kind)
    return enumerate(rows[:count], first)


def _packets(handle: _Handle, certificate: Optional[int] = None) -> list[Packet]:
    return [
        Packet(_number(it.certificate), _number(it.component), _number(it.hang), it.kind, _octets(_library.opgp_body(handle, it)))
        for _, it in _rows("packets", _Packet, handle, certificate)
    ]


def _keys(handle: _Handle, certificate: Optional[int] = None) -> list[Key]:
    return [_key(handle, row, it) for row, it in _rows("keys", _Key, handle, certificate)]


def _key_at(handle: _Handle, row: int) -> Key:
    """The key in this row, which is there."""
    return _key(handle, row, _table(_library.opgp_keys, _Key, handle)[0][row])


def _key(handle: _Handle, row: int, it: Any) -> Key:
    return Key(
        row,
        it.certificate,
        _number(it.component),
        it.version,
        it.algorithm,
        it.created,
        bytes(it.print[: it.print_size]),
        bytes(it.key_id),
        _filled(_octets(_library.opgp_key_field(handle, it, number)) for number in range(4)),
    )


def _signatures(handle: _Handle, certificate: Optional[int] = None) -> list[Signature]:
    return [
        _signature(
            row,
            it,
            (_octets(_library.opgp_job_field(handle, it, number)) for number in range(2)),
            _octets(_library.opgp_issuer(handle, it)),
            _subpackets(handle, row),
        )
        for row, it in _rows("jobs", _Job, handle, certificate)
    ]


def _signature(row: int, it: Any, made: Iterable[bytes], issuer: bytes, subpackets: Iterable[Subpacket]) -> Signature:
    return Signature(
        row,
        _number(it.certificate),
        _number(it.component),
        it.hang,
        _number(it.nested),
        _number(it.signer),
        _name(_WHYS, it.why),
        it.version,
        it.kind,
        it.algorithm,
        it.hash,
        bytes(it.left),
        bool(it.is_bad),
        bytes(it.digest[: it.digest_size]),
        _filled(made),
        it.created if it.is_dated else None,
        issuer,
        tuple(subpackets),
    )


def _subpackets(handle: _Handle, row: int) -> Iterator[Subpacket]:
    rows, count = _table(_library.opgp_subpackets_of, _Subpacket, handle, row)
    for it in rows[:count]:
        first, second = it.field_sizes
        one = _octets(_library.opgp_subpacket_field(handle, it, 0)) if first else b""
        other = _octets(_library.opgp_subpacket_field(handle, it, 1)) if second else b""
        yield _subpacket(it, _octets(_library.opgp_data(handle, it)), (one, other))


_MEANINGS = ("typed", "unfit", "unknown")


def _subpacket(it: Any, data: bytes, fields: tuple[bytes, bytes]) -> Subpacket:
    one, other = it.numbers
    return Subpacket(it.kind, bool(it.is_critical), bool(it.is_hashed), _MEANINGS[it.meaning], data, it.form, (one, other), fields)


# ---- Whether a key may be believed


_WIDEST = _Limits(2**20, 2**32 - 1, 2**40, 2**62, 2**24, 2)  # what was read is read again, malformed signatures too
_POLICIES = ("usual", "any")


def _said(given: Union[Verdict, bool]) -> Verdict:
    """The verdict that a verifier gave: True is GOOD, and False is BAD. Raises ValueError for what is none."""
    return (Verdict.GOOD if given else Verdict.BAD) if isinstance(given, bool) else Verdict(given)


def _verdict(signature: Signature, handle: _Handle, verify: Optional[Verifier]) -> Verdict:
    """The verdict on a signature whose signer is in this keyring: that of `opgp_check`."""
    if signature.is_bad:
        return Verdict.BAD
    if not verify or signature.why_not or signature.signer is None:
        return Verdict.UNDECIDED
    signer = _key_at(handle, signature.signer)
    return _said(verify(Question(signature, signer))) if signer.version == signature.version else Verdict.UNDECIDED


def _read_verdicts(handle: _Handle, file: bytes) -> Optional[bytes]:
    """The numbers of the verdicts on a keyring's rows in a file that `opgp-verify --verdicts` wrote of it; None: it is no such file."""
    try:
        return _given(lambda verdicts, count: _library.opgp_read_verdicts(handle, file, len(file), verdicts, count))
    except IndexError:
        return None


def _revocations(handle: _Handle) -> dict[int, bytes]:
    """What the key revocations of a keyring hash, over the primary key alone, by their rows: the digests."""
    size = ctypes.c_uint64()
    status = handle.by_ring(lambda ring: _library.opgp_ring_revocations(ring, None, 0, size))
    rows = (_Revocation * size.value)()
    if status == _ROOM:
        status = handle.by_ring(lambda ring: _library.opgp_ring_revocations(ring, rows, len(rows), size))
    _raise_but_for_done(status)
    return {it.row: bytes(it.digest[: it.digest_size]) for it in rows}


def _over_the_key(it: Signature, revocations: dict[int, bytes]) -> Signature:
    """The same signature. A key revocation that is misplaced has its digest."""
    digest = revocations.get(it.row)
    if it.why_not != "misplaced" or digest is None:
        return it
    return dataclasses.replace(it, why_not=None, is_bad=digest[: len(it.left)] != it.left, digest=digest)


def _verdicts(handle: _Handle, certificate: int, verify: Optional[Verifier], revocations: dict[int, bytes]) -> bytes:
    """The numbers of the verdicts on the keyring's rows, up to the last one of this certificate. Only its own are verified."""
    rows = _signatures(handle, certificate)
    found = [_verdict(_over_the_key(it, revocations), handle, verify) for it in rows]
    return bytes(rows[0].row if rows else 0) + bytes(it.value for it in found)


def _states(
    handle: _Handle, at: int, verify: Optional[Verifier], policy: str, certificate: Optional[int] = None
) -> Iterator[State]:
    """How the parts of a certificate stand, or those of all, of which the signatures are verified."""
    number, time, revocations = _policy(policy), _time(at), _revocations(handle)
    if certificate is None:
        rows = _signatures(handle)
        verdicts = bytes(_verdict(_over_the_key(it, revocations), handle, verify).value for it in rows)
    else:
        verdicts = _verdicts(handle, certificate, verify, revocations)
    size = ctypes.c_uint64(len(_packets(handle)))  # of which each part has one
    states = (_State * size.value)()
    call, given = _library.opgp_ring_states, (verdicts, len(verdicts), number, time)
    _raise_but_for_done(handle.by_ring(lambda ring: call(ring, *given, states, len(states), size)))
    return (_state(it) for it in states[: size.value] if certificate in (None, it.certificate))


def _state(it: Any) -> State:
    """The state in a row of the library's table."""
    return State(
        it.certificate,
        _number(it.component),
        bool(it.is_key),
        Why(it.why) if it.why else None,
        KeyFlags(it.uses),
        it.begin if it.is_key else None,
        _number(it.end),
        it.reason if it.has_reason else None,
    )


def _cause(it: _Cause) -> Optional[Cause]:
    """The cause in the library's row; None: the key is believed."""
    lack = Lack(it.lack) if it.lack else None
    numbers = _number(it.date), _number(it.component), _number(it.hang)
    return Cause(Why(it.why), bool(it.is_primary), bool(it.is_now), lack, *numbers) if it.why else None


def _known(handle: _Handle, key: Key) -> Key:
    """The key, if it is one of this keyring."""
    if not isinstance(key, Key):
        raise TypeError(f"a Key is wanted, and not a {type(key).__name__}")
    rows, count = _table(_library.opgp_keys, _Key, handle)
    if not 0 <= key.row < count or _key(handle, key.row, rows[key.row]) != key:
        raise IndexError("the keyring has no such key")
    return key


def _rows_of(handle: _Handle, fingerprint: bytes) -> Iterator[int]:
    """The rows of the keys with this fingerprint, in order."""
    row, at = ctypes.c_size_t(), 0
    while (status := _library.opgp_find_key(handle, fingerprint, len(fingerprint), at, row)) == _DONE:
        yield row.value
        at = row.value + 1
    if status != _NO_ROW:
        _raise_but_for_done(status)


class _Rule:
    """Asks the library whether keys of a keyring may be believed. The rows of a certificate are verified when one of its keys is
    first asked about."""

    def __init__(self, handle: _Handle, verify: Optional[Verifier], policy: int) -> None:
        self.handle, self._verify, self._policy = handle, verify, policy
        self._verdicts: dict[int, bytes] = {}
        self._revocations: Optional[dict[int, bytes]] = None

    def why(self, key: Key, call: Callable[..., Any]) -> Optional[Why]:
        """Why the key isn't believed in its place; None: it is. The call is given the other handle, the verdicts, their number and
        the policy, the place's two numbers, and where to write the reason's number."""
        if self._revocations is None:
            self._revocations = _revocations(self.handle)
        if key.certificate not in self._verdicts:
            self._verdicts[key.certificate] = _verdicts(self.handle, key.certificate, self._verify, self._revocations)
        verdicts, number = self._verdicts[key.certificate], ctypes.c_uint8()
        given = verdicts, len(verdicts), self._policy
        place = key.certificate, _NONE if key.component is None else key.component
        _raise_but_for_done(self.handle.by_ring(lambda ring: call(ring, given, place, number)))
        return Why(number.value) if number.value else None

    def cause(self, key: Key, made: int, now: int) -> Optional[Cause]:
        """What makes the key not believed in its place; None: it is believed."""
        row, call = _Cause(), _library.opgp_ring_cause
        self.why(key, lambda ring, given, place, _: call(ring, *given, *place, made, now, row))
        return _cause(row)

    def why_anywhere(self, key: Key, call: Callable[..., Any]) -> Optional[Why]:
        """None: the key is believed in one of its places; else why it isn't in the first."""
        whys: list[Why] = []
        for row in _rows_of(self.handle, key.fingerprint):
            why = self.why(_key_at(self.handle, row), call)
            if why is None:
                return None
            whys.append(why)
        return whys[0]


def _policy(policy: str) -> int:
    """The library's number of this policy."""
    return _chosen("policy", policy, _POLICIES)


def _time(seconds: int) -> int:
    """A time that the library counts, in seconds since 1970."""
    if not 0 <= (it := operator.index(seconds)) < 2**64:
        raise ValueError(f"the time is out of its range: {it}")
    return it


# ---- Keyrings


class Certificate:
    """A certificate of a keyring, with its packets, keys and signatures. The first access makes each of these. That of signatures
    makes the digests of all signatures of the keyring. A certificate keeps what its keyring holds, even if that is closed. Two
    are equal if their packets are."""

    def __init__(self, handle: _Handle, number: int) -> None:
        self._handle = handle
        self.number = number
        """Its number in the keyring, from 0."""

    @functools.cached_property
    def packets(self) -> tuple[Packet, ...]:
        """Its packets, in order."""
        return tuple(_packets(self._handle, self.number))

    @functools.cached_property
    def keys(self) -> tuple[Key, ...]:
        """Its keys, in order, the primary key first."""
        return tuple(_keys(self._handle, self.number))

    @functools.cached_property
    def signatures(self) -> tuple[Signature, ...]:
        """Its signatures, in the order of `opgp check`, those embedded in bindings included."""
        return tuple(_signatures(self._handle, self.number))

    @property
    def primary(self) -> Key:
        """Its primary key."""
        return self.keys[0]

    @property
    def user_ids(self) -> tuple[str, ...]:
        """The user IDs (5.11), as UTF-8. An octet that isn't UTF-8 is a lone surrogate, as os.fsdecode makes it."""
        return tuple(it.body.decode("utf-8", "surrogateescape") for it in self.packets if it.kind == 13)

    def state(self, at: int, verify: Optional[Verifier], policy: str = "usual") -> list[State]:
        """How its primary key stands at a time, in seconds since 1970, and then each of its components, in order. As
        `Keyring.states` says it, which is quicker for many certificates. Only signatures of this one are verified."""
        return list(_states(self._handle, at, verify, policy, self.number))

    def __eq__(self, other: object) -> bool:
        if not isinstance(other, Certificate):
            return NotImplemented
        return self.packets == other.packets

    def __hash__(self) -> int:
        return hash(self.packets)

    def __repr__(self) -> str:
        return f"<Certificate {self.number} {self.primary.fingerprint.hex().upper()}>"

    def __getstate__(self) -> dict[str, Any]:
        """All its rows, without what the keyring holds, to copy and pickle."""
        return {name: getattr(self, name) for name in ("number", "packets", "keys", "signatures")}


_It = TypeVar("_It", bound="_Held")


class _Held:
    """What has memory of the library. The end of a `with` closes it, and it can't be copied."""

    def close(self) -> None:
        """Frees it."""
        raise NotImplementedError

    def __enter__(self: _It) -> _It:
        return self

    def __exit__(self, *_: object) -> None:
        self.close()

    def __reduce__(self) -> Any:
        raise TypeError(f"a {type(self).__name__} can't be copied or pickled")


class Keyring(_Held):
    """A keyring, as `read` gives it. It is closed by `close`, at the end of its `with`, or when nothing refers to it."""

    _handle: Optional[_Handle] = None

    def __init__(self, octets: Octets, limits: Optional[Limits] = None, mode: str = "auto") -> None:
        by, whole, fault, handle = _mode(mode), _bytes(octets), _Fault(), _Handle()
        to = ctypes.byref(handle._as_parameter_), ctypes.byref(fault)
        _raise_if_refused(_library.opgp_open_mode(whole, len(whole), by, _limits(limits), *to), fault)
        self._handle = handle

    @classmethod
    def _made(cls, call: Callable[[Any], Any]) -> Keyring:
        """The keyring that this call makes."""
        made, handle = cls.__new__(cls), _Handle()
        _raise_but_for_done(call(ctypes.byref(handle._as_parameter_)))
        made._handle = handle
        return made

    def close(self) -> None:
        """Closes the keyring: later calls raise ValueError. It is freed when the calls and checks under way have ended, and no
        Certificate of it is left."""
        self._handle = None

    def _open(self) -> _Handle:
        """What the library holds, as long as the caller keeps it."""
        if (handle := self._handle) is None:
            raise ValueError("the keyring is closed")
        return handle

    def packets(self) -> list[Packet]:
        """All packets, in order."""
        return _packets(self._open())

    def keys(self) -> list[Key]:
        """All keys, in order, a primary key before its subkeys."""
        return _keys(self._open())

    def signatures(self) -> list[Signature]:
        """All signatures, in the order of `opgp check`, those embedded in bindings included. The first call makes their digests.
        docs/LIBRARY-PYTHON.md says what that costs for a stranger's keyring."""
        return _signatures(self._open())

    def certificates(self) -> list[Certificate]:
        """The certificates, in order. Their rows are made when you first ask for them."""
        handle, count = self._open(), ctypes.c_size_t()
        _raise_but_for_done(_library.opgp_certificate_count(handle, ctypes.byref(count)))
        return [Certificate(handle, number) for number in range(count.value)]

    def skipped(self) -> int:
        """How many octets outside of armored blocks were passed over, if they aren't text: 0 if none were, or the input was binary, or
        another call made this keyring. Such octets may be packets, which are lost then."""
        handle, count = self._open(), ctypes.c_uint64()
        _raise_but_for_done(_library.opgp_skipped(handle, count))
        return count.value

    def find(self, name: Union[str, Octets]) -> list[Key]:
        """The keys with this fingerprint or key ID. It is octets, or a text of hexadecimal digits, perhaps with spaces and `0x`.
        A text of other letters raises ValueError. A name of another size names no key."""
        wanted = _name_of(name)
        return [it for it in self.keys() if wanted in (it.fingerprint, it.key_id)]

    def octets(self, row: int) -> bytes:
        """What the signature in this row hashes (5.2.4). Raises IndexError if there is no such row, or it isn't hashed."""
        handle, at = self._open(), _row(row)
        return _given(lambda octets, size: _library.opgp_octets(handle, at, octets, size))

    def write(self, armor: bool = False) -> bytes:
        """The packets of the keyring, octet for octet as they were read: bare, or as one block of armor."""
        return _written(self._open(), armor)

    def normalised(self) -> Keyring:
        """A keyring of the same packets, each in the current format and its shortest length (4.2.1)."""
        handle = self._open()
        return self._made(lambda made: _library.opgp_normalise(handle, made))

    def merged(self) -> Keyring:
        """A keyring where certificates of the same primary key are one, and equal packets of a place appear once (10.1)."""
        handle = self._open()
        return self._made(lambda made: _library.opgp_merge(handle, made))

    def choose(self, own_signatures: bool = False, attributes: bool = True, user_ids: Iterable[int] = ()) -> Keyring:
        """A keyring of chosen parts of each certificate, in their order, as `opgp write` chooses them. With `own_signatures` only
        those signatures stay that name their certificate's primary key as the issuer. Without `attributes` user attributes (5.12) go.
        With `user_ids` only the user IDs (5.11) of these numbers stay, which are counted from 0 in each certificate."""
        handle, chosen = self._open(), [_row(it) for it in user_ids]
        numbers = (ctypes.c_uint64 * len(chosen))(*chosen)
        return self._made(lambda made: _library.opgp_choose(handle, own_signatures, not attributes, numbers, len(chosen), made))

    def pick(self, names: Iterable[Union[str, Octets]], others: bool = False) -> Keyring:
        """A keyring of the certificates that have one of these keys, in their order, as `opgp split --key` picks them; with `others` of
        those that have none of them. A name is one that `find` takes. Raises KeyError for a key that no certificate has: else a typing
        error would let a certificate through."""
        handle, count = self._open(), ctypes.c_size_t()
        numbers: dict[bytes, set[int]] = {}
        _raise_but_for_done(_library.opgp_certificate_count(handle, ctypes.byref(count)))
        for key in self.keys():
            numbers.setdefault(key.fingerprint, set()).add(key.certificate)
            numbers.setdefault(key.key_id, set()).add(key.certificate)
        picked = [others] * count.value
        for name in map(_name_of, names):
            if name not in numbers:
                raise KeyError(f"no certificate has the key {name.hex().upper()}")
            for number in numbers[name]:
                picked[number] = not others
        return self._made(lambda made: _library.opgp_pick(handle, bytes(picked), len(picked), made))

    def certificate(self, number: int) -> Keyring:
        """The certificate of this number, from 0, as a keyring. Raises IndexError if there is none."""
        handle, at = self._open(), _row(number)
        return self._made(lambda made: _library.opgp_certificate(handle, at, made))

    def joined(self, other: Keyring) -> Keyring:
        """A keyring of the packets of this one, and behind them those of another one, or of this one."""
        behind, handle = _opened(other), self._open()
        return self._made(lambda made: _library.opgp_join(handle, behind, made))

    def check(self, verify: Optional[Verifier] = None) -> list[tuple[Signature, Verdict]]:
        """Each signature, in order, with its verdict:

        - BAD if its digest doesn't begin with the 16 bits that it states;
        - what `verify` returns, which is called once, if it is hashed, and its issuer's key is in the keyring and has its
          version;
        - UNDECIDED for all others; without a `verify`, for all that aren't bad.

        What `verify` raises ends the check, and is raised here. GOOD is arithmetic and no more. Expiries, revocations, key flags
        and critical subpackets aren't looked at: see `standing`.
        """
        handle = self._open()
        signatures, keys = _signatures(handle), _keys(handle)
        found: list[tuple[Signature, Verdict]] = []
        raised: list[BaseException] = []

        def answer(_: Any, asked: Any) -> int:
            try:
                question = asked.contents
                signature, signer = signatures[question.row], keys[question.job.contents.signer]
                given = verify(Question(signature, signer)) if verify else Verdict.UNDECIDED
                return _said(given).value
            except BaseException as it:  # pylint: disable=broad-except
                raised.append(it)
                return Verdict.UNDECIDED.value

        def report(_: Any, row: int, __: Any, verdict: int) -> int:
            try:
                found.append((signatures[row], Verdict(verdict)))
            except BaseException as it:  # pylint: disable=broad-except
                raised.append(it)
            return int(bool(raised))

        status = _library.opgp_check(handle, _Verifier(answer) if verify else _Verifier(0), _Reporter(report), None)
        if raised:
            raise raised[0]
        _raise_but_for_done(status)
        return found

    def standing(self, key: Key, made: int, now: int, verify: Verifier, policy: str = "usual") -> Optional[Why]:
        """Why this key may not be believed for a signature that was made at one time and is read at another, both in seconds since
        1970. None: it may. docs/VALIDITY.md has the rule, which is proved.

        The key is one of `keys`. Its certificate is judged alone: first merge a keyring that may have one twice (`merged`).
        `verify` is called as by `check`, at most once for each signature of that certificate, and for no other. It should verify
        what the policy doesn't rely on too, such as SHA-1: a revocation counts whatever made it. It is also asked about a key
        revocation that is misplaced, with a digest of the primary key alone (5.2.1.11), and `why_not` is None.

        The policy says which hash algorithms and keys are relied on: `usual` ones, or `any` (9.5, 12.4). docs/VALIDITY.md has the
        usual ones; SHA-1 and RSA below 2048 bits are none.

        Raises IndexError if the keyring has no such key, ValueError for a time below 0 or from 2**64 on, another policy, or a
        closed keyring, TypeError for what is no key or no number, and what `verify` raises.
        """
        handle, times = self._open(), (_time(made), _time(now))
        rule = _Rule(handle, verify, _policy(policy))
        call = _library.opgp_ring_standing
        return rule.why(_known(handle, key), lambda ring, given, place, why: call(ring, *given, *place, *times, why))


    def cause(self, key: Key, made: int, now: int, verify: Verifier, policy: str = "usual") -> Optional[Cause]:
        """What makes this key not believed, where `standing` gives a reason: of which key and at which time it holds, a date, and the
        signature that says so. None: it is believed. The arguments are those of `standing`, and so is what it raises."""
        handle = self._open()
        times = _time(made), _time(now)
        return _Rule(handle, verify, _policy(policy)).cause(_known(handle, key), *times)

    def states(self, at: int, verify: Optional[Verifier], policy: str = "usual") -> list[State]:
        """How each key, user ID and user attribute of the `merged` keyring stands at a time, in seconds since 1970: the primary key of
        each certificate, and then its components, in order. docs/VALIDITY.md has the rule, which is proved.

        `verify` is called at most once for each signature of the merged keyring. What it should verify, and the policy, are those of
        `standing`. With None no signature is good.

        Raises ValueError for a time below 0 or from 2**64 on, another policy, or a closed keyring; and what `verify` raises.
        """
        return list(_states(self._open().merged(), at, verify, policy))


class Reader(_Held):
    """Reads a keyring whose octets, armored or binary, come in pieces of any size. It gives the parts as they are complete, as
    keyrings of their own: each certificate, and the packets before the first one, if there are any.

    It keeps what is unfinished, and the parts that weren't taken, so an input of any size is read in bounded memory. Only the end
    says whether the input is a keyring: `end` may raise a fault after parts were given. A reader is closed by `close`, at the end
    of its `with`, or when nothing refers to it. Calls of several threads wait for one another.
    """

    _lock: Any
    _reader: Any

    def __new__(cls, *_: Any, **__: Any) -> Reader:
        reader = super().__new__(cls)
        reader._lock, reader._reader = threading.RLock(), _Reader()
        return reader

    def __init__(self, limits: Optional[Limits] = None) -> None:
        given = _limits(limits)
        with self._lock:
            _raise_but_for_done(_library.opgp_reader_open(given, self._reader))

    def __del__(self, clear: Any = _library.opgp_reader_clear) -> None:
        clear(self._reader)

    def push(self, piece: Octets) -> None:
        """Takes the next piece of the input. Raises ValueError if the input has ended, or the reader is closed. After a
        MemoryError the reading is lost, and each later call raises it again."""
        octets = _bytes(piece)
        with self._lock:
            _raise_but_for_done(_library.opgp_reader_push(self._reader, octets, len(octets)))

    def take(self) -> Optional[Keyring]:
        """The next part as a keyring, or None if no part is complete that wasn't taken."""
        try:
            with self._lock:
                return Keyring._made(lambda made: _library.opgp_take(self._reader, made))
        except IndexError:
            return None

    def taken(self) -> Iterator[Keyring]:
        """Takes all parts that are complete and weren't taken."""
        while (part := self.take()) is not None:
            yield part

    def end(self) -> None:
        """Ends the input. Raises Fault if it isn't a keyring: parts that weren't taken are gone then. Else they can be taken."""
        fault = _Fault()
        with self._lock:
            _raise_if_refused(_library.opgp_reader_end(self._reader, fault), fault)

    def close(self) -> None:
        """Frees what the reader keeps. It can't be used again."""
        with self._lock:
            _library.opgp_reader_clear(self._reader)


class Document(_Held):
    """Hashes a document, whose octets come in pieces of any size, for the detached signatures over it (10.4). Each hashes the
    document as it is (5.2.1.1), or as text with canonical line ends (5.2.1.2). No more of the document is kept than the digests
    need, so it may have any size.

    First it reads the signatures, armored or binary. Then push the pieces, end the document, and `judge` it by a keyring. It is
    closed by `close`, at the end of its `with`, or when nothing refers to it. Calls of several threads wait for one another.
    """

    _lock: Any
    _document: Any

    def __new__(cls, *_: Any, **__: Any) -> Document:
        made = super().__new__(cls)
        made._lock, made._document = threading.RLock(), _Hashed()
        return made

    def __init__(self, signatures: Octets, limits: Optional[Limits] = None, mode: str = "auto") -> None:
        """Reads the signatures, by a mode and within limits, as `read` does a keyring. Raises what `read` raises, and ValueError
        if there are more than 64 signatures."""
        by, whole, within, fault, made = _mode(mode), _bytes(signatures), _limits(limits), _Fault(), _Hashed()
        status = _library.opgp_document_open(whole, len(whole), by, within, made, fault)
        if status == _MANY:
            raise ValueError(f"there are more than {_MOST_SIGNATURES} signatures")
        _raise_if_refused(status, fault)
        with self._lock:
            self._document = made

    def push(self, piece: Octets) -> None:
        """Takes the next piece of the document. Raises ValueError if the document has ended, or is closed."""
        octets = _bytes(piece)
        with self._lock:
            _raise_but_for_done(_library.opgp_document_push(self._document, octets, len(octets)))

    def end(self) -> None:
        """Ends the document. Raises ValueError if it had ended, or is closed."""
        with self._lock:
            _raise_but_for_done(_library.opgp_document_end(self._document))

    def signatures(self, keyring: Optional[Keyring] = None) -> list[Signature]:
        """The signatures over the document, in order, with their digests. Their signers are rows of the keyring's keys; without a
        keyring there are none. Raises ValueError if the document hasn't ended, or what is used is closed."""
        return self._found(self._document, None if keyring is None else _opened(keyring))

    def _found(self, document: _Hashed, handle: Optional[_Handle]) -> list[Signature]:
        rows, count, octets = ctypes.POINTER(_Job)(), ctypes.c_size_t(), ctypes.POINTER(ctypes.c_uint8)()
        to = ctypes.byref(rows), ctypes.byref(count), ctypes.byref(octets)
        with self._lock:
            _raise_but_for_done(_library.opgp_signatures(document, handle, *to))
            try:
                subpackets, begin, found = self._subpackets(document), ctypes.addressof(octets.contents), []
                for row, it in enumerate(rows[: count.value]):
                    *made, issuer = _cut(begin + it.at, *it.sizes, it.issuer_size)
                    found.append(_signature(row, it, made, issuer, subpackets.get(row, ())))
                return found
            finally:
                _free(rows)
                _free(octets)

    @staticmethod
    def _subpackets(document: _Hashed) -> dict[int, list[Subpacket]]:
        """The subpackets of each signature that has some, by its row."""
        sizes, status = _Sizes(), _ROOM
        while status == _ROOM:
            rows, octets = (_Subpacket * sizes.rows)(), (ctypes.c_uint8 * sizes.bytes)()
            status = _library.opgp_document_subpackets(document, rows, len(rows), octets, len(octets), sizes)
        _raise_but_for_done(status)
        begin = ctypes.addressof(octets)
        found: dict[int, list[Subpacket]] = {}
        for it in rows:
            (data,), (one, other) = _cut(begin + it.at, it.size), _cut(begin + it.fields_at, *it.field_sizes)
            found.setdefault(it.hang, []).append(_subpacket(it, data, (one, other)))
        return found

    def check(self, keyring: Keyring, verify: Optional[Verifier] = None) -> list[tuple[Signature, Verdict]]:
        """Each signature over the document, in order, with its verdict:

        - BAD if its digest doesn't begin with the 16 bits that it states;
        - what `verify` returns, which is called once, if it is hashed, and its issuer's key is in the keyring and has its
          version;
        - UNDECIDED for all others; without a `verify`, for all that aren't bad. Of a cleartext message only signatures of type 01
          are hashed.

        What `verify` raises ends the check, and is raised here. GOOD is arithmetic and no more. Expiries, revocations, key flags
        and critical subpackets aren't looked at: see `judge`.
        """
        handle = _opened(keyring)
        return [(it, _verdict(it, handle, verify)) for it in self._found(self._document, handle)]

    def judge(self, keyring: Keyring, verify: Verifier, now: int, policy: str = "usual") -> list[Judgement]:
        """Whether each signature over the document, in order, may be believed at this time, in seconds since 1970. The verdict on
        it is that of `check`. If it is GOOD, the signature is believed if the rule of docs/VALIDITY.md, which is proved, believes
        it and its signer's key, in one of the key's places in the keyring. Else the first place says why it isn't.

        The rule judges a certificate alone, so this merges the keyring, as `merged` does. Questions have the rows of the merged
        keyring, but signers in what is returned are rows of this one. A keyring keeps what this makes of it for the next call.
        `verify` is called at most once for each of the signatures, and for each of a certificate that a signer is in. What it
        should verify, and the policy, are those of `Keyring.standing`.

        Raises ValueError for a time below 0 or from 2**64 on, another policy, a document that hasn't ended, or if what is used is
        closed; TypeError for what is no keyring or no number; and what `verify` raises.
        """
        handle, at, document = _opened(keyring), _time(now), self._document
        rule = _Rule(handle.merged(), verify, _policy(policy))

        def ask(row: int, ring: Any, given: Any, place: Any, why: Any) -> Any:
            with self._lock:
                return _library.opgp_document_standing(document, ring, *given, row, *place, at, why)

        found = []
        for it in self._found(document, rule.handle):
            verdict, cause = _verdict(it, rule.handle, verify), None
            signer = None if it.signer is None else _key_at(rule.handle, it.signer)
            if signer and verdict is Verdict.GOOD:
                why = rule.why_anywhere(signer, functools.partial(ask, it.row))
                if why in _OF_KEYS and it.created is not None:
                    first = _key_at(rule.handle, next(_rows_of(rule.handle, signer.fingerprint)))
                    cause = rule.cause(first, it.created, at)
            else:
                why = Why[verdict.name]
            if signer and handle is not rule.handle:
                it = dataclasses.replace(it, signer=next(_rows_of(handle, signer.fingerprint)))
            found.append(Judgement(it, verdict, why, cause))
        return found

    def front(self, row: int) -> bytes:
        """What the signature in this row hashes in front of the document (5.2.4): its salt in version 6, and nothing in version
        4. Raises IndexError if there is no such row, or the signature is malformed, or of another version."""
        return self._own(row, 0)

    def behind(self, row: int) -> bytes:
        """What it hashes behind the document: its own fields, and their size. Raises IndexError as `front` does."""
        return self._own(row, 1)

    def _own(self, row: int, is_behind: int) -> bytes:
        at, size, status = _row(row), ctypes.c_uint64(), _ROOM
        with self._lock:
            while status == _ROOM:
                octets = (ctypes.c_uint8 * size.value)()
                status = _library.opgp_document_octets(self._document, at, is_behind, octets, len(octets), size)
        _raise_but_for_done(status)
        return bytes(octets)

    def close(self) -> None:
        """Closes the document: later calls raise ValueError. What it keeps is freed when the calls under way have ended."""
        with self._lock:
            self._document = _Hashed()


def _opened(keyring: Any) -> _Handle:
    """What the library holds of this keyring. Raises TypeError if it is none."""
    if not isinstance(keyring, Keyring):
        raise TypeError(f"a Keyring is wanted, and not a {type(keyring).__name__}")
    return keyring._open()


def _bytes(octets: Octets) -> bytes:
    """These octets. Raises TypeError for what isn't octets in memory, such as a number, a text, a list or a path."""
    return octets if type(octets) is bytes else bytes(memoryview(octets))  # a class of bytes may lie about its length


def _name_of(name: Union[str, Octets]) -> bytes:
    """The octets of a fingerprint or key ID."""
    return bytes.fromhex(name.removeprefix("0x")) if isinstance(name, str) else _bytes(name)


def _row(number: int) -> int:
    """The number of a row. Raises IndexError if no row can have it."""
    if not 0 <= (row := operator.index(number)) < _NONE:
        raise IndexError(number)
    return row


_MODES = ("auto", "armor", "binary")


def _mode(mode: str) -> int:
    """The library's number of this mode."""
    return _chosen("mode", mode, _MODES)


def _chosen(what: str, word: str, words: tuple[str, ...]) -> int:
    """The number of this word among those that there are."""
    if word not in words:
        raise ValueError(f"the {what} is {word!r}, and none of {', '.join(words)}")
    return words.index(word)


def _limits(limits: Optional[Limits]) -> Any:
    """The library's struct of these limits, or of the usual ones."""
    limits = Limits() if limits is None else limits
    if not isinstance(limits, Limits):
        raise TypeError(f"Limits are wanted, and not a {type(limits).__name__}")
    numbers = [it if 0 <= it < _NONE else _NONE for it in map(operator.index, limits[:5])]
    given = _Limits(*numbers, bool(limits.refuse_outside) + 2 * bool(limits.keep_malformed))
    if (wrong := _library.opgp_wrong_limit(given)) < len(numbers):
        raise ValueError(f"the limit {Limits._fields[wrong]} is out of its range: {limits[wrong]}")
    return given


def _raise_but_for_done(status: int) -> None:
    if status == _DONE:
        return
    text = _library.opgp_status_text(status).decode("ascii")
    kinds = {_MEMORY: MemoryError, _LIMITS: ValueError, _CLOSED: ValueError, _NO_ROW: IndexError, _ENDED: ValueError}
    kinds |= {_MANY: ValueError, _GOING: ValueError}
    raise kinds.get(status, RuntimeError)(text)


def _raise_if_refused(status: int, fault: Any) -> None:
    if status == _REFUSED:
        raise Fault(
            _name(_LAYERS, fault.layer) or "unknown",
            _name(_REASONS, fault.reason) or "unknown",
            fault.reason,
            fault.block,
            fault.pos,
            fault.inner,
        )
    _raise_but_for_done(status)


def read(octets: Octets, limits: Optional[Limits] = None, mode: str = "auto") -> Keyring:
    """Parses the keyring in these octets, within these limits or the usual ones. The mode is armor, binary, or auto: the first
    octet says which.

    Raises Fault if the octets are refused, TypeError if they are a number, a text, a path and the like, ValueError if a limit is
    out of its range or there is no such mode, and MemoryError.
    """
    return Keyring(octets, limits, mode)


def parts(source: BinaryIO, limits: Optional[Limits] = None, size: int = 1 << 16) -> Iterator[Keyring]:
    """The parts of the keyring in this file, each as soon as it is complete: see `Reader`. It is read in pieces of at most this
    size.

    Raises Fault behind the last part if the input is refused: the parts before it are then those of no keyring. Raises ValueError
    for a size below 1, and BlockingIOError for a source that doesn't block and has nothing to read yet, which ends the reading.
    """
    return _parts(_pieces(source, size), Reader(limits))


def _parts(pieces: Iterator[bytes], reader: Reader) -> Iterator[Keyring]:
    with reader:
        for piece in pieces:
            reader.push(piece)
            yield from reader.taken()
        reader.end()
        yield from reader.taken()


def document(
    signatures: Octets,
    source: BinaryIO,
    limits: Optional[Limits] = None,
    mode: str = "auto",
    size: int = 1 << 16,
    progress: Optional[Callable[[int], object]] = None,
) -> Document:
    """Hashes the document in this file for the signatures over it, and ends it: see `Document`. The limits and the mode are those
    of the signatures. The file is read to its end, in pieces of at most this size. `progress` is called after each piece, with
    how many octets were read so far.

    Raises what `Document` raises, what reading the file and `progress` raise, and ValueError and BlockingIOError as `parts` does.
    """
    pieces, made, so_far = _pieces(source, size), Document(signatures, limits, mode), 0
    try:
        for piece in pieces:
            made.push(piece)
            so_far += len(piece)
            if progress is not None:
                progress(so_far)
        made.end()
    except BaseException:
        made.close()
        raise
    return made


def cleartext(message: Octets, limits: Optional[Limits] = None) -> tuple[bytes, Document]:
    """The document of a message in the cleartext signature framework (7), and the signatures over it: `Document.judge` says which
    may be believed. Before that, nothing says that the document is genuine. Its lines end in a line feed, but for the last one. All
    that isn't blank outside of the message is refused.

    Programs disagree on signatures of another type than 01 over such a document, so these are UNDECIDED. Raises what `Document`
    raises."""
    octets, within, fault, made, size = _bytes(message), _limits(limits), _Fault(), Document.__new__(Document), ctypes.c_uint64()
    text = (ctypes.c_uint8 * len(octets))()
    status = _library.opgp_cleartext_open(octets, len(octets), within, text, len(text), size, made._document, fault)
    if status == _MANY:
        raise ValueError(f"there are more than {_MOST_SIGNATURES} signatures")
    _raise_if_refused(status, fault)
    return bytes(memoryview(text)[: size.value]), made


class FoundBlock(NamedTuple):
    """An armored block in a text."""

    at: int
    """Where it begins in the text: the first octet of its `-----BEGIN`."""
    size: int
    """How many octets of the text it has, up to the end of its last line's content."""
    octets: bytes
    """The block, cleaned: the contents of its lines, each with a line feed. `read` and the other readers take it."""


def find_blocks(text: Octets) -> list[FoundBlock]:
    """The armored blocks in a text as mail programs meet it, in order: quoted by `> `, indented, with `<br>` at the end of a line,
    behind a byte order mark, among other text. Each line that begins a block makes one, even if its end is missing: a reader says
    then what is. Only `SIGNED MESSAGE` begins none, since the text of a cleartext message must stay as it is (7)."""
    octets, found, sizes = _bytes(text), (_FoundBlock * 16)(), _Sizes()
    cleaned = (ctypes.c_uint8 * (len(octets) + 1))()
    while (status := _library.opgp_find_blocks(octets, len(octets), found, len(found), cleaned, len(cleaned), sizes)) == _ROOM:
        found = (_FoundBlock * sizes.rows)()
    _raise_but_for_done(status)
    whole = memoryview(cleaned)
    return [FoundBlock(it.at, it.size, bytes(whole[it.octets_at : it.octets_at + it.octets_size])) for it in found[: sizes.rows]]


class UserIdFacts(NamedTuple):
    """What the octets of a user ID say."""

    is_utf8: bool
    """They are UTF-8, as they should be (5.11)."""
    address_at: Optional[int]
    """Where the mail address begins; None if there is none."""
    address: Optional[bytes]
    """The address."""


def user_id(octets: Octets) -> UserIdFacts:
    """What the octets of a user ID say: whether they are UTF-8, and where their mail address is. All of them are the address; or it
    stands at their end, in `<` and `>`, and there is no other `<` or `>`. What is in front may look like another address. Octets of an
    address may be control characters of UTF-8, or turn the direction of text."""
    whole, facts = _bytes(octets), _UserIdFacts()
    _library.opgp_user_id(whole, len(whole), facts)
    if not facts.has_address:
        return UserIdFacts(bool(facts.is_utf8), None, None)
    at, size = facts.address_at, facts.address_size
    return UserIdFacts(bool(facts.is_utf8), at, whole[at : at + size])


def _pieces(source: BinaryIO, size: int) -> Iterator[bytes]:
    """The octets of a source, in pieces of at most this size."""
    if size < 1:
        raise ValueError(f"the size of pieces is {size}")
    return iter(lambda: _piece(source.read(size)), b"")


def _piece(read_octets: Optional[Octets]) -> bytes:
    """The octets that a source gave. None at all are its end."""
    if read_octets is None:
        raise BlockingIOError("the source has nothing to read yet")
    return _bytes(read_octets)


# As a package (`opgp/__init__.py`) this file has opgp.everyday and others beside it. As one file it has them in the folder wheel/.
if "__path__" not in globals():
    __path__ = [os.path.join(os.path.dirname(os.path.abspath(__file__)), "wheel")]

if __name__ == "__main__":
    # A package's __main__.py is run by `python3 -m opgp`; of one file that is the file itself.
    sys.exit(importlib.import_module("opgp.__main__").main())
