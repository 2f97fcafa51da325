#!/usr/bin/env python3
"""Compares what the library for C says of keys and user IDs with tests/lib/standing.py, which works the same rule out in its own way:
over generated certificates (--cases, from --seed), whose signatures come with verdicts, so that nothing is signed; and over those of
tests/vectors/validity, of which other programs were asked.

Usage: tests/bindings/validity.py [--cases N] [--seed N] [--library FILE]
"""

import argparse
import ctypes
import hashlib
import os
import subprocess
import sys
import tempfile

HERE = os.path.dirname(os.path.dirname(os.path.dirname(os.path.realpath(__file__))))
sys.path.insert(0, f"{HERE}/tests/lib")

import causes  # noqa: E402
import model  # noqa: E402
import standing  # noqa: E402
import standing_cases  # noqa: E402
from openpgp_maker import Key, number, packet, signature, subpacket  # noqa: E402
from running import processor_seconds  # noqa: E402

WHYS = (None, "future", "revoked", "early", "unbound", "expired", "flags", "back", "type", "critical", "weak", "time", "lapsed", "issuer", "no-use")
DONE, ROOM, LIMITS, CLOSED, NO_ROW = 0, 2, 4, 5, 6
NONE = 2**64 - 1
READ = 1795132800  # when the vectors are read: 2026-11-20
KEEP_MALFORMED = 2  # such signatures say nothing, and have a row
POLICIES = {"usual": 0, "any": 1}
IDENTITIES = {"fine": 0, "revoked": 2, "unbound": 4}
FLAGS = {"certify": 1, "sign": 2, "encrypt": 4, "authenticate": 32}
NUMBERS = {standing.UNDECIDED: 0, standing.GOOD: 1, standing.BAD: 2}
SHOWN = 5  # of what differs
MANY, MANY_SECONDS = 40000, 4  # subkeys, and how long they take at most, twice

passed, failed = 0, 0
seen = set()  # the reasons, keys, times and lacks of causes


class Handle(ctypes.Structure):
    _fields_ = [("is_open", ctypes.c_bool), ("at", ctypes.c_void_p)]


class Limits(ctypes.Structure):
    _fields_ = [(name, ctypes.c_uint64) for name in ("line", "body", "cert", "input", "pieces", "policies")]


class Fault(ctypes.Structure):
    _fields_ = [("places", ctypes.c_uint64 * 3), ("layer", ctypes.c_uint8), ("reason", ctypes.c_uint8), ("reserved", ctypes.c_uint8 * 6)]


def verdict(title, holds, told=""):
    """Counts a test, and says what is wrong."""
    global passed, failed
    passed, failed = passed + bool(holds), failed + (not holds)
    if not holds and failed <= SHOWN:
        print(f"FAILED: {title}: {told}")


class State(ctypes.Structure):
    _fields_ = [(name, ctypes.c_uint64) for name in ("certificate", "component", "end")]
    _fields_ += [("begin", ctypes.c_uint32)]
    _fields_ += [(name, ctypes.c_uint8) for name in ("why", "is_key", "uses", "has_reason", "reason")]
    _fields_ += [("reserved", ctypes.c_uint8 * 7)]


class CauseRow(ctypes.Structure):
    _fields_ = [(name, ctypes.c_uint64) for name in ("date", "component", "hang")]
    _fields_ += [(name, ctypes.c_uint8) for name in ("why", "is_primary", "is_now", "lack")]
    _fields_ += [("reserved", ctypes.c_uint8 * 4)]


class Library:
    def __init__(self, path):
        self.calls = ctypes.CDLL(path)
        wide, octet = ctypes.c_uint64, ctypes.POINTER(ctypes.c_uint8)
        self.calls.opgp_ring_open.argtypes = [ctypes.c_char_p, ctypes.c_size_t] + [ctypes.c_void_p] * 3
        self.calls.opgp_ring_standing.argtypes = [ctypes.c_void_p, ctypes.c_char_p, ctypes.c_size_t, ctypes.c_uint32, wide, wide, wide, wide, octet]
        self.calls.opgp_ring_cause.argtypes = self.calls.opgp_ring_standing.argtypes[:-1] + [ctypes.POINTER(CauseRow)]
        self.calls.opgp_ring_states.argtypes = [ctypes.c_void_p, ctypes.c_char_p, ctypes.c_size_t, ctypes.c_uint32, wide]
        self.calls.opgp_ring_states.argtypes += [ctypes.c_void_p, ctypes.c_size_t, ctypes.POINTER(wide)]
        self.calls.opgp_ring_revocation.argtypes = [ctypes.c_void_p, wide, octet, ctypes.c_size_t, ctypes.POINTER(wide)]
        for call in (self.calls.opgp_ring_close, self.calls.opgp_document_close):
            call.argtypes, call.restype = [Handle], None
        self.calls.opgp_document_open.argtypes = [ctypes.c_char_p, ctypes.c_size_t, ctypes.c_uint32] + [ctypes.c_void_p] * 3
        handles = [ctypes.c_void_p] * 2
        self.calls.opgp_document_standing.argtypes = [*handles, ctypes.c_char_p, ctypes.c_size_t, ctypes.c_uint32, wide, wide, wide, wide, octet]
        self.limits = Limits()
        self.calls.opgp_usual_limits(ctypes.byref(self.limits))
        self.limits.policies = KEEP_MALFORMED

    def opened(self, octets):
        """A handle of this keyring."""
        handle, fault = Handle(), Fault()
        status = self.calls.opgp_ring_open(octets, len(octets), *map(ctypes.byref, (self.limits, handle, fault)))
        if status != DONE:
            raise ValueError(f"status {status}, layer {fault.layer}, reason {fault.reason}")
        return handle

    def standing(self, handle, verdicts, policy, certificate, component, made, now):
        """The status, and why the key isn't to be believed."""
        why = ctypes.c_uint8(255)
        place = NONE if component is None else component
        status = self.calls.opgp_ring_standing(ctypes.byref(handle), verdicts, len(verdicts), policy, certificate, place, made, now, why)
        return status, why.value

    def cause(self, handle, verdicts, policy, certificate, component, made, now):
        """The status, and the row that says why the key isn't to be believed."""
        row = CauseRow(*[255] * 7)
        place = NONE if component is None else component
        status = self.calls.opgp_ring_cause(ctypes.byref(handle), verdicts, len(verdicts), policy, certificate, place, made, now, row)
        return status, cause_of(row)

    def states(self, handle, verdicts, policy, at):
        """The status, and how each part stands."""
        size = ctypes.c_uint64()
        given = ctypes.byref(handle), verdicts, len(verdicts), policy, at
        status = self.calls.opgp_ring_states(*given, None, 0, size)
        rows = (State * size.value)()
        if status == ROOM:
            status = self.calls.opgp_ring_states(*given, rows, len(rows), size)
        return status, list(rows)

    def document(self, body):
        """A handle of a signature over a document; None where it is refused."""
        handle, fault, octets = Handle(), Fault(), packet(2, body)
        status = self.calls.opgp_document_open(octets, len(octets), 2, *map(ctypes.byref, (self.limits, handle, fault)))
        return handle if status == DONE else None

    def belief(self, document, handle, verdicts, policy, certificate, component, now):
        """The status, and why the document's signature isn't to be believed as one by this key."""
        why = ctypes.c_uint8(255)
        place = NONE if component is None else component
        handles = ctypes.byref(document), ctypes.byref(handle)
        status = self.calls.opgp_document_standing(*handles, verdicts, len(verdicts), policy, 0, certificate, place, now, why)
        return status, why.value

    def revocation(self, handle, row):
        """The digest of what the key revocation in a row hashes, or None."""
        octets, size = (ctypes.c_uint8 * 64)(), ctypes.c_uint64()
        status = self.calls.opgp_ring_revocation(ctypes.byref(handle), row, octets, 64, size)
        return bytes(octets)[: size.value] if status == DONE else None


def revocation(certificate, it, is_embedded):
    """The same, worked out here: whatever it follows, it is over the primary key (5.2.1.11)."""
    _, octets = model.asked_there(it.body, None, certificate[0].body, None)
    is_one = not is_embedded and it.version in (4, 6) and it.kind == standing.REVOCATION and isinstance(octets, bytes)
    return hashlib.new(model.HASHES[it.hash], octets).digest() if is_one else None


def numbers(verdicts):
    return bytes(NUMBERS[it] for it in verdicts)


def cause_of(row):
    return tuple(getattr(row, name) for name, _ in CauseRow._fields_[:-1]) + (bytes(row.reserved),)


def cause_row(it):
    """The same, worked out here."""
    if it is None:
        return NONE, NONE, NONE, 0, 0, 0, 0, bytes(4)
    numbers = (NONE if number is None else number for number in (it.date, it.component, it.hang))
    return *numbers, WHYS.index(it.why), it.is_primary, it.is_now, 1 + causes.LACKS.index(it.lack) if it.lack else 0, bytes(4)


def compare_causes(library, keyring, handle, found, policy, question, title):
    """Whether library and model say the same of why a key isn't believed."""
    told, wanted = library.cause(handle, found, policy, *question), (DONE, cause_row(causes.cause(keyring, *question)))
    seen.add(wanted[1][3:7])
    verdict(f"{title}: the cause {question}", told == wanted, f"{told}, not {wanted}: {found.hex()} {policy}")


def row_of(row):
    return tuple(getattr(row, name) for name, _ in State._fields_[:-1]) + (bytes(row.reserved),)


def state_rows(keyring, at):
    """The same, worked out here: how each part of a keyring stands."""
    for c, certificate in enumerate(keyring.certificates):
        for n, (part, state) in enumerate(zip((certificate.primary, *certificate.components), keyring.state(c, at))):
            place = c, n - 1 if n else NONE
            if part.key:
                why, uses, begin, end, reason = state
                told = NONE if end is None else end, begin, WHYS.index(why), 1, sum(FLAGS[it] for it in uses), reason is not None, reason or 0
            else:
                told = NONE, 0, IDENTITIES[state], 0, 0, 0, 0
            yield (*place, *told, bytes(7))


def compare_states(library, keyring, handle, found, policy, at):
    """Whether library and model say the same of each part of a keyring."""
    status, rows = library.states(handle, found, policy, at)
    wanted = list(state_rows(keyring, at))
    told = [row_of(it) for it in rows]
    wrong = [pair for pair in zip(told, wanted) if pair[0] != pair[1]]
    verdict(f"states at {at}", status == DONE and told == wanted, f"{status}, {len(told)} of {len(wanted)}: {wrong[:2]}: {found.hex()}")


def compare(library, case, looks_closely):
    """Whether library and model say the same of each question of a case; and that there is no key where there is none. Of few cases also
    what key revocations hash."""
    keyring = standing.Keyring(case.octets, case.verdicts, case.policy)
    handle, found, policy = library.opened(case.octets), numbers(case.verdicts), POLICIES[case.policy]
    for question in case.questions:
        status, why = library.standing(handle, found, policy, *question)
        wanted = keyring.standing(*question)
        verdict(f"{question}", (status, why) == (DONE, WHYS.index(wanted)), f"{status} {why}, not {wanted}: {case.octets.hex()} {found.hex()} {case.policy}")
        compare_causes(library, keyring, handle, found, policy, question, case.octets.hex())
    for at in {at for _, at in case.states}:
        compare_states(library, keyring, handle, found, policy, at)
    for body, _, now in case.documents:
        beliefs(library, keyring, handle, body, found, policy, now)
    keys = {place for place, _ in keyring.table()}
    for c, certificate in enumerate(keyring.certificates):
        others = [n for n in range(len(certificate.components) + 1) if (c, n) not in keys]
        verdict("no key", all(library.standing(handle, found, policy, c, n, 0, 0) == (NO_ROW, 255) for n in others), case.octets.hex())
    for row, (certificate, _, it, is_embedded) in enumerate(standing.rows(standing.read(case.octets)) if looks_closely else ()):
        verdict("a revocation", library.revocation(handle, row) == revocation(certificate, it, is_embedded), f"{row} {case.octets.hex()}")
    library.calls.opgp_ring_close(handle)


def beliefs(library, keyring, handle, body, found, policy, now):
    """Whether library and model say the same of a document's signature, as one by each key of a keyring."""
    document = library.document(body)
    verdict("a document's signature is read", document is not None, body.hex())
    for place, _ in keyring.table() if document else ():
        status, why = library.belief(document, handle, found, policy, *place, now)
        wanted = keyring.belief(body, place, now)
        verdict(f"{place} {now}", (status, why) == (DONE, WHYS.index(wanted)), f"{status} {why}, not {wanted}: {body.hex()}")
    if document:
        verdict("no key", library.belief(document, handle, found, policy, NONE, None, now) == (NO_ROW, 255))
        library.calls.opgp_document_close(document)


def compare_vectors(library):
    """Whether library and model say the same of each key of the vectors, when a document was signed; and the model what is written down."""
    for it in standing_cases.vectors():
        keyring = standing.Keyring(it.octets, it.verdicts)
        handle, found = library.opened(it.octets), numbers(it.verdicts)
        whys = [keyring.believed(body, own, READ) for body, own in it.documents]
        is_refused = it.expected == ["refused"] and not it.documents  # what isn't a list of signatures
        verdict(it.title, whys == it.expected or is_refused, f"{whys}, not {it.expected}")
        for place, key in keyring.table():
            for made in {READ, key.created, key.created - 1, READ - 100 * 86400}:
                question = (*place, made, READ)
                wanted = (DONE, WHYS.index(keyring.standing(*question)))
                verdict(it.title, library.standing(handle, found, POLICIES["usual"], *question) == wanted, f"{question}: not {wanted}")
                compare_causes(library, keyring, handle, found, POLICIES["usual"], question, it.title)
        for at in {READ, READ - 100 * 86400, *(key.created for _, key in keyring.table())}:
            compare_states(library, keyring, handle, found, POLICIES["usual"], at)
        for body, _ in it.documents:
            if body[0] in (4, 6):
                beliefs(library, keyring, handle, body, found, POLICIES["usual"], READ)
        library.calls.opgp_ring_close(handle)


def made():
    """The shared library, made in a room of its own."""
    room = tempfile.mkdtemp(prefix="opgp-validity-")
    run = subprocess.run(["make", "-C", HERE, f"{room}/libopgp.so.3", f"made={room}"], capture_output=True, check=False)
    verdict("make the library", run.returncode == 0, run.stderr.decode())
    return f"{room}/libopgp.so.3"


def edges(library, case):
    """What is given beside the rule: an unknown policy, a closed handle, too few verdicts, places past the last."""
    handle = library.opened(case.octets)
    verdict("an unknown policy", library.standing(handle, b"", 2, 0, None, 0, 0) == (LIMITS, 255))
    verdict("a certificate past the last", library.standing(handle, b"", 0, NONE, None, 0, 0) == (NO_ROW, 255))
    verdict("a component past the last", library.standing(handle, b"", 0, 0, NONE - 1, 0, 0) == (NO_ROW, 255))
    verdict("without verdicts", library.standing(handle, b"", 0, 0, None, 2**40, 2**40) == (DONE, WHYS.index("unbound")))
    verdict("read before it was made", library.standing(handle, b"", 0, 0, None, 1, 0) == (DONE, WHYS.index("future")))
    verdict("a closed handle", library.standing(Handle(), b"", 0, 0, None, 0, 0) == (CLOSED, 255))
    kept = *[255] * 7, bytes(4)
    for status, given in ((LIMITS, (handle, b"", 2, 0, None)), (NO_ROW, (handle, b"", 0, NONE, None)), (NO_ROW, (handle, b"", 0, 0, NONE - 1)),
                          (CLOSED, (Handle(), b"", 0, 0, None))):  # fmt: skip
        verdict(f"a cause with the status {status}", library.cause(*given, 0, 0) == (status, kept))
    verdict("the cause of a signature of the future", library.cause(handle, b"", 0, 0, None, 7, 5) == (DONE, (7, NONE, NONE, 1, 1, 0, 0, bytes(4))))
    verdict("states by an unknown policy", library.states(handle, b"", 2, 0) == (LIMITS, []))
    verdict("states of a closed handle", library.states(Handle(), b"", 0, 0) == (CLOSED, []))
    library.calls.opgp_ring_close(handle)


def large(library):
    """A certificate of many subkeys: the work is linear in their number, so it takes no minutes."""
    made = 1700000000
    keys = [Key(4, made, 27, number(32, it + 1), lambda digest, hash: bytes(64)) for it in range(MANY + 1)]
    area = subpacket(2, number(4, made)) + subpacket(27, b"\x0e") + keys[0].issuer_fingerprint
    parts = [(6, keys[0], 0x1F), *((14, it, standing.BINDING) for it in keys[1:])]
    octets = b"".join(packet(part, it.body) + packet(2, signature(keys[0], kind, b"", area)) for part, it, kind in parts)
    handle, found = library.opened(octets), bytes([NUMBERS[standing.GOOD]]) * (MANY + 1)
    began = processor_seconds()
    status, rows = library.states(handle, found, POLICIES["usual"], made)
    spent = processor_seconds() - began
    verdict("many states", status == DONE and [it.component for it in rows] == [NONE, *range(MANY)] and not any(it.why for it in rows), status)
    verdict("many states in little time", spent < MANY_SECONDS, f"{spent} s")
    library.calls.opgp_ring_close(handle)


def main():
    words = argparse.ArgumentParser(prog="tests/bindings/validity.py", description=__doc__.split("\n\n", maxsplit=1)[0])
    words.add_argument("--cases", type=int, default=20000)
    words.add_argument("--seed", type=int, default=1)
    words.add_argument("--library")
    told = words.parse_args()
    path = told.library or made()
    if os.path.exists(path):
        library = Library(path)
        for n, case in enumerate(standing_cases.cases(told.seed, told.cases, is_honest=True)):
            if n == 0:
                edges(library, case)
            compare(library, case, n % 20 == 0)
        large(library)
        compare_vectors(library)
        told_of = [{it[n] for it in seen} for n in range(4)]
        verdict("causes of all kinds", told_of == [{*range(8)}, {0, 1}, {0, 1}, {*range(8)}], told_of)
    print(f"{passed} passed, {failed} failed")
    return failed != 0


sys.exit(main())
