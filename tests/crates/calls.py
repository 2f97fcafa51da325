#!/usr/bin/env python3
"""Makes the public calls of the crates that no other test makes, by the program of crates/opgp_calls, and compares what they make with
values that come from RFC 9580 or are worked out here.

Usage: tests/crates/calls.py [--program FILE] [TABLE..]

Each call that allocates is made for small, odd and large octets and for few and many things: none may run out of memory. What the
program and the library for C call too is tried in tests/program and tests/bindings.

A row is a call's name, the octets that it is given, and those that it must make of them, or None where it refuses them. Many rows go
through one process. The rows of the table `refused`, and runs of the examples over them, are made once for each allocation
that they make, which fails (tests/lib/refuse.c, preloaded): the answer is then the right one or `memory`, or the program ends without
one because it has no memory. The last line counts the rows.
"""

import argparse
import base64
import os
import subprocess
import sys
import tempfile

sys.dont_write_bytecode = True
sys.path.insert(0, f"{sys.path[0]}/../lib")

import model  # noqa: E402
from inputs import number  # noqa: E402
from model import armor  # noqa: E402
from running import HERE  # noqa: E402
from vectors import worked_rows  # noqa: E402

PROGRAM = f"{HERE}/crates/opgp_calls/out/opgp_calls"
EXAMPLES = f"{HERE}/crates/opgp_examples/out/opgp_examples"
OPGP = f"{HERE}/crates/opgp_tool/out/opgp_tool"
SIZES = (0, 1, 255, 256, 4096, 65_535, 65_536, 65_537, 70_000, 1 << 22)  # of bodies, in octets
# Sizes beside each other, and those around the sizes that lengths and rooms have.
SMALL = (*range(601), 1023, 1024, 1025, 8191, 8192, 8193, 8383, 8384, 16_319, 16_320, 16_383, 16_384, 16_385)
COUNTS = (1, 17, 300, 20_000)  # of things
FEW = range(2, 65)
BATCH = 1 << 24  # octets that one process is given
LETTERS = b"abcdefghijklm"


def letters(size):
    """So many octets, of which no two parts are alike soon."""
    return (LETTERS * (size // len(LETTERS) + 1))[:size]


# Octets and bodies.

KINDS = ("key", "attribute", "literal", "user_id", "signature")
SALT_SIZES = {8: 16, 9: 24, 10: 32, 11: 16, 12: 16, 14: 32}
AREA = b"\5\2\0\0\0\1"
# What algorithms have (9.1): the public material of a key (5.5.5) and the fields of a signature (5.2.3).
INTEGERS = ("000901FF", "0011010001", "000101", "000203")
CURVE = "022A03000740"
KEY_MATERIAL = {
    **dict.fromkeys((1, 2, 3), "".join(INTEGERS[:2])), 16: "".join(INTEGERS[:3]), 17: "".join(INTEGERS), 18: CURVE + "03010807", 19: CURVE, 22: CURVE,
    25: "55" * 32, 26: "55" * 56, 27: "55" * 32, 28: "55" * 57,
}  # fmt: skip
SIGNED = {**dict.fromkeys((1, 3), INTEGERS[0]), **dict.fromkeys((17, 19, 22), "".join(INTEGERS[:2])), 27: "55" * 64, 28: "55" * 114}
MADE = 1_408_458_507


def key_body(version, algorithm, material):
    count = number(4, len(material)) if version == 6 else b""
    return bytes([version]) + number(4, MADE) + bytes([algorithm]) + count + material


def signature_body(version, algorithm, hashed, material, areas=(b"", b""), kind=0x10):
    if version == 3:
        return bytes([3, 5, kind]) + number(4, MADE) + bytes(8) + bytes([algorithm, hashed]) + b"\xab\xcd" + material
    width = 2 if version == 4 else 4
    front = bytes([version, kind, algorithm, hashed]) + number(width, len(areas[0])) + areas[0]
    salt = SALT_SIZES.get(hashed, 0) if version == 6 else 0
    salted = bytes([salt]) + b"w" * salt if version == 6 else b""
    return front + number(width, len(areas[1])) + areas[1] + b"\xab\xcd" + salted + material


def body_of(kind, size):
    """A body of this kind with a field of so many octets."""
    it = letters(size)
    if kind == "signature":
        return b"\5" + it
    return {"key": key_body(6, 200, it), "attribute": b"\xff" + number(4, size + 1) + b"\1" + it, "literal": b"b" + bytes(5) + it}.get(kind, it)


def body_row(kind, body):
    """A body that is parsed, copied and written: once for each copy, one behind the other."""
    return kind, body, body * {"user_id": 2, "signature": 2 + (body[:1] not in (b"\3", b"\4", b"\6"))}.get(kind, 3)


def bodies():
    for size in (*SMALL, *SIZES):
        for kind in KINDS:
            yield body_row(kind, body_of(kind, size))
    # Of each version and algorithm, and with areas.
    for algorithm in range(256):
        for version in (4, 6):
            yield body_row("key", key_body(version, algorithm, bytes.fromhex(KEY_MATERIAL.get(algorithm, "616E79"))))
            material = bytes.fromhex(SIGNED.get(algorithm, "616E79"))
            yield body_row("signature", signature_body(version, algorithm, 9, material, (AREA, AREA * 3)))
    for algorithm in (1, 3, 17):
        yield body_row("signature", signature_body(3, algorithm, 8, bytes.fromhex(SIGNED[algorithm])))
    for size in SIZES:
        for version in (4, 6):
            yield body_row("signature", signature_body(version, 200, 8, letters(size)))


def octets_written():
    for size in (*SMALL, *SIZES):
        yield "lengths", letters(size), letters(size) + b"\xff\0\0\0\x64" + b"\xc0\x6c"
    for size in (*range(1, 300), 8191):
        value = b"\x80" + letters(size - 1)
        yield "integer", number(2, 8 * size) + value + b"more", value


# Armor. A block is its label, its headers and its octets.

LABELS = {"message": b"MESSAGE", "public": b"PUBLIC KEY BLOCK", "private": b"PRIVATE KEY BLOCK", "signature": b"SIGNATURE"}
BEGIN, END = b"-----BEGIN PGP PUBLIC KEY BLOCK-----\n", b"-----END PGP PUBLIC KEY BLOCK-----\n"
XGED = b"\xc6\1\3"


def written(label, it, headers=()):
    first, rest = armor(it, LABELS[label]).split(b"\n", 1)
    return first + b"\n" + b"".join(key + b": " + value + b"\n" for key, value in headers) + rest


def armor_row(text, blocks):
    """A text, and of each of its blocks the text and the events."""
    return "armor", text, b"".join(
        written(label, it, headers) + b"<" + b"".join(key + value for key, value in headers) + it + b">" for label, headers, it in blocks)


def public(it, headers=()):
    return [("public", list(headers), it)]


# Lines of headers (6.2.2): the key and the value of each, or None where it is none. One space behind the colon belongs to no value.
HEADER_LINES = (
    (b"A:b", b"A", b"b"), (b"A: b", b"A", b"b"), (b"A:  b", b"A", b" b"), (b"A:\tb", b"A", b"\tb"), (b"A b: c: d", b"A b", b"c: d"),
    (b"A::b", b"A", b":b"), (b"A: :", b"A", b":"), (b"A: b \t\r", b"A", b"b"), (b"A: b c", b"A", b"b c"), (b"A: \t", b"A", b""),
    (b"A:", b"A", b""), (b"-A: b", b"-A", b"b"), (b"=A: b", b"=A", b"b"), (b"\xff\0: \xfe\1", b"\xff\0", b"\xfe\1"),
    (b" A: b", b" A", b"b"), (b"A : b", b"A ", b"b"), (b" :", b" ", b""), (END[:-1] + b": ", END[:-1], b""), (b"A", None, None),
    (b":b", None, None), (b": b", None, None), (b":", None, None), (b"xgED", None, None), (b"=", None, None),
)  # fmt: skip


def header_lines():
    """Each line alone, and behind another header."""
    for line, key, value in HEADER_LINES:
        for before, headers in ((b"", []), (b"B: c\n", [(b"B", b"c")])):
            text = BEGIN + before + line + b"\n\nxgED\n" + END
            yield ("armor", text, None) if key is None else armor_row(text, public(XGED, [*headers, (key, value)]))


def texts():
    """Blocks of each size, with many headers, many blocks, and many lines of each kind."""
    for size in (*SMALL, *SIZES):
        yield armor_row(written("signature", letters(size)), [("signature", [], letters(size))])
    for size in (it for it in SMALL if it <= 8192 - 5):
        header = (b"key", letters(size))
        yield armor_row(written("public", XGED, [header]), public(XGED, [header]))
    for label in LABELS:
        header = (b"Comment", b"a: b")
        yield armor_row(written(label, XGED, [header]), [(label, [header], XGED)])
    for count in (*FEW, *COUNTS):
        headers = [(b"key%d" % it, letters(it % 70)) for it in range(count)]
        yield armor_row(written("message", XGED, headers), [("message", headers, XGED)])
        blocks = [("message", [], b"%d" % it) for it in range(count)]
        yield armor_row(b"".join(written(label, it) for label, _, it in blocks), blocks)
    for count in COUNTS[1:]:
        text = base64.b64encode(letters(3 * count))
        for size in (1, 3, 61, 63):
            lines = b"".join(text[at : at + size] + b"\n" for at in range(0, len(text), size))
            yield armor_row(BEGIN + b"\n" + lines + END, public(letters(3 * count)))
        for blanks in (b"\n" * count, b" \t\r\n" * count, b"a line\n" * count):
            yield armor_row(blanks + armor(KEY) + blanks, public(KEY))


# Packets and keyrings. A packet is its octets.


def letters_of(name):
    """The octets of an armored text of one block without headers."""
    with open(f"{HERE}/examples/{name}", "rb") as it:
        return base64.b64decode(b"".join(it for it in it.read().split(b"\n")[2:] if it[:1] not in (b"=", b"-")))


KEY = letters_of("rfc9580-a1.asc")
EDDSA = bytes.fromhex("C20E0413160800000000ABCD00000000")  # a signature, of empty areas and integers of no octets
FILLER, NAME = b"\xe8\0", b"\xcd\1a"
MALFORMED = b"\xc2\6" + bytes.fromhex("041316080001")  # its area is cut
IMAGE, SUBKEY = b"\xd1\3\2\1a", b"\xce" + KEY[1:]
SMALL_RING = FILLER + KEY + EDDSA + NAME + EDDSA + b"\xb0\1\7" + IMAGE + SUBKEY
LABEL = b"PUBLIC KEY BLOCK"


def new5(kind, body):
    return bytes([0xC0 | kind, 255]) + number(4, len(body)) + body


def in_parts(exponents, body):
    """A literal whose body comes in partial lengths of these exponents, and a last one of five octets (4.2.1.4)."""
    out, at = b"\xcb", 0
    for exponent in exponents:
        out += bytes([0xE0 | exponent]) + body[at : at + (1 << exponent)]
        at += 1 << exponent
    return out + b"\xff" + number(4, len(body) - at) + body[at:]


def packets_copied():
    """Packets of each size and number, also in partial lengths, that are read, copied and written."""
    for size in (*SMALL, *SIZES):
        for packet in (new5(13, letters(size)), in_parts(b"\x09", letters(512 + size))):
            yield "blocks", packet + FILLER, packet + FILLER
    for count in (*FEW, *COUNTS):
        many = b"".join(new5(13, letters(it % 7)) for it in range(count))
        for packets in (many, in_parts(bytes([9] + [0] * (count - 1)), letters(512 + count))):
            yield "blocks", packets, packets
        yield "blocks", armor(NAME) * count, NAME * count
        yield "ring", armor(KEY) * count, KEY * count


def rows_of(packets):
    """Each call of a keyring: read, copied, shown, reported."""
    whole = b"".join(packets)
    blocks = [(LABEL, whole)]
    found = model.framed(blocks, model.USUAL)
    _, certificates = model.compose(blocks, found, model.USUAL)
    yield "blocks", whole, whole
    yield "bodies", whole, b""
    yield "ring", armor(whole), whole
    alone = [b"".join(packets[index] for part in it for index in (part[0], *part[1])) for it in certificates]
    yield "binary", whole, b"".join(alone)
    yield "armored", whole, b"".join(map(armor, alone))
    yield "listing", whole, "".join(f"{model.listed(kind, body)}\n" for *_, kind, _, body, _ in found).encode()
    yield "shown", whole, "".join(f"{it}\n" for it in model.shown(found, False)).encode()
    yield "check", whole, number(8, len(model.reported(found, certificates)))


def signed_key(kind=0x1F, hashed=b"", unhashed=b""):
    """A signature of version 6 of an algorithm without a name, with these areas."""
    return new5(2, signature_body(6, 200, 8, b"m", (hashed, unhashed), kind))


def subpacket(kind, it):
    return b"\xff" + number(4, len(it) + 1) + bytes([kind]) + it


def keyrings_of_sizes():
    for size in SIZES:
        it = letters(size)
        primary, text = new5(6, key_body(6, 200, it)), subpacket(26, it)
        yield from rows_of([KEY, new5(13, it)] if size > 1 << 20 else [
            new5(40, it), primary, signed_key(0x1F, text, text), new5(13, it), signed_key(0x13, text), new5(40, it), new5(2, b"\5" + it),
            new5(17, text), signed_key(0x10), new5(14, key_body(6, 200, it)), signed_key(0x18, subpacket(32, signed_key(0x19, text)[6:])), KEY, NAME,
        ])  # fmt: skip
    keys = [new5(6, key_body(6, 200, letters(n))) for n in SMALL]
    bodies_of = ((13, lambda it: it), (2, lambda it: b"\5" + it), (40, lambda it: it), (17, lambda it: subpacket(1, it)), (14, lambda it: key_body(6, 200, it)))
    for kind, body in bodies_of:
        yield from rows_of([KEY, *(new5(kind, body(letters(n))) for n in SMALL)])
    yield from rows_of(keys)
    yield from rows_of([*(new5(60, letters(n)) for n in SMALL), KEY])
    yield from rows_of([KEY, *(part for n in SMALL for part in (new5(13, letters(n)), signed_key(0x13, subpacket(100, letters(n)))))])
    yield from rows_of([part for key in keys for part in (key, signed_key(), IMAGE, signed_key(0x13))])


def keyrings_of_many():
    for count in (*FEW, *COUNTS):
        keys = [KEY[:3] + number(4, at) + KEY[7:] for at in range(count)]
        names = [b"\xcd\4" + number(4, at) for at in range(count)]
        signed = [signed_key(0x13, subpacket(2, number(4, at))) for at in range(count)]
        rings = [keys, [KEY, *names], [KEY, NAME, *signed], [FILLER] * count + [KEY], [KEY] * count, [KEY, *[NAME] * count, EDDSA]]
        if count < 1_000:
            inside = b"".join(subpacket(32, signed_key(0x19, subpacket(2, number(4, at)))[6:]) for at in range(count))
            rings += [[KEY] + [SUBKEY, EDDSA] * count, [KEY] + [IMAGE, EDDSA] * count, [KEY, SUBKEY, signed_key(0x18, inside, inside)],
                      [KEY, NAME] + [FILLER, EDDSA] * count, [KEY, NAME, *signed, *signed[::-1]]]  # fmt: skip
        for packets in rings:
            yield from rows_of(packets)


# Signed literals (10.3), and detached signatures (10.4).

ONE_PASS, SIGNED_LITERAL, DOCUMENT = b"\xc4\0", b"\xc2\x0e" + EDDSA[2:3] + b"\0" + EDDSA[4:], b"\xcb\7b\0\0\0\0\0a"


def signed_literals():
    """Literals of each size, and with many signatures; and signatures alone, of each size and number."""
    for size in (*SMALL, *SIZES):
        whole = ONE_PASS + new5(11, b"b" + bytes(5) + letters(size)) + SIGNED_LITERAL
        yield "signed", whole, whole
        alone = new5(2, b"\5" + letters(size)) + FILLER + SIGNED_LITERAL
        yield "signatures", alone, alone
    for count in (*FEW, *COUNTS):
        whole = ONE_PASS * count + DOCUMENT + FILLER + SIGNED_LITERAL * count
        yield "signed", whole, whole
        yield "signatures", armor(SIGNED_LITERAL * count, b"SIGNATURE"), SIGNED_LITERAL * count
    yield "signed", armor(ONE_PASS, b"MESSAGE") + armor(DOCUMENT + SIGNED_LITERAL, b"MESSAGE"), ONE_PASS + DOCUMENT + SIGNED_LITERAL


def bound():
    """With fewer verdicts than signatures nothing is known of the last ones: the user ID whose certification is the first one stays."""
    area = subpacket(2, number(4, 9)) + subpacket(16, model.key_id(KEY[2:]))
    by_it = new5(2, signature_body(4, 22, 8, bytes(4), (area, b""), 0x13))
    certified = [b"\xcd\1" + name + by_it for name in (b"a", b"b")]
    yield "bound", KEY + certified[0], KEY + certified[0]
    yield "bound", KEY + b"".join(certified), KEY + certified[0]
    yield "bound", KEY + NAME + EDDSA + certified[0], KEY
    for count in COUNTS:
        yield "bound", KEY + certified[0] + certified[1] * count, KEY + certified[0]


def newest():
    """Of the good certifications the newest stays, with the verdict on it; and those of which nothing is known."""
    def made(at):
        area = subpacket(2, number(4, 1_600_000_000 + at)) + subpacket(16, model.key_id(KEY[2:]))
        return new5(2, signature_body(4, 22, 8, bytes(4), (area, b""), 0x13))

    name, (first, second, third, last) = b"\xcd\1a", map(made, range(4))
    yield "newest", KEY + name + first, KEY + name + first + b"v"
    yield "newest", KEY + name + second + third + first, KEY + name + third + b"v"
    yield "newest", KEY + name + third + third + second, KEY + name + third + third + b"vv"
    for count in COUNTS:
        yield "newest", KEY + name + first + third + second + last * count, KEY + name + third + last * count + b"v"


def fields():
    """The fields of hashed octets whose area has no subpackets: a length of 5 with one octet behind it (5.2.3.7)."""
    names = ("content", "signature-version", "signature-type", "key-algorithm", "hash-algorithm", "hashed-area-length", "hashed-area")
    names += ("trailer-version", "trailer-marker", "trailer-length")
    sections = ("5.2.4", "5.2.3", "5.2.1", "9.1", "9.5", "5.2.3", "5.2.3", "5.2.4", "5.2.4", "5.2.4")
    for size in (0, 1, 255, 65_537):
        at, lines = 0, ""
        for name, section, length in zip(names, sections, (size, 1, 1, 1, 1, 2, 2, 1, 1, 4)):
            lines += f"{at} {length} {name} {section}\n"
            at += length
        yield "fields", letters(size) + bytes.fromhex("0400160800020502" "04FF00000008"), lines.encode()
    yield "fields", KEY, None


def errors():
    """The texts of the engine's errors."""
    texts = ("read failed", "write failed", "out of memory", "read failed", "out of memory", "framing: Short block 1 at 2 inner 3")
    yield "errors", b"", "".join(f"{it}\n" for it in texts).encode()


# Runs: the words of each action, by its number.

ACTIONS = (
    "show", "show --values", "list", "list --values", "check", "check --fingerprints", "check --places", "octets --row 0",
    "octets --row 0 --explain", "octets --row 0 --of literal", "octets --all", "write", "write --out binary",
    "write --own-signatures --no-attributes --out binary", "normalise", "normalise --out binary", "split", "split --nth 0 --out binary",
    "split --key 8CFDE12197965A9A", "split --key 8CFDE12197965A9A --except --out binary", "join", "join --out binary",
    "join --merge --out binary",
)  # fmt: skip
SIGNED_KEY = [KEY, bytes.fromhex("C20E041F160800000000ABCD00000000")]


def run_row(action, octets):
    ended = subprocess.run([OPGP, *ACTIONS[action].split(" "), "--quiet"], input=octets, capture_output=True, check=False)
    return "run", bytes([action]) + octets, ended.stdout if ended.returncode == 0 else None


def runs():
    """Each action as the program runs it, and as tests/vectors/rows.txt has it."""
    some = [new5(13, letters(it)) + new5(17, subpacket(1, letters(it))) for it in (0, 1, 255, 4097, 65_537, 70_000, 1 << 20)]
    many = [KEY[:3] + number(4, it) + KEY[7:] + NAME + EDDSA for it in range(300)]
    rings = [b"".join(SIGNED_KEY + parts) for parts in ([], [NAME, EDDSA], some, many, [NAME, NAME] + SIGNED_KEY)]
    literals = [ONE_PASS + new5(11, b"b" + bytes(5) + letters(it)) + SIGNED_LITERAL for it in (0, 1, 255, 70_000, 1 << 20)]
    for action, it in enumerate(ACTIONS):
        for octets in literals if "literal" in it else rings:
            row = run_row(action, octets)
            yield row if row[2] is not None or "--except" in it else (*row[:2], b"no output of opgp " + it.encode())
    for words, octets, (status, out, _) in worked_rows():
        if words in ACTIONS:
            yield "run", bytes([ACTIONS.index(words)]) + octets, out if status == 0 else None


# Each call once, in which each allocation fails in turn.


def refused():
    pieces = in_parts(b"\x09\0", b"b" + bytes(5) + letters(706))
    text = written("message", XGED, [(b"A", b"b"), (b"C", b"d")])
    other = signed_key(0x18, subpacket(32, signed_key(0x19)[6:]))
    reported = b"".join([new5(6, key_body(6, 200, b"a")), signed_key(), new5(14, key_body(6, 200, b"b")), other, KEY, NAME])
    yield from (body_row(kind, body_of(kind, 20)) for kind in KINDS)
    yield from (body_row("signature", signature_body(version, 1, 8, b"\0\1\1")) for version in (3, 4, 6))
    yield "lengths", b"so far", b"so far\xff\0\0\0\x64\xc0\x6c"
    yield "integer", b"\0\1\1", b"\1"
    yield armor_row(text, [("message", [(b"A", b"b"), (b"C", b"d")], XGED)])
    for octets in (SMALL_RING + pieces, armor(SMALL_RING, b"MESSAGE")):
        yield "blocks", octets, SMALL_RING + pieces if octets[0] > 128 else SMALL_RING
    yield from (it for it in rows_of([FILLER, KEY, EDDSA, NAME, EDDSA, b"\xb0\1\7", IMAGE, SUBKEY]))
    yield "ring", KEY + MALFORMED, KEY + MALFORMED
    yield "check", reported, number(8, 3)
    yield "signed", ONE_PASS + DOCUMENT + SIGNED_LITERAL, ONE_PASS + DOCUMENT + SIGNED_LITERAL
    yield "signatures", SIGNED_LITERAL * 2, SIGNED_LITERAL * 2
    yield from [*bound()][:2]
    yield from [*newest()][:3]
    yield from [*fields()][:1]
    yield from errors()
    ring = b"".join(SIGNED_KEY + [NAME, EDDSA])
    for action, it in enumerate(ACTIONS):
        yield run_row(action, ONE_PASS + DOCUMENT + SIGNED_LITERAL if "literal" in it else ring)


TABLES = (bodies, octets_written, header_lines, texts, packets_copied, keyrings_of_sizes, keyrings_of_many, signed_literals, bound, newest, fields, errors, runs)


class Tried:
    """How many rows passed and failed."""

    def __init__(self):
        self.passed = self.failed = 0

    def row(self, good, what):
        self.passed += good
        self.failed += not good
        if not good:
            print(f"tests/crates/calls.py: {what}: FAILED", file=sys.stderr)


def short(it):
    return it if len(it) <= 300 else f"{it[:200]} .. {it[-90:]}"


def line_of(name, octets, _=b""):
    return f"{name} {octets.hex()}\n"


def answer_of(wanted):
    return "memory" if wanted is None else wanted.hex()


def run(words, given, environment=None, files=()):
    return subprocess.run(words, input=given, capture_output=True, env=environment or {}, pass_fds=files, timeout=600, check=False)


def batches(rows):
    """The rows, as many at a time as have so many octets."""
    batch, size = [], 0
    for row in rows:
        batch.append(row)
        size += len(row[1])
        if size > BATCH:
            yield batch
            batch, size = [], 0
    yield batch


def try_rows(program, name, rows, tried):
    ended = run([program], "".join(line_of(*it) for it in rows).encode())
    answers = ended.stdout.decode().split("\n")[:-1]
    if ended.returncode or ended.stderr or len(answers) != len(rows):
        tried.row(False, f"{name}: {len(answers)} of {len(rows)} rows, status {ended.returncode}, {short(ended.stderr.decode())}")
    for row, answer in zip(rows, answers):
        good = answer_of(row[2]) == answer
        tried.row(good, f"{name}: {short(line_of(*row))}: it answers {short(answer)}, not {short(answer_of(row[2]))}" if not good else "")


def growths(library, words, given, fails):
    """A run in which the allocation of this number fails (0: none), and how many allocations it made."""
    with tempfile.TemporaryFile() as told:
        os.dup2(told.fileno(), 9)
        ended = run(words, given, {"LD_PRELOAD": library, "REFUSE": str(fails)}, (9,))
        os.close(9)
        told.seek(0)
        return ended, int(told.read() or 0)


def try_growths(library, words, given, right, tried):
    """A run that answers so, and with each of its allocations failing: an example may have shown some lines then."""
    what, is_call = f"{words[1:]} {short(given.decode(errors='replace'))}", len(words) == 1
    ended, count = growths(library, words, given, 0)
    tried.row((ended.returncode, ended.stdout) == (0, right) and count > 0, f"{what}: without a failure: {ended}")
    for fails in range(1, count + 2):
        ended, _ = growths(library, words, given, fails)
        answered = ended.returncode == 0 and (ended.stdout == right or (is_call and ended.stdout == b"memory\n" and fails <= count))
        said = ended.stdout == b"" if is_call else right.startswith(ended.stdout)
        without = ended.returncode == 1 and said and fails <= count and b"memory" in ended.stderr.lower()
        tried.row(answered or without, f"{what}: growth {fails}: {short(ended.stdout.decode())}, {ended.stderr.decode()}")


def try_refused(program, tried):
    """Each call, and each example that makes calls which the program and the library for C don't, with each allocation failing."""
    with tempfile.TemporaryDirectory() as work:
        library = f"{work}/refuse.so"
        subprocess.run([os.environ.get("CC", "cc"), "-O1", "-shared", "-fPIC", "-o", library, f"{HERE}/tests/lib/refuse.c"], check=True)
        for row in refused():
            try_growths(library, [program], line_of(*row).encode(), f"{answer_of(row[2])}\n".encode(), tried)
        for name in ("walk", "certificates", "packets", "verify", "rewrite"):
            for octets in (armor(KEY + EDDSA + NAME), armor(SMALL_RING + KEY)):
                try_growths(library, [EXAMPLES, name], octets, run([EXAMPLES, name], octets).stdout, tried)


def main():
    parser = argparse.ArgumentParser()
    parser.add_argument("--program", default=PROGRAM)
    parser.add_argument("tables", nargs="*")
    options = parser.parse_args()
    tried = Tried()
    for program in (options.program, EXAMPLES, OPGP):
        if not os.access(program, os.X_OK):
            print(f"tests/crates/calls.py: {os.path.relpath(program, HERE)} isn't built: rt ci builds it", file=sys.stderr)
            print("0 passed, 1 failed")
            return 1
    for table in TABLES:
        if not options.tables or table.__name__ in options.tables:
            for rows in batches(table()):
                try_rows(options.program, table.__name__, rows, tried)
    if not options.tables or "refused" in options.tables:
        try_refused(options.program, tried)
    print(f"{tried.passed} passed, {tried.failed} failed")
    return 1 if tried.failed else 0


if __name__ == "__main__":
    sys.exit(main())
