#!/usr/bin/env python3
"""Compares the program with the tables and rows of tests/vectors, whose values come from RFC 9580 and from hashlib.

Usage: tests/program/tables.py [--jobs N] [--program FILE]

Rows are run as they are. From the tables packets are built for every number: those that are read are in a few large inputs,
those that are refused in one each. Then every command is run over every input: none may run out of memory. The last line
counts the runs.
"""

import argparse
import collections
import datetime
import hashlib
import itertools
import multiprocessing
import os
import re
import sys
import tempfile

sys.dont_write_bytecode = True
sys.path.insert(0, f"{sys.path[0]}/../lib")

import model  # noqa: E402
from inputs import fingerprint, key_id, number  # noqa: E402
from model import armor, meaning, quoted, said  # noqa: E402
from running import HERE, Runner, built  # noqa: E402
from vectors import KEY, LINE_OF_THE_KEY, VECTORS, file_octets, letters_of, lines_of, named, octets_of, rows_of, worked_rows  # noqa: E402

BLOCK = b"PUBLIC KEY BLOCK"
COMMANDS = (
    "show", "list", "check", "octets --row 0", "octets --row 0 --of literal", "write", "write --out binary",
    "write --own-signatures --no-attributes --user-id 0", "normalise",
    "split", "split --nth 0 --out binary", "split --key CB186C4F0609A697", "join", "join --merge", "list --mode armor", "list --mode binary",
    "list --outside refuse", "list --values", "octets --all", "check --malformed keep", "check --fingerprints", "check --places",
)  # fmt: skip
DAYS = {"-": "-", "7": "1970-01-01T00:00:07Z", "1234567890": "2009-02-13T23:31:30Z"}
LARGE = 1 << 20  # inputs past so many octets are not run by every command
IN_PIECES = "0 worked row"  # the name of rows that are run in pieces of one octet too
DIGITS = "0123456789"  # nor are beginnings and the like, whose names begin with a number


# What is wanted of the lines that are written: what a function makes of them.
Lines = collections.namedtuple("Lines", "of wanted")


def refused(line):
    return 1, b"", line.encode() + b"\n"


def written_lines(lines):
    return 0, "".join(f"{it}\n" for it in lines).encode(), b""


def reasons():
    for line in lines_of("reasons.txt"):
        _, name, layers, words, written, at = (it.strip() for it in line.split("|"))
        if words != "-":
            yield f"reason {name}", words, written, refused(f"{layers}: {name} {at}")


def reasons_of_documents():
    """Whether docs/FAULTS.md has a section for each reason, with its number, in that of its layer; what nothing prints comes last."""
    with open(f"{HERE}/docs/FAULTS.md", encoding="utf-8") as it:
        layers = re.split(r"^## ", it.read(), flags=re.M)[1:]
    told = [(number, name, part.split("\n")[0]) for part in layers for number, name in re.findall(r"^### (\d+) `(\w+)`$", part, re.M)]
    rows = [[it.strip() for it in line.split("|")] for line in lines_of("reasons.txt")]
    return sorted(told) == sorted((number, name, layer if words != "-" else "Never printed") for number, name, layer, words, *_ in rows)


def kinds_of_documents():
    """Whether docs/FORMAT.md has the same kinds of subpackets of each form."""
    with open(f"{HERE}/docs/FORMAT.md", encoding="utf-8") as it:
        told = re.findall(r"^\| ([\d, ]+) \| \w", it.read().split("| Kinds | Form |")[1].split("\n\n")[0], re.M)
    return [it.replace(",", "") for it in told] == [row[0] for row in table("subpackets.txt") if len(row) == 2 and row[0][0] in DIGITS]


# Tables of registered numbers.


def numbers_of(words):
    """The numbers that are written as 3, or as 22..39."""
    for word in words.split():
        first, _, last = word.partition("..")
        yield from range(int(first), int(last or first) + 1)


def table(name):
    """The columns of each row, which two spaces or more keep apart."""
    return [re.split(r"  +", line.strip()) for line in lines_of(name)]


def new_packet(kind, body):
    n = len(body)
    length = bytes([n]) if n < 192 else b"\xff" + number(4, n)
    return bytes([0xC0 | kind]) + length + body


def old_packet(kind, body, form):
    return bytes([0x80 | kind << 2 | form]) + number(1 << form, len(body)) + body


OTHER_KEY = b"\4\0\0\0\0\xc8abc"
BODIES = {2: b"\5a", 6: OTHER_KEY, 11: b"b\0\0\0\0\0a", 14: OTHER_KEY}


def packet_types():
    kept, lines, at = b"", [], 0
    ring, listed = KEY, [LINE_OF_THE_KEY]
    for types, whole, pieces, role in table("packet_types.txt"):
        for kind in numbers_of(types):
            body = BODIES.get(kind, b"")
            forms = [("new1", new_packet(kind, body)), ("new5", bytes([0xC0 | kind, 255]) + number(4, len(body)) + body)]
            if kind < 16:
                forms += [(f"old{1 << it}", old_packet(kind, body, it)) for it in range(3)]
                reason = "Indeterminate" if whole == "kept" else whole
                yield f"type {kind}", "show", bytes([0x83 | kind << 2]), refused(f"framing: {reason} block 0 at 0 inner 0")
            for form, packet in forms:
                if whole == "kept":
                    kept += packet
                    lines.append(f"block 0 at {at} type {kind} form {form} length {len(body)}")
                    at = len(kept)
                else:
                    yield f"type {kind}", "show", packet, refused(f"framing: {whole} block 0 at 0 inner 0")
                    yield f"type {kind}", "show", packet[:1], refused(f"framing: {whole} block 0 at 0 inner 0")
            long_body = body + b"a" * (700 - len(body))
            parts = bytes([0xC0 | kind, 0xE9]) + long_body[:512] + bytes([188]) + long_body[512:]
            if pieces == "kept":
                kept += parts
                lines.append(f"block 0 at {at} type {kind} form part length 700")
                at = len(kept)
            else:
                inner = int(pieces == "PartialKind")
                yield f"type {kind} in pieces", "show", parts, refused(f"framing: {pieces} block 0 at 0 inner {inner}")
            if role == "NotInKeyring":
                line = refused(f"composition: NotInKeyring block 0 at {len(KEY)} inner 0")
                yield f"type {kind} in a keyring", "list", KEY + new_packet(kind, body), line
            elif role != "-":
                ring += new_packet(kind, body)
                listed.append(listed_line(role, kind, body))
    yield "types that are kept", "show", kept, written_lines(lines)
    yield "types of a keyring", "list", ring, written_lines(listed)


def listed_line(role, kind, body):
    if role in ("pub", "sub"):
        return line_of_key(role, body)
    return {"sig": f"sig opaque {len(body)}", "uid": 'uid ""', "uat": "uat 0"}.get(role, f"pkt {kind} {len(body)}")


def line_of_key(role, body):
    names = fingerprint(body).hex().upper(), key_id(body).hex().upper()
    return " ".join([role, f"v{body[0]}", "alg", str(body[5]), "created", str(int.from_bytes(body[1:5], "big")), *names])


FIELDS = {"i": bytes.fromhex("000901FF"), "o": b"\x02\x2a\x03", "k": b"\3\1\x08\7"}
LOOSE = ("0001FF", "000900FF", "000B01FF", "00080F")  # counts of bits that aren't those of the first bit that is set


def field(word):
    return FIELDS[word] if word in FIELDS else b"a" * int(word)


def fields_by_algorithm(name, column=1):
    """The fields of each algorithm that the table lists, in this column."""
    return {it: row[column].split() for row in table(name) for it in numbers_of(row[0]) if row[column] != "-"}


def key_body(version, algorithm, material):
    count = number(4, len(material)) if version == 6 else b""
    return bytes([version]) + b"\0\0\1\0" + bytes([algorithm]) + count + material


def signature_body(version, kind, algorithm, hashed, material, area=b"", salt=None):
    width = 2 if version == 4 else 4
    if salt is None:
        salt = {9: 24, 10: 32, 14: 32}.get(hashed, 16)
    front = bytes([version, kind, algorithm, hashed]) + number(width, len(area)) + area
    salted = bytes([salt]) + b"s" * salt if version == 6 else b""
    return front + number(width, 0) + b"\xab\xcd" + salted + material


def material_rows(what, fields, build, start, packet, ring, line):
    """Of both versions each algorithm from 0 to 255: kept in one keyring; with an octet more or less; loose integers."""
    kept, lines = ring
    for version in (4, 6):
        for algorithm in range(256):
            words = fields.get(algorithm)
            parts = [field(it) for it in words] if words else [b"any"]
            whole = b"".join(parts)
            name = f"{what} of version {version} and algorithm {algorithm}"
            bodies = [whole] if words else [whole, b"", b"\0" * 200]
            end = start[version] + len(whole)
            last = end - len(parts[-1])
            if words:
                yield f"{name}, with an octet more", "show", packet(build(version, algorithm, whole + b"\0")), refused(
                    f"body: Trailing block 0 at 0 inner {end}"
                )
                yield f"{name}, with an octet less", "show", packet(build(version, algorithm, whole[:-1])), refused(
                    f"body: Short block 0 at 0 inner {last}"
                )
                for at, word in enumerate(words):
                    for loose in LOOSE if word == "i" else ():
                        body = b"".join(parts[:at] + [bytes.fromhex(loose)] + parts[at + 1 :])
                        if version == 4:
                            bodies.append(body)
                            continue
                        inner = start[version] + len(b"".join(parts[:at]))
                        yield f"{name}, integer {at}", "show", packet(build(version, algorithm, body)), refused(
                            f"body: MpiBits block 0 at 0 inner {inner}"
                        )
            for body in bodies:
                kept += packet(build(version, algorithm, body))
                lines.append(line(build(version, algorithm, body)))
    yield f"each {what} in one keyring", "list", kept, written_lines(lines)
    yield f"each {what} in one keyring, written", "write --out binary", kept, (0, kept, b"")


def key_algorithms():
    fields = fields_by_algorithm("key_algorithms.txt")
    yield from material_rows(
        "key", fields, key_body, {4: 6, 6: 10}, lambda body: new_packet(6, body), (b"", []), lambda it: line_of_key("pub", it)
    )
    reserved = {"o": ("OidSize", "01", 6), "k": ("KdfSize", "", 6)}
    for algorithm, words in fields.items():
        for at, word in enumerate(words):
            if word not in reserved:
                continue
            front = b"".join(field(it) for it in words[:at])
            for version, start in ((4, 6), (6, 10)):
                for size in (0, 255):
                    for behind in (b"", b"a" * 255 + FIELDS["i"] + FIELDS["k"]):
                        body = key_body(version, algorithm, front + bytes([size]) + behind)
                        line = f"body: {reserved[word][0]} block 0 at 0 inner {start + len(front)}"
                        yield f"size {size} of {word} in algorithm {algorithm}", "show", new_packet(6, body), refused(line)
                for size in (1, 127, 128, 254):
                    rest = b"".join(field(it) for it in words[at + 1 :])
                    body = key_body(version, algorithm, front + bytes([size]) + b"a" * size + rest)
                    name = f"size {size} of {word} in algorithm {algorithm}"
                    yield name, "list", new_packet(6, body), written_lines([line_of_key("pub", body)])
                    short = key_body(version, algorithm, front + bytes([size]) + b"a" * (size - 1))
                    line = f"body: Short block 0 at 0 inner {start + len(front)}"
                    yield f"{name}, an octet less", "show", new_packet(6, short), refused(line)


def signature_algorithms():
    def build(version, algorithm, material):
        return signature_body(version, 0x10, algorithm, 8, material)

    def line(body):
        return f"sig v{body[0]} type 10 alg {body[2]} hash 8"

    fields = fields_by_algorithm("signature_algorithms.txt")
    ring = (KEY, [LINE_OF_THE_KEY])
    yield from material_rows("signature", fields, build, {4: 10, 6: 31}, lambda body: new_packet(2, body), ring, line)
    yield from signatures_of_version_3(fields_by_algorithm("signature_algorithms.txt", 2))


def signatures_of_version_3(fields):
    """Typed where the fields are those of the algorithm and the fixed length is 5; else opaque, and no fault."""
    ring, lines = KEY, [LINE_OF_THE_KEY]
    for algorithm in range(256):
        for words in (["i"], ["i", "i"], ["i", "i", "i"], []):
            for fixed, more in ((5, b""), (5, b"\0"), (4, b"")):
                material = b"".join(field(it) for it in words) + more
                body = bytes([3, fixed, 0x10]) + b"\0" * 12 + bytes([algorithm, 8]) + b"\xab\xcd" + material
                typed = fields.get(algorithm) == words and fixed == 5 and not more
                ring += new_packet(2, body)
                lines.append(f"sig v3 type 10 alg {algorithm} hash 8" if typed else f"sig opaque {len(body)}")
    loose = bytes([3, 5, 0x10]) + b"\0" * 12 + bytes([1, 8]) + b"\xab\xcd" + bytes.fromhex("0001FF")
    ring += new_packet(2, loose) + b"".join(new_packet(2, loose[:n]) for n in range(1, len(loose)))
    lines += ["sig v3 type 10 alg 1 hash 8"] + [f"sig opaque {n}" for n in range(1, len(loose))]
    yield "signatures of version 3", "list", ring, written_lines(lines)


def other_versions():
    """Keys of version 4 and 6 alone; signatures of any version but 3, 4 and 6 are opaque, whatever they hold."""
    ring, lines = KEY, [LINE_OF_THE_KEY]
    for version in range(256):
        if version not in (4, 6):
            line = refused("body: KeyVersion block 0 at 0 inner 0")
            yield f"key of version {version}", "list", new_packet(6, bytes([version])), line
            ring += new_packet(2, bytes([version])) + new_packet(2, bytes([version]) + b"\xff" * 9)
            lines += ["sig opaque 1", "sig opaque 10"]
    yield "signatures of all versions", "list", ring, written_lines(lines)


# Hashes.


def row_line(n, place, kind, hashed, octets, sizes):
    """The line of check for a signature that asks: no signer is named, and its left octets are ABCD."""
    digest = hashlib.new(sizes, octets).hexdigest()[:4].upper()
    verdict = "undecided" if digest == "ABCD" else "bad"
    return f"row {n} cert 0 {place} : asked type {kind:02X} hash {hashed} signer - digest {digest} verdict {verdict}"


def key_octets(body):
    return b"\x99" + number(2, len(body)) + body if body[0] == 4 else b"\x9b" + number(4, len(body)) + body


def hashed_octets(subject, body):
    """What a signature with an empty unhashed area and the salt of its hash is taken over (RFC 9580, 5.2.4)."""
    version = body[0]
    width = 2 if version == 4 else 4
    front = body[: 4 + width + int.from_bytes(body[4 : 4 + width], "big")]
    salt = b""
    if version == 6:
        at = len(front) + 4 + 2
        salt = body[at + 1 : at + 1 + body[at]]
    return salt + subject + front + bytes([version, 255]) + number(4, len(front))


def hash_algorithms():
    salts, names = {}, {4: {}, 6: {}}
    for hashed, salt, four, six in table("hash_algorithms.txt"):
        salts[int(hashed)] = salt
        names[4][int(hashed)], names[6][int(hashed)] = four, six
    kept, shown, at = b"", [], 0
    for hashed in range(256):
        for salt in range(256) if hashed in salts or hashed < 21 else (0, 16, 24, 32, 255):
            body = signature_body(6, 0x10, 27, hashed, b"m" * 64, salt=salt)
            if salts.get(hashed, "any") in ("any", str(salt)):
                at = len(kept)
                kept += new_packet(2, body)
                form = "new1" if len(body) < 192 else "new5"
                shown.append(f"block 0 at {at} type 2 form {form} length {len(body)}")
            else:
                name = f"{salt} octets of salt for hash {hashed}"
                yield name, "show", new_packet(2, body), refused("body: SaltSize block 0 at 0 inner 14")
    yield "salts of all hashes", "show", kept, written_lines(shown)
    for version in (4, 6):
        primary = key_body(version, 200, b"any")
        ring, lines = new_packet(6, primary), []
        for hashed in range(256):
            body = signature_body(version, 0x1F, 200, hashed, b"m")
            ring += new_packet(2, body)
            lines.append(row_of_hash(len(lines), hashed, hashed_octets(key_octets(primary), body), names[version].get(hashed)))
        yield f"digests of all hashes in version {version}", "check", ring, written_lines(lines)
    yield from hashes_and_salts(salts, names)


def row_of_hash(n, hashed, octets, name):
    """The line of check for a direct key signature, by the name of its hash in Python; None or -: it has none here."""
    place = f"part - hang {n} nested -"
    if name in (None, "-"):
        return f"row {n} cert 0 {place} : none hash"
    return row_line(n, place, 0x1F, hashed, octets, name)


def hashes_and_salts(salts, names):
    """Each hash from 0 to 20 with a salt of each size (5.2.3): of version 6 it is hashed; in version 4 there is none, so that what stands
    there is material; and in version 3 nothing may."""
    rings, lines = {4: b"", 6: b""}, {4: [], 6: []}
    for version in rings:
        primary = key_body(version, 200, b"any")
        rings[version] = new_packet(6, primary)
        for hashed in range(21):
            for salt in range(256):
                field_of_salt = bytes([salt]) + b"s" * salt
                if version == 4:
                    body = signature_body(4, 0x1F, 200, hashed, field_of_salt + b"m")
                elif salts.get(hashed, "any") in ("any", str(salt)):
                    body = signature_body(6, 0x1F, 200, hashed, b"m", salt=salt)
                else:
                    continue
                rings[version] += new_packet(2, body)
                name = names[version].get(hashed)
                lines[version].append(row_of_hash(len(lines[version]), hashed, hashed_octets(key_octets(primary), body), name))
        yield f"hashes 0 to 20 with each salt in version {version}", "check", rings[version], written_lines(lines[version])
    ring, listed = KEY, [LINE_OF_THE_KEY]
    for hashed in range(21):
        front = bytes([3, 5, 0x1F]) + b"\0" * 12 + bytes([1, hashed]) + b"\xab\xcd"
        for salt in (b"", *(bytes([it]) + b"s" * it for it in range(256))):
            body = front + salt + FIELDS["i"]
            ring += new_packet(2, body)
            listed.append(f"sig opaque {len(body)}" if salt else f"sig v3 type 1F alg 1 hash {hashed}")
        for salt in (0, 1, 15, 16, 17, 24, 32, 255):
            body = signature_body(4, 0x1F, 27, hashed, bytes([salt]) + b"s" * salt + b"m" * 64)
            wanted = refused("body: Trailing block 0 at 0 inner 74")
            yield f"{salt} octets of salt for hash {hashed} in version 4", "show", new_packet(2, body), wanted
    yield "hashes 0 to 20 with each salt in version 3", "list", ring, written_lines(listed)


PLACES = {row[0]: [int(it, 16) for it in row[1].split()] for row in table("signature_types.txt")}
ATTRIBUTE = b"\x03\x01ab"


def why_not(place, kind):
    """Why a type asks nothing there; None where it asks."""
    if kind in PLACES[place]:
        return None
    known = any(kind in kinds for kinds in PLACES.values())
    return "misplaced" if known and (place, kind) != ("primary", 0x30) else "kind"


def row_of(n, where, place, subject, body):
    """The line of check for a signature of hash 8."""
    why = why_not(place, body[1])
    if why:
        return f"row {n} cert 0 {where} : none {why}"
    return row_line(n, where, body[1], 8, hashed_octets(subject, body), "sha256")


def types_in_places(version):
    """Each type on a primary key, a user ID, an attribute and a subkey."""
    primary, subkey = key_body(version, 200, b"any"), key_body(version, 200, b"sub")
    front = key_octets(primary)
    heads = {
        "primary": (b"", front),
        "user_id": (new_packet(13, b"Alice"), front + b"\xb4" + number(4, 5) + b"Alice"),
        "attribute": (new_packet(17, ATTRIBUTE), front + b"\xd1" + number(4, 4) + ATTRIBUTE),
        "subkey": (new_packet(14, subkey), front + key_octets(subkey)),
    }
    ring, lines = new_packet(6, primary), []
    for part, (place, (head, subject)) in enumerate(heads.items(), -1):
        ring += head
        for kind in range(256):
            body = signature_body(version, kind, 200, 8, b"m")
            ring += new_packet(2, body)
            where = f"part {part if part >= 0 else '-'} hang {kind} nested -"
            lines.append(row_of(len(lines), where, place, subject, body))
    yield f"types of signatures of version {version} in all places", "check", ring, written_lines(lines)


def types_embedded(version):
    """Each type embedded in a binding."""
    primary, subkey = key_body(version, 200, b"any"), key_body(version, 200, b"sub")
    subject = key_octets(primary) + key_octets(subkey)
    ring, lines = new_packet(6, primary) + new_packet(14, subkey), []
    for kind in range(256):
        inside = signature_body(version, kind, 200, 8, b"m")
        body = signature_body(version, 0x18, 200, 8, b"m", subpacket_octets(32, inside))
        ring += new_packet(2, body)
        lines.append(row_of(len(lines), f"part 0 hang {kind} nested -", "subkey", subject, body))
        lines.append(row_of(len(lines), f"part 0 hang {kind} nested 0", "embedded", subject, inside))
    yield f"types of embedded signatures of version {version}", "check", ring, written_lines(lines)


# The types that the standard names (5.2.1), and two that it doesn't.
NAMED_TYPES = (0x00, 0x01, 0x02, 0x10, 0x11, 0x12, 0x13, 0x16, 0x18, 0x19, 0x1F, 0x20, 0x28, 0x30, 0x40, 0x50, 0xFF)


def types_that_embed(version):
    """Each type with an embedded signature of each type that the standard names, in each place: a binding of a subkey alone shows it."""
    primary, subkey = key_body(version, 200, b"any"), key_body(version, 200, b"sub")
    front = key_octets(primary)
    heads = {
        "primary": (b"", front),
        "user_id": (new_packet(13, b"Alice"), front + b"\xb4" + number(4, 5) + b"Alice"),
        "attribute": (new_packet(17, ATTRIBUTE), front + b"\xd1" + number(4, 4) + ATTRIBUTE),
        "subkey": (new_packet(14, subkey), front + key_octets(subkey)),
    }
    for of_inside in NAMED_TYPES:
        inside = signature_body(version, of_inside, 200, 8, b"m")
        ring, lines = new_packet(6, primary), []
        for part, (place, (head, subject)) in enumerate(heads.items(), -1):
            ring += head
            for kind in range(256):
                body = signature_body(version, kind, 200, 8, b"m", subpacket_octets(32, inside))
                ring += new_packet(2, body)
                where = f"part {part if part >= 0 else '-'} hang {kind} nested "
                lines.append(row_of(len(lines), where + "-", place, subject, body))
                if (place, kind) == ("subkey", 0x18):
                    lines.append(row_of(len(lines), where + "0", "embedded", subject, inside))
        yield f"types of version {version} with an embedded signature of type {of_inside:02X}", "check", ring, written_lines(lines)


def signature_types():
    for version in (4, 6):
        yield from types_in_places(version)
        yield from types_embedded(version)
        yield from types_that_embed(version)
    for kind in range(256):
        body = signature_body(4, kind, 200, 8, b"m")
        octets = b"\xc4\x00" + new_packet(11, b"b\0\0\0\0\0content") + new_packet(2, body)
        wanted = (0, hashed_octets(b"content", body), b"")
        wanted = wanted if kind in PLACES["literal"] else refused("opgp: no such row")
        yield f"type {kind:02X} of a literal", "octets --row 0 --of literal", octets, wanted


# Subpackets.


def fitting(word, n):
    if word == "even":
        return n % 2 == 0
    if word == "none":
        return False
    return n >= int(word[:-2]) if word.endswith("..") else n == int(word)


def subpackets():
    sizes, forms, rows = {}, {}, []
    for row in table("subpackets.txt"):
        if len(row) == 3:
            rows.append((int(row[0]), octets_of(row[1]), row[2]))
        elif row[0][0] in DIGITS:
            forms.update(dict.fromkeys(numbers_of(row[0]), row[1]))
        else:
            sizes[row[0]] = row[1]
    for kind in range(128):
        for n in range(42):
            found = "unknown" if kind not in forms else "typed" if fitting(sizes[forms[kind]], n) else "unfit"
            rows.append((kind, bytes(n), found))
    octets, lines = b"", []
    for kind, body, found in rows:
        area = subpacket_octets(kind, body) + subpacket_octets(kind | 128, body)
        signature = bytes([4, 0x10, 200, 8]) + 2 * (number(2, len(area)) + area) + b"\xab\xcd"
        lines.append(f"block 0 at {len(octets)} type 2 form {'new1' if len(signature) < 192 else 'new5'} length {len(signature)}")
        for area in ("hashed", "unhashed"):
            for critical in (0, 1):
                lines.append(f"  {area} kind {kind} critical {critical} length {len(body) + 1} {found}")
        octets += new_packet(2, signature)
    yield "subpackets of all kinds", "show", octets, written_lines(lines)


def values():
    """What subpackets say: the rows of a file, and by the model the sizes of all kinds and the first octets of all flags."""
    for kind, written, text in table("values.txt"):
        body = octets_of(written)
        end = f"length {len(body) + 1} {meaning(int(kind), body)} {text}"
        signature = signature_body(4, 0x13, 200, 8, b"m", subpacket_octets(int(kind), body) + subpacket_octets(int(kind) | 128, body))
        wanted = [f"  hashed kind {kind} critical {critical} {end}" for critical in (0, 1)]
        yield f"value of kind {kind}: {text}", "show --values", new_packet(2, signature), Lines(subpackets_in, wanted)
    rows = [(kind, bytes(n)) for kind in range(128) for n in range(42)]
    rows += [(kind, bytes([first]) + more) for kind in (4, 23, 25, 27, 29, 30) for first in range(256) for more in (b"", b"\xff")]
    rows += [(28, bytes([octet])) for octet in range(256)]
    area = b"".join(subpacket_octets(*row) for row in rows)
    shown = [f"  hashed kind {kind} critical 0 length {len(it) + 1} {meaning(kind, it)} {said(kind, it)}" for kind, it in rows]
    yield "values of all kinds", "show --values", new_packet(2, signature_body(6, 0x13, 200, 8, b"m", area)), Lines(subpackets_in, shown)


def subpackets_in(text):
    return [line for line in text if line.startswith(("  hashed", "  unhashed"))]


def literals():
    """The fields of literals of each format, and of names and contents of some sizes."""
    for octet in range(256):
        wanted = written_lines(["block 0 at 0 type 11 form new1 length 9",
                                f'  lit format {quoted(bytes([octet]))} name "a" date 1 length 2 1970-01-01T00:00:01Z'])
        yield f"literal of format {octet}", "show --values", new_packet(11, bytes([octet]) + b"\1a\0\0\0\1xy"), wanted
    for n in (0, 255):
        head = f"block 0 at 0 type 11 form {'new1' if n == 0 else 'new5'} length {6 + n}"
        wanted = written_lines([head, f'  lit format "b" name "{"n" * n}" date 4294967295 length 0 2106-02-07T06:28:15Z'])
        yield f"literal with a name of {n}", "show --values", new_packet(11, b"b" + bytes([n]) + b"n" * n + b"\xff" * 4), wanted


def named_keys():
    """Each version and size of a fingerprint that an issuer and a recipient may have (RFC 9580, 5.2.3.35 and 5.2.3.36)."""
    for kind in (33, 35):
        octets, lines = b"", []
        for version in range(256):
            area, shown = subpacket_octets(kind, b""), [f"  hashed kind {kind} critical 0 length 1 unfit"]
            for size in range(65):
                found = "typed" if (version, size) in ((4, 20), (6, 32)) else "unfit"
                area += subpacket_octets(kind, bytes([version]) + bytes(size))
                shown.append(f"  hashed kind {kind} critical 0 length {size + 2} {found}")
            signature = bytes([4, 0x10, 200, 8]) + number(2, len(area)) + area + b"\0\0\xab\xcd"
            lines.append(f"block 0 at {len(octets)} type 2 form new5 length {len(signature)}")
            lines += shown
            octets += new_packet(2, signature)
        yield f"versions and sizes in subpackets of kind {kind}", "show", octets, written_lines(lines)


# The names that gpg has for curves, by their object identifiers in RFC 9580, 9.2; and one of SEC 2.
CURVES = {
    "2A8648CE3D030107": "nistp256", "2B81040022": "nistp384", "2B81040023": "nistp521", "2B2403030208010107": "brainpoolP256r1",
    "2B240303020801010B": "brainpoolP384r1", "2B240303020801010D": "brainpoolP512r1", "2B06010401DA470F01": "ed25519",
    "2B060104019755010501": "cv25519", "2B8104000A": "secp256k1",
}  # fmt: skip


def key_sizes():
    """Integers of each size up to 24 bits, around those that keys have, and the largest; in version 4 also with a count that is too
    large. Each curve, and identifiers that are one octet off. Each other algorithm."""
    octets, lines = b"", []

    def add(version, algorithm, material, size):
        nonlocal octets
        body = key_body(version, algorithm, material)
        octets += new_packet(6, body)
        lines.append(f"{model.listed(6, body)} 1970-01-01T00:04:16Z size {size}")

    for algorithm, others in ((1, 1), (2, 1), (3, 1), (16, 2), (17, 3)):
        for bits in (*range(25), *(it + more for it in (1024, 2048, 3072, 4096, 8192) for more in (-1, 0, 1)), 65535):
            for octet in (0, 255):  # behind the highest bit that is set
                value = 1 << bits >> 1 | (octet and (1 << bits >> 1) - 1) if bits else 0
                counts = {bits, *(it for it in (bits + 1, bits + 7, bits + 8, bits + 64) if it < 65536)}
                for count in sorted(counts):
                    material = number(2, count) + value.to_bytes((count + 7) // 8, "big") + b"\0\1\1" * others
                    add(4, algorithm, material, bits)
                    if count == bits:
                        add(6, algorithm, material, bits)
    for algorithm in (18, 19, 22):
        for digits, name in CURVES.items():
            curve = bytes.fromhex(digits)
            for it in (curve, curve[:-1], curve + b"\0", curve[:-1] + bytes([curve[-1] ^ 1])):
                size = name if it == curve else CURVES.get(it.hex().upper(), f"oid:{it.hex().upper()}")
                add(4, algorithm, bytes([len(it)]) + it + b"\0\7\x40" + (b"\3\1\10\7" if algorithm == 18 else b""), size)
    own = {25: (32, "x25519"), 26: (56, "x448"), 27: (32, "ed25519"), 28: (57, "ed448")}
    for algorithm in set(range(256)) - {1, 2, 3, 16, 17, 18, 19, 22}:
        size, name = own.get(algorithm, (9, "-"))
        for version in (4, 6):
            add(version, algorithm, bytes(size), name)
    yield "how large keys are", "list --values", octets, written_lines(lines)


def date(time):
    """A time in UTC."""
    return datetime.datetime.fromtimestamp(time, datetime.timezone.utc).strftime("%Y-%m-%dT%H:%M:%SZ")


def dates():
    """The first and the last second of each day that a time of four octets can say, and each second of a day."""
    days, most = range(0, 1 << 32, 86_400), (1 << 32) - 1
    times = [it for day in days for it in (day, min(day + 86_399, most))] + list(range(days[-1] - 86_400, days[-1]))
    for version, some in ((4, times), (6, times[::997])):
        keys = b"".join(new_packet(6, bytes([version]) + number(4, it) + b"\xc8" + bytes(4) * (version == 6)) for it in some)
        yield f"dates of keys of version {version}", "list --values", keys, Lines(dates_of, [(str(it), date(it)) for it in some])
    lines = [f"hashed kind 2 critical 0 length 5 typed created {it} {date(it)}" for it in times[::499]]
    area = b"".join(subpacket_octets(2, number(4, it)) for it in times[::499])
    body = signature_body(6, 0x13, 200, 8, b"m", area)
    yield "dates in subpackets", "show --values", new_packet(2, body), Lines(subpackets_in, [f"  {it}" for it in lines])
    ones = [new_packet(11, b"b\0" + number(4, it)) for it in times[::499]]
    yield "dates of literals", "show --values", b"".join(ones), Lines(literals_in, [(str(it), date(it)) for it in times[::499]])


def dates_of(text):
    """The time and the date of each key."""
    rows = [line.split(" ") for line in text]
    return [(it[5], it[8]) for it in rows]


def literals_in(text):
    """The date and the time of each literal."""
    rows = [line.split(" ") for line in text if line.startswith("  lit ")]
    return [(it[8], it[11]) for it in rows]


def stated():
    """Which subpackets list --values counts: a time (2) that fits in the hashed area; the first fingerprint (33) that fits there, or
    else the first key ID (16) that fits there, or else in the unhashed area."""
    time, later, one, other = number(4, 1234567890), number(4, 7), bytes(range(8)), bytes(range(8, 16))
    four, six = b"\x04" + bytes(range(20)), b"\x06" + bytes(range(32))
    ids, prints = [it.hex().upper() for it in (one, other)], [it[1:].hex().upper() for it in (four, six)]
    rows = [
        ([], [], "-", "-"), ([(2, time)], [], "1234567890", "-"), ([(130, time)], [], "1234567890", "-"), ([], [(2, time)], "-", "-"),
        ([(2, later), (2, time)], [(2, time)], "7", "-"), ([(3, time), (2, time[:3]), (2, time + b"\0"), (2, time)], [], "1234567890", "-"),
        ([(16, one)], [], "-", ids[0]), ([], [(144, one)], "-", ids[0]), ([(16, one), (16, other)], [], "-", ids[0]),
        ([(16, other)], [(16, one)], "-", ids[1]), ([(16, one[:7]), (16, one + b"\0")], [(16, other)], "-", ids[1]),
        ([(33, four)], [(16, one)], "-", prints[0]), ([(161, six)], [], "-", prints[1]), ([(16, one), (33, six), (33, four)], [], "-", prints[1]),
        ([], [(33, four)], "-", "-"), ([(16, one)], [(33, four)], "-", ids[0]), ([(35, four)], [(16, one)], "-", ids[0]),
        ([(33, b"\x06" + four[1:]), (33, b"\x05" + four[1:]), (33, b""), (16, one)], [], "-", ids[0]), ([(33, b"\x04" + six[1:]), (33, six)], [], "-", prints[1]),
    ]  # fmt: skip
    ring, lines = KEY, [f"{LINE_OF_THE_KEY} 2014-08-19T14:28:27Z size ed25519"]
    for version, width in ((4, 2), (6, 4)):
        for hashed, unhashed, created, issuer in rows:
            areas = [b"".join(subpacket_octets(*it) for it in area) for area in (hashed, unhashed)]
            body = bytes([version, 0x10, 200, 8]) + b"".join(number(width, len(it)) + it for it in areas)
            left = hashlib.sha256(body).digest()[:2]
            ring += new_packet(2, body + left + (b"\x10" + b"s" * 16) * (version == 6) + b"m")
            lines.append(f"sig v{version} type 10 alg 200 hash 8 left {left.hex().upper()} created {created} issuer {issuer} {DAYS[created]}")
    for body in (bytes([3, 5, 0x10]) + time + one + bytes([1, 8]) + b"\xab\xcd\0\1\1", bytes([3, 4, 0x10]) + time + one, b"\5"):
        ring += new_packet(2, body)
        typed = f"sig v3 type 10 alg 1 hash 8 left ABCD created 1234567890 issuer {ids[0]} {DAYS['1234567890']}"
        lines.append(typed if body[1:2] == b"\5" else f"sig opaque {len(body)}")
    yield "what signatures state", "list --values", ring, written_lines(lines)


def lefts_of(text):
    """The type and the stated octets of each signature."""
    rows = [line.split(" ") for line in text if line.startswith("sig v")]
    return [(it[3], it[it.index("left") + 1]) for it in rows]


def first_octets():
    """Each octet alone, in each mode (RFC 9580, 4.2)."""
    reasons_of_types = {it: row[1] for row in table("packet_types.txt") for it in numbers_of(row[0])}
    text = refused("armor: NoBlock block 0 at 1 inner 0")
    for octet in range(256):
        reason, inner = "NotAPacket", 0
        if octet >= 128:
            reason = reasons_of_types[octet & 63 if octet & 64 else octet >> 2 & 15]
            if reason == "kept":
                indeterminate = not octet & 64 and octet & 3 == 3
                reason, inner = ("Indeterminate", 0) if indeterminate else ("Truncated", 1)
        packet = refused(f"framing: {reason} block 0 at 0 inner {inner}")
        for command in ("show", "list"):
            yield f"0x{octet:02X}", f"{command} --mode binary", bytes([octet]), packet
            yield f"0x{octet:02X}", f"{command} --mode armor", bytes([octet]), text
        for name, command in (("0x", "show"), ("the octet ", "list")):
            yield f"{name}{octet:02X}", command, bytes([octet]), packet if octet >= 128 else text


def octets_before_armor():
    """Each octet and a line feed before an armored key, in each mode: of text a line that is skipped, or else a packet's header (4.2.1,
    4.2.2), with the line feed and the text in front of the key as its length."""
    reasons_of_types = {it: row[1] for row in table("packet_types.txt") for it in numbers_of(row[0])}
    line = written_lines([LINE_OF_THE_KEY])
    for octet in range(256):
        text = bytes([octet]) + b"\n" + armor(KEY)
        reason, at, inner = "NotAPacket", 0, 0
        if octet >= 128:
            reason = reasons_of_types[octet & 63 if octet & 64 else octet >> 2 & 15]
            if reason == "kept":  # a length of 10, of 0A2D, which is past the end, of 0A2D2D2D, which is past the limit, or none
                form = "new1" if octet & 64 else ("old1", "old2", "old4", "none")[octet & 3]
                reason, at, inner = {
                    "new1": ("NotAPacket", 12, 0), "old1": ("NotAPacket", 12, 0), "old2": ("Truncated", 0, 1),
                    "old4": ("BodyTooLong", 0, 1), "none": ("Indeterminate", 0, 0),
                }[form]  # fmt: skip
        packet = refused(f"framing: {reason} block 0 at {at} inner {inner}")
        yield f"0x{octet:02X} before armor", "list --mode binary", text, packet
        yield f"0x{octet:02X} before armor", "list --mode armor", text, line
        yield f"0x{octet:02X} before armor", "list", text, packet if octet >= 128 else line
        outside = line if octet in (0x09, 0x0A, 0x0D, 0x20) else refused("armor: Outside block 0 at 0 inner 0")
        yield f"0x{octet:02X} before armor", "list --mode armor --outside refuse", text, outside
        yield f"0x{octet:02X} before armor", "list --outside refuse", text, packet if octet >= 128 else outside


def subpacket_octets(kind, body):
    n = len(body) + 1
    length = bytes([n]) if n < 192 else bytes([(n - 192 >> 8) + 192, n - 192 & 255]) if n < 16320 else b"\xff" + number(4, n)
    return length + bytes([kind]) + body


# Certificates that others made.


def real_certificates():
    """Each file of tests/vectors/real: its packets and keys, its digests, and its octets written again."""
    packets, prints = {}, {}
    for row in lines_of("real/packets.txt"):
        name, *fields = row.split()
        packets.setdefault(name, []).append(fields)
    for row in lines_of("real/fingerprints.txt"):
        name, role, of_key = row.split()
        prints.setdefault(name, []).append((role, of_key))
    for name, rows in packets.items():
        octets = file_octets(f"{VECTORS}/real/{name}")
        binary = octets if name.endswith(".gpg") else letters_of(octets)
        shown = [f"block 0 at {at} type {kind} form {form_of(first, head)} length {n}" for at, first, head, n, kind, *_ in rows]
        digests = [(row[5], row[6]) for row in rows if row[4] == "2"]
        yield f"{name}, shown", "show", octets, Lines(packets_of, shown)
        yield f"{name}, listed", "list", octets, Lines(keys_of, prints[name])
        yield f"{name}, listed with values", "list --values", octets, Lines(lefts_of, digests)
        yield f"{name}, checked", "check", octets, Lines(digests_of, digests)
        yield f"{name}, verdicts", "check", octets, Lines(verdicts_of, {"undecided"})
        for words in ("write --out binary", "split --out binary", "join --out binary"):
            yield f"{name}, written again", words, octets, (0, binary, b"")
        yield f"{name}, written again", "write", octets, (0, armor(binary), b"")


def form_of(first, head):
    """The name of a form, by the first octet of a header and its length."""
    return ("old" if int(first, 16) < 0xC0 else "new") + str(int(head) - 1)


def packets_of(text):
    return [line for line in text if line[:1] != " "]


def verdicts_of(text):
    return {line.split(" ")[-1] for line in text}


def keys_of(text):
    fields = [line.split(" ") for line in text]
    return [(it[0], it[6]) for it in fields if it[0] in ("pub", "sub")]


def digests_of(text):
    """The type and the digest of each row that isn't embedded."""
    rows = [line.split(" ") for line in text if " nested - " in line]
    return [(it[it.index("type") + 1], it[it.index("digest") + 1]) for it in rows]


def samples():
    """Samples of the standard; the detached signature of A.2 as that of a signed literal, whose digest begins as it says."""
    yield from rows_of("standard/rows.txt")
    yield from rows_of("disputed/rows.txt")
    signature = letters_of(named("a2"))
    octets = b"\xc4\x0d" + bytes(13) + new_packet(11, b"b\0\0\0\0\0OpenPGP") + signature
    hashed = b"OpenPGP" + bytes.fromhex("040016080006050255F95F95 04FF0000000C")
    if hashlib.sha256(hashed).digest()[:2] != bytes.fromhex("F622"):
        raise ValueError("tests/program/tables.py: the sample A.2 isn't that of the standard")
    yield "the signature of A.2", "octets --row 0 --of literal", octets, (0, hashed, b"")
    yield "the digests of A.3", "check", named("a3"), Lines(digests_of, [("1F", "AD28"), ("18", "0401")])
    yield "the stated octets of A.3", "list --values", named("a3"), Lines(lefts_of, [("1F", "AD28"), ("18", "0401")])
    yield "the verdicts of A.3", "check", named("a3"), Lines(verdicts_of, {"undecided"})


# Large sizes, and lines.


def large_sizes():
    """Parts of 70,000 octets, past what two octets can count, and an integer of as many bits as its count can say."""
    for n in (65_535, 65_536, 70_000):
        body = key_body(6, 200, b"k" * n)
        yield f"version 6 key of {n} octets", "list", new_packet(6, body), written_lines([line_of_key("pub", body)])
    primary = key_body(6, 200, b"k" * 70_000)
    area = subpacket_octets(100, b"a" * 70_000)
    direct = signature_body(6, 0x1F, 200, 10, b"m", area)
    line = row_line(0, "part - hang 0 nested -", 0x1F, 10, hashed_octets(key_octets(primary), direct), "sha512")
    ring = new_packet(6, primary) + new_packet(2, direct)
    yield "version 6 key and area of 70,000 octets", "check", ring, written_lines([line])
    yield "what they hash", "octets --row 0", ring, (0, hashed_octets(key_octets(primary), direct), b"")
    four = key_body(4, 200, b"any")
    for kind, first, body in ((13, b"\xb4", b"u" * 70_000), (17, b"\xd1", subpacket_octets(1, b"i" * 70_000))):
        certified = signature_body(4, 0x13, 200, 8, b"m")
        subject = key_octets(four) + first + number(4, len(body)) + body
        line = row_line(0, "part 0 hang 0 nested -", 0x13, 8, hashed_octets(subject, certified), "sha256")
        ring = new_packet(6, four) + new_packet(kind, body) + new_packet(2, certified)
        yield f"type {kind} of 70,000 octets", "check", ring, written_lines([line])
    longest = b"\xff\xff" + b"\x7f" + b"\xff" * 8191
    loose = b"\xff\xff" + b"\x00" * 8192
    for version in (4, 6):
        body = key_body(version, 1, longest + FIELDS["i"])
        name = f"integer of 65,535 bits in version {version}"
        yield name, "list", new_packet(6, body), written_lines([line_of_key("pub", body)])
        body = key_body(version, 1, loose + FIELDS["i"])
        wanted = written_lines([line_of_key("pub", body)]) if version == 4 else refused("body: MpiBits block 0 at 0 inner 10")
        yield f"{name}, without a bit that is set", "list", new_packet(6, body), wanted
    body = signature_body(4, 0x1F, 200, 8, b"m", subpacket_octets(100, b"a" * 16_318) * 4)
    line = row_line(0, "part - hang 0 nested -", 0x1F, 8, hashed_octets(key_octets(four), body), "sha256")
    yield "version 4 area of 65,284 octets", "check", new_packet(6, four) + new_packet(2, body), written_lines([line])


def ends_of_lines():
    """Each octet from 00 to 20 behind a begin line, an end line and a data line, and on the line after a block: blanks are cut, LF
    ends the line."""
    begin, end, letters = named("begin"), named("end"), named("letters")
    end_of_text = begin + b"\n" + letters + end
    for octet in range(0x21):
        it = bytes([octet])
        behind = f"octet {octet:02X} behind"
        blank = octet in (0x09, 0x0A, 0x0D, 0x20)
        line = written_lines([LINE_OF_THE_KEY])
        text = begin[:-1] + it + b"\n\n" + letters + end
        yield f"{behind} a begin line", "list", text, line if blank else refused("armor: Label block 0 at 0 inner 0")
        text = begin + b"\n" + letters + end[:-1] + it + b"\n"
        yield f"{behind} an end line and a line feed", "list", end_of_text + it, line
        wanted = line if blank else refused(f"armor: Outside block 1 at {len(end_of_text)} inner 0")
        yield f"{behind} an end line and a line feed", "list --outside refuse", end_of_text + it, wanted
        yield f"{behind} an end line", "list", text, line if blank else refused("armor: EndLabel block 0 at 112 inner 0")
        text = begin + b"\n" + letters[:-1] + it + b"\n" + end
        yield f"{behind} a data line", "list", text, line if blank else refused("armor: Letters block 0 at 103 inner 0")
        text = begin + it + b"\n" + letters + end
        yield f"{behind} nothing", "list", text, line if blank else refused("armor: Header block 0 at 37 inner 0")


def beginnings():
    """Each beginning of a version 6 certificate in armor, and of a signed literal."""
    text = armor(named("certificate"))
    begin, end = 37, len(text) - 35
    for n in range(len(text)):
        if n == 0:
            wanted = written_lines([])
        elif n < 15:
            wanted = refused(f"armor: NoBlock block 0 at {n} inner 0")
        elif n < begin - 1:
            wanted = refused("armor: Label block 0 at 0 inner 0")
        elif n < end and text[n - 1 : n + 1] == b"==":  # a line may not end between the two
            line = text.rindex(b"\n", 0, n) + 1
            wanted = refused(f"armor: Padding block 0 at {line} inner 0")
        elif n <= end:
            wanted = refused(f"armor: Unfinished block 0 at {n} inner 0")
        elif n < len(text) - 1:
            wanted = refused(f"armor: EndLabel block 0 at {end} inner 0")
        else:
            continue
        yield f"{n} octets of the armored certificate", "list", text[:n], wanted
    literal = octets_of("C4 0D 00*13 CB 07 62 00 00000000 61 C2 0E 04 00 16 08 0000 0000 ABCD 0000 0000")
    for n in range(len(literal)):
        at = max(it for it in (0, 15, 24) if it <= n)
        ends = n in (0, 15, 24)
        line = f"composition: NotASignedLiteral block 0 at {n} inner 0" if ends else f"framing: Truncated block 0 at {at} inner 1"
        yield f"{n} octets of a signed literal", "octets --row 0 --of literal", literal[:n], refused(line)


def spelled(written):
    """A packet's octets, and of each of its lengths where it begins and where its piece ends."""
    first, lengths = written.split(":")
    octets, ends = octets_of(first.strip()), []
    for it in lengths.split(","):
        begin = len(octets)
        octets += b"".join(octets_of(part.strip()) for part in it.split("/"))
        ends.append((begin, len(octets)))
    return octets, ends


def beginnings_of_packets():
    for line in lines_of("beginnings.txt"):
        packets = [spelled(it) for it in line.split(";")]
        whole = b"".join(octets for octets, _ in packets)
        at = 0
        for octets, ends in packets:
            yield f"{at} octets of {line[:20]}", "show", whole[:at], None
            for n in range(1, len(octets)):
                inner = next(begin for begin, end in ends if end > n)
                wanted = refused(f"framing: Truncated block 0 at {at} inner {inner}")
                yield f"{at + n} octets of {line[:20]}", "show", whole[: at + n], wanted
            at += len(octets)
        yield f"all of {line[:20]}", "show", whole, None


# Every command over bodies of each size, and over each number of things: what it writes, by tests/lib/model.py.


SIZES = (0, 1, 255, 256, 4096, 65_535, 65_536, 65_537, 70_000, 1 << 20)
NUMBERS = (1, 17, 300, 20_000)
SPOOLS = tempfile.TemporaryDirectory(prefix="tables-")


def of_six(created, material):
    """A version 6 key of an algorithm without a name."""
    return bytes([6]) + number(4, created) + b"\xc8" + number(4, len(material)) + material


def signed_so(kind, hashed=b"", unhashed=b""):
    """A version 6 signature of an algorithm without a name, with these areas."""
    front = bytes([6, kind, 200, 8]) + number(4, len(hashed)) + hashed + number(4, len(unhashed)) + unhashed
    return front + b"\xab\xcd\x10" + b"s" * 16 + b"m"


def issued_by(key):
    """The subpacket of the issuer's fingerprint."""
    return subpacket_octets(33, b"\6" + fingerprint(key))


def named_in(packets, certificates, name):
    """The certificates that have a key of this fingerprint or key ID."""
    return [parts for parts in certificates if any(
        packets[head][2] in (6, 14) and name in (fingerprint(packets[head][4]), key_id(packets[head][4])) for head, _ in parts)]


def of_packets(parts):
    """These packets with five octets of length: all their octets, and the words of each command with what it writes."""
    packets, at = [], 0
    for kind, body in parts:
        packets.append((0, at, kind, "new5", body, 6 + len(body)))
        at += 6 + len(body)
    octets = b"".join(bytes([0xC0 | kind, 255]) + number(4, len(body)) + body for kind, body in parts)
    blocks = [(BLOCK, octets)]
    lead, certificates = model.compose(blocks, packets, model.USUAL)
    found = model.reported(packets, certificates)
    names = max(sum(packets[head][2] == 13 for head, _ in it) for it in certificates)
    last = max(n for n, it in enumerate(found) if it[2] is not None)

    def written(command, binary, nth=0, of=certificates):
        return model.written(command, blocks, packets, lead, of, nth, binary)

    rows_told = [f"row {n} {where} : {line}" for n, (where, line, *_) in enumerate(found)]
    said_so = [
        ("list", written_lines([model.listed(*it[2:5:2]) for it in packets])),
        ("list --values", written_lines([model.listed(*it[2:5:2], True) for it in packets])),
        ("show", written_lines(model.shown(packets, False))), ("show --values", written_lines(model.shown(packets, True))),
        ("check", written_lines(rows_told)),
        ("check --fingerprints", written_lines([f"{line} {it[3]}" for line, it in zip(rows_told, found)])),
        ("check --places", written_lines([f"{line} {it[4]}" for line, it in zip(rows_told, found)])),
        ("octets --all", model.all_hashed([it[2] for it in found])), (f"octets --row {last}", (0, found[last][2], b"")),
        (f"octets --row {len(found)}", refused("opgp: no such row")),
        (f"split --nth {len(certificates)}", refused("opgp: no such certificate")),
    ]
    keys = [it[4] for it in packets if it[2] in (6, 14)]
    for binary, out in ((False, ""), (True, " --out binary")):
        for words, command in (("write", "write"), ("normalise", "normalise"), ("split", "split"), ("join", "join"), ("join --merge", "merge"),
                               ("write --own-signatures --no-attributes --user-id 0", (True, True, (0,))),
                               (f"write --user-id {names - 1}", (False, False, (names - 1,))), ("write --own-signatures", (True, False, ()))):
            said_so.append((words + out, written(command, binary)))
        said_so.append((f"split --nth {len(certificates) - 1}{out}", written("nth", binary, len(certificates) - 1)))
        for name in (fingerprint(keys[-1]), key_id(keys[0])):
            alone = written("split", binary, of=named_in(packets, certificates, name))
            said_so.append((f"split --key {name.hex()}{out}", alone))
    return octets, said_so


SPOOLED = ("list", "list --values", "show --values", "octets --all", "write", "write --out binary", "split", "join --merge")
ARMORED = ("list", "show", "check", "write --out binary", "split --out binary")


def runs_of(what, parts):
    """The rows of each command over these packets: in binary, in armor, spooled, and with how much was read."""
    octets, said_so = of_packets(parts)
    for words, wanted in said_so:
        yield what, words, octets, wanted
        if words in SPOOLED:
            yield what, f"{words} --spool {SPOOLS.name}", octets, wanted
            yield what, f"{words} --progress --malformed keep", octets, (*wanted[:2], None)
        if words in ARMORED:
            yield what, f"{words} --outside refuse", armor(octets), wanted


def each_size():
    """Bodies of each size: keys, user IDs, attributes, fillers, and the areas of signatures, embedded ones too."""
    for n in SIZES:
        it = b"u" * n
        primary, subkey, other = of_six(1, it), of_six(2, it), of_six(3, b"other")
        text, mine = subpacket_octets(26, it), issued_by(primary)
        parts = [(60, it), (6, primary), (2, signed_so(0x1F, mine + text)), (60, it), (13, it), (2, signed_so(0x13, mine, text))]
        parts += [(2, signed_so(0x13)), (17, subpacket_octets(100, it)), (2, signed_so(0x10)), (13, b"two"), (2, signed_so(0x10, mine))]
        if n < 1 << 20:
            inside = subpacket_octets(32, signed_so(0x19, issued_by(subkey), text))
            parts += [(14, subkey), (2, signed_so(0x18, mine + inside)), (2, b"\5" + it)]
        parts += [(6, other), (2, signed_so(0x1F, issued_by(other)))]
        yield from runs_of(f"{n} octets", parts)
        literal = b"b\0\0\0\0\0" + it
        signature = signature_body(4, 0, 200, 8, b"m")
        octets = b"\xc4\0" + b"\xcb\xff" + number(4, len(literal)) + literal + new_packet(2, signature)
        yield f"{n} octets of a literal", "octets --row 0 --of literal", octets, (0, hashed_octets(it, signature), b"")


# Sizes beside each other, and those around the sizes that lengths and rooms have.
SMALL = (*range(601), 1023, 1024, 1025, 8191, 8192, 8193, 8383, 8384, 16_319, 16_320, 16_383, 16_384, 16_385)


def each_small_size():
    """All small sizes of each kind of body, in one keyring."""
    primary = of_six(0, b"key")
    parts = [(60, b"u" * n) for n in SMALL] + [(6, primary)]
    for n in SMALL:
        it = b"u" * n
        parts += [(13, it), (2, signed_so(0x13, subpacket_octets(26, it), subpacket_octets(100, it))), (60, it)]
    parts += [part for n in SMALL for part in ((17, subpacket_octets(100, b"u" * n)), (2, signed_so(0x10, issued_by(primary))))]
    parts += [part for n in SMALL for part in ((14, of_six(1, b"u" * n)), (2, signed_so(0x18, subpacket_octets(32, signed_so(0x19, b"", subpacket_octets(100, b"u" * n))))))]
    parts += [part for n in SMALL for part in ((6, of_six(2, b"u" * n)), (2, b"\5" + b"u" * n))]
    yield from runs_of("0 to 16,385 octets", parts)
    for n in SMALL[:300:7]:
        literal = b"b\0\0\0\0\0" + b"u" * n
        signature = signature_body(4, 0, 200, 8, b"m")
        octets = b"\xc4\0" + new_packet(11, literal) + new_packet(2, signature)
        yield f"{n} octets of a literal", "octets --row 0 --of literal", octets, (0, hashed_octets(b"u" * n, signature), b"")


def each_number():
    """So many certificates, and so many of each thing in one."""
    for n in NUMBERS:
        keys = [of_six(it, b"k") for it in range(n)]
        parts = [it for key in keys for it in ((6, key), (2, signed_so(0x1F)))]
        parts += [(13, b"one"), (2, signed_so(0x13, issued_by(keys[0]))), (13, b"two"), (2, signed_so(0x13, issued_by(keys[-1])))]
        yield from runs_of(f"{n} certificates", parts)
        key = of_six(0, b"key")
        parts = [(60, b"f")] * n + [(6, key)] + [it for at in range(n) for it in ((13, b"%d" % at), (2, signed_so(0x13)))]
        parts += [(60, b"f")] * n + [(2, signed_so(0x13, subpacket_octets(2, number(4, 7)) * n, subpacket_octets(9, number(4, 7)) * n))]
        if n <= 300:
            parts += [it for at in range(n) for it in ((17, subpacket_octets(100, b"%d" % at) * 2), (2, signed_so(0x10, issued_by(key))))]
        if n <= 300:
            for at in range(n):
                subkey = of_six(at, b"sub")
                inside = subpacket_octets(32, signed_so(0x19, issued_by(subkey)))
                parts += [(14, subkey), (2, signed_so(0x18, issued_by(key) + inside, inside))]
        yield from runs_of(f"{n} things", parts)
        signatures = [signature_body(4, 0, 200, 8, b"m", subpacket_octets(2, number(4, at))) for at in range(n)]
        octets = b"\xc4\0" * n + b"\xcb\7b\0\0\0\0\0a" + b"".join(new_packet(2, it) for it in signatures)
        for row in {0, n // 2, n - 1}:
            yield f"{n} signatures of a literal", f"octets --row {row} --of literal", octets, (0, hashed_octets(b"a", signatures[row]), b"")
        yield f"{n} signatures of a literal", f"octets --row {n} --of literal", octets, refused("opgp: no such row")
        body = b"b\0\0\0\0\0" + b"a" * (506 + n)
        octets = b"\xcb\xe9" + body[:512] + b"\xe0a" * (n - 1) + b"\1a"
        line = f"block 0 at 0 type 11 form part length {len(body)}"
        wanted = written_lines([line, f'  lit format "b" name "" date 0 length {len(body) - 6} 1970-01-01T00:00:00Z'])
        yield f"{n} pieces", "show --values", octets, wanted


def orders_of_literals():
    """All lists of up to four packets as a signed literal (10.3), in one block; of up to three also cut into two, under each label."""
    one_pass, signed, literal = b"\xc4\0", bytes.fromhex("C20E0400160800000000ABCD00000000"), b"\xcb\7b\0\0\0\0\0a"
    malformed, cut = b"\xc2\6" + bytes.fromhex("041316080001"), b"\xcb\1b"
    command = "octets --row 0 --of literal"
    for count in range(5):
        for number_of_it, packets in enumerate(itertools.product((one_pass, literal, signed, b"\xe8\0", malformed, cut, b"\xcd\1a"), repeat=count)):
            octets = b"".join(packets)
            yield f"{count} packets as a literal", command, octets, model.answer("literal", octets)
            if count < 4:
                at = number_of_it % (count + 1)
                labels = (b"MESSAGE", b"MESSAGE", b"SIGNATURE")
                text = model.armor(b"".join(packets[:at]), labels[number_of_it % 3]) + model.armor(b"".join(packets[at:]), labels[number_of_it % 2])
                yield f"{count} packets as a literal, in two blocks", command, text, model.answer("literal", text)


def user_ids_of_each_octet():
    """How each octet is shown in a user ID, alone and among others."""
    names = [bytes([it]) for it in range(256)] + [bytes([it]) * 3 + b"a" for it in range(256)] + [bytes(range(256)), bytes(range(255, -1, -1))]
    ring = KEY + b"".join(new_packet(13, it) for it in names)
    yield "user IDs of each octet", "list", ring, written_lines([LINE_OF_THE_KEY, *(f"uid {quoted(it)}" for it in names)])
    wanted = [f"  uid {quoted(it)}" for it in names]
    yield "user IDs of each octet, shown", "show --values", ring, Lines(user_ids_in, wanted)


def user_ids_in(text):
    return [line for line in text if line.startswith("  uid ")]


# Runs.


def rows():
    yield from reasons()
    for name in ("limits.txt", "armor.txt", "layers.txt"):
        yield from rows_of(name)
    yield from ((IN_PIECES, *row) for row in worked_rows())
    for it in (
        packet_types, key_algorithms, signature_algorithms, other_versions, hash_algorithms, signature_types, subpackets,
        values, literals, dates, named_keys, key_sizes, stated, first_octets, octets_before_armor,
        large_sizes, ends_of_lines, beginnings, beginnings_of_packets, real_certificates, samples, user_ids_of_each_octet, each_size,
        each_small_size, each_number, orders_of_literals,
    ):  # fmt: skip
        yield from it()


def differing(ended, wanted):
    if isinstance(wanted, Lines):
        found = wanted.of(ended.out.decode().split("\n")[:-1]) if ended.status == 0 else None
        return None if found == wanted.wanted else f"status {ended.status}, {ended.err[:200]!r}, {str(found)[:300]}"
    if wanted is None:  # it is accepted
        return f"status {ended.status}, {ended.err[:200]!r}" if ended.status else None
    status, out, err = wanted
    if ended.status != status or (err is not None and ended.err != err):
        return f"status {ended.status}, {ended.err[:200]!r}, and not {status}, {err!r}"
    if ended.out != out:
        pairs = list(zip(ended.out.split(b"\n"), out.split(b"\n")))
        at = next((n for n, (one, other) in enumerate(pairs) if one != other), len(pairs))
        found, other = (it[:200] for it in pairs[at]) if at < len(pairs) else (b"", b"")
        return f"line {at} is {found!r} and not {other!r}"
    return None


RUNNERS = {}


def try_row(order):
    """What is wrong with the runs over a row's input, and how many there were."""
    path, (name, words, octets, wanted) = order
    octets = octets_of(octets) if isinstance(octets, str) else octets  # long inputs are made where they are run
    if path not in RUNNERS:
        RUNNERS[path] = Runner(path)
    runner = RUNNERS[path]
    wrong = differing(runner.run(words.split(), octets), wanted)
    wrong = [f"{name}: opgp {words}: {wrong}"] if wrong else []
    runs = 1
    if name == IN_PIECES:
        found = differing(runner.run_in_pieces(words.split(), [octets[at : at + 1] for at in range(len(octets))]), wanted)
        wrong += [f"{name}: opgp {words}, in pieces of one octet: {found}"] if found else []
        runs += 1
    for command in COMMANDS if len(octets) <= LARGE and name[0] not in DIGITS else ():
        ended = runner.run(command.split(), octets)
        runs += 1
        if ended.status not in (0, 1) or (ended.status == 1 and (ended.out or ended.err.count(b"\n") != 1)):
            wrong.append(f"{name}: opgp {command}: status {ended.status}, {ended.err[:200]!r}")
    return runs, wrong


def main():
    words = argparse.ArgumentParser(prog="tests/program/tables.py", description=__doc__.split("\n\n", maxsplit=1)[0])
    words.add_argument("--jobs", type=int, default=len(os.sched_getaffinity(0)))
    words.add_argument("--program", help="the program that is run, in place of that of this repository")
    words = words.parse_args()
    path = words.program or built("tests/program/tables.py")
    failed = [reasons_of_documents(), kinds_of_documents()].count(False)
    passed = 2 - failed
    if failed:
        print("tests/program/tables.py: docs/FAULTS.md has other reasons than tests/vectors/reasons.txt, or FORMAT.md other kinds than subpackets.txt: FAILED", file=sys.stderr)
    with multiprocessing.Pool(words.jobs) as pool:
        for runs, wrong in pool.imap(try_row, ((path, row) for row in rows()), chunksize=8):
            passed += runs - len(wrong)
            failed += len(wrong)
            for it in wrong:
                print(f"tests/program/tables.py: {it}: FAILED", file=sys.stderr)
    print(f"{passed} passed, {failed} failed")
    return int(failed > 0)


sys.exit(main())
