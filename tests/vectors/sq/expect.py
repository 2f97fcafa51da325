#!/usr/bin/env python3
"""Turns what `sq packet dump --hex FILE` prints into the rows of packets.txt, in this folder's README.md explained.

Usage: tests/vectors/sq/expect.py FILE..., where sq 1.3.1 is installed. It reads sq's output alone, never the octets of FILE.
"""

import datetime
import os
import re
import subprocess
import sys

TYPES = {
    "Public-Key": 6, "Public-Subkey": 14, "User ID": 13, "Signature": 2, "One-Pass Signature": 4, "Literal Data": 11,
    "Public-Key Encrypted Session Key": 1, "Sym. Encrypted and Integrity Protected Data": 18,
}  # fmt: skip
# Numbers of RFC 9580 by sq's names: 5.2.1, 9.1, 9.3, 9.4, 9.5, 9.6, 5.2.3.31. Type 16 and kind 37 aren't the standard's.
SIGNATURES = {
    "Binary": "00", "Text": "01", "GenericCertification": "10", "PositiveCertification": "13", "CertificationApproval": "16",
    "SubkeyBinding": "18", "PrimaryKeyBinding": "19", "DirectKey": "1F", "KeyRevocation": "20", "SubkeyRevocation": "28",
    "CertificationRevocation": "30",
}  # fmt: skip
ALGORITHMS = {"RSA": 1, "ECDH": 18, "ECDSA": 19, "EdDSA": 22, "X25519": 25, "X448": 26, "Ed25519": 27, "Ed448": 28}
CIPHERS = {"AES128": 7, "AES192": 8, "AES256": 9, "Twofish": 10, "Camellia128": 11, "Camellia192": 12, "Camellia256": 13}
COMPRESSIONS = {"Uncompressed": 0, "Zip": 1, "Zlib": 2}
HASHES = {"SHA256": 8, "SHA384": 9, "SHA512": 10, "SHA224": 11}
MODES = {"EAX": 1, "OCB": 2, "GCM": 3}
REASONS = {
    "No reason specified": 0, "Key is superseded": 1, "Key material has been compromised": 2,
    "Key is retired and no longer used": 3, "User ID information is no longer valid": 32,
}  # fmt: skip
FLAGS = {"C": (1, "certify"), "S": (2, "sign"), "Et": (4, "encrypt-communications"), "Er": (8, "encrypt-storage"),
         "A": (32, "authenticate")}  # fmt: skip
FEATURES = {"SEIPDv1": (1, "seipd1"), "SEIPDv2": (8, "seipd2")}
UNITS = {"year": 31557600, "month": 2630016, "day": 86400, "h": 3600, "m": 60, "s": 1}  # sq's, in seconds


def quoted(text):
    octets = text.encode()
    return '"' + "".join(chr(it) if 32 <= it < 127 and it not in b'"\\' else f"\\x{it:02X}" for it in octets) + '"'


def seconds(text):
    """The seconds from 1970 to a date."""
    return int(datetime.datetime.strptime(text, "%Y-%m-%d %H:%M:%S UTC").replace(tzinfo=datetime.timezone.utc).timestamp())


def duration(text):
    return sum(int(n) * UNITS[unit] for n, unit in re.findall(r"(\d+)(year|month|day|h|m|s)", text))


def names(table, text):
    return " ".join(str(table[it]) for it in text.split(", "))


def flags_of(found):
    return f"{sum(bit for bit, _ in found):02X} " + " ".join(name for _, name in sorted(found))


def suites(text):
    return " ".join(f"{CIPHERS[one]} {MODES[other]}" for one, other in (it.split("+") for it in text.split(", ")))


def notation(text, lines):
    """A notation with its value in the line, which is text, or in lines of hexadecimal, which isn't."""
    name, _, value = text.partition(": ")
    if lines:
        value = "".join(line.split(None, 1)[1].replace(" ", "") for line in lines)
        return f"0 {quoted(name)} x{value.upper()}"
    return f"2147483648 {quoted(name)} {quoted(value)}"


def reason(text):
    name, _, told = text.partition(", ")
    return f"{REASONS[name]} {quoted(told)}"


# Of each label of sq: the kind, and what the subpacket says in the words of show --values, of sq's text and of the lines below it.
SUBPACKETS = {
    "Signature creation time": (2, lambda it, _: f"created {seconds(it)}"),
    "Signature expiration time": (3, lambda it, _: f"expires {duration(it.partition(' (')[0])}"),
    "Exportable certification": (4, lambda it, _: f"exportable {int(it == 'true')}"),
    "Trust signature": (5, lambda it, _: f"trust level {it.split()[1]} amount {it.split()[3]}"),
    "Regular expression": (6, lambda it, _: f"regex {quoted(it)}"),
    "Revocable": (7, lambda it, _: f"revocable {int(it == 'true')}"),
    "Key expiration time": (9, lambda it, _: f"key-expires {duration(it)}"),
    "Symmetric algo preferences": (11, lambda it, _: f"symmetric {names(CIPHERS, it)}"),
    "Issuer": (16, lambda it, _: f"issuer {it}"),
    "Notation": (20, lambda it, below: f"notation {notation(it, below)}"),
    "Hash preferences": (21, lambda it, _: f"hash {names(HASHES, it)}"),
    "Compression preferences": (22, lambda it, _: f"compression {names(COMPRESSIONS, it)}"),
    "Primary User ID": (25, lambda it, _: f"primary-user-id {int(it == 'true')}"),
    "Key flags": (27, lambda it, _: f"key-flags {flags_of([FLAGS[one] for one in re.findall('Et|Er|[A-Z]', it)])}"),
    "Reason for revocation": (29, lambda it, _: f"reason {reason(it)}"),
    "Features": (30, lambda it, _: f"features {flags_of([FEATURES[one] for one in it.split(', ')])}"),
    "Embedded signature": (32, lambda _, below: embedded(below)),
    "Issuer Fingerprint": (33, lambda it, _: f"issuer-fingerprint v{4 if len(it) == 40 else 6} {it}"),
    "Approved Certifications": (37, lambda _, below: "".join(it.strip() for it in below)),
    "AEAD preferences": (39, lambda it, _: f"aead {suites(it)}"),
}


def fields_of(lines):
    return dict(re.findall(r"^ *([A-Z][\w ]*): *(.*)$", "\n".join(lines), re.M))


def embedded(lines):
    it = fields_of(lines)
    return f"sig v{it['Version']} type {SIGNATURES[it['Type']]} alg {ALGORITHMS[it['Pk algo']]} hash {HASHES[it['Hash algo']]}"


def hexadecimal(lines):
    """The fields of a packet: what sq calls each, and its octets."""
    fields = []
    for line in lines:
        found = re.fullmatch(r" +[0-9a-f]{8}  (.{1,51})(.*)", line)
        octets, name = found[1].split(), found[2].strip()
        if name:
            fields.append([name, []])
        fields[-1][1].extend(octets)
    return [(name, "".join(octets).upper()) for name, octets in fields]


def sizes(fields):
    """Of each subpacket its kind, its critical bit and its length."""
    for (name, octets), (_, tag) in zip(fields, fields[1:]):
        if name == "subpacket length":
            n = bytes.fromhex(octets)
            n = n[0] if len(n) == 1 else (n[0] - 192 << 8) + n[1] + 192 if len(n) == 2 else int.from_bytes(n[1:], "big")
            yield int(tag, 16) & 127, int(tag, 16) >> 7, n


def areas(lines):
    """Each subpacket in sq's words: its area, its label, its text, the lines below it, and whether it is critical."""
    area, found = None, []
    for line in lines:
        if re.fullmatch(r"    (Hashed|Unhashed) area:", line):
            area = line.strip()[0].lower()
        elif re.match(r"    \S", line):
            area = None
        elif area and (start := re.fullmatch(r"      ([A-Z][\w ]*):(?: (.*))?", line)):
            found.append([area, start[1], start[2] or "", []])
        elif area:
            found[-1][3].append(line)
    for area, label, text, below in found:
        critical = text.endswith("(critical)") or (below and below[-1] == " (critical)")
        yield area, label, re.sub(r" ?\(critical\)$", "", text), [it for it in below if it != " (critical)"], critical


def of_a_signature(lines, fields):
    it = fields_of([line for line in lines if re.match(r"    [A-Z]", line)])
    numbers = dict(reversed(fields))  # the first field of each name counts
    kind, algorithm, hashed = SIGNATURES[it["Type"]], ALGORITHMS[it["Pk algo"]], HASHES[it["Hash algo"]]
    told = "".join(numbers[name] for name in ("version", "type", "pk_algo", "hash_algo", "digest_prefix1", "digest_prefix2"))
    if told != f"0{it['Version']}{kind}{algorithm:02X}{hashed:02X}{it['Digest prefix']}":
        raise ValueError(f"sq says two things: {lines}")
    yield f"sig {it['Version']} {kind} {algorithm} {hashed} {it['Digest prefix']}"
    told, measured = list(areas(lines)), list(sizes(fields))
    for (area, label, text, below, critical), (number, bit, n) in zip(told, measured, strict=True):
        kind, says = SUBPACKETS[label]
        if (kind, bool(critical)) != (number, bool(bit)):
            raise ValueError(f"sq says two things of {label}: {lines}")
        yield f"  {area} {kind}{'!' * bit} {n} {says(text, below)}"
        if kind == 32:
            inner = fields_of(below)
            yield f"  > {inner['Digest prefix']} {inner['Issuer Fingerprint']}"


def rows_of(dump):
    """Of each packet its place, type, form and length, and what it says."""
    at = 0
    packets = re.split(r"^(?=[A-Z].* Packet, (?:new|old) CTB)", dump, flags=re.M)[1:]
    for lines in (it.split("\n") for it in packets):
        head = re.fullmatch(r"(.*) Packet, (new|old) CTB, (\d) header bytes \+ (\d+) bytes", lines[0])
        size, n, kind = int(head[3]), int(head[4]), TYPES[head[1]]
        octets = [it for it in lines[1:] if re.match(r"(  |    )[0-9a-f]{8}  ", it)]
        words = [it for it in lines[1:] if it not in octets]
        front = f"{at} {kind} {head[2]}{size - 1} {n}"
        if kind in (6, 14):
            it = fields_of(words)
            numbers = f"{it['Version']} {ALGORITHMS[it['Pk algo']]} {seconds(it['Creation time'])}"
            yield f"{front} key {numbers} {it['Fingerprint']} {it['KeyID']}"
        elif kind == 13:
            yield f"{front} uid {quoted(fields_of(words)['Value'])}"
        elif kind == 2:
            first, *more = of_a_signature(words, hexadecimal(octets))
            yield f"{front} {first}"
            yield from more
        else:
            yield front
        at += size + n


for path in sys.argv[1:]:
    print(os.path.basename(path))
    words = ["sq", "--home", "none", "packet", "dump", "--hex", path]
    for row in rows_of(subprocess.run(words, stdout=subprocess.PIPE, stderr=subprocess.PIPE, check=True, encoding="utf-8").stdout):
        print(row)
