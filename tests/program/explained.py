#!/usr/bin/env python3
"""Runs `octets --explain` over keyrings: each line is the field that RFC 9580 says is there.

Usage: tests/program/explained.py [--program FILE]

Of each row of `check` that is hashed, the octets of `octets --row N` are read here from both ends, as 5.2.4, 5.2.3, 5.5.2 and 5.2.3.7
say; so the lines, whose lengths add up to the number of these octets, are worked out from them alone. The fields of both
signatures of the certificate of A.3 stand below as A.3.1 prints them, octet by octet. Each kind of subpacket is in a signature on each part
of a certificate of either version; and the document of A.2 is told of too. The last line counts the tests."""

import argparse
import glob
import os
import sys

sys.dont_write_bytecode = True
sys.path.insert(0, f"{sys.path[0]}/../lib")

from openpgp_maker import Key, on_identity, packet, signature, subpacket  # noqa: E402
from running import HERE, Runner, built  # noqa: E402

SALTS = {8: 16, 9: 24, 10: 32, 11: 16}
# kinds of subpackets, with the sections of 5.2.3.7 (Table 5) behind 5.2.3
KINDS = {
    2: (11, "signature-creation-time"), 3: (18, "signature-expiration-time"), 4: (19, "exportable-certification"), 5: (21, "trust-signature"),
    6: (22, "regular-expression"), 7: (20, "revocable"), 9: (13, "key-expiration-time"), 11: (14, "preferred-symmetric-ciphers"),
    12: (23, "revocation-key"), 16: (12, "issuer-key-id"), 20: (24, "notation-data"), 21: (16, "preferred-hash-algorithms"),
    22: (17, "preferred-compression-algorithms"), 23: (25, "key-server-preferences"), 24: (26, "preferred-key-server"),
    25: (27, "primary-user-id"), 26: (28, "policy-uri"), 27: (29, "key-flags"), 28: (30, "signers-user-id"), 29: (31, "reason-for-revocation"),
    30: (32, "features"), 31: (33, "signature-target"), 32: (34, "embedded-signature"), 33: (35, "issuer-fingerprint"),
    35: (36, "intended-recipient-fingerprint"), 39: (15, "preferred-aead-ciphersuites"),
}
# A.3.1: offset, octets, meaning; what they have in common stands once
KEY = """20 9B|21 0000002A|25 06|26 63877FE3|2A 1B|2B 00000020|2F F94DA7BB48D60A61E567706A6587D0331999BB9D891A08242EAD84543DF895A3"""
DIRECT = """00 103E2D7D227EC0E6D7CE4471DB36BFC97083253690271498A7EF0576C07FAAE1|""" + KEY + """|4F 06|50 1F|51 1B|52 0A|53 00000042|57 05
|58 82|59 63877FE3|5D 03|5E 0B|5F 0907|61 05|62 15|63 0A0E080C|67 02|68 16|69 00|6A 02|6B 9B|6C 03|6D 02|6E 1E|6F 09|70 22|71 21
|72 06CB186C4F0609A697E4D52DFA6C722B0C1F1E27C18A56708F6525EC27BAD9ACC9|93 05|94 27|95 09020702|99 06|9A FF|9B 0000004A"""
BINDING = """00 A6E9186D9D5935FC8FE56314CDB527486A5A5120F9B762A235A729F039010A56|""" + KEY + """|4F 9B|50 0000002A|54 06|55 63877FE3|59 19
|5A 00000020|5E 8693248367F9E5015DB922F8F48095DDA784987F2D5985B12FBAD16CAF5E4435|7E 06|7F 18|80 1B|81 0A|82 0000002C|86 05|87 82
|88 63877FE3|8C 02|8D 9B|8E 0C|8F 22|90 21|91 06CB186C4F0609A697E4D52DFA6C722B0C1F1E27C18A56708F6525EC27BAD9ACC9|B2 06|B3 FF|B4 00000034"""


def quoted(octets):
    return '"' + "".join(chr(it) if 32 <= it <= 126 and it not in b'"\\' else f"\\x{it:02X}" for it in octets) + '"'


def shown(octets):
    return octets[:32].hex().upper() + (".." if len(octets) > 32 else "") if octets else "-"


class Fields:
    """The fields of hashed octets, and the lines that show them."""

    def __init__(self, octets):
        self.octets, self.at, self.fields = octets, 0, []

    def take(self, size, name, section, show=None):
        octets = self.octets[self.at:self.at + size]
        value = int.from_bytes(octets, "big") if show is int and size in (1, 2, 4) else shown(octets) if show in (int, None) else show(octets)
        self.fields.append((self.at, octets, f"{self.at} {size} {name} {value} {section}"))
        self.at += size
        return int.from_bytes(octets, "big")

    def key(self, name, version):
        self.take(1, f"{name}-prefix", "5.2.4")
        end = self.take(2 if version == 4 else 4, f"{name}-length", "5.2.4", int) + self.at
        self.take(1, f"{name}-version", "5.5.2", int)
        self.take(4, f"{name}-creation-time", "5.5.2", int)
        self.take(1, f"{name}-algorithm", "9.1", int)
        if version == 6:
            self.take(4, f"{name}-material-length", "5.5.2.3", int)
        self.take(end - self.at, f"{name}-material", "5.5.5")

    def body(self, name, section, show):
        self.take(1, f"{name}-prefix", "5.2.4")
        self.take(self.take(4, f"{name}-length", "5.2.4", int), name, section, show)

    def subpacket(self):
        first = self.octets[self.at]
        size = 1 if first < 192 else 2 if first < 255 else 5
        octets = self.octets[self.at:self.at + size]
        length = first if size == 1 else (first - 192) * 256 + octets[1] + 192 if size == 2 else int.from_bytes(octets[1:], "big")
        self.take(size, "subpacket-length", "5.2.3.7")
        kind = self.take(1, "subpacket-type", "5.2.3.7") % 128
        section, name = KINDS.get(kind, (7, "other-subpacket"))
        self.take(length - 1, name, f"5.2.3.{section}", int if kind in (2, 3, 9) else quoted if kind in (24, 26, 28) else None)


def explained(octets):
    it, version = Fields(octets), octets[-6]
    front = len(octets) - 6 - int.from_bytes(octets[-4:], "big")
    if version == 6:
        it.take(SALTS[octets[front + 3]], "salt", "5.2.4")
    if octets[front + 1] == 0:
        it.take(front - it.at, "content", "5.2.4")
    else:
        it.key("primary-key", version)
    if it.at < front and octets[it.at] in (0x99, 0x9B):
        it.key("subkey", version)
    elif it.at < front:
        it.body(*(("user-id", "5.11", quoted) if octets[it.at] == 0xB4 else ("user-attribute", "5.12", None)))
    assert it.at == front
    it.take(1, "signature-version", "5.2.3", int)
    it.take(1, "signature-type", "5.2.1")
    it.take(1, "key-algorithm", "9.1", int)
    it.take(1, "hash-algorithm", "9.5", int)
    it.take(2 if version == 4 else 4, "hashed-area-length", "5.2.3", int)
    while it.at < len(octets) - 6:
        it.subpacket()
    it.take(1, "trailer-version", "5.2.4", int)
    it.take(1, "trailer-marker", "5.2.4")
    it.take(4, "trailer-length", "5.2.4", int)
    assert it.at == len(octets) and b"".join(octets for _, octets, _ in it.fields) == octets
    return it.fields


def every_kind():
    """A certificate of version 4 and one of version 6, with signatures on the key, a user ID, an attribute and a subkey, of which each has
    every kind of subpacket in its hashed area (5.2.3.7); its data is that of no kind."""
    area = b"".join(subpacket(kind, b"data %d" % kind) for kind in range(128))
    octets = b""
    for version in (4, 6):
        key, subkey = (Key(version, made, 27, bytes([made]) * 32, lambda digest, hash: bytes(64)) for made in (1, 2))
        picture = subpacket(1, b"\x10\0\1\1" + bytes(12) + b"picture")
        octets += packet(6, key.body) + packet(2, signature(key, 0x1F, key.octets, area))
        for kind, body in ((13, b"Alice"), (17, picture)):
            octets += packet(kind, body) + packet(2, signature(key, 0x10, key.octets + on_identity(kind, body), area))
        octets += packet(14, subkey.body) + packet(2, signature(key, 0x18, key.octets + subkey.octets, area))
    return octets


def main():
    words = argparse.ArgumentParser(prog="tests/program/explained.py", description=__doc__.split("\n\n", maxsplit=1)[0])
    words.add_argument("--program", help="the program that is run, in place of that of this repository")
    runner = Runner(words.parse_args().program or built("tests/program/explained.py"))
    passed = failed = 0

    def told(what, holds, found=""):
        nonlocal passed, failed
        passed, failed = passed + bool(holds), failed + (not holds)
        if not holds:
            print(f"failed: {what}: {found}")

    given = {"every kind of subpacket": every_kind()}
    for name in sorted(glob.glob(f"{HERE}/examples/*.asc") + glob.glob(f"{HERE}/tests/vectors/*/*.asc") + glob.glob(f"{HERE}/tests/vectors/*/*.gpg")):
        with open(name, "rb") as it:
            given[os.path.relpath(name, HERE)] = it.read()
    for name, octets in given.items():
        rows = runner.run(["check"], octets).out.split(b"\n")[:-1]
        for n, row in enumerate(rows):
            if b" : asked " not in row:
                continue
            row = ["octets", "--row", str(n)]
            fields = explained(runner.run(row, octets).out)
            found = runner.run([*row, "--explain"], octets)
            wanted = "".join(f"{line}\n" for _, _, line in fields).encode()
            told(f"{name}, row {n}", (found.status, found.err, found.out) == (0, b"", wanted), found.out[:2000])
            if name == "examples/rfc9580-a3.asc":
                printed = [it.strip().split(" ") for it in (DIRECT, BINDING)[n].split("|")]
                told(f"{name}, row {n}, as it is printed", [f"{at:02X} {it.hex().upper()}" for at, it, _ in fields] == [" ".join(it) for it in printed])
        told(f"{name}, rows", name != "every kind of subpacket" or sum(b" : asked " in row for row in rows) == 8, rows)
    # The signature of A.2 over a document, as that of a signed literal.
    hashed = b"OpenPGP" + bytes.fromhex("040016080006050255F95F9504FF0000000C")
    message = b"\xc4\x0d" + bytes(13) + packet(11, b"b\0\0\0\0\0OpenPGP") + packet(2, hashed[7:19] + bytes.fromhex("0000F622000101000101"))
    found = runner.run(["octets", "--row", "0", "--of", "literal", "--explain"], message)
    told("the document of A.2", (found.status, found.err, found.out.decode()) == (0, b"", "".join(f"{line}\n" for _, _, line in explained(hashed))), found)
    runner.close()
    print(f"{passed} passed, {failed} failed")
    return failed > 0 or passed == 0


if __name__ == "__main__":
    sys.exit(main())
