#!/usr/bin/env python3
"""Counts the work of each command, of the readers of the libraries (crates/opgp_examples), of calls of these (crates/opgp_calls), and of the
library for C (tests/lib/library.c), over inputs of a number of things and of four times as many: it must be linear.

Usage: tests/program/work.py [--jobs N] [--program FILE] [--measure] [--write] [--add]

The instructions are those that valgrind's callgrind counts, less those of a run on an empty input: no machine changes them. For
four times as many things they may be 4.6 times as many, of merging, which looks packets up in an ordered map, 4.8. The memory is the most that the heap held at a time (tests/program/work.c,
preloaded): for as many things more it may grow by five times as much. A command that makes its text part by part holds only what it
will write: where the things are certificates, each command but `join --merge` may hold that and PIECE octets, and `show` for packets
too; with --spool, PIECE octets alone; `check`, which writes its rows from where they are held, and `state`, as many octets as CHECKED
says for each certificate and PIECE. Where a packet announces a body that doesn't come, in one piece or octet by octet, no more than four times
what came and PIECE octets may be held or asked for.

A factor that doesn't grow is seen too: tests/program/work.txt has the instructions of each row over the larger input, and the most that its
heap held and asked for in all; a row may take a fifth more instructions than that, and a twentieth more memory. (What a machine changes
of them is less: how its memcpy copies.) What grows faster than the number of things, so that the instructions would be past 4.6 times as
many, is then past that fifth too; so with the kit that the table names only those over the larger input are counted, which halves
the time. Another kit compiles otherwise: with another than the table names, half as many instructions more are allowed, and a fifth
more memory, and both inputs are counted. After a change that means to cost more, or that saves as much, --write writes the table anew,
for which both are; a row that it lacks fails, unless --add measures and adds it, and no other. The last line counts what was held to
be so. With --measure the program prints all that it counts.
"""

import argparse
import base64
import hashlib
import multiprocessing
import os
import re
import subprocess
import sys
import tempfile

sys.dont_write_bytecode = True
sys.path.insert(0, f"{sys.path[0]}/../lib")

from running import HERE, Runner, built  # noqa: E402

KEY = bytes.fromhex("C63304 53F35F0B 16 09 2B06010401DA470F01 0107 40 3F098994BDD916ED4053197934E4A87C80733A1280D62F8010992E43EE3B2406".replace(" ", ""))
SIGNATURE = bytes.fromhex("041F160800000000ABCD00000000")
MESSAGE = b"-----BEGIN PGP SIGNED MESSAGE-----\nHash: SHA256\n\n"
SIGNED = b"-----BEGIN PGP SIGNATURE-----\n\n" + base64.b64encode(b"\xc2\x0e" + SIGNATURE) + b"\n-----END PGP SIGNATURE-----\n"
BEGIN, END = b"-----BEGIN PGP PUBLIC KEY BLOCK-----\n\n", b"-----END PGP PUBLIC KEY BLOCK-----\n"
# What a command may hold beside its text: two buffers, the pieces that aren't full, what a certificate takes.
PIECE = 1_600_000
# The table of what each row took; what it may take more: a share, with the kit that the table names and with another, and a start for
# rows that are small.
KEPT = f"{HERE}/tests/program/work.txt"
MORE = (("instructions", (1.20, 1.50), 40_000), ("octets held", (1.05, 1.20), 4_096), ("octets asked for", (1.05, 1.20), 4_096))
KIT = "# kit: "
# What `check` may hold of a certificate with one key and at most one signature: its row, the issuer's name, the key in the index; and
# `state`, which holds how its parts stand, and with --values why.
CHECKED = {"check": 400, "check --fingerprints": 466, "check --places": 466, "state --at 1795132800": 470, "state --at 1795132800 --values": 860}


def armored(octets, size):
    letters = base64.b64encode(octets)
    return BEGIN + b"".join(letters[at : at + size] + b"\n" for at in range(0, len(letters), size)) + END


def signers(count):
    """Keys, each with a signature that names a key that isn't there."""
    named = bytes.fromhex("C218041F16080000000A0910")
    return b"".join(KEY[:3] + n.to_bytes(4, "big") + KEY[7:] + named + n.to_bytes(8, "big") + SIGNATURE[8:] for n in range(count))


def keys(count):
    return b"".join(KEY[:3] + n.to_bytes(4, "big") + KEY[7:] for n in range(count))


def later_signers(count):
    """Keys, each with a signature that names a key as its issuer: the first key names the last one, and so on."""
    rows = [KEY[:3] + n.to_bytes(4, "big") + KEY[7:] for n in range(count)]
    named = bytes.fromhex("C218041F16080000000A0910")
    return b"".join(row + named + bytes.fromhex(key_id(later)) + SIGNATURE[8:] for row, later in zip(rows, rows[::-1]))


def message(count):
    """A literal with so many one-pass signatures before it, and signatures behind it."""
    return b"\xc4\0" * count + b"\xcb\6b\0\0\0\0\0" + (b"\xc2\x0e" + SIGNATURE[:1] + b"\0" + SIGNATURE[2:]) * count


def names_of_a_large_key(count):
    """A key of four octets for each of its user IDs; a subkey, which is KEY, comes last."""
    body = b"\4" + bytes(4) + b"\xc8" + b"m" * (4 * count)
    return b"\x9a" + len(body).to_bytes(4, "big") + body + b"\xcd\1a" * count + b"\xce" + KEY[1:]


def signed_names_of_a_large_key(count):
    """A key of 2,000 octets with so many user IDs, each with a signature: what they sign begins with that key, which is hashed once."""
    body = b"\4" + bytes(4) + b"\xc8" + b"m" * 1_994
    signed = b"\xcd\1a\xc2\x0e" + SIGNATURE[:1] + b"\x13" + SIGNATURE[2:]
    return b"\x99" + len(body).to_bytes(2, "big") + body + signed * count


def long_names(count):
    """Keys, each with a user ID of 2,000 octets."""
    return b"".join(KEY[:3] + n.to_bytes(4, "big") + KEY[7:] + b"\xcd\xc7\x10" + b"a" * 2_000 for n in range(count))


def subkeys(count):
    """A key with so many subkeys and one more, which is KEY: the one that is looked for."""
    subkey = b"\xce" + KEY[1:3]
    return b"\x99\0\x33" + KEY[2:3] + bytes(4) + KEY[7:] + b"".join(subkey + n.to_bytes(4, "big") + KEY[7:] for n in range(1, count + 1)) + b"\xce" + KEY[1:]


def embedded(count):
    """A binding of version 6 in whose area so many signatures are embedded, without octets."""
    return KEY + b"\xce" + KEY[1:] + area(b"\1\x20" * count, 0x18)


def signed_name(count):
    """A user ID of as many octets as it has signatures: what they sign is hashed once."""
    signature = b"\xc2\x0e" + SIGNATURE[:1] + b"\x13" + SIGNATURE[2:]
    return KEY + b"\xcd\xff" + count.to_bytes(4, "big") + b"a" * count + signature * count


def dated(kind):
    """A version 4 signature whose hashed area has a creation time."""
    return b"\xc2\x14" + SIGNATURE[:1] + bytes([kind]) + SIGNATURE[2:4] + b"\0\6\5\2" + bytes(4) + SIGNATURE[6:]


def dated_signed_name(count):
    """As signed_name, but what each signature hashes of its own isn't empty."""
    return KEY + b"\xcd\xff" + count.to_bytes(4, "big") + b"a" * count + dated(0x13) * count


def dated_names_of_a_large_key(count):
    """As signed_names_of_a_large_key, but what each signature hashes of its own isn't empty."""
    body = b"\4" + bytes(4) + b"\xc8" + b"m" * 1_994
    return b"\x99" + len(body).to_bytes(2, "big") + body + (b"\xcd\1a" + dated(0x13)) * count


def cut_off(count):
    """A packet that announces a body of 16,777,215 octets, of which so many come."""
    return b"\xcd\xff\0\xff\xff\xff" + b"a" * count


def area(subpackets, kind=0x1F):
    """A version 6 signature with this unhashed area, whose length takes four octets."""
    body = bytes([6, kind, 22, 8]) + bytes(4) + len(subpackets).to_bytes(4, "big") + subpackets
    body += bytes.fromhex("ABCD 10".replace(" ", "")) + bytes(16 + 4)
    return b"\xc2\xff" + len(body).to_bytes(4, "big") + body


def attributes(count):
    """A key with so many user attributes, each of one subpacket."""
    return KEY + b"".join(b"\xd1\6\5\x64" + n.to_bytes(4, "big") for n in range(count))


def hashed_area(count):
    """A key with a direct key signature, whose hashed area has so many octets in one subpacket."""
    subpacket = b"\xff" + (count + 1).to_bytes(4, "big") + b"\x1a" + b"u" * count
    body = bytes([6, 0x1F, 200, 8]) + len(subpacket).to_bytes(4, "big") + subpacket + bytes(4) + b"\xab\xcd\x10" + bytes(16) + b"m"
    key = b"\6" + bytes(4) + b"\xc8\0\0\0\1k"
    return b"\xc6" + bytes([len(key)]) + key + b"\xc2\xff" + len(body).to_bytes(4, "big") + body


def algorithms(count):
    """A signature with lists of algorithms, of so many octets in all."""
    return KEY + area((b"\x0b\x0b" + bytes(range(10))) * (count // 10))


def bindings(count):
    """A key with so many subkeys, each with a binding that embeds a signature."""
    inside = SIGNATURE[:1] + b"\x19" + SIGNATURE[2:]
    hashed = bytes([len(inside) + 1, 32]) + inside
    binding = b"\4\x18\x16\x08" + len(hashed).to_bytes(2, "big") + hashed + SIGNATURE[6:]
    subkey = b"\xce" + KEY[1:3]
    return KEY + b"".join(subkey + n.to_bytes(4, "big") + KEY[7:] + b"\xc2" + bytes([len(binding)]) + binding for n in range(count))


def signed_octets(count):
    """A signed message, whose literal has so many octets."""
    body = b"b\0\0\0\0\0" + b"a" * count
    return b"\xc4\0\xcb\xff" + len(body).to_bytes(4, "big") + body + b"\xc2\x0e" + SIGNATURE[:1] + b"\0" + SIGNATURE[2:]


def pieces(count):
    """A literal of partial lengths, whose first piece has 512 octets."""
    return b"\xcb\xe9" + b"b" + bytes(511) + b"\xe0a" * (count - 1) + b"\0"


def key_id(octets):
    """That of the key at the front of these octets, or of the key that is armored."""
    body = (octets if octets[0] == KEY[0] else KEY)[2 : len(KEY)]
    return hashlib.sha1(b"\x99" + len(body).to_bytes(2, "big") + body).hexdigest()[-16:]


# What the things are, how many, how the input is made of a number of them, and what they are: whole certificates, packets, or parts of
# one packet.
KINDS = (
    ("certificates", 4_000, keys, "certificates"),
    ("certificates with an issuer that is absent", 2_000, signers, "certificates"),
    ("certificates with a long user ID", 500, long_names, "certificates"),
    ("equal certificates", 4_000, lambda n: KEY * n, "certificates"),
    ("certificates with an issuer among the later ones", 2_000, later_signers, "signed"),
    ("signatures of a message", 400, message, "message"),
    ("user IDs of a large key", 500, names_of_a_large_key, "of a large key"),
    ("signed user IDs of a large key", 1_000, signed_names_of_a_large_key, "signed"),
    ("subkeys", 2_000, subkeys, "subkeys"),
    ("embedded signatures", 8_000, embedded, "embedded"),
    ("octets of a header", 40_000, lambda n: BEGIN[:-1] + b"A:" + b"a" * n + b"\n\n" + END, "a header"),
    ("fillers", 10_000, lambda n: b"\xe8\0" * n, "packets"),
    ("user IDs", 6_000, lambda n: KEY + b"".join(b"\xcd\4" + n.to_bytes(4, "big") for n in range(n)), "packets"),
    ("equal user IDs and fillers, in turn", 6_000, lambda n: KEY + b"\xcd\0\xe8\0" * n, "packets"),
    ("signatures", 4_000, lambda n: KEY + (b"\xc2\x0e" + SIGNATURE) * n, "packets"),
    ("signatures of a long user ID", 1_000, signed_name, "packets"),
    ("subpackets", 8_000, lambda n: KEY + area(b"\2\x65x" * n), "parts"),
    ("octets of a user ID", 400_000, lambda n: KEY + b"\xcd\xff" + n.to_bytes(4, "big") + b"a" * n, "parts"),
    ("pieces of a literal", 20_000, pieces, "parts"),
    ("blocks of armor", 1_000, lambda n: (BEGIN + base64.b64encode(KEY) + b"\n" + END) * n, "certificates"),
    ("data lines of four letters", 20_000, lambda n: armored(KEY + b"\xcd\xff" + (3 * n).to_bytes(4, "big") + b"a" * (3 * n), 4), "parts"),
    # Without padding, which no line may have alone.
    ("data lines of 63 letters", 4_000, lambda n: armored(KEY + b"\xcd\xff" + (48 * n + 1).to_bytes(4, "big") + b"a" * (48 * n + 1), 63), "parts"),
    ("data lines of 64 letters", 4_000, lambda n: armored(KEY + b"\xcd\xff" + (48 * n).to_bytes(4, "big") + b"a" * (48 * n), 64), "parts"),
    ("attributes", 2_000, attributes, "attributes"),
    ("subpackets of an attribute", 10_000, lambda n: KEY + b"\xd1\xff" + (3 * n).to_bytes(4, "big") + b"\2\x64x" * n, "of an attribute"),
    ("octets of a hashed area", 100_000, hashed_area, "of an area"),
    ("octets of lists of algorithms", 40_000, algorithms, "of lists"),
    ("bindings", 500, bindings, "bindings"),
    ("malformed signatures", 2_000, lambda n: KEY + b"\xc2\6\4\x13\x16\x08\0\1" * n, "malformed"),
    ("octets of a signed literal", 100_000, signed_octets, "of a literal"),
    ("headers of a block", 4_000, lambda n: BEGIN[:-1] + b"A: b\n" * n + b"\n" + base64.b64encode(KEY) + b"\n" + END, "of a text"),
    ("blank lines of a block", 20_000, lambda n: BEGIN + base64.b64encode(KEY) + b"\n" + b" \n" * n + END, "of a text"),
    # What comes behind a fault isn't kept.
    ("certificates behind a fault", 4_000, lambda n: b"\xc6\1\3" + keys(n), "refused"),
    ("octets behind a fault", 400_000, lambda n: b"\xc6\1\3\xcd\xff" + n.to_bytes(4, "big") + b"a" * n + KEY, "refused"),
    # Octets that are announced and don't come take no memory.
    ("octets of a body that is cut off", 2, cut_off, "cut off"),
    ("many octets of a body that is cut off", 40_000, cut_off, "many cut off"),
    ("signatures with a time of a long user ID", 1_000, dated_signed_name, "signed"),
    ("user IDs of a large key, signed with a time", 1_000, dated_names_of_a_large_key, "signed"),
    ("fillers with bodies", 2_000, lambda n: b"".join(b"\xe8\x64" + n.to_bytes(4, "big") + bytes(96) for n in range(n)), "of fillers"),
    ("fillers with bodies before a key", 2_000, lambda n: b"".join(b"\xe8\x64" + n.to_bytes(4, "big") + bytes(96) for n in range(n)) + KEY, "before a key"),
    ("lines outside of blocks", 40_000, lambda n: b"a line\n" * n + BEGIN + base64.b64encode(KEY) + b"\n" + END, "parts"),
    ("detached signatures", 4_000, lambda n: (b"\xc2\x0e" + SIGNATURE) * n, "detached"),
    ("lines of a document", 40_000, lambda n: b"a line\n" * n, "a document"),
    ("lines of a cleartext message", 40_000, lambda n: MESSAGE + b"- a line \n" * n + SIGNED, "cleartext"),
)
CHOSEN = "write --own-signatures --no-attributes --user-id LAST --out binary"
OWN = "write --own-signatures --out binary"
COMMANDS = (
    "show",
    "show --values",
    "list",
    "check",
    "check --fingerprints",
    "check --places",
    "octets --row LAST",
    "octets --all",
    "write",
    "write --out binary",
    CHOSEN,
    OWN,
    "normalise --out binary",
    "split",
    "split --nth LAST",
    "split --key FIRST",
    "join --out binary",
    "join --merge --out binary",
    "list --values",
    "list --spool ROOM",
    "octets --all --spool ROOM",
    "show --spool ROOM",
    "octets --of literal --row LAST",
    "octets --of literal --row 0",
    "list --malformed keep",
    "check --malformed keep",
    "signatures",
    "canonical",
    "canonical --spool ROOM",
    "digest --signatures DETACHED",
    # 64 signatures of one hash, as many as one document takes: what they hash of it is hashed once.
    "digest --signatures EQUAL",
    "cleartext --of document",
    "cleartext --of hashed",
    "cleartext --of signatures",
    "state --at 1795132800",
    "state --at 1795132800 --values",
)
# What else is tried, by the name of the parts.
ALSO = {"user IDs": ("normalise --out binary", "split", "split --key FIRST", "join --out binary", "write"), "octets of a user ID": ("split",),
        "certificates with an issuer among the later ones": ("check --fingerprints",)}  # fmt: skip
KEEP = "join --merge --out binary"
# Programs over the libraries, and the kinds that their readers take, armored: armor, packets, bodies and subpackets one by one; the
# composer that certificates are taken from; signers looked up and hashers kept; a keyring read, reframed and written.
LIBRARY = f"{HERE}/crates/opgp_examples/out/opgp_examples"
READERS = {
    "walk": ("certificates", "subpackets", "pieces of a literal", "blocks of armor", "data lines of four letters", "data lines of 63 letters", "data lines of 64 letters"),
    "certificates": ("certificates", "fillers", "user IDs", "octets of a user ID", "blocks of armor"),
    "verify": ("certificates with an issuer that is absent", "signatures", "signatures of a long user ID", "signatures with a time of a long user ID"),
    "rewrite": ("certificates", "user IDs"),
    "packets": ("certificates", "fillers", "octets of a user ID", "blocks of armor", "data lines of 64 letters", "pieces of a literal",
                "certificates behind a fault", "octets behind a fault"),
}
# Calls of the libraries, and the kinds of what each is given. Those of ARMORED are given a text.
CALLS = f"{HERE}/crates/opgp_calls/out/opgp_calls"
CUT_OFF = ("octets of a body that is cut off", "many octets of a body that is cut off")
CALLED = {
    "blocks": ("certificates", "fillers", "octets of a user ID"),
    "bodies": ("certificates", "user IDs", "signatures"),
    "ring": ("certificates", "fillers", "user IDs", "signatures"),
    "signed": ("signatures of a message",),
    "binary": ("certificates",),
    "armor": ("certificates", "octets of a user ID", "blocks of armor", "data lines of four letters", "data lines of 63 letters", "data lines of 64 letters"),
}
ARMORED = ("armor",)
# Ways of tests/lib/library.c, which makes all tables of a keyring by the library for C: of one that is read in one call, of each
# part of one that is pushed in one piece or in several, and of keyrings that are made of others.
IN_C = {
    "0": ("certificates", "certificates with an issuer that is absent", "fillers", "user IDs", "signatures", "signatures of a long user ID", "signed user IDs of a large key", "subkeys", "subpackets", "embedded signatures"),
    "1000000000": ("certificates",),
    "4099": ("user IDs", "certificates behind a fault", "octets behind a fault"),
    # Octet by octet; and that with lines of up to 2^20 octets.
    "1": (*CUT_OFF, "data lines of 64 letters"),
    "long": ("octets of a header",),
    "normalise": ("certificates", "fillers", "user IDs", "signatures"),
    "twice": ("certificates", "fillers", "fillers with bodies", "fillers with bodies before a key"),
    "chosen": ("certificates", "user IDs", "signatures"),
    **{way: ("certificates",) for way in ("merge", "end")},
    "armor": ("octets of a user ID",),
    "last": ("signatures", "certificates with an issuer that is absent"),
}
# The programs of the table that aren't the program itself.
OTHERS = ("opgp_examples", "opgp_calls", "library")
# Commands that read no keyring.
OF_DOCUMENTS = ("signatures", "canonical", "digest", "cleartext")
# What is tried where the things are no certificates.
SOME = ("show", "show --values", "list", "list --values", "check", "check --fingerprints", "octets --row LAST", "write --out binary")
SOME += (CHOSEN, OWN, "join --merge --out binary")


def is_tried(kind, command):
    """There is no row without a signature, and a literal is in no keyring. Long user IDs are there for `check`: it drops them, and hashes
    one once for all its signatures."""
    name, things = kind[0], kind[3]
    # Kinds that one command or two are for.
    own = {"message": ("octets --of literal --row LAST",), "signed": ("check",), "of a large key": ("split --key FIRST", "list"), "a header": ()}
    own |= {"subkeys": ("split --key FIRST", "list", "check", OWN), "embedded": ("check", "show", "octets --all")}
    own |= {"attributes": ("list", CHOSEN, KEEP), "of an attribute": ("list",), "of lists": ("show --values",)}
    own |= {"of an area": ("check", "octets --all", OWN, "show --values"), "bindings": ("check --fingerprints", "octets --all", OWN)}
    own |= {"malformed": ("list --malformed keep", "check --malformed keep"), "of a literal": ("octets --of literal --row 0",)}
    own |= {"of a text": ("show",), "refused": ("show", "check"), "cut off": ("show", "list"), "many cut off": (), "of fillers": (KEEP, "join --out binary"), "before a key": ()}
    own |= {"cleartext": ("cleartext --of document", "cleartext --of hashed", "cleartext --of signatures")}
    own |= {"detached": ("signatures",)}
    own |= {"a document": ("canonical", "canonical --spool ROOM", "digest --signatures DETACHED", "digest --signatures EQUAL")}
    if command in ALSO.get(name, ()):
        return True
    if command == "check --places":
        return name in ("certificates", "user IDs", "signatures")
    if command.startswith("state"):
        return name in ("certificates", "user IDs", "signatures") or things == "subkeys"
    if things in own or "literal --row" in command or "--malformed" in command or command.split()[0] in OF_DOCUMENTS:
        return command in own.get(things, ())
    if "long" in name:
        return command == "check"
    if command.startswith("octets"):
        return "issuer" in name or name == "signatures"
    if "--spool" in command:
        return things == "certificates" or things == "packets" and command.startswith("show")
    return (command in SOME or things == "certificates") and (command.startswith("show") or name != "pieces of a literal")


class Case:
    """A command over inputs of a kind."""

    def __init__(self, runner, shim, room, words, octets, is_counted=True):
        words = words.replace("ROOM", room).replace("DETACHED", f"{HERE}/examples/rfc9580-a2.asc").replace("EQUAL", f"{room}/equal")
        self.runner, self.shim, self.words, self.octets = runner, shim, words.split(), octets
        self.instructions = self.counted(room) if is_counted else 0
        ended = runner.run(self.words, octets, {"LD_PRELOAD": shim})
        self.status, self.text = ended.status, len(ended.out)
        self.most, self.asked = map(int, ended.told.split()[-2:])

    def counted(self, room):
        """The instructions of a run."""
        path = f"{room}/input.{os.getpid()}"
        with open(path, "wb") as out:
            out.write(self.octets)
        with open(path, "rb") as source:
            said = subprocess.run(
                ["valgrind", "--tool=callgrind", "--callgrind-out-file=/dev/null", self.runner.path, *self.words],
                stdin=source, stdout=subprocess.DEVNULL, stderr=subprocess.PIPE, check=False,
            ).stderr.decode(errors="replace")
        return int((re.search(r"Collected : (\d+)", said) or ["", "0"])[1])


def in_armor(make):
    """The same input as a text, if it isn't one."""
    return lambda n: octets if (octets := make(n))[0] < 128 else armored(octets, 64)


def in_call(name, make):
    """The line of a call that is given the input."""
    return lambda n: f"{name} {make(n).hex()}\n".encode()


def sized(make):
    """The input behind its length, as tests/lib/library.c reads it."""
    return lambda n: len(octets := make(n)).to_bytes(4, "big") + octets


def made_in_c(room):
    """tests/lib/library.c over the library for C."""
    subprocess.run(["make", "-C", HERE, f"{room}/libopgp.a", f"made={room}"], stdout=subprocess.DEVNULL, check=True)
    words = ["cc", "-std=c11", "-O2", f"-I{HERE}/c", f"{HERE}/tests/lib/library.c", f"{room}/libopgp.a", "-o", f"{room}/library"]
    subprocess.run(words, check=True)
    return f"{room}/library"


def instructions_of_nothing(work):
    """Those of a run on an empty input, and what its heap held and asked for."""
    program, shim, room, command = work
    runner = Runner(program)
    empty = Case(runner, shim, room, command.replace("LAST", "0").replace("FIRST", 16 * "0"), b"")
    runner.close()
    return empty.instructions, empty.most, empty.asked


def kit():
    """The kit that the programs are built with."""
    return subprocess.run(["rt", "version"], capture_output=True, text=True, check=True).stdout.strip()


def kept():
    """The table of tests/program/work.txt: for each row of a program the most that it may take; and whether it is of this kit."""
    rows, shares, is_other = {}, None, True
    with open(KEPT, encoding="utf-8") as table:
        for line in map(str.rstrip, table):
            if line.startswith(KIT):
                is_other = line[len(KIT) :] != kit()
                shares = [(more[is_other], start) for _, more, start in MORE]
            elif not line.startswith("#"):
                *row, numbers = line.split("; ")
                rows[tuple(row)] = [int(share * int(it) + start) for it, (share, start) in zip(numbers.split(), shares)]
    return rows, not is_other


def past(row, took, table):
    """What is past the table's row."""
    if row not in table:
        return [f"tests/program/work.txt has no row for {'; '.join(row)}"]
    held = zip(MORE, took, table[row])
    return [f"{now} {what}, where tests/program/work.txt allows {most}" for (what, *_), now, most in held if now > most]


def row_of(program, command, number):
    """How the table names a row."""
    return own if (own := os.path.basename(program)) in OTHERS else "opgp", command, KINDS[number][0]


def tried(work):
    """A row: what was counted, and what doesn't hold."""
    program, shim, room, number, command, (nothing, least, fewest), table, is_of_kit = work
    name, count, make, things = KINDS[number]
    bounded = things == "certificates" and command != KEEP or things == "packets" and command.startswith("show")
    if program == LIBRARY:
        make, bounded = in_armor(make), False
    if program == CALLS:
        # Half as many things, since the calls are many.
        make, bounded, count = in_call(command, in_armor(make) if command in ARMORED else make), False, count // 2
    if os.path.basename(program) == "library":
        # Fewer things, since all tables are made of each keyring, and of each that is made.
        make, bounded, count = sized(make), False, max(1, count // (8 if command in ("0", "1000000000", "long") else 32))
    runner = Runner(program)
    words = [command.replace("LAST", str(n - 1)).replace("FIRST", key_id(make(1))) for n in (count, 4 * count)]
    row = row_of(program, command, number)
    is_counted = not is_of_kit or table is None or row not in table
    one, four = (Case(runner, shim, room, it, make(n), n > count or is_counted) for it, n in zip(words, (count, 4 * count)))
    runner.close()
    wrong = []
    if (one.status, four.status) != (int(things in ("refused", "cut off") and row[0] in ("opgp", "opgp_examples")),) * 2:
        wrong.append(f"statuses {one.status} and {four.status}")
    spent = [max(it.instructions - nothing, 1) for it in (one, four)]
    if not nothing or is_counted and spent[1] > (4.8 if "merge" in command else 4.6) * spent[0]:
        wrong.append(f"{spent[0]} instructions, then {spent[1]}")
    for what, a, b, c in (("held", least, one.most, four.most), ("asked for", fewest, one.asked, four.asked)):
        if c - a > 5 * (b - a) + PIECE:
            wrong.append(f"{b - a} octets {what}, then {c - a}")
    held = [0 if "--spool" in command else it.text if command != "write" else len(it.octets) for it in (one, four)]
    if command in CHECKED:
        held = [CHECKED[command] * count, CHECKED[command] * 4 * count]
    if bounded:
        for it, text in zip((one, four), held):
            if it.most > text + PIECE:
                wrong.append(f"{it.most} octets held for a text of {text}")
    is_announced = "cut off" in things
    if is_announced and max(four.most - least, four.asked - fewest) > 4 * len(four.octets) + PIECE:
        wrong.append(f"{four.asked - fewest} octets asked for of an input of {len(four.octets)}")
    took = [spent[1], four.most, four.asked]
    if table is not None:
        wrong += past(row, took, table)
    told = f"{name}; {command}; {spent[0]} {spent[1]}; {one.most} {four.most}; {one.asked} {four.asked}; {one.text} {four.text}"
    return row, took, 3 + is_counted + 2 * bounded + is_announced + len(MORE) * (table is not None), wrong, told


def write_rows(out, rows):
    for row, took, *_ in rows:
        out.write("; ".join((*row, " ".join(map(str, took)))) + "\n")


def main():
    words = argparse.ArgumentParser(prog="tests/program/work.py", description=__doc__.split("\n\n", maxsplit=1)[0])
    words.add_argument("--jobs", type=int, default=len(os.sched_getaffinity(0)))
    words.add_argument("--program")
    words.add_argument("--measure", action="store_true")
    words.add_argument("--write", action="store_true")
    words.add_argument("--add", action="store_true")
    words = words.parse_args()
    program = words.program or built("tests/program/work.py")
    for it in (LIBRARY, CALLS):
        if not os.access(it, os.X_OK):
            print(f"tests/program/work.py: {os.path.relpath(it, HERE)} isn't built: rt ci builds it\n0 passed, 1 failed")
            return 1
    with tempfile.TemporaryDirectory(prefix="work-") as room:
        shim = f"{room}/work.so"
        with open(f"{room}/equal", "wb") as out:
            out.write((b"\xc2\x0e" + SIGNATURE[:1] + b"\0" + SIGNATURE[2:]) * 64)
        subprocess.run([os.environ.get("CC") or "cc", "-O1", "-shared", "-fPIC", "-o", shim, f"{HERE}/tests/program/work.c"], check=True)
        with multiprocessing.Pool(words.jobs) as pool:
            below = ((LIBRARY, READERS), (CALLS, CALLED), (made_in_c(room), IN_C))
            runs = [(program, it) for it in COMMANDS] + [(path, it) for path, table in below for it in table]
            nothing = pool.map(instructions_of_nothing, [(path, shim, room, it) for path, it in runs], chunksize=1)
            empty = dict(zip(runs, nothing))
            pairs = [(program, it, n) for n in range(len(KINDS)) for it in COMMANDS if is_tried(KINDS[n], it)]
            for path, table in below:
                pairs += [(path, it, n) for it, names in table.items() for n in range(len(KINDS)) if KINDS[n][0] in names]
            table, is_of_kit = (None, False) if words.write else kept()
            if words.add:
                pairs = [it for it in pairs if row_of(*it) not in table]
            work = [(path, shim, room, n, it, empty[path, it], None if words.add else table, is_of_kit and not words.measure) for path, it, n in pairs]
            rows = pool.map(tried, work, chunksize=1)
    passed = failed = 0
    for (_, command, name), _, held, wrong, told in rows:
        if words.measure:
            print(told)
        failed += len(wrong)
        passed += held - len(wrong)
        for it in wrong:
            print(f"tests/program/work.py: {command} over {name}: {it}: FAILED", file=sys.stderr)
    if words.write:
        with open(KEPT, "w", encoding="utf-8") as out:
            out.write("# program; command; things of the input: instructions, octets held at most, octets asked for in all. tests/program/work.py --write.\n")
            out.write(f"{KIT}{kit()}\n")
            write_rows(out, rows)
    if words.add:
        with open(KEPT, "a", encoding="utf-8") as out:
            write_rows(out, rows)
    print(f"{passed} passed, {failed} failed")
    return 1 if failed or not passed else 0


if __name__ == "__main__":
    sys.exit(main())
