#!/usr/bin/env python3
"""Runs the program on made and broken inputs, and tries what must hold of every input.

Usage: tests/program/fuzz.py [--seed N] [--inputs N] [--first N] [--only NAME] [--jobs N] [--seconds N] [--program FILE]
                  [--keep FOLDER]
       tests/program/fuzz.py [--program FILE] FILE..

Input number n of a seed is always the same (tests/lib/inputs.py makes it): keyrings, signed literals and other packets, in
binary or armored, of which many are then broken; and cleartext messages of these. Each is tried by all PROPERTIES, among them the model,
or if it is large by the model and two others, so that few processes are started; or by the one that is named. With FILEs each of them is
tried by every property. A failure keeps its input in a file, and says the command that repeats it. Of 2,000 inputs or more, each fault and
each of the kinds of things that are WANTED must be met ten times. The last line counts the inputs.

A run ends with status 0 and nothing on standard error, or with 1, one line of a known form on standard error and nothing
on standard output. Which inputs are refused, and what each command writes, is held against tests/lib/model.py, of each input;
the other properties need no such thing: each says what it holds. Hashes and base64 come from Python's library.
"""

import argparse
import base64
import collections
import hashlib
import itertools
import multiprocessing
import os
import random
import re
import sys
import tempfile
import time

sys.dont_write_bytecode = True
sys.path.insert(0, f"{sys.path[0]}/../lib")

import cleartext  # noqa: E402
from inputs import fingerprint, input_of, key_id, keyring, packets  # noqa: E402
import model  # noqa: E402
from model import armor  # noqa: E402
from running import Runner, built  # noqa: E402

REASONS = {
    "input": "InputTooLong",
    "armor": "Outside NoBlock Label Header Letters Padding AfterChecksum EndLabel Unfinished LineTooLong",
    "framing": "NotAPacket TypeZero Compressed UnknownCritical Indeterminate Truncated PartialKind FirstPartial"
    " BodyTooLong TooManyPieces",
    "body": "Short MpiBits KeyVersion KeyTooLong Count OidSize KdfSize Trailing SubEmpty SubShort AreaShort SaltSize",
    "composition": "NoPrimary NotInKeyring CertTooLong NotASignedLiteral BlockLabel",
    "cleartext": "NoMessage Label Outside Header StrayReturn Unescaped NoText LineTooLong Unfinished",
}
REASONS = {layer: reasons.split() for layer, reasons in REASONS.items()}
OF_LIMITS = {"InputTooLong", "LineTooLong", "BodyTooLong", "TooManyPieces", "CertTooLong"}
HASHES = {2: "sha1", 8: "sha256", 9: "sha384", 10: "sha512", 11: "sha224"}
# What the lines of each command show: kinds of things, each by the fields that tell them apart.
SHOWN_KINDS = {
    "show": (
        ("packet", re.compile(r"^block \d+ at \d+ type (\d+) ", re.M)),
        ("form", re.compile(r" form (\w+) length \d+$", re.M)),
        ("subpacket", re.compile(r"^  (?:un)?hashed kind (\d+) critical \d length \d+ (typed|unfit)\b", re.M)),
        ("subpacket", re.compile(r"^  (?:un)?hashed kind .* (unknown)\b", re.M)),
        ("area", re.compile(r"^  ((?:un)?hashed) kind \d+ critical (\d) ", re.M)),
        ("literal", re.compile(r'^  lit format "(\w|\\x00)" ', re.M)),
        ("flag", re.compile(r" (certify|sign|encrypt-\w+|split|authenticate|group|no-modify|seipd\d)\b", re.M)),
        ("embedded", re.compile(r"^  (?:un)?hashed kind 32 .* typed sig (v\d|opaque)", re.M)),
    ),
    "list": (
        ("key", re.compile(r"^(pub|sub) (v\d) alg (\d+) ", re.M)),
        ("listed", re.compile(r"^(uid|uat \d|sig|pkt \d+) ?", re.M)),
        ("signature", re.compile(r"^sig (v\d|opaque)", re.M)),
        ("made by", re.compile(r"^sig (v\d) type .. alg (\d+) ", re.M)),
        ("stated", re.compile(r"^sig (v\d) .* created (?:\d+|(-)) issuer ", re.M)),
        ("named", re.compile(r"^sig (v\d) .* issuer (-) \S+$", re.M)),
        ("named", re.compile(r"^sig (v\d) .* issuer [0-9A-F]{16}() \S+$", re.M)),
        ("named print", re.compile(r"^sig (v\d) .* issuer (?:[0-9A-F]{40}|[0-9A-F]{64}) \S+$", re.M)),
    ),
    "check": (
        ("asked", re.compile(r" part (-)?.* nested (-)?.*: asked type (..) ", re.M)),
        ("hashed", re.compile(r": asked type .. hash (\d+) ", re.M)),
        ("signer", re.compile(r": asked type .. hash \d+ signer (?:\w+|(-)) ", re.M)),
        ("verdict", re.compile(r" verdict (\w+)$", re.M)),
        ("none", re.compile(r" nested (-)?.*: none (\w+)$", re.M)),
        ("print of 4", re.compile(r" [0-9A-F]{40} (?:[0-9A-F]+|(-))$", re.M)),
        ("print of 6", re.compile(r" [0-9A-F]{64} (?:[0-9A-F]+|(-))$", re.M)),
    ),
}  # fmt: skip


def each(form, *lists):
    """The form with each choice of words from the lists."""
    return [form.format(*it) for it in itertools.product(*lists)]


# The kinds that must be met: what the standard has a number for, and each answer that the documents name.
KEY_ALGORITHMS = (1, 2, 3, 16, 17, 18, 19, 22, 25, 26, 27, 28)
SIGNATURE_ALGORITHMS = (1, 3, 17, 19, 22, 27, 28)
WANTED = [
    *each("packet {}", (*range(1, 8), *range(9, 15), 17, 18, 21)),
    *each("form {}", "old1 old2 old4 new1 new2 new5 part".split()),
    *each("subpacket {} typed", model.KINDS),
    *each("subpacket {} unfit", [kind for kind, form in model.KINDS.items() if form != "octets"]),
    "subpacket unknown",
    *each("area {} {}", ("hashed", "unhashed"), (0, 1)),
    *each("literal {}", ("b", "t", "u", "\\x00")),
    *each("flag {}", "certify sign encrypt-communications encrypt-storage split authenticate group no-modify seipd1 seipd2".split()),
    *each("embedded {}", ("v3", "v4", "v6", "opaque")),
    *each("key {} {} {}", ("pub", "sub"), ("v4", "v6"), KEY_ALGORITHMS),
    *each("listed {}", ("uid", "uat 0", "uat 1", "uat 2", "sig", "pkt 10", "pkt 12", "pkt 21")),
    *each("signature {}", ("v3", "v4", "v6", "opaque")),
    *each("made by {} {}", ("v4", "v6"), SIGNATURE_ALGORITHMS),
    *each("made by v3 {}", (1, 3, 17)),
    *each("stated {}", ("v3", "v4", "v6", "v4 -", "v6 -")),
    *each("named {}", ("v3", "v4", "v6", "v4 -", "v6 -")),
    *each("named print {}", ("v4", "v6")),
    *each("asked - - {}", ("1F", "20")),
    *each("asked - {}", ("10", "11", "12", "13", "30", "18", "28")),
    "asked 19",
    *each("hashed {}", HASHES),
    *each("signer{}", ("", " -")),
    *each("verdict {}", ("bad", "undecided")),
    *each("print of {}{}", (4, 6), ("", " -")),
    *each("none {}{}", ("- ", ""), ("opaque", "kind", "misplaced", "version", "hash")),
]
TOLD = re.compile(rb"(?:opgp: (?:line (\d+): )?[^\n]+\n)?")
FAULT = re.compile(rb"(\w+): (\w+) block (\d+) at (\d+) inner (\d+)\n")
SHOWN = re.compile(r"^block (\d+) at (\d+) type (\d+) form (\w+) length (\d+)$", re.M)
ASKED = re.compile(r"asked type (..) hash (\d+) signer (\S+) digest (....) verdict (bad|undecided)")


class Wrong(Exception):
    """A property that doesn't hold."""


Answer = collections.namedtuple("Answer", "status out err fault")
Fault = collections.namedtuple("Fault", "layer reason block at inner")


def kinds_shown(command, out):
    """The kinds of things that a command's lines show, each as a text."""
    for what, pattern in SHOWN_KINDS.get(command, ()):
        for it in set(pattern.findall(out.decode("ascii"))):
            yield " ".join(filter(None, [what, *(it if isinstance(it, tuple) else (it,))]))


class Program:
    """Runs the program, and holds each answer to the forms that all have."""

    def __init__(self, path):
        self.runner, self.loud = Runner(path), Runner(path, quiet=False)
        self.met, self.kinds = collections.Counter(), collections.Counter()
        self.runs = 0

    def answer(self, words, ended):
        self.runs += 1
        status, out, err, _ = ended
        found = FAULT.fullmatch(err)
        fault = None
        if found:
            layer, reason, *places = (it.decode() for it in found.groups())
            fault = Fault(layer, reason, *map(int, places))
        name = " ".join(words)
        if status not in (0, 1):
            raise Wrong(f"{name}: status {status}, standard error {err[:200]!r}")
        if status == 0 and err:
            raise Wrong(f"{name}: status 0 with standard error {err[:200]!r}")
        if status == 1 and out:
            raise Wrong(f"{name}: refused with {len(out)} octets on standard output")
        if status == 1 and not known(words, err, fault):
            raise Wrong(f"{name}: refused with standard error {err[:200]!r}")
        self.met[fault.reason if fault else "accepted" if status == 0 else "no such one"] += 1
        self.kinds.update(kinds_shown(words[0], out))
        return Answer(status, out, err, fault)

    def run(self, words, octets):
        """The answer to these octets."""
        words = words.split()
        return self.answer(words, self.runner.run(words, octets))

    def run_in_pieces(self, words, pieces):
        """The answer to the pieces, each of which one read gives."""
        words = words.split()
        return self.answer(words, self.runner.run_in_pieces(words, pieces))

    def accepts(self, words, octets):
        answer = self.run(words, octets)
        if answer.status:
            raise Wrong(f"{words}: refuses what another run has accepted or written: {answer.err!r}")
        return answer.out


def known(words, err, fault):
    """Whether a refusal's line is one that these words may have."""
    if fault:
        deep = fault.layer in ("framing", "body")
        return fault.reason in REASONS.get(fault.layer, ()) and (deep or fault.inner == 0)
    if words[0] == "octets":
        return err == b"opgp: no such row\n"
    return words[0] == "split" and ("--nth" in words or "--key" in words) and err == b"opgp: no such certificate\n"


def same(what, one, other):
    if one != other:
        raise Wrong(f"{what}: {str(one)[:300]} and {str(other)[:300]}")


# What must hold.


def is_binary(octets):
    return not octets or octets[0] >= 128


def joined_letters(octets):
    """The octets of all blocks of a text that was accepted."""
    out, where, letters = b"", "outside", b""
    for line in octets.split(b"\n"):
        content = line.rstrip(b" \t\r")
        if where == "outside":
            if line.startswith(b"-----BEGIN PGP "):
                where, letters = "headers", b""
        elif where == "headers":
            if not content:
                where = "data"
        elif content.startswith(b"-"):
            out += base64.b64decode(letters)
            where = "outside"
        elif not content.startswith(b"="):
            letters += content
    return out


def packet_octets(octets):
    return octets if is_binary(octets) else joined_letters(octets)


def some_packet_octets(octets):
    """Octets for a binary input or a block, made of any input: those of its packets where it has some."""
    try:
        return packet_octets(octets)
    except ValueError:
        return b"\xc6" + octets


def written_again(program, rng, octets):
    """What is written is the input's packet octets: in binary they themselves, else one block of armor."""
    answer = program.run("write --out binary", octets)
    if answer.status == 0:
        same("write --out binary", answer.out, packet_octets(octets))
        same("write", program.accepts("write", octets), armor(answer.out))


def normal_twice(program, rng, octets):
    """To normalise twice is to do it once; each length is then in its shortest form, and the lines are the input's."""
    answer = program.run("normalise --out binary", octets)
    if answer.status == 0:
        for _, at, _, form, size in SHOWN.findall(program.accepts("show", answer.out).decode()):
            n = int(size)
            same(f"form of what is normal, at {at}", form, "new1" if n < 192 else "new2" if n < 8384 else "new5")
        same("normalise, twice", program.accepts("normalise --out binary", answer.out), answer.out)
        same("list, of what is normal", program.accepts("list", answer.out), program.accepts("list", octets))


def split_and_joined(program, rng, octets):
    """Certificates that are split and joined are the keyring without its lead; each can be had alone."""
    answer = program.run("split", octets)
    if answer.status == 0:
        alone = program.accepts("split --out binary", octets)
        same("split, then join", program.accepts("join --out binary", answer.out), alone)
        whole = program.accepts("join --out binary", octets)
        if not whole.endswith(alone):
            raise Wrong("split: its certificates aren't the end of the keyring")
        blocks = answer.out.count(b"-----BEGIN")
        nth = rng.randrange(blocks + 1)
        one = program.run(f"split --nth {nth}", octets)
        if nth == blocks:
            same("split of no certificate", one.err, b"opgp: no such certificate\n")
        else:
            begin = b"-----BEGIN"
            same("split --nth", one.out, begin + answer.out.split(begin)[nth + 1])


def chosen_by_key(program, rng, octets):
    """The certificates with one of some keys are those of the split under which it is listed, whether by its fingerprint or its key ID;
    so are all but those. Each key must be there."""
    answer = program.run("split", octets)
    if answer.status == 0:
        alone = [b"-----BEGIN" + it for it in answer.out.split(b"-----BEGIN")[1:]]
        names = []
        for line in program.accepts("list", octets).decode().split("\n"):
            if line.startswith("pub "):
                names.append([])
            if line.startswith(("pub ", "sub ")):
                names[-1] += line.split(" ")[6:8]
        some, leaves = sum(names, []), rng.random() < 0.4
        keys = [rng.choice(some) if some and rng.random() < 0.9 else rng.choice((16, 40, 64)) * "0" for _ in range(rng.choice((1, 1, 2, 3)))]
        chosen = b"".join(one for one, found in zip(alone, names) if leaves == (not {*keys} & {*found}))
        said = "".join(f" --key {rng.choice((it, it.lower(), f'0x{it}'))}" for it in keys)
        one = program.run(f"split{said}{' --except' * leaves}", octets)
        wanted = (0, chosen, b"") if {*keys} <= {*some} else (1, b"", b"opgp: no such certificate\n")
        same("split --key", (one.status, one.out, one.err), wanted)


def chosen_parts(program, rng, octets):
    """To choose again by the same flags changes nothing, and to choose by one after the other is to choose by both; of the user IDs the one
    stays, with what hangs on it, and nothing else goes."""
    whole = program.run("list", octets)
    if whole.status:
        return
    once = program.accepts("write --own-signatures --no-attributes --out binary", octets)
    for words in ("--no-attributes --own-signatures", "--own-signatures", "--no-attributes"):
        same(f"write {words}, again", program.accepts(f"write {words} --out binary", once), once)
    first, then = rng.sample(("--own-signatures", "--no-attributes"), 2)
    same("one after the other", program.accepts(f"write {then} --out binary", program.accepts(f"write {first}", octets)), once)
    number, names, head, rest = rng.choice((0, 0, 1, 2)), 0, "", []
    for line in whole.out.decode().split("\n")[:-1]:
        word = line.split(" ")[0]
        if word == "pub":
            names = 0
        names += word == "uid"
        head = word if word in ("pub", "sub", "uid", "uat") else head
        if head != "uid" or names == number + 1:
            rest.append(line)
    one = program.accepts("list", program.accepts(f"write --user-id {number}", octets))
    same("list of one user ID", one.decode().split("\n")[:-1], rest)


def armored_alike(program, rng, octets):
    """Packets in armor and in binary are answered alike, with the same line where they are at fault."""
    octets = some_packet_octets(octets)
    words = rng.choice(("list", "check", "normalise", "octets --row 0", "split --out binary", "join"))
    same(f"{words}, in armor", program.run(words, armor(octets)), program.run(f"{words} --mode binary", octets))
    label = rng.choice((b"MESSAGE", b"SIGNATURE", b"PRIVATE KEY BLOCK"))
    same("show, in armor", program.run("show", armor(octets, label)), program.run("show --mode binary", octets))


def shown_apart(program, rng, octets):
    """Packets in two blocks are those of one; a fault is in its block."""
    octets = some_packet_octets(octets)
    shown = program.run("show --mode binary", octets)
    cuts = [int(at) for _, at, *_ in SHOWN.findall(shown.out.decode())] or [0]
    cut = rng.choice(cuts)
    words = rng.choice(("list", "check", "octets --row 0 --of literal"))
    one = program.run(f"{words} --mode binary", octets)
    label = b"MESSAGE" if "literal" in words else b"PUBLIC KEY BLOCK"
    two = program.run(words, armor(octets[:cut], label) + armor(octets[cut:], label))
    if one.fault:
        later = one.fault.at >= cut
        moved = one.fault._replace(block=int(later), at=one.fault.at - cut if later else one.fault.at)
        same(f"{words}, in two blocks at {cut}", two.fault, moved)
    else:
        same(f"{words}, in two blocks at {cut}", two, one)


def cut_alike(program, rng, octets):
    """However reads are cut, the answer is the same."""
    octets = octets[:60_000]
    words = rng.choice(("list", "show", "check", "write", "split", "octets --row 0", "octets --row 0 --of literal"))
    cuts = {rng.randrange(1, len(octets)) for _ in range(rng.choice((1, 3, 100)))} if len(octets) > 1 else set()
    if len(octets) <= 150 or rng.random() < 0.3:
        start = rng.randrange(max(1, len(octets) - 150))
        cuts |= set(range(start + 1, min(len(octets), start + 150)))
    cuts = [0, *sorted(cuts)]
    pieces = [octets[a:b] for a, b in zip(cuts, [*cuts[1:], len(octets)]) if a < b]
    same(f"{words}, in {len(pieces)} pieces", program.run_in_pieces(words, pieces), program.run(words, octets))


def commands_alike(program, rng, octets):
    """All commands over a keyring refuse it with one line or accept it; one that shows packets refuses for less."""
    words = ["list", "check", "write", "write --out binary", "normalise", "normalise --out binary", "split", "join"]
    one, other = (program.run(it, octets) for it in rng.sample(words, 2))
    same("two commands", one.fault, other.fault)
    shown = program.run("show", octets)
    if shown.fault or (one.fault and one.fault.layer != "composition"):
        same("show, beside a keyring's commands", shown.fault, one.fault)


def merged(program, rng, octets):
    """Merging again changes nothing, nor does a keyring behind itself; keys and what is asked stay, as sets."""
    alone = program.run("split --out binary", octets)
    if alone.status:
        return
    once = program.accepts("join --merge --out binary", alone.out)
    same("merged again", program.accepts("join --merge --out binary", once), once)
    same("merged with itself", program.accepts("join --merge --out binary", alone.out * 2), once)
    of_keys = re.compile(rb"^(?:pub|sub) .*", re.M)
    same("keys", *({*of_keys.findall(program.accepts("list", it))} for it in (alone.out, once)))
    found = re.compile(rb" : (?:(asked type .. hash \d+) signer \S+ (digest ....) verdict \w+|(none \w+))")
    same("what is asked", *({*found.findall(program.accepts("check", it))} for it in (alone.out, once)))


def listed(program, rng, octets):
    """A listing has a line a packet, in order, of its type; the fingerprints are the hashes of the keys' bodies."""
    answer = program.run("list", octets)
    if answer.status:
        return
    binary = packet_octets(octets)
    shown = SHOWN.findall(program.accepts("show --mode binary", binary).decode())
    lines = answer.out.decode().split("\n")[:-1]
    same("lines of list and show", len(lines), len(shown))
    ends = [int(it[1]) for it in shown[1:]] + [len(binary)]
    words = {"6": "pub", "14": "sub", "13": "uid", "17": "uat", "2": "sig"}
    for line, (_, _, kind, _, size), end in zip(lines, shown, ends):
        same("type of a line", line.split(" ")[0], words.get(kind, "pkt"))
        body = binary[end - int(size) : end]
        if kind in ("6", "14"):
            fields = [f"v{body[0]}", "alg", str(body[5]), "created", str(int.from_bytes(body[1:5], "big"))]
            same("line of a key", line.split(" ")[1:], fields + [fingerprint(body).hex().upper(), key_id(body).hex().upper()])


def hashed(program, rng, octets):
    """The digest of a row is the hash of the octets that are written of it; a row that asks nothing has none."""
    answer = program.run("check", octets)
    if answer.status:
        return
    rows = answer.out.decode().split("\n")[:-1]
    for n, row in enumerate(rows):
        same("number of a row", row.split(" ")[1], str(n))
    n = rng.randrange(len(rows) + 1)
    asked = [it for it in range(len(rows)) if "asked" in rows[it]]
    if asked and rng.random() < 0.8:
        n = rng.choice(asked)
    about = program.run(f"octets --row {n}", octets)
    found = ASKED.search(rows[n]) if n < len(rows) else None
    if not found:
        same("octets of no question", about.err, b"opgp: no such row\n")
        return
    kind, hash_number, _, digest, _ = found.groups()
    same("digest", hashlib.new(HASHES[int(hash_number)], about.out).hexdigest()[:4].upper(), digest)
    ends_well(about.out, int(kind, 16))


def hashed_by_all(program, rng, octets):
    """octets --all writes the octets of each row that check says is asked, as octets --row does, behind a line with its number."""
    answer, found = program.run("octets --all", octets), program.run("check", octets)
    same("octets --all, beside check", answer.fault, found.fault)
    if found.status:
        return
    out = answer.out
    asked = [n for n, row in enumerate(found.out.decode().split("\n")[:-1]) if ASKED.search(row)]
    shown = rng.choice(asked) if asked else None
    for n in asked:
        line, _, out = out.partition(b"\n")
        words = line.split(b" ")
        same("line of octets --all", words[:3], [b"row", str(n).encode(), b"length"])
        size = int(words[3])
        if n == shown:
            same("octets --all, beside octets --row", out[:size], program.accepts(f"octets --row {n}", octets))
        ends_well(out[:size])
        out = out[size:]
    same("end of octets --all", out, b"")


DATE = r" \d{4}-\d\d-\d\dT\d\d:\d\d:\d\dZ"
SIZE = r"(\d+|[a-z]+[0-9]\w*|oid:[0-9A-F]+|-)"
# What a line of list goes on with in list --values, by what it begins with.
MORE = {
    "pub ": f"{DATE} size {SIZE}",
    "sub ": f"{DATE} size {SIZE}",
    "sig v": rf" left [0-9A-F]{{4}} created (\d+ issuer NAME{DATE}|- issuer NAME -)".replace("NAME", "([0-9A-F]{16}|[0-9A-F]{40}|[0-9A-F]{64}|-)"),
}


def malformed_kept(program, rng, octets):
    """Only a body's fault is answered in another way with --malformed keep; what is read then is written as it was, and the lines of
    list --values are those of list, where keys and signatures that aren't opaque say more."""
    words = ("list", "list --values", "show", "check", "check --fingerprints", "check --places", "octets --all", "write --out binary", "join", "octets --row 0 --of literal")
    words = rng.choice(words)
    usual, kept = program.run(words, octets), program.run(f"{words} --malformed keep", octets)
    same(f"{words} --malformed refuse", program.run(f"{words} --malformed refuse", octets), usual)
    if not usual.fault or usual.fault.layer != "body":
        same(f"{words} --malformed keep", kept, usual)
    written = program.run("write --out binary --malformed keep", octets)
    if written.status == 0 and is_binary(octets):
        same("what is kept", written.out, octets)
    if written.status == 0:
        lines = program.accepts("list --malformed keep", octets).decode().split("\n")
        stated = program.accepts("list --values --malformed keep", octets).decode().split("\n")
        for one, other in zip(lines, stated):
            more = MORE.get(one[:5] if one.startswith("sig v") else one[:4], "")
            if not other.startswith(one) or not re.fullmatch(more, other[len(one) :]):
                raise Wrong(f"list --values: {other!r} for {one!r}")
        same("lines of list and list --values", len(lines), len(stated))


def with_fingerprints(program, rng, octets):
    """The lines of check --fingerprints are those of check, and go on with the fingerprint of the primary key that stands in its
    certificate's place in list, and with the signer's, which is that of a listed key with its key ID; `-` where no signer is named."""
    answer, found = program.run("check --fingerprints", octets), program.run("check", octets)
    same("check --fingerprints, beside check", answer.fault, found.fault)
    if found.status:
        return
    keys = [line.split(" ") for line in program.accepts("list", octets).decode().split("\n") if line[:4] in ("pub ", "sub ")]
    primaries = [it[6] for it in keys if it[0] == "pub"]
    lines, rows = answer.out.decode().split("\n"), found.out.decode().split("\n")
    same("lines of check --fingerprints", len(lines), len(rows))
    for line, row in zip(lines[:-1], rows[:-1]):
        certificate, signer = line[len(row) :].split(" ")[1:]
        same("line of check --fingerprints", line, f"{row} {certificate} {signer}")
        same("fingerprint of the certificate", certificate, primaries[int(row.split(" ")[3])])
        asked = ASKED.search(row)
        named = asked.group(3) if asked else "-"
        if named == "-" or signer == "-":
            same("no fingerprint of a signer", signer, named)
        elif [signer, named] not in [it[6:8] for it in keys]:
            raise Wrong(f"fingerprint of the signer: {line!r}")


def with_places(program, rng, octets):
    """The lines of check --places are those of check, and go on with the number of a line of list, which is a signature's, and with the
    number of the last user ID before it, from the certificate's first on; `-` where the last key, user ID or attribute is no user ID."""
    answer, found = program.run("check --places", octets), program.run("check", octets)
    same("check --places, beside check", answer.fault, found.fault)
    if found.status:
        return
    heads, ids, on = [], 0, "-"
    for line in program.accepts("list", octets).decode().split("\n")[:-1]:
        kind = line[:4]
        if kind == "pub ":
            ids = 0
        if kind in ("pub ", "sub ", "uid ", "uat "):
            on = ids if kind == "uid " else "-"
            ids += kind == "uid "
        heads.append((kind, on))
    lines, rows = answer.out.decode().split("\n"), found.out.decode().split("\n")
    same("lines of check --places", len(lines), len(rows))
    for line, row in zip(lines[:-1], rows[:-1]):
        _, _, number, _, user_id = line[len(row) :].split(" ")
        same("line of check --places", line, f"{row} packet {number} user-id {user_id}")
        same("packet of a row", heads[int(number)], ("sig ", int(user_id) if user_id != "-" else user_id))


def ends_well(octets, kind=None):
    """Hashed octets end in the version, FF and the length of the signature's front, which begins with the version."""
    version, ff, n = octets[-6], octets[-5], int.from_bytes(octets[-4:], "big")
    front = octets[-6 - n : -6]
    if ff != 255 or version not in (4, 6) or front[:1] != bytes([version]) or kind not in (None, front[1]):
        raise Wrong(f"octets: the end of what is hashed is {octets[-40:].hex()}")


def literals(program, rng, octets):
    """A signed literal's packets are those that show lists; what is hashed begins with its content."""
    answer = program.run(f"octets --row {rng.choice((0, 0, 0, 1, 2))} --of literal", octets)
    shown = program.run("show", octets)
    if answer.fault is None:
        same("show of a signed literal", shown.status, 0)
    elif answer.fault.layer != "composition":
        same("show of a fault below", shown.fault, answer.fault)
    if answer.status == 0:
        ends_well(answer.out, 0)


def modes_alike(program, rng, octets):
    """The first octet tells the mode."""
    words = rng.choice(("list", "show", "join"))
    mode = "binary" if is_binary(octets) else "armor"
    same(f"{words} --mode {mode}", program.run(f"{words} --mode {mode}", octets), program.run(words, octets))


def limits_alike(program, rng, octets):
    """A lower limit changes nothing, or refuses as that limit does."""
    words = rng.choice(("list", "show", "check"))
    usual = program.run(words, octets)
    size = len(octets)
    at_limit = program.run(f"{words} --input {size}", octets)
    same(f"{words} --input {size}", at_limit, usual)
    if size:
        past = program.run(f"{words} --input {size - 1}", octets)
        same("an octet too many", past.fault, Fault("input", "InputTooLong", 0, size - 1, 0))
    lower = rng.choice(("--line 128", "--body 512", "--cert 512", f"--cert {512 + rng.randrange(3000)}", "--pieces 1", "--pieces 3"))
    answer = program.run(f"{words} {lower}", octets)
    if not answer.fault or answer.fault.reason not in OF_LIMITS:
        same(f"{words} {lower}", answer, usual)


def faults_stay(program, rng, octets):
    """Octets behind a packet's fault change nothing, but where octets were missing."""
    if not is_binary(octets):
        return
    answer = program.run("list", octets)
    behind = rng.choice((rng.randbytes(20), b"".join(packets(rng)), b"\0"))
    if answer.fault and answer.fault.layer == "framing" and answer.fault.reason != "Truncated":
        same("a fault, with octets behind", program.run("list", octets + behind), answer)
    if answer.fault and answer.fault.layer == "body":
        same("a fault, with a packet behind", program.run("list", octets + b"\xc6\x01\x03"), answer)


# The longest line that the usual limits allow, without its line feed.
USUAL_LINE = 8_192


def blanks_ignored(program, rng, octets):
    """Blanks before line ends, and lines outside of blocks, change places in the text alone."""
    if is_binary(octets) or any(it.rstrip(b" \t\r") == b"-----BEGIN PGP" for it in octets.split(b"\n")):
        return
    blanked = octets.replace(b"\n", b" \t\r\n")
    other = rng.choice((b"", b"Hello\n", b"x" * 9000 + b"\n", b" -----BEGIN PGP MESSAGE-----\n")) + blanked
    words = rng.choice(("list", "show"))
    one, two = program.run(words, octets), program.run(words, other)
    if two.fault and two.fault.reason == "LineTooLong" and max(map(len, blanked.split(b"\n"))) > USUAL_LINE:
        return
    if one.fault and two.fault:
        if two.fault.reason != "LineTooLong":
            same("with blanks", (one.fault.reason, one.fault.block, one.fault.inner), (two.fault.reason, two.fault.block, two.fault.inner))
    else:
        same("with blanks", one, two)


def outside_refused(program, rng, octets):
    """With --outside refuse the answer is the usual one, or names the first line outside of blocks that isn't blank."""
    words = rng.choice(("list", "show", "join"))
    usual = program.run(words, octets)
    same(f"{words} --outside skip", program.run(f"{words} --outside skip", octets), usual)
    strict = program.run(f"{words} --outside refuse", octets)
    if is_binary(octets) or not strict.fault or strict.fault.reason not in ("Outside", "LineTooLong"):
        same(f"{words} --outside refuse", strict, usual)
        return
    if strict.fault.reason == "LineTooLong":
        return
    at = strict.fault.at
    line = octets[at:].split(b"\n")[0]
    if not line.strip(b" \t\r") or line.startswith(b"-----BEGIN PGP ") or octets[at - 1 : at] not in (b"", b"\n"):
        raise Wrong(f"{words} --outside refuse: no such line at {at}")
    before = program.run(f"{words} --outside refuse", octets[:at])
    if before.fault and before.fault.reason == "Outside":
        raise Wrong(f"{words} --outside refuse: another line is before {at}")
    without = octets[:at] + octets[at + len(line) + 1 :]
    same("without that line", program.run(f"{words} --mode armor", without).out, usual.out)


def behind_each_other(program, rng, octets):
    """Two keyrings behind each other list as both do."""
    other = b"".join(keyring(rng))
    one = program.run("list", octets)
    if one.status == 0:
        two = program.run("list", other)
        if not is_binary(octets):
            other = b"\n" + armor(other)
        both = program.run("list", octets + other)
        if two.status == 0:
            same("list of two keyrings", both.out, one.out + two.out)
        elif two.fault.reason != "NoPrimary":
            same("reason of the second keyring", both.fault and both.fault[:2], two.fault[:2])


def told_beside(program, rng, octets):
    """Without --quiet the first line, the output and the status are the same. What is told behind it names the line at fault, or how many
    octets lie outside of blocks; of what was read to its end nothing else is told."""
    words = rng.choice(("list", "show", "join", "split --nth 0", "list --outside refuse"))
    usual = program.run(words, octets)
    status, out, err, _ = program.loud.run(words.split(), octets)
    if (status, out, err[: len(usual.err)]) != usual[:3]:
        raise Wrong(f"{words}: --quiet changes more than what is told: {err[:200]!r}")
    told = TOLD.fullmatch(err[len(usual.err) :])
    if not told:
        raise Wrong(f"{words}: tells {err!r}")
    if not usual.fault:
        outside = 0 if is_binary(octets) else outside_of_blocks(octets)
        wanted = b"opgp: the input is empty\n" if not octets else b"opgp: %d octets outside of armored blocks were skipped; read a binary file by itself\n" % outside if outside else b""
        same(f"{words}: what is told", told[0], wanted)
    elif not told[0]:
        raise Wrong(f"{words}: tells nothing of {usual.fault}")
    elif usual.fault.layer == "armor" and usual.fault.reason not in ("NoBlock", "Unfinished"):
        known = usual.fault.at < min(len(octets), 65_536)
        same(f"{words}: the line at fault", told[1] and int(told[1]), 1 + octets[: usual.fault.at].count(b"\n") if known else None)


# The armor behind a cleartext message: of a signature of a type that no document has.
SIGNATURES = armor(b"\xc2\x0e\4\x1f\x16\x08\0\0\0\0\xab\xcd\0\0\0\0", b"SIGNATURE")


def message_of(rng, octets):
    """A cleartext message of these octets or of a few letters, in which something may be odd."""
    if rng.random() < 0.03:
        return rng.choice((b"", b"\n", b" \t\r\n\n"))
    text = octets if rng.random() < 0.3 else bytes(rng.choices(b"a- \t\r\n", (6, 3, 2, 1, 0.3, 4), k=rng.randrange(40)))
    text = re.sub(rb"(?m)^-", b"- -", text) if rng.random() < 0.9 else text
    front = rng.choice((b"",) * 8 + (b"\n \t\r\n", b"text\n", b"-----BEGIN PGP MESSAGE-----\n"))
    head = rng.choice((b"", b"Hash: SHA512, SHA1 \t\r\n", b"Hash: SHA256,\n", b"Comment: a\n") + (b"Hash: SHA256\n",) * 8)
    made = front + b"-----BEGIN PGP SIGNED MESSAGE-----\n" + head + b"\n" + (text + b"\n") * (rng.random() < 0.95) + SIGNATURES
    if rng.random() < 0.4:
        at = rng.randrange(len(made) + 1)
        return made[:at] + rng.choice((b"", b"\r", b"-", b" ", b"\n", b"a" * 8_200)) + made[at + rng.choice((0, 1, len(made))) :]
    return made


def cleartexts(program, rng, octets):
    """A cleartext message is read as tests/lib/cleartext.py reads it; a fault behind its document is one of another layer."""
    message = message_of(rng, octets)
    answer, found, place = cleartext.read(message, USUAL_LINE)
    document, hashed_octets, signatures = (program.run(f"cleartext --of {it}", message) for it in ("document", "hashed", "signatures"))
    same("faults of a message", (document.fault, document.fault), (hashed_octets.fault, signatures.fault))
    if answer == "fault":
        same("a fault of a message", document.fault, Fault("cleartext", found, 0, place, 0))
    elif document.fault is None:
        same("a document", (document.out, hashed_octets.out), (found, cleartext.hashed(found)))
    if answer == "ok" and message[place:] == SIGNATURES:
        same("signatures of a message", (document.fault, signatures.out), (None, SIGNATURES))
    elif answer == "ok" and document.fault and document.fault.layer == "cleartext":
        raise Wrong(f"a message: {document.fault} behind its document")


def outside_of_blocks(octets):
    """How many octets of a text that was accepted lie outside of its blocks, if some of them are in no text."""
    outside, where = b"", "outside"
    for line in re.findall(rb"[^\n]*\n|[^\n]+", octets):
        if where == "outside" and not line.startswith(b"-----BEGIN PGP "):
            outside += line
        elif where == "outside":
            where = "headers"
        elif where == "headers" and not line.strip(b" \t\r\n"):
            where = "data"
        elif where == "data" and line.startswith(b"-"):
            where = "outside"
    return len(outside) if re.search(rb"[\0-\x08\x0e-\x1f\x7f]", outside) else 0


def as_the_model_says(program, rng, octets):
    """The answers are those of tests/lib/model.py, also under limits that are met sooner."""
    sooner = {"line": (128, 200), "body": (512, 600), "cert": (512, 1000, 3000), "pieces": (1, 2)}
    limits, options = model.USUAL, ""
    for name in rng.choice(((), (), tuple(sooner), (rng.choice(tuple(sooner)),))):
        value = rng.choice(sooner[name])
        limits, options = limits._replace(**{name: value}), f"{options} --{name} {value}"
    if rng.random() < 0.25:
        limits, options = limits._replace(outside="refuse"), f"{options} --outside refuse"
    if rng.random() < 0.4:
        limits, options = limits._replace(malformed="keep"), f"{options} --malformed keep"
    row, bare = rng.choice((0, 0, 0, 1, 2, 3)), rng.random() < 0.5
    out = f" --out {'binary' if bare else 'armor'}"
    words = {
        "list": "list", "stated": "list --values", "show": "show", "values": "show --values", "check": "check", "prints": "check --fingerprints", "places": "check --places",
        "octets": f"octets --row {row}", "all": "octets --all", "literal": f"octets --row {row} --of literal", "write": "write" + out, "normalise": "normalise" + out,
        "split": "split" + out, "nth": f"split --nth {row}" + out, "join": "join" + out, "merge": "join --merge" + out,
    }  # fmt: skip
    own, no_attributes, numbers = chosen = (rng.random() < 0.6, rng.random() < 0.4, rng.choice(((), (), (0,), (0,), (1,), (2,), (1, 0), (0, 2, 0))))
    given = (" --own-signatures" * own, " --no-attributes" * no_attributes, "".join(f" --user-id {it}" for it in numbers))
    words[chosen] = words["write"] + "".join(rng.sample(given, 3))
    for command in ("values", chosen, *rng.sample(tuple(it for it in words if it not in ("values", chosen)), 4)):
        line = words[command] + options
        same(line, program.run(line, octets)[:3], model.answer(command, octets, row, limits, bare))


PROPERTIES = (
    written_again, normal_twice, split_and_joined, chosen_by_key, chosen_parts, merged, armored_alike, shown_apart, cut_alike, commands_alike, listed, hashed, hashed_by_all,
    with_fingerprints, with_places, literals, modes_alike, limits_alike, faults_stay, blanks_ignored, outside_refused, malformed_kept, behind_each_other, told_beside, cleartexts,
    as_the_model_says,
)  # fmt: skip


# Runs.


SMALL = 5000  # octets of an input that all properties are tried on; a larger one is tried by three


def try_input(program, seed, n, only):
    """What is wrong with the answers to this input, if anything is."""
    rng = random.Random(f"{seed}/{n}")
    octets = input_of(rng)
    name = "?"
    try:
        some = [as_the_model_says, *rng.sample(PROPERTIES[:-1], 2)]
        for it in only or (PROPERTIES if len(octets) <= SMALL else some):
            name = it.__name__
            it(program, random.Random(f"{seed}/{n}/{name}"), octets)
    except Wrong as wrong:
        return octets, f"{name}: {wrong}"
    except (LookupError, ValueError, AttributeError) as wrong:  # what was written isn't as it must be
        return octets, f"{name}: {wrong!r}"
    return None


def work(order):
    """Tries the inputs of these numbers: what failed, what was met, and the counts of inputs and runs."""
    path, seed, numbers, until, only = order
    only = [it for it in PROPERTIES if it.__name__ == only]
    program = Program(path)
    failures, tried = [], 0
    for n in numbers:
        if until and time.time() > until:
            break
        found = try_input(program, seed, n, only)
        tried += 1
        if found:
            failures.append((n, *found))
    program.runner.close()
    return failures, program.met, program.kinds, tried, program.runs


def keep(folder, name, octets):
    path = os.path.join(folder, name)
    with open(path, "wb") as it:
        it.write(octets)
    return path


def try_many(words):
    until = time.time() + words.seconds if words.seconds else 0
    last = words.first + words.inputs
    starts = range(words.first, last, 50)
    orders = ((words.program, words.seed, range(at, min(at + 50, last)), until, words.only) for at in starts)
    met, kinds, passed, failed, runs = collections.Counter(), collections.Counter(), 0, 0, 0
    with multiprocessing.Pool(words.jobs) as pool:
        for failures, reasons, shown, tried, started in pool.imap_unordered(work, orders):
            met += reasons
            kinds += shown
            runs += started
            passed += tried - len(failures)
            failed += len(failures)
            for n, octets, wrong in failures:
                path = keep(words.keep, f"fuzz-{words.seed}-{n}", octets)
                print(f"tests/program/fuzz.py: {wrong}: FAILED; its input is {path}", file=sys.stderr)
                again = f"tests/program/fuzz.py --seed {words.seed} --first {n} --inputs 1" + f" --only {words.only}" * bool(words.only)
                print(f"tests/program/fuzz.py: again: {again}", file=sys.stderr, flush=True)
    print(f"{runs} runs: " + ", ".join(f"{name} {count}" for name, count in met.most_common()))
    counts = {it: met[it] for reasons in REASONS.values() for it in reasons} | {it: kinds[it] for it in WANTED}
    seldom = [it for it, count in counts.items() if count < 10]
    print(f"{len(counts)} kinds of faults and things, each met {min(counts.values())} times or more")
    if words.inputs >= 2000 and not words.only and not words.seconds:
        for it in seldom:
            print(f"tests/program/fuzz.py: {it} was met {counts[it]} times, which is too seldom: FAILED", file=sys.stderr)
        failed += len(seldom)
    return passed, failed


def try_files(words):
    program = Program(words.program)
    failed = 0
    for path in words.file:
        with open(path, "rb") as it:
            octets = it.read()
        wrong = []
        for it in PROPERTIES:
            for n in range(8):
                try:
                    it(program, random.Random(f"{words.seed}/{n}"), octets)
                except Wrong as found:
                    wrong.append(f"{it.__name__}: {found}")
                    break
        for it in wrong:
            print(f"tests/program/fuzz.py: {path}: {it}: FAILED", file=sys.stderr)
        failed += bool(wrong)
    return len(words.file) - failed, failed


def main():
    words = argparse.ArgumentParser(prog="tests/program/fuzz.py", description=__doc__.split("\n\n", maxsplit=1)[0])
    words.add_argument("--seed", type=int, default=1)
    words.add_argument("--inputs", type=int, default=2000)
    words.add_argument("--first", type=int, default=0, help="the number of the first input")
    words.add_argument("--only", default="", choices=["", *(it.__name__ for it in PROPERTIES)], metavar="NAME")
    words.add_argument("--jobs", type=int, default=len(os.sched_getaffinity(0)))
    words.add_argument("--seconds", type=float, default=0, help="start no input after so long; 0: there is no end")
    words.add_argument("--program", help="the program that is run, in place of that of this repository")
    words.add_argument("--keep", default=tempfile.gettempdir(), help="where inputs that fail are kept")
    words.add_argument("file", nargs="*")
    words = words.parse_args()
    words.program = words.program or built("tests/program/fuzz.py")
    passed, failed = try_files(words) if words.file else try_many(words)
    print(f"{passed} passed, {failed} failed")
    return int(failed > 0)


if __name__ == "__main__":
    sys.exit(main())
