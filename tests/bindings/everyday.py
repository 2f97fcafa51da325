#!/usr/bin/env python3
"""Tries `python3 -m opgp` and the functions behind it, over the library for C, which OPGP_LIBRARY names or which is made: sizes and
names, how keys stand and which self-signatures count beside tests/lib/standing.py, files of verdicts and verifiers, each command to the
octet over keyrings that are made here, what lies outside of blocks, secret keys, wrong command lines, policies and inputs. Beside programs
of others, where they are here: sizes, curves, times and states beside gpg over the machine's keyrings and tests/vectors, names in a Web
Key Directory and its files beside gpg-wks-client, the types by mypy. opgp-verify is made with the library, or stands beside that which is
named. The last line counts what was tried."""

import base64
import hashlib
import importlib
import inspect
import io
import json
import os
import random
import re
import shutil
import subprocess
import sys
import tempfile
import time
import unittest.mock
import urllib.parse

sys.dont_write_bytecode = True
sys.path.insert(0, f"{sys.path[0]}/../lib")

import model  # noqa: E402
import openpgp_signers as signers  # noqa: E402
import secret_keys  # noqa: E402
import standing  # noqa: E402
import standing_cases  # noqa: E402
from openpgp_maker import Key, integer, number, on_identity, packet, signature, subpacket  # noqa: E402
from running import HERE  # noqa: E402
from verdict_files import dash, file_of, first_of, honest_and_forged, lines_of, revoked_by_sha1, text_of, verdicts_of  # noqa: E402

START, NOW, YEAR = 1577836800, 1767225600, 365 * 86400  # 2020-01-01, 2026-01-01
GPG_WKS = next((it for it in (shutil.which("gpg-wks-client"), "/usr/lib/gnupg/gpg-wks-client") if it and os.access(it, os.X_OK)), None)
KEYRINGS = "/usr/share/keyrings"
NOT_THOSE = "opgp: the verdicts aren't those of this keyring: opgp-verify --verdicts makes a file of them\n"
PROGRAM = f"{HERE}/crates/opgp_tool/out/opgp_tool"
passed = failed = 0
ENV = {}
SEEN = set()


def verdict(what, holds, said=""):
    global passed, failed
    passed, failed = passed + bool(holds), failed + (not holds)
    if not holds:
        print(f"tests/bindings/everyday.py: {what}: FAILED {said}"[:2000], file=sys.stderr)


def left_out(what):
    print(f"tests/bindings/everyday.py: left out, since it isn't here: {what}", file=sys.stderr)


def octets_of(source):
    with open(source, "rb") as it:
        return it.read()


def put(path, octets):
    with open(path, "wb") as it:
        it.write(octets)
    return path


def run(*words, **how):
    return subprocess.run(words, capture_output=True, check=False, timeout=300, **how)


def command(*words, given=b"", path=None):
    """How a command ends: its status, output and errors. The first run of each command is one of a process; those after it are calls,
    which take a tenth of the time."""
    if path is None and words[:1] not in SEEN:
        SEEN.add(words[:1])
        ended = run(sys.executable, "-m", "opgp", *words, input=given, env=ENV)
        return ended.returncode, ended.stdout, ended.stderr.decode()
    ends = [io.TextIOWrapper(io.BytesIO(it), "utf-8", "backslashreplace") for it in (given, b"", b"")]
    with unittest.mock.patch.multiple(sys, stdin=ends[0], stdout=ends[1], stderr=ends[2]):
        with unittest.mock.patch.dict(os.environ, {"PATH": path} if path else {}):
            status = importlib.import_module("opgp.__main__").main(words)
            ends[1].flush()
            ends[2].flush()
    return status, ends[1].buffer.getvalue(), ends[2].buffer.getvalue().decode()


def raised(kind, call):
    """What a call raises, if it is of this kind; else None."""
    try:
        call()
    except Exception as it:  # whatever it is
        return it if isinstance(it, kind) else None
    return None


def hexed(key):
    return key.fingerprint.hex().upper()


# ---- Sizes, names and texts


def sizes(opgp, everyday):
    """The size and the curve of a key, by its algorithm and the first field of its material."""

    def key(algorithm, *material):
        return opgp.Key(0, 0, None, 4, algorithm, 0, bytes(20), bytes(8), material)

    n = (1 << 2047).to_bytes(256, "big")
    curves = {  # of RFC 9580, 9.2, and what gpg calls them
        "2A8648CE3D030107": ("nistp256", 256), "2B81040022": ("nistp384", 384), "2B81040023": ("nistp521", 521),
        "2B2403030208010107": ("brainpoolP256r1", 256), "2B240303020801010B": ("brainpoolP384r1", 384),
        "2B240303020801010D": ("brainpoolP512r1", 512), "2B06010401DA470F01": ("ed25519", 255), "2B060104019755010501": ("cv25519", 255),
        "2B8104000A": ("secp256k1", 256), "2B81040021": ("1.3.132.0.33", None), "2B6571": ("1.3.101.113", None), "88370A": ("2.999.10", None),
        "78": ("2.40", None), "00": ("0.0", None), "2B81": ("oid-2B81", None), "": ("oid-", None),
    }  # fmt: skip
    for algorithm in (18, 19, 22):
        for octets, (curve, bits) in curves.items():
            found = everyday.size_of(key(algorithm, bytes.fromhex(octets), b"\4"))
            verdict(f"the curve {octets} of {algorithm}", found == (bits, curve) and str(found) == curve, found)
    for algorithm in (1, 2, 3, 16, 17):
        for first, bits in ((n, 2048), (n[:128], 1024), (b"\1" + bytes(2), 17), (b"", 0)):
            found = everyday.size_of(key(algorithm, first, b"\3"))
            verdict(f"{bits} bits of {algorithm}", found == (bits, None) and str(found) == str(bits), found)
    verdict("a key without material", everyday.size_of(key(1)) == (0, None))
    for algorithm, curve, bits in ((25, "x25519", 255), (26, "x448", 448), (27, "ed25519", 255), (28, "ed448", 448)):
        verdict(curve, everyday.size_of(key(algorithm, bytes(57))) == (bits, curve))
    for algorithm in (0, 20, 21, 23, 24, 99, 255):
        found = everyday.size_of(key(algorithm, b"some"))
        verdict(f"the unknown algorithm {algorithm}", found == (None, None) and str(found) == "-", found)


NAMES = {
    "Alice (work) <alice@example.org>": ("Alice", "work", "alice@example.org"),
    "Alice <alice@example.org>": ("Alice", None, "alice@example.org"),
    "<alice@example.org>": (None, None, "alice@example.org"),
    "(work) <alice@example.org>": (None, "work", "alice@example.org"),
    "alice@example.org": (None, None, "alice@example.org"),
    " alice@example.org ": (None, None, "alice@example.org"),
    "Alice() <alice@example.org>": ("Alice()", None, "alice@example.org"),
    "Alice () <a@b>": ("Alice", None, "a@b"),
    "A (b) (c) <a@b.c>": ("A (b)", "c", "a@b.c"),
    "Jørgen Ærø <jørgen@exämple.org>": ("Jørgen Ærø", None, "jørgen@exämple.org"),
    "A. B. <a.b+c=d'e/f@x-y.example> ": ("A. B.", None, "a.b+c=d'e/f@x-y.example"),
    "Alice": ("Alice", None, None),
    "": (None, None, None),
    "  ": (None, None, None),
    "Alice <alice>": ("Alice <alice>", None, None),
    "Alice <alice@>": ("Alice <alice@>", None, None),
    "Alice <@example.org>": ("Alice <@example.org>", None, None),
    "Alice <a@b@c>": ("Alice <a@b@c>", None, None),
    "Alice <a b@c>": ("Alice <a b@c>", None, None),
    "Alice <a@b> <c@d>": ("Alice <a@b> <c@d>", None, None),
    "Alice <<a@b>>": ("Alice <<a@b>>", None, None),
    "Alice <a@b> more": ("Alice <a@b> more", None, None),
    "Alice <a@b": ("Alice <a@b", None, None),
    "a@b>": ("a@b>", None, None),
    "Alice <a..b@c>": ("Alice <a..b@c>", None, None),
    "Alice <.a@c>": ("Alice <.a@c>", None, None),
    "Alice <a@c.>": ("Alice <a@c.>", None, None),
    "Alice <a@c\n>": ("Alice <a@c\n>", None, None),
    "Alice\n<a@c>": ("Alice", None, "a@c"),
    "Alice <a\x07@c>": ("Alice <a\x07@c>", None, None),
    "Alice <a\u202e@c>": ("Alice <a\u202e@c>", None, None),
    "J\udcf8rgen <j@x>": ("J\udcf8rgen", None, "j@x"),
    "J <j\udcf8@x>": ("J <j\udcf8@x>", None, None),
    "a@b_c": ("a@b_c", None, None),
    "two words@b": ("two words@b", None, None),
    'Alice <"a"@b>': ('Alice <"a"@b>', None, None),
}


def names(_, everyday):
    for text, wanted in NAMES.items():
        found = everyday.name_in(text)
        verdict(f"what is in {text!r}", found == wanted, found)
    for text, wanted in (("plain ~", "plain ~"), ("Jørgen", "Jørgen"), ('"\\', "\\x22\\x5C"), ("\n\x1b[2J\x7f", "\\x0A\\x1B[2J\\x7F"),
                         ("\udcf8", "\\xF8"), ("\u202ex", "\\xE2\\x80\\xAEx"), ("\x85", "\\xC2\\x85"), ("\u2028", "\\xE2\\x80\\xA8"), ("", "")):  # fmt: skip
        verdict(f"{text!r} escaped", everyday.escaped(text) == wanted, everyday.escaped(text))
    for number_ in range(0x3000):
        told = everyday.escaped(chr(number_))
        verdict("what is escaped is printable", told.isprintable() and ("\\" in told) == (not chr(number_).isprintable() or chr(number_) in '"\\'))


# ---- How keys stand


def keep_hashes():
    """Makes what standing.py reads of a signature know its hash algorithm."""
    before = standing.Said.__init__

    def keeping(self, it, *others):
        before(self, it, *others)
        self.hash = it.hash

    standing.Said.__init__ = keeping


WHYS = {"revoked": "REVOKED", "early": "EARLY", "unbound": "UNBOUND", "expired": "EXPIRED"}


def stands(opgp, everyday):
    """The states are those of standing.py, and the hashes and times those of what speaks by it."""
    keep_hashes()
    hash_names = {number_: name for table, number_, name in model.names() if table == 2}
    cases = [(it.octets, it.verdicts, it.policy, [at for _, at in it.states][:2]) for it in standing_cases.cases(7, 150, is_honest=True)]
    cases += [(it.octets, it.verdicts, "usual", [standing_read()]) for it in standing_cases.vectors()]
    spoken = 0
    for given, found, policy, times in cases:
        octets, found = standing_cases.once(given, found)
        try:
            keyring = opgp.read(octets, opgp.Limits(keep_malformed=True))
        except opgp.Fault:
            continue
        found = ["bad" if row.is_bad else it for row, it in zip(keyring.signatures(), found, strict=True)]
        verdicts = [opgp.Verdict[it.upper()] for it in found]
        ours, every = standing.Keyring(octets, found, policy), standing.Keyring(octets, found, "any")
        for at in times:
            entries = everyday.survey(keyring, at, verdicts, policy)
            for entry, model_of, free in zip(entries, ours.certificates, every.certificates, strict=True):
                states_fit(entry, model_of, at)
                spoken += hashes_fit(entry, free, at, hash_names)
    verdict("enough signatures speak", spoken > 300, spoken)


def standing_read():
    return 1795132800


def states_fit(entry, it, at):
    """How an entry stands is what standing.py says."""
    wanted_keys, wanted_ids, wanted_attributes = [], [], []
    for part in (it.primary, *it.components):
        if part.key:
            why, uses, begin, end, reason = it.state_of_key(part, at)
            wanted_keys.append((part.key.fingerprint, why or "usable", tuple(uses), begin, end, reason))
        else:
            word = {"fine": "certified"}.get(it.state_of_identity(part, at), it.state_of_identity(part, at))
            (wanted_ids if part.kind == 13 else wanted_attributes).append(word)
    keys = [(key.key.fingerprint, key.how, key.uses, key.state.begin, key.state.end, key.state.reason) for key in entry.keys]
    verdict("how keys stand", keys == wanted_keys, (keys, wanted_keys))
    verdict("how user IDs stand", [at.how for at in entry.user_ids] == wanted_ids, (entry, wanted_ids))
    told = ["certified" if at.why is None else at.why.name.lower() for at in entry.attributes]
    verdict("how attributes stand", told == wanted_attributes, (told, wanted_attributes))
    verdict("it is verified", entry.is_verified and all(at.is_verified for at in (*entry.keys, *entry.user_ids)))


def hashes_fit(entry, it, at, hash_names):
    """The hashes and times are those of what speaks by standing.py; how many signatures speak."""
    count = 0
    parts = [part for part in (it.primary, *it.components) if part.key]
    for key, part in zip(entry.keys, parts, strict=True):
        is_there = at >= max(part.key.created, it.primary.key.created)
        is_bound = bool(it.speakers(it.primary, at))
        wanted = {hash_names.get(one.hash, str(one.hash)) for one in it.speakers(part, at)} if is_there and is_bound else set()
        verdict("the hashes that count", key.hashes == tuple(sorted(wanted)), (key, wanted))
        count += len(wanted)
    for user_id, part in zip(entry.user_ids, [part for part in it.components if part.kind == 13], strict=True):
        own = standing.newest(filter(standing.is_good, it.own(standing.CERTIFICATIONS, part)), at)
        verdict("when a user ID was certified", user_id.made == max((one.made for one in own), default=None), (user_id, own))
    return count


def surveys_refused(opgp, everyday):
    """What a survey refuses, and the kinds of a basis."""
    octets = octets_of(f"{HERE}/tests/vectors/algorithms/eddsa_legacy.gpg")
    keyring = opgp.read(octets)
    rows = keyring.signatures()
    for at in (-1, 1 << 64):
        verdict(f"the time {at}", raised(ValueError, lambda at=at: everyday.survey(keyring, at)))
    verdict("another policy", raised(ValueError, lambda: everyday.survey(keyring, 0, rely="all")))
    verdict("too few verdicts", raised(everyday.WrongVerdicts, lambda: everyday.survey(keyring, 0, [opgp.Verdict.GOOD])))
    verdict("no keyring", raised(TypeError, lambda: everyday.survey(octets, 0)))
    asked = []

    def verify(question):
        asked.append(question.signature.row)
        return opgp.Verdict.GOOD

    by_call, by_rows = everyday.survey(keyring, NOW, verify), everyday.survey(keyring, NOW, [opgp.Verdict.GOOD] * len(rows))
    verdict("a verifier is asked once for each row", asked == [it.row for it in rows] and by_call == by_rows, asked)
    claimed = everyday.survey(keyring, NOW)
    verdict("claims aren't verified", not claimed[0].is_verified and not claimed[0].keys[1].is_verified and claimed[0].primary.how == "usable")
    verdict("claims are good", everyday.claims(keyring) == [opgp.Verdict.GOOD] * len(rows))
    none = everyday.survey(keyring, NOW, [opgp.Verdict.UNDECIDED] * len(rows))
    verdict("nothing good binds nothing", [it.how for it in none[0].keys] == ["unbound", "unbound"] and none[0].keys[0].hashes == ())
    error = raised(ZeroDivisionError, lambda: everyday.survey(keyring, NOW, lambda _: 1 // 0))
    verdict("what a verifier raises", error)
    twice = opgp.read(octets * 2)
    verdict("a certificate twice is merged", len(everyday.once(twice).certificates()) == 1 and everyday.once(keyring) is keyring)
    keyring.close()
    for call in (everyday.survey, everyday.once, everyday.claims):
        verdict("a closed keyring", raised(ValueError, lambda call=call: call(*([keyring, 0] if call is everyday.survey else [keyring]))))


# ---- Verdicts


def verdicts(opgp, everyday):
    """Files of verdicts are read, and other files are refused."""
    keyring = opgp.read(octets_of(f"{HERE}/tests/vectors/algorithms/eddsa_legacy.gpg"))
    other = opgp.read(octets_of(f"{HERE}/tests/vectors/algorithms/dsa_1024.gpg"))
    for word in ("good", "bad", "undecided", "undecided absent"):
        found = everyday.verdicts_in(keyring, verdicts_of(keyring, word))
        verdict(f"verdicts {word}", found == [opgp.Verdict[word.split()[0].upper()]] * 3, found)
    verdict("no verdicts of nothing", everyday.verdicts_in(opgp.read(b""), verdicts_of(opgp.read(b""))) == [])
    right = verdicts_of(keyring)
    first, *lines = right.splitlines(keepends=True)
    plain, digest = b"".join(lines), first.split()[6]
    wrongs = {
        "empty": b"", "the first line alone": first, "no first line": plain, "the first line twice": first + right, "a line less": first + b"".join(lines[1:]),
        "the last line less": first + b"".join(lines[:-1]), "a line twice": first + lines[0] + plain, "all lines twice": right + plain,
        "the file twice": right + right, "lines in another order": first + b"".join(lines[::-1]), "the first line behind": plain + first,
        "no end": right[:-1], "carriage returns": right.replace(b"\n", b"\r\n"), "an empty line": right + b"\n", "an empty line in front": b"\n" + right,
        "more": right + b"row", "a blank": right.replace(b" cert ", b"  cert ", 1), "a blank behind": right.replace(b" rows 3", b" rows 3 "),
        "another number": right.replace(b"row 0 ", b"row 1 "), "another place": right.replace(b" hang 0 ", b" hang 9 ", 1), "lower case": right.lower(),
        "a digest in lower case": right.replace(digest, digest.lower()), "another digest": right.replace(digest, bytes(reversed(digest))),
        "half a digest": right.replace(digest, digest[:32]), "more of a digest": right.replace(digest, digest + b"00"), "no digest": right.replace(digest + b" ", b""),
        "fewer rows": right.replace(b" rows 3", b" rows 2"), "more rows": right.replace(b" rows 3", b" rows 4"), "zeros in front": right.replace(b" rows 3", b" rows 03"),
        "no rows": right.replace(b" rows 3", b""), "another word": right.replace(b"arithmetic", b"policy"), "text": b"opgp\n" * 3, "zeros": bytes(9),
        "another keyring's": verdicts_of(other), "another keyring's lines": first + b"".join(verdicts_of(other).splitlines(keepends=True)[1:]),
        "another keyring's first line": verdicts_of(other).splitlines(keepends=True)[0] + plain, "not ASCII": right.replace(b"row", b"r\xf8w"),
        "another digest of a row": re.sub(rb"digest ....", b"digest 0000", right, count=1), "a byte order mark": b"\xef\xbb\xbf" + right,
    }  # fmt: skip
    for odd in ("", "Good", "goo", "good ", "good fine", "bad fine", "undecided ", "undecided  weak", "undecided Weak", "undecided a b"):
        wrongs[f"the verdict {odd!r}"] = right.replace(b"verdict good", b"verdict " + odd.encode(), 1)
    wrongs |= {f"the first {size} octets": right[:size] for size in range(0, len(right), 7)}
    for what, wrong in wrongs.items():
        error = raised(everyday.WrongVerdicts, lambda wrong=wrong: everyday.verdicts_in(keyring, wrong))
        verdict(f"a file of verdicts: {what}", error and f"opgp: {error}\n" == NOT_THOSE, error)
    verdict("a file of verdicts is octets", raised(TypeError, lambda: everyday.verdicts_in(keyring, right.decode())))
    # What isn't good says so whoever asks: its digest doesn't begin as it states.
    octets = bytearray(keyring.write())
    left = keyring.signatures()[0].left
    octets[bytes(octets).index(left)] ^= 1
    changed = opgp.read(bytes(octets))
    verdict("a bad claim", everyday.claims(changed)[0] is opgp.Verdict.BAD)
    for word, holds in (("bad", True), ("good", False), ("undecided", False)):
        file = file_of(changed, lines_of(changed, [word, "good", "good"]))
        error = raised(everyday.WrongVerdicts, lambda file=file: everyday.verdicts_in(changed, file))
        verdict(f"a bad one said to be {word}", (error is None) == holds)
    misplaced_verdicts(opgp, everyday)


def verdicts_of_others(opgp, verifier):
    """A file of verdicts is of the octets of one keyring, and by arithmetic alone: else an expired key or a revoked one would be usable."""
    room = tempfile.mkdtemp(dir=ENV["ROOM"])
    honest, forged = map(opgp.read, honest_and_forged(START))
    verdict("the forged keyring has the honest one's lines", [*lines_of(honest, ["good"])] == [*lines_of(forged, ["good"])])
    file = put(f"{room}/honest", verdicts_of(honest))
    words = ("audit", "--at", str(START + 900 * 86400), "--verdicts", file)
    ended = command(*words, given=honest.write())
    verdict("the honest keyring by its file", ended[0] == 1 and b" checked expired " in ended[1], ended)
    ended = command(*words, given=forged.write())
    verdict("the forged keyring by the file of the honest one", ended == (1, b"", NOT_THOSE), ended)
    revoked = opgp.read(revoked_by_sha1(START))
    put(f"{room}/revoked.gpg", revoked.write())
    words = ("audit", "--at", str(NOW), "--verdicts")
    for what, them in (("usual", ["undecided weak-hash", "good"]), ("none", ["good", "good"])):
        lines = [*lines_of(revoked, them)]
        ended = command(*words, put(f"{room}/plain", text_of(lines)), f"{room}/revoked.gpg")
        verdict(f"what opgp-verify prints by the policy {what}", ended == (1, b"", NOT_THOSE), ended)
    ended = command(*words, put(f"{room}/right", verdicts_of(revoked)), f"{room}/revoked.gpg")
    verdict("the file of verdicts", ended[0] == 1 and b" checked revoked " in ended[1], ended)
    for what, it in (("its octets again", revoked.write()), ("armored", revoked.write(armor=True)), ("in another block", model.armor(revoked.write()))):
        ended = command(*words, f"{room}/right", given=it)
        verdict(f"a file of verdicts is of the packets: {what}", ended[0] == 1 and b" checked revoked " in ended[1], ended)
    framed = revoked.write()
    framed = bytes([0x98]) + framed[1:]  # the same key in the legacy format
    ended = command(*words, f"{room}/right", given=framed)
    verdict("and of how they are framed", ended == (1, b"", NOT_THOSE), ended)
    if not verifier:
        return
    for policy in ("usual", "any", "none"):
        ended = run(verifier, "--policy", policy, f"{room}/revoked.gpg")
        told = command(*words, put(f"{room}/plain", ended.stdout), f"{room}/revoked.gpg")
        verdict(f"the output of opgp-verify --policy {policy}", ended.stdout.count(b"\n") == 2 and told == (1, b"", NOT_THOSE), (ended, told))
    ended = run(verifier, "--verdicts", f"{room}/revoked.gpg")
    verdict("what opgp-verify --verdicts writes", (ended.returncode, ended.stdout) == (0, verdicts_of(revoked)), ended)
    told = command(*words, put(f"{room}/made", ended.stdout), f"{room}/revoked.gpg")
    verdict("by that it is revoked", told[0] == 1 and b" checked revoked " in told[1], told)
    ended = run(verifier, "--verdicts", input=forged.write())
    verdict("a forged certification is bad", ended.stdout == verdicts_of(forged, "bad"), ended)
    verdict("how many rows", ended.stdout.startswith(first_of(forged, 1).encode() + b"\n"), ended)


def misplaced_verdicts(opgp, everyday):
    """A verdict on what isn't hashed counts if it is a revocation of the primary key that stands behind another part, and no other."""
    key, sub = signers.ed25519("misplaced", START), signers.ed25519("misplaced sub", START)
    octets = signers.certificate(key, b"M <m@example.org>", signers.subkey(key, sub, START), signers.revocation(key, START + 5), made=START)
    octets += packet(2, signature(key, 0x13, key.octets, signers.said(key, START), key.issuer_key_id))  # a certification on a subkey
    keyring = opgp.read(octets)
    whys = [it.why_not for it in keyring.signatures()]
    verdict("what is misplaced", whys == [None, None, None, "misplaced", "misplaced"], whys)
    lines = [*lines_of(keyring, ["good"] * 5)]
    for said, wanted, how in (("", "UNDECIDED", "usable"), (" verdict good", "GOOD", "revoked"), (" verdict undecided absent", "UNDECIDED", "usable")):
        for other in ("", " verdict good"):  # of the certification on a subkey, which says nothing
            found = everyday.verdicts_in(keyring, file_of(keyring, [*lines[:3], lines[3] + said, lines[4] + other]))
            verdict(f"a misplaced revocation{said}", [it.name for it in found][:4] == ["GOOD"] * 3 + [wanted], found)
            verdict(f"the key of it{said}", everyday.survey(keyring, NOW, found)[0].primary.how == how)
    verdict("the claim of a misplaced revocation", everyday.claims(keyring)[3:] == [opgp.Verdict.GOOD, opgp.Verdict.UNDECIDED])
    verdict("a verifier's", everyday.survey(keyring, NOW, lambda _: opgp.Verdict.GOOD)[0].primary.how == "revoked")
    verdict("what claims say", everyday.survey(keyring, NOW)[0].primary.how == "revoked")


# ---- Keyrings that are made here

ODD = b"Al\ni\x1b[1mce\x7f \xf8 (o\"e) <Alice.B@EXAMPLE.org>"
CV25519 = bytes.fromhex("0A2B060104019755010501") + integer(b"\x40" + bytes(31) + b"\7") + bytes.fromhex("03010807")


def span(kind, seconds):
    return subpacket(kind, number(4, seconds))


def encryption(key, created, made, *subpackets, hash=8):
    """Packets: a subkey that encrypts, and its binding."""
    sub = Key(4, created, 18, CV25519, None)
    body = signature(key, 0x18, key.octets + sub.octets, signers.said(key, made, signers.flags(0x0C), *subpackets), key.issuer_key_id, hash)
    return sub, packet(14, sub.body) + packet(2, body)


class Made:
    """The keys and the keyring of most tests here."""

    def __init__(self):
        self.alice, self.bob = signers.ed25519("alice", START), signers.rsa(1024, START)
        self.carol, self.dave = signers.ed25519("carol", START, 6), signers.ed25519("dave", START)
        self.sub, encrypts = encryption(self.alice, START, START + 1, span(9, 6 * YEAR + 40 * 86400))
        self.old, expired = encryption(self.alice, START + 1, START + 1, span(9, YEAR))
        odd = signers.identity(self.alice, ODD, START + 3, signers.flags(3), span(9, 10 * YEAR))
        plain = packet(13, b"Mallory <mallory@example.org>")  # nobody certified it
        both = self.alice.octets + on_identity(13, ODD)
        foreign = packet(2, signature(self.dave, 0x10, both, signers.said(self.dave, START), self.dave.issuer_key_id))
        self.of_alice = signers.certificate(self.alice, b"Alice (work) <alice@example.org>", odd + foreign, plain, encrypts, expired,
                                            made=START + 2, subpackets=(span(9, 10 * YEAR),))  # fmt: skip
        self.of_bob = packet(6, self.bob.body) + signers.identity(self.bob, b"bob@example.net", START, signers.flags(3), hash=2)
        self.of_carol = signers.certificate(self.carol, b"Carol: 100% + <carol@example.org>", made=START,
                                            front=signers.revocation(self.carol, START + YEAR))  # fmt: skip
        self.of_dave = signers.certificate(self.dave, b"Dave", made=START)
        self.octets = self.of_alice + self.of_bob + self.of_carol + self.of_dave


def audits(_, __, made, ways):
    """The lines of `audit`."""
    a, b, c, d = map(hexed, (made.alice, made.bob, made.carol, made.dave))
    ten, six, one = "2029-12-29T00:00:00Z", "2026-02-08T00:00:00Z", "2020-12-31T00:00:01Z"

    def wanted(word, *short):
        lines = (
            f"pub {a} {word} usable eddsa ed25519 uses certify,sign end {ten} hash SHA2-256 short",
            f"sub {hexed(made.sub)} {word} usable ecdh cv25519 uses encrypt end {six} hash SHA2-256 short",
            f"sub {hexed(made.old)} {word} expired ecdh cv25519 uses encrypt end {one} hash SHA2-256 short",
            f"pub {b} {word} unbound rsa 1024 uses - end never hash SHA-1 short",
            f"pub {c} {word} revoked ed25519 ed25519 uses certify,sign end never hash SHA2-256 short",
            f"pub {d} {word} usable eddsa ed25519 uses certify,sign end never hash SHA2-256 short",
        )
        return "".join(f"{line} {it}\n" for line, it in zip(lines, short, strict=True)).encode()

    usual = ("-", "-", "-", "unbound,size,sha1", "revoked", "-")
    count = "opgp: {} of 6 keys fall short\n".format
    for word, words in ways:
        ended = command("audit", "--at", str(NOW), *words, given=made.octets)
        verdict(f"audit, {word} {words[:1]}", ended == (1, wanted(word, *usual), count(2)), ended)
    word, words = ways[0]
    policies = {
        "": usual,
        "# a comment\n\n  # another\nrsa = 1024 # bits\nno-sha1 = no\n": ("-", "-", "-", "unbound", "revoked", "-"),
        "rsa=any\nno-sha1=yes": ("-", "-", "-", "unbound,sha1", "revoked", "-"),
        "rsa = none\nno-sha1": ("-", "-", "-", "unbound,algorithm,sha1", "revoked", "-"),
        "expires-within = 37": ("-", "-", "-", *usual[3:]),
        "expires-within = 38\n": ("-", "expires", "-", *usual[3:]),
        "curves = ed25519, nistp256": ("-", "curve", "-", *usual[3:]), "curves = ed25519 cv25519": usual,
        "curves = any\nuses = sign, encrypt": ("-", "-", "-", *usual[3:5], "no-encrypt"),
        "uses = authenticate certify": ("no-authenticate", "-", "-", *usual[3:5], "no-authenticate"),
        "rsa = 999999\ndsa = none\nelgamal = none": usual,
    }
    room = tempfile.mkdtemp(dir=ENV["ROOM"])
    for text, short in policies.items():
        path = put(f"{room}/policy", text.encode())
        ended = command("audit", "--at", "2026-01-01", "--policy", path, *words, given=made.octets)
        verdict(f"audit by {text!r}", ended == (1, wanted(word, *short), count(sum(it != "-" for it in short))), ended)
    audits_of_one(made, room, ways[0])


def audits_of_one(made, room, way):
    """The audit of one certificate, at several times."""
    word, words = way
    fine = command("audit", "--at", str(NOW), *words, put(f"{room}/dave", made.of_dave))
    verdict("audit of one that is fine", fine[0] == 0 and fine[1].endswith(b" short -\n") and fine[2] == "" or word == "checked" and
            "--verdicts" in words, fine)  # fmt: skip
    later = command("audit", "--at", "2031-01-01T00:00:00Z", "--unverified", given=made.of_alice)
    verdict("audit of what has expired", later[0] == 1 and b" expired eddsa ed25519 " in later[1] and b"short expired\n" in later[1], later)
    early = command("audit", "--at", "1", "--unverified", given=made.of_dave)
    verdict("audit of what isn't there yet", early[0] == 1 and early[1].endswith(b" hash - short early\n"), early)
    any_ = command("audit", "--at", str(NOW), "--unverified", "--rely", "any", given=made.of_bob)
    verdict("audit that relies on all", any_[0] == 1 and b" unchecked usable rsa 1024 uses certify,sign end never hash SHA-1 short size,sha1\n" in any_[1], any_)


def policies(_, everyday):
    """Policies, and what is none: with the line's number, and status 2."""
    verdict("the usual policy", everyday.policy_in("") == everyday.Policy())
    found = everyday.policy_in("dsa = none\nrsa=3072\nexpires-within = 90\nno-sha1 = no\ncurves = a b\nuses = sign")
    verdict("a policy", found == everyday.Policy(3072, None, 2048, frozenset("ab"), 90, False, frozenset({"sign"})), found)
    wrongs = {
        "rsa": "line 1: wrong value: rsa", "\nrsa = x": "line 2: wrong value: rsa = x", "rsa = -1": "line 1: wrong value: rsa = -1",
        "rsa = 1\nrsa = 2": "line 2: rsa is there twice", "RSA = 1": "line 1: unknown: RSA = 1", "rsa = 1 2": "line 1: wrong value: rsa = 1 2",
        "no-sha1 = 1": "line 1: wrong value: no-sha1 = 1", "no_sha1": "line 1: unknown: no_sha1", "= 5": "line 1: unknown:  = 5",
        "uses = sign, fly": "line 1: wrong value: uses = sign, fly", "uses =": "line 1: wrong value: uses = ", "curves =": "line 1: wrong value: curves = ",
        "expires-within = none": "line 1: wrong value: expires-within = none", "\x1b[1m": "line 1: unknown: \\x1B[1m",
        "sha1 = no\n": "line 1: unknown: sha1 = no", "rsa = 1234567": "line 1: wrong value: rsa = 1234567", "rsa == 1": "line 1: wrong value: rsa = = 1",
    }  # fmt: skip
    path = f"{ENV['ROOM']}/wrong policy"
    for text, said in wrongs.items():
        error = raised(everyday.PolicyError, lambda text=text: everyday.policy_in(text))
        verdict(f"the policy {text!r}", str(error) == said, error)
    for text, said in list(wrongs.items())[:3]:
        ended = command("audit", "--policy", put(path, text.encode()))
        verdict(f"audit by the policy {text!r}", ended == (2, b"", f"opgp: {path}: {said}\n"), ended)
    ended = command("audit", "--policy", put(path, b"\xff"))
    verdict("a policy that isn't UTF-8", ended == (2, b"", f"opgp: {path}: it isn't UTF-8\n"), ended)
    ended = command("audit", "--policy", f"{path}.none")
    verdict("a policy that isn't there", ended == (3, b"", f"opgp: read failed: {path}.none: No such file or directory\n"), ended)


KEY_MEMBERS = ["fingerprint", "key_id", "primary", "version", "algorithm", "algorithm_name", "bits", "curve", "created", "verified", "state",
               "uses", "begin", "end", "revocation_reason", "hashes"]  # fmt: skip


def as_json(_, everyday, made, ways):
    """The members of `json`, and that it is ASCII without control characters."""
    for word, words in ways:
        ended = command("json", "--at", str(NOW), *words, given=made.octets)
        verdict(f"json, {word}", ended[0] == 0 and ended[2] == "", ended)
        if ended[0]:
            continue
        verdict("it is plain", re.fullmatch(rb"[\x20-\x7e\n]*\n", ended[1]), ended)
        found = json.loads(ended[1])
        is_verified = word == "checked"
        verdict("what it begins with", [*found.items()][:3] == [("schema", "opgp-keyring-1"), ("at", NOW), ("verified", is_verified)], found)
        them = found["certificates"]
        verdict("a line for each certificate", len(ended[1].splitlines()) == 6 and len(them) == 4)
        for it in (*them, *(at for one in them for at in (*one["keys"], *one["user_ids"]))):
            verdict("each object says whether it is verified", it["verified"] is is_verified, it)
        verdict("the members of a key", all([*key] == KEY_MEMBERS for it in them for key in it["keys"]), them)
        key = them[0]["keys"][1]
        wanted = (hexed(made.sub), made.sub.key_id.hex().upper(), False, 4, 18, "ECDH public key algorithm", 255, "cv25519", START, is_verified, "usable", ["encrypt"],
                  START, START + 6 * YEAR + 40 * 86400, None, ["SHA2-256"])  # fmt: skip
        verdict("a key", tuple(key.values()) == wanted, (key, wanted))
        carol = them[2]["keys"][0]
        verdict("a revoked key", (carol["state"], carol["revocation_reason"], carol["version"]) == ("revoked", 2, 6), carol)
        ids = [[*it.values()] for it in them[0]["user_ids"]]
        wanted = [["Alice (work) <alice@example.org>", True, None, "Alice", "work", "alice@example.org", is_verified, "certified", START + 2],
                  [ODD.decode("utf-8", "replace"), False, ODD.hex().upper(), "Al\ni\x1b[1mce\x7f \ufffd", 'o"e', "Alice.B@EXAMPLE.org", is_verified,
                   "certified", START + 3],
                  ["Mallory <mallory@example.org>", True, None, "Mallory", None, "mallory@example.org", is_verified, "unbound", None]]  # fmt: skip
        verdict("user IDs", ids == wanted, (ids, wanted))
        verdict("the members of a user ID", [*them[0]["user_ids"][0]] == ["text", "utf8", "octets", "name", "comment", "address", "verified", "state",
                                                                          "certified"])  # fmt: skip
    del everyday


def indexed(_, everyday, made, ways):
    """The lines of `hkp`."""
    carol = "Carol%3A 100%25 %2B <carol@example.org>"
    wanted = (
        f"info:1:4\npub:{hexed(made.alice)}:22:255:{START}:{START + 10 * YEAR}:\nuid:Alice (work) <alice@example.org>:{START + 2}::\n"
        f'uid:Al%0Ai%1B[1mce%7F %F8 (o"e) <Alice.B@EXAMPLE.org>:{START + 3}::\n'
        f"pub:{hexed(made.bob)}:1:1024:{START}::\npub:{hexed(made.carol)}:27:255:{START}::r\nuid:{carol}:{START}::\n"
        f"pub:{hexed(made.dave)}:22:255:{START}::\nuid:Dave:{START}::\n"
    ).encode()
    for word, words in ways:
        ended = command("hkp", "--at", str(NOW), *words, given=made.octets)
        verdict(f"hkp, {word}", ended == (0, wanted, ""), ended)
    for line in wanted.decode().splitlines():
        it = line.split(":")
        verdict("the fields of draft-shaw-openpgp-hkp-00, 5.2", len(it) == {"info": 3, "pub": 7, "uid": 5}[it[0]], line)
    verdict("it is unquoted", urllib.parse.unquote(carol) == "Carol: 100% + <carol@example.org>")
    expired = command("hkp", "--at", str(START + 11 * YEAR), "--unverified", "--find", "alice@example.org", given=made.octets)
    verdict("hkp of what has expired", expired[:2] == (0, (wanted.decode().split("pub:")[0][:-2] + "1\npub:" + wanted.decode().split("pub:")[1]).replace(
        f":{START + 10 * YEAR}:\n", f":{START + 10 * YEAR}:e\n").encode()), expired)  # fmt: skip
    none = command("hkp", "--unverified", "--find", "nobody@example.org", given=made.octets)
    verdict("hkp of nobody", none == (0, b"info:1:0\n", "opgp: no certificate for nobody@example.org\n"), none)
    revoked = signers.identity(made.alice, b"Gone", START, kind=0x30)
    its = everyday.hkp_index(everyday.survey(importlib.import_module("opgp").read(packet(6, made.alice.body) + revoked), NOW))
    verdict("hkp of a revoked user ID", its.endswith(b"\nuid:Gone:::r\n"), its)


def addresses(_, __, made, ways):
    """The lines of `emails` and `find`."""
    a, b, c, d = map(hexed, (made.alice, made.bob, made.carol, made.dave))
    for word, words in ways:
        ended = command("emails", "--at", str(NOW), *words, given=made.octets)
        wanted = (f"certified {word} alice@example.org {a}\ncertified {word} Alice.B@EXAMPLE.org {a}\nunbound {word} mallory@example.org {a}\n"
                  f"unbound {word} bob@example.net {b}\ncertified {word} carol@example.org {c}\n").encode()  # fmt: skip
        verdict(f"emails, {word}", ended == (0, wanted, ""), ended)
    word, words = ways[0]
    listed = {
        a: f'pub usable {word} {a}\nuid certified {word} "Alice (work) <alice@example.org>"\nuid certified {word} '
           f'"Al\\x0Ai\\x1B[1mce\\x7F \\xF8 (o\\x22e) <Alice.B@EXAMPLE.org>"\nuid unbound {word} "Mallory <mallory@example.org>"\n',
        c: f'pub revoked {word} {c}\nuid certified {word} "Carol: 100% + <carol@example.org>"\n',
        d: f'pub usable {word} {d}\nuid certified {word} "Dave"\n',
    }  # fmt: skip
    key_id = made.alice.key_id.hex()
    for names_, found in (((a,), a), ((a.lower(),), a), ((f"0x{key_id}",), a), ((hexed(made.old),), a), (("ALICE@example.ORG",), a),
                          (("alice.b@example.org", "carol@example.org"), a + " " + c), ((d, a, key_id), a + " " + d), ((c,), c)):  # fmt: skip
        ended = command("find", "--at", str(NOW), *words, *names_, given=made.octets)
        verdict(f"find {names_}", ended == (0, "".join(listed[it] for it in found.split()).encode(), ""), ended)
    for line in (line for it in listed.values() for line in it.splitlines()):
        kind, state, checked = line.split()[:3]
        states = ("usable", "revoked") if kind == "pub" else ("certified", "unbound")
        verdict("the state comes first, and no word says that what nobody signed is verified", state in states and checked == word and "verified" not in line)
    for name in ("mallory@example.org", "bob@example.net", "nobody@example.org", "0" * 40, "0" * 16):
        ended = command("find", "--at", str(NOW), *words, name, given=made.octets)
        verdict(f"find {name}", ended == (1, b"", f"opgp: no certificate for {name}\n"), ended)
    both = command("find", "--unverified", "nobody@example.org", d, given=made.octets)
    verdict("find one of two", (both[0], both[2]) == (1, "opgp: no certificate for nobody@example.org\n") and b"Dave" in both[1], both)
    for name in ("alice", "", "0x1234", "alice@", "a b@c", "x\n", "12345678", "0" * 39):
        ended = command("find", "--unverified", "--", name, given=made.octets)
        what = "mail address" if "@" in name else "fingerprint, key ID or mail address"
        said = f"opgp: {name.encode('unicode_escape').decode().replace(chr(92) + 'n', chr(92) + 'x0A')} is no {what}\n"
        verdict(f"find {name!r}", ended == (2, b"", said), (ended, said))
    path = put(f"{ENV['ROOM']}/made.gpg", made.octets)
    binary = command("find", "--unverified", "--keyring", path, "--out", "binary", d, "carol@example.org")
    verdict("find --out binary", binary == (0, made.of_carol + made.of_dave, ""), binary)
    armored = command("find", "--unverified", "--out", "armor", d, given=made.octets)
    verdict("find --out armor", armored[0] == 0 and b"-----BEGIN PGP PUBLIC KEY BLOCK-----" in armored[1], armored)
    text = b"".join(armored[1].split(b"\n\n")[1].split(b"-----END")[0].split())
    verdict("what the armor has", base64.b64decode(text) == made.of_dave)
    none = command("find", "--unverified", "--out", "armor", "0" * 40, given=made.octets)
    verdict("find --out of nothing", none[:2] == (1, b""), none)


# ---- A Web Key Directory


def directory(opgp, everyday, made, ways):
    """The hashes, paths and files of a Web Key Directory."""
    wkd_names(everyday)
    room = tempfile.mkdtemp(dir=ENV["ROOM"])
    a = {it: f".well-known/openpgpkey/example.org/hu/{z_base_32(it)}" for it in ("alice", "alice.b", "carol")}
    prints = {"alice": hexed(made.alice), "alice.b": hexed(made.alice), "carol": hexed(made.carol)}
    for number_, (word, words) in enumerate(ways):
        folder = f"{room}/{number_}"
        ended = command("wkd", "tree", "--at", str(NOW), *words, "Example.org", folder, given=made.octets)
        wanted = "".join(f"{a[it]} {word} {prints[it]} {it}@example.org\n" for it in sorted(a, key=lambda it: f"{it}@")).encode()
        verdict(f"wkd tree, {word}", ended == (0, wanted, ""), ended)
        files = sorted(os.path.relpath(f"{at}/{it}", folder) for at, _, them in os.walk(folder) for it in them)
        verdict("the files of the tree", files == sorted([".well-known/openpgpkey/example.org/policy", *a.values()]), files)
        verdict("its policy is empty", octets_of(f"{folder}/.well-known/openpgpkey/example.org/policy") == b"")
        kept = [it for it in opgp.read(made.of_alice).packets() if it.component in (None, 0, 3, 4)]
        found = opgp.read(octets_of(f"{folder}/{a['alice']}")).packets()
        verdict("what is published of a certificate", [(it.kind, it.body) for it in found] == [(it.kind, it.body) for it in kept], found)
        other = opgp.read(octets_of(f"{folder}/{a['alice.b']}"))
        verdict("of another user ID", [len(it.user_ids) for it in other.certificates()] == [1] and len(other.signatures()) == 3)
        verdict("of a revoked one", octets_of(f"{folder}/{a['carol']}") == opgp.read(made.of_carol).normalised().write())
        again = command("wkd", "tree", "--at", str(NOW), *words, "example.org", folder, given=made.octets)
        verdict("a folder that isn't empty", again == (3, b"", f"opgp: write failed: {folder} isn't empty\n"), again)
    trees_refused(everyday, made, room)
    sizes_cut(opgp, everyday)
    revocations_kept(opgp, everyday)


def wkd_names(everyday):
    """Hashes and paths, and what is no address."""
    ended = command("wkd", "hash", "Joe.Doe@Example.ORG", "joe.doe@example.org")
    name = "iy9q119eutrkn8s1mk4r39qejnbu3n5q"  # of the draft
    lines = "".join(f"{name} .well-known/openpgpkey/example.org/hu/{name} {it}\n" for it in ("Joe.Doe@Example.ORG", "joe.doe@example.org"))
    verdict("wkd hash", ended == (0, lines.encode(), ""), ended)
    direct = command("wkd", "hash", "--method", "direct", "Joe.Doe@example.org")
    verdict("wkd hash --method direct", direct == (0, f"{name} .well-known/openpgpkey/hu/{name} Joe.Doe@example.org\n".encode(), ""), direct)
    verdict("other letters than those of ASCII stay", everyday.wkd_hash("JÖRG@x.org") == z_base_32("jÖrg") != everyday.wkd_hash("jörg@x.org"))
    for wrong in ("joe", "joe@", "@x", "joe@../x", "joe@x y", "joe@x..y", "a@b@c", ""):
        ended = command("wkd", "hash", wrong)
        verdict(f"wkd hash {wrong}", ended == (2, b"", f"opgp: {wrong} is no mail address\n"), ended)
    for wrong in ("-x", "x/y", "exämple"):
        ended = command("wkd", "hash", f"joe@{wrong}")
        verdict(f"wkd hash joe@{wrong}", ended == (2, b"", f"opgp: {wrong} is no domain in ASCII\n"), ended)


def trees_refused(everyday, made, room):
    """Domains without certificates, what is none, and folders that can't be."""
    os.mkdir(f"{room}/empty")
    ended = command("wkd", "tree", "--unverified", "--method", "direct", "example.net", f"{room}/empty", given=made.octets)
    verdict("wkd tree of a domain without certificates", ended == (0, b"", "") and os.listdir(f"{room}/empty/.well-known/openpgpkey") == ["policy"], ended)
    for wrong in ("..", "a/b", "", "exämple.org", "-a.org", "x" * 300):
        ended = command("wkd", "tree", "--unverified", "--", wrong, f"{room}/none", given=made.octets)
        verdict(f"wkd tree of {wrong}", ended == (2, b"", f"opgp: {wrong} is no domain in ASCII\n") and not os.path.exists(f"{room}/none"), ended)
    ended = command("wkd", "tree", "example.org", f"{room}/none", given=made.octets, path="/nowhere")
    said = "opgp: opgp-verify isn't found: name one by --verifier, or take what is --unverified\n"
    verdict("wkd tree without a verifier", ended == (3, b"", said) and not os.path.exists(f"{room}/none"), ended)
    ended = command("wkd", "tree", "--unverified", "example.org", put(f"{room}/file", b""), given=made.octets)
    verdict("wkd tree into a file", ended[:2] == (3, b"") and ended[2].startswith("opgp: write failed: "), ended)
    verdict("another method", raised(ValueError, lambda: everyday.wkd_path("a@b", "other")))


def revocations_kept(opgp, everyday):
    """A revocation of the primary key is published behind it, wherever it stands."""
    key, sub = signers.ed25519("kept", START), signers.ed25519("kept sub", START)
    revokes, other = signers.revocation(key, START + 1), signers.identity(key, b"Other <b@b.org>", START)
    whole = signers.certificate(key, b"Kept <a@b.org>", made=START)
    gone = other + signers.identity(key, b"Other <b@b.org>", START + 1, kind=0x30)[len(packet(13, b"Other <b@b.org>")) :]
    keyring = opgp.read(whole + gone + packet(13, b"Eve <e@b.org>"))
    entries = everyday.survey(keyring, NOW)
    verdict("a revoked user ID", [it.how for it in entries[0].user_ids] == ["certified", "revoked", "unbound"], entries)
    verdict("isn't published", [it.address for it in everyday.wkd_files(keyring, entries, "b.org")] == [None, "a@b.org"])
    verdict("isn't found", not everyday.find(entries, "b@b.org") and not everyday.find(entries, "e@b.org") and everyday.find(entries, "a@b.org"))
    subkey, picture = signers.subkey(key, sub, START), packet(17, b"\x01\x01")
    for where, octets in (("the key", packet(6, key.body) + revokes + whole[len(packet(6, key.body)) :]), ("its user ID", whole + revokes),
                          ("another user ID", whole + other + revokes), ("a subkey", whole + subkey + revokes),
                          ("an attribute", whole + picture + revokes)):  # fmt: skip
        keyring = opgp.read(octets)
        found = opgp.read([*everyday.wkd_files(keyring, everyday.survey(keyring, NOW), "b.org")][1].octets)
        kinds = [it.kind for it in found.packets()]
        verdict(f"a revocation behind {where}", found.signatures()[0].kind == 0x20 and found.packets()[1].body == revokes[-len(found.packets()[1].body) :]
                and kinds == [6, 2, 13, 2] + [14, 2] * (where == "a subkey") and len(found.certificates()) == 1, kinds)  # fmt: skip
        verdict(f"it is revoked, behind {where}", everyday.survey(found, NOW)[0].primary.how == "revoked")


def revoking(opgp, everyday, verifier):
    """Revocations alone, and a revocation certificate that is put behind its key."""
    key, other, sub = (signers.ed25519(it, START) for it in ("revoked", "stays", "revoked sub"))
    of_key = packet(6, key.body) + signers.identity(key, b"Key <key@b.org>", START) + signers.subkey(key, sub, START)
    of_other = signers.certificate(other, b"Other <other@b.org>", made=START)
    old = b"\x98" + packet(6, key.body)[1:]  # framed in the legacy format
    keyring, revokes = old + of_key[len(old) :] + of_other, signers.revocation(key, START + 1)
    gone = signers.identity(key, b"Key <key@b.org>", START + 1, kind=0x30)[len(packet(13, b"Key <key@b.org>")) :]
    front = packet(6, key.body)
    room = tempfile.mkdtemp(dir=ENV["ROOM"])
    wanted = front + revokes + of_key[len(front) :] + of_other
    for name, octets in (("binary", revokes), ("armored", model.armor(revokes, b"PUBLIC KEY BLOCK")), ("a signature's block", model.armor(revokes, b"SIGNATURE")),
                         ("with text around", b"This is a revocation certificate\n\n" + model.armor(revokes, b"PUBLIC KEY BLOCK") + b"\nEnd\n"),
                         ("twice", revokes + revokes), ("with the line ends of mail", model.armor(revokes, b"SIGNATURE").replace(b"\n", b"\r\n"))):  # fmt: skip
        path = put(f"{room}/revocation", octets)
        ended = command("revoke", "--verifier", verifier, "--revocation", path, "--out", "binary", given=keyring)
        verdict(f"revoke, {name}", ended == (0, wanted, ""), ended)
        again = command("revoke", "--unverified", "--revocation", path, "--out", "binary", given=wanted)
        verdict(f"revoke again, {name}", again == (0, wanted, ""), again)
        verdict(f"it is revoked, {name}", everyday.survey(opgp.read(wanted), NOW)[0].primary.how == "revoked")
    ended = command("revoke", "--unverified", "--revocation", put(f"{room}/revocation", revokes), given=model.armor(keyring, b"PUBLIC KEY BLOCK"))
    verdict("revoke, written armored", ended[0] == 0 and ended[1].startswith(b"-----BEGIN PGP PUBLIC KEY BLOCK-----\n") and opgp.read(ended[1]).write() == wanted)
    forged = bytearray(revokes)
    forged[-1] ^= 1
    stranger = signers.revocation(sub, START + 1)
    for name, octets, said in (("forged", bytes(forged), "the revocation doesn't verify"), ("of another key", stranger, f"no certificate has the key {hexed(sub)}"),
                               ("another signature", gone, "a packet that isn't a key revocation with an issuer"), ("a key", of_other, "a packet that isn't a key"),
                               ("nothing", b"", "no key revocation"), ("a text", b"no block", "no key revocation")):  # fmt: skip
        path = put(f"{room}/revocation", octets)
        ended = command("revoke", "--verifier", verifier, "--revocation", path, given=keyring)
        verdict(f"revoke, {name}", ended[:2] == (1, b"") and ended[2].startswith(f"opgp: {path}: {said}"), ended)
    ended = command("revoke", "--revocation", put(f"{room}/revocation", revokes), given=keyring, path="/nowhere")
    verdict("revoke without a verifier", ended[:2] == (3, b"") and "--unverified" in ended[2], ended)
    ended = command("revoke", "--unverified", "--revocation", f"{room}/none", given=keyring)
    verdict("revoke by a file that isn't there", ended[:2] == (3, b"") and ended[2].startswith("opgp: read failed"), ended)
    # Revocations alone: of the key, of a user ID, and of a subkey.
    said = signers.said(key, START + 1, subpacket(29, b"\0"))
    of_sub = packet(2, signature(key, 0x28, key.octets + sub.octets, said, key.issuer_key_id))
    whole = front + revokes + of_key[len(front) :] + of_sub + of_other + bytes(forged)
    for verify, them in (("--unverified", (revokes, of_sub, bytes(forged))), (f"--verifier={verifier}", (revokes, of_sub))):
        ended = command("revocations", verify, given=whole)
        verdict(f"revocations, {verify}", ended == (0, b"".join(them), ""), ended)
    ended = command("revocations", "--unverified", given=of_key + gone)
    verdict("the revocation of a certification, on a subkey", ended == (0, gone, ""), ended)
    ended = command("revocations", "--unverified", given=of_key)
    verdict("no revocations", ended == (1, b"", "opgp: no revocation\n"), ended)


def sizes_cut(opgp, everyday):
    """Packets of all sizes of headers are cut where they end."""
    for size in (100, 191, 192, 8383, 8384, 70000):
        key = signers.ed25519("sizes", START)
        text = b"x" * (size - 12) + b" <a@b.org>"
        notes = subpacket(20, bytes(4) + number(2, 3) + number(2, size) + b"a@b" + bytes(size)) if size < 60000 else b""
        octets = signers.certificate(key, text, signers.identity(key, b"Other <b@b.org>", START), made=START, subpackets=(notes,))
        keyring = opgp.read(octets)
        files = {it.address: it.octets for it in everyday.wkd_files(keyring, everyday.survey(keyring, NOW), "b.org")}
        found = [opgp.read(files[it]).certificates()[0].user_ids for it in ("a@b.org", "b@b.org")]
        verdict(f"a user ID of {size} octets", found == [(text.decode(),), ("Other <b@b.org>",)], found)


def z_base_32(local):
    """The name of a local part, by Python's base 32 in another alphabet."""
    table = bytes.maketrans(b"ABCDEFGHIJKLMNOPQRSTUVWXYZ234567", b"ybndrfg8ejkmcpqxot1uwisza345h769")
    return base64.b32encode(hashlib.sha1(local.encode()).digest()).translate(table).decode()


# ---- Verifiers, inputs and command lines


def verifiers(opgp, made, verifier):
    """What runs as the verifier, and what can't."""
    room = tempfile.mkdtemp(dir=ENV["ROOM"])
    right = verdicts_of(opgp.read(made.of_dave))
    put(f"{room}/said", right)
    given = ("emails", "--at", str(NOW))

    def script(name, text):
        path = f"{room}/{name}"
        put(path, f"#!/bin/sh\n{text}\n".encode())
        os.chmod(path, 0o755)
        return path

    them = {
        f"cat > {room}/given; echo $@ > {room}/words; cat {room}/said": (0, ""),
        f"cat > /dev/null; cat {room}/said; echo some bad >&2; exit 1": (0, ""),
        "cat > /dev/null; echo row": (1, NOT_THOSE),
        "cat > /dev/null": (1, NOT_THOSE),
        f"cat > /dev/null; tail -n 1 {room}/said": (1, NOT_THOSE),
        "cat > /dev/null; echo first >&2; printf 'no \\033 memory\\n' >&2; exit 3": (3, "opgp: the verifier failed: {} ended with 3: no \\x1B memory\n"),
        "cat > /dev/null; echo refused >&2; exit 1": (3, "opgp: the verifier failed: {} ended with 1: refused\n"),
        "exit 2": (3, "opgp: the verifier failed: {} ended with 2: \n"),
        "echo \"no '$1'\" >&2; echo More >&2; exit 2": (3, "opgp: the verifier failed: {} ended with 2: no '--verdicts'\n"),
    }
    for number_, (text, (status, said)) in enumerate(them.items()):
        path = script(f"verifier{number_}", text)
        ended = command(*given, "--verifier", path, given=made.of_dave)
        verdict(f"the verifier {text}", ended == (status, b"", said.format(path)), ended)
    verdict("what it is given", octets_of(f"{room}/given") == made.of_dave and octets_of(f"{room}/words") == b"--verdicts\n")
    asked_less(opgp, made, room)
    put(f"{room}/said", right)
    for name, why in ((f"{room}/none", "No such file or directory"), (f"{room}/said", "Permission denied")):
        ended = command(*given, "--verifier", name, given=made.of_dave)
        verdict(f"the verifier {name}", ended == (3, b"", f"opgp: the verifier failed: {name}: {why}\n"), ended)
    ended = command("find", "Dave@x", given=made.of_dave, path="/nowhere")
    said = "opgp: nothing is verified: opgp-verify isn't found\nopgp: no certificate for Dave@x\n"
    verdict("no verifier", ended == (1, b"", said), ended)
    os.rename(f"{room}/verifier0", f"{room}/opgp-verify")
    ended = command("find", hexed(made.dave), given=made.of_dave, path=f"{room}:{os.environ['PATH']}")
    verdict("the verifier of the path", ended[0] == 0 and ended[1].startswith(f"pub usable checked {hexed(made.dave)}\n".encode()), ended)
    twice_given(made, room, right)
    if verifier:
        beside_states(opgp, made, verifier)


def asked_less(opgp, made, room):
    """A verifier isn't asked about what others certify."""
    everyday, keyring = importlib.import_module("opgp.everyday"), opgp.read(made.octets)
    raised(ValueError, lambda: everyday.verdicts_by(keyring, f"{room}/verifier0"))
    own = [it.body for it in keyring.packets() if (it.certificate, it.component, it.hang) != (0, 1, 1)]
    verdict("what others certify isn't asked", [it.body for it in opgp.read(octets_of(f"{room}/given")).packets()] == own)
    put(f"{room}/said", verdicts_of(opgp.read(octets_of(f"{room}/given"))))
    found = everyday.verdicts_by(keyring, f"{room}/verifier0")
    wanted = ["UNDECIDED" if (it.certificate, it.component, it.hang) == (0, 1, 1) else "GOOD" for it in keyring.signatures()]
    verdict("the verdicts are those of their rows", [it.name for it in found] == wanted, found)


def twice_given(made, room, right):
    """A certificate that is there twice, of which one copy lacks the revocation, is merged."""
    revoked = packet(6, made.dave.body) + signers.revocation(made.dave, START)
    for octets in (made.of_dave + revoked, revoked + made.of_dave, model.armor(made.of_dave) + model.armor(revoked)):
        ended = command("audit", "--unverified", "--at", str(NOW), given=octets)
        verdict("a revocation in another copy", ended[0] == 1 and len(ended[1].splitlines()) == 1 and b" revoked " in ended[1], ended)
    once, twice = (command("audit", "--verdicts", put(f"{room}/one", right), given=made.of_dave * it) for it in (1, 2))
    verdict("verdicts on one that is there twice", once == twice and once[1] != b"", twice)


def beside_states(opgp, made, verifier):
    """How keys and user IDs stand is what `opgp-verify --state` says."""
    everyday = importlib.import_module("opgp.everyday")
    sources = [made.octets] + [octets_of(f"{HERE}/tests/vectors/sq/{it}") for it in ("states_4.gpg", "states_6.gpg", "nist_4.gpg")]
    for name in ("debian-archive-keyring", "debian-archive-removed-keys", "debian-role-keys"):
        if os.path.exists(f"{KEYRINGS}/{name}.gpg"):
            sources.append(octets_of(f"{KEYRINGS}/{name}.gpg"))
    for octets in sources:
        keyring = opgp.read(octets)
        told = run(verifier, "--state", "--at", str(NOW), input=keyring.write()).stdout.decode().splitlines()
        whole = everyday.verdicts_in(keyring, run(verifier, "--verdicts", input=keyring.write()).stdout)
        less = everyday.verdicts_by(keyring, verifier)
        verdict("what isn't asked changes nothing", everyday.survey(keyring, NOW, whole) == everyday.survey(keyring, NOW, less))
        wanted = [re.sub("^cert \\d+ part \\S+ : ", "", it) for it in told]
        found = []
        for it in everyday.survey(keyring, NOW, everyday.verdicts_by(keyring, verifier)):
            keys = {key.key.component: f"{'pub' if key.key.is_primary else 'sub'} {hexed(key.key)} {key.how} uses {','.join(key.uses) or '-'} "
                    f"begin {key.state.begin} end {dash(key.state.end)} reason {dash(key.state.reason)}" for key in it.keys}  # fmt: skip
            ids = {user_id.state.component: f"uid {user_id.how} " for user_id in it.user_ids}
            pictures = {at.component: f"uat {'certified' if at.why is None else at.why.name.lower()}" for at in it.attributes}
            them = {**keys, **ids, **pictures}
            found += [them[at] for at in sorted(them, key=lambda at: -1 if at is None else at)]
        verdict("states beside opgp-verify", len(found) == len(wanted) > 0 and all(one.startswith(at) for at, one in zip(found, wanted)),
                [both for both in zip(found, wanted) if not both[1].startswith(both[0])][:3])  # fmt: skip


def wrong_words(made):
    """Wrong command lines, and what can't be read or written."""
    for words in ((), ("fly",), ("audit", "--fly"), ("audit", "a", "b"), ("find",), ("wkd",), ("wkd", "fly"), ("wkd", "hash"), ("wkd", "tree", "a"),
                  ("audit", "--at"), ("audit", "--at", "now"), ("audit", "--at", "-1"), ("audit", "--at", "2026-02-30"), ("audit", "--at", "1" * 19),
                  ("audit", "--at", "2026-1-1"), ("audit", "--at", "2106-02-07T06:28:16Z"), ("audit", "--at", "@"), ("audit", "--at", "@2026-01-01"), ("audit", "--rely", "none"), ("json", "--policy", "x"),
                  ("audit", "--unverified", "--verdicts", "x"), ("audit", "--verifier", "x", "--verdicts", "x"), ("find", "--out", "text", "x"),
                  ("wkd", "hash", "--at", "1", "a@b"), ("audit", "--unver"), ("wkd", "tree", "--method", "other", "a", "b")):  # fmt: skip
        ended = command(*words, given=made.of_dave)
        verdict(f"the words {words}", ended[:2] == (2, b"") and ended[2].startswith("usage: python3 -m opgp "), ended)
    for words in (("-h",), ("--help",), ("audit", "-h"), ("json", "--help"), ("hkp", "-h"), ("emails", "-h"), ("find", "-h"), ("wkd", "-h"),
                  ("wkd", "hash", "-h"), ("wkd", "tree", "-h")):  # fmt: skip
        ended = command(*words)
        verdict(f"help by {words}", ended[:2] == (2, b"") and ended[2].startswith("usage: python3 -m opgp ") and "--help" in ended[2], ended)
    dated(made)
    limited(made)
    fault = "armor: NoBlock block 0 at 4 inner 0\n"
    for words in (("json",), ("audit",), ("hkp",), ("emails",), ("find", "a@b"), ("wkd", "tree", "b", f"{ENV['ROOM']}/none")):
        ended = command(*words, "--unverified", given=b"text")
        verdict(f"text to {words}", ended == (1, b"", fault), ended)
        ended = command(*words, "--unverified", *(("--keyring", "/nowhere/x") if words[0] in ("find", "wkd") else ("/nowhere/x",)))
        verdict(f"no file to {words}", ended == (3, b"", "opgp: read failed: /nowhere/x: No such file or directory\n"), ended)
    ended = command("audit", "--verdicts", "/nowhere/x", given=made.of_dave)
    verdict("no verdicts", ended == (3, b"", "opgp: read failed: /nowhere/x: No such file or directory\n"), ended)
    ended = command("audit", "--verdicts", f"{HERE}/README.md", given=made.of_dave)
    verdict("other verdicts", ended == (1, b"", NOT_THOSE), ended)
    ended = command("emails", "/")
    verdict("a folder", ended == (3, b"", "opgp: read failed: /: Is a directory\n"), ended)
    for words, status, out in ((("audit",), 1, b""), (("emails",), 0, b""), (("hkp",), 0, b"info:1:0\n")):
        said = "opgp: the keyring has no certificate\n" * (words[0] == "audit")
        for how, more in (((), ""), (("--hints", "never"), ""), (("--hints", "always"), "opgp: the input is empty\n")):
            ended = command(*words, "--unverified", *how)
            verdict(f"an empty input to {words}", ended == (status, out, more + said), ended)
    verdict("the JSON of nothing", json.loads(command("json", "--unverified")[1])["certificates"] == [])


def dated(made):
    """Eight digits that may be a date aren't taken for seconds since 1970, of which `@` says that they are."""
    for word in ("20261101", "20260101", "20261231", "19700101", "00010101", "99991231"):
        for words in (("audit",), ("json",), ("emails",), ("hkp",), ("find", hexed(made.dave))):
            ended = command(*words, "--unverified", "--at", word, given=made.of_dave)
            said = f"{word} may be a date: write that with hyphens, and seconds since 1970 behind an @\n"
            verdict(f"{words[0]} --at {word}", ended[:2] == (2, b"") and ended[2].endswith(f" error: argument --at: {said}"), ended)
    for word, at in ((str(NOW), NOW), (f"@{NOW}", NOW), ("@20261101", 20261101), ("20261301", 20261301), ("20261100", 20261100), ("20261132", 20261132), ("0", 0),
                     ("2026110", 2026110), ("202611011", 202611011), ("@0", 0), ("2026-01-01", NOW), ("2026-01-01T00:00:00Z", NOW)):  # fmt: skip
        ended = command("json", "--unverified", "--at", word, given=made.of_dave)
        verdict(f"json --at {word}", ended[0] == 0 and json.loads(ended[1])["at"] == at, ended)


def skipped(opgp, made):
    """Octets outside of armored blocks are told of, as by `opgp`, and what lies in blocks is written."""
    alice, dave = model.armor(made.of_alice), model.armor(made.of_dave)
    count = "opgp: {} octets outside of armored blocks were skipped; read a binary file by itself\n".format
    cases = [
        ("packets behind a block", dave + made.of_alice, count(len(made.of_alice))),
        ("packets between two blocks", dave + made.of_carol + b"\n" + alice, count(len(made.of_carol) + 1)),
        ("a text with packets", b"Hello\n" + dave + made.of_alice, count(len(made.of_alice) + 6)),
        ("a zero", dave + b"\0", count(1)), ("a text", b"Hello\n" + dave + b"\n> me\n", ""), ("a text in UTF-8", "Jürgen\n".encode() + dave, ""),
        ("blank lines", b"\n \n" + dave + b"\n\n", ""), ("packets", made.of_dave + made.of_alice, ""), ("blocks", dave + alice, ""),
    ]  # fmt: skip
    for what, octets, said in cases:
        keyring = opgp.read(octets)
        verdict(f"{what}: the count", keyring.skipped() == int(re.sub(r"\D", "", said) or 0), keyring.skipped())
        it = keyring.merged()
        verdict(f"{what}: of what another call made", it.skipped() == keyring.normalised().skipped() == keyring.certificate(0).skipped() == 0)
        for words in (("audit",), ("json",), ("hkp",), ("emails",), ("find", hexed(made.dave)), ("revocations",), ("find", "--out", "binary", hexed(made.dave))):
            ended = command(*words, "--unverified", "--at", str(NOW), given=octets)
            verdict(f"{what} to {words}", ended[2].startswith(said) and ("skipped" in ended[2]) == bool(said), ended)
            is_there = b"Dave" in ended[1] or hexed(made.dave).encode() in ended[1]
            verdict(f"{what} to {words}: what is in blocks", is_there or words[0] in ("revocations", "emails"), ended)
        folder = tempfile.mkdtemp(dir=ENV["ROOM"])
        ended = command("wkd", "tree", "--unverified", "example.org", folder, given=octets)
        verdict(f"{what} to wkd tree", (ended[0], ended[2]) == (0, said), ended)
        theirs = run(PROGRAM, "list", input=octets) if os.path.exists(PROGRAM) else None
        verdict(f"{what} to opgp", not theirs or theirs.stderr.decode() == said, theirs)
    keyring.close()
    verdict("a closed keyring", raised(ValueError, keyring.skipped))
    ended = command("revoke", "--unverified", "--revocation", put(f"{ENV['ROOM']}/of-dave", signers.revocation(made.dave, START + 1)), given=dave + made.of_alice)
    verdict("packets behind a block to revoke", (ended[0], ended[2]) == (0, count(len(made.of_alice))), ended)
    # Files of both shapes: one behind the other loses the second, or is refused.
    ended = command("emails", "--unverified", "--outside", "refuse", given=dave + made.of_alice)
    verdict("packets behind a block, refused", ended[:2] == (1, b"") and ended[2].startswith("armor: Outside"), ended)
    ended = command("emails", "--unverified", given=made.of_alice + dave)
    verdict("a block behind packets", ended[:2] == (1, b"") and ended[2].startswith("framing: NotAPacket"), ended)


def secrets(made):
    """A secret key is named, whatever it is refused for, in the words of `opgp`; and nothing else is."""
    with open(f"{HERE}/crates/opgp_tool/src/hint.rt", encoding="utf-8") as it:
        words = re.search(r'SecretKey\s+"([^"]*)"', it.read())
    verdict("the words are those of opgp", words and f"opgp: {words[1]}\n" == secret_keys.SAID, words)
    named = 0
    for what, octets in secret_keys.inputs():
        ended = command("emails", "--unverified", "--hints", "always", given=octets)
        fault, *more = ended[2].splitlines(keepends=True)
        refused = ended[0] == 1 and re.match("(input|armor|framing|body|composition): ", fault)
        kept = ended[0] == 0 and "skipped" in fault  # behind an armored key
        verdict(f"a secret key, {what}", (refused or kept) and more == [secret_keys.SAID] and not secret_keys.shown(ended[1]), ended)
        bare = command("emails", "--unverified", given=octets)
        verdict(f"{what}, in a pipe", bare == (*ended[:2], fault), bare)
        theirs = run(PROGRAM, "list", "--hints", "always", input=octets) if os.path.exists(PROGRAM) else None
        verdict(f"{what}: the fault is that of opgp", not theirs or theirs.stderr.decode().splitlines(keepends=True)[0] == fault, (theirs, fault))
        named += bool(theirs) and theirs.stderr.decode().endswith(secret_keys.SAID)
    verdict("opgp names some of them", named > 5 or not os.path.exists(PROGRAM), named)
    octets = model.armor(made.of_dave) + secret_keys.certificate(made.dave)
    ended = command("emails", "--unverified", "--hints", "always", given=octets)
    verdict("a secret key that is skipped", ended[0] == 0 and ended[2].endswith(f"were skipped; read a binary file by itself\n{secret_keys.SAID}"), ended)
    path = put(f"{ENV['ROOM']}/secret", model.armor(secret_keys.certificate(made.dave), b"PRIVATE KEY BLOCK"))
    ended = command("revoke", "--unverified", "--hints", "always", "--revocation", path, given=made.of_dave)
    verdict("a secret key for a revocation", ended[:2] == (1, b"") and ended[2].endswith(secret_keys.SAID), ended)
    has_secret_key = importlib.import_module("opgp.secret").has_secret_key
    rng = random.Random(68)
    public = [made.octets, model.armor(made.octets), b"", b"text", bytes(1000), rng.randbytes(100000), base64.b64encode(rng.randbytes(100000))]
    public += [octets_of(f"{HERE}/tests/vectors/{it}") for it in ("sq/states_4.gpg", "sq/states_6.gpg", "real/debian-archive-bookworm-stable.gpg")]
    for octets in public:
        verdict("no secret key", not has_secret_key(octets), octets[:40])
        for _ in range(40):
            at = rng.randrange(len(octets) + 1)
            tried = rng.choice([octets[:at], octets[at:], octets[:at] + b"!" + octets[at + 1 :], octets[:at] + rng.randbytes(3) + octets[at:]])
            verdict("no secret key, of mutants", not has_secret_key(tried), (octets[:40], at, tried[:80]))
    for name in ("a4.asc", "a5.asc"):  # of RFC 9580, A.4 and A.5
        verdict(f"the secret key of {name}", has_secret_key(octets_of(f"{HERE}/tests/vectors/standard/{name}")))


def limited(made):
    """The limits and policies of reading, by the options of `opgp`: the faults are its own."""
    armored = importlib.import_module("opgp").read(made.of_dave).write(True)
    cases = [
        (("--mode", "binary"), armored, "framing: NotAPacket block 0 at 0 inner 0"),
        (("--mode", "armor"), made.of_dave, "armor: NoBlock block 0 at"),
        (("--outside", "refuse"), b"before\n" + armored, "armor: Outside block 0 at 0 inner 0"),
        (("--body", "512"), packet(13, b"u" * 513), "framing: BodyTooLong block 0 at 0 inner 1"),
        (("--cert", "512"), made.of_dave + packet(13, b"u" * 511), "composition: CertTooLong block 0 at "),
        (("--input", "9"), made.of_dave, "input: InputTooLong"),
        (("--line", "128"), armored.replace(b"\n\n", b"\nComment: " + b"c" * 129 + b"\n\n", 1), "armor: LineTooLong"),
    ]
    for words, given, said in cases:
        ended = command("emails", "--unverified", *words, given=given)
        verdict(f"{words}", ended[:2] == (1, b"") and ended[2].startswith(said), ended)
        theirs = run(PROGRAM, "list", "--quiet", *words, input=given) if os.path.exists(PROGRAM) else None
        verdict(f"{words} beside opgp", not theirs or (theirs.returncode, theirs.stderr.decode()) == (1, ended[2]), theirs)
    for words in (("--line", "127"), ("--body", "511"), ("--cert", "0"), ("--input", "-1"), ("--pieces", "0"), ("--pieces", "16777217"),
                  ("--line", "1e3"), ("--mode", "text"), ("--outside", "keep"), ("--malformed", "skip")):  # fmt: skip
        ended = command("emails", "--unverified", *words, given=made.of_dave)
        verdict(f"the words {words}", ended[:2] == (2, b"") and ended[2].startswith("usage: python3 -m opgp "), ended)
    for words in (("--line", "1048576"), ("--body", "4294967295"), ("--cert", "1099511627776"), ("--input", str(2**62)), ("--pieces", "16777216")):
        ended = command("emails", "--unverified", *words, given=made.of_alice)
        verdict(f"the words {words}", ended[0] == 0 and ended[1], ended)


def devices(made):
    """Outputs and inputs that are full or closed."""
    words = [sys.executable, "-m", "opgp", "audit", "--unverified"]
    with open("/dev/full", "wb") as full:
        ended = subprocess.run(words, input=made.of_dave, stdout=full, stderr=subprocess.PIPE, check=False, env=ENV)
    verdict("a full output", (ended.returncode, ended.stderr) == (3, b"opgp: write failed\n"), ended)
    with open("/dev/full", "wb") as full:
        ended = subprocess.run(words, input=made.of_bob, stdout=subprocess.PIPE, stderr=full, check=False, env=ENV)
    verdict("full errors", ended.returncode == 1 and ended.stdout, ended)
    many = b"".join(signers.certificate(signers.ed25519(f"many {it}", START), b"Some <many@example.org>", made=START) for it in range(1000))
    path = put(f"{ENV['ROOM']}/many", many)
    line = " ".join(words)
    ours, theirs = os.pipe()
    os.close(ours)
    ended = subprocess.run([*words, "--at", str(NOW), path], stdout=theirs, stderr=subprocess.PIPE, check=False, env=ENV)
    os.close(theirs)
    verdict("a reader that has enough", (ended.returncode, ended.stderr) == (3, b""), ended)
    for end, said in (("<&-", b"opgp: read failed: standard input is closed\n"), (">&-", b"opgp: write failed\n")):
        ended = run("bash", "-c", f"{line} {end}" if end[0] == "<" else f"{line} {end} < {path}", env=ENV)
        verdict(f"closed by {end}", (ended.returncode, ended.stderr) == (3, said), ended)
    ended = run("bash", "-c", f"{line} 2>&- < {path}", env=ENV)
    verdict("closed errors", ended.returncode == 0 and ended.stdout.count(b"\n") == 1000, ended)
    ended = run("bash", "-c", f"{line} 2>&- < {put(path, made.of_bob)}", env=ENV)
    verdict("closed errors, and something to say", ended.returncode == 1 and ended.stdout.count(b"\n") == 1, ended)


def mutated(opgp, everyday, made):
    """Whatever the input is, all functions end, and lines are lines."""
    rng = random.Random(5)
    sources = [made.octets] + [it.octets for it in standing_cases.cases(11, 60)]
    for number_ in range(200):
        octets = bytearray(rng.choice(sources))
        for _ in range(rng.randrange(4)):
            octets[rng.randrange(len(octets))] ^= 1 << rng.randrange(8)
        try:
            keyring = everyday.once(opgp.read(bytes(octets), opgp.Limits(keep_malformed=True)))
        except opgp.Fault:
            continue
        entries = everyday.survey(keyring, NOW)
        lines = [it.line() for it in (*everyday.audit(entries, NOW), *everyday.emails(entries))]
        verdict("lines of mutated keyrings", all(it.isprintable() for it in lines), lines)
        verdict("their JSON", json.loads(json.dumps(everyday.json_of(entries, NOW)))["verified"] is False)
        index = everyday.hkp_index(entries)
        verdict("their index", all(line.count(":") in (2, 4, 6) for line in index.decode("ascii").splitlines()), index)
        for it in everyday.wkd_files(keyring, entries, "example.org"):
            verdict("their directory", opgp.read(it.octets, opgp.Limits(keep_malformed=True)).write() == it.octets)
        del number_


def large(opgp, everyday, _):
    """Large keyrings take a time that is linear in their size: some seconds for what here takes half of one."""
    key = signers.ed25519("large", START)
    names_ = b"".join(signers.identity(key, b"<u%d@x.org>" % it, START + it) for it in range(3000))
    again = b"".join(signers.identity(key, b"<u@x.org>", START + it)[11:] for it in range(3000))
    for what, octets in (("user IDs", names_), ("signatures", packet(13, b"<u@x.org>") + again), ("empty user IDs", packet(13, b"") * 20000),
                         ("a user ID of blanks", packet(13, b" " * 10**6)), ("a user ID of brackets", packet(13, b" (<" * 10**5))):  # fmt: skip
        begin = time.process_time()
        keyring = everyday.once(opgp.read(packet(6, key.body) + octets))
        entries = everyday.survey(keyring, NOW)
        files = [*everyday.wkd_files(keyring, entries, "x.org")]
        wanted = {"user IDs": 3001, "signatures": 2}.get(what, 1)
        verdict(f"many {what}", len(files) == wanted and everyday.json_of(entries, NOW) and everyday.hkp_index(entries), len(files))
        verdict(f"many {what} take their time", time.process_time() - begin < 20, time.process_time() - begin)


# ---- Beside programs of others


def rings():
    """The keyrings of the machine, and some that gpg made."""
    found = [f"{HERE}/tests/vectors/algorithms/{it}" for it in sorted(os.listdir(f"{HERE}/tests/vectors/algorithms")) if it.endswith(".gpg")]
    folder = sorted(os.listdir(KEYRINGS)) if os.path.isdir(KEYRINGS) else []
    return [it for it in found if "ed448" not in it] + [f"{KEYRINGS}/{it}" for it in folder if it.endswith(".gpg")]


def beside_gpg(opgp, everyday, verifier):
    """Sizes, curves, algorithms and addresses are gpg's. So are times, and what is revoked or expired, but for a few keys: of several
    self-signatures gpg hears one, and docs/VALIDITY.md all."""
    if not shutil.which("gpg"):
        left_out("gpg")
        return
    home = f"{ENV['ROOM']}/gpg"
    os.mkdir(home, 0o700)
    compared, different = 0, []
    for path in rings():
        keyring = everyday.once(opgp.read(octets_of(path)))
        entries = everyday.survey(keyring, int(time.time()), everyday.verdicts_by(keyring, verifier) if verifier else None, "any")
        told = keys_of_gpg(run("gpg", "--homedir", home, "--batch", "--no-options", "--with-colons", "--show-keys", path).stdout)
        for key in (key for entry in entries for key in entry.keys if hexed(key.key) in told):
            size, curve, algorithm, created, *stands_there = told[hexed(key.key)]
            what = f"{hexed(key.key)} of {os.path.basename(path)}"
            verdict(f"the size of {what}", (str(key.size.bits), key.size.curve or "") == (size, curve), (key.size, size, curve))
            verdict(f"the algorithm and time of {what}", (str(key.key.algorithm), str(key.key.created)) == (algorithm, created), created)
            stands_here = [str(key.state.end or ""), {"revoked": "r", "expired": "e"}.get(key.how, "")]
            compared += 1
            different += [(what, stands_here, stands_there)] if stands_here != stands_there else []
        show = "show-unusable-uids,show-unusable-subkeys"
        listed = run("gpg", "--homedir", home, "--batch", "--no-options", "--show-keys", "--with-wkd-hash", "--list-options", show, path).stdout
        theirs = re.findall(r"^ +([a-z0-9]{32}@\S+)$", listed.decode("utf-8", "replace"), re.M)
        found = {it.address for it in everyday.emails(entries)}
        ours = {f"{everyday.wkd_hash(it)}@{it.rpartition('@')[2].lower()}" for it in found}
        verdict(f"addresses of {os.path.basename(path)}", ours <= {*theirs} and 100 * len({*theirs} - ours) <= len(ours), ({*theirs} ^ ours))
    verdict("keys beside gpg", compared > 20 and 100 * len(different) <= compared, (compared, different[:5]))


def keys_of_gpg(listed):
    """Keys by their fingerprints: size, curve, algorithm, creation, and when they or their primary keys expire, and r or e."""
    found, last, primary = {}, None, None
    for it in (line.split(":") for line in listed.decode("utf-8", "replace").splitlines()):
        if it[0] in ("pub", "sub"):
            last, primary = it, it if it[0] == "pub" else primary
        elif it[0] == "fpr" and last:
            ends = [int(at[6]) for at in (last, primary) if at[6]]
            found[it[9]] = (last[2], last[16], last[3], last[5], str(min(ends, default="")), last[1] if last[1] in ("r", "e") else "")
            last = None
    return found


def beside_wks(opgp, everyday):
    """The names in a Web Key Directory, and its files, are those of gpg-wks-client."""
    if not GPG_WKS or not shutil.which("gpg"):
        left_out("gpg-wks-client")
        return
    # So that there are some on a machine without keyrings. The first is the example of the directory's draft.
    found = {"Joe.Doe@Example.ORG", "a@b.org", "first.last+tag@mail.example.net", "UPPER@EXAMPLE.COM", "x_y-z@sub.example.org", "0@1.example"}
    for path in rings():
        keyring = everyday.once(opgp.read(octets_of(path)))
        found |= {it.address for entry in everyday.survey(keyring, NOW) for it in entry.user_ids if it.address}
    found = sorted(found)
    told = run(GPG_WKS, "--print-wkd-hash", input="".join(f"{it}\n" for it in found).encode()).stdout.decode().splitlines()
    wanted = [f"{everyday.wkd_hash(it)} {it.translate({at: at + 32 for at in range(65, 91)})}" for it in found]
    verdict("names beside gpg-wks-client", told == wanted and len(found) > 5, [both for both in zip(told, wanted) if both[0] != both[1]][:3])


def beside_install(opgp, everyday):
    """The files of a directory have the user IDs and keys that gpg-wks-client puts there."""
    if not GPG_WKS or not shutil.which("gpg"):
        return
    for source in ("debian-archive-bookworm-stable.gpg",):
        path = f"{HERE}/tests/vectors/real/{source}"
        keyring = opgp.read(octets_of(path))
        address = keyring.certificates()[0].user_ids[0].partition("<")[2][:-1]
        home, folder = (tempfile.mkdtemp(dir=ENV["ROOM"]) for _ in range(2))
        ended = run(GPG_WKS, "-C", folder, "--install-key", path, address, env={**os.environ, "GNUPGHOME": home})
        files = {it.path: it.octets for it in everyday.wkd_files(keyring, everyday.survey(keyring, NOW), address.partition("@")[2])}
        theirs = sorted(os.path.relpath(f"{at}/{it}", folder) for at, _, them in os.walk(folder) for it in them)
        ours = sorted(it.removeprefix(".well-known/openpgpkey/") for it in files)
        verdict("the files of gpg-wks-client", ours == theirs, (ours, theirs, ended))
        for it in (name for name in theirs if "/hu/" in name):
            mine = opgp.read(files[f".well-known/openpgpkey/{it}"])
            other = opgp.read(octets_of(f"{folder}/{it}"))
            same = [(at.primary.fingerprint, at.user_ids, len(at.keys)) for at in mine.certificates()]
            verdict("what is in them", same == [(at.primary.fingerprint, at.user_ids, len(at.keys)) for at in other.certificates()], same)


def documented(everyday, verifier):
    """What the page says is there, and what is there is on the page."""
    with open(f"{HERE}/docs/EVERYDAY.md", encoding="utf-8") as it:
        page = it.read()
    for name in everyday.__all__:
        thing = getattr(everyday, name)
        verdict(f"{name} has a docstring", inspect.getdoc(thing) and "(" not in inspect.getdoc(thing).split(" ")[0], inspect.getdoc(thing))
        verdict(f"{name} is on the page", not inspect.isfunction(thing) or re.search(rf"\b{name}\b", page), name)
    for word in (*KEY_MEMBERS, "text", "utf8", "octets", "name", "comment", "address", "certified", "schema", "attributes", "user_ids"):
        verdict(f"the member {word} is on the page", f"`{word}`" in page)
    for word in ("rsa", "dsa", "elgamal", "curves", "expires-within", "no-sha1", "uses"):
        verdict(f"{word} of a policy is on the page", f"`{word}" in page)
    for example in re.findall(r"^    (python3 -m opgp .*)$", page, re.M):
        ended = command(*example.split()[3:5], "-h")
        verdict(f"the example {example}", ended[0] == 2 and ended[2].startswith("usage"), ended)
    folder = tempfile.mkdtemp(dir=ENV["ROOM"])
    put(f"{folder}/keyring.gpg", octets_of(f"{HERE}/tests/vectors/algorithms/rsa_2048.gpg"))
    source = re.search(r"```python\n(.*?)```", page, re.S)[1]
    beside = {**ENV, "PATH": f"{os.path.dirname(verifier)}:{ENV['PATH']}"}
    ended = run(sys.executable, "-c", source, cwd=folder, env=beside) if verifier else None
    verdict("the page's program", not ended or (ended.returncode, ended.stdout) == (0, b"2048 ('size',)\n2048 ('size',)\n"), ended)


def typed(room):
    """The types, by mypy, as they are installed; and how large the modules are."""
    folder = f"{room}/types/opgp"
    os.makedirs(folder)
    shutil.copy(f"{HERE}/python/opgp.py", f"{folder}/__init__.py")
    modules = sorted(it for it in os.listdir(f"{HERE}/python/wheel") if it.endswith((".py", ".typed")))
    for it in modules:
        shutil.copy(f"{HERE}/python/wheel/{it}", folder)
    for words, holds in ((("-m", "opgp", "hkp", "--unverified"), True), (("-c", "from opgp import everyday; print(everyday.wkd_hash('a@b'))"), True)):
        ended = run(sys.executable, *words, input=b"", env={**ENV, "PYTHONPATH": f"{room}/types"}, cwd=room)
        verdict(f"{words} as it is installed", (ended.returncode == 0 and ended.stdout != b"") == holds, ended)
    for it in (name for name in modules if name.endswith(".py")):
        verdict(f"{it} isn't too large", len(octets_of(f"{folder}/{it}").splitlines()) <= 800)
    if not shutil.which("mypy"):
        left_out("mypy")
        return
    ended = run("mypy", "--strict", f"--cache-dir={room}/mypy", "--python-version=3.9", "-p", "opgp", cwd=f"{room}/types")
    verdict("the types, by mypy", ended.returncode == 0, ended.stdout)


def libraries(room):
    """The paths of the library and of opgp-verify: that of OPGP_LIBRARY and what is beside it, or of what is made; empty: not here."""
    if given := os.environ.get("OPGP_LIBRARY"):
        verifier = os.path.join(os.path.dirname(os.path.abspath(given)), "opgp-verify")
        return os.path.abspath(given), verifier if os.access(verifier, os.X_OK) else ""
    made = run("make", "-C", HERE, f"{room}/libopgp.so.3", f"made={room}")
    verdict("make the library", made.returncode == 0, made.stderr.decode())
    verifier = run("make", "-C", HERE, f"{room}/opgp-verify", f"made={room}")
    return (f"{room}/libopgp.so.3" if made.returncode == 0 else ""), (f"{room}/opgp-verify" if verifier.returncode == 0 else "")


def main():
    with tempfile.TemporaryDirectory() as room:
        path, verifier = libraries(room)
        if path:
            os.environ["OPGP_LIBRARY"] = path
            sys.path.insert(0, f"{HERE}/python")
            opgp, everyday = (importlib.import_module(it) for it in ("opgp", "opgp.everyday"))
            ENV.update({**os.environ, "PYTHONPATH": f"{HERE}/python", "PYTHONPYCACHEPREFIX": f"{room}/cache", "ROOM": room, "LC_ALL": "C.UTF-8"})
            if not verifier:
                left_out("opgp-verify")
            made = Made()
            good = put(f"{room}/verdicts", verdicts_of(opgp.read(made.octets)))
            ways = [("checked", ("--verdicts", good)), ("unchecked", ("--unverified",))]
            ways += [("checked", ("--verifier", verifier))] if verifier else []
            for test in (sizes, names, stands, surveys_refused, verdicts, policies, beside_wks, beside_install):
                test(opgp, everyday)
            for test in (audits, as_json, indexed, addresses, directory):
                test(opgp, everyday, made, ways[::-1])
            verifiers(opgp, made, verifier)
            verdicts_of_others(opgp, verifier)
            skipped(opgp, made)
            secrets(made)
            if verifier:
                revoking(opgp, everyday, verifier)
            wrong_words(made)
            devices(made)
            mutated(opgp, everyday, made)
            large(opgp, everyday, made)
            beside_gpg(opgp, everyday, verifier)
            documented(everyday, verifier)
            typed(room)
    print(f"{passed} passed, {failed} failed")
    return int(failed > 0)


sys.exit(main())
