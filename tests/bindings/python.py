#!/usr/bin/env python3
"""Tries python/opgp.py over the library for C, which OPGP_LIBRARY names or which is made: the rows, faults, hashed octets and packets
of keyrings beside those that the program prints, signatures over documents beside hashlib, cleartext messages beside
tests/lib/cleartext.py, whether keys and signatures are believed beside tests/lib/standing.py, limits, verifiers, closing, copies, threads,
memory, the examples beside gpg where that and Debian's keyrings are, its wheel, and its types by mypy where that is. The last line counts
what was tried."""

import array
import base64
import contextlib
import copy
import ctypes
import ctypes.util
import dataclasses
import datetime
import glob
import hashlib
import importlib.util
import inspect
import io
import mmap
import os
import pathlib
import pickle
import random
import re
import resource
import shutil
import subprocess
import sys
import tempfile
import threading
import unittest.mock

sys.dont_write_bytecode = True
sys.path.insert(0, f"{sys.path[0]}/../lib")

import causes  # noqa: E402
import cleartext  # noqa: E402
import model  # noqa: E402
import standing  # noqa: E402
import standing_cases  # noqa: E402
from running import COMMANDS, HERE, built, processor_seconds  # noqa: E402

PROGRAM = built("tests/bindings/python.py")
A1, A3 = (f"{HERE}/examples/rfc9580-{it}.asc" for it in ("a1", "a3"))
SOURCES = [A1, A3, f"{HERE}/tests/cases/check/two_blocks_checked/stdin",
           f"{HERE}/tests/cases/check/fillers_and_malformed_embedded_checked/stdin", f"{HERE}/tests/cases/list/fillers_in_front_listed/stdin",
           f"{HERE}/tests/cases/list/attribute_in_front_of_a_subkey_listed/stdin"]
SOURCES += sorted(glob.glob(f"{HERE}/tests/vectors/*/*.asc") + glob.glob(f"{HERE}/tests/vectors/*/*.gpg"))
LIMITS = ("line", "body", "cert", "input", "pieces")
passed = failed = 0


def verdict(what, holds, said=""):
    global passed, failed
    passed, failed = passed + bool(holds), failed + (not holds)
    if not holds:
        print(f"tests/bindings/python.py: {what}: FAILED {said}"[:2000], file=sys.stderr)


def left_out(what):
    print(f"tests/bindings/python.py: left out, since it isn't here: {what}", file=sys.stderr)


def octets_of(source):
    with open(source, "rb") as it:
        return it.read()


def run(*words, **how):
    # What the program tells beside its fault is tried in tests/program/hints.py.
    if words[0] == PROGRAM and len(words) > 1 and words[1] in COMMANDS:
        words = [*words[:2], "--quiet", *words[2:]]
    return subprocess.run(words, capture_output=True, check=False, timeout=600, **how)


def program(octets, *words):
    return run(PROGRAM, *words, input=octets)


def lines_of(ended):
    return ended.stdout.decode().splitlines()


def raised(kind, call):
    """What a call raises, if it is of this kind; else None."""
    try:
        call()
    except BaseException as it:  # whatever it is
        return it if isinstance(it, kind) else None
    return None


def dash(number):
    return "-" if number is None else str(number)


def row_line(it, keys, found):
    """A signature's line, as `check` has it."""
    place = f"row {it.row} cert {it.certificate} part {dash(it.component)} hang {it.hang} nested {dash(it.nested)}"
    if it.why_not:
        return f"{place} : none {it.why_not}"
    signer = "-" if it.signer is None else keys[it.signer].key_id.hex().upper()
    digest = it.digest[:2].hex().upper()
    return f"{place} : asked type {it.kind:02X} hash {it.hash} signer {signer} digest {digest} verdict {found.name.lower()}"


def key_line(it):
    names = f"{it.fingerprint.hex()} {it.key_id.hex()}".upper()
    return f"{'pub' if it.is_primary else 'sub'} v{it.version} alg {it.algorithm} created {it.created} {names}"


def places_of(packets):
    """Where each packet is: its certificate, its component, and its number among those that follow what begins that."""
    certificate = component = None
    hang = 0
    for it in packets:
        if it.kind == 6:
            certificate, component, hang = 0 if certificate is None else certificate + 1, None, 0
        elif it.kind in (13, 14, 17):
            component, hang = 0 if component is None else component + 1, 0
        else:
            yield certificate, component, hang
            hang += 1
            continue
        yield certificate, component, None


def rows_fit(opgp, source):
    octets, what = octets_of(source), os.path.relpath(source, HERE)
    listed = program(octets, "list")
    if listed.returncode:
        fault = raised(opgp.Fault, lambda: opgp.read(octets))
        verdict(f"the fault of {what}", fault and f"{fault}\n" == listed.stderr.decode(), (fault, listed.stderr))
        return
    with opgp.read(octets) as keyring:
        bare = keyring.write()
        verdict(f"{what} written bare", bare == program(octets, "write", "--out", "binary").stdout)
        verdict(f"{what} written in armor", keyring.write(armor=True) == program(octets, "write", "--out", "armor").stdout)
        keys, packets, signatures = keyring.keys(), keyring.packets(), keyring.signatures()
        verdict(f"keys of {what}", [key_line(it) for it in keys] == [it for it in lines_of(listed) if it[:3] in ("pub", "sub")], keys)
        shown = re.findall(r"type (\d+) form \w+ length (\d+)$", program(bare, "show", "--mode", "binary").stdout.decode(), re.M)
        verdict(f"packets of {what}", [(str(it.kind), str(len(it.body))) for it in packets] == shown)
        verdict(f"places of the packets of {what}", [(it.certificate, it.component, it.hang) for it in packets] == [*places_of(packets)], packets)
        at = 0
        for it in packets:  # each body stands behind the one before
            at = bare.find(it.body, at)
            verdict(f"a body of {what}", at >= 0, it)
            at += len(it.body)
        material = [(number, it.certificate, it.component, filled(model.key_material(it.body)))
                    for number, it in enumerate(it for it in packets if it.kind in (6, 14))]
        verdict(f"material of {what}", [(it.row, it.certificate, it.component, it.material) for it in keys] == material, material)
        checked = keyring.check()
        lines = lines_of(program(octets, "check"))
        verdict(f"rows of {what}", [row_line(it, keys, found) for it, found in checked] == lines, lines)
        verdict(f"signatures of {what}", [it for it, _ in checked] == signatures)
        subpackets_fit(what, signatures, packets)
        for it in signatures[:40]:
            wanted = program(octets, "octets", "--row", str(it.row))
            if it.why_not:
                verdict(f"no octets of row {it.row} of {what}", raised(IndexError, lambda row=it.row: keyring.octets(row)) and wanted.returncode)
            else:
                verdict(f"octets of row {it.row} of {what}", keyring.octets(it.row) == wanted.stdout)
                digest = hashlib.new(model.HASHES[it.hash], wanted.stdout).digest()
                verdict(f"digest of row {it.row} of {what}", (it.digest, it.is_bad) == (digest, digest[:2] != it.left), it)
        parts = keyring.certificates()
        verdict(f"certificates of {what}", [it.number for it in parts] == list(range(len(parts))))
        for name, rows in (("packets", packets), ("keys", keys), ("signatures", signatures)):
            verdict(f"{name} of the certificates of {what}", [row for it in parts for row in getattr(it, name)]
                    == [it for it in rows if it.certificate is not None])
        verdict(f"primary keys of {what}", all(it.primary.is_primary and it.primary == it.keys[0] for it in parts))
        told = [body.decode("utf-8", "surrogateescape") for body in (it.body for it in packets if it.kind == 13)]
        verdict(f"user IDs of {what}", [name for it in parts for name in it.user_ids] == told)


def filled(fields):
    """These fields without the empty ones at the end."""
    while fields and not fields[-1]:
        fields = fields[:-1]
    return tuple(fields)


def subpackets_fit(what, signatures, packets):
    """The fields, the signer and the subpackets of each signature are those that the model finds in it."""
    bodies = {(it.certificate, it.component, it.hang): it.body for it in packets if it.kind == 2}
    keys = [it.body for it in packets if it.kind in (6, 14)]
    for it in signatures:
        body = bodies[it.certificate, it.component, it.hang]
        if it.nested is not None:
            outer = model.Signature(body)
            body = [data for octet, _, data in (*outer.hashed, *outer.unhashed) if octet & 127 == 32][it.nested]
        row_fits(what, it, body, keys)


def row_fits(what, it, body, keys):
    """The same of one signature, with this body, where the keyring has keys of these bodies."""
    try:
        found = model.Signature(body)
    except model.Unfit:
        found = None
    kept = model.kept_signature(body)
    fields = (kept.version, kept.kind, kept.algorithm, kept.hash, kept.left, filled(model.made_by(kept)))
    told = (it.version, it.kind, it.algorithm, it.hash, it.left, it.made)
    verdict(f"fields of row {it.row} of {what}", told == fields, (it, fields))
    signer = model.signer_of(kept, keys)
    verdict(f"signer of row {it.row} of {what}", it.signer == (keys.index(signer) if signer else None), it)
    if it.why_not:
        verdict(f"no digest of row {it.row} of {what}", (it.digest, it.is_bad) == (b"", False), it)
    areas = ((True, found.hashed), (False, found.unhashed)) if found and found.version in (4, 6) else ()
    wanted = [(octet & 127, octet > 127, is_hashed, model.meaning(octet & 127, data), data, *model.plain(octet & 127, data))
              for is_hashed, area in areas for octet, _, data in area]
    told = [(of.kind, of.is_critical, of.is_hashed, of.meaning, of.data, of.form, of.numbers, of.fields) for of in it.subpackets]
    verdict(f"subpackets of row {it.row} of {what}", told == wanted, (told, wanted))
    hashed = {kind: data for kind, _, is_hashed, meaning, data, *_ in wanted if is_hashed and meaning == "typed"}
    numbers = [int.from_bytes(hashed[kind], "big") if kind in hashed else None for kind in (3, 9)]
    verdict(f"times of row {it.row} of {what}", [it.expires, it.key_expires] == numbers, (it, numbers))
    wanted = model.created_of(kept), model.issuer_of(kept)
    verdict(f"time and issuer of row {it.row} of {what}", (it.created, it.issuer) == wanted, (it, wanted))
    flags = None if 27 not in hashed else int.from_bytes(hashed[27][:1], "big")
    verdict(f"flags of row {it.row} of {what}", it.key_flags == flags, (it, flags))


def names(opgp):
    """The names of numbers are those of the documents, and no others."""
    known = {(table, number): name for table, number, name in model.names()}
    told = {(table, number): opgp._name(table, number) for table in range(9) for number in range(256)}
    verdict("the names of numbers", told == {it: known.get(it) for it in told} and len(known) > 100)
    keyring = opgp.read(octets_of(A3))
    key, signature = keyring.keys()[0], keyring.signatures()[0]
    found = [keyring.packets()[0].kind_name, key.algorithm_name, signature.algorithm_name, signature.kind_name, signature.hash_name]
    found += [it.name for it in signature.subpackets[:2]]
    wanted = [(0, 6), (1, key.algorithm), (1, signature.algorithm), (3, signature.kind), (2, signature.hash)]
    wanted += [(4, it.kind) for it in signature.subpackets[:2]]
    verdict("names in rows", found == [known[it] for it in wanted], found)


def fault_in_pieces(opgp, octets, limits_given, size, found):
    """The fault of what is read in pieces, if it has one; the parts are added to those that were found."""
    return raised(opgp.Fault, lambda: found.extend(opgp.parts(io.BytesIO(octets), limits_given, size)))


def faults(opgp):
    """Each input of docs/FAULTS.md, with its limits, is refused with the same line as by the program, and with the reason's number."""
    with open(f"{HERE}/docs/FAULTS.md", encoding="utf-8") as it:
        page = it.read()
    examples = re.findall(r"^    (.*\bopgp (?:list|show|octets).*)$", page, re.M)
    numbers = {name: int(number) for number, name in re.findall(r"^### (\d+) `(\w+)`$", page, re.M)}
    seen = set()
    for example in examples:
        octets = subprocess.run(["bash", "-c", f"opgp() {{ cat; }}; {example}"], cwd=HERE, capture_output=True, check=False).stdout
        given = {name: int(value) for name, value in re.findall(r"--(line|body|cert|input|pieces) (\d+)", example)}
        options = [it for name in given for it in (f"--{name}", str(given[name]))]
        if "--outside refuse" in example:
            given["refuse_outside"] = True
            options += ["--outside", "refuse"]
        wanted = run(PROGRAM, "list", *options, input=octets)
        found = raised(opgp.Fault, lambda octets=octets, given=given: opgp.read(octets, opgp.Limits(**given)))
        said = wanted.stderr.decode() if wanted.returncode else ""
        verdict(f"the fault of {example}", (f"{found}\n" if found else "") == said, (found, said))
        in_pieces = fault_in_pieces(opgp, octets, opgp.Limits(**given), 61, [])
        verdict(f"the fault in pieces of {example}", str(in_pieces) == str(found), (found, in_pieces))
        if found:
            seen.add(found.reason)
            verdict(f"its number, of {example}", found.number == numbers[found.reason] and isinstance(found, ValueError), found.number)
    verdict("most reasons are seen", len(seen) >= 33, sorted(seen))


def keyrings_made(opgp):
    """Keyrings made of others are those that the program writes."""
    for source in SOURCES:
        octets, what = octets_of(source), os.path.relpath(source, HERE)
        if program(octets, "list").returncode:
            continue
        with opgp.read(octets) as keyring, opgp.read(octets) as again:
            bare = keyring.write()
            for name, it, wanted in (
                ("normalised", keyring.normalised(), program(bare, "normalise", "--out", "binary")),
                ("merged", keyring.merged(), program(bare, "join", "--merge", "--out", "binary")),
                ("joined", keyring.joined(again), program(bare * 2, "join", "--out", "binary")),
                ("joined with itself", keyring.joined(keyring), program(bare * 2, "join", "--out", "binary")),
            ):
                verdict(f"{what} {name}", it.write() == wanted.stdout)
            for number in (0, 1, 7):
                wanted = program(bare, "split", "--nth", str(number), "--out", "binary")
                if wanted.returncode:
                    verdict(f"no certificate {number} of {what}", raised(IndexError, lambda number=number: keyring.certificate(number)))
                else:
                    verdict(f"certificate {number} of {what}", keyring.certificate(number).write() == wanted.stdout)
            for number in (-1, 1 << 64):
                verdict(f"no certificate {number}", raised(IndexError, lambda number=number: keyring.certificate(number)))
            verdict(f"{what} is as it was", keyring.write() == bare)
            for it in (5, None, "text", bare):
                verdict(f"joined with {type(it).__name__}", raised(TypeError, lambda it=it: keyring.joined(it)))
        for name, call in (("normalised", again.normalised), ("merged", again.merged), ("certificate", lambda: again.certificate(0)),
                           ("joined", lambda: opgp.read(octets).joined(again))):
            verdict(f"{name} of a closed keyring", raised(ValueError, call))


def keyrings_chosen(opgp):
    """Chosen parts are those that the program writes, or that a model of the packets leaves."""
    for source in SOURCES:
        try:
            keyring = opgp.read(octets_of(source))
        except ValueError:
            continue
        for own in (False, True):
            for attributes in (False, True):
                for ids in ((), (0,), (1,), (9,)):
                    words = ["--own-signatures"] * own + ["--no-attributes"] * (not attributes)
                    words += [word for it in ids for word in ("--user-id", str(it))]
                    wanted = program(keyring.write(), "write", "--out", "binary", *words).stdout
                    verdict(f"choose {own} {attributes} {ids} of {source}", keyring.choose(own, attributes, ids).write() == wanted)
        for ids in ((0, 1), (1, 0, 1), (2, 0), range(64)):
            numbers, left, last = {}, [], None
            for it in keyring.packets():
                if it.kind == 13 and it.hang is None:
                    numbers[it.certificate] = numbers.get(it.certificate, -1) + 1
                if it.hang is None:
                    last = it.kind != 13 or numbers[it.certificate] in ids
                if last or it.certificate is None:
                    left.append((it.kind, it.body))
            found = [(it.kind, it.body) for it in keyring.choose(user_ids=ids).packets()]
            verdict(f"choose {[*ids][:3]} of {source}", found == left, (len(found), len(left)))
    keyring = opgp.read(octets_of(A1))
    verdict("choose everything", keyring.choose().write() == keyring.write())
    for ids, kind in (((-1,), IndexError), ((2**64,), IndexError), (("0",), TypeError), (0, TypeError)):
        verdict(f"choose {ids}", raised(kind, lambda ids=ids: keyring.choose(user_ids=ids)) is not None)


def keyrings_picked(opgp):
    """Picked certificates are those that the program splits off."""
    for source in SOURCES:
        try:
            keyring = opgp.read(octets_of(source))
        except ValueError:
            continue
        names = [it.fingerprint.hex() for it in keyring.keys()]
        ids = [it.key_id.hex().upper() for it in keyring.keys()]
        for them in ((), names[:1], names[-1:], ids[:1], [*names[1:9:2], *ids[:3]], names[:40]):
            for others in (False, True):
                words = [word for it in them for word in ("--key", it)] + ["--except"] * others
                wanted = program(keyring.write(), "split", "--out", "binary", *words).stdout if them else b"" if not others else None
                if wanted is None:
                    wanted = b"".join(keyring.certificate(it).write() for it in range(len(keyring.certificates())))
                found = keyring.pick(them, others).write()
                verdict(f"pick {len(them)} {others} of {source}", found == wanted, (len(found), len(wanted)))
    keyring = opgp.read(octets_of(A1))
    key = keyring.keys()[-1]
    for name in (key.fingerprint, key.key_id, f"0x{key.key_id.hex()}", key.fingerprint.hex().upper()):
        verdict(f"pick by {name!r}", keyring.pick([name]).write() == keyring.write() and keyring.pick([name], True).write() == b"")
    for names, kind in ((["00" * 20], KeyError), ([b"", key.key_id], KeyError), (["key"], ValueError), ([5], TypeError), (5, TypeError)):
        for others in (False, True):
            verdict(f"pick {names} {others}", raised(kind, lambda names=names, others=others: keyring.pick(names, others)) is not None)
    keyring.close()
    verdict("pick of a closed keyring", raised(ValueError, lambda: keyring.pick([])) is not None)


# The rule of opgp.h, by regular expressions.
BEGINS = re.compile(rb"-----BEGIN PGP (?!SIGNED MESSAGE-----\Z)[ -,.-~]+-----")
ENDS = re.compile(rb"-----END PGP [ -,.-~]+-----")
CONTENT = re.compile(rb"[ \t>]*(.*?)(?:[ \t\r]|<[bB][rR](?: ?/)?>)*", re.S)
PART = rb"[^\x00-\x20\x7F()<>\[\]:;@\\,\".%b]+"
ADDRESS = rb"%b(?:\.%b)*@%b(?:\.%b)*" % (*[PART % b""] * 2, *[PART % b"_"] * 2)
WITH_ADDRESS = re.compile(rb"(%b)|[^<>]*<(%b)>" % (ADDRESS, ADDRESS))


def blocks_by_rule(text):
    first = 3 if text.startswith(b"\xef\xbb\xbf") else 0
    found, them = [], []
    for line in re.compile(rb"[^\n]*\n|[^\n]+").finditer(text, first):
        content = CONTENT.fullmatch(line[0].removesuffix(b"\n"))
        them.append((line.start() + content.start(1), content[1]))
    for number, (at, content) in enumerate(them):
        if BEGINS.fullmatch(content):
            these = [(at, content)]
            for it in them[number + 1 :]:
                if BEGINS.fullmatch(it[1]):
                    break
                these.append(it)
                if ENDS.fullmatch(it[1]):
                    break
            found.append((at, these[-1][0] + len(these[-1][1]) - at, b"".join(it + b"\n" for _, it in these)))
    return found


def mailed(octets, front, end):
    return b"".join(front + line + end for line in octets.splitlines())


def blocks_found(opgp):
    """Blocks in texts of mails are those of the rule, wherever a text is cut, and are read as they were."""
    def fits(what, text):
        found = [tuple(it) for it in opgp.find_blocks(text)]
        verdict(f"blocks of {what}", found == blocks_by_rule(text), (text[:200], found[:2]))
        verdict(f"how long blocks of {what} are", sum(len(it[2]) for it in found) <= len(text) + 1)
        return found

    a1, a3 = octets_of(A1), octets_of(A3)
    for front in (b"", b"> ", b">", b"  ", b"\t", b">> > ", b" \t>"):
        for end in (b"\n", b"\r\n", b"<br>\n", b"<BR />\r\n", b" <bR/> <br>\t\n"):
            text = b"On Monday you wrote:\n" + mailed(a1, front, end) + b"--\n" + mailed(a3, front, end).rstrip() + b"\n"
            for mark in (b"", b"\xef\xbb\xbf"):
                found = fits(f"{mark} {front} {end}", mark + text)
                holds = [opgp.read(it[2]).write() for it in found] == [opgp.read(it).write() for it in (a1, a3)]
                verdict(f"what is read of {mark} {front} {end}", holds, found)
    text = b"\xef\xbb\xbf" + mailed(a1, b"> ", b"<br>\r\n") + b"text\n" + mailed(a3, b"\t", b"\n")
    for at in range(len(text) + 1):
        fits(f"a text cut at {at}", text[:at])
        fits(f"a text from {at} on", text[at:])
    mails = sorted(glob.glob(f"{HERE}/tests/vectors/cleartext/mails/*"))
    for source in mails:
        fits(os.path.basename(source), octets_of(source))
    verdict("there are mails", mails)
    message = b"-----BEGIN PGP SIGNED MESSAGE-----\nHash: SHA256\n\n> a\n"
    message += b"-----BEGIN PGP SIGNATURE-----\n\nwnUE\n-----END PGP SIGNATURE-----\n"
    found = fits("a cleartext message", message)
    verdict("a cleartext message's block", [it[2][:29] for it in found] == [b"-----BEGIN PGP SIGNATURE-----"], found)
    words = [b"-----BEGIN PGP ", b"-----END PGP ", b"-----", b"X", b"SIGNED MESSAGE", b"PUBLIC KEY BLOCK", b">", b" ", b"\t",
             b"\r", b"\n", b"\n", b"<br>", b"<BR", b"/>", b" />", b"<", b"br", b"-", b"\x1f", b"\x7f", b"\x80", b"~", b"\0", b"\xef\xbb\xbf",
             b"-----BEGIN PGP X-----\n", b"-----END PGP Y-----<Br />", b"-----BEGIN PGP SIGNED MESSAGE-----"]
    draw = random.Random(9580)
    for turn in range(4000):
        fits(f"text {turn}", b"".join(draw.choices(words, k=draw.randrange(30))))
    begin = b"-----BEGIN PGP X-----"
    found = opgp.find_blocks(100_000 * (begin + b"\n"))
    verdict("many blocks", len(found) == 100_000 and found[-1] == (99_999 * 22, 21, begin + b"\n"), found[-1:])
    for front, behind in ((b"> " * 2_000_000, b""), (b"", b"<br>" * 1_000_000), (b"", b" " * 4_000_000), (b"", b"\n" * 1_000_000)):
        found = opgp.find_blocks(front + begin + behind)
        wanted = begin + b"\n" * (1 + max(0, behind.count(b"\n") - 1))
        verdict("a long text", [(it.at, it.octets) for it in found] == [(len(front), wanted)], found[0][:2] if found else found)
    for it in ("text", 1, None, [1]):
        verdict(f"no blocks in {it!r}", raised(TypeError, lambda it=it: opgp.find_blocks(it)) is not None)
    verdict("blocks in a bytearray", opgp.find_blocks(bytearray(a1)) == opgp.find_blocks(a1) == opgp.find_blocks(memoryview(a1)))


def user_ids_say(opgp):
    """What the octets of a user ID say is what Python's own decoder and the rule say."""
    def fits(octets):
        try:
            octets.decode()
            is_utf8 = True
        except UnicodeDecodeError:
            is_utf8 = False
        found, number = WITH_ADDRESS.fullmatch(octets), 0
        if found:
            number = 1 if found[1] is not None else 2
            try:
                found[number].decode()
            except UnicodeDecodeError:
                found = None
        wanted = (is_utf8, found.start(number), found[number]) if found else (is_utf8, None, None)
        verdict(f"what {octets} says", tuple(opgp.user_id(octets)) == wanted, (opgp.user_id(octets), wanted))

    for octets in (b"", b"a@b", b"Alice <alice@example.org>", b"Alice (x) <alice@example.org> ", b"<a@b>", b"<a@b", b"a@b>",
                   b"a@b <c@d>", b"<a@b><c@d>", b"a.b@c.d", b".a@b", b"a.@b", b"a..b@c", b"a@b.", b"a@.b", b"a@b..c", b"a@", b"@b", b"a@b@c",
                   b"a_b@c", b"a@b_c", b"a b@c", b"a@b\n", "J\u00fcrgen <j\u00fc@b\u00fccher.example>".encode(), b"J\xfcrgen <j@b>",
                   b"J <j\xfc@b>", b"> <a@b>", b"<", b">", b"<>", b"x<@>"):
        fits(octets)
    for octet in range(256):
        it = bytes([octet])
        for octets in (it, b"a" + it + b"@b", b"a@b" + it, it + b"<a@b>", b"<a@b>" + it, b"<a" + it + b"@b>"):
            fits(octets)
    words = [b"a", b"b", b"@", b"@", b".", b"<", b">", b" ", b"_", b"-", b"+", b"(", b"\"", b"\0", b"\x7f", b"\xc3\xbc",
             b"\xc3", b"\xf0\x9f\x94\x91", b"\xed\xa0\x80"]
    draw = random.Random(5322)
    for _ in range(4000):
        fits(b"".join(draw.choices(words, k=draw.randrange(12))))
    for it in ("a@b", 1, None):
        verdict(f"no user ID in {it!r}", raised(TypeError, lambda it=it: opgp.user_id(it)) is not None)


def pieces(opgp):
    """The parts of an input in pieces are those of the whole; or its fault is."""
    for source in SOURCES:
        octets, what = octets_of(source), os.path.relpath(source, HERE)
        wanted = raised(opgp.Fault, lambda octets=octets: opgp.read(octets))
        for size in (1, 100, 1 << 16):
            found = []
            fault = raised(opgp.Fault, lambda: found.extend(opgp.parts(io.BytesIO(octets), size=size)))  # pylint: disable=cell-var-from-loop
            verdict(f"the end of {what} in pieces of {size}", str(fault) == str(wanted), (fault, wanted))
            if wanted is None:
                whole = opgp.read(octets)
                alone = [whole.certificate(it).write() for it in range(len(whole.certificates()))]
                lead = whole.write()[: -len(b"".join(alone)) or None]
                verdict(f"the parts of {what} in pieces of {size}", [it.write() for it in found] == [lead] * bool(lead) + alone, len(found))
    reader = opgp.Reader()
    verdict("no part yet", reader.take() is None)
    reader.push(b"")
    for it in NO_OCTETS:
        verdict(f"{it!r} is no piece", raised(TypeError, lambda it=it: reader.push(it)))
    reader.end()
    verdict("nothing in pieces is a keyring of nothing", [*reader.taken()] == [])
    verdict("a piece behind the end", raised(ValueError, lambda: reader.push(b"x")))
    with opgp.Reader(opgp.Limits(body=512)) as limited:
        limited.push(octets_of(A3))
        limited.end()
        verdict("the part at the end", len([*limited.taken()]) == 1)
    for call in (lambda: limited.push(b""), limited.take, limited.end):
        verdict("a closed reader", raised(ValueError, call))
    verdict("a reader's limits", raised(ValueError, lambda: opgp.Reader(opgp.Limits(body=1))))
    one = opgp.read(octets_of(A1)).write() + b"\xcd\1a"
    cut = model.armor(one + b"\xc2\x0e\4") + model.armor(one) + model.armor(one)
    with opgp.Reader() as refused:
        refused.push(cut)
        verdict("no part comes of a framing fault, nor of the blocks behind it", refused.take() is None)
        verdict("that fault", str(raised(opgp.Fault, refused.end)) == f"framing: Truncated block 0 at {len(one)} inner 1")


class Short:
    """A source whose reads give 1 to as many octets as are wanted."""

    def __init__(self, octets, seed):
        self.file, self.random = io.BytesIO(octets), random.Random(seed)

    def read(self, size):
        return self.file.read(self.random.randint(1, size))


def short_reads(opgp):
    """The parts, or the fault, are those of the whole where a read gives less than is wanted: of a source of its own, a pipe and a file;
    and a source that gives no octets is refused."""
    for source in SOURCES:
        octets, what = octets_of(source), os.path.relpath(source, HERE)
        wanted = raised(opgp.Fault, lambda: opgp.read(octets))  # pylint: disable=cell-var-from-loop
        alone = [] if wanted else [it.write() for it in opgp.parts(io.BytesIO(octets), size=1 << 30)]
        for seed in range(3):
            for size in (3, 200, 1 << 16):
                found = []
                fault = raised(opgp.Fault, lambda: found.extend(opgp.parts(Short(octets, seed), size=size)))  # pylint: disable=cell-var-from-loop
                holds = str(fault) == str(wanted) and (wanted or [it.write() for it in found] == alone)
                verdict(f"{what} by short reads of at most {size}", holds, (fault, wanted, len(found)))
        ours, theirs = os.pipe()
        with open(ours, "rb", buffering=0) as source_of_pipe, open(theirs, "wb", buffering=0) as sink:
            them = threading.Thread(target=fed, args=(sink, octets))
            them.start()
            found = []
            fault = raised(opgp.Fault, lambda: found.extend(opgp.parts(source_of_pipe)))  # pylint: disable=cell-var-from-loop
            source_of_pipe.read() if fault else None
            them.join()
        verdict(f"{what} through a pipe", str(fault) == str(wanted) and (wanted or [it.write() for it in found] == alone), (fault, wanted))
    for size in (0, -1, -(1 << 40)):
        verdict(f"pieces of {size}", raised(ValueError, lambda size=size: opgp.parts(io.BytesIO(octets), size=size)))
    ours, theirs = os.pipe()
    os.set_blocking(ours, False)
    with open(ours, "rb", buffering=0) as waiting, open(theirs, "wb", buffering=0):
        verdict("a pipe that waits", raised(BlockingIOError, lambda: [*opgp.parts(waiting)]))
    for text in ("", "text"):
        verdict(f"a source of the text {text!r}", raised(TypeError, lambda text=text: [*opgp.parts(io.StringIO(text))]))


def fed(sink, octets):
    """Writes the octets into a pipe, a few at a time, and closes it."""
    for at in range(0, len(octets), 1000):
        sink.write(octets[at : at + 1000])
    sink.close()


def moments(opgp):
    """A part is there with the last octet of the primary key that follows it, octet by octet, or of its line in armor; the last one at the
    end."""
    for source in SOURCES:
        bare = octets_of(source)
        if raised(opgp.Fault, lambda: opgp.read(bare)):  # pylint: disable=cell-var-from-loop
            continue
        bare = opgp.read(bare).write()
        if len(bare) > 20_000:
            continue
        packets = model.framed([(b"PUBLIC KEY BLOCK", bare)], model.USUAL)
        wanted, found = [at + size for _, at, kind, _, _, size in packets if kind == 6 and at > 0], []
        with opgp.Reader() as reader:
            for at in range(len(bare)):
                reader.push(bare[at : at + 1])
                found += [at + 1 for _ in reader.taken()]
            reader.end()
            last = len([*reader.taken()])
        holds = (found, last) == (wanted, min(1, len(packets)))
        verdict(f"when the parts of {os.path.relpath(source, HERE)} are there", holds, (found, wanted, last))
        text, found = model.armor(bare), []
        with opgp.Reader() as reader:
            for at in range(len(text)):
                reader.push(text[at : at + 1])
                found += [at + 1 for _ in reader.taken()]
            reader.end()
            last = len([*reader.taken()])
        holds = (found, last) == ([model.end_in_armor(bare, it) for it in wanted], min(1, len(packets)))
        verdict(f"when those of its armor are there, of {os.path.relpath(source, HERE)}", holds, (found, wanted, last))


def limits_in_pieces(opgp):
    """The limits and the policies of a reader are those of one call."""
    octets = octets_of(A3)
    bare = opgp.read(octets).write()
    malformed = bare + bytes.fromhex("C20104")
    long_line = octets.replace(b"\n\n", b"\nA: " + b"a" * 200 + b"\n\n", 1)
    for name, it, given in (
        ("input", bare, {"input": 423}), ("input", bare, {"input": 424}), ("input", octets, {"input": len(octets) - 1}),
        ("body", bare + b"\xe8\xc1\x41" + bytes(513), {"body": 512}), ("cert", bare + b"\xe8\xc0\0" + bytes(192), {"cert": 512}),
        ("cert", bare + bare, {"cert": 512}), ("line", long_line, {"line": 128}), ("line", long_line, {"line": 203}),
        ("pieces", bare + b"\xcb\xe9" + bytes(512) + b"\xe0a\0", {"pieces": 1}),
        ("outside", b"a line\n" + octets, {"refuse_outside": True}), ("outside", b"a line\n" + octets, {}), ("malformed", malformed, {}),
        ("malformed", malformed, {"keep_malformed": True}), ("both", b"a line\n" + octets, {"refuse_outside": True, "keep_malformed": True}),
    ):
        limits_given = opgp.Limits(**given)
        wanted = raised(opgp.Fault, lambda it=it, limits_given=limits_given: opgp.read(it, limits_given))
        for size in (1, 61, 1 << 16):
            found = []
            fault = fault_in_pieces(opgp, it, limits_given, size, found)
            verdict(f"the limit {name} {given} in pieces of {size}", str(fault) == str(wanted), (fault, wanted))
            if wanted is None:
                whole = opgp.read(it, limits_given).write()
                verdict(f"the parts within {given}, of {size}", b"".join(part.write() for part in found) == whole)


def limits(opgp):
    usual = opgp._Limits()
    opgp._library.opgp_usual_limits(ctypes.byref(usual))
    verdict("the usual limits", (*(getattr(usual, it) for it in LIMITS), False, False) == opgp.Limits(), opgp.Limits())
    verdict("the usual policies", usual.policies == 0, usual.policies)
    octets = octets_of(A3)
    for it in ((8192, 1 << 24, 1 << 26, 1 << 40, 1 << 20), 5, "text", opgp.Limits(body="text"), opgp.Limits(line=None), opgp.Limits(cert=1e6)):
        for call in (lambda it=it: opgp.read(octets, it), lambda it=it: opgp.Reader(it), lambda it=it: opgp.parts(io.BytesIO(octets), it),
                     lambda it=it: opgp.Document(SIGNATURE, it), lambda it=it: opgp.document(SIGNATURE, io.BytesIO(b""), it)):
            verdict(f"limits that are {it!r}", raised(TypeError, call))
    ranges = {"line": (128, 1 << 20), "body": (512, (1 << 32) - 1), "cert": (512, 1 << 40), "input": (0, 1 << 62), "pieces": (1, 1 << 24)}
    for name, (least, most) in ranges.items():
        for value in (least - 1, most + 1, -1, 1 << 64):
            given = opgp.Limits(**{name: value})
            for call in (lambda given=given: opgp.read(octets, given), lambda given=given: opgp.Document(SIGNATURE, given)):
                it, said = raised(ValueError, call), f"the limit {name} is out of its range: {value}"
                verdict(f"the limit {name} of {value}", it and not isinstance(it, opgp.Fault) and str(it) == said, it)
        for value in (least, most):
            given = opgp.Limits(**{name: value})
            for call in (lambda given=given: opgp.read(octets, given).close(), lambda given=given: opgp.Document(SIGNATURE, given).close()):
                it = raised(BaseException, call)
                verdict(f"the limit {name} of {value}", it is None or isinstance(it, opgp.Fault), it)


def policies(opgp):
    """What is outside of blocks, and malformed signatures, are refused or not, as the limits say."""
    octets = b"a line\n" + octets_of(A3)
    with opgp.read(octets) as keyring:
        verdict("a line outside is passed over", len(keyring.keys()) == 2, len(keyring.keys()))
    it = raised(opgp.Fault, lambda: opgp.read(octets, opgp.Limits(refuse_outside=True)))
    verdict("a line outside is refused", str(it) == "armor: Outside block 0 at 0 inner 0", it)
    octets = opgp.read(octets_of(A3)).write() + bytes.fromhex("C20104")
    it = raised(opgp.Fault, lambda: opgp.read(octets))
    verdict("a malformed signature is refused", it and it.reason == "Short" and it.pos == len(octets) - 3, it)
    with opgp.read(octets, opgp.Limits(keep_malformed=True)) as keyring:
        verdict("a malformed signature is kept", keyring.write() == octets)
        last = keyring.signatures()[-1]
        verdict("it asks nothing", last.why_not == "opaque", last.why_not)
    both = raised(opgp.Fault, lambda: opgp.read(b"a line\n" + octets_of(A3), opgp.Limits(refuse_outside=True, keep_malformed=True)))
    verdict("both policies", both and both.reason == "Outside", both)


NO_OCTETS = (None, "text", "", 3.5, 0, 5, True, [1, 2], [], (1, 2), pathlib.Path(A3), object())


def inputs(opgp):
    """Octets in memory are read, and nothing else is taken for them."""
    octets = octets_of(A3)
    bare = opgp.read(octets).write()
    for kind in (bytearray, memoryview, bytes, ctypes.create_string_buffer, lambda it: array.array("B", it)):
        given = kind(octets + b"\n") if kind is ctypes.create_string_buffer else kind(octets)
        if kind is ctypes.create_string_buffer:
            given = memoryview(given)[:-1]  # without its NUL
        verdict(f"an input of type {type(given).__name__}", opgp.read(given).write() == bare)
    with open(A3, "rb") as file, mmap.mmap(file.fileno(), 0, access=mmap.ACCESS_READ) as mapped:
        verdict("a file in memory", opgp.read(mapped).write() == bare)
    apart = memoryview(b"".join(bytes([it, 0]) for it in octets))[::2]
    verdict("octets that stand apart", opgp.read(apart).write() == bare)
    verdict("octets aren't copied", opgp._bytes(octets) is octets)

    class Lying(bytes):
        def __len__(self):
            return 3_000_000

        def __bytes__(self):
            return b"other octets"

    verdict("a class of bytes that lies about its length", opgp.read(Lying(octets)).write() == bare)
    for call in (opgp.read, opgp.Document, opgp.cleartext, lambda it: opgp.Reader().push(it), opgp.find_blocks):
        outcome = []
        for given in (b"-----BEGIN", Lying(b"-----BEGIN")):
            try:
                outcome.append(repr(call(given)).split(" at 0x", maxsplit=1)[0])
            except opgp.Fault as it:
                outcome.append(str(it))
        verdict("what such a class is read as", outcome[0] == outcome[1], outcome)
    verdict("an input with an octet 0", opgp.read(bare).write() == bare and b"\0" in bare)
    verdict("no octets", opgp.read(b"").packets() == [] and opgp.read(b"").write() == b"")
    for it in NO_OCTETS:
        for call in (lambda it=it: opgp.read(it), lambda it=it: opgp.Keyring(it), lambda it=it: opgp.Document(it)):
            verdict(f"{it!r} is no input", raised(TypeError, call))


def modes(opgp):
    """Each mode is that of the program."""
    octets = octets_of(A3)
    bare = opgp.read(octets).write()
    for what, it in (("armor", octets), ("packets", bare), ("nothing", b""), ("text", b"text"), ("a blank line", b"\n" + octets)):
        for mode in ("auto", "armor", "binary"):
            wanted = program(it, "write", "--mode", mode, "--out", "binary")
            found = []
            fault = raised(opgp.Fault, lambda: found.append(opgp.read(it, None, mode).write()))  # pylint: disable=cell-var-from-loop
            told = (f"{fault}\n" if fault else "", b"".join(found))
            verdict(f"{what} by the mode {mode}", told == (wanted.stderr.decode(), wanted.stdout), (told, wanted))
    for mode in ("", "Auto", "text", None, 0, b"armor"):
        for call in (lambda mode=mode: opgp.read(octets, mode=mode), lambda mode=mode: opgp.Document(SIGNATURE, mode=mode)):
            it, said = raised(ValueError, call), f"the mode is {mode!r}, and none of auto, armor, binary"
            verdict(f"no mode {mode!r}", str(it) == said and not isinstance(it, opgp.Fault), it)


def long_octets(opgp):
    """What is longer than an int counts is read whole: as what is shorter, by way of a smaller int."""
    usual, opgp._INT = opgp._INT, 3
    try:
        again = opgp.read(octets_of(A3))
        found = again.write(), again.packets(), again.keys(), again.signatures(), again.octets(0)
    finally:
        opgp._INT = usual
    keyring = opgp.read(octets_of(A3))
    wanted = keyring.write(), keyring.packets(), keyring.keys(), keyring.signatures(), keyring.octets(0)
    verdict("octets past an int", found == wanted and usual == (1 << 31) - 1)


def searches(opgp):
    """Keys are found by their fingerprints and key IDs, as octets and as text."""
    for source in SOURCES[:6]:
        if raised(opgp.Fault, lambda: opgp.read(octets_of(source))):  # pylint: disable=cell-var-from-loop
            continue
        keyring = opgp.read(octets_of(source))
        keys = keyring.keys()
        for key in keys:
            for name in (key.fingerprint, key.key_id):
                wanted = [it for it in keys if name in (it.fingerprint, it.key_id)]
                for given in (name, bytearray(name), name.hex(), name.hex(" ").upper(), f"0x{name.hex()}"):
                    verdict(f"{given} of {source}", keyring.find(given) == wanted and key in wanted)
        for name in (b"", b"\0" * 8, b"\0" * 20, keys[0].fingerprint[:-1] if keys else b"a", keys[0].key_id[4:] if keys else "00"):
            verdict(f"no key {name!r}", keyring.find(name) == [])
        for name, kind in ((5, TypeError), (None, TypeError), ("alice@example.org", ValueError), ("C95", ValueError)):
            verdict(f"{name!r} names no key", raised(kind, lambda name=name: keyring.find(name)))  # pylint: disable=cell-var-from-loop


def passed_over(opgp):
    """Octets outside of armored blocks are counted as by the program, which tells of them."""
    armored, bare = octets_of(A3), opgp.read(octets_of(A1)).write()
    for what, octets in (("packets behind", armored + bare), ("in front", b"x\0\n" + armored), ("between", armored + bare + b"\n" + armored), ("none", armored),
                         ("text", b"text\n" + armored + b"text"), ("blank lines", b"\n" + armored + b" \n"), ("bare packets", bare), ("nothing", b"")):  # fmt: skip
        keyring = opgp.read(octets)
        told = subprocess.run([PROGRAM, "list"], input=octets, capture_output=True, check=False).stderr.decode()
        count = re.fullmatch(r"opgp: (\d+) octets outside of armored blocks were skipped; read a binary file by itself\n", told)
        verdict(f"{what}: what is skipped", keyring.skipped() == int(count[1] if count else 0), (told, keyring.skipped()))
        verdict(f"{what}: of what was made", keyring.normalised().skipped() == keyring.joined(keyring).skipped() == 0)
    with opgp.Reader() as reader:
        reader.push(armored + bare)
        reader.end()
        verdict("of parts nothing", [it.skipped() for it in reader.taken()] == [0])


def rows_refused(opgp):
    keyring = opgp.read(octets_of(A3))
    for row in (-1, 2, 1 << 63, (1 << 64) - 1, 1 << 64, 1 << 200):
        verdict(f"no row {row}", raised(IndexError, lambda row=row: keyring.octets(row)))
    for row in (None, 0.0, "0"):
        for call in (keyring.octets, keyring.certificate):
            verdict(f"no number {row!r}", raised(TypeError, lambda row=row, call=call: call(row)))


def errors(opgp):
    """What each status raises, and how: only a refused input is a Fault."""
    kinds = {3: MemoryError, 4: ValueError, 5: ValueError, 6: IndexError, 7: ValueError, 8: ValueError, 9: ValueError}
    for status in (*range(2, 12), 255, (1 << 32) - 1):
        it = raised(BaseException, lambda status=status: opgp._raise_but_for_done(status))
        text = opgp._library.opgp_status_text(status).decode()
        verdict(f"what status {status} raises", type(it) is kinds.get(status, RuntimeError) and str(it) == text, it)
        fault = raised(BaseException, lambda status=status: opgp._raise_if_refused(status, opgp._Fault()))
        verdict(f"what status {status} raises where an input is read", type(fault) is type(it) and str(fault) == text, fault)
    for call in (lambda: opgp._raise_but_for_done(0), lambda: opgp._raise_if_refused(0, opgp._Fault())):
        verdict("nothing where it is done", raised(BaseException, call) is None)
    fault = opgp._Fault(block=1, pos=22, inner=333, layer=4, reason=53)
    it = raised(opgp.Fault, lambda: opgp._raise_if_refused(1, fault))
    told = (it.layer, it.reason, it.number, it.block, it.pos, it.inner)
    verdict("a fault", told == ("composition", "NotASignedLiteral", 53, 1, 22, 333) and str(it) == "composition: NotASignedLiteral block 1 at 22 inner 333", told)
    it = raised(opgp.Fault, lambda: opgp._raise_if_refused(1, opgp._Fault(layer=7, reason=255)))
    verdict("a fault without names", (it.layer, it.reason, it.number) == ("unknown", "unknown", 255), it)


LITTLE = """
import resource, opgp
octets = open({path!r}, "rb").read()
kept, document = opgp.read(octets), opgp.Document({signature!r})
document.end()
key = kept.certificates()[0].primary, 0, 0
taken = int(open("/proc/self/statm").read().split()[0]) * resource.getpagesize()
resource.setrlimit(resource.RLIMIT_AS, (taken + {more}, resource.RLIM_INFINITY))
reader = opgp.Reader()
calls = dict(read=lambda: opgp.read(octets), push=lambda: reader.push(octets), end=reader.end, take=reader.take,
             standing=lambda: kept.standing(*key, None), judge=lambda: document.judge(kept, None, 0),
             states=lambda: kept.states(0, None))
for name, call in calls.items():
    try:
        call()
        print(name, "done")
    except BaseException as it:
        print(name, type(it).__name__)
"""


LITTLE_OF_A_DOCUMENT = """
import resource, opgp
octets, small, pieces, told = open({path!r}, "rb").read(), {signature!r}, iter([bytes(1 << 16)] * 256), []
kept = opgp.Document(octets)

class Source:
    def read(self, size):
        return next(pieces, b"")

taken = int(open("/proc/self/statm").read().split()[0]) * resource.getpagesize()
resource.setrlimit(resource.RLIMIT_AS, (taken + {more}, resource.RLIM_INFINITY))
calls = dict(open=lambda: opgp.Document(octets), push=lambda: kept.push(octets), end=kept.end, signatures=kept.signatures,
             behind=lambda: kept.behind(0), front=lambda: kept.front(0), file=lambda: opgp.document(small, Source(), progress=told.append))
for name, call in calls.items():
    try:
        call()
        print(name, "done")
    except BaseException as it:
        print(name, type(it).__name__)
print(told[-1])
"""


def little_memory(opgp, env, room):
    """Where memory is wanting, MemoryError says so; a reading that is lost says so again. A document takes memory for its signatures
    alone, and only where they are asked for."""
    octets = opgp.read(octets_of(A3)).write() + b"\xcd\xff" + (1 << 24).to_bytes(4, "big") + b"u" * (1 << 24)
    path = f"{room}/octets"
    with open(path, "wb") as it:
        it.write(octets)
    calls = "read", "push", "end", "take", "standing", "judge", "states"
    for more, said in ((1 << 40, "done"), (4 << 20, "MemoryError")):
        ended = run(sys.executable, "-c", LITTLE.format(path=path, signature=SIGNATURE, more=more), env=env)
        verdict(f"where there are {more} octets more", lines_of(ended) == [f"{it} {said}" for it in calls], ended)
    with open(path, "wb") as it:
        it.write(packet(2, over(6, 0, 8, b"\xff" + ((1 << 23) + 1).to_bytes(4, "big") + b"d" + bytes(1 << 23))))
    env = {**env, "MALLOC_MMAP_THRESHOLD_": "65536"}  # what is freed is given back
    for more, wanting in ((1 << 40, ()), (6 << 20, ("open", "signatures", "behind"))):
        ended = run(sys.executable, "-c", LITTLE_OF_A_DOCUMENT.format(path=path, signature=SIGNATURE, more=more), env=env)
        names_of = ("open", "push", "end", "signatures", "behind", "front", "file")
        wanted = [f"{it} {'MemoryError' if it in wanting else 'done'}" for it in names_of] + [str(1 << 24)]
        verdict(f"a document, where there are {more} octets more", lines_of(ended) == wanted, ended)


def large(opgp):
    """Keyrings with bodies of each size and with so many things: what is read of them, and in pieces."""
    key = opgp.read(octets_of(A1)).write()
    for size in (0, 1, 255, 256, 4096, 65_535, 65_536, 65_537, 70_000, 1 << 20):
        name, filler = (bytes([0xC0 | kind, 255]) + size.to_bytes(4, "big") + b"u" * size for kind in (13, 60))
        hold_large(opgp, f"bodies of {size} octets", filler, key + name + filler, 2, [b"u" * size])
    for count in (1, 17, 300, 2000):
        names = [b"%d" % it for it in range(count)]
        hold_large(opgp, f"{count} user IDs", b"", key + b"".join(bytes([0xCD, len(it)]) + it for it in names), 1, names)
        hold_large(opgp, f"{count} certificates", b"", key, count, [])


def hold_large(opgp, what, lead, one, count, names):
    """A lead, and so many copies of a certificate."""
    octets = lead + one * count
    whole = opgp.read(octets)
    told = [it.body for it in whole.packets() if it.kind == 13]
    verdict(f"{what}, read", whole.write() == octets and len(whole.keys()) == count and told == names * count, len(told))
    armored = whole.write(armor=True)
    verdict(f"{what}, in armor", armored == model.armor(octets) and opgp.read(armored).write() == octets)
    verdict(f"{what}, one", whole.certificate(count - 1).write() == one)
    verdict(f"{what}, joined", whole.joined(opgp.read(octets)).write() == octets * 2)
    verdict(f"{what}, merged", whole.merged().write() == lead + one)
    for size in (4096, 65_536, 1 << 23):
        parts = [*opgp.parts(io.BytesIO(octets), size=size)]
        verdict(f"{what}, in pieces of {size}", b"".join(it.write() for it in parts) == octets and sum(len(it.keys()) for it in parts) == count)
        parts = [*opgp.parts(io.BytesIO(armored), size=size)]
        verdict(f"{what}, in armor in pieces of {size}", b"".join(it.write() for it in parts) == octets)


def closed(opgp):
    keyring = opgp.read(octets_of(A3))
    kept = keyring.packets(), keyring.keys(), keyring.signatures()
    first, second = keyring.certificates()[0], keyring.certificates()[0]
    before = first.packets, first.keys, first.signatures
    with keyring as it:
        verdict("the keyring of a with", it is keyring)
    for name, call in (("packets", keyring.packets), ("keys", keyring.keys), ("signatures", keyring.signatures), ("write", keyring.write),
                       ("certificates", keyring.certificates), ("octets", lambda: keyring.octets(0)), ("check", keyring.check),
                       ("find", lambda: keyring.find(b"")), ("joined", lambda: keyring.joined(keyring)),
                       ("standing", lambda: keyring.standing(kept[1][0], 0, 0, lambda _: opgp.Verdict.GOOD))):
        verdict(f"{name} of a closed keyring", raised(ValueError, call))
    verdict("closing twice", raised(BaseException, keyring.close) is None)
    again = opgp.read(octets_of(A3))
    verdict("rows outlive their keyring", kept == (again.packets(), again.keys(), again.signatures()))
    verdict("certificates outlive it too", before == (second.packets, second.keys, second.signatures) and kept == tuple(map(list, before)))
    keyring.__init__(octets_of(A1))
    verdict("a keyring that is made anew", keyring.write() == opgp.read(octets_of(A1)).write())
    verdict("its certificates are those of before", second.packets == first.packets)
    fault = raised(opgp.Fault, lambda: keyring.__init__(b"\xc6\1\3"))
    verdict("a keyring that can't be made anew", fault and keyring.write() == opgp.read(octets_of(A1)).write())
    verdict("a keyring that wasn't made", raised(ValueError, opgp.Keyring.__new__(opgp.Keyring).write))
    reader = opgp.Reader()
    reader.push(octets_of(A3))
    reader.__init__()
    reader.end()
    verdict("a reader that begins anew", reader.take() is None)
    verdict("a reader that wasn't made", raised(ValueError, opgp.Reader.__new__(opgp.Reader).end))
    reader.close()
    verdict("closing a reader twice", raised(BaseException, reader.close) is None)


def copies(opgp):
    """What stands for the library's memory has no copies; rows and certificates have."""
    keyring, reader, document = opgp.read(octets_of(A3)), opgp.Reader(), opgp.Document(SIGNATURE)
    reader.push(octets_of(A3))
    document.push(b"x")
    for it in (keyring, reader, document):
        for name, call in (("copy", copy.copy), ("deepcopy", copy.deepcopy), ("pickle", pickle.dumps), ("pickle 0", lambda it: pickle.dumps(it, 0)),
                           ("__reduce__", lambda it: it.__reduce__()), ("__reduce_ex__", lambda it: it.__reduce_ex__(2))):
            verdict(f"{name} of a {type(it).__name__}", raised(TypeError, lambda it=it, call=call: call(it)))
    verdict("the keyring is as it was", len(keyring.keys()) == 2)
    reader.end()
    verdict("the reader is as it was", [it.write() for it in reader.taken()] == [keyring.write()])
    document.end()
    verdict("the document is as it was", told_of(document) == [usual_digest(b"x")])
    fault = raised(opgp.Fault, lambda: opgp.read(b"\xc6\1\3"))
    certificate, other = keyring.certificates()[0], opgp.read(octets_of(A1)).certificates()[0]
    rows = [keyring.packets(), keyring.keys(), keyring.signatures(), document.signatures(), opgp.Limits(), fault.args, certificate]
    for call in (copy.copy, copy.deepcopy, lambda it: pickle.loads(pickle.dumps(it))):
        verdict("rows are copied", call(rows) == rows and str(pickle.loads(pickle.dumps(fault))) == str(fault))
        again = call(certificate)
        told = (again.number, again.packets, again.keys, again.signatures, again.primary, again.user_ids)
        wanted = (0, certificate.packets, certificate.keys, certificate.signatures, certificate.primary, certificate.user_ids)
        verdict("a certificate is copied", told == wanted and again == certificate and hash(again) == hash(certificate), told)
    verdict("certificates differ", certificate != other and certificate != 5 and len({certificate, other, *keyring.certificates()}) == 2)
    verdict("a certificate, printed", repr(other) == f"<Certificate 0 {other.primary.fingerprint.hex().upper()}>", repr(other))


def verifiers(opgp):
    keyring = opgp.read(octets_of(A3))
    signatures, keys = keyring.signatures(), keyring.keys()
    asked = []

    def answers(given):
        def verify(question):
            asked.append(question)
            return given
        return verify

    for given in opgp.Verdict:
        asked.clear()
        found = keyring.check(answers(given))
        verdict(f"a verifier that answers {given}", found == [(it, given) for it in signatures], found)
        verdict("what it is asked", asked == [(it, keys[it.signer]) for it in signatures], asked)
    for given, wanted in ((True, opgp.Verdict.GOOD), (False, opgp.Verdict.BAD)):
        found = keyring.check(answers(given))
        verdict(f"a verifier that answers {given}", found == [(it, wanted) for it in signatures], found)
        states = [it.why for it in keyring.states(READ, answers(given))]
        verdict(f"states by one that answers {given}", states == [it.why for it in keyring.states(READ, answers(wanted))], states)
    for given in (None, 7, "good"):
        verdict(f"a verifier that answers {given!r}", raised(ValueError, lambda given=given: keyring.check(answers(given))))

    class Mine(BaseException):
        pass

    def fails(question):
        asked.append(question)
        raise Mine

    asked.clear()
    verdict("a verifier that raises ends the check", raised(Mine, lambda: keyring.check(fails)) and len(asked) == 1, asked)

    def closes(question):
        closing.close()
        asked.append(question)
        return opgp.Verdict.GOOD

    asked.clear()
    closing = opgp.read(octets_of(A3))
    found = closing.check(closes)
    verdict("a verifier that closes the keyring", found == [(it, opgp.Verdict.GOOD) for it in signatures] and len(asked) == 2, found)
    verdict("and it is closed", raised(ValueError, closing.keys))
    found = keyring.check(lambda it: opgp.Verdict.GOOD if keyring.signatures() == signatures and keyring.check() else opgp.Verdict.BAD)
    verdict("a verifier that asks the keyring", found == [(it, opgp.Verdict.GOOD) for it in signatures], found)
    # Where the digest doesn't begin as the signature states, none is asked.
    asked.clear()
    changed = opgp.read(keyring.write().replace(signatures[0].left, b"\0\0", 1))
    found = [it for _, it in changed.check(answers(opgp.Verdict.GOOD))]
    verdict("a bad row isn't asked", opgp.Verdict.BAD in found and len(asked) == 1, found)


def packet(kind, body):
    return bytes([0xC0 | kind, 255]) + len(body).to_bytes(4, "big") + body


def direct(hashed, left=b"\0\0"):
    """A version 4 signature on a key, with this hashed area and integers of no octets."""
    return packet(2, b"\4\x1f\x16\x08" + len(hashed).to_bytes(2, "big") + hashed + b"\0\0" + left + b"\0\0\0\0")


def stated(opgp):
    """When a signature was made is the one time in its hashed area; a name counts as the list of issuers has it."""
    key, _ = one_key(opgp, A1)

    def subpacket(kind, data):
        return bytes([len(data) + 1, kind]) + data

    one, two, unfit = subpacket(2, b"\0\0\1\0"), subpacket(0x82, b"\xff\xff\xff\xff"), subpacket(2, b"\0\0\1")
    named, other = subpacket(16, b"8 octets"), subpacket(16, b"\0" * 8)
    four, six, misfit = subpacket(33, b"\4" + bytes(range(20))), subpacket(0xA1, b"\6" + bytes(range(32))), subpacket(33, b"\4" + bytes(19))
    # an area, what it states where it is hashed, and the issuer that it names where it isn't
    for area, created, issuer, unhashed in (
        (b"", None, b"", b""),
        (one, 256, b"", b""),
        (two, 0xFFFFFFFF, b"", b""),
        (unfit, None, b"", b""),
        (unfit + one, 256, b"", b""),
        (one + one, None, b"", b""),
        (one + two, None, b"", b""),
        (two + named + one + one, None, b"8 octets", b"8 octets"),
        (subpacket(3, b"\0\0\1\0") + two + unfit, 0xFFFFFFFF, b"", b""),
        (named + other, None, b"8 octets", b"8 octets"),
        (other + named, None, bytes(8), bytes(8)),
        (named + four, None, bytes(range(20)), b"8 octets"),
        (misfit + named, None, b"8 octets", b"8 octets"),
        (misfit + six + four, None, bytes(range(32)), b""),
        (four + six, None, bytes(range(20)), b""),
        (misfit, None, b"", b""),
    ):
        found = opgp.read(key + direct(area)).signatures()[0]
        verdict(f"what a signature with {area.hex()} states", (found.created, found.issuer) == (created, issuer), found)
        body = b"\4\x1f\x16\x08\0\0" + len(area).to_bytes(2, "big") + area + bytes(6)
        found = opgp.read(key + packet(2, body)).signatures()[0]
        verdict(f"what it states with {area.hex()} unhashed", (found.created, found.issuer) == (None, unhashed), found)
    body = b"\3\5\x1f\xff\0\0\1" + b"8 octets" + b"\1\x08\0\0" + b"\0\1\1"
    found = opgp.read(key + packet(2, body)).signatures()[0]
    verdict("what one of version 3 states", (found.version, found.created, found.issuer) == (3, 0xFF000001, b"8 octets"), found)


def one_key(opgp, source):
    """The packet of the primary key, and its key ID."""
    keyring = opgp.read(octets_of(source))
    return packet(6, keyring.packets()[0].body), keyring.keys()[0].key_id


def flags(opgp):
    """Key flags are those of the first octet, however many there are (5.2.3.29)."""
    key, _ = one_key(opgp, A1)
    for data in (b"", b"\1", b"\2\4", b"\x80\0\1", bytes([0x23, *range(200)])):
        size = len(data) + 1
        area = (bytes([size]) if size < 192 else bytes([192, size - 192])) + b"\x1b" + data
        found = opgp.read(key + direct(area)).signatures()[0].key_flags
        verdict(f"flags of {len(data)} octets", found == opgp.KeyFlags(int.from_bytes(data[:1], "big")), found)


def named_signers(opgp):
    """A signer is the first key of its name; and no verifier is asked of a signature by a key of another version."""
    key, key_id = one_key(opgp, A1)
    six, six_id = one_key(opgp, A3)
    for signer, number, is_asked in ((key_id, 0, True), (six_id, 1, False)):
        def made(left=b"\0\0", area=b"\x09\x10" + signer):
            return opgp.read(key + direct(area, left) + six + key + six)

        keyring, asked = made(made().signatures()[0].digest[:2]), []
        row = keyring.signatures()[0]
        found = keyring.check(lambda question: asked.append(question) or opgp.Verdict.GOOD)  # pylint: disable=cell-var-from-loop
        verdict(f"the signer of a key that is there twice is key {number}", row.signer == number, row)
        wanted = opgp.Verdict.GOOD if is_asked else opgp.Verdict.UNDECIDED
        verdict(f"what is asked of key {number}", (len(asked), [it for _, it in found]) == (int(is_asked), [wanted]), (asked, found))


# Signatures over documents, beside hashlib.

SALTS = {8: 16, 9: 24, 10: 32, 11: 16, 12: 16, 14: 32}  # octets of a salt (RFC 9580, 9.5)


def over(version, kind, algorithm, hashed=b"", unhashed=b"", left=b"\0\0"):
    """The body of a signature of this type, with this hash algorithm: EdDSALegacy in version 4, Ed25519 in version 6."""
    areas = b"".join(model.sized(4 if version == 6 else 2, it) for it in (hashed, unhashed))
    made = model.sized(1, b"S" * SALTS.get(algorithm, 7)) + b"s" * 64 if version == 6 else b"\0\x09\1\xff\0\x08\xff"
    return bytes([version, kind, 27 if version == 6 else 22, algorithm]) + areas + left + made


def named(name):
    """A subpacket with the name of an issuer: a fingerprint (5.2.3.35) or a key ID (5.2.3.12)."""
    return bytes([9, 16]) + name if len(name) == 8 else bytes([len(name) + 2, 33, 4 if len(name) == 20 else 6]) + name


SIGNATURE = packet(2, over(4, 0, 8))
OPAQUE = b"\4\0\x16\x08\0\1"  # the body of a malformed signature
VERSION_3 = b"\3\5\0\0\0\0\1" + b"8 octets" + b"\1\x08\0\0" + b"\0\1\1"


def text_of(document):
    """The text of a document with canonical line ends (5.2.1.2), or None: a carriage return in it isn't followed by a line feed."""
    text = document.replace(b"\r\n", b"\n")
    return None if b"\r" in text else text.replace(b"\n", b"\r\n")


def said_over(body, document):
    """What a signature hashes in front of a document and behind it, and the digest of all; or why there is none."""
    it = model.kept_signature(body)
    if it.version not in (4, 6):
        return None, None, "opaque"
    front, behind = it.salt, it.front + bytes([it.version, 255]) + len(it.front).to_bytes(4, "big")
    if it.kind > 1:
        return front, behind, "kind"
    if it.hash not in model.HASHES or (it.version, it.hash) == (6, 2):
        return front, behind, "hash"
    text = text_of(document) if it.kind else document
    return front, behind, "line-ends" if text is None else hashlib.new(model.HASHES[it.hash], front + text + behind).digest()


def stating(body, document):
    """The same signature, stating the 16 bits that its digest begins with, if it has one."""
    found, it = said_over(body, document)[2], model.kept_signature(body)
    at = len(body) - len(it.material) - (it.version == 6 and 1 + len(it.salt)) - 2
    return body[:at] + found[:2] + body[at + 2 :] if isinstance(found, bytes) else body


def usual_digest(document):
    """That of SIGNATURE over a document."""
    return said_over(over(4, 0, 8), document)[2]


def over_each(document, kinds=(0, 1, 2, 0x10, 0x40)):
    """Signatures over a document, of each version, these types, and hash algorithms. Each other one states its digest's 16 bits."""
    areas = b"", b"\5\2\0\0\1\0", b"\5\2\0\0\1\0" + named(b"8 octets") + b"\5\x83\0\0\0\7", b"\2\x64x" + named(bytes(32))
    made = [(version, kind, algorithm) for version in (4, 6) for kind in kinds[:2] for algorithm in (1, 2, 3, 8, 9, 10, 11, 12, 14)]
    made += [(version, kind, 8) for version in (4, 6) for kind in kinds[2:]]
    bodies = [over(*it, areas[at % 4], areas[at // 4 % 4]) for at, it in enumerate(made)] + [VERSION_3]
    return [stating(it, document) if at % 2 else it for at, it in enumerate(bodies)]


def hashed_in_pieces(opgp, octets, pieces_of, limits_given=None):
    """The document of these pieces, which has ended, with the signatures in these octets."""
    made = opgp.Document(octets, limits_given)
    for it in pieces_of:
        made.push(it)
    made.end()
    return made


def cut(document, size):
    return [document[at : at + size] for at in range(0, len(document), size)]


def told_of(document):
    return [it.why_not or it.digest for it in document.signatures()]


LINES = (
    b"", b"\n", b"\r\n", b"a", b"a\n", b"a\nb", b"a\r\nb\r\n", b"a\nb\r\n", b"a \nb\t\n", b"\0\n\xff", b"\n" * 9, b"a\rb", b"a\r", b"\r",
    b"a\rb\n", b"a\r\r\nb\n", b"a\n\rb\n", b"\r\n\r", b"x" * 65535 + b"\r\n", b"x" * 65535 + b"\rx", b"x\n" * 40000, b"line\n" * 30000 + b"\r",
)


def documents(opgp):
    """Each row of the signatures over a document, what they hash around it, and the digest by hashlib, or why there is none."""
    for document in LINES:
        what, bodies = f"{document[:20]}, {len(document)} octets", over_each(document)
        octets = b"\xca\x03PGP".join(packet(2, it) for it in bodies)
        found = hashed_in_pieces(opgp, octets, [document])
        rows = found.signatures()
        places = [(it.row, it.certificate, it.component, it.hang, it.nested) for it in rows]
        verdict(f"places of the signatures over {what}", places == [(at, None, None, at, None) for at in range(len(bodies))], places)
        for it, body in zip(rows, bodies):
            front, behind, wanted = said_over(body, document)
            row_fits(f"those over {what}", it, body, [])
            told = (it.why_not or it.digest, it.is_bad)
            verdict(f"digest of row {it.row} over {what}", told == (wanted, not it.why_not and wanted[:2] != it.left), (it, wanted))
            if front is None:
                for call in (found.front, found.behind):
                    verdict(f"no octets of row {it.row} over {what}", raised(IndexError, lambda call=call, it=it: call(it.row)))
            else:
                verdict(f"octets of row {it.row} over {what}", (found.front(it.row), found.behind(it.row)) == (front, behind))
        whys = {None, "opaque", "kind", "hash", *["line-ends"] * (text_of(document) is None)}
        verdict(f"whys over {what}", {it.why_not for it in rows} == whys)
        verdict(f"some are bad over {what}, some not", 0 < sum(it.is_bad for it in rows) < len([it for it in rows if it.digest]))
    for call in (found.front, found.behind):
        for row in (len(bodies), -1, 1 << 63, (1 << 64) - 1, 1 << 64):
            verdict(f"no row {row}", raised(IndexError, lambda call=call, row=row: call(row)))
        for row in (None, 0.0, "0"):
            verdict(f"no number {row!r}", raised(TypeError, lambda call=call, row=row: call(row)))
    in_armor = hashed_in_pieces(opgp, model.armor(octets, b"SIGNATURE"), [document])
    verdict("signatures in armor", in_armor.signatures() == rows)
    for size in (100, 300, 70_000):
        area = b"".join(b"\xff\0\0\0\x0bd" + it.to_bytes(10, "big") for it in range(size // 16))
        body = over(6, 0, 10, area, area + named(b"8 octets"))
        found = hashed_in_pieces(opgp, packet(2, body), [b"x"])
        row_fits(f"a signature of {size} octets", found.signatures()[0], body, [])
        verdict(f"octets of one of {size}", (found.front(0), found.behind(0), *told_of(found)) == said_over(body, b"x"))


def document_pieces(opgp):
    """The digests are the same however a document is cut."""
    chance = random.Random(1)
    made = [b"", b"one\r\ntwo\n\n\tthree \r\n" * 12, b"a line\n" * 60 + b"\r"]
    made += [b"".join(chance.choices((b"a", b"b", b"\n", b"\r\n", b"\r"), (60, 60, 5, 5, strays), k=400)) for strays in (0, 0, 0.2, 1)]
    made += [b"\r\n" * 200, b"\n" * 300, b"x" * 129 + b"\r\n" + b"x" * 126 + b"\n" + b"x" * 255 + b"\r\n"]
    for document in made:
        bodies = [it for it in over_each(document, (0, 1)) if said_over(it, b"")[2] not in ("hash", "opaque")]
        octets, wanted = b"".join(packet(2, it) for it in bodies), [said_over(it, document)[2] for it in bodies]
        for size in (*range(1, 71), 1 << 20):
            found = told_of(hashed_in_pieces(opgp, octets, cut(document, size)))
            verdict(f"{document[:20]}, {len(document)} octets, in pieces of {size}", found == wanted, (found, wanted))
    bodies = [over(version, kind, algorithm) for version in (4, 6) for kind in (0, 1) for algorithm in (2, 8, 10)]
    octets = b"".join(packet(2, it) for it in bodies)
    for size in range(200):
        document = bytes(chance.choices(b"a\r\n", (9, size % 2, 3), k=size)).replace(b"\r\r", b"\r\n")
        at, cuts = 0, []
        while at < size:
            cuts.append(document[at : at + chance.choice((0, 1, 2, 3, 63, 64, 65, 127, 128))])
            at += len(cuts[-1])
        wanted = [said_over(it, document)[2] for it in bodies]
        found = told_of(hashed_in_pieces(opgp, octets, cuts))
        verdict(f"a document of {size} octets in other pieces", found == wanted, (document, cuts, found, wanted))
    document = chance.randbytes(1 << 19).replace(b"\r", b"\n") * 2 + b"\r\nthe end"
    wanted = [said_over(it, document)[2] for it in bodies]
    for size in (1 << 16, 1 << 20, 1 << 30):
        found = told_of(hashed_in_pieces(opgp, octets, cut(document, size)))
        verdict(f"a document of {len(document)} octets in pieces of {size}", found == wanted)
    for kind in (bytearray, memoryview, bytes, lambda it: array.array("B", it)):
        verdict(f"a piece of type {kind}", told_of(hashed_in_pieces(opgp, octets, map(kind, cut(document, 1 << 19)))) == wanted)
    with open(A1, "rb") as file, mmap.mmap(file.fileno(), 0, access=mmap.ACCESS_READ) as mapped:
        verdict("a file in memory is a piece", told_of(hashed_in_pieces(opgp, SIGNATURE, [mapped])) == [usual_digest(octets_of(A1))])


def document_refused(opgp):
    """Signatures that are none, or too many, and the modes and policies by which they are read."""
    behind = len(SIGNATURE)
    for octets, fault in (
        (b"", "composition: NotASignature block 0 at 0 inner 0"), (SIGNATURE[:-1], "framing: Truncated block 0 at 0 inner 1"),
        (SIGNATURE + b"\xcb\x06b\0\0\0\0\0", f"composition: NotASignature block 0 at {behind} inner 0"),
        (octets_of(A1), "composition: BlockLabel block 0 at 0 inner 0"), (b"hello\n", "armor: NoBlock block 0 at 6 inner 0"),
        (opgp.read(octets_of(A1)).write(), "composition: NotASignature block 0 at 0 inner 0"),
        (SIGNATURE + packet(2, OPAQUE), f"body: AreaShort block 0 at {behind} inner 4"),
        (b"\xca\x03PGP", "composition: NotASignature block 0 at 5 inner 0"),
    ):
        for call in (lambda octets=octets: opgp.Document(octets), lambda octets=octets: opgp.document(octets, io.BytesIO(b"x"))):
            found = raised(opgp.Fault, call)
            verdict(f"signatures {octets[:20]}", str(found) == fault, (found, fault))
    for count in (1, 2, 63, 64, 65, 66, 200):
        made = []
        found = raised(ValueError, lambda count=count, made=made: made.append(opgp.Document(SIGNATURE * count)))
        if count <= 64:
            made[0].end()
            verdict(f"{count} signatures", found is None and [it.row for it in made[0].signatures()] == [*range(count)], found)
        else:
            verdict(f"{count} signatures", type(found) is ValueError and str(found) == "there are more than 64 signatures", found)
    text = model.armor(SIGNATURE, b"SIGNATURE")
    for octets in (SIGNATURE, text):
        for mode in ("auto", "armor", "binary"):
            made, wanted = [], raised(opgp.Fault, lambda octets=octets, mode=mode: opgp.read(octets, mode=mode))
            found = raised(opgp.Fault, lambda octets=octets, mode=mode, made=made: made.append(opgp.Document(octets, mode=mode)))
            holds = bool(made) if wanted.layer == "composition" else str(found) == str(wanted)
            fits = mode in ("auto", "armor" if octets is text else "binary")
            verdict(f"{octets[:9]} by the mode {mode}", holds and bool(made) == fits, found)
    found = raised(opgp.Fault, lambda: opgp.Document(b"a line\n" + text, opgp.Limits(refuse_outside=True)))
    verdict("a line outside of armored signatures is refused", str(found) == "armor: Outside block 0 at 0 inner 0", found)
    verdict("or passed over", told_of(hashed_in_pieces(opgp, b"a line\n" + text, [])) == [usual_digest(b"")])
    found = raised(opgp.Fault, lambda: opgp.Document(SIGNATURE * 2, opgp.Limits(input=2 * behind - 1)))
    verdict("the limit of the input is that of the signatures", found and found.layer == "input", found)
    within = opgp.Limits(input=2 * behind, keep_malformed=True)
    verdict("and not of the document", told_of(hashed_in_pieces(opgp, SIGNATURE, [b"x" * 999], within)) == [usual_digest(b"x" * 999)])
    kept = hashed_in_pieces(opgp, packet(2, OPAQUE) + SIGNATURE, [], within)
    row_fits("a malformed signature that is kept", kept.signatures()[0], OPAQUE, [])
    verdict("it is opaque", told_of(kept) == ["opaque", usual_digest(b"")] and raised(IndexError, lambda: kept.behind(0)))


def document_uses(opgp):
    """What a document can be asked before it ends, then, and when it is closed; and one that begins anew."""
    keyring, two = opgp.read(octets_of(A1)), SIGNATURE + packet(2, over(6, 0, 10))
    front, behind, _ = said_over(over(6, 0, 10), b"")
    closed_ring = opgp.read(octets_of(A1))
    closed_ring.close()

    def digests(document):
        return [said_over(it, document)[2] for it in (over(4, 0, 8), over(6, 0, 10))]

    def asked(it):
        return (("signatures", it.signatures), ("signatures by a keyring", lambda: it.signatures(keyring)), ("check", lambda: it.check(keyring)),
                ("judge", lambda: it.judge(keyring, lambda _: opgp.Verdict.GOOD, 0)))

    with opgp.Document(two) as it:
        for piece in (b"", b"x", b""):
            it.push(piece)
            for name, call in asked(it):
                verdict(f"{name} before the end", str(raised(ValueError, call)) == "the document hasn't ended")
            verdict("octets before the end", (it.front(1), it.behind(1)) == (front, behind))
        for wrong in NO_OCTETS:
            verdict(f"{wrong!r} is no piece", raised(TypeError, lambda wrong=wrong, it=it: it.push(wrong)))
        it.end()
        for piece in (b"", b"y"):
            verdict("a piece behind the end", type(raised(ValueError, lambda piece=piece, it=it: it.push(piece))) is ValueError)
        verdict("a second end", type(raised(ValueError, it.end)) is ValueError)
        rows, checked = it.signatures(), it.check(keyring)
        verdict("asked twice", told_of(it) == digests(b"x") and rows == it.signatures(keyring) == [row for row, _ in checked])
        verdict("octets behind the end", (it.front(1), it.behind(1), it.front(0)) == (front, behind, b""))
        for wrong in (5, "text", SIGNATURE, it, keyring.certificates()[0]):
            for call in (it.signatures, it.check):
                verdict(f"no keyring {wrong!r}", raised(TypeError, lambda call=call, wrong=wrong: call(wrong)))
        verdict("a check by none", raised(TypeError, lambda it=it: it.check(None)))
        for call in (it.signatures, it.check):
            verdict("a closed keyring", str(raised(ValueError, lambda call=call: call(closed_ring))) == "the keyring is closed")
        verdict("a keyring of nothing", it.signatures(opgp.read(b"")) == rows)
    verdict("closing twice", raised(BaseException, it.close) is None)
    verdict("rows outlive their document", [row.digest for row in rows] == digests(b"x"))
    for it in (it, opgp.Document.__new__(opgp.Document)):
        for name, call in (("push", lambda it=it: it.push(b"")), ("end", it.end), ("front", lambda it=it: it.front(0)),
                           ("behind", lambda it=it: it.behind(0)), *asked(it)):
            verdict(f"{name} of a closed document", str(raised(ValueError, call)) == "the handle holds nothing")
        it.__init__(two)
        it.push(b"y")
        it.__init__(two)
        it.push(b"z")
        for wrong in (b"\xc6\1\3", SIGNATURE * 65, b"", 5):
            verdict("a document that can't begin anew", raised((ValueError, TypeError), lambda wrong=wrong, it=it: it.__init__(wrong)))
        it.end()
        verdict("a document that begins anew", told_of(it) == digests(b"z"))


class Failing(Exception):
    pass


def document_files(opgp):
    """A file is hashed to its end, in pieces, and what is told of its progress; where it can't be, the document is closed."""
    chance, body = random.Random(2), over(4, 1, 8)
    for document in (b"", b"a", b"a\nb\r\n" * 50, b"a\rb", chance.randbytes(200_000).replace(b"\r", b"\n")):
        wanted = [said_over(body, document)[2]]
        for size in (1, 7, 70, 1 << 16, 1 << 20)[2 * (len(document) > 1000) :]:
            told = []
            with opgp.document(packet(2, body), io.BytesIO(document), size=size, progress=told.append) as it:
                verdict(f"a file of {len(document)} octets by {size}", told_of(it) == wanted, told_of(it))
                verdict("it has ended", raised(ValueError, it.end))
            verdict(f"its progress by {size}", told == [*range(size, len(document), size), *[len(document)] * bool(document)], told)
        for seed in range(3):
            told = []
            it = opgp.document(packet(2, body), Short(document, seed), opgp.Limits(), "binary", 200, told.append)
            holds = told == sorted({*told}) and told[-1:] == [len(document)] * bool(document)
            verdict(f"{len(document)} octets by short reads", told_of(it) == wanted and holds, told[-3:])
        ours, theirs = os.pipe()
        with open(ours, "rb", buffering=0) as source, open(theirs, "wb", buffering=0) as sink:
            them = threading.Thread(target=fed, args=(sink, document))
            them.start()
            verdict(f"{len(document)} octets through a pipe", told_of(opgp.document(packet(2, body), source)) == wanted)
            them.join()
    with open(A1, "rb") as file:
        usual = opgp.document(model.armor(SIGNATURE, b"SIGNATURE"), file)
        verdict("a file is read to its end", told_of(usual) == [usual_digest(octets_of(A1))] and file.read() == b"" and not file.closed)
    made = []

    class Kept(opgp.Document):
        def __init__(self, *given):
            super().__init__(*given)
            made.append(self)

    def fails(*_):
        raise Failing

    class Source:
        read = fails

    class Closing(io.BytesIO):
        def read(self, _):
            made[-1].close()
            return super().read(1)

    ours, theirs = os.pipe()
    os.set_blocking(ours, False)
    with open(ours, "rb", buffering=0) as waiting, open(theirs, "wb", buffering=0):
        opgp.Document, usual = Kept, opgp.Document
        try:
            for what, kind, call in (
                ("progress that raises", Failing, lambda: opgp.document(SIGNATURE, io.BytesIO(b"x"), progress=fails)),
                ("progress that ends the process", SystemExit, lambda: opgp.document(SIGNATURE, io.BytesIO(b"x"), progress=sys.exit)),
                ("a file that can't be read", Failing, lambda: opgp.document(SIGNATURE, Source())),
                ("a pipe that waits", BlockingIOError, lambda: opgp.document(SIGNATURE, waiting)),
                ("a file of text", TypeError, lambda: opgp.document(SIGNATURE, io.StringIO("text"))),
                ("an empty file of text", TypeError, lambda: opgp.document(SIGNATURE, io.StringIO(""))),
                ("a path", AttributeError, lambda: opgp.document(SIGNATURE, A1)),
                ("a file that closes it", ValueError, lambda: opgp.document(SIGNATURE, Closing(b"x"))),
            ):
                made.clear()
                verdict(what, raised(kind, call) and len(made) == 1)
                verdict(f"the document of {what} is closed", [str(raised(ValueError, it.end)) for it in made] == ["the handle holds nothing"])
        finally:
            opgp.Document = usual
    for size in (0, -1, -(1 << 40)):
        it = raised(ValueError, lambda size=size: opgp.document(b"refused", Source(), size=size))
        verdict(f"pieces of {size}", str(it) == f"the size of pieces is {size}", it)
    verdict("refused signatures, and nothing is read", raised(opgp.Fault, lambda: opgp.document(b"refused", Source())))
    verdict("no progress", told_of(opgp.document(SIGNATURE, io.BytesIO(b"x"), progress=None)) == [usual_digest(b"x")])


def document_signers(opgp):
    """Signers are rows of a keyring's keys; which signatures a verifier is asked of, and what becomes of its answers."""
    one, three = opgp.read(octets_of(A1)), opgp.read(octets_of(A3))
    document, keyring = b"a text\rof no lines", one.joined(three).joined(one)
    keys, bodies = keyring.keys(), [it.body for it in keyring.packets() if it.kind in (6, 14)]
    four, six = keys[0], next(it for it in keys if it.version == 6)
    # a signature, the row of its signer, and whether a verifier is asked of it
    rows = (
        (over(4, 0, 8, named(four.fingerprint)), four.row, True),
        (over(4, 0, 10, b"", named(four.key_id)), four.row, True),
        (over(6, 0, 8, b"\5\2\0\0\1\0" + named(six.fingerprint)), six.row, True),
        (over(6, 0, 9, named(keys[six.row + 1].fingerprint)), six.row + 1, True),
        (over(4, 0, 8), None, False),
        (over(4, 0, 8, named(b"8 octets")), None, False),
        (over(4, 0, 8, named(six.key_id)), six.row, False),
        (over(6, 0, 8, named(four.key_id)), four.row, False),
        (over(4, 0x10, 8, named(four.fingerprint)), four.row, False),
        (over(4, 0, 1, named(four.fingerprint)), four.row, False),
        (over(4, 1, 8, named(four.fingerprint)), four.row, False),
        (over(4, 0, 8, named(bytes(20))), None, False),
    )
    stated_rows = [stating(it, document) for it, _, _ in rows]
    octets = b"".join(packet(2, it) for it in stated_rows) + packet(2, over(4, 0, 8, named(four.fingerprint), left=b"\0\0"))
    found = hashed_in_pieces(opgp, octets, [document])
    told = found.signatures(keyring)
    verdict("signers of a document", [it.signer for it in told] == [*(it for _, it, _ in rows), four.row], told)
    for it, body in zip(told, stated_rows):
        row_fits("a document's signatures by a keyring", it, body, bodies)
    verdict("signers by no keyring", found.signatures() == [dataclasses.replace(it, signer=None) for it in told])
    others = [None if it.signer is None or it.signer == four.row else it.signer - six.row for it in told]
    verdict("signers by another keyring", [it.signer for it in found.signatures(opgp.read(octets_of(A3)))] == others)
    asked = []

    def answers(given):
        return lambda question: asked.append(question) or given

    for given in opgp.Verdict:
        asked.clear()
        wanted = [given if it else opgp.Verdict.UNDECIDED for _, _, it in rows] + [opgp.Verdict.BAD]
        checked = found.check(keyring, answers(given))
        verdict(f"a document, where a verifier answers {given}", checked == [*zip(told, wanted)], checked)
        verdict("what it is asked", asked == [(it, keys[it.signer]) for it, (_, _, holds) in zip(told, rows) if holds], asked)
    wanted = [opgp.Verdict.UNDECIDED] * len(rows) + [opgp.Verdict.BAD]
    verdict("a document without a verifier", found.check(keyring) == found.check(keyring, None) == [*zip(told, wanted)])
    for given in (None, 7, "good"):
        verdict(f"a verifier that answers {given!r} of a document", raised(ValueError, lambda given=given: found.check(keyring, answers(given))))
    asked.clear()

    def fails(question):
        asked.append(question)
        raise Failing

    verdict("a verifier that raises ends the check of a document", raised(Failing, lambda: found.check(keyring, fails)) and len(asked) == 1, asked)

    def closes(question):
        keyring.close()
        found.close()
        return answers(opgp.Verdict.GOOD)(question)

    asked.clear()
    wanted = [opgp.Verdict.GOOD if it else opgp.Verdict.UNDECIDED for _, _, it in rows] + [opgp.Verdict.BAD]
    checked = found.check(keyring, closes)
    verdict("a verifier that closes the keyring and the document", checked == [*zip(told, wanted)] and len(asked) == 4, checked)
    verdict("they are closed", raised(ValueError, keyring.keys) and raised(ValueError, found.signatures))


def cleartexts(opgp):
    """The messages of tests/vectors/cleartext: documents and faults beside tests/lib/cleartext.py; a signature of type 01 is asked about, by
    the digest of the document's lines, and no other."""
    with open(f"{HERE}/tests/vectors/cleartext/certificate.asc", "rb") as it:
        keyring = opgp.read(it.read())
    count, asked, keys = 0, [], [it.body for it in keyring.packets() if it.kind in (6, 14)]

    def good(question):
        asked.append(question)
        return opgp.Verdict.GOOD

    for title, answer, place, _, message in cleartext.rows():
        if not answer.startswith("+") or title in cleartext.BEHIND:
            fault = raised(opgp.Fault, lambda message=message: opgp.cleartext(message))
            wanted = f"cleartext: {answer} block 0 at {place} inner 0" if not answer.startswith("+") else cleartext.BEHIND[title]
            verdict(f"{title}: refused", str(fault).startswith(wanted), fault)
            continue
        count += 1
        lines = cleartext.spelled(answer[1:])
        for given in (message, bytearray(message), memoryview(message)):
            document, made = opgp.cleartext(given)
            verdict(f"{title}: its document", (type(document), document) == (bytes, lines), document)
        bodies = [body for _, _, kind, _, body, _ in model.framed(model.dearmored(message[place:], model.USUAL), model.USUAL)]
        told = made.signatures(keyring)
        verdict(f"{title}: its signatures", len(told) == len(bodies), told)
        for it, body in zip(told, bodies):
            row_fits(title, it, body, keys)
            wanted = said_over(body, cleartext.hashed(lines))[2] if it.kind == 1 else b""
            fits = (it.digest, it.is_bad) == (wanted, wanted[:2] != it.left) if it.kind == 1 else it.why_not == "kind"
            verdict(f"{title}: row {it.row}", fits, (it, wanted))
        asked.clear()
        judged = made.judge(keyring, good, READ, "any")
        of_document = [it for it in asked if it.signature.certificate is None]
        may_be_good = [it for it in told if it.kind == 1 and not it.is_bad and it.signer is not None]
        verdict(f"{title}: what is asked", [it.signature for it in of_document] == may_be_good, (of_document, may_be_good))
        verdicts = ["BAD" if it.is_bad else "GOOD" if it in may_be_good else "UNDECIDED" for it in told]
        verdict(f"{title}: judged", [it.verdict.name for it in judged] == verdicts, (judged, verdicts))
        verdict(f"{title}: checked", made.check(keyring, good) == [*zip(told, (opgp.Verdict[it] for it in verdicts))])
        rule = opgp._Rule(opgp._opened(keyring).merged(), good, 1)
        for it in told:
            def standing(ring, given, place, number, row=it.row, made=made):
                return opgp._library.opgp_document_standing(made._document, ring, *given, row, *place, READ, number)

            why = rule.why_anywhere(keyring.keys()[it.signer], standing)
            verdict(f"{title}: row {it.row} by the handle", (why is opgp.Why.TYPE) == (it.kind != 1), why)
        verdict(f"{title}: it has ended", raised(ValueError, made.end) and raised(ValueError, lambda made=made: made.push(b"")))
    verdict("there are messages", count == 40, count)


def cleartext_refused(opgp):
    """What is no message, or has too much; and limits."""
    title, _, place, _, message = next(cleartext.rows())
    verdict("the first message", title == "base" and opgp.cleartext(message)[0].endswith(b"trail"))
    for wrong in NO_OCTETS:
        verdict(f"{wrong!r} is no message", raised(TypeError, lambda wrong=wrong: opgp.cleartext(wrong)))
    for text, wanted in ((b"", "cleartext: NoMessage block 0 at 0 inner 0"), (b"\n" * 9, "cleartext: NoMessage block 0 at 9 inner 0"),
                         (octets_of(A1), "cleartext: Label block 0 at 0 inner 0"), (message[:place], "cleartext: Unfinished block 0 at "),
                         (message[: place + 30], f"armor: Unfinished block 0 at {place + 30} ")):
        it = raised(opgp.Fault, lambda text=text: opgp.cleartext(text))
        verdict(f"no message {text[:20]!r}", str(it).startswith(wanted), it)
    for size in (128, 129, 130):
        long = message.replace(b"hello", b"x" * size)
        it = raised(BaseException, lambda long=long: opgp.cleartext(long, opgp.Limits(line=129)))
        wanted = f"cleartext: LineTooLong block 0 at {message.find(b'hello')} " if size > 129 else "None"
        verdict(f"lines of {size}, and 129 at most", str(it).startswith(wanted), it)
    for count in (1, 64, 65):
        many = message[:place] + model.armor(SIGNATURE * count, b"SIGNATURE")
        if count > 64:
            it = raised(ValueError, lambda many=many: opgp.cleartext(many))
            verdict("65 signatures", str(it) == "there are more than 64 signatures" and not isinstance(it, opgp.Fault), it)
        else:
            verdict(f"{count} signatures", len(opgp.cleartext(many)[1].signatures()) == count)
    document, made = opgp.cleartext(message)
    made.close()
    verdict("a closed one", raised(ValueError, made.signatures) and document.endswith(b"trail"))
    # What begins anew is no cleartext message any more: signatures of type 00 are asked about too.
    keyring = opgp.read(octets_of(A1))
    made.__init__(packet(2, stating(over(4, 0, 8, named(keyring.keys()[0].fingerprint)), b"x")))
    made.push(b"x")
    made.end()
    checked = made.check(keyring, lambda _: opgp.Verdict.GOOD)
    verdict("it begins anew", [it for _, it in checked] == [opgp.Verdict.GOOD], checked)


# Whether keys and signatures are believed, beside tests/lib/standing.py.

READ = 1795132800  # when the vectors are read: 2026-11-20
TEXT = b"document\n"  # what their signatures are over
OLD = READ - 100 * 86400  # when most of these were made
VERDICTS = {"good": "GOOD", "bad": "BAD", "undecided": "UNDECIDED"}  # the model's and the module's


def why_of(opgp, word):
    """The module's reason for the model's."""
    return None if word is None else opgp.Why[word.upper().replace("-", "_")]


def cause_of(opgp, it):
    """The module's cause for the model's."""
    return it and opgp.Cause(why_of(opgp, it.why), it.is_primary, it.is_now, it.lack and opgp.Lack[it.lack.upper()], it.date, it.component, it.hang)


class Arithmetic:
    """Answers a verifier's questions by verdicts that are written down, those on rows of a keyring and on signatures over a document, and
    keeps what it was asked."""

    def __init__(self, opgp, rows, own=()):
        self.opgp, self.rows, self.own, self.asked, self.questions = opgp, rows, own, [], []

    def __call__(self, question):
        it = question.signature
        self.asked.append((it.certificate, it.row))
        self.questions.append(question)
        return self.opgp.Verdict[VERDICTS[(self.own if it.certificate is None else self.rows)[it.row]]]

    def is_once(self, certificates):
        """Whether each row was asked about once, and those of these certificates alone; then asks anew."""
        holds = len({*self.asked}) == len(self.asked) and {it for it, _ in self.asked} <= {None, *certificates}
        self.asked.clear()
        return holds


def digest_alone(certificate, it):
    """The digest of what a key revocation hashes, whatever it follows: the primary key alone (5.2.1.11)."""
    _, octets = model.asked_there(it.body, None, certificate[0].body, None)
    return hashlib.new(model.HASHES[it.hash], octets).digest()


def standings(opgp):
    """Why keys of the vectors aren't believed is what the model says. A verifier is asked once about a row, of the key's certificate alone;
    about a misplaced key revocation too."""
    misplaced, believed, tried = 0, 0, 0
    for vector in standing_cases.vectors():
        keyring = opgp.read(vector.octets, opgp.Limits(keep_malformed=True))
        by_policy = {policy: standing.Keyring(vector.octets, vector.verdicts, policy) for policy in ("usual", "any")}
        places, keys = dict(by_policy["usual"].table()), keyring.keys()
        verdict(f"keys of {vector.stem}", [(it.certificate, it.component) for it in keys] == list(places), keys)
        verify = Arithmetic(opgp, vector.verdicts)
        for key in keys:
            times = {READ, key.created, key.created - 1, OLD}
            for made, now, policy in (*((it, READ, "usual") for it in times), (OLD, READ, "any"), (READ, OLD, "usual")):
                found = keyring.standing(key, made, now, verify, policy)
                wanted = why_of(opgp, by_policy[policy].standing(key.certificate, key.component, made, now))
                verdict(f"{vector.stem}: key {key.row}, {made}, {now}, {policy}", found is wanted, (found, wanted))
                verdict(f"{vector.stem}: what is asked of key {key.row}", verify.is_once({key.certificate}))
                cause = keyring.cause(key, made, now, Arithmetic(opgp, vector.verdicts), policy)
                told = causes.cause(by_policy[policy], key.certificate, key.component, made, now)
                verdict(f"{vector.stem}: the cause of key {key.row}, {made}, {now}, {policy}", cause == cause_of(opgp, told), (cause, told))
                believed, tried = believed + (found is None), tried + 1
        rows = list(standing.rows(standing.read(vector.octets)))
        asked = {it.signature.row: it for it in verify.questions}
        for row, (certificate, part, it, is_embedded) in enumerate(rows):
            if row not in asked:
                continue
            question = asked[row]
            verdict(f"{vector.stem}: row {row} may be good", question.signature.digest[:2] == question.signature.left, question)
            if it.kind == standing.REVOCATION and part.kind != standing.PRIMARY and not is_embedded:
                told = question.signature.digest, question.signature.why_not, question.signature.is_bad
                verdict(f"{vector.stem}: the misplaced revocation", told == (digest_alone(certificate, it), None, False), question)
                own = keyring.signatures()[row].why_not == "misplaced", question.signer == keys[question.signature.signer]
                verdict(f"{vector.stem}: its row", all(own), question)
                misplaced += 1
            else:
                verdict(f"{vector.stem}: row {row}", question == (keyring.signatures()[row], keys[question.signature.signer]), question)
        holds = all(it in asked for it, found in enumerate(vector.verdicts) if found == standing.GOOD)
        verdict(f"{vector.stem}: each good row is asked about", holds, sorted(asked))
    verdict("keys of vectors", misplaced > 5 and 500 < believed < tried - 500, (misplaced, believed, tried))


def state_of(opgp, place, state):
    """The module's state for the model's."""
    if isinstance(state, str):
        return opgp.State(*place, False, None if state == "fine" else opgp.Why[state.upper()], opgp.KeyFlags(0), None, None, None)
    why, uses, begin, end, reason = state
    flags = {"certify": "CERTIFY", "sign": "SIGN", "encrypt": "ENCRYPT_COMMUNICATIONS", "authenticate": "AUTHENTICATE"}
    known = opgp.KeyFlags(sum(opgp.KeyFlags[flags[it]] for it in uses))
    return opgp.State(*place, True, why_of(opgp, why), known, begin, end, reason)


def states(opgp):
    """How the parts of the vectors stand is what the model says, of a certificate alone too. A verifier is asked once about a row."""
    whys = set()
    for vector in standing_cases.vectors():
        keyring = opgp.read(vector.octets, opgp.Limits(keep_malformed=True))
        once, merged = keyring.merged(), standing_cases.once(vector.octets, vector.verdicts)
        verify = Arithmetic(opgp, merged[1])
        for at, policy in ((READ, "usual"), (OLD, "usual"), (OLD - 1, "any"), (0, "any"), (2**64 - 1, "usual")):
            by = standing.Keyring(*merged, policy)
            wanted = [[state_of(opgp, (c, n - 1 if n else None), it) for n, it in enumerate(by.state(c, at))] for c in range(len(by.certificates))]
            found = keyring.states(at, verify, policy)
            verdict(f"{vector.stem}: states at {at}, {policy}", found == sum(wanted, []), (found, wanted))
            verdict(f"{vector.stem}: what is asked", verify.is_once(range(len(wanted))))
            for it, of in zip(once.certificates(), wanted):
                alone = it.state(at, verify, policy)
                verdict(f"{vector.stem}: certificate {it.number} at {at}, {policy}", alone == of, (alone, of))
                verdict(f"{vector.stem}: what is asked of certificate {it.number}", verify.is_once({it.number}))
            whys |= {it.why for it in found}
    wanted = {None, opgp.Why.REVOKED, opgp.Why.EARLY, opgp.Why.UNBOUND, opgp.Why.EXPIRED, opgp.Why.NO_USE}
    verdict("reasons of states", whys == wanted, whys)


def states_refused(opgp):
    """Times, policies and keyrings that aren't any; verifiers that raise, and none."""
    keyring, _, verify = one_judged(opgp)
    certificate = keyring.certificates()[0]
    for call in (keyring.states, certificate.state):
        verdict("a time below 0", raised(ValueError, lambda call=call: call(-1, verify)))
        verdict("a time from 2**64 on", raised(ValueError, lambda call=call: call(2**64, verify)))
        verdict("a time that isn't any", raised(TypeError, lambda call=call: call("0", verify)))
        verdict("a policy", raised(ValueError, lambda call=call: call(READ, verify, "some")))
        verdict("what a verifier raises", raised(KeyError, lambda call=call: call(READ, lambda _: {}[1])))
        found = call(READ, None)
        verdict("without a verifier", {it.why for it in found} == {opgp.Why.UNBOUND}, found)
    verdict("an empty keyring", opgp.read(b"").states(READ, verify) == [])
    keyring.close()
    verdict("a closed keyring", raised(ValueError, lambda: keyring.states(READ, verify)))
    verdict("its certificate", len(certificate.state(READ, verify)) == len(certificate.keys) + len(certificate.user_ids))


def verdicts_of_merged(vector, octets):
    """The verdict on each row of the merged keyring."""
    return standing_cases.carried(vector.octets, vector.verdicts, octets)


def judgements(opgp):
    """What the vectors' signatures are judged to be is what the model says of them by the merged keyring."""
    otherwise, reasons, merged_ones = 0, set(), 0
    for vector in standing_cases.vectors():
        limits_given = opgp.Limits(keep_malformed=True)
        keyring = opgp.read(vector.octets, limits_given)
        octets, bodies = keyring.merged().write(), [it for it, _ in vector.documents]
        own, found = [it for _, it in vector.documents], verdicts_of_merged(vector, octets)
        if not bodies:
            continue
        document = hashed_in_pieces(opgp, b"".join(packet(2, it) for it in bodies), [TEXT], limits_given)
        signatures = document.signatures(keyring)
        for policy in ("usual", "any"):
            by = standing.Keyring(octets, found, policy)
            names = {keyring.keys()[it.signer].fingerprint for it in signatures if it.signer is not None}
            signers = {certificate for (certificate, _), key in by.table() if key.fingerprint in names}
            for now in (READ, OLD - 1):
                verify = Arithmetic(opgp, found, own)
                judged = document.judge(keyring, verify, now, policy)
                verdict(f"{vector.stem}: what is asked", verify.is_once(signers), verify.questions)
                checked = document.check(keyring, verify)
                verdict(f"{vector.stem}: signatures and verdicts", [(it.signature, it.verdict) for it in judged] == checked, judged)
                verdict(f"{vector.stem}: signatures", [it.signature for it in judged] == signatures, judged)
                for it, body, of in zip(judged, bodies, own):
                    wanted = by.believed(body, of, now)
                    if it.verdict is opgp.Verdict.GOOD:
                        verdict(f"{vector.stem}: {policy}, {now}", it.why is why_of(opgp, wanted), (it.why, wanted))
                    else:  # whatever the model calls it
                        verdict(f"{vector.stem}: no good verdict", it.why is opgp.Why[it.verdict.name] and wanted is not None, (it.why, wanted))
                    told = causes.of_document(by, body, now) if it.why and it.why.name.lower() in causes.OF_KEYS else None
                    verdict(f"{vector.stem}: the cause, {policy}, {now}", it.cause == cause_of(opgp, told), (it.cause, told))
                    reasons.add(it.why)
        before = standing.Keyring(vector.octets, vector.verdicts)
        after = standing.Keyring(octets, found)
        otherwise += any(before.believed(*it, READ) != after.believed(*it, READ) for it in vector.documents)
        merged_ones += octets != vector.octets
        is_one = keyring._open().merged() is keyring._open()
        verdict(f"{vector.stem}: a second keyring only if need be", is_one == (octets == vector.octets))
    verdict("vectors that merging changes", merged_ones > 5 and otherwise > 1, (merged_ones, otherwise))
    verdict("reasons that are seen", len(reasons) >= 13 and None in reasons, reasons)


def vector_of(stem):
    return next(it for it in standing_cases.vectors() if it.stem == stem)


def one_judged(opgp, stem="base"):
    """A vector's keyring, its document, and the verdicts on both."""
    vector = vector_of(stem)
    document = hashed_in_pieces(opgp, b"".join(packet(2, it) for it, _ in vector.documents), [TEXT])
    return opgp.read(vector.octets), document, Arithmetic(opgp, vector.verdicts, [it for _, it in vector.documents])


def judgement_refused(opgp):
    """What is raised of wrong times, keys, policies and keyrings, before anything is verified."""
    keyring, document, verify = one_judged(opgp)
    key, other = keyring.keys()[0], opgp.read(octets_of(A1)).keys()[0]
    good = document.judge(keyring, verify, READ)
    verdict("it is believed", [it.why for it in good] == [None] and keyring.standing(key, OLD, READ, verify) is not opgp.Why.FUTURE)
    verify.asked.clear()
    for time in (-1, -(1 << 70), 1 << 64, 1 << 200):
        for call in (lambda time=time: keyring.standing(key, time, READ, verify), lambda time=time: keyring.standing(key, OLD, time, verify),
                     lambda time=time: document.judge(keyring, verify, time)):
            it = raised(ValueError, call)
            verdict(f"the time {time}", str(it) == f"the time is out of its range: {time}" and not isinstance(it, opgp.Fault), it)
    for time in (None, 0.0, "0", datetime.datetime.now()):
        for call in (lambda time=time: keyring.standing(key, time, READ, verify), lambda time=time: keyring.standing(key, OLD, time, verify),
                     lambda time=time: document.judge(keyring, verify, time)):
            verdict(f"no time {time!r}", raised(TypeError, call))
    for policy in ("", "Usual", "text", None, 0, 1, b"usual", ["usual"]):
        for call in (lambda policy=policy: keyring.standing(key, OLD, READ, verify, policy),
                     lambda policy=policy: document.judge(keyring, verify, READ, policy)):
            it, said = raised(ValueError, call), f"the policy is {policy!r}, and none of usual, any"
            verdict(f"no policy {policy!r}", str(it) == said, it)
    places = ("row", (-1, 1, 2, 77, 1 << 64)), ("component", (0, 77, -1, 1 << 64)), ("certificate", (1, -1)), ("created", (7,))
    for it in (other, *(dataclasses.replace(key, **{name: number}) for name, numbers in places for number in numbers)):
        found = raised(IndexError, lambda it=it: keyring.standing(it, OLD, READ, verify))
        verdict(f"no key {it}", str(found) == "the keyring has no such key", found)
    for it in (None, 0, "text", key.fingerprint, keyring.certificates()[0], keyring.signatures()[0]):
        verdict(f"no key {it!r}", raised(TypeError, lambda it=it: keyring.standing(it, OLD, READ, verify)))
        verdict(f"no keyring {it!r}", raised(TypeError, lambda it=it: document.judge(it, verify, READ)))
    with opgp.Document(SIGNATURE) as going:
        found = raised(ValueError, lambda: going.judge(keyring, verify, READ))
        verdict("a document that hasn't ended", str(found) == "the document hasn't ended", found)
    verdict("a closed document", str(raised(ValueError, lambda: going.judge(keyring, verify, READ))) == "the handle holds nothing")
    closing = opgp.read(keyring.write())
    closing.close()
    for call in (lambda: closing.standing(key, OLD, READ, verify), lambda: document.judge(closing, verify, READ)):
        verdict("a closed keyring", str(raised(ValueError, call)) == "the keyring is closed")
    verdict("nothing is asked then", verify.asked == [])
    for made, now in ((0, 0), (2**64 - 1, 2**64 - 1), (0, 2**64 - 1)):
        found = keyring.standing(key, made, now, verify), document.judge(keyring, verify, now)[0].why
        verdict(f"the times {made} and {now}", found[0] is not None and (found[1] is opgp.Why.FUTURE or now), found)
    verdict("a time that is an index", document.judge(keyring, verify, Number(READ)) == good)
    found = keyring.standing(key, OLD, READ, None), document.judge(keyring, None, READ)[0].why
    verdict("no verifier", found == (opgp.Why.UNBOUND, opgp.Why.UNDECIDED), found)
    primary = keyring.certificates()[0].primary
    verdict("a key by its certificate", keyring.standing(primary, OLD, READ, verify) is keyring.standing(key, OLD, READ, verify))
    empty = document.judge(opgp.read(b""), verify, READ)
    verdict("a keyring of nothing", [(it.verdict, it.why) for it in empty] == [(opgp.Verdict.UNDECIDED, opgp.Why.UNDECIDED)], empty)
    rule = opgp._Rule(keyring._open(), verify, 0)

    def asked(row, of=document, at=0):
        call = opgp._library.opgp_document_standing
        return rule.why(keyring.keys()[at], lambda ring, given, place, why: call(of._document, ring, *given, row, *place, READ, why))

    typed_document = hashed_in_pieces(opgp, packet(2, over(4, 0x10, 8)), [])
    told = asked(0, at=-1), asked(0), asked(0, typed_document)
    verdict("another key and another type", told == (None, opgp.Why.ISSUER, opgp.Why.TYPE), told)
    verdict("no row", raised(IndexError, lambda: asked(1)) and raised(IndexError, lambda: asked(1 << 63)))
    verdict("reasons are truthy", all(opgp.Why) and len(opgp.Why) == 16 and opgp.Judgement._fields == ("signature", "verdict", "why", "cause"))


class Number:
    def __init__(self, value):
        self.value = value

    def __index__(self):
        return self.value


def judgement_verifiers(opgp):
    """What a verifier raises ends it. One may close what it is asked about, and ask in its turn."""
    keyring, document, verify = one_judged(opgp)
    key = keyring.keys()[-1]
    wanted = [keyring.standing(key, OLD, READ, verify), *(it.why for it in document.judge(keyring, verify, READ))]
    verdict("what is asked about is believed", wanted == [None, None], wanted)
    count = len(verify.asked)
    verify.asked.clear()
    thrice = hashed_in_pieces(opgp, packet(2, vector_of("base").documents[0][0]) * 3, [TEXT])
    verify.own *= 3
    verdict("three signatures by one key", [it.why for it in thrice.judge(keyring, verify, READ)] == [None] * 3)
    verdict("each row of its certificate is asked about once", len(verify.asked) == count // 2 + 3 and verify.is_once({0}), verify.asked)
    for at in range(count):
        asked = []

        def fails(question):
            asked.append(question)  # pylint: disable=cell-var-from-loop
            if len(asked) > at:  # pylint: disable=cell-var-from-loop
                raise Failing
            return verify(question)

        both = (lambda: keyring.standing(key, OLD, READ, fails), lambda: document.judge(keyring, fails, READ))  # pylint: disable=cell-var-from-loop
        for call in both:
            asked.clear()
            it = raised(Failing, call)
            verdict(f"a verifier that raises at {at}", (it and len(asked) == at + 1) or (not it and len(asked) <= at), asked)
    for kind in (KeyboardInterrupt, SystemExit):
        def stops(_, kind=kind):
            raise kind
        verdict(f"a verifier that raises {kind}", raised(kind, lambda stops=stops: document.judge(keyring, stops, READ)))
    for given in (None, 7, "good"):
        for call in (lambda given=given: keyring.standing(key, OLD, READ, lambda _: given),
                     lambda given=given: document.judge(keyring, lambda _: given, READ)):
            verdict(f"a verifier that answers {given!r} there", raised(ValueError, call))
    for given in opgp.Verdict:
        found = document.judge(keyring, lambda _: given, READ)[0]  # pylint: disable=cell-var-from-loop
        says = None if given is opgp.Verdict.GOOD else opgp.Why[given.name]
        verdict(f"a verifier that answers {given} there", (found.verdict, found.why) == (given, says), found)

    def asks(question):
        nested = [keyring.standing(key, OLD, READ, verify), *(it.why for it in document.judge(keyring, verify, READ))]
        return verify(question) if nested == wanted and keyring.check() and document.check(keyring) else None

    found = [keyring.standing(key, OLD, READ, asks), *(it.why for it in document.judge(keyring, asks, READ))]
    verdict("a verifier that asks in its turn", found == wanted, found)

    def closes(question):
        keyring.close()
        document.close()
        return verify(question)

    again, other, _ = one_judged(opgp)
    found = [it.why for it in document.judge(keyring, closes, READ)]
    verdict("a verifier that closes both", found == [None] and raised(ValueError, keyring.keys) and raised(ValueError, document.signatures), found)
    keyring, document = again, other
    verdict("one that closes the keyring", keyring.standing(key, OLD, READ, closes) is None and raised(ValueError, keyring.keys))

    def begins_anew(question):
        other.__init__(SIGNATURE)
        return verify(question)

    keyring, other, _ = one_judged(opgp)
    found = [it.why for it in other.judge(keyring, begins_anew, READ)]
    verdict("one that begins the document anew", found == [None] and raised(ValueError, other.signatures), found)


def judged_in_places(opgp):
    """Of a key in two places the first that is believed says so, else the first says why not; whatever the library answers."""
    keyring, document, verify = one_judged(opgp, "sub_of_other")
    verdict("it is in two places", len(keyring.merged().find(document.judge(keyring, verify, READ)[0].signature.issuer)) == 2)
    for answers, wanted, count in (((0, 0), None, 1), ((0, 5), None, 1), ((4, 0), None, 2), ((4, 5), opgp.Why.UNBOUND, 2), ((5, 4), opgp.Why.EXPIRED, 2),
                                   ((13, 1), opgp.Why.ISSUER, 2)):
        asked = []

        def answer(*given):
            asked.append(given[6])  # pylint: disable=cell-var-from-loop
            given[-1].value = answers[len(asked) - 1]  # pylint: disable=cell-var-from-loop
            return 0

        with unittest.mock.patch.object(opgp._library, "opgp_document_standing", answer):
            found = [it.why for it in document.judge(keyring, verify, READ)]
        verdict(f"two places where the library says {answers}", found == [wanted] and asked == [0, 1][:count], (found, asked))
    for status, number, kind in ((0, 15, ValueError), (0, 255, ValueError), (3, 0, MemoryError), (5, 0, ValueError), (6, 0, IndexError),
                                 (77, 0, RuntimeError)):
        def wrong(*given, status=status, number=number):
            given[-1].value = number
            return status

        for name, call in (("opgp_document_standing", lambda: document.judge(keyring, verify, READ)),
                           ("opgp_ring_standing", lambda: keyring.standing(keyring.keys()[0], OLD, READ, verify))):
            with unittest.mock.patch.object(opgp._library, name, wrong):
                verdict(f"{name} that returns {status} and {number}", raised(kind, call))


def judged_elsewhere(opgp):
    """The same is said of keys and signatures where other packets and certificates stand in front, and however the keyring is written."""
    marker, opaque = b"\xca\x03PGP", packet(2, OPAQUE)
    for vector in map(vector_of, ("base", "revocation_last", "v6_revocation_last", "revoker_displaced", "key_expired_after")):
        limits_given = opgp.Limits(keep_malformed=True)
        whole, own = opgp.read(vector.octets), [it for _, it in vector.documents]
        verify = Arithmetic(opgp, vector.verdicts, own)
        document = hashed_in_pieces(opgp, b"".join(packet(2, it) for it, _ in vector.documents), [TEXT])
        wanted = [whole.standing(it, OLD, READ, verify) for it in whole.keys()], [it.why for it in document.judge(whole, verify, READ)]
        one, three = (opgp.read(octets_of(it)).write() for it in (A1, A3))
        for lead in (b"", marker, one, three + opaque, marker + one * 2):
            in_front = opgp.read(lead, limits_given)
            keyring = opgp.read(lead + vector.octets, limits_given)
            before = len(in_front.signatures())
            for made in (keyring, keyring.normalised(), opgp.read(keyring.write(armor=True), limits_given)):
                verify = Arithmetic(opgp, [standing.BAD] * before + vector.verdicts, own)
                keys = made.keys()[len(in_front.keys()) :]
                verdict(f"{vector.stem} behind {lead[:9]}", [made.standing(it, OLD, READ, verify) for it in keys] == wanted[0])
                verdict(f"{vector.stem} behind {lead[:9]}, what is asked", {it for it, _ in verify.asked} <= {it.certificate for it in keys})
                merged = verdicts_of_merged(vector._replace(octets=lead + vector.octets, verdicts=verify.rows), made.merged().write())
                found = document.judge(made, Arithmetic(opgp, merged, own), READ)
                verdict(f"{vector.stem} behind {lead[:9]}, judged", [it.why for it in found] == wanted[1], found)
                verdict(f"{vector.stem} behind {lead[:9]}, its signers", [it.signature for it in found] == document.signatures(made))


def judged_at_once(opgp):
    """Threads that judge one document by one keyring say the same."""
    for stem in ("base", "twice_first_bare"):
        keyring, document, verify = one_judged(opgp, stem)
        found = verdicts_of_merged(vector_of(stem), keyring.merged().write())
        verify = Arithmetic(opgp, found, verify.own)
        wanted, wrong = document.judge(opgp.read(keyring.write()), verify, READ), []

        def work_at_once():
            for _ in range(20):
                judged = document.judge(keyring, verify, READ)  # pylint: disable=cell-var-from-loop
                if judged != wanted:  # pylint: disable=cell-var-from-loop
                    wrong.append(judged)  # pylint: disable=cell-var-from-loop

        them = [threading.Thread(target=work_at_once) for _ in range(4)]
        for it in them:
            it.start()
        for it in them:
            it.join()
        verdict(f"threads that judge {stem}", not wrong, wrong[:1])


def judged_by_arithmetic(opgp, env, room):
    """judge.py says of each vector what the model says by the merged keyring; and what it didn't verify."""
    paths = [f"{room}/{it}" for it in ("KEYRING", "SIGNATURES", "FILE")]
    example, at = f"{HERE}/python/examples/judge.py", ("--at", str(READ))

    def write(*octets):
        for path, it in zip(paths, octets):
            with open(path, "wb") as file:
                file.write(it)

    keyring, document, _ = one_judged(opgp)
    vector = vector_of("base")
    signatures = packet(2, vector.documents[0][0])
    write(vector.octets, signatures, TEXT)
    name = document.signatures(keyring)[0].issuer.hex().upper()
    without = "import sys, runpy\nsys.modules['cryptography'] = None\nsys.argv[0:1] = []\nrunpy.run_path(sys.argv[0], run_name='__main__')"
    ended = run(sys.executable, "-c", without, example, *paths, *at, env=env)
    wanted = ["nothing is verified: the package cryptography is wanted", "not verified: 1 by EdDSALegacy, SHA2-256"]
    told = ended.returncode, lines_of(ended), ended.stderr.decode().splitlines()
    verdict("judge.py without cryptography", told == (1, [f"signature 0 : undecided issuer {name}"], wanted), ended)
    for what, words, status in (("a time below 0", (*paths, "--at", "-1"), 1), ("no file", (*paths[:2], "/nothing/here", *at), 1),
                                ("no words", (), 2), ("no time", (*paths, "--at", "now"), 2), ("a date", (*paths, "--at", "20261101"), 2),
                                ("a keyring that is refused", (paths[2], *paths[1:], *at), 1)):
        ended = run(sys.executable, example, *words, env=env)
        verdict(f"judge.py of {what}", (ended.returncode, ended.stdout) == (status, b"") and ended.stderr and b"Traceback" not in ended.stderr, ended)
    if not importlib.util.find_spec("cryptography"):
        return
    ended = run(sys.executable, example, *paths, *at, env=env)
    verdict("judge.py", (ended.returncode, ended.stdout, ended.stderr) == (0, f"signature 0 : believed issuer {name}\n".encode(), b""), ended)
    ended = run(sys.executable, example, *paths, "--at", str(OLD - 1), env=env)
    verdict("judge.py of a time before", (ended.returncode, ended.stdout) == (1, f"signature 0 : future issuer {name}\n".encode()), ended)
    spec = importlib.util.spec_from_file_location("judge", example)
    judge = importlib.util.module_from_spec(spec)
    spec.loader.exec_module(judge)
    for vector in standing_cases.vectors():
        octets, out, err = opgp.read(vector.octets, opgp.Limits(keep_malformed=True)).merged().write(), io.StringIO(), io.StringIO()
        signatures = b"".join(packet(2, it) for it, _ in vector.documents)
        write(vector.octets, signatures, TEXT)
        if raised(opgp.Fault, lambda: (opgp.read(vector.octets), opgp.Document(signatures))):  # pylint: disable=cell-var-from-loop
            continue  # what is malformed
        with unittest.mock.patch("sys.argv", [example, *paths, *at]), contextlib.redirect_stdout(out), contextlib.redirect_stderr(err):
            judge.left_out.clear()
            status = judge.main()
        by = standing.Keyring(octets, verdicts_of_merged(vector, octets))
        wanted = [by.believed(*it, READ) for it in vector.documents]
        told = re.findall(r"^signature \d+ : (\S+) issuer \S+$", out.getvalue(), re.M)
        holds = [it == "believed" for it in told] == [it is None for it in wanted] and status == (None not in wanted)
        reasons = all(why_of(opgp, it).name.lower() == said for it, said in zip(wanted, told) if it not in (None, "undecided"))
        verdict(f"judge.py of {vector.stem}", holds and reasons and len(told) == len(wanted), (told, wanted, out.getvalue(), err.getvalue()))
        verdict(f"judge.py of {vector.stem} verifies all", err.getvalue() == "", err.getvalue())


def work(opgp):
    """Four times as many certificates take four times as many lines of the module, and no more, in each of its calls."""
    body = opgp.read(octets_of(A1)).packets()[0].body
    issuer = b"\x09\x10" + bytes(8)

    def lines(count, call):
        heads = (packet(6, body[:1] + at.to_bytes(4, "big") + body[5:]) for at in range(count))
        keyring, counted = opgp.read(b"".join(it + direct(issuer) + packet(13, b"a") for it in heads)), 0

        def trace(frame, what, _):
            nonlocal counted
            counted += what == "line"
            return trace if frame.f_code.co_filename == opgp.__file__ else None

        sys.settrace(trace)
        try:
            call(keyring)
        finally:
            sys.settrace(None)
        return counted

    calls = {"write": lambda it: it.write(), "check": lambda it: it.check(lambda _: opgp.Verdict.GOOD), "parts": lambda it: [*opgp.parts(io.BytesIO(it.write()))]}
    calls |= {name: (lambda it, name=name: getattr(it, name)()) for name in ("packets", "keys", "signatures", "certificates", "normalised", "merged")}
    for name in ("packets", "keys", "signatures", "user_ids"):
        calls[f"{name} of certificates"] = lambda it, name=name: [getattr(certificate, name) for certificate in it.certificates()]
    calls["octets"] = lambda it: [it.octets(row) for row in range(len(it.signatures()))]
    calls["find"] = lambda it: it.find(bytes(8))
    for name, call in calls.items():
        one, four = lines(100, call), lines(400, call)
        verdict(f"the work of {name}", 0 < four <= 4.6 * one, (one, four))
    signer = model.fingerprint(body[:1] + (7).to_bytes(4, "big") + body[5:])
    document, asked = stating(over(4, 0, 8, named(signer)), b""), []
    hashed = opgp.document(packet(2, document), io.BytesIO(b""))
    one, four = (lines(count, lambda it: hashed.check(it, lambda of: asked.append(of.signer.row) or opgp.Verdict.GOOD)) for count in (100, 400))
    verdict("the work of a document's check is that of its signers", 0 < one == four and asked == [7, 7], (one, four, asked))
    judge = (lambda it: it.standing(opgp._key_at(it._open(), 7), 0, 0, lambda _: opgp.Verdict.GOOD),
             lambda it: hashed.judge(it, lambda _: opgp.Verdict.GOOD, 0))
    for call in judge:
        one, four = lines(100, call), lines(400, call)
        verdict("the work of a judgement is that of its certificates", 0 < one == four, (one, four))


def threads(opgp):
    octets = octets_of(SOURCES[2])
    wanted, wrong = (opgp.read(octets).keys(), opgp.read(octets).check()), []

    def work():
        for _ in range(200):
            with opgp.read(octets) as keyring:
                if (keyring.keys(), keyring.check()) != wanted:
                    wrong.append(keyring)

    them = [threading.Thread(target=work) for _ in range(4)]
    for it in them:
        it.start()
    for it in them:
        it.join()
    verdict("four threads", not wrong)


# Programs that would end the process that runs them if memory were used wrongly: each prints "done" alone.
AT_ONCE = {
    "calls of one keyring": """
keyring = opgp.read(octets)
key, good = keyring.keys()[-1], lambda _: opgp.Verdict.GOOD
calls = [keyring.write, keyring.keys, keyring.signatures, lambda: keyring.octets(0), lambda: keyring.merged().write(),
         lambda: keyring.standing(key, 1700000000, 1700000000, good), lambda: keyring.standing(key, 0, 1 << 40, good, "any"),
         lambda: keyring.normalised().write(), lambda: keyring.joined(keyring).write(), lambda: keyring.certificate(0).write(),
         lambda: [it.signatures for it in keyring.certificates()], keyring.check]
wanted = [it() for it in calls]

def work(number):
    for turn in range(30):
        it = (number + turn) % len(calls)
        assert calls[it]() == wanted[it], it
""",
    "closing a keyring that is in use": """
rings = [opgp.read(octets) for _ in range(40)]
key, good = rings[0].keys()[0], lambda _: opgp.Verdict.GOOD
wanted = rings[0].write(), rings[0].packets(), rings[0].signatures(), opgp.read(octets).standing(key, 1 << 31, 1 << 31, good)

def work(number):
    for turn in range(40):
        it = rings[turn]
        try:
            if number % 4 == 0:
                time.sleep(0.002)
                it.close()
            else:
                assert (it.write(), it.packets(), it.signatures(), it.standing(key, 1 << 31, 1 << 31, good)) == wanted
        except ValueError:
            pass
""",
    "keyrings that are made anew": """
ring = opgp.read(octets)
wanted = ring.write(), ring.keys()

def work(number):
    for turn in range(40):
        if number % 4 == 0:
            ring.__init__(octets)
        else:
            assert (ring.write(), ring.keys()) == wanted
""",
    "one reader": """
reader, found = opgp.Reader(), []
part = opgp.read(octets).certificate(0).write()

def work(number):
    for turn in range(100):
        if number % 2:
            reader.push(part)
        else:
            found.extend(reader.taken())

def ended():
    reader.end()
    found.extend(reader.taken())
    assert [it.write() for it in found] == [part] * 400
""",
    "closing a reader that is in use": """
readers = [opgp.Reader() for _ in range(40)]

def work(number):
    for turn in range(40):
        it = readers[turn]
        try:
            if number % 4 == 0:
                time.sleep(0.001)
                it.close()
            elif number % 4 == 1:
                it.__init__()
            else:
                it.push(octets)
                it.take()
                it.end()
        except ValueError:
            pass
""",
    "different documents": """
def work(number):
    for turn in range(10):
        piece = bytes([number]) * (1 + 997 * turn)
        with opgp.Document(signature * 3) as it:
            for _ in range(20):
                it.push(piece)
            it.end()
            wanted = hashlib.sha256(piece * 20 + it.behind(0)).digest()
            assert [row.digest for row in it.signatures()] == [wanted] * 3
""",
    "one document": """
document = opgp.Document(signature)
ring, piece = opgp.read(octets), bytes(1 << 17)

def work(number):
    for turn in range(20):
        try:
            document.signatures(ring)
            raise AssertionError
        except ValueError as it:
            assert str(it) == "the document hasn't ended"
        document.push(piece)
        assert document.front(0) == b""

def ended():
    document.end()
    wanted = hashlib.sha256(piece * 160 + document.behind(0)).digest()
    them = [threading.Thread(target=lambda: found.extend(document.check(ring))) for _ in range(8)]
    them += [threading.Thread(target=lambda: found.extend(it[:2] for it in document.judge(ring.joined(ring), None, 0))) for _ in range(8)]
    found = []
    for it in them:
        it.start()
    for it in them:
        it.join()
    assert [row.digest for row, _ in found] == [wanted] * 16
""",
    "closing a document that is in use": """
documents = [opgp.Document(signature) for _ in range(40)]
rings = [opgp.read(octets) for _ in range(40)]

def work(number):
    for turn in range(40):
        it, ring = documents[turn], rings[turn]
        try:
            if number % 4 == 0:
                time.sleep(0.001)
                it.close()
                ring.close()
            elif number % 4 == 1:
                it.__init__(signature)
            else:
                it.push(octets)
                it.end()
                assert [row.row for row, _ in it.check(ring)] == [0] == [row.row for row in it.signatures()]
                assert [row.row for row, _, why in it.judge(ring, None, 0) if why] == [0]
        except ValueError:
            pass
""",
    "what ends with the process": """
class Cycle:
    pass

it = Cycle()
it.me, it.keyring, it.reader, it.certificate = it, opgp.read(octets), opgp.Reader(), opgp.read(octets).certificates()[0]
it.document = opgp.Document(signature)
it.document.push(octets)
it.reader.push(octets)
sys.modules["opgp"].kept = sys.kept = it

def work(number):
    pass
""",
    "certificates and verifiers without their keyring": """
import gc

def work(number):
    for _ in range(10):
        certificates = opgp.read(octets).certificates()
        gc.collect()
        assert all(it.keys and it.packets and it.signatures is it.signatures for it in certificates)
        ring = [opgp.read(octets)]
        count = len(ring[0].signatures())
        assert len(ring[0].check(lambda _: (ring.clear(), gc.collect(), opgp.Verdict.GOOD)[2])) == count
""",
}
AROUND = """
import faulthandler, hashlib, sys, threading, time
import opgp
faulthandler.enable()
octets, signature = open({path!r}, "rb").read(), {signature!r}
ended = lambda: None
{work}
wrong = []

def guarded(number):
    try:
        work(number)
    except BaseException as it:
        wrong.append(it)

them = [threading.Thread(target=guarded, args=(number,)) for number in range(8)]
for it in them:
    it.start()
for it in them:
    it.join()
ended()
print(wrong[0] if wrong else "done")
"""


def at_once(_, env):
    """Threads that use the same keyring, reader and document at once, and close them, get what they asked for, or a ValueError."""
    for what, it in AT_ONCE.items():
        path = f"{HERE}/tests/vectors/real/debian-archive-bookworm-automatic.gpg"
        ended = run(sys.executable, "-c", AROUND.format(path=path, signature=SIGNATURE, work=it), env=env)
        verdict(what, (ended.returncode, ended.stdout, ended.stderr) == (0, b"done\n", b""), ended)


ROUNDS = """
import io, sys
import opgp
octets, signature, bad = open({path!r}, "rb").read(), {signature!r}, bytes.fromhex("c60103")
again, begun, document = opgp.read(octets), opgp.Reader(), opgp.Document(signature)

def once():
    keyring = opgp.read(octets)
    keyring.octets(0), keyring.write(), keyring.write(armor=True), keyring.check(lambda _: opgp.Verdict.GOOD)
    [it.signatures for it in keyring.certificates()], keyring.merged(), keyring.joined(keyring), keyring.find(b"")
    with opgp.Reader() as reader:
        reader.push(octets)
        reader.end()
        [*reader.taken()]
    again.__init__(octets), begun.push(octets), begun.__init__(), opgp.Reader().push(octets)
    with opgp.document(signature * 3, io.BytesIO(octets)) as hashed:
        hashed.signatures(), hashed.check(keyring), hashed.front(0), hashed.behind(2), hashed.judge(keyring.joined(keyring), None, 0)
    keyring.standing(keyring.keys()[1], 1 << 31, 1 << 32, lambda _: opgp.Verdict.GOOD)
    document.push(octets), document.__init__(signature), opgp.Document(signature).push(octets)
    for wrong in (lambda: opgp.read(bad), lambda: opgp.read(5), lambda: keyring.octets(7), lambda: keyring.joined(5), document.signatures,
                  lambda: document.behind(1), lambda: document.__init__(bad), lambda: opgp.Document(signature * 65), hashed.end,
                  lambda: keyring.standing(keyring.keys()[0], 0, 0, lambda _: 7), lambda: keyring.standing(keyring.keys()[0], -1, 0, None)):
        try:
            wrong()
        except (ValueError, TypeError, IndexError):
            pass

def held(count):
    for _ in range(count):
        once()
    return int(open("/proc/self/statm").read().split()[1])

first = held(300)
print((held(3000) - first) * {page} // 1024)
"""


def memory(_, env):
    """What is made is freed: many more rounds hold no more, in a process that holds little else."""
    program_of = ROUNDS.format(path=A3, signature=packet(2, over(6, 0, 8, named(bytes(32)))), page=resource.getpagesize())
    ended = run(sys.executable, "-c", program_of, env=env)
    more = int(ended.stdout) if ended.returncode == 0 else None
    verdict("memory of 3,000 rounds", more is not None and more < 1024, ended)


def key_of(body):
    return packet(6, b"\6" + bytes(4) + b"\x63" + len(body).to_bytes(4, "big") + body)


def signature_of(kind, hashed=b"", salt=bytes(16)):
    """A version 6 signature by an unknown algorithm, with SHA2-256."""
    return b"\6" + bytes([kind]) + b"\x63\x08" + len(hashed).to_bytes(4, "big") + hashed + bytes(4) + b"\0\0" + bytes([len(salt)]) + salt


def strange(size, bindings, embedded, name):
    """A certificate whose digests take long: a key of this size, a user ID, and bindings of a subkey that embed signatures."""
    inner = signature_of(0x19)
    area = (bytes([len(inner) + 1, 32]) + inner) * embedded
    binding = packet(2, signature_of(0x18, area))
    return key_of(b"x" * size) + packet(13, name) + packet(14, key_of(b"s" * 10)[6:]) + binding * bindings


def spent(call):
    """Processor seconds of a call, and of the processes that it runs."""
    begun = processor_seconds()
    call()
    return processor_seconds() - begun


def strangers(opgp, env):
    """Nothing costs a digest but what is asked of signatures: not opening, packets, keys, certificates, writing and the examples that ask
    for none, though the signatures would take minutes."""
    address = "a@example.org"
    large, within = strange(500_000, 1, 14_000, address.encode()), strange(65_000, 14, 1_300, address.encode())
    for what, octets in (("a key of 500,000 octets", large), ("a key within the limits", within)):
        def asked(octets=octets):
            with opgp.read(octets) as keyring:
                names = [(it.user_ids, it.primary.version, len(it.packets)) for it in keyring.certificates()]
                verdict(f"what is there of {what}", names[0][:2] == ((address,), 6), names)
                verdict(f"its keys, of {what}", len(keyring.keys()) == 2 and keyring.find(keyring.keys()[1].fingerprint))
                verdict(f"{what}, written", keyring.write() == octets and keyring.certificate(0).write() == octets)
                verdict(f"{what}, merged", keyring.merged().write() and keyring.joined(keyring).write() == octets * 2)
            verdict(f"{what}, in pieces", [it.write() for it in opgp.parts(io.BytesIO(octets))] == [octets])

        seconds = spent(asked)
        verdict(f"the seconds of {what}", seconds < 2, seconds)
        ended = []
        seconds = spent(lambda octets=octets, ended=ended: ended.append(run(sys.executable, f"{HERE}/python/examples/wkd.py", address, input=octets, env=env)))
        told = (ended[0].returncode, ended[0].stdout)
        wanted = (0, octets) if octets is within else (1, b"")
        verdict(f"wkd.py of {what}", told == wanted and seconds < 2, (ended[0].stderr, seconds))
        mail = f"Autocrypt: addr={address}; keydata={base64_of(octets)}\n\n".encode()
        seconds = spent(lambda mail=mail, ended=ended: ended.append(run(sys.executable, f"{HERE}/python/examples/autocrypt.py", input=mail, env=env)))
        verdict(f"autocrypt.py of {what}", ended[1].returncode == wanted[0] and seconds < 2, (ended[1].stderr, seconds))
    limited = opgp.Limits(body=1 << 16, cert=1 << 20, input=1 << 20)
    fault = raised(opgp.Fault, lambda: opgp.read(large, limited))
    verdict("the limit of a body", fault and fault.reason == "BodyTooLong", fault)


def each_octets(opgp):
    """What each row hashes, one after the other, takes a time that is linear in all."""
    key, _ = one_key(opgp, A1)
    count = 20_000
    keyring = opgp.read(key + direct(b"") * count)
    wanted, wrong = keyring.octets(0), []
    seconds = spent(lambda: wrong.extend(row for row in range(count) if keyring.octets(row) != wanted))
    verdict(f"the octets of {count} rows", not wrong and seconds < 10, (wrong[:3], seconds))
    backwards = spent(lambda: [keyring.octets(row) for row in range(count - 1, count - 100, -1)])
    verdict("the octets of rows backwards", backwards < 10, backwards)


def without_library(_, env, room):
    """Where the library isn't there, or is another, the import fails as imports do, and names OPGP_LIBRARY."""
    told = "try:\n    import opgp\nexcept ImportError as it:\n    print(type(it).__name__, it)"
    with open(f"{room}/empty", "wb"):
        pass
    for path in ("/nothing/here", f"{room}/empty", ctypes.util.find_library("c") or "libc.so.6"):
        ended = run(sys.executable, "-c", told, env={**env, "OPGP_LIBRARY": path})
        said = ended.stdout.decode()
        verdict(f"the library {path}", said.startswith("ImportError ") and "OPGP_LIBRARY" in said and ended.stderr == b"", ended)
    for name, abi, part in (("older", 3, "is older than this module"), ("other", 2, "has version 2 of libopgp's structs, and not 3")):
        source = f"unsigned opgp_abi(void);unsigned opgp_abi(void){{return {abi};}}"
        made = run("cc", "-shared", "-fPIC", "-x", "c", "-", "-o", f"{room}/{name}.so", input=source.encode())
        ended = run(sys.executable, "-c", told, env={**env, "OPGP_LIBRARY": f"{room}/{name}.so"})
        holds = made.returncode == 0 and ended.stdout.decode().startswith(f"ImportError {room}/{name}.so {part}")
        verdict(f"an {name} library", holds, (made, ended))


def packed(_, room):
    """pyproject.toml has the version of the library, and makes a wheel of opgp.py with its types, in a copy."""
    with open(f"{HERE}/python/pyproject.toml", encoding="utf-8") as it:
        version = re.search(r'^version = "(.*)"$', it.read(), re.M)[1]
    with open(f"{HERE}/c/opgp.h", encoding="utf-8") as it:
        verdict("the version of the wheel", f'OPGP_VERSION "{version}"' in it.read(), version)
    copied = f"{room}/packed"
    os.mkdir(copied)
    for name in ("opgp.py", "pyproject.toml", "setup.py"):
        shutil.copy(f"{HERE}/python/{name}", copied)
    shutil.copytree(f"{HERE}/python/wheel", f"{copied}/wheel", symlinks=True)
    wants = "import setuptools, wheel, pip; assert int(setuptools.__version__.split('.')[0]) >= 61"
    python = [it for it in (sys.executable, "/usr/bin/python3") if os.access(it, os.X_OK) and run(it, "-c", wants).returncode == 0]
    if not python:
        left_out("a Python with pip, setuptools and wheel")
        return
    words = ("wheel", "--no-build-isolation", "--no-deps", "--no-index", "--no-cache-dir", "-w", f"{copied}/out", copied)
    ended = run(python[0], "-m", "pip", *words)
    verdict("the wheel is made", ended.returncode == 0, ended)
    if ended.returncode == 0:
        made = run(python[0], "-m", "zipfile", "-l", f"{copied}/out/opgp-{version}-py3-none-any.whl").stdout.decode()
        modules = [it.split()[0] for it in made.splitlines()[1:] if ".dist-info/" not in it]
        beside = [it for it in os.listdir(f"{HERE}/python/wheel") if it.endswith((".py", ".typed"))]
        verdict("what is in it", sorted(modules) == sorted(f"opgp/{it}" for it in ("__init__.py", *beside)), made)


def examples(opgp, env):
    for source in SOURCES:
        octets = octets_of(source)
        listed = program(octets, "list")
        ended = run(sys.executable, f"{HERE}/python/examples/keys.py", input=octets, env=env)
        keys = [it for it in lines_of(listed) if it[:3] in ("pub", "sub")]
        verdict(f"keys.py of {os.path.relpath(source, HERE)}",
                (ended.returncode, lines_of(ended), ended.stderr) == (listed.returncode, keys, listed.stderr), ended)
    named = run(sys.executable, f"{HERE}/python/examples/keys.py", A1, env=env)
    verdict("keys.py of a file", lines_of(named) == [it for it in lines_of(program(octets_of(A1), "list")) if it[:3] in ("pub", "sub")])
    keydata = "\n ".join(re.findall(".{1,70}", base64.b64encode(opgp.read(octets_of(A3)).write()).decode()))
    mail = f"From: a@example.org\nAutocrypt: addr=a@example.org; prefer-encrypt=mutual; keydata=\n {keydata}\n\nText\n"
    ended = run(sys.executable, f"{HERE}/python/examples/autocrypt.py", input=mail.encode(), env=env)
    verdict("autocrypt.py", (ended.returncode, lines_of(ended)) == (0, [f"a@example.org {opgp.read(octets_of(A3)).keys()[0].fingerprint.hex().upper()}"]), ended)
    for wrong in ("!", "", base64_of(b"\xc6\1\3")):
        ended = run(sys.executable, f"{HERE}/python/examples/autocrypt.py", input=f"Autocrypt: addr=b; keydata={wrong}\n\n".encode(), env=env)
        verdict(f"autocrypt.py of {wrong!r}", ended.returncode == 1 and ended.stdout == b"" and ended.stderr.startswith(b"b: "), ended)
    ended = run(sys.executable, f"{HERE}/python/examples/expiry.py", input=octets_of(A3), env=env)
    prints = [it.fingerprint.hex().upper() for it in opgp.read(octets_of(A3)).keys()]
    wanted = [f"{prints[0]} expires never flags certify,sign", f"{prints[1]} expires never flags encrypt-communications,encrypt-storage"]
    verdict("expiry.py", (ended.returncode, [it.replace("_", "-") for it in lines_of(ended)]) == (0, wanted), ended)
    if importlib.util.find_spec("cryptography"):
        ended = run(sys.executable, f"{HERE}/python/examples/verify.py", input=octets_of(A3), env=env)
        verdict("verify.py", lines_of(ended) == ["row 0 : good", "row 1 : good"], ended)
        changed = bytearray(opgp.read(octets_of(A3)).write())
        changed[-1] ^= 1  # of what the last signature's algorithm made
        ended = run(sys.executable, f"{HERE}/python/examples/verify.py", input=bytes(changed), env=env)
        verdict("verify.py of a changed signature", lines_of(ended) == ["row 0 : good", "row 1 : bad"], ended)
    else:
        left_out("the package cryptography")


def answered(opgp, env):
    """wkd.py writes the certificates that have the address, from standard input, a file and a URL, and else says why there is none."""
    real = octets_of(f"{HERE}/tests/vectors/real/debian-archive-bookworm-automatic.gpg")
    sources = [f"{HERE}/tests/vectors/sq/{it}.gpg" for it in ("suites_4", "states_4", "states_6")]
    tried = 0
    for source in sources:
        octets, what = octets_of(source), os.path.basename(source)
        certificates = opgp.read(octets).certificates()
        every = re.findall(r"^(?:.*<)?([^<> ]+@[^<> ]+?)>?$", "\n".join(name for it in certificates for name in it.user_ids), re.M)
        for address in sorted({*every}):
            picked = [it for it in certificates if any(name == address or name.endswith(f"<{address}>") for name in it.user_ids)]
            wanted = b"".join(program(octets, "split", "--nth", str(it.number), "--out", "binary").stdout for it in picked)
            for words, given in (([address], octets), ([address.upper(), source], b""), ([address, f"file://{source}"], b"")):
                ended = run(sys.executable, f"{HERE}/python/examples/wkd.py", *words, input=given, env=env)
                told = [it.split()[0] for it in ended.stderr.decode().splitlines()]
                verdict(f"wkd.py {words} of {what}", picked and (ended.returncode, ended.stdout, told)
                        == (0, wanted, [it.primary.fingerprint.hex().upper() for it in picked]), ended)
            tried += len(picked) < len(certificates)
    verdict("most addresses are of some certificates alone", tried > 5, tried)
    bare = opgp.read(octets_of(A3)).write()
    for what, words, octets, said in (
        ("of another address", ["a@example.org"], real, "no certificate for a@example.org\n"),
        ("without a user ID", ["a@example.org"], bare, "no certificate for a@example.org\n"),
        ("of a part of an address", ["ftpmaster@debian.or"], real, "no certificate for ftpmaster@debian.or\n"),
        ("of no address", [""], real, "'' is no mail address\n"),
        ("in armor", ["a@example.org"], octets_of(A3), "framing: NotAPacket block 0 at 0 inner 0\n"),
        ("of nothing", ["a@example.org"], b"", "no certificate for a@example.org\n"),
        ("that is too long", ["a@example.org"], real + b"\xe8\0" * (1 << 19), f"the answer has more than {1 << 20} octets\n"),
        ("that is refused", ["a@example.org"], b"\xc6\1\3", "body: KeyVersion block 0 at 0 inner 0\n"),
    ):
        ended = run(sys.executable, f"{HERE}/python/examples/wkd.py", *words, input=octets, env=env)
        verdict(f"wkd.py {what}", (ended.returncode, ended.stdout, ended.stderr.decode()) == (1, b"", said), ended)
    ended = run(sys.executable, f"{HERE}/python/examples/wkd.py", "a@example.org", "/nothing/here", env=env)
    verdict("wkd.py of no file", ended.returncode == 1 and ended.stdout == b"" and b"No such file" in ended.stderr, ended)


def said_by(kind, seconds, area=b"", signer=b"", version=4):
    """A subpacket area's signature: of this type, by this key ID, made at this time."""
    hashed = b"\5\2" + seconds.to_bytes(4, "big") + area + b"\x09\x10" + signer
    return packet(2, bytes([version, kind]) + b"\x16\x08" + len(hashed).to_bytes(2, "big") + hashed + b"\0\0" + b"\0\0" + bytes(4))


def with_digests(opgp, octets):
    """The same keyring, where each signature states the left 16 bits of its digest."""
    keyring, made = opgp.read(octets), b""
    rows = iter(keyring.signatures())
    for it in keyring.packets():
        body = it.body
        if it.kind == 2:
            body = body[:-6] + (next(rows).digest[:2] or b"\0\0") + body[-4:]
        made += packet(it.kind, body)
    return made


def expires_by(opgp, env, octets):
    """What expiry.py says of each key: the time, in seconds after its creation, and the flags."""
    ended = run(sys.executable, f"{HERE}/python/examples/expiry.py", input=octets, env=env)
    found = []
    for key, line in zip(opgp.read(octets).keys(), lines_of(ended)):
        until, flags = re.fullmatch(rf"{key.fingerprint.hex().upper()} expires (\S+) flags (\S+)", line).groups()
        found.append((until if until in ("never", "unknown") else seconds_of(until) - key.created, flags))
    return found if ended.returncode == 0 else ended


def seconds_of(date):
    return int(datetime.datetime.strptime(date, "%Y-%m-%dT%H:%M:%S%z").timestamp())


def expiry_rules(opgp, env):
    """expiry.py: which of a certificate's self-signatures count, by place and time."""
    key, key_id = one_key(opgp, A1)
    other, other_id = one_key(opgp, f"{HERE}/tests/vectors/real/debian-archive-bookworm-stable.gpg")
    subkey = packet(14, other[6:])
    names = [packet(13, b"%d" % it) for it in range(3)]

    def at(seconds, days=None, flags=None, kind=0x13, signer=key_id):
        area = b"" if days is None else b"\5\x09" + days.to_bytes(4, "big")
        area += b"" if flags is None else b"\2\x1b" + bytes([flags])
        return said_by(kind, seconds, area, signer)

    direct_at = lambda *it, **more: at(*it, kind=0x1F, **more)
    a, b, _ = names
    for what, octets, wanted in (
        ("no signature", key + a, ("unknown", "unknown")),
        ("one", key + a + at(9, 100, 3), (100, "certify,sign")),
        ("one without", key + a + at(9), ("never", "unknown")),
        ("an expiry of 0", key + a + at(9, 0, 0), ("never", "none")),
        ("the newer of one user ID", key + a + at(9, 100, 3) + at(8, 50, 1), (100, "certify,sign")),
        ("the later of one time", key + a + at(9, 100, 3) + at(9, 50, 1), (50, "certify")),
        ("the newer doesn't say", key + a + at(9, 100, 3) + at(10), ("never", "unknown")),
        ("the newer user ID", key + a + at(9, 100, 3) + b + at(10, 50, 1), (50, "certify")),
        ("the first user ID of one time", key + a + at(9, 100, 3) + b + at(9, 50, 1), (100, "certify,sign")),
        ("the newer user ID doesn't say", key + a + at(9, 100, 3) + b + at(10), (100, "certify,sign")),
        ("each says one thing", key + a + at(9, 100) + b + at(10, None, 2), (100, "sign")),
        ("a direct signature that names a revoker alone", key + direct_at(12) + a + at(9, 100, 3), (100, "certify,sign")),
        ("a direct signature first", key + direct_at(5, 70, 1) + a + at(9, 100, 3), (70, "certify")),
        ("the newest direct signature", key + direct_at(5, 70, 1) + direct_at(6) + a + at(9, 100, 3), (100, "certify,sign")),
        ("a direct signature alone", key + direct_at(5, 70, 1), (70, "certify")),
        ("a revoked user ID", key + a + at(9, 100, 3) + at(10, kind=0x30) + b + at(5, 50), (50, "unknown")),
        ("all of them revoked", key + a + at(9, 100, 3) + at(10, kind=0x30), ("unknown", "unknown")),
        ("certified again", key + a + at(9, kind=0x30) + at(10, 100, 3), (100, "certify,sign")),
        ("each type of certification", key + a + at(9, 100, 3, kind=0x10) + b + at(10, 50, 1, kind=0x11), (50, "certify")),
        ("by another", key + a + at(9, 100, 3) + at(10, 50, 1, signer=other_id), (100, "certify,sign")),
        ("misplaced", key + a + at(9, 100, 3) + at(10, 50, 1, kind=0x1F) + at(11, 40, 1, kind=0x18), (100, "certify,sign")),
    ):
        found = expires_by(opgp, env, with_digests(opgp, octets))
        verdict(f"expiry.py: {what}", found == [wanted], (found, wanted))
    bad = with_digests(opgp, key + a + at(9, 100, 3)) + at(10, 50, 1)[:-6] + b"\0\0" + bytes(4)
    verdict("expiry.py: a digest that isn't the signature's", expires_by(opgp, env, bad) == [(100, "certify,sign")])
    bound = key + a + at(9, 100, 3) + subkey + at(9, 70, 4, kind=0x18) + at(12, 60, 8, kind=0x18) + at(11, 50, 2, kind=0x18)
    once = with_digests(opgp, bound + at(13, 40, 1, kind=0x18, signer=other_id))
    wanted = [(100, "certify,sign"), (60, "encrypt_storage")]
    verdict("expiry.py: a subkey", expires_by(opgp, env, once) == wanted, expires_by(opgp, env, once))
    verdict("expiry.py: a certificate that is there twice", expires_by(opgp, env, once * 2) == wanted * 2)


# The secret key of the certificate in RFC 9580, A.3 (A.4).
SECRET = "1972817b12be707e8d5f586ce61361201d344eb266a2c82fde6835762b65b0b7"


def signed_by(secret, body, document):
    """The same version 6 signature by Ed25519, made over a document by this secret key."""
    body = stating(body, document)
    return body[:-64] + secret.sign(said_over(body, document)[2])


def verified(opgp, env, room):
    """document.py finds good what the standard's key and gpg signed, bad what was changed since, and nothing of other keys."""
    if not importlib.util.find_spec("cryptography"):
        return
    from cryptography.hazmat.primitives.asymmetric.ed25519 import Ed25519PrivateKey

    def says(what, ring, signatures, document, status, lines, said=""):
        for name, octets in (("ring", ring), ("signatures", signatures)):
            with open(f"{room}/{name}", "wb") as it:
                it.write(octets)
        words = (f"{HERE}/python/examples/document.py", f"{room}/ring", f"{room}/signatures")
        ended = run(sys.executable, *words, input=document, env=env)
        told = (ended.returncode, lines_of(ended), ended.stderr.decode())
        verdict(f"document.py of {what}", told == (status, lines, said), ended)

    ring, secret, text = octets_of(A3), Ed25519PrivateKey.from_private_bytes(bytes.fromhex(SECRET)), b"a text\nof lines\r\n"
    name = opgp.read(ring).keys()[0].fingerprint
    made = [signed_by(secret, over(6, kind, algorithm, named(name)), text) for kind, algorithm in ((0, 8), (1, 8), (0, 10), (1, 9))]
    octets, issuer = b"".join(packet(2, it) for it in made), f"issuer {name.hex().upper()}"
    says("four signatures", ring, model.armor(octets, b"SIGNATURE"), text, 0, [f"signature {it} : good {issuer}" for it in range(4)])
    other = [f"signature {it} : {found} {issuer}" for it, found in enumerate(("bad", "good", "bad", "good"))]
    says("other line ends", ring, octets, text.replace(b"\n", b"\r\n").replace(b"\r\r", b"\r"), 0, other)
    says("a document that was changed", ring, octets, text + b"x", 1, [f"signature {it} : bad {issuer}" for it in range(4)])
    says("a stray return", ring, packet(2, made[1]), text + b"\rx", 1, [f"signature 0 : line-ends {issuer}"])
    says("a signature that was changed", ring, packet(2, made[0][:-1] + b"\0"), text, 1, [f"signature 0 : bad {issuer}"])
    says("another keyring", octets_of(A1), packet(2, made[0]), text, 1, [f"signature 0 : undecided {issuer}"])
    nameless = packet(2, over(6, 0, 8)) + packet(2, over(4, 2, 8))
    says("signatures without an issuer", ring, nameless, b"", 1, ["signature 0 : bad issuer -", "signature 1 : kind issuer -"])
    says("a refused keyring", b"\xc6\1\3", octets, text, 1, [], "body: KeyVersion block 0 at 0 inner 0\n")
    says("refused signatures", ring, ring, text, 1, [], "composition: BlockLabel block 0 at 0 inner 0\n")
    says("too many signatures", ring, octets * 17, text, 1, [], "there are more than 64 signatures\n")
    ended = run(sys.executable, f"{HERE}/python/examples/document.py", "/nothing/here", A3, env=env)
    verdict("document.py of no file", ended.returncode == 1 and ended.stdout == b"" and b"No such file" in ended.stderr, ended)
    verified_beside_gpg(opgp, says, room)


def verified_beside_gpg(opgp, says, room):
    """The same of what gpg signs by EdDSALegacy and RSA."""
    if not shutil.which("gpg"):
        return
    home = f"{room}/gpg-signs"
    os.mkdir(home, 0o700)
    gpg = ("gpg", "--homedir", home, "--batch", "--quiet", "--yes", "--no-options", "--pinentry-mode", "loopback", "--passphrase", "")
    for algorithm in ("ed25519", "rsa2048"):
        if run(*gpg, "--quick-generate-key", f"{algorithm}@example.org", algorithm, "sign", "0").returncode:
            left_out(f"a key of gpg's, {algorithm}")
            return
    ring = run(*gpg, "--export").stdout
    with open(f"{room}/document", "wb") as it:
        it.write(b"a text \nof lines\r\n" * 9)
    made, lines, wanted = b"", [], []
    for key in opgp.read(ring).keys():
        for digest, more in (("SHA256", ()), ("SHA384", ("--textmode",)), ("SHA512", ())):
            words = ("--local-user", key.fingerprint.hex(), "--digest-algo", digest, *more, "--output", "-", "--detach-sign")
            made += run(*gpg, *words, f"{room}/document").stdout
            lines.append(f"issuer {key.fingerprint.hex().upper()}")
            wanted.append((False, len(more), key.row, key.algorithm, f"SHA2-{digest[3:]}"))
    run("gpgconf", "--homedir", home, "--kill", "all")
    document = octets_of(f"{room}/document")
    says("gpg's signatures", ring, made, document, 0, [f"signature {at} : good {it}" for at, it in enumerate(lines)])
    says("gpg's signatures of another", ring, made, document[1:], 1, [f"signature {at} : bad {it}" for at, it in enumerate(lines)])
    rows = hashed_in_pieces(opgp, made, [document]).signatures(opgp.read(ring))
    told = [(it.is_bad, it.kind, it.signer, it.algorithm, it.hash_name) for it in rows]
    verdict("gpg's signatures", told == wanted and len(told) == 6, (told, wanted))


KEYRINGS = "/usr/share/keyrings"
ARCHIVE = ("debian-archive-keyring", "debian-archive-removed-keys")
LARGE = ("debian-keyring", "debian-maintainers", "debian-nonupload", "debian-role-keys", "archlinux")


def expiry_beside_gpg(opgp, env, room):
    """expiry.py's dates of all keys of Debian's and Arch's keyrings are gpg's. What gpg finds invalid has no date there; of these keyrings
    that is a subkey whose binding is older than the subkey, which expires never by both."""
    if not shutil.which("gpg"):
        left_out("gpg")
        return
    home = f"{room}/gpg"
    os.mkdir(home, 0o700)
    for name in ARCHIVE + LARGE:
        path = f"{KEYRINGS}/{name}.gpg"
        if not os.path.exists(path):
            left_out(path)
            continue
        words = ("--batch", "--no-options", "--with-colons", "--with-fingerprint", "--with-subkey-fingerprint", "--show-keys", path)
        told, wanted, until = run("gpg", "--homedir", home, *words).stdout.decode("utf-8", "replace"), {}, ""
        for it in (line.split(":") for line in told.splitlines()):
            if it[0] in ("pub", "sub"):
                until = it[6]
            elif it[0] == "fpr":
                wanted[it[9]] = until
        ended = run(sys.executable, f"{HERE}/python/examples/expiry.py", input=octets_of(path), env=env)
        found = dict(re.findall(r"^(\S+) expires (\S+) flags \S+$", ended.stdout.decode(), re.M))
        dates = {key: "" if date in ("never", "unknown") else str(seconds_of(date)) for key, date in found.items()}
        different = sorted((it, dates.get(it), wanted.get(it)) for it in dates.keys() | wanted.keys() if dates.get(it) != wanted.get(it))
        verdict(f"expiry.py of {name}, beside gpg", not different and len(dates) > 10, (len(dates), different))
        verdict(f"expiry.py of {name} has dates", name not in ARCHIVE or sum(map(bool, dates.values())) > 9, dates)


def stated_beside_gpg(opgp, _, room):
    """When each signature of Debian's and Arch's keyrings says it was made, and the key ID of the issuer that it names, are gpg's."""
    if not shutil.which("gpg"):
        return
    home = f"{room}/gpg-packets"
    os.mkdir(home, 0o700)
    listed = re.compile(r"^:signature packet: algo \d+, keyid (\w{16})\n\tversion (\d+), created (\d+)", re.M)
    for name in ARCHIVE + LARGE:
        path = f"{KEYRINGS}/{name}.gpg"
        if not os.path.exists(path):
            continue
        told = run("gpg", "--homedir", home, "--batch", "--no-options", "--list-packets", path).stdout.decode("utf-8", "replace")
        found = []
        for it in opgp.read(octets_of(path)).signatures():
            if it.nested is None and it.version:
                key_id = it.issuer[-8:] if len(it.issuer) == 20 else it.issuer[:8]
                found.append((key_id.hex().upper() or 16 * "0", str(it.version), str(it.created)))
        wanted = listed.findall(told)
        different = [both for both in zip(found, wanted) if both[0] != both[1]]
        verdict(f"what signatures of {name} state, beside gpg", found == wanted and len(found) > 0, (len(found), len(wanted), different[:3]))


def sent(opgp, env, room):
    """keyserver.py writes what join --merge gives of both, and tells of each packet that isn't in what one had."""
    merged, before = (octets_of(f"{HERE}/tests/vectors/sq/{it}") for it in ("merged.asc", "before.gpg"))
    blocks = merged + octets_of(A3) + b"\n" + octets_of(A1)
    mine = f"{room}/mine"

    def merge(what, octets, given):
        with open(mine, "wb") as it:
            it.write(octets)
        ended = run(sys.executable, f"{HERE}/python/examples/keyserver.py", mine, input=given, env=env)
        both = opgp.read(octets).write() + opgp.read(given).write()
        wanted = program(program(both, "join", "--merge", "--out", "binary").stdout, "write").stdout
        verdict(f"keyserver.py of {what}", (ended.returncode, ended.stdout) == (0, wanted), ended.stderr)
        return ended.stderr.decode().splitlines()

    told = merge("what is new", before, blocks)
    had = {(it.kind, it.body) for it in opgp.read(before).packets()}
    new = {(it.kind, it.body) for it in opgp.read(blocks).packets()} - had
    verdict("keyserver.py tells each new packet", len(told) == len(new) and len(new) > 5, (told, len(new)))
    print_of = opgp.read(octets_of(A1)).keys()[0].fingerprint.hex().upper()
    verdict("keyserver.py tells a new certificate", f"new in {print_of}: certificate {print_of}" in told, told)
    a3 = [it.fingerprint.hex().upper() for it in opgp.read(octets_of(A3)).keys()]
    wanted = [f"new in {a3[0]}: {it}" for it in (f"certificate {a3[0]}", "signature", f"subkey {a3[1]}", "signature")]
    verdict("keyserver.py tells what is in a new certificate", [it for it in told if a3[0] in it] == wanted, told)
    verdict("keyserver.py of nothing new", merge("what one has", blocks, merged) == [])
    verdict("keyserver.py of what was merged", merge("the same", blocks, blocks) == [])
    for what, octets, given, said in (
        ("what was sent", blocks, b"<html>", "what was sent: armor: NoBlock block 0 at 6 inner 0\n"),
        ("what one has", b"text", blocks, f"{mine}: armor: NoBlock block 0 at 4 inner 0\n"),
    ):
        with open(mine, "wb") as it:
            it.write(octets)
        ended = run(sys.executable, f"{HERE}/python/examples/keyserver.py", mine, input=given, env=env)
        verdict(f"keyserver.py refuses {what}", (ended.returncode, ended.stdout, ended.stderr.decode()) == (1, b"", said), ended)


def base64_of(octets):
    return base64.b64encode(octets).decode()


def documented(opgp, env, room):
    with open(f"{HERE}/docs/LIBRARY-PYTHON.md", encoding="utf-8") as it:
        page = it.read()
    first = re.search(r"```python\n(.*?)```", page, re.S)[1]
    verdict("the page's first program has ten lines or fewer", len(first.splitlines()) <= 10)
    name = "Toke H\udcf8iland-J\u00f8rgensen"
    with open(f"{room}/keyring.asc", "wb") as it:
        it.write(opgp.read(octets_of(A1)).write() + packet(13, name.encode("utf-8", "surrogateescape")))
    ended = run(sys.executable, "-c", first, cwd=room, env={**env, "PYTHONIOENCODING": "utf-8:strict"})
    wanted = f"{opgp.read(octets_of(A1)).keys()[0].fingerprint.hex().upper()} {name!r}\n"
    verdict("the page's first program", (ended.returncode, ended.stdout.decode()) == (0, wanted), ended)
    for name in opgp.__all__:
        thing = getattr(opgp, name)
        verdict(f"{name} has a docstring", inspect.getdoc(thing))
        for part, it in vars(thing).items():
            if inspect.isfunction(it) and not part.startswith("_") and name in ("Keyring", "Reader", "Document"):
                verdict(f"{name}.{part} has a docstring", inspect.getdoc(it))
                verdict(f"{name}.{part} is on the page", f"`{part}" in page or name == "Reader")


def typed():
    if not shutil.which("mypy"):
        left_out("mypy")
        return
    with tempfile.TemporaryDirectory() as room:
        ended = run("mypy", "--strict", f"--cache-dir={room}", "--python-version=3.9", f"{HERE}/python/opgp.py",
                    env={**os.environ, "MYPYPATH": f"{HERE}/python"})
    verdict("the types, by mypy", ended.returncode == 0, ended.stdout)


def library_in(room):
    """The path of the library: that of OPGP_LIBRARY, or of one that is made; empty: it can't be made."""
    if given := os.environ.get("OPGP_LIBRARY"):
        return os.path.abspath(given)
    made = run("make", "-C", HERE, f"{room}/libopgp.so.3", f"made={room}")
    verdict("make the library", made.returncode == 0, made.stderr.decode())
    return f"{room}/libopgp.so.3" if made.returncode == 0 else ""


def main():
    with tempfile.TemporaryDirectory() as room:
        if path := library_in(room):
            os.environ["OPGP_LIBRARY"] = path
            sys.path.insert(0, f"{HERE}/python")
            import opgp

            env = {**os.environ, "PYTHONPATH": f"{HERE}/python", "PYTHONDONTWRITEBYTECODE": "1"}
            for source in SOURCES:
                rows_fit(opgp, source)
            for test in (examples, answered, expiry_rules, strangers, at_once, memory):
                test(opgp, env)
            for test in (sent, little_memory, documented, verified, judged_by_arithmetic, expiry_beside_gpg, stated_beside_gpg, without_library):
                test(opgp, env, room)
            for test in (names, faults, keyrings_made, keyrings_chosen, keyrings_picked, blocks_found, user_ids_say, pieces, short_reads, moments, limits, limits_in_pieces, policies, errors, large, inputs,
                         modes, long_octets, searches, passed_over, rows_refused, closed, copies, verifiers, flags, stated, named_signers, documents,
                         document_pieces, document_refused, document_uses, document_files, document_signers, cleartexts, cleartext_refused,
                         standings, states, states_refused, judgements, judgement_refused, judgement_verifiers, judged_in_places,
                         judged_elsewhere, judged_at_once, work, each_octets, threads):
                test(opgp)
            packed(opgp, room)
            typed()
    print(f"{passed} passed, {failed} failed")
    return int(failed > 0)


sys.exit(main())
