#!/usr/bin/env python3
"""Runs `diff` over generated keyrings, and compares each line with what sets of packets say here.

Usage: tests/program/differences.py [--cases N] [--seed N] [--program FILE]

A pair of keyrings has packets of a small pool, so that many are in both, twice, elsewhere or in another order, and in another
framing. Old keyrings that are refused, aren't there, or are standard input are told so. 20,000 signatures or certificates take
little time. The last line counts the tests."""

import argparse
import os
import random
import subprocess
import sys
import tempfile

sys.dont_write_bytecode = True
sys.path.insert(0, f"{sys.path[0]}/../lib")

import model  # noqa: E402
from openpgp_maker import integer, number, packet  # noqa: E402
from running import built, processor_seconds  # noqa: E402

parser = argparse.ArgumentParser(prog="tests/program/differences.py", description=__doc__.split("\n\n", maxsplit=1)[0])
parser.add_argument("--cases", type=int, default=600)
parser.add_argument("--seed", type=int, default=1)
parser.add_argument("--program", help="the program that is run, in place of that of this repository")
told = parser.parse_args()
PROGRAM = told.program or built("tests/program/differences.py")
KEY, SIGNATURE, ID, SUBKEY, ATTRIBUTE, FILLERS = 6, 2, 13, 14, 17, (10, 12, 21, 40)
MANY, MANY_SECONDS = 20000, 10
SHOWN = 5  # of what differs
passed = failed = 0


def verdict(name, holds, why=""):
    global passed, failed
    passed, failed = passed + bool(holds), failed + (not holds)
    if not holds and failed <= SHOWN:
        print(f"tests/program/differences.py: {name}: FAILED {why}"[:2000], file=sys.stderr)


def key(n):
    return b"\x04" + number(4, n) + b"\x01" + integer(b"\xc1" + number(4, n)) + integer(b"\x03")


def signature(n):
    return b"\x04\x13\x01\x08" + number(2, 0) * 2 + number(2, n % 65536) + integer(b"\x91" + number(4, n))


HEADS = [(ID, b"a"), (ID, b"b"), (SUBKEY, key(9)), (SUBKEY, key(1)), (ATTRIBUTE, b"\x02\x01a"), (ID, b"\x02\x01a"), (ID, b"")]
HUNG = [(SIGNATURE, signature(n)) for n in range(4)] + [(kind, b"PGP" if kind == 10 else b"x") for kind in FILLERS]


def framed(kind, body, rng):
    """The packet in one of the framings that it may have."""
    forms = [packet(kind, body), bytes((0xC0 | kind, 255)) + number(4, len(body)) + body]
    if kind < 16:
        forms.append(bytes((0x80 | kind << 2 | 2,)) + number(4, len(body)) + body)
    return rng.choice(forms)


def certificate(rng):
    packets = [rng.choice(HUNG) for _ in range(rng.randrange(3))]
    for _ in range(rng.randrange(4)):
        packets += [rng.choice(HEADS)] + [rng.choice(HUNG) for _ in range(rng.randrange(4))]
    return [(KEY, key(rng.randrange(3)))] + packets


def changed(ring, rng):
    """Some packets of it left out, or other certificates, in another order."""
    ring = [[it[0]] + [p for p in it[1:] if rng.random() < 0.9] for it in ring if rng.random() < 0.9]
    ring += [certificate(rng) for _ in range(rng.randrange(2))]
    if rng.random() < 0.5:
        rng.shuffle(ring)
    return ring


def entries(ring):
    """Each packet of a certificate but fillers: what it hangs on and itself, its place, and the primary key."""
    for n, it in enumerate(ring):
        primary, part, top, hang = it[0], None, (it[0],), 0
        yield top, (n, None, None), primary
        for one in it[1:]:
            if one[0] in (ID, SUBKEY, ATTRIBUTE):
                part, hang, top = 0 if part is None else part + 1, 0, (primary, one)
                yield top, (n, part, None), primary
            else:
                if one[0] == SIGNATURE:
                    yield (*top, one), (n, part, hang), primary
                hang += 1


def lines(word, others, ring):
    there, seen, text = {path for path, _, _ in entries(others)}, set(), ""
    for path, place, primary in entries(ring):
        if path not in there and path not in seen and (len(path) == 1 or path[:-1] in there):
            seen.add(path)
            cert, part, hang = ("-" if it is None else it for it in place)
            kind, body = path[-1]
            print_of = model.fingerprint(primary[1]).hex().upper()
            text += f"{word} {print_of} cert {cert} part {part} hang {hang} : {model.listed(kind, body, True)}".rstrip("\n") + "\n"
    return text


def octets_of(ring, rng, lead=b""):
    return lead + b"".join(framed(kind, body, rng) for it in ring for kind, body in it)


class Room:
    """A folder with the old keyring."""

    def __init__(self, folder):
        self.file = f"{folder}/old.pgp"

    def diff(self, old, new, *words):
        with open(self.file, "wb") as it:
            it.write(old)
        return run("diff", "--old", self.file, *words, given=new)


def run(*words, given=b""):
    ended = subprocess.run([PROGRAM, *words], input=given, capture_output=True, check=False)
    return ended.returncode, ended.stdout.decode(), ended.stderr.decode()


def generated(room, rng):
    for n in range(told.cases):
        old = [certificate(rng) for _ in range(rng.randrange(4))]
        new = changed(old, rng) if n % 3 else [certificate(rng) for _ in range(rng.randrange(4))]
        wanted = lines("gone", new, old) + lines("new", old, new)
        ended = room.diff(octets_of(old, rng, packet(10, b"PGP")), octets_of(new, rng), "--quiet")
        verdict(f"case {n}", ended == (0, wanted, ""), f"\n{ended[1]}{ended[2]}in place of\n{wanted}")
        same = room.diff(octets_of(old, rng), octets_of(old, rng), "--quiet")
        verdict(f"case {n} with itself", same == (0, "", ""), same)
    armored = model.armor(octets_of(old, rng))
    verdict("an armored one", room.diff(armored, octets_of(new, rng), "--quiet") == (0, wanted, ""))


def faults(room, rng):
    ring = octets_of([certificate(rng)], rng)
    refused = room.diff(b"\x99", ring, "--hints", "always")
    verdict("a refused old keyring", refused[0] == 1 and refused[1] == "" and room.file in refused[2], refused)
    one = run("list", "--quiet", given=b"\x99")[2]
    verdict("its fault", room.diff(b"\x99", ring, "--quiet") == (1, "", one))
    verdict("a refused new one", room.diff(ring, b"\x99", "--quiet") == (1, "", one))
    verdict("a limit", room.diff(ring, ring, "--quiet", "--input", "20")[0] == 1)
    verdict("a mode", room.diff(ring, ring, "--quiet", "--mode", "armor")[0] == 1)
    for name in ("-", "/dev/stdin", "/dev/fd/0"):
        verdict(f"the old one from {name}", run("diff", "--old", name, given=ring)[:2] == (2, ""))
    verdict("no such file", run("diff", "--old", f"{room.file}.none", given=ring)[:2] == (3, ""))
    verdict("a folder", run("diff", "--old", os.path.dirname(room.file), given=ring)[:2] == (3, ""))
    verdict("no old one", run("diff", given=ring)[:2] == (2, ""))
    verdict("empty ones", room.diff(b"", b"", "--quiet") == (0, "", ""))


def large(room, rng):
    """Many signatures on one key, and many certificates, of which all are gone or new: the work isn't quadratic."""
    base = packet(KEY, key(1))
    for title, old, new in (
        ("signatures", base + b"".join(packet(2, signature(n)) for n in range(MANY)), base + b"".join(packet(2, signature(-n % 2**32)) for n in range(1, MANY))),
        ("equal signatures", base + packet(2, signature(1)) * MANY, base + packet(2, signature(2)) * MANY),
        ("certificates", b"".join(packet(KEY, key(n)) for n in range(MANY)), b"".join(packet(KEY, key(n)) for n in range(MANY, 2 * MANY))),
        ("user IDs", base + b"".join(packet(ID, b"%d" % n) for n in range(MANY)), base + b"".join(packet(ID, b"x%d" % n) for n in range(MANY))),
    ):
        began = processor_seconds()
        status = room.diff(old, new)[0]
        spent = processor_seconds() - began
        verdict(f"many {title} in little time", status == 0 and spent < MANY_SECONDS, f"{status} {spent} s")


def main():
    rng = random.Random(told.seed)
    with tempfile.TemporaryDirectory() as folder:
        room = Room(folder)
        generated(room, rng)
        faults(room, rng)
        large(room, rng)
    print(f"{passed} passed, {failed} failed")
    sys.exit(failed != 0)


main()
