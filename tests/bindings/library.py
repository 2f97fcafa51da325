#!/usr/bin/env python3
"""Compares the library for C with the program over many inputs: those of tests/cases, those that tests/program/fuzz.py makes, and large ones.

Usage: tests/bindings/library.py [--seed N] [--inputs N]

Each input is read through libopgp by tests/lib/library.c: in one call, and in pieces of several sizes. Of each way, the line of the
fault, or the lines of the keys, must be those of `opgp list`, and the packets those that `opgp write --out binary` writes. Large ones
have bodies of several sizes, up to 4 MiB, of each small one, or up to 20,000 things of a kind: of these the keyrings that the library
makes, their armor, the rows of their signatures and what these hash must be those of the program too. Texts have lines of several
sizes, and many that say nothing. The last line counts the comparisons.
"""

import argparse
import base64
import glob
import multiprocessing
import os
import random
import re
import subprocess
import sys
import tempfile

sys.dont_write_bytecode = True
sys.path.insert(0, f"{sys.path[0]}/../lib")

from inputs import input_of  # noqa: E402
from model import armor, key_id  # noqa: E402
from running import HERE, Runner, built  # noqa: E402

STRICT = ["-std=c11", "-Wall", "-Wextra", "-Wconversion", "-pedantic", "-Werror", "-O2", f"-I{HERE}/c"]
WAYS = {"0": "in one call", "1": "in pieces of 1", "61": "in pieces of 61", "4099": "in pieces of 4,099", "odd": "in pieces of 1 to 729",
        "1000000000": "in one piece"}


# What the library makes of a large keyring, and the program's words for it, which write it.
MADE = {
    "normalise": "normalise --out binary", "merge": "join --merge --out binary", "first": "split --nth 0 --out binary",
    "twice": "join --out binary", "last": "octets --row ROW", "end": "split --nth CERTIFICATE --out binary", "armor": "write",
    "rows": "check", "chosen": "write --own-signatures --no-attributes --user-id 0 --out binary", "whole": "octets --all",
}  # fmt: skip
# The library goes to each row from the first on, so what each hashes is compared where there are no more.
MOST_ROWS = 1000
SIZES = (0, 1, 255, 256, 4096, 65_535, 65_536, 65_537, 70_000, 1 << 20, 4 << 20)
NUMBERS = (1, 17, 300, 20_000)
# Sizes beside each other, and those around the sizes that lengths and rooms have.
SMALL = (*range(601), 1023, 1024, 1025, 8191, 8192, 8193, 8383, 8384, 16_319, 16_320, 16_383, 16_384, 16_385)


def packet(kind, body):
    """In the current format with five octets of length, whatever the body's size."""
    return bytes([0xC0 | kind, 255]) + sized(body)


def signature(hashed, unhashed=b"", kind=0x18):
    """Of version 6, by Ed25519 and SHA2-256, with these areas (5.2.3)."""
    front = bytes([6, kind, 27, 8]) + sized(hashed) + sized(unhashed)
    return front + b"\xab\xcd" + b"\x10" + b"s" * 16 + b"m" * 64


def subpacket(kind, octets):
    return b"\xff" + sized(bytes([kind]) + octets)


def large():
    """Keyrings with bodies of each size, and with each number of things."""
    key, subkey = (bytes([6]) + created.to_bytes(4, "big") + b"\x1b" + sized(b"k" * 32) for created in (1, 2))
    primary, sub = packet(6, key), packet(14, subkey)
    for size in SIZES:
        octets = b"u" * size
        yield f"a user ID of {size} octets", primary + packet(13, octets) + packet(2, signature(b"", kind=0x13))
        yield f"a filler of {size} octets", packet(60, octets) + primary + packet(60, octets) + packet(2, signature(b"", kind=0x1F))
        yield f"an attribute of {size} octets", primary + packet(17, subpacket(100, octets)) + packet(2, signature(b"", kind=0x10))
        yield f"a hashed subpacket of {size} octets", primary + packet(2, signature(subpacket(100, octets), kind=0x1F))
        yield f"another subpacket of {size} octets", primary + packet(2, signature(b"", subpacket(100, octets), kind=0x1F))
    direct, binding = packet(2, signature(b"", kind=0x1F)), packet(2, signature(subpacket(32, signature(b"", kind=0x19))))
    for n in NUMBERS:
        yield f"{n} user IDs", primary + b"".join(packet(13, b"%d" % it) for it in range(n)) + packet(2, signature(b"", kind=0x13))
        yield f"{n} equal user IDs", primary + packet(13, b"u") * n + packet(2, signature(b"", kind=0x13))
        yield f"{n} signatures", primary + direct * n
        yield f"{n} subkeys", primary + (sub + binding) * n
        yield f"{n} certificates", (primary + direct) * n
        bodies = [key[:1] + it.to_bytes(4, "big") + key[5:] for it in range(n)]
        by_last = packet(2, signature(subpacket(16, key_id(bodies[-1])), kind=0x1F))
        yield f"{n} keys", b"".join(packet(6, it) for it in bodies) + direct + by_last
        yield f"{n} fillers", packet(60, b"f") * n + primary + packet(60, b"f") * n + direct
        yield f"{n} hashed subpackets", primary + packet(2, signature(subpacket(2, b"\0\0\0\1") * n, kind=0x1F))
        yield f"{n} embedded signatures", primary + sub + packet(2, signature(subpacket(32, signature(b"", kind=0x19)) * n))
        yield f"{n} blocks", b"\n".join([armor(primary + direct)] * n)
    yield from small()


def small():
    """Keyrings with bodies of each small size."""
    key = bytes([6]) + bytes(4) + b"\x1b" + sized(b"k" * 32)
    primary, direct = packet(6, key), packet(2, signature(b"", kind=0x1F))
    yield "user IDs of each size", primary + direct + b"".join(packet(13, b"u" * n) for n in SMALL)
    yield "fillers of each size", b"".join(packet(60, b"f" * n) for n in SMALL) + primary + b"".join(packet(60, b"f" * n) for n in SMALL) + direct
    yield "attributes of each size", primary + direct + b"".join(packet(17, subpacket(100, b"u" * n)) for n in SMALL)
    yield "signatures of each size", primary + b"".join(packet(2, signature(subpacket(100, b"s" * n), kind=0x1F)) for n in SMALL)
    yield "keys of each size", b"".join(packet(6, key[:5] + b"\xc8" + sized(b"k" * n)) for n in SMALL) + direct


def texts():
    """Armored texts whose lines have other sizes than most, and with many lines that say nothing, or headers."""
    key = bytes([6]) + bytes(4) + b"\x1b" + sized(b"k" * 32)
    octets = packet(6, key) + packet(13, b"u" * 70_000) + packet(2, signature(b"", kind=0x13))
    begin, end = (b"-----%s PGP PUBLIC KEY BLOCK-----\n" % it for it in (b"BEGIN", b"END"))
    letters = base64.b64encode(octets)
    for size in (1, 3, 61, 63, 8192):
        yield f"lines of {size}", begin + b"\n" + b"".join(letters[at : at + size] + b"\n" for at in range(0, len(letters), size)) + end
    for n in NUMBERS:
        for line in (b"\n", b" \t\r\n", b"a line\n"):
            yield f"{n} times {line}", line * n + armor(octets) + line * n
        yield f"{n} headers", begin + b"".join(b"key%d: %s\n" % (it, b"v" * (it % 70)) for it in range(n)) + b"\n" + armor(octets).split(b"\n", 2)[2]
    yield "headers of each size", begin + b"".join(b"key: %s\n" % (b"v" * n) for n in SMALL if n < 8188) + b"\n" + armor(octets).split(b"\n", 2)[2]


def sized(octets):
    return len(octets).to_bytes(4, "big") + octets


def inputs_of(words):
    """The name and the octets of each input."""
    for path in sorted(glob.glob(f"{HERE}/tests/cases/*/*/stdin")):
        with open(path, "rb") as it:
            yield os.path.relpath(path, HERE), it.read()
    for n in range(words.inputs):
        yield f"input {n} of seed {words.seed}", input_of(random.Random(f"{words.seed}/{n}"))
    yield from large()
    yield from texts()


def made(room):
    """The program in C, over the library; None where it can't be made."""
    for command in (
        ["make", "-C", HERE, f"{room}/libopgp.a", f"made={room}"],
        ["cc", *STRICT, f"{HERE}/tests/lib/library.c", f"{room}/libopgp.a", "-o", f"{room}/library"],
    ):
        ended = subprocess.run(command, capture_output=True, text=True, check=False)
        if ended.returncode:
            print(f"tests/bindings/library.py: {' '.join(command)}: FAILED {ended.stderr}", file=sys.stderr)
            return None
    return f"{room}/library"


def found_by(library, room, inputs, ways):
    """What the library finds of each input in each of these ways: lines and octets."""
    with open(f"{room}/inputs", "wb") as it:
        it.writelines(sized(octets) for octets in inputs)
    with open(f"{room}/inputs", "rb") as given, open(f"{room}/found", "wb") as told:
        subprocess.run([library, *ways], stdin=given, stdout=told, check=True)
    with open(f"{room}/found", "rb") as told:
        texts = [told.read(int.from_bytes(told.read(4), "big")) for _ in range(2 * len(ways) * len(inputs))]
        if told.read():
            raise ValueError("tests/lib/library.c wrote more than what it was asked")
    pairs = [*zip(texts[::2], texts[1::2])]
    return [pairs[at : at + len(ways)] for at in range(0, len(pairs), len(ways))]


RUNNERS = {}


def run(order):
    """The end of a run of the program."""
    program, words, octets = order
    if program not in RUNNERS:
        RUNNERS[program] = Runner(program)
    return RUNNERS[program].run(words.split(), octets)


def lines_of(ended):
    """What the library must find: the line of the fault, or those of the keys."""
    if ended.status == 1 and not ended.out:
        return ended.err
    return b"".join(re.findall(rb"^(?:pub|sub) .*\n", ended.out, re.M)) if ended.status == 0 and not ended.err else None


def written_by(program, inputs):
    """The octets of the packets of all these keyrings, as the program writes them where they stand one after the other: first those
    in binary, then those in armor, whose texts need not end in a line feed."""
    binary = b"".join(it for it in inputs if it[:1] >= b"\x80")
    armored = b"\n".join(it for it in inputs if it[:1] and it[:1] < b"\x80")
    return b"".join(run((program, "write --out binary", it)).out for it in (binary, armored))


def differing(name, wanted, ways):
    """What is wrong with the lines that were found of an input."""
    for way, (lines, octets) in zip(WAYS.values(), ways):
        if lines != wanted:
            yield f"{name} {way}: {lines[:300]!r} and not {str(wanted)[:300]}"
        elif octets != ways[0][1]:
            yield f"{name} {way}: its packets aren't those of one call"


def compared(program, inputs, found):
    """How many comparisons hold, and what is wrong."""
    with multiprocessing.Pool(len(os.sched_getaffinity(0))) as pool:
        ends = pool.map(run, [(program, "list", octets) for octets in inputs.values()], chunksize=16)
    wrong = [it for name, ended, ways in zip(inputs, ends, found) for it in differing(name, lines_of(ended), ways)]
    kept = [(octets, ways[0][1]) for octets, ended, ways in zip(inputs.values(), ends, found) if ended.status == 0]
    kept.sort(key=lambda it: it[0][:1] < b"\x80")  # those in binary first
    if b"".join(packets for _, packets in kept) != written_by(program, [octets for octets, _ in kept]):
        for (name, octets), ended, ways in zip(inputs.items(), ends, found):
            if ended.status == 0 and run((program, "write --out binary", octets)).out != ways[0][1]:
                wrong.append(f"{name}: its packets aren't those that the program writes")
        wrong.append("the packets of all keyrings aren't those that the program writes")
    counts = len(kept), len(inputs) - len(kept)
    print(f"{counts[0]} keyrings, and {counts[1]} inputs that are refused", file=sys.stderr)
    if min(counts) < len(inputs) // 4:
        wrong.append(f"of {len(inputs)} inputs there are {counts[0]} keyrings, which says little")
    return max(0, len(WAYS) * len(inputs) + 2 - len(wrong)), wrong


def compared_large(program, library, room):
    """How many keyrings that the library makes of large ones are those of the program, and which aren't."""
    inputs = dict(large())
    rows = {name: run((program, "check", octets)).out.count(b"\n") for name, octets in inputs.items()}
    some = [it for it in MADE if it != "whole"]
    found = found_by(library, room, inputs.values(), some)
    few = [name for name, count in rows.items() if count <= MOST_ROWS]
    whole = dict(zip(few, found_by(library, room, [inputs[it] for it in few], ["whole"])))
    right, wrong = 0, []
    for (name, octets), ways in zip(inputs.items(), found):
        last = {"ROW": rows[name] - 1}
        last["CERTIFICATE"] = len(re.findall(rb"^pub ", run((program, "list", octets)).out, re.M)) - 1
        for (way, words), (_, made) in zip(MADE.items(), [*ways, *whole.get(name, [])]):
            given = octets + b"\n" * (octets[:1] < b"\x80") + octets if way == "twice" else octets
            ended = run((program, " ".join(str(last.get(it, it)) for it in words.split()), given))
            if (ended.status, ended.out) == (0, made) and made:
                right += 1
            else:
                wrong.append(f"{way} of {name}: {made[:60]!r} and not {ended.out[:60]!r} {ended.err!r}")
    return right, wrong


def main():
    words = argparse.ArgumentParser(prog="tests/bindings/library.py", description=__doc__.split("\n\n", maxsplit=1)[0])
    words.add_argument("--seed", type=int, default=1)
    words.add_argument("--inputs", type=int, default=2000)
    words = words.parse_args()
    program = built("tests/bindings/library.py")
    inputs = dict(inputs_of(words))
    passed, wrong = 0, ["the library isn't made"]
    with tempfile.TemporaryDirectory() as room:
        library = made(room)
        if library:
            passed, wrong = compared(program, inputs, found_by(library, room, inputs.values(), WAYS))
            right, more = compared_large(program, library, room)
            passed, wrong = passed + right, wrong + more
    for it in wrong:
        print(f"tests/bindings/library.py: {it}: FAILED", file=sys.stderr)
    print(f"{passed} passed, {len(wrong)} failed")
    return int(bool(wrong))


if __name__ == "__main__":
    sys.exit(main())
