#!/usr/bin/env python3
"""Compares what the program says of the certificates in tests/vectors/sq with what sq says of them there, in packets.txt.

Usage: tests/program/certificates.py [--jobs N] [--program FILE]

Of each keyring: the lines of list, list --values, show, show --values and check, what octets gives for each row of check, and
for all of them with --all, and the octets that write, normalise, split and join give; of the messages what they can be asked. The last line counts the comparisons.
"""

import argparse
import base64
import datetime
import hashlib
import multiprocessing
import os
import re
import sys

sys.dont_write_bytecode = True
sys.path.insert(0, f"{sys.path[0]}/../lib")

from model import armor, key_size, quoted  # noqa: E402
from running import HERE, Runner, built  # noqa: E402

FOLDER = f"{HERE}/tests/vectors/sq"
HASHES = {"8": "sha256", "9": "sha384", "10": "sha512", "11": "sha224"}
ROLES = {6: "pub", 14: "sub"}
BEYOND = (37,)  # kinds of subpackets that sq knows and RFC 9580 doesn't
# Where a signature of a type is hashed (docs/OUTPUT.md): the types of the packets that it may be on. The type 16 of sq, an approval
# of certifications, isn't the standard's.
PLACES = {
    **dict.fromkeys(("1F", "20"), (6,)), **dict.fromkeys(("10", "11", "12", "13", "30"), (13, 17)),
    **dict.fromkeys(("18", "28"), (14,)),
}  # fmt: skip


class Packet:
    """A packet as sq shows it: its place, type, form and length, and what is written behind these."""

    def __init__(self, row):
        at, kind, self.form, n, *words = row.split(" ", 4)
        self.at, self.kind, self.n = int(at), int(kind), int(n)
        self.head = {"new1": 2, "new2": 3, "new5": 6, "old1": 2, "old2": 3, "old4": 5}[self.form]
        self.words = words[0] if words else ""
        self.subpackets, self.size = [], ""

    def shown(self):
        return f"block 0 at {self.at} type {self.kind} form {self.form} length {self.n}"

    def dated(self):
        """Its line in a listing, that of a key with its date and its size, of which sq's line says nothing."""
        return f"{self.listed()} {date(self.words.split(' ')[3])} size {self.size}" if self.kind in ROLES else self.listed()

    def listed(self):
        what, *it = self.words.split(" ")
        if what == "key":
            return "{} v{} alg {} created {} {} {}".format(ROLES[self.kind], *it)
        return "sig v{} type {} alg {} hash {}".format(*it) if what == "sig" else self.words

    def version(self):
        return self.words.split(" ")[1]


class Subpacket:
    """A subpacket as sq shows it; an embedded signature with the first octets of its digest and its issuer."""

    def __init__(self, row):
        area, kind, n, self.says = row.split(" ", 3)
        self.area, self.kind, self.critical, self.n = area, int(kind.rstrip("!")), kind.endswith("!"), n
        self.digest, self.issuer = None, None

    def shown(self, values):
        area = {"h": "hashed", "u": "unhashed"}[self.area]
        found = "unknown" if self.kind in BEYOND else "typed"
        line = f"  {area} kind {self.kind} critical {int(self.critical)} length {self.n} {found}"
        if not values:
            return line
        binary_value = re.fullmatch(r"(notation 0 .*) x([0-9A-F]*)", self.says)  # of a notation that isn't text
        if binary_value:
            return f"{line} {binary_value[1]} {quoted(bytes.fromhex(binary_value[2]))}"
        word, _, time = self.says.partition(" ")
        return f"{line} {self.says} {date(time)}" if word == "created" else f"{line} {self.says}"


def table():
    """The packets of each file."""
    files = {}
    with open(f"{FOLDER}/packets.txt", encoding="ascii") as it:
        rows = [line for line in it.read().split("\n") if line and not line.startswith("#")]
    for row in rows:
        if row.startswith("  > "):
            _, files[name][-1].subpackets[-1].digest, files[name][-1].subpackets[-1].issuer = row[2:].split(" ")
        elif row.startswith("  "):
            files[name][-1].subpackets.append(Subpacket(row[2:]))
        elif row[0].isdigit():
            files[name].append(Packet(row))
        else:
            name = row
            files[name] = []
    return files


def binary(octets):
    """The octets of a file that is armored by sq: behind its headers, without its checksum."""
    if octets[:1] != b"-":
        return octets
    lines = octets.split(b"\n\n", 1)[1].split(b"\n")
    return base64.b64decode(b"".join(it for it in lines if it[:1] not in (b"=", b"-")))


def shown(packets, values):
    for it in packets:
        yield it.shown()
        if values and it.words:
            yield f"  {it.dated()}"
        for subpacket in it.subpackets:
            yield subpacket.shown(values)


def date(time):
    """A time in UTC."""
    return datetime.datetime.fromtimestamp(int(time), datetime.timezone.utc).strftime("%Y-%m-%dT%H:%M:%SZ")


def row_of(signature, digest, issuer, keys, place, prints):
    """What is found of a signature over these keys, and its hash and digest if it is hashed."""
    version, kind, _, hashed = signature
    if kind not in PLACES and kind != "19":
        return "none kind", None
    if kind != "19" and place not in PLACES[kind]:
        return "none misplaced", None
    if any(it.version() != version for it in keys):
        return "none version", None
    signer = prints.get(issuer, "-")
    return f"asked type {kind} hash {hashed} signer {signer} digest {digest} verdict undecided", (HASHES[hashed], digest)


def prints_of(primary, line, issuer, prints):
    """The fingerprints of a row: of its certificate, and of its signer."""
    return f"{primary.words.split(' ')[4]} {issuer if line.startswith('asked') and issuer in prints else '-'}"


def issuer_of(packet):
    return next(it.says.split(" ")[2] for it in packet.subpackets if it.kind == 33 and it.area == "h")


def stated(packets):
    """The lines of list --values."""
    for it in packets:
        if it.kind != 2:
            yield it.dated()
            continue
        created = next((one.says.split(" ")[1] for one in it.subpackets if one.kind == 2 and one.area == "h"), "-")
        line = f"{it.listed()} left {it.words.split(' ')[-1]} created {created} issuer {issuer_of(it)}"
        yield f"{line} {created if created == '-' else date(created)}"


def rows_of(packets):
    """The rows of check, of each what its octets hash to, and its fingerprints."""
    prints = {}
    for it in packets:
        if it.kind in ROLES:
            prints.setdefault(it.words.split(" ")[4], it.words.split(" ")[5])
    certificate, found = -1, []
    for it in packets:
        if it.kind == 6:
            certificate, part, hang, primary, head = certificate + 1, -1, -1, it, it
        elif it.kind != 2:
            part, hang, head = part + 1, -1, it
        else:
            hang += 1
            where = f"cert {certificate} part {'-' if part < 0 else part} hang {hang} nested"
            keys = [primary] + [head] * (head.kind == 14)
            version, kind, algorithm, hashed, digest = it.words.split(" ")[1:]
            line = row_of((version, kind, algorithm, hashed), digest, issuer_of(it), keys, head.kind, prints)
            found.append((f"{where} -", *line, prints_of(primary, line[0], issuer_of(it), prints)))
            inside = [one for one in it.subpackets if one.kind == 32] if kind == "18" and head.kind == 14 else []
            for n, one in enumerate(inside):
                words = one.says.split(" ")  # sig v6 type 19 alg 27 hash 10
                line = row_of((words[1][1:], *words[3::2]), one.digest, one.issuer, keys, None, prints)
                found.append((f"{where} {n}", *line, prints_of(primary, line[0], one.issuer, prints)))
    return [(f"row {n} {where} : {line}", hashed, both) for n, (where, line, hashed, both) in enumerate(found)]


class Comparing:
    """Runs the program, and counts what is as it is wanted."""

    def __init__(self, program):
        self.runner, self.passed, self.wrong = Runner(program), 0, []

    def told(self, what, holds, found=""):
        if holds:
            self.passed += 1
        else:
            self.wrong.append(f"{what}: {found}")

    def gives(self, name, words, octets, wanted):
        ended = self.runner.run(words.split(), octets)
        self.told(f"{name}: opgp {words}", (ended.status, ended.out, ended.err) == (0, wanted, b""), self.first(ended, wanted))
        return ended.out

    def says(self, name, words, octets, lines):
        self.gives(name, words, octets, "".join(f"{it}\n" for it in lines).encode())

    @staticmethod
    def first(ended, wanted):
        """The first line that differs."""
        pairs = zip(ended.out.split(b"\n") + [b"(the end)"], wanted.split(b"\n") + [b"(the end)"])
        return f"status {ended.status} {ended.err[:100]!r} " + str(next((it for it in pairs if it[0] != it[1]), ""))[:400]

    def hashes(self, name, words, octets, hashed):
        """What octets gives has this digest's first octets; or where nothing is hashed it is refused."""
        ended = self.runner.run(words.split(), octets)
        if hashed is None:
            holds = (ended.status, ended.out, ended.err) == (1, b"", b"opgp: no such row\n")
        else:
            holds = ended.status == 0 and hashlib.new(hashed[0], ended.out).hexdigest().upper().startswith(hashed[1])
        self.told(f"{name}: opgp {words}", holds, f"status {ended.status} {ended.err[:100]!r}")


    def hashes_all(self, name, octets, wanted):
        """What octets --all gives has a line for each row that is hashed, and behind it octets with this digest's first octets."""
        ended = self.runner.run(["octets", "--all"], octets)
        self.told(f"{name}: opgp octets --all", (ended.status, ended.err) == (0, b""), f"status {ended.status} {ended.err[:100]!r}")
        out = ended.out
        for n, hashed in enumerate(wanted):
            if hashed is not None:
                line, _, out = out.partition(b"\n")
                words, size = line.split(b" "), int(line.split(b" ")[-1])
                holds = words[:3] == [b"row", str(n).encode(), b"length"]
                holds = holds and hashlib.new(hashed[0], out[:size]).hexdigest().upper().startswith(hashed[1])
                self.told(f"{name}: opgp octets --all, row {n}", holds, line[:100])
                out = out[size:]
        self.told(f"{name}: opgp octets --all, at its end", not out, out[:100])


def keyring(it, name, octets, packets):
    whole = binary(octets)
    it.told(f"{name}: its length", packets[-1].at + packets[-1].head + packets[-1].n == len(whole))
    for one in packets:
        body = whole[one.at + one.head :][: one.n]
        one.size = key_size(body) if one.kind in ROLES else ""
    it.says(name, "show", octets, shown(packets, False))
    it.says(name, "show --values", octets, shown(packets, True))
    it.says(name, "list", octets, (one.listed() for one in packets))
    it.says(name, "list --values", octets, stated(packets))
    rows = rows_of(packets)
    it.says(name, "check", octets, (line for line, *_ in rows))
    it.says(name, "check --fingerprints", octets, (f"{line} {prints}" for line, _, prints in rows))
    for n, (_, hashed, _) in enumerate(rows):
        it.hashes(name, f"octets --row {n}", octets, hashed)
    it.hashes(name, f"octets --row {len(rows)}", octets, None)
    it.hashes_all(name, octets, [hashed for _, hashed, _ in rows])
    for words in ("write", "join", "split", "normalise"):  # all lengths are the shortest ones
        it.gives(name, f"{words} --out binary", octets, whole)
    it.gives(name, "write", octets, armor(whole))
    begins = [one.at for one in packets if one.kind == 6] + [len(whole)]
    for n, (begin, end) in enumerate(zip(begins, begins[1:])):
        it.gives(name, f"split --nth {n} --out binary", octets, whole[begin:end])
    # Merged with itself it is what it was, but for certificates that stand in it twice.
    parts = [whole[begin:end] for begin, end in zip(begins, begins[1:])]
    it.gives(name, "join --merge --out binary", whole + whole, b"".join(dict.fromkeys(parts)))


def merging(it, packets):
    """What sq merged is merged again with what it was before: as sq has it, in whatever order of packets."""
    it.gives("before.gpg", "write --out binary", contents("before.gpg"), contents("before.gpg"))
    both = contents("before.gpg") + binary(contents("merged.asc"))
    ended = it.runner.run(["join", "--merge", "--out", "binary"], both)
    ended = it.runner.run(["list"], ended.out)
    found = sorted(sorted(one.split("\n")) for one in ended.out.decode().split("pub ")[1:])
    wanted = "".join(f"{one.listed()}\n" for one in packets)
    wanted = sorted(sorted(one.split("\n")) for one in wanted.split("pub ")[1:])
    it.told("before.gpg and merged.asc: opgp join --merge", found == wanted, f"status {ended.status} {ended.err[:100]!r}")


def message(it, name, octets, packets):
    """What show says, but for the fields of a literal; and what each signature of a signed literal hashes."""
    it.says(name, "show", octets, shown(packets, False))
    kinds = [one.kind for one in packets]
    label = "SIGNATURE" if kinds == [2] else "MESSAGE"
    if 11 not in kinds:
        it.says(name, "show --values", octets, shown(packets, True))
    for words in ("list", "check"):
        ended = it.runner.run([words], octets)
        line = b"composition: BlockLabel block 0 at 0 inner 0\n"
        it.told(f"{name}: opgp {words}", (ended.status, ended.out, ended.err) == (1, b"", line))
    it.told(f"{name}: its label", octets.startswith(f"-----BEGIN PGP {label}-----\n".encode()))
    signatures = [one.words.split(" ") for one in packets if one.kind == 2] if 11 in kinds else []
    for n, (_, _, kind, _, hashed, digest) in enumerate(signatures):
        it.hashes(name, f"octets --row {n} --of literal", octets, (HASHES[hashed], digest) if kind == "00" else None)


def contents(name):
    with open(f"{FOLDER}/{name}", "rb") as it:
        return it.read()


def compared(order):
    """What is right and what is wrong of a file; or of several, which are keyrings, as one input."""
    program, names, packets = order
    it, octets = Comparing(program), [contents(name) for name in names]
    if len(names) > 1:
        it.says(" ".join(names), "list", b"".join(octets), (one.listed() for one in packets))
        it.gives(" ".join(names), "join --out binary", b"".join(octets), b"".join(binary(one) for one in octets))
    elif packets[0].kind == 6:
        keyring(it, names[0], octets[0], packets)
    else:
        message(it, names[0], octets[0], packets)
    if names == ["merged.asc"]:
        merging(it, packets)
    it.runner.close()
    return it.passed, it.wrong


def main():
    words = argparse.ArgumentParser(prog="tests/program/certificates.py", description=__doc__.split("\n\n", maxsplit=1)[0])
    words.add_argument("--jobs", type=int, default=len(os.sched_getaffinity(0)))
    words.add_argument("--program", help="the program that is run, in place of that of this repository")
    words = words.parse_args()
    program = words.program or built("tests/program/certificates.py")
    files = table()
    orders = [(program, [name], packets) for name, packets in files.items()]
    for end in (".gpg", ".asc"):  # all binary keyrings as one input, and all armored ones
        names = [name for name, packets in files.items() if name.endswith(end) and packets[0].kind == 6]
        orders.append((program, names, [it for name in names for it in files[name]]))
    passed = failed = 0
    with multiprocessing.Pool(words.jobs) as pool:
        for right, wrong in pool.imap(compared, sorted(orders, key=lambda it: -len(it[2]))):
            passed += right
            failed += len(wrong)
            for it in wrong:
                print(f"tests/program/certificates.py: {it}: FAILED", file=sys.stderr)
    print(f"{passed} passed, {failed} failed")
    return int(failed > 0)


sys.exit(main())
