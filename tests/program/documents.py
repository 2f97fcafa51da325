#!/usr/bin/env python3
"""Runs `signatures`, `digest` and `canonical` over documents and their detached signatures.

Usage: tests/program/documents.py [--program FILE]

The signatures are built here, of both versions, all types and hash algorithms, and what they hash is worked out with Python's hashlib
(RFC 9580, 5.2.1.1, 5.2.1.2, 5.2.4). Those of tests/vectors/documents were made by other programs: the program must give the digest that
they signed, and so must hashlib over the parts that it writes. Of gpg, rnp, sqop, gosop and rsop those that are installed sign some
documents anew: the digest must begin with the 16 bits that they wrote down. A document in pieces of any size has the same lines. A file
of signatures that is none, or isn't there, is refused. The last line counts the tests."""

import argparse
import ast
import fcntl
import glob
import hashlib
import itertools
import os
import random
import shutil
import subprocess
import sys
import tempfile

sys.dont_write_bytecode = True
sys.path.insert(0, f"{sys.path[0]}/../lib")

from running import HERE, Runner, built  # noqa: E402

parser = argparse.ArgumentParser(prog="tests/program/documents.py", description=__doc__.split("\n\n", maxsplit=1)[0])
parser.add_argument("--program", help="the program that is run, in place of that of this repository")
PROGRAM = parser.parse_args().program or built("tests/program/documents.py")
VECTORS = f"{HERE}/tests/vectors/documents"
HASHES = {2: "sha1", 8: "sha256", 9: "sha384", 10: "sha512", 11: "sha224"}
SALTS = {8: 16, 9: 24, 10: 32, 11: 16, 12: 16, 14: 32}
DOCUMENTS = (
    b"", b"\n", b"\r\n", b"a", b"a\n", b"a\nb", b"a\nb\n", b"a\r\nb\r\n", b"a\nb\r\n", b"a \nb\t\n", b"a\n\nb\n\n", b"\0\n\xff", b"\n" * 9,
    b"a\rb", b"a\r", b"\r", b"a\rb\n", b"a\r\r\nb\n", b"a\n\rb\n", b"a\rb\r", b"\r\n\r",
    b"x" * 70000, b"x\n" * 40000, b"x" * 65535 + b"\r\n", b"x" * 65535 + b"\rx",
    b"x" * 65536 + b"\n", b"x" * 131071 + b"\r", b"line of a text\n" * 9000 + b"\r",
)
passed = failed = 0


def verdict(name, holds, why=""):
    global passed, failed
    passed, failed = passed + bool(holds), failed + (not holds)
    if not holds:
        print(f"tests/program/documents.py: {name}: FAILED {why}", file=sys.stderr)


def run(*words, given=b""):
    ended = subprocess.run([PROGRAM, *words], input=given, capture_output=True, check=False, timeout=60)
    return ended.returncode, ended.stdout, ended.stderr.decode()


def packet(body):
    return b"\xc2\xff" + len(body).to_bytes(4, "big") + body


def signature(version, kind, algorithm, area=b"", left=b"\0\0"):
    """The body of a signature, and what it hashes in front of its document and behind it."""
    wide = 4 if version == 6 else 2
    front = bytes([version, kind, 27 if version == 6 else 22, algorithm]) + len(area).to_bytes(wide, "big") + area
    salt = b"S" * SALTS.get(algorithm, 7) if version == 6 else b""
    rest = (bytes([len(salt)]) + salt + b"s" * 64) if version == 6 else b"\0\0\0\0"
    behind = front + bytes([version, 255]) + len(front).to_bytes(4, "big")
    return front + bytes(wide) + left + rest, salt, behind


def canonical(document):
    """The text of a document, or the place of its first stray carriage return."""
    text, place = document.replace(b"\r\n", b"\n"), document.replace(b"\r\n", b"..").find(b"\r")
    return text.replace(b"\n", b"\r\n") if place < 0 else place


def refusal(place):
    """How a run ends that wants the text of a document with a stray carriage return here."""
    return 1, b"", f"text: StrayReturn block 0 at {place} inner 0\n"


def digest_of(version, kind, algorithm, salt, behind, document):
    """The digest of what a signature hashes, or why it has none."""
    if version not in (4, 6):
        return "opaque"
    if kind > 1:
        return "kind"
    if algorithm not in HASHES or (version, algorithm) == (6, 2):
        return "hash"
    shown = canonical(document) if kind else document
    return "line-ends" if isinstance(shown, int) else hashlib.new(HASHES[algorithm], salt + shown + behind).digest()


def line_of(number, kind, algorithm, found, left):
    if isinstance(found, str):
        return f"signature {number} : none {found}\n"
    said = "undecided" if found[:2] == left else "bad"
    return f"signature {number} : asked type {kind:02X} hash {algorithm} signer - digest {found[:2].hex().upper()} verdict {said}\n"


def signed(room):
    """Each kind of signature over each document."""
    made = [(version, kind, algorithm) for version in (4, 6) for kind in (0, 1) for algorithm in (1, 2, 3, 8, 9, 10, 11, 12, 14)]
    made += [(version, kind, 8) for version in (4, 6) for kind in (2, 0x10, 0x18, 0x20, 0x40, 0x50)]
    for document in DOCUMENTS:
        bodies, lines, around = [], "", []
        for number, (version, kind, algorithm) in enumerate(made):
            area = bytes([number % 3 + 2, 100]) + b"x" * (number % 3 + 1) if number % 5 else b""
            _, salt, behind = signature(version, kind, algorithm, area)
            found = digest_of(version, kind, algorithm, salt, behind, document)
            left = found[:2] if isinstance(found, bytes) and number % 2 else b"\xab\xcd"
            bodies.append(signature(version, kind, algorithm, area, left)[0])
            around.append((salt, behind))
            lines += line_of(number, kind, algorithm, found, left)
        with open(f"{room}/signatures", "wb") as it:
            it.write(b"\xca\x03PGP".join(packet(it) for it in bodies))
        said = run("digest", "--quiet", "--signatures", f"{room}/signatures", given=document)
        verdict(f"digests of {document[:20]}, {len(document)} octets", said == (0, lines.encode(), ""), said)
    for number, (salt, behind) in enumerate(around):
        words = ("digest", "--signatures", f"{room}/signatures", "--octets", str(number))
        verdict(f"behind, {number}", run(*words) == (0, behind, ""), run(*words))
        verdict(f"in front, {number}", run(*words, "--salt") == (0, salt, ""), run(*words, "--salt"))
    said = run("digest", "--signatures", f"{room}/signatures", "--octets", str(len(around)))
    verdict("no such signature", said == (1, b"", "opgp: no such row\n"), said)


def texts():
    for document in DOCUMENTS:
        text = canonical(document)
        said = run("canonical", "--quiet", given=document)
        wanted = refusal(text) if isinstance(text, int) else (0, text, "")
        verdict(f"text of {document[:20]}", said == wanted, said)
        spooled = run("canonical", "--quiet", "--spool", ROOM, given=document)
        verdict(f"text of {document[:20]}, in a spool", spooled == wanted, spooled)
    said = run("canonical", "--input", "3", "--quiet", given=b"a\rbc")
    verdict("too long before stray", said == (1, b"", "input: InputTooLong block 0 at 3 inner 0\n"), said)


def areas(room):
    """Signatures whose hashed areas have each small size, and large ones: what each hashes behind the document, and its digest."""
    small = (*range(601), 1023, 1024, 1025, 8191, 8192, 8193, 8383, 8384, 16_319, 16_320, 16_383, 16_384, 16_385, 65_500)
    for version, sizes in ((4, small), (6, (*small, 65_536, 65_537, 70_000, 1 << 20))):
        for at in range(0, len(sizes), 64):
            octets, lines, around = b"", "", []
            for number, size in enumerate(sizes[at : at + 64]):
                area = b"\xff" + (size + 1).to_bytes(4, "big") + b"\x64" + b"x" * size
                body, salt, behind = signature(version, 0, 8, area)
                octets += packet(body)
                lines += line_of(number, 0, 8, digest_of(version, 0, 8, salt, behind, b"a\n"), b"\0\0")
                around.append(behind)
            with open(f"{room}/areas", "wb") as it:
                it.write(octets)
            said = run("digest", "--quiet", "--signatures", f"{room}/areas", given=b"a\n")
            verdict(f"digests of version {version} with areas from {sizes[at]} octets on", said == (0, lines.encode(), ""), said[2])
            for number, behind in enumerate(around):
                said = run("digest", "--signatures", f"{room}/areas", "--octets", str(number))
                verdict(f"behind, with an area of {sizes[at + number]} octets", said == (0, behind, ""), said[2])


def many(room):
    for count in (1, 63, 64, 65, 200):
        with open(f"{room}/many", "wb") as it:
            it.write(packet(signature(4, 0, 8)[0]) * count)
        status, out, err = run("digest", "--quiet", "--signatures", f"{room}/many", given=b"x")
        holds = (status, out.count(b"\n"), err) == ((0, count, "") if count <= 64 else (1, 0, "opgp: too many signatures\n"))
        verdict(f"{count} signatures", holds, (status, out[:99], err))
        verdict(f"{count} signatures listed", run("signatures", given=packet(signature(4, 0, 8)[0]) * count)[1].count(b"\n") == count)


def refused(room):
    """Files of signatures that are none."""
    one = packet(signature(4, 0, 8)[0])
    with open(f"{HERE}/examples/rfc9580-a1.asc", "rb") as it:
        key = it.read()
    for octets, fault in ((b"", "composition: NotASignature block 0 at 0 inner 0"), (one[:-1], "framing: Truncated block 0 at 0 inner 1"),
                          (one + b"\xcb\x06b\0\0\0\0\0", f"composition: NotASignature block 0 at {len(one)} inner 0"),
                          (key, "composition: BlockLabel block 0 at 0 inner 0"), (b"hello\n", "armor: NoBlock block 0 at 6 inner 0"),
                          (packet(b"\4\0\x16\x08\0\1"), "body: AreaShort block 0 at 0 inner 4")):
        with open(f"{room}/other", "wb") as it:
            it.write(octets)
        for words, given in ((("digest", "--signatures", f"{room}/other"), b"x"), (("signatures",), octets),
                             (("digest", "--signatures", f"{room}/other", "--octets", "0"), b"")):
            said = run(*words, "--quiet", given=given)
            verdict(f"{words[0]} {octets[:9]}", said == (1, b"", f"{fault}\n"), said)
    with open(f"{room}/other", "wb") as it:
        it.write(packet(b"\4\0\x16\x08\0\1"))
    said = run("digest", "--malformed", "keep", "--signatures", f"{room}/other", given=b"x")
    verdict("malformed signature that is kept", said == (0, b"signature 0 : none opaque\n", ""), said)
    for name in ("-", "/dev/stdin", "/dev/fd/0", "/proc/self/fd/0"):
        said = run("digest", "--signatures", name, given=one)
        wanted = (2, b"", "opgp: standard input is the document; the signatures are in a file\n")
        verdict(f"signatures and document in {name}", said == wanted, said)
    said = run("digest", "--signatures", "/dev/stdin", "--octets", "0", given=one)
    verdict("signatures on standard input, and no document", said == (0, signature(4, 0, 8)[2], ""), said)
    said = run("digest", "--signatures", f"{room}/none", given=b"x")
    verdict("no file", said == (3, b"", "opgp: read failed\n"), said)
    said = run("digest", "--signatures", room, "--quiet", given=b"x")
    verdict("a directory", said[:2] == (3, b"") and said[2] == "opgp: read failed\n", said)


# Signatures of other programs.


def lines_of(name):
    with open(f"{VECTORS}/{name}", encoding="ascii") as it:
        return [line for line in it.read().replace("\n  ", " ").splitlines() if not line.startswith("#")]


def octets_of(how):
    """The octets of a document: those of a file, or of a literal, once or so many times."""
    if not how.startswith("b"):
        with open(f"{VECTORS}/{how}", "rb") as it:
            return it.read()
    octets, _, times = how.partition(" * ")
    return ast.literal_eval(octets) * int(times or 1)


def vectors():
    """Signatures that other programs made, by the tables of tests/vectors/documents."""
    rows = [line.split(" ", 2) for line in lines_of("documents.txt")]
    documents = {name: octets_of(how) for kind, name, how in rows if kind == "document"}
    signers = {name: octets for kind, name, octets in rows if kind == "signer"}
    rows = [(path, kind, *rest.split(" ")) for kind, path, rest in rows if kind in ("signature", "bad")]
    kept = {it for ending in ("asc", "sig") for it in glob.glob(f"*/*.{ending}", root_dir=VECTORS)}
    verdict("each file of signatures has a line", kept and kept == {row[0] for row in rows}, kept ^ {row[0] for row in rows})
    for path, group in itertools.groupby(rows, key=lambda row: row[0]):
        group = list(group)
        document, wanted = documents[group[0][4]], ""
        for _, found, place, signer, _, kind, algorithm, digest in group:
            said = "undecided" if found == "signature" else "bad"
            asked = f"asked type {kind} hash {algorithm} signer {signers[signer]} digest {digest[:4]} verdict {said}"
            wanted += f"signature {place} : {asked if int(algorithm) in HASHES else 'none hash'}\n"
        said = run("digest", "--quiet", "--signatures", f"{VECTORS}/{path}", given=document)
        verdict(path, said == (0, wanted.encode(), ""), said)
        for _, _, place, _, _, kind, algorithm, digest in group:
            words = ("digest", "--quiet", "--signatures", f"{VECTORS}/{path}", "--octets", place)
            behind, front = run(*words), run(*words, "--salt")
            shown = canonical(document) if kind == "01" else document
            made = hashlib.new({**HASHES, 12: "sha3_256"}[int(algorithm)], front[1] + shown + behind[1]).hexdigest().upper()
            verdict(f"parts of {path} {place}", (behind[0], front[0], made) == (0, 0, digest), (behind, front))


def line_ends(room):
    """Rows of documents and their texts, and what other programs take for these."""
    for line in lines_of("line_ends.txt"):
        document, text, *theirs = [it if it.startswith("stray ") else ast.literal_eval(f"b{it}") for it in line.split(" | ")]
        stray = isinstance(text, str)
        verdict(f"others agree on {document}", len(set(theirs)) > 1 if stray else set(theirs) == {text}, theirs)
        verdict(f"the model's text of {document}", canonical(document) == (int(text[6:]) if stray else text), canonical(document))
        said = run("canonical", "--quiet", given=document)
        verdict(f"text of {document}, a row", said == (refusal(text[6:]) if stray else (0, text, "")), said)
        bodies, lines = [], ""
        for number, (version, algorithm) in enumerate(itertools.product((4, 6), (8, 9, 10))):
            _, salt, behind = signature(version, 1, algorithm)
            found = "line-ends" if stray else hashlib.new(HASHES[algorithm], salt + text + behind).digest()
            left = b"\0\0" if stray else found[:2]
            bodies.append(packet(signature(version, 1, algorithm, left=left)[0]))
            lines += line_of(number, 1, algorithm, found, left)
        with open(f"{room}/signatures", "wb") as it:
            it.write(b"".join(bodies))
        said = run("digest", "--quiet", "--signatures", f"{room}/signatures", given=document)
        verdict(f"digests of {document}, a row", said == (0, lines.encode(), ""), said)


def fits(program, kind, document, path):
    """Holds the program to a signature that another one has just made over a document."""
    status, out, err = run("digest", "--quiet", "--signatures", path, given=document)
    words, stray = out.decode().split(), kind and isinstance(canonical(document), int)
    holds = words[3:] == ["none", "line-ends"] if stray else words[3:6] == ["asked", "type", f"{kind:02}"] and words[-1] == "undecided"
    name = f"{program}'s signature of type {kind:02} over {document[:20]}, {len(document)} octets"
    verdict(name, (status, err) == (0, "") and holds, (status, out, err))


def written_by(*words, given=b""):
    """What another program writes, or None where it fails."""
    ended = subprocess.run(words, input=given, capture_output=True, check=False, timeout=60)
    return None if ended.returncode else ended.stdout


def left_out(what):
    print(f"tests/program/documents.py: {what}", file=sys.stderr)


def by_gpg(room):
    """Signatures of gpg, types 00 and 01."""
    os.makedirs(f"{room}/home", mode=0o700)
    gpg = ["gpg", "--homedir", f"{room}/home", "--batch", "--quiet", "--yes", "--pinentry-mode", "loopback", "--passphrase", ""]
    if written_by(*gpg, "--quick-generate-key", "Test <test@example.org>", "ed25519", "sign", "0") is None:
        left_out("gpg makes no key here: none of its signatures")
        return
    for document, kind in itertools.product(DOCUMENTS, (0, 1)):
        # gpg refuses a text with a line past 19,993 octets, and drops the NUL octets before a line end.
        if kind and (max(map(len, document.split(b"\n"))) > 19000 or b"\0\n" in document):
            continue
        with open(f"{room}/document", "wb") as it:
            it.write(document)
        words = [*gpg, *(["--textmode"] if kind else []), "--armor", "--output", f"{room}/document.asc"]
        subprocess.run([*words, "--detach-sign", f"{room}/document"], capture_output=True, check=True)
        fits("gpg", kind, document, f"{room}/document.asc")
    written_by("gpgconf", "--homedir", f"{room}/home", "--kill", "all")


def by_rnp(room):
    """Signatures of rnp, type 00: it makes none of type 01 that stands alone."""
    os.makedirs(f"{room}/rnp")
    if written_by("rnpkeys", "--homedir", f"{room}/rnp", "--generate-key", "--userid", "test", "--password", "") is None:
        left_out("rnp makes no key here: none of its signatures")
        return
    for document in DOCUMENTS:
        with open(f"{room}/document", "wb") as it:
            it.write(document)
        words = ["rnp", "--homedir", f"{room}/rnp", "--password", "", "--overwrite", "--output", f"{room}/document.sig"]
        subprocess.run([*words, "--detach", "--sign", f"{room}/document"], capture_output=True, check=True)
        fits("rnp", 0, document, f"{room}/document.sig")


def by_stateless(room, program):
    """Signatures of a program with the stateless interface, types 00 and 01, by its usual key, and one of version 6 if it makes any."""
    for profile in ((), ("--profile=rfc9580",)):
        key = written_by(program, "generate-key", *profile, "Test <test@example.org>")
        if key is None:
            left_out(f"{program} makes no key {' '.join(profile)} here: none of its signatures")
            continue
        with open(f"{room}/key", "wb") as it:
            it.write(key)
        for document, kind in itertools.product(DOCUMENTS, (0, 1)):
            octets = written_by(program, "sign", f"--as={'text' if kind else 'binary'}", f"{room}/key", given=document)
            if octets is None:  # some take no text that isn't UTF-8
                left_out(f"{program} doesn't sign {document[:20]}, type {kind:02}")
                continue
            with open(f"{room}/document.asc", "wb") as it:
                it.write(octets)
            fits(program, kind, document, f"{room}/document.asc")


def by_others(room):
    """Signatures that programs on this machine make now."""
    for program in ("gpg", "rnp", "sqop", "gosop", "rsop"):
        if not shutil.which(program):
            left_out(f"no {program} here: none of its signatures but those of tests/vectors/documents")
        elif program in ("gpg", "rnp"):
            {"gpg": by_gpg, "rnp": by_rnp}[program](room)
        else:
            by_stateless(room, program)


# Documents in pieces.


def through_a_pipe(words, document, size):
    """A run that is given a document by writes of so many octets."""
    with tempfile.TemporaryFile() as out, tempfile.TemporaryFile() as err:
        with subprocess.Popen([PROGRAM, *words], stdin=subprocess.PIPE, stdout=out, stderr=err) as child:
            fcntl.fcntl(child.stdin, fcntl.F_SETPIPE_SZ, 1 << 20)
            try:
                for at in range(0, len(document), size):
                    piece = memoryview(document)[at : at + size]
                    while piece:
                        piece = piece[os.write(child.stdin.fileno(), piece) :]
            except BrokenPipeError:  # it has refused the document
                pass
            child.stdin.close()
            status = child.wait(60)
        return status, *(os.pread(it.fileno(), os.fstat(it.fileno()).st_size, 0) for it in (out, err))


def pieces(room):
    """Documents in pieces: of 1 to 70 octets, one a read, and through a pipe; and of 1 MiB through a pipe."""
    made = [(version, kind, algorithm) for version in (4, 6) for kind in (0, 1) for algorithm in (8, 9, 10)]
    chance = random.Random(1)
    mixed = bytes(chance.choice(b"ab\0 \n") for _ in range(150)).replace(b"b", b"\r\n")
    small = [b"a\r\nbc\n\r\n" * 17, mixed, b"x" * 139 + b"\r", b"a\n" * 35 + b"\r\r\n" + b"b\r\n" * 20]
    end = b"y" * ((1 << 20) - 1) + b"\r"
    large = [b"x" * 5_000_000, b"line of a text\r\n" * 300_000, (end + b"\n") * 4, end + b"y" + b"\n" * 99]
    runner = Runner(PROGRAM, quiet=False)
    for document in (*small, *large):
        bodies, lines = [], ""
        for number, (version, kind, algorithm) in enumerate(made):
            body, salt, behind = signature(version, kind, algorithm)
            bodies.append(packet(body))
            lines += line_of(number, kind, algorithm, digest_of(version, kind, algorithm, salt, behind, document), b"\0\0")
        with open(f"{room}/signatures", "wb") as it:
            it.write(b"".join(bodies))
        text = canonical(document)
        shown = refusal(text) if isinstance(text, int) else (0, text, "")
        digest = ["digest", "--quiet", "--signatures", f"{room}/signatures"]
        for words, wanted in ((digest, (0, lines.encode(), "")), (["canonical", "--quiet"], shown)):
            name = f"{words[0]} of {document[:20]}, {len(document)} octets, in pieces of"
            for size in range(1, 71) if document in small else ():
                status, out, err, _ = runner.run_in_pieces(words, [document[at : at + size] for at in range(0, len(document), size)])
                verdict(f"{name} {size}", (status, out, err.decode()) == wanted, (status, out[:99], err))
            for size in (1, 2, 63, 64, 65) if document in small else (65537, 1 << 20):
                status, out, err = through_a_pipe(words, document, size)
                verdict(f"{name} {size} in a pipe", (status, out, err.decode()) == wanted, (status, out[:99], err))
    runner.close()


with tempfile.TemporaryDirectory() as ROOM:
    signed(ROOM)
    texts()
    areas(ROOM)
    many(ROOM)
    refused(ROOM)
    vectors()
    line_ends(ROOM)
    pieces(ROOM)
    by_others(ROOM)
print(f"{passed} passed, {failed} failed")
sys.exit(failed != 0)
