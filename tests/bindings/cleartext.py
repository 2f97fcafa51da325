#!/usr/bin/env python3
"""Tries what opgp-verify and its other names do with cleartext messages: their lines, exit statuses and documents, to the octet.

Usage: tests/bindings/cleartext.py [--program FILE [--library FILE]] [--only PART]

The program is built as `make verifier` builds it, unless opgp-verify is named; so is libopgp.a, by which the call of the library itself is
tried, and with which wrong programs are made, of which this test must say that they are. Messages are made of this day, by
tests/lib/openpgp_signers.py; with signatures of each kind, alone and beside good ones. Those of tests/vectors/cleartext are read beside
tests/lib/cleartext.py, and their signatures are looked at without the program; of those that Debian publishes the answers are written
down. A document may be written only where a signature in its
message is good and believed, and a file is there as a whole or not at all: also where writing fails, memory is refused, or the program is
killed. The last line counts what was tried.
"""

import argparse
import email
import os
import re
import resource
import shutil
import signal
import subprocess
import sys
import tempfile

sys.dont_write_bytecode = True
sys.path.insert(0, f"{sys.path[0]}/../lib")

import causes  # noqa: E402
import cleartext  # noqa: E402
import model  # noqa: E402
import names  # noqa: E402
import openpgp_signers as signers  # noqa: E402
from document_cases import (  # noqa: E402
    DAY, DOCUMENT, MADE, TEXT, cases, digits, explained, gpgv_status, iso, of_messages, others, status_lines, verification)
from names import kept, run, wrote  # noqa: E402
from openpgp_maker import integer, packet  # noqa: E402
from running import HERE  # noqa: E402

LINE, USUAL_LINE = 1 << 20, 8192  # octets that a line may have: the most that the limit allows, and by the library's usual limits
passed = failed = 0
ARCHIVE = None
NO_ONE = "no signature is good and believed"


def verdict(name, holds, why=""):
    global passed, failed
    passed, failed = passed + bool(holds), failed + (not holds)
    if not holds:
        print(f"tests/bindings/cleartext.py: {name}: FAILED {why}"[:2500], file=sys.stderr)


def left_out(what):
    print(f"tests/bindings/cleartext.py: left out, since it isn't here: {what}", file=sys.stderr)


def taken(path):
    """The octets of a file, which is then removed; None if there is none. Beside it there may be no temporary one."""
    left = [it for it in os.listdir(os.path.dirname(path)) if it.startswith(".opgp-")]
    if left:
        verdict("temporary files", False, left)
        for it in left:
            os.remove(f"{os.path.dirname(path)}/{it}")
    if not os.path.lexists(path):
        return None
    with open(path, "rb") as it:
        octets = it.read()
    os.remove(path)
    return octets


def out():
    return f"{names.ROOM}/out"


def octets_at(path):
    with open(path, "rb") as it:
        return it.read()


def octets_of(text):
    return text.encode(errors="surrogateescape")


def ring_of(those):
    return kept("ring", b"".join(dict.fromkeys(case.ring for case in those)))


# ---- What each name does with cases


def tried(title, those, message=None, document=TEXT):
    """Each name over a message with these cases' signatures."""
    message = signers.message(document, *(case.octets for case in those)) if message is None else message
    path, ring = kept("message", message), ring_of(those)
    lines = [explained(n, case) for n, case in enumerate(those)]
    good = [case for case in those if case.is_good()]

    hoped = [line for case in those for line in status_lines(case)]
    ended = run("opgp-gpgv", "--keyring", ring, "--status-fd", "1", "-o", out(), path)
    fits = (ended.status, wrote(ended.out), ended.lines) == (gpgv_status(those), hoped, lines)
    verdict(f"opgp-gpgv, {title}", fits, (ended, hoped, lines))
    verdict(f"opgp-gpgv's document, {title}", taken(out()) == (document + b"\n" if ended.status == 0 else None))
    plain = run("opgp-gpgv", "--keyring", ring, given=message)
    verdict(f"opgp-gpgv over standard input, {title}", plain == ended._replace(out=""), plain)
    plain = run("opgp-gpgv", "--keyring", ring, "--output", "-", "-", given=message)
    verdict(f"opgp-gpgv to standard output, {title}", (plain.status, octets_of(plain.out)) == (ended.status, b"" if ended.status else document + b"\n"), plain)

    told = f"{names.ROOM}/verifications"
    ended = run("opgp-sopv", "inline-verify", f"--verifications-out={told}", ring, given=message)
    hoped = (0, document, []) if good else (3, b"", [*lines, NO_ONE])
    verdict(f"opgp-sopv, {title}", (ended.status, octets_of(ended.out), ended.lines) == hoped, (ended, hoped))
    verdict(f"opgp-sopv's verifications, {title}", taken(told) == ("".join(map(verification, good)).encode() if good else None))
    plain = run("opgp-sopv", "inline-verify", ring, given=message)
    verdict(f"opgp-sopv alone, {title}", plain == ended, plain)

    certificates = [*dict.fromkeys(digits(case.primary.fingerprint) for case in good)]
    for wanted in (1, 2):
        ended = run("opgp-sqv", "--keyring", ring, "-n", str(wanted), "--cleartext", "--output", out(), path)
        is_fine = len(certificates) >= wanted
        lacking = [*lines, f"{len(certificates)} of {wanted} wanted certificates have a good and believed signature"]
        hoped = (int(not is_fine), "".join(f"{it}\n" for it in certificates), [] if is_fine else lacking)
        verdict(f"opgp-sqv of {wanted}, {title}", (ended.status, ended.out, ended.lines) == hoped, (ended, hoped))
        verdict(f"opgp-sqv's document, {title}", taken(out()) == (document if is_fine else None))

    ended = run("opgp-verify", "--cleartext", "--keyring", ring, "--output", out(), path)
    said = [line.partition(" verdict ")[2] or line.partition(" : ")[2] for line in causes.without(ended.out).splitlines()]
    status = int(not good or any(case.said == "bad" for case in those))
    verdict(f"opgp-verify, {title}", (ended.status, said) == (status, [case.said for case in those]), (ended, said))
    verdict(f"opgp-verify's document, {title}", taken(out()) == (None if status else document))
    plain = run("opgp-verify", "--keyring", ring, "--cleartext", given=message)
    verdict(f"opgp-verify over standard input, {title}", plain == ended, plain)


def of_cases():
    """Each case alone; and with a good one in front of it or behind it."""
    second = next(others(TEXT, 1))
    for title, case in of_messages().items():
        tried(title, [case])
        tried(f"{title} and a good one", [case, second])
        tried(f"a good one and {title}", [second, case])


def of_forms():
    """One message in several forms, and several signatures."""
    found, more = of_messages(), [*others(TEXT, 1)]
    good, bad, absent = found["good"], found["bad"], found["absent"]
    tried("three", [good, *more])
    tried("two by one key", [good, good])
    tried("three, of which one is bad", [more[0], bad, more[1]])
    tried("three, of which one is absent", [more[0], absent, more[1]])
    tried("type 00 and another one", [found["type 00"], found["type 00, absent"]])
    tried("as many as may be", more * 21)
    tried("CR LF throughout", [good], signers.message(TEXT, good.octets, end=b"\r\n"))
    tried("no header", [good], signers.message(TEXT, good.octets, head=b""))
    tried("two headers", [good], signers.message(TEXT, good.octets, head=b"Hash: SHA512, SHA1\nHash: SHA256\n"))
    tried("blank lines around", [good], b"\n \t\n" + signers.message(TEXT, good.octets) + b"\n\r\n \n")
    two = signers.message(TEXT, good.octets) + model.armor(more[0].octets, b"SIGNATURE")
    tried("two blocks", [good, more[0]], two)
    blanks = signers.message(TEXT, good.octets).replace(b"document\n", b"document \t \n")
    tried("blanks at a line's end", [good], blanks)
    for title, document in (("an empty document", b""), ("one empty line more", b"\n"), ("a long line", b"x" * LINE), ("octets", bytes(it for it in range(256) if it not in (9, 13))),
                            ("lines of each size", b"\n".join(b"x" * it for it in (*range(601), 1023, 1024, 1025, LINE - 1, LINE))), ("blanks", b" a\n\tb"), ("as apt's", b"Origin: Test\nSHA256:\n " + b"0" * 64 + b" 1 main/Packages")):
        case = cases(document, 1)["good"]
        tried(title, [case], document=document)
    large = b"\n".join(b"%d a line of a larger document" % it for it in range(60000))
    tried("a large document", [cases(large, 1)["good"]], document=large)
    # The document that is handed out, signed in another file, has the same signature.
    path, ring = kept("document", TEXT), ring_of([good])
    ended = run("opgp-gpgv", "--keyring", ring, "--status-fd=1", kept("signatures", good.octets), path)
    verdict("the same signature, detached", (ended.status, wrote(ended.out)) == (0, status_lines(good)), ended)


def changed_octets():
    """With any one octet of the message changed, none is good, or the document is the same."""
    good = of_messages()["good"]
    message, ring = signers.message(TEXT, good.octets), ring_of([good])
    kinds = {0: 0, 1: 0}
    for at in range(len(message)):
        body = bytearray(message)
        body[at] ^= 1 << at % 7
        path = kept("message", bytes(body))
        own = run("opgp-verify", "--cleartext", "--keyring", ring, "--output", out(), path)
        document = taken(out())
        kinds[int(own.status == 0)] += 1
        verdict(f"octet {at} changed", (own.status, document) in ((0, TEXT), (1, None)), (own, document))
        ends = [run("opgp-gpgv", "--keyring", ring, "--status-fd=1", path), run("opgp-sqv", "--keyring", ring, "--cleartext", path)]
        ends += [run("opgp-sopv", "inline-verify", ring, given=bytes(body))]
        is_good = own.status == 0
        fits = [it.status == 0 for it in ends] == [is_good] * 3 and ("GOODSIG" in ends[0].out, octets_of(ends[2].out)) == (is_good, TEXT if is_good else b"")
        verdict(f"octet {at} changed, the other names", fits, ends)
    verdict("octets that may be changed are few", kinds[1] < 60 < kinds[0], kinds)


# ---- What is refused


def refused():
    """What is no message: nothing is written, and one line says why."""
    good, second = of_messages()["good"], next(others(TEXT, 1))
    message, ring = signers.message(TEXT, good.octets), ring_of([good, second])
    last = message.index(b"-----END PGP SIGNATURE")
    for title, octets, fault in (
        ("text in front", b"x\n" + message, "cleartext: Outside block 0 at 0"), ("text behind", message + b"x\n", "armor: Outside block "),
        ("a second message", message + message, "armor: "), ("a forged one behind", message + signers.message(b"x", good.octets), "armor: "),
        ("a forged one in front", signers.message(b"x", b"") + message, ""),
        ("a key behind", message + model.armor(good.ring), "composition: "), ("no end line", message[:last], "armor: Unfinished"),
        ("cut in the text", message[:70], "cleartext: Unfinished"), ("no message", b"x\n", "cleartext: Outside block 0 at 0"), ("nothing", b"", "cleartext: NoMessage"),
        ("a line that isn't escaped", message.replace(b"- -of", b"-of"), "cleartext: Unescaped"),
        ("another header", message.replace(b"Hash: SHA256", b"Comment: x"), "cleartext: Header"),
        ("no text", b"-----BEGIN PGP SIGNED MESSAGE-----\n\n" + model.armor(good.octets, b"SIGNATURE"), "cleartext: NoText"),
        ("a stray carriage return", message.replace(b"a document", b"a\rdocument"), "cleartext: StrayReturn"),
        ("a line that is too long", signers.message(b"x" * (LINE + 1), good.octets), "cleartext: LineTooLong"),
        ("no signatures", signers.message(TEXT), "composition: "), ("65 signatures", signers.message(TEXT, good.octets * 65), "more than 64 signatures"),
        ("a certificate in the block", signers.message(TEXT, good.ring), "composition: NotASignature"),
        ("detached signatures", good.octets, "cleartext: "), ("armored ones", model.armor(good.octets, b"SIGNATURE"), "cleartext: "),
    ):  # fmt: skip
        path = kept("message", octets)
        start = f"'{path}': {fault}"
        is_other = octets[:1] >= b"\x80"
        count = 1 + is_other
        ended = run("opgp-verify", "--cleartext", "--keyring", ring, "--output", out(), path)
        fits = ended[:2] == (1, "") and len(ended.lines) == count and ended.lines[0].startswith(start)
        verdict(f"opgp-verify: {title}", fits and taken(out()) is None, ended)
        ended = run("opgp-gpgv", "--keyring", ring, "--status-fd=1", "--output", out(), path)
        fits = ended[:2] == (2, "[GNUPG:] NODATA 1\n") and len(ended.lines) == count and ended.lines[0].startswith(start)
        verdict(f"opgp-gpgv: {title}", fits and taken(out()) is None, ended)
        ended = run("opgp-sqv", "--keyring", ring, "--cleartext", "--output", out(), path)
        fits = ended[:2] == (1, "") and len(ended.lines) == count and ended.lines[0].startswith(start)
        verdict(f"opgp-sqv: {title}", fits and taken(out()) is None, ended)
        ended = run("opgp-sopv", "inline-verify", f"--verifications-out={out()}", ring, given=octets)
        fits = ended[:2] == (41, "") and len(ended.lines) == count and ended.lines[0].startswith(f"'-': {fault}")
        verdict(f"opgp-sopv: {title}", fits and taken(out()) is None, ended)
    # A signed message of another form says so (5.4).
    for octets in (packet(4, b"\3\0\x08\x16" + bytes(8) + b"\1"), model.armor(packet(4, b"\3\0\x08\x16" + bytes(8) + b"\1"), b"MESSAGE")):
        ended = run("opgp-sopv", "inline-verify", ring, given=octets)
        verdict("a one-pass signed message", ended[:2] == (41, "") and ended.lines[1:] == ["of signed messages only cleartext ones are read"], ended)
    for name, words, status in (("opgp-verify", ["--cleartext"], 3), ("opgp-gpgv", [], 2), ("opgp-sqv", ["--cleartext"], 1)):
        for path, why in ((f"{names.ROOM}/none", "No such file or directory"), (names.ROOM, "Is a directory")):
            ended = run(name, *words, "--keyring", ring, "--output", out(), path)
            fits = ended[:2] == (status, "") and ended.lines == [f"can't read '{path}': {why}"]
            verdict(f"{name}: {why}", fits and taken(out()) is None, ended)
        ended = run(name, *words, "--keyring", kept("other", DOCUMENT), "--output", out(), kept("message", message))
        verdict(f"{name}: no keyring", ended.status in (1, 2) and ended.out == "" and "armor: NoBlock" in ended.told and taken(out()) is None, ended)
    ended = run("opgp-sopv", "inline-verify", f"{names.ROOM}/none", given=message)
    verdict("opgp-sopv: no such keyring", (ended[:2], ended.lines) == ((61, ""), [f"can't read '{names.ROOM}/none': No such file or directory"]), ended)
    ended = run("opgp-sopv", "inline-verify", kept("other", DOCUMENT), given=message)
    verdict("opgp-sopv: no keyring", ended[:2] == (41, "") and "armor: NoBlock" in ended.told, ended)


# ---- The messages of tests/vectors/cleartext


KEY, _ = signers.CRYPTO.of_seed(b"\7" * 32)


def found_in(body, document):
    """What is to be found of a signature, by making it again."""
    if body[1] != 1:
        return "none kind"
    front = body[: 6 + int.from_bytes(body[4:6], "big")]
    digest = signers.hashlib.sha256(cleartext.hashed(document) + front + b"\4\xff" + len(front).to_bytes(4, "big")).digest()
    made = signers.CRYPTO.signed(KEY, digest)
    return "good" if body.endswith(digest[:2] + integer(made[:32]) + integer(made[32:])) else "bad"


def of_vectors():
    """What opgp-verify says of each of the messages: the strict reading's document and its signatures, or the fault."""
    ring, count, good = f"{HERE}/tests/vectors/cleartext/certificate.asc", 0, 0
    for title, answer, place, programs, message in cleartext.rows():
        count += 1
        if title == "long line":  # past the usual limit of `opgp cleartext`, and not past that of the verifying programs
            answer, place = programs["sqv-1.3.0"], message.index(b"-----BEGIN PGP SIGNATURE")
        path = kept("message", message)
        ended = run("opgp-verify", "--cleartext", "--keyring", ring, "--output", out(), path)
        document = taken(out())
        read = cleartext.read(message, LINE)
        told = f"+{answer[1:]}" if answer.startswith("+") else answer
        verdict(f"{title}: the model", read == (("ok", cleartext.spelled(answer[1:]), place) if told[0] == "+" else ("fault", answer, place)), read)
        if read[0] == "fault" or title in cleartext.BEHIND:
            line = f"'{path}': " + (f"cleartext: {answer} block 0 at {place} inner 0" if read[0] == "fault" else cleartext.BEHIND[title])
            verdict(f"{title}: refused", (ended[:2], document) == ((1, ""), None) and ended.lines[0].startswith(line), (ended, line))
            verdict(f"{title}: one line", len(ended.lines) == 1, ended)
        else:
            bodies = [body for _, _, kind, _, body, _ in model.framed(model.dearmored(message[place:], model.USUAL), model.USUAL)]
            hoped = [found_in(body, read[1]) for body in bodies]
            said = [line.partition(" verdict ")[2] or line.partition(" : ")[2] for line in causes.without(ended.out).splitlines()]
            status = int("good" not in hoped or "bad" in hoped)
            verdict(f"{title}: its signatures", (ended.status, said) == (status, hoped), (ended, hoped))
            verdict(f"{title}: its document", document == (None if status else read[1]), document)
            good += status == 0
            # Of these one at least accepts it; and sqop of this day hands out the same lines.
            is_accepted = any(programs[it].startswith("+") for it in ("gpgv-2.4.7", "sqv-1.3.0"))
            verdict(f"{title}: other programs", status == 1 or is_accepted, programs)
            same = programs["sqop-0.37.2"]
            verdict(f"{title}: sqop's document", status == 1 or not same.startswith("+") or cleartext.spelled(same[1:]).replace(b"\r\n", b"\n") == document, (same, document))
    verdict("there are messages", count == 76 and good > 25, (count, good))


def of_real():
    """What opgp-verify finds of files that Debian publishes, and of mails, at a time; and after each has changed by an octet."""
    room, count = f"{HERE}/tests/vectors/cleartext/real", 0
    words = ["opgp-verify", "--cleartext", "--keyring", f"{room}/keyring.gpg", "--at", "2026-11-29", "--output", out()]
    with open(f"{room}/answers.txt", encoding="ascii") as it:
        lines = [line.rstrip("\n").split("\t") for line in it if not line.startswith("#")]
    for file, verdicts, *_ in lines:
        count += 1
        message = octets_at(f"{room}/{file}")
        ended, read = run(*words, f"{room}/{file}"), cleartext.read(message, LINE)
        said = [line.partition(" verdict ")[2] for line in causes.without(ended.out).splitlines()]
        status = int("good" not in verdicts.split(", "))
        verdict(f"{file}: its signatures", (ended.status, said) == (status, verdicts.split(", ")), ended)
        verdict(f"{file}: its document", read[0] == "ok" and taken(out()) == (None if status else read[1]))
        for at in (message.find(b"\n\n") + 2, read[2] // 2, read[2] - 2):
            changed = message[:at] + bytes([message[at] ^ 1]) + message[at + 1 :]
            ended = run(*words, kept("message", changed))
            said = [line.partition(" verdict ")[2] for line in causes.without(ended.out).splitlines()]
            holds = ended.status == 1 and not any(it.startswith("good") for it in said)
            verdict(f"{file}: changed at {at}", holds and taken(out()) is None, ended)
    verdict("there are files", count == len(os.listdir(room)) - 3, count)
    of_mails()


BLOCK = re.compile(rb"^-----BEGIN PGP SIGNED MESSAGE-----$.*?^-----END PGP SIGNATURE-----\n", re.MULTILINE | re.DOTALL)


def of_mails():
    """What is found of mails and other messages that Debian's packages have for tests: as their signers meant. A mail as it is has headers
    in front and is refused; what is read is its body. Where that has text outside of the message, it is refused too, and the message alone is
    judged."""
    room, count = f"{HERE}/tests/vectors/cleartext/mails", 0
    with open(f"{room}/answers.txt", encoding="ascii") as it:
        lines = [line.rstrip("\n").split("\t") for line in it if not line.startswith("#")]
    for file, form, refused, at, *answers, _ in lines:
        count += 1
        usual, by_any, words, by_gpgv = (it.split(", ") for it in answers)
        keys = ["--keyring", f"{room}/keyring.gpg"]
        octets = octets_at(f"{room}/{file}")
        whole = [("as a file", octets, "cleartext: Outside block 0 at 0 ")] if form == "mail" else []
        octets = email.message_from_bytes(octets).get_payload(decode=True) if form == "mail" else octets
        for title, given, fault in [*whole, *([("its body", octets, refused)] if refused != "-" else [])]:
            path = kept("message", given)
            ended = run("opgp-verify", "--cleartext", *keys, "--at", at, "--policy", "any", "--output", out(), path)
            fits = ended[:2] == (1, "") and ended.lines[0].startswith(f"'{path}': {fault}")
            verdict(f"{file}, {title}: refused", fits and taken(out()) is None, ended)
            ended = run("opgp-gpgv", *keys, "--status-fd", "1", "-o", out(), path)
            verdict(f"{file}, {title}: refused by opgp-gpgv", ended[:2] == (2, "[GNUPG:] NODATA 1\n") and taken(out()) is None, ended)
        if usual == ["-"]:
            continue  # no message is in it
        octets = octets if refused == "-" else BLOCK.search(octets)[0]
        path, read = kept("message", octets), cleartext.read(octets, LINE)
        for policy, verdicts in (("usual", usual), ("any", by_any)):
            ended = run("opgp-verify", "--cleartext", *keys, "--at", at, "--policy", policy, "--output", out(), path)
            said = [line.partition(" verdict ")[2] or line.partition(" : ")[2] for line in causes.without(ended.out).splitlines()]
            status = int("good" not in verdicts or "bad" in verdicts)
            verdict(f"{file}, policy {policy}: its signatures", (ended.status, said) == (status, verdicts), ended)
            verdict(f"{file}, policy {policy}: its document", read[0] == "ok" and taken(out()) == (None if status else read[1]))
        # gpgv finds good what is good and believed.
        verdict(f"{file}: gpgv", len(by_gpgv) == len(by_any) and all(it == "GOODSIG" for it, its in zip(by_gpgv, by_any) if its == "good"), by_gpgv)
        ended = run("opgp-gpgv", *keys, "--status-fd", "1", "-o", out(), path)
        told = [line.split(" ")[0] for line in wrote(ended.out)]
        status = int(words != ["GOODSIG"] * len(words))
        fits = ended.status == status and [it for it in told if it.endswith("SIG") and it not in ("NEWSIG", "VALIDSIG")] == words
        verdict(f"{file}: opgp-gpgv", fits and told.count("VALIDSIG") == words.count("GOODSIG"), ended)
        verdict(f"{file}: opgp-gpgv's document", taken(out()) == (None if status else read[1] + b"\n"))
        first, last = octets.find(b"\n\n") + 2, read[2] - 2
        for place in (first, (first + last) // 2, last):
            changed = kept("message", octets[:place] + bytes([octets[place] ^ 1]) + octets[place + 1 :])
            ended = run("opgp-verify", "--cleartext", *keys, "--at", at, "--policy", "any", "--output", out(), changed)
            verdict(f"{file}: changed at {place}", ended.status == 1 and " verdict good" not in ended.out and taken(out()) is None, ended)
            ended = run("opgp-gpgv", *keys, "--status-fd", "1", "-o", out(), changed)
            verdict(f"{file}: changed at {place}, opgp-gpgv", ended.status != 0 and "GOODSIG" not in ended.out and taken(out()) is None, ended)
    verdict("there are mails", count == len(os.listdir(room)) - 3, count)


CALL = r"""
#include <opgp.h>
#include <stdio.h>
#include <stdlib.h>
#include <string.h>

/* Reads messages, each with its size in front, and a number that is added to its size for the room; what the call says of each, and the
 * type of each signature, with why it isn't hashed. */
int main(void)
{
    unsigned long n;
    long more;
    opgp_limits limits;
    opgp_usual_limits(&limits);
    while (scanf("%lu %ld", &n, &more) == 2) {
        uint8_t *in = malloc(n + 1), *text = malloc(n + 1);
        getchar();
        if (fread(in, 1, n, stdin) != n) {
            return 1;
        }
        memset(text, 0xA5, n + 1);
        uint64_t size = 77;
        size_t room = (size_t)((long)n + more);
        opgp_document document = {0};
        opgp_fault fault = {0};
        char words[OPGP_FAULT_ROOM];
        uint32_t status = opgp_cleartext_open(in, n, &limits, text, room, &size, &document, &fault);
        size_t written = n + 1;
        while (written > 0 && text[written - 1] == 0xA5) {
            written--;
        }
        printf("%u %llu %zu %d ", status, (unsigned long long)size, written, document.is_open);
        for (size_t i = 0; i < written; i++) {
            printf("%02X", text[i]);
        }
        opgp_job *rows = NULL;
        uint8_t *made = NULL;
        size_t count = 0;
        printf(" ");
        if (status == OPGP_DONE && opgp_signatures(&document, NULL, &rows, &count, &made) != OPGP_DONE) {
            return 1;
        }
        for (size_t i = 0; i < count; i++) {
            printf("%u:%u,", rows[i].kind, rows[i].why);
        }
        free(rows);
        free(made);
        printf(" %s\n", status == OPGP_REFUSED ? opgp_fault_text(&fault, words) : "");
        opgp_document_clear(&document);
        free(in);
        free(text);
    }
    return 0;
}
"""


def by_call():
    """The call of the library over the same messages, with as much room as the message has, and with less than the document."""
    if not ARCHIVE:
        left_out("libopgp.a")
        return
    program = f"{names.ROOM}/call"
    words = ["cc", "-std=c11", "-O1", f"-I{HERE}/c", kept("call.c", CALL.encode()), ARCHIVE, "-o", program]
    made = subprocess.run(words, capture_output=True, check=False)
    verdict("the program that calls", made.returncode == 0, made.stderr)
    all_rows = [*cleartext.rows()]

    def asked(message, more):
        ended = subprocess.run([program], input=b"%d %d\n" % (len(message), more) + message, capture_output=True, check=False)
        return ended.stdout.decode().rstrip("\n").split(" ", 6) if ended.returncode == 0 else [str(ended.returncode)]

    for title, _, place, _, message in all_rows:
        read, said = cleartext.read(message, USUAL_LINE), asked(message, 0)
        if read[0] == "ok" and title not in cleartext.BEHIND:
            document = read[1]
            bodies = [body for _, _, kind, _, body, _ in model.framed(model.dearmored(message[place:], model.USUAL), model.USUAL) if kind == 2]
            rows = "".join(f"{body[1]}:{0 if body[1] == 1 else 2}," for body in bodies)
            verdict(f"{title}: the call", said == ["0", str(len(document)), str(len(document)), "1", digits(document), rows, ""], (said, rows))
            for room in sorted({0, len(document) // 2, len(document) - 1} & {*range(len(document))}):
                less = asked(message, room - len(message))
                verdict(f"{title}: room {room}", less == ["2", str(len(document)), "0", "0", "", "", ""], less)
        else:
            fault = f"cleartext: {read[1]} block 0 at {place} inner 0" if read[0] == "fault" else cleartext.BEHIND[title]
            verdict(f"{title}: the call refuses", said[:6] == ["1", "77", "0", "0", "", ""] and said[6].startswith(fault), said)


# ---- Files


def outputs():
    """A file that is there, a folder that isn't, links, modes, and what isn't a file."""
    good = of_messages()["good"]
    message = signers.message(TEXT, good.octets)
    path, ring, bad = kept("message", message), ring_of([good]), kept("bad", message.replace(b"a document", b"b document"))
    certificate = f"{digits(good.key.fingerprint)}\n"
    lines = "".join(f"[GNUPG:] {line}\n" for line in status_lines(good))
    own = run("opgp-verify", "--cleartext", "--keyring", ring, path).out
    runs = {
        "opgp-verify": (lambda name, of=path: run("opgp-verify", "--cleartext", "--keyring", ring, "--output", name, of), 3, own),
        "opgp-sqv": (lambda name, of=path: run("opgp-sqv", "--keyring", ring, "--cleartext", "--output", name, of), 1, certificate),
        "opgp-gpgv": (lambda name, of=path: run("opgp-gpgv", "--status-fd=1", "--keyring", ring, "--output", name, of), 2, lines),
        "opgp-sopv": (lambda name, of=path: run("opgp-sopv", "inline-verify", f"--verifications-out={name}", ring, given=octets_at(of)), 1, TEXT.decode()),
    }  # fmt: skip
    folder = f"{names.ROOM}/folder"
    os.mkdir(folder)
    for name, (doing, status, told) in runs.items():
        written = {"opgp-sopv": verification(good).encode(), "opgp-gpgv": TEXT + b"\n"}.get(name, TEXT)
        exists = 59 if name == "opgp-sopv" else status
        where = f"{folder}/out"
        # There already: a file, a link that leads nowhere, a folder.
        for kind in ("file", "link", "folder"):
            if kind == "file":
                kept("folder/out", b"as it was")
            elif kind == "link":
                os.symlink(f"{folder}/nowhere", where)
            else:
                os.mkdir(where)
            ended = doing(where)
            if name == "opgp-gpgv" and kind != "folder":
                verdict(f"{name}: replaces a {kind}", (ended.status, ended.out, taken(where)) == (0, told, written), ended)
                continue
            said = f"'{where}' is there already" if name == "opgp-sopv" else f"can't write '{where}': {'Is a directory' if name == 'opgp-gpgv' else 'File exists'}"
            verdict(f"{name}: a {kind} is there", ended.status == exists and ended.lines[-1:] == [said] and (ended.out == "" or name == "opgp-gpgv"), ended)
            verdict(f"{name}: what is there is as it was, a {kind}", kind != "file" or (os.path.exists(where) and octets_at(where) == b"as it was"))
            if os.path.isdir(where):
                os.rmdir(where)
            elif os.path.lexists(where):
                os.remove(where)
        if name == "opgp-gpgv":
            kept("folder/out", b"as it was")
            ended = doing(where, bad)
            verdict(f"{name}: a bad signature replaces nothing", ended.status == 1 and taken(where) == b"as it was", ended)
            os.chmod(kept("folder/out", b"as it was"), 0o640)
            doing(where)
            mode = os.stat(where).st_mode & 0o7777
            verdict(f"{name}: the mode of what it replaces", (mode, taken(where)) == (0o640, written), mode)
            os.symlink(kept("folder/other", b"as it was"), where)
            doing(where)
            verdict(f"{name}: what a link leads to", os.path.islink(where) and octets_at(f"{folder}/other") == written)
            os.remove(where)
            os.remove(f"{folder}/other")
            verdict(f"{name}: nothing to see", doing("/dev/null").status == 0 and os.path.exists("/dev/null") and not os.path.isfile("/dev/null"))
            ended = doing("/dev/stdout")
            verdict(f"{name}: /dev/stdout", ended[:2] == (0, told + written.decode()) and os.path.islink("/dev/stdout"), ended)
            ended = doing("/dev/full")
            verdict(f"{name}: a full device", ended.status == 2 and ended.lines[-1] == "can't write '/dev/full': No space left on device", ended)
        # No folder; one that isn't a folder; one that isn't writable; and a name that is too long.
        for other, why in ((f"{folder}/none/out", "No such file or directory"), (f"{path}/out", "Not a directory"), ("/proc/out", "No such file or directory"),
                           (f"{folder}/{'x' * 300}", "File name too long")):
            ended = doing(other)
            is_silent = name == "opgp-gpgv" or "x" in why or ended.out in ("", told)
            verdict(f"{name}: {why}", ended.status == status and ended.lines[-1] == f"can't write '{other}': {why}" and is_silent, ended)
            verdict(f"{name}: nothing is left: {why}", os.listdir(folder) == [], os.listdir(folder))
        # Modes.
        for mask, mode in ((0o22, 0o644), (0o77, 0o600), (0, 0o666)):
            before = os.umask(mask)
            ended = doing(where)
            os.umask(before)
            has = os.path.exists(where) and os.stat(where).st_mode & 0o7777
            verdict(f"{name}: umask {mask:o}", (has, taken(where)) == (mode, written) and ended[:2] == (0, told), (ended, has))
        verdict(f"{name}: a bad signature", doing(where, bad).status != 0 and taken(where) is None)
        # A name without a folder, and in one that isn't the present one.
        at = os.getcwd()
        os.chdir(folder)
        verdict(f"{name}: a name alone", doing("out").status == 0 and taken(f"{folder}/out") == written)
        verdict(f"{name}: a name that begins with a dot", doing("./out").status == 0 and taken(f"{folder}/out") == written)
        os.chdir(at)
        verdict(f"{name}: the folder is empty", os.listdir(folder) == [], os.listdir(folder))


def descriptors():
    """@FD: of opgp-sopv, and standard outputs that are full or closed."""
    good = of_messages()["good"]
    message, ring = signers.message(TEXT, good.octets), ring_of([good])
    path = kept("message", message)
    with tempfile.TemporaryFile() as file:
        ended = run("opgp-sopv", "inline-verify", f"--verifications-out=@FD:{file.fileno()}", ring, given=message, pass_fds=[file.fileno()])
        file.seek(0)
        verdict("opgp-sopv: @FD:", (ended[:3], file.read().decode()) == ((0, TEXT.decode(), ""), verification(good)), ended)
        file.truncate(0)
        other = message.replace(b"a document", b"b document")
        ended = run("opgp-sopv", "inline-verify", f"--verifications-out=@FD:{file.fileno()}", ring, given=other, pass_fds=[file.fileno()])
        file.seek(0)
        verdict("opgp-sopv: @FD: of a bad one", (ended[:2], file.read()) == ((3, ""), b""), ended)
    with open("/dev/full", "wb") as full:
        ended = run("opgp-sopv", "inline-verify", f"--verifications-out=@FD:{full.fileno()}", ring, given=message, pass_fds=[full.fileno()])
        verdict("opgp-sopv: a full @FD:", ended[:2] == (1, "") and "can't write '@FD:" in ended.told, ended)
    for name, status, told in (("@FD:77", 1, "can't write '@FD:77': Bad file descriptor"), ("@FD:1", 37, "'@FD:1': the document goes to standard output"),
                               ("@FD:x", 37, "'@FD:x': no descriptor"), ("@ENV:X", 71, "'@ENV:X': only @FD: is known for an output"),
                               ("@X", 71, "'@X': only @FD: is known for an output"), ("@FD:", 37, "'@FD:': no descriptor")):
        ended = run("opgp-sopv", "inline-verify", f"--verifications-out={name}", ring, given=message)
        verdict(f"opgp-sopv: {name}", (ended.status, ended.out, ended.lines) == (status, "", [told]), ended)
    kept("@FD:9", b"")
    ended = run("opgp-sopv", "inline-verify", "--verifications-out=@FD:9", ring, given=message, cwd=names.ROOM)
    verdict("opgp-sopv: a file @FD:9", (ended.status, ended.out) == (73, ""), ended)
    os.remove(f"{names.ROOM}/@FD:9")
    for form in ("@ENV:CERTS",):
        ended = run("opgp-sopv", "inline-verify", form, given=message, env={"CERTS": model.armor(good.ring).decode()})
        verdict(f"opgp-sopv: {form}", ended[:3] == (0, TEXT.decode(), ""), ended)
    for name, words, status in (
        ("opgp-verify", ["--cleartext", "--keyring", ring, "--output", out(), path], 3), ("opgp-sqv", ["--keyring", ring, "--cleartext", "--output", out(), path], 1),
        ("opgp-gpgv", ["--status-fd=1", "--keyring", ring, "--output", out(), path], 2), ("opgp-gpgv", ["--keyring", ring, "--output", "-", path], 2),
        ("opgp-sopv", ["inline-verify", f"--verifications-out={out()}", ring], 1),
    ):  # fmt: skip
        for ends in (">/dev/full", ">&-"):
            shell = f'exec "$0" "$@" {ends}'
            with open(path, "rb") as source:
                ended = subprocess.run(["sh", "-c", shell, f"{names.ROOM}/{name}", *words], stdin=source, stderr=subprocess.PIPE, check=False, text=True)
            verdict(f"{name}: standard output {ends}", ended.returncode == status and "write failed" in ended.stderr and taken(out()) is None, ended)


def failing():
    """Where writing fails, or the program is killed at the last moment, nothing is at the name."""
    large = b"\n".join(b"%d a line of a larger document" % it for it in range(20000))
    good = cases(large, 1)["good"]
    message = signers.message(large, good.octets)
    path, ring = kept("message", message), ring_of([good])

    def small():
        signal.signal(signal.SIGXFSZ, signal.SIG_IGN)
        resource.setrlimit(resource.RLIMIT_FSIZE, (10000, 10000))

    runs = (("opgp-verify", ["--cleartext", "--keyring", ring, "--output", out(), path], 3), ("opgp-sqv", ["--keyring", ring, "--cleartext", "--output", out(), path], 1),
            ("opgp-gpgv", ["--status-fd=1", "--keyring", ring, "--output", out(), path], 2))
    for name, words, status in runs:
        ended = run(name, *words, preexec_fn=small)
        verdict(f"{name}: a file that may not be large", ended.status == status and ended.lines[-1] == f"can't write '{out()}': File too large" and taken(out()) is None, ended)
    # Killed by each call that would give the file its name, flush it or write it.
    source = kept("kill.c", b"""#define _GNU_SOURCE
#include <signal.h>
#include <stdlib.h>
#include <string.h>
#include <sys/types.h>
static int dies(const char *name) { if (strcmp(getenv("DIES"), name) == 0) raise(SIGKILL); return 0; }
int renameat2(int a, const char *b, int c, const char *d, unsigned e) { return dies("rename"), -1; }
int rename(const char *a, const char *b) { return dies("rename"), -1; }
int fsync(int a) { return dies("fsync"), 0; }
ssize_t write(int a, const void *b, size_t n) { return dies("write"), (ssize_t)n; }
int fchmod(int a, mode_t b) { return dies("fchmod"), 0; }
""")
    library = f"{names.ROOM}/kill.so"
    made = subprocess.run(["cc", "-shared", "-fPIC", "-w", "-o", library, source], capture_output=True, check=False)
    verdict("the library that kills", made.returncode == 0, made.stderr)
    for name, words, _ in (*runs, ("opgp-sopv", ["inline-verify", f"--verifications-out={out()}", ring], 1)):
        # The names of other programs don't flush, as those don't.
        for call in ("rename", "write", "fchmod", *(["fsync"] if name == "opgp-verify" else [])):
            ended = run(name, *words, given=message, env={"LD_PRELOAD": library, "DIES": call})
            is_there = os.path.lexists(out())
            left = [it for it in os.listdir(names.ROOM) if it.startswith(".opgp-")]
            verdict(f"{name}: killed at {call}", ended.status == -signal.SIGKILL and not is_there and len(left) == 1, (ended.status, is_there, left))
            for it in left:
                os.remove(f"{names.ROOM}/{it}")
    # Where the system can't rename to a name without replacing, a link does it; and that doesn't replace either.
    source = kept("old.c", b"#include <errno.h>\nint renameat2(int a, const char *b, int c, const char *d, unsigned e) { errno = EINVAL; return -1; }\n")
    made = subprocess.run(["cc", "-shared", "-fPIC", "-w", "-o", f"{names.ROOM}/old.so", source], capture_output=True, check=False)
    ended = run("opgp-verify", *runs[0][1], env={"LD_PRELOAD": f"{names.ROOM}/old.so"})
    verdict("opgp-verify: by a link", made.returncode == 0 and ended.status == 0 and taken(out()) == large, ended)
    # A file that appears in between isn't replaced.
    for how, body in (("rename", b""), ("link", b"errno = EINVAL; return -1;")):
        source = kept("race.c", b"""#define _GNU_SOURCE
#include <dlfcn.h>
#include <errno.h>
#include <fcntl.h>
#include <stdlib.h>
#include <unistd.h>
int fsync(int a) { return close(open(getenv("RACE"), O_CREAT | O_WRONLY, 0600)); }
""" + (b"int renameat2(int a, const char *b, int c, const char *d, unsigned e) { " + body + b" }\n" if body else b""))
        made = subprocess.run(["cc", "-shared", "-fPIC", "-w", "-o", f"{names.ROOM}/race.so", source], capture_output=True, check=False)
        ended = run("opgp-verify", *runs[0][1], env={"LD_PRELOAD": f"{names.ROOM}/race.so", "RACE": out()})
        told = f"can't write '{out()}': File exists"
        verdict(f"opgp-verify: a file that appears in between, by {how}", made.returncode == 0 and ended.status == 3 and ended.lines[-1] == told and taken(out()) == b"", ended)


# ---- Command lines and times


def command_lines():
    """What is no command line, by the status of each name."""
    good = of_messages()["good"]
    path, ring = kept("message", signers.message(TEXT, good.octets)), ring_of([good])
    k = ["--keyring", ring]
    for name, status, words, told in (
        ("opgp-sqv", 2, [*k, "--message", path], "'--message' isn't supported: of signed messages only cleartext ones are read"),
        ("opgp-sqv", 2, [*k, "--message", "--output", out(), path], "'--message' isn't supported: of signed messages only cleartext ones are read"),
        ("opgp-sqv", 2, [*k, "--cleartext", path, path], "wanted are '--keyring <FILE>' and a message"),
        ("opgp-sqv", 2, [*k, "--cleartext"], "wanted are '--keyring <FILE>' and a message"),
        ("opgp-sqv", 2, ["--cleartext", path], "wanted are '--keyring <FILE>' and a message"),
        ("opgp-sqv", 2, [*k, "--cleartext", "--signature-file", path, path], "'--cleartext' is without '--signature-file': the message has the signatures"),
        ("opgp-sqv", 2, [*k, "--output", out(), path, path], "'--output' is for '--cleartext'"),
        ("opgp-sqv", 2, [*k, "--cleartext", "--output", "-", path], "'--output' is a file: standard output has fingerprints"),
        ("opgp-sqv", 2, [*k, "--cleartext", "--cleartext", path], "the option '--cleartext' is there twice"),
        ("opgp-sqv", 2, ["--keyring", "-", "--cleartext", "-"], "standard input is named twice"),
        ("opgp-gpgv", 2, [*k, "-o", out(), path, path], "'--output' is for signed messages: detached signatures have none"),
        ("opgp-gpgv", 2, ["--keyring", "-"], "standard input is named twice"),
        ("opgp-gpgv", 2, ["--keyring", "-", "/dev/stdin"], "standard input is named twice"),
        ("opgp-gpgv", 2, [*k, "--output", out(), "-o", out(), path], "the option '--output' is there twice"),
        ("opgp-sopv", 19, ["inline-verify"], "CERTS are wanted"), ("opgp-sopv", 19, ["inline-verify", "--not-after=now", "--"], "CERTS are wanted"),
        ("opgp-sopv", 61, ["inline-verify", "-"], "'-': standard input is the document"),
        ("opgp-sopv", 61, ["inline-verify", ring, "@FD:0"], "'@FD:0': standard input is the document"),
        ("opgp-sopv", 37, ["inline-verify", "--frob", ring], "unknown option '--frob'"),
        ("opgp-sopv", 37, ["inline-verify", "--not-before=x", ring], "'x' of '--not-before' is no time: a date, such as 2026-11-20T08:30:00Z, or seconds since 1970, as @1763629200"),
        ("opgp-sopv", 37, ["verify", "--verifications-out=x", ring, ring], "unknown option '--verifications-out'"),
        ("opgp-sopv", 19, ["inline-verify", ring, "--verifications-out"], "the option '--verifications-out' wants a value"),
        ("opgp-sopv", 37, ["inline-verify", f"--verifications-out={out()}", f"--verifications-out={out()}", ring], "the option '--verifications-out' is there twice"),
    ):  # fmt: skip
        ended = run(name, *words, given=b"")
        verdict(f"{name} {words}", (ended.status, ended.out, ended.lines) == (status, "", [told]) and taken(out()) is None, ended)
    usage = "\n\nUsage: opgp-verify [OPTIONS] --cleartext --keyring <FILE>... [MESSAGE]\n\nFor more information, try '--help'.\n"
    own = "error: the argument '{}' {}"
    for words, told in (
        (["--cleartext"], "error: the following required arguments were not provided:\n  --keyring <FILE>"),
        (["--cleartext", "--cleartext", *k], own.format("--cleartext", "cannot be used multiple times")),
        (["--cleartext", "--signature", "x", *k], own.format("--cleartext", "cannot be used with '--signature <SIG>'")),
        (["--cleartext", *k, "--output", out(), "--output", "x"], own.format("--output <FILE>", "cannot be used multiple times")),
        (["--cleartext", *k, "--output", "-"], own.format("--output <FILE>", "cannot be standard output, where the lines are")),
        (["--cleartext", *k, path, path], f"error: unexpected argument '{path}' found"),
        (["--cleartext", "--keyring", "-"], "error: standard input '-' cannot be used multiple times: it is the document if there is no other"),
        (["--cleartext", "--keyring", "-", "-"], "error: standard input '-' cannot be used multiple times: it is the document if there is no other"),
    ):  # fmt: skip
        ended = run("opgp-verify", *words)
        verdict(f"opgp-verify {words}", (ended.status, ended.out, ended.told) == (2, "", told + usage), ended)
    for words, told in (
        (["--signature", "x", *k, "--output", out()], own.format("--output <FILE>", "cannot be used without '--cleartext'")),
        (["--output", out(), ring], own.format("--output <FILE>", "cannot be used without '--cleartext'")),
        (["--state", "--cleartext"], own.format("--cleartext", "cannot be used with '--state'")),
        (["--cleartext", "--state", *k], own.format("--cleartext", "cannot be used with '--state'")),
        (["--cleartext", *k, "--output"], "error: a value is required for '--output <FILE>' but none was supplied"),
        (["--cleartext=x", *k], "error: unexpected argument '--cleartext=x' found"),
    ):
        ended = run("opgp-verify", *words)
        verdict(f"opgp-verify {words}", ended[:2] == (2, "") and ended.told.startswith(told) and taken(out()) is None, ended)


def times():
    """--at, --policy, --not-before and --not-after."""
    found = of_messages()
    good, weak = found["good"], found["sha-1"]
    message = signers.message(TEXT, good.octets)
    path, ring = kept("message", message), ring_of([good])
    for at, said in ((MADE - DAY, "good unbelieved future"), (MADE, "good"), (MADE + DAY, "good"), (iso(MADE), "good")):
        ended = run("opgp-verify", "--cleartext", "--keyring", ring, f"--at={at}", "--output", out(), path)
        fits = (ended.status, causes.without(ended.out).endswith(f" verdict {said}\n")) == (int(said != "good"), True)
        verdict(f"opgp-verify --at {at}", fits and taken(out()) == (TEXT if said == "good" else None), ended)
    weakly = kept("weakly", signers.message(TEXT, weak.octets))
    for policy, said in (("usual", "undecided weak-hash"), ("any", "good")):
        ended = run("opgp-verify", "--cleartext", "--keyring", ring, "--policy", policy, "--output", out(), weakly)
        verdict(f"opgp-verify --policy {policy}", ended.out.endswith(f" verdict {said}\n") and taken(out()) == (TEXT if said == "good" else None), ended)
    for option, value, why in (("--not-before", MADE, None), ("--not-before", MADE + 1, "before"), ("--not-after", MADE, None), ("--not-after", MADE - 1, "after")):
        ended = run("opgp-sopv", "inline-verify", f"{option}={iso(value)}", ring, given=message)
        hoped = (3, "", [explained(0, good, why), NO_ONE]) if why else (0, TEXT.decode(), [])
        verdict(f"opgp-sopv {option} {value - MADE}", (ended.status, ended.out, ended.lines) == hoped, ended)
        ended = run("opgp-sqv", option, iso(value), "--keyring", ring, "--cleartext", "--output", out(), path)
        verdict(f"opgp-sqv {option} {value - MADE}", ended.status == int(why is not None) and taken(out()) == (None if why else TEXT), ended)
    ended = run("opgp-gpgv", "--weak-digest", "SHA256", "--keyring", ring, "-o", out(), path)
    verdict("opgp-gpgv: a weak digest", ended.status == 1 and taken(out()) is None, ended)
    ended = run("opgp-gpgv", "--assert-pubkey-algo", ">=rsa2048", "--keyring", ring, "-o", out(), path)
    verdict("opgp-gpgv: another algorithm", ended.status == 1 and taken(out()) is None, ended)
    soon = found["future"]
    for more, is_good in ((["--ignore-time-conflict"], True), ([], False)):
        ended = run("opgp-gpgv", *more, "--keyring", ring, "-o", out(), kept("soon", signers.message(TEXT, soon.octets)))
        verdict(f"opgp-gpgv {more}", ended.status == int(not is_good) and taken(out()) == (TEXT + b"\n" if is_good else None), ended)


# ---- Memory


def memory():
    """Where an allocation fails, a name says so and ends with its status, and no document is there; or all is as ever."""
    library = f"{names.ROOM}/refuse.so"
    made = subprocess.run(["cc", "-O1", "-shared", "-fPIC", "-o", library, f"{HERE}/tests/lib/refuse.c"], capture_output=True, check=False)
    verdict("tests/lib/refuse.c", made.returncode == 0, made.stderr)
    found = of_messages()
    those = [found["subkey"], found["version 6"]]
    message, ring = signers.message(TEXT, *(case.octets for case in those)), ring_of(those)
    path = kept("message", message)
    runs = {"opgp-verify": (["--cleartext", "--keyring", ring, "--output", out(), path], 3), "opgp-gpgv": (["--status-fd=1", "--keyring", ring, "-o", out(), path], 2),
            "opgp-sqv": (["--keyring", ring, "--cleartext", "--output", out(), path], 1), "opgp-sopv": (["inline-verify", f"--verifications-out={out()}", ring], 1)}
    for name, (words, status) in runs.items():
        usual, count = refusing(name, library, 0, words, message)
        document = taken(out())
        verdict(f"{name}: allocations", count > 100 and usual.status == 0 and document, (count, usual))
        near = 200
        for number_of in sorted({*range(1, near), *range(near, count, max(1, count // 100)), *range(max(1, count - near), count + 2)}):
            ended, _ = refusing(name, library, number_of, words, message)
            there = taken(out())
            is_told = ended.lines and re.fullmatch("out of memory|can't (read|write) '.*': Cannot allocate memory|write failed", ended.lines[-1])
            is_ended = ended.status == status and is_told and there is None
            # A line may be written before the file can't be.
            is_silent = ended.out == "" or "can't write" in ended.told
            is_missing = name == "opgp-sopv" and (ended.out, ended.status) == ("", 61) and is_told and there is None
            verdict(f"{name}, allocation {number_of} refused", (ended == usual and there == document) or (is_ended and is_silent) or is_missing, (ended, there))


def refusing(name, library, number_of, words, message):
    """The end of a run where the allocation of this number fails, and how many it makes."""
    with tempfile.TemporaryFile() as told:
        os.dup2(told.fileno(), 9)
        ended = run(name, *words, given=message, env={"LD_PRELOAD": library, "REFUSE": str(number_of)}, pass_fds=(9,))
        os.close(9)
        told.seek(0)
        return ended, int(told.read() or 0)


def by_valgrind():
    """No run reads or frees what it may not, or loses memory."""
    if not shutil.which("valgrind"):
        left_out("valgrind")
        return
    found = of_messages()
    those = [found[it] for it in ("good", "subkey", "version 6", "absent", "revoked", "type 00", "wrong type")]
    usual = ["valgrind", "--quiet", "--error-exitcode=99", "--leak-check=full", "--errors-for-leak-kinds=definite,indirect"]
    for some in (those, [found["good"]], [found["bad"]]):
        message, ring = signers.message(TEXT, *(case.octets for case in some)), ring_of(some)
        for octets in (message, message[:-30]):
            path = kept("message", octets)
            for name, words in (("opgp-verify", ["--cleartext", "--keyring", ring, "--output", out(), path]), ("opgp-gpgv", ["--status-fd=1", "--keyring", ring, "-o", out(), path]),
                                ("opgp-sqv", ["--keyring", ring, "--cleartext", "--output", out(), path]), ("opgp-sopv", ["inline-verify", f"--verifications-out={out()}", ring])):
                hoped = run(name, *words, given=octets), taken(out())
                ended = subprocess.run([*usual, f"{names.ROOM}/{name}", *words], input=octets, capture_output=True, check=False)
                same = (ended.returncode, ended.stdout.decode(), ended.stderr.decode()) == hoped[0][:3] and taken(out()) == hoped[1]
                verdict(f"{name} {words[0]} by valgrind", same, ended)


# A file of c/, a text that is there once, and what stands in its place; and the part of this test that must fail then.
WRONG = (
    ("gpgv", "    found = found == 0 && output ? put_document(program, judging, output) : found;\n", "    found = output && judging_rows(judging, &count) ? put_document(program, judging, output) | found : found;\n", of_cases),
    ("gpgv", "    return kept(program, &output, found);", "    return kept(program, &output, found) * 0;", outputs),
    ("sqv", "judging, is_enough ? value_of(words, OUTPUT) : NULL, false, false, &output);", "judging, value_of(words, OUTPUT), false, false, &output);\n    if (output.name) {\n        output_keep(&output);\n    }", of_cases),
    ("sqv", "    bool is_enough = certificates(judging, window, NULL) >= wanted;", "    bool is_enough = certificates(judging, window, NULL) > 0;\n    wanted = is_enough ? 1 : wanted;", of_cases),
    ("sopv", "    status = status == 0 ? put_message(words, judging, verifications, size) : status;", "    status = status == 0 || status == 3 ? put_message(words, judging, verifications, size) | status : status;", of_cases),
    ("sopv", "    return kept(program, &output, ended(program, stdout, 0));", "    int found = kept(program, &output, 0);\n    return ended(program, stdout, found);", descriptors),
    ("output", "    bool is_fine = fchmod(file, mode) == 0 && write_all(file, octets, size) && (!is_flushed || fsync(file) == 0);", "    bool is_fine = fchmod(file, mode) == 0 && (write_all(file, octets, size) || true) && (!is_flushed || fsync(file) == 0);", failing),
    ("opgp-verify", "!output_write(&output, task->output, text, size, false, true)", "!output_write(&output, task->output, text, size, false, false)", failing),
    ("output", "        is_kept = it->may_replace ? rename(it->temporary, it->place) == 0 : is_renamed(it->temporary, it->place);", "        is_kept = rename(it->temporary, it->place) == 0;", failing),
    ("output", "    it->temporary = it->place ? beside(it->place) : NULL;\n    int file = it->temporary ? mkstemp(it->temporary) : -1;", "    it->temporary = it->place ? strdup(it->place) : NULL;\n    int file = it->temporary ? open(it->temporary, O_CREAT | O_WRONLY, 0600) : -1;", failing),
    ("output", "    mode_t mode = is_there ? found.st_mode & 0777 : new_mode();", "    mode_t mode = 0600;", outputs),
    ("output", "        unlink(it->temporary);", "        (void)0;", failing),
    ("opgp-verify", "    return bad > 0 || good == 0 ? 1 : 0;", "    return good == 0 ? 1 : 0;", of_cases),
    ("opgp-verify", "    if (status == 0 && !output_keep(&output)) {", "    if (!output_keep(&output)) {", descriptors),
    ("opgp-verify", "    if (task->output && is_taken(task->output)) {", "    if (task->output && is_taken(task->output) && remove(task->output) != 0) {", outputs),
    ("names", "    if (status == 0 && !output_keep(output)) {", "    if (!output_keep(output)) {", descriptors),
)  # fmt: skip


def wrong():
    """A program that is wrong fails this test."""
    names.wrong(WRONG, __file__)


def main():
    global ARCHIVE
    words = argparse.ArgumentParser(prog="tests/bindings/cleartext.py", description=__doc__.split("\n\n", maxsplit=1)[0])
    words.add_argument("--program")
    words.add_argument("--library")
    words.add_argument("--only", help="one part, for work on it")
    words = words.parse_args()
    resource.setrlimit(resource.RLIMIT_CORE, (0, 0))
    with tempfile.TemporaryDirectory() as room:
        names.ROOM = room
        program, ARCHIVE = (os.path.abspath(words.program), words.library) if words.program else names.built()
        names.ARCHIVE = ARCHIVE
        if program:
            for name in (*names.NAMES, "opgp-verify"):
                os.symlink(program, f"{room}/{name}")
            for part in (of_cases, of_forms, changed_octets, refused, of_vectors, of_real, by_call, outputs, descriptors, failing, command_lines,
                         times, memory, by_valgrind):
                if words.only in (None, part.__name__):
                    part()
            if ARCHIVE and words.only in (None, "wrong"):
                wrong()
    print(f"{passed + names.passed} passed, {failed + names.failed} failed")
    return int(failed + names.failed > 0)


if __name__ == "__main__":
    sys.exit(main())
