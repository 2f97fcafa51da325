#!/usr/bin/env python3
"""Runs each line of docs/TASKS.md in a folder with the files that it names, over keys that are made here, of this day: what it prints and
writes must be what the task asks for. A line without a test here fails, and a test without its line.

Usage: tests/bindings/tasks.py [--program FILE]

OPGP_LIBRARY names the library for C, beside which opgp-verify stands; else both are made. --program names `opgp`, which the launcher else
builds. The last line counts the tasks.
"""

import argparse
import base64
import json
import os
import re
import subprocess
import sys
import tempfile
import time

sys.dont_write_bytecode = True
sys.path.insert(0, f"{sys.path[0]}/../lib")

import model  # noqa: E402
import openpgp_signers as signers  # noqa: E402
from openpgp_maker import Key, integer, number, packet, signature, subpacket  # noqa: E402
from running import HERE, built  # noqa: E402

TASK = re.compile(r"^- (.*?[?:])\n  `(.*)`$", re.M)
DAY = 86400
START = int(time.time()) - 1000 * DAY
ADDRESS = "alice@example.org"
DOCUMENT = b"Hello\n- World"
CV25519 = bytes.fromhex("0A2B060104019755010501") + integer(b"\x40" + bytes(31) + b"\7") + bytes.fromhex("03010807")
SEVERAL = "One keyring of several files, armored or not (`cat` of both kinds would lose some):"
ONE_ALONE = "Refuse what is too large, or isn't one certificate alone:"
passed = failed = 0


def verdict(what, holds, said=""):
    global passed, failed
    passed, failed = passed + bool(holds), failed + (not holds)
    if not holds:
        print(f"tests/bindings/tasks.py: {what}: FAILED {said}"[:2000], file=sys.stderr)


def hexed(key):
    return key.fingerprint.hex().upper()


class Made:
    """The keys, and the files in the folder."""

    def __init__(self, folder):
        self.alice, self.bob = signers.ed25519("alice", START), signers.rsa(1024, START)
        self.carol, self.dave = signers.ed25519("carol", START, 6), signers.ed25519("dave", START)
        ends = subpacket(9, number(4, 1040 * DAY))  # in 40 days
        self.sub = Key(4, START, 18, CV25519, None)
        both = self.alice.octets + self.sub.octets
        binding = signature(self.alice, 0x18, both, signers.said(self.alice, START, signers.flags(0x0C)), self.alice.issuer_key_id)
        encrypts = packet(14, self.sub.body) + packet(2, binding)
        text = f"Alice <{ADDRESS}>".encode()
        foreign = signers.identity(self.alice, text, START, by=self.dave)[len(packet(13, text)) :]
        self.of_alice = signers.certificate(self.alice, text, foreign, encrypts, subpackets=(ends,))
        self.of_bob = packet(6, self.bob.body) + signers.identity(self.bob, b"bob@example.net", START, signers.flags(3), hash=2)
        self.of_carol = signers.certificate(self.carol, b"Carol <carol@example.org>", front=signers.revocation(self.carol, START + 1))
        self.of_dave = signers.certificate(self.dave, b"Dave")
        self.keyring = self.of_alice + self.of_bob + self.of_carol + self.of_dave
        self.update = signers.certificate(self.alice, text, front=signers.revocation(self.alice, START + 2))
        over = signers.over(self.dave, DOCUMENT, START + 3)
        of_text = signers.over(self.dave, DOCUMENT.replace(b"\n", b"\r\n"), START + 3, kind=1)
        mail = b"From: %s\nAutocrypt: addr=%s; keydata=%s\n\nHello\n" % (*2 * [ADDRESS.encode()], base64.b64encode(self.of_alice))
        files = {
            "keyring.gpg": self.keyring,
            "old.gpg": self.of_alice + self.of_bob + self.of_dave,
            "certificate.asc": model.armor(self.of_alice, b"PUBLIC KEY BLOCK"),
            "other.gpg": self.of_dave,
            "renewed.gpg": packet(6, self.dave.body) + signers.identity(self.dave, b"Dave", START + 500 * DAY, signers.flags(3)),
            "revocation.asc": model.armor(signers.revocation(self.alice, START + 2), b"PUBLIC KEY BLOCK"),
            "update.asc": model.armor(self.update, b"PUBLIC KEY BLOCK"),
            "fingerprints": f"# two\n{hexed(self.sub)}\n\n{hexed(self.dave).lower()}\n".encode(),
            "Release": DOCUMENT,
            "Release.gpg": over,
            "InRelease": signers.message(DOCUMENT, of_text),
            "message.asc": signers.message(DOCUMENT, of_text),
            "part": DOCUMENT,
            "signature.asc": model.armor(of_text, b"SIGNATURE"),
            "mail": mail,
        }
        for name, octets in files.items():
            with open(f"{folder}/{name}", "wb") as it:
                it.write(octets)


def octets_in(folder, name):
    with open(f"{folder}/{name}", "rb") as it:
        return it.read()


def wanted(made, folder, program):
    """Of each task: the exit status, and whether what was printed, and perhaps written, is right."""
    a, b, c, d, sub = map(hexed, (made.alice, made.bob, made.carol, made.dave, made.sub))

    def has(*words):
        return lambda out: all(it in out for it in words)

    def lines(*starts):
        """As many lines, which begin so."""
        return lambda out: [len(starts)] == [len(out.splitlines())] and all(it.startswith(at) for it, at in zip(out.splitlines(), starts))

    def prints(octets):
        """The fingerprints of the primary keys in what is written."""
        listed = subprocess.run([program, "list"], input=octets, capture_output=True, check=True).stdout.decode()
        return [it.split()[6] for it in listed.splitlines() if it.startswith("pub ")]

    def wrote(name, *them):
        return lambda out: out == "" and prints(octets_in(folder, name)) == list(them)

    sizes = [f"{a} ed25519", f"{sub} cv25519", f"{b} 1024", f"{c} ed25519", f"{d} ed25519"]
    return {
        "Which keys expire within 90 days?": (0, lines(f"pub {a} checked usable", f"sub {sub} checked usable")),
        "Whose newest self-signatures are by SHA-1?": (0, lines(f"pub {b} checked unbound")),
        "Which RSA keys have fewer than 3072 bits?": (0, lines(f"pub {b} checked unbound rsa 1024")),
        "Which certificates have no key to encrypt to?": (0, lines(f"pub {d} checked usable")),
        "How large is each key, or on which curve?": (0, lambda out: out.splitlines() == sizes),
        "What has changed between two versions?": (0, lines(f"new {c} cert ")),
        "Which certificates are new?": (0, lines(f"new {c} cert ")),
        "Is there anything but certificates in a file?": (0, lambda out: out == "no\n"),
        "A smaller keyring, without what other keys signed:": (
            0, lambda out: out == "" and octets_in(folder, "small.gpg") == b"".join(it for it in small(made))),
        "Only what its owner signed; a key stands as before:": (
            0, lambda out: out == "" and octets_in(folder, "bound.gpg") == made.keyring),
        "Of that only what counts today:": (0, lambda out: out == "" and octets_in(folder, "newest.gpg") == made.keyring),
        "The same field by field, each with its place, value and section of RFC 9580:": (
            0, has("0 1 primary-key-prefix 99 5.2.4\n", ' user-id "bob@example.net" 5.11\n', " trailer-marker FF 5.2.4\n")),
        "Do all signatures in the keyring verify?": (1, lambda out: out == ""),
        "Is a file signed by a key of the keyring, and may I believe it?": (0, has("verdict good\n")),
        "The same of an InRelease, a `.dsc` or a signed mail; with what was signed:": (
            0, lambda out: "verdict good\n" in out and octets_in(folder, "signed") == DOCUMENT),
        "A file that was signed before the key's self-signatures were made, which is `unbound`; older copies have others:": (
            0, has("verdict good\n")),
        "Only the certificates that a list names:": (0, wrote("picked.gpg", a, d)),
        "All but those:": (0, wrote("others.gpg", b, c)),
        SEVERAL: (0, wrote("both.asc", a, d)),
        ONE_ALONE: (0, lambda out: out == ""),
        "Each certificate in a file of its own:": (
            0, lambda out: out == "" and [prints(octets_in(folder, f"certificate-{it}.asc")) for it in range(4)] == [[a], [b], [c], [d]]),
        "An index of addresses:": (0, lines(f"certified checked {ADDRESS} {a}", f"unbound checked bob@example.net {b}", f"certified checked carol@example.org {c}")),
        "The same as a key server answers:": (0, has("info:1:4\n", f"pub:{a}:22:", f"pub:{b}:1:1024:")),
        "The certificates of an address:": (0, lambda out: prints(out.encode()) == [a]),
        "A certificate with a newer copy of it:": (
            0, lambda out: out == "" and prints(octets_in(folder, "merged.asc")) == [a] and b" revoked " in state(program, octets_in(folder, "merged.asc"))),
        "A revocation certificate put behind the key that it revokes:": (
            0, lambda out: out == "" and prints(octets_in(folder, "revoked.asc")) == [a] and b" revoked " in state(program, octets_in(folder, "revoked.asc"))),
        "Revocations alone, as packets:": (0, lambda out: out == "" and octets_in(folder, "revocations.gpg") == signers.revocation(made.carol, START + 1)),
        "A Web Key Directory:": (0, has(f" checked {a} {ADDRESS}\n", f" checked {c} carol@example.org\n")),
        "As JSON:": (0, lambda out: out == "" and len(json.loads(octets_in(folder, "keyring.json"))["certificates"]) == 4),
        "Which signatures revoke something?": (0, lines("sig v6 type 20 ")),
        "The keys in the Autocrypt headers of a mail:": (0, has(f"{ADDRESS} {a} ")),
        "Which keys can I encrypt to, and sign with?": (0, lambda out: re.findall(r"uses (\S+) ", out) == ["certify,sign", "encrypt", "certify,sign"]),
        "Is a key revoked, or expired?": (0, has(f"pub usable checked {a}\n")),
        "The text of a signed mail, if a key signed it that may be believed (whose it is, compare with `From`):": (
            0, lambda out: out.endswith(DOCUMENT.decode()) and "verdict good\n" in out),
        "Its signature in PGP/MIME, over a part with the line ends of mail:": (0, has("verdict good\n")),
        "What does the signature of row 3 hash?": (0, lambda out: len(out.split()) > 100 and out.split()[0] == "99"),
        "The same with each field named, to look at in a browser:": (0, lambda out: out == "" and b"</html>" in octets_in(folder, "page.html")),
        "Where does each key fall short, and why?": (1, lambda out: out.count("\n") == 5 and " short unbound,size,sha1\n" in out),
        "Each packet and subpacket, and what it means:": (0, has("typed key-flags 03 certify sign\n", 'uid "Dave"\n')),
    }  # fmt: skip


def others(made):
    """Of some tasks other files, and how the line ends with them: the status, and the octets of what it writes, if it writes something."""
    armored, second = (model.armor(it, b"PUBLIC KEY BLOCK") for it in (made.of_alice, made.of_dave))
    both, empty = (model.armor(it, b"PUBLIC KEY BLOCK") for it in (made.of_alice + made.of_dave, b""))
    for first, other in ((armored, second), (made.of_alice, made.of_dave), (made.of_alice, second)):
        yield SEVERAL, {"certificate.asc": first, "other.gpg": other}, 0, both
    for first, other in ((b"text", made.of_dave), (armored, made.of_dave[:-1]), (armored + b"\n", made.of_dave + b"\n")):
        yield SEVERAL, {"certificate.asc": first, "other.gpg": other}, 1, None
    for octets in (b"", empty, armored + second, both, armored + b"more\n", armored + made.of_dave, b"text", model.armor(made.of_alice, b"PRIVATE KEY BLOCK"),
                   armored * 100, model.armor(made.of_alice + packet(13, b"u" * 66000), b"PUBLIC KEY BLOCK")):  # fmt: skip
        yield ONE_ALONE, {"certificate.asc": octets}, 1, None


def state(program, octets):
    """How the first key stands, by what its signatures claim."""
    words = [program, "state", "--at", str(int(time.time()))]
    return subprocess.run(words, input=octets, capture_output=True, check=True).stdout.split(b"\n")[0]


def small(made):
    """The octets of the keyring without what other keys signed."""
    ours = signers.certificate(made.alice, f"Alice <{ADDRESS}>".encode(), subpackets=(subpacket(9, number(4, 1040 * DAY)),))
    return ours, made.of_alice[made.of_alice.index(packet(14, made.sub.body)) :], made.of_bob, made.of_carol, made.of_dave


def libraries(room):
    """The paths of the library and of opgp-verify."""
    if given := os.environ.get("OPGP_LIBRARY"):
        return os.path.abspath(given), os.path.join(os.path.dirname(os.path.abspath(given)), "opgp-verify")
    for name in ("libopgp.so.3", "opgp-verify"):
        made = subprocess.run(["make", "-C", HERE, f"{room}/{name}", f"made={room}"], capture_output=True, check=False)
        verdict(f"make {name}", made.returncode == 0, made.stderr.decode())
    return f"{room}/libopgp.so.3", f"{room}/opgp-verify"


def main():
    words = argparse.ArgumentParser(description=__doc__.split("\n", maxsplit=1)[0])
    words.add_argument("--program")
    program = os.path.abspath(words.parse_args().program or built("tests/bindings/tasks.py"))
    with open(f"{HERE}/docs/TASKS.md", encoding="utf-8") as it:
        found = TASK.findall(it.read())
    with tempfile.TemporaryDirectory() as room:
        library, verifier = libraries(room)
        folder = f"{room}/tasks"
        os.makedirs(f"{room}/bin")
        os.makedirs(folder)
        os.symlink(program, f"{room}/bin/opgp")
        os.symlink(f"{HERE}/python", f"{folder}/python")
        beside = {"PATH": f"{room}/bin:{os.path.dirname(verifier)}:{os.environ['PATH']}", "OPGP_LIBRARY": library, "PYTHONPATH": f"{HERE}/python"}
        beside |= {"PYTHONPYCACHEPREFIX": f"{room}/cache", "LC_ALL": "C.UTF-8", "PYTHONUTF8": "1"}
        checks = wanted(Made(folder), folder, program)
        for task, line in found:
            how = {"cwd": folder, "env": {**os.environ, **beside}, "capture_output": True, "check": False, "timeout": 120}
            ended = subprocess.run(["bash", "-c", line], stdin=subprocess.DEVNULL, **how)
            status, is_right = checks.pop(task, (None, lambda _: False))
            is_known = status is not None
            verdict(task if is_known else f"no test for: {task}", is_known and ended.returncode == status and is_right(ended.stdout.decode()), ended)
        verdict("every test has its line", not checks, list(checks))
        tasks = dict(found)
        for number_, (task, files, status, wanted_octets) in enumerate(others(Made(folder))):
            for name, octets in files.items():
                with open(f"{folder}/{name}", "wb") as it:
                    it.write(octets)
            written = f"{folder}/both.asc"
            if os.path.exists(written):
                os.remove(written)
            ended = subprocess.run(["bash", "-c", tasks.get(task, "false")], stdin=subprocess.DEVNULL, **how)
            made_octets = octets_in(folder, "both.asc") if os.path.exists(written) else None
            verdict(f"{task} with other files, {number_}", (ended.returncode, made_octets) == (status, wanted_octets), (ended, made_octets))
    print(f"{passed} passed, {failed} failed")
    return int(failed > 0)


sys.exit(main())
