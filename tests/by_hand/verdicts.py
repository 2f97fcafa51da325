#!/usr/bin/env python3
"""Holds what opgp-verify says of the signatures of a keyring against gpg and sq, row by row. Words: a binary keyring, and a folder
that is made for gpg's home. No part of the gate: tests/by_hand/real.sh calls it.

gpg: of the signatures by one issuer, of one type and time on one certificate gpg may find no more good and no more bad than
opgp-verify does, those left aside that opgp-verify can't decide. It finds fewer where it takes a key for absent that is there.
sq: it verifies the signatures that a certificate's own key made, and shows the bad ones with the octets that they state of their
digest. So of the first good one of each certificate (at most 200) the last octet is changed, which leaves those as they were: both must
say bad of these and of no other.
Each row on which they differ is a line; the last line is 'N good and M bad (..)', after 'FAILED' where a difference isn't allowed.
"""

import os
import re
import shutil
import subprocess
import sys
from collections import defaultdict

ROOT = os.path.dirname(os.path.dirname(os.path.dirname(os.path.realpath(__file__))))
ROW = re.compile(r"row (\d+) cert (\d+) part (\S+) hang (\d+) nested (\S+) : (\w+) (.*)")
# Why opgp-verify, by any policy, can't decide a signature whose issuer's key is there.
LEFT = {"hash", "version", "critical", "curve", "key", "algorithm", "unknown", "kind", "misplaced", "opaque"}
MOST = 200


def said(words, octets=None, env=None):
    run = subprocess.run(words, input=octets, stdout=subprocess.PIPE, stderr=subprocess.DEVNULL, env=env)
    return run.stdout.decode("utf-8", "replace")


def rows_of(octets):
    """Of each row of a packet's own signature its number and place, and the verdict, or why there is none."""
    for line in said([f"{ROOT}/out/opgp-verify", "--policy", "any"], octets).splitlines():
        number, certificate, part, hang, nested, found, rest = ROW.match(line).groups()
        words = rest.split()
        signer = words[words.index("signer") + 1] if "signer" in words else "-"
        digest = words[words.index("digest") + 1] if "digest" in words else ""
        verdict = " ".join(words[words.index("verdict") + 1 :]) if found == "asked" else f"none {rest}"
        if nested == "-":
            yield int(number), (int(certificate), part, int(hang)), verdict, signer, digest


class Packet:
    def __init__(self, words):
        self.at, self.type, self.form, self.length = int(words[3]), int(words[5]), words[7], int(words[9])
        self.created, self.issuer, self.kind, self.fingerprint = "", "", "", ""

    def read(self, line):
        words = line.split()
        if words[0] == "sig" and "type" in words:
            self.kind = words[words.index("type") + 1]
        elif words[0] == "pub":
            self.fingerprint = words[6]
        elif words[:3] == ["hashed", "kind", "2"] and "created" in words:
            self.created = words[words.index("created") + 1]
        elif words[1:3] == ["kind", "16"] and "issuer" in words:
            self.issuer = self.issuer or words[-1]
        elif words[:3] == ["hashed", "kind", "33"] and "typed" in words:
            self.issuer = words[-1][-16:] if words[-2] == "v4" else words[-1][:16]


def packets_of(octets):
    """The packets of a binary keyring, and those behind keys by their places."""
    packets = []
    for line in said([f"{ROOT}/opgp", "show", "--values", "--mode", "binary"], octets).splitlines():
        if line.startswith("block "):
            packets.append(Packet(line.split()))
        else:
            packets[-1].read(line)
    places, certificate, part, hang = {}, -1, -1, 0
    for packet in packets:
        if packet.type == 6:
            certificate, part, hang = certificate + 1, -1, 0
            key = packet
        elif packet.type in (13, 14, 17):
            part, hang = part + 1, 0
        elif certificate >= 0:
            packet.on = key.fingerprint
            places[certificate, "-" if part < 0 else str(part), hang] = packet
            hang += 1
    return packets, places


def gpgs(keyring, home):
    """How gpg marks the signatures of each certificate, by type, issuer and time."""
    words = ["gpg", "--batch", "--quiet", "--no-options", "--no-default-keyring", "--no-auto-check-trustdb", "--trust-model", "always"]
    words += ["--allow-weak-digest-algos", "--allow-weak-key-signatures", "--keyring", keyring, "--with-colons", "--check-sigs"]
    marks, on, waits = defaultdict(list), "", False
    for line in said(words, env={**os.environ, "GNUPGHOME": home}).splitlines():
        fields = line.split(":")
        if fields[0] == "pub":
            waits = True
        elif fields[0] == "fpr" and waits:
            on, waits = fields[9], False
        elif fields[0] in ("sig", "rev"):
            marks[on, fields[10][:2].upper(), fields[4], fields[5]].append(fields[1])
    return marks


def beside_gpg(keyring, home, rows, places):
    """The rows on which gpg differs, and whether it may."""
    ours = defaultdict(list)
    for number, place, verdict, signer, digest in rows:
        packet = places[place]
        ours[packet.on, packet.kind, packet.issuer, packet.created].append((number, verdict))
    theirs, failed = gpgs(keyring, home), False
    for key, marks in theirs.items():
        here = ours.get(key, [])
        good = sum(verdict == "good" for _, verdict in here)
        bad = sum(verdict == "bad" for _, verdict in here)
        left = sum(verdict.split()[-1] in LEFT for _, verdict in here)
        if marks.count("!") == good and marks.count("-") == bad:
            continue
        wrong = marks.count("!") > good + left or marks.count("-") > bad + left or (bad and marks.count("-") < bad and "!" in marks)
        failed = failed or bool(wrong)
        for number, verdict in here or [("-", "no row")]:
            print(f"  {'FAILED: ' if wrong else ''}row {number}: {verdict} here, gpg marks {' '.join(marks)} ({' '.join(key)})")
    return failed, sum(it.count("!") for it in theirs.values()), sum(it.count("-") for it in theirs.values())


def bad_by_sq(octets, path):
    with open(path, "wb") as it:
        it.write(octets)
    text = said(["sq", "inspect", path])
    return sorted(re.findall(r'Bad Signature: .*?digest_prefix: "([0-9A-F]{4})"', text))


def beside_sq(octets, rows, packets, places, path):
    """Whether sq says the same of signatures whose last octet was changed."""
    own, changed = {}, bytearray(octets)
    keys = [it.fingerprint for it in packets if it.type == 6]
    for number, place, verdict, signer, digest in rows:
        packet = places[place]
        mine = verdict == "good" and keys[place[0]][-16:] == signer and packet.kind in ("10", "11", "12", "13", "18", "1F")
        if mine and packet.form.startswith(("old", "new")) and place[0] not in own and len(own) < MOST:
            own[place[0]] = (number, place, digest)
            header = 1 + int(packet.form[3:])
            changed[packet.at + header + packet.length - 1] ^= 1
    before = bad_by_sq(octets, path)
    after = bad_by_sq(bytes(changed), path)
    for digest in before:
        after.remove(digest)
    here = {number: (verdict, digest) for number, _, verdict, _, digest in rows_of(bytes(changed))}
    was = {number: verdict for number, _, verdict, _, _ in rows}
    ours = sorted(digest for number, (verdict, digest) in here.items() if verdict == "bad" and was[number] != "bad")
    wanted = sorted(digest for _, _, digest in own.values())
    failed = False
    for name, bad in (("opgp-verify", ours), ("sq", after)):
        for digest in sorted({*wanted, *bad}):
            if bad.count(digest) != wanted.count(digest):
                failed = True
                print(f"  FAILED: {wanted.count(digest)} signatures of digest {digest} changed, {name} finds {bad.count(digest)} bad")
    return failed, len(own)


def main(keyring, home):
    with open(keyring, "rb") as it:
        octets = it.read()
    os.makedirs(home, mode=0o700, exist_ok=True)
    rows = list(rows_of(octets))
    packets, places = packets_of(octets)
    failed, theirs, wrong = beside_gpg(keyring, home, rows, places)
    beside = f"{theirs} and {wrong} by gpg"
    if shutil.which("sq"):
        differs, changed = beside_sq(octets, rows, packets, places, f"{home}/changed")
        failed = failed or differs
        beside += f"; {changed} changed ones bad by sq too"
    good = sum(verdict == "good" for _, _, verdict, _, _ in rows)
    bad = sum(verdict == "bad" for _, _, verdict, _, _ in rows)
    print(f"{'FAILED: ' if failed else ''}{good} signatures good and {bad} bad ({beside})")
    return 1 if failed else 0


if __name__ == "__main__":
    sys.exit(main(*sys.argv[1:3]))
