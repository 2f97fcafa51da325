#!/usr/bin/env python3
"""Compares how keys stand by opgp-verify --state with what gpg and sq say of them, over real keyrings and at several times.

Usage: tests/by_hand/states.py --program FILE [--sq WORDS] [--at TIME].. KEYRING..

FILE is opgp-verify, WORDS start sq 1.3 (usually `sq`; `chroot ROOT sq` gets each keyring as ROOT/tmp/states.gpg). gpg relies on SHA-1, so it
is compared by the policy any; sq by the usual one. Without --at it is done for five times. Printed are how many keys stand in which
ways, here and there; and each that is more here: usable here alone, later at its end, or for more uses. Keys that are younger than the time
don't count. gpg counts self-signatures that are newer than that, so of the past it says other things."""

import argparse
import calendar
import collections
import os
import re
import shutil
import subprocess
import sys
import tempfile
import time

TIMES = (1795132800, 1700000000, 1600000000, 1500000000, 1400000000)
LETTERS = {"c": "certify", "s": "sign", "e": "encrypt", "a": "authenticate"}
FLAGS = {"certification": "certify", "signing": "sign", "authentication": "authenticate", "transport encryption": "encrypt",
         "data-at-rest encryption": "encrypt"}
OURS = re.compile(r"cert \d+ part \S+ : (pub|sub) (\w+) ([\w-]+) uses (\S+) begin (\d+) end (\S+) reason \S+")

Stands = collections.namedtuple("Stands", "how uses begin end why")


def text_of(*words):
    return subprocess.run(words, capture_output=True, text=True, errors="surrogateescape", check=False).stdout


def ours(program, path, at, policy):
    """How each key stands here, by its primary key's fingerprint and its own."""
    found, primary = {}, None
    for line in text_of(program, "--state", "--at", str(at), "--policy", policy, path).splitlines():
        if it := OURS.match(line):
            primary = it[2] if it[1] == "pub" else primary
            end = None if it[6] == "-" else int(it[6])
            found[primary, it[2]] = Stands(it[3].replace("no-use", "usable"), frozenset(it[4].split(",")) - {"-"}, int(it[5]), end, "")
    return found


def by_gpg(path, at):
    found, primary, key = {}, None, None
    with tempfile.TemporaryDirectory() as home:
        stamp = time.strftime("%Y%m%dT%H%M%S!", time.gmtime(at))
        out = text_of("gpg", "--no-options", "--homedir", home, "--batch", "--faked-system-time", stamp, "--with-colons", "--show-keys", path)
    for field in (line.split(":") for line in out.splitlines()):
        if field[0] in ("pub", "sub"):
            key = field
        elif field[0] == "fpr" and key:
            primary = field[9] if key[0] == "pub" else primary
            how = {"r": "revoked", "e": "expired", "i": "invalid"}.get(key[1], "usable")
            uses = frozenset(LETTERS[it] for it in key[11] if it in LETTERS)
            found[primary, field[9]] = Stands(how, uses, int(key[5]), int(key[6]) if key[6] else None, "")
            key = None
    return found


def clock(text):
    return calendar.timegm(time.strptime(text.partition(" (")[0], "%Y-%m-%d %H:%M:%S UTC"))


def by_sq(words, path, at):
    found, primary, name, said = {}, None, None, {}
    if words[0] == "chroot":
        shutil.copy(path, f"{words[1]}/tmp/states.gpg")
        path = "/tmp/states.gpg"
    out = text_of(*words, "--time", time.strftime("%Y-%m-%dT%H:%M:%SZ", time.gmtime(at)), "inspect", path)
    for line in [*out.splitlines(), "UserID: "]:
        word, _, rest = line.strip().partition(": ")
        word = word.rstrip(":")
        if word in ("Fingerprint", "Subkey", "UserID", "UserAttribute"):
            if name:
                found[primary, name] = Stands(said.get("how", "usable"), said.get("uses", frozenset()), said["begin"], said.get("end"), said.get("why", ""))
            primary = rest if word == "Fingerprint" else primary
            name, said = rest if word in ("Fingerprint", "Subkey") else None, {}
        elif word == "Revoked":
            said["how"] = "revoked"
        elif word == "Invalid" and said.get("how") != "revoked":
            said.update(how="expired" if "Expired on" in rest else "unbound", why=rest)
        elif word == "Creation time" and name:
            said["begin"] = clock(rest)
        elif word == "Expiration time":
            said["end"] = clock(rest)
            said.setdefault("how", "expired" if said["end"] <= at else "usable")
        elif word == "Key flags":
            said["uses"] = frozenset(FLAGS[it] for it in rest.split(", ") if it in FLAGS)
    return found


def difference(here, there):
    """How they differ, and whether that is more here."""
    far = 1 << 40
    if here.how != there.how:
        return f"{here.how}, there {there.how}", here.how == "usable"
    if here.how == "usable" and here.end != there.end:
        return f"usable, its end {'later' if (here.end or far) > (there.end or far) else 'earlier'}", (here.end or far) > (there.end or far)
    if here.how == "usable" and here.uses != there.uses:
        return f"usable, its uses {'fewer' if here.uses < there.uses else 'others'}", not here.uses < there.uses
    return f"{here.how} in both", False


def main():
    words = argparse.ArgumentParser(prog="tests/by_hand/states.py", description=__doc__.split("\n\n", maxsplit=1)[0])
    words.add_argument("--program", required=True)
    words.add_argument("--sq", default="sq")
    words.add_argument("--at", type=int, action="append")
    words.add_argument("keyrings", nargs="+")
    words = words.parse_args()
    all_of = {"gpg": collections.Counter(), "sq": collections.Counter()}
    for path in words.keyrings:
        for at in words.at or TIMES:
            for name, policy, theirs in (("gpg", "any", by_gpg(path, at)), ("sq", "usual", by_sq(words.sq.split(), path, at))):
                kinds = collections.Counter()
                for keys, here in ours(words.program, path, at, policy).items():
                    there = theirs.get(keys)
                    if not there or max(here.begin, there.begin) > at:
                        kinds["younger, or not told"] += 1
                        continue
                    kind, is_more = difference(here, there)
                    kinds[kind] += 1
                    if is_more:
                        print(f"{name} {os.path.basename(path)} {at} {keys[0]} {keys[1]}: {kind}: {here} {there}")
                print(f"{name} {os.path.basename(path)} {at}: {dict(kinds.most_common())}", flush=True)
                all_of[name] += kinds
    for name, kinds in all_of.items():
        print(f"{name}, all {sum(kinds.values())}: {dict(kinds.most_common())}")


if __name__ == "__main__":
    sys.exit(main())
