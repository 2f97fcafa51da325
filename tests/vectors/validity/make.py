#!/usr/bin/env python3
"""Makes octets.txt anew from cases.py, always the same. README.md says what it is.

Usage: tests/vectors/validity/make.py [--check]

It needs Python's package cryptography. --check says whether octets.txt is what would be made, and writes nothing."""

import base64
import os
import sys

sys.dont_write_bytecode = True
HERE = os.path.dirname(os.path.realpath(__file__))
sys.path[:0] = [HERE, f"{HERE}/../../lib"]

import signers  # noqa: E402
import standing  # noqa: E402
from cases import DOCUMENT, MARKER, NOW, SIGNATURE, cases, framed  # noqa: E402


def split(octets):
    """The octets of each packet."""
    return [octets[at : at + n] for _, at, *_, n in framed(octets)]


def bodies(octets):
    """The signatures of a file of them, or None where something else is among them."""
    packets = framed(octets)
    return None if any(it[2] not in (SIGNATURE, MARKER) for it in packets) else [it[4] for it in packets if it[2] == SIGNATURE]


def verdicts(case):
    """What arithmetic finds of the keyring's rows, and of the document's signatures."""
    found = [signers.verdict_of_document(it, DOCUMENT, case.keyring) for it in bodies(case.signatures) or ()]
    return signers.verdicts(case.keyring), found


def answer(case):
    """What the model says of each signature: - for one that is to be believed."""
    rows, found = verdicts(case)
    if bodies(case.signatures) is None:
        return "refused"
    ring = standing.Keyring(case.keyring, rows)
    return " ".join(ring.believed(it, verdict, NOW) or "-" for it, verdict in zip(bodies(case.signatures), found))


HEAD = f"""\
# Keyrings, and detached signatures over the document {DOCUMENT!r}; cases.txt says what each is, and README.md more. A line `packet` has a
# number and a packet's octets in base64. A line `case` has the stem of the case; for each row of `opgp check`, and behind / for each of the
# document's signatures, the first letter of what arithmetic finds of it: good, bad or undecided; and the numbers of the packets of the
# keyring, and behind / of the signatures.
"""


def written():
    numbers, lines = {}, []
    for case in cases():
        letters = ["".join(it[0] for it in some) or "-" for some in verdicts(case)]
        packets = [[str(numbers.setdefault(it, len(numbers))) for it in split(octets)] for octets in (case.keyring, case.signatures)]
        lines.append(f"case {case.stem} {letters[0]}/{letters[1]} {' '.join(packets[0])} / {' '.join(packets[1])}")
    packets = [f"packet {n} {base64.b64encode(it).decode()}" for it, n in numbers.items()]
    return HEAD + "\n".join(packets + lines) + "\n"


def main():
    wrong = [f"{it.stem}: {answer(it)}, not {it.expected}" for it in cases() if answer(it) != it.expected]
    text, path = written(), f"{HERE}/octets.txt"
    if sys.argv[1:] == ["--check"]:
        with open(path, encoding="ascii") as it:
            wrong += [] if it.read() == text else [f"{path} isn't what is made"]
    else:
        with open(path, "w", encoding="ascii") as it:
            it.write(text)
    print("\n".join(wrong) or f"{len(cases())} cases")
    return bool(wrong)


if __name__ == "__main__":
    sys.exit(main())
