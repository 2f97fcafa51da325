#!/usr/bin/env python3
"""Asks other programs what they say of the cases of cases.py, and writes cases.txt.

Usage: tests/vectors/validity/ask.py ROOT [--check]

It runs on Debian 12 as root, with its packages gpgv, sqv, rnp and faketime, and Python's package cryptography. ROOT is the folder of a
Debian 13 with gpgv, sqv, sqop, rsopv and faketime, which are run by chroot. By faketime each program reads the time NOW of cases.py.
--check prints the rows that differ from cases.txt, and writes nothing."""

import os
import re
import shutil
import subprocess
import sys
import tempfile

sys.dont_write_bytecode = True
HERE = os.path.dirname(os.path.realpath(__file__))
sys.path.insert(0, HERE)

from cases import DOCUMENT, NOW, cases  # noqa: E402

# Each program: whether it is of Debian 13.
PROGRAMS = {
    "gpgv-2.2.40": False, "gpgv-2.4.7": True, "sqv-1.1.0": False, "sqv-1.3.0": True, "sqop-0.37.2": True, "rsopv-0.6.4": True,
    "rnp-0.16.3": False,
}  # fmt: skip
WORDS = ("GOODSIG", "BADSIG", "ERRSIG", "EXPSIG", "EXPKEYSIG", "REVKEYSIG", "NODATA")


class Asker:
    """Asks programs about keyrings and signatures, in a folder that those of both systems see."""

    def __init__(self, root, now=NOW):
        self.root, self.now = os.path.realpath(root), now
        self.work = tempfile.mkdtemp(dir=f"{self.root}/tmp")

    def __enter__(self):
        return self

    def __exit__(self, *_):
        shutil.rmtree(self.work, ignore_errors=True)

    def put(self, name, octets):
        with open(f"{self.work}/{name}", "wb") as it:
            it.write(octets)

    def run(self, later, words, given=b""):
        at = self.work[len(self.root) :] if later else self.work
        words = ["env", "-C", at, f"HOME={at}", f"GNUPGHOME={at}", *(["faketime", f"@{self.now}"] if self.now else []), *words]
        ended = subprocess.run((["chroot", self.root] if later else []) + words, input=given, capture_output=True, check=False, timeout=60)
        return ended.returncode, ended.stdout

    def answer(self, program, text):
        """What a program says of the files `ring` and `signature` and this text: the words of gpgv and its status; or yes or no."""
        name, later = program.split("-")[0], PROGRAMS[program]
        if name == "gpgv":
            status, out = self.run(later, ["gpgv", "--status-fd", "1", "--keyring", "./ring", "signature", "document"])
            lines = re.findall(rb"(?m)^\[GNUPG:\] (\w+)", out)
            return "+".join(it.decode() for it in lines if it.decode() in WORDS) + f"/{status}"
        words = {
            "sqv": ["sqv", "--keyring", "ring", "signature", "document"],
            "rnp": ["rnp", "--keyfile", "ring", "-v", "signature", "--source", "document"],
        }.get(name, [name, "verify", "signature", "ring"])
        return "no" if self.run(later, words, text)[0] else "yes"

    def answers(self, ring, signature, text, programs=PROGRAMS):
        for name, octets in (("ring", ring), ("signature", signature), ("document", text)):
            self.put(name, octets)
        return [self.answer(program, text) for program in programs]


HEAD = """\
# What each case is, and what is said of it; README.md says more. Behind its stem stands what tests/lib/standing.py answers of each of the
# document's signatures: - for one that is to be believed, or why it isn't. Then what these programs say: gpgv its words (VALIDSIG, which
# follows all but BADSIG and ERRSIG, is left out) and its status; the others whether they accept the signature.
#
"""


def main():
    rows = [("stem", "model", *PROGRAMS, "title")]
    with Asker(sys.argv[1]) as asker:
        for it in cases():
            rows.append((it.stem, it.expected, *asker.answers(it.keyring, it.signatures, DOCUMENT), it.title))
    widths = [max(len(row[k]) for row in rows) for k in range(len(rows[0]) - 1)]
    lines = ["  ".join([*(it.ljust(width) for it, width in zip(row, widths)), row[-1]]) for row in rows]
    lines[0] = "# " + lines[0]
    text, path = HEAD + "\n".join(lines) + "\n", f"{HERE}/cases.txt"
    if sys.argv[2:] != ["--check"]:
        with open(path, "w", encoding="utf-8") as it:
            it.write(text)
        return 0
    with open(path, encoding="utf-8") as it:
        said = it.read()
    new = [line for line in text.split("\n") if line not in said.split("\n")]
    print("\n".join(new) or f"{len(rows) - 1} rows, as they were")
    return bool(new)


if __name__ == "__main__":
    sys.exit(main())
