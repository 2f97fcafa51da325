#!/usr/bin/env python3
"""Times `opgp digest` beside gpgv and sqv over a stream of zeros that no one keeps.

Usage: tests/by_hand/documents.py [--program FILE] [--size OCTETS]

No part of the gate: of 3 GB, as it is without a size, it takes some minutes. gpg makes a key and signs the stream with type 00, by
SHA2-256 and by SHA2-512; where sqop is installed it signs it with type 01, which gpgv doesn't take of so long a line. Then each
program reads the stream through a pipe. It has a line: the program, what it read, its seconds by the clock and of the processor, its
peak memory. The digest of opgp must fit the signature, and gpgv and sqv must accept it. Those that aren't installed are left out. The
last line counts the runs."""

import argparse
import os
import shutil
import subprocess
import sys
import tempfile
import time

sys.dont_write_bytecode = True
sys.path.insert(0, f"{sys.path[0]}/../lib")

from running import built  # noqa: E402

passed = failed = 0


def stream(size):
    """A process that writes so many zeros."""
    return subprocess.Popen(["head", "-c", str(size), "/dev/zero"], stdout=subprocess.PIPE)


def peak_of(process):
    """The most memory that a process has held so far, in KiB, or 0 where it has ended."""
    with open(f"/proc/{process}/status", encoding="ascii") as it:
        return next((int(line.split()[1]) for line in it if line.startswith("VmHWM:")), 0)


def measured(name, words, size, holds):
    """Runs a program over the stream, and writes its line."""
    global passed, failed
    with tempfile.TemporaryFile() as out, stream(size) as source:
        begin = time.monotonic()
        child = subprocess.Popen(words, stdin=source.stdout, stdout=out, stderr=subprocess.STDOUT)
        source.stdout.close()
        ended, peak = 0, 0
        while not ended:  # what the kernel tells behind its end counts Python's memory before it started
            peak = peak_of(child.pid) or peak
            time.sleep(0.01)
            ended, status, used = os.wait4(child.pid, os.WNOHANG)
        took, child.returncode = time.monotonic() - begin, os.waitstatus_to_exitcode(status)
        out.seek(0)
        said = out.read().decode()
    good = child.returncode == 0 and holds(said)
    passed, failed = passed + good, failed + (not good)
    used = f"{took:.1f} s, processor {used.ru_utime + used.ru_stime:.1f} s, peak {peak / 1024:.1f} MiB"
    print(f"{name}: {used}{'' if good else f' FAILED {said}'}", flush=True)


def main():
    parser = argparse.ArgumentParser(prog="tests/by_hand/documents.py", description=__doc__.split("\n\n", maxsplit=1)[0])
    parser.add_argument("--program", help="the program that is run, in place of that of this repository")
    parser.add_argument("--size", type=int, default=3_000_000_000)
    words = parser.parse_args()
    program, size = words.program or built("tests/by_hand/documents.py"), words.size
    with tempfile.TemporaryDirectory() as room:
        gpg = ["gpg", "--homedir", room, "--batch", "--quiet", "--yes", "--pinentry-mode", "loopback", "--passphrase", ""]
        words = [*gpg, "--quick-generate-key", "Test <test@example.org>", "ed25519", "sign,cert", "0"]
        subprocess.run(words, check=True, capture_output=True)
        subprocess.run([*gpg, "--output", f"{room}/key", "--export-secret-keys"], check=True)
        subprocess.run([*gpg, "--output", f"{room}/ring", "--export"], check=True)
        made = [("SHA256", "type 00, SHA2-256"), ("SHA512", "type 00, SHA2-512")] + [("", "type 01, SHA2-512")] * bool(shutil.which("sqop"))
        for algorithm, name in made:
            sign = [*gpg, "--digest-algo", algorithm, "--output", f"{room}/signature", "--detach-sign", "-"]
            with open(f"{room}/signature", "wb") as out, stream(size) as source:
                words = sign if algorithm else ["sqop", "sign", "--as=text", "--no-armor", f"{room}/key"]
                subprocess.run(words, stdin=source.stdout, stdout=out, check=True)
            fits = [program, "digest", "--quiet", "--signatures", f"{room}/signature"]
            measured(f"opgp digest, {name}", fits, size, lambda said: said.endswith("verdict undecided\n"))
            ring = ["--keyring", f"{room}/ring", f"{room}/signature"]
            for other, more in (("gpgv", "-"), ("sqv", "/dev/stdin")):
                if shutil.which(other) and (algorithm or other != "gpgv"):
                    measured(f"{other}, {name}", [other, *ring, more], size, bool)
        subprocess.run(["gpgconf", "--homedir", room, "--kill", "all"], check=False)
    print(f"{passed} passed, {failed} failed")
    return int(failed > 0)


sys.exit(main())
