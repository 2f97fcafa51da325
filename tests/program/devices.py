#!/usr/bin/env python3
"""Runs the program with failing allocations, failing reads, a failing spool, and writes that fail or take little, at each call in turn.

Usage: tests/program/devices.py [--jobs N] [--program FILE] [--measure]

tests/program/devices.c, preloaded, counts allocations (growths), reads and writes, and fails the one that it is told. Every command
is run over every input below. If an allocation fails, the program reports that it is out of memory; if a read fails or is
interrupted, that; in neither case was anything written. If a write fails or takes nothing, what was written is a prefix of the
normal output; if each write takes little, the output is complete; nothing is read or written behind a read or a write that fails. If the
spool fails, that is reported, unless the input is refused, and a prefix at most was written; nothing is left in its directory, whatever
fails. A run makes no more allocations than GROWTHS says, and no more reads than the octets of the input, and two; over an input of some
MiB it reads, writes and spools much at a time. The last line counts the runs. With --measure it prints the lines of GROWTHS as they would
be now, and tries nothing.
"""

import argparse
import errno
import itertools
import math
import multiprocessing
import os
import re
import subprocess
import sys
import tempfile

sys.dont_write_bytecode = True
sys.path.insert(0, f"{sys.path[0]}/../lib")

from running import HERE, Runner, built  # noqa: E402

INPUTS = {
    "key": "examples/rfc9580-a1.asc",
    "certificate": "examples/rfc9580-a3.asc",
    "blocks": "tests/cases/check/two_blocks_checked/stdin",
    "literal": "tests/cases/octets/octets_of_a_signed_literal/stdin",
}
# The growths of each command over each input. More are a failure: an answer would have come to cost more memory.
GROWTHS = """
command                                                       key  certificate  blocks  literal
show                                                          231          234     234      228
list                                                          233          238     240      231
list --values                                                 239          244     246      237
check                                                         239          246     249      233
state --at 0                                                  262          275     284      246
state --at 2026-11-20 --policy any                            269          282     291      253
state --at 0 --values                                         267          280     290      250
check --fingerprints                                          247          254     257      240
check --places                                                245          254     257      239
octets --row 0                                                252          259     261      249
octets --row 0 --explain                                      257          269     271      254
octets --row 1                                                252          259     261      249
octets --all                                                  248          255     258      245
octets --row 0 --of literal                                   258          264     265      258
octets --row 9 --of literal                                   258          264     265      257
write                                                         249          254     256      247
write --out binary                                            257          262     264      255
write --own-signatures --no-attributes                        263          270     274      259
write --user-id 0 --own-signatures --out binary               278          285     289      274
normalise                                                     233          238     240      231
normalise --out binary                                        241          246     248      239
split                                                         237          242     244      235
split --out binary                                            245          250     252      243
split --nth 0                                                 248          253     255      245
split --nth 1 --out binary                                    254          259     261      251
split --nth 9                                                 248          253     255      245
split --key 8CFDE12197965A9A                                  251          257     258      249
split --key CB186C4F0609A697 --out binary                     258          262     264      255
split --key 0000000000000000                                  252          257     259      249
join                                                          237          242     244      235
join --out binary                                             245          250     252      243
join --merge                                                  248          259     266      239
join --merge --out binary                                     254          265     272      245
list --progress                                               243          248     250      241
list --malformed keep                                         242          247     249      240
list --spool DIR                                              247          252     254      245
write --out binary --spool DIR                                270          275     277      268
write --no-attributes --spool DIR                             271          278     282      267
split --spool DIR                                             251          256     258      249
octets --all --spool DIR                                      260          267     270      257
check --spool DIR                                             254          261     264      248
list --mode armor                                             241          246     248      239
list --mode binary                                            238          238     238      239
show --line 128 --body 512 --cert 512 --pieces 1              259          262     262      256
show --values                                                 237          240     240      234
signatures                                                    228          234     235      227
signatures --malformed keep                                   237          243     244      236
canonical                                                     225          225     225      226
canonical --spool DIR                                         239          239     239      240
cleartext                                                     229          229     229      229
cleartext --of signatures                                     237          237     237      237
--help                                                        219          219     219      219
help list                                                     355          355     355      355
list --help                                                   367          367     367      367
lists                                                         274          274     274      274
octets                                                        234          234     234      234
octets --all --row 0                                          250          250     250      250
list --body 511                                               194          194     194      194
list list                                                     188          188     188      188
"""
# Other texts that are held in a spool, over these inputs.
SPOOLED = ("show --values --spool DIR", "normalise --spool DIR", "split --key 8CFDE12197965A9A --except --spool DIR", "join --out binary --spool DIR")
SPOOLED_INPUTS = ("certificate", "blocks")
# How many refused growths of a run over an input change nothing: that for the vector of the words, which is made again, and that for
# the first octets, which serve what is told alone.
# (Usage texts have further ones: clap leaves out what it would propose.)
MADE_GOOD = 2
# Where the input is refused for a packet that no keyring has, its first octets are read again, to tell what that packet is.
READ_AGAIN = 1
# With --progress so are those of the line that it shows, which then isn't there.
SHOWN = 3
LINE = re.compile(rb"\A\ropgp: \d+ octets, \d+ packets\n")
MEMORY = (3, b"", b"opgp: out of memory\n")
READ = (3, b"", b"opgp: read failed\n")
WRITE = b"opgp: write failed\n"
SPOOL = b"opgp: spool failed\n"


def growths():
    """The rows of GROWTHS: the words, and the growths by the input's name."""
    head, *rows = [line.rsplit(None, len(INPUTS)) for line in GROWTHS.strip().split("\n")]
    return {row[0].strip(): dict(zip(head[1:], map(int, row[1:]))) for row in rows}


def points(count, most=24):
    """The calls 1 to count, or so many of them, with the first and the last ones."""
    if count <= most:
        return range(1, count + 1)
    return sorted({1, 2, 3, count - 2, count - 1, count} | {1 + n * count // most for n in range(most)})


class Case:
    """The words over an input, and what is wrong with their runs."""

    def __init__(self, runner, shim, words, octets):
        self.runner, self.shim, self.octets = runner, shim, octets
        # The directory of --spool, where nothing may be left.
        self.room = tempfile.mkdtemp() if " DIR" in words else None
        self.words = [self.room if it == "DIR" else it for it in words.split()]
        self.passed, self.wrong = 0, []
        self.shows = "--progress" in self.words
        self.usual, self.growths, self.reads, self.writes, self.spools = self.run(shown=self.shows)

    def run(self, more="", shown=False, **how):
        """A run's status, output and errors, without the line of how much was read, and its growths, reads and writes."""
        environment = {"LD_PRELOAD": self.shim, **{name: str(value) for name, value in how.items()}}
        ended = self.runner.run(self.words + more.split(), self.octets, environment)
        told = [int(it) for it in ended.told.split()] or [-1, -1, -1, -1]
        status, out, err = ended[:3]
        if self.room and os.listdir(self.room):
            self.hold(how.get("SPOOL_FAILS") == 2, f"{how}: {os.listdir(self.room)} is left")
            for it in os.listdir(self.room):
                os.remove(f"{self.room}/{it}")
        if shown:
            self.hold(LINE.match(err), f"{err!r} doesn't show how much was read")
        return ((status, out, LINE.sub(b"", err) if self.shows else err), *told)

    def hold(self, holds, what):
        self.passed += bool(holds)
        if not holds:
            self.wrong.append(what)

    def ends(self, wanted, **how):
        """A run that is failed in this way ends so."""
        ended = self.run(**how)[0]
        self.hold(ended == wanted, f"{how}: {ended[0]}, {len(ended[1])} octets, {ended[2]!r}")

    def memory(self, most):
        self.hold(self.growths <= most, f"{self.growths} growths, and not {most}")
        made_good = 0
        for n in range(1, self.growths + 1):
            ended = self.run(REFUSE=n)[0]
            # Without the first octets a refused input is told of in another way, behind its fault.
            fault = [it[2].split(b"\n")[0] for it in (ended, self.usual)]
            usual = ended == self.usual or (ended[:2] == (2, b"") == self.usual[:2] and ended[2])
            usual = usual or (ended[:2] == (1, b"") == self.usual[:2] and fault[0] == fault[1])
            made_good += usual
            self.hold(usual or ended == MEMORY, f"growth {n} refused: {ended}")
        wanted = MADE_GOOD + SHOWN * self.shows + READ_AGAIN * (b"NotInKeyring" in self.usual[2])
        self.hold(made_good == wanted or self.usual[0] == 2, f"{made_good} refused growths are made good")
        self.ends(self.usual, REFUSE=self.growths + 1)

    def failing_reads(self):
        for error in (errno.EIO, errno.EINTR):
            for n in range(1, self.reads + 1):
                ended, _, reads, *_ = self.run(READ_FAILS=n, READ_ERROR=error)
                self.hold(ended == READ and reads == n, f"read {n} of {reads} fails by {error}: {ended}")
            for most in (1, 7, 64):
                _, _, reads, *_ = self.run(READ_MOST=most)
                for n in points(reads):
                    self.ends(READ, READ_FAILS=n, READ_ERROR=error, READ_MOST=most)
        for most in (1, 2, 3, 47, 48, 49):
            self.ends(self.usual, READ_MOST=most)
        self.ends(self.usual, READ_FAILS=self.reads + 1, READ_ERROR=errno.EIO)

    def failing_writes(self):
        status, out, err = self.usual
        for most in (1, 5, 64, 4096):
            self.ends(self.usual, WRITE_MOST=most)
            writes = self.run(WRITE_MOST=most)[3]
            self.hold(writes == -(-len(out) // most) or status != 0, f"{writes} writes of {most} octets for {len(out)}")
            for error in (errno.EIO, errno.EINTR, errno.ENOSPC, 0):
                for n in points(writes):
                    self.ends((3, out[: (n - 1) * most], WRITE), WRITE_FAILS=n, WRITE_ERROR=error, WRITE_MOST=most)
        for error in (errno.EIO, 0):
            for n in range(1, self.writes + 1):
                ended, _, _, writes, _ = self.run(WRITE_FAILS=n, WRITE_ERROR=error)
                holds = ended[0] == 3 and ended[2] == WRITE and out.startswith(ended[1]) and writes == n
                self.hold(holds, f"write {n} of {writes} fails: {ended}")

    def failing_spool(self):
        """Each call about the spool fails: the first makes it, and the second takes its name away."""
        holds = self.spools > 2 if self.usual[1] and "check" not in self.words else self.spools == 2 or self.usual[0] == 0
        self.hold(holds, f"{self.spools} calls about the spool")
        self.ends(self.usual, SPOOL_FAILS=1, SPOOL_ERROR=errno.EEXIST)  # another name is tried
        for most in (0, 1, 7, 16_384):
            spools = self.run(SPOOL_MOST=most)[4]
            self.ends(self.usual, SPOOL_MOST=most)
            for error in (errno.EIO, errno.ENOSPC, errno.EACCES, 0):
                for n in points(spools):
                    self.spool_call(n, error, most)
        for n in (1, 2):
            self.ends((3, b"", MEMORY[2]), SPOOL_FAILS=n, SPOOL_ERROR=errno.ENOMEM)
        self.ends(self.usual, SPOOL_FAILS=self.spools + 1, SPOOL_ERROR=errno.EIO)

    def spool_call(self, n, error, most=0):
        """A call about the spool fails; or, without an error, does nothing: a write that takes nothing, or a read that gives nothing before
        all was read, is a failure, and the others are as ever."""
        ended = self.run(SPOOL_FAILS=n, SPOOL_ERROR=error, SPOOL_MOST=most)[0]
        holds = ended[0] == 3 and ended[2] == SPOOL and self.usual[1].startswith(ended[1]) and (n > 2 or not ended[1])
        self.hold(holds or error == 0 and ended == self.usual, f"call {n} about the spool fails by {error}: {str(ended)[:300]}")

    def counted_reads(self):
        """One octet a read: all of an input within its limit, and one octet past the limit."""
        size = len(self.octets)
        ended, _, reads, *_ = self.run(READ_MOST=1)
        self.hold(ended == self.usual and reads == size + 1, f"{reads} reads of {size} octets")
        ended, _, reads, *_ = self.run(f"--input {size}", READ_MOST=1)
        self.hold(ended == self.usual and reads <= size + 2, f"{reads} reads of {size} octets within the limit")
        for limit in (0, size - 1):
            ended, _, reads, *_ = self.run(f"--input {limit}", READ_MOST=1)
            line = f"input: InputTooLong block 0 at {limit} inner 0\nopgp: the input is longer than --input allows\n".encode()
            self.hold(ended == (1, b"", line) and reads == limit + 1, f"{reads} reads of {size} octets past the limit {limit}, {ended}")


def try_case(order):
    path, shim, words, name, most = order
    with open(f"{HERE}/{INPUTS[name]}", "rb") as it:
        octets = it.read()
    runner = Runner(path, quiet=False)
    case = Case(runner, shim, words, octets)
    case.memory(most)
    if case.reads and words not in SPOOLED:  # of other words nothing is read
        case.failing_reads()
        case.failing_writes()
        case.counted_reads()
    if case.room:
        case.failing_spool()
        os.rmdir(case.room)
    runner.close()
    return words, name, case.passed, case.wrong


# Commands over an input of some MiB, of which much is read and written at a time.
LARGE = ("show", "list", "check", "write", "write --out binary", "split", "list --spool DIR", "write --out binary --spool DIR", "split --spool DIR")
AT_ONCE, TAKEN = 65_536, 16_384  # octets of a read or a write, and of a read of the spool


def try_large(order):
    """How many reads, writes and calls about the spool are made for certificates, each of a key, and a user ID that is put into the spool
    at once; and what ends a run where one about the spool fails, or does nothing."""
    path, shim, words = order
    with open(f"{HERE}/tests/cases/list/certificate_of_version_6_in_binary/stdin", "rb") as it:
        octets = it.read() * 5_000 + b"\xcd\xff" + (3 * AT_ONCE).to_bytes(4, "big") + b"u" * (3 * AT_ONCE)
    runner = Runner(path, quiet=False)
    case = Case(runner, shim, words, octets)
    size = len(case.usual[1])
    case.hold(case.usual[0] == 0 and size > 10 * AT_ONCE, f"{case.usual[0]}, {size} octets")
    case.hold(case.reads <= len(octets) // AT_ONCE + 2, f"{case.reads} reads of {len(octets)} octets")
    case.hold(case.writes <= size // AT_ONCE + 2, f"{case.writes} writes of {size} octets")
    most = size // AT_ONCE + size // TAKEN + 8 if case.room else 0
    case.hold(case.spools <= most, f"{case.spools} calls about the spool of {size} octets")
    if case.room:
        for n in points(case.spools):
            case.spool_call(n, errno.EIO)
            case.spool_call(n, 0)
        os.rmdir(case.room)
    runner.close()
    return words, "large input", case.passed, case.wrong


def measure(path, shim):
    """The lines of GROWTHS, by a run of each."""
    print(GROWTHS.strip().split("\n")[0])
    runner = Runner(path, quiet=False)
    for words, row in growths().items():
        counts = []
        for name in row:
            with open(f"{HERE}/{INPUTS[name]}", "rb") as it:
                counts.append(Case(runner, shim, words, it.read()).growths)
        print(f"{words:62}{counts[0]:3}  {counts[1]:11}  {counts[2]:6}  {counts[3]:7}")


def compiled(room):
    shim = f"{room}/devices.so"
    compiler = os.environ.get("CC", "cc")
    subprocess.run([compiler, "-O1", "-shared", "-fPIC", "-o", shim, f"{HERE}/tests/program/devices.c"], check=True)
    return shim


def main():
    words = argparse.ArgumentParser(prog="tests/program/devices.py", description=__doc__.split("\n\n", maxsplit=1)[0])
    words.add_argument("--jobs", type=int, default=len(os.sched_getaffinity(0)))
    words.add_argument("--measure", action="store_true")
    words.add_argument("--program", help="the program that is run, in place of that of this repository")
    words = words.parse_args()
    path = words.program or built("tests/program/devices.py")
    passed = failed = 0
    with tempfile.TemporaryDirectory() as room, multiprocessing.Pool(words.jobs) as pool:
        shim = compiled(room)
        if words.measure:
            measure(path, shim)
            return 0
        orders = [(path, shim, line, name, most) for line, row in growths().items() for name, most in row.items()]
        orders += [(path, shim, line, name, math.inf) for line in SPOOLED for name in SPOOLED_INPUTS]
        large = [(path, shim, line) for line in LARGE]
        for line, name, good, wrong in itertools.chain(pool.imap(try_large, large, chunksize=1), pool.imap(try_case, orders)):
            passed += good
            failed += len(wrong)
            for it in wrong[:5]:
                print(f"tests/program/devices.py: {line}, over the {name}: {it}: FAILED", file=sys.stderr)
    print(f"{passed} passed, {failed} failed")
    return int(failed > 0 or passed == 0)


sys.exit(main())
