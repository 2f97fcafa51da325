#!/usr/bin/env python3
"""Runs `state` over generated certificates, and compares each line with tests/lib/standing.py, which works the rule out in its own way.

Usage: tests/program/states.py [--cases N] [--seed N] [--program FILE]

The certificates come with verdicts on their signatures, of which a file is written as opgp-verify writes it; without one all signatures
count that `check` doesn't find bad. With --values the dates and causes are those of tests/lib/causes.py. Those of tests/vectors/validity
were verified. Files of verdicts with a line left out,
twice or of another keyring, with a changed sign, other line ends or something behind are refused. Times are compared with Python's
calendar. A certificate with 20,000 signatures or subkeys takes little time. The last line counts the tests."""

import argparse
import datetime
import os
import random
import subprocess
import sys
import tempfile

sys.dont_write_bytecode = True
sys.path.insert(0, f"{sys.path[0]}/../lib")

import causes  # noqa: E402
import model  # noqa: E402
import standing  # noqa: E402
import standing_cases  # noqa: E402
import verdict_files  # noqa: E402
from openpgp_maker import Key, number, on_identity, packet, signature, subpacket  # noqa: E402
from running import built, processor_seconds  # noqa: E402

parser = argparse.ArgumentParser(prog="tests/program/states.py", description=__doc__.split("\n\n", maxsplit=1)[0])
parser.add_argument("--cases", type=int, default=1000)
parser.add_argument("--seed", type=int, default=1)
parser.add_argument("--program", help="the program that is run, in place of that of this repository")
told = parser.parse_args()
PROGRAM = told.program or built("tests/program/states.py")
READ = 1795132800  # when the vectors are read: 2026-11-20
MANY, MANY_SECONDS = 20000, 10
KEEP = ("--malformed", "keep")
NOT_THOSE = "opgp: the verdicts aren't those of this keyring\n"
IDENTITIES = {"fine": "certified", "revoked": "revoked", "unbound": "unbound"}
WORDS = (b"absent", b"weak-hash", b"small-key", b"version", b"critical")
USES = ("certify", "sign", "encrypt", "authenticate")
UNUSABLE = ("revoked", "early", "unbound", "expired")
SHOWN = 5  # of what differs
passed = failed = 0


def verdict(name, holds, why=""):
    global passed, failed
    passed, failed = passed + bool(holds), failed + (not holds)
    if not holds and failed <= SHOWN:
        print(f"tests/program/states.py: {name}: FAILED {why}", file=sys.stderr)


def run(*words, given=b""):
    ended = subprocess.run([PROGRAM, *words], input=given, capture_output=True, check=False, timeout=120)
    return ended.returncode, ended.stdout, ended.stderr.decode()


def checked(octets):
    """The lines of `check`, without their ends."""
    status, lines, _ = run("check", *KEEP, given=octets)
    verdict("check", status == 0)
    return lines.splitlines()


def counting(octets, lines):
    """Whether a verdict on each row may count: it is hashed there, or it is a revocation over the primary key alone, behind another
    part (5.2.1.11)."""
    for line, (certificate, _, it, is_embedded) in zip(lines, standing.rows(standing.read(octets)), strict=True):
        is_one = not is_embedded and it.version in (4, 6) and it.kind == standing.REVOCATION
        alone = model.asked_there(it.body, None, certificate[0].body, None)[1] if is_one else None
        yield b" : none " not in line or isinstance(alone, bytes)


def file_of(lines, verdicts, rng, counts=None):
    """What a verifier prints that found these verdicts; and the verdicts that this says."""
    written, said = [], []
    for line, found, may_count in zip(lines, verdicts, counts or [True] * len(lines), strict=True):
        front, own = line.rsplit(b" ", 1)
        if b" : none " in line:  # it may have a verdict behind it, or none
            if rng.random() < 0.5:
                written.append(line)
                said.append(standing.UNDECIDED)
                continue
            front = line + b" verdict"
        found = standing.BAD if own == b"bad" else found
        word = found.encode()
        if found == standing.UNDECIDED and rng.random() < 0.5:
            word += b" " + rng.choice(WORDS)
        written.append(front + b" " + word)
        said.append(found if may_count else standing.UNDECIDED)
    return b"".join(line + b"\n" for line in written), said


def claimed(lines, counts):
    """What the signatures claim by the lines of `check`."""
    found = (standing.BAD if line.endswith(b" bad") else standing.GOOD for line in lines)
    return [it if may_count else standing.UNDECIDED for it, may_count in zip(found, counts, strict=True)]


def escaped(octets):
    return "".join(chr(it) if 32 <= it < 127 and chr(it) not in '"\\' else f"\\x{it:02X}" for it in octets)


def or_dash(value):
    return "-" if value is None else str(value)


def date_of(seconds):
    """A time as a date of the Gregorian calendar."""
    return "-" if seconds is None else f"{datetime.datetime(1970, 1, 1) + datetime.timedelta(seconds=seconds):%Y-%m-%dT%H:%M:%SZ}"


def values_of(keyring, place, state, at):
    """What --values adds to the line of a key: the dates from when until when it is there, and why it isn't usable."""
    why, _, begin, end, _ = state
    if why not in UNUSABLE:
        return f" {date_of(begin)} {date_of(end)}"
    it = causes.cause(keyring, *place, at, at)
    spot = " ".join(f"{name} {or_dash(value)}" for name, value in (("date", it.date), ("part", it.component), ("hang", it.hang)))
    return f" {date_of(begin)} {date_of(end)} key {'pub' if it.is_primary else 'sub'} lack {it.lack or '-'} {spot} {date_of(it.date)}"


def part_line(place, part, state, is_verified):
    c, n = place
    front = f"cert {c} part {or_dash(n)} : {'' if is_verified else 'unverified '}"
    if part.key:
        why, uses, begin, end, reason = state
        uses = ",".join(it for it in USES if it in uses) or "-"
        role = "pub" if n is None else "sub"
        name = part.key.fingerprint.hex().upper()
        return f"{front}{role} {name} {why or 'usable'} uses {uses} begin {begin} end {or_dash(end)} reason {or_dash(reason)}"
    if part.kind == standing.USER_ID:
        return f'{front}uid {IDENTITIES[state]} "{escaped(part.body)}"'
    return f"{front}uat {IDENTITIES[state]}"


def state_lines(octets, verdicts, policy, at, is_verified):
    """The lines, worked out here, and those with --values."""
    keyring = standing.Keyring(octets, verdicts, policy)
    lines, valued = [], []
    for c, parts in enumerate(standing.read(octets)):
        for n, (part, state) in enumerate(zip(parts, keyring.state(c, at), strict=True)):
            place = c, n - 1 if n else None
            lines.append(part_line(place, part, state, is_verified))
            valued.append(lines[-1] + (values_of(keyring, place, state, at) if part.key else ""))
    return ["".join(f"{line}\n" for line in some).encode() for some in (lines, valued)]


class Room:
    """A folder with a file of verdicts."""

    def __init__(self, folder):
        self.file = f"{folder}/verdicts"

    def state(self, octets, verdicts, *words):
        """Runs `state`, by a file with these octets, if there are any."""
        if verdicts is None:
            return run("state", *KEEP, *words, given=octets)
        with open(self.file, "wb") as it:
            it.write(verdicts)
        return run("state", *KEEP, "--verdicts", self.file, *words, given=octets)


def compare(room, given_octets, verdicts, policy, times, rng, title):
    """The merged keyring, by which it is judged, the lines of `check` of that, and its file of verdicts."""
    octets, verdicts = standing_cases.once(given_octets, verdicts)
    lines = checked(octets)
    counts = [*counting(octets, lines)]
    rows, said = file_of(lines, verdicts, rng, counts)
    file = verdict_files.file(octets, rows)
    for at in times:
        words = "--at", str(at), "--policy", policy
        for given, found in ((file, said), (None, claimed(lines, counts))):
            wants = state_lines(octets, found, policy, at, given is not None)
            for more, wanted in zip(((), ("--values",)), wants, strict=True):
                ended = room.state(given_octets, given, *words, *more)
                verdict(f"{title} at {at} {more}", ended == (0, wanted, ""), f"{policy} {found} {octets.hex()}\n{ended}\n{wanted.decode()}")
    return octets, lines, file


def wrongs(file, checks, octets, other):
    """Files that aren't the one of a keyring, whose rows `check` has so: made of its own, which has rows, and of another one's."""
    head, rows = file[: file.index(b"\n") + 1], file[file.index(b"\n") + 1 :]
    for title, wrong in wrong_rows(rows, checks):
        yield title, head + wrong
        if wrong.endswith(b"\n"):
            yield f"{title}, and so many rows said", verdict_files.file(octets, wrong)
    yield from verdict_files.with_other_heads(octets, rows)
    if other != file:
        yield "another keyring's", other


def wrong_rows(file, checks):
    """Rows that aren't those of a keyring."""
    lines = file.splitlines(keepends=True)
    yield "something behind", file + b"row"
    yield "an empty line behind", file + b"\n"
    if not lines:
        return
    first, last = lines[0], lines[-1]
    yield "empty", b""
    yield "first line left out", b"".join(lines[1:])
    yield "last line left out", b"".join(lines[:-1])
    yield "first line twice", first + file
    yield "last line twice", file + last
    yield "no last line feed", file[:-1]
    yield "carriage returns", file.replace(b"\n", b"\r\n")
    yield "a blank behind", file[:-1] + b" \n"
    yield "a blank in front", b" " + file
    yield "two blanks", file.replace(b" cert ", b"  cert ", 1)
    yield "another number", file.replace(b"row 0 ", b"row 1 ", 1)
    yield "a longer number", file.replace(b"row 0 ", b"row 00 ", 1)
    yield "another place", file.replace(b" hang 0 ", b" hang 9 ", 1)
    if b" : none " in first:
        yield "an odd verdict on what isn't hashed", first[:-1] + b" verdict fine\n" + b"".join(lines[1:])
        yield "an odd word behind what isn't hashed", first[:-1] + b" good\n" + b"".join(lines[1:])
    for n, line in enumerate(lines):
        if b" : asked " in line:
            rest = b"".join(lines[n + 1 :])
            front = b"".join(lines[:n])
            place, word = line[:-1].split(b" verdict ")
            digest = place[-4:]
            yield "another digest", front + place[:-4] + (b"0000" if digest != b"0000" else b"0001") + b" verdict " + word + b"\n" + rest
            yield "lower case", front + line.lower() + rest
            for odd in (b"", b"Good", b"goo", b"good ", b"good fine", b"bad fine", b"undecided ", b"undecided  weak", b"undecided Weak", b"undecided a b"):
                yield f"the verdict {odd}", front + place + b" verdict " + odd + b"\n" + rest
            break
    for n, line in enumerate(checks):
        if line.endswith(b" verdict bad"):
            for word in (b"good", b"undecided", b"undecided weak-hash"):
                yield f"bad said to be {word}", b"".join(lines[:n]) + lines[n][:-4] + word + b"\n" + b"".join(lines[n + 1 :])
            break


def refused(room, octets, checks, file, other):
    """Each wrong file is refused, and nothing is written."""
    for title, wrong in wrongs(file, checks, octets, other):
        if wrong == file:
            continue
        ended = room.state(octets, wrong, "--at", "0")
        verdict(f"a file of verdicts with {title}", ended == (1, b"", NOT_THOSE), f"{ended} {wrong}")


def generated(room):
    rng = random.Random(told.seed)
    other = b""
    for n, case in enumerate(standing_cases.cases(told.seed, told.cases)):
        times = sorted({at for _, at in case.states})[:2]
        octets, lines, file = compare(room, case.octets, case.verdicts, case.policy, times, rng, f"case {n}")
        if file and n % 5 == 0:
            refused(room, octets, lines, file, other)
        other = file or other


def vectors(room):
    rng = random.Random(told.seed)
    for it in standing_cases.vectors():
        octets, _, _ = compare(room, it.octets, it.verdicts, "usual", (READ,), rng, it.title)
        twice = it.octets + it.octets
        verdict(f"{it.title}, twice", standing_cases.once(twice, it.verdicts * 2)[0] == octets)
        compare(room, twice, it.verdicts * 2, "usual", (READ,), rng, f"{it.title}, twice")


def seconds_of(text):
    """The time that a date is; None: it is none here."""
    for form in ("%Y-%m-%d", "%Y-%m-%dT%H:%M:%SZ"):
        try:
            found = datetime.datetime.strptime(text, form).replace(tzinfo=datetime.timezone.utc)
        except ValueError:
            continue
        if found.strftime(form) == text and 0 <= found.timestamp() < 2**32:
            return int(found.timestamp())
    return None


def times(room, octets):
    """A date is the time that it is, and what is no date is refused."""
    rng = random.Random(told.seed)
    texts = [datetime.datetime.fromtimestamp(rng.randrange(2**32), datetime.timezone.utc).strftime(form)
             for form in ("%Y-%m-%d", "%Y-%m-%dT%H:%M:%SZ") for _ in range(30)]  # fmt: skip
    texts += ["1970-01-01", "1970-01-01T00:00:01Z", "2000-02-29", "2024-02-29T23:59:59Z", "2038-01-19T03:14:08Z", "2106-02-07T06:28:15Z"]
    for text in texts:
        by_date, by_number = (room.state(octets, None, "--at", it) for it in (text, str(seconds_of(text))))
        verdict(f"the time {text}", by_date[0] == 0 and by_date == by_number, f"{by_date} {by_number}")
    odd = ["2106-02-07T06:28:16Z", "2106-02-08", "1969-12-31", "1900-02-29", "2100-02-29", "2023-02-29", "2024-02-30", "2024-13-01", "2024-00-10",
           "2024-04-31", "2024-01-00", "2024-01-32", "2024-1-01", "2024-01-1", "24-01-01", "2024-01-01T24:00:00Z", "2024-01-01T00:60:00Z",
           "2024-01-01T00:00:60Z", "2024-01-01T00:00:00", "2024-01-01t00:00:00z", "2024-01-01 00:00:00Z", "2024-01-01T00:00:00+00:00", "2024/01/01",
           "12024-01-01", "2024-01-0a", "20a4-01-01", " 2024-01-01", "2024-01-01 ", "x", "now", "-1", "+1", "0x10", "1.5", "1e9", "1 2", "1" * 19, "0" * 20]  # fmt: skip
    for text in odd:
        ended = room.state(octets, None, f"--at={text}")
        verdict(f"no time {text}", ended[:2] == (2, b"") and "--at <TIME>" in ended[2], f"{ended}")
    for text in ("0", "00", "1" * 18, "0" * 18):
        verdict(f"the number {text}", room.state(octets, None, "--at", text)[0] == 0)
    verdict("no time given", run("state", given=octets)[0] == 2)
    verdict("an odd policy", run("state", "--at", "0", "--policy", "all", given=octets)[0] == 2)


def files(room, octets):
    """Files of verdicts that can't be read."""
    for name in ("-", "/dev/stdin"):
        verdict(f"verdicts from {name}", run("state", "--at", "0", "--verdicts", name, given=octets)[:2] == (2, b""))
    verdict("no such file", run("state", "--at", "0", "--verdicts", f"{room.file}.none", given=octets)[:2] == (3, b""))
    verdict("a folder", run("state", "--at", "0", "--verdicts", os.path.dirname(room.file), given=octets)[:2] == (3, b""))
    ended = room.state(octets, b"x" * 2000, "--at", "0", "--input", "1999")
    verdict("a file that is too long", ended[:2] == (1, b"") and ended[2].startswith("input: InputTooLong "), f"{ended}")
    ended = room.state(b"\x99", None, "--at", "0")
    verdict("an input that is no keyring", ended[:2] == (1, b"") and ended[2].startswith("framing: "), f"{ended}")
    verdict("an empty keyring", room.state(b"", None, "--at", "0", "--quiet") == (0, b"", ""))
    verdict("an empty keyring, and no verdicts", room.state(b"", verdict_files.head(b"", 0), "--at", "0", "--quiet") == (0, b"", ""))
    for wrong in (b"", b"\n", verdict_files.head(b"", 0) + b"\n", verdict_files.head(b"", 1)):
        verdict("an empty keyring, and other verdicts", room.state(b"", wrong, "--at", "0", "--quiet")[:2] == (1, b""), f"{wrong}")


def large(room):
    """Many signatures on one key, and many subkeys: the work is linear."""
    made = 1700000000
    first = Key(4, made, 27, number(32, 1), lambda digest, hash: bytes(64))
    area = subpacket(2, number(4, made)) + subpacket(27, b"\x02") + first.issuer_fingerprint
    user = packet(13, b"Alice")

    def certified(it):
        return packet(2, signature(first, 0x13, on_identity(13, b"Alice"), area + subpacket(101, number(4, it))))

    for title, octets, lines in (
        ("signatures", packet(6, first.body) + user + b"".join(map(certified, range(MANY))), 2),
        ("subkeys", packet(6, first.body) + b"".join(
            packet(14, Key(4, made, 27, number(32, it + 2), None).body) + packet(2, signature(first, 0x18, b"", area)) for it in range(MANY)), MANY + 1),
    ):  # fmt: skip
        for more in (), ("--values",):
            began = processor_seconds()
            status, found, _ = run("state", "--at", str(made), *more, given=octets)
            spent = processor_seconds() - began
            verdict(f"many {title} {more}", status == 0 and found.count(b"\n") == lines, f"{status} {found[:200]}")
            verdict(f"many {title} {more} in little time", spent < MANY_SECONDS, f"{spent} s")
        rows, _ = file_of(checked(octets), [standing.GOOD] * MANY, random.Random(1))
        file = verdict_files.file(octets, rows)
        began = processor_seconds()
        status = room.state(octets, file, "--at", str(made))[0]
        spent = processor_seconds() - began
        verdict(f"verdicts on many {title} in little time", status == 0 and spent < MANY_SECONDS, f"{status} {spent} s")


def main():
    with tempfile.TemporaryDirectory(prefix="opgp-states-") as folder:
        room = Room(folder)
        generated(room)
        vectors(room)
        octets = next(standing_cases.cases(1, 1)).octets
        times(room, octets)
        files(room, octets)
        large(room)
    print(f"{passed} passed, {failed} failed")
    return failed != 0


sys.exit(main())
