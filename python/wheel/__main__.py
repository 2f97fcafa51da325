"""The command line of `python3 -m opgp`: everyday work on a keyring. docs/EVERYDAY.md has the commands and what they print.

The exit statuses are those of the program `opgp`: 1 says also that an audit found a key that falls short, or that nothing was found.
"""

from __future__ import annotations

import argparse
import datetime
import json
import os
import re
import shutil
import sys
import time
from typing import Any, NoReturn, Optional, Sequence

import opgp
from opgp import everyday
from opgp.secret import SECRET_KEY, has_secret_key

_VERIFIER = "opgp-verify"
_LAST = 2**32 - 1  # the last time that a date may be


class _End(Exception):
    """Ends the program with a status, and perhaps a line on standard error."""

    def __init__(self, status: int, said: str = "") -> None:
        super().__init__(status, said)
        self.status, self.said = status, said


class _Words(argparse.ArgumentParser):
    """A command line. What is wrong with it has no octet that steers a terminal."""

    def error(self, message: str) -> NoReturn:
        raise _End(2, f"{self.format_usage()}{self.prog}: error: {everyday.escaped(message)}")


class _Help(argparse.Action):
    """Writes the help to standard error, and ends with 2, as `opgp` does."""

    def __call__(self, parser: argparse.ArgumentParser, *_: Any) -> NoReturn:
        raise _End(2, parser.format_help().rstrip("\n"))


# ---- What commands write


def _json(told: argparse.Namespace) -> tuple[int, bytes]:
    _, entries = _surveyed(told, told.FILE)
    found = everyday.json_of(entries, told.at)
    # A certificate a line, for programs that read lines. Escapes keep all but ASCII away from terminals.
    lines = ",\n".join(json.dumps(it) for it in found.pop("certificates"))
    return 0, f'{json.dumps(found)[:-1]}, "certificates": [\n{lines}\n]}}\n'.encode("ascii")


def _audit(told: argparse.Namespace) -> tuple[int, bytes]:
    policy = everyday.Policy() if told.policy is None else _policy(told.policy)
    _, entries = _surveyed(told, told.FILE)
    rows = everyday.audit(entries, told.at, policy)
    short = sum(bool(it.short) for it in rows)
    if not rows:
        _tell("opgp: the keyring has no certificate")
    elif short:
        _tell(f"opgp: {short} of {len(rows)} keys fall short")
    return int(bool(short) or not rows), _lines(it.line() for it in rows)


def _policy(path: str) -> everyday.Policy:
    try:
        return everyday.policy_in(_read(path).decode("utf-8"))
    except UnicodeDecodeError as why:
        raise _End(2, f"opgp: {everyday.escaped(path)}: it isn't UTF-8") from why
    except everyday.PolicyError as why:
        raise _End(2, f"opgp: {everyday.escaped(path)}: {why}") from why


def _hkp(told: argparse.Namespace) -> tuple[int, bytes]:
    _, entries = _surveyed(told, told.FILE)
    return 0, everyday.hkp_index(entries if not told.find else _found(entries, told.find)[1])


def _emails(told: argparse.Namespace) -> tuple[int, bytes]:
    _, entries = _surveyed(told, told.FILE)
    return 0, _lines(it.line() for it in everyday.emails(entries))


def _find(told: argparse.Namespace) -> tuple[int, bytes]:
    keyring, entries = _surveyed(told, told.keyring)
    status, found = _found(entries, told.NAME)
    if told.out is None:
        return status, _lines(line for it in found for line in _listed(it))
    octets = b"".join(keyring.certificate(it.number).write() for it in found)
    return status, opgp.read(octets, mode="binary").write(told.out == "armor") if found else b""


def _found(entries: Sequence[everyday.CertificateEntry], names: Sequence[str]) -> tuple[int, list[everyday.CertificateEntry]]:
    """The certificates of these names, each once and in order; 1 if there is none for one of them."""
    status, numbers = 0, set()
    for name in names:
        try:
            them = everyday.find(entries, name)
        except ValueError as why:
            raise _End(2, f"opgp: {why}") from why
        if not them:
            status = 1
            _tell(f"opgp: no certificate for {everyday.escaped(name)}")
        numbers |= {it.number for it in them}
    return status, [it for it in entries if it.number in numbers]


def _revocations(told: argparse.Namespace) -> tuple[int, bytes]:
    keyring, verdicts = _judged(told, told.FILE)
    octets = everyday.revocations(keyring, verdicts)
    if not octets:
        _tell("opgp: no revocation")
    return int(not octets), octets


def _revoke(told: argparse.Namespace) -> tuple[int, bytes]:
    keyring = everyday.once(_keyring(told, _read(told.FILE)))
    revocation, name = _read(told.revocation), everyday.escaped(told.revocation)
    try:
        made = everyday.revoked(keyring, revocation)
    except opgp.Fault as fault:
        raise _End(1, f"opgp: {name}: {_said(told, fault, revocation)}") from fault
    except ValueError as why:
        raise _End(1, f"opgp: {name}: {why}") from why
    verdicts = _verified(told, made, must_be=True)
    if verdicts is not None and not all(verdicts[it.row] is opgp.Verdict.GOOD for it in _new(made, keyring)):
        raise _End(1, f"opgp: {name}: the revocation doesn't verify")
    return 0, made.write(told.out != "binary")


def _new(made: opgp.Keyring, keyring: opgp.Keyring) -> list[opgp.Signature]:
    """The signatures of a keyring whose packets another one doesn't have."""
    old = {it.body for it in keyring.packets()}
    new = {(it.certificate, it.component, it.hang) for it in made.packets() if it.body not in old}
    return [it for it in made.signatures() if it.nested is None and (it.certificate, it.component, it.hang) in new]


def _listed(it: everyday.CertificateEntry) -> Sequence[str]:
    """The lines of `find` for a certificate."""
    word = everyday.checked(it.is_verified)
    first = f"pub {it.primary.how} {word} {it.primary.key.fingerprint.hex().upper()}"
    return [first, *(f'uid {at.how} {word} "{everyday.escaped(at.text)}"' for at in it.user_ids)]


def _wkd_hash(told: argparse.Namespace) -> tuple[int, bytes]:
    try:
        return 0, _lines(f"{everyday.wkd_hash(it)} {everyday.wkd_path(it, told.method)} {it}" for it in told.ADDRESS)
    except ValueError as why:
        raise _End(2, f"opgp: {why}") from why


def _wkd_tree(told: argparse.Namespace) -> tuple[int, bytes]:
    keyring, entries = _surveyed(told, told.keyring, must_be_verified=True)
    try:
        files = list(everyday.wkd_files(keyring, entries, told.DOMAIN, told.method))
    except ValueError as why:
        raise _End(2, f"opgp: {why}") from why
    try:
        if os.path.isdir(told.FOLDER) and os.listdir(told.FOLDER):
            raise _End(3, f"opgp: write failed: {everyday.escaped(told.FOLDER)} isn't empty")
        for it in files:
            path = os.path.join(told.FOLDER, *it.path.split("/"))
            os.makedirs(os.path.dirname(path), exist_ok=True)
            with open(path, "xb") as file:
                file.write(it.octets)
    except OSError as why:
        raise _End(3, f"opgp: write failed: {_reason(why)}") from why
    word = everyday.checked(all(it.is_verified for it in entries))
    return 0, _lines(f"{it.path} {word} {_prints(it)} {it.address}" for it in files if it.address)


def _prints(it: everyday.WkdFile) -> str:
    return ",".join(at.hex().upper() for at in it.fingerprints)


def _lines(lines: Any) -> bytes:
    return "".join(f"{it}\n" for it in lines).encode("utf-8")


# ---- What commands read


def _surveyed(
    told: argparse.Namespace, path: Optional[str], must_be_verified: bool = False
) -> tuple[opgp.Keyring, list[everyday.CertificateEntry]]:
    """The keyring in a file, or on standard input, and its entries."""
    keyring, verdicts = _judged(told, path, must_be_verified)
    return keyring, everyday.survey(keyring, told.at, verdicts, told.rely)


def _judged(
    told: argparse.Namespace, path: Optional[str], must_be_verified: bool = False
) -> tuple[opgp.Keyring, Optional[list[opgp.Verdict]]]:
    """The keyring in a file, or on standard input, and the verdicts on its signatures; None: nothing is verified. A certificate that is
    there twice is merged: one copy may lack a revocation."""
    octets = _read(path)
    if not octets and _shows_hints(told):
        _tell("opgp: the input is empty")
    keyring = everyday.once(_keyring(told, octets))
    if told.verdicts is not None:
        return keyring, everyday.verdicts_in(keyring, _read(told.verdicts))
    return keyring, _verified(told, keyring, must_be_verified)


def _keyring(told: argparse.Namespace, octets: bytes) -> opgp.Keyring:
    """The keyring in these octets. Tells what lies outside of armored blocks, and of a secret key."""
    try:
        keyring = opgp.read(octets, _limits(told), told.mode)
    except opgp.Fault as fault:
        raise _End(1, _said(told, fault, octets)) from fault
    if count := keyring.skipped():
        _tell(f"opgp: {count} octets outside of armored blocks were skipped; read a binary file by itself")
        if _shows_hints(told) and has_secret_key(octets):
            _tell(f"opgp: {SECRET_KEY}")
    return keyring


def _said(told: argparse.Namespace, fault: opgp.Fault, octets: bytes) -> str:
    """A fault's line; and another one, if the input has a secret key and a line for people is wanted."""
    return f"{fault}\nopgp: {SECRET_KEY}" if _shows_hints(told) and has_secret_key(octets) else str(fault)


def _shows_hints(told: argparse.Namespace) -> bool:
    """Whether a line for people is written: where standard error is a terminal, always, or never."""
    if told.hints == "auto":
        return sys.stderr is not None and sys.stderr.isatty()
    return bool(told.hints == "always")


def _limits(told: argparse.Namespace) -> opgp.Limits:
    """The limits of what is read, and what becomes of lines outside of armored blocks and of malformed signatures."""
    numbers = (told.line, told.body, told.cert, told.input, told.pieces)
    return opgp.Limits(*numbers, refuse_outside=told.outside == "refuse", keep_malformed=told.malformed == "keep")


def _verified(told: argparse.Namespace, keyring: opgp.Keyring, must_be: bool) -> Optional[list[opgp.Verdict]]:
    """The verdicts of the verifier; None: it isn't to be asked, or there is none."""
    if told.unverified:
        return None
    if told.verifier is None and shutil.which(_VERIFIER) is None:
        if must_be:
            raise _End(3, f"opgp: {_VERIFIER} isn't found: name one by --verifier, or take what is --unverified")
        _tell(f"opgp: nothing is verified: {_VERIFIER} isn't found")
        return None
    return everyday.verdicts_by(keyring, told.verifier or _VERIFIER)


def _read(path: Optional[str]) -> bytes:
    """The octets of a file, or of standard input."""
    try:
        if path is None:
            return sys.stdin.buffer.read()
        with open(path, "rb") as file:
            return file.read()
    except AttributeError as why:  # it is closed
        raise _End(3, "opgp: read failed: standard input is closed") from why
    except OSError as why:
        raise _End(3, f"opgp: read failed: {_reason(why)}") from why


def _reason(why: OSError) -> str:
    name = f"{everyday.escaped(os.fsdecode(why.filename))}: " if why.filename else ""
    return f"{name}{why.strerror or why}"


# ---- The command line


_DATE = re.compile("[0-9]{4}(?:0[1-9]|1[0-2])(?:0[1-9]|[12][0-9]|3[01])")  # without hyphens


def _time(word: str) -> int:
    """A time: seconds since 1970, perhaps behind an @, or a date in UTC. Eight digits that may be a date are refused: who means one
    would be told of 1970."""
    if _DATE.fullmatch(word):
        raise argparse.ArgumentTypeError(f"{word} may be a date: write that with hyphens, and seconds since 1970 behind an @")
    if re.fullmatch("@?[0-9]{1,18}", word):
        return int(word.removeprefix("@"))
    for form in ("%Y-%m-%d", "%Y-%m-%dT%H:%M:%SZ"):
        try:
            found = datetime.datetime.strptime(word, form).replace(tzinfo=datetime.timezone.utc)
        except ValueError:
            continue
        if found.strftime(form) == word and 0 <= found.timestamp() <= _LAST:
            return int(found.timestamp())
    raise argparse.ArgumentTypeError("a time is seconds since 1970, or a date such as 2026-11-20 or 2026-11-20T08:30:00Z")


# The limits of `opgp`, with their ranges.
_RANGES = {
    "line": (2**7, 2**20, "octets of an armored line"),
    "body": (2**9, 2**32 - 1, "octets of a packet's body"),
    "cert": (2**9, 2**40, "octets of a certificate"),
    "input": (0, 2**62, "octets of the input"),
    "pieces": (1, 2**24, "partial lengths of a packet"),
}


def _within(least: int, most: int) -> Any:
    """What reads a number within these bounds."""

    def read(word: str) -> int:
        if re.fullmatch("[0-9]{1,20}", word) and least <= int(word) <= most:
            return int(word)
        raise argparse.ArgumentTypeError(f"a number from {least} to {most} is wanted")

    return read


def _add_limits(it: Any) -> None:
    """How the input is read, by the options of `opgp`."""
    it.add_argument("--hints", choices=("auto", "always", "never"), default="auto", help="when to say what to do: auto is on a terminal")
    it.add_argument("--mode", choices=("auto", "armor", "binary"), default="auto", help="how to read the input")
    it.add_argument("--outside", choices=("skip", "refuse"), default="skip", help="what to do with lines outside of armored blocks")
    it.add_argument("--malformed", choices=("refuse", "keep"), default="refuse", help="what to do with malformed signatures")
    for name, (least, most, what) in _RANGES.items():
        usual = getattr(opgp.Limits(), name)
        it.add_argument(f"--{name}", metavar="N", type=_within(least, most), default=usual, help=f"the most {what}; else {usual}")


def _words() -> argparse.ArgumentParser:
    """The command line."""
    about = "Everyday work on an OpenPGP keyring, armored or binary, in FILE or on standard input."
    parser = _Words("python3 -m opgp", description=about, add_help=False, allow_abbrev=False)
    _add_help(parser)
    commands = parser.add_subparsers(metavar="COMMAND", required=True)
    _add(commands, "json", _json, "write the keyring as JSON").add_argument("FILE", nargs="?")
    it = _add(commands, "audit", _audit, "say of each key where it falls short of a policy")
    it.add_argument("--policy", metavar="FILE", help="what keys must be")
    it.add_argument("FILE", nargs="?")
    it = _add(commands, "hkp", _hkp, "write a key server's answer to op=index")
    it.add_argument("--find", metavar="NAME", action="append", help="only certificates of this fingerprint, key ID or address")
    it.add_argument("FILE", nargs="?")
    _add(commands, "emails", _emails, "list the addresses of user IDs").add_argument("FILE", nargs="?")
    it = _add(commands, "find", _find, "find certificates by fingerprint, key ID or address")
    it.add_argument("--keyring", metavar="FILE", help="else standard input")
    it.add_argument("--out", choices=("armor", "binary"), help="write the certificates, and no lines")
    it.add_argument("NAME", nargs="+")
    _add(commands, "revocations", _revocations, "write the packets of revocations alone").add_argument("FILE", nargs="?")
    it = _add(commands, "revoke", _revoke, "put a revocation certificate behind the key that it revokes", is_survey=False)
    _add_verifier(it)
    _add_limits(it)
    it.add_argument("--revocation", metavar="FILE", required=True, help="the revocation certificate")
    it.add_argument("--out", choices=("armor", "binary"), default="armor", help="how to write the keyring")
    it.add_argument("FILE", nargs="?")
    wkd = _add(commands, "wkd", None, "make a Web Key Directory").add_subparsers(metavar="COMMAND", required=True)
    method: dict[str, Any] = {"choices": ("advanced", "direct"), "default": "advanced", "help": "how clients ask: advanced"}
    it = _add(wkd, "hash", _wkd_hash, "write the hash and the path of addresses", is_survey=False)
    it.add_argument("--method", **method)
    it.add_argument("ADDRESS", nargs="+")
    it = _add(wkd, "tree", _wkd_tree, "write a domain's directory into a folder that is empty or isn't there")
    it.add_argument("--method", **method)
    it.add_argument("--keyring", metavar="FILE", help="else standard input")
    it.add_argument("DOMAIN")
    it.add_argument("FOLDER")
    return parser


def _add(commands: Any, name: str, call: Any, about: str, is_survey: bool = True) -> Any:
    """A command, and the options of those that say how keys stand."""
    it = commands.add_parser(name, help=about, description=about, add_help=False, allow_abbrev=False)
    _add_help(it)
    if call is not None:
        it.set_defaults(call=call)
    if call is not None and is_survey:
        it.add_argument("--at", metavar="TIME", type=_time, default=int(time.time()), help="the present time; else that of the clock")
        it.add_argument("--rely", choices=("usual", "any"), default="usual", help="the hash algorithms and keys that are relied on")
        how = _add_verifier(it)
        how.add_argument("--verdicts", metavar="FILE", help=f"what {_VERIFIER} --verdicts wrote of the keyring")
        _add_limits(it)
    return it


def _add_verifier(it: Any) -> Any:
    """The options of who verifies, of which one may be given."""
    how = it.add_mutually_exclusive_group()
    how.add_argument("--verifier", metavar="PROGRAM", help=f"verify by this program; else {_VERIFIER}, if it is found")
    how.add_argument("--unverified", action="store_true", help="verify nothing, and take what signatures claim")
    return how


def _add_help(it: argparse.ArgumentParser) -> None:
    it.add_argument("-h", "--help", action=_Help, nargs=0, help="this help")


def _tell(line: str) -> None:
    """Writes a line to standard error, if there is one."""
    try:
        if sys.stderr is not None:
            print(line, file=sys.stderr, flush=True)
    except (OSError, ValueError):
        pass


def _write(octets: bytes) -> None:
    """Writes to standard output. Whoever reads a pipe may have enough: of that nothing is said."""
    try:
        sys.stdout.buffer.write(octets)
        sys.stdout.buffer.flush()
    except (OSError, AttributeError) as why:
        os.dup2(os.open(os.devnull, os.O_WRONLY), 1)  # else Python flushes again at its end
        raise _End(3, "" if isinstance(why, BrokenPipeError) else "opgp: write failed") from why


def main(words: Optional[Sequence[str]] = None) -> int:
    """Runs a command by these words, or those of the command line; the exit status."""
    try:
        told = _words().parse_args(words)
        status, octets = told.call(told)
        _write(octets)
        return int(status)
    except _End as it:
        if it.said:
            _tell(it.said)
        return it.status
    except everyday.VerifierFailed as why:
        _tell(f"opgp: the verifier failed: {why}")
        return 3
    except everyday.WrongVerdicts as why:
        _tell(f"opgp: {why}")
        return 1
    except opgp.Fault as fault:
        _tell(str(fault))
        return 1
    except MemoryError:
        _tell("opgp: out of memory")
        return 3
    except KeyboardInterrupt:
        return 130


if __name__ == "__main__":
    sys.exit(main())
