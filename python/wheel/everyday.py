"""Everyday work on a keyring: an audit, JSON, the index of a key server, a Web Key Directory, addresses, finding certificates, and
revocations.

    import time
    import opgp
    from opgp import everyday

    keyring = opgp.read(open("keyring.asc", "rb").read())
    entries = everyday.survey(keyring, int(time.time()), everyday.verdicts_by(keyring))
    for row in everyday.audit(entries, int(time.time())):
        print(row.line())

Each function takes the entries of `survey`, which know how all stands, and whether a verifier was asked. docs/EVERYDAY.md has the
lines, the JSON and the policy. Sections are those of RFC 9580.
"""

from __future__ import annotations

import dataclasses
import hashlib
import re
import time
from typing import Any, Iterator, NamedTuple, Optional, Sequence, Union

import opgp
from opgp.surveys import CertificateEntry, KeyEntry, Name, Size, UserIdEntry, VerifierFailed, WrongVerdicts
from opgp.surveys import _WIDEST, claims, cut, escaped, name_in, once, size_of, survey, verdicts_by, verdicts_in

__all__ = ["AuditRow", "CertificateEntry", "EmailRow", "KeyEntry", "Name", "Policy", "PolicyError", "Size", "UserIdEntry"]
__all__ += ["VerifierFailed", "WkdFile", "WrongVerdicts", "audit", "checked", "claims", "emails", "escaped", "find", "hkp_index", "json_of"]
__all__ += ["name_in", "once", "policy_in", "revocations", "revoked", "size_of", "survey", "verdicts_by", "verdicts_in", "wkd_files"]
__all__ += ["wkd_hash", "wkd_path"]

_DAY = 86400
_USER_ID, _KEY_REVOCATION = 13, 0x20
_REVOCATIONS = (_KEY_REVOCATION, 0x28, 0x30)
_WORDS = {1: "rsa", 2: "rsa", 3: "rsa", 16: "elgamal", 17: "dsa", 18: "ecdh", 19: "ecdsa", 22: "eddsa", 25: "x25519", 26: "x448"}
_WORDS |= {27: "ed25519", 28: "ed448"}


def checked(is_verified: bool) -> str:
    """The word of lines that says whether a verifier was asked. It says nothing of what it found."""
    return "checked" if is_verified else "unchecked"


def _date(seconds: Optional[int]) -> str:
    """A time as RFC 3339 writes it in UTC; never: there is none; of one past the year 9999 the seconds."""
    if seconds is None:
        return "never"
    return time.strftime("%Y-%m-%dT%H:%M:%SZ", time.gmtime(seconds)) if seconds < 253402300800 else str(seconds)


def _digits(octets: bytes) -> str:
    return octets.hex().upper()


# ---- The audit


class Policy(NamedTuple):
    """What keys must be. `Policy()` is what an audit without a policy wants."""

    rsa: Optional[int] = 2048
    """The fewest bits of an RSA key; None: no such key may be."""
    dsa: Optional[int] = 2048
    elgamal: Optional[int] = 2048
    curves: Optional[frozenset[str]] = None
    """The curves that may be; None: all."""
    expires_within: int = 0
    """A key falls short that expires within so many days."""
    no_sha1: bool = True
    """A key falls short if a self-signature that speaks for it is by SHA-1."""
    uses: frozenset[str] = frozenset()
    """What each certificate must have a usable key for: sign, encrypt, authenticate, certify."""


class PolicyError(ValueError):
    """A line of a policy that says nothing known."""


def policy_in(text: str) -> Policy:
    """The policy in a text, whose lines are `name = value` or `name`; what is behind `#` isn't read. What no line names is as in
    `Policy()`. Raises PolicyError, with the line's number, for an unknown or repeated name, and for a wrong value."""
    found: dict[str, Any] = {}
    for number, line in enumerate(text.split("\n"), 1):
        name, is_given, value = (it.strip() for it in line.partition("#")[0].partition("="))
        if name or is_given:
            field = name.replace("-", "_")
            if field in found:
                raise PolicyError(f"line {number}: {escaped(name)} is there twice")
            found[field] = _policy_value(number, name, value if is_given else None)
    return Policy(**found)


_POLICY_USES = ("certify", "sign", "encrypt", "authenticate")


def _policy_value(number: int, name: str, value: Optional[str]) -> Any:
    """What a line of a policy says; of a line without `=` the value is None."""
    if name == "no-sha1" and value in (None, "yes", "no"):
        return value != "no"
    if name in ("rsa", "dsa", "elgamal") and value in ("any", "none"):
        return 0 if value == "any" else None
    if name in ("rsa", "dsa", "elgamal", "expires-within") and re.fullmatch("[0-9]{1,6}", value or ""):
        return int(value or "")
    words = frozenset((value or "").replace(",", " ").split())
    if name == "curves" and words:
        return None if words == {"any"} else words
    if name == "uses" and words and words <= {*_POLICY_USES}:
        return words
    known = name in ("rsa", "dsa", "elgamal", "expires-within", "curves", "uses", "no-sha1")
    said = f"{name} = {value}" if value is not None else name
    raise PolicyError(f"line {number}: {'wrong value' if known else 'unknown'}: {escaped(said)}")


@dataclasses.dataclass(frozen=True)
class AuditRow:
    """A key, and where it falls short."""

    certificate: int
    entry: KeyEntry
    short: tuple[str, ...]
    """Where it falls short, in words: revoked, early, unbound, expired, no-use, size, curve, algorithm, sha1, expires, no-sign and so on.
    Empty: nowhere."""

    def line(self) -> str:
        """The line of `audit`, without its end."""
        it = self.entry
        kind = "pub" if it.key.is_primary else "sub"
        algorithm = _WORDS.get(it.key.algorithm, f"alg{it.key.algorithm}")
        uses, hashes, short = (",".join(them) or "-" for them in (it.uses, it.hashes, self.short))
        front = f"{kind} {_digits(it.key.fingerprint)} {checked(it.is_verified)} {it.how} {algorithm} {it.size}"
        return f"{front} uses {uses} end {_date(it.state.end)} hash {hashes} short {short}"


def audit(entries: Sequence[CertificateEntry], at: int, policy: Policy = Policy()) -> list[AuditRow]:
    """A row for each key, in order: where it falls short of a policy at a time, in seconds since 1970, which is that of the survey.

    A primary key falls short if it is of no use, a subkey if nothing binds it. What is revoked or expired isn't looked at further.
    What a certificate lacks is in the row of its primary key."""
    rows = []
    for certificate in entries:
        for it in certificate.keys:
            short = _short(it, at, policy)
            if it.key.is_primary and it.state.why is None:
                usable = {use for key in certificate.keys if key.state.why is None for use in key.uses}
                short += [f"no-{use}" for use in _POLICY_USES if use in policy.uses - usable]
            rows.append(AuditRow(certificate.number, it, tuple(short)))
    return rows


def _short(it: KeyEntry, at: int, policy: Policy) -> list[str]:
    """Where a key itself falls short."""
    why = it.state.why
    found = [it.how] if why is not None and (it.key.is_primary or why is opgp.Why.UNBOUND) else []
    if why not in (None, opgp.Why.UNBOUND, opgp.Why.NO_USE):
        return found
    word = _WORDS.get(it.key.algorithm, "")
    least = {"rsa": policy.rsa, "dsa": policy.dsa, "elgamal": policy.elgamal}
    if word in least:
        bits = least[word]
        if bits is None:
            found.append("algorithm")
        elif (it.size.bits or 0) < bits:
            found.append("size")
    elif it.size.curve is None:
        found.append("algorithm")
    elif policy.curves is not None and it.size.curve not in policy.curves:
        found.append("curve")
    if policy.no_sha1 and "SHA-1" in it.hashes:
        found.append("sha1")
    if why is None and it.state.end is not None and it.state.end <= at + policy.expires_within * _DAY:
        found.append("expires")
    return found


# ---- JSON

_SCHEMA = "opgp-keyring-1"


def json_of(entries: Sequence[CertificateEntry], at: int) -> dict[str, Any]:
    """The keyring as json.dumps takes it. Later versions may add members; one that changes or drops some has another `schema`."""
    is_verified = bool(entries) and all(it.is_verified for it in entries)
    return {"schema": _SCHEMA, "at": at, "verified": is_verified, "certificates": [_json_certificate(it) for it in entries]}


def _json_certificate(it: CertificateEntry) -> dict[str, Any]:
    return {
        "fingerprint": _digits(it.primary.key.fingerprint),
        "verified": it.is_verified,
        "keys": [_json_key(key) for key in it.keys],
        "user_ids": [_json_user_id(user_id) for user_id in it.user_ids],
        "attributes": [{"verified": it.is_verified, "state": _attribute(state)} for state in it.attributes],
    }


def _attribute(state: opgp.State) -> str:
    return "certified" if state.why is None else state.why.name.lower()


def _json_key(it: KeyEntry) -> dict[str, Any]:
    key, state = it.key, it.state
    return {
        "fingerprint": _digits(key.fingerprint),
        "key_id": _digits(key.key_id),
        "primary": key.is_primary,
        "version": key.version,
        "algorithm": key.algorithm,
        "algorithm_name": key.algorithm_name,
        "bits": it.size.bits,
        "curve": it.size.curve,
        "created": key.created,
        "verified": it.is_verified,
        "state": it.how,
        "uses": list(it.uses),
        "begin": state.begin,
        "end": state.end,
        "revocation_reason": state.reason,
        "hashes": list(it.hashes),
    }


def _json_user_id(it: UserIdEntry) -> dict[str, Any]:
    name = it.name
    return {
        "text": it.octets.decode("utf-8", "replace"),
        "utf8": it.is_utf8,
        "octets": None if it.is_utf8 else _digits(it.octets),
        "name": _plain(name.name),
        "comment": _plain(name.comment),
        "address": name.address,
        "verified": it.is_verified,
        "state": it.how,
        "certified": it.made,
    }


def _plain(text: Optional[str]) -> Optional[str]:
    """A text in which what isn't UTF-8 is a replacement character."""
    return None if text is None else text.encode("utf-8", "surrogateescape").decode("utf-8", "replace")


# ---- A key server's index


def hkp_index(entries: Sequence[CertificateEntry]) -> bytes:
    """The answer of a key server to `op=index` with `options=mr` (draft-shaw-openpgp-hkp-00, 5.2): a line for each certificate and each
    of its user IDs that is certified or revoked. The lines have no word for what is unverified: see `CertificateEntry.is_verified`."""
    lines = [f"info:1:{len(entries)}"]
    for it in entries:
        key, state = it.primary.key, it.primary.state
        bits, end = ("" if number is None else str(number) for number in (it.primary.size.bits, state.end))
        flags = {"revoked": "r", "expired": "e"}.get(it.primary.how, "")
        lines.append(f"pub:{_digits(key.fingerprint)}:{key.algorithm}:{bits}:{key.created}:{end}:{flags}")
        for user_id in it.user_ids:
            if user_id.how != "unbound":
                made = "" if user_id.made is None else str(user_id.made)
                lines.append(f"uid:{_quoted(user_id.octets)}:{made}::{'r' if user_id.how == 'revoked' else ''}")
    return "".join(f"{it}\n" for it in lines).encode("ascii")


def _quoted(octets: bytes) -> str:
    """These octets, where all but printable ASCII is quoted, and the letters too that a field or a form's value can't have."""
    return "".join(chr(it) if 32 <= it < 127 and it not in b":%+" else f"%{it:02X}" for it in octets)


# ---- A Web Key Directory

_ALPHABET = "ybndrfg8ejkmcpqxot1uwisza345h769"  # of z-base-32
_SMALL = str.maketrans("ABCDEFGHIJKLMNOPQRSTUVWXYZ", "abcdefghijklmnopqrstuvwxyz")
_DOMAIN = re.compile(r"(?=.{1,253}\Z)[a-z0-9](?:[a-z0-9-]*[a-z0-9])?(?:\.[a-z0-9](?:[a-z0-9-]*[a-z0-9])?)*")


def _small(text: str) -> str:
    """A text in small letters, of ASCII alone: no other letter is changed (draft-koch-openpgp-webkey-service, 3.1)."""
    return text.translate(_SMALL)


def _halves(address: str) -> tuple[str, str]:
    """The local part and the domain of an address, in small letters. Raises ValueError for what is none."""
    local, _, domain = _small(address).rpartition("@")
    if name_in(address).address != address:
        raise ValueError(f"{escaped(address)} is no mail address")
    return local, domain


def wkd_hash(address: str) -> str:
    """The name of an address in a Web Key Directory (draft-koch-openpgp-webkey-service, 3.1): SHA-1 of the local part in small letters,
    as z-base-32. Raises ValueError for what is no address."""
    number = int.from_bytes(hashlib.sha1(_halves(address)[0].encode("utf-8")).digest(), "big")
    return "".join(_ALPHABET[number >> 5 * it & 31] for it in reversed(range(32)))


def wkd_path(address: str, method: str = "advanced") -> str:
    """Where the directory of the address's domain has its file, below the server's root, by the method `advanced` or `direct`."""
    return f"{_folder(_halves(address)[1], method)}/hu/{wkd_hash(address)}"


def _folder(domain: str, method: str) -> str:
    """The directory's folder. Raises ValueError for another method, or what is no domain."""
    if method not in ("advanced", "direct"):
        raise ValueError(f"the method is {method!r}, and not advanced or direct")
    if not _DOMAIN.fullmatch(domain):
        raise ValueError(f"{escaped(domain)} is no domain in ASCII")
    return ".well-known/openpgpkey" + (f"/{domain}" if method == "advanced" else "")


class WkdFile(NamedTuple):
    """A file of a Web Key Directory."""

    path: str
    """Below the server's root, with slashes."""
    octets: bytes
    address: Optional[str]
    """None: the file of the directory's policy, which is empty."""
    fingerprints: tuple[bytes, ...]
    """Of the primary keys in it."""


def wkd_files(
    keyring: opgp.Keyring, entries: Sequence[CertificateEntry], domain: str, method: str = "advanced"
) -> Iterator[WkdFile]:
    """The files of a domain's directory: that of its policy, and one for each address of the domain that a certified user ID has. This
    has the certificates with such a user ID, each without other user IDs, attributes, and what other keys say of user IDs. Raises
    ValueError for what is no domain, or for another method."""
    domain = _small(domain)
    found: dict[str, list[CertificateEntry]] = {}
    yield WkdFile(f"{_folder(domain, method)}/policy", b"", None, ())
    parts: dict[int, _Cut] = {}
    for entry in entries:
        addresses = {_certified(it) for it in entry.user_ids}
        for address in (it for it in addresses if it.rpartition("@")[2] == domain):
            found.setdefault(address, []).append(entry)
            if entry.number not in parts:
                parts[entry.number] = _Cut(keyring, entry)
    for address, them in sorted(found.items()):
        octets = b"".join(parts[it.number].published(address) for it in them)
        yield WkdFile(wkd_path(address, method), octets, address, tuple(it.primary.key.fingerprint for it in them))


def _certified(it: UserIdEntry) -> str:
    """The address of a certified user ID, in small letters; of another one nothing."""
    return _small(it.address or "") if it.how == "certified" else ""


class _Cut:
    """The packets of a certificate that may be published, each behind a number of its place: keys with all that follows them, and
    certified user IDs with what the primary key says of them. A revocation of the primary key goes behind that key, wherever it
    stands: else it might be left out, or other programs not hear it."""

    def __init__(self, keyring: opgp.Keyring, entry: CertificateEntry) -> None:
        self.keys: list[tuple[int, bytes]] = []
        self.user_ids: dict[str, list[tuple[int, bytes]]] = {}
        with keyring.certificate(entry.number) as one:
            keys, them, packets, octets = one.keys(), iter(entry.user_ids), one.packets(), [it for _, it in cut(one)]
            signatures = {(it.component, it.hang): it for it in one.signatures() if it.nested is None}
        to = self.keys
        for number, it in enumerate(packets):
            said = signatures.get((it.component, it.hang or 0)) if it.hang is not None and it.kind == 2 else None
            if it.hang is None:
                user_id = next(them) if it.kind == _USER_ID else None
                to = self.keys if it.kind in (6, 14) else self.user_ids.setdefault(_certified(user_id) if user_id else "", [])
            is_own = said is not None and said.signer is not None and keys[said.signer].is_primary
            if said is not None and said.kind == _KEY_REVOCATION and it.component is not None:
                self.keys.append((1, octets[number]))
            elif it.hang is None or to is self.keys or is_own:
                to.append((2 * number, octets[number]))

    def published(self, address: str) -> bytes:
        """The packets for an address, in their order."""
        found = b"".join(octets for _, octets in sorted(self.keys + self.user_ids[address]))
        opgp.read(found, _WIDEST, "binary").close()  # which refuses what isn't cut between packets
        return found


# ---- Addresses, and finding


class EmailRow(NamedTuple):
    """A user ID with an address."""

    address: str
    certificate: CertificateEntry
    user_id: UserIdEntry

    def line(self) -> str:
        """The line of `emails`, without its end."""
        front = f"{self.user_id.how} {checked(self.user_id.is_verified)}"
        return f"{front} {escaped(self.address)} {_digits(self.certificate.primary.key.fingerprint)}"


def emails(entries: Sequence[CertificateEntry]) -> list[EmailRow]:
    """The user IDs that have an address, in order."""
    return [EmailRow(it.address, entry, it) for entry in entries for it in entry.user_ids if it.address is not None]


def find(entries: Sequence[CertificateEntry], name: Union[str, bytes]) -> list[CertificateEntry]:
    """The certificates with a key of this fingerprint or key ID, or with a certified user ID of this address, whatever the case of its
    ASCII letters. A fingerprint or key ID is octets, or a text as `Keyring.find` takes it. Raises ValueError for another text."""
    if isinstance(name, str) and "@" in name:
        if name_in(name).address != name:
            raise ValueError(f"{escaped(name)} is no mail address")
        wanted = _small(name)
        return [it for it in entries if any(_small(at.address or "") == wanted and at.how == "certified" for at in it.user_ids)]
    try:
        octets = bytes.fromhex(name.removeprefix("0x")) if isinstance(name, str) else bytes(name)
    except ValueError:
        octets = b""
    if len(octets) not in (8, 20, 32):
        raise ValueError(f"{escaped(str(name))} is no fingerprint, key ID or mail address")
    return [it for it in entries if any(octets in (key.key.fingerprint, key.key.key_id) for key in it.keys)]


# ---- Revocations


def revocations(keyring: opgp.Keyring, verdicts: Optional[Sequence[opgp.Verdict]] = None) -> bytes:
    """The packets of the signatures that revoke a key, a subkey or a certification (5.2.1.11 to 5.2.1.13), in order, and nothing else;
    with verdicts on the keyring's rows only those that are good."""
    octets, found = dict(cut(keyring)), []
    for it in keyring.signatures():
        place = tuple(opgp._NONE if at is None else at for at in (it.certificate, it.component, it.hang))
        if it.nested is None and it.kind in _REVOCATIONS and (verdicts is None or verdicts[it.row] is opgp.Verdict.GOOD):
            found.append(octets[place])
    return b"".join(found)


def revoked(keyring: opgp.Keyring, revocation: bytes) -> opgp.Keyring:
    """The keyring, with the key revocations (5.2.1.11) of an armored or binary text put where they belong: right behind the primary
    key that each names as its issuer. One that is there stays alone. Nothing is verified. Raises ValueError if the text has no key
    revocation, if a packet of it is something else, or if a key isn't in the keyring; and Fault for what can't be read."""
    wanted: dict[int, list[bytes]] = {}
    certificates = keyring.certificates()
    for issuer, octets in _revocations_in(keyring, revocation):
        them = [it for it in certificates if issuer in (it.primary.fingerprint, it.primary.key_id)]
        if not them:
            raise ValueError(f"no certificate has the key {_digits(issuer)}")
        for it in them:
            wanted.setdefault(it.number, []).append(octets)
    if not wanted:
        raise ValueError("no key revocation")
    made = []
    for it in certificates:
        with keyring.certificate(it.number) as one:
            made.append(_with(one, wanted[it.number]) if it.number in wanted else one.write())
    return opgp.read(b"".join(made), _WIDEST, "binary")


def _revocations_in(keyring: opgp.Keyring, revocation: bytes) -> Iterator[tuple[bytes, bytes]]:
    """The issuer and the packet of each key revocation in a text. A keyring can't begin with it, so it is read behind one."""
    if revocation[:1] >= b"\x80":
        both = opgp.read(keyring.write() + revocation, _WIDEST, "binary")
    else:
        labelled = re.sub(rb"(?m)^(-----(?:BEGIN|END) PGP )SIGNATURE(-----[ \t\r]*)$", rb"\1PUBLIC KEY BLOCK\2", revocation)
        both = opgp.read(keyring.write(armor=True) + b"\n" + labelled, _WIDEST, "armor")
    with both:
        behind = len(keyring.packets())
        signatures = {(it.certificate, it.component, it.hang): it for it in both.signatures() if it.nested is None}
        for it, (_, octets) in zip(both.packets()[behind:], cut(both)[behind:]):
            said = signatures.get((it.certificate, it.component, it.hang or 0)) if it.kind == 2 else None
            if said is None or said.kind != _KEY_REVOCATION or not said.issuer:
                raise ValueError("a packet that isn't a key revocation with an issuer")
            yield said.issuer, octets


def _with(certificate: opgp.Keyring, them: Sequence[bytes]) -> bytes:
    """The packets of a certificate, with these behind its primary key that aren't there."""
    packets = [it for _, it in cut(certificate)]
    return b"".join([packets[0], *dict.fromkeys(it for it in them if it not in packets), *packets[1:]])
