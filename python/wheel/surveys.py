"""How the keys and user IDs of a keyring stand, with what people ask of them: sizes, curves, addresses, and the hash algorithms of
the self-signatures that count.

    import opgp
    from opgp import surveys

    with opgp.read(open("keyring.asc", "rb").read()) as keyring:
        for it in surveys.survey(keyring, now, surveys.verdicts_by(keyring)):
            print(it.primary.key.fingerprint.hex().upper(), it.primary.how, [at.address for at in it.user_ids])

Nothing here does arithmetic, and nothing judges: verdicts are a verifier's, and the library's proved rule says how all stands
(docs/VALIDITY.md). Sections are those of RFC 9580.
"""

from __future__ import annotations

import ctypes
import dataclasses
import functools
import subprocess
from typing import Any, Callable, Iterable, NamedTuple, Optional, Sequence, Union

import opgp
from opgp import KeyFlags, Keyring, Verdict, Verifier, Why

__all__ = ["CertificateEntry", "KeyEntry", "Name", "Size", "UserIdEntry", "VerifierFailed", "WrongVerdicts", "claims", "escaped"]
__all__ += ["name_in", "once", "size_of", "survey", "verdicts_by", "verdicts_in"]

Basis = Union[Verifier, Sequence[Verdict], None]
"""What is known of a keyring's signatures: a verifier to ask, the verdict on each row, or nothing."""

_USER_ID, _SUBKEY, _ATTRIBUTE = 13, 14, 17
_DIRECT, _BINDING, _CERTIFICATIONS = 0x1F, 0x18, range(0x10, 0x14)
_WIDEST = opgp.Limits(2**20, 2**32 - 1, 2**40, 2**62, 2**24, keep_malformed=True)  # what was read is read again
_ANY = 1  # the library's number of that policy
_MISPLACED = 3  # the library's number of that why
_USES = {
    "certify": KeyFlags.CERTIFY,
    "sign": KeyFlags.SIGN,
    "encrypt": KeyFlags.ENCRYPT_COMMUNICATIONS,
    "authenticate": KeyFlags.AUTHENTICATE,
}

# The curves of the standard by their object identifiers (9.2), and one more of gpg's, as gpg names them; and the bits of their fields.
_CURVES = {
    "2A8648CE3D030107": ("nistp256", 256),
    "2B81040022": ("nistp384", 384),
    "2B81040023": ("nistp521", 521),
    "2B2403030208010107": ("brainpoolP256r1", 256),
    "2B240303020801010B": ("brainpoolP384r1", 384),
    "2B240303020801010D": ("brainpoolP512r1", 512),
    "2B06010401DA470F01": ("ed25519", 255),
    "2B060104019755010501": ("cv25519", 255),
    "2B8104000A": ("secp256k1", 256),
}
# The algorithms that have one curve (9.1).
_OWN_CURVES = {25: ("x25519", 255), 26: ("x448", 448), 27: ("ed25519", 255), 28: ("ed448", 448)}


class WrongVerdicts(ValueError):
    """The verdicts aren't those of this keyring."""


class VerifierFailed(OSError):
    """The verifier isn't there, or it failed."""


# ---- Sizes, names and texts


class Size(NamedTuple):
    """How large a key is."""

    bits: Optional[int]
    """Of RSA's n, of the p of DSA and Elgamal, or of the curve's field; None: not known."""
    curve: Optional[str]
    """The curve's name; of an unknown one its object identifier, such as 1.3.132.0.33. None: no curve."""

    def __str__(self) -> str:
        return self.curve or ("-" if self.bits is None else str(self.bits))


def size_of(key: opgp.Key) -> Size:
    """The size of a key, by its material (5.5.5) and its curve (9.2)."""
    first = key.material[0] if key.material else b""
    if key.algorithm in (1, 2, 3, 16, 17):
        return Size(int.from_bytes(first, "big").bit_length(), None)
    if key.algorithm in (18, 19, 22):
        curve, bits = _CURVES.get(first.hex().upper(), (_dotted(first), None))
        return Size(bits, curve)
    own, width = _OWN_CURVES.get(key.algorithm, (None, None))
    return Size(width, own)


def _dotted(octets: bytes) -> str:
    """An object identifier in decimal numbers, which its octets have in base 128; of what is none the hexadecimal digits."""
    if not octets or octets[-1] & 128:
        return f"oid-{octets.hex().upper()}"
    numbers, number = [], 0
    for it in octets:
        number = number << 7 | it & 127
        if not it & 128:
            numbers.append(number)
            number = 0
    first = min(numbers[0] // 40, 2)
    return ".".join(map(str, (first, numbers[0] - 40 * first, *numbers[1:])))


class Name(NamedTuple):
    """What is in a user ID, by the convention `Name (comment) <address>`, or an address alone."""

    name: Optional[str]
    comment: Optional[str]
    address: Optional[str]


def name_in(text: str) -> Name:
    """The name, comment and address in the text of a user ID (5.11); each None if it isn't there. The address is the whole text, or
    stands in the only `<` and `>`, at its end. A name may look like another address."""
    whole = text.strip()
    address = _address_in(whole)
    if not address:
        return Name(whole or None, None, None)
    if address == whole:
        return Name(None, None, whole)
    name, comment = whole[: -len(address) - 2].strip(), ""
    if name.endswith(")"):
        before, is_open, inside = name[:-1].rpartition("(")
        if is_open and ")" not in inside and (not before or before[-1].isspace()):
            name, comment = before.rstrip(), inside
    return Name(name or None, comment or None, address)


def _address_in(text: str) -> str:
    """The mail address in a text, by the library's rule, if all of it can be printed; else nothing."""
    found = opgp.user_id(text.encode("utf-8", "surrogatepass")).address or b""
    address = found.decode("utf-8")
    return address if address.isprintable() else ""


def escaped(text: str) -> str:
    """A text that may be printed in a line: quotation marks, backslashes and all that isn't printable are `\\x` and two digits for
    each octet. Nothing in it steers a terminal."""
    return "".join(it if it.isprintable() and it not in '"\\' else _digits(it) for it in text)


def _digits(letter: str) -> str:
    return "".join(f"\\x{it:02X}" for it in letter.encode("utf-8", "surrogateescape"))


# ---- Verdicts


_NOT_THOSE = "the verdicts aren't those of this keyring: opgp-verify --verdicts makes a file of them"


def verdicts_in(keyring: Keyring, file: bytes) -> list[Verdict]:
    """The verdicts on the keyring's signatures, by their rows once it is merged (`once`), in a file that `opgp-verify --verdicts` wrote of
    it: the library reads it. Raises WrongVerdicts for any other, such as one that is cut, that is of another keyring, or that a policy
    has changed."""
    found = opgp._read_verdicts(opgp._opened(keyring), opgp._bytes(file))
    if found is None:
        raise WrongVerdicts(_NOT_THOSE)
    return [Verdict(it) for it in found]


def verdicts_by(keyring: Keyring, program: str = "opgp-verify") -> list[Verdict]:
    """The verdicts of the program opgp-verify, by this name or path, on the keyring's signatures, by their rows once it is merged
    (`once`). It isn't asked about what other keys certify: that says nothing of how a certificate's parts stand, and is most of the work.
    Raises VerifierFailed if the program can't be run or fails, and WrongVerdicts if it writes no such file as `verdicts_in` takes."""
    keyring = once(keyring)
    rows = _jobs(opgp._opened(keyring))
    primary = {it.certificate: bytes(it.print) for it in rows.keys if it.component == opgp._NONE}
    theirs = {row for row, it in enumerate(rows.jobs) if it.kind in _CERTIFICATIONS and it.nested == opgp._NONE and it.hang != opgp._NONE
              and (it.signer == opgp._NONE or bytes(rows.keys[it.signer].print) != primary[it.certificate])}  # fmt: skip
    places = {(it.certificate, it.component, it.hang) for it in map(rows.jobs.__getitem__, theirs)}
    own = b"".join(octets for place, octets in cut(keyring) if place not in places)
    with opgp.read(own, _WIDEST, "binary") as less:
        found = iter(verdicts_in(less, _run(program, own)))
    return [Verdict.UNDECIDED if row in theirs else next(found) for row in range(len(rows.jobs))]


def cut(keyring: Keyring) -> list[tuple[tuple[int, int, int], bytes]]:
    """The octets of each packet in the shortest form (4.2.1), behind its certificate, component and place as the library numbers
    them."""
    with keyring.normalised() as one:
        octets, at, found = one.write(), 0, []
        for _, it in opgp._rows("packets", opgp._Packet, opgp._opened(one), None):
            size = it.size + (2 if it.size < 192 else 3 if it.size < 8384 else 6)
            found.append(((it.certificate, it.component, it.hang), octets[at : at + size]))
            at += size
    return found


def _run(program: str, octets: bytes) -> bytes:
    """What a verifier writes of a keyring. It ends with 1 if a signature is bad; or, and then it writes nothing, if it doesn't read it."""
    try:
        ended = subprocess.run([program, "--verdicts"], input=octets, capture_output=True, check=False)
    except OSError as why:
        raise VerifierFailed(f"{escaped(program)}: {why.strerror or why}") from why
    if ended.returncode not in (0, 1) or (ended.returncode and not ended.stdout):
        said = ended.stderr.decode("utf-8", "replace").strip().split("\n")[0 if ended.returncode == 2 else -1]
        raise VerifierFailed(f"{escaped(program)} ended with {ended.returncode}: {escaped(said)}")
    return ended.stdout


def claims(keyring: Keyring) -> list[Verdict]:
    """What the signatures claim, by their rows once the keyring is merged (`once`), if nothing is verified: as `opgp state` does without
    verdicts, each is good, unless its digest is bad."""
    rows = _jobs(opgp._opened(once(keyring)))
    return [Verdict(it) for it in rows.claims()]


class _Jobs(NamedTuple):
    """The library's table of signatures, which is read as it is: rows of Python take many times as long."""

    handle: Any
    jobs: list[Any]
    keys: list[Any]
    revocations: dict[int, bytes]

    def may_count(self, row: int) -> bool:
        """Whether a verdict counts: the signature is hashed, or revokes the primary key from another place (5.2.1.11)."""
        why = self.jobs[row].why
        return why == 0 or (why == _MISPLACED and row in self.revocations)

    def is_bad(self, row: int) -> bool:
        """Whether its digest doesn't begin with the octets that it states."""
        it = self.jobs[row]
        return bool(it.is_bad) or (it.why == _MISPLACED and row in self.revocations and self.revocations[row][:2] != bytes(it.left))

    def claims(self) -> bytes:
        """The numbers of the verdicts that count if nothing is verified."""
        good, bad = Verdict.GOOD.value, Verdict.BAD.value
        return bytes((bad if self.is_bad(it) else good) if self.may_count(it) else 0 for it in range(len(self.jobs)))


def _jobs(handle: Any) -> _Jobs:
    jobs = [it for _, it in opgp._rows("jobs", opgp._Job, handle, None)]
    keys = [it for _, it in opgp._rows("keys", opgp._Key, handle, None)]
    return _Jobs(handle, jobs, keys, opgp._revocations(handle))


def _numbers(rows: _Jobs, keyring: Keyring, basis: Basis) -> bytes:
    """The numbers of the verdicts on each row."""
    if basis is None:
        return rows.claims()
    if callable(basis):
        them = (opgp._over_the_key(it, rows.revocations) for it in keyring.signatures())
        return bytes(opgp._verdict(it, rows.handle, basis).value for it in them)
    if len(basis) != len(rows.jobs):
        raise WrongVerdicts(f"{len(basis)} verdicts, and the keyring has {len(rows.jobs)} signatures")
    claimed = rows.claims()  # of what doesn't count, and what is bad by itself, no verdict says that it is good
    return bytes(claim if it is Verdict.GOOD else Verdict(it).value for it, claim in zip(basis, claimed))


# ---- Entries


def once(keyring: Keyring) -> Keyring:
    """The keyring itself; or, if merging it changes something, what `Keyring.merged` makes of it: one copy of a certificate may lack a
    revocation."""
    handle = opgp._opened(keyring)
    return keyring if handle.merged() is handle else keyring.merged()


@dataclasses.dataclass(frozen=True)
class KeyEntry:
    """A key, and how it stands."""

    key: opgp.Key
    size: Size
    state: opgp.State
    hashes: tuple[str, ...]
    """The names of the hash algorithms (9.5) of the newest self-signatures that speak for it, weak ones too; none: nothing does,
    or nothing says when."""
    is_verified: bool
    """Whether a verifier was asked. Else this is what signatures claim, and anybody can claim that."""

    @property
    def how(self) -> str:
        """usable, revoked, early, unbound, expired or no-use."""
        return "usable" if self.state.why is None else self.state.why.name.lower().replace("_", "-")

    @property
    def uses(self) -> tuple[str, ...]:
        """What it may be used for, of certify, sign, encrypt and authenticate (5.2.3.29)."""
        return tuple(name for name, flag in _USES.items() if flag in self.state.uses)


@dataclasses.dataclass(frozen=True)
class UserIdEntry:
    """A user ID (5.11), and how it stands."""

    octets: bytes
    state: opgp.State
    made: Optional[int]
    """When the newest certification that counts was made, in seconds since 1970; None: there is none."""
    is_verified: bool

    @property
    def text(self) -> str:
        """Its text. An octet that isn't UTF-8 is a lone surrogate, as os.fsdecode makes it."""
        return self.octets.decode("utf-8", "surrogateescape")

    @property
    def is_utf8(self) -> bool:
        """Whether it is UTF-8, as it should be."""
        return not any("\udc80" <= it <= "\udcff" for it in self.text)

    @functools.cached_property
    def name(self) -> Name:
        """The name, comment and address in it."""
        return name_in(self.text)

    @property
    def address(self) -> Optional[str]:
        """The address in it."""
        return self.name.address

    @property
    def how(self) -> str:
        """certified, revoked or unbound."""
        return _identity(self.state)


def _identity(state: opgp.State) -> str:
    return "certified" if state.why is None else state.why.name.lower()


@dataclasses.dataclass(frozen=True)
class CertificateEntry:
    """A certificate, and how its parts stand."""

    number: int
    """Its number in the keyring, from 0."""
    keys: tuple[KeyEntry, ...]
    """Its keys, the primary key first."""
    user_ids: tuple[UserIdEntry, ...]
    attributes: tuple[opgp.State, ...]
    is_verified: bool

    @property
    def primary(self) -> KeyEntry:
        """Its primary key."""
        return self.keys[0]


def survey(keyring: Keyring, at: int, basis: Basis = None, rely: str = "usual") -> list[CertificateEntry]:
    """How each certificate of a keyring stands at a time, in seconds since 1970, by the rule of docs/VALIDITY.md.

    The basis is a verifier, as `Keyring.states` takes it, or the verdict on each row, as `verdicts_by` and `verdicts_in` give
    them. With None the entries say what signatures claim, and that they aren't verified. `rely` is the policy of `Keyring.states`:
    which hash algorithms and keys are relied on.

    A certificate is judged alone, and one copy of it may lack a revocation, so the keyring is merged: see `once`.

    Raises ValueError for a time below 0 or from 2**64 on, another policy, or a closed keyring; WrongVerdicts for verdicts of
    another number; and what the verifier raises.
    """
    time, policy, keyring = opgp._time(at), opgp._policy(rely), once(keyring)
    handle = opgp._opened(keyring)
    return _Survey(_jobs(handle), time, keyring, basis).entries(policy, basis is not None)


_Place = tuple[int, Optional[int]]  # a certificate, and a component of it; None: its primary key
_Group = tuple[int, list[int]]  # rows of signatures that were made at one time, behind that time


class _Survey:
    """The tables of a keyring, and what was asked about them."""

    def __init__(self, rows: _Jobs, at: int, keyring: Keyring, basis: Basis) -> None:
        self.rows, self.at = rows, at
        self.verdicts = _numbers(rows, keyring, basis)
        self.keys = opgp._keys(rows.handle)
        heads = [it for _, it in opgp._rows("packets", opgp._Packet, rows.handle, None) if it.hang == opgp._NONE]
        self.heads = {(it.certificate, opgp._number(it.component)): it for it in heads if it.certificate != opgp._NONE}
        self.places = {it: number for number, it in enumerate(self.heads)}

    def states(self, verdicts: bytes, policy: int) -> list[Any]:
        """The library's rows of how each part stands, by the numbers of verdicts."""
        states, size = (opgp._State * len(self.heads))(), ctypes.c_uint64()
        given = verdicts, len(verdicts), policy, self.at, states, len(states), size
        opgp._raise_but_for_done(self.rows.handle.by_ring(lambda ring: opgp._library.opgp_ring_states(ring, *given)))
        return list(states)

    def entries(self, policy: int, is_verified: bool) -> list[CertificateEntry]:
        """All entries."""
        states = {it: opgp._state(state) for it, state in zip(self.heads, self.states(self.verdicts, policy))}
        spoken = _Speakers(self).found()
        keys: dict[int, list[KeyEntry]] = {}
        others: dict[int, tuple[list[UserIdEntry], list[opgp.State]]] = {}
        for it in self.keys:
            place = it.certificate, it.component
            hashes = tuple(sorted({_hash_name(self.rows.jobs[row].hash) for row in spoken.keys.get(place, ())}))
            keys.setdefault(it.certificate, []).append(KeyEntry(it, size_of(it), states[place], hashes, is_verified))
        for place, head in self.heads.items():
            user_ids, attributes = others.setdefault(place[0], ([], []))
            if head.kind == _USER_ID:
                body = opgp._octets(opgp._library.opgp_body(self.rows.handle, head))
                user_ids.append(UserIdEntry(body, states[place], spoken.made.get(place), is_verified))
            elif head.kind == _ATTRIBUTE:
                attributes.append(states[place])
        return [CertificateEntry(it, tuple(keys[it]), tuple(others[it][0]), tuple(others[it][1]), is_verified) for it in keys]


def _hash_name(number: int) -> str:
    return opgp._name(opgp._HASH_ALGORITHMS, number) or str(number)


class _Spoken(NamedTuple):
    """What was found of self-signatures."""

    keys: dict[_Place, list[int]]
    """The rows of the newest ones that speak for a key."""
    made: dict[_Place, int]
    """When the newest one that counts certified a user ID."""


class _Speakers:
    """Finds the self-signatures that speak for a part. The library doesn't say which they are, but it says of any verdicts whether
    something speaks. So it is asked what would be if only the newest ones were good, and the fewest of those that suffice are
    found by halving. Only the newest that count are heard (5.2.3.10), so the oldest of these is the one."""

    def __init__(self, of: _Survey) -> None:
        self.of = of
        prints = [it.fingerprint for it in of.keys]
        primary = {it.certificate: it.fingerprint for it in of.keys if it.is_primary}
        self.direct: dict[_Place, list[_Group]] = {}
        self.certified: dict[_Place, list[_Group]] = {}
        self.bound: dict[_Place, list[_Group]] = {}
        found: dict[_Place, dict[int, list[int]]] = {}
        for row, it in enumerate(of.rows.jobs):
            if of.verdicts[row] != 1 or it.nested != opgp._NONE or not it.is_dated or it.signer == opgp._NONE:
                continue
            place = it.certificate, opgp._number(it.component)
            if self.table(it.kind, place) is not None and prints[it.signer] == primary.get(it.certificate):
                found.setdefault(place, {}).setdefault(it.created, []).append(row)
        for place, groups in found.items():
            kind = of.rows.jobs[next(iter(groups.values()))[0]].kind
            table = self.table(kind, place)
            if table is not None:
                table[place] = sorted(groups.items(), reverse=True)

    def table(self, kind: int, place: _Place) -> Optional[dict[_Place, list[_Group]]]:
        """The table for signatures of this type there; None: they don't speak."""
        head = self.of.heads[place].kind
        if kind == _DIRECT and place[1] is None:
            return self.direct
        if kind in _CERTIFICATIONS and head == _USER_ID:
            return self.certified
        return self.bound if kind == _BINDING and head == _SUBKEY else None

    def found(self) -> _Spoken:
        """All of them."""
        direct = self.newest(self.direct, (), _is_bound)
        certified = self.newest(self.certified, (), _is_certified)
        beside = [row for table in (self.direct, self.certified) for groups in table.values() for _, rows in groups for row in rows]
        keys = {place: list(rows) for place, (_, rows) in self.newest(self.bound, beside, _is_bound).items()}
        for place, (_, rows) in direct.items():
            keys[place] = list(rows)
        for place, rows in self.of_primary(certified).items():
            keys.setdefault(place, []).extend(rows)
        return _Spoken(keys, {place: made for place, (made, _) in certified.items()})

    def of_primary(self, certified: dict[_Place, _Group]) -> dict[_Place, list[int]]:
        """The newest certifications of user IDs that count, by the primary key for which they speak: in version 4 they do (10.1)."""
        last: dict[int, int] = {}
        for (certificate, _), (made, _) in certified.items():
            last[certificate] = max(made, last.get(certificate, 0))
        rows = [row for (at, _), (made, rows) in certified.items() if made == last[at] for row in rows]
        states = self.asked(rows) if rows else []
        found: dict[_Place, list[int]] = {}
        for row in rows:
            place = self.of.rows.jobs[row].certificate, None
            if _is_bound(states[self.of.places[place]]):
                found.setdefault(place, []).append(row)
        return found

    def asked(self, rows: Iterable[int]) -> list[Any]:
        """How all would stand if only these were good, and every hash algorithm relied on."""
        verdicts = bytearray(len(self.of.verdicts))
        for it in rows:
            verdicts[it] = 1
        return self.of.states(bytes(verdicts), _ANY)

    def newest(self, table: dict[_Place, list[_Group]], beside: Sequence[int], holds: Callable[[Any], bool]) -> dict[_Place, _Group]:
        """Of each place the newest group by which it holds, with others beside that are good too."""
        least = {place: 1 for place in table}
        most = {place: len(groups) + 1 for place, groups in table.items()}  # one more than there are: none suffices
        is_first = True
        while tries := {it: least[it] if is_first else (least[it] + most[it]) // 2 for it in table if least[it] < most[it]}:
            is_first = False
            states = self.asked([*beside, *(row for it, count in tries.items() for _, rows in table[it][:count] for row in rows)])
            for it, count in tries.items():
                if holds(states[self.of.places[it]]):
                    most[it] = count
                else:
                    least[it] = count + 1
        return self.by_hash({it: groups[least[it] - 1] for it, groups in table.items() if least[it] <= len(groups)}, beside, holds)

    def by_hash(self, found: dict[_Place, _Group], beside: Sequence[int], holds: Callable[[Any], bool]) -> dict[_Place, _Group]:
        """The same groups, each without those of a hash algorithm by which alone it doesn't hold: of several made at one time some may
        not count."""
        jobs = self.of.rows.jobs
        mixed = {it: rows for it, (_, rows) in found.items() if len({jobs[row].hash for row in rows}) > 1}
        for number in sorted({jobs[row].hash for rows in mixed.values() for row in rows}):
            states = self.asked([*beside, *(row for rows in mixed.values() for row in rows if jobs[row].hash == number)])
            for it in mixed:
                if not holds(states[self.of.places[it]]):
                    made, rows = found[it]
                    found[it] = made, [row for row in rows if jobs[row].hash != number]
        return found


def _is_bound(state: Any) -> bool:
    return state.why in (0, Why.EXPIRED.value, Why.NO_USE.value)


def _is_certified(state: Any) -> bool:
    return bool(state.why == 0)
