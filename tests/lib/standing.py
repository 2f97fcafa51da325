"""Whether a key may be believed for a signature that was made at one time and is read at another, worked out as plainly as it goes: an
answer to hold the program's against.

It does no arithmetic: a keyring comes with a verdict for each row of `opgp check`, which is GOOD, BAD or UNDECIDED. A key has a place:
the numbers of its certificate and of its component, as in those rows; None is the primary key. Sections are those of RFC 9580."""

import collections
import copy
import functools

import model

GOOD, BAD, UNDECIDED = "good", "bad", "undecided"
DIRECT, REVOCATION, BINDING, BACK, SUBKEY_REVOCATION, IDENTITY_REVOCATION = 0x1F, 0x20, 0x18, 0x19, 0x28, 0x30
CERTIFICATIONS = (0x10, 0x11, 0x12, 0x13)
PRIMARY, SUBKEY, USER_ID, ATTRIBUTE = 6, 14, 13, 17
NOTATION = 20
# How many octets the digests of the hash algorithms have that the usual policy relies on (9.5).
RELIED = {11: 28, 8: 32, 9: 48, 10: 64, 12: 32, 14: 64}
# What a signature of these types is made over is what it hangs on (5.2.1). A key revocation counts wherever it hangs.
PLACES = {
    PRIMARY: (DIRECT, REVOCATION),
    USER_ID: (*CERTIFICATIONS, IDENTITY_REVOCATION, REVOCATION),
    ATTRIBUTE: (*CERTIFICATIONS, IDENTITY_REVOCATION, REVOCATION),
    SUBKEY: (BINDING, SUBKEY_REVOCATION, REVOCATION),
}
# The bits of key flags (5.2.3.29) that allow a use: one of them is enough.
USES = {"certify": 0x01, "sign": 0x02, "encrypt": 0x0C, "authenticate": 0x20}

Key = collections.namedtuple("Key", "version created fingerprint key_id is_strong least")
Part = collections.namedtuple("Part", "kind body key hangs numbers")


# What is read.


def is_strong(body):
    """Whether the usual policy relies on the key of this body."""
    material = model.key_material(body)
    if body[5] in (1, 2, 3):
        return model.number(material[0]).bit_length() >= 2048
    if body[5] == 17:
        return model.number(material[0]).bit_length() >= 2048 and model.number(material[1]).bit_length() >= 224
    return body[5] != 19 or len(material[1]) >= 57


def least_digest(body):
    """How many octets the digest of a signature by the key of this body has at least (5.2.3.2 to 5.2.3.5)."""
    material = model.key_material(body)
    if body[5] == 17:
        return (model.number(material[1]).bit_length() + 7) // 8
    if body[5] == 19:
        return min(len(material[1]) // 2, 64)
    return {22: 32, 27: 32, 28: 64}.get(body[5], 0)


def key_of(body):
    name = model.fingerprint(body)
    return Key(body[0], model.number(body[1:5]), name, name[:8] if body[0] == 6 else name[-8:], is_strong(body), least_digest(body))


@functools.lru_cache(maxsize=1)
def read(octets):
    """The certificates of a binary keyring: each its parts, the primary key first, with the signatures that hang on each."""
    block = (b"PUBLIC KEY BLOCK", octets)
    packets = model.framed([block], model.USUAL)
    certificates = []
    for parts in model.compose([block], packets, model.USUAL)[1]:
        certificates.append([])
        for head, hangs in parts:
            kind, body = packets[head][2], packets[head][4]
            numbers = [n for n, it in enumerate(hangs) if packets[it][2] == 2]
            signatures = [model.kept_signature(packets[hangs[n]][4]) for n in numbers]
            certificates[-1].append(Part(kind, body, key_of(body) if kind in (PRIMARY, SUBKEY) else None, signatures, numbers))
    return certificates


def rows(certificates):
    """Each signature in the order of the rows: its certificate, its part, itself, and whether it is embedded in the one before."""
    for certificate in certificates:
        for part in certificate:
            for it in part.hangs:
                yield certificate, part, it, False
                if part.kind == SUBKEY and it.version in (4, 6) and it.kind == BINDING:
                    for octet, _, octets in (*it.hashed, *it.unhashed):
                        if octet & 127 == 32:
                            yield certificate, part, model.kept_signature(octets), True


# What a signature says.


def is_critical(it):
    """Whether it has a critical subpacket that isn't understood (5.2.3.7): an unknown kind, an unfit one, any notation (5.2.3.24)."""
    for octet, _, octets in (*it.hashed, *it.unhashed):
        if octet & 128 and (octet & 127 == NOTATION or model.meaning(octet & 127, octets) != "typed"):
            return True
    return False


def is_unfit(it):
    """Whether the data of a subpacket in its hashed area hasn't the form of its kind."""
    return any(model.meaning(octet & 127, octets) == "unfit" for octet, _, octets in it.hashed)


def relies_on(hash, signer):
    """Whether the usual policy does on a signature by this hash algorithm and this key."""
    return hash in RELIED and signer.is_strong and RELIED[hash] >= signer.least


class Said:
    """What a signature says in its hashed area, and what was found of it."""

    def __init__(self, it, signer, policy, verdict, is_in_place):
        self.kind, self.by = it.kind, signer.fingerprint if signer else None
        self.is_genuine = verdict == GOOD and is_in_place
        self.is_understood = not is_critical(it)
        self.is_relied_on = policy == "any" or (signer is not None and relies_on(it.hash, signer))
        said = {kind: [] for kind in (2, 3, 9, 12, 25, 27, 29)}
        for octet, _, octets in it.hashed:
            if octet & 127 in said and model.meaning(octet & 127, octets) == "typed":
                said[octet & 127].append(octets)
        self.times = list(map(model.number, said[2]))
        self.made = self.times[0] if len(self.times) == 1 else None
        self.is_of_its_age = signer is not None and self.made is not None and self.made >= signer.created
        self.is_good = self.is_genuine and self.is_understood and self.is_relied_on and self.is_of_its_age and not is_unfit(it)
        doubts = ("weak", not self.is_relied_on), ("malformed", is_unfit(it)), ("undated", self.made is None), ("young", not self.is_of_its_age)
        self.doubt = next((word for word, holds in doubts if holds), None)
        self.spot = None, None  # the component that it is on, and its number among the packets behind that
        self.lasts, self.key_lasts = (min(filter(None, map(model.number, said[kind])), default=0) for kind in (3, 9))
        flags = [octets[0] if octets else 0 for octets in said[27]]
        self.has_flags = bool(flags)
        self.uses = {use for use, bits in USES.items() if all(it & bits for it in flags)}
        self.is_main = any(octets != b"\0" for octets in said[25])
        self.revokers = {octets[2:] for octets in said[12] if octets[0] & 0x80}
        self.reason = said[29][0][0] if said[29] else None
        self.back = None

    def each(self):
        """It at each time that it states, if these are several: none is good then, and a back signature is the last one's."""
        if len(self.times) < 2:
            return [self]
        found = [copy.copy(self) for _ in self.times]
        for it, it.made in zip(found, self.times):
            it.back = self.back if it is found[-1] else None
        return found

    def lives(self, t):
        return self.made is not None and self.made <= t and not self.has_lapsed(t)

    def has_lapsed(self, t):
        return self.lasts != 0 and t >= self.made + self.lasts


class Component:
    """A part of a certificate, with what its signatures say."""

    def __init__(self, part):
        self.kind, self.key, self.said = part.kind, part.key, []


def is_good(it):
    return it.is_good


def newest(group, t):
    """Those of a group that live and were made last (5.2.3.10)."""
    alive = [it for it in group if it.lives(t)]
    last = max((it.made for it in alive), default=None)
    return [it for it in alive if it.made == last]


def end(key, speakers):
    """When the key expires by these (5.2.3.13), or None."""
    return min((key.created + it.key_lasts for it in speakers if it.key_lasts), default=None)


class Certificate:
    def __init__(self, components):
        self.primary, *self.components = components
        self.fingerprint = self.primary.key.fingerprint
        genuine = [it for component in components for it in component.said if it.is_genuine]
        # The fingerprints of 20 octets of the revokers that the primary key names (5.2.3.23).
        named = [it.revokers for it in genuine if it.by == self.fingerprint and it.kind in (DIRECT, *CERTIFICATIONS)]
        self.revokers = set().union(*named)
        self.is_revoked = any(it.kind == REVOCATION and self.may_revoke(it) for it in genuine)

    def may_revoke(self, it):
        return it.by == self.fingerprint or it.by in self.revokers

    def component(self, number):
        return self.primary if number is None else self.components[number]

    def is_withdrawn(self, it, component):
        """Whether the primary key has revoked this certification of a component: not before it was made (5.2.1.13)."""
        own = [s for s in component.said if s.is_genuine and s.kind == IDENTITY_REVOCATION and s.by == self.fingerprint]
        return any(None in (s.made, it.made) or s.made >= it.made for s in own)

    def certifications(self, component, stand):
        """Those of a user ID or attribute; with stand without those that are revoked."""
        return [it for it in self.own(CERTIFICATIONS, component) if not (stand and self.is_withdrawn(it, component))]

    def spoken(self, t, stand):
        """Those that would speak for the primary key (10.1): the newest good direct key signatures, and in version 4 also the newest good
        ones of all certifications of user IDs."""
        found = newest(filter(is_good, self.own((DIRECT,), self.primary)), t)
        if self.primary.key.version == 4:
            user_ids = [it for it in self.components if it.kind == USER_ID]
            found = found + newest([s for it in user_ids for s in self.certifications(it, stand) if s.is_good], t)
        return found

    def own(self, kinds, *components):
        """The genuine signatures of these types by the primary key, without those in which something critical isn't understood."""
        found = [s for it in components for s in it.said if s.kind in kinds and s.by == self.fingerprint]
        return [s for s in found if s.is_genuine and s.is_understood]

    def speakers(self, component, t):
        """Those that speak for a key at a time: for a subkey the newest good bindings; for the primary key what isn't revoked, or if that
        is nothing, what is."""
        if component is not self.primary:
            return newest(filter(is_good, self.own((BINDING,), component)), t)
        return self.spoken(t, True) or self.spoken(t, False)

    def limiters(self, component, t):
        """Those that must allow a use beside them, good or not: a weak one, too, was made by the key's owner."""
        if component is not self.primary:
            return newest(self.own((BINDING,), component), t)
        stand = bool(self.spoken(t, True))
        # Of each user ID and attribute its newest: what they replaced neither marks it as primary nor lets the key expire.
        latest = [s for it in self.components if it.kind in (USER_ID, ATTRIBUTE) for s in newest(self.certifications(it, stand), t)]
        groups = (self.own((DIRECT,), component), latest, [it for it in latest if it.is_main], [it for it in latest if it.key_lasts])
        return [it for group in groups for it in newest(group, t)]

    def heard(self, component, t):
        return self.speakers(component, t) + self.limiters(component, t)

    def revokes(self, component):
        """Whether something revokes this key: whatever else it says, arithmetic is enough."""
        own = (it for it in component.said if it.is_genuine and it.kind == SUBKEY_REVOCATION)
        return self.is_revoked or any(map(self.may_revoke, own))

    def until(self, component, t):
        """The end of the key and of the primary key, whichever is first, by those that speak at a time; or None."""
        ends = [end(it.key, self.heard(it, t)) for it in (self.primary, component)]
        return min((it for it in ends if it is not None), default=None)

    def why(self, component, made, now):
        """The first reason why the key is none to believe at these times, whatever it is used for; or None."""
        if now < made:
            return "future"
        if self.revokes(component):
            return "revoked"
        if made < max(component.key.created, self.primary.key.created):
            return "early"
        times = (made, now)
        if not all(self.speakers(it, t) for it in (self.primary, component) for t in times):
            return "unbound"
        ends = [(t, self.until(component, t)) for t in times]
        return "expired" if any(end is not None and t >= end for t, end in ends) else None

    def standing(self, component, made, now):
        """The first reason why the key isn't one to believe for a document's signature; or None."""
        why = self.why(component, made, now)
        if why:
            return why
        if any("sign" not in self.uses(component, t) for t in (made, now)):
            return "flags"
        return "back" if any(self.lacks_back(component, t) for t in (made, now)) else None

    def lacks_back(self, component, t):
        """Whether a binding of a subkey that is heard has no good signature by the subkey that counts then (5.2.1.9)."""
        return component is not self.primary and any(not it.back or not it.back.lives(t) for it in self.heard(component, t))

    def uses(self, component, t):
        """What all that is heard for a key lets it be used for, if one that speaks for it has flags."""
        is_said = any(it.has_flags for it in self.speakers(component, t))
        return [use for use in USES if is_said and all(use in it.uses for it in self.heard(component, t))]

    def reason(self, component):
        """The reason that the first revocation of a key states; or None."""
        genuine = [(part, it) for part in (self.primary, *self.components) for it in part.said if it.is_genuine and self.may_revoke(it)]
        reasons = [it.reason for part, it in genuine if it.kind == REVOCATION or (it.kind == SUBKEY_REVOCATION and part is component)]
        return reasons[0] if reasons else None

    def state_of_key(self, component, at):
        """Why it is of no use, what it may be used for, from when, until when (None: for ever), and the reason of its first revocation."""
        lost = ("certify", "sign") if self.lacks_back(component, at) else ()
        uses = [it for it in self.uses(component, at) if it not in lost]
        begin = max(component.key.created, self.primary.key.created)
        why = self.why(component, at, at) or (None if uses else "no-use")
        return why, uses, begin, self.until(component, at), self.reason(component)

    def state_of_identity(self, component, at):
        if newest(filter(is_good, self.certifications(component, True)), at):
            return "fine"
        own = [it for it in component.said if it.is_genuine and it.by == self.fingerprint]
        return "revoked" if any(it.kind == IDENTITY_REVOCATION for it in own) else "unbound"


class Keyring:
    """A binary keyring, with a verdict for each of its rows."""

    def __init__(self, octets, verdicts, policy="usual"):
        self.policy = policy
        certificates = read(octets)
        keys = [part.key for certificate in certificates for part in certificate if part.key]
        # The first key of each name counts.
        self.names = {key.key_id: key for key in reversed(keys)}
        self.names.update((bytes([key.version]) + key.fingerprint, key) for key in reversed(keys))
        components = [[Component(part) for part in certificate] for certificate in certificates]
        places = {id(part): one for c, some in zip(certificates, components) for part, one in zip(c, some)}
        found = list(rows(certificates))
        if len(found) != len(verdicts):
            raise ValueError(f"{len(verdicts)} verdicts for {len(found)} rows")
        spots = {id(it): (n - 1 if n else None, number) for c in certificates for n, part in enumerate(c) for it, number in zip(part.hangs, part.numbers)}
        outer, is_first = None, True
        for (certificate, part, it, is_embedded), verdict in zip(found, verdicts):
            if is_embedded:
                if is_first:
                    self.embed(outer, it, verdict, part)
                is_first = False
            else:
                outer, is_first = self.said(it, verdict, it.kind in PLACES[part.kind]), True
                outer.spot = spots[id(it)]
                if it.version == certificate[0].key.version:
                    places[id(part)].said.append(outer)
        for part in places.values():
            part.said = [it for said in part.said for it in said.each()]
        self.certificates = [Certificate(it) for it in components]

    def signer(self, it):
        """The first key that the signature names; what it names first decides, there or not."""
        named = [octets for octet, _, octets in it.hashed if octet & 127 == 33 and model.meaning(33, octets) == "typed"]
        named += [octets for octet, _, octets in (*it.hashed, *it.unhashed) if octet & 127 == 16 and len(octets) == 8]
        return self.names.get(named[0]) if named else None

    def said(self, it, verdict, is_in_place):
        return Said(it, self.signer(it), self.policy, verdict, is_in_place)

    def embed(self, binding, it, verdict, part):
        """Gives a binding what is embedded in it first, if that is good and by the subkey: its back signature (5.2.1.9)."""
        back = self.said(it, verdict, it.kind == BACK)
        if back.is_good and back.by == part.key.fingerprint:
            binding.back = back

    def standing(self, certificate, component, made, now):
        """Why the key isn't one to believe for a document's signature of that time, read now; or None."""
        it = self.certificates[certificate]
        return it.standing(it.component(component), made, now)

    def table(self):
        """The place of each key, and the key, in order."""
        for c, certificate in enumerate(self.certificates):
            for number, it in [(None, certificate.primary), *enumerate(certificate.components)]:
                if it.key:
                    yield (c, number), it.key

    def flaw(self, it, key, now):
        """What is wrong with a document's signature itself, as one by this key; or None."""
        if it.version not in (4, 6) or it.kind not in (0x00, 0x01):
            return "type"
        signer = self.signer(it)
        if signer is None or (signer.version, signer.fingerprint) != (key.version, key.fingerprint):
            return "issuer"
        said = Said(it, signer, self.policy, GOOD, True)
        if not said.is_understood or is_unfit(it):
            return "critical"
        if not said.is_relied_on:
            return "weak"
        if said.made is None:
            return "time"
        return "lapsed" if said.has_lapsed(now) else None

    def belief(self, body, place, now):
        """Why a document's signature of this body that is good isn't to be believed as one by the key at a place; or None."""
        it, (certificate, component) = model.kept_signature(body), place
        key = self.certificates[certificate].component(component).key
        return self.flaw(it, key, now) or self.standing(certificate, component, model.created_of(it), now)

    def believed(self, body, verdict, now):
        """Why a document's signature of this body, on which there is this verdict, isn't to be believed; or None."""
        it = model.kept_signature(body)
        signer = self.signer(it) if it.version in (4, 6) else None
        if verdict == BAD:
            return "bad"
        if verdict != GOOD or it.kind not in (0x00, 0x01) or signer is None or it.version != signer.version:
            return "undecided"
        places = [place for place, key in self.table() if (key.version, key.fingerprint) == (signer.version, signer.fingerprint)]
        whys = [self.belief(body, place, now) for place in places]
        return None if None in whys else whys[0]

    def state(self, certificate, at):
        """Of each part, in order: of a key why it is none to believe, its uses, from when and until when; of another one a word."""
        it = self.certificates[certificate]
        return [it.state_of_key(one, at) if one.key else it.state_of_identity(one, at) for one in (it.primary, *it.components)]
