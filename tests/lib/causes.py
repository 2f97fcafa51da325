"""What makes a key not believed, worked out beside standing.py: the first reason, of which key, at which of two times, what the signatures
lack, a date, and where the first signature is that says so. Sections are those of RFC 9580."""

import collections
import re

import model
from standing import BINDING, CERTIFICATIONS, DIRECT, REVOCATION, SUBKEY_REVOCATION, USER_ID, end

# The reasons that are a key's.
OF_KEYS = ("future", "revoked", "early", "unbound", "expired", "flags", "back")
LACKS = ("newer", "lapsed", "weak", "malformed", "undated", "young", "critical")

# What opgp-verify and its other names write behind the reason.
WORDS = re.compile(r" key (?:pub|sub) at (?:made|now) lack \S+ date \S+ part \S+ hang \S+(?=$| \")", re.M)

Cause = collections.namedtuple("Cause", "why is_primary is_now lack date component hang")


def lacks(it, lack, t):
    """Whether a signature lacks this to speak at a time."""
    if lack == "critical":
        return not it.is_understood
    if lack in ("newer", "lapsed"):
        is_newer = it.made is not None and t < it.made
        return it.is_understood and it.doubt is None and (is_newer if lack == "newer" else not is_newer and not it.lives(t))
    return it.doubt == lack


class Finder:
    """Finds the cause of a key of a certificate, for a signature of one time that is read at another."""

    def __init__(self, certificate, component, made, now):
        self.of, self.key, self.made, self.now = certificate, component, made, now
        self.all = [(part, it) for part in (certificate.primary, *certificate.components) for it in part.said if it.is_genuine and certificate.may_revoke(it)]

    def told(self, why, key, is_now=False, lack=None, date=None, it=None):
        return Cause(why, key is self.of.primary, is_now, lack, date, *(it.spot if it else (None, None)))

    def found(self):
        """The cause; None: the key is believed."""
        why = self.of.standing(self.key, self.made, self.now)
        if why == "future":
            return self.told(why, self.key, date=self.made)
        if why == "early":
            key = self.of.primary if self.made < self.of.primary.key.created else self.key
            return self.told(why, key, date=key.key.created)
        return why and (self.revoked() if why == "revoked" else self.at_a_time(why))

    def revoked(self):
        for part, it in self.all:
            if it.kind == REVOCATION or (it.kind == SUBKEY_REVOCATION and part is self.key):
                return self.told("revoked", self.of.primary if it.kind == REVOCATION else self.key, date=it.made, it=it)
        raise ValueError("nothing revokes it")

    def is_so(self, why, t):
        """Whether a reason holds at a time."""
        of, key = self.of, self.key
        until = of.until(key, t)
        return {"unbound": not (of.speakers(of.primary, t) and of.speakers(key, t)), "expired": until is not None and t >= until,
                "flags": "sign" not in of.uses(key, t), "back": of.lacks_back(key, t)}[why]  # fmt: skip

    def at_a_time(self, why):
        is_now = not self.is_so(why, self.made)
        t = self.now if is_now else self.made
        if why == "unbound":
            return self.unbound(is_now, t)
        return self.expired(is_now, t) if why == "expired" else self.told(why, self.key, is_now)

    def own(self, key, kinds_of_others):
        """The signatures by the primary key that are on a key, or certify for it a part of one of these kinds; None: of any."""
        for part, it in self.all:
            if it.by != self.of.fingerprint:
                continue
            if key is not self.of.primary:
                is_one = it.kind == BINDING and part is key
            else:
                is_one = it.kind == DIRECT if part is key else it.kind in CERTIFICATIONS and (kinds_of_others is None or part.kind in kinds_of_others)
            if is_one:
                yield it

    def unbound(self, is_now, t):
        primary = self.of.primary
        key = self.key if self.of.speakers(primary, t) else primary
        them = list(self.own(key, (USER_ID,) if primary.key.version == 4 else ()))
        for lack in LACKS:
            for it in them:
                if lacks(it, lack, t):
                    return self.told("unbound", key, is_now, lack, it.made + it.lasts if lack == "lapsed" else it.made, it)
        return self.told("unbound", key, is_now)

    def expired(self, is_now, t):
        primary = self.of.primary
        until = end(primary.key, self.of.heard(primary, t))
        key = primary if until is not None and until <= t else self.key
        until = end(key.key, self.of.heard(key, t))
        them = (it for it in self.own(key, None) if it.lives(t) and it.key_lasts and key.key.created + it.key_lasts == until)
        return self.told("expired", key, is_now, date=until, it=next(them, None))


def cause(keyring, certificate, component, made, now):
    """The cause of the key at a place of standing.py's keyring."""
    it = keyring.certificates[certificate]
    return Finder(it, it.component(component), made, now).found()


def of_document(keyring, body, now):
    """The cause of a document's signature, by the first place of its signer's key."""
    it = model.kept_signature(body)
    signer = keyring.signer(it)
    place = next(place for place, key in keyring.table() if (key.version, key.fingerprint) == (signer.version, signer.fingerprint))
    return cause(keyring, *place, model.created_of(it), now)


def words_of(it):
    """What opgp-verify writes of a cause behind the reason."""
    date, component, hang = ("-" if number is None else number for number in (it.date, it.component, it.hang))
    key, at = "pub" if it.is_primary else "sub", "now" if it.is_now else "made"
    return f" key {key} at {at} lack {it.lack or '-'} date {date} part {component} hang {hang}"


def without(text):
    """The lines of opgp-verify without those words."""
    return WORDS.sub("", text)
