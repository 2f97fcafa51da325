"""The cases of this folder: keyrings, signatures over one document, and for each signature what tests/lib/standing.py is to answer,
which was worked out by hand. make.py writes their octets, and ask.py what other programs say of them."""

import collections
import functools
import os
import sys

sys.dont_write_bytecode = True
HERE = os.path.dirname(os.path.realpath(__file__))
sys.path[:0] = [HERE, f"{HERE}/../../lib"]

import model  # noqa: E402
import signers  # noqa: E402
from openpgp_maker import number, on_identity, packet, signature, signature_3, subpacket  # noqa: E402

DAY = 86400
NOW = 1795132800  # 2026-11-20, when a case is read
BORN = NOW - 1000 * DAY  # the keys are made
SIGNED = NOW - 100 * DAY  # the document is signed
LATER = NOW - 50 * DAY  # something happens after that
DOCUMENT = b"document\n"
NAME = b"Test <t@example.org>"
SECOND = b"Second <s@example.org>"
PICTURE = subpacket(1, b"\x10\0\x01\x01" + bytes(12) + b"\xff\xd8\xff\xd9")  # an attribute: an image of no lines (5.12.1)
KEY, SIGNATURE, SUBKEY, USER_ID, ATTRIBUTE, MARKER = 6, 2, 14, 13, 17, 10
CERTIFY, SIGN, ENCRYPT = 1, 2, 12
UNKNOWN = subpacket(60, b"x")
CRITICAL = subpacket(60, b"x", True)
NOTATION = subpacket(20, number(4, 0x80000000) + b"\0\x05\0\1a@b.cv", True)
UNFIT = subpacket(3, b"\0", True)  # an expiry of one octet, critical

Case = collections.namedtuple("Case", "stem expected title keyring signatures")


def framed(octets):
    return model.framed([(b"", octets)], model.USUAL)


def time(kind, value):
    return subpacket(kind, number(4, value))


def embedded(body):
    return subpacket(32, body)


def broken(it):
    """The packet with its last octet changed, so that arithmetic finds it bad."""
    return it[:-1] + bytes([it[-1] ^ 1])


def broken_left(it):
    """The packet with the octets in which its digest begins changed, over which arithmetic goes all the same."""
    at = len(it) - len(model.Signature(framed(it)[0][4]).material) - 2
    return it[:at] + bytes([it[at] ^ 1]) + it[at + 1 :]


class Owner:
    """Who has a primary key and a subkey, and what they sign."""

    def __init__(self, primary, subkey, name=NAME):
        self.primary, self.subkey, self.name = primary, subkey, name
        self.key = packet(KEY, primary.body)
        self.user_id = packet(USER_ID, name)
        self.sub = packet(SUBKEY, subkey.body)

    def area(self, by, made, flags=None, key_lasts=None, lasts=None, extra=b"", issuer=None):
        """A hashed area: when and by whom, what the key is for, when it expires and when the signature does, in days, and more."""
        found = b"" if made is None else time(2, made)
        found += issuer if issuer is not None else by.issuer_fingerprint + (by.issuer_key_id if by.version == 4 else b"")
        found += b"" if flags is None else subpacket(27, bytes([flags]))
        found += b"" if key_lasts is None else time(9, key_lasts * DAY)
        found += b"" if lasts is None else time(3, lasts * DAY)
        return found + extra

    def signed(self, kind, about, made, by=None, hash=8, unhashed=b"", **fields):
        """The packet of a signature over the primary key and what is behind it."""
        by = by or self.primary
        area = self.area(by, made, **fields)
        return packet(SIGNATURE, signature(by, kind, self.primary.octets + about, area, unhashed, hash))

    def direct(self, flags=CERTIFY, made=BORN, **fields):
        return self.signed(0x1F, b"", made, flags=flags, **fields)

    def certified(self, flags=CERTIFY, made=BORN, kind=0x13, name=None, **fields):
        return self.signed(kind, on_identity(USER_ID, name or self.name), made, flags=flags, **fields)

    def pictured(self, flags=CERTIFY, made=BORN, **fields):
        return self.signed(0x13, on_identity(ATTRIBUTE, PICTURE), made, flags=flags, **fields)

    def back(self, made=BORN, by=None, **fields):
        """The body of a back signature."""
        by, hash, unhashed = by or self.subkey, fields.pop("hash", 8), fields.pop("unhashed", b"")
        area = self.area(by, made, **fields)
        return signature(by, 0x19, self.primary.octets + self.subkey.octets, area, unhashed, hash)

    def bound(self, flags=SIGN, made=BORN, backs=None, hidden=(), extra=b"", **fields):
        """A binding with these back signatures in its hashed area, and hidden ones in the other."""
        backs = (self.back(),) if backs is None else backs
        extra += b"".join(map(embedded, backs))
        unhashed = b"".join(map(embedded, hidden))
        return self.signed(0x18, self.subkey.octets, made, flags=flags, extra=extra, unhashed=unhashed, **fields)

    def revoked(self, reason=None, made=LATER, extra=b"", **fields):
        """A revocation of the primary key."""
        extra += b"" if reason is None else subpacket(29, bytes([reason]))
        return self.signed(0x20, b"", made, extra=extra, **fields)

    def sub_revoked(self, reason=None, made=LATER, extra=b"", **fields):
        extra += b"" if reason is None else subpacket(29, bytes([reason]))
        return self.signed(0x28, self.subkey.octets, made, extra=extra, **fields)

    def name_revoked(self, made=LATER, name=None, **fields):
        return self.signed(0x30, on_identity(USER_ID, name or self.name), made, extra=subpacket(29, b"\x20"), **fields)

    def of_version_6(self):
        """A direct key signature of version 6, whatever the primary key's is."""
        return packet(SIGNATURE, signature(self.primary, 0x1F, self.primary.octets, self.area(self.primary, BORN), version=6))

    def certificate(self, on_key=b"", on_name=None, on_sub=None):
        """A certificate with a user ID and a subkey, and what hangs on them."""
        on_name = self.certified() if on_name is None else on_name
        on_sub = self.bound() if on_sub is None else on_sub
        return self.key + on_key + self.user_id + on_name + self.sub + on_sub

    def document(self, by=None, made=SIGNED, kind=0, text=DOCUMENT, hash=8, unhashed=b"", **fields):
        """A signature over the document."""
        by = by or self.subkey
        return packet(SIGNATURE, signature(by, kind, text, self.area(by, made, **fields), unhashed, hash))


def seed(octet):
    return bytes([octet]) * 32


ONE = Owner(signers.ed25519_legacy(BORN, seed(0x11)), signers.ed25519_legacy(BORN, seed(0x12)))
OTHER = Owner(signers.ed25519_legacy(BORN, seed(0x13)), signers.ed25519_legacy(BORN, seed(0x14)), b"Other <o@example.org>")
# The same primary key with another subkey.
SPARE = Owner(ONE.primary, signers.ed25519_legacy(BORN, seed(0x15)))
# Another primary key with the same subkey.
SHARED = Owner(OTHER.primary, ONE.subkey, OTHER.name)
WHOLE = ONE.certificate()
BY_PRIMARY = ONE.document(ONE.primary)
BY_SUBKEY = ONE.document()


def usual():
    """By whom a document is signed, and what that key's signatures allow."""
    one, both = ONE, CERTIFY | SIGN
    yield "base", "-", "base: by the subkey", WHOLE, BY_SUBKEY
    yield "primary_signs", "-", "by the primary, flags certify+sign", one.certificate(on_name=one.certified(both)), BY_PRIMARY
    yield "primary_certifies", "flags", "by the primary, flags certify alone", WHOLE, BY_PRIMARY
    yield "primary_no_flags", "flags", "by the primary, no flags", one.certificate(on_name=one.certified(None)), BY_PRIMARY
    yield "primary_unsigned", "unbound", "by the primary, no self-signature at all", one.key + one.user_id, BY_PRIMARY
    yield "primary_bare", "unbound", "by the primary, bare key, no user ID", one.key, BY_PRIMARY
    yield "direct_alone", "-", "by the primary, direct key signature 3, no user ID", one.key + one.direct(both), BY_PRIMARY
    ring = one.certificate(one.direct(CERTIFY, BORN + DAY), one.certified(both))
    yield "direct_1_name_3", "flags", "direct 1, user ID 3", ring, BY_PRIMARY
    yield "direct_3_name_1", "flags", "direct 3, user ID 1", one.certificate(one.direct(both, BORN + DAY)), BY_PRIMARY
    ring = one.certificate(one.direct(both), one.certified(CERTIFY, BORN + DAY))
    yield "direct_3_older", "flags", "direct 3 older, user ID 1 newer", ring, BY_PRIMARY
    yield "unbound", "unbound", "no binding", one.certificate(on_sub=b""), BY_SUBKEY
    yield "bound_by_other", "unbound", "binding by another key", one.certificate(on_sub=one.bound(by=OTHER.primary)), BY_SUBKEY


def bindings():
    one = ONE

    def bound(**fields):
        return one.certificate(on_sub=one.bound(**fields)), BY_SUBKEY

    def both(*those):
        return one.certificate(on_sub=b"".join(one.bound(**it) for it in those)), BY_SUBKEY

    newer = {"made": BORN + DAY}
    wrong = broken(one.back())
    yield "back_none", "back", "binding without the back signature", *bound(backs=())
    yield "back_wrong", "back", "back signature wrong", *bound(backs=(wrong,))
    yield "back_by_primary", "back", "back signature by the primary", *bound(backs=(one.back(by=one.primary),))
    yield "back_unhashed", "-", "back signature in the unhashed area", *bound(backs=(), hidden=(one.back(),))
    yield "back_sha1", "back", "back signature by SHA-1", *bound(backs=(one.back(hash=2),))
    yield "back_expired", "back", "back signature expired", *bound(backs=(one.back(lasts=10),))
    yield "bound_sha1", "unbound", "binding by SHA-1", *bound(hash=2)
    yield "name_sha1", "unbound", "user ID by SHA-1", one.certificate(on_name=one.certified(hash=2)), BY_SUBKEY
    yield "sub_no_flags", "flags", "binding without flags", *bound(flags=None)
    yield "sub_encrypts", "flags", "binding flags encrypt", *bound(flags=ENCRYPT)
    yield "newer_encrypts", "flags", "older binding sign, newer encrypt", *both({}, {"flags": ENCRYPT, **newer})
    yield "newer_signs", "-", "older binding encrypt, newer sign", *both({"flags": ENCRYPT}, newer)
    yield "newer_wrong", "-", "newer binding wrong", *both({}, {"flags": ENCRYPT, "by": OTHER.primary, **newer})
    yield "bound_later", "unbound", "binding newer than the signature", *bound(made=LATER)
    yield "bound_in_future", "unbound", "binding in the future", *bound(made=NOW + 50 * DAY)
    yield "bound_lapsed", "unbound", "binding itself expired (kind 3)", *bound(lasts=10)
    yield "sub_expired_before", "expired", "subkey expired before the signature", *bound(key_lasts=800)
    yield "sub_expired_after", "expired", "subkey expired after the signature", *bound(key_lasts=950)


def expiries():
    one = ONE

    def named(*those):
        return one.certificate(on_name=b"".join(one.certified(**it) for it in those)), BY_SUBKEY

    newer = {"made": BORN + 700 * DAY}
    yield "key_expired_before", "expired", "primary expired before the signature", *named({"key_lasts": 800})
    yield "key_expired_after", "expired", "primary expired after the signature", *named({"key_lasts": 950})
    title = "primary expiry extended by a newer self-signature"
    yield "key_extended", "-", title, *named({"key_lasts": 800}, {"key_lasts": 2000, **newer})
    title = "primary expiry shortened by a newer self-signature"
    yield "key_shortened", "expired", title, *named({"key_lasts": 2000}, {"key_lasts": 800, **newer})
    ring = one.certificate(one.direct(made=BORN + DAY, key_lasts=800))
    yield "direct_expired", "expired", "direct expired, user ID not, direct newer", ring, BY_SUBKEY
    ring = one.certificate(one.direct(key_lasts=2000), one.certified(made=BORN + DAY, key_lasts=800))
    yield "name_expired", "expired", "user ID expired, direct not, direct older", ring, BY_SUBKEY


def revocations():
    one = ONE
    before = SIGNED - 50 * DAY

    def sub(*those):
        return one.certificate(on_sub=one.bound() + b"".join(those)), BY_SUBKEY

    def key(it):
        return one.certificate(it), BY_SUBKEY

    yield "sub_revoked", "revoked", "subkey revoked, no reason, after", *sub(one.sub_revoked())
    yield "sub_retired_after", "revoked", "subkey revoked, retired, after", *sub(one.sub_revoked(3))
    yield "sub_retired_before", "revoked", "subkey revoked, retired, before", *sub(one.sub_revoked(3, before))
    again = sub(one.sub_revoked(3, before), one.bound(made=SIGNED - 20 * DAY))
    yield "sub_bound_again", "revoked", "subkey revoked, retired, then bound again", *again
    yield "sub_compromised", "revoked", "subkey revoked, compromised, after", *sub(one.sub_revoked(2))
    yield "sub_revocation_wrong", "-", "subkey revocation wrong", *sub(broken(one.sub_revoked(2)))
    yield "sub_revoked_by_other", "-", "subkey revocation by another", *sub(one.sub_revoked(2, by=OTHER.primary))
    yield "key_revoked", "revoked", "primary revoked, no reason, after", *key(one.revoked())
    yield "key_retired_after", "revoked", "primary revoked, retired, after", *key(one.revoked(3))
    yield "key_retired_before", "revoked", "primary revoked, retired, before", *key(one.revoked(3, before))
    yield "key_superseded", "revoked", "primary revoked, superseded, after", *key(one.revoked(1))
    yield "key_compromised", "revoked", "primary revoked, compromised, after", *key(one.revoked(2))
    yield "key_revocation_wrong", "-", "primary revocation wrong", *key(broken(one.revoked(2)))
    ring = one.certificate(on_name=one.certified() + one.name_revoked())
    yield "name_revoked", "-", "user ID revoked", ring, BY_SUBKEY
    ring = one.certificate(one.direct(extra=revoker()) + one.revoked(2, by=OTHER.primary))
    yield "revoker_absent", "-", "designated revoker, revoked by it, its key absent", ring, BY_SUBKEY


def revoker(by=OTHER, designation=0x80):
    """A subpacket that names another's primary key as revoker (5.2.3.23)."""
    return subpacket(12, bytes([designation, by.primary.algorithm]) + by.primary.fingerprint)


def documents():
    """What the document's signature says itself."""
    one = ONE

    def signed(stem, expected, title, **fields):
        return stem, expected, title, WHOLE, one.document(**fields)

    yield signed("lapsed", "lapsed", "signature expired (kind 3)", lasts=10)
    yield signed("lapses_later", "-", "signature expires later", lasts=1000)
    yield signed("future", "future", "signature in the future", made=NOW + 10 * DAY)
    yield signed("early", "early", "signature older than the key", made=BORN - DAY)
    yield signed("no_time", "time", "signature without a creation time", made=None)
    yield signed("time_unhashed", "time", "creation time unhashed", made=None, unhashed=time(2, SIGNED))
    yield signed("two_times", "time", "two creation times", extra=time(2, SIGNED + 1))
    yield signed("no_issuer", "undecided", "no issuer", issuer=b"")
    yield signed("issuer_unhashed", "-", "issuer unhashed, key ID", issuer=b"", unhashed=one.subkey.issuer_key_id)
    yield signed("critical", "critical", "critical unknown subpacket", extra=CRITICAL)
    yield signed("unknown", "-", "unknown subpacket", extra=UNKNOWN)
    yield signed("critical_unhashed", "critical", "critical unknown unhashed", unhashed=CRITICAL)
    yield signed("critical_notation", "critical", "critical notation", extra=NOTATION)
    ring = one.certificate(on_sub=one.bound(extra=NOTATION))
    yield "bound_critical_notation", "unbound", "binding with a critical notation", ring, BY_SUBKEY
    yield signed("sha1", "weak", "SHA-1 signature", hash=2)
    yield signed("sha224", "weak", "SHA-224 signature", hash=11)
    yield signed("type_02", "undecided", "type 02 (standalone)", kind=0x02)
    yield signed("type_50", "undecided", "type 50", kind=0x50)
    yield signed("type_10", "undecided", "type 10 over the document", kind=0x10)
    yield "left_octets", "bad", "left octets changed", WHOLE, broken_left(BY_SUBKEY)
    yield signed("recipient", "-", "intended recipient", extra=subpacket(35, b"\4" + OTHER.primary.fingerprint))
    wrong = one.document(text=b"other\n")
    yield "wrong_document", "bad", "wrong document", WHOLE, wrong
    yield "good_and_wrong", "- bad", "one good, one wrong", WHOLE, BY_SUBKEY + wrong
    yield "good_and_absent", "- undecided", "one good, one of an unknown key", WHOLE, BY_SUBKEY + one.document(OTHER.primary)
    yield "good_and_opaque", "- undecided", "one good, one unknown version", WHOLE, BY_SUBKEY + packet(SIGNATURE, b"\5\0\x16\x08")
    yield "good_and_marker", "-", "one good, then a marker", WHOLE, BY_SUBKEY + packet(MARKER, b"PGP")
    yield "good_and_name", "refused", "one good, then a user ID", WHOLE, BY_SUBKEY + packet(USER_ID, b"x")
    ring = one.key + one.user_id + one.certified() + one.sub + WHOLE
    yield "bound_in_second", "-", "subkey bound to two certificates", ring, BY_SUBKEY


# The cases above are those of a first table. What follows was asked later.


def revokers():
    """A key that a certificate names as its revoker, and which is there."""
    for stem, expected, title, *octets in named_revokers():
        yield stem, expected, f"designated revoker whose key is there: {title}", *octets


def named_revokers():
    one, by = ONE, OTHER.primary
    others = OTHER.certificate()
    key, sub = one.revoked(2, by=by), one.sub_revoked(2, by=by)
    named = one.direct(extra=revoker())

    def ring(on_key=b"", on_name=None, on_sub=b"", other=others):
        return one.certificate(on_key, on_name, one.bound() + on_sub) + other, BY_SUBKEY

    yield "revoker_key", "revoked", "it revokes the primary", *ring(named + key)
    yield "revoker_in_front", "revoked", "its certificate in front", others + ring(named + key, other=b"")[0], BY_SUBKEY
    yield "revoker_sub", "revoked", "it revokes the subkey", *ring(named, on_sub=sub)
    in_name = one.certified(extra=revoker())
    yield "revoker_in_name", "revoked", "it is named in a user ID's self-signature", *ring(key, in_name)
    yield "revoker_in_name_sub", "revoked", "it is named in a user ID's self-signature, and revokes the subkey", *ring(b"", in_name, sub)
    yield "revoker_displaced", "revoked", "its revocation of the primary hangs behind the last subkey", *ring(named, on_sub=key)
    yield "revoker_wrong", "-", "its revocation is wrong", *ring(named + broken(key))
    yield "revoker_not_named", "-", "it isn't named", *ring(key)
    yield "revoker_class_0", "-", "it is named with a class without 80", *ring(one.direct(extra=revoker(designation=0)) + key)
    yield "revoker_class_C0", "revoked", "it is named as a sensitive one", *ring(one.direct(extra=revoker(designation=0xC0)) + key)
    alone = one.key + one.direct(SIGN | CERTIFY, extra=revoker(designation=0))
    yield "revoker_class_0_alone", "-", "it is named with a class without 80 in the only self-signature, by the primary", alone, BY_PRIMARY
    yield "revoker_unhashed", "-", "it is named in the unhashed area", *ring(one.direct(unhashed=revoker()) + key)
    yield "revoker_by_sha1", "revoked", "it is named in a direct key signature by SHA-1", *ring(one.direct(extra=revoker(), hash=2) + key)
    old = one.direct(extra=revoker(), lasts=10)
    yield "revoker_lapsed", "revoked", "it is named in a direct key signature that has expired", *ring(old + key)
    yield "revoker_by_other", "-", "another key's direct key signature names it", *ring(one.direct(extra=revoker(), by=by) + key)
    wrong = broken(named)
    yield "revoker_named_wrongly", "-", "a direct key signature that is wrong names it", *ring(wrong + key)
    yield "revoker_revoked", "revoked", "its own key is revoked", *ring(named + key, other=OTHER.certificate(OTHER.revoked(2)))
    it = subpacket(12, b"\x80\x16" + OTHER.subkey.fingerprint)
    by_sub = one.direct(extra=it) + one.revoked(2, by=OTHER.subkey)
    yield "revoker_subkey", "revoked", "it is a subkey of another certificate", *ring(by_sub)
    it = one.name_revoked(by=by)
    yield "revoker_name", "-", "it revokes the user ID", *ring(named, one.certified() + it)


def displaced():
    """Signatures that don't hang on what they are made over."""
    one, spare = ONE, SPARE
    bound, key, sub = one.bound(), one.revoked(), one.sub_revoked()
    two = spare.sub + spare.bound()
    yield "revocation_last", "revoked", "key revocation behind the last subkey", WHOLE + key, BY_SUBKEY
    yield "revocation_last_primary", "revoked", "key revocation behind the last subkey, by the primary", signing() + key, BY_PRIMARY
    yield "revocation_in_name", "revoked", "key revocation behind the user ID", one.certificate(on_name=one.certified() + key), BY_SUBKEY
    yield "revocation_in_sub", "revoked", "key revocation behind the first of two subkeys", WHOLE + key + two, BY_SUBKEY
    yield "revocation_in_other", "-", "key revocation behind another certificate", WHOLE + OTHER.certificate() + key, BY_SUBKEY
    yield "sub_revocation_in_spare", "-", "subkey revocation behind another subkey", WHOLE + two + sub, BY_SUBKEY
    yield "sub_revocation_in_key", "-", "subkey revocation behind the primary", one.certificate(sub), BY_SUBKEY
    ring = one.certificate(on_name=one.certified() + sub)
    yield "sub_revocation_in_name", "-", "subkey revocation behind the user ID", ring, BY_SUBKEY
    ring = one.certificate(on_name=one.certified() + one.direct(made=BORN + DAY, key_lasts=800))
    yield "direct_in_name", "-", "direct key signature behind the user ID, by which the key has expired", ring, BY_SUBKEY
    ring = one.certificate(one.certified(made=BORN + DAY, key_lasts=800))
    yield "name_in_key", "-", "user ID's self-signature behind the primary, by which the key has expired", ring, BY_SUBKEY
    alone = one.signed(0x13, b"", BORN + DAY, flags=CERTIFY)
    yield "certified_key", "-", "a certification of type 13 over the primary alone, behind it", one.certificate(alone), BY_SUBKEY
    for version, it in (("6", one.of_version_6()), ("5", packet(SIGNATURE, b"\5\x1f" + bytes(100)))):
        yield f"signature_{version}", "-", f"a signature of version {version} behind the primary", one.certificate(it), BY_SUBKEY
    ring = WHOLE + spare.sub + spare.bound() + one.bound(ENCRYPT, BORN + DAY)
    yield "bound_in_spare", "-", "newer binding, flags encrypt, behind another subkey", ring, BY_SUBKEY
    ring = one.certificate(on_sub=b"") + two + bound
    yield "bound_only_in_spare", "unbound", "the only binding behind another subkey", ring, BY_SUBKEY


def signing(**fields):
    """A certificate whose primary key may sign."""
    return ONE.certificate(on_name=ONE.certified(CERTIFY | SIGN, **fields))


def strange_revocations():
    """Revocations that a reader might pass over."""
    one = ONE
    for stem, key in (("key", "primary"), ("sub", "subkey")):

        def case(name, expected, what, stem=stem, key=key, **fields):
            own = one.certificate(one.revoked(**fields))
            ring = own if stem == "key" else one.certificate(on_sub=one.bound() + one.sub_revoked(**fields))
            return f"{stem}_revoked_{name}", expected, f"{key} revoked {what}", ring, BY_SUBKEY

        yield case("sha1", "revoked", "by SHA-1", hash=2)
        yield case("critical", "revoked", "with an unknown critical subpacket", extra=CRITICAL)
        yield case("critical_notation", "revoked", "with a critical notation", extra=NOTATION)
        yield case("unfit", "revoked", "with an unfit critical subpacket", extra=UNFIT)
        yield case("early", "revoked", "before the key was made", made=BORN - 10 * DAY)
        yield case("future", "revoked", "in the future", made=NOW + 50 * DAY)
        yield case("retired_future", "revoked", "in the future, retired", made=NOW + 50 * DAY, reason=3)
        yield case("no_time", "revoked", "without a creation time", made=None)
        yield case("two_times", "revoked", "with two creation times", extra=time(2, LATER + 1))
        yield case("lapsed", "revoked", "by a revocation that has expired", lasts=10)
        yield case("no_issuer", "-", "without an issuer", issuer=b"")
        yield case("issuer_unhashed", "revoked", "with its issuer unhashed", issuer=b"", unhashed=one.primary.issuer_key_id)
        it = OTHER.primary.issuer_fingerprint
        yield case("issuer_wrong", "-", "with another issuer's fingerprint", issuer=it, unhashed=one.primary.issuer_key_id)
        yield case("by_subkey", "-", "by the subkey", by=one.subkey)
        yield case("md5", "-", "by MD5", hash=1)
        yield case("ripemd160", "-", "by RIPEMD-160", hash=3)
        yield case("sha3", "-", "by SHA3-256", hash=12)
    yield "key_revoked_left", "-", "primary revoked, left octets changed", one.certificate(broken_left(one.revoked())), BY_SUBKEY
    ring = one.certificate(on_sub=one.bound() + broken_left(one.sub_revoked()))
    yield "sub_revoked_left", "-", "subkey revoked, left octets changed", ring, BY_SUBKEY
    it = signature_3(one.primary, 0x20, one.primary.octets, LATER)
    yield "key_revoked_3", "-", "primary revoked by a signature of version 3", one.certificate(packet(SIGNATURE, it)), BY_SUBKEY
    it = signature_3(one.primary, 0x28, one.primary.octets + one.subkey.octets, LATER)
    ring = one.certificate(on_sub=one.bound() + packet(SIGNATURE, it))
    yield "sub_revoked_3", "-", "subkey revoked by a signature of version 3", ring, BY_SUBKEY


def areas():
    """Subpackets that are there twice, empty, or in the other area."""
    one = ONE
    both = CERTIFY | SIGN

    def by_name(stem, expected, title, **fields):
        return stem, expected, title, one.certificate(on_name=one.certified(**{"flags": both, **fields})), BY_PRIMARY

    def by_bound(stem, expected, title, **fields):
        return stem, expected, title, one.certificate(on_sub=one.bound(**fields)), BY_SUBKEY

    passed, later = time(9, 800 * DAY), time(9, 2000 * DAY)
    yield by_name("two_expiries", "expired", "two key expiries, the first has passed", extra=passed + later)
    yield by_name("two_expiries_back", "expired", "two key expiries, the second has passed", extra=later + passed)
    yield by_bound("sub_two_expiries", "expired", "two key expiries of the subkey, the first has passed", extra=passed + later)
    yield by_bound("sub_two_expiries_back", "expired", "two key expiries of the subkey, the second has passed", extra=later + passed)
    yield by_name("expiry_0", "-", "key expiry 0", extra=time(9, 0))
    yield by_name("expiry_0_and_later", "-", "two key expiries, 0 and one to come", extra=time(9, 0) + later)
    yield by_name("expiry_0_and_passed", "expired", "two key expiries, 0 and one that has passed", extra=time(9, 0) + passed)
    yield by_name("expiry_passed_and_0", "expired", "two key expiries, one that has passed and 0", extra=passed + time(9, 0))
    yield by_name("expiry_unhashed", "-", "key expiry that has passed unhashed", unhashed=passed)
    yield by_name("expiry_unfit", "unbound", "key expiry of two octets", extra=subpacket(9, b"\0\1"))
    yield by_name("expiry_unfit_critical", "unbound", "critical key expiry of two octets", extra=subpacket(9, b"\0\1", True))
    short, long = time(3, 10 * DAY), time(3, 2000 * DAY)
    yield by_name("two_lasts", "unbound", "two expiries of the self-signature, the first has passed", extra=short + long)
    yield by_name("two_lasts_back", "unbound", "two expiries of the self-signature, the second has passed", extra=long + short)
    encrypt, sign, empty = (subpacket(27, it) for it in (bytes([ENCRYPT]), bytes([SIGN]), b""))
    yield by_bound("two_flags", "flags", "two key flags, sign and then encrypt", extra=encrypt)
    yield by_bound("two_flags_back", "flags", "two key flags, encrypt and then sign", flags=ENCRYPT, extra=sign)
    yield by_bound("flags_twice", "-", "two key flags, both sign", extra=sign)
    yield by_bound("flags_empty", "flags", "key flags of the subkey without an octet", flags=None, extra=empty)
    yield by_bound("flags_and_empty", "flags", "key flags sign, and others without an octet", extra=empty)
    yield by_name("key_flags_empty", "flags", "key flags of the primary without an octet", flags=None, extra=empty)
    yield by_bound("flags_long", "-", "key flags of two octets, sign", flags=None, extra=subpacket(27, bytes([SIGN, 0])))
    yield by_bound("flags_second_octet", "flags", "key flags of two octets, 02 in the second", flags=None, extra=subpacket(27, b"\0\2"))
    it = one.signed(0x18, one.subkey.octets, BORN, extra=embedded(one.back()), unhashed=sign)
    yield "flags_unhashed", "flags", "key flags of the subkey unhashed", one.certificate(on_sub=it), BY_SUBKEY
    yield by_name("name_two_times", "unbound", "two creation times in the self-signature", extra=time(2, BORN + 1))
    title = "a creation time of one octet beside the good one in the self-signature"
    yield by_name("name_time_unfit", "unbound", title, extra=subpacket(2, b"\0"))
    signed = one.document(extra=subpacket(2, b"\0"))
    yield "time_unfit", "critical", "a creation time of one octet beside the good one in the document's signature", WHOLE, signed
    yield by_name("name_lasts_unfit", "unbound", "an expiry of one octet in the self-signature", extra=subpacket(3, b"\0"))
    signed = one.document(extra=subpacket(3, b"\0"))
    yield "lasts_unfit", "critical", "an expiry of one octet in the document's signature", WHOLE, signed
    yield by_name("name_no_time", "unbound", "no creation time in the self-signature", made=None)
    yield by_name("name_critical_unhashed", "unbound", "an unknown critical subpacket unhashed in the self-signature", unhashed=CRITICAL)
    yield by_name("name_issuer_unhashed", "-", "the self-signature's issuer unhashed", issuer=b"", unhashed=one.primary.issuer_key_id)
    yield by_name("name_no_issuer", "unbound", "a self-signature without an issuer", issuer=b"")


def backs():
    """Bindings with several back signatures, and back signatures of other times."""
    one = ONE
    good, old = one.back(), one.back(lasts=10)

    def bound(stem, expected, title, *backs, hidden=()):
        return stem, expected, title, one.certificate(on_sub=one.bound(backs=backs, hidden=hidden)), BY_SUBKEY

    yield bound("two_backs", "back", "two back signatures, the first has expired", old, good)
    yield bound("two_backs_back", "-", "two back signatures, the second has expired", good, old)
    yield bound("two_backs_wrong", "back", "two back signatures, the first is wrong", broken(good), good)
    yield bound("two_backs_wrong_back", "-", "two back signatures, the second is wrong", good, broken(good))
    yield bound("back_and_hidden", "back", "one that has expired hashed, a good one unhashed", old, hidden=(good,))
    yield bound("hidden_expired", "-", "a good one hashed, one that has expired unhashed", good, hidden=(old,))
    yield bound("back_future", "back", "back signature in the future", one.back(made=NOW + 50 * DAY))
    yield bound("back_later", "back", "back signature newer than the document's signature", one.back(made=LATER))
    yield bound("back_newer", "-", "back signature newer than the binding", one.back(made=BORN + DAY))
    yield bound("back_early", "back", "back signature older than the keys", one.back(made=BORN - DAY))
    yield bound("back_no_time", "back", "back signature without a creation time", one.back(made=None))
    yield bound("back_no_issuer", "back", "back signature without an issuer", one.back(issuer=b""))
    it = one.back(issuer=b"", unhashed=one.subkey.issuer_key_id)
    yield bound("back_issuer_unhashed", "-", "back signature with its issuer unhashed", it)
    yield bound("back_critical", "back", "back signature with an unknown critical subpacket", one.back(extra=CRITICAL))
    yield bound("back_revocation", "back", "type 28 in place of a back signature", back_of_type_28())


def back_of_type_28():
    one = ONE
    area = one.area(one.subkey, BORN)
    return signature(one.subkey, 0x28, one.primary.octets + one.subkey.octets, area)


def identities():
    """User IDs that are revoked, attributes, and several user IDs that disagree."""
    one, both = ONE, CERTIFY | SIGN
    before = SIGNED - 50 * DAY
    self = one.certified(both)
    for when, made in (("before", before), ("after", LATER)):
        stem, title, revoked = f"name_revoked_{when}", f"user ID revoked {when} the signature", one.name_revoked(made)
        ring = one.certificate(on_name=self + revoked)
        yield stem, "-", f"{title}, by the subkey", ring, BY_SUBKEY
        yield f"{stem}_primary", "-", f"{title}, by the primary", ring, BY_PRIMARY
        ring = one.certificate(one.direct(both), self + revoked)
        yield f"{stem}_direct", "-", f"{title}, with a direct key signature", ring, BY_PRIMARY
        ring = one.key + one.user_id + self + revoked + second(both)
        yield f"{stem}_second", "-", f"{title}, with another user ID that isn't revoked", ring, BY_PRIMARY
        ring = one.certificate(on_name=self + revoked + one.certified(both, made + 10 * DAY))
        yield f"{stem}_again", "-", f"{title}, certified again later", ring, BY_PRIMARY
    for kind in (0x10, 0x11, 0x12):
        yield f"name_{kind:x}", "-", f"self-signature of type {kind:x}", one.certificate(on_name=one.certified(both, kind=kind)), BY_PRIMARY
    picture = packet(ATTRIBUTE, PICTURE)
    yield "attribute_alone", "unbound", "an attribute and no user ID, by the primary", one.key + picture + one.pictured(both), BY_PRIMARY
    ring = one.key + picture + one.pictured(both) + one.sub + one.bound()
    yield "attribute_alone_sub", "unbound", "an attribute and no user ID, by the subkey", ring, BY_SUBKEY
    ring = one.key + one.user_id + one.certified() + picture + one.pictured(both, BORN + DAY)
    yield "attribute_newer", "flags", "flags sign by a newer attribute, certify by the user ID", ring, BY_PRIMARY
    ring = one.key + one.user_id + self + picture + one.pictured(CERTIFY, BORN + DAY)
    yield "attribute_newer_certify", "flags", "flags certify by a newer attribute, sign by the user ID", ring, BY_PRIMARY
    ring = one.key + one.user_id + self + picture + one.pictured(both, BORN + DAY, key_lasts=800)
    yield "attribute_expired", "expired", "expired by a newer attribute, not by the user ID", ring, BY_PRIMARY
    yield from two_identities()
    yield from replaced_marks()
    yield from revoked_identities()


def replaced_marks():
    """Self-signatures that a newer one on the same user ID replaces: neither their mark as primary nor their expiry counts any longer."""
    one, both, main = ONE, CERTIFY | SIGN, subpacket(25, b"\1")
    newer, newest = BORN + DAY, BORN + 2 * DAY
    passed = one.certified(both, key_lasts=800, extra=main)
    lasting = {"flags": both, "made": newer, "key_lasts": 2000}

    def named(stem, expected, title, on_name, more=b""):
        return stem, expected, title, one.key + one.user_id + on_name + more, BY_PRIMARY

    title = "marked as primary and expired, then without the mark"
    yield named("mark_replaced", "-", f"{title} and lasting", passed + one.certified(**lasting))
    yield named("mark_replaced_first", "-", f"{title} and lasting, which stands first", one.certified(**lasting) + passed)
    yield named("mark_replaced_no_expiry", "-", f"{title} and without an expiry", passed + one.certified(both, newer))
    title = f"{title} and lasting; another user ID, newer"
    yield named("mark_replaced_second", "-", f"{title}, lasting", passed + one.certified(**lasting), second(both, newest, key_lasts=2000))
    yield named("mark_replaced_moved", "-", f"{title}, lasting, with the mark", passed + one.certified(**lasting), second(both, newest, key_lasts=2000, extra=main))
    yield named("mark_replaced_expired", "expired", f"{title}, expired", passed + one.certified(**lasting), second(both, newest, key_lasts=800))
    title = "marked as primary and expired; the newer one without the mark"
    yield named("mark_replaced_lapsed", "expired", f"{title} has expired itself", passed + one.certified(**lasting, lasts=10))
    yield named("mark_replaced_critical", "expired", f"{title} has a critical notation", passed + one.certified(**lasting, extra=NOTATION))
    yield named("mark_replaced_sha1", "expired", f"{title} is by SHA-1, and lasting", passed + one.certified(**lasting, hash=2))
    yield named("mark_replaced_wrong", "expired", f"{title} is wrong", passed + broken(one.certified(**lasting)))
    title = "marked as primary without a use to sign, then without the mark and with it"
    yield named("mark_replaced_signs", "-", title, one.certified(extra=main) + one.certified(both, newer))
    title = "expired, then without an expiry"
    yield named("expiry_replaced", "-", title, one.certified(both, key_lasts=800) + one.certified(both, newer))
    title = f"{title}; another user ID, newer, without one"
    yield named("expiry_replaced_second", "-", title, one.certified(both, key_lasts=800) + one.certified(both, newer), second(both, newest))


def revoked_identities():
    """User IDs that are revoked beside others that aren't: they say nothing any longer, unless nothing else speaks."""
    one, both, main = ONE, CERTIFY | SIGN, subpacket(25, b"\1")
    newer, gone = BORN + DAY, SIGNED - 50 * DAY
    reasons = {"0": b"\0", "32": b"\x20"}

    def ring(first, made, other, reason="32", more=b"", on_key=b""):
        """A user ID with this self-signature, which is revoked then, and another one."""
        area = subpacket(29, reasons[reason])
        revoked = one.signed(0x30, on_identity(USER_ID, one.name), made, extra=area)
        return one.key + on_key + one.user_id + first + revoked + more + other

    for when, made in (("before", gone), ("after", LATER)):
        for reason in reasons:
            stem, title = f"revoked_{when}_{reason}", f"a user ID revoked {when} the signature by reason {reason}"
            it = ring(one.certified(both, newer), made, second(both, BORN, key_lasts=800), reason)
            yield f"{stem}_lasting", "expired", f"{title}, newer and without an expiry; the other one has expired", it, BY_PRIMARY
            it = ring(one.certified(both, newer), made, second(CERTIFY), reason)
            yield f"{stem}_signs", "flags", f"{title}, newer, flags sign; the other one certify", it, BY_PRIMARY
            it = ring(one.certified(both, newer, key_lasts=800), made, second(both), reason)
            yield f"{stem}_expired", "-", f"{title}, newer and expired; the other one lasting", it, BY_PRIMARY
            it = ring(one.certified(both, key_lasts=800, extra=main), made, second(both, newer, key_lasts=2000), reason)
            yield f"{stem}_main", "-", f"{title}, marked as primary and expired; the other one lasting", it, BY_PRIMARY
    title = "a user ID revoked and certified again, expired; the other one lasting"
    again = one.certified(both, gone + DAY, key_lasts=800)
    yield "revoked_again_expired", "expired", title, ring(one.certified(both), gone, second(both), more=again), BY_PRIMARY
    title = "a user ID revoked and certified again, lasting; the other one older and expired"
    again = one.certified(both, gone + DAY)
    yield "revoked_again_lasting", "expired", title, ring(one.certified(both), gone, second(both, key_lasts=800), more=again), BY_PRIMARY
    title = "a user ID certified, and a revocation that is older; it has expired, the other one is lasting"
    yield "revoked_older", "expired", title, ring(one.certified(both, gone + DAY, key_lasts=800), gone, second(both)), BY_PRIMARY
    both_revoked = second(both, newer) + one.name_revoked(gone, name=SECOND)
    title = "two user IDs, both revoked"
    yield "revoked_all", "-", title, ring(one.certified(both), gone, both_revoked), BY_PRIMARY
    yield "revoked_all_expired", "expired", f"{title}, one expired", ring(one.certified(both, newer, key_lasts=800), gone, both_revoked), BY_PRIMARY
    title = "a user ID revoked and expired, with a direct key signature"
    yield "revoked_direct", "-", title, ring(one.certified(both, newer, key_lasts=800), gone, b"", on_key=one.direct(both)), BY_PRIMARY
    title = "a user ID revoked by another key, and expired; the other one lasting"
    revoked = one.signed(0x30, on_identity(USER_ID, one.name), gone, by=OTHER.primary)
    it = one.key + one.user_id + one.certified(both, newer, key_lasts=800) + revoked + second(both) + OTHER.key
    yield "revoked_by_other", "expired", title, it, BY_PRIMARY
    picture = packet(ATTRIBUTE, PICTURE)
    revoked = one.signed(0x30, on_identity(ATTRIBUTE, PICTURE), gone)
    it = one.key + one.user_id + one.certified(both) + picture + one.pictured(both, newer, key_lasts=800) + revoked
    yield "revoked_attribute", "-", "an attribute revoked, newer and expired; the user ID lasting", it, BY_PRIMARY


def second(flags=CERTIFY, made=BORN, **fields):
    """A second user ID with its self-signature."""
    return packet(USER_ID, SECOND) + ONE.certified(flags, made, name=SECOND, **fields)


def two_identities():
    """Which of two user IDs decides where their self-signatures disagree: the one in front, the newer one, or the one marked as primary."""
    both, newer, main = CERTIFY | SIGN, BORN + DAY, {"extra": subpacket(25, b"\1")}
    lasting, passed = {"flags": both, "key_lasts": 2000}, {"flags": both, "key_lasts": 800}
    says = {
        "sign": ({"flags": both}, {"flags": CERTIFY}, "flags", "flags sign, the other certify"),
        "expiry": (lasting, passed, "expired", "an expiry to come, the other one that has passed"),
        "no_expiry": ({"flags": both}, passed, "expired", "no expiry, the other one that has passed"),
    }
    ages = {
        "newer": ({"made": newer}, {"made": BORN}, "it is newer"),
        "older": ({"made": BORN}, {"made": newer}, "it is older"),
        "equal": ({"made": BORN}, {"made": BORN}, "they are equally old"),
        "older_main": ({"made": BORN, **main}, {"made": newer}, "it is older, and marked as primary"),
        "newer_other_main": ({"made": newer}, {"made": BORN, **main}, "it is newer, the other marked as primary"),
    }
    for what, (good, bad, why, words) in says.items():
        for order in ("first", "second"):
            for age, (one, other, more) in ages.items():
                them = ({**good, **one}, {**bad, **other})
                ring = of_two(*them) if order == "first" else of_two(*reversed(them))
                # An expiry limits though the newer user ID states none.
                expected = "-" if age == "newer" and what != "no_expiry" else why
                title = f"two user IDs: the {order} says {words}; {more}"
                yield f"two_{what}_{order}_{age}", expected, title, ring, BY_PRIMARY
    lapsed = {"flags": CERTIFY, "lasts": 10, "made": newer}
    title = "two user IDs: the second is newer, and its self-signature has expired"
    yield "two_lapsed_second", "-", title, of_two({"flags": both}, lapsed), BY_PRIMARY
    yield "two_lapsed_first", "-", title.replace("second", "first"), of_two(lapsed, {"flags": both}), BY_PRIMARY


def of_two(first, other):
    return ONE.key + ONE.user_id + ONE.certified(**first) + second(**other)


def ages():
    """Which of several self-signatures speaks."""
    one, both = ONE, CERTIFY | SIGN
    self = one.certified(both)

    def named(stem, expected, title, *those):
        return stem, expected, title, one.certificate(on_name=b"".join(those)), BY_PRIMARY

    def other(made=BORN + DAY, **fields):
        return one.certified(made=made, **fields)

    yield named("name_later", "unbound", "self-signature newer than the signature", one.certified(both, LATER))
    yield named("name_future", "unbound", "self-signature in the future", one.certified(both, NOW + 50 * DAY))
    yield named("name_lapsed", "unbound", "self-signature that has expired", one.certified(both, lasts=10))
    yield named("newest_future", "-", "newest self-signature in the future, flags certify", self, other(NOW + 50 * DAY))
    yield named("newest_later", "flags", "newest self-signature after the signature, flags certify", self, other(LATER))
    title = "flags certify, newest self-signature after the signature, flags sign"
    yield named("newest_later_signs", "flags", title, one.certified(), other(LATER, flags=both))
    yield named("newest_lapsed", "-", "newest self-signature has expired, flags certify", self, other(lasts=10))
    title = "newest self-signature has expired, flags sign"
    yield named("newest_lapsed_signs", "flags", title, one.certified(), other(flags=both, lasts=10))
    yield named("newest_wrong", "-", "newest self-signature is wrong, flags certify", self, broken(other()))
    title = "newest self-signature has two creation times, flags certify"
    yield named("newest_two_times", "flags", title, self, other(extra=time(2, BORN + DAY)))
    yield named("newest_no_time", "-", "another self-signature has no creation time, flags certify", self, other(None))
    yield named("newest_left", "-", "newest self-signature with its left octets changed, flags certify", self, broken_left(other()))
    yield named("newest_sha1", "flags", "newest self-signature by SHA-1, flags certify", self, other(hash=2))
    yield named("newest_sha1_expired", "expired", "newest self-signature by SHA-1, expired", self, other(flags=both, key_lasts=800, hash=2))
    yield named("newest_critical", "-", "newest self-signature has a critical notation, flags certify", self, other(extra=NOTATION))
    yield named("newest_first", "flags", "newest self-signature stands first, flags certify", other(), self)
    yield named("equal_signs_first", "flags", "two of the same age, flags sign and certify", self, one.certified())
    yield named("equal_signs_second", "flags", "two of the same age, flags certify and sign", one.certified(), self)
    yield named("name_early", "unbound", "self-signature older than the key", one.certified(both, BORN - 10 * DAY))
    ring = one.key + one.direct(both, BORN - 10 * DAY)
    yield "direct_early", "unbound", "direct key signature older than the key", ring, BY_PRIMARY
    yield "bound_early", "unbound", "binding older than the keys", one.certificate(on_sub=one.bound(made=BORN - 10 * DAY)), BY_SUBKEY
    them = Owner(one.primary, signers.ed25519_legacy(BORN + 100 * DAY, seed(0x16)))
    ring, by = them.certificate(on_sub=them.bound(backs=(them.back(made=BORN + 100 * DAY),))), them.document()
    yield "bound_before_subkey", "-", "binding older than the subkey alone", ring, by
    ring = them.certificate(on_sub=them.bound(made=BORN + 100 * DAY))
    yield "back_before_subkey", "back", "back signature older than the subkey alone", ring, by
    it = one.bound(made=BORN + DAY, lasts=10, flags=ENCRYPT)
    yield "newest_bound_lapsed", "-", "newest binding has expired, flags encrypt", one.certificate(on_sub=one.bound() + it), BY_SUBKEY
    it = one.bound() + one.bound(made=BORN + DAY, key_lasts=800, hash=2)
    yield "newest_bound_sha1", "expired", "newest binding by SHA-1, expired", one.certificate(on_sub=it), BY_SUBKEY
    it = one.bound() + one.bound(made=BORN + DAY, key_lasts=800, extra=NOTATION)
    yield "newest_bound_critical", "-", "newest binding has a critical notation, expired", one.certificate(on_sub=it), BY_SUBKEY
    it = one.bound() + one.bound(made=BORN + DAY, backs=())
    yield "newest_bound_no_back", "back", "newest binding has no back signature", one.certificate(on_sub=it), BY_SUBKEY
    it = one.bound() + one.bound(made=NOW + 50 * DAY, key_lasts=800)
    yield "newest_bound_future", "-", "newest binding in the future, expired", one.certificate(on_sub=it), BY_SUBKEY
    it = one.bound(ENCRYPT) + one.bound()
    yield "equal_bound", "flags", "two bindings of the same age, flags encrypt and sign", one.certificate(on_sub=it), BY_SUBKEY
    it = one.bound() + one.bound(ENCRYPT)
    yield "equal_bound_back", "flags", "two bindings of the same age, flags sign and encrypt", one.certificate(on_sub=it), BY_SUBKEY
    yield "sub_younger", "early", "subkey newer than the document's signature", *of_young_subkey(LATER)
    yield "sub_older_than_key", "-", "subkey older than the primary key", *of_young_subkey(BORN - 100 * DAY)
    yield "key_ends_at_signature", "expired", "primary expires when the document is signed", signing(key_lasts=900), BY_PRIMARY
    ring = one.certificate(on_sub=one.bound(made=SIGNED))
    yield "bound_at_signature", "-", "binding as old as the document's signature", ring, BY_SUBKEY


def old_keys():
    """Keys of 2010, when SHA-1 was usual: what it says is believed by some because it says so early."""
    then, later = 1262304000, 1325376000  # 2010, 2012
    old, both = Owner(signers.ed25519_legacy(then, seed(0x17)), signers.ed25519_legacy(then, seed(0x18))), CERTIFY | SIGN
    by_key, by_sub = old.document(old.primary), old.document()
    weak = {"made": later, "hash": 2}
    self, bound = old.certified(both, then), old.bound(made=then, backs=(old.back(then),))

    def ring(*more, on_key=b"", on_sub=b""):
        return old.certificate(on_key, b"".join([self, *more]), bound + on_sub)

    yield "old", "-", "keys of 2010", ring(), by_sub
    whole = old.certificate(on_name=old.certified(both, then, hash=2), on_sub=old.bound(made=then, backs=(old.back(then, hash=2),), hash=2))
    yield "old_sha1", "unbound", "keys of 2010, all their signatures by SHA-1", whole, by_sub
    yield "old_revoked_sha1", "revoked", "primary of 2010 revoked by SHA-1 in 2012", ring(on_key=old.revoked(**weak)), by_sub
    yield "old_sub_revoked_sha1", "revoked", "subkey of 2010 revoked by SHA-1 in 2012", ring(on_sub=old.sub_revoked(**weak)), by_sub
    yield "old_newest_sha1", "flags", "newest self-signature by SHA-1 in 2012, flags certify", ring(old.certified(**weak)), by_key
    it = old.certified(both, key_lasts=2000, **weak)
    yield "old_expired_sha1", "expired", "newest self-signature by SHA-1 in 2012, expired", ring(it), by_key
    it = old.bound(key_lasts=2000, backs=(old.back(then),), **weak)
    yield "old_sub_expired_sha1", "expired", "newest binding by SHA-1 in 2012, expired", ring(on_sub=it), by_sub


def of_young_subkey(made):
    """A subkey that was made then."""
    them = Owner(ONE.primary, signers.ed25519_legacy(made, seed(0x16)))
    return them.certificate(), them.document()


def places():
    """Keys that are there more than once."""
    one = ONE
    revoked = one.certificate(one.revoked(2))
    yield "twice_second_revoked", "-", "the certificate twice, revoked in the second", WHOLE + revoked, BY_SUBKEY
    yield "twice_first_revoked", "-", "the certificate twice, revoked in the first", revoked + WHOLE, BY_SUBKEY
    sub_revoked = one.certificate(on_sub=one.bound() + one.sub_revoked(2))
    yield "twice_second_sub_revoked", "-", "the certificate twice, its subkey revoked in the second", WHOLE + sub_revoked, BY_SUBKEY
    yield "twice_first_sub_revoked", "-", "the certificate twice, its subkey revoked in the first", sub_revoked + WHOLE, BY_SUBKEY
    expired = one.certificate(on_name=one.certified(made=BORN + DAY, key_lasts=800))
    yield "twice_second_expired", "-", "the certificate twice, expired by a newer self-signature in the second", WHOLE + expired, BY_SUBKEY
    yield "twice_first_expired", "-", "the certificate twice, expired by a newer self-signature in the first", expired + WHOLE, BY_SUBKEY
    again = one.sub + one.bound()
    yield "sub_twice_first_revoked", "-", "the subkey twice in a certificate, revoked at the first", sub_revoked + again, BY_SUBKEY
    ring = WHOLE + one.sub + one.sub_revoked(2)
    yield "sub_twice_second_revoked", "-", "the subkey twice in a certificate, revoked at the second", ring, BY_SUBKEY
    yield "sub_twice_unbound", "-", "the subkey twice in a certificate, bound at the second", one.certificate(on_sub=b"") + again, BY_SUBKEY
    it = one.certified(made=BORN + DAY, flags=CERTIFY)
    ring = signing() + one.user_id + it
    yield "name_twice", "flags", "the user ID twice, newer and without sign at the second", ring, BY_PRIMARY
    ring = one.key + one.user_id + one.certified(key_lasts=800) + one.user_id + one.certified(made=BORN + DAY) + one.sub + one.bound()
    yield "name_twice_expired", "expired", "the user ID twice, expired by the older self-signature at the first", ring, BY_SUBKEY
    yield "twice_first_bare", "-", "the certificate twice, the first without a signature", one.key + WHOLE, BY_SUBKEY
    ring = one.certificate(on_sub=b"") + SHARED.certificate()
    yield "sub_of_other", "-", "the subkey unbound in a first certificate, bound in another key's", ring, BY_SUBKEY
    it = Owner(OTHER.primary, one.primary, OTHER.name)
    ring = revoked + it.certificate()
    yield "primary_as_subkey", "-", "a primary key, revoked, that is bound as another key's subkey too", ring, BY_PRIMARY
    ring = one.key + one.sub + one.bound() + one.user_id + one.certified()
    yield "name_behind_sub", "-", "the user ID behind the subkey", ring, BY_SUBKEY
    ring = one.key + one.sub + one.bound() + one.user_id + one.certified(CERTIFY | SIGN)
    yield "name_behind_sub_primary", "-", "the user ID behind the subkey, by the primary", ring, BY_PRIMARY
    ring = sub_revoked + SHARED.certificate()
    yield "sub_of_other_revoked", "-", "the subkey revoked in a first certificate, bound in another key's", ring, BY_SUBKEY
    ring = SHARED.certificate() + sub_revoked
    yield "sub_of_other_front", "-", "the subkey bound in another key's certificate, revoked in a second", ring, BY_SUBKEY


def weak_keys():
    """RSA keys of 1024 bits, and hashes that are shorter than the algorithm asks for (5.2.3.2)."""
    small, large = signers.rsa_key(BORN, 1024, 1), signers.rsa_key(BORN, 2048, 2)
    it = Owner(small, ONE.subkey)
    yield "rsa_1024_primary", "unbound", "an RSA key of 1024 bits binds the subkey", it.certificate(), it.document()
    it = Owner(ONE.primary, small)
    yield "rsa_1024_subkey", "weak", "an RSA subkey of 1024 bits signs", it.certificate(), it.document()
    it = Owner(large, small)
    yield "rsa_2048_primary", "-", "an RSA key of 2048 bits signs", it.certificate(on_name=it.certified(3)), it.document(large)
    it = Owner(small, ONE.subkey)
    yield "rsa_1024_revoked", "revoked", "an RSA key of 1024 bits is revoked", it.certificate(it.revoked()), it.document()
    for name, curve, good, short in (("p256", signers.P256, 8, 11), ("p384", signers.P384, 9, 8)):
        it = Owner(signers.ecdsa_key(BORN, curve, b"one"), signers.ecdsa_key(BORN, curve, b"two"))
        words = {8: "SHA2-256", 9: "SHA2-384", 11: "SHA2-224"}
        bound = it.bound(hash=good, backs=(it.back(hash=good),))
        ring = it.certificate(on_name=it.certified(3, hash=good), on_sub=bound)
        yield name, "-", f"ECDSA over {name.upper()}, all by {words[good]}", ring, it.document(hash=good)
        title = f"ECDSA over {name.upper()}, the document's signature by {words[short]}"
        yield f"{name}_short", "weak", title, ring, it.document(hash=short)
        ring = it.certificate(on_name=it.certified(3, hash=short), on_sub=bound)
        title = f"ECDSA over {name.upper()}, the self-signature by {words[short]}"
        yield f"{name}_name_short", "unbound", title, ring, it.document(it.primary, hash=good)


def version_6():
    """Version 6, and algorithm 27 in version 4. The document's signature is by the subkey where nothing else is said."""
    six = Owner(signers.ed25519_native(6, BORN, seed(0x21)), signers.ed25519_native(6, BORN, seed(0x22)))
    other = Owner(signers.ed25519_native(6, BORN, seed(0x23)), signers.ed25519_native(6, BORN, seed(0x24)), OTHER.name)
    both = CERTIFY | SIGN
    key, direct, by_sub, by_key = six.key, six.direct(), six.document(), six.document(six.primary)
    sub = six.sub + six.bound()
    name = six.user_id + six.certified(both)
    plain = six.certified(None)  # says nothing of the key

    def all_of(on_key, on_name=plain, on_sub=None):
        return six.certificate(on_key, on_name, on_sub)

    yield "v6_base", "-", "version 6: base, by the subkey", all_of(direct), by_sub
    yield "v6_primary", "-", "version 6: by the primary, direct key signature 3", all_of(six.direct(both)), by_key
    yield "v6_direct_alone", "-", "version 6: direct key signature alone, no user ID", key + six.direct(both), by_key
    yield "v6_direct_alone_sub", "-", "version 6: direct key signature alone, no user ID, by the subkey", key + direct + sub, by_sub
    yield "v6_name_alone", "unbound", "version 6: only a user ID, no direct key signature", key + name, by_key
    yield "v6_name_alone_sub", "unbound", "version 6: only a user ID, no direct key signature, by the subkey", key + name + sub, by_sub
    yield "v6_bare", "unbound", "version 6: a bare key", key, by_key
    yield "v6_direct_1_name_3", "flags", "version 6: direct 1, user ID 3", all_of(direct, six.certified(both, BORN + DAY)), by_key
    yield "v6_direct_3_name_1", "flags", "version 6: direct 3, user ID 1", all_of(six.direct(both), six.certified(made=BORN + DAY)), by_key
    expired = six.direct(key_lasts=800)
    yield "v6_expired_before", "expired", "version 6: primary expired before the signature", all_of(expired), by_sub
    yield "v6_expired_after", "expired", "version 6: primary expired after the signature", all_of(six.direct(key_lasts=950)), by_sub
    yield "v6_name_expired", "expired", "version 6: expired by the user ID alone", all_of(direct, six.certified(both, key_lasts=800)), by_sub
    ring = all_of(direct, on_sub=six.bound(key_lasts=800))
    yield "v6_sub_expired", "expired", "version 6: subkey expired before the signature", ring, by_sub
    yield "v6_revoked", "revoked", "version 6: primary revoked", all_of(direct + six.revoked()), by_sub
    yield "v6_retired", "revoked", "version 6: primary revoked, retired, after", all_of(direct + six.revoked(3)), by_sub
    yield "v6_revocation_last", "revoked", "version 6: primary revoked behind the last subkey", all_of(direct) + six.revoked(), by_sub
    yield "v6_sub_revoked", "revoked", "version 6: subkey revoked", all_of(direct, on_sub=six.bound() + six.sub_revoked()), by_sub
    yield "v6_unbound", "unbound", "version 6: no binding", all_of(direct, on_sub=b""), by_sub
    yield "v6_back_none", "back", "version 6: no back signature", all_of(direct, on_sub=six.bound(backs=())), by_sub
    yield "v6_sub_encrypts", "flags", "version 6: binding flags encrypt", all_of(direct, on_sub=six.bound(ENCRYPT)), by_sub
    yield "v6_name_unsigned", "-", "version 6: the user ID has no self-signature", all_of(direct, b""), by_sub
    yield "v6_name_revoked", "-", "version 6: user ID revoked", all_of(direct, plain + six.name_revoked()), by_sub
    newer = six.direct(CERTIFY, BORN + DAY)
    yield "v6_newer_direct", "flags", "version 6: a newer direct key signature without sign", all_of(six.direct(both) + newer), by_key
    ring = all_of(direct + six.revoked(by=other.primary)) + other.certificate(other.direct())
    yield "v6_revoked_by_other", "-", "version 6: primary revocation by another", ring, by_sub
    yield "v6_critical", "critical", "version 6: critical unknown subpacket", all_of(direct), six.document(extra=CRITICAL)
    yield "v6_lapsed", "lapsed", "version 6: signature expired", all_of(direct), six.document(lasts=10)
    yield "v6_wrong", "bad", "version 6: wrong document", all_of(direct), six.document(text=b"other\n")
    four = Owner(signers.ed25519_native(4, BORN, seed(0x25)), signers.ed25519_native(4, BORN, seed(0x26)))
    yield "v4_native", "-", "version 4, algorithm 27: base, by the subkey", four.certificate(), four.document()
    ring = four.certificate(on_name=four.certified(both))
    yield "v4_native_primary", "-", "version 4, algorithm 27: by the primary", ring, four.document(four.primary)
    yield "v4_native_revoked", "revoked", "version 4, algorithm 27: primary revoked", four.certificate(four.revoked()), four.document()


FIRST = (usual, bindings, expiries, revocations, documents)
FURTHER = (revokers, displaced, strange_revocations, areas, backs, identities, ages, old_keys, places, weak_keys, version_6)


@functools.lru_cache(None)
def cases():
    found = [Case(*it) for part in (*FIRST, *FURTHER) for it in part()]
    assert len({it.stem for it in found}) == len(found)
    return found
