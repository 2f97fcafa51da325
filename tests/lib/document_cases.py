"""Signatures over a document of today, of each kind, with what is found of them; and what opgp-sopv, opgp-sqv and opgp-gpgv write of that."""

import time

import openpgp_signers as signers
from openpgp_maker import number, packet, signature, signature_3, subpacket

DAY = signers.DAY
NOW = int(time.time())
BORN, MADE = NOW - 400 * DAY, NOW - 10 * DAY
DOCUMENT = b"a document\nin two lines\n"


def digits(octets):
    return octets.hex().upper()


def clock(form, seconds):
    return time.strftime(form, time.gmtime(seconds))


def iso(seconds):
    return clock("%Y-%m-%dT%H:%M:%SZ", seconds)


# ---- Keys, certificates and signatures


class Case:
    """A signature, with the octets of its signer's certificate. `said` is what is found of it: good, bad, 'good unbelieved ..', 'undecided
    ..' or 'none ..'. `key` made it, in the certificate of `primary`; its name is the first that counts."""

    def __init__(self, octets, ring, said, key=None, primary=None, text="", kind=0, hash=8, made=MADE, expires=0, version=4):
        self.octets, self.ring, self.said, self.key, self.primary = octets, ring, said, key, primary or key
        self.text, self.kind, self.hash, self.made, self.expires, self.version = text, kind, hash, made, expires, version
        self.is_here = said not in ("undecided absent", "none opaque")  # its signer's key is found
        self.key_name = {22: "ed25519", 27: "ed25519", 19: "nistp256"}.get(key.algorithm) if key else None

    def is_good(self):
        return self.said == "good"


def cases(document=DOCUMENT, kind=0):
    """A case for each kind of signature: over the document, or of type 01 over its canonical text."""
    found = {}
    key, other, sub = (signers.ed25519(name, BORN) for name in ("one", "other", "sub"))
    six, elliptic = signers.ed25519("six", BORN, 6), signers.ecdsa(BORN)
    name, text = b"Archive One <one@example.org>", "Archive One <one@example.org>"
    ring = signers.certificate(key, name)
    lines = document.replace(b"\n", b"\r\n")
    signed = lines if kind else document

    def over(by, made, *subpackets, octets=signed, **how):
        return signers.over(by, octets, made, *subpackets, **{"kind": kind, **how})

    def add(title, octets, ring, said, of=key, **more):
        found[title] = Case(octets, ring, said, of, **{"text": text, "kind": kind, **more})

    good = over(key, MADE)

    add("good", good, ring, "good")
    add("text", over(key, MADE, octets=lines, kind=1), ring, "good", kind=1)
    add("subkey", over(sub, MADE), signers.certificate(key, name, signers.subkey(key, sub, BORN), signs=False), "good", sub, primary=key)
    add("version 6", over(six, MADE), signers.certificate(six, b"Six"), "good", six, text="Six", version=6)
    add("ecdsa", over(elliptic, MADE), signers.certificate(elliptic, b""), "good", elliptic, text="")
    add("sha-512", over(key, MADE, hash=10), ring, "good", hash=10)
    lasts = subpacket(3, number(4, 20 * DAY))
    add("that expires", over(key, MADE, lasts), ring, "good", expires=MADE + 20 * DAY)
    add("absent", over(other, MADE), ring, "undecided absent", other, text="")
    add("bad", over(key, MADE, octets=b"another document\n"), ring, "bad")
    body = bytearray(good)
    body[-1] ^= 1
    add("changed", bytes(body), ring, "bad")
    for title, made, reason in (("revoked", NOW - 50 * DAY, 2), ("revoked after", NOW - DAY, 2), ("retired after", NOW - DAY, 3)):
        add(title, good, signers.certificate(key, name, front=signers.revocation(key, made, reason)), "good unbelieved revoked")
    for title, days in (("expired before", 380), ("expired after", 395)):
        ring_of = signers.certificate(key, name, subpackets=[subpacket(9, number(4, days * DAY))])
        add(title, good, ring_of, "good unbelieved expired")
    add("lapsed", over(key, MADE, subpacket(3, number(4, DAY))), ring, "good unbelieved lapsed", expires=MADE + DAY)
    add("future", over(key, NOW + 7200), ring, "good unbelieved future", made=NOW + 7200)
    add("far future", over(key, NOW + 3 * DAY), ring, "good unbelieved future", made=NOW + 3 * DAY)
    add("early", over(key, BORN - DAY), ring, "good unbelieved early", made=BORN - DAY)
    add("without flags", good, signers.certificate(key, name, signs=False), "good unbelieved flags")
    add("unbound", over(sub, MADE), ring + packet(14, sub.body), "good unbelieved unbound", sub, primary=key)
    bound = signers.subkey(key, sub, BORN, is_backed=False)
    add("without back", over(sub, MADE), ring + bound, "good unbelieved back", sub, primary=key)
    add("wrong type", over(key, MADE, kind=0x10), ring, "none kind", kind=0x10)
    add("standalone", over(key, MADE, kind=2), ring, "none kind", kind=2)
    add("sha-1", over(key, MADE, hash=2), ring, "undecided weak-hash", hash=2)
    add("sha3-512", over(key, MADE, hash=14), ring, "none hash", hash=14)
    add("critical", over(key, MADE, subpacket(100, b"x", True)), ring, "undecided critical")
    two = over(key, MADE, subpacket(2, number(4, MADE)))
    add("two times", two, ring, "good unbelieved time", made=None)
    by_rsa = signers.rsa(2048, BORN)
    old = packet(2, signature_3(by_rsa, kind, signed, MADE))
    add("version 3", old, signers.certificate(by_rsa, name), "none opaque", by_rsa, text="", version=3)
    add("version 5", packet(2, b"\5" + good[3:]), ring, "none opaque", None, text="", kind=0, hash=0, made=None, version=0)
    nameless = packet(2, signature(key, kind, signed, subpacket(2, number(4, MADE))))
    add("nameless", nameless, ring, "undecided absent", None, text="")
    return found


def others(document=DOCUMENT, kind=0):
    """Good signatures by other keys."""
    signed = document.replace(b"\n", b"\r\n") if kind else document
    for number_of in range(3):
        key = signers.ed25519(f"second {number_of}", BORN)
        text = f"Second {number_of}"
        yield Case(signers.over(key, signed, MADE, kind=kind), signers.certificate(key, text.encode()), "good", key, text=text, kind=kind)


# A document with each thing that a cleartext message spells in another way.
TEXT = b"a document\n-of lines\n\nFrom here to there\n- and back"


def of_messages():
    """A case for each kind of signature over that text in a message: of another type than 01 none is good there."""
    found = cases(TEXT, 1)
    key, other = (signers.ed25519(name, BORN) for name in ("one", "other"))
    ring, text = found["good"].ring, found["good"].text
    lines = TEXT.replace(b"\n", b"\r\n")
    for title, octets in (("type 00", lines), ("type 00, over line feeds", TEXT), ("type 00, bad", b"x")):
        found[title] = Case(signers.over(key, octets, MADE), ring, "none kind", key, text=text)
    found["type 00, absent"] = Case(signers.over(other, lines, MADE), ring, "none kind", other)
    found["type 00, absent"].is_here = False
    return found


# ---- What each name must write


def key_id_of(case):
    if case.key is None:
        return "0" * 16
    return digits(case.key.key_id)


CODES = {"undecided absent": 9, "none kind": 32, "good unbelieved flags": 125, "good unbelieved unbound": 6}
CODES |= {f"good unbelieved {why}": 39 for why in ("early", "time", "future")} | {f"good unbelieved {why}": 1 for why in ("back", "weak", "critical", "type", "issuer")}


def error_of(case, refused=False):
    """ERRSIG of a case, with the codes of gpgv."""
    algorithm = case.key.algorithm if case.key else 22 if case.version else 0
    is_absent = case.said == "undecided absent"
    name = digits(case.key.fingerprint) if case.key and case.version > 3 else "-"
    lines = [f"ERRSIG {key_id_of(case)} {algorithm} {case.hash} {case.kind:02X} {case.made or 0} {4 if refused else CODES.get(case.said, 4)} {name}"]
    return lines + [f"NO_PUBKEY {key_id_of(case)}"] * is_absent


def status_lines(case, refused=False):
    who = f"{key_id_of(case)} {case.text or '[?]'}"
    if case.is_good() and not refused:
        key, primary = digits(case.key.fingerprint), digits(case.primary.fingerprint)
        date = clock("%Y-%m-%d", case.made)
        valid = f"{key} {date} {case.made} {case.expires} {case.version} 0 {case.key.algorithm} {case.hash} {case.kind:02X} {primary}"
        return ["NEWSIG", f"GOODSIG {who}", f"VALIDSIG {valid}", "TRUST_UNDEFINED 0 pgp"]
    words = {"bad": "BADSIG", "good unbelieved expired": "EXPKEYSIG", "good unbelieved revoked": "REVKEYSIG", "good unbelieved lapsed": "EXPSIG"}
    return ["NEWSIG", *([f"{words[case.said]} {who}"] if case.said in words else error_of(case, refused and case.is_good()))]


def gpgv_status(those):
    found = {case.said for case in those}
    return 1 if found - {"good", "undecided absent"} else 2 if "undecided absent" in found else 0


def explained(number_of, case, refusal=None):
    """The line for people."""
    key = digits(case.key.fingerprint if case.version > 3 else case.key.key_id) if case.key else "-"
    primary = digits(case.primary.fingerprint) if case.key and case.is_here else "-"
    text = f' "{case.text}"' if case.text else ""
    said = f"good refused {refusal}" if case.is_good() and refusal else case.said
    made = iso(case.made) if case.made else "-"
    return f"signature {number_of} type {case.kind:02X} hash {case.hash} made {made} key {key} certificate {primary} : {said}{text}"


def verification(case):
    mode = "text" if case.kind else "binary"
    return f"{iso(case.made)} {digits(case.key.fingerprint)} {digits(case.primary.fingerprint)} mode:{mode}\n"
