"""Files of verdicts, made of the module's rows as `opgp-verify --verdicts` writes them; and keyrings for which a file was once taken that
isn't theirs: one with a forged certification, which has the place, the type, the issuer and the left octets of a good one, and one that
was revoked by SHA-1."""

import hashlib

import openpgp_signers as signers
from openpgp_maker import integer, number, on_identity, packet, signature, subpacket

DAY = 86400
TEXT = b"Honest <honest@example.org>"


def head(octets, rows):
    """The first line, for the octets of a keyring's packets and so many rows."""
    return f"verdicts by arithmetic of keyring sha256 {hashlib.sha256(octets).hexdigest().upper()} rows {rows}\n".encode()


def file(octets, lines):
    """The file of these lines of rows, each with its end, which are joined."""
    return head(octets, lines.count(b"\n")) + lines


def with_other_heads(octets, lines):
    """Files of these lines that aren't of a keyring with these octets, each with a title."""
    rows = lines.count(b"\n")
    right = head(octets, rows)
    yield "no first line", lines
    yield "the first line alone", right if lines else right + b"\n"
    yield "the first line twice", right + right + lines
    yield "the first line behind", lines + right if lines else b"\n" + right
    yield "the digest of other packets", head(octets + b"\xd2\x00", rows) + lines
    yield "the digest of no packets", head(b"" if octets else b"\xd2\x00", rows) + lines
    yield "the digest in lower case", right[:41] + right[41:105].lower() + right[105:] + lines
    yield "the digest cut", right[:103] + right[105:] + lines
    yield "one row too many", head(octets, rows + 1) + lines
    yield "one row too few", head(octets, rows - 1) + lines
    yield "zeros in front of the number of rows", right.replace(b" rows ", b" rows 0") + lines
    yield "a carriage return behind the first line", right[:-1] + b"\r\n" + lines
    yield "the policy named", right.replace(b"arithmetic", b"policy") + lines


def dash(value):
    return "-" if value is None else str(value)


def text_of(lines):
    return "".join(f"{it}\n" for it in lines).encode()


def lines_of(keyring, words):
    """The lines of `opgp check`, if its verdicts were these words."""
    keys = keyring.keys()
    for it, word in zip(keyring.signatures(), words, strict=True):
        place = f"row {it.row} cert {it.certificate} part {dash(it.component)} hang {it.hang} nested {dash(it.nested)} :"
        if it.why_not:
            yield f"{place} none {it.why_not}"
        else:
            signer = "-" if it.signer is None else keys[it.signer].key_id.hex().upper()
            yield f"{place} asked type {it.kind:02X} hash {it.hash} signer {signer} digest {it.digest[:2].hex().upper()} verdict {word}"


def first_of(keyring, count):
    """The first line of a file of verdicts on so many rows."""
    return head(keyring.write(), count)[:-1].decode()


def file_of(keyring, lines):
    """The file of verdicts with these lines."""
    lines = [*lines]
    return text_of([first_of(keyring, len(lines)), *lines])


def verdicts_of(keyring, word="good"):
    """The file of verdicts that says this word of each row."""
    return file_of(keyring, lines_of(keyring, [word] * len(keyring.signatures())))


class Forger:
    """A key without its secret."""

    def __init__(self, key):
        self.version, self.algorithm = key.version, key.algorithm

    def make(self, *_):
        return 2 * integer(b"\x55" * 32)


def certified(key, made, hashed, by):
    """The key with a user ID, and a certification with this hashed area."""
    about = key.octets + on_identity(signers.USER_ID, TEXT)
    body = signature(by, 0x13, about, hashed, key.issuer_key_id)
    return packet(signers.PRIMARY, key.body) + packet(signers.USER_ID, TEXT) + packet(signers.SIGNATURE, body)


def honest_and_forged(made):
    """A keyring whose key ends 800 days after it was made; and the same with a certification that nobody made, which says no end. All that
    a line of `opgp check` has is the same for both."""
    key = signers.ed25519("honest", made)
    ends = signers.said(key, made, signers.flags(3), subpacket(9, number(4, 800 * DAY)))
    about = key.octets + on_identity(signers.USER_ID, TEXT)

    def front(hashed):
        return bytes([4, 0x13, key.algorithm, 8]) + number(2, len(hashed)) + hashed

    def behind(hashed):
        return b"\4\xff" + number(4, 6 + len(hashed))

    left = hashlib.sha256(about + front(ends) + behind(ends)).digest()[:2]
    endless = signers.said(key, made, signers.flags(3), subpacket(20, number(4, 1 << 31) + number(2, 5) + number(2, 4) + b"a@b.c" + bytes(4)))
    begun = hashlib.sha256(about + front(endless)[:-4])
    for it in (number(4, it) for it in range(1 << 24)):
        tried = begun.copy()
        tried.update(it + behind(endless))
        if tried.digest()[:2] == left:
            return certified(key, made, ends, key), certified(key, made, endless[:-4] + it, Forger(key))
    raise ValueError("no such digest")


def revoked_by_sha1(made):
    """A key that revoked itself by SHA-1: by the usual policy the verdict on that is undecided."""
    key = signers.ed25519("revoked by SHA-1", made)
    said = signers.said(key, made + DAY, subpacket(29, b"\2"))
    body = signature(key, 0x20, key.octets, said, key.issuer_key_id, hash=2)
    return signers.certificate(key, b"Revoked <revoked@example.org>", front=packet(signers.SIGNATURE, body))
