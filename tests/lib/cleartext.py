"""A message in the cleartext signature framework, read as plainly as it goes: an answer to hold the program's against.

read(text, most) gives ("ok", document, place), where the document's lines have a line feed between them and the signatures' armor begins at
that place of the text, or ("fault", reason, place). hashed(document) is what its signatures of type 01 hash. rows() are the messages of
tests/vectors/cleartext. Sections are those of RFC 9580."""

import re

from running import HERE

HASHES = b"MD5|SHA1|RIPEMD160|SHA256|SHA384|SHA512|SHA224|SHA3-256|SHA3-512"
NAME = rb"[ \t]*(?:" + HASHES + rb")[ \t]*"
# What a line says is seen without the spaces, tabs and carriage returns at its end (6.2).
END = rb"[ \t\r]*"
BLANK = re.compile(END)
MESSAGE = re.compile(rb"-----BEGIN PGP SIGNED MESSAGE-----" + END)
SIGNATURE = re.compile(rb"-----BEGIN PGP SIGNATURE-----" + END)
# Names of hash algorithms between commas (6.2.2.3, 9.5). No other header may be there (7.1).
HEADER = re.compile(rb"Hash: " + NAME + rb"(?:," + NAME + rb")*" + END)


def read(text, most):
    place, part, document = 0, "front", []
    # A last piece without a line feed is a line too.
    for whole in re.findall(rb"[^\n]*\n|[^\n]+", text):
        line = whole[:-1] if whole.endswith(b"\n") else whole
        found = "LineTooLong" if len(line) > most else PARTS[part](line, document)
        if found == "signatures":
            return "ok", b"\n".join(document), place
        if found in PARTS:
            part = found
        elif found:
            return "fault", found, place
        place += len(whole)
    return "fault", "NoMessage" if part == "front" else "Unfinished", len(text)


# What a line does in each part: it leads to another part, is at fault, or neither.


def in_front(line, _):
    if BLANK.fullmatch(line):
        return None
    if MESSAGE.fullmatch(line):
        return "headers"
    return "Label" if line.startswith(b"-----BEGIN PGP ") else "Outside"


def among_headers(line, _):
    if BLANK.fullmatch(line):
        return "text"
    return None if HEADER.fullmatch(line) else "Header"


def in_text(line, document):
    # One carriage return is part of the line's end.
    bare = line.removesuffix(b"\r")
    if b"\r" in bare:
        return "StrayReturn"
    if bare.startswith(b"- "):
        bare = bare[2:]
    elif bare.startswith(b"-"):
        if not SIGNATURE.fullmatch(bare):
            return "Unescaped"
        return "signatures" if document else "NoText"
    document.append(bare.rstrip(b" \t"))
    return None


PARTS = {"front": in_front, "headers": among_headers, "text": in_text}


def hashed(document):
    return document.replace(b"\n", b"\r\n")


# What is refused behind the documents of tests/vectors/cleartext, and how a line says it.
BEHIND = {
    "text after": "armor: Outside", "two messages": "armor: Label", "second message forged": "armor: Label", "no end line": "armor: Unfinished",
    "text behind the signature": "armor: AfterChecksum", "key block behind": "",
}  # fmt: skip
LETTERS = {b"n": b"\n", b"r": b"\r", b"t": b"\t", b"\\": b"\\"}


def spelled(field):
    """The octets that a field of the table spells."""
    field = re.sub(r"<(.)\*(\d+)>", lambda it: it[1] * int(it[2]), field)
    return re.sub(rb"\\(?:x([0-9A-F]{2})|(.))", lambda it: bytes([int(it[1], 16)]) if it[1] else LETTERS[it[2]], field.encode())


def rows():
    """Each message: its title, the answer of the strict reading and its place, what each program said, and the message itself."""
    with open(f"{HERE}/tests/vectors/cleartext/messages.txt", encoding="ascii") as it:
        lines = [line.rstrip("\n").split("\t") for line in it if line.strip() and not line.startswith("# ") and line.strip() != "#"]
    columns = "gpgv-2.2.40 gpgv-2.4.7 gpg-2.2.40 sqv-1.3.0 sqop-0.27.3 sqop-0.37.2 rsopv-0.6.4 rnp-0.16.3".split()
    for title, answer, place, *others_say, message in lines:
        yield title, answer, int(place), dict(zip(columns, others_say, strict=True)), spelled(message)
