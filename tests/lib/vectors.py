"""The rows of tests/vectors, as its README.md has them written."""

import base64
import os
import re

from model import armor
from running import HERE

VECTORS = f"{HERE}/tests/vectors"
KEY = bytes.fromhex("C6330453F35F0B16092B06010401DA470F010107403F098994BDD916ED4053197934E4A87C80733A1280D62F8010992E43EE3B2406")
LINE_OF_THE_KEY = "pub v4 alg 22 created 1408458507 C959BDBAFA32A2F89A153B678CFDE12197965A9A 8CFDE12197965A9A"


def lines_of(name):
    with open(f"{VECTORS}/{name}", encoding="ascii") as it:
        return [line for line in it.read().split("\n") if line and not line.startswith("#")]


BEGINNINGS = re.compile(r"(.*) \{(\d+)\.\.(\d+)\}")
TOKEN = re.compile(r'\s+|"([^"]*)"|\[([A-Z ]+):|(\])|((?:[0-9A-F]{2})+)(?:\*(\d+))?|<([a-z0-9_]+)>(?:\*(\d+))?')


def file_octets(path):
    with open(path, "rb") as it:
        return it.read()


def letters_of(text):
    """The octets of an armored text of one block without headers."""
    return base64.b64decode(b"".join(it for it in text.split(b"\n")[2:] if it[:1] not in (b"=", b"-")))


def named(name):
    """The octets that an input calls so; a1 to a12 are the texts of samples of RFC 9580, and disputed certificates have their own."""
    if name == "certificate":
        return letters_of(named("a3"))
    if name in ("a1", "a3"):
        return file_octets(f"{HERE}/examples/rfc9580-{name}.asc")
    if os.path.exists(f"{VECTORS}/standard/{name}.asc"):
        return file_octets(f"{VECTORS}/standard/{name}.asc")
    if os.path.exists(f"{VECTORS}/disputed/{name}.gpg"):
        return file_octets(f"{VECTORS}/disputed/{name}.gpg")
    text = armor(KEY)
    return {"key": KEY, "begin": text[:37], "letters": text[38:-35], "end": text[-35:]}[name]


def octets_of(written):
    """The octets of an input, as tests/vectors/README.md has them written."""
    at, out, label = 0, b"", b""
    while at < len(written):
        found = TOKEN.match(written, at)
        if not found:
            raise ValueError(f"tests/vectors: {written[at:]!r} is no input")
        text, begun, ended, digits, times, name, copies = found.groups()
        if text is not None:
            out += text.encode().decode("unicode_escape").encode("latin-1")
        elif begun:
            before, out, label = out, b"", begun.encode()
        elif ended:
            out = before + armor(out, label)
        elif digits:
            out += bytes.fromhex(digits) * int(times or 1)
        elif name:
            out += named(name) * int(copies or 1)
        at = found.end()
    return out


def answer_of(written):
    """The status, the standard output and the standard error that an answer names; None for a text that isn't told."""
    if written == "2":
        return 2, b"", None
    if written[0] == "!":
        return 1, b"", written[2:].encode() + b"\n"
    if written[0] == ">":
        return 0, octets_of(written[2:]), b""
    lines = []
    for line in written[2:].split(" ; ") if written[2:] else []:
        line, _, times = line.partition("*") if line.startswith("<") else (line, "", "")
        lines += [LINE_OF_THE_KEY if line == "<line of the key>" else line] * int(times or 1)
    return 0, "".join(f"{it}\n" for it in lines).encode(), b""


def rows_of(name):
    """The rows of a file: its name, the words, the input and the answer."""
    for line in lines_of(name):
        words, written, answer = (it.strip() for it in line.split("|"))
        yield name, words, written, answer_of(answer)


def worked_rows():
    """The same of rows.txt, where a row may stand for some beginnings of its input."""
    for line in lines_of("rows.txt"):
        words, written, answer = (it.strip() for it in line.split("|"))
        if not (some := BEGINNINGS.fullmatch(written)):
            yield words, octets_of(written), answer_of(answer)
            continue
        octets = octets_of(some[1])
        for n in range(int(some[2]), int(some[3]) + 1):
            yield words, octets[:n], answer_of(answer.replace(" n ", f" {n} "))
