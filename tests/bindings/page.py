#!/usr/bin/env python3
"""Tries python/examples/page.py over the library for C, which OPGP_LIBRARY names or which is made: pages of keyrings and of refused
inputs, as HTML and in a browser. Of inputs with a secret key no page has an octet of it.

Of each page the tags, that nothing is loaded, and the policy; that its octets are the keyring's, and each field where the rows have it;
that the octets of each signature are those that the library hashes, and have the digest; and what a stranger's user ID does to it. In
chromium, where that is: widths, clicks, taps, keys, colours, and how long 500 packets take. The last line counts what was tried.

Usage: tests/bindings/page.py [--pictures FOLDER]

With --pictures the two pictures of the manual are made anew."""

import argparse
import base64
import datetime
import hashlib
import html.parser
import importlib
import io
import json
import os
import re
import shutil
import subprocess
import sys
import tempfile
import time
import unicodedata
import unittest.mock

sys.dont_write_bytecode = True
sys.path.insert(0, f"{sys.path[0]}/../lib")

import browser  # noqa: E402
import model  # noqa: E402
import openpgp_signers as signers  # noqa: E402
import secret_keys  # noqa: E402
from openpgp_maker import Key, integer, number, packet, signature_3, subpacket  # noqa: E402
from running import HERE  # noqa: E402

PAGE = f"{HERE}/python/examples/page.py"
A1, A3 = (f"{HERE}/examples/rfc9580-{it}.asc" for it in ("a1", "a3"))
TAGS = {"html", "head", "meta", "title", "style", "body", "header", "h1", "h2", "h3", "p", "bdi", "noscript", "main", "nav", "ul", "ol", "li",
        "div", "span", "input", "article", "script", "dl", "dt", "dd", "mark", "i"}
ALONE = {"meta", "input"}
NOT_IN_SCRIPTS = ("innerHTML", "outerHTML", "insertAdjacentHTML", "document.write", "eval(", "Function(", "fetch(", "XMLHttpRequest", "import(",
                  "WebSocket", "http:", "https:", "setAttribute(\"on", "srcdoc")
MOST_SECONDS = 2  # for a page of 500 packets to load
LEAST_CONTRAST = 4.5
MADE = 1700000000
passed = failed = 0
ROOM = None


def verdict(name, holds, why=""):
    global passed, failed
    passed, failed = passed + bool(holds), failed + (not holds)
    if not holds:
        print(f"tests/bindings/page.py: {name}: FAILED {why}"[:2000], file=sys.stderr)


def left_out(what):
    print(f"tests/bindings/page.py: left out, since it isn't here: {what}", file=sys.stderr)


def octets_of(path):
    with open(path, "rb") as it:
        return it.read()


def kept(name, octets):
    path = f"{ROOM}/{name}"
    with open(path, "wb") as it:
        it.write(octets)
    return path


def run(*words):
    """The end of a run of the example."""
    env = {**os.environ, "PYTHONPATH": f"{HERE}/python", "PYTHONDONTWRITEBYTECODE": "1", "LC_ALL": "C"}
    return subprocess.run([sys.executable, PAGE, *words], capture_output=True, check=False, timeout=120, env=env)


class Terminal(io.TextIOWrapper):
    """What takes itself for a terminal."""

    def isatty(self):
        return True


def called(path):
    """The same by a call in this process, which takes less, on a terminal: its status, output and errors."""
    sys.path.insert(0, os.path.dirname(PAGE))
    page = importlib.import_module("page")
    sys.path.remove(os.path.dirname(PAGE))
    out, err = (Terminal(io.BytesIO(), "utf-8") for _ in range(2))
    with unittest.mock.patch.multiple(sys, argv=[PAGE, path], stdout=out, stderr=err):
        status = page.main()
        out.flush()
        err.flush()
    return subprocess.CompletedProcess([PAGE, path], status, out.buffer.getvalue(), err.buffer.getvalue())


def library_in(room):
    """The path of the library: that of OPGP_LIBRARY, or of one that is made; empty: it can't be made."""
    if given := os.environ.get("OPGP_LIBRARY"):
        return os.path.abspath(given)
    made = subprocess.run(["make", "-C", HERE, f"{room}/libopgp.so.3", f"made={room}"], capture_output=True, check=False)
    verdict("make the library", made.returncode == 0, made.stderr.decode())
    return f"{room}/libopgp.so.3" if made.returncode == 0 else ""


# ---- Inputs


HOSTILE = (
    b'</script><script>alert(1)</script> "\'&amp; <img src=x onerror=alert(2)>',
    "\u202egpj.exe\u2066 \u200b\0\x07 \u2028".encode(),
    b"\xff\xfe not \xc3 UTF-8",
    ("Z" + "\u0301\u0489" * 40 + "algo").encode(),
    b"",
    b"A" * 5000,
    "\u05e2\u05d1\u05e8\u05d9\u05ea <he@example.org>".encode(),
    b"\1odd\2",
    b"${data} $data",
    b"<!--<script>",
)


def hostile():
    """A keyring of strange user IDs, attributes, subpackets and versions."""
    key, old, sub = signers.ed25519("six", MADE, 6), signers.ed25519("four", MADE), signers.ed25519("sub", MADE, 6)
    strange = [
        subpacket(20, number(4, 1 << 31) + number(2, 6) + number(2, 9) + b"a@b.cd" + b"<b>x</b>!"),
        subpacket(20, number(4, 0) + number(2, 1) + number(2, 2) + b"n\0\xff"),
        subpacket(99, b"zz", True),
        subpacket(29, b"\2why <i>"),
        subpacket(31, b"\x1b\x08" + bytes(32)),
        subpacket(39, bytes([9, 2, 7, 3])),
        subpacket(12, bytes([0x80, 22]) + bytes(20)),
        subpacket(5, b"\1\x78"),
        subpacket(6, b"<[^>]+[@.]example>$\0"),
        subpacket(2, b"xx"),
        subpacket(26, b"javascript:alert(1)"),
        subpacket(2, bytes(300)),
    ]
    octets = packet(10, b"PGP") + signers.certificate(key, HOSTILE[0], *[signers.identity(key, it, MADE) for it in HOSTILE[1:]])
    octets += packet(17, b"\x16\1\x10\0\1\1" + bytes(12) + b"\xff\xd8\xff\xe0\0") + packet(17, b"")
    curves = [Key(4, MADE, 18, bytes([size]) + bytes(range(size)) + integer(b"\x40" * 33) + b"\3\1\x08\7", None).body for size in (1, 200)]
    octets += b"".join(packet(14, it) for it in curves) + packet(14, Key(6, MADE, 99, b"any octets", None).body)
    octets += signers.subkey(key, sub, MADE, *strange) + packet(60, bytes(range(256)) * 40)
    expiry = [subpacket(9, number(4, 86400 * 400)), subpacket(3, number(4, 86400 * 9))]
    octets += signers.certificate(old, b"four <four@example.org>", signers.subkey(old, signers.ed25519("s", MADE), MADE), subpackets=expiry)
    octets += packet(2, signature_3(old, 0x10, old.octets, MADE)) + packet(2, b"\7opaque")
    octets += signers.certificate(signers.rsa(2048, MADE), b"rsa") + signers.certificate(signers.ecdsa(MADE), b"ecdsa")
    return octets


def many():
    """A keyring of 500 packets."""
    found = []
    for each in range(100):
        key, sub = signers.ed25519(f"key {each}", MADE), signers.ed25519(f"sub {each}", MADE)
        found.append(signers.certificate(key, f"Number {each} <{each}@example.org>".encode(), signers.subkey(key, sub, MADE)))
    return b"".join(found)


def sources():
    """Keyrings, by name."""
    yield "strange user IDs", kept("hostile.gpg", hostile())
    for folder in ("examples", *(f"tests/vectors/{it}" for it in ("real", "sq", "standard", "algorithms", "disputed"))):
        for name in sorted(os.listdir(f"{HERE}/{folder}")):
            if name.endswith((".asc", ".gpg")):
                yield f"{folder}/{name}", f"{HERE}/{folder}/{name}"


# ---- The HTML


class Shape(html.parser.HTMLParser):
    """What a page has: its tags, scripts, styles, labels of the tree and all its text."""

    def __init__(self, text):
        super().__init__(convert_charrefs=True)
        self.open, self.wrong, self.ids, self.items, self.labels, self.policy = [], [], [], [], [], ""
        self.inside = {"script": [], "style": []}
        self.text = ""
        self.feed(text)
        self.close()
        if self.open:
            self.wrong.append(f"open at the end: {self.open}")

    def handle_starttag(self, tag, attrs):
        attrs = dict(attrs)
        if tag not in TAGS:
            self.wrong.append(f"the tag {tag}")
        for name, value in attrs.items():
            if name.startswith("on") or name in ("style", "src", "srcset", "action", "formaction", "href", "data"):
                self.wrong.append(f"{name}={value}")
        if tag not in ALONE:
            self.open.append((tag, attrs))
        if tag in self.inside:
            self.inside[tag].append("")
        if attrs.get("http-equiv") == "Content-Security-Policy":
            self.policy = attrs["content"]
        if "data-node" in attrs:
            self.items.append(int(attrs["data-node"]))
        if "label" in attrs.get("class", "").split():
            self.labels.append("")
        self.ids += [attrs["id"]] if "id" in attrs else []

    def handle_endtag(self, tag):
        if not self.open or self.open.pop()[0] != tag:
            self.wrong.append(f"the end of {tag}")

    def handle_data(self, data):
        tag = self.open[-1][0] if self.open else ""
        if tag in self.inside:
            self.inside[tag][-1] += data
            return
        self.text += data
        if any("label" in attrs.get("class", "").split() for _, attrs in self.open):
            self.labels[-1] += data


def policy_of(style, script):
    """The policy that lets this style and script count, and nothing else."""
    named = [base64.b64encode(hashlib.sha256(it.encode()).digest()).decode() for it in (style, script)]
    return "default-src 'none'; style-src 'sha256-{}'; script-src 'sha256-{}'; base-uri 'none'; form-action 'none'".format(*named)


def shaped(what, octets):
    """The shape of a page, and its data. It is well-formed and loads nothing."""
    text = octets.decode()
    it = Shape(text)
    data, script = it.inside["script"] if len(it.inside["script"]) == 2 else ("{}", "")
    verdict(f"{what}: well-formed, with two scripts and one style", not it.wrong and script and len(it.inside["style"]) == 1, it.wrong)
    verdict(f"{what}: no name twice", len(set(it.ids)) == len(it.ids), it.ids)
    verdict(f"{what}: its policy", it.policy == policy_of(it.inside["style"][0], script), it.policy)
    loads = [word for word in NOT_IN_SCRIPTS if word in script] + re.findall(r"url\(|@import|@font-face|expression\(", it.inside["style"][0])
    verdict(f"{what}: nothing is loaded", not loads, loads)
    strange = {f"U+{ord(letter):04X}" for letter in text if unicodedata.category(letter) in ("Cc", "Cf", "Cs", "Co", "Cn", "Zl", "Zp")} - {"U+000A"}
    verdict(f"{what}: no controls and marks of direction", not strange, strange)
    return it, json.loads(data)


# ---- What a page says beside the rows


class Said:
    """The data of a page, with the fields of a node where they are."""

    def __init__(self, data):
        self.nodes, self.texts, self.octets = data["nodes"], data["texts"], base64.b64decode(data["octets"])
        self.by_name = {it["id"]: it for it in self.nodes}

    def parts(self, field):
        found = field[3] if len(field) > 3 else []
        return self.nodes[found[0]]["fields"][found[1] : found[2]] if found and isinstance(found[0], int) else found

    def leaves(self, fields, octets, path=(), at=0):
        """The names of a field and of what it is in, its octets, and what is said, of each that has no parts. A field is as long as its
        parts."""
        for field in fields:
            here = (*path, self.texts[field[0]])
            parts = self.parts(field)
            if parts:
                if sum(it[1] for it in parts) != field[1]:
                    raise ValueError(f"the parts of {here} aren't the whole of it")
                yield from self.leaves(parts, octets, here, at)
            else:
                yield here, octets[at : at + field[1]], self.texts[field[2]] if len(field) > 2 else ""
            at += field[1]

    def of_node(self, node):
        """The leaves of a node, and its octets."""
        octets = self.octets[node["at"] : node["at"] + sum(it[1] for it in node["fields"])]
        return list(self.leaves(node["fields"], octets)), octets

    def hashed(self, node):
        """The octets that a node's signature hashes, and their leaves."""
        it = node["hashed"]
        octets = b"".join(bytes.fromhex(part) if isinstance(part, str) else self.octets[part[0] :][: part[1]] for part in it["pieces"])
        if sum(field[1] for field in it["fields"]) != len(octets):
            raise ValueError("the fields aren't the whole of what is hashed")
        return octets, list(self.leaves(it["fields"], octets))

    def facts(self, node):
        return {self.texts[name]: self.texts[said] for name, said, *_ in node["facts"]}


def iso(seconds):
    return datetime.datetime.fromtimestamp(seconds, datetime.timezone.utc).strftime("%Y-%m-%d %H:%M:%S UTC")


def groups(octets):
    return " ".join(octets.hex().upper()[at : at + 4] for at in range(0, 2 * len(octets), 4))


def key_fits(it, said, node):
    """Whether a key's node has what its row has."""
    leaves, _ = said.of_node(node)
    found = {path[-1]: (octets, told) for path, octets, told in leaves}
    facts = said.facts(node)
    material = {}
    for path, octets, _ in leaves:
        if path[0] not in ("Packet header", "Version", "Creation time", "Algorithm", "Length of the material"):
            material[path[0]] = material.get(path[0], b"") + octets * (path[-1] not in ("Count of bits", "Size"))
    return (
        found["Creation time"] == (number(4, it.created), iso(it.created))
        and found["Algorithm"] == (bytes([it.algorithm]), f"{it.algorithm_name or 'unknown'} ({it.algorithm})")
        and (facts["Fingerprint"], facts["Key ID"]) == (groups(it.fingerprint), groups(it.key_id))
        and tuple(material.values()) == it.material
    )


def signature_fits(it, said, node):
    """Whether the node of a signature that is parsed has what its row has."""
    leaves, octets = said.of_node(node)
    found = {path[-1]: octets for path, octets, _ in leaves}
    facts = said.facts(node)
    inside = [(path, octets) for path, octets, _ in leaves if path[0].endswith("hashed area") or path[0] == "Hashed area"]
    kinds = [octets for path, octets in inside if path[2:] == ("Kind",)]
    sizes = [octets for path, octets in inside if path[2:] == ("Length",)]
    wanted = [bytes([each.kind | each.is_critical << 7]) for each in it.subpackets]
    created = "no one time is stated" if it.created is None else iso(it.created)
    flags = it.key_flags
    named = None if flags is None else ", ".join(each.name.lower().replace("_", " ") for each in type(flags) if each in flags)
    return (
        found["Left 16 bits"] == it.left
        and facts["Created"] == created
        and (kinds == wanted and len(sizes) == len(wanted) if it.version != 3 else not inside)
        and all(each.data in octets for each in it.subpackets)
        and (not named or facts["Key flags"].startswith(named))
    )


def signature_hashes(opgp, keyring, it, said, node):
    """Whether a signature's node has what the library hashes of it, in whole fields, and the digest."""
    if it.why_not:
        return "hashed" not in node and "Not" in str(said.facts(node))
    octets, leaves = said.hashed(node)
    names = [field[0] for field in node["hashed"]["fields"]]
    parts = ["Salt"] * (it.version == 6) + ["Primary key"] + ["on"] * (it.component is not None) + ["Signature", "Trailer"]
    names = ["on" if it in ("User ID", "User attribute", "Subkey") else it for it in map(said.texts.__getitem__, names)]
    name = it.hash_name.lower().replace("sha2-", "sha").replace("-", "")
    return (
        octets == keyring.octets(it.row)
        and hashlib.new(name, octets).digest() == it.digest == bytes.fromhex(node["hashed"]["digest"].replace(" ", ""))
        and node["hashed"]["left"] == it.left.hex().upper()
        and names == parts
        and b"".join(each for _, each, _ in leaves) == octets
    )


def nodes_fit(opgp, what, keyring, said):
    """The nodes beside the rows."""
    at, nodes = 0, {}
    for count, it in enumerate(keyring.packets()):
        node = nodes[it.certificate, it.component, it.hang] = said.by_name[f"packet-{count}"]
        leaves, octets = said.of_node(node)
        head = len(octets) - len(it.body)
        fits = node["at"] == at and octets[head:] == it.body and b"".join(each for _, each, _ in leaves) == octets
        verdict(f"{what}: packet {count} is where it is", fits and leaves[0][0][0] == "Packet header" and head == len(leaves[0][1] + leaves[1][1]))
        at += len(octets)
    verdict(f"{what}: the octets are those of the packets", at == len(said.octets) and said.octets == keyring.write())
    for it in keyring.keys():
        verdict(f"{what}: key {it.row}", key_fits(it, said, nodes[it.certificate, it.component, None]))
    for it in keyring.signatures():
        node = nodes[it.certificate, it.component, it.hang]
        node = node if it.nested is None else said.by_name[f"{node['id']}-embedded-{it.nested}"]
        verdict(f"{what}: row {it.row}", not it.version or signature_fits(it, said, node), node)
        verdict(f"{what}: row {it.row} hashed", signature_hashes(opgp, keyring, it, said, node), node)


def keyrings(opgp):
    """Every keyring has a page that says what its rows say."""
    count = 0
    for what, path in sources():
        try:
            keyring = opgp.read(octets_of(path))
        except opgp.Fault as fault:
            fault_fits(opgp, what, path, fault)
            continue
        ended = run(path)
        verdict(f"{what}: status", (ended.returncode, ended.stderr) == (0, b""), ended.stderr)
        shape, data = shaped(what, ended.stdout)
        verdict(f"{what}: an item of each node", sorted(shape.items) == list(range(len(data["nodes"]))))
        nodes_fit(opgp, what, keyring, Said(data))
        count += 1
    verdict("there are many keyrings", count > 30, count)


def strangers(_):
    """A stranger's user ID is text, and no more."""
    shape, _ = shaped("strange labels", run(kept("hostile.gpg", hostile())).stdout)
    odd = "".join
    wanted = (HOSTILE[0].decode(), odd(["U+202E", "gpj.exe", "U+2066", " ", "U+200B", "U+0000", "U+0007", " ", "U+2028"]), "FFFE not C3 UTF-8", None,
              "Empty user ID", None, HOSTILE[6].decode(), "U+0001oddU+0002", "${data} $data", "<!--<script>")  # fmt: skip
    for it in wanted:
        verdict(f"the label {it!r}", it is None or it in shape.labels, shape.labels[:30])
    zalgo = next(it for it in shape.labels if it.endswith("algo") or it.startswith("Z"))
    verdict("no tower of marks", re.search(r"[\u0301\u0489]{5}", zalgo) is None, zalgo)
    verdict("a long user ID is cut", any(it.startswith("AAAA") and "more letters" in it and len(it) < 2100 for it in shape.labels))
    name = kept("<b>name \u202e &.gpg", octets_of(A1)) if sys.getfilesystemencoding() == "utf-8" else A1
    shape, _ = shaped("a strange name", run(name).stdout)
    verdict("the name of the file is text", "<b>name U+202E &.gpg" in shape.text or name == A1)


# ---- Refused inputs


def fault_fits(opgp, what, path, fault):
    """The page of a refused input: its line, and its place."""
    ended = run(path)
    verdict(f"{what}: refused", (ended.returncode, ended.stderr.decode()) == (1, f"{fault}\n"), ended)
    shape, data = shaped(what, ended.stdout)
    verdict(f"{what}: the line is there", str(fault) in shape.text and fault.reason in shape.text)
    return shape, data


def marked(data):
    """Where the page marks the place of a fault."""
    said, at = Said(data), data["base"]
    for field in said.nodes[0]["fields"]:
        if len(field) > 4 and field[4] == "b":
            return at
        at += field[1]
    return None


def faults(opgp):
    """Faults of each layer, at their places."""
    key = octets_of(A1)
    body = model.dearmored(key, model.USUAL)[0][1]
    short = b"\xc6\5\4\0\0\0\0"
    binary = {
        b"\xcd\5abc": 1, body + b"\xcd\5abc": len(body) + 1, short: 7, b"\x98\5\4\0\0\0\0": 7, b"\x99\0\5\4\0\0\0\0": 8,
        b"\xc6\xff\0\0\0\5\4\0\0\0\0": 11, body + short: len(body) + 7, b"\xcd\1a": 0, body + b"\xcb\6b\0\0\0\0\0": len(body),
        body * 20 + b"a": 20 * len(body), b"\xc6\1\3": 2,
    }  # fmt: skip
    for octets, place in binary.items():
        front = b"" if octets == b"\xcd\1a" else model.armor(body) + b"text\n"  # a primary key in front would be that of this user ID
        for path in (kept("fault.gpg", octets), kept("fault.asc", front + model.armor(octets))):
            try:
                opgp.read(octets_of(path))
                verdict(f"{path} is refused", False)
            except opgp.Fault as fault:
                _, data = fault_fits(opgp, f"{octets[-12:]!r}", path, fault)
                verdict(f"{fault}: the place", marked(data) == place, (marked(data), place))
    lines = key.split(b"\n")
    for at, line in ((1, b"no header"), (3, b"> " + lines[3]), (4, b"-----END PGP MESSAGE-----")):
        text = b"\n".join([*lines[:at], line, *lines[at + 1 :]])
        path = kept("fault.asc", text)
        try:
            opgp.read(text)
            verdict(f"{line} is refused", False)
        except opgp.Fault as fault:
            fault_fits(opgp, f"{line}", path, fault)
            page = run(path).stdout.decode()
            item = re.search(r'<li value="(\d+)"><mark>', page)
            verdict(f"{fault}: the line", item and int(item[1]) == text.count(b"\n", 0, fault.pos) + 1, item)
    for text in (b"", b"hello\n"):
        ended = run(kept("text", text))
        verdict(f"{text!r}", ended.returncode == (1 if text else 0))
        shaped(f"{text!r}", ended.stdout)


def secrets(opgp):
    """A page of an input with a secret key has no octet of it, whatever it is refused for; and a terminal is told of it."""
    is_shown = secret_keys.shown(packet(5, secret_keys.SECRET)) and secret_keys.shown(base64.b64encode(secret_keys.SECRET))
    verdict("what is shown is found", is_shown and secret_keys.shown(secret_keys.SECRET.hex(" ", -2).upper().encode()))
    for what, octets in secret_keys.inputs():
        path = kept("secret", octets)
        is_told = not what.startswith("EdDSA: its own")
        ended, more = (called(path), secret_keys.SAID) if is_told else (run(path), "")
        try:
            opgp.read(octets)
            verdict(f"{what}: skipped", ended.returncode == 0 and ended.stderr.decode().endswith(f"were skipped; read a binary file by itself\n{more}"), ended.stderr)
            shaped(what, ended.stdout)
        except opgp.Fault as fault:
            verdict(f"{what}: named", (ended.returncode, ended.stderr.decode()) == (1, f"{fault}\n{more}"), ended.stderr)
            shape, data = shaped(what, ended.stdout)
            verdict(f"{what}: the fault is there", str(fault) in shape.text and "No octet of it is shown" in shape.text, shape.text[:300])
            verdict(f"{what}: no octets and no text", data["octets"] == "" and not data["nodes"] and "<mark>" not in ended.stdout.decode(), data)
        verdict(f"{what}: no octet of the secret", not secret_keys.shown(ended.stdout))
    # A key under the type of a public one isn't told from a public key with more behind it; so nothing behind its fields is shown.
    for version in (4, 6):
        octets = secret_keys.secret(signers.ed25519("hidden", MADE, version), 6)
        for path in (kept("hidden.gpg", octets), kept("hidden.asc", model.armor(octets))):
            ended = run(path)
            reason = "Trailing" if version == 4 else "Count"
            verdict(f"a secret key as a public one, version {version}", ended.returncode == 1 and reason.encode() in ended.stderr, ended.stderr)
            verdict(f"no octet of it, version {version}", not secret_keys.shown(ended.stdout) and marked(shaped(path, ended.stdout)[1]) is not None)
    text = octets_of(A1).replace(b"\n\n", b"\n\n> ")
    ended = run(kept("text.asc", text))
    verdict("another text is shown", b"<mark>" in ended.stdout and b"secret" not in ended.stderr, ended.stderr)
    bare = opgp.read(octets_of(A1)).write()
    ended = run(kept("skipped.asc", octets_of(A3) + bare))
    said = f"opgp: {len(bare)} octets outside of armored blocks were skipped; read a binary file by itself\n"
    verdict("octets outside of armored blocks", (ended.returncode, ended.stderr.decode()) == (0, said), ended.stderr)


def words(opgp):
    """Command lines, limits and policies."""
    three = kept("three", octets_of(A3))
    count = len(opgp.read(octets_of(A3)).packets())
    for most, status in ((count, 0), (count - 1, 2)):
        ended = run(three, "--packets", str(most))
        is_said = bool(ended.stdout) == (not status) and bool(ended.stderr) == bool(status)
        verdict(f"--packets {most}", ended.returncode == status and is_said, ended.stderr)
    ended = run("/nothing/here")
    verdict("no such file", (ended.returncode, ended.stdout) == (2, b"") and ended.stderr)
    ended = run("--help")
    verdict("the help says the statuses", ended.returncode == 0 and b"Status 1" in ended.stdout and b"--packets" in ended.stdout)
    malformed = f"{HERE}/tests/vectors/disputed/salt_of_17_octets.gpg"
    verdict("malformed signatures are refused", run(malformed).returncode == 1)
    ended = run(malformed, "--malformed", "keep")
    _, data = shaped("--malformed keep", ended.stdout)
    said = Said(data)
    verdict("--malformed keep", ended.returncode == 0 and any("Not parsed" in said.facts(it) for it in said.nodes))
    nodes_fit(opgp, "--malformed keep", opgp.read(octets_of(malformed), opgp.Limits(keep_malformed=True)), said)


def typed():
    if not shutil.which("mypy"):
        left_out("mypy")
        return
    env = {**os.environ, "MYPYPATH": f"{HERE}/python"}
    ended = subprocess.run(["mypy", "--strict", f"--cache-dir={ROOM}/types", "--python-version=3.9", PAGE], capture_output=True, check=False, env=env)
    verdict("the types, by mypy", ended.returncode == 0, ended.stdout)


# ---- In a browser


CONTRAST = """
(() => {
  const canvas = document.createElement("canvas");
  canvas.width = canvas.height = 1;
  const context = canvas.getContext("2d", { willReadFrequently: true });
  const seen = new Map();
  const rgba = (color) => {
    if (!seen.has(color)) {
      context.clearRect(0, 0, 1, 1);
      context.fillStyle = color;
      context.fillRect(0, 0, 1, 1);
      seen.set(color, Array.from(context.getImageData(0, 0, 1, 1).data));
    }
    return seen.get(color);
  };
  const light = (color) => {
    const [r, g, b] = color.map((it) => (it / 255 <= 0.04045 ? it / 255 / 12.92 : ((it / 255 + 0.055) / 1.055) ** 2.4));
    return 0.2126 * r + 0.7152 * g + 0.0722 * b;
  };
  const under = (it) => {
    for (let at = it; at; at = at.parentElement) {
      const color = rgba(getComputedStyle(at).backgroundColor);
      if (color[3] === 255) return color;
    }
    return [255, 255, 255, 255];
  };
  let least = [99, ""];
  const measure = (it, style) => {
    const [a, b] = [light(rgba(style.color)), light(under(it))];
    const ratio = (Math.max(a, b) + 0.05) / (Math.min(a, b) + 0.05);
    if (ratio < least[0]) least = [ratio, `${it.tagName} ${it.className} ${it.textContent.slice(0, 40)}`];
  };
  for (const it of document.querySelectorAll("body *")) {
    if (["SCRIPT", "STYLE", "NOSCRIPT"].includes(it.tagName) || !it.getClientRects().length) continue;
    if (it.tagName === "INPUT") measure(it, getComputedStyle(it, "::placeholder"));
    if (it.tagName === "LI") measure(it, getComputedStyle(it, "::marker"));
    if (Array.from(it.childNodes).some((child) => child.nodeType === 3 && child.data.trim())) measure(it, getComputedStyle(it));
  }
  return least;
})()
"""
# What the views show: of each its octets in hexadecimal.
SHOWN = """Array.from(document.querySelectorAll(".hex"), (view) =>
  Array.from(view.querySelectorAll(".codes"), (it) => it.textContent).join("").replace(/\\s/g, ""))"""
LIT = """Array.from(document.querySelectorAll(".hex .codes .on"), (it) => it.textContent).join("").replace(/\\s/g, "")"""
WIDTHS = """[document.documentElement.scrollWidth, innerWidth,
  Math.max(0, ...Array.from(document.querySelectorAll("nav, .hex, .facts, .fields, .strip"), (it) => it.scrollWidth - it.clientWidth))]"""


def pages():
    """Files of pages, by name: of keyrings, and of refused inputs."""
    states = f"{HERE}/tests/vectors/sq/states_4.gpg"
    inputs = {"a3": A3, "hostile": kept("hostile.gpg", hostile()), "many": kept("many.gpg", many()), "states": states,
              "framing": kept("cut.gpg", octets_of(states)[:6000]), "armor": kept("text.asc", octets_of(A3).replace(b"\n\n", b"\n\n> " + b"x" * 300))}
    return {name: kept(f"{name}.html", run(path).stdout) for name, path in inputs.items()}


def drawn(it, files):
    """Nothing overflows, nothing is complained of or loaded, and all text can be read, in light and dark."""
    anchors = {"a3": ["", "#packet-0", "#packet-3"], "hostile": ["", *(f"#packet-{it}" for it in (2, 3, 5, 9, 23, 26))],
               "states": ["#certificate-1", "#packet-15-embedded-0", "#packet-35", "#packet-44"], "many": [""], "framing": [""], "armor": [""]}
    for name, those in anchors.items():
        for anchor in those:
            for width, height, dark in ((360, 780, False), (1400, 900, True), (1400, 900, False), (800, 900, False)):
                it.open(files[name], width, height, dark, anchor=anchor)
                it.js("document.querySelectorAll('[aria-expanded]').forEach((each) => each.setAttribute('aria-expanded', 'true'))")
                what = f"{name}{anchor} at {width}"
                wide, inner, inside = it.js(WIDTHS)
                verdict(f"{what}: nothing overflows", wide <= inner == width and inside <= 0, (wide, inner, inside))
                verdict(f"{what}: no complaints", it.complaints() == [], it.complaints())
                least, where = it.js(CONTRAST)
                verdict(f"{what}, {'dark' if dark else 'light'}: contrast", least >= LEAST_CONTRAST, (least, where))


def clicked(opgp, it, files):
    """A click on each signature shows its octets, what it hashes, and the digest."""
    keyring = opgp.read(octets_of(A3))
    for width, row, packets in ((width, *those) for width in (1400, 360) for those in ((0, 1), (1, 3))):
        it.open(files["a3"], width)
        found, body = keyring.signatures()[row], keyring.packets()[packets].body
        it.click(f'nav li[data-node="{packets + 1}"] > .row')
        shown, what = it.js(SHOWN), f"a click on row {row} at {width}"
        title = it.js("document.querySelector('#detail h2').textContent")
        verdict(f"{what}: its title", title == found.kind_name, title)
        verdict(f"{what}: its octets", shown[0].endswith(body.hex()) and len(shown[0]) <= 2 * len(body) + 12, shown[0])
        verdict(f"{what}: what it hashes", shown[1] == keyring.octets(row).hex(), shown[1])
        digest = it.js("document.querySelector('.digest .code').textContent").replace(" ", "")
        verdict(f"{what}: the digest", digest == found.digest.hex().upper(), digest)
        chosen = it.js("document.querySelector('[aria-selected=true]').dataset.node")
        verdict(f"{what}: it is chosen", chosen == str(packets + 1), chosen)


def linked(opgp, it, files):
    """A field lights its octets, and its octets the field, by mouse, click and tap."""
    key = opgp.read(octets_of(A3)).keys()[0]
    created = number(4, key.created).hex()
    item = ".fields li[data-item='4']"  # behind the header and its two parts, and the version
    for how in ("hover", "click", "tap"):
        it.open(files["a3"], 360 if how == "tap" else 1400, touch=how == "tap", anchor="#packet-0")
        getattr(it, how)(f"{item} > .row .name")
        verdict(f"{how} on a field: its octets", it.js(LIT) == created, it.js(LIT))
        said = it.js("document.querySelector('.readout').textContent")
        verdict(f"{how} on a field: what is said", "Creation time" in said and "4 octets at 3" in said and iso(key.created) in said, said)
        getattr(it, how)(".hex .codes .run[data-leaf='2']")
        lit = it.js(LIT), it.js("document.querySelector('.fields .on .name').textContent")
        verdict(f"{how} on octets: their field", lit == ("06", "Version"), lit)
        getattr(it, how)(".hex .codes .run[data-leaf='0']")
        lit = it.js(LIT), it.js("document.querySelector('.fields .on .name').textContent")
        verdict(f"{how} on octets of a closed field: what is around it", lit == ("c6", "Packet header"), lit)


def tree_by_keys(it, files):
    """Tab stops at all parts, and the arrow keys reach each item of the tree."""
    for name, number_ in (("a3", 1), ("hostile", 2)):
        it.open(files[name], anchor=f"#packet-{number_}")
        stops = set()
        for _ in range(60):
            it.key("Tab")
            stops.add(it.js("(() => { const it = document.activeElement; return it.getAttribute('role') || it.tagName })()"))
        missing = {"treeitem", "group", "A", "BUTTON"} - stops
        verdict(f"{name}: Tab stops at the tree, fields, octets, links and buttons", not missing, (missing, stops))
        it.js("document.querySelector('nav li').focus()")
        it.key("Home")
        seen, count = [], it.js("document.querySelectorAll('nav li').length")
        for _ in range(count):
            if it.js("document.activeElement.getAttribute('aria-expanded')") == "false":
                it.key("ArrowRight")
            seen.append(it.js("document.activeElement.dataset.node"))
            it.key("ArrowDown")
        verdict(f"{name}: the arrow keys reach each item of the tree", seen == [str(each) for each in range(count)], seen)
        chosen = it.js("[document.querySelector('[aria-selected=true]').dataset.node, document.activeElement.dataset.node]")
        verdict(f"{name}: what they reach is chosen", chosen == [str(count - 1)] * 2, chosen)
        it.key("Enter")
        verdict(f"{name}: Enter goes to what is chosen", it.js("document.activeElement.id") == "detail")


def fields_by_keys(it, files):
    """The arrow keys reach each field, and all octets."""
    it.open(files["a3"], anchor="#packet-3")
    it.js("document.querySelector('.fields li').focus()")
    seen, count = [], it.js("document.querySelector('.fields').querySelectorAll('li').length")
    for _ in range(count):
        if it.js("document.activeElement.getAttribute('aria-expanded')") == "false":
            it.key("ArrowRight")
        it.key("Enter")
        seen.append(it.js("document.querySelector('.fields .on').dataset.item"))
        it.key("ArrowDown")
    verdict("the arrow keys reach each field", seen == [str(each) for each in range(count)], seen)
    it.js("document.querySelector('.hex').focus()")
    lit = []
    for _ in range(it.js("Math.max(...Array.from(document.querySelector('.hex').querySelectorAll('.run'), (it) => Number(it.dataset.leaf)))") + 1):
        it.key("Home" if not lit else "ArrowRight")
        lit.append(it.js(LIT))
    verdict("the arrow keys reach all octets", "".join(lit) == it.js(SHOWN)[0], lit)
    it.key("Escape")
    verdict("Escape puts the light out", it.js(LIT) == "")


def becomes(it, code, wanted):
    """What an expression is in the end: it may become what is wanted a little later."""
    end = time.monotonic() + 10
    while (found := it.js(code)) != wanted and time.monotonic() < end:
        time.sleep(0.02)
    return found


def looked_for(it, files):
    """What is looked for leaves those certificates that have it; a link leads to its packet, and back leads back."""
    it.open(files["many"])
    visible = "Array.from(document.querySelectorAll('#tree > li')).filter((it) => !it.hidden).length"
    for text, count in (("99@example", 1), ("Number 1", 11), ("nobody", 0), ("", 100)):
        it.js(f"(() => {{ const it = document.getElementById('find'); it.value = {json.dumps(text)}; it.dispatchEvent(new Event('input')) }})()")
        verdict(f"looking for {text!r}", it.js(visible) == count, it.js(visible))
    it.open(files["a3"], anchor="#packet-3")
    where = "location.hash + ' ' + document.querySelector('#detail .place').textContent.split(' · ')[0]"
    it.click(".facts a")
    there = becomes(it, where, "#packet-2 packet 2")
    verdict("a link leads to its packet", there == "#packet-2 packet 2", there)
    it.js("history.back()")
    there = becomes(it, where, "#packet-3 packet 3")
    verdict("back leads back", there == "#packet-3 packet 3", there)


def quick(opgp, it, files):
    """500 packets open without a pause, and so does each packet."""
    count = len(opgp.read(many()).packets())
    took = []
    for _ in range(3):
        it.open(files["many"])
        took.append(it.js("performance.getEntriesByType('navigation')[0].loadEventEnd"))
    steps = it.js("""(() => {
      const took = [];
      for (const item of Array.from(document.querySelectorAll("nav li[data-node]")).slice(0, 60)) {
        const [begin, row] = [performance.now(), item.querySelector(".row")];
        row.dispatchEvent(new MouseEvent("click", { bubbles: true, clientX: row.getBoundingClientRect().left + 100 }));
        document.body.getBoundingClientRect();
        took.push(performance.now() - begin);
      }
      return took.sort((a, b) => a - b);
    })()""")
    size = os.path.getsize(files["many"])
    print(f"{count} packets: a page of {size:,} octets, loaded in {min(took):.0f} ms at best and {max(took):.0f} ms at worst; "
          f"a click takes {steps[len(steps) // 2]:.0f} ms, and {steps[-1]:.0f} ms at most", file=sys.stderr)  # fmt: skip
    verdict("there are 500 packets", count == 500, count)
    verdict("they open without a pause", min(took) < 1000 * MOST_SECONDS, took)
    verdict("a packet opens without a pause", steps[len(steps) // 2] < 500, steps)


def pictures(it, folder):
    """The pictures of the manual, in few colours where pngquant is."""
    os.makedirs(folder, exist_ok=True)
    page = kept("states_4.html", run(f"{HERE}/tests/vectors/sq/states_4.gpg").stdout)
    shown = {"page-wide": (1400, 1000, 1, "Key Expiration", "body"), "page-narrow": (360, 760, 2, "User ID", ".digest")}
    for name, (width, height, scale, item, at) in shown.items():
        it.open(page, width, height, scale=scale, touch=width == 360, anchor="#packet-35")
        it.js("(() => { const named = (it) => it.querySelector('.name').textContent;"
              f"const row = Array.from(document.querySelectorAll('.fields li')).find((it) => named(it).startsWith({json.dumps(item)}))"
              ".querySelector('.row'); row.dispatchEvent(new MouseEvent('click', { bubbles: true, clientX: 9999 }));"
              f"document.activeElement.blur(); document.querySelector({json.dumps(at)}).scrollIntoView({{ block: "
              f"{json.dumps('start' if at == 'body' else 'end')}, behavior: 'instant' }}) }})()")
        with open(f"{folder}/{name}.png", "wb") as file:
            file.write(it.picture())
        if shutil.which("pngquant"):
            subprocess.run(["pngquant", "--force", "--skip-if-larger", "--output", file.name, "128", file.name], check=False)


def tried(test, *given):
    """Makes a test, which has failed if it ends early."""
    try:
        test(*given)
    except (ArithmeticError, AttributeError, EOFError, LookupError, OSError, TypeError, ValueError) as why:
        verdict(test.__name__, False, repr(why))


def all_tried(opgp, folder):
    """All tests; and with a folder the pictures."""
    for test in (keyrings, strangers, faults, secrets, words):
        tried(test, opgp)
    tried(typed)
    if not browser.found():
        left_out("chromium")
        return
    it = browser.Browser()
    try:
        files = pages()
        for test in (clicked, linked, quick):
            tried(test, opgp, it, files)
        for test in (drawn, tree_by_keys, fields_by_keys, looked_for):
            tried(test, it, files)
        if folder:
            pictures(it, folder)
    finally:
        it.close()


def main():
    global ROOM
    told = argparse.ArgumentParser(prog="tests/bindings/page.py", description=__doc__.split("\n\n", maxsplit=1)[0])
    told.add_argument("--pictures", metavar="FOLDER")
    told = told.parse_args()
    with tempfile.TemporaryDirectory() as ROOM:
        if path := library_in(ROOM):
            os.environ["OPGP_LIBRARY"] = path
            sys.path.insert(0, f"{HERE}/python")
            import opgp

            all_tried(opgp, told.pictures)
    print(f"{passed} passed, {failed} failed")
    return int(failed > 0)


if __name__ == "__main__":
    sys.exit(main())
