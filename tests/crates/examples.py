#!/usr/bin/env python3
"""Runs the example programs of crates/opgp_examples, and compares what they print; and quotes their code for our pages.

What is wanted is worked out here, from the standard's examples and with Python's own hashes. The last line counts what was tried.

`tests/crates/examples.py --quote FILE` prints the code of a file as a block of Markdown, and `--quote FILE ITEM` one item of it,
such as 'fn rewrite' or 'impl Verifier'. Each block of Rattle in docs/LIBRARY.md is made so (build/pages), or marked
'<!-- shown -->'.
"""

import base64
import glob
import hashlib
import os
import re
import select
import subprocess
import sys

sys.dont_write_bytecode = True
sys.path.insert(0, f"{sys.path[0]}/../lib")

from inputs import PACKET_TYPES  # noqa: E402

HERE = os.path.dirname(os.path.dirname(os.path.dirname(os.path.realpath(__file__))))
PROGRAM = f"{HERE}/crates/opgp_examples/out/opgp_examples"
OPGP = f"{HERE}/crates/opgp_tool/out/opgp_tool"
OLDER = "C959BDBAFA32A2F89A153B678CFDE12197965A9A"
NEWER = "CB186C4F0609A697E4D52DFA6C722B0C1F1E27C18A56708F6525EC27BAD9ACC9"
SUBKEY = "12C83F1E706F6308FE151A417743A1F033790E93E9978488D1DB378DA9930885"
BLOCK = re.compile(r"^(?:<!-- ([^\n]*) -->\n)?```(\w*)\n(.*?)^```$", re.M | re.S)
QUOTED = re.compile(r"made by: tests/crates/examples\.py --quote crates/opgp_examples/src/\w+\.rt.*")


def file(path):
    with open(f"{HERE}/{path}", "rb") as it:
        return it.read()


A1, A3 = file("examples/rfc9580-a1.asc"), file("examples/rfc9580-a3.asc")


def armored(octets, label="PUBLIC KEY BLOCK"):
    return b"-----BEGIN PGP %b-----\n\n%b-----END PGP %b-----\n" % (
        label.encode(), base64.encodebytes(octets), label.encode())


def octets_of(text):
    return base64.b64decode(b"".join(re.findall(rb"^[A-Za-z0-9+/]+={0,2}$", text, re.M)))


def packet(kind, body):
    return bytes([0xC0 | kind, len(body)]) + body


def long_packet(kind, body):
    return bytes([0xC0 | kind, 255]) + len(body).to_bytes(4, "big") + body


KEY = octets_of(A1)
NAMED = KEY + packet(13, b"Alice <alice@example.org>") + packet(13, b"a\xff\"\n")


def run(words, octets, program=PROGRAM):
    done = subprocess.run([program, *words], input=octets, capture_output=True, timeout=60)
    return done.returncode, done.stdout.decode(), done.stderr.decode()


def prints(words, octets, wanted):
    return run(words, octets) == (0, wanted, "")


def fails(words, octets, wanted, fault):
    status, out, error = run(words, octets)
    return (status, out) == (1, wanted) and error.strip().endswith(fault)


def shown_as_soon_as_whole():
    """The first certificate is shown while the text goes on."""
    with subprocess.Popen([PROGRAM, "certificates"], stdin=subprocess.PIPE, stdout=subprocess.PIPE) as it:
        it.stdin.write(A1 + A3)
        it.stdin.flush()
        first = it.stdout.readline().decode()
        it.stdin.close()
        rest = it.stdout.read().decode()
    return (first, rest, it.returncode) == (f"{OLDER}\n", f"{NEWER}\n", 0)


def certificates():
    yield "none in an empty text", fails(["certificates"], b"", "", "armor: NoBlock block 0 at 0 inner 0")
    yield "one", prints(["certificates"], A1, f"{OLDER}\n")
    yield "two blocks", prints(["certificates"], A1 + b"between\n" + A3, f"{OLDER}\n{NEWER}\n")
    yield "user IDs", prints(["certificates"], armored(NAMED + octets_of(A3)),
                             f'{OLDER} "Alice <alice@example.org>" "a\ufffd\\"\\n"\n{NEWER}\n')
    yield "as soon as it is whole", shown_as_soon_as_whole()
    many = 40_000
    yield "many", prints(["certificates"], armored(NAMED * many), f'{OLDER} "Alice <alice@example.org>" "a\ufffd\\"\\n"\n' * many)
    cut = armored(KEY + KEY[:-1])
    yield "a framing fault", fails(["certificates"], cut, "", "framing: Truncated block 0 at 53 inner 1")
    yield "no block behind it is read", fails(["certificates"], cut + A3, "", "framing: Truncated block 0 at 53 inner 1")
    open_end = cut + A3[:-10]
    yield "armor goes first", fails(["certificates"], open_end, "",
                                    f"armor: EndLabel block 1 at {open_end.rindex(b'-----END')} inner 0")
    yield "another label", fails(["certificates"], armored(KEY, "MESSAGE") + A3, "",
                                 "composition: BlockLabel block 0 at 0 inner 0")
    yield "bodies go before the order", fails(["certificates"], armored(KEY, "MESSAGE") + armored(packet(6, b"\2")), "",
                                              "body: KeyVersion block 1 at 0 inner 0")


def shown_packets(octets):
    """The lines that `opgp show` has for the packets of an input, as the example words them; and its fault."""
    status, out, error = run(["show", "--quiet"], octets, OPGP)
    rows = (re.fullmatch(r"block (\d+) at (\d+) type (\d+) form \w+ length (\d+).*", it) for it in out.splitlines())
    lines = [f"{it[1]}:{it[2]} {PACKET_TYPES.get(int(it[3]), 'unknown')}, {it[4]} octets" for it in rows if it]
    return "".join(f"{it}\n" for it in lines), error.strip().removeprefix("opgp: ") if status else ""


def shown_packet_by_packet():
    """Each packet is shown with its last octet, before the next one begins."""
    with subprocess.Popen([PROGRAM, "packets"], stdin=subprocess.PIPE, stdout=subprocess.PIPE) as it:
        shown, at = b"", 0
        for body in (b"a", b"", b"bc"):
            for octet in packet(13, body):
                it.stdin.write(bytes([octet]))
                it.stdin.flush()
            line = f"0:{at} User ID, {len(body)} octets\n".encode()
            shown += os.read(it.stdout.fileno(), len(line)) if select.select([it.stdout], [], [], 10)[0] else b"late"
            if not shown.endswith(line):
                it.kill()
                return False
            at += 2 + len(body)
        it.stdin.close()
        rest = it.stdout.read()
    return (rest, it.returncode) == (b"", 0)


def packets():
    yield "as soon as they are whole", shown_packet_by_packet()
    for name in sorted(glob.glob("*/*", root_dir=f"{HERE}/tests/cases")):
        octets = file(f"tests/cases/{name}/stdin") if os.path.isfile(f"{HERE}/tests/cases/{name}/stdin") else b""
        lines, fault = shown_packets(octets)
        holds = fails(["packets"], octets, run(["packets"], octets)[1], fault) if fault else prints(["packets"], octets, lines)
        yield f"of the case {name}", holds
    before = f"0:0 Public Key, {len(KEY) - 2} octets\n"
    yield "those before a fault", fails(["packets"], KEY + packet(6, b"\2") + KEY, before, f"body: KeyVersion block 0 at {len(KEY)} inner 0")
    yield "none before a fault of framing that comes later", fails(
        ["packets"], KEY + KEY[:-1], before, f"framing: Truncated block 0 at {len(KEY)} inner 1")
    one = KEY + packet(13, b"a")
    cut = armored(one + KEY[:-1]) + armored(one) * 2
    yield "none of the blocks behind a framing fault", fails(
        ["packets"], cut, f"{before}0:{len(KEY)} User ID, 1 octets\n", f"framing: Truncated block 0 at {len(one)} inner 1")
    for size in (0, 1, 255, 256, 65_535, 65_536, 70_000, 4 << 20):
        yield f"a body of {size} octets", prints(["packets"], long_packet(13, bytes(size)), f"0:0 User ID, {size} octets\n")
    many = b"".join(packet(13, bytes(it % 7)) for it in range(20_000))
    yield "20,000 packets", prints(["packets"], many, shown_packets(many)[0]) and shown_packets(many)[0].count("\n") == 20_000
    yield "in armor", prints(["packets"], armored(many, "MESSAGE"), shown_packets(many)[0])


def verified():
    digests = []
    for row in range(2):
        asked = subprocess.run([OPGP, "octets", "--row", str(row)], input=A3, capture_output=True, check=True).stdout
        digests.append(hashlib.sha512(asked).hexdigest().upper())
    checked = run(["check"], A3, OPGP)[1].splitlines()
    yield "digests begin as opgp check says", [it[:4] for it in digests] == [it.split()[19] for it in checked]
    first, second = (f"certificate 0 signature 0: {digests[0]}", f"certificate 0 component 0 signature 0: {digests[1]}")
    yield "none is known", prints(["verify"], A3, f"{first} unknown\n{second} unknown\n")
    yield "one is known", prints(["verify", digests[1].lower()], A3, f"{first} unknown\n{second} good\n")
    yield "both are known", prints(["verify", *digests], octets_of(A3), f"{first} good\n{second} good\n")
    yield "digits that are none", fails(["verify", "0g"], A3, "", "")
    yield "a refused keyring", fails(["verify"], armored(packet(13, b"a")), "", "composition: NoPrimary block 0 at 0 inner 0")
    several = file("tests/cases/check/each_reason_of_a_signature_checked/stdin")
    shown, checked = (run([it], several, which)[1].splitlines() for it, which in (("verify", PROGRAM), ("check", OPGP)))
    yield "reasons", len(shown) > 4 and [it.split()[-1] for it in shown if "nothing" in it] == [
        it.split()[-1] for it in checked if " none " in it]
    embedded = file("tests/cases/check/embedded_signature_checked/stdin")
    lines = run(["verify"], embedded)[1].splitlines()
    yield "an embedded one", [it.split(":")[0] for it in lines] == [
        "certificate 0 component 0 signature 0", "certificate 0 component 0 signature 0 embedded 0"]


def over(body, size):
    """A key, as it is hashed: its tag, a length of so many octets, and its body (RFC 9580, 5.2.4)."""
    return {2: b"\x99", 4: b"\x9b"}[size] + len(body).to_bytes(size, "big") + body


def trailer(version, kind, hashed):
    """The front of a signature with an empty area, and what is hashed behind it."""
    front = bytes([version, kind, 27, hashed]) + bytes(2 if version == 4 else 4)
    return front + bytes([version, 255]) + len(front).to_bytes(4, "big")


def questions():
    """Keys and hash algorithms of each version: a question has those of its signature's version alone."""
    newer = octets_of(A3)[2:44]
    keys = {4: (over(KEY[2:], 2), OLDER), 6: (over(newer, 4), NEWER)}
    for version, salt in ((4, b""), (6, bytes(16))):
        key, name = keys[version]
        asked = f"Direct Key Signature, version {version}\nabout {name}\nof no time\n"
        yield f"a key of version {version}", prints(["reopen"], salt + key + trailer(version, 0x1F, 8), asked)
        others = {"another version's": keys[10 - version][0], "another version behind this one's tag": over(newer if version == 4 else KEY[2:], 2 * (version // 3))}
        for what, other in others.items():
            yield f"{what}, {version}", prints(["reopen"], salt + other + trailer(version, 0x1F, 8), "of no question\n")
            both = salt + key + other + trailer(version, 0x18, 8)
            yield f"{what} as a subkey, {version}", prints(["reopen"], both, "of no question\n")
        both = salt + key + key + trailer(version, 0x18, 8)
        yield f"two keys of version {version}", prints(["reopen"], both, f"Subkey Binding Signature, version {version}\nabout {name} and {name}\nof no time\n")
    for hashed in range(256):
        for version, sizes in ((4, {2: 0, 8: 0, 9: 0, 10: 0, 11: 0}), (6, {8: 16, 9: 24, 10: 32, 11: 16})):
            octets = bytes(sizes.get(hashed, 16 if version == 6 else 0)) + keys[version][0] + trailer(version, 0x1F, hashed)
            asked = f"Direct Key Signature, version {version}\nabout {keys[version][1]}\nof no time\n"
            yield f"hash {hashed}, version {version}", prints(["reopen"], octets, asked if hashed in sizes else "of no question\n")
    yield "SHA-1 without a salt, version 6", prints(["reopen"], keys[6][0] + trailer(6, 0x1F, 2), "of no question\n")


def reopened():
    for row, wanted in enumerate([f"Direct Key Signature, version 6\nabout {NEWER}\ncreated 1669824483\n",
                                  f"Subkey Binding Signature, version 6\nabout {NEWER} and {SUBKEY}\ncreated 1669824483\n"]):
        asked = subprocess.run([OPGP, "octets", "--row", str(row)], input=A3, capture_output=True, check=True).stdout
        yield f"row {row}", prints(["reopen"], asked, wanted)
    yield "octets of no question", prints(["reopen"], A3, "of no question\n")
    literal = b"hello" + b"\4\0\x1b\x08\0\0" + b"\4\xff\0\0\0\6"
    yield "a literal's content", prints(["reopen"], literal, "Binary Signature, version 4\nabout 5 octets\nof no time\n")
    older = b"\x99\0\x33" + KEY[2:] + b"\xb4\0\0\0\1a" + b"\4\x10\x16\x08\0\6\5\2\0\0\1\0" + b"\4\xff\0\0\0\x0c"
    yield "a certification", prints(["reopen"], older, "Generic Certification Signature, version 4\n"
                                    f'about {OLDER} and "a"\ncreated 256\n')


def rewritten():
    text = file("tests/cases/normalise/key_of_the_legacy_form_normalised/stdin")
    yield "in the current format", prints(["rewrite"], text, run(["normalise"], text, OPGP)[1])


def quote(path, item=""):
    """The code of a file, without its heading; or one item of it, with what is said of it."""
    lines = file(path).decode().rstrip("\n").split("\n")
    first = next(at for at, line in enumerate(lines) if line and not line.startswith("//!"))
    if not item:
        return lines[first:]
    heads = [at for at, line in enumerate(lines) if re.match(rf"(?:pub(?:\([a-z]+\))? )?{re.escape(item)}\b", line)]
    if len(heads) != 1:
        raise SystemExit(f"tests/crates/examples.py: {len(heads)} items begin with '{item}' in {path}")
    first, last = heads[0], lines.index("}", heads[0])
    while lines[first - 1].startswith(("///", "#[")):
        first -= 1
    return lines[first : last + 1]


def quoted():
    text = file("docs/LIBRARY.md").decode()
    found = BLOCK.findall(text)
    yield "each block is found", len(found) * 2 == len(re.findall(r"^```", text, re.M))
    yield "there are blocks", sum(1 for name, _, _ in found if QUOTED.fullmatch(name)) > 1
    for name, language, code in found:
        title = code.split("\n", 1)[0]
        yield f"it is quoted or only shown: {title}", language != "rust" or name == "shown" or bool(QUOTED.fullmatch(name))
    done = subprocess.run([f"{HERE}/build/pages", "--check"], capture_output=True, text=True)
    yield "the quotes are the code", done.returncode < 2 and "docs/LIBRARY.md" not in done.stdout


def tried():
    yield "walk", prints(["walk"], A3, file("crates/opgp_examples/stdout").decode())
    yield "no such program", fails(["walks"], b"", "", "usage: opgp_examples walk|certificates|packets|verify|reopen|rewrite")
    for group in (certificates, packets, verified, reopened, questions, rewritten, quoted):
        for name, holds in group():
            yield f"{group.__name__}: {name}", holds


def main(words):
    if words[:1] == ["--quote"] and 2 <= len(words) <= 3:
        print("\n".join(["```rust", *quote(*words[1:]), "```"]))
        return 0
    if words:
        print("usage: tests/crates/examples.py [--quote FILE [ITEM]]", file=sys.stderr)
        return 2
    for program in (PROGRAM, OPGP):
        if not os.access(program, os.X_OK):
            print(f"tests/crates/examples.py: {os.path.relpath(program, HERE)} isn't built: rt ci builds it", file=sys.stderr)
            print("0 passed, 1 failed")
            return 1
    passed, failed = 0, 0
    for name, holds in tried():
        if holds:
            passed += 1
        else:
            failed += 1
            print(f"tests/crates/examples.py: {name}: FAILED", file=sys.stderr)
    print(f"{passed} passed, {failed} failed")
    return int(failed > 0)


sys.exit(main(sys.argv[1:]))
