#!/usr/bin/env python3
"""Runs the program with many command lines, over the armored key of RFC 9580, A.1: those that name a task, with what
the task then does, and those that are invalid, with what the message says. The last line counts the lines."""

import importlib.machinery
import importlib.util
import re
import subprocess
import sys
import tempfile

sys.dont_write_bytecode = True
sys.path.insert(0, f"{sys.path[0]}/../lib")

from running import HERE, built  # noqa: E402

PROGRAM = built("tests/program/words.py")
# What the launcher answers where nothing is built.
LOADER = importlib.machinery.SourceFileLoader("first", f"{HERE}/build/first")
FIRST = importlib.util.module_from_spec(importlib.util.spec_from_loader("first", LOADER))
LOADER.exec_module(FIRST)
ROOM = tempfile.TemporaryDirectory()
KEY = f"{HERE}/examples/rfc9580-a1.asc"
COMMANDS = ["show", "list", "check", "state", "octets", "write", "normalise", "split", "join", "signatures", "digest", "canonical", "cleartext"]
ARMOR, BINARY = b"-----BEGIN PGP PUBLIC KEY BLOCK-----\n\nxjME", b"\xc6\x33\x04"
NO_ROW, NO_CERTIFICATE = "opgp: no such row", "opgp: no such certificate"


def no_key(key):
    return f"{NO_CERTIFICATE}\nopgp: no certificate has the key {key}"  # by --hints always


KEYS = f"{ROOM.name}/keys"
with open(KEYS, "w", encoding="utf-8") as file:
    file.write("# a key\n\n\tC959BDBAFA32A2F89A15 3B678CFDE12197965A9A \r\n  #\n0x8CFDE12197965A9A")
SIGNATURE = f"--signatures {HERE}/examples/rfc9580-a2.asc"
NO_LITERAL = "composition: BlockLabel block 0 at 0 inner 0"
# What --progress shows: within the limit 10 one octet more is read, else all of the key.
READ = {True: "\ropgp: 11 octets, 0 packets\n", False: "\ropgp: 147 octets, 1 packets\n"}
# What is told beside a fault by --hints always.
TOLD = {
    NO_LITERAL: "opgp: a block that this command doesn't read; opgp show lists its packets\n",
    "input: InputTooLong block 0 at 10 inner 0": "opgp: the input is longer than --input allows\n",
    "input: InputTooLong block 0 at 0 inner 0": "opgp: the input is longer than --input allows\n",
    "cleartext: Label block 0 at 0 inner 0": "opgp: line 1: no cleartext signed message; one begins with -----BEGIN PGP SIGNED MESSAGE-----\n",
    "framing: NotAPacket block 0 at 0 inner 0": "opgp: line 1: a begin line of armor, but this was read as packets; --mode armor reads armored blocks alone\n",
}
# How the output of each command begins; octets has none, since the key has no signature.
USUAL = {
    "show": b"block 0 at 0 type 6 ", "list": b"pub v4 alg 22 ", "check": b"", "octets --row 3": NO_ROW,
    "write": ARMOR, "normalise": ARMOR, "split": ARMOR, "join": ARMOR,
}
# A line that names a task, and how its output begins, or the line of its fault.
ACCEPTED = {
    "state --at 0": b"cert 0 part - : unverified pub C959BDBAFA32A2F89A153B678CFDE12197965A9A early uses - ",
    "state --policy any --at=2026-11-20": b"cert 0 part - : unverified pub C959BDBAFA32A2F89A153B678CFDE12197965A9A unbound uses - ",
    "state --at 1970-01-01T00:00:01Z --policy=usual --malformed keep": b"cert 0 part - : unverified pub ",
    "state --values --at 1408458507": b"cert 0 part - : unverified pub C959BDBAFA32A2F89A153B678CFDE12197965A9A unbound uses - begin 1408458507 end - reason - 2014-08-19T14:28:27Z - key pub lack - date - part - hang - -\n",
    "state --at 0 --input 10": "input: InputTooLong block 0 at 10 inner 0",
    "octets --row 0": NO_ROW,
    "octets --row 0 --explain": NO_ROW,
    "octets --explain --of literal --row 1": NO_LITERAL,
    "octets --row=7 --of ring": NO_ROW,
    "octets --of literal --row 18446744073709551615": NO_LITERAL,
    "octets --of=literal --row +1": NO_LITERAL,
    "write --out armor": ARMOR,
    "write --out=binary": BINARY,
    "write --own-signatures": ARMOR,
    "write --no-attributes --out binary": BINARY,
    "write --user-id 0": ARMOR,
    "write --user-id +007 --no-attributes --own-signatures --out=binary": BINARY,
    "write --user-id=18446744073709551615 --spool " + ROOM.name: ARMOR,
    "write --user-id 0 --user-id 7 --user-id=0": ARMOR,
    "write --progress --own-signatures --malformed keep": ARMOR,
    "write --own-signatures --input 10": "input: InputTooLong block 0 at 10 inner 0",
    "normalise --out binary": BINARY,
    "split --nth 0": ARMOR,
    "split --nth +000 --out binary": BINARY,
    "split --nth=007 --out binary": NO_CERTIFICATE,
    "split --nth 18446744073709551615": NO_CERTIFICATE,
    "split --key C959BDBAFA32A2F89A153B678CFDE12197965A9A": ARMOR,
    "split --key c959bdbafa32a2f89a153b678cfde12197965a9a --out binary": BINARY,
    "split --key=0xC959BDBAFA32a2f89a153b678cfde12197965A9A --spool " + ROOM.name: ARMOR,
    "split --key 8CFDE12197965A9A": ARMOR,
    "split --progress --key 0X8cfde12197965a9a": ARMOR,
    "split --key 8CFDE12197965A9B": NO_CERTIFICATE,
    "split --key C959BDBAFA32A2F89A153B678CFDE12197965A9B": NO_CERTIFICATE,
    "split --key " + 64 * "0": NO_CERTIFICATE,
    "split --key 8CFDE12197965A9A --key=0x8cfde12197965a9a": ARMOR,
    "split --key 8CFDE12197965A9A --key 8CFDE12197965A9B": NO_CERTIFICATE,
    "split --key 8CFDE12197965A9B --out binary --key 8CFDE12197965A9A": NO_CERTIFICATE,
    "split --except --key C959BDBAFA32A2F89A153B678CFDE12197965A9A": b"",
    "split --key 8CFDE12197965A9B --except": NO_CERTIFICATE,
    f"split --keys {KEYS}": ARMOR,
    f"split --out binary --keys={KEYS} --key 8CFDE12197965A9A": BINARY,
    f"split --keys {KEYS} --except --spool {ROOM.name}": b"",
    f"split --keys {KEYS} --key 8CFDE12197965A9B": NO_CERTIFICATE,
    "split --key 8CFDE12197965A9B --hints always": no_key("8CFDE12197965A9B"),
    "split --hints=always --key 8CFDE12197965A9A --key C959BDBAFA32A2F89A153B678CFDE12197965A9B": no_key("C959BDBAFA32A2F89A153B678CFDE12197965A9B"),
    "show --values": USUAL["show"],
    "list --values": USUAL["list"],
    "list --values --progress": USUAL["list"],
    "check --fingerprints": USUAL["check"],
    "check --fingerprints --progress": USUAL["check"],
    "check --spool " + ROOM.name + " --fingerprints": USUAL["check"],
    "check --places": USUAL["check"],
    "check --progress --places": USUAL["check"],
    "octets --all": b"",
    "octets --all --of ring": b"",
    "octets --of=ring --progress --all": b"",
    "octets --all --spool " + ROOM.name: b"",
    "list --malformed keep --outside=refuse --values": USUAL["list"],
    "show --values --progress": USUAL["show"],
    "join --merge": ARMOR,
    "join --merge --out=binary": BINARY,
    "join --out binary --": BINARY,
    "list --": USUAL["list"],
    "list --line +200 --body 0600 --cert 000700 --input +0800 --pieces 09": USUAL["list"],
    "octets --progress --of literal --row 1": NO_LITERAL,
    "join --progress --merge --out binary": BINARY,
    "list --progress --input 10": "input: InputTooLong block 0 at 10 inner 0",
    "list --input +010": "input: InputTooLong block 0 at 10 inner 0",
    "list --quiet --input 10": "input: InputTooLong block 0 at 10 inner 0",
    "list --hints always --input 0": "input: InputTooLong block 0 at 0 inner 0",
    "list --hints=always --quiet --input 0": "input: InputTooLong block 0 at 0 inner 0",
    "octets --row 0 --of literal --hints always": NO_LITERAL,
    "cleartext --hints always": "cleartext: Label block 0 at 0 inner 0",
    "signatures --mode binary --hints always": "framing: NotAPacket block 0 at 0 inner 0",
    "list --hints never --input 0": "input: InputTooLong block 0 at 0 inner 0",
    "list --hints=auto --input 0": "input: InputTooLong block 0 at 0 inner 0",
    "octets --quiet --of literal --row 1": NO_LITERAL,
    "split --nth=7 --quiet": NO_CERTIFICATE,
    "list --progress --quiet --input 10": "input: InputTooLong block 0 at 10 inner 0",
    "signatures": NO_LITERAL,
    "signatures --outside refuse --malformed keep --quiet": NO_LITERAL,
    "signatures --mode binary": "framing: NotAPacket block 0 at 0 inner 0",
    "canonical": b"-----BEGIN PGP PUBLIC KEY BLOCK-----\r\n\r\nxjME",
    "canonical --spool " + ROOM.name: b"-----BEGIN PGP PUBLIC KEY BLOCK-----\r\n\r\nxjME",
    "cleartext": "cleartext: Label block 0 at 0 inner 0",
    "cleartext --of document": "cleartext: Label block 0 at 0 inner 0",
    "cleartext --of=signatures --line 128": "cleartext: Label block 0 at 0 inner 0",
    "cleartext --of hashed --input 10": "input: InputTooLong block 0 at 10 inner 0",
    "canonical --input 10": "input: InputTooLong block 0 at 10 inner 0",
    f"digest {SIGNATURE}": b"signature 0 : asked type 00 hash 8 signer 8CFDE12197965A9A digest ",
    f"digest {SIGNATURE} --malformed=keep --mode armor": b"signature 0 : asked type 00 hash 8 ",
    f"digest {SIGNATURE} --mode binary": "framing: NotAPacket block 0 at 0 inner 0",
    f"digest {SIGNATURE} --input 10": "input: InputTooLong block 0 at 10 inner 0",
    f"digest {SIGNATURE} --octets 0": b"\x04\x00\x16\x08",
    f"digest --octets=+00 {SIGNATURE}": b"\x04\x00\x16\x08",
    f"digest {SIGNATURE} --salt --octets 0": b"",
    f"digest {SIGNATURE} --octets 1": NO_ROW,
    f"digest --signatures {HERE}/examples/rfc9580-a1.asc": NO_LITERAL,
    f"digest --signatures {HERE}/examples/rfc9580-a1.asc --octets 0": NO_LITERAL,
}
for command, begins in USUAL.items():
    ACCEPTED[command] = ACCEPTED[f"{command} --progress"] = ACCEPTED[f"{command} --quiet"] = begins
    ACCEPTED[f"{command} --spool {ROOM.name}"] = ACCEPTED[f"{command} --spool={ROOM.name}/ --progress"] = begins
    for mode in ("auto", "armor"):
        ACCEPTED[f"{command} --mode {mode}"] = begins
    for policy in ("skip", "refuse"):
        ACCEPTED[f"{command} --outside {policy}"] = begins
    for policy in ("refuse", "keep"):
        ACCEPTED[f"{command} --malformed {policy}"] = ACCEPTED[f"{command} --malformed={policy}"] = begins
    ACCEPTED[f"{command} --mode binary"] = "framing: NotAPacket block 0 at 0 inner 0"
    name, _, more = command.partition(" ")
    ACCEPTED[f"{name} --line 128 --body 512 --cert 512 --input 0 --pieces 1 {more}".strip()] = \
        "input: InputTooLong block 0 at 0 inner 0"
    ACCEPTED[f"{name} --pieces=16777216 --input=4611686018427387904 --cert=1099511627776 --body=4294967295 "
             f"--line=1048576 {more}".strip()] = begins
# A line that is refused, and what the text says.
REFUSED = [
    ("list --line 127", "127 is not in 128..=1048576"), ("list --line 1048577", "1048577 is not in 128..=1048576"),
    ("list --body 511", "511 is not in 512..=4294967295"), ("list --body 4294967296", "is not in 512..=4294967295"),
    ("list --cert 511", "511 is not in 512..=1099511627776"), ("list --cert 1099511627777", "is not in 512..=1099511627776"),
    ("list --input 4611686018427387905", "4611686018427387905 is not in 0..=4611686018427387904"),
    ("list --input -1", "-1"), ("list --input=-1", "-1"),
    ("list --pieces 0", "0 is not in 1..=16777216"), ("list --pieces 16777217", "16777217 is not in 1..=16777216"),
    ("list --line 0x80", "0x80"), ("list --line ", "--line"), ("list --line=", "--line"), ("list --body ten", "ten"),
    ("list --cert 18446744073709551616", "18446744073709551616"), ("octets --row 18446744073709551616", "18446744073709551616"),
    ("octets --row -1", "-1"), ("octets --row 1.5", "1.5"), ("split --nth 18446744073709551616", "18446744073709551616"),
    ("split --nth x", "x"),
    *((f"split --key {it}", f"invalid value '{it}' for '--key <KEY>'") for it in (
        "x", "0x", "97965A9A", "8CFDE12197965A9", "8CFDE12197965A9AA", "8CFDE12197965A9G", 39 * "0", 41 * "0", 42 * "0", 63 * "0", 65 * "0",
        66 * "0", "0x" + 66 * "0", "0x0x8CFDE12197965A9A", 1000 * "0", "x8CFDE12197965A9A", "8CFDE121:97965A9A")),
    # A tab is escaped where it is shown.
    ("split --key \t8CFDE12197965A9A", r"invalid value '\t8CFDE12197965A9A' for '--key <KEY>'"),
    ("split --key", "--key"), ("split --key=", "--key"), ("list --key 8CFDE12197965A9A", "--key"),
    ("split --key 8CFDE12197965A9A --key x", "invalid value 'x' for '--key <KEY>'"), ("split --key x --nth y", "'y'"),
    ("split --except", "'--except' wants '--key <KEY>' or '--keys <FILE>'"), ("split --nth 0 --except", "'--except' wants '--key <KEY>' or '--keys <FILE>'"),
    ("split --keys", "--keys"), ("split --keys=", "--keys"), ("split --keys x --keys y", "--keys"), ("split --keys x --key y", "invalid value 'y' for '--key <KEY>'"),
    ("split --keys x --nth 0", "'--nth <N>' cannot be used with '--keys <FILE>'"), ("split --keys x --nth 0 --key y", "'--nth <N>' cannot be used with '--key <KEY>'"),
    (f"split --keys {KEYS} --except --except", "--except"), ("split --except=true --key 8CFDE12197965A9A", "--except"), ("list --except", "--except"), ("write --keys x", "--keys"),
    ("split --nth 0 --key 8CFDE12197965A9A", "'--nth <N>' cannot be used with '--key <KEY>'"),
    ("split --key x --nth 0", "'--nth <N>' cannot be used with '--key <KEY>'"),
    (None, "'opgp' requires a subcommand but one was not provided"), ("", "unrecognized subcommand ''"),
    ("lists", "unrecognized subcommand 'lists'"), ("lis", "unrecognized subcommand 'lis'"), ("List", "unrecognized subcommand 'List'"),
    ("list list", "unexpected argument 'list' found"), ("list -- list", "unexpected argument 'list' found"),
    ("--mode auto list", "--mode"), ("list --mode", "--mode"), ("list --mode odd", "odd"), ("list --mode AUTO", "AUTO"),
    ("list --mode auto --mode auto", "--mode"), ("list --line 128 --line 128", "--line"), ("list --mod auto", "--mod"),
    ("list --outside", "--outside"), ("list --outside odd", "odd"), ("list --outside Refuse", "Refuse"), ("list --outside=", "--outside"),
    ("list --mode=", "--mode"), ("write --out=", "--out"),
    ("list --outside skip --outside skip", "--outside"), ("--outside skip list", "--outside"), ("list --outsid skip", "--outsid"),
    ("list --malformed", "--malformed"), ("list --malformed odd", "odd"), ("list --malformed Keep", "Keep"),
    ("list --malformed=", "--malformed"), ("list --malformed skip", "skip"), ("list --outside keep", "keep"),
    ("list --malformed keep --malformed keep", "--malformed"), ("--malformed keep list", "--malformed"), ("list --malforme keep", "--malforme"),
    ("list -m auto", "-m"), ("list --out armor", "--out"), ("list --row 1", "--row"), ("list --nth 1", "--nth"),
    ("write --own-signatures --own-signatures", "--own-signatures"), ("write --own-signatures=true", "--own-signatures"), ("write --own", "--own"),
    ("write --no-attributes --no-attributes", "--no-attributes"), ("write --no-attributes=1", "--no-attributes"),
    ("write --attributes", "--attributes"),
    ("write --user-id", "--user-id"), ("write --user-id=", "--user-id"), ("write --user-id -1", "-1"),
    ("write --user-id 18446744073709551616", "18446744073709551616"),
    ("write --user-id Alice", "Alice"), ("write --user-id 0 --user-id x", "x"), ("write --user-id 0 --user-id", "--user-id"), ("normalise --user-id 0", "--user-id"),
    ("split --own-signatures", "--own-signatures"), ("join --no-attributes", "--no-attributes"), ("list --user-id 0", "--user-id"),
    ("list --merge", "--merge"), ("check --values", "--values"), ("list --fingerprints", "--fingerprints"),
    ("check --fingerprints --fingerprints", "--fingerprints"), ("check --fingerprints=true", "--fingerprints"),
    ("octets --all --explain", "'--explain' cannot be used with '--all'"), ("octets --explain --all --row 1", "'--row <N>' cannot be used with '--all'"),
    ("write --bound", "'--bound' wants '--verdicts <FILE>'"), ("write --verdicts x", "'--verdicts <FILE>' wants '--bound'"),
    ("write --bound --user-id 0", "'--bound' wants '--verdicts <FILE>'"), ("write --verdicts x --user-id 0", "'--verdicts <FILE>' wants '--bound'"),
    ("write --user-id 0 --bound --verdicts x", "'--user-id <N>' cannot be used with '--bound'"),
    ("write --newest", "'--newest' wants '--at <TIME>'"), ("write --at 0", "'--at <TIME>' wants '--newest'"), ("write --at x", "'--at <TIME>' wants '--newest'"),
    ("write --newest --at 0", "'--newest' wants '--bound'"), ("write --newest --at x", "'--newest' wants '--bound'"),
    ("write --newest --at 0 --bound", "'--bound' wants '--verdicts <FILE>'"), ("write --newest --at 0 --verdicts x", "'--verdicts <FILE>' wants '--bound'"),
    ("write --bound --verdicts x --newest", "'--newest' wants '--at <TIME>'"), ("write --bound --verdicts x --at 0", "'--at <TIME>' wants '--newest'"),
    ("write --bound --verdicts x --newest --at 0 --user-id 1", "'--user-id <N>' cannot be used with '--bound'"),
    ("write --bound --verdicts x --newest --at now", "invalid value 'now' for '--at <TIME>'"), ("write --newest=1", "--newest"),
    ("write --newest --newest", "--newest"), ("write --at 0 --at 0", "--at"), ("normalise --newest", "--newest"), ("split --at 0", "--at"),
    ("check --places --places", "--places"), ("check --places=true", "--places"), ("list --places", "--places"), ("check --place", "--place"),
    ("check --places --fingerprints", "'--places' cannot be used with '--fingerprints'"), ("check --fingerprints --places", "'--places' cannot be used with '--fingerprints'"),
    ("check --fingerprint", "--fingerprint"), ("list --values --values", "--values"), ("list --values=true", "--values"),
    ("show --values --values", "--values"), ("show --values=true", "--values"),
    ("show --of ring", "--of"), ("octets --of ring", "<--row <N>|--all>"), ("octets --of literal", "<--row <N>|--all>"),
    ("octets --all --row 1", "'--row <N>' cannot be used with '--all'"), ("octets --row 1 --of literal --all", "'--row <N>' cannot be used with '--all'"),
    ("octets --all --of literal", "'--of literal' cannot be used with '--all'"), ("octets --all --all", "--all"), ("octets --all=true", "--all"),
    ("octets --all --row x", "'x'"), ("octets --all --of certificate", "certificate"), ("list --all", "--all"), ("octets --al", "--al"),
    ("octets --row 1 --of certificate", "certificate"), ("octets --row 1 --row 1", "--row"),
    ("octets --row 1 --out armor", "--out"), ("write --out text", "text"), ("write --nth 1", "--nth"),
    ("normalise --merge", "--merge"), ("split --merge", "--merge"), ("split --nth 1 --nth 2", "--nth"), ("join --nth 1", "--nth"),
    ("digest", "--signatures <FILE>"), ("digest --octets 0", "--signatures <FILE>"), ("digest --signatures", "--signatures"), ("digest --signatures=", "--signatures"),
    (f"digest {SIGNATURE} --salt", "'--salt' wants '--octets <N>'"), (f"digest {SIGNATURE} {SIGNATURE}", "--signatures"), (f"digest {SIGNATURE} --octets x", "x"),
    (f"digest {SIGNATURE} --octets", "--octets"), (f"digest {SIGNATURE} --salt=1 --octets 0", "--salt"), (f"list {SIGNATURE}", "--signatures"), (f"signatures {SIGNATURE}", "--signatures"),
    ("state", "--at <TIME>"), ("state --policy any", "--at <TIME>"), ("state --at", "--at"), ("state --at=", "--at"), ("state --at now", "now"),
    ("state --at 0 --at 0", "--at"), ("state --at 2026-02-29", "2026-02-29"), ("state --at 0 --policy", "--policy"), ("state --at 0 --policy odd", "odd"),
    ("state --at 0 --verdicts", "--verdicts"), ("state --at 0 --verdicts=", "--verdicts"),
    ("check --at 0", "--at"), ("list --policy any", "--policy"), ("state --at 0 --values --values", "--values"), ("state --at 0 --values=true", "--values"),
    ("state --values", "--at <TIME>"),
    ("cleartext --of", "--of"), ("cleartext --of=", "--of"), ("cleartext --of text", "text"), ("cleartext --of document --of hashed", "--of"),
    ("cleartext --out armor", "--out"), ("cleartext --values", "--values"), ("canonical --of document", "--of"),
    ("canonical --salt", "--salt"), ("canonical --out armor", "--out"), ("signatures --values", "--values"), ("digests", "unrecognized subcommand 'digests'"),
    ("join --merge --merge", "--merge"), ("join --merge=true", "--merge"), ("--version", "--version"),
    ("list --hints", "--hints"), ("list --hints=", "--hints"), ("list --hints odd", "odd"), ("list --hints Always", "Always"),
    ("list --hints auto --hints never", "--hints"), ("--hints always list", "--hints"),
    ("list --quiet --quiet", "--quiet"), ("list --quiet=true", "--quiet"), ("--quiet list", "--quiet"), ("list -q", "-q"),
    ("list --progress --progress", "--progress"), ("list --progress=true", "--progress"), ("--progress list", "--progress"),
    ("list --version", "--version"), ("-V", "-V"), ("list --spool", "--spool"), ("list --spool=", "--spool"),
    ("list --spool --progress", "--spool"), (f"list --spool {ROOM.name} --spool {ROOM.name}", "--spool"), ("--spool /tmp list", "--spool"),
    (f"list --spool {ROOM.name} {ROOM.name}", "unexpected argument"),
]
for line in ("--help", "-h", "help"):
    REFUSED += [(line, word) for word in [f"\n  {it} " for it in COMMANDS] + ["Usage: opgp <COMMAND>"]]
for line in ("list --help", "list -h", "help list"):
    REFUSED += [(line, word) for word in (
        "Usage: opgp list [OPTIONS]", "--mode <MODE>", "[possible values: auto, armor, binary]", "[default: auto]",
        "--outside <POLICY>", "[possible values: skip, refuse]", "[default: skip]",
        "--malformed <POLICY>", "[possible values: refuse, keep]", "[default: refuse]", "--values",
        "--line <N>", "--body <N>", "--cert <N>", "--input <N>", "--pieces <N>", "--progress", "--quiet", "--hints <WHEN>", "--spool <DIR>")]
# What steers a terminal is escaped: a color, the direction of letters, a bell, a control above ASCII.
REFUSED += [("\x1b[31mlist", r"'\u{1b}[31mlist'"), ("list \u202emoc", r"'\u{202e}moc'"), ("state --at 1\a", r"'1\u{7}'"), ("split --key \x9b0m", r"'\u{9b}0m'")]
REFUSED += [("octets --help", "--of <TOP>"), ("octets --help", "--row <N>"), ("octets --help", "--all"), ("octets --help", "--explain"), ("show --help", "--values"), ("check --help", "--fingerprints"), ("check --help", "--places"), ("split --help", "--nth <N>"), ("write --help", "--own-signatures"), ("write --help", "--no-attributes"), ("write --help", "--user-id <N>"), ("split --help", "--key <KEY>"), ("split --help", "--keys <FILE>"), ("split --help", "--except"), ("join --help", "--merge")]
# A line that is refused, and the whole text.
TEXTS = {
    "list --body 511": "error: invalid value '511' for '--body <N>': 511 is not in 512..=4294967295\n\n"
                       "For more information, try '--help'.\n",
    "list --mode odd": "error: invalid value 'odd' for '--mode <MODE>'\n  [possible values: auto, armor, binary]\n\n"
                       "For more information, try '--help'.\n",
    "list --outside odd": "error: invalid value 'odd' for '--outside <POLICY>'\n  [possible values: skip, refuse]\n\n"
                          "For more information, try '--help'.\n",
    "list --malformed odd": "error: invalid value 'odd' for '--malformed <POLICY>'\n  [possible values: refuse, keep]\n\n"
                            "For more information, try '--help'.\n",
    "octets": "error: the following required arguments were not provided:\n  <--row <N>|--all>\n\nFor more information, try '--help'.\n",
    "octets --all --row 0": "error: the argument '--row <N>' cannot be used with '--all'\n\nFor more information, try '--help'.\n",
    "octets --of literal --all": "error: the argument '--of literal' cannot be used with '--all'\n\nFor more information, try '--help'.\n",
    **{words: f"error: the following required arguments were not provided:\n  {lacking}\n\nUsage: opgp {words} {lacking}\n\n"
              "For more information, try '--help'.\n" for words, lacking in (("digest", "--signatures <FILE>"), ("state", "--at <TIME>"), ("diff", "--old <FILE>"))},
    f"digest --salt {SIGNATURE}": "error: the argument '--salt' wants '--octets <N>'\n\nFor more information, try '--help'.\n",
    "split --key 97965A9A": "error: invalid value '97965A9A' for '--key <KEY>': a fingerprint has 40 or 64 hexadecimal digits, a key ID 16"
                            "\n\nFor more information, try '--help'.\n",
    "split --key 97965A9A --nth 0": "error: the argument '--nth <N>' cannot be used with '--key <KEY>'\n\n"
                                    "For more information, try '--help'.\n",
    "split --except": "error: the argument '--except' wants '--key <KEY>' or '--keys <FILE>'\n\nFor more information, try '--help'.\n",
    "split --keys x --nth 0": "error: the argument '--nth <N>' cannot be used with '--keys <FILE>'\n\nFor more information, try '--help'.\n",
    "list extra": "error: unexpected argument 'extra' found\n\nUsage: opgp list [OPTIONS]\n\n"
                  "For more information, try '--help'.\n\nopgp reads standard input: opgp COMMAND < FILE\n",
}


def run(line):
    with open(KEY, "rb") as key:
        words = [] if line is None else line.split(" ")
        ended = subprocess.run([PROGRAM, *words], stdin=key, capture_output=True, check=False, timeout=30)
    return ended.returncode, ended.stdout, ended.stderr.decode()


passed = failed = 0


def verdict(line, holds, said):
    global passed, failed
    passed, failed = passed + holds, failed + (not holds)
    if not holds:
        print(f"tests/program/words.py: {line}: FAILED {said}", file=sys.stderr)


def plain(text):
    """A text of clap without what it proposes, and which options it names in the usage."""
    return re.sub(r"^(Usage: opgp \w+) .*", r"\1", re.sub(r"^  tip: .*\n\n?", "", text, flags=re.M), flags=re.M)


def at_first(line, wanted):
    """Where nothing is built, the launcher answers what the program does, but for proposals and usages."""
    said = FIRST.answer([] if line is None else line.split(" "))
    verdict(f"without a build: {line}", plain(said) == plain(wanted), (said, wanted))


for line, wanted in ACCEPTED.items():
    status, out, err = run(line)
    at_first(line, "")
    read = READ["--input 10" in line] if "--progress" in line else ""
    if isinstance(wanted, bytes):
        verdict(line, status == 0 and out.startswith(wanted) and bool(out) == bool(wanted) and err == read, (status, out, err))
    else:
        told = TOLD.get(wanted, "") if re.search("--hints[ =]always", line) and "--quiet" not in line else ""
        verdict(line, (status, out, err) == (1, b"", f"{read}{wanted}\n{told}"), (status, out, err))
for line, mention in REFUSED:
    status, out, err = run(line)
    verdict(line, status == 2 and not out and mention in err, (status, out, err))
    at_first(line, err)
for line, text in TEXTS.items():
    said = run(line)
    verdict(line, said == (2, b"", text), said)
print(f"{passed} passed, {failed} failed")
sys.exit(failed != 0)
