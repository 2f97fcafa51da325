#!/usr/bin/env python3
"""Checks the manual, the completions and the page of faults against the program: each command, option, reason and exit status is
in the manual, each command and option in each completion; each reason's example gives it; what `make install` puts in place
runs; the completions load in their shells, where these are installed.

What README, PROOFS, ARCHITECTURE and AUDIT name of the sources is there (tests/gate/named.py), and each library that the crates are
to use is used. Pages keep within their words, and words a sentence, and comments have their lists (tests/gate/prose.py). Each page and
help shows the one way to a file of verdicts. What is made from other files is what these make of it (build/pages --check). The last line
counts the tests."""

import glob
import os
import re
import shutil
import subprocess
import sys
import tempfile

sys.dont_write_bytecode = True

import named  # noqa: E402
import prose  # noqa: E402

ROOT = os.path.dirname(os.path.dirname(os.path.dirname(os.path.realpath(__file__))))
PROGRAM = f"{ROOT}/opgp"
passed = failed = 0


def verdict(name, holds, why=""):
    global passed, failed
    if holds:
        passed += 1
    else:
        failed += 1
        print(f"tests/gate/manual.py: {name}: FAILED {why}", file=sys.stderr)


def text_of(path):
    with open(f"{ROOT}/{path}", encoding="utf-8") as it:
        return it.read()


def run(*words, **how):
    return subprocess.run(words, capture_output=True, text=True, stdin=subprocess.DEVNULL, **how)


def missing(words, text):
    return [it for it in words if not re.search(rf"(?<![\w-]){re.escape(it)}(?![\w-])", text)]


def numbers():
    """The tables of registered numbers, made from the enums that the program has."""
    said = []
    for title, file, why in (("Types of packets (5)", "packet_type", "`type` of `show`, `pkt` of `list`"),
                             ("Key algorithms (9.1)", "key_algorithm", "`alg` of `list`"),
                             ("Hash algorithms (9.5)", "hash_algorithm", "`hash` of `list` and `check`"),
                             ("Types of signatures (5.2.1)", "signature_type", "`type` of `list` and `check`, in hexadecimal"),
                             ("Kinds of subpackets (5.2.3.7)", "subpacket_kind", "`kind` of `show`")):
        text = text_of(f"crates/opgp_octets/src/{file}.rt")
        notes = {variant: note[0].upper() + note[1:].rstrip(".") for note, variant in re.findall(r"/// \w+: (.*)\n    (\w+),", text)}
        rows = [(int(number), name, notes.get(variant, "")) for number, variant, name in re.findall(r'^ +(\d+) (\w+) "([^"]*)";$', text, re.M)]
        said += [f"## {title}", "", f"In {why}.", ""]
        if file == "signature_type":
            rows = [(number, name, f"{number:02X}: {note[0].lower()}{note[1:]}") for number, name, note in rows]
        if "algorithm" in file:
            said += ["| Number | Name |", "|---|---|", *(f"| {number} | {name} |" for number, name, _ in rows)]
        else:
            said += ["| Number | Name | What it is |", "|---|---|---|", *(f"| {number} | {name} | {note} |" for number, name, note in rows)]
        said.append("")
    return "\n".join(said)


if sys.argv[1:] == ["--numbers"]:
    print(numbers(), end="")
    sys.exit()

# What the program has, by its own help; and the reasons, by their enum.
help_text = run(PROGRAM, "--help").stderr
commands = re.findall(r"^  (\w+)  ", help_text.split("Commands:")[1].split("Options:")[0], re.M)
options = {"--help"}
for command in commands:
    if command != "help":
        options |= set(re.findall(r"^ +(?:-h, )?(--[\w-]+)", run(PROGRAM, command, "--help").stderr, re.M))
enum = text_of("crates/opgp_octets/src/fault.rt").split("pub enum Reason {")[1].split("\n}")[0]
numbered = {reason: number for reason, number in re.findall(r"^    ([A-Z]\w+) = (\d+),$", enum, re.M)}
reasons = [*numbered]
# What the launcher shows where nothing is built.
shown = [f"== opgp {it}\n" + run(PROGRAM, *it.split()).stderr for it in ["--help", *(f"{it} --help" for it in commands if it != "help")]]
if sys.argv[1:] == ["--first"]:
    print("".join(shown), end="")
    sys.exit()
verdict("the launcher's help is the program's (tests/gate/manual.py --first prints it)", text_of("build/help.txt") == "".join(shown))
verdict("the program has commands, options and reasons", len(commands) == 15 and len(options) >= 26 and len(reasons) == 44,
        f"{len(commands)} {len(options)} {len(reasons)}")

manual = text_of("man/opgp.1").replace("\\-", "-")
for what, words in (("command", commands), ("option", options), ("reason", reasons)):
    left = missing(words, manual)
    verdict(f"each {what} is in the manual", not left, left)
statuses = re.findall(r"^\.B (\d)$", manual.split(".SH EXIT STATUS")[1].split(".SH FAULTS")[0], re.M)
verdict("each exit status is in the manual", statuses == ["0", "1", "2", "3", "4"], statuses)
for least, most, usual in re.findall(r"_rule = limit_rule \(codes \"\w+\"\) (\d+) (\d+) \(codes \"(\d+)\"\)",
                                     text_of("crates/opgp_words/specs/Program.antt")):
    verdict(f"the limit {usual} is in the manual", f"{least} to {most}, default {usual}." in manual)
if shutil.which("man") and shutil.which("groff"):
    page = run("man", "--warnings", "-l", f"{ROOT}/man/opgp.1", env={**os.environ, "MANWIDTH": "100", "LC_ALL": "C"})
    verdict("the manual is laid out without a warning", page.returncode == 0 and not page.stderr, page.stderr[:200])
else:
    print("tests/gate/manual.py: no man and groff here: not laid out")

for shell in ("bash", "zsh", "fish"):
    text = text_of(f"completions/opgp.{shell}")
    left = missing(commands, text)
    left += [it for it in options if it not in text and f"-l {it[2:]} " not in text]
    verdict(f"each command and option is in the completion for {shell}", not left, left)
    if shutil.which(shell):
        loads = run(shell, "-n", f"{ROOT}/completions/opgp.{shell}")
        verdict(f"the completion loads in {shell}", loads.returncode == 0, loads.stderr)
    else:
        print(f"tests/gate/manual.py: no {shell} here: its completion isn't loaded")

def offered(shell, typed, room):
    """What the completion for a shell offers behind these words."""
    file, words = f"{ROOT}/completions/opgp.{shell}", typed.split(" ")
    if shell == "bash":
        # It takes = for a word of its own, which the one behind it completes.
        words = [it for it in re.split(r" |(=)(?!$)|(=$)", typed) if it is not None]
        words = words[:-1] if typed.endswith("=") else words
        script = (f"source {file}; COMP_WORDS=({' '.join(repr(it) for it in words)}); "
                  f"COMP_CWORD={len(words) - 1}; _opgp; printf '%s\\n' \"${{COMPREPLY[@]}}\"")
        return run("bash", "-c", script).stdout.split()
    if shell == "fish":
        said = run("fish", "-N", "-c", f"source {file}; complete -C '{typed}'", env={**os.environ, "HOME": room}).stdout
        return [line.split("\t")[0].split("=")[-1] for line in said.splitlines()]
    shutil.copy(file, f"{room}/_opgp")
    said = run("zsh", "-f", f"{ROOT}/tests/gate/complete.zsh", room, typed, env={**os.environ, "TERM": "xterm", "HOME": room}, timeout=60).stdout
    # What is behind a step up draws the typed words again; so does a line that begins with them.
    lines = [re.sub(r"\x1b\[[0-9;?]*[A-Za-z]", "", re.split(r"\x1b\[\d*A", line)[0]) for line in said.splitlines()]
    words = [line.split(" -- ")[0].split() for line in lines if not re.match(r"#|o?opgp|c*echo", line)]
    return [word for line in words for word in line if len(word) > 1]


for shell in ("bash", "zsh", "fish"):
    if not shutil.which(shell):
        continue  # said above
    for typed, wanted in (("opgp ", commands), ("opgp sp", ["split"]), ("opgp list --mode ", ["auto", "armor", "binary"]),
                          ("opgp join --m", ["--merge", "--mode", "--malformed"]), ("opgp show --pr", ["--progress"]), ("opgp list --q", ["--quiet"]), ("opgp octets --of ", ["ring", "literal"]),
                          ("opgp write --no", ["--no-attributes"]), ("opgp write --u", ["--user-id"]), ("opgp write --ow", ["--own-signatures"]),
                          ("opgp list --spo", ["--spool"]), ("opgp list --outs", ["--outside"]), ("opgp show --outside ", ["skip", "refuse"]), ("opgp write --malformed ", ["refuse", "keep"]),
                          ("opgp octets --a", ["--all"]), ("opgp list --v", ["--values"]), ("opgp check --f", ["--fingerprints"]), ("opgp check --pl", ["--places"]),
                          ("opgp write --out=", ["armor", "binary"]), ("opgp list --mode=b", ["binary"]), ("opgp help no", ["normalise"])):
        with tempfile.TemporaryDirectory() as room:
            found = offered(shell, typed, room)
        found = [it for it in found if it != "--help" or "--help" in wanted]
        verdict(f"completion of '{typed}' in {shell}", sorted(found) == sorted(wanted), found)

# What README shows is what the program writes on a terminal: the standard's certificate, and the same with the label of a secret key.
readme, certificate = text_of("README.md"), text_of("examples/rfc9580-a3.asc")
printed = re.search(r"```console\n\$ opgp list < examples/rfc9580-a3\.asc\n(.*)\$ opgp list < secret\.asc\n(.*)```\n\nIt is", readme, re.S)
listed = [subprocess.run([PROGRAM, "list", "--hints", "always"], input=it, capture_output=True, text=True, check=False)
          for it in (certificate, certificate.replace("PUBLIC KEY", "PRIVATE KEY"))]
verdict("README's listing", printed and printed[1] == listed[0].stdout, listed[0].stdout)
verdict("README's refusal", printed and printed[2] == listed[1].stderr, listed[1].stderr)
edits = sum(len(glob.glob(f"{ROOT}/crates/*/{it}/*.edit")) for it in ("wrong", "wrong_runs"))
drawn = run(f"{ROOT}/bench/plot", "--check")
verdict("the pictures are those of the figures (bench/plot draws them)", drawn.returncode == 0, drawn.stdout)
verdict("README's number of wrong bodies", f" {edits} wrong bodies" in readme, edits)

# Each reason has its section with its number, in that of its layer, and an example that gives it; nothing prints Spent.
layer, told = "", []
with tempfile.TemporaryDirectory() as room:
    os.symlink(PROGRAM, f"{room}/opgp")
    for part in re.split(r"^(?=#)", text_of("docs/FAULTS.md"), flags=re.M):
        layer = next(iter(re.findall(r"^## (.*)", part)), layer)
        for number, reason in re.findall(r"^### (\d+) `(\w+)`", part):
            told.append(reason)
            verdict(f"number of {reason}", numbered.get(reason) == number, number)
            examples = re.findall(r"^    (.+)", part, re.M)
            verdict(f"{reason} has an example", examples or reason == "Spent")
            for example in examples:
                said = run("bash", "-c", f"set -o pipefail; {example}", cwd=ROOT, env={**os.environ, "PATH": f"{room}:{os.environ['PATH']}"})
                verdict(f"example of {reason}", not said.stdout and said.stderr.startswith(f"{layer}: {reason} block "), said.stderr)
verdict("each reason has its section", sorted(told) == sorted(reasons), set(told) ^ set(reasons))

# The wrong bodies that the document of proofs names are where it says; a case is one of tests/cases.
section = text_of("docs/PROOFS.md").split("## Wrong bodies that are refused")[1].split("\n## ")[0]
for line in re.findall(r"^\| .* \|$", section, re.M)[2:]:
    for crate, names in re.findall(r"`(opgp_\w+)`: ((?:`\w+`(?:, )?)+)", line):
        for name in re.findall(r"`(\w+)`", names):
            places = [f"{ROOT}/crates/{crate}/{it}/{name}.edit" for it in ("wrong", "wrong_runs")]
            verdict(f"wrong body {crate}/{name}", any(map(os.path.isfile, places)))
    for case in re.findall(r"`(tests/cases/\w+/\w+)`", line):
        verdict(case, os.path.isdir(f"{ROOT}/{case}"))

# What the pages name of the sources: a verdict for each name, with where it was looked for.
for claims in named.claims():
    passed += claims.held - len(claims.wrong)
    for wrong in claims.wrong:
        verdict(wrong, False)

# The pages that people read are short, in words and in words a sentence; and their generated parts are made of what is there.
complaints, measured = prose.complaints()
passed += measured - min(measured, len(complaints))
for it in complaints:
    verdict(it, False)
made = run(f"{ROOT}/build/pages", "--check")
verdict("the generated parts of pages (build/pages writes them)", made.returncode == 0, made.stdout + made.stderr)

# Comments in the crates are as they were written; and a file of verdicts is made in one way, wherever one is shown.
complaints, measured = prose.comments()
passed += measured - min(measured, len(complaints))
for it in complaints:
    verdict(it, False)
pages = {it: " ".join(text_of(it).replace("\\-", "-").split()) for it in prose.pages() if it.startswith(("README", "docs/", "man/opgp.1"))}
pages |= {f"opgp {it} --help": " ".join(run(PROGRAM, it, "--help").stderr.split()) for it in ("state", "write")}
for it, text in pages.items():
    verdict(f"{it}: no file of verdicts by a policy", "--policy none" not in text)
    shows = "OUTPUT TASKS RECIPES EVERYDAY VALIDITY LIBRARY.md LIBRARY-C man/ opgp".split()
    verdict(f"{it}: a file of verdicts", "opgp-verify --verdicts" in text or not any(it.removeprefix("docs/").startswith(at) for at in shows))
first = re.search(r"verdicts by arithmetic of keyring sha256 \S+ rows \S+", pages["docs/OUTPUT.md"])
verdict("the first line of a file of verdicts is on the page", first)

# Without a program its logic isn't known, whatever kit is there.
with tempfile.TemporaryDirectory() as room:
    for it in ("build/version", "c/opgp.h"):
        os.makedirs(os.path.dirname(f"{room}/{it}"))
        shutil.copy(f"{ROOT}/{it}", f"{room}/{it}")
    said = run(f"{room}/build/version").stdout
    verdict("a tree without a program says so", re.fullmatch(r"opgp [\d.]+ \(commit unknown, logic unknown\)\n", said), said)

with tempfile.TemporaryDirectory() as room:
    made = run("make", "-C", ROOT, "install", f"DESTDIR={room}", "PREFIX=/usr")
    there = [f"{room}/usr/bin/opgp", *(f"{room}/usr/share/{it}" for it in (
        "man/man1/opgp.1", "bash-completion/completions/opgp", "zsh/site-functions/_opgp",
        "fish/vendor_completions.d/opgp.fish"))]
    verdict("make install puts all in place", made.returncode == 0 and all(map(os.path.isfile, there)), made.stderr)
    with open(f"{ROOT}/examples/rfc9580-a1.asc", "rb") as key:
        line = subprocess.run([there[0], "list"], stdin=key, capture_output=True, text=True).stdout
    verdict("what is installed runs", line == text_of("tests/cases/list/armored_key_of_the_standard/stdout"))

print(f"{passed} passed, {failed} failed")
sys.exit(failed != 0)
