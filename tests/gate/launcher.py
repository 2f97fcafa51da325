#!/usr/bin/env python3
"""Tries the launcher in a copy of the tree where nothing is built, with a command in the place of the kit's rt: what it shows, in
which order it proves, what it answers without a build, and how it ends; and then one trial with the kit itself. The last line
counts the tests."""

import os
import pty
import re
import select
import shutil
import signal
import subprocess
import sys
import tempfile
import time

ROOT = os.path.dirname(os.path.dirname(os.path.dirname(os.path.realpath(__file__))))
# What stands in the place of rt: it writes down each call, and proves three functions of each crate.
KIT = """#!/bin/bash
echo "$(basename "$PWD") $*" >> "$CALLS"
name=$(basename "$PWD")
if [ "$1" = try ]; then
    if [ -n "${SLOW-}" ]; then sleep "$SLOW"; fi
    cat
    printf %s "$TRIED" >&2
    exit "$STATUS"
fi
if [ "$name" = "${FAILS-}" ]; then echo "src/lib.rt:1:1: error: this isn't so"; exit 1; fi
echo "so far: 1 of 3 functions checked"
if [ "$name" = "${WAITS-}" ]; then exec sleep 60; fi
echo "logic=proved functions=3 axioms=12 sum=0"
if [ "$1" = run ]; then
    mkdir -p out
    printf '#!/bin/sh\\necho "$@"\\ncat\\n' > out/opgp_tool
    chmod +x out/opgp_tool
fi
"""
START = ("opgp: proving and building the program, which takes 20 to 45 minutes, 2 GB of memory and 5 GB of disk;\n"
         "opgp: for a first look without the proof, in one to four minutes: ./opgp --trial WORDS\n")
NO_KIT = "opgp: the Rattle kit's command rt is wanted to prove and build the program\n"
TRIAL = "opgp: a trial, built anew of the same sources without their proof; it may write at most 1 MiB\n"
# A line about a trial's time, as the launcher shows it.
FAR = r"opgp: the trial has taken \d+ min \d\d s; the build takes one to four minutes"
passed = failed = 0


def verdict(name, holds, said=""):
    global passed, failed
    passed, failed = passed + bool(holds), failed + (not holds)
    if not holds:
        print(f"tests/gate/launcher.py: {name}: FAILED {said}", file=sys.stderr)


def copy(room):
    """A tree with nothing built, and the commands that the launcher finds there."""
    for path in ("opgp", "crates.txt", "build/first", "build/help.txt", "examples/rfc9580-a1.asc"):
        os.makedirs(os.path.dirname(f"{room}/tree/{path}"), exist_ok=True)
        shutil.copy(f"{ROOT}/{path}", f"{room}/tree/{path}")
    with open(f"{ROOT}/crates.txt", encoding="utf-8") as it:
        uses = {line.split(":")[0]: line.split(":")[1].split() for line in it if ":" in line and line[0] != "#"}
    for crate in uses:
        for part in ("src", "specs", "proofs"):
            os.makedirs(f"{room}/tree/crates/{crate}/{part}")
    for folder, commands in (("bin", "bash sh basename cat chmod dirname find mkdir python3 readlink sleep"), ("tmp", ""),
                             ("bare", "bash dirname readlink find")):
        os.makedirs(f"{room}/{folder}")
        for it in commands.split():
            os.symlink(sys.executable if it == "python3" else shutil.which(it), f"{room}/{folder}/{it}")
    os.makedirs(f"{room}/kit")
    with open(f"{room}/kit/rt", "w", encoding="utf-8") as it:
        it.write(KIT)
    os.chmod(f"{room}/kit/rt", 0o755)
    return uses


def run(room, *words, path="kit bin", octets=b"", program="tree/opgp", before=(), **more):
    told = {"PATH": ":".join(f"{room}/{it}" for it in path.split()), "CALLS": f"{room}/calls", "TMPDIR": f"{room}/tmp"}
    done = subprocess.run([*before, f"{room}/{program}", *words], input=octets, capture_output=True, env={**told, **more}, check=False, timeout=60)
    return done.returncode, done.stdout.decode("latin-1"), done.stderr.decode()


def on_terminal(room, stop, *words, **more):
    """The status of a run on a terminal that is interrupted once it has shown this text (None: never), and all that it showed."""
    told = {"PATH": f"{room}/kit:{room}/bin", "CALLS": f"{room}/calls", "TMPDIR": f"{room}/tmp", **more}
    child, end = pty.fork()
    if child == 0:
        signal.alarm(90)
        signal.signal(signal.SIGINT, signal.SIG_DFL)  # what runs in the background inherits that it is ignored
        os.execve(f"{room}/tree/opgp", ["opgp", *words], told)
    said, is_built = b"", False
    end_of_input = b"built anew" if words[0] == "--trial" else b"minutes; trusted are the kit and 12 C functions of its own\r\n"
    while True:
        if not select.select([end], [], [], 60)[0]:
            os.killpg(child, signal.SIGKILL)  # nothing was shown for a minute
            break
        try:
            got = os.read(end, 4096)
        except OSError:
            break
        if not got:
            break
        said += got
        if stop and stop in said:
            os.write(end, b"\x03")
            stop = None
        elif not is_built and end_of_input in said:
            os.write(end, b"\x04")  # the program reads the terminal to its end
            is_built = True
    status = os.waitstatus_to_exitcode(os.waitpid(child, 0)[1])
    os.close(end)
    return status, said.decode()


def calls(room):
    with open(f"{room}/calls", encoding="utf-8") as it:
        return it.read().splitlines()


def answers(room):
    """What is answered without a build, and what isn't, without the kit."""
    with open(f"{ROOT}/build/help.txt", encoding="utf-8") as it:
        texts = dict(re.findall(r"^== opgp (.*)\n((?:(?!== ).*\n)*)", it.read(), re.M))
    for words, name in (("--help", "--help"), ("help", "--help"), ("list --help", "list --help"), ("help octets", "octets --help")):
        said = run(room, *words.split(), path="bin")
        verdict(f"{words} without a build", said == (2, "", texts[name]), said)
    for words in ("", "lists", "list extra", "list --mode odd", "octets", "--trial", "--trial list --line 1"):
        status, out, err = run(room, *words.split(), path="bin")
        verdict(f"wrong words without a build: {words}", status == 2 and not out and err.startswith("error: "), err)
    said = run(room, b"\xff", path="bin")
    verdict("words that aren't UTF-8", said == (2, "", "opgp: usage\n"), said)
    for words in ("list", "octets --row 0", "--trial list"):
        said = run(room, *words.split(), path="bin")
        verdict(f"{words} without the kit", said == (4, "", NO_KIT), said)
    said = run(room, "list", path="bare")
    verdict("without Python", said == (4, "", "opgp: python3 is wanted to prove and build the program\n"), said)


def builds(room, uses):
    """A build from nothing, one that fails, and one that is taken up again."""
    status, out, err = run(room, "list", FAILS="opgp_armor")
    first = "".join(f"opgp: crate {n} of 20, {it}: 3 functions proved\n" for n, it in enumerate(("opgp_octets", "opgp_words"), 1))
    wanted = f"{START}{first}opgp: crate 3 of 20, opgp_armor: failed\nsrc/lib.rt:1:1: error: this isn't so\n"
    verdict("a crate that isn't proved", (status, out, err) == (4, "", wanted), err)
    os.remove(f"{room}/calls")
    status, out, err = run(room, "split", "--nth", "3", octets=b"\xc6\x00\n")
    made = calls(room)
    names = [it.split()[0] for it in made]
    lines = [f"opgp: crate {n} of {len(names)}, {it}: 3 functions proved\n" for n, it in enumerate(names, 1)]
    end = f"opgp: proved {3 * len(names)} functions of {len(names)} crates in 0 minutes; trusted are the kit and 12 C functions of its own\n"
    verdict("what a build shows", (status, err) == (0, START + "".join(lines) + end), err)
    verdict("the program's words and input", out == "split --nth 3\n\xc6\x00\n", out)
    verdict("each crate once", len(names) == len(set(names)) == 20 and names[-1] == "opgp_tool", names)
    verdict("each crate behind those below it",
            all(names.index(it) < n for n, name in enumerate(names) for it in uses[name] if it in uses), names)
    verdict("what is asked of the kit", made == [f"{it} lib" for it in names[:-1]] + ["opgp_tool run -- list"], made)
    said = run(room, "list")
    verdict("a second run builds nothing", said == (0, "list\n", "") and calls(room) == made, said)
    os.symlink(f"{room}/tree/opgp", f"{room}/link")
    said = run(room, "list", program="link", path="bin")
    verdict("through a link", said == (0, "list\n", ""), said)
    for path in ("crates/opgp_keyring/specs/New.antt", "crates.txt"):
        later = time.time() + 2
        with open(f"{room}/tree/{path}", "a", encoding="utf-8"):
            os.utime(f"{room}/tree/{path}", (later, later))
        status, out, err = run(room, "list")
        verdict(f"built anew behind {path}", (status, out) == (0, "list\n") and err.startswith(START), err)
        os.utime(f"{room}/tree/{path}", (0, 0))


def terminal(room):
    """What a terminal shows, and an interrupt."""
    shutil.rmtree(f"{room}/tree/crates/opgp_tool/out")
    status, said = on_terminal(room, b", opgp_io: 1 of 3", "list", WAITS="opgp_io")
    verdict("interrupted", status == 130 and re.search(r"\ropgp: interrupted; what is proved stays proved *\r\n$", said), (status, said))
    left = subprocess.run(["pgrep", "-f", f"{room}/tree"], capture_output=True, text=True, check=False).stdout
    verdict("nothing is left of it", not left and not os.listdir(f"{room}/tmp")
            and not os.path.exists(f"{room}/tree/crates/opgp_tool/out"), left)
    status, said = on_terminal(room, None, "list")
    verdict("rewritten in place", status == 0 and "\ropgp: crate 1 of 20, opgp_octets: 1 of 3 functions proved" in said, said)


def trials(room):
    """Trials, as the kit's command ends them, and one with the kit itself."""
    shutil.rmtree(f"{room}/tree/crates/opgp_tool/out")
    ended = "checked: ended status={0}\nrun=ended status={0} runners=1 proved=no\n"
    for status, line in ((0, ""), (1, "framing: Truncated block 0 at 0 inner 1\n")):
        said = run(room, "--trial", "list", octets=b"in", STATUS=str(status), TRIED=line + ended.format(status))
        verdict(f"a trial that ends with {status}", said == (status, "in", TRIAL + line), said)
    for what, where in (("closed", "2>&-"), ("full", "2> /dev/full")):
        shell = ("/bin/sh", "-c", f'exec "$0" "$@" {where}')
        said = run(room, "--trial", "list", octets=b"in", STATUS="0", TRIED=ended.format(0), before=shell)
        verdict(f"a trial with a {what} standard error", said == (0, "in", ""), said)
    verdict("what a trial asks of the kit", calls(room)[-1] == "opgp_tool try --seconds 3600 -- list", calls(room)[-1])
    said = run(room, "--trial", "list", STATUS="6",
               TRIED="the end\n| x\ninterpreter: no-answer: y\nchecked: no-answer: the program wrote more\nrun=no-answer proved=no\n")
    verdict("a trial without a result", said == (4, "", f"{TRIAL}opgp: the trial has no result: the program wrote more\n"), said)
    said = run(room, "--trial", "list", STATUS="1", TRIED="src/main.rt:1:1: error: no\nrun=none proved=no\n")
    verdict("a trial that doesn't compile", said == (4, "", f"{TRIAL}src/main.rt:1:1: error: no\nrun=none proved=no\n"), said)
    slow_trials(room, ended.format(0))
    with open(f"{ROOT}/examples/rfc9580-a1.asc", "rb") as key:
        done = subprocess.run([f"{ROOT}/opgp", "--trial", "list"], stdin=key, capture_output=True, text=True, check=False)
    with open(f"{ROOT}/tests/cases/list/armored_key_of_the_standard/stdout", encoding="utf-8") as it:
        told = re.fullmatch(f"{re.escape(TRIAL)}(?:{FAR}\n)*", done.stderr)
        verdict("a trial with the kit", (done.returncode, done.stdout) == (0, it.read()) and told, done)


def slow_trials(room, ended):
    """How long a trial takes is shown, on a terminal in a line of its own that is gone before the output; nothing is left of one
    that is interrupted."""
    first = f"{room}/tree/build/first"
    with open(first, encoding="utf-8") as it:
        usual = it.read()
    with open(first, "w", encoding="utf-8") as it:
        it.write(re.sub("^EACH = 30 ", "EACH = 1 ", usual, flags=re.M))
    said = run(room, "--trial", "list", octets=b"in", STATUS="0", TRIED=ended, SLOW="4")
    verdict("a trial's time by lines", said[:2] == (0, "in") and re.fullmatch(f"{re.escape(TRIAL)}(?:{FAR}\n){{2,4}}", said[2]), said)
    with open(first, "w", encoding="utf-8") as it:
        it.write(usual)
    said = run(room, "--trial", "list", octets=b"in", STATUS="0", TRIED=ended, SLOW="3")
    verdict("a trial's time before half a minute", said == (0, "in", TRIAL), said)
    status, said = on_terminal(room, None, "--trial", "list", STATUS="0", TRIED="opgp: told\n" + ended, SLOW="3")
    told = re.fullmatch(rf"{re.escape(TRIAL[:-1])}\r\n(?:\^D\x08\x08)?(?:\r{FAR} *)+\r +\ropgp: told\r\n", said)
    verdict("a trial's time on a terminal", status == 0 and told, (status, said))
    status, said = on_terminal(room, b"the trial has taken 0 min 01 s", "--trial", "list", STATUS="0", TRIED=ended, SLOW="60")
    left = subprocess.run(["pgrep", "-f", f"{room}/tree"], capture_output=True, text=True, check=False).stdout
    verdict("a trial that is interrupted", status == 130 and re.search(r"\r +\r$", said) and not left, (status, said, left))


def main():
    with tempfile.TemporaryDirectory() as room:
        uses = copy(room)
        answers(room)
        builds(room, uses)
        terminal(room)
        trials(room)
    print(f"{passed} passed, {failed} failed")
    return failed != 0


sys.exit(main())
