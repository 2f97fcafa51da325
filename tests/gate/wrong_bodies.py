#!/usr/bin/env python3
"""Tries the wrong bodies crates/NAME/wrong/*.edit: the prover must refuse the function that each of them edits.

An edit is a file with the lines 'file: src/key.rt', then 'old: TEXT' and 'new: TEXT', where each TEXT stands once in that
file, and before them 'fn: key::Key::read', the function below the crate whose body it changes. Where that body's goals or
steps have other names, the function's answers follow it by changes of their own, or a line 'without: GOAL' leaves an
answer out, without which other goals must fail than do so of the function as it is. An edit with the line 'alone: yes' may change more than a body.

The edits of a crate are checked together, each function by --only, those alone by themselves, over the libraries that rt ci
has built, and over the work that an earlier build of the crate kept, if there is any; a program as a library, since a program's
check links all crates below it. Of several edits of one function each further one is made in a copy of it, which stands beside
it under another name, with its contract and its proof files. An edit is refused where the check names goals of that very
function, or its copy, that aren't proved: a function is proved from the contracts of those that it calls, so no other edit plays
a part. Nor is a function with proof files of its own that no edit changes proved again: it has a hole (--allow-holes). What
isn't told so is tried without holes.

Usage: tests/gate/wrong_bodies.py [--anew] [--keep] [CRATE ..]

What was refused is listed: crates/NAME/wrong/refused.txt has a line for each edit that was, with the sum of all that decided it: the
edit, the sources, definitions and proofs of its crate and of those below (but for comments and where their lines end), the logic of
the kit's prover, and RULES. An edit whose sum is still that one isn't tried again, but for 25 of one crate, which the commit draws;
all others are tried. --anew tries them all, and --keep writes the lists anew. Without the name of a crate all are meant. With
WRONG_LOG=FILE, FILE.CRATE keeps what each check said. The last line counts the edits.
"""

import argparse
import functools
import hashlib
import importlib.machinery
import importlib.util
import os
import re
import shutil
import subprocess
import sys
import tempfile
from concurrent.futures import ThreadPoolExecutor

ROOT = os.path.dirname(os.path.dirname(os.path.dirname(os.path.realpath(__file__))))
HEAD = re.compile(r'^( *)(?:(?:[a-z][\w()]*|"C") )*fn (\w+)\b', re.M)
PROOFS = {"Answers.antt", "Invariants.antt", "Proof.antt"}
# The list of a crate's edits that were refused, and the numbers of what this script takes for refused, also of edits that leave an
# answer out: others where that changes.
LISTED, RULES, RULES_WITHOUT = "refused.txt", 1, 2
# How many of the edits that were refused before are tried anew.
ANEW = 25
# Goals of the function's own that the tactics left open.
OPEN = re.compile(r"no proof: .*`search` did not prove `")
# A literal, or what lies between words: blanks, line ends and comments, which in definitions and proofs have lines of their own.
SPACE = re.compile(r"""(b?"(?:\\[\s\S]|[^"\\])*"|b?'(?:\\.[^']*|[^'\\])')|(?:\s|//[^\n]*)+""")
SPACE_OF_PROOFS = re.compile(r"""("(?:\\.|[^"\\])*")|(?:^[ ]*--[^\n]*|\s)+""", re.M)
# An answer that names what the edit took away says nothing of the contract.
UNREAD = re.compile(r"is not in scope|has no field|has no `|was not admitted|is no name|expected the end")


def kit():
    """The kit's own library of crates, beside its command rt."""
    sys.dont_write_bytecode = True
    command = shutil.which("rt") or sys.exit("tests/gate/wrong_bodies.py: the Rattle kit's command rt is wanted")
    loader = importlib.machinery.SourceFileLoader("rtlib", f"{os.path.dirname(os.path.realpath(command))}/rtlib.py")
    made = importlib.util.module_from_spec(importlib.util.spec_from_loader("rtlib", loader))
    sys.modules["rtlib"] = made
    loader.exec_module(made)
    return made


rtlib = kit()


def text_of(path):
    with open(path, encoding="utf-8") as it:
        return it.read()


@functools.cache
def sum_of(folder):
    """The sum of what a check reads in a crate's folder."""
    files = sorted(it for part in rtlib.PARTS for it in files_below(f"{folder}/{part}"))
    told = (f"{os.path.relpath(it, folder)} {hashlib.sha256(bare(it).encode()).hexdigest()}\n" for it in files)
    return hashlib.sha256("".join(told).encode()).hexdigest()


def bare(file):
    """A file's text without what says nothing to the prover: comments, and how its lines are laid out."""
    is_source = file.endswith(".rt")
    # A declaration of a definition or a proof begins at the start of a line.
    begins = lambda blank: " " if is_source or not blank.endswith("\n") else "\n"
    return (SPACE if is_source else SPACE_OF_PROOFS).sub(lambda it: it[1] or begins(it[0]), text_of(file))


def files_below(folder):
    return (f"{room}/{it}" for room, _, files in os.walk(folder) for it in files)


@functools.cache
def logic():
    """The sum of the prover's logic, as rt version prints it."""
    return re.search(r"logic (\w+)", run(["rt", "version"], ROOT))[1]


class Edit:
    def __init__(self, crate, file):
        self.crate, self.file, self.function, self.changes, self.why = crate, file, "", [], ""
        self.alone, self.left_out = False, []
        path, old = "", ""
        for line in text_of(f"{crate.folder}/wrong/{file}").split("\n"):
            word, _, rest = line.partition(": ")
            if word == "fn":
                self.function = rest.strip()
            elif word == "file":
                path = rest.strip()
            elif word == "alone":
                self.alone = True
            elif word == "without":
                self.leave_out(rest.strip())
            elif word == "old":
                old = rest
            elif line.startswith("new:"):
                self.change(path, old, re.sub(r"\A ", "", line[4:]))
        if not any(path.startswith("src/") for path, *_ in self.changes):
            self.why = self.why or "it has no 'old:' and 'new:' pair of a body"

    def sum(self):
        """The sum of all that decides whether this edit is refused."""
        crates = sorted(f"{it.name} {sum_of(it.folder)}\n" for it in [*self.crate.below(), self.crate])
        told = [f"{RULES_WITHOUT if self.left_out else RULES} {logic()} {self.crate.name}\n", *crates, text_of(f"{self.crate.folder}/wrong/{self.file}")]
        return hashlib.sha256("".join(told).encode()).hexdigest()[:24]

    def answers(self):
        return f"proofs/{self.function.replace('::', '/')}/Answers.antt"

    def leave_out(self, goal):
        """Adds the change that takes this answer out of those of the edit's function."""
        answer = re.compile(rf"^pub {re.escape(goal)} :.*?(?=\n\n|\Z)", re.M | re.S)
        found = os.path.isfile(file := f"{self.crate.folder}/{self.answers()}") and answer.search(text_of(file))
        if not found:
            self.why = f"{self.answers()} has no '{goal}' to leave out"
            return
        self.left_out.append((self.answers(), found.start(), found.end(), ""))
        self.changes += self.left_out[-1:]

    def change(self, path, old, new):
        """Adds a change. Of an edit that isn't alone it stands in the body of the edit's function, or in its answers, and so leaves
        every other function's goals alone."""
        file = f"{self.crate.folder}/{path}"
        answers = path == self.answers()
        text = text_of(file) if (path.startswith("src/") or answers) and os.path.isfile(file) else ""
        if not old or text.count(old) != 1:
            self.why = f"an 'old:' text is in {path} {text.count(old) if old else 0} times, and not once"
            return
        at = text.index(old)
        if not (answers or self.alone) and body_at(text, at, at + len(old)) != self.function.split("::")[-1]:
            self.why = f"its change is not in the body of the function that a line 'fn:' names ({self.function})"
        self.changes.append((path, at, at + len(old), new))


def function_at(text, start, end):
    """The function in whose body, laid out by rt fmt, the text stands, as the match of its head and the end of its body; None
    where it stands in no body."""
    head = next(iter([*HEAD.finditer(text, 0, start)][-1:]), None)
    opens = head and re.compile(rf"^{head[1]}(?! )[^\n]*\{{$", re.M).search(text, head.start())
    closes = opens and re.compile(rf"^{head[1]}\}}$", re.M).search(text, opens.end())
    return (head, closes.end()) if closes and opens.end() <= start and end <= closes.start() else None


def body_at(text, start, end):
    """The name of the function in whose body the text stands; None where it stands in no body."""
    found = function_at(text, start, end)
    return found[0][2] if found else None


def stand(crates):
    """Whether each library is built from these sources: all by rt check and the like, or all by the last rt ci."""
    if all(it.is_built() for it in crates):
        return True
    sources = [file for it in crates for file in rtlib.files_of(it.folder)]
    newest = max(map(os.path.getmtime, [*sources, f"{ROOT}/crates.txt"]))
    stamps = [it for it in crates if os.path.exists(f"{os.path.dirname(it.rlib)}/stamp")]
    # What rt ci takes from an earlier run of its own, over the same sources, is laid in a new folder, but has that run's times.
    return not stamps and all(os.path.isfile(f"{it.rlib}/format") and os.path.getmtime(it.rlib) > newest for it in crates)


def run(words, folder):
    how = {"stdin": subprocess.DEVNULL, "stdout": subprocess.PIPE, "stderr": subprocess.STDOUT}
    return subprocess.run([*rtlib.guarded(), *words], cwd=folder, text=True, errors="replace", **how).stdout


def put(room, path, text):
    """Writes a file of the copy, in which a program is a library: its main has another name."""
    with open(f"{room}/{path}", "w", encoding="utf-8") as it:
        it.write(re.sub(r"^fn main\b", "fn main_of_program", text, flags=re.M) if path == "src/main.rt" else text)


class Trial:
    """An edit as one check tries it: in its function, or in the nth copy of that."""

    def __init__(self, edit, nth):
        self.edit, self.function, self.changes, self.files = edit, edit.function, edit.changes, {}
        if nth:
            self.function = f"{edit.function}_copy{nth}"
            self.changes = self.copied() or []

    def copied(self):
        """The change that adds the copy of the function, edited, behind it; None where a copy can't stand for it."""
        edit, folder = self.edit, self.edit.crate.folder
        path = next(it[0] for it in edit.changes if it[0].startswith("src/"))
        text, answers = text_of(f"{folder}/{path}"), edit.answers()
        if any(it[0] not in (path, answers) for it in edit.changes):
            return None
        places = {function_at(text, at, end)[1] for it, at, end, _ in edit.changes if it == path}
        head, closes = function_at(text, *next(it[1:3] for it in edit.changes if it[0] == path))
        before = text[: head.start()]
        # The function's documentation and attributes stand right above it, in lines that are indented as it is.
        begin = len(before) - len(re.search(rf"(?:^{head[1]}\S.*\n|^{head[1]} +\S.*\n)*\Z", before, re.M)[0])
        block = re.search(r"^((?:unsafe )?impl\b|(?:pub(?:\(crate\))? )?trait\b)[^{]*\{(?![\s\S]*^\})", before, re.M)
        is_member = head[1] and (not block or " for " in block[0] or "trait" in block[1])
        if len(places) != 1 or is_member:
            return None
        name, at = self.function.split("::")[-1], head.start(2)
        own = [(at, at + len(head[2]), name), *(it[1:] for it in edit.changes if it[0] == path)]
        # C has the name of an exported function once: its copy isn't exported.
        copy = re.sub(r"^#\[unsafe\(no_mangle\)\]\n", "", replaced(text, own, begin, closes), flags=re.M)
        was, now = (f"proofs/{it.replace('::', '/')}" for it in (edit.function, self.function))
        for file in sorted(os.listdir(f"{folder}/{was}")) if os.path.isdir(f"{folder}/{was}") else []:
            if os.path.isfile(proof := f"{folder}/{was}/{file}"):
                said, own = text_of(proof), [it[1:] for it in edit.changes if it[0] == f"{was}/{file}"]
                modules = (f"{it.replace('/', '.')}." for it in (was, now))
                self.files[f"{now}/{file}"] = replaced(said, own, 0, len(said)).replace(*modules)
        return [(path, closes, closes, f"\n\n{copy}")]


def replaced(text, changes, begin, end):
    """The text from begin to end with each (start, end, new) of the changes made."""
    for start, close, new in sorted(changes, reverse=True):
        text, end = text[:start] + new + text[close:], end + len(new) - (close - start)
    return text[begin:end]


def leave_holes(room, crate, trials):
    """Puts a hole in place of each proof that the crate has a file for and that no edit changes, and returns their folders."""
    edited = {f"proofs/{it.replace('::', '/')}" for trial in trials for it in (trial.function, trial.edit.function)}
    changed = {os.path.dirname(path) for trial in trials for path, *_ in trial.changes}
    left = []
    for folder, _, files in os.walk(f"{crate.folder}/proofs"):
        path = os.path.relpath(folder, crate.folder)
        # The proofs of closures, of cycles of calls and of impls have names of another form.
        if not PROOFS & {*files} or path in edited | changed or not re.fullmatch(r"[\w/]+", path):
            continue
        name = os.path.basename(path)
        shutil.rmtree(f"{room}/{path}")
        module = f"Rattle.{crate.name}.{path.replace('/', '.')}.Statement"
        os.mkdir(f"{room}/{path}")
        put(room, f"{path}/Proof.antt", f"use {module}.{{statement}}\n\npub {name}_spec : statement\n{name}_spec = ?\n")
        left.append(path)
    return left


def check(room, trials, holes):
    """What a check of a copy of the crate with these edits says; with holes, where these may stand."""
    crate, own = trials[0].edit.crate, {}
    for path, *change in (it for trial in trials for it in trial.changes):
        own.setdefault(path, []).append(change)
    for path, changes in own.items():
        text = text_of(f"{crate.folder}/{path}")
        put(room, path, replaced(text, changes, 0, len(text)))
    more = {path: text for trial in trials for path, text in trial.files.items()}
    for path, text in more.items():
        os.makedirs(os.path.dirname(f"{room}/{path}"), exist_ok=True)
        put(room, path, text)
    left = leave_holes(room, crate, trials) if holes else []
    only = [*["--allow-holes"] * holes, *(it for trial in trials for it in ("--only", trial.function))]
    words = crate.words(["--jobs", "1", "--incremental", f"{room}/kept", *only], keeps=False)
    said = run([rtlib.RATTLE, "check", *words], room)
    for path in left:
        shutil.rmtree(f"{room}/{path}")
        shutil.copytree(f"{crate.folder}/{path}", f"{room}/{path}")
    for path in own:
        put(room, path, text_of(f"{crate.folder}/{path}"))
    for folder in {os.path.dirname(path) for path in more}:
        shutil.rmtree(f"{room}/{folder}")
    if os.environ.get("WRONG_LOG"):
        with open(f"{os.environ['WRONG_LOG']}.{crate.name}", "a", encoding="utf-8") as it:
            it.write(f"{said}\n======= {len(trials)} edits\n")
    return said


def verdict(trial, said):
    """Returns whether the prover refused the edited function's own goals, or None where it never tried them, and what it said."""
    line = next(iter(re.findall(rf"^fn {trial.edit.crate.name}::{re.escape(trial.function)}: (.*)", said, re.M)), "")
    if OPEN.match(line):
        return True, line[line.index("`search`") :]
    folder = re.escape(f"proofs/{trial.function.replace('::', '/')}/")
    # A message goes on in the lines that are indented behind it.
    errors = re.findall(rf"^(?:\./)?{folder}\w+\.antt:\d+:\d+: error: (`[^`]*`: .*(?:\n  .*)*)", said, re.M)
    if line.startswith("not proved") and any(not UNREAD.search(it) for it in errors):
        return True, next(it for it in errors if not UNREAD.search(it))
    if line.startswith(("proved", "no holes", "depends on a hole")):
        return False, f"NOT REFUSED: {trial.function} is still proved"
    if not line:
        compiles = re.search(r"^only=", said, re.M)
        first = next(iter(re.findall(r"^.*error.*", said, re.M)), "")
        return None, "BAD EDIT: " + ("no such function" if compiles else f"it does not compile: {first}")
    return None, f"BAD EDIT: no goal of its own was tried: {(errors or [line])[0]}"


def tried_together(edits):
    """Trials of these edits in one check: of several of one function each further one in a copy, where that can stand for it."""
    trials, met = [], {}
    for edit in edits:
        nth = met[edit.function] = met.get(edit.function, -1) + 1
        trial = Trial(edit, nth)
        if trial.changes and not edit.alone:
            trials.append(trial)
    return trials or [Trial(edits[0], 0)]


def judge(crate, edits):
    """Judges the edits of a crate, all at once as far as that goes, and returns those that are refused."""
    refused, left, size, holes, failing = [], [*edits], len(edits), True, {}
    with tempfile.TemporaryDirectory(prefix="wrong-") as room:
        for part in rtlib.PARTS:
            if os.path.isdir(f"{crate.folder}/{part}"):
                shutil.copytree(f"{crate.folder}/{part}", f"{room}/{part}")
        # What an earlier check or build of the crate kept spares the functions that no edit changes.
        if os.path.isdir(kept := f"{crate.folder}/out/incremental"):
            shutil.copytree(kept, f"{room}/kept")
        if crate.is_program:
            put(room, "src/main.rt", text_of(f"{crate.folder}/src/main.rt"))
        while left:
            now = tried_together(left[:size])
            said, before = check(room, now, holes), len(left)
            if len(now) > 1 and not re.search(r"^only=", said, re.M):
                size = len(now) // 2  # one of them doesn't compile
                continue
            for it in now:
                holds, why = verdict(it, said)
                if holds is None and (holes or len(now) > 1):
                    continue  # it may call an edited function, or one with a hole: it is tried again without that
                left.remove(it.edit)
                refused += [it.edit] * (holds is True)
                failing[it.edit] = goals_in(why)
                print(f"wrong body {crate.name}/{it.edit.file}: {'refused: ' if holds else ''}{why[:180]}", flush=True)
            some = len(left) < before
            size, holes = len(edits) if some or holes else 1, some and holes
        for edit in [it for it in refused if it.left_out]:
            usual = failing_unedited(room, edit)
            if usual is not None and not failing[edit] <= usual:
                continue
            refused.remove(edit)
            print(f"wrong body {crate.name}/{edit.file}: BAD EDIT: without what is left out its function as it is isn't proved either", flush=True)
    return refused


def failing_unedited(room, edit):
    """The goals that fail of the edit's function as it is, without the answers that the edit leaves out; None where none were tried."""
    trial = Trial(edit, 0)
    trial.changes = edit.left_out
    told = (verdict(trial, check(room, [trial], holes)) for holes in (True, False))
    holds, why = next((it for it in told if it[0] is not None), (None, ""))
    return None if holds is None else goals_in(why) if holds else set()


def goals_in(why):
    """The goals that a refusal names."""
    return {*re.findall(r"`([^`]+)`", why.split(";")[0])} - {"search"}


def listed(crate):
    """The sums of the edits of a crate that were refused before, by their files."""
    file = f"{crate.folder}/wrong/{LISTED}"
    return dict(line.split()[::-1] for line in text_of(file).splitlines()) if os.path.isfile(file) else {}


def keep(crate, refused):
    """Writes the list of a crate's edits that are refused over these sources."""
    with open(f"{crate.folder}/wrong/{LISTED}", "w", encoding="utf-8") as it:
        it.writelines(f"{edit.sum()} {edit.file}\n" for edit in sorted(refused, key=lambda edit: edit.file))


def judged(crate, old, new, is_kept):
    """Judges those edits of a crate that weren't refused before, and returns how many are refused with those that were."""
    refused = [*old, *(judge(crate, new) if new else [])]
    if is_kept:
        keep(crate, refused)
    return len(refused)


def drawn(crates):
    """The crate of which some edits are tried anew, though they were refused before, and the number of a file: those with the least
    are tried. The commit draws both."""
    commit = run(["git", "rev-parse", "HEAD"], ROOT)
    number = lambda it: int(hashlib.sha256(f"{commit}{it}".encode()).hexdigest(), 16)
    return crates[number("") % len(crates)], number


def main():
    words = argparse.ArgumentParser(description=__doc__, formatter_class=argparse.RawDescriptionHelpFormatter)
    words.add_argument("--anew", action="store_true", help="tries those too that were refused before")
    words.add_argument("--keep", action="store_true", help="writes the lists of those that are refused")
    words.add_argument("crates", nargs="*", metavar="CRATE")
    given = words.parse_args()
    rtlib.guarded()  # its first call sets a signal's handler, which only the main thread may
    known, work, total, kept = {}, [], 0, 0
    with_edits = [it for it in sorted(os.listdir(f"{ROOT}/crates")) if os.path.isdir(f"{ROOT}/crates/{it}/wrong")]
    again, number = drawn(with_edits)
    for name in given.crates or with_edits:
        folder = f"{ROOT}/crates/{name}"
        files = sorted(it for it in os.listdir(f"{folder}/wrong") if it != LISTED) if name in with_edits else []
        total += len(files)
        if not files:
            continue
        crate = rtlib.Crate(folder, ROOT, known)
        edits = [Edit(crate, it) for it in files]
        for it in edits:
            if it.why:
                print(f"wrong body {name}/{it.file}: BAD EDIT: {it.why}", flush=True)
        before = {} if given.anew else listed(crate)
        for it in sorted(files, key=number)[: ANEW if name == again else 0]:
            before.pop(it, None)
        old = [it for it in edits if not it.why and before.get(it.file) == it.sum()]
        new = [it for it in edits if not it.why and it not in old]
        kept += len(old)
        work.append((crate, old, new))
        if new and not stand(crate.below()):
            print(f"wrong bodies of {name}: building the libraries below it", flush=True)
            run(["rt", "check", "--only", ""], folder)
    print(f"{kept} were refused before, over the same sources; {total - kept} are tried, some of {again} among them", flush=True)
    lanes = int(os.environ.get("RT_JOBS") or len(os.sched_getaffinity(0)))
    with ThreadPoolExecutor(lanes) as pool:
        work.sort(key=lambda it: -len(it[2]))
        passed = sum(pool.map(lambda it: judged(*it, given.keep), work))
    print(f"{passed} passed, {total - passed} failed")
    return 0 if total and passed == total else 1


if __name__ == "__main__":
    sys.exit(main())
