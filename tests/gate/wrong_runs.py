#!/usr/bin/env python3
"""Runs a test over each wrong body crates/NAME/wrong_runs/*.edit: that test must fail.

Such a body keeps its contract, so no proof refuses it: it calls the verifier once too often, say. An edit is a file as in
wrong/ with, in place of its line 'fn:', 'test: CRATE MODULE::NAME', the test that has to fail. One program has it all, made
of a copy of the sources: the test crate with a copy of the test's module for each edit, over a copy of the edited crate
under a name of its own. It is built by rt try, which proves nothing. An edit is refused where its own copy of the test is
named as failed, and the test itself as passed; so not where it doesn't compile. Words: names of crates; none: all of them.
The last line counts the edits.
"""

import os
import re
import shutil
import subprocess
import sys
import tempfile

ROOT = os.path.dirname(os.path.dirname(os.path.dirname(os.path.realpath(__file__))))


def text_of(path):
    with open(path, encoding="utf-8") as it:
        return it.read()


def write(path, text):
    with open(path, "w", encoding="utf-8") as it:
        it.write(text)


class Edit:
    def __init__(self, crate, file, number):
        self.crate, self.file, self.alias = crate, file, f"{crate}_wrong_{number}"
        self.tests, self.module, self.test, self.texts, self.why = "", "", "", {}, ""
        path, old = "", ""
        for line in text_of(f"{ROOT}/crates/{crate}/wrong_runs/{file}").split("\n"):
            word, _, rest = line.partition(": ")
            if word == "test" and re.fullmatch(r"\w+ \w+::\w+", rest):
                self.tests, self.module, self.test = re.split(" |::", rest)
            elif word == "file":
                path = rest.strip()
            elif word == "old":
                old = rest
            elif line.startswith("new:"):
                self.change(path, old, re.sub(r"\A ", "", line[4:]))
        if not self.test or not self.texts:
            self.why = self.why or "it has no line 'test: CRATE MODULE::NAME', or no 'old:' and 'new:' pair"

    def change(self, path, old, new):
        file = f"{ROOT}/crates/{self.crate}/{path}"
        text = self.texts.get(path) or (text_of(file) if path.startswith("src/") and os.path.isfile(file) else "")
        if not old or text.count(old) != 1:
            self.why = f"an 'old:' text is in {path} {text.count(old) if old else 0} times, and not once"
        self.texts[path] = text.replace(old, new)

    def renamed(self, text):
        """The text of a source, about this edit's copy of the crate."""
        return re.sub(rf"\b{self.crate}\b", self.alias, text)

    def own_module(self):
        return f"{self.module}_of_{self.alias}"

    def stand(self, room):
        """Adds the edited crate, and a module of tests over it, to the copy of the repository."""
        folder = f"{room}/crates/{self.alias}"
        shutil.copytree(f"{room}/crates/{self.crate}", folder)
        for path, text in self.texts.items():
            write(f"{folder}/{path}", text)
        for at, _, files in os.walk(folder):
            for it in files:
                write(f"{at}/{it}", self.renamed(text_of(f"{at}/{it}")))
        source = f"{room}/crates/{self.tests}/src"
        write(f"{source}/{self.own_module()}.rt", self.renamed(text_of(f"{source}/{self.module}.rt")))
        write(f"{source}/lib.rt", f"{text_of(f'{source}/lib.rt')}\n#[cfg(test)]\nmod {self.own_module()};\n")
        lines = text_of(f"{room}/crates.txt")
        own = re.search(rf"^{self.crate}:.*\n", lines, re.M)[0]
        lines = re.sub(rf"^({self.tests}:.*)", rf"\1 {self.alias}", lines, flags=re.M)
        write(f"{room}/crates.txt", lines + own.replace(self.crate, self.alias, 1))


def copied(room):
    """Copies what a crate is made of."""
    shutil.copyfile(f"{ROOT}/crates.txt", f"{room}/crates.txt")
    for name in os.listdir(f"{ROOT}/crates"):
        for part in ("src", "specs"):
            if os.path.isdir(f"{ROOT}/crates/{name}/{part}"):
                shutil.copytree(f"{ROOT}/crates/{name}/{part}", f"{room}/crates/{name}/{part}")


def judge(edits):
    """Runs a test and its copies over these edits, and returns how many are refused."""
    tests, module, test = edits[0].tests, edits[0].module, edits[0].test
    with tempfile.TemporaryDirectory(prefix="wrong-") as room:
        copied(room)
        for it in edits:
            it.stand(room)
        how = {"stdin": subprocess.DEVNULL, "stdout": subprocess.PIPE, "stderr": subprocess.STDOUT}
        words = ["rt", "try", "--test", "--", test]
        said = subprocess.run(words, cwd=f"{room}/crates/{tests}", text=True, errors="replace", check=False, **how).stdout
    ran = {name: (how, why) for name, how, why in re.findall(rf"^test (\w+)::{test} \.\.\. (\w+)\n((?:    .*\n)*)", said, re.M)}
    if module not in ran and len(edits) > 1:
        # one of them doesn't compile
        half = len(edits) // 2
        return judge(edits[:half]) + judge(edits[half:])
    refused = 0
    for it in edits:
        how, why = ran.get(it.own_module(), ("", ""))
        if module not in ran:
            it.why = f"BAD EDIT: {next(iter(re.findall(r'^.*error.*', said, re.M)), said[-180:])}"
        elif ran[module][0] != "ok":
            it.why = f"{module}::{test} fails without the edit"
        elif how == "FAILED":
            refused += 1
            it.why = f"refused: {' '.join(why.split())}"
        else:
            it.why = f"NOT REFUSED: {module}::{test} passes"
        print(f"wrong run {it.crate}/{it.file}: {it.why[:180]}", flush=True)
    return refused


def main(names):
    edits, groups = [], {}
    for name in names or sorted(os.listdir(f"{ROOT}/crates")):
        folder = f"{ROOT}/crates/{name}/wrong_runs"
        for it in sorted(os.listdir(folder)) if os.path.isdir(folder) else []:
            edits.append(Edit(name, it, len(edits)))
    for it in edits:
        if it.why:
            print(f"wrong run {it.crate}/{it.file}: BAD EDIT: {it.why}", flush=True)
        else:
            groups.setdefault((it.tests, it.module, it.test), []).append(it)
    refused = sum(map(judge, groups.values()))
    print(f"{refused} passed, {len(edits) - refused} failed")
    return 0 if edits and refused == len(edits) else 1


sys.exit(main(sys.argv[1:]))
