"""The figures that bench/run, bench/library, bench/documents, bench/release, bench/hostile and bench/compared write down, and how they measure.

bench/figures.json is one object with sorted keys, a figure a line. A key is 'PART/WHAT/PROGRAM'; a figure may have "command", "ms"
(processor time, user and system, the least of all runs), "mb" (the most memory that a run held, in MB of 2^20 octets) and "runs".
'PART/about' says when, on which machine, with which versions and under which load a part was measured. Who measures a part anew
replaces the figures of that part, and no other.
"""

import datetime
import json
import os
import shutil
import subprocess
import tempfile

HERE = os.path.dirname(os.path.dirname(os.path.realpath(__file__)))
FILE = f"{HERE}/bench/figures.json"
OPGP = f"{HERE}/crates/opgp_tool/out/opgp_tool"
KEYRING = "/usr/share/keyrings/debian-keyring.gpg"
VERSIONS = {"gpg": "gpg --version", "sq": "sq --version", "rnp": "rnp --version", "pgpdump": "pgpdump -v", "valgrind": "valgrind --version",
            "openssl": "openssl version", "cc": "cc --version", "sqv": "sqv --version"}


def read():
    """All figures."""
    if not os.path.exists(FILE):
        return {}
    with open(FILE, encoding="utf-8") as it:
        return json.load(it)


def text_of(figures):
    lines = [f"{json.dumps(it)}: {json.dumps(figures[it], sort_keys=True, ensure_ascii=False)}" for it in sorted(figures)]
    return "{\n" + ",\n".join(lines) + "\n}\n"


def lesser(old, new):
    """Of two figures of one command the lesser time, and the most memory; of others the new one."""
    if "command" not in old or old["command"] != new.get("command") or not isinstance(new.get("ms"), float):
        return new
    both = {"ms": min(old["ms"], new["ms"]), "runs": old["runs"] + new["runs"]}
    return new | both | ({"mb": max(old["mb"], new["mb"])} if "mb" in new else {})


def write(part, found, is_whole=True, is_least=False):
    """Replaces a part's figures; with `is_whole` false keeps those that weren't measured, and with `is_least` the lesser times."""
    known = read()
    if is_least:
        found = {key: lesser(known.get(f"{part}/{key}", {}), it) for key, it in found.items()}
    kept = {key: it for key, it in known.items() if not is_whole or not key.startswith(f"{part}/")}
    kept |= {f"{part}/{key}": it for key, it in found.items()}
    with open(FILE, "w", encoding="utf-8") as out:
        out.write(text_of(kept))


def version(words):
    """The version that a program says it has, None where it is missing."""
    if not shutil.which(words.split()[0]):
        return None
    done = subprocess.run(words.split(), capture_output=True, text=True, check=False)
    return next((it for it in (done.stdout + done.stderr).split("\n")[0].replace(",", "").replace("valgrind-", "").replace(")", " ").split()
                 if it[0].isdigit()), "?")


def value_in(path, name, between):
    with open(path, encoding="utf-8") as it:
        return next((line.split(between, 1)[1].strip().strip('"') for line in it if line.startswith(name)), "?")


def about(*programs, **more):
    """When, where and beside what a part is measured."""
    found = {
        "date": datetime.date.today().isoformat(),
        "machine": value_in("/proc/cpuinfo", "model name", ":"),
        "processors": os.cpu_count(),
        "system": value_in("/etc/os-release", "PRETTY_NAME", "="),
        "load": round(os.getloadavg()[0], 1),
        "versions": {it: known for it in programs if (known := version(VERSIONS[it]))},
    }
    return found | more


class Meter:
    """Runs commands. It compiles bench/spent.c, and keeps what it makes in a folder `work` until it is closed."""

    def __enter__(self):
        self.folder = tempfile.TemporaryDirectory()
        self.work = self.folder.name
        os.environ["GNUPGHOME"] = f"{self.work}/gnupg"
        os.mkdir(f"{self.work}/gnupg", 0o700)
        self.compiled("spent")
        with open(f"{self.work}/empty", "wb"):
            pass
        return self

    def __exit__(self, *_):
        self.folder.cleanup()

    def compiled(self, name):
        """The program that bench/NAME.c is."""
        subprocess.run(["cc", "-std=c11", "-O2", f"{HERE}/bench/{name}.c", "-o", f"{self.work}/{name}"], check=True)
        return f"{self.work}/{name}"

    def spent(self, words, path, runs=5, seconds=3600):
        """Some runs of a command over a file: the figure without its command, and what the last run said on standard error. A run
        that ends with a status other than 0 is the last one, and so is one that is ended after so many seconds."""
        spent, held, passed = [], 0, 0
        for _ in range(runs):
            done = subprocess.run([f"{self.work}/spent", "1", str(seconds), path, *words], capture_output=True, text=True, errors="replace",
                                  check=True)
            took, memory, whole, status = map(int, done.stdout.split())
            spent.append(took)
            held = max(held, memory)
            passed += whole
            if status:
                break
        figure = {"ms": round(min(spent) / 1000, 1), "mb": round(held / 1024, 1), "runs": len(spent)}
        if status:
            figure["status"] = status
        return figure, done.stderr, passed / 1000 / len(spent)
