#!/usr/bin/env python3
"""Runs the steps of the gate, and says what each took.

First `rt ci` proves every crate, by as many jobs as there are processors (RT_JOBS says another number). Where a proof fails, nothing
else is tried. Then the library for C is built once, and the tests run side by side, one for each processor: they share no file that one
of them writes. What a test prints is shown whole when it has ended. Each test ends with a line 'N passed, M failed'.

The last lines are a table: processor seconds and seconds by the clock of each crate's proof and of each step; and the sum of all that
passed and failed. The time of a crate is what its processes had used when they were last seen, so it may lack half a second.
"""

import collections
import concurrent.futures
import os
import re
import subprocess
import sys
import tempfile
import threading
import time

ROOT = os.path.dirname(os.path.dirname(os.path.dirname(os.path.realpath(__file__))))
LANES = int(os.environ.get("RT_JOBS") or len(os.sched_getaffinity(0)))
TICKS = os.sysconf("SC_CLK_TCK")
# Seconds between two looks at the processes of the proofs.
EACH = 0.25
COUNTS = re.compile(r"(\d+) passed, (\d+) failed")
PROOFS = "rt ci"
# What all others link, so that it is built once: the library of the proved calls for C.
BUILDS = "make --no-print-directory crates/opgp_c/out/libopgp_c.a"
# Those that take longest first, so that none runs alone at the end.
TESTS = """
    tests/gate/wrong_bodies.py
    tests/bindings/capi.py
    tests/program/work.py
    tests/gate/launcher.py
    tests/program/devices.py
    tests/bindings/everyday.py
    tests/bindings/names.py
    tests/bindings/python.py
    tests/bindings/verify.py
    tests/bindings/page.py
    tests/gate/wrong_runs.py
    tests/bindings/validity.py
    tests/bindings/library.py
    tests/program/fuzz.py --inputs 2000
    tests/bindings/cleartext.py
    tests/bindings/clients.py
    tests/gate/dist.py
    tests/gate/manual.py
    tests/program/tables.py
    tests/crates/calls.py
    tests/crates/refused_growth.sh
    tests/program/run.sh
    tests/program/documents.py
    tests/program/states.py
    tests/program/bound.py
    tests/bindings/tasks.py
    tests/program/differences.py
    tests/program/words.py
    tests/program/hints.py
    tests/program/certificates.py
    tests/program/explained.py
"""

Took = collections.namedtuple("Took", "name processor clock")


class Proofs(threading.Thread):
    """What the prover's processes use, by crate, while rt ci runs. A process's time has that of the copies that it made and that ended."""

    def __init__(self):
        super().__init__(daemon=True)
        self.used, self.begun, self.seen, self.ended = {}, {}, {}, threading.Event()

    def run(self):
        while not self.ended.wait(EACH):
            self.look()

    def look(self):
        now = time.monotonic()
        for pid in filter(str.isdigit, os.listdir("/proc")):
            try:
                with open(f"/proc/{pid}/cmdline", "rb") as it:
                    words = it.read().decode(errors="replace").split("\0")
                if os.path.basename(words[0]) != "rattle" or "--crate-name" not in words:
                    continue
                with open(f"/proc/{pid}/stat", "rb") as it:
                    fields = it.read().rpartition(b")")[2].split()
                parent = int(fields[1])
                with open(f"/proc/{parent}/cmdline", "rb") as it:
                    if os.path.basename(it.read().split(b"\0")[0]) == b"rattle":
                        continue
                if not self.is_below(parent):
                    continue  # another's
            except OSError:
                continue  # it has ended
            name = words[words.index("--crate-name") + 1] + (", its tests" if "--test" in words else "")
            self.used[name, pid, fields[19]] = sum(map(int, fields[11:15])) / TICKS
            self.begun.setdefault(name, now)
            self.seen[name] = now

    @staticmethod
    def is_below(pid):
        """Whether a process is this one or one that it began."""
        while pid > 1 and pid != os.getpid():
            with open(f"/proc/{pid}/stat", "rb") as it:
                pid = int(it.read().rpartition(b")")[2].split()[1])
        return pid == os.getpid()

    def rows(self):
        spent = collections.Counter()
        for (name, *_), seconds in self.used.items():
            spent[name] += seconds
        return [Took(f"  {it}", spent[it], self.seen[it] - self.begun[it]) for it in sorted(spent, key=lambda it: -spent[it])]


class Gate:
    def __init__(self):
        self.passed = self.failed = 0
        self.summary, self.took, self.printing = [], [], threading.Lock()

    def step(self, command, is_shown=False, counts=True):
        """Runs a command, whose output is shown as it comes or, whole, at its end; how many of its tests failed."""
        begun = time.monotonic()
        with tempfile.TemporaryFile("w+", encoding="utf-8", errors="replace") as said:
            how = {"stdin": subprocess.DEVNULL, "stderr": subprocess.STDOUT, "cwd": ROOT}
            if is_shown:
                print(f"== {command}", flush=True)
                child = subprocess.Popen(command.split(), stdout=subprocess.PIPE, text=True, errors="replace", **how)
                for line in child.stdout:
                    said.write(line)
                    print(line, end="", flush=True)
            else:
                child = subprocess.Popen(command.split(), stdout=said, **how)
            _, status, used = os.wait4(child.pid, 0)
            child.returncode = os.waitstatus_to_exitcode(status)
            said.seek(0)
            text = said.read()
        passed, failed = self.counted(text, child.returncode) if counts else (int(not child.returncode), int(bool(child.returncode)))
        clock = time.monotonic() - begun
        with self.printing:
            if not is_shown:
                print(f"== {command}\n{text}", end="" if text.endswith("\n") or not text else "\n", flush=True)
            self.passed, self.failed = self.passed + passed, self.failed + failed
            self.summary.append(f"{command}: {passed} passed, {failed} failed")
            self.took.append(Took(command, used.ru_utime + used.ru_stime, clock))
        return failed

    @staticmethod
    def counted(text, status):
        """What the last line counts. A step without it has failed, and so has one that ends otherwise than that line says."""
        counts = COUNTS.fullmatch(text.rstrip("\n").rpartition("\n")[2])
        if not counts or status and counts[2] == "0":
            return 0, 1
        return int(counts[1]), int(counts[2])

    def table(self, proofs, begun, load):
        rows = [self.took[0], *proofs.rows(), *sorted(self.took[1:], key=lambda it: -it.processor)]
        rows.append(Took("all", sum(it.processor for it in self.took), time.monotonic() - begun))
        print(f"== seconds of processors, and by the clock ({len(os.sched_getaffinity(0))} processors, {LANES} jobs, load {load:.1f} before)")
        for it in rows:
            print(f"{it.name:<58}{it.processor:>8.0f}{it.clock:>8.0f}")

    def run(self):
        begun, load, proofs = time.monotonic(), os.getloadavg()[0], Proofs()
        proofs.start()
        failed = self.step(PROOFS, is_shown=True)
        proofs.ended.set()
        proofs.join()
        if not failed and not self.step(BUILDS, counts=False):
            with concurrent.futures.ThreadPoolExecutor(LANES) as pool:
                list(pool.map(self.step, filter(None, map(str.strip, TESTS.splitlines()))))
        self.table(proofs, begun, load)
        print("== the gate", *self.summary, sep="\n")
        print(f"{self.passed} passed, {self.failed} failed")
        return 1 if self.failed else 0


if __name__ == "__main__":
    os.environ["RT_JOBS"] = str(LANES)
    sys.exit(Gate().run())
