#!/usr/bin/env python3
"""Runs each recipe of docs/RECIPES.md: its block of commands must print the block behind it, and nothing else.

A recipe whose line 'needs' names a command that this machine lacks is left out. The last line counts the recipes.
"""

import os
import re
import shutil
import subprocess
import sys
import tempfile

HERE = os.path.dirname(os.path.dirname(os.path.dirname(os.path.realpath(__file__))))
RECIPE = re.compile(r"^## (.*?)\n(.*?)^```sh\n(.*?)^```\n\n```\n(.*?)^```\n", re.M | re.S)


def holds(commands, wanted):
    with tempfile.TemporaryDirectory() as room:
        for file in os.listdir(f"{HERE}/examples"):
            shutil.copy(f"{HERE}/examples/{file}", room)
        path = f"{HERE}:{os.environ['PATH']}"
        how = {"cwd": room, "env": {**os.environ, "PATH": path}, "capture_output": True, "text": True}
        done = subprocess.run(["bash", "-euo", "pipefail", "-c", commands], **how)
    if (done.returncode, done.stdout, done.stderr) == (0, wanted, ""):
        return True
    print(done.stdout + done.stderr, file=sys.stderr)
    return False


def main():
    with open(f"{HERE}/docs/RECIPES.md", encoding="utf-8") as it:
        text = it.read()
    found = RECIPE.findall(text)
    passed, failed = 0, int(len(found) != text.count("\n## "))
    for name, front, commands, wanted in found:
        missing = [it for it in " ".join(re.findall(r"<!-- needs: (.*?) -->", front)).split() if not shutil.which(it)]
        if missing:
            print(f"tests/gate/recipes.py: {name}: left out, no {missing[0]} here", file=sys.stderr)
        elif holds(commands, wanted):
            passed += 1
        else:
            failed += 1
            print(f"tests/gate/recipes.py: {name}: FAILED", file=sys.stderr)
    print(f"{passed} passed, {failed} failed")
    return int(failed > 0)


sys.exit(main())
