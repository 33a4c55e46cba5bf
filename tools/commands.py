#!/usr/bin/env python3
"""Runs the commands of documents, and tells whether they do what the text says.

    tools/commands.py FILE..

Each fence that is marked `sh` is run by bash in one temporary folder for each document, which holds links to what is
at the top of the repository; it must end with status 0. `sh needs NAME ..` is left out where a program NAME or a
python module py:NAME is not there, and that is said. A fence marked `shows` has lines that the commands before it
must have written. Fences that prove or test everything are left out too. What the commands of a document
leave must be in out/, or be a file that .gitignore names. DSPFX_PROGRAM names another program for ./dspfx.
"""
import fnmatch
import importlib.util
import os
import re
import shutil
import subprocess
import sys
import tempfile

TOP = os.path.dirname(os.path.dirname(os.path.abspath(__file__)))
SLOW = re.compile(r"^(\.ci/run|\./dspfx (prove|test))\b", re.M)  # what takes minutes, and is not run here
FENCE = re.compile(r"^```(sh|shows)\b([^\n]*)\n(.*?)^```$", re.M | re.S)


def is_there(name):
    """Whether a program, or a module of the python that the tools run with, is there."""
    module = name.removeprefix("py:")
    return bool(importlib.util.find_spec(module) if module != name else shutil.which(name))


def linked(folder):
    """Links to all that is at the top, by which ./dspfx finds its own folder."""
    for name in os.listdir(TOP):
        if not name.startswith(".git") and name != "out":
            os.symlink(f"{TOP}/{name}", f"{folder}/{name}")


def left_in(folder):
    """What the commands left beside out/ and what .gitignore names."""
    with open(f"{TOP}/.gitignore") as file:
        ignored = [line.strip().strip("/") for line in file if line.strip()]
    names = [name for name in os.listdir(folder) if not os.path.islink(f"{folder}/{name}")]
    return [name for name in names if not any(fnmatch.fnmatch(name, pattern) for pattern in ignored)]


def run(path):
    """The counts of fences of a document that did what they say, and did not."""
    counts, said = [0, 0], None
    with open(path) as file, tempfile.TemporaryDirectory() as folder:
        linked(folder)
        for kind, words, text in FENCE.findall(file.read()):
            if kind == "sh":
                lacking = [name for name in words.split()[1:] if not is_there(name)]
                if SLOW.search(text):
                    lacking = ["time for it"]
                if lacking:
                    print(f"skipped: {path}: no {lacking[0].removeprefix('py:')}: {text.splitlines()[0]}")
                    said = None
                    continue
                ran = subprocess.run(["bash", "-eu", "-o", "pipefail", "-c", text], cwd=folder, stdin=subprocess.DEVNULL,
                                     stdout=subprocess.PIPE, stderr=subprocess.STDOUT)  # fmt: skip
                said = ran.stdout.decode(errors="replace")
                is_well = ran.returncode == 0
            elif said is None:
                continue
            else:
                is_well = all(line in said.splitlines() for line in text.splitlines())
            counts[not is_well] += 1
            if not is_well:
                print(f"FAILED {path}: {text}{said}")
        left = left_in(folder)
        counts[bool(left)] += 1
        if left:
            print(f"FAILED {path}: its commands leave {', '.join(sorted(left))} in the checkout")
    return counts


def main(paths):
    counts = [run(path) for path in paths]
    passed, failed = (sum(column) for column in zip(*counts))
    print(f"{passed} passed, {failed} failed")
    return failed > 0


if __name__ == "__main__":
    sys.exit(main(sys.argv[1:]))
