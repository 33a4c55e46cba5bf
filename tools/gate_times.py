#!/usr/bin/env python3
"""Runs the gate, or another command, and prints what its proofs cost by crate: minutes of processor time, as a table.

    tools/gate_times.py [COMMAND..]        .ci/run, where no command is given

It looks at the provers that the command starts once a second, so a number is too small by up to a second a prover.
What an earlier run kept is not proved again and costs nothing here: `rt ci --anew` proves all. The status is that of
the command.
"""
import collections
import os
import subprocess
import sys
import time

TOP = os.path.dirname(os.path.dirname(os.path.realpath(__file__)))
TICKS = os.sysconf("SC_CLK_TCK")
KINDS = ("proof", "with tests", "checks before edits", "edits")


def parents():
    """The parent and the processor time of each process, in seconds, with that of its children that have ended."""
    found = {}
    for name in filter(str.isdigit, os.listdir("/proc")):
        try:
            with open(f"/proc/{name}/stat", encoding="utf-8", errors="replace") as file:
                fields = file.read().rsplit(")", 1)[1].split()
        except OSError:
            continue
        found[int(name)] = int(fields[1]), sum(map(int, fields[11:15])) / TICKS
    return found


def words_of(process):
    """The words of a prover, or none of another process."""
    try:
        with open(f"/proc/{process}/cmdline", encoding="utf-8", errors="replace") as file:
            words = file.read().split("\0")
    except OSError:
        return []
    return words if os.path.basename(words[0]) == "rattle" and "--crate-name" in words else []


def kind_of(words):
    """What a prover is for: edits keep their work in a folder of their own, which a check of the crate fills first."""
    kept = words[words.index("--incremental") + 1] if "--incremental" in words else ""
    if "/rt-edits-" in kept:
        return "checks before edits" if kept.endswith("/seed") else "edits"
    return "with tests" if "--test" in words else "proof"


def below(process, root, found):
    """Whether a process was started by `root`, directly or not, and its parent is no prover."""
    parent = found[process][0]
    if words_of(parent):
        return False
    while parent in found and parent != root:
        parent = found[parent][0]
    return parent == root


def watch(command):
    """Runs the command; its status, and the seconds of each prover by crate and kind."""
    run, provers = subprocess.Popen(command, cwd=TOP), {}
    while run.poll() is None:
        found = parents()
        for process, (_, seconds) in found.items():
            words = words_of(process)
            if not words or not below(process, run.pid, found):
                continue
            provers[process, words[words.index("--crate-name") + 1], kind_of(words)] = seconds
        time.sleep(1)
    return run.returncode, provers


def crates():
    """The crates in the order of crates.txt."""
    with open(f"{TOP}/crates.txt", encoding="utf-8") as file:
        return [line.split()[0].rstrip(":") for line in file if line.strip() and not line.startswith("#")]


def main():
    status, provers = watch(sys.argv[1:] or [f"{TOP}/.ci/run"])
    minutes = collections.Counter()
    for (_, crate, kind), seconds in provers.items():
        minutes[crate, kind] += seconds / 60
        minutes["all", kind] += seconds / 60
    print("| crate | " + " | ".join(KINDS) + " |")
    print("|---" * (len(KINDS) + 1) + "|")
    for crate in [*crates(), "all"]:
        cells = [f"{minutes[crate, kind]:.1f}" if (crate, kind) in minutes else "" for kind in KINDS]
        print(f"| {crate} | " + " | ".join(cells) + " |")
    return status


if __name__ == "__main__":
    sys.exit(main())
