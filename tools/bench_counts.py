#!/usr/bin/env python3
"""Counts the instructions that a run of each block executes, as valgrind counts them: the same number each time,
whatever else the machine does, where the times of tools/bench.sh change with where a loop lies and with the host.

    tools/bench_counts.py PROGRAM [OTHER]     of another build too, with the ratio of the two

FRAMES frames are counted (100000), and not the start of the program. With ONLY it counts the rows alone whose name has
this text. A script is no program here: its shell would be counted. It needs valgrind, and is no part of the gate.
"""
import math
import os
import re
import shutil
import subprocess
import sys
import tempfile

from bench_rows import BLOCKS

FRAMES = os.environ.get("FRAMES", "100000")
ONLY = os.environ.get("ONLY", "")


def refusal(programs):
    """Why nothing is counted, or None."""
    if not shutil.which("valgrind"):
        return "valgrind is not there"
    if not FRAMES.isdecimal() or int(FRAMES) == 0:
        return f"FRAMES is {FRAMES}, and not a number from 1 on"
    if not any(ONLY in name for name, *_ in BLOCKS):
        return f"no row has {ONLY} in its name"
    for program in programs:
        try:
            with open(program, "rb") as file:
                is_program = file.read(4) == b"\x7fELF"
        except OSError as error:
            return f"{program}: {error.strerror}"
        if not is_program:
            return f"{program} is no program that was built"
    return None


def spent(program, folder, words):
    """The instructions of a run."""
    counting = ["valgrind", "--tool=callgrind", f"--callgrind-out-file={folder}/counts", program]
    ran = subprocess.run(counting + words, cwd=folder, stdout=subprocess.PIPE, stderr=subprocess.PIPE, text=True)
    told = re.search(r"refs: +([\d,]+)", ran.stderr)
    if ran.returncode != 0 or not told:
        raise SystemExit(ran.stdout + ran.stderr)
    return int(told.group(1).replace(",", ""))


def per_frame(program, folder, form, channels, blocks):
    """The instructions of a frame, from those of a run that is so much longer than one of 1,024 frames."""
    more = int(FRAMES)
    with open(f"{folder}/script", "w") as file:
        file.write(f"dspfx 1 input raw {form} {channels} 48000 {blocks} output raw\n")
    with open(f"{folder}/plain", "w") as file:
        file.write(f"dspfx 1 input raw {form} {channels} 48000 output raw\n")
    totals = []
    for count in (1024, 1024 + more):
        ran = subprocess.run([program, "gen", "1", str(count), "plain", "in"], cwd=folder, stdout=subprocess.PIPE)
        if ran.returncode != 0:
            raise SystemExit(ran.stdout.decode())
        totals.append(spent(program, folder, ["run", "script", "in", "/dev/null"]))
    return (totals[1] - totals[0]) / more


def main(programs):
    if not 1 <= len(programs) <= 2:
        print(__doc__.strip(), file=sys.stderr)
        return 2
    why = refusal(programs)
    if why:
        print(f"bench_counts: {why}", file=sys.stderr)
        return 70
    programs = [os.path.abspath(program) for program in programs]
    print("| block | format | instructions a frame | other | ratio |")
    print("|---|---|---|---|---|")
    ratios = []
    with tempfile.TemporaryDirectory() as folder:
        for name, forms, channels, text, *_ in BLOCKS:
            for form in forms if ONLY in name else ():
                counts = [per_frame(program, folder, form, channels, text(form)) for program in programs]
                ratios += [counts[1] / counts[0]] if len(counts) > 1 else []
                other = f"{counts[1]:.2f} | {ratios[-1]:.2f}" if len(counts) > 1 else "|"
                print(f"| {name} | {form} | {counts[0]:.2f} | {other} |", flush=True)
    if ratios:
        print(f"| geometric mean | | | | {math.exp(sum(map(math.log, ratios)) / len(ratios)):.2f} |")
    return 0


if __name__ == "__main__":
    sys.exit(main(sys.argv[1:]))
