#!/usr/bin/env bash
# Measures whole runs of the built program: every block with typical parameters, its output on the null
# device and on a file, and file to file time against frames and against taps, the start, and the
# parsing of a long script. Prints the tables of docs/PERFORMANCE.md. It is no part of the gate, and
# needs python.
#
#   DSPFX    another program to be measured
#   NEWER    the same program built for another processor, to be measured beside it in the same passes
#   PEER     a program that takes the same words, to be measured beside them; all outputs must be the
#            same. What is not named leaves its columns empty
#   FRAMES   frames of a run (4000000), PASSES how often each is measured (7; the least counts)
#   ONLY     only the rows whose name has this text, and nothing else
#
# Times are of the processor, user and system. Peak memory needs gcc: a small launcher that has little
# memory of its own tells it.
set -u
. "$(dirname "$(readlink -f "${BASH_SOURCE[0]}")")/built.sh"
export PROGRAM=$program

# launch FILE PROGRAM WORD..: writes microseconds of the processor, microseconds that passed, KiB at the
# most and the status to the open file of that number.
cat >"$folder/launch.c" <<'C'
#define _DEFAULT_SOURCE
#include <stdio.h>
#include <stdlib.h>
#include <sys/resource.h>
#include <sys/time.h>
#include <sys/wait.h>
#include <time.h>
#include <unistd.h>

static long micros(struct timeval t) { return t.tv_sec * 1000000L + t.tv_usec; }

int main(int count, char **words) {
    struct timespec begin, end;
    struct rusage used;
    int status;
    if (count < 3) return 70;
    clock_gettime(CLOCK_MONOTONIC, &begin);
    pid_t child = vfork();
    if (child == 0) {
        execv(words[2], words + 2);
        _exit(70);
    }
    if (child < 0 || wait4(child, &status, 0, &used) < 0) return 70;
    clock_gettime(CLOCK_MONOTONIC, &end);
    long passed = (end.tv_sec - begin.tv_sec) * 1000000L + (end.tv_nsec - begin.tv_nsec) / 1000;
    dprintf(atoi(words[1]), "%ld %ld %ld %d\n", micros(used.ru_utime) + micros(used.ru_stime), passed,
            used.ru_maxrss, WIFEXITED(status) ? WEXITSTATUS(status) : 70);
    return 0;
}
C
export LAUNCH=
if gcc -O1 -static -o "$folder/launch" "$folder/launch.c" 2>/dev/null; then LAUNCH=$folder/launch; fi

FOLDER=$folder TOOLS=$top/tools python3 - <<'PYTHON'
import filecmp
import math
import os
import random
import resource
import subprocess
import sys
import time
import wave

sys.path.insert(0, os.environ["TOOLS"])
from bench_rows import BLOCKS, numbers, taps

folder = os.environ["FOLDER"]
program = os.environ["PROGRAM"]
newer = os.environ.get("NEWER", "")
peer = os.environ.get("PEER", "")
launch = os.environ["LAUNCH"]
frames = int(os.environ.get("FRAMES", "4000000"))
passes = int(os.environ.get("PASSES", "7"))
only = os.environ.get("ONLY", "")

class Run:
    """What a program spent: processor time and time that passed in ns, KiB, its status, its report."""

    def __init__(self, words):
        with open(f"{folder}/report", "wb") as report:
            if launch:
                reading, writing = os.pipe()
                subprocess.run([launch, str(writing)] + words, stdout=report, pass_fds=[writing])
                os.close(writing)
                with os.fdopen(reading) as told:
                    spent, passed, peak, status = map(int, told.read().split())
                self.spent, self.passed, self.peak, self.status = spent * 1000, passed * 1000, peak, status
            else:
                used, begin = resource.getrusage(resource.RUSAGE_CHILDREN), time.monotonic_ns()
                self.status = subprocess.run(words, stdout=report).returncode
                self.passed = time.monotonic_ns() - begin
                now = resource.getrusage(resource.RUSAGE_CHILDREN)
                self.spent = (now.ru_utime + now.ru_stime - used.ru_utime - used.ru_stime) * 1e9
                self.peak = None
        with open(f"{folder}/report", errors="replace") as report:
            self.report = report.read()

    def multiplies(self):
        lines = [line for line in self.report.splitlines() if line.startswith("multiplies ")]
        return int(lines[0].split()[1]) if lines else 0


def script(form, channels, blocks):
    path = f"{folder}/script.txt"
    with open(path, "w") as file:
        file.write(f"dspfx 1 input raw {form} {channels} 48000 {blocks} output raw\n")
    return path


inputs = {}


def made(form, channels, count):
    """A generated input; the last few are kept."""
    key = (form, channels, count)
    if key not in inputs:
        while len(inputs) > 3:
            os.remove(inputs.pop(next(iter(inputs))))
        path = f"{folder}/in-{form}-{channels}-{count}.raw"
        run = Run([program, "gen", "1", str(count), script(form, channels, ""), path])
        if run.status != 0:
            raise SystemExit(f"no input: {run.report}")
        inputs[key] = path
    return inputs[key]


def least(form, channels, blocks, count, programs, rounds, output=None):
    """The runs of the least processor time, a program each, measured in turns: to a file each, or to this one."""
    source = made(form, channels, count)
    path = script(form, channels, blocks)
    best = [None] * len(programs)
    for _ in range(rounds):
        for place, name in enumerate(programs):
            run = Run([name, "run", path, source, output or f"{folder}/out-{place}.raw"])
            if run.status != 0:
                best[place] = run
            elif best[place] is None or run.spent < best[place].spent:
                best[place] = run
    if not output and all(run.status == 0 for run in best):
        for place in range(1, len(programs)):
            if not filecmp.cmp(f"{folder}/out-0.raw", f"{folder}/out-{place}.raw", shallow=False):
                raise SystemExit(f"the outputs differ: {form} {channels} {blocks}")
    return best


def shown(value, digits=1):
    return "" if value is None else f"{value:.{digits}f}"


class Column:
    """A column of numbers: what is shown of each, and the geometric mean of all."""

    def __init__(self):
        self.all = []

    def shown(self, value):
        if value is None:
            return ""
        self.all.append(value)
        return f"{value:.2f}"

    def mean(self):
        return f"{math.exp(sum(map(math.log, self.all)) / len(self.all)):.2f}" if self.all else ""


def table_of_blocks():
    """For each block ns per frame of ours, of the newer build and of the peer, with ratios: to the null device, then
    to a file."""
    names = [name for name in (program, newer, peer) if name]
    ratios = [Column() for _ in range(4)]
    print("| block | format | null device | newer | peer | ratio | newer | file | newer | peer | ratio | newer | KiB |")
    print("|" + "---|" * 13)
    for name, forms, channels, text, *most in BLOCKS:
        if only not in name:
            continue
        count = min([frames] + most)
        for form in forms:
            cells = []
            for place, output in enumerate(("/dev/null", None)):
                runs = dict(zip(names, least(form, channels, text(form), count, names, passes, output)))
                spent = {it: run.spent / count for it, run in runs.items() if run.status == 0}
                cells += [f"{spent[it]:.2f}" if it in spent else "" for it in (program, newer, peer)]
                for at, it in enumerate((program, newer)):
                    both = it in spent and peer in spent
                    cells.append(ratios[2 * place + at].shown(spent[it] / spent[peer] if both else None))
            print(f"| {name} | {form} | {' | '.join(cells)} | {shown(runs[program].peak, 0)} |", flush=True)
    means = [it.mean() for it in ratios]
    print(f"| geometric mean | | | | | {means[0]} | {means[1]} | | | | {means[2]} | {means[3]} | |")


def against_frames(programs):
    print("\n| frames | none, ns per frame | `fir` of 32 taps, ns per frame | peak KiB |")
    print("|---|---|---|---|")
    for count in (100000, 1000000, 10000000):
        plain = least("q15", 1, "", count, programs[:1], passes)[0]
        fir = least("q15", 1, "fir " + taps("q15", 32), count, programs[:1], passes)[0]
        print(f"| {count} | {plain.spent / count:.1f} | {fir.spent / count:.1f} | {shown(fir.peak, 0)} |", flush=True)


def against_taps(programs):
    count = min(frames, 1000000)
    print("\n| taps of `fir`, Q15 | ns per frame | products per ns | peer, ns per frame | ratio |")
    print("|---|---|---|---|---|")
    for size in (16, 32, 64, 128, 256, 512, 1024, 2048, 4096):
        runs = least("q15", 1, "fir " + taps("q15", size), count, programs, max(1, passes // 2))
        ours = runs[0].spent / count
        theirs = runs[1].spent / count if len(runs) > 1 and runs[1].status == 0 else None
        print(f"| {size} | {ours:.1f} | {size / ours:.2f} | {shown(theirs)} | {shown(ours / theirs if theirs else None, 2)} |", flush=True)


def against_bits(programs):
    """Files of each width, read and written again without blocks."""
    print("\n| WAVE file | format | ns per frame |")
    print("|---|---|---|")
    for bits, form in ((8, "q7"), (16, "q15"), (24, "q31"), (32, "q31")):
        source, path = f"{folder}/in.wav", f"{folder}/wave.txt"
        with wave.open(source, "wb") as file:
            file.setparams((1, bits // 8, 48000, 0, "NONE", ""))
            file.writeframes(random.Random(bits).randbytes(frames * bits // 8))
        with open(path, "w") as file:
            file.write(f"dspfx 1 input wave {form} 1 output wave")
        runs = [Run([program, "run", path, source, f"{folder}/out.wav"]) for _ in range(passes)]
        if runs[0].status != 0:
            raise SystemExit(runs[0].report)
        print(f"| {bits} bits | {form} | {min(run.spent for run in runs) / frames:.1f} |", flush=True)


def long_script(size):
    """A sound script of nearly so many bytes, nearly all of it numbers."""
    path = f"{folder}/long.txt"
    head, tail, block = "dspfx 1 input raw q31 1 48000\n", "output raw\n", ""
    room = size - len(head) - len(tail)
    count = min(63, max(1, room // (4096 * 12) + 1))
    per = min(4096, (room // count - 8) // 12)
    block = "fir " + numbers([1000000000 + index for index in range(per)]) + "\n"
    with open(path, "w") as file:
        file.write(head + block * (room // len(block)) + tail)
    return path


def start_and_scripts(programs):
    rounds = 20 * max(1, passes // 2)

    def best(path):
        runs = [Run([program, "print", path]) for _ in range(rounds)]
        if runs[0].status != 0:
            raise SystemExit(runs[0].report)
        return min(run.passed for run in runs) / 1e6

    start = best(script("q15", 1, ""))
    print("\n| `print` of | ms that passed, least | without the start |")
    print("|---|---|---|")
    print(f"| one line | {start:.2f} | |")
    for name, size in (("64 KiB", 2**16), ("1 MiB", 2**20)):
        whole = best(long_script(size))
        print(f"| a script of {name} | {whole:.2f} | {whole - start:.2f} |", flush=True)


programs = [program] + ([peer] if peer else [])
table_of_blocks()
if not only:
    against_frames(programs)
    against_taps(programs)
    against_bits(programs)
    start_and_scripts(programs)
PYTHON
