#!/usr/bin/env bash
# Measures `convert` of 24,000,000 bytes of samples in 8, 16, 24 and 32 bits: beside `cat` through two copies, beside sox
# where it is there, beside a run without blocks, and beside reading the same bytes and doing nothing with them. It prints
# the table of docs/PERFORMANCE.md, and is no part of the gate.
#
#   DSPFX    another built program to be measured, BEFORE one more, to be measured beside it in the same passes
#   PASSES   how often each is measured (15; the least counts)
set -u
. "$(dirname "$(readlink -f "${BASH_SOURCE[0]}")")/built.sh"
PROGRAM=$program FOLDER=$folder python3 - <<'PYTHON'
import os
import random
import resource
import shutil
import sys
import wave

PROGRAM, BEFORE, FOLDER = os.environ["PROGRAM"], os.environ.get("BEFORE", ""), os.environ["FOLDER"]
PASSES, SIZE = int(os.environ.get("PASSES", "15")), 24000000
FORMATS = {8: "q7", 16: "q15", 24: "q31", 32: "q31"}


def spent(use):
    return (use.ru_utime + use.ru_stime) * 1000


def ran(*words):
    """Processor time of a command in ms; its standard output is dropped."""
    path = shutil.which(words[0])
    process = os.posix_spawn(path, words, os.environ, file_actions=[
        (os.POSIX_SPAWN_OPEN, 1, "/dev/null", os.O_WRONLY, 0)])  # fmt: skip
    _, status, usage = os.wait4(process, 0)
    assert os.waitstatus_to_exitcode(status) == 0, words
    return spent(usage)


def read_alone(path):
    """Processor time of reading a file, 64 KiB at a time into the same memory, in ms."""
    room, begin = bytearray(65536), spent(resource.getrusage(resource.RUSAGE_SELF))
    with open(path, "rb", buffering=0) as file:
        while file.readinto(room):
            pass
    return spent(resource.getrusage(resource.RUSAGE_SELF)) - begin


def turned(bits, data):
    """The samples of a WAVE file as those of an AU file."""
    width = bits // 8
    if width == 1:
        return bytes((byte + 128) % 256 for byte in data)
    out = bytearray(data)
    for place in range(width):
        out[place::width] = data[width - 1 - place :: width]
    return bytes(out)


def row(bits, channels):
    source, script, output = f"{FOLDER}/in.wav", f"{FOLDER}/s.txt", f"{FOLDER}/out.au"
    data = random.Random(bits).randbytes(SIZE)
    with wave.open(source, "wb") as file:
        file.setparams((channels, bits // 8, 48000, 0, "NONE", ""))
        file.writeframes(data)
    with open(script, "w") as file:
        file.write(f"dspfx 1 input wave {FORMATS[bits]} {channels} output wave")
    convert = lambda program, out: lambda: ran(program, "convert", "wave", "au", source, out)
    ways = {"`convert`": convert(PROGRAM, "/dev/null")}
    if BEFORE:
        ways["before"] = convert(BEFORE, "/dev/null")
    ways["`run`"] = lambda: ran(PROGRAM, "run", script, source, "/dev/null")
    ways["read alone"] = lambda: read_alone(source)
    ways["`cat IN \\| cat \\| cat`"] = lambda: ran("sh", "-c", 'cat "$1" | cat | cat >/dev/null', "sh", source)
    if shutil.which("sox"):
        ways["sox"] = lambda: ran("sox", source, "-t", "au", "/dev/null")
    ways["`convert`, file"] = convert(PROGRAM, output)
    least = dict.fromkeys(ways, float("inf"))
    for _ in range(PASSES):
        for name, way in ways.items():
            least[name] = min(least[name], way())
    with open(output, "rb") as file:
        assert file.read()[24:] == turned(bits, data), bits
    return least


rows = {(bits, channels): row(bits, channels) for bits, channels in ((8, 1), (16, 2), (24, 2), (32, 2))}
names = list(next(iter(rows.values())))
print("| samples | " + " | ".join(names) + " |")
print("|---" * (len(names) + 1) + "|")
for (bits, channels), least in rows.items():
    print(f"| {bits} bits, {'mono' if channels == 1 else 'stereo'} | " + " | ".join(f"{least[it]:.1f}" for it in names) + " |")
sys.stdout.flush()
PYTHON
