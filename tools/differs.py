#!/usr/bin/env python3
"""Says where a file differs from the output of a script, after a check that found another byte.

    tools/differs.py PROGRAM SCRIPT IN OUT

The script is run once more, into a temporary file that is removed, and tools/compare.py's reading of samples says
which frame and channel the first byte that differs is of, the sample that is wanted there and the one that is found,
and how many samples differ in all. No file is changed. tools/explain.py calls it after status 11.
"""
import os
import re
import subprocess
import sys
import tempfile

import compare
import samples

PIECE = 1 << 16


class Unknown(Exception):
    """Why it cannot be said where the file differs."""


class Layout:
    """Where the samples of an output begin and end, their bits and channels, and whether they are of a WAVE file."""

    def __init__(self, output, frames, channels, form):
        self.is_wave = output[:4] == b"RIFF"
        self.channels, self.bits = channels, samples.BITS[form] + 1
        self.width = self.bits // 8
        # (`data` stands behind 16 or 40 bytes of `fmt `, and may stand in them)
        self.start = output.index(b"data", 36) + 8 if self.is_wave else 0
        self.end = self.start + frames * channels * self.width

    def samples(self, data):
        return samples.of_pcm(data[self.start : self.end], self.bits, is_unsigned=self.is_wave)


def read(path):
    """The bytes of a file that can be read again."""
    if not os.path.isfile(path):
        raise Unknown(f"{path} is no file that can be read twice")
    try:
        with open(path, "rb") as file:
            return file.read()
    except OSError as error:
        raise Unknown(f"{path}: {error.strerror.lower()}") from error


def written(program, script, source):
    """What a run of the script writes, and where its samples are."""
    for path in (script, source):
        if not os.path.isfile(path):
            raise Unknown(f"{path} is no file that can be read twice")
    with tempfile.TemporaryDirectory(prefix="dspfx-") as folder:
        output = f"{folder}/output"
        ran = subprocess.run([program, "run", script, source, output], stdin=subprocess.DEVNULL,
                             stdout=subprocess.PIPE, stderr=subprocess.DEVNULL)  # fmt: skip
        found = re.search(rb"^out (\d+) frames of (\d+) channels (q\d+)$", ran.stdout, re.M)
        if ran.returncode != 0 or not found:
            raise Unknown(f"a run of this script ends with status {ran.returncode}")
        data = read(output) if os.path.exists(output) else b""
    return data, Layout(data, int(found[1]), int(found[2]), found[3].decode())


def first_difference(wanted, found):
    """The place of the first byte that differs, or where only one of the two has ended; None where they are the same."""
    size = min(len(wanted), len(found))
    for begin in range(0, size, PIECE):
        a, b = wanted[begin : min(begin + PIECE, size)], found[begin : min(begin + PIECE, size)]
        if a != b:
            return begin + next(place for place in range(len(a)) if a[place] != b[place])
    return None if len(wanted) == len(found) else size


def place_of(layout, wanted, found, place):
    """What stands at the first byte that differs."""
    if place == len(wanted):
        return f"the output has ended at byte {place}, and the file has {len(found) - place} bytes more"
    if place < layout.start or place >= layout.end:
        what = f"the pad byte, byte {place}" if place >= layout.end else f"byte {place}, in the header"
        return f"{what}: wanted {wanted[place]}, found {found[place] if place < len(found) else 'the end'}"
    sample = (place - layout.start) // layout.width
    frame, channel = divmod(sample, layout.channels)
    there = layout.samples(found)
    of_found = compare.shown(there[sample]) if sample < len(there) else "the end"
    return f"byte {place} is of frame {frame} channel {channel}: wanted {compare.shown(layout.samples(wanted)[sample])}, found {of_found}"


def lines(program, script, source, path):
    """What there is to say of a file that is not the output."""
    found = read(path)
    wanted, layout = written(program, script, source)
    place = first_difference(wanted, found)
    if place is None:
        yield "a run of this script writes the same bytes now: has a file changed meanwhile?"
        return
    yield place_of(layout, wanted, found, place)
    left, right = layout.samples(wanted), layout.samples(found)
    common = min(len(left), len(right))
    wrong = sum(map(int.__ne__, left[:common], right[:common]))
    yield f"{wrong} of {common} samples differ" + (
        f"; the output has {len(wanted)} bytes, and the file {len(found)}" if len(wanted) != len(found) else "")  # fmt: skip


def told(program, script, source, path):
    """The lines, or why there are none."""
    try:
        yield from lines(program, script, source, path)
    except (OSError, Unknown) as fault:
        yield f"which sample that is cannot be said: {fault}"


if __name__ == "__main__":
    if len(sys.argv) != 5:
        sys.exit(__doc__.strip())
    print(*told(*sys.argv[1:]), sep="\n")
