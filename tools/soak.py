#!/usr/bin/env python3
"""Runs random sound scripts at three block lengths each, in a bank, and in two sittings, compares what they write, and
checks it.

    soak.py [COUNT [SEED]]

COUNT scripts (10,000 where it is not said) come from SEED (1). Each is run over a file of random samples, then
in blocks of two other lengths over a pipe that gives the same bytes in pieces of 1 to 4,096, and by `bank`. All
must end with the same status, report and output; where a window of a convolution ends past it, the output depends
on the block length, and the rest is compared. A run that is done is also stopped after a random frame, and goes on
from its state: both outputs together and the last report must be those of one run, and tools/state.py must read the
state. Its output is checked: `check` must find it, and must name the place of a byte that was changed; where a window
ends past its convolution a check ends as the run does. DSPFX names another built program. It is no part of the gate.
"""
import os
import random
import re
import struct
import subprocess
import sys
import tempfile
import threading
import time

import state

TOP = os.path.dirname(os.path.dirname(os.path.abspath(__file__)))
PROGRAM = os.environ.get("DSPFX") or f"{TOP}/build/dspfx"
BITS = {"q7": 8, "q15": 16, "q31": 32}
UNIT_MOST = 4096  # scripts whose blocks must be longer are left out


class Maker:
    """A sound script from random numbers, block by block."""

    def __init__(self, rng):
        self.rng = rng
        self.format = rng.choice(list(BITS))
        self.channels = rng.choice([1, 1, 1, 2, 2, 3, 4, 4, 8, 16])
        self.correlates, self.unit, self.most = 0, 1, 1

    def number(self, low=None, high=None):
        """A number of the format, small or at an end now and then."""
        least, greatest = -(1 << BITS[self.format] - 1), (1 << BITS[self.format] - 1) - 1
        low, high = least if low is None else low, greatest if high is None else high
        return self.rng.choice([low, high, 0, 1, -1, self.rng.randint(low, high)]) if low < 0 else self.rng.randint(low, high)

    def list(self, count, low=None, high=None):
        return "{" + " ".join(str(self.number(low, high)) for _ in range(count)) + "}"

    def taps(self):
        return self.rng.choice([1, 2, 3, 7, 8, 9, 16, 31, 40])

    def block(self):
        """The text of a block that may stand here, or None where the choice has none."""
        rng, q7, q15, wide = self.rng, self.format == "q7", self.format == "q15", self.format != "q7"
        bits, one, two = BITS[self.format], self.channels == 1, self.channels == 2
        name = rng.choice(NAMES)
        if name in ("negate", "abs", "power", "max", "min"):
            return name
        if name == "offset":
            return f"offset {self.number()}"
        if name == "scale":
            return f"scale {self.number()} {rng.randint(-bits if not q7 else -8, bits - 1 if bits < 32 else 30) if bits < 32 else rng.randint(-31, 30)}"
        if name == "shift":
            return f"shift {rng.randint(1 - bits, bits - 1)}"
        if name == "clip":
            low, high = sorted((self.number(), self.number()))
            return f"clip {low} {high}"
        if name == "to":
            self.format = rng.choice([f for f in BITS if f != self.format])
            return f"to {self.format}"
        if name in ("add", "sub", "mult") and two:
            self.channels = 1
            return name
        if name == "cmplx_conj" and two and wide:
            return name
        if name == "cmplx_mag_squared" and two and wide:
            self.channels = 1
            return name
        if name == "cmplx_mult" and self.channels == 4 and wide:
            self.channels = 2
            return name
        if name == "cmplx_mult_real" and self.channels == 3 and q15:
            self.channels = 2
            return name
        if name == "route":
            picked = [rng.randrange(self.channels) for _ in range(rng.choice([1, 2, 3, 4, self.channels]))]
            self.channels = len(picked)
            return "route {" + " ".join(map(str, picked)) + "}"
        if name in ("fir", "conv"):
            return f"{name} {self.list(self.taps())}"
        if name == "sparse":
            count = self.taps() + 1
            return f"sparse {self.list(count)} {self.list(count, 0, 100)}"
        if name == "decimate" and wide:
            factor = rng.randint(1, 7)
            self.unit *= factor
            return f"decimate {factor} {self.list(self.taps())}"
        if name == "interpolate" and wide and self.most <= 16:
            factor = rng.randint(1, 5)
            self.most *= factor
            return f"interpolate {factor} {self.list(factor * rng.randint(1, 9))}"
        if name == "lattice_fir" and q15:
            return f"lattice_fir {self.list(rng.randint(1, 20))}"
        if name == "lattice_iir" and wide:
            sections = rng.randint(1, 20)
            return f"lattice_iir {self.list(sections)} {self.list(sections + 1)}"
        if name == "biquad" and wide:
            return f"biquad {rng.randint(0, 13 if q15 else 30)} {self.list((6 if q15 else 5) * rng.randint(1, 6))}"
        if name == "biquad64" and self.format == "q31":
            return f"biquad64 {rng.randint(0, 30)} {self.list(5 * rng.randint(1, 6))}"
        if name == "conv_partial":
            return f"conv_partial {rng.randint(0, 20)} {rng.randint(1, 20)} {self.list(self.taps())}"
        if name == "correlate" and not self.correlates:
            self.correlates = 1
            return f"correlate {self.list(self.taps())}"
        if name == "lms" and two and wide:
            return f"lms {rng.randint(0, 14 if q15 else 30)} {self.number()} {self.list(self.taps())}"
        if name == "pid" and wide:
            return f"pid {self.number()} {self.number()} {self.number()}"
        if name == "dot" and two:
            return name
        if name == "cmplx_dot" and self.channels == 4 and wide:
            return name
        rows, columns = rng.randint(1, 4), rng.randint(1, 4)
        if name in ("mat_add", "mat_sub") and wide:
            self.unit *= rows * columns
            return f"{name} {rows} {columns} {self.list(rows * columns)}"
        if name == "mat_scale" and wide:
            self.unit *= rows * columns
            return f"mat_scale {rows} {columns} {self.number()} {rng.randint(-16, 15) if q15 else rng.randint(0, 30)}"
        if name == "mat_trans" and wide:
            self.unit *= rows * columns
            return f"mat_trans {rows} {columns}"
        if name == "mat_mult" and q15:
            given = rng.randint(1, 4)
            self.unit *= rows * columns
            return f"mat_mult {rows} {columns} {given} {self.list(columns * given)}"
        return None

    def script(self):
        """The script, whether its input is WAVE, and the format and channels of its input."""
        rng, wave = self.rng, self.rng.random() < 0.4
        format, channels = self.format, self.channels
        head = f"input wave {format} {channels}" if wave else f"input raw {format} {channels} 8000"
        blocks = [block for block in (self.block() for _ in range(rng.randint(0, 9))) if block]
        tail = f"output {rng.choice(['wave', 'raw'])}"
        return "\n".join(["dspfx 1", head, *blocks, tail]), wave, format, channels


NAMES = (
    "offset negate abs scale shift clip to add sub mult cmplx_conj cmplx_mult cmplx_mult_real cmplx_mag_squared route fir sparse"
    " decimate interpolate lattice_fir lattice_iir biquad biquad64 conv conv_partial correlate lms pid mat_add mat_sub"
    " mat_scale mat_trans mat_mult power dot cmplx_dot max min"
).split()


def samples(rng, wave, format, channels):
    """The bytes of an input: random samples, at the ends now and then, and perhaps a torn frame."""
    width = BITS[format] // 8
    size = rng.choice([0, 1, 5, 40, 300, 700]) * channels * width
    bytes_in = bytearray(rng.randbytes(size))
    for at in range(0, size, width):
        if rng.random() < 0.2:
            bytes_in[at: at + width] = (b"\x00" * (width - 1) + b"\x80") if rng.random() < 0.5 else (b"\xff" * (width - 1) + b"\x7f")
    if not wave:
        return bytes(bytes_in) + rng.randbytes(rng.randint(0, width - 1))
    declared = rng.choice([size, size, 0xFFFFFFFF])
    align = channels * width
    return (b"RIFF" + struct.pack("<I", 0) + b"WAVEfmt "
            + struct.pack("<IHHIIHH", 16, 1, channels, 8000, 8000 * align, align, 8 * width)
            + b"data" + struct.pack("<I", declared) + bytes(bytes_in))


def ran(folder, words, output):
    """The status, the report and the output of a run."""
    done = subprocess.run([PROGRAM, *words], cwd=folder, stdout=subprocess.PIPE, stderr=subprocess.DEVNULL)
    try:
        with open(f"{folder}/{output}", "rb") as file:
            written = file.read()
        os.remove(f"{folder}/{output}")
    except FileNotFoundError:
        written = None
    return done.returncode, done.stdout, written


def pour(path, content, rng):
    """Gives the bytes through a pipe in pieces."""
    try:
        with open(path, "wb", buffering=0) as pipe:
            at = 0
            while at < len(content):
                count = rng.choice([1, 2, 3, 7, 64, 1000, 4096, rng.randint(1, 4096)])
                pipe.write(content[at: at + count])
                at += count
    except BrokenPipeError:
        pass  # the program has all that it wants


def piped(folder, content, block, rng):
    """A run in blocks of this length over the bytes in pieces."""
    pieces = random.Random(rng.random())
    writer = threading.Thread(target=pour, args=(f"{folder}/pipe", content, pieces))
    writer.start()
    answer = ran(folder, ["run", "s", "pipe", "o", "block", str(block)], "o")
    if writer.is_alive():  # a run that was refused has not opened it
        try:
            os.close(os.open(f"{folder}/pipe", os.O_RDONLY | os.O_NONBLOCK))
        except OSError:
            pass
    writer.join()
    return answer


def in_two_sittings(folder, whole, rng):
    """What is wrong with a run that is stopped after a frame and goes on, or None."""
    found = re.search(rb"^in (\d+) frames", whole[1], re.M)
    frames = rng.randint(0, int(found[1]))
    status, saved, first = ran(folder, ["resume", "stop", str(frames), "s", "in", "o"], "o")
    if status != 0:
        return f"stop {frames}: {status} {saved!r}"
    with open(f"{folder}/state", "wb") as file:
        file.write(saved)
    status, report, rest = ran(folder, ["resume", "go", "state", "in", "o"], "o")
    if (status, report, (first or b"") + (rest or b"")) != (0, whole[1], whole[2] or b""):
        return f"go from {frames}: {status} {report!r}"
    try:
        list(state.lines_of(saved))
    except state.Fault as fault:
        return f"state of {frames}: {fault}"
    return None


def checked(folder, whole, rng):
    """What is wrong with a check of what a run wrote, or None."""
    status, line, written = whole[0], whole[1], bytearray(whole[2] or b"")
    if status not in (0, 5):
        return None
    wanted = [(written, 0, b"dspfx: same\nbytes %d\n" % len(written))] if status == 0 else [(written, 5, line)]
    if status == 0:
        place = rng.randrange(len(written) + 1)
        other = written + b"\0" if place == len(written) else written[:place] + bytes([written[place] ^ 1 << rng.randrange(8)]) + written[place + 1 :]
        wanted.append((other, 11, b"dspfx: differs at %d\n" % place))
    for data, answer, report in wanted:
        with open(f"{folder}/other", "wb") as file:
            file.write(data)
        found = ran(folder, ["check", "s", "in", "other"], "o")
        if found != (answer, report, None):
            return f"{found}, wanted {answer} {report!r}"
    return None


def unit_of(folder):
    """The number that divides each legal block length, by the program's own word."""
    status, report, _ = ran(folder, ["run", "s", "in", "o", "block", "65537"], "o")
    found = re.match(rb"dspfx: block length 65537, unit (\d+)\n", report)
    return int(found[1]) if status == 3 and found else None


def main():
    count = int(sys.argv[1]) if len(sys.argv) > 1 else 10000
    rng = random.Random(int(sys.argv[2]) if len(sys.argv) > 2 else 1)
    began, compared, left_out, differ, statuses = time.time(), 0, 0, 0, {}
    with tempfile.TemporaryDirectory() as folder:
        os.mkfifo(f"{folder}/pipe")
        while compared < count:
            script, wave, format, channels = Maker(rng).script()
            content = samples(rng, wave, format, channels)
            with open(f"{folder}/s", "w") as file:
                file.write(script)
            with open(f"{folder}/in", "wb") as file:
                file.write(content)
            unit = unit_of(folder)
            if not unit or unit > UNIT_MOST:
                left_out += 1
                continue
            whole = ran(folder, ["run", "s", "in", "o"], "o")
            for block in (unit, unit * rng.randint(1, max(1, 256 // unit))):
                other = piped(folder, content, block, rng)
                same = whole[:2] == other[:2] if whole[0] == 5 else whole == other
                if not same and 3 not in (whole[0], other[0]):
                    differ += 1
                    print(f"differ at block {block}:\n{script}\n{whole[:2]}\n{other[:2]}\n{content.hex()}", flush=True)
            banked = ran(folder, ["bank", "s", "in", "o"], "o")
            if banked != whole:
                differ += 1
                print(f"differ by bank:\n{script}\n{whole[:2]}\n{banked[:2]}\n{content.hex()}", flush=True)
            fault = in_two_sittings(folder, whole, rng) if whole[0] == 0 else None
            if fault:
                differ += 1
                print(f"differ in two sittings:\n{script}\n{fault}\n{content.hex()}", flush=True)
            fault = checked(folder, whole, rng)
            if fault:
                differ += 1
                print(f"differ by a check:\n{script}\n{fault}\n{content.hex()}", flush=True)
            compared += 1
            statuses[whole[0]] = statuses.get(whole[0], 0) + 1
    told = ", ".join(f"{number} ended with {status}" for status, number in sorted(statuses.items()))
    print(f"{compared} scripts, {differ} differences, {left_out} left out ({told}) in {time.time() - began:.0f} s")
    sys.exit(1 if differ else 0)


if __name__ == "__main__":
    main()
