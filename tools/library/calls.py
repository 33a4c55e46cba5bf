#!/usr/bin/env python3
"""Times calls from Python beside code for numpy and scipy that gives the same samples, which it asserts.

    PYTHONPATH=python python3 tools/library/calls.py [ROUNDS]

It prints a row for each filter and number of frames of a call: microseconds of processor time a call, the least of
many rounds in which all take turns, and what a chain takes to the quickest of the others.
"""

import sys
import time

import numpy as np
from scipy import signal

import tozbirem

ROUNDS = int(sys.argv[1]) if len(sys.argv) > 1 else 25
LENGTHS = (256, 65536)
TAPS = (np.arange(32) * 331 % 1201 - 600).astype(np.int16)  # from b[31] to b[0]
SECTIONS = [(1 << 28, 1 << 29, 1 << 28, 1 << 29, -(1 << 28) - 977 * s) for s in range(4)]


class Clamped:
    """A FIR filter in Q15 by a convolution of numpy or scipy: each sum is exact, shifted down and clamped."""

    def __init__(self, convolve, kind):
        self.convolve, self.kind = convolve, kind
        self.taps, self.past = TAPS[::-1].astype(kind), np.zeros(len(TAPS) - 1, kind)

    def __call__(self, x):
        line = np.concatenate([self.past, x])
        self.past = line[len(x) :]
        sums = self.convolve(self.taps, line).astype(np.int64) >> 15
        return np.clip(sums, -32768, 32767).astype(np.int16)


def by_numpy(taps, line):
    return np.convolve(line, taps, "valid")


def by_scipy(taps, line):
    return signal.lfilter(taps, [1], line)[len(taps) - 1 :]


class Sections:
    """A cascade in Q31 sample by sample, since each output goes into the next sum: whole numbers of Python."""

    def __init__(self):
        self.past = [[0] * 4 for _ in SECTIONS]

    def __call__(self, x):
        values = x.tolist()
        for (b0, b1, b2, a1, a2), past in zip(SECTIONS, self.past):
            x1, x2, y1, y2 = past
            for n, it in enumerate(values):
                total = (b0 * it + b1 * x1 + b2 * x2 + a1 * y1 + a2 * y2 + 2**63) % 2**64 - 2**63
                x2, x1, y2 = x1, it, y1
                values[n] = y1 = ((total >> 31) + 2**31) % 2**32 - 2**31
            past[:] = x1, x2, y1, y2
        return np.array(values, np.int32)


def timed(call, x):
    begin = time.process_time_ns()
    found = call(x)
    return time.process_time_ns() - begin, found


def row(name, chain, others, x):
    """The least of the rounds, microseconds a call."""
    ways = {"a chain": chain, **others}
    least = dict.fromkeys(ways, float("inf"))
    for _ in range(ROUNDS if len(x) > 1000 else 20 * ROUNDS):
        outputs = []
        for way, call in ways.items():
            taken, found = timed(call, x)
            least[way] = min(least[way], taken / 1000)
            outputs.append(found)
        assert all(np.array_equal(outputs[0], it) and outputs[0].dtype == it.dtype for it in outputs), name
    ours, best = least.pop("a chain"), min(least.values())
    cells = ", ".join(f"{way} {taken:,.1f}" for way, taken in least.items())
    print(f"| {name} | {len(x):,} | {ours:,.1f} | {cells} | {ours / best:.2g} |")


def main():
    chance = np.random.default_rng(1)
    print("| filter | frames | a chain | others | to the least of these |\n|---|---|---|---|---|")
    for count in LENGTHS:
        fir = tozbirem.Chain([("fir", TAPS)], format="q15")
        others = {"numpy in int64": Clamped(by_numpy, np.int64), "numpy in float64": Clamped(by_numpy, float),
                  "lfilter in float64": Clamped(by_scipy, float)}  # fmt: skip
        row("fir of 32, q15", fir.process, others, chance.integers(-32768, 32768, count, np.int16))
    for count in LENGTHS:
        biquad = tozbirem.Chain([("biquad", 0, [it for section in SECTIONS for it in section])], format="q31")
        others = {"Python's whole numbers": Sections()}
        row("biquad of 4, q31", biquad.process, others, chance.integers(-(1 << 30), 1 << 30, count, np.int32))


if __name__ == "__main__":
    main()
