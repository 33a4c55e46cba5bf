#!/usr/bin/env python3
"""A low-pass filter from its design to a picture: designed by scipy, run in Q15 bit for bit as CMSIS-DSP does, and drawn.

    examples/library/design.py [OUT.png]      draws in letters without a name, or where matplotlib is missing
"""

import sys

import numpy as np
from scipy import signal

import tozbirem

rate = 8000
design = signal.firwin(31, 1000, fs=rate)
time = np.arange(800) / rate
tones = 0.4 * np.sin(2 * np.pi * 300 * time) + 0.4 * np.sin(2 * np.pi * 3000 * time)

taps = tozbirem.fir_taps(design, "q15")
exact = tozbirem.fractions(tozbirem.arm_fir_q15(taps, tozbirem.quantize(tones)))
ideal = signal.lfilter(design, 1, tones)
print(f"signal to noise: {10 * np.log10(np.sum(ideal**2) / np.sum((exact - ideal) ** 2)):.1f} dB")

try:
    from matplotlib.figure import Figure
except ImportError:
    Figure = None
if Figure is None or len(sys.argv) < 2:
    for pair in zip(tones[:54], exact[:54]):  # the input as `.`, the output as `*`
        line = [" "] * 65
        for value, letter in zip(pair, ".*"):
            line[round(32 + 32 * value)] = letter
        print("".join(line).rstrip())
else:
    figure = Figure()
    above, below = figure.subplots(2, 1, sharex=True)
    above.plot(1000 * time, tones, label="input")
    above.plot(1000 * time, exact, label="output in Q15")
    above.legend()
    below.plot(1000 * time, (exact - ideal) * 2**15)
    below.set(xlabel="ms", ylabel="last places from the ideal one")
    figure.savefig(sys.argv[1])
