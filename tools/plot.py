#!/usr/bin/env python3
"""Draws what goes through dspfx as a .png, .svg or .pdf file. It needs python3-matplotlib.

    tools/plot.py files OUT.png FILE..          waveform and spectrum of each file
    tools/plot.py response OUT.png SCRIPT       the answers of a script to an impulse and a step, and its
                  [--design FILE]               spectrum, beside the ideal ones of taps or second-order sections
    tools/plot.py difference OUT.png A B        what two files differ by, in bits: 1 is one last place

Files are WAVE, Sun AU, .npy, raw words, or text. A script is run with the same signal on each of its channels;
its first output channel is drawn, or --channel, at the rate of the output. The impulse and the step have half of
full scale. Where a script has WAVE input, --rate says the rate. --data FILE.csv writes what is drawn as numbers.
DSPFX names another program.
"""
import argparse
import csv
import os
import re
import struct
import subprocess
import sys
import tempfile

import coefficients
import samples

TOP = os.path.dirname(os.path.dirname(os.path.abspath(__file__)))

try:
    import matplotlib
    import numpy

    matplotlib.use("Agg")
    from matplotlib import pyplot
except ImportError as error:
    sys.exit(f"plot: {error.name} is not there: install python3-matplotlib")


class Curve:
    """What is drawn: in which part of the picture, its name, and its numbers across and up."""

    def __init__(self, axes, name, across, up, line="-"):
        self.axes, self.name, self.across, self.up, self.line = axes, name, across, up, line

    def draw(self):
        self.axes.plot(self.across, self.up, self.line, label=self.name.rpartition(" ")[0], linewidth=0.9)


def decibels(spectrum):
    return 20 * numpy.log10(numpy.maximum(numpy.abs(spectrum), 1e-9))


def fraction(file, place=0):
    """A channel as parts of full scale."""
    one = 1 if file.form == "float" else 2 ** samples.BITS[file.form]
    return numpy.array(file.channel(place), dtype=float) / one


def spectrum(signal, rate):
    """Frequencies and decibels of full scale, under a Hann window."""
    window = numpy.hanning(len(signal))
    return numpy.fft.rfftfreq(len(signal), 1 / rate), decibels(2 * numpy.fft.rfft(signal * window) / max(window.sum(), 1))


def labelled(axes, down, across):
    axes.set(ylabel=down, xlabel=across)
    axes.grid(alpha=0.3)


def draw_files(words):
    figure, rows = pyplot.subplots(len(words.files), 2, figsize=(10, 2.4 * len(words.files)), squeeze=False)
    curves = []
    for path, (left, right) in zip(words.files, rows):
        file = samples.read_by(words, path)
        if not file.frames():
            raise ValueError(f"{path}: no samples")
        for channel in range(file.channels):
            signal, name = fraction(file, channel), f"{path} channel {channel}"
            curves.append(Curve(left, f"{name} waveform", 1000 * numpy.arange(len(signal)) / file.rate, signal))
            curves.append(Curve(right, f"{name} spectrum", *spectrum(signal, file.rate)))
        left.set(title=path.replace("$", r"\$"), ylim=(-1.05, 1.05))
        right.set(ylim=(-120, 5))
        labelled(left, "of full scale", "ms")
        labelled(right, "dB of full scale", "Hz")
    return figure, curves


def called(*words):
    """What the program says, which must end with 0."""
    program = os.environ.get("DSPFX", f"{TOP}/dspfx")
    ran = subprocess.run([program, *words], stdout=subprocess.PIPE, text=True)
    if ran.returncode:
        raise ValueError(f"{' '.join([program, *words])} ended with {ran.returncode}: {ran.stdout.strip()}")
    return ran.stdout


def run(script, signal, form):
    """What the script gives of these samples."""
    with tempfile.TemporaryDirectory() as folder:
        data = struct.pack(f"<{len(signal)}{samples.CODES[form]}", *signal)
        for name, content in (("script", script.encode()), ("in", data)):
            with open(f"{folder}/{name}", "wb") as file:
                file.write(content)
        called("run", *(f"{folder}/{name}" for name in ("script", "in", "out")))
        return samples.read(f"{folder}/out")


def answers(words):
    """The answers of a script to an impulse and a step, as parts of their height, and the rate of its output."""
    text = called("print", words.script).splitlines()
    place = next(number for number, line in enumerate(text) if line.startswith("input "))
    form, channels, *own = text[place].split()[2:]
    text[place] = f"input raw {form} {channels} {own[0] if own else words.rate}"
    # (a WAVE file says the format, the channels and the rate after the blocks)
    text = "\n".join("output wave" if line.startswith("output ") else line for line in text)
    height, given = 2 ** (samples.BITS[form] - 1), []
    for values in ([height] + [0] * (words.frames - 1), [height] * words.frames):
        answer = run(text, [it for it in values for _ in range(int(channels))], form)
        if not words.channel < answer.channels:
            raise ValueError(f"the script gives {answer.channels} channels, which are counted from 0")
        if not answer.frames():
            raise ValueError("the script gives no samples")
        given.append(2 * fraction(answer, words.channel))
    return given, answer.rate


def design_of(path, form):
    """The fractions of a file, b[0] first or as rows of sections, and whether they are sections."""
    given = coefficients.read(path, None)
    if not given.is_whole:
        return given.values, coefficients.is_sections(given)
    word = (given.block or ("fir" if given.shift is None else "biquad")).split()[0]
    text = coefficients.as_design(given.values, word, given.form or form, given.shift)
    return [float(it) for it in text.split()], word in coefficients.SECTIONS


def ideal_answer(path, count, form):
    """The answer of a design to an impulse."""
    design, is_sections = design_of(path, form)
    signal = numpy.zeros(count)
    if not is_sections:
        signal[: len(design)] = design[:count]
        return signal
    signal[0] = 1
    for b0, b1, b2, a1, a2 in coefficients.of_sections(coefficients.rows_of(design, 6, "")):
        x1 = x2 = y1 = y2 = 0.0
        for place, x in enumerate(signal):
            y = b0 * x + b1 * x1 + b2 * x2 + a1 * y1 + a2 * y2
            x1, x2, y1, y2, signal[place] = x, x1, y, y1, y
    return signal


def draw_response(words):
    (impulse, step), rate = answers(words)
    drawn = [("script", impulse, step, "-")]
    if words.design:
        ideal = ideal_answer(words.design, len(impulse), words.format)
        drawn.append(("ideal", ideal, numpy.cumsum(ideal), "--"))
    figure, (first, second, third) = pyplot.subplots(1, 3, figsize=(12, 3.2))
    curves = []
    for name, of_impulse, of_step, line in drawn:
        shown = numpy.arange(min(words.shown, len(of_impulse)))
        curves.append(Curve(first, f"{name} impulse", shown, of_impulse[: len(shown)], line))
        curves.append(Curve(second, f"{name} step", shown, of_step[: len(shown)], line))
        across, up = numpy.fft.rfftfreq(len(of_impulse), 1 / rate), decibels(numpy.fft.rfft(of_impulse))
        curves.append(Curve(third, f"{name} spectrum", across, up, line))
    third.set(ylim=(-110, 10))
    labelled(first, "impulse", "frames")
    labelled(second, "step", "frames")
    labelled(third, "dB", "Hz")
    return figure, curves


def draw_difference(words):
    first, second = (samples.read_by(words, path) for path in (words.first, words.second))
    if (first.form, first.channels) != (second.form, second.channels):
        raise ValueError(f"{first.form} of {first.channels} channels and {second.form} of {second.channels}")
    if not first.frames() or not second.frames():
        raise ValueError("a file has no samples")
    figure, axes = pyplot.subplots(figsize=(10, 2.6))
    curves = []
    for channel in range(first.channels):
        count = min(len(first.channel(channel)), len(second.channel(channel)))
        difference = numpy.array(second.channel(channel)[:count], dtype=float) - numpy.array(first.channel(channel)[:count], dtype=float)
        # (fractions have no last place; 2^-15 stands for it)
        places = difference * (2**15 if first.form == "float" else 1)
        bits = numpy.sign(places) * numpy.log2(numpy.abs(places) + 1)
        curves.append(Curve(axes, f"channel {channel}", numpy.arange(count), bits))
    if first.frames() != second.frames():
        print(f"plot: of {first.frames()} and {second.frames()} frames those that both files have are drawn", file=sys.stderr)
    axes.set(title=f"{words.second} less {words.first}".replace("$", r"\$"))
    labelled(axes, "bits", "frames")
    return figure, curves


def write_data(path, curves):
    """A CSV file with a row for each point that is drawn."""
    with open(path, "w", newline="") as file:
        rows = csv.writer(file)
        rows.writerow(["curve", "x", "y"])
        for curve in curves:
            rows.writerows((curve.name, repr(float(x)), repr(float(y))) for x, y in zip(curve.across, curve.up))


def test_outputs(words, read):
    """Refuses an output that is no picture by its name, or that is read."""
    if not re.search(r"\.(png|svg|pdf)$", words.out):
        raise ValueError(f"{words.out}: the first name is the picture, and ends with .png, .svg or .pdf")
    if words.data and not words.data.endswith(".csv"):
        raise ValueError(f"{words.data}: --data names a .csv file")
    for path in filter(None, (words.out, words.data)):
        if any(os.path.exists(path) and os.path.exists(it) and os.path.samefile(path, it) for it in read):
            raise ValueError(f"{path} is read: name another output")


def main():
    parser = argparse.ArgumentParser(description=__doc__, formatter_class=argparse.RawDescriptionHelpFormatter)
    commands = parser.add_subparsers(required=True)
    for name, draw, arguments in (
        ("files", draw_files, [("files", {"nargs": "+"})]),
        ("response", draw_response, [("script", {}), ("--design", {}), ("--channel", {"type": samples.natural, "default": 0}),
                                     ("--frames", {"type": samples.positive, "default": 4096}),
                                     ("--shown", {"type": samples.positive, "default": 100, "help": "frames of the first two"})]),
        ("difference", draw_difference, [("first", {}), ("second", {})]),
    ):  # fmt: skip
        command = commands.add_parser(name)
        command.set_defaults(draw=draw)
        command.add_argument("out")
        for argument, how in arguments:
            command.add_argument(argument, **how)
        command.add_argument("--data", metavar="FILE.csv", help="writes what is drawn as numbers")
        samples.add_arguments(command)
    words = parser.parse_args()
    read = [*getattr(words, "files", [])] + [getattr(words, it, None) for it in ("script", "design", "first", "second")]
    try:
        test_outputs(words, [it for it in read if it])
        figure, curves = words.draw(words)
        for curve in curves:
            curve.draw()
        if words.draw is draw_response:
            figure.axes[-1].legend()
        if words.data:
            write_data(words.data, curves)
        figure.tight_layout()
        figure.savefig(words.out, dpi=100)
    except OSError as error:
        sys.exit(f"plot: {samples.reason_of(error)}")
    except ValueError as error:
        sys.exit(f"plot: {error}")
    except KeyboardInterrupt:
        sys.exit(130)


if __name__ == "__main__":
    main()
