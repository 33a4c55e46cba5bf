#!/usr/bin/env python3
"""Compares the samples of two files: a reference, and a dump of a device or what dspfx wrote.

    tools/compare.py reference.raw dump.raw --format q15 --channels 2
    tools/compare.py reference.raw dump.gdb            what gdb printed of an array
    tools/compare.py ideal.npy output.raw              fractions of full scale, as scipy computes them
    tools/compare.py reference.raw dump.raw --lag 50   the dump may begin up to 50 frames earlier or later

Files are WAVE, Sun AU, .npy, raw words, or text (.txt, .csv, .log, .gdb, .hex). It lists the first 20 places
that differ, then says how many samples differ, the greatest difference, and the ratio of the reference's power
to that of the difference. Where a file has fractions, differences are in last places of the other file's format.
Frames that one file has beyond the other differ, unless --common says that only those of both count.

The status is that of cmp: 0 where all samples are the same (or within --within), 1 where some differ, 2 where a
file is not read or the files cannot be compared.
"""
import argparse
import math
import sys

import samples

LISTED = 20  # the places that are shown
LOOKED_AT = 8192  # the samples by which --lag finds a shift


def shown(value):
    return f"{value:.9g}" if isinstance(value, float) else str(value)


def in_common(first, second):
    """The values of both files in one unit, and its name where a file has fractions."""
    if first.form == second.form:
        return list(first.values), list(second.values), " of full scale" if first.form == "float" else ""
    if "float" not in (first.form, second.form):
        raise ValueError(f"{first.form} and {second.form} are not compared")
    one = 2 ** samples.BITS[second.form if first.form == "float" else first.form]
    return [it * one for it in first.fractions()], [it * one for it in second.fractions()], " last places"


def report(first, second, channels, within, unit):
    """The lines of the report, and whether all is the same."""
    common = min(len(first), len(second))
    wrong = [place for place in range(common) if not abs(second[place] - first[place]) <= within]
    lines = []
    for place in wrong[:LISTED]:
        frame, channel = divmod(place, channels)
        by = shown(second[place] - first[place])
        lines += [f"frame {frame} channel {channel}: wanted {shown(first[place])}, found {shown(second[place])}, by {by}"]
    if len(wrong) > LISTED:
        lines += [f"and {len(wrong) - LISTED} more"]
    if wrong:
        lines += [f"differ: {len(wrong)} of {common} samples"]
    if wrong or ((unit or within) and common):
        lines += measured(first[:common], second[:common], unit)
    if len(first) != len(second):
        lines += [f"lengths: {len(first)} and {len(second)} samples"]
    is_same = not wrong and len(first) == len(second)
    if is_same:
        lines += [f"same: {common} samples" + (f", within {shown(within)}{unit}" if within else "")]
    return lines, is_same


def measured(first, second, unit):
    """The greatest difference, and the ratio of the powers."""
    differences = [b - a for a, b in zip(first, second)]
    noise, power = sum(it * it for it in differences), sum(it * it for it in first)
    greatest = max(map(abs, differences), default=0)
    ratio = "none, the first file is zeros" if not power else "none, there is no difference" if not noise else None
    if not math.isfinite(power + noise):
        ratio = "none, a sample is not finite"
    return [
        f"greatest: {f'{greatest:.4g}' if unit else shown(greatest)}{unit}",
        f"signal to noise: {ratio or f'{10 * math.log10(power / noise):.1f} dB'}",
    ]


def lag_of(first, second, channels, most):
    """How many frames later the second file has what the first has: the shift with the least mean difference."""
    best, top = None, loudest(first, channels) if first else 0
    for lag in sorted(range(-most, most + 1), key=abs):
        left_out = max(0, -lag) * channels
        a, b = first[left_out:], second[max(0, lag) * channels :]
        count = min(len(a), len(b))
        if 2 * count < min(len(first), len(second)) or not count:
            continue
        # (a stretch from where the reference is loudest says enough of long files)
        place = top - left_out if top >= left_out else loudest(a, channels)
        start = max(0, min(place - LOOKED_AT // 2, count - LOOKED_AT))
        pairs = list(zip(a[start:count], b[start:count]))[:LOOKED_AT]
        mean = sum((x - y) * (x - y) for x, y in pairs) / len(pairs)
        if best is None or mean < best[0]:
            best = (mean, lag)
    if best is None:
        raise ValueError("the files are too short for this --lag")
    return best[1]


def loudest(values, channels):
    place = max(range(len(values)), key=lambda it: abs(values[it]))
    return place // channels * channels


def compare(words):
    """The lines of the report, and whether all is the same."""
    first, second = (samples.read_by(words, path) for path in (words.first, words.second))
    if first.channels != second.channels:
        raise ValueError(f"{first.channels} channels and {second.channels} are not compared")
    if len(first.values) % first.channels or len(second.values) % first.channels:
        raise ValueError("a file has no whole number of frames: --channels says how many channels raw and text files have")
    left, right, unit = in_common(first, second)
    channels, head = first.channels, []
    if words.offset and words.offset * channels >= len(right):
        raise ValueError(f"--offset {words.offset} leaves none of the {second.frames()} frames of the second file")
    right = right[words.offset * channels :]
    if words.lag is not None:
        lag = lag_of(left, right, channels, words.lag)
        head = [f"lag: {lag} frames"]
        left, right = left[max(0, -lag) * channels :], right[max(0, lag) * channels :]
    if words.common:
        count = min(len(left), len(right))
        if not count:
            raise ValueError("the files have no frames in common")
        left, right = left[:count], right[:count]
    lines, is_same = report(left, right, channels, words.within, unit)
    return head + lines, is_same


def tolerance(word):
    if not 0 <= float(word) < math.inf:
        raise ValueError
    return float(word)


def main():
    parser = argparse.ArgumentParser(description=__doc__, formatter_class=argparse.RawDescriptionHelpFormatter)
    parser.add_argument("first", help="the reference")
    parser.add_argument("second")
    parser.add_argument("--offset", type=samples.natural, default=0, metavar="N", help="leaves out the first N frames of the second file; exchange the files for the first")
    parser.add_argument("--lag", type=samples.natural, metavar="N", help="finds a shift of at most N frames, and compares with it")
    parser.add_argument("--common", action="store_true", help="only the frames that both files have")
    parser.add_argument("--within", type=tolerance, default=0, metavar="N",
                        help="differences up to N last places are none, or up to N of full scale of two files of fractions; else 0")  # fmt: skip
    samples.add_arguments(parser)
    words = parser.parse_args()
    try:
        lines, is_same = compare(words)
        print(*lines, sep="\n", flush=True)
    except OSError as error:
        print(f"compare: {samples.reason_of(error)}", file=sys.stderr)
        sys.exit(2)
    except ValueError as error:
        print(f"compare: {error}", file=sys.stderr)
        sys.exit(2)
    sys.exit(0 if is_same else 1)


if __name__ == "__main__":
    samples.end_quietly()
    main()
