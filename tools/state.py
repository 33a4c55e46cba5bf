#!/usr/bin/env python3
"""Prints what a saved state holds: its frame, its script, and the numbers that each block keeps.

    tools/state.py STATE

STATE is what `./dspfx resume stop` wrote to standard output. Samples come from the oldest to the newest, as integers of
the format at their place. The status is 1 where the file is no state.
"""
import struct
import sys
import textwrap

import language
import samples

MARK, HEAD = b"DSPSTATE", 16
SECTION = ("x(n-1)", "x(n-2)", "y(n-1)", "y(n-2)")
# (of these blocks one filter or measure stands for all channels)
JOINED = ("lms", "dot", "cmplx_dot")
GROUPED = ("mat_add", "mat_sub", "mat_scale", "mat_trans", "mat_mult")
ONE_CHANNEL, TWO_CHANNELS = ("add", "sub", "mult", "cmplx_mag_squared"), ("cmplx_mult", "cmplx_mult_real")


class Fault(Exception):
    pass


def group_of(block):
    """How many frames a group of a matrix block has."""
    return int(block.numbers[0]) * int(block.numbers[1])


def parts_of(block, frames):
    """What a filter or measure of the block keeps of so many frames: names, and how many numbers each has."""
    taps = len(block.lists[0]) if block.lists else 0
    numbers = [int(it) for it in block.numbers if it not in language.FORMATS]
    if block.word in ("biquad", "biquad64"):
        size = 6 if block.word == "biquad" and block.form == "q15" else 5
        return [(f"section {it + 1} {name}", 1) for it in range(taps // size) for name in SECTION]
    if block.word in GROUPED:
        return [("samples of the open group", frames % group_of(block))]
    parts = {
        "fir": lambda: [("last samples", taps - 1)],
        "sparse": lambda: [("last samples", max(block.lists[1]))],
        "decimate": lambda: [("last samples", taps + numbers[0] - 2), ("phase", 1)],
        "interpolate": lambda: [("last samples", taps // numbers[0] - 1)],
        "lattice_fir": lambda: [("sections", taps)],
        "lattice_iir": lambda: [("sections", taps)],
        "conv": lambda: [("last samples", taps - 1), ("has begun", 1)],
        "conv_partial": lambda: [("last samples", taps - 1), ("frames of the window", 1)],
        "correlate": lambda: [("gathered samples", frames)],
        "lms": lambda: [("last samples", taps - 1), ("taps", taps)],
        "pid": lambda: [("x(n-1)", 1), ("x(n-2)", 1), ("y(n-1)", 1)],
        "power": lambda: [("sum", 1)],
        "dot": lambda: [("sum", 1)],
        "cmplx_dot": lambda: [("real sum", 1), ("imaginary sum", 1)],
        "max": lambda: [("has begun", 1), ("value", 1), ("at", 1), ("frames", 1)],
        "min": lambda: [("has begun", 1), ("value", 1), ("at", 1), ("frames", 1)],
    }
    return parts.get(block.word, list)()


def channels_after(block, channels):
    if block.word == "route":
        return len(block.lists[0])
    return 1 if block.word in ONE_CHANNEL else 2 if block.word in TWO_CHANNELS else channels


def frames_after(block, frames):
    """How many frames the block has given of so many."""
    numbers = [int(it) for it in block.numbers if it not in language.FORMATS]
    if block.word == "decimate":
        return frames // numbers[0]
    if block.word == "interpolate":
        return frames * numbers[0]
    if block.word == "conv_partial":
        return max(0, min(frames - numbers[0], numbers[1]))
    if block.word == "correlate":
        return 0
    if block.word in GROUPED:
        given = numbers[0] * numbers[2] if block.word == "mat_mult" else group_of(block)
        return frames // group_of(block) * given
    return frames


def places_of(script, frames):
    """Each block that keeps numbers, with its number, its channels, and the parts of each."""
    channels = script.channels
    for number, block in enumerate(script.blocks, 1):
        parts = parts_of(block, frames)
        if parts:
            yield number, block.word, 1 if block.word in JOINED else channels, parts
        channels, frames = channels_after(block, channels), frames_after(block, frames)


def read_state(data):
    """The script's text, the frame and the numbers of a state."""
    if data[:8] != MARK:
        raise Fault("no saved state: its first bytes are not DSPSTATE")
    if len(data) < HEAD:
        raise Fault(f"cut at byte {len(data)}, in its head")
    version, size = struct.unpack_from("<II", data, 8)
    if version != 1:
        raise Fault(f"a state of version {version}, and 1 is read")
    if len(data) < HEAD + size + 4:
        raise Fault(f"cut at byte {len(data)}, in its script")
    text = data[HEAD : HEAD + size].decode("ascii", "replace")
    (frames,) = struct.unpack_from("<I", data, HEAD + size)
    return text, frames, data[HEAD + size + 4 :]


def lines_of(data):
    text, frames, rest = read_state(data)
    try:
        script = language.read_script(text)
        places = list(places_of(script, frames))
    except (IndexError, TypeError, ValueError) as error:
        raise Fault("its script is none") from error
    wanted = sum(channels * sum(count for _, count in parts) for _, _, channels, parts in places)
    if len(rest) != 8 * wanted:
        raise Fault(f"its blocks keep {wanted} numbers of 8 bytes after {frames} frames, and {len(rest)} bytes are there")
    numbers = iter(struct.unpack(f"<{wanted}q", rest))
    yield f"after {frames} frames of"
    yield from (f"    {line}" for line in text.splitlines())
    for number, word, channels, parts in places:
        for channel in range(channels):
            yield f"block {number} {word}" + (f", channel {channel}" if word not in JOINED else "")
            for name, count in parts:
                values = " ".join(str(next(numbers)) for _ in range(count)) or "none"
                yield from textwrap.wrap(f"{name}: {values}", 100, initial_indent="    ", subsequent_indent="        ")


def main(words):
    is_help = words in (["--help"], ["-h"])
    if is_help or len(words) != 1:
        print(__doc__.strip(), file=sys.stdout if is_help else sys.stderr)
        return 0 if is_help else 1
    try:
        with open(words[0], "rb") as file:
            data = file.read()
        for line in lines_of(data):
            print(line)
        sys.stdout.flush()
    except OSError as error:
        print(f"state: {samples.reason_of(error)}", file=sys.stderr)
        return 1
    except Fault as fault:
        print(f"state: {words[0]}: {fault}", file=sys.stderr)
        return 1
    return 0


if __name__ == "__main__":
    samples.end_quietly()
    sys.exit(main(sys.argv[1:]))
