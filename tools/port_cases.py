#!/usr/bin/env python3
"""Lines for crates/dsp_replay/stdin: each port fails at each place.

Four scripts in blocks of two frames over six samples, raw and as a WAVE file. One call of one port fails,
for each number of a call that there is, and each line says what must then be answered, reported and written.
The values come from the formulas below, and not from the program.
"""
import struct

SAMPLES = [1000, 0, -7, -1000, 32767, -32768]
BLOCK = 2
PIECE = 4  # bytes of a call: the two samples of a block


def close(total):
    """A sum of products of two samples as a sample."""
    return max(-32768, min(32767, total >> 15))


def biquad(x):
    """y(n) = (b0 x(n) + a1 y(n-1)) / 2^15 for b0 = a1 = 16384."""
    y = []
    for n, value in enumerate(x):
        y.append(close(16384 * value + 16384 * (y[n - 1] if n else 0)))
    return y


def conv(x):
    """All values of the convolution with two halves."""
    before = lambda n: x[n] if 0 <= n < len(x) else 0
    return [close(16384 * before(n) + 16384 * before(n - 1)) for n in range(len(x) + 1)] if x else []


def correlate(x):
    """Places of the lags before the first are zero, and then half of each sample."""
    return [0] * (len(x) - 1) + [close(16384 * value) for value in x]


def decimate(x):
    """Half of the first sample of each whole pair."""
    return [close(16384 * x[n]) for n in range(0, len(x) - 1, 2)]


# name, text, the values of the whole signal, those that are live, products for n samples of a whole signal
SCRIPTS = [
    ("biquad", "biquad 0 {16384 0 0 0 16384 0}", biquad, biquad, lambda n: 5 * n),
    ("conv", "conv {16384 16384}", conv, lambda x: conv(x)[: len(x)], lambda n: 2 * (n + 1)),
    ("correlate", "correlate {16384}", correlate, lambda x: [], lambda n: n),
    ("decimate", "decimate 2 {16384}", decimate, decimate, lambda n: n // 2),
]


def bytes_of(values):
    return b"".join(struct.pack("<h", value) for value in values)


def header(count, rate):
    """The plain header of so many 16-bit samples of one channel."""
    size = 2 * count
    return (b"RIFF" + struct.pack("<I", 36 + size) + b"WAVEfmt "
            + struct.pack("<IHHIIHH", 16, 1, 1, rate, 2 * rate, 2, 16) + b"data" + struct.pack("<I", size))


def report(count, given, products):
    return ("dspfx: done;in %d frames of 1 channels q15;out %d frames of 1 channels q15;multiplies %d;"
            % (count, given, products))


def line(script, source, status, told, written, ports):
    """A run, and where there is a biquad also a run of `bank`, which has the same bytes and report."""
    commands = ",".join("%s s i o block %d" % (name, BLOCK) for name in (["run", "bank"] if "biquad" in script else ["run"]))
    return "%s|=%s|%s|%d|=%s|%s|piece %d,%s" % (commands, script, source.hex(), status, told, written.hex(), PIECE, ports)


def cases(text, whole, live, products, wave):
    head = "input wave q15 1" if wave else "input raw q15 1 8000"
    script = "dspfx 1 %s %s output %s" % (head, text, "wave" if wave else "raw")
    given = whole(SAMPLES)
    # the rate of the output is that of the input, but for a decimator
    rate = 4000 if text.startswith("decimate") else 8000
    front = header(len(SAMPLES), 8000) if wave else b""
    first = header(len(given), rate) if wave else b""
    source = front + bytes_of(SAMPLES)
    done = report(len(SAMPLES), len(given), products(len(SAMPLES)))
    output = first + bytes_of(given)
    # the script is 61 bytes a read, and a read more finds its end
    for place in range(1, (len(script) + 60) // 61 + 2):
        yield line(script, source, 6, "dspfx: script not read;", b"", "script %d,taken 0" % place)
    # each read gives the two samples of a block, or as many bytes of the header; raw input ends with a read more
    reads = (len(source) + PIECE - 1) // PIECE + (0 if wave else 1)
    for place in range(1, reads + 1):
        taken = PIECE * (place - 1)
        blocks = max(0, taken - len(front)) // (2 * BLOCK)
        part = first + bytes_of(live(SAMPLES[: BLOCK * blocks])) if taken >= len(front) else b""
        yield line(script, source, 7, "dspfx: input not read;", part, "input %d,taken %d" % (place, taken))
    # each call of the output takes the next four bytes of a piece, and the last one flushes
    pieces = [first] + [bytes_of(live(SAMPLES[: end])[len(live(SAMPLES[: end - BLOCK])):]) for end in (2, 4, 6)]
    pieces.append(bytes_of(given[len(live(SAMPLES)):]))
    calls = [piece[at: at + PIECE] for piece in pieces for at in range(0, len(piece), PIECE)]
    if text.startswith("correlate") or text.startswith("conv"):
        calls = tail_calls(calls, pieces)
    for place in range(1, len(calls) + 2):
        yield line(script, source, 8, "dspfx: output not written;", b"".join(calls[: place - 1]), "output %d" % place)
    # the report is written and then flushed
    for place, told in ((1, ""), (2, done)):
        yield line(script, source, 9, told, output, "report %d,taken %d" % (place, len(source)))
    yield line(script, source, 0, done, output, "taken %d" % len(source))


def tail_calls(calls, pieces):
    """The tail comes in pieces of at most a block, each of them a call."""
    front = b"".join(pieces[:-1])
    kept = [piece[at: at + PIECE] for piece in pieces[:-1] for at in range(0, len(piece), PIECE)]
    assert b"".join(kept) == front
    tail = pieces[-1]
    return kept + [tail[at: at + 2 * BLOCK] for at in range(0, len(tail), 2 * BLOCK)]


def main():
    for name, text, whole, live, products in SCRIPTS:
        for wave in (False, True):
            print("# %s, %s: each port fails at each place" % (name, "WAVE" if wave else "raw"))
            for case in cases(text, whole, live, products, wave):
                print(case)


if __name__ == "__main__":
    main()
