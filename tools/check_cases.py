#!/usr/bin/env python3
"""Lines for crates/dsp_replay/stdin: files that a check compares with the output of a script.

A stereo file through two sections, beside its output with each byte changed and cut at each byte; the scripts of
tools/port_cases.py, with one call of one port that fails, for each number of a call that there is; inputs at fault;
and lengths past their limits, in the order in which they are looked for. The values come from formulas, and not from
the program.
"""
import struct

from port_cases import PIECE, SAMPLES, SCRIPTS, biquad, bytes_of, close, header

LIMIT = 16777216  # the samples of all channels at a place of the script

STEREO = "dspfx 1 input wave q15 2 biquad 0 {16384 0 0 0 16384 0 16384 0 0 0 0 0} output wave"


def line(script, source, status, told, other, ports="", commands="check s i o"):
    """A case, whose last bytes are the file that is compared."""
    case = "%s|=%s|%s|%d|=%s|%s" % (commands, script, source.hex(), status, told, other.hex())
    return case + (ports and "|" + ports)


def same(output):
    return "dspfx: same;bytes %d;" % len(output)


def differs(place):
    return "dspfx: differs at %d;" % place


def riff_header(size, channels, rate, data, bits=16):
    frame = channels * bits // 8
    return b"RIFF" + struct.pack("<I", size) + b"WAVEfmt " + struct.pack("<IHHIIHH", 16, 1, channels, rate, rate * frame, frame, bits) + data


def stereo_cases():
    """Two frames at 44,100 frames a second behind a chunk of an odd size; the first section halves and feeds a half back."""
    frames = [(1000, -1000), (0, 0)]
    listed = b"LIST" + struct.pack("<I", 5) + b"abcde\0"
    source = riff_header(0, 2, 44100, listed + b"data" + struct.pack("<I", 8)) + bytes_of([it for frame in frames for it in frame])
    channels = [[close(16384 * value) for value in biquad([frame[c] for frame in frames])] for c in (0, 1)]
    output = riff_header(44, 2, 44100, b"data" + struct.pack("<I", 8)) + bytes_of([it for pair in zip(*channels) for it in pair])
    assert len(output) == 52 and output[-1] == 0xFF
    yield "# a stereo file through two sections, and its output"
    yield line(STEREO, source, 0, same(output), output, "seen 52", "check s i o,check s i i,check s s s,check i i i")
    yield "# its last byte is FE, and is not there; and there is one byte more"
    yield line(STEREO, source, 11, differs(51), output[:-1] + b"\xfe", "seen 52")
    yield line(STEREO, source, 11, differs(51), output[:-1], "seen 51")
    yield line(STEREO, source, 11, differs(52), output + b"\0", "seen 53")
    yield line(STEREO, source, 11, differs(52), output + output, "seen 53")
    yield "# no byte is read behind the one that decides"
    yield line(STEREO, source, 11, differs(20), output[:20] + b"\xfe" + output[21:], "other 22,seen 21")
    yield line(STEREO, source, 11, differs(52), output + b"\0\0", "other 54,seen 53")
    yield "# each byte is another"
    for place in range(len(output)):
        other = output[:place] + bytes([output[place] ^ 1 << place % 8]) + output[place + 1 :]
        yield line(STEREO, source, 11, differs(place), other, "seen %d" % (place + 1))
    yield "# cut at each byte"
    for place in range(len(output)):
        yield line(STEREO, source, 11, differs(place), output[:place], "seen %d" % place)


def port_cases(text, whole, wave):
    """Each port fails at each place."""
    script = "dspfx 1 %s %s output %s" % ("input wave q15 1" if wave else "input raw q15 1 8000", text, "wave" if wave else "raw")
    given = whole(SAMPLES)
    source = (header(len(SAMPLES), 8000) if wave else b"") + bytes_of(SAMPLES)
    output = (header(len(given), 4000 if text.startswith("decimate") else 8000) if wave else b"") + bytes_of(given)
    told, ports = same(output), "piece %d,%%s %%d,taken %%d,seen %%d" % PIECE
    # the script is 61 bytes a read, and a read more finds its end
    for place in range(1, (len(script) + 60) // 61 + 2):
        yield line(script, source, 6, "dspfx: script not read;", output, ports % ("script", place, 0, 0))
    # each read gives four bytes; raw input ends with a read more
    for place in range(1, (len(source) + PIECE - 1) // PIECE + (1 if wave else 2)):
        yield line(script, source, 7, "dspfx: input not read;", output, ports % ("input", place, PIECE * (place - 1), 0))
    # each read gives the byte that is compared, and a read more finds the end
    for place in range(1, len(output) + 2):
        yield line(script, source, 14, "dspfx: other input not read;", output, ports % ("other", place, len(source), place - 1))
    # the report is written and then flushed; where it tells a fault, the status is that of the fault
    for place, told_so_far in ((1, ""), (2, told)):
        yield line(script, source, 9, told_so_far, output, ports % ("report", place, len(source), len(output)))
    for place, told_so_far in ((1, ""), (2, differs(1))):
        yield line(script, source, 11, told_so_far, output[:1], ports % ("report", place, len(source), 1))


def word_cases():
    """Words that are no check, and scripts that cannot run."""
    usage = ("dspfx: usage: run SCRIPT IN OUT [block N], gen SEED FRAMES SCRIPT OUT, print SCRIPT, resume stop K SCRIPT IN OUT, "
             "resume go STATE IN OUT, bank SCRIPT IN OUT [block N], convert wave au IN OUT, convert au wave IN OUT, check SCRIPT IN OUT;")  # fmt: skip
    halves = "dspfx 1 input raw q15 1 8000 fir {16384} output raw"
    source, output, untouched = bytes_of([1000]), bytes_of([500]), "taken 0,seen 0"
    words = "check,check s,check s i,check s i ,check  i o,check s  o,check s i o block 2,check s i o o,checks s i o"
    yield "# words that are no check"
    yield line(halves, source, 1, usage, output, untouched, words)
    yield "# scripts that are at fault, or cannot run"
    yield line("dspfx 1 input raw q15 1 8000 fir { 40000 } output raw", source, 2, "dspfx: script: OutOfRange at 35, low -32768, high 32767;", output, untouched)
    yield line("dspfx 1 input raw q15 1 8000 block 5 decimate 2 {16384} output raw", source, 3, "dspfx: block length 5, unit 2;", output, untouched)


def ones(count):
    return "{%s}" % " ".join(["1"] * count)


WIDE = "interpolate 255 %s interpolate 255 %s" % (ones(255), ones(255))  # 65,025 samples for each


def fault_cases():
    """Inputs at fault, and lengths past their limits, before the other file is called."""
    cut = header(6, 8000) + bytes_of(SAMPLES)[:5]
    window = "conv_partial 2 3 {16384 16384}"
    zeros = lambda count: bytes(2 * count)

    def fault(text, source, told, head="input raw q15 1 8000", output="raw", status=5, taken=None):
        script = "dspfx 1 %s %s output %s" % (head, text, output)
        return line(script, source, status, "dspfx: %s;" % told, b"\0\0", "taken %d,seen 0" % (len(source) if taken is None else taken))

    of_wave = {"head": "input wave q15 1", "status": 4}
    yield "# inputs that are no WAVE file, that are cut and that are short"
    yield fault("fir {16384}", bytes_of(SAMPLES * 2), "header: NotRiff at 0", **of_wave, taken=12)
    yield fault("fir {16384}", cut[:40], "header: NoSamples at 40", **of_wave)
    yield fault("fir {16384}", cut, "header: Short at 49, declared 12, got 5", **of_wave)
    yield "# a window past its convolution, and one of no samples"
    yield fault(window, zeros(2), "lengths: window end 5, length 3")
    yield fault(window, b"", "lengths: window end 5, length 0")
    yield "# more samples than a check takes, behind a filter, in one channel and in two"
    yield fault(WIDE, zeros(259), "lengths: check size %d, limit %d" % (65025 * 259, LIMIT))
    yield fault(WIDE, zeros(260), "lengths: check size %d, limit %d" % (65025 * 260, LIMIT), head="input raw q15 2 8000")
    yield "# one sample more"
    assert 65025 * 258 + 768 - 1 == LIMIT + 1
    yield fault("%s conv %s decimate 255 {1}" % (WIDE, ones(768)), zeros(258), "lengths: check size %d, limit %d" % (LIMIT + 1, LIMIT))
    yield "# the first place of two that have more"
    yield fault("%s interpolate 2 {1 1}" % WIDE, zeros(259), "lengths: check size %d, limit %d" % (65025 * 259, LIMIT))
    yield "# a short input before a window, that before a file that would be too long, and that before a place of too many samples"
    yield fault(window, header(6, 8000) + zeros(2), "header: Short at 48, declared 12, got 4", **of_wave)
    words, longer = bytes(4 * 1100), "%s interpolate 16 %s" % (WIDE, ones(16))
    of_long = {"source": riff_header(0, 1, 8000, b"data" + struct.pack("<I", len(words)), 32) + words, "head": "input wave q31 1", "output": "wave"}
    yield fault("%s conv_partial 4294967295 1 {1}" % longer, told="lengths: window end 4294967296, length %d" % (1040400 * 1100), **of_long)
    yield fault(longer, told="lengths: riff size %d, limit 4294967294" % (36 + 4 * 1040400 * 1100), **of_long)
    of_long["output"] = "raw"
    yield fault(longer, told="lengths: check size %d, limit %d" % (65025 * 1100, LIMIT), **of_long)


def correlation_cases():
    """More samples than a correlation of a run holds: each is a half, and again, then half of each behind the lags."""
    samples = [1000, -7, 32767, -32768, 5, 0, -1, 2, 3, 4, 12345, -12345, 99, -99, 7, 8, 9]
    half = lambda value: close(16384 * value)
    halves = "{%s}" % " ".join(["16384"] * 255)
    text = "interpolate 255 %s interpolate 255 %s correlate {16384} decimate 255 {16384} decimate 255 {16384}" % (halves, halves)
    wide = [half(half(value)) for value in samples for _ in range(65025)]
    assert len(wide) > 1048576
    y = [0] * (len(wide) - 1) + [half(value) for value in wide]
    for _ in (1, 2):
        y = [half(value) for value in y[: len(y) // 255 * 255 : 255]]
    output = bytes_of(y)
    script = "dspfx 1 input raw q15 1 8000 %s output raw" % text
    yield "# a correlation that holds more than that of a run"
    yield line(script, bytes_of(samples), 0, same(output), output, "seen %d" % len(output))


def main():
    print(*stereo_cases(), *word_cases(), *fault_cases(), *correlation_cases(), sep="\n")
    for name, text, whole, _, _ in SCRIPTS:
        for wave in (False, True):
            print("# a check of %s, %s: each port fails at each place" % (name, "WAVE" if wave else "raw"))
            print(*port_cases(text, whole, wave), sep="\n")


if __name__ == "__main__":
    main()
