#!/usr/bin/env python3
"""Lines for crates/dsp_replay/stdin: runs that are stopped after a frame and go on, and states at fault.

The scripts of tools/port_cases.py in blocks of two frames over its six samples, raw and as a WAVE file. Each is stopped
after every number of frames and goes on; in the middle, one call of one port fails, for each number of a call that
there is. The values come from formulas, and not from the program.
"""
import struct

from header_cases import chunk, coded, extension, format_body, riff, samples
from header_cases import header as header_of
from port_cases import BLOCK, PIECE, SAMPLES, SCRIPTS, biquad, bytes_of, header, report

MIDDLE = 3

# what each script keeps of the samples x, an open group's place, flag or length behind them
KEPT = {
    "biquad": lambda x: [*reversed(([0, 0] + x)[-2:]), *reversed(([0, 0] + biquad(x))[-2:])],
    "conv": lambda x: [([0] + x)[-1], min(len(x), 1)],
    "correlate": list,
    "decimate": lambda x: [([0] + x)[-1], len(x) % 2],
}


def state_of(script, count, numbers):
    text = script.encode()
    return (b"DSPSTATE" + struct.pack("<II", 1, len(text)) + text + struct.pack("<I", count)
            + struct.pack("<%dq" % len(numbers), *numbers))  # fmt: skip


def line(command, script, source, status, told, written, ports=""):
    """A case. What is told is a text, or the bytes of a state."""
    told = told.hex() if isinstance(told, bytes) else "=" + told
    script = script.hex() if isinstance(script, bytes) else "=" + script.replace("\n", ";")
    return "%s s i o|%s|%s|%d|%s|%s|piece %d%s" % (
        command, script, source.hex(), status, told, written.hex(), PIECE, ports and "," + ports)  # fmt: skip


class Parts:
    """A script over the samples, and what each of its parts reads and writes."""

    def __init__(self, name, text, whole, live, products, wave):
        head, out = ("wave q15 1", "wave") if wave else ("raw q15 1 8000", "raw")
        self.script = "dspfx 1\ninput %s\nblock %d\n%s\noutput %s\n" % (head, BLOCK, text, out)
        self.name, self.live, self.wave = name, live, wave
        self.given = whole(SAMPLES)
        self.front = header(len(SAMPLES), 8000) if wave else b""
        self.first = header(len(self.given), 4000 if name == "decimate" else 8000) if wave else b""
        self.source = self.front + bytes_of(SAMPLES)
        self.done = report(len(SAMPLES), len(self.given), products(len(SAMPLES)))

    def state(self, count):
        return state_of(self.script, count, KEPT[self.name](SAMPLES[:count]))

    def between(self, first, last):
        """What the samples from the first to the last add."""
        return bytes_of(self.live(SAMPLES[:last])[len(self.live(SAMPLES[:first])) :])

    def to(self, count):
        return self.first + self.between(0, count)

    def rest(self, count):
        return (self.first + bytes_of(self.given))[len(self.to(count)) :]


def steps_between(first, last):
    return [(at, min(at + BLOCK, last)) for at in range(first, last, BLOCK)]


def pieces_of(data, size=PIECE):
    return [data[at : at + size] for at in range(0, len(data), size)]


def whole_cases(parts):
    """Stopped after each number of frames, and gone on with."""
    for count in range(len(SAMPLES) + 1):
        taken = len(parts.front) + 2 * count
        yield line("resume stop %d" % count, parts.script, parts.source, 0, parts.state(count), parts.to(count), "taken %d" % taken)
        yield line("resume go", parts.state(count), parts.source, 0, parts.done, parts.rest(count), "taken %d" % len(parts.source))


def script_cases(command, text):
    # (the script or state is 61 bytes a read, and a read more finds its end)
    size = len(text)
    for place in range(1, (size + 60) // 61 + 2):
        yield place


def stop_cases(parts):
    """One call fails in a run that is to be stopped in the middle."""
    command = "resume stop %d" % MIDDLE
    for place in script_cases(command, parts.script):
        yield line(command, parts.script, parts.source, 6, "dspfx: script not read;", b"", "script %d,taken 0" % place)
    # each read is a piece of the header, or a block of samples
    taken, written = [0], [b""]
    for piece in pieces_of(parts.front):
        taken.append(taken[-1] + len(piece))
        written.append(parts.first if taken[-1] == len(parts.front) else b"")
    for first, last in steps_between(0, MIDDLE):
        taken.append(len(parts.front) + 2 * last)
        written.append(parts.to(last))
    for place, (bytes_taken, part) in enumerate(zip(taken[:-1], written[:-1]), 1):
        yield line(command, parts.script, parts.source, 7, "dspfx: input not read;", part, "input %d,taken %d" % (place, bytes_taken))
    # each call of the output takes a piece, and the last one flushes
    calls = pieces_of(parts.first)
    for first, last in steps_between(0, MIDDLE):
        calls += pieces_of(parts.between(first, last))
    for place in range(1, len(calls) + 2):
        yield line(command, parts.script, parts.source, 8, "dspfx: output not written;", b"".join(calls[: place - 1]), "output %d" % place)
    # the state is reported, and then flushed
    for place, told in ((1, ""), (2, parts.state(MIDDLE))):
        yield line(command, parts.script, parts.source, 9, told, parts.to(MIDDLE), "report %d,taken %d" % (place, taken[-1]))


def go_cases(parts):
    """One call fails in a run that goes on from the middle."""
    state, command = parts.state(MIDDLE), "resume go"
    for place in script_cases(command, state):
        yield line(command, state, parts.source, 6, "dspfx: script not read;", b"", "script %d,taken 0" % place)
    taken, written = [0], [b""]
    for piece in pieces_of(parts.source[: len(parts.front)]) + pieces_of(parts.source[len(parts.front) :][: 2 * MIDDLE]):
        taken.append(taken[-1] + len(piece))
        written.append(b"")
    for first, last in steps_between(MIDDLE, len(SAMPLES)):
        taken.append(len(parts.front) + 2 * last)
        written.append(parts.between(MIDDLE, last))
    # (a WAVE file says where it ends, and of a raw one a read more finds its end, behind a block that is not whole)
    if parts.wave:
        taken, written = taken[:-1], written[:-1]
    else:
        written[-1] = written[-2]
    for place, (bytes_taken, part) in enumerate(zip(taken, written), 1):
        yield line(command, state, parts.source, 7, "dspfx: input not read;", part, "input %d,taken %d" % (place, bytes_taken))
    calls = []
    for first, last in steps_between(MIDDLE, len(SAMPLES)):
        calls += pieces_of(parts.between(first, last))
    calls += pieces_of(parts.rest(len(SAMPLES)))
    for place in range(1, len(calls) + 2):
        yield line(command, state, parts.source, 8, "dspfx: output not written;", b"".join(calls[: place - 1]), "output %d" % place)
    for place, told in ((1, ""), (2, parts.done)):
        yield line(command, state, parts.source, 9, told, parts.rest(MIDDLE), "report %d,taken %d" % (place, len(parts.source)))


def fault_cases(parts):
    """Bytes that are no state, by the first field that is at fault."""
    state, size = parts.state(1), len(parts.script)
    fault = lambda data, told: line("resume go", data, parts.source, 13, "dspfx: state: %s;" % told, b"", "taken 0")
    for end in range(len(state)):
        yield fault(state[:end], "NotState at 0" if end < 8 else "Cut at %d" % end)
    for at in range(8):
        yield fault(state[:at] + bytes([state[at] ^ 1]) + state[at + 1 :], "NotState at 0")
    yield fault(state[:8] + struct.pack("<I", 2) + state[12:], "Version at 8, got 2")
    yield fault(state[:8] + struct.pack("<I", 0xFFFFFFFF) + state[12:], "Version at 8, got 4294967295")
    yield fault(state[:12] + struct.pack("<I", (1 << 20) + 1) + state[16:], "Text at 16")
    yield fault(state[:12] + struct.pack("<I", size - 1) + state[16:], "Text at 16")
    yield fault(state[:12] + struct.pack("<I", 1 << 20) + state[16:], "Cut at %d" % len(state))
    # (two spaces are read, and are not canonical)
    yield fault(state[:16] + state[16:].replace(b"dspfx 1", b"dspfx\n1", 1), "Text at 16")
    yield fault(state[:-8] + struct.pack("<q", 32768), "Value at %d" % (size + 20))
    yield fault(state[: size + 20] + struct.pack("<q", -32769) + state[size + 28 :], "Value at %d" % (size + 20))
    yield fault(state + b"\0", "Extra at %d" % len(state))


def length_cases(parts):
    """Inputs that end before the frame."""
    for count, got in ((7, 6), (4294967295, 6)):
        told = "dspfx: lengths: resume at %d, input %d;" % (count, got)
        written = b"" if parts.wave else parts.to(6)
        yield line("resume stop %d" % count, parts.script, parts.source, 5, told, written)
    short = parts.source[:4] if not parts.wave else header(2, 8000) + bytes_of(SAMPLES[:2])
    yield line("resume go", parts.state(MIDDLE), short, 5, "dspfx: lengths: resume at %d, input 2;" % MIDDLE, b"")
    if parts.wave:
        cut = parts.source[: len(parts.front) + 5]
        told = "dspfx: header: Short at 49, declared 12, got 5;"
        yield line("resume stop %d" % MIDDLE, parts.script, cut, 4, told, parts.to(2))
        yield line("resume go", parts.state(MIDDLE), cut, 4, told, b"")


def wide_cases():
    """A file of 24 bits with an extended header, two channels, a filter and a measure behind it, and an extended output."""
    frames = [(8388607, -8388608), (-1, 1), (4660, -86), (0, 8388607), (-8388608, 3)]
    data = b"".join(value.to_bytes(3, "little", signed=True) for frame in frames for value in frame)
    source = riff(chunk(b"fmt ", format_body(0xFFFE, 2, 48000, 24, extra=extension(24))), chunk(b"data", data))
    script = "dspfx 1\ninput wave q31 2\nblock 2\nfir {536870912 1073741824}\nmax\noutput wavex\n"
    values = list(samples(data, 24))
    channels = [values[0::2], values[1::2]]
    # (a half of each sample and a quarter of the one before it)
    given = [[(2 * now + before) >> 2 for now, before in zip(x, [0, *x])] for x in channels]
    bytes_in_all = coded([it for pair in zip(*given) for it in pair], "q31", "wavex")
    best = lambda y: (max(y), y.index(max(y)))
    done = "dspfx: done;in 5 frames of 2 channels q31;out 5 frames of 2 channels q31;multiplies 20;"
    done += "".join("max 2 channel %d = %d at %d;" % (c, *best(y)) for c, y in enumerate(given))
    first = header_of("q31", 2, 48000, "wavex", len(bytes_in_all))
    for count in range(len(frames) + 1):
        kept = [([0] + x[:count])[-1] for x in channels]
        for y in given:
            kept += [1, *best(y[:count]), count] if count else [0, 0, 0, 0]
        state = state_of(script, count, kept)
        yield line("resume stop %d" % count, script, source, 0, state, first + bytes_in_all[: 8 * count])
        yield line("resume go", state, source, 0, done, bytes_in_all[8 * count :])


def main():
    print("# 24 bits, two channels, extended headers: stopped after each frame")
    print(*wide_cases(), sep="\n")
    for script in SCRIPTS:
        for wave in (False, True):
            parts = Parts(*script, wave)
            print("# %s, %s: stopped after each frame, and each port fails at each place" % (parts.name, "WAVE" if wave else "raw"))
            cases = [*whole_cases(parts), *stop_cases(parts), *go_cases(parts), *length_cases(parts)]
            print(*cases, *(fault_cases(parts) if parts.name == "biquad" and not wave else ()), sep="\n")


if __name__ == "__main__":
    main()
