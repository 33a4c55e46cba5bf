#!/usr/bin/env python3
"""Makes cases of WAVE files for dsp_replay: headers with an extension and without, samples of 8 to 32 bits,
files that are cut or wrong in one place, and headers that are written.

    tools/header_cases.py COUNT [SEED]   writes the cases that are named here, and COUNT random ones

What is expected is said by the reader below, which stands for itself: it knows the rules of docs/WAVE.md and
nothing of the program.
"""
import random
import struct
import sys

BITS = {"q7": (8,), "q15": (16,), "q31": (32, 24)}
PCM = bytes.fromhex("0100000000001000800000aa00389b71")
NONE = 2**32 - 1


def chunk(name, body, size=None):
    return name + struct.pack("<I", len(body) if size is None else size) + body + b"\0" * (len(body) % 2)


def format_body(tag, channels, rate, bits, align=None, extra=b""):
    align = channels * bits // 8 if align is None else align
    return struct.pack("<HHIIHH", tag, channels, rate, rate * align % 2**32, align, bits) + extra


def extension(bits, subformat=PCM, size=22, mask=0):
    return struct.pack("<HHI", size, bits, mask) + subformat


def riff(*chunks):
    body = b"WAVE" + b"".join(chunks)
    return b"RIFF" + struct.pack("<I", len(body)) + body


# ---- what a file says

class Fault(Exception):
    pass


def judge(data, format, channels):
    """The rate, the bits, where the samples begin and their size; or the fault and its place."""
    def fault(text, offset, **fields):
        raise Fault(f"{text} at {offset}" + "".join(f", {name} {value}" for name, value in fields.items()))

    def u16(place):
        return struct.unpack_from("<H", data, place)[0]

    if data[:4] != b"RIFF":
        fault("NotRiff", 0)
    if data[8:12] != b"WAVE":
        fault("NotWave", 8)
    place, said = 12, None
    while True:
        if len(data) < place + 8:
            fault("NoSamples", len(data))
        name, size = data[place:place + 4], struct.unpack_from("<I", data, place + 4)[0]
        body = place + 8
        came = min(size, len(data) - body)
        if name == b"data":
            if said is None:
                fault("NoFormat", place)
            return *said, body, size
        if name == b"fmt " and said is None:
            if size < 16:
                fault("FormatSize", place + 4, got=size)
            if came < 16:
                fault("NoSamples", len(data))
            if u16(body) not in (1, 0xFFFE):
                fault("Tag", body, got=u16(body))
            if u16(body) == 0xFFFE:
                if size < 40:
                    fault("FormatSize", place + 4, got=size)
                if came < 40:
                    fault("NoSamples", len(data))
                if data[body + 24:body + 40] != PCM:
                    fault("Tag", body + 24, got=u16(body + 24))
            if u16(body + 2) != channels:
                fault("Channels", body + 2, got=u16(body + 2), wanted=channels)
            bits = u16(body + 14)
            if bits not in BITS[format]:
                fault("Bits", body + 14, got=bits, wanted=BITS[format][0])
            if u16(body + 12) != channels * bits // 8:
                fault("Align", body + 12, got=u16(body + 12), wanted=channels * bits // 8)
            said = struct.unpack_from("<I", data, body + 4)[0], bits
        place = body + size + size % 2


def samples(data, bits):
    width = bits // 8
    for at in range(0, len(data) // width * width, width):
        piece = data[at:at + width]
        yield piece[0] - 128 if bits == 8 else int.from_bytes(piece, "little", signed=True) * (256 if bits == 24 else 1)


def coded(values, format, container):
    width = BITS[format][0] // 8
    lift = 128 if format == "q7" and container != "raw" else 0
    return b"".join((value + lift).to_bytes(width, "little", signed=lift == 0) for value in values)


def header(format, channels, rate, container, size):
    if container == "raw":
        return b""
    bits = BITS[format][0]
    wide = container == "wavex"
    body = format_body(0xFFFE if wide else 1, channels, rate, bits, extra=extension(bits) if wide else b"")
    total = NONE if size is None else 20 + len(body) + size + size % 2
    return b"RIFF" + struct.pack("<I", total) + b"WAVE" + chunk(b"fmt ", body) + b"data" + struct.pack("<I", NONE if size is None else size)


def case(name, data, format, channels, container, words="run s i o", block=None):
    """A file through a script of one block, or none: the line of the case."""
    script = f"dspfx 1 input wave {format} {channels} {block + ' ' if block else ''}output {container}"
    try:
        rate, bits, start, size = judge(data, format, channels)
    except Fault as fault:
        return line(name, words, script, data, 4, f"dspfx: header: {fault}", b"")
    frame = channels * bits // 8
    came = data[start:] if size == NONE else data[start:start + size]
    if size != NONE and len(came) // frame < size // frame:
        return None
    values = list(samples(came[:len(came) // frame * frame], bits))
    if block == "negate":
        low, high = -2**(BITS[format][0] - 1), 2**(BITS[format][0] - 1) - 1
        values = [max(low, min(high, -value)) for value in values]
    given = coded(values, format, container)
    known = None if size == NONE else len(given)
    frames = len(values) // channels
    report = ";".join(["dspfx: done", f"in {frames} frames of {channels} channels {format}", f"out {frames} frames of {channels} channels {format}", "multiplies 0"])
    pad = b"\0" if container != "raw" and known is not None and known % 2 else b""
    return line(name, words, script, data, 0, report, header(format, channels, rate, container, known) + given + pad)


def line(name, words, script, data, status, report, output):
    comment = f"# {name}\n" if name else ""
    return f"{comment}{words}|={script}|{data.hex()}|{status}|={report};|{output.hex()}"


# ---- cases

BLOCKS = "run s i o,run s i o block 1,run s i o block 2"


def plain(format, channels, bits, data, rate=8000, size=None):
    return riff(chunk(b"fmt ", format_body(1, channels, rate, bits)), chunk(b"data", data, size))


def wide(channels, bits, data, rate=8000, subformat=PCM, tag=0xFFFE, cut=None, **rest):
    body = format_body(tag, channels, rate, bits, extra=extension(bits, subformat, **rest))
    return riff(chunk(b"fmt ", body[:cut] if cut else body), chunk(b"data", data))


def named():
    three = bytes.fromhex("010080")
    yield case("24 bits, negated", plain("q31", 1, 24, three), "q31", 1, "wave", BLOCKS, "negate")
    yield case("24 bits of two channels", plain("q31", 2, 24, bytes(range(250, 256)) + bytes(range(12))), "q31", 2, "raw", BLOCKS)
    yield case("the ends of 24 bits", plain("q31", 1, 24, bytes.fromhex("000080ffff7f000000ffffff010000")), "q31", 1, "raw", BLOCKS)
    yield case("24 bits and a torn frame", plain("q31", 1, 24, three + b"\x05\x06"), "q31", 1, "wave", BLOCKS)
    yield case("24 bits to the end", plain("q31", 1, 24, three * 3 + b"\7", size=NONE)[:-1], "q31", 1, "wave", BLOCKS)
    yield case("24 bits with an extension", wide(2, 24, three * 4), "q31", 2, "wave", BLOCKS)
    yield case("an extensible output", plain("q15", 1, 16, b"\xe8\x03"), "q15", 1, "wavex", BLOCKS)
    yield case("that file as an input", wide(1, 16, b"\xe8\x03"), "q15", 1, "wave", BLOCKS)
    yield case("an extensible output of an odd size", plain("q7", 1, 8, b"\x80\x81\x7f"), "q7", 1, "wavex", BLOCKS)
    yield case("an extensible output of no known length", plain("q31", 1, 32, b"\1\2\3\4", size=NONE), "q31", 1, "wavex", BLOCKS)
    yield case("another subformat", wide(1, 16, b"\xe8\x03", subformat=b"\3" + PCM[1:]), "q15", 1, "wave")
    yield case("the end of another subformat", wide(1, 16, b"\xe8\x03", subformat=PCM[:15] + b"\x72"), "q15", 1, "wave")
    for size in 16, 18, 39:
        yield case(f"an extension in {size} bytes", wide(1, 16, b"\xe8\x03", cut=size), "q15", 1, "wave")
    yield case("an extension and more", riff(chunk(b"fmt ", format_body(0xFFFE, 1, 8000, 16, extra=extension(16)) + b"more"), chunk(b"data", b"\1\2")), "q15", 1, "raw")
    yield case("other values in the extension", wide(1, 16, b"\xe8\x03", size=7, mask=5), "q15", 1, "raw")
    yield case("24 bits in 16", plain("q15", 1, 24, three), "q15", 1, "wave")
    yield case("24 bits in 8", plain("q7", 1, 24, three), "q7", 1, "wave")
    yield case("20 bits", plain("q31", 1, 20, three), "q31", 1, "wave")
    yield case("24 bits with the frame bytes of 32", riff(chunk(b"fmt ", format_body(1, 1, 8000, 24, align=4)), chunk(b"data", three)), "q31", 1, "wave")
    yield case("other channels and another tag", wide(2, 16, b"", tag=3), "q15", 1, "wave")
    yield case("other channels and another subformat", wide(2, 16, b"", subformat=b"\3" + PCM[1:]), "q15", 1, "wave")
    yield case("other channels and other bits", plain("q15", 2, 24, b""), "q15", 1, "wave")
    whole = wide(1, 16, b"\xe8\x03")
    for cut in range(12, 68):
        yield case("each cut of an extensible header" if cut == 12 else "", whole[:cut], "q15", 1, "wave")


def randoms(count, seed):
    rng = random.Random(seed)
    made = 0
    while made < count:
        format = rng.choice(list(BITS))
        bits = rng.choice(BITS[format]) if rng.random() < 0.9 else rng.choice([8, 16, 20, 24, 32])
        channels = rng.choice([1, 2, 3])
        data = rng.randbytes(rng.randrange(30))
        size = rng.choice([None, None, None, NONE])
        body = format_body(1, channels, rng.randrange(2**32), bits)
        if rng.random() < 0.5:
            body = format_body(0xFFFE, channels, rng.randrange(2**32), bits, extra=extension(bits, mask=rng.randrange(9)) + rng.randbytes(rng.choice([0, 0, 0, 3])))
        others = [chunk(bytes(rng.choices(b"abLIST ", k=4)), rng.randbytes(rng.randrange(5))) for _ in range(rng.choice([0, 0, 1]))]
        file = bytearray(riff(*others, chunk(b"fmt ", body), *others, chunk(b"data", data, size)))
        if rng.random() < 0.5:
            file[rng.randrange(min(len(file), 80))] = rng.randrange(256)
        if rng.random() < 0.2:
            del file[rng.randrange(len(file)):]
        made_case = case("", bytes(file), format, channels if rng.random() < 0.95 else channels + 1, rng.choice(["wave", "wavex", "raw"]), "run s i o,run s i o block 3")
        if made_case:
            made += 1
            yield made_case


def main():
    count = int(sys.argv[1])
    for made in [*named(), *randoms(count, int(sys.argv[2]) if len(sys.argv) > 2 else 1)]:
        print(made)


if __name__ == "__main__":
    main()
