#!/usr/bin/env python3
"""Makes cases of `convert` for dsp_replay: WAVE and Sun AU files of 8 to 32 bits both ways, files that are cut
or wrong in one place, lengths that are not known, and ports that fail.

    tools/convert_cases.py COUNT [SEED]   writes the cases that are named here, and COUNT random ones

What is expected is said by the readers below and in header_cases.py, which stand for themselves: they know the
rules of docs/WAVE.md and nothing of the program.
"""
import random
import struct
import sys

from header_cases import NONE, Fault, chunk, extension, format_body, judge, riff

LIMIT = 2**32 - 2
ENCODINGS = {2: 8, 3: 16, 4: 24, 5: 32}


class Stop(Exception):
    """The status, the line of the report, and what stands in the output."""


def au(bits, channels, data, rate=8000, size=None, offset=24, comment=b"", encoding=None):
    encoding = bits // 8 + 1 if encoding is None else encoding
    size = len(data) if size is None else size
    return b".snd" + struct.pack(">5I", offset, size, encoding, rate, channels) + comment + data


# ---- what a file says: the rate, the bits, the channels, where the samples begin, and their size

def read_au(data):
    def fault(text, offset, got=None):
        raise Fault(f"{text} at {offset}" + ("" if got is None else f", got {got}"))

    if data[:4] != b".snd":
        fault("NotAu", 0)
    if len(data) < 24:
        fault("Ended", len(data))
    offset, size, encoding, rate, channels = struct.unpack_from(">5I", data, 4)
    if offset < 24:
        fault("Offset", 4, offset)
    if encoding not in ENCODINGS:
        fault("Encoding", 12, encoding)
    if not 1 <= channels <= 16:
        fault("Channels", 20, channels)
    if len(data) < offset:
        fault("Ended", len(data))
    return rate, ENCODINGS[encoding], channels, offset, None if size == NONE else size


def own_format(data):
    """The format and the channels that the first `fmt ` chunk of a WAVE file wants of itself."""
    place = 12
    while len(data) >= place + 8:
        size = struct.unpack_from("<I", data, place + 4)[0]
        if data[place:place + 4] == b"fmt ":
            body = (data[place + 8:place + 8 + size] + bytes(16))[:16]
            channels, bits = struct.unpack_from("<H", body, 2)[0], struct.unpack_from("<H", body, 14)[0]
            return {8: "q7", 16: "q15"}.get(bits, "q31"), channels if 1 <= channels <= 16 else 16
        place += 8 + size + size % 2
    return "q31", 16


def read_wave(data):
    format, channels = own_format(data)
    rate, bits, start, size = judge(data, format, channels)
    return rate, bits, channels, start, None if size == NONE else size


# ---- what is written

def au_head(bits, channels, rate, size):
    return b".snd" + struct.pack(">5I", 24, NONE if size is None else size, bits // 8 + 1, rate, channels)


def wave_head(bits, channels, rate, size):
    total = NONE if size is None else 36 + size + size % 2
    body = format_body(1, channels, rate, bits)
    return b"RIFF" + struct.pack("<I", total) + b"WAVE" + chunk(b"fmt ", body) + b"data" + struct.pack("<I", NONE if size is None else size)


def turned(data, bits):
    """Samples in the other order of bytes; of 8 bits one of the two forms has an offset."""
    if bits == 8:
        return bytes(byte ^ 128 for byte in data)
    width = bits // 8
    return b"".join(data[at:at + width][::-1] for at in range(0, len(data), width))


def converted(data, way):
    """The output and the report; or a Stop."""
    try:
        rate, bits, channels, start, size = (read_wave if way == "wave au" else read_au)(data)
    except Fault as fault:
        raise Stop(4, f"dspfx: header: {fault};", b"") from fault
    frame = channels * bits // 8
    known = None if size is None else size // frame * frame
    total = None if known is None else 36 + known + known % 2
    if way == "au wave" and total is not None and total > LIMIT:
        raise Stop(5, f"dspfx: lengths: riff size {total}, limit {LIMIT};", b"")
    head = (au_head if way == "wave au" else wave_head)(bits, channels, rate, known)
    came = data[start:] if size is None else data[start:start + size]
    if known is not None and len(came) < known:
        whole = 65536 // frame * frame
        stands = turned(came[:len(came) // whole * whole], bits)
        raise Stop(4, f"dspfx: header: Short at {start + len(came)}, declared {size}, got {len(came)};", head + stands)
    body = turned(came[:len(came) // frame * frame], bits)
    pad = b"\0" if way == "au wave" and known is not None and known % 2 else b""
    return head + body + pad, f"dspfx: done;{len(body) // frame} frames of {channels} channels, {bits} bits;"


def case(name, data, way, ports=""):
    try:
        output, report = converted(data, way)
        status = 0
    except Stop as stop:
        status, report, output = stop.args
    return ([f"# {name}"] if name else []) + [f"convert {way} i o|=|{data.hex()}|{status}|={report}|{output.hex()}{ports}"]


def failing(name, data, way, status, output, ports):
    line = {7: "input not read", 8: "output not written"}[status]
    return [f"# {name}", f"convert {way} i o|=|{data.hex()}|{status}|=dspfx: {line};|{output.hex()}|{ports}"]


def plain(bits, channels, data, size=None, rate=8000):
    return riff(chunk(b"fmt ", format_body(1, channels, rate, bits)), chunk(b"data", data, size))


def named():
    yield case("a sample of a WAVE file in the form of AU", plain(16, 1, b"\xe8\x03"), "wave au")
    yield case("and of 8 bits", plain(8, 1, b"\x7f"), "wave au")
    for bits, data in ((8, b"\x01\x80\xff"), (16, b"\x7f\xff\x80\x00\x01\x02"), (24, b"\x80\x00\x01\x7f\xff\xff"), (32, b"\x80\x00\x00\x01\x7f\xff\xff\xfe")):
        yield case(f"{bits} bits both ways", au(bits, 1, data), "au wave")
        yield case("", plain(bits, 1, turned(data, bits)), "wave au")
        yield case("", au(bits, 1, data, size=NONE), "au wave")
        yield case("", riff(chunk(b"fmt ", format_body(0xFFFE, 1, 44100, bits, extra=extension(bits))), chunk(b"LIST", b"abc"), chunk(b"data", turned(data, bits), NONE)), "wave au")
    yield case("16 channels, and no frame", au(16, 16, bytes(range(64))), "au wave")
    yield case("", plain(8, 16, bytes(range(48))), "wave au")
    yield case("", au(24, 16, b""), "au wave")
    yield case("", plain(32, 16, b"", NONE), "wave au")
    yield case("samples begin after a comment", au(16, 1, b"\x01\x02", offset=32, comment=b"comment\0"), "au wave")
    yield case("a torn frame is dropped, where its size is declared and where it is not", au(16, 2, b"\1\2\3\4\5\6"), "au wave")
    yield case("", au(16, 2, b"\1\2\3\4\5\6", size=NONE), "au wave")
    yield case("", plain(24, 1, b"\1\2\3\4"), "wave au")
    yield case("bytes after the declared samples are not read", au(8, 1, b"\1\2\3", size=2), "au wave")
    for encoding in (0, 1, 6, 7, 27, 2**32 - 1):
        yield case("encodings that are not linear" if encoding == 0 else "", au(16, 1, b"\1\2", encoding=encoding), "au wave")
    yield case("channels and offsets past their ends", au(16, 0, b"\1\2"), "au wave")
    yield case("", au(16, 17, b"\1\2"), "au wave")
    yield case("", au(16, 1, b"\1\2", offset=23), "au wave")
    yield case("", au(16, 1, b"\1\2", offset=27), "au wave")
    yield case("", plain(12, 1, b"\1\2"), "wave au")
    yield case("", plain(16, 17, bytes(34)), "wave au")
    yield case("", b".sne" + bytes(20), "au wave")
    yield case("a WAVE file that would be too long for its sizes", au(16, 1, b"\1\2", size=LIMIT), "au wave")
    yield case("and the longest, of which most is missing", au(16, 1, b"\1\2", size=LIMIT - 36), "au wave")
    whole = au(16, 1, b"\1\2\3\4", offset=28, comment=b"ab\0\0")
    for cut in range(len(whole)):
        yield case("each cut of an AU file" if cut == 0 else "", whole[:cut], "au wave")
    whole = plain(16, 1, b"\1\2\3\4")
    for cut in range(len(whole)):
        yield case("each cut of a WAVE file" if cut == 0 else "", whole[:cut], "wave au")
    data = plain(16, 1, b"\1\2\3\4")
    head = au_head(16, 1, 8000, 4)
    yield failing("the first read fails", data, "wave au", 7, b"", "input 1")
    yield failing("the output takes none, a part of the header, the header, and one byte more", data, "wave au", 8, b"", "room 0")
    yield failing("", data, "wave au", 8, head[:3], "room 3")[1:]
    yield failing("", data, "wave au", 8, head, "room 24")[1:]
    yield failing("", data, "wave au", 8, head + b"\2", "room 25")[1:]


def randoms(count, seed):
    rng = random.Random(seed)
    for _ in range(count):
        bits, channels = rng.choice([8, 16, 24, 32]), rng.choice([1, 1, 2, 3, 5])
        data = rng.randbytes(rng.randrange(40))
        size = rng.choice([None, None, None, NONE, rng.randrange(60)])
        way = rng.choice(["wave au", "au wave"])
        if way == "au wave":
            comment = rng.randbytes(rng.choice([0, 0, 3, 8]))
            file = bytearray(au(bits, channels, data, rng.randrange(2**32), size, 24 + len(comment), comment))
        else:
            others = [chunk(bytes(rng.choices(b"abLIST ", k=4)), rng.randbytes(rng.randrange(5))) for _ in range(rng.choice([0, 0, 1]))]
            body = format_body(1, channels, rng.randrange(2**32), bits)
            file = bytearray(riff(*others, chunk(b"fmt ", body), *others, chunk(b"data", data, size)))
        if rng.random() < 0.4:
            file[rng.randrange(min(len(file), 60))] = rng.randrange(256)
        if rng.random() < 0.2:
            del file[rng.randrange(len(file)):]
        yield case("", bytes(file), way)


def main():
    count = int(sys.argv[1])
    for lines in [*named(), *randoms(count, int(sys.argv[2]) if len(sys.argv) > 2 else 1)]:
        print("\n".join(lines))


if __name__ == "__main__":
    main()
