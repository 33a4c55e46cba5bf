#!/usr/bin/env python3
"""Makes the inputs of the gallery and what each use of it is to give.

    examples/make.py          writes them into the folders of the gallery
    examples/make.py FOLDER   writes them into a copy, to be compared

What is expected is computed here, by formulas of its own, from the inputs and the scripts' numbers; the
program is not called.
"""
import math
import os
import struct
import sys
import wave

HERE = os.path.dirname(os.path.abspath(__file__))
RATE = 8000


def saturate(value):
    return max(-32768, min(32767, value))


def tone(hertz, height, count, rate=RATE):
    return [height * math.sin(2 * math.pi * hertz * n / rate) for n in range(count)]


def rounded(values):
    return [saturate(round(value)) for value in values]


def filtered(taps, samples):
    """A filter in Q15: y(n) is the sum of b[k]*x(n-k), floored to 16 bits; taps are b[0], b[1] and so on."""
    def sample(n):
        return samples[n] if n >= 0 else 0

    return [saturate(sum(b * sample(n - k) for k, b in enumerate(taps)) >> 15) for n in range(len(samples))]


def windowed(low, high, count, late=0.0):
    """A filter that lets low..high through, in parts of the rate: an ideal one under a Hamming window. Its
    delay is so many samples more than half its length."""
    def ideal(edge, n):
        return 2 * edge if n == 0 else math.sin(2 * math.pi * edge * n) / (math.pi * n)

    middle = (count - 1) / 2 + late
    return [
        (ideal(high, n - middle) - (ideal(low, n - middle) if low else 0))
        * (0.54 - 0.46 * math.cos(2 * math.pi * n / (count - 1)))
        for n in range(count)
    ]


def q15(taps):
    return [saturate(round(tap * 32768)) for tap in taps]


def shown(numbers):
    return "{" + " ".join(str(number) for number in numbers) + "}"


def cascaded(sections, shift, samples):
    """Biquads in Q15, one behind another: the sum of b0*x(n) to b2*x(n-2), a1*y(n-1) and a2*y(n-2), floored to
    16 bits. A section is b0, b1, b2, a1, a2."""
    for b0, b1, b2, a1, a2 in sections:
        given, x1, x2, y1, y2 = [], 0, 0, 0, 0
        for x in samples:
            y = saturate((b0 * x + b1 * x1 + b2 * x2 + a1 * y1 + a2 * y2) >> (15 - shift))
            x1, x2, y1, y2 = x, x1, y, y1
            given.append(y)
        samples = given
    return samples


def read_rows(use, name):
    """The numbers of a design in the gallery, a list for each line."""
    with open(os.path.join(HERE, use, name)) as file:
        return [[float(word) for word in line.split()] for line in file]


def pack(samples):
    return struct.pack(f"<{len(samples)}h", *samples)


class Gallery:
    def __init__(self, top):
        self.top = top

    def path(self, use, name):
        os.makedirs(os.path.join(self.top, use), exist_ok=True)
        return os.path.join(self.top, use, name)

    def text(self, use, name, text):
        with open(self.path(use, name), "w") as file:
            file.write(text)

    def raw(self, use, name, samples):
        with open(self.path(use, name), "wb") as file:
            file.write(pack(samples))

    def wave(self, use, name, width, channels, rate, data):
        with wave.open(self.path(use, name), "wb") as file:
            file.setnchannels(channels)
            file.setsampwidth(width)
            file.setframerate(rate)
            file.writeframes(data)

    def lowpass(self):
        """Two tones, of which the higher is to go."""
        samples = rounded(a + b for a, b in zip(tone(300, 12000, 800), tone(3000, 12000, 800)))
        taps = q15(windowed(0, 1000 / RATE, 31))
        self.text("lowpass", "script.txt", f"dspfx 1\ninput wave q15 1\nfir {shown(reversed(taps))}\noutput wave\n")
        self.wave("lowpass", "in.wav", 2, 1, RATE, pack(samples))
        self.wave("lowpass", "expected.wav", 2, 1, RATE, pack(filtered(taps, samples)))

    def convert(self):
        """A file of 8 bits, which in WAVE are unsigned, to one of 16."""
        samples = [max(-128, min(127, round(value))) for value in tone(440, 100, 401)]
        self.text("convert", "script.txt", "dspfx 1\ninput wave q7 1\nto q15\noutput wave\n")
        self.wave("convert", "in.wav", 1, 1, RATE, bytes(128 + sample for sample in samples))
        self.wave("convert", "expected.wav", 2, 1, RATE, pack([256 * sample for sample in samples]))

    def magnitude(self):
        """A rotating vector whose length rises, as two channels, to the square of its length."""
        count = 400
        heights = [30000 * n / count for n in range(count)]
        pairs = [
            rounded((height * math.cos(2 * math.pi * n / 37), height * math.sin(2 * math.pi * n / 37)))
            for n, height in enumerate(heights)
        ]
        self.text("magnitude", "script.txt", "dspfx 1\ninput raw q15 2 48000\ncmplx_mag_squared\noutput raw\n")
        self.raw("magnitude", "in.raw", [value for pair in pairs for value in pair])
        self.raw("magnitude", "expected.raw", [(re * re + im * im) >> 17 for re, im in pairs])

    def mono(self):
        """Half of each channel, added."""
        left, right = rounded(tone(440, 32767, 600)), rounded(tone(660, 32767, 600))
        frames = [value for pair in zip(left, right) for value in pair]
        halves = [(a * 16384 >> 15, b * 16384 >> 15) for a, b in zip(left, right)]
        self.text("mono", "script.txt", "dspfx 1\ninput wave q15 2\nscale 16384 0\nadd\noutput wave\n")
        self.wave("mono", "in.wav", 2, 2, RATE, pack(frames))
        self.wave("mono", "expected.wav", 2, 1, RATE, pack([saturate(a + b) for a, b in halves]))

    def designed(self):
        """The taps of a design, as a tool writes them: fractions, b[0] first. A script wants them in Q15,
        time-reversed."""
        design = [f"{tap:.9f}" for tap in windowed(800 / RATE, 1600 / RATE, 45, late=0.3)]
        taps = q15(map(float, design))
        samples = rounded(a + b + c for a, b, c in zip(tone(200, 9000, 500), tone(1200, 9000, 500), tone(3400, 9000, 500)))
        self.text("designed", "taps.txt", "\n".join(design) + "\n")
        self.text("designed", "script.txt", f"dspfx 1\ninput raw q15 1 {RATE}\nfir {shown(reversed(taps))}\noutput raw\n")
        self.raw("designed", "in.raw", samples)
        self.raw("designed", "expected.raw", filtered(taps, samples))

    def equiripple(self):
        """Taps designed by scipy, b[0] first."""
        taps = q15(row[0] for row in read_rows("equiripple", "taps.txt"))
        samples = rounded(a + b for a, b in zip(tone(500, 12000, 600), tone(1800, 12000, 600)))
        self.text("equiripple", "script.txt", f"dspfx 1\ninput wave q15 1\nfir {shown(reversed(taps))}\noutput wave\n")
        self.wave("equiripple", "in.wav", 2, 1, RATE, pack(samples))
        self.wave("equiripple", "expected.wav", 2, 1, RATE, pack(filtered(taps, samples)))

    def elliptic(self):
        """Second-order sections designed by scipy: b0, b1, b2, 1, a1, a2. A script wants a1 and a2 with turned
        signs, a zero behind b0, and halves, since coefficients here are beyond one."""
        sections = []
        for b0, b1, b2, _, a1, a2 in read_rows("elliptic", "sos.txt"):
            sections.append(q15(number / 2 for number in (b0, b1, b2, -a1, -a2)))
        numbers = [number for b0, *others in sections for number in (b0, 0, *others)]
        samples = rounded(a + b for a, b in zip(tone(500, 9000, 600), tone(2000, 9000, 600)))
        self.text("elliptic", "script.txt", f"dspfx 1\ninput wave q15 1\nbiquad 1 {shown(numbers)}\noutput wave\n")
        self.wave("elliptic", "in.wav", 2, 1, RATE, pack(samples))
        self.wave("elliptic", "expected.wav", 2, 1, RATE, pack(cascaded(sections, 1, samples)))

    def halfband(self):
        """One table in two blocks: a half-band filter, and again behind the decimator that it makes room for. From
        24 bits, which Q15 keeps the upper 16 of."""
        taps = q15(windowed(0, 1 / 4, 23))
        wide = [round(value) for value in map(sum, zip(tone(200, 2000000, 800), tone(1500, 2000000, 800), tone(3500, 2000000, 800)))]
        samples = [value >> 8 for value in wide]
        once = filtered(taps, samples)[::2]
        table = f"table half {shown(reversed(taps))}\n"
        self.text("halfband", "script.txt", f"dspfx 2\ninput wave q31 1\n{table}to q15\ndecimate 2 half\nfir half\noutput wave\n")
        self.wave("halfband", "in.wav", 3, 1, RATE, b"".join(value.to_bytes(3, "little", signed=True) for value in wide))
        self.wave("halfband", "expected.wav", 2, 1, RATE // 2, pack(filtered(taps, once)))

    def microphones(self):
        """Four microphones as the channels of one file, each with a tone of its own and the same hum, through one
        high-pass: two equal sections, 0.9*(1 - z^-1)^2 over two poles at 0.9. The coefficients are halves."""
        section = q15(number / 2 for number in (0.9, -1.8, 0.9, 1.8, -0.81))
        hum = tone(50, 8000, 600)
        channels = [rounded(a + b for a, b in zip(tone(hertz, 9000, 600), hum)) for hertz in (400, 700, 1100, 1900)]
        sections = [section, section]
        numbers = [number for b0, *others in sections for number in (b0, 0, *others)]
        given = [cascaded(sections, 1, channel) for channel in channels]
        self.text("microphones", "script.txt", f"dspfx 1\ninput wave q15 4\nbiquad 1 {shown(numbers)}\noutput wave\n")
        self.wave("microphones", "in.wav", 2, 4, RATE, pack([value for frame in zip(*channels) for value in frame]))
        self.wave("microphones", "expected.wav", 2, 4, RATE, pack([value for frame in zip(*given) for value in frame]))


if len(sys.argv) > 2 or sys.argv[-1].startswith("-"):
    print(__doc__.strip())
    sys.exit(sys.argv[1:] not in (["-h"], ["--help"]))
gallery = Gallery(sys.argv[1] if len(sys.argv) > 1 else HERE)
gallery.lowpass()
gallery.convert()
gallery.magnitude()
gallery.mono()
gallery.designed()
gallery.equiripple()
gallery.elliptic()
gallery.halfband()
gallery.microphones()
