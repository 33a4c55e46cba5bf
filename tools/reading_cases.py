#!/usr/bin/env python3
"""Tests of what reads samples: the one reader of all files, and tools/compare.py.

    tools/reading_cases.py [CLASS ..]      Reading, Comparing
"""
import math
import struct
import sys

import day
from day import COPY, TOP, Case, Ran, au_file, npy_file, wave_file, words16


class Reading(Case):
    """One reader for all sample files."""

    def read(self, name, content, **options):
        self.write(name, content)
        sys.path.insert(0, f"{TOP}/tools")
        import samples

        return samples.read(self.path(name), **options)

    def is_read(self, name, content, form, count, values, **options):
        found = self.read(name, content, **options)
        self.assertEqual((found.form, found.channels, list(found.values)), (form, count, values))

    def test_wave(self):
        for is_extensible in (False, True):
            for bits, form, by in ((8, "q7", 1), (16, "q15", 1), (24, "q31", 256), (32, "q31", 1)):
                values = [-(2 ** (bits - 1)), 1, -1, 2 ** (bits - 1) - 1, 5, 6]
                file = wave_file(bits, 2, values, 44100, is_extensible)
                self.is_read("x", file, form, 2, [it * by for it in values])
                self.assertEqual(self.read("x", file).rate, 44100)
        with self.assertRaises(ValueError):
            self.read("x", wave_file(16, 1, range(10))[:-4])

    def test_au(self):
        for bits, form, by in ((8, "q7", 1), (16, "q15", 1), (24, "q31", 256), (32, "q31", 1)):
            values = [-(2 ** (bits - 1)), 1, -1, 2 ** (bits - 1) - 1]
            self.is_read("x", au_file(bits, 2, values), form, 2, [it * by for it in values])
            self.is_read("x", au_file(bits, 2, values, size=0xFFFFFFFF), form, 2, [it * by for it in values])

    def test_npy(self):
        self.is_read("x", npy_file("<i2", "h", (2, 2), [1, 2, 3, -4]), "q15", 2, [1, 2, 3, -4])
        self.is_read("x", npy_file("<f8", "d", (3,), [0.5, -1.0, 0.25]), "float", 1, [0.5, -1.0, 0.25])

    def test_text(self):
        self.is_read("x.txt", "1 -2, 0x10\n# 7\n0xfffe;0x8000", "q15", 1, [1, -2, 16, -2, -32768])
        self.is_read("x.gdb", "0x20000010 <output>:\t1\t-2\n0x20000014 <output+4>:\t3\t4\n", "q15", 1, [1, -2, 3, 4])
        self.is_read("x.gdb", "0x20000010:\t0xff85\t0x0001\n", "q15", 1, [-123, 1])
        self.is_read("x.gdb", "$1 = {0 <repeats 3 times>, -7, 9}\n", "q15", 1, [0, 0, 0, -7, 9])
        self.is_read("x.hex", "FF85 0001 7fff", "q15", 1, [-123, 1, 32767], is_hex=True)
        self.is_read("x.csv", "left,right\n1,2\n3,4\n", "q15", 2, [1, 2, 3, 4], channels=2)
        self.is_read("x.csv", "n;value\n0;5\n1;-6\n", "q15", 1, [5, -6], column="value")
        self.is_read("x.csv", "n,left,right\n0,1,2\n1,3,4\n", "q15", 2, [1, 2, 3, 4], column="left,right")
        self.is_read("x.txt", "0.5\n-1e-1\n0", "float", 1, [0.5, -0.1, 0])
        for text, options in (("n,value\n0,5\n", {}), ("a,b\n1,2\n", {"column": "c"}), ("40000", {}), ("0x12345", {}),
                              ("$1 = {1, 2...}", {}), ("one two\nthree", {}), ("", {}), ("dspfx 1 input raw\n", {"column": "dspfx 1 input raw"})):  # fmt: skip
            with self.assertRaises(ValueError, msg=text):
                self.read("x.csv", text, **options)

    def refuses(self, name, content, hint, **options):
        with self.assertRaisesRegex(ValueError, hint):
            self.read(name, content, **options)

    def test_first_lines(self):
        """A first line that is no heading is not left out."""
        self.is_read("x.txt", "0X10\n0X11\n", "q15", 1, [16, 17])
        self.is_read("x.hex", "FFFF\n0001\n", "q15", 1, [-1, 1], is_hex=True)
        self.is_read("x.csv", "beef\n1\n", "q15", 1, [1], column="beef")
        self.is_read("x.csv", "n,value,\n0,5,\n1,-6,\n", "q15", 1, [5, -6], column="value")
        for text, hint in (
            ("FFFF\n0001\n", "FFFF is a heading or hexadecimal: --column names the column, --hex says"),
            ("FFFF 0001\n0002\n", "FFFF 0001 is a heading or hexadecimal"), ("nan\n0.5\n", "no number: nan"),
            ("0.5f\n0.25\n", "no number: 0.5f"), ("value\n0,5\n", "a row of 2 cells under a heading of 1: 0,5"),
            ('$1 = "\\001\\377"', "gdb shows bytes as text: `print/d` shows numbers"),
        ):  # fmt: skip
            self.refuses("x.txt", text, hint)
        self.refuses("x.hex", ":10010000214601360121470136007EFE09D2190140\n", "an Intel HEX file: `objcopy -I ihex", is_hex=True)
        self.refuses("x.hex", "12 xyz", "no hexadecimal number: xyz", is_hex=True)
        self.refuses("x.hex", "12 1.5", "no hexadecimal number: 1.5", is_hex=True)

    def test_whole_numbers_with_points(self):
        """numpy.savetxt writes 1000 as 1.000000000000000000e+03."""
        self.refuses("x.txt", "1.000000000000000000e+03\n0.000000000000000000e+00\n", "numbers as 1000 are no fractions of full scale")
        self.refuses("x", npy_file("<f8", "d", (2,), [1.0, -2.0]), "numbers as -2 are no fractions of full scale")
        self.is_read("x", npy_file("<f8", "d", (2,), [1.0, -2.5]), "float", 1, [1, -2.5])

    def test_damaged_files(self):
        for data in (wave_file(16, 1, [1])[:30], au_file(16, 1, [1])[:20], npy_file("<i2", "h", (9,), [1]), b"\x93NUMPY"):
            self.refuses("x", data, "x: it was cut, or is damaged|the WAVE file has no samples")
        self.refuses("x", npy_file("<i2", "h", (2, 0), []), r"shape \(2, 0\) is not read")
        fields = npy_file("<i2", "h", (1,), [1]).replace(b"'<i2'", b"[('a', '<i2')]").replace(b" " * 9, b"", 1)
        self.refuses("x", fields, r"an array of \[\('a', '<i2'\)\] and shape \(1,\) is not read")


    def test_files_of_other_kinds(self):
        """What is no file of samples is not read as raw words, nor a file whose header and name contradict each other."""
        for name, data, hint in (
            ("x.wav", words16(1, 2), "its name ends with .wav, and its first bytes are not those"), ("x.npy", words16(1, 2), "ends with .npy"),
            ("x.au", b"", "ends with .au"), ("x", b"fLaC" + bytes(8), "a FLAC file is not read"), ("x.mp3", bytes(8), "a .mp3 file is not read"),
            ("x", b"RIFF\4\0\0\0AVI ", "a RIFF file, but no WAVE file"), ("x", b"OggS" + bytes(8), "an Ogg file"),
            ("x.txt", "1 2".encode("utf-16"), "the text is UTF-16"), ("x.txt", "１ 2", "no number: １"), ("x.txt", "1_000", "no number: 1_000"),
        ):  # fmt: skip
            self.refuses(name, data, hint)
        self.is_read("x.csv", "ID3\n1\n-2\n", "q15", 1, [1, -2])
        self.is_read("x.raw", b"fLaC", "q15", 1, [0x4C66, 0x4361])
        self.refuses("x", npy_file("<i2", "h", (2,), [1, 2]) + b"\0\0", "more bytes follow the array")

    def test_frames_that_are_not_whole(self):
        file = bytearray(wave_file(24, 2, [1, 2, 3, 4]))
        self.refuses("x", bytes(file[:40]) + struct.pack("<I", 11) + bytes(file[44:55]), "11 bytes of samples are no whole number of frames of 6 bytes")
        self.is_read("x", bytes(file[:40]) + struct.pack("<I", 0xFFFFFFFF) + bytes(file[44:55]), "q31", 2, [256, 512])
        file[32] = 8
        self.refuses("x", bytes(file), "frames of 8 bytes for 2 channels of 24 bits")
        self.refuses("x", au_file(16, 2, [1, 2, 3], size=6), "6 bytes of samples are no whole number of frames of 4 bytes")
        short = wave_file(16, 1, [1])
        self.refuses("x", short[:16] + struct.pack("<I", 14) + short[20:34] + short[36:], "whose `fmt ` has 14 bytes")


class Comparing(Case):
    """tools/compare.py says all places, and never says `same` wrongly."""

    def test_a_wrong_bit(self):
        values = list(range(500))
        self.write("a.raw", words16(*values))
        wrong = bytearray(words16(*values))
        wrong[201] ^= 1
        self.write("b.raw", bytes(wrong))
        ran = self.tool("compare", "a.raw", "b.raw")
        self.ends(ran, 1, "frame 100 channel 0: wanted 100, found 356, by 256\n", "differ: 1 of 500 samples", "greatest: 256")

    def test_many_places(self):
        self.write("a.raw", words16(*range(100)))
        self.write("b.raw", words16(*(it + (it >= 60) for it in range(100))))
        ran = self.tool("compare", "a.raw", "b.raw", "--channels", "2")
        self.ends(ran, 1, "frame 30 channel 0: wanted 60, found 61, by 1", "and 20 more", "differ: 40 of 100 samples")
        self.assertEqual(ran.out.count("wanted"), 20)
        self.ends(self.tool("compare", "a.raw", "b.raw", "--within", "1"), 0, "greatest: 1", "same: 100 samples, within 1")

    def test_fractions(self):
        values = [1000, -20000, 30000]
        self.write("a.npy", npy_file("<f8", "d", (3,), [(it + 0.5) / 32768 for it in values]))
        self.write("b.raw", words16(*values))
        noise, power = 3 * 0.25, sum((it + 0.5) ** 2 for it in values)
        self.ends(self.tool("compare", "a.npy", "b.raw"), 1, "greatest: 0.5 last places", f"signal to noise: {10 * math.log10(power / noise):.1f} dB")
        self.ends(self.tool("compare", "a.npy", "b.raw", "--within", "0.5"), 0, "within 0.5")
        self.write("nan.npy", npy_file("<f8", "d", (3,), [math.nan] * 3))
        self.assertEqual(self.tool("compare", "nan.npy", "b.raw", "--within", "9").status, 1)

    def test_samples_that_are_not_finite(self):
        self.write("a.raw", words16(1, 2))
        self.write("inf.npy", npy_file("<f8", "d", (2,), [math.inf, 2 / 32768]))
        for names in (("a.raw", "inf.npy"), ("inf.npy", "a.raw")):
            self.ends(self.tool("compare", *names), 1, "differ: 1 of 2 samples", "signal to noise: none, a sample is not finite\n")

    def test_a_shift(self):
        values = [(it * it * 7919) % 30011 - 15000 for it in range(600)]
        self.write("a.raw", words16(*values))
        self.write("late.raw", words16(*([0] * 37 + values[:-37])))
        self.write("early.raw", words16(*values[21:]))
        self.ends(self.tool("compare", "a.raw", "late.raw", "--lag", "50", "--common"), 0, "lag: 37 frames", "same: 563 samples")
        self.ends(self.tool("compare", "a.raw", "early.raw", "--lag", "50"), 0, "lag: -21 frames", "same: 579 samples")
        self.ends(self.tool("compare", "a.raw", "late.raw", "--lag", "50"), 1, "lengths: 600 and 563 samples")

    def test_wave_of_all_kinds(self):
        values = [-5, 7, 100, -100]
        self.write("a.wav", wave_file(24, 2, values))
        self.write("b.wav", wave_file(32, 2, [it * 256 for it in values], is_extensible=True))
        self.write("c.au", au_file(24, 2, values))
        for other in ("b.wav", "c.au"):
            self.ends(self.tool("compare", "a.wav", other), 0, "same: 4 samples")
        self.write("d.wav", wave_file(24, 1, values))
        self.ends(self.tool("compare", "a.wav", "d.wav"), 2, "2 channels and 1")

    def test_what_is_not_compared(self):
        self.write("a.raw", words16(1, 2, 3))
        self.ends(self.tool("compare", "a.raw", "a.raw", "--channels", "2"), 2, "no whole number of frames")
        self.ends(self.tool("compare", "a.raw", "a.raw", "--offset", "9"), 2, "leaves none")
        for offset in ("-1", "1_0", "1.5"):
            self.ends(self.tool("compare", "a.raw", "a.raw", f"--offset={offset}"), 2, f"--offset: invalid natural value: '{offset}'")
        self.ends(self.tool("compare", "a.raw", "none.raw"), 2, "compare: none.raw: no such file or directory")
        self.write("empty.raw", b"")
        self.ends(self.tool("compare", "a.raw", "empty.raw"), 1, "lengths: 3 and 0 samples")
        self.ends(self.tool("compare", "a.raw", "empty.raw", "--common"), 2, "no frames in common")
        self.ends(self.tool("compare", "a.raw", "a.raw", "--lag", "-1"), 2, "--lag: invalid natural value: '-1'")
        for within in ("-1", "nan", "inf"):
            self.ends(self.tool("compare", "a.raw", "a.raw", "--within", within), 2, f"--within: invalid tolerance value: '{within}'")
        self.ends(Ran(self.folder, ["bash", "-c", f"{sys.executable} {TOP}/tools/compare.py a.raw a.raw >/dev/full"]), 2,
                  "compare: standard output: no space left on device\n")  # fmt: skip
        self.write("script.txt", COPY)
        self.ends(self.tool("compare", "a.raw", "script.txt"), 2, "script.txt: no numbers")
        self.write("torn.raw", words16(1, 2, 3) + b"\1")
        self.ends(self.tool("compare", "a.raw", "torn.raw"), 2, "torn.raw: 7 bytes are no whole number of q15 samples")


if __name__ == "__main__":
    day.main()
