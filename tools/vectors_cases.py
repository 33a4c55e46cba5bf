#!/usr/bin/env python3
"""Tests of tools/vectors.py: its headers compile without a warning, and hold what ./dspfx wrote.

    tools/vectors_cases.py [CLASS ..]      Vectors
"""
import os
import shutil
import struct
import unittest

import day
from day import COPY, Case, Ran, wave_file, words16

# Writes the bytes of both arrays, and fails where a count is another than the header says.
PROGRAM = """
#include "v.h"
#include <stdio.h>
int main(void) {
    if (sizeof low_input / sizeof *low_input != LOW_INPUT_FRAMES * LOW_INPUT_CHANNELS) return 1;
    if (sizeof low_expected / sizeof *low_expected != LOW_EXPECTED_FRAMES * LOW_EXPECTED_CHANNELS) return 2;
    fwrite(low_input, 1, sizeof low_input, stdout);
    fwrite(low_expected, 1, sizeof low_expected, stdout);
    return 0;
}
"""


class Vectors(Case):
    def setUp(self):
        super().setUp()
        self.write("s.txt", "dspfx 1 input raw q15 1 8000 fir {16384} power output raw # no canonical text: */")
        self.write("in.raw", words16(1000, -1000, -1))

    def made(self, *words, status=0):
        ran = self.tool("vectors", *words)
        self.assertEqual(ran.status, status, ran.err)
        return ran

    def refuses(self, hint, *words, status=1):
        """One line says why, and no file is there that was not there, or is another than it was."""
        before = {name: self.content(name) for name in os.listdir(self.folder) if os.path.isfile(self.path(name))}
        ran = self.made(*words, status=status)
        self.assertIn(hint, ran.err)
        self.assertEqual(ran.err.count("vectors: "), 1, ran.err)
        self.assertEqual(({name: self.content(name) for name in before}, ran.out), (before, ""))
        self.assertEqual(sorted(before), sorted(name for name in os.listdir(self.folder) if os.path.isfile(self.path(name))))

    def test_the_text(self):
        text = self.made("s.txt", "in.raw").out
        self.assertIn(" *     dspfx 1\n *     input raw q15 1 8000\n *     fir {16384}\n *     power\n *     output raw\n", text)
        for line in (" * Input:    3 frames of 1 channel, q15 (int16_t)", " * Expected: 3 frames of 1 channel, q15 (int16_t)",
                     " *     power 2 channel 0 = 500001", "#define VECTOR_INPUT_FRAMES 3", "#define VECTOR_EXPECTED_CHANNELS 1",
                     "static const int16_t vector_input[3] = {\n    1000, -1000, -1\n};", "static const int16_t vector_expected[3] = {\n    500, -500, -1\n};"):  # fmt: skip
            self.assertIn(f"{line}\n", text)
        self.made("s.txt", "in.raw", "v.h")
        self.assertEqual(self.content("v.h").decode(), text)

    @unittest.skipUnless(shutil.which("gcc"), "no gcc")
    def test_what_a_compiler_reads(self):
        """In each format, of raw and WAVE files, with the least numbers: the bytes of both arrays."""
        least, wide = -(1 << 31), [-(1 << 31), (1 << 31) - 1, 5, -6]
        for name, script, data, given, expected in (
            ("q7", "input raw q7 1 8000 negate output wave", struct.pack("4b", -128, 127, 5, -5), struct.pack("4b", -128, 127, 5, -5), struct.pack("4b", 127, -127, -5, 5)),
            ("q7 wave", "input wave q7 1 negate output raw", wave_file(8, 1, [-128, 7]), struct.pack("2b", -128, 7), struct.pack("2b", 127, -7)),
            ("q15", "input wave q15 2 route {1 0 1} output wave", wave_file(16, 2, [1, -32768, 3, 4]), words16(1, -32768, 3, 4), words16(-32768, 1, -32768, 4, 3, 4)),
            ("q31", "input raw q31 2 8000 output raw", struct.pack("<4i", *wide), struct.pack("<4i", *wide), struct.pack("<4i", *wide)),
            ("24 bits", "input wave q31 1 to q15 output wavex", wave_file(24, 1, [-(1 << 23), 256]), struct.pack("<2i", least, 65536), words16(-32768, 1)),
            ("another count", "input raw q15 1 8000 decimate 2 {32767} output raw", words16(2, 4, 6), words16(2, 4, 6), words16(1)),
        ):  # fmt: skip
            with self.subTest(name):
                self.write("s.txt", f"dspfx 1 {script}")
                self.write("in.raw", data)
                self.made("s.txt", "in.raw", "v.h", "--name", "low", "--force")
                self.write("v.c", PROGRAM)
                for words in (["gcc", "-std=c99"], ["g++", "-std=c++11", "-x", "c++"]):
                    if shutil.which(words[0]):
                        self.ends(Ran(self.folder, [*words, "-Wall", "-Wextra", "-Werror", "-pedantic", "-o", "v", "v.c"]), 0)
                self.ends(Ran(self.folder, ["bash", "-c", "./v >v.raw"]), 0)
                self.assertEqual(self.content("v.raw"), given + expected)
                if script.endswith("output raw"):
                    self.dspfx("run", "s.txt", "in.raw", "out.raw")
                    self.assertEqual(self.content("v.raw")[len(given) :], self.content("out.raw"))

    def test_names(self):
        for name in ("2x", "a-b", "", "a b", "größe", "x;"):
            self.refuses("is no name of C", "s.txt", "in.raw", "v.h", f"--name={name}")
        self.assertIn("static const int16_t _x9_input[3]", self.made("s.txt", "in.raw", "--name", "_x9").out)

    def test_a_file_that_is_there(self):
        self.write("v.h", "mine")
        self.refuses("v.h is there, and is left as it is: --force writes it anew", "s.txt", "in.raw", "v.h")
        os.symlink("nowhere", self.path("link.h"))
        self.refuses("link.h is there", "s.txt", "in.raw", "link.h")
        os.link(self.path("in.raw"), self.path("alias.h"))
        for name in ("in.raw", "s.txt", "./in.raw", "alias.h"):
            self.refuses("is read, and is left as it is: name another output", "s.txt", "in.raw", name, "--force")
        os.mkdir(self.path("folder"))
        self.refuses("folder is no file", "s.txt", "in.raw", "folder", "--force")
        self.made("s.txt", "in.raw", "v.h", "--force")
        self.assertEqual(self.content("v.h").decode(), self.made("s.txt", "in.raw").out)
        self.assertEqual(os.stat(self.path("v.h")).st_mode & 0o777, os.stat(self.path("s.txt")).st_mode & 0o777)

    def test_runs_that_do_not_end_well(self):
        self.write("bad.txt", "dspfx 1 input raw q15 1 8000 fur output raw")
        self.refuses("the run ended with 2, and nothing is written", "bad.txt", "in.raw", "v.h", status=2)
        self.write("wave.txt", "dspfx 1 input wave q15 1 output raw")
        self.refuses("the run ended with 4, and nothing is written", "wave.txt", "in.raw", "v.h", status=4)
        self.refuses("none.txt is no file", "none.txt", "in.raw", "v.h")
        self.refuses("none.raw is no file", "s.txt", "none.raw", "v.h")
        self.write("odd.raw", b"abc")
        self.refuses("odd.raw: 3 bytes are no whole number of frames of 2 bytes", "s.txt", "odd.raw", "v.h")
        self.write("empty.raw", b"")
        self.refuses("the input has 0 frames", "s.txt", "empty.raw", "v.h")
        self.write("copy.txt", COPY)
        self.refuses("there is no folder", "copy.txt", "in.raw", "missing/v.h")
        ran = Ran(self.folder, ["bash", "-c", f"{day.TOP}/tools/vectors.py s.txt in.raw >/dev/full"])
        self.ends(ran, 1, "vectors: standard output: no space left on device\n")


if __name__ == "__main__":
    day.main()
