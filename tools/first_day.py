#!/usr/bin/env python3
"""Tests of what a first day with the program stumbled over: aliases, checking, pictures, and the wrapper.

    tools/first_day.py [CLASS ..]      Aliases, Checking, Pictures, Wrapper

Each case calls a command as a user does, and compares numbers and texts with what is worked out here. DSPFX_PROGRAM
names another program for ./dspfx. Pictures are left out where matplotlib is not there.
"""
import importlib.util
import math
import os
import re
import shutil
import signal
import struct
import subprocess
import sys
import time
import unittest
import unittest.mock

import day
from day import COPY, DSPFX, TOP, Case, Ran, au_file, program_alone, wave_file, words16

HAS_PLOTS = importlib.util.find_spec("matplotlib") and importlib.util.find_spec("numpy")


class Aliases(Case):
    """An output that is the input or the script under another name is refused, and nothing is lost."""

    COMMANDS = {
        "run, the input": (["run", "script", "in.raw"], "in.raw"),
        "run, the script": (["run", "script", "in.raw"], "script"),
        "gen, the script": (["gen", "1", "100", "script"], "script"),
        "bank, the input": (["bank", "script", "in.raw"], "in.raw"),
        "resume stop, the input": (["resume", "stop", "9", "script", "in.raw"], "in.raw"),
        "resume stop, the script": (["resume", "stop", "9", "script", "in.raw"], "script"),
        "resume go, the input": (["resume", "go", "state", "in.raw"], "in.raw"),
        "resume go, the state": (["resume", "go", "state", "in.raw"], "state"),
        "convert wave au": (["convert", "wave", "au", "in.wav"], "in.wav"),
        "convert au wave": (["convert", "au", "wave", "in.au"], "in.au"),
    }

    def setUp(self):
        super().setUp()
        self.write("script", COPY)
        self.write("in.raw", bytes(range(256)) * 400)
        text = "dspfx 1\ninput raw q15 1 8000\noutput raw\n".encode()
        self.write("state", b"DSPSTATE" + struct.pack("<II", 1, len(text)) + text + struct.pack("<I", 9))
        self.write("in.wav", wave_file(16, 1, range(20000)))
        self.write("in.au", au_file(16, 1, range(20000)))

    def refused(self, alias):
        for name, (words, target) in self.COMMANDS.items():
            with self.subTest(name):
                output = alias(target)
                before = self.content(target)
                ran = self.dspfx(*words, output)
                self.assertEqual(self.content(target), before)
                self.ends(ran, 8, "dspfx: output not written\n", "is the same file as", output, target)

    def linked(self, make, target):
        name = f"alias-of-{target}"
        if os.path.lexists(self.path(name)):
            os.remove(self.path(name))
        make(self.path(target), self.path(name))
        return name

    def test_another_spelling(self):
        self.refused(lambda target: f"./{target}")

    def test_an_absolute_name(self):
        self.refused(self.path)

    def test_a_hard_link(self):
        self.refused(lambda target: self.linked(os.link, target))

    def test_a_symbolic_link(self):
        self.refused(lambda target: self.linked(os.symlink, target))

    def test_through_a_link_to_a_folder(self):
        os.symlink(self.folder, self.path("here"))
        self.refused(lambda target: f"here/{target}")

    def test_the_same_word(self):
        for name, (words, target) in self.COMMANDS.items():
            with self.subTest(name):
                before = self.content(target)
                self.ends(self.dspfx(*words, target), 1, f"{target}, which would be lost: name another output")
                self.assertEqual(self.content(target), before)

    def test_an_old_output(self):
        """A run that is refused leaves an output as it was; one that fails later leaves what it wrote."""
        self.write("out", "old")
        self.write("faulty", "dspfx 1 input")
        self.assertEqual(self.dspfx("run", "faulty", "in.raw", "out").status, 2)
        self.assertEqual(self.content("out"), b"old")
        self.write("cut.wav", wave_file(16, 1, range(1000))[:1044])
        self.write("copy", "dspfx 1 input wave q15 1 output raw")
        self.assertEqual(self.dspfx("run", "copy", "cut.wav", "out").status, 4)
        self.assertEqual(self.content("out"), words16(*range(256)))


class Checking(Case):
    """A file against the output of a script: what the report says, and what the wrapper adds."""

    HALVES = "dspfx 1 input wave q15 2 fir {16384} output wave"

    def setUp(self):
        super().setUp()
        self.write("s.txt", self.HALVES)
        self.write("in.wav", wave_file(16, 2, [1000, -1000, 3, -3, 32767, -32768]))
        self.right = wave_file(16, 2, [500, -500, 1, -2, 16383, -16384])
        self.write("right.wav", self.right)

    def checked(self, data, status, *texts):
        """A check of these bytes, which leaves all files as they are, and none behind."""
        self.write("out.wav", data)
        before = {name: self.content(name) for name in os.listdir(self.folder)}
        self.ends(self.dspfx("check", "s.txt", "in.wav", "out.wav"), status, *texts)
        self.assertEqual({name: self.content(name) for name in os.listdir(self.folder)}, before)

    def changed(self, place):
        return self.right[:place] + bytes([self.right[place] ^ 1]) + self.right[place + 1 :]

    def test_the_right_file(self):
        ran = self.dspfx("check", "s.txt", "in.wav", "right.wav")
        self.assertEqual((ran.status, ran.out), (0, "dspfx: same\nbytes 56\n"))

    def test_another_sample(self):
        self.checked(self.changed(50), 11, "dspfx: differs at 50\n", "dspfx: byte 50 is of frame 1 channel 1: wanted -2, found -1\n",
                     "dspfx: 1 of 6 samples differ\n")  # fmt: skip
        # (the high byte of a sample is its second one)
        self.checked(self.changed(45), 11, "dspfx: differs at 45\n", "byte 45 is of frame 0 channel 0: wanted 500, found 244\n")
        self.checked(self.right[:44] + bytes(12), 11, "differs at 44", "6 of 6 samples differ\n")

    def test_other_headers_and_lengths(self):
        self.checked(self.changed(24), 11, "dspfx: differs at 24\n", "byte 24, in the header: wanted 64, found 65\n", "0 of 6 samples differ\n")
        self.checked(self.right[:51], 11, "differs at 51", "byte 51 is of frame 1 channel 1: wanted -2, found the end\n",
                     "0 of 3 samples differ; the output has 56 bytes, and the file 51\n")  # fmt: skip
        self.checked(b"", 11, "differs at 0", "byte 0, in the header: wanted 82, found the end\n")
        self.checked(self.right + b"more", 11, "differs at 56", "the output has ended at byte 56, and the file has 4 bytes more\n")

    def test_bytes_and_pads(self):
        """Samples of 8 bits are unsigned in a WAVE file and signed in a raw one, and an odd number of bytes has a pad byte."""
        self.write("s.txt", "dspfx 1 input wave q7 1 output wave")
        self.right = wave_file(8, 1, [-128, 5, 127])
        self.right = self.right[:4] + struct.pack("<I", 40) + self.right[8:]
        self.write("in.wav", self.right)
        self.checked(self.right, 0, "bytes 48")
        self.checked(self.changed(45), 11, "byte 45 is of frame 1 channel 0: wanted 5, found 4\n")
        self.checked(self.changed(47), 11, "the pad byte, byte 47: wanted 0, found 1\n", "0 of 3 samples differ\n")
        self.write("s.txt", "dspfx 1 input wave q7 1 output raw")
        self.checked(b"\x80\x05\x7e", 11, "byte 2 is of frame 2 channel 0: wanted 127, found 126\n")

    def test_a_rate_that_reads_as_data(self):
        """The four bytes of the rate are those of the word `data`."""
        rate = int.from_bytes(b"data", "little")
        self.write("s.txt", "dspfx 1 input wave q15 1 output wave")
        self.right = wave_file(16, 1, [1, 2, 3], rate)
        self.right = self.right[:28] + struct.pack("<I", 2 * rate % 2**32) + self.right[32:]
        self.write("in.wav", self.right)
        self.checked(self.right, 0, "bytes 50")
        self.checked(self.changed(46), 11, "byte 46 is of frame 1 channel 0: wanted 2, found 3\n")

    def test_no_output(self):
        self.write("s.txt", "dspfx 1 input wave q15 2 decimate 7 {1} output raw")
        self.checked(b"", 0, "bytes 0")
        self.checked(b"x", 11, "the output has ended at byte 0, and the file has 1 bytes more\n")

    def test_the_same_file_twice(self):
        """A file may be checked that is the input."""
        self.write("s.txt", "dspfx 1 input wave q15 2 output wave")
        self.ends(self.dspfx("check", "s.txt", "in.wav", "in.wav"), 0, "bytes 56")
        self.write("s.txt", self.HALVES)
        self.ends(self.dspfx("check", "s.txt", "in.wav", "./in.wav"), 11, "differs at 44", "wanted 500, found 1000")
        self.ends(self.dspfx("check", "s.txt", "in.wav", "s.txt"), 11, "differs at 0")

    def test_what_cannot_be_said(self):
        """An input that is read once, and a run that does not end well."""
        self.write("raw.txt", "dspfx 1 input raw q15 1 8000 output raw")
        self.write("out.raw", words16(1, 2, 4))
        ran = Ran(self.folder, [DSPFX, "check", "raw.txt", "/dev/stdin", "out.raw"], words16(1, 2, 3))
        self.ends(ran, 11, "differs at 4", "which sample that is cannot be said: /dev/stdin is no file that can be read twice")
        # (a run holds 1,048,576 samples of a correlation, and a check more)
        self.write("raw.txt", "dspfx 1 input raw q7 1 8000 correlate {64} output raw")
        self.write("in.raw", bytes(1048577))
        self.write("out.raw", bytes(2097152))
        self.ends(self.dspfx("check", "raw.txt", "in.raw", "out.raw"), 11, "differs at 2097152",
                  "cannot be said: a run of this script ends with status 5")  # fmt: skip

    def test_files(self):
        os.mkdir(self.path("folder"))
        self.ends(self.dspfx("check", "s.txt", "in.wav", "none"), 14, "dspfx: other input not read\n", "OUT none: no such file or directory")
        self.ends(self.dspfx("check", "s.txt", "in.wav", "folder"), 14, "OUT folder: is a folder")
        self.ends(self.dspfx("check", "s.txt", "none", "right.wav"), 7, "input none: no such file")
        self.ends(self.dspfx("check", "none", "in.wav", "right.wav"), 6, "script none: no such file")

    def test_words(self):
        self.ends(self.dspfx("check", "s.txt", "in.wav"), 1, "check takes 3 words, and here are 2: check SCRIPT IN OUT")
        self.ends(self.dspfx("check", "s.txt", "in.wav", "right.wav", "block", "2"), 1, "check takes 3 words, and here are 5")

    def test_lengths(self):
        self.write("raw.txt", "dspfx 1 input raw q7 1 8000 output raw")
        with open(self.path("long.raw"), "wb") as file:
            file.truncate(16777217)
        self.ends(self.dspfx("check", "raw.txt", "long.raw", "none"), 5, "dspfx: lengths: check size 16777217, limit 16777216\n", "check a shorter part")


class Pictures(Case):
    """What tools/plot.py draws is right for every output."""

    FIR = [0.02, 0.08, 0.16, 0.24, 0.24, 0.16, 0.08, 0.02]

    def setUp(self):
        super().setUp()
        if not HAS_PLOTS:
            self.skipTest("no matplotlib")

    def curves(self, *words):
        """What a picture has, as lists of points by the names of the curves."""
        ran = self.tool("plot", words[0], "x.png", *words[1:], "--data", "x.csv")
        self.assertEqual(ran.status, 0, ran.err)
        self.assertEqual(self.content("x.png")[1:4], b"PNG")
        found = {}
        for line in self.content("x.csv").decode().splitlines()[1:]:
            name, x, y = line.rsplit(",", 2)
            found.setdefault(name, []).append((float(x), float(y)))
        return found

    def level(self, hertz, rate):
        """The answer of FIR to a frequency, in decibels."""
        real = sum(tap * math.cos(2 * math.pi * hertz * n / rate) for n, tap in enumerate(self.FIR))
        imaginary = sum(tap * math.sin(2 * math.pi * hertz * n / rate) for n, tap in enumerate(self.FIR))
        return 20 * math.log10(math.hypot(real, imaginary))

    def edge(self, points, below=-6.0):
        return next(x for x, y in points if y < below + points[0][1])

    def is_right(self, head, tail, rate, **change):
        taps = " ".join(str(round(it * 32768)) for it in reversed(self.FIR))
        self.write("s.txt", f"dspfx 1 {head} fir {{{taps}}} {tail}")
        points = self.curves("response", "s.txt", *change.get("options", []))["script spectrum"]
        self.assertAlmostEqual(points[-1][0], rate / 2)
        wanted = next(x for x, _ in points if self.level(x, rate) < self.level(0, rate) - 6)
        self.assertLessEqual(abs(self.edge(points) - wanted), points[1][0])
        self.assertAlmostEqual(points[0][1], self.level(0, rate), delta=0.05)

    def test_one_channel(self):
        self.is_right("input raw q15 1 48000", "output raw", 48000)
        self.is_right("input wave q15 1", "output wavex", 44100, options=["--rate", "44100"])

    def test_several_channels(self):
        self.is_right("input raw q15 2 48000", "output raw", 48000)
        self.is_right("input raw q15 4 48000", "to q31 output wavex", 48000, options=["--channel", "3"])
        self.write("s.txt", "dspfx 1 input raw q15 2 48000 output raw")
        self.assertEqual(self.tool("plot", "response", "x.png", "s.txt", "--channel", "2").status, 1)

    def test_other_rates(self):
        self.write("s.txt", "dspfx 1 input raw q15 2 48000 decimate 6 {32767} output raw")
        points = self.curves("response", "s.txt")["script spectrum"]
        self.assertAlmostEqual(points[-1][0], 4000)
        self.write("s.txt", "dspfx 1 input raw q15 1 8000 interpolate 2 {16384 16384} output raw")
        self.assertAlmostEqual(self.curves("response", "s.txt")["script spectrum"][-1][0], 8000)

    def test_a_design(self):
        self.write("taps.txt", "\n".join(map(str, self.FIR)))
        self.write("s.txt", f"dspfx 1 input raw q15 2 48000 fir {{{' '.join(str(round(it * 32768)) for it in reversed(self.FIR))}}} output raw")
        found = self.curves("response", "s.txt", "--design", "taps.txt")
        for (x, y), (other, ideal) in zip(found["script impulse"], found["ideal impulse"]):
            self.assertEqual(x, other)
            self.assertLess(abs(y - ideal), 3 * 2**-15)

    def test_a_design_of_whole_numbers(self):
        """Coefficients of a script or a C array are drawn as the filter that they are."""
        for name, text, wanted in (
            ("fir.txt", "fir {8192 16384}", [0.5, 0.25, 0, 0]), ("conv.txt", "conv {8192 16384}", [0.25, 0.5, 0, 0]),
            ("biquad.txt", "biquad 1 {8192 0 4096 0 8192 0}", [0.5, 0.5, 0.25, 0.125]),
        ):  # fmt: skip
            self.write(name, f"dspfx 1 input raw q15 1 8000 {text} output raw")
            found = self.curves("response", name, "--design", name, "--frames", "4")
            for curve in ("script impulse", "ideal impulse"):
                self.assertEqual([y for _, y in found[curve][:4]], wanted)

    def test_files(self):
        tone = [round(20000 * math.sin(2 * math.pi * 1000 * n / 8000)) for n in range(800)]
        silence = [0] * 800
        frames = [it for pair in zip(silence, tone) for it in pair]
        for name, data in (("x.wav", wave_file(24, 2, [it * 256 for it in frames])), ("y.wav", wave_file(16, 2, frames, is_extensible=True))):
            self.write(name, data)
            found = self.curves("files", name)
            self.assertEqual(max(found[f"{name} channel 1 spectrum"], key=lambda it: it[1])[0], 1000)
            self.assertEqual(max(found[f"{name} channel 0 waveform"], key=lambda it: it[1])[1], 0)

    def test_differences(self):
        self.write("a.wav", wave_file(16, 2, [0, 0, 0, 0]))
        self.write("b.wav", wave_file(16, 2, [0, 0, 0, -3]))
        found = self.curves("difference", "a.wav", "b.wav")
        self.assertEqual(found["channel 0"], [(0, 0), (1, 0)])
        self.assertEqual(found["channel 1"], [(0, 0), (1, -2)])
        self.write("longer.wav", wave_file(16, 2, [0] * 6))
        self.ends(self.tool("plot", "difference", "x.png", "a.wav", "longer.wav"), 0, "of 2 and 3 frames those that both files have are drawn")
        self.ends(self.tool("plot", "files", "x.png", "none.wav"), 1, "plot: none.wav: no such file or directory\n")
        self.write("c.wav", wave_file(16, 1, [0, 0]))
        self.assertEqual(self.tool("plot", "difference", "x.png", "a.wav", "c.wav").status, 1)

    def test_nothing_is_destroyed(self):
        self.write("a.wav", wave_file(16, 1, [1, 2, 3]))
        before = self.content("a.wav")
        self.ends(self.tool("plot", "files", "a.wav", "a.wav"), 1, "ends with .png")
        os.symlink("a.wav", self.path("a.png"))
        self.ends(self.tool("plot", "files", "a.png", "a.wav"), 1, "is read: name another output")
        self.assertEqual(self.content("a.wav"), before)


class Wrapper(Case):
    """What ./dspfx answers itself."""

    def test_words(self):
        for word in ("--help", "help"):
            ran = self.dspfx(word)
            self.ends(ran, 0, "run SCRIPT IN OUT [block N]", "docs/USE.md")
        with open(f"{TOP}/VERSION") as file:
            self.ends(self.dspfx("--version"), 0, f"dspfx {file.read().strip()} (")
        self.ends(self.dspfx("help", "more"), 1, "dspfx: usage")

    def test_closed_streams(self):
        """Where streams are closed, the report goes into no file: by ./dspfx, and by the program alone."""
        self.write("s.txt", COPY)
        self.dspfx("print", "s.txt")  # (which compiles the program where there is none)
        for program in (DSPFX, program_alone()):
            for closed in ("<&-", ">&-", "2>&-", "<&- >&-", "<&- >&- 2>&-"):
                with self.subTest(f"{program} {closed}"):
                    status = 9 if ">&- " in closed + " " and closed != "2>&-" else 0
                    self.ends(Ran(self.folder, ["bash", "-c", f"{program} gen 1 3 s.txt o {closed}"]), status)
                    # (from the seed 1 on, 1664525*s + 1013904223, its upper 16 bits)
                    self.assertEqual(self.content("o"), struct.pack("<3H", 0x3C88, 0x5E88, 0x8116))
                    self.ends(Ran(self.folder, ["bash", "-c", f"{program} run s.txt o copy {closed}"]), status)
                    self.assertEqual(self.content("copy"), self.content("o"))
        for words, status in (("run s.txt /dev/stdin copy <&-", 7), ("run s.txt o /dev/stdout >&-", 8)):
            self.ends(Ran(self.folder, ["bash", "-c", f"{program_alone()} {words}"]), status)
        for words, hint in (("print s.txt", "so the text is not whole; nothing else"), ("resume stop 0 s.txt s.txt o", "so the state is not whole")):
            self.ends(Ran(self.folder, ["bash", "-c", f"{DSPFX} {words} >/dev/full"]), 9, hint)
        for word in ("--help", "--version"):
            self.ends(Ran(self.folder, ["bash", "-c", f"{DSPFX} {word} >/dev/full"]), 9, "dspfx: standard output: no space left on device\n")

    def test_no_program(self):
        self.write("s.txt", COPY)
        self.write("program", "#!/bin/sh\necho ran\n")
        for name, status in (("none", 70), ("s.txt", 70), (self.folder, 70), ("program", 0)):
            os.chmod(self.path("program"), 0o755)
            ran = self.with_variables(DSPFX_PROGRAM=name)
            self.ends(ran, status, "DSPFX_PROGRAM is no program that can be run" if status else "ran\n")
        self.ends(self.with_variables(DSPFX_PROGRAM="program", DSPFX_PROVED="1"), 70, "of which no proof is known")

    def with_variables(self, **variables):
        return Ran(self.folder, ["env", *(f"{name}={value}" for name, value in variables.items()), DSPFX, "print", "s.txt"])

    def test_ctrl_c_at_the_hints(self):
        """Ctrl-C ends a wrapper that runs the script of a check once more, without a word, and no file is left."""
        self.write("program", "#!/bin/sh\n[ $1 != check ] || exit 11\n>begun\nexec sleep 60\n")
        os.chmod(self.path("program"), 0o755)
        for name in ("s", "in", "out"):
            self.write(name, "")
        os.mkdir(self.path("temporary"))
        environment = dict(os.environ, DSPFX_PROGRAM="./program", TMPDIR=self.path("temporary"))
        # A shell has its background commands ignore Ctrl-C, and so would all that they start.
        words = ["env", "--default-signal=INT", DSPFX, "check", "s", "in", "out"]
        running = subprocess.Popen(words, cwd=self.folder, env=environment, stderr=subprocess.PIPE, start_new_session=True)
        while not os.path.exists(self.path("begun")) and running.poll() is None:
            time.sleep(0.1)
        os.killpg(running.pid, signal.SIGINT)
        self.assertEqual((running.communicate()[1], running.returncode), (b"", -signal.SIGINT))
        self.assertEqual(os.listdir(self.path("temporary")), [])

    def test_processors(self):
        for jobs in ("0", "-1", "two"):
            ran = Ran(self.folder, ["env", f"JOBS={jobs}", f"{TOP}/tools/build.py", "--time"])
            self.ends(ran, 70, f"JOBS is {jobs}, and not a number")

    def test_a_link(self):
        os.symlink(DSPFX, self.path("mine"))
        self.write("s.txt", COPY)
        self.ends(Ran(self.folder, ["./mine", "print", "s.txt"]), 0, "dspfx 1\n")

    def test_pipes(self):
        self.write("s.txt", COPY)
        ran = Ran(self.folder, [DSPFX, "run", "s.txt", "/dev/stdin", "o"], words16(1, 2, 3))
        self.ends(ran, 0, "in 3 frames")
        self.assertEqual(self.content("o"), words16(1, 2, 3))

    def test_the_cases_without_proofs(self):
        """`./dspfx test` says how many cases ran, and one that does not agree or does not come is a failure."""
        sys.path.insert(0, f"{TOP}/tools")
        import wrapper

        for less, status in ((0, 0), (1, 0), (0, 1)):
            def tried(crate, *words, given):
                fields = [line.split(b"|") for line in given.splitlines()]
                count = sum(len(it[0].split(b",")) for it in fields)
                found = sum(it[3] == b"0" and any(word.startswith(b"run ") for word in it[0].split(b",")) for it in fields)
                return status == 0, f"{count - less} cases agree\n{found} outputs are found by a check, and a changed byte in each\n", ""

            with unittest.mock.patch.object(wrapper, "tried", tried):
                is_well, _, note = wrapper.cases()
            self.assertEqual(is_well, not less and status == 0)
            ran, total, left_out = map(int, re.findall(r"\d+", note))
            self.assertEqual((ran + left_out, left_out), (total, 1))

    def test_no_line_without_a_terminal(self):
        self.write("s.txt", COPY)
        self.assertNotIn("%", self.dspfx("gen", "1", "10", "s.txt", "o").err)

    @unittest.skipUnless(shutil.which("script"), "no script")
    def test_a_line_on_a_terminal(self):
        """A run that goes on for four seconds shows how much of its input is read, and then clears the line."""
        self.write("in", bytes(1000))
        self.write("slow", "#!/bin/sh\nexec 3<in\nfor n in 1 2 3 4 5 6 7 8 9 10; do dd bs=100 count=1 <&3 >/dev/null 2>&1; sleep 0.5; done\necho done\n")
        os.chmod(self.path("slow"), 0o755)
        environment = dict(os.environ, DSPFX_PROGRAM=self.path("slow"))
        ran = subprocess.run(["script", "-qec", f"{DSPFX} run s in out", "/dev/null"], cwd=self.folder, env=environment,
                             stdin=subprocess.DEVNULL, stdout=subprocess.PIPE)  # fmt: skip
        said = ran.stdout.decode()
        self.assertRegex(said, r"\A\r\033\[Kdspfx: [4-9]0 % of the input, [\d.]+ MB a second, 0:0\d left\r\033\[K")
        self.assertTrue(said.endswith("\r\033[Kdone\r\n"), said[-60:])


if __name__ == "__main__":
    day.main()
