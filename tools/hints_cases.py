#!/usr/bin/env python3
"""Tests of what ./dspfx says behind a report: what to do after each status, and where the form of a file is mixed up.

    tools/hints_cases.py [CLASS ..]      Faults, MixUps

Each case calls a command as a user does, and compares texts with what is worked out here. DSPFX_PROGRAM names another
program for ./dspfx.
"""
import os
import signal
import struct
import subprocess
import sys
import time

import day
from day import COPY, DSPFX, TOP, Case, Ran, au_file, program_alone, wave_file, words16


class Faults(Case):
    """After each status the wrapper says what to do, and the report stays."""

    def script(self, text, *hints):
        self.write("s.txt", text)
        self.ends(self.dspfx("print", "s.txt"), 2, *hints)

    def test_words(self):
        self.write("s.txt", COPY)
        for words, hint in (
            ([], "no command"), (["rum", "a"], "run is one"), (["run", "a", "b"], "and here are 2"),
            (["bank", "a", "b"], "bank takes 3 words"), (["resume", "on"], "resume is followed by stop or go"),
            (["resume", "stop", "1", "a", "b"], "resume stop takes 4 words, and here are 3"),
            (["resume", "stop", "1.5", "a", "b", "c"], "K has one to ten digits, and here is 1.5"),
            (["resume", "go", "a", "b"], "resume go takes 3 words, and here are 2"),
            (["run", "s.txt", "a", "b", "--block", "64"], "`block N` at the end"),
            (["run", "s.txt", "a", "b", "block", "12345678901"], "one to ten digits"),
            (["gen", "1", "99999999", "s.txt", "o"], "at most 16777216, and here is 99999999"),
            (["gen", "9999999999", "1", "s.txt", "o"], "SEED is at most 4294967295"),
            (["run", "s.txt", "", "o"], "word 2 after run is empty"), (["version"], "--version is one"),
            (["test", "all"], "test takes no further words"),
            (["run", "s.txt", "a", "b", "blocks", "4"], "a block length is `block N`, and here is `blocks 4`"),
        ):  # fmt: skip
            with self.subTest(words):
                ran = self.dspfx(*words)
                self.ends(ran, 1, hint)
                self.assertRegex(ran.out, r"\Adspfx: usage: [^\n]*\n\Z")
        self.ends(self.dspfx("run", b"\xff", "a", "b"), 1, "dspfx: words are UTF-8, and ")

    def test_the_usage_line(self):
        """It names each command that the wrapper explains, and no other; help and completion know them too."""
        sys.path.insert(0, f"{TOP}/tools")
        import word_hints

        line = self.dspfx("no", "command").out
        named = {part.split()[0] for part in line.strip().removeprefix("dspfx: usage: ").split(", ")}
        self.assertEqual(named, set(word_hints.COMMANDS))
        for name in ("help.txt", "completion.bash"):
            with open(f"{TOP}/tools/{name}") as file:
                text = file.read()
            for command in named:
                self.assertRegex(text, rf"\b{command}\b")

    def test_scripts(self):
        head = "dspfx 1\ninput raw q15 1 8000\n"
        self.script(b"\xef\xbb\xbf" + COPY.encode(), "s.txt:1:1: BadByte", "byte order mark (EF BB BF)")
        self.script(COPY.encode("utf-16"), "byte order mark (FF FE)")
        self.script("", "the script is empty")
        self.script(wave_file(16, 1, [1]), "this is a WAVE file")
        self.script(words16(*range(-16384, 16384)), "this is no text; the script is the first file")
        self.script(bytes(range(1, 256)) * 5000, "TooLong", "this is no text; the script is the first file")
        self.script("# " + "x\n# " * 400000, "TooLong", "a script has at most 1048576 bytes")
        self.script(head + "fir {1 2 3\noutput raw\n", "s.txt:4:1: BadNumber", "list that begins at 3:5 is not closed")
        self.script(head + "fir {1 2 3\n", "list that begins at 3:5 is not closed")
        self.script(head + "firr {1}\noutput raw", "firr is no block; fir is one")
        self.script(head + "fir {0.5}\noutput raw", "numbers are whole")
        self.script(head + "fir {1, 2}\noutput raw", "no `,`")
        self.script(head + "FIR {1}\noutput raw", "small letters")
        self.script(head + "fir {40000}\noutput raw", "-32768 to 32767 in fir")
        self.script(head + "add\noutput raw", "add takes 2 channels, and the signal has 1")
        self.script(head + "interpolate 2 {1 2 3}\noutput raw", "a multiple of 2 taps, and these are 3")
        self.script("dspfx 1\ninput raw q7 1 8000\nbiquad 0 {1}\n", "q7 has no biquad; q15 and q31 have")
        self.script("dspfx 1\ninput raw q15 1 8000\nbiquad64 0 {1}\n", "q15 has no biquad64; q31 has")
        self.script("dspfx 1\ninput wave q15 1 48000\noutput raw", "has no rate")
        self.script("dspfx 1\ninput raw q15 2\noutput raw", "needs a rate, as in `input raw q15 2 48000`")
        self.script("dspfx 1\ninput wave q15\noutput raw", "the number of channels is missing")
        self.script("dspfx 1 input wave q15 1 table a {1} fir a output raw", "write `dspfx 2`")
        self.script("dspfx 3 " + COPY[8:], "begins with `dspfx 1` or `dspfx 2`")
        self.script("dspfx 1 fir {1} output raw", "the input comes after the version")
        self.script(head + "shift 1 " + COPY[8:], "`input` comes once")
        self.script(head + "fir {1} {2}\noutput raw", "a block or `output` is wanted here, and no {")
        self.script(head + "biquad {1}\noutput raw", "biquad takes 1 number before its list\n")
        self.script(head + "pid 1 2\noutput raw", "pid takes 3 numbers\n")
        self.script(head + "lattice_iir {1 2} {3 4}\noutput raw", "lattice_iir takes 3 numbers here, one more than its first list has")
        self.script(head + "mat_add 2 2 {1 2 3}\noutput raw", "mat_add takes 4 numbers here, and these are 3")

    def test_lists_and_numbers(self):
        head = "dspfx 2\ninput raw q15 1 8000\ntable two {1 2}\n"
        self.script("# to be written\n", "the script is empty")
        self.script(head + "fir {1 2}}\noutput raw", "is wanted here, and no }")
        self.script(head + "abs {1}\noutput raw", "is wanted here, and no {")
        self.script(head + "shift\noutput raw", "dspfx: shift takes 1 number\n")
        self.script(head + "biquad {1}\noutput raw", "biquad takes 1 number before its list")
        for number in ("0x10", "1e3", "-", "1" * 21):
            self.script(head + f"fir {{1 {number}}}\noutput raw", f"{number} is no number: 1 to 20 decimal digits")
        for block in ("fir", "biquad 0", "sparse {1 2}"):
            self.script(head + f"{block} three\noutput raw", "or the name of a table; three names none")
        self.script(head + "fir two three\noutput raw", "three is no block")
        for numbers in ("{1 2}", "two"):
            self.script(head + f"mat_add 1 1 {numbers}\noutput raw", "a list has at most 1 number here")
        self.script(head + f"mat_add 8 8 {{{' 1' * 65}}}\noutput raw", "a list has at most 64 numbers here")
        self.script(head + "abs " * 65 + "output raw", "at most 64 blocks")

    def test_states(self):
        """A state that is cut or other, and inputs that have not so many frames."""
        self.write("s.txt", COPY)
        self.write("in.raw", words16(1, 2, 3))
        ran = subprocess.run([DSPFX, "resume", "stop", "2", "s.txt", "in.raw", "o"], cwd=self.folder, stdout=subprocess.PIPE)
        self.assertEqual((ran.returncode, self.content("o")), (0, words16(1, 2)))
        self.write("state", ran.stdout)
        self.ends(self.dspfx("resume", "go", "state", "in.raw", "o"), 0, "in 3 frames")
        self.assertEqual(self.content("o"), words16(3))
        self.ends(self.tool("state", "state"), 0, "after 2 frames of", "input raw q15 1 8000")
        self.write("state", ran.stdout[:-1])
        self.ends(self.dspfx("resume", "go", "state", "in.raw", "o"), 13, "state state: cut at byte", "makes one")
        self.ends(self.tool("state", "state"), 1, "cut at byte")
        self.ends(self.dspfx("resume", "go", "s.txt", "in.raw", "o"), 13, "its first bytes are not DSPSTATE")
        self.ends(self.dspfx("resume", "go", "none", "in.raw", "o"), 6, "state none: no such file")
        self.ends(self.dspfx("resume", "stop", "4", "s.txt", "in.raw", "o"), 5, "resume at 4, input 3", "name a smaller K")

    def test_states_that_are_shown(self):
        """What tools/state.py says of good and bad states."""
        text = f"{COPY.replace(' input', chr(10) + 'input').replace(' output', chr(10) + 'output')}\n".encode()
        good = b"DSPSTATE" + struct.pack("<II", 1, len(text)) + text + struct.pack("<I", 2)
        for data, status, hint in (
            (good, 0, "after 2 frames of\n    dspfx 1\n    input raw q15 1 8000\n    output raw\n"),
            (good + b"x", 1, "state: state: its blocks keep 0 numbers of 8 bytes after 2 frames, and 1 bytes are there\n"),
            (good.replace(b"dspfx", b"dspxx"), 1, "state: state: its script is none\n"), (b"", 1, "no saved state"),
        ):  # fmt: skip
            self.write("state", data)
            self.ends(self.tool("state", "state"), status, hint)
        self.ends(self.tool("state", "none"), 1, "state: none: no such file or directory\n")
        self.ends(self.tool("state", "--help"), 0, "tools/state.py STATE")
        self.write("state", good)
        self.ends(Ran(self.folder, ["bash", "-c", f"{sys.executable} {TOP}/tools/state.py state >/dev/full"]), 1,
                  "state: standard output: no space left on device\n")  # fmt: skip

    def test_what_is_read_once(self):
        """After a fault of a pipe the wrapper waits for nothing, and says that it cannot look."""
        self.write("s.txt", "dspfx 1 input wave q15 1 output wave")
        self.write("in.raw", b"")
        self.write("in.wav", wave_file(24, 1, [1, 2]))
        self.write("bad.txt", "dspfx 1 input raw q15 1 8000 fur")
        self.write("block.txt", "dspfx 1 input raw q15 1 8000 block 2 decimate 3 {1} output raw")
        os.mkfifo(self.path("pipe"))
        for name, words, status, hint in (
            ("in.wav", "s.txt pipe o", 4, "dspfx: pipe is no file that can be read twice; docs/WAVE.md says"),
            ("bad.txt", "pipe in.raw o", 2, "dspfx: pipe is no file that can be read twice, so the place of the fault is not shown"),
            ("block.txt", "pipe in.raw o", 3, "a multiple of the unit that the report names"),
        ):  # fmt: skip
            with self.subTest(words):
                self.ends(Ran(self.folder, ["bash", "-c", f"cat {name} >pipe & timeout 100 {DSPFX} run {words}"]), status, hint)

    def test_a_good_script_is_run_once(self):
        self.write("count", f"#!/bin/sh\necho call >>{self.path('calls')}\nexit 0\n")
        os.chmod(self.path("count"), 0o755)
        self.write("s.txt", COPY)
        subprocess.run([DSPFX, "run", "s.txt", "a", "b"], cwd=self.folder, env=dict(os.environ, DSPFX_PROGRAM=self.path("count")))
        self.assertEqual(self.content("calls"), b"call\n")

    def test_block_lengths(self):
        self.write("s.txt", "dspfx 1 input raw q15 1 8000 decimate 6 {1} output raw")
        self.write("in.raw", bytes(100))
        self.ends(self.dspfx("run", "s.txt", "in.raw", "o", "block", "100"), 3, "multiple of 6 frames", "96 and 102")
        self.ends(self.dspfx("run", "s.txt", "in.raw", "o", "block", "65537"), 3, "nearest to 65537: 65532")
        self.write("one.txt", COPY)
        self.ends(self.dspfx("run", "one.txt", "in.raw", "o", "block", "0"), 3, "a block has 1 to 65536 frames")
        self.write("s.txt", "dspfx 1 input raw q15 1 8000 block 5 decimate 2 {1} output raw")
        for words in (["run", "s.txt", "in.raw", "o"], ["check", "s.txt", "in.raw", "in.raw"]):
            self.ends(self.dspfx(*words), 3, "block length 5, unit 2", "multiple of 2 frames", "nearest to 5: 4 and 6")

    def test_headers(self):
        self.write("s.txt", "dspfx 1 input wave q15 1 output wave")
        floats = bytearray(wave_file(32, 1, [1, 2]))
        floats[20] = 3
        for name, data, hint in (
            ("24", wave_file(24, 1, [1]), "`input wave q31 1 to q15`"), ("stereo", wave_file(16, 2, [1, 2]), "`input wave q15 2`"),
            ("float", bytes(floats), "holds floating point"), ("empty", b"", "is empty"), ("raw", b"1234" * 9, "is no WAVE file"),
            ("au", au_file(16, 1, [1]), "convert au wave"), ("cut", wave_file(16, 1, range(9))[:50], "was cut"),
            ("flac", b"fLaC" + bytes(50), "is a FLAC file"), ("wide", wave_file(16, 17, range(17)), "has 17 channels, and 1 to 16 are read"),
        ):  # fmt: skip
            with self.subTest(name):
                self.write("in", data)
                self.ends(self.dspfx("run", "s.txt", "in", "o"), 4, hint)

    def test_lengths(self):
        self.write("s.txt", "dspfx 1 input raw q7 1 8000 correlate {1} output raw")
        self.write("in", bytes(1048577))
        ran = self.dspfx("run", "s.txt", "in", "o")
        self.ends(ran, 5, "at most 1,048,576 samples")
        self.assertNotIn("2^40", ran.err)
        self.write("au", au_file(16, 1, [], size=0xFFFFFFFE))
        self.ends(self.dspfx("convert", "au", "wave", "au", "o"), 5, "riff size 4294967330", "which has at most 4 GiB\n")

    def test_a_torn_frame(self):
        """The last frame of a raw input is left out where it is not whole, and the page says so."""
        self.write("s.txt", COPY)
        self.write("in", b"abc")
        self.ends(self.dspfx("run", "s.txt", "in", "o"), 0, "in 1 frames")
        self.assertEqual(self.content("o"), b"ab")
        with open(f"{TOP}/docs/SCRIPT.md") as file:
            self.assertIn("A last frame that is not whole is left out", file.read())

    def test_files(self):
        self.write("s.txt", COPY)
        self.write("in", bytes(4))
        os.mkdir(self.path("folder"))
        self.ends(self.dspfx("run", "none", "in", "o"), 6, "script none: no such file or directory")
        self.ends(self.dspfx("run", "folder", "in", "o"), 6, "script folder: is a folder")
        self.ends(self.dspfx("run", "s.txt", "none", "o"), 7, "input none: no such file or directory")
        self.ends(self.dspfx("run", "s.txt", "in", "missing/o"), 8, "there is no folder missing")
        self.ends(self.dspfx("run", "s.txt", "in", "folder"), 8, "output folder: is a folder")
        self.ends(self.dspfx("run", "s.txt", "in", "/dev/full"), 8, "no space left on device")
        os.symlink("loop", self.path("loop"))
        self.ends(self.dspfx("run", "s.txt", "in", "loop"), 8, "too many levels of symbolic links")
        os.symlink("missing/o", self.path("link"))
        self.ends(self.dspfx("run", "s.txt", "in", "link"), 8, "output link: is a link to missing/o, which cannot be made")
        self.write("long", bytes(1 << 20))
        ran = Ran(self.folder, ["bash", "-c", f"{DSPFX} run s.txt long >(true)"])
        self.ends(ran, 8, "or a pipe that was closed")
        if os.geteuid():
            os.chmod(self.path("folder"), 0o555)
            self.ends(self.dspfx("run", "s.txt", "in", "folder/o"), 8, "permission denied")

    def test_signals(self):
        """A wrapper that is told to end ends the program too."""
        os.mkfifo(self.path("pipe"))
        self.write("s.txt", COPY)
        running = subprocess.Popen([DSPFX, "run", "s.txt", "pipe", "o"], cwd=self.folder, stdout=subprocess.DEVNULL)
        with open(self.path("pipe"), "wb", buffering=0) as pipe:
            running.terminate()
            self.assertEqual(running.wait(10), -15)
            with self.assertRaises(BrokenPipeError):
                pipe.write(bytes(4))


    def test_a_signal_at_once(self):
        """A program that has hardly begun ends with the wrapper too."""
        self.write("program", "#!/bin/sh\necho $$ >pid\nkill -TERM $PPID\nexec sleep 100\n")
        os.chmod(self.path("program"), 0o755)
        environment = dict(os.environ, DSPFX_PROGRAM=self.path("program"))
        for _ in range(10):
            ran = subprocess.run([DSPFX, "run", "s", "in", "o"], cwd=self.folder, env=environment, stdout=subprocess.DEVNULL)
            self.assertEqual(ran.returncode, -15)
            with self.assertRaises(ProcessLookupError):
                os.kill(int(self.content("pid")), 0)


class MixUps(Case):
    """A file with a header that is read as samples, raw samples that are read as a file with one, and an end by a signal."""

    RAW = "dspfx 1 input raw q15 1 8000 fir {16384} output raw"

    def setUp(self):
        super().setUp()
        self.write("raw.txt", self.RAW)
        self.write("in.wav", wave_file(24, 2, range(8)))

    def test_a_header_as_samples(self):
        """The run is right by its script: its status, its report and its output are as ever, and one line more is said."""
        hint = "dspfx: in.wav is a WAVE file, and with `input raw` its header is read as samples: `input wave q31 2` reads its samples alone\n"
        self.write("in.raw", self.content("in.wav"))
        state = self.content_of("resume", "stop", "3", "raw.txt", "in.raw", "o")
        self.write("state", state)
        for words in (["run", "raw.txt", "in.wav", "o"], ["bank", "raw.txt", "in.wav", "o"], ["resume", "stop", "3", "raw.txt", "in.wav", "o"],
                      ["resume", "go", "state", "in.wav", "o"]):  # fmt: skip
            with self.subTest(words):
                ran, plain = self.dspfx(*words), self.dspfx(*(it.replace(".wav", ".raw") for it in words))
                self.assertEqual((ran.status, ran.out), (0, plain.out))
                self.assertEqual(ran.err.count(hint), 1, ran.err)
        self.dspfx("run", "raw.txt", "in.wav", "o")
        self.ends(self.dspfx("check", "raw.txt", "in.wav", "o"), 0, hint)
        self.ends(self.dspfx("check", "raw.txt", "in.wav", "in.wav"), 11, hint)
        floats = bytearray(wave_file(32, 1, [1, 2]))
        floats[20] = 3
        self.write("floats.wav", floats)
        self.ends(self.dspfx("run", "raw.txt", "floats.wav", "o"), 0, "-b 16 OUT.wav` and then `input wave q15 1` read its samples alone")
        self.write("in.au", au_file(16, 1, range(8)))
        self.ends(self.dspfx("run", "raw.txt", "in.au", "o"), 0, "in.au is a Sun AU file", "`./dspfx convert au wave in.au NEW.wav`")

    def content_of(self, *words):
        return subprocess.run([DSPFX, *words], cwd=self.folder, stdout=subprocess.PIPE, stderr=subprocess.DEVNULL, check=True).stdout

    def test_a_name_of_another_form(self):
        """An output that is named as a WAVE file, and has no header."""
        hint = "out.wav has raw samples, and no header as its name says: `output wave` in the script writes one\n"
        self.write("in.raw", bytes(6))
        for words in (["run", "raw.txt", "in.raw", "out.wav"], ["gen", "1", "9", "raw.txt", "out.wav"], ["resume", "stop", "1", "raw.txt", "in.raw", "out.wav"]):
            ran = self.dspfx(*words)
            self.ends(ran, 0)
            self.assertEqual(ran.err.count(f"dspfx: {hint}"), 1, ran.err)
        self.write("wave.txt", "dspfx 1 input raw q15 1 8000 output wave")
        self.assertNotIn("header", self.dspfx("run", "wave.txt", "in.raw", "out.wav").err)
        self.assertNotIn("header", self.dspfx("run", "raw.txt", "in.raw", "out.raw").err)

    def test_a_text_in_place_of_a_file(self):
        self.ends(self.dspfx("run", self.RAW, "in.wav", "o"), 6, "SCRIPT is the name of a file, and here is the text of a script")

    def test_where_nothing_is_mixed_up(self):
        self.write("wave.txt", "dspfx 1 input wave q31 2 output wave")
        self.write("short", b"RIF")
        for words in (["run", "wave.txt", "in.wav", "o"], ["convert", "wave", "au", "in.wav", "o"], ["run", "raw.txt", "short", "o"],
                      ["gen", "1", "9", "raw.txt", "o"]):  # fmt: skip
            ran = self.dspfx(*words)
            self.ends(ran, 0)
            self.assertNotIn("header", ran.err)
        self.write("python3", "#!/bin/sh\n>called\nexec false\n")
        os.chmod(self.path("python3"), 0o755)
        environment = dict(os.environ, PATH=f"{self.folder}:{os.environ['PATH']}", DSPFX_PROGRAM=program_alone())
        for count, script in ((0, "wave.txt"), (1, "raw.txt")):  # (and a run takes no time for what is not mixed up)
            ran = subprocess.run([DSPFX, "run", script, "in.wav", "o"], cwd=self.folder, env=environment, stdout=subprocess.DEVNULL)
            self.assertEqual((ran.returncode, os.path.exists(self.path("called"))), (0, bool(count)))
        ran = Ran(self.folder, ["bash", "-c", f"{DSPFX} run raw.txt <(cat in.wav) o"])
        self.ends(ran, 0)
        self.assertNotIn("header", ran.err)

    def test_raw_samples_as_a_wave_file(self):
        self.write("wave.txt", "dspfx 1 input wave q31 2 output wave")
        self.write("in.raw", bytes(64))
        hint = "write `input raw q31 2 RATE`, as `input raw q31 2 48000`, in place of `input wave q31 2`"
        self.ends(self.dspfx("run", "wave.txt", "in.raw", "o"), 4, "in.raw is no WAVE file; if it has raw samples, " + hint)
        self.ends(self.dspfx("convert", "wave", "au", "in.raw", "o"), 4, "as `input raw q15 1 48000`")

    def test_an_end_by_a_signal(self):
        """The status is of the shell, 128 more than the signal, and none of the program's own."""
        self.write("program", "#!/bin/sh\nkill -$NAME $$\n")
        os.chmod(self.path("program"), 0o755)
        for name, number, hint in (("KILL", 9, "where memory runs out"), ("SEGV", 11, "please report it"), ("TERM", 15, "another process ended it"),
                                   ("XFSZ", 25, "`ulimit -f`"), ("ILL", 4, "CPU=x86-64-v2 ./dspfx prove")):  # fmt: skip
            with self.subTest(name):
                ran = Ran(self.folder, ["env", f"NAME={name}", "DSPFX_PROGRAM=program", DSPFX, "run", "raw.txt", "in.wav", "o"])
                self.ends(ran, 128 + number, f"SIG{name} ended it ({128 + number} is 128 and the number of the signal)", hint)
                self.assertEqual((ran.out, ran.err.count("\n")), ("", 2))

    def test_a_program_of_another_machine(self):
        self.write("program", b"\x7fELF and nothing more")
        os.chmod(self.path("program"), 0o755)
        ran = Ran(self.folder, ["env", "DSPFX_PROGRAM=program", DSPFX, "run", "raw.txt", "in.wav", "o"])
        self.ends(ran, 126, "status 126 is of the shell, and not of dspfx")

if __name__ == "__main__":
    day.main()
