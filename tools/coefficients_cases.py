#!/usr/bin/env python3
"""Tests of tools/coefficients.py and of its reader of C sources.

    tools/coefficients_cases.py [CLASS ..]      Coefficients
"""
import math
import shutil

import day
from day import COPY, Case, Ran, wave_file

C_SOURCE = """
#define EQ_STAGES (2)
#define EQ_POSTSHIFT (2u)
#if 0
q15_t eq_coeffs[12] = {0};
#endif
const short eq_coeffs[12] = {1<<14, 0, INT16_MAX, -(1<<13), 3, 4, 5, 0, 6, 7, 8, 9};
arm_biquad_casd_df1_inst_q15 eq = { EQ_STAGES, eq_state, (q15_t *)eq_coeffs, EQ_POSTSHIFT };
q31_t taps[4] = {1, 2, 3, 4};
q15_t six[6] = {1, 0, 2, 3, 4, 5};
q31_t wide[5] = {1, 2, 3, 4, 5};
#define WIDE_POST_SHIFT (1u)
void init(void) { arm_fir_decimate_init_q31(&down, 4, 2, taps, state, 64); }
"""
EQ = "biquad 2 {16384 0 32767 -8192 3 4 5 0 6 7 8 9}\n"


class Coefficients(Case):
    """tools/coefficients.py writes no wrong filter."""

    def refuses(self, hint, *words):
        ran = self.tool("coefficients", *words)
        self.ends(ran, 1, hint)
        self.assertEqual(ran.out, "")

    def gives(self, text, *words):
        ran = self.tool("coefficients", *words, "--as", "block")
        self.assertEqual((ran.status, ran.out), (0, text), ran.err)
        return ran.err

    def test_c_sources(self):
        self.write("f.c", C_SOURCE)
        self.gives(EQ, "f.c", "--name", "eq")
        self.gives(EQ, "f.c", "--name", "eq_coeffs")
        self.gives("decimate 2 {1 2 3 4}\n", "f.c", "--name", "taps")
        self.gives("biquad 1 {1 2 3 4 5}\n", "f.c", "--name", "wide")
        self.refuses("--name says which array", "f.c")
        self.refuses("may be taps or sections", "f.c", "--name", "six")
        self.gives("fir {1 0 2 3 4 5}\n", "f.c", "--name", "six", "--block", "fir")
        self.refuses("need their post shift", "f.c", "--name", "six", "--block", "biquad")
        self.gives("biquad 3 {1 0 2 3 4 5}\n", "f.c", "--name", "six", "--block", "biquad 3")
        self.write("bad.c", C_SOURCE.replace("EQ_STAGES (2)", "EQ_STAGES (3)"))
        self.refuses("has 12 numbers, and 3 stages of q15 have 18", "bad.c", "--name", "eq")

    def test_arrays_of_c(self):
        """Numbers as C writes them; and of two arrays or values between #ifdef and #else none is chosen."""
        for judge, told, text in (
            (self.gives, "fir {3277 8192 1 0}\n", "float32_t taps[4] = {1e-05f, 2.5E-05, 0.25e+01f / 10, 1.e-01};"),
            (self.gives, "fir {8 1 0}\n", "q15_t taps[3] = {010, 8-07, 0};"),
            (self.refuses, "taps is there 2 times: `cc -E -P FILE", "#ifdef FAST\nq15_t taps[2] = {1, 2};\n#else\nq15_t taps[2] = {3, 4};\n#endif\n"),
            (self.refuses, "no number: GAIN; `cc -E -P FILE", "#ifdef FAST\n#define GAIN 1\n#else\n#define GAIN 2\n#endif\nq15_t taps[2] = {GAIN, 2};\n"),
            (self.refuses, "there is no array with numbers of one of the types q7_t,", "int taps[2] = {1, 2};"),
        ):  # fmt: skip
            self.write("f.c", text)
            judge(told, "f.c")

    def test_numbers_as_c_has_them(self):
        """Types, bases, suffixes, letters, casts, divisions and shifts give what a compiler gives."""
        for text, values in (
            ("010, 0x1F, 0b11, '\\n', 'A', 7u, 8UL, 9ll", (8, 31, 3, 10, 65, 7, 8, 9)),
            ("-7 / 2, -7 % 3, 7 / -2, 7 % -3, -7 >> 1, -1 << 13", (-3, -1, -3, 1, -4, -8192)),
            ("(q15_t)0x8000, 0x8000, (short)40000, 0xFFFF8000, -1u, ~0", (-32768, -32768, -25536, -32768, -1, -1)),
            ("(q15_t)(0.3 * 32768), (q15_t)-1.9, (int)(0.7f * 10)", (9830, -1, 7)),
            ("1 ? 2 : 3, 5 == 5, !5, 3 && 0, 6 ^ 3, TWO * 3, (2 + 3) * 2, INT16_MAX - 1", (2, 1, 0, 0, 5, 7, 10, 32766)),
        ):  # fmt: skip
            with self.subTest(text):
                self.write("f.c", f"#define ONE 1\n#define TWO ONE + 2 /* a text, and no number */\nq15_t taps[] = {{{text}}};")
                self.gives(f"conv {{{' '.join(map(str, values))}}}\n", "f.c", "--block", "conv")
                self.is_compiled("int16_t", text.replace("q15_t", "int16_t"), values)

    def is_compiled(self, kind, text, values):
        """Whether the compiler that is here gives the same values."""
        if shutil.which("cc"):
            self.write("c.c", f"#include <stdint.h>\n#define ONE 1\n#define TWO ONE + 2\n{kind} got[] = {{{text}}}, wanted[] = {{{', '.join(map(str, values))}}};\n"
                              "int main(void) { for (unsigned n = 0; n < sizeof got / sizeof *got; n++) if (got[n] != wanted[n]) return 1; "
                              "return sizeof got != sizeof wanted; }\n")  # fmt: skip
            self.ends(Ran(self.folder, ["cc", "-w", "-o", "c", "c.c"]), 0)
            self.ends(Ran(self.folder, ["./c"]), 0)

    def test_floats_as_c_has_them(self):
        """An array of float holds floats, and one of double doubles."""
        for kind, tap in (("float32_t", 214748368), ("double", 214748365)):
            self.write("f.c", f"{kind} taps[] = {{0.1, 0.1f}};")
            self.gives(f"conv {{{tap} 214748368}}\n", "f.c", "--block", "conv", "--format", "q31")

    def test_numbers_that_c_does_not_have(self):
        """What C leaves undefined, what depends on the machine, and what is no number of C, each by its place."""
        for text, why in (
            ("1 << 31", "overflows a signed type of 32 bits"), ("0x7FFFFFFF + 1", "overflows"), ("1 << -1", "a shift by -1"), ("1 << 40", "a shift by 40"),
            ("1 / 0", "a division by zero"), ("(q15_t)1e9", "beyond the type that it is cast to"), ("1.5 >> 1", "a shift of a fraction"),
            ("-0x80000000L >> 8", "how many bits a long has"), ("(char)200", "is not the same everywhere"), ("'\\xff'", "no letter of ASCII"),
            ("09", "09 is no number of C"), ("1_0", "1_0 is no number of C"), ("1f", "1f is no number of C"), ("0.5", "no whole number: 0.5"),
            ("'ab'", "no number: 'ab'"), ("1, , 2", "missing between two commas"), ("[3] = 1", "no number: [3] = 1"), ("sizeof(int)", "no number: sizeof(int)"),
            ("40000", "40000 is beyond q15"), ("0x18000", "98304 is beyond q15"), ("(size_t)1", "no number: (size_t)1"),
        ):  # fmt: skip
            with self.subTest(text):
                self.write("f.c", f"q15_t taps[] = {{1, {text}}};")
                self.refuses(why, "f.c", "--block", "conv")

    def test_halves(self):
        """Half a last place rounds up, and what is less by one bit of a double down; words that python alone reads are no numbers."""
        half = 0.5 / 32768
        for tap, number in ((half, 1), (math.nextafter(half, 0), 0), (-half, 0), (math.nextafter(-half, -1), -1)):
            self.write("taps.txt", f"{tap!r}\n0.25\n")
            self.gives(f"conv {{{number} 8192}}\n", "taps.txt", "--block", "conv")
        # (a third is no double, and three thirds are one)
        self.write("sos.txt", f"{3 * half!r} 0 0 3 0 0\n")
        self.gives("biquad 0 {1 0 0 0 0 0}\n", "sos.txt", "--block", "biquad")
        for word in ("1_000", "１", "1e5_0", "0x10"):
            self.write("taps.txt", f"{word} 2\n")
            self.refuses(f"no number: {word!r}", "taps.txt")
        self.write("taps.txt", "1 2\n")
        self.refuses("1_0 is no number", "taps.txt", "--block", "decimate 1_0")

    def test_rows_and_conditions(self):
        """Rows in braces are filled as C fills them; a number under a condition is not guessed."""
        rows = "q15_t sos[2][6] = {{1, 0, 2}, {3, 0, 4, 5, 6, 7}};"
        for judge, told, text in (
            (self.gives, "conv {1 0 2 0 0 0 3 0 4 5 6 7}\n", rows), (self.gives, "conv {1 2 3 0}\n", "q15_t taps[][2] = {1, 2, 3};"),
            (self.gives, "conv {1 2}\n", "#if 1\nq15_t taps[] = {1, 2};\n#elif X\nq15_t taps[] = {3};\n#else\nq15_t taps[] = {4};\n#endif\n"),
            (self.gives, "conv {1 2}\n", "q15_t taps[] = {1, // one \\\n 9,\n 2};"),
            (self.gives, "conv {1 2}\n", "q15_t taps[] = {1, /* ' */ 2};  // it's"),
            (self.refuses, "a row of 3 numbers and the length 2", "q15_t taps[2][2] = {{1, 2, 3}, {4}};"),
            (self.refuses, "in braces are beside others", "q15_t taps[2][2] = {{1, 2}, 3, 4};"),
            (self.refuses, "has rows of numbers in braces, and 1 length", "q15_t taps[4] = {{1, 2}, {3, 4}};"),
            (self.refuses, "a line of the preprocessor is between its numbers", "q15_t taps[] = {1,\n#ifdef X\n2,\n#else\n3,\n#endif\n4};"),
            (self.refuses, "a line of the preprocessor is between its numbers", 'q15_t taps[] = {\n#include "taps.inc"\n};'),
            (self.refuses, "no length of 1 or more", "q15_t taps[0] = {1};"), (self.refuses, "there is no array", "unsigned short taps[] = {0x8000};"),
            (self.refuses, "no number: N", "#define N 1\n#undef N\nq15_t taps[] = {N, 2};"),
        ):  # fmt: skip
            with self.subTest(text):
                self.write("f.c", text)
                judge(told, "f.c", "--block", "conv")

    def test_what_no_script_takes(self):
        self.write("taps.txt", "0.5 0.25\n")
        for hint, *words in (
            ("0 is out of range: this number of decimate is 1 to 255", "--block", "decimate 0"),
            ("256 is out of range: this number of decimate is 1 to 255", "--block", "decimate 256"),
            ("15 is out of range: this number of lms is 0 to 14", "--block", "lms 15 1", "--channels", "2"),
            ("lms takes 2 channels: --channels 2", "--block", "lms 0 1"),
            ("this mat_add takes 9 numbers, and these are 2", "--block", "mat_add 3 3"),
            ("--rate is at most 4294967295", "--rate", "4294967296"), ("--place is of a script", "--place", "1"),
            ("2nd is no name of a table", "--as", "table", "--name", "2nd"), ("a b is no name of a C array", "--as", "c", "--name", "a b"),
        ):  # fmt: skip
            self.refuses(hint, "taps.txt", *words)
        self.write("sos.txt", "0.5 0 0 1 0 0\n" * 65)
        self.refuses("biquad takes at most 384 numbers, and these are 390", "sos.txt", "--block", "biquad")
        self.write("long.txt", "9" * 5000)
        self.refuses("no number: '9999", "long.txt")

    def test_a_script_that_is_none(self):
        self.write("s.txt", COPY.replace("output", "biquad )1 {1 0 2 3 4 5} output"))
        self.refuses("no sound script: ./dspfx print SCRIPT says", "s.txt")

    def test_tables(self):
        """A table is of the block that uses it."""
        self.write("s.txt", "dspfx 2 input raw q15 1 8000 table a {16384 8192} table b {16384 0 0 0 8192 0} conv a biquad 1 b output raw")
        self.gives("conv {16384 8192}\n", "s.txt", "--name", "a")
        self.gives("biquad 1 {16384 0 0 0 8192 0}\n", "s.txt", "--name", "b")
        self.assertEqual(self.tool("coefficients", "s.txt", "--name", "a", "--as", "design").out, "0.5\n0.25\n")

    def test_post_shifts(self):
        self.write("sos.txt", "1 0.5 0.25 1 -1.75 0.5\n")
        self.refuses("--post-shift 1 is the least", "sos.txt", "--block", "biquad", "--post-shift", "0")
        self.refuses("--post-shift 1 is the least", "sos.txt", "--block", "biquad 0")
        self.refuses("says the post shift 2, and --post-shift 3", "sos.txt", "--block", "biquad 2", "--post-shift", "3")
        self.gives("biquad 2 {8192 0 4096 2048 14336 -4096}\n", "sos.txt", "--block", "biquad 2")
        self.gives("biquad 1 {16384 0 8192 4096 28672 -8192}\n", "sos.txt", "--block", "biquad")
        self.refuses("no post shift", "sos.txt", "--block", "fir", "--post-shift", "1")

    def test_what_is_no_filter(self):
        self.write("sos.txt", "1 0.5 0.25 1 -1.75 0.5\n" * 2)
        self.refuses("look like second-order sections", "sos.txt")
        self.write("ba.txt", "0.1 0.2 0.1 0.5\n1 0.5 0.25 0.125\n")
        self.refuses("b and a of a transfer function", "ba.txt")
        self.write("ba6.txt", "0.1 0.2 0.1 0.5 0.25 0.125\n1 0.5 0.25 0.5 0.25 0.125\n")
        self.refuses("no second-order sections", "ba6.txt", "--block", "biquad")
        self.write("big.txt", "1.25 0.5\n")
        self.refuses("divide all by 2", "big.txt")
        self.write("taps.txt", "0.5 0.25 0.125\n")
        self.refuses("--block 'decimate N'", "taps.txt", "--block", "decimate")
        self.refuses("a multiple of 2 taps", "taps.txt", "--block", "interpolate 2")
        self.refuses("decimate has no q7", "taps.txt", "--block", "decimate 2", "--format", "q7")
        self.refuses("is no block", "taps.txt", "--block", "firr")
        self.write("in.wav", wave_file(16, 1, [1, 2]))
        self.refuses("a script, a C array, a .npy file or numbers are read", "in.wav")
        self.refuses("none.txt: no such file or directory", "none.txt")
        self.write("macro.c", "#define HALF(x) (x / 2)\nq15_t taps[2] = {HALF(8), 3};")
        self.refuses("`cc -E -P FILE | tools/coefficients.py - --name NAME` replaces macros first", "macro.c")

    def test_a_script_of_several_filters(self):
        self.write("s.txt", "dspfx 2 input raw q15 1 8000 table half {16384 16384} fir half shift 1 biquad 1 {16384 0 0 0 0 0} fir {32767 1} output raw")
        err = self.gives("fir {16384 16384}\n", "s.txt")
        self.assertIn("block 1 fir: a sum can reach 1.000 of full scale\n", err)
        self.assertIn("block 2 shift: a sample can reach 2.000 of full scale, and is clipped at it\n", err)
        self.assertIn("block 3 biquad: section 1 can reach 1.000 of full scale\n", err)
        self.assertIn("block 4 fir: a sum can reach 1.000 of full scale\n", err)
        self.assertIn("--place names another", err)
        self.gives("fir {32767 1}\n", "s.txt", "--place", "4")

    def test_worst_cases(self):
        """The greatest sum of a cascade is that of the absolute values of its answer to an impulse."""
        b0, a1 = 0.5, 0.75
        self.write("sos.txt", f"{b0} 0 0 1 {-a1} 0\n{b0} 0 0 1 {-a1} 0\n")
        err = self.gives("biquad 0 {16384 0 0 0 24576 0 16384 0 0 0 24576 0}\n", "sos.txt", "--block", "biquad")
        for place in (1, 2):
            self.assertIn(f"section {place} can reach {(b0 / (1 - a1)) ** place:.3f} of full scale", err)
        # (the answer of this one goes on for millions of frames, and its sum is 1)
        self.write("sos.txt", f"{2**-20} 0 0 1 {2**-20 - 1} 0\n")
        err = self.gives("biquad 0 {2048 0 0 2147481600 0}\n", "sos.txt", "--block", "biquad", "--format", "q31")
        self.assertIn(f"section 1 can reach at least {1 - (1 - 2**-20) ** 65536:.3f} of full scale", err)
        self.write("s.txt", "dspfx 1 input raw q15 1 8000 shift -10 clip 16384 20000 fir {32767 32767} shift 1 output raw")
        err = self.gives("fir {32767 32767}\n", "s.txt")
        self.assertIn("block 3 fir: a sum can reach 1.000 of full scale\n", err)


if __name__ == "__main__":
    day.main()
