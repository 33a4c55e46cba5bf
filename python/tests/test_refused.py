"""What would be another signal than the caller means is refused, and nothing has changed."""

import array
import collections
import os
import pathlib
import unittest

import tozbirem
from cases import flat
from tozbirem import Chain, TozbiremError

try:
    import numpy
except ImportError:
    numpy = None

SCRIPT = "dspfx 1 input raw q15 1 8000 negate output raw"


class Orders(unittest.TestCase):
    UNORDERED = ({1, 2}, frozenset([1]), {1: 2}, {1: 2}.keys(), collections.OrderedDict([(1, 2)]), "12")

    def test_samples_without_an_order(self):
        chain = Chain("negate")
        for given in self.UNORDERED:
            with self.subTest(given):
                self.assertRaises(TypeError, chain.process, given)
                self.assertRaises(TypeError, tozbirem.arm_fir_q15, given, [1])
                self.assertRaises(TypeError, tozbirem.quantize, given)
                self.assertRaises(TypeError, tozbirem.fractions, given)
                self.assertRaises(TypeError, tozbirem.arm_mat_trans_q15, given)
        self.assertRaises((TypeError, ValueError), Chain("negate", channels=2).process, [[1, 2], {3, 4}])
        self.assertRaises(TypeError, Chain, [("fir", {1, 2})])
        self.assertEqual((chain.frames, flat(chain.process(collections.deque([1, 2])))), (0, [-1, -2]))

    def test_bools(self):
        chain = Chain("negate")
        for given in ([True, False], [1, True], (2, False), memoryview(b"\1\0").cast("?")):
            with self.subTest(given):
                self.assertRaises(TypeError, chain.process, given)
        self.assertRaises(TypeError, Chain("negate", channels=2).process, [[1, 2], [3, True]])
        self.assertRaises(TypeError, tozbirem.arm_fir_q15, [True], [1])
        if numpy is not None:
            self.assertRaises(TypeError, chain.process, [numpy.bool_(True), 2])
        self.assertEqual(chain.frames, 0)

    @unittest.skipIf(numpy is None, "no numpy")
    def test_masked_arrays(self):
        """An array of which nothing is masked is as any other; what is masked has no value."""
        masked = numpy.ma.array([1, 2, 3], mask=[0, 1, 0], dtype="int16")
        for call in (Chain("negate").process, tozbirem.fractions, tozbirem.quantize, lambda it: tozbirem.arm_fir_q15(it, [1]),
                     lambda it: tozbirem.program("run s i o", SCRIPT, it)):  # fmt: skip
            self.assertRaises(ValueError, call, masked)
        self.assertEqual(flat(Chain("negate").process(numpy.ma.array([1, 2, 3]))), [-1, -2, -3])


class Counts(unittest.TestCase):
    def test_counts_of_frames(self):
        """Counts are whole numbers, from 0 to 2^40, and none is taken modulo 2^64."""
        chain = Chain("decimate 2 {1}")
        self.assertEqual((chain.frames_given(1 << 40), chain.multiplies(4)), (1 << 39, 2))
        for call in chain.frames_given, chain.multiplies:
            self.assertRaises(ValueError, call, -1)
            self.assertRaises(TypeError, call, 4.0)
            for many in ((1 << 40) + 1, 1 << 64, (1 << 64) + 4, 1 << 80):
                with self.assertRaises(TozbiremError) as caught:
                    call(many)
                self.assertEqual(caught.exception.status, 22)

    def test_states(self):
        """The numbers of a state are numbers: bytes would be read as words, and their count is that of the bytes."""
        chain = Chain("fir {1 2 3}")
        chain.process([5, 6, 7])
        before = chain.state
        for state in ((3, bytes(16)), (3, bytearray(16)), (3, memoryview(bytes(16))), (3, "67"), (3, {6, 7}), (3, {6: 7}), (3, [6.0, 7.0]),
                      (3, [True, 7]), (3.0, [6, 7]), (3, [6, 7], 0), {3: 0, 6: 7}, b"\3\6", (3, None), None, (3, array.array("d", [6, 7]))):  # fmt: skip
            with self.subTest(state):
                self.assertRaises(TypeError, setattr, chain, "state", state)
                self.assertEqual(chain.state, before)
        for numbers in ([6, 7], (6, 7), array.array("h", [6, 7]), array.array("q", [6, 7])):
            chain.state = (3, numbers)
            self.assertEqual(chain.state, before)
        self.assertEqual(flat(chain.process([32767])), [3])

    def test_a_run_that_fails(self):
        """A run whose tail is refused has taken no samples."""
        chain = Chain("conv_partial 0 10 {1}")
        chain.process([1, 2])
        before = chain.state
        self.assertRaises(TozbiremError, chain.run, [3, 4])
        self.assertEqual((chain.state, chain.frames), (before, 2))
        self.assertEqual(flat(chain.run([0] * 8)), [0] * 8)


class Fractions(unittest.TestCase):
    def test_to_whole_numbers(self):
        for format, bits in (("q7", 7), ("q15", 15), ("q31", 31)):
            self.assertEqual(tozbirem.quantize([1, -1, 0.5], format), [(1 << bits) - 1, -(1 << bits), 1 << bits - 1])
            for beyond in (1 + 2**-52, -1 - 2**-51, 1.00001, -1.00001, 1000):
                self.assertRaises(ValueError, tozbirem.quantize, [beyond], format)
        for wrong in (b"\0\1", bytearray(1), [None], [1j]):
            self.assertRaises(TypeError, tozbirem.quantize, wrong)

    def test_from_whole_numbers(self):
        self.assertEqual(list(tozbirem.fractions([-32768, 32767])), [-1, 32767 / 32768])
        self.assertEqual(list(tozbirem.fractions(array.array("h", [16384]))), [0.5])
        for wrong in ([32768], [-32769], [1 << 80]):
            self.assertRaises(OverflowError, tozbirem.fractions, wrong)
        for wrong in ([0.5], b"\1\0", [True], [None]):
            self.assertRaises(TypeError, tozbirem.fractions, wrong)

    def test_formats(self):
        for format in ("q16", "Q15", 15, None, ""):
            for call in (tozbirem.quantize, tozbirem.fractions, tozbirem.fir_taps):
                self.assertRaises(ValueError, call, [0], format)
            self.assertRaises(ValueError, tozbirem.biquad_sections, [[1, 0, 0, 1, 0, 0]], format)
        for wrong in ([[1, 0, 0, 1, 0, float("inf")]], [[float("nan"), 0, 0, 1, 0, 0]]):
            self.assertRaises(ValueError, tozbirem.biquad_sections, wrong)


class Programs(unittest.TestCase):
    def test_words(self):
        """Words are a text, bytes, or a list of words, with single spaces between them."""
        wanted = tozbirem.program("run s i o", SCRIPT, b"\1\0")
        self.assertEqual((wanted.status, wanted.output), (0, b"\xff\xff"))
        for words in (b"run s i o", ["run", "s", "i", "o"], ("run", b"s", pathlib.Path("i"), "o")):
            self.assertEqual(tozbirem.program(words, SCRIPT, b"\1\0"), wanted)
        for words in (["run", "s i", "o"], ["run", "", "i", "o"]):
            self.assertRaises(ValueError, tozbirem.program, words, SCRIPT)
        for words in (5, None, ["run", 5], {"run": 1}):
            self.assertRaises(TypeError, tozbirem.program, words, SCRIPT)

    def test_files(self):
        """A file is its content: a path is none, nor a number, nor an array whose words are of no format."""
        for given in (b"\1\0", bytearray(b"\1\0"), memoryview(b"\1\0"), array.array("h", [1])):
            self.assertEqual(tozbirem.program("run s i o", SCRIPT, given).output, b"\xff\xff")
        self.assertEqual(tozbirem.program("print s", SCRIPT.encode()), tozbirem.program("print s", SCRIPT))
        for wrong in (pathlib.Path(__file__), 5, "text", [1, 0], array.array("d", [1]), array.array("q", [1]), None):
            with self.subTest(wrong):
                self.assertRaises(TypeError, tozbirem.program, "run s i o", SCRIPT, wrong)
                self.assertRaises(TypeError, tozbirem.program, "check s i o", SCRIPT, b"\1\0", wrong)
        self.assertRaisesRegex(TypeError, r"read_bytes\(\)", tozbirem.program, "print s", pathlib.Path(os.devnull))

    def test_what_is_left_of_a_run_that_fails(self):
        """OUT has what the program leaves in the file: nothing of a run that is refused, whole blocks of one that stops."""
        wave = "dspfx 1 input wave q15 1 output raw"
        head = tozbirem.program("run s i o", "dspfx 1 input raw q15 1 8000 output wave", bytes(4000)).output
        head = head[:4] + (4036).to_bytes(4, "little") + head[8:40] + (4000).to_bytes(4, "little")
        self.assertEqual(len(tozbirem.program("run s i o", wave, head + bytes(4000)).output), 4000)
        ran = tozbirem.program("run s i o block 256", wave, head + bytes(1500))
        self.assertEqual((ran.status, len(ran.output)), (4, 1024))
        self.assertEqual(tozbirem.program("run s i o", "dspfx 1 input", head)[:2], (2, b""))


if __name__ == "__main__":
    unittest.main()
