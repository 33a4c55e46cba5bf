"""Arrays of numpy in all their forms: types, orders of bytes, strides, shapes, and memory that may not be written."""

import copy
import pickle
import unittest

import tozbirem
from cases import flat
from tozbirem import Chain, TozbiremError

try:
    import numpy
except ImportError:
    numpy = None

TYPES = {"q7": "int8", "q15": "int16", "q31": "int32"}


@unittest.skipIf(numpy is None, "no numpy")
class Arrays(unittest.TestCase):
    def is_taken(self, given, wanted, format="q15", channels=1):
        """A chain negates the samples, in the format's type, and leaves the caller's array as it was."""
        before = numpy.array(given, copy=True)
        found = Chain("negate", format=format, channels=channels).process(given)
        self.assertEqual((found.dtype, found.tolist()), (numpy.dtype(TYPES[format]), wanted))
        self.assertTrue(found.flags.c_contiguous and found.flags.writeable)
        self.assertEqual((found if found.base is None else found.base).size, found.size)
        self.assertTrue(numpy.array_equal(before, numpy.asarray(given)))

    def test_types(self):
        """Every type of whole numbers, in both orders of bytes, in each format."""
        for format in TYPES:
            for kind in ("i1", "u1", "<i2", ">i2", "<u2", ">u2", "<i4", ">i4", "<u4", ">u4", "<i8", ">i8", "<u8", ">u8", "O"):
                with self.subTest(format=format, kind=kind):
                    self.is_taken(numpy.array([1, 2, 127], kind), [-1, -2, -127], format)
        self.is_taken([numpy.int64(5), 6, numpy.int8(-7)], [-5, -6, 7])
        self.is_taken(numpy.array([numpy.int16(5), 6], object), [-5, -6])

    def test_the_ends_of_each_format(self):
        for format, bits in (("q7", 7), ("q15", 15), ("q31", 31)):
            least, most = -(1 << bits), (1 << bits) - 1
            for kind in (TYPES[format], "int64", object):
                self.is_taken(numpy.array([least, most], kind), [most, -most], format)
            for wrong in ([most + 1], [least - 1], numpy.array([0, most + 1]), numpy.array([least - 1, 0]), [1 << 64],
                          [-(1 << 63) - 1], [-1, 1 << 63], numpy.array([1 << 63], "uint64"), numpy.array([1 << 70], object)):  # fmt: skip
                self.assertRaises(OverflowError, Chain("negate", format=format).process, wrong)

    def test_other_types(self):
        chain = Chain("negate")
        for wrong in (numpy.array([1.0]), numpy.array([1], "float16"), numpy.array([1 + 0j]), numpy.array([True]), numpy.array(["1"]),
                      numpy.array([b"1"]), numpy.array([None]), numpy.array([0.5], object), numpy.array([True], object),
                      numpy.array([(1, 2)], "i2,i2"), numpy.array([1], "M8[s]"), numpy.array([1], "m8[s]"), [1.5, 2], [1, None]):  # fmt: skip
            with self.subTest(wrong):
                self.assertRaises(TypeError, chain.process, wrong)
        self.assertEqual(chain.frames, 0)
        self.assertEqual(flat(chain.process(numpy.array([]))), [])

    def test_strides(self):
        line = numpy.arange(20, dtype="int16")
        for given in (line[::2], line[::-1], line[3:17:5], numpy.broadcast_to(line[5:6], 3), line.reshape(4, 5)[:, 1],
                      numpy.ndarray(4, "int16", b"\0" + bytes(range(8)), offset=1)):  # fmt: skip
            self.is_taken(given, [-it for it in given.tolist()])
        pairs = numpy.arange(12, dtype="int16").reshape(6, 2)
        for given in (pairs, numpy.asfortranarray(pairs), pairs[::-1], pairs[::2], pairs[:, ::-1], pairs.reshape(2, 6).T,
                      pairs.astype("int64")):  # fmt: skip
            channels = given.shape[1]
            self.is_taken(given, [[-it for it in row] for row in given.tolist()], channels=channels)

    def test_long_arrays_with_strides(self):
        line = (numpy.arange(60000) * 7919 % 20001 - 10000).astype("int16")
        for given in (line[::2], line[::-3], line.reshape(-1, 2).T.reshape(-1)):
            wanted = Chain("fir {1000 -2000 30000}").process(given.tolist())
            self.assertTrue(numpy.array_equal(Chain("fir {1000 -2000 30000}").process(given), wanted))

    def test_memory_that_may_not_be_written(self):
        line = numpy.array([1, 2, 3, 4], "int16")
        line.flags.writeable = False
        self.is_taken(line, [-1, -2, -3, -4])
        self.is_taken(line.reshape(2, 2), [[-1, -2], [-3, -4]], channels=2)
        self.is_taken(numpy.frombuffer(b"\1\0\2\0", "<i2"), [-1, -2])
        self.is_taken(memoryview(b"\1\0\2\0").cast("h"), [-1, -2])
        self.assertEqual(tozbirem.arm_fir_q15(line, line).tolist(), Chain("fir {1 2 3 4}").run([1, 2, 3, 4]).tolist())

    def test_memoryviews(self):
        line = numpy.arange(6, dtype="int16")
        self.is_taken(memoryview(line), [0, -1, -2, -3, -4, -5])
        self.is_taken(memoryview(line)[::-2], [-5, -3, -1])
        self.is_taken(memoryview(line.reshape(3, 2)), [[0, -1], [-2, -3], [-4, -5]], channels=2)
        self.is_taken(memoryview(numpy.asfortranarray(line.reshape(3, 2))), [[0, -1], [-2, -3], [-4, -5]], channels=2)
        self.assertRaises(TypeError, Chain("negate").process, memoryview(line.astype(float)))
        self.assertRaises(TypeError, Chain("negate").process, memoryview(line).cast("B"))

    def test_shapes(self):
        for channels in (1, 2, 3, 16):
            frames = numpy.arange(5 * channels, dtype="int16").reshape(5, channels)
            found = Chain("negate", channels=channels).process(frames)
            self.assertEqual(found.shape, (5, channels) if channels > 1 else (5,))
            self.assertTrue(numpy.array_equal(found.reshape(5, channels), -frames))
            self.assertTrue(numpy.array_equal(Chain("negate", channels=channels).process(frames.reshape(-1)), found))
            self.assertEqual(Chain("negate", channels=channels).process(numpy.zeros((0, channels), "int16")).size, 0)
        self.assertEqual(Chain("add", channels=2).process(numpy.array([[1, 2], [3, 4]])).tolist(), [3, 7])
        self.assertEqual(Chain("route {0 0 0}").process(numpy.array([7, 8])).tolist(), [[7, 7, 7], [8, 8, 8]])
        two = Chain("negate", channels=2)
        for wrong in ((2, 3), (2, 1), (1, 2, 2), (), (0, 3)):
            self.assertRaises(ValueError, two.process, numpy.zeros(wrong, "int16"))
        with self.assertRaises(TozbiremError) as caught:
            two.process(numpy.zeros(3, "int16"))
        self.assertEqual((caught.exception.status, two.frames), (20, 0))

    def test_functions(self):
        """Signals and matrices of all orders, and coefficients that are arrays."""
        a, b = numpy.array([100, 1, 50, 2], "int8")[::2], numpy.array([100, -50], "int64")
        self.assertEqual(tozbirem.arm_add_q7(a, b).tolist(), [127, 0])
        taps = numpy.array([[1, 16384], [2, 8192]], ">i4")[:, 1]
        self.assertEqual(tozbirem.arm_fir_q15(taps, numpy.array([4, 8])).tolist(), Chain("fir {16384 8192}").run([4, 8]).tolist())
        matrix = numpy.arange(6).reshape(2, 3)
        for given in (matrix, numpy.asfortranarray(matrix), memoryview(matrix.astype("int32")), matrix.T.copy().T):
            self.assertEqual(tozbirem.arm_mat_trans_q31(given).tolist(), matrix.T.tolist())
        self.assertEqual(tozbirem.arm_mat_add_q15(matrix, matrix.T.reshape(3, 2).T).tolist(), (2 * matrix).tolist())
        self.assertRaises(ValueError, tozbirem.arm_mat_trans_q31, numpy.arange(6))
        self.assertRaises(TypeError, tozbirem.arm_fir_q15, numpy.array([0.5]), [1])
        self.assertRaises(tozbirem.ScriptError, tozbirem.arm_fir_q15, numpy.array([40000]), [1])
        found = tozbirem.arm_cmplx_conj_q15(numpy.arange(8, dtype="int16").reshape(2, 4)[:, :2])
        self.assertEqual(flat(found), [0, -1, 4, -5])
        for format in TYPES:
            whole = numpy.array(tozbirem.quantize(numpy.array([0.5, -0.25]), format))
            self.assertEqual(tozbirem.fractions(whole, format).tolist(), [0.5, -0.25])
        self.assertEqual(tozbirem.quantize(numpy.array([0.5], "float32")), [16384])

    def test_states_and_counts(self):
        first, second = (Chain("fir {1 2 3} decimate 2 {4 5}", channels=2) for _ in range(2))
        frames = numpy.arange(40, dtype="int16").reshape(20, 2)
        first.process(frames)
        second.state = numpy.int64(first.frames), numpy.array(first.state.numbers)
        wanted = first.process(frames)
        for chain in (second, pickle.loads(pickle.dumps(second)), copy.deepcopy(second)):
            self.assertTrue(numpy.array_equal(copy.copy(chain).process(frames), wanted))
        self.assertEqual(first.frames_given(numpy.int32(10)), first.frames_given(10))
        self.assertEqual(first.multiplies(numpy.int64(10)), first.multiplies(10))
        self.assertRaises(TypeError, first.frames_given, 1.5)
        self.assertRaises(TypeError, setattr, first, "state", (1.0, ()))


if __name__ == "__main__":
    unittest.main()
