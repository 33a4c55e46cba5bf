"""What chains and functions return to a caller, in all forms of arrays, and from several threads."""

import array
import copy
import doctest
import inspect
import os
import pickle
import subprocess
import sys
import threading
import unittest

import tozbirem
from cases import TOP, flat
from tozbirem import Chain, TozbiremError

try:
    import numpy
except ImportError:
    numpy = None


# Takes samples while the process may get no more address space, and once more when it may.
WANTING = """
import array, resource, tozbirem
chain, other = (tozbirem.Chain("correlate {1 2}", channels=16) for _ in range(2))
samples = array.array("h", [n * 7919 % 20001 - 10000 for n in range(16 * 8192)])
chain.process(samples[:16])
other.process(samples[:16])
with open("/proc/self/statm") as file:
    size = int(file.read().split()[0]) * resource.getpagesize()
most = resource.getrlimit(resource.RLIMIT_AS)
resource.setrlimit(resource.RLIMIT_AS, (size, most[1]))
try:
    chain.process(samples)
except MemoryError as error:
    print(error)
status = tozbirem.program("run s i o", "dspfx 1 input raw q15 16 8000 correlate {1 2} output raw", bytes(32)).status
resource.setrlimit(resource.RLIMIT_AS, most)
print(status, chain.frames, bytes(chain.run(samples)) == bytes(other.run(samples)))
"""


class Chains(unittest.TestCase):
    def test_a_filter_a_tail_and_a_measure(self):
        chain = Chain("fir {16384} conv {16384 0 16384 8192} power", format="q15", channels=1)
        self.assertEqual(flat(chain.process([1000, -1000])), [250, -250])
        self.assertEqual(flat(chain.process([400])), [350])
        self.assertEqual(flat(chain.finish()), [-125, -25, 50])
        self.assertEqual(chain.measures(), [("power", 3, 0, sum(x * x for x in (250, -250, 350, -125, -25, 50)), None)])

    def test_blocks_as_a_list(self):
        taps = array.array("h", [8192, 16384])
        chain = Chain([("fir", taps), "shift -1", ("biquad", 0, [16384, 0, 0, 0, 0, 0]), ("to", "q31")])
        self.assertEqual(flat(chain.run([4, 8])), [0, 65536])
        self.assertEqual(flat(Chain("table t {16384} fir t fir t").run([400])), [100])
        self.assertEqual((chain.format, chain.output_format, chain.channels, chain.frames), ("q15", "q31", 1, 2))
        self.assertIn("biquad 0 {16384 0 0 0 0 0}", chain.script)
        self.assertRaises(TypeError, Chain, [("fir", [0.5])])

    def test_a_whole_script(self):
        chain = Chain("dspfx 1 # a comment\ninput wave q7 1\nnegate output wavex")
        self.assertEqual(flat(chain.run([5, -128])), [-5, 127])
        self.assertRaises(TypeError, Chain, "dspfx 1 input raw q15 1 8000 output raw", "q15")
        self.assertEqual(flat(Chain(b"dspfx 1 input raw q15 1 8000 # \xff\noutput raw").run([7])), [7])

    def test_counts(self):
        chain = Chain("interpolate 2 {1 2 3 4} conv {1 2 3}")
        self.assertEqual((chain.frames_given(10), chain.multiplies(10)), (22, 10 * 4 + 22 * 3))
        self.assertEqual(Chain("decimate 6 {1}").unit, 6)

    def test_forms_of_samples(self):
        wanted = [-1, -2, -3, -4]
        for given in ([1, 2, 3, 4], (1, 2, 3, 4), array.array("h", [1, 2, 3, 4]), array.array("q", [1, 2, 3, 4]),
                      memoryview(array.array("h", [1, 2, 3, 4])), memoryview(array.array("i", [1, 2, 3, 4])),
                      memoryview(b"\1\0\2\0\3\0\4\0").cast("h"), range(1, 5)):  # fmt: skip
            self.assertEqual(flat(Chain("negate").process(given)), wanted)
        two = Chain("negate", channels=2)
        for given in ([[1, 2], [3, 4]], memoryview(array.array("h", [1, 2, 3, 4])).cast("B").cast("h", (2, 2)), [1, 2, 3, 4]):
            self.assertEqual(flat(two.process(given)), wanted)
        self.assertEqual(flat(two.process([])), [])

    def test_a_state_goes_on(self):
        first = Chain("fir {8192 16384} decimate 3 {1 2 3 4} power")
        first.process(list(range(1000, 1400)))
        others = [pickle.loads(pickle.dumps(first)), copy.copy(first), copy.deepcopy(first), Chain("fir {8192 16384} decimate 3 {1 2 3 4} power")]
        others[3].state = first.state
        wanted = flat(first.process(list(range(50)))) + flat(first.finish())
        for chain in others:
            self.assertEqual(chain.frames, 400)
            self.assertEqual(flat(chain.process(list(range(50)))) + flat(chain.finish()), wanted)
            self.assertEqual(chain.measures(), first.measures())
        ended = pickle.loads(pickle.dumps(first))
        self.assertEqual(ended.measures(), first.measures())
        ended.reset()
        self.assertEqual((ended.frames, ended.state), (0, (0, ())))

    def test_long_pieces_are_cut(self):
        blocks = "interpolate 2 {100 200} fir {1 2 3}"
        whole, pieces = Chain(blocks), Chain(blocks)
        samples = [(n * 7919) % 20000 - 10000 for n in range(30000)]
        found = [it for place in range(0, len(samples), 7345) for it in flat(pieces.process(samples[place : place + 7345]))]
        self.assertEqual(flat(whole.process(samples)), found)

    def test_a_long_state(self):
        """The numbers that a chain keeps may be more than it had room for at first."""
        chain = Chain("sparse {16384 16384} {0 65535}", channels=2)
        chain.process([1000, 2000])
        chain = pickle.loads(pickle.dumps(chain))
        found = flat(chain.process([0, 0] * 65535))
        self.assertEqual((found[-2:], any(found[:-2])), ([500, 1000], False))

    def test_eight_threads(self):
        wanted = flat(Chain("fir {8192 16384}").process(list(range(2000))))
        found = []

        def work():
            chain = Chain("fir {8192 16384}")
            found.append([it for place in range(0, 2000, 50) for it in flat(chain.process(list(range(place, place + 50))))])

        threads = [threading.Thread(target=work) for _ in range(8)]
        for thread in threads:
            thread.start()
        for thread in threads:
            thread.join()
        self.assertEqual(found, [wanted] * 8)

    @unittest.skipIf(numpy is None, "no numpy")
    def test_arrays_of_numpy(self):
        chain = Chain("route {1 0}", channels=2)
        found = chain.process(numpy.array([[1, 2], [3, 4]], "int16"))
        self.assertEqual((found.dtype, found.tolist()), (numpy.dtype("int16"), [[2, 1], [4, 3]]))
        self.assertEqual(Chain("to q31").process(numpy.arange(3)).dtype, numpy.dtype("int32"))
        self.assertEqual(Chain([("fir", numpy.array([16384, 0]))]).process(numpy.arange(6)[::2]).tolist(), [0, 0, 1])
        found = tozbirem.arm_mat_mult_q15(numpy.eye(2, dtype=int) * 16384, numpy.array([[2, 4], [6, 8]]))
        self.assertEqual((found.shape, found.tolist()), ((2, 2), [[1, 2], [3, 4]]))
        self.assertEqual(tozbirem.fractions(found, "q15").dtype, numpy.dtype(float))
        for wrong in (numpy.array([0.5]), numpy.array([True])):
            self.assertRaises(TypeError, chain.process, wrong)
        self.assertRaises(ValueError, chain.process, numpy.zeros((2, 3), int))
        self.assertRaises(OverflowError, chain.process, numpy.array([40000, 1]))


class Functions(unittest.TestCase):
    def test_worked_examples(self):
        t = tozbirem
        self.assertEqual(flat(t.arm_add_q7([100, -100], [100, -100])), [127, -128])
        self.assertEqual(flat(t.arm_q15_to_q31([1, -1])), [65536, -65536])
        self.assertEqual(t.arm_power_q15([3, -4]), 25)
        self.assertEqual(t.arm_max_q31([5, 9, 9, -1]), (9, 1))
        self.assertEqual(t.arm_min_q7([]), (None, None))
        self.assertEqual(flat(t.arm_shift_q15(x=[1000, 20000], shift_bits=1)), [2000, 32767])
        self.assertEqual(flat(t.arm_cmplx_conj_q15([1, 2, 3, 4])), [1, -2, 3, -4])
        self.assertEqual([flat(row) for row in t.arm_mat_trans_q31([[1, 2, 3], [4, 5, 6]])], [[1, 4], [2, 5], [3, 6]])

    def test_the_taps_of_an_lms_filter(self):
        """One tap of 0, mu = 1/2: e is the reference, and each sample adds (e/2 * x) >> 15 to the tap."""
        first = (1000 * 16384 >> 15) * 2000 >> 15
        y = first * 4000 >> 15
        error = 3000 - y
        second = first + ((error * 16384 >> 15) * 4000 >> 15)
        found = tozbirem.arm_lms_q15([0], 16384, 0, [2000, 4000], [1000, 3000])
        self.assertEqual((flat(found.output), flat(found.error), flat(found.taps)), ([0, y], [1000, error], [second]))
        self.assertEqual(flat(tozbirem.arm_lms_q31([3, 4], 1, 0, [], []).taps), [3, 4])
        self.assertEqual(flat(tozbirem.arm_lms_q31([3, 4], 1, 0, [0], [0]).taps), [3, 4])

    def test_help(self):
        for name, function in tozbirem._functions().items():
            self.assertEqual((function.__name__, function.__module__), (name, "tozbirem"))
            for argument in inspect.signature(function).parameters:
                self.assertRegex(function.__doc__, rf"(?m)^    {argument}  +\S")
            for line in function.__doc__.splitlines():
                self.assertLessEqual(len(line), 120, name)
            self.assertRegex(function.__doc__, r"Returns .*\.\n")
            self.assertNotRegex(function.__doc__, r"\b[A-Z]{3,} S\b|BITS")

    def test_the_examples_of_the_documentation(self):
        modules = [tozbirem, sys.modules["tozbirem._chain"], sys.modules["tozbirem._program"]]
        for module in modules:
            result = doctest.testmod(module, extraglobs={name: getattr(tozbirem, name) for name in tozbirem.__all__})
            self.assertEqual((result.failed, result.attempted > 0), (0, True), module)

    def test_the_types_are_current(self):
        made = subprocess.run([sys.executable, f"{TOP}/python/stub.py"], stdout=subprocess.PIPE, text=True, check=True,
                              env=dict(os.environ, PYTHONPATH=f"{TOP}/python")).stdout  # fmt: skip
        with open(f"{TOP}/python/tozbirem/__init__.pyi") as file:
            self.assertEqual(file.read(), made)

    def test_the_version(self):
        with open(f"{TOP}/VERSION") as version, open(f"{TOP}/python/pyproject.toml") as project:
            self.assertIn(f'version = "{tozbirem.__version__}"', project.read())
            self.assertEqual(version.read().strip(), tozbirem.__version__)
        major, minor, patch = map(int, tozbirem.__version__.split("."))
        number = sys.modules["tozbirem._library"].LIBRARY.tozbirem_version()
        self.assertEqual(number, major << 16 | minor << 8 | patch)

    def test_every_function_of_the_definitions(self):
        """Each function of CMSIS-DSP that docs/DEFINITIONS.md names is here, and no other."""
        import re

        with open(f"{TOP}/docs/DEFINITIONS.md") as file:
            rows = [line for line in file if re.search(r"\| `arm_[^|]*\|\s*$", line)]
        named = set()
        for row in rows:
            first = re.findall(r"`(\w+)", row)[0]
            kind = sys.modules["cases"].language.BLOCKS[first]
            for name in re.findall(r"arm_\w+\*?", row.rstrip(" |\n").rpartition("|")[2]):
                named |= {name[:-1] + form for form in kind.formats} if name.endswith("*") else {name}
        self.assertEqual(named, set(tozbirem._functions()))


class Faults(unittest.TestCase):
    """Whatever is wrong is an exception that says what, and the chain is as before."""

    def refused(self, status, call, *words):
        with self.assertRaises(TozbiremError) as caught:
            call(*words)
        self.assertEqual(caught.exception.status, status)
        return str(caught.exception)

    def test_scripts(self):
        for blocks, kind, fields, line, column, shown in (
            ("fir {32768}", "OutOfRange", {"low": -32768, "high": 32767}, 1, 6, "fir {32768}\n         ^"),
            ("shift 1\n  fri {1}", "UnknownWord", {}, 2, 3, "; fir is a block\n      fri {1}\n      ^"),
            ("add", "ChannelsHere", {"got": 1, "wanted": 2}, 1, 1, "add\n    ^"),
            ("to q15", "NoSuchForm", {"format": "q15"}, 1, 4, "to q15\n       ^"),
            ("fir {}", "Length", {"taps": 0, "factor": 1}, 1, 6, "fir {}\n         ^"),
            ("fir {1 2", "BadNumber", {}, 1, 9, "fir {1 2\n            ^"),
            ("dspfx 1 input raw q15 1 8000 fir", "Missing", {}, 1, 33, "fir\n" + " " * 36 + "^"),
        ):
            with self.assertRaises(tozbirem.ScriptError) as caught:
                Chain(blocks)
            error = pickle.loads(pickle.dumps(caught.exception))
            self.assertEqual((error.status, error.kind, error.fields, error.line, error.column), (2, kind, fields, line, column))
            self.assertIn(shown, str(error))
            self.assertEqual(f"dspfx: {error.text}\n", tozbirem.program("print s", error.script).report)
        self.assertRaises(tozbirem.ScriptError, Chain, "negate", "q8")
        self.assertRaises(tozbirem.ScriptError, Chain, "negate", "q15", 17)
        self.assertRaises(tozbirem.ScriptError, Chain, [("fir", [1] * 16385)])

    def test_no_legal_block_length(self):
        said = self.refused(3, Chain, "decimate 255 {1} decimate 255 {1} decimate 255 {1}")
        self.assertRegex(said, r"block length \d+, unit 0")

    def test_the_texts_of_refusals(self):
        chain = Chain("fir {1 2}")
        self.refused(26, setattr, chain, "state", (5, (1, 2, 3)))
        with self.assertRaises(TozbiremError) as caught:
            chain.state = (5, (40000,))
        self.assertEqual(caught.exception.text, "these blocks keep no such numbers after so many frames")

    def test_another_file(self):
        """A command that reads no other file does the same with one."""
        script, data = "dspfx 1 input raw q15 1 8000 negate output raw", b"\1\0\2\0"
        self.assertEqual(tozbirem.program("run s i o", script, data, b"other"), tozbirem.program("run s i o", script, data=data))

    def test_a_check_of_another_file(self):
        """It reads the whole input and the other file where they are, and tells the first byte that differs."""
        script, data = "dspfx 1 input raw q15 1 8000 negate output raw", bytes(range(200)) * 1000
        output = tozbirem.program("run s i o", script, data).output
        same = tozbirem.program("check s i o", script, data, output)
        self.assertEqual((same.status, same.output), (0, b""))
        wrong = output[:150000] + bytes([output[150000] ^ 1]) + output[150001:]
        for form in bytes, bytearray, memoryview:
            self.assertEqual(tozbirem.program("check s i o", script, form(data), form(output)), same)
            self.assertEqual(tozbirem.program("check s i o", script, form(data), form(wrong)).status, 11)
        self.assertEqual(tozbirem.program("check s i o", script, data, output[:-1]).status, 11)

    def test_out_of_memory(self):
        """Where the library gets no memory it is a MemoryError, and the chain goes on when there is some again."""
        ran = subprocess.run([sys.executable, "-c", WANTING], stdout=subprocess.PIPE, text=True, check=True,
                             env=dict(os.environ, PYTHONPATH=f"{TOP}/python"))  # fmt: skip
        self.assertEqual(ran.stdout, "out of memory\n10 1 True\n")

    def test_samples(self):
        chain = Chain("fir {16384 16384}")
        chain.process([100])
        for error, given in ((OverflowError, [1, 32768]), (OverflowError, [-32769]), (OverflowError, [1 << 70]), (TypeError, [0.5]),
                             (TypeError, ["1"]), (TypeError, [None]), (TypeError, b"\1\0"), (TypeError, bytearray(2)),
                             (TypeError, memoryview(b"\1\0"))):  # fmt: skip
            self.assertRaises(error, chain.process, given)
        self.assertEqual((chain.frames, flat(chain.process([0]))), (1, [50]))
        two = Chain("add", channels=2)
        self.refused(20, two.process, [1, 2, 3])
        for given in ([[1, 2, 3]], [[1], [2]]):
            self.assertRaises(ValueError, two.process, given)
        self.assertRaises(ValueError, tozbirem.arm_add_q15, [1, 2], [1])
        self.assertRaises(ValueError, tozbirem.arm_cmplx_conj_q15, [1, 2, 3])
        self.assertRaises(ValueError, tozbirem.arm_mat_add_q15, [[1, 2]], [[1], [2]])
        self.assertRaises(ValueError, tozbirem.arm_mat_mult_q15, [[1, 2]], [[1, 2]])
        self.assertRaises(TypeError, tozbirem.arm_fir_q15, [1])
        self.assertRaises(TypeError, tozbirem.arm_fir_q15, [0.5], [1])

    def test_states(self):
        chain = Chain("fir {1 2 3}")
        chain.process([5, 6, 7])
        before = chain.state
        self.assertEqual(before, (3, (6, 7)))
        for state in ((0, (40000, 0)), (3, (1,)), (3, ()), (3, (1, 2, 3)), (1 << 41, (0, 0)), (-1, (0, 0)), (3, (1 << 63, 0))):
            self.refused(26, setattr, chain, "state", state)
            self.assertEqual(chain.state, before)

    def test_a_signal_that_has_ended(self):
        chain = Chain("power")
        self.refused(30, chain.measures)
        chain.finish()
        self.refused(30, chain.process, [1])
        self.refused(30, chain.finish)
        self.assertEqual(chain.measures()[0].value, 0)

    def test_a_signal_that_is_too_long(self):
        chain = Chain("negate")
        chain.state = ((1 << 40) - 1, ())
        chain.process([1])
        self.refused(22, chain.process, [1])
        self.assertEqual((chain.frames, flat(chain.process([]))), (1 << 40, []))

    def test_a_window_past_its_convolution(self):
        chain = Chain("conv_partial 0 10 {1}")
        chain.process([1, 2])
        self.refused(25, chain.finish)
        self.assertEqual(flat(chain.process([0] * 8)), [0] * 8)
        self.assertEqual(flat(chain.finish()), [])

    def test_a_full_correlation(self):
        chain = Chain("interpolate 255 {%s} correlate {1}" % " ".join(["1"] * 255), format="q15")
        chain.process([0] * 4112)
        self.assertEqual("too many samples for correlate: 1048815 of a channel", self.refused(24, chain.process, [0]))
        self.assertEqual(chain.frames, 4112)
        self.refused(24, chain.process, [0] * 20000)
        self.assertEqual((chain.frames, flat(chain.process([]))), (4112, []))


@unittest.skipIf(sys.version_info < (3, 9), "tools/coefficients.py needs Python 3.9")
class Design(unittest.TestCase):
    """The helpers give what tools/coefficients.py gives."""

    def tool(self, text, *words):
        ran = subprocess.run([sys.executable, f"{TOP}/tools/coefficients.py", "-", *words, "--as", "block"], input=text,
                             stdout=subprocess.PIPE, stderr=subprocess.DEVNULL, text=True, check=True)  # fmt: skip
        return ran.stdout.strip()

    def test_taps(self):
        design = [0.5, -0.25, 1.0, -1.0, 0.1, 2**-16, -(2**-16), 0.99999]
        for format in ("q7", "q15", "q31"):
            taps = tozbirem.fir_taps(design, format)
            self.assertEqual(self.tool("\n".join(map(repr, design)), "--format", format), "fir {" + " ".join(map(str, taps)) + "}")
        self.assertEqual(tozbirem.quantize([0.5, 1.0, -1.0], "q7"), [64, 127, -128])
        self.assertEqual(tozbirem.fractions([64, -128], "q7"), [0.5, -1.0])
        for wrong in ([1.001], [-1.001], [float("nan")], [float("inf")]):
            self.assertRaises(ValueError, tozbirem.quantize, wrong)

    def test_sections(self):
        sos = [[1, 0.5, 0.25, 1, -1.75, 0.5], [0.3, -0.2, 0.1, 1, 0.99, -0.3]]
        text = "\n".join(" ".join(map(repr, row)) for row in sos)
        for format in ("q15", "q31"):
            shift, numbers = tozbirem.biquad_sections(sos, format)
            self.assertEqual(self.tool(text, "--block", "biquad", "--format", format), f"biquad {shift} {{{' '.join(map(str, numbers))}}}")
        for wrong in ([[1, 2, 3]], [[1, 0, 0, 0, 0, 0]]):
            self.assertRaises(ValueError, tozbirem.biquad_sections, wrong)
        self.assertRaises(ValueError, tozbirem.biquad_sections, sos, "q7")


if __name__ == "__main__":
    unittest.main()
