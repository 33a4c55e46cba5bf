"""The outside cases: through the program in memory, through chains in random pieces, and through the named functions."""

import pickle
import random
import re
import unittest

import tozbirem
from cases import EVERY, cases, flat, language, measure_line, measure_lines, samples_of
from tozbirem import Chain, ScriptError, _arm

ALL = cases()
BITS = {"q7": 7, "q15": 15, "q31": 31}


def raw_cases():
    """The runs of whole scripts over raw files, with the chain, its samples and what it must give."""
    for case in ALL:
        text = re.sub(rb"#[^\n]*", b"", case.script).split()
        if case.status == 0 and text[2:4] == [b"input", b"raw"] and text[-1] == b"raw" and case.commands[0].startswith("run"):
            chain = Chain(case.script)
            given = samples_of(case.data, BITS[chain.format])
            given = given[: len(given) // chain.channels * chain.channels]
            yield case, chain, given, samples_of(case.output, BITS[chain.output_format])


class Program(unittest.TestCase):
    def test_every_case(self):
        for case in ALL:
            for command in case.commands:
                with self.subTest(command, script=case.script[:80]):
                    ran = tozbirem.program(command, case.script, case.data)
                    self.assertEqual((ran.status, ran.report, ran.output), (case.status, case.report, case.output))

    def test_in_two_sittings(self):
        """1000, 0 and 0 through one section that halves, and adds half of the last output."""
        script, data = "dspfx 1 input raw q15 1 8000 biquad 0 {16384 0 0 0 16384 0} output raw", bytes.fromhex("e80300000000")
        first = tozbirem.program("resume stop 1 s i o", script, data)
        self.assertEqual((first.status, first.output.hex(), first.printed[:8], len(first.printed)), (0, "f401", b"DSPSTATE", 123))
        rest = tozbirem.program("resume go s i o", first.printed, data)
        self.assertEqual((rest.status, rest.output.hex()), (0, "fa007d00"))
        self.assertEqual(tozbirem.program("resume go s i o", first.printed[:-1], data).report, "dspfx: state: Cut at 122\n")

    def test_faults_of_scripts(self):
        """Where the program reports a fault in a script, a chain of it raises the same one."""
        count = 0
        for case in ALL:
            found = re.match(r"dspfx: script: (\w+) at (\d+)(.*)\n", case.report)
            if found and case.script.startswith(b"dspfx "):
                with self.subTest(case.script[:80]), self.assertRaises(ScriptError) as caught:
                    Chain(case.script)
                error = caught.exception
                said = "".join(f", {name} {value}" for name, value in error.fields.items())
                self.assertEqual((error.kind, str(error.offset), said), found.groups())
                count += 1
        self.assertGreater(count, 100 // EVERY)


class Chains(unittest.TestCase):
    def test_at_once(self):
        count = 0
        for case, chain, given, wanted in raw_cases():
            with self.subTest(case.script[:120]):
                self.assertEqual(flat(chain.run(given)), wanted)
                self.assertEqual([measure_line(it) for it in chain.measures()], measure_lines(case))
                lines = case.report.splitlines()
                frames = len(given) // chain.channels
                self.assertIn(f"out {chain.frames_given(frames)} frames of {chain.output_channels} channels {chain.output_format}", lines)
                self.assertIn(f"multiplies {chain.multiplies(frames)}", lines)
                count += 1
        self.assertGreater(count, 1000 // EVERY)

    def test_in_pieces_with_a_saved_state(self):
        chance = random.Random(1)
        for case, chain, given, wanted in raw_cases():
            with self.subTest(case.script[:120]):
                found, place = [], 0
                while place < len(given):
                    step = chain.channels * chance.choice((1, 1, 2, 3, 5, 8, 100))
                    found += flat(chain.process(given[place : place + step]))
                    place += step
                    chain = pickle.loads(pickle.dumps(chain))
                found += flat(chain.finish())
                self.assertEqual(found, wanted)
                self.assertEqual([measure_line(it) for it in chain.measures()], measure_lines(case))


def said_of(measure):
    """The value of a measure as the program reports it."""
    if isinstance(measure, _arm.Extreme):
        return "none" if measure.value is None else f"{measure.value} at {measure.index}"
    return " ".join(map(str, measure)) if isinstance(measure, tuple) else str(measure)


class Functions(unittest.TestCase):
    """Each function named as Arm's, over the cases that are one block."""

    def test_every_function(self):
        rows = {row.block.split()[0]: row for row in (*_arm.ROWS, *_arm.MATRICES)}
        called = set()
        for case, chain, given, wanted in raw_cases():
            blocks = language.read_script(chain.script).blocks
            if len(blocks) != 1 or blocks[0].word == "route":
                continue
            (block,) = blocks
            if block.word == "to":
                name = f"arm_{chain.format}_to_{block.numbers[0]}"
                self.each_channel(case, chain, given, wanted, getattr(tozbirem, name))
            else:
                name = f"arm_{rows[block.word].name}_{chain.format}"
                self.one_block(rows[block.word], name, [*map(int, block.numbers), *block.lists], case, chain, given, wanted)
            called.add(name)
        if EVERY == 1:
            self.assertEqual(called, set(_arm.functions()))

    def each_channel(self, case, chain, given, wanted, call):
        with self.subTest(case.script[:120]):
            for channel in range(chain.channels):
                found = call(given[channel :: chain.channels])
                self.assertEqual(flat(found), wanted[channel :: chain.channels])

    def one_block(self, row, name, numbers, case, chain, given, wanted):
        call = getattr(tozbirem, name)
        names = [it.strip("{}") for it in row.block.split()[1:]]
        arguments = dict(zip(names, numbers))
        if row in _arm.MATRICES:
            self.groups(call, arguments, case, chain, given, wanted)
            return
        widths = [2 if it[-1] == "*" else 1 for it in row.signals.split()]
        signals = [it.rstrip("*") for it in row.signals.split()]
        if sum(widths) > 1:
            self.assertEqual(sum(widths), chain.channels)
            frames = [given[place : place + chain.channels] for place in range(0, len(given), chain.channels)]
            place = 0
            for signal, width in zip(signals, widths):
                arguments[signal] = [it for frame in frames for it in frame[place : place + width]]
                place += width
            self.judge(call(**arguments), case, chain, wanted, 0, 1)
            return
        for channel in range(chain.channels):
            arguments[signals[0]] = given[channel :: chain.channels]
            self.judge(call(**arguments), case, chain, wanted, channel, chain.channels)

    def judge(self, found, case, chain, wanted, channel, channels):
        lines = measure_lines(case)
        with self.subTest(case.script[:120]):
            if lines:
                self.assertEqual(said_of(found), lines[channel].partition(" = ")[2])
            elif isinstance(found, _arm.Lms):
                self.assertEqual([it for pair in zip(flat(found.output), flat(found.error)) for it in pair], wanted)
            else:
                self.assertEqual(flat(found), wanted[channel::channels])

    def groups(self, call, arguments, case, chain, given, wanted):
        rows, columns = arguments.pop("rows"), arguments.pop("columns")
        width = arguments.pop("width", columns)
        if "b" in arguments:
            arguments["b"] = [arguments["b"][place : place + width] for place in range(0, len(arguments["b"]), width)]
        for channel in range(chain.channels):
            samples, found = given[channel :: chain.channels], []
            for place in range(0, len(samples) // (rows * columns) * rows * columns, rows * columns):
                matrix = [samples[place + row * columns : place + (row + 1) * columns] for row in range(rows)]
                found += [int(it) for row in call(matrix, **arguments) for it in row]
            with self.subTest(case.script[:120]):
                self.assertEqual(found, wanted[channel :: chain.channels])


if __name__ == "__main__":
    unittest.main()
