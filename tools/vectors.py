#!/usr/bin/env python3
"""Writes a test vector for a device: a C header with the samples of an input and those that a script makes of them.

    tools/vectors.py SCRIPT IN [OUT] [--name NAME] [--force]

It runs ./dspfx over IN, in a temporary folder. The header has the arrays NAME_input and NAME_expected, of int8_t in
q7, int16_t in q15 and int32_t in q31, frame after frame; NAME_INPUT_FRAMES, NAME_INPUT_CHANNELS and the same of
EXPECTED; and in a comment the formats, the script and its measures. It goes to standard output, or to the file OUT.
NAME is `vector` unless another name of C is given.

Nothing is written where the run does not end with 0, where a name is none of C, or where OUT is there: --force writes
it anew, unless it is IN or SCRIPT. The status is then 1, or that of the run.
"""
import argparse
import os
import re
import subprocess
import sys
import tempfile
import textwrap

import differs
import language
import samples

TOP = os.path.dirname(os.path.dirname(os.path.abspath(__file__)))
TYPES = {"q7": "int8_t", "q15": "int16_t", "q31": "int32_t"}
LEAST = {"q31": -(1 << 31)}  # in C a minus and a number that no int holds


class Fault(Exception):
    """Why nothing is written, and the status."""

    def __init__(self, why, status=1):
        super().__init__(why)
        self.status = status


class Signal:
    """Samples frame after frame, with their format and their number of channels."""

    def __init__(self, values, form, channels):
        self.values, self.form, self.channels = values, form, channels

    def frames(self):
        return len(self.values) // self.channels


def called(*words):
    """What ./dspfx says on standard output. Its hints go to standard error."""
    ran = subprocess.run([f"{TOP}/dspfx", *words], stdin=subprocess.DEVNULL, stdout=subprocess.PIPE, stderr=subprocess.PIPE)
    # (what is said of a run that is done is said once)
    if ran.returncode or words[0] == "run":
        print(ran.stderr.decode("utf-8", "replace"), end="", file=sys.stderr)
    said = ran.stdout.decode("utf-8", "replace")
    if ran.returncode:
        raise Fault(f"{said.strip().splitlines()[0] if said.strip() else 'no report'}: the run ended with {ran.returncode}, and nothing is written",
                    ran.returncode if 0 < ran.returncode < 256 else 1)  # fmt: skip
    return said


def input_of(path, script):
    """The samples of the input, as the program reads them."""
    if script.container == "wave":
        found = samples.read(path)
        return Signal(found.values, found.form, found.channels)
    with open(path, "rb") as file:
        data = file.read()
    width = script.channels * (samples.BITS[script.form] + 1) // 8
    if len(data) % width:
        raise Fault(f"{path}: {len(data)} bytes are no whole number of frames of {width} bytes")
    return Signal(samples.decoded(data, script.form), script.form, script.channels)


def vector(script_path, path):
    """The script's canonical text, the samples in and out, and the lines of measures."""
    for it in (script_path, path):
        if not os.path.isfile(it):
            raise Fault(f"{it} is no file that can be read twice")
    text = called("print", script_path)
    given = input_of(path, language.read_script(text))
    with tempfile.TemporaryDirectory(prefix="dspfx-") as folder:
        report = called("run", script_path, path, f"{folder}/output").splitlines()
        with open(f"{folder}/output", "rb") as file:
            data = file.read()
    taken, made = (re.fullmatch(r"(?:in|out) (\d+) frames of (\d+) channels (q\d+)", line) for line in report[1:3])
    frames, channels, form = int(made[1]), int(made[2]), made[3]
    expected = Signal(differs.Layout(data, frames, channels, form).samples(data), form, channels)
    if (int(taken[1]), int(taken[2]), taken[3]) != (given.frames(), given.channels, given.form) or expected.frames() != frames:
        raise Fault(f"{path}: it was read otherwise than the program did; was it changed meanwhile?")
    if not given.values or not expected.values:
        raise Fault(f"the input has {given.frames()} frames and the output {frames}, and an array of C has at least one number")
    return text, given, expected, report[4:]


def array(name, signal):
    """The text of an array."""
    numbers = ", ".join("INT32_MIN" if it == LEAST.get(signal.form) else str(it) for it in signal.values)
    lines = textwrap.fill(numbers, 112, initial_indent="    ", subsequent_indent="    ", break_on_hyphens=False)
    return f"static const {TYPES[signal.form]} {name}[{len(signal.values)}] = {{\n{lines}\n}};\n"


def described(what, signal):
    return f"{what} {signal.frames()} frames of {signal.channels} channel{'s' * (signal.channels != 1)}, {signal.form} ({TYPES[signal.form]})"


def header(name, text, given, expected, measures):
    """The text of the header."""
    lines = ["A test vector, made by tools/vectors.py. Samples are frame after frame, channel 0 first.", "",
             described("Input:   ", given), described("Expected:", expected), "", "The script:", ""]  # fmt: skip
    for line in text.splitlines():
        lines += textwrap.wrap(line, 104, initial_indent="    ", subsequent_indent="        ", break_on_hyphens=False, break_long_words=False)
    lines += ["", "Its measures:", "", *(f"    {line}" for line in measures)] if measures else []
    guard = f"{name.upper()}_TEST_VECTOR_H"
    parts = ["/*", *(f" * {line}".rstrip() for line in lines), " */", f"#ifndef {guard}", f"#define {guard}", "", "#include <stdint.h>", ""]
    for word, signal in (("INPUT", given), ("EXPECTED", expected)):
        parts += [f"#define {name.upper()}_{word}_FRAMES {signal.frames()}", f"#define {name.upper()}_{word}_CHANNELS {signal.channels}"]
    return "\n".join([*parts, "", array(f"{name}_input", given), array(f"{name}_expected", expected), "#endif", ""])


def write(path, text, is_forced, reads):
    """Writes a file whole or not at all. One that is there is kept, or with --force replaced, unless it was read."""
    if os.path.lexists(path):
        if not is_forced:
            raise Fault(f"{path} is there, and is left as it is: --force writes it anew")
        if not os.path.isfile(path) or any(os.path.samefile(path, it) for it in reads):
            raise Fault(f"{path} is {'read' if os.path.isfile(path) else 'no file'}, and is left as it is: name another output")
    folder = os.path.dirname(os.path.realpath(path))
    if not os.path.isdir(folder):
        raise Fault(f"there is no folder {folder}")
    if is_forced:
        replace(os.path.realpath(path), text)
        return
    with open(path, "x") as file:
        try:
            file.write(text)
            file.flush()
        except BaseException:
            os.unlink(path)
            raise


def replace(target, text):
    """Puts a whole file in the place of another, with the permissions of a new one."""
    with tempfile.TemporaryDirectory(dir=os.path.dirname(target), prefix=".vectors-") as folder:
        with open(f"{folder}/new", "w") as file:
            file.write(text)
        os.replace(f"{folder}/new", target)


def main():
    parser = argparse.ArgumentParser(description=__doc__, formatter_class=argparse.RawDescriptionHelpFormatter)
    parser.add_argument("script", metavar="SCRIPT")
    parser.add_argument("input", metavar="IN")
    parser.add_argument("output", metavar="OUT", nargs="?", help="else standard output")
    parser.add_argument("--name", default="vector", help="what the names of the arrays begin with; else vector")
    parser.add_argument("--force", action="store_true", help="writes OUT anew where it is there")
    words = parser.parse_args()
    if not re.fullmatch(r"[A-Za-z_]\w*", words.name, re.ASCII):
        raise Fault(f"{words.name!r} is no name of C: a letter, and then letters, digits and _")
    if words.output and os.path.lexists(words.output) and not words.force:
        raise Fault(f"{words.output} is there, and is left as it is: --force writes it anew")
    text = header(words.name, *vector(words.script, words.input))
    if words.output:
        write(words.output, text, words.force, (words.script, words.input))
    else:
        print(text, end="", flush=True)


if __name__ == "__main__":
    try:
        main()
    except Fault as fault:
        print(f"vectors: {fault}", file=sys.stderr)
        sys.exit(fault.status)
    except (OSError, ValueError) as fault:
        print(f"vectors: {samples.reason_of(fault) if isinstance(fault, OSError) and fault.strerror else fault}", file=sys.stderr)
        sys.exit(1)
    except KeyboardInterrupt:
        sys.exit(130)
