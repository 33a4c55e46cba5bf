"""The cases of crates/dsp_replay/stdin: runs with what an independent implementation says of them."""

import os
import sys

TOP = os.path.dirname(os.path.dirname(os.path.dirname(os.path.abspath(__file__))))
CASES = os.path.join(TOP, "crates", "dsp_replay", "stdin")
sys.path.insert(0, f"{TOP}/tools")
import language  # noqa: E402

EVERY = int(os.environ.get("TOZBIREM_EVERY", "1"))  # one of how many rows is taken


class Case:
    """The words of commands, their script and input, and the status, report and output of each."""

    def __init__(self, line):
        words, script, data, status, report, output, *ports = line.split("|")
        self.commands, self.status, self.is_plain = words.split(","), int(status), not ports
        self.script, self.data, self.output = (bytes_of(it) for it in (script, data, output))
        self.report = bytes_of(report).decode(errors="replace")  # (a saved state is no text)


def bytes_of(field):
    return field[1:].replace(";", "\n").encode() if field.startswith("=") else bytes.fromhex(field)


def cases():
    """The cases whose ports do not fail."""
    with open(CASES) as file:
        found = [Case(line.rstrip("\n")) for line in file if not line.startswith("#")]
    return [case for case in found if case.is_plain][::EVERY]


def measure_lines(case):
    """The lines of measures in a report."""
    kinds = ("power ", "dot ", "cmplx_dot ", "max ", "min ")
    return [line for line in case.report.splitlines() if line.startswith(kinds)]


def measure_line(measure):
    """A measure as the program reports it."""
    head, value = f"{measure.kind} {measure.block}", measure.value
    if measure.kind == "cmplx_dot":
        return f"{head} = {value[0]} {value[1]}"
    if measure.kind == "dot":
        return f"{head} = {value}"
    head += f" channel {measure.channel}"
    if measure.kind == "power":
        return f"{head} = {value}"
    return f"{head} = none" if value is None else f"{head} = {value} at {measure.index}"


def samples_of(data, bits):
    """Raw bytes as ints; those of a last sample that is not whole are left out."""
    width = (bits + 1) // 8
    return [int.from_bytes(data[place : place + width], "little", signed=True) for place in range(0, len(data) - width + 1, width)]


def flat(found):
    """Samples as a list of ints."""
    return [int(value) for value in (found.reshape(-1) if hasattr(found, "reshape") else found)]
