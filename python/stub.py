#!/usr/bin/env python3
"""Prints tozbirem/__init__.pyi, the types of the functions that are made from the table in tozbirem/_arm.py.

    PYTHONPATH=python python3 python/stub.py > python/tozbirem/__init__.pyi
"""

from tozbirem import _arm

HEAD = '''"""The types of the package; python/stub.py makes this file from the table in _arm.py."""

from typing import Any, List, Sequence, Tuple, Union

from ._arm import Extreme as Extreme, Lms as Lms
from ._chain import Chain as Chain, Measure as Measure, State as State
from ._design import biquad_sections as biquad_sections, fir_taps as fir_taps, fractions as fractions, quantize as quantize
from ._errors import ScriptError as ScriptError, TozbiremError as TozbiremError
from ._program import Ran as Ran, program as program

__version__: str
__all__: List[str]
Samples = Union[Sequence[int], memoryview, Any]  # or an array of numpy
Matrix = Union[Sequence[Sequence[int]], memoryview, Any]  # or an array of numpy of two dimensions
Array = Any  # an array of numpy, or array.array
'''
NUMBERS = {"offset", "scale_fract", "shift", "shift_bits", "low", "high", "factor", "post_shift", "first", "count", "mu", "kp", "ki", "kd"}


def kind_of(row, name):
    if name in NUMBERS:
        return "int"
    return "Matrix" if row in _arm.MATRICES else "Samples"


def result_of(row):
    if row.result.startswith(("Extreme", "Lms")):
        return row.result.partition("(")[0]
    return {"POWERS": "int", "(real part, imaginary part)": "Tuple[int, int]"}.get(row.result, "Any" if row in _arm.MATRICES else "Array")


def main():
    print(HEAD)
    for row in (*_arm.ROWS, *_arm.MATRICES):
        for format in row.formats.split():
            arguments = ", ".join(f"{name}: {kind_of(row, name)}" for name, _ in _arm.arguments_of(row))
            print(f"def arm_{row.name}_{format}({arguments}) -> {result_of(row)}: ...")
    for old in _arm.BITS:
        for new in _arm.BITS:
            if old != new:
                print(f"def arm_{old}_to_{new}(x: Samples) -> Array: ...")


if __name__ == "__main__":
    main()
