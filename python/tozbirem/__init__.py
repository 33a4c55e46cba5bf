"""Arm's CMSIS-DSP fixed-point functions (Q7, Q15, Q31, the plain C path), proved.

    >>> import tozbirem
    >>> tozbirem.arm_fir_q15([16384], [1000, -1000, -1]).tolist()
    [500, -500, -1]

Functions that are named as CMSIS-DSP's take whole signals: arm_fir_q15(taps, x), arm_biquad_cascade_df1_q31(coefficients,
post_shift, x), arm_mat_mult_q15(a, b), and help(tozbirem.arm_fir_q15) and so on says what each computes. Chain has all 38
blocks, several after each other, on signals of 1 to 16 channels that come in pieces:

    >>> chain = tozbirem.Chain("fir {8192 16384 8192} shift -1 power", format="q15", channels=1)
    >>> chain.process([1000, -1000]).tolist(), chain.process([400]).tolist(), chain.finish().tolist()
    ([125, 125], [-75], [])
    >>> chain.measures()[0].value
    36875

quantize, fractions, fir_taps and biquad_sections go between fractions and the numbers of the blocks. program runs the
commands of `dspfx` over files in memory. Samples are whole numbers: arrays of numpy, memoryviews, `array.array`, or
lists. Every function can be called from any number of threads.
"""

from ._arm import Extreme, Lms
from ._arm import functions as _functions
from ._chain import Chain, Measure, State
from ._design import biquad_sections, fir_taps, fractions, quantize
from ._errors import ScriptError, TozbiremError
from ._program import Ran, program

__version__ = "0.1.0"
globals().update(_functions())
__all__ = ["Chain", "Extreme", "Lms", "Measure", "Ran", "ScriptError", "State", "TozbiremError", "biquad_sections", "fir_taps",
           "fractions", "program", "quantize", *_functions()]  # fmt: skip
