"""From a design in fractions to the numbers of the blocks, rounded as tools/coefficients.py does."""

import math
from fractions import Fraction
from typing import List, Sequence, Tuple

from . import _arrays

BITS = {"q7": 7, "q15": 15, "q31": 31}


def bits_of(format: str) -> int:
    if format not in BITS:
        raise ValueError(f"a format is q7, q15 or q31, and not {format!r}")
    return BITS[format]


def rounded(value, bits: int) -> int:
    """Times 2^bits, half a last place up."""
    number = float(value)
    if not math.isfinite(number):
        raise ValueError(f"{number} is no fraction")
    return math.floor(Fraction(number) * 2**bits + Fraction(1, 2))


def flat(values) -> list:
    if isinstance(values, (bytes, bytearray)):
        raise TypeError("bytes are no fractions")
    _arrays.test_order(values)
    return list(values.reshape(-1).tolist() if hasattr(values, "reshape") else values)


def quantize(values: Sequence[float], format: str = "q15") -> List[int]:
    """Fractions as whole numbers of the format: times 2^7, 2^15 or 2^31, rounded half up.

    1.0 becomes the greatest number of the format, as it is the only value that is beyond it by one last place. Raises
    ValueError for other values outside -1 to 1.
    """
    bits, found = bits_of(format), []
    for value in flat(values):
        number = rounded(value, bits)
        if not -1 <= float(value) <= 1:
            raise ValueError(f"{value} is outside -1 to 1: scale the values first")
        found.append(min(number, (1 << bits) - 1))
    return found


def fractions(samples: Sequence[int], format: str = "q15"):
    """Samples as parts of full scale: an array of numpy if they are one, else a list of floats.

    Raises OverflowError for a sample out of the format, and TypeError for one that is no whole number.
    """
    bits = bits_of(format)
    one = 2.0**bits
    if hasattr(samples, "reshape"):
        _arrays.words(samples.reshape(-1), bits)
        return samples / one
    _arrays.bytes_are_cast(samples, bits)
    _arrays.test_order(samples)
    return [sample / one for sample in _arrays.words(list(samples), bits).tolist()]


def fir_taps(b: Sequence[float], format: str = "q15") -> List[int]:
    """The taps of fir, decimate, interpolate and lms from a design `b[0]` first: rounded, and from b[T-1] to b[0]."""
    return quantize(b, format)[::-1]


def biquad_sections(sos, format: str = "q15") -> Tuple[int, List[int]]:
    """The post shift and the coefficients of a `biquad` (or, in q31, a `biquad64`) from second-order sections.

    sos  rows of b0 b1 b2 a0 a1 a2, as scipy.signal gives by output="sos"

    The post shift is the least with which all coefficients fit. The signs of a1 and a2 are turned, since CMSIS-DSP adds
    the feedback; in q15 a section is b0, 0, b1, b2, a1, a2. Raises ValueError for rows that are no sections.
    """
    bits, sections = bits_of(format), []
    if format == "q7":
        raise ValueError("a biquad has q15 and q31")
    _arrays.test_order(sos)
    for row in sos:
        numbers = [float(it) for it in flat(row)]
        if len(numbers) != 6 or numbers[3] == 0 or not all(map(math.isfinite, numbers)):
            raise ValueError("a section has six numbers, b0 b1 b2 a0 a1 a2, and a0 is not 0")
        b0, b1, b2, a0, a1, a2 = (Fraction(it) for it in numbers)
        sections.append([b0 / a0, b1 / a0, b2 / a0, -a1 / a0, -a2 / a0])
    for shift in range(14 if format == "q15" else 31):
        scaled = [[it * Fraction(2 ** bits, 2 ** shift) for it in section] for section in sections]
        whole = [[math.floor(it + Fraction(1, 2)) for it in section] for section in scaled]
        least, most = min(map(min, scaled), default=0), max(map(max, whole), default=0)
        if least >= -(1 << bits) and most < 1 << bits:
            return shift, [it for b0, *rest in whole for it in ([b0, 0] if format == "q15" else [b0]) + rest]
    raise ValueError("the coefficients are too great for any post shift")
