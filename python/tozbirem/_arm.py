"""Whole signals through one block, by functions that are named as CMSIS-DSP names its own, from one table.

A row of the table is a function: its name without `arm_` and format, its formats, its arguments, its signals (each a
channel, or two where `*` follows, the real part first), the block of the script language, what it computes, and what
it returns. Coefficients are in the order of CMSIS-DSP's instances.
"""

import inspect
import re
import textwrap
from typing import Any, Callable, Dict, List, NamedTuple, Tuple

from . import _arrays
from ._chain import Chain, listed, whole

BITS = _arrays.BITS


class Row(NamedTuple):
    name: str
    formats: str
    arguments: str
    signals: str
    block: str
    title: str
    value: str
    result: str = "as many samples as there are in x"


class Extreme(NamedTuple):
    """The greatest or least sample and the index of the first one, from 0; both None where there is no sample."""

    value: Any
    index: Any


class Lms(NamedTuple):
    """What an LMS filter gives: the output, the error, and the taps at the end, from w[T-1] to w[0]."""

    output: Any
    error: Any
    taps: Any


ALL, WIDE = "q7 q15 q31", "q15 q31"
TAPS = "1 to 16,384 numbers"
ARGUMENTS = {
    "x": "the samples",
    "a": "the samples of the first signal",
    "b": "the samples of the second signal, as many as in a",
    "offset": "any number of the format",
    "scale_fract": "any number of the format",
    "shift": {"q7": "-8 to 7", "q15": "-16 to 15", "q31": "-31 to 30"},
    "shift_bits": {"q7": "-7 to 7", "q15": "-15 to 15", "q31": "-31 to 31"},
    "low": "any number of the format",
    "high": "any number of the format, at least low",
    "real": "the samples of a real signal, half as many as in a",
    "taps": TAPS + ", from b[T-1] to b[0]",
    "taps_in_order": TAPS + ", from b[0] to b[T-1], at least 2",
    "weights": TAPS + ", from w[T-1] to w[0]",
    "delays": "as many delays as there are taps, 0 to 65,535 samples",
    "factor": "1 to 255",
    "k": "1 to 255 numbers",
    "v": "one number more than in k, from v[S] to v[0]",
    "coefficients": {"q15": "6 numbers a section, b0, 0, b1, b2, a1, a2, for 1 to 64 sections",
                     "q31": "5 numbers a section, b0, b1, b2, a1, a2, for 1 to 64 sections"},
    "post_shift": {"q15": "0 to 13", "q31": "0 to 30"},
    "lms_post_shift": {"q15": "0 to 14", "q31": "0 to 30"},
    "signal_b": "the samples of the second signal, 1 to 16,384",
    "first": "the index of the first value, 0 to 4,294,967,295",
    "count": "how many values, 1 to 4,294,967,295; the last is within the convolution",
    "mu": "the step size, any number of the format",
    "reference": "the samples of the reference, as many as in x",
    "kp": "the proportional gain", "ki": "the integral gain", "kd": "the derivative gain",
    "matrix_a": "a matrix of 1 to 64 rows and 1 to 64 columns",
    "matrix_b": "a matrix of the same shape",
    "product_b": "a matrix with as many rows as a has columns, and 1 to 64 columns",
    "matrix_shift": {"q15": "-16 to 15", "q31": "0 to 30"},
}  # fmt: skip
EACH, HALF = "as many samples as there are in a", "half as many samples as there are in x"
SHAPE = "a matrix of the shape of a"
POWERS = {"q7": "14 bits of fraction, wrapped to 32 bits", "q15": "30 bits of fraction, wrapped to 64 bits",
          "q31": "48 bits of fraction, wrapped to 64 bits"}  # fmt: skip
SCALE = {"q7": "sat(x*scale_fract >> (7-shift))", "q15": "sat(x*scale_fract >> (15-shift))",
         "q31": "sat((x*scale_fract >> 32) * 2^(shift+1)), or shifted down where shift+1 is negative"}  # fmt: skip
CLOSE = {"q7": "sat(wrap32(S) >> 7)", "q15": "sat(wrap64(S) >> 15)", "q31": "wrap32(wrap64(S) >> 31)"}

ROWS = (
    Row("offset", ALL, "x offset", "x", "offset offset", "adds a constant", "sat(x + offset)"),
    Row("negate", ALL, "x", "x", "negate", "turns the sign", "sat(-x)"),
    Row("abs", ALL, "x", "x", "abs", "absolute values", "sat(|x|)"),
    Row("scale", ALL, "x scale_fract shift", "x", "scale scale_fract shift",
        "scales by a fraction and a shift", "SCALE"),
    Row("shift", ALL, "x shift_bits", "x", "shift shift_bits",
        "shifts, up with saturation", "sat(x * 2^shift_bits), or x >> -shift_bits where that is negative"),
    Row("clip", ALL, "x low high", "x", "clip low high", "clamps to a range", "x clamped to low..high"),
    Row("add", ALL, "a b", "a b", "add", "adds two signals", "sat(a + b)", EACH),
    Row("sub", ALL, "a b", "a b", "sub", "subtracts two signals", "sat(a - b)", EACH),
    Row("mult", ALL, "a b", "a b", "mult", "multiplies two signals", "MULT", EACH),
    Row("dot_prod", ALL, "a b", "a b", "dot", "dot product", "DOT", "POWERS"),
    Row("power", ALL, "x", "x", "power", "sum of squares", "POWER", "POWERS"),
    Row("max", ALL, "x", "x", "max",
        "greatest sample", "the greatest sample and its first index", "Extreme(value, index)"),
    Row("min", ALL, "x", "x", "min", "least sample", "the least sample and its first index", "Extreme(value, index)"),
    Row("cmplx_conj", WIDE, "x", "x*", "cmplx_conj", "complex conjugates", "re, sat(-im)"),
    Row("cmplx_mult_cmplx", WIDE, "a b", "a* b*", "cmplx_mult", "multiplies complex signals", "CMPLX", EACH),
    Row("cmplx_mult_real", "q15", "a real", "a* real", "cmplx_mult_real",
        "multiplies a complex signal by a real one", "sat(re*real >> 15), sat(im*real >> 15)", EACH),
    Row("cmplx_mag_squared", WIDE, "x", "x*", "cmplx_mag_squared", "squared magnitudes", "MAG", HALF),
    Row("cmplx_dot_prod", WIDE, "a b", "a* b*", "cmplx_dot",
        "complex dot product", "CDOT", "(real part, imaginary part)"),
    Row("fir", ALL, "taps x", "x", "fir {taps}", "FIR filter", "CLOSE S = sum of b[k]*x(n-k)"),
    Row("fir_sparse", ALL, "taps:taps_in_order delays x", "x", "sparse {taps} {delays}",
        "sparse FIR filter", "SPARSE"),
    Row("fir_decimate", WIDE, "factor taps x", "x", "decimate factor {taps}",
        "FIR decimator", "CLOSE S = sum of b[k]*x(j*factor-k)", "a sample for each whole group of factor samples"),
    Row("fir_interpolate", WIDE, "factor taps x", "x", "interpolate factor {taps}",
        "FIR interpolator; a multiple of factor taps",
        "CLOSE S = sum over k < T/factor of b[factor*k+p]*x(n-k), for p < factor", "factor samples for each"),
    Row("fir_lattice", "q15", "k x", "x", "lattice_fir {k}",
        "FIR lattice; k from k[1] to k[S]",
        "f(m) = sat((k(m)*g(m-1) before >> 15) + f(m-1)), g(m) = sat((k(m)*f(m-1) >> 15) + g(m-1) before)"),
    Row("iir_lattice", WIDE, "k v x", "x", "lattice_iir {k} {v}",
        "IIR lattice; k from k[S] to k[1]",
        "CLOSE S = sum of v(m)*g(m), with f(m-1) = sat(f(m) - p) and g(m) = sat(q + g(m-1) before); IIR"),
    Row("biquad_cascade_df1", WIDE, "coefficients post_shift x", "x", "biquad post_shift {coefficients}",
        "cascade of biquads, direct form I",
        "BIQUAD S = b0*x + b1*x1 + b2*x2 + a1*y1 + a2*y2, in each section"),
    Row("biquad_cas_df1_32x64", "q31", "coefficients post_shift x", "x", "biquad64 post_shift {coefficients}",
        "cascade of biquads with a 64-bit state",
        "in each section S = wrap64(b0*x + b1*x1 + b2*x2 + (a1*Y1 >> 32) + (a2*Y2 >> 32)), Y = wrap64(S * "
        "2^(post_shift+1)), y = wrap32(S >> (31-post_shift))"),
    Row("conv", ALL, "a b:signal_b", "a", "conv {b}",
        "convolution", "CLOSE S = sum of b(k)*a(n-k)", "A+B-1 samples, or none where a has none"),
    Row("conv_partial", ALL, "a b:signal_b first count", "a", "conv_partial first count {b}",
        "part of a convolution", "CLOSE S = sum of b(k)*a(n-k), for n from first on", "count samples"),
    Row("correlate", ALL, "a b:signal_b", "a", "correlate {b}",
        "correlation", "with m = max(A, B): CLOSE S = sum of a(k)*b(k-(n-(m-1)))",
        "2*m-1 samples, or none where a has none; a has at most 1,048,576"),
    Row("lms", WIDE, "taps:weights mu post_shift:lms_post_shift x reference", "x reference", "lms post_shift mu {taps}",
        "adaptive FIR filter", "LMS", "Lms(output, error, taps)"),
    Row("pid", WIDE, "kp ki kd x", "x", "pid kp ki kd",
        "PID controller", "PID with A0 = kp+ki+kd and A1 = -(kp+2*kd), saturated"),
)  # fmt: skip
MATRICES = (
    Row("mat_add", WIDE, "a:matrix_a b:matrix_b", "a", "mat_add rows columns {b}",
        "adds matrices", "sat(a + b)", SHAPE),
    Row("mat_sub", WIDE, "a:matrix_a b:matrix_b", "a", "mat_sub rows columns {b}",
        "subtracts matrices", "sat(a - b)", SHAPE),
    Row("mat_scale", WIDE, "a:matrix_a scale_fract shift:matrix_shift", "a", "mat_scale rows columns scale_fract shift",
        "scales a matrix", "SCALE", SHAPE),
    Row("mat_trans", WIDE, "a:matrix_a", "a", "mat_trans rows columns",
        "transposes a matrix", "b[j][i] = a[i][j]", "the transposed matrix"),
    Row("mat_mult", "q15", "a:matrix_a b:product_b", "a", "mat_mult rows columns width {b}",
        "multiplies matrices", "CLOSE S = sum of a[i][k]*b[k][j]",
        "a matrix with the rows of a and the columns of b"),
)  # fmt: skip
FORMULAS = {
    "SCALE": SCALE,
    "MULT": {"q7": "sat(a*b >> 7)", "q15": "sat(a*b >> 15)", "q31": "2 * sat31(a*b >> 32)"},
    "CMPLX": {"q15": "(a.re*b.re >> 17) - (a.im*b.im >> 17), (a.re*b.im >> 17) + (a.im*b.re >> 17)",
              "q31": "(a.re*b.re >> 33) - (a.im*b.im >> 33), (a.re*b.im >> 33) + (a.im*b.re >> 33)"},
    "MAG": {"q15": "(re*re + im*im) >> 17", "q31": "(re*re >> 33) + (im*im >> 33)"},
    "CDOT": {"q15": "the sum of the products, wrap32(wrap64(S) >> 6): 24 bits of fraction",
             "q31": "the sum of the products, each >> 14, in 64 bits: 48 bits of fraction"},
    "SPARSE": {"q7": "sat(wrap32(sum of b[k]*x(n-d[k])) >> 7)", "q15": "sat(wrap32(sum of b[k]*x(n-d[k])) >> 15)",
               "q31": "wrap32(2 * sum of (b[k]*x(n-d[k]) >> 32))"},
    "DOT": {"q7": "the sum of a*b", "q15": "the sum of a*b", "q31": "the sum of (a*b >> 14)"},
    "POWER": {"q7": "the sum of x*x", "q15": "the sum of x*x", "q31": "the sum of (x*x >> 14)"},
    "IIR": {"q15": "p = k(m)*g(m-1) before >> 15, q = k(m)*f(m-1) >> 15",
            "q31": "p = wrap32(k(m)*g(m-1) before >> 31), q = wrap32(k(m)*f(m-1) >> 31)"},
    "LMS": {"q15": "y = sat(wrap32(sum of w[k]*x(n-k) >> (15-post_shift))), e = wrap16(reference - y), and each tap becomes "
                   "sat(w + (wrap16(e*mu >> 15) * x >> 15))",
            "q31": "y = wrap32(wrap64(sum of w[k]*x(n-k)) >> (31-post_shift)), e = wrap32(reference - y), and each tap becomes "
                   "sat(w + wrap32(2 * (wrap32(e*mu >> 31) * x >> 32)))"},
    "PID": {"q15": "sat((A0*x + A1*x1 + kd*x2 + y1*2^15) >> 15)", "q31": "wrap32((wrap64(A0*x + A1*x1 + kd*x2) >> 31) + y1)"},
    "CLOSE": CLOSE,
    "BIQUAD": {"q15": "sat(wrap64(S) >> (15-post_shift))", "q31": "wrap32(wrap64(S) >> (31-post_shift))"},
}  # fmt: skip


JOINS = {None: "", " S": ", where S", " with": ", with"}


def arguments_of(row: Row) -> List[Tuple[str, str]]:
    """The names of a row's arguments, each with its entry in ARGUMENTS."""
    parts = [it.partition(":") for it in row.arguments.split()]
    return [(name, entry or name) for name, _, entry in parts]


def formula_of(row: Row, format: str) -> str:
    text = row.value.replace("BITS", str(BITS[format]))
    for name, by_format in FORMULAS.items():
        # (CLOSE S = .. is `the formula, where S = ..`)
        text = re.sub(rf"\b{name}\b( S(?= =)| with)?", lambda it: by_format[format] + JOINS[it[1]], text)
    return text


def doc_of(row: Row, format: str) -> str:
    """What help() shows."""
    title = f"{row.title[0].upper()}{row.title[1:]}: {formula_of(row, format)}."
    lines = [*textwrap.wrap(title, 116), ""]
    width = max(len(name) for name, _ in arguments_of(row)) + 2
    for name, entry in arguments_of(row):
        text = ARGUMENTS[entry]
        lines.append(f"    {name.ljust(width)}{text[format] if isinstance(text, dict) else text}")
    result = POWERS[format] if row.result == "POWERS" else row.result
    if row.result == "POWERS":
        result = f"the sum, an int with {result}"
    lines += ["", f"Returns {result}."]
    if "*" in row.signals:
        lines.append("A complex signal has two samples a number, the real part first.")
    what = f"Numbers are int{BITS[format] + 1}, fractions times 2^{BITS[format]}"
    lines += [f"{what}. Raises ScriptError for a parameter out of its range, OverflowError for a",
              "sample out of the format, TypeError for one that is no whole number, ValueError for unequal lengths.",
              f"As arm_{row.name}_{format} of CMSIS-DSP; the definition is `{row.block.split()[0]}` in docs/DEFINITIONS.md."]  # fmt: skip
    return "\n".join(lines)


def filled(block: str, given: Dict[str, Any]) -> str:
    """The block with its parameters put in."""
    word, *rest = block.split()
    return " ".join([word, *(listed(given[it[1:-1]]) if it[0] == "{" else whole(given[it]) for it in rest)])


def signal(row: Row, given: Dict[str, Any], bits: int):
    """The signals of a call side by side, frame by frame."""
    parts = []
    for name in row.signals.split():
        channels = 2 if name[-1] == "*" else 1
        parts.append((_arrays.words(given[name.rstrip("*")], bits, channels), channels))
    return _arrays.woven(parts, bits)


def result_of(row: Row, chain: Chain, given, arguments: Dict[str, Any]):
    """What a function returns: samples, a measure, or what an LMS filter gives."""
    if chain.measures():
        (measure,) = chain.measures()
        return Extreme(measure.value, measure.index) if measure.kind in ("max", "min") else measure.value
    if row.name == "lms":
        # (its kept numbers are T-1 samples, and then the taps from w[0] to w[T-1])
        kept = chain.state.numbers
        taps = kept[len(kept) // 2 :][::-1] if kept else arguments["taps"]
        return Lms(_arrays.column(given, 0, 2), _arrays.column(given, 1, 2), _arrays.words(taps, BITS[chain.format]))
    return _arrays.flat(given)


def on_signals(row: Row, format: str) -> Callable:
    channels = sum(2 if name[-1] == "*" else 1 for name in row.signals.split())

    def call(*words, **named):
        given = call.__signature__.bind(*words, **named).arguments  # type: ignore[attr-defined]
        chain = Chain(filled(row.block, given), format, channels)
        return result_of(row, chain, chain.run(signal(row, given, BITS[format])), given)

    return call


def on_matrices(row: Row, format: str) -> Callable:
    is_product = row.name == "mat_mult"

    def call(*words, **named):
        given = call.__signature__.bind(*words, **named).arguments  # type: ignore[attr-defined]
        samples, (rows, columns) = _arrays.matrix(given["a"], BITS[format])
        numbers = {**given, "rows": rows, "columns": columns, "width": rows if row.name == "mat_trans" else columns}
        if "b" in given:
            numbers["b"], shape = _arrays.matrix(given["b"], BITS[format])
            if shape[0] != columns if is_product else shape != (rows, columns):
                raise ValueError(f"matrices of {rows} by {columns} and of {shape[0]} by {shape[1]}")
            numbers["width"] = shape[1]
        found = Chain(filled(row.block, numbers), format).run(samples)
        return _arrays.as_matrix(found, numbers["width"])

    return call


def conversion(old: str, new: str) -> Callable:
    def call(x):
        return Chain(f"to {new}", old).run(x)

    by = BITS[new] - BITS[old]
    call.__doc__ = (f"The same fractions in {new}: x * 2^{by}." if by > 0 else f"The same fractions in {new}: x >> {-by}.") + (
        f"\n\n    x  the samples, int{BITS[old] + 1}\n\nReturns as many samples, int{BITS[new] + 1}."
        f"\nAs arm_{old}_to_{new} of CMSIS-DSP; the definition is `to` in docs/DEFINITIONS.md.")  # fmt: skip
    return call


def named(call: Callable, name: str, arguments: List[str]) -> Callable:
    call.__name__ = call.__qualname__ = name
    call.__module__ = "tozbirem"
    parameters = [inspect.Parameter(it, inspect.Parameter.POSITIONAL_OR_KEYWORD) for it in arguments]
    call.__signature__ = inspect.Signature(parameters)  # type: ignore[attr-defined]
    return call


def functions() -> Dict[str, Callable]:
    """All functions by name."""
    found = {}
    for rows, make in ((ROWS, on_signals), (MATRICES, on_matrices)):
        for row in rows:
            for format in row.formats.split():
                call = named(make(row, format), f"arm_{row.name}_{format}", [name for name, _ in arguments_of(row)])
                call.__doc__ = doc_of(row, format)
                found[call.__name__] = call
    for old in BITS:
        for new in BITS:
            if old != new:
                found[f"arm_{old}_to_{new}"] = named(conversion(old, new), f"arm_{old}_to_{new}", ["x"])
    return found
