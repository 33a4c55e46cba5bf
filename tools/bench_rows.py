"""The rows of docs/PERFORMANCE.md: each block with typical parameters. For tools/bench.sh and tools/bench_counts.py."""

BITS = {"q7": 8, "q15": 16, "q31": 32}


def numbers(values):
    return "{" + " ".join(str(value) for value in values) + "}"


def taps(form, count):
    """Values of both signs whose absolute values add up to less than one, where one fits each."""
    most = max(1, 2 ** (BITS[form] - 1) // count - 1)
    return numbers((1 + index * 7919 % most) * (-1) ** (index % 3 == 0) for index in range(count))


def large_taps(form, count):
    """Values of both signs, near the ends of the range."""
    most = 2 ** (BITS[form] - 1) - 1
    return numbers((most - index * 7919 % 1000) * (-1) ** (index % 3 == 0) for index in range(count))


def sections(form, count):
    one = 2 ** (BITS[form] - 2)
    feed, back = [one // 16, one // 8, one // 16], [one, -one * 3 // 8]
    return numbers((feed[:1] + ([0] if form == "q15" else []) + feed[1:] + back) * count)


def half(form):
    return 2 ** (BITS[form] - 2)


ALL, WIDE, Q15, Q31 = ("q7", "q15", "q31"), ("q15", "q31"), ("q15",), ("q31",)

# A row of the table: its name, its formats, its channels, the text of its blocks in a format, and the
# frames that it can take at most.
BLOCKS = [
    ("no block", ALL, 1, lambda form: ""),
    ("offset", ALL, 1, lambda form: f"offset {half(form)}"),
    ("negate", ALL, 1, lambda form: "negate"),
    ("abs", ALL, 1, lambda form: "abs"),
    ("scale", ALL, 1, lambda form: f"scale {half(form)} 1"),
    ("shift", ALL, 1, lambda form: "shift 2"),
    ("clip", ALL, 1, lambda form: f"clip {-half(form)} {half(form)}"),
    ("to", ALL, 1, lambda form: "to q31" if form != "q31" else "to q15"),
    ("add", ALL, 2, lambda form: "add"),
    ("mult", ALL, 2, lambda form: "mult"),
    ("route", ALL, 2, lambda form: "route {1 0}"),
    ("cmplx_conj", WIDE, 2, lambda form: "cmplx_conj"),
    ("cmplx_mult", WIDE, 4, lambda form: "cmplx_mult"),
    ("cmplx_mult_real", Q15, 3, lambda form: "cmplx_mult_real"),
    ("cmplx_mag_squared", WIDE, 2, lambda form: "cmplx_mag_squared"),
    ("fir of 32 taps", ALL, 1, lambda form: "fir " + taps(form, 32)),
    ("fir of 32 taps, stereo", Q15, 2, lambda form: "fir " + taps(form, 32)),
    ("fir of 256 taps", ALL, 1, lambda form: "fir " + taps(form, 256)),
    ("fir of 256 large taps", Q15, 1, lambda form: "fir " + large_taps(form, 256)),
    ("sparse of 16 taps", ALL, 1, lambda form: f"sparse {taps(form, 16)} {numbers(range(0, 4000, 250))}"),
    ("decimate 4, 64 taps", WIDE, 1, lambda form: "decimate 4 " + taps(form, 64)),
    ("interpolate 4, 64 taps", WIDE, 1, lambda form: "interpolate 4 " + taps(form, 64)),
    ("lattice_fir of 16", Q15, 1, lambda form: "lattice_fir " + taps(form, 16)),
    ("lattice_iir of 16", WIDE, 1, lambda form: f"lattice_iir {taps(form, 16)} {taps(form, 17)}"),
    ("biquad of 4", WIDE, 1, lambda form: "biquad 1 " + sections(form, 4)),
    ("biquad64 of 4", Q31, 1, lambda form: "biquad64 1 " + sections(form, 4)),
    ("conv of 64 taps", ALL, 1, lambda form: "conv " + taps(form, 64)),
    ("conv_partial of 64 taps", ALL, 1, lambda form: "conv_partial 0 1000 " + taps(form, 64)),
    ("correlate of 64 taps", ALL, 1, lambda form: "correlate " + taps(form, 64), 1000000),
    ("correlate of 256 taps", ALL, 1, lambda form: "correlate " + taps(form, 256), 1000000),
    ("lms of 32 taps", WIDE, 2, lambda form: f"lms 0 {half(form) // 8} {numbers([0] * 32)}"),
    ("pid", WIDE, 1, lambda form: f"pid {half(form) // 4} {half(form) // 32} {half(form) // 64}"),
    ("mat_add of 8 by 8", WIDE, 1, lambda form: "mat_add 8 8 " + taps(form, 64)),
    ("mat_scale of 8 by 8", WIDE, 1, lambda form: f"mat_scale 8 8 {half(form)} 1"),
    ("mat_trans of 8 by 8", WIDE, 1, lambda form: "mat_trans 8 8"),
    ("mat_mult of 4 by 4", Q15, 1, lambda form: "mat_mult 4 4 4 " + taps(form, 16)),
    ("mat_mult of 8 by 8", Q15, 1, lambda form: "mat_mult 8 8 8 " + taps(form, 64)),
    ("mat_mult of 16 by 16", Q15, 1, lambda form: "mat_mult 16 16 16 " + taps(form, 256)),
    ("power", ALL, 1, lambda form: "power"),
    ("dot", ALL, 2, lambda form: "dot"),
    ("cmplx_dot", WIDE, 4, lambda form: "cmplx_dot"),
    ("max and min", ALL, 1, lambda form: "max min"),
]
