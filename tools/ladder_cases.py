#!/usr/bin/env python3
"""Makes cases of `lattice_iir` for dsp_replay: as many sections as fill groups of four and of eight, one more
and one less, with numbers of every size, extremes, and reflection coefficients of -1.

    tools/ladder_cases.py [SEED]   writes the cases

What is expected is said by the formulas of docs/DEFINITIONS.md, written here section by section.
"""
import random
import sys

LEAST = {"q15": -2**15, "q31": -2**31}


def saturate(least, value):
    return max(least, min(-least - 1, value))


def wrap(bits, value):
    return (value + 2**(bits - 1)) % 2**bits - 2**(bits - 1)


def reflected(form, k, g):
    return k * g >> 15 if form == "q15" else wrap(32, k * g >> 31)


def ladder(form, k, v, x):
    """The outputs: k from k_S to k_1, v from v_S to v_0."""
    least, before, out = LEAST[form], [0] * len(k), []
    for f in x:
        values = []
        for reflection, g in zip(k, before):
            f = saturate(least, f - reflected(form, reflection, g))
            values.append(saturate(least, reflected(form, reflection, f) + g))
        values.append(f)
        total = sum(a * b for a, b in zip(v, values))
        out.append(saturate(least, total >> 15) if form == "q15" else wrap(32, wrap(64, total) >> 31))
        before = values[1:]
    return out


def case(form, k, v, x):
    size = 2 if form == "q15" else 4

    def raw(numbers):
        return b"".join(n.to_bytes(size, "little", signed=True) for n in numbers).hex()

    def words(numbers):
        return "{" + " ".join(map(str, numbers)) + "}"

    report = [f"dspfx: done", f"in {len(x)} frames of 1 channels {form}", f"out {len(x)} frames of 1 channels {form}",
              f"multiplies {len(x) * (3 * len(k) + 1)}"]
    script = f"dspfx 1 input raw {form} 1 8000 lattice_iir {words(k)} {words(v)} output raw"
    print(f"run s i o,run s i o block 1,run s i o block 3|={script}|{raw(x)}|0|={';'.join(report)};|{raw(ladder(form, k, v, x))}")


def main():
    chance = random.Random(int(sys.argv[1]) if len(sys.argv) > 1 else 1)
    print("# By tools/ladder_cases.py: sections of lattice_iir that fill groups, and one more and one less")
    for form, counts in (("q15", (1, 2, 7, 8, 9, 15, 16, 17, 24)), ("q31", (1, 2, 3, 4, 5, 7, 8, 9, 16, 17))):
        least = LEAST[form]
        ends = [least, -least - 1, least + 1, 0, -1, 1]

        def numbers(count, divisor):
            return [chance.randrange(least, -least) // divisor for _ in range(count)]

        def mixed(count):
            return [chance.choice(ends) if chance.random() < 0.5 else chance.randrange(least, -least) for _ in range(count)]

        for count in counts:
            # no step saturates; some do; all numbers are of any size; ends
            for divisor_k, divisor_x in ((16, 4), (4, 1), (1, 1)):
                case(form, numbers(count, divisor_k), numbers(count + 1, count + 1), numbers(12, divisor_x))
            case(form, mixed(count), mixed(count + 1), mixed(12))
            case(form, [least] * count, [least] * (count + 1), [least] * 6)
            case(form, [-least - 1] * count, [-least - 1] * (count + 1), [least, -least - 1] * 4)
        # one coefficient of -1 in a group, at its beginning, inside and at its end
        for place in (0, 3, 4, 7, 8, 12, 16):
            k = numbers(17, 2)
            k[place] = least
            case(form, k, numbers(18, 16), mixed(12))


main()
