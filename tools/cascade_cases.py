#!/usr/bin/env python3
"""Makes cases of `biquad` for dsp_replay: cascades of 3, 4, 5 and 8 sections in blocks of 1 to 8 frames, so that
four sections side by side begin, go on and end in every way; with numbers of every size, and with extremes alone.

    tools/cascade_cases.py [SEED]   writes the cases; those that are stored have the seed 20261130

What is expected is said by the formulas of docs/DEFINITIONS.md, written here section by section.
"""
import random
import sys

BITS = {"q15": 16, "q31": 32}
GREATEST_SHIFT = {"q15": 13, "q31": 30}
FRAMES = 19


def saturate(bits, value):
    return max(-(2 ** (bits - 1)), min(2 ** (bits - 1) - 1, value))


def wrap(bits, value):
    return (value + 2 ** (bits - 1)) % 2**bits - 2 ** (bits - 1)


def cascade(form, post_shift, sections, x):
    for b0, b1, b2, a1, a2 in sections:
        x1 = x2 = y1 = y2 = 0
        out = []
        for value in x:
            total = b0 * value + b1 * x1 + b2 * x2 + a1 * y1 + a2 * y2
            if form == "q15":
                y = saturate(16, total >> (15 - post_shift))
            else:
                y = wrap(32, wrap(64, total) >> (31 - post_shift))
            x2, x1, y2, y1 = x1, value, y1, y
            out.append(y)
        x = out
    return x


def case(form, post_shift, sections, x):
    def raw(numbers):
        return b"".join(number.to_bytes(BITS[form] // 8, "little", signed=True) for number in numbers).hex()

    numbers = [number for b0, *rest in sections for number in ([b0, 0] if form == "q15" else [b0]) + rest]
    script = f"dspfx 1 input raw {form} 1 8000 biquad {post_shift} {{{' '.join(map(str, numbers))}}} output raw"
    commands = ["run s i o", *(f"run s i o block {length}" for length in range(1, 9)), "bank s i o"]
    report = ["dspfx: done", f"in {len(x)} frames of 1 channels {form}", f"out {len(x)} frames of 1 channels {form}",
              f"multiplies {5 * len(sections) * len(x)}"]
    print(f"{','.join(commands)}|={script}|{raw(x)}|0|={';'.join(report)};|{raw(cascade(form, post_shift, sections, x))}")


def main():
    chance = random.Random(int(sys.argv[1]) if len(sys.argv) > 1 else 1)
    print("# cascades of 3, 4, 5 and 8 sections, in blocks of 1 to 8 frames")
    for form, bits in BITS.items():
        end = 2 ** (bits - 1)
        for count in (3, 4, 5, 8):
            sections = [tuple(chance.randrange(-end // 3, end // 3) for _ in range(5)) for _ in range(count)]
            x = [chance.randrange(-end, end) for _ in range(FRAMES)]
            case(form, chance.choice((0, 1, 2)), sections, x)
            sections = [tuple(chance.choice((-end, end - 1)) for _ in range(5)) for _ in range(count)]
            case(form, GREATEST_SHIFT[form], sections, [chance.choice((-end, end - 1)) for _ in range(FRAMES)])


if __name__ == "__main__":
    main()
