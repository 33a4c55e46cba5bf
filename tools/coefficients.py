#!/usr/bin/env python3
"""Turns coefficients of a design tool or of CMSIS-DSP's C sources into a script, and back.

Reads a C header or source (arrays of q7_t, q15_t, q31_t, int8_t to int32_t, short, float or double), a script of
dspfx (its first list, or --place), a .npy file, or text with numbers. Writes a script, a block or a table of one, a
C array, or a design.

Fractions are a design: taps from b[0] on, or, with --block biquad, rows of b0 b1 b2 a0 a1 a2, as scipy's sos. They
are times 2^7, 2^15 or 2^31, and rounded half up. Whole numbers are taken as they are, in the order of CMSIS-DSP's
instances, which the script shares: taps of fir, decimate, interpolate and lms from b[T-1] down to b[0], and
b0 (0 in q15) b1 b2 a1 a2 of a biquad, whose a1 and a2 have opposite signs and whose numbers are divided by 2^p.
The post shift p is that of the instance or of NAME_POST_SHIFT beside an array, or else the least that fits.

Standard error says the greatest error of the rounding, and how far each sum of the filter, or of each filter of a
script, can go beyond full scale.

    tools/coefficients.py taps.txt                               a script: fir in q15, raw samples
    tools/coefficients.py sos.npy --block biquad --format q31    second-order sections
    tools/coefficients.py filter.h --name lowpass --as design    fractions, b[0] first
    tools/coefficients.py script.txt --as c --name lowpass       a C array
"""
import argparse
import math
import re
import struct
import sys
from fractions import Fraction

import c_source
import language
import samples

BITS = {"q7": 7, "q15": 15, "q31": 31}
REVERSED = ("fir", "decimate", "interpolate", "lms")
SECTIONS = ("biquad", "biquad64")
SUMS = ("fir", "decimate", "interpolate", "sparse", "conv", "conv_partial", "correlate")
SHIFTS = {("biquad", "q15"): 13, ("biquad", "q31"): 30, ("biquad64", "q31"): 30}
MOST_NUMBERS, MOST = 16384, 4294967295
# The least and the greatest of the numbers before a list.
RANGES = {"decimate": [(1, 255)], "interpolate": [(1, 255)], "conv_partial": [(0, MOST), (1, MOST)],
          "mat_add": [(1, 64)] * 2, "mat_sub": [(1, 64)] * 2, "mat_mult": [(1, 64)] * 3}  # fmt: skip
NAMES = {"c": ("a C array", r"[A-Za-z_]\w*"), "table": ("a table", r"[a-z][a-z0-9_-]{0,31}")}
NUMBER, LONGEST = r"(?i:[-+]?(([0-9]+\.?[0-9]*|\.[0-9]+)(e[-+]?[0-9]+)?|nan|inf(inity)?))", 1000
NO_SOS = "scipy.signal.tf2sos(b, a), or output='sos' of the design"


def stop(why):
    sys.exit(f"coefficients: {why}")


def note(text):
    print(f"coefficients: {text}", file=sys.stderr)


class Numbers:
    """What a file holds: whole numbers in the order of an instance, or the fractions of a design.

    `block` is the word of a block and the numbers before its list, where the file says them, `shift` a post shift,
    `columns` how many numbers each row has, where all rows have as many, and `script` the script that was read."""

    def __init__(self, values, is_whole, form=None, shift=None, block=None, columns=None, script=None):
        self.values, self.is_whole, self.form, self.shift = values, is_whole, form, shift
        self.block, self.columns, self.script = block, columns, script


def of_npy(data):
    """The numbers of a .npy file of one or two dimensions."""
    try:
        values, shape, kind = samples.array_of_npy(data)
    except (IndexError, KeyError, SyntaxError, TypeError, struct.error):
        stop(f"the .npy file is not read: {samples.CUT}")
    return Numbers(values, kind[0] == "i", columns=shape[1] if len(shape) == 2 else None)


def of_text(text):
    """Numbers between white space, commas and brackets; # and % begin a comment."""
    lines = [re.sub(r"[][(),;{}]", " ", line).split() for line in re.sub(r"[#%].*", "", text).splitlines()]
    lines = [line for line in lines if line]
    words = [word for line in lines for word in line]
    if not words:
        stop("the file has no numbers")
    columns = len(lines[0]) if len({len(line) for line in lines}) == 1 else None
    is_whole = all(re.fullmatch(r"[-+]?[0-9]+", word) for word in words)
    wrong = next((word for word in words if not re.fullmatch(NUMBER, word) or len(word) > LONGEST), None)
    if wrong is not None:
        stop(f"no number: {wrong[:60]!r}; a script, a C array, a .npy file or numbers are read")
    return Numbers([int(word) if is_whole else float(word) for word in words], is_whole, columns=columns)


def of_script(text, name, place):
    """A list of a script: of the block at --place, of the table NAME, or the first one."""
    script = language.read_script(text)
    named = script.tables.get(name)
    lists = [(number, it) for number, it in enumerate(script.blocks, 1) if it.lists]
    if place is not None:
        lists = [(number, it) for number, it in lists if number == place]
    if not lists and named is None:
        stop("the script has no list" if place is None else f"block {place} has no list, or is not there")
    if named is not None and place is None:
        return of_table(script, named, [it for _, it in lists if named in it.lists])
    number, block = lists[0]
    if len(lists) > 1:
        note(f"of {len(lists)} lists that of block {number} is taken: --place names another")
    return of_block(script, block)


def of_block(script, block):
    shift = int(block.numbers[0]) if block.word in SECTIONS else None
    return Numbers(block.lists[0], True, block.form, shift, " ".join([block.word, *block.numbers]), script=script)


def of_table(script, values, blocks):
    """A table, as the blocks take it that have it as their first list, where these are one."""
    said = {(" ".join([it.word, *it.numbers]), it.form) for it in blocks if it.lists[0] == values}
    if len(said) == 1:
        return of_block(script, next(it for it in blocks if it.lists[0] == values))
    return Numbers(values, True, blocks[0].form if blocks else script.form, script=script)


def of_c(text, name):
    """The array of this name or of the instance of this name, or the only one."""
    found = c_source.read(text, name)
    return Numbers(found.values, found.form is not None, found.form, found.shift, found.block)


def read(path, name, place=None):
    try:
        with open(0 if path == "-" else path, "rb") as file:
            data = file.read()
        if data.startswith(b"\x93NUMPY"):
            return of_npy(data)
        text = data.decode("utf-8", "replace").lstrip("\ufeff")
        if re.match(r"(\s|#[^\n]*\n)*dspfx\s", text):
            return of_script(text, name, place)
        return of_c(text, name) if re.search(r"\]\s*[^=;{]*=\s*\{", text) else of_text(text)
    except OSError as error:
        stop(f"{path}: {error.strerror[0].lower()}{error.strerror[1:]}")
    except ValueError as error:
        stop(error)


def rows_of(values, count, what):
    if not values or len(values) % count:
        stop(f"{len(values)} numbers are no rows of {count}: {what}")
    return [values[start : start + count] for start in range(0, len(values), count)]


def is_sections(given):
    """Whether fractions are rows of b0 b1 b2 1 a1 a2."""
    return len(given.values) % 6 == 0 and len(given.values) > 0 and all(it == 1 for it in given.values[3::6])


def is_transfer(given):
    """Whether fractions are the two rows b and a of a transfer function: a begins with 1."""
    return given.columns and len(given.values) == 2 * given.columns > 2 and given.values[given.columns] == 1


def can_be_sections(numbers, form):
    """Whether whole numbers may be sections as well as taps; taps are mostly the same from both ends."""
    if numbers == numbers[::-1] or numbers == [-it for it in numbers[::-1]]:
        return False
    if form == "q15":
        return len(numbers) % 6 == 0 and not any(numbers[1::6])
    return form == "q31" and len(numbers) % 5 == 0


def of_sections(rows, are_rows=True):
    """b0 b1 b2 and the fed back a1 a2 of rows b0 b1 b2 a0 a1 a2. Numbers that were no rows of 6 have one a0."""
    if any(row[3] == 0 or (row[3] != rows[0][3] and not are_rows) for row in rows):
        stop("the fourth number of each row is a0, which is 1: rows are b0 b1 b2 a0 a1 a2, as scipy's sos has them. "
             "Rows of an instance, b0 b1 b2 a1 a2, are written b0 b1 b2 1 -a1 -a2")  # fmt: skip
    exact = [[Fraction(it) for it in row] for row in rows]
    return [[b0 / a0, b1 / a0, b2 / a0, -a1 / a0, -a2 / a0] for b0, b1, b2, a0, a1, a2 in exact]


def rounded(values, form):
    """Rounded half up; 1 becomes the greatest number."""
    one = 2 ** BITS[form]
    # (as fractions, since the sum of a float and 0.5 is rounded)
    return [max(-one, min(one - 1, math.floor(Fraction(value) * one + Fraction(1, 2)))) for value in values]


def halvings(values):
    """How often these must be halved until each is in -1 to 1."""
    return max(0, math.ceil(math.log2(max(max(map(abs, values), default=0), 1e-30))))


def quantised(given, word, form, shift):
    """The whole numbers of a design in the order of an instance, and the post shift of a cascade."""
    if not all(map(math.isfinite, given.values)):
        stop("a number is not finite")
    if word not in SECTIONS:
        halved = halvings(given.values)
        if halved:
            stop(f"a number is {max(given.values, key=abs):g}, and {form} holds -1 to 1: divide all by {2**halved}, "
                 f"and put `shift {halved}` after the block")  # fmt: skip
        numbers = rounded(given.values, form)
        note_error(given.values, numbers, form, 0)
        return numbers[::-1] if word in REVERSED else numbers, None
    if is_transfer(given) and not is_sections(given) and given.columns != 3:
        stop(f"two rows b and a are no second-order sections: {NO_SOS}")
    sections = of_sections(rows_of(given.values, 6, "b0 b1 b2 a0 a1 a2, as scipy's sos"), given.columns == 6)
    flat = [value for row in sections for value in row]
    least, most = halvings(flat), SHIFTS[word, form]
    if shift is None:
        fits = lambda p: all(-1 <= it / 2**p and it / 2**p + Fraction(1, 2 ** (BITS[form] + 1)) < 1 for it in flat)
        shift = next((p for p in range(most + 1) if fits(p)), None)
    if shift is None or shift < least:
        greatest = float(max(flat, key=abs))
        stop(f"a coefficient is {greatest:g}, and --post-shift {least} is the least that holds it"
             if least <= most else f"a coefficient is {greatest:g}, and no post shift holds it")  # fmt: skip
    numbers = rounded([value / 2**shift for value in flat], form)
    note_error(flat, numbers, form, shift)
    rows = rows_of(numbers, 5, "")
    return [it for row in rows for it in (row[:1] + [0] * (form == "q15") + row[1:])], shift


def note_error(design, numbers, form, shift):
    last = 2.0 ** (shift - BITS[form])
    error = max((abs(ideal - number * last) for ideal, number in zip(design, numbers)), default=0)
    note(f"greatest rounding error {error:.3g}, {error / last:.2f} of a last place")


def levels(sections):
    """The greatest output of each section of a cascade for inputs of at most 1, the sum of the absolute values of the
    impulse's answer so far, and whether that is all of it; None from the first section on that does not settle."""
    signal, found = [1.0] + [0.0] * 65535, []
    for b0, b1, b2, a1, a2 in sections:
        x1 = x2 = y1 = y2 = 0.0
        if abs(a2) >= 1 or abs(a1) >= 1 - a2:
            return found + [(None, True)]
        for place, x in enumerate(signal):
            y = b0 * x + b1 * x1 + b2 * x2 + a1 * y1 + a2 * y2
            x1, x2, y1, y2, signal[place] = x, x1, y, y1, y
        total, late = (sum(map(abs, it)) for it in (signal, signal[len(signal) // 2 :]))
        found.append((total, late <= total / 1000))
    return found


def note_sums(numbers, block, form, shift, level=1.0, where=""):
    """Says how far the sums of a filter can go, over all inputs of at most `level`. Gives the last of these."""
    word, one = block[0], 2 ** BITS[form]
    if word in SECTIONS:
        sections = [[it * 2**shift / one for it in row] for row in in_fives(numbers, form)]
        for place, (reach, is_all) in enumerate(levels(sections), 1):
            level_now = None if reach is None else reach * level
            note_level(f"{where}section {place}", level_now, form == "q31", "" if is_all else "at least ")
        return 1.0 if level_now is None else level_now
    phases = int(block[1]) if word == "interpolate" and len(block) > 1 else 1
    reach = level * max((sum(map(abs, numbers[phase::phases])) / one for phase in range(phases)), default=0)
    note_level(f"{where}a sum", reach, form == "q31" or (word == "sparse" and form == "q15" and reach >= 2))
    return reach


def note_level(what, level, wraps, least=""):
    if level is None:
        note(f"{what} does not settle")
    else:
        beyond = "" if level <= 1 else ", and wraps beyond it" if wraps else ", and is clipped at it"
        note(f"{what} can reach {least}{level:.3f} of full scale{beyond}")


def plain_level(block, level):
    """How far the samples after a block without sums of its own can go, or None where that is not judged."""
    one, numbers = 2 ** BITS[block.form], [int(it) for it in block.numbers if it not in BITS]
    return {
        "offset": lambda: level + abs(numbers[0]) / one,
        "scale": lambda: level * abs(numbers[0]) / one * 2.0 ** numbers[1],
        "shift": lambda: level * 2.0 ** numbers[0],
        "clip": lambda: max(abs(min(max(it, numbers[0] / one), numbers[1] / one)) for it in (-level, level)),
        "add": lambda: 2 * level,
        "sub": lambda: 2 * level,
        "mult": lambda: level * level,
        "cmplx_mult": lambda: level * level / 2,
        "cmplx_mult_real": lambda: level * level,
        "cmplx_mag_squared": lambda: level * level / 2,
        "mat_add": lambda: level + max(map(abs, block.lists[0])) / one,
        "mat_sub": lambda: level + max(map(abs, block.lists[0])) / one,
        "mat_scale": lambda: level * abs(numbers[2]) / one * 2.0 ** numbers[3],
        "mat_mult": lambda: level * max(sum(map(abs, block.lists[0][it :: numbers[2]])) for it in range(numbers[2])) / one,
        "lattice_fir": lambda: None,
        "lattice_iir": lambda: None,
        "lms": lambda: None,
        "pid": lambda: None,
    }.get(block.word, lambda: level)()


def judge(script):
    """Says of each block of a script how far it can go, where what comes in is at most full scale."""
    level = 1.0
    for number, block in enumerate(script.blocks, 1):
        where = f"block {number} {block.word}: "
        if block.word in SECTIONS or block.word in SUMS:
            shift = int(block.numbers[0]) if block.word in SECTIONS else None
            level = note_sums(block.lists[0], [block.word, *block.numbers], block.form, shift, level, where)
        else:
            level = plain_level(block, level)
            if level is None:
                note(f"{where}not judged")
            elif level > 1:
                note_level(f"{where}a sample", level, False)
        level = 1.0 if level is None else min(level, 1.0)


def in_fives(numbers, form):
    if form != "q15":
        return rows_of(numbers, 5, "b0 b1 b2 a1 a2")
    rows = rows_of(numbers, 6, "b0 0 b1 b2 a1 a2")
    if any(row[1] for row in rows):
        note("the second number of a section is not 0: it is never used")
    return [row[:1] + row[2:] for row in rows]


def as_design(numbers, word, form, shift):
    """The fractions that whole numbers are, b[0] first or as rows of sos."""
    one = 2 ** BITS[form]
    if word not in SECTIONS:
        return "".join(f"{it / one!r}\n" for it in (numbers[::-1] if word in REVERSED else numbers))
    rows = [[it * 2**shift / one for it in row] for row in in_fives(numbers, form)]
    return "".join(f"{b0!r} {b1!r} {b2!r} 1.0 {-a1!r} {-a2!r}\n" for b0, b1, b2, a1, a2 in rows)


def as_c(numbers, name, form, shift):
    rows = [", ".join(map(str, numbers[start : start + 8])) for start in range(0, len(numbers), 8)]
    head = "" if shift is None else f"#define {name.upper()}_POST_SHIFT {shift}\n"
    return f"{head}const {form}_t {name}[{len(numbers)}] = {{\n" + "".join(f"    {row},\n" for row in rows) + "};\n"


def chosen_block(words, given):
    """The word of the block, the numbers before its list, and its post shift."""
    if words.block is None and given.block is None:
        test_is_clear(words, given)
    block = (words.block or given.block or ("biquad" if given.shift is not None else "fir")).split()
    kind = language.BLOCKS.get(block[0] if block else "")
    if kind is None or not kind.lists:
        stop(f"{words.block} is no block with a list")
    shift = given.shift
    if block[0] in SECTIONS:
        if len(block) > 2:
            stop(f"{block[0]} has one number before its list, the post shift")
        if words.block and len(block) == 2:
            shift = of_word(block[1], "post shift")
            if words.post_shift is not None and words.post_shift != shift:
                stop(f"--block says the post shift {shift}, and --post-shift {words.post_shift}")
        return block[:1], shift if words.post_shift is None else words.post_shift
    if words.post_shift is not None:
        stop(f"{block[0]} has no post shift: --block biquad or biquad64 has one")
    if len(block) - 1 != kind.numbers and words.kind in ("script", "block"):
        stop(f"{block[0]} has {kind.numbers} numbers before its list: --block '{block[0]}{' N' * kind.numbers}'")
    return [block[0], *(str(of_word(it, "number")) for it in block[1:])], None


def of_word(word, what):
    if not re.fullmatch(r"-?[0-9]{1,20}", word):
        stop(f"{word} is no {what}")
    return int(word)


def test_is_clear(words, given):
    """Refuses numbers that may be taps or sections where nothing says which."""
    form = words.format or given.form or "q15"
    if not given.is_whole and is_sections(given):
        stop("rows of b0 b1 b2 1 a1 a2 look like second-order sections: --block biquad (or --block fir for taps)")
    if not given.is_whole and is_transfer(given):
        stop(f"two rows look like b and a of a transfer function, which no block takes: {NO_SOS}, and --block biquad "
             "(or --block fir for taps)")  # fmt: skip
    if given.is_whole and given.shift is None and can_be_sections(given.values, form):
        stop(f"{len(given.values)} numbers may be taps or sections: --block fir, or --block biquad --post-shift P")


def test_numbers(numbers, block, form, shift, kind):
    """Refuses what no sound script could have."""
    word, least = block[0], -(2 ** BITS[form])
    wide = next((it for it in numbers if not least <= it < -least), None)
    if wide is not None:
        stop(f"{wide} is beyond {form}, {least} to {-least - 1}: --format names another format")
    if form not in language.BLOCKS[word].formats:
        stop(f"{word} has no {form}, only {' and '.join(language.BLOCKS[word].formats)}: --format")
    if word in SECTIONS:
        if shift is None:
            stop("whole numbers of a biquad need their post shift: --post-shift P, or NAME_POST_SHIFT in the source")
        if not 0 <= shift <= SHIFTS[word, form]:
            stop(f"the post shift of {word} in {form} is 0 to {SHIFTS[word, form]}")
        in_fives(numbers, form)
    if word == "interpolate" and len(block) > 1 and len(numbers) % max(1, int(block[1])):
        stop(f"interpolate {block[1]} takes a multiple of {block[1]} taps, and these are {len(numbers)}")
    if not 1 <= len(numbers) <= MOST_NUMBERS:
        stop(f"{len(numbers)} numbers: a list has 1 to {MOST_NUMBERS}")
    if kind in ("script", "block") and language.BLOCKS[word].lists != 1:
        stop(f"{word} has {language.BLOCKS[word].lists} lists: --as table writes one of them")
    if kind in ("script", "block"):
        test_parameters(len(numbers), word, [int(it) for it in block[1:]], form)


def test_parameters(count, word, before, form):
    """Refuses numbers before a list that are out of range, and lists of another length than the block takes."""
    of_lms = [(0, 14 if form == "q15" else 30), (-(2 ** BITS[form]), 2 ** BITS[form] - 1)]
    for value, (least, most) in zip(before, of_lms if word == "lms" else RANGES.get(word, [])):
        if not least <= value <= most:
            stop(f"{value} is out of range: this number of {word} is {least} to {most}")
    if word.startswith("mat_"):
        wanted = math.prod(before[1:] if word == "mat_mult" else before)
        if count != wanted:
            stop(f"this {word} takes {wanted} numbers, and these are {count}")
    most = {"route": 16, "lattice_fir": 255}.get(word, 64 * (6 if form == "q15" else 5) if word in SECTIONS else count)
    if count > most:
        stop(f"{word} takes at most {most} numbers, and these are {count}")


def test_words(words, given, word, name):
    """Refuses options that do not go with what is read, with the block or with what is written."""
    if words.place is not None and given.script is None:
        stop("--place is of a script, and this is none")
    wanted = language.BLOCKS[word].channels
    if words.kind == "script" and wanted not in (None, words.channels):
        stop(f"{word} takes {wanted} channels: --channels {wanted}")
    if words.rate > MOST:
        stop(f"--rate is at most {MOST}")
    what, names = NAMES.get(words.kind, ("", ".*"))
    if not re.fullmatch(names, name, re.ASCII):
        stop(f"{name} is no name of {what}: --name")


def main():
    parser = argparse.ArgumentParser(description=__doc__, formatter_class=argparse.RawDescriptionHelpFormatter)
    parser.add_argument("file", help="what is read; - is standard input")
    parser.add_argument("--as", dest="kind", default="script", choices=["script", "block", "table", "c", "design"])
    parser.add_argument("--block", help="a block's word and the numbers before its list, as 'decimate 4'; else fir")
    parser.add_argument("--format", choices=BITS, help="else that of the file, else q15")
    parser.add_argument("--post-shift", type=int, help="of a biquad; else that of the file, or the least that fits")
    parser.add_argument("--name", help="the array, instance or table that is read; the array or table that is written")
    parser.add_argument("--place", type=int, help="of a script: which block's list is taken, counted from 1")
    parser.add_argument("--input", default="raw", choices=["raw", "wave"], help="the container of the script")
    parser.add_argument("--channels", type=int, default=1, choices=range(1, 17), metavar="1..16")
    parser.add_argument("--rate", type=samples.positive, default=48000, help="of raw samples")
    words = parser.parse_args()

    given = read(words.file, words.name, words.place)
    block, shift = chosen_block(words, given)
    word, form = block[0], words.format or given.form or "q15"
    if word in SECTIONS and (word, form) not in SHIFTS:
        stop(f"{word} has no {form}, only {' and '.join(language.BLOCKS[word].formats)}: --format")
    numbers = given.values
    if not given.is_whole:
        numbers, shift = quantised(given, word, form, shift)
    name = (words.name or "coefficients").lower() if words.kind == "table" else words.name or "coefficients"
    test_numbers(numbers, block, form, shift, words.kind)
    test_words(words, given, word, name)
    if given.script:
        judge(given.script)
    elif word in SECTIONS or word in SUMS:
        note_sums(numbers, block, form, shift)

    if word in SECTIONS:
        block = [word, str(shift)]
    listed = "{" + " ".join(map(str, numbers)) + "}"
    head = f"input {words.input} {form} {words.channels}" + f" {words.rate}" * (words.input == "raw")
    print({
        "script": lambda: f"dspfx 1\n{head}\n{' '.join(block)} {listed}\noutput {words.input}\n",
        "block": lambda: f"{' '.join(block)} {listed}\n",
        "table": lambda: f"table {name} {listed}\n",
        "c": lambda: as_c(numbers, name, form, shift),
        "design": lambda: as_design(numbers, word, form, shift),
    }[words.kind](), end="")  # fmt: skip


if __name__ == "__main__":
    samples.end_quietly()
    main()
