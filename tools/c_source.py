"""Reads arrays of coefficients from C sources, as tools/coefficients.py takes them.

An array is found by its name, or by the name of a CMSIS-DSP instance that points to it; the instance, whether it is
initialised or set by its init function, tells the block, its numbers and its post shift.
"""
import math
import re

import c_values

BITS = {"q7": 7, "q15": 15, "q31": 31}
TYPES = {"q7_t": "q7", "int8_t": "q7", "q15_t": "q15", "int16_t": "q15", "short": "q15", "q31_t": "q31", "int32_t": "q31"}
TYPES |= dict.fromkeys(c_values.FLOATS)
# What is known of the lines of an #if, where something is: they are left out and those after #else are kept, they are
# kept, or all up to #endif are left out.
LEFT_OUT, KEPT, DONE = 1, 2, 3
PREPROCESSED = "`cc -E -P FILE | tools/coefficients.py - --name NAME`"
CASCADE = ["numStages", "pState", "pCoeffs", "postShift"]
INSTANCES = {
    r"arm_biquad_casd_df1_inst_q(?:15|31)": ("biquad", CASCADE),
    r"arm_biquad_cas_df1_32x64_ins_q31": ("biquad64", CASCADE),
    r"arm_fir_instance_q(?:7|15|31)": ("fir", ["numTaps", "pState", "pCoeffs"]),
    r"arm_fir_decimate_instance_q(?:15|31)": ("decimate", ["M", "numTaps", "pCoeffs", "pState"]),
    r"arm_fir_interpolate_instance_q(?:15|31)": ("interpolate", ["L", "phaseLength", "pCoeffs", "pState"]),
}
SET = ["S", "numStages", "pCoeffs", "pState", "postShift"]
INITS = {
    r"arm_biquad_cascade_df1_init_q(?:15|31)": ("biquad", SET),
    r"arm_biquad_cas_df1_32x64_init_q31": ("biquad64", SET),
    r"arm_fir_init_q(?:7|15|31)": ("fir", ["S", "numTaps", "pCoeffs", "pState", "blockSize"]),
    r"arm_fir_decimate_init_q(?:15|31)": ("decimate", ["S", "numTaps", "M", "pCoeffs", "pState", "blockSize"]),
    r"arm_fir_interpolate_init_q(?:15|31)": ("interpolate", ["S", "L", "numTaps", "pCoeffs", "pState", "blockSize"]),
}


class Array:
    """The numbers of an array, and what its instance tells: the block with the numbers before its list, a post shift."""

    def __init__(self, values, form, block, shift):
        self.values, self.form, self.block, self.shift = values, form, block, shift


def without_comments(text):
    """The text without comments, joined lines, and what `#if 0` leaves out. Other conditions stay."""
    # (what is in quotes begins no comment)
    text = re.sub(r'/\*.*?\*/|//[^\n]*|("(?:\\.|[^"\\\n])*"|\'(?:\\.|[^\'\\\n])+\')', lambda it: it[1] or " ", text.replace("\\\n", ""), flags=re.S)
    kept, open_ifs = [], []
    for line in text.split("\n"):
        word = re.match(r"\s*#\s*(if\w*|else|elif|endif)\b\s*(.*)", line)
        known = open_ifs[-1] if open_ifs else None
        if word and word[1].startswith("if"):
            known = {"0": LEFT_OUT, "1": KEPT}.get(word[2].strip()) if word[1] == "if" else None
            open_ifs.append(known)
        elif word and word[1] == "endif" and open_ifs:
            open_ifs.pop()
        elif word and open_ifs:
            known = open_ifs[-1] = after(word[1], known)
        if not any(it in (LEFT_OUT, DONE) for it in open_ifs) and not (word and known):
            kept.append(line)
    return "\n".join(kept)


def after(word, known):
    """What is known of the lines after an #else or #elif, by what was known of those before it."""
    if known in (KEPT, DONE):
        return DONE
    return KEPT if word == "else" and known == LEFT_OUT else None


def constant(text, defined):
    """The value of a constant expression with its type, and whether it is written as the bits of a word."""
    try:
        return c_values.constant_of(text, defined)
    except ValueError as fault:
        macro = re.match(r"\s*[A-Za-z_]\w*\s*(\(|$)", text)
        why = f" ({fault})" if str(fault) else ""
        more = f"; {PREPROCESSED} replaces macros first" if macro and not why else ""
        raise ValueError(f"no number: {' '.join(text.split())[:60]}{why}{more}") from fault


def whole(text, defined):
    """The value of a constant expression that is a whole number."""
    value = constant(text, defined)[0]
    if value.is_float():
        raise ValueError(f"no whole number: {' '.join(text.split())[:60]}")
    return value.number


def element(word, defined, kind):
    """A number of an array, as its type holds it. Only one that is written as the bits of a word is wrapped."""
    value, is_bits = constant(word, defined)
    form = TYPES[kind]
    if form is None:
        return c_values.of_float(value.number, c_values.FLOATS[kind]).number
    if value.is_float():
        raise ValueError(f"no whole number: {' '.join(word.split())[:60]}")
    width = BITS[form] + 1
    number = value.number
    if (is_bits or not value.is_signed) and 1 << width - 1 <= number < 1 << width:
        return number - (1 << width)
    # (as 0xFFFF8000 and -1u, whose upper bits repeat the sign)
    upper = number - (1 << value.bits)
    return upper if not value.is_signed and c_values.fits(upper, width, True) else number


def fields_of(text, names):
    """The fields of an instance or the arguments of an init function, by name."""
    found = {}
    for place, it in enumerate(re.split(r",", text)):
        named = re.match(r"\s*\.(\w+)\s*=(.*)", it, re.S)
        if named:
            found[named[1]] = named[2]
        elif place < len(names) and it.strip():
            found[names[place]] = it
    return found


def pointed(text):
    """The name of the array that a field points to."""
    names = re.findall(r"[A-Za-z_]\w*", re.sub(r"\([^()]*\*\s*\)", "", text or ""))
    return names[0] if names else None


def uses(text):
    """What instances say of arrays: the name of the instance, the block's word, and the fields."""
    found = []
    for kind, (word, names) in INSTANCES.items():
        for name, body in re.findall(rf"\b{kind}\s+(\w+)\s*=\s*\{{([^}}]*)\}}", text):
            found.append((name, word, fields_of(body, names)))
    for function, (word, names) in INITS.items():
        for body in re.findall(rf"\b{function}\s*\(([^;{{]*)\)\s*;", text):
            fields = fields_of(body, names)
            found.append((pointed(fields.get("S")), word, fields))
    return found


def arrays(text):
    """The arrays by name: type, name, lengths in brackets, and numbers; the same name is there twice between #else."""
    kinds = "|".join(TYPES)
    array = rf"(\b(?:unsigned|long)\s+)?\b({kinds})\s+(?:int\s+)?(?:const\s+)?(\w+)\s*((?:\[[^]]*\]\s*)+)[^=;{{]*=\s*\{{(.*?)\}}\s*;"
    found = {}
    for other, kind, name, lengths, body in re.findall(array, text, re.S):
        if not other:
            found.setdefault(name, set()).add((kind, name, lengths, body))
    return found


def definitions(text):
    """What each name is defined as; a name with several definitions, or with an #undef, is left out."""
    found = {}
    for name, value in re.findall(r"^[ \t]*#[ \t]*define[ \t]+(\w+)[ \t]+(.+?)[ \t]*$", text, re.M):
        found.setdefault(name, set()).add(value)
    undone = set(re.findall(r"^[ \t]*#[ \t]*undef[ \t]+(\w+)", text, re.M))
    return {name: values.pop() for name, values in found.items() if len(values) == 1 and name not in undone}


def choose(found, instances, name):
    """The name of the array that is meant."""
    if name is not None:
        pointing = {pointed(fields.get("pCoeffs")) for it, _, fields in instances if it == name}
        if name in found or len(pointing) != 1 or not pointing <= set(found):
            return name
        return pointing.pop()
    return next(iter(found)) if len(found) == 1 else None


def of_instance(pointing, defined):
    """The block and the post shift that the instances of an array tell, which must agree."""
    told = set()
    for _, word, fields in pointing:
        before = [str(whole(fields[it], defined)) for it in ("M", "L") if it in fields]
        shift = whole(fields["postShift"], defined) if "postShift" in fields else 0 if word.startswith("biquad") else None
        told.add((" ".join([word, *before]), shift))
    if len(told) > 1:
        raise ValueError(f"instances of the array differ: {', '.join(sorted(f'{block}, post shift {shift}' for block, shift in told))}")
    return told.pop() if told else (None, None)


def rows_of(body):
    """The numbers of an array, as texts, in rows where they are in braces."""
    if "#" in body:
        raise ValueError(f"a line of the preprocessor is between its numbers: {PREPROCESSED} replaces it")
    rows = [re.split(",", it) for it in re.findall(r"\{([^{}]*)\}", body)]
    if rows and re.sub(r"\{[^{}]*\}|[\s,]", "", body):
        raise ValueError("numbers in braces are beside others, or braces in braces")
    found = [row if row[-1].strip() else row[:-1] for row in rows or [body.split(",")]]
    if any(not word.strip() for row in found for word in row):
        raise ValueError("a number is missing between two commas")
    return found if rows else found[0], bool(rows)


def filled(name, body, lengths, defined, kind):
    """The numbers of an array of these lengths, with the zeros that C adds."""
    sizes = [whole(it, defined) if it.strip() else None for it in re.findall(r"\[([^]]*)\]", lengths)]
    if any(it is not None and it < 1 for it in sizes) or None in sizes[1:]:
        raise ValueError(f"{name} has no length of 1 or more in each bracket")
    words, has_rows = rows_of(body)
    wide = math.prod(sizes[1:])
    if has_rows and len(sizes) != 2 and any(len(row) > 1 for row in words):
        raise ValueError(f"{name} has rows of numbers in braces, and {len(sizes)} length{'s' * (len(sizes) != 1)}")
    rows = [[element(word, defined, kind) for word in row] for row in (words if has_rows else [words])]
    if has_rows and any(len(row) > wide for row in rows):
        raise ValueError(f"{name} has a row of {max(map(len, rows))} numbers and the length {wide}")
    values = [it for row in rows for it in (row + [0] * (wide - len(row)) if has_rows else row)]
    wanted = (-(-len(values) // wide) if sizes[0] is None else sizes[0]) * wide
    if len(values) > wanted:
        raise ValueError(f"{name} has {len(values)} numbers and the length {wanted}")
    return values + [0] * (wanted - len(values))


def read(text, name):
    """The array of this name, or of the instance of this name, or the only one."""
    text = without_comments(text)
    defined, found, instances = definitions(text), arrays(text), uses(text)
    chosen = choose(found, instances, name)
    if not found:
        raise ValueError(f"there is no array with numbers of one of the types {', '.join(TYPES)}")
    if chosen is None:
        raise ValueError(f"--name says which array: {', '.join(found)}")
    if chosen not in found:
        raise ValueError(f"no array {chosen}, only {', '.join(found) or 'none'}")
    if len(found[chosen]) > 1:
        raise ValueError(f"{chosen} is there {len(found[chosen])} times: {PREPROCESSED} leaves out what is not compiled")
    kind, _, lengths, body = found[chosen].pop()
    form = TYPES[kind]
    values = filled(chosen, body, lengths, defined, kind)
    pointing = [it for it in instances if pointed(it[2].get("pCoeffs")) == chosen and name in (None, chosen, it[0])]
    block, shift = of_instance(pointing, defined)
    beside = next((it for key, it in defined.items() if key.lower() in (f"{chosen}_post_shift".lower(), f"{chosen}_postshift".lower())), None)
    if shift is None and beside is not None:
        shift = whole(beside, defined)
    for _, word, fields in pointing:
        test_stages(chosen, values, form, word, fields, defined)
    return Array(values, form, block, shift)


def test_stages(name, values, form, word, fields, defined):
    """Refuses an instance whose stages are not those of its array."""
    if word.startswith("biquad") and "numStages" in fields:
        stages, width = whole(fields["numStages"], defined), 6 if form == "q15" else 5
        if stages * width != len(values):
            raise ValueError(f"{name} has {len(values)} numbers, and {stages} stages of {form} have {stages * width}")
