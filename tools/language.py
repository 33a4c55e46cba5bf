"""The script language in a table, and a reader of scripts that the program has found sound.

tools/coefficients.py judges the filters of a script by it, and tools/explain.py says by it what a block takes.
"""
import re

ALL, WIDE = ("q7", "q15", "q31"), ("q15", "q31")
FORMATS = {"q7": 7, "q15": 15, "q31": 31}


class Kind:
    """What a block takes: how many numbers, then how many lists, the formats that it has, its channels or None."""

    def __init__(self, numbers, lists, formats, channels=None):
        self.numbers, self.lists, self.formats, self.channels = numbers, lists, formats, channels


BLOCKS = {
    "offset": Kind(1, 0, ALL), "negate": Kind(0, 0, ALL), "abs": Kind(0, 0, ALL), "shift": Kind(1, 0, ALL),
    "clip": Kind(2, 0, ALL), "scale": Kind(2, 0, ALL), "to": Kind(1, 0, ALL), "add": Kind(0, 0, ALL, 2),
    "sub": Kind(0, 0, ALL, 2), "mult": Kind(0, 0, ALL, 2), "cmplx_conj": Kind(0, 0, WIDE, 2),
    "cmplx_mult": Kind(0, 0, WIDE, 4), "cmplx_mult_real": Kind(0, 0, ("q15",), 3),
    "cmplx_mag_squared": Kind(0, 0, WIDE, 2), "route": Kind(0, 1, ALL), "fir": Kind(0, 1, ALL),
    "sparse": Kind(0, 2, ALL), "decimate": Kind(1, 1, WIDE), "interpolate": Kind(1, 1, WIDE),
    "lattice_fir": Kind(0, 1, ("q15",)), "lattice_iir": Kind(0, 2, WIDE), "biquad": Kind(1, 1, WIDE),
    "biquad64": Kind(1, 1, ("q31",)), "conv": Kind(0, 1, ALL), "conv_partial": Kind(2, 1, ALL),
    "correlate": Kind(0, 1, ALL), "lms": Kind(2, 1, WIDE, 2), "pid": Kind(3, 0, WIDE), "mat_add": Kind(2, 1, WIDE),
    "mat_sub": Kind(2, 1, WIDE), "mat_trans": Kind(2, 0, WIDE), "mat_scale": Kind(4, 0, WIDE),
    "mat_mult": Kind(3, 1, ("q15",)), "power": Kind(0, 0, ALL), "dot": Kind(0, 0, ALL, 2),
    "cmplx_dot": Kind(0, 0, WIDE, 4), "max": Kind(0, 0, ALL), "min": Kind(0, 0, ALL),
}  # fmt: skip


class Block:
    """A block of a script: its word, the words before its lists, its lists, and the format of its input."""

    def __init__(self, word, numbers, lists, form):
        self.word, self.numbers, self.lists, self.form = word, numbers, lists, form


class Script:
    def __init__(self, container, form, channels, rate, block, tables, blocks, output):
        self.container, self.form, self.channels, self.rate = container, form, channels, rate
        self.block, self.tables, self.blocks, self.output = block, tables, blocks, output


def read_list(tokens, tables):
    """The list that begins here, or the table of this name."""
    word = tokens.pop(0)
    if word != "{":
        return tables[word]
    end = tokens.index("}")
    values = [int(it) for it in tokens[:end]]
    del tokens[: end + 1]
    return values


def read_blocks(tokens, tables, form):
    blocks = []
    while tokens[0] != "output":
        word = tokens.pop(0)
        kind = BLOCKS[word]
        numbers = [tokens.pop(0) for _ in range(kind.numbers)]
        if not all(it in FORMATS if word == "to" else re.fullmatch(r"-?\d+", it) for it in numbers):
            raise ValueError
        blocks.append(Block(word, numbers, [read_list(tokens, tables) for _ in range(kind.lists)], form))
        form = numbers[0] if word == "to" else form
    return blocks


def read_script(text):
    """The parts of a script; a ValueError where it is none."""
    tokens = re.findall(r"[{}]|[^\s{}]+", re.sub(r"#.*", "", text))
    try:
        if tokens[0] != "dspfx" or int(tokens[1]) not in (1, 2) or tokens[2] != "input":
            raise ValueError
        container, form, channels = tokens[3:6]
        FORMATS[form]
        rate = int(tokens[6]) if container == "raw" else None
        del tokens[: 7 if container == "raw" else 6]
        block = int(tokens[1]) if tokens[0] == "block" else None
        if block is not None:
            del tokens[:2]
        tables = {}
        while tokens[0] == "table":
            name = tokens[1]
            del tokens[:2]
            tables[name] = read_list(tokens, tables)
        blocks = read_blocks(tokens, tables, form)
        return Script(container, form, int(channels), rate, block, tables, blocks, tokens[1])
    except (IndexError, KeyError, ValueError) as error:
        raise ValueError("no sound script: ./dspfx print SCRIPT says where its fault is") from error
