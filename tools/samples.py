"""Reads sample files for tools/compare.py and tools/plot.py: WAVE, Sun AU, .npy, raw words, and text.

A file of whole numbers has a format (q7, q15 or q31). A file of fractions of full scale has the format `float`.
A WAVE file, an AU file and a .npy file say what they hold. A raw or a text file is read as the options say.

Text is what has the ending of one (.txt, .csv, .log, .gdb, .hex): decimal numbers, hexadecimal words (0x.., or
bare with --hex) in two's complement, fractions, what gdb prints of an array or by `x/`, and CSV with a heading.
"""
import array
import ast
import csv
import math
import os
import re
import signal
import struct
import sys

CODES = {"q7": "b", "q15": "h", "q31": "i"}
BITS = {"q7": 7, "q15": 15, "q31": 31}
OF_WIDTH = {8: "q7", 16: "q15", 24: "q31", 32: "q31"}
TEXTS = (".txt", ".csv", ".log", ".gdb", ".hex")
RAW = (".raw", ".bin", ".pcm", ".dat")
SOUNDS = {b"RIFX": "a big-endian WAVE file", b"RF64": "an RF64 file", b"FORM": "an AIFF file", b"fLaC": "a FLAC file",
          b"OggS": "an Ogg file", b"ID3": "an MP3 file", b"caff": "a CAF file"}  # fmt: skip
OTHERS = {**SOUNDS, b"PK\3\4": "an archive", b"\x1f\x8b": "a gzip file", b"\x7fELF": "a program"}
PCM, FLOAT, EXTENSIBLE = 1, 3, 0xFFFE
UNKNOWN_SIZE = 0xFFFFFFFF
CUT = "it was cut, or is damaged"


class Samples:
    """The samples of a file, frame after frame: whole numbers of a format, or fractions where `form` is float."""

    def __init__(self, values, form, channels, rate):
        self.values, self.form, self.channels, self.rate = values, form, channels, rate

    def channel(self, place):
        return self.values[place :: self.channels]

    def fractions(self):
        """All samples as parts of full scale."""
        return self.values if self.form == "float" else [it / 2 ** BITS[self.form] for it in self.values]

    def frames(self):
        return len(self.values) // self.channels


def words_of(data, code, is_big=False):
    """The words of these bytes. A last one that is torn is left out."""
    words = array.array(code)
    words.frombytes(data[: len(data) // words.itemsize * words.itemsize])
    if is_big != (sys.byteorder == "big"):
        words.byteswap()
    return words


def decoded(data, form):
    """Raw samples: little-endian, two's complement."""
    return words_of(data, CODES[form])


def of_pcm(data, bits, is_big=False, is_unsigned=False):
    """Samples of 8, 16, 24 or 32 bits; those of 24 bits are read as q31, times 256."""
    if bits == 8:
        return words_of(bytes(byte ^ 128 for byte in data) if is_unsigned else data, "b")
    if bits == 24:
        wide = bytearray(len(data) // 3 * 4)
        for byte in range(3):
            wide[byte + (not is_big) :: 4] = data[byte : len(data) // 3 * 3 : 3]
        return words_of(bytes(wide), "i", is_big)
    return words_of(data, CODES[OF_WIDTH[bits]], is_big)


def whole_frames(body, width, size):
    """The whole frames of samples. Those of a declared size are whole; where it is not known, a pad byte may follow."""
    if size != UNKNOWN_SIZE and len(body) % width:
        raise ValueError(f"{len(body)} bytes of samples are no whole number of frames of {width} bytes")
    return body[: len(body) // width * width]


def read_wave(data):
    """A WAVE file of 8 to 32 bits or of floats, with an extension or without."""
    if data[8:12] != b"WAVE":
        raise ValueError("a RIFF file, but no WAVE file")
    place, tag, size = 12, None, 0
    while place + 8 <= len(data):
        kind, size = struct.unpack_from("<4sI", data, place)
        place += 8
        if kind == b"fmt " and tag is None:
            tag, channels, rate, _, width, bits = struct.unpack_from("<HHIIHH", data, place)
            if size < (40 if tag == EXTENSIBLE else 16):
                raise ValueError(f"a WAVE file whose `fmt ` has {size} bytes is not read")
            if tag == EXTENSIBLE:
                (tag,) = struct.unpack_from("<H", data, place + 24)
        elif kind == b"data":
            break
        place += size + size % 2
    else:
        raise ValueError("the WAVE file has no samples")
    if tag is None:
        raise ValueError("the WAVE file has no `fmt ` before its samples")
    if not 1 <= channels or not ((tag == PCM and bits in OF_WIDTH) or (tag == FLOAT and bits in (32, 64))):
        raise ValueError(f"a WAVE file with tag {tag}, {bits} bits and {channels} channels is not read")
    if width != channels * bits // 8:
        raise ValueError(f"a WAVE file with frames of {width} bytes for {channels} channels of {bits} bits is not read")
    body = data[place:] if size == UNKNOWN_SIZE else data[place : place + size]
    if size != UNKNOWN_SIZE and len(body) < size:
        raise ValueError(f"the WAVE file is cut: it declares {size} bytes of samples and has {len(body)}")
    body = whole_frames(body, channels * bits // 8, size)
    if tag == FLOAT:
        return Samples(words_of(body, "f" if bits == 32 else "d"), "float", channels, rate)
    return Samples(of_pcm(body, bits, is_unsigned=True), OF_WIDTH[bits], channels, rate)


def read_au(data):
    """A Sun AU file of 8 to 32 bits, or of floats."""
    start, size, encoding, rate, channels = struct.unpack_from(">5I", data, 4)
    bits = {2: 8, 3: 16, 4: 24, 5: 32, 6: 32, 7: 64}.get(encoding)
    if bits is None or channels < 1 or start < 24:
        raise ValueError(f"an AU file with encoding {encoding}, {channels} channels and data at {start} is not read")
    body = data[start:] if size == UNKNOWN_SIZE else data[start : start + size]
    if size != UNKNOWN_SIZE and len(body) < size:
        raise ValueError(f"the AU file is cut: it declares {size} bytes of samples and has {len(body)}")
    body = whole_frames(body, channels * bits // 8, size)
    if encoding in (6, 7):
        return Samples(words_of(body, "f" if bits == 32 else "d", is_big=True), "float", channels, rate)
    return Samples(of_pcm(body, bits, is_big=True), OF_WIDTH[bits], channels, rate)


def array_of_npy(data):
    """The numbers of a .npy file of one or two dimensions row by row, its shape, and numpy's name of the type."""
    length = struct.unpack("<H" if data[6] == 1 else "<I", data[8 : 10 if data[6] == 1 else 12])[0]
    start = (10 if data[6] == 1 else 12) + length
    head = ast.literal_eval(data[start - length : start].decode())
    codes = {"f8": "d", "f4": "f", "i1": "b", "i2": "h", "i4": "i", "i8": "q"}
    order, kind, shape = head["descr"][0], str(head["descr"])[1:], head["shape"]
    if kind not in codes or len(shape) not in (1, 2) or 0 in shape[1:]:
        raise ValueError(f"an array of {head['descr']} and shape {shape} is not read")
    count = math.prod(shape)
    values = list(struct.unpack_from(f"{'>' if order == '>' else '<'}{count}{codes[kind]}", data, start))
    if len(data) != start + count * struct.calcsize(codes[kind]):
        raise ValueError("more bytes follow the array of the .npy file")
    if head["fortran_order"] and len(shape) == 2:
        values = [values[column * shape[0] + row] for row in range(shape[0]) for column in range(shape[1])]
    return values, shape, kind


def read_npy(data, form, channels, rate):
    """An array of frames, or of frames and channels; scipy.io.wavfile and numpy.fromfile give such ones."""
    values, shape, kind = array_of_npy(data)
    channels = shape[1] if len(shape) == 2 else channels
    if kind[0] == "f":
        return Samples(as_fractions(values), "float", channels, rate)
    form = {"i1": "q7", "i2": "q15", "i4": "q31", "i8": form}[kind]
    return Samples(in_range(values, form, "the array"), form, channels, rate)


def as_fractions(values):
    """Fractions of full scale. Whole numbers with a point, as numpy.savetxt writes them, are taken for none."""
    if all(it.is_integer() for it in values) and max(map(abs, values), default=0) > 1:
        raise ValueError(f"numbers as {max(values, key=abs):g} are no fractions of full scale: write whole numbers as such (numpy: astype(int), fmt='%d')")
    return values


def in_range(values, form, what):
    most = 2 ** BITS[form]
    for place, value in enumerate(values):
        if not -most <= value < most:
            raise ValueError(f"{what}: number {place + 1}, {value}, is beyond {form}: --format names another format")
    return values


def number_of(word, form, is_hex):
    """A whole number or a fraction. A hexadecimal word is taken in two's complement of the format's width."""
    bare = word.lower()
    if re.fullmatch(r"[-+]?(0x)?[0-9a-f]+" if is_hex else r"[-+]?0x[0-9a-f]+", bare):
        value, width = int(bare, 16), BITS[form] + 1
        if value >= 2**width:
            raise ValueError(f"{word} has more than {width} bits: --format names another format")
        return value - 2**width if value >= 2 ** (width - 1) else value
    if is_hex:
        raise ValueError(f"no hexadecimal number: {word[:40]}")
    if re.fullmatch(r"[-+]?[0-9]+", bare):
        return int(bare)
    if re.fullmatch(r"[-+]?([0-9]+\.?[0-9]*|\.[0-9]+)(e[-+]?[0-9]+)?", bare):
        return float(bare)
    raise ValueError(f"no number: {word[:40]}")


def column_places(row, wanted, channels):
    """The places of the columns that are wanted, by the heading of a CSV file."""
    names = [cell.strip() for cell in row]
    if wanted is None:
        if len(names) != channels:
            raise ValueError(f"--column names the column of the samples: {', '.join(names)}")
        return list(range(len(names)))
    missing = [name for name in wanted.split(",") if name not in names]
    if missing:
        raise ValueError(f"no column {missing[0]}: {', '.join(names)}")
    return [names.index(name) for name in wanted.split(",")]


def words_of_csv(lines, wanted, channels):
    """The cells of the columns that are wanted, row after row."""
    text = "\n".join(lines)
    mark = max(",;\t", key=lines[0].count)
    rows = [row for row in csv.reader(text.splitlines(), delimiter=mark) if any(cell.strip() for cell in row)]
    if not rows:
        raise ValueError("no numbers")
    places = column_places(rows[0], wanted, channels)
    for row in rows[1:]:
        if any(cell.strip() for cell in row[len(rows[0]) :]):
            raise ValueError(f"a row of {len(row)} cells under a heading of {len(rows[0])}: {mark.join(row)[:60]}")
        for place in places:
            if place >= len(row):
                raise ValueError(f"a row of {len(row)} cells: {mark.join(row)[:60]}")
            yield row[place].strip()


def words_of_lines(lines):
    """The numbers of text: between white space, commas and braces, behind the address of a line of gdb's x/."""
    for line in lines:
        line = re.sub(r"^\s*0x[0-9a-fA-F]+(\s*<[^>]*>)?:", " ", line)
        line = re.sub(r"^\s*\$\d+\s*=", " ", line)
        if line.lstrip().startswith('"\\'):
            raise ValueError("gdb shows bytes as text: `print/d` shows numbers")
        # (gdb shortens equal numbers: {0 <repeats 15 times>, 1})
        line = re.sub(r"([-\w.]+)\s*<repeats (\d+) times>", lambda it: f"{it[1]} " * int(it[2]), line)
        if "..." in line:
            raise ValueError("gdb left numbers out (...): `set print elements 0` shows all")
        yield from re.sub(r"[][(){},;]", " ", line).split()


def is_heading(line):
    """Whether a line of text has words that are no numbers, as the first one of CSV files has."""
    words = re.split(r"[\s,;\"'{}()[\]]+", re.sub(r"<[^>]*>", "", line))
    return ":" not in line and any((it[:1].isalpha() or it[:1] == "_") and it.lower() not in ("nan", "inf") for it in words)


def read_text(text, form, channels, rate, column=None, is_hex=False):
    """Numbers in a text; fractions where one has a point or an exponent."""
    lines = [line for line in re.sub(r"#.*", "", text.lstrip("\ufeff")).splitlines() if line.strip()]
    if not lines:
        raise ValueError("no numbers")
    if re.fullmatch(r":[0-9A-Fa-f]{10,}\s*", lines[0]):
        raise ValueError("an Intel HEX file: `objcopy -I ihex -O binary FILE FILE.raw` makes raw words of it")
    if column is None and not is_hex and is_heading(lines[0]) and re.fullmatch(r"[0-9A-Fa-f\s,;]+", lines[0]):
        raise ValueError(f"{lines[0].strip()[:40]} is a heading or hexadecimal: --column names the column, --hex says hexadecimal")
    if column is not None or (not is_hex and is_heading(lines[0])):
        words = words_of_csv(lines, column, channels)
        channels = max(channels, (column or "").count(",") + 1)
    else:
        words = words_of_lines(lines)
    values = [number_of(word, form, is_hex) for word in words]
    if not values:
        raise ValueError("no numbers after the heading" if is_heading(lines[0]) else "no numbers")
    if any(isinstance(value, float) for value in values):
        return Samples(as_fractions([float(value) for value in values]), "float", channels, rate)
    return Samples(in_range(values, form, "the text"), form, channels, rate)


def test_kind(path, data):
    """Refuses what is neither raw words nor text: by the first bytes of other formats, and by the ending of the name."""
    ending = os.path.splitext(path.lower())[1]
    if ending in (".wav", ".wave", ".au", ".snd", ".npy"):
        raise ValueError(f"its name ends with {ending}, and its first bytes are not those of such a file")
    kind = next((name for mark, name in OTHERS.items() if data.startswith(mark)), None)
    if ending in (".flac", ".mp3", ".ogg", ".opus", ".m4a", ".aif", ".aiff", ".caf", ".npz", ".mat", ".zip", ".gz"):
        kind = kind or f"a {ending} file"
    if kind and ending not in RAW + TEXTS:
        raise ValueError(f"{kind} is not read: sox or ffmpeg make a WAVE file of sound, and raw words are in a file with the ending .raw")
    if ending in TEXTS and data[:2] in (b"\xff\xfe", b"\xfe\xff"):
        raise ValueError("the text is UTF-16: save it as UTF-8")


def read(path, form="q15", channels=1, rate=48000, column=None, is_hex=False):
    """The samples of a file, by its first bytes, or else by the ending of its name."""
    with open(path, "rb") as file:
        data = file.read()
    try:
        if data[:4] == b"RIFF":
            return read_wave(data)
        if data[:4] == b".snd":
            return read_au(data)
        if data[:6] == b"\x93NUMPY":
            return read_npy(data, form, channels, rate)
        test_kind(path, data)
        if path.lower().endswith(TEXTS):
            return read_text(data.decode("utf-8", "replace"), form, channels, rate, column, is_hex)
        if len(data) % struct.calcsize(CODES[form]):
            raise ValueError(f"{len(data)} bytes are no whole number of {form} samples")
    except (IndexError, KeyError, SyntaxError, TypeError, struct.error) as error:
        raise ValueError(f"{path}: {CUT}") from error
    except (ValueError, csv.Error) as error:
        raise ValueError(f"{path}: {error}") from error
    return Samples(decoded(data, form), form, channels, rate)


def add_arguments(parser):
    parser.add_argument("--format", default="q15", choices=CODES, help="of raw and text files; else q15")
    parser.add_argument("--channels", type=positive, default=1, help="of raw and text files; else 1")
    parser.add_argument("--rate", type=positive, default=48000, help="of raw and text files; else 48000")
    parser.add_argument("--column", metavar="NAME", help="of CSV files with a heading; NAME,NAME for two channels")
    parser.add_argument("--hex", action="store_true", help="bare words of text files are hexadecimal")


def natural(word):
    if not re.fullmatch("[0-9]{1,18}", word):
        raise ValueError
    return int(word)


def positive(word):
    if natural(word) < 1:
        raise ValueError
    return int(word)


def end_quietly():
    """Lets whoever reads no further, and Ctrl-C, end a tool without a word."""
    for it in (signal.SIGINT, signal.SIGPIPE):
        signal.signal(it, signal.SIG_DFL)


def reason_of(error):
    """Which file is not read or written, and why."""
    return f"{error.filename or 'standard output'}: {error.strerror[0].lower()}{error.strerror[1:]}"


def read_by(words, path):
    """The samples of a file, as the options of a command say."""
    return read(path, words.format, words.channels, words.rate, words.column, words.hex)
