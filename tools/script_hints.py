"""Says what is wrong with a script: where its fault is, as compilers show it, and what to write there.

tools/explain.py calls it after status 2. A fault is shown by file, line, column and kind, the line, and a caret.
"""
import difflib
import os
import re
import subprocess

import language

WIDTH = 72  # the characters of a line that are shown; a longer one is cut round the caret
WHITE = b" \t\r\n"
SCRIPT_MOST = 1 << 20


def named(path):
    return path if re.fullmatch(r"[\w./+=:@%-]+", path) else repr(path)


def shown(data):
    """The text of these bytes, one character a column, with none that would move the cursor."""
    text = data.decode("utf-8", "replace")
    return "".join(letter if letter == "\t" or letter.isprintable() else "\ufffd" for letter in text)


def place_of(name, text, kind, offset, fields):
    """The lines that show where the fault of this kind at this offset is."""
    if kind == "Missing" and offset == len(text):
        # The text ends too early: after its last token, and not in the white bytes at its end.
        offset = len(text.rstrip(WHITE))
    start = text.rfind(b"\n", 0, offset) + 1
    line = text[start:].split(b"\n", 1)[0].rstrip(b"\r")
    before, whole = shown(text[start:offset]), shown(line)
    row = text.count(b"\n", 0, offset) + 1
    head = f"{name}:{row}:{len(before) + 1}: {kind}{fields}"
    cut = max(0, len(before) - WIDTH // 2) if len(whole) > WIDTH else 0
    left, right = "..." * (cut > 0), "..." * (len(whole) > cut + WIDTH)
    under = "".join("\t" if letter == "\t" else " " for letter in left + before[cut:])
    return [head, left + whole[cut : cut + WIDTH] + right, under + "^"]


def tokens_before(text, offset):
    """The tokens before an offset, each with its place, without comments."""
    bare = re.sub(rb"#[^\n]*", lambda it: b" " * len(it[0]), text[:offset])
    return [(it[0].decode("latin1"), it.start()) for it in re.finditer(rb"[{}]|[^\s{}]+", bare)]


def open_brace(text, offset):
    """Where the list begins that is open at an offset, as LINE:COLUMN, or None."""
    place = None
    for token, start in tokens_before(text, offset):
        place = start if token == "{" else None if token == "}" else place
    if place is None:
        return None
    start, row = text.rfind(b"\n", 0, place) + 1, text.count(b"\n", 0, place) + 1
    return f"{row}:{len(text[start:place].decode('utf-8', 'replace')) + 1}"


def word_at(text, offset):
    return re.match(rb"[a-z0-9_-]*", text[offset:])[0].decode()


def block_before(text, offset):
    """The word of the block whose parameters are read at an offset."""
    return next((token for token, _ in reversed(tokens_before(text, offset)) if token in language.BLOCKS), None)


def wants_list(before):
    """Whether a list comes next after these tokens, the last block's numbers being there."""
    place = max((at for at, token in enumerate(before) if token in language.BLOCKS), default=None)
    if place is None:
        return False
    kind, rest = language.BLOCKS[before[place]], before[place + 1 :]
    lists = re.sub(r"\{[^}]*\}", "list", " ".join(rest[kind.numbers :])).split()
    return kind.numbers <= len(rest) and len(lists) < kind.lists


def what_is_no_text(text):
    """What is said of a script that is a file of samples, or None."""
    start = text[:4096]
    if start[:4] in (b"RIFF", b".snd"):
        kind = {b"RIFF": "a WAVE file", b".snd": "an AU file"}[start[:4]]
    elif b"\0" in start or start.decode("utf-8", "replace").count("\ufffd") > len(start) // 8 + 1:
        kind = "no text"
    else:
        return None
    return f"this is {kind}; the script is the first file: run SCRIPT IN OUT, gen SEED FRAMES SCRIPT OUT"


def hint_of_bytes(text, offset):
    """What a byte that begins no token may be."""
    for mark, name in ((b"\xef\xbb\xbf", "UTF-8"), (b"\xff\xfe", "UTF-16"), (b"\xfe\xff", "UTF-16")):
        if text.startswith(mark):
            wish = "without it" if name == "UTF-8" else "as UTF-8 without one"
            return f"the file begins with a byte order mark ({mark.hex(' ').upper()}), which editors do not show: save it {wish}"
    if what_is_no_text(text):
        return what_is_no_text(text)
    byte = text[offset : offset + 1]
    if byte == b"." or byte == b"+":
        return "numbers are whole: tools/coefficients.py makes them of fractions" if byte == b"." else "numbers have no `+`"
    if byte in b",;":
        return f"numbers have spaces between them, and no `{byte.decode()}`"
    if byte.isalpha() and byte.isupper():
        return "words are in small letters"
    if byte in b"([":
        return "lists are in braces: {1 2 3}"
    if byte in b"/*-!":
        return "a comment begins with `#`"
    return "tokens are of a to z, 0 to 9, `_` and `-`, and braces; other bytes may be in comments alone"


def hint_of_word(text, offset):
    """What is wrong with a word."""
    word, before = word_at(text, offset), [token for token, _ in tokens_before(text, offset)]
    if not before or before == ["dspfx"]:
        return "a script begins with `dspfx 1` or `dspfx 2`"
    if len(before) == 2:
        return "the input comes after the version, as in `input wave q15 2` or `input raw q15 1 48000`"
    if len(before) > 2 and before[-3:-1] == ["input", "wave"] or (re.fullmatch(r"\d+", word) and "wave" in before[2:4] and len(before) == 6):
        return "`input wave FORMAT CHANNELS` has no rate, which the file says; `input raw` has one"
    if before[-1] == "input":
        return "a container is wanted: `wave` or `raw`" + ("; `wavex` is of outputs alone" if word == "wavex" else "")
    if before[-1] == "output":
        return "a container is wanted: `wave`, `wavex` or `raw`"
    if before[-2:-1] == ["input"] or before[-1] == "to":
        return "a format is wanted: q7, q15 or q31"
    if before[-2:-1] == ["output"]:
        return "the output is the end of a script"
    if word == "table" and before[1] == "1":
        return "tables are of version 2: write `dspfx 2`"
    if word == "input":
        return "`input` comes once, after the version"
    if not word:
        return f"a block or `output` is wanted here, and no {text[offset : offset + 1].decode('latin1')}"
    if word in ("block", "table"):
        return f"`{word}` comes directly after the input" + (" or another table" if word == "table" else "")
    if wants_list(before):
        return f"a list in braces is wanted, or the name of a table; {word} names none"
    near = difflib.get_close_matches(word, [*language.BLOCKS, "output", "input"], 1)
    return f"{word} is no block" + (f"; {near[0]} is one" if near else ": docs/SCRIPT.md lists them")


def hint_of_number(text, offset):
    place = open_brace(text, offset)
    word = word_at(text, offset) or text[offset : offset + 1].decode("latin1")
    if re.match(r"[0-9-]", word):
        return f"{word} is no number: 1 to 20 decimal digits, behind a `-` or not"
    if place:
        return f"the list that begins at {place} is not closed: a `}}` is missing before {word}"
    before = [token for token, _ in tokens_before(text, offset)]
    if before[-4:-2] == ["input", "raw"]:
        return f"`input raw FORMAT CHANNELS RATE` needs a rate, as in `input raw {before[-2]} {before[-1]} 48000`"
    if before[-3:-1] in (["input", "raw"], ["input", "wave"]):
        return "the number of channels is missing, 1 to 16"
    block = block_before(text, offset)
    if not block:
        return "a number is wanted here"
    kind = language.BLOCKS[block]
    return f"{block} takes {kind.numbers} number{'s' * (kind.numbers != 1)}" + " before its list" * (kind.lists > 0)


def hint_of_missing(text, offset):
    if not tokens_before(text, len(text)):
        return "the script is empty"
    place = open_brace(text, offset)
    if place:
        return f"the list that begins at {place} is not closed: a `}}` is missing"
    if offset < len(text.rstrip(WHITE)):
        return "a list in braces is wanted here: {1 2 3}"
    return "the script ends too early: its last words are `output wave`, `output wavex` or `output raw`"


def hint_of_form(text, offset, fields):
    word, form = word_at(text, offset), fields.get("format")
    if word in BITS_OF:
        return f"the signal is {word} here already"
    formats = " and ".join(language.BLOCKS[word].formats) if word in language.BLOCKS else "others"
    return f"{form} has no {word}; {formats} {'have' if ' ' in formats else 'has'}: `to` changes the format"


def hint_of_channels(text, offset, fields):
    word, got, wanted = word_at(text, offset), fields.get("got"), fields.get("wanted")
    return f"{word} takes {wanted} channels, and the signal has {got} here: `route` picks and repeats channels"


def hint_of_length(text, offset, fields):
    block, taps, factor = block_before(text, offset), fields.get("taps"), fields.get("factor")
    if taps == "0":
        return "the list is empty"
    return {
        "interpolate": f"interpolate {factor} takes a multiple of {factor} taps, and these are {taps}",
        "biquad": f"a biquad has {factor} numbers a section, and these are {taps}",
        "biquad64": f"a biquad64 has {factor} numbers a section, and these are {taps}",
        "lattice_iir": f"lattice_iir takes {factor} numbers here, one more than its first list has, and these are {taps}",
        "sparse": f"sparse takes at least 2 taps, and as many delays; here are {taps}",
    }.get(block, f"{block} takes {factor} numbers here, and these are {taps}")


def hint_of_many(text, offset, fields):
    limit = fields.get("limit")
    is_list = open_brace(text, offset) or wants_list([token for token, _ in tokens_before(text, offset)])
    if limit == "1" and not is_list:
        return "a script has at most one correlate"
    if limit == "64" and not is_list:
        return "a script has at most 64 blocks and 64 tables, and a cascade at most 64 sections"
    return f"a list has at most {limit} number{'s' * (limit != '1')} here"


def hint_of_range(text, offset, fields):
    low, high, block = fields.get("low"), fields.get("high"), block_before(text, offset)
    if len(tokens_before(text, offset)) == 1:
        return "a script begins with `dspfx 1` or `dspfx 2`"
    of = f" in {block}" if block else ""
    more = ": tools/coefficients.py scales a design" if low == "-32768" else ""
    return f"this number is {low} to {high}{of}{more}"


BITS_OF = language.FORMATS
HINTS = {
    "TooLong": lambda text, offset, fields: what_is_no_text(text) or f"a script has at most {SCRIPT_MOST} bytes",
    "BadByte": lambda text, offset, fields: hint_of_bytes(text, offset),
    "UnknownWord": lambda text, offset, fields: hint_of_word(text, offset),
    "BadNumber": lambda text, offset, fields: hint_of_number(text, offset),
    "Missing": lambda text, offset, fields: hint_of_missing(text, offset),
    "OutOfRange": hint_of_range,
    "NoSuchForm": hint_of_form,
    "ChannelsHere": hint_of_channels,
    "Length": hint_of_length,
    "TooMany": hint_of_many,
    "BadName": lambda text, offset, fields: "a name begins with a letter of a to z, and has at most 32 bytes",
    "NameTaken": lambda text, offset, fields: "two tables have different names",
}


def fields_of(text):
    return dict(re.findall(r", (\w+) ([^,\s]+)", text))


def explain_script(words, program):
    """Where the fault of a script is, and what to do."""
    if not words.script:
        return
    if not os.path.isfile(words.script):
        yield f"dspfx: {named(words.script)} is no file that can be read twice, so the place of the fault is not shown"
        return
    report = subprocess.run([program, "print", words.script], stdout=subprocess.PIPE, stderr=subprocess.DEVNULL).stdout
    found = re.match(rb"dspfx: script: (\w+) at (\d+)(.*)", report)
    if not found:
        return
    with open(words.script, "rb") as file:
        text = file.read(2 * SCRIPT_MOST)
    kind, offset, fields = found[1].decode(), int(found[2]), found[3].decode()
    yield from place_of(words.script, text, kind, offset, fields)
    hint = HINTS.get(kind, lambda *_: None)(text, offset, fields_of(fields))
    if hint:
        yield f"dspfx: {hint}"
