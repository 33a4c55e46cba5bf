"""What the library refuses, as exceptions."""

import difflib
from typing import Any, Dict, Tuple

KINDS = ("", "TooLong", "BadByte", "UnknownWord", "BadNumber", "OutOfRange", "Missing", "NoSuchForm", "ChannelsHere",
         "Length", "TooMany", "BadName", "NameTaken")  # fmt: skip
BLOCKS = ("offset negate abs scale shift clip to add sub mult cmplx_conj cmplx_mult cmplx_mult_real cmplx_mag_squared route fir "
          "sparse decimate interpolate biquad biquad64 lattice_fir lattice_iir lms pid conv conv_partial correlate mat_add "
          "mat_sub mat_scale mat_trans mat_mult power dot cmplx_dot max min").split()  # fmt: skip
FIELDS = {
    "OutOfRange": ("low", "high"),
    "NoSuchForm": ("format",),
    "ChannelsHere": ("got", "wanted"),
    "Length": ("taps", "factor"),
    "TooMany": ("limit",),
}
MEANINGS = {
    "TooLong": "a script has at most 1,048,576 bytes",
    "BadByte": "no word and no number begins so; numbers are whole, and words are in small letters",
    "UnknownWord": "another word is expected here",
    "BadNumber": "a number or the end of a list is expected here",
    "OutOfRange": "this number is {low} to {high} here",
    "Missing": "something is missing here",
    "NoSuchForm": "the block has no {format}, or the signal has that format already",
    "ChannelsHere": "the block takes {wanted} channels, and the signal has {got}",
    "Length": "a list of {taps} numbers, where a multiple of {factor} is needed",
    "TooMany": "at most {limit} are allowed",
    "BadName": "a name begins with a letter and has at most 32 bytes",
    "NameTaken": "two tables have different names",
}


class TozbiremError(Exception):
    """A call that was refused. Nothing has changed.

    `status` is that of include/tozbirem.h: 3 a block length that is not legal (no block length is, where a script's
    groups are too long), 20 samples that are no whole frames, 22 a signal of more than 2^40 frames, 24 too many samples
    for correlate, 25 a window of conv_partial past its convolution, 26 a state that these blocks cannot have, and 30 a
    signal that has ended. `text` says it in a line.
    """

    def __init__(self, status: int, text: str) -> None:
        super().__init__(status, text)
        self.status, self.text = status, text

    def __str__(self) -> str:
        return str(self.args[1])


class ScriptError(TozbiremError, ValueError):
    """The text is no script: its first fault.

    `kind` and `fields` are those of docs/SCRIPT.md, `offset` counts bytes of `script`, and `line` and `column` count from 1
    in the text that was given. The message shows the line, with a caret under the place, and `text` is what `dspfx` reports,
    as `script: UnknownWord at 17`.
    """

    def __init__(self, kind: str, offset: int, fields: Dict[str, Any], script: bytes, own: Tuple[int, int], text: str = "") -> None:
        self.kind, self.offset, self.fields, self.script, self._own = kind, offset, fields, script, own
        begin, end = own if offset >= own[0] else (0, len(script))
        shown = script[begin:end]
        place = min(offset - begin, len(shown.rstrip()) if kind == "Missing" or offset >= end else len(shown))
        start = shown.rfind(b"\n", 0, place) + 1
        row = shown[start:].split(b"\n", 1)[0].rstrip(b"\r").decode("utf-8", "replace").replace("\t", " ")
        self.line = shown.count(b"\n", 0, place) + 1
        self.column = len(shown[start:place].decode("utf-8", "replace")) + 1
        said = "".join(f", {name} {value}" for name, value in fields.items())
        cut = max(0, self.column - 40)
        part = ("..." if cut else "") + row[cut : cut + 72] + ("..." if len(row) > cut + 72 else "")
        caret = " " * (self.column - 1 - cut + (3 if cut else 0)) + "^"
        meaning = MEANINGS[kind].format(**fields) + (near(row[self.column - 1 :]) if kind == "UnknownWord" else "")
        super().__init__(2, f"line {self.line}, column {self.column}: {kind}{said}: {meaning}\n    {part}\n    {caret}")
        self.text = text

    def __reduce__(self):
        return ScriptError, (self.kind, self.offset, self.fields, self.script, self._own, self.text)


def near(text: str) -> str:
    """A block whose word is like the first one of a text."""
    found = difflib.get_close_matches(text.split()[0], BLOCKS, 1) if text.split() else []
    return f"; {found[0]} is a block" if found else ""


def script_error(answer, script: bytes, own: Tuple[int, int]) -> ScriptError:
    from ._library import explain

    kind = KINDS[answer.kind]
    fields = dict(zip(FIELDS.get(kind, ()), (answer.low, answer.high)))
    if "format" in fields:
        fields["format"] = f"q{fields['format']}"
    return ScriptError(kind, answer.first, fields, script, own, explain(2, answer))


def judge(status: int, answer, script: bytes, own: Tuple[int, int]) -> None:
    """Raises what a status other than 0 says. `own` is where the caller's text begins and ends in the script."""
    if status == 0:
        return
    if status == 2:
        raise script_error(answer, script, own)
    if status == 10:
        raise MemoryError("out of memory")
    from ._library import explain

    raise TozbiremError(status, explain(status, answer))
