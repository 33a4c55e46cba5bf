"""The program `dspfx` over files in memory."""

import ctypes
import os
from typing import Any, NamedTuple, Sequence, Union

from . import _arrays
from ._library import LIBRARY, Lengths

MOST = 1 << 32  # bytes of an output
MOST_STATE = 1 << 30  # and of a saved state
REPORT = 1 << 17  # enough for the lines of 64 measures on 16 channels


class Ran(NamedTuple):
    """What a run of the program gave: its exit status, the file OUT, and what it printed, as a text and as bytes.

    What `resume stop` prints is a saved state, which is no text: take `printed` of it.
    """

    status: int
    output: bytes
    report: str
    printed: bytes = b""


def file_of(given: Any, name: str) -> bytes:
    """The bytes of a file that is given: bytes, or an array of words of 8 to 32 bits in the order of this machine."""
    if isinstance(given, (bytes, bytearray)):
        return bytes(given)
    if hasattr(given, "mask"):
        _arrays.test_order(given)
    try:
        view = memoryview(given)
    except (TypeError, ValueError):
        more = ": its content is read by read_bytes()" if hasattr(given, "__fspath__") else ""
        raise TypeError(f"{name} is the content of a file, in bytes, and not {type(given).__name__}{more}") from None
    if view.format not in ("B", "b", "c", "h", "H", "i", "I", "<h", "<i", "<H", "<I", "l", "L", "<l", "<L") or view.itemsize > 4:
        raise TypeError(f"{name} is bytes or words of 8, 16 or 32 bits, and not words of the kind {view.format!r}: cast them to the format's")
    return view.tobytes()


def word_of(word: Any) -> bytes:
    """A word, or several with spaces between them, as bytes."""
    found = os.fspath(word)
    return found if isinstance(found, bytes) else found.encode("utf-8", "surrogateescape")


def words_of(words: Any) -> bytes:
    """The words of a command with single spaces between them: a text, bytes, or a list of these and of paths."""
    if isinstance(words, (str, bytes)):
        return word_of(words)
    if not isinstance(words, (list, tuple)):
        raise TypeError(f"words are a text or a list of texts, and not {type(words).__name__}")
    found = [word_of(word) for word in words]
    wrong = next((word for word in found if not word or b" " in word), None)
    if wrong is not None:
        raise ValueError(f"a word is not empty and has no space, unlike {wrong.decode('utf-8', 'replace')!r}")
    return b" ".join(found)


def program(words: Union[str, bytes, Sequence[Any]], script: Union[str, bytes] = b"", data: Any = b"", other: Any = b"") -> Ran:
    """Runs `dspfx` with these words over files in memory.

        >>> program("run s i o", "dspfx 1 input raw q15 1 8000 fir {16384} output raw", b"\\xe8\\x03").output.hex()
        'f401'

    words   as `run s i o block 256`, `gen 7 48000 s o`, `print s`, `resume stop 100 s i o` or `convert wave au i o`, with
            single spaces, or as a list; the names stand for the files below
    script  the file SCRIPT, or STATE of `resume go`
    data    the file IN
    other   the other file that a command reads, as the output that `check` checks

    A file is its bytes, or an array of words of 8, 16 or 32 bits. A path is refused with TypeError: no file is opened.
    Returns the exit status (docs/USE.md), the bytes of the file OUT, and what the program printed. Raises nothing for a
    fault of the run: the status and the report say it. OUT has then what the program would leave in the file.
    """
    text = script.encode("utf-8", "surrogateescape") if isinstance(script, str) else file_of(script, "script")
    said, data, other = words_of(words), file_of(data, "data"), file_of(other, "other")
    room, told = max(1 << 16, 8 * len(data)), ctypes.create_string_buffer(REPORT)
    if said.startswith(b"print"):
        told = ctypes.create_string_buffer(2 * len(text) + (1 << 16))
    if said.startswith(b"resume"):
        told = ctypes.create_string_buffer(1 << 20)
    while True:
        output, lengths = ctypes.create_string_buffer(room), Lengths()
        status = LIBRARY.tozbirem_program(
            said, len(said), text, len(text), data, len(data), other, len(other), output, room, told, len(told),
            ctypes.byref(lengths),
        )  # fmt: skip
        # (8 is an output that is not written, and 9 a report: only a buffer that is full comes to it here)
        if status == 8 and room < MOST:
            room *= 4
        elif status == 9 and len(told) < MOST_STATE:
            told = ctypes.create_string_buffer(min(8 * len(told), MOST_STATE))
        else:
            printed = ctypes.string_at(told, lengths.report)
            return Ran(status, ctypes.string_at(output, lengths.output), printed.decode("utf-8", "replace"), printed)
