"""A chain of blocks over a signal that comes in pieces."""

import array
import re
import weakref
from ctypes import byref
from operator import index
from typing import Any, List, NamedTuple, Optional, Sequence, Tuple, Union

from . import _arrays
from ._errors import TozbiremError, judge
from ._library import LIBRARY, Answer, Handle, MeasureRow, Plan, explain

KINDS = ("", "power", "dot", "cmplx_dot", "max", "min")
LONGEST = 8192  # frames of a call at most; a longer piece takes several
ROOM, GATHER, KEPT_ROOM, ENDED, FULL = 23, 24, 28, 30, 31
Block = Union[str, Sequence[Any]]


class Measure(NamedTuple):
    """A measure of a whole signal.

    kind     power, dot, cmplx_dot, max or min
    block    which block of the script, from 1
    channel  which channel, from 0
    value    the sum (of cmplx_dot the real and the imaginary part), or the greatest or least sample, or None of no samples
    index    the frame of that sample, from 0; else None
    """

    kind: str
    block: int
    channel: int
    value: Any
    index: Optional[int]


class State(NamedTuple):
    """What a chain keeps: how many frames came, and the numbers that its blocks keep of them."""

    frames: int
    numbers: Tuple[int, ...]


def whole(value) -> str:
    """A whole number as a word of a script."""
    if isinstance(value, bool) or not hasattr(value, "__index__"):
        raise TypeError(f"coefficients are whole numbers, and not {value!r}: tozbirem.quantize makes them of fractions")
    return str(value.__index__())


def listed(values) -> str:
    """A list of a script: numbers in braces."""
    _arrays.bytes_are_cast(values, 15)
    _arrays.test_order(values)
    flat = values.reshape(-1).tolist() if hasattr(values, "reshape") else values
    return "{" + " ".join(map(whole, flat)) + "}"


def block_text(block: Block) -> str:
    """A block as text: a str as it is, or a tuple of its word, numbers and lists."""
    if isinstance(block, str):
        return block
    word, *given = block
    return " ".join([word, *(it if isinstance(it, str) else listed(it) if hasattr(it, "__len__") else whole(it) for it in given)])


def tokens(text: str) -> List[str]:
    return re.sub(r"#[^\n]*", "", text).split()


class Chain:
    """Blocks that samples go through, one piece of the signal after another.

        >>> chain = Chain("fir {8192 16384 8192}", format="q15", channels=1)
        >>> chain.process([1000, -1000]).tolist(), chain.process([400]).tolist()
        ([250, 250], [-150])

    script_or_blocks
        blocks as in docs/SCRIPT.md, apart by spaces; or a list of blocks, each a str or a tuple of its word, numbers and
        lists, as ("biquad", 1, coefficients); or a whole script, which begins with `dspfx`
    format, channels, rate
        of the input: "q7", "q15" or "q31", else "q15"; 1 to 16, else 1; frames a second, else 48000. A whole script says
        them itself

    Samples are whole numbers of the format: an array or a memoryview of int8, int16 or int32, or any sequence of ints; of
    several channels frame after frame, flat or with a row for each frame. Arrays of numpy come back where it is installed
    (a row for each frame where there are several channels), else `array.array`, frame after frame. In pieces of any
    lengths the output is the same.

    Raises ScriptError if the text has a fault, and TozbiremError with status 3 if no block length is legal.
    A chain can be copied and pickled at any time. Two threads may not use one chain at once; each may have its own.
    """

    def __init__(self, script_or_blocks: Union[str, Sequence[Block]], format: Optional[str] = None,
                 channels: Optional[int] = None, rate: Optional[int] = None) -> None:  # fmt: skip
        if isinstance(script_or_blocks, (bytes, bytearray)):
            script_or_blocks = bytes(script_or_blocks).decode("utf-8", "surrogateescape")
        parts = [script_or_blocks] if isinstance(script_or_blocks, str) else script_or_blocks
        text = "\n".join(map(block_text, parts))
        is_script = tokens(text)[:1] == ["dspfx"]
        if is_script and (format, channels, rate) != (None, None, None):
            raise TypeError("a whole script says its format, channels and rate itself")
        head, tail = "", ""
        if not is_script:
            version = 2 if tokens(text)[:1] == ["table"] else 1
            head = f"dspfx {version} input raw {format or 'q15'} {1 if channels is None else channels} {48000 if rate is None else rate}\n"
            tail = "\noutput raw\n"
        script = (head + text + tail).encode("utf-8", "surrogateescape")
        self._begin(script, (len(head.encode()), len(script) - len(tail)))

    def _begin(self, script: bytes, own: Tuple[int, int]) -> None:
        self._script, self._own = script, own
        plan = self._plan(0)
        if plan.format == 7 or plan.output_format == 7:
            self._script = raw_script(script)
        self.unit: int = plan.unit
        self.format, self.channels = f"q{plan.format}", plan.channels
        self.output_format, self.output_channels = f"q{plan.output_format}", plan.output_channels
        self._bits, self._output_bits = plan.format, plan.output_format
        self._count = plan.measures
        self._rooms: dict = {}
        self._next = array.array("q", bytes(8 * 64))
        # The signal is held in blocks of at most _held frames, or not where that is 0. _kept are its numbers, unless it
        # is ahead of them.
        self._handle, self._held, self._ahead = Handle(), 0, False
        weakref.finalize(self, LIBRARY.tozbirem_let_go, self._handle)
        self.reset()

    def reset(self) -> None:
        """Begins a new signal."""
        self._go_on_from((0, array.array("q"), 0))
        self._measures = None

    # ---- what the chain is

    @property
    def script(self) -> str:
        """The whole script, with raw samples in and out."""
        return self._script.decode("utf-8", "replace")

    @property
    def frames(self) -> int:
        """How many frames came so far."""
        return self._frames

    def frames_given(self, frames: int) -> int:
        """How many frames a signal of that many frames gives in all, its tail included."""
        return self._plan(self.unit, frames).frames_given

    def multiplies(self, frames: int) -> int:
        """How many products of samples a signal of that many frames costs in all."""
        plan = self._plan(self.unit, frames)
        return plan.cost_high << 64 | plan.cost_low

    def __repr__(self) -> str:
        return f"<tozbirem.Chain of {self.channels} channels {self.format} after {self.frames} frames>"

    def _plan(self, block: int, frames: int = 0):
        plan, answer, frames = Plan(), Answer(), index(frames)
        if frames < 0:
            raise ValueError(f"a signal has no {frames} frames")
        # (more than 2^40 of any number are refused, and the call takes numbers of 64 bits)
        frames = min(frames, (1 << 64) - 1)
        status = LIBRARY.tozbirem_plan(self._script, len(self._script), block, frames, byref(plan), byref(answer))
        judge(status, answer, self._script, self._own)
        return plan

    def _length(self, frames: int) -> int:
        """The block length for that many frames: the unit times a power of two, not far above LONGEST, and legal."""
        block = self.unit
        while block < frames and 2 * block <= LONGEST:
            block *= 2
        while block > self.unit and not self._room(block):
            block //= 2
        return block

    def _room(self, block: int) -> int:
        """The bytes that a call of this block length gives at most, or 0 where it is not legal."""
        if block not in self._rooms:
            try:
                self._rooms[block] = max(1, self._plan(block).room)
            except TozbiremError as error:
                if error.status != 3:
                    raise
                self._rooms[block] = 0
        return self._rooms[block]

    # ---- samples

    def process(self, samples: _arrays.Samples) -> _arrays.Array:
        """Takes the next samples of the signal, and returns what they add to the output, at once.

        Raises TypeError and OverflowError for samples that are none of the format, ValueError for an array of another
        shape, and TozbiremError for samples that are no whole frames (20), a signal of more than 2^40 frames (22), too
        many samples for `correlate` (24) and a signal that has ended (30). Samples that are refused change nothing.
        """
        self._must_go_on()
        words = _arrays.words(samples, self._bits, self.channels)
        if len(words) % self.channels:
            raise TozbiremError(20, f"no whole frames of {self.channels} channels")
        step = self._length(len(words) // self.channels) * self.channels
        pieces = [self._push(words)] if len(words) <= step else self._push_all(words, step)
        return _arrays.shaped(_arrays.joined(pieces), self.output_channels)

    def finish(self) -> _arrays.Array:
        """Ends the signal, and returns its tail: what `conv`, `conv_partial` and `correlate` still give.

        Raises TozbiremError where a window of `conv_partial` ends past the convolution (25); the signal then goes on.
        """
        self._must_go_on()
        self._save()
        output = _arrays.empty(4096, self._output_bits)
        rows = (MeasureRow * max(1, self._count))()
        while True:
            answer = Answer()
            status = LIBRARY.tozbirem_finish(
                self._script, len(self._script), self.unit, self._frames, _arrays.address(self._kept), self._kept_count,
                _arrays.address(output), _arrays.size(output), rows, len(rows), byref(answer),
            )  # fmt: skip
            if status != ROOM or answer.first <= _arrays.size(output):
                break
            output = _arrays.empty(answer.first * 8 // (self._output_bits + 1), self._output_bits)
        judge(status, answer, self._script, self._own)
        self._measures = [measure_of(row) for row in rows[: answer.kept]]
        tail = _arrays.joined([output[: answer.given * 8 // (self._output_bits + 1)]])
        return _arrays.shaped(tail, self.output_channels)

    def run(self, samples: _arrays.Samples) -> _arrays.Array:
        """Takes a whole signal, and returns all that it gives: `process` and `finish` in one, or nothing has changed."""
        self._must_go_on()
        before = self._now()
        try:
            given = [self.process(samples), self.finish()]
        except BaseException:
            self._go_on_from(before)
            raise
        return _arrays.joined(given) if len(given[1]) else given[0]

    def measures(self) -> List[Measure]:
        """The measures of the whole signal, in the order of the script and then by channel. `finish` comes before."""
        if self._measures is None:
            raise TozbiremError(ENDED, "measures are of a whole signal: finish() ends it")
        return list(self._measures)

    def _must_go_on(self) -> None:
        if self._measures is not None:
            raise TozbiremError(ENDED, "the signal has ended: reset() begins another")

    def _push_all(self, words, step: int):
        """The pieces that come of all the words, or nothing has changed."""
        before = self._now()
        try:
            return [self._push(words[place : place + step]) for place in range(0, len(words), step)]
        except BaseException:
            self._go_on_from(before)
            raise

    def _push(self, words):
        """What the words, at most a call of them, add to the output."""
        frames = len(words) // self.channels
        block = self._length(frames)
        if self._held < block:
            self._hold(block)
        output, answer = _arrays.empty(self._room(self._held) * 8 // (self._output_bits + 1) + 1, self._output_bits), Answer()
        status = LIBRARY.tozbirem_push(
            byref(self._handle), _arrays.address(words), _arrays.size(words), _arrays.address(output), _arrays.size(output), byref(answer),
        )  # fmt: skip
        if status == FULL:
            raise TozbiremError(GATHER, explain(status, answer))
        judge(status, answer, self._script, self._own)
        self._frames, self._ahead = self._frames + frames, True
        return output[: answer.given * 8 // (self._output_bits + 1)]

    def _hold(self, block: int) -> None:
        """Holds the signal in blocks of that many frames, from its numbers on."""
        self._save()
        answer = Answer()
        status = LIBRARY.tozbirem_hold(
            self._script, len(self._script), block, self._frames, _arrays.address(self._kept), self._kept_count,
            byref(self._handle), byref(answer),
        )  # fmt: skip
        judge(status, answer, self._script, self._own)
        self._held = block

    def _save(self) -> None:
        """Has the numbers of the signal in _kept."""
        while self._ahead:
            answer = Answer()
            status = LIBRARY.tozbirem_keep(byref(self._handle), _arrays.address(self._next), len(self._next), byref(answer))
            if status == KEPT_ROOM:
                self._next = array.array("q", bytes(8 * (answer.first + answer.first // 2)))
                continue
            judge(status, answer, self._script, self._own)
            spare = self._kept if len(self._kept) >= 64 else array.array("q", bytes(8 * len(self._next)))
            self._kept, self._kept_count, self._next, self._ahead = self._next, answer.kept, spare, False

    # ---- the state

    def _now(self):
        self._save()
        return self._frames, self._kept[: self._kept_count], self._kept_count

    def _go_on_from(self, state) -> None:
        """The signal is the one of these frames, numbers and their count; no handle holds it."""
        self._frames, self._kept, self._kept_count = state
        self._held, self._ahead = 0, False

    @property
    def state(self) -> State:
        """The frames so far and the numbers that the blocks keep. Setting it goes on from there; TozbiremError 26 says that
        these blocks keep no such numbers after so many frames, and leaves the chain as it was."""
        self._save()
        return State(self._frames, tuple(self._kept[: self._kept_count]))

    @state.setter
    def state(self, state: Tuple[int, Sequence[int]]) -> None:
        frames, numbers = state_of(state)
        before, ended = self._now(), self._measures
        try:
            self._go_on_from((frames, numbers, len(numbers)))
            self._measures = None
            self._hold(self.unit)
        except BaseException:
            self._go_on_from(before)
            self._measures = ended
            raise

    def __reduce__(self):
        self._save()
        numbers = array.array("q", self._kept[: self._kept_count]).tobytes()
        return restored, (self._script, self._own, self._frames, numbers, self._measures)


def state_of(state) -> Tuple[int, Any]:
    """The frames of a state and its numbers as an array, where they are of the right kind."""
    if not isinstance(state, (tuple, list)) or len(state) != 2:
        raise TypeError("a state is a pair: how many frames came, and the numbers that the blocks keep")
    frames, numbers = index(state[0]), state[1]
    if isinstance(numbers, (bytes, bytearray, memoryview, str)):
        raise TypeError(f"the numbers of a state are whole numbers, and not {type(numbers).__name__}")
    _arrays.test_order(numbers)
    if not 0 <= frames <= 1 << 40:
        raise TozbiremError(26, "a signal has 0 to 2^40 frames")
    try:
        return frames, array.array("q", numbers)
    except OverflowError:
        raise TozbiremError(26, "these blocks keep no numbers of more than 64 bits") from None


def restored(script, own, frames, numbers, measures) -> Chain:
    """A chain that was pickled."""
    chain = Chain.__new__(Chain)
    chain._begin(script, own)
    kept = array.array("q")
    kept.frombytes(numbers)
    if frames or kept:
        chain.state = (frames, kept)
    chain._measures = measures
    return chain


def raw_script(script: bytes) -> bytes:
    """The script with raw samples in and out: in a WAVE file samples of 8 bits are unsigned."""
    from ._program import program

    words = tokens(script.decode("utf-8", "replace"))
    if words[2:4] == ["input", "raw"] and words[-1] == "raw":
        return script
    lines = program("print s", script).report.splitlines()
    place = next(number for number, line in enumerate(lines) if line.startswith("input "))
    _, container, *rest = lines[place].split()
    lines[place] = " ".join(["input raw", *rest, *(["48000"] if container == "wave" else [])])
    lines[-1] = "output raw"
    return ("\n".join(lines) + "\n").encode()


def measure_of(row) -> Measure:
    kind = KINDS[row.kind]
    if kind in ("max", "min"):
        return Measure(kind, row.number, row.channel, row.value if row.found else None, row.other if row.found else None)
    return Measure(kind, row.number, row.channel, (row.value, row.other) if kind == "cmplx_dot" else row.value, None)
