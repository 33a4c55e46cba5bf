#!/usr/bin/env python3
"""Says on standard error what to do after a run of dspfx that did not end with 0, or that mixed up the forms of files.

    tools/explain.py PROGRAM STATUS WORD..

PROGRAM is the program that ran with these words, and STATUS its exit status. Nothing is run again but `print` after
a fault in a script, which tells where it is (tools/script_hints.py), and the script of a check after a difference
(tools/differs.py). One or two lines are written, and after a fault in a script also its place as compilers show it.
After the status 0 a line is written where a file with a header was read as raw samples, or one was written without.
"""
import errno
import os
import re
import signal
import stat
import sys
from math import gcd, lcm

import differs
import language
import samples
import state
from script_hints import SCRIPT_MOST, explain_script, named
from word_hints import explain_words

MOST_BLOCK = 65536

# Which words of a command are its script or state, its input, its output and another file that it reads, counted from
# the first.
PLACES = {
    "run": (1, 2, 3, None), "bank": (1, 2, 3, None), "gen": (3, None, 4, None), "print": (1, None, None, None),
    "convert": (None, 3, 4, None), "resume stop": (3, 4, 5, None), "resume go": (2, 3, 4, None), "check": (1, 2, None, 3),
}  # fmt: skip
TAGS = {2: "ADPCM", 3: "floating point", 6: "A-law", 7: "mu-law", 17: "ADPCM", 80: "MPEG", 85: "MP3"}
ENCODINGS = {1: "mu-law", 6: "floating point", 7: "floating point", 27: "A-law"}
TO_WAVE = "sox IN -e signed-integer -b 16 OUT.wav makes one of them"


class Words:
    """The words of a command, and the files that they name."""

    def __init__(self, words):
        self.words = words
        self.command = words[0] if words else None
        if self.command == "resume" and words[1:2] in (["stop"], ["go"]):
            self.command = " ".join(words[:2])
        self.script, self.input, self.output, self.other = (
            words[place] if place is not None and place < len(words) else None
            for place in PLACES.get(self.command, (None,) * 4)
        )
        self.first = "state" if self.command == "resume go" else "script"

    def reads(self):
        return [(name, path) for name, path in ((f"the {self.first}", self.script), ("the input", self.input)) if path]


# ---- 3, 4, 5: block lengths, headers, lengths


def test_is_file(path):
    """An OSError where a file cannot be read twice. (A pipe would be waited for.)"""
    if not os.path.isfile(path):
        raise OSError(errno.EINVAL, "no file that can be read twice")


def sound_script(words):
    """The parts of the script, or None where it cannot be read again."""
    try:
        test_is_file(words.script)
        if words.first == "state":
            with open(words.script, "rb") as file:
                return language.read_script(state.read_state(file.read())[0])
        with open(words.script, encoding="utf-8", errors="replace") as file:
            return language.read_script(file.read())
    except (OSError, TypeError, ValueError, state.Fault):
        return None


def unit_of(script):
    """The number that each legal block length is a multiple of, or None where the script was not read."""
    if script is None:
        return None
    # (at each place `up` samples come of `down` frames of the input)
    unit, up, down = 1, 1, 1
    for block in script.blocks:
        group = {"decimate": 1, "mat_add": 2, "mat_sub": 2, "mat_trans": 2, "mat_scale": 2, "mat_mult": 2}.get(block.word, 0)
        taken = 1
        for number in block.numbers[:group]:
            taken *= int(number)
        if taken > 1:
            need = down * taken // gcd(up, down * taken)
            unit = lcm(unit, need)
        if block.word == "decimate":
            down *= int(block.numbers[0])
        elif block.word == "interpolate":
            up *= int(block.numbers[0])
        elif block.word == "mat_mult":
            up, down = up * int(block.numbers[2]), down * int(block.numbers[1])
        up, down = up // gcd(up, down), down // gcd(up, down)
    return unit


def explain_block(words, _):
    script = sound_script(words)
    unit = unit_of(script)
    given = words.words[5:6] if words.command in ("run", "bank") else []
    length = int(given[0]) if given and given[0].isdigit() else script.block if script else None
    if unit is None:
        yield f"a block length is 1 to {MOST_BLOCK}, and a multiple of the unit that the report names"
    elif unit > MOST_BLOCK:
        yield f"the groups of this script are whole at multiples of {unit} frames, and a block has at most {MOST_BLOCK}: no length is legal"
    elif length is None or (length % unit == 0 and 0 < length <= MOST_BLOCK):
        yield "so many frames would be more than 1,048,576 samples, all channels together, at a place of the chain: choose a shorter block"
    elif unit == 1:
        yield f"a block has 1 to {MOST_BLOCK} frames"
    else:
        below = min(length, MOST_BLOCK) // unit * unit
        near = sorted({it for it in (below, below + unit) if 0 < it <= MOST_BLOCK})
        yield f"a block has a multiple of {unit} frames, at most {MOST_BLOCK}; nearest to {length}: {' and '.join(map(str, near))}"


def explain_header(words, _):
    """What an input is that is at fault, and what to do."""
    if not os.path.isfile(words.input):
        yield f"{named(words.input)} is no file that can be read twice; docs/WAVE.md says what the fault of its header is"
        return
    with open(words.input, "rb") as file:
        data = file.read(1 << 16)
    wanted = "an AU file" if words.words[:2] == ["convert", "au"] else "a WAVE file"
    of_file = f"{named(words.input)} "
    if not data:
        yield f"{of_file}is empty, and {wanted} is wanted"
    elif wanted == "an AU file":
        yield of_file + au_hint(data)
    elif data[:4] == b".snd":
        yield f"{of_file}is an AU file: `./dspfx convert au wave {named(words.input)} NEW.wav` makes a WAVE file of it"
    elif data[:4] != b"RIFF" or data[8:12] != b"WAVE":
        kind = next((name for mark, name in samples.SOUNDS.items() if data.startswith(mark)), None)
        yield f"{of_file}is {kind}, and a WAVE file is wanted: {TO_WAVE}" if kind else f"{of_file}is no WAVE file{raw_hint(sound_script(words))}"
    else:
        yield from wave_hints(of_file, data, sound_script(words), os.path.getsize(words.input))


def raw_hint(script):
    """How a script reads raw samples in place of a WAVE file."""
    if script is None:
        return "; raw samples are read by a script with `input raw FORMAT CHANNELS RATE`, as `input raw q15 1 48000`"
    here = f"{script.form} {script.channels}"
    return f"; if it has raw samples, write `input raw {here} RATE`, as `input raw {here} 48000`, in place of `input wave {here}`"


def header_as_samples(words):
    """Says of an input with a header, and a script that reads raw samples, that the header was read as samples."""
    if words.words[:1] == ["convert"] or not words.input or not os.path.isfile(words.input):
        return
    with open(words.input, "rb") as file:
        data = file.read(1 << 16)
    mark, script = data[:4], sound_script(words)
    if mark not in (b"RIFF", b".snd") or script is None or script.container != "raw":
        return
    if mark == b".snd":
        kind, advice = "Sun AU", f"`./dspfx convert au wave {named(words.input)} NEW.wav` and then `input wave` read"
    else:
        tag, channels, bits = format_of(data)[0] or (None, script.channels, 16)
        form = {8: "q7", 16: "q15", 24: "q31", 32: "q31"}.get(bits, "q15")
        kind, advice = "WAVE", f"`input wave {form} {channels}` reads"
        if tag not in (None, 1):
            advice = f"`sox IN -e signed-integer -b 16 OUT.wav` and then `input wave q15 {channels}` read"
    yield f"{named(words.input)} is a {kind} file, and with `input raw` its header is read as samples: {advice} its samples alone"


def samples_without_header(words):
    """Says of an output whose name is that of a WAVE file, and a script that writes raw samples, that it is none."""
    script = sound_script(words) if words.output and words.output.lower().endswith(".wav") and words.first == "script" else None
    if script and script.output == "raw":
        yield f"{named(words.output)} has raw samples, and no header as its name says: `output wave` in the script writes one"


def au_hint(data):
    if data[:4] != b".snd":
        return "is a WAVE file: `convert wave au` takes it" if data[:4] == b"RIFF" else "is no AU file"
    words = [int.from_bytes(data[place : place + 4], "big") for place in range(4, 24, 4)]
    if len(data) < 24 or words[0] < 24 or words[0] > len(data):
        return "ends before its samples begin, or says that they begin in its header"
    if words[2] not in (2, 3, 4, 5):
        return f"has encoding {words[2]} ({ENCODINGS.get(words[2], 'unknown')}), and 2 to 5 are read, 8 to 32 bits: sox makes them"
    if not 1 <= words[4] <= 16:
        return f"has {words[4]} channels, and 1 to 16 are read"
    return "ends before all samples that its header declares"


def format_of(data):
    """The tag, the channels and the bits of a WAVE file's first `fmt ` chunk, or None, and where its samples begin."""
    place, found = 12, None
    while place + 8 <= len(data):
        kind, size = data[place : place + 4], int.from_bytes(data[place + 4 : place + 8], "little")
        if kind == b"fmt " and found is None and place + 24 <= len(data):
            numbers = [int.from_bytes(data[place + at : place + at + 2], "little") for at in (8, 10, 22)]
            if numbers[0] == 0xFFFE and place + 34 <= len(data):
                numbers[0] = int.from_bytes(data[place + 32 : place + 34], "little")
            found = numbers
        if kind == b"data":
            return found, place + 8, size
        place += 8 + size + size % 2
    return found, None, None


def wave_hints(of_file, data, script, length):
    found, start, size = format_of(data)
    if found is None or start is None:
        yield f"{of_file}is a WAVE file without {'samples' if found else 'its format before its samples'}: it was cut, or is damaged"
        return
    tag, channels, bits = found
    if tag != 1:
        yield f"{of_file}holds {TAGS.get(tag, f'samples with tag {tag}')}, and whole numbers of 8, 16, 24 or 32 bits are read: {TO_WAVE}"
        return
    has = {8: "q7", 16: "q15", 24: "q31", 32: "q31"}.get(bits)
    if has is None:
        yield f"{of_file}has {bits} bits, and 8, 16, 24 and 32 are read: {TO_WAVE}"
    elif not 1 <= channels <= 16:
        yield f"{of_file}has {channels} channels, and 1 to 16 are read"
    elif script and (script.form != has or script.channels != channels):
        to = f" to {script.form}" if script.form != has else ""
        yield f"{of_file}has {bits} bits and {channels} channel{'s' * (channels != 1)}: `input wave {has} {channels}{to}` in place of `input wave {script.form} {script.channels}`"
    elif size != 0xFFFFFFFF and length < start + size // (channels * bits // 8) * (channels * bits // 8):
        yield f"{of_file}was cut: its header declares {size} bytes of samples, and {length - start} came; a run writes the whole blocks of these"
    else:
        yield f"{of_file}has a header that contradicts itself (docs/WAVE.md): sox -D IN OUT.wav writes it anew"


def explain_lengths(words, _):
    if words.command == "check":
        yield "where the report has `check size`, a place of the script has more than 16,777,216 samples, all channels together: check a shorter part, or compare with the file of a run"
    elif words.first == "state":
        yield "where the report has `resume at`, the input has fewer frames than the state has taken: is it another, or cut?"
    elif words.command == "resume stop":
        yield "where the report has `resume at`, the input has fewer than K frames: name a smaller K"
    script = sound_script(words)
    found = {block.word for block in script.blocks} if script else set()
    if "correlate" in found and words.command != "check":
        yield "a correlation holds at most 1,048,576 samples of a channel: correlate a shorter part of the recording, or decimate before it"
    if "conv_partial" in found:
        yield "a window of conv_partial that ends past the convolution (`window end E, length L`) takes a smaller first or count"
    if script and script.output != "raw" or words.command == "convert":
        more = "" if words.command == "convert" else ": `output raw` has no limit"
        yield f"where the report has `riff size`, the output is longer than a WAVE file, which has at most 4 GiB{more}"
    if not words.input or not os.path.isfile(words.input) or os.path.getsize(words.input) > 1 << 40:
        yield "where the report has `input taken`, the input has more than 2^40 bytes"


# ---- 6 to 10: files


def reason_of(number):
    return f"{os.strerror(number)[0].lower()}{os.strerror(number)[1:]}"


def folder_here():
    try:
        return os.getcwd()
    except OSError:
        return "a folder that was removed"


def fault_of_reading(path):
    """Why a file cannot be read, or None where nothing is found."""
    try:
        os.close(os.open(path, os.O_RDONLY | os.O_NONBLOCK))
        return "is a folder" if os.path.isdir(path) else None
    except OSError as error:
        return reason_of(error.errno)


def explain_reading(name):
    def lines(words, _):
        what, path = {"script": (words.first, words.script), "input": ("input", words.input), "other": ("OUT", words.other)}[name]
        if path:
            fault = fault_of_reading(path)
            yield f"{what} {named(path)}: {fault}" if fault else f"{what} {named(path)} can be opened now, but a read failed"
            if path == "-":
                yield "a pipe is read as /dev/stdin"
            elif name == "script" and fault and re.match(r"\s*dspfx\s", path):
                yield "SCRIPT is the name of a file, and here is the text of a script: put it into a file"
            elif not os.path.exists(path) and not os.path.isabs(path):
                yield f"files are looked for in {folder_here()}"

    return lines


def same_file(words):
    """Which file that is read the output is, or None."""
    for what, path in words.reads():
        try:
            if os.path.samefile(path, words.output):
                return f"{named(words.output)} is the same file as {what} {named(path)}, which would be lost: it was left as it is; name another output"
        except OSError:
            pass
    return None


def fault_of_writing(path):
    """Why a file cannot be written, or None where nothing is found. Nothing is made or changed."""
    folder = os.path.dirname(path) or "."
    if os.path.isdir(path):
        return "is a folder"
    if not os.path.isdir(folder):
        return f"there is no folder {named(folder)}" if not os.path.exists(folder) else f"{named(folder)} is no folder"
    room = os.statvfs(folder)
    try:
        # (a pipe would wait for who reads it)
        if not stat.S_ISFIFO(os.stat(path).st_mode):
            os.close(os.open(path, os.O_WRONLY | os.O_NONBLOCK))
    except FileNotFoundError:
        if os.path.islink(path):
            return f"is a link to {named(os.readlink(path))}, which cannot be made"
        if not os.access(folder, os.W_OK):
            return reason_of(errno.EROFS if room.f_flag & os.ST_RDONLY else errno.EACCES)
    except OSError as error:
        return reason_of(error.errno)
    # (a file system without blocks, as that of pipes, has no room that could be full)
    is_full = os.path.exists(path) and os.path.samefile(path, "/dev/full")
    if is_full or room.f_blocks and not room.f_bavail:
        return reason_of(errno.ENOSPC)
    return None


def explain_writing(words, _):
    if not words.output:
        return
    fault = same_file(words)
    if fault:
        yield fault
        return
    fault = fault_of_writing(words.output)
    yield f"output {named(words.output)}: {fault}" if fault else (
        f"output {named(words.output)} can be opened now, but a write failed (a full disk, a quota, or a pipe that was closed)")  # fmt: skip


def explain_report(words, _):
    what = {"print": "text", "resume stop": "state"}.get(words.command, "report")
    rest = "nothing else was to be written" if words.command in ("check", "print") else "the output is complete"
    yield f"standard output cannot be written (closed, or a full disk), so the {what} is not whole; {rest}"


def explain_memory(words, _):
    if words.command == "check":
        yield "out of memory: a check holds the signal before and after a block whole, so a shorter input needs less"
    else:
        yield "out of memory: a run takes room for its block length at each place, so a small `block N` needs less"


def explain_difference(words, program):
    yield from differs.told(program, words.script, words.input, words.other)
    yield "`./dspfx run SCRIPT IN NEW` writes the right file, and tools/compare.py NEW OUT lists the samples that differ"


def explain_state(words, _):
    if words.first != "state":
        yield f"the canonical text of the script has more than {SCRIPT_MOST} bytes, and a state holds it"
        return
    try:
        test_is_file(words.script)
        with open(words.script, "rb") as file:
            list(state.lines_of(file.read()))
        fault = "its script or its numbers are none that a run can have"
    except OSError as found:
        fault = found.strerror
    except state.Fault as found:
        fault = found
    yield f"state {named(words.script)}: {fault}"
    yield "`./dspfx resume stop K SCRIPT IN OUT > STATE` makes one"


# ---- what the system says of the program


def explain_signal(number):
    """What the end by a signal means: the shell gives 128 more than its number as status."""
    try:
        name = signal.Signals(number).name
    except ValueError:
        name = f"signal {number}"
    why = {
        "SIGKILL": "the system does so where memory runs out: a small `block N` needs less",
        "SIGSEGV": "a fault of the program or of the machine: please report it (CONTRIBUTING.md)",
        "SIGABRT": "a fault of the program or of the machine: please report it (CONTRIBUTING.md)",
        "SIGBUS": "a file that was cut while it was read, or a fault of the machine",
        "SIGILL": "the program is built for another processor: `CPU=x86-64-v2 ./dspfx prove` builds one for more of them",
        "SIGTERM": "another process ended it, as `kill`, `timeout` or a machine that is shut down",
        "SIGHUP": "its terminal was closed",
        "SIGINT": "Ctrl-C",
        "SIGPIPE": "nobody reads the pipe that it wrote to",
        "SIGXCPU": "`ulimit -t` allows no more processor time",
        "SIGXFSZ": "`ulimit -f` allows no file so long",
    }.get(name)
    yield f"the program did not end by itself: {name} ended it ({128 + number} is 128 and the number of the signal)" + (f"; {why}" if why else "")
    yield "there is no report, and OUT may have a part of the output: run it again"


def explain_start(status):
    what = "is not there any more, or lacks a library" if status == 127 else "cannot be run here: it is no program, or one of another kind of machine"
    yield f"the program {what} (status {status} is of the shell, and not of dspfx)"


EXPLAINED = {
    0: lambda words, _: [*header_as_samples(words), *samples_without_header(words)],
    1: lambda words, _: explain_words(words.words),
    3: explain_block,
    4: explain_header,
    5: explain_lengths,
    6: explain_reading("script"),
    7: explain_reading("input"),
    8: explain_writing,
    9: explain_report,
    10: explain_memory,
    11: explain_difference,
    13: explain_state,
    14: explain_reading("other"),
}


def lines_of(status, words, program):
    """What is said after a status that is not of a fault in a script."""
    if status in (126, 127):
        yield from explain_start(status)
    elif status > 128:
        yield from explain_signal(status - 128)
    else:
        yield from EXPLAINED.get(status, lambda *_: ())(words, program)
    if status in (5, 11):
        yield from header_as_samples(words)


def main(program, status, *words):
    sys.stderr.reconfigure(encoding="utf-8", errors="replace")
    words, number = Words(list(words)), int(status)
    if number == 2:
        lines = explain_script(words, program)
    else:
        lines = (f"dspfx: {line}" for line in lines_of(number, words, program))
    try:
        for line in lines:
            print(line, file=sys.stderr)
    except KeyboardInterrupt:
        sys.exit(130)


if __name__ == "__main__":
    if len(sys.argv) < 3:
        sys.exit(__doc__.strip())
    main(*sys.argv[1:])
