#!/usr/bin/env python3
"""Makes cases of scripts for dsp_replay: what `print` answers to texts of both versions of the language.

    tools/script_cases.py COUNT [SEED]   writes the cases that are named here, and COUNT random ones

The answers are those of the reader below, which stands for itself: it knows the rules of docs/SCRIPT.md and
nothing of the program.
"""
import random
import re
import sys

WORD = {"q7": (-128, 127), "q15": (-32768, 32767), "q31": (-2**31, 2**31 - 1)}
ALL, NOT7, Q15, Q31 = ("q7", "q15", "q31"), ("q15", "q31"), ("q15",), ("q31",)
SECTION = {"q15": 6, "q31": 5}
TAPS = 16384


class Fault(Exception):
    def __init__(self, kind, offset, **fields):
        self.line = f"dspfx: script: {kind} at {offset}" + "".join(f", {n} {v}" for n, v in fields.items())
        super().__init__(self.line)


# ---- lists: low, high, the greatest count, what a count has to be, and the factor that is named where it is not

def multiple(flow, of=1, most=TAPS):
    return (*WORD[flow.format], most, lambda n: n > 0 and n % of == 0, of)


def exactly(low, high, count):
    return (low, high, count, lambda n: n >= count, count)


def at_least(flow, count):
    return (*WORD[flow.format], TAPS, lambda n: n >= count, count)


def scale(flow):
    return {"q7": (-8, 7), "q15": (-16, 15), "q31": (-31, 30)}[flow.format]


def shift(flow):
    return {"q7": (-7, 7), "q15": (-15, 15), "q31": (-31, 31)}[flow.format]


# ---- blocks: formats, channels that are wanted, what follows, and the channels behind

def word(flow):
    return WORD[flow.format]


def fixed(*kinds):
    """Parameters that do not depend on each other: `n` for a number and its range, `l` for a list."""
    def parameters(flow):
        given = []
        for kind, rule in kinds:
            given.append((yield kind, rule(flow)))
    return parameters


def clip(flow):
    low = yield "n", word(flow)
    yield "n", (low, word(flow)[1])


def sparse(flow):
    taps = yield "l", at_least(flow, 2)
    yield "l", exactly(0, 65535, len(taps))


def interpolate(flow):
    factor = yield "n", (1, 255)
    yield "l", multiple(flow, factor)


def lattice_iir(flow):
    k = yield "l", multiple(flow, 1, 255)
    yield "l", exactly(*word(flow), len(k) + 1)


def sections(low, high):
    def parameters(flow):
        yield "n", (low, high(flow))
        size = SECTION[flow.format]
        yield "l", multiple(flow, size, 64 * size)
    return parameters


def matrix(flow):
    rows = yield "n", (1, 64)
    columns = yield "n", (1, 64)
    yield "l", exactly(*word(flow), rows * columns)


def mat_scale(flow):
    yield "n", (1, 64)
    yield "n", (1, 64)
    yield "n", word(flow)
    yield "n", {"q15": (-16, 15), "q31": (0, 30)}[flow.format]


def mat_mult(flow):
    yield "n", (1, 64)
    columns = yield "n", (1, 64)
    given = yield "n", (1, 64)
    yield "l", exactly(*word(flow), columns * given)


def conversion(flow):
    flow.format = yield "f", flow.format


def route(flow):
    channels = yield "l", (0, flow.channels - 1, 16, lambda n: n > 0, 1)
    flow.channels = len(channels)


def behind(channels, parameters=fixed()):
    def all_of_it(flow):
        yield from parameters(flow)
        flow.channels = channels
    return all_of_it


side = ("n", lambda flow: (1, 64))
taps = ("l", multiple)
unsigned = ("n", lambda flow: (0, 2**32 - 1))
BLOCKS = {
    "offset": (ALL, None, fixed(("n", word))), "negate": (ALL, None, fixed()), "abs": (ALL, None, fixed()),
    "scale": (ALL, None, fixed(("n", word), ("n", scale))), "shift": (ALL, None, fixed(("n", shift))),
    "clip": (ALL, None, clip), "to": (ALL, None, conversion),
    "add": (ALL, 2, behind(1)), "sub": (ALL, 2, behind(1)), "mult": (ALL, 2, behind(1)),
    "cmplx_conj": (NOT7, 2, fixed()), "cmplx_mult": (NOT7, 4, behind(2)),
    "cmplx_mult_real": (Q15, 3, behind(2)), "cmplx_mag_squared": (NOT7, 2, behind(1)),
    "fir": (ALL, None, fixed(taps)), "sparse": (ALL, None, sparse),
    "decimate": (NOT7, None, fixed(("n", lambda flow: (1, 255)), taps)),
    "interpolate": (NOT7, None, interpolate),
    "lattice_fir": (Q15, None, fixed(("l", lambda flow: multiple(flow, 1, 255)))),
    "lattice_iir": (NOT7, None, lattice_iir),
    "biquad": (NOT7, None, sections(0, lambda flow: {"q15": 13, "q31": 30}[flow.format])),
    "biquad64": (Q31, None, sections(0, lambda flow: 30)),
    "conv": (ALL, None, fixed(taps)),
    "conv_partial": (ALL, None, fixed(unsigned, ("n", lambda flow: (1, 2**32 - 1)), taps)),
    "correlate": (ALL, None, fixed(taps)),
    "lms": (NOT7, 2, fixed(("n", lambda flow: (0, {"q15": 14, "q31": 30}[flow.format])), ("n", word), taps)),
    "pid": (NOT7, None, fixed(("n", word), ("n", word), ("n", word))),
    "mat_add": (NOT7, None, matrix), "mat_sub": (NOT7, None, matrix), "mat_scale": (NOT7, None, mat_scale),
    "mat_trans": (NOT7, None, fixed(side, side)), "mat_mult": (Q15, None, mat_mult),
    "power": (ALL, None, fixed()), "dot": (ALL, 2, fixed()), "cmplx_dot": (NOT7, 4, fixed()),
    "max": (ALL, None, fixed()), "min": (ALL, None, fixed()), "route": (ALL, None, route),
}


# ---- reading

def tokens(text):
    """The tokens of a text with their offsets; a byte that begins none is `bad`."""
    pattern = re.compile(rb"#[^\n]*|[\t\n\r ]+|([{}])|([a-z0-9_-]+)|(.)", re.DOTALL)
    found = []
    for match in pattern.finditer(text):
        if match.lastindex:
            kind = {1: "brace", 2: "run", 3: "bad"}[match.lastindex]
            found.append((match.start(), kind, match.group().decode("latin1")))
    return found


class Flow:
    def __init__(self, format, channels):
        self.format, self.channels = format, channels


class Reader:
    def __init__(self, text):
        self.items, self.at, self.end = tokens(text), 0, len(text)
        self.tables, self.version = {}, 1

    def next(self):
        if self.at == len(self.items):
            raise Fault("Missing", self.end)
        offset, kind, token = self.items[self.at]
        if kind == "bad":
            raise Fault("BadByte", offset)
        self.at += 1
        return offset, kind, token

    def begins(self, name):
        return self.at < len(self.items) and self.items[self.at][1:] == ("run", name)

    def word(self, *names):
        offset, kind, token = self.next()
        if token not in names:
            raise Fault("UnknownWord", offset)
        return token

    def numeral(self, offset, token):
        if not re.fullmatch("-?[0-9]{1,20}", token):
            raise Fault("BadNumber", offset)
        return int(token)

    def in_range(self, offset, n, low, high):
        if not low <= n <= high:
            raise Fault("OutOfRange", offset, low=low, high=high)
        return n

    def number(self, low, high):
        offset, _, token = self.next()
        return self.in_range(offset, self.numeral(offset, token), low, high)

    def entry(self, rule, numbers, offset, n):
        if len(numbers) >= rule[2]:
            raise Fault("TooMany", offset, limit=rule[2])
        numbers.append(self.in_range(offset, n, rule[0], rule[1]))

    def ended(self, rule, numbers, offset):
        if not rule[3](len(numbers)):
            raise Fault("Length", offset, taps=len(numbers), factor=rule[4])
        return numbers

    def listed(self, rule, named):
        offset, kind, token = self.next()
        numbers = []
        if token == "{":
            while True:
                offset, _, token = self.next()
                if token == "}":
                    return self.ended(rule, numbers, offset)
                self.entry(rule, numbers, offset, self.numeral(offset, token))
        if not named or kind != "run":
            raise Fault("Missing", offset)
        if token not in self.tables:
            raise Fault("UnknownWord", offset)
        for n in self.tables[token]:
            self.entry(rule, numbers, offset, n)
        return self.ended(rule, numbers, offset)

    def table(self):
        offset, _, _ = self.next()
        if len(self.tables) == 64:
            raise Fault("TooMany", offset, limit=64)
        offset, kind, name = self.next()
        if kind != "run" or len(name) > 32 or not "a" <= name[0] <= "z":
            raise Fault("BadName", offset)
        if name in self.tables:
            raise Fault("NameTaken", offset)
        self.tables[name] = self.listed((-2**31, 2**31 - 1, TAPS, lambda n: True, 0), False)

    def block(self, name, offset, flow, state):
        formats, channels, parameters = BLOCKS[name]
        if state["blocks"] == 64:
            raise Fault("TooMany", offset, limit=64)
        if name == "correlate" and state["correlated"]:
            raise Fault("TooMany", offset, limit=1)
        if flow.format not in formats:
            raise Fault("NoSuchForm", offset, format=flow.format)
        if channels is not None and flow.channels != channels:
            raise Fault("ChannelsHere", offset, got=flow.channels, wanted=channels)
        state["blocks"] += 1
        state["correlated"] |= name == "correlate"
        line, steps, answer = name, parameters(flow), None
        while True:
            try:
                kind, rule = steps.send(answer)
            except StopIteration:
                return line
            if kind == "n":
                answer = self.number(*rule)
                line += f" {answer}"
            elif kind == "l":
                answer = self.listed(rule, self.version == 2)
                line += " {" + " ".join(map(str, answer)) + "}"
            else:
                offset = self.items[self.at][0] if self.at < len(self.items) else self.end
                answer = self.word(*WORD)
                if answer == rule:
                    raise Fault("NoSuchForm", offset, format=answer)
                line += f" {answer}"

    def script(self):
        self.word("dspfx")
        self.version = self.number(1, 2)
        self.word("input")
        container, format = self.word("wave", "raw"), self.word(*WORD)
        channels = self.number(1, 16)
        lines = [f"dspfx {self.version}", f"input {container} {format} {channels}"]
        if container == "raw":
            lines[1] += f" {self.number(1, 2**32 - 1)}"
        if self.begins("block"):
            self.next()
            lines.append(f"block {self.number(1, 65536)}")
        while self.version == 2 and self.begins("table"):
            self.table()
        flow, state = Flow(format, channels), {"blocks": 0, "correlated": False}
        while True:
            offset, _, name = self.next()
            if name == "output":
                break
            if name not in BLOCKS:
                raise Fault("UnknownWord", offset)
            lines.append(self.block(name, offset, flow, state))
        lines.append(f"output {self.word('wave', 'wavex', 'raw')}")
        if self.at < len(self.items):
            offset, kind, _ = self.items[self.at]
            raise Fault("BadByte" if kind == "bad" else "UnknownWord", offset)
        return lines


def answer(text):
    """The status and the report of `print`."""
    try:
        if len(text) > 1048576:
            raise Fault("TooLong", 1048576)
        return 0, "".join(line + "\n" for line in Reader(text).script())
    except Fault as fault:
        return 2, fault.line + "\n"


# ---- cases

P1, P2 = "dspfx 1 input raw q15 1 8000 ", "dspfx 2 input raw q15 1 8000 "
NAMED = [
    ("a table in a block", P2 + "table low {16384} fir low output raw"),
    ("a table in two blocks", P2 + "table low {16384 -1} fir low conv low output raw"),
    ("a number that the format has not", P2 + "table a {40000} fir a output raw"),
    ("no such table", P2 + "table a {40000} fir b output raw"),
    ("a name that begins with a digit", P2 + "table 9 {1}"),
    ("a name twice", P2 + "table a {1} table a {2}"),
    ("a table in version 1", P1 + "table"),
    ("a table with its name in version 1", P1 + "table a {1} fir a output raw"),
    ("a name in version 1", P1 + "fir a output raw"),
    ("version 3", "dspfx 3"),
    ("version 0", "dspfx 0"),
    ("64 tables", P2 + "".join(f"table t{n} {{{n}}} " for n in range(64)) + "fir t63 output raw"),
    ("65 tables", P2 + "".join(f"table t{n} {{{n}}} " for n in range(65)) + "fir t63 output raw"),
    ("a name of 32 bytes", P2 + f"table {'a' * 32} {{1}} fir {'a' * 32} output raw"),
    ("a name of 33 bytes", P2 + f"table {'a' * 33} {{1}}"),
    ("a name that begins with a line", P2 + "table _a {1}"),
    ("a name that begins with a sign", P2 + "table -a {1}"),
    ("a name with a sign and digits", P2 + "table a-1_9 {1} fir a-1_9 output raw"),
    ("a brace for a name", P2 + "table {1}"),
    ("no name", P2 + "table"),
    ("a bad byte for a name", P2 + "table A {1}"),
    ("no list behind a name", P2 + "table a fir a output raw"),
    ("the text ends behind a name", P2 + "table a"),
    ("the text ends in a table", P2 + "table a {1 2"),
    ("no number in a table", P2 + "table a {1 b}"),
    ("a brace in a table", P2 + "table a {1 {"),
    ("an empty table", P2 + "table a {} fir a output raw"),
    ("an empty table that is not used", P2 + "table a {} output raw"),
    ("a table that is not used", P2 + "table a {40000} output raw"),
    ("the least and the greatest number of a table", P2 + "table a {-2147483648 2147483647} output raw"),
    ("below the least", P2 + "table a {-2147483649} output raw"),
    ("above the greatest", P2 + "table a {2147483648} output raw"),
    ("a table named output", P2 + "table output {1} fir output output raw"),
    ("a table named fir", P2 + "table fir {1} fir fir output raw"),
    ("a table named table", P2 + "table table {1} fir table output raw"),
    ("a table named block", P2 + "table block {1} fir block output raw"),
    ("a block length behind a table", P2 + "table a {1} block 4 output raw"),
    ("a block length before a table", P2 + "block 4 table a {1} fir a output raw"),
    ("a table behind a block", P2 + "fir {1} table a {1} output raw"),
    ("a table that is too long", P2 + "table a {1 2 3} sparse {1 2} a output raw"),
    ("a table that is too short", P2 + "table a {1 2} sparse {1 2 3} a output raw"),
    ("no multiple", P2 + "table a {1 2 3} interpolate 2 a output raw"),
    ("too many before out of range", P2 + "table a {1 2 99999} sparse {1 2} a output raw"),
    ("out of range before too many", P2 + "table a {99999 1 2} sparse {1 2} a output raw"),
    ("a brace that closes for a list", P2 + "fir }"),
    ("a number for a list", P2 + "fir 12 output raw"),
    ("the text ends at a list", P2 + "fir"),
    ("tables for both lists", P2 + "table t {1 2} table d {0 65535} sparse t d output raw"),
    ("a table of channels", "dspfx 2 input wave q7 2 table swap {1 0} route swap output wave"),
    ("a table past 16 bits in 32", "dspfx 2 input raw q31 1 8000 table a {40000} fir a output raw"),
    ("as many numbers as a table may have", P2 + "table a {" + "1 " * TAPS + "} fir a output raw"),
    ("one more", P2 + "table a {" + "1 " * (TAPS + 1) + "} fir a output raw"),
    ("as many taps as there may be", P1 + "fir {" + "1 " * TAPS + "} output raw"),
    ("one tap more", P1 + "fir {" + "1 " * (TAPS + 1) + "} output raw"),
    ("an extensible output", "dspfx 1 input wave q15 1 output wavex"),
    ("an extensible output in version 2", "dspfx 2 input wave q15 1 output wavex"),
    ("an extensible input", "dspfx 1 input wavex q15 1 output wave"),
    ("a comment between", P2 + "table a # {2}\n {1}#\nfir a output raw"),
]


def parts(rng, version):
    """The pieces of a random script; most can be read."""
    names = ["a", "b", "fir", "output", "x" * 32] + (["9", "x" * 33] if rng.random() < 0.1 else [])
    pieces = ["dspfx", str(version), "input"]
    pieces += ["wave"] if rng.random() < 0.5 else ["raw"]
    pieces += [rng.choice(list(WORD)), str(rng.choice([1, 1, 2, 2, 3, 4]))]
    pieces += ["8000"] if pieces[3] == "raw" else []
    if rng.random() < 0.2:
        pieces += ["block", str(rng.choice([1, 64, 65536, 65537]))]
    tables = []
    for _ in range(rng.choice([0, 1, 1, 2, 3]) if version == 2 or rng.random() < 0.05 else 0):
        name = rng.choice(names)
        tables.append(name)
        pieces += ["table", name, "{"] + [str(rng.choice([0, 1, 2, 5, -3, 127, 40000])) for _ in range(rng.randrange(7))] + ["}"]
    for _ in range(rng.randrange(4)):
        name = rng.choice(["fir", "fir", "conv", "sparse", "interpolate", "biquad", "lattice_iir", "route", "negate", "to", "mat_add", "clip", "add"])
        pieces.append(name)
        numbers = {"interpolate": 1, "biquad": 1, "mat_add": 2, "clip": 2}.get(name, 0)
        pieces += [str(rng.choice([0, 1, 2, 3])) for _ in range(numbers)]
        pieces += [rng.choice(list(WORD))] if name == "to" else []
        for _ in range({"sparse": 2, "lattice_iir": 2, "negate": 0, "to": 0, "clip": 0, "add": 0}.get(name, 1)):
            if tables and rng.random() < 0.6:
                pieces.append(rng.choice(tables))
            else:
                pieces += ["{"] + [str(rng.choice([0, 1, 2, -1, 100])) for _ in range(rng.randrange(7))] + ["}"]
    return pieces + ["output", rng.choice(["wave", "wavex", "raw"])]


def randoms(count, seed):
    rng = random.Random(seed)
    for n in range(count):
        pieces = parts(rng, rng.choice([1, 2, 2, 2]))
        if rng.random() < 0.4:
            at = rng.randrange(len(pieces))
            pieces[at:at + rng.choice([0, 1])] = [rng.choice(["table", "{", "}", "a", "9", "-1", "fir", "#", "Z", "wavex", ""])]
        yield rng.choice([" ", "\n", "\t ", "\r\n"]).join(pieces)


def field(text):
    """A text as it stands in a case: as it is where it can, else in hex."""
    plain = re.fullmatch(r"[ -~\n]*", text) and not re.search(r"[;|]", text)
    return "=" + text.replace("\n", ";") if plain else text.encode("latin1").hex()


def main():
    count = int(sys.argv[1])
    for name, text in NAMED:
        status, report = answer(text.encode("latin1"))
        print(f"# {name}\nprint s|{field(text)}||{status}|{field(report)}|")
    for text in randoms(count, int(sys.argv[2]) if len(sys.argv) > 2 else 1):
        status, report = answer(text.encode("latin1"))
        print(f"print s|{field(text)}||{status}|{field(report)}|")


if __name__ == "__main__":
    main()
