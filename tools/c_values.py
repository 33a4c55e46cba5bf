"""The values of constant expressions of C, by C's own rules of types, as tools/c_source.py takes them.

`int` has 32 bits, and `long` is tried with 32 and with 64: an expression whose value depends on that is refused, as is
one that C leaves undefined (an overflow of a signed type, a shift by less than 0 or by all bits, a division by zero).
Macros are replaced as texts, as the preprocessor does it. What is not read raises a ValueError, and nothing is guessed.
"""
import math
import re
import struct

NUMBER = r"0[xX][0-9a-fA-F]*\.?[0-9a-fA-F]*(?:[pP][-+]?\d+)?\w*|(?:\d+\.?\d*|\.\d+)(?:[eE][-+]?\d+)?\w*"
TOKEN = re.compile(rf"\s*({NUMBER}|[A-Za-z_]\w*|'(?:\\.[^']*|[^'\\])'|<<|>>|<=|>=|==|!=|&&|\|\||[-+*/%~!&|^<>?:()])")
WIDTHS = {"q7_t": (8, True), "q15_t": (16, True), "q31_t": (32, True), "q63_t": (64, True), "char": (8, None), "short": (16, True), "int": (32, True)}
WIDTHS |= {f"{sign}int{bits}_t": (bits, not sign) for bits in (8, 16, 32, 64) for sign in ("", "u")}
FLOATS = {"float": 32, "float32_t": 32, "double": 64, "float64_t": 64}
TYPE_WORDS = {*WIDTHS, *FLOATS, "long", "signed", "unsigned", "const", "volatile"}
ESCAPES = {"n": 10, "t": 9, "r": 13, "0": 0, "a": 7, "b": 8, "f": 12, "v": 11, "\\": 92, "'": 39, '"': 34, "?": 63}
LEVELS = [["||"], ["&&"], ["|"], ["^"], ["&"], ["==", "!="], ["<", ">", "<=", ">="], ["<<", ">>"], ["+", "-"], ["*", "/", "%"]]
KNOWN = {f"INT{bits}_{end}": (value, 32) for bits in (8, 16, 32) for end, value in
         (("MAX", 2 ** (bits - 1) - 1), ("MIN", -(2 ** (bits - 1))))}  # fmt: skip


class Fault(ValueError):
    """Why C gives an expression no value, in words of its own."""


class Value:
    """A number and its type: bits and whether it has a sign, or a type of floating point, where that is None."""

    def __init__(self, number, bits, is_signed):
        self.number, self.bits, self.is_signed = number, bits, is_signed

    def is_float(self):
        return self.is_signed is None


def fits(number, bits, is_signed):
    return -(1 << bits - 1) <= number < 1 << bits - 1 if is_signed else 0 <= number < 1 << bits


def of_int(number, bits, is_signed):
    """The result of an operation: unsigned types wrap, and signed ones may not."""
    if not is_signed:
        return Value(number % (1 << bits), bits, False)
    if not fits(number, bits, True):
        raise Fault(f"{number} overflows a signed type of {bits} bits, which C leaves undefined")
    return Value(number, bits, True)


def of_float(number, bits):
    """A number of floating point, rounded to the width of its type."""
    if bits == 32 and isinstance(number, int) and abs(number) >= 1 << 53:
        raise Fault(f"{number} is too long a number to be a float here")
    try:
        return Value(struct.unpack("<f", struct.pack("<f", number))[0] if bits == 32 else float(number), bits, None)
    except OverflowError:
        raise Fault(f"{number:g} is beyond a float") from None


def converted(value, bits, is_signed):
    """A value as a cast gives it."""
    if is_signed is None and isinstance(bits, int) and bits in (32, 64):
        return of_float(value.number, bits)
    number = value.number
    if value.is_float():
        if not math.isfinite(number) or not fits(math.trunc(number), bits, is_signed):
            raise Fault(f"{number:g} is beyond the type that it is cast to, which C leaves undefined")
        number = math.trunc(number)
    number %= 1 << bits
    if is_signed and number >= 1 << bits - 1:
        number -= 1 << bits
    # (what is narrower than an int becomes one)
    return Value(number, max(bits, 32), is_signed or bits < 32)


def in_common(a, b):
    """Both values in the type in which C works on them."""
    if a.is_float() or b.is_float():
        bits = max(it.bits for it in (a, b) if it.is_float())
        return of_float(a.number, bits), of_float(b.number, bits)
    bits = max(a.bits, b.bits)
    is_signed = all(it.is_signed for it in (a, b) if it.bits == bits)
    return tuple(converted(it, bits, is_signed) for it in (a, b))


def quotient(a, b):
    if b == 0:
        raise Fault("a division by zero")
    return abs(a) // abs(b) * (1 if (a < 0) == (b < 0) else -1)


WHOLE = {
    "+": lambda a, b: a + b, "-": lambda a, b: a - b, "*": lambda a, b: a * b, "/": quotient,
    "%": lambda a, b: a - b * quotient(a, b), "|": lambda a, b: a | b, "&": lambda a, b: a & b, "^": lambda a, b: a ^ b,
}  # fmt: skip
COMPARED = {"==": lambda a, b: a == b, "!=": lambda a, b: a != b, "<": lambda a, b: a < b, ">": lambda a, b: a > b,
            "<=": lambda a, b: a <= b, ">=": lambda a, b: a >= b}  # fmt: skip


def shifted(sign, a, b):
    if a.is_float() or b.is_float():
        raise Fault("a shift of a fraction")
    if not 0 <= b.number < a.bits:
        raise Fault(f"a shift by {b.number} of a type of {a.bits} bits, which C leaves undefined")
    return of_int(a.number << b.number if sign == "<<" else a.number >> b.number, a.bits, a.is_signed)


def combined(sign, a, b):
    """What an operator makes of two values."""
    if sign in ("&&", "||"):
        return Value(int((all if sign == "&&" else any)((a.number != 0, b.number != 0))), 32, True)
    if sign in ("<<", ">>"):
        return shifted(sign, a, b)
    a, b = in_common(a, b)
    if sign in COMPARED:
        return Value(int(COMPARED[sign](a.number, b.number)), 32, True)
    if not a.is_float():
        return of_int(WHOLE[sign](a.number, b.number), a.bits, a.is_signed)
    if sign not in "+-*/" or (sign == "/" and b.number == 0):
        raise Fault(f"{sign} of fractions" if sign not in "+-*/" else "a division by zero")
    return of_float(a.number / b.number if sign == "/" else WHOLE[sign](a.number, b.number), a.bits)


def number_of(word, long):
    """The value of a number, by its suffix and its base."""
    bare = word.lower()
    hexadecimal = bare.startswith("0x")
    if re.fullmatch(r"0x[0-9a-f]*\.?[0-9a-f]*p[-+]?\d+f?", bare) or (not hexadecimal and re.fullmatch(r"(\d+\.\d*|\.\d+|\d+(?=e))(e[-+]?\d+)?f?", bare)):
        text = bare.rstrip("f") if "p" in bare or not hexadecimal else bare
        number = float.fromhex(text) if hexadecimal else float(text)
        if not math.isfinite(number):
            raise Fault(f"{word[:40]} is beyond a double")
        return of_float(number, 32 if bare.endswith("f") else 64)
    found = re.fullmatch(r"(0x[0-9a-f]+|0b[01]+|0[0-7]*|[1-9]\d{0,30})(u?l{0,2}|l{1,2}u)", bare)
    if not found or len(word) > 80 or (found[2].count("l") == 2 and not re.search("ll|LL", word)):
        raise Fault(f"{word[:40]} is no number of C")
    base = {"0x": 16, "0b": 2}.get(bare[:2], 8 if bare[0] == "0" else 10)
    number = int(found[1][2:] if base in (16, 2) else found[1], base)
    widths = [32, long, 64][found[2].count("l") :]
    signs = (False,) if "u" in found[2] else (True,) if base == 10 else (True, False)
    for bits in widths:
        for is_signed in signs:
            if fits(number, bits, is_signed):
                return Value(number, bits, is_signed)
    raise Fault(f"{word[:40]} has more than 64 bits")


def letter_of(word):
    """The value of a character constant that is one letter of ASCII: of others it is not the same everywhere."""
    text = word[1:-1]
    found = re.fullmatch(r"\\(?:x([0-9a-fA-F]+)|([0-7]{1,3})|(.))", text)
    if not found:
        number = ord(text)
    elif found[3]:
        number = ESCAPES.get(found[3], 128)
    else:
        number = int(found[1] or found[2], 16 if found[1] else 8)
    if number > 127:
        raise Fault(f"{word} is no letter of ASCII")
    return Value(number, 32, True)


def tokens_of(text):
    """The tokens of an expression."""
    found, place = [], 0
    text = text.rstrip()
    while place < len(text):
        it = TOKEN.match(text, place)
        if not it:
            raise Fault("")
        found.append(it[1])
        place = it.end()
    return found


def replaced(tokens, defined, hidden=frozenset()):
    """The tokens with the texts of macros in place of their names; a name within its own text stays."""
    found = []
    for token in tokens:
        if token in defined and token not in hidden:
            found += replaced(tokens_of(defined[token]), defined, hidden | {token})
        else:
            found.append(token)
        if len(found) > 10000:
            raise Fault("")
    return found


class Reader:
    """Reads an expression from its tokens; `long` is how many bits a long has."""

    def __init__(self, tokens, long):
        self.tokens, self.long, self.depth = tokens, long, 0

    def next(self):
        return self.tokens[0] if self.tokens else ""

    def take(self, wanted=None):
        if not self.tokens or (wanted and self.tokens[0] != wanted):
            raise Fault("")
        return self.tokens.pop(0)

    def whole(self):
        value = self.choice()
        if self.tokens:
            raise Fault("")
        return value

    def choice(self):
        """An expression with `?` and `:`, or without."""
        value = self.level(0)
        if self.next() != "?":
            return value
        self.take()
        first = self.choice()
        self.take(":")
        pair = first, self.choice()
        # (both have the type that they have in common)
        return in_common(*pair)[value.number == 0]

    def level(self, number):
        """Operators of this level and of those that bind more."""
        if number == len(LEVELS):
            return self.single()
        value = self.level(number + 1)
        while self.next() in LEVELS[number]:
            value = combined(self.take(), value, self.level(number + 1))
        return value

    def single(self):
        self.depth += 1
        if self.depth > 100:
            raise Fault("")
        token = self.take()
        if token in "+-~!" and len(token) == 1:
            value = self.single()
            if token == "!":
                value = Value(int(value.number == 0), 32, True)
            elif value.is_float():
                value = combined("*", Value(-1 if token == "-" else 1, 32, True), value) if token != "~" else combined("|", value, value)
            elif token != "+":
                value = of_int(-value.number if token == "-" else ~value.number, value.bits, value.is_signed)
        elif token == "(" and self.next() in TYPE_WORDS:
            kind = self.type()
            value = converted_by(self.single(), *kind)
        elif token == "(":
            value = self.choice()
            self.take(")")
        else:
            value = self.constant(token)
        self.depth -= 1
        return value

    def constant(self, token):
        if token in KNOWN:
            return Value(*KNOWN[token], True)
        if token[0] == "'":
            return letter_of(token)
        if token[0].isdigit() or token[0] == ".":
            return number_of(token, self.long)
        raise Fault("")

    def type(self):
        """The type in the parentheses of a cast, whose first one is taken: bits, and a sign or None of floating point."""
        words = []
        while self.next() in TYPE_WORDS:
            words.append(self.take())
        self.take(")")
        words = [it for it in words if it not in ("const", "volatile")]
        longs, sign = words.count("long"), [it for it in words if it in ("signed", "unsigned")]
        rest = [it for it in words if it not in ("long", "signed", "unsigned")]
        if longs > 2 or len(sign) > 1 or len(rest) > 1 + (rest[:2] in (["short", "int"], ["int", "short"])):
            raise Fault("a cast to a type that is not read")
        kind = next((it for it in rest if it != "int"), "int")
        if kind in FLOATS and not longs and not sign:
            return FLOATS[kind], None, kind
        if kind in FLOATS or (longs and kind != "int") or (sign and kind.endswith("_t")):
            raise Fault("a cast to a type that is not read")
        bits, is_signed = WIDTHS[kind]
        bits = (32, self.long, 64)[longs] if longs else bits
        return bits, sign[0] == "signed" if sign else is_signed, kind


def converted_by(value, bits, is_signed, kind):
    """A value as a cast gives it; that of a plain char is not the same everywhere beyond 127."""
    if is_signed is None and kind == "char":
        if value.is_float() or not 0 <= value.number < 128:
            raise Fault("a cast to char of what is beyond 0 to 127, which is not the same everywhere")
        return Value(value.number, 32, True)
    return converted(value, bits, is_signed)


def constant_of(text, defined):
    """The value of a constant expression, and whether it has bits of words: a hexadecimal, binary or octal number, or a
    cast. `defined` has the texts of macros."""
    tokens = replaced(tokens_of(text), defined)
    if not tokens:
        raise Fault("")
    found = [Reader(list(tokens), long).whole() for long in (32, 64)]
    if found[0].number != found[1].number:
        raise Fault("its value depends on how many bits a long has")
    is_bits = any(re.match(r"0[xXbB0-7]", it) for it in tokens) or any(a == "(" and b in TYPE_WORDS for a, b in zip(tokens, tokens[1:]))
    return found[0], is_bits
