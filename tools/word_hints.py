"""Says what is wrong with the words of a command. tools/explain.py calls it after status 1."""
import difflib
import re

from script_hints import named

MOST_FRAMES, MOST_NUMBER = 16777216, 4294967295

COMMANDS = {
    "run": "SCRIPT IN OUT [block N]",
    "bank": "SCRIPT IN OUT [block N]",
    "gen": "SEED FRAMES SCRIPT OUT",
    "print": "SCRIPT",
    "convert": "wave au IN OUT, or convert au wave IN OUT",
    "resume": "stop K SCRIPT IN OUT, or resume go STATE IN OUT",
    "check": "SCRIPT IN OUT",
}
OF_WRAPPER = ("prove", "test", "help", "--help", "-h", "--version")


def count_fault(name, word, most):
    """What is wrong with a number on the command line, if anything is."""
    if not re.fullmatch(r"[0-9]{1,10}", word):
        return f"{name} has one to ten digits, and here is {named(word)}"
    return f"{name} is at most {most}, and here is {word}" if int(word) > most else None


def words_fault(words):
    """What is wrong with these words."""
    if not words:
        return "no command: ./dspfx --help lists them"
    name, *rest = words
    if name in OF_WRAPPER:
        return f"{name} takes no further words"
    if name in ("version", "-v", "-V"):
        return f"{name} is no command; --version is one"
    if name not in COMMANDS:
        near = difflib.get_close_matches(name, COMMANDS, 1)
        return f"{named(name)} is no command" + (f"; {near[0]} is one" if near else f": {', '.join(COMMANDS)}")
    odd = next((word for word in words if re.search("[\ud800-\udfff]", word)), None)
    if odd:
        return f"words are UTF-8, and {named(odd)} is none"
    if "" in rest:
        return f"word {words.index('', 1)} after {name} is empty (a variable that is not set?)"
    option = next((word for word in rest if re.match(r"--?[a-z]", word)), None)
    usage = f"{name} {COMMANDS[name]}"
    taken = {"run": 3, "bank": 3, "gen": 4, "print": 1, "convert": 4, "resume": 4 if rest[:1] == ["go"] else 5, "check": 3}
    if option and len(rest) != taken[name]:
        more = "; a block length is `block N` at the end" if "block" in option else ""
        return f"there are no options, and {option} is one: {usage}{more}"
    faults = {"run": run_fault, "bank": run_fault, "gen": gen_fault, "print": print_fault, "convert": convert_fault,
              "resume": resume_fault, "check": check_fault}  # fmt: skip
    return faults[name](rest, usage)


def run_fault(rest, usage):
    if len(rest) == 5 and rest[3] == "block":
        fault = count_fault("N of `block N`", rest[4], MOST_NUMBER)
        if fault:
            return fault
    elif len(rest) == 5:
        return f"a block length is `block N`, and here is `{rest[3]} {rest[4]}`: {usage}"
    elif len(rest) != 3:
        return f"{usage.split()[0]} takes 3 words, or 5 with `block N`, and here are {len(rest)}: {usage}"
    return same_words(rest[0], rest[1], rest[2])


def check_fault(rest, usage):
    return f"check takes 3 words, and here are {len(rest)}: {usage}" if len(rest) != 3 else None


def gen_fault(rest, usage):
    if len(rest) != 4:
        return f"gen takes 4 words, and here are {len(rest)}: {usage}"
    faults = (count_fault("SEED", rest[0], MOST_NUMBER), count_fault("FRAMES of gen", rest[1], MOST_FRAMES))
    return next(filter(None, faults), None) or same_words(rest[2], None, rest[3])


def print_fault(rest, usage):
    return f"print takes 1 word, and here are {len(rest)}: {usage}" if len(rest) != 1 else None


def convert_fault(rest, usage):
    if len(rest) != 4:
        return f"convert takes 4 words, and here are {len(rest)}: {usage}"
    if rest[:2] not in (["wave", "au"], ["au", "wave"]):
        return f"convert goes `wave au` or `au wave`, and here is `{rest[0]} {rest[1]}`"
    return same_words(None, rest[2], rest[3])


def resume_fault(rest, usage):
    if rest[:1] == ["stop"]:
        if len(rest) != 5:
            return f"resume stop takes 4 words, and here are {len(rest) - 1}: resume stop K SCRIPT IN OUT"
        return count_fault("K", rest[1], MOST_NUMBER) or same_words(rest[2], rest[3], rest[4])
    if rest[:1] == ["go"]:
        if len(rest) != 4:
            return f"resume go takes 3 words, and here are {len(rest) - 1}: resume go STATE IN OUT"
        return same_words(rest[1], rest[2], rest[3], of="STATE")
    return f"resume is followed by stop or go: {usage}"


def same_words(script, source, output, of="SCRIPT"):
    """What is wrong where two words name one file."""
    for what, path in ((of, script), ("IN", source)):
        if path == output:
            return f"OUT is {what}, {named(path)}, which would be lost: name another output"
    return None


def explain_words(words):
    yield words_fault(words) or "./dspfx --help lists the commands"
