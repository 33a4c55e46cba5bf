#!/usr/bin/env python3
"""Writes the man page dspfx.1 to standard output, from tools/help.txt, docs/USE.md and VERSION.

Commands come from tools/help.txt, and the exit statuses from the table in docs/USE.md.
"""
import os
import re
import sys
import textwrap

TOP = os.path.dirname(os.path.dirname(os.path.abspath(__file__)))
DATE = "2026-11-29"


def read(name):
    with open(f"{TOP}/{name}", encoding="utf-8") as file:
        return file.read()


def roff(text):
    """A text in lines, with what roff would read otherwise."""
    text = text.replace("\\", "\\e").replace("-", "\\-").replace("./dspfx", "dspfx")
    lines = textwrap.wrap(text, 76, break_long_words=False, break_on_hyphens=False)
    return "\n".join(f"\\&{line}" if line[:1] in (".", "'") else line for line in lines)


def plain(text):
    """A line of Markdown without its marks."""
    return re.sub(r"\[([^]]*)\]\([^)]*\)", r"\1", text).replace("`", "").replace("\\|", "|").strip()


def sections(text):
    """The parts of the help: the text under each heading that stands at the left."""
    found, name = {}, ""
    for line in text.split("\n"):
        if line and not line.startswith(" "):
            name = line
        found.setdefault(name, []).append(line)
    return {name: lines[1:] for name, lines in found.items()}


def rows(lines):
    """Two columns of the help, with the example that may follow each."""
    for line in lines:
        if re.match(r" {2}\S", line):
            term, _, rest = line.strip().partition("  ")
            yield term, rest.strip(), False
        elif line.strip():
            yield line.strip(), "", True


def listed(lines):
    out = []
    for term, text, is_example in rows(lines):
        out += [".br", f"\\fI{roff(term)}\\fR"] if is_example else [".TP", f"\\fB{roff(term)}\\fR", roff(text)]
    return out


def statuses(text):
    """The rows of the table of statuses: status, report and meaning. (70 is that of ./dspfx itself.)"""
    for line in re.findall(r"^\| (?!70 )\d+ \|.*$", text, re.M):
        yield [plain(cell) for cell in line.strip("| ").split("|")]


def main():
    help_text, parts = read("tools/help.txt"), sections(read("tools/help.txt"))
    head = help_text.split("\n", 1)[0]
    out = [f'.TH DSPFX 1 "{DATE}" "dspfx {read("VERSION").strip()}" "User Commands"', ".SH NAME",
           roff("dspfx \0 " + head.removeprefix("dspfx ").rstrip(".")).replace("\0", "\\-"), ".SH SYNOPSIS"]  # fmt: skip
    for term, _, is_example in rows(parts["Commands of the program"]):
        if not is_example:
            out += [f".B dspfx {roff(term)}", ".br"]
    out = out[:-1] + [".SH DESCRIPTION", roff(head), roff("The samples go through the blocks of the script, and come out to the last bit as the definitions of the blocks say."),
                      ".SH COMMANDS", *listed(parts["Commands of the program"]), ".SH EXIT STATUS"]  # fmt: skip
    for status, report, meaning in statuses(read("docs/USE.md")):
        out += [".TP", f"\\fB{status}\\fR", roff(f"{report}: {meaning}" if report else meaning)]
    out += [".PP", roff("The program writes its report alone. What is said of standard error is of the command in the repository."),
            ".SH FILES", roff("A script is text, docs/SCRIPT.md describes it; samples are raw words or WAVE files, docs/WAVE.md."),
            ".SH SEE ALSO", roff("docs/USE.md has recipes, docs/DEVICES.md the Arm cores on which the same bits come out.")]  # fmt: skip
    print("\n".join(out))


if __name__ == "__main__":
    sys.exit(main())
