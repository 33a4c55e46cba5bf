#!/usr/bin/env python3
"""Checks that each function of the examples of docs/LIBRARY.md is in a test or a program of crates/, word by word.

The tests call assert_same! where the page has assert_eq!, assert_holds! where it has assert!, and assert_gives! where it
has an assert_eq! of the count and one of the output. It prints the functions that are not found.
"""
import glob
import os
import re
import sys

TOP = os.path.dirname(os.path.dirname(os.path.abspath(__file__)))


def plain(text):
    """The text without comments and differences of white space, with the plain forms of what a test asserts."""
    text = re.sub(r"\s+", "", re.sub(r"//[^\n]*", "", text)).replace(",)", ")")
    text = text.replace("assert_same!", "assert_eq!").replace("assert_holds!", "assert!").replace("!(&rt;", "!(rt;")
    gives = r"assert_gives!\((\w+);(.*?),(\d+),(\w+),(\[[^\]]*\]|\w+)\);"
    return re.sub(gives, r"assert_eq!(\1;\2,\3);assert_eq!(\1;\4,\5);", text)


def functions(text):
    """The functions of an example, by name."""
    return {it[1]: it[0] for it in re.finditer(r"^(?:#\[test\]\n)?fn (\w+).*?^}", text, re.M | re.S)}


def main():
    with open(f"{TOP}/docs/LIBRARY.md") as file:
        examples = re.findall(r"^```rust\n(.*?)^```", file.read(), re.M | re.S)
    sources = []
    for path in glob.glob(f"{TOP}/crates/*/src/**/*.rt", recursive=True):
        with open(path) as file:
            sources.append(plain(file.read()))
    missing = [name for example in examples for name, text in functions(example).items()
               if not any(plain(text) in source for source in sources)]  # fmt: skip
    for name in missing:
        print(f"docs/LIBRARY.md: {name} is in no test")
    return 1 if missing or not examples else 0


if __name__ == "__main__":
    sys.exit(main())
