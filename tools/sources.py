#!/usr/bin/env python3
"""Tells whether a program in build/ was made of the sources as they are, by a sum of their contents, for a processor
that this machine has.

    tools/sources.py NAME     ends with 0 where build/NAME is current, and then gives it the time of now, so that the
                              wrapper finds by times alone that no source is newer
"""
import hashlib
import os
import sys

TOP = os.path.dirname(os.path.dirname(os.path.abspath(__file__)))
FOLDER = f"{TOP}/build"
OLDER, NEWER = "x86-64-v2", "x86-64-v3"
# What x86-64-v3 has above x86-64-v2, as Linux names it.
NEWER_HAS = {"abm", "avx", "avx2", "bmi1", "bmi2", "f16c", "fma", "movbe", "xsave"}


def is_newer():
    """Whether this machine's processor is an x86-64-v3."""
    try:
        with open("/proc/cpuinfo") as file:
            flags = next((line.partition(":")[2].split() for line in file if line.startswith("flags")), [])
    except OSError:
        return False
    return NEWER_HAS <= set(flags)


def built_for(name):
    """The processor that build/NAME is for."""
    try:
        with open(f"{FOLDER}/{name}.cpu") as file:
            return file.read().strip()
    except FileNotFoundError:
        return OLDER


def files_of(crate):
    """The files that a crate is made of."""
    for part in ("src", "specs", "proofs"):
        for folder, folders, names in os.walk(f"{TOP}/crates/{crate}/{part}"):
            folders.sort()
            yield from (f"{folder}/{name}" for name in sorted(names))


def files():
    """The files that the program is made of."""
    yield f"{TOP}/crates.txt"
    for crate in sorted(os.listdir(f"{TOP}/crates")):
        yield from files_of(crate)


def total():
    """A sum of the names and contents of all sources."""
    whole = hashlib.sha256()
    for path in files():
        with open(path, "rb") as file:
            content = file.read()
        whole.update(f"{os.path.relpath(path, TOP)} {len(content)}\n".encode() + content)
    return whole.hexdigest()


def keep(name, part, made_of, cpu=OLDER):
    """Puts a program into build/ with the sum of the sources that it was made of, and what it is built for."""
    for kind, text in (("sum", made_of), ("cpu", cpu)):
        with open(f"{FOLDER}/{name}.{kind}", "w") as file:
            file.write(text + "\n")
    os.replace(part, f"{FOLDER}/{name}")


def is_current(name):
    try:
        with open(f"{FOLDER}/{name}.sum") as file:
            is_here = os.access(f"{FOLDER}/{name}", os.X_OK) and (built_for(name) == OLDER or is_newer())
            return is_here and file.read().strip() == total()
    except FileNotFoundError:
        return False


if __name__ == "__main__":
    if not is_current(sys.argv[1]):
        sys.exit(1)
    os.utime(f"{FOLDER}/{sys.argv[1]}")
