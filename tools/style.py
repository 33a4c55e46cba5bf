#!/usr/bin/env python3
"""Checks what the style of the repository asks of its text: the width of lines, the length of files, what definitions
import, crates that are named and not used, one word for one thing, and edits that apply. It prints each fault.

usage: style.py"""
import glob
import os
import re
import sys

TOP = os.path.dirname(os.path.dirname(os.path.abspath(__file__)))
WIDTH = 120  # columns
FRONT_PAGE = 130  # lines
LONGEST = 500  # lines of a file
PROOFS = re.compile(r'^(?:pub )?use Rattle\.dsp_\w+\.proofs\.')
# A word that has another meaning, the files that are looked at, and what to write.
WORDS = (
    (re.compile(r'\bStage\b'), 'crates/*/src/**/*.rt', 'a block at its place in a chain is a unit'),
    (re.compile(r'\bMAX_STAGES\b|\bstages?\b'), 'crates/*/s*/**/*', 'a lattice and a cascade have sections'),
    (re.compile(r'\b(?:feed|finish|keep|restore|fits|count)_row\b'), 'crates/dsp_chain/**/*', 'a chain has a line of units'),
)


def files(pattern):
    """The files of a pattern, with their lines."""
    for path in sorted(glob.glob(os.path.join(TOP, pattern), recursive=True)):
        if path.endswith(('.rt', '.antt', '.edit')) and '/out/' not in path:
            with open(path, encoding='utf-8') as file:
                yield os.path.relpath(path, TOP), file.read().split('\n')


def wide():
    for folder in ('specs', 'proofs'):
        for path, lines in files(f'crates/*/{folder}/**/*'):
            for number, line in enumerate(lines, 1):
                # (a text, and the name of one goal, may be as long as that)
                if len(line) > WIDTH and not line.startswith('use ') and '"' not in line:
                    yield f'{path}:{number}: {len(line)} columns'


def long_files():
    sources = [path for path, _ in files('crates/*/s*/**/*')] + [path for path, _ in files('crates/*/proofs/**/*')]
    tools = [os.path.relpath(path, TOP) for path in glob.glob(f'{TOP}/tools/**/*.[ps][yh]', recursive=True)]
    for path in sources + tools:
        with open(os.path.join(TOP, path), encoding='utf-8') as file:
            lines = len(file.readlines())
        if lines > LONGEST:
            yield f'{path}: {lines} lines'


def unused_crates():
    with open(f'{TOP}/crates.txt', encoding='utf-8') as file:
        rows = [line.split(':') for line in file if ':' in line]
    for crate, used in ((row[0].split()[0], row[1].split()) for row in rows):
        text = '\n'.join('\n'.join(lines) for _, lines in files(f'crates/{crate}/**/*'))
        yield from (f'crates.txt: {crate} does not use {name}' for name in used if not re.search(rf'\b{name}\b', text))


def proofs_in_definitions():
    for path, lines in files('crates/*/specs/**/*'):
        # (the proofs that ghost items of src/ cite stand in a file of their own, docs/DECISIONS.md)
        if path.endswith('/specs/Laws.antt'):
            continue
        for number, line in enumerate(lines, 1):
            if PROOFS.match(line):
                yield f'{path}:{number}: a definition imports a proof'


def words():
    for word, pattern, advice in WORDS:
        for path, lines in files(pattern):
            for number, line in enumerate(lines, 1):
                if word.search(line):
                    yield f'{path}:{number}: {advice}'


def edits():
    for path, lines in files('crates/*/must-fail/*.edit'):
        text = ''
        for line in lines:
            if line.startswith('file: '):
                crate = os.path.dirname(os.path.dirname(path))
                with open(os.path.join(TOP, crate, line[6:]), encoding='utf-8') as file:
                    text = file.read()
            if line.startswith('old: ') and text.count(line[5:]) != 1:
                yield f'{path}: its text stands {text.count(line[5:])} times'


def front_page():
    with open(f'{TOP}/README.md', encoding='utf-8') as file:
        lines = len(file.readlines())
    if lines > FRONT_PAGE:
        yield f'README.md: {lines} lines'


def main():
    faults = [fault for look in (wide, long_files, unused_crates, proofs_in_definitions, words, edits, front_page) for fault in look()]
    print(*faults, sep='\n', end='\n' if faults else '')
    return 1 if faults else 0


if __name__ == '__main__':
    sys.exit(main())
