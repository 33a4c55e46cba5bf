#!/usr/bin/env python3
"""Checks the links of Markdown files: each file that is linked exists, and a line that is linked under a name in
code style is the one that declares the name. With --mend first, lines that moved are written anew.

usage: links.py [--mend] FILE.."""
import os
import re
import sys

LINK = re.compile(r'\[(`?)([^\]`]*)`?\]\(([^)#\s]*)(?:#L(\d+))?\)')
DECLARED = r'^(?:abbrev )?(?:pub(?:\([a-z]+\))? )?(?:const )?(?:fn |struct |enum |trait |record |data )?%s(?= :| \(|\(|<|;| \{|$)'


def declared_at(path, name):
    """The line of a file that declares a name, counted from 1, or None."""
    pattern = re.compile(DECLARED % re.escape(name))
    with open(path, encoding='utf-8') as file:
        for number, line in enumerate(file, 1):
            if pattern.match(line.strip()):
                return number
    return None


def main(words):
    mend = words[:1] == ['--mend']
    if not words[mend:]:
        print('usage: links.py [--mend] FILE..', file=sys.stderr)
        return 2
    faults = 0
    for page in words[mend:]:
        with open(page, encoding='utf-8') as file:
            text = file.read()

        def look(link):
            nonlocal faults
            code, name, target, line = link.groups()
            if not target or '://' in target:
                return link.group(0)
            path = os.path.join(os.path.dirname(page), target)
            found = os.path.exists(path)
            if found and line and code:
                number = declared_at(path, name)
                if number and mend:
                    return f'[`{name}`]({target}#L{number})'
                found = number == int(line)
            if not found:
                faults += 1
                print(f'{page}: {link.group(0)}')
            return link.group(0)

        mended = LINK.sub(look, text)
        if mended != text:
            with open(page, 'w', encoding='utf-8') as file:
                file.write(mended)
    return 1 if faults else 0


if __name__ == '__main__':
    sys.exit(main(sys.argv[1:]))
