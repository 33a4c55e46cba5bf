#!/usr/bin/env python3
"""Lists the definitions that the contract of a function reaches, file by file, with their lines, comments among
them, and those that have no comment; and counts them.

usage: reached.py [SOURCE NAME]     (crates/dsp_cli/src/top.rt run)"""
import os
import re
import signal
import sys

TOP = os.path.dirname(os.path.dirname(os.path.abspath(__file__)))
WORD = re.compile(r"[A-Za-z◌_][\w◌⟦⟧>≤.-]*|[^\sA-Za-z0-9_.,;(){}\[\]]+")
ITEM = re.compile(r'(?:unfoldable )?(?:abbrev )?(?:pub )?(?:record |data )?(?:\(?)([^\s:(]+)(?: |$)')
IMPORT = re.compile(r'(?:unfoldable )?(?:ghost )?(?:pub )?use Rattle\.([a-z_0-9]+)\.specs\.([A-Za-z_.]+?)(?:\.\{([^}]*)\}| as (\w+))?;?$')


class Module:
    """A file of specs: what it imports, and its items with their lines and words."""

    def __init__(self, path):
        self.imports, self.whole, self.items = {}, {}, {}
        with open(path, encoding='utf-8') as file:
            lines = file.read().splitlines()
        name, start, comment, both = None, 0, None, False
        for number, line in enumerate(lines + ['-- ----']):
            used = IMPORT.match(line)
            if used:
                self.note(used)
            if line.startswith(('use ', 'pub use', 'unfoldable use', 'unfoldable pub use')):
                comment = None
            begins = line and not line[0].isspace() and not line.startswith(('use ', 'pub use', 'unfoldable use', 'unfoldable pub use', 'module', '}'))
            if not begins:
                continue
            if line.startswith('--'):
                if comment is None:
                    comment = number
                if name:
                    name = self.close(name, start, number, lines)
                if line.startswith('-- ----'):
                    comment = None
                continue
            found = ITEM.match(line)
            heads = line.startswith(('abbrev', 'pub', 'unfoldable')) or re.match(r'[^\s:(]+ :', line)
            if heads and found and found.group(1) != name:
                if name:
                    self.close(name, start, number if comment is None else comment, lines)
                name, start = found.group(1), number if comment is None else comment
                self.items.setdefault(name, (0, set(), both or comment is not None))
                # (a comment that says `.., and ..` is that of a pair, as a way to write and the way to read it)
                both = comment is not None and ', and ' in ' '.join(lines[comment:number])
            comment = None
        if name:
            self.close(name, start, len(lines), lines)

    def note(self, used):
        crate, module, names, alias = used.groups()
        if names is None:
            self.whole[alias or module.split('.')[-1]] = (crate, module)
            return
        for item in names.split(','):
            name, _, other = item.strip().partition(' as ')
            self.imports[other or name] = (crate, module, name)

    def close(self, name, start, end, lines):
        body = [line for line in lines[start:end] if line.strip()]
        code = ' '.join(line for line in body if not line.lstrip().startswith('--'))
        _, words, commented = self.items[name]
        self.items[name] = (len(body), words | set(WORD.findall(code)), commented)


def path_of(crate, module):
    return os.path.join(TOP, 'crates', crate, 'specs', *module.split('.')) + '.antt'


def main(words):
    source, function = words or ['crates/dsp_cli/src/top.rt', 'run']
    with open(os.path.join(TOP, source), encoding='utf-8') as file:
        text = file.read()
    modules = {}

    def module(crate, name):
        key = (crate, name)
        if key not in modules:
            path = path_of(crate, name)
            modules[key] = Module(path) if os.path.exists(path) else None
        return modules[key]

    start = text.index(f'pub fn {function}')
    clauses = set(WORD.findall(text[text.index('\n    ensures', start):text.index('\n{', start)]))
    todo, seen = [], set()
    for line in text.splitlines():
        used = IMPORT.match(line)
        if used and used.group(3):
            for item in used.group(3).split(','):
                name, _, other = item.strip().partition(' as ')
                if (other or name) in clauses:
                    todo.append((used.group(1), used.group(2), name))
    while todo:
        crate, name, item = todo.pop()
        here = module(crate, name)
        if (crate, name, item) in seen or here is None:
            continue
        if item not in here.items:
            if item in here.imports:
                todo.append(here.imports[item])
            continue
        seen.add((crate, name, item))
        for word in here.items[item][1]:
            first, _, rest = word.partition('.')
            if first in here.whole and rest:
                todo.append(here.whole[first] + (rest.split('.')[0],))
            elif first in here.items and first != item:
                todo.append((crate, name, first))
            elif first in here.imports:
                todo.append(here.imports[first])
    total = {}
    bare = []
    for key in sorted({(c, m) for c, m, _ in seen}):
        items = sorted(i for c, m, i in seen if (c, m) == key)
        count = sum(modules[key].items[i][0] for i in items)
        total[key[0]] = total.get(key[0], 0) + count
        bare += [f'{key[0]}.{key[1]}.{i}' for i in items if not modules[key].items[i][2]]
        print(f'{key[0]}.{key[1]}: {count} lines: {" ".join(items)}')
    print(f'without a comment: {len(bare)}: {" ".join(bare)}')
    print(', '.join(f'{crate} {count}' for crate, count in total.items()) + f': {sum(total.values())} lines')


if __name__ == '__main__':
    signal.signal(signal.SIGPIPE, signal.SIG_DFL)  # whoever reads no further ends it without a word
    main(sys.argv[1:])
