#!/usr/bin/env python3
"""Turns the names of this repository that its pages, and remarks of its tests and scripts, cite: once, behind respell.py.

usage: python3 tools/respell_docs.py          at the top; rewrites pages and remarks in place and prints each name that turned, with its number

A name turns inside backticks alone, and only where it has a dash or a capital letter within: names of functions, of edits and of files keep their
spelling, and so do paths and commands. A projection is written tight. Of what tools/respelled.tsv says, the plain spelling and the one with _lem it takes the one that a file
declares which the same row of a table cites, else the first that any file declares. A paragraph that got too long a line is filled anew.
"""
import collections
import re
import sys
import textwrap
from pathlib import Path

ROOT = Path(__file__).resolve().parents[1]
sys.path[:0] = [str(ROOT / 'tests' / 'gate')]
sys.dont_write_bytecode = True
import claims  # noqa: E402
import declarations  # noqa: E402

PAGES = ('README.md', 'CHANGELOG.md', 'CONTRIBUTING.md', 'docs/*.md', 'docs/changes/*.md', 'wip/README.md', 'tests/gate/*.txt')
# pages of the calls, the command and its files: what has a dash there is a word of these
APART = {'PORT.md', 'JSON.md', 'FORMAT.md', 'GUIDE.md', 'CLUSTER.md'}
REMARKS = ('tests/**/*.rs', 'tests/*.py', 'tool/**/*.rs', 'python/**/*.py', 'tests/backends/main.rattle', 'include/tarczolin.h')
SPAN = re.compile(r'`[^`\n]+`')
WORD = re.compile(r"[^\s(){}\[\];,.:=`\"|&!<>/]+")
PATH = re.compile(r'^[\w.\-/]*(?:/|\.(?:antt|rt|md|py|txt|rs|h|svg|hex|edit|asm|json)\b)')
COMMAND = re.compile(r'^(?:rt|make|python3|cargo|cc|c\+\+|tarczolin|git|parallel)\b')
PROJECTION = re.compile(r"(?<=[\w)']) \.(?=[a-z0-9])")
OLD = re.compile(r"^[a-z]\w*(?:-|[a-z0-9][A-Z])")
MOST = 110


def spelled(name):
    """A name in snake case."""
    return re.sub(r'([a-z0-9])([A-Z])', r'\1_\2', name).replace('-', '_').lower()


class Names:
    """What is declared today, by file and altogether, and what tools/respelled.tsv says."""

    def __init__(self, root):
        self.by_file = {file.path: {item.place[2] for item in file.declared} for file in declarations.files(root).values()}
        self.all = set().union(*self.by_file.values())
        rows = (line.split('\t') for line in (root / 'tools' / 'respelled.tsv').read_text(encoding='utf-8').splitlines())
        self.table = dict(rows)

    def of(self, old, paths):
        """Today's spelling of a name, or the name."""
        if not OLD.match(old) or old in self.all:
            return old
        plain = spelled(old)
        ways = list(dict.fromkeys([self.table.get(old, plain), plain, f'{plain}_lem']))
        cited = set().union(*(self.by_file.get(path, ()) for path in paths))
        return next((way for known in (cited, self.all) for way in ways if way in known), old)


def turned(line, names, seen, is_page):
    """The line with the names in its code spans turned."""
    paths = claims.paths_in(line) if is_page else ()

    def span(match):
        inside = match[0][1:-1]
        if PATH.match(inside) or COMMAND.match(inside):
            return match[0]

        def word(one):
            new = names.of(one[0], paths)
            if new != one[0]:
                seen[one[0], new] += 1
            return new
        return f'`{PROJECTION.sub(".", WORD.sub(word, inside))}`'
    return SPAN.sub(span, line)


def filled(block):
    """The lines of a paragraph or of a list's entry, filled anew."""
    first = re.match(r'\s*(?:[-*] |\d+\. )?', block[0])[0]
    text = ' '.join(line.strip() for line in block)[len(first.strip()) + bool(first.strip()):]
    return textwrap.wrap(text, MOST, initial_indent=first, subsequent_indent=' ' * len(first), break_long_words=False, break_on_hyphens=False)


def refilled(lines):
    """The lines of a page; where one of a paragraph is too long that paragraph is filled anew."""
    found, block, inside = [], [], False

    def close():
        found.extend(filled(block) if any(len(line) > MOST for line in block) else block)
        block.clear()
    for line in lines:
        inside ^= line.startswith('```')
        prose = line.strip() and not inside and not line.startswith(('|', '#', '    ', '<', '```', '!['))
        if not prose or re.match(r'\s*(?:[-*] |\d+\. )', line):
            close()
        (block if prose else found).append(line)
    close()
    return found


def files(root, patterns):
    return sorted({file for pattern in patterns for file in root.glob(pattern) if 'target' not in file.parts and file.name not in APART})


def main():
    names, seen = Names(ROOT), collections.Counter()
    pages = files(ROOT, PAGES)
    for file in [*pages, *files(ROOT, REMARKS)]:
        old = file.read_text(encoding='utf-8').split('\n')
        new = [turned(line, names, seen, file in pages) for line in old]
        if new != old:
            new = refilled(new) if file.suffix == '.md' else new
            file.write_text('\n'.join(new), encoding='utf-8')
    for (old, new), number in sorted(seen.items()):
        print(f'{number:4} {old} {new}')
    for file in pages:
        for span in SPAN.findall(file.read_text(encoding='utf-8')):
            left = [word for word in WORD.findall(span[1:-1]) if OLD.match(word)] if not PATH.match(span[1:-1]) and not COMMAND.match(span[1:-1]) else []
            for word in left:
                print(f'left as it is in {file.relative_to(ROOT)}: {word}')


if __name__ == '__main__':
    main()
