#!/usr/bin/env python3
"""lines.py check | write: lines of at most 110 characters in all documents, tables and code blocks too.

lines.txt has the files that still have longer lines, each with their number, which may only fall: a file with more has failed, and
so has one with fewer until `write` has taken the smaller number down. A file that is not named there has none. `write` never takes
a larger number down. docs/PORT.md, which sets old statements beside new ones, is not looked at.
"""
import sys
from pathlib import Path

ROOT = Path(__file__).resolve().parents[2]
LIST = Path(__file__).with_suffix('.txt')
MOST = 110
HEADER = '# FILE: how many of its lines have more than 110 characters; python3 tests/gate/lines.py write lowers these\n'
APART = 'PORT.md'
DOCUMENTS = ('README.md', 'CHANGELOG.md', 'CONTRIBUTING.md', 'docs/**/*.md')


def longer(text):
    """How many lines of a text are too long."""
    return sum(len(line) > MOST for line in text.split('\n'))


def read_list(text):
    rows = [line.rpartition(':') for line in text.splitlines() if line.strip() and not line.startswith('#')]
    return {file.strip(): int(number) for file, _, number in rows}


def wrong(found, listed):
    """What is wrong with the numbers found, beside those of the list."""
    said = []
    for file in sorted({*found, *listed}):
        now, before = found.get(file, 0), listed.get(file, 0)
        if now > before:
            said.append(f'{file} has {now} lines of more than {MOST} characters, and lines.txt lets it have {before}')
        elif now < before:
            said.append(f'{file} has {now} lines of more than {MOST} characters, and lines.txt {before}: lines.py write')
    return said


def lowered(found, listed):
    """The list with smaller numbers taken down."""
    kept = {file: min(found.get(file, 0), number) for file, number in listed.items()}
    return HEADER + ''.join(f'{file}: {number}\n' for file, number in sorted(kept.items()) if number)


def wrong_sample():
    """Which part of the sample is read wrongly."""
    parts = {
        'length': longer('a' * 110 + '\n' + 'ä' * 110 + '\n| ' + 'a' * 109 + '\n    ' + 'a' * 107) == 2,
        'more': len(wrong({'a': 3}, {'a': 2})) == 1 and len(wrong({'b': 1}, {})) == 1,
        'fewer': len(wrong({'a': 1}, {'a': 2})) == 1 and len(wrong({}, {'gone': 2})) == 1,
        'as many': wrong({'a': 2, 'b': 0}, {'a': 2}) == [],
        'lowered': read_list(lowered({'a': 1, 'b': 9, 'c': 4}, {'a': 2, 'b': 3, 'gone': 2})) == {'a': 1, 'b': 3},
    }
    return [f'lines.py reads its sample wrongly: {name}' for name, right in parts.items() if not right]


def found_in(root):
    """The documents, each with its number of longer lines."""
    files = sorted({file for pattern in DOCUMENTS for file in root.glob(pattern) if file.name != APART})
    return {file.relative_to(root).as_posix(): longer(file.read_text(encoding='utf-8')) for file in files}


def said(root):
    """What is wrong."""
    found = found_in(root)
    none = [] if found else ['lines.py finds no document']
    return wrong_sample() + none + wrong(found, read_list(LIST.read_text(encoding='utf-8')))


if __name__ == '__main__':
    if sys.argv[1:] == ['write']:
        LIST.write_text(lowered(found_in(ROOT), read_list(LIST.read_text(encoding='utf-8'))), encoding='utf-8')
    elif sys.argv[1:] == ['check']:
        wrong_now = said(ROOT)
        print('\n'.join([*wrong_now, f'{len(wrong_now)} wrong']))
        sys.exit(1 if wrong_now else 0)
    else:
        sys.exit(__doc__)
