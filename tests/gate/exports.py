#!/usr/bin/env python3
"""exports.py check | write: the crate tarczolin_c, through which C calls the functions of the crates c_*.

A crate is a library, which other crates use, or a static library, whose functions C calls, and not both. So each call that
include/tarczolin.h declares is written twice: in a crate c_*, and in tarczolin_c with the same signature and clauses, where its body is the
call of that one. `write` makes the files of tarczolin_c of those of the crates c_*, a module for each module; `check` says whether they are
these, and whether their functions are the calls of the header, each once.
"""
import re
import sys
from pathlib import Path

ROOT = Path(__file__).resolve().parents[2]
CRATE = 'tarczolin_c'
CALL = re.compile(r'^(?:#\[unsafe\(no_mangle\)\]\n)?pub (?:extern "C" )?fn (tarczolin_\w+)\((.*?)\) -> u64\n(.*?)^\{\n.*?^\}\n', re.M | re.S)
GHOST_USE = re.compile(r'^ghost use ([^;{]+)\.\{([^}]*)\};\n', re.M)
USE = re.compile(r'^use (\w+)::(?:(\w+)|\{([^}]*)\});\n', re.M)
WORD = re.compile(r"[^\s(){};,:.&\[\]]+")
DECLARED = re.compile(r'^uint64_t (tarczolin_\w+)\(', re.M)
WIDTH = 100


def calls_of(text):
    """The calls of a file of code: name, parameters, clauses."""
    return [match.groups() for match in CALL.finditer(text)]


def parameters(listed):
    return re.findall(r'(\w+): ', listed)


def brought(line, items, words):
    """A `use` line with those of its items that are among these words, or nothing."""
    kept = [item for item in re.split(r',\s*', items.strip()) if item and any(part in words for part in named_by(item))]
    return line(kept) if kept else ''


def named_by(item):
    """The words that an item of a `use` line stands for: an operator's signs, or the name."""
    return [part for part in item.split('◌') if part] if '◌' in item else [item.split()[-1]]


def ghost_line(path):
    return lambda items: f'ghost use {path}.{{{", ".join(items)}}};\n'


def use_line(crate):
    return lambda items: f'use {crate}::{items[0] if len(items) == 1 else "{" + ", ".join(items) + "}"};\n'


def written(crate, text):
    """The module of tarczolin_c for a file of a crate c_*, or nothing where that file has no call."""
    calls = calls_of(text)
    if not calls:
        return ''
    words = set(WORD.findall(' '.join(listed + clauses for _, listed, clauses in calls)))
    head = text.partition('\n')[0]
    ghosts = ''.join(brought(ghost_line(path), items, words) for path, items in GHOST_USE.findall(text))
    types = set(re.findall(r'\b[A-Z]\w*', ' '.join(listed for _, listed, _ in calls)))
    uses = ''.join(brought(use_line(used), one or several, types) for used, one, several in USE.findall(text))
    parts = [f'{head}\n{ghosts}', uses] if uses else [f'{head}\n{ghosts}']
    for name, listed, clauses in calls:
        body = f'    {crate}::{name}({", ".join(parameters(listed))})\n'
        if len(body) > WIDTH + 1:
            raise ValueError(f'the call of {name} is too long for a line')
        parts.append(f'#[unsafe(no_mangle)]\npub extern "C" fn {name}({listed}) -> u64\n{clauses}{{\n{body}}}\n')
    return '\n'.join(parts)


def root_of(modules):
    """The root file: a line for each module."""
    lines = ''.join(f'// {", ".join(names)}: of {crate}.\nmod {module};\n' for module, crate, names in modules)
    return ('// The calls for C: a function of a crate c_* each, with its signature and its clauses. No function of another crate is called from C.\n'
            f'//\n// Written by tests/gate/exports.py.\n#![tactic(auto)]\n\n{lines}')


def all_written(files):
    """The files of tarczolin_c by their names; `files` has the texts of the crates c_*, by crate and module."""
    found, modules = {}, []
    for (crate, module), text in sorted(files.items()):
        new = written(crate, text)
        if new:
            if f'{module}.rt' in found:
                raise ValueError(f'two modules are named {module}')
            found[f'{module}.rt'] = new
            modules.append((module, crate, [name for name, _, _ in calls_of(text)]))
    found['lib.rt'] = root_of(modules)
    return found


def wrong(files, there, header):
    """What is wrong: with the files of tarczolin_c that there are, and with the calls of the header."""
    right = all_written(files)
    said = [f'crates/{CRATE}/src/{name} is not as written: python3 tests/gate/exports.py write'
            for name in sorted({*right, *there}) if right.get(name) != there.get(name)]
    found = sorted(name for text in there.values() for name, _, _ in calls_of(text))
    declared = sorted(DECLARED.findall(header))
    said += [f'include/tarczolin.h declares {name}, which {CRATE} has not' for name in declared if name not in found]
    said += [f'{CRATE} has {name}, which include/tarczolin.h does not declare' for name in found if name not in declared]
    said += [f'{CRATE} has {name} twice' for name in {name for name in found if found.count(name) > 1}]
    return said


SAMPLE = """// Lists.
ghost use Rattle.std.specs.Prelude.{◌≡◌, ◌+◌, length};
ghost use Rattle.a.specs.B.{inner_of};
ghost use Rattle.a.specs.A.{answer, answer_of};

use a::{Inner, Lent};
use b::answer;

// Not for C.
pub fn inner(x: usize) -> usize
    ensures { result ≡ inner_of x }
{
    x
}

// For C.
#[unsafe(no_mangle)]
pub extern "C" fn tarczolin_one(
    file: &[u8],
    lent: &mut [Lent],
) -> u64
    ensures { result ≡ answer file.now (length lent.old) }
{
    if answer(file) {
        return 1;
    }
    0
}
"""
SAMPLE_WRITTEN = """// Lists.
ghost use Rattle.std.specs.Prelude.{◌≡◌, length};
ghost use Rattle.a.specs.A.{answer};

use a::Lent;

#[unsafe(no_mangle)]
pub extern "C" fn tarczolin_one(
    file: &[u8],
    lent: &mut [Lent],
) -> u64
    ensures { result ≡ answer file.now (length lent.old) }
{
    c_a::tarczolin_one(file, lent)
}
"""


def wrong_sample():
    """Which part of the sample is read wrongly."""
    files = {('c_a', 'lists'): SAMPLE, ('c_a', 'lib'): '// Calls.\nmod lists;\n'}
    right = all_written(files)
    weaker = {**right, 'lists.rt': right['lists.rt'].replace('length lent.old', '0')}
    header = 'uint64_t tarczolin_one(const uint8_t *file);\n'
    parts = {
        'written': right['lists.rt'] == SAMPLE_WRITTEN and sorted(right) == ['lib.rt', 'lists.rt'],
        'of what is written': written('c_a', SAMPLE_WRITTEN) == SAMPLE_WRITTEN,
        'right': wrong(files, right, header) == [],
        'another clause': len(wrong(files, weaker, header)) == 1,
        'not declared': len(wrong(files, right, '')) == 1 and len(wrong(files, right, header + header.replace('one', 'two'))) == 1,
        'a file more': len(wrong(files, {**right, 'more.rt': ''}, header)) == 1,
    }
    return [f'exports.py reads its sample wrongly: {name}' for name, right in parts.items() if not right]


def files_of(root):
    """The texts of the crates c_*, by crate and module."""
    return {(file.parts[-3], file.stem): file.read_text(encoding='utf-8') for file in root.glob('crates/c_*/src/*.rt')}


def said(root):
    """What is wrong."""
    there = {file.name: file.read_text(encoding='utf-8') for file in root.glob(f'crates/{CRATE}/src/*.rt')}
    return wrong_sample() + wrong(files_of(root), there, (root / 'include' / 'tarczolin.h').read_text(encoding='utf-8'))


def write(root):
    """Writes the files of tarczolin_c."""
    folder = root / 'crates' / CRATE / 'src'
    folder.mkdir(parents=True, exist_ok=True)
    right = all_written(files_of(root))
    for file in folder.glob('*.rt'):
        if file.name not in right:
            file.unlink()
    for name, text in right.items():
        (folder / name).write_text(text, encoding='utf-8')


if __name__ == '__main__':
    if sys.argv[1:] == ['write']:
        write(ROOT)
    elif sys.argv[1:] == ['check']:
        wrong_now = said(ROOT)
        print('\n'.join([*wrong_now, f'{len(wrong_now)} wrong']))
        sys.exit(1 if wrong_now else 0)
    else:
        sys.exit(__doc__)
