"""Whether what docs/CLAIMS.md cites is there.

A row of three cells has a statement and its files: each name of the statement is declared in one of them (a law, a definition, a
record or its field, data or a constructor, a function, a declared type), not only mentioned. A row of two cells has names of the
whole repository: edits, functions as `crate::name` or by their own name, and all that files declare; with files in the row,
declared in one of these, and an edit with a crate in brackets behind it is that crate's. What sentences around the tables call a
law, a field, a record or an edit is there. A cited file exists.
"""
import re

import declarations

ROW = re.compile(r'^\|(.*)\|\s*$')
CODE = re.compile(r'`([^`]+)`')
PATH = re.compile(r'^(?:[\w.\-]+/)*[\w\-]+\.(?:antt|rt|md|py|txt|rs|h|svg|hex|edit)$')
WORD = re.compile(r"^[A-Za-z][\w'\-]*$")
FUNCTIONS = re.compile(r'^(\w+)::(?:(\w+)|\{([^}]*)\})$')
# words of the contracts' language, of a file and of the shell that a cell may quote
QUOTED = {'requires', 'ensures'}
# what outside of rows can only be a law, a field, a record or an edit
NAMED = re.compile(r'^(?:[a-z]\w*(?:-\w+)+|[A-Z]+[a-z]\w*|[a-z]\w*_\w+)$')


def cells_of(line):
    match = ROW.match(line)
    return [cell.strip() for cell in match[1].split(' | ')] if match else []


def tables(text):
    """Each row behind a table's rule, with its line's number: its cells."""
    inside = False
    for number, line in enumerate(text.split('\n'), 1):
        cells = cells_of(line)
        if re.fullmatch(r'\|(?:\s*-+\s*\|)+', line.strip()):
            inside = True
        elif not cells:
            inside = False
        elif inside:
            yield number, cells


def paths_in(text):
    """The files that a text cites. One without a folder stands beside the file cited before it."""
    folder, found = '', []
    for code in CODE.findall(text):
        if PATH.match(code):
            folder = code.rpartition('/')[0] or folder
            found.append(code if '/' in code or not folder else f'{folder}/{code}')
    return found


def rows(text):
    """The rows of three cells with files in the last: the line's number, the statement, the files."""
    for number, cells in tables(text):
        if len(cells) == 3 and paths_in(cells[2]):
            yield number, cells[1], paths_in(cells[2])


class Repository:
    """What there is to cite: the names that each file declares, each crate's functions and edits, and which files there are."""

    def __init__(self, declared, edits, exists):
        self.declared = declared
        self.everywhere = set().union(*declared.values()) if declared else set()
        self.edits = edits
        self.exists = exists

    def functions(self, crate):
        return set().union(*(names for path, names in self.declared.items() if path.startswith(f'crates/{crate}/src/')))

    def has_edit(self, name, crate=None):
        return any(label == name and crate in (None, owner) for owner, label in self.edits)


def of_three(text, there):
    """What rows of three cells cite and what is not there."""
    for number, statement, paths in rows(text):
        for name in CODE.findall(statement):
            if WORD.match(name) and name not in QUOTED and not any(name in there.declared.get(path, ()) for path in paths):
                yield f'docs/CLAIMS.md:{number} claims {name} of {", ".join(paths)}, where it is not declared'


def functions_named(code, before):
    """The functions that a code of the first cell names, each with its crate or None: `a::b`, `a::{b, c}`, `b`, and `_c` behind `x_b`."""
    match = FUNCTIONS.match(code)
    if match:
        return [(match[1], name.strip()) for name in (match[2] or match[3]).split(',')]
    if code.startswith('_') and before:
        return [(None, before.partition('_')[0] + code)]
    return [(None, code)] if re.match(r'^[A-Za-z]\w*$', code) else []


def of_contracts(number, cell, there):
    """What the first cell of a row of two names: functions."""
    before, crate_before = '', None
    for code in CODE.findall(cell):
        for crate, name in functions_named(code, before):
            crate = crate or (crate_before if not name.startswith('tarczolin') else None)
            known = there.functions(crate) if crate else there.everywhere
            if name not in known:
                whole = f'{crate}::{name}' if crate else name
                yield f'docs/CLAIMS.md:{number} names the function {whole}, which is not declared'
            before, crate_before = name, crate


def of_refusals(number, cell, there):
    """What the second cell of a row of two names: edits, and declarations of the files that it cites, or of any file."""
    paths = paths_in(cell)
    for match in re.finditer(r'`([^`]+)`(?: \((\w+)\))?', cell):
        name, crate = match[1], match[2] if match[2] and any(owner == match[2] for owner, _ in there.edits) else None
        if not WORD.match(name) or name in QUOTED or there.has_edit(name, crate):
            continue
        known = set().union(*(there.declared.get(path, set()) for path in paths)) if paths else there.everywhere
        if crate or name not in known:
            place = f'an edit of {crate}' if crate else f'declared in {", ".join(paths)}' if paths else 'declared, and no edit'
            yield f'docs/CLAIMS.md:{number} cites {name}, which is not {place}'


def of_two(text, there):
    """What rows of two cells cite and what is not there."""
    for number, cells in tables(text):
        if len(cells) == 2:
            yield from of_contracts(number, cells[0], there)
            yield from of_refusals(number, cells[1], there)


def around_tables(text, there):
    """The laws, fields, records and edits that sentences outside of rows cite and that are not there."""
    for number, line in enumerate(text.split('\n'), 1):
        for name in CODE.findall(line) if not cells_of(line) else ():
            if NAMED.match(name) and name not in there.everywhere and not there.has_edit(name):
                yield f'docs/CLAIMS.md:{number} cites {name}, which nothing declares'


def no_files(text, there):
    """The files that are cited, in rows and around them, and that there are not."""
    for number, line in enumerate(text.split('\n'), 1):
        for path in paths_in(line):
            if not there.exists(path):
                yield f'docs/CLAIMS.md:{number} cites {path}, and there is no such file'


def missing(text, there):
    return [*of_three(text, there), *of_two(text, there), *around_tables(text, there), *no_files(text, there)]


SAMPLE = """| Sentence | Statement | File |
|---|---|---|
| there | `law`, `field` of `Record`, no `requires` | `crates/a/proofs/A.antt` |
| only mentioned | `law_2` | `crates/a/proofs/A.antt` |
| in the second | contract of `f` | `crates/a/proofs/A.antt`, `crates/b/src/b.rt` |
| no file | `law` | `crates/b/src/c.rt` |

| Contract | Edits |
|---|---|
| `b::f`, `g`; `b::{f, g}` | `edit_1`, `edit_2` (b) |
| `b::h` | `edit_3` |
| a word of two, `02` | `edit_2` (a); field `field`; `law` and `f` (`crates/a/proofs/A.antt`, `B.antt`) |

The fields of `Record`: `law`, `law_3`; `make test` runs `edit_1` and `edit_4`.
"""
SAMPLE_FILES = {'crates/a/proofs/A.antt': {'law', 'Record', 'field'}, 'crates/b/src/b.rt': {'f', 'g'}}
SAMPLE_SAID = ['claims law_2', 'claims law of', 'function b::h', 'cites edit_3', 'cites edit_2', 'cites f,', 'cites law_3', 'edit_4',
               'c.rt', 'proofs/B.antt']


def reads_sample_wrongly():
    there = Repository(SAMPLE_FILES, [('a', 'edit_1'), ('b', 'edit_2')], SAMPLE_FILES.__contains__)
    found = missing(SAMPLE, there)
    return len(found) != len(SAMPLE_SAID) or any(not any(part in line for line in found) for part in SAMPLE_SAID)


def repository(root, files):
    declared = {file.path: {item.place[2] for item in file.declared} for file in files.values()}
    edits = [(edit.parts[-3], edit.stem) for edit in root.glob('crates/*/must-fail/*.edit')]

    def exists(path):
        return any((root / path).is_file() for path in (path, f'docs/{path}')) or any(root.glob(f'crates/*/{path}'))

    return Repository(declared, edits, exists)


def said(root, files=None):
    """What is wrong."""
    if reads_sample_wrongly():
        return ['claims.py reads its own sample wrongly']
    text = (root / 'docs' / 'CLAIMS.md').read_text(encoding='utf-8')
    return missing(text, repository(root, files or declarations.files(root)))
