#!/usr/bin/env python3
"""belief.py check | write: what a reader of the promises has to believe.

A promise is the contract of a call for C, a function of a static library of crates.txt in the order of the header, or a row of the first part
of docs/CLAIMS.md. Reached is what its statement names, what the statements of these name, and so on (`names.py`): of a promised
law its type, of a definition type and clauses, of a record all fields, of data all constructors, of a declared type its text.
No proof is read.

`check`: each definition reached stands in a crate whose name begins with `spec_`, in a file of belief.txt, or is a declared type;
each definition in the specs of a `spec_` crate is reached, but for files that belief.txt has under `opens`; a row, not a call
for C, may also lead to what belief.txt has under `rows`; a `spec_` crate has no function; and the table in docs/CLAIMS.md, between
its two marks, is that of today. While no crate begins with `spec_` only the table is compared. `write` writes the table.
"""
import re
import sys
from pathlib import Path

sys.dont_write_bytecode = True
import claims  # noqa: E402
import declarations  # noqa: E402
import exports  # noqa: E402
import names  # noqa: E402

ROOT = Path(__file__).resolve().parents[2]
STATED = Path(__file__).with_suffix('.txt')
BEGIN, END = '<!-- belief: written by tests/gate/belief.py -->', '<!-- belief: end -->'
PREFIX = 'spec_'
DEFINITIONS = {'definition', 'record', 'data'}
HEADER = ['| Promise | Definitions | Lines | With comments | Files |', '|---|---:|---:|---:|---:|']


def exported(listing):
    """The crates of the calls for C."""
    return re.findall(r'^(\w+) staticlib:', listing, re.M)


def calls(files, crates, order=()):
    """The calls for C, each by its name, in this order."""
    found = {item.place[2]: [item] for key, file in files.items() if key[0] in crates for item in file.declared if item.kind == 'call'}
    return {name: found[name] for name in [*(name for name in order if name in found), *(name for name in found if name not in order)]}


def first_part(text):
    """The part of CLAIMS that promises: from its heading `## 1.` to the next of that level."""
    start = text.find('\n## 1.')
    end = text.find('\n## ', start + 1)
    return text[start:end if end >= 0 else len(text)] if start >= 0 else ''


def rows(text, files):
    """What the rows of the first part cite, by the heading that they stand under."""
    by_path = {file.path: file for file in files.values()}
    found, heading = {}, ''
    for part in re.split(r'(?m)^(?=### )', first_part(text)):
        heading = part.partition('\n')[0][4:].strip() if part.startswith('### ') else heading
        for _, statement, paths in claims.rows(part):
            for name in claims.CODE.findall(statement):
                items = [by_path[path].named(name) for path in paths if path in by_path]
                found.setdefault(heading, []).extend(item for item in items if item)
    return found


class Belief:
    """The promises, and what each leads to."""

    def __init__(self, files, claims_text, listing, header=''):
        self.files = files
        self.names = names.Names(files)
        self.promises = calls(files, exported(listing), exports.DECLARED.findall(header))
        self.of_calls = set(self.promises)
        self.promises.update(rows(claims_text, files))
        self.reached = {promise: self.lead(items) for promise, items in self.promises.items()}

    def lead(self, items):
        """All that these statements lead to, and what they are themselves, if it is no law and no contract."""
        found = self.names.reached(items)
        for item in map(self.names.whole, items):
            if item.kind in DEFINITIONS or item.kind == 'type':
                found[item.place] = item
                found.update(self.names.reached([item]))
        return {place: item for place, item in found.items() if item.kind not in ('function', 'call')}

    def all(self):
        return {place: item for found in self.reached.values() for place, item in found.items()}

    def counts(self, items):
        """Definitions, lines without and with comments, files."""
        plain, all_lines = set(), set()
        for item in items.values():
            file = self.files[item.place[:2]]
            for number in range(item.remark, item.last + 1):
                line = file.lines[number].strip()
                if line and not line.startswith('unfolding'):
                    all_lines.add((file.path, number))
                    if number >= item.first and not line.startswith(('--', '//')):
                        plain.add((file.path, number))
        return len(items), len(plain), len(all_lines), len({item.place[:2] for item in items.values()})

    def table(self):
        """A line for each promise, and one for all together."""
        lines = [*HEADER]
        for promise, items in self.reached.items():
            shown = f'`{promise}`' if promise.startswith('tarczolin_') else promise
            lines.append('| ' + ' | '.join([shown, *map(str, self.counts(items))]) + ' |')
        return [*lines, '| ' + ' | '.join(['all together', *map(str, self.counts(self.all()))]) + ' |']

    def misplaced(self, stated):
        """The definitions that a promise leads to and that stand elsewhere, each with a promise."""
        for promise, items in self.reached.items():
            for place, item in items.items():
                crate, path, name = place
                folder, _, file = path.partition('.')
                named = file.split('.')[0] if folder == 'specs' else path
                beside = named in stated.get(crate, ())
                if promise not in self.of_calls:
                    beside = beside or named in stated.get(f'rows {crate}', ())
                if item.kind != 'type' and not crate.startswith(PREFIX) and not beside:
                    where = f'{self.files[place[:2]].path}:{item.first + 1}'
                    yield place, f'{where}: {promise} leads to {name}, which stands in no {PREFIX} crate'

    def unreached(self, stated):
        """The definitions of `spec_` crates that no promise leads to."""
        reached = self.all()
        for (crate, path), file in self.files.items():
            opens = path.partition('.')[2] in stated.get(f'opens {crate}', ())
            for item in file.declared if crate.startswith(PREFIX) and not opens else ():
                defines = item.kind in DEFINITIONS or (item.kind == 'law' and names.is_definition(item))
                if path.startswith('specs') and defines and item.place not in reached:
                    yield f'{file.path}:{item.first + 1}: no promise leads to {item.place[2]}'
                if item.kind in ('function', 'call'):
                    yield f'{file.path}:{item.first + 1}: {crate} has the function {item.place[2]}'


def stated(text):
    """belief.txt: files by crate."""
    lines = [line.partition(':') for line in text.splitlines() if line.strip() and not line.startswith('#')]
    return {crate.strip(): files.split() for crate, _, files in lines}


def compared(text, table):
    """What is wrong with the table of CLAIMS."""
    if text.count(BEGIN) != 1 or text.count(END) != 1:
        return ['docs/CLAIMS.md has not the two marks of the table of what has to be believed']
    if text.partition(BEGIN)[2].partition(END)[0].strip().split('\n') != table:
        return ['docs/CLAIMS.md has another table of what has to be believed: python3 tests/gate/belief.py write']
    return []


def wrong(belief, text, beside):
    """What is wrong, and what was passed over."""
    said = compared(text, belief.table())
    said += sorted(belief.names.lost)
    if not any(crate.startswith(PREFIX) for crate, _ in belief.files):
        return said, [f'no crate begins with {PREFIX}: where definitions stand that have to be believed was not looked at']
    return said + list(dict(belief.misplaced(beside)).values()) + list(belief.unreached(beside)), []


SAMPLE = {
    'crates/spec_a/specs/A.antt': """use Rattle.std.specs.Prelude.{◌≡◌}
use Rattle.spec_a.specs.B.{Thing, made, shadow}
-- a remark that names unreached
pub record Pair (n : ℕ) : Type 0 where
  -- of two
  pub left : Thing
  pub right : left ≡ made n
unfoldable pub pair_of : (shadow : Thing) → ℕ → Pair 0
unfolding unreached
pair_of shadow n =
    record { left = shadow; right = told law }
pub law : Thing ≡ Unsaid
law = unreached
told : ℕ → Type 0
told n = Far
pub record Far : Type 0 where
""",
    'crates/spec_a/specs/B.antt': """use Rattle.code.specs.declared.types.Shape.{Shape}
pub data Thing : Type 0 where
  made : ℕ → Thing
  shaped : Shape → Thing
unfoldable pub shadow : ℕ
shadow = 0
unfoldable pub arms : Thing → ℕ
arms t = elim t [ made shadow ↦ shadow | shaped s ↦ 1 ]
unfoldable pub unreached : ℕ
unreached = shadow
""",
    'crates/code/specs/C.antt': """use Rattle.spec_a.specs.A.{Pair}
module _ (p : Pair 0) where
  unfoldable pub holds : ℕ → ℕ
  holds n = n
""",
    'crates/spec_a/src/lib.rt': 'fn f() {\n}\n',
    'crates/code/src/types.rt': 'pub struct Shape {\n    pub a: [u8; 8],\n    pub inner: Inner,\n}\npub enum Inner {\n    A,\n}\n',
    'crates/code/src/calls.rt': """use crate::types::Shape;
ghost use Rattle.spec_a.specs.A.{pair_of};
ghost use Rattle.code.specs.C.{holds};
#[unsafe(no_mangle)]
pub extern "C" fn sample_call(n: usize) -> u64
    ensures { result ≡ pair_of n }
{
    unreached(n)
}
pub fn inner(s: Shape, n: u64) -> u64
    ensures answer { result ≡ holds n }
{
    0
}
""",
}
SAMPLE_CLAIMS = """
## 1. Promises

### Arms

| Sentence | Statement | File |
|---|---|---|
| by its arms | `arms` | `crates/spec_a/specs/B.antt` |
| by a contract | contract of `inner` | `crates/code/src/calls.rt` |

## 2. Proofs

| as a step | `unreached` | `crates/spec_a/specs/B.antt` |
"""


SAMPLE_REACHED = {
    'sample_call': ['Far', 'Inner', 'Pair', 'Shape', 'Thing', 'pair_of', 'told'],
    'Arms': ['Inner', 'Pair', 'Shape', 'Thing', 'arms', 'holds'],
}
SAMPLE_SAID = [
    'crates/code/specs/C.antt:3: Arms leads to holds, which stands in no spec_ crate',
    'crates/spec_a/specs/B.antt:5: no promise leads to shadow',
    'crates/spec_a/specs/B.antt:9: no promise leads to unreached',
    'crates/spec_a/src/lib.rt:1: spec_a has the function f',
]
SAMPLE_COUNTS = (7, 19, 21, 3)


def sample(prefix):
    """The sample with another prefix of its crate, and what is said of it with its own table."""
    texts = {path.replace(PREFIX, prefix): text.replace(PREFIX, prefix) for path, text in SAMPLE.items()}
    belief = Belief(declarations.read(texts), SAMPLE_CLAIMS.replace(PREFIX, prefix), 'a: b\ncode staticlib: spec_a\n')
    return belief, wrong(belief, '\n'.join(['a', BEGIN, *belief.table(), END, 'b']), {})


def of_a_call(belief):
    """What rows may lead to is told all the same where a call for C leads to it."""
    belief.of_calls = set(belief.promises)
    return list(belief.misplaced({'rows code': ['C']})) != []


def unread(belief, stated_files):
    """How many lines tell of what no promise leads to, or of functions."""
    return len(list(belief.unreached(stated_files)))


def wrong_sample():
    """Which part of the sample is read wrongly."""
    belief, (found, over) = sample(PREFIX)
    renamed, (fewer, passed_over) = sample('other_')
    parts = {
        'reached': {promise: sorted(place[2] for place in items) for promise, items in belief.reached.items()} == SAMPLE_REACHED,
        'places': found == SAMPLE_SAID and over == [],
        'a file beside': list(belief.misplaced({'code': ['C']})) == [],
        'rows alone': list(belief.misplaced({'rows code': ['C']})) == [] and of_a_call(belief),
        'opens': unread(belief, {}) == 3 and unread(belief, {'opens spec_a': ['B']}) == 1,
        'counts': belief.counts(belief.reached['sample_call']) == SAMPLE_COUNTS,
        'no spec_ crate': fewer == [] and len(passed_over) == 1 and renamed.table() == belief.table(),
        'another table': len(compared(f'{BEGIN}\n| a |\n{END}', belief.table())) == 1 and len(compared('', [])) == 1,
        'order': list(calls(belief.files, ['code'], ['gone', 'sample_call'])) == ['sample_call'] and exported('a:\nb staticlib: a\n') == ['b'],
        'beside': stated('# a: B\nlisting: Demand3 Other\n') == {'listing': ['Demand3', 'Other']},
    }
    return [f'belief.py reads its sample wrongly: {name}' for name, right in parts.items() if not right]


def of(root, files=None):
    """The repository's promises, and the text of its claims."""
    text, listing, header = ((root / path).read_text(encoding='utf-8') for path in ('docs/CLAIMS.md', 'crates.txt', 'include/tarczolin.h'))
    return Belief(files or declarations.files(root), text, listing, header), text


def said(root, files=None):
    """What is wrong, and what was passed over."""
    belief, text = of(root, files)
    found, over = wrong(belief, text, stated(STATED.read_text(encoding='utf-8')))
    return wrong_sample() + found, over


def write(root):
    """Writes the table between its marks."""
    belief, text = of(root)
    before, begin, rest = text.partition(BEGIN)
    _, end, after = rest.partition(END)
    if not begin or not end:
        sys.exit('belief: docs/CLAIMS.md has not the two marks')
    (root / 'docs' / 'CLAIMS.md').write_text('\n'.join([before + begin, *belief.table(), end + after]), encoding='utf-8')


if __name__ == '__main__':
    if sys.argv[1:] == ['write']:
        write(ROOT)
    elif sys.argv[1:] == ['check']:
        found, over = said(ROOT)
        print('\n'.join([*found, *over, f'{len(found)} wrong']))
        sys.exit(1 if found else 0)
    else:
        sys.exit(__doc__)
