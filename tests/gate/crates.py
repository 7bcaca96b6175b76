#!/usr/bin/env python3
"""crates.py check | write: crates.txt has for each crate exactly those that its files name, and those whose types it reaches.

A crate is named by `Rattle.NAME` in specs, proofs and contracts, and by `NAME::` in code; in remarks it is not. What the crates
below stand on is found by the prover itself, but for types: a value that a function is handed may be of a type that a crate
further below declares, and the prover wants that crate named. So a crate of types below may stand in a line. In crates.txt `## TITLE` begins a section and `# ..` right above a crate is its
sentence; both, the order of the crates and all other remarks stay as they are. As soon as one crate has a sentence each must have
one.
"""
import re
import sys
from pathlib import Path

sys.dont_write_bytecode = True
import laws_only  # noqa: E402

ROOT = Path(__file__).resolve().parents[2]
# a crate, what it is where it is no library and no program, and what it stands on
LINE = re.compile(r'^(\w+)((?: \w+)?):(.*)$')
IN_SPECS = re.compile(r'(?<![\w.])Rattle\.(\w+)')
IN_CODE = re.compile(r'(?<![\w:])(\w+)::')
NOT_AS_WRITTEN = 'crates.txt is not as written: python3 tests/gate/crates.py write'


class Listed:
    """crates.txt: the sections with their crates, what each crate stands on, and each crate's sentence."""

    def __init__(self, text):
        self.sections, self.stands_on, self.sentences = [], {}, {}
        above, given = [], []
        for line in text.splitlines():
            match = LINE.match(line)
            if line.startswith('## '):
                given.append((line[3:].strip(), []))
            elif match:
                if not given:
                    given.append(('', []))
                name = match[1]
                given[-1][1].append(name)
                self.stands_on[name] = match[3].partition('#')[0].split()
                if above:
                    self.sentences[name] = ' '.join(above)
            above = [*above, line[2:].strip()] if line.startswith('# ') else []
        self.sections = [section for section in given if section[1]]
        for name, others in self.stands_on.items():
            self.stands_on[name] = [other for other in others if other in self.stands_on]


def named(texts):
    """The crates that a crate's files name, by the texts of its files."""
    found = set()
    for path, text in texts.items():
        if path.endswith('.antt'):
            found.update(IN_SPECS.findall(laws_only.without_remarks(text)))
        else:
            plain = re.sub(r'//[^\n]*', '', text)
            found.update(IN_SPECS.findall(plain), IN_CODE.findall(plain))
    return found


def own_modules(texts):
    """The modules that a crate's code has itself: `table::` then is no crate of that name."""
    return {name for text in texts.values() for name in re.findall(r'^\s*(?:pub(?:\([^)]*\))? )?mod (\w+);', text, re.M)}


def has_types(texts):
    """Whether a crate's code declares types."""
    return any(path.endswith('.rt') and re.search(r'^pub (?:struct|enum|type) ', text, re.M) for path, text in texts.items())


def below(needed, stands_on):
    """All that these crates stand on, however far below."""
    found, ahead = set(), list(needed)
    while ahead:
        for other in stands_on.get(ahead.pop(), ()):
            if other not in found:
                found.add(other)
                ahead.append(other)
    return found


def written(text, files):
    """crates.txt as it should be; `files` has each crate's texts by their paths."""
    stands_on = Listed(text).stands_on
    names = set(stands_on)
    lines = []
    for line in text.splitlines():
        match = LINE.match(line)
        if match:
            texts, others = files.get(match[1], {}), match[3].split()
            # what is no crate of the repository is the kit's, and found wanting by the prover
            needed = (named(texts) & (names | set(others))) - own_modules(texts) - {match[1]}
            typed = {other for other in others if has_types(files.get(other, {}))} & below(needed, stands_on)
            line = ' '.join([f'{match[1]}{match[2]}:', *sorted(needed | typed)])
        lines.append(line)
    return '\n'.join(lines) + '\n'


def wrong(text, files):
    """What is wrong with crates.txt."""
    listed, right = Listed(text), Listed(written(text, files))
    found = []
    for name, others in listed.stands_on.items():
        needed = set(right.stands_on[name])
        found += [f'crates.txt: {name} does not name {other}' for other in sorted(set(others) - needed)]
        found += [f'crates.txt: {name} also names {other}' for other in sorted(needed - set(others))]
    if not found and written(text, files) != text:
        found.append(NOT_AS_WRITTEN)
    if listed.sentences:
        found += [f'crates.txt: {name} has no sentence' for name in listed.stands_on if name not in listed.sentences]
    return found


SAMPLE = '# NAME: what it stands on\n\n## below\na:\n## above\nb: a\n# c is code\nc: a b d\nd: io\ne: b\nf: b d e\ng staticlib: a e f\n'
SAMPLE_FILES = {
    'a': {'specs/A.antt': 'use Rattle.a.specs.B.{x}\n-- Rattle.b\n'},
    'b': {'specs/B.antt': '{- Rattle.c -} use Rattle.a.specs.A as A\n'},
    'c': {'src/lib.rt': 'mod check;\nuse b::f;\nghost use Rattle.a.specs.A.{x};\n// d::g\nfn g() { check::h(); crate::b::k() }\n'},
    'd': {'src/main.rt': 'use io::print;\nfn main() { c::g() }\n'},
    'e': {'src/lib.rt': 'use b::f;\npub struct E {\n}\n'},
    'f': {'src/lib.rt': 'use e::f;\n'},
    'g': {'src/lib.rt': 'use f::f;\n'},
}


def wrong_sample():
    """Which part of the sample is read wrongly."""
    listed = Listed(SAMPLE)
    parts = {
        'sections': listed.sections == [('below', ['a']), ('above', ['b', 'c', 'd', 'e', 'f', 'g'])],
        'sentences': listed.sentences == {'c': 'c is code'},
        'named': written(SAMPLE, SAMPLE_FILES)
        == SAMPLE.replace('c: a b d', 'c: a b').replace('d: io', 'd: c io').replace('f: b d e', 'f: e').replace('lib: a e', 'lib: e'),
        'wrong': wrong(SAMPLE, SAMPLE_FILES) == [
            'crates.txt: c does not name d', 'crates.txt: d also names c', 'crates.txt: f does not name b',
            'crates.txt: f does not name d', 'crates.txt: g does not name a',
            *[f'crates.txt: {name} has no sentence' for name in 'abdefg']],
        'order': wrong('a:\nb:  a\n', {'b': SAMPLE_FILES['b']}) == [NOT_AS_WRITTEN],
    }
    return [f'crates.py reads its sample wrongly: {name}' for name, right in parts.items() if not right]


def files_of(root):
    """Each crate's texts of specs, proofs and code."""
    found = {}
    for ending in ('antt', 'rt'):
        for file in sorted(root.glob(f'crates/*/*/**/*.{ending}')):
            parts = file.relative_to(root / 'crates').parts
            found.setdefault(parts[0], {})['/'.join(parts[1:])] = file.read_text(encoding='utf-8')
    return found


def said(root):
    """What is wrong, and what was passed over."""
    text = (root / 'crates.txt').read_text(encoding='utf-8')
    over = [] if Listed(text).sentences else ['no crate has a sentence in crates.txt: that each has one was not looked at']
    return wrong_sample() + wrong(text, files_of(root)), over


if __name__ == '__main__':
    if sys.argv[1:] == ['write']:
        file = ROOT / 'crates.txt'
        file.write_text(written(file.read_text(encoding='utf-8'), files_of(ROOT)), encoding='utf-8')
    elif sys.argv[1:] == ['check']:
        found, over = said(ROOT)
        print('\n'.join([*found, *over, f'{len(found)} wrong']))
        sys.exit(1 if found else 0)
    else:
        sys.exit(__doc__)
