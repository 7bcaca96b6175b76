"""Which definitions of other crates a crate opens. The crates in laws_only.txt cite only laws and contracts: there must be none.

A definition is opened by its name on an `unfolding` line, in `unfold .. in`, or as a rule of `rw` or `simp` (or of a `ruleset`),
in proofs and in specs, and in code by `unfolding(..)` of an attribute `#[tactic(..)]`. A name is read as the prover reads it: by the file's `use` lines (lists over several lines, `as`, a path
that begins with another line's name, whole paths, `package.`), and through the `pub use` lines of the modules on the way, down
to the file that declares it. Whatever is of no crate of this repository is the library's.

On an `unfolding` line and in `unfold .. in` every name of another crate is found, whatever it is, and, as `?.name`, one that the
file neither declares nor brings. A rule of `rw` or `simp` may be a law: there only what is declared `unfoldable` or `abbrev` is
found, and what no file declares (it is made of the code). A rule's name that the same declaration or block binds is its own.
"""
import re
from pathlib import Path

LIST = Path(__file__).with_suffix('.txt')
SAMPLE = Path(__file__).with_name('laws')

NAME = r'[^\s(){}.;,@"«»]+'
PATH = rf'{NAME}(?:\.{NAME})*'
REMARK = re.compile(r'\{-|-\}|(?<![^\s(){};,])--[^\n]*')
USE = re.compile(rf'^[ \t]*((?:unfoldable )?(?:pub )?)use\s+({PATH})(?:\.\{{([^}}]*)\}}|\s+as\s+({NAME}))?', re.M)
DECLARED = re.compile(rf'^[ \t]*((?:(?:unfoldable|abbrev|pub)\s+)*)({NAME})(?:\s*\{{[^}}]*\}})?\s+:(?=\s)', re.M)
UNFOLDING = re.compile(r'^([ \t]*)unfolding\s([^\n]*(?:\n\1[ \t]+[^\n]*)*)', re.M)
UNFOLD = re.compile(rf'(?<![^\s(){{}};,])unfold\s+((?:{PATH}\s+)+?)in(?=\s)')
RULES = re.compile(rf'(?<![^\s(){{}};,])(?:rw|simp)\s+(\(|{PATH})|^[ \t]*(?:pub\s+)?ruleset\s+{NAME}\s*=\s*(\(|{PATH})', re.M)
ROOT = 'Rattle'
IN_CODE = re.compile(r'#\[tactic\([^\]]*?\bunfolding\(([^)]*)\)')
WORD = re.compile(PATH)


def without_remarks(text):
    """The text with its remarks blanked, line for line; `{- -}` nest."""
    parts, depth, at = [], 0, 0
    for match in REMARK.finditer(text):
        if match.start() < at:
            continue
        kept = text[at:match.start()]
        parts.append(kept if depth == 0 else '\n' * kept.count('\n'))
        depth = max(0, depth + {'{-': 1, '-}': -1}.get(match[0], 0))
        at = match.end()
    return ''.join(parts) + (text[at:] if depth == 0 else '')


class Module:
    """A file's declarations, marked or not, and the names that its `use` lines bring, each with the path it stands for."""

    def __init__(self, text):
        self.text = without_remarks(text)
        self.declared = {}
        self.brings = {}
        self.passes_on = {}
        self.globs = re.findall(rf'^[ \t]*(?:unfoldable )?pub use\s+({PATH})\.\*\s*$', self.text, re.M)
        for marks, name in DECLARED.findall(self.text):
            opens = 'unfoldable' in marks or 'abbrev' in marks
            self.declared[name] = opens or self.declared.get(name, False)
        for marks, path, items, other in USE.findall(self.text):
            brought = dict(listed(path, items)) if items else {other or path.split('.')[-1]: path}
            self.brings.update(brought)
            if 'pub' in marks:
                self.passes_on.update(brought)

    def whole(self, word, seen=()):
        """The whole path of a name in this file; a name that no `use` line brings stands as it is."""
        if word.startswith('package.'):
            return word[len('package.'):]
        first, _, rest = word.partition('.')
        if first in self.brings and first not in seen:
            return self.whole(self.brings[first], (*seen, first)) + ('.' + rest if rest else '')
        return word


def listed(path, items):
    """The names of a list `{a, b as c, N.d}` behind a path."""
    for item in items.split(','):
        words = item.split()
        if words:
            yield (words[2] if len(words) == 3 else words[0].split('.')[-1]), f'{path}.{words[0]}'


def modules(root, ending='antt'):
    """Each file of specs or proofs by its crate and its path in it: (crate, 'specs.File')."""
    found = {}
    for file in sorted(root.glob(f'crates/*/*/**/*.{ending}')):
        crate, *path = file.relative_to(root / 'crates').with_suffix('').parts
        found[crate, '.'.join(path)] = Module(file.read_text(encoding='utf-8'))
    return found


def origin(path, known, crates, seen=()):
    """Where a whole path leads, through `pub use`: crate, module, name and whether it is marked to be opened; None: the library."""
    root, *parts = path.split('.')
    if root != ROOT or not parts or parts[0] not in crates or path in seen:
        return None
    crate = parts[0]
    for cut in range(len(parts) - 1, 0, -1):
        module = known.get((crate, '.'.join(parts[1:cut])))
        if module:
            name = '.'.join(parts[cut:])
            first = parts[cut]
            if first in module.passes_on and first not in module.declared:
                rest = '.'.join([module.whole(first), *parts[cut + 1:]])
                return origin(rest, known, crates, (*seen, path))
            for child in () if first in module.declared else module.globs:
                below = origin('.'.join([ROOT, *parts[:cut], child, name]), known, crates, (*seen, path))
                if below and below[0] != crate:
                    return below
            return crate, '.'.join(parts[1:cut]), name, module.declared.get(name, True)
    return crate, '.'.join(parts[1:-1]), parts[-1], True


def rules(text):
    """The heads of the rules that the text hands to `rw` and `simp`, and of a ruleset's members, with their places."""
    for match in RULES.finditer(text):
        group = 1 if match[1] else 2
        if match[group] != '(':
            yield match.start(group), match[group]
            continue
        depth, begun = 1, match.end()
        for at in range(match.end(), len(text)):
            depth += (text[at] in '([{') - (text[at] in ')]}')
            if depth == 0 or (depth == 1 and text[at] == ','):
                head = WORD.search(text[begun:at].replace('←', ' '))
                if head:
                    yield begun + head.start(), head[0]
                begun = at + 1
            if depth == 0:
                break


def around(text, place):
    """The lines of the declaration at a place, as far as it, and the heads of the blocks that it stands in."""
    lines = text[:place].split('\n')
    first = len(lines) - 1
    while first > 0 and lines[first - 1].strip():
        first -= 1
    kept = lines[first:]
    depth = min((len(line) - len(line.lstrip()) for line in kept if line.strip()), default=0)
    for at in range(first - 1, -1, -1):
        indent = len(lines[at]) - len(lines[at].lstrip())
        if lines[at].strip() and indent < depth:
            depth = indent
            head = '\n'.join(lines[at:])
            kept.append(head[:head.index(' where') + 1] if lines[at].lstrip().startswith('module') and ' where' in head else lines[at])
    return kept


def binders(text, place):
    """The names that the declaration at a place, or a block around it, binds: patterns, λ, let, typed binders, parameters."""
    found = set()
    for part in around(text, place):
        for names in re.findall(r'λ\s+([^.]*)\.', part) + re.findall(rf'[({{]\s*((?:{NAME}\s+)+):', part):
            found.update(re.findall(NAME, names))
        found.update(re.findall(rf'\blet\s+({NAME})', part))
        left = re.match(rf'\s*{NAME}(\s[^=]*?)\s=\s', part + ' ')
        if left:
            found.update(re.findall(NAME, left[1]))
    return found


def opened(module, crate, allowed, known, crates):
    """What this file opens of other crates: pairs of a line's number and `crate.specs.File.name`."""
    text = module.text
    named = [(m.start(2) + w.start(), w[0], True) for m in UNFOLDING.finditer(text) for w in WORD.finditer(m[2])]
    named += [(m.start(1) + w.start(), w[0], True) for m in UNFOLD.finditer(text) for w in WORD.finditer(m[1])]
    named += [(place, word, False) for place, word in rules(text)]
    found = []
    for place, word, always in sorted(named):
        whole = module.whole(word)
        came = origin(whole, known, crates)
        if always and whole == word and word not in module.declared and not word.startswith(f'{ROOT}.'):
            found.append((text.count('\n', 0, place) + 1, f'?.{word}'))
        if came is None or came[0] == crate or came[0] in allowed:
            continue
        if not always and (not came[3] or word in binders(text, place)):
            continue
        found.append((text.count('\n', 0, place) + 1, '.'.join(came[:3])))
    return found


def opened_in_code(text, crate, allowed, crates):
    """What a file of code opens of other crates, likewise."""
    found = []
    for match in IN_CODE.finditer(re.sub(r'//[^\n]*', '', text)):
        for item in re.finditer(r'[\w:]+', match[1]):
            first = item[0].partition('::')[0]
            if first in crates and first != crate and first not in allowed:
                found.append((text.count('\n', 0, match.start(1) + item.start()) + 1, item[0].replace('::', '.')))
    return found


def findings(root, listed_crates, ending='antt'):
    """All that the listed crates open: (file, line, name)."""
    known = modules(root, ending)
    crates = {crate for crate, _ in known}
    found = []
    for crate, allowed in listed_crates.items():
        for (owner, path), module in known.items():
            if owner == crate:
                file = 'crates/' + '/'.join([owner, *path.split('.')]) + f'.{ending}'
                found += [(file, line, name) for line, name in opened(module, crate, allowed, known, crates)]
        for path in sorted(root.glob(f'crates/{crate}/src/**/*.rt')) if ending == 'antt' else ():
            opens = opened_in_code(path.read_text(encoding='utf-8'), crate, allowed, crates)
            found += [(path.relative_to(root).as_posix(), line, name) for line, name in opens]
    return found


def read_list(text):
    """The crates of laws_only.txt, each with those that it may open."""
    lines = [line for line in text.splitlines() if line.strip() and not line.startswith('#')]
    return {line.partition(':')[0].strip(): line.partition(':')[2].split() for line in lines}


CODE_SAMPLE = """#![tactic(auto)]
#[tactic(auto, using(below::proofs::L::law), unfolding(crate::specs::Mine::mine, below::specs::Lists::any))]
#[tactic(auto, unfolding(allowed::specs::Free::free,
    std::specs::Nat::add, below::specs::Lists::keep))] // unfolding(below::specs::Lists::all)
"""
CODE_FOUND = [(2, 'below.specs.Lists.any'), (4, 'below.specs.Lists.keep')]


def wrong_sample():
    """What is found in the sample and not said there, or said and not found. A line `.. -- finds a b` opens a and b; no other does."""
    said = set()
    for file in SAMPLE.glob('crates/*/*/**/*.sample'):
        for number, line in enumerate(file.read_text(encoding='utf-8').splitlines(), 1):
            for name in line.partition('-- finds ')[2].split():
                said.add((str(file.relative_to(SAMPLE)), number, name))
    found = set(findings(SAMPLE, {'above': ['allowed']}, 'sample'))
    if not said:
        return ['laws_only.py has no sample']
    if opened_in_code(CODE_SAMPLE, 'above', ['allowed'], {'above', 'below', 'allowed'}) != CODE_FOUND:
        return ['laws_only.py reads its sample of code wrongly']
    return [f'laws_only.py reads its sample wrongly: {place}' for place in sorted(said ^ found)]


def said(root):
    """What is wrong: each definition of another crate that a crate of the list opens, with its place."""
    wrong = wrong_sample()
    crates = read_list(LIST.read_text(encoding='utf-8'))
    if not crates:
        wrong.append('laws_only.txt names no crate')
    for crate in crates:
        if not any((root / 'crates' / crate).glob('*/**/*.antt')):
            wrong.append(f'laws_only.txt names {crate}, which has no file of specs or proofs')
    return wrong + [f'{file}:{line} opens {name}' for file, line, name in findings(root, crates)]
