"""What the crates declare, and the statement of each declaration, for the gate's checks.

Of a file of specs or proofs: definitions (marked `unfoldable` or `abbrev`), laws (not marked), records with their fields, data
with their constructors. Of a file of code: functions, each with its contract, calls for C, declared types, constants. A declaration
is kept in the parts that are read apart: its type, its clauses, and the parameters of the `module` blocks around it. A line
`unfolding ..` belongs to none of them.
"""
import re
from dataclasses import dataclass, field

import laws_only

NAME = laws_only.NAME
HEAD = re.compile(rf'^([ ]*)((?:(?:unfoldable|abbrev|opaque|pub)\s+)*)({NAME})(?:\s*\{{[^}}]*\}})?\s+:(?=\s|$)')
BLOCK = re.compile(rf'^([ ]*)(?:pub\s+)?(record|data|module)\s+({NAME})(?=\s|$)')
PASSED_OVER = re.compile(r'^[ ]*(?:(?:unfoldable|pub|ghost)\s+)*(?:use|mod|ruleset|unfolding)(?=\s)')
REMARK = re.compile(r'//[^\n]*')
GHOST_USE = re.compile(r'^[ \t]*ghost (use [^;]*);', re.M)
RUST_USE = re.compile(r'^[ \t]*(?:pub(?:\([^)]*\))? )?use ([\w:]+)(?:::\{([^}]*)\})?(?: as (\w+))?;', re.M)
FUNCTION = re.compile(r'^[ \t]*(?:pub(?:\([^)]*\))? +)?(extern "C" +)?fn +(\w+)', re.M)
TYPE = re.compile(r'^[ \t]*(?:pub(?:\([^)]*\))? +)?(?:struct|enum) +(\w+)', re.M)
CONSTANT = re.compile(r'^[ \t]*(?:pub(?:\([^)]*\))? +)?(?:const|type) +(\w+)', re.M)
# what begins a contract; behind one, behind a signature without one, behind a type with fields or variants, and what ends in a semicolon
CLAUSE = re.compile(r'\n[ \t]*(?:requires|ensures)\b')
BODY, PLAIN, BRACE, SEMICOLON = re.compile(r'\n[ \t]*\{[ \t]*\n'), re.compile(r'\n[ \t]*\{|\{[ \t]*\n'), re.compile(r'\n[ \t]*\}'), re.compile(';')


@dataclass
class Declaration:
    """One declaration: crate, module and name; its lines, from 0, `remark` with the comment above it; its statement in parts."""
    place: tuple
    kind: str
    remark: int
    first: int
    last: int
    type: str
    clauses: list = field(default_factory=list)
    around: str = ''
    owner: str = ''


@dataclass
class File:
    """A file's lines, its `use` lines as laws_only reads them, what it declares, and the types that its code brings."""
    path: str
    lines: list
    module: object
    declared: list
    types: dict

    def named(self, name):
        """What a name in this file stands for: rather a definition, a type or a constructor than a field."""
        found = [item for item in self.declared if item.place[2] == name]
        return min(found, key=lambda item: item.kind == 'field', default=None)


def indent_of(line):
    return len(line) - len(line.lstrip(' '))


def above(lines, first, marks):
    """Where the comment right above a line begins."""
    while first > 0 and lines[first - 1].strip().startswith(marks):
        first -= 1
    return first


def depths(lines):
    """How many brackets are open at the beginning of each line."""
    depth = 0
    for line in lines:
        yield depth
        depth += sum(map(line.count, '({')) - sum(map(line.count, ')}'))


def heads(lines):
    """The lines at which something begins: number, kind, name. A line that goes on with a law or a definition begins nothing."""
    inside, within = None, []
    for number, (line, depth) in enumerate(zip(lines, depths(lines))):
        indent = indent_of(line)
        if not line.strip() or depth > 0 or (inside is not None and indent > inside):
            continue
        while within and indent <= within[-1][0]:
            within.pop()
        block, head = BLOCK.match(line), HEAD.match(line)
        if PASSED_OVER.match(line):
            yield number, 'use', ''
        elif block:
            inside = None
            within.append((indent, block[2]))
            yield number, block[2], block[3]
        elif head:
            marked = 'unfoldable' in head[2] or 'abbrev' in head[2]
            parent = within[-1][1] if within else 'module'
            inside = indent
            yield number, {'record': 'field', 'data': 'constructor'}.get(parent, 'definition' if marked else 'law'), head[3]


def last_line(lines, number, kind, behind):
    """The last line of what begins at a line, given the heads behind it: blank lines at its end are not its own."""
    end = len(lines) - 1
    for other, _, _ in behind:
        if kind not in ('record', 'data', 'module') or indent_of(lines[other]) <= indent_of(lines[number]):
            end = other - 1
            break
    while end > number and not lines[end].strip():
        end -= 1
    return end


def divided(lines, number, end, name):
    """A law or definition as its type and its clauses: a clause begins with the name, as far to the left as the type does."""
    pieces = [[lines[number].partition(' :')[2]]]
    skipped = None
    for line in lines[number + 1:end + 1]:
        deeper = indent_of(line) > indent_of(lines[number])
        if re.match(r'\s*unfolding\s', line) and not deeper:
            skipped = True
        elif not deeper and re.match(rf'\s*{re.escape(name)}(?=[\s{{]|$)', line):
            skipped = False
            pieces.append([line])
        elif not skipped:
            pieces[-1].append(line)
    return ['\n'.join(piece) for piece in pieces]


def read_antt(crate, path, text):
    """The declarations of a file of specs or proofs."""
    plain, lines = laws_only.without_remarks(text).split('\n'), text.split('\n')
    found = [head for head in heads(plain) if not plain[head[0]].lstrip().startswith('unfolding')]
    declared, blocks = [], []
    for at, (number, kind, name) in enumerate(found):
        blocks = [block for block in blocks if block[0] < indent_of(plain[number])]
        end = last_line(plain, number, kind, found[at + 1:])
        if kind == 'use':
            continue
        header = '\n'.join(plain[number:end + 1]).partition(name)[2]
        header = re.split(r'\swhere\s', header + ' ', maxsplit=1)[0]
        if kind == 'module':
            blocks.append((indent_of(plain[number]), header, ''))
            continue
        around = ' '.join(block[1] for block in blocks)
        item = Declaration((crate, path, name), kind, above(lines, number, '--'), number, end, header, [], around,
                           blocks[-1][2] if blocks else '')
        if kind in ('record', 'data'):
            blocks.append((indent_of(plain[number]), header, name))
        else:
            item.type, *item.clauses = divided(plain, number, end, name)
        declared.append(item)
    return declared


def behind_of(kind, braced, plain, at):
    """Where the statement of a function, a type or a constant ends whose name ends at this place."""
    if kind != 'function':
        return (BRACE if braced else SEMICOLON).search(plain, at)
    clause, body = CLAUSE.search(plain, at), PLAIN.search(plain, at)
    return BODY.search(plain, clause.start()) if clause and body and clause.start() < body.start() else body


def read_code(crate, path, text):
    """The functions, types and constants of a file of code; the statement of a function is what stands before its body."""
    plain, lines, declared = REMARK.sub('', text), text.split('\n'), []
    for kind, pattern in (('function', FUNCTION), ('type', TYPE), ('constant', CONSTANT)):
        for match in pattern.finditer(plain):
            name = match[match.lastindex]
            first = plain.count('\n', 0, match.end())
            braced = kind == 'type' and plain[match.end():].lstrip().startswith('{')
            behind = behind_of(kind, braced, plain, match.end())
            body = plain[match.end():behind.start() if behind else len(plain)]
            head = above(lines, first, ('//', '#['))
            last = first + body.count('\n') + braced
            item = Declaration((crate, path, name), kind, head, first, last, body)
            if kind == 'function' and match[1] and '#[unsafe(no_mangle)]' in '\n'.join(lines[head:first]):
                item.kind = 'call'
            declared.append(item)
    return declared


def brought_types(text):
    """The names that the `use` lines of code bring, each with its crate; `crate` and `super` as they stand."""
    found = {}
    for path, items, other in RUST_USE.findall(REMARK.sub('', text)):
        parts = path.split('::')
        for name in [item.strip() for item in items.split(',') if item.strip()] if items else [parts[-1]]:
            found[other or name] = (parts[0], name)
    return found


def read(texts):
    """The files of the crates by their texts, each as (crate, 'specs.File'), (crate, 'proofs.File') or (crate, 'src.file')."""
    found = {}
    for place, text in texts.items():
        _, crate, *parts = place.rpartition('.')[0].split('/')
        path = '.'.join(parts)
        if place.endswith('.antt'):
            found[crate, path] = File(place, text.split('\n'), laws_only.Module(text), read_antt(crate, path, text), {})
        else:
            ghosts = GHOST_USE.sub(r'\1', RUST_USE.sub('', REMARK.sub('', text)))
            found[crate, path] = File(place, text.split('\n'), laws_only.Module(ghosts), read_code(crate, path, text),
                                      brought_types(text))
    return found


def files(root):
    """Every file of the repository's crates."""
    paths = [path for ending in ('antt', 'rt') for path in sorted(root.glob(f'crates/*/*/**/*.{ending}'))]
    return read({path.relative_to(root).as_posix(): path.read_text(encoding='utf-8') for path in paths})


SAMPLE_ANTT = """-- only-mentioned : a remark is no declaration
use Core.{used}
pub record R (n : N) : Type 0 where
  -- one
  pub one : T
  two :
      (x
       y : T) → U
module _ (m : M) where
  -- a law
  pub law : A
    → B
  unfolding opened
  law x = let inner : A = x in y
pub data D : Type 0 where
  made : D

abbrev pub E : Type 0
E = D
"""
SAMPLE_CODE = """use a::{B, C};
// fn mentioned() {
#[unsafe(no_mangle)]
pub extern "C" fn call(x: &[u8; 8]) -> u64
    ensures { result ≡ record {
        a = 1;
    } }
{
    let fn_like = 1;
}
pub(crate) struct S {
    a: [u8; 8],
}
const K: u64 = 1;
"""
SAMPLE_FOUND = [
    ('record', 'R', '', 2, 7), ('field', 'one', 'R', 4, 4), ('field', 'two', 'R', 5, 7), ('law', 'law', '', 10, 13),
    ('data', 'D', '', 14, 15), ('constructor', 'made', 'D', 15, 15), ('definition', 'E', '', 17, 18),
    ('call', 'call', '', 3, 6), ('type', 'S', '', 10, 12), ('constant', 'K', '', 13, 13),
]


def wrong_sample():
    """Which part of the sample is read wrongly."""
    files = read({'crates/c/specs/F.antt': SAMPLE_ANTT, 'crates/c/src/f.rt': SAMPLE_CODE})
    items = [item for file in files.values() for item in file.declared]
    found = [(item.kind, item.place[2], item.owner, item.first, item.last) for item in items]
    law = next((item for item in items if item.place[2] == 'law'), None)
    parts = {
        'declarations': found == SAMPLE_FOUND,
        'a law': law is not None and law.type.split() == ['A', '→', 'B'] and len(law.clauses) == 1 and law.around.split() == ['(m', ':', 'M)'],
        'brought types': files['c', 'src.f'].types == {'B': ('a', 'B'), 'C': ('a', 'C')},
    }
    return [f'declarations.py reads its sample wrongly: {name}' for name, right in parts.items() if not right]
