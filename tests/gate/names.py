"""Which declarations a statement names, and all that follow from them.

A name is bound where a binder `(x : T)`, a `λ`, a `let`, a clause's pattern or that of an arm `[ pattern ↦ .. | .. ]` brings it,
as far as the bracket around it reaches; a bound name names nothing. Nor does a projection `.field` or the label of a record's
literal or of an implicit argument, `{field = ..}`. Every other name is read as the prover reads it: declared in its file, else
brought by a `use` line and through the `pub use` lines on the way. A constructor stands for its data, a field for its record, a
variant for its declared type. A law is named by no statement: where a definition cites one it does so as a proof.
"""
import re

import declarations
import laws_only

NAME = declarations.NAME
TOKEN = re.compile(rf'\.{NAME}|{NAME}(?:\.{NAME})*|[(){{}};,.]')
SIGNS = {'=', ':', '→', '×', '⊎', 'in', 'record', 'where', 'Type', 'let', 'λ'}
OWNED = {'field', 'constructor'}
FACTS = {'≡', '≢', '↔', '≤', '<', '⊥'}


class Scope:
    """The names bound so far, a set for each open bracket; what `(x : T)` binds holds in the bracket around it."""

    def __init__(self, bound=(), is_constructor=lambda name: False):
        self.frames = [set(bound)]
        self.binders = []
        self.is_constructor = is_constructor

    def binds(self, name):
        return any(name in frame for frame in self.frames)

    def bind(self, names):
        self.frames[-1].update(names)

    def enter(self, names):
        self.frames.append(set())
        self.binders.append(names)

    def leave(self):
        if self.binders:
            self.frames.pop()
            self.bind(self.binders.pop())

    def match(self, pattern):
        """The constructors of a pattern; its other names are bound."""
        names = [token for token in pattern if token not in SIGNS and token[0] not in '(){};,.']
        self.bind(name for name in names if not self.is_constructor(name))
        return [name for name in names if self.is_constructor(name)]

    def next_part(self):
        """Behind a comma or a semicolon inside brackets what was bound since the bracket opened no longer is."""
        if self.binders:
            self.frames[-1].clear()


def tokens_of(text):
    return TOKEN.findall(text)


def binder(tokens, at):
    """The names of a binder `(x y : ..)` that opens at this bracket, or none."""
    for end in range(at + 1, len(tokens)):
        if tokens[end] == ':':
            return tokens[at + 1:end]
        if tokens[end] in SIGNS or tokens[end][0] in '(){};,.':
            return []
    return []


def up_to(tokens, at, signs):
    """The names from here to one of these signs, and where that is."""
    for end in range(at + 1, len(tokens)):
        if tokens[end] in signs:
            return [name for name in tokens[at + 1:end] if name not in '(){},'], end
    return [], at


def free(tokens, scope):
    """The names of these tokens that are not bound."""
    at = 0
    while at < len(tokens):
        token = tokens[at]
        behind = tokens[at + 1] if at + 1 < len(tokens) else ''
        if token in ('(', '{'):
            scope.enter(binder(tokens, at))
            at += len(scope.binders[-1])
        elif token in (')', '}'):
            scope.leave()
        elif token in (';', ','):
            scope.next_part()
        elif token == '[' or (token == '|' and scope.binders):
            scope.enter([]) if token == '[' else scope.next_part()
            pattern, at = up_to(tokens, at, '↦')
            yield from scope.match(pattern)
        elif token == ']':
            scope.leave()
        elif token == 'λ' and behind != '(':
            names, at = up_to(tokens, at, '.')
            scope.bind(names)
        elif token == 'let':
            names, at = up_to(tokens, at, ('=', ':'))
            scope.bind(names)
            continue
        elif token not in SIGNS and token[0] != '.' and not scope.binds(token.split('.')[0]):
            if behind != '=' or not scope.binders:
                yield token
        at += 1


def left_and_right(tokens):
    """A clause's patterns, without the name before them, and what stands behind its `=`."""
    depth = 0
    for at, token in enumerate(tokens):
        depth += (token in ('(', '{')) - (token in (')', '}'))
        if token == '=' and depth == 0:
            return tokens[1:at], tokens[at + 1:]
    return tokens[1:], []


def is_definition(item):
    """Whether a declaration that a statement names has to be read, with its clauses: what is not marked is a law where its type
    says a fact, and a law is proved."""
    return item.kind != 'law' or not FACTS & set(tokens_of(item.type))


class Names:
    """The names of all files, and what each stands for."""

    def __init__(self, files):
        self.files = files
        self.known = {key: file.module for key, file in files.items() if not key[1].startswith('src')}
        self.crates = {crate for crate, _ in files}
        self.lost = set()
        self.named = {}

    def in_code(self, crate, name, seen=()):
        """The declared type of this name in a crate's code, or one that its code passes on."""
        for (owner, path), file in self.files.items():
            if owner == crate and path.startswith('src'):
                for item in file.declared:
                    if item.place[2] == name and item.kind == 'type':
                        return item
        for (owner, path), file in self.files.items():
            if owner == crate and name in file.types and (crate, name) not in seen:
                other, inner = file.types[name]
                other = crate if other in ('crate', 'super', 'self') or other not in self.crates else other
                found = self.in_code(other, inner, (*seen, (crate, name)))
                if found:
                    return found
        return None

    def lead(self, key, word):
        """The declaration that a word of a file stands for; None: the library's, or a variable."""
        file = self.files[key]
        own = file.named(word.split('.')[0])
        # a function of the code may be named as the definition that its contract cites
        if own and own.kind not in ('function', 'call'):
            return own
        whole = file.module.whole(word)
        came = laws_only.origin(whole, self.known, self.crates)
        if came is None:
            is_code = key[1].startswith('src')
            return self.in_code(key[0], word.split('.')[0]) if is_code and word[:1].isupper() else None
        crate, path, name, _ = came
        parts = path.split('.')
        if 'declared' in parts:
            types = [*parts[parts.index('declared') + 1:], name]
            return next(filter(None, (self.in_code(crate, part) for part in types if part[:1].isupper())), None)
        found = self.files[crate, path].named(name.split('.')[0]) if (crate, path) in self.files else None
        if found is None:
            self.lost.add(f'{file.path} names {whole}, which no file declares')
        return found

    def whole(self, item):
        """The declaration that has to be read for this one: a field's record, a constructor's data."""
        return self.files[item.place[:2]].named(item.owner) if item.kind in OWNED and item.owner else item

    def is_constructor(self, key):
        """Whether a name of a file is a constructor: a pattern's other names are its variables."""
        def of(name):
            item = self.lead(key, name)
            return item is not None and item.kind in ('constructor', 'type')
        return of

    def contract(self, item):
        """The words of a function's contract: the types in its signature, and its clauses, in which its parameters and `result` are bound."""
        signature, *clauses = re.split(r'(?=\b(?:requires|ensures)\b)', item.type)
        yield from re.findall(r'\b[A-Z]\w*', signature)
        bound = ['result', *re.findall(r'(\w+)\s*:(?!:)', signature)]
        for clause in clauses:
            yield from free(tokens_of(clause.partition('{')[2]), Scope(bound, self.is_constructor(item.place[:2])))

    def children(self, item):
        """The fields of a record, the constructors of data."""
        return [child for child in self.files[item.place[:2]].declared
                if child.owner == item.place[2] and item.first < child.first <= item.last]

    def words(self, item, with_clauses):
        """The words of a declaration's statement that are not bound in it."""
        if item.kind in ('function', 'call'):
            yield from self.contract(item)
            return
        if item.kind in ('type', 'constant'):
            yield from re.findall(r'\b[A-Z]\w*', item.type)
            return
        is_constructor = self.is_constructor(item.place[:2])
        scope = Scope((), is_constructor)
        yield from free(tokens_of(item.around), scope)
        outer = set(scope.frames[0])
        yield from free(tokens_of(item.type), scope)
        for clause in item.clauses if with_clauses else ():
            left, right = left_and_right(tokens_of(clause))
            inner = Scope(outer, is_constructor)
            yield from inner.match(left)
            yield from free(right, inner)
        bound = set(scope.frames[0])
        for child in self.children(item) if item.kind in ('record', 'data') else ():
            yield from free(tokens_of(child.type), Scope(bound, is_constructor))
            if child.kind == 'field':
                bound.add(child.place[2])

    def of(self, item, with_clauses):
        """What a declaration's statement names, by place; laws are left out."""
        key = (item.place, item.first, with_clauses)
        if key not in self.named:
            led = [self.lead(item.place[:2], word) for word in set(self.words(item, with_clauses))]
            led = [self.whole(other) for other in led if other is not None]
            self.named[key] = {other.place: other for other in led if is_definition(other)}
        return self.named[key]

    def reached(self, items):
        """All that these statements lead to, by place. Of a law that is asked for its type counts, of all else the clauses too."""
        todo = [other for item in items for other in self.of(item, item.kind != 'law').values()]
        seen = {}
        while todo:
            item = todo.pop()
            if item.place not in seen:
                seen[item.place] = item
                todo += self.of(item, True).values()
        return seen


SAMPLE = {
    '(x : A) → B x → (x ≡ y)': 'A B y ≡',
    'λ x y. f x (λ z. z y) z': 'f z',
    'let a = b in f a': 'b f',
    'f (λ x. x) x': 'f x',
    '((s : A) × B s) → C s': 'A B C s',
    'record { left = λ l. l; right = l }.left': 'l',
    'g {a = h} (p q).field M.k': 'g h p q M.k',
    '(x : A) → f x.field (λ y. y.old ∷ z.new)': 'A f ∷ z.new',
    'elim t [ Some v ↦ v w | None ↦ v ]': 'elim t Some w None v',
}


def wrong_sample():
    """Which text of the sample is read wrongly: its names that are not bound, in order."""
    found = {text: ' '.join(free(tokens_of(text), Scope((), {'Some', 'None'}.__contains__))) for text in SAMPLE}
    return [f'names.py reads its sample wrongly: {text}: {found[text]}' for text, names in SAMPLE.items()
            if sorted(found[text].split()) != sorted(names.split())]
