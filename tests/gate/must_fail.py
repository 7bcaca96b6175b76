"""What a must-fail edit says, and whether it can be made. That the prover refuses each, and for what, is told by `rt ci`: an edit that cannot be
applied, compiled or read is a BAD EDIT there, and one that is still proved fails it.
"""


def without_input(edit):
    """What an edit's remarks lack, or None: what it does, and behind it an input with the edited answer and the right one."""
    remarks = [line[1:].strip() for line in edit.splitlines() if line.startswith('#')]
    if len(remarks) < 2:
        return 'it says no input on which it answers wrongly'
    if '; right is ' not in ' '.join(remarks[1:]):
        return 'it does not say what the right answer is'
    return None


def misplaced(edit, read):
    """Why an edit cannot be made, or None: each `old:` text stands once in its file, as the pairs before have left it."""
    texts, file, old = {}, '', ''
    for line in edit.splitlines():
        if line.startswith('file: '):
            file = line[len('file: '):]
            texts.setdefault(file, read(file))
        elif line.startswith('old: '):
            old = line[len('old: '):]
        elif line.startswith('new:'):
            text = texts.get(file)
            if text is None:
                return f'there is no {file}'
            if text.count(old) != 1:
                return f'`{old}` stands {text.count(old)} times in {file}'
            texts[file] = text.replace(old, line[len('new:'):].removeprefix(' '))
    return None


PLACED = {
    'file: a\nold: x = 1\nnew: x = 2\n': None,
    'file: a\nold: x = 1\nnew: y = 2\nold: y = 2\nnew: y = 3\n': None,
    'file: a\nold: y\nnew: z\n': '`y` stands 2 times in a',
    'file: b\nold: y\nnew: z\n': 'there is no b',
}
EDITS = {
    '# does this\n# on 01, check answers 9; right is accepted\nfile: a\n': None,
    '# does this\n# on 01 01 01 01,\n# check answers 9; right is accepted\n': None,
    '# does this; right is that\nfile: a\n': 'it says no input on which it answers wrongly',
    '# does this\n# on 01, check answers 9\n': 'it does not say what the right answer is',
}


def wrong_samples():
    """Which edit of the samples is read wrongly."""
    said = [f'an edit is placed wrongly: {edit!r}' for edit, why in PLACED.items()
            if misplaced(edit, {'a': 'x = 1; y y'}.get) != why]
    return said + [f'an edit is read wrongly: {edit!r}' for edit, why in EDITS.items() if without_input(edit) != why]
