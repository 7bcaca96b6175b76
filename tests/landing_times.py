#!/usr/bin/env python3
"""landing_times.py plan|measure|write [LETTER ..]: what a request's landing costs the prover, before and after.

The first paragraph of docs/changes/LETTER.md names the commits that landed a request. Those count that change a crate's src/, specs/ or
proofs/; such a crate is touched. Before is the first parent of the first of them, after is the last.

  plan     prints commits, trees and crates, and measures nothing
  measure  proves both trees crate by crate, each with what it stands on proved before, and prints the times for the note
  write    puts times that were measured into the notes, in place of the first paragraph below `Check times`

Times are processor seconds of `rt check` in a crate's folder with nothing in its out/, less those of a second run, in which it finds the crate
unchanged. So other work may go on beside it, but no other checkout with work of the same crates: rt begins a check with what such a one has kept.
Trees from before docs/PORT.md want the older kit, whose times the notes up to then have, and are not measured by this one. Times are kept in FOLDER (--into FOLDER, else target/landing), by the content of a crate and of all that it
stands on: what did not change is measured once. --crates A,B takes these crates alone. RT names another command in place of rt.
"""
import argparse
import hashlib
import json
import os
import re
import resource
import shutil
import subprocess
import sys
import textwrap
from pathlib import Path

ROOT = Path(__file__).resolve().parents[1]
NOTES = ROOT / 'docs' / 'changes'
PARTS = ('src', 'specs', 'proofs')
HEAD = '## Check times\n'


def git(*words):
    """What git prints in this repository."""
    done = subprocess.run(['git', '-C', str(ROOT), *words], capture_output=True, check=True, encoding='utf-8')
    return done.stdout


def named(note):
    """The commits that the first paragraph of a note names."""
    return re.findall(r'\b[0-9a-f]{8}\b', note.split('\n\n')[1])


def crate_of(path):
    """The crate whose proof a file belongs to, or none."""
    words = path.split('/')
    return words[1] if len(words) > 3 and words[0] == 'crates' and words[2] in PARTS else None


def stands_on(listing):
    """The crates of a crates.txt in its order, each with those that it stands on."""
    rows = [line.partition(':') for line in listing.splitlines() if line.strip() and not line.startswith('#')]
    return {name.split()[0]: words.split() for name, _, words in rows}


def below(crates, wanted):
    """These crates and all that they stand on, in the order of crates.txt."""
    found, left = set(), [name for name in wanted if name in crates]
    while left:
        name = left.pop()
        if name in crates and name not in found:
            found.add(name)
            left += crates[name]
    return [name for name in crates if name in found]


def said(before, after, times):
    """The paragraph for a note: times are (crate, seconds before, seconds after), none where the crate is not there."""
    def seconds(one):
        return one if isinstance(one, str) else f'{one:.1f}'
    both = [f'{name} {seconds(old)}, {seconds(new)}' for name, old, new in times if old is not None and new is not None]
    new = [f'{name} {seconds(new)}' for name, old, new in times if old is None and new is not None]
    gone = [f'{name} {seconds(old)}' for name, old, new in times if new is None and old is not None]
    parts = both + [f'{word}: {", ".join(some)}' for word, some in (('new', new), ('gone', gone)) if some]
    text = (f'Processor seconds of `rt check`, one crate at a time from nothing, at {before} before and {after} after '
            f'(`tests/landing_times.py`): {"; ".join(parts)}.')
    return textwrap.fill(text, 110, break_long_words=False, break_on_hyphens=False)


def with_times(note, paragraph):
    """A note with this paragraph in place of the first below its head of times."""
    front, head, rest = note.partition(HEAD)
    if not head:
        raise ValueError('a note without times')
    _, gap, end = rest.partition('\n\n')
    return front + head + paragraph + (gap or '\n') + end


def wrong_sample():
    """Which part of the sample is read wrongly."""
    listing = '# NAME: others\na:\nb: a\nc: a\nd staticlib: b io\n'
    paragraph = said('x', 'y', [('a', 1.04, 2.0), ('b', None, 3.0), ('c', 4.0, None), ('d', 1.0, 'does not prove')])
    parts = {
        'named': named('# R\n\nSpeaks of 4f915b3f and 15a9da27.\n\n31be9492\n') == ['4f915b3f', '15a9da27'],
        'crate': [crate_of(f'crates/a/{rest}') for rest in ('src/b.rt', 'must-fail/b.edit', 'src')] == ['a', None, None],
        'below': below(stands_on(listing), ['d', 'gone']) == ['a', 'b', 'd'],
        'said': paragraph.replace('\n', ' ').endswith(': a 1.0, 2.0; d 1.0, does not prove; new: b 3.0; gone: c 4.0.'),
        'note': with_times(f'a\n\n{HEAD}old\nold\n\nmore\n', 'new') == f'a\n\n{HEAD}new\n\nmore\n',
        'last': with_times(f'{HEAD}old\n', 'new') == f'{HEAD}new\n',
    }
    return [name for name, right in parts.items() if not right]


class Landing:
    """A request's landing: its commits, the trees before and after, the crates that it touched."""

    def __init__(self, letter, order, only):
        ids = [git('rev-parse', '--short=8', name).strip() for name in named((NOTES / f'{letter}.md').read_text(encoding='utf-8'))]
        self.letter = letter
        self.commits = sorted(set(ids), key=lambda one: order[one])
        self.own = {one: self.changed(one) for one in self.commits}
        proving = [one for one in self.commits if self.own[one]]
        self.before = git('rev-parse', '--short=8', f'{proving[0]}^1').strip()
        self.after = proving[-1]
        touched = set().union(*self.own.values())
        self.touched = sorted(touched & only if only else touched)

    @staticmethod
    def changed(commit):
        """The crates that a commit changes against its first parent."""
        files = git('diff', '--name-only', f'{commit}^1', commit, '--', 'crates').splitlines()
        return {crate_of(file) for file in files} - {None}


class Tree:
    """The crates of a commit."""

    def __init__(self, commit):
        self.commit = commit
        self.crates = stands_on(git('show', f'{commit}:crates.txt'))
        listed = git('ls-tree', '-r', commit, '--', 'crates').splitlines()
        files = [(line.partition('\t')[2], line) for line in listed]
        self.files = {name: [line for path, line in files if crate_of(path) == name] for name in self.crates}

    def key(self, name):
        """The crate by its content and that of all that it stands on."""
        text = '\n'.join(line for one in below(self.crates, [name]) for line in [one, *self.files[one]])
        return f'{name} {hashlib.sha256(text.encode()).hexdigest()[:16]}'


class Prover:
    """A clone in which trees are proved, and the times of it."""

    def __init__(self, folder):
        self.clone, self.kept = folder / 'clone', folder / 'times.json'
        self.times = json.loads(self.kept.read_text(encoding='utf-8')) if self.kept.exists() else {}

    def rt(self, name, command):
        """Runs a command of rt in a crate's folder; whether it passed, and the processor seconds that it took."""
        def used():
            spent = resource.getrusage(resource.RUSAGE_CHILDREN)
            return spent.ru_utime + spent.ru_stime
        began = used()
        done = subprocess.run([os.environ.get('RT', 'rt'), command], cwd=self.clone / 'crates' / name, capture_output=True,
                              env={**os.environ, 'RT_JOBS': '1'}, check=False)
        return done.returncode == 0, used() - began

    def time(self, tree, name):
        """The time of one crate, whose dependencies are proved and built first."""
        if not all(self.rt(other, 'lib')[0] for other in tree.crates[name] if other in tree.crates):
            return 'not reached'
        shutil.rmtree(self.clone / 'crates' / name / 'out', ignore_errors=True)
        proved, first = self.rt(name, 'check')
        return round(first - self.rt(name, 'check')[1], 2) if proved else 'does not prove'

    def measure(self, tree, wanted):
        """Times of these crates of a tree that are not known yet."""
        if all(tree.key(name) in self.times for name in wanted):
            return
        if not self.clone.exists():
            subprocess.run(['git', 'clone', '-q', str(ROOT), str(self.clone)], check=True)
        subprocess.run(['git', '-C', str(self.clone), 'checkout', '-q', '--detach', tree.commit], check=True)
        for name in below(tree.crates, wanted):
            if tree.key(name) not in self.times:
                self.times[tree.key(name)] = self.time(tree, name)
                self.kept.write_text(json.dumps(self.times, indent=1, sort_keys=True), encoding='utf-8')
                print(f'{tree.commit} {name}: {self.times[tree.key(name)]}', flush=True)


def wanted_in(tree, landing):
    return [name for name in tree.crates if name in landing.touched]


def plan(landings, trees, prover):
    """What would be measured."""
    left = set()
    for landing in landings:
        print(f'{landing.letter}: before {landing.before}, after {landing.after}')
        for commit in landing.commits:
            title = git('log', '-1', '--format=%s', commit).strip()
            print(f'  {commit} {title}: {" ".join(sorted(landing.own[commit])) or "no proof"}')
        for commit in (landing.before, landing.after):
            tree = trees[commit]
            own = below(tree.crates, wanted_in(tree, landing))
            new = {tree.key(name) for name in own} - {*prover.times, *left}
            left |= new
            print(f'  {commit}: {len(wanted_in(tree, landing))} touched, {len(own)} with what they stand on, {len(new)} to measure')
    print(f'{len(left)} crates to prove and measure')


def paragraph_of(landing, trees, prover):
    """The paragraph for the note, or none where times are missing."""
    old, new = trees[landing.before], trees[landing.after]

    def time(tree, name):
        return prover.times.get(tree.key(name), 'not measured') if name in tree.crates else None
    times = [(name, time(old, name), time(new, name)) for name in landing.touched]
    return None if any('not measured' in row for row in times) else said(landing.before, landing.after, times)


def main():
    parser = argparse.ArgumentParser(description=__doc__, formatter_class=argparse.RawDescriptionHelpFormatter)
    parser.add_argument('what', choices=('plan', 'measure', 'write'))
    parser.add_argument('letters', nargs='*')
    parser.add_argument('--into', type=Path, default=ROOT / 'target' / 'landing')
    parser.add_argument('--crates', default='')
    words = parser.parse_intermixed_args()
    if wrong_sample():
        sys.exit(f'landing_times.py reads its sample wrongly: {", ".join(wrong_sample())}')
    if words.what == 'write' and words.crates:
        sys.exit('landing_times.py: a note has the times of all crates that were touched')
    order = {one[:8]: place for place, one in enumerate(git('rev-list', '--topo-order', '--reverse', 'HEAD').split())}
    letters = words.letters or sorted(note.stem for note in NOTES.glob('*.md'))
    landings = [Landing(letter, order, set(words.crates.split(',')) - {''}) for letter in letters]
    commits = {commit for landing in landings for commit in (landing.before, landing.after)}
    trees = {commit: Tree(commit) for commit in sorted(commits, key=lambda one: order[one])}
    words.into.mkdir(parents=True, exist_ok=True)
    prover = Prover(words.into)
    if words.what == 'plan':
        plan(landings, trees, prover)
        return
    if words.what == 'measure':
        for commit, tree in trees.items():
            prover.measure(tree, {name for one in landings if commit in (one.before, one.after) for name in wanted_in(tree, one)})
    for landing in landings:
        paragraph = paragraph_of(landing, trees, prover)
        note = NOTES / f'{landing.letter}.md'
        if words.what == 'write' and paragraph:
            note.write_text(with_times(note.read_text(encoding='utf-8'), paragraph), encoding='utf-8')
        print(f'{landing.letter}: {paragraph or "not measured yet"}')


if __name__ == '__main__':
    main()
