#!/usr/bin/env python3
"""edits.py [--some N] [--crate NAME ..] [--list] [--tree FOLDER]: the wrong answers that the remarks of edits speak of, given by the programs with the edits in them.

Each edit of a source file whose remark asks a call something is made in a copy of its crate. `rt try` runs tests/backends/main.rattle over
all crates, unproved, and it asks the remark's input; the answer has to be the remark's wrong one. (That the right one is the library's is tested by
python/tests/test_edits.py.) Edits that cannot be run so are told by --list with the reason: a definition, which no program reads, or a
remark that speaks of an inner function or of what a record holds.

--some N takes N edits, drawn by the commit's hash. --tree FOLDER makes the folder that such a program is run in, without an edit, and runs
nothing: for `make backends`. The last line counts; the exit status is 0 exactly where none differs. EDITS_JOBS=N: so many at a time, else 2.
"""
import argparse
import hashlib
import os
import random
import re
import shutil
import struct
import subprocess
import sys
import tempfile
from concurrent.futures import ThreadPoolExecutor
from pathlib import Path

ROOT = Path(__file__).resolve().parents[1]
sys.path[:0] = [str(ROOT / 'python' / 'tests')]
sys.dont_write_bytecode = True
from remarks import Got, remarks, steps  # noqa: E402
from tarczolin._library import ANSWERED, Answer  # noqa: E402

# the numbers of the calls in tests/backends/main.rattle; the second are those with a scratch
CALLS = {
    'check': 0, 'graph': 1, 'class': 2, 'judge': 3, 'start': 4, 'continue': 5, 'violation': 6, 'rows': 7, 'rows_after': 8, 'covers': 9, 'force': 10,
    'tso_graph': 11, 'tso_class': 12, 'tso_start': 13, 'tso_continue': 14, 'tso_violation': 15, 'tso_rows': 16, 'tso_rows_after': 17, 'count': 18,
    'tso_count': 19, 'robust': 27,
}
LENT = {
    'count': 28, 'violation': 29, 'tso_count': 30, 'tso_violation': 31, 'kth': 32, 'rank': 33, 'covers': 34, 'force': 35, 'outcomes': 36,
    'tso_outcomes': 37, 'covers_models': 38,
}
SHARED = {'open': 20, 'ask': 21, 'serve': 22, 'close': 23, 'set': 24, 'return': 25, 'forget': 26}
# such a call is asked with so many times 32 words of scratch: some states show an edit only where all others stay in the table
SCRATCHES = (255, 2, 0)
LONGER = [('[5u64; 256]', '[5u64; 8192]'), ('{ b.len() % 256 } else { set as usize }', '{ b.len() % 256 * 32 } else { set as usize * 32 }')]
# rt tells less than a MiB of what a program wrote, and so many bytes of an output are asked for
TOLD, SHOWN = 1 << 19, 64
WRITTEN = 'write_all(&rt, &out[..n])?;'


class Asked:
    """Requests as the program over all crates reads them, and their answers."""

    def __init__(self, remark):
        self.remark = remark
        self.asked = []  # (bytes, the lengths of the answer and of the output that is shown, how many numbers it has)
        if remark.asked == 'records':
            self.take_calls(list(remark.calls()))
            return
        for one in self.wanted():
            self.take(one)

    def wanted(self):
        """The remark's request; of a list, its first schedule, and what follows each of the right list that is smaller."""
        request = self.remark.request()
        if self.remark.asked != 'listed':
            return [request]
        schedule = steps(self.remark.found['steps'])
        smaller = [one for one in listed(request) if one < schedule]
        return [request, *(request._replace(name=f'{self.remark.tso}continue', second=one) for one in smaller)]

    def take(self, request):
        """Asks without a scratch where there is such a call, and with scratches where there is one."""
        if request.name in CALLS:
            set_ = request.number if request.name == 'force' else 0
            numbers = 2 if request.name.endswith('count') else 0
            self.add(CALLS[request.name], set_, request, 8 + 8 * numbers, numbers)
        for words in SCRATCHES if request.name in LENT else ():
            if request.name == 'force':
                self.add(LENT['force'], request.number, request._replace(second=bytes(words)), 40, 2)
            else:
                second = request.number.to_bytes(8, 'little') if request.name.endswith(('kth', 'outcomes')) else request.second
                one, other = request.models or (0, 0)
                self.add(LENT[request.name] + 3 * one + other, words, request._replace(second=second), 40, 2)

    def take_calls(self, calls):
        """Asks calls on records one behind the other, of which the last alone writes its answer."""
        silent = b''.join(self.headed(SHARED[one.name], one.number + 128, one) for one in calls[:-1])
        last = calls[-1]
        self.asked.append((silent + self.headed(SHARED[last.name], last.number, last), 16, last.room, 0))

    @staticmethod
    def headed(call, byte, request):
        return struct.pack('<BBHHH', call, byte, len(request.file), len(request.second), request.room) + request.file + request.second

    def add(self, call, byte, request, length, numbers):
        self.asked.append((self.headed(call, byte, request), length, min(request.room, SHOWN), numbers))

    def parts(self):
        """The requests in parts, each of which is told whole."""
        parts, left = [], 0
        for one in self.asked:
            if one[1] + one[2] > left:
                parts.append([])
                left = TOLD
            parts[-1].append(one)
            left -= one[1] + one[2]
        return parts

    @staticmethod
    def answers(part, said):
        """The answers to a part in what the program wrote, as far as it wrote them."""
        for _, length, room, numbers in part:
            if len(said) < length + room:
                return
            word = int.from_bytes(said[:8], 'little')
            answer = Answer(word >> 56, word >> 48 & 0xff, word & (1 << 48) - 1)
            yield Got(answer, said[length:length + room], struct.unpack(f'<{numbers}Q', said[8:8 + 8 * numbers]) or (0, 0))
            said = said[length + room:]

    def is_wrong(self, got):
        """Whether an answer is the remark's wrong one."""
        if self.remark.asked == 'listed':
            schedule = steps(self.remark.found['steps'])
            found = any(one.answer.kind == ANSWERED and one.out[:one.answer.value] == schedule for one in got)
            return len(got) == len(self.asked) and found == (self.remark.found['wrong'] == 'found')
        return any(self.remark.wrong() in self.remark.words(one) for one in got)


def listed(request):
    """The right list, by the library."""
    from test_edits import library
    got = library(request)
    while got.answer.kind == ANSWERED:
        schedule = got.out[:got.answer.value]
        yield schedule
        got = library(request._replace(name=request.name.replace('start', 'continue'), second=schedule))


def source_of(path):
    """The file that an edit changes, and its texts, each with the one in its place."""
    text = path.read_text(encoding='utf-8')
    file = re.search(r'^file: (\S+)$', text, re.M)[1]
    parts = re.split(r'^(?:old|new):[ \n]', text.partition('\nfile: ')[2].partition('\n')[2], flags=re.M)
    texts = [part.strip('\n') for part in parts[1:]]
    return file, list(zip(texts[::2], texts[1::2]))


def tree(folder):
    """All crates in a folder, as sources, and with them the program over all of them."""
    for crate in sorted((ROOT / 'crates').iterdir()):
        for part in ('src', 'specs'):
            if (crate / part).is_dir():
                shutil.copytree(crate / part, folder / 'crates' / crate.name / part)
    (folder / 'crates' / 'backends' / 'src').mkdir(parents=True)
    program = (ROOT / 'tests' / 'backends' / 'main.rattle').read_text(encoding='utf-8')
    (folder / 'crates' / 'backends' / 'src' / 'main.rt').write_text(program, encoding='utf-8')
    listing = (ROOT / 'crates.txt').read_text(encoding='utf-8')
    calls = [name for name in re.search(r'^tarczolin_c staticlib: (.*)$', listing, re.M)[1].split() if name.startswith('c_')]
    (folder / 'crates.txt').write_text(f'{listing}\nbackends: {" ".join(calls)} service_record spec_service\n', encoding='utf-8')


def replaced(file, pairs):
    """Puts texts in place of others, each of which stands in the file once."""
    text = file.read_text(encoding='utf-8')
    for old, new in pairs:
        if text.count(old) != 1:
            raise ValueError(f'{file} has {text.count(old)} times {old}')
        text = text.replace(old, new)
    file.write_text(text, encoding='utf-8')


def made(folder, path):
    """That folder with an edit in it; its program shows the beginning of an output, and has a longer scratch."""
    tree(folder)
    shown = f'let m = if n > {SHOWN} {{ {SHOWN} }} else {{ n }};\n        write_all(&rt, &out[..m])?;'
    replaced(folder / 'crates' / 'backends' / 'src' / 'main.rt', [(WRITTEN, shown), *LONGER])
    file, pairs = source_of(path)
    replaced(folder / 'crates' / path.parts[-3] / file, pairs)


def run(folder, part):
    """What the program in the folder writes where it is asked these; and what rt says of it."""
    try:
        done = subprocess.run(['rt', 'try'], cwd=folder / 'crates' / 'backends', input=b''.join(one[0] for one in part), capture_output=True,
                              check=False, timeout=300, env={**os.environ, 'TMPDIR': str(folder)})
    except subprocess.TimeoutExpired:
        return b'', 'it does not end'
    return done.stdout, done.stderr.decode(errors='replace')[:600]


def tried(remark):
    """Whether the program with the edit answers as its remark says, and what it answered."""
    asked, got, why = Asked(remark), [], ''
    with tempfile.TemporaryDirectory(dir='/dev/shm' if os.access('/dev/shm', os.W_OK) else None) as name:
        made(Path(name), remark.path)
        for part in asked.parts():
            said, why = run(Path(name), part)
            got += asked.answers(part, said)
            if remark.asked != 'listed' and asked.is_wrong(got):
                return True, ''
    return asked.is_wrong(got), sorted({word for one in got for word in remark.words(one)}) or why


def drawn(some, number):
    """So many of them, by the commit's hash."""
    commit = subprocess.run(['git', '-C', str(ROOT), 'rev-parse', 'HEAD'], capture_output=True, check=False).stdout
    chance = random.Random(hashlib.sha256(commit).digest())
    return chance.sample(some, min(number, len(some)))


def main():
    parser = argparse.ArgumentParser(description=__doc__, formatter_class=argparse.RawDescriptionHelpFormatter)
    parser.add_argument('--some', type=int)
    parser.add_argument('--crate', nargs='*', default=[])
    parser.add_argument('--list', action='store_true')
    parser.add_argument('--tree', type=Path)
    words = parser.parse_args()
    if words.tree:
        tree(words.tree)
        return 0
    known, others = remarks()
    runnable = [one for one in known if source_of(one.path)[0].startswith('src/')]
    if words.list:
        ran = {one.path for one in runnable}
        for path in sorted({*others, *(one.path for one in known)} - ran):
            why = 'asks no call of a file' if source_of(path)[0].startswith('src/') else 'a definition'
            print(f'{path.relative_to(ROOT)}: {why}')
        print(f'{len(runnable)} can be run, {len(known) + len(others) - len(runnable)} cannot')
        return 0
    chosen = [one for one in runnable if not words.crate or one.path.parts[-3] in words.crate]
    chosen = drawn(chosen, words.some) if words.some else chosen
    failed = 0
    with ThreadPoolExecutor(max_workers=int(os.environ.get('EDITS_JOBS', '2'))) as pool:
        for remark, (right, said) in zip(chosen, pool.map(tried, chosen)):
            if not right:
                failed += 1
                print(f'{remark.path.relative_to(ROOT)}: not {remark.wrong()!r}: {said}', flush=True)
    print(f'edits: {len(chosen) - failed} give the wrong answer that they speak of, {failed} do not', flush=True)
    return 1 if failed else 0


if __name__ == '__main__':
    sys.exit(main())
