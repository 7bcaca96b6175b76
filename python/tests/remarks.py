"""Remarks of the edits that must be refused: the input that each names, and its two answers, one wrong and one right.

An answer in the words of a remark is asked of whatever answers calls: the library, or a program with the edit in it.
"""
import re
from typing import NamedTuple

from here import ROOT
from tarczolin._library import ANSWERED, IDLE, REFUSED, SCHEDULE, SECOND_REFUSED, Answer

HEX = r'(?:[0-9a-f]{2})+(?: (?:[0-9a-f]{2})+)*'
FILE = rf'on (?P<file>{HEX})'
STEPS = rf'(?P<steps>{HEX}|no steps)'
WRONG, RIGHT = r'(?P<wrong>[^;]*?)', r'(?:; right is (?P<right>.*))'
ROOM = r'(?:(?: and an output of|, with) (?P<room>\d+) bytes)?'
SCRATCH = r'(?: with a scratch)?'
SHARED = r'(?:open|ask|serve|close|set|return|forget)\b[^,;]*?'
# what a remark asks, and the call that answers it
ASKED = [
    (rf'on the line (?P<line>\S+), check answers {WRONG}{RIGHT}', 'check'),
    (rf'{FILE}, (?:tarczolin_)?check answers {WRONG}{RIGHT}', 'check'),
    (rf'{FILE}, (?:count{SCRATCH} (?:answers|leaves)|tarczolin_(?:tso_)?count_with (?:answers|stores)|counting by keys answers) '
     rf'{WRONG}{RIGHT}', 'count'),
    (rf'{FILE}, (?P<wrong>\d+) (?:is|are) listed{RIGHT}', 'count'),
    (rf'{FILE}{ROOM}, tarczolin_kth answers {WRONG} to (?P<k>\d+){RIGHT}', 'kth'),
    (rf'{FILE}, the member number (?P<k>\d+) is {WRONG}{RIGHT}', 'kth'),
    (rf'{FILE}, (?:tarczolin_rank of|the number of) {STEPS} (?:stores|answers|is) {WRONG}{RIGHT}', 'rank'),
    (rf'{FILE}, (?:violation{SCRATCH}|tarczolin_(?:tso_)?violation_with) answers {WRONG}{RIGHT}', 'violation'),
    (rf'{FILE}{ROOM}, start(?: under total store order)? answers {WRONG}{RIGHT}', 'start'),
    (rf'{FILE}, continue from {STEPS} answers {WRONG}{RIGHT}', 'continue'),
    (rf'{FILE}{ROOM}, (?:rows answers|the rows are) {WRONG}{RIGHT}', 'rows'),
    (rf'{FILE}, the rows after {STEPS} are {WRONG}{RIGHT}', 'rows_after'),
    (rf'{FILE} by {STEPS}{ROOM}, (?:the graph is|the graph text is|the graph call answers|the answer is) {WRONG}{RIGHT}', 'graph'),
    (rf'{FILE} (?:by|and the schedule) {STEPS}, (?:class_size answers|the class has|the class call answers|tarczolin_class answers) '
     rf'{WRONG}{RIGHT}', 'class'),
    (rf'{FILE} and the graph (?P<text>{HEX}|of no lines), (?:the )?(?:judge answers|answer is) {WRONG}{RIGHT}', 'judge'),
    (rf'{FILE} by the set (?P<set>[0-9a-f]{{2}}), (?:force(?:_with)? answers|the answer would be) {WRONG}{RIGHT}', 'force'),
    (rf'{FILE} and (?P<second>{HEX}){ROOM}, (?:tarczolin_covers_with|covers) answers {WRONG}{RIGHT}', 'covers'),
    (rf'{FILE} and (?P<second>{HEX}) and the bytes (?P<models>\d and \d), covers_models answers {WRONG}{RIGHT}', 'covers_models'),
    (rf'{FILE}(?: and the number (?P<k>\d+))?{ROOM}, '
     rf'tarczolin_(?:tso_)?outcomes answers (?P<wrong>\d+ rows?|\d+ at \d+){RIGHT}', 'outcomes'),
    (rf'{FILE}{ROOM}, robust answers {WRONG}{RIGHT}', 'robust'),
    (rf'{FILE}, the schedule {STEPS} is (?P<wrong>(?:not )?found){RIGHT}', 'listed'),
    (rf'on (?P<calls>fresh records|{SHARED}(?:, {SHARED})*), then (?P<last>{SHARED}) answers {WRONG}{RIGHT}', 'records'),
]
# in these words a remark speaks of total store order
STORE_ORDER = ('tso_count_with', 'tso_violation_with', 'tso_outcomes', 'under total store order')


class Request(NamedTuple):
    """A call: its name with the model's, its file, what else it is lent, a number, the room of its output, and two models."""

    name: str
    file: bytes
    second: bytes = b''
    number: int = 0
    room: int = 0
    models: tuple = ()


class Got(NamedTuple):
    """What came of a request: the word taken apart, the output, the two numbers where it stores some."""

    answer: Answer
    out: bytes
    numbers: tuple


# what calls say where they answer no schedule
NOTHING = {'judge': 'no', 'covers': 'covered', 'covers_models': 'covered', 'robust': 'robust', 'violation': 'none'}


class Remark(NamedTuple):
    """An edit whose remark asks a call something."""

    path: object
    asked: str
    found: dict
    tso: str

    @property
    def file(self):
        return text(self.found.get('line') or self.found['file'])

    def request(self):
        """The request whose answer the remark speaks of, with the room that it names; for a list, that of its first schedule."""
        request = self.widely()
        return request._replace(room=int(self.found['room'])) if self.found.get('room') else request

    def widely(self):
        """The same with room enough."""
        asked, found = self.asked, self.found
        if asked in ('check', 'count'):
            return Request('check' if asked == 'check' else f'{self.tso}count', self.file)
        if asked == 'kth':
            return Request('kth', self.file, number=int(found['k']), room=48)
        if asked in ('rank', 'class'):
            return Request(asked if asked == 'rank' else f'{self.tso}class', self.file, steps(found['steps']))
        if asked == 'force':
            return Request('force', self.file, number=int(found['set'], 16))
        if asked == 'judge':
            return Request('judge', self.file, b'' if found['text'] == 'of no lines' else text(found['text']), room=512)
        if asked == 'covers':
            return Request('covers', self.file, text(found['second']), room=512)
        if asked == 'covers_models':
            return Request('covers_models', self.file, text(found['second']), room=48, models=tuple(map(int, found['models'].split(' and '))))
        if asked == 'outcomes':
            return Request(f'{self.tso}outcomes', self.file, number=int(found['k'] or 0), room=512)
        if asked == 'robust':
            return Request('robust', self.file, room=512)
        name = 'start' if asked == 'listed' else asked
        second = steps(found['steps']) if asked in ('graph', 'continue', 'rows_after') else b''
        return Request(self.tso + name, self.file, second, room=512)

    def calls(self):
        """The calls on records, the last of which is the one that the remark speaks of."""
        calls = [] if self.found['calls'] == 'fresh records' else self.found['calls'].split(', ')
        for name, _, rest in (one.partition(' ') for one in [*calls, self.found['last']]):
            caller, _, lent = rest.partition(' ')
            yield Request(name, text(lent) if name == 'open' else lent.encode(), number=int(caller or 0), room=SCHEDULE if name == 'serve' else 0)

    def words(self, got):
        """An answer in the words that remarks have for it."""
        if self.asked == 'records':
            return shared(got, self.found['last'])
        if got.answer.kind == REFUSED:
            return refused(got.answer) | {f'kind {REFUSED}'}
        if self.asked == 'check':
            return {'accepted', f'kind {got.answer.kind} with length {got.answer.value}'}
        if self.asked in ('count', 'rank'):
            one, other = map(str, got.numbers)
            return {one, f'{one} listed', f'{one} and {other}', f'{one} and {other} failing', f'kind {got.answer.kind} with {got.answer.value}'}
        if self.asked in ('class', 'rows', 'rows_after', 'outcomes'):
            rows = 'row' if got.answer.value == 1 else 'rows'
            return {str(got.answer.value), f'{got.answer.value} {rows}'}
        if self.asked == 'graph':
            lines = got.out[:got.answer.value].decode(errors='replace').split()
            length = str(got.answer.value)
            last = {lines[-1], f'a text that ends in {lines[-1]}'} if lines else {'a text of no lines'}
            return {' '.join(lines), length, f'a length of {length}', 'a text', *last}
        if self.asked == 'force':
            value = got.answer.value
            hostile = {f'hostile by {value - 1:02x}', f'by {value - 1:02x}'} if value else {'hostile without a step'}
            return hostile if got.answer.kind == ANSWERED else {'friendly'}
        none = NOTHING.get(self.asked, 'no more')
        return schedule_of(got, none)

    def wrong(self):
        """The wrong answer, without the reason behind it."""
        return re.sub(r', since .*| at once| by its kind 2', '', self.found['wrong'])


def text(tokens):
    """A line for each of these words."""
    return b''.join(word.encode() + b'\n' for word in tokens.split())


def steps(words):
    return b'' if words == 'no steps' else bytes.fromhex(words)


def told(schedule):
    """A schedule in the words that remarks have for it, or its length."""
    length = str(len(schedule))
    if not schedule:
        return {'a schedule', 'a schedule of no steps', 'no steps', 'yes with no steps', "the second's of none", length, f'a length of {length}',
                'kind 1 with length 0'}
    words = schedule.hex(' ')
    return {'a schedule', words, f'kind 1 with length {length}', f'yes with {words}', f'the schedule {words}', length,
            f'the schedule {schedule.hex()}', f'a length of {length}'}


def refused(answer):
    at = f'{answer.number} at'
    return {f'{at} {answer.value}', f'{at} line {answer.value}', f'refusal {at} line {answer.value}',
            f'that the first file is refused by {at} {answer.value}'}


def shared(got, call):
    """The answer of a call on records in the words that remarks have for it."""
    kind, number, value = got.answer
    words = {f'kind {kind}', f'kind {kind} with length {value}'}
    if kind == REFUSED:
        return words | {f'refused by {number}', f'{number} at {value}'}
    if not call.startswith('serve'):
        return words | {'done'}
    caller, length = value >> 40, value & (1 << 40) - 1
    handed = told(got.out[:length]) if kind == ANSWERED else {'idle' if kind == IDLE else 'no more'}
    return words | handed | {f'caller {caller}'}


def schedule_of(got, none):
    kind = {f'kind {got.answer.kind}'}
    if got.answer.kind == SECOND_REFUSED:
        return refused(got.answer) | kind | {'the second'}
    return kind | (told(got.out[:got.answer.value]) if got.answer.kind == ANSWERED else {none})


def remarks():
    """Each edit whose remark asks a call something, and the paths of all others."""
    known, others = [], []
    for path in sorted(ROOT.glob('crates/*/must-fail/*.edit')):
        lines = path.read_text().split('\nfile:')[0].split('\n')
        remark = ' '.join(line.lstrip('#').strip() for line in lines[1:])
        found = next(((match, asked) for pattern, asked in ASKED if (match := re.fullmatch(pattern, remark))), None)
        if found is None:
            others.append(path)
            continue
        named, crate = found[0].groupdict(), path.parts[-3]
        flushes = any(byte >= 16 for byte in steps(named.get('steps') or 'no steps'))
        tso = 'tso_' if flushes or '_tso' in crate or crate.startswith('tso_') or any(words in remark for words in STORE_ORDER) else ''
        known.append(Remark(path, found[1], named, tso))
    return known, others
