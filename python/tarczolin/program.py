"""Programs, and what can be asked of them."""
from __future__ import annotations

import os
from ctypes import byref, c_uint64
from dataclasses import dataclass
from functools import cached_property
from itertools import islice
from math import prod
from typing import Any, Dict, Iterable, Iterator, List, NamedTuple, Optional, Tuple, Union

from . import _frames
from ._library import ANSWERED, GRAPH, REFUSED, SCHEDULE, SECOND_REFUSED, TSO_SCHEDULE, VALUES, Answer, call, room, scratch
from ._matching import matched
from ._random import Numbers
from .errors import Refused, Unfit, line_at
from .execution import Execution
from .text import Note, imported, is_file, translated

Schedule = Union[bytes, str]
PAGE = 1024
# at most so many bytes to remember states in, and so many words for each way in which the threads can stand at their accesses
MEMORY, EACH = 16 << 20, 16 * 20
# so many outcomes are asked for at a time, and so many words have room for some thousands of them
ROWS, OUTCOMES = 4096, 1 << 18
# the models, each at the place of the byte that names it
MODELS = ('sc', 'tso')


class Count(NamedTuple):
    """How many schedules are listed, and how many of these fail."""

    listed: int
    failing: int


@dataclass(frozen=True)
class Judgement:
    """Whether a graph can happen, which is also its truth value, and the least schedule that makes it."""

    possible: bool
    schedule: Optional[bytes]

    def __bool__(self) -> bool:
        return self.possible


@dataclass(frozen=True)
class Covering:
    """Whether a program covers another, which is also its truth value, and else the first execution of the other that it lacks."""

    covered: bool
    execution: Optional[Execution]

    def __bool__(self) -> bool:
        return self.covered


@dataclass(frozen=True)
class Robustness:
    """Whether a program is robust, which is also its truth value, and else the first relaxed execution of total store order."""

    robust: bool
    execution: Optional[Execution]

    def __bool__(self) -> bool:
        return self.robust


@dataclass(frozen=True)
class Force:
    """Who can force its end, `hostile` or `friendly`, and the hostile side's least first step that keeps its win, if it has one."""

    winner: str
    first: Optional[int]


@dataclass(frozen=True)
class Outcome:
    """A final memory, by the names of its locations, whether an assertion fails, and the first listed execution that ends so."""

    memory: Dict[str, int]
    fails: bool
    first: Execution


@dataclass(frozen=True)
class End:
    """An end with its registers: how many listed executions end so, how many executions these stand for, and the first of them."""

    memory: Dict[str, int]
    registers: Dict[str, int]
    failed: Dict[str, int]
    listed: int
    executions: int
    first: Execution

    @property
    def fails(self) -> bool:
        """Whether an assertion fails."""
        return bool(self.failed)


def _steps(schedule: Schedule) -> bytes:
    """A schedule from its bytes or its digits."""
    return bytes.fromhex(schedule) if isinstance(schedule, str) else bytes(schedule)


class Program:
    """A program that the library accepts, under sequential consistency (`sc`) or total store order (`tso`).

    `source` is a program file as `bytes`, or a text: of digits, as a file has them, or in the text form, which the command
    `tarczolin` translates. Fences of a text are left out under sequential consistency, where they mean nothing; `notes` says so.
    A file that is refused raises `Refused`, a wrong text `TextError`.
    """

    def __init__(self, source: Union[bytes, str], model: str = 'sc'):
        if model not in ('sc', 'tso'):
            raise ValueError(f'a model is sc or tso, not {model!r}')
        self.model = model
        self.notes: Tuple[Note, ...] = ()
        if isinstance(source, str) and not is_file(source.encode('utf-8')):
            self.file, self.notes = translated(source, model)
        else:
            self.file = source.encode('utf-8') if isinstance(source, str) else bytes(source)
        # with no output at all 22 refuses what the file does not, behind all that the file is refused by
        answer = call('check', self.file) if model == 'sc' else call('tso_start', self.file, room(0))
        if answer.number != 22:
            self._done(answer)

    @classmethod
    def read(cls, path: Union[str, 'os.PathLike[str]'], model: str = 'sc') -> 'Program':
        """The program of a file, by its name's end and its content.

        A name in `.litmus` is a litmus test for x86; one in `.asm` is a text, and so is what has other lines than digits; all else is a
        program file. What a text or a test expects is not looked at.
        """
        with open(path, 'rb') as file:
            # of a program file no more is read than shows that it is too long, of a text what the command reads
            source = file.read((1 << 20) + 1)
        name = os.fspath(path)
        if name.endswith('.litmus'):
            return cls(imported(source.decode('utf-8', 'replace')), model)
        is_text = name.endswith('.asm') or not is_file(source)
        return cls(source.decode('utf-8', 'replace') if is_text else source, model)

    def __repr__(self) -> str:
        return f'Program({self.file!r}, model={self.model!r})'

    @cached_property
    def code(self) -> _frames.Code:
        """What the file says, taken apart: for names and final values."""
        return _frames.decoded(self.file)

    def executions(self, after: Optional[Schedule] = None, start: int = 0, stop: Optional[int] = None) -> Iterator[Execution]:
        """The listed executions in order, one of each class; or those behind a schedule, which need not be listed nor full.

        `start` and `stop` choose by number, from 0, as a slice does: under sequential consistency the first of them is found at once
        (`kth`), under total store order those in front of it are walked over.
        """
        if start < 0 or (stop is not None and stop < 0):
            raise ValueError('start and stop are numbers from 0 on')
        if after is not None and (start > 0 or stop is not None):
            raise ValueError('executions are chosen by a schedule or by numbers, not by both')
        most = None if stop is None else max(stop - start, 0)
        if start == 0 or most == 0:
            return islice(self._behind(None if after is None else _steps(after)), most)
        if self.model != 'sc':
            return islice(self._behind(None), start, stop)
        before = self._number(start - 1, MEMORY)
        return iter(()) if before is None else islice(self._behind(before), most)

    def _behind(self, last: Optional[bytes]) -> Iterator[Execution]:
        """The listed executions behind a schedule, or all."""
        size = 2 + self._size
        rows = room(PAGE * size)
        while True:
            answer = self._call('rows', rows) if last is None else self._call('rows_after', last, rows)
            page = rows.raw[:answer.value * size]
            for at in range(0, len(page), size):
                steps = page[at + 2:at + 2 + page[at]]
                last = steps
                yield Execution(self, steps, page[at + 1] == 1)
            if answer.value < PAGE:
                return

    def kth(self, k: int, memory: int = MEMORY) -> Optional[Execution]:
        """The listed execution number k, from 0, of a list of any length; None where the list has not so many.

        Asked of a program under sequential consistency. States are remembered as for `count`.
        """
        steps = self._number(k, memory)
        if steps is None:
            return None
        # a full schedule is the only one that begins as it does without its last step: the first row behind that is its own
        row = room(2 + SCHEDULE)
        answer = self._call('rows_after', steps[:-1], row) if steps else self._call('rows', row)
        if answer.value != 1 or row.raw[2:2 + row.raw[0]] != steps:
            raise RuntimeError(f'the row of {steps.hex()} is not its own')
        return Execution(self, steps, row.raw[1] == 1)

    def rank(self, schedule: Schedule, memory: int = MEMORY) -> int:
        """How many listed executions are smaller than a full schedule. It is listed itself exactly where `kth` of that is it.

        Asked of a program under sequential consistency. States are remembered as for `count`.
        """
        self._only_sc('rank')
        rank = c_uint64()
        self._call('rank', _steps(schedule), byref(rank), scratch(self._words(memory)), subject='schedule')
        return rank.value

    def sample(self, n: int, seed: int, memory: int = MEMORY) -> List[Execution]:
        """n listed executions, each drawn from the whole list and as likely as any other, so that one may come more than once.

        The same seed, a number below 2^64, draws the same, as `tarczolin sample` does. Asked of a program under sequential consistency.
        """
        self._only_sc('sample')
        if n < 0:
            raise ValueError(f'so many as {n} cannot be drawn')
        listed, numbers = self.count(memory).listed, Numbers(seed)
        drawn = [self.kth(numbers.below(listed), memory) for _ in range(n)]
        return [one for one in drawn if one is not None]

    def _number(self, k: int, memory: int) -> Optional[bytes]:
        """The schedule of the listed execution number k."""
        self._only_sc('kth')
        if k < 0:
            raise ValueError(f'numbers are from 0 on, and {k} is none')
        if k >= 1 << 64:
            # a word would hold another number; no list has so many
            return None
        out = room(SCHEDULE)
        answer = self._call('kth', k, out, scratch(self._words(memory)))
        return out.raw[:answer.value] if answer.kind == ANSWERED else None

    def count(self, memory: int = MEMORY) -> Count:
        """How many schedules are listed, and how many of these fail; under total store order modulo 2^64.

        Under sequential consistency states are remembered in at most so many bytes of memory: the answer does not depend on it.
        """
        listed, failing = c_uint64(), c_uint64()
        self._by_states('count', memory, byref(listed), byref(failing))
        return Count(listed.value, failing.value)

    def violation(self, memory: int = MEMORY) -> Optional[Execution]:
        """The first listed execution in which an assertion fails; None where none does, and then none at all does.

        States are remembered as for `count`.
        """
        out = room(self._size)
        answer = self._by_states('violation', memory, out)
        return Execution(self, out.raw[:answer.value], True) if answer.kind == ANSWERED else None

    def outcomes(self, memory: int = MEMORY) -> List[Outcome]:
        """Each different final memory and whether it fails, of all executions, in the order of the first listed ones that end so.

        They are the library's answer. Outcomes and states are remembered as for `count`. `ends` has registers too.
        """
        size = VALUES + 2 + self._size
        rows, lent = room(ROWS * size), scratch(self._outcome_words(memory))
        all_: List[Outcome] = []
        while True:
            written = self._call('outcomes', len(all_), rows, lent).value
            page = rows.raw[:written * size]
            all_ += [self._outcome(page[at:at + size]) for at in range(0, len(page), size)]
            if written < ROWS:
                return all_

    def _outcome(self, row: bytes) -> Outcome:
        """The outcome of a row: eight values, the most significant byte first, and the row of a listed schedule."""
        steps, fails = row[VALUES], row[VALUES + 1] == 1
        values = {self.code.location(l): int.from_bytes(row[4 * l:4 * l + 4], 'big') for l in self.code.used_locations()}
        return Outcome(values, fails, Execution(self, row[VALUES + 2:VALUES + 2 + steps], fails))

    def ends(self) -> List[End]:
        """Each different end of the listed executions, with registers and with how many end so, in the order of the first ones.

        The list is walked, and the values are not proved.
        """
        all_: Dict[Tuple[object, ...], End] = {}
        for one in self.executions():
            end = one.memory(), one.registers(), one.failed()
            key = tuple(tuple(values.items()) for values in end)
            known = all_.get(key) or End(*end, listed=0, executions=0, first=one)
            all_[key] = End(*end, listed=known.listed + 1, executions=known.executions + one.size(), first=known.first)
        return list(all_.values())

    def graph(self, schedule: Schedule) -> str:
        """The text of the graph of a full schedule, listed or not."""
        out = room(GRAPH)
        answer = self._call('graph', _steps(schedule), out, subject='schedule')
        return str(out.raw[:answer.value], 'ascii')

    def class_size(self, schedule: Schedule) -> int:
        """How many executions a full schedule stands for, listed or not: those alike to its own, itself counted."""
        return self._call('class', _steps(schedule), subject='schedule').value

    def judge(self, graph: Union[bytes, str]) -> Judgement:
        """Whether this graph can happen under sequential consistency, and the least schedule that makes it."""
        self._only_sc('judge')
        text = graph.encode('utf-8') if isinstance(graph, str) else bytes(graph)
        out = room(SCHEDULE)
        answer = call('judge', self.file, text, out)
        if answer.kind == REFUSED and 30 <= answer.number <= 33:
            raise Refused('graph', answer.number, answer.value, line_at(text, answer.value))
        self._done(answer)
        possible = answer.kind == ANSWERED
        return Judgement(possible, out.raw[:answer.value] if possible else None)

    def covers(self, new: 'Program', by: str = 'name', memory: int = MEMORY, under: str = 'sc') -> Covering:
        """Whether each outcome of the other program, its final memory and whether it fails, is one of this program.

        Locations are the same by name where they have names, else by number, or by number in any case (`by='number'`). `under` says the
        two models, first this program's: `sc,tso` asks whether the other one under total store order has an outcome that this one lacks
        under sequential consistency; a single word is for both. Each program has to be of the model that is said of it: fences of a text
        are left out under `sc`. Outcomes and states are remembered as for `count`.
        """
        models = under.split(',') if ',' in under else [under, under]
        if len(models) != 2 or not set(models) <= set(MODELS):
            raise ValueError(f'under takes one model or two, as in sc,tso, not {under!r}')
        for program, model in zip((self, new), models):
            if program.model != model:
                raise Unfit(f'this program is under {program.model}, and is asked about under {model}; under= says the models')
        if by not in ('name', 'number'):
            raise ValueError(f'locations are the same by name or by number, not by {by!r}')
        other = _frames.moved(new.file, matched(self.code, new.code, by))
        out = room(TSO_SCHEDULE)
        lent = scratch(max(self._outcome_words(memory), new._outcome_words(memory)))
        first, second = (MODELS.index(model) for model in models)
        answer = call('covers_models', first, self.file, second, other, out, lent)
        if answer.kind != ANSWERED:
            self._done(answer)
            return Covering(True, None)
        schedule = out.raw[:answer.value]
        fails = bool(Execution(new, schedule, False).failed())
        return Covering(False, Execution(new, schedule, fails))

    def robust(self) -> Robustness:
        """Whether every execution under total store order is one of sequential consistency; asked of a program of `tso`."""
        if self.model != 'tso':
            raise ValueError("robust is asked of a program under total store order, of model='tso'")
        out = room(TSO_SCHEDULE)
        answer = call('robust', self.file, out)
        self._done(answer)
        if answer.kind != ANSWERED:
            return Robustness(True, None)
        schedule = out.raw[:answer.value]
        fails = bool(Execution(self, schedule, False).failed())
        return Robustness(False, Execution(self, schedule, fails))

    def force(self, hostile: Iterable[Union[int, str]], memory: int = MEMORY) -> Force:
        """Which side can force its end, where these threads, by number or name, are hostile and step in turn with the others.

        States are remembered as for `count`.
        """
        self._only_sc('force')
        threads = [self._thread(one) for one in hostile]
        answer = self._by_states('force', memory, sum({1 << thread for thread in threads}), subject='threads')
        if answer.kind != ANSWERED:
            return Force('friendly', None)
        return Force('hostile', answer.value - 1 if answer.value else None)

    def _thread(self, one: Union[int, str]) -> int:
        known = {self.code.thread(number): number for number in range(len(self.code.threads))}
        number = known.get(one) if isinstance(one, str) else one
        if number is None or not 0 <= number < 8:
            raise ValueError(f'there is no thread {one}; the program has {", ".join(known) or "none"}')
        return number

    @property
    def _size(self) -> int:
        return SCHEDULE if self.model == 'sc' else TSO_SCHEDULE

    def _only_sc(self, name: str) -> None:
        if self.model != 'sc':
            raise Unfit(f'{name} stays with sequential consistency, and this program is under total store order')

    def _call(self, name: str, *arguments: object, subject: str = 'program') -> Answer:
        """A call of this model on this file, by its answer or its refusal."""
        answer = call(name if self.model == 'sc' else f'tso_{name}', self.file, *arguments)
        self._done(answer, subject)
        return answer

    def _by_states(self, name: str, memory: int, *arguments: object, subject: str = 'program') -> Answer:
        """A call that remembers states in memory, no more than can be of use."""
        return self._call(f'{name}_with', *arguments, scratch(self._words(memory)), subject=subject)

    def _words(self, memory: int) -> int:
        """How many words of memory can be of use for states of this program."""
        places = prod(1 + sum(one.is_access() for one in code) for code in self.code.threads)
        if self.model == 'tso':
            places *= prod(1 + sum(one.kind == _frames.STORE for one in code) for code in self.code.threads)
        return min(memory // 8, EACH * places)

    def _outcome_words(self, memory: int) -> int:
        """The same where outcomes are remembered too: these need room whatever the program's accesses are."""
        return min(memory // 8, max(OUTCOMES, self._words(memory)))

    def _done(self, answer: Answer, subject: str = 'program') -> None:
        """Raises what an answer refuses: the file's own refusals come first."""
        if answer.kind in (REFUSED, SECOND_REFUSED):
            of_file = answer.number < 20 or answer.number in (40, 41)
            line = line_at(self.file, answer.value) if of_file and answer.value else None
            raise Refused('program' if of_file else subject, answer.number, answer.value, line)
