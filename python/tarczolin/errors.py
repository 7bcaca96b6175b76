"""What goes wrong, as exceptions: each with a number, a place and a line, where there are any."""
from __future__ import annotations

from typing import NamedTuple, Optional, Sequence

# What the numbers mean. The command says it at more length.
SENTENCES = {
    1: 'the file is longer than 4096 bytes, the most that a program file may have',
    2: 'the line is empty, has an odd number of digits or another character, or is not ended by a newline',
    3: 'the line begins with no known byte, or has another length than its kind',
    4: 'a register, a location, an operand or a skip is out of range',
    5: 'the line stands in the wrong part of the file: instructions follow a thread, alike threads follow all threads',
    6: 'a limit is passed: 6 threads, 16 instructions a thread, 24 accesses',
    7: 'the skip goes further than its thread',
    8: 'these threads cannot be alike',
    20: 'the step names no thread, or one that cannot step there',
    21: 'the schedule ends before all threads have ended',
    22: 'the output is too short',
    30: 'the line is empty, has an odd number of digits or another character, or is not ended by a newline',
    31: 'the line begins with neither 40 nor 41, or has another length than its kind',
    32: 'a thread, an access or a location is out of range',
    33: 'the line does not come after the one above it, or names a write a second time',
    40: 'a starting value stands behind a thread, or is the second one of its location',
    41: 'under total store order a program has at most 16 accesses',
    42: 'there is no such caller: they are 0 to 3',
    43: 'the caller is open already',
    44: 'the caller is not open',
    45: 'a name has 1 to 8 bytes',
    46: 'there is no mark of this name',
    47: 'the caller has eight marks of other names',
    48: 'the set names a thread that is not there',
}


class Error(Exception):
    """What every exception of this package is.

    `number` is that of a refusal, `place` a line from 1 (of a schedule a step from 0), `line` the text that stands there;
    each is None where there is none.
    """

    def __init__(self, message: str, number: Optional[int] = None, place: Optional[int] = None, line: Optional[str] = None):
        super().__init__(message)
        self.message = message
        self.number = number
        self.place = place
        self.line = line


class Refused(Error):
    """The library refuses what it was given. `subject` says what that is: program, schedule, graph, threads or caller."""

    number: int
    place: int

    def __init__(self, subject: str, number: int, place: int, line: Optional[str] = None, sentence: Optional[str] = None):
        at = f' at {"step" if subject == "schedule" else "line"} {place}' if has_place(subject, number, place) else ''
        shown = f': {line}' if line else ''
        sentence = sentence or SENTENCES.get(number, 'it is refused')
        super().__init__(f'{subject}: refusal {number}{at}: {sentence}{shown}', number, place, line)
        self.subject = subject


class Mark(NamedTuple):
    """A place in a text, line and column from 1, and what is wrong there."""

    line: int
    column: int
    message: str


class TextError(Error):
    """A program in the text form is wrong: `marks` has every place, `place` and `line` are those of the first."""

    def __init__(self, marks: Sequence[Mark], text: str):
        first = marks[0]
        super().__init__('\n'.join(f'{line}:{column}: {message}' for line, column, message in marks), None, first.line,
                         line_at(text.encode('utf-8', 'replace'), first.line))
        self.marks = tuple(marks)


class Unfit(Error):
    """Two programs cannot be compared, or a call is not there under this memory model."""


class LibraryMissing(Error):
    """There is no libtarczolin.so to load."""


class CommandMissing(Error):
    """The text form needs the command `tarczolin`, and it is not there."""


def has_place(subject: str, number: int, place: int) -> bool:
    """Whether the place of a refusal is a line or a step: 0 is none, save for a schedule, whose steps are counted from 0."""
    return place > 0 or (subject == 'schedule' and number in (20, 21))


def line_at(file: bytes, place: int) -> Optional[str]:
    """The text of a line by its number from 1, or None."""
    lines = file.split(b'\n')
    return lines[place - 1].decode('utf-8', 'backslashreplace') if 1 <= place <= len(lines) else None
