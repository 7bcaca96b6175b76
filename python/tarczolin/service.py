"""Four callers share one explorer."""
from __future__ import annotations

from ctypes import byref, c_uint64
from threading import Lock
from typing import NamedTuple, Optional, Union

from ._library import ANSWERED, CALLERS, IDLE, NOBODY, REFUSED, SCHEDULE, Answer, CallerRecord, call, room
from .errors import Refused, Unfit, line_at
from .program import Program

Name = Union[bytes, str]


class Served(NamedTuple):
    """Who was served, and the next schedule of its list; None where there is no more."""

    caller: int
    schedule: Optional[bytes]


class Service:
    """A host of four callers, 0 to 3, each with a program and a place in its list. Threads may share it.

    Whoever asks is served by the fourth serve at the latest and gets its whole list in order, whatever the others do.
    What is refused raises `Refused` and changes nothing.
    """

    def __init__(self) -> None:
        self._records = (CallerRecord * CALLERS)()
        self._last = c_uint64(NOBODY)
        self._lock = Lock()

    def open(self, caller: int, program: Union[Program, bytes, str]) -> None:
        """Opens for a caller with a program: it stands before the first schedule."""
        if isinstance(program, Program) and program.model != 'sc':
            raise Unfit('callers stay with sequential consistency, and this program is under total store order')
        file = program if isinstance(program, bytes) else (program if isinstance(program, Program) else Program(program)).file
        answer = self._answer('open', _number(caller), file)
        if answer.kind == REFUSED and (answer.number < 20 or answer.number == 40):
            raise Refused('program', answer.number, answer.value, line_at(file, answer.value))
        _done(answer)

    def ask(self, caller: int) -> None:
        """Asks for one schedule for a caller; twice is once."""
        _done(self._answer('ask', _number(caller)))

    def serve(self) -> Optional[Served]:
        """Serves the next asking caller in turn; None where nobody asks."""
        out = room(SCHEDULE)
        answer = self._answer('serve', out)
        _done(answer)
        if answer.kind == IDLE:
            return None
        caller, length = answer.value >> 40, answer.value & (1 << 40) - 1
        return Served(caller, out.raw[:length] if answer.kind == ANSWERED else None)

    def close(self, caller: int) -> None:
        """Closes for a caller: its record is emptied."""
        _done(self._answer('close', _number(caller)))

    def count(self, caller: int) -> int:
        """How many schedules were handed to a caller since it opened, modulo 2^64; 0 where it is closed."""
        if not 0 <= caller < CALLERS:
            raise Refused('caller', 42, 0)
        with self._lock:
            return int(self._records[caller].count)

    def set(self, caller: int, name: Name) -> None:
        """Sets a mark of 1 to 8 bytes: the last schedule handed to the caller, or the beginning."""
        _done(self._answer('set', _number(caller), _name(name)))

    def return_to(self, caller: int, name: Name) -> None:
        """Goes back to a mark: the caller's serves go on behind it."""
        _done(self._answer('return', _number(caller), _name(name)))

    def forget(self, caller: int, name: Name) -> None:
        """Forgets a mark."""
        _done(self._answer('forget', _number(caller), _name(name)))

    def _answer(self, name: str, *arguments: object) -> Answer:
        with self._lock:
            return call(name, self._records, byref(self._last), *arguments)


def _number(caller: int) -> int:
    """A caller's number as the library takes it: one that does not fit its word is none of the four, and no other."""
    return caller if 0 <= caller < CALLERS else CALLERS


def _name(name: Name) -> bytes:
    return name.encode('utf-8') if isinstance(name, str) else bytes(name)


def _done(answer: Answer) -> None:
    if answer.kind == REFUSED:
        raise Refused('caller', answer.number, answer.value)
