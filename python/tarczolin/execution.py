"""One execution of a program."""
from __future__ import annotations

from dataclasses import dataclass, field
from typing import TYPE_CHECKING, Dict

from ._machine import Machine

if TYPE_CHECKING:
    from .program import Program


@dataclass(frozen=True)
class Execution:
    """An execution by its schedule, one byte a step; `fails` says whether an assertion fails in it. As a text it is its digits."""

    program: 'Program' = field(repr=False)
    schedule: bytes
    fails: bool

    def __str__(self) -> str:
        return self.schedule.hex()

    def graph(self) -> str:
        """The text of its graph: a line 40 for each read with the write that it saw, a line 41 for each location's writes."""
        return self.program.graph(self.schedule)

    def size(self) -> int:
        """How many executions it stands for: those that differ from it by exchange of alike threads, itself counted."""
        return self.program.class_size(self.schedule)

    def memory(self) -> Dict[str, int]:
        """The final values of the locations that the program uses, by name."""
        code = self.program.code
        end = self._end()
        return {code.location(number): end.memory[number] for number in code.used_locations()}

    def registers(self) -> Dict[str, int]:
        """The final values of the registers that the program uses, by their thread's name and their own."""
        code = self.program.code
        end = self._end()
        used = ((thread, number) for thread in range(len(code.threads)) for number in code.used_registers(thread))
        return {code.register(thread, number): end.threads[thread].registers[number] for thread, number in used}

    def failed(self) -> Dict[str, int]:
        """The threads that fail, by name, each with the number of its failing assertion among its instructions, from 0."""
        code = self.program.code
        ended = enumerate(self._end().threads)
        return {code.thread(number): thread.failed for number, thread in ended if thread.failed >= 0}

    def _end(self) -> Machine:
        return Machine(self.program.code, self.program.model == 'tso').run(self.schedule)
