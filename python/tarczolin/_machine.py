"""A schedule replayed, for the values at its end. Nothing here is proved; schedules, and whether they fail, are the library's."""
from __future__ import annotations

from typing import List, Tuple

from ._frames import ADD, ASSERT, ASSERT_SIGNED, CAS, FETCH_ADD, SET, SKIP, SKIP_SIGNED, STORE
from ._frames import LOCATIONS, REGISTERS, Code, Instruction, Operand

WORD = 1 << 32
MOVE = 0x10


def _signed(value: int) -> int:
    return value - WORD if value >= WORD // 2 else value


class _Thread:
    """A thread: its code, its registers, the next instruction, and the assertion at which it failed, if it did."""

    def __init__(self, code: List[Instruction]):
        self.code = code
        self.registers = [0] * REGISTERS
        self.next = 0
        self.failed = -1
        self.settle()

    def value(self, operand: Operand) -> int:
        return self.registers[operand.value] if operand.is_register else operand.value

    def holds(self, one: Instruction) -> bool:
        """Whether the comparison of a skip or an assertion holds."""
        own, other = self.registers[one.register or 0], self.value(one.operands[0])
        return own == other if one.kind in (SKIP, ASSERT) else _signed(own) <= _signed(other)

    def settle(self) -> None:
        """Carries out the instructions up to the next access."""
        while self.next < len(self.code) and not self.code[self.next].is_access():
            one = self.code[self.next]
            if one.kind in (ASSERT, ASSERT_SIGNED) and not self.holds(one):
                self.failed = self.next
                self.next = len(self.code)
                return
            if one.kind in (SKIP, SKIP_SIGNED) and not self.holds(one):
                self.next += one.skip
            elif one.kind in (SET, ADD):
                old = self.registers[one.register or 0] if one.kind == ADD else 0
                self.registers[one.register or 0] = (old + self.value(one.operands[0])) % WORD
            self.next += 1


class Machine:
    """Threads, memory, and each thread's pending stores, oldest first."""

    def __init__(self, code: Code, tso: bool):
        self.tso = tso
        self.memory = [0] * LOCATIONS
        for location, value in code.starts:
            self.memory[location] = value
        self.threads = [_Thread(thread) for thread in code.threads]
        self.queues: List[List[Tuple[int, int]]] = [[] for _ in code.threads]

    def step(self, byte: int) -> None:
        """The step of a byte that may be the next one."""
        queue = self.queues[byte % MOVE]
        if byte >= MOVE:
            location, value = queue.pop(0)
            self.memory[location] = value
            return
        thread = self.threads[byte]
        one = thread.code[thread.next]
        location = one.location or 0
        operands = [thread.value(operand) for operand in one.operands]
        found = next((value for place, value in reversed(queue) if place == location), self.memory[location])
        if one.kind == STORE and self.tso:
            queue.append((location, operands[0]))
        elif one.kind == STORE:
            self.memory[location] = operands[0]
        elif one.kind == FETCH_ADD:
            self.memory[location] = (found + operands[0]) % WORD
        elif one.kind == CAS and found == operands[0]:
            self.memory[location] = operands[1]
        if one.register is not None:
            thread.registers[one.register] = found
        thread.next += 1
        thread.settle()

    def run(self, schedule: bytes) -> 'Machine':
        """The machine behind a schedule."""
        for byte in schedule:
            self.step(byte)
        return self
