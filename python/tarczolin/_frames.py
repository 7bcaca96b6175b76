"""Program files taken apart: frames, and the names that remark lines give."""
from __future__ import annotations

import re
from dataclasses import dataclass, field
from typing import Iterator, List, NamedTuple, Optional, Set, Tuple

LOCATIONS, REGISTERS, THREADS = 8, 4, 6
STORE, LOAD, FETCH_ADD, CAS = 0x10, 0x11, 0x12, 0x13
SET, ADD, SKIP, ASSERT, SKIP_SIGNED, ASSERT_SIGNED = 0x20, 0x21, 0x22, 0x23, 0x24, 0x25

_KEYWORDS = 'thread alike const init store load fetch_add cas if goto assert fail skip fence'.split()
_NAME = re.compile(r'[A-Za-z_][A-Za-z0-9_]*', re.A)
_NUMBERED = re.compile(r'[rxT][0-9]+', re.A)
_FENCE = re.compile(r'# fence T([0-5]) (0|[1-9][0-9]?)\s*', re.A)


class Operand(NamedTuple):
    """A constant, or the value of a register."""

    is_register: bool
    value: int


class Instruction(NamedTuple):
    """An instruction: its first byte, its register and location where it has any, its operands, how far it skips."""

    kind: int
    register: Optional[int]
    location: Optional[int]
    operands: Tuple[Operand, ...]
    skip: int

    def is_access(self) -> bool:
        """Whether it steps: the others are carried out with the access in front of them."""
        return self.location is not None

    def registers(self) -> Set[int]:
        """The registers that it names."""
        own = set() if self.register is None else {self.register}
        return own | {operand.value for operand in self.operands if operand.is_register}


@dataclass
class Code:
    """What an accepted file says."""

    threads: List[List[Instruction]] = field(default_factory=list)
    starts: List[Tuple[int, int]] = field(default_factory=list)
    locations: List[Optional[str]] = field(default_factory=lambda: [None] * LOCATIONS)
    thread_names: List[Optional[str]] = field(default_factory=lambda: [None] * THREADS)
    register_names: List[List[Optional[str]]] = field(default_factory=lambda: [[None] * REGISTERS for _ in range(THREADS)])
    fences: Set[Tuple[int, int]] = field(default_factory=set)

    def location(self, number: int) -> str:
        """What a location is called."""
        return self.locations[number] or f'x{number}'

    def thread(self, number: int) -> str:
        """What a thread is called."""
        return self.thread_names[number] or f'T{number}'

    def register(self, thread: int, number: int) -> str:
        """What a register is called, with its thread."""
        return f'{self.thread(thread)}.{self.register_names[thread][number] or f"r{number}"}'

    def meant(self, thread: int) -> Iterator[Instruction]:
        """The instructions of a thread that are no fences: what a fence reads and changes is no matter of the program."""
        return (one for at, one in enumerate(self.threads[thread]) if (thread, at) not in self.fences)

    def used_locations(self) -> List[int]:
        """The locations that code or starting values name."""
        all_code = (one.location for thread in range(len(self.threads)) for one in self.meant(thread) if one.location is not None)
        return sorted({*all_code, *(location for location, _ in self.starts)})

    def used_registers(self, thread: int) -> List[int]:
        """The registers that a thread's code names."""
        return sorted({register for one in self.meant(thread) for register in one.registers()})


def lines(file: bytes) -> Iterator[bytes]:
    """The lines of a file without their ends."""
    return iter(file.split(b'\n')[:-1])


def frames(file: bytes) -> Iterator[bytes]:
    """The frames of an accepted file."""
    return (bytes.fromhex(line.decode('ascii')) for line in lines(file) if not line.startswith(b'#'))


def _instruction(frame: bytes) -> Instruction:
    kind, rest = frame[0], frame[1:]
    has_register, has_location = kind != STORE, kind in (STORE, LOAD, FETCH_ADD, CAS)
    register = rest[0] if has_register else None
    location = rest[has_register] if has_location else None
    rest = rest[has_register + has_location:]
    skip = rest[-1] if kind in (SKIP, SKIP_SIGNED) else 0
    operands = tuple(Operand(rest[at] == 1, int.from_bytes(rest[at + 1:at + 5], 'big')) for at in range(0, len(rest) - 4, 5))
    return Instruction(kind, register, location, operands, skip)


def moved(file: bytes, to: List[int]) -> bytes:
    """The file with its locations moved, without remark lines."""
    def of(frame: bytes) -> bytes:
        at = {0x03: 1, STORE: 1, LOAD: 2, FETCH_ADD: 2, CAS: 2}.get(frame[0])
        return frame if at is None else frame[:at] + bytes([to[frame[at]]]) + frame[at + 1:]
    return b''.join(of(frame).hex().encode('ascii') + b'\n' for frame in frames(file))


def decoded(file: bytes) -> Code:
    """What an accepted file says."""
    code = Code()
    for frame in frames(file):
        if frame[0] == 0x01:
            code.threads.append([])
        elif frame[0] == 0x03:
            code.starts.append((frame[1], int.from_bytes(frame[2:], 'big')))
        elif frame[0] != 0x02:
            code.threads[-1].append(_instruction(frame))
    for line in lines(file):
        if line.startswith(b'#'):
            _remark(code, line.decode('utf-8', 'replace'))
    return code


def _remark(code: Code, line: str) -> None:
    """Takes what a remark line tells: a name, the first one of a thing, or a fence, where a fetch and add of zero stands."""
    fence = _FENCE.fullmatch(line)
    if fence:
        thread, at = int(fence[1]), int(fence[2])
        known = code.threads[thread][at:at + 1] if thread < len(code.threads) else []
        if known and known[0].kind == FETCH_ADD and known[0].operands == (Operand(False, 0),):
            code.fences.add((thread, at))
        return
    words = line.split()
    name = words[-1] if words else ''
    if words[:2] != ['#', 'name'] or not _NAME.fullmatch(name) or _NUMBERED.fullmatch(name) or name in _KEYWORDS:
        return
    _named(code, words[2:-1], name)


def _number(word: str, letter: str, most: int) -> Optional[int]:
    number = int(word[1:]) if _NUMBERED.fullmatch(word) and word[0] == letter else most
    return number if number < most else None


def _named(code: Code, things: List[str], name: str) -> None:
    """Gives a name, unless the thing has one or the name is another's: a word of a statement is a location or a register."""
    thread = _number(things[0], 'T', THREADS) if things else None
    location = _number(things[0], 'x', LOCATIONS) if len(things) == 1 else None
    register = _number(things[1], 'r', REGISTERS) if len(things) == 2 else None
    if location is not None:
        taken = code.locations + [one for names in code.register_names for one in names]
        known, number = code.locations, location
    elif thread is not None and len(things) == 1:
        taken, known, number = code.thread_names, code.thread_names, thread
    elif thread is not None and register is not None:
        known, number = code.register_names[thread], register
        taken = known + code.locations
    else:
        return
    if known[number] is None and name not in taken:
        known[number] = name
