"""Explores the executions of small concurrent programs, by the proved library of Tarczolin.

    import tarczolin

    program = tarczolin.Program.read('examples/queue-broken.asm')
    print(program.count())
    print(program.violation())

What is listed, counted, judged, compared, forced and refused, and the outcomes, is the answer of the library `libtarczolin.so`, which is
proved. What this package adds is plain Python, and not proved: other final values (`ends`, `Execution.memory`, `Execution.registers`),
names, and which locations of two programs are the same.

A program file (`bytes`) needs the library alone. The text form is translated by the command `tarczolin asm`, so that there is
one translation and not two.
"""
from ._library import library_path
from .errors import CommandMissing, Error, LibraryMissing, Mark, Refused, TextError, Unfit
from .execution import Execution
from .program import Count, Covering, End, Force, Judgement, Outcome, Program, Robustness
from .service import Served, Service
from .text import Note

__version__ = '0.1.0'

__all__ = [
    'CommandMissing', 'Count', 'Covering', 'End', 'Error', 'Execution', 'Force', 'Judgement', 'LibraryMissing', 'Mark', 'Note',
    'Outcome', 'Program', 'Refused', 'Robustness', 'Served', 'Service', 'TextError', 'Unfit', 'library_path',
]
