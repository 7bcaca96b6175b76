"""The calls of libtarczolin.so, as include/tarczolin.h declares them."""
from __future__ import annotations

import ctypes
import os
from ctypes import POINTER, c_char_p, c_size_t, c_uint8, c_uint64, c_void_p
from functools import lru_cache
from pathlib import Path
from typing import Any, NamedTuple

from .errors import LibraryMissing

NAME = 'libtarczolin.so'
FILE, SCHEDULE, GRAPH, TSO_SCHEDULE, VALUES = 4096, 24, 512, 48, 32
ANSWERED, NONE, REFUSED, SECOND_REFUSED, IDLE = 1, 2, 3, 4, 5
CALLERS, NOBODY, MARKS = 4, 3, 8

_FILE = [c_char_p, c_size_t]
_OUT = [c_void_p, c_size_t]
_COUNTS = [POINTER(c_uint64), POINTER(c_uint64)]
_SCRATCH = [POINTER(c_uint64), c_size_t]


class MarkRecord(ctypes.Structure):
    """struct tarczolin_mark."""

    _fields_ = [
        ('name', c_uint8 * 8), ('length', c_uint8), ('place', c_uint8), ('steps', c_uint8), ('schedule', c_uint8 * SCHEDULE),
    ]


class CallerRecord(ctypes.Structure):
    """struct tarczolin_caller."""

    _fields_ = [
        ('file', c_uint8 * FILE), ('length', c_size_t), ('count', c_uint64), ('place', c_uint8), ('asking', c_uint8),
        ('steps', c_uint8), ('schedule', c_uint8 * SCHEDULE), ('handed', c_uint8), ('size', c_uint8),
        ('newest', c_uint8 * SCHEDULE), ('marks', MarkRecord * MARKS), ('padding', c_uint8 * 3),
    ]


_SHARED = [POINTER(CallerRecord), c_size_t, POINTER(c_uint64)]

# The calls under both models, those of one question, and those of four callers: their arguments.
LISTING = {
    'graph': _FILE + _FILE + _OUT, 'class': _FILE + _FILE, 'start': _FILE + _OUT, 'continue': _FILE + _FILE + _OUT,
    'violation': _FILE + _OUT, 'count': _FILE + _COUNTS, 'rows': _FILE + _OUT, 'rows_after': _FILE + _FILE + _OUT,
}
CALLS = {
    **LISTING, **{f'tso_{name}': arguments for name, arguments in LISTING.items()},
    'count_with': _FILE + _COUNTS + _SCRATCH, 'violation_with': _FILE + _OUT + _SCRATCH,
    'kth': _FILE + [c_uint64] + _OUT + _SCRATCH, 'rank': _FILE + _FILE + [POINTER(c_uint64)] + _SCRATCH,
    'tso_count_with': _FILE + _COUNTS + _SCRATCH, 'tso_violation_with': _FILE + _OUT + _SCRATCH,
    'check': _FILE, 'judge': _FILE + _FILE + _OUT, 'covers': _FILE + _FILE + _OUT, 'force': _FILE + [c_uint8],
    'force_with': _FILE + [c_uint8] + _SCRATCH, 'covers_with': _FILE + _FILE + _OUT + _SCRATCH,
    'outcomes': _FILE + [c_uint64] + _OUT + _SCRATCH, 'tso_outcomes': _FILE + [c_uint64] + _OUT + _SCRATCH,
    'robust': _FILE + _OUT, 'covers_models': [c_uint8] + _FILE + [c_uint8] + _FILE + _OUT + _SCRATCH,
    'open': _SHARED + [c_size_t] + _FILE, 'ask': _SHARED + [c_size_t], 'serve': _SHARED + _OUT, 'close': _SHARED + [c_size_t],
    'set': _SHARED + [c_size_t] + _FILE, 'return': _SHARED + [c_size_t] + _FILE, 'forget': _SHARED + [c_size_t] + _FILE,
}


class Answer(NamedTuple):
    """An answer word taken apart."""

    kind: int
    number: int
    value: int


def library_path() -> str:
    """Where the library is: what TARCZOLIN_LIBRARY names, else in the repository, beside an installed package, or the loader's."""
    named = os.environ.get('TARCZOLIN_LIBRARY')
    if named:
        return named
    above = Path(__file__).resolve().parents
    # in the repository python/tarczolin stands beside target; installed, the package stands below PREFIX/lib
    found = [above[2] / 'target' / 'staticlib' / NAME] + [folder / NAME for folder in above if folder.name == 'lib'][:1]
    return next((str(path) for path in found if path.is_file()), NAME)


@lru_cache(maxsize=None)
def _loaded(path: str) -> ctypes.CDLL:
    try:
        library = ctypes.CDLL(path)
    except OSError as error:
        raise LibraryMissing(f'{path} cannot be loaded ({error}); `make library` makes it, TARCZOLIN_LIBRARY names it') from error
    for name, arguments in CALLS.items():
        function = getattr(library, f'tarczolin_{name}')
        function.argtypes, function.restype = arguments, c_uint64
    return library


def call(name: str, *arguments: Any) -> Answer:
    """Makes a call; bytes among the arguments are lent with their length. Python's lock is not held meanwhile."""
    lent: list[Any] = []
    for one in arguments:
        lent.extend((one, len(one)) if isinstance(one, (bytes, ctypes.Array)) else (one,))
    word = getattr(_loaded(library_path()), f'tarczolin_{name}')(*lent)
    answer = Answer(word >> 56, word >> 48 & 0xff, word & (1 << 48) - 1)
    if not ANSWERED <= answer.kind <= IDLE:
        raise RuntimeError(f'{word:#018x} is no answer word')
    return answer


def scratch(words: int) -> Any:
    """Memory of so many words of 8 bytes, in which a call remembers states."""
    return (c_uint64 * words)()


def room(size: int) -> Any:
    """An output of so many bytes."""
    return ctypes.create_string_buffer(size)
