"""The text form and litmus tests, translated by the command `tarczolin`: there is one translation, and it is the command's."""
from __future__ import annotations

import json
import os
import re
import shutil
import subprocess
from pathlib import Path
from typing import Any, Dict, List, NamedTuple, Optional, Tuple

from .errors import CommandMissing, Error, Mark, Refused, TextError

_DIGITS = re.compile(rb'(?:[0-9A-Fa-f]*|#[^\n]*)\n?')


class Note(NamedTuple):
    """What has to be known of how a text was read: a warning of what looks like a slip, with its place, or a note."""

    kind: str
    message: str
    line: Optional[int]
    column: Optional[int]


def is_file(text: bytes) -> bool:
    """Whether this is a program file by its looks: lines of digits and remarks only."""
    return all(_DIGITS.fullmatch(line) for line in text.splitlines(keepends=True))


def command_path() -> str:
    """Where the command is: what TARCZOLIN_COMMAND names, else in the repository, beside an installed package, or on the PATH."""
    named = os.environ.get('TARCZOLIN_COMMAND')
    if named:
        return named
    above = Path(__file__).resolve().parents
    # in the repository python/tarczolin stands beside target; installed, PREFIX/bin stands beside PREFIX/lib
    found = [above[2] / 'target' / 'cargo' / 'release' / 'tarczolin']
    found += [folder.parent / 'bin' / 'tarczolin' for folder in above if folder.name == 'lib'][:1]
    path = next((str(path) for path in found if path.is_file()), None) or shutil.which('tarczolin')
    if path is None:
        raise CommandMissing('the text form is translated by the command tarczolin, which is not there; TARCZOLIN_COMMAND names it')
    return path


def translated(text: str, model: str) -> Tuple[bytes, Tuple[Note, ...]]:
    """The program file of a text for a memory model, with its names, and what has to be known of it."""
    made, notes = _made(text, 'asm', '--remarks', '--model', model)
    return made.encode('utf-8'), notes


def imported(test: str) -> str:
    """The text form of a litmus test for x86."""
    return _made(test, 'import-litmus')[0]


def _made(text: str, *words: str) -> Tuple[str, Tuple[Note, ...]]:
    """What the command makes of a text, and what has to be known of it."""
    command = command_path()
    try:
        done = subprocess.run([command, *words, '--json', '-'], input=text.encode('utf-8'), capture_output=True, check=False)
    except OSError as error:
        raise CommandMissing(f'{command} cannot be run: {error}') from error
    objects: List[Dict[str, Any]] = [json.loads(line) for line in done.stdout.splitlines()]
    notes = tuple(Note(**note) for one in objects for note in one.get('notes', ()))
    for one in objects:
        if 'error' in one:
            raise _error(one['error'], text)
    if not objects or 'text' not in objects[-1]:
        message = done.stderr.decode('utf-8', 'replace').strip()
        raise Error(f'{command} {words[0]} answers with status {done.returncode}: {message}')
    return objects[-1]['text'], notes


def _error(error: Dict[str, Any], text: str) -> Error:
    """The exception of an error that the command tells."""
    if error['marks']:
        return TextError([Mark(mark['line'], mark['column'], mark['message']) for mark in error['marks']], text)
    if error['number'] is not None:
        # the place is a line of the program file that the text became, which nobody sees
        return Refused('program', error['number'], 0, None, error['message'])
    return Error(error['message'])
