"""Which location of one program is which of another: by name, as the command `tarczolin covers` has it."""
from __future__ import annotations

from typing import List, Optional, Set

from ._frames import LOCATIONS, Code
from .errors import Unfit

_OTHERWISE = "name all of them in both programs, or ask for by='number'"


def matched(first: Code, second: Code, by: str) -> List[int]:
    """The number that each location of the second program takes: all eight differ."""
    same = list(range(LOCATIONS))
    used = [set(code.used_locations()) for code in (first, second)]
    named = [{number for number in numbers if code.locations[number]} for code, numbers in zip((first, second), used)]
    if by == 'number' or not any(named):
        return same
    if used == named:
        return _by_name(first, second)
    for own, other in ((0, 1), (1, 0)):
        if not named[own] and used[own] and named[other]:
            raise Unfit(f'the locations of one program have names, those of the other only numbers; {_OTHERWISE}')
    if any((one == other) != (first.location(one) == second.location(other)) for one in used[0] for other in used[1]):
        raise Unfit(f'not every location has a name, and by name and by number they are not the same; {_OTHERWISE}')
    return same


def _by_name(first: Code, second: Code) -> List[int]:
    """Every location of the second takes the number that its name has in the first, or one that the first leaves free."""
    taken = {first.location(number): number for number in first.used_locations()}
    to: List[Optional[int]] = [None] * LOCATIONS
    for name, number in sorted((second.location(number), number) for number in second.used_locations()):
        if name not in taken:
            free: Set[int] = set(range(LOCATIONS)) - set(taken.values())
            if not free:
                raise Unfit(f'together the two programs name more than {LOCATIONS} locations')
            taken[name] = min(free)
        to[number] = taken[name]
    left = iter(sorted(set(range(LOCATIONS)) - {number for number in to if number is not None}))
    return [next(left) if number is None else number for number in to]
