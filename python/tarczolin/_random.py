"""Random numbers of a seed, the same as the command's."""
from __future__ import annotations

_WORDS = 1 << 64


class Numbers:
    """The generator SplitMix64."""

    def __init__(self, seed: int):
        if not 0 <= seed < _WORDS:
            raise ValueError(f'a seed is a number from 0 on, below 2^64, and {seed} is none')
        self._at = seed

    def word(self) -> int:
        """The next word."""
        self._at = (self._at + 0x9e3779b97f4a7c15) % _WORDS
        mixed = (self._at ^ self._at >> 30) * 0xbf58476d1ce4e5b9 % _WORDS
        mixed = (mixed ^ mixed >> 27) * 0x94d049bb133111eb % _WORDS
        return mixed ^ mixed >> 31

    def below(self, number: int) -> int:
        """A number below this one, each as likely as any other: a word beyond its last whole multiple is drawn again."""
        word = self.word()
        while word >= _WORDS - _WORDS % number:
            word = self.word()
        return word % number
