"""The random words of a seed (docs/FORMATS.md, "Random words")."""

from __future__ import annotations

from typing import Iterator

_MULTIPLIER = 0x2360ED051FC65DA44385DF649FCCF645
_SEED_MULTIPLIER = 6364136223846793005
_SEED_INCREMENT = 11634580027462260723


def _rotated(word: int, count: int, bits: int) -> int:
    """A word turned right by so many bits."""
    return (word >> count | word << (bits - count)) & ((1 << bits) - 1)


def _seed_words(seed: int) -> Iterator[int]:
    """The eight words of 32 bits that a seed gives."""
    state = seed
    for _ in range(8):
        state = (state * _SEED_MULTIPLIER + _SEED_INCREMENT) % (1 << 64)
        yield _rotated((state >> 18 ^ state) >> 27 & 0xFFFFFFFF, state >> 59, 32)


def random_words(seed: int) -> Iterator[int]:
    """The random words of 64 bits of a seed, without an end."""
    numbers = list(_seed_words(seed))
    state = sum(number << 32 * place for place, number in enumerate(numbers[:4]))
    increment = sum(number << 32 * place for place, number in enumerate(numbers[4:])) | 1
    state = ((state + increment) * _MULTIPLIER + increment) % (1 << 128)
    while True:
        state = (state * _MULTIPLIER + increment) % (1 << 128)
        yield _rotated((state >> 64 ^ state) % (1 << 64), state >> 122, 64)
