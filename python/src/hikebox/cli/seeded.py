"""Random words by a seed, as `zsched plan --words` has them: xoshiro128++, seeded by SplitMix64."""

from __future__ import annotations

from typing import Iterator

__all__ = ["seeded"]

_MASK32, _MASK64 = 2**32 - 1, 2**64 - 1


def _split_mix(seed: int) -> Iterator[int]:
    """The numbers of SplitMix64."""
    while True:
        seed = (seed + 0x9E3779B97F4A7C15) & _MASK64
        mixed = ((seed ^ (seed >> 30)) * 0xBF58476D1CE4E5B9) & _MASK64
        mixed = ((mixed ^ (mixed >> 27)) * 0x94D049BB133111EB) & _MASK64
        yield mixed ^ (mixed >> 31)


def _rotated(word: int, bits: int) -> int:
    return ((word << bits) | (word >> (32 - bits))) & _MASK32


def seeded(seed: int) -> Iterator[int]:
    """The words of this seed, without end."""
    numbers = _split_mix(seed)
    low, high = next(numbers), next(numbers)
    a, b, c, d = low & _MASK32, low >> 32, high & _MASK32, high >> 32
    while True:
        yield (_rotated((a + d) & _MASK32, 7) + a) & _MASK32
        shifted = (b << 9) & _MASK32
        c ^= a
        d ^= b
        b ^= c
        a ^= d
        c ^= shifted
        d = _rotated(d, 11)
