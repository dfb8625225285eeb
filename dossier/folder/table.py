"""Numbers by keys of 64 bits, in few bytes each: there may be millions."""
import os
from array import array

FACTOR, MASK = int.from_bytes(os.urandom(8), "big") | 1, 2**64 - 1
"""What keys are multiplied by: who chooses them doesn't know where they come to stand."""


class Table:
    """Numbers from 0 by keys, 12 bytes for each place, of which at most two thirds are taken."""

    def __init__(self) -> None:
        self.size, self.used, self.keys, self.numbers = 0, 0, array("Q"), array("I")
        self.grow()

    def grow(self) -> None:
        """Makes room for twice as many."""
        old = zip(self.keys, self.numbers)
        self.size = 2 * self.size or 1 << 10
        self.keys, self.numbers, self.used = array("Q", bytes(8 * self.size)), array("I", bytes(4 * self.size)), 0
        for key, number in old:
            if number:
                self.put(key, number - 1)

    def place_of(self, key: int) -> int:
        """The place of a key, or the free one where it would be."""
        at = (key * FACTOR & MASK) * self.size >> 64
        while self.numbers[at] and self.keys[at] != key:
            at = (at + 1) % self.size
        return at

    def get(self, key: int) -> int | None:
        number = self.numbers[self.place_of(key)]
        return number - 1 if number else None

    def put(self, key: int, number: int) -> None:
        """Puts a number in the place of another one of the key, if there is one."""
        at = self.place_of(key)
        self.used += not self.numbers[at]
        self.keys[at], self.numbers[at] = key, number + 1
        if 3 * self.used > 2 * self.size:
            self.grow()

    def first(self, key: int, number: int) -> int:
        """The number that came with a key first: this one, if none did."""
        known = self.get(key)
        if known is None:
            self.put(key, number)
        return number if known is None else known
