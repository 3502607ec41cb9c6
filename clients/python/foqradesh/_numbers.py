"""The next number of a member's messages in each group, if a client knows it."""

from __future__ import annotations

from dataclasses import dataclass
from typing import Dict, Optional, Tuple

Address = Tuple[int, int, int]
"""A group's tenant, number and generation."""


@dataclass(frozen=True)
class Taken:
    """A number that a say was sent with, and the turn in which it was taken."""

    number: int
    turn: int


class Numbers:
    """The expected next number of each group. An expectation that fails begins a new turn.

    Says that are sent ahead of one another take numbers that follow one another. If one of them
    fails, those behind it were sent in an older turn, and their results no longer change what is
    expected.
    """

    def __init__(self) -> None:
        """Make one that knows no number."""
        # The next number of each group, and the turn in which it is to be taken.
        self._next: Dict[Address, Taken] = {}
        self._turns = 0

    def next(self, address: Address) -> Optional[int]:
        """Return the next number, or None if it is not known."""
        known = self._next.get(address)
        return None if known is None else known.number

    def set(self, address: Address, number: int) -> None:
        """Set the next number, in a new turn."""
        self._turns += 1
        self._next[address] = Taken(number, self._turns)

    def forget(self, address: Address) -> None:
        """Forget the next number. A number that is known later is of a new turn."""
        self._next.pop(address, None)

    def take(self, address: Address) -> Optional[Taken]:
        """Return the next number, and expect the one above it then. None if it is not known."""
        taken = self._next.get(address)
        if taken is not None:
            self._next[address] = Taken(taken.number + 1, taken.turn)
        return taken

    def take_given(self, address: Address, number: int) -> Taken:
        """Return a number that the caller names, as the next one."""
        self.set(address, number)
        taken = self._next[address]
        self._next[address] = Taken(number + 1, taken.turn)
        return taken

    def give_back(self, address: Address, taken: Optional[Taken]) -> None:
        """Note that a number was not used: it is still the next one, if it is of this turn."""
        if taken is not None and self._is_of_this_turn(address, taken):
            self.set(address, taken.number)

    def lose(self, address: Address, taken: Optional[Taken]) -> None:
        """Forget the next number, if this one was taken in this turn."""
        if taken is not None and self._is_of_this_turn(address, taken):
            self.forget(address)

    def _is_of_this_turn(self, address: Address, taken: Taken) -> bool:
        known = self._next.get(address)
        return known is not None and known.turn == taken.turn
