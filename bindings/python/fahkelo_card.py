# The refusal card, docs/REFUSALS.md: the one place for the words of the refusals and of the kinds of answer.
# A convenience outside the proofs: nothing in crates/ uses it.
import functools
from typing import NamedTuple

from fahkelo_places import CARD


class Entry(NamedTuple):
    """A line of the card. Of a refusal: the reason, and what to do. Of a kind of answer: its name, and what it says."""

    words: str
    more: str


@functools.lru_cache(maxsize=None)
def entries(path=CARD):
    """The lines of the card by their numbers. Raises OSError if it cannot be read."""
    found = {}
    with open(path, encoding="utf-8") as card:
        for line in card:
            cells = [cell.strip() for cell in line.strip().strip("|").split("|")]
            if len(cells) == 3 and cells[0].isdigit():
                found[int(cells[0])] = Entry(cells[1], cells[2])
    return found


def entry(number):
    """The line with a number. Raises OSError or LookupError."""
    if number not in entries():
        raise LookupError(f"{CARD} has no line for the number {number}")
    return entries()[number]


def reason(number):
    """The words of the line with a number, as plain text. Raises OSError or LookupError."""
    return entry(number).words.replace("`", "")
