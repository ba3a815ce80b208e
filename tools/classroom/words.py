# The words of a page: how states are called, and the sentence of a run.
# A convenience outside the proofs: nothing in crates/ uses it.
import re
from html import escape, unescape
from typing import NamedTuple

from classroom.lasso import Fold


def labels(names, states):
    """The words of each state: its name or its number; a name that stands twice is followed by the number."""
    words = [names.get(state, str(state)) for state in range(states)]
    seen = {}
    for label in words:
        seen[label] = seen.get(label, 0) + 1
    return [f"{label} ({state})" if seen[label] > 1 and state in names else label for state, label in enumerate(words)]


def labels_of(lesson):
    """The words of each state of a lesson."""
    return labels(lesson.names, len(lesson.model.rows))


def count_of(count, word):
    """A number and a word, the word with an s unless the number is 1."""
    return f"{count:,} {word}{'' if count == 1 else 's'}"


class Words(NamedTuple):
    """How states are said: names in quotation marks, numbers as they are."""

    labels: list
    names: dict

    def state(self, state):
        """One state."""
        label = escape(self.labels[state])
        return f"“<bdi>{label}</bdi>”" if state in self.names else label

    def item(self, item):
        """A state, or states left out."""
        return f"… {count_of(len(item.states), 'state')} left out …" if isinstance(item, Fold) else self.state(item)

    def items(self, items):
        """States and folds, with commas."""
        return ", ".join(map(self.item, items))


def sentence(run, items, marks, words):
    """What a run does, in one sentence, as HTML; items are the stem and the loop as they are shown."""
    stem, loop = items
    if stem:
        onward = f", goes to {words.items(stem[1:])}" if stem[1:] else ""
        text = f"Starts at {words.state(run.stem[0])}{onward}, then repeats {words.items(loop)} for ever"
    else:
        text = f"Starts at {words.state(run.loop[0])} and repeats {words.items(loop)} for ever"
    inside = [state for state in run.loop if state in marks]
    before = [state for state in run.stem if state in marks]
    text += f"; marked: {some_of(inside, words)}"
    if before:
        text += f", and before the loop: {some_of(before, words)}"
    return text + "."


def some_of(states, words):
    """The states, or the first of them and how many more there are."""
    shown = states if len(states) <= 8 else states[:6]
    more = f" and {len(states) - len(shown):,} more" if len(states) > len(shown) else ""
    return ", ".join(map(words.state, shown)) + more


def plain(html):
    """A piece of HTML as plain text."""
    return unescape(re.sub("<[^>]*>", "", html))
