# A run drawn as a lasso: the stem as a line from the start, in rows if it is long, and the loop as a
# ring that is entered at its left. The middle of a long stem or loop is folded.
# A convenience outside the proofs: nothing in crates/ uses it.
import math
from typing import NamedTuple

from classroom import shapes
from classroom.shapes import Spot


GAP = 30  # the room between two states


class Fold(NamedTuple):
    """States left out of the middle of a stem or a loop, how many of them are marked, and how it is drawn."""

    states: list
    marked: int
    kind: str


class Look(NamedTuple):
    """How a run is drawn: the words of the states, the marks, the run it is compared with, if any."""

    labels: list
    marks: set
    first: object = None

    def of_state(self, state):
        """Plain; or pale if the first run passes the state, and strong if not."""
        if not self.first:
            return "plain"
        return "pale" if state in self.first.states() else "strong"

    def of_edge(self, edge):
        """Plain; or pale if the first run takes the edge, and strong if not."""
        if not self.first:
            return "plain"
        return "pale" if edge in self.first.edges() else "strong"

    def of_fold(self, states):
        """Plain; or pale if the first run goes along all of these states, and strong if not."""
        if not self.first:
            return "plain"
        same = set(states) <= set(self.first.states())
        return "pale" if same and set(zip(states, states[1:])) <= set(self.first.edges()) else "strong"


class Limits(NamedTuple):
    """How many states of a stem and of a loop are shown whole, and how many at each end if there are more."""

    stem: int
    loop: int
    ends: int


LARGE = Limits(12, 18, 4)
LARGE_WORDS = Limits(10, 12, 3)
SMALL = Limits(8, 10, 2)
SMALL_WORDS = Limits(6, 7, 2)


def places_to_keep(states, edges, look):
    """The first marked place, and those about the first and the last edge that the first run does not take."""
    keep = [place for place, state in enumerate(states) if state in look.marks][:1]
    if look.first:
        known = set(look.first.edges())
        new = [place for place, edge in enumerate(edges) if edge not in known]
        keep += [place + more for place in new[:1] + new[-1:] for more in (0, 1) if place + more < len(states)]
    return set(keep)


def folded(states, edges, most, ends, look):
    """The states, or if they are more than most, those at the ends and those to keep, with folds between."""
    if len(states) <= most:
        return list(states)
    shown = set(range(ends)) | set(range(len(states) - ends, len(states))) | places_to_keep(states, edges, look)
    # A fold stands for two states or more.
    shown |= {place for place in range(1, len(states) - 1) if {place - 1, place + 1} <= shown}
    items, hidden = [], []
    for place, state in enumerate(states):
        if place not in shown:
            hidden.append(state)
            continue
        if hidden:
            items.append(Fold(hidden, len(look.marks.intersection(hidden)), look.of_fold(hidden)))
            hidden = []
        items.append(state)
    return items


def shown_items(run, look, limits):
    """What is shown of the stem and of the loop: states and folds."""
    edges, bar = run.edges(), len(run.stem)
    stem = folded(run.stem, edges[:bar], limits.stem, limits.ends, look)
    loop = folded(run.loop, edges[bar:], limits.loop, limits.ends, look)
    return stem, loop


# Where things stand.


def item_radius(item, radius):
    """The radius of a state, or of a fold."""
    return max(radius, 34) if isinstance(item, Fold) else radius


def ring_of(loop, radius):
    """The radius of the ring, and the angle of each item on it; the entry is at the left."""
    sizes = [2 * item_radius(item, radius) + GAP for item in loop]
    if len(loop) == 1:
        return 1.3 * radius, [math.pi]
    ring = max(sum(sizes) / (2 * math.pi), max(sizes) / (2 * math.sin(math.pi / len(loop))), 2 * radius)
    turns, turn = [], math.pi
    for place, size in enumerate(sizes):
        turns.append(turn)
        after = sizes[(place + 1) % len(sizes)]
        turn += (size + after) / 2 / sum(sizes) * 2 * math.pi
    return ring, turns


def stem_spots(stem, radius, columns, step):
    """The spots of the stem: rows that go to and fro, the last one to the right, up to the entry at (0, 0)."""
    spots = []
    for back in range(len(stem)):
        row, place = divmod(back, columns)
        column = place if row % 2 == 0 else columns - 1 - place
        item = stem[len(stem) - 1 - back]
        spots.append(Spot(-(column + 1) * step, -row * step, item_radius(item, radius)))
    return spots[::-1]


class Places(NamedTuple):
    """Where the items of a run stand."""

    stem: list
    loop: list
    turns: list
    ring: float
    centre: tuple
    from_above: bool


def places_of(stem, loop, radius, rows):
    """Where all items stand, the stem in so many rows: the entry of the ring is at (0, 0), the stem left of it."""
    ring, turns = ring_of(loop, radius)
    centre = ring, 0
    spots = [
        Spot(centre[0] + ring * math.cos(turn), centre[1] + ring * math.sin(turn), item_radius(item, radius))
        for item, turn in zip(loop, turns)
    ]
    step = 2 * max([radius, *(item_radius(item, radius) for item in stem)]) + GAP
    columns = max(1, -(-len(stem) // rows))
    line = stem_spots(stem, radius, columns, step)
    return Places(line, spots, turns, ring, centre, -(-len(stem) // columns) % 2 == 0 and bool(stem))


def best_places(stem, loop, radius, size):
    """The places with the fewest rows of the stem that give a picture of a fine size, or about the largest one."""
    tried = [places_of(stem, loop, radius, rows) for rows in range(1, max(2, len(stem) + 1))]
    scales = [shapes.scale_of(box_of(places), size) for places in tried]
    return next(places for places, scale in zip(tried, scales) if scale >= min(size.fine, 0.95 * max(scales)))


def box_of(places):
    """The box around all items, with room for lines, the start arrow and, at one state, its loop."""
    spots = places.stem + places.loop
    first = spots[0]
    left = min(spot.x - spot.radius for spot in spots)
    top = min(spot.y - spot.radius for spot in spots)
    right = max(spot.x + spot.radius for spot in spots)
    bottom = max(spot.y + spot.radius for spot in spots)
    ring = places.ring
    right, top, bottom = max(right, 2 * ring), min(top, -ring), max(bottom, ring)
    if places.from_above:
        top = min(top, first.y - first.radius - 32)
    else:
        left = min(left, first.x - first.radius - 48)
    return left - 4, top - 6, right + 4, bottom + 6


# The picture.


def fold_words(item):
    """The words in a fold."""
    return f"{len(item.states):,} states" + (f", {item.marked:,} marked" if item.marked else "")


def draw_item(item, spot, look, largest):
    """A state or a fold."""
    if isinstance(item, Fold):
        return shapes.fold(spot, fold_words(item), item.kind)
    return shapes.state(spot, look.labels[item], item in look.marks, look.of_state(item), largest)


def edge_kind(one, other, look):
    """How the arrow between two items is drawn; a fold has an arrow to its first state and one from its last."""
    source = one.states[-1] if isinstance(one, Fold) else one
    target = other.states[0] if isinstance(other, Fold) else other
    return look.of_edge((source, target))


def laid_out(run, look, limits, size):
    """The items that are shown, where they stand, and the size of the letters."""
    stem, loop = shown_items(run, look, limits)
    letters = shapes.letters_for({look.labels[item] for item in stem + loop if not isinstance(item, Fold)})
    return (stem, loop), best_places(stem, loop, letters.radius, size), letters.size


def lasso_scale(run, look, limits, size):
    """How much smaller or larger the picture of a run is drawn."""
    return shapes.scale_of(box_of(laid_out(run, look, limits, size)[1]), size)


def draw_lasso(run, look, limits, words, size):
    """The picture of a run."""
    (stem, loop), places, largest = laid_out(run, look, limits, size)
    items, spots = stem + loop, places.stem + places.loop
    parts = [shapes.start_arrow(spots[0], "above" if places.from_above else "left", "pale" if look.first else "plain")]
    for place in range(len(stem)):
        kind = edge_kind(items[place], items[place + 1], look)
        parts.append(shapes.straight(spots[place], spots[place + 1], kind))
    for place in range(len(loop)):
        after = (place + 1) % len(loop)
        turns = places.turns[place], places.turns[after] + (2 * math.pi if after <= place else 0)
        kind = edge_kind(loop[place], loop[after], look)
        ends = places.loop[place], places.loop[after]
        parts.append(shapes.around(places.centre, places.ring, ends, turns, kind))
    parts += [draw_item(item, spot, look, largest) for item, spot in zip(items, spots)]
    return shapes.picture(box_of(places), parts, words, size)
