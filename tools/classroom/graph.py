# The part of a model that can be reached, drawn, and each run on it. An arrow bends where a straight one
# would pass through a state.
# A convenience outside the proofs: nothing in crates/ uses it.
import math

from classroom import shapes
from classroom.layout import DOT, best_spots, clearance, curve_points
from classroom.shapes import HEAD, Spot

MOST_STATES = 40
LONGEST = 170  # the longest words outside


def reached(model):
    """The states that can be reached from the initial one, itself included, nearest first."""
    found, place = [model.start], 0
    known = {model.start}
    while place < len(found):
        fresh = [target for target in model.rows[found[place]] if target not in known]
        known.update(fresh)
        found += fresh
        place += 1
    return found


def is_small(model, states):
    """Whether a picture of the part with these states can be read."""
    edges = sum(len(model.rows[state]) for state in states)
    return len(states) <= MOST_STATES and edges <= 40 + 1.5 * len(states)


# The arrows.


def bend_of(one, other, others, both_ways, on_circle):
    """The control point of the flattest curve that keeps away from the other spots."""
    middle = (one.x + other.x) / 2, (one.y + other.y) / 2
    across = other.y - one.y, one.x - other.x
    size = math.hypot(*across)
    # On a circle an arrow bends inward; elsewhere to either side.
    inward = -1 if across[0] * middle[0] + across[1] * middle[1] > 1e-6 else 1
    sides = [inward] if on_circle else [1, -1]
    best = None
    for step in range(26):
        for side in sides if step else [1]:
            far = 16 * step * side
            if both_ways:
                # An arrow there and one back bend to different sides, or differently far to the same one.
                far = 18 if not step else far + 11 * (1 if one < other else -1)
            bend = middle[0] + across[0] / size * far, middle[1] + across[1] / size * far
            clear = clearance(curve_points(one, bend, other), others)
            if clear >= 7:
                return bend
            if best is None or clear > best[0]:
                best = clear, bend
    return best[1]


def curve(one, bend, other, kind):
    """A curved arrow from the rim of one spot to the rim of another."""
    points = curve_points(one, bend, other, 400)
    inside = [place for place, point in enumerate(points) if math.dist(point, one[:2]) < one.radius]
    start = max(inside, default=0)
    tip = min(place for place, point in enumerate(points) if math.dist(point, other[:2]) <= other.radius + 1)
    base = tip
    while base > start + 1 and math.dist(points[base], points[tip]) < 0.8 * HEAD:
        base -= 1
    part = points[start:base + 1]
    drawn = part[:: max(1, len(part) // 16)] + part[-1:]
    angle = math.atan2(points[tip][1] - points[base][1], points[tip][0] - points[base][0])
    path = "M" + "L".join(f"{x:.1f} {y:.1f}" for x, y in drawn)
    return shapes.arrow(path, points[tip], angle, kind)


def loop_ring(spot, out):
    """The middle and the radius of the small ring of an arrow from a state to itself, in a direction."""
    ring = 0.7 * spot.radius + 4
    far = spot.radius + 0.35 * ring
    return Spot(spot.x + far * math.cos(out), spot.y + far * math.sin(out), ring)


def own_loop(spot, out, kind):
    """The arrow from a state to itself, in a direction."""
    centre = loop_ring(spot, out)
    far, ring, rim = math.dist(centre[:2], spot[:2]), centre.radius, spot.radius + 1
    # The angle, seen from the middle of the small ring, at which it meets the rim of the state.
    meet = math.acos((far * far + ring * ring - rim * rim) / (2 * far * ring))
    start, end = out + math.pi + meet, out + 3 * math.pi - meet
    base = end - 0.8 * HEAD / ring

    def point(angle):
        return centre.x + ring * math.cos(angle), centre.y + ring * math.sin(angle)

    (x0, y0), (x1, y1), tip = point(start), point(base), point(end)
    angle = math.atan2(tip[1] - y1, tip[0] - x1)
    return shapes.arrow(f"M{x0:.1f} {y0:.1f}A{ring:.1f} {ring:.1f} 0 1 1 {x1:.1f} {y1:.1f}", tip, angle, kind)


class Map:
    """Where the states stand and how the edges go."""

    def __init__(self, model, labels, runs):
        states = reached(model)
        self.labels, self.marks = labels, model.marks
        letters = shapes.letters_for({labels[state] for state in states})
        self.size = letters.size
        self.spots, on_circle = best_spots(model, runs, letters.radius, len(states))
        self.start = self.spots[model.start]
        self.words_outside = self.start.radius == DOT
        self.bends, self.outs = {}, {}
        for state, spot in self.spots.items():
            others = {other for other in self.spots if other != state}
            for target in model.rows[state]:
                if target == state:
                    self.outs[state] = self.out(spot, on_circle)
                    continue
                near = [self.spots[other] for other in others if other != target]
                both_ways = state in model.rows[target]
                self.bends[state, target] = bend_of(spot, self.spots[target], near, both_ways, on_circle)

    def out(self, spot, on_circle):
        """The direction of the arrow from a state to itself: away from the others and from the start arrow."""
        if len(self.spots) == 1:
            return 0
        if on_circle:
            inward = math.pi if self.words_outside else 0
            return math.atan2(spot.y, spot.x) + inward + (0.9 if spot == self.start and not inward else 0)
        return math.pi / 2 if spot.y > 1 else -math.pi / 2

    def edge(self, edge, kind):
        """An edge, drawn."""
        source, target = edge
        if source == target:
            return own_loop(self.spots[source], self.outs[source], kind)
        return curve(self.spots[source], self.bends[edge], self.spots[target], kind)

    def state(self, state, kind):
        """A state, drawn."""
        spot, label, marked = self.spots[state], self.labels[state], state in self.marks
        if not self.words_outside:
            return shapes.state(spot, label, marked, kind, self.size)
        return shapes.state(spot, "", marked, kind) + shapes.words_outside(spot, self.away(spot), label, LONGEST, kind)

    def away(self, spot):
        """How far from the middle the words outside begin."""
        return math.hypot(spot.x, spot.y) + DOT + 7

    def box(self):
        """The box around all states, arrows and words, with room for the start arrow."""
        rounds = list(self.spots.values()) + [loop_ring(self.spots[state], out) for state, out in self.outs.items()]
        points = [(spot.x + a * spot.radius, spot.y + b * spot.radius) for spot in rounds for a in (-1, 1) for b in (-1, 1)]
        for (source, target), bend in self.bends.items():
            points += curve_points(self.spots[source], bend, self.spots[target])
        points.append((self.start.x - self.start.radius - (60 if self.words_outside else 46), self.start.y))
        for state, spot in self.spots.items() if self.words_outside else []:
            far = self.away(spot) + max(14, 1.15 * min(LONGEST, shapes.width(self.labels[state], shapes.OUTSIDE)))
            turn = math.atan2(spot.y, spot.x)
            points += [(far * math.cos(turn + more), far * math.sin(turn + more)) for more in (-0.03, 0.03)]
        across, down = [point[0] for point in points], [point[1] for point in points]
        return min(across) - 6, min(down) - 6, max(across) + 6, max(down) + 6


# The picture.


def draw_model(model, labels, runs, words, size):
    """The picture, with a group for each run that the page shows or hides; the first is shown."""
    drawn = Map(model, labels, runs)
    states = list(drawn.spots)
    kind = "pale" if runs else "plain"
    parts = [shapes.start_arrow(drawn.start, "aslant" if drawn.words_outside else "left", kind)]
    parts += [drawn.edge((state, target), kind) for state in states for target in model.rows[state]]
    parts += [drawn.state(state, kind) for state in states]
    for number, run in enumerate(runs, 1):
        inside = [drawn.edge(edge, "strong") for edge in run.edges()]
        inside += [drawn.state(state, "strong") for state in run.states()]
        parts.append(f'<g class="choice run-{number}">{"".join(inside)}</g>')
    return shapes.picture(drawn.box(), parts, words, size)
