# Where the states of a model stand in its picture: in columns by their distance from the start, or on a
# circle, the first run in its order and the rest with few crossings, whichever has fewer faults.
# A convenience outside the proofs: nothing in crates/ uses it.
import itertools
import math

from classroom import shapes
from classroom.shapes import Spot

MOST_INSIDE = 22  # with more states on a circle, words that are longer than a number stand outside
DOT = 11  # the radius of a state whose words stand outside


# The order on the circle.


def first_order(model, runs):
    """The states that can be reached, in the order of a walk in depth that follows the first run."""
    along = dict(runs[0].edges()) if runs else {}
    order, stack, known = [], [model.start], set()
    while stack:
        state = stack.pop()
        if state in known:
            continue
        known.add(state)
        order.append(state)
        after = [target for target in reversed(model.rows[state]) if target not in known]
        if along.get(state) in after:
            after.remove(along[state])
            after.append(along[state])
        stack += after
    return order


def swap_gain(order, place, near):
    """By how much the crossings shrink if the states at a place and at the next one change places."""
    count = len(order)
    at = {state: (index - place) % count for index, state in enumerate(order)}
    one, other = order[place % count], order[(place + 1) % count]
    ones = [at[state] for state in near[one] if state not in (one, other)]
    others = [at[state] for state in near[other] if state not in (one, other)]
    before = sum(a < b for a in ones for b in others)
    after = sum(a > b for a in ones for b in others)
    return before - after


def span(order, near):
    """The length of all edges, counted in places on the circle."""
    at = {state: index for index, state in enumerate(order)}
    count, total = len(order), 0
    for state in order:
        for other in near[state]:
            far = (at[state] - at[other]) % count
            total += min(far, count - far)
    return total


def sifted(order, near, fixed):
    """The order after each state but the first ones, which are fixed, was moved to its best place after them."""
    for state in order[fixed:]:
        row = [other for other in order if other != state]
        row.insert(fixed, state)
        gain, best = 0, (0, -span(row, near), list(row))
        for place in range(fixed, len(row) - 1):
            gain += swap_gain(row, place, near)
            row[place], row[place + 1] = row[place + 1], row[place]
            tried = gain, -span(row, near), list(row)
            best = max(best, tried, key=lambda one: one[:2])
        order = best[2]
    return order


def neighbours(model, order):
    """For each state those before and after it."""
    near = {state: set() for state in order}
    for state in order:
        for target in model.rows[state]:
            near[state].add(target)
            near[target].add(state)
    return near


def circle_order(model, runs):
    """The states that can be reached: the first run, so that its loop looks like one, then the rest with few crossings."""
    order = first_order(model, runs)
    near = neighbours(model, order)
    fixed = len(runs[0].states()) if runs else 1
    for _ in range(3):
        before = list(order)
        order = sifted(order, near, fixed)
        if order == before:
            break
    return order


def circle_spots(model, runs, radius):
    """The spot of each state on a circle; the initial one is at the left."""
    order = circle_order(model, runs)
    count = len(order)
    step = 2 * radius + (56 if count < 10 else 30 if count < 20 else 16 if radius > DOT else 20)
    ring = max(2.2 * radius, step / (2 * math.sin(math.pi / count))) if count > 1 else 0
    spots = {}
    for place, state in enumerate(order):
        turn = math.pi + 2 * math.pi * place / count
        spots[state] = Spot(ring * math.cos(turn), ring * math.sin(turn), radius)
    return spots


# The columns.


def columns_of(model):
    """The states that can be reached by their distance from the initial one."""
    columns, known = [[model.start]], {model.start}
    while columns[-1]:
        after = sorted({target for state in columns[-1] for target in model.rows[state]} - known)
        known.update(after)
        columns.append(after)
    return columns[:-1]


def sorted_columns(columns, near):
    """The columns, each ordered by the middle of the neighbours in the other columns, some rounds long."""
    height = {state: place - len(column) / 2 for column in columns for place, state in enumerate(column)}
    for turn in range(8):
        for column in columns if turn % 2 == 0 else columns[::-1]:
            def middle(state):
                others = [height[other] for other in near[state] if other not in column]
                return sum(others) / len(others) if others else height[state]

            column.sort(key=middle)
            for place, state in enumerate(column):
                height[state] = place - (len(column) - 1) / 2
    return columns


def column_spots(model, radius):
    """The spot of each state in columns from left to right."""
    columns = columns_of(model)
    near = neighbours(model, [state for column in columns for state in column])
    row_step = 2 * radius + 44
    # The columns stand so far apart that the steepest arrow passes beside the states.
    room, high = radius + 10, row_step * (max(map(len, columns)) - 1)
    step = max(2 * radius + 66, room * high / math.sqrt(row_step * row_step - room * room))
    spots = {}
    for place, column in enumerate(sorted_columns(columns, near)):
        for row, state in enumerate(column):
            spots[state] = Spot(place * step, (row - (len(column) - 1) / 2) * row_step, radius)
    return spots


# Which of the two.


def curve_points(one, bend, other, count=24):
    """Points on the curve between two spots; the bend is its control point."""
    points = []
    for place in range(count + 1):
        t = place / count
        a, b, c = (1 - t) * (1 - t), 2 * t * (1 - t), t * t
        points.append((a * one.x + b * bend[0] + c * other.x, a * one.y + b * bend[1] + c * other.y))
    return points


def clearance(points, others):
    """The least distance of the points from the rims of other spots."""
    return min((math.dist(point, spot[:2]) - spot.radius for point in points for spot in others), default=99)


def crossing(one, other):
    """Whether two straight lines cross; lines that share an end do not."""
    def side(a, b, c):
        return (b.x - a.x) * (c.y - a.y) - (b.y - a.y) * (c.x - a.x)

    (a, b), (c, d) = one, other
    if len({a, b, c, d}) < 4:
        return False
    return side(a, b, c) * side(a, b, d) < 0 and side(c, d, a) * side(c, d, b) < 0


def faults(model, spots):
    """The crossings of straight arrows, and thrice those that pass through a state."""
    pairs = {tuple(sorted((state, target))) for state in spots for target in model.rows[state] if state != target}
    lines = [(spots[one], spots[other]) for one, other in sorted(pairs)]
    count = sum(crossing(one, other) for one, other in itertools.combinations(lines, 2))
    for one, other in lines:
        others = [spot for spot in spots.values() if spot not in (one, other)]
        middle = (one.x + other.x) / 2, (one.y + other.y) / 2
        count += 3 * (clearance(curve_points(one, middle, other), others) < 5)
    return count


def best_spots(model, runs, radius, count):
    """The spots, and whether they are on a circle: if columns cannot be read or have more faults."""
    if radius > shapes.SHORT and count > MOST_INSIDE:
        return circle_spots(model, runs, DOT), True
    on_circle, in_columns = circle_spots(model, runs, radius), column_spots(model, radius)
    wide = max(spot.x for spot in in_columns.values())
    high = 2 * max(spot.y for spot in in_columns.values())
    if max(wide, high) < 760 and faults(model, in_columns) <= faults(model, on_circle):
        return in_columns, False
    return on_circle, True
