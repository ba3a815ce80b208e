# The shapes that the pictures of draw-sheet are made of, as SVG text: states with their words inside,
# arrows, folds. Widths of words are estimates that err on the wide side, so that words stay inside.
# A convenience outside the proofs: nothing in crates/ uses it.
import math
import unicodedata
from html import escape
from typing import NamedTuple

SHORT = 20  # the radius of a state that shows a number
RADII = [SHORT, 28, 32, 36, 42]  # the radii tried for longer words
RIM = 6  # what the rim of a state takes from its radius
SMALLEST, LARGEST = 10, 16  # sizes of letters
OUTSIDE = 12  # the size of words beside a state
HEAD = 10  # the length of an arrow's head


class Spot(NamedTuple):
    """A round place in a picture: its middle and its radius."""

    x: float
    y: float
    radius: float


class Letters(NamedTuple):
    """What all states of a picture have in common: their radius, and the greatest size of their letters."""

    radius: int
    size: int


class Size(NamedTuple):
    """How much a picture is made larger, how wide and high it may then be in points of the screen, what is fine."""

    scale: float
    wide: int
    high: int
    fine: float = 1


# Words.


def letter_width(letter):
    """The width of a letter, in sizes of the letters."""
    if unicodedata.combining(letter):
        return 0
    if unicodedata.east_asian_width(letter) in "WF":
        return 1.1
    if letter in "mwMW@%—…":
        return 0.95
    if letter in "iljtfrI.,:;'|!()[] ":
        return 0.4
    return 0.72 if letter.isupper() else 0.63


def width(text, size):
    """The width of a text."""
    return size * sum(map(letter_width, text))


def line_rooms(count, size, radius):
    """The widths that so many lines of text have in a circle."""
    rooms = []
    for line in range(count):
        far = abs(line - (count - 1) / 2) * 1.15 * size + 0.42 * size
        rooms.append(2 * math.sqrt(max(0, radius * radius - far * far)))
    return rooms


def fill(words, rooms, size):
    """The words put into lines of these widths, whole; None if they do not go in."""
    lines, rest = [], list(words)
    for room in rooms:
        line = ""
        while rest and width((line + " " + rest[0]).strip(), size) <= room:
            line = (line + " " + rest.pop(0)).strip()
        lines.append(line)
    return None if rest or "" in lines else lines


def fill_whole(label, radius, smallest=SMALLEST, largest=LARGEST):
    """The largest size, and the lines, with which the words go whole into a circle; None if they do not."""
    for size in range(largest, smallest - 1, -1):
        for count in range(1, 6):
            lines = fill(label.split(), line_rooms(count, size, radius - RIM), size)
            if lines:
                return size, lines
    return None


def fill_broken(label, radius):
    """Lines of the smallest letters, with words broken, and with three dots if the rest does not go in."""
    rooms = line_rooms(5, SMALLEST, radius - RIM)
    lines, rest = [], label
    for place, room in enumerate(rooms):
        room = 0.92 * room - width("-", SMALLEST)
        count = 0
        while count < len(rest) and width(rest[: count + 1], SMALLEST) <= room:
            count += 1
        if place == len(rooms) - 1 and count < len(rest):
            return SMALLEST, lines + [rest[: max(0, count - 1)].rstrip() + "…"]
        space = rest.rfind(" ", 0, count + 1)
        if count < len(rest) and space > 0:
            count = space
        broken = count < len(rest) and rest[count] != " "
        lines.append(rest[:count].strip() + ("-" if broken else ""))
        rest = rest[count:].strip()
        if not rest:
            break
    return SMALLEST, [line for line in lines if line]


def letters_for(labels):
    """The least radius with which all labels go whole into their circles, or the greatest one, and their letters."""
    radius = next((one for one in RADII if all(fill_whole(label, one, 11) for label in labels)), RADII[-1])
    fitting = filter(None, [fill_whole(label, radius, 11) for label in labels])
    return Letters(radius, min((size for size, _ in fitting), default=11))


def text_lines(x, y, size, lines):
    """Lines of text, centred on a point."""
    first = y - (len(lines) - 1) / 2 * 1.15 * size + 0.35 * size
    rows = [
        f'<tspan x="{x:.1f}" y="{first + place * 1.15 * size:.1f}">{escape(line)}</tspan>'
        for place, line in enumerate(lines)
    ]
    return f'<text font-size="{size}">{"".join(rows)}</text>'


# States and folds.


def state(spot, label, marked, kind, largest=LARGEST):
    """A state: its words in a circle, which is double if it is marked. The kind is plain, pale or strong."""
    at = f'cx="{spot.x:.1f}" cy="{spot.y:.1f}"'
    inner = f'<circle {at} r="{spot.radius - 4}"/>' if marked else ""
    words = ""
    if label:
        size, lines = fill_whole(label, spot.radius, largest=largest) or fill_broken(label, spot.radius)
        words = f"<title>{escape(label)}</title>{text_lines(spot.x, spot.y, size, lines)}"
    return f'<g class="state {kind}"><circle {at} r="{spot.radius}"/>{inner}{words}</g>'


def words_outside(spot, away, label, most, kind):
    """Words on a line from the middle of a circle, outside it; they are cut if they are too long. A number is upright."""
    if label.isdecimal() and len(label) <= 4:
        far = math.hypot(spot.x, spot.y)
        across, down = spot.x / far, spot.y / far
        far = away + (abs(across) * width(label, OUTSIDE) + abs(down) * 0.75 * OUTSIDE) / 2
        place = f'x="{far * across:.1f}" y="{far * down + 0.35 * OUTSIDE:.1f}"'
        return f'<g class="outside {kind}"><text {place} font-size="{OUTSIDE}">{label}</text></g>'
    shown = label
    while width(shown, OUTSIDE) > most:
        shown = shown[:-2].rstrip() + "…"
    turn = math.degrees(math.atan2(spot.y, spot.x))
    left = abs(turn) > 90.001
    place = f'x="{-away if left else away:.1f}" y="{0.35 * OUTSIDE:.1f}" font-size="{OUTSIDE}"'
    side = "ends" if left else "begins"
    turned = turn + 180 if left else turn
    return (
        f'<g class="outside {kind}"><title>{escape(label)}</title>'
        f'<text class="{side}" transform="rotate({turned:.1f})" {place}>{escape(shown)}</text></g>'
    )


def fold(spot, words, kind):
    """A dashed circle that stands for states left out."""
    size, lines = fill_whole(words, spot.radius, largest=13) or fill_broken(words, spot.radius)
    return (
        f'<g class="fold {kind}"><circle cx="{spot.x:.1f}" cy="{spot.y:.1f}" r="{spot.radius}"/>'
        f"{text_lines(spot.x, spot.y, size, lines)}</g>"
    )


# Arrows.


def head(x, y, angle):
    """The head of an arrow, its tip at a point."""
    back = [(x - HEAD * math.cos(angle + turn), y - HEAD * math.sin(angle + turn)) for turn in (-0.42, 0.42)]
    points = " ".join(f"{one:.1f},{other:.1f}" for one, other in [(x, y), *back])
    return f'<polygon class="head" points="{points}"/>'


def arrow(path, tip, angle, kind):
    """An arrow along a path; the path ends inside the head."""
    return f'<g class="arrow {kind}"><path class="line" d="{path}"/>{head(*tip, angle)}</g>'


def straight(one, other, kind):
    """A straight arrow from the rim of one spot to the rim of another."""
    angle = math.atan2(other.y - one.y, other.x - one.x)
    along = math.cos(angle), math.sin(angle)
    start = one.x + along[0] * one.radius, one.y + along[1] * one.radius
    tip = other.x - along[0] * (other.radius + 1), other.y - along[1] * (other.radius + 1)
    base = tip[0] - along[0] * HEAD * 0.8, tip[1] - along[1] * HEAD * 0.8
    return arrow(f"M{start[0]:.1f} {start[1]:.1f}L{base[0]:.1f} {base[1]:.1f}", tip, angle, kind)


def around(centre, ring, spots, turns, kind):
    """An arrow along a ring, from the rim of one spot on it to the rim of another; turns are their angles."""
    def point(angle):
        return centre[0] + ring * math.cos(angle), centre[1] + ring * math.sin(angle)

    start = turns[0] + 2 * math.asin(min(1, spots[0].radius / (2 * ring)))
    end = turns[1] - 2 * math.asin(min(1, (spots[1].radius + 1) / (2 * ring)))
    base = end - 0.8 * HEAD / ring
    (x0, y0), (x1, y1), tip = point(start), point(base), point(end)
    far = int(base - start > math.pi)
    angle = math.atan2(tip[1] - y1, tip[0] - x1)
    return arrow(f"M{x0:.1f} {y0:.1f}A{ring:.1f} {ring:.1f} 0 {far} 1 {x1:.1f} {y1:.1f}", tip, angle, kind)


def start_arrow(spot, side, kind):
    """The short arrow into the state at which the run starts, with the word start. It comes from above, from the
    left, or aslant, between the words outside that state and those outside the next."""
    turn = {"above": -math.pi / 2, "left": math.pi, "aslant": 1.2 * math.pi}[side]
    far = spot.radius + 30
    outside = Spot(spot.x + far * math.cos(turn), spot.y + far * math.sin(turn), 0)
    x, y = {
        "above": (spot.x + 6, outside.y + 10), "left": (outside.x - 2, spot.y - 8), "aslant": (outside.x - 29, outside.y + 4),
    }[side]
    word = f'<text class="note" font-size="12" x="{x:.1f}" y="{y:.1f}">start</text>'
    return straight(outside, spot, kind) + word


def scale_of(box, size):
    """How much smaller or larger a picture is drawn; the box is left, top, right, bottom."""
    left, top, right, bottom = box
    return min(size.scale, size.wide / (right - left), size.high / (bottom - top))


def picture(box, parts, words, size):
    """A whole picture; the words say what it shows."""
    left, top, right, bottom = box
    wide, high = right - left, bottom - top
    scale = scale_of(box, size)
    return (
        f'<svg xmlns="http://www.w3.org/2000/svg" role="img" aria-label="{escape(words)}" '
        f'viewBox="{left:.1f} {top:.1f} {wide:.1f} {high:.1f}" '
        f'width="{wide * scale:.0f}" height="{high * scale:.0f}">{"".join(parts)}</svg>'
    )
