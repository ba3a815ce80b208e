# The pictures and sentences of a page as one SVG, for slides and for texts that show pictures.
# A convenience outside the proofs: nothing in crates/ uses it.
import re
from html import escape

from classroom import graph
from classroom.page import all_told, facts, model_picture
from classroom.shapes import width
from classroom.style import picture_styles
from classroom.words import plain

WIDE = 760
EDGE = 24


class Poster:
    """What is on the poster so far, and how far down it goes."""

    def __init__(self):
        self.parts, self.down = [], EDGE

    def write(self, text, size, left=EDGE, wide=WIDE - 2 * EDGE, weight="400"):
        """Lines of text from the left edge of a column on."""
        line = ""
        for word in text.split() + [None]:
            if word is None or (line and width(f"{line} {word}", size) > wide):
                self.down += 1.35 * size
                self.parts.append(
                    f'<text class="begins" x="{left}" y="{self.down:.1f}" font-size="{size}" '
                    f'font-weight="{weight}">{escape(line)}</text>'
                )
                line = ""
            line = f"{line} {word}".strip()

    def draw(self, svg, left, wide):
        """A picture in the middle of a column; it is made smaller if it is too wide."""
        across, high = map(int, re.search(r'width="(\d+)" height="(\d+)"', svg).groups())
        scale = min(1, wide / across)
        place = f'x="{left + (wide - across * scale) / 2:.1f}" y="{self.down + 12:.1f}"'
        size = f'width="{across * scale:.0f}" height="{high * scale:.0f}"'
        self.parts.append(re.sub(r'width="\d+" height="\d+"', f"{place} {size}", svg, count=1))
        self.down += high * scale + 16

    def rule(self):
        """A thin line across."""
        self.down += 20
        self.parts.append(f'<path class="rule" d="M{EDGE} {self.down:.1f}H{WIDE - EDGE}"/>')
        self.down += 6

    def run(self, number, run, left=EDGE, wide=WIDE - 2 * EDGE):
        """A run: its picture and its sentence."""
        self.draw(run.svg, left, wide)
        self.down += 6
        self.write(f"Run {number}", 15, left, wide, "600")
        self.write(plain(run.text), 15, left, wide)

    def whole(self, title):
        """The SVG."""
        return (
            f'<svg xmlns="http://www.w3.org/2000/svg" role="img" aria-label="{escape(title)}" '
            f'viewBox="0 0 {WIDE} {self.down + EDGE:.0f}" width="{WIDE}" height="{self.down + EDGE:.0f}">'
            f'<style>{picture_styles()}</style><rect width="100%" height="100%" fill="#ffffff"/>\n'
            + "\n".join(self.parts) + "\n</svg>\n"
        )


def poster(lesson):
    """The first run large, the others two in a row, the model if it is small enough."""
    sheet, drawn = lesson.sheet, Poster()
    drawn.write(lesson.title, 26, weight="600")
    if sheet.refused is not None:
        for line in [f"Refused {sheet.refused}", *lesson.refusal]:
            drawn.write(line, 16)
        return drawn.whole(lesson.title)
    states = graph.reached(lesson.model)
    for line in re.findall("<p>(.*?)</p>", facts(lesson, states)):
        drawn.write(plain(line), 15)
    runs = all_told(lesson)
    if runs:
        drawn.rule()
        drawn.run(1, runs[0])
    half = WIDE / 2 - 1.5 * EDGE
    for number in range(2, len(runs) + 1, 2):
        drawn.rule()
        top, ends = drawn.down, []
        for other in range(number, min(number + 2, len(runs) + 1)):
            drawn.down = top
            drawn.run(other, runs[other - 1], EDGE if other == number else WIDE / 2 + EDGE / 2, half)
            ends.append(drawn.down)
        drawn.down = max(ends)
    if graph.is_small(lesson.model, states):
        drawn.rule()
        drawn.draw(model_picture(lesson), EDGE, WIDE - 2 * EDGE)
        drawn.down += 6
        drawn.write("The model, with run 1 drawn strong." if runs else "The model.", 15)
    return drawn.whole(lesson.title)
