# The classroom page: the HTML around the pictures.
# The page is one file: styles and pictures are inside, it has no script and loads nothing.
# A convenience outside the proofs: nothing in crates/ uses it.
import re
from html import escape
from typing import NamedTuple, Optional

from classroom import graph, lasso
from classroom.lasso import Look
from classroom.shapes import Size
from classroom.style import styles
from classroom.words import Words, count_of, labels_of, plain, sentence

LARGE = Size(1.6, 680, 560)
SMALL = Size(0.9, 400, 360, 0.75)
WIDE = Size(0.9, 680, 400, 0.75)
MODEL = Size(1.25, 680, 680)


class Lesson(NamedTuple):
    """All that a page is made from. The implied steps of the model are edges here, and drawn as such.

    staying: the states that have one. The refusal is the reason, what to do, and what this file has, in words.
    """

    title: str
    sheet: object
    model: Optional[object] = None
    staying: list = []
    names: dict = {}
    refusal: Optional[tuple] = None


# The runs.


class Told(NamedTuple):
    """A run as it is told on the page: its picture, its sentence, and how its frame is."""

    svg: str
    text: str
    kind: str


def told(lesson, number):
    """A run; all but the first are small, unless they are too large for that, and compared with the first."""
    run, first = lesson.sheet.runs[number - 1], lesson.sheet.runs[0]
    labels, marks = labels_of(lesson), lesson.model.marks
    look = Look(labels, marks, first if number > 1 else None)
    short = all(len(labels[state]) <= 4 for state in run.states())
    kind, limits, size = "first", lasso.LARGE if short else lasso.LARGE_WORDS, LARGE
    if number > 1:
        kind, limits, size = "small", lasso.SMALL if short else lasso.SMALL_WORDS, SMALL
        if lasso.lasso_scale(run, look, limits, size) < size.fine:
            kind, size = "wide", WIDE
    text = sentence(run, lasso.shown_items(run, look, limits), marks, Words(labels, lesson.names))
    return Told(lasso.draw_lasso(run, look, limits, f"Run {number}: {plain(text)}", size), text, kind)


def all_told(lesson):
    """All runs, in the order of the sheet."""
    return [told(lesson, number) for number in range(1, len(lesson.sheet.runs) + 1)]


def card(number, run, linked):
    """A run in its frame, which is a link that shows the run on the model if that is drawn."""
    says = f'<b>Run {number}</b><span class="says">{run.text}</span>'
    inside = f"<figure>{run.svg}<figcaption>{says}</figcaption></figure>"
    if linked:
        return f'<a class="card {run.kind}" href="#show-{number}">{inside}</a>'
    return f'<div class="card {run.kind}">{inside}</div>'


def other_runs(runs, linked):
    """All runs but the first."""
    cards = "".join(card(number, run, linked) for number, run in enumerate(runs[1:], 2))
    return (
        '<section><h2>The other shortest runs</h2><p class="before">What a run shares with the first is pale, '
        f'what differs is strong.</p><div class="others">{cards}</div></section>'
    )


# The model.


def staying_within(lesson, states):
    """How many of these states stay as they are."""
    return len(set(lesson.staying) & set(states))


def model_picture(lesson):
    """The part of the model that can be reached."""
    return graph.draw_model(lesson.model, labels_of(lesson), lesson.sheet.runs, "The model", MODEL)


def model_section(lesson, runs, states):
    """The model with the chosen run on it."""
    numbers = range(1, len(runs) + 1)
    anchors = "".join(f'<span id="show-{number}"></span>' for number in numbers)
    links = " ".join(f'<a href="#show-{number}">{number}</a>' for number in numbers)
    choose = f'<p class="screen soft">A click on a run shows it here. Run {links}</p>' if runs[1:] else ""
    said = "".join(
        f'<p class="choice run-{number}"><b>Drawn strong: run {number}.</b><span class="screen">{run.text}</span></p>'
        for number, run in zip(numbers, runs)
    )
    if staying_within(lesson, states):
        said += "<p>A state that stays as it is has an arrow to itself.</p>"
    outside = len(lesson.model.rows) - len(states)
    if outside:
        said += f"<p>{count_of(outside, 'state')} cannot be reached and {'is' if outside == 1 else 'are'} not drawn.</p>"
    svg = model_picture(lesson)
    return (
        f'<section class="model"><h2>The model</h2>{anchors}{choose}'
        f"<figure>{svg}<figcaption>{said}</figcaption></figure></section>"
    )


def model_size(model, states):
    """How large the model is, if it is not drawn."""
    arrows = sum(len(model.rows[state]) for state in states)
    return (
        '<section class="model"><h2>The model</h2><p>The part of the model that can be reached has '
        f"{count_of(len(states), 'state')} and {count_of(arrows, 'arrow')}: too many to be read in a picture.</p></section>"
    )


# The whole page.


def facts(lesson, states):
    """The first lines of a page: the model, and how many runs there are."""
    sheet, count = lesson.sheet, len(lesson.sheet.runs)
    start = Words(labels_of(lesson), lesson.names).state(lesson.model.start)
    lines = [
        f"The model has {count_of(sheet.states, 'state')} and {count_of(sheet.edges, 'edge')} and starts at {start}. "
        f"Within reach: {count_of(len(states), 'state')}, {sheet.rounds:,} marked."
    ]
    staying = staying_within(lesson, states)
    if staying:
        ends = "has no edges and stays as it is" if staying == 1 else "have no edges and stay as they are"
        lines.append(f"{count_of(staying, 'state')} within reach {ends} for ever.")
    length = f"A shortest run has {count_of(sheet.length, 'transition')} before it repeats."
    if not count:
        lines.append("<b>No run comes to a marked state again and again: there is none to draw.</b>")
    elif sheet.more:
        lines.append(f"{length} These are the first {count} such runs; <b>there are more</b>.")
    else:
        lines.append(f"{length} {'It is the only one.' if count == 1 else f'There are {count}, all on this page.'}")
    return "".join(f"<p>{line}</p>" for line in lines)


def legend(inside):
    """How to read the pictures that are on the page."""
    text = "A circle is a state, a double circle a marked one, an arrow a transition."
    if 'class="says"' in inside:
        text += " The ring is the part that is repeated for ever; it is entered at its left."
    if 'class="fold' in inside:
        text += " A dashed circle stands for states that are left out."
    return f'<p class="soft legend">{text}</p>' if "<svg" in inside else ""


def refused_body(lesson):
    """The page of a file that is refused: the words of the refusal card."""
    reason, remedy, here = lesson.refusal
    said = [(f"Refused {lesson.sheet.refused}", code_words(reason)), ("What to do", code_words(remedy))]
    said += [("In this file", escape(here))] if here else []
    entries = "".join(f"<dt>{term}</dt><dd>{words}</dd>" for term, words in said)
    first = "<p>The file breaks a rule of the model file, so there is no run to draw.</p>"
    return f'{first}<dl class="card refused">{entries}</dl>'


def code_words(text):
    """Text of the refusal card: what stands between backquotes is code."""
    return re.sub("`([^`]*)`", r"<code>\1</code>", escape(text))


def body(lesson):
    """All that stands below the title."""
    if lesson.sheet.refused is not None:
        return refused_body(lesson)
    states = graph.reached(lesson.model)
    small = graph.is_small(lesson.model, states)
    runs = all_told(lesson)
    heading = "The first shortest run" if runs[1:] else "The shortest run"
    inside = f"<section><h2>{heading}</h2>{card(1, runs[0], small)}</section>" if runs else ""
    inside += other_runs(runs, small) if runs[1:] else ""
    inside += model_section(lesson, runs, states) if small else model_size(lesson.model, states)
    return facts(lesson, states) + legend(inside) + inside


def page(lesson):
    """The whole page. It is well-formed XML too."""
    title = escape(lesson.title)
    rules = "default-src 'none'; style-src 'unsafe-inline'; img-src data:"
    return (
        '<!DOCTYPE html>\n<html lang="en" xmlns="http://www.w3.org/1999/xhtml">\n<head>\n<meta charset="utf-8"/>\n'
        f'<meta http-equiv="Content-Security-Policy" content="{rules}"/>\n'
        '<meta name="viewport" content="width=device-width, initial-scale=1"/>\n<link rel="icon" href="data:,"/>\n'
        f"<title>{title}</title>\n<style>{styles(len(lesson.sheet.runs))}</style>\n</head>\n"
        f"<body>\n<h1>{title}</h1>\n{body(lesson)}\n</body>\n</html>\n"
    )
