# The styles of a page: colours for a light and a dark screen and for paper, lines, and how it is laid out.
# A convenience outside the proofs: nothing in crates/ uses it.

LIGHT = {"ink": "#1b1f24", "paper": "#ffffff", "pale": "#b3b9c0", "soft": "#5f6873", "strong": "#0a58a8",
         "card": "#f5f7f9", "edge": "#d5dae0"}
DARK = {"ink": "#e9edf1", "paper": "#15191e", "pale": "#59626d", "soft": "#a3adb8", "strong": "#ffb84d",
        "card": "#1d232a", "edge": "#343c46"}
PAPER = {"ink": "#000000", "paper": "#ffffff", "pale": "#a6a6a6", "soft": "#555555", "strong": "#000000",
         "card": "#ffffff", "edge": "#bbbbbb"}

COLOURS = """
body {{ background: {paper}; color: {ink}; }}
.state circle, .fold circle {{ fill: {paper}; stroke: {ink}; }}
.state text, .fold text, .outside text {{ fill: {ink}; }}
.line {{ stroke: {ink}; }}
.outside.strong text {{ stroke: {paper}; }}
.head {{ fill: {ink}; }}
.note {{ fill: {soft}; }}
.pale circle, .pale .line {{ stroke: {pale}; }}
.pale text {{ fill: {soft}; }}
.pale .head {{ fill: {pale}; }}
.strong circle, .strong .line {{ stroke: {strong}; }}
.strong .head {{ fill: {strong}; }}
.card {{ background: {card}; border-color: {edge}; color: {ink}; }}
.soft {{ color: {soft}; }}
h2 {{ border-color: {edge}; }}
.soft a {{ color: {strong}; }}
a.card:hover, a.card:focus-visible {{ border-color: {strong}; }}
"""

SHAPES = """
svg { font-family: "Helvetica Neue", Helvetica, Arial, "DejaVu Sans", sans-serif; }
svg text { text-anchor: middle; }
svg .note { text-anchor: start; font-style: italic; }
svg .begins { text-anchor: start; }
svg .ends { text-anchor: end; }
.state circle, .line { stroke-width: 1.8; }
.line { fill: none; }
.fold circle { stroke-width: 1.4; stroke-dasharray: 5 4; }
.pale circle, .pale .line { stroke-width: 1.6; }
.strong circle, .strong .line { stroke-width: 3; }
.state.strong text, .fold.strong text { font-weight: 600; }
.outside.strong text { paint-order: stroke; stroke-width: 3; }
"""

LAYOUT = """
:root { color-scheme: light dark; }
* { box-sizing: border-box; }
body { margin: 0 auto; max-width: 60rem; padding: 1.5rem 1.25rem 2.5rem; line-height: 1.45;
  font-family: "Helvetica Neue", Helvetica, Arial, "DejaVu Sans", sans-serif; overflow-wrap: anywhere; }
h1 { font-size: 1.9rem; line-height: 1.2; margin: 0 0 .4rem; }
h2 { font-size: 1.25rem; margin: 2rem 0 .8rem; padding-top: 1rem; border-top: 1px solid; }
p { margin: .3rem 0; }
figure { margin: 0; }
figcaption { margin-top: .7rem; }
figcaption b { display: block; }
svg { display: block; margin: 0 auto; max-width: 100%; height: auto; }
.card { display: block; padding: 1rem; border: 1.5px solid; border-radius: .6rem; text-decoration: none; }
.first { font-size: 1.15rem; }
.others { display: grid; grid-template-columns: 1fr 1fr; gap: 1rem; }
.others .card { display: flex; flex-direction: column; }
.others .wide { grid-column: 1 / -1; }
.others figure { display: flex; flex-direction: column; justify-content: space-between; flex: 1; }
.choice { display: none; }
.choice.run-1 { display: inline; }
p.choice.run-1 { display: block; }
.refused { font-size: 1.15rem; }
.refused dt { font-weight: 600; margin-top: .8rem; }
.refused dd { margin: 0; }
.legend { font-size: .9rem; }
.soft a { padding: 0 .25em; }
@media (max-width: 44rem) { .others { grid-template-columns: 1fr; } }
"""

PRINT = """
@page { size: A4; margin: 14mm; }
@media print {
  body { max-width: none; padding: 0; font-size: 10.5pt; line-height: 1.3; print-color-adjust: exact; }
  .screen { display: none; }
  h1 { font-size: 20pt; }
  h2 { font-size: 13pt; margin: 3mm 0 2mm; padding-top: 2.5mm; }
  figcaption { margin-top: 2mm; }
  .first { font-size: 12pt; }
  .card { padding: 3mm; }
  figure, .card, .model { break-inside: avoid; }
  h1, h2, .before { break-after: avoid; }
  .others { display: block; }
  .others .card { display: inline-block; vertical-align: top; width: calc(50% - 2.5mm); margin: 0 0 4mm; }
  .others .card:nth-child(odd) { margin-right: 4mm; }
  .others .wide { display: block; width: auto; margin-right: 0; }
  .first svg { max-height: 150mm; }
  .model svg { max-height: 175mm; }
  .others svg { max-height: 150mm; }
}
"""


def choice_styles(count):
    """The rules that show the run whose link was followed, instead of the first."""
    rules = []
    for number in range(2, count + 1):
        rules.append(f"#show-{number}:target ~ figure .choice {{ display: none; }}")
        rules.append(f"#show-{number}:target ~ figure .run-{number} {{ display: inline; }}")
        rules.append(f"#show-{number}:target ~ figure p.run-{number} {{ display: block; }}")
    return "\n".join(rules)


def styles(count):
    """All styles of a page with so many runs."""
    colours = COLOURS.format(**LIGHT)
    dark = f"@media screen and (prefers-color-scheme: dark) {{{COLOURS.format(**DARK)}}}"
    paper = f"@media print {{{COLOURS.format(**PAPER)}}}"
    return "\n".join([SHAPES, LAYOUT, choice_styles(count), colours, dark, paper, PRINT])


def picture_styles():
    """The styles of the pictures alone, on white."""
    shown = ".choice { display: none; }\n.choice.run-1 { display: inline; }\n"
    return SHAPES + COLOURS.format(**LIGHT) + shown + f".rule {{ stroke: {LIGHT['edge']}; }}\n"
