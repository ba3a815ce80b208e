# A model and its first run as Graphviz text.
# A convenience outside the proofs: nothing in crates/ uses it.
from classroom.words import labels_of


def dot_text(text):
    """A text between quotation marks, as Graphviz reads it."""
    return '"' + text.replace("\\", "\\\\").replace('"', '\\"').replace("&", "&amp;") + '"'


def dot(lesson):
    """The model as Graphviz text, with the first run drawn strong."""
    if lesson.sheet.refused is not None:
        return f"digraph {{\n  label={dot_text(f'refused {lesson.sheet.refused}: {lesson.refusal[0]}')};\n}}\n"
    model, labels = lesson.model, labels_of(lesson)
    run = lesson.sheet.runs[0] if lesson.sheet.runs else None
    strong = set(run.states()) if run else set()
    taken = set(run.edges()) if run else set()
    lines = ["rankdir=LR;", f"label={dot_text(lesson.title)};", "node [shape=circle];", 'start [shape=none, label="start"];']
    for state in range(len(model.rows)):
        double = ", shape=doublecircle" if state in model.marks else ""
        pen = ", penwidth=3" if state in strong else ""
        lines.append(f"{state} [label={dot_text(labels[state])}{double}{pen}];")
    lines.append(f"start -> {model.start};")
    for state, row in enumerate(model.rows):
        for target in row:
            lines.append(f"{state} -> {target}{' [penwidth=3]' if (state, target) in taken else ' [color=gray50]'};")
    return "digraph {\n" + "".join(f"  {line}\n" for line in lines) + "}\n"
