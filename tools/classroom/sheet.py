# What draw-sheet reads: the sheet that the desk sheet program prints, the names of states, and the
# refusal card. Each run of a sheet is checked against the model before it is drawn.
# A convenience outside the proofs: nothing in crates/ uses it.
import os
import re
import subprocess
import unicodedata
from typing import NamedTuple, Optional

import fahkelo_card
from fahkelo_places import CARD, PROGRAM
from modelfile import MAX_BYTES, fail, read_input, with_implied_steps

MAX_NAMES_BYTES = 4 << 20


class Run(NamedTuple):
    """A run: the states before the loop, and those of the loop from its entry on."""

    stem: list
    loop: list

    def states(self):
        """All states, in the order of the run."""
        return self.stem + self.loop

    def edges(self):
        """All edges, the one that closes the loop last."""
        states = self.states()
        return list(zip(states, states[1:] + self.loop[:1]))


class Sheet(NamedTuple):
    """A sheet: refused with a number, or the runs listed, and whether there are more."""

    refused: Optional[int] = None
    states: int = 0
    edges: int = 0
    rounds: int = 0
    length: int = 0
    runs: list = []
    more: bool = False


class Wrong(Exception):
    """The text is no sheet, or no sheet of this model."""


# The sheet.


def desk_sheet(data):
    """What the desk sheet program prints for a file."""
    if not os.path.exists(PROGRAM):
        fail(f"the desk sheet program, {PROGRAM}, is not built: make target/bin/desk_sheet builds it", 1)
    try:
        done = subprocess.run([PROGRAM], input=data[: MAX_BYTES + 1], capture_output=True)
    except OSError as error:
        fail(f"cannot run {PROGRAM}: {error.strerror} (make target/bin/desk_sheet builds it)", 1)
    if done.returncode != 0:
        fail(f"{PROGRAM} ended with exit code {done.returncode}", 1)
    return done.stdout.decode("utf-8", "replace")


def numbers_after(line, head, count):
    """The numbers of a line `head n ..`."""
    words = line.split(" ")
    if words[0] != head or len(words) != count + 1 or not all(re.fullmatch("[0-9]+", word) for word in words[1:]):
        raise Wrong(f"it has the line '{line[:60]}' where '{head}' and {count} number(s) should stand")
    return [int(word) for word in words[1:]]


def read_run(line):
    """The run of a line: the stem, a bar, the loop."""
    if not re.fullmatch(r"([0-9]+ )*\|( [0-9]+)+", line):
        raise Wrong(f"it has the line '{line[:60]}' where a list should stand")
    stem, loop = line.split("|")
    return Run([int(word) for word in stem.split()], [int(word) for word in loop.split()])


def read_sheet(text):
    """The sheet that a text is. Raises Wrong if it is none."""
    if not text.endswith("\n"):
        raise Wrong("its last line does not end")
    lines = text[:-1].split("\n")
    if lines[0].startswith("refused") and len(lines) == 1:
        return Sheet(refused=numbers_after(lines[0], "refused", 1)[0])
    if len(lines) < 3:
        raise Wrong("it has too few lines")
    states, edges = numbers_after(lines[0], "model", 2)
    rounds = numbers_after(lines[1], "rounds", 1)[0]
    if lines[2:] == ["none"]:
        return Sheet(None, states, edges, rounds)
    length = numbers_after(lines[2], "shortest", 1)[0]
    runs = [read_run(line) for line in lines[3:-1]]
    closing = "more" if lines[-1].startswith("more") else "end"
    if numbers_after(lines[-1], closing, 1)[0] != len(runs) or not runs:
        raise Wrong(f"its last line is '{lines[-1][:60]}' and it has {len(runs)} list(s)")
    return Sheet(None, states, edges, rounds, length, runs, closing == "more")


def check_run(model, run, length):
    """Raises Wrong unless the run is one of the model: its start, its steps, its closing, a mark in its loop."""
    states = run.states()
    for state in states:
        if state >= len(model.rows):
            raise Wrong(f"it passes {state}, which is no state")
    if states[0] != model.start:
        raise Wrong(f"it starts at {states[0]}, and the model starts at {model.start}")
    if len(set(states)) != len(states):
        raise Wrong("it passes a state twice before it repeats")
    for source, target in run.edges():
        if target not in model.rows[source]:
            raise Wrong(f"it goes from {source} to {target}, and the model has no such edge")
    if model.marks.isdisjoint(run.loop):
        raise Wrong("its loop holds no marked state")
    if len(states) != length:
        raise Wrong(f"it has {len(states)} transitions, and the sheet says {length}")


def check_sheet(sheet, model, refusal):
    """Raises Wrong unless the sheet fits the file: the model read from it, or the reason to refuse it."""
    if sheet.refused is not None:
        # From 12 on a reason is about a call, and the file may be right.
        if sheet.refused < 12 and sheet.refused != (refusal and refusal.number):
            raise Wrong(f"the program says refused {sheet.refused}, and this script reads: {refusal or 'a model'}")
        return
    if refusal:
        raise Wrong(f"the program accepts the file, and this script reads: {refusal}")
    size = len(model.rows), sum(map(len, model.rows))
    if size != (sheet.states, sheet.edges):
        raise Wrong(f"it is about {sheet.states} states and {sheet.edges} edges, and the model has {size}")
    steps = with_implied_steps(model)
    for number, run in enumerate(sheet.runs, 1):
        try:
            check_run(steps, run, sheet.length)
        except Wrong as wrong:
            raise Wrong(f"run {number} is no run of this model: {wrong}") from None
        if run in sheet.runs[: number - 1]:
            raise Wrong(f"run {number} stands twice")


# The names.


def text_lines(path, code):
    """The lines of a text file; a file that is no text ends the script with the code."""
    data = read_input(path, code, MAX_NAMES_BYTES + 1)
    if len(data) > MAX_NAMES_BYTES:
        fail(f"{path} has more than {MAX_NAMES_BYTES} bytes", code)
    try:
        lines = data.decode("utf-8-sig").split("\n")
    except UnicodeDecodeError as error:
        fail(f"{path} is no text: byte {error.start} cannot be read as UTF-8", code)
    for number, line in enumerate(lines, 1):
        bad = no_text(line[:-1] if line.endswith("\r") else line)
        if bad:
            fail(f"{path} is no text: line {number} holds the character {bad}", code)
    return lines


def shown_name(path):
    """The name of a file, for a title: without its folders, and with ? for what does not belong into a text."""
    name = os.path.basename(path).encode("utf-8", "replace").decode()
    return "".join("?" if no_text(letter) else letter for letter in name)


def no_text(text):
    """The first character that does not belong into a text, as U+0000, or nothing."""
    for letter in text:
        odd = unicodedata.category(letter) in ("Cc", "Cs") and letter != "\t"
        if odd or ord(letter) & 0xFFFE == 0xFFFE:
            return f"U+{ord(letter):04X}"
    return ""


def read_names(path, states, code=1):
    """The names in a file of lines `3 store the file again`; states is their number, None if it is not known.

    A file that cannot be read so ends the script with the code.
    """
    names, lines = {}, {}
    for number, line in enumerate(text_lines(path, code), 1):
        words = line.split()
        if not words or words[0].startswith("#"):
            continue
        here = f"{path}, line {number}:"
        if not (words[0].isascii() and words[0].isdigit()):
            fail(f"{here} '{words[0][:40]}' is not a number; a line is a state and its name", code)
        if len(words[0]) > 9 or (states is not None and int(words[0]) >= states):
            fail(f"{here} {words[0][:40]} is no state: the model has the states 0 to {(states or 4096) - 1}", code)
        state = int(words[0])
        if len(words) == 1:
            fail(f"{here} state {state} has no name", code)
        if state in names:
            fail(f"{here} state {state} is named twice, first in line {lines[state]}", code)
        names[state], lines[state] = " ".join(words[1:]), number
    return names


# The refusal card.


def card_entry(number):
    """The reason and what to do, in the words of the refusal card."""
    try:
        return fahkelo_card.entry(number)
    except OSError as error:
        fail(f"cannot read {CARD}: {error.strerror}", 1)
    except LookupError as error:
        fail(error.args[0], 1)
