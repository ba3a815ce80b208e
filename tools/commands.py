# The commands of tools/fahkelo. Each one asks the library through the module fahkelo and prints the answer in lines
# like those of the desk sheet, or as JSON with the names of docs/CAPI.md. No answer is worked out here.
# A convenience outside the proofs: nothing in crates/ uses it.
import argparse
import dataclasses
import itertools
import json
import os
from typing import Any, Callable, Dict, Iterable, Iterator, List, Optional, Tuple

import fahkelo
import modelfile
import modeltext
from classroom import dot, page, poster, sheet
from classroom.words import labels
from fahkelo import BadText, Found, Model, NoneWithin, Property, Record, Stopped

# The exit status.
ANSWERED, NONE, REFUSED, WRONG_WORDS, UNAVAILABLE, FAULT = 0, 1, 2, 64, 69, 70
SHEET_LISTS = 20  # as many lists as the desk sheet prints

# What a command gives: its exit status, and the texts or the bytes that it prints, one after another.
Said = Tuple[int, Iterable[Any]]


class WrongWords(Exception):
    """Words on the command line that cannot be meant."""


class Unreadable(Exception):
    """A file that cannot be read: the number with which it is refused, as an empty one is, and what happened."""

    def __init__(self, number: int, path: str, error: OSError) -> None:
        super().__init__(f"cannot read {shown(path)}: {error.strerror}; what cannot be read counts as empty")
        self.number = number


# Input.


def shown(path: str) -> str:
    """A file as messages call it."""
    return "standard input" if path == "-" else path


def read_bytes(path: str, most: int, number: int) -> bytes:
    """The bytes of a file, at most one more than can be accepted. Raises Unreadable with the number."""
    try:
        return modelfile.read_from(0 if path == "-" else path, most + 1)
    except OSError as error:
        raise Unreadable(number, path, error) from None


def from_text(path: str, number: int, make: Callable[[bytes], Any]) -> Any:
    """What a text describes. A text that describes nothing raises BadText with the name of its file."""
    try:
        return make(read_bytes(path, fahkelo.TEXT_MOST, number))
    except BadText as bad:
        raise BadText(None, f"{shown(path)}: {bad}") from None


def read_model(words: argparse.Namespace) -> Model:
    """The model that the command line names."""
    if words.text:
        return from_text(words.model, 1, Model.from_text)
    return Model(read_bytes(words.model, fahkelo.FILE_MOST, 1))


def read_names(words: argparse.Namespace, model: Model) -> Dict[int, str]:
    """The names of the states of an accepted model; none if no file is named."""
    if words.names is None:
        return {}
    if words.names == "" or words.names == words.model == "-":
        raise WrongWords("--names needs a file, and standard input can be read once")
    return sheet.read_names("/dev/stdin" if words.names == "-" else words.names, model.states, REFUSED)


def number(text: str) -> int:
    """A number of 16 bits, as a word on the command line."""
    if not (text.isascii() and text.isdigit() and len(text) < 10 and int(text) <= 65535):
        raise argparse.ArgumentTypeError(f"'{text[:40]}' is no number from 0 to 65535")
    return int(text)


def read_list(words: List[str]) -> Tuple[List[int], Optional[int]]:
    """A list of states, with its last one; or the line of a sheet, `0 | 1 3`, which tells k too."""
    stem, *loops = " ".join(words).split("|")
    try:
        parts = [[number(word) for word in part.split()] for part in [stem, *loops]]
    except argparse.ArgumentTypeError as wrong:
        raise WrongWords(f"in the list {wrong}") from None
    if not loops:
        return parts[0], None
    if len(loops) > 1 or not parts[1]:
        raise WrongWords("a list has one bar, and the loop after it: 0 | 1 3")
    return parts[0] + parts[1] + parts[1][:1], len(parts[0])


# Output.


def document(answer: Any, **more: Any) -> Dict[str, Any]:
    """An answer as JSON has it: its kind, the name of that in C, and its figures and tables under their names."""
    held = dataclasses.asdict(answer).items()
    figures = {name: value for name, value in held if value is not None and name != "kind"}
    return {"kind": int(answer.kind), "name": f"FAHKELO_{answer.kind.name}", **figures, **more}


def json_line(answer: Dict[str, Any]) -> str:
    """A JSON document on a line of its own."""
    return json.dumps(answer) + "\n"


def text_of(lines: Iterable[str]) -> str:
    """Lines as one text."""
    return "".join(line + "\n" for line in lines)


def named(words: argparse.Namespace, model: Model) -> Dict[str, Any]:
    """The names of states as JSON has them, if some are given."""
    return {} if words.names is None else {"names": read_names(words, model)}


def line_writer(words: argparse.Namespace, model: Model) -> Callable[[Found], str]:
    """How runs of an accepted model are written: as on the sheet, or with names and commas between them."""
    names = read_names(words, model)
    if not names:
        return str
    called = labels(names, model.states)

    def line(run: Found) -> str:
        stem, loop = (", ".join(called[state] for state in part) for part in (run.stem, run.loop))
        return f"{stem} | {loop}".lstrip(" ")

    return line


def best_line(answer: Any) -> str:
    """The best length of a record."""
    return f"best {answer.best}" if answer.has_best else "best none"


def search_lines(answer: Any, ceiling: int, line: Callable[[Found], str]) -> List[str]:
    """The lines of a search: the rounds, and the run, or that there is none, or that it was stopped."""
    lines = [f"rounds {answer.rounds}"]
    if isinstance(answer, Found):
        return lines + [f"shortest {answer.L}", line(answer)]
    if isinstance(answer, Stopped):
        return lines + [best_line(answer), answer.kind.words]
    whole = ceiling == fahkelo.CEILING_MOST
    return lines + ["none" if whole else f"{answer.kind.words} {ceiling}"]


def to_output(words: argparse.Namespace) -> bool:
    """Whether what is written goes to standard output: no file is named, or one that is standard output."""
    return words.o in (None, "-") or modelfile.is_output(words.o)


def write_file(data: bytes, words: argparse.Namespace, inputs: List[Optional[str]], binary: bool) -> Said:
    """Writes the file named, but not over one that was read; what goes to standard output is given back."""
    if words.o == "":
        raise WrongWords("-o needs the name of a file")
    for path in inputs if words.o not in (None, "-") else []:
        if path and os.path.exists(words.o) and os.path.exists(path) and os.path.samefile(words.o, path):
            raise WrongWords(f"{words.o} would be written over")
    if not to_output(words):
        modelfile.write_whole(data, words.o, binary, UNAVAILABLE)
        return ANSWERED, []
    if binary and words.o in (None, "-") and os.isatty(1):
        raise WrongWords("standard output is a terminal: add -o FILE")
    return ANSWERED, [data]


# The commands.


def search_status(answer: Any) -> int:
    """The exit status of a search."""
    return NONE if isinstance(answer, NoneWithin) else ANSWERED


def listed(model: Model, answer: Any, table: int) -> Tuple[List[Found], bool]:
    """The runs that a sheet lists after the answer of a search, and whether there are more."""
    runs = list(itertools.islice(all_runs(model, answer, table), SHEET_LISTS + 1))
    return runs[:SHEET_LISTS], len(runs) > SHEET_LISTS


def all_runs(model: Model, answer: Any, table: int) -> Iterator[Found]:
    """The run that a search has found, and all shortest runs after it, as they come."""
    if isinstance(answer, Found):
        yield answer
        yield from model.following(answer, table)


def run_sheet(words: argparse.Namespace) -> Said:
    """The desk sheet, by either mark table."""
    model = read_model(words)
    answer = model.search(words.table, words.ceiling, words.allowance)
    runs, more = listed(model, answer, words.table)
    status = search_status(answer)
    if words.json:
        lists = [run.answer for run in runs]
        found = document(answer, states=model.states, edges=model.edges, lists=lists, more=more, **named(words, model))
        return status, [json_line(found)]
    line = line_writer(words, model)
    lines = [f"model {model.states} {model.edges}", *search_lines(answer, words.ceiling, line)]
    if runs:
        lines += [*map(line, runs[1:]), f"{'more' if more else 'end'} {len(runs)}"]
    return status, [text_of(lines)]


def run_search(words: argparse.Namespace) -> Said:
    """The first shortest run."""
    model = read_model(words)
    answer = model.search(words.table, words.ceiling, words.allowance)
    if words.json:
        return search_status(answer), [json_line(document(answer, **named(words, model)))]
    return search_status(answer), [text_of(search_lines(answer, words.ceiling, line_writer(words, model)))]


def run_runs(words: argparse.Namespace) -> Said:
    """All shortest runs, as they come; the search for the first one tells the exit status."""
    model = read_model(words)
    answer = model.search(words.table, words.ceiling)
    runs = all_runs(model, answer, words.table)
    if words.json:
        names = named(words, model)
        last = fahkelo.NoMore() if isinstance(answer, Found) else answer
        return search_status(answer), (json_line(document(one, **names)) for one in itertools.chain(runs, [last]))
    line = line_writer(words, model)
    if not isinstance(answer, Found):
        return NONE, [text_of(search_lines(answer, words.ceiling, line)[1:])]
    return ANSWERED, counted(map(line, runs))


def counted(lines: Iterable[str]) -> Iterator[str]:
    """Lines as they come, and how many they were."""
    count = 0
    for line in lines:
        yield line + "\n"
        count += 1
    yield f"end {count}\n"


def run_next(words: argparse.Namespace) -> Said:
    """The shortest run after the one named."""
    model, (states, _) = read_model(words), read_list(words.list)
    answer = model.next(states, words.table)
    status = ANSWERED if isinstance(answer, Found) else NONE
    if words.json:
        return status, [json_line(document(answer, **named(words, model)))]
    line = line_writer(words, model)
    return status, [text_of([line(answer) if isinstance(answer, Found) else answer.kind.words])]


def run_step(words: argparse.Namespace) -> Said:
    """One round."""
    record = Record(words.done, words.best is not None, words.best or 0)
    answer = read_model(words).step(record, words.table, words.ceiling)
    if words.json:
        return ANSWERED, [json_line(document(answer))]
    return ANSWERED, [text_of([answer.kind.words, f"done {answer.done}", best_line(answer)])]


def run_grade(words: argparse.Namespace) -> Said:
    """The grade of a list."""
    states, k = read_list(words.list)
    if (k is None) == (words.k is None):
        raise WrongWords("say where the loop starts, either with a bar, 0 | 1 3, or with --k 1 and the list 0 1 3 1")
    answer = read_model(words).grade(states, words.k if k is None else k, words.table)
    status = NONE if answer.kind == fahkelo.Kind.FALSE else ANSWERED
    if words.json:
        return status, [json_line(document(answer))]
    return status, [text_of([answer.kind.words] + [f"place {answer.place}"] * answer.has_place)]


def run_distances(words: argparse.Namespace) -> Said:
    """A line for each state."""
    model = read_model(words)
    answer = model.distances(words.ceiling)
    if words.json:
        return ANSWERED, [json_line(document(answer, **named(words, model)))]
    names = read_names(words, model)
    called = labels(names, model.states)
    lines = []
    for state, distance in enumerate(answer.distances):
        far = "not reached" if distance == fahkelo.NOT_REACHED else distance
        lines.append(f"{state} {far} {called[state]}" if state in names else f"{state} {far}")
    return ANSWERED, [text_of(lines)]


def run_combine(words: argparse.Namespace) -> Said:
    """The combined model file, on standard output or in the file named."""
    files = [words.model, *words.files]
    if len(files) != (2 if words.text else 3):
        raise WrongWords("three files are combined, RULE LETTERS PROPERTY, and with --text two texts, RULE PROPERTY")
    if files.count("-") > 1:
        raise WrongWords("standard input can be read once")
    rule, letters = read_model(words), None
    if words.text:
        property = from_text(files[1], 17, Property.from_text)
    else:
        letters = read_or_empty(files[1], fahkelo.STATES_MOST)
        property = Property(read_or_empty(files[2], fahkelo.PROPERTY_MOST))
    answer = rule.combine(property, letters)
    if words.json and to_output(words):
        return ANSWERED, [json_line({**document(answer), "output": answer.output.hex()})]
    status, pieces = write_file(answer.output, words, files, binary=True)
    if words.json:
        told = document(answer)
        del told["output"]
        return status, [json_line(told)]
    return status, pieces if pieces else [f"{answer.kind.words} {answer.bytes}\n"]


def read_or_empty(path: str, most: int) -> bytes:
    """The bytes of a file of a combination; one that cannot be read counts as empty, and a line says so."""
    try:
        return read_bytes(path, most, 1)
    except Unreadable as unreadable:
        modelfile.say(f"fahkelo: {unreadable}")
        return b""


def run_show(words: argparse.Namespace) -> Said:
    """The model as text, with the letters of a rule that is a text."""
    model = read_model(words)
    model.distances(0)  # the library looks at the whole file, and refuses what is no model
    held = modelfile.decode(model.file)
    letters = list(model.letters) if model.letters and any(model.letters) else []
    if words.json:
        second = None if held.second is None else sorted(held.second)
        tables = {"rows": held.rows, "marks": sorted(held.marks), "second": second}
        told = {"states": model.states, "edges": model.edges, "start": held.start, "stays": held.stays}
        rule = {"letters": letters} if letters else {}
        return ANSWERED, [json_line({**told, **tables, **rule, **named(words, model)})]
    comments = [f"# {state} {name}" for state, name in sorted(read_names(words, model).items())]
    return ANSWERED, [text_of(modeltext.model_lines(held) + modeltext.letter_lines(letters) + comments)]


def run_draw(words: argparse.Namespace) -> Said:
    """The page of the runs, on standard output or in the file named."""
    if words.title is not None and (not words.title.strip() or sheet.no_text(words.title)):
        raise WrongWords("the title is empty or is no text")
    model = read_model(words)
    answer = model.search(words.table)
    held = modelfile.decode(model.file)
    held = held._replace(marks=(held.marks, held.second or set())[words.table])
    runs, more = listed(model, answer, words.table)
    drawn = [sheet.Run(list(run.stem), list(run.loop)) for run in runs]
    length = answer.L if isinstance(answer, Found) else 0
    found = sheet.Sheet(None, model.states, model.edges, answer.rounds, length, drawn, more)
    sheet.check_sheet(found, held, None)  # as draw-sheet does: each run is one of the model that is drawn
    title = words.title or f"The shortest runs of {sheet.shown_name(shown(words.model))}"
    steps, staying = modelfile.with_implied_steps(held), modelfile.staying_states(held)
    lesson = page.Lesson(title, found, steps, staying, read_names(words, model))
    form = dot.dot if words.dot else poster.poster if words.svg else page.page
    _, pieces = write_file(form(lesson).encode(), words, [words.model, words.names], binary=False)
    return search_status(answer), pieces
