# The model file, the property file and the letter table for the scripts in this folder: their limits,
# encode, decode with the reasons to refuse, the combination of a rule with a property, and what the
# scripts share for arguments, input and output. Layout: docs/FORMAT.md.
# A convenience outside the proofs: nothing in crates/ uses it.
import argparse
import itertools
import os
import struct
import sys
from typing import NamedTuple, Optional

import fahkelo_card

MAX_STATES = 4096
MAX_EDGES = 8192
HEADER_BYTES = 24
MAX_BYTES = 25626
MAX_LETTER = 15
ALL_LETTERS = 0xFFFF


class Model(NamedTuple):
    """A model. Row s is the ascending list of the targets of state s; marks is a set of states.

    stays: bytes 6 and 7 of its file are 1, so a state without edges has an implied step to itself.
    second: the states marked in mark table 1; None if its file has table 0, that of marks, alone.
    """

    start: int
    rows: list
    marks: set
    stays: bool = False
    second: Optional[set] = None


class Property(NamedTuple):
    """A property. masks gives each edge, a pair of states, its mask: bit l is set if it holds letter l."""

    model: Model
    masks: dict


class Refused(Exception):
    """A file that breaks a rule: the number of the first reason that holds, and what is so in this file.

    As a text it has the reason in the words of the refusal card. Raises OSError if there is no card.
    """

    def __init__(self, number, words):
        self.reason = f"{number}: {fahkelo_card.reason(number)} ({words})"
        super().__init__(f"refused {self.reason}")
        self.number = number
        self.words = words


def mark_bytes(states):
    """The size of a mark table."""
    return (states + 7) // 8


def layout(states, edges):
    """The places of the row table, the edge table and the marks, and the place after mark table 0."""
    edge_table = HEADER_BYTES + 2 * (states + 1)
    marks = edge_table + 2 * edges
    return [HEADER_BYTES, edge_table, marks, marks + mark_bytes(states)]


def totals(states, edges, masked):
    """The total lengths that are allowed: with one mark table and with two, or if masked with one and the masks."""
    end = layout(states, edges)[3]
    return [end + 2 * edges] if masked else [end, end + mark_bytes(states)]


def edges_of(model):
    """The edges, pairs of states, in the order of the edge table."""
    return [(source, target) for source, row in enumerate(model.rows) for target in row]


def staying_states(model):
    """The states that have an implied step: those without edges, if bytes 6 and 7 are 1."""
    return [state for state, row in enumerate(model.rows) if model.stays and not row]


def with_implied_steps(model):
    """The model in which the implied steps are edges, so that each row holds all successors of its state."""
    rows = list(model.rows)
    for state in staying_states(model):
        rows[state] = [state]
    return model._replace(rows=rows)


def encode_up_to_masks(model, masked):
    """The bytes of a file up to the end of its marks; its header counts the masks of a property."""
    states = len(model.rows)
    targets = [target for _, target in edges_of(model)]
    row_table = [0]
    for row in model.rows:
        row_table.append(row_table[-1] + len(row))
    *offsets, end = layout(states, len(targets))
    tables = [model.marks] if model.second is None else [model.marks, model.second]
    total = end + (len(tables) - 1) * mark_bytes(states) + (2 * len(targets) if masked else 0)
    data = struct.pack("<4H4I", states, len(targets), model.start, model.stays, *offsets, total)
    data += struct.pack(f"<{states + 1}H{len(targets)}H", *row_table, *targets)
    bits = [sum(1 << state for state in table) for table in tables]
    return data + b"".join(table.to_bytes(mark_bytes(states), "little") for table in bits)


def encode(model):
    """The bytes of the model's file. A model that gives no valid file raises Refused."""
    data = encode_up_to_masks(model, False)
    decode(data)
    return data


def encode_property(property):
    """The bytes of the property's file. A property that gives no valid file raises Refused 17."""
    masks = [property.masks[edge] for edge in edges_of(property.model)]
    data = encode_up_to_masks(property.model, True) + struct.pack(f"<{len(masks)}H", *masks)
    decode_property(data)
    return data


def decode(data, masked=False):
    """The model that a file holds, or if masked a property file. Raises Refused with the first reason that holds."""
    if len(data) < HEADER_BYTES:
        raise Refused(1, f"it has {len(data)} bytes")
    states, edges, start, flag, *places = struct.unpack_from("<4H4I", data)
    if not 1 <= states <= MAX_STATES:
        raise Refused(2, f"it has {states} states")
    if edges > MAX_EDGES:
        raise Refused(3, f"it has {edges} edges")
    if start >= states:
        raise Refused(4, f"the initial state is {start}, and the number of states is {states}")
    if flag > 1:
        raise Refused(5, f"bytes 6 and 7 hold {flag}")
    names = ["offset of the row table", "offset of the edge table", "offset of the marks", "total length"]
    *offsets, end = layout(states, edges)
    allowed = [[offset] for offset in offsets] + [totals(states, edges, masked)]
    for name, place, right in zip(names, places, allowed):
        if place not in right:
            numbers = " or ".join(map(str, right))
            raise Refused(6, f"the {name} is {place}; {states} states and {edges} edges give {numbers}")
    total = places[3]
    if len(data) != total:
        raise Refused(7, f"it has {len(data)} bytes, and its total length is {total}")
    row_table = struct.unpack_from(f"<{states + 1}H", data, offsets[0])
    targets = struct.unpack_from(f"<{edges}H", data, offsets[1])
    check_row_table(row_table, edges)
    for place, target in enumerate(targets):
        if target >= states:
            raise Refused(9, f"the target at place {place} is {target}, and the number of states is {states}")
    rows = [list(targets[low:high]) for low, high in zip(row_table, row_table[1:])]
    for state, row in enumerate(rows):
        if any(one >= other for one, other in zip(row, row[1:])):
            raise Refused(10, f"state {state} has the targets {' '.join(map(str, row[:20]))}{' ..' * (len(row) > 20)}")
    marks = decode_marks(data[offsets[2]:end], states, 0)
    second = None if masked or total == end else decode_marks(data[end:], states, 1)
    return Model(start, rows, marks, flag == 1, second)


def decode_marks(data, states, table):
    """The states marked in a mark table, given by its bytes; reason 11."""
    bits = int.from_bytes(data, "little")
    if bits >> states:
        raise Refused(11, f"mark table {table} has one, and the last state is {states - 1}")
    return {state for state in range(states) if bits >> state & 1}


def check_row_table(row_table, edges):
    """Reason 8, over the whole row table."""
    if row_table[0] != 0:
        raise Refused(8, f"the row table starts at {row_table[0]}")
    for state, (low, high) in enumerate(zip(row_table, row_table[1:])):
        if high < low:
            raise Refused(8, f"after entry {state} the row table goes from {low} to {high}")
    if row_table[-1] != edges:
        raise Refused(8, f"the row table ends at {row_table[-1]}, and the number of edges is {edges}")


def decode_property(data):
    """The property that a file holds. Raises Refused 17, with the number and the reason of what it breaks."""
    try:
        model = decode(data, masked=True)
    except Refused as refused:
        raise Refused(17, f"it breaks {refused.reason}") from None
    edges = edges_of(model)
    place = layout(len(model.rows), len(edges))[3]
    masks = dict(zip(edges, struct.unpack_from(f"<{len(edges)}H", data, place)))
    for source, target in edges:
        if masks[source, target] == 0:
            raise Refused(17, f"the mask of the edge {source} -> {target} is zero")
    return Property(model, masks)


def decode_letters(data, states):
    """The letters that a letter table holds, one byte for each state of its rule. Raises Refused 16."""
    if len(data) != states:
        raise Refused(16, f"it has {len(data)} bytes, and the rule {states} states")
    for state, letter in enumerate(data):
        if letter > MAX_LETTER:
            raise Refused(16, f"the letter of state {state} is {letter}")
    return list(data)


def combine(model, letters, property):
    """The model that a rule, read, gives with its letter table and a property file, both as bytes.

    The rule's implied steps are followed, the property's are not, and the result has none. The rule's marks are not
    read, whether it has one mark table or two; the result has one.
    Raises Refused 16, 17 or 18, in this order; combine(decode(rule), ..) raises the rule's 1 to 11 before them.
    """
    letters = decode_letters(letters, len(model.rows))
    property = decode_property(property)
    states = len(model.rows) * len(property.model.rows)
    if states > MAX_STATES:
        raise Refused(18, f"it would have {states} states")
    edges = set(itertools.islice(agreeing_edges(model, letters, property), MAX_EDGES + 1))
    if len(edges) > MAX_EDGES:
        raise Refused(18, f"it would have more than {MAX_EDGES} edges")
    return model_of_pairs(model, property.model, edges)


def agreeing_edges(model, letters, property):
    """Each edge from (s, q) to (s', q'): s' is a successor of s, and q has an edge to q' that holds the letter of s."""
    for s, s_next in edges_of(with_implied_steps(model)):
        for (q, q_next), mask in property.masks.items():
            if mask >> letters[s] & 1:
                yield (s, q), (s_next, q_next)


def model_of_pairs(rule, property, edges):
    """The model of all pairs: (s, q) has number s times the property's state count plus q, and the mark of q."""

    def number(s, q):
        return s * len(property.rows) + q

    rows = [[] for _ in range(len(rule.rows) * len(property.rows))]
    for source, target in sorted(edges):
        rows[number(*source)].append(number(*target))
    marks = {number(s, q) for s in range(len(rule.rows)) for q in property.marks}
    return Model(number(rule.start, property.start), rows, marks)


def below(rng, limit):
    """A random number below limit. Only random() is used: it is the same in every Python 3."""
    return int(rng.random() * limit)


def distinct(rng, count, limit):
    """So many different random numbers below limit."""
    found = set()
    while len(found) < count:
        found.add(below(rng, limit))
    return found


def random_model(rng, states, edges, marks, second=None):
    """A random model with these numbers of states, edges and marks, and any initial state.

    second: the number of marks in mark table 1; None gives one table.
    """
    rows = [[] for _ in range(states)]
    for pair in sorted(distinct(rng, edges, states * states)):
        rows[pair // states].append(pair % states)
    model = Model(below(rng, states), rows, distinct(rng, marks, states))
    return model if second is None else model._replace(second=distinct(rng, second, states))


def random_property(rng, states, edges, marks):
    """A random property with these numbers of states, edges and marks; every mask is possible."""
    model = random_model(rng, states, edges, marks)
    return Property(model, {edge: 1 + below(rng, ALL_LETTERS) for edge in edges_of(model)})


# Input and output.


def send(descriptor, data):
    """Writes bytes to an open descriptor at once, and waits for its reader. Raises OSError."""
    rest = memoryview(data)
    while rest:
        try:
            rest = rest[os.write(descriptor, rest):]
        except BlockingIOError:
            os.set_blocking(descriptor, True)


def say(*lines):
    """Lines on standard error, if it can be written. What is no text, a line end among it, is shown as ?."""
    shown = ["".join(letter if letter.isprintable() else "?" for letter in line) for line in lines]
    try:
        send(2, "".join(line + "\n" for line in shown).encode())
    except OSError:
        pass


def fail(message, code=2):
    """Ends the script with a message on standard error."""
    say(f"{os.path.basename(sys.argv[0])}: {message}")
    sys.exit(code)


class Parser(argparse.ArgumentParser):
    """A parser that ends the script with exit code 2 after wrong words, also if standard error cannot be written."""

    def error(self, message):
        say(*self.format_usage().splitlines(), f"{self.prog}: error: {message}")
        sys.exit(2)


def read_from(source, most=-1):
    """The bytes of the file named, at most so many, or those of standard input, named 0. Raises OSError."""
    if source == 0:
        os.set_blocking(0, True)
    with open(source, "rb", closefd=source != 0) as file:
        return file.read(most)


def read_input(path, code=2, most=-1):
    """The bytes of the file named, or of standard input; the script ends with the code if they cannot be read.

    most: so many bytes are read at most; -1 reads them all.
    """
    try:
        return read_from(path or 0, most)
    except OSError as error:
        fail(f"cannot read {path or 'standard input'}: {error.strerror}", code)


def is_output(path):
    """Whether a name is that of what standard output goes to."""
    try:
        return os.path.samestat(os.stat(path), os.fstat(1))
    except OSError:
        return False


def write_output(data, path=None, binary=True, code=2):
    """Writes to the file named, or to standard output; no binary goes to a terminal. A reader may go away."""
    if binary and not path and os.isatty(1):
        fail("standard output is a terminal: send it to a file or a program, or use -o FILE")
    try:
        if not path or is_output(path):
            send(1, data)
        else:
            with open(path, "wb") as sink:
                sink.write(data)
    except BrokenPipeError:
        pass
    except OSError as error:
        fail(f"cannot write {path or 'standard output'}: {error.strerror}", code)


def place_of(path):
    """The name to which the links of a path lead, if a file is there or none is; none in /dev/fd and /proc."""
    for _ in range(40):
        folder, name = os.path.split(path)
        folder = os.path.realpath(folder)
        path = os.path.join(folder, name)
        if path.startswith(("/dev/fd/", "/proc/")):
            return None
        if not os.path.islink(path):
            return path if os.path.isfile(path) or not os.path.exists(path) else None
        path = os.path.join(folder, os.readlink(path))
    return None


def write_whole(data, path, binary=True, code=2):
    """Writes a file whole or not at all: under another name first, unless it goes to a pipe or a device. Links stay."""
    part = None
    try:
        place = None if not path or is_output(path) else place_of(path)
        if place is None:
            write_output(data, path, binary, code)
            return
        name = os.path.join(os.path.dirname(place), f"fahkelo.{os.urandom(8).hex()}.part")
        with open(name, "xb") as file:
            part = name
            file.write(data)
        os.replace(part, place)
    except OSError as error:
        if part:
            os.remove(part)
        fail(f"cannot write {path}: {error.strerror}", code)
