# The text of a model, a rule or a property, in both directions: one statement a line, # starts a comment.
#     states 5       the number of states (if left out: one more than the greatest state named)
#     start 0        the initial state (if left out: 0)
#     0 -> 1 2       edges from a state to one or more targets
#     mark 3 4       marked states
#     second 1       the file has a second mark table, in which these states are marked (none named: none is)
#     stays          a state without edges stays for ever: it has an implied step to itself
#     letter 3 15    in a rule: state 3 has letter 15 (a state without such a line: letter 0)
#     mask 0 1 2 15  in a property: the mask of the edge 0 -> 1 holds the letters 2 and 15
#     mask 0 2 all   in a property: the mask of the edge 0 -> 2 holds all 16 letters
# A convenience outside the proofs: the finder checks every file itself.
from modelfile import ALL_LETTERS, MAX_EDGES, MAX_LETTER, MAX_STATES, Model, Property, edges_of


class BadText(ValueError):
    """A text that describes no model: the number of the line, if one is to blame, and plain words."""

    def __init__(self, line, words):
        super().__init__(f"line {line}: {words}" if line else words)


# Reading.


class Text:
    """What the lines read so far say."""

    def __init__(self):
        self.states = None
        self.start = None
        self.stays = False
        self.edges = {}  # the line of each edge
        self.marks = set()
        self.second = None  # the marks of the second table; None without one
        self.second_line = None  # the first line that speaks of it
        self.letters = {}  # for each state that has one: the line, and the letter
        self.masks = {}  # for each edge that has one: the line, and the mask
        self.named = []  # pairs: the line, and a state that it names


def read_number(line, word):
    """A decimal number; 9 digits are more than any number here needs."""
    if not (word.isascii() and word.isdigit()):
        raise BadText(line, f"'{word[:40]}' is not a number")
    if len(word) > 9:
        raise BadText(line, f"'{word[:40]}' is too large")
    return int(word)


def read_state(text, line, word):
    """A state, noted with its line."""
    state = read_number(line, word)
    if state >= MAX_STATES:
        raise BadText(line, f"state {state} is too large: the greatest possible one is {MAX_STATES - 1}")
    text.named.append((line, state))
    return state


def read_states(text, line, words):
    """The line `states N`."""
    if len(words) != 1:
        raise BadText(line, "'states' takes one number")
    if text.states is not None:
        raise BadText(line, "the number of states is given twice")
    text.states = read_number(line, words[0])
    if not 1 <= text.states <= MAX_STATES:
        raise BadText(line, f"{text.states} states, and 1 to {MAX_STATES} are allowed")


def read_start(text, line, words):
    """The line `start I`."""
    if len(words) != 1:
        raise BadText(line, "'start' takes one state")
    if text.start is not None:
        raise BadText(line, "the initial state is given twice")
    text.start = read_state(text, line, words[0])


def read_stays(text, line, words):
    """The line `stays`."""
    if words:
        raise BadText(line, "'stays' stands alone: it holds for all states without edges")
    if text.stays:
        raise BadText(line, "'stays' is given twice")
    text.stays = True


def add_marks(text, line, words, marks):
    """Adds the states of a line to a mark table."""
    for word in words:
        state = read_state(text, line, word)
        if state in marks:
            raise BadText(line, f"state {state} is marked twice")
        marks.add(state)


def read_marks(text, line, words):
    """The line `mark S ..`."""
    if not words:
        raise BadText(line, "'mark' takes one state or more")
    add_marks(text, line, words, text.marks)


def read_second(text, line, words):
    """The line `second S ..`, or `second` alone for a table without marks."""
    if text.second is None:
        text.second, text.second_line = set(), line
    add_marks(text, line, words, text.second)


def read_edges(text, line, words):
    """The line `S -> T ..`, without its arrow."""
    if len(words) < 2:
        raise BadText(line, "an edge has a state before the arrow and one or more after it")
    source = read_state(text, line, words[0])
    for word in words[1:]:
        edge = source, read_state(text, line, word)
        if edge in text.edges:
            raise BadText(line, f"the edge {edge[0]} -> {edge[1]} stands twice")
        text.edges[edge] = line
        if len(text.edges) > MAX_EDGES:
            raise BadText(line, f"more than {MAX_EDGES} edges")


def read_letter(line, word):
    """A letter."""
    letter = read_number(line, word)
    if letter > MAX_LETTER:
        raise BadText(line, f"letter {letter} is too large: the greatest possible one is {MAX_LETTER}")
    return letter


def read_letter_line(text, line, words):
    """The line `letter S L`."""
    if len(words) != 2:
        raise BadText(line, "'letter' takes a state and one letter")
    state = read_state(text, line, words[0])
    if state in text.letters:
        raise BadText(line, f"the letter of state {state} is given twice")
    text.letters[state] = line, read_letter(line, words[1])


def read_mask(line, words):
    """The mask that holds the letters named, or all."""
    if words == ["all"]:
        return ALL_LETTERS
    letters = set()
    for word in words:
        letter = read_letter(line, word)
        if letter in letters:
            raise BadText(line, f"letter {letter} stands twice")
        letters.add(letter)
    return sum(1 << letter for letter in letters)


def read_mask_line(text, line, words):
    """The line `mask S T L ..` or `mask S T all`."""
    if len(words) < 3:
        raise BadText(line, "'mask' takes the two states of an edge, and one letter or more, or 'all'")
    edge = read_state(text, line, words[0]), read_state(text, line, words[1])
    if edge in text.masks:
        raise BadText(line, f"the mask of the edge {edge[0]} -> {edge[1]} is given twice")
    text.masks[edge] = line, read_mask(line, words[2:])


def read_line(text, line, words):
    """One line that is not empty."""
    if words[0] == "states":
        read_states(text, line, words[1:])
    elif words[0] == "start":
        read_start(text, line, words[1:])
    elif words[0] == "stays":
        read_stays(text, line, words[1:])
    elif words[0] == "mark":
        read_marks(text, line, words[1:])
    elif words[0] == "second":
        read_second(text, line, words[1:])
    elif words[0] == "letter":
        read_letter_line(text, line, words[1:])
    elif words[0] == "mask":
        read_mask_line(text, line, words[1:])
    elif words[1:2] == ["->"]:
        read_edges(text, line, words[:1] + words[2:])
    else:
        forms = "'states N', 'start STATE', 'stays', 'STATE -> STATE ..', 'mark STATE ..', 'second STATE ..'"
        raise BadText(line, f"a line is {forms}, 'letter STATE LETTER' or 'mask STATE STATE LETTER ..'")


def model_of(text):
    """The model that all lines together describe."""
    if text.states is None and not text.named:
        raise BadText(None, "the input is empty: it names no state")
    states = text.states or 1 + max(state for _, state in text.named)
    for line, state in text.named:
        if state >= states:
            raise BadText(line, f"state {state} is not below {states}, the number of states")
    rows = [[] for _ in range(states)]
    for source, target in sorted(text.edges):
        rows[source].append(target)
    return Model(text.start or 0, rows, text.marks, text.stays, text.second)


def property_of(text):
    """The property that all lines together describe. Letters and a second mark table have no place in it."""
    if text.letters:
        raise BadText(first_letter_line(text), "a property has masks, and no letters")
    if text.second is not None:
        raise BadText(text.second_line, "a property has one mark table")
    model = model_of(text)
    for (source, target), (line, _) in text.masks.items():
        if (source, target) not in text.edges:
            raise BadText(line, f"there is no edge {source} -> {target}")
    for (source, target), line in text.edges.items():
        if (source, target) not in text.masks:
            raise BadText(line, f"the edge {source} -> {target} has no mask")
    return Property(model, {edge: mask for edge, (_, mask) in text.masks.items()})


def first_letter_line(text):
    """The first line that gives a letter."""
    return min(line for line, _ in text.letters.values())


def letter_table(text, states):
    """The bytes of the letter table that all lines together describe."""
    return bytes(text.letters[state][1] if state in text.letters else 0 for state in range(states))


def read_text(text):
    """What all lines of a text, given as its bytes or as a string, say. Raises BadText."""
    said = Text()
    whole = text.lstrip("\ufeff") if isinstance(text, str) else bytes(text).decode("utf-8-sig", "replace")
    for number, line in enumerate(whole.split("\n"), 1):
        words = line.split("#")[0].replace("->", " -> ").split()
        if words:
            read_line(said, number, words)
    return said


# Writing.


def model_lines(model):
    """The lines of a model: states, start, whether states without edges stay, edges, marks, the second table."""
    lines = [f"states {len(model.rows)}", f"start {model.start}"]
    if model.stays:
        lines.append("stays")
    for state, row in enumerate(model.rows):
        if row:
            lines.append(f"{state} -> {' '.join(map(str, row))}")
    if model.marks:
        lines.append(f"mark {' '.join(map(str, sorted(model.marks)))}")
    if model.second is not None:
        lines.append(" ".join(["second", *map(str, sorted(model.second))]))
    return lines


def letter_lines(letters):
    """A line for each state, with its letter."""
    return [f"letter {state} {letter}" for state, letter in enumerate(letters)]


def mask_line(edge, mask):
    """The line of an edge and the letters that its mask holds."""
    letters = [str(letter) for letter in range(MAX_LETTER + 1) if mask >> letter & 1]
    return f"mask {edge[0]} {edge[1]} {'all' if mask == ALL_LETTERS else ' '.join(letters)}"


def property_lines(property):
    """The lines of a property: those of its model, and a line for each edge."""
    return model_lines(property.model) + [mask_line(edge, property.masks[edge]) for edge in edges_of(property.model)]
