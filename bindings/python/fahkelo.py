"""Fahkelo for Python: the shortest runs of a finite model.

    >>> import fahkelo
    >>> model = fahkelo.Model.from_text("0 -> 1 2; 1 -> 3; 2 -> 3; 3 -> 1 2; 4 -> 4; mark 3 4".replace(";", "\\n"))
    >>> for run in model.runs():
    ...     print(run)
    0 | 1 3
    0 | 2 3
    >>> model.search(ceiling=2)
    NoneWithin(rounds=1)
    >>> model.grade([0, 1, 3, 2, 3], k=2).kind.name
    'ACCEPTING'

Every answer comes from the proved library, which `make` builds (include/fahkelo.h). This module makes the tables of
each call, in the sizes of the header, and copies what is read, so no call has a table that is too short or overlaps
another one. It is a convenience outside the proofs, for Python 3.8 or later, and needs nothing else. Calls may run in
several threads at the same time.

The library is the one that the environment names in FAHKELO_LIBRARY, else the one built or installed with this module,
else the one that the system finds.
"""
import ctypes
import enum
import functools
import operator
import os
from dataclasses import dataclass
from typing import Any, ClassVar, Iterable, Iterator, List, Optional, Sequence, Tuple, Union

import fahkelo_card
import fahkelo_places
import modelfile
import modeltext
from modeltext import BadText

__all__ = [
    "Advanced", "BadText", "Finished", "Found", "Grade", "Kind", "Model", "NoLibrary", "NoMore", "NoneWithin",
    "Property", "Record", "Refused", "Stopped", "WrittenDistances", "WrittenModel",
]

# The numbers of the header, under its names without FAHKELO_. INTERFACE is the one that this module is written for.
INTERFACE = 6
KINDS_FROM = 100
CEILING_MOST = 4096
NOT_REACHED = 65535
OUT_ENTRIES = 4
STATES_MOST = 4096
FILE_MOST = 25626
COMBINED_MOST = 25114
PROPERTY_MOST = 41498
WORK_MOST = 24576
ANSWER_MOST = 4097

# An allowance that is enough for every model, and the greatest number that a call can be given.
ALLOWANCE_MOST = 65535
TEXT_MOST = 4 << 20


class Kind(enum.IntEnum):
    """The kinds of answer; their words are on the refusal card."""

    OUT_TOO_SHORT = 100
    STOPPED = 101
    FOUND = 102
    NONE_WITHIN = 103
    NO_MORE = 104
    FINISHED = 105
    ADVANCED = 106
    WRITTEN = 107
    FALSE = 108
    ACCEPTING = 109
    SHORTEST = 110

    @property
    def words(self) -> str:
        """The kind in the words of the card, such as "no more"."""
        return fahkelo_card.entry(self.value).words


class Refused(Exception):
    """A call that the library refuses: the number, and the reason and what to do in the words of the refusal card."""

    def __init__(self, number: int) -> None:
        self.number = number
        self.reason, self.remedy = (words.replace("`", "") for words in fahkelo_card.entry(number))
        super().__init__(f"refused {number}: {self.reason}")

    def __reduce__(self) -> Tuple[Any, ...]:
        return Refused, (self.number,)


class NoLibrary(OSError):
    """The library is not there, or is another one."""


# The answers, with the names of docs/CAPI.md.


@dataclass(frozen=True)
class Found:
    """A shortest run of L transitions: its L + 1 states, the last one equal to the one at place k.

    rounds: the number of rounds of the search; None from `next`. As a text it is the line of the desk sheet.
    """

    kind: ClassVar[Kind] = Kind.FOUND
    L: int
    k: int
    rounds: Optional[int]
    answer: Tuple[int, ...]

    @property
    def stem(self) -> Tuple[int, ...]:
        """The states before the loop."""
        return self.answer[:self.k]

    @property
    def loop(self) -> Tuple[int, ...]:
        """The states that repeat for ever, from the first one on."""
        return self.answer[self.k:-1]

    def __str__(self) -> str:
        return " ".join(map(str, [*self.stem, "|", *self.loop]))


@dataclass(frozen=True)
class NoneWithin:
    """No run has as many transitions as the ceiling or fewer."""

    kind: ClassVar[Kind] = Kind.NONE_WITHIN
    rounds: int


@dataclass(frozen=True)
class Stopped:
    """The allowance was too small. It says neither that there is a run nor that there is none."""

    kind: ClassVar[Kind] = Kind.STOPPED
    rounds: int
    has_best: bool
    best: int


@dataclass(frozen=True)
class NoMore:
    """The earlier list is the last one."""

    kind: ClassVar[Kind] = Kind.NO_MORE


@dataclass(frozen=True)
class Record:
    """The rounds done, and the best length so far if there is one. A search starts from Record()."""

    done: int = 0
    has_best: bool = False
    best: int = 0


@dataclass(frozen=True)
class Advanced(Record):
    """The record after one more round."""

    kind: ClassVar[Kind] = Kind.ADVANCED


@dataclass(frozen=True)
class Finished(Record):
    """No round is left: the record that was given."""

    kind: ClassVar[Kind] = Kind.FINISHED


@dataclass(frozen=True)
class Grade:
    """What a list is: FALSE, ACCEPTING or SHORTEST, and the first place, if any, where it leaves the model."""

    kind: Kind
    has_place: bool
    place: Optional[int]


@dataclass(frozen=True)
class WrittenDistances:
    """The distance of each state from the initial one; NOT_REACHED if it has none up to the ceiling."""

    kind: ClassVar[Kind] = Kind.WRITTEN
    states: int
    distances: Tuple[int, ...]


@dataclass(frozen=True)
class WrittenModel:
    """The bytes of the model file that a combination has written."""

    kind: ClassVar[Kind] = Kind.WRITTEN
    bytes: int
    output: bytes

    @property
    def model(self) -> "Model":
        """The model that they are."""
        return Model(self.output)


# The library.

_BYTES = [ctypes.c_char_p, ctypes.c_size_t]
_ENTRIES = [ctypes.POINTER(ctypes.c_uint16), ctypes.c_size_t]
_PLACES = [ctypes.POINTER(ctypes.c_size_t), ctypes.c_size_t]
_OUTPUT = [ctypes.POINTER(ctypes.c_uint8), ctypes.c_size_t]
_NUMBER = [ctypes.c_uint16]

# What each function takes, in the order of the header; `out` comes last in all of them.
_TAKES = {
    "fahkelo_step": [*_BYTES, *_NUMBER * 3, ctypes.c_uint8, *_NUMBER, *_ENTRIES, *_ENTRIES],
    "fahkelo_search": [*_BYTES, *_NUMBER * 3, *_ENTRIES, *_ENTRIES, *_ENTRIES],
    "fahkelo_next": [*_BYTES, *_NUMBER, *_ENTRIES, *_ENTRIES, *_ENTRIES, *_ENTRIES],
    "fahkelo_grade": [*_BYTES, *_NUMBER, *_ENTRIES, *_NUMBER, *_PLACES, *_ENTRIES, *_ENTRIES],
    "fahkelo_distances": [*_BYTES, *_NUMBER, *_ENTRIES, *_ENTRIES, *_ENTRIES],
    "fahkelo_combine": [*_BYTES, *_BYTES, *_BYTES, *_OUTPUT, *_ENTRIES],
}


def library_path() -> str:
    """The library that is loaded. The number in its name is that of the interface."""
    name = f"libfahkelo.so.{INTERFACE}"
    built = os.path.join(fahkelo_places.LIBRARIES, name)
    return os.environ.get("FAHKELO_LIBRARY") or (built if os.path.exists(built) else name)


@functools.lru_cache(maxsize=None)
def _library() -> ctypes.CDLL:
    """The library, loaded at the first call."""
    path = library_path()
    try:
        library = ctypes.CDLL(path)
        for name, takes in _TAKES.items():
            function = getattr(library, name)
            function.argtypes, function.restype = takes, ctypes.c_uint16
    except (OSError, AttributeError) as error:
        raise NoLibrary(f"the library {path} cannot be used, and `make` builds it: {error}") from None
    return library


def _call(name: str, *arguments: Any) -> Tuple[Kind, List[int]]:
    """Calls a function with a table for its figures. Gives the kind and the figures. Raises Refused."""
    out = (ctypes.c_uint16 * OUT_ENTRIES)()
    value = getattr(_library(), name)(*arguments, out, len(out))
    if value < KINDS_FROM:
        raise Refused(value)
    return Kind(value), list(out)


def _lent(table: Any) -> Tuple[Any, int]:
    """A table made here, and its length, as a function takes them."""
    return table, len(table)


def _work() -> Tuple[Any, int]:
    """A working table."""
    return _lent((ctypes.c_uint16 * WORK_MOST)())


def _number(name: str, value: Any) -> int:
    """A number that 16 bits hold. A call cannot be given another one: a ValueError."""
    number = operator.index(value)
    if not 0 <= number <= 65535:
        raise ValueError(f"{name} is {number}, and must be 0 to 65535")
    return number


def _copied(entries: Iterable[int]) -> Tuple[Any, int]:
    """A copy of a list of states as a table, and its length."""
    numbers = [_number("an entry", entry) for entry in entries]
    return _lent((ctypes.c_uint16 * len(numbers))(*numbers))


def _cut(data: Any, most: int) -> bytes:
    """A copy of bytes, at most one byte past the greatest length: what is longer is refused all the same."""
    return bytes(memoryview(data).cast("B")[:most + 1])


def _bytes(data: Any, most: int) -> Tuple[bytes, int]:
    """A copy of the bytes of a file, and its length."""
    return _lent(_cut(data, most))


def _read(path: Union[str, "os.PathLike[str]"], most: int) -> bytes:
    """The bytes of a file, and of no more than one byte past the greatest length."""
    with open(path, "rb") as file:
        return file.read(most + 1)


def _said(text: Union[str, bytes]) -> modeltext.Text:
    """What the lines of a text say. Raises BadText."""
    size = len(text.encode("utf-8", "replace")) if isinstance(text, str) else len(text)
    if size > TEXT_MOST:
        raise BadText(None, f"the text has more than {TEXT_MOST} bytes")
    return modeltext.read_text(text)


@dataclass(frozen=True)
class Property:
    """A property file: its bytes, which the library checks in a combination."""

    file: bytes

    def __post_init__(self) -> None:
        object.__setattr__(self, "file", _cut(self.file, PROPERTY_MOST))

    @classmethod
    def from_bytes(cls, data: Any) -> "Property":
        """The property file with these bytes, whatever they are."""
        return cls(data)

    @classmethod
    def from_file(cls, path: Union[str, "os.PathLike[str]"]) -> "Property":
        """The property file with this name. Raises OSError."""
        return cls(_read(path, PROPERTY_MOST))

    @classmethod
    def from_text(cls, text: Union[str, bytes]) -> "Property":
        """The property that a text of edges, marks and masks describes. Raises BadText."""
        return cls(modelfile.encode_property(modeltext.property_of(_said(text))))


@dataclass(frozen=True)
class Model:
    """A model file: its bytes, which the library checks in every call, and the letters that its text has given.

    The bytes may be any: what is no model is refused by each call. `table` is the mark table, 0 or 1. Numbers that 16
    bits do not hold raise a ValueError.
    """

    file: bytes
    letters: Optional[bytes] = None

    def __post_init__(self) -> None:
        object.__setattr__(self, "file", _cut(self.file, FILE_MOST))

    @classmethod
    def from_bytes(cls, data: Any) -> "Model":
        """The model file with these bytes, whatever they are."""
        return cls(data)

    @classmethod
    def from_file(cls, path: Union[str, "os.PathLike[str]"]) -> "Model":
        """The model file with this name. Raises OSError."""
        return cls(_read(path, FILE_MOST))

    @classmethod
    def from_text(cls, text: Union[str, bytes]) -> "Model":
        """The model that a text describes, as tools/make-model reads it, with its letters. Raises BadText."""
        said = _said(text)
        for line, _ in said.masks.values():
            raise BadText(line, "masks are those of a property, and this is to be a model")
        model = modeltext.model_of(said)
        return cls(modelfile.encode(model), modeltext.letter_table(said, len(model.rows)))

    @property
    def states(self) -> int:
        """The number of states that the header tells; right if the library accepts the file."""
        return int.from_bytes(self.file[:2], "little")

    @property
    def edges(self) -> int:
        """The number of edges that the header tells; right if the library accepts the file."""
        return int.from_bytes(self.file[2:4], "little")

    def search(
        self, table: int = 0, ceiling: int = CEILING_MOST, allowance: int = ALLOWANCE_MOST
    ) -> Union[Found, NoneWithin, Stopped]:
        """The first shortest run in dictionary order, if it is not longer than the ceiling, with so many rounds."""
        answer = (ctypes.c_uint16 * ANSWER_MOST)()
        asked = _number("table", table), _number("ceiling", ceiling), _number("allowance", allowance)
        kind, out = _call("fahkelo_search", *_bytes(self.file, FILE_MOST), *asked, *_lent(answer), *_work())
        if kind == Kind.FOUND:
            return Found(out[0], out[1], out[2], tuple(answer[:out[0] + 1]))
        if kind == Kind.NONE_WITHIN:
            return NoneWithin(out[0])
        return Stopped(out[0], bool(out[1]), out[2])

    def next(self, run: Union[Found, Sequence[int]], table: int = 0) -> Union[Found, NoMore]:
        """The shortest run that follows an earlier one, given as it was found or as the list of its L + 1 states."""
        earlier = _copied(run.answer if isinstance(run, Found) else run)
        answer = (ctypes.c_uint16 * ANSWER_MOST)()
        asked = _number("table", table), *earlier
        kind, out = _call("fahkelo_next", *_bytes(self.file, FILE_MOST), *asked, *_lent(answer), *_work())
        if kind == Kind.FOUND:
            return Found(out[0], out[1], None, tuple(answer[:out[0] + 1]))
        return NoMore()

    def runs(self, table: int = 0, ceiling: int = CEILING_MOST) -> Iterator[Found]:
        """All shortest runs in dictionary order, one after another: each is looked for when it is asked for."""
        found = self.search(table, ceiling)
        if isinstance(found, Found):
            yield found
            yield from self.following(found, table)

    def following(self, run: Union[Found, Sequence[int]], table: int = 0) -> Iterator[Found]:
        """All shortest runs after an earlier one, one after another: each is looked for when it is asked for."""
        found = self.next(run, table)
        while isinstance(found, Found):
            yield found
            found = self.next(found, table)

    def step(self, record: Record = Record(), table: int = 0, ceiling: int = CEILING_MOST) -> Union[Advanced, Finished]:
        """One round, from the record of the rounds before it."""
        asked = _number("table", table), _number("ceiling", ceiling)
        given = _number("done", record.done), 1 if record.has_best else 0, _number("best", record.best)
        kind, out = _call("fahkelo_step", *_bytes(self.file, FILE_MOST), *asked, *given, *_work())
        answer = Advanced if kind == Kind.ADVANCED else Finished
        return answer(out[0], bool(out[1]), out[2])

    def grade(self, run: Union[Found, Sequence[int]], k: Optional[int] = None, table: int = 0) -> Grade:
        """What a list of states is whose loop is said to start at place k; a run that was found brings its own k."""
        if k is None and not isinstance(run, Found):
            raise TypeError("a list of states is graded with the place k where its loop is said to start")
        states = run.answer if isinstance(run, Found) else run
        claimed = _number("k", run.k if k is None and isinstance(run, Found) else k)
        place = (ctypes.c_size_t * 1)()
        asked = _number("table", table), *_copied(states), claimed
        kind, out = _call("fahkelo_grade", *_bytes(self.file, FILE_MOST), *asked, *_lent(place), *_work())
        return Grade(kind, bool(out[0]), place[0] if out[0] else None)

    def distances(self, ceiling: int = CEILING_MOST) -> WrittenDistances:
        """How far each state is from the initial one, up to the ceiling."""
        distances = (ctypes.c_uint16 * STATES_MOST)()
        asked = _number("ceiling", ceiling)
        _, out = _call("fahkelo_distances", *_bytes(self.file, FILE_MOST), asked, *_lent(distances), *_work())
        return WrittenDistances(out[0], tuple(distances[:out[0]]))

    def combine(self, property: Property, letters: Optional[Any] = None) -> WrittenModel:
        """This rule combined with a property. The letters are bytes, one a state; those of its text if left out."""
        if letters is None and self.letters is None:
            raise TypeError("a rule that does not come from a text is combined with a table of letters")
        if not isinstance(property, Property):
            raise TypeError(f"a rule is combined with a Property, and this is {type(property).__name__}")
        table = _bytes(self.letters if letters is None else letters, STATES_MOST)
        output = (ctypes.c_uint8 * COMBINED_MOST)()
        files = *_bytes(self.file, FILE_MOST), *table, *_bytes(property.file, PROPERTY_MOST)
        _, out = _call("fahkelo_combine", *files, *_lent(output))
        return WrittenModel(out[0], bytes(output[:out[0]]))
