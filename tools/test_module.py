# The tests of the Python module: that its numbers, functions and words are those of the header and the documents, its
# answers on the examples, every refusal that a caller can bring about, and all lists against an exhaustive search.
# A convenience outside the proofs: nothing in crates/ uses it.
import ast
import ctypes
import doctest
import itertools
import os
import pickle
import random
import re
import subprocess
import sys
import threading

import recount
from modelfile import Model as Held
from modelfile import below, combine, decode, encode, encode_property, random_model, random_property
from testing import COMBINED_BYTES, D_BYTES, D_TEXT, PROPERTY_BYTES, PROPERTY_TEXT, RULE_BYTES, RULE_LETTERS, RULE_TEXT
from testing import STAYS_BYTES, TOOLS, TWO_BYTES, TWO_TEXT, expect

ROOT = os.path.dirname(TOOLS)
PROGRAM = os.path.join(ROOT, "target/bin/desk_sheet")
sys.path.append(os.path.join(ROOT, "bindings/python"))
import fahkelo
import fahkelo_card as card
from classroom import sheet
from fahkelo import Advanced, BadText, Finished, Found, Grade, Kind, Model, NoMore, NoneWithin, Property, Record
from fahkelo import Refused, Stopped, WrittenDistances, WrittenModel

H_BYTES = encode(Held(0, [[1, 5], [2], [3], [4], [1], [6], [6]], {1, 6}))
D, TWO, H, STAYS = map(Model, [D_BYTES, TWO_BYTES, H_BYTES, STAYS_BYTES])
# 20 layers of two states each between the start and a loop: a million shortest runs.
LAYERS = 20
MILLION = encode(Held(0, [[1, 2]] + [row for layer in range(1, LAYERS) for row in [[2 * layer + 1, 2 * layer + 2]] * 2]
                      + [[2 * LAYERS + 1]] * 2 + [[2 * LAYERS + 1]], {2 * LAYERS + 1}))
REFUSALS = {*range(1, 19), 21, 22}


def contents(name):
    """The text of a file of the repository."""
    with open(os.path.join(ROOT, name), encoding="utf-8") as file:
        return file.read()


def raised(error, call, *arguments, **more):
    """What a call raises, which must be such an error."""
    try:
        got = call(*arguments, **more)
    except error as caught:
        return caught
    expect(f"{call} {arguments} {more}", False, got)


def expect_number(number, call, *arguments, **more):
    """A call is refused with a number, in the words of the card."""
    refused = raised(Refused, call, *arguments, **more)
    expect(f"refused {number}, {call.__name__} {arguments[1:]} {more}", refused.number == number, refused)
    words = [text.replace("`", "") for text in card.entry(number)]
    expect(f"the words of {number}", [refused.reason, refused.remedy] == words and words[0] in str(refused))


# The header and the documents.


def header_numbers():
    """The numbers that the header defines, by their names without FAHKELO_."""
    found = re.findall(r"#define FAHKELO_(\w+) (\d+)", contents("include/fahkelo.h"))
    return {name: int(value) for name, value in found}


def test_header():
    """The interface, every number of the header, and what each function takes, in its order."""
    numbers = header_numbers()
    kinds = {name: value for name, value in numbers.items() if value >= 100 and name in Kind.__members__}
    expect("all kinds", kinds == {kind.name: kind.value for kind in Kind}, kinds)
    others = {name: value for name, value in numbers.items() if name not in kinds}
    expect("the interface", fahkelo.INTERFACE == numbers["INTERFACE"])
    sizes = {name: getattr(fahkelo, name, None) for name in others}
    expect("the sizes", len(others) > 8 and sizes == others, others)
    types = {
        "const uint8_t *": ctypes.c_char_p, "uint8_t *": ctypes.POINTER(ctypes.c_uint8), "uint8_t": ctypes.c_uint8,
        "const uint16_t *": ctypes.POINTER(ctypes.c_uint16), "uint16_t *": ctypes.POINTER(ctypes.c_uint16),
        "uint16_t": ctypes.c_uint16, "size_t *": ctypes.POINTER(ctypes.c_size_t), "size_t": ctypes.c_size_t,
    }
    declared = {}
    for name, inside in re.findall(r"^uint16_t (fahkelo_\w+)\(([^)]*)\);", contents("include/fahkelo.h"), re.M):
        taken = [re.match(r"\s*(.*?)\w+$", part.strip()).group(1).strip() for part in inside.split(",")]
        declared[name] = [types[part] for part in taken]
    expect("six functions", len(declared) == 6 and declared == fahkelo._TAKES, declared)
    expect("the name of the library", fahkelo.library_path().endswith(f".so.{numbers['INTERFACE']}"))


def test_card():
    """The card has a line for each refusal and each kind, as header and documents have; no script repeats its words."""
    kinds = {kind.value for kind in Kind}
    expect("the numbers of the card", set(card.entries()) == REFUSALS | kinds, sorted(card.entries()))
    for kind in Kind:
        expect(f"the word of {kind}", kind.words == kind.name.lower().replace("_", " "), kind.words)
    rows = re.findall(r"^\| (\d+) \| `FAHKELO_(\w+)` \|", contents("docs/CAPI.md"), re.M)
    expect("the table of docs/CAPI.md", {name: int(value) for value, name in rows} == dict(Kind.__members__), rows)
    contract = {int(number) for number in re.findall(r"^(\d+)\. ", contents("docs/CONTRACT.md"), re.M)}
    expect("the reasons of the contract", contract == REFUSALS, contract)
    expect("the header's reasons", "1 to 18, 21 or 22 (docs/REFUSALS.md)" in contents("include/fahkelo.h"))
    scripts = [name for name in os.listdir(TOOLS) if os.path.isfile(os.path.join(TOOLS, name))]
    for path in ["bindings/python/fahkelo.py", "Makefile"] + [f"tools/{name}" for name in scripts]:
        text = contents(path)
        for number in REFUSALS:
            expect(f"{path} repeats no reason", card.entry(number).words not in text, number)


def test_syntax():
    """What is installed is Python 3.8, and imports nothing that is not of Python or of this folder."""
    allowed = {"argparse", "ctypes", "dataclasses", "enum", "functools", "itertools", "json", "operator", "os",
               "struct", "sys", "typing", "fahkelo_card", "fahkelo_places", "modelfile", "modeltext"}
    modules = ["fahkelo", "fahkelo_card", "fahkelo_places", "modelfile", "modeltext"]
    for path in [f"bindings/python/{name}.py" for name in modules] + ["tools/commands.py", "tools/command_line.py"]:
        tree = ast.parse(contents(path), feature_version=(3, 8))
        for part in ast.walk(tree):
            names = [one.name for one in part.names] if isinstance(part, ast.Import) else []
            names += [part.module] if isinstance(part, ast.ImportFrom) else []
            if path.startswith("bindings"):
                expect(f"{path} imports {names}", allowed.issuperset(names))


def test_copies():
    """What stands beside the module is copied from tools, and finds the same card, program and library from there."""
    folder = os.path.join(ROOT, "bindings/python")
    names = sorted(name for name in os.listdir(folder) if name.endswith(".py") and name != "fahkelo.py")
    wanted = ["fahkelo_card.py", "fahkelo_places.py", "modelfile.py", "modeltext.py"]
    expect("the modules beside fahkelo.py", names == wanted, names)
    for name in names:
        path = f"bindings/python/{name}"
        expect(f"{path} is no link", not os.path.islink(os.path.join(ROOT, path)))
        expect(f"{path} is as in tools (make bindings copies it)", contents(path) == contents(f"tools/{name}"))
    call = "from fahkelo_places import CARD, LIBRARIES, PROGRAM; print(CARD, LIBRARIES, PROGRAM, sep='\\n')"
    places = [subprocess.run([sys.executable, "-c", call], env={**os.environ, "PYTHONPATH": at}, capture_output=True, text=True)
              for at in (folder, TOOLS)]
    expect("the places from both", places[0].stdout == places[1].stdout != "", places)
    expect("the card is there", os.path.isfile(places[0].stdout.split("\n")[0]), places)


# Answers.


def test_examples():
    """The examples of the module's own text."""
    expect("the examples of the module", doctest.testmod(fahkelo) == (0, 5), doctest.testmod(fahkelo))


def test_answers():
    """Every call on D, D with two mark tables, H, a model that stays, and the rule with its property."""
    first, second = Found(3, 1, 1, (0, 1, 3, 1)), Found(3, 1, None, (0, 2, 3, 2))
    expect("search", D.search() == first and str(first) == "0 | 1 3")
    expect("stem and loop", (first.stem, first.loop, first.kind) == ((0,), (1, 3), Kind.FOUND))
    expect("next", [D.next(first), D.next([0, 1, 3, 1]), D.next(second)] == [second, second, NoMore()])
    expect("runs", list(D.runs()) == [first, second])
    expect("ceilings", [D.search(ceiling=3), D.search(ceiling=2)] == [first, NoneWithin(1)])
    expect("runs under a ceiling", list(D.runs(ceiling=2)) == [])
    expect("allowances", [H.search(allowance=n) for n in (0, 1, 2)]
           == [Stopped(0, False, 0), Stopped(1, True, 5), Found(3, 2, 2, (0, 5, 6, 6))])
    expect("steps", [H.step(), H.step(Advanced(1, True, 5)), H.step(Record(2, True, 3))]
           == [Advanced(1, True, 5), Advanced(2, True, 3), Finished(2, True, 3)])
    expect("a step under a ceiling", H.step(ceiling=4) == Advanced(1, False, 0))
    expect("table 1", [list(TWO.runs(1)), D.search(1), TWO.search(table=0)] == [[first], NoneWithin(0), first])
    expect("next by table 1", TWO.next(first, table=1) == NoMore())
    expect("distances", D.distances() == WrittenDistances(5, (0, 1, 1, 2, 65535)))
    expect("distances under a ceiling", D.distances(1).distances == (0, 1, 1, 65535, 65535))
    expect("a state that stays", [str(run) for run in STAYS.runs()] == ["0 | 1"])
    expect("a text", Model.from_text(D_TEXT).file == Model.from_text(D_TEXT.encode()).file == D_BYTES)
    expect("a text with two tables", Model.from_text(TWO_TEXT).file == TWO_BYTES)
    rule, property = Model.from_text(RULE_TEXT), Property.from_text(PROPERTY_TEXT)
    expect("letters of a text", (rule.file, rule.letters, property.file) == (RULE_BYTES, RULE_LETTERS, PROPERTY_BYTES))
    combined = WrittenModel(43, COMBINED_BYTES)
    files = Model(RULE_BYTES), Property.from_bytes(PROPERTY_BYTES), bytearray([0, 1])
    for case in [rule.combine(property), Model.combine(*files)]:
        expect("a combination", case == combined and str(case.model.search()) == "0 | 2 1", case)


def test_grades():
    """The table of the README, by table 1 too, and a list of more entries than 16 bits count."""
    rows = re.findall(r"^\| ([0-9 ]+) \| (\d) \| (\w+)(?:, place (\d+))? \|", contents("README.md"), re.M)
    expect("the rows of the table", len(rows) >= 6, rows)
    for states, k, verdict, place in rows:
        wanted = Grade(Kind[verdict.upper()], bool(place), int(place) if place else None)
        got = D.grade([int(state) for state in states.split()], int(k))
        expect(f"grade {states} {k}", got == wanted, got)
        expect(f"grade {states} {k} by table 1", D.grade(list(map(int, states.split())), int(k), 1).kind == Kind.FALSE)
    expect("a run found", D.grade(D.search()) == Grade(Kind.SHORTEST, False, None))
    expect("a run found, with another k", D.grade(D.search(), k=0).kind == Kind.FALSE)
    expect("no entry", D.grade([], 0) == Grade(Kind.FALSE, False, None))
    ring = Model(encode(Held(0, [[1], [0]], {0})))
    expect("a long list", ring.grade([0, 1] * 35000 + [1], 0) == Grade(Kind.FALSE, True, 70000))
    raised(TypeError, D.grade, [0, 1, 3, 1])


def test_module_refusals():
    """Every number that a caller can bring about; 12, 14 and 15 cannot be, since the tables are large enough."""
    for number, offset, value in [(2, 0, 0), (3, 3, 33), (4, 4, 5), (5, 6, 2), (6, 8, 25), (8, 24, 1), (9, 36, 5),
                                  (10, 36, 2), (11, 50, 56)]:
        data = bytearray(D_BYTES)
        data[offset] = value
        expect_all_calls(number, Model.from_bytes(data))
    long = TWO_BYTES + bytes(10 ** 6)
    for number, data in [(1, b""), (1, D_BYTES[:23]), (7, D_BYTES[:50]), (7, D_BYTES + b"\0"), (7, long)]:
        expect_all_calls(number, Model(data))
    expect_number(13, D.next, [0, 2, 3, 1])
    expect_number(13, D.next, [])
    expect_number(13, D.next, D.search(), table=1)
    for call in (D.search, D.step, D.distances):
        expect_number(21, call, ceiling=4097)
        expect_number(21, call, ceiling=65535)
    for call in (D.search, D.step, Model(b"").search):
        expect_number(22, call, table=2)
    expect_number(22, D.next, D.search(), table=2)
    expect_number(22, D.grade, [0], 0, table=65535)
    expect_number(22, lambda: list(D.runs(table=2)))
    rule, property = Model(RULE_BYTES), Property(PROPERTY_BYTES)
    for letters in (b"", b"\0", b"\0\1\0", b"\0\20", bytes(10 ** 6)):
        expect_number(16, rule.combine, property, letters)
    for data in (b"", PROPERTY_BYTES[:-1], PROPERTY_BYTES + b"\0", PROPERTY_BYTES[:-2] + b"\0\0", bytes(10 ** 6)):
        expect_number(17, rule.combine, Property(data), RULE_LETTERS)
    wide = Model(encode(Held(0, [[]] * 4096, set())))
    expect_number(18, wide.combine, property, bytes(4096))
    again = pickle.loads(pickle.dumps(raised(Refused, D.search, 2)))
    expect("a refusal there and back", (again.number, str(again)) == (22, str(Refused(22))))


def expect_all_calls(number, model):
    """Every call on a file is refused with a number."""
    calls = [(model.search,), (model.step,), (model.next, [0]), (model.grade, [0], 0), (model.distances,)]
    for call, *arguments in calls + [(model.combine, Property(PROPERTY_BYTES), b"")]:
        expect_number(number, call, *arguments)


def test_wrong_arguments():
    """Numbers that 16 bits do not hold, what is no number, texts that are no models; and no library."""
    for value in (-1, 65536, 70000, 10 ** 30):
        for more in ("table", "ceiling", "allowance"):
            raised(ValueError, D.search, **{more: value})
        raised(ValueError, D.distances, ceiling=value)
        raised(ValueError, D.next, [0, value])
        raised(ValueError, D.grade, [0], value)
        raised(ValueError, D.grade, [value], 0)
        raised(ValueError, D.step, Record(value))
        raised(ValueError, D.step, Record(0, True, value))
    for value in (1.0, "1", None):
        raised(TypeError, D.search, table=value)
        raised(TypeError, D.next, [value])
    raised(TypeError, Model, "text")
    raised(TypeError, Model(RULE_BYTES).combine, Property(PROPERTY_BYTES))
    for value in (PROPERTY_BYTES, D, None):
        raised(TypeError, Model(RULE_BYTES).combine, value, RULE_LETTERS)
    for text in ("", "0 -> x", PROPERTY_TEXT, "\0", "#" * (5 << 20), D_TEXT + "#" + "\u00e4" * (3 << 20)):
        raised(BadText, Model.from_text, text)
    for text in ("", RULE_TEXT, TWO_TEXT, D_TEXT):
        raised(BadText, Property.from_text, text)
    raised(OSError, Model.from_file, "/nowhere/model")
    words = [sys.executable, "-c", "import fahkelo; fahkelo.Model(b'').search()"]
    for library in ("/nowhere/libfahkelo.so", os.path.join(ROOT, "README.md"), "libc.so.6"):
        env = {**os.environ, "FAHKELO_LIBRARY": library, "PYTHONPATH": os.path.join(ROOT, "bindings/python")}
        done = subprocess.run(words, env=env, capture_output=True, timeout=60)
        expect(f"no library {library}", b"NoLibrary: the library" in done.stderr and done.returncode == 1, done)


class Boaster(bytes):
    """Bytes that say they are longer than they are."""

    def __len__(self):
        return 10 ** 9


def test_lengths():
    """No call is given a length that is not that of the bytes, whatever they say and wherever they are put."""
    model, property = Model(Boaster(D_BYTES)), Property(Boaster(PROPERTY_BYTES))
    expect("bytes that boast", len(model.file) == 51 and model.search() == D.search())
    rule = Model(RULE_BYTES, Boaster(RULE_LETTERS))
    expect("letters that boast", rule.combine(property).output == COMBINED_BYTES)
    for held, data in [(model, D_BYTES), (rule, RULE_BYTES), (property, PROPERTY_BYTES)]:
        object.__setattr__(held, "file", Boaster(data))
    expect("bytes that boast later", model.search() == D.search() and model.distances() == D.distances())
    expect("a property that boasts later", rule.combine(property, Boaster(RULE_LETTERS)).output == COMBINED_BYTES)


def test_threads():
    """Calls in several threads at once give what they give alone."""
    ring = Model(encode(Held(0, [[(state + 1) % 500] for state in range(500)], {499})))
    models = [D, H, STAYS, ring] * 2
    alone = [model.search() for model in models]
    got = [None] * len(models)

    def ask(place):
        got[place] = {models[place].search() for _ in range(20)}

    threads = [threading.Thread(target=ask, args=[place]) for place in range(len(models))]
    for thread in threads:
        thread.start()
    for thread in threads:
        thread.join()
    expect("threads", got == [{answer} for answer in alone], got)


# Against an independent search, and against the desk sheet program.


def held_of(m, tables, named):
    """A model of recount.py as one of modelfile.py, by the mark table named; the other table marks nothing."""
    marks = {state for state in range(m.n) if m.marks[state]}
    stays = m.successors != m.targets
    both = (marks, set()) if named == 0 else (set(), marks)
    return Held(m.initial, m.targets, both[0], stays, both[1] if tables == 2 else None)


def test_against_exhaustive_search():
    """All lists, the rounds, the searches and the distances of small models are those of the search in recount.py."""
    count = dict(recount.MODELS)
    numbers = [(1, range(count[1])), (2, range(count[2])), (3, range(0, count[3], 61))]
    numbers += [(n, range(0, count[n], 761)) for n in (4, 5, 6)]
    lists = 0
    for n, which in numbers:
        for number in which:
            for m, tables, named, _ in recount.placed(n, number):
                lists += compare_with_truth(f"model {n} {number}", m, tables, named)
    expect("enough lists", lists > 1500, lists)


def compare_with_truth(case, m, tables, named):
    """Compares the answers about one file; gives the number of its lists."""
    truth = recount.Truth(m, recount.FULL, list(recount.accepting(m, [m.initial])))
    model = Model(encode(held_of(m, tables, named)))
    runs = [run.answer for run in model.runs(named)]
    expect(f"{case}: lists", runs == truth.roll, (runs, truth.roll))
    for run in model.runs(named):
        expect(f"{case}: its k", run.answer[run.k] == run.answer[-1] and run.answer.index(run.answer[-1]) == run.k)
        expect(f"{case}: its grade", model.grade(run, table=named) == Grade(Kind.SHORTEST, False, None))
    answer = model.search(named)
    rounds = len(truth.rounds)
    wanted = Found(truth.least, answer.answer.index(runs[0][-1]), rounds, runs[0]) if runs else NoneWithin(rounds)
    expect(f"{case}: search", answer == wanted, answer)
    record = Record()
    for done in range(rounds + 1):
        record = model.step(record, named)
        best = min(truth.rounds[:done + 1], default=recount.NONE)
        has = best != recount.NONE
        wanted = (Advanced if done < rounds else Finished)(min(done + 1, rounds), has, best if has else 0)
        expect(f"{case}: step {done}", record == wanted, (record, wanted))
    expect(f"{case}: distances", model.distances().distances == tuple(distances(m)))
    return len(runs)


def distances(m):
    """The least number of steps to each state, by the sets of states that so many steps reach."""
    found = [fahkelo.NOT_REACHED] * m.n
    reached = {m.initial}
    for steps in range(m.n):
        for state in reached:
            found[state] = min(found[state], steps)
        reached = {target for state in reached for target in m.successors[state]}
    return found


def random_models():
    """Random models of up to 40 states, some with a second mark table and some that stay."""
    rng = random.Random(31)
    for case in range(80):
        states = 2 + below(rng, 39)
        edges = states + below(rng, min(states * states, 3 * states) - states + 1)
        model = random_model(rng, states, edges, 1 + below(rng, 3), 2 if case % 3 == 0 else None)
        yield model._replace(stays=case % 2 == 1)


def test_against_the_sheet():
    """The runs of random models are the lists of the desk sheet program."""
    if not os.path.exists(PROGRAM):
        print("skipped: the desk sheet program is not built, so the runs were not compared with it")
        return
    lists = 0
    for held in random_models():
        data = encode(held)
        done = subprocess.run([PROGRAM], input=data, capture_output=True, timeout=60)
        found = sheet.read_sheet(done.stdout.decode())
        runs = [sheet.Run(list(run.stem), list(run.loop)) for run in itertools.islice(Model(data).runs(), 21)]
        expect("the lists of a sheet", (runs[:20], len(runs) > 20) == (found.runs, found.more), done.stdout)
        lists += len(found.runs)
    expect("enough lists", lists > 60, lists)


def test_lazy_runs():
    """Of a million runs only those are looked for that are asked for."""
    runs = Model(MILLION).runs()
    first = [str(run) for run in itertools.islice(runs, 3)]
    start = " ".join(map(str, [0, *range(1, 2 * LAYERS - 3, 2)]))
    ends = [f"{start} {one} {two} | 41" for one, two in [(37, 39), (37, 40), (38, 39)]]
    expect("the first three of a million runs", first == ends, (first, ends))
    after = [str(run) for run in itertools.islice(Model(MILLION).following(Model(MILLION).search()), 2)]
    expect("those after the first", after == ends[1:], after)


def test_against_combine():
    """Random combinations are those of combine in modelfile.py."""
    rng = random.Random(3)
    for case in range(100):
        states, count = 1 + below(rng, 6), 1 + below(rng, 4)
        rule = random_model(rng, states, below(rng, states * states + 1), 0)._replace(stays=case % 2 == 1)
        property = encode_property(random_property(rng, count, below(rng, count * count + 1), below(rng, count + 1)))
        letters = bytes(below(rng, 16) for _ in range(states))
        got = Model(encode(rule)).combine(Property(property), letters)
        expect(f"combination {case}", decode(got.output) == combine(rule, letters, property), got)
        expect(f"the bytes of combination {case}", got.bytes == len(got.output), got)


def built():
    """Whether the library is there; says so if it is not."""
    there = os.path.exists(fahkelo.library_path())
    if not there:
        print("skipped: the shared library is not built (make builds it), so the module and fahkelo were not tested")
    return there


HEADER_TESTS = [test_header, test_card, test_syntax, test_copies]  # without the library

MODULE_TESTS = [
    test_examples, test_answers, test_grades, test_module_refusals, test_wrong_arguments, test_lengths, test_threads,
    test_against_exhaustive_search, test_against_the_sheet, test_lazy_runs, test_against_combine,
]
