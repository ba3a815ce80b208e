# The tests of draw-sheet and look-at-page. They draw from sheets that a stand-in for the desk sheet
# program prints in a copy of this folder, so they need no program; where the program is built, it must
# print the same sheets. Chromium and Graphviz are used where they are installed.
# A convenience outside the proofs: nothing in crates/ uses it.
import math
import os
import re
import shutil
import subprocess
import tempfile
import xml.etree.ElementTree as xml

from modelfile import Model, encode
from testing import D_BYTES, STAYS_BYTES, TOOLS, TWO_BYTES, expect, expect_failure, made, run

ROOT = os.path.dirname(TOOLS)
PROGRAM = os.path.join(ROOT, "target/bin/desk_sheet")
SVG = "{http://www.w3.org/2000/svg}"
HTML = "{http://www.w3.org/1999/xhtml}"

D_SHEET = "model 5 7\nrounds 1\nshortest 3\n0 | 1 3\n0 | 2 3\nend 2\n"
H_BYTES = encode(Model(0, [[1, 5], [2], [3], [4], [1], [6], [6]], {1, 6}))
H_SHEET = "model 7 8\nrounds 2\nshortest 3\n0 5 | 6\nend 1\n"
STAYS_SHEET = "model 2 1\nrounds 1\nshortest 2\n0 | 1\nend 1\n"
# 0 -> 1, and 2 and 3 that nothing reaches; 0 -> 0, and 1 that nothing reaches; 50 ways out of 0. None of 1 and up has
# edges, and all stay.
APART_BYTES = encode(Model(0, [[1], [], [], []], {1}, True))
APART_SHEET = "model 4 1\nrounds 1\nshortest 2\n0 | 1\nend 1\n"
WAYS_BYTES = encode(Model(0, [range(1, 51)] + [[]] * 50, {50}, True))
BEYOND_BYTES = encode(Model(0, [[0], []], {0}, True))
BEYOND_SHEET = "model 2 1\nrounds 1\nshortest 1\n| 0\nend 1\n"
WAYS_SHEET = "model 51 50\nrounds 1\nshortest 2\n0 | 50\nend 1\n"
# 0 -> 1..5 -> 6..10 -> 11 <-> 12: 25 runs.
MANY_BYTES = encode(Model(0, [range(1, 6)] + [range(6, 11)] * 5 + [[11]] * 5 + [[12], [11]], {12}))
MANY_RUNS = [f"0 {one} {two} | 11 12\n" for one in range(1, 6) for two in range(6, 11)][:20]
MANY_SHEET = "model 13 37\nrounds 1\nshortest 5\n" + "".join(MANY_RUNS) + "more 20\n"
# A stem and a loop of 50 states each, with two ways in the middle of the loop.
LONG_ROWS = [[state + 1] for state in range(99)] + [[50], [76]]
LONG_ROWS[74] = [75, 100]
LONG_BYTES = encode(Model(0, LONG_ROWS, {9, 80, 81}))
# A ring of 24 states with a short cut from each state to the sixth after it.
CUTS_BYTES = encode(Model(0, [sorted([(state + 1) % 24, (state + 6) % 24]) for state in range(24)], {18}))
CUTS_SHEET = "model 24 48\nrounds 1\nshortest 4\n| 0 6 12 18\nend 1\n"


def ring(count, *marks):
    """The file of a ring."""
    return encode(Model(0, [[(state + 1) % count] for state in range(count)], set(marks)))


def ring_sheet(count, rounds=1):
    """Its sheet."""
    return f"model {count} {count}\nrounds {rounds}\nshortest {count}\n| {' '.join(map(str, range(count)))}\nend 1\n"


def long_sheet():
    """The sheet of the long model."""
    stem, loop = range(50), list(range(50, 100))
    loops = [loop, loop[:25] + [100] + loop[26:]]
    lines = [f"{' '.join(map(str, stem))} | {' '.join(map(str, states))}\n" for states in loops]
    return f"model 101 102\nrounds 3\nshortest 100\n{''.join(lines)}end 2\n"


SHEETS = {
    "D": (D_BYTES, D_SHEET),
    "two mark tables": (TWO_BYTES, D_SHEET),
    "H": (H_BYTES, H_SHEET),
    "stays": (STAYS_BYTES, STAYS_SHEET),
    "stays apart": (APART_BYTES, APART_SHEET),
    "stays beyond reach": (BEYOND_BYTES, BEYOND_SHEET),
    "stays in many ways": (WAYS_BYTES, WAYS_SHEET),
    "many": (MANY_BYTES, MANY_SHEET),
    "long": (LONG_BYTES, long_sheet()),
    "cuts": (CUTS_BYTES, CUTS_SHEET),
    "ring 1": (ring(1, 0), ring_sheet(1)),
    "ring 2": (ring(2, 1), ring_sheet(2)),
    "ring 12": (ring(12, 0, 11), ring_sheet(12, 2)),
    "ring 4096": (ring(4096, 4095), ring_sheet(4096)),
    "ring 4096 marked in the middle": (ring(4096, 2000, 2001), ring_sheet(4096, 2)),
    "none": (encode(Model(0, [[1], [0]], set())), "model 2 2\nrounds 0\nnone\n"),
}


class Desk:
    """A copy of the scripts in a folder of its own, with a stand-in that prints the sheet it is given."""

    def __init__(self, folder):
        self.folder, self.tools = folder, os.path.join(folder, "tools")
        shutil.copytree(TOOLS, self.tools, ignore=shutil.ignore_patterns("__pycache__"))
        os.makedirs(os.path.join(folder, "docs"))
        shutil.copy(os.path.join(ROOT, "docs/REFUSALS.md"), os.path.join(folder, "docs"))
        self.program = self.path("target/bin/desk_sheet")
        self.model = self.path("model")

    def path(self, name):
        """A path in the folder."""
        return os.path.join(self.folder, name)

    def write(self, name, data):
        """A file in the folder, with these bytes or this text."""
        with open(self.path(name), "wb") as file:
            file.write(data if isinstance(data, bytes) else data.encode())
        return self.path(name)

    def lay(self, data, sheet, code=0):
        """Lays down a model file, and what the stand-in prints."""
        os.makedirs(os.path.dirname(self.program), exist_ok=True)
        self.write("model", data)
        self.write("target/bin/sheet", sheet)
        self.write("target/bin/desk_sheet", f'#!/bin/sh\ncat >/dev/null\ncat "$(dirname "$0")/sheet"\nexit {code}\n')
        os.chmod(self.program, 0o755)

    def draw(self, *words):
        """The page of the file laid down, as text."""
        return made(["draw-sheet", self.model, *words], tools=self.tools).decode()

    def fails(self, words, code, *parts):
        """draw-sheet fails with this code and a message with these parts, and makes no page."""
        page = self.path("page.html")
        expect_failure(["draw-sheet", self.model, "-o", page, *words], b"", code, *parts, tools=self.tools)
        left = [name for name in os.listdir(self.folder) if name.startswith("page")]
        expect(f"no page after {words}", left == [], left)


def with_desk(test):
    """A test that gets a desk."""
    def tested():
        with tempfile.TemporaryDirectory() as folder:
            test(Desk(folder))

    tested.__name__ = test.__name__
    return tested


def tree_of(case, text):
    """The page as a tree, which must be well formed, ask for nothing outside, and run nothing."""
    try:
        tree = xml.fromstring(text)
    except xml.ParseError as error:
        expect(f"{case} is well formed", False, error)
    for part in tree.iter():
        expect(f"{case} has no script", part.tag.lower() not in (f"{HTML}script", f"{SVG}script"))
        for name, value in part.attrib.items():
            outside = name in ("src", "href") and not value.startswith(("#", "data:,"))
            expect(f"{case} is one file", not outside and not name.startswith("on"), (name, value))
    expect(f"{case} has no outside style", "url(" not in text and "@import" not in text)
    return tree


def text_of(part):
    """The text of a part of a page."""
    return "".join(part.itertext())


def sentences(tree):
    """The sentences below the runs."""
    return [text_of(part) for part in tree.iter(f"{HTML}span") if part.get("class") == "says"]


def count_class(part, name):
    """How many parts have a class."""
    return sum(name in one.get("class", "").split() for one in part.iter())


# The pages.


@with_desk
def test_page_sentences(desk):
    """The sentences, which are the sheet's runs in words."""
    starts = {
        "D": [
            "Starts at 0, then repeats 1, 3 for ever; marked: 3.",
            "Starts at 0, then repeats 2, 3 for ever; marked: 3.",
        ],
        "H": ["Starts at 0, goes to 5, then repeats 6 for ever; marked: 6."],
        "stays": ["Starts at 0, then repeats 1 for ever; marked: 1."],
        "ring 1": ["Starts at 0 and repeats 0 for ever; marked: 0."],
        "ring 2": ["Starts at 0 and repeats 0, 1 for ever; marked: 1."],
        "ring 12": ["Starts at 0 and repeats 0, 1, 2, 3, 4, 5, 6, 7, 8, 9, 10, 11 for ever; marked: 0, 11."],
        "ring 4096": [
            "Starts at 0 and repeats 0, 1, 2, 3, … 4,088 states left out …, "
            "4092, 4093, 4094, 4095 for ever; marked: 4095."
        ],
        "ring 4096 marked in the middle": [
            "Starts at 0 and repeats 0, 1, 2, 3, … 1,996 states left out …, 2000, … 2,091 states left out …, "
            "4092, 4093, 4094, 4095 for ever; marked: 2000, 2001."
        ],
        "long": [
            "Starts at 0, goes to 1, 2, 3, … 5 states left out …, 9, … 36 states left out …, 46, 47, 48, 49, "
            "then repeats 50, 51, 52, 53, … 26 states left out …, 80, … 15 states left out …, 96, 97, 98, 99 for ever; "
            "marked: 80, 81, and before the loop: 9.",
            "Starts at 0, goes to 1, … 7 states left out …, 9, … 38 states left out …, 48, 49, then repeats "
            "50, 51, … 22 states left out …, 74, 100, 76, … 3 states left out …, 80, … 17 states left out …, "
            "98, 99 for ever; marked: 80, 81, and before the loop: 9.",
        ],
        "none": [],
    }
    for case, expected in starts.items():
        desk.lay(*SHEETS[case])
        got = sentences(tree_of(case, desk.draw()))
        expect(f"the sentences of {case}", got == expected, "\n".join(got))


@with_desk
def test_page_pictures(desk):
    """What is in the pictures: states, double circles, arrows, folds, and the model with its runs."""
    for case, pictures, choices, folds in [
        ("D", 3, 2, 0), ("H", 2, 1, 0), ("stays", 2, 1, 0), ("ring 12", 2, 1, 0), ("ring 4096", 1, 0, 1), ("long", 2, 0, 9),
        ("many", 21, 20, 0), ("none", 1, 0, 0),
    ]:
        desk.lay(*SHEETS[case])
        tree = tree_of(case, desk.draw())
        shown = [one for one in tree.iter(f"{SVG}g") if "choice" in one.get("class")]
        found = len(list(tree.iter(f"{SVG}svg"))), len(shown)
        expect(f"the pictures of {case}", found == (pictures, choices), found)
        expect(f"the folds of {case}", count_class(tree, "fold") == folds, count_class(tree, "fold"))
    desk.lay(*SHEETS["D"])
    tree = tree_of("D", desk.draw())
    first, second, model = tree.iter(f"{SVG}svg")
    for name, svg, states, circles, arrows in [("first", first, 3, 4, 4), ("second", second, 3, 4, 4)]:
        found = count_class(svg, "state"), len(list(svg.iter(f"{SVG}circle"))), count_class(svg, "arrow")
        expect(f"the {name} run of D", found == (states, circles, arrows), found)
    # State 2 and the three edges differ from the first run; the states 0 and 3 and the start arrow are shared.
    found = count_class(second, "strong"), count_class(second, "pale")
    expect("what differs in the second run of D", found == (4, 3), found)
    words = {text_of(one) for one in model.iter(f"{SVG}text")}
    expect("the model of D leaves out state 4", words == {"start", "0", "1", "2", "3"}, words)
    links = [one.get("href") for one in tree.iter(f"{HTML}a")]
    expect("a click on each run", links[:2] == ["#show-1", "#show-2"], links)
    places = [one.get("id") for one in tree.iter(f"{HTML}span") if one.get("id")]
    expect("what a click shows", places == ["show-1", "show-2"], places)


@with_desk
def test_page_two_tables(desk):
    """The page of a file with two mark tables is that of mark table 0."""
    for words in [[], ["--dot"], ["--svg"]]:
        desk.lay(*SHEETS["D"])
        expected = desk.draw(*words)
        desk.lay(*SHEETS["two mark tables"])
        expect(f"the page of two mark tables {words}", desk.draw(*words) == expected)
    swapped = TWO_BYTES[:-2] + b"\2\x18"
    desk.lay(swapped, "model 5 7\nrounds 1\nshortest 3\n0 | 1 3\nend 1\n")
    got = sentences(tree_of("the tables exchanged", desk.draw()))
    expect("the tables exchanged", got == ["Starts at 0, then repeats 1, 3 for ever; marked: 1."], got)
    desk.lay(swapped, D_SHEET)
    desk.fails([], 1, "NO PAGE", "run 2", "its loop holds no marked state")


ARROW = "A state that stays as it is has an arrow to itself."


@with_desk
def test_page_words(desk):
    """What the page says about the sheet as a whole."""
    for case, parts in {
        "D": ["5 states and 7 edges", "Within reach: 4 states, 1 marked", "There are 2", "1 state cannot be reached"],
        "H": ["It is the only one", "Drawn strong: run 1."],
        "stays": ["2 states and 1 edge and", "1 state within reach has no edges and stays as it is for ever.", ARROW],
        "stays apart": ["1 state within reach has no edges and stays", ARROW, "2 states cannot be reached"],
        "stays in many ways": ["50 states within reach have no edges and stay", "has 51 states and 100 arrows: too many"],
        "many": ["These are the first 20 such runs; there are more", "Run 20", "Drawn strong: run 20."],
        "ring 4096": ["has 4,096 states and 4,096 arrows: too many to be read in a picture"],
        "none": ["No run comes to a marked state again and again"],
    }.items():
        desk.lay(*SHEETS[case])
        text = text_of(tree_of(case, desk.draw()))
        for part in parts:
            expect(f"the page of {case} says: {part}", part in text, text[:600])
    for case, part in [
        ("D", ARROW), ("stays in many ways", ARROW), ("D", "no edges"), ("stays beyond reach", ARROW), ("stays beyond reach", "no edges"),
    ]:
        desk.lay(*SHEETS[case])
        expect(f"the page of {case} does not say: {part}", part not in text_of(tree_of(case, desk.draw())))
    desk.lay(*SHEETS["D"])
    text = desk.draw("--title", 'A & B <i>"x"</i>')
    expect("a title", text_of(tree_of("title", text).find(f".//{HTML}h1")) == 'A & B <i>"x"</i>')


@with_desk
def test_page_refusals(desk):
    """Each refusal has a page with the card's words."""
    with open(os.path.join(ROOT, "docs/REFUSALS.md"), encoding="utf-8") as file:
        card = dict(re.findall(r"^\| (\d+) \| (.*?) \|", file.read(), re.MULTILINE))
    damages = {2: "0 0", 3: "3 33", 4: "4 5", 5: "7 1", 6: "2 6", 8: "24 1", 9: "36 5", 10: "36 3", 11: "50 56"}
    files = {number: made(f"damage {words}", D_BYTES) for number, words in damages.items()}
    files.update({1: b"", 7: D_BYTES + b"\0" * 30000, 14: D_BYTES})
    spare = TWO_BYTES[:-1] + b"\x22"
    for number, data in [*files.items(), (11, spare)]:
        desk.lay(data, f"refused {number}\n")
        text = text_of(tree_of(f"refused {number}", desk.draw()))
        expect(f"refused {number}", f"Refused {number}" in text and card[str(number)].replace("`", "") in text, text)
        expect(f"refused {number} as Graphviz text", desk.draw("--dot").startswith("digraph {\n  label=\"refused"))
        tree_of(f"refused {number} as SVG", desk.draw("--svg"))


# Names.


@with_desk
def test_page_names(desk):
    """Names stand in pictures and sentences; what looks like HTML in them is shown."""
    desk.lay(*SHEETS["D"])
    opened = "open <script>alert('x')</script> & \"so\""
    names = desk.write("names", f"\ufeff# D\r\n0 {opened}\r\n\n  3\tstore the   file again\n4 wait\n2 wait")
    tree = tree_of("names", desk.draw("--names", names))
    begin = f"Starts at “{opened}”"
    expected = [
        f"{begin}, then repeats 1, “store the file again” for ever; marked: “store the file again”.",
        f"{begin}, then repeats “wait (2)”, “store the file again” for ever; marked: “store the file again”.",
    ]
    expect("sentences with names", sentences(tree) == expected, sentences(tree))
    words = [[text_of(line) for line in one.iter(f"{SVG}tspan")] for one in tree.iter(f"{SVG}text")]
    expect("names in pictures", ["store", "the file", "again"] in words, words)
    long = desk.write("names", "0 " + "Donaudampfschifffahrtsgesellschaft" * 4 + "\n1 " + "a b " * 400)
    lines = [text_of(line) for line in tree_of("long names", desk.draw("--names", long)).iter(f"{SVG}tspan")]
    expect("long names are broken and cut", max(map(len, lines)) < 24 and any(line.endswith("…") for line in lines), lines)


@with_desk
def test_page_circle(desk):
    """On a circle the first run stands in its order from the left on; names outside are turned, numbers upright."""
    desk.lay(*SHEETS["cuts"])
    tree = tree_of("circle", desk.draw("--names", desk.write("names", "0 take the order in\n6 look for the file")))
    chosen = next(one for one in tree.iter(f"{SVG}g") if one.get("class") == "choice run-1")
    states = [one.find(f"{SVG}circle") for one in chosen if one.get("class") == "state strong"]
    turns = [math.degrees(math.atan2(-float(one.get("cy")), -float(one.get("cx")))) for one in states]
    expect("the first run on a circle", [round(turn / 15, 1) for turn in turns] == [0, 1, 2, 3], turns)
    words = [one.find(f"{SVG}text") for one in chosen if one.get("class") == "outside strong"]
    turned = {text_of(one): one.get("transform") is not None for one in words}
    expected = {"take the order in": True, "look for the file": True, "12": False, "18": False}
    expect("words outside", turned == expected, turned)


@with_desk
def test_page_bad_names(desk):
    """Each bad form of the names gets a message, and no page."""
    desk.lay(*SHEETS["D"])
    for data, *parts in [
        ("5 five", "line 1:", "5 is no state", "0 to 4"),
        ("0 a\n99999999999999 b", "line 2:", "no state"),
        ("1 one\n\n1 two", "line 3:", "named twice", "line 1"),
        ("1 one\n01 two", "line 2:", "named twice"),
        ("one 1", "line 1:", "'one' is not a number"),
        ("-1 one", "line 1:", "'-1' is not a number"),
        ("\u0663 three", "line 1:", "is not a number"),
        ("3", "line 1:", "state 3 has no name"),
        ("0 a\n3   ", "line 2:", "state 3 has no name"),
        (b"0 a\xff", "no text", "byte 3"),
        ("0 a".encode("utf-16"), "no text"),
        (b"0 a\n1 b\0c", "no text", "line 2", "U+0000"),
        (b"0 \x1b[31mred", "no text", "U+001B"),
        ("0 \ufffe", "no text", "U+FFFE"),
        (D_BYTES, "no text"),
    ]:
        desk.fails(["--names", desk.write("names", data)], 1, "names", *parts)
    desk.fails(["--names", desk.path("nowhere")], 1, "cannot read", "nowhere")
    desk.fails(["--names", desk.folder], 1, "cannot read")
    desk.lay(b"", "refused 1\n")
    desk.fails(["--names", desk.write("names", "1 a\n1 b")], 1, "named twice")


# What goes wrong.


@with_desk
def test_page_wrong_sheets(desk):
    """A sheet that does not fit the model is told, and not drawn."""
    for sheet, part in [
        (D_SHEET.replace("0 | 1 3", "0 | 1 2"), "run 1 is no run of this model: it goes from 1 to 2"),
        (D_SHEET.replace("0 | 2 3", "0 | 3"), "run 2 is no run of this model: it goes from 0 to 3"),
        (D_SHEET.replace("0 | 1 3", "0 1 | 3"), "it goes from 3 to 3"),
        (D_SHEET.replace("0 | 1 3", "| 1 3"), "it starts at 1"),
        (D_SHEET.replace("0 | 1 3", "0 | 1 3 2 3"), "a state twice"),
        (D_SHEET.replace("0 | 1 3", "0 | 1 9"), "it passes 9"),
        (D_SHEET.replace("0 | 1 3", "0 1 | 3 2"), "run 1 is no run of this model: it has 4 transitions"),
        (D_SHEET.replace("0 | 2 3", "0 | 1 3"), "run 2 stands twice"),
        (D_SHEET.replace("model 5 7", "model 5 8"), "5 states and 8 edges"),
        (D_SHEET.replace("end 2", "end 3"), "'end 3'"),
        (D_SHEET.replace("0 | 2 3", "0 | 2 x"), "'0 | 2 x'"),
        (D_SHEET.replace("shortest", "longest"), "'longest 3'"),
        (D_SHEET[:-1], "does not end"),
        ("", "does not end"),
        ("refused 5\n", "says refused 5"),
        ("refused\n", "'refused'"),
    ]:
        desk.lay(D_BYTES, sheet)
        desk.fails([], 1, "NO PAGE", part)
    desk.lay(encode(Model(0, [[0]], set())), "model 1 1\nrounds 1\nshortest 1\n| 0\nend 1\n")
    desk.fails([], 1, "NO PAGE", "no marked state")
    desk.lay(made("damage 6 0", STAYS_BYTES), STAYS_SHEET)
    desk.fails([], 1, "NO PAGE", "it goes from 1 to 1")
    desk.lay(STAYS_BYTES, STAYS_SHEET.replace("model 2 1", "model 2 2"))
    desk.fails([], 1, "NO PAGE", "2 states and 2 edges")
    desk.lay(D_BYTES[:40], D_SHEET)
    desk.fails([], 1, "NO PAGE", "refused 7")
    desk.lay(D_BYTES[:40], "refused 6\n")
    desk.fails([], 1, "NO PAGE", "refused 7")


@with_desk
def test_page_failures(desk):
    """No program, bad words, files that cannot be read or written; an old page stays as it is."""
    desk.write("model", D_BYTES)
    desk.fails([], 1, "is not built: make target/bin/desk_sheet builds it")
    desk.lay(D_BYTES, D_SHEET, code=3)
    desk.fails([], 1, "exit code 3")
    os.chmod(desk.program, 0o644)
    desk.fails([], 1, "cannot run", "make target/bin/desk_sheet builds it")
    desk.lay(D_BYTES, D_SHEET)
    desk.fails(["--title", " "], 2, "the title is empty")
    desk.fails(["-o", desk.path("nowhere/page.html")], 1, "cannot write", "nowhere/page.html:")
    for words in [["-o", desk.model], ["--names", desk.model, "-o", desk.model]]:
        desk.fails(words, 2, "would be written over")
    for words in [[], [desk.model, "--dot", "--svg"], [desk.model, "--page"]]:
        got = run(["draw-sheet", *words], tools=desk.tools)
        expect(f"the usage after {words}", got[0] == 2 and got[1] == b"" and "usage:" in got[2], got)
    expect("the usage", b"exit status: 0 with a page" in run(["draw-sheet", "--help"], tools=desk.tools)[1])
    page = desk.write("old", "an old page")
    expect_failure(["draw-sheet", desk.path("nowhere"), "-o", page], b"", 1, "cannot read", tools=desk.tools)
    desk.lay(D_BYTES, D_SHEET.replace("| 2", "| 9"))
    expect_failure(["draw-sheet", desk.model, "-o", page], b"", 1, "NO PAGE", tools=desk.tools)
    with open(page, encoding="utf-8") as file:
        expect("an old page stays", file.read() == "an old page")
    desk.lay(D_BYTES, D_SHEET)
    desk.draw("-o", page)
    with open(page, encoding="utf-8") as file:
        expect("a page takes the place of an old one", file.read() == desk.draw())


# Other programs.


@with_desk
def test_dot(desk):
    """Graphviz text: the model, the first run strong, names quoted; dot reads it where it is installed."""
    desk.lay(*SHEETS["D"])
    names = desk.write("names", '0 a "quoted" \\N name & <b>\n3 store')
    text = desk.draw("--dot", "--names", names)
    for line in [
        '0 [label="a \\"quoted\\" \\\\N name &amp; <b>", penwidth=3];',
        '3 [label="store", shape=doublecircle, penwidth=3];', '4 [label="4", shape=doublecircle];',
        "start -> 0;", "0 -> 1 [penwidth=3];", "3 -> 1 [penwidth=3];", "3 -> 2 [color=gray50];",
    ]:
        expect(f"Graphviz text has {line}", f"  {line}\n" in text, text)
    desk.lay(*SHEETS["stays"])
    expect("an implied step as Graphviz text", "  1 -> 1 [penwidth=3];\n" in desk.draw("--dot"))
    program = shutil.which("dot")
    if not program:
        print("skipped: dot is not installed, so it did not read the Graphviz text")
        return
    drawn = [text_of(one) for one in xml.fromstring(dot_reads(program, "names", text)).iter(f"{SVG}text")]
    expect("dot shows a name as it stands", 'a "quoted" \\N name & <b>' in drawn, drawn)
    for case in ["D", "H", "many", "ring 12", "none"]:
        desk.lay(*SHEETS[case])
        dot_reads(program, case, desk.draw("--dot"))
    desk.lay(b"", "refused 1\n")
    dot_reads(program, "refused", desk.draw("--dot"))


def dot_reads(program, case, text):
    """What dot draws from a text, which it must read without a word."""
    done = subprocess.run([program, "-Tsvg"], input=text.encode(), capture_output=True, timeout=60)
    expect(f"dot reads {case}", done.returncode == 0 and done.stderr == b"", done.stderr)
    return done.stdout


@with_desk
def test_svg(desk):
    """The pictures as one SVG; the one in docs/ is that of D."""
    for case, (data, sheet) in SHEETS.items():
        desk.lay(data, sheet)
        tree = tree_of(f"the SVG of {case}", desk.draw("--svg"))
        expect(f"the SVG of {case}", tree.tag == f"{SVG}svg")
    desk.lay(*SHEETS["D"])
    with open(os.path.join(ROOT, "docs/classroom-d.svg"), encoding="utf-8") as file:
        expect("docs/classroom-d.svg", file.read() == desk.draw("--svg", "--title", "The shortest runs of D"))


@with_desk
def test_program(desk):
    """The desk sheet program, where it is built, prints the sheets used here, and its pages are the same."""
    if not os.path.exists(PROGRAM):
        print("skipped: target/bin/desk_sheet is not built (make builds it); a stand-in was drawn from")
        return
    for case, (data, sheet) in SHEETS.items():
        done = subprocess.run([PROGRAM], input=data, capture_output=True, timeout=60)
        expect(f"the sheet of {case}", done.stdout.decode() == sheet, done.stdout)
    desk.lay(*SHEETS["D"])
    expect("the page of D from the program", made(["draw-sheet", desk.model]).decode() == desk.draw())


@with_desk
def test_look(desk):
    """The page of D, with names, in Chromium where it is installed."""
    expect_failure(["look-at-page", desk.path("nowhere")], b"", 2, "there is no file")
    desk.lay(*SHEETS["D"])
    names = desk.write("names", "0 open <script>alert('x')</script>\n3 " + "Donaudampfschifffahrt" * 4)
    desk.draw("--names", names, "-o", desk.path("page.html"))
    said = made(["look-at-page", desk.path("page.html")]).decode()
    expect("look-at-page", said == "page ok\n" or said.startswith("skipped: "), said)
    if said != "page ok\n":
        print(said.strip())
        return
    names = [f"page-{name}" for name in ("light.png", "dark.png", "narrow.png", "click.png", "print.pdf")]
    expect("the pictures", all(os.path.getsize(desk.path(name)) > 1000 for name in names))
    # A page in which the click shows nothing, and one that writes to the console.
    with open(desk.path("page.html"), encoding="utf-8") as file:
        text = file.read()
    without_click, with_script = text.replace("#show-2:target", "#other"), text.replace("</h1>", "</h1><script>1</script>")
    for case, bad in [("a click", without_click), ("a console", with_script)]:
        got = run(["look-at-page", desk.write("bad.html", bad)])
        expect(f"look-at-page finds {case}", got[0] == 1 and b"problems" in got[1], got)


PAGE_TESTS = [
    test_page_sentences, test_page_pictures, test_page_two_tables, test_page_words, test_page_refusals,
    test_page_names, test_page_circle, test_page_bad_names, test_page_wrong_sheets, test_page_failures, test_dot, test_svg, test_program, test_look,
]
