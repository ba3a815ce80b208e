# The tests of property files, letter tables and combinations: make-model and show-model there and back,
# bad texts, the reasons 16, 17 and 18, the example to the byte, and random combinations.
# A convenience outside the proofs: nothing in crates/ uses it.
import itertools
import os
import random
import re
import subprocess
import tempfile

from fahkelo_card import reason
from modelfile import ALL_LETTERS, Model, Property, below, combine, decode, decode_letters, decode_property
from modelfile import edges_of, encode, encode_property, random_model, random_property
from testing import COMBINED_BYTES, D_BYTES, PROPERTY_BYTES, PROPERTY_TEXT, RULE_BYTES, RULE_LETTERS, RULE_TEXT, TOOLS
from testing import TWO_BYTES, expect, expect_failure, expect_refused, expect_round_trip, made

FORMAT = os.path.join(os.path.dirname(TOOLS), "docs/FORMAT.md")
MAX_PROPERTY_BYTES = 41498


def with_word(data, place, value):
    """A file with another 16-bit number at a place."""
    return data[:place] + value.to_bytes(2, "little") + data[place + 2:]


def files_in(folder, **contents):
    """Writes files with these contents, and gives their names."""
    for name, data in contents.items():
        with open(os.path.join(folder, name), "wb") as file:
            file.write(data)
    return [os.path.join(folder, name) for name in contents]


def contents_of(path):
    """The bytes of a file."""
    with open(path, "rb") as file:
        return file.read()


# Texts and files.


def test_property_text():
    """The example's property in several spellings, masks of all letters, and a property without edges."""
    expect("the property from its text", made("make-model", PROPERTY_TEXT.encode()) == PROPERTY_BYTES)
    expect("the property with its option", made("make-model --property", PROPERTY_TEXT.encode()) == PROPERTY_BYTES)
    expect("the property as text", made("show-model --property", PROPERTY_BYTES).decode() == PROPERTY_TEXT)
    other = "mask 1 1 1\nmask 0 1 1 # before its edge\n0->0 1\nmask 0 0 0\n1->1 0\nmark 1\nmask 1 0 0"
    expect("the property from another text", made("make-model", other.encode()) == PROPERTY_BYTES)
    many = b"0 -> 0 1\nmask 0 0 15 0 7\nmask 0 1 " + b" ".join(b"%d" % letter for letter in range(16))
    full = made("make-model", many)
    expect("masks of many letters", full[-4:] == b"\x81\x80\xff\xff", full)
    expect("all letters", made("make-model", many[:many.rindex(b"1 0 1")] + b"1 all") == full)
    expect("masks as text", made("show-model --property", full).endswith(b"mask 0 0 0 7 15\nmask 0 1 all\n"))
    staying = made("make-model --property", f"{PROPERTY_TEXT}stays".encode())
    expect("a property that stays", staying == with_word(PROPERTY_BYTES, 6, 1))
    expect_round_trip("a property that stays", staying, "--property")
    bare = made("make-model --property", b"states 9\nmark 8")
    expect("a property without edges", bare == made("make-model", b"states 9\nmark 8"))
    expect_round_trip("a property without edges", bare, "--property")


def test_letters():
    """The example's rule with its letter table, and states without a letter line."""
    with tempfile.TemporaryDirectory() as folder:
        rule, letters = files_in(folder, rule=b"", letters=b"")
        made(f"make-model -o {rule} --letters {letters}", RULE_TEXT.encode())
        expect("the rule from its text", (contents_of(rule), contents_of(letters)) == (RULE_BYTES, RULE_LETTERS))
        expect("the rule as text", made(f"show-model {rule} --letters {letters}").decode() == RULE_TEXT)
        expect("the rule without its letters", made(f"show-model {rule}") == RULE_TEXT.split("letter")[0].encode())
        some = made(f"make-model --letters {letters}", b"states 5\nletter 3 15\nletter 1 9")
        expect("some letters", contents_of(letters) == bytes([0, 9, 0, 15, 0]) and decode(some).rows == [[]] * 5)
        made(f"make-model --letters {letters}", b"states 3")
        expect("no letter line", contents_of(letters) == bytes(3))


def test_bad_property_texts():
    """Each bad text of letters or masks gets the number of its line and some words that say why."""
    for text, *parts in [
        ("0 -> 1\nletter 0 3", "line 2:", "add --letters FILE"),
        ("letter 0", "line 1:", "a state and one letter"),
        ("letter 0 1 2", "line 1:", "a state and one letter"),
        ("letter 0 16", "line 1:", "letter 16 is too large", "15"),
        ("letter 0 x", "line 1:", "'x' is not a number"),
        ("letter 0 all", "line 1:", "'all' is not a number"),
        ("letter 4096 0", "line 1:", "4095"),
        ("letter 2 0\nletter 2 0", "line 2:", "letter of state 2 is given twice"),
        ("states 2\nletter 2 0", "line 2:", "state 2 is not below 2"),
        ("0 -> 0\nletter 0 1\nmask 0 0 1", "line 2:", "a property has masks, and no letters"),
        ("0 -> 0 1\n\n1 -> 0\nmask 1 0 3\nmask 0 0 3", "line 1:", "the edge 0 -> 1 has no mask"),
        ("0 -> 0\n1 -> 1\nmask 0 0 all", "line 2:", "the edge 1 -> 1 has no mask"),
        ("0 -> 1\nmask 0 1 3\nmask 1 0 3", "line 3:", "there is no edge 1 -> 0"),
        ("mask 0 1 3", "line 1:", "there is no edge 0 -> 1"),
        ("0 -> 1\nmask 0 1 3\nmask 0 1 3", "line 3:", "mask of the edge 0 -> 1 is given twice"),
        ("0 -> 1\nmask 0 1 3 4 3", "line 2:", "letter 3 stands twice"),
        ("0 -> 1\nmask 0 1 16", "line 2:", "letter 16 is too large", "15"),
        ("0 -> 1\nmask 0 1 all 3", "line 2:", "'all' is not a number"),
        ("0 -> 1\nmask 0 1", "line 2:", "'mask' takes", "'all'"),
        ("0 -> 1\nmask 0 -> 1 3", "line 2:", "'->' is not a number"),
        ("states 2\n0 -> 1\nmask 0 2 1", "line 3:", "state 2 is not below 2"),
    ]:
        expect_failure("make-model", text.encode(), 2, *parts)
    expect_failure("make-model --property", b"start 0\n0 -> 1", 2, "line 2:", "the edge 0 -> 1 has no mask")
    expect_failure("make-model --property", b"letter 0 1", 2, "line 1:", "no letters")
    for words, text in [("make-model --property", b"states 1\nsecond"), ("make-model", b"0 -> 0\nsecond 0\nmask 0 0 1")]:
        expect_failure(words, text, 2, "line 2:", "a property has one mark table")


def test_bad_property_words():
    """Bad words on the command line, and no file from bad input."""
    with tempfile.TemporaryDirectory() as folder:
        file, table = os.path.join(folder, "file"), os.path.join(folder, "table")
        for words, text, part in [
            (f"make-model -o {file} --letters {table}", PROPERTY_TEXT, "no letter table"),
            (f"make-model -o {file} --letters {table} --property", "states 1", "no letter table"),
            (f"make-model -o {file} --letters {table}", "0 -> 1\nmask 0 1 3\nmask 1 0 3", "no letter table"),
            (f"make-model -o {file} --letters {table}", "0 -> 0\nletter 0 1\nmask 0 0 1", "line 2:"),
            (f"make-model -o {file} --letters {folder}/../{os.path.basename(folder)}/file", RULE_TEXT, "the same file"),
            (f"make-model -o {file} --letters {table}", "letter 0 16", "line 1:"),
            (f"make-model -o {file}", RULE_TEXT, "--letters"),
            (f"show-model --property --letters {table}", "", "no letter table"),
            (f"show-model --letters {table}", RULE_BYTES.decode(), "cannot read"),
        ]:
            expect_failure(words, text.encode(), 2, part)
        expect("no file from bad input", os.listdir(folder) == [])


def test_random_properties():
    """Random properties and letter tables, there and back; and the longest property file."""
    rng = random.Random(3)
    for states, edges, marks in [(1, 0, 0), (1, 1, 1), (8, 20, 3), (9, 81, 9), (33, 200, 0)]:
        data = encode_property(random_property(rng, states, edges, marks))
        expect_round_trip(f"a property of {states} states", data, "--property")
    longest = encode_property(random_property(rng, 4096, 8192, 4096))
    expect("the longest property file", len(longest) == MAX_PROPERTY_BYTES, len(longest))
    expect_round_trip("the longest property file", longest, "--property")
    with tempfile.TemporaryDirectory() as folder:
        for states in [1, 17, 4096]:
            data = encode(random_model(rng, states, states, 1))
            letters = bytes(below(rng, 16) for _ in range(states))
            rule, table = files_in(folder, rule=data, table=letters)
            text = made(f"show-model {rule} --letters {table}")
            again = made(f"make-model --letters {table}", text)
            expect(f"a rule of {states} states, there and back", (again, contents_of(table)) == (data, letters))


def test_format_page():
    """The hex dumps of the page on the format, and the commands below them, give the examples."""
    with open(FORMAT, encoding="utf-8") as file:
        page = file.read()
    dumps = re.findall(r"```\n((?:[0-9a-f]{8}: .*\n)+)```", page)
    found = [bytes.fromhex("".join(re.findall(r"^[0-9a-f]{8}: (.*)$", dump, re.MULTILINE))) for dump in dumps]
    expect("the hex dumps", found == [D_BYTES, TWO_BYTES, PROPERTY_BYTES], found)
    commands = re.findall(r"^(printf .*) > \w+$", page, re.MULTILINE)
    found = [subprocess.run(["sh", "-c", command], stdout=subprocess.PIPE, timeout=60).stdout for command in commands]
    expect("the printf lines", found == [D_BYTES, PROPERTY_BYTES, RULE_LETTERS], found)


# The reasons 16, 17 and 18.


def test_letter_refusals():
    """16: a table of another length, or a letter above 15; the rule's own reasons come first."""
    with tempfile.TemporaryDirectory() as folder:
        rule, broken = files_in(folder, rule=RULE_BYTES, broken=RULE_BYTES[:-1])
        for data, part in [(b"", "0 bytes"), (b"\0", "1 bytes"), (b"\0\1\0", "3 bytes"), (b"\0\x10", "state 1 is 16")]:
            expect_refused(f"the letters {data}", "16: ", decode_letters, data, 2)
            (table,) = files_in(folder, table=data)
            expect_failure(f"show-model {rule} --letters {table}", b"", 1, "refused 16: ", part)
        expect_failure(f"show-model {broken} --letters {table}", b"", 1, "refused 7: ")
    expect("the greatest letter", decode_letters(b"\0\x0f", 2) == [0, 15])


def test_property_refusals():
    """17: by each of the reasons 1 to 11, and by a mask that is zero."""
    good = PROPERTY_BYTES
    for inner, data in [
        (1, b""), (1, good[:23]), (2, with_word(good, 0, 0)), (2, with_word(good, 0, 4097)),
        (3, with_word(good, 2, 8193)), (4, with_word(good, 4, 2)), (5, with_word(good, 6, 2)), (5, with_word(good, 6, 256)),
        (6, with_word(good, 8, 25)), (6, with_word(good, 12, 31)), (6, with_word(good, 16, 39)),
        (6, with_word(good, 20, 39)), (6, with_word(good, 22, 1)), (6, RULE_BYTES), (6, D_BYTES),
        (7, good[:-1]), (7, good[:39]), (7, good + b"\0"), (8, with_word(good, 24, 1)),
        (8, with_word(good, 28, 3)), (9, with_word(good, 30, 2)), (10, with_word(good, 30, 1)),
        (11, good[:38] + b"\6" + good[39:]),
    ]:
        words = f"17: it breaks {inner}: {reason(inner)} ("
        expect_refused(f"a property that breaks {inner}", words, decode_property, data)
    for place, edge in [(39, "0 -> 0"), (41, "0 -> 1"), (45, "1 -> 1")]:
        zero = with_word(good, place, 0)
        expect_refused(f"a zero mask at {place}", f"17: the mask of the edge {edge} is zero)", decode_property, zero)
    # The reasons 1 to 11 come before a zero mask; and without its option a property is no model file.
    both = with_word(zero, 30, 1)
    for words, data, said in [
        ("show-model --property", RULE_BYTES, ["refused 17: ", "(it breaks 6: ", "(the total length is 35; "]),
        ("show-model --property", good[:-1], ["refused 17: ", "(it breaks 7: "]),
        ("show-model --property", both, ["refused 17: ", "(it breaks 10: "]),
        ("show-model --property", zero, ["refused 17: ", "(the mask of the edge 1 -> 1 is zero)"]),
        ("show-model", good, ["refused 6: ", "(the total length is 47; "]),
    ]:
        expect_failure(words, data, 1, *said)


def test_property_mark_tables():
    """A property has one mark table: with two it is 17, and its masks have no spare bits."""
    model = decode_property(PROPERTY_BYTES).model
    masks = {edge: 1 for edge in edges_of(model)}
    two = Property(model._replace(second={0}), masks)
    expect_refused("a property with two mark tables", "17: it breaks 6: ", encode_property, two)
    no_edge = encode(Model(0, [[]] * 3, {2}, second={1}))
    expect_refused("two mark tables and no masks", "17: it breaks 6: ", decode_property, no_edge)
    full = encode_property(Property(model, {edge: ALL_LETTERS for edge in edges_of(model)}))
    expect("masks of all bits", set(decode_property(full).masks.values()) == {ALL_LETTERS})
    # With 9 states and one edge the mask is as long as a mark table: the same bytes are a property and a model.
    both = encode_property(Property(Model(0, [[8]] + [[]] * 8, {8}), {(0, 8): 0x0103}))
    expect("a property that is a model", decode_property(both).masks == {(0, 8): 0x0103})
    expect("a model that is a property", decode(both).second == {0, 1, 8}, decode(both))
    spare = with_word(both, len(both) - 2, 0x0203)
    expect("a mask above the states", decode_property(spare).masks == {(0, 8): 0x0203})
    expect_refused("a spare bit of the second table", "11: mark table 1 has one, ", decode, spare)
    empty = with_word(both, len(both) - 2, 0)
    expect("a second table without marks", decode(empty).second == set())
    expect_refused("a mask that is zero", "17: the mask of the edge 0 -> 8 is zero)", decode_property, empty)


def bare(states):
    """A rule without edges."""
    return Model(0, [[]] * states, set())


def ring(states):
    """A rule that is a ring."""
    return Model(0, [[(state + 1) % states] for state in range(states)], set())


def property_of(states, masks=()):
    """The file of a property that has the first so many of all possible edges, with these masks."""
    edges = [divmod(number, states) for number in range(len(masks))]
    rows = [[target for source, target in edges if source == state] for state in range(states)]
    return encode_property(Property(Model(0, rows, set()), dict(zip(edges, masks))))


def test_size_refusals():
    """18: 4,096 states and 8,192 edges pass, and one more of either does not."""
    for states, count in [(64, 64), (4096, 1), (1, 4096)]:
        result = combine(bare(states), bytes(states), property_of(count))
        expect(f"{states} times {count} states", len(result.rows) == 4096)
    for states, count in [(17, 241), (64, 65), (65, 64), (4096, 4096)]:
        rule, case, words = bare(states), f"{states} times {count} states", f"18: it would have {states * count} states"
        expect_refused(case, words, combine, rule, bytes(states), property_of(count))
    # Both letters of the ring are held by 4,096 masks; letter 2 is no state's, letter 1 is that of one state.
    result = combine(ring(2), b"\0\1", property_of(65, [ALL_LETTERS] * 4096 + [1 << 2]))
    expect("8,192 edges", len(edges_of(result)) == 8192)
    one_more = property_of(65, [ALL_LETTERS] * 4096 + [1 << 1])
    expect_refused("8,193 edges", "18: it would have more than 8192 edges", combine, ring(2), b"\0\1", one_more)
    full = Model(0, [list(range(64))] * 64, set())
    expect_refused("the most edges", "18: ", combine, full, bytes(64), property_of(64, [1] * 4096))


def test_checking_order():
    """Where two reasons hold, the one that is checked first is reported: 1 to 11 of the rule, 16, 17, 18."""
    spoilt = property_of(65, [ALL_LETTERS] * 4096 + [1 << 1])[:-2] + bytes(2)
    expect_refused("7 before 16", "7: ", lambda: combine(decode(RULE_BYTES + b"\0"), b"", spoilt))
    expect_refused("16 before 17", "16: ", combine, ring(64), bytes(63), spoilt)
    expect_refused("17 before 18", "17: ", combine, ring(64), bytes(64), spoilt)


# Combinations.


def test_combined_example():
    """The example to the byte, whatever marks the rule has, in one table or in two."""
    rule = decode(RULE_BYTES)
    for marks, second in itertools.product([set(), {0}, {0, 1}], [None, set(), {1}]):
        marked = decode(encode(rule._replace(marks=marks, second=second)))
        result = encode(combine(marked, RULE_LETTERS, PROPERTY_BYTES))
        expect(f"the combination with the rule's marks {marks} {second}", result == COMBINED_BYTES, result.hex())


B_BYTES = encode(Model(0, [[0]], {0}))


def test_combined_implied_steps():
    """The rule's implied steps are followed, the property's are not, and the result has 0 in bytes 6 and 7."""
    stopped = bare(1)
    loop = encode_property(Property(Model(0, [[0]], {0}), {(0, 0): 8}))
    no_edge = encode(stopped._replace(marks={0}))
    for place, property in enumerate([loop, with_word(loop, 6, 1)]):
        for rule, letter, result in [
            (stopped._replace(stays=True), 3, B_BYTES), (stopped._replace(stays=True), 2, no_edge), (stopped, 3, no_edge),
        ]:
            found = encode(combine(rule, bytes([letter]), property))
            expect(f"property {place}, {rule}, letter {letter}", found == result, found.hex())
    for rule in [decode(B_BYTES), stopped._replace(stays=True)]:
        found = encode(combine(rule, b"\3", with_word(no_edge, 6, 1)))
        expect(f"a property that stays, {rule}", found == no_edge, found.hex())
    for rule in [decode(RULE_BYTES), decode(with_word(RULE_BYTES, 6, 1))]:
        for property in [PROPERTY_BYTES, with_word(PROPERTY_BYTES, 6, 1)]:
            found = encode(combine(rule, RULE_LETTERS, property))
            expect(f"the example, {rule}", found == COMBINED_BYTES, found.hex())


def successors(model, state):
    """The states that a step leads to, the implied one among them."""
    return [state] if model.stays and not model.rows[state] else model.rows[state]


def paths(model, length):
    """All paths with so many steps, from any state."""
    found = [[state] for state in range(len(model.rows))]
    for _ in range(length):
        found = [path + [target] for path in found for target in successors(model, path[-1])]
    return found


def agree(letters, masks, rule_path, property_path):
    """Whether the mask of each edge of the property's path holds the letter beside its source."""
    edges = zip(property_path, property_path[1:])
    return all(masks[edge] >> letters[state] & 1 for state, edge in zip(rule_path, edges))


def test_random_combinations():
    """Paths of random combinations are exactly the pairs of paths that agree; the initial pair, and the marks."""
    rng = random.Random(5)
    for case in range(1000):
        states, count = 1 + below(rng, 4), 1 + below(rng, 3)
        rule = random_model(rng, states, below(rng, states * states + 1), below(rng, states + 1))
        rule = rule._replace(stays=case % 2 == 1)
        letters = bytes(below(rng, 16) for _ in range(states))
        property = random_property(rng, count, below(rng, count * count + 1), below(rng, count + 1))
        file = encode_property(property)
        result = combine(rule, letters, file)
        expect(f"the property that stays {case}", combine(rule, letters, with_word(file, 6, 1)) == result)
        expect(f"combination {case} in a file", decode(encode(result)) == result)
        expect(f"initial pair {case}", divmod(result.start, count) == (rule.start, property.model.start))
        marked = {c for c in range(states * count) if c % count in property.model.marks}
        expect(f"marks {case}", result.marks == marked)
        for length in range(3):
            pairs = itertools.product(paths(rule, length), paths(property.model, length))
            agreeing = [pair for pair in pairs if agree(letters, property.masks, *pair)]
            combined = [[s * count + q for s, q in zip(*pair)] for pair in agreeing]
            expect(f"paths {case} with {length} steps", sorted(paths(result, length)) == sorted(combined))


PROPERTY_TESTS = [
    test_property_text, test_letters, test_bad_property_texts, test_bad_property_words, test_random_properties,
    test_format_page, test_letter_refusals, test_property_refusals, test_property_mark_tables, test_size_refusals,
    test_checking_order,
    test_combined_example, test_combined_implied_steps, test_random_combinations,
]
