#!/usr/bin/env python3
"""Recomputes the counts that the program crates/finder_compare prints, and prints the same text.

A convenience outside the proofs: no promise rests on it. It makes the same models by the same rules and answers every
call from the definitions (paths without repeated states, closed in every way), with a search of its own and with no
part of the library. usage: tools/recount.py | diff - crates/finder_compare/stdout
"""
from itertools import islice

MODELS = [(1, 8), (2, 256), (3, 24576), (4, 38000), (5, 38000), (6, 38000), (7, 38000)]
WORD = (1 << 64) - 1
NONE = 65536  # the figure of "none", more than every length
FULL = 4096  # the greatest ceiling


def drawn(x):
    """The next number of the generator, a 64-bit xorshift."""
    x ^= (x << 13) & WORD
    x ^= x >> 7
    return x ^ ((x << 17) & WORD)


def draws(x):
    """The number x and all that the generator gives after it."""
    while True:
        yield x
        x = drawn(x)


class Model:
    """States 0 to n - 1, the initial state, and the targets, the successors and the mark of each state.

    The targets are those of its edges. If it stays, a state without edges is its own successor.
    """

    def __init__(self, n, initial, edges, marks, stays):
        """edges(s, t) and marks(s) say what there is."""
        self.n, self.initial = n, initial
        self.targets = [[t for t in range(n) if edges(s, t)] for s in range(n)]
        self.successors = [row or [s] for s, row in enumerate(self.targets)] if stays else self.targets
        self.marks = [bool(marks(s)) for s in range(n)]


def small(n, number, stays):
    """The model with a number: the initial state, then the marks, then the edges row by row."""
    number, initial = divmod(number, n)
    edges, marks = divmod(number, 2 ** n)
    return Model(n, initial, lambda s, t: edges >> (n * s + t) & 1, lambda s: marks >> s & 1, stays)


def random(n, number, stays):
    """The pseudo-random model with a number: density and marks go by the number, the rest by six draws."""
    seed = drawn(drawn(number ^ n << 32 ^ 0x9E3779B97F4A7C15))
    a, b, c, d, e, f = islice(draws(seed), 6)
    ring = sum(1 << 8 * s + (s + 1) % n for s in range(n))
    edges = [a & b & c, a & b, a & (b | c), a, a | b, a & b & c | ring][number % 6]
    d, e = d >> 16, e >> 16
    marks = [1 << d % n, d & e, d, d | e][number // 6 % 4]
    return Model(n, (f >> 8) % n, lambda s, t: edges >> (8 * s + t) & 1, lambda s: marks >> s & 1, stays)


def numbered(n, number):
    """The model with a number among those of n states: an odd number is the model before it, with implied steps."""
    return (small if n <= 3 else random)(n, number // 2, number % 2 == 1)


def placed(n, number):
    """The model with a number in its files, turn by turn: (model, tables, the one named, whether a bit is flipped).

    The model is what calls see that name the table. Up to two states there is every file with one mark table and with
    every set of marks in the other of two, and either number. From three on one model in seven has one table; the others
    have two, of which one is drawn. One in 91 has also the files with each bit of the other marks flipped, and the file
    with one table, of which table 1 is named.
    """
    m, unmarked = numbered(n, number), numbered(n, number)
    unmarked.marks = [False] * n
    beside = unmarked, 1, 1, False
    if n <= 2:
        yield m, 1, 0, False
        yield beside
        for _ in range(2 ** n):
            yield m, 2, 0, False
            yield m, 2, 1, False
        return
    named = drawn(drawn(number ^ n << 32 ^ 0xD1342543DE82EF95)) >> 20 & 1
    yield (m, 1, 0, False) if number // 2 % 7 == 0 else (m, 2, named, False)
    if number // 2 % 91 == 1:
        for _ in range(n):
            yield m, 2, named, True
        yield beside


def accepting(m, path):
    """All accepting paths that begin with a path without repeated states, in dictionary order, as (list, loop)."""
    for t in m.successors[path[-1]]:
        if t in path:
            loop = path[path.index(t):]
            if any(m.marks[s] for s in loop):
                yield path + [t], loop
        else:
            yield from accepting(m, path + [t])


def reached(m):
    """The states that can be reached from the initial state."""
    known, todo = {m.initial}, [m.initial]
    while todo:
        for t in m.successors[todo.pop()]:
            if t not in known:
                known.add(t)
                todo.append(t)
    return known


class Truth:
    """The candidates, the length of each round under a ceiling, the least length and all lists that have it."""

    def __init__(self, m, ceiling, paths):
        """paths are all accepting paths of the model; those that are longer than the ceiling are left out."""
        candidates = sorted(s for s in reached(m) if m.marks[s])
        lengths = {}
        self.least, self.roll = NONE, []
        for path, loop in paths:
            transitions = len(path) - 1
            if transitions > ceiling:
                continue
            for s in loop:
                lengths[s] = min(transitions, lengths.get(s, NONE))
            if transitions < self.least:
                self.least, self.roll = transitions, []
            if transitions == self.least:
                self.roll.append(tuple(path))
        self.rounds = [lengths.get(s, NONE) for s in candidates]
        self.place = {path: j for j, path in enumerate(self.roll)}

    def step(self, done):
        return "finished" if done >= len(self.rounds) else "advanced"

    def search(self, allowance, room):
        if allowance < len(self.rounds):
            return "stopped"
        if not self.roll:
            return "none within"
        return "refused 15" if room <= self.least else "found"

    def next(self, earlier, room):
        if earlier not in self.place:
            return "refused 13"
        if self.place[earlier] + 1 == len(self.roll):
            return "no more"
        return "refused 15" if room <= self.least else "found"


def ceilings(t):
    """From 0 up to one more than the least length, and 4,096."""
    return list(range((t.least if t.roll else 0) + 2)) + [FULL]


def rooms(t):
    """The answer tables' lengths: ample, as many entries as the list needs, one fewer, none."""
    needed = t.least + 1 if t.roll else 1
    return [12, needed, needed - 1, 0]


def near(path):
    """The wrong lists near a list: without its last entry, with one entry changed, with one entry more."""
    values = [0, 1, 2, 3, 4, 5, 6, 7, 65535]
    yield path[:-1]
    for place in range(len(path)):
        for v in values:
            yield path[:place] + (v,) + path[place + 1:]
    for v in values:
        yield path + (v,)


def random_lists(m):
    """The empty list and six pseudo-random ones; every second starts at the initial state."""
    yield ()
    edges = sum(1 << 8 * s + t for s in range(m.n) for t in m.targets[s])
    marks = sum(1 << s for s in range(m.n) if m.marks[s])
    seed = drawn(drawn((edges ^ marks << 56 ^ m.initial << 61 ^ 0x2545F4914F6CDD1D) & WORD))
    for turn, x in enumerate(islice(draws(seed), 6)):
        count = (x >> 60) % 9
        path = [x >> 4 * place & 7 for place in reversed(range(count))]
        if turn % 2 == 0 and count:
            path[0] = m.initial
        yield tuple(path)


def compared(m, count):
    """Counts the answers of all calls on a file that name a table by whose marks its model is m.

    count(call, answer) is told each of them.
    """
    paths = list(accepting(m, [m.initial]))
    t = Truth(m, FULL, paths)
    count("file", f"least {t.least}" if t.roll else "none")
    if len(t.roll) > 1:
        count("several", "any")
    counts = list(range(len(t.rounds) + 2)) + [65535]
    for ceiling in ceilings(t):
        count("ceiling", "any")
        within = Truth(m, ceiling, paths)
        for done in counts:
            own = t.rounds[done] if done < len(t.rounds) else NONE
            bests = [NONE, 0, 1, own, own % 65535 + 1, ceiling, ceiling + 1, 65535]
            for best in bests:
                count("step", within.step(done))
                if ceiling < best < NONE:
                    count("above", "any")
            count("step", "refused 12")
        for allowance in counts:
            for room in rooms(t):
                count("search", within.search(allowance, room))
            count("search", "refused 12")
    count("search", t.search(65535, 16))
    for ceiling in [*range(m.n + 2), FULL, FULL + 1, 65535]:
        for room in [m.n + 3, m.n, m.n - 1]:
            count("distance", "refused 21" if ceiling > FULL else "refused 15" if room < m.n else "written")
        count("distance", "refused 12")
    for path in t.roll:
        count("list", len(path))
        count("next", t.next(path, 16))
        for room in rooms(t):
            count("next", t.next(path, room))
        count("next", "refused 12")
        for wrong in near(path):
            count("next", t.next(wrong, 12))
    for wrong in random_lists(m):
        count("next", t.next(wrong, 12))


def main():
    seen, entries = {}, 0

    def count(call, answer):
        nonlocal entries
        if call == "list":
            entries += answer
            answer = "any"
        seen[call, answer] = seen.get((call, answer), 0) + 1

    def total(call, words=""):
        return sum(n for (c, answer), n in seen.items() if c == call and answer.startswith(words))

    def refused(number):
        return sum(n for (c, answer), n in seen.items() if answer == f"refused {number}")

    print("each model with 0 and with 1 in bytes 6 and 7")
    for n, models in MODELS:
        for number in range(models):
            for turn, (m, tables, named, flipped) in enumerate(placed(n, number)):
                if turn == 0 and m.successors != m.targets:
                    count("implied", "any")
                count("tables", f"{tables} {named}")
                if flipped:
                    count("flipped", "any")
                compared(m, count)
        print(f"{'random' if n > 3 else 'all'} models of {n} state{'s' if n > 1 else ''}: {models}")
    print("models with an implied step:", total("implied"))
    for tables, words in [(1, "one mark table"), (2, "two mark tables")]:
        for named in (0, 1):
            print(f"files with {words}, table {named} named:", total("tables", f"{tables} {named}"))
    print("files with one bit of the other marks flipped:", total("flipped"))
    print("files without an accepting path:", total("file", "none"))
    for least in range(1, 8):
        print(f"files with a least length of {least}:", total("file", f"least {least}"))
    print("files with several shortest accepting paths:", total("several"))
    print("ceilings, over all files:", total("ceiling"))
    for call, plural, answers in [
        ("step", "steps", ["advanced", "finished", "refused"]),
        ("search", "searches", ["found", "none within", "stopped", "refused"]),
        ("next", "nexts", ["found", "no more", "refused"]),
        ("distance", "distances", ["written", "refused"]),
    ]:
        print(f"{plural}:", total(call))
        for answer in answers:
            print(f"  {answer}:", total(call, answer))
    for number in [12, 13, 14, 15, 21]:
        print(f"refused with {number}:", refused(number))
    print("steps from a best length above the ceiling:", total("above"))
    print("lists received by a search and next in turn:", total("list"))
    print("entries in them:", entries)
    print("differences 0")


if __name__ == "__main__":
    main()
