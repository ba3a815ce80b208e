# The tests of tools/fahkelo: every command and option on D, H, a file with two mark tables and a rule with a property,
# JSON, every refusal, wrong words, input that is no model or cannot be read, and output that nobody reads.
# A convenience outside the proofs: nothing in crates/ uses it.
import json
import os
import re
import resource
import signal
import subprocess
import sys
import tempfile
import time

from modelfile import Model, encode
from test_module import H_BYTES, MILLION, PROGRAM, ROOT, contents, random_models
from testing import COMBINED_BYTES, D_BYTES, D_TEXT, PROPERTY_BYTES, PROPERTY_TEXT, RULE_BYTES, RULE_LETTERS, RULE_TEXT
from testing import STAYS_BYTES, TOOLS, TWO_BYTES, expect, run
import command_line
import fahkelo
import fahkelo_card as card
from fahkelo import Kind

SCRIPT = os.path.join(TOOLS, "fahkelo")
FAHKELO = [sys.executable, SCRIPT]
FILES = {
    "D": D_BYTES, "D.txt": D_TEXT.encode(), "H": H_BYTES, "TWO": TWO_BYTES, "STAYS": STAYS_BYTES, "MILLION": MILLION,
    "RULE": RULE_BYTES, "LETTERS": RULE_LETTERS, "PROPERTY": PROPERTY_BYTES, "RULE.txt": RULE_TEXT.encode(),
    "PROPERTY.txt": PROPERTY_TEXT.encode(), "D.names": b"0 take the order in\n1 ask\n2 ask\n3 store \xc3\xa4\n",
    "NONE": encode(next(random_models())._replace(rows=[[]] * 9, marks=set(), start=0, second=None, stays=False)),
}


class Desk:
    """A folder with the example files, in which commands are run."""

    def __init__(self, folder):
        self.folder = folder
        for name, data in FILES.items():
            self.write(name, data)

    def write(self, name, data):
        """A file in the folder."""
        with open(os.path.join(self.folder, name), "wb") as file:
            file.write(data)

    def read(self, name):
        """The bytes of a file in the folder."""
        with open(os.path.join(self.folder, name), "rb") as file:
            return file.read()

    def ask(self, words, data=b"", **more):
        """Runs a command, given as a text or a list: its exit status, standard output and standard error."""
        listed = words.split() if isinstance(words, str) else words
        more = {"input": data, **more} if "stdin" not in more else more
        done = subprocess.run(FAHKELO + listed, cwd=self.folder, capture_output=True, timeout=60, **more)
        expect(f"no traceback: {words}", b"Traceback" not in done.stderr and done.returncode != 70, done.stderr)
        return done.returncode, done.stdout, done.stderr.decode()

    def shell(self, line, **more):
        """Runs a line of the shell in which $F is the command: its exit status, standard output and standard error."""
        env = {**os.environ, "F": SCRIPT}
        done = subprocess.run(["sh", "-c", line], cwd=self.folder, env=env, capture_output=True, timeout=60, **more)
        return done.returncode, done.stdout, done.stderr.decode()

    def says(self, words, status, text, data=b""):
        """A command ends with this status and prints this text."""
        got = self.ask(words, data)
        expect(f"fahkelo {words}", got == (status, text if isinstance(text, bytes) else text.encode(), ""), got)

    def json(self, words, status=0):
        """The JSON documents, one a line, that a command prints with --json."""
        code, text, error = self.ask(words if isinstance(words, list) else f"{words} --json")
        expect(f"fahkelo {words} --json", (code, error) == (status, "") and text.endswith(b"\n"), (code, text, error))
        return [json.loads(line) for line in text.decode().splitlines()]

    def refuses(self, words, number, *parts, data=b"", **more):
        """A command is refused with a number, in the words of the card, and prints nothing."""
        code, text, error = self.ask(words, data, **more)
        first = f"refused {number}: {card.entry(number).words}\n".replace("`", "")
        expect(f"fahkelo {words}", (code, text) == (2, b"") and first in error, (code, text, error))
        expect(f"fahkelo {words}", error.count("\n") <= 3 and all(part in error for part in parts), error)

    def fails(self, words, status, *parts, data=b"", **more):
        """A command fails with this status and one line that has these parts, and prints nothing."""
        code, text, error = self.ask(words, data, **more)
        expect(f"fahkelo {words}", (code, text) == (status, b"") and error.count("\n") == 1, (code, text, error))
        expect(f"fahkelo {words}", error.startswith("fahkelo") and all(part in error for part in parts), error)


def with_desk(test):
    """A test that gets a desk."""
    def tested():
        with tempfile.TemporaryDirectory() as folder:
            test(Desk(folder))

    tested.__name__ = test.__name__
    return tested


D_SHEET = "model 5 7\nrounds 1\nshortest 3\n0 | 1 3\n0 | 2 3\nend 2\n"


@with_desk
def test_commands(desk):
    """Every command and option on D, H, a file with two mark tables and a rule with a property."""
    for words, status, text in [
        ("sheet D", 0, D_SHEET),
        ("sheet TWO --table 1", 0, "model 5 7\nrounds 1\nshortest 3\n0 | 1 3\nend 1\n"),
        ("sheet D --table 1", 1, "model 5 7\nrounds 0\nnone\n"),
        ("sheet H --ceiling 2", 1, "model 7 8\nrounds 2\nnone within 2\n"),
        ("sheet H --allowance 1", 0, "model 7 8\nrounds 1\nbest 5\nstopped\n"),
        ("search D", 0, "rounds 1\nshortest 3\n0 | 1 3\n"),
        ("search H --ceiling 3 --allowance 2", 0, "rounds 2\nshortest 3\n0 5 | 6\n"),
        ("search H --allowance 0", 0, "rounds 0\nbest none\nstopped\n"),
        ("search NONE", 1, "rounds 0\nnone\n"),
        ("search D --ceiling 2", 1, "rounds 1\nnone within 2\n"),
        ("search TWO --table 1", 0, "rounds 1\nshortest 3\n0 | 1 3\n"),
        ("search STAYS", 0, "rounds 1\nshortest 2\n0 | 1\n"),
        ("runs D", 0, "0 | 1 3\n0 | 2 3\nend 2\n"),
        ("runs TWO --table 1", 0, "0 | 1 3\nend 1\n"),
        ("runs H --ceiling 2", 1, "none within 2\n"),
        ("runs NONE", 1, "none\n"),
        (["next", "D", "0 | 1 3"], 0, "0 | 2 3\n"),
        ("next D 0 | 1 3", 0, "0 | 2 3\n"),
        ("next --table 0 D 0 1 3 1", 0, "0 | 2 3\n"),
        ("next D 0 1 --table 0 3 1", 0, "0 | 2 3\n"),
        ("next D 0 2 3 2", 1, "no more\n"),
        ("next TWO 0 1 3 1 --table 1", 1, "no more\n"),
        ("step H", 0, "advanced\ndone 1\nbest 5\n"),
        ("step H --ceiling 4", 0, "advanced\ndone 1\nbest none\n"),
        ("step H --done 1 --best 5", 0, "advanced\ndone 2\nbest 3\n"),
        ("step H --done 2 --best 3", 0, "finished\ndone 2\nbest 3\n"),
        ("step D --table 1", 0, "finished\ndone 0\nbest none\n"),
        (["grade", "D", "0 | 1 3"], 0, "shortest\n"),
        ("grade D --k 1 0 1 3 1", 0, "shortest\n"),
        ("grade D 0 1 3 2 3 --k 2", 0, "accepting\n"),
        ("grade TWO 0 1 3 2 3 --k 2 --table 1", 1, "false\n"),
        ("grade D 0 3 --k 0", 1, "false\nplace 1\n"),
        ("grade D --k 0", 1, "false\n"),
        ("distances D", 0, "0 0\n1 1\n2 1\n3 2\n4 not reached\n"),
        ("distances D --ceiling 0", 0, "0 0\n1 not reached\n2 not reached\n3 not reached\n4 not reached\n"),
        ("combine RULE LETTERS PROPERTY", 0, COMBINED_BYTES),
        ("combine --text RULE.txt PROPERTY.txt", 0, COMBINED_BYTES),
        ("combine RULE LETTERS PROPERTY -o -", 0, COMBINED_BYTES),
        ("show D", 0, D_TEXT),
        ("show TWO", 0, D_TEXT + "second 1\n"),
        ("show --text RULE.txt", 0, RULE_TEXT),
        ("--version", 0, "fahkelo, interface 6\n"),
    ]:
        desk.says(words, status, text)
    desk.says("combine RULE LETTERS PROPERTY -o MODEL", 0, "written 43\n")
    expect("the file of a combination", desk.read("MODEL") == COMBINED_BYTES)
    desk.says("sheet MODEL", 0, "model 4 4\nrounds 1\nshortest 3\n0 | 2 1\nend 1\n")


@with_desk
def test_inputs(desk):
    """Texts, standard input, and names."""
    for command in ["sheet", "search", "runs", "step", "distances", "show"]:
        from_file = desk.ask(f"{command} D")
        for words, data in [("--text D.txt", b""), ("-", D_BYTES), ("- --text", FILES["D.txt"])]:
            words = f"{command} {words}"
            expect(f"fahkelo {words}", desk.ask(words, data) == from_file and from_file[0] == 0, words)
    desk.says("next --text D.txt 0 1 3 1", 0, "0 | 2 3\n")
    desk.says("grade - --text --k 1 0 1 3 1", 0, "shortest\n", FILES["D.txt"])
    desk.says("combine - LETTERS PROPERTY", 0, COMBINED_BYTES, RULE_BYTES)
    desk.says("combine RULE - PROPERTY", 0, COMBINED_BYTES, RULE_LETTERS)
    desk.says("combine --text RULE.txt -", 0, COMBINED_BYTES, FILES["PROPERTY.txt"])
    named = "take the order in | ask (1), store \u00e4\n"
    desk.says("search D --names D.names", 0, f"rounds 1\nshortest 3\n{named}")
    second = "take the order in | ask (2), store \u00e4\n"
    desk.says("sheet D --names D.names", 0, D_SHEET.replace("0 | 1 3\n", named).replace("0 | 2 3\n", second))
    desk.says("runs D --names D.names", 0, f"{named}{second}end 2\n")
    desk.says("next D 0 1 3 1 --names D.names", 0, second)
    desk.says("distances D --names D.names", 0,
              "0 0 take the order in\n1 1 ask (1)\n2 1 ask (2)\n3 2 store \u00e4\n4 not reached\n")
    desk.says("show D --names D.names", 0, D_TEXT + "# 0 take the order in\n# 1 ask\n# 2 ask\n# 3 store \u00e4\n")
    desk.says("search D --names -", 0, f"rounds 1\nshortest 3\n{named}", FILES["D.names"])
    desk.write("bad.names", b"5 no state\n")
    desk.fails("search D --names bad.names", 2, "line 1: 5 is no state")
    desk.fails("search D --names nowhere", 2, "cannot read nowhere")
    desk.fails("search D --names MILLION", 2, "is no text")
    desk.refuses("search LETTERS --names bad.names", 1)


@with_desk
def test_json(desk):
    """JSON parses, has the kinds and figures of docs/CAPI.md under their names, and the tables."""
    rows = re.findall(r"^\| (\d+) \| `(FAHKELO_\w+)` \| ([^|]*) \|", contents("docs/CAPI.md"), re.M)
    figures = {int(number): (name, words) for number, name, words in rows}
    found = {"kind": 102, "name": "FAHKELO_FOUND", "L": 3, "k": 1, "rounds": 1, "answer": [0, 1, 3, 1]}
    second = {"kind": 102, "name": "FAHKELO_FOUND", "L": 3, "k": 1, "answer": [0, 2, 3, 2]}
    none, no_more = {"kind": 103, "name": "FAHKELO_NONE_WITHIN", "rounds": 1}, {"kind": 104, "name": "FAHKELO_NO_MORE"}
    stopped = {"kind": 101, "name": "FAHKELO_STOPPED", "rounds": 1, "has_best": True, "best": 5}
    size = {"states": 5, "edges": 7}
    names = {"0": "take the order in", "1": "ask", "2": "ask", "3": "store \u00e4"}
    for words, status, wanted in [
        ("search D", 0, [found]), ("search D --names D.names", 0, [{**found, "names": names}]),
        ("search D --ceiling 2", 1, [none]), ("runs D", 0, [found, second, no_more]), ("runs D --ceiling 2", 1, [none]),
        ("runs TWO --table 1 --names D.names", 0, [{**found, "names": names}, {**no_more, "names": names}]),
        ("search H --allowance 1", 0, [stopped]),
        ("next D 0 1 3 1", 0, [second]), ("next D 0 2 3 2", 1, [no_more]),
        ("step D", 0, [{"kind": 106, "name": "FAHKELO_ADVANCED", "done": 1, "has_best": True, "best": 3}]),
        ("step D --table 1", 0, [{"kind": 105, "name": "FAHKELO_FINISHED", "done": 0, "has_best": False, "best": 0}]),
        ("grade D --k 1 0 1 3 1", 0, [{"kind": 110, "name": "FAHKELO_SHORTEST", "has_place": False}]),
        ("grade D --k 2 0 1 3 2 3", 0, [{"kind": 109, "name": "FAHKELO_ACCEPTING", "has_place": False}]),
        ("grade D --k 0 0 1 5", 1, [{"kind": 108, "name": "FAHKELO_FALSE", "has_place": True, "place": 2}]),
        ("distances D", 0, [{"kind": 107, "name": "FAHKELO_WRITTEN", "states": 5, "distances": [0, 1, 1, 2, 65535]}]),
        ("combine RULE LETTERS PROPERTY", 0,
         [{"kind": 107, "name": "FAHKELO_WRITTEN", "bytes": 43, "output": COMBINED_BYTES.hex()}]),
        ("combine RULE LETTERS PROPERTY -o M", 0, [{"kind": 107, "name": "FAHKELO_WRITTEN", "bytes": 43}]),
        ("combine --text RULE.txt PROPERTY.txt -o -", 0,
         [{"kind": 107, "name": "FAHKELO_WRITTEN", "bytes": 43, "output": COMBINED_BYTES.hex()}]),
        ("sheet D", 0, [{**found, **size, "lists": [[0, 1, 3, 1], [0, 2, 3, 2]], "more": False}]),
        ("sheet D --ceiling 2", 1, [{**none, **size, "lists": [], "more": False}]),
        ("show TWO", 0, [{**size, "start": 0, "stays": False, "rows": [[1, 2], [3], [3], [1, 2], [4]], "marks": [3, 4],
                          "second": [1]}]),
        ("show --text RULE.txt", 0, [{"states": 2, "edges": 2, "start": 0, "stays": False, "rows": [[1], [0]],
                                      "marks": [], "second": None, "letters": [0, 1]}]),
    ]:
        got = desk.json(words, status)
        expect(f"fahkelo {words} --json", got == wanted, got)
        for answer in got:
            if "kind" in answer and not words.startswith("sheet"):
                name, words_there = figures[answer["kind"]]
                keys = set(answer) - {"kind", "name", "answer", "distances", "output", "place", "names"}
                there = all(key.replace("_", " ") in words_there for key in keys)
                expect(f"the names of {name}", answer["name"] == name and there, answer)
    expect("the file beside JSON", desk.read("M") == COMBINED_BYTES)
    for kind in Kind:
        expect(f"{kind} is in docs/CAPI.md", figures[kind.value][0] == f"FAHKELO_{kind.name}")


@with_desk
def test_command_refusals(desk):
    """Every number that a command can bring about, in the words of the card."""
    for number, offset, value in [(2, 0, 0), (3, 3, 33), (4, 4, 5), (5, 6, 2), (6, 8, 25), (8, 24, 1), (9, 36, 5),
                                  (10, 36, 2), (11, 50, 56)]:
        data = bytearray(D_BYTES)
        data[offset] = value
        desk.refuses("search -", number, data=bytes(data))
    for command in ["sheet", "search", "runs", "next", "step", "grade --k 0", "distances", "combine - LETTERS PROPERTY",
                    "show", "draw"]:
        desk.refuses(command if "combine" in command else f"{command} -", 7, data=D_BYTES + b"\0")
    desk.refuses("search -", 1)
    desk.refuses("next D 0 2 3 1", 13)
    for words in ["search D --ceiling 4097", "step D --ceiling 5000", "distances D --ceiling 65535"]:
        desk.refuses(words, 21)
    desk.refuses("runs D --ceiling 9999", 21)
    for words in ["search D", "step D", "sheet D", "runs D", "draw D", "next D 0 1 3 1", "grade D --k 1 0 1 3 1"]:
        desk.refuses(f"{words} --table 2", 22)
    desk.refuses("combine RULE D PROPERTY", 16)
    desk.refuses("combine RULE LETTERS D", 17, "show-model --property FILE")
    desk.write("WIDE", encode(next(random_models())._replace(rows=[[]] * 4096, marks=set(), start=0, second=None)))
    desk.write("WIDE.letters", bytes(4096))
    desk.refuses("combine WIDE WIDE.letters PROPERTY -o M", 18)
    expect("a refused combination writes nothing", not os.path.exists(os.path.join(desk.folder, "M")))


@with_desk
def test_unreadable(desk):
    """Files that are not there, folders, files that may not be read, closed input, and texts that are no models."""
    missing = "No such file or directory"
    for path, why in [("nowhere", missing), (".", "Is a directory"), ("D/D", "Not a directory"), ("", missing)]:
        for command in ["search", "sheet", "show", "draw", "search --text"]:
            desk.refuses([*command.split(), path], 1, f"cannot read {path}: {why}")
    desk.refuses("combine RULE nowhere PROPERTY", 16, "cannot read nowhere: No such file")
    desk.refuses("combine RULE LETTERS nowhere", 17, "cannot read nowhere: No such file")
    desk.refuses("combine nowhere LETTERS PROPERTY", 1, "cannot read nowhere")
    if os.geteuid() != 0:
        os.chmod(os.path.join(desk.folder, "H"), 0)
        desk.refuses("search H", 1, "Permission denied")
    desk.refuses("search -", 1, "cannot read standard input", preexec_fn=lambda: os.close(0))
    got = desk.shell('"$F" search - <.')
    expect("a folder as standard input", got[:2] == (2, b"") and got[2].count("\n") == 2, got)
    for text, part in [
        (b"", "empty"), (b"0 -> x", "line 1: 'x'"), (D_BYTES, "line 1"), (bytes(range(256)) * 20, "line 1"),
        (b"\xff\xfe0 -> 1", "line 1"), (FILES["PROPERTY.txt"], "line 6: masks"), (b"mark " * 10 ** 5, "line 1"),
    ]:
        for command in ["search", "show", "draw"]:
            desk.fails(f"{command} - --text", 2, "standard input: ", part, data=text)
    desk.fails("combine --text RULE.txt D.txt", 2, "D.txt: line 3: the edge 0 -> 1 has no mask")


@with_desk
def test_large_files(desk):
    """Files of 100 MB are refused, and not read: with room for 64 MB of data."""
    def little_room():
        resource.setrlimit(resource.RLIMIT_DATA, (64 << 20, 64 << 20))

    for name, data in [("zeros", b""), ("long", D_BYTES), ("text", b"0 -> 1\n# " + b"x" * 1000)]:
        desk.write(name, data)
        os.truncate(os.path.join(desk.folder, name), 100 * 10 ** 6)
    for words, number in [("search zeros", 2), ("search long", 7), ("combine long LETTERS PROPERTY", 7),
                          ("combine RULE long PROPERTY", 16), ("combine RULE LETTERS zeros", 17), ("draw long", 7)]:
        desk.refuses(words, number, preexec_fn=little_room)
    for words in ["search --text text", "combine --text RULE.txt zeros", "search D --names zeros"]:
        desk.fails(words, 2, "more than 4194304 bytes", preexec_fn=little_room)
    with open(os.path.join(desk.folder, "long"), "rb") as source:
        desk.refuses("search -", 7, stdin=source, preexec_fn=little_room)


@with_desk
def test_wrong_words(desk):
    """Wrong words end with status 64 and one line."""
    for words in [
        "", "D", "seek D", "search", "search D D", "search D --names", "search D --table", "search D --seek", "--seek",
        "search D --ceiling -1", "search D --ceiling 70000", "search D --ceiling x", "search D --allowance 1.5",
        "search D --table \u0663", "search D --tab 1", "step D --done 65536", "step D --best none", "grade D 0 1 3 1",
        "grade D 0 | 1 3 --k 1", "grade D 0 | 1 | 3", "grade D 0 |", "grade D --k 70000 0", "next D 0 -1", "next D 0 x",
        "next D 0 65536", "next D 0 99999999999999999999", "runs D --allowance 1", "distances D --table 0",
        "show D --json=1",
        "combine RULE", "combine RULE LETTERS", "combine RULE LETTERS PROPERTY D", "combine - - PROPERTY",
        "combine --text RULE.txt LETTERS PROPERTY.txt", "combine RULE LETTERS PROPERTY -o RULE", "draw D --json",
        "draw D --dot --svg", "draw D -o D",
    ]:
        desk.fails(words, 64)
    desk.fails(["draw", "D", "--title", " "], 64, "the title is empty")
    for words in (["draw", "D", "-o", ""], ["search", "D", "--names", ""], ["search", "-", "--names", "-"]):
        desk.fails(words, 64, data=D_BYTES)
    desk.fails(["search", "D", "--ceiling", "\udcff"], 64)
    for words in (["no\nword"], ["search", "D", "--no\nword"], ["search", "D", "--table", "no\nword"]):
        desk.fails(words, 64, "no?word")
    desk.refuses(["search", "no\nword"], 1, "cannot read no?word: ")
    desk.fails("search -- D -D", 64)
    expect("nothing was written over", desk.read("RULE") == RULE_BYTES and desk.read("D") == D_BYTES)


@with_desk
def test_names_with_dashes(desk):
    """After -- a name may start with a dash, and - is standard input all the same."""
    desk.write("-D", D_BYTES)
    desk.write("--text", RULE_BYTES)
    found = "rounds 1\nshortest 3\n0 | 1 3\n"
    for words in ["search -- -D", "search --table 0 -- -D"]:
        desk.says(words, 0, found)
    desk.says("search -- -", 0, found, D_BYTES)
    desk.says("next -- -D 0 1 3 1", 0, "0 | 2 3\n")
    desk.says("combine -- --text LETTERS PROPERTY", 0, COMBINED_BYTES)
    desk.refuses("search -- -nowhere", 1, "-nowhere: No such file")
    expect("the title of a page", b"The shortest runs of -D<" in desk.ask("draw -- -D")[1])


@with_desk
def test_messages(desk):
    """The exit status is the same if standard error is full or closed, and nothing goes to standard output instead."""
    for words, status in [("search nowhere", 2), ("search D --table 2", 2), ("search --text D", 2), ("seek", 64),
                          ("search D --seek", 64), ("grade D 0", 64), ("search D --names nowhere", 2),
                          ("combine RULE nowhere PROPERTY", 2), ("draw D -o nowhere/page", 69)]:
        for end in ["2>/dev/full", "2>&-"]:
            got = desk.shell(f'"$F" {words} {end}')
            expect(f"fahkelo {words} {end}", got == (status, b"", ""), got)


@with_desk
def test_outputs(desk):
    """What -o names: links stay, standard output has the bytes alone, and its reader may go away."""
    os.symlink("/proc/self/fd/1", os.path.join(desk.folder, "stdout"))
    page = desk.ask("draw D")[1]
    for name in ["stdout", "/dev/stdout", "/dev/fd/1"]:
        desk.says(f"draw D -o {name}", 0, page)
        desk.says(f"combine RULE LETTERS PROPERTY -o {name}", 0, COMBINED_BYTES)
        expect("JSON with the bytes", desk.json(f"combine RULE LETTERS PROPERTY -o {name}")[0]["bytes"] == 43)
        got = desk.shell(f'echo first > log; "$F" combine RULE LETTERS PROPERTY -o {name} >> log')
        expect("a file that is added to", got == (0, b"", "") and desk.read("log") == b"first\n" + COMBINED_BYTES, got)
        got = desk.shell(f'{{ "$F" draw D -o {name}; echo $? >&2; }} | true')
        expect("the reader of -o goes away", got == (0, b"", "0\n"), got)
    expect("the link stays", os.path.islink(os.path.join(desk.folder, "stdout")))
    got = desk.shell('mkfifo pipe; head -c 1 pipe & "$F" draw D -o pipe')
    expect("the reader of a pipe goes away", got == (0, b"<", ""), got)
    os.symlink("MODEL", os.path.join(desk.folder, "link"))
    for _ in range(2):
        desk.says("combine RULE LETTERS PROPERTY -o link", 0, "written 43\n")
    linked = os.path.islink(os.path.join(desk.folder, "link"))
    expect("a link and its file", desk.read("MODEL") == COMBINED_BYTES and linked)
    left = [name for name in os.listdir(desk.folder) if name.endswith(".part")]
    expect("no part is left", left == [], left)


@with_desk
def test_streams_that_do_not_wait(desk):
    """Standard input and output that do not wait are waited for."""
    for pieces, status in [([b""], 2), ([D_BYTES], 0), ([D_BYTES[:20], D_BYTES[20:]], 0)]:
        source, end = os.pipe()
        os.set_blocking(source, False)
        words = [*FAHKELO, "search", "-"]
        with subprocess.Popen(words, stdin=source, stdout=subprocess.PIPE, stderr=subprocess.PIPE) as process:
            os.close(source)
            for piece in pieces:
                time.sleep(0.2)
                os.write(end, piece)
            os.close(end)
            got = process.communicate(timeout=60)
        expect("input that does not wait", process.returncode == status and b"fault" not in got[1], got)
    source, end = os.pipe()
    os.set_blocking(end, False)
    words = [*FAHKELO, "runs", "MILLION"]
    with subprocess.Popen(words, cwd=desk.folder, stdout=end, stderr=subprocess.PIPE) as process:
        os.close(end)
        time.sleep(0.5)
        with open(source, "rb") as lines:
            got = [next(lines) for _ in range(3000)]
        expect("output that does not wait", (process.wait(60), process.stderr.read()) == (0, b""))
    expect("all lines are there", len(set(got)) == 3000 and all(line.endswith(b" | 41\n") for line in got))


@with_desk
def test_starting(desk):
    """Ctrl-C while it starts ends it quietly or is ignored; its modules are those beside it."""
    for tenths in range(40, 340, 10):
        with subprocess.Popen([SCRIPT, "search", "D"], cwd=desk.folder, stdout=subprocess.PIPE,
                              stderr=subprocess.PIPE) as process:
            time.sleep(tenths / 10000)
            process.send_signal(signal.SIGINT)
            got = process.communicate(timeout=60)
        expect(f"Ctrl-C after {tenths / 10} ms", process.returncode in (0, -signal.SIGINT) and got[1] == b"", got)
    expect("PYTHONSAFEPATH", desk.ask("search D", env={**os.environ, "PYTHONSAFEPATH": "1"})[0] == 0)


@with_desk
def test_one_search(desk):
    """The runs, and the sheet, are asked for with one search."""
    asked, call = [], fahkelo._call
    fahkelo._call = lambda name, *more: asked.append(name) or call(name, *more)
    path = os.path.join(desk.folder, "D")
    try:
        for name in ("runs", "sheet"):
            words = command_line.parser_of(name).parse_intermixed_args([path])
            list(command_line.COMMANDS[name].run(words)[1])
    finally:
        fahkelo._call = call
    expect("one search", asked == ["fahkelo_search", "fahkelo_next", "fahkelo_next"] * 2, asked)


@with_desk
def test_readers(desk):
    """A reader that goes away, a listing that is cut short, Ctrl-C, and output that cannot be written."""
    run_of_million = [*FAHKELO, "runs", "MILLION"]
    for words in (run_of_million, [*run_of_million, "--json"]):
        with subprocess.Popen(words, cwd=desk.folder, stdout=subprocess.PIPE, stderr=subprocess.PIPE) as process:
            lines = [process.stdout.readline() for _ in range(3)]
            process.stdout.close()
            error = process.stderr.read()
            expect("the reader goes away", (process.wait(60), error) == (0, b""), error)
        expect("three lines", len(set(lines)) == 3 and all(line.endswith(b"\n") for line in lines), lines)
    with subprocess.Popen(run_of_million, cwd=desk.folder, stdout=subprocess.PIPE, stderr=subprocess.PIPE) as process:
        process.stdout.readline()
        process.send_signal(signal.SIGINT)
        expect("Ctrl-C", process.wait(60) == -signal.SIGINT and process.stderr.read() == b"")
    with open("/dev/full", "wb") as full:
        words = [*FAHKELO, "search", "D"]
        done = subprocess.run(words, cwd=desk.folder, stdout=full, stderr=subprocess.PIPE, timeout=60)
        said = b"fahkelo: standard output: No space left on device\n"
        expect("no room", (done.returncode, done.stderr) == (69, said), done)
    desk.fails("draw D -o nowhere/page.html", 69, "cannot write nowhere/page.html")
    desk.fails("combine RULE LETTERS PROPERTY -o nowhere/model", 69, "cannot write nowhere/model")
    for words in ("--help", "search --help"):
        read, end = os.pipe()
        os.close(read)
        done = subprocess.run([*FAHKELO, *words.split()], stdout=end, stderr=subprocess.PIPE, timeout=60)
        os.close(end)
        expect(f"{words} that nobody reads", (done.returncode, done.stderr) == (0, b""), done)


@with_desk
def test_no_library(desk):
    """Without the library one line says so; help is there all the same."""
    env = {**os.environ, "FAHKELO_LIBRARY": "/nowhere/libfahkelo.so"}
    desk.fails("search D", 69, "/nowhere/libfahkelo.so", env=env)
    expect("help without the library", desk.ask("search --help", env=env)[0] == 0)


@with_desk
def test_drawing(desk):
    """A page is that of draw-sheet; by table 1 it has the runs of table 1; it can come from a text."""
    desk.says("draw D -o page.html", 0, "")
    page = desk.read("page.html")
    expect("the two runs", page.count(b'class="says"') == 2 and b"The shortest runs of D" in page)
    if os.path.exists(PROGRAM):
        for words in ["D", "D --svg", "D --dot", "H --title x", "D --names D.names"]:
            pieces = words.split()
            sheet = run(["draw-sheet", os.path.join(desk.folder, pieces[0]), *pieces[1:]], cwd=desk.folder)
            expect(f"draw {words}", desk.ask(f"draw {words}") == sheet and sheet[0] == 0, words)
    code, table, _ = desk.ask("draw TWO --table 1 --title x")
    expect("a page by table 1", code == 0 and table.count(b'class="says"') == 1 and b"marked: 1." in table)
    code, none, _ = desk.ask("draw NONE")
    expect("a page without a run", code == 1 and none.startswith(b"<!DOCTYPE html>"))
    code, text, _ = desk.ask("draw - --text", FILES["D.txt"])
    expect("a page from a text", code == 0 and b"The shortest runs of standard input" in text)


def played(folder, text):
    """Runs the lines of a text that start with a prompt, and compares what follows each with what it prints."""
    env = {**os.environ, "PATH": os.pathsep.join([folder, os.environ["PATH"]])}
    count = 0
    for part in re.split(r"^\$ ", text, flags=re.M)[1:]:
        command, _, wanted = part.partition("\n")
        done = subprocess.run(["sh", "-c", command], cwd=folder, env=env, capture_output=True, text=True, timeout=60)
        expect(command, done.stdout + done.stderr == wanted and done.returncode < 64, (done, wanted))
        count += 1
    return count


def worked_example():
    """The commands of docs/COMMANDS.md and what they print: the blocks that start with a prompt."""
    blocks = re.findall(r"(?:^    .*\n)+", contents("docs/COMMANDS.md"), re.M)
    return "".join(re.sub("^    ", "", block, flags=re.M) for block in blocks if block.startswith("    $ "))


def lay_scripts(desk):
    """The scripts under their names in the folder."""
    for name in ["fahkelo", "make-model", "show-model", "draw-sheet"]:
        os.symlink(os.path.join(TOOLS, name), os.path.join(desk.folder, name))


@with_desk
def test_help(desk):
    """Each command has a help with its options and an example that prints what it says; the manual names them all."""
    lay_scripts(desk)
    manual = contents("docs/man/fahkelo.1").replace("\\-", "-")
    for name, command in command_line.COMMANDS.items():
        code, text, error = desk.ask(f"{name} --help")
        told = b"example:\n  fahkelo " in text and b"exit status" in text
        expect(f"{name} --help", (code, error) == (0, "") and told, text)
        example = re.sub("^  ", "", command.example, flags=re.M) + "\n"
        expect(f"the example of {name}", played(desk.folder, re.sub("^fahkelo", "$ fahkelo", example, flags=re.M)) > 0)
        expect(f"{name} in the manual", f"\n.B {name}\n" in manual or f"\n.BR {name} " in manual, name)
        for option in re.findall(r"--\w+|-o\b", text.decode()):
            expect(f"{option} in the manual", option in manual, option)
    code, text, error = desk.ask("--help")
    named = all(f"\n  {name} " in text.decode() for name in command_line.COMMANDS)
    expect("fahkelo --help", (code, error) == (0, "") and named, text)


@with_desk
def test_worked_example(desk):
    """Each command of docs/COMMANDS.md prints what the page says."""
    lay_scripts(desk)
    expect("the commands of the page", played(desk.folder, worked_example()) > 8)
    expect("the picture", desk.read("archive.svg").startswith(b"<svg"))


@with_desk
def test_sheets(desk):
    """The sheets of random models, and of some with 20 lists, more and none, are those of the desk sheet program."""
    if not os.path.exists(PROGRAM):
        return
    twenty, more = ([list(range(1, n + 1)), *[[n + 1]] * n, [n + 1]] for n in (20, 21))
    models = [Model(0, rows, {len(rows) - 1}) for rows in (twenty, more)] + list(random_models())[:8]
    for data in [*map(encode, models), MILLION, H_BYTES, TWO_BYTES, STAYS_BYTES, FILES["NONE"]]:
        program = subprocess.run([PROGRAM], input=data, capture_output=True, timeout=60).stdout
        code, text, _ = desk.ask("sheet -", data)
        expect("a sheet", text == program and code == (1 if program.endswith(b"none\n") else 0), (text, program))
        if program.splitlines()[-1].startswith(b"end"):
            lists = b"".join(program.splitlines(True)[3:])
            expect("the lists of a sheet", desk.ask("runs -", data)[1] == lists, program)


COMMAND_TESTS = [
    test_commands, test_inputs, test_json, test_command_refusals, test_unreadable, test_large_files, test_wrong_words,
    test_names_with_dashes, test_messages, test_outputs, test_streams_that_do_not_wait, test_starting, test_one_search,
    test_readers, test_no_library, test_drawing, test_help, test_worked_example, test_sheets,
]
