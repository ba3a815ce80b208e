# What the tests of the scripts in this folder share: example D, with one mark table and with two, a model that
# stays, an example of a combination, running a tool, and saying what fails.
# A convenience outside the proofs: nothing in crates/ uses it.
import os
import subprocess
import sys

from fahkelo_card import reason
from modelfile import Refused

TOOLS = os.path.dirname(os.path.abspath(__file__))
D_TEXT = "states 5\nstart 0\n0 -> 1 2\n1 -> 3\n2 -> 3\n3 -> 1 2\n4 -> 4\nmark 3 4\n"
D_BYTES = bytes.fromhex(
    "0500070000000000 18000000240000003200000033000000"
    "000002000300040006000700 0100020003000300010002000400 18"
)
# D with a second mark table, in which state 1 is marked: one byte more, and a total length of 52.
TWO_TEXT = D_TEXT + "second 1\n"
TWO_BYTES = D_BYTES[:20] + b"\x34" + D_BYTES[21:] + b"\2"
# A way from 0 to the marked state 1, which stays for ever.
STAYS_TEXT = "states 2\nstart 0\nstays\n0 -> 1\nmark 1\n"
STAYS_BYTES = bytes.fromhex("0200010000000100 180000001e0000002000000021000000 000001000100 0100 02")
# A rule of two states that take turns, with the letters 0 and 1; a property whose edges into its marked
# state 1 hold letter 1, the others letter 0; and the model that they give together.
RULE_TEXT = "states 2\nstart 0\n0 -> 1\n1 -> 0\nletter 0 0\nletter 1 1\n"
RULE_BYTES = bytes.fromhex("0200020000000000 180000001e0000002200000023000000 000001000200 01000000 00")
RULE_LETTERS = bytes([0, 1])
PROPERTY_TEXT = (
    "states 2\nstart 0\n0 -> 0 1\n1 -> 0 1\nmark 1\nmask 0 0 0\nmask 0 1 1\nmask 1 0 0\nmask 1 1 1\n"
)
PROPERTY_BYTES = bytes.fromhex(
    "0200040000000000 180000001e000000260000002f000000 000002000400 0000010000000100 02 0100020001000200"
)
COMBINED_BYTES = bytes.fromhex(
    "0400040000000000 18000000220000002a0000002b000000 00000100020003000400 0200020001000100 0a"
)


def run(words, data=b"", tools=TOOLS, **more):
    """Runs one tool, given as a text or a list: its exit code, standard output and standard error."""
    name, *arguments = words.split() if isinstance(words, str) else words
    outputs = {"stdout": subprocess.PIPE, "stderr": subprocess.PIPE, **more}
    done = subprocess.run([os.path.join(tools, name), *arguments], input=data, timeout=60, **outputs)
    return done.returncode, done.stdout, done.stderr.decode()


def expect(case, holds, got=""):
    """Ends the test at the first case that fails."""
    if not holds:
        print(f"failed: {case}\n{got}")
        sys.exit(1)


def made(words, data=b"", tools=TOOLS):
    """What a tool writes on good input."""
    got = run(words, data, tools)
    expect(words, got[0] == 0 and got[2] == "", got)
    return got[1]


def expect_round_trip(case, data, option=""):
    """A valid file, shown and made again with the same option, is the same file."""
    expect(f"{case}, there and back", made(f"make-model {option}", made(f"show-model {option}", data)) == data)


def expect_refused(case, words, call, *arguments):
    """A call raises Refused with these words: a number, with its reason on the card, and what is so in the file."""
    try:
        got = call(*arguments)
    except Refused as refused:
        got = refused
    number, here = words.split(": ", 1)
    start = f"refused {number}: {reason(int(number))} ({here}"
    expect(case, isinstance(got, Refused) and str(got).startswith(start), got)


def expect_failure(words, data, code, *parts, tools=TOOLS):
    """A tool fails with this code, writes nothing, and its message has these parts."""
    got = run(words, data, tools)
    case = f"{words} on {data[:80]}"
    expect(case, got[0] == code and got[1] == b"", got)
    expect(case, all(part in got[2] for part in parts) and got[2].count("\n") == 1, got)
