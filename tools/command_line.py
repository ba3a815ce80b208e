# The command line of tools/fahkelo: the words of each command, its help with an example, the exit status, and what is
# said if something is wrong. Nothing that is typed or piped ends in a traceback.
# A convenience outside the proofs: nothing in crates/ uses it.
import argparse
import sys
from typing import Any, Callable, Iterable, List, NamedTuple

import commands
import fahkelo
from commands import ANSWERED, FAULT, REFUSED, UNAVAILABLE, WRONG_WORDS, Said, Unreadable, WrongWords, number, text_of
from fahkelo import BadText, NoLibrary, Refused
from modelfile import say, send

STATUS = """exit status: 0 a run, or another answer; 1 none, no more, or false; 2 refused, with the number and the
words on standard error, or a text that is no model; 64 wrong words on the command line; 69 no library, or no
room to write; 70 a fault of this program."""


class Command(NamedTuple):
    """A command: what it does, what is said about it, its options, and an example with what that prints."""

    run: Callable[[argparse.Namespace], Said]
    about: str
    options: str
    example: str


COMMANDS = {
    "sheet": Command(
        commands.run_sheet,
        "the desk sheet: the size of the model, the rounds, the length, and at most 20 shortest runs",
        "table ceiling allowance names text json",
        "  fahkelo sheet D\n  model 5 7\n  rounds 1\n  shortest 3\n  0 | 1 3\n  0 | 2 3\n  end 2"),
    "search": Command(
        commands.run_search, "the first shortest run in dictionary order", "table ceiling allowance names text json",
        "  fahkelo search D --ceiling 2\n  rounds 1\n  none within 2"),
    "runs": Command(
        commands.run_runs, "all shortest runs, each as soon as it is found; JSON has one object a line",
        "table ceiling names text json", "  fahkelo runs D\n  0 | 1 3\n  0 | 2 3\n  end 2"),
    "next": Command(
        commands.run_next, "the shortest run after one that was found before", "list table names text json",
        "  fahkelo next D '0 | 1 3'\n  0 | 2 3\n  fahkelo next D 0 2 3 2\n  no more"),
    "step": Command(
        commands.run_step, "one round, from the record of the rounds before it", "done best table ceiling text json",
        "  fahkelo step D\n  advanced\n  done 1\n  best 3\n"
        "  fahkelo step D --done 1 --best 3\n  finished\n  done 1\n  best 3"),
    "grade": Command(
        commands.run_grade, "whether a list is a run, and a shortest one, and the place where it leaves the model",
        "list k table text json",
        "  fahkelo grade D '0 | 1 3'\n  shortest\n  fahkelo grade D --k 0 0 1 5\n  false\n  place 2"),
    "distances": Command(
        commands.run_distances, "how far each state is from the initial one, a line for each",
        "ceiling names text json",
        "  fahkelo distances D\n  0 0\n  1 1\n  2 1\n  3 2\n  4 not reached"),
    "combine": Command(
        commands.run_combine,
        "a model file of a rule and a property: RULE LETTERS PROPERTY, or with --text RULE PROPERTY",
        "files output text json",
        "  fahkelo combine RULE LETTERS PROPERTY -o MODEL\n  written 43"),
    "show": Command(
        commands.run_show, "the model as text", "names text json",
        "  fahkelo show D\n  states 5\n  start 0\n  0 -> 1 2\n  1 -> 3\n  2 -> 3\n  3 -> 1 2\n  4 -> 4\n  mark 3 4"),
    "draw": Command(
        commands.run_draw, "the runs of the sheet as a page to print", "output title form table names text",
        "  fahkelo draw D -o D.html --names D.names --title 'The shortest runs'"),
}


class Parser(argparse.ArgumentParser):
    """A parser whose wrong words end in one line and exit status 64, and whose help is written like all output."""

    def error(self, message: str) -> Any:
        say(f"{self.prog}: {message} ({self.prog} --help)")
        sys.exit(WRONG_WORDS)

    def print_help(self, file: Any = None) -> None:
        written([self.format_help()])


def parser_of(name: str) -> Parser:
    """The parser of a command."""
    command = COMMANDS[name]
    epilog = f"example:\n{command.example}\n\n{STATUS}"
    parser = Parser(
        prog=f"fahkelo {name}", description=f"Prints {command.about}.", epilog=epilog, allow_abbrev=False,
        formatter_class=argparse.RawDescriptionHelpFormatter)
    parser.add_argument("model", metavar="MODEL", help="the model file; - is standard input")
    for option in command.options.split():
        add_option(parser, option)
    return parser


def add_option(parser: Parser, option: str) -> None:
    """Adds one of the options, or of the words that are no options."""
    numbers = {
        "table": ("T", 0, "the mark table, 0 or 1"),
        "ceiling": ("C", fahkelo.CEILING_MOST, "what is longer does not count; 0 to 4096"),
        "allowance": ("R", fahkelo.ALLOWANCE_MOST, "at most so many rounds"),
        "done": ("N", 0, "the rounds done before; 0 if left out"),
        "best": ("L", None, "the best length so far; none if left out"),
        "k": ("K", None, "the place, counted from 0, where the loop of a list without a bar is said to start"),
    }
    if option in numbers:
        metavar, default, words = numbers[option]
        parser.add_argument(f"--{option}", type=number, default=default, metavar=metavar, help=words)
    elif option == "names":
        parser.add_argument("--names", metavar="NAMES", help="a text of lines '3 store the file again'")
    elif option == "text":
        parser.add_argument("--text", action="store_true", help="MODEL is a text, as make-model reads it")
    elif option == "json":
        parser.add_argument("--json", action="store_true", help="print JSON, with the names of docs/CAPI.md")
    elif option == "list":
        parser.add_argument("list", nargs="*", metavar="STATE", help="the list: '0 | 1 3', or all its states, 0 1 3 1")
    elif option == "files":
        parser.add_argument("files", nargs="*", metavar="FILE", help="the letter table, and the property file")
    elif option == "output":
        parser.add_argument("-o", metavar="FILE", help="what is written; standard output if left out")
    elif option == "title":
        parser.add_argument("--title", metavar="TEXT", help="the title; made from the name of the file if left out")
    elif option == "form":
        instead = parser.add_mutually_exclusive_group()
        instead.add_argument("--dot", action="store_true", help="Graphviz text of the model and its first run instead")
        instead.add_argument("--svg", action="store_true", help="the pictures and sentences as one SVG instead")


def overview() -> str:
    """What fahkelo --help prints."""
    width = max(map(len, COMMANDS))
    lines = ["usage: fahkelo COMMAND MODEL ..", "", "Asks the proved library one question about a model file."]
    lines += ["", "commands:"]
    lines += [f"  {name:{width}}  {command.about}" for name, command in COMMANDS.items()]
    lines += ["", "fahkelo COMMAND --help has the options of each, and an example.", "", STATUS]
    return text_of(lines)


def written(pieces: Iterable[Any]) -> None:
    """Writes texts or bytes to standard output, each at once. If the reader goes away that is the end, quietly."""
    try:
        for piece in pieces:
            send(1, piece if isinstance(piece, bytes) else piece.encode("utf-8", "replace"))
    except BrokenPipeError:
        pass


def without_dashes(words: List[str]) -> List[str]:
    """The words without `--`; a name that starts with - after it is written so that it is taken for no option."""
    place = words.index("--") if "--" in words else len(words)
    names = [f"./{word}" if word.startswith("-") and word != "-" else word for word in words[place + 1:]]
    return words[:place] + names


def asked(words: List[str]) -> int:
    """Carries out the command that the words are, and gives its exit status."""
    if words[:1] in (["-h"], ["--help"]):
        written([overview()])
        return ANSWERED
    if words[:1] == ["--version"]:
        written([f"fahkelo, interface {fahkelo.INTERFACE}\n"])
        return ANSWERED
    if not words or words[0] not in COMMANDS:
        what = f"'{words[0][:40]}' is no command" if words else "no command is named"
        say(f"fahkelo: {what}: {', '.join(COMMANDS)} (fahkelo --help)")
        return WRONG_WORDS
    parser = parser_of(words[0])
    try:
        status, pieces = COMMANDS[words[0]].run(parser.parse_intermixed_args(without_dashes(words[1:])))
    except WrongWords as wrong:
        parser.error(str(wrong))
    written(pieces)
    return status


def main(words: List[str]) -> int:
    """The exit status of a command line. Whatever goes wrong is said in a line or two on standard error."""
    try:
        return asked(words)
    except Refused as refused:
        say(str(refused), refused.remedy)
        return REFUSED
    except Unreadable as unreadable:
        say(str(Refused(unreadable.number)), f"fahkelo: {unreadable}")
        return REFUSED
    except BadText as bad:
        say(f"fahkelo: {bad}")
        return REFUSED
    except NoLibrary as missing:
        say(f"fahkelo: {missing}")
        return UNAVAILABLE
    except OSError as error:
        say(f"fahkelo: {error.filename or 'standard output'}: {error.strerror}")
        return UNAVAILABLE
    except Exception as fault:  # without this the exit status would be 1, which says "none"
        say(f"fahkelo: a fault of this program: {type(fault).__name__}: {fault}")
        return FAULT
