"""The crates by storeys, as crates.txt tells them: what tools/draw-house and tools/list-crates share.

A storey begins with a line `# == Name ==`, and the comment under it says what the storey is. The comment before a crate says
what the crate is. A convenience outside the proofs.
"""
import os
import re
from collections import namedtuple

ROOT = os.path.join(os.path.dirname(os.path.abspath(__file__)), "..")

Storey = namedtuple("Storey", "name words crates")
# `below`: the crates of this repository that it depends on, in their order.
Crate = namedtuple("Crate", "name words below")


def storeys():
    """The storeys in their order, lowest first."""
    found, known, comment = [], set(), ""
    with open(os.path.join(ROOT, "crates.txt"), encoding="utf-8") as text:
        for line in map(str.strip, text):
            heading, row = re.match(r"# == (.*) ==$", line), re.match(r"([a-z_0-9]+)(?: staticlib)?:(.*)$", line)
            if heading:
                found.append(Storey(heading[1], "", []))
            elif row:
                found[-1].crates.append(Crate(row[1], comment, [name for name in row[2].split() if name in known]))
                known.add(row[1])
            elif line.startswith("#") and found:
                comment = (comment + " " + line.lstrip("# ")).strip()
                continue
            elif comment and not found[-1].crates:
                found[-1] = found[-1]._replace(words=comment)
            comment = ""
    return found


def sources(crate):
    """The files of a crate's code: name and text."""
    folder = os.path.join(ROOT, "crates", crate, "src")
    files = {}
    for name in sorted(os.listdir(folder)):
        with open(os.path.join(folder, name), encoding="utf-8") as file:
            files[name] = file.read()
    return files


def keep(path, made, words):
    """Writes what was made into a file, or with `--check` says whether it stands there; answers the exit status."""
    tool = os.path.basename(words[0])
    if words[1:] not in ([], ["--check"]):
        print(f"usage: tools/{tool} [--check]")
        return 2
    where = os.path.join(ROOT, path)
    if not words[1:]:
        with open(where, "w", encoding="utf-8") as file:
            file.write(made)
        return 0
    with open(where, encoding="utf-8") as file:
        same = file.read() == made
    print(f"{path} ok" if same else f"{path} is not what tools/{tool} makes: run it")
    return 0 if same else 1
