# Where the refusal card, the desk sheet program and the shared library are: in the repository, or where `make install`
# has put them, the scripts and the card side by side in share/fahkelo.
# A convenience outside the proofs: nothing in crates/ uses it.
import os

HERE = os.path.dirname(os.path.realpath(__file__))
INSTALLED = os.path.exists(os.path.join(HERE, "REFUSALS.md"))
# In the repository this file is in tools, and its copy in bindings/python.
TOP = os.path.join(HERE, ".." if os.path.exists(os.path.join(HERE, "../docs/REFUSALS.md")) else "../..")


def place(in_repository, installed):
    """One of two paths: as seen from the top of the repository, and from this folder where it is installed."""
    return os.path.normpath(os.path.join(HERE, installed) if INSTALLED else os.path.join(TOP, in_repository))


CARD = place("docs/REFUSALS.md", "REFUSALS.md")
PROGRAM = place("target/bin/desk_sheet", "../../bin/desk_sheet")
LIBRARIES = place("target/lib", "../../lib")
