"""What the scripts of this folder share: their command lines, and the program that they try."""
import argparse
import os
import sys

ROOT = os.path.dirname(os.path.dirname(os.path.realpath(__file__)))
BUILT = f"{ROOT}/crates/lfs/out/lfs"


class Parser(argparse.ArgumentParser):
    """A parser of a command line, which looks for the program that is tried once all words are read."""

    has_program = False

    def parse_args(self, args=None, namespace=None):
        given = super().parse_args(args, namespace)
        if self.has_program:
            given.program = existing(given.program)
        return given


def parser(description):
    """A parser of a command line, with the text of a script as its help."""
    return Parser(description=description, formatter_class=argparse.RawDescriptionHelpFormatter)


def add_program(to, default=BUILT, what="what ./install builds"):
    """Adds the program that is tried, by its path."""
    to.has_program = True
    to.add_argument("program", nargs="?", default=default, metavar="PROGRAM", help=f"the program; without one, {what}")


def existing(path):
    """The whole path of a program that can be run. Where there is none the script ends."""
    if not os.access(path, os.X_OK):
        sys.exit(f"there is no program {path}: run ./install first")
    return os.path.realpath(path)


def only_program(description):
    """The program of a command line that has nothing else."""
    words = parser(description)
    add_program(words)
    return words.parse_args().program
