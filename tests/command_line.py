"""The command line of a test."""

import argparse
import os
import sys

ROOT = os.path.realpath(os.path.join(os.path.dirname(os.path.realpath(__file__)), ".."))


def from_1(text):
    """A number on a command line that is 1 or more: of 0 scripts, turns or processes nothing
    would be tried."""
    if not (text.isascii() and text.isdecimal() and int(text) > 0):
        raise argparse.ArgumentTypeError(f"no number from 1: {text}")
    return int(text)


class CommandLine(argparse.ArgumentParser):
    """Reads the words of a test before it does anything. `--help` prints the test's page; a word
    that the test doesn't know ends it with status 2, and with one line on standard error, which
    names that word and those that the test takes."""

    def __init__(self, page):
        super().__init__(
            prog=os.path.relpath(os.path.realpath(sys.argv[0]), ROOT),
            description=page,
            allow_abbrev=False,
            formatter_class=argparse.RawDescriptionHelpFormatter,
        )

    def parse_args(self):
        """The words, of which options may stand anywhere between the others."""
        return self.parse_intermixed_args()

    def error(self, message):
        self.exit(2, f'{self.prog}: {message}; {" ".join(self.format_usage().split())}\n')

    def need_program(self, path, builder=""):
        """The whole path of a program, by which it is found from any folder. Refuses one that no
        program stands at; tells what builds one."""
        if not os.access(path, os.X_OK) or os.path.isdir(path):
            self.error(f"no such program: {path}" + (builder and f" ({builder} builds one)"))
        return os.path.abspath(path)
