"""What the command lines of the tools share: options that stand once, their numbers and words, the version, and names of
files to write."""

import argparse
import os
import re
import sys

from survey_file import Refused, read_bytes
from table_file import NUMBER

ROOT = os.path.dirname(os.path.dirname(os.path.realpath(__file__)))
MOST_U32 = 2 ** 32 - 1


class Once(argparse.Action):
    """An option with a value. The last of two values would win without a word, so the second is refused."""

    def __call__(self, parser, namespace, value, option=None):
        given = namespace.__dict__.setdefault("given", set())
        if option and self.dest in given:
            parser.error("%s stands twice; leave one of them out" % option)
        given.add(self.dest)
        setattr(namespace, self.dest, value)


def options_once(parser):
    """Makes every option with a value one that stands once."""
    parser.register("action", None, Once)


class Version(argparse.Action):
    """The option that prints the version, as ./listing --version does."""

    def __init__(self, option_strings, dest, **rest):
        super().__init__(option_strings, argparse.SUPPRESS, nargs=0, **rest)

    def __call__(self, parser, *_):
        if sys.stdout is None:
            parser.exit(1, "%s: standard output: it is closed\n" % parser.prog)
        try:
            print(read_bytes(os.path.join(ROOT, "VERSION")).decode().strip())
        except Refused as refused:
            parser.error(str(refused))
        parser.exit()


def check_named(parser, option, name):
    """That a file to be written has a name of its own."""
    if name == "":
        parser.error("%s '': an empty name is that of no file; name one" % option)
    if name == "-":
        parser.error("%s -: nothing is written to standard output; name a file (one called - is ./-)" % option)


# What an option takes


def number(text):
    """The f64 nearest to a decimal number; ValueError for any other text."""
    if not NUMBER.fullmatch(text):
        raise ValueError(text)
    return float(text)


def numbers(text):
    try:
        found = tuple(number(part.strip()) for part in text.split(","))
    except ValueError as error:
        raise argparse.ArgumentTypeError("%r is not a number; write one to three with commas between" % str(error))
    if len(found) > 3:
        raise argparse.ArgumentTypeError("%d numbers, but at most 3 axes" % len(found))
    return found


def words(text):
    found = [part.strip() for part in text.split(",")]
    if "" in found or len(found) > 3:
        raise argparse.ArgumentTypeError("%r: give one to three columns with commas between" % text)
    return found


def whole(text):
    if not re.fullmatch("[0-9]+", text) or int(text) > MOST_U32:
        raise argparse.ArgumentTypeError("%r is not a whole number from 0 to %d" % (text, MOST_U32))
    return int(text)
