"""What the tools that take a map of `compile --map` have in common: the words of their options, and the rows of a map (docs/IMAGE.md)."""
import pathlib
import re
import sys

CANNOT_READ, WRONG_WORDS = 6, 9
ROW = re.compile(
    r"function [0-9a-f]{8} [0-9a-f]{8} frame \d+ \w+"
    r"|(?:parameter|local) [0-9a-f]{8} (?:x\d+|\d+) (?:int|unsigned|char|address|fat) \d+:\d+ \d+:\d+ \w+(?: .*)?"
    r"|line [0-9a-f]{8} \d+:\d+|(?:raise|call) [0-9a-f]{8} \d+:\d+ \w+|(?:stack|data|pointer) [0-9a-f]{8}"
)


def stop(why, status):
    """Says why nothing is done, and exits with the status."""
    print(why, file=sys.stderr)
    sys.exit(status)


def taken(words, options):
    """The words without these options, and the values of each. Exits where an option has no value, as the program does."""
    rest, values, at = [], {name: [] for name in options}, 0
    while at < len(words):
        name, equals, value = words[at].partition("=")
        if name not in options:
            rest.append(words[at])
        elif equals or at + 1 < len(words):
            at += not equals
            values[name].append(value if equals else words[at])
        else:
            stop(f"error: a value is required for '{name} <FILE>' but none was supplied\n\nFor more information, try '--help'.", WRONG_WORDS)
        at += 1
    return rest, values


def rows_of(path):
    """The rows of the map in a file, each as its words. Exits where it can't be read, or is no map."""
    try:
        rows = pathlib.Path(path).read_text(errors="replace").splitlines()
    except OSError:
        stop(f"cannot read {path}", CANNOT_READ)
    if not rows or not rows[0].startswith("function ") or not all(map(ROW.fullmatch, rows)):
        stop(f"cannot read {path}: it is no map", CANNOT_READ)
    return [row.split(" ") for row in rows]
