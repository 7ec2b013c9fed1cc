#!/usr/bin/env python3
"""Prints the commands of a run that changed nothing, each with its line in the command file, and why where it can be seen.

usage: untold.py HISTORY COMMANDS

HISTORY is what `rail run` prints for these commands. A line of it `TIME untold NUMBER` tells of a command by its number; empty
lines and comments of COMMANDS count for none. The commonest cause is a misspelt policy.
"""

import sys

POLICIES = ("priority", "timetable", "fcfs", "rotating")


def commands(path):
    """The commands of a file in their order, each with its line."""
    with open(path) as file:
        for number, line in enumerate(file, 1):
            if (words := line.split()) and not words[0].startswith("#"):
                yield number, words


def why(words):
    if words[1] in ("policy", "retire") and words[2] not in POLICIES:
        return f"; {words[2]} is none of {', '.join(POLICIES)}"
    return ""


def main():
    if len(sys.argv) != 3:
        sys.exit(__doc__)
    told = list(commands(sys.argv[2]))
    with open(sys.argv[1]) as history:
        for line in history:
            time, kind, *rest = line.split()
            if kind == "untold":
                number, words = told[int(rest[0]) - 1]
                print(f"{time} line {number}: {' '.join(words[1:])}{why(words)}")


main()
