#!/usr/bin/env python3
"""Measures reports on runs: instructions of the whole program, beside those of the run, counted by callgrind.

usage: measure_reports.py PROGRAM SCENE[,TIMETABLE[,COMMANDS]] ..

For each input `run`, `stairs`, `report` and `capacity` are counted under `valgrind --tool=callgrind`; the capacity study
is of all sections of the scene in the whole time of the history. It prints a row of the scene's name, the lines of the
history, the instructions of each command, and their ratios to the run.
"""

import pathlib
import re
import sys

from instructions import counted

NAME = re.compile(r'^name = "([^"]+)"$', re.M)


def sections_of(scene):
    """The names of the sections, with commas between them."""
    items = pathlib.Path(scene).read_text().split("[[")
    return ",".join(NAME.search(item)[1] for item in items if item.startswith("section]]"))


def measure(program, files):
    """The lines of the history, and the instructions of the run and of each report."""
    history, run = counted([program, "run", *files])
    line = ["capacity", sections_of(files[0]), "00:00:00", "9999:00:00"]
    reports = [counted([program, *words, *files])[1] for words in (["stairs"], ["report"], line)]
    return history.count("\n"), run, reports


def main(program, *inputs):
    print("| Scene | Lines | Run | Stairs | Ratio | Report | Ratio | Capacity | Ratio |")
    print("|---|---|---|---|---|---|---|---|---|")
    for files in inputs:
        files = files.split(",")
        lines, run, reports = measure(program, files)
        each = " | ".join(f"{it:,} | {it / run:.2f}" for it in reports)
        print(f"| {pathlib.Path(files[0]).stem} | {lines:,} | {run:,} | {each} |", flush=True)


if __name__ == "__main__":
    main(*sys.argv[1:])
