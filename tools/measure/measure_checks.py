#!/usr/bin/env python3
"""Measures checks of histories: instructions of the whole program, beside those of the run, counted by callgrind.

usage: measure_checks.py PROGRAM SCENE[,TIMETABLE[,COMMANDS]] ..

For each input the history is written by `PROGRAM run`, and then checked by `PROGRAM check`, both under
`valgrind --tool=callgrind`. It prints a row of the scene's name, the lines of the history, the instructions of the
run, those of the check, and their ratio. A check that does not answer `yes` ends the script.
"""

import pathlib
import sys
import tempfile

from instructions import counted


def measure(program, files):
    """The lines of the history, and the instructions of its run and of its check."""
    files = (files + ["-", "-"])[:3]
    history, run = counted([program, "run", *files])
    with tempfile.TemporaryDirectory() as folder:
        file = pathlib.Path(folder) / "history"
        file.write_text(history)
        answer, check = counted([program, "check", *files, file])
    if answer != "yes\n":
        sys.exit("%s: %r" % (files[0], answer))
    return history.count("\n"), run, check


def main(program, *inputs):
    print("| Scene | Lines | Run | Check | Ratio |")
    print("|---|---|---|---|---|")
    for it in inputs:
        lines, run, check = measure(program, it.split(","))
        print(f"| {pathlib.Path(it.split(',')[0]).stem} | {lines:,} | {run:,} | {check:,} | {check / run:.2f} |")


if __name__ == "__main__":
    main(*sys.argv[1:])
