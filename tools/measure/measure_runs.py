"""Measures runs: instructions of the whole program on each scene, counted by callgrind.

usage: measure_runs.py PROGRAM SCENE[,TIMETABLE[,COMMANDS]][=INSTRUCTIONS] ..

Runs `PROGRAM run SCENE ..` under `valgrind --tool=callgrind` for each input and prints a row of the scene's name,
the lines of its history, the instructions, those of a line, those of reading and compiling the scene, and the
ones in the C library's `write`; and, behind a scene with a number of instructions to compare with, the ratio.
What the system does in a write is not counted.
"""

import pathlib
import sys

from instructions import counted_by_function, inclusive


def measure(program, files):
    """The lines, the instructions, those of reading and compiling, and those of `write`."""
    history, whole, listing = counted_by_function([program, "run", *files])
    return history.count("\n"), whole, *(inclusive(listing, it) for it in ("::read_plant", r"/write\.c:write"))


def main(program, *scenes):
    print("| Scene | Lines | Instructions | A line | Scene | `write` | Ratio |")
    print("|---|---|---|---|---|---|---|")
    for it in scenes:
        names, _, mark = it.partition("=")
        files = names.split(",")
        lines, whole, reading, writing = measure(program, files)
        ratio = f"{whole / int(mark):.1f}" if mark else ""
        each = f"{lines:,} | {whole:,} | {whole // lines:,} | {reading:,} | {writing:,}"
        print(f"| {pathlib.Path(files[0]).stem} | {each} | {ratio} |")


if __name__ == "__main__":
    main(*sys.argv[1:])
