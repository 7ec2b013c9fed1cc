#!/usr/bin/env python3
"""Measures the slowest inputs that are known, form by form: instructions, how they grow, and the memory that is taken.

usage: measure_slowest.py PROGRAM [ROW]

PROGRAM is the built program, as crates/rail/out/rail. Each input is made at a size and at twice that size; `valgrind
--tool=callgrind` counts the instructions of the whole process, and the operating system tells the most memory that it held.
The growth is the power of the size to which the instructions of both agree, what the program takes without the input
taken off; 1.00 is linear. Printed is a row of a table each, as docs/PERFORMANCE.md has it. ROW is a part of the name of a row.
"""

import contextlib
import math
import pathlib
import subprocess
import sys
import tempfile

from instructions import run
from measure_compiling import scene

POST = "setting = 10\nwatching = 10\napproach = 100\n"
KIND = '[[kind]]\nname = "R"\nlength = 90\nspeed = 90\nstart = 100\nstop = 50\n'


def one_train():
    """A scene of one section row and one train of one move."""
    section = '[[section]]\nname = "X"\nkind = "plain"\nlength = 1000\nspeed = 90\njoints = ["a", "b"]\n'
    portals = "".join('[[portal]]\nname = "%s"\njoint = "%s"\n%s' % (name, joint, POST) for name, joint in (("W", "a"), ("E", "b")))
    route = '[[route]]\nname = "r"\nfrom = "W"\nto = "E"\npath = ["a", "X", "b"]\n'
    train = '[[train]]\nname = "A"\nkind = "R"\nentry = "00:02:00"\nroutes = ["r"]\n'
    return "version = 1\nrelease = 20\n" + section + portals + route + KIND + train


def root_keys(count):
    return ["run", "S"], {"S": "".join("k%d = 1\n" % key for key in range(count)) + one_train()}


def undone(count):
    path = " ".join("j%d X%d" % (x, x) for x in range(8))
    return ["edit", "S", "E"], {"S": scene(1), "E": "add route q West S1 %s j8\n" % path + "undo\nredo\n" * count}


def fresh_lines(count):
    return ["check", "S", "-", "-", "H"], {"S": one_train(), "H": "00:01:48.0 admit A 1 fresh A*8192\n" * count}


def far_commands(count):
    return ["run", "S", "-", "C"], {"S": one_train(), "C": "".join("%02d:%02d:00 go A\n" % (3 + k // 60, k % 60) for k in range(count))}


def listed_moves(count):
    return ["play", "S", "L"], {"S": one_train(), "L": "move A\n" * count}


def proposals(count):
    way = " ".join("r%d" % leg for leg in range(1, 64))
    return ["reroute", "S", "L", "P"], {"S": scene(2), "L": "at T0 1\n", "P": ("T0 %s\n" % way) * count}


def wrong_calls(count):
    calls = "".join("T%d,%d,,,\n" % (k % 100, k // 100 + 1) for k in range(count + 1))
    return ["run", "S", "T"], {"S": scene(100), "T": "train,place,arrival,departure,dwell\n" + calls + "T0,1,,,\n"}


# the name of the row, the input of a size, and the lesser of two sizes
ROWS = [
    ("`run`: keys of the root that are none", root_keys, 4_000),
    ("`edit`: an edit undone and redone", undone, 2_000),
    ("`check`: fresh lines of 8,192 moves", fresh_lines, 256),
    ("`run`: commands far from the first event", far_commands, 512),
    ("`play`: moves of a list", listed_moves, 16_384),
    ("`reroute`: proposals of 63 routes", proposals, 100),
    ("`run`: calls of a timetable, the last one twice", wrong_calls, 3_000),
]


@contextlib.contextmanager
def written(files):
    """A folder with these files."""
    with tempfile.TemporaryDirectory() as folder:
        for name, text in files.items():
            (pathlib.Path(folder) / name).write_text(text)
        yield folder


def instructions(program, words, files):
    with written(files) as folder:
        return run([program, *words], cwd=folder)[1]


def memory(program, words, files):
    """The most memory that the program held, in kilobytes."""
    with written(files) as folder:
        timed = ["/usr/bin/time", "-f", "%M", str(program), *words]
        return int(subprocess.run(timed, cwd=folder, capture_output=True, text=True, errors="replace").stderr.splitlines()[-1])


def main():
    if len(sys.argv) < 2:
        sys.exit(__doc__)
    program = pathlib.Path(sys.argv[1]).resolve()
    print("| Input | Size | Bytes | Instructions | Growth | Memory, KB |")
    print("| --- | --- | --- | --- | --- | --- |")
    for name, made, size in ROWS:
        if len(sys.argv) > 2 and sys.argv[2] not in name:
            continue
        words, files = made(0)
        least = instructions(program, words, files)
        counts = []
        for count in (size, 2 * size):
            words, files = made(count)
            counts.append(instructions(program, words, files))
        growth = math.log2((counts[1] - least) / (counts[0] - least))
        size_in_bytes = sum(map(len, files.values()))
        print(f"| {name} | {2 * size:,} | {size_in_bytes:,} | {counts[1]:,} | {growth:.2f} | {memory(program, words, files):,} |", flush=True)


if __name__ == "__main__":
    main()
