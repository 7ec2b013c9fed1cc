#!/usr/bin/env python3
"""Measures what proposals of other ways cost beside a run, in instructions.

usage: measure_reroutings.py PROGRAM SCENE ..

PROGRAM is the built program, as crates/rail/out/rail. Each scene is run, and the list says where its trains stand after the
first half of the lines. Each proposal is what the first train inside has left, so that it has a list for answer.
`valgrind --tool=callgrind` counts the instructions of the whole process: of the run, and of `reroute` with no proposal, with
one and with a hundred. Printed is a row for each scene, as docs/PERFORMANCE.md has it: what one and a hundred cost more, and
the ratio of a hundred to the run.
"""

import pathlib
import sys
import tempfile
import tomllib

from instructions import counted


def middle(history):
    """How many moves each train has made after the first half of the lines."""
    lines = history.splitlines()
    made = {}
    for line in lines[: len(lines) // 2]:
        words = line.split()
        if words[1] == "admit":
            made[words[2]] = int(words[3])
    return made


def main():
    if len(sys.argv) < 3:
        sys.exit(__doc__)
    program = pathlib.Path(sys.argv[1]).resolve()
    print("| Scene | `run` | No proposal | One more | A hundred more | Ratio to the run |")
    print("|---|---|---|---|---|---|")
    for scene in map(pathlib.Path, sys.argv[2:]):
        history, run = counted([program, "run", scene])
        made = middle(history)
        ways = {train["name"]: train["routes"] for train in tomllib.loads(scene.read_text())["train"]}
        inside = next(train for train, place in made.items() if place < len(ways[train]))
        proposal = " ".join([inside, *ways[inside][made[inside] :]]) + "\n"
        counts = []
        with tempfile.TemporaryDirectory() as folder:
            places, proposals = pathlib.Path(folder) / "places", pathlib.Path(folder) / "proposals"
            places.write_text("".join(f"at {train} {place}\n" for train, place in made.items()))
            for count in (0, 1, 100):
                proposals.write_text(proposal * count)
                counts.append(counted([program, "reroute", scene, places, proposals])[1])
        more = counts[2] - counts[0]
        print(f"| {scene.stem} | {run:,} | {counts[0]:,} | {counts[1] - counts[0]:,} | {more:,} | {more / run:.2f} |", flush=True)


if __name__ == "__main__":
    main()
