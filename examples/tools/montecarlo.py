#!/usr/bin/env python3
"""Runs a timetable many times with drawn delays at the entries, and tells how punctual the trains are at their last calls.

usage: montecarlo.py SCENE TIMETABLE RUNS [MEAN [SEED]]

In each run each train is late at its entry by a time drawn from the exponential distribution with this MEAN in seconds
(default 120), from a generator that begins with SEED (default 1). So the same words print the same lines. A train is
made late by two commands, `stop` before its entry and `go` once the delay is over. The last call of a train is the one of
TIMETABLE with the greatest place. The program is $RAIL, or else `rail`.

Printed are the mean delay that was drawn, the mean delay at the last calls, the share of these below six minutes, and the
delay below which 50, 80, 90, 95 and 99 percent of them are, in seconds.
"""

import csv
import os
import random
import subprocess
import sys
import tempfile
import tomllib

RAIL = os.environ.get("RAIL", "rail")
PUNCTUAL = 360  # seconds


def seconds(text):
    hours, minutes, rest = text.split(":")
    return 3600 * int(hours) + 60 * int(minutes) + float(rest)


def clock(time):
    return f"{time // 3600:02}:{time // 60 % 60:02}:{time % 60:02}"


def commands(delays, ready):
    """The command file by which the trains are so late: each is stopped from the first second on until it may be ready."""
    lines = [(1, f"stop {train}") for train, delay in delays.items() if delay]
    lines += [(int(ready[train] + delay), f"go {train}") for train, delay in delays.items() if delay]
    return "".join(f"{clock(time)} {line}\n" for time, line in sorted(lines))


def lateness(scene, timetable, text, last):
    """How late the trains are at their last calls in a run with these commands, in seconds."""
    with tempfile.NamedTemporaryFile("w", suffix=".cmd") as file:
        file.write(text)
        file.flush()
        ran = subprocess.run([RAIL, "report", scene, timetable, file.name], capture_output=True, text=True)
    if ran.returncode:
        sys.exit(ran.stderr)
    calls = [line.split() for line in ran.stdout.splitlines() if line.startswith("call ")]
    late = [words[10 if words[6] == "-" else 6] for words in calls if last[words[1]] == int(words[2])]
    return [int(it) / 10 for it in late if it != "-"]


def main():
    if not 4 <= len(sys.argv) <= 6:
        sys.exit(__doc__)
    scene, timetable, runs = sys.argv[1], sys.argv[2], int(sys.argv[3])
    mean, seed = (sys.argv[4:] + ["120", "1"][len(sys.argv) - 4:])[:2]
    draw = random.Random(int(seed))
    with open(scene, "rb") as file:
        plant = tomllib.load(file)
    with open(timetable, newline="") as file:
        last = {}
        for row in csv.DictReader(file):
            last[row["train"]] = max(int(row["place"]), last.get(row["train"], 0))
    # A train is ready so long before its entry as its portal's setting, watching and approach take.
    ahead = {portal["name"]: (portal["setting"] + portal["watching"] + portal["approach"]) / 10 for portal in plant["portal"]}
    begins = {route["name"]: ahead.get(route["from"], 0) for route in plant["route"]}
    ready = {train["name"]: seconds(train["entry"]) - begins[train["routes"][0]] for train in plant["train"]}
    drawn, late = [], []
    for _ in range(runs):
        delays = {train: int(draw.expovariate(1 / float(mean))) for train in ready}
        drawn += delays.values()
        late += lateness(scene, timetable, commands(delays, ready), last)
    late.sort()
    print(f"runs {runs} calls {len(late)} drawn {sum(drawn) / len(drawn):.0f} late {sum(late) / len(late):.0f}")
    print(f"punctual {100 * sum(it < PUNCTUAL for it in late) / len(late):.1f}")
    for share in (50, 80, 90, 95, 99):
        print(f"percentile {share} {late[min(len(late) - 1, share * len(late) // 100)]:.0f}")


main()
