#!/usr/bin/env python3
"""Runs the gate and tells how much processor time each crate takes of it, as the table of docs/ARCHITECTURE.md has it.

usage: measure_gate.py REPOSITORY [ARGUMENT ..]

Runs `rt ci ARGUMENT ..` at the top of the repository; `--anew` has it prove all from nothing. Four times a second the
processor time of each process below it is read from /proc, so that the last part of a second of some is missing. What
proves the tests of a crate and what tries its edits are told apart by the arguments and by the folder of the process.
What else runs, `rt` itself with it, stands in the last rows: it builds and runs the programs and the tests.

The status is that of `rt ci`; what it printed stands in the file gate.log of the folder that the script is run in.
"""

import argparse
import collections
import os
import subprocess
import sys
import time

EVERY = 0.25  # seconds
TICKS = os.sysconf("SC_CLK_TCK")
KINDS = ("Proof", "Tests", "Edits")


def read(path):
    with open(path, "rb") as file:
        return file.read()


def processes():
    """The processes that are there: by number their parents, when they began, and their processor time in seconds."""
    found = {}
    for name in os.listdir("/proc"):
        if name.isdigit():
            try:
                fields = read(f"/proc/{name}/stat").rsplit(b")", 1)[1].split()
            except OSError:  # it ended
                continue
            found[int(name)] = (int(fields[1]), int(fields[19]), (int(fields[11]) + int(fields[12])) / TICKS)
    return found


def is_below(number, top, found):
    while number in found:
        if number == top:
            return True
        number = found[number][0]
    return False


def place_of(number):
    """The row and the column of a process: a crate and what is done to it, or another program."""
    words = [word.decode(errors="replace") for word in read(f"/proc/{number}/cmdline").split(b"\0")]
    program = os.path.basename(words[1] if words[0].rpartition("/")[2].startswith("python") else words[0])
    if program != "rattle" or "--crate-name" not in words:
        return program, None
    crate = words[words.index("--crate-name") + 1]
    if "/rt-edit-" in os.readlink(f"/proc/{number}/cwd"):
        return crate, "Edits"
    return crate, "Tests" if "--test" in words else "Proof"


def sample(top, times, places):
    found = processes()
    for number, (_, began, spent) in found.items():
        key = number, began
        # A process may become another program, so one that is not known to belong to a crate is looked at again.
        if places.get(key, ("", None))[1] is None and (key in places or is_below(number, top, found)):
            try:
                places[key] = place_of(number)
            except OSError:  # it ended
                continue
        if key in places:
            times[key] = spent


def minutes(seconds):
    return f"{seconds / 60:.1f}" if seconds >= 3 else ""


def print_table(times, places):
    rows = collections.defaultdict(collections.Counter)
    rest = collections.Counter()
    for key, spent in times.items():
        name, kind = places[key]
        if kind is None:
            rest[name] += spent
        else:
            rows[name][kind] += spent
    print(f"| Crate | {' | '.join(KINDS)} | Together |")
    print("|---|---|---|---|---|")
    for name in sorted(rows):
        print(f"| `{name}` | {' | '.join(minutes(rows[name][kind]) for kind in KINDS)} | {minutes(rows[name].total())} |")
    sums = [sum(row[kind] for row in rows.values()) for kind in KINDS]
    print(f"| together | {' | '.join(map(minutes, sums))} | {minutes(sum(sums))} |")
    for name, spent in rest.most_common():
        if minutes(spent):
            print(f"| {name} | | | | {minutes(spent)} |")


def main():
    parser = argparse.ArgumentParser(description=__doc__, formatter_class=argparse.RawDescriptionHelpFormatter)
    parser.add_argument("repository")
    parser.add_argument("arguments", nargs=argparse.REMAINDER)
    asked = parser.parse_args()
    times, places = {}, {}
    begun = time.time()
    with open("gate.log", "wb") as log:
        gate = subprocess.Popen(["rt", "ci", *asked.arguments], cwd=asked.repository, stdout=log, stderr=subprocess.STDOUT)
        while gate.poll() is None:
            sample(gate.pid, times, places)
            time.sleep(EVERY)
    print_table(times, places)
    print(f"\n{(time.time() - begun) / 60:.0f} minutes by the clock")
    return gate.returncode


if __name__ == "__main__":
    sys.exit(main())
