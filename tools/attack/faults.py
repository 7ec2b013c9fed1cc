#!/usr/bin/env python3
"""Lets calls of the program fail, one in each run: of memory, and of the system's files and standard output.

usage: faults.py PROGRAM [COUNT]

The commands are those of examples/README.md. For each of them the calls are counted, and at most COUNT of each kind fail, one
in a run of its own. A call for memory that fails ends the program with `out of memory`, one that opens or reads a file with
`read fault`, and a write with `write fault`; or nothing changes, as where what failed was only for words on standard error.
What a write fault left is a first part of the whole answer; nothing else writes anything. A call that moves one byte alone, or
is interrupted by a signal, changes nothing. A C compiler is needed, as `cc`, and a system on which a library may be loaded before others.

Printed are how many calls failed, how many of them ended the program, and each wrong answer; the exit status is 1 where one
was wrong.
"""

import os
import subprocess
import sys
import tempfile
from concurrent.futures import ThreadPoolExecutor
from pathlib import Path

import attack

HERE = Path(__file__).resolve().parent
ENDS = {"memory": 5, "open": 3, "read": 3, "write": 4}


def library(folder):
    """The library that lets calls fail, compiled in the folder."""
    made = f"{folder}/faults.so"
    subprocess.run(["cc", "-O2", "-shared", "-fPIC", "-w", "-o", made, HERE / "faults.c", "-ldl"], check=True)
    return made


def ask(program, words, **fault):
    """What the program answers where this call fails."""
    added = {f"RAIL_FAULT_{key.upper()}": str(value) for key, value in fault.items() if key != "library"}
    env = {**os.environ, "LD_PRELOAD": fault["library"], **added}
    try:
        ran = subprocess.run([*program, *words], cwd=attack.TOP, stdin=subprocess.DEVNULL, capture_output=True, timeout=attack.SECONDS, env=env)
    except subprocess.TimeoutExpired:
        return None, b"", b""
    return ran.returncode, ran.stdout, ran.stderr


def counted(program, words, made, folder, name):
    """How many calls of each kind the command makes."""
    counts = f"{folder}/{name}"
    ask(program, words, library=made, counts=counts)
    return {kind: int(number) for kind, number in map(str.split, Path(counts).read_text().splitlines())}


def chosen(most, count):
    """At most `count` of the numbers from 1 to `most`, spread over them, with the first and the last."""
    if most <= count:
        return range(1, most + 1)
    return sorted({1 + number * (most - 1) // (count - 1) for number in range(count)})


def fault_of(whole, kind, error, answer):
    """What is wrong with the answer of a run in which a call of this kind failed; nothing where it is right."""
    why = attack.fault_of(answer)
    if why:
        return why
    if answer[:2] == whole[:2]:
        return None
    if error:
        return "another answer for a call that moved one byte, or was interrupted"
    if answer[0] != ENDS[kind]:
        return f"exit status {answer[0]}"
    return None if whole[1].startswith(answer[1]) else "no first part of the answer"


def main():
    if len(sys.argv) < 2:
        sys.exit(__doc__)
    program, count = sys.argv[1].split(), int(sys.argv[2]) if sys.argv[2:] else 100
    tried = ended = wrong = 0
    with tempfile.TemporaryDirectory(prefix="rail-faults-") as folder, ThreadPoolExecutor(os.cpu_count()) as pool:
        made = library(folder)
        for number, words in enumerate(attack.commands()):
            whole = attack.ask(program, words)
            calls = counted(program, words, made, folder, number)
            cases = [(kind, at, error) for kind in ENDS for at in chosen(calls[kind], count) for error in ("", "short", "interrupt")[: 3 if kind in ("read", "write") else 1]]
            answers = pool.map(lambda case: ask(program, words, library=made, kind=case[0], at=case[1], error=case[2]), cases)
            for (kind, at, error), answer in zip(cases, answers):
                why = fault_of(whole, kind, error, answer)
                tried, ended, wrong = tried + 1, ended + (answer[0] != whole[0]), wrong + bool(why)
                if why:
                    print(f"{' '.join(words)}: call {at} of {kind} {error}: {why}")
    print(f"{tried} calls failed, {ended} of them ended the program, {wrong} wrong")
    sys.exit(wrong > 0)


if __name__ == "__main__":
    main()
