#!/usr/bin/env python3
"""Runs the commands of pages and compares what the program prints with what the pages show.

usage: check_guide.py PROGRAM EXAMPLES PAGE [PAGE ..]

A page shows commands in fenced blocks of the kind `console`. A line `$ rail WORDS` is a command, also where it is
written as the command that builds the program first, `(cd crates/rail && rt try -- WORDS)`; and so is a line
`$ examples/tools/NAME WORDS`, which runs this script. The lines below it are what it prints, standard output and then
standard error; a line `...` stands for any lines. `> FILE` behind a command keeps what it prints. A fenced block `KIND FILE`
gives a file, `KIND FILE +` more lines of it, and `diff FILE` a change: lines of the file that begin with `-` there give way to
those that begin with `+`.

The commands of a page run in order in a folder of their own, in which `examples` is the folder EXAMPLES. A page without a
command is passed over. The status is 1 where a page shows something else than is printed, or no page has a command.
"""

import argparse
import os
import pathlib
import re
import shlex
import shutil
import subprocess
import sys
import tempfile

FENCE = re.compile(r"^```(.*)$")
BUILT = re.compile(r"^\(cd crates/rail && rt (?:try|run) -- (.*)\)( > .*)?$")


def blocks(text):
    """Yields the info string, the first line's number and the lines of each fenced block."""
    info, start, lines = None, 0, []
    for number, line in enumerate(text.splitlines(), 1):
        fence = FENCE.match(line)
        if fence and info is None:
            info, start, lines = fence.group(1).strip(), number + 1, []
        elif fence:
            yield info, start, lines
            info = None
        elif info is not None:
            lines.append(line)


def commands(start, lines):
    """Yields the line's number, the command and the lines shown below it."""
    at, command, shown = 0, None, []
    for number, line in enumerate(lines, start):
        if line.startswith("$ "):
            if command is not None:
                yield at, command, shown
            at, command, shown = number, line[2:], []
        elif command is not None:
            shown.append(line)
    if command is not None:
        yield at, command, shown


def commands_of(text):
    """Yields each command of a page with the line's number and the lines shown below it."""
    for info, start, lines in blocks(text):
        if info == "console":
            yield from commands(start, lines)


def words_of(command, program, folder):
    """Returns what is run, the program or a script, with its words, and the file that keeps what is printed, or None for
    other commands."""
    built = BUILT.match(command)
    if built:
        command = "rail " + built.group(1).replace("$OLDPWD/", "") + (built.group(2) or "")
    words = shlex.split(command)
    if not words or words[0] != "rail" and not words[0].startswith("examples/tools/"):
        return None
    run = program if words[0] == "rail" else str(folder / words[0])
    if len(words) > 2 and words[-2] == ">":
        return [run, *words[1:-2]], words[-1]
    return [run, *words[1:]], None


def fits(shown, printed):
    """Whether the lines are those shown, in which `...` stands for any lines."""
    if not shown:
        return not printed
    if shown[0] == "...":
        return any(fits(shown[1:], printed[skip:]) for skip in range(len(printed) + 1))
    return bool(printed) and printed[0] == shown[0] and fits(shown[1:], printed[1:])


def first_other(shown, printed):
    """Returns the first line shown that the lines printed do not have behind those before it."""
    place = 0
    for line in shown:
        if line == "...":
            continue
        if line not in printed[place:]:
            return line
        place = printed.index(line, place) + 1
    return "(more is printed than is shown)"


def write_file(folder, kind, lines):
    """Writes the file of a block, adds to it, or changes it."""
    file = folder / kind[1]
    text = "".join(line + "\n" for line in lines)
    if kind[0] == "diff":
        old = "".join(line[1:] + "\n" for line in lines if line.startswith("-"))
        new = "".join(line[1:] + "\n" for line in lines if line.startswith("+"))
        before = file.read_text(encoding="utf-8")
        if before.count(old) != 1:
            raise SystemExit(f"{kind[1]} has these lines {before.count(old)} times: {old}")
        text = before.replace(old, new)
    elif kind[2:] == ["+"]:
        text = file.read_text(encoding="utf-8") + text
    file.write_text(text, encoding="utf-8")


def check(program, examples, page):
    """Returns how many commands of the page were run, and the differences."""
    count, other = 0, []
    with tempfile.TemporaryDirectory() as folder:
        folder = pathlib.Path(folder)
        shutil.copytree(examples, folder / "examples")
        for info, start, lines in blocks(page.read_text(encoding="utf-8")):
            kind = info.split()
            if len(kind) >= 2:
                write_file(folder, kind, lines)
            if kind != ["console"]:
                continue
            for number, command, shown in commands(start, lines):
                asked = words_of(command, program, folder)
                if asked is None:
                    other.append(f"{page}:{number}: not a command of the program: {command}")
                    continue
                words, kept = asked
                ran = subprocess.run(words, cwd=folder, env=os.environ | {"RAIL": program}, capture_output=True, check=False)
                count += 1
                out = ran.stdout.decode()
                if kept:
                    (folder / kept).write_text(out, encoding="utf-8")
                    out = ""
                printed = (out + ran.stderr.decode()).splitlines()
                if not fits(shown, printed):
                    other.append(f"{page}:{number}: {command}: {first_other(shown, printed)}")
    return count, other


def main():
    sys.setrecursionlimit(100_000)
    asks = argparse.ArgumentParser(description="Runs the commands of pages and compares what is printed.")
    asks.add_argument("program", type=lambda name: str(pathlib.Path(name).resolve()))
    asks.add_argument("examples", type=pathlib.Path)
    asks.add_argument("page", type=pathlib.Path, nargs="+")
    asked = asks.parse_args()
    shown = [page for page in asked.page if any(commands_of(page.read_text(encoding="utf-8")))]
    bad = 0
    for page in shown:
        count, other = check(asked.program, asked.examples, page)
        for line in other:
            print(line)
        print(f"{page}: {count} commands, {len(other)} differences")
        bad += len(other)
    return 0 if shown and not bad else 1


if __name__ == "__main__":
    sys.exit(main())
