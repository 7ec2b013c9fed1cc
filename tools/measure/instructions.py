"""The instructions that a command takes, counted by valgrind's callgrind; what the system does in a call is not counted."""

import pathlib
import re
import subprocess
import sys
import tempfile


def run(words, counts="/dev/null", **how):
    """Runs the command, and gives how it ended and how many instructions it took; `counts` is the file of the single functions."""
    valgrind = ["valgrind", "--tool=callgrind", f"--callgrind-out-file={counts}"]
    ran = subprocess.run([*valgrind, *map(str, words)], capture_output=True, text=True, errors="replace", **how)
    collected = re.search(r"Collected : (\d+)", ran.stderr)
    if not collected:
        sys.exit(f"{' '.join(map(str, words))}: {ran.stderr[-500:]}")
    return ran, int(collected[1])


def counted(words, **how):
    """What the command prints, and its instructions; a command that fails ends the script."""
    ran, count = run(words, **how)
    if ran.returncode:
        sys.exit(f"{' '.join(map(str, words))}: {ran.stderr.splitlines()[-1]}")
    return ran.stdout, count


def counted_by_function(words):
    """What the command prints, its instructions, and a listing of its functions for `inclusive`."""
    with tempfile.TemporaryDirectory() as folder:
        counts = pathlib.Path(folder) / "counts"
        printed, count = counted(words, counts=counts)
        annotate = ["callgrind_annotate", "--inclusive=yes", "--threshold=100", counts]
        return printed, count, subprocess.run(annotate, capture_output=True, text=True, check=True).stdout


def inclusive(listing, function):
    """The instructions of the function of this name, a pattern, with all that it calls; 0 where none has it, as where it was inlined."""
    counts = re.findall(rf"^\s*([\d,]+) \([ \d.]+%\)\s+\S*?(?:{function})(?![\w'])", listing, re.M)
    return max((int(it.replace(",", "")) for it in counts), default=0)
