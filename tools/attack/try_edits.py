#!/usr/bin/env python3
"""Tries the edits that the gate does not try: those of crates/NAME/must-fail/tried.md.

usage: try_edits.py REPOSITORY [CRATE ..]

Each of these edits stands under a heading `## NAME`, in lines `file:`, `old:` and `new:` as a file *.edit has them. The
script copies the repository, writes them there in place of the edits of the gate, runs `rt must-fail` crate by crate,
which begins with what `rt check` kept on this machine, and removes the copy. For each edit it prints whether the prover
refused it, did not refuse it, or could not try it (bad), and below that what `rt` said. Without a CRATE it goes through
all crates that have the file. The status is 0 where all were refused, else 1.
"""

import argparse
import pathlib
import re
import shutil
import subprocess
import sys
import tempfile

TRIED = pathlib.Path("must-fail", "tried.md")
REFUSED = "refused, as it must be"
NOT_REFUSED = "NOT REFUSED"


def edits_of(text):
    """The edits of a page by their names, each as the lines of its file."""
    edits, name = {}, None
    for line in text.split("\n"):
        if line.startswith("## "):
            name = line.removeprefix("## ").strip()
            if name in edits or not re.fullmatch(r"[A-Za-z0-9_-]+", name):
                sys.exit(f"an edit is named twice, or by no name: {name}")
            edits[name] = []
        elif name is not None and line.startswith(("file: ", "old: ", "new:")):
            edits[name].append(line)
    return edits


def copy(repository, to):
    """Copies what `rt` reads of the repository, without the edits of the gate and without what was built."""
    for name in ("crates.txt", "HANDLES"):
        if (repository / name).exists():
            shutil.copy(repository / name, to)
    shutil.copytree(repository / "crates", to / "crates", ignore=shutil.ignore_patterns("out", "must-fail"))


def try_crate(copied, crate, edits):
    """Prints what each edit of the crate came to, and returns how many were refused."""
    folder = copied / "crates" / crate / "must-fail"
    folder.mkdir()
    for name, lines in edits.items():
        (folder / f"{name}.edit").write_text("\n".join(lines) + "\n")
    ran = subprocess.run(["rt", "must-fail", crate], cwd=copied, stdout=subprocess.PIPE, stderr=subprocess.STDOUT, text=True, errors="replace")
    shutil.rmtree(folder)
    refused = 0
    for name in edits:
        said = ran.stdout.partition(f"must-fail {crate}/{name}.edit: ")[2].split("\n", 1)[0]
        if said.startswith(REFUSED):
            came_to = "refused"
            refused += 1
        else:
            came_to = "not refused" if said.startswith(NOT_REFUSED) else "bad"
        print(f"{crate} {name}: {came_to}", flush=True)
        print(f"    {said or ran.stdout[-600:]}", flush=True)
    return refused


def main():
    parser = argparse.ArgumentParser(description=__doc__, formatter_class=argparse.RawDescriptionHelpFormatter)
    parser.add_argument("repository", type=pathlib.Path)
    parser.add_argument("crates", nargs="*", metavar="CRATE")
    asked = parser.parse_args()
    crates = asked.repository / "crates"
    names = asked.crates or sorted(path.parents[1].name for path in crates.glob(f"*/{TRIED}"))
    pages = {name: edits_of((crates / name / TRIED).read_text()) for name in names}
    refused = 0
    with tempfile.TemporaryDirectory(prefix="try-edits-") as room:
        copied = pathlib.Path(room)
        copy(asked.repository, copied)
        for name, edits in pages.items():
            refused += try_crate(copied, name, edits)
    tried = sum(len(edits) for edits in pages.values())
    print(f"{tried} tried, {refused} refused")
    return 0 if tried == refused else 1


if __name__ == "__main__":
    sys.exit(main())
