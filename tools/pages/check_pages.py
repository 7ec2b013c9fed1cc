#!/usr/bin/env python3
"""Compares the pages with the tree, and says nothing unless one of them is wrong.

usage: check_pages.py REPOSITORY

Looked at are all files *.md of the repository but those of folders `must-fail` and `out`:

- docs/DEFINITIONS.md and docs/WORKING_WORDS.md are what `write_definitions.py` would write, docs/CALLS.md what
  `write_calls.py` would, and the files of share/ what `write_manual.py` would;
- each relative link leads to a file, and to a heading where it names one;
- each `crates/..`, `docs/..`, `examples/..` and `tools/..` between backquotes is there;
- counts that a page names are those of the tree: `N crates in all`, `N wrong bodies`, `N edits have to fail`, `N rows of the top
  call`, `N proofs of crates and of tests`, `N commands of the pages`, `N commands of examples/README.md`;
- the minutes of the gate stand in docs/ARCHITECTURE.md, whose table has a row for each crate and sums to what is told there;
  what another page tells as `N minutes of processor time` is the whole or the budget told there, and the minutes of the quick
  start are told there, too;
- each form of the program's table stands, as it is typed, in the table of words of docs/FORMATS.md, and nothing else does; a
  command of the table of README.md is a form of it;
- the newest version of CHANGELOG.md is what `rail --version` prints;
- each row of the table of keys of docs/FORMATS.md names the keys of its table in `crates/rail_scene/src/keys.rt` in their
  order, and tells the range and the default of each number;
- each change of docs/changes, a file *.patch, could be made in the tree by `git apply`, where git is there to tell;
- what `catch_alls.py`, `dead_calls.py` and `dead_lemmas.py` look for is not there: an arm or a row that takes any form or role, a
  public call that nobody makes, a lemma that nobody cites.

The status is 1 where something is wrong.
"""

import argparse
import os
import pathlib
import re
import subprocess
import sys

sys.path.insert(0, str(pathlib.Path(__file__).resolve().parent))
from catch_alls import catch_alls  # noqa: E402
from check_guide import commands_of  # noqa: E402
from dead_calls import dead_calls  # noqa: E402
from dead_lemmas import dead_lemmas  # noqa: E402
from write_manual import newest, read_forms, read_help  # noqa: E402

LEFT_OUT = {"must-fail", "out", ".git"}


def pages(repository):
    for path in sorted(repository.rglob("*.md")):
        if not LEFT_OUT & set(path.relative_to(repository).parts):
            yield path


def without_code(text):
    """The text without its blocks of code."""
    return re.sub(r"^```.*?^```", "", text, flags=re.M | re.S)


def anchor(heading):
    """The name by which a link leads to the heading."""
    return re.sub(r"[^\w\- ]", "", heading.strip().lower()).replace(" ", "-")


def anchors(path):
    return {anchor(it) for it in re.findall(r"^#+ +(.*)$", without_code(path.read_text()), re.M)}


def wrong_links(path):
    for link in re.findall(r"\]\(([^()\s]+)\)", without_code(path.read_text())):
        if re.match(r"[a-z]+:", link):
            continue
        name, _, part = link.partition("#")
        target = (path.parent / name).resolve() if name else path
        if not target.exists():
            yield f"the link {link} leads nowhere"
        elif part and part not in anchors(target):
            yield f"the link {link} names no heading"


def wrong_paths(path, repository):
    for named in re.findall(r"`((?:crates|docs|examples|tools)/[^`\s]*)`", without_code(path.read_text())):
        if "/out/" in named or re.search(r"[*<>{}]|\.\.|[A-Z]{4}", named):
            continue
        if not (repository / named).exists():
            yield f"{named} is not there"


def counts(repository):
    """What is counted: the words that stand behind the number on a page, and how many there are."""
    crates = re.findall(r"^(\w+):", (repository / "crates.txt").read_text(), re.M)
    sources = [(path.relative_to(repository).parts[1], path.read_text()) for path in repository.glob("crates/*/src/**/*.rt")]
    tested = {crate for crate, text in sources if "#[test]" in text}
    edits = len(list(repository.glob("crates/*/must-fail/*.edit")))
    tables = list(repository.glob("crates/rail_rows/data/*.rows"))
    blocks = [it for table in tables if table.stem != "witness" for it in table.read_text().split("\n== ")[1:]]
    rows = sum(not it.startswith("piece ") for it in blocks)
    shown = sum(len(list(commands_of(path.read_text()))) for path in pages(repository))
    examples = re.findall(r"^\| `(\w+) [^`]*` \|", (repository / "examples/README.md").read_text(), re.M)
    return (
        (r"crates in all", len(crates)),
        (r"proofs of crates and of (?:their )?tests", len(crates) + len(tested)),
        (r"wrong bodies", edits),
        (r"edits have to fail", edits),
        (r"rows of the top call", rows),
        (r"commands of (?:the|these|all) pages", shown),
        (r"commands of examples/README\.md", sum(verb not in ("make", "scene", "gen") for verb in examples)),
    )


def wrong_counts(path, counted):
    text = re.sub(r"\s+", " ", path.read_text())
    for words, count in counted:
        for told in re.finditer(r"([\d,]+) " + words, text):
            if told[1].replace(",", "") != str(count):
                yield f"{told[0]}: the tree has {count}"


def section_of(path, heading):
    """The text of a page below a heading of the second level."""
    return path.read_text().partition(f"\n## {heading}\n")[2].partition("\n## ")[0]


def wrong_gate(repository):
    """Where the minutes of docs/ARCHITECTURE.md are not the sums of its table, or the table has other crates than there are."""
    costs = section_of(repository / "docs/ARCHITECTURE.md", "What the gate costs")
    minutes = r"([\d.]+) minutes of processor time: ([\d.]+) of proofs, ([\d.]+) of tests, ([\d.]+) of edits, and ([\d.]+) in"
    whole = re.search(minutes, re.sub(r"\s+", " ", costs))
    if not whole:
        yield "no sentence has the minutes of the gate, of its proofs, its tests and its edits"
        return
    together, *parts = map(float, whole.groups())
    if abs(together - sum(parts)) >= 1:
        yield f"{together:g} minutes are not the {sum(parts):.1f} of their parts"
    rows = re.findall(r"^\| `(\w+)` \|([^|]*)\|([^|]*)\|([^|]*)\|$", costs, re.M)
    crates = re.findall(r"^(\w+):", (repository / "crates.txt").read_text(), re.M)
    for crate in crates:
        if crate not in [row[0] for row in rows]:
            yield f"the table of costs has no row for {crate}"
    for crate in [row[0] for row in rows if row[0] not in crates]:
        yield f"the table of costs has a row for {crate}, which is no crate"
    for kind, told, column in zip(("proofs", "tests", "edits"), parts, list(zip(*rows))[1:]):
        summed = sum(float(it) for it in column if it.strip())
        if abs(summed - told) > 0.05 * len(rows):  # each figure is rounded to a tenth
            yield f"the {kind} of the table take {summed:.1f} minutes together, not {told}"


def wrong_minutes(repository):
    """Minutes of the gate and of the quick start that are others than those of docs/ARCHITECTURE.md and tools/README.md."""
    source = repository / "docs/ARCHITECTURE.md"
    costs = re.sub(r"\s+", " ", section_of(source, "What the gate costs"))
    told = re.findall(r"(?:budget: |Together that is )([\d.,]+) minutes of processor time", costs)
    on_both = r"(\S+) minutes on four processors and (?:in )?(\S+?) (?:minutes )?on two\b"
    proved = re.search(on_both, costs)
    built = re.search(r"about (\w+) minutes", (repository / "tools/README.md").read_text().partition("build_program.sh")[2])
    for path in pages(repository):
        text, name = re.sub(r"\s+", " ", path.read_text()), path.relative_to(repository)
        for minutes in re.findall(r"([\d.,]+) minutes of processor time", text) if path != source else ():
            if minutes not in told:
                yield f"{name}: {minutes} minutes of processor time are not among those of docs/ARCHITECTURE.md: {', '.join(told)}"
        for found in re.findall(on_both, text):
            if not proved or found != proved.groups():
                yield f"{name}: {found[0]} minutes on four processors and {found[1]} on two are not told so in docs/ARCHITECTURE.md"
        for minutes in re.findall(r"build_program\.sh.{0,200}? (?:some|about) (\w+) minutes", text):
            if not built or minutes != built[1]:
                yield f"{name}: the program without proofs takes {built and built[1]} minutes by tools/README.md, not {minutes}"


def wrong_commands(repository):
    """Forms of the program's table that docs/FORMATS.md does not show as they are typed, and what is shown and is none."""
    typed = {f"{form.verb} {form.words}" for form in read_forms(repository)}
    words = section_of(repository / "docs/FORMATS.md", "Words").partition("\n| Exit status")[0]
    shown = set(re.findall(r"^\| `([a-z]+ [^`]*)`", words, re.M))
    for command in sorted(typed ^ shown):
        yield f"docs/FORMATS.md: `{command}` stands only in {'the table of forms' if command in typed else 'the table of words'}"
    for command in re.findall(r"^\| `rail ([a-z]+ [^`]*)` ", (repository / "README.md").read_text(), re.M):
        if command not in typed:
            yield f"README.md: `rail {command}` is no form"


def wrong_version(repository):
    """That the newest version of CHANGELOG.md is another than the program's."""
    number, printed = newest(repository)[0], read_help(repository).version
    if printed != f"rail {number}":
        yield f"CHANGELOG.md: the newest version is {number}, and `rail --version` prints {printed}"


def scene_keys(repository):
    """The tables of a scene file in the newest version: the keys of each in order, each with its text and, for a number, with what
    a page says of it."""
    source = (repository / "crates/rail_scene/src/keys.rt").read_text()
    limits = (repository / "crates/rail_base/src/limits.rt").read_text()
    numbers = {name: int(value) for name, value in re.findall(r"const (\w+): \w+ = ([\d_]+);", limits + source)}

    def number(term):
        named = re.fullmatch(r"(?:limits::)?([A-Z_]+)(?: as \w+)?", term)
        return numbers[named[1]] if named else int(term)

    texts = dict(re.findall(r'KeyName::(\w+) => "(\w+)"', source))
    keys = {}
    for name, key, form, required in re.findall(
        r"const (\w+): Key = Key \{\s*name: KeyName::(\w+),\s*form: KeyForm::(.*?),\s*required: (\w+),\s*\};", source, re.S
    ):
        told = []
        if bounds := re.search(r"low: (.*?),\s*high: (.*?),\s*default: (.*?),", form):
            low, high, default = map(number, bounds.groups())
            told.append(f"{low} or {high}" if low + 1 == high else f"{low:,} to {high:,}")
            if required == "false":
                told.append(f"default {default}")
        keys[name] = texts[key], told
    tables = re.findall(r"const (?!FIRST_)(\w+)_KEYS: \[Key; \w+\] =\s*\[(.*?)\];", source, re.S)
    return {name.lower(): [keys[it] for it in re.findall(r"\w+", names)] for name, names in tables}


def wrong_keys(repository):
    """Rows of the table of keys that do not name the keys of their table, or tell another range or default of one."""
    text = (repository / "docs/FORMATS.md").read_text()
    section = text.partition("\n## Scene file\n")[2].partition("\n## ")[0]
    rows = dict(re.findall(r"^\| (\w+) \| (`\w+`.*) \|$", section, re.M))
    for table, keys in scene_keys(repository).items():
        said = {}
        for clause in rows.get(table, "").split(";"):
            # What stands behind a colon or as a default is a value.
            for name in re.findall(r"`(\w+)`", re.sub(r":.*|default `\w+`", "", clause)):
                said[name] = clause
        if list(said) != [name for name, _ in keys]:
            yield f"the keys of {table} are {' '.join(name for name, _ in keys)}, not {' '.join(said)}"
            continue
        for name, told in keys:
            for words in told:
                if not said[name].endswith(" as above") and not re.search(rf"\b{words}(?![\d,]*\d)", said[name]):
                    yield f"the key {name} of {table} is {words}"


def wrong_changes(repository):
    """Worked changes, the files of docs/changes, that cannot be made in the tree any more."""
    # A repository further up would take the paths of a change for its own: `git apply` is to see this folder alone.
    alone = os.environ | {"GIT_CEILING_DIRECTORIES": str(repository.parent)}
    for path in sorted((repository / "docs/changes").glob("*.patch")):
        try:
            ran = subprocess.run(["git", "apply", "--check", path], cwd=repository, env=alone, capture_output=True, text=True)
        except FileNotFoundError:  # no git
            return
        if ran.returncode:
            yield f"{path.relative_to(repository)} cannot be made: {ran.stderr.strip()}"


def wrong_files(repository):
    """Files that are not what the scripts would write."""
    for script in ("write_definitions.py", "write_calls.py", "write_manual.py"):
        written = [sys.executable, pathlib.Path(__file__).with_name(script), "--check", repository]
        ran = subprocess.run(written, stdout=subprocess.PIPE, stderr=subprocess.STDOUT, text=True)
        if ran.returncode:
            yield f"{script}: {ran.stdout.strip()}"


def main():
    parser = argparse.ArgumentParser(description=__doc__, formatter_class=argparse.RawDescriptionHelpFormatter)
    parser.add_argument("repository", type=pathlib.Path)
    repository = parser.parse_args().repository.resolve()
    counted, wrong = counts(repository), []
    for path in pages(repository):
        name = path.relative_to(repository)
        for found in (wrong_links(path), wrong_paths(path, repository), wrong_counts(path, counted)):
            wrong += [f"{name}: {it}" for it in found]
    wrong += [f"docs/ARCHITECTURE.md: {it}" for it in wrong_gate(repository)]
    wrong += [f"docs/FORMATS.md: {it}" for it in wrong_keys(repository)]
    for look in (wrong_minutes, wrong_commands, wrong_version, wrong_changes, wrong_files, catch_alls, dead_calls, dead_lemmas):
        wrong += look(repository)
    print("\n".join(wrong), end="\n" if wrong else "")
    sys.exit(1 if wrong else 0)


if __name__ == "__main__":
    main()
