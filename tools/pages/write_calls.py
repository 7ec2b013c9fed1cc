#!/usr/bin/env python3
"""Writes docs/CALLS.md, the table of the public calls, from the sources, or checks it.

usage: write_calls.py [--check] REPOSITORY

The part of the page above its line `<!-- the list -->` is kept. Below it stands, crate by crate as in crates.txt, each
public function with code: what it asks of its caller, how it answers where it does not do what it is for, and by which of
its clauses it is known when that comes, what is left then and else, and what it gives. Crates of tests, of worked examples
and of laws have none. The status is 1 with --check where the page is not what would be written; then nothing is written.
"""

import argparse
import pathlib
import re
import sys

sys.path.insert(0, str(pathlib.Path(__file__).resolve().parent))
from rail_sources import LINE_COMMENT, RETURNED, closing  # noqa: E402

MARK = "<!-- the list -->"
CALL = re.compile(r"^( *)(pub )?(?:const )?fn (\w+)", re.M)
OWNER = re.compile(r"^(?:pub )?(?:impl(?:<[^{]*?>)?\s+(?:([\w:]+)(?:<[^{]*?>)?\s+for\s+)?([\w:]+)|(?:pub )trait (\w+))[^{;]*\{", re.M)
CLAUSE = re.compile(r"\s*(ensures|requires|decreases)\*?\s*(?:(\w+)\s*)?(?=\{)|\s*(?:ghost \w+:)\s*(?=\{)")
REFUSAL = re.compile(r"\b(?:IsErr|IsErrOf|OnErr|Err|IsOk|IsNone|IsSome|None)\b|\.Usage\b|≡ false")
REFUSED = re.compile(r"refus|fail|fault(?!s)|too_large|out_of_memory|unknown|usage")
LEFT = re.compile(r"\.new\b")


def owners(text):
    """The blocks of a file in which calls stand: begin, end, the type or trait, and whether a trait is implemented."""
    for at in OWNER.finditer(text):
        yield at.start(), closing(text, at.end() - 1), (at[2] or at[3]).split("::")[-1], bool(at[1])


def clauses_at(text, place):
    """The clauses of the function whose arguments end at this place: kind, name and text."""
    returned = RETURNED.match(text, place)
    place = returned.end() if returned else place
    found = []
    while clause := CLAUSE.match(text, place):
        place = closing(text, clause.end())
        found.append((clause[1], clause[2] or "", text[clause.end() + 1:place - 1]))
    return found, text[place:].lstrip()


def refuses(returned):
    """How a call with this result answers where it does not do what it is for."""
    told = returned.replace("->", "").strip()
    if error := re.match(r"(?:io::)?Result<.*?(?:, (\w+))?>$", told, re.S):
        return f"`{error[1] or 'Error'}`"
    if told.startswith("Option<"):
        return "`None`"
    return {"bool": "`false`", "Status": "`Status`"}.get(told, "")


def calls_of(path):
    """The public calls of a file: name, what it asks, how it refuses, and its clauses by what they say."""
    text = LINE_COMMENT.sub("", path.read_text())
    blocks = list(owners(text))
    for at in CALL.finditer(text):
        inside = [it for it in blocks if it[0] < at.start() < it[1]]
        owner, is_trait = (inside[-1][2], text[inside[-1][0]:].startswith("pub trait")) if inside else ("", False)
        if not at[2] and not is_trait:
            continue
        place = at.end()
        place = closing(text, place) if text[place] == "<" else place
        end = closing(text, place)
        returned = RETURNED.match(text, end)
        clauses, body = clauses_at(text, end)
        if not text[place + 1:end - 1].strip() and re.match(r"\{\s*\}", body):
            continue  # a law
        yield f"{owner}::{at[3]}" if owner else at[3], clauses, refuses(returned[0] if returned else "")


def names(clauses):
    return ", ".join(f"`{name}`" if name else "the one clause" for name, _ in clauses)


def row(name, clauses, refused):
    asked = [(called, text) for kind, called, text in clauses if kind == "requires"]
    told = [(called, text) for kind, called, text in clauses if kind == "ensures"]
    when = [it for it in told if refused and (REFUSED.search(it[0]) or REFUSAL.search(it[1]))]
    left = [it for it in told if it not in when and LEFT.search(it[1])]
    rest = [it for it in told if it not in when and it not in left]
    return f"| `{name}` | {names(asked)} | {refused} | {names(when)} | {names(left)} | {names(rest)} |"


def written(repository, above):
    lines, count = [above + MARK], 0
    for line in (repository / "crates.txt").read_text().splitlines():
        crate = line.split(":")[0].strip()
        if line.startswith("#") or not crate or re.search(r"^rail_tests_|_laws_|^rail_worked|_rules$|^rail$|_rows$", crate):
            continue
        rows = []
        for path in sorted((repository / "crates" / crate / "src").rglob("*.rt")):
            if "tests" not in path.parts:
                rows += [row(*call) for call in calls_of(path)]
        if rows:
            count += len(rows)
            lines += ["", f"## `{crate}`", "", "| Call | Asks | Refuses by | When | What is left | What it gives |",
                      "|---|---|---|---|---|---|", *rows]
    return "\n".join(lines) + "\n", count


def main():
    parser = argparse.ArgumentParser(description=__doc__, formatter_class=argparse.RawDescriptionHelpFormatter)
    parser.add_argument("--check", action="store_true")
    parser.add_argument("repository", type=pathlib.Path)
    arguments = parser.parse_args()
    page = arguments.repository / "docs/CALLS.md"
    old = page.read_text() if page.exists() else MARK
    new, count = written(arguments.repository, old.split(MARK)[0])
    if arguments.check:
        if new != old:
            print("CALLS.md is not what the sources say")
        sys.exit(new != old)
    page.write_text(new)
    print(f"{count} calls")


if __name__ == "__main__":
    main()
