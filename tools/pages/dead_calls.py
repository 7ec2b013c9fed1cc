#!/usr/bin/env python3
"""Finds public calls that nobody makes.

usage: dead_calls.py [--tests] REPOSITORY

A public call is made where another file of its crate, or of a crate above, has its name: a function by itself, one that
belongs to a type by `TYPE::NAME`, and a method by `.NAME(` behind what may be of that type, by what the sources tell of fields,
parameters and results. A call that the crate does not hand on may stand in its own file alone. Laws have no caller: functions
without code, or with a sentence for a name and no argument.

Printed is each public call that is not made, and the status is 1 where there is one. With --tests, printed are those that only
crates of tests make, which is no fault.
"""

import argparse
import collections
import dataclasses
import pathlib
import re
import sys

sys.path.insert(0, str(pathlib.Path(__file__).resolve().parent))
from rail_sources import LINE_COMMENT, RETURNED, closing  # noqa: E402
from write_calls import CALL, clauses_at, owners  # noqa: E402

TESTS = re.compile(r"^rail_tests_|^rail_rows$|^rail_worked")
CLAUSES = re.compile(r"\b(?:ensures|requires|decreases|invariant)\*?\s*(?:\w+\s*)?(?=\{)")
PUBLIC = r"^(?:pub(?:\([^)]*\))? )?"
# What gives a stream of items, and never a type of a crate.
ITERATES = frozenset("iter filter map copied cloned enumerate zip take take_while skip rev chars bytes lines split matches".split())


def crates_of(repository):
    """The crates, lowest first, each with all those below it."""
    below = {}
    for name, uses in re.findall(r"^(\w+): *(.*)$", (repository / "crates.txt").read_text(), re.M):
        below[name] = set(uses.split()).union(*(below.get(it, ()) for it in uses.split()))
    return below


@dataclasses.dataclass
class Call:
    crate: str
    path: pathlib.Path
    line: int
    owner: str
    name: str
    is_method: bool
    is_trait: bool


def is_law(name, arguments, body):
    return not arguments and (re.match(r"\{\s*\}", body) is not None or name.count("_") >= 3)


def public_calls(crate, path):
    """The public functions of a file and those of its public traits, without laws."""
    text = LINE_COMMENT.sub(lambda it: " " * len(it[0]), path.read_text())
    blocks = list(owners(text))
    for at in CALL.finditer(text):
        inside = [it for it in blocks if it[0] < at.start() < it[1]]
        owner, is_trait = (inside[-1][2], text[inside[-1][0]:].startswith("pub trait")) if inside else ("", False)
        if not at[2] and not is_trait:
            continue
        place = at.end()
        place = closing(text, place) if text[place] == "<" else place
        end = closing(text, place)
        arguments = text[place + 1:end - 1].strip()
        returned = RETURNED.match(text, end)
        _, body = clauses_at(text, returned.end() if returned else end)
        if not is_law(at[3], arguments, body):
            is_method = re.match(r"(?:&(?:'\w+ )?)?(?:mut )?self\b", arguments) is not None
            yield Call(crate, path, text[:at.start()].count("\n") + 1, owner, at[3], is_method, is_trait)


def code_of(path):
    """The text of a file without comments, imports and clauses."""
    text = re.sub(r"//[^\n]*", "", path.read_text())
    text = re.sub(r"\b(?:ghost |pub )?use [^;]*;", "", text)
    kept, end = [], 0
    for at in CLAUSES.finditer(text):
        if at.start() >= end:
            kept.append(text[end:at.start()])
            end = closing(text, at.end())
    return "".join([*kept, text[end:]])


def opening(text):
    """The place of the bracket that the last one of the text closes."""
    depth = 0
    for place in range(len(text) - 1, -1, -1):
        depth += (text[place] == ")") - (text[place] == "(")
        if not depth:
            return place
    return 0


class Types:
    """The types that the sources tell of names, of fields and of what functions give: each as the words of the type."""

    def __init__(self, texts):
        self.fields, self.returned, self.aliases = collections.defaultdict(set), collections.defaultdict(set), {}
        for text in texts:
            self.aliases.update(re.findall(PUBLIC + r"type (\w+)[^=;]*=([^;]*);", text, re.M))
        for text in texts:
            for at in re.finditer(PUBLIC + r"(?:struct|enum) \w+[^{;]*\{", text, re.M):
                for name, of in re.findall(r"\b(\w+): ([^,\n]+)", text[at.end():closing(text, at.end() - 1)]):
                    self.fields[name] |= self.words_of(of)
            for at in re.finditer(r"\bfn (\w+)", text):
                place = closing(text, at.end()) if text[at.end()] == "<" else at.end()
                returned = re.match(r"\s*->([^{;]*)", text[closing(text, place):])
                self.returned[at[1]] |= self.words_of(returned[1]) if returned else set()

    def words_of(self, of):
        """The types that the words of a type name; where one is another name, those that it stands for."""
        words = set(re.findall(r"\b[A-Z]\w*", of))
        return words.union(*(self.words_of(self.aliases[it]) for it in words & set(self.aliases)))

    def of_receiver(self, text, place, blocks):
        """The types of what stands before a dot, by what is told of it; None where that tells too little."""
        before = text[:place].rstrip()
        if before.endswith(")"):
            called = re.search(r"(\w+)\s*$", before[:opening(before)])
            if not called:
                return None
            return set() if called[1] in ITERATES else self.returned.get(called[1])
        name = re.search(r"(\.\s*)?\b(\w+)$", before)
        if not name:
            return None
        if name[2] == "self":
            return {it[2] for it in blocks if it[0] < place < it[1]}
        if name[1]:
            return self.fields.get(name[2])
        here = before[before.rfind("fn "):]
        told = re.findall(rf"\b{name[2]}: ([^,;={{)]+)", here)
        told += re.findall(rf"\blet (?:mut )?{name[2]} = (?:\w+::)*([A-Z]\w*)::", here)
        return set().union(*map(self.words_of, told)) if told else None


class Calls:
    """What a file calls: its words, its paths of two names, and its methods with the types that they are called on."""

    def __init__(self, text, types):
        blocks = list(owners(text))
        self.words = set(re.findall(r"(?<!\bfn )\b[a-z_]\w*", text))
        self.paths = set(re.findall(r"\b(\w+)(?:::<[^>]*>)?(?=::(\w+))", text))
        self.methods = collections.defaultdict(list)
        for at in re.finditer(r"(?<!\.)\.\s*(\w+)(?:::<|\()", text):
            self.methods[at[1]].append(types.of_receiver(text, at.start(), blocks))

    def make(self, call):
        """Whether the file makes the call."""
        if not call.owner:
            return call.name in self.words
        named = [owner for owner, name in self.paths if name == call.name]
        if any(owner in (call.owner, "Self") or re.fullmatch(r"[A-Z]\w?", owner) for owner in named):
            return True
        for known in self.methods.get(call.name, ()) if call.is_method else ():
            if call.is_trait or known is None or call.owner in known or any(len(it) <= 2 or it == "Self" for it in known):
                return True
        return False


def exports(repository, crate):
    """The names that a crate hands on, or that stand in a module that it shows."""
    sources = repository / "crates" / crate / "src"
    shown = re.sub(r"//[^\n]*", "", "".join(path.read_text() for path in sources.glob("lib.rt")))
    names = set(re.findall(r"\w+", " ".join(re.findall(r"^pub use ([^;]*);", shown, re.M))))
    for module in re.findall(r"^pub mod (\w+);", shown, re.M):
        names |= set(re.findall(r"^pub (?:const )?(?:fn|struct|enum|trait) (\w+)", (sources / f"{module}.rt").read_text(), re.M))
    return names


def uncalled(repository):
    """The public calls that no other file makes, each with who makes it: nobody, its own file, or tests."""
    crates = crates_of(repository)
    paths = [(crate, path) for crate in crates for path in sorted((repository / "crates" / crate / "src").rglob("*.rt"))]
    texts = {(crate, path): code_of(path) for crate, path in paths}
    types = Types(texts.values())
    files = {key: Calls(text, types) for key, text in texts.items()}
    for crate in crates:
        exported = exports(repository, crate)
        seen = {key: file for key, file in files.items() if key[0] == crate or crate in crates[key[0]]}
        for own in [path for of, path in files if of == crate and path.name != "main.rt" and not TESTS.match(crate)]:
            for call in public_calls(crate, own):
                makers = {key for key, file in seen.items() if file.make(call)}
                others = {above for above, path in makers if path != own}
                if not makers or (not others and (call.owner or call.name) in exported):
                    yield call, "only its own file calls" if makers else "nobody calls"
                elif others and all(map(TESTS.match, others)):
                    yield call, "only tests call"


def dead_calls(repository, only_tests=False):
    """The public calls that are not made, or with `only_tests` those that only tests make, in words."""
    for call, who in uncalled(repository):
        if (who == "only tests call") == only_tests:
            yield f"{call.path.relative_to(repository)}:{call.line}: {who} {f'{call.owner}::{call.name}'.lstrip(':')}"


def main():
    parser = argparse.ArgumentParser(description=__doc__, formatter_class=argparse.RawDescriptionHelpFormatter)
    parser.add_argument("--tests", action="store_true", help="print those that only tests make")
    parser.add_argument("repository", type=pathlib.Path)
    asked = parser.parse_args()
    found = list(dead_calls(asked.repository.resolve(), asked.tests))
    print("\n".join(found), end="\n" if found else "")
    sys.exit(1 if found and not asked.tests else 0)


if __name__ == "__main__":
    main()
