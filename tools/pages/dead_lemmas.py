#!/usr/bin/env python3
"""Finds private lemmas that nobody cites.

usage: dead_lemmas.py REPOSITORY

A private lemma is a definition of a file right in proofs/, other than CallerLemmas. It is cited where its name stands, by
the imports of the file, in the proof of a function, in a `using(..)` or a `ghost use` of a program, in what CallerLemmas
hands on, or in a lemma that is itself cited so. A lemma that only lemmas cite which nobody cites is one of those.

Printed is each of them, and the status is 1 where there is one.
"""

import argparse
import dataclasses
import pathlib
import re
import sys

sys.path.insert(0, str(pathlib.Path(__file__).resolve().parent))
from rail_specs import TOKEN  # noqa: E402

OF_FUNCTIONS = ("Answers", "Invariants", "Proof", "Lib")
WORD = r"([^\s{}()\[\],;|\"]+)"
MARKS = r" *(?:(?:abbrev|unfoldable|pub) )"
DEFINITION = re.compile(rf"{MARKS}*(?:(?:record|data|syntax|ruleset) {WORD}|{WORD} :(?: |$))|{MARKS}+{WORD} ")
IMPORT = re.compile(r"^(?:ghost )?(pub )?use ([^\s{};]*?)(?:\.\{([^}]*)\})?(?: as ([\w-]+))?;?[ \t]*$", re.M)


@dataclasses.dataclass
class Proofs:
    """A file of lemmas, or of the proof of a function: what it imports, its definitions and what stands outside of them."""

    crate: str
    module: str
    path: pathlib.Path
    imports: dict
    handed_on: set
    definitions: dict
    lines: dict
    constructors: dict
    rest: list


def imports_of(text):
    """What the names of the imports stand for, and those that are handed on."""
    found, handed_on = {}, set()
    for public, path, names, alias in IMPORT.findall(text):
        for name in filter(None, map(str.strip, names.split(","))) if names else [""]:
            name, _, own = name.partition(" as ")
            local = own or name or alias or path.split(".")[-1]
            found[local] = f"{path}.{name}" if name else path
            if public:
                handed_on.add(local)
    return found, handed_on


def read_proofs(crate, folder, path):
    text = path.read_text()
    module = ".".join(path.relative_to(folder).with_suffix("").parts)
    proofs = Proofs(crate, module, path, *imports_of(text), {}, {}, {}, [])
    if path.parent != folder or path.stem in OF_FUNCTIONS:
        proofs.rest = [line for line in text.splitlines() if not re.match(r"(pub )?use ", line)]
        return proofs
    current, is_data, in_head, indents = None, False, False, [0]
    for number, line in enumerate(text.splitlines(), 1):
        if not line.strip() or line.lstrip().startswith("--") or re.match(r"(pub )?use ", line):
            continue
        indent = len(line) - len(line.lstrip())
        if in_head or re.match(r" *(pub )?module ", line):
            # the head of a module may have several lines; what stands in it is indented further
            if not in_head:
                indents = [indent if it is None else it for it in indents if it is None or it <= indent]
            in_head = not line.rstrip().endswith("where")
            indents += [] if in_head else [None]
            proofs.rest.append(line)
            current = None
            continue
        if indents[-1] is None:
            indents[-1] = indent
        begins = DEFINITION.match(line)
        if begins and indent in indents:
            indents = indents[:indents.index(indent) + 1]
            current, is_data = next(filter(None, begins.groups())).strip("«»"), "data " in line[:begins.end()]
            proofs.definitions.setdefault(current, [])
            proofs.lines.setdefault(current, number)
        elif is_data and current and (made := re.match(r" +([^\s{}()]+(?: [^\s{}()]+)*) : ", line)):
            proofs.constructors.update(dict.fromkeys(made[1].split(), current))
        (proofs.definitions[current] if current else proofs.rest).append(line)
    return proofs


class Lemmas:
    """The proofs of all crates, and which definition cites which."""

    def __init__(self, repository):
        self.files = {}
        crates = re.findall(r"^(\w+):", (repository / "crates.txt").read_text(), re.M)
        for crate in crates:
            folder = repository / "crates" / crate / "proofs"
            for path in sorted(folder.rglob("*.antt")):
                proofs = read_proofs(crate, folder, path)
                self.files[crate, proofs.module] = proofs
        self.graph, self.roots = {}, set()
        for proofs in self.files.values():
            self.roots |= self.cited(proofs, proofs.rest)
            for name, lines in proofs.definitions.items():
                self.graph[proofs.crate, proofs.module, name] = self.cited(proofs, lines)
                if proofs.module == "CallerLemmas":
                    self.roots.add((proofs.crate, proofs.module, name))
            if proofs.module == "CallerLemmas":
                self.roots |= set(filter(None, (self.resolve(proofs.imports[it]) for it in proofs.handed_on)))
        for crate in crates:
            for path in (repository / "crates" / crate / "src").rglob("*.rt"):
                self.roots |= self.named_in(crate, path.read_text())

    def resolve(self, path, seen=()):
        """The definition that a path `Rattle.CRATE.proofs.MODULE.NAME` names, also through what is handed on."""
        parts = path.split(".")
        if parts[0] != "Rattle" or parts[2:3] != ["proofs"] or path in seen:
            return None
        for end in range(len(parts) - 1, 3, -1):
            proofs = self.files.get((parts[1], ".".join(parts[3:end])))
            if proofs:
                name = proofs.constructors.get(parts[end].strip("«»"), parts[end].strip("«»"))
                if name in proofs.definitions:
                    return proofs.crate, proofs.module, name
                return self.resolve(proofs.imports[name], (*seen, path)) if name in proofs.imports else None
        return None

    def meaning(self, proofs, word):
        """The definition that a word of the file means."""
        word = proofs.constructors.get(word, word)
        if word in proofs.definitions:
            return proofs.crate, proofs.module, word
        return self.resolve(proofs.imports[word]) if word in proofs.imports else None

    def cited(self, proofs, lines):
        """The definitions that lines of the file cite."""
        words = {it for it in TOKEN.findall("\n".join(lines)) if not it.startswith(("--", '"'))}
        parts = {part.strip("«»") for word in words for part in (word, *word.split("."))}
        found = {self.meaning(proofs, part) for part in parts}
        for word in words:
            if word.startswith("Rattle."):
                found.add(self.resolve(word))
            elif "." in word and word.split(".")[0] in proofs.imports:
                found.add(self.resolve(proofs.imports[word.split(".")[0]] + word[word.index("."):]))
        for name in [*proofs.definitions, *proofs.imports]:
            if "◌" in name and all(part in words for part in name.split("◌") if part):
                found.add(self.meaning(proofs, name))
        return found - {None}

    def named_in(self, crate, text):
        """The definitions that a program names in its attributes and its imports."""
        found = set()
        for path, names in re.findall(r"ghost use ([\w.-]+?\.proofs\.[\w.-]+?)(?:\.\{([^}]*)\})?(?: as \w+)?;", text):
            for name in names.split(",") if names else [""]:
                found.add(self.resolve(f"{path}.{name.strip().split(' as ')[0]}".rstrip(".")))
        for owner, path in re.findall(r"\b(\w+)::proofs::([\w:]+)", text):
            found.add(self.resolve(f"Rattle.{crate if owner == 'crate' else owner}.proofs.{path.replace('::', '.')}"))
        return found - {None}

    def uncited(self):
        """The files and names of the lemmas that nothing cites."""
        known, left = set(self.roots), list(self.roots)
        while left:
            new = self.graph.get(left.pop(), set()) - known
            known |= new
            left += new
        for crate, module, name in self.graph:
            if (crate, module, name) not in known:
                proofs = self.files[crate, module]
                yield proofs.path, proofs.lines[name], name


def dead_lemmas(repository):
    """The private lemmas that nobody cites, in words."""
    for path, line, name in Lemmas(repository).uncited():
        yield f"{path.relative_to(repository)}:{line}: nobody cites {name}"


def main():
    parser = argparse.ArgumentParser(description=__doc__, formatter_class=argparse.RawDescriptionHelpFormatter)
    parser.add_argument("repository", type=pathlib.Path)
    found = list(dead_lemmas(parser.parse_args().repository.resolve()))
    print("\n".join(found), end="\n" if found else "")
    sys.exit(1 if found else 0)


if __name__ == "__main__":
    main()
