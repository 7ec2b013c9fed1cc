#!/usr/bin/env python3
"""Writes docs/DEFINITIONS.md and docs/WORKING_WORDS.md from the definitions and their comments, or checks them.

usage: write_definitions.py [--check] REPOSITORY

The part of a page above its line `<!-- the list -->` is kept. The first page has what the contract of the top call
reaches, by names that are followed exactly through the imports: the definitions, the types and the constants of the
programs, and the names of the kit, each counted. The second has all other public definitions, crate by crate as in
crates.txt, and the laws, which are the public functions without code.

The status is 1 where a public definition or a law has no sentence, and with --check where a page is not what would be
written; then nothing is written.
"""

import argparse
import collections
import pathlib
import re
import sys
import textwrap

sys.path.insert(0, str(pathlib.Path(__file__).resolve().parent))
from rail_sources import Sources, sentence  # noqa: E402
from rail_specs import Specs, Target, Terms, constructor_test, tree  # noqa: E402

MARK = "<!-- the list -->"
TOP = ("rail_top", "top", "rail")
FORMS = "rail_forms"
EXAMPLES = "rail_worked"

# Definitions of the forms of which it is told how much they reach.
PARTS = (
    ("IsRun", "what holds of the history that `run` writes, and of which `stairs`, `report`, `capacity` and `insert` tell"),
    ("AnswersRun", "what `run` answers"),
    ("AnswersStairs", "what `stairs` answers"),
    ("AnswersReport", "what `report` answers"),
    ("AnswersCapacity", "what `capacity` answers"),
    ("AnswersInsertion", "what `insert` answers"),
    ("AnswersCheck", "what `check` answers"),
    ("AnswersInfra", "what `infra` answers"),
    ("AnswersPlay", "what `play` answers"),
    ("AnswersEdit", "what `edit` answers"),
    ("AnswersScene", "what `scene` answers"),
)

# The headline in words, and the fields of records of the forms that say each part of it.
HEADLINE = (
    ("For every accepted input and every policy behaviour", (("AnswersScenario", "all"), ("IsRunWithin", "accepted"))),
    ("a `run` that ends `Done` writes one history", (("IsRun", "history"), ("RunsInput", "adds"), ("IsRunWithin", "only"))),
    ("in which blocking intervals of a section never overlap,", (("IsSafe", "apart"),)),
    ("the kept list always brings every train inside to its exit,", (("IsSafe", "complete"),)),
    ("so that no deadlock ever comes,", (("IsSafe", "unlocked"),)),
    ("each wait has its stated true cause,",
     (("IsSafe", "waits"), ("WaitsForStated", "true_cause"), ("WaitsForStated", "stated"), ("IsSafe", "causes"))),
    ("every line follows from the admissions,",
     (("IsRun", "history"), ("IsSafe", "obeyed"), ("IsSafe", "repaired"), ("IsRunWithin", "timely"))),
    ("and, unless a closure or a stop remains,", (("NothingIsBarred", "opened"), ("NothingIsBarred", "going"))),
    ("every train that was not cancelled leaves",
     (("IsFinished", "names"), ("IsFinished", "nobody"), ("IsFinished", "left"))),
    ("(and where one remains, each train that stays waits, step by step, for one that it bars)", (("IsFinished", "barred"),)),
    ("within a stated number of lines, hold lines aside.",
     (("IsSafe", "few"), ("IsFinished", "exact"), ("IsSafe", "few_holds"))),
)


class Reader:
    """The definitions and programs of a repository."""

    def __init__(self, repository):
        self.repository = repository
        order = re.findall(r"^(\w+):", (repository / "crates.txt").read_text(), re.M)
        self.specs = Specs(repository / "crates", order)
        self.sources = Sources(repository / "crates", order)

    def terms_of(self, source, texts, bound):
        """What terms of a program name."""
        terms = Terms(self.specs.meaning(source.ghosts), constructor_test(source.ghosts, None, self.specs))
        for text in texts:
            terms.term(tree(text), bound)
        return terms.found

    def top(self):
        """How many clauses the top call has, and what they name; a member of a type parameter is its trait's."""
        source = self.sources.files[TOP[:2]]
        function = next(it for it in source.functions if it.name == TOP[2])
        texts = [text for _, text in function.clauses]
        found = self.terms_of(source, texts, function.parameters | set(function.bounds))
        for name, bound in function.bounds.items():
            if any(re.search(r"\b%s\.\w" % name, text) for text in texts):
                found.add(self.sources.named(source, bound))
        return len(function.clauses), found

    def reached(self, named):
        """What is named and all that this names, through definitions, types and models."""
        found, left = set(), set(named)
        while left:
            found |= left
            new = self.specs.reached(left)
            for it in left | new:
                if it.kind == "item":
                    new |= self.sources.types_in(it)
                    source, model = self.sources.model_of(it)
                    if model:
                        new |= self.terms_of(source, [model], set())
            left = new - found
        return found

    def definition(self, target):
        module = self.specs.modules.get((target.crate, target.module))
        return module.definitions.get(target.name) if module else None

    def counts(self, targets):
        """How many definitions and how many of their lines there are, by crate."""
        definitions, lines = collections.Counter(), collections.Counter()
        for it in targets:
            if it.kind == "spec":
                definitions[it.crate] += 1
                lines[it.crate] += self.definition(it).lines
        return definitions, lines


def said(text):
    return text[:1].upper() + text[1:]


def table(kind, rows):
    lines = ["| `%s` | %s |" % (name.replace("|", "\\|"), said(words)) for name, words in rows]
    return ["", "| %s | It says |" % kind, "|---|---|"] + lines


def paragraph(*sentences):
    return textwrap.wrap(" ".join(sentences), 120, break_long_words=False, break_on_hyphens=False)


def names_in(cells):
    return ", ".join("`%s`" % it for it in cells)


class Page:
    def __init__(self, reader):
        self.reader = reader
        self.clauses, named = reader.top()
        self.reached = {it for it in reader.reached(named) if it}
        self.missing = []

    def path(self, path):
        return path.relative_to(self.reader.repository)

    def reaches(self, module, name):
        return Target("spec", module.crate, module.name, name) in self.reached

    def module(self, module, names):
        rows = [(name, module.definitions[name].sentence) for name in names]
        self.missing += ["%s: %s" % (self.path(module.path), name) for name, words in rows if not words]
        return ["", "### %s" % module.title, "", "`%s`" % self.path(module.path)] + table("Definition", rows)

    def must(self):
        """What must be believed."""
        parts, files = [], 0
        for module in self.reader.specs.modules.values():
            names = [name for name in module.definitions if self.reaches(module, name)]
            if names:
                parts += self.module(module, names)
                files += 1
        (data, types), (constants, values), (kit, names) = self.types(), self.constants(), self.kit()
        definitions, lines = self.reader.counts(self.reached)
        self.summary = (sum(definitions.values()), sum(lines.values()), files, types, values, names)
        head = ["", "## What you must believe", ""] + paragraph(
            "The contract of the top call, `%s` in `crates/%s/src/%s.rt`," % (TOP[2], *TOP[:2]),
            "has %d clauses." % self.clauses,
            "They reach %d definitions," % self.summary[0],
            "which are %s lines with their comments, in %d files;" % (format(self.summary[1], ","), files),
            "%d types and traits and %d constants of the programs; and %d names of the kit." % (types, values, names))
        head += ["", "| Crate | Definitions | Lines |", "|---|---|---|"]
        head += ["| `%s` | %d | %d |" % (crate, definitions[crate], lines[crate]) for crate in self.reader.specs.order
                 if definitions[crate]]
        return head + self.shares() + self.headline() + parts + data + constants + kit

    def clause(self, record, field):
        """The field of a record of the forms, as its file has it."""
        module = next(it for it in self.reader.specs.modules.values()
                      if it.crate == FORMS and record in it.definitions)
        lines = module.path.read_text().splitlines() + [""]
        start = next(at for at, line in enumerate(lines) if line.startswith("pub record %s " % record))
        end = lines.index("", start)
        first = next(at for at in range(start, end) if lines[at].startswith("  pub %s :" % field))
        last = first + 1
        while last < end and lines[last].startswith("   "):
            last += 1
        return ["-- of %s" % record] + [line.removeprefix("  ").removeprefix("pub ") for line in lines[first:last]]

    def headline(self):
        """The headline part by part, with the clauses that say it."""
        parts = ["", "### The headline, part by part", ""] + paragraph(
            "Each part of the headline, and below it the clauses that say it, as they stand in `Runs.antt`, the first in `Scenarios.antt`.",
            "PROMISES.md has them in plain words.")
        for words, fields in HEADLINE:
            quoted = [line for record, field in fields for line in self.clause(record, field)]
            parts += ["", "**%s**" % words, "", "```antt"] + quoted + ["```"]
        return parts

    def shares(self):
        """How much single parts of the contract reach."""
        rows = []
        for name, words in PARTS:
            for target in [it for it in self.reached if (it.kind, it.crate, it.name) == ("spec", FORMS, name)]:
                reached = self.reader.reached({target})
                definitions, lines = (sum(it.values()) for it in self.reader.counts(reached))
                rows.append("| `%s` | %s | %d | %s |" % (name, said(words), definitions, format(lines, ",")))
        return ["", "Of these, a single part of the contract reaches:", "",
                "| Part | It says | Definitions | Lines |", "|---|---|---|---|"] + rows

    def items(self, is_const):
        for target in self.reached:
            if target.kind == "item":
                source, item = self.reader.sources.item(target)
                if item and (item.kind == "const") == is_const:
                    yield source, item

    def types(self):
        rows = {(str(self.path(source.path)), item.name): sentence(item.doc) for source, item in self.items(False)}
        parts = ["", "### Types and traits of the programs", ""] + paragraph(
            "A contract sees a struct as the record of its fields,",
            "and one with a model, such as `Name`, as that model.",
            "A ghost member of a trait, such as `told` of `Shelf`, is what each object of the trait is asked to say.")
        parts += ["", "| Type | It says | File |", "|---|---|---|"]
        parts += ["| `%s` | %s | `%s` |" % (name, said(words), path) for (path, name), words in sorted(rows.items())]
        return parts, len(rows)

    def constants(self):
        found = collections.defaultdict(set)
        for source, item in self.items(True):
            value = item.body.partition("=")[2].strip()
            shown = " = " + value if re.fullmatch(r"[\w *+()]{1,40}", value) else ""
            found[str(self.path(source.path))].add("`%s`%s" % (item.name, shown))
        if not found:
            return [], 0
        parts = ["", "### Constants of the programs", "", "| File | Constants |", "|---|---|"]
        parts += ["| `%s` | %s |" % (path, "; ".join(sorted(names))) for path, names in sorted(found.items())]
        return parts, sum(map(len, found.values()))

    def kit(self):
        found = collections.defaultdict(set)
        for it in self.reached:
            if it.kind == "kit" and it.module.startswith("specs") and it.name and "◌" not in it.name:
                found["%s %s" % (it.crate, it.module.removeprefix("specs."))].add(it.name)
        parts = ["", "### Names of the kit", "", "Its operators aside.", "", "| Module | Names |", "|---|---|"]
        parts += ["| `%s` | %s |" % (module, names_in(sorted(names))) for module, names in sorted(found.items())]
        return parts, sum(map(len, found.values()))

    def words(self):
        """All other definitions."""
        parts, count = [], 0
        for module in self.reader.specs.modules.values():
            names = [name for name in module.definitions if not self.reaches(module, name)]
            if names and not self.is_example(module):
                parts += self.module(module, names)
                count += len(names)
        return [""] + paragraph("They are %d definitions." % count) + parts

    def is_example(self, module):
        """The module has the data of a worked example: its definitions take no argument."""
        return module.crate == EXAMPLES and not any("→" in it.text[0] for it in module.definitions.values())

    def examples(self):
        rows = []
        for module in self.reader.specs.modules.values():
            if self.is_example(module):
                silent = [name for name, it in module.definitions.items() if not it.sentence]
                self.missing += ["%s: %s" % (self.path(module.path), name) for name in silent]
                rows.append("| `%s` | %s | %s |" % (module.name, module.title, names_in(module.definitions)))
        return ["", "### Worked examples", "", "`crates/%s/specs`" % EXAMPLES, "",
                "| Module | Example | Its data |", "|---|---|---|"] + rows

    def laws(self):
        """The public functions without code."""
        rows = collections.defaultdict(list)
        for (crate, _), source in self.reader.sources.files.items():
            for it in source.functions:
                if it.is_law:
                    rows[crate].append("| `%s` | %s | `%s` |" % (it.name, said(it.doc), source.path.name))
                    self.missing += [] if it.doc else ["%s: %s" % (self.path(source.path), it.name)]
        parts = []
        for crate, lines in rows.items():
            parts += ["", "### Laws of `%s`" % crate, "", "`crates/%s/src`" % crate, "",
                      "| Law | It says | File |", "|---|---|---|"] + lines
        return parts

    def pages(self):
        """The lists of the pages, by their names."""
        lists = {"DEFINITIONS.md": self.must(), "WORKING_WORDS.md": self.words() + self.examples() + self.laws()}
        return {name: "\n".join(lines) + "\n" for name, lines in lists.items()}


def main():
    parser = argparse.ArgumentParser(description=__doc__, formatter_class=argparse.RawDescriptionHelpFormatter)
    parser.add_argument("--check", action="store_true", help="compare with the page, and write nothing")
    parser.add_argument("repository", type=pathlib.Path)
    arguments = parser.parse_args()
    page = Page(Reader(arguments.repository))
    paths = {arguments.repository / "docs" / name: text for name, text in page.pages().items()}
    print("definitions %d, lines %d, files %d, types %d, constants %d, names of the kit %d" % page.summary)
    for it in page.missing:
        print("no sentence: " + it)
    is_wrong = bool(page.missing)
    for path, text in paths.items():
        old = path.read_text()
        new = old.split(MARK)[0] + MARK + "\n" + text
        if arguments.check and new != old:
            known = set(old.splitlines())
            absent = [row for row in new.splitlines() if row.startswith("| `") and row not in known]
            print("\n".join("not on the page: " + row for row in absent) or f"{path.name} differs")
            is_wrong = True
        if not arguments.check and not is_wrong:
            path.write_text(new)
    return 1 if is_wrong else 0


if __name__ == "__main__":
    sys.exit(main())
