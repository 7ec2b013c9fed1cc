#!/usr/bin/env python3
"""Finds where a new form or a new role of a file would be taken for another one without a word.

usage: catch_alls.py REPOSITORY

Where a `match` names variants of `Form`, `Request` or `FileRole`, each of its arms has to name them in that place: an arm with
`_` or with a name there takes every form that is still to come. So does a row of a definition in specs/, where other rows have
a variant in its place. What stands inside of a variant, or beside it, may be anything. The crates looked at are those that know
the forms. Printed is each such arm or row, and the status is 1 where there is one.
"""

import argparse
import pathlib
import re
import sys

sys.path.insert(0, str(pathlib.Path(__file__).resolve().parent))
from rail_sources import closing  # noqa: E402
from rail_specs import Specs, constructor_test, flat, tree  # noqa: E402

CRATES = ("rail_command_line", "rail_explain", "rail_forms", "rail_top", "rail")
TYPES = ("Form", "Request", "FileRole")
NOT_CODE = re.compile(r'//[^\n]*|"(?:[^"\\]|\\.)*"', re.S)
VARIANT = re.compile(rf"(?:{'|'.join(TYPES)})::\w")
CATCHES_ALL = re.compile(r"_|(?:ref |mut )?[a-z_]\w*")


def blanked(text):
    """The text with comments and texts in quotes as blanks, so that all else keeps its place."""
    return NOT_CODE.sub(lambda it: re.sub(r"[^\n]", " ", it[0]), text)


def pieces(text, mark):
    """The pieces of the text between the marks that stand outside of brackets, each with its place."""
    found, begin, depth = [], 0, 0
    for place, byte in enumerate(text):
        depth += (byte in "([{") - (byte in ")]}")
        if byte == mark and not depth:
            found.append((begin, text[begin:place]))
            begin = place + 1
    return [*found, (begin, text[begin:])]


def arms(body):
    """The patterns of the arms of a match, by what stands between its braces, each with its place."""
    place = 0
    while found := re.search(r"=>", body[place:]):
        arrow = place + found.start()
        pattern = re.split(r"\bif\b", body[place:arrow])[0]
        yield place + len(pattern) - len(pattern.lstrip()), pattern.strip()
        after = arrow + 2 + len(body[arrow + 2:]) - len(body[arrow + 2:].lstrip())
        if body[after:after + 1] == "{":
            place = closing(body, after)
            place += body[place:place + 1] == ","
        else:
            place = after + len(pieces(body[after:], ",")[0][1]) + 1


def places_of(pattern):
    """What each alternative of a pattern has at each of its places: of a tuple its parts, else all of it at place 0."""
    for _, one in pieces(pattern, "|"):
        one = one.strip().lstrip("&")
        if one.startswith("(") and closing(one, 0) == len(one):
            yield [part.strip().lstrip("&") for _, part in pieces(one[1:-1], ",") if part.strip()]
        else:
            yield [one]


def in_programs(path):
    """The arms of a file that take any form, with their lines."""
    text = blanked(path.read_text())
    text = re.sub(r"\bSelf::", lambda it: owner_at(text, it.start()), text) if "Self::" in text else text
    for at in re.finditer(r"\bmatch\b[^;{]*\{", text):
        begin = at.end()
        body = text[begin:closing(text, begin - 1) - 1]
        found = [(place, parts) for place, pattern in arms(body) for parts in places_of(pattern)]
        named = {number for _, parts in found for number, part in enumerate(parts) if VARIANT.match(part)}
        width = max((len(parts) for _, parts in found), default=0)
        for place, parts in found:
            whole = len(parts) < width and CATCHES_ALL.fullmatch(parts[0])
            if named and (whole or any(n < len(parts) and CATCHES_ALL.fullmatch(parts[n]) for n in named)):
                yield text[:begin + place].count("\n") + 1, ", ".join(parts)


def owner_at(text, place):
    """`Form::` in the place of `Self::` where that stands in an impl of `Form`."""
    owners = [at for at in re.finditer(r"^impl(?:<[^{]*?>)?\s+(?:[\w:<>']+ for )?(\w+)[^{]*\{", text[:place], re.M)]
    return f"{owners[-1][1]}::" if owners and owners[-1][1] in TYPES else "Self::"


def is_variant(words, imports):
    """Whether the pattern of a definition, a word or (bracket, words), begins with a variant of a form."""
    first = next(flat([words]), "")
    target = imports.get(first.split(".")[0])
    return bool(target) and target.kind == "item" and target.name in TYPES and (first[:1].isupper() or "." in first)


def rows_of(lines):
    """The rows of the definitions that begin at the first line's column, and of those below their `where`."""
    indent, items = len(lines[0]) - len(lines[0].lstrip()), []
    for line in lines:
        if not items or (len(line) - len(line.lstrip()) <= indent and line.lstrip()[0] not in ")]}"):
            items.append([line])
        else:
            items[-1].append(line)
    for item in items:
        local = next((n for n, line in enumerate(item) if line.strip() == "where"), len(item))
        yield " ".join(item[:local])
        if item[local + 1:]:
            yield from rows_of(item[local + 1:])


def in_definitions(module, is_constructor):
    """The rows of a module's definitions that take any form."""
    for name, definition in module.definitions.items():
        if "record" in definition.kind or "data" in definition.kind:
            continue
        patterns = {}
        for row in rows_of(definition.text):
            words = tree(re.sub(r"^\s*(?:(?:abbrev|unfoldable|pub) )*", "", row))
            if "=" in words and ":" not in words[:words.index("=")]:
                patterns.setdefault(words[0], []).append(words[1:words.index("=")])
        for rows in patterns.values():
            places = {n for row in rows for n, it in enumerate(row) if is_variant(it, module.imports)}
            for row in rows:
                words = [row[n] for n in places if n < len(row) and isinstance(row[n], str)]
                if any("." not in word and not is_constructor(word) for word in words):
                    yield name, " ".join(flat(row))


def catch_alls(repository):
    """Each arm and each row that takes any form, in words."""
    crates = repository / "crates"
    for crate in CRATES:
        for path in sorted((crates / crate / "src").rglob("*.rt")):
            for line, arm in in_programs(path):
                yield f"{path.relative_to(repository)}:{line}: the arm `{arm} =>` takes any form or role"
    order = re.findall(r"^(\w+):", (repository / "crates.txt").read_text(), re.M)
    specs = Specs(crates, order)
    for (crate, _), module in specs.modules.items():
        if crate in CRATES:
            for name, row in in_definitions(module, constructor_test(module.imports, module, specs)):
                yield f"{module.path.relative_to(repository)}: the row `{name} {row} =` takes any form or role"


def main():
    parser = argparse.ArgumentParser(description=__doc__, formatter_class=argparse.RawDescriptionHelpFormatter)
    parser.add_argument("repository", type=pathlib.Path)
    found = list(catch_alls(parser.parse_args().repository.resolve()))
    print("\n".join(found), end="\n" if found else "")
    sys.exit(1 if found else 0)


if __name__ == "__main__":
    main()
