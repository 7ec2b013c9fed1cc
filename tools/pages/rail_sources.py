"""The items of crates/*/src: data that contracts speak of, and functions with their contracts."""

import dataclasses
import pathlib
import re

from rail_specs import Target, read_import

ITEM = re.compile(r"^(?:pub(?:\([^)]*\))? )?(struct|enum|trait|const) (\w+)", re.M)
FUNCTION = re.compile(r"^( *)(pub )?fn (\w+)", re.M)
RETURNED = re.compile(r"\s*->[^{;]*?(?=\s*(?:ensures|requires|ghost|decreases|where|\{|;))", re.S)
CLAUSE = re.compile(r"\s*(?:ensures|requires|decreases)\*?\s*(?:(\w+)\s*)?(?=\{)|\s*(?:ghost \w+:)\s*(?=\{)")
LINE_COMMENT = re.compile(r"(?<!/)//(?!/)[^\n]*")


@dataclasses.dataclass
class Item:
    kind: str
    name: str
    doc: str
    body: str


@dataclasses.dataclass
class Function:
    name: str
    doc: str
    parameters: set
    bounds: dict
    clauses: list
    is_law: bool


@dataclasses.dataclass
class Source:
    crate: str
    module: str
    path: pathlib.Path
    ghosts: dict
    uses: dict
    items: dict
    models: dict
    functions: list


def closing(text, at):
    """The place behind the bracket that closes the one at this place."""
    open_one, close_one = text[at], {"{": "}", "(": ")", "[": "]", "<": ">"}[text[at]]
    depth = 0
    for place in range(at, len(text)):
        if text[place] == open_one:
            depth += 1
        elif text[place] == close_one and text[place - 1] not in "-=":
            depth -= 1
            if not depth:
                return place + 1
    return len(text)


def doc_before(text, at):
    """The first paragraph of the doc comment that ends at this place."""
    lines = text[:at].splitlines()
    found = []
    while lines and lines[-1].strip().startswith(("///", "#[")):
        line = lines.pop().strip()
        if line.startswith("///"):
            found.append(line[3:].strip())
    words = []
    for line in reversed(found):
        if not line:
            break
        words.append(line)
    return " ".join(words)


def sentence(doc):
    """The first sentence of a doc comment."""
    return re.split(r"(?<=[.:])\s+(?=[A-Z`])", doc)[0]


def read_uses(text):
    """Which crate and module a type's name comes from, by the `use` lines."""
    found = {}
    for path, names in re.findall(r"^(?:pub )?use ([\w:]+?)(?:::(\{[^}]*\}|\w+))?;", text, re.M):
        for name in re.findall(r"\w+", names or ""):
            found[name] = path.split("::")
    return found


def read_functions(text):
    for at in FUNCTION.finditer(text):
        place = at.end()
        bounds = {}
        if text[place] == "<":
            end = closing(text, place)
            bounds = dict(re.findall(r"(\w+): (\w+)", text[place:end]))
            place = end
        end = closing(text, place)
        arguments = text[place + 1:end - 1]
        parameters = set(re.findall(r"(\w+)\s*:", arguments)) | {"self", "result"}
        place, clauses = end, []
        returned = RETURNED.match(text, place)
        place = returned.end() if returned else place
        while True:
            clause = CLAUSE.match(text, place)
            if not clause:
                break
            place = closing(text, clause.end())
            clauses.append((clause[1] or "", text[clause.end() + 1:place - 1]))
        body = text[place:].lstrip()
        is_law = bool(at[2]) and not arguments.strip() and bool(re.match(r"\{\s*\}", body))
        yield Function(at[3], doc_before(text, at.start()), parameters, bounds, clauses, is_law)


def read_source(crate, folder, path):
    text = path.read_text()
    ghosts = {}
    for line in re.findall(r"^ghost use .*;$", text, re.M):
        ghosts.update(read_import(line))
    bare = LINE_COMMENT.sub("", text)
    items = {}
    for at in ITEM.finditer(text):
        rest = text[at.end():]
        end = rest.find(";") if at[1] == "const" else re.search(r";|\{", rest).start()
        if at[1] != "const" and rest[end] == "{":
            end = closing(rest, end)
        items[at[2]] = Item(at[1], at[2], doc_before(text, at.start()), rest[:end])
    models = {}
    for at in re.finditer(r"^impl(?:<[^>]*>)? Model for (\w+)", bare, re.M):
        value = re.search(r"ghost Value = \{", bare[at.end():])
        begin = at.end() + value.end() - 1
        models[at[1]] = bare[begin + 1:closing(bare, begin) - 1]
    module = "/".join(path.relative_to(folder).with_suffix("").parts)
    return Source(crate, module, path, ghosts, read_uses(bare), items, models, list(read_functions(text)))


class Sources:
    """The programs of the crates in a folder, without their tests."""

    def __init__(self, crates, order):
        self.files = {}
        for crate in order:
            folder = crates / crate / "src"
            for path in sorted(folder.rglob("*.rt")):
                if "tests" not in path.relative_to(folder).with_suffix("").parts:
                    source = read_source(crate, folder, path)
                    self.files[crate, source.module] = source

    def item(self, target):
        """The file and the item of a target; one of another module may be handed on under its name."""
        source = self.files.get((target.crate, target.module))
        if source and target.name in source.items:
            return source, source.items[target.name]
        for (crate, _), other in self.files.items():
            if crate == target.crate and target.name in other.items:
                return other, other.items[target.name]
        return None, None

    def named(self, source, name):
        """The target of a type's name in a file."""
        if name in source.items:
            return Target("item", source.crate, source.module, name)
        path = source.uses.get(name)
        if not path:
            return None
        crate = source.crate if path[0] in ("crate", "self", "super") else path[0]
        found = Target("item", crate, "/".join(path[1:]), name)
        other, _ = self.item(found)
        return Target("item", other.crate, other.module, name) if other else None

    def types_in(self, target):
        """The types of the fields of a struct, or of the variants of an enum; none where its model stands for it."""
        source, item = self.item(target)
        if not item or item.kind not in ("struct", "enum") or item.name in source.models:
            return set()
        body = re.sub(r"//[^\n]*|#\[[^\]]*\]", "", item.body)
        spelled = " ".join(re.findall(r":\s*([^,;}]+)", body) + re.findall(r"\w*\(([^)]*)\)", body))
        return set(filter(None, (self.named(source, word) for word in re.findall(r"\b[A-Z]\w*", spelled))))

    def model_of(self, target):
        """The file of a type and the term that its model is, where it has one."""
        source, item = self.item(target)
        return (source, source.models[item.name]) if item and item.name in source.models else (None, None)
