"""The definitions in crates/*/specs and the items of crates/*/src, and which of them each names.

A definition is a record, a data type, an abbreviation or a syntax: its comment, its signature and its cases. Names are
followed exactly: a name counts where it is free in the text, so not as a parameter, a field, a bound variable or a
label, and it means what the imports of its file or the definitions beside it say.
"""

import dataclasses
import pathlib
import re

HEADER = re.compile(
    r"(abbrev pub|unfoldable pub|pub record|pub data|pub syntax|pub|abbrev|unfoldable|record|data) ([^\s{(:]+)")
IMPORT = re.compile(r"(?:ghost |pub )?use ([\w.]+?)(?:\.\{(.*)\})?(?: as (\w+))?;?$")
TOKEN = re.compile(r'"(?:\\.|[^"\\])*"|--.*|\[\]|[(){}\[\],;|]|[^\s(){}\[\],;|"]+')
CLOSING = {"(": ")", "{": "}", "[": "]"}
CONSTRUCTORS = {"zero", "suc", "true", "false", "pos", "negsuc"}


@dataclasses.dataclass(frozen=True)
class Target:
    """What a name means: a definition ("spec"), an item of a program ("item"), or a name of the kit ("kit")."""

    kind: str
    crate: str
    module: str
    name: str


@dataclasses.dataclass
class Definition:
    name: str
    kind: str
    sentence: str
    lines: int
    text: list


@dataclasses.dataclass
class Module:
    crate: str
    name: str
    path: pathlib.Path
    title: str = ""
    imports: dict = dataclasses.field(default_factory=dict)
    definitions: dict = dataclasses.field(default_factory=dict)
    constructors: dict = dataclasses.field(default_factory=dict)


def tree(text):
    """The words of a text, with what stands between brackets as (bracket, words)."""
    stack = [[]]
    for token in TOKEN.findall(text):
        if token.startswith(("--", '"')):
            continue
        if token in CLOSING:
            stack.append([])
            stack[-2].append((token, stack[-1]))
        elif token in CLOSING.values():
            stack.pop()
        else:
            stack[-1].append(token)
    return stack[0]


def split(words, mark):
    """The words between the marks, which stand outside of brackets."""
    parts = [[]]
    for word in words:
        if word == mark:
            parts.append([])
        else:
            parts[-1].append(word)
    return parts


def flat(words):
    for word in words:
        if isinstance(word, tuple):
            yield from flat(word[1])
        else:
            yield word


def names_before(words, mark):
    """The names that a binder binds: those before the mark, or all of a pattern that has none."""
    return {word.strip("«»") for word in flat(split(words, mark)[0]) if word != "_"}


def is_binder(words):
    """The words between brackets are names, a colon and their type."""
    at = words.index(":") if ":" in words else 0
    return at > 0 and not any(isinstance(it, tuple) or it in ("λ", "let", "record", "elim") for it in words[:at])


class Terms:
    """Collects what is named freely in terms of one file."""

    def __init__(self, meaning, is_constructor):
        self.meaning = meaning
        self.is_constructor = is_constructor
        self.found = set()

    def word(self, word, bound):
        first = word.split(".")[0].strip("«»")
        if first and (first not in bound or word.startswith("Rattle.")):
            target = self.meaning(word)
            if target:
                self.found.add(target)

    def pattern(self, words, bound):
        """Notes the constructors of a pattern, and gives the names with those that it binds."""
        bound = set(bound)
        for word in flat(words):
            if "." in word or self.is_constructor(word):
                self.word(word, ())
            else:
                bound.add(word.strip("«»"))
        return bound

    def term(self, words, bound=frozenset()):
        """Notes what is named in a term where these names are bound, and gives the names bound at its end."""
        bound, at = set(bound), 0
        while at < len(words):
            word = words[at]
            at += 1
            if word == "λ":
                at = self.lambda_binders(words, at, bound)
            elif word == "let":
                at = self.let(words, at, bound)
            elif word in ("record", "in", "as", "elim", "if", "then", "else", "→", "×", "_"):
                continue
            elif isinstance(word, tuple):
                self.group(word, bound)
            else:
                self.word(word, bound)
        return bound

    def lambda_binders(self, words, at, bound):
        names = set()
        while at < len(words):
            word = words[at]
            at += 1
            if isinstance(word, tuple):
                if is_binder(word[1]):
                    self.term(word[1][word[1].index(":") + 1:], bound)
                    names |= names_before(word[1], ":")
                else:
                    names = self.pattern(word[1], names)
            else:
                name, dot, rest = word.partition(".")
                if name not in ("", "_"):
                    names.add(name.strip("«»"))
                if dot:
                    bound |= names
                    if rest:
                        self.word(rest, bound)
                    return at
        return at

    def let(self, words, at, bound):
        """A `let` up to its `in`; what it binds is bound behind that."""
        depth, end = 1, at
        while end < len(words) and depth:
            depth += {"let": 1, "in": -1}.get(words[end] if isinstance(words[end], str) else "", 0)
            end += 1
        inner = words[at:end - 1] if not depth else words[at:]
        equals = inner.index("=") if "=" in inner else len(inner)
        head = inner[:equals]
        if ":" in head:
            self.term(head[head.index(":") + 1:], bound)
        self.term(inner[equals + 1:], bound)
        bound |= names_before(head, ":")
        return end

    def group(self, group, bound):
        bracket, words = group
        if bracket == "{" and "=" in list(words):
            for field in split(words, ";"):
                if "=" in field:
                    self.term(field[field.index("=") + 1:], bound)
        elif bracket == "[":
            for case in split(words, "|"):
                at = case.index("↦") if "↦" in case else 0
                self.term(case[at + 1 if at else 0:], self.pattern(case[:at], bound))
        elif is_binder(words):
            self.term(words[words.index(":") + 1:], bound)
            bound |= names_before(words, ":")
        else:
            for part in split(words, ","):
                self.term(part, bound)

    def clause(self, text, bound=frozenset()):
        """A case of a definition: a name with patterns, and its term."""
        words = tree(text)
        if "=" not in words:
            return
        at = words.index("=")
        self.term(words[at + 1:], self.pattern(words[1:at], bound))

    def signature(self, text, bound=frozenset()):
        words = tree(text)
        if ":" in words:
            self.term(words[words.index(":") + 1:], bound)

    def cases(self, lines, bound=frozenset()):
        """The signature and cases of definitions that begin at the first line's column."""
        if not lines:
            return
        indent = len(lines[0]) - len(lines[0].lstrip())
        items = []
        for line in lines:
            if not items or (len(line) - len(line.lstrip()) <= indent and line.lstrip()[0] not in CLOSING.values()):
                items.append([line])
            else:
                items[-1].append(line)
        names = {re.sub(r"^(abbrev pub|unfoldable pub|pub|abbrev) ", "", item[0].strip()).split()[0] for item in items}
        for item in items:
            local = next((n for n, line in enumerate(item) if line.strip() == "where"), None)
            inner = item[local + 1:] if local else []
            text = " ".join(item[:local] if local else item)
            known = bound | ({line.split()[0] for line in inner} if inner else set()) | (names if indent else set())
            if re.match(r"\s*(?:abbrev pub |unfoldable pub |pub |abbrev )?\S+ : ", text):
                self.signature(text, known)
            else:
                self.clause(text, known)
            self.cases(inner, known)

    def fields(self, lines):
        """A record or data type: parameters, and fields or constructors."""
        head, body = [], []
        for line in lines:
            (body if head and head[-1].rstrip().endswith("where") else head).append(line)
        words = tree(re.sub(r"^pub (record|data) \S+", "", " ".join(head)).removesuffix("where").rstrip())
        at = words.index(":") if ":" in words else len(words)
        bound = self.term(words[:at])
        items = []
        for line in body:
            if re.match(r"  (pub )?[^\s:]+ : ", line):
                items.append(line)
            elif items:
                items[-1] += " " + line
        for item in items:
            words = tree(item.strip().removeprefix("pub "))
            self.term(words[words.index(":") + 1:], bound)
            bound.add(words[0])

    def definition(self, definition):
        if definition.kind in ("pub record", "pub data", "record", "data"):
            self.fields(definition.text)
        else:
            self.cases(definition.text)


class Specs:
    """The definitions of the crates in a folder."""

    def __init__(self, crates, order):
        self.crates, self.order, self.modules = crates, order, {}
        for crate in order:
            library = crates / crate / "specs" / "Lib.antt"
            listed = re.findall(r"^pub mod (\w+)", library.read_text(), re.M) if library.exists() else []
            for name in listed:
                self.modules[crate, name] = self.read(crate, name)

    def read(self, crate, name):
        module = Module(crate, name, self.crates / crate / "specs" / (name + ".antt"))
        comment, current = [], None
        for line in module.path.read_text().splitlines():
            header = HEADER.match(line)
            if line.startswith("--"):
                module.title = module.title or line[2:].strip().rstrip(".")
                comment.append(line[2:].strip())
            elif line.startswith("use "):
                module.imports.update(read_import(line))
                comment = []
            elif header:
                current = Definition(header[2], header[1], " ".join(comment), len(comment), [])
                if header[1] != "pub":
                    module.definitions[header[2]] = current
                current.text.append(line)
                comment = []
            elif line.lstrip().startswith("--"):
                current.lines += 1
            elif line.strip():
                current.text.append(line)
            else:
                comment = []
        for definition in module.definitions.values():
            definition.lines += len(definition.text)
            if definition.kind == "pub data":
                made = [re.match(r"  (\S[^:]*?) : ", line) for line in definition.text[1:]]
                module.constructors.update({name: definition.name for it in made if it for name in it[1].split()})
        return module

    def meaning(self, imports, module=None):
        """What words mean by these imports, and by the definitions of the module."""

        def follow(word):
            first, *rest = word.split(".")
            first = first.strip("«»")
            if first == "Rattle":
                return self.target(target_of(word))
            if module and first in module.definitions:
                return Target("spec", module.crate, module.name, first)
            if module and first in module.constructors:
                return Target("spec", module.crate, module.name, module.constructors[first])
            target = imports.get(first)
            if target and target.name == "" and not rest:
                return None
            return self.target(target)

        return follow

    def target(self, target):
        """The definition that a target is; a constructor is its data type."""
        if not target or target.kind != "spec":
            return target
        module = self.modules.get((target.crate, target.module))
        if not module:
            return None
        name = module.constructors.get(target.name, target.name)
        return dataclasses.replace(target, name=name) if name in module.definitions else None

    def names(self, target):
        """What a definition names."""
        module = self.modules[target.crate, target.module]
        terms = Terms(self.meaning(module.imports, module), constructor_test(module.imports, module, self))
        terms.definition(module.definitions[target.name])
        return terms.found - {target}

    def reached(self, targets):
        """The targets and all that their definitions name, and so on."""
        found, left = set(targets), [it for it in targets if it.kind == "spec"]
        while left:
            for it in self.names(left.pop()) - found:
                found.add(it)
                if it.kind == "spec":
                    left.append(it)
        return found


def constructor_test(imports, module=None, specs=None):
    def is_constructor(word):
        if module and word in module.constructors:
            return True
        target = imports.get(word)
        if not target:
            return word in ("[]", "∷") or word.isdigit()
        if target.kind == "spec":
            other = specs.modules.get((target.crate, target.module)) if specs else None
            return bool(other) and (target.name in other.constructors or word in other.constructors)
        if target.kind == "item":
            return word[:1].isupper()
        return target.crate != "std" or word in CONSTRUCTORS or word[:1].isupper() or not word[:1].isalpha()

    return is_constructor


def target_of(path):
    """The target of a path without its braces; that of an item is its type, its constant or its variant's type."""
    parts = path.split(".")
    if parts[0] != "Rattle" or len(parts) < 3:
        return None
    crate = parts[1]
    if not crate.startswith("rail"):
        return Target("kit", crate, ".".join(parts[2:-1]), parts[-1])
    if parts[2] != "specs":
        return None
    if parts[3] != "declared":
        return Target("spec", crate, parts[3], parts[4] if len(parts) > 4 else "")
    inner = [it for it in parts[4:] if it not in ("TheVariants", "TheInside", "TheConstants")]
    files = [it for it in inner if it[:1].islower()]
    named = [it for it in inner if not it[:1].islower()]
    return Target("item", crate, "/".join(files), named[0] if named else "")


def read_import(line):
    """What the names of an import line mean."""
    line = re.sub(r"^ghost ", "", line.strip())
    matched = IMPORT.match(line)
    if not matched:
        return {}
    path, names, alias = matched.groups()
    if names is None:
        return {alias or path.split(".")[-1]: target_of(path)}
    found = {}
    for name in filter(None, (it.strip() for it in names.split(","))):
        name, _, own = name.partition(" as ")
        found[own or name] = target_of("%s.%s" % (path, name))
    return found
