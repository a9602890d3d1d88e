"""What the sources have, for the scripts beside this one: definitions of `specs/`, types and calls of `src/`, and what each of them names.

    items("crates/limits/specs/Rules.antt")["IsOver"]       a definition, with its text
    items("crates/book/src/lives.rt")["Book::each_life_holds"]
    named_by(item)                                          the names that it uses, each with the file or the kit's module that has it
"""

import re
from dataclasses import dataclass
from functools import cache, cached_property
from pathlib import Path

TOP = Path(__file__).resolve().parent.parent
COMMENT_LINE = re.compile(r"\s*(--|//|#\[)")
COMMENT_BEHIND = re.compile(r"\s+(--|//).*")
TEXT = re.compile(r'"(\\.|[^"\\])*"')
BETWEEN_WORDS = re.compile(r"[\s(){};,]+|\.(?=\s)")

# ---- What a file has.


@dataclass(frozen=True)
class Item:
    """A definition, a type or a call, as its source has it."""

    path: str
    name: str
    text: str
    opening: str = ""  # the line or lines of the module with parameters that it stands in, or the line of the `impl`
    clauses: str = ""  # of a call, what comes after its signature

    @cached_property
    def code(self):
        """Its lines without comments and attributes."""
        lines = [line for line in self.text.split("\n") if line.strip() and not COMMENT_LINE.match(line)]
        return tuple(COMMENT_BEHIND.sub("", line) for line in lines)

    @property
    def is_of_specs(self):
        return self.path.endswith(".antt")

    @cached_property
    def is_type(self):
        return not self.is_of_specs and re.match(r"pub (struct|enum|type) ", self.code[0]) is not None

    @property
    def place(self):
        return (self.path, self.name)


@cache
def source(path):
    return (TOP / path).read_text()


def found_at_lines(pattern, text):
    """What `findall` finds at the start of a line. It looks for the end of the line before, which is much quicker than `^`."""
    return re.findall(rf"\n{pattern}", "\n" + text, re.M)


def definitions(path, text):
    """The definitions of a file of `specs/` or `proofs/`: blocks between empty lines, also those inside a module with parameters."""
    opening = ""
    for block in re.split(r"\n\s*\n", text.strip("\n")):
        lines = block.split("\n")
        if not lines[0].startswith(" "):
            opening = ""
        at = next((place for place, line in enumerate(lines) if line.startswith("module ")), None)
        if at is not None:
            end = next(place for place in range(at, len(lines)) if lines[place].endswith(" where")) + 1
            opening = "\n".join(lines[at:end])
            lines = lines[end:]
        code = [line for line in lines if not line.strip().startswith("--")]
        if code and not re.match(r"(pub )?(use|mod) ", code[0]):
            head = re.match(r"\s*(?:abbrev |unfoldable )?(?:pub )?(?:record |data )?([^\s:]+)", code[0])
            yield Item(path, head[1], "\n".join(lines), opening)


@cache
def types(path, text):
    """The public types of a file of `src/`, with their comments."""
    pattern = r"((?:///.*\n|#\[.*\n)*)(pub (?:struct|enum|type) (\w+)(?:[^{;]*\{\n(?:.*\n)*?\}|[^{;]*;))$"
    return [Item(path, name, doc + body) for doc, body, name in found_at_lines(pattern, text)]


def calls(path, text):
    """The public functions of a file of `src/`, with their comments and clauses, and without their bodies."""
    owner = header = ""
    pattern = r"(?:(impl(?:<.*?>)? (?:.* for )?(\w+).*) \{$|((?: *///.*\n)*)( *)(pub fn (\w+)(?:.*\n)*?)\4\{)"
    for line, owned, doc, indent, body, name in found_at_lines(pattern, text):
        if owned:
            owner, header = owned, line
        else:
            lines = [line.removeprefix(indent) for line in f"{doc}{indent}{body}".rstrip().split("\n")]
            first = next((place for place, line in enumerate(lines) if re.match(r"\s+(requires|ensures) ", line)), len(lines))
            whole = f"{owner}::{name}" if indent else name
            yield Item(path, whole, "\n".join(lines), opening=header if indent else "", clauses="\n".join(lines[first:]))


def invariants(path, text):
    """What holds of each value of a type with a model."""
    pattern = r"(impl.* Model for (\w+).*) \{\n((?:.*\n)*?)\}"
    for header, name, body in found_at_lines(pattern, text):
        found = re.search(r"^    ghost invariant = \{(?:.*\n)*?.*\};$", body, re.M)
        if found:
            yield Item(path, f"invariant of {name}", re.sub(r"^    ", "", found[0], flags=re.M), opening=header)


def items(path):
    """All that a file has, by name."""
    return items_in(path, source(path))


@cache
def items_in(path, text):
    """All that a file of this text has, by name."""
    found = {}
    parts = (definitions,) if path.endswith(".antt") else (types, calls, invariants)
    for item in (item for part in parts for item in part(path, text)):
        if item.name in found:
            raise LookupError(f"{path} has {item.name} twice")
        found[item.name] = item
    return found


def items_of(path, names):
    missing = [name for name in names if name not in items(path)]
    if missing:
        raise LookupError(f"{path} has no {', '.join(missing)}")
    return [items(path)[name] for name in names]


@cache
def files(folder, ending):
    return sorted(str(path.relative_to(TOP)) for path in (TOP / "crates").glob(f"*/{folder}/**/*{ending}"))


@cache
def specs():
    """The files of `specs/` that have definitions."""
    return [path for path in files("specs", ".antt") if items(path)]


@cache
def types_by_name():
    """The public types of all crates, by name."""
    found = {}
    for path in files("src", ".rt"):
        for item in types(path, source(path)):
            found.setdefault(item.name, []).append(item)
    return found


@cache
def models():
    """What contracts see of each type with a model, and of each type that is another name of one, the type that it names."""
    values, others = {}, {}
    for path in files("src", ".rt"):
        for name, body in found_at_lines(r"impl.* Model for (\w+)\b.*\{\n((?: .*\n|\n)*)\}", source(path)):
            found = re.search(r"^    ghost Value = \{ (.*) \};", body, re.M)
            if found:
                values[name] = Item(path, f"value of {name}", found[1])
        others |= dict(found_at_lines(r"pub type (\w+) = (\w+)", source(path)))
    return values, others


def model_of(name):
    """What contracts see of a type with a model, or of a type that is another name of one; nothing of any other."""
    values, others = models()
    return values.get(name) or (model_of(others[name]) if name in others else None)


# ---- What is named in it.


@dataclass(frozen=True)
class Name:
    """What a definition or a clause names: of a file of this repository, a type, or something of the kit."""

    kind: str  # definition, type, word (of the kit, or made for a type)
    home: str  # the path, the crate of the type, the module of the kit, or nothing
    name: str

    def __str__(self):
        return f"{self.name} of {self.home}" if self.home else self.name


def imports(path):
    """What a file imports: names with the modules and names that they stand for, and modules by their short names."""
    return imports_in(source(path))


@cache
def imports_in(text):
    """What a file of this text imports."""
    names, modules = {}, {}
    pattern = r" *(?:ghost )?(?:pub )?use (Rattle[\w.\-]*?)(?:\.\{([^}]*)\})?(?: as (\w+))?;?$"
    for module, several, short in found_at_lines(pattern, text):
        for entry in re.findall(r"[^\s,][^,]*", several):
            old, _, new = entry.strip().partition(" as ")
            names[new or old] = (module, old)
        if not several:
            modules[short or module.rpartition(".")[2]] = module
    return names, modules


@cache
def constructors(path):
    """The constructors of the types that a file of definitions has, and the definition of each."""
    found = {}
    for item in items(path).values():
        if re.match(r"(pub )?data ", item.code[0]):
            found |= {name: item.name for line in item.code[1:] for name in line.partition(":")[0].split()}
    return found


@cache
def is_there(path):
    return (TOP / path).exists()


@cache
def resolved(module, name):
    """What a name of a module stands for."""
    crate, _, rest = module.removeprefix("Rattle.").partition(".")
    if not is_there(f"crates/{crate}"):
        return Name("word", f"{crate}.{rest}", name)
    if rest.startswith("specs.declared."):
        parts = rest.removeprefix("specs.declared.").split(".")
        return Name("type", crate, next((part for part in parts if part[0].isupper()), name))
    path = f"crates/{crate}/{rest.replace('.', '/')}.antt"
    if rest.startswith("specs.contracts.") or not is_there(path):
        return Name("word", "", f"{rest.split('.')[-1]}.{name}")
    return Name("definition", path, constructors(path).get(name, name))


def words_of(text):
    return [word for word in BETWEEN_WORDS.split(TEXT.sub("", text)) if word]


@cache
def used_words(item):
    """The words of a definition, or of the contract of a call."""
    return words_of(re.sub(r"(--|//).*", "", item.clauses) or "\n".join([item.opening, *item.code]))


def used_of(names, plain):
    """Those of some names, each of one part or more, that stand among some words."""
    return (names & plain) | {name for name in names if "◌" in name and all(part in plain for part in name.split("◌") if part)}


@cache
def modules_used(item):
    """The short names of modules that an item uses, each with its module."""
    _, modules = imports(item.path)
    firsts = {word.partition(".")[0] for word in used_words(item) if "." in word}
    return {(short, modules[short].removeprefix("Rattle.")) for short in firsts & modules.keys()}


@cache
def renamed_by(item):
    """The names that an item uses for others: who reads it can't see the import that renames them."""
    if item.is_type:
        renamed = re.findall(r"\b(\w+) as (\w+)", "\n".join(re.findall(r"^(?:pub )?use [^;]*;", source(item.path), re.M)))
        plain = set(re.findall(r"\w+", "\n".join(item.code)))
        return {(short, name) for name, short in renamed if short in plain and short != item.name}
    plain = set(used_words(item))
    plain |= {word.partition(".")[0] for word in plain}
    names, _ = imports(item.path)
    return {(short, names[short][1]) for short in used_of(names.keys(), plain) if short != names[short][1]}


@cache
def meanings(item):
    """Each short name that an item uses, with what it stands for: the home that has it."""
    if item.is_type:
        found = {(name.name, f"type {homes_of_type(name.name)}") for name in types_in_fields(item)}
        return found | {(item.name, f"type {item.path.split('/')[1]}")}
    names, _ = imports(item.path)
    plain = {part for word in used_words(item) for part in (word, word.partition(".")[0])}
    found = {(short, home_of(*names[short])) for short in used_of(names.keys(), plain)}
    if item.is_of_specs:
        own = item.path.removeprefix("crates/").removesuffix(".antt").replace("/", ".")
        found |= {(name, own) for name in {*items(item.path), *constructors(item.path)} if name in plain}
    return found


def homes_of_type(name):
    return ", ".join(sorted({it.path.split("/")[1] for it in types_by_name()[name]}))


def home_of(module, name):
    """Where a name of a module is defined: a type is of its crate, and all else of its module."""
    parts = module.removeprefix("Rattle.").split(".")
    is_type = parts[1:3] == ["specs", "declared"] and parts[-1] == name
    return f"type {parts[0]}" if is_type else ".".join(parts)


@cache
def named_by(item):
    """What a definition, or the contract of a call, names."""
    if item.is_type:
        return types_in_fields(item)
    names, modules = imports(item.path)
    found, plain = set(), set()
    for word in used_words(item):
        first, _, rest = word.partition(".")
        if rest and first in modules:
            found.add(resolved(modules[first], rest.split(".")[0]))
        elif rest and first in names and names[first][1] == "ghosts":
            found.add(Name("word", "", word))
        else:
            plain |= {first, word}
    found |= {resolved(*names[short]) for short in used_of(names.keys(), plain) if names[short][1] != "ghosts"}
    if item.is_of_specs:
        inside = {name: name for name in items(item.path)} | constructors(item.path)
        found |= {Name("definition", item.path, home) for name, home in inside.items() if name in plain and home != item.name}
    else:
        found |= {Name("type", "", name) for name in plain - names.keys() if name in types_by_name()}
    return found


def types_in_fields(item):
    """The types of this repository that a type has in its fields."""
    body = "\n".join(item.code[1:])
    if "enum " in item.code[0]:
        body = re.sub(r"^ +\w+", "", body, flags=re.M)
    return {Name("type", "", name) for name in re.findall(r"\b[A-Z]\w+", body) if name in types_by_name() and name != item.name}
