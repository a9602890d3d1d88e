#!/usr/bin/env python3
"""Holds docs/STATEMENT.md and docs/CONTRACTS.md to the sources that they quote, and STATEMENT to all that the claim's laws rest on.

    tests/statement.py [--refresh]

A quotation is a block below a comment that names its source, `<!-- PATH: NAME, NAME -->`. In a file of `specs/` a name is a
definition's; in one of `src/` a type's, a call's (`Book::ask`), or `invariant of Book`, what holds of each value of that type. With
--refresh each quotation of both pages is cut out of its source anew, and the numbers on top of STATEMENT are counted anew. If a definition
has another name in its file now, it is looked for by what the page quotes of it, and printed. The rest of the pages stays as it is.

STATEMENT is walked from the laws by which the claim is said: through imports, definitions, types, and what contracts see of a type.
What the laws name, and what that names in turn, is their *closure*. What of it stands behind the arrow of the law of lives is asserted;
the rest stands before it, in the premise. The walk ends at the kit, at a type that contracts see as another value, and at a word of which
a law says what it comes to. What fails:

- something of the closure that STATEMENT doesn't quote. What stands in the premise behind a word of the table `beside` is quoted by
  CONTRACTS in its place;
- something that STATEMENT quotes and that isn't of the closure;
- an import that gives another name to what is quoted or is of the closure, but for a test that a law puts in words;
- a short name of a module, a word of the kit, or a name that stands for two things, that isn't in its table with the module that has it;
- a law that isn't of each book over any store, or for which something is owed;
- numbers on top of STATEMENT that aren't so.

And of both pages:

- a quotation that isn't as its source has it, with the line of the `impl` or the module that it stands in;
- what is quoted and names something that is neither quoted above it nor in a table, nor of formats: quoted in their section, or listed;
- a definition of formats that names one which is of other calls or of proofs alone;
- a definition of `specs/` that is neither quoted nor listed in unquoted.md;
- a table below `<!-- fields of PATH: NAME -->` that doesn't have the fields of that record in turn;
- a word by which the claim is said that isn't quoted, a section of a document that isn't there, and a crate of the kit whose words
  are used and that isn't named as trusted;
- a row of the table of doubts without an edit that the prover must refuse, or with one that isn't there;
- what a table or a list has in vain.

What differs is printed on standard error. The last line is 'N passed, M failed', and the exit status 1 where M isn't 0.
"""

import re
import sys
from collections import Counter
from dataclasses import dataclass
from difflib import SequenceMatcher
from functools import cache, cached_property

from counting import Desk
from sources import (
    TOP,
    files,
    found_at_lines,
    items,
    items_of,
    meanings,
    model_of,
    modules_used,
    named_by,
    renamed_by,
    source,
    specs,
    types_by_name,
)

STATEMENT = TOP / "docs/STATEMENT.md"
CONTRACTS = TOP / "docs/CONTRACTS.md"
UNQUOTED = TOP / "tests/unquoted.md"
LAWS = (  # each with the line of its `impl`: the law of lives is of a book over any store
    ("crates/book/src/lives.rt", "Book::each_life_holds", "impl<S: Alter> Book<S>"),
    ("crates/book/src/laws.rt", "each_list_holds", ""),
)
PREMISE = ("crates/book/specs/Lives.antt", "Life")
FORWARD = ("The rows of a file", "Formats")  # sections to which what stands above them on their page may refer
LISTS = ("of formats", "of other calls", "of proofs")
SCREEN = 50
ALIKE = 0.6  # how like its old text a definition is that has another name now, at least

# ---- The pages.

QUOTATION = re.compile(r"^<!-- (crates/\S+): (.+?) -->\n```\w*\n(.*?)^```$", re.M | re.S)
NUMBERS = re.compile(r"(?<=^<!-- numbers -->\n)(?:\|.*\n)*", re.M)


def names_of(told):
    return tuple(re.split(r",\s*", told))


def as_quoted(found):
    """Items one below the other, each after the line of its `impl` or module where that is another than before."""
    texts, opening = [], ""
    for item in found:
        texts.append(f"{item.opening}\n{item.text}" if item.opening not in ("", opening) else item.text)
        opening = item.opening
    return "\n\n".join(texts) + "\n"


def quoted_names(texts):
    """The places that some pages quote."""
    return {(found[1], name) for text in texts for found in QUOTATION.finditer(text) for name in names_of(found[2])}


def stale_text(block, name):
    """What a stale quotation has of a name."""
    for text in re.split(r"\n\n+", block):
        if re.search(rf"^\s*(?:\w+ )*{re.escape(name)} ?[:({{<]", text, re.M):
            return text
    return ""


def new_name(path, block, name, taken):
    """What a definition is called now that was renamed in its file: of those that no page quotes the one that looks most like it."""
    old = stale_text(block, name)
    others = [item for item in items(path).values() if item.place not in taken]
    likeness = {item.name: SequenceMatcher(None, old.replace(name, item.name), item.text).ratio() for item in others}
    best = max(likeness, key=likeness.get, default=None)
    return best if old and best and likeness[best] > ALIKE else name


def with_quotations(text, taken):
    """A page with each quotation cut out of its source, where another name of a definition is printed. What isn't there stays as it is."""

    def cut(found):
        path, names, block = found[1], names_of(found[2]), found[3]
        if not (TOP / path).is_file():
            return found[0]
        now = [name if name in items(path) else new_name(path, block, name, taken) for name in names]
        for old, new in zip(names, now):
            if old != new:
                print(f"{old} of {path} is called {new} now")
        if any(name not in items(path) for name in now):
            return found[0]
        return f"<!-- {path}: {', '.join(now)} -->\n```\n{as_quoted(items_of(path, now))}```"

    return QUOTATION.sub(cut, text)


def rows_below(text, comment):
    """The cells of the rows of each table below this comment."""
    found = found_at_lines(rf"<!-- {re.escape(comment)} -->\n\|.*\n\|[-|]+\n((?:\|.*\n)*)", text)
    if not found:
        raise LookupError(f"there is no table below <!-- {comment} -->")
    return [[cell.strip() for cell in row.strip("|").split(" | ")] for rows in found for row in rows.strip().split("\n")]


def marked(cell):
    """What a cell has between backticks."""
    return [name.replace("\\|", "|") for name in re.findall(r"`([^`]+)`", cell)]


def named_in(text, comment):
    """What the first cells of a table have between backticks."""
    return [name for first, *_ in rows_below(text, comment) for name in marked(first)]


@dataclass(frozen=True)
class Quotation:
    section: str
    path: str
    names: tuple
    text: str


class Page:
    """A page: what it says, and what it quotes, each item with its section."""

    def __init__(self, path):
        self.name = path.name
        self.text = path.read_text()
        self.quoted = []

    def quotations(self):
        headings = [(found.start(), found[1]) for found in re.finditer(r"^## (.*)$", self.text, re.M)]
        for found in QUOTATION.finditer(self.text):
            section = next((heading for start, heading in reversed(headings) if start < found.start()), "")
            yield Quotation(section, found[1], names_of(found[2]), found[3])

    @property
    def items(self):
        return [item for _, item in self.quoted]

    @cached_property
    def places(self):
        """The places of all items, once they are read."""
        return {item.place for item in self.items}


@dataclass(frozen=True)
class Listing:
    """A list of what isn't quoted: whole files, and single definitions of others."""

    whole: frozenset
    single: frozenset


def listing(text, comment):
    whole, single = set(), set()
    for crate, cell, *_ in rows_below(text, comment):
        folder = f"crates/{marked(crate)[0]}/specs/"
        for part in cell.split("; "):
            if part.startswith("of "):
                name, *rest = marked(part)
                single |= {(f"{folder}{name}.antt", one) for one in rest}
            else:
                for name in marked(part):
                    whole |= {it for it in specs() if it.startswith(folder + name)} if name.endswith("/") else {f"{folder}{name}.antt"}
    return Listing(frozenset(whole), frozenset(single))


class Pages:
    """Both pages, and what they list."""

    def __init__(self):
        self.statement = Page(STATEMENT)
        self.contracts = Page(CONTRACTS)
        self.lists = {comment: listing(UNQUOTED.read_text(), comment) for comment in LISTS}
        self.values = {name.partition("<")[0] for name in named_in(self.statement.text, "values")}
        self.laws = set(named_in(self.statement.text, "laws"))
        self.beside = set(named_in(self.statement.text, "beside"))

    @property
    def both(self):
        return (self.statement, self.contracts)

    @property
    def items(self):
        return self.statement.items + self.contracts.items

    @cached_property
    def places(self):
        return self.statement.places | self.contracts.places

    def homes(self, path, name):
        """The lists that have a definition: those that name it, or else those that name its file."""
        named = [comment for comment, it in self.lists.items() if (path, name) in it.single]
        return named or [comment for comment, it in self.lists.items() if path in it.whole]


# ---- Quotations.


def try_quotations(desk, page):
    """That each quotation is its source's."""
    count = 0
    for count, quotation in enumerate(page.quotations(), 1):
        try:
            cut = items_of(quotation.path, quotation.names)
        except (LookupError, OSError) as error:
            desk.expect(False, f"{page.name}: {error}")
            continue
        told = f"{page.name}: {quotation.path}: {', '.join(quotation.names)} isn't as the page quotes it"
        desk.expect(quotation.text == as_quoted(cut), told)
        page.quoted += [(quotation.section, item) for item in cut]
    comments, fences = (len(re.findall(pattern, page.text, re.M)) for pattern in (r"^<!-- crates/", r"^```"))
    told = f"{page.name}: of {comments} sources and {fences / 2} blocks {count} are quotations"
    desk.expect(comments == count and fences == 2 * count, told)


def try_once(desk, pages):
    """That nothing is quoted twice."""
    for item, times in Counter(pages.items).items():
        if times > 1:
            desk.expect(False, f"{item.name} of {item.path} is quoted {times} times")


def try_said(desk, pages):
    """That the words by which the claim is said, and wrong programs are refused, are quoted, also as parts of records or as clauses."""
    parts = re.findall(r"^ +(?:pub|ensures) (\w+)", "\n".join(line for item in pages.items for line in item.code), re.M)
    known = {item.name for item in pages.items} | set(parts)
    for comment in ("claim", "doubts"):
        for words, _, said, *_ in rows_below(pages.statement.text, comment):
            missing = [name for name in marked(said) if name not in known]
            desk.expect(marked(said) and not missing, f"'{words}' is said by {missing or 'nothing'}, which isn't quoted")


@cache
def anchors_of(text):
    """How links name the headings of a document."""
    headings = re.findall(r"^#+ (.*)$", text, re.M)
    plain = [re.sub(r"\[([^\]]*)\]\([^)]*\)", r"\1", heading).lower() for heading in headings]
    return {re.sub(r"[^\w\- ]", "", heading).replace(" ", "-") for heading in plain}


def try_headings(desk, page):
    """That the sections that the page names are there, in it and in other documents."""
    for document, name in re.findall(r"\]\((\w+\.md)\), \"([^\"]+)\"", page.text):
        is_there = re.search(rf"^#+ {re.escape(name)}", (TOP / "docs" / document).read_text(), re.M)
        desk.expect(is_there, f"{page.name}: {document} has no section {name}")
    for document, anchor in re.findall(r"\]\((\w*(?:\.md)?)#([^)]+)\)", page.text):
        home = TOP / "docs" / (document or page.name)
        desk.expect(home.exists() and anchor in anchors_of(home.read_text()), f"{page.name}: {home.name} has no section #{anchor}")


def try_fields(desk, page):
    for path, name in re.findall(r"^<!-- fields of (\S+): (\w+) -->$", page.text, re.M):
        record = items_of(path, [name])[0]
        fields = [found[1] for line in record.code[1:] if (found := re.match(r"\s+pub (\S+) :", line))]
        told = named_in(page.text, f"fields of {path}: {name}")
        desk.expect(told == fields, f"{page.name}: the table of {name} has {told} in the place of {fields}")


def try_doubts(desk, page):
    """That each doubt has an edit that the prover must refuse, and that each of these is there."""
    rows = rows_below(page.text, "doubts")
    desk.expect(len(rows) >= 10, f"{page.name}: the table of doubts has {len(rows)} rows")
    for doubt, *_, refused in rows:
        links = re.findall(r"\]\(\.\./([^)]+)\)", refused)
        missing = [link for link in links if not re.search(r"/must-fail(-more)?/", link) or not (TOP / link).is_file()]
        desk.expect(links and not missing, f"{page.name}: against the doubt '{doubt}' there is no edit {missing}")


# ---- Words of which a table says what they mean.


def try_values(desk, pages):
    """The types that contracts see as values of others; and that no other quoted type is seen so."""
    for first, second, *_ in rows_below(pages.statement.text, "values"):
        for name in marked(first):
            model = model_of(name.partition("<")[0])
            wanted = model and model.text
            desk.expect(marked(second)[0] == wanted, f"of {name} contracts see {wanted}, and the page has {second}")
    quoted = {item.name for item in pages.items}
    for item in pages.items:
        if item.is_type and item.name not in pages.values:
            own = [it for it in types_by_name()[item.name] if it.path == item.path]
            model = model_of(item.name) if len(types_by_name()[item.name]) == len(own) else None
            is_quoted = f"invariant of {item.name}" in quoted or not model
            told = f"contracts see {item.name} as {model and model.text}, and the page doesn't say so"
            is_view = model and any(name in quoted for name in re.findall(r"\w+", model.text))  # of a record that is quoted
            desk.expect(is_quoted or is_view, told)


def try_laws(desk, pages):
    """The words of which a law says what they come to: a call that is quoted, or that `==` is exact."""
    for first, second, *_ in rows_below(pages.statement.text, "laws"):
        law = marked(second)[0]
        of_type = re.fullmatch(r"LawfulEq for (\w+)", law)
        if of_type:
            is_there = any(re.search(rf"^impl LawfulEq for {of_type[1]}\b", source(path), re.M) for path in files("src", ".rt"))
        else:
            is_there = law_of(law) in pages.statement.items
        desk.expect(is_there, f"no law {law} says what {first} comes to")


def law_of(law):
    """The call of a law, as `limits::laws::broken_is_rules`, or nothing."""
    found = re.fullmatch(r"(\w+)::(\w+)::(\w+)", law)
    return items(f"crates/{found[1]}/src/{found[2]}.rt").get(found[3]) if found else None


def kit_tables(pages):
    """The words of the kit that each page explains, with the modules that have them."""
    tables = {}
    for page in pages.both:
        rows = rows_below(page.text, "words of the kit")
        tables[page] = {name: set(marked(where)) for first, where, *_ in rows for name in marked(first)}
    return tables


def try_kit(desk, pages):
    """That each word of the kit is explained above or on its page, with the module that has it, and nothing is explained in vain."""
    tables = kit_tables(pages)
    used = {page: {name for item in page.items for name in named_by(item) if name.kind == "word" and name.home} for page in pages.both}
    used[pages.contracts] -= used[pages.statement]
    for page in pages.both:
        table = tables[page]
        for name in sorted(used[page], key=str):
            known = table.get(name.name, set()) | tables[pages.statement].get(name.name, set())
            desk.expect(name.home in known, f"{page.name} doesn't explain {name.name} of {name.home}")
        homes = {}
        for name in used[page]:
            homes.setdefault(name.name, set()).add(name.home)
        for name in table:
            desk.expect(name in homes, f"{page.name} explains {name}, which nothing names that it quotes")


def try_modules(desk, pages):
    """That the short names of modules are listed, with their modules, and none in vain."""
    told = {(marked(first)[0], module) for first, second, *_ in rows_below(pages.statement.text, "modules") for module in marked(second)}
    used = {pair for item in pages.items for pair in modules_used(item)}
    for short, module in sorted(used - told):
        desk.expect(False, f"what is quoted uses {short} for the module {module}, and STATEMENT doesn't say so")
    for short, module in sorted(told - used):
        desk.expect(False, f"STATEMENT has {short} for the module {module}, which nothing uses that is quoted")
    desk.expect(used, "nothing that is quoted uses a module")


def things_named(pages):
    """Each short name in the quotations of STATEMENT that stands for more than one thing, with the homes of these."""
    things = {}
    for item in pages.statement.items:
        for name, home in meanings(item):
            things.setdefault(name, set()).add(home)
    return {name: homes for name, homes in things.items() if len(homes) > 1}


def try_twofold(desk, pages):
    """That a name which stands for more than one thing on STATEMENT is listed as such, and that no definition has it for two of them."""
    told = set(named_in(pages.statement.text, "twofold"))
    found = things_named(pages)
    for name in sorted(found.keys() - told):
        desk.expect(False, f"{name} stands for several things, and STATEMENT doesn't say so: {', '.join(sorted(found[name]))}")
    for name in sorted(told - found.keys()):
        desk.expect(False, f"STATEMENT says that {name} stands for several things, and it doesn't")
    for item in pages.statement.items:
        twice = [name for name, times in Counter(name for name, _ in meanings(item)).items() if times > 1]
        desk.expect(not twice, f"{item.name} of {item.path} has for two things the names {', '.join(twice)}")


# ---- The closure of the laws.


def thing_named(name, values):
    """What a name stands for, if it is of this repository and isn't listed as another value."""
    if name.kind == "definition":
        return items(name.home)[name.name]
    if name.kind == "type":
        homes = [it for it in types_by_name().get(name.name, []) if not name.home or it.path.split("/")[1] == name.home]
        if name.name in values:
            return model_of(name.name)
        return homes[0] if homes else None
    return None


def closure(starts, pages, cut=()):
    """All that some items name, directly or not, themselves too; but nothing by the places or words of `cut`, and of laws."""
    found = {item.place: item for item in starts}
    left = list(starts)
    while left:
        for name in named_by(left.pop()):
            if name.name in pages.laws or name.name in cut or (name.home, name.name) in cut:
                continue
            thing = thing_named(name, pages.values)
            if thing and thing.place not in found:
                found[thing.place] = thing
                left.append(thing)
    return found


@dataclass
class Closure:
    """What the claim's laws rest on: what they assert, and what stands before the arrow, on the page and beside it."""

    asserted: dict
    premise: dict
    beside: dict

    @property
    def all(self):
        return self.asserted | self.premise | self.beside


def closure_of_laws(pages):
    said = [law_of(marked(second)[0]) for _, second, *_ in rows_below(pages.statement.text, "laws")]
    starts = [items_of(path, [name])[0] for path, name, _ in LAWS] + [law for law in said if law]
    asserted = closure(starts, pages, {PREMISE})
    premise = closure(starts, pages, pages.beside)
    everything = closure(starts, pages)

    def without(found, *others):
        return {
            place: item
            for place, item in found.items()
            if not item.name.startswith("value of ") and not any(place in other for other in others)
        }

    return Closure(without(asserted), without(premise, asserted), without(everything, asserted, premise))


def try_generality(desk):
    """That the laws of the claim are of each book, and nothing is owed for them."""
    for path, name, opening in LAWS:
        law = items_of(path, [name])[0]
        desk.expect(law.opening == opening, f"{name} is narrower: it stands in '{law.opening}' in the place of '{opening}'")
        desk.expect("requires" not in law.clauses and law.clauses.count("ensures") == 1, f"for {name} the caller owes something")
        desk.expect(re.search(rf"pub fn {name.rpartition(':')[2]}\(\)\n", law.text), f"{name} is narrower: it takes something")


def try_closure(desk, pages, found):
    """That STATEMENT quotes what the laws rest on, and nothing else."""
    for place in found.asserted:
        desk.expect(place in pages.statement.places, f"the law asserts {place[1]} of {place[0]}, which STATEMENT doesn't quote")
    for place in found.premise:
        desk.expect(place in pages.statement.places, f"the law is about {place[1]} of {place[0]}, which STATEMENT doesn't quote")
    for place in found.beside:
        told = f"behind the words beside STATEMENT is {place[1]} of {place[0]}, which CONTRACTS doesn't quote"
        desk.expect(place in pages.contracts.places, told)
    for item in pages.statement.items:
        is_needed = item.place in found.asserted or item.place in found.premise
        desk.expect(is_needed, f"STATEMENT quotes {item.name} of {item.path}, which the laws don't rest on")


def try_renamings(desk, pages, found):
    """That no import gives another name to what is used, but for the test `==` of a type, which a law puts in words, and those listed."""
    told = {(marked(first)[0], marked(second)[0]) for first, second, *_ in rows_below(pages.contracts.text, "renamed")}
    used = set()
    for item in {item.place: item for item in [*found.all.values(), *pages.items]}.values():
        here = {(short, name) for short, name in renamed_by(item) if name != "ghosts" or f"{short}.eq" not in pages.laws}
        allowed = told if item.place not in pages.statement.places else set()
        used |= here & allowed
        renamed = ", ".join(sorted(f"{short} for {name}" for short, name in here - allowed))
        desk.expect(not renamed, f"{item.name} of {item.path} has by an import {renamed}")
    for short, name in sorted(told - used):
        desk.expect(False, f"CONTRACTS says that {short} stands for {name}, and nothing that it quotes has it so")


# ---- What is named by what is quoted.


def try_names(desk, pages):
    """That all names in what is quoted are quoted or explained."""
    above = set()  # what is quoted so far, by its file and by its crate
    for page in pages.both:
        below = [item for section, item in page.quoted if section in FORWARD]
        ahead = {place for item in below for place in (item.place, (item.path.split("/")[1], item.name))}
        kit = {name for table in kit_tables(pages).values() for name in table}
        for item in page.items:
            unknown = sorted(str(name) for name in named_by(item) if not is_known(name, page, pages, above, ahead, kit))
            told = f"{item.name} of {item.path} names what is neither quoted above it nor explained: {', '.join(unknown)}"
            desk.expect(not unknown, f"{page.name}: {told}")
            above.add((item.path if item.is_of_specs else item.path.split("/")[1], item.name))


def is_known(name, page, pages, above, ahead, kit):
    if name.name in pages.laws:
        return True
    if name.kind == "word":
        return name.name in kit
    if name.kind == "definition":
        place = (name.home, name.name)
        is_formats = page is pages.contracts and pages.homes(*place) == ["of formats"]
        return place in above or place in ahead or name.name in pages.beside or is_formats
    homes = {name.home} if name.home else {it.path.split("/")[1] for it in types_by_name()[name.name]}
    return name.name in pages.values or any((home, name.name) in above or (home, name.name) in ahead for home in homes)


def try_explained(desk, pages):
    """That nothing is explained in vain."""
    used = {name.name for item in pages.items for name in named_by(item)}
    for comment in ("values", "laws", "beside"):
        for name in named_in(pages.statement.text, comment):
            name = name.partition("<")[0]
            desk.expect(name in used, f"STATEMENT explains {name}, which nothing names that is quoted")
    quoted = {item.name for item in pages.contracts.items}
    for name in sorted(pages.beside):
        desk.expect(name in quoted, f"{name} is listed as quoted on CONTRACTS, and isn't")


def formats_below(desk, pages):
    """The definitions of formats that what is quoted rests on: none of them may rest on what is listed otherwise."""
    found, left = {}, list(pages.items)
    while left:
        item = left.pop()
        for name in named_by(item):
            place = (name.home, name.name)
            if name.kind == "definition" and place not in pages.places and place not in found and name.name not in pages.laws:
                found[place] = items(name.home)[name.name]
                left.append(found[place])
                if pages.homes(*place) != ["of formats"] and item.place not in pages.places:
                    desk.expect(False, f"{item.name} of {item.path}, of formats, names {name}, which isn't listed so")
    return list(found.values())


def try_trust(desk, pages, believed):
    """That STATEMENT names each crate of the kit whose words are used in what has to be believed."""
    named = set(marked(pages.statement.text.partition("\n## What is trusted\n")[2].partition("\n## ")[0]))
    crates = {name.home.partition(".")[0] for item in believed for name in named_by(item) if name.kind == "word" and name.home}
    for crate in sorted(crates):
        desk.expect(crate in named, f"STATEMENT doesn't say that the crate {crate} of the kit is trusted")


def try_files(desk, pages):
    """That each definition of `specs/` is quoted or listed once, and nothing is listed in vain."""
    known = pages.places
    for path in specs():
        missing = [name for name in items(path) if (path, name) not in known and not pages.homes(path, name)]
        desk.expect(not missing, f"{path} has what is neither quoted nor listed: {', '.join(missing)}")
        twice = [name for name in items(path) if len(pages.homes(path, name)) > 1]
        desk.expect(not twice, f"{path} has what is in two lists: {', '.join(twice)}")
    for comment, it in pages.lists.items():
        for path in sorted(it.whole):
            names = items(path) if path in specs() else {}
            needed = any((path, name) not in known and pages.homes(path, name) == [comment] for name in names)
            desk.expect(needed, f"{path} is listed as {comment}, and isn't there or is quoted whole")
        for path, name in sorted(it.single):
            needed = path in specs() and name in items(path) and (path, name) not in known
            desk.expect(needed, f"{name} of {path} is listed as {comment}, and isn't there or is quoted")


# ---- The numbers.


def told_lines(found):
    return sum(len(item.code) for item in found)


def numbers_table(found):
    """The table of the numbers on top of STATEMENT, without its comment."""
    on_page = [*found.asserted.values(), *found.premise.values()]
    kit = {name for item in on_page for name in named_by(item) if name.kind == "word" and name.home}
    asserted, declared = (told_lines(item for item in found.asserted.values() if item.is_of_specs is it) for it in (True, False))
    rows = (
        ("What the claim says", f"{asserted} lines of definitions, and {declared} of types and laws of the code"),
        ("Which runs it is about", f"{told_lines(found.premise.values())} lines"),
        ("Behind some of their words", f"{told_lines(found.beside.values())} lines on CONTRACTS, which needn't be believed: they leave out no real run"),
        ("Of the kit", f"{len(kit)} words of {len({name.home for name in kit})} modules"),
    )
    return "| What | How much |\n|---|---|\n" + "".join(f"| {first} | {second} |\n" for first, second in rows)


def try_numbers(desk, pages, found):
    told = NUMBERS.search(pages.statement.text)
    desk.expect(told and told[0] == numbers_table(found), f"the numbers on top of STATEMENT aren't so. They are:\n{numbers_table(found)}")


def tell_lines(pages, found, formats):
    """How many lines are quoted, comments aside, by the sections of both pages."""
    print(numbers_table(found), end="")
    for page in pages.both:
        counts = Counter()
        for section, item in page.quoted:
            counts[section] += len(item.code)
        print(f"lines of {page.name}: {', '.join(f'{section.lower()} {count}' for section, count in counts.items())}")
    in_files = f"{told_lines(formats)} in {len({item.path for item in formats})} files"
    print(f"lines of formats that CONTRACTS rests on, and doesn't quote: {in_files}")
    over = [item for item in pages.statement.items if len(item.code) > SCREEN]
    print(f"definitions of STATEMENT over {SCREEN} lines: {', '.join(f'{item.name} {len(item.code)}' for item in over) or 'none'}")


def refresh():
    """Cuts all quotations anew, and counts the numbers anew."""
    texts = {path: path.read_text() for path in (STATEMENT, CONTRACTS)}
    taken = quoted_names(texts.values())
    for path, text in texts.items():
        path.write_text(with_quotations(text, taken))
    table = numbers_table(closure_of_laws(Pages()))
    STATEMENT.write_text(NUMBERS.sub(lambda _: table, STATEMENT.read_text(), count=1))


def try_pages(desk):
    pages = Pages()
    for page in pages.both:
        try_quotations(desk, page)
        try_headings(desk, page)
        try_fields(desk, page)
    try_once(desk, pages)
    try_said(desk, pages)
    try_doubts(desk, pages.statement)
    try_values(desk, pages)
    try_laws(desk, pages)
    try_kit(desk, pages)
    try_modules(desk, pages)
    try_twofold(desk, pages)
    try_generality(desk)
    found = closure_of_laws(pages)
    try_closure(desk, pages, found)
    try_renamings(desk, pages, found)
    try_names(desk, pages)
    try_explained(desk, pages)
    formats = formats_below(desk, pages)
    try_trust(desk, pages, pages.items + formats)
    try_files(desk, pages)
    try_numbers(desk, pages, found)
    tell_lines(pages, found, formats)


def main():
    if sys.argv[1:] not in ([], ["--refresh"]):
        sys.exit(__doc__)
    desk = Desk()
    try:
        if sys.argv[1:]:
            refresh()
        try_pages(desk)
    except (LookupError, OSError) as error:
        desk.expect(False, error)
    desk.end()


if __name__ == "__main__":
    main()
