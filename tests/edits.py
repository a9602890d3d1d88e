#!/usr/bin/env python3
"""Tries wrong bodies, each of which the prover must refuse.

    tests/edits.py [--more] [--compile] [--built] [--jobs N] [--beside LOG --libraries FOLDER] [CRATE..]

An edit is a file crates/CRATE/must-fail/NAME.edit, or with --more crates/CRATE/must-fail-more/NAME.edit. Its lines are `in: FUNCTION`,
the function that must be refused, as a check prints it below its crate; `file: PATH`, in the crate; and pairs of `old: TEXT`
and `new: TEXT`, where the old text stands in the file exactly once. With no `in:` the whole crate is checked.

A function is proved over the contracts of those that it calls, so edits are tried on a copy of the crate that keeps only the contract of
every function that isn't checked: a loop without end stands for its body, unless it has the name of one that is checked, and a hole for its
proof. Those of different functions are tried by one check. An edit that isn't refused on such a copy is tried over the whole crate, as is
one with no `in:`.

That it is the edit alone that is refused is known where the function is accepted as it is. With --beside `rt ci` proves that. Without, or
where a crate would take more than two checks, the first one, or the first ones if it has many edits, tries each edit that changes the body
of one function in a *twin*: the function once more, under another name, with its proofs; and a twin without the edit, which must be accepted
there. A function of a trait, or one that calls itself, has no twin: the first check must accept it as it is, and its edits are tried after
that. So are those of which the twins can't be tried, or the one without the edit isn't accepted. Where a function isn't accepted as it is,
its edits are tried over the whole crate.

With --compile no proof is tried, and an edit passes that compiles: a change of the sources may spoil one that nothing else tries.

`rt lib` first builds each library that is missing or older than its sources; with --built those that are there are taken as they are, as
`rt ci` left them: what it has from an earlier run on a machine is older than a fresh clone. With --beside the edits of a crate are tried
while `rt ci` proves the crates above it in the copy of the repository that --libraries names. LOG is what `rt ci` says meanwhile, and at
last the line `rt ci has ended`: the libraries that it names as proved are there. Until it ends, few edits are tried at once, with the
least share of the processors, and only while memory is left; one that is killed for memory is tried again at the end.

After the lines of a crate comes one with the seconds that its checks took. Without --more it then looks at the edits of all crates in both
folders, whether their texts and, where the library is there, their functions are still there, and whether the head of each source file names
the folders in which its edits stand: one more is passed for each crate where all is so. The last line is 'N passed, M failed', and the exit
status 1 where M isn't 0.
"""

import argparse
import contextlib
import json
import os
import re
import shutil
import subprocess
import sys
import tempfile
import threading
import time
from concurrent.futures import ThreadPoolExecutor
from dataclasses import dataclass
from pathlib import Path

TOP = Path(__file__).resolve().parent.parent
PARTS = ("src", "specs", "proofs")
LIGHTLY = ("nice", "-n", "19", "sh", "-c", 'echo 1000 >/proc/self/oom_score_adj; exec "$@"', "sh")  # the first to be killed for memory
ROOM = 6_000_000  # how many kB have to be free for a check beside `rt ci`
AT_ONCE = 12  # how many edits one check tries in twins, so that there is memory for it
ENDED = "rt ci has ended\n"  # the last line of what it says
HEAD = r"( *)(?:pub(?:\([a-z ]+\))? )?fn "  # how a function begins
NOBODY = "function_of_no_name"  # a check of a function that isn't there ends before any proof, once the sources are compiled
TRIED = r"^only=\d+ (?:proved|holes)=\d+"  # what a check says of the functions that it was to try


@dataclass(frozen=True)
class Crate:
    name: str
    ours: tuple  # its libraries of this repository
    kits: tuple  # its libraries of the kit
    libraries: Path  # the repository in which the libraries are built

    @property
    def folder(self):
        return TOP / "crates" / self.name

    @property
    def library(self):
        return self.libraries / "crates" / self.name / "out" / "rlib" / f"{self.name}.rlib"

    def below(self):
        """The crates of this repository that it stands on, lowest first."""
        found = []
        for it in self.ours:
            found += [low for low in (*it.below(), it) if low not in found]
        return found

    def functions(self):
        """Its functions that may have a proof in a file, named as a check names them after the crate; none if its library is missing."""
        code = self.library / "toolchain" / "mir.json"
        names = [name.partition("::") for name, _ in json.loads(code.read_text())] if code.exists() else ()
        return [name for crate, _, name in names if crate == self.name and not re.search(r"\bfn::|\+\+|\+decl$", name)]

    def is_built(self):
        if not self.library.exists():
            return False
        made = newest(self.library)
        return all(newest(it.folder / part) <= made for it in (*self.below(), self) for part in PARTS)


@dataclass(frozen=True)
class Edit:
    file: Path
    functions: tuple
    changes: tuple  # of path, old text and new text

    @property
    def label(self):
        return f"{self.file.parts[-3]}/{self.file.stem}"


@dataclass(frozen=True)
class Twin:
    """A function once more in the copy of its crate, under another name."""

    function: str
    name: str
    path: str  # of its file
    source: str  # of the function
    text: str  # its own

    def add_to(self, folder):
        file = folder / self.path
        file.write_text(file.read_text().replace(self.source, f"{self.source}\n\n{self.text}"))
        proofs, own = (folder / "proofs" / name.replace("::", "/") for name in (self.function, self.name))
        if proofs.is_dir():
            shutil.copytree(proofs, own)
        module, renamed = (f".proofs.{name.replace('::', '.')}." for name in (self.function, self.name))
        for proof in own.rglob("*.antt"):
            proof.write_text(proof.read_text().replace(module, renamed))


class BadEdit(Exception):
    """Why an edit can't be tried."""


class Alone:
    """When a check may begin, and how it is run: at once, with all that the machine has."""

    are_proved = False  # whether `rt ci` says that the functions are proved as they are

    def wait_for(self, crate):
        pass

    def wait_for_all(self):
        pass

    @contextlib.contextmanager
    def turn(self, crate):
        yield ()


class Beside:
    """When a check may begin beside `rt ci`, and how it is run: once the crate is proved, lightly until `rt ci` has ended."""

    are_proved = True

    def __init__(self, log):
        self.log = log
        self.turns = threading.Semaphore(max(1, len(os.sched_getaffinity(0)) // 2))

    def has_ended(self):
        return self.log.read_text(errors="replace").endswith(ENDED)

    def is_proved(self, crate):
        proved = set(re.findall(r"^rt: (\w+) (?:proved$|is kept: )", self.log.read_text(errors="replace"), re.M))
        return all(it.name in proved for it in (*crate.below(), crate))

    def wait_for(self, crate):
        """Returns once the library of the crate is there, if it will be."""
        while not self.has_ended() and not self.is_proved(crate):
            time.sleep(2)

    def wait_for_all(self):
        while not self.has_ended():
            time.sleep(2)

    @contextlib.contextmanager
    def turn(self, crate):
        while not self.has_ended():
            if self.is_proved(crate) and memory_left() > ROOM and self.turns.acquire(blocking=False):
                try:
                    yield LIGHTLY
                finally:
                    self.turns.release()
                return
            time.sleep(2)
        yield ()


def memory_left():
    """How many kB of memory are free."""
    return int(re.search(r"^MemAvailable: +(\d+) kB$", Path("/proc/meminfo").read_text(), re.M)[1])


def newest(path):
    """When the path, or what is newest in it, was written."""
    if path.is_file():
        return path.stat().st_mtime
    return max((it.stat().st_mtime for it in path.rglob("*") if it.is_file()), default=0)


def crates(libraries):
    """The crates of crates.txt, by name, lowest first. Their libraries are built in this copy of the repository."""
    lines = [line.split("#")[0].strip() for line in (TOP / "crates.txt").read_text().splitlines()]
    listed = {name.strip(): libraries.split() for name, libraries in (line.split(":") for line in lines if line)}
    made = {}

    def make(name):
        if name not in made:
            ours = tuple(make(it) for it in listed[name] if it in listed)
            made[name] = Crate(name, ours, tuple(it for it in listed[name] if it not in listed), libraries)
        return made[name]

    for name in listed:
        make(name)
    return made


def read_edit(file):
    functions, changes, path, old = [], [], None, None
    for line in file.read_text().splitlines():
        word, _, text = line.partition(": ")
        if word == "in":
            functions += text.split(", ")
        elif word == "file":
            path = text.strip()
        elif word == "old":
            old = text
        elif word in ("new", "new:") and path and old:
            changes.append((path, old, text))
            old = None
        elif line:
            raise BadEdit(f"it has a line that is none of an edit: {line}")
    if not changes:
        raise BadEdit("it changes nothing")
    return Edit(file, tuple(functions), tuple(changes))


def apply(edit, crate, folder):
    """Makes the edit's changes in the copy of its crate."""
    for path, old, new in edit.changes:
        for place in (crate.folder / path, folder / path):
            count = place.read_text().count(old)
            if count != 1:
                raise BadEdit(f"an old text is in {path} {count} times, and not once")
        (folder / path).write_text((folder / path).read_text().replace(old, new))


def without_bodies(text, names):
    """The text of a source file, in which a loop without end stands for the body of each function but those of these names."""
    lines, found, at = text.split("\n"), [], 0
    while at < len(lines):
        begun = re.match(rf"{HEAD}(\w+)", lines[at])
        end = end_of_body(lines, at, begun[1]) if begun and begun[2] not in names else None
        if end is None:
            found.append(lines[at])
            at += 1
        else:
            item = lines[at:end]
            body = item.index(begun[1] + "{") if begun[1] + "{" in item else next(i for i, it in enumerate(item) if it.endswith("{"))
            found += [*item[: body + 1], f"{begun[1]}    loop {{}}", begun[1] + "}"]
            at = end + 1
    return "\n".join(found)


def end_of_body(lines, at, indent):
    """The number of the line that ends the body of the function that begins at this one, or None where it has no body."""
    for number in range(at + 1, len(lines)):
        line = lines[number]
        if line == indent + "}":
            return number
        begun = re.match(HEAD, line)
        if line and (not line.startswith(indent) or begun and begun[1] == indent):
            return None
    return None


def keep_contracts(crate, folder, functions):
    """Takes the body and the proof from each function of the copy but these."""
    names = last_names(functions)
    for file in (folder / "src").rglob("*.rt"):
        file.write_text(without_bodies(file.read_text(), names))
    for name in crate.functions():
        if name not in functions:
            proof = folder / "proofs" / name.replace("::", "/")
            proof.mkdir(parents=True, exist_ok=True)
            for own in ("Answers.antt", "Invariants.antt"):
                (proof / own).unlink(missing_ok=True)
            theorem = f"{name.rpartition('::')[2]}_spec"
            statement = f"Rattle.{crate.name}.proofs.{name.replace('::', '.')}.Statement"
            (proof / "Proof.antt").write_text(
                f"use {statement}.{{statement}}\n\npub {theorem} : {{M : Type 1}} → statement M\n{theorem} = ?\n"
            )


def last_names(functions):
    return {name.rpartition("::")[2] for name in functions}


def changes_bodies(crate, edit):
    """Whether it changes only what is in the bodies of the functions that it names."""
    for path, old, _ in edit.changes:
        text = (crate.folder / path).read_text()
        if not path.startswith("src/") or old in without_bodies(text, ()) or old not in without_bodies(text, last_names(edit.functions)):
            return False
    return True


def sources_of(text, name):
    """The functions of this name in a source file, but for those of a trait, each with its comments and attributes."""
    lines, owner = text.split("\n"), ""
    for at, line in enumerate(lines):
        owner = line if re.match(r"\w", line) else owner
        begun = re.match(rf"{HEAD}{name}\b", line)
        end = end_of_body(lines, at, begun[1]) if begun else None
        if end and (not begun[1] or re.match(r"impl\b(?!.* for )", owner)):
            while at and lines[at - 1] and not lines[at - 1].endswith(("{", "}", ";")):
                at -= 1
            yield "\n".join(lines[at : end + 1])


def twins(crate, edit, number):
    """The twins of the function that the edit changes, as it is and as the edit has it. There are none where it changes more than one body,
    and of a function of a trait or one that calls itself."""
    if len(edit.functions) != 1 or not changes_bodies(crate, edit):
        return ()
    function, (path, first, _) = edit.functions[0], edit.changes[0]
    text, name = (crate.folder / path).read_text(), function.rpartition("::")[2]
    source = edited = next((it for it in sources_of(text, name) if first in it), "")
    for place, old, new in edit.changes:
        if place != path or text.count(old) != 1 or old not in edited:
            return ()
        edited = edited.replace(old, new)
    if any(len(re.findall(rf"\b{name}(?:::)?[(<]", it)) != 1 for it in (source, edited)):
        return ()
    found = []
    for it, end in ((source, "twin"), (edited, f"twin_{number}")):
        own = re.sub(rf"^({HEAD}{name})\b", rf"\1_{end}", it, flags=re.M)
        found.append(Twin(function, f"{function}_{end}", path, source, own))
    return tuple(found)


def rounds(crate, edits):
    """The edits in as few rounds as have each function once. One that changes more than the bodies of its functions has its own."""
    single, shared = [], []
    for edit in edits:
        if not changes_bodies(crate, edit):
            single.append([edit])
            continue
        for others in shared:
            if all(set(edit.functions).isdisjoint(it.functions) for it in others):
                others.append(edit)
                break
        else:
            shared.append([edit])
    return single + shared


def words_of_check(kit, crate):
    words = [kit / "bin" / "rattle", "check", "--crate-name", crate.name, "--jobs", "1"]
    words += ["src/main.rt" if (crate.folder / "src" / "main.rt").exists() else "src/lib.rt"]
    for name in ("std", *crate.kits):
        words += ["--extern", f"{name}={kit}/rlibs/{name}.rlib"]
    words += ["-L", f"dependency={kit}/rlibs"]
    for it in crate.ours:
        words += ["--extern", f"{it.name}={it.library}"]
    for it in crate.below():
        words += ["-L", f"dependency={it.library.parent}"]
    return [*words, "--antt-project", f"{kit}/rattle/logic/antt-project.json", "--logic-built", f"{kit}/logic_built", "--links", f"{crate.name}="]


def check(words, crate, edits, functions, by_contracts, kept, when, beside=()):
    """Checks these functions on a copy of the crate with these edits, and twins beside them, and returns what it said. With `by_contracts`
    the copy keeps only the contracts of the other functions."""
    functions = [*functions, *(twin.name for twin in beside)]
    with tempfile.TemporaryDirectory(prefix="edits-") as room:
        room = Path(room)
        for part in PARTS:
            if (crate.folder / part).is_dir():
                shutil.copytree(crate.folder / part, room / part)
        for twin in beside:
            twin.add_to(room)
        if by_contracts:
            keep_contracts(crate, room, functions)
        for edit in edits:
            apply(edit, crate, room)
        words = [*words, *(word for name in functions for word in ("--only", name)), *(["--allow-holes"] if by_contracts else [])]
        words += ["--incremental", kept / ("contracts" if by_contracts else "whole")]
        while True:
            with when.turn(crate) as lightly:
                ran = subprocess.run([*lightly, *words], cwd=room, stdin=subprocess.DEVNULL, capture_output=True, text=True, errors="replace")
            if not lightly or ran.returncode >= 0:
                return ran.stdout + ran.stderr
            while not when.has_ended():
                time.sleep(2)


def first_check(words, crate, edits, with_twins, kept, when):
    """Tries edits in twins, and the functions of the others as they are, where of every other function the contract alone is kept. Returns
    the edits that are refused, each with what was said, and the functions that are accepted as they are."""
    there = crate.functions()
    paired = {it: twins(crate, it, number) for number, it in enumerate(edits) if with_twins and set(it.functions).issubset(there)}
    named = {name for it in edits if not paired.get(it) for name in it.functions}
    functions = [name for name in there if name in named]
    beside = dict.fromkeys(twin for pair in paired.values() for twin in pair)
    if not functions and not beside:
        return {}, set()
    said = check(words, crate, [], functions, True, kept, when, beside)
    if not re.search(TRIED, said, re.M):
        return first_check(words, crate, edits, False, kept, when) if beside else ({}, set())
    fine = set(re.findall(rf"^fn {crate.name}::(\S+): (?:no holes|depends on a hole\b)", said, re.M))
    told = {it: refusal(said, crate, pair[1].name) for it, pair in paired.items() if pair and pair[0].name in fine}
    known = fine.intersection(functions)
    left = [it for it, pair in paired.items() if pair and it not in told]
    if left:
        known |= first_check(words, crate, left, False, kept, when)[1]
    return {it: why for it, why in told.items() if why}, known


def refusal(said, crate, name):
    """What the check said against the function's own proof, and not only against what it calls; empty where it said nothing."""
    told = re.search(rf"^fn {crate.name}::{re.escape(name)}: (.*)$", said, re.M)
    if not told or not told[1].startswith(("not proved", "no proof")):
        return ""
    unfound = re.search(r"`search` did not prove ([^;]*)", told[1])
    if unfound:
        return unfound[1]
    folder = f"proofs/{name.replace('::', '/')}/"
    error = re.search(rf"^(?:\./)?{re.escape(folder)}(\S+?):\d+:\d+: error: (`[^`]*`)", said, re.M)
    return error[2] if error else ""


def verdicts(words, crate, edits, by_contracts, kept, when):
    """Tries edits of one round, and yields of each whether it was refused, and what there is to say."""
    functions = [name for edit in edits for name in edit.functions]
    is_whole = not functions
    try:
        said = check(words, crate, edits, functions, by_contracts, kept, when)
    except BadEdit as why:
        said = f"error: {why}"
    was_tried = re.search(r"^logic=not-proved" if is_whole else TRIED, said, re.M)
    for edit in edits:
        found = {name: refusal(said, crate, name) for name in edit.functions} if was_tried else {}
        if was_tried and (is_whole or all(found.values())):
            yield edit, True, f"refused: {'; '.join(found.values())}" if found else "refused"
        elif len(edits) > 1:
            yield from verdicts(words, crate, [edit], by_contracts, kept, when)
        elif by_contracts:
            yield from verdicts(words, crate, [edit], False, kept, when)
        elif was_tried:
            unsaid = [name for name, why in found.items() if not why]
            yield edit, False, f"NOT REFUSED: nothing was said against {', '.join(unsaid)}"
        elif is_whole and re.search(r"^logic=proved", said, re.M):
            yield edit, False, "NOT REFUSED"
        else:
            yield edit, False, f"BAD EDIT: no proof was tried: {first_error(said)}"


def first_error(said):
    return next((line for line in said.splitlines() if "error" in line), said.strip()[-300:])


def compilations(words, crate, edits, kept, when):
    """Compiles edits of one round, and yields of each whether it compiles, and what there is to say."""
    try:
        said = check(words, crate, edits, [NOBODY], False, kept, when)
    except BadEdit as why:
        said = f"error: {why}"
    if f"has no function `{NOBODY}`" in said:
        yield from ((edit, True, "compiles") for edit in edits)
    elif len(edits) > 1:
        half = len(edits) // 2
        yield from compilations(words, crate, edits[:half], kept, when)
        yield from compilations(words, crate, edits[half:], kept, when)
    else:
        yield edits[0], False, f"BAD EDIT: {first_error(said)}"


def edits_of(crate, folder):
    """The crate's edits, and a line for each file that is none."""
    edits, lines = [], []
    for file in sorted((crate.folder / folder).glob("*.edit")):
        try:
            edits.append(read_edit(file))
        except BadEdit as why:
            lines.append((False, f"{crate.name}/{file.stem}: BAD EDIT: {why}"))
    return edits, lines


def compile_crate(kit, crate, folder, when):
    """Compiles the crate's edits. Returns the lines to print, each with whether it is of one that compiles, and how long that took."""
    begun, (edits, lines) = time.monotonic(), edits_of(crate, folder)
    when.wait_for(crate)
    with tempfile.TemporaryDirectory(prefix="edits-kept-") as kept:
        (Path(kept) / "whole").mkdir()
        for those in rounds(crate, edits):
            found = compilations(words_of_check(kit, crate), crate, those, Path(kept), when)
            lines += [(is_well, f"{edit.label}: {text}") for edit, is_well, text in found]
    return lines, f"{crate.name}: {len(lines)} edits in {time.monotonic() - begun:.0f} seconds"


def try_crate(kit, crate, folder, when):
    """Tries the crate's edits. Returns the lines to print, each with whether it is of a refusal, and how long that took."""
    begun, (edits, lines) = time.monotonic(), edits_of(crate, folder)
    words = words_of_check(kit, crate)
    when.wait_for(crate)
    with tempfile.TemporaryDirectory(prefix="edits-kept-") as kept:
        kept = Path(kept)
        for part in ("contracts", "whole"):
            (kept / part).mkdir()
        refused, known = {}, set()
        if when.are_proved and len(rounds(crate, edits)) <= 2:
            known = set(crate.functions())
        else:
            for at in range(0, len(edits), AT_ONCE):
                told, accepted = first_check(words, crate, edits[at : at + AT_ONCE], True, kept, when)
                refused, known = refused | told, known | accepted
        lines += [(True, f"{edit.label}: refused: {why}") for edit, why in refused.items()]
        left = [it for it in edits if it not in refused]
        over_contracts = [it for it in left if it.functions and known.issuperset(it.functions)]
        over_all = [it for it in left if it not in over_contracts]
        for by_contracts, chosen in ((True, over_contracts), (False, over_all)):
            for those in rounds(crate, chosen):
                found = verdicts(words, crate, those, by_contracts, kept, when)
                lines += [(is_refused, f"{edit.label}: {text}") for edit, is_refused, text in found]
    whole = f", {len(over_all)} of them over the whole crate" if over_all else ""
    return lines, f"{crate.name}: {len(lines)} edits in {time.monotonic() - begun:.0f} seconds{whole}"


def misfits(crate):
    """What is wrong with edits of the crate, in either folder, that can be told without a check: their text or their function isn't there, or
    the head of a file doesn't name the folders in which its edits stand."""
    there = crate.functions() if crate.library.exists() else None
    folders = {}
    for file in sorted(crate.folder.glob("must-fail*/*.edit")):
        try:
            edit = read_edit(file)
            for path, old, _ in edit.changes:
                folders.setdefault(path, {})[f"`{file.parent.name}/`"] = None
                if (count := (crate.folder / path).read_text().count(old)) != 1:
                    raise BadEdit(f"an old text is in {path} {count} times, and not once")
            if gone := [name for name in edit.functions if there is not None and name not in there]:
                raise BadEdit(f"there is no function {', '.join(gone)}")
        except BadEdit as why:
            yield f"{crate.name}/{file.stem}: BAD EDIT: {why}"
    for source in sorted((crate.folder / "src").rglob("*.rt")):
        path = str(source.relative_to(crate.folder))
        head = " ".join(line[4:] for line in source.read_text().splitlines() if line.startswith("//! "))
        said, right = re.search(r"Wrong bodies: ([^.]*)\.", head), " and ".join(folders.get(path, ()))
        if right != (said[1] if said else ""):
            yield f"{crate.name}/{path}: its head should say: Wrong bodies: {right or 'nothing'}"


def main():
    asked = argparse.ArgumentParser(description=__doc__.split("\n")[0])
    asked.add_argument("--more", action="store_true", help="try crates/CRATE/must-fail-more")
    asked.add_argument("--compile", action="store_true", help="see only that they compile")
    asked.add_argument("--built", action="store_true", help="take the libraries that are there as they are")
    asked.add_argument("--jobs", type=int, default=len(os.sched_getaffinity(0)), help="how many crates to try at once")
    asked.add_argument("--beside", metavar="LOG", type=Path, help="try them while rt ci runs, which says this")
    asked.add_argument("--libraries", metavar="FOLDER", type=Path, default=TOP, help="the copy of the repository that has the libraries")
    asked.add_argument("crates", nargs="*", metavar="CRATE")
    asked = asked.parse_args()
    folder = "must-fail-more" if asked.more else "must-fail"
    rt = shutil.which("rt") or sys.exit("tests/edits.py: put the command rt of the Rattle kit on the PATH")
    kit = Path(rt).resolve().parent.parent
    known = crates(asked.libraries.resolve())
    for name in asked.crates:
        if name not in known or not (known[name].folder / folder).is_dir():
            sys.exit(f"tests/edits.py: there is no folder crates/{name}/{folder}")
    chosen = [it for it in known.values() if (it.folder / folder).is_dir() and (it.name in asked.crates or not asked.crates)]
    for crate in dict.fromkeys(low for it in chosen for low in (*it.below(), it)) if not asked.beside else ():
        is_built = crate.library.exists() if asked.built else crate.is_built()
        if not is_built and subprocess.run([rt, "lib"], cwd=crate.folder).returncode:
            sys.exit(f"tests/edits.py: {crate.name} could not be built")

    passed = failed = 0
    # (those with most to prove first; beside `rt ci` those that it proves first)
    if not asked.beside:
        chosen.sort(key=lambda it: -sum(file.stat().st_size for file in it.folder.rglob("*.antt")))
    when = Beside(asked.beside) if asked.beside else Alone()
    with ThreadPoolExecutor(asked.jobs) as pool:
        tried = compile_crate if asked.compile else try_crate
        for lines, how_long in pool.map(lambda it: tried(kit, it, folder, when), chosen):
            for is_well, line in lines:
                print(line, flush=True)
                passed, failed = passed + is_well, failed + (not is_well)
            print(how_long, flush=True)
    if not asked.more and not asked.compile and not asked.crates:
        when.wait_for_all()
        for crate in known.values():
            told = [*misfits(crate)]
            print(*told, sep="\n", end="\n" * bool(told))
            passed, failed = passed + (not told), failed + len(told)
    print(f"{passed} passed, {failed} failed")
    return 1 if failed else 0


if __name__ == "__main__":
    sys.exit(main())
