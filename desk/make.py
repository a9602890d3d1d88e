#!/usr/bin/env python3
"""Puts the parts of the desk together into one page, and writes it into the crate `desk` as a constant.

    desk/make.py            writes crates/desk/src/page.rt and policy.rt
    desk/make.py --check    says whether the two agree with the parts; the exit status is 1 where they don't
    desk/make.py --print    prints the page

`shell.html` has a place for the style, which is made of `style/*.css` in the order of STYLES, and one for the script. The parts of the
script are modules that say what they import; here they become one module, each behind those that it imports, without its imports. So no
two parts may have the same name at the top, and none may import itself by a detour. Comments are left out of the page, and blanks that
mean nothing; there `const` is `let`, once for declarations that follow each other, `true` is `!0`, no semicolon stands before a brace or
at the end of a line where none is needed. The style's colours and lengths have a letter each for a name; so have the names at the top of the
parts, or two letters, but for those that are somewhere a property's name too. The policy allows one script and one style, by their
hashes, and nothing else.
"""

import base64
import hashlib
import re
import sys
from collections import Counter
from itertools import product
from pathlib import Path
from string import ascii_letters

HERE = Path(__file__).resolve().parent
CRATE = HERE.parent / "crates" / "desk" / "src"
STYLES = ("base", "pieces", "board", "narrow", "print")
LAST = "start"  # the part of the script that begins all
MOST = 110_000  # bytes of the page

IMPORT = re.compile(r"^import \{ ([^}]*) \} from '\./(\w+)\.js';$", re.M)
DECLARED = re.compile(r"^(export )?(async function|function|const|let|class) (.*)$", re.M)
TEMPLATE = r"`(?:\$\{(?:`[^`]*`|[^`}])*\}|\$(?!\{)|[^`$])*`"  # also one that has others in it
PATTERN = r"/(?! )(?:\\.|\[(?:\\.|[^\]\\])*\]|[^/\\[])+/[gi]*"  # (a quotient has a blank behind its sign)
LITERALS = re.compile(rf"('[^']*'|{TEMPLATE}|{PATTERN})")
INSERTED = re.compile(r"\$\{((?:`[^`]*`|[^`}])*)\}")  # in a template
INNERMOST = re.compile(r"\([^][(){}]*\)|\[[^][(){}]*\]|\{[^][(){}]*\}")
WORD = re.compile(r"[\w$]+")
TRUTHS = {"true": "!0", "false": "!1"}
TRUTH = re.compile(r"(?<![\w$.])(?:true|false)(?![\w$:])")
BRACKETS = re.compile(r"\([^()]*\)|\[[^][]*\]|\{[^{}]*\}|'[^']*'")

POLICY = (
    "default-src 'none'; script-src {script}; style-src {style}; connect-src 'self'; img-src data:; base-uri 'none'; form-action 'none'; "
    "frame-ancestors 'none'; require-trusted-types-for 'script'; trusted-types 'none'"
)


class Fault(Exception):
    """The parts don't fit together."""


# ---- The script.


def declared(kind, rest):
    """The names that a line declares at the top of a part, from behind its first word on."""
    if kind not in ("const", "let"):
        return re.findall(r"^[\w$]+", rest)
    while (plain := BRACKETS.sub("_", rest)) != rest:
        rest = plain
    return re.findall(r"(?:^|, )([\w$]+)(?= = |,|;)", re.split(r"[({\[]", rest)[0])


class Part:
    """A part of the script: its text, the names at its top, those that it exports, and what it imports from where."""

    def __init__(self, path):
        self.name = path.stem
        self.text = path.read_text()
        found = [(name, export) for export, kind, rest in DECLARED.findall(self.text) for name in declared(kind, rest)]
        self.names = [name for name, _ in found]
        self.exported = {name for name, export in found if export}
        self.imports = [(module, name) for names, module in IMPORT.findall(self.text) for name in names.split(", ")]
        self.body = IMPORT.sub("", self.text).replace("\nexport ", "\n")


def in_order(parts):
    """The parts, each behind those that it imports."""
    ordered = []

    def add(name, above):
        if name in above:
            raise Fault(f"{' imports '.join([*above, name])}")
        if name not in ordered:
            for module, _ in parts[name].imports:
                add(module, (*above, name))
            ordered.append(name)

    add(LAST, ())
    return [parts[name] for name in dict.fromkeys(ordered)]


def parts_of_script():
    """The parts in order, after a look at whether they fit together."""
    parts = {path.stem: Part(path) for path in sorted((HERE / "script").glob("*.js"))}
    owners = {}
    for part in parts.values():
        for name in part.names:
            if name in owners:
                raise Fault(f"{name} stands in {owners[name]}.js and in {part.name}.js")
            owners[name] = part.name
        for module, name in part.imports:
            if module not in parts or name not in parts[module].exported:
                raise Fault(f"{part.name}.js imports {name}, which {module}.js doesn't export")
            if not re.search(rf"(?<![\w$])(?<![^.]\.){re.escape(name)}(?![\w$])", part.body):
                raise Fault(f"{part.name}.js imports {name} for nothing")
        if "import" in part.body.split():
            raise Fault(f"{part.name}.js has an import of another form")
    ordered = in_order(parts)
    if unused := parts.keys() - {part.name for part in ordered}:
        raise Fault(f"nothing imports {', '.join(sorted(unused))}")
    return ordered


# ---- The page.


COMMENT = r"(^|  )//.*$| /\*.*\*/"  # in the script


def lines_of(text, comment, made=str):
    """The text without comments, empty lines and blanks around lines, each made anew. What stands indented, or ends it, has one line with
    what is before it."""
    lines = []
    for line in text.splitlines():
        code = made(re.sub(comment, "", line).strip())
        if code and line[0] in " }])" and lines:
            is_apart = re.search(r"[\w$]$", lines[-1]) and re.match(r"[\w$]", code)
            lines[-1] += f" {code}" if is_apart else code
        elif code:
            lines.append(code)
    return "".join(f"{line}\n" for line in lines)


def squeezed(line):
    """A line of a script without the blanks round its signs; one that has more than texts in which they mean something stays as it is."""
    parts = LITERALS.split(re.sub(r"^((?:export )?|for \()const ", r"\1let ", line))
    if any(re.search(r"[`'\"/]|([+-]) \1", part.replace(" / ", "")) for part in parts[::2]):
        return line
    parts[::2] = [re.sub(r" ?([-+*/<>=!&|?{}()[\],;:]+) ?", r"\1", TRUTH.sub(lambda it: TRUTHS[it[0]], part)) for part in parts[::2]]
    return "".join(parts)


def is_plain(line):
    """Whether a line is one declaration by `let`, and no more."""
    while (plain := BRACKETS.sub("_", LITERALS.sub("_", line))) != line:
        line = plain
    return line.startswith("let ") and line.find(";") == len(line) - 1


def in_code(line, change):
    """A line with its code changed, also that in its templates; texts and patterns stay."""
    parts = LITERALS.split(line)
    for n, part in enumerate(parts):
        if n % 2 == 0:
            if re.search(r"[`'\"]", part):
                raise Fault(f"a text has no end: {line}")
            parts[n] = change(part)
        elif part[0] == "`":
            parts[n] = INSERTED.sub(lambda it: f"${{{in_code(it[1], change)}}}", part)
    return "".join(parts)


def properties(code):
    """The names that the code has for properties: behind a dot, before a colon, and alone in braces, as in `{ name, other = 0 }`. (A method
    is called behind a dot.)"""
    names = {*re.findall(r"(?<!\.)\.([\w$]+)", code), *re.findall(r"([\w$]+):", code)}

    def without(it):
        if it[0][0] == "{":
            names.update(re.findall(r"(?:^|,)\s*([\w$]+)\s*(?=,|=|$)", it[0][1:-1]))
        return " _ "

    while (plain := INNERMOST.sub(without, code)) != code:
        code = plain
    return names


def short_names(parts, lines):
    """A short name for each name at the top of a part that is no property's: so it means the same wherever it stands. The short ones occur
    nowhere yet, and are no words of the language; what stands most often gets the shortest."""
    pieces = []
    for line in lines:
        in_code(line, lambda piece: pieces.append(piece) or piece)
    code = "''".join(pieces)
    count, kept = Counter(WORD.findall(code)), properties(code)
    names = sorted({name for part in parts for name in part.names} - kept, key=lambda it: (-count[it], it))
    taken = {*count, "do", "if", "in"}
    free = (it for it in (*ascii_letters, *map("".join, product(ascii_letters, repeat=2))) if it not in taken)
    return {name: next(free) if len(name) > 1 else name for name in names}


def joined(script):
    """The script with one `let` for declarations that follow each other, and without semicolons that end a block."""
    lines = []
    for line in script.replace(";}", "}").splitlines():
        if lines and is_plain(line) and is_plain(lines[-1]):
            lines[-1:] = [lines[-1][:-1] + ",", line]
        else:
            lines.append(line)
    whole = "\n".join(line[4:] if n and lines[n - 1].endswith(",") else line for n, line in enumerate(lines)) + "\n"
    return re.sub(r";\n(?=(?:let|function|async function|class) )", "\n", whole)


def renamed(style, script):
    """The style with letters for the names of its own values, but for those that the script sets."""
    names = dict.fromkeys(name for name in re.findall(r"--[\w-]+", style) if name not in script)
    letters = dict(zip(names, ascii_letters, strict=False))
    return re.sub(r"--[\w-]+", lambda it: f"--{letters.get(it[0], it[0][2:])}", style)


def page():
    """The text of the page."""
    style = "".join(lines_of((HERE / "style" / f"{name}.css").read_text(), r"^/\*.*\*/$") for name in STYLES)
    style = re.sub(r" ?([{};,>]) ?|(:) ", r"\1\2", style)
    parts = parts_of_script()
    short = short_names(parts, [re.sub(COMMENT, "", line) for part in parts for line in part.body.splitlines()])

    def made_short(line):
        return squeezed(in_code(line, lambda code: WORD.sub(lambda it: short.get(it[0], it[0]), code)))

    script = joined("".join(lines_of(part.body, COMMENT, made_short) for part in parts))
    shell = lines_of((HERE / "shell.html").read_text(), r"^<!--.*-->$")
    made = shell.replace("@STYLE@\n", renamed(style, script)).replace("@SCRIPT@\n", script)
    if len(made.encode()) > MOST:
        raise Fault(f"the page has {len(made.encode())} bytes")
    if '"##' in made:
        raise Fault('the page has "##, which ends the literal')
    return made


def policy(made):
    """The policy for a page: what it may load, and that no text becomes a part of it as markup."""

    def hash_of(tag):
        (text,) = re.findall(rf"<{tag}[^>]*>(.*?)</{tag}>", made, re.S)
        return "'sha256-" + base64.b64encode(hashlib.sha256(text.encode()).digest()).decode() + "'"

    return POLICY.format(script=hash_of("script"), style=hash_of("style"))


def sources():
    """The two sources that are made, by their paths."""
    made = page()
    return {
        CRATE / "page.rt": "//! Written by `desk/make.py` from the parts in `desk/`.\n\n"
        f'/// The page, in HTML.\npub const PAGE: &str = r##"{made}"##;\n',
        CRATE / "policy.rt": "//! Written by `desk/make.py`: it has the hashes of the script and the style of the page.\n\n"
        f'/// What a browser lets the page do.\npub const POLICY: &str =\n    "{policy(made)}";\n',
    }


def main():
    try:
        made = sources()
    except Fault as fault:
        print(f"desk/make.py: {fault}", file=sys.stderr)
        return 1
    if "--print" in sys.argv:
        print(page(), end="")
        return 0
    if "--check" in sys.argv:
        others = [path for path, text in made.items() if not path.exists() or path.read_text() != text]
        for path in others:
            print(f"desk/make.py: {path.relative_to(HERE.parent)} isn't what desk/ makes", file=sys.stderr)
        return 1 if others else 0
    CRATE.mkdir(parents=True, exist_ok=True)
    for path, text in made.items():
        path.write_text(text)
    print(f"{len(page().encode())} bytes")
    return 0


if __name__ == "__main__":
    sys.exit(main())
