#!/usr/bin/env python3
"""Installs the program below folders of its own, runs it there and removes it, and holds what is installed to what `--help` says.

    tests/install.py

The manual page and the completions of bash and zsh have to name each subcommand, argument and option that `--help` has, and no other,
and all have the zones of docs/REFUSALS.md, which has all refusals. `do --help`, the manual page and docs/FORMATS.md have the same members of
each command. The completions are asked as a shell asks them, those of zsh where it is on the PATH. What
differs is printed on standard error. The last line is 'N passed, M failed', and the exit status 1 where M isn't 0.
"""

import os
import pty
import re
import select
import shlex
import shutil
import subprocess
import sys
import tempfile
import time
from dataclasses import dataclass
from pathlib import Path

from office import TOP, build, rosterbook

BASH = "share/bash-completion/completions/rosterbook"
ZSH = "share/zsh/site-functions/_rosterbook"
MANUAL = "share/man/man1/rosterbook.1"
SERVICE = "lib/systemd/system/rosterbook.service"
DOCUMENTS = "share/doc/rosterbook"
LIST = "share/rosterbook/installed"
OF_ALL = ("-h", "--help")  # the options of each subcommand

# What is put below the prefix, in this order, and the file of the repository that it is the same as.
PUT = {
    "bin/rosterbook": "crates/rosterbook_main/out/rosterbook_main",
    SERVICE: "examples/rosterbook.service",
    MANUAL: MANUAL,
    BASH: BASH,
    ZSH: ZSH,
    f"{DOCUMENTS}/REFUSALS.md": "docs/REFUSALS.md",
    f"{DOCUMENTS}/FORMATS.md": "docs/FORMATS.md",
    f"{DOCUMENTS}/RULES.md": "docs/RULES.md",
    f"{DOCUMENTS}/examples/back_up.sh": "examples/back_up.sh",
    f"{DOCUMENTS}/examples/june.csv": "examples/june.csv",
    f"{DOCUMENTS}/examples/requests.jsonl": "examples/requests.jsonl",
    f"{DOCUMENTS}/examples/duty_calendar.py": "examples/duty_calendar.py",
    f"{DOCUMENTS}/examples/chart.py": "examples/chart.py",
    f"{DOCUMENTS}/examples/reports.py": "examples/reports.py",
}
# What is run below the prefix, with what it has to print, as the README has it.
HOUR = [
    (("init", "roster.db", "EST5EDT,M3.2.0,M11.1.0"), "", "ready\n"),
    (
        ("do", "roster.db"),
        '{"number":1,"do":"add-crew","crew":"C1","seat":"captain","name":"Ada Ray"}',
        '{"exceedances":[],"result":"accepted"}\n',
    ),
    (("import", "roster.db", "3"), "examples/june.csv", "1 accepted\n2 accepted\n3 accepted\n"),
    (("do", "roster.db"), '{"number":4,"do":"assign","pairing":"B101","crew":"C1"}', '{"exceedances":[],"result":"accepted"}\n'),
    (
        ("roster", "roster.db", "C1"),
        "",
        "ROSTER C1 captain Ada Ray\n2025-06-10T17:00Z 2025-06-11T01:15Z pairing B101/1 plan fdp 7:45 flight 3:30\n",
    ),
]


def text(path):
    return (TOP / path).read_text()


# ---- What --help, the manual page and the completions name.


@dataclass(frozen=True)
class Named:
    """The subcommands in turn, with their arguments in turn, and the options of each; those of the program under ''."""

    arguments: dict
    options: dict

    def words(self):
        return {it.removesuffix("...") for arguments in self.arguments.values() for it in arguments}


def of_help():
    """What the program's own help names."""

    def asked(*words):
        said = rosterbook(*words, "--help").out
        options = re.search(r"^Options:\n((?: .*\n)+)", said, re.M)[1]
        return said, sorted(it for pair in re.findall(r"^ +(?:(-\w), )?(--[\w-]+)", options, re.M) for it in pair if it)

    said, options = asked()
    names = re.findall(r"^  ([a-z]+)  ", re.search(r"^Commands:\n((?: .*\n)+)", said, re.M)[1], re.M)
    arguments, all_options = {}, {"": options}
    for name in names:
        said, all_options[name] = asked(name)
        usage = re.search(rf"^Usage: rosterbook {name}(.*)$", said, re.M)[1]
        arguments[name] = [it + dots for it, dots in re.findall(r"<(\w+)>(\.\.\.)?", usage)]
    return Named(arguments, all_options)


def section(page, name):
    return re.search(rf"^\.SH {name}\n(.*?)(?=^\.SH |\Z)", page, re.M | re.S)[1]


def plain(line):
    """A line of the manual page without its fonts."""
    if re.match(r"\.[BI]R ", line):
        line = "".join(shlex.split(line[4:], posix=False)).replace('"', "")
    return re.sub(r"^\.[BI] |\\f[BIR]", "", line).replace("\\-", "-")


def plain_lines(lines):
    return "\n".join(plain(line) for line in lines.splitlines())


def of_synopsis(page):
    """The lines of the synopsis, as the usage of each subcommand."""
    return [plain(it) for it in section(page, "SYNOPSIS").splitlines() if not it.startswith(".")]


def tags(page, name):
    """What the paragraphs of a section of the manual page begin with."""
    lines = section(page, name).splitlines()
    return [plain(after) for line, after in zip(lines, lines[1:]) if line == ".TP"]


def of_bash():
    script = text(BASH)
    table = dict(re.findall(r"^        \[(\w+)\]='(.*)'$", script, re.M))
    first = re.search(r"^    local first='(.*)'$", script, re.M)[1].split()
    is_option = lambda it: it.startswith("-")
    arguments = {name: [it for it in words.split() if not is_option(it)] for name, words in table.items()}
    options = {name: sorted(filter(is_option, words.split())) for name, words in {"": " ".join(first), **table}.items()}
    return Named(arguments, options), [it for it in first if not is_option(it)]


def of_zsh():
    script = text(ZSH)
    braces = lambda it: re.findall(r"\{(-\w),(--\w+)\}", it)
    for_all = [word for pair in braces(re.search(r"^    local -a help=.*$", script, re.M)[0]) for word in pair]
    top = [word for pair in braces(re.search(r"^    _arguments -C .*$", script, re.M)[0]) for word in pair]
    arguments, options = {}, {"": sorted([*for_all, *top])}
    for name, specs in re.findall(r"^ +(\w+)\) _arguments \$help (.*) ;;$", script, re.M):
        named = re.findall(r"'(?:\d|(\*)):(\w+):", specs)
        arguments[name] = [word + ("..." if star else "") for star, word in named]
        options[name] = sorted([*for_all, *re.findall(r"'(--[\w-]+)\[", specs)])
    return Named(arguments, options), re.findall(r"^        ['\"](\w+):", script, re.M)


def zones(path, pattern, flags=re.M):
    return re.findall(pattern, text(path), flags)


# ---- Completions, as a shell asks for them.


def bash_completions(folder, *words):
    """What is offered for the last word."""
    script = 'source "$1"; shift; COMP_WORDS=("$@"); COMP_CWORD=$(($# - 1)); _rosterbook; printf "%s\\n" "${COMPREPLY[@]}"'
    ran = subprocess.run(["bash", "-c", script, "", TOP / BASH, *words], cwd=folder, capture_output=True, text=True)
    return ran.stdout.split() if not ran.stderr else ran.stderr


class Zsh:
    """A shell on a terminal, in which a line is typed, completed and shown."""

    START = (
        "PS1= RPS1=; fpath=({}/share/zsh/site-functions $fpath); autoload -Uz compinit; compinit -u -D; "
        "zstyle ':completion:*' verbose no; LISTMAX=10000; unsetopt beep; "
        "shown() {{ print; print -r -- \"[$BUFFER]\"; BUFFER= }}; zle -N shown; bindkey '^X' shown; print rea''dy\n"
    )

    def __init__(self, folder):
        self.pid, self.terminal = pty.fork()
        if not self.pid:
            os.chdir(folder)
            os.environ.update(TERM="dumb", COLUMNS="200")
            os.execvp("zsh", ["zsh", "-f", "-i"])
        self.send(self.START.format(TOP))
        self.read("ready\r\n")

    def send(self, keys):
        os.write(self.terminal, keys.encode())

    def read(self, until, seconds=20):
        shown, end = "", time.monotonic() + seconds
        while until not in shown and time.monotonic() < end:
            if select.select([self.terminal], [], [], 0.1)[0]:
                shown += os.read(self.terminal, 65_536).decode(errors="replace")
        return shown

    def completed(self, line):
        """What the line becomes by a tabulator."""
        self.send(f"{line}\t\x18")
        found = re.findall(r"\[(.*)\]\r\n", self.read("]\r\n"))
        return found[-1] if found else None

    def close(self):
        self.send("exit\n")
        os.waitpid(self.pid, 0)
        os.close(self.terminal)


# ---- What is tried.


@dataclass
class Office:
    room: Path
    passed: int = 0
    failed: int = 0

    def expect(self, what, got, wanted):
        self.passed += got == wanted
        self.failed += got != wanted
        if got != wanted:
            print(f"tests/install.py: {what}\n  wanted: {wanted}\n  got:    {got}", file=sys.stderr)

    def folder(self, name):
        (self.room / name).mkdir()
        return self.room / name

    def install(self, *words, **places):
        """Runs ./install, and returns how it ended with the lines of both outputs."""
        environment = {**os.environ, "PATH": f"{self.room}/bin:{os.environ['PATH']}", **places}
        ran = subprocess.run([TOP / "install", *words], capture_output=True, text=True, env=environment, cwd=self.room)
        return ran.returncode, ran.stdout.splitlines(), ran.stderr.splitlines()


def tree(folder):
    """Each path below a folder, with what a file holds and whether it is run."""
    found = sorted(folder.rglob("*"))
    return {str(it.relative_to(folder)): (it.read_bytes(), os.access(it, os.X_OK)) if it.is_file() else None for it in found}


def try_names(office):
    named, page = of_help(), text(MANUAL)
    office.expect("--help has all subcommands", len(named.arguments) >= 11 and all(named.options.values()), True)
    options = lambda name: " [OPTIONS]" if set(named.options[name]) - {*OF_ALL} else ""
    usage = [" ".join([f"rosterbook {name}{options(name)}", *words]) for name, words in named.arguments.items()]
    office.expect("the synopsis", of_synopsis(page), usage)
    office.expect("the subcommands of the manual page", tags(page, "SUBCOMMANDS"), [*named.arguments])
    office.expect("the arguments of the manual page", {word for it in tags(page, "ARGUMENTS") for word in it.split(", ")}, named.words())
    given = {word for it in tags(page, "OPTIONS") for word in re.findall(r"(?<!\S)--?[\w-]+", it)}
    office.expect("the options of the manual page", given, {it for of_one in named.options.values() for it in of_one})
    for shell, (found, first) in (("bash", of_bash()), ("zsh", of_zsh())):
        office.expect(f"the subcommands that {shell} completes", first, [*named.arguments])
        office.expect(f"the arguments that {shell} completes", found.arguments, named.arguments)
        office.expect(f"the options that {shell} completes", found.options, named.options)


def try_zones(office):
    wanted = zones("docs/REFUSALS.md", r"^\| [A-Z][\w ,]+ \| `(\S+)` \|")
    office.expect("there are zones", len(wanted) >= 9, True)
    found = re.findall(r"^[A-Z][\w ]+?  +(\S+)$", section(text(MANUAL), "ZONES"), re.M)
    office.expect("the zones of the manual page", found, wanted)
    office.expect("the zones of bash", zones(BASH, r"local zones='([^']*)'")[0].split(), wanted)
    office.expect("the zones of zsh", zones(ZSH, r"local -a zones=\(([^)]*)\)")[0].split(), wanted)
    return wanted


def try_members(office):
    """The members of each of the eleven commands, in turn, and those of a period and of a segment."""
    rows = re.findall(r"^\| `([a-z-]+)` \| (`[^|]+`) \|$", text("docs/FORMATS.md"), re.M)
    wanted = [(name, re.findall(r"`(\w+)`", members)) for name, members in rows]
    office.expect("the formats have eleven commands", len({name for name, _ in wanted}), 11)
    page = text(MANUAL)
    for where, said in (("do --help", rosterbook("do", "--help").out), ("the manual page", plain_lines(section(page, "COMMANDS")))):
        listed = re.findall(r"^ *([a-z]+(?:-[a-z]+)?)  +((?:[a-z_]+, )*[a-z_]+)$", said, re.M)
        found = [(name, members.split(", ")) for name, members in listed if name in dict(wanted)]
        office.expect(f"the commands of {where}", found, wanted)
        for parts in ("objects with report, release, segments", "objects with flight, from, out, to, in", "actual and record-outside have out and in"):
            office.expect(f"{where}: {parts}", parts in " ".join(said.split()), True)
    office.expect("--help names the page of refusals", "REFUSALS.md" in rosterbook("--help").out, True)
    office.expect("the manual page names the page of refusals", "REFUSALS.md" in section(page, "REFUSALS"), True)


def try_the_page_of_refusals(office):
    """docs/REFUSALS.md has each refusal of the formats and of the rules once, in order of the numbers."""
    page, formats, rules = (text(f"docs/{it}.md") for it in ("REFUSALS", "FORMATS", "RULES"))
    found = re.findall(r"^\| (T?\d+) (\w+)", page, re.M)
    office.expect("the order of the refusals", found, sorted(set(found), key=lambda it: (it[0][0] != "T", int(it[0].strip("T")))))
    of_formats = {*re.findall(r"^\| (T?\d+) ([A-Z]\w+)", formats, re.M), *re.findall(r"refused (T?\d+) ([A-Z]\w+)", formats)}
    office.expect("the refusals", {*found}, of_formats | {*re.findall(r"^\| (\d+) \| ([A-Z]\w+) \|", rules, re.M)})


def try_bash(office, folder, wanted_zones):
    ask = lambda *words: bash_completions(folder, "rosterbook", *words)
    names, options = of_bash()[1], ["-h", "--help"]
    office.expect("first words", ask(""), [*names, *options, "-V", "--version"])
    office.expect("d", ask("d"), ["duty", "do"])
    office.expect("pairing", ask("pairing"), ["pairing", "pairings"])
    for name in names:
        first = wanted_zones if name == "duty" else ["book.db", "folder"]
        office.expect(f"{name} and a blank", sorted(ask(name, "")), sorted(first))
        more = {
            "do": ["--dry-run", "--lines"],
            "serve": ["--connections"],
            "limits": ["--with", "--json"],
            "pairings": ["--open", "--json"],
            **dict.fromkeys(["roster", "pairing", "exceedances", "members", "board", "request"], ["--json"]),
        }.get(name, [])
        office.expect(f"{name} -", ask(name, "-"), [*more, *options])
    office.expect("init FILE", ask("init", "new.db", "M"), [it for it in wanted_zones if it.startswith("M")])
    office.expect("a third word of init", ask("init", "new.db", "UTC0", ""), [])
    office.expect("do --lines", sorted(ask("do", "--lines", "")), ["book.db", "folder"])
    office.expect("do FILE", ask("do", "book.db", ""), [])
    office.expect("pairings --open", sorted(ask("pairings", "--open", "")), ["book.db", "folder"])
    office.expect("pairings --open --json", sorted(ask("pairings", "--open", "--json", "")), ["book.db", "folder"])
    office.expect("members FILE", ask("members", "book.db", ""), [])
    office.expect("serve --connections 9", sorted(ask("serve", "--connections", "9", "")), ["book.db", "folder"])
    office.expect("serve --connections", ask("serve", "--connections", ""), [])
    office.expect("limits --with B102", sorted(ask("limits", "--with", "B102", "")), ["book.db", "folder"])
    office.expect("limits --with", ask("limits", "--with", ""), [])
    office.expect("a port", ask("serve", "book.db", ""), [])
    office.expect("no subcommand", ask("rest", ""), [])
    said = subprocess.run(["bash", "-c", f"source {TOP / BASH} && complete -p rosterbook"], capture_output=True, text=True).stdout
    office.expect("complete -p", said, "complete -F _rosterbook rosterbook\n")


def try_zsh(office, folder):
    if not shutil.which("zsh"):
        print("tests/install.py: zsh: skipped, since it is not on the PATH", file=sys.stderr)
        return
    shell = Zsh(folder)
    for typed, wanted in [
        ("du", "duty "),
        ("exc", "exceedances "),
        ("mem", "members "),
        ("init b", "init book.db "),
        ("init new.db HS", "init new.db HST10 "),
        ("duty AST", "duty AST4 "),
        ("do bo", "do book.db "),
        ("do --d", "do --dry-run "),
        ("do --lines bo", "do --lines book.db "),
        ("pairings --o", "pairings --open "),
        ("pairings --open bo", "pairings --open book.db "),
        ("serve --c", "serve --connections "),
        ("serve --connections 9 bo", "serve --connections 9 book.db "),
        ("limits --w", "limits --with "),
        ("limits --with B102 bo", "limits --with B102 book.db "),
        ("members --j", "members --json "),
        ("members --json bo", "members --json book.db "),
        ("do book.db --h", "do book.db --help "),
        ("--v", "--version "),
        ("rest b", "rest b"),
    ]:
        got = shell.completed(f"rosterbook {typed}")
        # (zsh takes the last blank away again where a line ends)
        office.expect(f"zsh: {typed}", got and got.rstrip(), f"rosterbook {wanted}".rstrip())
    shell.close()


def run_alone(office, program, folder, prefix):
    """Runs the program with an empty environment in an empty folder."""
    for words, given, wanted in HOUR:
        data = (prefix / DOCUMENTS / given).read_text() if given.endswith(".csv") else given
        ran = subprocess.run(["env", "-i", program, *words], cwd=folder, input=data, capture_output=True, text=True)
        office.expect(f"alone: {words[0]}", (ran.returncode, ran.stdout, ran.stderr), (0, wanted, ""))
    office.expect("what it leaves", sorted(os.listdir(folder)), ["roster.db", "roster.db-wal"])
    linked = subprocess.run(["ldd", program], capture_output=True, text=True).stdout
    office.expect("what it is linked to", [it for it in linked.split() if str(TOP) in it or "rattle" in it], [])


def try_a_new_prefix(office):
    prefix = office.room / "new"
    told = [f"{prefix}/{it}" for it in PUT]
    hint = [f"install: to run rosterbook by its name, put {prefix}/bin on the PATH"]
    office.expect("a new prefix", office.install("new"), (0, told, hint))
    found = tree(prefix)
    office.expect("the files", {it for it, what in found.items() if what}, {*PUT, LIST})
    for path, source in PUT.items():
        wanted = (TOP / source).read_bytes()
        if path == SERVICE:
            wanted = wanted.replace(b"ExecStart=/usr/local/bin/rosterbook ", f"ExecStart={prefix}/bin/rosterbook ".encode())
        office.expect(path, found[path], (wanted, os.access(TOP / source, os.X_OK)))
    run_alone(office, prefix / "bin/rosterbook", office.folder("empty"), prefix)
    office.expect("the same again", office.install(prefix), (0, told, hint))
    office.expect("what is there then", tree(prefix), found)
    office.expect("removed", office.install("--remove", "new"), (0, [], []))
    office.expect("what is left", prefix.exists(), False)
    office.expect("removed again", office.install("--remove", "new"), (1, [], [f"install: nothing was put below {prefix}"]))


def try_a_home(office):
    """The prefix that is taken where none is named has other programs already, and gets more of them meanwhile."""
    home = office.folder("home")
    prefix = home / ".local"
    for path in ("bin/other", "share/man/man1/other.1"):
        (prefix / path).parent.mkdir(parents=True)
        (prefix / path).write_text("other\n")
    (prefix / "share/zsh").mkdir()
    before = tree(home)
    status, out, err = office.install(HOME=str(home), PATH=f"{prefix}/bin:{os.environ['PATH']}")
    office.expect("a home", (status, out, err), (0, [f"{prefix}/{it}" for it in PUT], []))
    late = prefix / "lib/systemd/system/other.service"
    late.write_text("other\n")
    office.expect("removed from a home", office.install("--remove", HOME=str(home)), (0, [], []))
    kept = {".local/lib": None, ".local/lib/systemd": None, ".local/lib/systemd/system": None, f".local/{late.relative_to(prefix)}": (b"other\n", False)}
    office.expect("what is left in a home", tree(home), dict(sorted({**before, **kept}.items())))


def try_refusals(office):
    prefix = office.folder("taken")
    (prefix / "share/man/man1").mkdir(parents=True)
    (prefix / MANUAL).write_text("other\n")
    before = tree(prefix)
    why = f"install: {prefix}/{MANUAL} is there already, and was not put there by this script"
    office.expect("a file of others", office.install("taken"), (1, [], [why]))
    office.expect("what is left of it", tree(prefix), before)
    (office.room / "file").write_text("no folder\n")
    status, out, _ = office.install("file")
    office.expect("a prefix that is no folder", (status, out, (office.room / "file").read_text()), (1, [], "no folder\n"))
    office.expect("no parent", office.install("no/where"), (1, [], [f"install: there is no folder {office.room}/no"]))
    for words in (("--new",), ("a", "b"), ("--remove", "a", "b")):
        office.expect(f"the words {words}", office.install(*words), (2, [], ["install: usage: ./install [--remove] [PREFIX]"]))
    office.expect("nothing more", sorted(os.listdir(office.room)), ["empty", "file", "home", "shell", "taken"])


def main():
    if not build():
        print("0 passed, 1 failed")
        return 1
    with tempfile.TemporaryDirectory() as room:
        office = Office(Path(room).resolve())
        folder = office.folder("shell")
        (folder / "folder").mkdir()
        (folder / "book.db").write_text("")
        try_names(office)
        try_members(office)
        try_the_page_of_refusals(office)
        wanted_zones = try_zones(office)
        try_bash(office, folder, wanted_zones)
        try_zsh(office, folder)
        try_a_new_prefix(office)
        try_a_home(office)
        try_refusals(office)
    print(f"{office.passed} passed, {office.failed} failed")
    return 1 if office.failed else 0


sys.exit(main())
