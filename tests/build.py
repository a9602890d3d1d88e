#!/usr/bin/env python3
"""Runs ./rosterbook where the program isn't built yet, with a stand-in for the kit's `rt`, and looks at what is printed and left.

    tests/build.py

Nothing is proved: `rt` here makes each crate's folder out/ and says the lines of `rt ci`, and its program is a script. It notes which
crates are done, as the kit keeps what it proved. What differs is printed on standard error. The last line is 'N passed, M failed', and the
exit status 1 where M isn't 0.
"""

import contextlib
import os
import pty
import re
import select
import shutil
import signal
import subprocess
import sys
import tempfile
import time
from dataclasses import dataclass
from pathlib import Path

TOP = Path(__file__).resolve().parent.parent
PROGRAM = "crates/rosterbook_main/out/rosterbook_main"
FILES = ("build", "rosterbook", "crates.txt", "HANDLES", "docs/ARCHITECTURE.md")
TOOLS = ("awk", "bash", "dirname", "env", "find", "readlink")  # what ./rosterbook calls

ASIDE = ("book_tests", "call_tests", "failing_channel")  # the crates on which the program doesn't stand

# The folder `done` beside its own has a file for each crate that is done. The files there are `pause`, how many seconds a crate takes,
# `wrong`, a crate that isn't proved, `elsewhere`, one that another run proves, and `meanwhile`, what is run before the last line.
RT = """\
#!/usr/bin/env bash
here=${0%/*}/..
[ "$*" = ci ] || { echo "rt: called with $*"; exit 2; }
find . -type f >"$here/seen"
for name in $(sed -nE 's/^(\\w+):.*/\\1/p' crates.txt); do
    mkdir "crates/$name/out"
    [ "$name" != rosterbook_main ] || { printf '#!/bin/sh\\necho ran "$@"\\n' >"crates/$name/out/$name" && chmod +x "crates/$name/out/$name"; }
    if [ -e "$here/done/$name" ]; then
        echo "rt: $name is kept: an earlier run on this machine proved the same files over the same libraries"
        continue
    fi
    [ "$name" != "$(cat "$here/elsewhere")" ] || echo "rt: $name: another run on this machine is proving the same; waiting for it"
    sleep "$(cat "$here/pause")" || exit 2
    echo "== $name"
    echo "fn $name::first: proved"
    if [ "$name" = "$(cat "$here/wrong")" ]; then
        echo "crates/$name/src/lib.rt:1:1: error: no proof"
        echo "rt: $name NOT PROVED"
        echo '0 passed, 1 failed'
        exit 1
    fi
    echo "rt: $name proved"
    touch "$here/done/$name"
done
. "$here/meanwhile"
echo "rt: duty: its tests are proved"
echo '24 passed, 0 failed'
"""


def below_the_program():
    """The crates that ./rosterbook has built, by crates.txt: all but those on which it doesn't stand."""
    names = re.findall(r"^(\w+):", (TOP / "crates.txt").read_text(), re.M)
    return [it for it in names if it not in ASIDE]


def crate_line(number, count, name, took, left):
    """The pattern of the line of a crate."""
    return rf"rosterbook: {number:{len(str(count))}} of {count}  {name} +{took}  \d+ min so far{', about [1-9][0-9]* min left' if left else ''}"


def on_screen(text):
    """The lines that stand on a terminal in the end."""
    lines = [line.rpartition("\r\x1b[K")[2] for line in text.split("\r\n")]
    return lines if lines[-1] else lines[:-1]


@dataclass
class Machine:
    """A checkout that nothing is built in, and the stand-in for the kit."""

    room: Path
    passed: int = 0
    failed: int = 0

    def expect(self, what, got, wanted):
        self.passed += got == wanted
        self.failed += got != wanted
        if got != wanted:
            print(f"tests/build.py: {what}\n  wanted: {wanted}\n  got:    {got}", file=sys.stderr)

    def matches(self, what, lines, patterns):
        well = len(lines) == len(patterns) and all(re.fullmatch(*pair) for pair in zip(patterns, lines))
        self.expect(f"{what}: {lines} as {patterns}", well, True)

    @property
    def top(self):
        return self.room / "checkout"

    def make(self):
        for name in FILES:
            (self.top / name).parent.mkdir(parents=True, exist_ok=True)
            shutil.copy(TOP / name, self.top / name)
        for name in (*below_the_program(), *ASIDE):
            for file in ("src/lib.rt", "must-fail/wrong.edit", "must-fail-more/wrong.edit"):
                (self.top / "crates" / name / file).parent.mkdir(parents=True)
                (self.top / "crates" / name / file).write_text("\n")
        for folder in ("bin", "done", "tmp", "tools"):
            (self.room / folder).mkdir()
        for tool in TOOLS:
            (self.room / "tools" / tool).symlink_to(shutil.which(tool))
        (self.room / "tools" / "python3").symlink_to(sys.executable)
        (self.room / "bin" / "rt").write_text(RT)
        (self.room / "bin" / "rt").chmod(0o755)
        self.set(pause="0.02", wrong="", elsewhere="", meanwhile="")

    def set(self, **texts):
        for name, text in texts.items():
            (self.room / name).write_text(text)

    def words(self, folder="bin"):
        """What runs ./rosterbook with the PATH that begins with this folder, with this folder for temporary files; Ctrl-C isn't ignored."""
        path = f"{self.room / folder}:{os.environ['PATH']}" if folder == "bin" else str(self.room / folder)
        return ["env", "--default-signal=INT", f"PATH={path}", f"TMPDIR={self.room}/tmp", "TERM=xterm", "RT_JOBS=2", str(self.top / "rosterbook"), "one", "two"]

    def ran(self, what, status, out, folder="bin"):
        """Runs ./rosterbook on pipes, and returns the lines of its standard error."""
        ran = subprocess.run(self.words(folder), capture_output=True, text=True, stdin=subprocess.DEVNULL)
        self.expect(f"{what}: how it ends", (ran.returncode, ran.stdout), (status, out))
        self.expect(f"{what}: what is left", os.listdir(self.room / "tmp"), [])
        self.expect(f"{what}: plain lines", [it for it in ran.stderr if it < " " and it != "\n"], [])
        return ran.stderr.splitlines()

    def typed(self, until=None):
        """Runs it on a terminal, with Ctrl-C once the text shows this, and returns how it ended and the text."""
        child, terminal = pty.fork()
        if not child:
            words = self.words()
            os.execvp(words[0], words)
        shown, has_typed, end = b"", until is None, time.monotonic() + 60
        while time.monotonic() < end:
            try:
                shown += os.read(terminal, 65_536) if select.select([terminal], [], [], 1)[0] else b""
            except OSError:
                break
            if not has_typed and until in shown:
                os.write(terminal, b"\x03")
                has_typed = True
        os.close(terminal)
        status = os.waitpid(child, 0)[1]
        return (signal.Signals(os.WTERMSIG(status)).name if os.WIFSIGNALED(status) else os.WEXITSTATUS(status)), shown.decode()

    def killed(self):
        """Has a signal end ./build alone, once a crate is done, and returns how it ended."""
        words = [str(self.top / "build") if it.endswith("rosterbook") else it for it in self.words()[:-2]]
        with subprocess.Popen(words, stderr=subprocess.PIPE, text=True, stdin=subprocess.DEVNULL) as child:
            while "1 of" not in child.stderr.readline():
                pass
            child.terminate()
        return child.returncode

    def processes(self):
        """The processes of the stand-in that still run."""
        name, found = str(self.room / "bin" / "rt").encode(), []
        for it in Path("/proc").glob("[0-9]*/cmdline"):
            with contextlib.suppress(OSError):
                found += [it] * (name in it.read_bytes())
        return found

    def built(self, what, lines, kept=0):
        """Compares the lines of a build, of whose crates this many are kept."""
        names = below_the_program()
        count = len(names)
        begin = rf"rosterbook: proving and building the program, {count} crates: about \d+ min the first time \(README, Build, has a first look\)"
        tooks = ["kept"] * kept + [r"\d+ s"] * (count - kept)
        told = [crate_line(at, count, name, took, at < count) for at, (name, took) in enumerate(zip(names, tooks), 1)]
        self.matches(what, lines, [begin, *told])


def try_all(machine):
    table = dict(re.findall(r"^\| `(\w+)` \|.*\| (\d+) \|$", (TOP / "docs/ARCHITECTURE.md").read_text(), re.M))
    machine.expect("the crates of the table of seconds", sorted(table), sorted(below_the_program()))

    machine.set(wrong="roster", elsewhere="command")
    lines = machine.ran("a crate that isn't proved", 3, "")
    shared = "rosterbook: command: another run on this machine is proving the same; waiting for it"
    machine.expect("what is printed of a crate that another run proves", lines.count(shared), 1)
    told = ["== roster", "fn roster::first: proved", "crates/roster/src/lib.rt:1:1: error: no proof", "rt: roster NOT PROVED"]
    machine.expect("what is printed of it", lines[-5:], [*told, "rosterbook: the program could not be built"])
    machine.expect("no program", (machine.top / PROGRAM).exists(), False)

    machine.set(wrong="", elsewhere="")
    done = len(os.listdir(machine.room / "done"))
    machine.built("a build that goes on", machine.ran("a build that goes on", 0, "ran one two\n"), done)
    seen = (machine.room / "seen").read_text()
    machine.expect("wrong bodies in the copy", [it for it in ("must-fail", *ASIDE, "/out/") if it in seen], [])
    machine.expect("sources in the copy", seen.count("/src/lib.rt\n"), len(below_the_program()))

    machine.expect("a program that is built", machine.ran("a program that is built", 0, "ran one two\n"), [])
    os.utime(machine.top / "crates/book_tests/src/lib.rt", (time.time() + 9, time.time() + 9))
    machine.expect("a test that is newer", machine.ran("a test that is newer", 0, "ran one two\n"), [])
    for name in ("values", "web"):
        # (in a second from now the program is older than this)
        os.utime(machine.top / "crates" / name / "src/lib.rt")
        machine.built(f"{name} that is newer", machine.ran(f"{name} that is newer", 0, "ran one two\n"), len(below_the_program()))

    edited = machine.top / "crates/duty/src/lib.rt"
    os.utime(edited)
    machine.set(meanwhile=f"touch {edited}")
    for turn in ("a build while a source is edited", "the build after it"):
        machine.built(turn, machine.ran(turn, 0, "ran one two\n"), len(below_the_program()))
        machine.set(meanwhile="")
    machine.expect("after both", machine.ran("after both", 0, "ran one two\n"), [])

    (machine.top / PROGRAM).unlink()
    shutil.rmtree(machine.room / "done")
    (machine.room / "done").mkdir()
    machine.set(pause="0.2")
    machine.expect("how a signal ends it", machine.killed(), -signal.SIGTERM)
    machine.expect("what a signal leaves", (os.listdir(machine.room / "tmp"), machine.processes()), ([], []))
    how, shown = machine.typed(until=b"proving limits")
    machine.expect("how Ctrl-C ends it", how, "SIGINT")
    machine.expect("the last line after Ctrl-C", on_screen(shown)[-1], "rosterbook: stopped; the next call goes on from here, if the kit can keep what it proves")
    machine.expect("what Ctrl-C leaves", os.listdir(machine.room / "tmp"), [])
    machine.expect("no program after Ctrl-C", (machine.top / PROGRAM).exists(), False)
    machine.expect("processes after Ctrl-C", machine.processes(), [])

    done = len(os.listdir(machine.room / "done"))
    machine.expect("what was done before Ctrl-C", 0 < done < len(below_the_program()), True)
    machine.set(pause="0.02")
    how, shown = machine.typed()
    machine.expect("how a build on a terminal ends", how, 0)
    lines = on_screen(shown)
    machine.built("the lines on a terminal", lines[:-1], done)
    machine.expect("the last line on a terminal", lines[-1], "ran one two")
    machine.expect("the line about the time", bool(re.search(r"\r\x1b\[Krosterbook: 0 min so far, about \d+ min left; proving \w+", shown)), True)

    (machine.top / PROGRAM).unlink()
    lines = machine.ran("without the kit", 3, "", folder="tools")
    machine.expect("what is printed without the kit", lines, ["rosterbook: to build the program, put the command rt of the Rattle kit on the PATH"])
    shutil.rmtree(machine.top / "crates/rosterbook_main/out")
    (machine.top / "crates/rosterbook_main/out").write_text("no folder")
    lines = machine.ran("no folder for the program", 3, "")
    machine.matches("what is printed of it", lines, ["rosterbook: the program could not be built: .*/crates/rosterbook_main/out'"])


with tempfile.TemporaryDirectory() as room:
    machine = Machine(Path(room))
    machine.make()
    try_all(machine)
print(f"{machine.passed} passed, {machine.failed} failed")
sys.exit(machine.failed > 0)
