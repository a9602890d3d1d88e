"""Calls for memory that are refused, one a run, for the scripts allocations.py and allocation_tests.py beside this one.

    if has_compiler(): ..                       a C compiler is on the PATH
    with folder("refused-") as room: ..         a folder for the time being, in memory where the machine has such folders
    memory = Memory.built(room)                 the library of allocations/refuse.c, which refuses them, in this folder
    memory.count(run)                           how many calls a run makes: `run(env=.., pass_fds=..)` starts it with these
    memory.refuse(run, 7)                       what the run gives whose seventh call is refused, and which function that called
    memory.refuse(run, 9_000)                   the same, and an empty text where the run makes fewer calls
"""

import os
import shutil
import subprocess
import tempfile
from dataclasses import dataclass
from pathlib import Path

LIBRARY = Path(__file__).resolve().parent / "allocations" / "refuse.c"
IN_MEMORY = Path("/dev/shm")


def has_compiler():
    return shutil.which("cc") is not None


def folder(prefix):
    """A new folder. What is tried in it syncs its files again and again, and no disk has a part in that."""
    return tempfile.TemporaryDirectory(prefix=prefix, dir=IN_MEMORY if IN_MEMORY.is_dir() else None)


@dataclass(frozen=True)
class Memory:
    library: Path

    @classmethod
    def built(cls, room):
        library = Path(room) / "refuse.so"
        subprocess.run(["cc", "-O2", "-shared", "-fPIC", "-o", library, LIBRARY], check=True)
        return cls(library)

    def refuse(self, run, number):
        """What a run gives whose call for memory of this number is refused, or none where it is 0, and what was noted of it."""
        reader, writer = os.pipe()
        more = {"LD_PRELOAD": str(self.library), "REFUSED_CALL": str(number), "REFUSED_NOTE": str(writer)}
        try:
            ended = run(env={**os.environ, **more}, pass_fds=(writer,))
        finally:
            os.close(writer)
        with open(reader) as note:
            return ended, note.read().strip()

    def count(self, run):
        """How many calls a run makes."""
        _, count = self.refuse(run, 0)
        return int(count)
