"""Counts what holds, for the scripts beside this one that read the sources and the pages.

    desk = Desk()
    desk.expect(name in found, f"no function {name}")      counts it, and reports on standard error what isn't so
    desk.end()                                             prints 'N passed, M failed', and ends with 1 where M isn't 0
"""

import sys
from pathlib import Path


class Desk:
    def __init__(self):
        self.passed = 0
        self.failed = 0

    def expect(self, holds, otherwise):
        if holds:
            self.passed += 1
        else:
            self.failed += 1
            print(f"tests/{Path(sys.argv[0]).name}: {otherwise}", file=sys.stderr)

    def end(self):
        print(f"{self.passed} passed, {self.failed} failed")
        sys.exit(1 if self.failed else 0)
