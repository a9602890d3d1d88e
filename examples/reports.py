"""The reports of a book for the scripts beside this one, as values: of its file by `rosterbook`, or of a server of it by HTTP.

    source = source_of(asked)           of a command line that `add_source` has read
    source.roster("C1")                 the member C1, and the duties of C1
    source.pairing("B101")              who flies B101, and its periods
    source.exceedances()                all exceedances
    source.members()                    the members, and the bases

Each is what the report's JSON is read as, by the members that docs/FORMATS.md has under Reports as JSON; below are the few things that
more than one script makes of them. If the program or the server refuses a report, the script ends with status 1, and its line is on
standard error.
"""

import http.client
import json
import shutil
import subprocess
import sys
import urllib.error
import urllib.parse
import urllib.request
from dataclasses import dataclass
from datetime import datetime, timezone
from pathlib import Path

BESIDE = Path(__file__).resolve().parent.parent / "rosterbook"  # of a folder with the sources
PATIENCE = 60  # seconds that a server is waited for
PATHS = {"roster": "crew/", "pairing": "pairings/", "exceedances": "exceedances", "members": "reports/members"}  # of a server


def stop(why, status=1):
    """Ends the script with a line on standard error."""
    print(f"{Path(sys.argv[0]).name}: {why}", file=sys.stderr)
    sys.exit(status)


def needs(package, debian):
    """Ends the script because a package is missing."""
    stop(f"it needs the package {package} (Debian: {debian})", 2)


# ---- What is made of reports.


def instant(text):
    return datetime.strptime(text, "%Y-%m-%dT%H:%MZ").replace(tzinfo=timezone.utc)


def in_order(duties):
    """The duties in the order of time: instants sort as texts do."""
    return sorted(duties, key=lambda duty: (duty["begin"], duty["end"]))


def span(duty):
    """When a duty begins and ends; a period ends with its release."""
    return instant(duty["begin"]), instant(duty["end"])


def name(duty):
    """What an exceedance calls a duty, or calls its duty."""
    match duty["kind"]:
        case "pairing":
            return f"{duty['pairing']}/{duty['period']}"
        case "ground":
            return duty["ground"]
        case "outside":
            return f"outside {duty['outside']}"


def key(duty):
    """The kind and the ids of a duty: no other duty of its member has them."""
    number = [duty["period"]] if duty["kind"] == "pairing" else []
    return ".".join(map(str, [duty["kind"], duty[duty["kind"]], *number]))


def standing(duty):
    """How a duty stands: `plan`, `actual`, `ground` or `outside`."""
    if duty["kind"] == "pairing":
        return "actual" if duty["actual"] else "plan"
    return duty["kind"]


# ---- Where they come from.


class Source:
    """A book that is asked for its reports."""

    def roster(self, crew):
        return json.loads(self.text("roster", crew))

    def pairing(self, pairing):
        return json.loads(self.text("pairing", pairing))

    def exceedances(self):
        return json.loads(self.text("exceedances"))["exceedances"]

    def members(self):
        return json.loads(self.text("members"))


@dataclass(frozen=True)
class File(Source):
    """A book's file, which the program reads."""

    path: str
    program: str

    def text(self, report, *ids):
        """What the program prints; it reports a refusal itself."""
        try:
            ran = subprocess.run([self.program, report, "--json", "--", self.path, *ids], stdout=subprocess.PIPE)
        except OSError as fault:
            stop(f"{self.program}: {fault.strerror}; --program names the program of the roster book")
        if ran.returncode != 0:
            sys.exit(1)
        return ran.stdout


@dataclass(frozen=True)
class Server(Source):
    """The address of a server, which listens on this machine, or a way to it."""

    address: str

    def text(self, report, *ids):
        """What the server answers; of a refusal its line is what the program would print."""
        path = PATHS[report] + "".join(urllib.parse.quote(it, safe="") for it in ids)
        address = f"{self.address.rstrip('/')}/json/{path}"
        direct = urllib.request.build_opener(urllib.request.ProxyHandler({}))
        try:
            with direct.open(address, timeout=PATIENCE) as response:
                return response.read()
        except urllib.error.HTTPError as fault:
            line = refusal_line(fault.read())
            if not line:
                stop(f"{address}: {fault}")
            print(line, file=sys.stderr)
            sys.exit(1)
        except (OSError, http.client.HTTPException) as fault:
            stop(f"{address}: {getattr(fault, 'reason', fault)}")


def refusal_line(text):
    """The line of a refusal that came as JSON, or nothing of another text."""
    try:
        answer = json.loads(text)
        return f"refused {answer['refusal']} {answer['name']}"
    except (ValueError, KeyError, TypeError):
        return ""


# ---- The command line.


def add_source(parser):
    """Adds what a command line says of the book."""
    parser.add_argument("source", metavar="SOURCE", help="a book's file, or the address of its server, as http://127.0.0.1:8117")
    parser.add_argument(
        "--program",
        metavar="PATH",
        default=shutil.which("rosterbook") or str(BESIDE),
        help="the program that reads a file; without it `rosterbook` of the PATH, or else `./rosterbook` beside the folder of this script",
    )


def source_of(asked):
    is_address = asked.source.startswith(("http://", "https://"))
    return Server(asked.source) if is_address else File(asked.source, asked.program)
