"""The command lines that tools/bad-input gives pick_versions, good ones and bad ones, and what comes of each.

Each is given in a folder with the files below. `a` is standard input, if no other file is named for it.
"""
import re
import shutil
import subprocess
from dataclasses import dataclass

from bad_runs import ANYTHING, LIMIT, PANICS, Run, unlike


def holes(places):
    """One guest more than places. A version of a guest is a place, and needs its own version of that place."""
    guests = range(1, places + 2)
    yield "request" + "".join(f" needs guest{guest} 1..{places + 1}" for guest in guests)
    for guest in guests:
        for place in range(1, places + 1):
            yield f"guest{guest} {place} needs place{place} {guest}..{guest + 1}"
            yield f"place{place} {guest}"


FILES = {
    "a": ["request needs a 1..2", "a 1"],
    "b": ["request needs b 1..2", "b 1"],
    "--why": ["request needs c 1..2", "c 1"],
    "none": ["request needs app 1..9 needs libssl 1..2", "app 1 needs openssl 5..6", "openssl 1", "openssl 2"],
    "many": ["request" + "".join(f" needs a{number} 1..2" for number in range(25))],
    "hard": list(holes(6)),
    "line": ["request needs app 1..9", "web 1", "web 2", "app 1 needs b 1..2 | needs c 1..2", "web 1"],
    "first": ["app 1", "request"],
}
A, B = "request:\na 1\n", "request:\nb 1\n"
WHY_A, WHY_B = "request:\na 1: request needs a 1..2\n", "request:\nb 1: request needs b 1..2\n"
GAVE_UP = "request:\ngave up: too many steps\n"
NONE = "request:\nnone\nrequest needs libssl 1..2, and there is none\n"
WHY_NONE = "request:\nnone\nrequest needs libssl 1..2, but there is no package libssl\n"
NOTES = ["no line has the package libssl", "openssl 5..6 holds no version; openssl has 1, 2"]
GRAPH = 'digraph reasons {\n  node [shape=box];\n  n0 [label="request needs libssl 1..2, but there is no package libssl'
CERTIFICATE = "c certificate 1 "
HELP = r"(?s:Picks versions.*--steps <N>.*--why.*--json.*--dot <OUTPUT>.*--certificate <OUTPUT>.*--help.*--version.*)"
CONFLICT = r"error: the argument '--(why|json)' cannot be used with '--(why|json)'\n"
MANY = "many:1: note"
LINE = "4:22: expected a package's name\n"
FIRST = "first:1:1: expected a request line before all others\n"


def exactly(text):
    return re.escape(text)


def picked_object(name, package):
    return (
        f'{{"best_up_to":1,"input":"{name}","line":1,"notes":[],"picked":[{{"name":"{package}","version":"1"}}],'
        '"status":"picked","wishes":1}\n'
    )


def none_object(name):
    """The object of `none`, up to its reasons."""
    notes = ",".join(f'"{note}"' for note in NOTES)
    return f'{{"input":"{name}","line":1,"notes":[{notes}],"reasons":[{{"if":null,"kind":"lacks","needs":'


def noted(name):
    return exactly("".join(f"{name}:1: note: {note}\n" for note in NOTES))


@dataclass(frozen=True)
class Line:
    """A command line: its words, what it is to say, and the file that it is to write, by the beginning of that."""

    words: str
    status: int
    out: str
    err: str = ""
    given: str = "a"
    wrote: tuple = ()

    @property
    def name(self):
        return f"pick_versions {self.words}".rstrip() + f" < {self.given}" * (self.given != "a")


def refused(words, why):
    """A command line that is wrong, and the line that says so."""
    return Line(words, 4, "", exactly(f"error: {why}\n"))


LINES = [
    Line("", 0, exactly(A)),
    Line("a b", 0, exactly(f"{A}\n{B}")),
    Line("--steps 7 hard a", 2, exactly(f"{GAVE_UP}\n{A}")),
    Line("a --steps=7 hard", 2, exactly(f"{A}\n{GAVE_UP}")),
    Line("hard", 1, exactly("request:\nnone\n") + ANYTHING),
    Line("-- --why", 0, exactly("request:\nc 1\n")),
    Line("--why", 0, exactly(WHY_A)),
    Line("--why a b", 0, exactly(f"{WHY_A}\n{WHY_B}")),
    Line("none", 1, exactly(NONE), noted("none")),
    Line("", 1, exactly(NONE), noted("standard input"), given="none"),
    Line("--why none", 1, exactly(WHY_NONE), noted("none")),
    Line("--dot b none", 1, exactly(NONE), noted("none"), wrote=("b", GRAPH)),
    Line("--dot b a", 0, exactly(A), wrote=("b", "")),
    Line("--why --dot=b none", 1, exactly(WHY_NONE), noted("none"), wrote=("b", GRAPH)),
    Line("--json", 0, exactly(picked_object("standard input", "a"))),
    Line("--json a b", 0, exactly(picked_object("a", "a") + picked_object("b", "b"))),
    Line("--json none", 1, exactly(none_object("none")) + r".*\n"),
    Line("--json --dot b none a", 1, exactly(none_object("none")) + r".*\n.*\n", wrote=("b", GRAPH)),
    Line("--json line", 3, r'\{"input":"line",.*"unreadable":\{"column":22,"line":4,"said":".*"\}\}\n'),
    Line("--certificate b none", 1, exactly(NONE), noted("none"), wrote=("b", CERTIFICATE)),
    Line("--certificate b a", 0, exactly(A), wrote=("b", "")),
    Line("many", 1, ANYTHING, rf"({MANY}: no line has the package a\d+\n){{20}}{MANY}: and 5 more version sets\n"),
    Line("line", 3, exactly("line 4 unreadable\n"), exactly(f"line:{LINE}")),
    Line("", 3, exactly("line 4 unreadable\n"), exactly(f"standard input:{LINE}"), given="line"),
    Line("first", 3, exactly("line 1 unreadable\n\nrequest:\n"), exactly(FIRST)),
    Line("--help", 0, HELP),
    Line("-h", 0, HELP),
    Line("--version", 0, r"pick_versions \d+\.\d+\.\d+\n"),
    refused("--step 7", "unexpected argument '--step' found"),
    refused("--steps", "a value is required for '--steps <N>' but none was supplied"),
    refused("--steps x", "invalid value 'x' for '--steps <N>': invalid digit found in string"),
    refused("--steps 1 --steps 2", "the argument '--steps <N>' cannot be used multiple times"),
    refused("--why=1", "unexpected value '1' for '--why' found; no more were expected"),
    Line("--json --why", 4, "", CONFLICT),
    refused("--certificate a b none", "--certificate takes one FILE at most"),
    refused("--dot", "a value is required for '--dot <OUTPUT>' but none was supplied"),
    refused("--dot a --dot b", "the argument '--dot <OUTPUT>' cannot be used multiple times"),
]


def line_run(program, line, room):
    """Gives the program a command line, and says what isn't as it is to be."""
    place = room / "lines"
    place.mkdir()
    for name, lines in FILES.items():
        (place / name).write_text("".join(f"{text}\n" for text in lines))
    with open(place / line.given, "rb") as given:
        run = subprocess.run([program.path, *line.words.split()], cwd=place, stdin=given, capture_output=True, timeout=LIMIT)
    found = Run(program.name, line.name, run.returncode, 0.0, 0.0, 0, run.stdout, run.stderr)
    if run.returncode != line.status:
        found.faults.append(f"status {line.status} is documented")
    found.faults += unlike("standard output", run.stdout, line.out) + unlike("standard error", run.stderr, line.err)
    if PANICS.search(run.stdout + run.stderr):
        found.faults.append("a panic is told")
    for name, text in [line.wrote] if line.wrote else []:
        wrote = (place / name).read_text()
        if not wrote.startswith(text) or not text and wrote:
            found.faults.append(f"the file {name} is {wrote[:80]!r}")
    shutil.rmtree(place)
    return found
