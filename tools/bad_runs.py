"""How tools/bad-input runs a program, and what each program is documented to say."""
import os
import re
import resource
import subprocess
from dataclasses import dataclass, field

COLUMNS = "{:<19} {:<43} {:>6} {:>7} {:>6} {:>5}  {}"
HEADS = ("program", "input", "status", "s", "cat, s", "MB", "said")
# What a program has: seconds more than `cat`, seconds in all, and bytes of memory.
SLACK, LIMIT, MEMORY = 2, 60, 4 << 30
NOBODY = 65534
# What follows a panic, an abort or an exception that nobody caught.
PANICS = re.compile(rb"panicked|Traceback|RUST_BACKTRACE|core dumped|Assertion|AddressSanitizer")
LINE = r"[ -~]+\n"
ANYTHING = r"(?s:.*)"
NONE = r"request:\nnone\nrequest needs a (?s:.*)"
VERSIONS = r"request:\n(?s:.*)"


def indexes(status_of_no_index, says_no_index, unwritten):
    """What a program that reads indexes says: of each outcome the status, standard output and standard error."""
    return {
        "answer": (0, "request:\na 2\nb 1\n", ""),
        "a 1": (0, "request:\na 1\n", ""),
        "no version": (0, "request:\n", ""),
        "versions": (0, VERSIONS, ""),
        "indexes": (0, VERSIONS, ""),
        "none": (1, NONE, ""),
        "nothing": (status_of_no_index, says_no_index, ""),
        "line": (3, "line {} unreadable\n", ""),
        "unread": (4, "", LINE),
        "no text": (4, "", LINE),
        "unwritten": unwritten,
    }


SCRIPTS = {
    "answer": (0, "loaded 1,2\n", ""),
    "nothing": (0, "", ""),
    "nothing or memory": ((0, 3), "", ""),
    "refused or memory": ((0, 3), "(refused 8\n)?", ""),
    "line": (1, "line {} unreadable\n", ""),
    "unread": (2, "", ""),
    "unwritten": (2, "", ""),
}
MORE_ROOM = r"(\d+ bytes are needed\n)?"
PICK = indexes(3, "line 1 unreadable\n", (4, ANYTHING, LINE))
PICK |= {"versions": (0, VERSIONS, MORE_ROOM), "none": (1, NONE, MORE_ROOM), "no text": PICK["answer"]}
# What it says of a line and of sets without a version is in docs/INDEX.md.
PICK_VERSIONS = indexes(0, "", (4, ANYTHING, LINE))
PICK_VERSIONS |= {
    "line": (3, "line {} unreadable\n", r"standard input:{}:\d+: [ -~]+\n"),
    "none": (1, NONE, r"(standard input:1: note: [ -~]+\n)*"),
}
# With --json it says nothing of an index on standard error.
JSON = indexes(0, "", (4, ANYTHING, LINE))
JSON |= {word: (0, r'\{"best_up_to":(?s:.*)', "") for word in ("a 1", "no version", "versions", "indexes")}
JSON |= {
    "answer": (0, r'\{.*"picked":\[\{"name":"a","version":"2"\},\{"name":"b","version":"1"\}\],.*"wishes":1\}\n', ""),
    "none": (1, r'\{"input":.*"reasons":\[\{"if":null,"kind":(?s:.*)', ""),
    "line": (3, r'\{.*"status":"unreadable","unreadable":\{"column":\d+,"line":{},"said":"(?s:.*)"\}\}\n', ""),
}
# No graph can be written.
FULL = PICK_VERSIONS | {"none": (4, NONE, PICK_VERSIONS["none"][2] + r'"/dev/full": [ -~]+\n')}
# It takes one index.
PICK |= {"indexes": (3, "line 3 unreadable\n", "")}
# It tries the first megabyte of any input, and takes as many searches as the answer has bytes.
ROOMS = {"any": (0, r"\d+ buffers: as picking.h says\n", "")}


def error(message):
    return rf"Error: apt_solver\nMessage: {message}\n\n"


INSTALL = r"Install: \d+\nPackage: [a-z0-9]+\nVersion: \d+\nArchitecture: amd64\n\n"
# What it says of a scenario is in docs/APT.md.
SOLVER = {
    "cut": (0, error("not answered: the scenario doesn't end with an empty line"), ""),
    "request": (0, error("not answered: the request of the scenario: .*"), ""),
    "package": (0, error(r"not answered: package \d+ of the scenario: .*"), ""),
    "no solution": (0, error(r"there is no solution(\n .*)*"), ""),
    "a": (0, INSTALL, ""),
    "a b": (0, f"({INSTALL}){{2}}", ""),
    "many": (0, f"({INSTALL})+{ANYTHING}", ""),
    "a long error": (0, rf"Error: apt_solver\nMessage: there is no solution\n requested: {ANYTHING}", ""),
    "unread": (1, "", LINE),
    "unwritten": (1, "", LINE),
}


@dataclass(frozen=True)
class Kind:
    """A program's format, what it says, whether it reads files and standard input, and its flags."""

    format: str
    outcomes: dict
    has_files: bool = False
    has_input: bool = True
    words: tuple = ()  # before the files
    crate: str = ""  # if it isn't the program's name


PROGRAMS = {
    "clause_store": Kind("script", SCRIPTS),
    "clause_store_dialog": Kind("script", SCRIPTS),
    "pick_versions": Kind("index", PICK_VERSIONS, has_files=True),
    "json": Kind("index", JSON, True, words=("--json",), crate="pick_versions"),
    "dot": Kind("index", PICK_VERSIONS, True, words=("--dot", "/dev/null"), crate="pick_versions"),
    "certificate": Kind("index", PICK_VERSIONS, True, words=("--certificate", "/dev/null"), crate="pick_versions"),
    "full": Kind("index", FULL, True, words=("--dot", "/dev/full"), crate="pick_versions"),
    "pick": Kind("index", PICK, has_files=True, has_input=False),
    "rooms": Kind("index", ROOMS),
    "apt_solver": Kind("scenario", SOLVER),
}
FILES = ("directory", "missing", "no name", "unreadable", "failing", "odd", "odd missing", "no text")
STREAMS = ("directory input", "closed input")
ODD = "a 'file' of \"two\"\nlines\n"


@dataclass
class Program:
    """A program that is tried."""

    name: str
    path: str

    @property
    def kind(self):
        return PROGRAMS[self.name]

    def reads(self, case):
        """Whether the input can be given to this program, and its page says what becomes of it."""
        if self.kind.format not in case.formats:
            return False
        if case.way in FILES:
            return self.kind.has_files
        if self.name == "rooms":
            return case.way == "text" and case.output == "file"
        return self.kind.has_input or case.way not in STREAMS

    def wanted(self, case):
        """The statuses, and what standard output and standard error have to be."""
        outcomes, word = self.kind.outcomes, case.outcome[self.kind.format]
        if "any" in outcomes:
            word = "any"
        head, _, number = word.partition(" ")
        status, out, err = outcomes[word] if word in outcomes else outcomes[head]
        statuses = status if isinstance(status, tuple) else (status,)
        return statuses, out.replace("{}", number), err.replace("{}", number)


@dataclass
class Run:
    """What became of an input."""

    program: str
    name: str
    status: int
    seconds: float
    floor: float
    peak: int
    out: bytes
    err: bytes
    faults: list = field(default_factory=list)

    def row(self):
        said = (self.err or self.out)[:60].decode("latin-1")
        said = "".join(it if " " <= it <= "~" else repr(it)[1:-1] for it in said)[:60]
        numbers = f"{self.seconds:.2f}", f"{self.floor:.2f}", self.peak >> 10
        return COLUMNS.format(self.program, self.name, self.status, *numbers, said).rstrip()


def run_of(program, case, room, size):
    """Runs the program on an input, and says what isn't as documented."""
    given = room / "input"
    if case.text:
        with open(given, "wb") as file:
            file.writelines(case.text(program.kind.format, size))
    try:
        run = ended(program, case, room, given)
    finally:
        for file in os.listdir(os.fsencode(room)):
            os.unlink(os.path.join(os.fsencode(room), file))
    statuses, out, err = program.wanted(case)
    if run.status < 0:
        run.faults.append(f"ended by signal {-run.status}" + " (the limit of seconds)" * (run.seconds >= LIMIT))
    elif run.status not in statuses:
        run.faults.append(f"status {' or '.join(map(str, statuses))} is documented")
    if run.status >= 0:
        run.faults += unlike("standard output", run.out, out) + unlike("standard error", run.err, err)
    if PANICS.search(run.out + run.err):
        run.faults.append("a panic is told")
    if run.seconds > run.floor + SLACK and program.name != "rooms":
        run.faults.append(f"it takes {run.seconds - run.floor:.1f} seconds more than cat")
    return run


def unlike(name, said, pattern):
    if re.fullmatch(pattern.encode(), said):
        return []
    return [f"{name} is {said[:80]!r}"]


def ended(program, case, room, given):
    """Runs the program as the input says."""
    words, source = [program.path, *program.kind.words], os.devnull
    if case.way in FILES:
        words.append(file_for(case.way, room, given))
    elif case.way == "directory input":
        source = room
    elif case.way == "text" and not program.kind.has_input:
        words.append(given)
    elif case.way == "text":
        source = given
    said, told = room / "said", room / "told"
    sink = opened_output(case.output, said)
    standard, errors = os.open(source, os.O_RDONLY), os.open(told, os.O_WRONLY | os.O_CREAT)
    closed = [0] * (case.way == "closed input") + [1] * (case.output == "closed")
    try:
        used = timed(words, (standard, sink, errors), closed, case.way == "unreadable")
    finally:
        for handle in (sink, standard, errors):
            os.close(handle)
    texts = [beginning(file) for file in (said, told)]
    return Run(program.name, case.name, *used[:2], floor(case, given, source), used[2], *texts)


def file_for(way, room, given):
    """The file that a command line names, which is made if there is one."""
    if way == "directory":
        return room
    if way == "failing":
        return "/proc/self/mem"
    if way in ("odd", "no text"):
        name = os.fsencode(ODD) if way == "odd" else b"no \xff text"
        file = os.path.join(os.fsencode(room), name)
        os.replace(given, file)
        return file
    if way == "unreadable":
        given.write_bytes(b"request\n")
        given.chmod(0)
        return given
    return {"no name": "", "missing": room / "missing", "odd missing": room / ODD}[way]


def opened_output(kind, file):
    """Where standard output goes."""
    if kind == "full":
        return os.open("/dev/full", os.O_WRONLY)
    if kind == "unread":
        reader, writer = os.pipe()
        os.close(reader)
        return writer
    return os.open(file, os.O_WRONLY | os.O_CREAT)


def beginning(file):
    """The first bytes of a file, if it is there."""
    if not file.exists():
        return b""
    with open(file, "rb") as said:
        return said.read(1 << 16)


def timed(words, streams, closed=(), as_nobody=False):
    """The status, the seconds and the peak of a program."""

    def prepare():
        resource.setrlimit(resource.RLIMIT_CPU, (LIMIT, LIMIT))
        resource.setrlimit(resource.RLIMIT_AS, (MEMORY, MEMORY))
        for number in closed:
            os.close(number)

    user = {"user": NOBODY, "group": NOBODY, "extra_groups": []} if as_nobody and os.geteuid() == 0 else {}
    stdin, stdout, stderr = streams
    talk = subprocess.Popen(words, stdin=stdin, stdout=stdout, stderr=stderr, preexec_fn=prepare, **user)
    _, status, used = os.wait4(talk.pid, 0)
    talk.returncode = os.waitstatus_to_exitcode(status)
    return talk.returncode, used.ru_utime + used.ru_stime, used.ru_maxrss


def floor(case, given, source):
    """The seconds that `cat` takes for an input, which reads it as a program does and does nothing else."""
    if case.way != "text":
        return 0.0
    with open(os.devnull, "r+b") as sink, open(given, "rb") as text:
        return timed(["cat"], (text, sink, sink))[1]
